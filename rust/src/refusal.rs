//! Why a call is refused, and where.

use std::error::Error;
use std::fmt;

/// A reason to refuse; the value is document 01's number.
#[derive(Clone, Copy, Debug, PartialEq, Eq, Hash)]
pub enum Fault {
    /// The file is above 65,536 bytes.
    Long = 1,
    /// An unknown or short mark, VX after an element, any line after EN.
    Mark = 2,
    /// A wrong number of fields, wrong spacing, or no byte 10 at the end.
    Shape = 3,
    /// A coordinate holds a comma.
    Comma = 4,
    /// A field is not of the stated form.
    Number = 5,
    /// A coordinate beyond the limits.
    Range = 6,
    /// A count above its limit.
    Many = 7,
    /// A vertex number 0 or above the vertex count.
    Vertex = 8,
    /// A lent table or buffer too short.
    Room = 9,
    /// No EN line, or EN counts that differ from the file's.
    End = 10,
    /// A kind other than 4, 5, 6, 8.
    Kind = 11,
    /// An unused vertex number of an element that is not zero.
    Spare = 12,
    /// A vertex twice in one element.
    Repeat = 13,
    /// Two elements do not fit.
    Join = 14,
}

impl Fault {
    const ALL: [Fault; 14] = [
        Fault::Long,
        Fault::Mark,
        Fault::Shape,
        Fault::Comma,
        Fault::Number,
        Fault::Range,
        Fault::Many,
        Fault::Vertex,
        Fault::Room,
        Fault::End,
        Fault::Kind,
        Fault::Spare,
        Fault::Repeat,
        Fault::Join,
    ];

    /// The fault of a number from 1 to 14.
    fn of_number(number: u64) -> Fault {
        let fault = Fault::ALL
            .into_iter()
            .find(|fault| fault.number() == number);
        fault.expect("the library gives the numbers of the page only")
    }

    /// Document 01's number.
    pub fn number(self) -> u64 {
        self as u64
    }
}

/// A refused call: the fault, its place, and for JOIN the earlier element (else 0).
///
/// The place is the line when reading, otherwise the element or vertex from 1, and 0 where neither is at fault.
#[derive(Clone, Copy, Debug, PartialEq, Eq, Hash)]
pub struct Refusal {
    pub fault: Fault,
    pub place: u64,
    pub second: u64,
}

impl Refusal {
    /// The numbers that follow the first three of an answer, unless these are a refusal.
    pub(crate) fn or_rest<const REST: usize>(answer: &[u64]) -> Answer<[u64; REST]> {
        match *answer {
            [0, _, _, ref rest @ ..] => Ok(rest.try_into().expect("an answer of this length")),
            [number, place, second, ..] => Err(Refusal {
                fault: Fault::of_number(number),
                place,
                second,
            }),
            _ => unreachable!("an answer has three numbers or more"),
        }
    }
}

/// The program's words: `NO number place second`.
impl fmt::Display for Refusal {
    fn fmt(&self, out: &mut fmt::Formatter) -> fmt::Result {
        write!(
            out,
            "NO {} {} {}",
            self.fault.number(),
            self.place,
            self.second
        )
    }
}

impl Error for Refusal {}

/// What a call answers: its own values, or the refusal, which stored nothing.
pub type Answer<T> = Result<T, Refusal>;
