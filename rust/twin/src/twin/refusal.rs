//! The page's refusal numbers and what a refusal carries.

/// Why a call is refused; the value is the page's number, and 0 (DONE) is an accepted answer.
#[derive(Clone, Copy, Debug, PartialEq, Eq, Hash)]
pub enum Fault {
    /// The file is above 65,536 bytes.
    Long = 1,
    /// An unknown or short mark, VX after an element, any line after EN.
    Mark = 2,
    /// A wrong number of fields, wrong spacing, or no byte 10 at the end.
    Shape = 3,
    /// A coordinate field holds a comma.
    Comma = 4,
    /// A field is not of the stated form.
    Number = 5,
    /// A coordinate beyond the limits.
    Range = 6,
    /// A count above its limit.
    Many = 7,
    /// A vertex number 0 or above the vertex count.
    Vertex = 8,
    /// A lent table or buffer too short.
    Room = 9,
    /// No EN line, or EN counts that differ from the file's.
    End = 10,
    /// A kind other than 4, 5, 6, 8.
    Kind = 11,
    /// An unused vertex number of an element not zero.
    Spare = 12,
    /// A vertex twice in one element.
    Repeat = 13,
    /// Two elements do not fit.
    Join = 14,
}

impl Fault {
    /// The page's number.
    pub fn number(self) -> u64 {
        self as u64
    }

    /// This fault at a line, an element, a vertex or a record; 0 where none of them is at fault.
    pub fn at(self, place: usize) -> Refusal {
        Refusal {
            fault: self,
            place,
            second: 0,
        }
    }
}

/// A refused answer: the fault, its place, and for JOIN the other element (else 0).
#[derive(Clone, Copy, Debug, PartialEq, Eq, Hash)]
pub struct Refusal {
    pub fault: Fault,
    pub place: usize,
    pub second: usize,
}

impl Refusal {
    /// Number, place and second number, as the program prints them.
    pub fn numbers(&self) -> [u64; 3] {
        [self.fault.number(), self.place as u64, self.second as u64]
    }
}

/// What a call answers: its own values, or the refusal, whose other numbers are all 0.
pub type Answer<T> = Result<T, Refusal>;
