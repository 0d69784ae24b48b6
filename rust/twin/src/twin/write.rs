//! Writing one record a call into a lent buffer.

use super::judge::{judge_counts, judge_record};
use super::refusal::{Answer, Fault, Refusal};
use super::signs::{Point, is_in_range};
use super::solid::{Record, Tetrahedron, solid_of};
use super::{TETRAHEDRON_LIMIT, VERTEX_LIMIT};

/// Writes a VX line; its length is the answer.
pub fn write_vertex(x: i32, y: i32, z: i32, buffer: &mut [u8]) -> Answer<usize> {
    let point = [x, y, z];
    if !is_in_range(&point) {
        return Err(Fault::Range.at(1));
    }
    Line::vertex(point).store(buffer)
}

/// Writes the line of an element, with the vertex limit for a vertex count.
pub fn write_element(record: &Record, buffer: &mut [u8]) -> Answer<usize> {
    judge_record(record, VERTEX_LIMIT).map_err(|fault| fault.at(1))?;
    Line::element(record).store(buffer)
}

/// Writes the EN line, which may count the tetrahedra of a cut.
pub fn write_end(vertices: usize, elements: usize, buffer: &mut [u8]) -> Answer<usize> {
    judge_counts(vertices, elements, TETRAHEDRON_LIMIT)?;
    Line::end(vertices, elements).store(buffer)
}

/// Writes the program's line for a refusal: `NO number place second`.
pub fn write_refusal(refusal: &Refusal, buffer: &mut [u8]) -> Answer<usize> {
    let mut line = Line::new(*b"NO");
    for number in refusal.numbers() {
        line.number(number);
    }
    line.closed().store(buffer)
}

/// A line in the making; the longest is a refusal with two numbers of 20 digits.
pub struct Line {
    bytes: [u8; 48],
    length: usize,
}

impl Line {
    fn new(mark: [u8; 2]) -> Line {
        let mut bytes = [0; 48];
        bytes[..2].copy_from_slice(&mark);
        Line { bytes, length: 2 }
    }

    pub fn vertex(point: Point) -> Line {
        let mut line = Line::new(*b"VX");
        for coordinate in point {
            line.coordinate(coordinate);
        }
        line.closed()
    }

    pub fn element(record: &Record) -> Line {
        let solid = solid_of(record);
        let mut line = Line::new(solid.mark());
        for &vertex in &record[1..=solid.corner_count()] {
            line.number(vertex.into());
        }
        line.closed()
    }

    pub fn tetrahedron(tetrahedron: &Tetrahedron) -> Line {
        let mut line = Line::new(*b"TE");
        for &vertex in tetrahedron {
            line.number(vertex.into());
        }
        line.closed()
    }

    pub fn end(vertices: usize, elements: usize) -> Line {
        let mut line = Line::new(*b"EN");
        line.number(vertices as u64);
        line.number(elements as u64);
        line.closed()
    }

    pub fn bytes(&self) -> &[u8] {
        &self.bytes[..self.length]
    }

    /// Leaves the line in a lent buffer, if it has room.
    fn store(&self, buffer: &mut [u8]) -> Answer<usize> {
        match buffer.get_mut(..self.length) {
            None => Err(Fault::Room.at(0)),
            Some(part) => {
                part.copy_from_slice(self.bytes());
                Ok(self.length)
            }
        }
    }

    fn closed(mut self) -> Line {
        self.push(b'\n');
        self
    }

    fn push(&mut self, byte: u8) {
        self.bytes[self.length] = byte;
        self.length += 1;
    }

    /// A space, then a number.
    fn number(&mut self, value: u64) {
        self.push(b' ');
        self.digits(value, 1);
    }

    /// A space, then thousandths as millimetres with three decimals and no minus on zero.
    fn coordinate(&mut self, thousandths: i32) {
        self.push(b' ');
        if thousandths < 0 {
            self.push(b'-');
        }
        let size = u64::from(thousandths.unsigned_abs());
        self.digits(size / 1000, 1);
        self.push(b'.');
        self.digits(size % 1000, 3);
    }

    /// A number with at least so many digits.
    fn digits(&mut self, value: u64, least: usize) {
        let mut count = least;
        let mut bound = 10_u64.pow(least as u32);
        while value >= bound {
            count += 1;
            match bound.checked_mul(10) {
                Some(next) => bound = next,
                None => break,
            }
        }
        let mut rest = value;
        for byte in self.bytes[self.length..][..count].iter_mut().rev() {
            *byte = b'0' + (rest % 10) as u8;
            rest /= 10;
        }
        self.length += count;
    }
}
