//! Reading the text file.

use super::judge::is_vertex;
use super::refusal::{Answer, Fault};
use super::solid::{Record, Solid};
use super::{
    COORDINATE_LIMIT, ELEMENT_LIMIT, ELEMENT_WIDTH, FILE_LIMIT, VERTEX_LIMIT, VERTEX_WIDTH,
};

/// The counts of an accepted file.
#[derive(Clone, Copy, Debug, Default, PartialEq, Eq)]
pub struct Counts {
    pub vertices: usize,
    pub elements: usize,
}

/// Reads a file into a lent vertex table and a lent element table.
pub fn read(file: &[u8], vertices: &mut [i32], elements: &mut [u16]) -> Answer<Counts> {
    let mesh = read_within(file, vertices.len(), elements.len())?;
    vertices[..mesh.vertices.len()].copy_from_slice(&mesh.vertices);
    elements[..mesh.elements.len()].copy_from_slice(&mesh.elements);
    Ok(mesh.counts())
}

/// Reads a file whose tables may take so many numbers.
pub fn read_within(file: &[u8], vertex_room: usize, element_room: usize) -> Answer<Mesh> {
    if file.len() > FILE_LIMIT {
        return Err(Fault::Long.at(0));
    }
    let mut mesh = Mesh::new(vertex_room, element_room);
    let mut number = 0;
    let mut rest = file;
    while !rest.is_empty() {
        number += 1;
        let (line, after) = first_line(rest);
        mesh.line(line).map_err(|fault| fault.at(number))?;
        rest = after;
    }
    if !mesh.ended {
        return Err(Fault::End.at(number + 1));
    }
    Ok(mesh)
}

/// The first line with its byte 10, where it has one, and the rest.
fn first_line(text: &[u8]) -> (&[u8], &[u8]) {
    match text.iter().position(|&byte| byte == b'\n') {
        Some(end) => text.split_at(end + 1),
        None => (text, &[]),
    }
}

/// What a line is, by its mark.
#[derive(Clone, Copy, PartialEq, Eq)]
enum Mark {
    Vertex,
    Element(Solid),
    /// A pyramid given as its tip, then its base.
    TipFirst,
    End,
}

impl Mark {
    /// The mark of a line without its byte 10, unless it is unknown or short.
    fn of(line: &[u8]) -> Option<Mark> {
        match line.get(..2)? {
            b"VX" => Some(Mark::Vertex),
            b"TE" => Some(Mark::Element(Solid::Tetrahedron)),
            b"PY" => Some(Mark::Element(Solid::Pyramid)),
            b"PR" => Some(Mark::Element(Solid::Prism)),
            b"HX" => Some(Mark::Element(Solid::Hexahedron)),
            b"PZ" => Some(Mark::TipFirst),
            b"EN" => Some(Mark::End),
            _ => None,
        }
    }

    fn field_count(self) -> usize {
        match self {
            Mark::Vertex => 3,
            Mark::Element(solid) => solid.corner_count(),
            Mark::TipFirst => 5,
            Mark::End => 2,
        }
    }
}

/// The lines read so far, as tables, and the room that was lent for them.
pub struct Mesh {
    pub vertices: Vec<i32>,
    pub elements: Vec<u16>,
    ended: bool,
    vertex_room: usize,
    element_room: usize,
}

impl Mesh {
    fn new(vertex_room: usize, element_room: usize) -> Mesh {
        Mesh {
            vertices: Vec::with_capacity(VERTEX_LIMIT * VERTEX_WIDTH),
            elements: Vec::with_capacity(ELEMENT_LIMIT * ELEMENT_WIDTH),
            ended: false,
            vertex_room,
            element_room,
        }
    }

    pub fn counts(&self) -> Counts {
        Counts {
            vertices: self.vertices.len() / VERTEX_WIDTH,
            elements: self.elements.len() / ELEMENT_WIDTH,
        }
    }

    /// Judges one line and takes its record: anything after EN, missing byte 10, mark, MANY, then its fields.
    fn line(&mut self, line: &[u8]) -> Result<(), Fault> {
        if self.ended {
            return Err(Fault::Mark);
        }
        let line = line.strip_suffix(b"\n").ok_or(Fault::Shape)?;
        let mark = self.mark(line)?;
        self.judge_many(mark)?;
        let mut fields = [&[][..]; 8];
        let fields = &mut fields[..mark.field_count()];
        split(&line[2..], fields)?;
        match mark {
            Mark::Vertex => self.vertex(fields),
            Mark::Element(solid) => self.element(solid, fields),
            Mark::TipFirst => self.tip_first(fields),
            Mark::End => self.end(fields),
        }
    }

    /// The mark of a line; VX after an element is refused as an unknown one is.
    fn mark(&self, line: &[u8]) -> Result<Mark, Fault> {
        match Mark::of(line) {
            Some(Mark::Vertex) if !self.elements.is_empty() => Err(Fault::Mark),
            Some(mark) => Ok(mark),
            None => Err(Fault::Mark),
        }
    }

    /// MANY for a VX or element line beyond its limit.
    fn judge_many(&self, mark: Mark) -> Result<(), Fault> {
        let full = match mark {
            Mark::Vertex => self.vertices.len() >= VERTEX_LIMIT * VERTEX_WIDTH,
            Mark::Element(_) | Mark::TipFirst => {
                self.elements.len() >= ELEMENT_LIMIT * ELEMENT_WIDTH
            }
            Mark::End => false,
        };
        if full { Err(Fault::Many) } else { Ok(()) }
    }

    fn vertex(&mut self, fields: &[&[u8]]) -> Result<(), Fault> {
        let mut point = [0; VERTEX_WIDTH];
        for (coordinate, field) in point.iter_mut().zip(fields) {
            *coordinate = read_coordinate(field)?;
        }
        if self.vertices.len() + VERTEX_WIDTH > self.vertex_room {
            return Err(Fault::Room);
        }
        self.vertices.extend_from_slice(&point);
        Ok(())
    }

    fn element(&mut self, solid: Solid, fields: &[&[u8]]) -> Result<(), Fault> {
        let record = self.record(solid, fields)?;
        self.take(record)
    }

    /// A pyramid with its tip first is judged from left to right and stored with its tip last.
    fn tip_first(&mut self, fields: &[&[u8]]) -> Result<(), Fault> {
        let mut record = self.record(Solid::Pyramid, fields)?;
        record[1..=5].rotate_left(1);
        self.take(record)
    }

    /// The record of an element whose corners stand in the order of the fields.
    fn record(&self, solid: Solid, fields: &[&[u8]]) -> Result<Record, Fault> {
        let vertex_count = self.counts().vertices;
        let mut record = [0; ELEMENT_WIDTH];
        record[0] = solid.corner_count() as u16;
        for (corner, field) in record[1..].iter_mut().zip(fields) {
            *corner = read_number(field).ok_or(Fault::Number)?;
            if !is_vertex(*corner, vertex_count) {
                return Err(Fault::Vertex);
            }
        }
        Ok(record)
    }

    fn take(&mut self, record: Record) -> Result<(), Fault> {
        if self.elements.len() + ELEMENT_WIDTH > self.element_room {
            return Err(Fault::Room);
        }
        self.elements.extend_from_slice(&record);
        Ok(())
    }

    /// EN: the form of both counts, then their comparison with the lines above, by END alone.
    fn end(&mut self, fields: &[&[u8]]) -> Result<(), Fault> {
        let vertices = read_number(fields[0]).ok_or(Fault::Number)?;
        let elements = read_number(fields[1]).ok_or(Fault::Number)?;
        let counts = self.counts();
        if (vertices as usize, elements as usize) != (counts.vertices, counts.elements) {
            return Err(Fault::End);
        }
        self.ended = true;
        Ok(())
    }
}

/// Splits what follows a mark into exactly so many fields, each preceded by exactly one space.
fn split<'a>(text: &'a [u8], fields: &mut [&'a [u8]]) -> Result<(), Fault> {
    let mut pieces = text.split(|&byte| byte == b' ');
    if pieces.next().is_some_and(|piece| !piece.is_empty()) {
        return Err(Fault::Shape);
    }
    for field in fields {
        match pieces.next() {
            Some(piece) if !piece.is_empty() => *field = piece,
            _ => return Err(Fault::Shape),
        }
    }
    match pieces.next() {
        None => Ok(()),
        Some(_) => Err(Fault::Shape),
    }
}

/// A coordinate in thousandths: COMMA, then NUMBER, then RANGE.
fn read_coordinate(field: &[u8]) -> Result<i32, Fault> {
    match thousandths(field) {
        Some(value) if value.abs() <= COORDINATE_LIMIT => Ok(value),
        Some(_) => Err(Fault::Range),
        // A field of the stated form has no comma, so that asking for one can wait until here.
        None if field.contains(&b',') => Err(Fault::Comma),
        None => Err(Fault::Number),
    }
}

/// The value of a coordinate of the stated form: an optional minus, 0 or one to six digits not
/// starting with 0, then optionally a point and one to three digits.
fn thousandths(field: &[u8]) -> Option<i32> {
    let (negative, size) = match field {
        [b'-', size @ ..] => (true, size),
        size => (false, size),
    };
    let value = match size.iter().position(|&byte| byte == b'.') {
        None => 1000 * whole(size, 6)?,
        Some(point) => 1000 * whole(&size[..point], 6)? + fraction(&size[point + 1..])?,
    };
    Some(if negative { -value } else { value })
}

/// One to three digits after the point, in thousandths.
fn fraction(text: &[u8]) -> Option<i32> {
    let unit = match text.len() {
        1 => 100,
        2 => 10,
        3 => 1,
        _ => return None,
    };
    Some(unit * digits(text)?)
}

/// A vertex number or count: 0 or one to four digits not starting with 0.
fn read_number(field: &[u8]) -> Option<u16> {
    whole(field, 4).map(|value| value as u16)
}

/// 0, or one to `limit` digits not starting with 0.
fn whole(text: &[u8], limit: usize) -> Option<i32> {
    match text {
        b"0" => Some(0),
        [] | [b'0', ..] => None,
        _ if text.len() > limit => None,
        _ => digits(text),
    }
}

/// The value of at most six digits.
fn digits(text: &[u8]) -> Option<i32> {
    let mut value = 0;
    for &byte in text {
        if !byte.is_ascii_digit() {
            return None;
        }
        value = 10 * value + i32::from(byte - b'0');
    }
    Some(value)
}
