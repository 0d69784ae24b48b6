//! Records to write one a call, valid and not, with more and less room than they need.

use super::Random;
use super::mesh::random_record;
use crate::twin::{COORDINATE_LIMIT, Point, Record};

/// A record to write.
#[derive(Clone, Copy, Debug)]
pub enum Written {
    Vertex(Point),
    Element(Record),
    End(usize, usize),
}

/// A record to write and how many bytes are lent for it.
#[derive(Clone, Copy, Debug)]
pub struct RecordCase {
    pub record: Written,
    pub room: usize,
}

impl std::fmt::Display for RecordCase {
    fn fmt(&self, out: &mut std::fmt::Formatter) -> std::fmt::Result {
        writeln!(out, "{self:?}")
    }
}

/// A random record with a random room of up to 60 bytes.
pub fn record_case(random: &mut Random) -> RecordCase {
    let record = match random.below(3) {
        0 => Written::Vertex([0; 3].map(|_| coordinate(random))),
        1 => Written::Element(element(random)),
        _ => Written::End(count(random, 4096), count(random, 6144)),
    };
    let room = match random.below(4) {
        0 => random.below(20),
        _ => random.below(60),
    };
    RecordCase { record, room }
}

/// Mostly within the limits, of every length; sometimes just beyond, rarely far beyond.
fn coordinate(random: &mut Random) -> i32 {
    let limit = COORDINATE_LIMIT;
    match random.below(40) {
        0 => random.pick(&[limit + 1, -limit - 1]),
        1 => random.pick(&[i32::MIN, i32::MAX, 2_000_000, -2_000_000]),
        2..=5 => random.pick(&[0, limit, -limit, 1000, -1000, 999, -999]),
        6..=20 => {
            let size = random.pick(&[1, 10, 100, 1000, 10_000, 100_000]);
            random.between(-size, size)
        }
        _ => random.between(-limit, limit),
    }
}

/// Mostly a proper element, otherwise with one number changed or all drawn from a few.
fn element(random: &mut Random) -> Record {
    let among = random.pick(&[8, 9, 99, 100, 1000, 4096]);
    let mut record = random_record(random, among);
    match random.below(12) {
        0 => record[random.below(9)] = random.pick(&[0, 1, 2, 4, 5, 6, 8, 4096, 4097, u16::MAX]),
        1 => record[0] = random.pick(&[0, 3, 4, 5, 6, 7, 8, 9, 256 + 4]),
        2 => record[1..].fill_with(|| random.below(12) as u16),
        3 => {
            let corners = record[0] as usize;
            record[1 + random.below(corners)] = record[1 + random.below(corners)];
        }
        _ => {}
    }
    record
}

/// A count near or within a limit, rarely far beyond.
fn count(random: &mut Random, limit: usize) -> usize {
    match random.below(12) {
        0 => random.pick(&[limit + 1, 10_000, 65_536 + 1, usize::MAX]),
        1 => random.pick(&[0, limit, 9, 10, 99, 100, 999, 1000]),
        _ => random.below(limit + 1),
    }
}
