//! Seeded random meshes, tables and files for the tests, valid and damaged.
//!
//! The same seed always gives the same cases, so that a failing one can be made again.

mod cases;
mod damage;
mod grid;
mod mesh;
mod records;
mod text;

pub use cases::{FileCase, TableCase, file_case, limit_files, limit_tables, table_case};
pub use damage::{damage_file, damage_table};
pub use grid::{Grid, Style};
pub use mesh::{Mesh, large_mesh, mesh, mirrored, random_record, relisted, rotations};
pub use records::{RecordCase, Written, record_case};
pub use text::{coordinate_text, free_text, plain_text};

/// A small generator: xorshift with a multiplication at the end.
#[derive(Clone, Debug)]
pub struct Random {
    state: u64,
}

impl Random {
    pub fn new(seed: u64) -> Random {
        Random {
            state: mixed(seed) | 1,
        }
    }

    /// The next 64 bits.
    pub fn bits(&mut self) -> u64 {
        self.state ^= self.state >> 12;
        self.state ^= self.state << 25;
        self.state ^= self.state >> 27;
        self.state.wrapping_mul(0x2545_F491_4F6C_DD1D)
    }

    /// A number below a bound, which is at least 1.
    pub fn below(&mut self, bound: usize) -> usize {
        ((u128::from(self.bits()) * bound as u128) >> 64) as usize
    }

    /// A number from the least to the greatest, both included.
    pub fn between(&mut self, least: i32, greatest: i32) -> i32 {
        let span = (i64::from(greatest) - i64::from(least) + 1) as usize;
        (i64::from(least) + self.below(span) as i64) as i32
    }

    /// True once in so many times.
    pub fn once_in(&mut self, times: usize) -> bool {
        self.below(times) == 0
    }

    /// One of several values.
    pub fn pick<T: Copy>(&mut self, values: &[T]) -> T {
        values[self.below(values.len())]
    }

    /// Brings values into a random order.
    pub fn shuffle<T>(&mut self, values: &mut [T]) {
        for last in (1..values.len()).rev() {
            values.swap(last, self.below(last + 1));
        }
    }
}

/// How many cases a test makes: so many, or more where the environment variable `BRINE_CASES` says so.
pub fn case_count(usual: usize) -> usize {
    let asked = std::env::var("BRINE_CASES").ok();
    let asked = asked.and_then(|text| text.parse().ok());
    asked.unwrap_or(0).max(usual)
}

/// A number spread over 64 bits, so that neighbouring seeds have nothing in common.
pub fn mixed(value: u64) -> u64 {
    let mut value = value.wrapping_add(0x9E37_79B9_7F4A_7C15);
    value = (value ^ (value >> 30)).wrapping_mul(0xBF58_476D_1CE4_E5B9);
    value = (value ^ (value >> 27)).wrapping_mul(0x94D0_49BB_1331_11EB);
    value ^ (value >> 31)
}
