//! An independent implementation of document 01 in plain Rust, and the cases over which it and the proved
//! library are held against each other: stored vectors and seeded random ones.

pub mod random;
pub mod twin;
pub mod vectors;
