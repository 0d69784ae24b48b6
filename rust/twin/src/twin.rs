//! Document 01 in plain Rust, written from the page alone, so that a difference
//! from the library finds a slip of one of the two.
//!
//! Every call judges first and stores afterwards: a refused call leaves lent
//! memory as it was, an accepted one changes only the part its records take.

mod convert;
mod cut;
mod fit;
mod judge;
mod read;
mod refusal;
mod signs;
mod solid;
mod write;

pub use convert::{convert, program};
pub use cut::{Block, cut, cut_element, cut_face};
pub use fit::fits;
pub use judge::{judge, judge_record};
pub use read::{Counts, read};
pub use refusal::{Answer, Fault, Refusal};
pub use signs::{Point, Signs, signs, sixfold_volume};
pub use solid::{Place, Record, Solid, Tetrahedron, Triangle};
pub use write::{write_element, write_end, write_refusal, write_vertex};

/// The longest file, in bytes.
pub const FILE_LIMIT: usize = 65_536;
/// The most vertices of a mesh.
pub const VERTEX_LIMIT: usize = 4_096;
/// The most elements of a mesh that is read or cut.
pub const ELEMENT_LIMIT: usize = 1_024;
/// The most tetrahedra of a cut, and of a file that is written.
pub const TETRAHEDRON_LIMIT: usize = 6_144;
/// No cut mesh is longer, in bytes: a VX line has at most 30, a TE line 23, the EN line 13.
pub const LONGEST_OUTPUT: usize = 30 * VERTEX_LIMIT + 23 * TETRAHEDRON_LIMIT + 13;
/// The greatest coordinate, in thousandths of a millimetre; its negative is the least.
pub const COORDINATE_LIMIT: i32 = 500_000;
/// The numbers of a vertex in a vertex table.
pub const VERTEX_WIDTH: usize = 3;
/// The numbers of an element in an element table: its kind, then eight vertex numbers.
pub const ELEMENT_WIDTH: usize = 9;
/// The numbers of a tetrahedron in the output.
pub const TETRAHEDRON_WIDTH: usize = 4;
