//! The sixfold volume and the sign report.

use super::cut::cut_element;
use super::judge::judge;
use super::refusal::{Answer, Fault};
use super::solid::{Tetrahedron, records};
use super::{COORDINATE_LIMIT, ELEMENT_WIDTH, VERTEX_WIDTH};

/// A vertex: three numbers in thousandths of a millimetre.
pub type Point = [i32; VERTEX_WIDTH];

/// The sign report: tetrahedra of the cut by the sign of their volume, and unsound elements.
#[derive(Clone, Copy, Debug, Default, PartialEq, Eq)]
pub struct Signs {
    pub positive: usize,
    pub zero: usize,
    pub negative: usize,
    pub unsound: usize,
}

/// Judges a mesh and its vertex table, then counts the signs of its cut.
pub fn signs(
    vertex_count: usize,
    element_count: usize,
    elements: &[u16],
    vertices: &[i32],
) -> Answer<Signs> {
    judge(vertex_count, element_count, elements)?;
    if vertices.len() < vertex_count * VERTEX_WIDTH {
        return Err(Fault::Room.at(0));
    }
    let points: &[Point] = vertices[..vertex_count * VERTEX_WIDTH].as_chunks().0;
    if let Some(index) = points.iter().position(|point| !is_in_range(point)) {
        return Err(Fault::Range.at(index + 1));
    }
    let mut signs = Signs::default();
    for record in records(&elements[..element_count * ELEMENT_WIDTH]) {
        let cut = cut_element(record);
        signs.count(cut.tetrahedra(), points);
    }
    Ok(signs)
}

impl Signs {
    /// Counts the tetrahedra of one element, which is sound when all of them are positive.
    fn count(&mut self, tetrahedra: &[Tetrahedron], points: &[Point]) {
        let mut sound = true;
        for tetrahedron in tetrahedra {
            let [a, b, c, d] = tetrahedron.map(|vertex| points[vertex as usize - 1]);
            let volume = determinant(a, b, c, d);
            self.positive += (volume > 0) as usize;
            self.zero += (volume == 0) as usize;
            self.negative += (volume < 0) as usize;
            sound &= volume > 0;
        }
        self.unsound += !sound as usize;
    }
}

/// The sixfold volume of four points; RANGE names the first point that has a coordinate beyond the limits.
pub fn sixfold_volume(a: Point, b: Point, c: Point, d: Point) -> Answer<i64> {
    match [a, b, c, d].iter().position(|point| !is_in_range(point)) {
        Some(index) => Err(Fault::Range.at(index + 1)),
        None => Ok(determinant(a, b, c, d)),
    }
}

/// Whether no coordinate is beyond the limits.
pub fn is_in_range(point: &Point) -> bool {
    let limits = -COORDINATE_LIMIT..=COORDINATE_LIMIT;
    point.iter().all(|coordinate| limits.contains(coordinate))
}

/// The determinant with rows b-a, c-a, d-a; within the limits each of its six products
/// is at most 10^18, so that no sum leaves 64 bits.
fn determinant(a: Point, b: Point, c: Point, d: Point) -> i64 {
    let row = |p: Point| [0, 1, 2].map(|k| i64::from(p[k]) - i64::from(a[k]));
    let [b, c, d] = [row(b), row(c), row(d)];
    b[0] * (c[1] * d[2] - c[2] * d[1])
        + b[1] * (c[2] * d[0] - c[0] * d[2])
        + b[2] * (c[0] * d[1] - c[1] * d[0])
}
