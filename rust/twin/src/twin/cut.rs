//! The cut of an element and of a mesh, by the page's rule.

use super::judge::judge;
use super::refusal::{Answer, Fault};
use super::solid::{
    Place, Record, Solid, Tetrahedron, Triangle, around, opposite, records, solid_of,
};
use super::{ELEMENT_WIDTH, TETRAHEDRON_WIDTH};

/// The five tetrahedra of a hexahedron without a diagonal through the far corner,
/// with the lowest corner turned to place 1.
const FIVE: [[Place; 4]; 5] = [
    [1, 2, 3, 6],
    [1, 3, 8, 6],
    [1, 3, 4, 8],
    [1, 6, 8, 5],
    [3, 8, 6, 7],
];

/// The tetrahedra of one element, at most six.
#[derive(Clone, Copy, Debug, Default)]
pub struct Block {
    tetrahedra: [Tetrahedron; 6],
    length: usize,
}

impl Block {
    /// The tetrahedra in their order.
    pub fn tetrahedra(&self) -> &[Tetrahedron] {
        &self.tetrahedra[..self.length]
    }

    /// Adds a tetrahedron in its written form.
    fn push(&mut self, tetrahedron: Tetrahedron) {
        self.tetrahedra[self.length] = written(tetrahedron);
        self.length += 1;
    }

    /// Brings the tetrahedra into ascending order, compared number by number.
    fn sort(&mut self) {
        self.tetrahedra[..self.length].sort_unstable();
    }
}

/// Judges a mesh and the output's room, then leaves the tetrahedra of its elements
/// in the output and answers how many they are.
pub fn cut(
    vertex_count: usize,
    element_count: usize,
    elements: &[u16],
    tetrahedra: &mut [u16],
) -> Answer<usize> {
    judge(vertex_count, element_count, elements)?;
    let cut = cut_mesh(records(&elements[..element_count * ELEMENT_WIDTH]));
    let needed = cut.len() * TETRAHEDRON_WIDTH;
    if tetrahedra.len() < needed {
        return Err(Fault::Room.at(0));
    }
    tetrahedra[..needed].copy_from_slice(cut.as_flattened());
    Ok(cut.len())
}

/// The tetrahedra of judged elements, block after block.
pub fn cut_mesh(elements: &[Record]) -> Vec<Tetrahedron> {
    let mut cut = Vec::with_capacity(6 * elements.len());
    for record in elements {
        cut.extend_from_slice(cut_element(record).tetrahedra());
    }
    cut
}

/// The tetrahedra of one judged element.
pub fn cut_element(record: &Record) -> Block {
    let solid = solid_of(record);
    let lowest = lowest_place(record, solid);
    let mut block = if solid == Solid::Hexahedron && far_diagonals(record, lowest) == 0 {
        five(record, lowest)
    } else {
        fan(record, solid, lowest)
    };
    block.sort();
    block
}

/// The triangles of a cut face, turned so that the first corner has the lowest vertex number.
pub fn cut_face(record: &Record, face: &[Place]) -> impl Iterator<Item = Triangle> {
    let first = first_corner(record, face);
    let corner = move |step: usize| record[face[around(first + step, face.len())]];
    (1..face.len() - 1).map(move |step| [corner(0), corner(step), corner(step + 1)])
}

/// The place of the lowest vertex number of an element.
fn lowest_place(record: &Record, solid: Solid) -> Place {
    let mut lowest = 1;
    for place in 2..=solid.corner_count() {
        if record[place] < record[lowest] {
            lowest = place;
        }
    }
    lowest
}

/// Where in a face its lowest vertex number stands, counted from 0.
fn first_corner(record: &Record, face: &[Place]) -> usize {
    let mut first = 0;
    for step in 1..face.len() {
        if record[face[step]] < record[face[first]] {
            first = step;
        }
    }
    first
}

/// The faces that do not hold a place.
fn far_faces(solid: Solid, place: Place) -> impl Iterator<Item = &'static [Place]> {
    let faces = solid.faces().iter().copied();
    faces.filter(move |face| !face.contains(&place))
}

/// How many of a hexahedron's three far faces have their diagonal through the corner opposite to
/// the lowest.
fn far_diagonals(record: &Record, lowest: Place) -> usize {
    let far = opposite(lowest);
    let through = |face: &&[Place]| {
        let first = first_corner(record, face);
        face[first] == far || face[around(first + 2, 4)] == far
    };
    far_faces(Solid::Hexahedron, lowest).filter(through).count()
}

/// The lowest corner, followed by each triangle of the cut faces that do not hold it.
fn fan(record: &Record, solid: Solid, lowest: Place) -> Block {
    let mut block = Block::default();
    for face in far_faces(solid, lowest) {
        for [p, q, r] in cut_face(record, face) {
            block.push([record[lowest], p, q, r]);
        }
    }
    block
}

/// The five tetrahedra of a hexahedron, with its lowest corner turned to place 1.
fn five(record: &Record, lowest: Place) -> Block {
    let turned = turned_hexahedron(lowest);
    let mut block = Block::default();
    for tetrahedron in FIVE {
        block.push(tetrahedron.map(|place| record[turned[place - 1]]));
    }
    block
}

/// A rotation of the hexahedron that turns a corner to place 1: what stands at places 1 to 8.
///
/// A face of that corner, read from it, stands for the face 1 4 3 2; the other four places follow
/// as opposite corners.
fn turned_hexahedron(corner: Place) -> [Place; 8] {
    for face in Solid::Hexahedron.faces() {
        if let Some(step) = face.iter().position(|&place| place == corner) {
            let [one, four, three, two] = [0, 1, 2, 3].map(|k| face[around(step + k, 4)]);
            let [five, six, seven, eight] = [three, four, one, two].map(opposite);
            return [one, two, three, four, five, six, seven, eight];
        }
    }
    unreachable!("every corner lies on a face")
}

/// A tetrahedron with its lowest number first and the lowest of the others second,
/// the last two placed so that the reordering is even.
fn written(tetrahedron: Tetrahedron) -> Tetrahedron {
    let mut ascending = tetrahedron;
    ascending.sort_unstable();
    let [first, second, third, fourth] = ascending;
    if is_even(tetrahedron) {
        [first, second, third, fourth]
    } else {
        [first, second, fourth, third]
    }
}

/// Whether an even number of pairs stands in descending order, so that sorting is an even reordering.
fn is_even([a, b, c, d]: Tetrahedron) -> bool {
    !((a > b) ^ (a > c) ^ (a > d) ^ (b > c) ^ (b > d) ^ (c > d))
}
