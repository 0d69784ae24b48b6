//! The whole conversion, from the bytes of a file to the bytes of its cut.

use super::cut::cut_mesh;
use super::judge::judge;
use super::read::{Mesh, read_within};
use super::refusal::{Answer, Fault};
use super::solid::{Tetrahedron, records};
use super::write::{Line, write_refusal};
use super::{ELEMENT_LIMIT, ELEMENT_WIDTH, LONGEST_OUTPUT, VERTEX_LIMIT, VERTEX_WIDTH};

/// What the program writes for an input: the cut mesh, or one line `NO number place second`.
pub fn program(input: &[u8]) -> Vec<u8> {
    let mut output = vec![0; LONGEST_OUTPUT];
    let length = match convert(input, &mut output) {
        Ok(length) => length,
        Err(refusal) => write_refusal(&refusal, &mut output).expect("there is room"),
    };
    output.truncate(length);
    output
}

/// Reads a mesh, cuts it and leaves the cut mesh as text in the output; its length is the answer.
pub fn convert(input: &[u8], output: &mut [u8]) -> Answer<usize> {
    let vertex_room = VERTEX_LIMIT * VERTEX_WIDTH;
    let element_room = ELEMENT_LIMIT * ELEMENT_WIDTH;
    let mesh = read_within(input, vertex_room, element_room)?;
    let counts = mesh.counts();
    judge(counts.vertices, counts.elements, &mesh.elements)?;
    let text = written(&mesh, &cut_mesh(records(&mesh.elements)));
    match output.get_mut(..text.len()) {
        None => Err(Fault::Room.at(0)),
        Some(part) => {
            part.copy_from_slice(&text);
            Ok(text.len())
        }
    }
}

/// All vertices, all tetrahedra, then EN with their counts.
fn written(mesh: &Mesh, tetrahedra: &[Tetrahedron]) -> Vec<u8> {
    let points: &[[i32; VERTEX_WIDTH]] = mesh.vertices.as_chunks().0;
    let mut text = Vec::with_capacity(30 * points.len() + 23 * tetrahedra.len() + 13);
    for point in points {
        text.extend_from_slice(Line::vertex(*point).bytes());
    }
    for tetrahedron in tetrahedra {
        text.extend_from_slice(Line::tetrahedron(tetrahedron).bytes());
    }
    text.extend_from_slice(Line::end(points.len(), tetrahedra.len()).bytes());
    text
}
