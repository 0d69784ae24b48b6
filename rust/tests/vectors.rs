//! The library writes for each stored input what is stored beside it, and so do its parts one after the other.

use brinetoggle::{Answer, ELEMENT_LIMIT, ELEMENT_WIDTH, LONGEST_RECORD, TETRAHEDRON_LIMIT};
use brinetoggle::{TETRAHEDRON_WIDTH, VERTEX_LIMIT, VERTEX_WIDTH};
use brinetoggle_twin::vectors;

/// The cut mesh, or the program's line for a refusal.
fn program(cut: Answer<Vec<u8>>) -> Vec<u8> {
    cut.unwrap_or_else(|refusal| format!("{refusal}\n").into_bytes())
}

/// Reading, cutting and writing by the entries, a record a call.
fn step_by_step(input: &[u8]) -> Answer<Vec<u8>> {
    let mut vertices = vec![0; VERTEX_WIDTH * VERTEX_LIMIT];
    let mut elements = vec![0; ELEMENT_WIDTH * ELEMENT_LIMIT];
    let mut tetrahedra = vec![0; TETRAHEDRON_WIDTH * TETRAHEDRON_LIMIT];
    let counts = brinetoggle::read(input, &mut vertices, &mut elements)?;
    let count = brinetoggle::cut(counts.vertices, counts.elements, &elements, &mut tetrahedra)?;
    let mut text = Vec::new();
    let mut line = [0; LONGEST_RECORD];
    for point in vertices[..VERTEX_WIDTH * counts.vertices].chunks(VERTEX_WIDTH) {
        let length = brinetoggle::write_vertex(point[0], point[1], point[2], &mut line)?;
        text.extend_from_slice(&line[..length]);
    }
    for corners in tetrahedra[..TETRAHEDRON_WIDTH * count].chunks(TETRAHEDRON_WIDTH) {
        let mut record = [0; ELEMENT_WIDTH];
        record[0] = 4;
        record[1..5].copy_from_slice(corners);
        let length = brinetoggle::write_element(&record, &mut line)?;
        text.extend_from_slice(&line[..length]);
    }
    let length = brinetoggle::write_end(counts.vertices, count, &mut line)?;
    text.extend_from_slice(&line[..length]);
    Ok(text)
}

#[test]
fn convert_writes_every_expected_output() {
    vectors::check_all(|input| program(brinetoggle::convert_text(input)));
}

#[test]
fn the_entries_one_by_one_write_every_expected_output() {
    vectors::check_all(|input| program(step_by_step(input)));
}
