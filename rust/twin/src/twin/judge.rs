//! Judging counts, records and pairs, in the page's order.

use super::fit::first_misfit;
use super::refusal::{Answer, Fault, Refusal};
use super::solid::{Record, Solid, records};
use super::{ELEMENT_LIMIT, ELEMENT_WIDTH, VERTEX_LIMIT};

/// Judges a mesh: its counts, the table's room, each record in order, then every pair.
pub fn judge(vertex_count: usize, element_count: usize, elements: &[u16]) -> Answer<()> {
    judge_counts(vertex_count, element_count, ELEMENT_LIMIT)?;
    if elements.len() < element_count * ELEMENT_WIDTH {
        return Err(Fault::Room.at(0));
    }
    let elements = records(&elements[..element_count * ELEMENT_WIDTH]);
    for (index, record) in elements.iter().enumerate() {
        judge_record(record, vertex_count).map_err(|fault| fault.at(index + 1))?;
    }
    match first_misfit(elements) {
        None => Ok(()),
        Some((j, i)) => Err(Refusal {
            fault: Fault::Join,
            place: j,
            second: i,
        }),
    }
}

/// MANY for vertices, then for elements.
pub fn judge_counts(vertex_count: usize, element_count: usize, element_limit: usize) -> Answer<()> {
    if vertex_count > VERTEX_LIMIT || element_count > element_limit {
        return Err(Fault::Many.at(0));
    }
    Ok(())
}

/// Judges one record: KIND, VERTEX, SPARE, REPEAT.
pub fn judge_record(record: &Record, vertex_count: usize) -> Result<(), Fault> {
    let Some(solid) = Solid::of_kind(record[0]) else {
        return Err(Fault::Kind);
    };
    let (used, unused) = record[1..].split_at(solid.corner_count());
    if used.iter().any(|&vertex| !is_vertex(vertex, vertex_count)) {
        return Err(Fault::Vertex);
    }
    if unused.iter().any(|&number| number != 0) {
        return Err(Fault::Spare);
    }
    if has_repeat(used) {
        return Err(Fault::Repeat);
    }
    Ok(())
}

/// Whether a number is neither 0 nor above the vertex count.
pub fn is_vertex(number: u16, vertex_count: usize) -> bool {
    number != 0 && number as usize <= vertex_count
}

/// Whether a vertex stands twice in one element.
fn has_repeat(vertices: &[u16]) -> bool {
    let mut rest = vertices;
    while let [first, others @ ..] = rest {
        if others.contains(first) {
            return true;
        }
        rest = others;
    }
    false
}
