//! The text of a mesh, in every form that a reader must take.

use super::Random;
use super::mesh::Mesh;
use crate::twin::{Record, Solid};
use std::fmt::Write;

/// The text of a mesh with three decimals everywhere.
pub fn plain_text(mesh: &Mesh) -> Vec<u8> {
    let mut text = String::new();
    for point in &mesh.vertices {
        text.push_str("VX");
        for &coordinate in point {
            let sign = if coordinate < 0 { "-" } else { "" };
            let size = coordinate.unsigned_abs();
            let _ = write!(text, " {sign}{}.{:03}", size / 1000, size % 1000);
        }
        text.push('\n');
    }
    for element in &mesh.elements {
        push_element(&mut text, mark_of(element), corners_of(element));
    }
    push_end(&mut text, mesh);
    text.into_bytes()
}

/// The text of a mesh with the freedom that a file has: fewer decimals, a minus on zero, tips first.
pub fn free_text(mesh: &Mesh, random: &mut Random) -> Vec<u8> {
    let mut text = String::new();
    for point in &mesh.vertices {
        text.push_str("VX");
        for &coordinate in point {
            text.push(' ');
            text.push_str(&coordinate_text(coordinate, random));
        }
        text.push('\n');
    }
    for element in &mesh.elements {
        let corners = corners_of(element);
        match corners {
            &[a, b, c, d, tip] if random.once_in(2) => {
                push_element(&mut text, "PZ", &[tip, a, b, c, d]);
            }
            _ => push_element(&mut text, mark_of(element), corners),
        }
    }
    push_end(&mut text, mesh);
    text.into_bytes()
}

/// One of the forms of a coordinate given in thousandths.
pub fn coordinate_text(thousandths: i32, random: &mut Random) -> String {
    let minus = thousandths < 0 || (thousandths == 0 && random.once_in(4));
    let size = thousandths.unsigned_abs();
    let decimals = format!("{:03}", size % 1000);
    let needed = decimals.trim_end_matches('0').len();
    let kept = needed + random.below(4 - needed);
    let sign = if minus { "-" } else { "" };
    let point = if kept > 0 { "." } else { "" };
    format!("{sign}{}{point}{}", size / 1000, &decimals[..kept])
}

fn corners_of(element: &Record) -> &[u16] {
    &element[1..=element[0] as usize]
}

fn mark_of(element: &Record) -> &'static str {
    match Solid::of_kind(element[0]).expect("a solid") {
        Solid::Tetrahedron => "TE",
        Solid::Pyramid => "PY",
        Solid::Prism => "PR",
        Solid::Hexahedron => "HX",
    }
}

fn push_element(text: &mut String, mark: &str, corners: &[u16]) {
    text.push_str(mark);
    for vertex in corners {
        let _ = write!(text, " {vertex}");
    }
    text.push('\n');
}

fn push_end(text: &mut String, mesh: &Mesh) {
    let _ = writeln!(text, "EN {} {}", mesh.vertices.len(), mesh.elements.len());
}
