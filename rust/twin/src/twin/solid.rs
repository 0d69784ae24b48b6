//! The four solids: their places, faces and opposite corners.

use super::ELEMENT_WIDTH;

/// A local corner number from 1. A vertex number is a `u16`, so that neither passes for the other.
pub type Place = usize;

/// An element: its kind, then eight vertex numbers, unused ones zero; index `p` is the corner at place `p`.
pub type Record = [u16; ELEMENT_WIDTH];

/// A tetrahedron of the output: four vertex numbers.
pub type Tetrahedron = [u16; 4];

/// Three vertex numbers, counterclockwise seen from outside.
pub type Triangle = [u16; 3];

#[derive(Clone, Copy, Debug, PartialEq, Eq, Hash)]
pub enum Solid {
    Tetrahedron,
    Pyramid,
    Prism,
    Hexahedron,
}

impl Solid {
    /// All four, by their corner counts.
    pub const ALL: [Solid; 4] = [
        Solid::Tetrahedron,
        Solid::Pyramid,
        Solid::Prism,
        Solid::Hexahedron,
    ];

    /// The solid of a kind, if it is one.
    pub fn of_kind(kind: u16) -> Option<Solid> {
        match kind {
            4 => Some(Solid::Tetrahedron),
            5 => Some(Solid::Pyramid),
            6 => Some(Solid::Prism),
            8 => Some(Solid::Hexahedron),
            _ => None,
        }
    }

    /// How many corners the solid has, which is also its kind.
    pub fn corner_count(self) -> usize {
        match self {
            Solid::Tetrahedron => 4,
            Solid::Pyramid => 5,
            Solid::Prism => 6,
            Solid::Hexahedron => 8,
        }
    }

    /// The mark of the solid's line in a file.
    pub fn mark(self) -> [u8; 2] {
        match self {
            Solid::Tetrahedron => *b"TE",
            Solid::Pyramid => *b"PY",
            Solid::Prism => *b"PR",
            Solid::Hexahedron => *b"HX",
        }
    }

    /// The faces in the page's order, counterclockwise seen from outside.
    pub fn faces(self) -> &'static [&'static [Place]] {
        match self {
            Solid::Tetrahedron => &[&[2, 3, 4], &[1, 4, 3], &[1, 2, 4], &[1, 3, 2]],
            Solid::Pyramid => &[
                &[1, 4, 3, 2],
                &[1, 2, 5],
                &[2, 3, 5],
                &[3, 4, 5],
                &[4, 1, 5],
            ],
            Solid::Prism => &[
                &[1, 3, 2],
                &[4, 5, 6],
                &[1, 2, 5, 4],
                &[2, 3, 6, 5],
                &[3, 1, 4, 6],
            ],
            Solid::Hexahedron => &[
                &[1, 4, 3, 2],
                &[1, 2, 6, 5],
                &[1, 5, 8, 4],
                &[2, 3, 7, 6],
                &[5, 6, 7, 8],
                &[3, 4, 8, 7],
            ],
        }
    }
}

/// The corner opposite to one of a hexahedron: 1-7, 2-8, 3-5, 4-6.
pub fn opposite(place: Place) -> Place {
    match place {
        1 => 7,
        2 => 8,
        3 => 5,
        4 => 6,
        5 => 3,
        6 => 4,
        7 => 1,
        _ => 2,
    }
}

/// A step round a cycle, for less than two rounds.
pub fn around(step: usize, length: usize) -> usize {
    if step < length { step } else { step - length }
}

/// The solid of a record whose kind has been judged.
pub fn solid_of(record: &Record) -> Solid {
    Solid::of_kind(record[0]).expect("the kind has been judged")
}

/// The records of an element table of whole records.
pub fn records(table: &[u16]) -> &[Record] {
    table.as_chunks().0
}
