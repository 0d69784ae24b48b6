//! A block of cells, each filled with elements that agree with its neighbours on every shared face.
//!
//! Whether a face of the grid stays whole or which diagonal cuts it is a function of the face's
//! corners alone, so that the two cells of a face agree without asking each other.

use super::mesh::{Mesh, record, relisted, rotations};
use super::{Random, mixed};
use crate::twin::{Record, Solid};

/// How the faces of a grid are treated.
#[derive(Clone, Copy, Debug, PartialEq, Eq)]
pub enum Style {
    /// Every face whole: hexahedra, or six pyramids round a centre.
    Whole,
    /// The faces across one axis cut the same way along a column, or whole along all of it: prisms
    /// and hexahedra.
    Columns(usize),
    /// The faces in even planes cut through their all-even corner: pyramids and tetrahedra round it.
    Cones,
    /// Each face whole, so many times in eight, or cut at random.
    Mixed(u64),
}

/// A block of cells of one style; a ring's last column of cells meets its first.
#[derive(Clone, Copy, Debug)]
pub struct Grid {
    pub size: [usize; 3],
    pub style: Style,
    pub ring: bool,
    pub seed: u64,
}

/// The vertex numbers of a face of the grid, in its cycle.
type Face = [u16; 4];

impl Grid {
    /// A random grid of at most so many cells along each axis.
    pub fn random(random: &mut Random, longest: [usize; 3]) -> Grid {
        let mut size = longest.map(|length| 1 + random.below(length));
        let style = match random.below(8) {
            0 => Style::Whole,
            1 | 2 => Style::Columns(random.below(3)),
            3 | 4 => Style::Cones,
            _ => Style::Mixed(random.below(9) as u64),
        };
        // The parity of even planes would break where a ring of odd length closes.
        let ring = style != Style::Cones && random.once_in(6);
        if ring {
            size[0] = size[0].max(3);
        }
        Grid {
            size,
            style,
            ring,
            seed: random.bits(),
        }
    }

    /// The elements of all cells over straight unit cells of so many thousandths.
    pub fn mesh(&self, step: i32, random: &mut Random) -> Mesh {
        let mut mesh = Mesh {
            vertices: self.points(step),
            elements: Vec::new(),
        };
        let [nx, ny, nz] = self.size;
        for z in 0..nz {
            for y in 0..ny {
                for x in 0..nx {
                    self.fill([x, y, z], &mut mesh, random);
                }
            }
        }
        mesh
    }

    /// How many different planes of vertices stand along each axis.
    fn planes(&self) -> [usize; 3] {
        let [nx, ny, nz] = self.size;
        [if self.ring { nx } else { nx + 1 }, ny + 1, nz + 1]
    }

    fn points(&self, step: i32) -> Vec<[i32; 3]> {
        let [px, py, pz] = self.planes();
        (1..=px * py * pz)
            .map(|number| self.position(number as u16).map(|k| k as i32 * step))
            .collect()
    }

    /// The number of the vertex at a position.
    fn vertex(&self, [x, y, z]: [usize; 3]) -> u16 {
        let [px, py, _] = self.planes();
        (1 + x % px + px * (y + py * z)) as u16
    }

    /// The position of a vertex.
    fn position(&self, vertex: u16) -> [usize; 3] {
        let [px, py, _] = self.planes();
        let index = vertex as usize - 1;
        [index % px, index / px % py, index / (px * py)]
    }

    /// The cell at a position as a hexahedron.
    fn cell(&self, [x, y, z]: [usize; 3]) -> Record {
        let around = [[0, 0], [1, 0], [1, 1], [0, 1]];
        let corner = |p: usize| {
            let [dx, dy] = around[p % 4];
            self.vertex([x + dx, y + dy, z + p / 4])
        };
        let corners: [u16; 8] = std::array::from_fn(corner);
        record(Solid::Hexahedron, &corners)
    }

    /// Fills one cell in one of the ways that its faces allow.
    fn fill(&self, position: [usize; 3], mesh: &mut Mesh, random: &mut Random) {
        let cell = self.cell(position);
        let turned: Vec<Record> = rotations(Solid::Hexahedron)
            .iter()
            .map(|rotation| relisted(&cell, rotation))
            .collect();
        let from = random.below(turned.len());
        let find = |allowed: &dyn Fn(&Record) -> bool| {
            let (before, after) = turned.split_at(from);
            after
                .iter()
                .chain(before)
                .copied()
                .find(|turn| allowed(turn))
        };
        let whole = find(&|turn| self.is_whole(turn)).map(Filling::Whole);
        let prisms = find(&|turn| self.is_two_prisms(turn)).map(Filling::Prisms);
        let cone = find(&|turn| self.is_cone(turn)).map(Filling::Cone);
        let mut ways: Vec<Filling> = [whole, prisms, cone].into_iter().flatten().collect();
        if ways.is_empty() || random.once_in(8) {
            ways = vec![Filling::Centre(cell)];
        }
        self.fill_as(random.pick(&ways), mesh);
    }

    fn fill_as(&self, filling: Filling, mesh: &mut Mesh) {
        match filling {
            Filling::Whole(cell) => mesh.elements.push(cell),
            Filling::Prisms(cell) => {
                for places in [[1, 2, 4, 5, 6, 8], [3, 4, 2, 7, 8, 6]] {
                    let corners = places.map(|place: usize| cell[place]);
                    mesh.elements.push(record(Solid::Prism, &corners));
                }
            }
            Filling::Cone(cell) => {
                for face in [[2, 3, 7, 6], [5, 6, 7, 8], [3, 4, 8, 7]] {
                    self.follow(cell[1], face_of(&cell, face), mesh);
                }
            }
            Filling::Centre(cell) => {
                let centre = mesh.centre(&cell[1..]);
                for face in Solid::Hexahedron.faces() {
                    let face = face_of(&cell, [face[0], face[1], face[2], face[3]]);
                    self.follow(centre, face, mesh);
                }
            }
        }
    }

    /// A tip over a face: a pyramid where the face is whole, else two tetrahedra.
    fn follow(&self, tip: u16, face: Face, mesh: &mut Mesh) {
        let corner = |k: usize| face[k % 4];
        match self.diagonal(face) {
            None => {
                let corners = [face[0], face[3], face[2], face[1], tip];
                mesh.elements.push(record(Solid::Pyramid, &corners));
            }
            Some(k) => {
                for (second, third) in [(k + 1, k + 2), (k + 2, k + 3)] {
                    let corners = [tip, corner(k), corner(second), corner(third)];
                    mesh.elements.push(record(Solid::Tetrahedron, &corners));
                }
            }
        }
    }

    /// Whether no face of a cell is cut.
    fn is_whole(&self, cell: &Record) -> bool {
        Solid::Hexahedron
            .faces()
            .iter()
            .all(|face| self.is_cut(cell, face, None))
    }

    /// Whether only the lower and the upper face are cut, both across corner 1.
    fn is_two_prisms(&self, cell: &Record) -> bool {
        let whole = [[1, 2, 6, 5], [1, 5, 8, 4], [2, 3, 7, 6], [3, 4, 8, 7]];
        self.is_cut(cell, &[1, 4, 3, 2], Some(1))
            && self.is_cut(cell, &[5, 6, 7, 8], Some(1))
            && whole.iter().all(|face| self.is_cut(cell, face, None))
    }

    /// Whether the three faces at corner 1 are cut through it.
    fn is_cone(&self, cell: &Record) -> bool {
        let near = [[1, 4, 3, 2], [1, 2, 6, 5], [1, 5, 8, 4]];
        near.iter().all(|face| self.is_cut(cell, face, Some(0)))
    }

    /// Whether a face of a cell is whole, or cut from the corner that stands there in it.
    fn is_cut(&self, cell: &Record, face: &[usize], from: Option<usize>) -> bool {
        self.diagonal(face_of(cell, [face[0], face[1], face[2], face[3]])) == from
    }

    /// Where the diagonal of a face starts in its cycle, 0 or 1, unless the face is whole.
    fn diagonal(&self, face: Face) -> Option<usize> {
        let positions = face.map(|vertex| self.position(vertex));
        let axis = (0..3).find(|&k| positions.iter().all(|p| p[k] == positions[0][k]))?;
        match self.style {
            Style::Whole => None,
            Style::Columns(column) if column != axis => None,
            Style::Columns(_) => self.column_diagonal(positions, axis),
            Style::Cones if positions[0][axis] % 2 == 0 => {
                let even = |p: &[usize; 3]| p.iter().all(|k| k % 2 == 0);
                positions.iter().position(even).map(|k| k % 2)
            }
            Style::Cones => self.drawn_diagonal(face, 4),
            Style::Mixed(whole) => self.drawn_diagonal(face, whole),
        }
    }

    /// What is drawn for a face depends only on where its column stands.
    fn column_diagonal(&self, mut positions: [[usize; 3]; 4], axis: usize) -> Option<usize> {
        for position in &mut positions {
            position[axis] = 0;
        }
        self.drawn_diagonal(positions.map(|position| self.vertex(position)), 2)
    }

    /// A whole face so many times in eight, else one of the two diagonals.
    fn drawn_diagonal(&self, face: Face, whole: u64) -> Option<usize> {
        let (bits, diagonal) = self.drawn(face);
        if bits % 8 < whole {
            None
        } else {
            Some(diagonal)
        }
    }

    /// Bits that belong to the vertices of a face, whatever its cycle, and one of its two diagonals by them.
    fn drawn(&self, face: Face) -> (u64, usize) {
        let mut sorted = face;
        sorted.sort_unstable();
        let bits = sorted
            .iter()
            .fold(self.seed, |bits, &vertex| mixed(bits ^ u64::from(vertex)));
        let lowest = face.iter().position(|&v| v == sorted[0]).unwrap_or(0);
        (bits, (lowest + (bits >> 32) as usize) % 2)
    }
}

/// A way to fill a cell, which is turned as the way needs it.
#[derive(Clone, Copy)]
enum Filling {
    Whole(Record),
    Prisms(Record),
    Cone(Record),
    Centre(Record),
}

/// The vertices of a face of a cell.
fn face_of(cell: &Record, places: [usize; 4]) -> Face {
    places.map(|place| cell[place])
}
