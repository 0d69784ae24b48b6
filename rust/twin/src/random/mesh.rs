//! Random meshes whose elements fit, in every listing and numbering.

use super::Random;
use super::grid::Grid;
use crate::twin::{COORDINATE_LIMIT, ELEMENT_LIMIT, Place, Point, Record, Solid, VERTEX_LIMIT};
use std::collections::BTreeMap;
use std::sync::OnceLock;

/// A vertex table and an element table, by records.
#[derive(Clone, Debug, Default, PartialEq, Eq)]
pub struct Mesh {
    pub vertices: Vec<Point>,
    pub elements: Vec<Record>,
}

impl Mesh {
    /// The vertex table as numbers.
    pub fn vertex_table(&self) -> Vec<i32> {
        self.vertices.as_flattened().to_vec()
    }

    /// The element table as numbers.
    pub fn element_table(&self) -> Vec<u16> {
        self.elements.as_flattened().to_vec()
    }

    /// Adds a vertex and gives its number.
    fn add_vertex(&mut self, point: Point) -> u16 {
        self.vertices.push(point);
        self.vertices.len() as u16
    }

    /// Adds the centre of some vertices and gives its number.
    pub(super) fn centre(&mut self, vertices: &[u16]) -> u16 {
        let mut centre = [0; 3];
        for (axis, value) in centre.iter_mut().enumerate() {
            let sum: i32 = vertices.iter().map(|&v| self.point(v)[axis]).sum();
            *value = sum / vertices.len() as i32;
        }
        self.add_vertex(centre)
    }

    fn point(&self, vertex: u16) -> Point {
        self.vertices[vertex as usize - 1]
    }

    /// The faces of only one element, as vertex cycles.
    fn outer_faces(&self) -> Vec<Vec<u16>> {
        let mut owners: BTreeMap<Vec<u16>, Vec<Vec<u16>>> = BTreeMap::new();
        for element in &self.elements {
            for cycle in face_cycles(element) {
                let mut vertices = cycle.clone();
                vertices.sort_unstable();
                owners.entry(vertices).or_default().push(cycle);
            }
        }
        let single = |cycles: Vec<Vec<u16>>| <[Vec<u16>; 1]>::try_from(cycles).ok();
        let outer = owners.into_values().filter_map(single);
        outer.map(|[cycle]| cycle).collect()
    }
}

/// A mesh of several elements that fit.
pub fn mesh(random: &mut Random) -> Mesh {
    let longest = match random.below(40) {
        0 => [8, 6, 4],
        1..=7 => [4, 4, 3],
        _ => [3, 2, 2],
    };
    let grid = Grid::random(random, longest);
    let mut mesh = grid.mesh(1000, random);
    grow(&mut mesh, random);
    finish(mesh, random)
}

/// A mesh of many elements, up to the limits of document 01.
pub fn large_mesh(random: &mut Random) -> Mesh {
    let grid = Grid::random(random, [12, 9, 9]);
    let mut mesh = grid.mesh(1000, random);
    grow(&mut mesh, random);
    finish(mesh, random)
}

/// A record of a solid with these corners.
pub fn record(solid: Solid, corners: &[u16]) -> Record {
    let mut record = [0; 9];
    record[0] = solid.corner_count() as u16;
    record[1..=corners.len()].copy_from_slice(corners);
    record
}

/// A record of a random solid with different vertex numbers up to a count, which is at least 8.
pub fn random_record(random: &mut Random, vertex_count: usize) -> Record {
    let solid = random.pick(&Solid::ALL);
    let mut corners = Vec::new();
    while corners.len() < solid.corner_count() {
        let vertex = 1 + random.below(vertex_count) as u16;
        if !corners.contains(&vertex) {
            corners.push(vertex);
        }
    }
    record(solid, &corners)
}

/// An element listed by a rotation, the list of what stands at each place.
pub fn relisted(element: &Record, rotation: &[Place]) -> Record {
    let mut listed = *element;
    for (index, &place) in rotation.iter().enumerate() {
        listed[index + 1] = element[place];
    }
    listed
}

/// An element listed inside out.
pub fn mirrored(element: &Record) -> Record {
    let order: &[Place] = match element[0] {
        4 => &[1, 2, 4, 3],
        5 => &[1, 4, 3, 2, 5],
        6 => &[4, 5, 6, 1, 2, 3],
        _ => &[5, 6, 7, 8, 1, 2, 3, 4],
    };
    relisted(element, order)
}

/// All rotations of a solid: the reorderings of places that map faces to faces and keep their direction.
pub fn rotations(solid: Solid) -> &'static [Vec<Place>] {
    static ROTATIONS: OnceLock<Vec<Vec<Vec<Place>>>> = OnceLock::new();
    let all = ROTATIONS.get_or_init(|| Solid::ALL.map(find_rotations).to_vec());
    let index = Solid::ALL.iter().position(|&other| other == solid);
    &all[index.expect("one of the four")]
}

/// The rotations among all reorderings of a solid's places.
fn find_rotations(solid: Solid) -> Vec<Vec<Place>> {
    let mut found = Vec::new();
    let mut order: Vec<Place> = (1..=solid.corner_count()).collect();
    each_order(&mut order, 0, &mut |order| {
        if is_rotation(solid, order) {
            found.push(order.to_vec());
        }
    });
    found
}

/// Calls a function with every reordering of what stands from an index on.
fn each_order(order: &mut [Place], from: usize, call: &mut dyn FnMut(&[Place])) {
    if from == order.len() {
        return call(order);
    }
    for index in from..order.len() {
        order.swap(from, index);
        each_order(order, from + 1, call);
        order.swap(from, index);
    }
}

fn is_rotation(solid: Solid, order: &[Place]) -> bool {
    let cycles: Vec<Vec<Place>> = solid.faces().iter().map(|face| turned(face)).collect();
    solid.faces().iter().all(|face| {
        let moved: Vec<Place> = face.iter().map(|&place| order[place - 1]).collect();
        cycles.contains(&turned(&moved))
    })
}

/// A cycle turned so that its lowest number stands first.
fn turned<T: Copy + Ord>(cycle: &[T]) -> Vec<T> {
    let mut cycle = cycle.to_vec();
    let lowest = (0..cycle.len()).min_by_key(|&step| cycle[step]);
    cycle.rotate_left(lowest.unwrap_or(0));
    cycle
}

/// The faces of an element as vertex cycles.
fn face_cycles(element: &Record) -> Vec<Vec<u16>> {
    let solid = Solid::of_kind(element[0]).expect("a solid");
    let cycle = |face: &&[Place]| face.iter().map(|&place| element[place]).collect();
    solid.faces().iter().map(cycle).collect()
}

/// Adds a few elements that meet the mesh in one face, one edge, one vertex or nothing.
///
/// All their other vertices are new, so that they fit whatever the mesh is.
fn grow(mesh: &mut Mesh, random: &mut Random) {
    let steps = if random.once_in(3) {
        1 + random.below(6)
    } else {
        0
    };
    for _ in 0..steps {
        let outer = mesh.outer_faces();
        let face = &outer[random.below(outer.len())];
        let reversed: Vec<u16> = face.iter().rev().copied().collect();
        let kept = if random.once_in(3) {
            random.below(3)
        } else {
            face.len()
        };
        attach(mesh, &reversed[..kept], face.len(), random);
    }
}

/// Adds an element one of whose faces, of so many corners, starts with the given vertices.
fn attach(mesh: &mut Mesh, given: &[u16], length: usize, random: &mut Random) {
    let fitting: Vec<(Solid, &[Place])> = Solid::ALL
        .iter()
        .flat_map(|&solid| solid.faces().iter().map(move |&face| (solid, face)))
        .filter(|(_, face)| face.len() == length)
        .collect();
    let (solid, face) = random.pick(&fitting);
    let mut element = record(solid, &[]);
    for (place, &vertex) in face.iter().zip(given) {
        element[*place] = vertex;
    }
    for corner in &mut element[1..=solid.corner_count()] {
        if *corner == 0 {
            *corner = mesh.add_vertex([0; 3].map(|_| random.between(-3000, 3000)));
        }
    }
    mesh.elements.push(element);
}

/// Moves the vertices, adds unused ones, and shuffles numbers, listings and order.
fn finish(mut mesh: Mesh, random: &mut Random) -> Mesh {
    move_vertices(&mut mesh, random);
    for _ in 0..random.pick(&[0, 0, 0, 1, 5]) {
        let limit = COORDINATE_LIMIT;
        mesh.add_vertex([0; 3].map(|_| random.between(-limit, limit)));
    }
    if random.once_in(8) {
        mesh.elements = mesh.elements.iter().map(mirrored).collect();
    }
    if !random.once_in(8) {
        renumber(&mut mesh, random);
    }
    if !random.once_in(8) {
        relist(&mut mesh, random);
    }
    if !random.once_in(8) {
        random.shuffle(&mut mesh.elements);
    }
    mesh.elements.truncate(ELEMENT_LIMIT);
    assert!(mesh.vertices.len() <= VERTEX_LIMIT);
    mesh
}

/// Moves every vertex a little, much, or anywhere within the limits, or leaves them as they are.
fn move_vertices(mesh: &mut Mesh, random: &mut Random) {
    let limit = COORDINATE_LIMIT;
    let noise = random.pick(&[0, 90, 90, 90, 700, limit]);
    for point in &mut mesh.vertices {
        for coordinate in point {
            let moved = *coordinate + random.between(-noise, noise);
            *coordinate = moved.clamp(-limit, limit);
        }
    }
    if random.once_in(4) {
        flatten(mesh, random);
    }
}

/// Gives some vertices a coordinate of others, so that volumes of zero occur.
fn flatten(mesh: &mut Mesh, random: &mut Random) {
    let count = mesh.vertices.len();
    let axis = random.below(3);
    for _ in 0..random.pick(&[1, 2, 5, count]) {
        let [from, to] = [0; 2].map(|_| random.below(count));
        mesh.vertices[to][axis] = mesh.vertices[from][axis];
    }
}

fn renumber(mesh: &mut Mesh, random: &mut Random) {
    let mut numbers: Vec<u16> = (1..=mesh.vertices.len() as u16).collect();
    random.shuffle(&mut numbers);
    let mut vertices = mesh.vertices.clone();
    for (point, &number) in mesh.vertices.iter().zip(&numbers) {
        vertices[number as usize - 1] = *point;
    }
    mesh.vertices = vertices;
    for element in &mut mesh.elements {
        let corners = element[0] as usize;
        for vertex in &mut element[1..=corners] {
            *vertex = numbers[*vertex as usize - 1];
        }
    }
}

fn relist(mesh: &mut Mesh, random: &mut Random) {
    for element in &mut mesh.elements {
        let solid = Solid::of_kind(element[0]).expect("a solid");
        let rotations = rotations(solid);
        *element = relisted(element, &rotations[random.below(rotations.len())]);
    }
}
