//! Cases for the entries: what is lent, how much of it, and what the case is about.

use super::Random;
use super::damage::{damage_file, damage_table};
use super::mesh::{Mesh, large_mesh, mesh, record};
use super::text::{free_text, plain_text};
use crate::twin::{ELEMENT_WIDTH, FILE_LIMIT, Solid, VERTEX_WIDTH};
use std::fmt;

/// A file to read or convert.
#[derive(Clone)]
pub struct FileCase {
    pub name: &'static str,
    pub bytes: Vec<u8>,
    /// The length of the lent vertex table.
    pub vertex_room: usize,
    /// The length of the lent element table.
    pub element_room: usize,
    /// By how much the lent output is longer than the text needs; negative for a short one.
    pub output_slack: isize,
}

/// A mesh as tables, to judge, cut and count.
#[derive(Clone)]
pub struct TableCase {
    pub name: &'static str,
    pub vertex_count: usize,
    pub element_count: usize,
    pub elements: Vec<u16>,
    pub vertices: Vec<i32>,
    /// By how much the lent output is longer than the tetrahedra need; negative for a short one.
    pub output_slack: isize,
}

impl fmt::Display for FileCase {
    fn fmt(&self, out: &mut fmt::Formatter) -> fmt::Result {
        writeln!(out, "file: {}", self.name)?;
        writeln!(
            out,
            "lent: {} numbers for vertices, {} for elements, output slack {}",
            self.vertex_room, self.element_room, self.output_slack
        )?;
        for line in self.bytes.split_inclusive(|&byte| byte == b'\n') {
            writeln!(out, "{}", line.escape_ascii())?;
        }
        Ok(())
    }
}

impl fmt::Display for TableCase {
    fn fmt(&self, out: &mut fmt::Formatter) -> fmt::Result {
        writeln!(out, "tables: {}", self.name)?;
        writeln!(
            out,
            "{} vertices, {} elements, output slack {}",
            self.vertex_count, self.element_count, self.output_slack
        )?;
        for record in self.elements.chunks(ELEMENT_WIDTH) {
            writeln!(out, "element {record:?}")?;
        }
        for point in self.vertices.chunks(VERTEX_WIDTH) {
            writeln!(out, "vertex {point:?}")?;
        }
        Ok(())
    }
}

impl FileCase {
    /// A text with exactly the room that its mesh needs.
    pub fn of(name: &'static str, bytes: Vec<u8>, mesh: &Mesh) -> FileCase {
        FileCase {
            name,
            bytes,
            vertex_room: VERTEX_WIDTH * mesh.vertices.len(),
            element_room: ELEMENT_WIDTH * mesh.elements.len(),
            output_slack: 0,
        }
    }
}

impl TableCase {
    /// The tables of a mesh, exactly as long as needed.
    pub fn of(name: &'static str, mesh: &Mesh) -> TableCase {
        TableCase {
            name,
            vertex_count: mesh.vertices.len(),
            element_count: mesh.elements.len(),
            elements: mesh.element_table(),
            vertices: mesh.vertex_table(),
            output_slack: 0,
        }
    }
}

/// A random file: most are meshes that fit, the others damaged, garbage or short of room.
pub fn file_case(random: &mut Random) -> FileCase {
    let mesh = any_mesh(random);
    let text = free_text(&mesh, random);
    let mut case = FileCase::of("a mesh", text, &mesh);
    case.vertex_room += random.pick(&[0, 1, 2, 3, 30]);
    case.element_room += random.pick(&[0, 1, 8, 9, 30]);
    case.output_slack = random.pick(&[0, 1, 7]);
    match random.below(100) {
        0..=31 => {
            for _ in 0..random.pick(&[1, 1, 1, 2]) {
                if !case.bytes.is_empty() {
                    damage_file(&mut case, random);
                }
            }
        }
        32..=35 => shorten_room(&mut case, &mesh, random),
        36..=38 => garbage(&mut case, random),
        39 if random.once_in(4) => at_limit(&mut case, random),
        _ => {}
    }
    case
}

/// A random mesh as tables: most fit, the others are damaged or short of room.
pub fn table_case(random: &mut Random) -> TableCase {
    let mesh = any_mesh(random);
    let mut case = TableCase::of("a mesh", &mesh);
    case.output_slack = random.pick(&[0, 1, 7]);
    let behind = random.pick(&[0, 1, 9, 20]);
    case.elements
        .extend((0..behind).map(|_| random.bits() as u16));
    let behind = random.pick(&[0, 1, 3, 20]);
    case.vertices
        .extend((0..behind).map(|_| random.bits() as i32));
    match random.below(100) {
        0..=36 => {
            case.elements.truncate(ELEMENT_WIDTH * case.element_count);
            damage_table(&mut case, random);
        }
        37..=39 => {
            case.name = "output too short";
            case.output_slack = random.pick(&[-1, -1, -4, -100]);
        }
        _ => {}
    }
    case
}

/// Mostly a small mesh, rarely one near the limits.
fn any_mesh(random: &mut Random) -> Mesh {
    if random.once_in(400) {
        large_mesh(random)
    } else {
        mesh(random)
    }
}

/// Makes a lent table or the output one short, or much shorter.
fn shorten_room(case: &mut FileCase, mesh: &Mesh, random: &mut Random) {
    let vertices = VERTEX_WIDTH * mesh.vertices.len();
    let elements = ELEMENT_WIDTH * mesh.elements.len();
    match random.below(3) {
        0 => {
            case.name = "vertex table too short";
            case.vertex_room = random.pick(&[vertices - 1, vertices / 2, 0]);
        }
        1 => {
            case.name = "element table too short";
            case.element_room = random.pick(&[elements - 1, elements / 2, 0]);
        }
        _ => {
            case.name = "output too short";
            case.output_slack = random.pick(&[-1, -1, -20, -1_000_000]);
        }
    }
}

/// A few pieces of lines in any order.
fn garbage(case: &mut FileCase, random: &mut Random) {
    const PIECES: &[&str] = &[
        "VX",
        "TE",
        "PY",
        "PZ",
        "PR",
        "HX",
        "EN",
        " ",
        " ",
        " ",
        "0",
        "1",
        "2",
        "1.5",
        "-",
        ".",
        ",",
        "\n",
        "\n",
        "\r",
        "VX 0 0 0\n",
        "VX 1 0 0\n",
        "TE 1 2 3 4\n",
        "EN 0 0\n",
        "EN 1 0\n",
        "\u{fc}",
    ];
    case.name = "pieces in any order";
    case.bytes.clear();
    for _ in 0..random.below(12) {
        case.bytes.extend_from_slice(random.pick(PIECES).as_bytes());
    }
}

/// A file about as long as a file may be, or with about as many vertices and elements as a mesh may have.
fn at_limit(case: &mut FileCase, random: &mut Random) {
    case.name = "near a limit";
    case.bytes = if random.once_in(2) {
        text_of_length(FILE_LIMIT - 2 + random.below(5))
    } else {
        short_text(&separate(4094 + random.below(5), 1022 + random.below(5)))
    };
    case.vertex_room = VERTEX_WIDTH * random.pick(&[4095, 4096, 4100]);
    case.element_room = ELEMENT_WIDTH * random.pick(&[1023, 1024, 1030]);
}

/// Separate tetrahedra over so many vertices, four each.
fn separate(vertices: usize, elements: usize) -> Mesh {
    let corner = |index: usize, k: usize| (4 * index + k + 1) as u16;
    let element = |index| {
        record(
            Solid::Tetrahedron,
            &[0, 1, 2, 3].map(|k| corner(index % 1024, k)),
        )
    };
    Mesh {
        vertices: vec![[0; 3]; vertices],
        elements: (0..elements).map(element).collect(),
    }
}

/// The shortest text of a mesh whose vertices are all zero.
fn short_text(mesh: &Mesh) -> Vec<u8> {
    let text = String::from_utf8(plain_text(mesh)).expect("plain text");
    text.replace("0.000", "0").into_bytes()
}

/// A text of exactly so many bytes: vertices of zeros with one to three decimals.
fn text_of_length(length: usize) -> Vec<u8> {
    let vertices = 3600;
    let end = format!("EN {vertices} 0\n");
    let mut spare = length - end.len() - 15 * vertices;
    let mut text = String::new();
    for _ in 0..vertices {
        text.push_str("VX");
        for _ in 0..3 {
            let more = spare.min(2);
            spare -= more;
            text.push_str(&" 0.000"[..4 + more]);
        }
        text.push('\n');
    }
    text.push_str(&end);
    assert_eq!(text.len(), length);
    text.into_bytes()
}

/// Files at the limits and one beyond each.
pub fn limit_files() -> Vec<FileCase> {
    let mut cases = Vec::new();
    let mut add = |name, text: Vec<u8>| {
        let mut case = FileCase::of(name, text, &Mesh::default());
        case.vertex_room = 3 * 4096;
        case.element_room = 9 * 1024;
        cases.push(case);
    };
    add("4,096 vertices", short_text(&separate(4096, 0)));
    add("4,097 vertices", short_text(&separate(4097, 0)));
    add("1,024 elements", short_text(&separate(4096, 1024)));
    add("1,025 elements", short_text(&separate(4096, 1025)));
    add("65,536 bytes", text_of_length(FILE_LIMIT));
    add("65,537 bytes", text_of_length(FILE_LIMIT + 1));
    for (name, text) in SHORT_FILES {
        add(name, text.as_bytes().to_vec());
    }
    cases
}

/// Short files about one rule each.
const SHORT_FILES: &[(&str, &str)] = &[
    ("empty", ""),
    ("one byte 10", "\n"),
    ("EN alone", "EN 0 0\n"),
    ("EN without byte 10", "EN 0 0"),
    ("EN before its vertices", "EN 1 0\nVX 0 0 0\n"),
    ("no EN", "VX 0 0 0\n"),
    (
        "the greatest coordinate",
        "VX 500.000 -500.000 500\nEN 1 0\n",
    ),
    ("one above", "VX 0 0 500.001\nEN 1 0\n"),
    ("one below", "VX 0 -500.001 0\nEN 1 0\n"),
    ("far above", "VX 1250 0 0\nEN 1 0\n"),
    ("a comma", "VX 1,250 0 0\nEN 1 0\n"),
    ("a comma behind a wrong shape", "VX 1,250 0  0\nEN 1 0\n"),
    ("a comma in a count", "EN 0,0 0\n"),
    (
        "a comma in a vertex number",
        "VX 0 0 0\nTE 1,1 1 1 1\nEN 1 1\n",
    ),
    ("no digit before the point", "VX .5 0 0\nEN 1 0\n"),
    ("no digit after the point", "VX 5. 0 0\nEN 1 0\n"),
    ("four decimals", "VX 1.2500 0 0\nEN 1 0\n"),
    ("seven digits", "VX 1000000 0 0\nEN 1 0\n"),
    ("minus zero", "VX -0 -0.0 -0.000\nEN 1 0\n"),
    ("vertices off by one", "VX 0 0 0\nEN 2 0\n"),
    ("elements off by one", "VX 0 0 0\nEN 1 1\n"),
    ("a count of five digits", "VX 0 0 0\nEN 10000 0\n"),
    ("a line behind EN", "EN 0 0\n\n"),
    ("a piece of a line behind EN", "EN 0 0\nVX"),
    ("vertex 0", "VX 0 0 0\nTE 0 1 1 1\nEN 1 1\n"),
    ("vertex 2 of 1", "VX 0 0 0\nTE 2 1 1 1\nEN 1 1\n"),
    (
        "VX after an element",
        "VX 0 0 0\nTE 1 1 1 1\nVX 0 0 0\nEN 2 1\n",
    ),
    ("the same vertex", "VX 0 0 0\nTE 1 1 1 1\nEN 1 1\n"),
    ("an unknown mark without byte 10", "XY 1"),
    ("a mark alone", "VX\n"),
    ("half a mark", "V\n"),
    ("no space after the mark", "VX0 0 0\n"),
];

/// Tables at the limits and one beyond each.
pub fn limit_tables() -> Vec<TableCase> {
    let mut cases = Vec::new();
    for (name, vertices, elements) in [
        ("nothing", 0, 0),
        ("the most vertices", 4096, 1),
        ("a vertex too many", 4097, 1),
        ("the most elements", 4096, 1024),
        ("an element too many", 4096, 1025),
        ("both too many", 4097, 1025),
    ] {
        cases.push(TableCase::of(name, &separate(vertices, elements)));
    }
    let mut short = TableCase::of("an element table one short", &separate(4096, 1024));
    short.elements.pop();
    cases.push(short);
    let mut short = TableCase::of("a vertex table one short", &separate(4096, 1024));
    short.vertices.pop();
    cases.push(short);
    let mut beyond = TableCase::of("the last coordinate beyond", &separate(4096, 1024));
    beyond.vertices[3 * 4096 - 1] = 500_001;
    cases.push(beyond);
    cases
}
