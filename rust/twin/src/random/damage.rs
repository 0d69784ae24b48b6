//! Damage to files and tables: mostly one thing changed, of every kind that a refusal names.

use super::Random;
use super::cases::{FileCase, TableCase};
use super::mesh::mirrored;
use crate::twin::{COORDINATE_LIMIT, ELEMENT_WIDTH, VERTEX_WIDTH};

/// Fields that are of no form, beyond a limit, or only just of a form.
const FIELDS: &[&str] = &[
    "500.000",
    "-500",
    "500.001",
    "-500.001",
    "1250",
    "1,250",
    "1,2,3",
    ",",
    "-,",
    "500,001",
    ".5",
    "5.",
    "-.5",
    "1.2500",
    "-",
    "--1",
    "+1",
    "00",
    "01",
    "-01",
    "-0",
    "-0.0",
    "0.000",
    "0.0000",
    "1e3",
    "1.2.3",
    "999999",
    "999999.999",
    "1000000",
    "1234567",
    "0",
    "1",
    "4096",
    "4097",
    "9999",
    "10000",
    "00001",
    "1a",
    "\r",
    "\t1",
    "0\r",
    "nan",
];

/// Marks that are unknown, short, or belong to another line.
const MARKS: &[&str] = &[
    "VX", "TE", "PY", "PZ", "PR", "HX", "EN", "vx", "V", "", " ", "VXX", "XX", "ENE", "T", "\r",
];

/// Bytes that matter to a reader, for changes of one byte.
const BYTES: &[u8] = b" ,.-+0123456789\n\r\tVXTEPYZRHN\x00\xff";

/// A change of a file, which is not empty.
type FileDamage = fn(&mut FileCase, &mut Random);
/// A change of a table of at least one element, a count or a lent length.
type TableDamage = fn(&mut TableCase, &mut Random);

const FILE_DAMAGE: &[(&str, FileDamage)] = &[
    ("one byte changed", change_byte),
    ("one byte removed", remove_byte),
    ("one byte inserted", insert_byte),
    ("cut short", cut_short),
    ("something after EN", add_after_end),
    ("lines that end in bytes 13 and 10", put_returns),
    ("a line dropped", drop_line),
    ("a line doubled", double_line),
    ("two lines exchanged", exchange_lines),
    ("a comma", put_comma),
    ("an extra space", add_space),
    ("another field", change_field),
    ("another mark", change_mark),
    ("another count", change_count),
    ("another vertex number", change_corner),
    ("a field too few", drop_field),
    ("a field too many", add_field),
];

const TABLE_DAMAGE: &[(&str, TableDamage)] = &[
    ("one number changed", change_number),
    ("another kind", change_kind),
    ("a spare number", fill_spare),
    ("a vertex twice in one element", repeat_vertex),
    ("an element twice", double_element),
    ("an element inside out", mirror_element),
    ("two corners exchanged", exchange_corners),
    ("two vertices made one", merge_vertices),
    ("another vertex count", change_vertex_count),
    ("another element count", change_element_count),
    ("a table too short", shorten),
    ("another coordinate", change_coordinate),
    ("a corner replaced", replace_corner),
    ("corners drawn anew", scramble),
];

/// Damages a file, which is not empty, in one way.
pub fn damage_file(case: &mut FileCase, random: &mut Random) {
    let (name, damage) = random.pick(FILE_DAMAGE);
    damage(case, random);
    case.name = name;
}

/// Damages a table of at least one element in one way.
pub fn damage_table(case: &mut TableCase, random: &mut Random) {
    let (name, damage) = random.pick(TABLE_DAMAGE);
    damage(case, random);
    case.name = name;
}

fn change_byte(case: &mut FileCase, random: &mut Random) {
    let index = random.below(case.bytes.len());
    case.bytes[index] = random.pick(BYTES);
}

fn remove_byte(case: &mut FileCase, random: &mut Random) {
    case.bytes.remove(random.below(case.bytes.len()));
}

fn insert_byte(case: &mut FileCase, random: &mut Random) {
    let index = random.below(case.bytes.len() + 1);
    case.bytes.insert(index, random.pick(BYTES));
}

/// The last byte 10 is missing, or more than that.
fn cut_short(case: &mut FileCase, random: &mut Random) {
    let any = 1 + random.below(case.bytes.len());
    let missing = random.pick(&[1, any]);
    case.bytes.truncate(case.bytes.len() - missing);
}

fn add_after_end(case: &mut FileCase, random: &mut Random) {
    const BEHIND: &[&str] = &[
        "\n",
        " ",
        "x",
        "\r\n",
        "EN 0 0\n",
        "VX 0 0 0\n",
        "TE 1 2 3 4",
    ];
    case.bytes.extend_from_slice(random.pick(BEHIND).as_bytes());
}

fn put_returns(case: &mut FileCase, _: &mut Random) {
    let lines: Vec<&[u8]> = case.bytes.split(|&byte| byte == b'\n').collect();
    case.bytes = lines.join(&b"\r\n"[..]);
}

fn drop_line(case: &mut FileCase, random: &mut Random) {
    let mut lines = lines_of(case);
    lines.remove(random.below(lines.len()));
    case.bytes = lines.concat();
}

fn double_line(case: &mut FileCase, random: &mut Random) {
    let mut lines = lines_of(case);
    let index = random.below(lines.len());
    lines.insert(index, lines[index].clone());
    case.bytes = lines.concat();
}

fn exchange_lines(case: &mut FileCase, random: &mut Random) {
    let mut lines = lines_of(case);
    let [first, second] = [0; 2].map(|_| random.below(lines.len()));
    lines.swap(first, second);
    case.bytes = lines.concat();
}

/// Puts a comma for a field's last point, or at its end.
fn put_comma(case: &mut FileCase, random: &mut Random) {
    change_line(case, random, |words, random| {
        let word = random.below(words.len());
        match words[word].iter().rposition(|&byte| byte == b'.') {
            Some(point) => words[word][point] = b',',
            None => words[word].push(b','),
        }
    });
}

/// Adds a space at the start of a line, behind its mark, at its end, or between its fields.
fn add_space(case: &mut FileCase, random: &mut Random) {
    change_line(case, random, |words, random| {
        let between = random.below(words.len() + 1);
        let index = random.pick(&[0, 1, words.len(), between]);
        words.insert(index, Vec::new());
    });
}

fn change_field(case: &mut FileCase, random: &mut Random) {
    change_line(case, random, |words, random| {
        put_field(words, random.pick(FIELDS), random);
    });
}

fn change_mark(case: &mut FileCase, random: &mut Random) {
    change_line(case, random, |words, random| {
        words[0] = random.pick(MARKS).as_bytes().to_vec();
    });
}

fn drop_field(case: &mut FileCase, random: &mut Random) {
    change_line(case, random, |words, _| {
        words.pop();
    });
}

fn add_field(case: &mut FileCase, random: &mut Random) {
    change_line(case, random, |words, _| words.push(b"1".to_vec()));
}

/// Puts a count of the last line off by one, or far off.
fn change_count(case: &mut FileCase, random: &mut Random) {
    let last = lines_of(case).len() - 1;
    change_line_at(case, last, |words| {
        let index = random.pick(&[1, 2]);
        if let Some(word) = words.get_mut(index) {
            let count = String::from_utf8_lossy(word).parse().unwrap_or(0_usize);
            let changed = random.pick(&[count + 1, count.saturating_sub(1), 0, 9999, 10_000]);
            *word = changed.to_string().into_bytes();
        }
    });
}

/// Puts another vertex number in an element line.
fn change_corner(case: &mut FileCase, random: &mut Random) {
    let lines = lines_of(case);
    let vertices = lines.iter().filter(|line| line.starts_with(b"VX")).count();
    let behind = lines.len() - vertices;
    let any = 1 + random.below(vertices.max(1));
    let changed = random.pick(&[0, 1, vertices, vertices + 1, any, any, any]);
    let index = vertices.min(lines.len() - 1) + random.below(behind.max(1));
    change_line_at(case, index, |words| {
        put_field(words, &changed.to_string(), random);
    });
}

/// The lines of a file, each with its byte 10.
fn lines_of(case: &FileCase) -> Vec<Vec<u8>> {
    case.bytes
        .split_inclusive(|&byte| byte == b'\n')
        .map(<[u8]>::to_vec)
        .collect()
}

/// Changes the words of a random line.
fn change_line(
    case: &mut FileCase,
    random: &mut Random,
    change: fn(&mut Vec<Vec<u8>>, &mut Random),
) {
    let index = random.below(lines_of(case).len());
    change_line_at(case, index, |words| change(words, random));
}

/// Changes the words of a line, which are its mark and its fields, and ends it in byte 10.
fn change_line_at(case: &mut FileCase, index: usize, change: impl FnOnce(&mut Vec<Vec<u8>>)) {
    let mut lines = lines_of(case);
    let line = &mut lines[index];
    let text = line.strip_suffix(b"\n").unwrap_or(line);
    let mut words: Vec<Vec<u8>> = text
        .split(|&byte| byte == b' ')
        .map(<[u8]>::to_vec)
        .collect();
    change(&mut words);
    *line = words.join(&b' ');
    line.push(b'\n');
    case.bytes = lines.concat();
}

/// Puts a field in the place of one behind the mark, where there is one.
fn put_field(words: &mut [Vec<u8>], field: &str, random: &mut Random) {
    if words.len() > 1 {
        let index = 1 + random.below(words.len() - 1);
        words[index] = field.as_bytes().to_vec();
    }
}

/// The index in the table of a random element's kind.
fn pick_element(case: &TableCase, random: &mut Random) -> usize {
    ELEMENT_WIDTH * random.below(case.elements.len() / ELEMENT_WIDTH)
}

/// The index in the table of a random corner of a random element.
fn pick_corner(case: &TableCase, random: &mut Random) -> usize {
    let element = pick_element(case, random);
    element + 1 + random.below(case.elements[element] as usize)
}

fn change_number(case: &mut TableCase, random: &mut Random) {
    let index = random.below(case.elements.len());
    let count = case.vertex_count as u16;
    case.elements[index] = random.pick(&[0, 1, count, count + 1, 4096, 4097, u16::MAX]);
}

fn change_kind(case: &mut TableCase, random: &mut Random) {
    let element = pick_element(case, random);
    case.elements[element] = random.pick(&[0, 1, 3, 4, 5, 6, 7, 8, 9, 260, u16::MAX]);
}

fn fill_spare(case: &mut TableCase, random: &mut Random) {
    let element = pick_element(case, random);
    let kind = case.elements[element] as usize;
    if kind < 8 {
        let index = element + 1 + kind + random.below(8 - kind);
        case.elements[index] = 1 + random.below(case.vertex_count) as u16;
    }
}

fn repeat_vertex(case: &mut TableCase, random: &mut Random) {
    let element = pick_element(case, random);
    let kind = case.elements[element] as usize;
    let [from, to] = [0; 2].map(|_| element + 1 + random.below(kind));
    case.elements[to] = case.elements[from];
}

fn double_element(case: &mut TableCase, random: &mut Random) {
    let [from, to] = [0; 2].map(|_| pick_element(case, random));
    case.elements.copy_within(from..from + ELEMENT_WIDTH, to);
}

fn mirror_element(case: &mut TableCase, random: &mut Random) {
    let element = pick_element(case, random);
    let record = &mut case.elements[element..element + ELEMENT_WIDTH];
    let listed = mirrored(&std::array::from_fn(|index| record[index]));
    record.copy_from_slice(&listed);
}

fn exchange_corners(case: &mut TableCase, random: &mut Random) {
    let element = pick_element(case, random);
    let kind = case.elements[element] as usize;
    let [first, second] = [0; 2].map(|_| element + 1 + random.below(kind));
    case.elements.swap(first, second);
}

/// Puts one vertex for another everywhere, so that far parts of the mesh meet.
fn merge_vertices(case: &mut TableCase, random: &mut Random) {
    let [kept, gone] = [0; 2].map(|_| case.elements[pick_corner(case, random)]);
    for record in case.elements.chunks_mut(ELEMENT_WIDTH) {
        for vertex in &mut record[1..] {
            if *vertex == gone {
                *vertex = kept;
            }
        }
    }
}

fn change_vertex_count(case: &mut TableCase, random: &mut Random) {
    let count = case.vertex_count;
    case.vertex_count = random.pick(&[count - 1, count + 1, 0, 4096, 4097, usize::MAX]);
}

fn change_element_count(case: &mut TableCase, random: &mut Random) {
    let count = case.element_count;
    case.element_count = random.pick(&[count - 1, count + 1, 0, 1024, 1025, usize::MAX]);
}

/// Makes a lent table one number shorter, or much shorter.
fn shorten(case: &mut TableCase, random: &mut Random) {
    if random.once_in(2) {
        let needed = ELEMENT_WIDTH * case.element_count;
        case.elements
            .truncate(random.pick(&[needed - 1, needed / 2, 0]));
    } else {
        let needed = VERTEX_WIDTH * case.vertex_count;
        case.vertices
            .truncate(random.pick(&[needed - 1, needed / 2, 0]));
    }
}

fn change_coordinate(case: &mut TableCase, random: &mut Random) {
    let index = random.below(case.vertices.len());
    let limit = COORDINATE_LIMIT;
    case.vertices[index] = random.pick(&[limit, -limit, limit + 1, -limit - 1, i32::MAX, i32::MIN]);
}

fn replace_corner(case: &mut TableCase, random: &mut Random) {
    let index = pick_corner(case, random);
    case.elements[index] = 1 + random.below(case.vertex_count) as u16;
}

/// Corners drawn anew from few vertices, so that elements meet in every way.
fn scramble(case: &mut TableCase, random: &mut Random) {
    let among = 8 + random.below(8);
    case.vertex_count = case.vertex_count.max(among);
    let point = |_| random.between(-1000, 1000);
    let needed = VERTEX_WIDTH * case.vertex_count;
    if case.vertices.len() < needed {
        let missing = needed - case.vertices.len();
        case.vertices.extend((0..missing).map(point));
    }
    let elements = 1 + random.below(3);
    case.element_count = elements;
    case.elements.clear();
    for _ in 0..elements {
        let record = super::mesh::random_record(random, among);
        case.elements.extend_from_slice(&record);
    }
}
