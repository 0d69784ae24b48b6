//! What the speed comparisons share: meshes as tables and as text, and the least times of two calls that take turns.

use brinetoggle_twin::random::{Mesh, plain_text};
use brinetoggle_twin::twin;
use std::time::Duration;

/// How many rounds each comparison has.
const ROUNDS: usize = 300;
/// A round repeats a short call until about this much time has passed.
const ROUND_TIME: Duration = Duration::from_micros(300);

/// A mesh as tables and as text.
pub struct Sample {
    pub name: String,
    pub vertex_count: usize,
    pub element_count: usize,
    pub vertices: Vec<i32>,
    pub elements: Vec<u16>,
    pub tetrahedra: Vec<u16>,
    pub text: Vec<u8>,
}

/// A block of hexahedra with so many cells along each axis, the first `count` of them, with cells of so many thousandths.
fn block(size: [usize; 3], count: usize, step: i32) -> Mesh {
    let [nx, ny, nz] = size;
    let vertex = |x: usize, y: usize, z: usize| (1 + x + (nx + 1) * (y + (ny + 1) * z)) as u16;
    let mut mesh = Mesh::default();
    for z in 0..=nz {
        for y in 0..=ny {
            for x in 0..=nx {
                mesh.vertices
                    .push([x, y, z].map(|plane| step * plane as i32));
            }
        }
    }
    for cell in 0..count {
        let [x, y, z] = [cell % nx, cell / nx % ny, cell / (nx * ny)];
        let base = [[0, 0], [1, 0], [1, 1], [0, 1]];
        let mut record = [8; 9];
        for (place, corner) in record[1..].iter_mut().enumerate() {
            let [dx, dy] = base[place % 4];
            *corner = vertex(x + dx, y + dy, z + place / 4);
        }
        mesh.elements.push(record);
    }
    mesh
}

/// The text of a mesh, with no more decimals than its coordinates need.
fn short_text(mesh: &Mesh) -> Vec<u8> {
    let text = String::from_utf8(plain_text(mesh)).expect("plain text");
    let mut short = String::new();
    for line in text.lines() {
        let mut words = line.split(' ');
        short.push_str(words.next().expect("a mark"));
        for word in words {
            let word = if word.contains('.') {
                word.trim_end_matches('0').trim_end_matches('.')
            } else {
                word
            };
            short.push(' ');
            short.push_str(word);
        }
        short.push('\n');
    }
    short.into_bytes()
}

impl Sample {
    fn of(name: &str, mesh: &Mesh, text: Vec<u8>) -> Sample {
        let mut tetrahedra = vec![0; 4 * twin::TETRAHEDRON_LIMIT];
        let elements = mesh.element_table();
        let count = twin::cut(
            mesh.vertices.len(),
            mesh.elements.len(),
            &elements,
            &mut tetrahedra,
        )
        .expect("the elements fit");
        tetrahedra.truncate(4 * count);
        Sample {
            name: name.to_string(),
            vertex_count: mesh.vertices.len(),
            element_count: mesh.elements.len(),
            vertices: mesh.vertex_table(),
            elements,
            tetrahedra,
            text,
        }
    }

    /// A block of hexahedra.
    pub fn block(size: [usize; 3]) -> Sample {
        let count = size.iter().product();
        let mesh = block(size, count, 1250);
        let text = short_text(&mesh);
        Sample::of(&format!("{count} hexahedra"), &mesh, text)
    }

    /// The most vertices, with as many hexahedra as a file of 65,536 bytes then takes.
    pub fn most_vertices() -> Sample {
        let size = [15, 15, 15];
        let fits = |count| short_text(&block(size, count, 1000)).len() <= twin::FILE_LIMIT;
        let (mut least, mut greatest) = (0, twin::ELEMENT_LIMIT + 1);
        while least + 1 < greatest {
            let middle = (least + greatest) / 2;
            if fits(middle) {
                least = middle;
            } else {
                greatest = middle;
            }
        }
        let mesh = block(size, least, 1000);
        let text = short_text(&mesh);
        Sample::of(&format!("4096 vertices, {least} hexahedra"), &mesh, text)
    }
}

/// As C has it on 64-bit Linux.
#[repr(C)]
struct Timespec {
    seconds: i64,
    nanoseconds: i64,
}

unsafe extern "C" {
    fn clock_gettime(clock: i32, time: *mut Timespec) -> i32;
}

/// The processor time that this thread has taken.
fn thread_time() -> Duration {
    const CLOCK_THREAD_CPUTIME_ID: i32 = 3;
    let mut time = Timespec {
        seconds: 0,
        nanoseconds: 0,
    };
    // SAFETY: the pointer is to a structure of C's layout that lives through the call.
    let status = unsafe { clock_gettime(CLOCK_THREAD_CPUTIME_ID, &mut time) };
    assert_eq!(status, 0, "Linux has this clock");
    Duration::new(time.seconds as u64, time.nanoseconds as u32)
}

/// The time of one call, over enough calls to be measured.
fn time(call: &mut dyn FnMut(), repeats: usize) -> Duration {
    let start = thread_time();
    for _ in 0..repeats {
        call();
    }
    (thread_time() - start) / repeats as u32
}

/// How many calls fill a round.
fn repeats(call: &mut dyn FnMut()) -> usize {
    call();
    let once = time(call, 3).as_nanos().max(1);
    (ROUND_TIME.as_nanos() / once).clamp(1, 10_000) as usize
}

/// The least times of two calls over interleaved rounds, each going first every other time.
pub fn compare(ours: &mut dyn FnMut(), twins: &mut dyn FnMut()) -> (Duration, Duration) {
    let (our_repeats, twins_repeats) = (repeats(ours), repeats(twins));
    let (mut best, mut twins_best) = (Duration::MAX, Duration::MAX);
    for round in 0..ROUNDS {
        if round % 2 == 0 {
            best = best.min(time(ours, our_repeats));
            twins_best = twins_best.min(time(twins, twins_repeats));
        } else {
            twins_best = twins_best.min(time(twins, twins_repeats));
            best = best.min(time(ours, our_repeats));
        }
    }
    (best, twins_best)
}

/// The meshes that are measured: three sizes, the last of them the largest, and the one with the most vertices.
pub fn samples() -> ([Sample; 3], Sample) {
    let sizes = [[4, 4, 4], [8, 8, 4], [16, 8, 8]].map(Sample::block);
    (sizes, Sample::most_vertices())
}
