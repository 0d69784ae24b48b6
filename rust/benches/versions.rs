//! Two builds of the proved library on the same meshes in one run, the new as a ratio of the old.
//!
//!     cargo bench --offline --bench versions -- OLD.so NEW.so
//!     cargo bench --offline --bench versions -- OLD.so NEW.so --strict      status 1 where a row is over the bar
//!
//! Each is a shared object made of that version's libbrine.a (tools/shared_object.sh) and loaded by its path, so that neither can stand in
//! for the other. Numbers are processor time, the least of many interleaved rounds.

mod measure;

use measure::{Sample, compare, samples};
use std::ffi::{CString, c_char, c_int, c_void};
use std::hint::black_box;
use std::process::ExitCode;

/// How much of the old time the new may take.
const BAR: f64 = 1.05;
/// The widths of the records that each version is lent; a later version may have wider ones.
const ELEMENT_WIDTH: usize = 9;
const TETRAHEDRON_WIDTH: usize = 4;

unsafe extern "C" {
    fn dlopen(path: *const c_char, flags: c_int) -> *mut c_void;
    fn dlsym(library: *mut c_void, name: *const c_char) -> *mut c_void;
}

type Read =
    unsafe extern "C" fn(*const u8, usize, *mut i32, usize, *mut u16, usize, *mut u64) -> u32;
type Judge = unsafe extern "C" fn(usize, usize, *const u16, usize, *mut u64) -> u32;
type Cut = unsafe extern "C" fn(usize, usize, *const u16, usize, *mut u16, usize, *mut u64) -> u32;
type Signs =
    unsafe extern "C" fn(usize, usize, *const u16, usize, *const i32, usize, *mut u64) -> u32;
type WriteVertex = unsafe extern "C" fn(i32, i32, i32, *mut u8, usize, *mut u64) -> u32;
type WriteElement = unsafe extern "C" fn(*const u16, *mut u8, usize, *mut u64) -> u32;
type Convert = unsafe extern "C" fn(*const u8, usize, *mut u8, usize, *mut u64) -> u32;

/// One version: its functions, and memory of its own to lend.
struct Version {
    read: Read,
    judge: Judge,
    cut: Cut,
    signs: Signs,
    write_vertex: WriteVertex,
    write_element: WriteElement,
    convert: Convert,
    vertices: Vec<i32>,
    elements: Vec<u16>,
    tetrahedra: Vec<u16>,
    output: Vec<u8>,
}

/// The function of that name, as a pointer of the type that the header gives it.
unsafe fn function<F>(library: *mut c_void, name: &str) -> F {
    let named = CString::new(name).expect("a name");
    // SAFETY: the library is open, and the caller's type is that of the header.
    unsafe {
        let found = dlsym(library, named.as_ptr());
        assert!(!found.is_null(), "there is no {name}");
        std::mem::transmute_copy(&found)
    }
}

impl Version {
    fn load(path: &str) -> Version {
        const RTLD_NOW_LOCAL: c_int = 2;
        let file = CString::new(path).expect("a path");
        // SAFETY: the shared object is one of this library, whose functions have the header's types.
        unsafe {
            let library = dlopen(file.as_ptr(), RTLD_NOW_LOCAL);
            assert!(!library.is_null(), "{path} cannot be loaded");
            Version {
                read: function(library, "brine_read"),
                judge: function(library, "brine_judge"),
                cut: function(library, "brine_cut"),
                signs: function(library, "brine_signs"),
                write_vertex: function(library, "brine_write_vertex"),
                write_element: function(library, "brine_write_element"),
                convert: function(library, "brine_convert"),
                vertices: vec![0; 3 * 4096],
                elements: vec![0; ELEMENT_WIDTH * 1024],
                tetrahedra: vec![0; TETRAHEDRON_WIDTH * 6144],
                output: vec![0; 512 * 1024],
            }
        }
    }

    /// One call of an entry on a mesh; the first numbers of its answer.
    fn call(&mut self, entry: &str, sample: &Sample) -> [u64; 7] {
        let mut answer = [0; 7];
        let told = answer.as_mut_ptr();
        let (count, elements) = (sample.element_count, &sample.elements[..]);
        let text = black_box(&sample.text[..]);
        // SAFETY: every pointer is to memory of the length that goes with it, and the answer has room for the longest array.
        unsafe {
            match entry {
                "read" => (self.read)(
                    text.as_ptr(),
                    text.len(),
                    self.vertices.as_mut_ptr(),
                    self.vertices.len(),
                    self.elements.as_mut_ptr(),
                    self.elements.len(),
                    told,
                ),
                "judge" => (self.judge)(
                    sample.vertex_count,
                    count,
                    elements.as_ptr(),
                    elements.len(),
                    told,
                ),
                "cut" => (self.cut)(
                    sample.vertex_count,
                    count,
                    elements.as_ptr(),
                    elements.len(),
                    self.tetrahedra.as_mut_ptr(),
                    self.tetrahedra.len(),
                    told,
                ),
                "signs" => (self.signs)(
                    sample.vertex_count,
                    count,
                    elements.as_ptr(),
                    elements.len(),
                    sample.vertices.as_ptr(),
                    sample.vertices.len(),
                    told,
                ),
                "convert" => (self.convert)(
                    text.as_ptr(),
                    text.len(),
                    self.output.as_mut_ptr(),
                    self.output.len(),
                    told,
                ),
                _ => self.write(sample, told),
            };
        }
        answer
    }

    /// Every vertex and every tetrahedron of the cut mesh, one a call into the same buffer; the last call's number.
    ///
    /// # Safety
    /// The pointer is to room for an answer array.
    unsafe fn write(&mut self, sample: &Sample, told: *mut u64) -> u32 {
        let (buffer, length) = (self.output.as_mut_ptr(), 48);
        let mut number = 0;
        // SAFETY: the buffer is longer than 48 bytes, and a record has its width.
        unsafe {
            for point in sample.vertices.chunks(3) {
                number = (self.write_vertex)(point[0], point[1], point[2], buffer, length, told);
            }
            for tetrahedron in sample.tetrahedra.chunks(4) {
                let mut record = [0; ELEMENT_WIDTH];
                record[0] = 4;
                record[1..5].copy_from_slice(tetrahedron);
                number = (self.write_element)(record.as_ptr(), buffer, length, told);
            }
        }
        number
    }
}

fn main() -> ExitCode {
    let named: Vec<String> = std::env::args()
        .skip(1)
        .filter(|word| !word.starts_with("--"))
        .collect();
    let [old, new] = &named[..] else {
        println!("versions: two shared objects are compared where they are named: OLD.so NEW.so");
        return ExitCode::SUCCESS;
    };
    let (mut old, mut new) = (Version::load(old), Version::load(new));
    let (sizes, most_vertices) = samples();
    println!("| entry | mesh | old, µs | new, µs | ratio |");
    println!("|---|---|---:|---:|---:|");
    let mut over = 0;
    for entry in ["read", "judge", "cut", "signs", "write", "convert"] {
        for sample in sizes.iter().chain([&most_vertices]) {
            assert_eq!(
                old.call(entry, sample),
                new.call(entry, sample),
                "{entry} of {}",
                sample.name
            );
            let (new_time, old_time) = compare(
                &mut || {
                    black_box(new.call(entry, sample));
                },
                &mut || {
                    black_box(old.call(entry, sample));
                },
            );
            let ratio = new_time.as_secs_f64() / old_time.as_secs_f64();
            over += usize::from(ratio > BAR);
            println!(
                "| {entry} | {} | {:.1} | {:.1} | {ratio:.2} |",
                sample.name,
                old_time.as_secs_f64() * 1e6,
                new_time.as_secs_f64() * 1e6,
            );
        }
    }
    println!("\n{over} rows are over {BAR}");
    let strict = std::env::args().any(|argument| argument == "--strict");
    if strict && over > 0 {
        return ExitCode::FAILURE;
    }
    ExitCode::SUCCESS
}
