//! The proved library and the independent twin on the same meshes in one run, as ratios.
//!
//!     cargo bench --offline                  the tables of docs/SPEED.md
//!     cargo bench --offline -- --strict      the same; status 1 where a bar is passed
//!     cargo bench --offline -- judge cut     only some entries, as for a profile
//!
//! Each number is processor time, the least of many interleaved rounds, so that a busy machine disturbs it little.

mod measure;

use brinetoggle_twin::twin;
use measure::{Sample, compare, samples};
use std::hint::black_box;
use std::path::PathBuf;
use std::process::{Command, ExitCode};
use std::time::Duration;

/// How often an entry may take the twin's time.
const ENTRY_BAR: f64 = 1.25;
/// The same for the whole conversion of the largest file.
const CONVERSION_BAR: f64 = 1.5;
/// One entry on one mesh: what it is called and its least times.
struct Row {
    entry: &'static str,
    mesh: String,
    ours: Duration,
    twins: Duration,
    bar: Option<f64>,
}

impl Row {
    fn ratio(&self) -> f64 {
        self.ours.as_secs_f64() / self.twins.as_secs_f64()
    }

    fn is_over(&self) -> bool {
        self.bar.is_some_and(|bar| self.ratio() > bar)
    }
}

/// One row: two calls that must answer the same, then their times.
fn row<A: PartialEq + std::fmt::Debug>(
    entry: &'static str,
    sample: &Sample,
    bar: Option<f64>,
    mut ours: impl FnMut() -> A,
    mut twins: impl FnMut() -> A,
) -> Row {
    assert_eq!(ours(), twins(), "{entry} of {}", sample.name);
    let (ours, twins) = compare(
        &mut || {
            black_box(ours());
        },
        &mut || {
            black_box(twins());
        },
    );
    Row {
        entry,
        mesh: sample.name.clone(),
        ours,
        twins,
        bar,
    }
}

fn read(sample: &Sample) -> Row {
    let tables = || {
        (
            vec![0; 3 * twin::VERTEX_LIMIT],
            vec![0; 9 * twin::ELEMENT_LIMIT],
        )
    };
    let (mut ours, mut twins) = (tables(), tables());
    let text = &sample.text[..];
    row(
        "read",
        sample,
        Some(ENTRY_BAR),
        || {
            let counts = brinetoggle::read(black_box(text), &mut ours.0, &mut ours.1);
            counts.ok().map(|counts| (counts.vertices, counts.elements))
        },
        || {
            let counts = twin::read(black_box(text), &mut twins.0, &mut twins.1);
            counts.ok().map(|counts| (counts.vertices, counts.elements))
        },
    )
}

fn judge(sample: &Sample) -> Row {
    let (vertices, count) = (sample.vertex_count, sample.element_count);
    let elements = &sample.elements[..];
    row(
        "judge",
        sample,
        Some(ENTRY_BAR),
        || brinetoggle::judge(vertices, count, black_box(elements)).is_ok(),
        || twin::judge(vertices, count, black_box(elements)).is_ok(),
    )
}

fn cut(sample: &Sample) -> Row {
    let (vertices, count) = (sample.vertex_count, sample.element_count);
    let elements = &sample.elements[..];
    let mut ours = vec![0; 4 * twin::TETRAHEDRON_LIMIT];
    let mut twins = ours.clone();
    row(
        "cut",
        sample,
        Some(ENTRY_BAR),
        || brinetoggle::cut(vertices, count, black_box(elements), &mut ours).ok(),
        || twin::cut(vertices, count, black_box(elements), &mut twins).ok(),
    )
}

fn signs(sample: &Sample) -> Row {
    let (vertices, count) = (sample.vertex_count, sample.element_count);
    let (elements, points) = (&sample.elements[..], &sample.vertices[..]);
    row(
        "signs",
        sample,
        Some(ENTRY_BAR),
        || {
            let signs = brinetoggle::signs(vertices, count, black_box(elements), points);
            signs.ok().map(|s| [s.positive, s.zero, s.negative])
        },
        || {
            let signs = twin::signs(vertices, count, black_box(elements), points);
            signs.ok().map(|s| [s.positive, s.zero, s.negative])
        },
    )
}

/// Every record of the cut mesh, one a call into the same buffer; the answer is the text's length.
fn write(sample: &Sample) -> Row {
    let records: Vec<[u16; 9]> = sample
        .tetrahedra
        .chunks(4)
        .map(|t| [4, t[0], t[1], t[2], t[3], 0, 0, 0, 0])
        .collect();
    let points: &[[i32; 3]] = sample.vertices.as_chunks().0;
    let mut ours = [0; 48];
    let mut twins = [0; 48];
    row(
        "write",
        sample,
        Some(ENTRY_BAR),
        || {
            let mut length = 0;
            for &[x, y, z] in black_box(points) {
                length += brinetoggle::write_vertex(x, y, z, &mut ours).unwrap_or(0);
            }
            for record in black_box(&records) {
                length += brinetoggle::write_element(record, &mut ours).unwrap_or(0);
            }
            length + brinetoggle::write_end(points.len(), records.len(), &mut ours).unwrap_or(0)
        },
        || {
            let mut length = 0;
            for &[x, y, z] in black_box(points) {
                length += twin::write_vertex(x, y, z, &mut twins).unwrap_or(0);
            }
            for record in black_box(&records) {
                length += twin::write_element(record, &mut twins).unwrap_or(0);
            }
            length + twin::write_end(points.len(), records.len(), &mut twins).unwrap_or(0)
        },
    )
}

fn convert(sample: &Sample) -> Row {
    let mut ours = vec![0; twin::LONGEST_OUTPUT];
    let mut twins = ours.clone();
    let text = &sample.text[..];
    row(
        "convert",
        sample,
        Some(CONVERSION_BAR),
        || brinetoggle::convert(black_box(text), &mut ours).ok(),
        || twin::convert(black_box(text), &mut twins).ok(),
    )
}

/// Times an entry on a mesh.
type Entry = fn(&Sample) -> Row;

const ENTRIES: [(&str, Entry); 6] = [
    ("read", read),
    ("judge", judge),
    ("cut", cut),
    ("signs", signs),
    ("write", write),
    ("convert", convert),
];

/// The entries that the command line names, or all.
fn chosen_entries() -> Vec<Entry> {
    let named: Vec<String> = std::env::args()
        .skip(1)
        .filter(|word| !word.starts_with('-'))
        .collect();
    let chosen = |(name, _): &&(&str, Entry)| named.is_empty() || named.iter().any(|n| n == name);
    ENTRIES
        .iter()
        .filter(chosen)
        .map(|&(_, entry)| entry)
        .collect()
}

fn microseconds(time: Duration) -> String {
    format!("{:.1}", time.as_secs_f64() * 1e6)
}

/// A table of rows as Markdown; a bar that is passed is marked.
fn print_rows(title: &str, rows: &[Row]) {
    println!("\n{title}\n");
    println!("| entry | mesh | library, µs | twin, µs | ratio | bar |");
    println!("|---|---|---:|---:|---:|---|");
    for row in rows {
        let bar = match row.bar {
            Some(bar) if row.is_over() => format!("{bar}: over"),
            Some(bar) => format!("{bar}: held"),
            None => String::new(),
        };
        println!(
            "| {} | {} | {} | {} | {:.2} | {bar} |",
            row.entry,
            row.mesh,
            microseconds(row.ours),
            microseconds(row.twins),
            row.ratio(),
        );
    }
}

/// How the time of each entry grows from one size to the next.
fn print_growth(sizes: &[Sample], rows: &[Vec<Row>]) {
    let names: Vec<&str> = sizes.iter().map(|sample| &sample.name[..]).collect();
    println!(
        "\nGrowth, library (twin), µs and ratio, over {}\n",
        names.join(", ")
    );
    println!("| entry | {} |", names.join(" | "));
    println!("|---|{}", "---:|".repeat(names.len()));
    for rows in rows {
        let cells: Vec<String> = rows
            .iter()
            .map(|row| {
                let (ours, twins) = (microseconds(row.ours), microseconds(row.twins));
                format!("{ours} ({twins}) {:.2}", row.ratio())
            })
            .collect();
        println!("| {} | {} |", rows[0].entry, cells.join(" | "));
    }
}

/// The same mesh through vtkDataSetTriangleFilter, where VTK is installed for Python.
fn print_vtk(sample: &Sample) {
    let script = PathBuf::from(env!("CARGO_MANIFEST_DIR")).join("../tools/vtk_speed.py");
    let file = std::env::temp_dir().join(format!("brinetoggle-{}.mesh", std::process::id()));
    std::fs::write(&file, &sample.text).expect("a temporary file");
    let output = Command::new("/usr/bin/python3")
        .arg(script)
        .arg(&file)
        .output();
    let _ = std::fs::remove_file(&file);
    let words = match output {
        Ok(output) if output.status.success() => {
            String::from_utf8_lossy(&output.stdout).into_owned()
        }
        _ => "VTK: not installed here (Debian: python3-vtk9)".to_string(),
    };
    println!("\n{}", words.trim_end());
}

fn main() -> ExitCode {
    let (sizes, most_vertices) = samples();
    let largest = &sizes[2];
    println!(
        "the largest file: {}, {} vertices, {} bytes",
        largest.name,
        largest.vertex_count,
        largest.text.len()
    );
    let entries = chosen_entries();
    let rows: Vec<Vec<Row>> = entries
        .iter()
        .map(|entry| sizes.iter().map(entry).collect())
        .collect();
    let mut table: Vec<Row> = Vec::new();
    print_growth(&sizes, &rows);
    for mut rows in rows {
        table.extend(rows.pop());
    }
    table.extend(entries.iter().map(|entry| entry(&most_vertices)));
    print_rows("The largest meshes", &table);
    print_vtk(largest);
    let over = table.iter().filter(|row| row.is_over()).count();
    println!("\n{over} of {} rows are over their bar", table.len());
    let strict = std::env::args().any(|argument| argument == "--strict");
    if strict && over > 0 {
        return ExitCode::FAILURE;
    }
    ExitCode::SUCCESS
}
