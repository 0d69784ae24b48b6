//! The stored inputs of tests/vectors and all that the program writes for each.

use std::fs;
use std::path::{Path, PathBuf};

/// What stands on standard input, and the cut mesh or the one line `NO number place second`.
pub struct Vector {
    pub name: String,
    pub input: Vec<u8>,
    pub expected: Vec<u8>,
}

/// All vectors in the order of their numbers.
pub fn vectors() -> Vec<Vector> {
    let folder = Path::new(env!("CARGO_MANIFEST_DIR")).join("../../tests/vectors");
    let mut inputs: Vec<PathBuf> = fs::read_dir(folder)
        .expect("the vectors are there")
        .map(|entry| entry.expect("an entry").path())
        .filter(|path| path.extension().is_some_and(|extension| extension == "in"))
        .collect();
    inputs.sort();
    inputs.iter().map(|path| vector(path)).collect()
}

fn vector(path: &Path) -> Vector {
    Vector {
        name: path.display().to_string(),
        input: fs::read(path).expect("an input"),
        expected: fs::read(path.with_extension("out")).expect("an output"),
    }
}

/// Sees that a program writes every expected output; each difference is printed whole.
pub fn check_all(program: impl Fn(&[u8]) -> Vec<u8>) {
    let vectors = vectors();
    assert!(vectors.len() >= 177, "only {} vectors", vectors.len());
    let mut failing = 0;
    for vector in &vectors {
        let written = program(&vector.input);
        if written != vector.expected {
            failing += 1;
            println!("== {} ==", vector.name);
            println!("-- input --\n{}", vector.input.escape_ascii());
            println!("-- expected --\n{}", vector.expected.escape_ascii());
            println!("-- written --\n{}", written.escape_ascii());
        }
    }
    assert_eq!(failing, 0, "of {} vectors", vectors.len());
}
