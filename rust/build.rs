//! Links the proved library, which `tools/library.sh` writes to target/staticlib in the repository's root.

use std::env;
use std::path::PathBuf;

fn main() {
    println!("cargo::rerun-if-env-changed=BRINE_LIBRARY_FOLDER");
    let built = PathBuf::from(env!("CARGO_MANIFEST_DIR")).join("../target/staticlib");
    let folder = env::var_os("BRINE_LIBRARY_FOLDER").map_or(built, PathBuf::from);
    let archive = folder.join("libbrine.a");
    println!("cargo::rerun-if-changed={}", archive.display());
    if archive.is_file() {
        println!("cargo::rustc-link-search=native={}", folder.display());
        println!("cargo::rustc-link-lib=static=brine");
    } else {
        println!(
            "cargo::error=there is no {}: run `tools/library.sh` in the repository's root, or name \
             the folder of libbrine.a in BRINE_LIBRARY_FOLDER",
            archive.display()
        );
    }
}
