//! Finds the proved library, libkilteshva.a: in the folder that KILTESHVA_LIBRARY names, or else where
//! `shipped/library` writes it.

use std::env;
use std::path::{Path, PathBuf};

const FOLDER: &str = "KILTESHVA_LIBRARY";
const WRITTEN_TO: &str = "../../target/library";
const PROGRAM: &str = "KILTESHVA_PROGRAM";

fn main() {
    // `./judge` hands over the digests of the library and of the sources, so that another library or an edited
    // source is built anew whatever its time: cargo itself goes by times.
    for name in [FOLDER, "KILTESHVA_MADE_OF", PROGRAM] {
        println!("cargo::rerun-if-env-changed={name}");
    }
    if let Ok(digest) = env::var(PROGRAM) {
        println!("cargo::rustc-env={PROGRAM}={digest}");
    }

    let folder = folder();
    let library = folder.join("libkilteshva.a");
    println!("cargo::rerun-if-changed={}", library.display());
    println!("cargo::rustc-link-search=native={}", folder.display());
    // What links nothing, as documentation and lints, does without it.
    if !library.is_file() {
        println!(
            "cargo::warning=there is no proved library {}, so nothing can be linked: run `shipped/library` at the top \
             of the repository, or name the folder that holds libkilteshva.a in {FOLDER}",
            library.display()
        );
    }
}

fn folder() -> PathBuf {
    match env::var_os(FOLDER) {
        Some(folder) => folder.into(),
        None => Path::new(env!("CARGO_MANIFEST_DIR")).join(WRITTEN_TO),
    }
}
