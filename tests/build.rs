// Links the library under test, which `bash make` writes, and reads the size of its cell.
use std::fs;
use std::path::{Path, PathBuf};

/// The library's source that has the number of words.
const SOURCE: &str = "crates/storage/src/lib.rt";

/// The number of words in the one line of the library's source that has it.
fn cell_words(source: &Path) -> String {
    println!("cargo:rerun-if-changed={}", source.display());
    let text = fs::read_to_string(source).expect(SOURCE);
    let number = |line: &str| {
        let rest = line.strip_prefix("pub const WORDS: usize = ")?;
        rest.strip_suffix(';').map(String::from)
    };
    let numbers: Vec<String> = text.lines().filter_map(number).collect();
    match &numbers[..] {
        [words] => words.clone(),
        _ => panic!("{SOURCE}: not exactly one line `pub const WORDS: usize = N;`"),
    }
}

fn main() {
    let here = PathBuf::from(std::env::var("CARGO_MANIFEST_DIR").unwrap());
    let words = cell_words(&here.join("..").join(SOURCE));
    println!("cargo:rustc-env=LIBRARY_CELL_WORDS={words}");
    let folder = here.join("../target/lib");
    let library = folder.join("libtdma.a");
    println!("cargo:rerun-if-changed={}", library.display());
    if !library.exists() {
        panic!("target/lib/libtdma.a is missing: run `bash make` first");
    }
    println!("cargo:rustc-link-search=native={}", folder.display());
    // Not copied into the second implementation's own archive, which C links beside the library.
    println!("cargo:rustc-link-lib=static:-bundle=tdma");
}
