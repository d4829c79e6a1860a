//! Reads a script and writes the second implementation's answers.

use std::io::{Read, Write};
use tdma_tests::schedule::run;

fn main() {
    let mut script = Vec::new();
    let read = std::io::stdin().read_to_end(&mut script);
    read.expect("standard input gives the script");
    let written = std::io::stdout().write_all(&run(&script));
    written.expect("standard output takes the answers");
}
