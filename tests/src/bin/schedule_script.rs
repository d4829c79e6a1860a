//! Writes the script that the gate runs.

use std::io::Write;
use tdma_tests::script::gate;

fn main() {
    let written = std::io::stdout().write_all(&gate().input());
    written.expect("standard output takes the script");
}
