//! The program `schedule` under test: target/bin/schedule of this repository, run as its users do.

use std::ffi::OsStr;
use std::io::Write;
use std::path::{Path, PathBuf};
use std::process::{ChildStdin, Command, Output, Stdio};
use std::sync::atomic::{AtomicU32, Ordering};

const PROGRAM: &str = concat!(env!("CARGO_MANIFEST_DIR"), "/../target/bin/schedule");

/// How a script gets to the program.
#[derive(Clone, Copy, Debug)]
pub enum Way {
    File,
    Pipe,
}

/// A file that is removed when it is dropped.
pub struct Scratch(PathBuf);

impl Scratch {
    pub fn new(content: &[u8]) -> Scratch {
        static COUNT: AtomicU32 = AtomicU32::new(0);
        let count = COUNT.fetch_add(1, Ordering::Relaxed);
        let name = format!("schedule-{}-{count}", std::process::id());
        let path = std::env::temp_dir().join(name);
        std::fs::write(&path, content).expect("a file for the script");
        Scratch(path)
    }

    pub fn path(&self) -> &Path {
        &self.0
    }
}

impl Drop for Scratch {
    fn drop(&mut self) {
        let _ = std::fs::remove_file(&self.0);
    }
}

/// The program with its arguments, to be run; what it writes is kept.
pub fn program(arguments: &[&OsStr]) -> Command {
    let mut program = Command::new(PROGRAM);
    program.args(arguments);
    program.stdout(Stdio::piped()).stderr(Stdio::piped());
    program
}

/// Runs the program; `feed` writes its standard input while its output is read.
pub fn run(arguments: &[&OsStr], feed: impl FnOnce(ChildStdin) + Send) -> Output {
    let mut child = program(arguments)
        .stdin(Stdio::piped())
        .spawn()
        .unwrap_or_else(|error| panic!("{PROGRAM}: {error}"));
    let input = child.stdin.take().expect("its standard input");
    std::thread::scope(|scope| {
        scope.spawn(move || feed(input));
        child.wait_with_output().expect("its output")
    })
}

/// What it writes, where nothing may go wrong.
pub fn output(arguments: &[&OsStr], feed: impl FnOnce(ChildStdin) + Send) -> Vec<u8> {
    let output = run(arguments, feed);
    let complaint = output.stderr.escape_ascii();
    assert!(output.status.success(), "{}: {complaint}", output.status);
    assert!(output.stderr.is_empty(), "{complaint}");
    output.stdout
}

/// What the program answers to a script. That it stops reading early shows in its answers.
pub fn answers(input: &[u8], way: Way) -> Vec<u8> {
    match way {
        Way::File => {
            let file = Scratch::new(input);
            output(&[file.path().as_os_str()], drop)
        }
        Way::Pipe => output(&[OsStr::new("-")], |mut pipe| {
            let _ = pipe.write_all(input);
        }),
    }
}
