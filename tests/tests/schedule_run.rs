//! How the program `schedule` is run: the example that is built into it, its arguments, and how fast
//! it is.

use std::collections::BTreeSet;
use std::ffi::OsStr;
use std::io::Write;
use std::time::{Duration, Instant};
use tdma_tests::cell::OpenLine;
use tdma_tests::command::{read, Command};
use tdma_tests::program::{output, run, Scratch};
use tdma_tests::schedule::Session;
use tdma_tests::script;

/// How many commands the speed is measured with, and how many a second there must be.
const COMMANDS: usize = 300_000;
const A_SECOND: f64 = 100_000.0;
/// The quickest of so many runs counts: what else the machine does makes a run slower only.
const RUNS: usize = 5;

/// The example's script, each line with what is printed behind it.
fn example() -> Vec<(String, String)> {
    let printed = String::from_utf8(output(&[], drop)).expect("text");
    let mut script: Vec<(String, String)> = Vec::new();
    for line in printed.split_inclusive('\n') {
        match line.strip_prefix("> ") {
            Some(command) => script.push((command.trim_end_matches('\n').into(), String::new())),
            None => script.last_mut().expect("a command first").1 += line,
        }
    }
    script
}

#[test]
fn the_example_is_answered() {
    let mut session = Session::default();
    for (line, printed) in example() {
        let answer = String::from_utf8(session.answer(line.as_bytes())).unwrap();
        assert_eq!(printed, answer, "{line}");
        let table = line.starts_with("table ") && answer.starts_with("timeslot ");
        let passed_over = line.is_empty() || line.starts_with('#');
        let accepted = answer == "ok\n" || answer.starts_with("ok ");
        assert!(accepted || table || passed_over, "{line}: {answer}");
    }
}

/// Whether some call of the script holds a subchannel that none releases.
fn held(commands: &[Command]) -> bool {
    let released = |of: &[u32; 3]| {
        let mut commands = commands.iter();
        commands.any(|command| matches!(command, Command::Release(r) if r == of))
    };
    let mut commands = commands.iter();
    commands.any(|command| matches!(command, Command::Seize(s) if !released(s)))
}

/// The words of docs/SCHEDULE.md: "a combined or common line on timeslot 0, an SDCCH line,
/// full-rate and half-rate traffic that hops, some calls held".
#[test]
fn the_example_has_what_the_format_says() {
    let commands = example().into_iter();
    let commands: Vec<Command> = commands
        .filter_map(|(line, _)| read(line.as_bytes()).ok())
        .collect();
    let starts = commands
        .iter()
        .filter(|command| matches!(command, Command::Start(_)));
    assert_eq!(starts.count(), 1);
    let opened = commands.iter().filter_map(|command| match command {
        Command::Open(_, values) => Some(*values),
        _ => None,
    });
    let opened: Vec<_> = opened.collect();
    assert!(opened
        .iter()
        .any(|v| v.tn == 0 && [4, 5].contains(&v.combination)));
    assert!(opened.iter().any(|v| v.combination == 7));
    for traffic in [1, 2] {
        let hops = opened
            .iter()
            .any(|v| v.combination == traffic && v.mask.count_ones() > 1);
        assert!(hops, "combination {traffic}");
    }
    assert!(held(&commands));
}

/// Behind the last change of the cell, tables show every timeslot that has an open line.
#[test]
fn the_example_prints_the_cells_timetable() {
    let mut session = Session::default();
    let mut shown = BTreeSet::new();
    for (line, _) in example() {
        session.answer(line.as_bytes());
        match read(line.as_bytes()) {
            Ok(Command::Table([tn, ..], count)) if count > 0 => drop(shown.insert(tn)),
            Ok(Command::Open(..) | Command::Seize(_) | Command::Release(_)) => shown.clear(),
            _ => (),
        }
    }
    let lines = session.cell.lines.values();
    let timeslots: BTreeSet<u32> = lines.map(|line: &OpenLine| line.tn).collect();
    assert!(
        timeslots.is_subset(&shown),
        "{timeslots:?}, shown {shown:?}"
    );
}

/// A good script on standard input, which the program has no reason to read.
fn with_script(mut pipe: std::process::ChildStdin) {
    let _ = pipe.write_all(b"split 51\n");
}

#[test]
fn more_than_one_argument() {
    let file = Scratch::new(b"split 51\n");
    let (file, dash, help) = (
        file.path().as_os_str(),
        OsStr::new("-"),
        OsStr::new("--help"),
    );
    for arguments in [
        &[file, file][..],
        &[dash, dash],
        &[dash, file],
        &[dash, file, file],
        &[help, help],
        &[help, file],
        &[file, help],
    ] {
        let output = run(arguments, with_script);
        assert_eq!(
            output.stdout.escape_ascii().to_string(),
            "",
            "{arguments:?}"
        );
        let complaint = String::from_utf8_lossy(&output.stderr);
        let usage = "usage: schedule [FILE | - | --help]\n";
        assert_eq!(complaint, usage, "{arguments:?}");
    }
}

#[test]
fn a_file_that_is_none() {
    let file = Scratch::new(b"split 51\n");
    let missing = file.path().with_extension("missing");
    let folder = std::env::temp_dir();
    for path in [missing.as_os_str(), folder.as_os_str()] {
        let output = run(&[path], with_script);
        assert_eq!(output.stdout.escape_ascii().to_string(), "", "{path:?}");
    }
}

#[test]
fn speed() {
    let script = script::ordinary(69, COMMANDS);
    let (answers, file) = (script.answers(), Scratch::new(&script.input()));
    let quickest = (0..RUNS).map(|_| {
        let start = Instant::now();
        let told = output(&[file.path().as_os_str()], drop);
        let time = start.elapsed();
        assert!(
            told == answers,
            "other answers than the second implementation's"
        );
        time
    });
    let quickest = quickest.min().unwrap_or(Duration::MAX);
    let rate = COMMANDS as f64 / quickest.as_secs_f64();
    println!("{COMMANDS} commands in {quickest:?}: {rate:.0} a second");
    assert!(rate >= A_SECOND, "{rate:.0} commands a second");
}
