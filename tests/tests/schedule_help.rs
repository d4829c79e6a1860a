//! What `schedule --help` prints and docs/SCHEDULE.md says: every command, with the operands that
//! the second implementation reads.

use std::collections::BTreeSet;
use std::ffi::OsStr;
use std::fs::{self, File};
use std::io::Seek;
use std::process::Output;
use tdma_tests::command::{read, Fault, NAMES};
use tdma_tests::program::{output, program, Scratch};
use tdma_tests::schedule::run;

const FORMAT: &str = include_str!("../../docs/SCHEDULE.md");

/// The widest line that has room on a terminal.
const COLUMNS: usize = 80;
/// The column in which a row says what it does or answers.
const ANSWERS: usize = 30;

fn help() -> String {
    String::from_utf8(output(&[OsStr::new("--help")], drop)).expect("text")
}

/// The rows below a heading, each what stands left of the answers' column or reaches into it.
fn rows(text: &str, heading: &str) -> Vec<String> {
    let mut lines = text.lines().skip_while(|line| !line.starts_with(heading));
    lines.next().expect("the heading");
    let rows = lines.take_while(|line| !line.is_empty());
    let rows = rows.filter(|line| !line.starts_with(&" ".repeat(ANSWERS)));
    rows.map(|line| match line.get(..ANSWERS) {
        Some(left) if left.ends_with(' ') => left.trim().into(),
        _ => line.trim().into(),
    })
    .collect()
}

/// The rows of the tables in a section of the format, each with what stands in backticks.
fn format_table(section: &str) -> Vec<Vec<&'static str>> {
    let text = FORMAT.split(section).nth(1).expect("the section");
    let text = text.split("\n## ").next().unwrap_or_default();
    let rows = text.lines().filter(|line| line.starts_with("| `"));
    rows.map(|row| row.split('`').skip(1).step_by(2).collect())
        .collect()
}

/// The first column of these tables.
fn format_rows(section: &str) -> Vec<&'static str> {
    let rows = format_table(section).into_iter();
    rows.map(|row| row[0]).collect()
}

/// The lines of the format that are set as text behind a line.
fn format_text(behind: &str) -> String {
    let text = FORMAT.split(behind).nth(1).expect("the line");
    let lines = text.lines().skip_while(|line| line.is_empty());
    let lines = lines.map_while(|line| line.strip_prefix("    "));
    lines.map(|line| format!("{line}\n")).collect()
}

/// A row's command with 1 for each operand, and with a list of two numbers.
fn as_command(row: &str) -> Vec<&str> {
    let words = row.split(' ').flat_map(|word| match word {
        "ARFCN.." => vec!["1", "1"],
        _ if word.chars().all(|c| c.is_ascii_lowercase()) => vec![word],
        _ => vec!["1"],
    });
    words.collect()
}

#[test]
fn both_ways_to_ask_get_the_same_text() {
    let text = help();
    assert!(!text.is_empty());
    assert_eq!(
        text,
        String::from_utf8_lossy(&output(&[OsStr::new("-h")], drop))
    );
}

#[test]
fn it_has_every_command_and_no_other() {
    let rows = rows(&help(), "Commands");
    let names: BTreeSet<&str> = rows
        .iter()
        .filter_map(|row| row.split(' ').next())
        .collect();
    assert_eq!(names, NAMES.into_iter().collect());
}

#[test]
fn its_operands_are_those_that_are_read() {
    for row in rows(&help(), "Commands") {
        let words = as_command(&row);
        let line = |words: &[&str]| words.join(" ").into_bytes();
        assert!(read(&line(&words)).is_ok(), "{row}");
        if row.ends_with("..") {
            continue; // a list of any length
        }
        let more = [&words[..], &["1"]].concat();
        assert_eq!(read(&line(&more)).err(), Some(Fault::TooManyWords), "{row}");
        if words.last() == Some(&"1") {
            let fewer = &words[..words.len() - 1];
            assert_eq!(read(&line(fewer)).err(), Some(Fault::TooFewWords), "{row}");
        }
    }
}

/// Each command's row that has a list reads any length of it, from none on.
#[test]
fn its_lists_have_any_length() {
    for row in rows(&help(), "Commands") {
        let Some(rest) = row.strip_suffix(" ARFCN..") else {
            continue;
        };
        let line = as_command(rest).join(" ");
        assert!(read(line.as_bytes()).is_ok(), "{row}");
    }
}

#[test]
fn it_says_how_the_program_is_run() {
    let wanted = [
        "schedule",
        "schedule FILE",
        "schedule -",
        "schedule --help, -h",
    ];
    assert_eq!(rows(&help(), "Usage"), wanted);
}

#[test]
fn the_format_has_the_same_commands_and_every_reason() {
    assert_eq!(format_rows("\n## Commands\n"), rows(&help(), "Commands"));
    let reasons: BTreeSet<&str> = Fault::ALL.iter().map(|fault| fault.reason()).collect();
    let told: BTreeSet<&str> = format_rows("\n## Errors\n").into_iter().collect();
    assert_eq!(told, reasons);
}

/// Behind each command, what begins with "ok".
#[test]
fn the_format_has_the_same_answers() {
    let help = Vec::from_iter(help().split_whitespace()).join(" ");
    for row in format_table("\n## Commands\n") {
        let mut words = vec![row[0]];
        words.extend(row.iter().filter(|words| words.starts_with("ok")));
        let told = words.join(" ");
        assert!(help.contains(&told), "{told}");
    }
}

#[test]
fn the_example_of_the_format() {
    let (commands, answers) = (format_text("\nExample:\n"), format_text("\nanswers\n"));
    assert!(commands.starts_with("start "));
    assert_eq!(String::from_utf8_lossy(&run(commands.as_bytes())), answers);
}

/// "refused N" for every number, and the answer to a line that is no command.
#[test]
fn it_says_what_a_refusal_and_an_error_look_like() {
    let text = help();
    let other = text.split("Other answers:\n").nth(1).expect("the heading");
    assert!(other.contains("  refused N "));
    assert!(other.contains("  error LINENUMBER REASON "));
    let words: Vec<&str> = other.split_whitespace().collect();
    for number in 1..=16 {
        assert!(words.contains(&number.to_string().as_str()), "{number}");
    }
}

#[test]
fn its_lines_have_room() {
    for line in help().lines() {
        assert!(line.is_ascii() && line.len() <= COLUMNS, "{line}");
        assert_eq!(line, line.trim_end());
    }
}

/// Standard input is a file here, whose position tells what was read.
#[test]
fn it_reads_no_input() {
    let script = Scratch::new(b"split 51\n");
    for asked in ["--help", "-h"] {
        let mut input = File::open(script.path()).expect("the script");
        let its = input.try_clone().expect("the same file");
        let Output { stdout, stderr, .. } = program(&[OsStr::new(asked)])
            .stdin(its)
            .output()
            .expect("its output");
        assert_eq!(String::from_utf8_lossy(&stdout), help());
        assert!(stderr.is_empty());
        assert_eq!(input.stream_position().expect("a position"), 0, "{asked}");
    }
}

/// A file may have such a name: it is read where its path does not begin with the dash.
#[test]
fn files_of_that_name() {
    let name = format!("schedule-help-{}", std::process::id());
    let folder = std::env::temp_dir().join(name);
    fs::create_dir(&folder).expect("a folder");
    for name in ["--help", "-h"] {
        fs::write(folder.join(name), "split 51\n").expect("a file");
        let path = format!("./{name}");
        let Output { stdout, stderr, .. } = program(&[OsStr::new(&path)])
            .current_dir(&folder)
            .output()
            .expect("its output");
        assert_eq!(String::from_utf8_lossy(&stdout), "ok 0 25 0 -\n");
        assert!(stderr.is_empty(), "{path}");
    }
    fs::remove_dir_all(&folder).expect("the folder is removed");
}
