//! Odd input for the program `schedule`: lines at the border of too long, lines across the ends of
//! read buffers, input in small pieces, any bytes, no newline at the end, nothing at all; and tables
//! that are wide or long.

use std::ffi::OsStr;
use std::io::Write;
use std::time::Duration;
use tdma_tests::command::TOO_LONG;
use tdma_tests::program::{self, Way};
use tdma_tests::random::Random;
use tdma_tests::schedule::run;
use tdma_tests::script;

/// Around the border, and far past it.
const LENGTHS: [usize; 6] = [65_534, 65_535, 65_536, 65_537, 65_538, 200_000];

/// Where a read buffer may end.
const BUFFERS: [usize; 8] = [512, 1024, 4096, 8192, 16_384, 32_768, 65_536, 131_072];

/// A text as it is shown: the first of it, and how long it is.
fn shown(text: &[u8]) -> String {
    let first = &text[..text.len().min(300)];
    format!("{} bytes: {}", text.len(), first.escape_ascii())
}

/// The program's answers are these, whichever way the input gets to it.
fn expect(input: &[u8], answers: &[u8]) {
    for way in [Way::File, Way::Pipe] {
        let told = program::answers(input, way);
        if told == answers {
            continue;
        }
        let same = told
            .iter()
            .zip(answers)
            .take_while(|(one, other)| one == other);
        let same = &answers[..same.count()];
        let line = same.iter().rposition(|&byte| byte == b'\n');
        let at = line.map_or(0, |newline| newline + 1);
        let (told, answers) = (shown(&told[at..]), shown(&answers[at..]));
        panic!("{way:?}, from byte {at} of the answers on\nprogram: {told}\nwanted: {answers}");
    }
}

/// The program's answers are the second implementation's.
fn compare(input: &[u8]) {
    expect(input, &run(input));
}

/// The text, and this byte behind it up to a length.
fn padded(text: &str, byte: u8, length: usize) -> Vec<u8> {
    let mut line = text.as_bytes().to_vec();
    line.resize(length, byte);
    line
}

/// The same with the padding before the last byte of the text.
fn padded_inside(text: &str, byte: u8, length: usize) -> Vec<u8> {
    let (first, last) = text.split_at(text.len() - 1);
    let mut line = padded(first, byte, length - 1);
    line.extend(last.as_bytes());
    line
}

/// The text, and as many times " 7" behind it as a line of this length has room for.
fn listed(text: &str, length: usize) -> Vec<u8> {
    let mut line = text.as_bytes().to_vec();
    while line.len() + 2 <= length {
        line.extend(b" 7");
    }
    padded(&String::from_utf8(line).unwrap(), b' ', length)
}

/// Lines of this length, each with the answer that it gets if it isn't too long.
fn long_lines(length: usize) -> Vec<(Vec<u8>, &'static str)> {
    let spaces = |text| padded(text, b' ', length);
    vec![
        (spaces("split 51"), "ok 0 25 0 -"),
        (spaces("  join 0 25 0"), "ok 51"),
        (padded_inside("split 9", b' ', length), "ok 0 9 9 -"),
        (padded_inside("split 9", b'0', length), "ok 0 9 9 -"),
        (spaces(""), "error unknown command"),
        (padded("x", b'x', length), "error unknown command"),
        (padded("split 51", b'x', length), "error not a number"),
        (padded("split 51", b'1', length), "error number too large"),
        (spaces("split 51 2"), "error too many words"),
        (
            padded_inside("split 5 2", b' ', length),
            "error too many words",
        ),
        (spaces("open 1 2"), "error too few words"),
        (padded("# ", b'x', length), ""),
        (padded("#", b' ', length), ""),
        (listed("hop 1 0 0 0", length), "refused 1"),
        (listed("start 7 0 0 2", length), "refused 1"),
        (padded("start 7 0 0 2 7", b' ', length), "ok"),
        (padded_inside("hop 1 0 0 0 7", b' ', length), "ok 7 0 0"),
        (padded("page 1", b'1', length - 2), "error too few words"),
        (padded("build sync 0", b'0', length), "refused 14"),
        (padded("take normal 0 1", b'1', length), "refused 14"),
    ]
}

/// The answer to a line: this one if it isn't too long. A comment of any length has none.
fn long_answer<'a>(line: &[u8], answer: &'a str) -> &'a str {
    match line.len() >= TOO_LONG && line[0] != b'#' {
        true => "error line too long",
        false => answer,
    }
}

/// The answer as it is told in line `number`; an error gets its line number here.
fn told(answer: &str, number: usize) -> String {
    match answer.strip_prefix("error ") {
        Some(reason) => format!("error {number} {reason}\n"),
        None if answer.is_empty() => String::new(),
        None => format!("{answer}\n"),
    }
}

/// Each long line stands between two short ones.
#[test]
fn long_lines_one_by_one() {
    for length in LENGTHS {
        let (mut input, mut answers) = (b"join 0 25 0\n".to_vec(), String::from("ok 51\n"));
        let mut number = 1;
        for (line, answer) in long_lines(length) {
            let answer = long_answer(&line, answer);
            input.extend([&line[..], b"\nsplit 1\n"].concat());
            answers += &(told(answer, number + 1) + "ok 0 1 1 0\n");
            number += 2;
        }
        assert_eq!(String::from_utf8(run(&input)).unwrap(), answers);
        expect(&input, answers.as_bytes());
    }
}

/// The last line is long and has no newline.
#[test]
fn a_long_last_line() {
    for length in LENGTHS {
        let lines = [
            (padded("split 1", b' ', length), "ok 0 1 1 0"),
            (padded("#", b'#', length), ""),
            (padded("x", b'x', length), "error unknown command"),
        ];
        for (line, answer) in lines {
            let answer = told(long_answer(&line, answer), 1);
            assert_eq!(run(&line), answer.as_bytes());
            expect(&line, answer.as_bytes());
        }
    }
}

#[test]
fn ends_of_input() {
    let rows: [(&str, &str); 9] = [
        ("", ""),
        ("\n", ""),
        ("\n\n\n", ""),
        ("#", ""),
        ("split 1", "ok 0 1 1 0\n"),
        ("split 1\n", "ok 0 1 1 0\n"),
        ("split 1\n\n", "ok 0 1 1 0\n"),
        ("split 1\n ", "ok 0 1 1 0\nerror 2 unknown command\n"),
        ("\n\nsplit", "error 3 too few words\n"),
    ];
    for (input, answers) in rows {
        assert_eq!(run(input.as_bytes()), answers.as_bytes(), "{input:?}");
        expect(input.as_bytes(), answers.as_bytes());
    }
}

#[test]
fn carriage_returns() {
    let input =
        b"split 1\r\nsplit 1 \r\n\r\n#\r\nbuild dummy\r\npage 123\r 0\r\npage 123\r 0\nsplit 1\n";
    let answers = "error 1 not a number\nerror 2 too many words\nerror 3 unknown command\n\
        error 5 unknown burst\nerror 6 not a number\nrefused 3\nok 0 1 1 0\n";
    assert_eq!(run(input), answers.as_bytes());
    expect(input, answers.as_bytes());
}

/// Every byte but a newline: as a line, before and behind a word, in a number, an IMSI and bits.
#[test]
fn any_byte() {
    let mut input = Vec::new();
    for byte in (0..=255).filter(|&byte| byte != b'\n') {
        let around: [(&[u8], &[u8]); 8] = [
            (b"", b""),
            (b"", b"split 1"),
            (b"split", b"1"),
            (b"split 1", b""),
            (b"split 1 ", b""),
            (b"page 12", b"3 0"),
            (b"build access 0", b""),
            (b"build ", b"sync 0"),
        ];
        for (before, behind) in around {
            input.extend([before, &[byte], behind, b"\n"].concat());
        }
    }
    compare(&input);
}

/// Nothing but random bytes, newlines among them.
#[test]
fn noise() {
    let mut random = Random(65);
    let mut input = random.bytes(100_000);
    compare(&input);
    for byte in input.iter_mut().filter(|byte| **byte > 127) {
        *byte = random.one_of(b" \n0123456789");
    }
    compare(&input);
}

/// A line that begins 0 to 20 bytes before each place where a buffer may end.
#[test]
fn lines_across_the_ends_of_buffers() {
    let mut input = Vec::new();
    for (buffer, before) in BUFFERS.iter().flat_map(|&b| (0..=20).map(move |k| (b, k))) {
        while (input.len() + before) % buffer != 0 {
            let missing = buffer - (input.len() + before) % buffer;
            let comment = padded("#", b'x', missing.min(30_000) - 1);
            input.extend([&comment[..], b"\n"].concat());
        }
        input.extend(b"join 2047 25 50\nsplit 2715647\n");
    }
    compare(&input);
}

/// Many lines of each length from 8 to 300 bytes, so that a buffer ends anywhere in a line.
#[test]
fn lines_of_many_lengths() {
    let mut random = Random(66);
    let mut input = Vec::new();
    for _ in 0..8_000 {
        let length = 8 + random.below(293) as usize;
        let frame = random.below(1_000_000);
        let line = padded_inside(&format!("split {frame}"), b' ', length.max(14));
        input.extend([&line[..], b"\n"].concat());
    }
    compare(&input);
}

/// The pipe has the next piece only after a while, so that the program reads them one by one.
#[test]
fn small_pieces() {
    let mut input = script::ordinary(67, 100).input();
    input.extend(b"split 51");
    let answers = run(&input);
    let mut random = Random(68);
    let told = program::output(&[OsStr::new("-")], |mut pipe| {
        let mut rest = &input[..];
        while !rest.is_empty() {
            let length = 1 + random.below(5) as usize;
            let (piece, after) = rest.split_at(length.min(rest.len()));
            pipe.write_all(piece).expect("the program reads on");
            std::thread::sleep(Duration::from_micros(20));
            rest = after;
        }
    });
    assert_eq!(
        told.escape_ascii().to_string(),
        answers.escape_ascii().to_string()
    );
}

/// All 64 lines in one timeslot, each on an ARFCN of its own, the last on ARFCN 0.
#[test]
fn a_wide_table() {
    let ca = (1..=64).map(|place| format!(" {}", 16 * place % 1024));
    let ca: String = ca.collect();
    let mut input = format!("start 0 7 7 9{ca}\n");
    for line in 0..64 {
        let (mask, combination) = (1u64 << line, [1, 2, 7][line % 3]);
        input += &format!("open {line} 5 {mask} 9 0 {combination} 1\n");
        input += &format!("seize {line} 0 {}\n", 65_535 - line);
    }
    input += "table 5 0 2715600 150\ntable 5 1 40 70\nline 63 0 0\n";
    let answers = String::from_utf8(run(input.as_bytes())).unwrap();
    assert!(!answers.contains("refused"), "a call was refused");
    compare(input.as_bytes());
}

#[test]
fn a_long_table() {
    compare(b"open 0 0 1 0 0 5 0\nseize 0 3 300\ntable 0 1 2600000 200000\nline 0 0 0\n");
}
