//! Lines for the program `schedule` with their answers typed in, from the text of its format and of
//! document 01. Each list is a script of its own, asked of the second implementation and of the
//! program.

use tdma_tests::program::{self, Way};
use tdma_tests::schedule::{run, Session};

/// Line and answer; an answer of several lines has newlines between them, and "" is no answer.
type Row<'a> = (&'a str, &'a str);

fn ended(answer: &str) -> String {
    match answer {
        "" => String::new(),
        _ => format!("{answer}\n"),
    }
}

fn ask(rows: &[Row]) {
    let mut session = Session::default();
    for (at, (line, answer)) in rows.iter().enumerate() {
        let told = String::from_utf8(session.answer(line.as_bytes())).unwrap();
        assert_eq!(
            told,
            ended(answer),
            "second implementation, row {at}: {line}"
        );
    }
    let input: String = rows.iter().map(|(line, _)| format!("{line}\n")).collect();
    let answers: String = rows.iter().map(|(_, answer)| ended(answer)).collect();
    assert_eq!(run(input.as_bytes()), answers.as_bytes());
    for way in [Way::Pipe, Way::File] {
        let told = program::answers(input.as_bytes(), way);
        let told = String::from_utf8_lossy(&told);
        let differs = told
            .lines()
            .zip(answers.lines())
            .find(|(told, answer)| told != answer);
        assert_eq!(differs, None, "program ({way:?}) and typed: {input}");
        assert_eq!(told, answers, "program ({way:?})");
    }
}

/// Asks rows whose words are made in the test.
fn ask_made(rows: &[(String, String)]) {
    let rows: Vec<Row> = rows
        .iter()
        .map(|(line, answer)| (&line[..], &answer[..]))
        .collect();
    ask(&rows);
}

fn made(line: impl Into<String>, answer: impl Into<String>) -> (String, String) {
    (line.into(), answer.into())
}

const THE_PAPERS_EXAMPLE: &[Row] = &[
    ("start 10 0 1 5 10 20 30 40", "ok"),
    ("open 0 0 1 0 0 4 0", "ok"),
    ("page 00123 0", "ok 0 4 26"),
    ("open 1 0 3 0 1 1 0", "refused 9 0"),
    ("line 0 26 0", "ok 10 0 0 CCCH 0 0 4 0"),
];

#[test]
fn the_papers_example() {
    ask(THE_PAPERS_EXAMPLE);
}

#[rustfmt::skip]
const CLOCK: &[Row] = &[
    ("split 0", "ok 0 0 0 -"),
    ("split 1", "ok 0 1 1 0"),
    ("split 10", "ok 0 10 10 -"),
    ("split 11", "ok 0 11 11 1"),
    ("split 41", "ok 0 15 41 4"),
    ("split 51", "ok 0 25 0 -"),
    ("split 1326", "ok 1 0 0 -"),
    ("split 2715647", "ok 2047 25 50 -"),
    ("split 2715648", "refused 3"),
    ("split 4294967295", "refused 3"),
    ("split 4294967296", "refused 3"),
    ("split 4294967347", "refused 3"),
    ("split 18446744073709551615", "refused 3"),
    ("split 18446744073709551616", "error 14 number too large"),
    ("split 0000000000000000000000000000051", "ok 0 25 0 -"),
    ("split 000000000000000000018446744073709551615", "refused 3"),
    ("split 000000000000000000018446744073709551616", "error 17 number too large"),
    ("join 0 25 0", "ok 51"),
    ("join 2047 25 50", "ok 2715647"),
    ("join 2048 0 0", "refused 14"),
    ("join 0 26 0", "refused 14"),
    ("join 0 0 51", "refused 14"),
    ("join 4294967296 0 0", "refused 14"),
    ("join 0 4294967296 0", "refused 14"),
    ("join 0 0 18446744073709551615", "refused 14"),
];

#[test]
fn clock() {
    ask(CLOCK);
}

#[rustfmt::skip]
const HOP: &[Row] = &[
    ("hop 7 0 2 5 10 20 30 40", "ok 20 1 1"),
    ("hop 7 1 0 0 10 20 30 40", "ok 30 2 2"),
    ("hop 7 1 0 2 10 20 30 40", "ok 30 2 2"),
    ("hop 7 1 0 4 10 20 30 40", "ok 10 0 0"),
    ("hop 7 1 1 0 10 20 30 40", "ok 10 0 0"),
    ("hop 15 1 0 3 10 20 30 40", "ok 30 2 2"),
    ("hop 1 0 0 0", "refused 1"),
    ("hop 1 0 0 0 1023", "ok 1023 0 0"),
    ("hop 1 0 0 0 1024", "refused 1"),
    ("hop 1 0 0 0 65536", "refused 1"),
    ("hop 1 0 0 0 65546", "refused 1"),
    ("hop 1 0 0 0 18446744073709551615", "refused 1"),
    ("hop 1 0 0 0 20 10", "refused 1"),
    ("hop 1 0 0 0 10 10", "refused 1"),
    ("hop 1 64 0 0 10", "refused 3"),
    ("hop 1 0 0 2715648 10", "refused 3"),
    ("hop 1 4294967296 0 0 10", "refused 3"),
    ("hop 0 0 0 0 10", "refused 4"),
    ("hop 2 0 0 0 10", "refused 4"),
    ("hop 9223372036854775808 0 0 0 10", "refused 4"),
    ("hop 9223372036854775809 0 0 0 10", "refused 4"),
    ("hop 1 0 1 0 10", "refused 5"),
    ("hop 1 0 4294967296 0 10", "refused 5"),
    ("hop 1 2 3 4 10 x", "error 24 not a number"),
    ("hop 18446744073709551616 0 0 0 10", "error 25 number too large"),
    ("hop 1 0 0 0 10 18446744073709551616 x", "error 26 number too large"),
    ("hop 1 0 0", "error 27 too few words"),
    ("hop", "error 28 too few words"),
    ("hop 8 1 0 3 10 20 30 40", "ok 40 0 3"),
    ("hop 10 0 0 0 10 20 30 40", "ok 20 0 1"),
    ("hop 10 0 0 2715647 10 20 30 40", "ok 40 1 3"),
    ("hop 14 0 1 1 10 20 30 40", "ok 40 2 3"),
];

#[test]
fn hop() {
    ask(HOP);
}

/// CA is 1 to 63 and 0. In the last rows 0 is before the others, 64 is behind it or before it, or 0
/// is there twice.
#[test]
fn hop_over_64_arfcns() {
    let others: String = (1..64).map(|arfcn| format!(" {arfcn}")).collect();
    let ca = format!("{others} 0");
    ask_made(&[
        made(format!("hop 9223372036854775808 0 0 0{ca}"), "ok 0 0 63"),
        made(format!("hop 4294967296 0 0 7{ca}"), "ok 33 0 32"),
        made(format!("hop 18446744073709551615 0 63 1{ca}"), "ok 1 0 0"),
        made(format!("hop 18446744073709551615 0 9 3{ca}"), "ok 13 12 12"),
        made(format!("hop 18446744073709551615 0 60 3{ca}"), "ok 0 63 63"),
        made(format!("hop 9223372036854775818 0 2 0{ca}"), "ok 0 2 63"),
        made(format!("hop 9223372036854775818 0 2 2{ca}"), "ok 4 1 3"),
        made(format!("hop 18446744073709551615 0 64 1{ca}"), "refused 5"),
        made(format!("hop 1 0 0 0 0{others}"), "refused 1"),
        made(format!("hop 1 0 0 0{ca} 64"), "refused 1"),
        made(format!("hop 1 0 0 0{others} 64 0"), "refused 1"),
        made(format!("hop 1 0 0 0{ca} 0"), "refused 1"),
    ]);
}

/// Bit 2 of a mask stands for ARFCN 0, which is C0 of the first cell.
const ARFCN_0: &[Row] = &[
    ("hop 7 0 0 0 5 10 0", "ok 5 0 0"),
    ("hop 7 0 0 1 5 10 0", "ok 10 1 1"),
    ("hop 7 0 0 2 5 10 0", "ok 0 2 2"),
    ("hop 6 0 0 0 5 10 0", "ok 10 0 1"),
    ("hop 6 0 0 1 5 10 0", "ok 0 1 2"),
    ("hop 4 0 0 1 5 10 0", "ok 0 0 2"),
    ("hop 1 0 0 0 0", "ok 0 0 0"),
    ("hop 1 0 0 0 0 5", "refused 1"),
    ("hop 1 0 0 0 5 0 10", "refused 1"),
    ("hop 1 0 0 0 5 0 0", "refused 1"),
    ("start 0 7 2 9 5 10 0", "ok"),
    ("open 0 0 1 0 0 4 7", "refused 8"),
    ("open 0 0 8 0 0 4 7", "refused 4"),
    ("open 0 0 4 0 0 4 7", "ok"),
    ("open 9 1 6 0 0 1 0", "ok"),
    ("seize 9 0 3", "ok"),
    ("line 0 12 0", "ok 0 0 2 CCCH 0 0 1 0"),
    ("line 9 12 0", "ok 10 0 1 idle"),
    ("line 9 25 0", "ok 0 1 2 SACCH 0 3 0 0"),
    ("who 1 0 25 0", "ok 9 0 1 2 SACCH 0 3 0 0"),
    ("who 1 0 12 0", "ok nobody"),
    ("start 5 7 2 9 5 10 0", "ok"),
    ("open 0 0 4 0 0 4 7", "refused 8"),
    ("open 0 0 1 0 0 4 7", "ok"),
    ("start 0 7 2 9 0 5", "refused 1"),
    ("start 5 7 2 9 5 0 10", "refused 1"),
    ("start 5 7 2 9 10 5 0", "refused 1"),
    ("start 5 7 2 9 1024 0", "refused 1"),
    ("start 0 7 2 9 5 10", "refused 2"),
    ("start 0 7 2 9 0", "ok"),
];

#[test]
fn arfcn_0() {
    ask(ARFCN_0);
}

const MAP: &[Row] = &[
    ("map 1 1 25 0", "ok SACCH 0 0 0"),
    ("map 1 1 12 0", "ok idle"),
    ("map 1 0 0 0", "ok TCH 0 0 0 5 4"),
    ("map 2 1 12 1", "ok SACCH 0 0 0"),
    ("map 2 0 14 0", "ok TCH 1 3 0 2 2"),
    ("map 4 0 0 0", "ok FCCH 0 0 0"),
    ("map 4 0 11 0", "ok SCH 0 1 0"),
    ("map 4 0 5 0", "ok BCCH 0 0 3"),
    ("map 4 0 49 0", "ok CCCH 0 8 3"),
    ("map 4 0 50 0", "ok idle"),
    ("map 4 0 50 1", "ok RACH 0 50 0"),
    ("map 5 0 36 0", "ok SDCCH 3 0 0"),
    ("map 5 0 13 1", "ok SACCH 3 0 3"),
    ("map 5 0 14 1", "ok RACH 0 2 0"),
    ("map 5 0 64 1", "ok SACCH 1 0 3"),
    ("map 6 2 0 0", "ok idle"),
    ("map 7 0 102 1", "ok SACCH 5 0 0"),
    ("map 3 0 0 0", "refused 3"),
    ("map 1 8 0 0", "refused 3"),
    ("map 1 0 2715648 0", "refused 3"),
    ("map 1 0 0 2", "refused 3"),
    ("map 4294967297 0 0 0", "refused 3"),
    ("map 1 4294967296 0 0", "refused 3"),
    ("map 1 0 4294967296 0", "refused 3"),
    ("map 1 0 0 4294967296", "refused 3"),
];

#[test]
fn map() {
    ask(MAP);
}

/// Before the first start and after a refused one the cell has ARFCN 0 as CA and C0, BCC and AG 0,
/// P 2, and all lines closed.
const START: &[Row] = &[
    ("line 0 0 0", "refused 7"),
    ("who 0 0 0 0", "ok nobody"),
    ("page 123 0", "refused 16"),
    ("open 0 0 2 0 0 4 0", "refused 4"),
    ("open 0 0 1 0 0 4 0", "ok"),
    ("line 0 0 0", "ok 0 0 0 FCCH 0 0 0 0"),
    ("who 0 0 0 0", "ok 0 0 0 0 FCCH 0 0 0 0"),
    ("page 000 0", "ok 0 0 6"),
    ("page 009 0", "ok 0 0 57"),
    ("start 10 0 1 5 10 20 30 40 x", "error 10 not a number"),
    ("line 0 0 0", "ok 0 0 0 FCCH 0 0 0 0"),
    ("start 10 0 1 5 10 20 30 40", "ok"),
    ("line 0 0 0", "refused 7"),
    ("open 0 0 1 0 0 4 0", "ok"),
    ("start 11 0 1 5 10 20 30 40", "refused 2"),
    ("open 63 0 1 0 0 4 0", "ok"),
    ("line 63 1 0", "ok 0 0 0 SCH 0 0 0 0"),
    ("start 10 0 1 5", "refused 1"),
    ("line 63 1 0", "refused 7"),
    ("start 10 0 1 5 20 10", "refused 1"),
    ("start 10 8 1 5 10", "refused 2"),
    ("start 10 0 8 5 10", "refused 2"),
    ("start 10 0 1 1 10", "refused 2"),
    ("start 10 0 1 10 10", "refused 2"),
    ("start 65546 0 1 5 10", "refused 2"),
    ("start 4294967306 0 1 5 10", "refused 2"),
    ("start 10 4294967296 1 5 10", "refused 2"),
    ("start 10 0 4294967296 5 10", "refused 2"),
    ("start 10 0 1 4294967301 10", "refused 2"),
    ("start 10 0 1 5 65546", "refused 1"),
    ("start 65535 0 1 5 65535", "refused 1"),
    ("start 10 0 1", "error 32 too few words"),
];

#[test]
fn start() {
    ask(START);
}

/// Mask 6 is ARFCNs 20 and 30; with HSN 0 and MAIO 0 the first of them is on in even frames.
const CALLS_ON_A_LINE: &[Row] = &[
    ("start 10 0 1 5 10 20 30 40", "ok"),
    ("open 5 1 6 0 0 1 7", "ok"),
    ("seize 5 0 4711", "ok"),
    ("line 5 0 0", "ok 20 0 1 TCH 0 4711 0 0 5 4"),
    ("line 5 12 1", "ok 20 0 1 idle"),
    ("line 5 25 1", "ok 30 1 2 SACCH 0 4711 0 0"),
    ("who 1 30 25 1", "ok 5 30 1 2 SACCH 0 4711 0 0"),
    ("who 1 20 12 0", "ok 5 20 0 1 idle"),
    ("who 1 20 25 1", "ok nobody"),
    ("who 0 30 25 1", "ok nobody"),
    ("seize 5 0 4711", "refused 11"),
    ("seize 5 1 1", "refused 10"),
    ("seize 5 4294967296 1", "refused 10"),
    ("seize 6 0 1", "refused 7"),
    ("seize 4294967301 0 1", "refused 3"),
    ("seize 64 0 1", "refused 3"),
    ("seize 5 0 0", "refused 3"),
    ("seize 5 0 65536", "refused 3"),
    ("seize 5 0 4294967297", "refused 3"),
    ("release 5 0 4712", "refused 12"),
    ("release 5 0 4294972007", "refused 3"),
    ("release 5 1 4711", "refused 10"),
    ("release 6 0 4711", "refused 7"),
    ("close 5", "refused 13"),
    ("release 5 0 4711 0", "error 25 too many words"),
    ("close 5", "refused 13"),
    ("release 5 0 4711", "ok"),
    ("line 5 0 0", "ok 20 0 1 TCH 0 0 0 0 5 4"),
    ("close 4294967301", "refused 3"),
    ("close 5", "ok"),
    ("close 5", "refused 7"),
    ("close 64", "refused 3"),
    ("line 5 0 0", "refused 7"),
    ("line 64 0 0", "refused 3"),
    ("line 5 2715648 0", "refused 3"),
    ("line 5 0 2", "refused 3"),
    ("who 8 0 0 0", "refused 3"),
    ("who 0 1024 0 0", "refused 3"),
    ("who 0 65536 0 0", "refused 3"),
    ("who 0 4294967306 0 0", "refused 3"),
    ("who 0 0 2715648 0", "refused 3"),
    ("who 0 0 0 2", "refused 3"),
];

#[test]
fn calls_on_a_line() {
    ask(CALLS_ON_A_LINE);
}

#[rustfmt::skip]
const OPENS_AND_PAGING: &[Row] = &[
    ("start 10 0 1 5 10 20 30 40", "ok"),
    ("open 0 0 1 0 0 4 0", "ok"),
    ("open 0 1 2 0 0 1 0", "refused 6"),
    ("open 64 1 2 0 0 1 0", "refused 3"),
    ("open 4294967297 1 2 0 0 1 0", "refused 3"),
    ("open 1 8 2 0 0 1 0", "refused 3"),
    ("open 1 1 2 64 0 1 0", "refused 3"),
    ("open 1 1 2 0 0 3 0", "refused 3"),
    ("open 1 1 2 0 0 1 8", "refused 3"),
    ("open 1 1 0 0 0 1 0", "refused 4"),
    ("open 1 1 16 0 0 1 0", "refused 4"),
    ("open 1 1 4294967298 0 0 1 0", "refused 4"),
    ("open 1 1 9223372036854775810 0 0 1 0", "refused 4"),
    ("open 1 1 18446744073709551616 0 0 1 0", "error 14 number too large"),
    ("open 1 1 2 0 1 1 0", "refused 5"),
    ("open 1 1 2 0 4294967296 1 0", "refused 5"),
    ("open 1 0 1 0 0 4 0", "refused 8"),
    ("open 5 1 6 3 0 1 7", "ok"),
    ("open 2 1 6 3 1 2 0", "ok"),
    ("open 9 1 14 3 0 1 0", "refused 9 2"),
    ("open 9 1 6 3 0 1 0", "refused 9 5"),
    ("open 3 2 1 0 0 6 0", "ok"),
    ("close 0", "refused 8"),
    ("close 3", "ok"),
    ("page 00123 0", "ok 0 4 26"),
    ("page 123 26", "ok 0 4 26"),
    ("page 123 27", "ok 0 4 281"),
    ("page 123 2715647", "ok 0 4 26"),
    ("page 123 2715648", "refused 3"),
    ("page 123 4294967296", "refused 3"),
    ("page 12 0", "refused 3"),
    ("page 000000000000123 0", "ok 0 4 26"),
    ("page 0000000000000123 0", "refused 3"),
    ("page 12x 0", "refused 3"),
    ("page 12: 0", "refused 3"),
    ("page 12/ 0", "refused 3"),
    ("page -123 0", "refused 3"),
    ("page 123 x", "error 38 not a number"),
    ("page x", "error 39 too few words"),
    ("page", "error 40 too few words"),
    ("page 123 0 0", "error 41 too many words"),
    ("close 0", "ok"),
    ("page 123 0", "refused 16"),
    ("page 12x 0", "refused 3"),
];

#[test]
fn opens_and_paging() {
    ask(OPENS_AND_PAGING);
}

/// Hexadecimal digits as bits, first bit highest.
fn bits(digits: &str) -> String {
    let digits = digits.chars().map(|digit| digit.to_digit(16).unwrap());
    digits.map(|digit| format!("{digit:04b}")).collect()
}

fn zeros(count: usize) -> String {
    "0".repeat(count)
}

/// The burst with this bit the other way round.
fn flipped(burst: &str, at: usize) -> String {
    let bit = if &burst[at..=at] == "0" { "1" } else { "0" };
    format!("{}{bit}{}", &burst[..at], &burst[at + 1..])
}

/// The bursts whose payload is zeros.
fn normal() -> String {
    format!("{}{}0010010111{}", zeros(61), bits("25C2"), zeros(61))
}

fn sync() -> String {
    format!("{}{}{}", zeros(42), bits("B962040F2D45761B"), zeros(42))
}

fn access() -> String {
    format!("00111010{}0{}", bits("4B7F99AA3C"), zeros(39))
}

fn ok(bits: &str) -> String {
    format!("ok {bits}")
}

#[test]
fn bursts_built() {
    let (payload, one) = (zeros(116), flipped(&zeros(116), 0));
    let mixed = bits("FB760A4E09101F1C5C5C574A3339E9F12F");
    ask_made(&[
        made(format!("build normal 0 {payload}"), ok(&normal())),
        made(format!("build normal 0 {one}"), ok(&flipped(&normal(), 3))),
        made(format!("build sync {}", zeros(78)), ok(&sync())),
        made(format!("build access {}", zeros(36)), ok(&access())),
        made("build frequency", ok(&zeros(148))),
        made("build dummy", format!("ok 000{mixed}101010000")),
        made(format!("build normal 8 {payload}"), "refused 3"),
        made(format!("build normal 4294967296 {payload}"), "refused 3"),
        made(format!("build normal 8 {payload}0"), "refused 3"),
        made(format!("build normal 0 {payload}0"), "refused 14"),
        made(format!("build normal 0 {}2", zeros(115)), "refused 14"),
        made(format!("build sync {}", zeros(77)), "refused 14"),
        made(format!("build access {}/", zeros(35)), "refused 14"),
        made(format!("build access {}x", zeros(35)), "refused 14"),
    ]);
}

#[test]
fn bursts_taken() {
    let (normal, sync, access) = (normal(), sync(), access());
    let one = flipped(&zeros(116), 0);
    let twice = flipped(&flipped(&access, 87), 48);
    ask_made(&[
        made(format!("take normal 0 {normal}"), ok(&zeros(116))),
        made(format!("take normal 0 {}", flipped(&normal, 3)), ok(&one)),
        made(format!("take sync {sync}"), ok(&zeros(78))),
        made(format!("take access {access}"), ok(&zeros(36))),
        made(format!("take access {twice}"), "refused 15 48"),
        made(format!("take access {sync}"), "refused 14"),
        made(format!("take normal 8 {normal}"), "refused 3"),
        made(format!("take normal 4294967296 {normal}"), "refused 3"),
        made(format!("take normal 0 {normal}0"), "refused 14"),
        made(format!("take normal 0 {}", &normal[1..]), "refused 14"),
        made(format!("take sync 2{}", &sync[1..]), "refused 14"),
        made(format!("take sync x{}", &sync[1..]), "refused 14"),
    ]);
}

/// Codes 0 and 1 differ first in their bit 4, which has bit number 65.
#[test]
fn bursts_with_a_wrong_bit() {
    let (normal, sync) = (normal(), sync());
    ask_made(&[
        made(format!("take normal 1 {normal}"), "refused 15 65"),
        made(
            format!("take normal 0 {}", flipped(&normal, 61)),
            "refused 15 61",
        ),
        made(
            format!("take normal 0 {}", flipped(&normal, 0)),
            "refused 15 0",
        ),
        made(
            format!("take sync {}", flipped(&sync, 147)),
            "refused 15 147",
        ),
    ]);
}

#[rustfmt::skip]
const ERRORS_OF_BURSTS: &[Row] = &[
    ("build", "error 1 too few words"),
    ("take", "error 2 too few words"),
    ("build x", "error 3 unknown burst"),
    ("build Normal 0 0", "error 4 unknown burst"),
    ("take frequency", "error 5 unknown burst"),
    ("take dummy 0", "error 6 unknown burst"),
    ("build 0", "error 7 unknown burst"),
    ("build normal", "error 8 too few words"),
    ("build normal x", "error 9 not a number"),
    ("build normal 0", "error 10 too few words"),
    ("take normal 18446744073709551616 0", "error 11 number too large"),
    ("build normal 0 0 0", "error 12 too many words"),
    ("build sync", "error 13 too few words"),
    ("take access", "error 14 too few words"),
    ("build access 0 1", "error 15 too many words"),
    ("build frequency 0", "error 16 too many words"),
    ("build dummy x", "error 17 too many words"),
    ("build normal 18446744073709551615 0", "refused 3"),
    ("build sync x", "refused 14"),
];

#[test]
fn errors_of_bursts() {
    ask(ERRORS_OF_BURSTS);
}

/// Words of figures around the 256 that the program keeps, at 256 more than each right length, and
/// far beyond: refused for their length, whatever stands in what is not kept.
#[test]
fn words_longer_than_any() {
    let mut rows = vec![
        made("start 10 0 1 5 10 20 30 40", "ok"),
        made("open 0 0 1 0 0 4 0", "ok"),
    ];
    let more_than_right = [15, 36, 78, 88, 116, 148].map(|right| right + 256);
    for length in [149, 255, 256, 257, 60_000]
        .into_iter()
        .chain(more_than_right)
    {
        for word in [zeros(length), format!("{}x", zeros(length - 1))] {
            rows.push(made(format!("page {word} 0"), "refused 3"));
            for bits in ["normal 0", "sync", "access"] {
                rows.push(made(format!("build {bits} {word}"), "refused 14"));
                rows.push(made(format!("take {bits} {word}"), "refused 14"));
            }
            rows.push(made(format!("build normal 8 {word}"), "refused 3"));
        }
    }
    ask_made(&rows);
}

#[rustfmt::skip]
const ERRORS: &[Row] = &[
    ("help", "error 1 unknown command"),
    ("Split 0", "error 2 unknown command"),
    ("splits 0", "error 3 unknown command"),
    ("spli 0", "error 4 unknown command"),
    ("0", "error 5 unknown command"),
    ("split", "error 6 too few words"),
    ("split x", "error 7 not a number"),
    ("split x y", "error 8 not a number"),
    ("split 1 2", "error 9 too many words"),
    ("split 1 x", "error 10 too many words"),
    ("split -1", "error 11 not a number"),
    ("split +1", "error 12 not a number"),
    ("split 1.0", "error 13 not a number"),
    ("split 0x10", "error 14 not a number"),
    ("split 99999999999999999999x", "error 15 not a number"),
    ("split 99999999999999999999", "error 16 number too large"),
    ("split 99999999999999999999 0", "error 17 number too large"),
    ("split 340282366920938463463374607431768211456", "error 18 number too large"),
    ("split 36893488147419103232", "error 19 number too large"),
    ("open 1 x", "error 20 not a number"),
    ("open 1 2", "error 21 too few words"),
    ("open 1 2 3 4 5 6", "error 22 too few words"),
    ("open 1 2 3 4 5 6 7 8", "error 23 too many words"),
    ("join 1 2", "error 24 too few words"),
    ("join 1 2 3 4", "error 25 too many words"),
    ("map 1 2 3", "error 26 too few words"),
    ("map 1 2 3 4 5", "error 27 too many words"),
    ("close", "error 28 too few words"),
    ("close 1 2", "error 29 too many words"),
    ("seize 1 2", "error 30 too few words"),
    ("seize 1 2 3 4", "error 31 too many words"),
    ("release 1 2", "error 32 too few words"),
    ("release 1 2 3 4", "error 33 too many words"),
    ("line 1 2", "error 34 too few words"),
    ("line 1 2 3 4", "error 35 too many words"),
    ("who 1 2 3", "error 36 too few words"),
    ("who 1 2 3 4 5", "error 37 too many words"),
    ("start 1 2 3", "error 38 too few words"),
    ("table 1 2 3", "error 39 too few words"),
    ("table 1 2 3 4 5", "error 40 too many words"),
];

#[test]
fn errors() {
    ask(ERRORS);
}

const SPACES_AND_COMMENTS: &[Row] = &[
    ("", ""),
    ("#", ""),
    ("# split 0", ""),
    ("#split 0", ""),
    (" # split 0", "error 5 unknown command"),
    (" ", "error 6 unknown command"),
    ("      ", "error 7 unknown command"),
    ("", ""),
    ("split     51", "ok 0 25 0 -"),
    ("   split 51", "ok 0 25 0 -"),
    ("split 51    ", "ok 0 25 0 -"),
    ("  join  0   25    0 ", "ok 51"),
    ("split 51 # a note", "error 13 too many words"),
    ("\tsplit 51", "error 14 unknown command"),
    ("split\t51", "error 15 unknown command"),
    ("split 51\t", "error 16 not a number"),
    ("split 51\r", "error 17 not a number"),
    ("\r", "error 18 unknown command"),
    ("build frequency\r", "error 19 unknown burst"),
    ("split\u{a0}51", "error 20 unknown command"),
    ("split \u{661}", "error 21 not a number"),
    ("split 5\x001", "error 22 not a number"),
    ("\0", "error 23 unknown command"),
    ("page 123\t 0", "refused 3"),
    ("split 51", "ok 0 25 0 -"),
];

#[test]
fn spaces_and_comments() {
    ask(SPACES_AND_COMMENTS);
}

#[test]
fn what_a_table_refuses() {
    let none = "timeslot 0 downlink, 2715648 frames from 0, open lines: none";
    ask(&[
        ("table 0 0 0 2715648", none),
        (
            "table 7 1 2715647 0",
            "timeslot 7 uplink, 0 frames from 2715647, open lines: none",
        ),
        ("table 0 0 0 2715649", "error 3 count too large"),
        ("table 8 2 2715648 2715649", "error 4 count too large"),
        ("table 0 0 0 4294967296", "error 5 count too large"),
        (
            "table 0 0 0 18446744073709551615",
            "error 6 count too large",
        ),
        (
            "table 0 0 0 18446744073709551616",
            "error 7 number too large",
        ),
        ("table 0 0 0 2715649 1", "error 8 too many words"),
        ("table 0 0 x 2715649", "error 9 not a number"),
        ("table 8 0 0 1", "refused 3"),
        ("table 0 2 0 1", "refused 3"),
        ("table 0 0 2715648 1", "refused 3"),
        ("table 4294967296 0 0 1", "refused 3"),
        ("table 0 4294967296 0 1", "refused 3"),
        ("table 0 0 4294967296 1", "refused 3"),
        (
            "table 0 0 00 0002",
            "timeslot 0 downlink, 2 frames from 0, open lines: none",
        ),
    ]);
}

/// Line 3 hops over 20 and 30 (HSN 0, MAIO 1); line 12 stays on 40; line 1 is the common one.
const TABLE_CELL: [Row; 7] = [
    ("start 10 0 1 5 10 20 30 40", "ok"),
    ("open 1 0 1 0 0 4 0", "ok"),
    ("open 12 1 8 0 0 2 0", "ok"),
    ("open 3 1 6 0 1 1 0", "ok"),
    ("open 63 4 15 0 3 7 0", "ok"),
    ("seize 3 0 65535", "ok"),
    ("seize 12 1 7", "ok"),
];

const TRAFFIC: &str = "\
timeslot 1 downlink, 4 frames from 11, open lines: 3 12
     FN   T1 T2 T3 | line 3                        | line 12                       |
                   | ARFCN kind  s owner  b.p  b.p | ARFCN kind  s owner  b.p  b.p |
     11    0 11 11 |    20 TCH   0 65535  2.3  1.7 |    40 TCH   1     7  2.1  1.3 |
     12    0 12 12 |    30 idle                    |    40 SACCH 0  free  0.0      |
     13    0 13 13 |    20 TCH   0 65535  3.0  2.4 |    40 TCH   0  free  3.0  2.2 |
     14    0 14 14 |    30 TCH   0 65535  3.1  2.5 |    40 TCH   1     7  3.0  2.2 |";

const PAST_THE_TURN: &str = "\
timeslot 1 uplink, 3 frames from 2715646, open lines: 3 12
     FN   T1 T2 T3 | line 3                        | line 12                       |
                   | ARFCN kind  s owner  b.p  b.p | ARFCN kind  s owner  b.p  b.p |
2715646 2047 24 49 |    30 TCH   0 65535  5.3  4.7 |    40 TCH   1     7  5.1  4.3 |
2715647 2047 25 50 |    20 SACCH 0 65535  0.3      |    40 SACCH 1     7  0.3      |
      0    0  0  0 |    30 TCH   0 65535  0.0  5.4 |    40 TCH   0  free  0.0  5.2 |";

const COMMON: &str = "\
timeslot 0 downlink, 4 frames from 0, open lines: 1
     FN   T1 T2 T3 | line 1                        |
                   | ARFCN kind  s owner  b.p  b.p |
      0    0  0  0 |    10 FCCH  -     -  0.0      |
      1    0  1  1 |    10 SCH   -     -  0.0      |
      2    0  2  2 |    10 BCCH  -     -  0.0      |
      3    0  3  3 |    10 BCCH  -     -  0.1      |";

const RANDOM_ACCESS: &str = "\
timeslot 0 uplink, 2 frames from 50, open lines: 1
     FN   T1 T2 T3 | line 1                        |
                   | ARFCN kind  s owner  b.p  b.p |
     50    0 24 50 |    10 RACH  -     - 50.0      |
     51    0 25  0 |    10 RACH  -     -  0.0      |";

const DEDICATED: &str = "\
timeslot 4 downlink, 2 frames from 31, open lines: 63
     FN   T1 T2 T3 | line 63                       |
                   | ARFCN kind  s owner  b.p  b.p |
     31    0  5 31 |    30 SDCCH 7  free  0.3      |
     32    0  6 32 |    40 SACCH 0  free  0.0      |";

const NO_FRAME: &str = "\
timeslot 4 uplink, 0 frames from 0, open lines: 63
     FN   T1 T2 T3 | line 63                       |
                   | ARFCN kind  s owner  b.p  b.p |";

#[test]
fn tables() {
    let mut rows = TABLE_CELL.to_vec();
    rows.extend([
        ("table 1 0 11 4", TRAFFIC),
        ("table 1 1 2715646 3", PAST_THE_TURN),
        ("table 0 0 0 4", COMMON),
        ("table 0 1 50 2", RANDOM_ACCESS),
        ("table 4 0 31 2", DEDICATED),
        ("table 4 1 0 0", NO_FRAME),
        (
            "table 2 1 5 1",
            "timeslot 2 uplink, 1 frames from 5, open lines: none",
        ),
        ("table 1 0 11 4 x", "error 15 too many words"),
        ("split 51", "ok 0 25 0 -"),
    ]);
    ask(&rows);
}
