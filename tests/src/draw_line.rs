//! Random lines for the program `schedule`. Most have a command that looks at the cell and is
//! accepted; some a value at a border or past it; and some are spoilt in their words.

use crate::bursts::Call as Burst;
use crate::calls::Call;
use crate::cell::Cell;
use crate::clock::HYPERFRAME;
use crate::command::NAMES;
use crate::draw::{self, odd_number};
use crate::frame_map::COMBINATIONS;
use crate::random::Random;

fn clock(random: &mut Random) -> String {
    let frame = random.frame();
    let (t1, t2, t3) = (random.below(2048), random.below(26), random.below(51));
    match random.below(8) {
        0 => format!("split {}", odd_number(random, HYPERFRAME - 1)),
        1..=3 => format!("split {frame}"),
        4 => format!("join {} {t2} {t3}", odd_number(random, 2047)),
        5 => format!(
            "join {t1} {} {}",
            random.one_of(&[25, 26]),
            random.one_of(&[50, 51])
        ),
        _ => format!("join {t1} {t2} {t3}"),
    }
}

/// A cell allocation's words, with a space before each.
fn allocation(ca: &[u16]) -> String {
    ca.iter().map(|arfcn| format!(" {arfcn}")).collect()
}

fn hop(random: &mut Random) -> String {
    let plan = match random.below(8) {
        0 => draw::odd_plan(random),
        _ => draw::plan(random),
    };
    let length = (plan.ca.len() as u32).clamp(1, 64);
    let n = 1 + random.below(length);
    let mut mask = random.mask(n, length);
    let (mut hsn, mut maio, mut frame) = (random.below(64), random.below(n), random.frame());
    match random.below(16) {
        0 => mask = random.one_of(&[0, 1 << 63, u64::MAX, 1 << 32]),
        1 => hsn = odd_number(random, 63),
        2 => maio = odd_number(random, n - 1),
        3 => frame = odd_number(random, HYPERFRAME - 1),
        _ => (),
    }
    format!("hop {mask} {hsn} {maio} {frame}{}", allocation(&plan.ca))
}

fn map(random: &mut Random) -> String {
    let mut combination = random.one_of(&COMBINATIONS);
    let (mut tn, mut frame, mut direction) = (random.below(8), random.frame(), random.below(2));
    match random.below(16) {
        0 => combination = random.one_of(&[0, 3, 8, 257, u32::MAX]),
        1 => tn = odd_number(random, 7),
        2 => frame = odd_number(random, HYPERFRAME - 1),
        3 => direction = odd_number(random, 1),
        _ => (),
    }
    format!("map {combination} {tn} {frame} {direction}")
}

fn start(random: &mut Random) -> String {
    let plan = match random.below(4) {
        0 => draw::odd_plan(random),
        _ => draw::plan(random),
    };
    let ca = allocation(&plan.ca);
    format!("start {} {} {} {}{ca}", plan.c0, plan.bcc, plan.ag, plan.p)
}

/// A call on the cell in its words. A byte that is no digit of an IMSI is one of the two characters
/// beside the digits.
fn call(random: &mut Random, cell: &Cell) -> String {
    match draw::call(random, cell, 6) {
        Call::Open(line, v) => {
            let six = format!("{} {} {} {}", v.tn, v.mask, v.hsn, v.maio);
            format!("open {line} {six} {} {}", v.combination, v.tsc)
        }
        Call::Close(line) => format!("close {line}"),
        Call::Seize(line, s, owner) => format!("seize {line} {s} {owner}"),
        Call::Release(line, s, owner) => format!("release {line} {s} {owner}"),
        Call::Line(line, frame, direction) => format!("line {line} {frame} {direction}"),
        Call::Who(tn, arfcn, frame, direction) => format!("who {tn} {arfcn} {frame} {direction}"),
        Call::Page(imsi, frame) => {
            let digits = imsi.digits().iter().map(|digit| match digit {
                0..=9 => char::from(b'0' + digit),
                128.. => '/',
                _ => ':',
            });
            format!("page {} {frame}", String::from_iter(digits))
        }
    }
}

/// The words of a burst's call up to its bits.
fn burst_words(call: Burst) -> String {
    match call {
        Burst::BuildNormal(tsc) => format!("build normal {tsc}"),
        Burst::TakeNormal(tsc) => format!("take normal {tsc}"),
        Burst::BuildSynchronization => "build sync".into(),
        Burst::TakeSynchronization => "take sync".into(),
        Burst::BuildAccess => "build access".into(),
        Burst::TakeAccess => "take access".into(),
        Burst::BuildFrequencyCorrection => "build frequency".into(),
        Burst::BuildDummy => "build dummy".into(),
    }
}

/// What a call may be given to read: for a take, a burst that a build has made.
fn burst_bits(random: &mut Random, call: Burst) -> Vec<u8> {
    let build = match call {
        Burst::TakeNormal(tsc) if tsc <= 7 => Burst::BuildNormal(tsc),
        Burst::TakeSynchronization => Burst::BuildSynchronization,
        Burst::TakeAccess => Burst::BuildAccess,
        _ => return random.bits(call.lengths().0),
    };
    let (payload, burst) = build.lengths();
    let mut lent = vec![0; burst];
    let made = build.make(&random.bits(payload), &mut lent);
    made.expect("a burst of random bits");
    lent
}

/// The bits as characters, some of them with one changed or with another length.
fn odd_bits(random: &mut Random, bits: Vec<u8>) -> String {
    let any = random.below(bits.len() as u32) as usize;
    let at = random.one_of(&[any, any, 1, bits.len() - 1]);
    let mut bits: Vec<char> = bits.iter().map(|bit| char::from(b'0' + bit)).collect();
    match random.below(20) {
        0..=3 => bits[at] = if bits[at] == '0' { '1' } else { '0' },
        4 => bits[at] = random.one_of(&['2', '/', '9', 'O']),
        5 => bits.truncate(at.max(1)),
        6 => bits.push('0'),
        _ => (),
    }
    String::from_iter(bits)
}

fn burst(random: &mut Random) -> String {
    let tsc = match random.below(8) {
        0 => odd_number(random, 7),
        _ => random.below(8),
    };
    let call = match random.below(12) {
        0..=2 => Burst::BuildNormal(tsc),
        3..=5 => Burst::TakeNormal(tsc),
        6 => Burst::BuildSynchronization,
        7 => Burst::TakeSynchronization,
        8 => Burst::BuildAccess,
        9 => Burst::TakeAccess,
        10 => Burst::BuildFrequencyCorrection,
        _ => Burst::BuildDummy,
    };
    match burst_bits(random, call) {
        bits if bits.is_empty() => burst_words(call),
        bits => format!("{} {}", burst_words(call), odd_bits(random, bits)),
    }
}

/// Mostly of a timeslot with open lines, and not many frames.
fn table(random: &mut Random, cell: &Cell) -> String {
    let lines: Vec<u32> = cell.lines.values().map(|line| line.tn).collect();
    let mut tn = match &lines[..] {
        [] => random.below(8),
        some => random.one_of(some),
    };
    let (mut frame, mut direction) = (random.frame(), random.below(2));
    let mut count = u64::from(random.below(8));
    match random.below(12) {
        0 => tn = odd_number(random, 7),
        1 => direction = odd_number(random, 1),
        2 => frame = odd_number(random, HYPERFRAME - 1),
        3 => count = random.one_of(&[2_715_649, 1 << 32, u64::MAX]),
        4 => count = u64::from(20 + random.below(20)),
        5..=6 => frame = HYPERFRAME - 1 - random.below(4),
        _ => (),
    }
    format!("table {tn} {direction} {frame} {count}")
}

/// A command with nothing wrong in the form of its words. A cell of one ARFCN, as a refused start
/// hands back, doesn't stay long.
pub fn command(random: &mut Random, cell: &Cell, tables: bool) -> String {
    let most = if cell.plan.ca.len() == 1 { 40 } else { 250 };
    if random.once_in(most) {
        return start(random);
    }
    match random.below(200) {
        0..=2 if tables => table(random, cell),
        3..=18 => clock(random),
        19..=30 => hop(random),
        31..=46 => map(random),
        47..=62 => burst(random),
        _ => call(random, cell),
    }
}

type Words = Vec<Vec<u8>>;

/// Any bytes but a newline, and mostly no space.
fn noise(random: &mut Random) -> Vec<u8> {
    let length = 1 + random.below(8) as usize;
    let bytes = random.bytes(length).into_iter();
    bytes
        .map(|byte| if byte == b'\n' { b'\r' } else { byte })
        .collect()
}

/// A word that is mostly no number that is right in its place.
fn odd_word(random: &mut Random) -> Vec<u8> {
    const NUMBERS: [&str; 10] = [
        "4294967295",
        "4294967296",
        "18446744073709551615",
        "18446744073709551616",
        "18446744073709551617",
        "36893488147419103232",
        "99999999999999999999",
        "340282366920938463463374607431768211456",
        "00000000000000000000000018446744073709551616",
        "0",
    ];
    const OTHERS: [&str; 11] = [
        "-1",
        "+1",
        "1.0",
        "0x10",
        "x",
        "1\t",
        "7\r",
        "\0",
        "1_000",
        "\u{661}",
        "99999999999999999999x",
    ];
    match random.below(5) {
        0..=2 => random.one_of(&NUMBERS).into(),
        3 => random.one_of(&OTHERS).into(),
        _ => noise(random),
    }
}

/// A number that would be the word's again if it were cut to 16, 32 or 64 bits.
fn past(random: &mut Random, word: &[u8]) -> Vec<u8> {
    let text = std::str::from_utf8(word).ok();
    let Some(number) = text.and_then(|text| text.parse::<u64>().ok()) else {
        return odd_word(random);
    };
    let past = random.one_of(&[1 << 16, 1 << 32, 1u128 << 64]) + u128::from(number);
    past.to_string().into_bytes()
}

/// Spoils the words of a command one way of several. A table gets no count that it would print.
fn spoil(random: &mut Random, words: &mut Words) {
    let at = random.below(words.len() as u32) as usize;
    match random.below(12) {
        0..=1 => drop(words.remove(at)),
        2 => words.push(odd_word(random)),
        3 => words.push(words[at].clone()),
        4..=5 => words[at] = odd_word(random),
        6..=8 if words[0] != b"table" => words[at] = past(random, &words[at].clone()),
        9 => words[0] = random.one_of(&NAMES).into(),
        10 => words[0] = random.one_of(&["Split", "lines", "ok", "tabl", "#"]).into(),
        _ => words[1] = random.one_of(&["sync", "dummy", "Sync", "x"]).into(),
    }
}

/// Zeros before some of the numbers.
fn leading_zeros(random: &mut Random, words: &mut Words) {
    for word in words.iter_mut().skip(1) {
        if random.once_in(2) && word.len() < 20 && word.iter().all(u8::is_ascii_digit) {
            let zeros = random.one_of(&[1, 2, 12, 40]);
            *word = [vec![b'0'; zeros], word.clone()].concat();
        }
    }
}

/// The words with one space between them, or any number of them also before and behind.
fn spaced(random: &mut Random, words: &Words) -> Vec<u8> {
    if !random.once_in(8) {
        return words.join(&b' ');
    }
    let mut line = vec![b' '; random.one_of(&[0, 0, 1, 3])];
    for word in words {
        line.extend(word);
        line.extend(vec![b' '; random.one_of(&[1, 1, 2, 5])]);
    }
    line
}

/// Lines with no command in them.
const OTHER_LINES: [&str; 6] = ["", "", "#", "# a note", "#split 0", "   "];

/// A line of a script.
pub fn line(random: &mut Random, cell: &Cell, tables: bool) -> Vec<u8> {
    match random.below(60) {
        0 => return random.one_of(&OTHER_LINES).into(),
        1 if random.once_in(2) => return noise(random),
        _ => (),
    }
    let command = command(random, cell, tables);
    let mut words: Words = command.split(' ').map(|word| word.into()).collect();
    if random.once_in(12) {
        spoil(random, &mut words);
    }
    if random.once_in(12) {
        leading_zeros(random, &mut words);
    }
    spaced(random, &words)
}
