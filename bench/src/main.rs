//! Nanoseconds for each call of the library, beside the second implementation of `tests/`,
//! libosmocore, plain tables, plain arrays and plain copies, on the same random inputs in one run.

mod air;
mod bare;
mod bursts;
mod cell;
mod cells;
mod hop;
mod osmocore;
mod pairs;
mod plain;
mod timing;

use std::hint::black_box;
use std::process::ExitCode;
use tdma_tests::clock::{self, HYPERFRAME};
use tdma_tests::frame_map::{self, COMBINATIONS};
use tdma_tests::library::{self, MapAnswer};
use tdma_tests::random::Random;
use timing::{contender, Line, Table};

/// How many inputs a pass has.
const INPUTS: usize = 20_000;

/// The inputs of a pass.
fn inputs<T>(draw: impl FnMut() -> T) -> &'static [T] {
    cells::leak(INPUTS, draw)
}

fn clock_table(random: &mut Random) -> Table {
    let frames = inputs(|| random.below(HYPERFRAME));
    let contenders = vec![
        contender("library", frames, |&frame| {
            let answer = library::split(frame);
            answer.t1 + answer.t2 + answer.t3
        }),
        contender("second (table)", frames, |&frame| {
            let now = clock::split(frame).unwrap();
            u32::from(now.t1) + u32::from(now.t2) + u32::from(now.t3)
        }),
        contender("libosmocore, unchecked", frames, |&frame| {
            let time = osmocore::split(frame);
            u32::from(time.t1) + u32::from(time.t2) + u32::from(time.t3)
        }),
    ];
    Table {
        title: "clock",
        lines: vec![Line::new("split", INPUTS, contenders)],
    }
}

struct Place {
    combination: u32,
    tn: u32,
    frame: u32,
    direction: u32,
}

/// How a caller reads the answer.
type Reader = fn(MapAnswer) -> u32;

/// The channel alone: the least that a caller can do.
fn channel_only(answer: MapAnswer) -> u32 {
    answer.channel.into()
}

/// Every field by itself.
fn field_by_field(answer: MapAnswer) -> u32 {
    let mixed = [
        (answer.channel, 4),
        (answer.subchannel, 0),
        (answer.blocks, 9),
        (answer.block, 15),
        (answer.place, 12),
        (answer.second_block, 24),
        (answer.second_place, 21),
    ];
    let turned = mixed.map(|(field, by)| u32::from(field).rotate_left(by));
    turned.into_iter().fold(0, |sum, field| sum ^ field)
}

/// All fields added up.
pub fn added_up(answer: MapAnswer) -> u32 {
    let blocks = answer.block + answer.place + answer.second_block + answer.second_place;
    u32::from(answer.channel) + u32::from(answer.subchannel + answer.blocks) + u32::from(blocks)
}

/// Nothing is read, but the whole answer is kept in memory.
fn stored(answer: MapAnswer) -> u32 {
    black_box(&answer);
    0
}

/// The frame map of the combinations given, mixed.
fn map_line(random: &mut Random, read: Reader, label: String, combinations: &[u32]) -> Line {
    let places = inputs(|| Place {
        combination: random.one_of(combinations),
        tn: random.below(8),
        frame: random.below(HYPERFRAME),
        direction: random.below(2),
    });
    let plain = plain::Tables::new();
    let contenders = vec![
        contender("library", places, move |p| {
            read(library::map(p.combination, p.tn, p.frame, p.direction))
        }),
        contender("second (painted tables)", places, move |p| {
            read(frame_map::map(p.combination, p.tn, p.frame, p.direction).into())
        }),
        contender("plain table, unchecked", places, move |p| {
            read(plain.map(p.combination, p.tn, p.frame, p.direction))
        }),
    ];
    Line::new(label, INPUTS, contenders)
}

fn map_table(random: &mut Random, title: &'static str, read: Reader) -> Table {
    let each = COMBINATIONS.map(|c| map_line(random, read, format!("combination {c}"), &[c]));
    let mut lines = Vec::from(each);
    lines.push(map_line(random, read, "all mixed".into(), &COMBINATIONS));
    Table { title, lines }
}

/// The rows that have limits.
fn ratios(random: &mut Random) -> Table {
    let mut lines = hop::position_lines(random);
    lines.extend(air::line_lines(random));
    lines.extend(air::who_lines(random));
    lines.push(pairs::hold_line(random));
    lines.extend(pairs::opening_lines(random));
    lines.extend(air::frame_lines(random));
    Table {
        title: "ratios",
        lines,
    }
}

/// How the time grows with the open lines, and with N.
fn growth(random: &mut Random) -> Table {
    let mut lines = pairs::opening_growth(random);
    lines.extend(air::who_growth(random));
    lines.extend(hop::position_growth(random));
    Table {
        title: "growth",
        lines,
    }
}

fn others(random: &mut Random) -> Vec<Table> {
    let mut tables = vec![
        clock_table(random),
        hop::table(random),
        map_table(random, "map, read field by field", field_by_field),
        map_table(random, "map, fields added up", added_up),
        map_table(random, "map, channel read only", channel_only),
        map_table(random, "map, answer stored", stored),
    ];
    tables.extend(cell::tables(random));
    tables.push(bursts::table(random));
    tables
}

/// Without an argument all is measured; with `library` the library alone, for bench/compare; with
/// `count` the passes are made that bench/count counts.
fn main() -> ExitCode {
    let mut random = Random(5);
    let mut limited = vec![ratios(&mut random), growth(&mut random)];
    let arguments: Vec<String> = std::env::args().skip(1).collect();
    if arguments.is_empty() {
        println!("Nanoseconds for each call, and the ratio of the library's to it");
        println!("(below 1: the library is quicker).");
        timing::run(limited, others(&mut random));
    } else if arguments == ["library"] {
        limited.extend(others(&mut random));
        timing::library(limited);
    } else if arguments == ["count"] {
        timing::count(limited);
    } else {
        eprintln!("usage: tdma_bench [library | count]");
        return ExitCode::FAILURE;
    }
    ExitCode::SUCCESS
}
