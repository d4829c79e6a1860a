//! Calls that change the cell, in pairs of which the second undoes the first: `seize` and `release`,
//! `open` and `close`. All contenders work in place, so each pair is made on the cell as it was.

use crate::bare::Bare;
use crate::cells::{after, cells, empty, full, leak, of_library, of_second, one_cell};
use crate::cells::{opens, opens_in_one, seizes, DrawOpens, CALLS};
use crate::timing::{contender, Contender, Line};
use tdma_tests::calls::{Both, Call};
use tdma_tests::cell::{Refused, Values};
use tdma_tests::library;
use tdma_tests::random::Random;
use tdma_tests::Answer;

const SECOND: &str = "second (book), in place";
const BARE: &str = "plain arrays, unchecked";

fn of_bare(cells: &[Both]) -> Vec<Bare> {
    cells.iter().map(|both| Bare::of(&both.second)).collect()
}

fn refusal(answer: Answer<()>) -> u32 {
    answer.err().unwrap_or(0)
}

/// A subchannel that is seized and released.
struct Hold {
    cell: usize,
    line: u32,
    s: u32,
    owner: u32,
}

/// Any free subchannel of these cells.
fn holds(random: &mut Random, cells: &[Both]) -> &'static [Hold] {
    let mut free = Vec::new();
    for both in cells {
        free.push(seizes(random, &both.second));
    }
    leak(CALLS, || {
        let cell = one_cell(random);
        let Call::Seize(line, s, owner) = random.one_of(&free[cell]) else {
            panic!("not a seize");
        };
        Hold {
            cell,
            line,
            s,
            owner,
        }
    })
}

/// Both calls of each pair are accepted, and the plain arrays have what the second implementation has.
fn check_holds(cells: &[Both], asked: &[Hold]) {
    let (mut cells, mut bare) = (cells.to_vec(), of_bare(cells));
    for h in asked {
        let (both, bare) = (&mut cells[h.cell], &mut bare[h.cell]);
        assert_eq!(both.make(&Call::Seize(h.line, h.s, h.owner)), 0);
        bare.seize(h.line, h.s, h.owner);
        assert!(bare.shows(&both.second), "seize");
        assert_eq!(both.make(&Call::Release(h.line, h.s, h.owner)), 0);
        bare.release(h.line, h.s);
        assert!(bare.shows(&both.second), "release");
    }
}

fn hold_contenders(cells: &[Both], asked: &'static [Hold]) -> Vec<Contender> {
    let (mut library, mut second) = (of_library(cells), of_second(cells));
    let mut bare = of_bare(cells);
    vec![
        contender("library", asked, move |h| {
            let cell = &mut library[h.cell];
            let seized = library::seize(cell, h.line, h.s, h.owner).refusal;
            seized + library::release(cell, h.line, h.s, h.owner).refusal
        }),
        contender(SECOND, asked, move |h| {
            let cell = &mut second[h.cell];
            let seized = refusal(cell.seize(h.line, h.s, h.owner));
            seized + refusal(cell.release(h.line, h.s, h.owner))
        }),
        contender(BARE, asked, move |h| {
            let cell = &mut bare[h.cell];
            cell.seize(h.line, h.s, h.owner) + cell.release(h.line, h.s)
        }),
    ]
}

/// The pair on a cell with 64 open lines.
pub fn hold_line(random: &mut Random) -> Line {
    let cells = cells(|| full(random, 8, false));
    let asked = holds(random, cells);
    check_holds(cells, asked);
    let contenders = hold_contenders(cells, asked);
    Line::new("seize + release, 64 lines", CALLS, contenders).within(2.0, 1.0)
}

/// A line that is opened and closed.
struct Opening {
    cell: usize,
    line: u32,
    values: Values,
}

/// Both calls of each pair are accepted, and the plain arrays have what the second implementation has.
fn check_openings(cells: &[Both], asked: &[Opening]) {
    let (mut cells, mut bare) = (cells.to_vec(), of_bare(cells));
    for o in asked {
        let (both, bare) = (&mut cells[o.cell], &mut bare[o.cell]);
        assert_eq!(both.make(&Call::Open(o.line, o.values)), 0);
        assert_eq!(bare.open(o.line, &o.values), 0);
        assert!(bare.shows(&both.second), "open");
        assert_eq!(both.make(&Call::Close(o.line)), 0);
        bare.close(o.line);
        assert!(bare.shows(&both.second), "close");
    }
}

fn opening_contenders(cells: &[Both], asked: &'static [Opening]) -> Vec<Contender> {
    let (mut library, mut second) = (of_library(cells), of_second(cells));
    let mut bare = of_bare(cells);
    vec![
        contender("library", asked, move |o| {
            let cell = &mut library[o.cell];
            let opened = library::open(cell, o.line, &o.values).refusal;
            opened + library::close(cell, o.line).refusal
        }),
        contender(SECOND, asked, move |o| {
            let cell = &mut second[o.cell];
            let opened = cell.open(o.line, &o.values).err();
            opened.map_or(0, |Refused { number, .. }| number) + refusal(cell.close(o.line))
        }),
        contender(BARE, asked, move |o| {
            let cell = &mut bare[o.cell];
            cell.open(o.line, &o.values) + cell.close(o.line)
        }),
    ]
}

/// The pair of line 63, on a cell with the `count` lines before it.
fn opening_line(random: &mut Random, label: String, count: usize, opens: DrawOpens) -> Line {
    let mut last = Vec::new();
    let cells = cells(|| {
        let mut opens = opens(random);
        last.extend(opens.pop());
        after(empty(random), &opens[63 - count..])
    });
    let asked = leak(CALLS, || {
        let cell = one_cell(random);
        let Call::Open(line, values) = last[cell] else {
            panic!("not an open");
        };
        Opening { cell, line, values }
    });
    check_openings(cells, asked);
    Line::new(label, CALLS, opening_contenders(cells, asked))
}

/// The pair of the last line of 64.
pub fn opening_lines(random: &mut Random) -> Vec<Line> {
    let kinds: [(&str, DrawOpens); 3] = [
        ("8 to a TN, N = 8", |r| opens(r, 8, false)),
        ("in one TN, N = 64", |r| opens_in_one(r, 64)),
        ("in one TN, N = 1", |r| opens_in_one(r, 1)),
    ];
    let line = |(kind, opens)| {
        let label = format!("open + close, 63 lines {kind}");
        opening_line(random, label, 63, opens).within(2.0, 1.0)
    };
    kinds.map(line).into()
}

/// The pair of line 63 with more and more lines open before it, eight to a timeslot.
pub fn opening_growth(random: &mut Random) -> Vec<Line> {
    let line = |count| {
        let label = format!("open + close, {count} lines");
        opening_line(random, label, count, |random| opens(random, 8, false))
    };
    [0, 16, 32, 63].map(line).into()
}
