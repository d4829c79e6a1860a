//! The other calls of the cell beside the second implementation: `start`, changes that are refused,
//! and `page`. None of them leaves a cell that the next call would find changed.

use crate::cells::{after, cells, empty, full, leak, of_library, of_second, one_cell};
use crate::cells::{opens, seizes, CALLS};
use crate::timing::{contender, Line, Table};
use std::hint::black_box;
use tdma_tests::calls::{change, second_change, Both, Call};
use tdma_tests::cell;
use tdma_tests::clock::HYPERFRAME;
use tdma_tests::draw::{imsi, plan_of};
use tdma_tests::library::{self, PageAnswer};
use tdma_tests::paging::Imsi;
use tdma_tests::random::Random;
use tdma_tests::{LINE_CLOSED, LINE_OPEN, NO_COMMON_LINE};

fn start_line(random: &mut Random, length: u32) -> Line {
    let plans = leak(CALLS, || plan_of(random, length));
    let mut cell = library::unfilled();
    let contenders = vec![
        contender("library", plans, move |p| {
            let answer = library::start(&mut cell, &p.ca, p.c0, p.bcc, p.ag, p.p);
            answer.refusal
        }),
        contender("second (book)", plans, |p| {
            let (answer, cell) = cell::Cell::start(p);
            black_box(&cell);
            answer.err().unwrap_or(0)
        }),
    ];
    Line::new(format!("start, CA of {length}"), CALLS, contenders)
}

type DrawCell = fn(&mut Random) -> Both;
type DrawCalls = fn(&mut Random) -> Vec<Call>;

/// Calls that are all refused alike.
fn refused_line(
    random: &mut Random,
    label: &str,
    refusal: u32,
    (draw_cell, draw_calls): (DrawCell, DrawCalls),
) -> Line {
    let all = cells(|| draw_cell(random));
    let calls = draw_calls(random);
    let asked: &[(usize, Call)] = leak(CALLS, || (one_cell(random), random.one_of(&calls)));
    for (cell, call) in asked {
        assert_eq!(all[*cell].clone().make(call), refusal, "{label}");
    }
    let (mut library, mut second) = (of_library(all), of_second(all));
    let contenders = vec![
        contender("library", asked, move |(cell, call)| {
            change(&mut library[*cell], call).unwrap().refusal
        }),
        contender("second (book)", asked, move |(cell, call)| {
            let answer = second_change(&mut second[*cell], call).unwrap();
            answer.map_or_else(|refused| refused.number, |()| 0)
        }),
    ];
    Line::new(format!("{label}: refused ({refusal})"), CALLS, contenders)
}

fn changes_table(random: &mut Random) -> Table {
    let on_full: (DrawCell, DrawCalls) = (|r| full(r, 8, false), |r| opens(r, 8, false));
    let closes: DrawCalls = |_| (0..64).map(Call::Close).collect();
    let holds: DrawCalls = |r| {
        let full = full(r, 8, false);
        seizes(r, &full.second)
    };
    let releases: DrawCalls = |r| {
        let mut release = |line| Call::Release(line, 0, 1 + r.below(65_535));
        (0..64).map(&mut release).collect()
    };
    let lines = vec![
        start_line(random, 1),
        start_line(random, 64),
        refused_line(random, "open, full", LINE_OPEN, on_full),
        refused_line(random, "close, empty", LINE_CLOSED, (empty, closes)),
        refused_line(random, "seize, empty", LINE_CLOSED, (empty, holds)),
        refused_line(random, "release, empty", LINE_CLOSED, (empty, releases)),
    ];
    Table {
        title: "cell: start, and refused",
        lines,
    }
}

/// A cell with common lines of these combinations in timeslots 0, 2, 4 and 6.
fn with_common(random: &mut Random, common: &[u32]) -> Both {
    let mut plan = plan_of(random, 64);
    plan.ag = plan.ag.min(2);
    let c0 = plan
        .ca
        .iter()
        .position(|&arfcn| u32::from(arfcn) == plan.c0);
    let mask = 1 << c0.unwrap();
    let open = |(i, &combination): (u32, &u32)| {
        Call::Open(i, (2 * i, mask, 0, 0, combination, plan.bcc).into())
    };
    let opens: Vec<Call> = (0..).zip(common).map(open).collect();
    after(Both::started(&plan), &opens)
}

fn page_added_up(a: PageAnswer) -> u32 {
    a.refusal + a.tn + a.block + a.frame
}

/// Pages that are all answered alike. The second implementation goes on frame by frame to the one
/// where a block begins.
fn page_line(random: &mut Random, label: &str, common: &[u32], refusal: u32) -> Line {
    let all = cells(|| with_common(random, common));
    let asked: &[(&Both, Imsi, u32)] = leak(CALLS, || {
        let both = &all[one_cell(random)];
        (both, imsi(random), random.below(HYPERFRAME))
    });
    for (both, imsi, frame) in asked {
        assert_eq!(both.page(imsi.digits(), *frame).refusal, refusal, "{label}");
    }
    let contenders = vec![
        contender("library", asked, |(both, imsi, frame)| {
            page_added_up(library::page(&both.library, imsi.digits(), *frame))
        }),
        contender("second (walk)", asked, |(both, imsi, frame)| {
            page_added_up(both.second.page(imsi.digits(), *frame).into())
        }),
    ];
    Line::new(label, CALLS, contenders)
}

fn page_table(random: &mut Random) -> Table {
    let rows: [(&str, &[u32], u32); 4] = [
        ("a 4", &[4], 0),
        ("a 4 and three 6s", &[4, 6, 6, 6], 0),
        ("a 5", &[5], 0),
        ("no common line: refused (16)", &[], NO_COMMON_LINE),
    ];
    let lines = rows.map(|(label, common, refusal)| page_line(random, label, common, refusal));
    Table {
        title: "cell: page",
        lines: lines.into(),
    }
}

pub fn tables(random: &mut Random) -> Vec<Table> {
    vec![changes_table(random), page_table(random)]
}
