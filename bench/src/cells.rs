//! The cells that calls are measured on, drawn for the library and the second implementation alike.

use tdma_tests::calls::{Both, Call};
use tdma_tests::cell::{self, subchannels};
use tdma_tests::draw::plan_of;
use tdma_tests::library;
use tdma_tests::random::Random;

/// How many inputs a pass has: few, as the second implementation is slow.
pub const CALLS: usize = 1_000;
/// How many cells they are spread over: few, so that no contender waits for memory.
const CELLS: usize = 2;

/// So many values that live as long as the program.
pub fn leak<T>(count: usize, mut draw: impl FnMut() -> T) -> &'static [T] {
    (0..count).map(|_| draw()).collect::<Vec<T>>().leak()
}

pub fn cells(draw: impl FnMut() -> Both) -> &'static [Both] {
    leak(CELLS, draw)
}

/// The number of one of the cells.
pub fn one_cell(random: &mut Random) -> usize {
    random.below(CELLS as u32) as usize
}

/// The library's cells, to be changed.
pub fn of_library(cells: &[Both]) -> Vec<library::Cell> {
    cells.iter().map(|both| both.library).collect()
}

/// Those of the second implementation.
pub fn of_second(cells: &[Both]) -> Vec<cell::Cell> {
    cells.iter().map(|both| both.second.clone()).collect()
}

/// Draws the opens of 64 lines.
pub type DrawOpens = fn(&mut Random) -> Vec<Call>;

/// The opens of a full cell, eight lines to a timeslot: with N = 1 they have an ARFCN each, with N
/// from 8 on they hop in step.
pub fn opens(random: &mut Random, n: u32, cyclic: bool) -> Vec<Call> {
    let mask = random.mask(n, 64);
    let hsn = if cyclic { 0 } else { 1 + random.below(63) };
    let open = |line: u32| {
        let (tn, place) = (line / 8, line % 8);
        let (mask, maio) = match n {
            1 => (1 << (8 * place + tn), 0),
            _ => (mask, place),
        };
        let (combination, tsc) = (random.one_of(&[1, 2, 7]), random.below(8));
        Call::Open(line, (tn, mask, hsn, maio, combination, tsc).into())
    };
    (0..64).map(open).collect()
}

/// The opens of 64 lines in timeslot 7: with N = 64 they hop in step, with N = 1 they have an ARFCN
/// each.
pub fn opens_in_one(random: &mut Random, n: u32) -> Vec<Call> {
    let hsn = 1 + random.below(63);
    let open = |line: u32| {
        let (mask, maio) = match n {
            1 => (1 << line, 0),
            _ => (u64::MAX, line),
        };
        Call::Open(line, (7, mask, hsn, maio, 1, 0).into())
    };
    (0..64).map(open).collect()
}

pub fn seizes(random: &mut Random, cell: &cell::Cell) -> Vec<Call> {
    let mut seize = |line, s| {
        let owner = 1 + random.below(65_535);
        Call::Seize(line, s, owner)
    };
    let mut calls = Vec::new();
    for (&number, line) in &cell.lines {
        calls.extend(subchannels(line.combination).map(|s| seize(number, s)));
    }
    calls
}

/// The cell after more calls, which must be accepted.
pub fn after(mut both: Both, calls: &[Call]) -> Both {
    for call in calls {
        assert_eq!(both.make(call), 0, "{call:?}");
    }
    both
}

pub fn empty(random: &mut Random) -> Both {
    Both::started(&plan_of(random, 64))
}

pub fn full(random: &mut Random, n: u32, cyclic: bool) -> Both {
    after(empty(random), &opens(random, n, cyclic))
}

/// A full cell with every subchannel held.
pub fn held(random: &mut Random, n: u32, cyclic: bool) -> Both {
    let full = full(random, n, cyclic);
    let seizes = seizes(random, &full.second);
    after(full, &seizes)
}
