//! Paging: the library beside the walk from frame to frame, for every value of I in every kind of
//! cell; and IMSIs and frames that are refused.

use std::collections::{BTreeSet, HashMap};
use std::thread;
use tdma_tests::calls::{Both, Call};
use tdma_tests::cell::Plan;
use tdma_tests::clock::HYPERFRAME;
use tdma_tests::library::{self, PageAnswer};
use tdma_tests::paging::Group;
use tdma_tests::random::Random;
use tdma_tests::{draw, NO_COMMON_LINE, OUT_OF_RANGE};

/// The frames before the turn to 0 of which every one is asked: more than 4 × 9 multiframes.
const LAST: u32 = 2000;
/// For each P from 2 to 9: a 4 with none to three 6s and AG from 0 to 7, a 5 and AG from 0 to 2.
const CELLS: usize = 8 * (4 * 8 + 3);
/// The combinations of the common lines, by timeslot.
const COMMON: [&[u32]; 5] = [&[4], &[4, 6], &[4, 6, 6], &[4, 6, 6, 6], &[5]];

/// A cell with these common lines, and with a traffic line and an SDCCH/8 on another ARFCN. They
/// stand far from each other in the table, in any order.
fn cell(random: &mut Random, common: &[u32], ag: u32, p: u32) -> Both {
    let mut both = Both::started(&Plan::new([10, 20, 30], 20, 3, ag, p));
    let first = random.below(64);
    let mut open = |i: u32, tn, mask, combination| {
        let number = (first + 21 * i) % 64;
        let call = Call::Open(number, (tn, mask, 0, 0, combination, 3).into());
        assert_eq!(both.make(&call), 0, "{call:?}");
    };
    for (i, &combination) in (0..).zip(common) {
        open(i, 2 * i, 2, combination);
    }
    open(4, 0, 1, 1);
    open(5, 2, 1, 7);
    both
}

/// Every kind of cell that paging can tell apart.
fn cells(random: &mut Random) -> Vec<Both> {
    let mut cells = Vec::new();
    for common in COMMON {
        let most = if common == [5] { 2 } else { 7 };
        for ag in 0..=most {
            cells.extend((2..=9).map(|p| cell(random, common, ag, p)));
        }
    }
    assert_eq!(cells.len(), CELLS);
    cells
}

/// An IMSI that ends in I, with up to twelve digits before that.
fn imsi(random: &mut Random, i: u32) -> Vec<u8> {
    let before = random.below(13);
    let mut digits: Vec<u8> = (0..before).map(|_| random.below(10) as u8).collect();
    digits.extend([i / 100, i / 10 % 10, i % 10].map(|digit| digit as u8));
    digits
}

/// What the answers were.
#[derive(Default)]
struct Tally {
    answers: usize,
    /// In the very frame that was asked.
    at_once: usize,
    /// Past the turn to 0.
    turned: usize,
    places: BTreeSet<(u32, u32)>,
}

impl Tally {
    fn note(&mut self, from: u32, answer: PageAnswer) {
        assert_eq!(answer.refusal, 0);
        self.answers += 1;
        self.at_once += usize::from(answer.frame == from);
        self.turned += usize::from(answer.frame < from);
        self.places.insert((answer.tn, answer.block));
    }

    fn add(&mut self, mut other: Tally) {
        self.answers += other.answers;
        self.at_once += other.at_once;
        self.turned += other.turned;
        self.places.append(&mut other.places);
    }

    /// As many answers, all nine blocks in all four timeslots, and enough of the two others.
    fn check(&self, answers: usize, at_once: usize, turned: usize) {
        println!("at once {}, turned {}", self.at_once, self.turned);
        assert_eq!((self.answers, self.places.len()), (answers, 9 * 4));
        assert!(self.at_once > at_once && self.turned > turned);
    }
}

/// Each of the 1,000 values of I in each of the 280 cells, in two frames anywhere and in two of the
/// last 2,000, drawn anew for each.
#[test]
fn every_i_in_every_cell() {
    let (mut random, mut tally) = (Random(10), Tally::default());
    for both in cells(&mut random) {
        for i in 0..1000 {
            let digits = imsi(&mut random, i);
            for first in [0, 0, HYPERFRAME - LAST, HYPERFRAME - LAST] {
                let frame = first + random.below(HYPERFRAME - first);
                tally.note(frame, both.page(&digits, frame));
            }
        }
    }
    tally.check(4 * 1000 * CELLS, 1000, 10_000);
}

/// The answer for each of the last frames. A walk has met no beginning of the block on its way, so
/// where it ends, there ends the walk from each frame that it has passed.
fn firsts(group: &Group) -> Vec<u32> {
    let mut firsts = Vec::new();
    while firsts.len() < LAST as usize {
        let from = HYPERFRAME - LAST + firsts.len() as u32;
        let first = group.first(from);
        let passed = match first {
            turned if turned < from => HYPERFRAME - from,
            _ => first + 1 - from,
        };
        firsts.extend((0..passed).map(|_| first));
    }
    firsts
}

/// Asks for a phone of a group in each of the last frames, where `firsts` are the answers.
fn last_frames(both: &Both, group: &Group, firsts: &[u32], digits: &[u8], tally: &mut Tally) {
    for (from, &frame) in (HYPERFRAME - LAST..HYPERFRAME).zip(firsts) {
        let expected = PageAnswer {
            refusal: 0,
            tn: group.tn,
            block: group.block,
            frame,
        };
        let answer = library::page(&both.library, digits, from);
        assert_eq!(answer, expected, "{digits:?}, FN {from}, {group:?}");
        tally.note(from, answer);
    }
}

/// Asks for each value of I, with an IMSI of any length, in each of the last frames of these cells.
fn last_frames_of_cells(cells: &[Both], seed: u64) -> Tally {
    let (mut random, mut tally) = (Random(seed), Tally::default());
    let mut walked = HashMap::new();
    for both in cells {
        let groups = both.second.groups();
        for i in 0..1000 {
            let group = &groups[i % groups.len()];
            let firsts = walked.entry(*group).or_insert_with(|| firsts(group));
            let digits = imsi(&mut random, i as u32);
            last_frames(both, group, firsts, &digits, &mut tally);
        }
    }
    tally
}

/// Each of the 1,000 values of I in every one of the last 2,000 frames in each of the 280 cells: 560
/// million questions, shared out among the machine's cores.
#[test]
fn every_i_in_every_one_of_the_last_frames() {
    let cells = cells(&mut Random(11));
    let threads = thread::available_parallelism().map_or(1, usize::from);
    let mut tally = Tally::default();
    thread::scope(|scope| {
        let shares = cells.chunks(CELLS.div_ceil(threads)).zip(20..);
        let running: Vec<_> = shares
            .map(|(share, seed)| scope.spawn(move || last_frames_of_cells(share, seed)))
            .collect();
        for share in running {
            tally.add(share.join().unwrap());
        }
    });
    let answers = LAST as usize * 1000 * CELLS;
    tally.check(answers, 1_000_000, 10_000_000);
}

/// A cell where IMSIs can be paged, and one where no common line is open.
fn with_and_without(random: &mut Random) -> [Both; 2] {
    [cell(random, &[4, 6, 6], 1, 5), cell(random, &[], 1, 5)]
}

/// Asks with and without a common line. What is not out of range is refused without.
fn asked(cells: &[Both; 2], digits: &[u8], frame: u32, out_of_range: bool) {
    let refusals = match out_of_range {
        true => [OUT_OF_RANGE; 2],
        false => [0, NO_COMMON_LINE],
    };
    let told = [0, 1].map(|i| cells[i].page(digits, frame));
    assert_eq!(told.map(|t| t.refusal), refusals, "{digits:?}, FN {frame}");
    for answer in told.into_iter().filter(|answer| answer.refusal != 0) {
        assert_eq!((answer.tn, answer.block, answer.frame), (0, 0, 0));
    }
}

#[test]
fn an_imsi_has_3_to_15_digits() {
    let mut random = Random(12);
    let cells = with_and_without(&mut random);
    let lengths = (0..=40).chain([200, 255, 256, 256 + 3, 65_536 + 15, 1 << 20]);
    for length in lengths {
        let drawn: Vec<u8> = (0..length).map(|_| random.below(10) as u8).collect();
        for digits in [vec![0; length], vec![9; length], drawn] {
            asked(&cells, &digits, 0, !(3..=15).contains(&length));
            asked(&cells, &digits, HYPERFRAME, true);
        }
    }
}

#[test]
fn each_digit_is_0_to_9() {
    let mut random = Random(13);
    let cells = with_and_without(&mut random);
    for length in (2..=16).chain([200]) {
        for place in 0..length {
            let mut digits = vec![9; length];
            for wrong in [10, 255, 16, 48, 57, 128, 10 + random.below(246) as u8] {
                digits[place] = wrong;
                asked(&cells, &digits, random.frame(), true);
            }
        }
    }
}

#[test]
fn frames_past_the_hyperframe_are_refused() {
    let mut random = Random(14);
    let cells = with_and_without(&mut random);
    let past = [0, 1, 2, 50, 51, 2000].map(|n| HYPERFRAME + n);
    let far = [2 * HYPERFRAME, 1 << 24, 1 << 31, u32::MAX - 1, u32::MAX];
    for i in 0..1000 {
        let digits = imsi(&mut random, i);
        for frame in past.into_iter().chain(far) {
            asked(&cells, &digits, frame, true);
        }
        for frame in [0, 1, HYPERFRAME - 2, HYPERFRAME - 1] {
            asked(&cells, &digits, frame, false);
        }
    }
}

/// The digits before the last three change nothing, whatever they are and how many.
#[test]
fn the_last_three_digits_decide() {
    let mut random = Random(15);
    let mut answers = BTreeSet::new();
    let both = cell(&mut random, &[4, 6, 6, 6], 0, 9);
    for i in 0..1000 {
        let last = [i / 100, i / 10 % 10, i % 10].map(|digit| digit as u8);
        let frame = random.frame();
        let short = both.page(&last, frame);
        for digit in 0..10 {
            let mut long = vec![digit; random.below(13) as usize];
            long.extend(last);
            assert_eq!(library::page(&both.library, &long, frame), short);
        }
        let first = both.page(&last, 0);
        answers.insert((first.tn, first.frame));
    }
    assert_eq!(answers.len(), 4 * 9 * 9, "not every group was met");
}

/// 16 while no 4, 5 or 6 is open: before the first is opened, and after the last is closed.
#[test]
fn without_a_common_line() {
    let mut random = Random(16);
    let page = |random: &mut Random| Call::Page(draw::imsi(random), random.frame());
    for common in [4, 5] {
        let mut both = Both::started(&Plan::new([10, 20], 10, 0, 2, 9));
        let others = [(0, 2, 0, 0, 1, 0), (2, 2, 0, 0, 2, 0), (4, 2, 0, 0, 7, 0)];
        assert_eq!(both.make(&page(&mut random)), NO_COMMON_LINE);
        for (line, six) in (0..).zip(others) {
            assert_eq!(both.make(&Call::Open(line, six.into())), 0);
            assert_eq!(both.make(&page(&mut random)), NO_COMMON_LINE);
        }
        let open = Call::Open(63, (0, 1, 0, 0, common, 0).into());
        for (call, refusal) in [(open, 0), (Call::Close(63), NO_COMMON_LINE), (open, 0)] {
            assert_eq!(both.make(&call), 0);
            assert_eq!(both.make(&page(&mut random)), refusal);
        }
    }
}
