//! Who is on an ARFCN: the library beside the book of open lines, in cells after random lists of
//! calls and with masks at the edges; and beside the library's own answers for each line.

use std::collections::BTreeMap;
use tdma_tests::calls::{Both, Call};
use tdma_tests::clock::HYPERFRAME;
use tdma_tests::frame_map::Channel;
use tdma_tests::library::{self, WhoAnswer};
use tdma_tests::random::Random;
use tdma_tests::typed::found;
use tdma_tests::{draw, OUT_OF_RANGE};

/// How many cells are asked, and in how many frames each.
const CELLS: usize = 300;
const FRAMES: usize = 4;

const TIMESLOTS: [u32; 10] = [0, 1, 2, 3, 4, 5, 6, 7, 8, u32::MAX];
/// ARFCNs at the ends of their range and past it; 256 and 65,536 are 0 if they are cut.
const ARFCNS: [u32; 8] = [0, 256, 1022, 1023, 1024, 65_536, 1 << 31, u32::MAX];
const ODD_FRAMES: [u32; 4] = [HYPERFRAME, HYPERFRAME + 1, 1 << 31, u32::MAX];

/// A pair of cells after a list of calls, few or many, most of them accepted.
fn after_calls(random: &mut Random) -> Both {
    let (refusal, mut both) = match random.below(16) {
        0 => Both::start(&draw::odd_plan(random)),
        _ => Both::start(&draw::plan(random)),
    };
    let most = random.one_of(&[0, 20, 200, 600]);
    let calls = if refusal == 0 { most } else { 20 };
    for _ in 0..calls {
        let call = draw::call(random, &both.second, 8);
        if call.changes() {
            both.make(&call);
        }
    }
    both
}

/// The ARFCNs of the cell, their neighbours, and others.
fn arfcns(random: &mut Random, both: &Both) -> Vec<u32> {
    let ca = both.second.plan.ca.iter().map(|&arfcn| u32::from(arfcn));
    let mut arfcns: Vec<u32> = ca.flat_map(|arfcn| [arfcn, arfcn + 1]).collect();
    arfcns.extend(ARFCNS);
    arfcns.extend((0..4).map(|_| random.below(1024)));
    let cut = u32::from(random.one_of(&both.second.plan.ca));
    arfcns.extend([1024, 65_536, 1 << 31].map(|past| past + cut));
    arfcns
}

/// What the answers were.
#[derive(Default, Debug)]
struct Tally {
    refused: usize,
    /// The most lines that a cell had open.
    most_open: usize,
    /// Nobody, on an ARFCN of the cell and on another.
    nobody: [usize; 2],
    /// How often each line was found.
    lines: BTreeMap<u32, usize>,
    /// How often each channel was found, held or not.
    channels: BTreeMap<(u32, bool), usize>,
}

impl Tally {
    fn note(&mut self, both: &Both, arfcn: u32, answer: WhoAnswer) {
        let listed = both.second.plan.ca.iter().any(|&a| u32::from(a) == arfcn);
        if answer.refusal != 0 {
            self.refused += 1;
        } else if answer.found == 0 {
            self.nobody[usize::from(!listed)] += 1;
        } else {
            let held = answer.answer.owner != 0;
            *self.lines.entry(answer.line).or_default() += 1;
            let channel = (answer.answer.channel, held);
            *self.channels.entry(channel).or_default() += 1;
        }
    }
}

/// Asks for every timeslot and these ARFCNs, in both directions and one that is none.
fn ask_all(both: &Both, arfcns: &[u32], frame: u32, tally: &mut Tally) {
    let places = TIMESLOTS
        .iter()
        .flat_map(|&tn| arfcns.iter().map(move |&a| (tn, a)));
    for (tn, arfcn) in places {
        for direction in [0, 1, 2] {
            let answer = both.who(tn, arfcn, frame, direction);
            let odd = tn > 7 || arfcn > 1023 || direction == 2;
            assert_eq!(answer.refusal, if odd { OUT_OF_RANGE } else { 0 });
            tally.note(both, arfcn, answer);
        }
    }
}

#[test]
fn every_arfcn_in_every_timeslot() {
    let (mut random, mut tally) = (Random(17), Tally::default());
    for _ in 0..CELLS {
        let both = after_calls(&mut random);
        tally.most_open = tally.most_open.max(both.second.lines.len());
        for _ in 0..FRAMES {
            let (arfcns, frame) = (arfcns(&mut random, &both), random.frame());
            ask_all(&both, &arfcns, frame, &mut tally);
        }
    }
    println!("{tally:?}");
    assert!(tally.refused > 100_000 && tally.nobody.iter().all(|&n| n > 100_000));
    assert_eq!(tally.most_open, 64, "no cell was full");
    assert_eq!(tally.lines.len(), 64, "a line was never found");
    assert!(tally.lines.values().all(|&n| n > 100));
    // Idle, the five of a common part, and the three others, free and held.
    assert_eq!(tally.channels.len(), 1 + 5 + 2 * 3, "a channel left out");
    assert!(tally.channels.contains_key(&(Channel::Idle as u32, false)));
}

/// For each open line, who names it at its timeslot and ARFCN, with the answer of line. Gives the
/// number of open lines.
fn who_names_what_line_shows(both: &Both, frame: u32, direction: u32) -> usize {
    for (&line, open) in &both.second.lines {
        let answer = library::line(&both.library, line, frame, direction);
        assert_eq!(answer.refusal, 0, "line {line}");
        let who = library::who(&both.library, open.tn, answer.arfcn, frame, direction);
        assert_eq!(
            who,
            found(line, answer),
            "FN {frame}, direction {direction}"
        );
    }
    both.second.lines.len()
}

/// What who names, line shows, and on the ARFCN that was asked for. Gives how often a line was named.
fn line_shows_what_who_names(both: &Both, frame: u32, direction: u32) -> usize {
    let ca = || both.second.plan.ca.iter().map(|&arfcn| u32::from(arfcn));
    let places = (0..8).flat_map(|tn| ca().map(move |arfcn| (tn, arfcn)));
    let mut named = 0;
    for (tn, arfcn) in places {
        let who = library::who(&both.library, tn, arfcn, frame, direction);
        if who.found == 0 {
            assert_eq!(who, WhoAnswer::default());
            continue;
        }
        let shown = library::line(&both.library, who.line, frame, direction);
        assert_eq!((who.found, who.answer, shown.arfcn), (1, shown, arfcn));
        named += 1;
    }
    named
}

#[test]
fn who_and_line_agree() {
    let (mut random, mut sum) = (Random(18), 0);
    for _ in 0..CELLS {
        let both = after_calls(&mut random);
        for _ in 0..FRAMES {
            let (frame, direction) = (random.frame(), random.below(2));
            let named = who_names_what_line_shows(&both, frame, direction);
            assert_eq!(named, line_shows_what_who_names(&both, frame, direction));
            sum += named;
        }
    }
    println!("named {sum}");
    assert!(sum > 10_000);
}

/// Lines on the whole of a cell allocation of 64 entries, on its last entry alone and on positions 1,
/// 3 and 63, with MAIO 0 and the last one.
fn at_the_edges(random: &mut Random, hsn: u32) -> Both {
    let mut both = Both::started(&draw::plan_of(random, 64));
    let lines = [
        (0, u64::MAX, 0),
        (0, u64::MAX, 63),
        (1, 1 << 63, 0),
        (2, 1 << 63 | 1 << 3 | 1 << 1, 0),
        (2, 1 << 63 | 1 << 3 | 1 << 1, 2),
    ];
    for (line, (tn, mask, maio)) in (0..).zip(lines) {
        let open = Call::Open(line, (tn, mask, hsn, maio, 1, 0).into());
        assert_eq!(both.make(&open), 0, "{open:?}");
    }
    both
}

#[test]
fn masks_at_the_edges() {
    let (mut random, mut tally) = (Random(22), Tally::default());
    for hsn in 0..64 {
        let both = at_the_edges(&mut random, hsn);
        let arfcns: Vec<u32> = both.second.plan.ca.iter().map(|&a| a.into()).collect();
        for frame in [0, 1, 12, 25, HYPERFRAME - 1] {
            for line in 0..64 {
                both.line(line, frame, 0);
            }
            ask_all(&both, &arfcns, frame, &mut tally);
        }
        for frame in ODD_FRAMES {
            assert_eq!(both.line(0, frame, 0).refusal, OUT_OF_RANGE);
        }
    }
    println!("{tally:?}");
    assert_eq!(Vec::from_iter(tally.lines.keys()), [&0, &1, &2, &3, &4]);
    assert!(tally.channels.contains_key(&(Channel::Idle as u32, false)));
    assert!(tally.nobody[0] > 1000);
}

#[test]
fn frames_past_the_hyperframe_are_refused() {
    let mut random = Random(19);
    let refused = WhoAnswer {
        refusal: OUT_OF_RANGE,
        ..Default::default()
    };
    let both = after_calls(&mut random);
    for frame in ODD_FRAMES {
        for arfcn in arfcns(&mut random, &both) {
            let answer = both.who(random.below(8), arfcn, frame, random.below(2));
            assert_eq!(answer, refused, "FN {frame}");
        }
    }
}
