//! Cell allocations as handsets list them by 3GPP TS 04.08, ARFCN 0 last: document 02, No. 3. The
//! library and the second implementation beside a handset that gets the ARFCNs as a set.

use std::collections::{BTreeMap, BTreeSet};
use tdma_tests::calls::{Both, Call};
use tdma_tests::cell::Plan;
use tdma_tests::clock::HYPERFRAME;
use tdma_tests::frame_map::Channel::*;
use tdma_tests::handset::Arfcns;
use tdma_tests::hopping;
use tdma_tests::library::{self, HopAnswer, WhoAnswer};
use tdma_tests::random::Random;
use tdma_tests::typed::{burst, found, idle, Tuned};
use tdma_tests::{draw, placed, CELL_ALLOCATION, COMMON_CHANNEL, MOBILE_ALLOCATION};

/// How many sets are drawn with ARFCN 0, and how many without.
const SETS: usize = 20_000;
/// How many hops are compared of each.
const HOPS: usize = 8;
/// How many lists without ARFCN 0 are drawn.
const OTHERS: usize = 200_000;
/// How many cells with ARFCN 0 are asked, and in how many frames each.
const CELLS: usize = 400;
const FRAMES: usize = 40;

/// Compares a hop, and has a handset agree.
fn hop(ca: &[u16], mask: u64, hsn: u32, maio: u32, frame: u32) -> HopAnswer {
    let told = library::hop(ca, mask, hsn, maio, frame);
    let second = HopAnswer::from(hopping::hop(ca, mask, hsn, maio, frame));
    let asked = || format!("mask {mask:#x}, HSN {hsn}, MAIO {maio}, FN {frame}, {ca:?}");
    assert_eq!(told, second, "{}", asked());
    assert!(placed::hop(ca, mask, told), "{told:?}, {}", asked());
    told
}

/// The refusal of a cell allocation, 0 for none: by a hop over its first entry, and by a start
/// whose C0 is the last.
fn refusal(ca: &[u16]) -> u32 {
    let refusal = hop(ca, 1, 0, 0, 0).refusal;
    let c0 = ca.last().copied().unwrap_or(0).into();
    let started = Both::start(&Plan::new(ca.to_vec(), c0, 0, 0, 2)).0;
    assert_eq!(started, refusal, "start and hop, {ca:?}");
    refusal
}

/// 1, 2, 3, .., so many of them, and ARFCN 0.
fn and_zero(others: u16) -> Vec<u16> {
    (1..=others).chain([0]).collect()
}

#[test]
fn corner_lists() {
    for ca in [vec![0], vec![5, 0], vec![1023, 0], and_zero(63)] {
        assert_eq!(refusal(&ca), 0, "{ca:?}");
    }
    let refused = [
        vec![0, 5],
        vec![0, 1023],
        vec![0, 0],
        vec![5, 0, 7],
        vec![5, 0, 0],
        vec![7, 5, 0],
        vec![1024, 0],
        and_zero(64),
    ];
    for ca in refused {
        assert_eq!(refusal(&ca), CELL_ALLOCATION, "{ca:?}");
    }
}

/// The ARFCNs, and numbers past them.
fn numbers() -> impl Iterator<Item = u16> {
    (0..=1030).chain([2047, 2048, 32_768, 65_535])
}

#[test]
fn every_two_arfcns() {
    let mut accepted = 0;
    for ca in numbers().flat_map(|a| numbers().map(move |b| [a, b])) {
        let listed = Arfcns::of(&ca).list() == ca;
        let expected = if listed { 0 } else { CELL_ALLOCATION };
        assert_eq!(refusal(&ca), expected, "{ca:?}");
        accepted += usize::from(listed);
    }
    assert_eq!(accepted, 1024 * 1023 / 2);
}

/// A set of this many ARFCNs, with ARFCN 0 or without.
fn set(random: &mut Random, size: u32, zero: bool) -> Arfcns {
    let others = random.choose(size - u32::from(zero), 1023).into_iter();
    let mut set = Arfcns::of(&others.map(|other| 1 + other as u16).collect::<Vec<u16>>());
    if zero {
        set.insert(0);
    }
    set
}

/// The entries in other ways: one of them twice, two exchanged, one in place of another, the last
/// one before some others, and all in reverse.
fn rearranged(random: &mut Random, list: &[u16]) -> Vec<Vec<u16>> {
    let length = list.len() as u32;
    let mut twice = list.to_vec();
    let at = random.below(length) as usize;
    twice.insert(at, list[at]);
    let (last, others) = list.split_last().expect("an entry");
    if others.is_empty() {
        return vec![twice];
    }
    let mut exchanged = list.to_vec();
    let two = random.choose(2, length);
    exchanged.swap(two[0] as usize, two[1] as usize);
    let mut replaced = list.to_vec();
    replaced[two[0] as usize] = list[two[1] as usize];
    let mut moved = others.to_vec();
    moved.insert(random.below(length - 1) as usize, *last);
    let reverse = list.iter().rev().copied().collect();
    vec![twice, exchanged, replaced, moved, reverse]
}

/// What hops over drawn lists met.
#[derive(Default, Debug)]
struct Hops {
    /// Lists by length, without ARFCN 0 and with it.
    lists: BTreeMap<usize, [usize; 2]>,
    refused: usize,
    /// Without ARFCN 0 in the mask; with it, but on another; and on ARFCN 0.
    hops: [usize; 3],
}

impl Hops {
    /// The library accepts a list, and refuses each other arrangement of its entries.
    fn list(&mut self, random: &mut Random, list: &[u16]) {
        assert_eq!(refusal(list), 0, "{list:?}");
        self.lists.entry(list.len()).or_default()[usize::from(list.contains(&0))] += 1;
        for other in rearranged(random, list) {
            assert_eq!(refusal(&other), CELL_ALLOCATION, "{other:?}");
            self.refused += 1;
        }
    }

    /// A random hop over a list.
    fn hop(&mut self, random: &mut Random, list: &[u16]) {
        let length = list.len() as u32;
        let n = 1 + random.below(length);
        let mask = random.mask(n, length);
        let hsn = random.below(64) * u32::from(!random.once_in(8));
        let (maio, frame) = (random.below(n), random.frame());
        let answer = hop(list, mask, hsn, maio, frame);
        assert_eq!(answer.refusal, 0, "{list:?}");
        let zero = list.last() == Some(&0) && mask >> (length - 1) == 1;
        self.hops[usize::from(zero) + usize::from(answer.arfcn == 0)] += 1;
    }
}

#[test]
fn lists_of_random_sets() {
    let (mut random, mut met) = (Random(23), Hops::default());
    for zero in (0..2 * SETS).map(|i| i % 2 == 1) {
        let size = 1 + random.below(64);
        let list = set(&mut random, size, zero).list();
        assert_eq!(list.len(), size as usize);
        met.list(&mut random, &list);
        for _ in 0..HOPS {
            met.hop(&mut random, &list);
        }
    }
    println!("refused {}, hops {:?}", met.refused, met.hops);
    assert!(met.lists.keys().copied().eq(1..=64), "a length left out");
    assert!(met.lists.values().all(|two| two.iter().all(|&n| n > 100)));
    assert!(met.refused > 4 * SETS && met.hops.iter().all(|&n| n > SETS / 4));
}

#[test]
fn lists_of_other_sizes_are_refused() {
    let mut random = Random(24);
    assert_eq!(refusal(&[]), CELL_ALLOCATION);
    for (size, zero) in (65..=1023).flat_map(|size| [(size, false), (size, true)]) {
        let list = set(&mut random, size, zero).list();
        assert_eq!((list.len(), list.contains(&0)), (size as usize, zero));
        assert_eq!(refusal(&list), CELL_ALLOCATION, "{list:?}");
    }
    assert_eq!(refusal(&and_zero(1023)), CELL_ALLOCATION);
}

/// The cell allocation of the tests below; bit 2 of a mask stands for ARFCN 0.
const CA: [u16; 3] = [5, 10, 0];

/// A mask, and what lines with HSN 0 and MAIO 0 are tuned to in frames 0, 1 and 2.
const TUNED: [(u64, [Tuned; 3]); 7] = [
    (7, [(5, 0, 0), (10, 1, 1), (0, 2, 2)]),
    (6, [(10, 0, 1), (0, 1, 2), (10, 0, 1)]),
    (5, [(5, 0, 0), (0, 1, 2), (5, 0, 0)]),
    (4, [(0, 0, 2); 3]),
    (3, [(5, 0, 0), (10, 1, 1), (5, 0, 0)]),
    (2, [(10, 0, 1); 3]),
    (1, [(5, 0, 0); 3]),
];

#[test]
fn masks_with_arfcn_0() {
    for (mask, frames) in TUNED {
        for (frame, (arfcn, mai, position)) in (0..).zip(frames) {
            let answer = HopAnswer {
                refusal: 0,
                arfcn,
                mai,
                position,
            };
            assert_eq!(hop(&CA, mask, 0, 0, frame), answer, "{mask}, FN {frame}");
        }
    }
}

/// In any order of CA each entry, its place and as many ones below it belong together. A handset
/// reads one of the orders.
#[test]
fn a_handset_reads_one_order() {
    let others = [[5, 0, 10], [10, 5, 0], [10, 0, 5], [0, 5, 10], [0, 10, 5]];
    for ca in others.into_iter().chain([CA]) {
        for (place, (arfcn, read)) in (0..).zip(ca.into_iter().zip(CA)) {
            let answer = HopAnswer {
                refusal: 0,
                arfcn: arfcn.into(),
                mai: place,
                position: place,
            };
            let agrees = placed::hop(&ca, 7, answer);
            assert_eq!(agrees, arfcn == read, "{ca:?}, {answer:?}");
        }
    }
}

/// BCC is 7, AG is 2.
fn cell(ca: &[u16], c0: u32) -> Both {
    Both::started(&Plan::new(ca.to_vec(), c0, 7, 2, 9))
}

/// A line on timeslot 0 of combination 4, with this mask.
fn common(line: u32, mask: u64) -> Call {
    Call::Open(line, (0, mask, 0, 0, 4, 7).into())
}

/// Of the cells with each ARFCN as C0: the mask that is C0 alone.
#[test]
fn c0_alone_in_a_mask() {
    for (c0, alone) in [(5, 1), (10, 2), (0, 4)] {
        for mask in 1..16 {
            let refusal = match mask {
                8.. => MOBILE_ALLOCATION,
                _ if mask != alone => COMMON_CHANNEL,
                _ => 0,
            };
            let told = cell(&CA, c0).make(&common(0, mask));
            assert_eq!(told, refusal, "C0 {c0}, mask {mask}");
        }
    }
}

/// The line of mask 6 is on ARFCN 10 in even frames and on ARFCN 0 in odd ones, the 4 on ARFCN 0.
#[test]
fn a_cell_with_arfcn_0() {
    let mut both = cell(&CA, 0);
    let traffic = Call::Open(9, (1, 6, 0, 0, 1, 0).into());
    for call in [common(0, 4), traffic, Call::Seize(9, 0, 3)] {
        assert_eq!(both.make(&call), 0, "{call:?}");
    }
    let nobody = WhoAnswer::default();
    let sacch = burst((0, 1, 2), Sacch, 0, 3, 0, 0);
    assert_eq!(both.line(9, 25, 0), sacch);
    assert_eq!(both.who(1, 0, 25, 0), found(9, sacch));
    assert_eq!(both.who(1, 10, 25, 0), nobody);
    let idle = idle((10, 0, 1));
    assert_eq!(both.line(9, 12, 0), idle);
    assert_eq!(both.who(1, 0, 12, 0), nobody);
    assert_eq!(both.who(1, 10, 12, 0), found(9, idle));
    let ccch = burst((0, 0, 2), Ccch, 0, 0, 1, 0);
    assert_eq!(both.line(0, 12, 0), ccch);
    assert_eq!(both.who(0, 0, 12, 0), found(0, ccch));
    for arfcn in [1, 5, 10, 1023] {
        assert_eq!(both.who(0, arfcn, 12, 0), nobody);
    }
    for (tn, direction) in (2..8).flat_map(|tn| [(tn, 0), (tn, 1)]) {
        assert_eq!(both.who(tn, 0, 25, direction), nobody);
    }
}

#[test]
fn a_cell_with_arfcn_0_alone() {
    let mut both = cell(&[0], 0);
    assert_eq!(both.make(&common(0, 2)), MOBILE_ALLOCATION);
    assert_eq!(both.make(&common(0, 1)), 0);
    for frame in [0, 1, 51, 1326, HYPERFRAME - 1] {
        let (line, who) = (both.line(0, frame, 1), both.who(0, 0, frame, 1));
        let rach = burst((0, 0, 0), Rach, 0, 0, frame % 51, 0);
        assert_eq!((line, who), (rach, found(0, rach)), "FN {frame}");
        assert_eq!(both.who(1, 0, frame, 1), WhoAnswer::default());
        assert_eq!(both.who(0, 1, frame, 1), WhoAnswer::default());
    }
}

/// The rule for lists without ARFCN 0: document 01, "1 to 64 ARFCNs, strictly ascending".
fn ascends(ca: &[u16]) -> bool {
    let size = (1..=64).contains(&ca.len());
    size && ca.windows(2).all(|two| two[0] < two[1]) && ca.iter().all(|&arfcn| arfcn <= 1023)
}

/// A list without ARFCN 0, ascending or not, with an entry that is none or not.
fn other_list(random: &mut Random) -> Vec<u16> {
    let size = random.one_of(&[0, 1, 2, 3, 8, 63, 64, 65]);
    let mut list = set(random, size, false).list();
    let odd = random.one_of(&[1, 1023, 1024, 1025, 2048, u16::MAX]);
    match random.below(8) {
        0 => list.reverse(),
        1 => list.extend(list.last().copied()),
        2 => list.push(odd),
        3 => list.insert(0, odd),
        4 if size > 1 => list.swap(0, size as usize - 1),
        5 if size > 1 => list.rotate_left(1),
        _ => (),
    }
    list
}

#[test]
fn lists_without_arfcn_0_ascend() {
    let (mut random, mut judged) = (Random(25), BTreeMap::<(usize, bool), usize>::new());
    for _ in 0..OTHERS {
        let list = other_list(&mut random);
        assert!(!list.contains(&0));
        assert_eq!(refusal(&list) == 0, ascends(&list), "{list:?}");
        *judged.entry((list.len(), ascends(&list))).or_default() += 1;
    }
    println!("{judged:?}");
    for length in [1, 2, 3, 4, 8, 9, 63, 64] {
        for ascending in [false, true] {
            let count = judged.get(&(length, ascending));
            assert!(count > Some(&100), "{length}, {ascending}: {count:?}");
        }
    }
    assert!(judged[&(0, false)] > 1000 && judged[&(65, false)] > 1000);
}

/// A pair of cells with ARFCN 0 after a list of calls, most of them accepted.
fn after_calls(random: &mut Random) -> Both {
    let mut plans = (0..200).map(|_| draw::plan(random));
    let plan = plans.find(|plan| plan.ca.contains(&0));
    let plan = plan.expect("one of 200 has ARFCN 0");
    assert_eq!(Arfcns::of(&plan.ca).list(), plan.ca);
    let mut both = Both::started(&plan);
    for _ in 0..random.one_of(&[20, 200, 600]) {
        let call = draw::call(random, &both.second, 8);
        both.make(&call);
    }
    both
}

/// What asking for ARFCN 0 met.
#[derive(Default, Debug)]
struct Tally {
    /// The lengths of the cell allocations.
    lengths: BTreeSet<usize>,
    /// How often who found nobody on it, no line of the timeslot having it in its mask, and some.
    nobody: [usize; 2],
    /// How often each channel was found there, held or not.
    channels: BTreeMap<(u32, bool), usize>,
    /// How often lines were on it, with a mask of one ARFCN and of more.
    lines: [usize; 2],
    /// How often lines with it in their mask were on another.
    elsewhere: usize,
}

impl Tally {
    /// Asks every open line, and who is on ARFCN 0 in every timeslot.
    fn ask(&mut self, both: &Both, frame: u32, direction: u32) {
        let (mut on_it, mut in_mask) = ([WhoAnswer::default(); 8], [false; 8]);
        for (&line, open) in &both.second.lines {
            let (tn, listed) = (open.tn as usize, open.ma.contains(&0));
            let answer = both.line(line, frame, direction);
            in_mask[tn] |= listed;
            if answer.arfcn == 0 {
                on_it[tn] = found(line, answer);
                self.lines[usize::from(open.ma.len() > 1)] += 1;
            } else {
                self.elsewhere += usize::from(listed);
            }
        }
        for tn in 0..8 {
            let who = both.who(tn as u32, 0, frame, direction);
            assert_eq!(who, on_it[tn], "TN {tn}, FN {frame}");
            self.note(who, in_mask[tn]);
        }
    }

    fn note(&mut self, who: WhoAnswer, in_mask: bool) {
        if who.found == 0 {
            self.nobody[usize::from(in_mask)] += 1;
        } else {
            let channel = (who.answer.channel, who.answer.owner != 0);
            *self.channels.entry(channel).or_default() += 1;
        }
    }
}

#[test]
fn who_is_on_arfcn_0() {
    let (mut random, mut tally) = (Random(26), Tally::default());
    for _ in 0..CELLS {
        let both = after_calls(&mut random);
        tally.lengths.insert(both.second.plan.ca.len());
        for _ in 0..FRAMES {
            let frame = random.frame();
            tally.ask(&both, frame, 0);
            tally.ask(&both, frame, 1);
        }
    }
    println!("{tally:?}");
    assert!(tally.lengths.contains(&1) && tally.lengths.contains(&64));
    assert!(tally.nobody.iter().all(|&n| n > 10_000));
    assert!(tally.lines.iter().all(|&n| n > 10_000) && tally.elsewhere > 50_000);
    // Idle, the five of a common part, and the three others, free and held.
    assert_eq!(tally.channels.len(), 1 + 5 + 2 * 3, "a channel left out");
    assert!(tally.channels.values().all(|&n| n > 100));
    let found = tally.channels.values().sum::<usize>();
    assert_eq!(found, tally.lines.iter().sum::<usize>());
}
