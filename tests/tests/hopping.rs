//! Frequency hopping: the library beside the lists of positions.

use std::collections::BTreeSet;
use tdma_tests::clock::{split, HYPERFRAME};
use tdma_tests::hopping::{address, hop, is_cell_allocation, position, positions, RNTABLE};
use tdma_tests::library::{self, HopAnswer, PositionAnswer};
use tdma_tests::random::Random;
use tdma_tests::{placed, CELL_ALLOCATION, OUT_OF_RANGE};

#[derive(Clone, Debug)]
struct Case {
    ca: Vec<u16>,
    mask: u64,
    hsn: u32,
    maio: u32,
    frame: u32,
}

impl Case {
    /// Compares hop, and position with CA's length. Gives hop's refusal.
    fn compare(&self) -> u32 {
        let Case {
            ref ca,
            mask,
            hsn,
            maio,
            frame,
        } = *self;
        let answer = library::hop(ca, mask, hsn, maio, frame);
        let second = HopAnswer::from(hop(ca, mask, hsn, maio, frame));
        assert_eq!(answer, second, "{self:?}");
        assert!(placed::hop(ca, mask, answer), "{answer:?}, {self:?}");
        self.compare_position(ca.len() as u32);
        answer.refusal
    }

    /// Compares position alone. Gives its refusal.
    fn compare_position(&self, length: u32) -> u32 {
        let Case {
            mask,
            hsn,
            maio,
            frame,
            ..
        } = *self;
        let answer = library::position(length, mask, hsn, maio, frame);
        let second = PositionAnswer::from(position(length, mask, hsn, maio, frame));
        assert_eq!(answer, second, "length {length}, {self:?}");
        let placed = placed::position(length, mask, answer);
        assert!(placed, "{answer:?}, length {length}, {self:?}");
        answer.refusal
    }

    /// The refusals whose condition holds, whether they come out or not.
    fn causes(&self) -> BTreeSet<u32> {
        let list = positions(self.mask);
        let conditions = [
            (1, !is_cell_allocation(&self.ca)),
            (3, self.hsn > 63 || self.frame >= HYPERFRAME),
            (
                4,
                list.is_empty() || list.iter().any(|&at| at as usize >= self.ca.len()),
            ),
            (5, self.maio as usize >= list.len()),
        ];
        conditions
            .into_iter()
            .filter(|(_, holds)| *holds)
            .map(|(number, _)| number)
            .collect()
    }
}

/// Some cell allocations of each length, by length from 1.
fn cell_allocations(random: &mut Random) -> Vec<Vec<Vec<u16>>> {
    (1..=64)
        .map(|length| (0..8).map(|_| random.cell_allocation(length)).collect())
        .collect()
}

/// A case with nothing wrong in it: N below 65 and a length from N on.
fn right(random: &mut Random, allocations: &[Vec<Vec<u16>>]) -> Case {
    let n = 1 + random.below(64);
    let length = n + random.below(65 - n);
    let ca = &allocations[length as usize - 1][random.below(8) as usize];
    Case {
        ca: ca.clone(),
        mask: random.mask(n, length),
        hsn: if random.once_in(8) {
            0
        } else {
            random.below(64)
        },
        maio: random.below(n),
        frame: random.frame(),
    }
}

/// What the accepted cases of a run have touched.
struct Touched {
    lines: Vec<[bool; 2]>,
    addresses: Vec<bool>,
    branches: Vec<[bool; 2]>,
}

impl Touched {
    fn note(&mut self, case: &Case) {
        let n = case.mask.count_ones();
        self.lines[n as usize][(case.hsn > 0) as usize] = true;
        if case.hsn == 0 {
            return;
        }
        let now = split(case.frame).unwrap();
        let at = address(case.hsn, now);
        self.addresses[at] = true;
        let m = now.t2 as u32 + RNTABLE[at / 10][at % 10];
        let power = (n + 1).next_power_of_two();
        self.branches[n as usize][(m % power < n) as usize] = true;
    }
}

#[test]
fn lines_of_every_n() {
    let mut random = Random(2);
    let allocations = cell_allocations(&mut random);
    let mut touched = Touched {
        lines: vec![[false; 2]; 65],
        addresses: vec![false; 114],
        branches: vec![[false; 2]; 65],
    };
    for _ in 0..4_000_000 {
        let case = right(&mut random, &allocations);
        assert_eq!(case.compare(), 0, "{case:?}");
        touched.note(&case);
    }
    assert!(
        touched.lines[1..].iter().all(|hsn| *hsn == [true; 2]),
        "an N or HSN 0 left out"
    );
    assert!(
        touched.addresses.iter().all(|&read| read),
        "an entry of RNTABLE left out"
    );
    assert!(
        touched.branches[1..]
            .iter()
            .all(|taken| *taken == [true; 2]),
        "a branch left out"
    );
}

/// Spoils each value of a case with one chance in two, in one of several ways.
fn spoil(random: &mut Random, case: &mut Case) {
    if random.once_in(2) {
        let at = random.below(case.ca.len() as u32) as usize;
        match random.below(5) {
            0 => case.ca.clear(),
            1 => case.ca = random.cell_allocation(65),
            2 if at % 2 == 1 => case.ca.rotate_left(at),
            2 => case.ca.reverse(),
            3 if at % 2 == 1 => case.ca.insert(at, 0),
            3 => case.ca.insert(at, case.ca[at]),
            _ => *case.ca.last_mut().unwrap() = random.one_of(&[1024, 1025, 2048, u16::MAX]),
        }
    }
    if random.once_in(2) {
        case.hsn = random.one_of(&[63, 64, 65, 128, 256, 1 << 31, u32::MAX]);
    }
    if random.once_in(2) {
        case.frame = random.one_of(&[HYPERFRAME - 1, HYPERFRAME, HYPERFRAME + 1, u32::MAX]);
    }
    if random.once_in(2) {
        let above = 1u64.checked_shl(case.ca.len() as u32).unwrap_or(0);
        case.mask = random.one_of(&[0, case.mask | above, 1 << 63, u64::MAX]);
    }
    if random.once_in(2) {
        let n = case.mask.count_ones();
        case.maio = random.one_of(&[n, n + 1, n + 64, 256 + n, 1 << 31, u32::MAX]);
    }
}

#[test]
fn of_several_faults_the_lowest_is_told() {
    let mut random = Random(3);
    let allocations = cell_allocations(&mut random);
    let mut seen = BTreeSet::new();
    for _ in 0..2_000_000 {
        let mut case = right(&mut random, &allocations);
        spoil(&mut random, &mut case);
        let causes = case.causes();
        assert_eq!(
            case.compare(),
            causes.first().copied().unwrap_or(0),
            "{case:?}"
        );
        seen.insert(causes);
    }
    assert_eq!(seen.len(), 16, "a set of faults left out: {seen:?}");
}

/// The refusal of a hop over the first entry alone, 0 for accepted.
fn refusal_of(ca: Vec<u16>) -> u32 {
    let case = Case {
        ca,
        mask: 1,
        hsn: 0,
        maio: 0,
        frame: 0,
    };
    case.compare()
}

/// Each entry too large, as a lower one and exchanged with it; and ARFCN 0 before the last entry.
fn each_entry_spoilt(right: &[u16]) {
    let refused = |at: usize, arfcn: u16| {
        let mut ca = right.to_vec();
        ca[at] = arfcn;
        assert_eq!(refusal_of(ca), CELL_ALLOCATION, "{right:?}, {at}: {arfcn}");
    };
    for at in 0..right.len() {
        for large in [1024, 1025, 4096, 32_768, u16::MAX] {
            refused(at, large);
        }
        for lower in 0..at {
            refused(lower, 0);
            refused(at, right[lower]);
            let mut ca = right.to_vec();
            ca.swap(at, lower);
            assert_eq!(refusal_of(ca), CELL_ALLOCATION, "{right:?}, {at}, {lower}");
        }
    }
}

#[test]
fn odd_cell_allocations_are_refused() {
    assert_eq!(refusal_of(vec![]), CELL_ALLOCATION);
    for length in 65..200 {
        assert_eq!(refusal_of((1..=length).collect()), CELL_ALLOCATION);
        assert_eq!(
            refusal_of((1..length).chain([0]).collect()),
            CELL_ALLOCATION
        );
        assert_eq!(refusal_of((0..length).collect()), CELL_ALLOCATION);
    }
    for length in 1..=64 {
        let others = (0..length - 1).map(|i| 16 * i + 15);
        for last in [16 * length - 1, 0] {
            let right: Vec<u16> = others.clone().chain([last]).collect();
            assert_eq!(refusal_of(right.clone()), 0, "{right:?}");
            each_entry_spoilt(&right);
        }
    }
}

#[test]
fn every_value_at_its_largest() {
    let right = Case {
        ca: vec![10, 20, 30, 40],
        mask: 15,
        hsn: 1,
        maio: 0,
        frame: 3,
    };
    let long: Vec<u16> = vec![u16::MAX; 65_536];
    for faults in 0..32 {
        let mut case = right.clone();
        let one = |bit: u32| faults >> bit & 1 == 1;
        if one(0) {
            case.ca = long.clone();
        }
        if one(1) {
            case.mask = u64::MAX;
        }
        if one(2) {
            case.hsn = u32::MAX;
        }
        if one(3) {
            case.maio = u32::MAX;
        }
        if one(4) {
            case.frame = u32::MAX;
        }
        let refusal = case.compare();
        assert_eq!(
            refusal,
            case.causes().first().copied().unwrap_or(0),
            "{case:?}"
        );
        assert_eq!(refusal == 0, faults == 0, "{case:?}");
    }
}

/// Entry p is ARFCN 16p + 15.
fn longest_allocation() -> Vec<u16> {
    (0..64).map(|p| 16 * p + 15).collect()
}

/// Masks of a cell allocation of 64 entries: all of it, its ends, and with holes.
const MASKS: [u64; 8] = [
    u64::MAX,
    1,
    1 << 63,
    1 << 63 | 1,
    1 << 63 | 1 << 3 | 1 << 1,
    u64::MAX << 1,
    u64::MAX >> 1,
    0xaaaa_aaaa_aaaa_aaaa,
];

/// The last three are none.
const FRAMES: [u32; 9] = [
    0,
    1,
    51,
    1326,
    HYPERFRAME - 2,
    HYPERFRAME - 1,
    HYPERFRAME,
    1 << 31,
    u32::MAX,
];

#[test]
fn masks_at_the_edges() {
    for (mask, hsn) in MASKS.iter().flat_map(|&m| (0..64).map(move |hsn| (m, hsn))) {
        let last = positions(mask).len() as u32 - 1;
        for (maio, frame) in FRAMES.iter().flat_map(|&f| [(0, f), (last, f)]) {
            let case = Case {
                ca: longest_allocation(),
                mask,
                hsn,
                maio,
                frame,
            };
            let refusal = if frame < HYPERFRAME { 0 } else { OUT_OF_RANGE };
            assert_eq!(case.compare(), refusal, "{case:?}");
        }
    }
}

/// With HSN 0, MAI goes on by one with each frame.
#[test]
fn mai_and_position_in_turn() {
    let ca = longest_allocation();
    let kinds: [(u64, &[u32]); 4] = [
        (1 << 63, &[63]),
        (1 << 63 | 1 << 3 | 1 << 1, &[1, 3, 63]),
        (1 << 63 | 1 << 2, &[2, 63]),
        (3 << 31, &[31, 32]),
    ];
    for (mask, places) in kinds {
        let n = places.len() as u32;
        for frame in (0..7).chain(HYPERFRAME - 7..HYPERFRAME) {
            for maio in 0..n {
                let mai = (frame + maio) % n;
                let position = places[mai as usize];
                let answer = HopAnswer {
                    refusal: 0,
                    arfcn: 16 * position + 15,
                    mai,
                    position,
                };
                let told = library::hop(&ca, mask, 0, maio, frame);
                assert_eq!(told, answer, "mask {mask:#x}, MAIO {maio}, FN {frame}");
            }
        }
    }
}

#[test]
fn position_takes_every_length() {
    let mut random = Random(4);
    let mut seen = BTreeSet::new();
    for _ in 0..500_000 {
        let (n, mut hsn, mut frame) = (1 + random.below(64), random.below(64), random.frame());
        if random.once_in(8) {
            hsn = random.one_of(&[64, u32::MAX]);
        }
        if random.once_in(8) {
            frame = random.one_of(&[HYPERFRAME, u32::MAX]);
        }
        let mask = if random.once_in(16) {
            0
        } else {
            random.mask(n, 64)
        };
        let maio = random.below(n + 2);
        let case = Case {
            ca: Vec::new(),
            mask,
            hsn,
            maio,
            frame,
        };
        for length in [
            random.below(65),
            63,
            64,
            65,
            127,
            128,
            256,
            1 << 31,
            u32::MAX,
        ] {
            let refusal = case.compare_position(length);
            assert_eq!(
                refusal == CELL_ALLOCATION,
                length == 0 || length > 64,
                "{length}, {case:?}"
            );
            seen.insert(refusal);
        }
        assert_eq!(case.compare_position(0), CELL_ALLOCATION);
    }
    assert_eq!(Vec::from_iter(seen), [0, 1, 3, 4, 5]);
}
