//! The calls of the cell on odd input: values at their type's largest, cell allocations that are
//! none, the cell that a refused start leaves, and storage that no call has filled.

use tdma_tests::calls::{change, Both, Call};
use tdma_tests::cell::{Plan, Six, Values};
use tdma_tests::clock::HYPERFRAME;
use tdma_tests::draw;
use tdma_tests::frame_map::Channel;
use tdma_tests::library::{self, Changed, LineAnswer, PageAnswer, WhoAnswer, WORDS};
use tdma_tests::paging::Imsi;
use tdma_tests::random::Random;
use tdma_tests::{CELL_ALLOCATION, CELL_PARAMETER, COMMON_CHANNEL, LINE_CLOSED, LINE_HELD};
use tdma_tests::{MAIO, MOBILE_ALLOCATION, NO_COMMON_LINE, OUT_OF_RANGE};

fn plan() -> Plan {
    Plan::new([10, 20, 30, 40], 10, 0, 1, 5)
}

const VALUES: Values = Values {
    tn: 1,
    mask: 6,
    hsn: 1,
    maio: 1,
    combination: 1,
    tsc: 7,
};

/// Cells with lines 0 and 1 of combination 1 open, subchannel 0 of line 1 held by 5, and a line of
/// combination 4.
fn three_lines() -> Both {
    let mut both = Both::started(&plan());
    let open = |line, tn| Call::Open(line, Values { tn, ..VALUES });
    let common = Call::Open(63, (0, 1, 0, 0, 4, 0).into());
    for call in [open(0, 2), open(1, 3), Call::Seize(1, 0, 5), common] {
        assert_eq!(both.make(&call), 0, "{call:?}");
    }
    both
}

/// A call that is accepted after that, with the refusal for each value at its largest, in the order
/// in which `largest` takes them.
const ACCEPTED: [(Call, &[u32]); 7] = [
    (Call::Open(2, VALUES), &[3, 3, 3, 5, 3, 3, 4]),
    (Call::Close(0), &[3]),
    (Call::Seize(0, 0, 1), &[3, 10, 3]),
    (Call::Release(1, 0, 5), &[3, 10, 3]),
    (Call::Line(0, 13, 1), &[3, 3, 3]),
    (Call::Who(2, 20, 13, 1), &[3, 3, 3, 3]),
    (Call::Page(Imsi::new(&[0, 0, 1, 2, 3]), 13), &[3, 3]),
];

/// The call with value i at its largest where bit i is one.
fn largest(call: &Call, bits: usize) -> Call {
    let is = |bit: usize| bits >> bit & 1 == 1;
    let at = |bit: usize, value: u32| if is(bit) { u32::MAX } else { value };
    match *call {
        Call::Open(line, v) => Call::Open(
            at(0, line),
            Values {
                tn: at(1, v.tn),
                hsn: at(2, v.hsn),
                maio: at(3, v.maio),
                combination: at(4, v.combination),
                tsc: at(5, v.tsc),
                mask: if is(6) { u64::MAX } else { v.mask },
            },
        ),
        Call::Close(line) => Call::Close(at(0, line)),
        Call::Seize(line, s, owner) => Call::Seize(at(0, line), at(1, s), at(2, owner)),
        Call::Release(line, s, owner) => Call::Release(at(0, line), at(1, s), at(2, owner)),
        Call::Line(line, frame, direction) => {
            Call::Line(at(0, line), at(1, frame), at(2, direction))
        }
        Call::Who(tn, arfcn, frame, direction) => {
            Call::Who(at(0, tn), at(1, arfcn), at(2, frame), at(3, direction))
        }
        Call::Page(_, frame) if is(0) => Call::Page(Imsi::new(&[255; 15]), at(1, frame)),
        Call::Page(imsi, frame) => Call::Page(imsi, at(1, frame)),
    }
}

/// The lowest of the refusals whose bit is one, 0 for none.
fn lowest(refusals: &[u32], bits: usize) -> u32 {
    let faults = refusals
        .iter()
        .enumerate()
        .filter(|(i, _)| bits >> i & 1 == 1);
    faults.map(|(_, refusal)| *refusal).min().unwrap_or(0)
}

#[test]
fn every_value_at_its_largest() {
    let (lines, empty) = (three_lines(), Both::started(&plan()));
    for (call, refusals) in ACCEPTED {
        for bits in 0..1 << refusals.len() {
            let odd = largest(&call, bits);
            assert_eq!(lines.clone().make(&odd), lowest(refusals, bits), "{odd:?}");
            empty.clone().make(&odd);
        }
    }
}

#[test]
fn every_value_of_start_at_its_largest() {
    for bits in 0..32 {
        let is = |bit: usize| bits >> bit & 1 == 1;
        let at = |bit: usize, value: u32| if is(bit) { u32::MAX } else { value };
        let Plan { ca, c0, bcc, ag, p } = plan();
        let ca = if is(0) { vec![u16::MAX; 65_536] } else { ca };
        let odd = Plan::new(ca, at(1, c0), at(2, bcc), at(3, ag), at(4, p));
        let (refusal, _) = Both::start(&odd);
        assert_eq!(refusal, lowest(&[1, 2, 2, 2, 2], bits), "faults {bits:05b}");
    }
}

fn odd_allocations() -> Vec<Vec<u16>> {
    vec![
        vec![],
        (1..66).collect(),
        (1..65).chain([0]).collect(),
        (1..1001).collect(),
        (1..1024).chain([0]).collect(),
        (0..1024).collect(),
        vec![20, 10],
        vec![10, 30, 20, 40],
        vec![10, 20, 20, 40],
        vec![10, 10],
        vec![10, 1024],
        vec![1024],
        vec![10, 20, u16::MAX],
        vec![0, 10],
        vec![0, 0],
        vec![10, 0, 20],
        vec![10, 20, 0, 0],
        vec![20, 10, 0],
        vec![10, 1024, 0],
    ]
}

#[test]
fn odd_cell_allocations_are_refused() {
    for ca in odd_allocations() {
        let c0 = ca.first().copied().unwrap_or(0).into();
        let odd = Plan::new(ca.clone(), c0, 0, 1, 5);
        let worse = Plan::new(ca, u32::MAX, 8, 8, 10);
        assert_eq!(Both::start(&odd).0, CELL_ALLOCATION, "{odd:?}");
        assert_eq!(Both::start(&worse).0, CELL_ALLOCATION, "{worse:?}");
    }
    let highest = [
        (960..1024).collect(),
        Vec::from_iter((961..1024).chain([0])),
    ];
    for ca in highest {
        assert_eq!(Both::start(&Plan::new(ca, 1023, 0, 1, 5)).0, 0);
    }
}

/// Opens on the cell with ARFCN 0, BCC 0 and BS_AG_BLKS_RES 0: the six values and the answer.
const ON_ARFCN_0: [(Six, u32); 9] = [
    ((3, 1, 0, 0, 1, 5), 0),
    ((3, 2, 0, 0, 1, 5), MOBILE_ALLOCATION),
    ((3, 1 << 63, 0, 0, 1, 5), MOBILE_ALLOCATION),
    ((3, 3, 0, 1, 1, 5), MOBILE_ALLOCATION),
    ((3, 1, 0, 1, 1, 5), MAIO),
    ((0, 1, 0, 0, 4, 0), 0),
    ((0, 1, 0, 0, 4, 1), COMMON_CHANNEL),
    ((0, 1, 0, 0, 5, 0), 0),
    ((2, 1, 0, 0, 6, 0), COMMON_CHANNEL),
];

/// These are the cells with ARFCN 0 and all lines closed.
fn is_the_refused_cell(both: &Both) {
    for line in 0..64 {
        assert_eq!(both.line(line, 0, 0).refusal, LINE_CLOSED);
    }
    for (six, refusal) in ON_ARFCN_0 {
        let mut both = both.clone();
        let call = Call::Open(63, six.into());
        assert_eq!(both.make(&call), refusal, "{call:?}");
        let answer = both.line(63, 6, 0);
        let idle = answer.channel == Channel::Idle as u32;
        assert_eq!((answer.arfcn, idle), (0, refusal != 0), "{call:?}");
    }
}

#[test]
fn a_refused_start_leaves_the_cell_with_arfcn_0() {
    let starts = [
        (Plan::new([20, 10], 10, 7, 7, 5), CELL_ALLOCATION),
        (Plan::new([], 10, 7, 7, 5), CELL_ALLOCATION),
        (Plan::new([10, 20], 11, 7, 7, 5), CELL_PARAMETER),
        (Plan::new([10, 20], 10, 8, 7, 5), CELL_PARAMETER),
        (Plan::new([10, 20], 10, 7, 8, 5), CELL_PARAMETER),
        (Plan::new([10, 20], 10, 7, 7, 1), CELL_PARAMETER),
        (Plan::new([10, 20], 10, 7, 7, 10), CELL_PARAMETER),
    ];
    for (plan, number) in starts {
        let (refusal, both) = Both::start(&plan);
        assert_eq!(refusal, number, "{plan:?}");
        is_the_refused_cell(&both);
    }
}

/// Start fills all of the storage, whatever it held, accepted or refused.
#[test]
fn start_fills_any_storage() {
    let (mut random, filled) = (Random(20), three_lines().library);
    for plan in [plan(), Plan::new([20, 10], 10, 7, 7, 5)] {
        let (refusal, Both { library, .. }) = Both::start(&plan);
        for fill in 0..50 {
            let mut cell = storage(&mut random, &filled, fill);
            let started = library::start(&mut cell, &plan.ca, plan.c0, plan.bcc, plan.ag, plan.p);
            assert_eq!(started, Changed { refusal, line: 0 }, "{plan:?}");
            assert!(cell == library, "{plan:?}, storage {fill}");
        }
    }
}

/// MAI counts ones below the position, whatever mask and cell allocation the storage has.
fn in_some_mask(answer: LineAnswer) -> bool {
    answer.mai <= answer.position && answer.position <= 63
}

fn line_returns(cell: &library::Cell, line: u32, frame: u32, direction: u32) {
    let answer = library::line(cell, line, frame, direction);
    let refused = LineAnswer {
        refusal: answer.refusal,
        ..Default::default()
    };
    assert!(answer.refusal == 0 || answer == refused, "{answer:?}");
    assert!(in_some_mask(answer), "{answer:?}");
}

/// Who and page are refused with 3 exactly if what they are given is out of range, whatever the
/// storage.
fn who_returns(cell: &library::Cell, call: (u32, u32, u32, u32), odd: bool) {
    let (tn, arfcn, frame, direction) = call;
    let refused = WhoAnswer {
        refusal: OUT_OF_RANGE,
        ..Default::default()
    };
    let answer = library::who(cell, tn, arfcn, frame, direction);
    assert_eq!(answer == refused, odd, "{answer:?}");
    let nobody = answer.found == 0 && answer.answer == LineAnswer::default();
    assert!(nobody || in_some_mask(answer.answer), "{answer:?}");
}

/// AG or P of the storage may be out of range (2, before 3), its common lines misplaced (8), or none
/// there (16); where page is accepted, a common line may stand in the timeslot.
fn page_returns(cell: &library::Cell, imsi: &Imsi, frame: u32, odd: bool) {
    let answer = library::page(cell, imsi.digits(), frame);
    let PageAnswer {
        refusal,
        tn,
        block,
        frame,
    } = answer;
    if odd {
        assert!(
            [CELL_PARAMETER, OUT_OF_RANGE].contains(&refusal),
            "{answer:?}"
        );
    } else {
        let refusals = [0, CELL_PARAMETER, COMMON_CHANNEL, NO_COMMON_LINE];
        assert!(refusals.contains(&refusal), "{answer:?}");
    }
    if refusal == 0 {
        assert!(
            [0, 2, 4, 6].contains(&tn) && block <= 8 && frame < HYPERFRAME,
            "{answer:?}"
        );
    } else {
        assert_eq!((tn, block, frame), (0, 0, 0), "{answer:?}");
    }
}

/// A call on storage returns; where it is refused, it leaves the storage as it was.
fn returns(cell: &library::Cell, call: &Call, odd: bool) {
    match *call {
        Call::Line(line, frame, direction) => line_returns(cell, line, frame, direction),
        Call::Who(tn, arfcn, frame, direction) => {
            who_returns(cell, (tn, arfcn, frame, direction), odd)
        }
        Call::Page(ref imsi, frame) => page_returns(cell, imsi, frame, odd),
        _ => {
            let mut after = *cell;
            let changed = change(&mut after, call).unwrap();
            assert!(changed.refusal <= LINE_HELD, "{call:?}");
            assert!(changed.refusal == 0 || after == *cell, "{call:?}");
        }
    }
}

/// Storage filled with zeros, with ones, with random numbers or with small ones; or by the calls, but
/// with one word changed then.
fn storage(random: &mut Random, filled: &library::Cell, fill: usize) -> library::Cell {
    let (mut cell, any) = (*filled, random.word() as u32);
    match fill % 5 {
        0 => cell.opaque = [0; WORDS],
        1 => cell.opaque = [u32::MAX; WORDS],
        2 => cell.opaque = std::array::from_fn(|_| random.word() as u32),
        3 => cell.opaque = std::array::from_fn(|_| random.below(8)),
        _ => {
            let word = random.one_of(&[0, 1, 1 << 16, u32::MAX, any]);
            cell.opaque[fill / 5] = word;
        }
    }
    cell
}

/// Who and page at values in their range, drawn at random.
fn questions(random: &mut Random) -> [Call; 2] {
    let (tn, arfcn) = (random.below(8), random.one_of(&[0, 7, 10, 20, 1023]));
    let who = Call::Who(tn, arfcn, random.frame(), random.below(2));
    [who, Call::Page(draw::imsi(random), random.frame())]
}

#[test]
fn storage_that_no_call_has_filled() {
    let (mut random, filled) = (Random(9), three_lines().library);
    for fill in 0..5 * WORDS {
        let cell = storage(&mut random, &filled, fill);
        for (call, refusals) in ACCEPTED {
            for bits in 0..1 << refusals.len() {
                returns(&cell, &largest(&call, bits), bits != 0);
            }
        }
        for call in (0..20).flat_map(|_| questions(&mut random)) {
            returns(&cell, &call, false);
        }
    }
}

/// No common line is open, so page is refused; but 3 comes first.
#[test]
fn page_on_the_cell_of_a_refused_start() {
    let (refusal, mut both) = Both::start(&Plan::new([20, 10], 10, 7, 7, 5));
    assert_eq!(refusal, CELL_ALLOCATION);
    let imsi = Imsi::new(&[9, 9, 9]);
    let calls = [
        (Call::Page(imsi, 0), NO_COMMON_LINE),
        (Call::Page(Imsi::new(&[9, 9]), 0), OUT_OF_RANGE),
        (Call::Page(imsi, HYPERFRAME), OUT_OF_RANGE),
        (Call::Open(0, (0, 1, 0, 0, 4, 0).into()), 0),
        (Call::Page(imsi, 0), 0),
    ];
    for (call, refusal) in calls {
        assert_eq!(both.make(&call), refusal, "{call:?}");
    }
    // BS_AG_BLKS_RES 0 and BS_PA_MFRMS 2: 999 leaves 9 by 18, which is multiframe 1, block 0.
    let page = both.page(imsi.digits(), 0);
    assert_eq!((page.tn, page.block, page.frame), (0, 0, 51 + 6));
}
