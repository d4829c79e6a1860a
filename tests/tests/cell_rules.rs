//! Document 01's sentences on the cell, one by one, with answers typed from there and not reckoned.
//! The library and the second implementation must both give them.

use tdma_tests::calls::{change, Both, Call};
use tdma_tests::cell::{Plan, Six};
use tdma_tests::clock::HYPERFRAME;
use tdma_tests::frame_map::Channel::*;
use tdma_tests::library::{LineAnswer, PageAnswer, WhoAnswer};
use tdma_tests::paging::Imsi;
use tdma_tests::typed::{burst, found, idle};

/// CA is 10, 20, 30, 40 and C0 is 20, so that mask 2 is C0 alone.
fn cell(bcc: u32, ag: u32) -> Both {
    Both::started(&Plan::new([10, 20, 30, 40], 20, bcc, ag, 5))
}

/// A line's number, and TN, mask, HSN, MAIO, combination, TSC.
fn open(line: u32, six: Six) -> Call {
    Call::Open(line, six.into())
}

fn close(line: u32) -> Call {
    Call::Close(line)
}

fn seize(line: u32, s: u32, owner: u32) -> Call {
    Call::Seize(line, s, owner)
}

fn release(line: u32, s: u32, owner: u32) -> Call {
    Call::Release(line, s, owner)
}

/// Makes the calls one after the other; each must get the answer beside it.
fn script(both: &mut Both, calls: &[(Call, u32)]) {
    for (call, refusal) in calls {
        assert_eq!(both.make(call), *refusal, "{call:?}");
    }
}

/// The call is a clash with this line.
fn clash(both: &mut Both, call: Call, line: u32) {
    let mut cell = both.library;
    let changed = change(&mut cell, &call).unwrap();
    assert_eq!((changed.refusal, changed.line), (9, line), "{call:?}");
    assert_eq!(both.make(&call), 9);
}

#[test]
fn start() {
    let starts = [
        (Plan::new([7, 1023, 0], 7, 7, 7, 9), 0),
        (Plan::new([7, 1023, 0], 0, 0, 0, 2), 0),
        (Plan::new([7], 7, 7, 7, 9), 0),
        (Plan::new(1..65, 7, 7, 7, 9), 0),
        (Plan::new(1..66, 7, 7, 7, 9), 1),
        (Plan::new((1..64).chain([0]), 7, 7, 7, 9), 0),
        (Plan::new((1..65).chain([0]), 7, 7, 7, 9), 1),
        (Plan::new(0..64, 7, 7, 7, 9), 1),
        (Plan::new([], 7, 7, 7, 9), 1),
        (Plan::new([7, 7], 7, 7, 7, 9), 1),
        (Plan::new([8, 7], 7, 7, 7, 9), 1),
        (Plan::new([0, 7, 1023], 7, 7, 7, 9), 1),
        (Plan::new([7, 0, 1023], 7, 7, 7, 9), 1),
        (Plan::new([7, 0, 0], 7, 7, 7, 9), 1),
        (Plan::new([7, 1024], 7, 7, 7, 9), 1),
        (Plan::new([7, 1023, 0], 8, 7, 7, 9), 2),
        (Plan::new([7, 1023], 0, 7, 7, 9), 2),
        (Plan::new([7, 1023, 0], 65_536 + 7, 7, 7, 9), 2),
        (Plan::new([7, 1023, 0], 7, 8, 7, 9), 2),
        (Plan::new([7, 1023, 0], 7, 7, 8, 9), 2),
        (Plan::new([7, 1023, 0], 7, 7, 7, 1), 2),
        (Plan::new([7, 1023, 0], 7, 7, 7, 10), 2),
    ];
    for (plan, refusal) in starts {
        assert_eq!(Both::start(&plan).0, refusal, "{plan:?}");
    }
}

#[test]
fn ranges_of_open() {
    let calls = [
        (open(64, (7, 5, 63, 1, 7, 7)), 3),
        (open(63, (8, 5, 63, 1, 7, 7)), 3),
        (open(63, (7, 5, 64, 1, 7, 7)), 3),
        (open(63, (7, 5, 63, 1, 7, 8)), 3),
        (open(63, (7, 5, 63, 1, 0, 7)), 3),
        (open(63, (7, 5, 63, 1, 3, 7)), 3),
        (open(63, (7, 5, 63, 1, 8, 7)), 3),
        (open(63, (7, 0, 63, 1, 7, 7)), 4),
        (open(63, (7, 16, 63, 0, 7, 7)), 4),
        (open(63, (7, 5, 63, 2, 7, 7)), 5),
        (open(63, (7, 5, 63, 1, 7, 7)), 0),
        (open(63, (7, 10, 63, 1, 7, 7)), 6),
        (open(62, (7, 10, 0, 1, 2, 0)), 0),
        (open(0, (0, 5, 63, 0, 1, 7)), 0),
    ];
    script(&mut cell(0, 0), &calls);
}

#[test]
fn ranges_of_the_other_calls() {
    let calls = [
        (close(63), 7),
        (seize(63, 7, 65_535), 7),
        (release(63, 7, 65_535), 7),
        (Call::Line(63, HYPERFRAME - 1, 1), 7),
        (open(63, (7, 5, 63, 1, 7, 7)), 0),
        (seize(64, 7, 65_535), 3),
        (seize(63, 7, 0), 3),
        (seize(63, 7, 65_536), 3),
        (seize(63, 8, 65_535), 10),
        (seize(63, 7, 65_535), 0),
        (release(64, 7, 65_535), 3),
        (release(63, 7, 0), 3),
        (release(63, 7, 65_536), 3),
        (release(63, 8, 65_535), 10),
        (Call::Line(64, 0, 0), 3),
        (Call::Line(63, HYPERFRAME, 1), 3),
        (Call::Line(63, HYPERFRAME - 1, 2), 3),
        (Call::Line(63, HYPERFRAME - 1, 1), 0),
        (close(64), 3),
        (close(63), 13),
        (release(63, 7, 65_535), 0),
        (close(63), 0),
    ];
    script(&mut cell(0, 0), &calls);
}

#[test]
fn lines_clash() {
    let mut both = cell(0, 0);
    let calls = [
        (open(5, (1, 3, 1, 0, 1, 0)), 0),
        (open(9, (1, 12, 1, 0, 1, 0)), 0), // shares no one
        (open(3, (2, 3, 1, 0, 1, 0)), 0),  // another TN
        (open(7, (1, 3, 1, 1, 1, 0)), 0),  // mask and HSN equal, another MAIO
    ];
    script(&mut both, &calls);
    clash(&mut both, open(0, (1, 3, 1, 1, 2, 7)), 7); // the same MAIO
    clash(&mut both, open(0, (1, 3, 2, 1, 1, 0)), 5); // another HSN: 5 and 7
    clash(&mut both, open(0, (1, 6, 1, 0, 1, 0)), 5); // another mask: 5, 7 and 9
    clash(&mut both, open(0, (1, 7, 1, 2, 1, 0)), 5); // another mask and another MAIO
    clash(&mut both, open(0, (1, 8, 1, 0, 1, 0)), 9);
    clash(&mut both, open(63, (1, 15, 0, 3, 1, 0)), 5);
    clash(&mut both, open(63, (2, 1, 0, 0, 1, 0)), 3);
    let calls = [
        (close(5), 0),
        (open(0, (1, 3, 1, 0, 1, 0)), 0), // 5 stands in the way no more
        (open(63, (3, 3, 1, 0, 1, 0)), 0),
    ];
    script(&mut both, &calls);
    clash(&mut both, open(5, (1, 15, 0, 0, 1, 0)), 0);
    clash(&mut both, open(5, (3, 15, 0, 0, 1, 0)), 63);
}

#[test]
fn common_channels() {
    let calls = [
        (open(0, (1, 2, 0, 0, 4, 3)), 8), // TN
        (open(0, (0, 1, 0, 0, 4, 3)), 8), // not C0
        (open(0, (0, 3, 0, 0, 4, 3)), 8), // not C0 alone
        (open(0, (0, 2, 0, 0, 4, 2)), 8), // TSC
        (open(0, (2, 2, 0, 0, 6, 3)), 8), // no 4
        (open(0, (0, 2, 63, 0, 4, 3)), 0),
        (open(1, (0, 2, 0, 0, 4, 3)), 8), // a 4 is open
        (open(1, (0, 2, 0, 0, 5, 3)), 8),
        (open(1, (4, 2, 0, 0, 6, 3)), 8), // no 6 on TN 2
        (open(1, (2, 1, 0, 0, 6, 3)), 8),
        (open(1, (2, 3, 0, 1, 6, 3)), 8),
        (open(1, (2, 2, 0, 0, 6, 4)), 8),
        (open(1, (2, 2, 0, 0, 6, 3)), 0),
        (open(2, (6, 2, 0, 0, 6, 3)), 8), // no 6 on TN 4
        (open(2, (4, 2, 0, 0, 6, 3)), 0),
        (open(3, (6, 2, 0, 0, 6, 3)), 0),
        (open(4, (0, 2, 0, 0, 6, 3)), 8),
        (open(4, (1, 2, 0, 0, 6, 3)), 8),
        (open(4, (3, 2, 0, 0, 6, 3)), 8),
        (open(4, (5, 2, 0, 0, 6, 3)), 8),
        (open(4, (7, 2, 0, 0, 6, 3)), 8),
        (open(4, (2, 2, 0, 0, 6, 3)), 9), // nothing misplaced, but C0 is taken there
        (open(4, (0, 1, 0, 0, 1, 0)), 0),
        (close(4), 0), // neither a 4 nor a 6
        (close(0), 8),
        (close(1), 8),
        (close(2), 8),
        (close(3), 0),
        (close(0), 8),
        (close(2), 0),
        (close(1), 0),
        (close(0), 0),
        (open(0, (0, 2, 0, 0, 4, 3)), 0),
    ];
    script(&mut cell(3, 2), &calls);
}

#[test]
fn the_combined_channel() {
    let calls = [
        (open(0, (1, 2, 0, 0, 5, 3)), 8),
        (open(0, (0, 4, 0, 0, 5, 3)), 8),
        (open(0, (0, 2, 0, 0, 5, 0)), 8),
        (open(0, (0, 2, 0, 0, 5, 3)), 0),
        (open(1, (0, 2, 0, 0, 4, 3)), 8),
        (open(1, (0, 2, 0, 0, 5, 3)), 8),
        (open(1, (2, 2, 0, 0, 6, 3)), 8), // a 5 is no 4
        (close(0), 0),
        (open(7, (0, 6, 5, 1, 1, 0)), 0),
        (open(0, (0, 2, 0, 0, 5, 3)), 9),
    ];
    script(&mut cell(3, 2), &calls);
    script(&mut cell(3, 3), &[(open(0, (0, 2, 0, 0, 5, 3)), 8)]); // AG
    script(&mut cell(3, 3), &[(open(0, (0, 2, 0, 0, 4, 3)), 0)]);
}

#[test]
fn subchannels() {
    for (combination, tn, count) in [(1, 1, 1), (2, 1, 2), (4, 0, 0), (5, 0, 4), (7, 1, 8)] {
        let mut both = cell(0, 0);
        script(&mut both, &[(open(0, (tn, 2, 0, 0, combination, 0)), 0)]);
        for s in 0..10 {
            let refusal = if s < count { 0 } else { 10 };
            script(&mut both, &[(seize(0, s, 1 + s), refusal)]);
        }
        for s in 0..10 {
            let refusal = if s < count { 0 } else { 10 };
            script(&mut both, &[(release(0, s, 1 + s), refusal)]);
        }
    }
    let calls = [
        (open(0, (0, 2, 0, 0, 4, 0)), 0),
        (open(1, (2, 2, 0, 0, 6, 0)), 0),
        (seize(1, 0, 1), 10),
        (release(1, 0, 1), 10),
    ];
    script(&mut cell(0, 0), &calls);
}

#[test]
fn owners() {
    let calls = [
        (open(0, (1, 2, 0, 0, 2, 0)), 0),
        (release(0, 0, 1), 12), // free
        (seize(0, 0, 1), 0),
        (seize(0, 0, 1), 11),
        (seize(0, 0, 2), 11),
        (seize(0, 1, 2), 0),
        (release(0, 0, 2), 12), // held by 1
        (close(0), 13),
        (release(0, 0, 1), 0),
        (release(0, 0, 1), 12),
        (close(0), 13), // subchannel 1
        (release(0, 1, 2), 0),
        (seize(0, 1, 3), 0),
        (release(0, 1, 2), 12),
        (release(0, 1, 3), 0),
        (close(0), 0),
        (close(0), 7),
        (seize(0, 0, 1), 7),
        (release(0, 0, 1), 7),
        (open(0, (1, 2, 0, 0, 2, 0)), 0),
        (release(0, 0, 1), 12),
    ];
    script(&mut cell(0, 0), &calls);
}

#[test]
fn line() {
    let mut both = cell(0, 0);
    let calls = [
        (open(0, (0, 2, 0, 0, 5, 0)), 0),
        (open(1, (1, 7, 0, 2, 1, 0)), 0),
        (seize(0, 1, 9), 0),
        (seize(1, 0, 65_535), 0),
    ];
    script(&mut both, &calls);
    let c0 = (20, 0, 1);
    let tch = LineAnswer {
        blocks: 2,
        second_block: 0,
        second_place: 5,
        ..burst((20, 1, 1), Tch, 0, 65_535, 1, 1)
    };
    assert_eq!(both.line(0, 14, 1), burst(c0, Rach, 0, 0, 2, 0));
    assert_eq!(both.line(0, 64, 1), burst(c0, Sacch, 1, 9, 0, 3));
    assert_eq!(both.line(0, 13, 1), burst(c0, Sacch, 3, 0, 0, 3));
    assert_eq!(both.line(0, 50, 0), idle(c0));
    let sacch = burst((10, 0, 0), Sacch, 0, 65_535, 0, 0);
    assert_eq!(both.line(1, 25, 0), sacch);
    assert_eq!(both.line(1, 12, 0), idle((30, 2, 2)));
    assert_eq!(both.line(1, 5, 0), tch);
}

#[test]
fn who() {
    let mut both = cell(0, 0);
    let calls = [
        (open(63, (0, 2, 0, 0, 5, 0)), 0),
        (open(7, (1, 7, 0, 2, 1, 0)), 0),
        (open(3, (1, 7, 0, 0, 7, 0)), 0),
        (open(9, (2, 7, 0, 2, 2, 0)), 0),
        (seize(63, 1, 9), 0),
    ];
    script(&mut both, &calls);
    let nobody = WhoAnswer::default();
    let c0 = (20, 0, 1);
    let sacch = burst(c0, Sacch, 1, 9, 0, 3);
    let sdcch = burst((10, 0, 0), Sdcch, 3, 0, 0, 0);
    assert_eq!(both.who(0, 20, 64, 1), found(63, sacch));
    assert_eq!(both.who(0, 20, 50, 0), found(63, idle(c0)));
    assert_eq!(both.who(0, 10, 64, 1), nobody);
    // FN 12 leaves 0 by three ARFCNs, so that MAIO 0, 1 and 2 are 10, 20 and 30.
    assert_eq!(both.who(1, 30, 12, 0), found(7, idle((30, 2, 2))));
    assert_eq!(both.who(1, 10, 12, 0), found(3, sdcch));
    assert_eq!(both.who(1, 20, 12, 0), nobody);
    assert_eq!(both.who(1, 40, 12, 0), nobody);
    assert_eq!(both.who(3, 30, 12, 0), nobody);
    assert_eq!(both.who(1, 1023, 12, 0), nobody);
    script(&mut both, &[(close(7), 0)]);
    assert_eq!(both.who(1, 30, 12, 0), nobody);
    assert_eq!(both.who(2, 30, 12, 0).line, 9);
}

/// By MAI, line 2 is on 10, 30 and 40, and line 5 on 30 and 40.
#[test]
fn holes_in_the_mask() {
    let mut both = cell(0, 0);
    let calls = [
        (open(2, (2, 13, 0, 1, 1, 0)), 0),
        (open(5, (4, 12, 0, 1, 1, 0)), 0),
    ];
    script(&mut both, &calls);
    let sacch = burst((30, 1, 2), Sacch, 0, 0, 0, 3);
    assert_eq!(both.line(2, 12, 0), sacch);
    assert_eq!(both.who(2, 30, 12, 0), found(2, sacch));
    assert_eq!(both.line(2, 25, 1), idle((40, 2, 3)));
    assert_eq!(both.line(2, 77, 1), idle((10, 0, 0)));
    let sacch = burst((40, 1, 3), Sacch, 0, 0, 0, 2);
    assert_eq!(both.line(5, 12, 0), sacch);
    assert_eq!(both.who(4, 40, 12, 0), found(5, sacch));
    assert_eq!(both.who(4, 30, 12, 0), WhoAnswer::default());
    assert_eq!(both.who(4, 30, 25, 1), found(5, idle((30, 0, 2))));
}

#[test]
fn ranges_of_who_and_page() {
    let imsi = Imsi::new(&[9; 15]);
    let calls = [
        (Call::Who(8, 20, 0, 0), 3),
        (Call::Who(0, 1024, 0, 0), 3),
        (Call::Who(0, 20, HYPERFRAME, 0), 3),
        (Call::Who(0, 20, 0, 2), 3),
        (Call::Who(7, 1023, HYPERFRAME - 1, 1), 0),
        (Call::Page(Imsi::new(&[9, 9]), 0), 3),
        (Call::Page(Imsi::new(&[9; 16]), 0), 3),
        (Call::Page(Imsi::new(&[9, 9, 10]), 0), 3),
        (Call::Page(imsi, HYPERFRAME), 3),
        (Call::Page(imsi, HYPERFRAME - 1), 16),
        (open(0, (2, 2, 0, 0, 1, 3)), 0),
        (Call::Page(imsi, HYPERFRAME - 1), 16),
        (open(1, (0, 2, 0, 0, 4, 3)), 0),
        (Call::Page(imsi, HYPERFRAME - 1), 0),
        (Call::Page(imsi, HYPERFRAME), 3),
        (Call::Page(Imsi::new(&[]), 0), 3),
        (close(1), 0),
        (Call::Page(imsi, HYPERFRAME - 1), 16),
    ];
    script(&mut cell(3, 2), &calls);
}

/// Pages I from a frame on: timeslot, block and frame.
fn pages(both: &Both, rows: &[(u8, u32, (u32, u32, u32))]) {
    for &(i, from, (tn, block, frame)) in rows {
        let answer = both.page(&[i / 100, i / 10 % 10, i % 10], from);
        let expected = PageAnswer {
            refusal: 0,
            tn,
            block,
            frame,
        };
        assert_eq!(answer, expected, "I {i}, FN {from}");
    }
}

/// The last multiframe is 53,247; P = 5 leaves 2 of it, and 53,248 would leave 3.
const LAST_MULTIFRAME: u32 = 51 * 53_247;

#[test]
fn page() {
    let mut both = cell(0, 2);
    script(&mut both, &[(open(9, (0, 2, 0, 0, 4, 0)), 0)]);
    // A = 7, n = 35: 36 is group 1, 14 and 21 are block 2 of multiframes 2 and 3.
    let rows = [
        (0, 0, (0, 2, 16)),
        (0, 16, (0, 2, 16)),
        (0, 17, (0, 2, 5 * 51 + 16)),
        (6, 0, (0, 8, 46)),
        (36, 0, (0, 3, 22)),
        (14, LAST_MULTIFRAME + 16, (0, 2, LAST_MULTIFRAME + 16)),
        (14, LAST_MULTIFRAME + 17, (0, 2, 2 * 51 + 16)),
        (21, LAST_MULTIFRAME + 17, (0, 2, 3 * 51 + 16)),
        (0, LAST_MULTIFRAME + 50, (0, 2, 16)),
    ];
    pages(&both, &rows);
    let sixes = [
        (open(8, (2, 2, 0, 0, 6, 0)), 0),
        (open(1, (4, 2, 0, 0, 6, 0)), 0),
    ];
    script(&mut both, &sixes);
    let rows = [
        (0, 0, (0, 2, 16)),
        (35, 0, (2, 2, 16)),
        (36, 0, (2, 3, 22)),
        (70, 0, (4, 2, 16)),
        (105, 0, (0, 2, 16)),
    ];
    pages(&both, &rows);
}

#[test]
fn page_with_the_combined_channel() {
    let mut both = cell(0, 1);
    script(&mut both, &[(open(9, (0, 2, 0, 0, 5, 0)), 0)]);
    // A = 2, n = 10.
    let rows = [
        (0, 0, (0, 1, 12)),
        (1, 0, (0, 2, 16)),
        (2, 0, (0, 1, 51 + 12)),
        (9, 0, (0, 2, 4 * 51 + 16)),
        (10, 0, (0, 1, 12)),
    ];
    pages(&both, &rows);
}
