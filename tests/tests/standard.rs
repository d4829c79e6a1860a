//! The figures of the standard (source documents 000 and 001), typed from there and not from
//! document 01.
//!
//! What is damaged there:
//! - The dots between the first and the last frame of a block are lost, "B(2225)" for 22 to 25.
//!   The digits are whole, so these are typed, as the first and the last frame.
//! - SDCCH/4, SACCH/C4, SDCCH/8, SACCH/C8: the column of directions is garbled in 001, and in 000
//!   the last U of SACCH/C4 is lost and SDCCH/8 has slid by a row. The blocks are whole in both and
//!   stand in the order D, U for each subchannel.
//! - SACCH/TH: the rows have slid against the timeslots. In 000 timeslot 6 has a block twice and
//!   timeslot 7 lacks its second; 001 has all sixteen blocks in order and is typed here.
//! - TCH/HS: block 2 is cut off in both, and in 001 subchannel 1 has 17 for 11. Blocks 0 and 1 are
//!   typed from 000; block 2 is skipped.
//! - RNTABLE (typed in src/hopping.rs): whole in 000; in 001 two commas of the last row are dots.
//! - Table 5, the RACH of a combined channel: whole in 000, missing in 001.
//! - Figures 7 and 8 (drawings of the multiframes) are lost in both, and skipped.
//! - The training sequences: in 001 code 3 has a bit too many, in 000 code 0; code 6 breaks off in
//!   both. The other rows are whole.
//! - The synch. sequence of the access burst, 41 bits: 001 has lost a pair "1, 0", 000 has a 1 and a
//!   pair "1, 0" too many.
//! - The extended training sequence of the synchronization burst is lost in 000; in 001 it is wrong
//!   from its 21st bit on. It is skipped.
//! - The mixed bits of the dummy burst are lost in both; A.2.1.2 has those in place of a training
//!   sequence.
//! - The fields of the synchronization burst: whole in 001, where they are typed from; in 000 digits
//!   are lost.

use tdma_tests::bursts::Call::{self, *};
use tdma_tests::clock::HYPERFRAME;
use tdma_tests::frame_map::Channel::{self, *};
use tdma_tests::frame_map::FRAMES;
use tdma_tests::hopping::{Numbers, RNTABLE};
use tdma_tests::library::{self, BurstAnswer};
use tdma_tests::FIXED_BIT;

const DOWNLINK: u32 = 0;
const UPLINK: u32 = 1;

/// A line as the library is asked for it.
#[derive(Clone, Copy, Debug)]
struct Line {
    combination: u32,
    tn: u32,
    direction: u32,
}

impl Line {
    /// The place that a block of a channel has in a frame, if it stands there. `block` is compared
    /// by its remainder, for blocks that the standard numbers within a shorter repeat length.
    fn place(self, frame: u32, channel: Channel, s: u32, block: u32, blocks: u32) -> Option<u32> {
        let told = library::map(self.combination, self.tn, frame, self.direction);
        assert_eq!(told.refusal, 0, "{self:?}, FN {frame}");
        let parts = [
            (told.block, told.place),
            (told.second_block, told.second_place),
        ];
        let mut parts = parts.iter().take(told.blocks.into());
        let part = parts.find(|part| u32::from(part.0) % blocks == block)?;
        let here = told.channel == channel as u8 && u32::from(told.subchannel) == s;
        here.then_some(part.1.into())
    }

    /// A row of clause 7: block `block` of `blocks` stands in these frames of each `length`, in
    /// this order, and in no others.
    fn row(self, channel: Channel, s: u32, block: u32, blocks: u32, length: u32, frames: &[u32]) {
        for frame in 0..FRAMES {
            let place = frames.iter().position(|&printed| printed == frame % length);
            let told = self.place(frame, channel, s, block, blocks);
            let place = place.map(|place| place as u32);
            assert_eq!(
                told, place,
                "{self:?}, {channel:?} {s}, block {block}, FN {frame}"
            );
        }
    }

    /// A row whose block is printed by its first and last frame.
    fn run(self, channel: Channel, s: u32, block: (u32, u32), length: u32, (a, e): (u32, u32)) {
        self.row(channel, s, block.0, block.1, length, &Vec::from_iter(a..=e));
    }
}

/// The one block of a channel.
const ONLY: (u32, u32) = (0, 1);

#[test]
fn frame_numbers() {
    let fn_max = (26 * 51 * 2048) - 1;
    assert_eq!(fn_max, 2_715_647);
    assert_eq!(fn_max + 1, HYPERFRAME);
    assert_eq!(library::split(fn_max).refusal, 0);
    assert_eq!(library::split(fn_max + 1).refusal, 3);
}

/// RNTABLE read out of the library: for each address, the entries that its answers leave possible.
/// With N = 64 and different T2 and T3 that is one entry. Address 0 has T3 = 0 alone, where an
/// entry and the one 64 above it hop alike.
#[test]
fn the_table_that_the_library_hops_by() {
    let hsn = 1;
    for at in 0..114 {
        let mut possible: Vec<u32> = (0..128).collect();
        for t3 in (0..51).filter(|&t3| (0..64).contains(&(at - t3))) {
            let t1 = (at - t3) as u32 ^ hsn;
            for t2 in 0..26 {
                let frame = library::join(t1, t2, t3 as u32).frame;
                let told = library::position(64, u64::MAX, hsn, 0, frame);
                assert_eq!((told.refusal, told.mai), (0, told.position));
                possible.retain(|&entry| Numbers::new(entry, t2, t3 as u32, 64).s() == told.mai);
            }
        }
        let entry = RNTABLE[at as usize / 10][at as usize % 10];
        let expected = if at == 0 {
            vec![entry, entry + 64]
        } else {
            vec![entry]
        };
        assert_eq!(possible, expected, "address {at}");
    }
}

#[test]
fn full_rate_traffic_and_its_sacch() {
    let blocks: [&[u32]; 3] = [
        &[0, 1, 2, 3, 4, 5, 6, 7],
        &[4, 5, 6, 7, 8, 9, 10, 11],
        &[8, 9, 10, 11, 0, 1, 2, 3],
    ];
    let sacch = [
        [12, 38, 64, 90],
        [25, 51, 77, 103],
        [38, 64, 90, 12],
        [51, 77, 103, 25],
        [64, 90, 12, 38],
        [77, 103, 25, 51],
        [90, 12, 38, 64],
        [103, 25, 51, 77],
    ];
    for tn in 0..8 {
        for direction in [DOWNLINK, UPLINK] {
            let line = Line {
                combination: 1,
                tn,
                direction,
            };
            for (block, frames) in blocks.iter().enumerate() {
                line.row(Tch, 0, block as u32, 3, 13, frames);
            }
            line.row(Sacch, 0, 0, 1, 104, &sacch[tn as usize]);
        }
    }
}

#[test]
fn half_rate_traffic_and_its_sacch() {
    let blocks = [[[0, 2, 4, 6], [4, 6, 8, 10]], [[1, 3, 5, 7], [5, 7, 9, 11]]];
    let sacch = [
        [[12, 38, 64, 90], [25, 51, 77, 103]],
        [[12, 38, 64, 90], [25, 51, 77, 103]],
        [[38, 64, 90, 12], [51, 77, 103, 25]],
        [[38, 64, 90, 12], [51, 77, 103, 25]],
        [[64, 90, 12, 38], [77, 103, 25, 51]],
        [[64, 90, 12, 38], [77, 103, 25, 51]],
        [[90, 12, 38, 64], [103, 25, 51, 77]],
        [[90, 12, 38, 64], [103, 25, 51, 77]],
    ];
    for tn in 0..8 {
        for direction in [DOWNLINK, UPLINK] {
            let line = Line {
                combination: 2,
                tn,
                direction,
            };
            for s in 0..2 {
                for (block, frames) in blocks[s].iter().enumerate() {
                    line.row(Tch, s as u32, block as u32, 3, 13, frames);
                }
                line.row(Sacch, s as u32, 0, 1, 104, &sacch[tn as usize][s]);
            }
        }
    }
}

#[test]
fn broadcast_and_common_channels() {
    let common = [
        (6, 9),
        (12, 15),
        (16, 19),
        (22, 25),
        (26, 29),
        (32, 35),
        (36, 39),
        (42, 45),
        (46, 49),
    ];
    for (combination, tn, blocks) in [(4, 0, 9), (5, 0, 3), (6, 2, 9), (6, 4, 9), (6, 6, 9)] {
        let line = Line {
            combination,
            tn,
            direction: DOWNLINK,
        };
        line.run(Bcch, 0, ONLY, 51, (2, 5));
        for block in 0..blocks {
            line.run(Ccch, 0, (block, blocks), 51, common[block as usize]);
        }
        if combination != 6 {
            for block in 0..5 {
                line.row(
                    Fcch,
                    0,
                    block,
                    5,
                    51,
                    &[[0, 10, 20, 30, 40][block as usize]],
                );
                line.row(Sch, 0, block, 5, 51, &[[1, 11, 21, 31, 41][block as usize]]);
            }
        }
    }
}

#[test]
fn random_access() {
    for (combination, tn) in [(4, 0), (6, 2), (6, 4), (6, 6)] {
        for block in 0..=50 {
            let line = Line {
                combination,
                tn,
                direction: UPLINK,
            };
            line.row(Rach, 0, block, 51, 51, &[block]);
        }
    }
    // Table 5 names the blocks of a combined channel by their frames.
    let combined = [4, 5].into_iter().chain(14..=36).chain([45, 46]);
    for (block, frame) in combined.enumerate() {
        let line = Line {
            combination: 5,
            tn: 0,
            direction: UPLINK,
        };
        line.row(Rach, 0, block as u32, 27, 51, &[frame]);
    }
}

/// Checks SDCCH and SACCH of a combination: for each subchannel the downlink and the uplink block.
fn dedicated(combination: u32, tn: u32, sdcch: &[[(u32, u32); 2]], sacch: &[[(u32, u32); 2]]) {
    for direction in [DOWNLINK, UPLINK] {
        let line = Line {
            combination,
            tn,
            direction,
        };
        for s in 0..sdcch.len() {
            line.run(Sdcch, s as u32, ONLY, 51, sdcch[s][direction as usize]);
            line.run(Sacch, s as u32, ONLY, 102, sacch[s][direction as usize]);
        }
    }
}

#[test]
fn sdcch_4_and_its_sacch() {
    dedicated(
        5,
        0,
        &[
            [(22, 25), (37, 40)],
            [(26, 29), (41, 44)],
            [(32, 35), (47, 50)],
            [(36, 39), (0, 3)],
        ],
        &[
            [(42, 45), (57, 60)],
            [(46, 49), (61, 64)],
            [(93, 96), (6, 9)],
            [(97, 100), (10, 13)],
        ],
    );
}

#[test]
fn sdcch_8_and_its_sacch() {
    let sdcch = [
        [(0, 3), (15, 18)],
        [(4, 7), (19, 22)],
        [(8, 11), (23, 26)],
        [(12, 15), (27, 30)],
        [(16, 19), (31, 34)],
        [(20, 23), (35, 38)],
        [(24, 27), (39, 42)],
        [(28, 31), (43, 46)],
    ];
    let sacch = [
        [(32, 35), (47, 50)],
        [(36, 39), (51, 54)],
        [(40, 43), (55, 58)],
        [(44, 47), (59, 62)],
        [(83, 86), (98, 101)],
        [(87, 90), (0, 3)],
        [(91, 94), (4, 7)],
        [(95, 98), (8, 11)],
    ];
    for tn in 0..8 {
        dedicated(7, tn, &sdcch, &sacch);
    }
}

/// The bits of a row as it is printed.
fn printed(row: &str) -> Vec<u8> {
    let bits = row.trim_matches(['(', ')']).split(',');
    bits.map(|bit| bit.trim().parse().unwrap()).collect()
}

/// A burst of so many bits that the library builds from this payload.
fn built(build: Call, payload: &[u8], bits: usize) -> Vec<u8> {
    let mut burst = vec![9; bits];
    let answer = library::burst(build, payload, &mut burst);
    assert_eq!(answer, BurstAnswer::default(), "{build:?}");
    burst
}

/// The training sequence that the library builds a normal burst with.
fn training(tsc: u32) -> Vec<u8> {
    built(BuildNormal(tsc), &[1; 116], 148)[61..=86].to_vec()
}

/// The synch. sequence that the library builds an access burst with.
fn synch_sequence() -> Vec<u8> {
    built(BuildAccess, &[1; 36], 88)[8..=48].to_vec()
}

/// All that is left of a row if some adjacent bits, as these, are taken out of it.
fn without(row: &[u8], bits: &[u8]) -> Vec<Vec<u8>> {
    let starts = (0..row.len()).filter(|&at| row[at..].starts_with(bits));
    let rest = |at: usize| [&row[..at], &row[at + bits.len()..]].concat();
    starts.map(rest).collect()
}

/// As 001 prints them, and code 3 as 000 does.
#[test]
fn training_sequences() {
    let rows = [
        (0, "(0,0,1,0,0,1,0,1,1,1,0,0,0,0,1,0,0,0,1,0,0,1,0,1,1,1)"),
        (1, "(0,0,1,0,1,1,0,1,1,1,0,1,1,1,1,0,0,0,1,0,1,1,0,1,1,1)"),
        (2, "(0,1,0,0,0,0,1,1,1,0,1,1,1,0,1,0,0,1,0,0,0,0,1,1,1,0)"),
        (3, "(0,1,0,0,0,1,1,1,1,0,1,1,0,1,0,0,0,1,0,0,0,1,1,1,1,0)"),
        (4, "(0,0,0,1,1,0,1,0,1,1,1,0,0,1,0,0,0,0,0,1,1,0,1,0,1,1)"),
        (5, "(0,1,0,0,1,1,1,0,1,0,1,1,0,0,0,0,0,1,0,0,1,1,1,0,1,0)"),
        (7, "(1,1,1,0,1,1,1,1,0,0,0,1,0,0,1,0,1,1,1,0,1,1,1,1,0,0)"),
    ];
    for (tsc, row) in rows {
        assert_eq!(training(tsc), printed(row), "code {tsc}");
    }
}

/// Code 3 of 001 and code 0 of 000 have a 1 too many; code 6 has its first 20 bits in both.
#[test]
fn damaged_training_sequences() {
    let third = "(0,1,0,0,0,1,1,1,1,0,1,1,0,1,0,0,0,1,0,0,0,1,1,1,1,1,0)";
    let first = "(0,0,1,0,0,1,0,1,1,1,0,0,0,0,1,0,0,0,1,0,0,1,0,1,1,1,1)";
    for (tsc, row) in [(3, third), (0, first)] {
        let row = printed(row);
        assert_eq!(row.len(), 27);
        assert!(without(&row, &[1]).contains(&training(tsc)), "code {tsc}");
    }
    let sixth = printed("(1,0,1,0,0,1,1,1,1,1,0,1,1,0,0,0,1,0,1,0");
    assert_eq!((sixth.len(), &training(6)[..20]), (20, &sixth[..]));
}

/// 001 has the synch. sequence with one pair "1, 0" left out; 000 has it with a 1 and such a pair put
/// in.
#[test]
fn damaged_synch_sequence() {
    let row_001 = printed(
        "(0, 1, 0, 0, 1, 0, 1, 1, 0, 1, 1, 1, 1, 1, 1, 1, 1, 0, 0, 1, 1, 0, 0, 1, 1, 0, 1, 0, 1, \
         0, 0, 0, 1, 1, 1, 1, 0, 0, 0)",
    );
    assert_eq!(row_001.len(), 39);
    assert!(without(&synch_sequence(), &[1, 0]).contains(&row_001));
    let row_000 = printed(
        "(0, 1, 0, 0, 1, 0, 1, 1, 0, 1, 1, 1, 1, 1, 1, 1, 1, 1, 0, 0, 1, 1, 0, 0, 1, 1, 0, 1, 0, \
         1, 0, 1, 0, 1, 0, 0, 0, 1, 1, 1, 1, 0, 0, 0)",
    );
    assert_eq!(row_000.len(), 44);
    let pair_out = without(&row_000, &[1, 0]);
    let mut both_out = pair_out.iter().flat_map(|row| without(row, &[1]));
    assert!(both_out.any(|row| row == synch_sequence()));
}

/// The "C0 filling training sequence" of A.2.1.2 stands in the middle of the dummy burst.
#[test]
fn middle_of_the_dummy_burst() {
    let row = "(0,1,1,1,0,0,0,1,0,1,1,1,0,0,0,1,0,1,1,1,0,0,0,1,0,1)";
    let dummy = built(BuildDummy, &[], 148);
    assert_eq!(dummy[61..=86], printed(row));
}

#[test]
fn tail_bits() {
    let four = [
        (BuildNormal(0), 116),
        (BuildFrequencyCorrection, 0),
        (BuildSynchronization, 78),
        (BuildDummy, 0),
    ];
    for (build, payload) in four {
        let burst = built(build, &vec![1; payload], 148);
        assert_eq!(burst[0..=2], printed("(0, 0, 0)"), "{build:?}");
        assert_eq!(burst[145..=147], printed("(0, 0, 0)"), "{build:?}");
    }
    let access = built(BuildAccess, &[1; 36], 88);
    let extended = printed("(0, 0, 1, 1, 1, 0, 1, 0)");
    assert_eq!(access[0..=7], extended);
    assert_eq!(access[85..=87], printed("(0, 0, 0)"));
    let frequency_correction = built(BuildFrequencyCorrection, &[], 148);
    assert_eq!(frequency_correction[3..=144], [0; 142]);
}

/// A line of a table of fields: the first and the last bit number, the length, and the first and the
/// last of the encrypted bits if it has such.
type Field = (usize, usize, usize, Option<(usize, usize)>);

/// The fields follow each other, each as long as is printed. Gives the bits and the encrypted bits.
fn lengths(fields: &[Field]) -> (usize, usize) {
    let (mut bits, mut encrypted) = (0, 0);
    for &(first, last, length, e) in fields {
        assert_eq!((first, last + 1), (bits, bits + length));
        bits += length;
        if let Some((first, last)) = e {
            assert_eq!((first, last + 1), (encrypted, encrypted + length));
            encrypted += length;
        }
    }
    (bits, encrypted)
}

/// A burst and one with the bit at `at` flipped: an encrypted bit comes out at its number alone, and
/// any other is refused.
fn flip(take: Call, burst: &[u8], payload: &[u8], at: usize, e: Option<usize>) {
    let (mut burst, mut taken) = (burst.to_vec(), vec![9; payload.len()]);
    burst[at] ^= 1;
    let answer = library::burst(take, &burst, &mut taken);
    let mut expected = payload.to_vec();
    if let Some(e) = e {
        expected[e] ^= 1;
        assert_eq!((answer.refusal, taken), (0, expected), "{take:?}, bit {at}");
    } else {
        assert_eq!(answer.refusal, FIXED_BIT, "{take:?}, bit {at}");
        assert_eq!(answer.bit, at as u32, "{take:?}");
    }
}

/// Checks a table of fields, bit by bit.
fn check_fields(build: Call, take: Call, fields: &[Field]) {
    let (bits, encrypted) = lengths(fields);
    for payload in [vec![0; encrypted], vec![1; encrypted]] {
        let burst = built(build, &payload, bits);
        for &(first, last, _, e) in fields {
            for at in first..=last {
                let number = e.map(|(e, _)| e + at - first);
                flip(take, &burst, &payload, at, number);
            }
        }
    }
}

#[test]
fn fields_of_bursts_with_a_payload() {
    let normal = [
        (0, 2, 3, None),
        (3, 60, 58, Some((0, 57))),
        (61, 86, 26, None),
        (87, 144, 58, Some((58, 115))),
        (145, 147, 3, None),
    ];
    let synchronization = [
        (0, 2, 3, None),
        (3, 41, 39, Some((0, 38))),
        (42, 105, 64, None),
        (106, 144, 39, Some((39, 77))),
        (145, 147, 3, None),
    ];
    let access = [
        (0, 7, 8, None),
        (8, 48, 41, None),
        (49, 84, 36, Some((0, 35))),
        (85, 87, 3, None),
    ];
    for tsc in 0..8 {
        check_fields(BuildNormal(tsc), TakeNormal(tsc), &normal);
    }
    check_fields(BuildSynchronization, TakeSynchronization, &synchronization);
    check_fields(BuildAccess, TakeAccess, &access);
}

/// Frequency correction and dummy: the tables differ in the name of the middle field alone.
#[test]
fn fields_of_bursts_without_a_payload() {
    let fields = [(0, 2, 3, None), (3, 144, 142, None), (145, 147, 3, None)];
    let (bits, encrypted) = lengths(&fields);
    for build in [BuildFrequencyCorrection, BuildDummy] {
        let burst = built(build, &vec![1; encrypted], bits);
        assert!(burst.iter().all(|&bit| bit <= 1));
    }
}
