//! Paging by dealing and walking: the paging groups of a cell stand in a list, round which the values
//! of I are dealt, and a group's frame is found by going on frame by frame and asking the frame map.

use crate::cell::{is_common_combination, Causes, Cell, OpenLine};
use crate::clock::HYPERFRAME;
use crate::frame_map::{map, Channel};
use crate::{refuse, Answer, NO_COMMON_LINE, OUT_OF_RANGE};

/// The bytes that are passed for an IMSI, one digit to a byte: 16 at most.
#[derive(Clone, Copy)]
pub struct Imsi {
    bytes: [u8; 16],
    length: usize,
}

impl Imsi {
    pub const fn new(digits: &[u8]) -> Imsi {
        let (mut bytes, length) = ([0; 16], digits.len());
        bytes.split_at_mut(length).0.copy_from_slice(digits);
        Imsi { bytes, length }
    }

    pub fn digits(&self) -> &[u8] {
        &self.bytes[..self.length]
    }
}

impl std::fmt::Debug for Imsi {
    fn fmt(&self, f: &mut std::fmt::Formatter) -> std::fmt::Result {
        self.digits().fmt(f)
    }
}

/// A CCCH block of a common line in one of every P multiframes.
#[derive(Clone, Copy, Debug, PartialEq, Eq, Hash)]
pub struct Group {
    pub tn: u32,
    pub combination: u32,
    pub p: u32,
    /// What the number of its multiframes leaves if it is divided by P.
    pub multiframe: u32,
    pub block: u32,
}

impl Group {
    /// Whether the block begins in this frame.
    fn begins(&self, frame: u32) -> bool {
        if frame / 51 % self.p != self.multiframe {
            return false;
        }
        let burst = map(self.combination, self.tn, frame, 0).unwrap();
        burst.channel == Channel::Ccch && burst.blocks == [(self.block, 0)]
    }

    /// The first frame at or after this one where the block begins.
    pub fn first(&self, frame: u32) -> u32 {
        let mut walk = (frame..HYPERFRAME).chain(0..frame);
        let first = walk.find(|&frame| self.begins(frame));
        first.expect("a frame where the block begins")
    }
}

/// Where and when a mobile station is paged.
#[derive(Clone, Copy, Debug, PartialEq, Eq)]
pub struct Paged {
    pub tn: u32,
    pub block: u32,
    pub frame: u32,
}

/// The last three digits as a number.
fn last_three(digits: &[u8]) -> usize {
    let last = digits.iter().rev().map(|&digit| usize::from(digit));
    last.zip([1, 10, 100])
        .map(|(digit, unit)| digit * unit)
        .sum()
}

impl Cell {
    fn common_lines(&self) -> Vec<&OpenLine> {
        let common = |line: &&OpenLine| is_common_combination(line.combination);
        self.lines.values().filter(common).collect()
    }

    /// The paging groups: by timeslot, in each by multiframe, and in each of these by block.
    pub fn groups(&self) -> Vec<Group> {
        let (common, p) = (self.common_lines(), self.plan.p);
        let combined = common.iter().any(|line| line.combination == 5);
        let blocks = if combined { 3 } else { 9 };
        let mut groups = Vec::new();
        for tn in (0..8).step_by(2).take(common.len()) {
            let line = common.iter().find(|line| line.tn == tn);
            let combination = line.expect("a common line there").combination;
            let of = |multiframe| {
                (self.plan.ag..blocks).map(move |block| Group {
                    tn,
                    combination,
                    p,
                    multiframe,
                    block,
                })
            };
            groups.extend((0..p).flat_map(of));
        }
        groups
    }

    pub fn page_causes(&self, digits: &[u8], frame: u32) -> Causes {
        let imsi = (3..=15).contains(&digits.len()) && digits.iter().all(|&digit| digit <= 9);
        vec![
            (NO_COMMON_LINE, self.common_lines().is_empty()),
            (OUT_OF_RANGE, !imsi || frame >= HYPERFRAME),
        ]
    }

    pub fn page(&self, digits: &[u8], frame: u32) -> Answer<Paged> {
        refuse(&self.page_causes(digits, frame))?;
        let groups = self.groups();
        let group = groups[last_three(digits) % groups.len()];
        Ok(Paged {
            tn: group.tn,
            block: group.block,
            frame: group.first(frame),
        })
    }
}
