//! The frame map by painting: for each combination, timeslot and direction a table of 5,304 frames
//! (where the periods 26, 51, 102 and 104 all end), into which each block is painted as document 01
//! words it. What no block paints is idle.

use crate::clock::HYPERFRAME;
use crate::{refuse, Answer, OUT_OF_RANGE};
use std::sync::OnceLock;

/// The number of frames after which every combination repeats.
pub const FRAMES: u32 = 5304;
pub const COMBINATIONS: [u32; 6] = [1, 2, 4, 5, 6, 7];

#[derive(Clone, Copy, Debug, PartialEq, Eq)]
pub enum Channel {
    Idle,
    Tch,
    Sacch,
    Sdcch,
    Fcch,
    Sch,
    Bcch,
    Ccch,
    Rach,
}
use Channel::*;

#[derive(Clone, Debug, PartialEq, Eq)]
pub struct Burst {
    pub channel: Channel,
    pub subchannel: u32,
    /// Block and place, for each block that the burst belongs to.
    pub blocks: Vec<(u32, u32)>,
}

struct Table(Vec<Burst>);

impl Table {
    /// Paints one burst of a block at `frame` of each `period`.
    fn paint(&mut self, period: u32, frame: u32, channel: Channel, s: u32, block: u32, place: u32) {
        for at in (frame % period..FRAMES).step_by(period as usize) {
            let burst = &mut self.0[at as usize];
            if burst.blocks.is_empty() {
                (burst.channel, burst.subchannel) = (channel, s);
            }
            assert_eq!(
                (burst.channel, burst.subchannel),
                (channel, s),
                "two channels in frame {at}"
            );
            burst.blocks.push((block, place));
            assert!(
                burst.blocks.len() == 1 || channel == Tch,
                "two blocks in frame {at}"
            );
        }
    }

    /// Paints "first..", the four frames from the first.
    fn four(&mut self, period: u32, first: u32, channel: Channel, s: u32, block: u32) {
        for place in 0..4 {
            self.paint(period, first + place, channel, s, block, place);
        }
    }

    /// Combination 1. A block is eight traffic frames, beginning with every fourth.
    fn full_rate(&mut self, tn: u32) {
        let traffic: Vec<u32> = (0..=11).chain(13..=24).collect();
        for place in 0..8 {
            for block in 0..6 {
                let frame = traffic[(4 * block + place) % 24];
                self.paint(26, frame, Tch, 0, block as u32, place as u32);
            }
        }
        for i in 0..4 {
            self.paint(104, 12 + 13 * tn + 26 * i, Sacch, 0, 0, i);
        }
    }

    /// Combination 2. Each subchannel has every other traffic frame; a block is four of its own,
    /// beginning with every second.
    fn half_rate(&mut self, tn: u32) {
        let traffic: Vec<u32> = (0..=11).chain(13..=24).collect();
        for s in 0..2 {
            let own: Vec<u32> = traffic
                .iter()
                .skip(s as usize)
                .step_by(2)
                .copied()
                .collect();
            for place in 0..4 {
                for block in 0..6 {
                    let frame = own[(2 * block + place) % 12];
                    self.paint(26, frame, Tch, s, block as u32, place as u32);
                }
            }
            for i in 0..4 {
                self.paint(104, 12 + 26 * (tn / 2) + 13 * s + 26 * i, Sacch, s, 0, i);
            }
        }
    }

    fn frequency_and_synchronization(&mut self) {
        for block in 0..5 {
            self.paint(51, 10 * block, Fcch, 0, block, 0);
            self.paint(51, 10 * block + 1, Sch, 0, block, 0);
        }
    }

    /// BCCH, and as many CCCH blocks as there are.
    fn broadcast_and_common(&mut self, blocks: usize) {
        self.four(51, 2, Bcch, 0, 0);
        for (block, first) in [6, 12, 16, 22, 26, 32, 36, 42, 46]
            .into_iter()
            .take(blocks)
            .enumerate()
        {
            self.four(51, first, Ccch, 0, block as u32);
        }
    }

    fn random_access(&mut self, frames: impl Iterator<Item = u32>) {
        for (block, frame) in frames.enumerate() {
            self.paint(51, frame, Rach, 0, block as u32, 0);
        }
    }

    /// The SDCCH and SACCH of combinations 5 and 7, `later` frames after the downlink.
    fn dedicated(&mut self, sdcch: &[u32], sacch: &[u32], later: u32) {
        for s in 0..sdcch.len() {
            self.four(51, sdcch[s] + later, Sdcch, s as u32, 0);
            self.four(102, sacch[s] + later, Sacch, s as u32, 0);
        }
    }

    fn of(combination: u32, tn: u32, uplink: bool) -> Table {
        let idle = Burst {
            channel: Idle,
            subchannel: 0,
            blocks: Vec::new(),
        };
        let mut table = Table(vec![idle; FRAMES as usize]);
        let later = if uplink { 15 } else { 0 };
        match (combination, uplink) {
            (1, _) => table.full_rate(tn),
            (2, _) => table.half_rate(tn),
            (4, false) => {
                table.frequency_and_synchronization();
                table.broadcast_and_common(9);
            }
            (6, false) => table.broadcast_and_common(9),
            (4 | 6, true) => table.random_access(0..51),
            (5, false) => {
                table.frequency_and_synchronization();
                table.broadcast_and_common(3);
                table.dedicated(&[22, 26, 32, 36], &[42, 46, 93, 97], later);
            }
            (5, true) => {
                table.random_access([4, 5].into_iter().chain(14..=36).chain([45, 46]));
                table.dedicated(&[22, 26, 32, 36], &[42, 46, 93, 97], later);
            }
            (7, _) => table.dedicated(
                &[0, 4, 8, 12, 16, 20, 24, 28],
                &[32, 36, 40, 44, 83, 87, 91, 95],
                later,
            ),
            _ => unreachable!("no such combination"),
        }
        table
    }
}

/// The tables, by combination in the order of COMBINATIONS, timeslot and direction.
fn tables() -> &'static Vec<[[Table; 2]; 8]> {
    static TABLES: OnceLock<Vec<[[Table; 2]; 8]>> = OnceLock::new();
    TABLES.get_or_init(|| {
        let of = |combination: u32| {
            std::array::from_fn(|tn| {
                [false, true].map(|uplink| Table::of(combination, tn as u32, uplink))
            })
        };
        COMBINATIONS.into_iter().map(of).collect()
    })
}

/// What stands in a frame.
pub fn map(combination: u32, tn: u32, frame: u32, direction: u32) -> Answer<&'static Burst> {
    let known = COMBINATIONS.iter().position(|&c| c == combination);
    refuse(&[
        (OUT_OF_RANGE, tn > 7 || direction > 1),
        (OUT_OF_RANGE, frame >= HYPERFRAME),
    ])?;
    let Table(frames) = &tables()[known.ok_or(OUT_OF_RANGE)?][tn as usize][direction as usize];
    Ok(&frames[(frame % FRAMES) as usize])
}
