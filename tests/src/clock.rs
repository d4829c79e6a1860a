//! The frame clock by stepping: T1, T2 and T3 are counters that turn over, and a walk through the
//! whole hyperframe notes the counters of each frame and the frame of each set of counters.

use crate::{refuse, Answer, MALFORMED, OUT_OF_RANGE};
use std::sync::OnceLock;

/// The number of frames before FN returns to 0.
pub const HYPERFRAME: u32 = 2_715_648;

#[derive(Clone, Copy, Debug, PartialEq, Eq)]
pub struct Counters {
    pub t1: u16,
    pub t2: u8,
    pub t3: u8,
}

impl Counters {
    pub const START: Counters = Counters {
        t1: 0,
        t2: 0,
        t3: 0,
    };

    /// The counters one frame later. T1 moves on when T2 and T3 return to 0 in the same frame.
    pub fn next(self) -> Counters {
        let t2 = if self.t2 == 25 { 0 } else { self.t2 + 1 };
        let t3 = if self.t3 == 50 { 0 } else { self.t3 + 1 };
        let t1 = match (t2, t3) {
            (0, 0) if self.t1 == 2047 => 0,
            (0, 0) => self.t1 + 1,
            _ => self.t1,
        };
        Counters { t1, t2, t3 }
    }

    pub fn t3_prime(self) -> Option<usize> {
        [1, 11, 21, 31, 41].iter().position(|&t3| t3 == self.t3)
    }
}

/// What the walk through the hyperframe has noted.
struct Walk {
    counters: Vec<Counters>,
    frames: Vec<[[u32; 51]; 26]>,
}

fn walk() -> &'static Walk {
    static WALK: OnceLock<Walk> = OnceLock::new();
    WALK.get_or_init(|| {
        let mut walk = Walk {
            counters: Vec::new(),
            frames: vec![[[u32::MAX; 51]; 26]; 2048],
        };
        let mut now = Counters::START;
        for frame in 0..HYPERFRAME {
            walk.counters.push(now);
            walk.frames[now.t1 as usize][now.t2 as usize][now.t3 as usize] = frame;
            now = now.next();
        }
        assert_eq!(now, Counters::START);
        walk
    })
}

/// The counters of a frame.
pub fn split(frame: u32) -> Answer<Counters> {
    let counters = walk().counters.get(frame as usize);
    counters.copied().ok_or(OUT_OF_RANGE)
}

/// The frame that has these counters.
pub fn join(t1: u32, t2: u32, t3: u32) -> Answer<u32> {
    refuse(&[
        (MALFORMED, t1 > 2047),
        (MALFORMED, t2 > 25),
        (MALFORMED, t3 > 50),
    ])?;
    Ok(walk().frames[t1 as usize][t2 as usize][t3 as usize])
}
