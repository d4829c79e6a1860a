//! Answers of line and who as numbers in a row, for the tests whose answers are typed and not
//! reckoned.

use crate::frame_map::Channel;
use crate::library::{LineAnswer, WhoAnswer};

/// ARFCN, MAI and position.
pub type Tuned = (u32, u32, u32);

/// A burst that belongs to one block.
pub fn burst(
    tuned: Tuned,
    channel: Channel,
    s: u32,
    owner: u32,
    block: u32,
    place: u32,
) -> LineAnswer {
    LineAnswer {
        owner,
        channel: channel as u32,
        subchannel: s,
        blocks: 1,
        block,
        place,
        ..idle(tuned)
    }
}

pub fn idle((arfcn, mai, position): Tuned) -> LineAnswer {
    LineAnswer {
        arfcn,
        mai,
        position,
        ..Default::default()
    }
}

/// The line that has the ARFCN, with its answer.
pub fn found(line: u32, answer: LineAnswer) -> WhoAnswer {
    WhoAnswer {
        refusal: 0,
        found: 1,
        line,
        answer,
    }
}
