//! Whether an answer's ARFCN, MAI and position belong together: the position is the one whose entry
//! in the cell allocation is the ARFCN, and its bit in the mask is one and has MAI ones below it;
//! and a handset, which lists the ARFCNs by itself, agrees. A refused answer has none of them. All
//! that compare such answers ask this, too.

use crate::cell::Cell;
use crate::handset::{self, Arfcns};
use crate::library::{HopAnswer, LineAnswer, PositionAnswer, WhoAnswer};

/// How many ones stand below a bit of a mask.
fn ones_below(mask: u64, bit: u32) -> u32 {
    (0..bit).map(|lower| (mask >> lower & 1) as u32).sum()
}

pub fn position(length: u32, mask: u64, answer: PositionAnswer) -> bool {
    let PositionAnswer {
        refusal,
        position,
        mai,
    } = answer;
    if refusal != 0 {
        return (position, mai) == (0, 0);
    }
    position < length.min(64)
        && mask >> position & 1 == 1
        && ones_below(mask, position) == mai
        && mai < ones_below(mask, 64)
}

pub fn hop(ca: &[u16], mask: u64, answer: HopAnswer) -> bool {
    let HopAnswer {
        refusal,
        arfcn,
        mai,
        position: at,
    } = answer;
    let of_position = PositionAnswer {
        refusal,
        position: at,
        mai,
    };
    let has_it = |&(_, &entry): &(u32, &u16)| u32::from(entry) == arfcn;
    let mut having = (0..).zip(ca).filter(has_it).map(|(place, _)| place);
    let entry = match refusal {
        0 => having.next() == Some(at) && having.next().is_none(),
        _ => arfcn == 0,
    };
    let handset = refusal != 0 || handset::agrees(&Arfcns::of(ca), mask, answer);
    entry && position(ca.len() as u32, mask, of_position) && handset
}

pub fn line(ca: &[u16], mask: u64, answer: LineAnswer) -> bool {
    let of_hop = HopAnswer {
        refusal: answer.refusal,
        arfcn: answer.arfcn,
        mai: answer.mai,
        position: answer.position,
    };
    hop(ca, mask, of_hop)
}

pub fn who(cell: &Cell, answer: WhoAnswer) -> bool {
    let nobody = WhoAnswer {
        refusal: answer.refusal,
        ..Default::default()
    };
    match answer.found {
        0 => answer == nobody,
        _ => line(&cell.plan.ca, cell.mask(answer.line), answer.answer),
    }
}
