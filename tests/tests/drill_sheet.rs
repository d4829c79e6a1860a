//! The rows of document 01's drill sheet, asked of the C interface. Those on hopping say MAI and the
//! position, too.

use tdma_tests::frame_map::Channel;
use tdma_tests::library::{self, hop, join, map, open, page, split, start, unfilled};
use tdma_tests::library::{HopAnswer, MapAnswer, PageAnswer, PositionAnswer};

const CA: [u16; 4] = [10, 20, 30, 40];
const DOWNLINK: u32 = 0;
const UPLINK: u32 = 1;

#[test]
fn clock() {
    let last = split(2_715_647);
    assert_eq!((last.refusal, last.t1, last.t2, last.t3), (0, 2047, 25, 50));
    assert_eq!((join(0, 25, 0).refusal, join(0, 25, 0).frame), (0, 51));
}

/// Mask, HSN, MAIO and frame; ARFCN, MAI and position.
type Row = ((u64, u32, u32, u32), (u32, u32, u32));

fn ask(rows: &[Row]) {
    for &((mask, hsn, maio, frame), (arfcn, mai, position)) in rows {
        let answer = HopAnswer {
            refusal: 0,
            arfcn,
            mai,
            position,
        };
        assert_eq!(hop(&CA, mask, hsn, maio, frame), answer, "mask {mask}");
        let answer = PositionAnswer {
            refusal: 0,
            position,
            mai,
        };
        let told = library::position(4, mask, hsn, maio, frame);
        assert_eq!(told, answer, "mask {mask}");
    }
}

#[test]
fn hopping() {
    ask(&[
        ((7, 0, 2, 5), (20, 1, 1)),
        ((7, 1, 0, 0), (30, 2, 2)),
        ((7, 1, 0, 2), (30, 2, 2)),
        ((7, 1, 0, 4), (10, 0, 0)),
        ((7, 1, 1, 0), (10, 0, 0)),
        ((15, 1, 0, 3), (30, 2, 2)),
    ]);
}

/// Beside the sheet: with a hole in the mask, MAI is below the position.
#[test]
fn hopping_over_holes() {
    ask(&[
        ((1, 1, 0, 3), (10, 0, 0)),
        ((8, 1, 0, 3), (40, 0, 3)),
        ((14, 1, 0, 0), (40, 2, 3)),
        ((14, 1, 0, 4), (20, 0, 1)),
        ((10, 0, 1, 0), (40, 1, 3)),
    ]);
}

/// A burst of one block.
fn burst(channel: Channel, subchannel: u8, block: u8, place: u8) -> MapAnswer {
    let channel = channel as u8;
    MapAnswer {
        channel,
        subchannel,
        blocks: 1,
        block,
        place,
        ..Default::default()
    }
}

#[test]
fn traffic() {
    for direction in [DOWNLINK, UPLINK] {
        assert_eq!(map(1, 1, 25, direction), burst(Channel::Sacch, 0, 0, 0));
        assert_eq!(map(1, 1, 12, direction), MapAnswer::default());
        assert_eq!(map(2, 1, 12, direction), burst(Channel::Sacch, 0, 0, 0));
    }
}

#[test]
fn control() {
    assert_eq!(map(7, 0, 102, UPLINK), burst(Channel::Sacch, 5, 0, 0));
    assert_eq!(map(5, 0, 13, UPLINK), burst(Channel::Sacch, 3, 0, 3));
    assert_eq!(map(5, 0, 14, UPLINK), burst(Channel::Rach, 0, 2, 0));
    assert_eq!(map(5, 0, 64, UPLINK), burst(Channel::Sacch, 1, 0, 3));
}

#[test]
fn paging() {
    let mut cell = unfilled();
    let started = start(&mut cell, &CA, 10, 0, 1, 5);
    let opened = open(&mut cell, 0, &(0, 1, 0, 0, 4, 0).into());
    assert_eq!((started.refusal, opened.refusal), (0, 0));
    let answer = PageAnswer {
        refusal: 0,
        tn: 0,
        block: 4,
        frame: 26,
    };
    assert_eq!(page(&cell, &[1, 2, 3], 0), answer);
}
