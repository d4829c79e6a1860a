//! The library under test as include/tdma.h declares it, and what an answer of the second
//! implementation is in its numbers.

use crate::bursts::{self, Call};
use crate::cell::{Found, OnAir, Values};
use crate::clock::Counters;
use crate::frame_map::Burst;
use crate::hopping::{Hop, Place};
use crate::paging::Paged;
use crate::Answer;

macro_rules! answers {
    ($($name:ident: $number:ident { $($field:ident),* })*) => { $(
        #[repr(C)]
        #[derive(Clone, Copy, Debug, Default, PartialEq, Eq)]
        pub struct $name { $(pub $field: $number),* }
    )* };
}

answers! {
    SplitAnswer: u32 { refusal, t1, t2, t3, t3_prime_given, t3_prime }
    JoinAnswer: u32 { refusal, frame }
    PositionAnswer: u32 { refusal, position, mai }
    HopAnswer: u32 { refusal, arfcn, mai, position }
    MapAnswer: u8 { refusal, channel, subchannel, blocks, block, place, second_block, second_place }
    LineAnswer: u32 {
        refusal, arfcn, owner, channel, subchannel, blocks, block, place, second_block,
        second_place, mai, position
    }
    PageAnswer: u32 { refusal, tn, block, frame }
    Changed: u32 { refusal, line }
    BurstAnswer: u32 { refusal, bit }
}

#[repr(C)]
#[derive(Clone, Copy, Debug, Default, PartialEq, Eq)]
pub struct WhoAnswer {
    pub refusal: u32,
    pub found: u32,
    pub line: u32,
    pub answer: LineAnswer,
}

/// The words of a cell. The build reads the library's own number from its source.
pub const WORDS: usize = 1029;

const OWN_WORDS: usize = match usize::from_str_radix(env!("LIBRARY_CELL_WORDS"), 10) {
    Ok(words) => words,
    Err(_) => panic!("LIBRARY_CELL_WORDS is not a number"),
};
const _: () = assert!(WORDS == OWN_WORDS);

/// The cell as C has it: storage that only the library looks into.
#[repr(C)]
#[derive(Clone, Copy, PartialEq, Eq)]
pub struct Cell {
    pub opaque: [u32; WORDS],
}

extern "C" {
    fn tdma_split(frame: u32) -> SplitAnswer;
    fn tdma_join(t1: u32, t2: u32, t3: u32) -> JoinAnswer;
    fn tdma_position(length: u32, mask: u64, hsn: u32, maio: u32, frame: u32) -> PositionAnswer;
    fn tdma_hop(
        ca: *const u16,
        ca_length: usize,
        mask: u64,
        hsn: u32,
        maio: u32,
        frame: u32,
    ) -> HopAnswer;
    fn tdma_map(combination: u32, tn: u32, frame: u32, direction: u32) -> MapAnswer;
    fn tdma_start(
        cell: *mut Cell,
        ca: *const u16,
        ca_length: usize,
        c0: u32,
        bcc: u32,
        ag: u32,
        p: u32,
    ) -> Changed;
    fn tdma_open(
        cell: *mut Cell,
        line: u32,
        tn: u32,
        mask: u64,
        hsn: u32,
        maio: u32,
        combination: u32,
        tsc: u32,
    ) -> Changed;
    fn tdma_close(cell: *mut Cell, line: u32) -> Changed;
    fn tdma_seize(cell: *mut Cell, line: u32, subchannel: u32, owner: u32) -> Changed;
    fn tdma_release(cell: *mut Cell, line: u32, subchannel: u32, owner: u32) -> Changed;
    fn tdma_line(cell: *const Cell, line: u32, frame: u32, direction: u32) -> LineAnswer;
    fn tdma_who(cell: *const Cell, tn: u32, arfcn: u32, frame: u32, direction: u32) -> WhoAnswer;
    fn tdma_page(
        cell: *const Cell,
        digits: *const u8,
        digits_length: usize,
        frame: u32,
    ) -> PageAnswer;
    fn tdma_build_normal(
        tsc: u32,
        payload: *const u8,
        payload_length: usize,
        burst: *mut u8,
        burst_length: usize,
    ) -> BurstAnswer;
    fn tdma_take_normal(
        tsc: u32,
        burst: *const u8,
        burst_length: usize,
        payload: *mut u8,
        payload_length: usize,
    ) -> BurstAnswer;
    fn tdma_build_synchronization(
        payload: *const u8,
        payload_length: usize,
        burst: *mut u8,
        burst_length: usize,
    ) -> BurstAnswer;
    fn tdma_take_synchronization(
        burst: *const u8,
        burst_length: usize,
        payload: *mut u8,
        payload_length: usize,
    ) -> BurstAnswer;
    fn tdma_build_access(
        payload: *const u8,
        payload_length: usize,
        burst: *mut u8,
        burst_length: usize,
    ) -> BurstAnswer;
    fn tdma_take_access(
        burst: *const u8,
        burst_length: usize,
        payload: *mut u8,
        payload_length: usize,
    ) -> BurstAnswer;
    fn tdma_build_frequency_correction(burst: *mut u8, burst_length: usize) -> BurstAnswer;
    fn tdma_build_dummy(burst: *mut u8, burst_length: usize) -> BurstAnswer;
}

// The library takes every value of a number and every content of a cell, so these calls are safe: a
// slice or a cell that is lent is valid and aligned, and what is lent to be written is lent alone.

#[inline]
pub fn split(frame: u32) -> SplitAnswer {
    unsafe { tdma_split(frame) }
}

#[inline]
pub fn join(t1: u32, t2: u32, t3: u32) -> JoinAnswer {
    unsafe { tdma_join(t1, t2, t3) }
}

#[inline]
pub fn position(length: u32, mask: u64, hsn: u32, maio: u32, frame: u32) -> PositionAnswer {
    unsafe { tdma_position(length, mask, hsn, maio, frame) }
}

#[inline]
pub fn hop(ca: &[u16], mask: u64, hsn: u32, maio: u32, frame: u32) -> HopAnswer {
    unsafe { tdma_hop(ca.as_ptr(), ca.len(), mask, hsn, maio, frame) }
}

#[inline]
pub fn map(combination: u32, tn: u32, frame: u32, direction: u32) -> MapAnswer {
    unsafe { tdma_map(combination, tn, frame, direction) }
}

/// Storage for start to fill.
#[inline]
pub fn unfilled() -> Cell {
    Cell {
        opaque: [u32::MAX; WORDS],
    }
}

#[inline]
pub fn start(cell: &mut Cell, ca: &[u16], c0: u32, bcc: u32, ag: u32, p: u32) -> Changed {
    unsafe { tdma_start(cell, ca.as_ptr(), ca.len(), c0, bcc, ag, p) }
}

#[inline]
pub fn open(cell: &mut Cell, line: u32, v: &Values) -> Changed {
    unsafe {
        tdma_open(
            cell,
            line,
            v.tn,
            v.mask,
            v.hsn,
            v.maio,
            v.combination,
            v.tsc,
        )
    }
}

#[inline]
pub fn close(cell: &mut Cell, line: u32) -> Changed {
    unsafe { tdma_close(cell, line) }
}

#[inline]
pub fn seize(cell: &mut Cell, line: u32, s: u32, owner: u32) -> Changed {
    unsafe { tdma_seize(cell, line, s, owner) }
}

#[inline]
pub fn release(cell: &mut Cell, line: u32, s: u32, owner: u32) -> Changed {
    unsafe { tdma_release(cell, line, s, owner) }
}

#[inline]
pub fn line(cell: &Cell, line: u32, frame: u32, direction: u32) -> LineAnswer {
    unsafe { tdma_line(cell, line, frame, direction) }
}

#[inline]
pub fn who(cell: &Cell, tn: u32, arfcn: u32, frame: u32, direction: u32) -> WhoAnswer {
    unsafe { tdma_who(cell, tn, arfcn, frame, direction) }
}

#[inline]
pub fn page(cell: &Cell, digits: &[u8], frame: u32) -> PageAnswer {
    unsafe { tdma_page(cell, digits.as_ptr(), digits.len(), frame) }
}

/// A call on bursts, with the buffer that it reads and the one that it is lent as C passes them. The
/// calls that read nothing leave `read` aside.
///
/// # Safety
/// `read` is readable and `lent` writable for its length, and they don't overlap.
#[inline]
pub unsafe fn burst_in_place(
    call: Call,
    (read, length): (*const u8, usize),
    (lent, room): (*mut u8, usize),
) -> BurstAnswer {
    match call {
        Call::BuildNormal(tsc) => tdma_build_normal(tsc, read, length, lent, room),
        Call::TakeNormal(tsc) => tdma_take_normal(tsc, read, length, lent, room),
        Call::BuildSynchronization => tdma_build_synchronization(read, length, lent, room),
        Call::TakeSynchronization => tdma_take_synchronization(read, length, lent, room),
        Call::BuildAccess => tdma_build_access(read, length, lent, room),
        Call::TakeAccess => tdma_take_access(read, length, lent, room),
        Call::BuildFrequencyCorrection => tdma_build_frequency_correction(lent, room),
        Call::BuildDummy => tdma_build_dummy(lent, room),
    }
}

#[inline]
pub fn burst(call: Call, read: &[u8], lent: &mut [u8]) -> BurstAnswer {
    let read = (read.as_ptr(), read.len());
    unsafe { burst_in_place(call, read, (lent.as_mut_ptr(), lent.len())) }
}

impl From<Answer<Counters>> for SplitAnswer {
    fn from(answer: Answer<Counters>) -> Self {
        match answer {
            Err(refusal) => SplitAnswer {
                refusal,
                ..Default::default()
            },
            Ok(now) => SplitAnswer {
                refusal: 0,
                t1: now.t1.into(),
                t2: now.t2.into(),
                t3: now.t3.into(),
                t3_prime_given: now.t3_prime().is_some().into(),
                t3_prime: now.t3_prime().unwrap_or(0) as u32,
            },
        }
    }
}

impl From<Answer<u32>> for JoinAnswer {
    fn from(answer: Answer<u32>) -> Self {
        let (refusal, frame) = answer.map_or_else(|refusal| (refusal, 0), |frame| (0, frame));
        JoinAnswer { refusal, frame }
    }
}

impl From<Answer<Place>> for PositionAnswer {
    fn from(answer: Answer<Place>) -> Self {
        match answer {
            Err(refusal) => PositionAnswer {
                refusal,
                ..Default::default()
            },
            Ok(Place { mai, position }) => PositionAnswer {
                refusal: 0,
                position,
                mai,
            },
        }
    }
}

impl From<Answer<Hop>> for HopAnswer {
    fn from(answer: Answer<Hop>) -> Self {
        match answer {
            Err(refusal) => HopAnswer {
                refusal,
                ..Default::default()
            },
            Ok(Hop {
                arfcn,
                mai,
                position,
            }) => HopAnswer {
                refusal: 0,
                arfcn,
                mai,
                position,
            },
        }
    }
}

/// A number of the second implementation, as the library answers it.
fn byte(number: u32) -> u8 {
    number.try_into().expect("a number that fits a byte")
}

impl From<Answer<&Burst>> for MapAnswer {
    fn from(answer: Answer<&Burst>) -> Self {
        let burst = match answer {
            Err(refusal) => {
                return MapAnswer {
                    refusal: byte(refusal),
                    ..Default::default()
                }
            }
            Ok(burst) => burst,
        };
        let at = |i: usize| burst.blocks.get(i).copied().unwrap_or((0, 0));
        MapAnswer {
            refusal: 0,
            channel: burst.channel as u8,
            subchannel: byte(burst.subchannel),
            blocks: burst.blocks.len() as u8,
            block: byte(at(0).0),
            place: byte(at(0).1),
            second_block: byte(at(1).0),
            second_place: byte(at(1).1),
        }
    }
}

impl From<Answer<OnAir>> for LineAnswer {
    fn from(answer: Answer<OnAir>) -> Self {
        let OnAir { hop, burst, owner } = match answer {
            Err(refusal) => {
                return LineAnswer {
                    refusal,
                    ..Default::default()
                }
            }
            Ok(on_air) => on_air,
        };
        let map = MapAnswer::from(Ok(burst));
        LineAnswer {
            refusal: 0,
            arfcn: hop.arfcn,
            owner,
            channel: map.channel.into(),
            subchannel: map.subchannel.into(),
            blocks: map.blocks.into(),
            block: map.block.into(),
            place: map.place.into(),
            second_block: map.second_block.into(),
            second_place: map.second_place.into(),
            mai: hop.mai,
            position: hop.position,
        }
    }
}

impl From<Answer<Option<Found>>> for WhoAnswer {
    fn from(answer: Answer<Option<Found>>) -> Self {
        match answer {
            Err(refusal) => WhoAnswer {
                refusal,
                ..Default::default()
            },
            Ok(None) => WhoAnswer::default(),
            Ok(Some(Found { line, on_air })) => WhoAnswer {
                refusal: 0,
                found: 1,
                line,
                answer: Ok(on_air).into(),
            },
        }
    }
}

impl From<Answer<Paged>> for PageAnswer {
    fn from(answer: Answer<Paged>) -> Self {
        match answer {
            Err(refusal) => PageAnswer {
                refusal,
                ..Default::default()
            },
            Ok(Paged { tn, block, frame }) => PageAnswer {
                refusal: 0,
                tn,
                block,
                frame,
            },
        }
    }
}

impl From<Result<(), bursts::Refused>> for BurstAnswer {
    fn from(answer: Result<(), bursts::Refused>) -> Self {
        match answer {
            Err(bursts::Refused { number, bit }) => BurstAnswer {
                refusal: number,
                bit,
            },
            Ok(()) => BurstAnswer::default(),
        }
    }
}
