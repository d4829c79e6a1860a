//! Frequency hopping by lists: the mobile allocation is the list of its CA positions, and N is the
//! length of that list.

use crate::clock::{split, Counters};
use crate::{refuse, Answer, CELL_ALLOCATION, MAIO, MOBILE_ALLOCATION, OUT_OF_RANGE};

/// RNTABLE as clause 6.2.3 prints it, ten to a row. Typed from source document 000; in source
/// document 001 only two commas of the last row are damaged.
#[rustfmt::skip]
pub const RNTABLE: [&[u32]; 12] = [
    &[48, 98, 63, 1, 36, 95, 78, 102, 94, 73],
    &[0, 64, 25, 81, 76, 59, 124, 23, 104, 100],
    &[101, 47, 118, 85, 18, 56, 96, 86, 54, 2],
    &[80, 34, 127, 13, 6, 89, 57, 103, 12, 74],
    &[55, 111, 75, 38, 109, 71, 112, 29, 11, 88],
    &[87, 19, 3, 68, 110, 26, 33, 31, 8, 45],
    &[82, 58, 40, 107, 32, 5, 106, 92, 62, 67],
    &[77, 108, 122, 37, 60, 66, 121, 42, 51, 126],
    &[117, 114, 4, 90, 43, 52, 53, 113, 120, 72],
    &[16, 49, 7, 79, 119, 61, 22, 84, 9, 97],
    &[91, 15, 21, 24, 46, 39, 93, 105, 65, 70],
    &[125, 99, 17, 123],
];

/// The CA positions that a mask stands for, lowest first.
pub fn positions(mask: u64) -> Vec<u32> {
    let mut rest = mask;
    let mut list = Vec::new();
    for position in 0..64 {
        if rest % 2 == 1 {
            list.push(position);
        }
        rest /= 2;
    }
    list
}

/// NBIN, by writing the number in binary digits and counting them.
pub fn binary_digits(number: u32) -> u32 {
    let mut rest = number;
    let mut digits = 0;
    while rest > 0 {
        rest /= 2;
        digits += 1;
    }
    digits
}

/// The address in RNTABLE that a frame reads.
pub fn address(hsn: u32, now: Counters) -> usize {
    (hsn ^ (now.t1 as u32 % 64)) as usize + now.t3 as usize
}

/// M, M' and T' of a frame and N.
#[derive(Clone, Copy, Debug, PartialEq, Eq)]
pub struct Numbers {
    pub n: u32,
    pub m: u32,
    pub m_reduced: u32,
    pub t_reduced: u32,
}

impl Numbers {
    /// From a table entry, the frame's T2 and T3, and N.
    pub fn new(entry: u32, t2: u32, t3: u32, n: u32) -> Numbers {
        let power = (0..binary_digits(n)).fold(1, |power, _| power * 2);
        let m = t2 + entry;
        Numbers {
            n,
            m,
            m_reduced: m % power,
            t_reduced: t3 % power,
        }
    }

    /// By the entry of RNTABLE that a frame reads.
    pub fn of(hsn: u32, now: Counters, n: u32) -> Numbers {
        let address = address(hsn, now);
        let entry = RNTABLE[address / 10][address % 10];
        Numbers::new(entry, now.t2.into(), now.t3.into(), n)
    }

    /// M' + T'.
    pub fn sum(self) -> u32 {
        self.m_reduced + self.t_reduced
    }

    /// S.
    pub fn s(self) -> u32 {
        match self.m_reduced < self.n {
            true => self.m_reduced,
            false => self.sum() % self.n,
        }
    }
}

/// MAI.
fn mobile_allocation_index(n: u32, hsn: u32, maio: u32, frame: u32, now: Counters) -> u32 {
    if hsn == 0 {
        return (frame + maio) % n;
    }
    (Numbers::of(hsn, now, n).s() + maio) % n
}

/// A place in the list of positions, which is MAI, and the position that stands there.
#[derive(Clone, Copy, Debug, PartialEq, Eq)]
pub struct Place {
    pub mai: u32,
    pub position: u32,
}

/// The place in a cell allocation of `length` entries.
pub fn position(length: u32, mask: u64, hsn: u32, maio: u32, frame: u32) -> Answer<Place> {
    let list = positions(mask);
    let n = list.len() as u32;
    let above = list.iter().any(|&position| position >= length);
    refuse(&[
        (MAIO, maio >= n),
        (MOBILE_ALLOCATION, list.is_empty() || above),
        (OUT_OF_RANGE, hsn > 63 || split(frame).is_err()),
        (CELL_ALLOCATION, !(1..=64).contains(&length)),
    ])?;
    let mai = mobile_allocation_index(n, hsn, maio, frame, split(frame)?);
    let position = list[mai as usize];
    Ok(Place { mai, position })
}

/// Where a cell allocation has an ARFCN: 1, 2, .., 1023 as they are, and 0 behind them (document
/// 02, No. 3).
fn rank(arfcn: u16) -> u16 {
    match arfcn {
        0 => 1024,
        _ => arfcn,
    }
}

/// Whether these are 1 to 64 ARFCNs, each once and in the order 1, 2, .., 1023, 0.
pub fn is_cell_allocation(ca: &[u16]) -> bool {
    let in_order = ca.windows(2).all(|pair| rank(pair[0]) < rank(pair[1]));
    (1..=64).contains(&ca.len()) && in_order && ca.iter().all(|&arfcn| arfcn <= 1023)
}

/// What a line is tuned to in a frame: the ARFCN, MAI, and the CA position that has the ARFCN.
#[derive(Clone, Copy, Debug, PartialEq, Eq)]
pub struct Hop {
    pub arfcn: u32,
    pub mai: u32,
    pub position: u32,
}

/// The hop of a line in a frame, with the cell allocation checked.
pub fn hop(ca: &[u16], mask: u64, hsn: u32, maio: u32, frame: u32) -> Answer<Hop> {
    refuse(&[(CELL_ALLOCATION, !is_cell_allocation(ca))])?;
    let Place { mai, position } = position(ca.len() as u32, mask, hsn, maio, frame)?;
    let arfcn = ca[position as usize].into();
    Ok(Hop {
        arfcn,
        mai,
        position,
    })
}
