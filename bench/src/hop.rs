//! Hopping: the position beside libosmocore, and the ARFCN with the check of the cell allocation in
//! each call.

use crate::timing::{contender, Line, Table};
use crate::{inputs, osmocore, INPUTS};
use tdma_tests::clock::HYPERFRAME;
use tdma_tests::hopping;
use tdma_tests::library;
use tdma_tests::random::Random;

/// The sizes of mobile allocation that are measured.
const NS: [u32; 6] = [1, 4, 7, 16, 33, 64];
/// How many radio lines the frames of a pass are spread over; few, so that no contender waits for
/// memory.
const RADIO_LINES: usize = 32;

/// A line of a cell, with its mobile allocation as a mask and as a list of CA positions.
struct RadioLine {
    ca: Vec<u16>,
    mask: u64,
    positions: Vec<u16>,
    hsn: u32,
    maio: u32,
}

/// A line with this mask in a cell allocation of `length` entries.
fn radio_line(random: &mut Random, mask: u64, length: u32, cyclic: bool) -> RadioLine {
    let positions = hopping::positions(mask).into_iter();
    RadioLine {
        ca: (1..=length as u16).collect(),
        mask,
        positions: positions.map(|position| position as u16).collect(),
        hsn: if cyclic { 0 } else { 1 + random.below(63) },
        maio: random.below(mask.count_ones()),
    }
}

/// Which line is asked for which frame.
type Asked = &'static [(&'static RadioLine, u32)];

fn asked(random: &mut Random, mut draw: impl FnMut(&mut Random) -> RadioLine) -> Asked {
    let lines = (0..RADIO_LINES).map(|_| draw(random));
    let lines: &'static [RadioLine] = lines.collect::<Vec<RadioLine>>().leak();
    inputs(|| {
        let line = &lines[random.below(RADIO_LINES as u32) as usize];
        (line, random.below(HYPERFRAME))
    })
}

/// Which bits of 64 a mask has.
#[derive(Clone, Copy)]
enum Bits {
    Lowest,
    Random,
}

fn mask(random: &mut Random, bits: Bits, n: u32) -> u64 {
    match bits {
        Bits::Lowest => u64::MAX >> (64 - n),
        Bits::Random => random.mask(n, 64),
    }
}

/// The position, in a cell allocation of 64 entries.
fn position_line(label: String, asked: Asked) -> Line {
    let contenders = vec![
        contender("library", asked, |&(l, frame)| {
            library::position(64, l.mask, l.hsn, l.maio, frame).position
        }),
        contender("libosmocore", asked, |&(l, frame)| {
            osmocore::hop(&l.positions, l.hsn, l.maio, frame)
        }),
    ];
    Line::new(label, INPUTS, contenders)
}

/// Dense and sparse masks, with the limits.
pub fn position_lines(random: &mut Random) -> Vec<Line> {
    let mut lines = Vec::new();
    for (bits, kind) in [(Bits::Lowest, "dense"), (Bits::Random, "sparse")] {
        for (cyclic, hsn) in [(false, "1 to 63"), (true, "0")] {
            lines.extend(NS.map(|n| {
                let asked = asked(random, |random| {
                    let mask = mask(random, bits, n);
                    radio_line(random, mask, 64, cyclic)
                });
                let label = format!("position, {kind} N = {n}, HSN {hsn}");
                position_line(label, asked).within(1.5, 1.0)
            }));
        }
    }
    lines
}

/// Every N, with dense and sparse masks mixed.
pub fn position_growth(random: &mut Random) -> Vec<Line> {
    let line = |n: u32| {
        let asked = asked(random, |random| {
            let bits = random.one_of(&[Bits::Lowest, Bits::Random]);
            let mask = mask(random, bits, n);
            radio_line(random, mask, 64, false)
        });
        position_line(format!("position, N = {n}, HSN 1 to 63"), asked)
    };
    NS.map(line).into()
}

/// The ARFCN, with the check of a cell allocation of N entries in each call. All of it is the mobile
/// allocation.
pub fn table(random: &mut Random) -> Table {
    let line = |n: u32| {
        let asked = asked(random, |random| {
            radio_line(random, u64::MAX >> (64 - n), n, false)
        });
        let contenders = vec![
            contender("library", asked, |&(l, frame)| {
                library::hop(&l.ca, l.mask, l.hsn, l.maio, frame).arfcn
            }),
            contender("second (lists)", asked, |&(l, frame)| {
                let hop = hopping::hop(&l.ca, l.mask, l.hsn, l.maio, frame);
                hop.unwrap().arfcn
            }),
            contender("libosmocore, unchecked", asked, |&(l, frame)| {
                osmocore::hop(&l.ca, l.hsn, l.maio, frame)
            }),
        ];
        Line::new(format!("CA of {n}, N = {n}"), INPUTS, contenders)
    };
    Table {
        title: "hopping: ARFCN, CA checked",
        lines: NS.map(line).into(),
    }
}
