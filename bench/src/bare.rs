//! The table of lines as plain arrays, written for speed: open looks for a clash and stores, the
//! other calls store. No refusal is asked beside that, so they are only called with right inputs.

use tdma_tests::cell::{self, OpenLine, Values};
use tdma_tests::CLASH;

pub struct Bare {
    /// A bit for each open line, by timeslot.
    open: [u64; 8],
    mask: [u64; 64],
    tn: [u8; 64],
    hsn: [u8; 64],
    maio: [u8; 64],
    combination: [u8; 64],
    tsc: [u8; 64],
    owners: [[u16; 8]; 64],
}

impl Bare {
    /// The open lines of a cell whose subchannels are all free.
    pub fn of(cell: &cell::Cell) -> Bare {
        let mut bare = Bare {
            open: [0; 8],
            mask: [0; 64],
            tn: [0; 64],
            hsn: [0; 64],
            maio: [0; 64],
            combination: [0; 64],
            tsc: [0; 64],
            owners: [[0; 8]; 64],
        };
        for (&number, line) in &cell.lines {
            assert_eq!(bare.open(number, &values(cell, line)), 0);
        }
        bare
    }

    #[inline(never)]
    pub fn open(&mut self, line: u32, v: &Values) -> u32 {
        let mut rest = self.open[v.tn as usize];
        while rest != 0 {
            if self.clashes(rest.trailing_zeros() as usize, v) {
                return CLASH;
            }
            rest &= rest - 1;
        }
        let at = line as usize;
        self.open[v.tn as usize] |= 1 << line;
        self.mask[at] = v.mask;
        self.tn[at] = v.tn as u8;
        self.hsn[at] = v.hsn as u8;
        self.maio[at] = v.maio as u8;
        self.combination[at] = v.combination as u8;
        self.tsc[at] = v.tsc as u8;
        0
    }

    fn clashes(&self, at: usize, v: &Values) -> bool {
        let same_sequence = self.mask[at] == v.mask && u32::from(self.hsn[at]) == v.hsn;
        let in_step = same_sequence && u32::from(self.maio[at]) != v.maio;
        self.mask[at] & v.mask != 0 && !in_step
    }

    #[inline(never)]
    pub fn close(&mut self, line: u32) -> u32 {
        let tn = self.tn[line as usize];
        self.open[tn as usize] &= !(1 << line);
        0
    }

    #[inline(never)]
    pub fn seize(&mut self, line: u32, s: u32, owner: u32) -> u32 {
        self.owners[line as usize][s as usize] = owner as u16;
        0
    }

    #[inline(never)]
    pub fn release(&mut self, line: u32, s: u32) -> u32 {
        self.owners[line as usize][s as usize] = 0;
        0
    }

    /// Whether exactly the lines of this cell are open, with its values and owners.
    pub fn shows(&self, cell: &cell::Cell) -> bool {
        (0..64).all(|number| match cell.lines.get(&number) {
            None => self.open.iter().all(|open| open >> number & 1 == 0),
            Some(line) => self.shows_line(number as usize, line, &values(cell, line)),
        })
    }

    fn shows_line(&self, at: usize, line: &OpenLine, v: &Values) -> bool {
        let bytes = [
            (self.tn[at], v.tn),
            (self.hsn[at], v.hsn),
            (self.maio[at], v.maio),
            (self.combination[at], v.combination),
            (self.tsc[at], v.tsc),
        ];
        let open = self.open[v.tn as usize] >> at & 1 == 1;
        let mut owners = (0..).zip(self.owners[at]);
        open && self.mask[at] == v.mask
            && bytes.iter().all(|&(byte, value)| u32::from(byte) == value)
            && owners.all(|(s, owner)| u32::from(owner) == line.owner(s))
    }
}

/// The values that a line was opened with.
fn values(cell: &cell::Cell, line: &OpenLine) -> Values {
    let listed = (0..64).zip(&cell.plan.ca);
    let bits = listed.filter(|(_, arfcn)| line.ma.contains(arfcn));
    Values {
        tn: line.tn,
        mask: bits.map(|(position, _)| 1 << position).sum(),
        hsn: line.hsn,
        maio: line.maio,
        combination: line.combination,
        tsc: line.tsc,
    }
}
