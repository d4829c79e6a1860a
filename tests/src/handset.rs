//! A handset by 3GPP TS 04.08: it has got a cell's ARFCNs as a set, of which it makes its list by
//! itself, 1, 2, .., 1023 and 0 last. The bits of a mobile allocation count in that list.

use crate::library::HopAnswer;

/// A set of ARFCNs, a bit to each.
#[derive(Default)]
pub struct Arfcns([u64; 16]);

impl Arfcns {
    /// The set of these, in whatever order they come. What is no ARFCN is left out.
    pub fn of(arfcns: &[u16]) -> Arfcns {
        let mut set = Arfcns::default();
        arfcns.iter().for_each(|&arfcn| set.insert(arfcn));
        set
    }

    pub fn insert(&mut self, arfcn: u16) {
        if let Some(word) = self.0.get_mut(usize::from(arfcn / 64)) {
            *word |= 1 << (arfcn % 64);
        }
    }

    fn contains(&self, arfcn: u16) -> bool {
        let word = self.0.get(usize::from(arfcn / 64));
        word.is_some_and(|word| word >> (arfcn % 64) & 1 == 1)
    }

    /// The list that a handset makes of the set.
    pub fn list(&self) -> Vec<u16> {
        let mut list = Vec::with_capacity(64);
        for (first, word) in (0..).step_by(64).zip(self.0) {
            let mut rest = if first == 0 { word & !1 } else { word };
            while rest != 0 {
                list.push(first + rest.trailing_zeros() as u16);
                rest &= rest - 1;
            }
        }
        if self.contains(0) {
            list.push(0);
        }
        list
    }
}

/// The ARFCNs of a mobile allocation: bit p of the mask stands for entry p of the cell's list.
fn mobile_allocation(list: &[u16], mask: u64) -> Arfcns {
    let mut allocation = Arfcns::default();
    for (p, &arfcn) in list.iter().take(64).enumerate() {
        if mask >> p & 1 == 1 {
            allocation.insert(arfcn);
        }
    }
    allocation
}

/// Whether a list has the ARFCN at this place.
fn has_at(list: &[u16], place: u32, arfcn: u32) -> bool {
    let entry = list.get(place as usize);
    entry.is_some_and(|&entry| u32::from(entry) == arfcn)
}

/// Whether a handset that uses the MAI of an accepted answer gets the answered ARFCN, and the
/// position is its place in the list of the cell. Of a mask with ARFCN 0, that has MAI N - 1.
pub fn agrees(cell: &Arfcns, mask: u64, answer: HopAnswer) -> bool {
    let HopAnswer {
        arfcn,
        mai,
        position,
        ..
    } = answer;
    let of_cell = cell.list();
    let allocation = mobile_allocation(&of_cell, mask);
    let mobile = allocation.list();
    let n = mobile.len() as u32;
    n == mask.count_ones()
        && has_at(&mobile, mai, arfcn)
        && has_at(&of_cell, position, arfcn)
        && (!allocation.contains(0) || (arfcn == 0) == (mai == n - 1))
}
