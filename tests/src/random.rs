//! Random inputs that are the same in every run (splitmix64).

use crate::clock::HYPERFRAME;

pub struct Random(pub u64);

impl Random {
    pub fn word(&mut self) -> u64 {
        self.0 = self.0.wrapping_add(0x9e37_79b9_7f4a_7c15);
        let mut word = self.0;
        word = (word ^ (word >> 30)).wrapping_mul(0xbf58_476d_1ce4_e5b9);
        word = (word ^ (word >> 27)).wrapping_mul(0x94d0_49bb_1331_11eb);
        word ^ (word >> 31)
    }

    /// A number below `bound`.
    pub fn below(&mut self, bound: u32) -> u32 {
        (((self.word() >> 32) * u64::from(bound)) >> 32) as u32
    }

    /// True once in `times`.
    pub fn once_in(&mut self, times: u32) -> bool {
        self.below(times) == 0
    }

    pub fn one_of<T: Copy>(&mut self, values: &[T]) -> T {
        values[self.below(values.len() as u32) as usize]
    }

    pub fn bytes(&mut self, count: usize) -> Vec<u8> {
        let words = count.div_ceil(8);
        let mut bytes: Vec<u8> = (0..words).flat_map(|_| self.word().to_le_bytes()).collect();
        bytes.truncate(count);
        bytes
    }

    /// Bits, one to a byte.
    pub fn bits(&mut self, count: usize) -> Vec<u8> {
        let bytes = self.bytes(count).into_iter();
        bytes.map(|byte| byte & 1).collect()
    }

    /// `count` different numbers below `bound`, ascending.
    pub fn choose(&mut self, count: u32, bound: u32) -> Vec<u32> {
        let mut chosen = Vec::with_capacity(count as usize);
        for number in 0..bound {
            if self.below(bound - number) < count - chosen.len() as u32 {
                chosen.push(number);
            }
        }
        chosen
    }

    /// A mask with `ones` ones below `length`.
    pub fn mask(&mut self, ones: u32, length: u32) -> u64 {
        self.choose(ones, length)
            .into_iter()
            .map(|position| 1 << position)
            .sum()
    }

    /// A cell allocation of `length` entries. About one in four has ARFCN 0, last and in place of
    /// its lowest one: those whose entries have a sum that 4 divides, so that no more is drawn.
    pub fn cell_allocation(&mut self, length: u32) -> Vec<u16> {
        let chosen = self.choose(length, 1024).into_iter();
        let mut ca: Vec<u16> = chosen.map(|arfcn| arfcn as u16).collect();
        let sum: u32 = ca.iter().map(|&arfcn| u32::from(arfcn)).sum();
        if ca[0] == 0 || sum % 4 == 0 {
            ca.remove(0);
            ca.push(0);
        }
        ca
    }

    /// A frame: one in four near the end of the hyperframe.
    pub fn frame(&mut self) -> u32 {
        if self.once_in(4) {
            HYPERFRAME - 1 - self.below(200)
        } else {
            self.below(HYPERFRAME)
        }
    }
}
