//! The frame map as plain tables: the answers of each combination, timeslot and direction over its
//! period. Nothing is checked.

use tdma_tests::frame_map;
use tdma_tests::library::MapAnswer;

pub struct Tables(Vec<Vec<MapAnswer>>);

fn period(combination: u32) -> u32 {
    if combination < 4 {
        104
    } else {
        102
    }
}

impl Tables {
    pub fn new() -> Tables {
        let mut tables = Vec::new();
        for combination in 0..8 {
            for tn in 0..8 {
                for direction in 0..2 {
                    let answer = |frame| frame_map::map(combination, tn, frame, direction).into();
                    tables.push((0..period(combination)).map(answer).collect());
                }
            }
        }
        Tables(tables)
    }

    #[inline(never)]
    pub fn map(&self, combination: u32, tn: u32, frame: u32, direction: u32) -> MapAnswer {
        let table = &self.0[(16 * combination + 2 * tn + direction) as usize];
        table[(frame % period(combination)) as usize]
    }
}
