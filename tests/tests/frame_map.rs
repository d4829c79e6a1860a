//! The frame map: the library beside the painted tables.

use tdma_tests::clock::HYPERFRAME;
use tdma_tests::frame_map::{map, COMBINATIONS, FRAMES};
use tdma_tests::library::{self, MapAnswer};
use tdma_tests::random::Random;
use tdma_tests::OUT_OF_RANGE;

fn compare(combination: u32, tn: u32, frame: u32, direction: u32) -> MapAnswer {
    let answer = library::map(combination, tn, frame, direction);
    let second = MapAnswer::from(map(combination, tn, frame, direction));
    assert_eq!(
        answer, second,
        "combination {combination}, TN {tn}, FN {frame}, direction {direction}"
    );
    answer
}

#[test]
fn every_combination_timeslot_and_direction_over_all_periods() {
    let mut seen = [0; 9];
    for combination in COMBINATIONS {
        for tn in 0..8 {
            for direction in 0..2 {
                for frame in (0..FRAMES).chain(HYPERFRAME - FRAMES..HYPERFRAME) {
                    seen[compare(combination, tn, frame, direction).channel as usize] += 1;
                }
            }
        }
    }
    assert!(
        seen.iter().all(|&count| count > 0),
        "a channel never stood: {seen:?}"
    );
}

#[test]
fn frames_of_the_whole_hyperframe() {
    let mut random = Random(1);
    for _ in 0..4_000_000 {
        let combination = random.one_of(&COMBINATIONS);
        compare(
            combination,
            random.below(8),
            random.frame(),
            random.below(2),
        );
    }
}

#[test]
fn no_other_combination_is_known() {
    let refused = MapAnswer {
        refusal: OUT_OF_RANGE as u8,
        ..Default::default()
    };
    for combination in (0..=300).chain([65_537, 1 << 31, u32::MAX - 1, u32::MAX]) {
        for frame in [0, 1, 12, 51, HYPERFRAME - 1] {
            let known = [1, 2, 4, 5, 6, 7].contains(&combination);
            assert_eq!(
                compare(combination, 0, frame, 0) != refused,
                known,
                "{combination}"
            );
        }
    }
}

#[test]
fn what_is_out_of_range_is_refused() {
    let refused = MapAnswer {
        refusal: OUT_OF_RANGE as u8,
        ..Default::default()
    };
    let large = [1 << 8, 1 << 16, 1 << 31, u32::MAX];
    for combination in COMBINATIONS.into_iter().chain([0, 3, 8]).chain(large) {
        for tn in [0, 5, 7, 8, 9].into_iter().chain(large) {
            for frame in [0, 13, HYPERFRAME - 1, HYPERFRAME, HYPERFRAME + 13, u32::MAX] {
                for direction in [0, 1, 2, 3].into_iter().chain(large) {
                    let answer = compare(combination, tn, frame, direction);
                    let out = tn > 7 || frame >= HYPERFRAME || direction > 1;
                    assert!(answer == refused || !out);
                }
            }
        }
    }
}
