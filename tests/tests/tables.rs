//! The words of the frame map's two tables, made from the second implementation. Where a combination
//! changes, the arms that the failing test prints are the new table.

use tdma_tests::frame_map::map;
use tdma_tests::library::MapAnswer;

const SOURCES: &str = concat!(env!("CARGO_MANIFEST_DIR"), "/../crates/tables/src/");

/// Compares the arms `key => word` of the source file with these words, keys from 0 on.
fn compare(file: &str, words: Vec<String>) {
    let source = std::fs::read_to_string(format!("{SOURCES}{file}")).unwrap();
    let arms = source.lines().filter(|line| line.contains("=> 0x"));
    let arms: Vec<&str> = arms.map(str::trim).collect();
    let made = words.iter().enumerate();
    let made: Vec<String> = made
        .map(|(key, word)| format!("{key} => 0x{word},"))
        .collect();
    assert!(arms == made, "{file} should have\n{}", made.join("\n"));
}

fn answer(combination: u32, frame: u32, direction: u32) -> MapAnswer {
    map(combination, 0, frame, direction).into()
}

/// 4 * block + place, the subchannel and the channel, in four digits.
fn digits(frame: MapAnswer) -> String {
    let place = 4 * frame.block + frame.place;
    format!("{place:02x}{:x}{:x}", frame.subchannel, frame.channel)
}

#[test]
fn four_frames_to_a_word() {
    let mut words = Vec::new();
    for combination in 4..8 {
        for direction in 0..2 {
            for first in (0..102).step_by(4) {
                let frames = (first..first + 4).rev();
                let frames = frames.map(|frame| digits(answer(combination, frame, direction)));
                words.push(frames.collect::<Vec<String>>().join("_"));
            }
        }
    }
    compare("control.rt", words);
}

#[test]
fn eight_bytes_to_a_frame() {
    let mut words = Vec::new();
    for combination in 1..3 {
        for h in 0..26 {
            let told = answer(combination, h, 0);
            let second = [told.second_place, told.second_block];
            let first = [told.place, told.block, told.blocks];
            let channel = [told.subchannel, told.channel, told.refusal];
            let bytes = second.iter().chain(&first).chain(&channel);
            let bytes = bytes.map(|byte| format!("{byte:02x}"));
            words.push(bytes.collect::<Vec<String>>().join("_"));
        }
    }
    compare("traffic.rt", words);
}
