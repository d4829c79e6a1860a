//! Bursts: the library beside the rows of the second implementation, on valid and on odd calls. The
//! two buffers of a call lie in an arena of random bytes, all of which is compared: the bytes around
//! the buffers and those that are read stay as they were, and so do the lent ones if the call is
//! refused.

use std::collections::BTreeMap;
use std::ops::Range;
use tdma_tests::bursts::Call::{self, *};
use tdma_tests::bursts::{Bit, Refused};
use tdma_tests::library::{self, BurstAnswer};
use tdma_tests::random::Random;
use tdma_tests::{FIXED_BIT, MALFORMED, OUT_OF_RANGE};

/// How many random bytes stand before, between and behind the buffers, at least.
const GUARD: usize = 64;
/// Lengths up to this one are all tried.
const LONGEST: usize = 200;
/// How many payloads each kind of burst gets; there are ten kinds with a payload.
const PAYLOADS: usize = 10_000;
/// How many calls of any sort are made.
const MIXED: usize = 1_000_000;

/// The eight calls, normal bursts with this training sequence code.
fn calls(tsc: u32) -> [Call; 8] {
    [
        BuildNormal(tsc),
        TakeNormal(tsc),
        BuildSynchronization,
        TakeSynchronization,
        BuildAccess,
        TakeAccess,
        BuildFrequencyCorrection,
        BuildDummy,
    ]
}

/// How each kind of burst with a payload is built and taken apart.
fn kinds() -> Vec<(Call, Call)> {
    let mut kinds: Vec<_> = (0..8)
        .map(|tsc| (BuildNormal(tsc), TakeNormal(tsc)))
        .collect();
    kinds.push((BuildSynchronization, TakeSynchronization));
    kinds.push((BuildAccess, TakeAccess));
    kinds
}

/// Every call that reads a buffer.
fn readers() -> Vec<Call> {
    let both = kinds().into_iter().map(|(build, take)| [build, take]);
    both.flatten().collect()
}

/// The two buffers of a call in one allocation, either of them first, with random bytes around them
/// and in the lent one.
#[derive(Clone)]
struct Arena {
    bytes: Vec<u8>,
    read: Range<usize>,
    lent: Range<usize>,
}

impl Arena {
    fn new(random: &mut Random, read: &[u8], room: usize) -> Arena {
        let starts = [0; 2].map(|_| GUARD + random.below(8) as usize);
        let lent_first = random.once_in(2);
        let lengths = match lent_first {
            true => (room, read.len()),
            false => (read.len(), room),
        };
        let first = starts[0]..starts[0] + lengths.0;
        let second = first.end + starts[1]..first.end + starts[1] + lengths.1;
        let mut bytes = random.bytes(second.end + GUARD);
        let (at, lent) = match lent_first {
            true => (second, first),
            false => (first, second),
        };
        bytes[at.clone()].copy_from_slice(read);
        Arena {
            bytes,
            read: at,
            lent,
        }
    }

    /// Makes the call on the library. The pointers are plain ones into the whole allocation, so that
    /// a byte which is written where it should not be is seen afterwards.
    fn library(&mut self, call: Call) -> BurstAnswer {
        let bytes = self.bytes.as_mut_ptr();
        unsafe {
            let read = bytes.add(self.read.start).cast_const();
            let lent = bytes.add(self.lent.start);
            library::burst_in_place(call, (read, self.read.len()), (lent, self.lent.len()))
        }
    }

    /// Makes the call on the second implementation, which can write to the lent buffer alone.
    fn second(&mut self, call: Call) -> Result<(), Refused> {
        let read = self.bytes[self.read.clone()].to_vec();
        call.make(&read, &mut self.bytes[self.lent.clone()])
    }

    fn lent(&self) -> Vec<u8> {
        self.bytes[self.lent.clone()].to_vec()
    }
}

/// Makes a call on both, with these bytes to read and so much room to write. The answers are equal
/// and so are the arenas afterwards. Gives the answer, and what the lent buffer then holds.
fn compare(random: &mut Random, call: Call, read: &[u8], room: usize) -> (BurstAnswer, Vec<u8>) {
    let before = Arena::new(random, read, room);
    let (mut told, mut expected) = (before.clone(), before.clone());
    let answer = told.library(call);
    let about = || format!("{call:?}, room {room}, read {}: {read:?}", read.len());
    assert_eq!(answer, expected.second(call).into(), "{}", about());
    assert!(told.bytes == expected.bytes, "other bytes: {}", about());
    let kept = told.bytes == before.bytes;
    assert!(answer.refusal == 0 || kept, "refused: {}", about());
    (answer, told.lent())
}

/// Compares a call with as much room as it needs, which gives this refusal and bit number.
fn refused(random: &mut Random, call: Call, read: &[u8], refusal: u32, bit: usize) {
    let (answer, _) = compare(random, call, read, call.lengths().1);
    let bit = bit as u32;
    assert_eq!(answer, BurstAnswer { refusal, bit }, "{call:?}, {read:?}");
}

/// Compares a call with as much room as it needs, which is accepted, and gives what it writes.
fn accepted(random: &mut Random, call: Call, read: &[u8]) -> Vec<u8> {
    let (answer, written) = compare(random, call, read, call.lengths().1);
    assert_eq!(answer, BurstAnswer::default(), "{call:?}, {read:?}");
    written
}

/// What a call accepts: random bits, or a burst with a random payload.
fn right(random: &mut Random, call: Call) -> Vec<u8> {
    let build = match call {
        TakeNormal(tsc) => BuildNormal(tsc % 8),
        TakeSynchronization => BuildSynchronization,
        TakeAccess => BuildAccess,
        _ => return random.bits(call.lengths().0),
    };
    let mut burst = vec![0; build.lengths().1];
    let payload = random.bits(build.lengths().0);
    build.make(&payload, &mut burst).unwrap();
    burst
}

/// The bit numbers of the fixed bits.
fn fixed_bits(call: Call) -> Vec<usize> {
    let row = call.row().unwrap().iter().enumerate();
    let fixed = row.filter(|(_, bit)| matches!(bit, Bit::Fixed(_)));
    fixed.map(|(at, _)| at).collect()
}

/// Builds a burst, takes it apart and builds it again: both ways lead back.
fn there_and_back(random: &mut Random, (build, take): (Call, Call), payload: &[u8]) {
    let burst = accepted(random, build, payload);
    let taken = accepted(random, take, &burst);
    assert_eq!(taken, payload, "{take:?}");
    assert_eq!(accepted(random, build, &taken), burst, "{build:?}");
}

#[test]
fn bursts_are_built_and_taken_apart() {
    let mut random = Random(30);
    for kind in kinds() {
        for _ in 0..PAYLOADS {
            let payload = random.bits(kind.0.lengths().0);
            there_and_back(&mut random, kind, &payload);
        }
    }
}

/// A payload with one 1, and one with one 0, for each payload bit; all 0 and all 1.
#[test]
fn each_payload_bit_has_its_place() {
    let mut random = Random(31);
    for kind in kinds() {
        for bit in [0, 1] {
            let mut payload = vec![bit; kind.0.lengths().0];
            there_and_back(&mut random, kind, &payload);
            for at in 0..payload.len() {
                payload[at] = 1 - bit;
                there_and_back(&mut random, kind, &payload);
                payload[at] = bit;
            }
        }
    }
}

#[test]
fn bursts_without_a_payload() {
    let mut random = Random(32);
    for _ in 0..1000 {
        let frequency_correction = accepted(&mut random, BuildFrequencyCorrection, &[]);
        assert_eq!(frequency_correction, [0; 148]);
        accepted(&mut random, BuildDummy, &[]);
    }
}

/// Four bits to a digit, the first bit highest.
fn hexadecimal(bits: &[u8]) -> String {
    let digit = |bits: &[u8]| bits.iter().fold(0, |digit, bit| 2 * digit + bit);
    let digits = bits.chunks(4).map(|bits| format!("{:X}", digit(bits)));
    digits.collect()
}

/// The fixed bits that document 01 prints.
#[test]
fn values_of_document_01() {
    let mut random = Random(33);
    let mut built = |call: Call| {
        let payload = right(&mut random, call);
        accepted(&mut random, call, &payload)
    };
    let codes = "25C2 2DDE 43BA 47B4 1AE4 4EB0 A7D8 EF12";
    for (tsc, code) in (0..8).zip(codes.split(' ')) {
        let burst = built(BuildNormal(tsc));
        assert_eq!(hexadecimal(&burst[61..77]), code);
        assert_eq!(burst[77..87], burst[61..71]);
    }
    let synchronization = built(BuildSynchronization);
    assert_eq!(hexadecimal(&synchronization[42..106]), "B962040F2D45761B");
    let access = built(BuildAccess);
    assert_eq!(hexadecimal(&access[8..48]), "4B7F99AA3C");
    assert_eq!(access[48], 0);
    let dummy = built(BuildDummy);
    let mixed = "FB760A4E09101F1C5C5C574A3339E9F12F";
    assert_eq!(hexadecimal(&dummy[3..139]), mixed);
    assert_eq!(dummy[139..145], [1, 0, 1, 0, 1, 0]);
}

/// Each bit of a burst flipped alone: a fixed bit is named, a payload bit comes out flipped.
#[test]
fn each_flipped_bit() {
    let mut random = Random(34);
    for (_, take) in kinds() {
        let (mut burst, fixed) = (right(&mut random, take), fixed_bits(take));
        for at in 0..burst.len() {
            burst[at] ^= 1;
            if fixed.contains(&at) {
                refused(&mut random, take, &burst, FIXED_BIT, at);
            } else {
                accepted(&mut random, take, &burst);
            }
            burst[at] ^= 1;
        }
        let payload = take.lengths().1;
        assert_eq!(fixed.len() + payload, burst.len());
    }
}

/// Compares a burst that has these bits flipped: the lowest fixed one of them is named.
fn flipped(random: &mut Random, take: Call, burst: &mut [u8], fixed: &[usize], flips: &[usize]) {
    flips.iter().for_each(|&at| burst[at] ^= 1);
    let wrong = flips.iter().filter(|at| fixed.contains(at)).min();
    match wrong {
        Some(&lowest) => refused(random, take, burst, FIXED_BIT, lowest),
        None => drop(accepted(random, take, burst)),
    }
    flips.iter().for_each(|&at| burst[at] ^= 1);
}

#[test]
fn every_two_flipped_bits() {
    let mut random = Random(35);
    for (_, take) in kinds() {
        let (mut burst, fixed) = (right(&mut random, take), fixed_bits(take));
        for one in 0..burst.len() {
            for other in 0..one {
                flipped(&mut random, take, &mut burst, &fixed, &[one, other]);
            }
        }
    }
}

#[test]
fn many_flipped_bits() {
    let mut random = Random(36);
    for (_, take) in kinds() {
        let (mut burst, fixed) = (right(&mut random, take), fixed_bits(take));
        for _ in 0..3_000 {
            let (count, length) = (3 + random.below(20), burst.len() as u32);
            let flips = random.choose(count, length).into_iter();
            let flips: Vec<usize> = flips.map(|at| at as usize).collect();
            flipped(&mut random, take, &mut burst, &fixed, &flips);
        }
    }
}

/// A normal burst of each code, taken apart with each other code.
#[test]
fn another_training_sequence_code() {
    let mut random = Random(37);
    for built in 0..8 {
        for asked in (0..8).filter(|&asked| asked != built) {
            let burst = right(&mut random, TakeNormal(built));
            let (answer, _) = compare(&mut random, TakeNormal(asked), &burst, 116);
            assert_eq!(answer.refusal, FIXED_BIT);
            assert!((61..=86).contains(&answer.bit));
        }
    }
}

/// What a call accepts, cut off or gone on with from its start to have this length.
fn stretched(right: &[u8], length: usize) -> Vec<u8> {
    right.iter().copied().cycle().take(length).collect()
}

/// Compares a call with buffers of these lengths, which are all that can be wrong.
fn with_lengths(random: &mut Random, call: Call, right: &[u8], (length, room): (usize, usize)) {
    let read = stretched(right, length);
    let (answer, _) = compare(random, call, &read, room);
    let malformed = (length, room) != call.lengths();
    let refusal = if malformed { MALFORMED } else { 0 };
    assert_eq!(answer.refusal, refusal, "{call:?}, {length}, {room}");
}

#[test]
fn every_length_of_both_buffers() {
    let mut random = Random(38);
    for length in 0..=LONGEST {
        for call in calls(random.below(8)) {
            let right = right(&mut random, call);
            let longest = if right.is_empty() { 0 } else { LONGEST };
            for read in 0..=longest {
                with_lengths(&mut random, call, &right, (read, length));
            }
        }
    }
}

/// Lengths that are right if they are cut to a byte or to two.
#[test]
fn lengths_far_above() {
    let mut random = Random(39);
    for call in calls(3) {
        let (right, (read, room)) = (right(&mut random, call), call.lengths());
        for more in [256, 512, 65_536, 65_536 + 256, 1 << 20] {
            with_lengths(&mut random, call, &right, (read, room + more));
            if read > 0 {
                with_lengths(&mut random, call, &right, (read + more, room));
                with_lengths(&mut random, call, &right, (read + more, room + more));
            }
        }
    }
}

/// Empty buffers have a pointer that is not null and that nothing can be read from.
#[test]
fn empty_buffers() {
    let mut random = Random(40);
    for (tsc, refusal) in [(0, MALFORMED), (7, MALFORMED), (8, OUT_OF_RANGE)] {
        for call in calls(tsc) {
            let normal = matches!(call, BuildNormal(_) | TakeNormal(_));
            let refusal = if normal { refusal } else { MALFORMED };
            let (mut lent, read) = (random.bytes(call.lengths().1), right(&mut random, call));
            let before = lent.clone();
            let told = [
                library::burst(call, &[], &mut []),
                library::burst(call, &read, &mut []),
            ];
            assert_eq!(told, [BurstAnswer { refusal, bit: 0 }; 2], "{call:?}");
            if !read.is_empty() {
                let told = library::burst(call, &[], &mut lent);
                assert_eq!(told, BurstAnswer { refusal, bit: 0 }, "{call:?}");
                assert_eq!(lent, before);
            }
        }
    }
}

/// A wrong length of either buffer comes before each wrong fixed bit.
#[test]
fn lengths_before_fixed_bits() {
    let mut random = Random(44);
    for (_, take) in kinds() {
        let (length, room) = take.lengths();
        for at in fixed_bits(take) {
            let mut burst = right(&mut random, take);
            burst[at] ^= 1;
            for wrong in [0, 1, room - 1, room + 1, length, 256 + room] {
                with_lengths(&mut random, take, &burst, (length, wrong));
            }
            for wrong in [at + 1, length - 1, length + 1, 256 + length] {
                with_lengths(&mut random, take, &burst, (wrong, room + 1));
            }
        }
    }
}

/// The same call with a training sequence code out of range, if it has one.
fn with_tsc(call: Call, tsc: u32) -> Option<Call> {
    match call {
        BuildNormal(_) => Some(BuildNormal(tsc)),
        TakeNormal(_) => Some(TakeNormal(tsc)),
        _ => None,
    }
}

/// A byte above 1 comes before a wrong fixed bit, and after a training sequence code out of range.
fn byte_above_1(random: &mut Random, call: Call, read: &mut [u8]) {
    refused(random, call, read, MALFORMED, 0);
    if let Some(odd) = with_tsc(call, 8 + random.below(256)) {
        refused(random, odd, read, OUT_OF_RANGE, 0);
    }
    if call.is_take() {
        let fixed = fixed_bits(call);
        for at in [fixed[0], fixed[fixed.len() - 1], random.one_of(&fixed)] {
            read[at] ^= 1;
            refused(random, call, read, MALFORMED, 0);
            read[at] ^= 1;
        }
    }
    let short = &read[..read.len() - 1];
    refused(random, call, short, MALFORMED, 0);
}

#[test]
fn bytes_above_1() {
    let mut random = Random(41);
    for call in readers() {
        for at in 0..call.lengths().0 {
            let mut read = right(&mut random, call);
            for byte in [2, 255, 3, 16, 48, 49, 127, 128, 129, 254] {
                read[at] = byte;
                byte_above_1(&mut random, call, &mut read);
            }
        }
    }
}

/// Codes out of range, those among them that a cut to a few bits, a byte or two would let pass.
fn codes_above_7() -> Vec<u32> {
    let cut = [8, 16, 32, 64, 128, 256, 1 << 16, 1 << 24, 1 << 31];
    let mut codes: Vec<u32> = cut.iter().flat_map(|&from| from..from + 8).collect();
    codes.extend([255, u32::MAX - 7, u32::MAX - 1, u32::MAX]);
    codes
}

/// Compares a call whose code is out of range, which comes before all else that can be wrong.
fn code_above_7(random: &mut Random, call: Call) {
    let right = right(random, call);
    refused(random, call, &right, OUT_OF_RANGE, 0);
    for at in 0..right.len() {
        let mut read = right.clone();
        for byte in [1 - right[at], 2, 255] {
            read[at] = byte;
            refused(random, call, &read, OUT_OF_RANGE, 0);
        }
    }
    for (length, room) in [(0, 0), (1, 1), (115, 147), (116, 116), (148, 148)] {
        let (answer, _) = compare(random, call, &stretched(&right, length), room);
        assert_eq!(answer.refusal, OUT_OF_RANGE, "{call:?}, {length}, {room}");
    }
}

#[test]
fn training_sequence_codes_above_7() {
    let mut random = Random(42);
    for tsc in codes_above_7() {
        code_above_7(&mut random, BuildNormal(tsc));
        code_above_7(&mut random, TakeNormal(tsc));
    }
}

/// A code that is in range five times of six.
fn draw_tsc(random: &mut Random) -> u32 {
    match random.below(12) {
        0 => random.word() as u32,
        1 => random.one_of(&codes_above_7()),
        _ => random.below(8),
    }
}

/// What a call may be given to read: often right, else with some bits flipped, bytes above 1 or
/// another length, or any bytes.
fn draw_read(random: &mut Random, call: Call) -> Vec<u8> {
    let mut read = right(random, call);
    let length = read.len() as u32;
    if length == 0 {
        return read;
    }
    for (times, most) in [(3, 1), (3, 255)] {
        while random.once_in(times) {
            let at = random.below(length) as usize;
            read[at] ^= 1 + random.below(most) as u8;
        }
    }
    match random.below(12) {
        0 => stretched(&read, random.below(LONGEST as u32) as usize),
        1 => stretched(&read, length as usize - 1 + 2 * random.below(2) as usize),
        2 => random.bytes(length as usize),
        3 => random.bits(length as usize),
        _ => read,
    }
}

fn draw_room(random: &mut Random, call: Call) -> usize {
    match random.below(12) {
        0 => random.below(LONGEST as u32) as usize,
        1 => call.lengths().1 - 1 + 2 * random.below(2) as usize,
        _ => call.lengths().1,
    }
}

/// Calls of any sort. Each condition of a refusal holds with and without each other that it can hold
/// with: byte and length by themselves in every call that reads; the code in those of a normal
/// burst; and a fixed bit in those that take a burst apart, where the code is in range.
#[test]
fn calls_of_any_sort() {
    let (mut random, mut tally) = (Random(43), BTreeMap::new());
    for _ in 0..MIXED {
        let kind = random.below(8) as usize;
        let call = calls(draw_tsc(&mut random))[kind];
        let read = draw_read(&mut random, call);
        let room = draw_room(&mut random, call);
        compare(&mut random, call, &read, room);
        let causes = call.causes(&read, &vec![0; room]);
        *tally.entry((kind, causes)).or_insert(0) += 1;
    }
    let met = |kind| tally.keys().filter(|key| key.0 == kind).count();
    let sorts: Vec<usize> = (0..8).map(met).collect();
    assert_eq!(sorts, [8, 8 + 4, 4, 8, 4, 8, 2, 2]);
    let fewest = tally.values().min().unwrap();
    println!("fewest of a sort: {fewest}");
    assert!(*fewest > 100);
}
