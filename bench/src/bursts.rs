//! Bursts: each kind built and taken apart, beside the rows of the second implementation and beside a
//! memcpy of the fields: to build, of a ready burst and then of the payload into it; to take apart,
//! of the payload out of the burst. That one checks nothing.
//!
//! What is written stays in the contender's own buffer, which is kept in memory.

use crate::timing::{contender, Contender, Line, Table};
use crate::{inputs, INPUTS};
use std::hint::black_box;
use std::ptr::copy_nonoverlapping;
use tdma_tests::bursts::Call::{self, *};
use tdma_tests::library::{self, BurstAnswer};
use tdma_tests::random::Random;

/// How many payloads the calls of a pass are spread over; few, so that no contender waits for memory.
const PAYLOADS: usize = 32;

/// Calls of one kind, and what each reads.
type Asked = &'static [(Call, &'static [u8])];

/// Bursts with every fixed bit in place, to put a payload into.
struct Ready {
    normal: [[u8; 148]; 8],
    synchronization: [u8; 148],
    access: [u8; 88],
    frequency_correction: [u8; 148],
    dummy: [u8; 148],
}

/// The burst that the second implementation builds from a payload of zeros.
fn built<const N: usize>(build: Call) -> [u8; N] {
    let mut burst = [0; N];
    build.make(&vec![0; build.lengths().0], &mut burst).unwrap();
    burst
}

impl Ready {
    fn new() -> Ready {
        Ready {
            normal: [0, 1, 2, 3, 4, 5, 6, 7].map(|tsc| built(BuildNormal(tsc))),
            synchronization: built(BuildSynchronization),
            access: built(BuildAccess),
            frequency_correction: built(BuildFrequencyCorrection),
            dummy: built(BuildDummy),
        }
    }

    /// Copies the fields, and does nothing else.
    ///
    /// # Safety
    /// The buffers have the call's lengths, and its code is in range.
    #[inline(never)]
    unsafe fn copy_fields(&self, call: Call, read: *const u8, lent: *mut u8) {
        match call {
            BuildNormal(tsc) => {
                let ready = self.normal.get_unchecked(tsc as usize);
                copy_nonoverlapping(ready.as_ptr(), lent, 148);
                copy_nonoverlapping(read, lent.add(3), 58);
                copy_nonoverlapping(read.add(58), lent.add(87), 58);
            }
            TakeNormal(_) => {
                copy_nonoverlapping(read.add(3), lent, 58);
                copy_nonoverlapping(read.add(87), lent.add(58), 58);
            }
            BuildSynchronization => {
                copy_nonoverlapping(self.synchronization.as_ptr(), lent, 148);
                copy_nonoverlapping(read, lent.add(3), 39);
                copy_nonoverlapping(read.add(39), lent.add(106), 39);
            }
            TakeSynchronization => {
                copy_nonoverlapping(read.add(3), lent, 39);
                copy_nonoverlapping(read.add(106), lent.add(39), 39);
            }
            BuildAccess => {
                copy_nonoverlapping(self.access.as_ptr(), lent, 88);
                copy_nonoverlapping(read, lent.add(49), 36);
            }
            TakeAccess => copy_nonoverlapping(read.add(49), lent, 36),
            BuildFrequencyCorrection => {
                copy_nonoverlapping(self.frequency_correction.as_ptr(), lent, 148)
            }
            BuildDummy => copy_nonoverlapping(self.dummy.as_ptr(), lent, 148),
        }
    }
}

/// A contender that writes to a lent buffer and answers with the refusal. What it writes must be this.
fn making<M>(name: &'static str, asked: Asked, written: &[Vec<u8>], make: M) -> Contender
where
    M: Fn(Call, &[u8], &mut [u8]) -> u32 + 'static,
{
    let room = asked[0].0.lengths().1;
    for (&(call, read), written) in asked.iter().zip(written) {
        let mut lent = vec![9; room];
        assert_eq!(make(call, read, &mut lent), 0, "{name}, {call:?}");
        assert_eq!(lent, *written, "{name}, {call:?}");
    }
    let mut buffer = [0; 148];
    contender(name, asked, move |&(call, read)| {
        let refusal = make(call, read, &mut buffer[..room]);
        black_box(&buffer);
        refusal
    })
}

fn second(call: Call, read: &[u8], lent: &mut [u8]) -> u32 {
    BurstAnswer::from(call.make(read, lent)).refusal
}

/// What the second implementation writes in each call.
fn written(asked: Asked) -> Vec<Vec<u8>> {
    let of = |&(call, read): &(Call, &[u8])| {
        let mut lent = vec![0; call.lengths().1];
        call.make(read, &mut lent).unwrap();
        lent
    };
    asked.iter().map(of).collect()
}

fn line(label: &str, asked: Asked) -> Line {
    let (ready, written) = (Ready::new(), written(asked));
    let contenders = vec![
        making("library", asked, &written, |call, read, lent| {
            library::burst(call, read, lent).refusal
        }),
        making("second (rows)", asked, &written, second),
        making(
            "memcpy of the fields",
            asked,
            &written,
            move |call, read, lent| {
                unsafe { ready.copy_fields(call, read.as_ptr(), lent.as_mut_ptr()) };
                0
            },
        ),
    ];
    Line::new(label, INPUTS, contenders)
}

/// A payload that is built into a burst, and that burst.
struct Drawn {
    build: Call,
    payload: Vec<u8>,
    burst: Vec<u8>,
}

fn drawn(random: &mut Random, build: Call) -> Drawn {
    let (length, room) = build.lengths();
    let (payload, mut burst) = (random.bits(length), vec![0; room]);
    build.make(&payload, &mut burst).unwrap();
    Drawn {
        build,
        payload,
        burst,
    }
}

/// Makes the call that builds a burst, with this code if it has one.
type Build = fn(u32) -> Call;

/// Bursts with random payloads, drawn once; normal ones have a random code.
fn bursts(random: &mut Random, build: Build) -> &'static [Drawn] {
    let draw = |_| {
        let tsc = random.below(8);
        drawn(random, build(tsc))
    };
    (0..PAYLOADS).map(draw).collect::<Vec<Drawn>>().leak()
}

fn one(random: &mut Random, bursts: &'static [Drawn]) -> &'static Drawn {
    &bursts[random.below(PAYLOADS as u32) as usize]
}

fn build_line(random: &mut Random, label: &str, build: Build) -> Line {
    let bursts = bursts(random, build);
    let asked = inputs(|| {
        let burst = one(random, bursts);
        (burst.build, &burst.payload[..])
    });
    line(label, asked)
}

/// The call that takes apart what this one builds.
fn take(build: Call) -> Call {
    match build {
        BuildNormal(tsc) => TakeNormal(tsc),
        BuildSynchronization => TakeSynchronization,
        BuildAccess => TakeAccess,
        _ => panic!("{build:?}: built only"),
    }
}

fn take_line(random: &mut Random, label: &str, build: Build) -> Line {
    let bursts = bursts(random, build);
    let asked = inputs(|| {
        let burst = one(random, bursts);
        (take(burst.build), &burst.burst[..])
    });
    line(label, asked)
}

pub fn table(random: &mut Random) -> Table {
    let kinds: [(&str, Build); 5] = [
        ("normal", BuildNormal),
        ("synchronization", |_| BuildSynchronization),
        ("access", |_| BuildAccess),
        ("frequency correction", |_| BuildFrequencyCorrection),
        ("dummy", |_| BuildDummy),
    ];
    let mut lines = Vec::new();
    for (name, build) in kinds {
        lines.push(build_line(random, &format!("build {name}"), build));
    }
    for (name, build) in &kinds[..3] {
        lines.push(take_line(random, &format!("take {name}"), *build));
    }
    Table {
        title: "bursts",
        lines,
    }
}
