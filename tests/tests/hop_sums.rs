//! How large the numbers of the hopping sequence become: M, M' and T' of every frame, HSN above 0 and
//! N, and the library's positions there.

use std::thread;
use tdma_tests::clock::{split, HYPERFRAME};
use tdma_tests::hopping::{self, Numbers};
use tdma_tests::library::{self, HopAnswer, PositionAnswer};
use tdma_tests::placed;

/// In so many frames each T1 mod 64, T2 and T3 that a frame can have stands once.
const FRAMES: u32 = 64 * 26 * 51;

/// What hopping with HSN above 0 reads of a frame.
fn read(frame: u32) -> (u16, u8, u8) {
    let now = split(frame).unwrap();
    (now.t1 % 64, now.t2, now.t3)
}

#[test]
fn all_frames_hop_as_the_first_ones() {
    for frame in FRAMES..HYPERFRAME {
        assert_eq!(read(frame), read(frame % FRAMES), "FN {frame}");
    }
}

/// Where a number is as large as it ever is: N, HSN and FN.
type Hop = (u32, u32, u32);

#[derive(Debug, Default)]
struct Largest {
    number: u32,
    hops: Vec<Hop>,
}

impl Largest {
    fn note(&mut self, number: u32, hop: Hop) {
        if number > self.number {
            *self = Largest {
                number,
                hops: Vec::new(),
            };
        }
        if number == self.number {
            self.hops.push(hop);
        }
    }

    fn add(&mut self, other: Largest) {
        for hop in other.hops {
            self.note(other.number, hop);
        }
    }

    /// The hop of the lowest FN, of that the lowest HSN, and of that the lowest N.
    fn first(&self) -> Hop {
        *self
            .hops
            .iter()
            .min_by_key(|hop| (hop.2, hop.1, hop.0))
            .unwrap()
    }
}

/// The largest M and M' + T'.
#[derive(Debug, Default)]
struct Tally {
    m: Largest,
    sum: Largest,
    hops: u64,
}

impl Tally {
    /// Every N in a frame.
    fn note(&mut self, hsn: u32, frame: u32) {
        let now = split(frame).unwrap();
        for n in 1..=64 {
            let numbers = Numbers::of(hsn, now, n);
            self.m.note(numbers.m, (n, hsn, frame));
            self.sum.note(numbers.sum(), (n, hsn, frame));
            self.hops += 1;
            compare(numbers, hsn, frame);
        }
    }

    fn add(&mut self, other: Tally) {
        self.m.add(other.m);
        self.sum.add(other.sum);
        self.hops += other.hops;
    }
}

/// Compares the position in a mask of the lowest N ones, where it is MAI, at the lowest MAIO and at
/// the highest.
fn compare(numbers: Numbers, hsn: u32, frame: u32) {
    let n = numbers.n;
    for maio in [0, n - 1] {
        let mai = (numbers.s() + maio) % n;
        let expected = PositionAnswer {
            refusal: 0,
            position: mai,
            mai,
        };
        let told = library::position(64, u64::MAX >> (64 - n), hsn, maio, frame);
        assert_eq!(
            told, expected,
            "{numbers:?}, HSN {hsn}, MAIO {maio}, FN {frame}"
        );
    }
}

/// Every frame of these HSN.
fn all(hsns: impl Iterator<Item = u32>) -> Tally {
    let mut tally = Tally::default();
    for (hsn, frame) in hsns.flat_map(|hsn| (0..FRAMES).map(move |frame| (hsn, frame))) {
        tally.note(hsn, frame);
    }
    tally
}

/// Whether N is 64 and S is made of M' + T'.
fn used_with_64(&(n, hsn, frame): &Hop) -> bool {
    n == 64 && Numbers::of(hsn, split(frame).unwrap(), n).m_reduced >= n
}

/// Entry p is ARFCN 16(p + 1), and the last of 64 is ARFCN 0.
fn allocation() -> Vec<u16> {
    (0..64).map(|p| 16 * (p + 1) % 1024).collect()
}

/// The hop there, in cell allocations of N and of 64 ARFCNs.
fn compare_hop((n, hsn, frame): Hop) {
    let ca = allocation();
    let mask = u64::MAX >> (64 - n);
    for (length, maio) in [(n, 0), (n, n - 1), (64, 0), (64, n - 1)] {
        let ca = &ca[..length as usize];
        let told = library::hop(ca, mask, hsn, maio, frame);
        let second = HopAnswer::from(hopping::hop(ca, mask, hsn, maio, frame));
        assert_eq!(told, second, "N {n}, HSN {hsn}, MAIO {maio}, FN {frame}");
        assert!(told.refusal == 0 && placed::hop(ca, mask, told), "{told:?}");
    }
}

/// All hops, shared out among the machine's cores.
fn shared_out() -> Tally {
    let threads = thread::available_parallelism().map_or(1, usize::from);
    let mut tally = Tally::default();
    thread::scope(|scope| {
        let shares = (0..threads).map(|first| (1..64).skip(first).step_by(threads));
        let running: Vec<_> = shares.map(|share| scope.spawn(|| all(share))).collect();
        for share in running {
            tally.add(share.join().unwrap());
        }
    });
    tally
}

/// 342 million hops, with two MAIO each.
#[test]
fn m_and_m_prime_plus_t_prime_in_every_hop() {
    let tally = shared_out();
    assert_eq!(tally.hops, 63 * 64 * u64::from(FRAMES));

    assert_eq!((tally.m.number, tally.m.first()), (152, (1, 7, 25)));
    assert_eq!(tally.m.hops.len(), 64 * 2079, "an M that depends on N");
    assert_eq!((tally.sum.number, tally.sum.first()), (177, (64, 57, 152)));
    assert_eq!(tally.sum.hops.len(), 945);
    assert!(
        tally.sum.hops.iter().all(used_with_64),
        "N below 64, or S is M'"
    );
    for &hop in tally.m.hops.iter().chain(&tally.sum.hops) {
        compare_hop(hop);
    }
}
