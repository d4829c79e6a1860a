//! What is open, held and on the air after a list of calls, read from the list alone: the calls,
//! their values and whether the library accepted each. The second implementation's cell is here
//! only to aim the calls.

use std::collections::{BTreeMap, BTreeSet};
use tdma_tests::calls::{change, second_change, Call};
use tdma_tests::cell::{is_common, subchannels, Cell, OnAir, Plan, Values};
use tdma_tests::clock::HYPERFRAME;
use tdma_tests::frame_map::{map, Channel};
use tdma_tests::hopping::hop;
use tdma_tests::library::{self, LineAnswer};
use tdma_tests::random::Random;
use tdma_tests::{draw, placed, LINE_CLOSED};

/// How many cells are searched for channels that meet, and in how many frames each.
const CELLS: usize = 40;
const FRAMES: usize = 3000;

/// A list of calls on a cell, with whether each was accepted, and the cell after it.
struct Run {
    plan: Plan,
    calls: Vec<(Call, bool)>,
    cell: library::Cell,
}

impl Run {
    /// A run of `length` calls, one in `times` odd. Now and then it begins with a refused start.
    fn draw(random: &mut Random, length: u32, times: u32) -> Run {
        let asked = match random.below(8) {
            0 => draw::odd_plan(random),
            _ => draw::plan(random),
        };
        let mut cell = library::unfilled();
        let Plan {
            ref ca,
            c0,
            bcc,
            ag,
            p,
        } = asked;
        let plan = match library::start(&mut cell, ca, c0, bcc, ag, p).refusal {
            0 => asked,
            _ => Plan::new([0], 0, 0, 0, 2),
        };
        let (_, mut second) = Cell::start(&plan);
        let mut run = Run {
            plan,
            calls: Vec::new(),
            cell,
        };
        for _ in 0..length {
            let call = draw::call(random, &second, times);
            second_change(&mut second, &call);
            run.make(call);
        }
        run
    }

    fn make(&mut self, call: Call) {
        if let Some(changed) = change(&mut self.cell, &call) {
            self.calls.push((call, changed.refusal == 0));
        }
    }

    /// The open lines, each with its timeslot, and with every subchannel seized that was free.
    fn seize_all(&mut self) -> Vec<(u32, u32)> {
        let mut lines = Vec::new();
        for number in 0..64 {
            let Some((_, values)) = self.opened(number) else {
                continue;
            };
            for s in subchannels(values.combination) {
                self.make(Call::Seize(number, s, 1 + number));
            }
            lines.push((number, values.tn));
        }
        lines
    }

    /// The last accepted open or close that names the line, if it is an open: its place in the list
    /// and the values named there.
    fn opened(&self, number: u32) -> Option<(usize, Values)> {
        let names = |call: &Call| match *call {
            Call::Open(line, _) | Call::Close(line) => line == number,
            _ => false,
        };
        let mut calls = self.calls.iter();
        let last = calls.rposition(|(call, accepted)| *accepted && names(call))?;
        match self.calls[last].0 {
            Call::Open(_, values) => Some((last, values)),
            _ => None,
        }
    }

    /// The owner named by the last accepted seize or release of a subchannel since a place in the
    /// list, if it is a seize; else 0.
    fn owner(&self, since: usize, number: u32, subchannel: u32) -> u32 {
        let this = (number, subchannel);
        let names = |call: &Call| match *call {
            Call::Seize(line, s, _) | Call::Release(line, s, _) => (line, s) == this,
            _ => false,
        };
        let mut calls = self.calls[since..].iter().rev();
        match calls.find(|(call, accepted)| *accepted && names(call)) {
            Some((Call::Seize(_, _, owner), _)) => *owner,
            _ => 0,
        }
    }

    fn compare_closed(&self, random: &mut Random, number: u32) {
        let told = library::line(&self.cell, number, random.frame(), random.below(2));
        let refused = LineAnswer {
            refusal: LINE_CLOSED,
            ..Default::default()
        };
        assert_eq!(told, refused, "line {number}");
    }

    /// Compares an open line over enough frames that each subchannel stands in one. Gives the number
    /// of subchannels that are held.
    fn compare_open(&self, random: &mut Random, number: u32, since: usize, v: Values) -> usize {
        let owned = subchannels(v.combination).map(|s| (s, self.owner(since, number, s)));
        let owners: BTreeMap<u32, u32> = owned.collect();
        let first = random.below(HYPERFRAME - 52);
        let frames = (first..first + 52).flat_map(|frame| [(frame, 0), (frame, 1)]);
        let mut met = BTreeMap::new();
        for (frame, direction) in frames {
            let burst = map(v.combination, v.tn, frame, direction).unwrap();
            let own = burst.channel != Channel::Idle && !is_common(burst.channel);
            let owner = if own { owners[&burst.subchannel] } else { 0 };
            let on_air = OnAir {
                hop: hop(&self.plan.ca, v.mask, v.hsn, v.maio, frame).unwrap(),
                burst,
                owner,
            };
            let told = library::line(&self.cell, number, frame, direction);
            let place = format_args!("line {number}, {v:?}, FN {frame}, direction {direction}");
            assert_eq!(told, LineAnswer::from(Ok(on_air)), "{place}");
            assert!(placed::line(&self.plan.ca, v.mask, told), "{place}");
            if own {
                met.insert(burst.subchannel, owner);
            }
        }
        assert_eq!(met, owners, "line {number}, {v:?}: not all stood");
        owners.values().filter(|&&owner| owner != 0).count()
    }
}

#[test]
fn open_and_held_are_what_the_list_says() {
    let mut random = Random(7);
    let (mut open, mut closed, mut held) = (0, 0, 0);
    for _ in 0..250 {
        let most = random.one_of(&[8, 60, 300, 1000]);
        let length = 1 + random.below(most);
        let run = Run::draw(&mut random, length, 4);
        for number in 0..64 {
            if let Some((since, values)) = run.opened(number) {
                held += run.compare_open(&mut random, number, since, values);
                open += 1;
            } else {
                run.compare_closed(&mut random, number);
                closed += 1;
            }
        }
    }
    println!("open {open}, closed {closed}, held {held}");
    assert!(open > 1000 && closed > 1000 && held > 1000);
}

/// What is carried in a frame: timeslot, ARFCN and the line.
type Carried = (u32, u32, u32);

/// All that these lines, each with its timeslot, carry in a frame: held subchannels and common
/// parts. No two of it may be in one timeslot and on one ARFCN.
fn carried(run: &Run, lines: &[(u32, u32)], frame: u32, direction: u32) -> Vec<Carried> {
    let common = Channel::Fcch as u32..=Channel::Rach as u32;
    let mut taken: BTreeMap<(u32, u32), u32> = BTreeMap::new();
    for &(number, tn) in lines {
        let told = library::line(&run.cell, number, frame, direction);
        assert_eq!(told.refusal, 0, "line {number}");
        if told.owner == 0 && !common.contains(&told.channel) {
            continue;
        }
        let place = (tn, told.arfcn);
        if let Some(other) = taken.insert(place, number) {
            panic!("lines {other}, {number}: FN {frame}, {direction}, TN and ARFCN {place:?}");
        }
    }
    let taken = taken.into_iter();
    taken.map(|((tn, arfcn), line)| (tn, arfcn, line)).collect()
}

/// How near to each other the channels were.
#[derive(Default)]
struct Near {
    /// How often two were in one frame, direction and timeslot, on different ARFCNs.
    beside: usize,
    /// The lines of a cell that have used an ARFCN in a timeslot, in different frames.
    users: BTreeMap<(u32, u32), BTreeSet<u32>>,
    /// How many ARFCNs several lines of one timeslot have used.
    shared: usize,
}

impl Near {
    fn note(&mut self, carried: &[Carried]) {
        let beside = carried.windows(2).filter(|two| two[0].0 == two[1].0);
        self.beside += beside.count();
        for &(tn, arfcn, line) in carried {
            self.users.entry((tn, arfcn)).or_default().insert(line);
        }
    }

    fn end_of_cell(&mut self) {
        let users = std::mem::take(&mut self.users);
        self.shared += users.values().filter(|lines| lines.len() > 1).count();
    }
}

#[test]
fn no_two_channels_meet() {
    let (mut random, mut near) = (Random(8), Near::default());
    for _ in 0..CELLS {
        let (length, times) = (100 + random.below(700), random.one_of(&[2, 8]));
        let mut run = Run::draw(&mut random, length, times);
        let lines = run.seize_all();
        for _ in 0..FRAMES {
            let frame = random.frame();
            near.note(&carried(&run, &lines, frame, 0));
            near.note(&carried(&run, &lines, frame, 1));
        }
        near.end_of_cell();
    }
    println!("beside {}, shared {}", near.beside, near.shared);
    assert!(near.beside > 100_000 && near.shared > 100);
}

/// A transceiver that stays on one position gets a burst of one line in a frame and timeslot, so that
/// no two open lines of a timeslot may have one position, idle ones neither. Gives how many lines
/// stand beside others.
fn routed(run: &Run, lines: &[(u32, u32)], frame: u32, direction: u32) -> usize {
    let mut transceivers = [[false; 64]; 8];
    let mut timeslots = BTreeSet::new();
    for &(number, tn) in lines {
        let told = library::line(&run.cell, number, frame, direction);
        let taken = &mut transceivers[tn as usize][told.position as usize];
        assert!(!*taken, "line {number}, TN {tn}, FN {frame}: {told:?}");
        *taken = true;
        timeslots.insert(tn);
    }
    lines.len() - timeslots.len()
}

#[test]
fn no_transceiver_gets_two_bursts() {
    let (mut random, mut beside) = (Random(21), 0);
    for _ in 0..CELLS {
        let length = 100 + random.below(700);
        let mut run = Run::draw(&mut random, length, 8);
        let lines = run.seize_all();
        for _ in 0..FRAMES {
            beside += routed(&run, &lines, random.frame(), random.below(2));
        }
    }
    println!("beside {beside}");
    assert!(beside > 100_000);
}
