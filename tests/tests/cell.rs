//! The calls of the cell: the library beside the book of open lines, over random lists of calls.

use std::collections::{BTreeMap, BTreeSet};
use tdma_tests::calls::{Both, Call};
use tdma_tests::draw;
use tdma_tests::library::LineAnswer;
use tdma_tests::random::Random;

/// How many calls are made, starts included.
const CALLS: u32 = 300_000;

/// What each call may answer: 0 for accepted, and its refusals.
const ANSWERS: [(&str, &[u32]); 8] = [
    ("start", &[0, 1, 2]),
    ("open", &[0, 3, 4, 5, 6, 8, 9]),
    ("close", &[0, 3, 7, 8, 13]),
    ("seize", &[0, 3, 7, 10, 11]),
    ("release", &[0, 3, 7, 10, 12]),
    ("line", &[0, 3, 7]),
    ("who", &[0, 3]),
    ("page", &[0, 3, 16]),
];

/// Refusals whose conditions can hold together, where it matters which is told.
const TOGETHER: [(&str, &[u32]); 5] = [
    ("open", &[3, 4, 5, 6, 8, 9]),
    ("seize", &[3, 11]),
    ("release", &[3, 12]),
    ("line", &[3, 7]),
    ("page", &[3, 16]),
];

/// What the lists have met.
#[derive(Default)]
struct Tally {
    answers: BTreeMap<(&'static str, u32), u32>,
    together: BTreeSet<(&'static str, u32, u32)>,
    /// The channels that line has answered, held or not.
    channels: BTreeMap<(u32, bool), u32>,
}

impl Tally {
    fn answer(&mut self, name: &'static str, refusal: u32) {
        *self.answers.entry((name, refusal)).or_default() += 1;
    }

    /// Notes each two conditions that hold together.
    fn causes(&mut self, call: &Call, both: &Both) {
        let causes = call.causes(&both.second).into_iter();
        let holding = causes.filter(|cause| cause.1).map(|cause| cause.0);
        let holding: Vec<u32> = holding.collect();
        for (&one, &other) in pairs(&holding) {
            let pair = (call.name(), one.min(other), one.max(other));
            self.together.insert(pair);
        }
    }

    fn channel(&mut self, answer: LineAnswer) {
        if answer.refusal == 0 {
            let kind = (answer.channel, answer.owner != 0);
            *self.channels.entry(kind).or_default() += 1;
        }
    }

    fn calls(&self) -> u32 {
        self.answers.values().sum()
    }

    fn accepted(&self) -> u32 {
        let accepted = self.answers.iter().filter(|(key, _)| key.1 == 0);
        accepted.map(|(_, count)| count).sum()
    }
}

/// Each two of them.
fn pairs<T>(items: &[T]) -> impl Iterator<Item = (&T, &T)> {
    let places = 0..items.len();
    places.flat_map(move |i| items[..i].iter().map(move |other| (other, &items[i])))
}

/// Starts until one is accepted, or now and then goes on with a refused one.
fn start(random: &mut Random, tally: &mut Tally) -> Both {
    loop {
        let plan = match random.below(2) {
            0 => draw::plan(random),
            _ => draw::odd_plan(random),
        };
        let (refusal, both) = Both::start(&plan);
        tally.answer("start", refusal);
        if refusal == 0 || random.once_in(8) {
            return both;
        }
    }
}

/// A list of calls, and then every line and some numbers that are none, in both directions.
fn list(random: &mut Random, tally: &mut Tally) {
    let mut both = start(random, tally);
    let most = random.one_of(&[4, 20, 100, 600]);
    for _ in 0..1 + random.below(most) {
        let call = draw::call(random, &both.second, 2);
        tally.causes(&call, &both);
        tally.answer(call.name(), both.make(&call));
    }
    for number in (0..64).chain([64, 65, 256, 65_536, 1 << 31, u32::MAX]) {
        for direction in 0..2 {
            tally.channel(both.line(number, random.frame(), direction));
        }
    }
}

#[test]
fn lists_of_calls() {
    let (mut random, mut tally) = (Random(6), Tally::default());
    while tally.calls() < CALLS {
        list(&mut random, &mut tally);
    }
    println!("{:?}\n{:?}", tally.answers, tally.channels);

    let met = Vec::from_iter(tally.answers.keys().copied());
    for (name, numbers) in ANSWERS {
        let met = met.iter().filter(|key| key.0 == name).map(|key| key.1);
        assert_eq!(Vec::from_iter(met), numbers, "{name}: met, and may be met");
    }
    for (name, numbers) in TOGETHER {
        for (&lower, &higher) in pairs(numbers) {
            let met = tally.together.contains(&(name, lower, higher));
            assert!(met, "{name}: {lower} and {higher} never together");
        }
    }
    let share = 100 * tally.accepted() / tally.calls();
    assert!((40..=60).contains(&share), "{share} in 100 accepted");
    // Idle, the five of a common part, and the three others, free and held.
    assert_eq!(tally.channels.len(), 1 + 5 + 2 * 3, "a channel left out");
}
