//! The program `schedule` beside the second implementation, line by line: the script that the gate
//! runs, which is the one drawn today and meets everything, and random scripts.

use std::collections::{BTreeMap, BTreeSet};
use tdma_tests::cell::Cell;
use tdma_tests::clock::HYPERFRAME;
use tdma_tests::command::{read, Command, Fault, NAMES};
use tdma_tests::library::HopAnswer;
use tdma_tests::program::{self, Way};
use tdma_tests::schedule::{lines, run, Session};
use tdma_tests::script::{self, Asked, Script};
use tdma_tests::{placed, CLASH, FIXED_BIT};

/// A script for each.
const SEEDS: std::ops::Range<u64> = 1_000..1_200;
/// How many lines of each have an answer, at least.
const COMMANDS: usize = 2_000;

/// The refusals that each command may give.
const REFUSALS: [(&str, &[u32]); 15] = [
    ("split", &[3]),
    ("join", &[14]),
    ("hop", &[1, 3, 4, 5]),
    ("map", &[3]),
    ("start", &[1, 2]),
    ("open", &[3, 4, 5, 6, 8, 9]),
    ("close", &[3, 7, 8, 13]),
    ("seize", &[3, 7, 10, 11]),
    ("release", &[3, 7, 10, 12]),
    ("line", &[3, 7]),
    ("who", &[3]),
    ("page", &[3, 16]),
    ("build", &[3, 14]),
    ("take", &[3, 14, 15]),
    ("table", &[3]),
];

/// What the answers of scripts were.
#[derive(Default, Debug)]
struct Tally {
    /// By command.
    accepted: BTreeMap<String, usize>,
    /// By command and number.
    refused: BTreeMap<(String, u32), usize>,
    /// By reason.
    errors: BTreeMap<String, usize>,
    /// Lines with no answer.
    passed_over: usize,
}

impl Tally {
    fn note(&mut self, asked: &Asked) {
        let answer = std::str::from_utf8(&asked.answer).expect("an answer in ASCII");
        let words: Vec<&str> = answer.split_whitespace().collect();
        let line = String::from_utf8_lossy(&asked.line);
        let name = || line.split(' ').find(|word| !word.is_empty());
        let name = || name().expect("a command").to_string();
        match words[..] {
            [] => self.passed_over += 1,
            ["error", _, ..] => *self.errors.entry(words[2..].join(" ")).or_default() += 1,
            ["refused", number, ref rest @ ..] => {
                let number = number.parse().expect("a refusal's number");
                let value = number == CLASH || number == FIXED_BIT;
                assert_eq!(rest.len(), usize::from(value), "{answer}");
                *self.refused.entry((name(), number)).or_default() += 1;
            }
            _ => *self.accepted.entry(name()).or_default() += 1,
        }
    }

    fn of<'a>(asked: impl Iterator<Item = &'a Asked>) -> Tally {
        let mut tally = Tally::default();
        asked.for_each(|asked| tally.note(asked));
        tally
    }

    /// Commands, accepted or refused.
    fn commands(&self) -> usize {
        self.accepted.values().chain(self.refused.values()).sum()
    }

    /// Every command was accepted and gave each refusal that it may give, and every error was met.
    fn has_met_everything(&self) {
        let accepted: BTreeSet<&str> = self.accepted.keys().map(String::as_str).collect();
        assert_eq!(accepted, BTreeSet::from(NAMES));
        for (name, numbers) in REFUSALS {
            let met = self.refused.keys().filter(|(command, _)| command == name);
            let met: Vec<u32> = met.map(|(_, number)| *number).collect();
            assert_eq!(met, numbers, "{name}: met, and may be met");
        }
        let numbers: BTreeSet<u32> = self.refused.keys().map(|(_, number)| *number).collect();
        assert_eq!(numbers, BTreeSet::from_iter(1..=16));
        let reasons: BTreeSet<&str> = self.errors.keys().map(String::as_str).collect();
        assert_eq!(reasons, BTreeSet::from(Fault::ALL.map(Fault::reason)));
        assert!(self.passed_over > 0);
    }
}

/// The start of a text, to be shown.
fn shown(text: &[u8]) -> String {
    text.iter()
        .take(400)
        .copied()
        .flat_map(std::ascii::escape_default)
        .map(char::from)
        .collect()
}

/// Where the program's answers differ first: the line, its command and both answers.
fn difference(script: &Script, told: &[u8]) -> Option<String> {
    let mut rest = told;
    for (at, Asked { line, answer }) in script.asked.iter().enumerate() {
        let Some(after) = rest.strip_prefix(&answer[..]) else {
            let (number, line, answer) = (at + 1, shown(line), shown(answer));
            let told = shown(
                rest.split_inclusive(|&byte| byte == b'\n')
                    .next()
                    .unwrap_or(b""),
            );
            return Some(format!(
                "line {number}: {line}\nsecond: {answer}\nprogram: {told}"
            ));
        };
        rest = after;
    }
    (!rest.is_empty()).then(|| format!("after the last answer: {}", shown(rest)))
}

fn compare(script: &Script, way: Way, title: &str) {
    let told = program::answers(&script.input(), way);
    if let Some(difference) = difference(script, &told) {
        panic!("{title}, {way:?}, {difference}");
    }
}

fn committed(file: &str) -> Vec<u8> {
    let folder = concat!(env!("CARGO_MANIFEST_DIR"), "/../crates/schedule/");
    std::fs::read(format!("{folder}{file}")).expect(file)
}

#[test]
fn the_gates_script_is_the_one_drawn_today() {
    let (script, input) = (script::gate(), committed("stdin"));
    assert!(input == script.input(), "stdin: run tests/make-script");
    assert!(run(&input) == script.answers());
    let answers = committed("stdout");
    assert!(answers == script.answers(), "stdout: run tests/make-script");
    assert_eq!(committed("args"), b"-\n");
}

#[test]
fn the_gates_script_is_answered() {
    compare(&script::gate(), Way::Pipe, "the gate's script");
}

#[test]
fn the_gates_script_meets_everything() {
    let input = committed("stdin");
    let tally = Tally::of(script::gate().asked.iter());
    println!("{tally:?}");
    assert!(tally.commands() >= 3_000, "{} commands", tally.commands());
    tally.has_met_everything();

    let commands: Vec<Command> = lines(&input).filter_map(|line| read(line).ok()).collect();
    assert_eq!(commands.len(), tally.commands());
    let tables = commands.iter().filter_map(|command| match *command {
        Command::Table([tn, direction, frame], count) => Some((tn, direction, frame, count)),
        _ => None,
    });
    let tables: Vec<(u32, u32, u32, u64)> = tables.collect();
    let places: BTreeSet<(u32, u32)> = tables.iter().map(|table| (table.0, table.1)).collect();
    assert!(places.len() > 8, "{places:?}");
    assert!(tables.iter().any(|table| table.3 == 102));
    let past_the_turn = |frame, count| frame < HYPERFRAME && u64::from(frame) + count > 2_715_648;
    assert!(tables
        .iter()
        .any(|&(.., frame, count)| past_the_turn(frame, count)));
    assert!(input.iter().any(|&byte| byte > 127) && input.contains(&0));
}

/// The cell allocation and the mask that an accepted hop, line or who is about, and the ARFCN, MAI
/// and position of its answer. Other answers have none.
fn tuned<'a>(
    cell: &'a Cell,
    command: &'a Command,
    answer: &str,
) -> Option<(&'a [u16], u64, HopAnswer)> {
    let words = answer.strip_prefix("ok ")?.split_whitespace();
    let words: Vec<&str> = words.collect();
    let number = |at: usize| words[at].parse::<u32>().expect("a number");
    let (ca, mask, at) = match *command {
        Command::Hop(mask, _, ref ca) => (ca, mask, 0),
        Command::Line([line, ..]) => (&cell.plan.ca, cell.mask(line), 0),
        Command::Who(_) if words[0] != "nobody" => (&cell.plan.ca, cell.mask(number(0)), 1),
        _ => return None,
    };
    let answer = HopAnswer {
        refusal: 0,
        arfcn: number(at),
        mai: number(at + 1),
        position: number(at + 2),
    };
    Some((ca, mask, answer))
}

#[test]
fn the_gates_hops_are_placed() {
    let (mut session, mut count) = (Session::default(), 0);
    for Asked { line, answer } in script::gate().asked {
        session.answer(&line);
        let Ok(command) = read(&line) else { continue };
        let answer = String::from_utf8_lossy(&answer);
        let line = String::from_utf8_lossy(&line);
        if let Some((ca, mask, told)) = tuned(&session.cell, &command, &answer) {
            assert!(placed::hop(ca, mask, told), "{line}: {answer}");
            count += 1;
        }
    }
    println!("{count} answers");
    assert!(count > 500);
}

/// What a command had to do with a list of ARFCN 0 and others: the list was accepted or refused, a
/// line was on ARFCN 0, or nobody was.
fn arfcn_0(cell: &Cell, command: &Command, answer: &str) -> Option<(&'static str, &'static str)> {
    let told = tuned(cell, command, answer).map(|(.., told)| told);
    let on_it = told.is_some_and(|told| told.arfcn == 0 && told.position > 0);
    let listed = |ca: &[u16]| (2..=64).contains(&ca.len()) && ca.contains(&0);
    match (command, answer.trim_end()) {
        (Command::Hop(.., ca), "refused 1") if listed(ca) => Some(("hop", "refused")),
        (Command::Start(plan), "refused 1") if listed(&plan.ca) => Some(("start", "refused")),
        (Command::Start(plan), "ok") if listed(&plan.ca) => Some(("start", "accepted")),
        (Command::Who([_, 0, ..]), "ok nobody") if listed(&cell.plan.ca) => Some(("who", "nobody")),
        (Command::Hop(..), _) if on_it => Some(("hop", "on it")),
        (Command::Line(_), _) if on_it => Some(("line", "on it")),
        (Command::Who(_), _) if on_it => Some(("who", "on it")),
        _ => None,
    }
}

#[test]
fn the_gates_script_has_arfcn_0() {
    let (mut session, mut met) = (Session::default(), BTreeMap::<_, usize>::new());
    for Asked { line, answer } in script::gate().asked {
        session.answer(&line);
        let Ok(command) = read(&line) else { continue };
        let answer = String::from_utf8_lossy(&answer);
        if let Some(what) = arfcn_0(&session.cell, &command, &answer) {
            *met.entry(what).or_default() += 1;
        }
    }
    println!("{met:?}");
    let wanted = [
        ("hop", "on it"),
        ("hop", "refused"),
        ("line", "on it"),
        ("start", "accepted"),
        ("start", "refused"),
        ("who", "nobody"),
        ("who", "on it"),
    ];
    assert!(met.keys().eq(&wanted) && met.values().all(|&n| n > 2));
}

#[test]
fn random_scripts() {
    let mut tally = Tally::default();
    for seed in SEEDS {
        let script = script::mixed(seed, COMMANDS);
        let way = if seed % 2 == 0 { Way::File } else { Way::Pipe };
        compare(&script, way, &format!("seed {seed}"));
        script.asked.iter().for_each(|asked| tally.note(asked));
    }
    println!("{tally:?}");
    tally.has_met_everything();
    let share = 100 * tally.accepted.values().sum::<usize>() / tally.commands();
    assert!((60..=90).contains(&share), "{share} in 100 accepted");
}
