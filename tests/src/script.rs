//! Scripts for the program `schedule`, the same in every run. Their lines are drawn on the cell that
//! the lines before have led to, and each stands beside the second implementation's answer.

use crate::command::TOO_LONG;
use crate::draw_line::{command, line};
use crate::random::Random;
use crate::schedule::Session;

/// How many lines with an answer the gate's script has drawn, beside those that are typed in.
const DRAWN: usize = 5000;

/// A cell with common lines on timeslots 0 and 2, hopping traffic of both rates and an SDCCH line,
/// some of it held, and its timetables.
const PLANNED: &str = "
start 10 3 1 5 10 20 30 40 50 60 70
open 0 0 1 0 0 4 3
open 1 2 1 0 0 6 3
open 10 1 14 5 0 1 0
open 11 1 14 5 1 2 1
open 12 1 14 5 2 2 2
open 13 1 112 0 1 1 3
open 20 3 64 0 0 7 4
open 21 3 63 63 5 1 5
seize 10 0 1
seize 11 1 65535
seize 12 0 300
seize 20 0 7
seize 20 7 4711
seize 21 0 21
table 0 0 0 51
table 0 1 2715600 8
table 1 0 0 102
table 1 1 2715640 16
table 2 0 4 4
table 3 0 2715600 60
table 3 1 30 20
table 4 0 0 5
table 1 0 7 0
table 2 1 2715647 2
";

/// Hops and starts with ARFCN 0, last in CA and elsewhere; and a cell whose common line is on
/// ARFCN 0 and whose two traffic lines hop over it, too.
const WITH_ARFCN_0: &str = "
hop 7 0 0 0 5 10 0
hop 7 0 0 2 5 10 0
hop 6 0 0 1 5 10 0
hop 4 0 0 1 5 10 0
hop 7 0 0 0 0 5 10
hop 7 0 0 0 5 0 10
hop 3 0 0 0 0 0
start 0 3 1 5 0 5 10
start 5 3 1 5 5 0 10
start 5 3 1 5 5 0 0
start 0 3 1 5 5 10 0
open 0 0 1 0 0 4 3
open 0 0 4 0 0 4 3
open 8 1 7 21 0 1 0
open 9 1 7 21 2 2 0
seize 9 1 4711
line 0 12 0
line 8 25 1
line 8 28 1
line 9 2715647 0
who 0 0 12 0
who 1 0 24 0
who 1 0 25 0
who 1 0 26 1
who 1 0 27 1
who 1 0 28 1
who 2 0 28 1
table 1 0 24 8
page 007 0
";

/// A line and its answer.
pub struct Asked {
    pub line: Vec<u8>,
    pub answer: Vec<u8>,
}

pub struct Script {
    random: Random,
    session: Session,
    pub asked: Vec<Asked>,
}

impl Script {
    fn new(seed: u64) -> Script {
        Script {
            random: Random(seed),
            session: Session::default(),
            asked: Vec::new(),
        }
    }

    fn ask(&mut self, line: Vec<u8>) {
        let answer = self.session.answer(&line);
        self.asked.push(Asked { line, answer });
    }

    fn ask_all(&mut self, lines: &str) {
        for line in lines.lines() {
            self.ask(line.into());
        }
    }

    /// Draws lines until so many more of them have an answer.
    fn draw(&mut self, count: usize, tables: bool) {
        let mut answered = 0;
        while answered < count {
            let line = line(&mut self.random, &self.session.cell, tables);
            self.ask(line);
            let asked = self.asked.last().expect("a line");
            answered += usize::from(!asked.answer.is_empty());
        }
    }

    /// A line at the border of too long, one way of several.
    fn draw_long(&mut self, length: usize) {
        let mut line = match self.random.below(4) {
            0 => b"# ".to_vec(),
            1 => line(&mut self.random, &self.session.cell, false),
            _ => command(&mut self.random, &self.session.cell, false).into_bytes(),
        };
        line.resize(length, b' ');
        self.ask(line);
    }

    pub fn input(&self) -> Vec<u8> {
        let lines = self.asked.iter().map(|asked| &asked.line[..]);
        lines.flat_map(|line| [line, b"\n"].concat()).collect()
    }

    pub fn answers(&self) -> Vec<u8> {
        let answers = self.asked.iter().map(|asked| &asked.answer[..]);
        answers.flatten().copied().collect()
    }
}

/// The script that the gate runs, crates/schedule/stdin.
pub fn gate() -> Script {
    let mut script = Script::new(64);
    script.draw(DRAWN / 2, true);
    script.ask_all(PLANNED);
    script.draw_long(70_000);
    script.draw(DRAWN / 2, true);
    script.ask_all(WITH_ARFCN_0);
    script
}

/// A script with a line that is too long or nearly so, and tables.
pub fn mixed(seed: u64, commands: usize) -> Script {
    let mut script = Script::new(seed);
    script.draw(commands / 2, true);
    let length = TOO_LONG - 4 + script.random.below(8) as usize;
    script.draw_long(length);
    script.draw(commands - commands / 2, true);
    script
}

/// A script with no table.
pub fn ordinary(seed: u64, commands: usize) -> Script {
    let mut script = Script::new(seed);
    script.draw(commands, false);
    script
}
