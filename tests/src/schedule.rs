//! What the program `schedule` answers: a session has its cell and the number of the line that it is
//! at, and answers each line from the second implementation.

use crate::bursts;
use crate::cell::{self, Cell, OnAir, Plan};
use crate::command::{read, Command};
use crate::frame_map::{map, Burst, Channel};
use crate::hopping::{hop, Hop};
use crate::timetable::{name, timetable};
use crate::{clock, CLASH, FIXED_BIT};

/// A refusal, and the value that comes with it.
struct Refused {
    number: u32,
    value: Option<u32>,
}

impl From<u32> for Refused {
    fn from(number: u32) -> Self {
        let value = None;
        Refused { number, value }
    }
}

impl From<cell::Refused> for Refused {
    fn from(refused: cell::Refused) -> Self {
        let cell::Refused { number, line } = refused;
        let value = (number == CLASH).then_some(line);
        Refused { number, value }
    }
}

impl From<bursts::Refused> for Refused {
    fn from(refused: bursts::Refused) -> Self {
        let bursts::Refused { number, bit } = refused;
        let value = (number == FIXED_BIT).then_some(bit);
        Refused { number, value }
    }
}

impl std::fmt::Display for Refused {
    fn fmt(&self, f: &mut std::fmt::Formatter) -> std::fmt::Result {
        match self.value {
            Some(value) => write!(f, "refused {} {value}", self.number),
            None => write!(f, "refused {}", self.number),
        }
    }
}

/// The text of an accepted command's answer.
type Told = Result<String, Refused>;

fn split(frame: u32) -> Told {
    let now = clock::split(frame)?;
    let prime = now.t3_prime().map_or("-".into(), |prime| prime.to_string());
    Ok(format!("ok {} {} {} {prime}", now.t1, now.t2, now.t3))
}

fn blocks(burst: &Burst) -> String {
    let blocks = burst.blocks.iter();
    let blocks = blocks.map(|(block, place)| format!(" {block} {place}"));
    blocks.collect()
}

fn mapped(burst: &Burst) -> String {
    match burst.channel {
        Channel::Idle => "ok idle".into(),
        channel => format!("ok {} {}{}", name(channel), burst.subchannel, blocks(burst)),
    }
}

fn tuned(hop: &Hop) -> String {
    format!("{} {} {}", hop.arfcn, hop.mai, hop.position)
}

fn on_air(told: &OnAir) -> String {
    let (tuned, owner, burst) = (tuned(&told.hop), told.owner, told.burst);
    let s = burst.subchannel;
    match burst.channel {
        Channel::Idle => format!("{tuned} idle"),
        channel => format!("{tuned} {} {s} {owner}{}", name(channel), blocks(burst)),
    }
}

fn burst(call: bursts::Call, bits: &[u8]) -> Told {
    let mut lent = vec![0; call.lengths().1];
    call.make(bits, &mut lent)?;
    let characters = lent.iter().map(|bit| char::from(b'0' + bit));
    Ok(format!("ok {}", String::from_iter(characters)))
}

/// The cell that commands get, and how many lines have been read.
pub struct Session {
    pub cell: Cell,
    line: u64,
}

impl Default for Session {
    fn default() -> Self {
        let (_, cell) = Cell::start(&Plan::new([], 0, 0, 0, 0)); // refused
        Session { cell, line: 0 }
    }
}

impl Session {
    fn start(&mut self, plan: &Plan) -> Told {
        let (answer, cell) = Cell::start(plan);
        self.cell = cell;
        answer?;
        Ok("ok".into())
    }

    /// The calls that change the cell.
    fn change(&mut self, command: &Command) -> Told {
        match *command {
            Command::Start(ref plan) => return self.start(plan),
            Command::Open(line, ref values) => self.cell.open(line, values)?,
            Command::Close(line) => self.cell.close(line)?,
            Command::Seize([line, s, owner]) => self.cell.seize(line, s, owner)?,
            Command::Release([line, s, owner]) => self.cell.release(line, s, owner)?,
            _ => return self.ask(command),
        }
        Ok("ok".into())
    }

    /// The calls that ask the cell, or need none.
    fn ask(&self, command: &Command) -> Told {
        Ok(match *command {
            Command::Split(frame) => split(frame)?,
            Command::Join([t1, t2, t3]) => format!("ok {}", clock::join(t1, t2, t3)?),
            Command::Hop(mask, [hsn, maio, frame], ref ca) => {
                format!("ok {}", tuned(&hop(ca, mask, hsn, maio, frame)?))
            }
            Command::Map([combination, tn, frame, direction]) => {
                mapped(map(combination, tn, frame, direction)?)
            }
            Command::Line([line, frame, direction]) => {
                format!("ok {}", on_air(&self.cell.line(line, frame, direction)?))
            }
            Command::Who([tn, arfcn, frame, direction]) => {
                match self.cell.who(tn, arfcn, frame, direction)? {
                    Some(found) => format!("ok {} {}", found.line, on_air(&found.on_air)),
                    None => "ok nobody".into(),
                }
            }
            Command::Page(ref digits, frame) => {
                let paged = self.cell.page(digits, frame)?;
                format!("ok {} {} {}", paged.tn, paged.block, paged.frame)
            }
            Command::Burst(call, ref bits) => burst(call, bits)?,
            Command::Table(place, count) => timetable(&self.cell, place, count as u32)?,
            _ => unreachable!("{command:?} changes the cell"),
        })
    }

    /// The answer to the next line, with its newlines: nothing for an empty line or a comment.
    pub fn answer(&mut self, line: &[u8]) -> Vec<u8> {
        self.line += 1;
        if matches!(line.first(), None | Some(b'#')) {
            return Vec::new();
        }
        let told = match read(line) {
            Ok(command) => self.change(&command).unwrap_or_else(|no| no.to_string()),
            Err(fault) => format!("error {} {}", self.line, fault.reason()),
        };
        (told + "\n").into_bytes()
    }
}

/// The lines of an input, the last with a newline behind it or without.
pub fn lines(input: &[u8]) -> impl Iterator<Item = &[u8]> {
    let lines = input.split_inclusive(|&byte| byte == b'\n');
    lines.map(|line| line.strip_suffix(b"\n").unwrap_or(line))
}

/// The answers to a whole input.
pub fn run(input: &[u8]) -> Vec<u8> {
    let mut session = Session::default();
    lines(input).flat_map(|line| session.answer(line)).collect()
}
