//! A line for the program `schedule` as a command. Its words are taken one after the other, and the
//! first thing that is wrong is the line's fault.

use crate::bursts::Call;
use crate::cell::{Plan, Values};
use crate::clock::HYPERFRAME;

/// A line of this many bytes is too long.
pub const TOO_LONG: usize = 65_536;

/// Why a line is no command.
#[derive(Clone, Copy, Debug, PartialEq, Eq)]
pub enum Fault {
    UnknownCommand,
    UnknownBurst,
    TooFewWords,
    NotANumber,
    NumberTooLarge,
    TooManyWords,
    CountTooLarge,
    LineTooLong,
}
use Fault::*;

impl Fault {
    pub const ALL: [Fault; 8] = [
        UnknownCommand,
        UnknownBurst,
        TooFewWords,
        NotANumber,
        NumberTooLarge,
        TooManyWords,
        CountTooLarge,
        LineTooLong,
    ];

    pub fn reason(self) -> &'static str {
        match self {
            UnknownCommand => "unknown command",
            UnknownBurst => "unknown burst",
            TooFewWords => "too few words",
            NotANumber => "not a number",
            NumberTooLarge => "number too large",
            TooManyWords => "too many words",
            CountTooLarge => "count too large",
            LineTooLong => "line too long",
        }
    }
}

/// The words that a command may begin with.
pub const NAMES: [&str; 15] = [
    "split", "join", "hop", "map", "start", "open", "close", "seize", "release", "line", "who",
    "page", "build", "take", "table",
];

/// A command with its numbers as they go in, in the order of its words.
#[derive(Clone, Debug)]
pub enum Command {
    Split(u32),
    Join([u32; 3]),
    /// Mask; HSN, MAIO and frame; cell allocation.
    Hop(u64, [u32; 3], Vec<u16>),
    Map([u32; 4]),
    Start(Plan),
    Open(u32, Values),
    Close(u32),
    Seize([u32; 3]),
    Release([u32; 3]),
    Line([u32; 3]),
    Who([u32; 4]),
    /// The bytes of the IMSI, and the frame.
    Page(Vec<u8>, u32),
    /// A burst's call, and the bytes that it reads.
    Burst(Call, Vec<u8>),
    /// Timeslot, direction and frame, and how many frames.
    Table([u32; 3], u64),
}

type Read<T> = Result<T, Fault>;

/// The words of a line that are still to be read.
struct Words<'a>(std::vec::IntoIter<&'a [u8]>);

impl<'a> Words<'a> {
    fn of(line: &'a [u8]) -> Words<'a> {
        let words = line.split(|&byte| byte == b' ');
        let words: Vec<&[u8]> = words.filter(|word| !word.is_empty()).collect();
        Words(words.into_iter())
    }

    fn word(&mut self) -> Read<&'a [u8]> {
        self.0.next().ok_or(TooFewWords)
    }

    fn whole(&mut self) -> Read<u64> {
        number(self.word()?)
    }

    fn number(&mut self) -> Read<u32> {
        let whole = self.whole()?;
        Ok(u32::try_from(whole).unwrap_or(u32::MAX))
    }

    fn numbers<const N: usize>(&mut self) -> Read<[u32; N]> {
        let mut numbers = [0; N];
        for next in &mut numbers {
            *next = self.number()?;
        }
        Ok(numbers)
    }

    /// The rest of the line, which is a cell allocation.
    fn allocation(&mut self) -> Read<Vec<u16>> {
        let narrow = |whole| u16::try_from(whole).unwrap_or(u16::MAX);
        let rest = self.0.by_ref();
        rest.map(|word| number(word).map(narrow)).collect()
    }

    /// A digit to a byte.
    fn digits(&mut self) -> Read<Vec<u8>> {
        let value = |&byte: &u8| {
            char::from(byte)
                .to_digit(10)
                .map_or(255, |digit| digit as u8)
        };
        Ok(self.word()?.iter().map(value).collect())
    }

    fn start(&mut self) -> Read<Plan> {
        let [c0, bcc, ag, p] = self.numbers()?;
        Ok(Plan::new(self.allocation()?, c0, bcc, ag, p))
    }

    fn values(&mut self) -> Read<Values> {
        let tn = self.number()?;
        let mask = self.whole()?;
        let [hsn, maio, combination, tsc] = self.numbers()?;
        Ok(Values::from((tn, mask, hsn, maio, combination, tsc)))
    }

    fn build(&mut self) -> Read<Call> {
        match self.word()? {
            b"normal" => Ok(Call::BuildNormal(self.number()?)),
            b"sync" => Ok(Call::BuildSynchronization),
            b"access" => Ok(Call::BuildAccess),
            b"frequency" => Ok(Call::BuildFrequencyCorrection),
            b"dummy" => Ok(Call::BuildDummy),
            _ => Err(UnknownBurst),
        }
    }

    fn take(&mut self) -> Read<Call> {
        match self.word()? {
            b"normal" => Ok(Call::TakeNormal(self.number()?)),
            b"sync" => Ok(Call::TakeSynchronization),
            b"access" => Ok(Call::TakeAccess),
            _ => Err(UnknownBurst),
        }
    }

    /// The bits that the call reads, if it reads any.
    fn burst(&mut self, call: Call) -> Read<Command> {
        let bits = match call {
            Call::BuildFrequencyCorrection | Call::BuildDummy => Vec::new(),
            _ => self.digits()?,
        };
        Ok(Command::Burst(call, bits))
    }

    fn command(&mut self) -> Read<Command> {
        Ok(match self.0.next().unwrap_or_default() {
            b"split" => Command::Split(self.number()?),
            b"join" => Command::Join(self.numbers()?),
            b"hop" => Command::Hop(self.whole()?, self.numbers()?, self.allocation()?),
            b"map" => Command::Map(self.numbers()?),
            b"start" => Command::Start(self.start()?),
            b"open" => Command::Open(self.number()?, self.values()?),
            b"close" => Command::Close(self.number()?),
            b"seize" => Command::Seize(self.numbers()?),
            b"release" => Command::Release(self.numbers()?),
            b"line" => Command::Line(self.numbers()?),
            b"who" => Command::Who(self.numbers()?),
            b"page" => Command::Page(self.digits()?, self.number()?),
            b"build" => self.build().and_then(|call| self.burst(call))?,
            b"take" => self.take().and_then(|call| self.burst(call))?,
            b"table" => Command::Table(self.numbers()?, self.whole()?),
            _ => return Err(UnknownCommand),
        })
    }
}

/// A word of digits as a number.
fn number(word: &[u8]) -> Read<u64> {
    if !word.iter().all(u8::is_ascii_digit) {
        return Err(NotANumber);
    }
    let digits = std::str::from_utf8(word).expect("digits are ASCII");
    digits.parse().map_err(|_| NumberTooLarge)
}

/// The command that a line has, if nothing is wrong with it.
pub fn read(line: &[u8]) -> Result<Command, Fault> {
    if line.len() >= TOO_LONG {
        return Err(LineTooLong);
    }
    let mut words = Words::of(line);
    let command = words.command()?;
    match command {
        _ if words.0.next().is_some() => Err(TooManyWords),
        Command::Table(_, count) if count > u64::from(HYPERFRAME) => Err(CountTooLarge),
        _ => Ok(command),
    }
}
