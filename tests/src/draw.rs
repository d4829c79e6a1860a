//! Random starts and calls on a cell. An aimed call looks at the lines and is mostly accepted; an odd
//! one is an aimed call with a value or two moved to a border, past it or far away; a blind one has
//! values that are in their range and looks at no line.

use crate::calls::Call;
use crate::cell::{is_common_combination, subchannels, Cell, OpenLine, Plan, Values};
use crate::clock::HYPERFRAME;
use crate::frame_map::COMBINATIONS;
use crate::hopping::positions;
use crate::paging::Imsi;
use crate::random::Random;

/// A start with nothing wrong in it, and a cell allocation of `length` entries.
pub fn plan_of(random: &mut Random, length: u32) -> Plan {
    let ca = random.cell_allocation(length);
    let c0 = random.one_of(&ca).into();
    let ag = random.one_of(&[0, 1, 2, 2, 3, 5, 7]);
    Plan::new(ca, c0, random.below(8), ag, 2 + random.below(8))
}

/// A start with nothing wrong in it.
pub fn plan(random: &mut Random) -> Plan {
    let length = match random.below(4) {
        0 => random.one_of(&[1, 2, 63, 64]),
        1 => 1 + random.below(8),
        _ => 1 + random.below(64),
    };
    plan_of(random, length)
}

/// A start of which each value is spoilt with one chance in two, one way of several.
pub fn odd_plan(random: &mut Random) -> Plan {
    let mut plan = plan(random);
    if random.once_in(2) {
        spoil_allocation(random, &mut plan.ca);
    }
    if random.once_in(2) {
        let cut = plan.c0 + 65_536;
        plan.c0 = random.one_of(&[plan.c0 ^ 1, 1023, 1024, cut, u32::MAX]);
    }
    if random.once_in(2) {
        plan.bcc = odd_number(random, 7);
    }
    if random.once_in(2) {
        plan.ag = odd_number(random, 7);
    }
    if random.once_in(2) {
        plan.p = random.one_of(&[0, 1, 2, 9, 10, 256 + 5, 65_536 + 5, u32::MAX]);
    }
    plan
}

/// Spoils it one way of several. Where `at` is odd the list is turned round by `at` in place of
/// being reversed, and gets an ARFCN 0 there in place of an entry that it has.
fn spoil_allocation(random: &mut Random, ca: &mut Vec<u16>) {
    let at = random.below(ca.len() as u32) as usize;
    match random.below(6) {
        0 => ca.clear(),
        1 => *ca = random.cell_allocation(65),
        2 => *ca = random.cell_allocation(1000),
        3 if at % 2 == 1 => ca.rotate_left(at),
        3 => ca.reverse(),
        4 if at % 2 == 1 => ca.insert(at, 0),
        4 => ca.insert(at, ca[at]),
        _ => *ca.last_mut().unwrap() = random.one_of(&[1024, 2048, u16::MAX]),
    }
}

/// A number at an end of its range, one or two past it, or far past it; some of the last would be
/// right if they were cut to one byte or two.
pub fn odd_number(random: &mut Random, last: u32) -> u32 {
    let far = [256 + last, 65_536 + last, 1 << 31, u32::MAX];
    let near = [0, last, last + 1, last + 2];
    if random.once_in(2) {
        random.one_of(&near)
    } else {
        random.one_of(&far)
    }
}

/// One of them, if there are any.
fn pick<T: Copy>(random: &mut Random, items: impl Iterator<Item = T>) -> Option<T> {
    let items: Vec<T> = items.collect();
    (!items.is_empty()).then(|| random.one_of(&items))
}

/// A mobile allocation as a mask again.
fn mask_of(cell: &Cell, ma: &[u16]) -> u64 {
    let ca = &cell.plan.ca;
    let position = |arfcn| ca.iter().position(|entry| entry == arfcn).unwrap();
    ma.iter().map(|arfcn| 1 << position(arfcn)).sum()
}

/// The values of the next common line, where there is room for one.
fn common_values(random: &mut Random, cell: &Cell) -> Option<Values> {
    let combinations = cell.lines.values().map(|line| line.combination);
    let common: Vec<u32> = combinations.filter(|&c| is_common_combination(c)).collect();
    let (combination, tn) = match common.len() as u32 {
        0 if cell.plan.ag <= 2 => (random.one_of(&[4, 4, 5]), 0),
        0 => (4, 0),
        lines @ 1..=3 if !common.contains(&5) => (6, 2 * lines),
        _ => return None,
    };
    Some(Values {
        tn,
        mask: mask_of(cell, &[cell.plan.c0 as u16]),
        hsn: random.below(64),
        maio: 0,
        combination,
        tsc: cell.plan.bcc,
    })
}

fn hsn(random: &mut Random) -> u32 {
    if random.once_in(4) {
        0
    } else {
        random.below(64)
    }
}

/// The values of a line that hops in step with an open one, at an offset that is free.
fn shared_values(random: &mut Random, cell: &Cell) -> Option<Values> {
    let other = pick(random, cell.lines.values())?;
    let in_step =
        |line: &&OpenLine| (line.tn, line.hsn, &line.ma) == (other.tn, other.hsn, &other.ma);
    let lines = cell.lines.values().filter(in_step);
    let taken: Vec<u32> = lines.map(|line| line.maio).collect();
    let free = (0..other.ma.len() as u32).filter(|maio| !taken.contains(maio));
    Some(Values {
        tn: other.tn,
        mask: mask_of(cell, &other.ma),
        hsn: other.hsn,
        maio: pick(random, free)?,
        combination: random.one_of(&[1, 2, 7]),
        tsc: random.below(8),
    })
}

/// The values of a line that shares no ARFCN with the open lines of its timeslot. Mostly it leaves
/// C0 to the common lines.
fn apart_values(random: &mut Random, cell: &Cell) -> Option<Values> {
    let tn = random.below(8);
    let lines = cell.lines.values().filter(|line| line.tn == tn);
    let mut taken: Vec<u16> = lines.flat_map(|line| line.ma.clone()).collect();
    if tn % 2 == 0 && !random.once_in(4) {
        taken.push(cell.plan.c0 as u16);
    }
    let ca = cell.plan.ca.iter().copied();
    let free: Vec<u16> = ca.filter(|arfcn| !taken.contains(arfcn)).collect();
    let most = random.one_of(&[1, 2, 4, 8, 64]).min(free.len() as u32);
    if most == 0 {
        return None;
    }
    let n = 1 + random.below(most);
    let chosen = random.choose(n, free.len() as u32).into_iter();
    let ma: Vec<u16> = chosen.map(|i| free[i as usize]).collect();
    Some(Values {
        tn,
        mask: mask_of(cell, &ma),
        hsn: hsn(random),
        maio: random.below(n),
        combination: random.one_of(&[1, 2, 7]),
        tsc: random.below(8),
    })
}

fn aimed_open(random: &mut Random, cell: &Cell) -> Option<Call> {
    let closed = (0..64).filter(|number| !cell.lines.contains_key(number));
    let line = pick(random, closed)?;
    let values = match random.below(4) {
        0 => common_values(random, cell)?,
        1 => shared_values(random, cell)?,
        _ => apart_values(random, cell)?,
    };
    Some(Call::Open(line, values))
}

fn aimed_close(random: &mut Random, cell: &Cell) -> Option<Call> {
    let free = cell.lines.iter().filter(|(_, line)| line.owners.is_empty());
    let line = *pick(random, free)?.0;
    Some(Call::Close(line))
}

/// Line, subchannel and owner of some held subchannel, or of some free one.
fn subchannel(random: &mut Random, cell: &Cell, held: bool) -> Option<(u32, u32, u32)> {
    let all = cell.lines.iter().flat_map(|(&number, line)| {
        subchannels(line.combination).map(move |s| (number, s, line.owner(s)))
    });
    pick(random, all.filter(|&(_, _, owner)| (owner != 0) == held))
}

fn owner(random: &mut Random) -> u32 {
    let any = 1 + random.below(65_535);
    random.one_of(&[1, 2, 65_535, any])
}

fn aimed_seize(random: &mut Random, cell: &Cell) -> Option<Call> {
    let (line, s, _) = subchannel(random, cell, false)?;
    let owner = owner(random);
    Some(Call::Seize(line, s, owner))
}

fn aimed_release(random: &mut Random, cell: &Cell) -> Option<Call> {
    let (line, s, owner) = subchannel(random, cell, true)?;
    Some(Call::Release(line, s, owner))
}

fn aimed_line(random: &mut Random, cell: &Cell) -> Option<Call> {
    let line = *pick(random, cell.lines.keys())?;
    let (frame, direction) = (random.frame(), random.below(2));
    Some(Call::Line(line, frame, direction))
}

/// An open line's timeslot, and the ARFCN that it has in the frame.
fn aimed_who(random: &mut Random, cell: &Cell) -> Option<Call> {
    let (&line, open) = pick(random, cell.lines.iter())?;
    let (frame, direction) = (random.frame(), random.below(2));
    let on_air = cell.line(line, frame, direction).unwrap();
    Some(Call::Who(open.tn, on_air.hop.arfcn, frame, direction))
}

/// An IMSI of 3 to 15 digits.
pub fn imsi(random: &mut Random) -> Imsi {
    let length = random.one_of(&[3, 4, 14, 15, 15, 15]);
    let digits = (0..length).map(|_| random.below(10) as u8);
    Imsi::new(&digits.collect::<Vec<u8>>())
}

/// Mostly where there is a common line.
fn aimed_page(random: &mut Random, cell: &Cell) -> Option<Call> {
    let mut lines = cell.lines.values();
    let common = lines.any(|line| is_common_combination(line.combination));
    let (imsi, frame) = (imsi(random), random.frame());
    (common || random.once_in(8)).then_some(Call::Page(imsi, frame))
}

/// There is a closed line or an open one, so that some kind of call can always be aimed.
fn aimed(random: &mut Random, cell: &Cell) -> Call {
    loop {
        let call = match random.below(24) {
            0..=6 => aimed_open(random, cell),
            7..=8 => aimed_close(random, cell),
            9..=13 => aimed_seize(random, cell),
            14..=16 => aimed_release(random, cell),
            17..=19 => aimed_line(random, cell),
            20..=21 => aimed_who(random, cell),
            _ => aimed_page(random, cell),
        };
        if let Some(call) = call {
            return call;
        }
    }
}

fn spoil_open(random: &mut Random, cell: &Cell, line: &mut u32, values: &mut Values) {
    let length = cell.plan.ca.len() as u32;
    let above = 1u64.checked_shl(length).unwrap_or(0);
    let n = values.mask.count_ones();
    match random.below(9) {
        0 => *line = odd_number(random, 63),
        1 => values.tn = odd_number(random, 7),
        2 => values.mask = random.one_of(&[0, above, 1 << 63, u64::MAX]),
        3 => values.mask |= random.one_of(&[above, 1 << (length - 1), 1]),
        4 => values.hsn = odd_number(random, 63),
        5 => values.maio = odd_number(random, n.saturating_sub(1)),
        6 => values.combination = random.one_of(&[0, 3, 8, 256 + 1, 65_536 + 7, u32::MAX]),
        7 => values.combination = random.one_of(&COMBINATIONS),
        _ => values.tsc = odd_number(random, 7),
    }
}

fn spoil_subchannel(random: &mut Random, line: &mut u32, s: &mut u32, owner: &mut u32) {
    match random.below(4) {
        0 => *line = odd_number(random, 63),
        1 => *s = odd_number(random, 7),
        2 => *s = random.one_of(&[*s ^ 1, 1, 2, 4]),
        _ => *owner = random.one_of(&[0, 1, 65_535, 65_536, 65_537, 1 << 31, u32::MAX]),
    }
}

fn spoil_line(random: &mut Random, line: &mut u32, frame: &mut u32, direction: &mut u32) {
    match random.below(3) {
        0 => *line = odd_number(random, 63),
        1 => *frame = odd_number(random, HYPERFRAME - 1),
        _ => *direction = odd_number(random, 1),
    }
}

fn spoil_who(
    random: &mut Random,
    tn: &mut u32,
    arfcn: &mut u32,
    frame: &mut u32,
    direction: &mut u32,
) {
    match random.below(4) {
        0 => *tn = odd_number(random, 7),
        1 => *arfcn = odd_number(random, 1023),
        2 => *frame = odd_number(random, HYPERFRAME - 1),
        _ => *direction = odd_number(random, 1),
    }
}

/// Too few digits or too many, one that is none, or an odd frame.
fn spoil_page(random: &mut Random, imsi: &mut Imsi, frame: &mut u32) {
    let mut digits = imsi.digits().to_vec();
    match random.below(4) {
        0 => digits.truncate(random.below(4) as usize),
        1 => digits.resize(random.one_of(&[15, 16]), 9),
        2 if !digits.is_empty() => {
            let at = random.below(digits.len() as u32) as usize;
            digits[at] = random.one_of(&[9, 10, 16, 48, 128, 255]);
        }
        _ => *frame = odd_number(random, HYPERFRAME - 1),
    }
    *imsi = Imsi::new(&digits);
}

/// An aimed call with one value or two spoilt.
fn odd(random: &mut Random, cell: &Cell) -> Call {
    let mut call = aimed(random, cell);
    for _ in 0..1 + random.below(2) {
        match &mut call {
            Call::Open(line, values) => spoil_open(random, cell, line, values),
            Call::Close(line) => *line = odd_number(random, 63),
            Call::Seize(line, s, owner) | Call::Release(line, s, owner) => {
                spoil_subchannel(random, line, s, owner)
            }
            Call::Line(line, frame, direction) => spoil_line(random, line, frame, direction),
            Call::Who(tn, arfcn, frame, direction) => {
                spoil_who(random, tn, arfcn, frame, direction)
            }
            Call::Page(imsi, frame) => spoil_page(random, imsi, frame),
        }
    }
    call
}

fn blind_values(random: &mut Random, cell: &Cell) -> Values {
    let length = cell.plan.ca.len() as u32;
    let n = random.one_of(&[1, 2, length]).min(length);
    let c0 = mask_of(cell, &[cell.plan.c0 as u16]);
    let any = random.mask(n, length);
    let mask = random.one_of(&[any, any, c0]);
    Values {
        tn: random.below(8),
        mask,
        hsn: hsn(random),
        maio: random.below(positions(mask).len() as u32),
        combination: random.one_of(&COMBINATIONS),
        tsc: random.below(8),
    }
}

fn blind(random: &mut Random, cell: &Cell) -> Call {
    let (line, s, owner) = (random.below(64), random.below(8), owner(random));
    let (frame, direction) = (random.frame(), random.below(2));
    let (tn, arfcn) = (random.below(8), random.below(1024));
    match random.below(10) {
        0..=2 => Call::Open(line, blind_values(random, cell)),
        3..=4 => Call::Close(line),
        5 => Call::Seize(line, s, owner),
        6 => Call::Release(line, s, owner),
        7 => Call::Line(line, frame, direction),
        8 => Call::Who(tn, arfcn, frame, direction),
        _ => Call::Page(imsi(random), frame),
    }
}

/// A call on this cell, one in `times` odd or blind and the others aimed.
pub fn call(random: &mut Random, cell: &Cell, times: u32) -> Call {
    if !random.once_in(times) {
        aimed(random, cell)
    } else if random.once_in(2) {
        odd(random, cell)
    } else {
        blind(random, cell)
    }
}
