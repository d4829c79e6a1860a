//! What is on the air: `line`, and a whole frame of it, beside libosmocore's hop with a look-up in a
//! plain table; `who` beside a hop of libosmocore for each open line.

use crate::cells::{after, cells, empty, held, leak, one_cell, opens, opens_in_one};
use crate::cells::{DrawOpens, CALLS};
use crate::timing::{contender, Line};
use crate::{added_up, osmocore, plain};
use tdma_tests::calls::Both;
use tdma_tests::cell::{self, OpenLine};
use tdma_tests::clock::HYPERFRAME;
use tdma_tests::frame_map::Channel;
use tdma_tests::library::{self, LineAnswer, WhoAnswer};
use tdma_tests::random::Random;

/// A line as a caller of libosmocore would keep it, with the mobile allocation as a ready list.
struct Ready {
    number: u32,
    ma: Vec<u16>,
    hsn: u32,
    maio: u32,
    combination: u32,
    tn: u32,
    owners: [u32; 8],
}

impl Ready {
    fn of((&number, line): (&u32, &OpenLine)) -> Ready {
        Ready {
            number,
            ma: line.ma.clone(),
            hsn: line.hsn,
            maio: line.maio,
            combination: line.combination,
            tn: line.tn,
            owners: std::array::from_fn(|s| line.owner(s as u32)),
        }
    }

    fn arfcn(&self, frame: u32) -> u32 {
        osmocore::hop(&self.ma, self.hsn, self.maio, frame)
    }

    /// The hop and a look-up in the table. Nothing is checked.
    fn line(&self, plain: &plain::Tables, frame: u32, direction: u32) -> u32 {
        let arfcn = self.arfcn(frame);
        let map = plain.map(self.combination, self.tn, frame, direction);
        let idle = map.channel == Channel::Idle as u8;
        let owner = if idle {
            0
        } else {
            self.owners[map.subchannel as usize]
        };
        arfcn + owner + added_up(map)
    }
}

/// Hops every line, and tells the one that has the ARFCN: whether there is one, its number and the
/// ARFCN, added up.
fn found_by_hops(lines: &[Ready], tn: u32, arfcn: u32, frame: u32) -> u32 {
    let mut found = 0;
    for line in lines {
        let here = line.arfcn(frame);
        if line.tn == tn && here == arfcn {
            found = 1 + line.number + arfcn;
        }
    }
    found
}

/// The same of an answer.
fn found(a: WhoAnswer) -> u32 {
    a.refusal + a.found + a.line + a.answer.arfcn
}

/// All fields added up, but for MAI and position, which libosmocore doesn't answer.
fn line_added_up(a: LineAnswer) -> u32 {
    let blocks = a.blocks + a.block + a.place + a.second_block + a.second_place;
    a.refusal + a.arfcn + a.owner + a.channel + a.subchannel + blocks
}

/// A cell, and its open lines made ready, in the order of their numbers.
struct Prepared {
    both: &'static Both,
    ready: Vec<Ready>,
}

fn prepared(draw: impl FnMut() -> Both) -> &'static [Prepared] {
    let prepare = |both: &'static Both| Prepared {
        both,
        ready: both.second.lines.iter().map(Ready::of).collect(),
    };
    let all = cells(draw).iter().map(prepare);
    all.collect::<Vec<Prepared>>().leak()
}

/// A cell, a line, a frame and a direction.
type Question = (&'static Prepared, u32, u32, u32);

fn line_line(random: &mut Random, n: u32, cyclic: bool) -> Line {
    let cells = prepared(|| held(random, n, cyclic));
    let asked: &[Question] = leak(CALLS, || {
        let cell = &cells[one_cell(random)];
        (
            cell,
            random.below(64),
            random.below(HYPERFRAME),
            random.below(2),
        )
    });
    let plain = plain::Tables::new();
    let contenders = vec![
        contender("library", asked, |&(cell, line, frame, direction)| {
            line_added_up(library::line(&cell.both.library, line, frame, direction))
        }),
        contender(
            "libosmocore, plain table",
            asked,
            move |&(cell, line, frame, direction)| {
                cell.ready[line as usize].line(&plain, frame, direction)
            },
        ),
    ];
    let hsn = if cyclic { "0" } else { "1 to 63" };
    Line::new(format!("line, N = {n}, HSN {hsn}"), CALLS, contenders).within(2.0, 1.2)
}

/// Line on full cells whose subchannels are all held.
pub fn line_lines(random: &mut Random) -> Vec<Line> {
    let kinds = [(1, false), (8, false), (33, false), (64, false), (64, true)];
    kinds.map(|(n, cyclic)| line_line(random, n, cyclic)).into()
}

/// How many frames a pass has.
const FRAMES: usize = 100;

/// The sum over 64 lines and both directions.
fn whole_frame(mut line: impl FnMut(u32, u32) -> u32) -> u32 {
    let both = (0..64).flat_map(|number| [(number, 0), (number, 1)]);
    both.map(|(number, direction)| line(number, direction))
        .sum()
}

fn frame_line(random: &mut Random, n: u32) -> Line {
    let cells = prepared(|| held(random, n, false));
    let asked: &[(&Prepared, u32)] = leak(FRAMES, || {
        let cell = &cells[one_cell(random)];
        (cell, random.below(HYPERFRAME))
    });
    let plain = plain::Tables::new();
    let contenders = vec![
        contender("library", asked, |&(cell, frame)| {
            whole_frame(|line, direction| {
                line_added_up(library::line(&cell.both.library, line, frame, direction))
            })
        }),
        contender(
            "128 x libosmocore, plain table",
            asked,
            move |&(cell, frame)| {
                whole_frame(|line, direction| {
                    cell.ready[line as usize].line(&plain, frame, direction)
                })
            },
        ),
    ];
    let label = format!("whole frame: 128 x line, N = {n}");
    Line::new(label, FRAMES, contenders).within(1.0, 0.8)
}

/// A whole frame of full cells whose subchannels are all held.
pub fn frame_lines(random: &mut Random) -> Vec<Line> {
    [1, 8, 33, 64].map(|n| frame_line(random, n)).into()
}

/// An ARFCN, a frame and a direction, in timeslot 7.
type Place = (u32, u32, u32);

/// Where line 63 is.
fn hit(random: &mut Random, cell: &cell::Cell) -> Place {
    let (frame, direction) = (random.below(HYPERFRAME), random.below(2));
    let on_air = cell.line(63, frame, direction).unwrap();
    (on_air.hop.arfcn, frame, direction)
}

/// Where no line is: on an ARFCN of the cell, or on another if all are used in that frame.
fn miss(random: &mut Random, cell: &cell::Cell) -> Place {
    let (frame, direction) = (random.below(HYPERFRAME), random.below(2));
    let in_seven = cell.lines.iter().filter(|(_, line)| line.tn == 7);
    let line = |(&number, _): (&u32, _)| cell.line(number, frame, direction).unwrap();
    let used: Vec<u32> = in_seven.map(|each| line(each).hop.arfcn).collect();
    let ca = cell.plan.ca.iter().map(|&arfcn| u32::from(arfcn));
    let mut free: Vec<u32> = ca.filter(|arfcn| !used.contains(arfcn)).collect();
    if free.is_empty() {
        free = (0..1024).filter(|arfcn| !used.contains(arfcn)).collect();
    }
    (random.one_of(&free), frame, direction)
}

type DrawPlace = fn(&mut Random, &cell::Cell) -> Place;
const THE_LAST: (&str, DrawPlace) = ("the last", hit);
const NOBODY: (&str, DrawPlace) = ("nobody", miss);

/// Who on a cell with the last `count` of 64 lines, so that timeslot 7 is the first to have any.
fn who_line(
    random: &mut Random,
    lines: &str,
    (count, opens): (usize, DrawOpens),
    (ask, place): (&str, DrawPlace),
) -> Line {
    let cells = prepared(|| {
        let opens = opens(random).split_off(64 - count);
        after(empty(random), &opens)
    });
    let asked: &[(&Prepared, Place)] = leak(CALLS, || {
        let cell = &cells[one_cell(random)];
        (cell, place(random, &cell.both.second))
    });
    let contenders = vec![
        contender("library", asked, |&(cell, (arfcn, frame, direction))| {
            found(library::who(&cell.both.library, 7, arfcn, frame, direction))
        }),
        contender(
            "a libosmocore hop for each line",
            asked,
            |&(cell, (arfcn, frame, _))| found_by_hops(&cell.ready, 7, arfcn, frame),
        ),
    ];
    Line::new(format!("who, {lines}: {ask}"), CALLS, contenders)
}

/// Who is where the last of 64 lines is, and where nobody is.
pub fn who_lines(random: &mut Random) -> Vec<Line> {
    let kinds: [(&str, DrawOpens); 4] = [
        ("8 to a TN, N = 8", |r| opens(r, 8, false)),
        ("8 to a TN, N = 64", |r| opens(r, 64, false)),
        ("64 in one TN, N = 64", |r| opens_in_one(r, 64)),
        ("64 in one TN, N = 1", |r| opens_in_one(r, 1)),
    ];
    let mut lines = Vec::new();
    for (kind, opens) in kinds {
        for ask in [THE_LAST, NOBODY] {
            lines.push(who_line(random, kind, (64, opens), ask).within(0.5, 0.2));
        }
    }
    lines
}

/// Who with more and more lines open, eight to a timeslot.
pub fn who_growth(random: &mut Random) -> Vec<Line> {
    let asks = [(THE_LAST, vec![16, 32, 64]), (NOBODY, vec![0, 16, 32, 64])];
    let mut lines = Vec::new();
    for (ask, counts) in asks {
        for count in counts {
            let label = format!("{count} lines");
            let cell: (usize, DrawOpens) = (count, |r| opens(r, 8, false));
            lines.push(who_line(random, &label, cell, ask));
        }
    }
    lines
}
