//! The cell as a book of its open lines: a line stands in it only while it is open, its mobile
//! allocation is the list of its ARFCNs, and only held subchannels have an entry. For each call all
//! conditions of document 01 are asked, in no order, and the lowest number that holds refuses.

use crate::clock::HYPERFRAME;
use crate::frame_map::{map, Burst, Channel, COMBINATIONS};
use crate::hopping::{hop, is_cell_allocation, positions, Hop};
use crate::{refuse, Answer, CELL_ALLOCATION, CELL_PARAMETER, CLASH, COMMON_CHANNEL, LINE_CLOSED};
use crate::{LINE_HELD, LINE_OPEN, MAIO, MOBILE_ALLOCATION, NOT_HOLDER, NO_SUBCHANNEL};
use crate::{OUT_OF_RANGE, SUBCHANNEL_HELD};
use std::collections::{BTreeMap, HashMap};

/// What start is given.
#[derive(Clone, Debug)]
pub struct Plan {
    pub ca: Vec<u16>,
    pub c0: u32,
    pub bcc: u32,
    pub ag: u32,
    pub p: u32,
}

impl Plan {
    pub fn new(ca: impl IntoIterator<Item = u16>, c0: u32, bcc: u32, ag: u32, p: u32) -> Plan {
        let ca = ca.into_iter().collect();
        Plan { ca, c0, bcc, ag, p }
    }
}

/// The six values that open is given.
#[derive(Clone, Copy, Debug)]
pub struct Values {
    pub tn: u32,
    pub mask: u64,
    pub hsn: u32,
    pub maio: u32,
    pub combination: u32,
    pub tsc: u32,
}

/// The six values in document 01's order: TN, mask, HSN, MAIO, combination, TSC.
pub type Six = (u32, u64, u32, u32, u32, u32);

impl From<Six> for Values {
    fn from((tn, mask, hsn, maio, combination, tsc): Six) -> Self {
        Values {
            tn,
            mask,
            hsn,
            maio,
            combination,
            tsc,
        }
    }
}

#[derive(Clone, Debug)]
pub struct OpenLine {
    pub tn: u32,
    /// The mask that open was given, to hold answers to it; nothing is worked out by it.
    pub mask: u64,
    /// The mobile allocation, in CA's order.
    pub ma: Vec<u16>,
    pub hsn: u32,
    pub maio: u32,
    pub combination: u32,
    pub tsc: u32,
    /// The owner of each held subchannel.
    pub owners: HashMap<u32, u32>,
}

/// The number of a refusal, and with a clash the line that stands in the way, else 0.
#[derive(Clone, Copy, Debug, PartialEq, Eq)]
pub struct Refused {
    pub number: u32,
    pub line: u32,
}

impl From<u32> for Refused {
    fn from(number: u32) -> Self {
        Refused { number, line: 0 }
    }
}

/// What a line has in a frame.
#[derive(Clone, Copy, Debug)]
pub struct OnAir {
    pub hop: Hop,
    pub burst: &'static Burst,
    pub owner: u32,
}

/// The line that has an ARFCN in a frame, and what it has there.
#[derive(Clone, Copy, Debug)]
pub struct Found {
    pub line: u32,
    pub on_air: OnAir,
}

/// Numbers of refusals, and whether the condition of each holds.
pub type Causes = Vec<(u32, bool)>;

/// The subchannels of a combination.
pub fn subchannels(combination: u32) -> std::ops::Range<u32> {
    match combination {
        1 => 0..1,
        2 => 0..2,
        5 => 0..4,
        7 => 0..8,
        _ => 0..0,
    }
}

pub fn is_common_combination(combination: u32) -> bool {
    [4, 5, 6].contains(&combination)
}

/// Whether a channel is part of the common part of its line.
pub fn is_common(channel: Channel) -> bool {
    use Channel::*;
    [Fcch, Sch, Bcch, Ccch, Rach].contains(&channel)
}

impl OpenLine {
    fn clashes(&self, other: &OpenLine) -> bool {
        let share = self.ma.iter().any(|arfcn| other.ma.contains(arfcn));
        let same_sequence = self.ma == other.ma && self.hsn == other.hsn;
        self.tn == other.tn && share && !(same_sequence && self.maio != other.maio)
    }

    /// The mobile allocation by itself is a cell allocation of which the line uses every entry. The
    /// position is where the cell's own has the ARFCN.
    fn hop(&self, ca: &[u16], frame: u32) -> Answer<Hop> {
        let all = (0..self.ma.len()).map(|position| 1 << position).sum();
        let Hop { arfcn, mai, .. } = hop(&self.ma, all, self.hsn, self.maio, frame)?;
        let position = ca.iter().position(|&entry| u32::from(entry) == arfcn);
        let position = position.unwrap() as u32;
        Ok(Hop {
            arfcn,
            mai,
            position,
        })
    }

    pub fn owner(&self, s: u32) -> u32 {
        self.owners.get(&s).copied().unwrap_or(0)
    }
}

#[derive(Clone, Debug)]
pub struct Cell {
    pub plan: Plan,
    pub lines: BTreeMap<u32, OpenLine>,
}

impl Cell {
    /// The refusal, if there is one, and the cell.
    pub fn start(plan: &Plan) -> (Answer<()>, Cell) {
        let listed = plan.ca.iter().any(|&arfcn| u32::from(arfcn) == plan.c0);
        let in_range = plan.bcc <= 7 && plan.ag <= 7 && (2..=9).contains(&plan.p);
        let answer = refuse(&[
            (CELL_PARAMETER, !listed || !in_range),
            (CELL_ALLOCATION, !is_cell_allocation(&plan.ca)),
        ]);
        let refused = Plan::new([0], 0, 0, 0, 2);
        let plan = answer.map_or(refused, |()| plan.clone());
        let lines = BTreeMap::new();
        (answer, Cell { plan, lines })
    }

    /// A line with these values. Ones that stand for no ARFCN are left out of its list.
    fn line_of(&self, v: &Values) -> OpenLine {
        let listed = positions(v.mask).into_iter();
        let ma = listed.filter_map(|position| self.plan.ca.get(position as usize).copied());
        OpenLine {
            tn: v.tn,
            mask: v.mask,
            ma: ma.collect(),
            hsn: v.hsn,
            maio: v.maio,
            combination: v.combination,
            tsc: v.tsc,
            owners: HashMap::new(),
        }
    }

    /// The mask of a line, 0 for a closed one.
    pub fn mask(&self, number: u32) -> u64 {
        self.lines.get(&number).map_or(0, |line| line.mask)
    }

    fn some_line(&self, test: impl Fn(&OpenLine) -> bool) -> bool {
        self.lines.values().any(test)
    }

    fn open_six_on(&self, tn: u32) -> bool {
        self.some_line(|line| line.combination == 6 && line.tn == tn)
    }

    /// Whether a line to be opened is a common channel out of its place.
    fn misplaced(&self, line: &OpenLine) -> bool {
        let on_c0 = line.ma.len() == 1 && u32::from(line.ma[0]) == self.plan.c0;
        let fits = on_c0 && line.tsc == self.plan.bcc;
        let first = line.tn == 0 && !self.some_line(|l| is_common_combination(l.combination));
        match line.combination {
            4 => !(fits && first),
            5 => !(fits && first && self.plan.ag <= 2),
            6 if line.tn == 2 => !(fits && self.some_line(|l| l.combination == 4)),
            6 if line.tn == 4 || line.tn == 6 => !(fits && self.open_six_on(line.tn - 2)),
            6 => true,
            _ => false,
        }
    }

    /// The smallest line that stands in the way of this one.
    fn in_the_way(&self, line: &OpenLine) -> Option<u32> {
        let mut in_the_way = self.lines.iter().filter(|(_, other)| other.clashes(line));
        in_the_way.next().map(|(number, _)| *number)
    }

    pub fn open_causes(&self, number: u32, v: &Values) -> Causes {
        let line = self.line_of(v);
        let n = positions(v.mask).len();
        let in_range = number <= 63 && v.tn <= 7 && v.hsn <= 63 && v.tsc <= 7;
        vec![
            (CLASH, self.in_the_way(&line).is_some()),
            (COMMON_CHANNEL, self.misplaced(&line)),
            (LINE_OPEN, self.lines.contains_key(&number)),
            (MAIO, v.maio as usize >= n),
            (MOBILE_ALLOCATION, n == 0 || line.ma.len() < n),
            (
                OUT_OF_RANGE,
                !in_range || !COMBINATIONS.contains(&v.combination),
            ),
        ]
    }

    pub fn open(&mut self, number: u32, v: &Values) -> Result<(), Refused> {
        let line = self.line_of(v);
        refuse(&self.open_causes(number, v)).map_err(|refusal| Refused {
            number: refusal,
            line: match refusal {
                CLASH => self.in_the_way(&line).unwrap(),
                _ => 0,
            },
        })?;
        self.lines.insert(number, line);
        Ok(())
    }

    pub fn close_causes(&self, number: u32) -> Causes {
        let line = self.lines.get(&number);
        let held = line.is_some_and(|line| !line.owners.is_empty());
        let needed = line.is_some_and(|line| {
            [4, 6].contains(&line.combination) && self.open_six_on(line.tn + 2)
        });
        vec![
            (LINE_HELD, held),
            (COMMON_CHANNEL, needed),
            (LINE_CLOSED, line.is_none()),
            (OUT_OF_RANGE, number > 63),
        ]
    }

    pub fn close(&mut self, number: u32) -> Answer<()> {
        refuse(&self.close_causes(number))?;
        self.lines.remove(&number);
        Ok(())
    }

    /// What seize and release have in common.
    fn subchannel_causes(&self, number: u32, s: u32, owner: u32) -> Causes {
        let line = self.lines.get(&number);
        let exists = line.is_some_and(|line| subchannels(line.combination).contains(&s));
        vec![
            (NO_SUBCHANNEL, !exists),
            (LINE_CLOSED, line.is_none()),
            (OUT_OF_RANGE, number > 63 || !(1..=65_535).contains(&owner)),
        ]
    }

    /// The owner of a subchannel, 0 for none.
    fn owner(&self, number: u32, s: u32) -> u32 {
        self.lines.get(&number).map_or(0, |line| line.owner(s))
    }

    pub fn seize_causes(&self, number: u32, s: u32, owner: u32) -> Causes {
        let mut causes = self.subchannel_causes(number, s, owner);
        causes.push((SUBCHANNEL_HELD, self.owner(number, s) != 0));
        causes
    }

    pub fn seize(&mut self, number: u32, s: u32, owner: u32) -> Answer<()> {
        refuse(&self.seize_causes(number, s, owner))?;
        let line = self.lines.get_mut(&number).unwrap();
        line.owners.insert(s, owner);
        Ok(())
    }

    pub fn release_causes(&self, number: u32, s: u32, owner: u32) -> Causes {
        let mut causes = self.subchannel_causes(number, s, owner);
        causes.push((NOT_HOLDER, self.owner(number, s) != owner));
        causes
    }

    pub fn release(&mut self, number: u32, s: u32, owner: u32) -> Answer<()> {
        refuse(&self.release_causes(number, s, owner))?;
        let line = self.lines.get_mut(&number).unwrap();
        line.owners.remove(&s);
        Ok(())
    }

    pub fn line_causes(&self, number: u32, frame: u32, direction: u32) -> Causes {
        let in_range = number <= 63 && frame < HYPERFRAME && direction <= 1;
        vec![
            (LINE_CLOSED, !self.lines.contains_key(&number)),
            (OUT_OF_RANGE, !in_range),
        ]
    }

    pub fn line(&self, number: u32, frame: u32, direction: u32) -> Answer<OnAir> {
        refuse(&self.line_causes(number, frame, direction))?;
        let line = &self.lines[&number];
        let burst = map(line.combination, line.tn, frame, direction)?;
        let own = burst.channel != Channel::Idle && !is_common(burst.channel);
        Ok(OnAir {
            hop: line.hop(&self.plan.ca, frame)?,
            burst,
            owner: if own { line.owner(burst.subchannel) } else { 0 },
        })
    }

    pub fn who_causes(&self, tn: u32, arfcn: u32, frame: u32, direction: u32) -> Causes {
        let in_range = tn <= 7 && arfcn <= 1023 && frame < HYPERFRAME && direction <= 1;
        vec![(OUT_OF_RANGE, !in_range)]
    }

    /// All lines of the timeslot are tried, and one at most may have the ARFCN.
    pub fn who(&self, tn: u32, arfcn: u32, frame: u32, direction: u32) -> Answer<Option<Found>> {
        refuse(&self.who_causes(tn, arfcn, frame, direction))?;
        let mut found = None;
        for (&line, _) in self.lines.iter().filter(|(_, line)| line.tn == tn) {
            let on_air = self.line(line, frame, direction)?;
            if on_air.hop.arfcn == arfcn {
                assert!(found.is_none(), "two lines on ARFCN {arfcn}, FN {frame}");
                found = Some(Found { line, on_air });
            }
        }
        Ok(found)
    }
}
