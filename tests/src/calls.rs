//! The calls on a cell as values, and a pair of cells, the library's and the second
//! implementation's, on which each call is made alike.

use crate::cell::{Causes, Cell, Plan, Refused, Values};
use crate::library::{self, Changed, LineAnswer, PageAnswer, WhoAnswer};
use crate::paging::Imsi;
use crate::placed;

/// A call on a cell, with what it is given beside the cell, in the header's order.
#[derive(Clone, Copy, Debug)]
pub enum Call {
    /// Line, and its six values.
    Open(u32, Values),
    Close(u32),
    /// Line, subchannel, owner.
    Seize(u32, u32, u32),
    Release(u32, u32, u32),
    /// Line, frame, direction.
    Line(u32, u32, u32),
    /// Timeslot, ARFCN, frame, direction.
    Who(u32, u32, u32, u32),
    /// IMSI, frame.
    Page(Imsi, u32),
}

impl Call {
    pub fn name(&self) -> &'static str {
        match self {
            Call::Open(..) => "open",
            Call::Close(..) => "close",
            Call::Seize(..) => "seize",
            Call::Release(..) => "release",
            Call::Line(..) => "line",
            Call::Who(..) => "who",
            Call::Page(..) => "page",
        }
    }

    /// Whether the call may change the cell.
    pub fn changes(&self) -> bool {
        !matches!(self, Call::Line(..) | Call::Who(..) | Call::Page(..))
    }

    /// The refusals of this call on a cell, with whether the condition of each holds.
    pub fn causes(&self, cell: &Cell) -> Causes {
        match *self {
            Call::Open(line, values) => cell.open_causes(line, &values),
            Call::Close(line) => cell.close_causes(line),
            Call::Seize(line, s, owner) => cell.seize_causes(line, s, owner),
            Call::Release(line, s, owner) => cell.release_causes(line, s, owner),
            Call::Line(line, frame, direction) => cell.line_causes(line, frame, direction),
            Call::Who(tn, arfcn, frame, direction) => cell.who_causes(tn, arfcn, frame, direction),
            Call::Page(ref imsi, frame) => cell.page_causes(imsi.digits(), frame),
        }
    }
}

/// A call that changes the cell, made on the library's. Line, who and page, which change nothing,
/// give none.
pub fn change(cell: &mut library::Cell, call: &Call) -> Option<Changed> {
    match *call {
        Call::Open(line, values) => Some(library::open(cell, line, &values)),
        Call::Close(line) => Some(library::close(cell, line)),
        Call::Seize(line, s, owner) => Some(library::seize(cell, line, s, owner)),
        Call::Release(line, s, owner) => Some(library::release(cell, line, s, owner)),
        Call::Line(..) | Call::Who(..) | Call::Page(..) => None,
    }
}

/// The same on a cell of the second implementation.
pub fn second_change(cell: &mut Cell, call: &Call) -> Option<Result<(), Refused>> {
    match *call {
        Call::Open(line, values) => Some(cell.open(line, &values)),
        Call::Close(line) => Some(cell.close(line).map_err(Refused::from)),
        Call::Seize(line, s, owner) => Some(cell.seize(line, s, owner).map_err(Refused::from)),
        Call::Release(line, s, owner) => Some(cell.release(line, s, owner).map_err(Refused::from)),
        Call::Line(..) | Call::Who(..) | Call::Page(..) => None,
    }
}

/// The two cells after the same calls.
#[derive(Clone)]
pub struct Both {
    pub library: library::Cell,
    pub second: Cell,
}

impl Both {
    /// Starts both and compares the answers. Gives the refusal, 0 for accepted.
    pub fn start(plan: &Plan) -> (u32, Both) {
        let Plan {
            ref ca,
            c0,
            bcc,
            ag,
            p,
        } = *plan;
        let mut library = library::unfilled();
        let changed = library::start(&mut library, ca, c0, bcc, ag, p);
        let (answer, second) = Cell::start(plan);
        assert_eq!(
            (changed.refusal, changed.line),
            (answer.err().unwrap_or(0), 0),
            "{plan:?}"
        );
        (changed.refusal, Both { library, second })
    }

    /// Two cells from a start that must be accepted.
    pub fn started(plan: &Plan) -> Both {
        let (refusal, both) = Both::start(plan);
        assert_eq!(refusal, 0, "{plan:?}");
        both
    }

    /// Makes a call on both and compares the answers. Gives the refusal, 0 for accepted.
    pub fn make(&mut self, call: &Call) -> u32 {
        match *call {
            Call::Line(line, frame, direction) => self.line(line, frame, direction).refusal,
            Call::Who(tn, arfcn, frame, direction) => self.who(tn, arfcn, frame, direction).refusal,
            Call::Page(ref imsi, frame) => self.page(imsi.digits(), frame).refusal,
            _ => self.change(call),
        }
    }

    fn change(&mut self, call: &Call) -> u32 {
        let before = self.library;
        let changed = change(&mut self.library, call).unwrap();
        let second = second_change(&mut self.second, call).unwrap();
        let refused = second.err().unwrap_or(Refused::from(0));
        let answer = Refused {
            number: changed.refusal,
            line: changed.line,
        };
        assert_eq!(answer, refused, "{call:?}, after it {:?}", self.second);
        let kept = changed.refusal == 0 || self.library == before;
        assert!(kept, "refused, but changed: {call:?} on {:?}", self.second);
        changed.refusal
    }

    /// Asks both for a line and compares. Gives the answer.
    pub fn line(&self, line: u32, frame: u32, direction: u32) -> LineAnswer {
        let answer = library::line(&self.library, line, frame, direction);
        let second = LineAnswer::from(self.second.line(line, frame, direction));
        assert_eq!(
            answer, second,
            "line {line}, FN {frame}, direction {direction} of {:?}",
            self.second
        );
        let (ca, mask) = (&self.second.plan.ca, self.second.mask(line));
        assert!(
            placed::line(ca, mask, answer),
            "{answer:?}, line {line} of {:?}",
            self.second
        );
        answer
    }

    /// Asks both who is on an ARFCN and compares. Gives the answer.
    pub fn who(&self, tn: u32, arfcn: u32, frame: u32, direction: u32) -> WhoAnswer {
        let answer = library::who(&self.library, tn, arfcn, frame, direction);
        let second = WhoAnswer::from(self.second.who(tn, arfcn, frame, direction));
        assert_eq!(
            answer, second,
            "TN {tn}, ARFCN {arfcn}, FN {frame}, direction {direction} of {:?}",
            self.second
        );
        assert!(
            placed::who(&self.second, answer),
            "{answer:?} of {:?}",
            self.second
        );
        answer
    }

    /// Asks both where an IMSI is paged and compares. Gives the answer.
    pub fn page(&self, digits: &[u8], frame: u32) -> PageAnswer {
        let answer = library::page(&self.library, digits, frame);
        let second = PageAnswer::from(self.second.page(digits, frame));
        assert_eq!(
            answer, second,
            "IMSI {digits:?}, FN {frame} of {:?}",
            self.second
        );
        answer
    }
}
