//! The second implementation for C: each call of include/tdma.h under the name `second_..`, on a cell
//! of its own, whether an answer's numbers belong together, and the drawing of starts and calls.
//! tests/safety/second.h declares them.

use crate::bursts;
use crate::calls::Call;
use crate::cell::{Cell, Plan, Refused, Values};
use crate::library::{BurstAnswer, Changed, HopAnswer, JoinAnswer, LineAnswer, MapAnswer};
use crate::library::{PageAnswer, PositionAnswer, SplitAnswer, WhoAnswer};
use crate::random::Random;
use crate::{clock, draw, frame_map, hopping, placed};

/// What C passes as pointer and length.
///
/// # Safety
/// The pointer is readable for the length, or the length is 0.
unsafe fn slice<'a, T>(first: *const T, length: usize) -> &'a [T] {
    match length {
        0 => &[],
        _ => std::slice::from_raw_parts(first, length),
    }
}

/// The same where it is written.
///
/// # Safety
/// The pointer is writable for the length, or the length is 0.
unsafe fn lent_slice<'a, T>(first: *mut T, length: usize) -> &'a mut [T] {
    match length {
        0 => &mut [],
        _ => std::slice::from_raw_parts_mut(first, length),
    }
}

fn changed(answer: Result<(), Refused>) -> Changed {
    let Refused { number, line } = answer.err().unwrap_or(Refused::from(0));
    Changed {
        refusal: number,
        line,
    }
}

#[no_mangle]
extern "C" fn second_split(frame: u32) -> SplitAnswer {
    clock::split(frame).into()
}

#[no_mangle]
extern "C" fn second_join(t1: u32, t2: u32, t3: u32) -> JoinAnswer {
    clock::join(t1, t2, t3).into()
}

#[no_mangle]
extern "C" fn second_position(
    length: u32,
    mask: u64,
    hsn: u32,
    maio: u32,
    frame: u32,
) -> PositionAnswer {
    hopping::position(length, mask, hsn, maio, frame).into()
}

#[no_mangle]
unsafe extern "C" fn second_hop(
    ca: *const u16,
    ca_length: usize,
    mask: u64,
    hsn: u32,
    maio: u32,
    frame: u32,
) -> HopAnswer {
    hopping::hop(slice(ca, ca_length), mask, hsn, maio, frame).into()
}

#[no_mangle]
extern "C" fn second_map(combination: u32, tn: u32, frame: u32, direction: u32) -> MapAnswer {
    frame_map::map(combination, tn, frame, direction).into()
}

/// A cell, to be started.
#[no_mangle]
extern "C" fn second_new() -> Box<Cell> {
    let (_, cell) = Cell::start(&Plan::new([], 0, 0, 0, 0));
    Box::new(cell)
}

#[no_mangle]
extern "C" fn second_free(cell: Box<Cell>) {
    drop(cell)
}

#[no_mangle]
unsafe extern "C" fn second_start(
    cell: &mut Cell,
    ca: *const u16,
    ca_length: usize,
    c0: u32,
    bcc: u32,
    ag: u32,
    p: u32,
) -> Changed {
    let ca = slice(ca, ca_length).iter().copied();
    let (answer, started) = Cell::start(&Plan::new(ca, c0, bcc, ag, p));
    *cell = started;
    changed(answer.map_err(Refused::from))
}

#[no_mangle]
extern "C" fn second_open(
    cell: &mut Cell,
    line: u32,
    tn: u32,
    mask: u64,
    hsn: u32,
    maio: u32,
    combination: u32,
    tsc: u32,
) -> Changed {
    let values = Values::from((tn, mask, hsn, maio, combination, tsc));
    changed(cell.open(line, &values))
}

#[no_mangle]
extern "C" fn second_close(cell: &mut Cell, line: u32) -> Changed {
    changed(cell.close(line).map_err(Refused::from))
}

#[no_mangle]
extern "C" fn second_seize(cell: &mut Cell, line: u32, s: u32, owner: u32) -> Changed {
    changed(cell.seize(line, s, owner).map_err(Refused::from))
}

#[no_mangle]
extern "C" fn second_release(cell: &mut Cell, line: u32, s: u32, owner: u32) -> Changed {
    changed(cell.release(line, s, owner).map_err(Refused::from))
}

#[no_mangle]
extern "C" fn second_line(cell: &Cell, line: u32, frame: u32, direction: u32) -> LineAnswer {
    cell.line(line, frame, direction).into()
}

#[no_mangle]
extern "C" fn second_who(
    cell: &Cell,
    tn: u32,
    arfcn: u32,
    frame: u32,
    direction: u32,
) -> WhoAnswer {
    cell.who(tn, arfcn, frame, direction).into()
}

#[no_mangle]
unsafe extern "C" fn second_page(
    cell: &Cell,
    digits: *const u8,
    digits_length: usize,
    frame: u32,
) -> PageAnswer {
    cell.page(slice(digits, digits_length), frame).into()
}

#[no_mangle]
extern "C" fn second_position_belongs(length: u32, mask: u64, answer: PositionAnswer) -> u32 {
    placed::position(length, mask, answer).into()
}

#[no_mangle]
unsafe extern "C" fn second_hop_belongs(
    ca: *const u16,
    ca_length: usize,
    mask: u64,
    answer: HopAnswer,
) -> u32 {
    placed::hop(slice(ca, ca_length), mask, answer).into()
}

#[no_mangle]
extern "C" fn second_line_belongs(cell: &Cell, line: u32, answer: &LineAnswer) -> u32 {
    placed::line(&cell.plan.ca, cell.mask(line), *answer).into()
}

#[no_mangle]
extern "C" fn second_who_belongs(cell: &Cell, answer: &WhoAnswer) -> u32 {
    placed::who(cell, *answer).into()
}

/// The eight calls on bursts, in the order of `enum burst_call`.
#[no_mangle]
unsafe extern "C" fn second_burst(
    call: u32,
    tsc: u32,
    read: *const u8,
    length: usize,
    lent: *mut u8,
    room: usize,
) -> BurstAnswer {
    let calls = [
        bursts::Call::BuildNormal(tsc),
        bursts::Call::TakeNormal(tsc),
        bursts::Call::BuildSynchronization,
        bursts::Call::TakeSynchronization,
        bursts::Call::BuildAccess,
        bursts::Call::TakeAccess,
        bursts::Call::BuildFrequencyCorrection,
        bursts::Call::BuildDummy,
    ];
    let (read, lent) = (slice(read, length), lent_slice(lent, room));
    calls[call as usize].make(read, lent).into()
}

/// What start is given, as C has it.
#[repr(C)]
struct DrawnPlan {
    ca_length: usize,
    c0: u32,
    bcc: u32,
    ag: u32,
    p: u32,
    ca: [u16; 1024],
}

/// Draws a start, an odd one where `odd` is not 0. The state of the random numbers goes on.
#[no_mangle]
extern "C" fn second_draw_plan(state: &mut u64, odd: u32, drawn: &mut DrawnPlan) {
    let mut random = Random(*state);
    let plan = match odd {
        0 => draw::plan(&mut random),
        _ => draw::odd_plan(&mut random),
    };
    *state = random.0;
    drawn.ca[..plan.ca.len()].copy_from_slice(&plan.ca);
    drawn.ca_length = plan.ca.len();
    (drawn.c0, drawn.bcc, drawn.ag, drawn.p) = (plan.c0, plan.bcc, plan.ag, plan.p);
}

/// A call on a cell, as C has it: its place in `enum cell_call`, and the values that it has.
#[repr(C)]
#[derive(Default)]
struct DrawnCall {
    mask: u64,
    digits_length: usize,
    call: u32,
    line: u32,
    tn: u32,
    hsn: u32,
    maio: u32,
    combination: u32,
    tsc: u32,
    subchannel: u32,
    owner: u32,
    arfcn: u32,
    frame: u32,
    direction: u32,
    digits: [u8; 16],
}

fn drawn_open(line: u32, v: Values) -> DrawnCall {
    DrawnCall {
        call: 0,
        line,
        tn: v.tn,
        mask: v.mask,
        hsn: v.hsn,
        maio: v.maio,
        combination: v.combination,
        tsc: v.tsc,
        ..Default::default()
    }
}

fn drawn_subchannel(call: u32, line: u32, subchannel: u32, owner: u32) -> DrawnCall {
    DrawnCall {
        call,
        line,
        subchannel,
        owner,
        ..Default::default()
    }
}

fn drawn_page(imsi: &[u8], frame: u32) -> DrawnCall {
    let mut digits = [0; 16];
    digits[..imsi.len()].copy_from_slice(imsi);
    DrawnCall {
        call: 6,
        digits_length: imsi.len(),
        digits,
        frame,
        ..Default::default()
    }
}

impl From<Call> for DrawnCall {
    fn from(call: Call) -> Self {
        match call {
            Call::Open(line, values) => drawn_open(line, values),
            Call::Close(line) => drawn_subchannel(1, line, 0, 0),
            Call::Seize(line, s, owner) => drawn_subchannel(2, line, s, owner),
            Call::Release(line, s, owner) => drawn_subchannel(3, line, s, owner),
            Call::Line(line, frame, direction) => DrawnCall {
                call: 4,
                line,
                frame,
                direction,
                ..Default::default()
            },
            Call::Who(tn, arfcn, frame, direction) => DrawnCall {
                call: 5,
                tn,
                arfcn,
                frame,
                direction,
                ..Default::default()
            },
            Call::Page(imsi, frame) => drawn_page(imsi.digits(), frame),
        }
    }
}

/// Draws a call on this cell, one in `times` odd or blind.
#[no_mangle]
extern "C" fn second_draw_call(state: &mut u64, cell: &Cell, times: u32, drawn: &mut DrawnCall) {
    let mut random = Random(*state);
    *drawn = draw::call(&mut random, cell, times).into();
    *state = random.0;
}
