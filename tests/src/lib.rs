//! A second implementation of document 01, to compare the library with.
//!
//! `clock`, `hopping`, `frame_map`, `cell` and `paging` are written from document 01 alone and by
//! other means than the library: counters that step from frame to frame, lists of positions, tables
//! of frames that are painted block by block, a book of the open lines, a walk to the frame where a
//! paging block begins. `bursts` has the layouts of clause 5.2 written out bit by bit. `library` is
//! the library under test as C sees it. `placed` holds its answers to the mask and the cell
//! allocation, and asks a `handset`, which has got the cell's ARFCNs as a set. `random` draws the
//! inputs, and `draw` whole calls on a cell, which `calls` makes on both; `typed` has answers as
//! numbers in a row. `c_api` is the second implementation for C.
//!
//! For the program `schedule`, `command` reads a line of its text format, `schedule` answers whole
//! inputs from the second implementation, with `timetable` for the tables, `draw_line` and `script`
//! write scripts for it, and `program` runs it. In `bin` two programs write the script that the gate
//! runs and its answers; tests/make-script calls them.

pub mod bursts;
mod c_api;
pub mod calls;
pub mod cell;
pub mod clock;
pub mod command;
pub mod draw;
pub mod draw_line;
pub mod frame_map;
pub mod handset;
pub mod hopping;
pub mod library;
pub mod paging;
pub mod placed;
pub mod program;
pub mod random;
pub mod schedule;
pub mod script;
pub mod timetable;
pub mod typed;

/// An answer, or the number of the refusal.
pub type Answer<T> = Result<T, u32>;

/// The refusals of document 01 that the library gives.
pub const CELL_ALLOCATION: u32 = 1;
pub const CELL_PARAMETER: u32 = 2;
pub const OUT_OF_RANGE: u32 = 3;
pub const MOBILE_ALLOCATION: u32 = 4;
pub const MAIO: u32 = 5;
pub const LINE_OPEN: u32 = 6;
pub const LINE_CLOSED: u32 = 7;
pub const COMMON_CHANNEL: u32 = 8;
pub const CLASH: u32 = 9;
pub const NO_SUBCHANNEL: u32 = 10;
pub const SUBCHANNEL_HELD: u32 = 11;
pub const NOT_HOLDER: u32 = 12;
pub const LINE_HELD: u32 = 13;
pub const MALFORMED: u32 = 14;
pub const FIXED_BIT: u32 = 15;
pub const NO_COMMON_LINE: u32 = 16;

/// Refuses with the lowest number whose condition holds, in whatever order they are listed.
pub fn refuse(causes: &[(u32, bool)]) -> Answer<()> {
    let lowest = causes
        .iter()
        .filter(|(_, holds)| *holds)
        .map(|(number, _)| *number)
        .min();
    lowest.map_or(Ok(()), Err)
}
