//! The timetable that `table` prints for people: the open lines of a timeslot, each with a column of
//! 29 characters, frame by frame.

use crate::cell::{is_common, Cell, OnAir};
use crate::clock::{split, HYPERFRAME};
use crate::frame_map::Channel;
use crate::{refuse, Answer, OUT_OF_RANGE};

/// The name of a channel in answers.
pub fn name(channel: Channel) -> &'static str {
    match channel {
        Channel::Idle => "idle",
        Channel::Tch => "TCH",
        Channel::Sacch => "SACCH",
        Channel::Sdcch => "SDCCH",
        Channel::Fcch => "FCCH",
        Channel::Sch => "SCH",
        Channel::Bcch => "BCCH",
        Channel::Ccch => "CCCH",
        Channel::Rach => "RACH",
    }
}

/// A channel with its subchannel, owner, blocks and places.
fn channel(on_air: &OnAir) -> String {
    let burst = on_air.burst;
    let (s, owner) = match on_air.owner {
        _ if is_common(burst.channel) => ("-".into(), "-".into()),
        0 => (burst.subchannel.to_string(), "free".into()),
        owner => (burst.subchannel.to_string(), owner.to_string()),
    };
    let blocks = burst.blocks.iter();
    let blocks = blocks.map(|(block, place)| format!(" {block:>2}.{place}"));
    let blocks: String = blocks.collect();
    format!("{:<5} {s} {owner:>5}{blocks}", name(burst.channel))
}

/// What a line's column has in a frame.
fn column(on_air: &OnAir) -> String {
    let what = match on_air.burst.channel {
        Channel::Idle => name(Channel::Idle).into(),
        _ => channel(on_air),
    };
    format!("{:>5} {what:<23}", on_air.hop.arfcn)
}

/// A row: what stands before the columns, and the columns.
fn row(first: String, columns: impl Iterator<Item = String>) -> String {
    let columns: String = columns.map(|text| format!(" {text:<29} |")).collect();
    format!("{first:<18} |{columns}")
}

/// A frame's row.
fn frame_row(cell: &Cell, lines: &[u32], frame: u32, direction: u32) -> Answer<String> {
    let now = split(frame)?;
    let on_air = lines.iter().map(|&line| cell.line(line, frame, direction));
    let on_air = on_air.collect::<Answer<Vec<OnAir>>>()?;
    let first = format!("{frame:>7} {:>4} {:>2} {:>2}", now.t1, now.t2, now.t3);
    Ok(row(first, on_air.iter().map(column)))
}

/// The timetable, with no newline behind its last line.
pub fn timetable(cell: &Cell, place: [u32; 3], count: u32) -> Answer<String> {
    let [tn, direction, frame] = place;
    refuse(&[
        (OUT_OF_RANGE, tn > 7 || direction > 1),
        (OUT_OF_RANGE, frame >= HYPERFRAME),
    ])?;
    let lines = cell.lines.iter().filter(|(_, line)| line.tn == tn);
    let lines: Vec<u32> = lines.map(|(&number, _)| number).collect();
    let numbers = match &lines[..] {
        [] => " none".into(),
        _ => String::from_iter(lines.iter().map(|line| format!(" {line}"))),
    };
    let way = ["downlink", "uplink"][direction as usize];
    let head = format!("timeslot {tn} {way}, {count} frames from {frame}, open lines:{numbers}");
    if lines.is_empty() {
        return Ok(head);
    }
    let titles = lines.iter().map(|line| format!("line {line}"));
    let kinds = lines.iter().map(|_| "ARFCN kind  s owner  b.p  b.p".into());
    let mut rows = vec![head];
    rows.push(row("     FN   T1 T2 T3".into(), titles));
    rows.push(row(String::new(), kinds));
    let frames = (frame..HYPERFRAME).chain(0..frame);
    for frame in frames.take(count as usize) {
        rows.push(frame_row(cell, &lines, frame, direction)?);
    }
    Ok(rows.join("\n"))
}
