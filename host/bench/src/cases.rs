//! The calls that are timed. Each does the same so many times on one of the two.

use crate::pair::{Pair, RPI};
use std::hint::black_box;

/// Which of the two.
#[derive(Clone, Copy, PartialEq, Eq)]
pub enum Which {
    Library,
    Original,
}

/// The numbers of connections that each call is timed at.
pub const CONNECTIONS: [usize; 3] = [1, 8, 32];

/// The ratios to reach, at 1, 8 and 32 connections.
pub type Goals = [f64; CONNECTIONS.len()];

pub struct Case {
    pub name: &'static str,
    pub rows: &'static [Row],
    /// Both, at a number of connections and a size of data.
    pub pair: fn(usize, usize) -> Pair,
    pub run: fn(&mut Pair, Which, u32, &mut Counters),
}

/// A row of the table.
pub struct Row {
    /// The data's size; None where it does not matter.
    pub bytes: Option<usize>,
    pub goals: Option<Goals>,
}

/// How far a side is: its frames' sequence, and its clock in intervals.
#[derive(Clone, Copy, Default)]
pub struct Counters {
    sequence: u32,
    intervals: u64,
}

const fn sized(bytes: usize, goal: f64) -> Row {
    Row { bytes: Some(bytes), goals: Some([goal; 3]) }
}

const fn plain(goals: Goals) -> Row {
    Row { bytes: None, goals: Some(goals) }
}

pub static CASES: [Case; 10] = [
    Case { name: "receive, new data", rows: &[sized(32, 0.5), sized(500, 0.62)], pair: Pair::new, run: receive_new },
    Case { name: "receive, unknown id", rows: &[sized(32, 0.4)], pair: Pair::new, run: receive_unknown },
    Case { name: "produce, all due", rows: &[sized(32, 0.22), sized(500, 0.25)], pair: Pair::new, run: produce_due },
    Case { name: "produce, nothing due", rows: &[plain([0.8; 3])], pair: Pair::new, run: produce_nothing },
    Case { name: "expire, nothing", rows: &[plain([0.9, 0.22, 0.22])], pair: Pair::new, run: expire_nothing },
    Case { name: "next_deadline", rows: &[plain([0.45; 3])], pair: Pair::new, run: next_deadline },
    Case { name: "open and close", rows: &[plain([0.5; 3])], pair: Pair::new, run: open_and_close },
    Case { name: OPEN_BEHIND, rows: &[Row { bytes: None, goals: None }], pair: behind_others, run: open_behind },
    Case { name: "set_input", rows: &[sized(32, 1.2), sized(500, 1.25)], pair: Pair::new, run: set_input },
    Case { name: "output", rows: &[sized(32, 0.5), sized(500, 0.7)], pair: Pair::new, run: output },
];

/// Its columns are of the connections that are there before: none, 8 and 31.
const OPEN_BEHIND: &str = "open, behind 0, 8, 31 others";

fn behind_others(connections: usize, size: usize) -> Pair {
    Pair::before_an_open(if connections == 8 { 8 } else { connections - 1 }, size)
}

/// The next frame of an owner: another sequence, CIP sequence and first byte.
fn advance(frame: &mut [u8], sequence: u32) {
    frame[10..14].copy_from_slice(&sequence.to_le_bytes());
    frame[18..20].copy_from_slice(&(sequence as u16).to_le_bytes());
    frame[24] = sequence as u8;
}

fn receive_new(p: &mut Pair, which: Which, times: u32, c: &mut Counters) {
    let (owners, then, now, sender) = (p.inputs.frames.len(), p.then, p.now, Pair::sender());
    for i in 0..times {
        c.sequence += 1;
        let frame = &mut p.inputs.frames[i as usize % owners];
        advance(frame, c.sequence);
        match which {
            Which::Library => {
                black_box(p.library.receive(black_box(frame), now));
            }
            Which::Original => p.original.receive(black_box(frame), sender, then),
        }
    }
}

fn receive_unknown(p: &mut Pair, which: Which, times: u32, _: &mut Counters) {
    let (then, now, sender) = (p.then, p.now, Pair::sender());
    for _ in 0..times {
        match which {
            Which::Library => {
                black_box(p.library.receive(black_box(&p.inputs.unknown), now));
            }
            Which::Original => p.original.receive(black_box(&p.inputs.unknown), sender, then),
        }
    }
}

fn produce_due(p: &mut Pair, which: Which, times: u32, c: &mut Counters) {
    let mut then = p.then + Pair::rpi() * c.intervals as u32;
    for _ in 0..times {
        match which {
            Which::Library => {
                black_box(p.library.produce(p.now + RPI * c.intervals));
            }
            Which::Original => {
                black_box(p.original.produce(then));
            }
        }
        c.intervals += 1;
        then += Pair::rpi();
    }
}

/// Half an interval before anything is due.
fn produce_nothing(p: &mut Pair, which: Which, times: u32, c: &mut Counters) {
    if c.intervals == 0 {
        produce_due(p, which, 1, c);
    }
    let before = RPI * c.intervals - RPI / 2;
    let (now, then) = (p.now + before, p.then + std::time::Duration::from_micros(before));
    for _ in 0..times {
        match which {
            Which::Library => {
                black_box(p.library.produce(black_box(now)));
            }
            Which::Original => {
                black_box(p.original.produce(black_box(then)));
            }
        }
    }
}

fn expire_nothing(p: &mut Pair, which: Which, times: u32, _: &mut Counters) {
    for _ in 0..times {
        match which {
            Which::Library => {
                black_box(p.library.expire(black_box(p.now)));
            }
            Which::Original => p.original.expire(black_box(p.then)),
        }
    }
}

fn next_deadline(p: &mut Pair, which: Which, times: u32, _: &mut Counters) {
    for _ in 0..times {
        match which {
            Which::Library => {
                black_box(p.library.next_deadline());
            }
            Which::Original => {
                black_box(p.original.next_deadline());
            }
        }
    }
}

/// The last connection closes and opens again.
fn open_and_close(p: &mut Pair, which: Which, times: u32, _: &mut Counters) {
    let (peer, local) = Pair::peers();
    for _ in 0..times {
        match which {
            Which::Library => {
                black_box(p.library.close(black_box(&p.inputs.close)));
                black_box(p.library.open(black_box(&p.inputs.open), p.now));
            }
            Which::Original => {
                black_box(p.original.close(black_box(&p.inputs.close)));
                black_box(p.original.open(black_box(&p.inputs.open), peer, local, p.then));
            }
        }
    }
}

/// A connection opens behind the others and is taken back, which costs a copy of 48 bytes or two steps back.
fn open_behind(p: &mut Pair, which: Which, times: u32, _: &mut Counters) {
    let (peer, local) = Pair::peers();
    for _ in 0..times {
        match which {
            Which::Library => {
                black_box(p.library.open(black_box(&p.inputs.open), p.now));
                p.library.forget_open();
            }
            Which::Original => {
                black_box(p.original.open(black_box(&p.inputs.open), peer, local, p.then));
                p.original.forget_open();
            }
        }
    }
}

fn set_input(p: &mut Pair, which: Which, times: u32, _: &mut Counters) {
    for _ in 0..times {
        match which {
            Which::Library => {
                black_box(p.library.set_input(black_box(&p.inputs.data)));
            }
            Which::Original => {
                black_box(p.original.set_input(100, black_box(&p.inputs.data)));
            }
        }
    }
}

fn output(p: &mut Pair, which: Which, times: u32, _: &mut Counters) {
    for _ in 0..times {
        match which {
            Which::Library => {
                black_box(p.library.output(0));
            }
            Which::Original => {
                black_box(p.original.output(150));
            }
        }
    }
}
