//! Runs: the same calls made of both sides, and everything compared after each.

use crate::call::{Call, MAX_EVENTS, RECORD};
use crate::generate::Generator;
use crate::seen::{Seen, Side};
use std::collections::BTreeMap;
use std::fmt::{Debug, Write};
use std::panic::{AssertUnwindSafe, catch_unwind};

/// Makes a fresh side: each run begins with two of them.
pub type Make<'a> = &'a dyn Fn() -> Box<dyn Side>;

/// What differed, in words.
#[derive(Clone, Debug)]
pub struct Difference {
    /// The call after which it showed.
    pub at: usize,
    pub what: String,
}

/// Calls, the first a setup.
#[derive(Clone, Debug)]
pub struct Run {
    pub calls: Vec<Call>,
    pub profile: &'static str,
}

/// A run that shows a difference.
#[derive(Clone, Debug)]
pub struct Found {
    pub run: Run,
    pub difference: Difference,
}

/// How often each call came, and with which answer; and what else happened.
#[derive(Default)]
pub struct Tally {
    pub calls: BTreeMap<(&'static str, String), u64>,
    pub happened: BTreeMap<&'static str, u64>,
}

impl Tally {
    fn count(&mut self, call: &Call, answer: u64, out: &[u8]) {
        let no = answer & 0xFF;
        let text = match (call, no) {
            (_, 5) if answer >> 16 & 0xFF == 2 => format!("{:04X} and a size", answer >> 32 & 0xFFFF),
            (_, 5) => format!("{:04X}", answer >> 32 & 0xFFFF),
            (Call::Message { .. }, 0) => format!("status {:02X}", out.get(2).copied().unwrap_or(0)),
            (Call::Produce { .. }, 0) if answer == 0 => "nothing".into(),
            (Call::Expire { .. }, 0) if answer == 0 => "none".into(),
            (_, 0) => "yes".into(),
            _ => format!("no. {no}"),
        };
        *self.calls.entry((call.name(), text)).or_default() += 1;
    }

    fn happen(&mut self, what: &'static str, is: bool) {
        if is {
            *self.happened.entry(what).or_default() += 1;
        }
    }

    fn note(&mut self, call: &Call, before: &Seen, after: &Seen) {
        let there = |seen: &Seen, triad| seen.conns.iter().any(|c| c.triad == triad);
        let removes = matches!(call, Call::Close { .. } | Call::Expire { .. });
        if removes {
            let gone = before.conns.iter().filter(|c| !there(after, c.triad));
            self.happen("two or more connections removed by one call", gone.clone().count() > 1);
            self.happen(
                "a stream handed over",
                after
                    .conns
                    .iter()
                    .any(|c| c.due.is_some() && before.conns.iter().any(|b| b.triad == c.triad && b.due.is_none())),
            );
            self.happen(
                "listeners closed with their stream",
                gone.clone().any(|g| g.kind == 3) && gone.clone().any(|g| g.kind != 3 && g.multicast),
            );
            self.happen(
                "D1: a point-to-point connection removed beside a stream of its T→O id",
                gone.clone().any(|g| {
                    !g.multicast
                        && before.conns.iter().any(|c| c.multicast && c.t_o_id == g.t_o_id && there(after, c.triad))
                }),
            );
            self.happen(
                "an output lost run with its owner",
                before.assemblies.iter().zip(&after.assemblies).any(|(b, a)| b.run && !a.run),
            );
        }
        if let Call::Produce { .. } = call {
            let wrapped =
                |c: &crate::seen::ConnSeen, b: &crate::seen::ConnSeen| c.triad == b.triad && c.sequence < b.sequence;
            self.happen("a sequence wrapped", after.conns.iter().zip(&before.conns).any(|(c, b)| wrapped(c, b)));
            self.happen("a packet was late", after.late > before.late);
        }
        self.happen("an open with a full table", matches!(call, Call::Open { .. }) && before.conns.len() == 32);
        self.happen("a call with 1,024 events waiting", before.events == MAX_EVENTS);
        self.happen(
            "a joined stream",
            after.conns.len() > before.conns.len() && after.conns.last().is_some_and(|c| c.due.is_none()),
        );
        self.happen("ids wrapped past 0", after.next_id < before.next_id && after.conns.len() > before.conns.len());
    }
}

/// Two sides, and what was read of them last.
struct Pair {
    first: Box<dyn Side>,
    second: Box<dyn Side>,
    outs: [Vec<u8>; 2],
    seen: [Seen; 2],
    events: [Vec<[u8; RECORD]>; 2],
    answer: u64,
    made: usize,
}

/// Lent output begins as this, so that what a call leaves shows.
pub const LENT: u8 = 0xA5;

fn differ(text: &mut String, names: [&str; 2], what: &str, a: impl Debug + PartialEq, b: impl Debug + PartialEq) {
    let (a, b) = (format!("{a:?}"), format!("{b:?}"));
    if a != b {
        let _ = writeln!(text, "  {what}: {} {a}, {} {b}", names[0], names[1]);
    }
}

fn hex(bytes: &[u8]) -> String {
    crate::show::hex(bytes)
}

impl Pair {
    fn new(first: Make, second: Make) -> Self {
        Pair {
            first: first(),
            second: second(),
            outs: Default::default(),
            seen: Default::default(),
            events: Default::default(),
            answer: 0,
            made: 0,
        }
    }

    /// Makes a call of both; Some is what differs after it.
    fn step(&mut self, call: &Call) -> Option<String> {
        match catch_unwind(AssertUnwindSafe(|| self.try_step(call))) {
            Ok(text) => text,
            Err(_) => Some("  one of the two panicked\n".into()),
        }
    }

    fn try_step(&mut self, call: &Call) -> Option<String> {
        self.made += 1;
        for out in &mut self.outs {
            out.clear();
            out.resize(call.room(), LENT);
        }
        let answers = [self.first.call(call, &mut self.outs[0]), self.second.call(call, &mut self.outs[1])];
        self.answer = answers[0];
        self.first.see(&mut self.seen[0]);
        self.second.see(&mut self.seen[1]);
        let fault = self.first.fault().or_else(|| self.second.fault());
        if answers[0] == answers[1] && self.outs[0] == self.outs[1] && self.seen[0] == self.seen[1] && fault.is_none() {
            return self.compare_events();
        }
        let mut text = String::new();
        if let Some(fault) = fault {
            let _ = writeln!(text, "  {fault}");
        }
        self.tell_answers(&mut text, call, answers);
        self.tell_state(&mut text);
        Some(text)
    }

    fn names(&self) -> [&'static str; 2] {
        match [self.first.name(), self.second.name()] {
            [a, b] if a == b => ["the first", "the second"],
            names => names,
        }
    }

    fn tell_answers(&self, text: &mut String, call: &Call, answers: [u64; 2]) {
        let names = self.names();
        if answers[0] != answers[1] {
            let say = |n: u64| crate::show::answer(n, matches!(call, Call::Open { .. }));
            let _ = writeln!(text, "  answer: {} {}, {} {}", names[0], say(answers[0]), names[1], say(answers[1]));
        }
        if self.outs[0] != self.outs[1] {
            let at = self.outs[0].iter().zip(&self.outs[1]).position(|(a, b)| a != b).unwrap_or(0);
            let end = (at + 24).min(self.outs[0].len());
            let _ = writeln!(
                text,
                "  output from byte {at} on: {} {}, {} {}",
                names[0],
                hex(&self.outs[0][at..end]),
                names[1],
                hex(&self.outs[1][at..end])
            );
        }
    }

    fn tell_state(&self, text: &mut String) {
        let (names, [a, b]) = (self.names(), &self.seen);
        differ(text, names, "number of connections", a.conns.len(), b.conns.len());
        for (i, (x, y)) in a.conns.iter().zip(&b.conns).enumerate() {
            if x != y {
                let _ = writeln!(text, "  connection {i}:");
                crate::show::conn_difference(text, names, x, y);
            }
        }
        for (i, (x, y)) in a.assemblies.iter().zip(&b.assemblies).enumerate() {
            differ(text, names, &format!("assembly {i}"), x, y);
            if x.size == y.size && a.data_of(i) != b.data_of(i) {
                let _ = writeln!(
                    text,
                    "  assembly {i} data: {} {}, {} {}",
                    names[0],
                    hex(a.data_of(i)),
                    names[1],
                    hex(b.data_of(i))
                );
            }
        }
        differ(text, names, "assemblies", a.assemblies.len(), b.assemblies.len());
        differ(text, names, "produced", a.produced, b.produced);
        differ(text, names, "late", a.late, b.late);
        differ(text, names, "greatest lateness", a.max_late, b.max_late);
        differ(text, names, "next id", a.next_id, b.next_id);
        differ(text, names, "fault mark", a.fault, b.fault);
        differ(text, names, "identity status", a.status, b.status);
        differ(text, names, "next deadline", a.deadline, b.deadline);
        differ(text, names, "events waiting", a.events, b.events);
        differ(text, names, "upload positions", a.uploads, b.uploads);
        for (i, (x, y)) in a.records.iter().zip(&b.records).enumerate() {
            if x != y {
                let _ = writeln!(text, "  connection record {i}: {} {}, {} {}", names[0], hex(x), names[1], hex(y));
            }
        }
        differ(text, names, "connection records", a.records.len(), b.records.len());
    }

    /// The newest 64 events after every call (no call adds more than 34), all of them now and then.
    fn compare_events(&mut self) -> Option<String> {
        let waiting = self.seen[0].events;
        let from = if self.made.is_multiple_of(64) { 0 } else { waiting.saturating_sub(64) };
        self.first.events(from, &mut self.events[0]);
        self.second.events(from, &mut self.events[1]);
        if self.events[0] == self.events[1] {
            return None;
        }
        let names = self.names();
        let mut text = String::new();
        for (i, (a, b)) in self.events[0].iter().zip(&self.events[1]).enumerate() {
            if a != b {
                let say = crate::show::event;
                let _ = writeln!(text, "  event {}: {} {}, {} {}", from + i, names[0], say(a), names[1], say(b));
                break;
            }
        }
        Some(text)
    }
}

/// Makes the calls of both sides; the first difference, and the next id before each call that was made.
pub fn replay(first: Make, second: Make, calls: &[Call]) -> (Option<Difference>, Vec<u32>) {
    let mut pair = Pair::new(first, second);
    let mut ids = Vec::with_capacity(calls.len());
    for (at, call) in calls.iter().enumerate() {
        ids.push(pair.seen[0].next_id);
        if let Some(what) = pair.step(call) {
            return (Some(Difference { at, what }), ids);
        }
    }
    (None, ids)
}

/// The answers that the first side gives to the calls, as numbers and bytes.
pub fn answers(first: Make, calls: &[Call]) -> Vec<(u64, Vec<u8>)> {
    let mut side = first();
    let mut all = Vec::with_capacity(calls.len());
    for call in calls {
        let mut out = vec![LENT; call.room()];
        let answer = catch_unwind(AssertUnwindSafe(|| side.call(call, &mut out)));
        match answer {
            Ok(answer) => all.push((answer, out)),
            Err(_) => break,
        }
    }
    all
}

/// Makes runs and compares.
pub struct Runner<'a> {
    pub first: Make<'a>,
    pub second: Make<'a>,
    pub seed: u64,
    pub calls: u64,
    pub runs: u64,
    pub tally: Option<Tally>,
}

impl<'a> Runner<'a> {
    pub fn new(first: Make<'a>, second: Make<'a>, seed: u64) -> Self {
        Runner { first, second, seed, calls: 0, runs: 0, tally: None }
    }

    /// Makes the run of a number. `go_on` is asked after every call.
    pub fn run(&mut self, number: u64, go_on: &mut dyn FnMut(u64) -> bool) -> Result<(), Found> {
        let mut generator = Generator::new(self.seed, number);
        let mut pair = Pair::new(self.first, self.second);
        let mut run = Run { calls: vec![generator.first()], profile: generator.profile() };
        self.runs += 1;
        let mut before = Seen::default();
        loop {
            let at = run.calls.len() - 1;
            if self.tally.is_some() {
                before.clone_from(&pair.seen[0]);
            }
            let answer = pair.step(&run.calls[at]);
            self.calls += 1;
            if let Some(what) = answer {
                return Err(Found { run, difference: Difference { at, what } });
            }
            if let Some(tally) = &mut self.tally {
                tally.note(&run.calls[at], &before, &pair.seen[0]);
                tally.count(&run.calls[at], pair.answer, &pair.outs[0]);
            }
            if at as u64 >= generator.length() || !go_on(self.calls) {
                return Ok(());
            }
            run.calls.push(generator.next(&pair.seen[0]));
        }
    }
}
