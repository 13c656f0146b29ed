//! A timeline that a person can follow: when, who, what; and checks, each of which can fail.

use crate::clock::Clock;
use std::io::Write;
use std::sync::{Mutex, PoisonError};

/// Lines in the order of their times, and the checks that did not hold.
pub struct Timeline {
    clock: Clock,
    inner: Mutex<Inner>,
}

struct Inner {
    out: Box<dyn Write + Send>,
    checks: usize,
    failed: Vec<String>,
}

impl Timeline {
    /// A timeline with its first line, the words over the columns.
    pub fn new(clock: Clock, mut out: Box<dyn Write + Send>) -> Timeline {
        let _ = writeln!(out, "{:>10}  {:<9} what", "time in ms", "who");
        Timeline { clock, inner: Mutex::new(Inner { out, checks: 0, failed: Vec::new() }) }
    }

    /// The clock whose times are shown.
    pub fn clock(&self) -> Clock {
        self.clock
    }

    /// Someone does something, now.
    pub fn say(&self, who: &str, what: impl AsRef<str>) {
        let mut inner = self.inner.lock().unwrap_or_else(PoisonError::into_inner);
        let time = self.clock.now();
        // nobody may be reading any more: the story goes on and tells by its status
        let _ = writeln!(inner.out, "{:>10}  {who:<9} {}", milliseconds(time), what.as_ref());
    }

    /// Something that must be so. If it is not, that is said at once and again at the end.
    pub fn check(&self, holds: bool, must: impl AsRef<str>) -> bool {
        let mut inner = self.inner.lock().unwrap_or_else(PoisonError::into_inner);
        inner.checks += 1;
        if !holds {
            let time = self.clock.now();
            let _ = writeln!(inner.out, "{:>10}  {:<9} NOT SO: {}", milliseconds(time), "check", must.as_ref());
            inner.failed.push(must.as_ref().to_string());
        }
        holds
    }

    /// How many checks there were, and those that did not hold.
    pub fn outcome(&self) -> (usize, Vec<String>) {
        let inner = self.inner.lock().unwrap_or_else(PoisonError::into_inner);
        (inner.checks, inner.failed.clone())
    }
}

/// Microseconds as milliseconds with one digit behind the point.
pub fn milliseconds(time: u64) -> String {
    format!("{}.{}", time / 1_000, time % 1_000 / 100)
}
