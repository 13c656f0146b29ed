//! Times that aim at what the connections wait for.

use super::Generator;
use crate::call::MAX_TIME;
use crate::seen::Seen;

impl Generator {
    /// The clock, a little later, or aimed; sometimes back; once in a while at an end of the range or past it.
    pub(super) fn time(&mut self, seen: &Seen) -> u64 {
        let time = match self.rng.below(100) {
            0 if self.rng.chance(30) => return self.extreme(),
            0..3 => return self.back(seen),
            3..40 => self.clock,
            40..70 => self.clock.saturating_add(self.rng.below(2_000)),
            70..76 => self.clock.saturating_add(self.rng.below(40_000)),
            _ => self.aimed(seen),
        };
        self.keep(time)
    }

    /// Never back by more than the aim, and within the range; the clock follows.
    fn keep(&mut self, time: u64) -> u64 {
        let time = if time < self.clock && self.rng.chance(90) { self.clock } else { time };
        let time = if time > MAX_TIME && self.rng.chance(95) { MAX_TIME } else { time };
        if time <= MAX_TIME {
            self.clock = self.clock.max(time);
        }
        time
    }

    fn extreme(&mut self) -> u64 {
        self.rng.pick(&[0, MAX_TIME, MAX_TIME + 1, u64::MAX, MAX_TIME - 1])
    }

    /// A clock that goes back, and sometimes stays there.
    fn back(&mut self, seen: &Seen) -> u64 {
        let far = self.rng.pick(&[1, 10, 1_000, 100_000, 1 << 40]);
        let mut time = self.clock.saturating_sub(self.rng.below(far));
        if let Some(c) = self.some_conn(seen)
            && self.rng.chance(50)
        {
            time = (c.until.saturating_sub(c.timeout)).saturating_sub(self.rng.below(3));
        }
        if self.rng.chance(30) {
            self.clock = time.min(MAX_TIME);
        }
        time
    }

    fn some_conn(&mut self, seen: &Seen) -> Option<crate::seen::ConnSeen> {
        match seen.conns.len() {
            0 => None,
            n => Some(seen.conns[self.rng.index(n)]),
        }
    }

    /// One to either side of a time, or the time.
    fn near(&mut self, time: u64) -> u64 {
        match self.rng.below(5) {
            0 => time.saturating_sub(1),
            1 => time.saturating_add(1),
            _ => time,
        }
    }

    /// At a due time, one interval on, at the late limit, at a timeout.
    fn aimed(&mut self, seen: &Seen) -> u64 {
        let Some(c) = self.some_conn(seen) else {
            return self.clock.saturating_add(self.rng.below(1_000));
        };
        let due = c.due.unwrap_or(c.until);
        let rpi = u64::from(c.t_o_rpi);
        let time = match self.rng.below(10) {
            0..4 => due,
            4 | 5 => due.saturating_add(rpi),
            6 => due.saturating_add(1_000),
            7 => due.saturating_add(2 * rpi),
            8 => c.until,
            _ => seen.deadline.unwrap_or(due),
        };
        self.near(time)
    }

    pub(super) fn time_to_produce(&mut self, seen: &Seen) -> u64 {
        if self.rng.chance(30) {
            return self.time(seen);
        }
        // the first that is due, so that the others stay for the next call
        let least = seen.conns.iter().filter_map(|c| c.due).min();
        let time = match (least, self.rng.below(4)) {
            (Some(due), 0..2) => self.near(due.max(self.clock)),
            _ => self.aimed(seen),
        };
        self.keep(time)
    }

    /// Mostly the first that would go, so that the others stay.
    pub(super) fn time_to_expire(&mut self, seen: &Seen) -> u64 {
        if self.rng.chance(25) {
            return self.time(seen);
        }
        let mut untils: Vec<u64> = seen.conns.iter().map(|c| c.until).collect();
        untils.sort_unstable();
        let mut place = 0;
        while place + 1 < untils.len() && self.rng.chance(30) {
            place += 1;
        }
        let time = match untils.get(place) {
            Some(until) => match self.rng.below(4) {
                0 => until.saturating_sub(1),
                1 => *until,
                _ => until.saturating_add(1),
            },
            None => self.clock.saturating_add(self.rng.below(100_000)),
        };
        self.keep(time)
    }
}
