//! The host's clock: whole microseconds from its start, as the library takes them.

use std::time::{Duration, Instant, SystemTime, UNIX_EPOCH};

/// A clock that never goes back, and when it began by the calendar.
#[derive(Clone, Copy, Debug)]
pub struct Clock {
    start: Instant,
    began: u64,
}

impl Clock {
    /// A clock that begins now.
    pub fn new() -> Clock {
        let began = SystemTime::now().duration_since(UNIX_EPOCH).unwrap_or(Duration::ZERO);
        Clock { start: Instant::now(), began: began.as_micros() as u64 }
    }

    /// Microseconds since the clock began.
    pub fn now(&self) -> u64 {
        self.start.elapsed().as_micros() as u64
    }

    /// A time of this clock as microseconds since 1970.
    pub fn calendar(&self, time: u64) -> u64 {
        self.began + time
    }
}

impl Default for Clock {
    fn default() -> Self {
        Clock::new()
    }
}
