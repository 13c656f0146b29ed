//! The story that the demo plays on loopback: a scanner owns the lane, a display listens, the scanner falls silent.
//!
//! The device is at 127.0.0.4 and everyone else at 127.0.0.1, apart from a stranger at 127.0.0.9. Everything goes through
//! sockets; the story knows only what came back, and what the device's application was told.

mod acts;
pub mod originator;
mod tool;

use crate::cip::{Direction, ForwardOpen, Triad, assembly_path};
use crate::host::{Config, Host, Notes};
use crate::lane::{self, Lane, Told};
use crate::timeline::{Timeline, milliseconds};
use originator::PATIENCE;
use std::cell::RefCell;
use std::net::{Ipv4Addr, SocketAddrV4};
use std::sync::Arc;
use std::sync::mpsc::{Receiver, channel};
use std::time::Duration;
use threshtide::{Setup, Stats};

/// Where the device is.
pub const DEVICE: Ipv4Addr = Ipv4Addr::new(127, 0, 0, 4);
/// Where the stranger is.
pub const STRANGER: Ipv4Addr = Ipv4Addr::new(127, 0, 0, 9);
/// The mask of loopback.
const MASK: Ipv4Addr = Ipv4Addr::new(255, 0, 0, 0);
/// How much later than its timeout a connection may end: the machine may be busy.
pub const SLACK: Duration = Duration::from_millis(500);

/// How the story goes. The default is as it must be; a test that plays it otherwise wants its checks to fail.
#[derive(Clone, Debug)]
pub struct Plan {
    /// The port of sessions and browsing; 0 for a free one.
    pub port: u16,
    /// The port of class 1 I/O; 0 for a free one.
    pub io_port: u16,
    /// What the device is set up with.
    pub setup: Setup,
    /// The packet interval in microseconds, both ways.
    pub rpi: u32,
    /// The scanner sets run.
    pub runs: bool,
    /// The scanner falls silent.
    pub falls_silent: bool,
    /// Where the stranger is.
    pub stranger: Ipv4Addr,
}

impl Default for Plan {
    fn default() -> Self {
        Plan {
            port: 0,
            io_port: 0,
            setup: lane::setup(),
            rpi: 25_000,
            runs: true,
            falls_silent: true,
            stranger: STRANGER,
        }
    }
}

impl Plan {
    fn interval(&self) -> Duration {
        Duration::from_micros(u64::from(self.rpi))
    }

    fn direction(&self, size: u16, multicast: bool) -> Direction {
        Direction { rpi: self.rpi, size, multicast }
    }

    /// The scanner's open: owner of the lane word, with configuration data.
    fn owner(&self, originator: u32, multicast: bool, configuration: &[u8]) -> ForwardOpen {
        let points = [lane::CONFIGURATION as u8, lane::OUTPUT as u8, lane::INPUT as u8];
        ForwardOpen {
            large: false,
            t_o_id: 0x5CA0_0000 | originator,
            triad: Triad { serial: 1, vendor: 65_001, originator },
            multiplier: 2, // 16 intervals
            o_t: self.direction(lane::OUTPUT_SIZE + 6, false),
            t_o: self.direction(lane::INPUT_SIZE + 2, multicast),
            path: assembly_path(&points, configuration),
        }
    }

    /// The display's open: listen-only, a heartbeat each second interval, and a T→O interval that it will not get.
    fn listener(&self) -> ForwardOpen {
        let points = [lane::setup().listen_only_heartbeat as u8, lane::INPUT as u8];
        ForwardOpen {
            large: true,
            t_o_id: 0,
            triad: Triad { serial: 9, vendor: 65_002, originator: 500 },
            multiplier: 4, // 64 intervals
            o_t: Direction { rpi: 2 * self.rpi, size: 2, multicast: false },
            t_o: Direction { rpi: 4 * self.rpi, size: lane::INPUT_SIZE + 2, multicast: true },
            path: assembly_path(&points, &[]),
        }
    }
}

/// Something that keeps the story from going on.
pub type Failure = Box<dyn std::error::Error>;

/// The story's stage: the device, and what its application was told.
struct Stage<'a> {
    plan: &'a Plan,
    timeline: &'a Timeline,
    host: &'a Host,
    notes: &'a Notes,
    told: Receiver<Told>,
    log: RefCell<Vec<Told>>,
    target: SocketAddrV4,
    io: SocketAddrV4,
}

impl Stage<'_> {
    fn say(&self, who: &str, what: impl AsRef<str>) {
        self.timeline.say(who, what);
    }

    fn check(&self, holds: bool, must: impl AsRef<str>) -> bool {
        self.timeline.check(holds, must)
    }

    /// A check that fails, and without which the story cannot go on.
    fn fail(&self, must: impl AsRef<str>) -> Failure {
        self.check(false, must.as_ref());
        must.as_ref().into()
    }

    /// Takes what the application was told up to now.
    fn hear(&self) {
        self.log.borrow_mut().extend(self.told.try_iter());
    }

    /// How much the application was told up to now.
    fn mark(&self) -> usize {
        self.hear();
        self.log.borrow().len()
    }

    /// How long to wait for what must come: not long once something is not as it must be.
    fn patience(&self) -> Duration {
        if self.timeline.outcome().1.is_empty() { PATIENCE } else { PATIENCE / 20 }
    }

    /// Waits until the application is told something, after a mark; a check.
    fn until(&self, mark: usize, must: &str, is_it: impl Fn(&Told) -> bool) -> Option<Told> {
        let (begin, patience) = (self.timeline.clock().now(), self.patience());
        loop {
            self.hear();
            let found = self.log.borrow().iter().skip(mark).find(|told| is_it(told)).cloned();
            let patient = self.timeline.clock().now() - begin < patience.as_micros() as u64;
            if found.is_some() || !patient {
                self.check(found.is_some(), must);
                return found;
            }
            if let Ok(told) = self.told.recv_timeout(Duration::from_millis(20)) {
                self.log.borrow_mut().push(told);
            }
        }
    }

    /// What the application was told after a mark.
    fn since(&self, mark: usize) -> Vec<Told> {
        self.hear();
        self.log.borrow()[mark..].to_vec()
    }

    fn intervals(&self, count: u32) {
        std::thread::sleep(self.plan.interval() * count);
    }
}

/// Plays the story. What is not as it must be is in the timeline's outcome; an error is what kept it from going on.
pub fn play(plan: &Plan, timeline: &Arc<Timeline>, notes: Notes) -> Result<(), Failure> {
    let (teller, told) = channel();
    let config = Config {
        address: DEVICE,
        mask: MASK,
        port: plan.port,
        io_port: plan.io_port,
        setup: plan.setup.clone(),
        seed: 0x0004_0000,
    };
    let application = Lane::new(Arc::clone(timeline), Some(teller));
    let host = Host::start(config, Box::new(application), timeline.clock(), notes.clone())?;
    timeline.say("adapter", lane::identity());
    timeline.say("adapter", listening(DEVICE, &host));
    let stage = Stage {
        plan,
        timeline,
        host: &host,
        notes: &notes,
        told,
        log: RefCell::new(Vec::new()),
        target: SocketAddrV4::new(DEVICE, host.port()),
        io: SocketAddrV4::new(DEVICE, host.io_port()),
    };
    let result = acts::play(&stage);
    let stats = host.look(|adapter| adapter.stats());
    host.stop();
    timeline.say("adapter", produced(&stats));
    result
}

/// Where a host listens, in words.
pub fn listening(address: Ipv4Addr, host: &Host) -> String {
    format!("listens at {address}: TCP and UDP port {}, I/O on UDP port {}", host.port(), host.io_port())
}

/// The counters, in words.
pub fn produced(stats: &Stats) -> String {
    let Stats { produced, late, max_late } = *stats;
    format!("produced {produced} packets; {late} were late, the latest by {} ms", milliseconds(max_late))
}
