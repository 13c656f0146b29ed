//! Calls that aim: a run is one setup and the calls after it, chosen by what the state has come to (times at a
//! connection's due and timeout and one to each side, sequences at the wrap, T→O ids that collide, full tables,
//! events unread for thousands of calls, damaged copies of good bytes).

mod drafts;
mod frames;
mod messages;
mod opens;
mod setups;
mod times;

use crate::bytes::{Setup, Shape};
use crate::call::{Call, MAX_PACKETS, SESSIONS};
use crate::rng::Rng;
use crate::seen::Seen;
use std::collections::VecDeque;

/// What a run is about: how long it is and how often each kind of step comes.
struct Profile {
    name: &'static str,
    calls: (u64, u64),
    /// open, close, receive, produce, expire, next event, output, set input, message, reads, open refusal or path, setup
    /// again, plant, refresh, fill, upload, churn
    weights: [u32; 17],
    /// Percent of opens that are twisted, that are multicast, and that choose a T→O id in use.
    twisted: u64,
    multicast: u64,
    colliding: u64,
}

const PROFILES: [Profile; 8] = [
    Profile {
        name: "mixed",
        calls: (30, 500),
        weights: [60, 25, 150, 80, 40, 60, 25, 20, 30, 12, 5, 1, 4, 6, 1, 2, 0],
        twisted: 35,
        multicast: 50,
        colliding: 15,
    },
    Profile {
        name: "tables",
        calls: (100, 400),
        weights: [80, 15, 60, 30, 10, 30, 8, 8, 8, 4, 2, 0, 3, 8, 8, 0, 0],
        twisted: 25,
        multicast: 50,
        colliding: 15,
    },
    Profile {
        name: "streams",
        calls: (50, 600),
        weights: [90, 45, 50, 70, 30, 40, 5, 6, 4, 4, 0, 0, 8, 8, 1, 0, 0],
        twisted: 8,
        multicast: 80,
        colliding: 40,
    },
    Profile {
        name: "opens",
        calls: (60, 300),
        weights: [300, 60, 20, 10, 15, 30, 5, 5, 5, 4, 15, 2, 0, 2, 1, 0, 0],
        twisted: 90,
        multicast: 50,
        colliding: 5,
    },
    Profile {
        name: "frames",
        calls: (100, 800),
        weights: [20, 4, 350, 15, 8, 40, 60, 4, 6, 4, 0, 0, 0, 2, 0, 0, 0],
        twisted: 10,
        multicast: 40,
        colliding: 10,
    },
    Profile {
        name: "times",
        calls: (80, 800),
        weights: [40, 8, 60, 160, 70, 30, 6, 10, 3, 20, 0, 0, 8, 12, 1, 0, 0],
        twisted: 8,
        multicast: 45,
        colliding: 15,
    },
    Profile {
        name: "events",
        calls: (2200, 3600),
        weights: [80, 50, 60, 15, 15, 0, 40, 4, 2, 2, 0, 0, 0, 6, 1, 0, 25],
        twisted: 12,
        multicast: 65,
        colliding: 10,
    },
    Profile {
        name: "messages",
        calls: (60, 700),
        weights: [15, 6, 20, 8, 4, 10, 4, 8, 300, 4, 30, 1, 0, 2, 0, 12, 0],
        twisted: 10,
        multicast: 50,
        colliding: 5,
    },
];

/// How often each profile comes.
const PROFILE_WEIGHTS: [u32; 8] = [20, 14, 20, 14, 10, 14, 3, 10];

/// A step that is made when its turn comes, from what the state then is.
#[derive(Clone, Copy)]
enum Step {
    /// An open that should pass.
    Open,
    /// A good frame to the connection in a row.
    Refresh(usize),
    /// A frame with new data to an owner, and the output read.
    Change,
    ReadOutput,
    /// The first connection closes.
    CloseOne,
    /// The next transfer of a session; now and then the last again, or one out of turn.
    Transfer(usize),
    Produce,
    Event,
}

pub struct Generator {
    rng: Rng,
    profile: &'static Profile,
    length: u64,
    setup: Setup,
    eds: usize,
    clock: u64,
    steps: VecDeque<Step>,
    triads: u32,
    gone: Vec<(u16, u16, u32)>,
    peers: Vec<u32>,
    locals: Vec<(u32, u32)>,
    io_ports: Vec<u16>,
}

impl Generator {
    /// The generator of a run; a seed and a number of a run always give the same.
    pub fn new(seed: u64, run: u64) -> Self {
        let mut mix = Rng::new(seed);
        let mut rng = Rng::new(mix.next() ^ run.wrapping_mul(0xD6E8_FEB8_6659_FD93));
        let profile = &PROFILES[rng.weighted(&PROFILE_WEIGHTS)];
        let length = rng.between(profile.calls.0, profile.calls.1);
        let clock = match rng.below(10) {
            0 => 0,
            1 => i64::MAX as u64 - rng.below(100_000_000),
            2 => rng.below(1 << 40),
            _ => rng.below(1_000_000),
        };
        let peers = match rng.below(4) {
            0 => vec![0x0A00_0001],
            1 => vec![0x0A00_0001, 0x0A00_0002],
            2 => vec![0x0A00_0001, 0x0A00_0002, 0, 0xC0A8_0107],
            _ => (0..6).map(|_| rng.next() as u32).collect(),
        };
        let mut locals = vec![(0x0A00_0009, 0xFFFF_FF00)];
        for _ in 0..rng.below(3) {
            let mask = rng.pick(&[0xFFFF_FFFF, 0xFFFF_FF00, 0xFFFF_0000, 0xFF00_0000, 0, 0x00FF_00FF]);
            locals.push((rng.next() as u32, mask));
        }
        // host parts 0 and 1, and the last before the index wraps
        locals.push((rng.pick(&[0x0A00_0000, 0x0A00_0001, 0x0A00_0400, 0x0A00_0401]), 0xFF00_0000));
        let io_ports = if rng.chance(70) { vec![2222] } else { vec![2222, 2223, rng.next() as u16] };
        Generator {
            rng,
            profile,
            length,
            setup: Setup::default(),
            eds: 0,
            clock,
            steps: VecDeque::new(),
            triads: 0,
            gone: Vec::new(),
            peers,
            locals,
            io_ports,
        }
    }

    pub fn profile(&self) -> &'static str {
        self.profile.name
    }

    /// How many calls the run has.
    pub fn length(&self) -> u64 {
        self.length
    }

    /// The first call of the run.
    pub fn first(&mut self) -> Call {
        self.good_setup()
    }

    /// The next call, for the state that `seen` shows.
    pub fn next(&mut self, seen: &Seen) -> Call {
        if let Some(step) = self.steps.pop_front() {
            return self.step(step, seen);
        }
        match self.rng.weighted(&self.profile.weights) {
            0 => self.open(seen, false),
            1 => self.close(seen),
            2 => self.receive(seen),
            3 => self.produce(seen),
            4 => self.expire(seen),
            5 => self.event(),
            6 => self.output(seen),
            7 => self.set_input(),
            8 => self.message(seen),
            9 => self.read(seen),
            10 if self.rng.chance(50) => self.open_refusal(seen),
            10 => self.routing(seen),
            11 => self.setup_again(),
            12 => self.plant(seen),
            13 => self.refresh(seen),
            14 => self.fill(seen),
            15 => self.upload(seen),
            _ => self.churn(seen),
        }
    }

    fn step(&mut self, step: Step, seen: &Seen) -> Call {
        match step {
            Step::Open => self.open(seen, true),
            Step::Refresh(row) => self.refresh_frame(seen, row),
            Step::Change => self.change(seen),
            Step::ReadOutput => self.output(seen),
            Step::CloseOne => self.close_one(seen),
            Step::Transfer(session) => self.transfer_in_turn(seen, session),
            Step::Produce => self.produce(seen),
            Step::Event => self.event(),
        }
    }

    fn shapes(&self, kind: u8) -> Vec<Shape> {
        self.setup.assemblies.iter().copied().filter(|a| a.kind == kind).collect()
    }

    fn peer(&mut self) -> u32 {
        self.rng.pick(&self.peers)
    }

    /// Room for an answer: exact or more, now and then too little.
    fn room(&mut self, need: usize) -> usize {
        match self.rng.below(100) {
            0 => 0,
            1..4 => need.saturating_sub(1),
            4..40 => need,
            _ => need + self.rng.index(20),
        }
    }

    /// A damaged copy: a byte changed, cut, put in or taken out.
    fn damaged(&mut self, mut bytes: Vec<u8>) -> Vec<u8> {
        for _ in 0..=self.rng.below(2) {
            let n = bytes.len();
            match self.rng.below(6) {
                0 if n > 0 => {
                    let at = self.rng.index(n);
                    bytes[at] ^= 1 << self.rng.below(8);
                }
                1 if n > 0 => {
                    let at = self.rng.index(n);
                    bytes[at] = self.rng.byte();
                }
                2 if n > 0 => bytes.truncate(self.rng.index(n)),
                3 => {
                    let more = 1 + self.rng.index(4);
                    bytes.extend(self.rng.bytes(more));
                }
                4 if n > 0 => {
                    bytes.remove(self.rng.index(n));
                }
                _ => {
                    let (at, byte) = (self.rng.index(n + 1), self.rng.byte());
                    bytes.insert(at, byte);
                }
            }
        }
        bytes
    }

    fn event(&mut self) -> Call {
        Call::NextEvent { room: self.room(32) }
    }

    fn output(&mut self, seen: &Seen) -> Call {
        let outputs: Vec<(u32, usize)> =
            seen.assemblies.iter().filter(|a| a.kind == 2).map(|a| (a.instance, a.size)).collect();
        if outputs.is_empty() || self.rng.chance(4) {
            let instance = self.some_instance();
            return Call::Output { instance, room: 513 };
        }
        let (instance, size) = self.rng.pick(&outputs);
        Call::Output { instance, room: self.room(1 + size) }
    }

    /// An instance that need not be there, or be of the kind wanted.
    fn some_instance(&mut self) -> u32 {
        let known = self.setup.assemblies.len();
        match self.rng.below(4) {
            0 => self.rng.next() as u32,
            1 => self.rng.below(70_000) as u32,
            2 if known > 0 => {
                let i = self.rng.index(known);
                0x1_0000 + self.setup.assemblies[i].instance
            }
            _ if known > 0 => {
                let i = self.rng.index(known);
                self.setup.assemblies[i].instance
            }
            _ => 0,
        }
    }

    fn set_input(&mut self) -> Call {
        let inputs = self.shapes(1);
        if inputs.is_empty() || self.rng.chance(4) {
            let n = self.rng.index(20);
            return Call::SetInput { instance: self.some_instance(), data: self.rng.bytes(n) };
        }
        let a = self.rng.pick(&inputs);
        let n = match self.rng.below(10) {
            0 => a.size + 1,
            1 => self.rng.index(a.size + 1),
            2 => 0,
            3 => self.rng.index(2 * a.size + 2),
            _ => a.size,
        };
        Call::SetInput { instance: a.instance, data: self.rng.bytes(n) }
    }

    /// A call that reads and changes nothing.
    fn read(&mut self, seen: &Seen) -> Call {
        match self.rng.below(4) {
            0 => Call::NextDeadline { room: self.room(8) },
            1 => Call::Connections { room: self.room(32 * seen.conns.len()) },
            2 => Call::Stats { room: self.room(24) },
            _ => {
                let known = self.setup.assemblies.len();
                if known == 0 || self.rng.chance(20) {
                    return Call::Assembly { kind: self.rng.below(5) as u8, instance: self.some_instance(), room: 512 };
                }
                let i = self.rng.index(known);
                let a = self.setup.assemblies[i];
                Call::Assembly { kind: a.kind, instance: a.instance, room: self.room(a.size) }
            }
        }
    }

    /// Sequences one or a few before they wrap, on a connection that sends.
    fn plant(&mut self, seen: &Seen) -> Call {
        if seen.conns.is_empty() {
            return self.open(seen, true);
        }
        let row = self.rng.index(seen.conns.len());
        for _ in 0..3 {
            self.steps.push_back(Step::Produce);
        }
        Call::PlantSent { row, sequence: u32::MAX - self.rng.below(3) as u32, cip: u16::MAX - self.rng.below(3) as u16 }
    }

    /// A frame to each connection, so that most live on.
    fn refresh(&mut self, seen: &Seen) -> Call {
        for row in 0..seen.conns.len() {
            if !self.rng.chance(6) {
                self.steps.push_back(Step::Refresh(row));
            }
        }
        self.produce(seen)
    }

    /// Opens that should pass until the table is full, and one or two more.
    fn fill(&mut self, seen: &Seen) -> Call {
        let more = 33 + self.rng.index(3);
        for _ in seen.conns.len()..more {
            self.steps.push_back(Step::Open);
        }
        self.open(seen, true)
    }

    /// Events by the dozen: outputs that change and are read, connections that open and close.
    fn churn(&mut self, seen: &Seen) -> Call {
        for _ in 0..self.rng.between(10, 60) {
            if self.rng.chance(60) {
                self.steps.push_back(Step::Change);
                self.steps.push_back(Step::ReadOutput);
            } else {
                self.steps.push_back(Step::Open);
                self.steps.push_back(Step::CloseOne);
            }
        }
        if self.rng.once_in(8) {
            for _ in 0..self.rng.between(1, 1100) {
                self.steps.push_back(Step::Event);
            }
        }
        self.open(seen, true)
    }

    fn session(&mut self) -> usize {
        self.rng.index(SESSIONS)
    }

    fn produce(&mut self, seen: &Seen) -> Call {
        let time = self.time_to_produce(seen);
        let need: usize =
            seen.conns.iter().filter(|c| c.due.is_some_and(|due| due <= time)).map(|c| 33 + c.input_size).sum();
        let room = if self.rng.chance(5) { MAX_PACKETS } else { self.room(need) };
        Call::Produce { time, room }
    }

    fn expire(&mut self, seen: &Seen) -> Call {
        Call::Expire { time: self.time_to_expire(seen) }
    }
}
