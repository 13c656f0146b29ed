//! The two that are timed, brought to the same state: so many connections, so many bytes of data.

use crate::ciplink::original::Raw;
use compare::MAX_PACKETS;
use compare::bytes::{self, Open, POINT_TO_POINT, Params, Seg, Setup, Shape};
use compare::places::{MARKS, RECORD, SETUP_SIZE};
use std::net::{Ipv4Addr, SocketAddrV4};
use std::time::{Duration, Instant};
use threshtide::sys;

pub const RPI: u64 = 10_000;
const PEER: u32 = 0x0A00_0001;
const LOCAL: u32 = 0x0A00_0064;
const MASK: u32 = 0xFFFF_FF00;
const INPUT: u32 = 100;
const OUTPUT: u32 = 150;
/// One of the 16 assemblies is the input.
const MOST_OWNERS: usize = 15;

/// Where the head stands: what an open counts on, the number of connections among it.
const HEAD: std::ops::Range<usize> = SETUP_SIZE..MARKS;

/// The library's state, with an output buffer.
pub struct Library {
    state: Vec<u8>,
    out: Vec<u8>,
    /// The head of the state before an open that is taken back.
    head: [u8; HEAD.end - HEAD.start],
}

/// What both get.
pub struct Inputs {
    /// A frame with data to each owner.
    pub frames: Vec<Vec<u8>>,
    pub unknown: Vec<u8>,
    pub open: Vec<u8>,
    pub close: Vec<u8>,
    pub data: Vec<u8>,
}

pub struct Pair {
    pub library: Library,
    pub original: Raw,
    pub inputs: Inputs,
    pub now: u64,
    pub then: Instant,
}

fn request(serial: u16, owner: Option<u32>, size: usize) -> Vec<u8> {
    let (point, o_t) = match owner {
        Some(output) => (output, size + 6),
        None => (238, 2),
    };
    let path = [Seg::Class(4, 0), Seg::Point(point, 0), Seg::Point(INPUT, 0)];
    Open {
        large: false,
        o_t_id: 0,
        t_o_id: 0x5000 + u32::from(serial),
        serial,
        vendor: 1,
        originator: 7,
        multiplier: 7,
        o_t_rpi: RPI as u32,
        o_t: Params::new(o_t, POINT_TO_POINT),
        t_o_rpi: RPI as u32,
        t_o: Params::new(size + 2, POINT_TO_POINT),
        transport: 1,
        path: bytes::path(&path),
        behind: Vec::new(),
    }
    .bytes()
}

fn setup(owners: usize, size: usize) -> Setup {
    let mut assemblies = vec![Shape { instance: INPUT, size, kind: 1 }];
    for i in 0..owners as u32 {
        assemblies.push(Shape { instance: OUTPUT + i, size, kind: 2 });
    }
    Setup {
        assemblies,
        limit: 240,
        major: 1,
        minor: 1,
        input_only: 238,
        listen_only: 237,
        rpi_min: 2_000,
        rpi_max: 3_200_000,
        late: 1_000,
        ..Setup::default()
    }
}

impl Library {
    fn new(block: &[u8], seed: u32) -> Self {
        // SAFETY: each pointer goes with the length of its slice; the same holds for every call below.
        let mut state = vec![0; unsafe { sys::threshtide_state_size() } as usize];
        let answer = unsafe {
            sys::threshtide_setup(state.as_mut_ptr(), state.len(), block.as_ptr(), block.len(), block.as_ptr(), 0, seed)
        };
        assert_eq!(answer, 0, "the setup is within the sizes");
        Library { state, out: vec![0; MAX_PACKETS], head: [0; HEAD.end - HEAD.start] }
    }

    fn keep_head(&mut self) {
        self.head.copy_from_slice(&self.state[HEAD]);
    }

    /// Takes the last open back, without a close: the row and the event that it wrote are free again.
    pub fn forget_open(&mut self) {
        self.state[HEAD].copy_from_slice(&self.head);
    }

    pub fn open(&mut self, request: &[u8], time: u64) -> u64 {
        let (s, o) = (self.state.as_mut_ptr(), self.out.as_mut_ptr());
        let (n, r) = (self.state.len(), request);
        unsafe {
            sys::threshtide_open(s, n, time, 0x54, r.as_ptr(), r.len(), PEER, LOCAL, MASK, false, 0, 0, 2222, o, 26)
        }
    }

    pub fn close(&mut self, request: &[u8]) -> u64 {
        let (s, o) = (self.state.as_mut_ptr(), self.out.as_mut_ptr());
        unsafe { sys::threshtide_close(s, self.state.len(), request.as_ptr(), request.len(), o, 10) }
    }

    pub fn receive(&mut self, frame: &[u8], time: u64) -> u64 {
        let s = self.state.as_mut_ptr();
        unsafe { sys::threshtide_receive(s, self.state.len(), time, PEER, frame.as_ptr(), frame.len()) }
    }

    pub fn produce(&mut self, time: u64) -> u64 {
        let (s, o) = (self.state.as_mut_ptr(), self.out.as_mut_ptr());
        unsafe { sys::threshtide_produce(s, self.state.len(), time, o, self.out.len()) }
    }

    pub fn expire(&mut self, time: u64) -> u64 {
        unsafe { sys::threshtide_expire(self.state.as_mut_ptr(), self.state.len(), time) }
    }

    pub fn next_deadline(&mut self) -> u64 {
        let o = self.out.as_mut_ptr();
        unsafe { sys::threshtide_next_deadline(self.state.as_ptr(), self.state.len(), o, 8) }
    }

    pub fn set_input(&mut self, data: &[u8]) -> u64 {
        let s = self.state.as_mut_ptr();
        unsafe { sys::threshtide_set_input(s, self.state.len(), INPUT, data.as_ptr(), data.len()) }
    }

    pub fn output(&mut self, place: usize) -> u64 {
        let (s, o) = (self.state.as_mut_ptr(), self.out.as_mut_ptr());
        unsafe { sys::threshtide_output(s, self.state.len(), OUTPUT + place as u32, o, 513) }
    }

    fn connections(&mut self) -> usize {
        let (s, o) = (self.state.as_ptr(), self.out.as_mut_ptr());
        let answer = unsafe { sys::threshtide_connections(s, self.state.len(), o, self.out.len()) };
        assert_eq!(answer as u8, 0);
        (answer >> 8) as usize / RECORD
    }

    fn produced(&mut self) -> u64 {
        let o = self.out.as_mut_ptr();
        let answer = unsafe { sys::threshtide_stats(self.state.as_ptr(), self.state.len(), o, 24) };
        assert_eq!(answer, 24 << 8);
        u64::from_le_bytes(std::array::from_fn(|i| self.out[i]))
    }
}

/// The outputs that the owners among so many connections have, spread evenly along the table.
fn owned(connections: usize, owners: usize) -> Vec<Option<u32>> {
    let mut taken = 0;
    (0..connections)
        .map(|row| {
            let owner = taken * connections <= row * owners && taken < owners;
            owner.then(|| {
                taken += 1;
                OUTPUT + taken as u32 - 1
            })
        })
        .collect()
}

impl Pair {
    /// Both with so many connections, all of which send; as many of them owners as there are outputs. The last one can close and open.
    pub fn new(connections: usize, size: usize) -> Pair {
        let owners = connections.min(MOST_OWNERS);
        let mut pair = Pair::set_up(owners, size);
        for (row, output) in owned(connections, owners).into_iter().enumerate() {
            pair.add(row, output, size);
        }
        assert_eq!(pair.inputs.frames.len(), owners);
        pair
    }

    /// Both with so many connections, and the open of one more, an owner, which can be taken back.
    pub fn before_an_open(others: usize, size: usize) -> Pair {
        let owners = others.min(MOST_OWNERS - 1);
        let mut pair = Pair::set_up(owners + 1, size);
        for (row, output) in owned(others, owners).into_iter().enumerate() {
            pair.add(row, output, size);
        }
        let (peer, local) = Pair::peers();
        pair.inputs.open = request(others as u16 + 1, Some(OUTPUT + owners as u32), size);
        pair.library.keep_head();
        assert_eq!(pair.library.open(&pair.inputs.open, pair.now) as u8, 0, "an open that passes");
        assert!(pair.original.open(&pair.inputs.open, peer, local, pair.then), "an open that passes");
        pair.library.forget_open();
        pair.original.forget_open();
        pair
    }

    fn set_up(outputs: usize, size: usize) -> Pair {
        let block = setup(outputs, size).block();
        let original = Raw::new(&block, &[], 1).expect("the setup is within the sizes");
        let unknown = bytes::items(&bytes::frame_items(0xFFFF_FF00, 1, bytes::payload(1, 1, &vec![0; size])));
        let then = original.at(0);
        Pair {
            library: Library::new(&block, 1),
            original,
            inputs: Inputs { frames: Vec::new(), unknown, open: Vec::new(), close: Vec::new(), data: vec![0; size] },
            now: 0,
            then,
        }
    }

    /// One connection more, at the table's end: an owner of that output, or input-only.
    fn add(&mut self, row: usize, output: Option<u32>, size: usize) {
        let serial = row as u16 + 1;
        let bytes = request(serial, output, size);
        let (peer, local) = Pair::peers();
        assert_eq!(self.library.open(&bytes, self.now) as u8, 0, "an open that passes");
        assert!(self.original.open(&bytes, peer, local, self.then), "an open that passes");
        if output.is_some() {
            let payload = bytes::payload(0, 1, &vec![0; size]);
            self.inputs.frames.push(bytes::items(&bytes::frame_items(self.original.o_t_id(row), 0, payload)));
        }
        self.inputs.open = bytes;
        self.inputs.close = bytes::close((serial, 1, 7), &[], &[]);
    }

    /// Both did the same: as many connections and packets, the same output data.
    pub fn agree(&mut self) {
        assert_eq!(self.library.connections(), self.original.connections(), "connections");
        assert_eq!(self.library.produced(), self.original.produced(), "packets produced");
        for place in 0..self.inputs.frames.len() {
            let length = (self.library.output(place) >> 8) as usize;
            let (data, run) = self.original.output(OUTPUT + place as u32).expect("an output");
            assert_eq!((self.library.out[0] == 1, &self.library.out[1..length]), (run, &data[..]), "output {place}");
        }
    }

    pub fn sender() -> SocketAddrV4 {
        SocketAddrV4::new(Ipv4Addr::from(PEER), 2222)
    }

    pub fn peers() -> (Ipv4Addr, Ipv4Addr) {
        (Ipv4Addr::from(PEER), Ipv4Addr::from(LOCAL))
    }

    pub fn rpi() -> Duration {
        Duration::from_micros(RPI)
    }
}
