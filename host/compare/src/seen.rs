//! What is compared of a state after every call, and the two sides' common face.

use crate::call::{Call, RECORD, SESSIONS};

/// A connection, every field.
#[derive(Clone, Copy, Debug, Default, PartialEq, Eq)]
pub struct ConnSeen {
    /// 1 owner, 2 input-only, 3 listen-only.
    pub kind: u8,
    pub multicast: bool,
    pub triad: (u16, u16, u32),
    pub originator: u32,
    pub o_t_id: u32,
    pub t_o_id: u32,
    pub o_t_rpi: u32,
    pub t_o_rpi: u32,
    pub timeout: u64,
    pub input: u32,
    pub input_size: usize,
    pub output: Option<u32>,
    pub output_size: usize,
    pub dest: (u32, u16),
    pub local: u32,
    /// The last receive time (or the open time) plus the timeout.
    pub until: u64,
    pub last_sequence: Option<u32>,
    pub last_cip: Option<u16>,
    /// When the next packet is due, if the connection produces.
    pub due: Option<u64>,
    pub sequence: u32,
    pub cip: u16,
}

/// An assembly but for its data.
#[derive(Clone, Copy, Debug, Default, PartialEq, Eq)]
pub struct AssemblySeen {
    pub instance: u32,
    /// 1 input, 2 output, 3 configuration.
    pub kind: u8,
    pub size: usize,
    pub run: bool,
    pub notified: bool,
}

/// An EDS upload under way.
#[derive(Clone, Copy, Debug, Default, PartialEq, Eq)]
pub struct UploadSeen {
    pub size: usize,
    pub next: u8,
    pub offset: usize,
    pub last: Option<(u8, usize)>,
}

/// The state, all but the events waiting.
#[derive(Clone, Debug, Default, PartialEq, Eq)]
pub struct Seen {
    pub conns: Vec<ConnSeen>,
    pub assemblies: Vec<AssemblySeen>,
    /// The assemblies' data, one behind the other.
    pub data: Vec<u8>,
    pub produced: u64,
    pub late: u64,
    pub max_late: u64,
    pub next_id: u32,
    pub fault: bool,
    /// The Identity status word.
    pub status: u16,
    pub deadline: Option<u64>,
    /// How many events wait.
    pub events: usize,
    /// The records that the call `connections` gives.
    pub records: Vec<[u8; RECORD]>,
    pub uploads: [Option<UploadSeen>; SESSIONS],
}

impl Seen {
    /// The data of the assembly in a place of the list.
    pub fn data_of(&self, place: usize) -> &[u8] {
        let at: usize = self.assemblies[..place].iter().map(|a| a.size).sum();
        &self.data[at..at + self.assemblies[place].size]
    }
}

/// One of the two that are compared: ciplink, or the library.
pub trait Side {
    fn name(&self) -> &'static str;

    /// Makes a call. The answer is the C interface's number, and what is written into `out`.
    fn call(&mut self, call: &Call, out: &mut [u8]) -> u64;

    /// Reads the state into `seen`, whose old content goes.
    fn see(&mut self, seen: &mut Seen);

    /// The records of the events waiting, from a place on (0 is the oldest), into `into`, whose old content goes.
    fn events(&self, from: usize, into: &mut Vec<[u8; RECORD]>);

    /// Something that the side noticed about itself, in words: a refusal that changed the state.
    fn fault(&mut self) -> Option<String> {
        None
    }
}
