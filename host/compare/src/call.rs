//! One call, with everything that is passed in: the C interface's arguments as numbers and bytes.

use crate::places::{RECORD as RECORD_SIZE, SETUP_SIZE, SLOT};

/// The size of a setup block.
pub const BLOCK: usize = SETUP_SIZE;
/// Frames, messages and service data have at most this many bytes.
pub const MAX_BYTES: usize = 65_536;
/// The largest time.
pub const MAX_TIME: u64 = i64::MAX as u64;
/// All packets that a produce can give: 32 of 13 bytes, 20 of frame and 512 of data.
pub const MAX_PACKETS: usize = MAX_CONNECTIONS * (13 + 20 + SLOT);
/// What a message's reply asks of its buffer.
pub const MAX_REPLY: usize = 516;
/// Connections in a full table.
pub const MAX_CONNECTIONS: usize = 32;
/// Events kept.
pub const MAX_EVENTS: usize = 1024;
/// The bytes of an event or connection record.
pub const RECORD: usize = RECORD_SIZE;
/// A path has at most this many bytes.
pub const MAX_PATH: usize = 510;
/// The bytes of what is read of a path, and of a request.
pub const PATH_RECORD: usize = 32;
pub const REQUEST_RECORD: usize = 20;
/// Sessions of the comparison, each with an upload position of its own.
pub const SESSIONS: usize = 4;

/// A call. `room` is the size of the lent output.
#[derive(Clone, Debug, PartialEq, Eq)]
pub enum Call {
    Setup {
        block: Vec<u8>,
        eds: Vec<u8>,
        seed: u32,
    },
    SetInput {
        instance: u32,
        data: Vec<u8>,
    },
    Output {
        instance: u32,
        room: usize,
    },
    Assembly {
        kind: u8,
        instance: u32,
        room: usize,
    },
    Open {
        time: u64,
        service: u8,
        request: Vec<u8>,
        peer: u32,
        local: u32,
        mask: u32,
        given: bool,
        address: u32,
        port: u16,
        io_port: u16,
        room: usize,
    },
    OpenRefusal {
        service: u8,
        request: Vec<u8>,
        room: usize,
    },
    Close {
        request: Vec<u8>,
        room: usize,
    },
    Receive {
        time: u64,
        from: u32,
        frame: Vec<u8>,
    },
    Produce {
        time: u64,
        room: usize,
    },
    Expire {
        time: u64,
    },
    NextDeadline {
        room: usize,
    },
    NextEvent {
        room: usize,
    },
    Connections {
        room: usize,
    },
    Stats {
        room: usize,
    },
    Message {
        session: usize,
        local: u32,
        mask: u32,
        message: Vec<u8>,
        room: usize,
    },
    Path {
        path: Vec<u8>,
        room: usize,
    },
    Request {
        message: Vec<u8>,
        room: usize,
    },
    /// A session ends and another begins in its place: a fresh upload position.
    NewSession {
        session: usize,
    },
    /// No call: both sides' connection in that row is set to have sent so many packets, as 2^32 calls would.
    PlantSent {
        row: usize,
        sequence: u32,
        cip: u16,
    },
}

impl Call {
    pub fn name(&self) -> &'static str {
        match self {
            Call::Setup { .. } => "setup",
            Call::SetInput { .. } => "set_input",
            Call::Output { .. } => "output",
            Call::Assembly { .. } => "assembly",
            Call::Open { .. } => "open",
            Call::OpenRefusal { .. } => "open_refusal",
            Call::Close { .. } => "close",
            Call::Receive { .. } => "receive",
            Call::Produce { .. } => "produce",
            Call::Expire { .. } => "expire",
            Call::NextDeadline { .. } => "next_deadline",
            Call::NextEvent { .. } => "next_event",
            Call::Connections { .. } => "connections",
            Call::Stats { .. } => "stats",
            Call::Message { .. } => "message",
            Call::Path { .. } => "path",
            Call::Request { .. } => "request",
            Call::NewSession { .. } => "(new session)",
            Call::PlantSent { .. } => "(planted)",
        }
    }

    /// The size of the lent output.
    pub fn room(&self) -> usize {
        match self {
            Call::Output { room, .. }
            | Call::Assembly { room, .. }
            | Call::Open { room, .. }
            | Call::OpenRefusal { room, .. }
            | Call::Close { room, .. }
            | Call::Produce { room, .. }
            | Call::NextDeadline { room }
            | Call::NextEvent { room }
            | Call::Connections { room }
            | Call::Stats { room }
            | Call::Path { room, .. }
            | Call::Request { room, .. }
            | Call::Message { room, .. } => *room,
            _ => 0,
        }
    }
}
