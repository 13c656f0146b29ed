//! What the library tells the host: connections, events, packets, counters.

use std::net::{Ipv4Addr, SocketAddrV4};

/// An O→T connection id: drawn by the adapter, named by the originator's frames.
#[derive(Clone, Copy, Debug, PartialEq, Eq, Hash, PartialOrd, Ord)]
pub struct OtId(pub u32);

/// A T→O connection id: in the frames that the adapter sends. A numbering apart from [`OtId`].
#[derive(Clone, Copy, Debug, PartialEq, Eq, Hash, PartialOrd, Ord)]
pub struct ToId(pub u32);

/// Who a connection serves.
#[derive(Clone, Copy, Debug, PartialEq, Eq, Hash)]
pub enum ConnectionKind {
    /// Owns an output assembly and gets an input assembly.
    Owner,
    /// Gets an input assembly; sends heartbeats.
    InputOnly,
    /// Gets a multicast stream that another opened; closes with it.
    ListenOnly,
}

/// A class 1 connection.
#[derive(Clone, Copy, Debug, PartialEq, Eq, Hash)]
pub struct Connection {
    /// Owner, input-only or listen-only.
    pub kind: ConnectionKind,
    /// T→O is multicast.
    pub multicast: bool,
    /// The originator's address.
    pub originator: Ipv4Addr,
    /// The O→T packet interval in microseconds.
    pub o_t_rpi: u32,
    /// The T→O packet interval in microseconds.
    pub t_o_rpi: u32,
    /// The O→T connection id.
    pub o_t_id: OtId,
    /// The T→O connection id.
    pub t_o_id: ToId,
    /// The input assembly's instance.
    pub input: u16,
    /// Its size.
    pub input_size: u16,
    /// The output assembly's instance and size, of an owner.
    pub output: Option<(u16, u16)>,
}

/// Something that happened. The host has to act on `Closed` and `TimedOut`: with an owner its output loses run, and no
/// `Output` event says so.
#[derive(Clone, Copy, Debug, PartialEq, Eq, Hash)]
pub enum Event {
    /// A connection opened.
    Opened(Connection),
    /// A connection closed: its originator closed it, or it listened to a stream that ended.
    Closed(Connection),
    /// A connection's originator was silent for its timeout.
    TimedOut(Connection),
    /// An open stored configuration data; the bytes are in the assembly.
    Configured {
        /// The configuration assembly.
        instance: u16,
        /// How many bytes.
        length: u16,
    },
    /// An output assembly's data or run bit changed. Said once until the output is read.
    Output {
        /// The output assembly.
        instance: u16,
    },
}

/// The size of an event or connection record.
pub(crate) use crate::places::RECORD;

pub(crate) fn u16_at(bytes: &[u8], at: usize) -> u16 {
    u16::from_le_bytes([bytes[at], bytes[at + 1]])
}

pub(crate) fn u32_at(bytes: &[u8], at: usize) -> u32 {
    u32::from_le_bytes([bytes[at], bytes[at + 1], bytes[at + 2], bytes[at + 3]])
}

pub(crate) fn u64_at(bytes: &[u8], at: usize) -> u64 {
    u64::from(u32_at(bytes, at)) | u64::from(u32_at(bytes, at + 4)) << 32
}

impl Connection {
    pub(crate) fn read(r: &[u8; RECORD]) -> Connection {
        let kind = match r[1] {
            1 => ConnectionKind::Owner,
            2 => ConnectionKind::InputOnly,
            3 => ConnectionKind::ListenOnly,
            _ => panic!("the library gave a connection record with kind {}, which its contract excludes", r[1]),
        };
        Connection {
            kind,
            multicast: r[2] == 1,
            originator: Ipv4Addr::from(u32_at(r, 4)),
            o_t_rpi: u32_at(r, 8),
            t_o_rpi: u32_at(r, 12),
            o_t_id: OtId(u32_at(r, 16)),
            t_o_id: ToId(u32_at(r, 20)),
            input: u16_at(r, 24),
            input_size: u16_at(r, 26),
            output: (kind == ConnectionKind::Owner).then(|| (u16_at(r, 28), u16_at(r, 30))),
        }
    }
}

impl Event {
    pub(crate) fn read(r: &[u8; RECORD]) -> Event {
        match r[0] {
            1 => Event::Opened(Connection::read(r)),
            2 => Event::Closed(Connection::read(r)),
            3 => Event::TimedOut(Connection::read(r)),
            4 => Event::Configured { instance: u16_at(r, 4), length: u16_at(r, 6) },
            5 => Event::Output { instance: u16_at(r, 4) },
            n => panic!("the library gave an event record of number {n}, which its contract excludes"),
        }
    }
}

/// An output assembly, as it was last consumed.
#[derive(Clone, Debug, PartialEq, Eq)]
pub struct Output {
    /// The run bit: the owner is there and runs.
    pub run: bool,
    /// The data. It stays when the owner goes.
    pub data: Vec<u8>,
}

/// Counters of production. They stop at their largest value.
#[derive(Clone, Copy, Debug, Default, PartialEq, Eq)]
pub struct Stats {
    /// Packets produced.
    pub produced: u64,
    /// Packets that were late.
    pub late: u64,
    /// The greatest lateness, in microseconds.
    pub max_late: u64,
}

/// A packet to send.
#[derive(Clone, Copy, Debug, PartialEq, Eq)]
pub struct Packet<'a> {
    /// Where to.
    pub destination: SocketAddrV4,
    /// The destination is a group.
    pub multicast: bool,
    /// The local address that the open arrived on: a multicast packet leaves from there.
    pub local: Ipv4Addr,
    /// The UDP payload.
    pub frame: &'a [u8],
}

/// The packets that a [`produce`](crate::Adapter::produce) gave, in order.
#[derive(Clone, Debug)]
pub struct Packets<'a> {
    rest: &'a [u8],
}

impl<'a> Packets<'a> {
    pub(crate) fn new(bytes: &'a [u8]) -> Self {
        Packets { rest: bytes }
    }

    /// The bytes that hold the packets not yet taken.
    pub fn as_bytes(&self) -> &'a [u8] {
        self.rest
    }
}

impl<'a> Iterator for Packets<'a> {
    type Item = Packet<'a>;

    fn next(&mut self) -> Option<Packet<'a>> {
        let (head, rest) = self.rest.split_first_chunk::<13>()?;
        let length = usize::from(u16::from_be_bytes([head[11], head[12]]));
        let (frame, rest) = rest.split_at(length);
        self.rest = rest;
        Some(Packet {
            destination: SocketAddrV4::new(
                Ipv4Addr::new(head[0], head[1], head[2], head[3]),
                u16::from_be_bytes([head[4], head[5]]),
            ),
            multicast: head[6] == 1,
            local: Ipv4Addr::new(head[7], head[8], head[9], head[10]),
            frame,
        })
    }
}
