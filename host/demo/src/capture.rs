//! What went over the wire, as the host saw it, written to a pcap file.
//!
//! A host has payloads and not frames: the frames are made from who sent what to whom. TCP's own part (the three segments
//! of a beginning, the numbers, the end) is written as TCP has it.

use crate::clock::Clock;
use crate::pcap::{self, ACK, FIN, PSH, SYN};
use std::fs::File;
use std::io::{self, Write};
use std::net::SocketAddrV4;
use std::path::Path;
use std::sync::{Mutex, PoisonError};

/// A pcap file that is being written. Every frame is in the file once it is written: nothing is held back.
pub struct Capture {
    clock: Clock,
    inner: Mutex<Inner>,
}

struct Inner {
    out: Box<dyn Write + Send>,
    next_id: u16,
    frames: u64,
    error: Option<io::Error>,
}

/// A TCP connection in a capture.
#[derive(Clone, Copy, Debug)]
pub struct Flow {
    client: SocketAddrV4,
    server: SocketAddrV4,
    client_next: u32,
    server_next: u32,
}

/// Who sends on a [`Flow`].
#[derive(Clone, Copy, Debug, PartialEq, Eq)]
pub enum Side {
    /// Who connected.
    Client,
    /// Who listened.
    Server,
}

impl Capture {
    /// A new file.
    pub fn create(path: &Path, clock: Clock) -> io::Result<Capture> {
        Capture::to(Box::new(File::create(path)?), clock)
    }

    /// A capture to any writer.
    pub fn to(mut out: Box<dyn Write + Send>, clock: Clock) -> io::Result<Capture> {
        out.write_all(&pcap::head())?;
        Ok(Capture { clock, inner: Mutex::new(Inner { out, next_id: 1, frames: 0, error: None }) })
    }

    /// Writes what `frame` makes of the next IPv4 identification. The time is taken here, so that times never go back.
    fn frame(&self, frame: impl FnOnce(u16) -> Vec<u8>) {
        let mut inner = self.inner.lock().unwrap_or_else(PoisonError::into_inner);
        let time = self.clock.calendar(self.clock.now());
        let frame = frame(inner.next_id);
        inner.next_id = inner.next_id.wrapping_add(1);
        if inner.error.is_none() {
            match inner.out.write_all(&pcap::record(time, &frame)) {
                Ok(()) => inner.frames += 1,
                Err(error) => inner.error = Some(error),
            }
        }
    }

    /// A UDP datagram.
    pub fn udp(&self, from: SocketAddrV4, to: SocketAddrV4, data: &[u8]) {
        self.frame(|id| pcap::udp(id, from, to, data));
    }

    /// A TCP connection begins.
    pub fn begin(&self, client: SocketAddrV4, server: SocketAddrV4) -> Flow {
        let mut flow = Flow { client, server, client_next: 1_000, server_next: 2_000 };
        self.segment(&mut flow, Side::Client, SYN, &[]);
        self.segment(&mut flow, Side::Server, SYN | ACK, &[]);
        self.segment(&mut flow, Side::Client, ACK, &[]);
        flow
    }

    /// Data on a TCP connection.
    pub fn data(&self, flow: &mut Flow, side: Side, data: &[u8]) {
        for part in data.chunks(pcap::SEGMENT) {
            self.segment(flow, side, PSH | ACK, part);
        }
    }

    /// A TCP connection ends, one side first.
    pub fn end(&self, flow: &mut Flow, first: Side) {
        let second = if first == Side::Client { Side::Server } else { Side::Client };
        self.segment(flow, first, FIN | ACK, &[]);
        self.segment(flow, second, FIN | ACK, &[]);
        self.segment(flow, first, ACK, &[]);
    }

    fn segment(&self, flow: &mut Flow, side: Side, flags: u8, data: &[u8]) {
        let (ends, next, other) = match side {
            Side::Client => ((flow.client, flow.server), &mut flow.client_next, flow.server_next),
            Side::Server => ((flow.server, flow.client), &mut flow.server_next, flow.client_next),
        };
        let acknowledged = if flags & ACK == 0 { 0 } else { other };
        self.frame(|id| pcap::tcp(id, ends, (*next, acknowledged), flags, data));
        // a beginning and an end count as one byte each
        let counted = data.len() as u32 + u32::from(flags & (SYN | FIN) != 0);
        *next = next.wrapping_add(counted);
    }

    /// How many frames there are; an error if one could not be written.
    pub fn frames(&self) -> io::Result<u64> {
        let mut inner = self.inner.lock().unwrap_or_else(PoisonError::into_inner);
        match inner.error.take() {
            Some(error) => Err(error),
            None => Ok(inner.frames),
        }
    }
}

#[cfg(test)]
mod tests {
    use super::*;
    use std::net::Ipv4Addr;
    use std::sync::Arc;

    #[derive(Clone, Default)]
    struct Shared(Arc<Mutex<Vec<u8>>>);

    impl Write for Shared {
        fn write(&mut self, bytes: &[u8]) -> io::Result<usize> {
            self.0.lock().unwrap().extend(bytes);
            Ok(bytes.len())
        }

        fn flush(&mut self) -> io::Result<()> {
            Ok(())
        }
    }

    fn frames(file: &[u8]) -> Vec<Vec<u8>> {
        let mut rest = &file[24..];
        let mut out = Vec::new();
        while !rest.is_empty() {
            let length = u32::from_le_bytes(rest[8..12].try_into().unwrap()) as usize;
            out.push(rest[16..16 + length].to_vec());
            rest = &rest[16 + length..];
        }
        out
    }

    #[test]
    fn a_tcp_connection_counts_its_bytes() {
        let bytes = Shared::default();
        let capture = Capture::to(Box::new(bytes.clone()), Clock::new()).unwrap();
        let end = |last, port| SocketAddrV4::new(Ipv4Addr::new(127, 0, 0, last), port);
        let mut flow = capture.begin(end(2, 40_000), end(1, 44_818));
        capture.data(&mut flow, Side::Client, &[7; 2 * pcap::SEGMENT + 1]);
        capture.data(&mut flow, Side::Server, &[8; 10]);
        capture.end(&mut flow, Side::Client);
        assert_eq!(capture.frames().unwrap(), 10);
        let frames = frames(&bytes.0.lock().unwrap());
        let numbers: Vec<(u8, u32, u32, usize)> = frames
            .iter()
            .map(|f| {
                let number = |at: usize| u32::from_be_bytes(f[at..at + 4].try_into().unwrap());
                (f[47], number(38), number(42), f.len() - 54)
            })
            .collect();
        let c = |n: u32| 1_001 + n;
        let s = |n: u32| 2_001 + n;
        assert_eq!(
            numbers,
            [
                (SYN, 1_000, 0, 0),
                (SYN | ACK, 2_000, c(0), 0),
                (ACK, c(0), s(0), 0),
                (PSH | ACK, c(0), s(0), 1_460),
                (PSH | ACK, c(1_460), s(0), 1_460),
                (PSH | ACK, c(2_920), s(0), 1),
                (PSH | ACK, s(0), c(2_921), 10),
                (FIN | ACK, c(2_921), s(10), 0),
                (FIN | ACK, s(10), c(2_922), 0),
                (ACK, c(2_922), s(11), 0),
            ]
        );
    }

    #[test]
    fn a_write_that_fails_is_told() {
        struct Full(u32);
        impl Write for Full {
            fn write(&mut self, bytes: &[u8]) -> io::Result<usize> {
                self.0 += 1;
                if self.0 > 1 { Err(io::Error::other("full")) } else { Ok(bytes.len()) }
            }

            fn flush(&mut self) -> io::Result<()> {
                Ok(())
            }
        }
        let capture = Capture::to(Box::new(Full(0)), Clock::new()).unwrap();
        let end = SocketAddrV4::new(Ipv4Addr::LOCALHOST, 1);
        capture.udp(end, end, &[1]);
        assert_eq!(capture.frames().unwrap_err().to_string(), "full");
    }
}
