//! What each side says it sent, one line for a message: held against a capture by `host/judge`.
//!
//! The words of a line are parted by tabs and written as tshark writes the fields that they are held against; a word that
//! a message has not is empty.
//!
//! | Line | Said by | Words after the first |
//! |---|---|---|
//! | `identity` | whoever browsed | vendor, device type, product code, revision, serial, name |
//! | `attribute` | whoever asked | to, service, class, instance, attribute, the value as tshark reads it, field by field |
//! | `open` | originator | from, service, T→O id, serial, vendor, originator, multiplier, O→T RPI, T→O RPI, O→T parameters, T→O parameters |
//! | `opened` | host | to, service, O→T id, T→O id, serial, vendor, originator, O→T RPI, T→O RPI, address and port of the T→O socket |
//! | `refused` | host | to, service, general status, number of words, first word, serial, vendor, originator |
//! | `close` | originator | from, serial, vendor, originator |
//! | `closed` | host | to, general status, serial, vendor, originator |
//! | `o-t` | originator | from, id, sequence, CIP sequence, run, data |
//! | `strange` | someone without a connection | from, id, sequence |
//! | `t-o` | host | to, id, sequence, CIP sequence, run, data |

use crate::cip::{ForwardOpen, OpenReply, Triad};
use crate::io::IoFrame;
use std::fs::File;
use std::io::{self, Write};
use std::net::{Ipv4Addr, SocketAddrV4};
use std::path::Path;
use std::sync::{Mutex, PoisonError};
use threshtide::Setup;

/// A file of such lines; one without a file says nothing.
#[derive(Default)]
pub struct Said {
    inner: Mutex<(Option<File>, Option<io::Error>)>,
}

fn triad(t: Triad) -> String {
    format!("0x{:04x}\t0x{:04x}\t0x{:08x}", t.serial, t.vendor, t.originator)
}

fn hex(data: &[u8]) -> String {
    data.iter().map(|byte| format!("{byte:02x}")).collect()
}

fn numbers(frame: &IoFrame) -> String {
    format!("0x{:08x}\t{}", frame.id, frame.sequence)
}

impl Said {
    /// A new file.
    pub fn create(path: &Path) -> io::Result<Said> {
        Ok(Said { inner: Mutex::new((Some(File::create(path)?), None)) })
    }

    fn line(&self, line: impl FnOnce() -> String) {
        let mut inner = self.inner.lock().unwrap_or_else(PoisonError::into_inner);
        if let (Some(file), None) = &mut *inner
            && let Err(error) = file.write_all((line() + "\n").as_bytes())
        {
            inner.1 = Some(error);
        }
    }

    /// An error if a line could not be written.
    pub fn finish(&self) -> io::Result<()> {
        let mut inner = self.inner.lock().unwrap_or_else(PoisonError::into_inner);
        inner.1.take().map_or(Ok(()), Err)
    }

    /// A browser was told the identity of a setup.
    pub fn identity(&self, setup: &Setup) {
        self.line(|| {
            let name = String::from_utf8_lossy(&setup.product_name);
            let Setup { vendor, device_type, product_code, revision, serial, .. } = setup;
            let revision = u16::from_be_bytes([revision.0, revision.1]);
            format!("identity\t0x{vendor:04x}\t{device_type}\t{product_code}\t{revision}\t0x{serial:08x}\t{name}")
        });
    }

    /// Someone was told an attribute, or what a service of an object gives.
    pub fn attribute(&self, to: Ipv4Addr, service: u8, place: (u8, u8, Option<u8>), read: &[String]) {
        self.line(|| {
            let (class, instance, number) = place;
            let number = number.map_or(String::new(), |n| format!("\t{n}"));
            let read: String = read.iter().map(|word| format!("\t{word}")).collect();
            format!("attribute\t{to}\t0x{service:02x}\t0x{class:02x}\t0x{instance:02x}{number}{read}")
        });
    }

    /// An originator opens.
    pub fn open(&self, from: Ipv4Addr, open: &ForwardOpen) {
        let width = if open.large { 10 } else { 6 };
        let (o_t, t_o) = (open.parameters(open.o_t), open.parameters(open.t_o));
        self.line(|| {
            format!(
                "open\t{from}\t0x{:02x}\t0x{:08x}\t{}\t{}\t{}\t{}\t{o_t:#0width$x}\t{t_o:#0width$x}",
                open.service(),
                open.t_o_id,
                triad(open.triad),
                open.multiplier,
                open.o_t.rpi,
                open.t_o.rpi,
            )
        });
    }

    /// The host accepts.
    pub fn opened(&self, to: Ipv4Addr, service: u8, reply: &OpenReply, socket: Option<SocketAddrV4>) {
        self.line(|| {
            let socket = socket.map_or("\t".to_string(), |s| format!("{}\t{}", s.ip(), s.port()));
            format!(
                "opened\t{to}\t0x{service:02x}\t0x{:08x}\t0x{:08x}\t{}\t{}\t{}\t{socket}",
                reply.o_t_id,
                reply.t_o_id,
                triad(reply.triad),
                reply.o_t_rpi,
                reply.t_o_rpi
            )
        });
    }

    /// The host refuses.
    pub fn refused(&self, to: Ipv4Addr, service: u8, general: u8, words: &[u16], t: Triad) {
        self.line(|| {
            let word = words.first().copied().unwrap_or(0);
            let count = words.len();
            format!("refused\t{to}\t0x{service:02x}\t0x{general:02x}\t{count}\t0x{word:04x}\t{}", triad(t))
        });
    }

    /// An originator closes.
    pub fn close(&self, from: Ipv4Addr, t: Triad) {
        self.line(|| format!("close\t{from}\t{}", triad(t)));
    }

    /// The host has closed, or knows no such connection.
    pub fn closed(&self, to: Ipv4Addr, general: u8, t: Triad) {
        self.line(|| format!("closed\t{to}\t0x{general:02x}\t{}", triad(t)));
    }

    /// An originator sends a frame; with `header`, its data begins with the 32-bit header.
    pub fn o_t(&self, from: Ipv4Addr, frame: &IoFrame, header: bool) {
        let (run, data) = match frame.data.split_first_chunk::<4>() {
            Some((head, rest)) if header => (format!("0x{:08x}", head[0] & 1), rest),
            _ => (String::new(), &frame.data[..]),
        };
        self.line(|| format!("o-t\t{from}\t{}\t{}\t{run}\t{}", numbers(frame), frame.cip_sequence, hex(data)));
    }

    /// Someone without a connection sends a frame.
    pub fn strange(&self, from: Ipv4Addr, frame: &IoFrame) {
        self.line(|| format!("strange\t{from}\t{}", numbers(frame)));
    }

    /// The host sends a packet.
    pub fn t_o(&self, to: Ipv4Addr, frame: &IoFrame) {
        self.line(|| format!("t-o\t{to}\t{}\t{}\t\t{}", numbers(frame), frame.cip_sequence, hex(&frame.data)));
    }
}
