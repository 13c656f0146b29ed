//! I/O: frames taken as they come, packets sent when they are due, connections ended when their originator is silent.

use super::Shared;
use crate::io::IoFrame;
use std::io::ErrorKind;
use std::net::{Ipv4Addr, SocketAddr, SocketAddrV4, UdpSocket};
use std::sync::PoisonError;
use std::time::Duration;
use threshtide::{MAX_PACKETS, Packet};

/// Takes I/O frames until the host stops.
pub(super) fn receive(shared: &Shared) {
    let mut buffer = vec![0; 65_536];
    while !shared.is_stopping() {
        match shared.io.recv_from(&mut buffer) {
            Ok((size, SocketAddr::V4(from))) => {
                let frame = &buffer[..size];
                if let Some(capture) = &shared.notes.capture {
                    capture.udp(from, SocketAddrV4::new(shared.local_for(from), shared.io_port), frame);
                }
                // No. 3 is not possible: this clock takes 290,000 years to get there
                let _ = shared.call(|adapter, time| adapter.receive(time, *from.ip(), frame));
            }
            Ok(_) => {}
            Err(error) if matches!(error.kind(), ErrorKind::WouldBlock | ErrorKind::TimedOut) => {}
            // an error that stays must not use up the processor
            Err(_) => std::thread::sleep(Duration::from_millis(1)),
        }
    }
}

/// Ends silent connections and sends what is due, at each deadline, until the host stops.
pub(super) fn keep_deadlines(shared: &Shared) {
    let mut room = vec![0; MAX_PACKETS];
    let mut sender = Sender::new(shared);
    while !shared.is_stopping() {
        let packets = shared.call(|adapter, time| {
            let expired = adapter.expire(time);
            expired.and_then(|_| adapter.produce(time, &mut room))
        });
        for packet in packets.into_iter().flatten() {
            sender.send(&packet);
        }
        wait(shared);
    }
}

/// Waits until one microsecond after the next deadline: at a timeout's own time nothing expires, and the deadline would
/// be the same again. The deadline is read under the lock that the wait gives up, so that no open is missed.
fn wait(shared: &Shared) {
    let inner = shared.lock();
    if shared.is_stopping() {
        return;
    }
    match inner.adapter.next_deadline() {
        None => drop(shared.wake.wait(inner).unwrap_or_else(PoisonError::into_inner)),
        Some(deadline) => {
            let left = deadline.saturating_add(1).saturating_sub(shared.clock.now());
            if left > 0 {
                let waited = shared.wake.wait_timeout(inner, Duration::from_micros(left));
                drop(waited.unwrap_or_else(PoisonError::into_inner));
            }
        }
    }
}

/// Sends packets, multicast ones from the connection's local address.
struct Sender<'a> {
    shared: &'a Shared,
    /// Sockets of local addresses, where the I/O socket is bound to all of them.
    local: Vec<(Ipv4Addr, UdpSocket)>,
    last_trouble: String,
}

impl<'a> Sender<'a> {
    fn new(shared: &'a Shared) -> Self {
        Sender { shared, local: Vec::new(), last_trouble: String::new() }
    }

    fn send(&mut self, packet: &Packet) {
        let result = self.socket(packet).and_then(|socket| {
            let from = SocketAddrV4::new(packet.local, socket.local_addr()?.port());
            socket.send_to(packet.frame, packet.destination)?;
            Ok(from)
        });
        let notes = &self.shared.notes;
        match result {
            Ok(from) => {
                if let Some(capture) = &notes.capture {
                    capture.udp(from, packet.destination, packet.frame);
                }
                if let Some(frame) = IoFrame::read(packet.frame) {
                    notes.said.t_o(*packet.destination.ip(), &frame);
                }
                self.last_trouble.clear();
            }
            Err(error) => {
                let trouble = format!("cannot send to {}: {error}", packet.destination);
                if trouble != self.last_trouble {
                    let time = self.shared.clock.now();
                    self.shared.lock().application.trouble(time, &trouble);
                    self.last_trouble = trouble;
                }
            }
        }
    }

    /// The I/O socket, or for a multicast packet one that is bound to the packet's local address.
    fn socket(&mut self, packet: &Packet) -> std::io::Result<&UdpSocket> {
        if !packet.multicast || packet.local == self.shared.address {
            return Ok(&self.shared.io);
        }
        let at = match self.local.iter().position(|(local, _)| *local == packet.local) {
            Some(at) => at,
            None => {
                let socket = UdpSocket::bind((packet.local, 0))?;
                socket.set_multicast_ttl_v4(1)?;
                self.local.push((packet.local, socket));
                self.local.len() - 1
            }
        };
        Ok(&self.local[at].1)
    }
}
