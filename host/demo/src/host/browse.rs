//! Browsing: what the device is and what it can do.

use super::Shared;
use crate::cip::{self, Reply};
use crate::cpf;
use crate::encap::{Frame, LIST_IDENTITY, LIST_SERVICES};
use std::io::ErrorKind;
use std::net::{Ipv4Addr, SocketAddr, SocketAddrV4, UdpSocket};
use std::time::Duration;
use threshtide::{Adapter, Session};

/// The data of ListIdentity: the protocol's version, the socket, then Identity's attributes 1 to 8 as the library gives
/// them.
pub(super) fn identity(adapter: &Adapter, socket: SocketAddrV4) -> Vec<u8> {
    let mut item = vec![1, 0];
    item.extend(cpf::write_socket(socket));
    let mut session = Session::new(*socket.ip(), Ipv4Addr::UNSPECIFIED);
    for attribute in 1..=8 {
        let reply = adapter.message(&mut session, &cip::get_single(0x01, 1, attribute));
        if let Some(reply) = reply.ok().as_deref().and_then(Reply::read) {
            item.extend(reply.data);
        }
    }
    cpf::write(&[(cpf::IDENTITY, &item)])
}

/// The data of ListServices: CIP over TCP, and class 0 and 1 over UDP.
pub(super) fn services() -> Vec<u8> {
    let item = [&1u16.to_le_bytes()[..], &0x0120_u16.to_le_bytes(), b"Communications\0\0"].concat();
    cpf::write(&[(cpf::SERVICES, &item)])
}

/// Answers browsers on UDP until the host stops. Other commands have no answer there.
pub(super) fn answer(shared: &Shared, socket: &UdpSocket) {
    let mut buffer = [0; 1_500];
    while !shared.is_stopping() {
        let (size, peer) = match socket.recv_from(&mut buffer) {
            Ok((size, SocketAddr::V4(peer))) => (size, peer),
            Ok(_) => continue,
            Err(error) => {
                if !matches!(error.kind(), ErrorKind::WouldBlock | ErrorKind::TimedOut) {
                    std::thread::sleep(Duration::from_millis(1)); // an error that stays must not use up the processor
                }
                continue;
            }
        };
        let own = SocketAddrV4::new(shared.local_for(peer), shared.port);
        if let Some(capture) = &shared.notes.capture {
            capture.udp(peer, own, &buffer[..size]);
        }
        let Some(frame) = Frame::of_datagram(&buffer[..size]) else { continue };
        let data = match frame.command {
            LIST_IDENTITY => identity(&shared.lock().adapter, own),
            LIST_SERVICES => services(),
            _ => continue,
        };
        let reply = Frame { session: 0, ..frame.answer(0, data) }.bytes();
        match socket.send_to(&reply, peer) {
            Ok(_) => {
                if let Some(capture) = &shared.notes.capture {
                    capture.udp(own, peer, &reply);
                }
            }
            Err(error) => {
                let time = shared.clock.now();
                shared.lock().application.trouble(time, &format!("no answer to browser {peer}: {error}"));
            }
        }
    }
}
