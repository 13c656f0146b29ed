//! Sessions: TCP connections, their commands, and unconnected messages routed to the library.

use super::{Shared, browse};
use crate::capture::Side;
use crate::cip::{self, OpenReply, Reply, Triad};
use crate::cpf;
use crate::encap::{self, Frame};
use std::io::Write;
use std::net::{Ipv4Addr, SocketAddr, SocketAddrV4, TcpListener, TcpStream};
use std::ops::ControlFlow;
use std::sync::PoisonError;
use std::sync::atomic::Ordering;
use std::time::Duration;
use threshtide::{No, OpenError, Origin, Service, open_refusal, read_request};

/// The most TCP connections at a time; another is closed at once.
const MOST: usize = 64;
/// A TCP connection without a command for so long is closed (CIP volume 2: encapsulation inactivity timeout).
const IDLE: Duration = Duration::from_secs(120);
/// A peer that does not take its answers for so long is given up.
const UNREAD: Duration = Duration::from_secs(10);

/// Serves TCP connections, a thread each, until the host stops.
pub(super) fn accept(shared: &Shared, listener: &TcpListener) {
    std::thread::scope(|scope| {
        for (number, stream) in (0..).zip(listener.incoming()) {
            if shared.is_stopping() {
                break;
            }
            let Ok(stream) = stream else {
                std::thread::sleep(Duration::from_millis(1)); // an error that stays must not use up the processor
                continue;
            };
            let Ok(copy) = stream.try_clone() else { continue };
            let streams = || shared.streams.lock().unwrap_or_else(PoisonError::into_inner);
            if streams().len() == MOST {
                continue;
            }
            streams().push((number, copy));
            if shared.is_stopping() {
                break; // after the push: either this or the host's end sees the other
            }
            let serve = move || {
                serve(shared, stream);
                streams().retain(|(n, _)| *n != number);
            };
            if std::thread::Builder::new().name("session".into()).spawn_scoped(scope, serve).is_err() {
                streams().retain(|(n, _)| *n != number);
            }
        }
    });
}

/// One TCP connection.
struct Connection {
    /// The session's handle; 0 before it is registered.
    handle: u32,
    peer: Ipv4Addr,
    session: threshtide::Session,
}

fn serve(shared: &Shared, mut stream: TcpStream) {
    let (Ok(SocketAddr::V4(peer)), Ok(SocketAddr::V4(local))) = (stream.peer_addr(), stream.local_addr()) else {
        return;
    };
    let timeouts =
        [stream.set_nodelay(true), stream.set_read_timeout(Some(IDLE)), stream.set_write_timeout(Some(UNREAD))];
    if timeouts.iter().any(Result::is_err) {
        return;
    }
    let mut connection = Connection {
        handle: 0,
        peer: *peer.ip(),
        session: threshtide::Session::new(*local.ip(), shared.mask_of(*local.ip())),
    };
    let mut note = shared.notes.capture.as_deref().map(|capture| (capture, capture.begin(peer, local)));
    let mut first_to_end = Side::Client;
    while let Ok(Some(frame)) = Frame::of_stream(&mut stream) {
        if let Some((capture, flow)) = &mut note {
            capture.data(flow, Side::Client, &frame.bytes());
        }
        match answer(shared, &mut connection, &frame) {
            ControlFlow::Continue(None) => {}
            ControlFlow::Continue(Some(answer)) => {
                let bytes = answer.bytes();
                if let Some((capture, flow)) = &mut note {
                    capture.data(flow, Side::Server, &bytes);
                }
                let written = stream.write_all(&bytes);
                // an open may have brought the next deadline forward; its packets come behind its reply
                shared.wake.notify_all();
                if written.is_err() {
                    break;
                }
            }
            ControlFlow::Break(()) => {
                first_to_end = Side::Server;
                break;
            }
        }
    }
    if let Some((capture, flow)) = &mut note {
        capture.end(flow, first_to_end);
    }
}

/// The answer to a command, if it has one; Break ends the connection.
fn answer(shared: &Shared, connection: &mut Connection, frame: &Frame) -> ControlFlow<(), Option<Frame>> {
    let say = |status: u32, data: Vec<u8>| ControlFlow::Continue(Some(frame.answer(status, data)));
    match frame.command {
        encap::NOP => ControlFlow::Continue(None),
        encap::LIST_SERVICES => say(0, browse::services()),
        encap::LIST_IDENTITY => {
            let own = SocketAddrV4::new(connection.session.local, shared.port);
            say(0, browse::identity(&shared.lock().adapter, own))
        }
        encap::LIST_INTERFACES => say(0, vec![0, 0]),
        encap::REGISTER_SESSION => ControlFlow::Continue(Some(register(shared, connection, frame))),
        encap::UNREGISTER_SESSION => ControlFlow::Break(()),
        encap::SEND_RR_DATA => {
            if connection.handle == 0 || frame.session != connection.handle {
                return say(encap::INVALID_SESSION, Vec::new());
            }
            match rr_data(shared, connection, &frame.data) {
                Some(data) => say(0, data),
                None => say(encap::BAD_DATA, Vec::new()),
            }
        }
        // SendUnitData too: class 3 connections are not part of this
        _ => say(encap::INVALID_COMMAND, Vec::new()),
    }
}

fn register(shared: &Shared, connection: &mut Connection, frame: &Frame) -> Frame {
    let data = frame.data.clone();
    match data[..] {
        [1, 0, _, _] if connection.handle != 0 => frame.answer(encap::INVALID_COMMAND, data),
        [1, 0, _, _] => {
            connection.handle = shared.next_session.fetch_add(1, Ordering::Relaxed).max(1);
            Frame { session: connection.handle, ..frame.answer(0, data) }
        }
        [_, _, _, _] => frame.answer(encap::UNSUPPORTED_VERSION, data),
        _ => frame.answer(encap::INVALID_LENGTH, Vec::new()),
    }
}

/// The answer to SendRRData; None for data that is no unconnected message.
fn rr_data(shared: &Shared, connection: &mut Connection, data: &[u8]) -> Option<Vec<u8>> {
    let items = cpf::read_rr(data)?;
    let message = cpf::find(&items, cpf::UNCONNECTED_DATA)?;
    let given = cpf::find(&items, cpf::SOCKET_T_O).and_then(cpf::read_socket);
    let (reply, socket) = unconnected(shared, connection, message, given);
    let socket = socket.map(cpf::write_socket);
    let mut items: Vec<cpf::Item> = vec![(cpf::NULL_ADDRESS, &[]), (cpf::UNCONNECTED_DATA, &reply)];
    if let Some(socket) = &socket {
        items.push((cpf::SOCKET_T_O, socket));
    }
    Some(cpf::write_rr(&items))
}

/// The reply to an unconnected message, and the T→O socket address item that goes with it.
fn unconnected(
    shared: &Shared,
    connection: &mut Connection,
    mut message: &[u8],
    given: Option<SocketAddrV4>,
) -> (Vec<u8>, Option<SocketAddrV4>) {
    loop {
        let request = match read_request(message) {
            Ok(request) if request.is_for_the_connection_manager() => request,
            // the library answers what does not parse, too
            _ => return (to_an_object(shared, connection, message), None),
        };
        let data = &message[request.data_start..];
        let reply = match (request.service, Service::of(request.service)) {
            (_, Some(service)) => return forward_open(shared, connection, service, data, given),
            (cip::FORWARD_CLOSE, _) => forward_close(shared, connection, data),
            (cip::UNCONNECTED_SEND, _) => match embedded(data) {
                // whatever route it names: the device itself answers
                Some(inner) => {
                    message = inner;
                    continue;
                }
                None => Reply::to(request.service, cip::NOT_ENOUGH_DATA, vec![], vec![]),
            },
            _ => Reply::to(request.service, cip::SERVICE_NOT_SUPPORTED, vec![], vec![]),
        };
        return (reply.bytes(), None);
    }
}

/// The message inside an Unconnected Send.
fn embedded(data: &[u8]) -> Option<&[u8]> {
    let (&[_, _, low, high], rest) = data.split_first_chunk::<4>()?;
    rest.get(..usize::from(u16::from_le_bytes([low, high])))
}

fn to_an_object(shared: &Shared, connection: &mut Connection, message: &[u8]) -> Vec<u8> {
    let reply = shared.call(|adapter, _| adapter.message(&mut connection.session, message));
    reply.unwrap_or_else(|_| {
        let service = message.first().copied().unwrap_or(0);
        Reply::to(service, cip::RESOURCE_UNAVAILABLE, vec![], vec![]).bytes()
    })
}

fn forward_open(
    shared: &Shared,
    connection: &Connection,
    service: Service,
    data: &[u8],
    given: Option<SocketAddrV4>,
) -> (Vec<u8>, Option<SocketAddrV4>) {
    let origin = Origin {
        peer: connection.peer,
        local: connection.session.local,
        mask: connection.session.mask,
        t_o_socket: given,
        io_port: shared.io_port,
    };
    let number = service.number();
    let (result, time) = shared.call(|adapter, time| (adapter.open(time, service, data, &origin), time));
    let said = &shared.notes.said;
    let (reply, socket) = match result {
        Ok(opened) => {
            if let Some(reply) = OpenReply::read(&opened.reply) {
                said.opened(connection.peer, number, &reply, opened.multicast);
            }
            (Reply::to(number, 0, vec![], opened.reply.to_vec()), opened.multicast)
        }
        Err(OpenError::Refused(refusal)) => {
            shared.lock().application.refused(time, connection.peer, &refusal);
            let words: Vec<u16> = refusal.words().collect();
            let data = open_refusal(service, data).unwrap_or_default();
            let triad = data.first_chunk().map_or(Triad::read(&[0; 8]), Triad::read);
            said.refused(connection.peer, number, refusal.general, &words, triad);
            (Reply::to(number, refusal.general, words, data.to_vec()), None)
        }
        Err(OpenError::No(no)) => (Reply::to(number, status_of(no), vec![], vec![]), None),
    };
    (reply.bytes(), socket)
}

fn forward_close(shared: &Shared, connection: &Connection, data: &[u8]) -> Reply {
    let (general, words, data) = match shared.call(|adapter, _| adapter.close(data)) {
        Ok(reply) => (0, vec![], reply.to_vec()),
        Err(No::Nothing) => {
            // it parsed: the triad lies at 2; then two zero bytes, as in the reply of a yes
            let triad = data.get(2..10).unwrap_or_default();
            (cip::CONNECTION_FAILURE, vec![cip::CONNECTION_NOT_FOUND], [triad, &[0, 0]].concat())
        }
        Err(no) => (status_of(no), vec![], vec![]),
    };
    if let Some(triad) = data.first_chunk() {
        shared.notes.said.closed(connection.peer, general, Triad::read(triad));
    }
    Reply::to(cip::FORWARD_CLOSE, general, words, data)
}

/// The general status for an open or close that came to no decision.
fn status_of(no: No) -> u8 {
    match no {
        No::Parse => cip::NOT_ENOUGH_DATA,
        _ => cip::RESOURCE_UNAVAILABLE,
    }
}
