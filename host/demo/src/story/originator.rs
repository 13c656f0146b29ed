//! The other side of the wire: sessions that open and close, sockets that talk and hear.

use crate::cip::{self, ForwardOpen, OpenReply, Reply, Triad};
use crate::clock::Clock;
use crate::cpf;
use crate::encap::{self, Frame};
use crate::io::IoFrame;
use crate::said::Said;
use std::io::{self, Write};
use std::net::{Ipv4Addr, SocketAddr, SocketAddrV4, TcpStream, UdpSocket};
use std::sync::atomic::{AtomicBool, Ordering};
use std::sync::{Arc, Mutex, PoisonError};
use std::thread::JoinHandle;
use std::time::{Duration, Instant};

/// How long an answer may take.
pub const PATIENCE: Duration = Duration::from_secs(3);

fn not_as_expected(what: &str) -> io::Error {
    io::Error::new(io::ErrorKind::InvalidData, what)
}

/// What an open came to, as the wire says it.
#[derive(Clone, Debug, PartialEq, Eq)]
pub enum Answer {
    /// Accepted, with the T→O socket address item if there was one.
    Opened(OpenReply, Option<SocketAddrV4>),
    /// Refused.
    Refused(Reply),
}

/// A session with the device.
pub struct Originator {
    address: Ipv4Addr,
    stream: TcpStream,
    session: u32,
    said: Arc<Said>,
}

impl Originator {
    /// Connects and registers a session.
    pub fn connect(target: SocketAddrV4, said: &Arc<Said>) -> io::Result<Originator> {
        let stream = TcpStream::connect_timeout(&target.into(), PATIENCE)?;
        stream.set_nodelay(true)?;
        stream.set_read_timeout(Some(PATIENCE))?;
        let SocketAddr::V4(own) = stream.local_addr()? else {
            return Err(not_as_expected("an IPv4 address was expected"));
        };
        let mut originator = Originator { address: *own.ip(), stream, session: 0, said: Arc::clone(said) };
        let answer = originator.ask(encap::REGISTER_SESSION, vec![1, 0, 0, 0])?;
        originator.session = answer.session;
        Ok(originator)
    }

    /// The address that the device sees.
    pub fn address(&self) -> Ipv4Addr {
        self.address
    }

    /// The session's handle.
    pub fn session(&self) -> u32 {
        self.session
    }

    /// A command and its answer, which has status 0.
    pub fn ask(&mut self, command: u16, data: Vec<u8>) -> io::Result<Frame> {
        self.stream.write_all(&Frame::command(command, self.session, data).bytes())?;
        match Frame::of_stream(&mut self.stream)? {
            Some(answer) if answer.command == command && answer.status == 0 => Ok(answer),
            Some(answer) => Err(not_as_expected(&format!("status {:#x} for command {command:#x}", answer.status))),
            None => Err(not_as_expected("the device ended the connection")),
        }
    }

    /// An unconnected message and its reply, with the T→O socket address items of both.
    pub fn send(&mut self, message: &[u8], socket: Option<SocketAddrV4>) -> io::Result<(Reply, Option<SocketAddrV4>)> {
        let socket = socket.map(cpf::write_socket);
        let mut items: Vec<cpf::Item> = vec![(cpf::NULL_ADDRESS, &[]), (cpf::UNCONNECTED_DATA, message)];
        if let Some(socket) = &socket {
            items.push((cpf::SOCKET_T_O, socket));
        }
        let answer = self.ask(encap::SEND_RR_DATA, cpf::write_rr(&items))?;
        let items = cpf::read_rr(&answer.data).ok_or_else(|| not_as_expected("an answer without items"))?;
        let reply = cpf::find(&items, cpf::UNCONNECTED_DATA).and_then(Reply::read);
        let reply = reply.ok_or_else(|| not_as_expected("an answer without a reply"))?;
        let socket = cpf::find(&items, cpf::SOCKET_T_O).and_then(cpf::read_socket);
        Ok((reply, socket))
    }

    /// An attribute's value.
    pub fn attribute(&mut self, class: u8, instance: u8, attribute: u8) -> io::Result<Vec<u8>> {
        let (reply, _) = self.send(&cip::get_single(class, instance, attribute), None)?;
        match reply.general {
            0 => Ok(reply.data),
            status => Err(not_as_expected(&format!("status {status:#04x} for an attribute"))),
        }
    }

    /// What a service of an object gives.
    pub fn service(&mut self, service: u8, class: u8, instance: u8, data: &[u8]) -> io::Result<Vec<u8>> {
        let message = [&[service, 2, 0x20, class, 0x24, instance][..], data].concat();
        let (reply, _) = self.send(&message, None)?;
        match reply.general {
            0 => Ok(reply.data),
            status => Err(not_as_expected(&format!("status {status:#04x} for service {service:#04x}"))),
        }
    }

    /// Opens, with a T→O socket of its own if one is given.
    pub fn open(&mut self, open: &ForwardOpen, socket: Option<SocketAddrV4>) -> io::Result<Answer> {
        self.said.open(self.address, open);
        let (reply, socket) = self.send(&open.message(), socket)?;
        if reply.general != 0 {
            return Ok(Answer::Refused(reply));
        }
        let data = OpenReply::read(&reply.data).ok_or_else(|| not_as_expected("an open's reply has 26 bytes"))?;
        Ok(Answer::Opened(data, socket))
    }

    /// Closes.
    pub fn close(&mut self, triad: Triad, path: &[u8]) -> io::Result<Reply> {
        self.said.close(self.address, triad);
        self.send(&cip::forward_close(triad, path), None).map(|(reply, _)| reply)
    }

    /// Ends the session; true if the device then ended the connection.
    pub fn leave(mut self) -> io::Result<bool> {
        self.stream.write_all(&Frame::command(encap::UNREGISTER_SESSION, self.session, Vec::new()).bytes())?;
        Ok(Frame::of_stream(&mut self.stream)?.is_none())
    }
}

/// What a browser is told: ListIdentity's data over UDP.
pub fn browse(from: Ipv4Addr, target: SocketAddrV4) -> io::Result<Vec<u8>> {
    let socket = UdpSocket::bind((from, 0))?;
    socket.set_read_timeout(Some(PATIENCE))?;
    socket.send_to(&Frame::command(encap::LIST_IDENTITY, 0, Vec::new()).bytes(), target)?;
    let mut buffer = [0; 1_500];
    let (size, _) = socket.recv_from(&mut buffer)?;
    let answer = Frame::of_datagram(&buffer[..size]).ok_or_else(|| not_as_expected("an answer cut short"))?;
    Ok(answer.data)
}

/// Where an originator's frames go, and with which id.
pub struct Way {
    /// The socket they leave from.
    pub socket: UdpSocket,
    /// The address of that socket.
    pub from: Ipv4Addr,
    /// The device's I/O socket.
    pub to: SocketAddrV4,
    /// The O→T id.
    pub id: u32,
}

/// Sends a frame each interval, until it is stopped or dropped.
pub struct Talker {
    data: Arc<Mutex<Vec<u8>>>,
    stop: Arc<AtomicBool>,
    thread: Option<JoinHandle<(u64, u32)>>,
}

impl Talker {
    /// Begins at once. `header`: the data begins with the 32-bit header.
    pub fn start(way: Way, rpi: Duration, data: Vec<u8>, header: bool, clock: Clock, said: &Arc<Said>) -> Talker {
        let data = Arc::new(Mutex::new(data));
        let stop = Arc::new(AtomicBool::new(false));
        let (shared, stopped, said) = (Arc::clone(&data), Arc::clone(&stop), Arc::clone(said));
        let thread = std::thread::spawn(move || {
            let (mut sequence, mut last) = (0u32, clock.now());
            while !stopped.load(Ordering::SeqCst) {
                sequence += 1;
                let data = shared.lock().unwrap_or_else(PoisonError::into_inner).clone();
                let frame = IoFrame { id: way.id, sequence, cip_sequence: sequence as u16, data };
                let now = clock.now();
                if way.socket.send_to(&frame.bytes(), way.to).is_ok() {
                    last = now;
                    said.o_t(way.from, &frame, header);
                }
                std::thread::sleep(rpi.saturating_sub(Duration::from_micros(clock.now() - now)));
            }
            (last, sequence)
        });
        Talker { data, stop, thread: Some(thread) }
    }

    /// What the next frames carry.
    pub fn set(&self, data: Vec<u8>) {
        *self.data.lock().unwrap_or_else(PoisonError::into_inner) = data;
    }

    /// Stops; the time just before the last frame was sent, and how many there were.
    pub fn stop(mut self) -> (u64, u32) {
        self.end()
    }

    fn end(&mut self) -> (u64, u32) {
        self.stop.store(true, Ordering::SeqCst);
        self.thread.take().and_then(|thread| thread.join().ok()).unwrap_or((0, 0))
    }
}

impl Drop for Talker {
    fn drop(&mut self) {
        self.end();
    }
}

/// A frame that was heard, and when.
#[derive(Clone, Debug, PartialEq, Eq)]
pub struct Heard {
    /// When.
    pub time: u64,
    /// Whence.
    pub from: SocketAddr,
    /// What; None for a datagram that is no I/O frame.
    pub frame: Option<IoFrame>,
}

/// Hears a socket, until it is dropped.
pub struct Hearer {
    heard: Arc<Mutex<Vec<Heard>>>,
    stop: Arc<AtomicBool>,
    thread: Option<JoinHandle<()>>,
}

impl Hearer {
    /// Begins at once.
    pub fn start(socket: UdpSocket, clock: Clock) -> io::Result<Hearer> {
        socket.set_read_timeout(Some(Duration::from_millis(20)))?;
        let heard = Arc::new(Mutex::new(Vec::new()));
        let stop = Arc::new(AtomicBool::new(false));
        let (shared, stopped) = (Arc::clone(&heard), Arc::clone(&stop));
        let thread = std::thread::spawn(move || {
            let mut buffer = [0; 1_500];
            while !stopped.load(Ordering::SeqCst) {
                if let Ok((size, from)) = socket.recv_from(&mut buffer) {
                    let frame = IoFrame::read(&buffer[..size]);
                    let heard = Heard { time: clock.now(), from, frame };
                    shared.lock().unwrap_or_else(PoisonError::into_inner).push(heard);
                }
            }
        });
        Ok(Hearer { heard, stop, thread: Some(thread) })
    }

    /// Everything heard up to now.
    pub fn heard(&self) -> Vec<Heard> {
        self.heard.lock().unwrap_or_else(PoisonError::into_inner).clone()
    }

    /// Waits for a frame with this data, among those heard after the first `after`.
    pub fn hears(&self, after: usize, data: &[u8], patience: Duration) -> bool {
        let begin = Instant::now();
        while begin.elapsed() < patience {
            let heard = self.heard();
            if heard.iter().skip(after).any(|h| h.frame.as_ref().is_some_and(|frame| frame.data == data)) {
                return true;
            }
            std::thread::sleep(Duration::from_millis(2));
        }
        false
    }
}

impl Drop for Hearer {
    fn drop(&mut self) {
        self.stop.store(true, Ordering::SeqCst);
        if let Some(thread) = self.thread.take() {
            let _ = thread.join();
        }
    }
}
