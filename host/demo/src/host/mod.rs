//! The reference host: what a program has to do around the library so that a device answers on a network.
//!
//! Threads: one accepts TCP connections and one serves each of them (`session.rs`), one answers browsers on UDP
//! (`browse.rs`), one takes I/O frames and one keeps the deadlines (`traffic.rs`). All share one [`Adapter`] behind a lock;
//! no call into it waits for anything, so the lock is held for microseconds.
//!
//! The rules that are easy to miss, and where they are kept:
//!
//! - The time of a call is read under the lock, so that the library never sees the clock go back (`Shared::call`).
//! - Events are taken after every call, under the same lock. A full list would drop its oldest, and an output whose event
//!   was dropped is silent until it is read (`Inner::act`).
//! - An owner's output loses run when its connection ends, and no `Output` event says so: on `Closed` and `TimedOut` the
//!   host reads the output (`Inner::act`).
//! - At exactly a timeout nothing expires yet: the host waits until one microsecond after the deadline (`traffic.rs`).
//! - An open can bring the next deadline forward: it wakes the thread that waits for it.
//! - The T→O socket address item of a request goes to the library as it is, also as 0.0.0.0; the answer has one only if
//!   it is multicast, and a joiner's is its stream's.
//!
//! # More than one network card
//!
//! A multicast packet has to leave by the card that the open came in on: `Packet::local`. This host sends it from a socket
//! that is bound to that address, which decides the card on Linux. Elsewhere the socket option IP_MULTICAST_IF does
//! (`setsockopt`; the standard library has no call for it). A subnet mask cannot be asked for with the standard library
//! either, so it is given ([`Config::mask`]); a host with several cards looks up the mask of each. After a hand-over the
//! packets leave from the joiner's local address with the group of the first opener: a joiner on another card never gets
//! the stream, so open every connection of a stream on one card.

mod browse;
mod session;
mod traffic;

use crate::capture::Capture;
use crate::clock::Clock;
use crate::said::Said;
use std::fmt;
use std::io;
use std::net::{Ipv4Addr, Shutdown, SocketAddr, SocketAddrV4, TcpListener, TcpStream, UdpSocket};
use std::sync::atomic::{AtomicBool, AtomicU32, Ordering};
use std::sync::{Arc, Condvar, Mutex, MutexGuard, PoisonError};
use std::thread::JoinHandle;
use std::time::Duration;
use threshtide::{Adapter, Event, No, Output, Refusal, Setup};

/// The port of sessions (TCP) and browsing (UDP).
pub const PORT: u16 = 44_818;
/// The port of class 1 I/O.
pub const IO_PORT: u16 = 2_222;
/// How often a thread that waits for datagrams looks whether the host stops.
const LOOK: Duration = Duration::from_millis(50);

/// Where a host listens and what it is.
pub struct Config {
    /// The local address; 0.0.0.0 for all of them.
    pub address: Ipv4Addr,
    /// The subnet mask of a local address.
    pub mask: Ipv4Addr,
    /// The port of sessions and browsing; 0 for a free one.
    pub port: u16,
    /// The port of class 1 I/O; 0 for a free one.
    pub io_port: u16,
    /// What the library is set up with.
    pub setup: Setup,
    /// Where connection ids begin.
    pub seed: u32,
}

/// What the host notes besides its work: a capture, and what it says it sent.
#[derive(Clone, Default)]
pub struct Notes {
    /// What went over the wire.
    pub capture: Option<Arc<Capture>>,
    /// What was said.
    pub said: Arc<Said>,
}

/// The inputs of a device, to be set by its application.
pub struct Inputs<'a>(&'a mut Adapter);

impl Inputs<'_> {
    /// Replaces an input assembly's data.
    pub fn set(&mut self, instance: u16, data: &[u8]) -> Result<(), No> {
        self.0.set_input(u32::from(instance), data)
    }
}

/// What a device does with its outputs. Called under the host's lock: it must not wait.
pub trait Application: Send {
    /// An output changed, or lost run because its owner's connection ended.
    fn output(&mut self, time: u64, instance: u16, output: &Output, inputs: &mut Inputs);
    /// Something happened. For an output that lost run with its connection, `output` follows.
    fn happened(&mut self, time: u64, event: &Event);
    /// An open was refused.
    fn refused(&mut self, time: u64, peer: Ipv4Addr, refusal: &Refusal);
    /// Something outside the library went wrong: a packet could not be sent.
    fn trouble(&mut self, time: u64, what: &str);
}

/// Why a host could not start.
#[derive(Debug)]
pub struct StartError {
    what: String,
    error: io::Error,
}

impl fmt::Display for StartError {
    fn fmt(&self, f: &mut fmt::Formatter<'_>) -> fmt::Result {
        let hint = match self.error.kind() {
            io::ErrorKind::AddrInUse => {
                " (another EtherNet/IP program has the port; choose others with --port and --io-port)"
            }
            io::ErrorKind::AddrNotAvailable => " (this machine has no such address)",
            io::ErrorKind::PermissionDenied => " (not allowed; ports below 1024 need rights)",
            _ => "",
        };
        write!(f, "cannot {}: {}{hint}", self.what, self.error)
    }
}

impl std::error::Error for StartError {}

fn cannot(what: String) -> impl FnOnce(io::Error) -> StartError {
    move |error| StartError { what, error }
}

struct Inner {
    adapter: Adapter,
    application: Box<dyn Application>,
}

impl Inner {
    /// Takes every event and acts on it.
    fn act(&mut self, time: u64) {
        while let Some(event) = self.adapter.next_event() {
            self.application.happened(time, &event);
            match event {
                Event::Output { instance } => self.tell(time, instance),
                Event::Closed(connection) | Event::TimedOut(connection) => {
                    if let Some((instance, _)) = connection.output {
                        self.tell(time, instance);
                    }
                }
                Event::Opened(_) | Event::Configured { .. } => {}
            }
        }
    }

    /// Reads an output, which lets its next change make an event again, and tells the application.
    fn tell(&mut self, time: u64, instance: u16) {
        if let Ok(output) = self.adapter.output(u32::from(instance)) {
            self.application.output(time, instance, &output, &mut Inputs(&mut self.adapter));
        }
    }
}

/// What every thread shares.
struct Shared {
    inner: Mutex<Inner>,
    /// Wakes the thread that keeps the deadlines: an open, or the end.
    wake: Condvar,
    stopping: AtomicBool,
    next_session: AtomicU32,
    /// The TCP connections that are open, to be shut down at the end.
    streams: Mutex<Vec<(u64, TcpStream)>>,
    io: UdpSocket,
    address: Ipv4Addr,
    mask: Ipv4Addr,
    port: u16,
    io_port: u16,
    clock: Clock,
    notes: Notes,
}

impl Shared {
    fn lock(&self) -> MutexGuard<'_, Inner> {
        self.inner.lock().unwrap_or_else(PoisonError::into_inner)
    }

    /// A call into the library at the present time, and what follows from its events.
    fn call<R>(&self, call: impl FnOnce(&mut Adapter, u64) -> R) -> R {
        let mut inner = self.lock();
        let time = self.clock.now();
        let result = call(&mut inner.adapter, time);
        inner.act(time);
        result
    }

    fn is_stopping(&self) -> bool {
        self.stopping.load(Ordering::SeqCst)
    }

    /// The local address that a peer's datagram reached: the bound one, else the one that an answer would leave from.
    fn local_for(&self, peer: SocketAddrV4) -> Ipv4Addr {
        if !self.address.is_unspecified() {
            return self.address;
        }
        let found = UdpSocket::bind((Ipv4Addr::UNSPECIFIED, 0)).and_then(|socket| {
            socket.connect(peer)?;
            socket.local_addr()
        });
        match found {
            Ok(SocketAddr::V4(local)) => *local.ip(),
            _ => Ipv4Addr::UNSPECIFIED,
        }
    }

    fn mask_of(&self, local: Ipv4Addr) -> Ipv4Addr {
        if local.is_loopback() { Ipv4Addr::new(255, 0, 0, 0) } else { self.mask }
    }
}

/// A running host.
pub struct Host {
    shared: Arc<Shared>,
    threads: Vec<JoinHandle<()>>,
}

/// TCP and UDP on one port. For port 0 a port is looked for that is free for both.
fn bind_pair(address: Ipv4Addr, port: u16) -> Result<(TcpListener, UdpSocket), StartError> {
    let mut tries = if port == 0 { 64 } else { 1 };
    loop {
        let listener = TcpListener::bind((address, port)).map_err(cannot(format!("listen on TCP {address}:{port}")))?;
        let got = listener.local_addr().map_err(cannot("read a port".into()))?.port();
        tries -= 1;
        match UdpSocket::bind((address, got)) {
            Ok(udp) => return Ok((listener, udp)),
            Err(error) if tries == 0 => return Err(cannot(format!("listen on UDP {address}:{got}"))(error)),
            Err(_) => {}
        }
    }
}

impl Host {
    /// Binds the sockets and starts the threads. The setup has to be without fault.
    pub fn start(
        config: Config,
        application: Box<dyn Application>,
        clock: Clock,
        notes: Notes,
    ) -> Result<Host, Box<dyn std::error::Error>> {
        let adapter = Adapter::new(&config.setup, config.seed)?;
        let (listener, browsing) = bind_pair(config.address, config.port)?;
        let port = listener.local_addr()?.port();
        let io = UdpSocket::bind((config.address, config.io_port))
            .map_err(cannot(format!("listen on UDP {}:{}", config.address, config.io_port)))?;
        let io_port = io.local_addr()?.port();
        io.set_multicast_ttl_v4(1)?; // a stream stays in its subnet
        for socket in [&browsing, &io] {
            socket.set_read_timeout(Some(LOOK))?;
        }
        let shared = Arc::new(Shared {
            inner: Mutex::new(Inner { adapter, application }),
            wake: Condvar::new(),
            stopping: AtomicBool::new(false),
            next_session: AtomicU32::new(config.seed.rotate_left(16) | 1),
            streams: Mutex::new(Vec::new()),
            io,
            address: config.address,
            mask: config.mask,
            port,
            io_port,
            clock,
            notes,
        });
        let mut host = Host { shared, threads: Vec::new() };
        host.thread("sessions", move |shared| session::accept(shared, &listener))?;
        host.thread("browsing", move |shared| browse::answer(shared, &browsing))?;
        host.thread("receive", traffic::receive)?;
        host.thread("deadlines", traffic::keep_deadlines)?;
        Ok(host)
    }

    fn thread(&mut self, name: &str, run: impl FnOnce(&Shared) + Send + 'static) -> io::Result<()> {
        let shared = Arc::clone(&self.shared);
        let thread = std::thread::Builder::new().name(name.into()).spawn(move || run(&shared))?;
        self.threads.push(thread);
        Ok(())
    }

    /// The port of sessions and browsing.
    pub fn port(&self) -> u16 {
        self.shared.port
    }

    /// The port of class 1 I/O.
    pub fn io_port(&self) -> u16 {
        self.shared.io_port
    }

    /// Looks at the adapter.
    pub fn look<R>(&self, look: impl FnOnce(&Adapter) -> R) -> R {
        look(&self.shared.lock().adapter)
    }

    /// Stops the threads and waits for them.
    pub fn stop(self) {
        self.shared.stopping.store(true, Ordering::SeqCst);
        {
            // under the lock, so that a thread between its look and its wait is not missed
            let _inner = self.shared.lock();
            self.shared.wake.notify_all();
        }
        for (_, stream) in &*self.shared.streams.lock().unwrap_or_else(PoisonError::into_inner) {
            let _ = stream.shutdown(Shutdown::Both);
        }
        // a connection ends the wait for the next one
        let mut own = SocketAddrV4::new(self.shared.address, self.shared.port);
        if own.ip().is_unspecified() {
            own.set_ip(Ipv4Addr::LOCALHOST);
        }
        let _ = TcpStream::connect_timeout(&own.into(), Duration::from_secs(1));
        for thread in self.threads {
            let _ = thread.join();
        }
    }
}
