//! The adapter: the state's bytes and the calls on them.

use crate::answer::{No, OpenError, not_in_the_contract, read, read_open};
use crate::opening::{Opened, Origin, Service};
use crate::places::SLOT;
use crate::records::{Connection, Event, Output, Packets, RECORD, Stats, u64_at};
use crate::setup::{AssemblyKind, Setup, SetupError};
use crate::sys;
use std::fmt;
use std::net::{Ipv4Addr, SocketAddrV4};

/// The most bytes that a [`produce`](Adapter::produce) can give: 32 packets of 512 bytes of data.
pub const MAX_PACKETS: usize = 32 * (13 + 20 + SLOT);
/// The room that a reply to a [`message`](Adapter::message) asks for.
const MAX_REPLY: usize = 516;
/// The run byte and the largest output.
const MAX_OUTPUT: usize = 1 + SLOT;
/// The records of a full table.
const MAX_RECORDS: usize = 32 * RECORD;

/// What a session (a TCP connection) is known by when it sends messages: the local address that it reached, its mask,
/// and how far its EDS upload is. It belongs to one adapter.
#[derive(Clone, Debug, PartialEq, Eq)]
pub struct Session {
    /// The local address.
    pub local: Ipv4Addr,
    /// Its subnet mask.
    pub mask: Ipv4Addr,
    upload: Vec<u8>,
}

impl Session {
    /// A session with no upload under way.
    pub fn new(local: Ipv4Addr, mask: Ipv4Addr) -> Self {
        // SAFETY: takes nothing.
        let size = unsafe { sys::threshtide_upload_size() };
        Session { local, mask, upload: vec![0; size as usize] }
    }
}

/// An adapter. Its state is bytes that only the library writes.
///
/// Every call checks what it is given, ends with an answer, and changes nothing where it refuses. Times are
/// microseconds from any beginning, up to 2^63 - 1; a clock may go back.
#[derive(Clone, PartialEq, Eq)]
pub struct Adapter {
    state: Box<[u8]>,
}

impl fmt::Debug for Adapter {
    fn fmt(&self, f: &mut fmt::Formatter<'_>) -> fmt::Result {
        f.debug_struct("Adapter")
            .field("connections", &self.connections())
            .field("stats", &self.stats())
            .finish_non_exhaustive()
    }
}

/// The state passes its test: only the library writes it, and every accepted call leaves one that does.
fn expected<T>(result: Result<T, No>) -> T {
    match result {
        Ok(value) => value,
        Err(no) => not_in_the_contract(u64::from(no.number())),
    }
}

impl Adapter {
    /// The size of a state in bytes.
    pub fn state_size() -> usize {
        // SAFETY: takes nothing.
        unsafe { sys::threshtide_state_size() as usize }
    }

    /// A fresh adapter. Connection ids are drawn in turn from the seed on.
    pub fn new(setup: &Setup, seed: u32) -> Result<Adapter, SetupError> {
        let mut adapter = Adapter { state: vec![0; Self::state_size()].into() };
        adapter.set_up(setup, seed)?;
        Ok(adapter)
    }

    /// Sets the adapter up anew: connections, events, data and counters go. Sessions that were begun before are of no
    /// further use.
    pub fn set_up(&mut self, setup: &Setup, seed: u32) -> Result<(), SetupError> {
        let block = setup.block()?;
        let eds = setup.eds.as_deref().unwrap_or_default();
        // SAFETY: pointer and length are of one slice each; `state` is lent to nobody else.
        let answer = unsafe {
            sys::threshtide_setup(
                self.state.as_mut_ptr(),
                self.state.len(),
                block.as_ptr(),
                block.len(),
                eds.as_ptr(),
                eds.len(),
                seed,
            )
        };
        match (read(answer), setup.fault()) {
            (Ok(_), None) => Ok(()),
            (Err(No::Setup), Some(fault)) => Err(fault),
            _ => not_in_the_contract(answer),
        }
    }

    /// An adapter of saved bytes: [`No::State`] unless they pass the state test.
    pub fn from_bytes(bytes: Vec<u8>) -> Result<Adapter, No> {
        let adapter = Adapter { state: bytes.into() };
        adapter.try_stats().map(|_| adapter)
    }

    /// The state, to be saved.
    pub fn as_bytes(&self) -> &[u8] {
        &self.state
    }

    /// Replaces an input assembly's data; shorter data leaves the rest zero. [`No::Assembly`], [`No::TooLong`].
    pub fn set_input(&mut self, instance: u32, data: &[u8]) -> Result<(), No> {
        // SAFETY: as in `set_up`.
        let answer = unsafe {
            sys::threshtide_set_input(self.state.as_mut_ptr(), self.state.len(), instance, data.as_ptr(), data.len())
        };
        read(answer).map(|_| ())
    }

    /// An output assembly's run bit and data. Reading it lets its next change make an event again. [`No::Assembly`].
    pub fn output(&mut self, instance: u32) -> Result<Output, No> {
        let mut out = [0; MAX_OUTPUT];
        // SAFETY: as in `set_up`; `out` is lent to nobody else.
        let answer = unsafe {
            sys::threshtide_output(self.state.as_mut_ptr(), self.state.len(), instance, out.as_mut_ptr(), out.len())
        };
        let length = read(answer)? as usize;
        Ok(Output { run: out[0] == 1, data: out[1..length].to_vec() })
    }

    /// An assembly's data. [`No::Assembly`].
    pub fn assembly(&self, kind: AssemblyKind, instance: u32) -> Result<Vec<u8>, No> {
        let mut out = [0; MAX_OUTPUT];
        // SAFETY: pointer and length are of one slice each; `out` is lent to nobody else.
        let answer = unsafe {
            sys::threshtide_assembly(
                self.state.as_ptr(),
                self.state.len(),
                kind.number(),
                instance,
                out.as_mut_ptr(),
                out.len(),
            )
        };
        let length = read(answer)? as usize;
        Ok(out[..length].to_vec())
    }

    /// Opens a connection. `request` is the data of a Forward Open, behind the path to the Connection Manager.
    ///
    /// A refusal has its word, which says which check failed:
    ///
    /// ```
    /// use std::net::Ipv4Addr;
    /// use threshtide::{Adapter, OpenError, Origin, Service, Setup};
    ///
    /// let mut adapter = Adapter::new(&Setup::default(), 1)?;
    /// let origin = Origin {
    ///     peer: Ipv4Addr::new(10, 0, 0, 1),
    ///     local: Ipv4Addr::new(10, 0, 0, 100),
    ///     mask: Ipv4Addr::new(255, 255, 255, 0),
    ///     t_o_socket: None,
    ///     io_port: 2222,
    /// };
    /// // 36 zero bytes are an open of transport class 0
    /// match adapter.open(0, Service::ForwardOpen, &[0; 36], &origin) {
    ///     Err(OpenError::Refused(refusal)) => {
    ///         assert_eq!(refusal.word.0, 0x0103);
    ///         assert!(refusal.to_string().starts_with("0x0103 transport class"));
    ///     }
    ///     other => panic!("{other:?}"),
    /// }
    /// # Ok::<(), Box<dyn std::error::Error>>(())
    /// ```
    pub fn open(&mut self, time: u64, service: Service, request: &[u8], origin: &Origin) -> Result<Opened, OpenError> {
        let mut reply = [0; 26];
        let (address, port) = match origin.t_o_socket {
            Some(socket) => (u32::from(*socket.ip()), socket.port()),
            None => (0, 0),
        };
        // SAFETY: as in `output`.
        let answer = unsafe {
            sys::threshtide_open(
                self.state.as_mut_ptr(),
                self.state.len(),
                time,
                service.number(),
                request.as_ptr(),
                request.len(),
                u32::from(origin.peer),
                u32::from(origin.local),
                u32::from(origin.mask),
                origin.t_o_socket.is_some(),
                address,
                port,
                origin.io_port,
                reply.as_mut_ptr(),
                reply.len(),
            )
        };
        read_open(answer)?;
        let socket = || SocketAddrV4::new(Ipv4Addr::from((answer >> 32) as u32), (answer >> 16) as u16);
        Ok(Opened { reply, multicast: ((answer >> 8) as u8 == 1).then(socket) })
    }

    /// Closes a connection; the data of the reply. `request` is the data of a Forward Close. [`No::Parse`],
    /// [`No::Nothing`] if no connection has that triad.
    pub fn close(&mut self, request: &[u8]) -> Result<[u8; 10], No> {
        let mut reply = [0; 10];
        // SAFETY: as in `output`.
        let answer = unsafe {
            sys::threshtide_close(
                self.state.as_mut_ptr(),
                self.state.len(),
                request.as_ptr(),
                request.len(),
                reply.as_mut_ptr(),
                reply.len(),
            )
        };
        read(answer).map(|_| reply)
    }

    /// Takes a UDP payload that arrived on the I/O port. One that is of no use is ignored. [`No::Time`].
    pub fn receive(&mut self, time: u64, from: Ipv4Addr, frame: &[u8]) -> Result<(), No> {
        // SAFETY: as in `set_up`.
        let answer = unsafe {
            sys::threshtide_receive(
                self.state.as_mut_ptr(),
                self.state.len(),
                time,
                u32::from(from),
                frame.as_ptr(),
                frame.len(),
            )
        };
        read(answer).map(|_| ())
    }

    /// The packets due by a time, written into `out` one behind the other. [`MAX_PACKETS`] bytes are always enough;
    /// with too few no connection steps and the answer is [`No::Room`]. [`No::Time`].
    pub fn produce<'a>(&mut self, time: u64, out: &'a mut [u8]) -> Result<Packets<'a>, No> {
        // SAFETY: as in `output`.
        let answer = unsafe {
            sys::threshtide_produce(self.state.as_mut_ptr(), self.state.len(), time, out.as_mut_ptr(), out.len())
        };
        let length = read(answer)? as usize;
        Ok(Packets::new(&out[..length]))
    }

    /// Removes the connections whose originator was silent for longer than their timeout; how many went, listeners of
    /// a stream that ended included. [`No::Time`].
    pub fn expire(&mut self, time: u64) -> Result<usize, No> {
        // SAFETY: as in `set_up`.
        let answer = unsafe { sys::threshtide_expire(self.state.as_mut_ptr(), self.state.len(), time) };
        read(answer).map(|n| n as usize)
    }

    /// The time of the next packet or timeout; None without connections.
    ///
    /// At a timeout's own time nothing expires yet: call [`expire`](Adapter::expire) one microsecond after it.
    pub fn next_deadline(&self) -> Option<u64> {
        let mut out = [0; 8];
        // SAFETY: as in `assembly`.
        let answer = unsafe {
            sys::threshtide_next_deadline(self.state.as_ptr(), self.state.len(), out.as_mut_ptr(), out.len())
        };
        match read(answer) {
            Err(No::Nothing) => None,
            result => {
                expected(result);
                Some(u64::from_le_bytes(out))
            }
        }
    }

    /// The oldest event waiting, which leaves the list. 1,024 are kept; another drops the oldest.
    pub fn next_event(&mut self) -> Option<Event> {
        let mut out = [0; RECORD];
        // SAFETY: as in `output`.
        let answer = unsafe {
            sys::threshtide_next_event(self.state.as_mut_ptr(), self.state.len(), out.as_mut_ptr(), out.len())
        };
        match read(answer) {
            Err(No::Nothing) => None,
            result => {
                expected(result);
                Some(Event::read(&out))
            }
        }
    }

    /// The connections, in the order of the table.
    pub fn connections(&self) -> Vec<Connection> {
        let mut out = [0; MAX_RECORDS];
        // SAFETY: as in `assembly`.
        let answer =
            unsafe { sys::threshtide_connections(self.state.as_ptr(), self.state.len(), out.as_mut_ptr(), out.len()) };
        let length = expected(read(answer)) as usize;
        let (records, _) = out[..length].as_chunks();
        records.iter().map(Connection::read).collect()
    }

    fn try_stats(&self) -> Result<Stats, No> {
        let mut out = [0; 24];
        // SAFETY: as in `assembly`.
        let answer =
            unsafe { sys::threshtide_stats(self.state.as_ptr(), self.state.len(), out.as_mut_ptr(), out.len()) };
        read(answer)?;
        Ok(Stats { produced: u64_at(&out, 0), late: u64_at(&out, 8), max_late: u64_at(&out, 16) })
    }

    /// The counters of production.
    pub fn stats(&self) -> Stats {
        expected(self.try_stats())
    }

    /// Answers an explicit message to the adapter's objects: the reply, service and status included.
    /// [`No::State`] for a session of another adapter whose upload is not possible here.
    ///
    /// ```
    /// use std::net::Ipv4Addr;
    /// use threshtide::{Adapter, Session, Setup};
    ///
    /// let adapter = Adapter::new(&Setup { vendor: 0x04D2, ..Setup::default() }, 1)?;
    /// let mut session = Session::new(Ipv4Addr::LOCALHOST, Ipv4Addr::new(255, 0, 0, 0));
    /// // get attribute 1 (vendor) of Identity instance 1
    /// let reply = adapter.message(&mut session, &[0x0E, 3, 0x20, 0x01, 0x24, 0x01, 0x30, 0x01])?;
    /// assert_eq!(reply, [0x8E, 0, 0, 0, 0xD2, 0x04]);
    /// # Ok::<(), Box<dyn std::error::Error>>(())
    /// ```
    pub fn message(&self, session: &mut Session, message: &[u8]) -> Result<Vec<u8>, No> {
        let mut out = [0; MAX_REPLY];
        // SAFETY: as in `assembly`; the session's position is lent to nobody else.
        let answer = unsafe {
            sys::threshtide_message(
                self.state.as_ptr(),
                self.state.len(),
                session.upload.as_mut_ptr(),
                session.upload.len(),
                u32::from(session.local),
                u32::from(session.mask),
                message.as_ptr(),
                message.len(),
                out.as_mut_ptr(),
                out.len(),
            )
        };
        let length = read(answer)? as usize;
        Ok(out[..length].to_vec())
    }
}
