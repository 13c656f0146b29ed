//! The adapter (target) half of EtherNet/IP class 1 I/O: a safe face of Threshtide's proved library.
//!
//! The library is written in Rattle, and every function of it is proved equal to a definition of the rules. It has no
//! sockets, no clock and no memory of its own: the host lends it the state as bytes, passes the time in, and sends and
//! receives the frames. [`Adapter`] owns those bytes; a call ends with a value or with a reason for no that changed
//! nothing.
//!
//! ```
//! use std::net::{Ipv4Addr, SocketAddrV4};
//! use threshtide::{Adapter, Assembly, Event, MAX_PACKETS, Origin, Service, Setup};
//!
//! // a lane with four bytes out to the scanner and two bytes in from it
//! let mut adapter = Adapter::new(
//!     &Setup {
//!         assemblies: vec![Assembly::input(100, 4), Assembly::output(150, 2)],
//!         ..Setup::default()
//!     },
//!     1,
//! )?;
//!
//! // a scanner opens it as owner: 10 ms both ways, timeout 4 intervals, T→O point-to-point
//! let origin = Origin {
//!     peer: Ipv4Addr::new(10, 0, 0, 1),
//!     local: Ipv4Addr::new(10, 0, 0, 100),
//!     mask: Ipv4Addr::new(255, 255, 255, 0),
//!     t_o_socket: None,
//!     io_port: 2222,
//! };
//! let request = [
//!     0x0A, 0x0E, // priority and time-out ticks
//!     0, 0, 0, 0, // O→T id: the adapter draws it
//!     0x11, 0x22, 0x33, 0x44, // T→O id: the scanner's
//!     1, 0, 2, 0, 3, 0, 0, 0, // triad: serial 1, vendor 2, originator 3
//!     0, 0, 0, 0, // timeout multiplier 0
//!     0x10, 0x27, 0, 0, 0x08, 0x40, // O→T: 10,000 µs, 8 bytes, point-to-point
//!     0x10, 0x27, 0, 0, 0x06, 0x40, // T→O: 10,000 µs, 6 bytes, point-to-point
//!     0x01, // transport class 1, cyclic
//!     3, 0x20, 0x04, 0x2C, 150, 0x2C, 100, // path: class 4, points 150 and 100
//! ];
//! let opened = adapter.open(0, Service::ForwardOpen, &request, &origin)?;
//! assert_eq!(opened.t_o_id().0, 0x4433_2211);
//! assert!(matches!(adapter.next_event(), Some(Event::Opened(_))));
//!
//! // its first frame: sequence 1, run, two bytes
//! let mut frame = vec![2, 0, 0x02, 0x80, 8, 0];
//! frame.extend(opened.o_t_id().0.to_le_bytes());
//! frame.extend([1, 0, 0, 0, 0xB1, 0, 8, 0, 1, 0, 1, 0, 0, 0, 0xCA, 0xFE]);
//! adapter.receive(1_000, origin.peer, &frame)?;
//! assert_eq!(adapter.next_event(), Some(Event::Output { instance: 150 }));
//! let output = adapter.output(150)?;
//! assert!(output.run);
//! assert_eq!(output.data, [0xCA, 0xFE]);
//!
//! // what goes to the scanner
//! adapter.set_input(100, &[1, 2, 3, 4])?;
//! let mut room = [0; MAX_PACKETS];
//! let packet = adapter.produce(1_000, &mut room)?.next().expect("due since the open");
//! assert_eq!(packet.destination, SocketAddrV4::new(origin.peer, 2222));
//! assert!(packet.frame.ends_with(&[1, 2, 3, 4]));
//!
//! // it falls silent: after 40 ms without a frame the run bit is clear
//! assert_eq!(adapter.expire(41_000)?, 0);
//! assert_eq!(adapter.expire(41_001)?, 1);
//! assert!(matches!(adapter.next_event(), Some(Event::TimedOut(_))));
//! assert!(!adapter.output(150)?.run);
//! # Ok::<(), Box<dyn std::error::Error>>(())
//! ```
//!
//! # What a host has to do
//!
//! - Call [`expire`](Adapter::expire) and [`produce`](Adapter::produce) when [`next_deadline`](Adapter::next_deadline)
//!   comes, `expire` one microsecond after it: at exactly the timeout nothing expires.
//! - Act on `Closed` and `TimedOut` events: the owner's output has lost its run bit, and no `Output` event says so.
//! - Read an output after its event: until then no other event tells of a change.
//!
//! # Numbers for no
//!
//! [`No`] has the numbers and their meaning, [`Refusal`] the words of a refused open, [`Word::meaning`] what
//! each word means.

mod adapter;
mod answer;
// the comparison uses more of these two than this crate does
#[allow(dead_code)]
mod block;
mod opening;
#[allow(dead_code)]
#[rustfmt::skip]
mod places;
mod records;
mod routing;
mod setup;
#[rustfmt::skip]
pub mod sys;
mod words;

pub use adapter::{Adapter, MAX_PACKETS, Session};
pub use answer::{No, OpenError, Refusal};
pub use opening::{Opened, Origin, Service, open_refusal};
pub use records::{Connection, ConnectionKind, Event, OtId, Output, Packet, Packets, Stats, ToId};
pub use routing::{ConnectionPath, Key, Request, read_path, read_request};
pub use setup::{Assembly, AssemblyKind, BLOCK_SIZE, Setup, SetupError};
pub use words::Word;
