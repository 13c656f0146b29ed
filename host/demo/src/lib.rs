//! The reference host: real sockets around Threshtide's proved library.
//!
//! [`host`] is what a host author takes as a model: TCP sessions and unconnected messages, opens and closes routed to the
//! library, I/O frames taken and packets sent on time, deadlines kept, events acted on. [`story`] plays a scanner, a
//! display and a browser against it on loopback and checks what happens. The rest is the wire: [`encap`], [`cpf`],
//! [`cip`], [`io`], and [`pcap`] with [`capture`] for what went over it.

pub mod capture;
pub mod cip;
pub mod clock;
pub mod cpf;
pub mod encap;
pub mod host;
pub mod io;
pub mod lane;
pub mod options;
pub mod pcap;
pub mod said;
pub mod story;
pub mod timeline;
