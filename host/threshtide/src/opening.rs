//! Opens: where they come from, and what an accepted one gives.

use crate::answer::{No, read};
use crate::records::{OtId, ToId, u32_at};
use crate::sys;
use std::net::{Ipv4Addr, SocketAddrV4};

/// How an open is written.
#[derive(Clone, Copy, Debug, PartialEq, Eq, Hash)]
pub enum Service {
    /// Forward Open, 0x54.
    ForwardOpen,
    /// Large Forward Open, 0x5B.
    LargeForwardOpen,
}

impl Service {
    /// Its number in a request.
    pub fn number(self) -> u8 {
        match self {
            Service::ForwardOpen => 0x54,
            Service::LargeForwardOpen => 0x5B,
        }
    }

    /// The service of a number; None for another one.
    pub fn of(number: u8) -> Option<Service> {
        [Service::ForwardOpen, Service::LargeForwardOpen].into_iter().find(|s| s.number() == number)
    }
}

/// Where an open came from.
#[derive(Clone, Copy, Debug, PartialEq, Eq, Hash)]
pub struct Origin {
    /// The originator.
    pub peer: Ipv4Addr,
    /// The local address that the open arrived on.
    pub local: Ipv4Addr,
    /// Its subnet mask: the group address is made of the host part.
    pub mask: Ipv4Addr,
    /// The T→O socket address item of the request, if there was one.
    pub t_o_socket: Option<SocketAddrV4>,
    /// The UDP port of class 1 I/O, usually 2222.
    pub io_port: u16,
}

/// An accepted open.
#[derive(Clone, Copy, Debug, PartialEq, Eq, Hash)]
pub struct Opened {
    /// The data of the reply.
    pub reply: [u8; 26],
    /// Multicast: the group and port for the reply's T→O socket address item, where the packets will go. A joiner's
    /// are its stream's.
    pub multicast: Option<SocketAddrV4>,
}

impl Opened {
    /// The O→T id, which the originator's frames have to name.
    pub fn o_t_id(&self) -> OtId {
        OtId(u32_at(&self.reply, 0))
    }

    /// The T→O id, which the packets to the originator name.
    pub fn t_o_id(&self) -> ToId {
        ToId(u32_at(&self.reply, 4))
    }

    /// The O→T packet interval in microseconds, as asked for.
    pub fn o_t_rpi(&self) -> u32 {
        u32_at(&self.reply, 16)
    }

    /// The T→O packet interval in microseconds: a joiner's is its stream's.
    pub fn t_o_rpi(&self) -> u32 {
        u32_at(&self.reply, 20)
    }
}

/// The data of the reply to a refused open: the triad and two zero bytes.
///
/// ```
/// use threshtide::{No, Service, open_refusal};
///
/// assert_eq!(open_refusal(Service::ForwardOpen, &[0; 35]), Err(No::Parse));
/// assert_eq!(open_refusal(Service::ForwardOpen, &[0; 36]), Ok([0; 10]));
/// ```
pub fn open_refusal(service: Service, request: &[u8]) -> Result<[u8; 10], No> {
    let mut out = [0; 10];
    // SAFETY: pointer and length are of one slice each, and `out` is lent to nobody else.
    let answer = unsafe {
        sys::threshtide_open_refusal(service.number(), request.as_ptr(), request.len(), out.as_mut_ptr(), out.len())
    };
    read(answer)?;
    Ok(out)
}
