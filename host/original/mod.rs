//! The types that ciplink's state.rs, wire.rs and objects.rs take from the crate round them (its adapter/mod.rs),
//! without the sockets. The three files stand beside this one as they are in the source, each with a few lines
//! behind its end that read what is private to it.
#![allow(dead_code, unused_imports, unused_variables, clippy::all)]

mod forms;
mod objects;
mod side;
mod state;
mod wire;

pub use side::Original;

use std::net::Ipv4Addr;
use std::time::Duration;

pub const CIPLINK_OBJECT: u16 = 0x64;
pub const CIPLINK_SIGNATURE: &str = "ciplink";

#[derive(Clone, Debug, PartialEq, Eq)]
pub struct AdapterIdentity {
    pub vendor_id: u16,
    pub device_type: u16,
    pub product_code: u16,
    pub revision: (u8, u8),
    pub serial: u32,
    pub product_name: String,
}

#[derive(Clone, Copy, Debug, PartialEq, Eq)]
pub enum AssemblyKind {
    Input,
    Output,
    Config,
}

impl AssemblyKind {
    pub(crate) fn code(self) -> u8 {
        match self {
            AssemblyKind::Input => 1,
            AssemblyKind::Output => 2,
            AssemblyKind::Config => 3,
        }
    }

    pub(crate) fn from_code(code: u8) -> Option<Self> {
        [
            AssemblyKind::Input,
            AssemblyKind::Output,
            AssemblyKind::Config,
        ]
        .into_iter()
        .find(|k| k.code() == code)
    }
}

#[derive(Clone, Copy, Debug, PartialEq, Eq)]
pub struct Assembly {
    pub instance: u32,
    pub kind: AssemblyKind,
    pub size: usize,
}

#[derive(Clone, Debug)]
pub struct AdapterConfig {
    pub identity: AdapterIdentity,
    pub assemblies: Vec<Assembly>,
    pub input_only_heartbeat: u32,
    pub listen_only_heartbeat: u32,
    pub eds: Option<Vec<u8>>,
    pub eds_name: String,
    pub app_name: String,
    pub app_version: String,
    pub rpi_min: Duration,
    pub rpi_max: Duration,
    pub mac: [u8; 6],
}

#[derive(Clone, Copy, Debug, PartialEq, Eq)]
pub enum ConnectionKind {
    ExclusiveOwner,
    InputOnly,
    ListenOnly,
}

impl ConnectionKind {
    pub(crate) fn code(self) -> u8 {
        match self {
            ConnectionKind::ExclusiveOwner => 1,
            ConnectionKind::InputOnly => 2,
            ConnectionKind::ListenOnly => 3,
        }
    }
}

#[derive(Clone, Debug, PartialEq, Eq)]
pub struct ConnectionInfo {
    pub kind: ConnectionKind,
    pub originator: Ipv4Addr,
    pub o_t_rpi: Duration,
    pub t_o_rpi: Duration,
    pub input: u32,
    pub input_size: usize,
    pub output: Option<u32>,
    pub output_size: usize,
    pub multicast: bool,
    pub o_t_id: u32,
    pub t_o_id: u32,
}

#[derive(Clone, Debug, PartialEq, Eq)]
pub enum Event {
    Opened(ConnectionInfo),
    Closed(ConnectionInfo),
    TimedOut(ConnectionInfo),
    Config { instance: u32, data: Vec<u8> },
    Output { instance: u32 },
}

#[derive(Clone, Debug, PartialEq, Eq)]
pub struct Output {
    pub data: Vec<u8>,
    pub run: bool,
}

#[derive(Clone, Copy, Debug, Default, PartialEq, Eq)]
pub struct Stats {
    pub produced: u64,
    pub late: u64,
    pub max_late: Duration,
}
