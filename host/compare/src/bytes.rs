//! Bytes of requests and frames, built from their fields: the generator's side of the wire formats.

use crate::block;
use crate::call::BLOCK;

/// How a direction of a connection is carried.
pub const NULL: u8 = 0;
pub const MULTICAST: u8 = 1;
pub const POINT_TO_POINT: u8 = 2;

/// One segment of a path. Numbers carry the width they are written in: 0, 1 or 2 for 8, 16 or 32 bits.
#[derive(Clone, Debug)]
pub enum Seg {
    Class(u32, u8),
    Instance(u32, u8),
    Point(u32, u8),
    Attribute(u32, u8),
    Key { vendor: u16, device: u16, product: u16, major: u8, minor: u8 },
    Data(Vec<u8>),
    Raw(Vec<u8>),
}

/// The least width that holds a number.
pub fn width(n: u32) -> u8 {
    match n {
        0..=0xFF => 0,
        0x100..=0xFFFF => 1,
        _ => 2,
    }
}

fn number(out: &mut Vec<u8>, first: u8, n: u32, wide: u8) {
    out.push(first | wide);
    // the pad byte before a wider value is not read: not always 0 here
    let pad = if n % 3 == 1 { 0x77 } else { 0 };
    match wide {
        0 => out.push(n as u8),
        1 => {
            out.push(pad);
            out.extend((n as u16).to_le_bytes());
        }
        _ => {
            out.push(pad);
            out.extend(n.to_le_bytes());
        }
    }
}

pub fn path(segs: &[Seg]) -> Vec<u8> {
    let mut out = Vec::new();
    for seg in segs {
        match seg {
            Seg::Class(n, w) => number(&mut out, 0x20, *n, *w),
            Seg::Instance(n, w) => number(&mut out, 0x24, *n, *w),
            Seg::Point(n, w) => number(&mut out, 0x2C, *n, *w),
            Seg::Attribute(n, w) => number(&mut out, 0x30, *n, *w),
            Seg::Key { vendor, device, product, major, minor } => {
                out.extend([0x34, 0x04]);
                out.extend(vendor.to_le_bytes());
                out.extend(device.to_le_bytes());
                out.extend(product.to_le_bytes());
                out.extend([*major, *minor]);
            }
            Seg::Data(bytes) => {
                out.extend([0x80, (bytes.len() / 2) as u8]);
                out.extend(bytes);
            }
            Seg::Raw(bytes) => out.extend(bytes),
        }
    }
    out
}

/// The network connection parameters of one direction.
#[derive(Clone, Copy, Debug)]
pub struct Params {
    pub size: usize,
    pub variable: bool,
    pub net: u8,
    /// Bits that are not read, as they are to be written.
    pub other: u32,
}

impl Params {
    pub fn new(size: usize, net: u8) -> Self {
        Params { size, variable: false, net, other: 0 }
    }

    fn bits(&self, large: bool) -> u32 {
        let (variable, net, size) = (u32::from(self.variable), u32::from(self.net), self.size as u32);
        if large {
            size & 0xFFFF | variable << 25 | net << 29 | self.other & 0x9DFF_0000
        } else {
            size & 0x01FF | variable << 9 | net << 13 | self.other & 0x9C00
        }
    }
}

/// A Forward Open, small or large.
#[derive(Clone, Debug)]
pub struct Open {
    pub large: bool,
    pub o_t_id: u32,
    pub t_o_id: u32,
    pub serial: u16,
    pub vendor: u16,
    pub originator: u32,
    pub multiplier: u8,
    pub o_t_rpi: u32,
    pub o_t: Params,
    pub t_o_rpi: u32,
    pub t_o: Params,
    pub transport: u8,
    pub path: Vec<u8>,
    pub behind: Vec<u8>,
}

impl Open {
    /// A small open at 10 ms each way, of one originator, to be changed where a case asks.
    pub fn plain(serial: u16, o_t: Params, t_o: Params, path: Vec<u8>) -> Open {
        Open {
            large: false,
            o_t_id: 0,
            t_o_id: 0x7000 + u32::from(serial),
            serial,
            vendor: 2,
            originator: 3,
            multiplier: 0,
            o_t_rpi: 10_000,
            o_t,
            t_o_rpi: 10_000,
            t_o,
            transport: 1,
            path,
            behind: Vec::new(),
        }
    }

    pub fn service(&self) -> u8 {
        if self.large { 0x5B } else { 0x54 }
    }

    pub fn bytes(&self) -> Vec<u8> {
        let mut out = vec![0x0A, 0x0E];
        out.extend(self.o_t_id.to_le_bytes());
        out.extend(self.t_o_id.to_le_bytes());
        out.extend(self.serial.to_le_bytes());
        out.extend(self.vendor.to_le_bytes());
        out.extend(self.originator.to_le_bytes());
        out.extend([self.multiplier, 0, 0, 0]);
        for (rpi, params) in [(self.o_t_rpi, self.o_t), (self.t_o_rpi, self.t_o)] {
            out.extend(rpi.to_le_bytes());
            let bits = params.bits(self.large).to_le_bytes();
            out.extend(&bits[..if self.large { 4 } else { 2 }]);
        }
        out.extend([self.transport, (self.path.len() / 2) as u8]);
        out.extend(&self.path);
        out.extend(&self.behind);
        out
    }
}

/// A Forward Close of a triad.
pub fn close((serial, vendor, originator): (u16, u16, u32), path: &[u8], behind: &[u8]) -> Vec<u8> {
    let mut out = vec![0x0A, 0x0E];
    out.extend(serial.to_le_bytes());
    out.extend(vendor.to_le_bytes());
    out.extend(originator.to_le_bytes());
    out.extend([(path.len() / 2) as u8, 0]);
    out.extend(path);
    out.extend(behind);
    out
}

/// Items behind their count.
pub fn items(items: &[(u16, Vec<u8>)]) -> Vec<u8> {
    let mut out = Vec::new();
    out.extend((items.len() as u16).to_le_bytes());
    for (kind, data) in items {
        out.extend(kind.to_le_bytes());
        out.extend((data.len() as u16).to_le_bytes());
        out.extend(data);
    }
    out
}

/// The sequenced address item and the connected data item of an I/O frame.
pub fn frame_items(id: u32, sequence: u32, payload: Vec<u8>) -> Vec<(u16, Vec<u8>)> {
    let mut address = id.to_le_bytes().to_vec();
    address.extend(sequence.to_le_bytes());
    vec![(0x8002, address), (0x00B1, payload)]
}

/// A consumed payload: CIP sequence, run/idle header, data.
pub fn payload(cip: u16, header: u32, data: &[u8]) -> Vec<u8> {
    let mut out = cip.to_le_bytes().to_vec();
    out.extend(header.to_le_bytes());
    out.extend(data);
    out
}

/// A message: service, path, data.
pub fn message(service: u8, path: &[u8], data: &[u8]) -> Vec<u8> {
    let mut out = vec![service, (path.len() / 2) as u8];
    out.extend(path);
    out.extend(data);
    out
}

/// An assembly of a setup: kind 1 input, 2 output, 3 configuration.
#[derive(Clone, Copy, Debug, PartialEq, Eq)]
pub struct Shape {
    pub instance: u32,
    pub size: usize,
    pub kind: u8,
}

/// A setup, as its block has it.
#[derive(Clone, Debug, Default)]
pub struct Setup {
    pub assemblies: Vec<Shape>,
    pub limit: u8,
    pub eds: bool,
    pub vendor: u16,
    pub device: u16,
    pub product: u16,
    pub major: u8,
    pub minor: u8,
    pub serial: u32,
    pub input_only: u32,
    pub listen_only: u32,
    pub rpi_min: u32,
    pub rpi_max: u32,
    pub late: u32,
    pub mac: [u8; 6],
    pub name: Vec<u8>,
    pub eds_name: Vec<u8>,
}

impl Setup {
    pub fn block(&self) -> Vec<u8> {
        let mut out = vec![0; BLOCK];
        out[block::ASSEMBLIES] = self.assemblies.len() as u8;
        out[block::TRANSFER_LIMIT] = self.limit;
        out[block::NAME_LENGTH] = self.name.len() as u8;
        out[block::EDS_NAME_LENGTH] = self.eds_name.len() as u8;
        out[block::EDS] = u8::from(self.eds);
        let mut put = |at: usize, bytes: &[u8]| out[at..at + bytes.len()].copy_from_slice(bytes);
        put(block::VENDOR, &self.vendor.to_le_bytes());
        put(block::DEVICE_TYPE, &self.device.to_le_bytes());
        put(block::PRODUCT_CODE, &self.product.to_le_bytes());
        put(block::MAJOR, &[self.major]);
        put(block::MINOR, &[self.minor]);
        put(block::SERIAL, &self.serial.to_le_bytes());
        put(block::INPUT_ONLY, &self.input_only.to_le_bytes());
        put(block::LISTEN_ONLY, &self.listen_only.to_le_bytes());
        put(block::RPI_MIN, &self.rpi_min.to_le_bytes());
        put(block::RPI_MAX, &self.rpi_max.to_le_bytes());
        put(block::LATE_LIMIT, &self.late.to_le_bytes());
        put(block::MAC, &self.mac);
        put(block::NAME, &self.name);
        put(block::EDS_NAME, &self.eds_name);
        for (i, a) in self.assemblies.iter().enumerate() {
            put(block::instance(i), &(a.instance as u16).to_le_bytes());
            put(block::size(i), &(a.size as u16).to_le_bytes());
            put(block::kind(i), &[a.kind]);
        }
        out
    }
}
