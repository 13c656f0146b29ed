//! The C interface's bytes: the setup block, and the records of events, connections, paths and requests.

use super::wire::{self, Seg};
use super::{AdapterConfig, AdapterIdentity, Assembly, AssemblyKind, ConnectionInfo, Event};
use compare::block::{self, MOST_ASSEMBLIES, MOST_NAME};
use compare::places::SLOT;
use compare::{BLOCK, MAX_BYTES, MAX_PATH, PATH_RECORD, RECORD, REQUEST_RECORD};
use std::time::Duration;

fn u16_le(bytes: &[u8], at: usize) -> u16 {
    u16::from_le_bytes([bytes[at], bytes[at + 1]])
}

fn u32_le(bytes: &[u8], at: usize) -> u32 {
    u32::from_le_bytes([bytes[at], bytes[at + 1], bytes[at + 2], bytes[at + 3]])
}

/// A name of any bytes: ciplink reads its texts through `as_bytes` alone.
fn text(bytes: &[u8]) -> String {
    unsafe { String::from_utf8_unchecked(bytes.to_vec()) }
}

/// The setup of a block and an EDS; None where setup answers No. 2.
pub(super) fn config(block: &[u8], eds: &[u8]) -> Option<AdapterConfig> {
    if block.len() != BLOCK {
        return None;
    }
    let (count, limit) = (usize::from(block[block::ASSEMBLIES]), block[block::TRANSFER_LIMIT]);
    let (name, eds_name) = (usize::from(block[block::NAME_LENGTH]), usize::from(block[block::EDS_NAME_LENGTH]));
    let present = u32_le(block, block::EDS);
    if count > MOST_ASSEMBLIES || limit == 0 || name > MOST_NAME || eds_name > MOST_NAME || present > 1 {
        return None;
    }
    if eds.len() > 65_535 || (present == 0 && !eds.is_empty()) {
        return None;
    }
    let mut assemblies: Vec<Assembly> = Vec::with_capacity(count);
    for i in 0..count {
        let instance = u32::from(u16_le(block, block::instance(i)));
        let size = usize::from(u16_le(block, block::size(i)));
        let kind = AssemblyKind::from_code(block[block::kind(i)])?;
        if instance == 0 || size > SLOT || assemblies.iter().any(|a| a.instance == instance) {
            return None;
        }
        assemblies.push(Assembly { instance, kind, size });
    }
    let micros = |at: usize| Duration::from_micros(u64::from(u32_le(block, at)));
    Some(AdapterConfig {
        identity: AdapterIdentity {
            vendor_id: u16_le(block, block::VENDOR),
            device_type: u16_le(block, block::DEVICE_TYPE),
            product_code: u16_le(block, block::PRODUCT_CODE),
            revision: (block[block::MAJOR], block[block::MINOR]),
            serial: u32_le(block, block::SERIAL),
            product_name: text(&block[block::NAME..block::NAME + name]),
        },
        assemblies,
        input_only_heartbeat: u32_le(block, block::INPUT_ONLY),
        listen_only_heartbeat: u32_le(block, block::LISTEN_ONLY),
        eds: (present == 1).then(|| eds.to_vec()),
        eds_name: text(&block[block::EDS_NAME..block::EDS_NAME + eds_name]),
        app_name: String::new(),
        app_version: String::new(),
        rpi_min: micros(block::RPI_MIN),
        rpi_max: micros(block::RPI_MAX),
        mac: std::array::from_fn(|i| block[block::MAC + i]),
    })
}

pub(super) fn record(what: u8, info: &ConnectionInfo) -> [u8; RECORD] {
    let mut out = [0; RECORD];
    out[0] = what;
    out[1] = info.kind.code();
    out[2] = u8::from(info.multicast);
    out[4..8].copy_from_slice(&u32::from(info.originator).to_le_bytes());
    out[8..12].copy_from_slice(&(info.o_t_rpi.as_micros() as u32).to_le_bytes());
    out[12..16].copy_from_slice(&(info.t_o_rpi.as_micros() as u32).to_le_bytes());
    out[16..20].copy_from_slice(&info.o_t_id.to_le_bytes());
    out[20..24].copy_from_slice(&info.t_o_id.to_le_bytes());
    out[24..26].copy_from_slice(&(info.input as u16).to_le_bytes());
    out[26..28].copy_from_slice(&(info.input_size as u16).to_le_bytes());
    out[28..30].copy_from_slice(&(info.output.unwrap_or(0) as u16).to_le_bytes());
    out[30..32].copy_from_slice(&(info.output_size as u16).to_le_bytes());
    out
}

pub(super) fn event_record(event: &Event) -> [u8; RECORD] {
    let mut out = [0; RECORD];
    match event {
        Event::Opened(info) => return record(1, info),
        Event::Closed(info) => return record(2, info),
        Event::TimedOut(info) => return record(3, info),
        Event::Config { instance, data } => {
            out[0] = 4;
            out[4..6].copy_from_slice(&(*instance as u16).to_le_bytes());
            out[6..8].copy_from_slice(&(data.len() as u16).to_le_bytes());
        }
        Event::Output { instance } => {
            out[0] = 5;
            out[4..6].copy_from_slice(&(*instance as u16).to_le_bytes());
        }
    }
    out
}

/// Where the segment in a place of the list ends: the least part of the path that reads as that segment and those before.
fn end_of(path: &[u8], place: usize) -> usize {
    let reads = |n: &usize| wire::parse_path(&path[..*n]).is_some_and(|segs| segs.len() == place + 1);
    (0..=path.len()).find(reads).unwrap_or(0)
}

/// What `path` writes of a path: whether a port or attribute segment bars an open, the last key, the last class, the
/// first three instances and points and their count (4 for more), and the place of the last data segment.
pub(super) fn path_record(path: &[u8]) -> Option<[u8; PATH_RECORD]> {
    if path.len() > MAX_PATH {
        return None;
    }
    let segs = wire::parse_path(path)?;
    let mut out = [0; PATH_RECORD];
    let mut numbers = 0;
    for (place, seg) in segs.iter().enumerate() {
        match seg {
            Seg::Port { .. } | Seg::Attribute(_) => out[0] = 1,
            Seg::Key(key) => {
                out[1] = 1;
                out[4..6].copy_from_slice(&key.vendor.to_le_bytes());
                out[6..8].copy_from_slice(&key.device_type.to_le_bytes());
                out[8..10].copy_from_slice(&key.product_code.to_le_bytes());
                out[10..12].copy_from_slice(&[key.major, key.minor]);
            }
            Seg::Class(class) => {
                out[2] = 1;
                out[12..16].copy_from_slice(&class.to_le_bytes());
            }
            Seg::Instance(n) | Seg::Point(n) => {
                if numbers < 3 {
                    out[16 + 4 * numbers..20 + 4 * numbers].copy_from_slice(&n.to_le_bytes());
                }
                numbers += 1;
            }
            Seg::Data(data) => {
                let start = end_of(path, place) - data.len();
                out[28..30].copy_from_slice(&(start as u16).to_le_bytes());
                out[30..32].copy_from_slice(&(data.len() as u16).to_le_bytes());
            }
        }
    }
    out[3] = numbers.min(4) as u8;
    Some(out)
}

/// What `request` writes of a message: service, whether its path names an object, whether it names an attribute, class,
/// instance, attribute, and where the service's data begins.
pub(super) fn request_record(message: &[u8]) -> Option<[u8; REQUEST_RECORD]> {
    if message.len() > MAX_BYTES {
        return None;
    }
    let request = wire::parse_request(message)?;
    let mut out = [0; REQUEST_RECORD];
    out[0] = message[0];
    if let Some((class, instance)) = wire::class_instance(&request.path) {
        out[1] = 1;
        out[4..8].copy_from_slice(&class.to_le_bytes());
        out[8..12].copy_from_slice(&instance.to_le_bytes());
    }
    if let Some(attribute) = wire::attribute(&request.path) {
        out[2] = 1;
        out[12..16].copy_from_slice(&attribute.to_le_bytes());
    }
    let start = (message.len() - request.data.len()) as u32;
    out[16..20].copy_from_slice(&start.to_le_bytes());
    Some(out)
}
