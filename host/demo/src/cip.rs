//! Messages to and from objects: requests as an originator writes them, replies as both sides do.

use std::fmt;

/// Get attribute single.
pub const GET_SINGLE: u8 = 0x0E;
/// Forward Close.
pub const FORWARD_CLOSE: u8 = 0x4E;
/// Unconnected Send: a message inside a message.
pub const UNCONNECTED_SEND: u8 = 0x52;
/// Forward Open.
pub const FORWARD_OPEN: u8 = 0x54;
/// Large Forward Open.
pub const LARGE_FORWARD_OPEN: u8 = 0x5B;

/// General status: connection failure; words say which.
pub const CONNECTION_FAILURE: u8 = 0x01;
/// General status: the device cannot answer now.
pub const RESOURCE_UNAVAILABLE: u8 = 0x02;
/// General status: the object does not know the service.
pub const SERVICE_NOT_SUPPORTED: u8 = 0x08;
/// General status: not enough data.
pub const NOT_ENOUGH_DATA: u8 = 0x13;
/// Word of a refused close: no such connection.
pub const CONNECTION_NOT_FOUND: u16 = 0x0107;

/// The path to the Connection Manager, with its length in words in front.
const TO_THE_CONNECTION_MANAGER: [u8; 5] = [2, 0x20, 0x06, 0x24, 0x01];

/// A reply.
#[derive(Clone, Debug, PartialEq, Eq)]
pub struct Reply {
    /// The service of the request, with bit 7 set.
    pub service: u8,
    /// The general status, 0 for yes.
    pub general: u8,
    /// Further words of the status.
    pub words: Vec<u16>,
    /// What follows.
    pub data: Vec<u8>,
}

impl Reply {
    /// A reply to a service.
    pub fn to(service: u8, general: u8, words: Vec<u16>, data: Vec<u8>) -> Reply {
        Reply { service: service | 0x80, general, words, data }
    }

    /// Its bytes.
    pub fn bytes(&self) -> Vec<u8> {
        let mut out = vec![self.service, 0, self.general, self.words.len() as u8];
        out.extend(self.words.iter().flat_map(|word| word.to_le_bytes()));
        out.extend(&self.data);
        out
    }

    /// The reply of bytes; None if they are cut short.
    pub fn read(bytes: &[u8]) -> Option<Reply> {
        let (&[service, _, general, words], rest) = bytes.split_first_chunk::<4>()?;
        let (words, data) = rest.split_at_checked(2 * usize::from(words))?;
        let words = words.chunks(2).map(|w| u16::from_le_bytes([w[0], w[1]])).collect();
        Some(Reply { service, general, words, data: data.to_vec() })
    }
}

/// What names a connection between an originator and a target.
#[derive(Clone, Copy, Debug, PartialEq, Eq)]
pub struct Triad {
    /// The connection's serial number, the originator's to choose.
    pub serial: u16,
    /// The originator's vendor.
    pub vendor: u16,
    /// The originator's serial number.
    pub originator: u32,
}

impl Triad {
    /// Eight bytes.
    pub fn bytes(&self) -> [u8; 8] {
        let mut out = [0; 8];
        out[..2].copy_from_slice(&self.serial.to_le_bytes());
        out[2..4].copy_from_slice(&self.vendor.to_le_bytes());
        out[4..].copy_from_slice(&self.originator.to_le_bytes());
        out
    }

    /// The triad of its eight bytes.
    pub fn read(b: &[u8; 8]) -> Triad {
        Triad {
            serial: u16::from_le_bytes([b[0], b[1]]),
            vendor: u16::from_le_bytes([b[2], b[3]]),
            originator: u32::from_le_bytes([b[4], b[5], b[6], b[7]]),
        }
    }
}

impl fmt::Display for Triad {
    fn fmt(&self, f: &mut fmt::Formatter<'_>) -> fmt::Result {
        write!(f, "serial {}, vendor {}, originator {}", self.serial, self.vendor, self.originator)
    }
}

/// One direction of an open.
#[derive(Clone, Copy, Debug, PartialEq, Eq)]
pub struct Direction {
    /// The packet interval asked for, in microseconds.
    pub rpi: u32,
    /// Bytes of a packet: CIP sequence, header and data.
    pub size: u16,
    /// To a group; else point-to-point.
    pub multicast: bool,
}

/// A Forward Open of transport class 1, cyclic.
#[derive(Clone, Debug, PartialEq, Eq)]
pub struct ForwardOpen {
    /// Large Forward Open: network parameters of 32 bits.
    pub large: bool,
    /// The T→O id that the originator proposes.
    pub t_o_id: u32,
    /// Its name.
    pub triad: Triad,
    /// The timeout is the O→T interval times 4 times 2 to this.
    pub multiplier: u8,
    /// To the target.
    pub o_t: Direction,
    /// From the target.
    pub t_o: Direction,
    /// The path to the assemblies.
    pub path: Vec<u8>,
}

impl ForwardOpen {
    /// The service's number.
    pub fn service(&self) -> u8 {
        if self.large { LARGE_FORWARD_OPEN } else { FORWARD_OPEN }
    }

    /// The network parameters of a direction: priority "scheduled", fixed size.
    pub fn parameters(&self, direction: Direction) -> u32 {
        let kind = if direction.multicast { 1 } else { 2 };
        let (priority_at, kind_at) = if self.large { (26, 29) } else { (10, 13) };
        u32::from(direction.size) | 2 << priority_at | kind << kind_at
    }

    /// The message to the Connection Manager.
    pub fn message(&self) -> Vec<u8> {
        let width = if self.large { 4 } else { 2 };
        let mut out = vec![self.service()];
        out.extend(TO_THE_CONNECTION_MANAGER);
        out.extend([0x0A, 0x0E]); // priority and time-out ticks
        out.extend([0; 4]); // the target draws the O→T id
        out.extend(self.t_o_id.to_le_bytes());
        out.extend(self.triad.bytes());
        out.extend([self.multiplier, 0, 0, 0]);
        for direction in [self.o_t, self.t_o] {
            out.extend(direction.rpi.to_le_bytes());
            out.extend(&self.parameters(direction).to_le_bytes()[..width]);
        }
        out.push(0x01); // class 1, cyclic
        out.push((self.path.len() / 2) as u8);
        out.extend(&self.path);
        out
    }

    /// How long the target waits for a frame, in microseconds.
    pub fn timeout(&self) -> u64 {
        u64::from(self.o_t.rpi) << (2 + self.multiplier.min(7))
    }
}

/// An assembly path: class 4, then connection points; configuration data behind.
pub fn assembly_path(points: &[u8], data: &[u8]) -> Vec<u8> {
    let mut out = vec![0x20, 0x04];
    out.extend(points.iter().flat_map(|point| [0x2C, *point]));
    if !data.is_empty() {
        out.extend([0x80, (data.len() / 2) as u8]);
        out.extend(data);
    }
    out
}

/// A Forward Close.
pub fn forward_close(triad: Triad, path: &[u8]) -> Vec<u8> {
    let mut out = vec![FORWARD_CLOSE];
    out.extend(TO_THE_CONNECTION_MANAGER);
    out.extend([0x0A, 0x0E]);
    out.extend(triad.bytes());
    out.extend([(path.len() / 2) as u8, 0]);
    out.extend(path);
    out
}

/// Get attribute single.
pub fn get_single(class: u8, instance: u8, attribute: u8) -> Vec<u8> {
    vec![GET_SINGLE, 3, 0x20, class, 0x24, instance, 0x30, attribute]
}

/// The data of the reply to an accepted open.
#[derive(Clone, Copy, Debug, PartialEq, Eq)]
pub struct OpenReply {
    /// The id that the originator's frames name.
    pub o_t_id: u32,
    /// The id that the target's frames name.
    pub t_o_id: u32,
    /// The open's own.
    pub triad: Triad,
    /// The interval to the target.
    pub o_t_rpi: u32,
    /// The interval from the target.
    pub t_o_rpi: u32,
}

impl OpenReply {
    /// Reads 26 bytes.
    pub fn read(data: &[u8]) -> Option<OpenReply> {
        let b: &[u8; 26] = data.try_into().ok()?;
        let u32_at = |at: usize| u32::from_le_bytes([b[at], b[at + 1], b[at + 2], b[at + 3]]);
        Some(OpenReply {
            o_t_id: u32_at(0),
            t_o_id: u32_at(4),
            triad: Triad::read(b[8..16].try_into().ok()?),
            o_t_rpi: u32_at(16),
            t_o_rpi: u32_at(20),
        })
    }
}

#[cfg(test)]
mod tests {
    use super::*;

    fn open(large: bool) -> ForwardOpen {
        ForwardOpen {
            large,
            t_o_id: 0x4433_2211,
            triad: Triad { serial: 1, vendor: 2, originator: 3 },
            multiplier: 0,
            o_t: Direction { rpi: 10_000, size: 8, multicast: false },
            t_o: Direction { rpi: 20_000, size: 6, multicast: true },
            path: assembly_path(&[150, 100], &[]),
        }
    }

    #[test]
    fn a_small_open() {
        #[rustfmt::skip]
        let bytes = [
            0x54, 2, 0x20, 0x06, 0x24, 0x01, 0x0A, 0x0E, 0, 0, 0, 0, 0x11, 0x22, 0x33, 0x44,
            1, 0, 2, 0, 3, 0, 0, 0, 0, 0, 0, 0,
            0x10, 0x27, 0, 0, 0x08, 0x48, 0x20, 0x4E, 0, 0, 0x06, 0x28,
            0x01, 3, 0x20, 0x04, 0x2C, 150, 0x2C, 100,
        ];
        assert_eq!(open(false).message(), bytes);
    }

    #[test]
    fn a_large_open_has_wider_parameters() {
        let (small, large) = (open(false).message(), open(true).message());
        assert_eq!((large[0], large.len()), (0x5B, small.len() + 4));
        assert_eq!(large[32..36], [0x08, 0, 0, 0x48]);
        assert_eq!(large[40..44], [0x06, 0, 0, 0x28]);
    }

    #[test]
    fn timeouts_of_document_01() {
        let timeout = |multiplier| ForwardOpen { multiplier, ..open(false) }.timeout();
        assert_eq!((timeout(0), timeout(7), timeout(200)), (40_000, 5_120_000, 5_120_000));
    }

    #[test]
    fn paths() {
        assert_eq!(assembly_path(&[5], &[]), [0x20, 0x04, 0x2C, 5]);
        assert_eq!(assembly_path(&[5], &[1, 2, 3, 4]), [0x20, 0x04, 0x2C, 5, 0x80, 2, 1, 2, 3, 4]);
    }

    #[test]
    fn replies() {
        let refused = Reply::to(0x54, 0x01, vec![0x0109, 38], vec![1, 2]);
        assert_eq!(refused.bytes(), [0xD4, 0, 1, 2, 0x09, 0x01, 38, 0, 1, 2]);
        assert_eq!(Reply::read(&refused.bytes()), Some(refused));
        for length in 0..8 {
            assert_eq!(Reply::read(&[0xD4, 0, 1, 2, 0x09, 0x01, 38, 0][..length]), None, "{length} bytes");
        }
    }

    #[test]
    fn an_open_reply_has_26_bytes() {
        let mut data = [0; 26];
        data[..4].copy_from_slice(&7u32.to_le_bytes());
        data[8..16].copy_from_slice(&open(false).triad.bytes());
        data[20..24].copy_from_slice(&9u32.to_le_bytes());
        let reply = OpenReply::read(&data).unwrap();
        assert_eq!((reply.o_t_id, reply.triad, reply.t_o_rpi), (7, open(false).triad, 9));
        assert_eq!(OpenReply::read(&data[..25]), None);
    }

    #[test]
    fn a_close() {
        let close = forward_close(open(false).triad, &[0x20, 0x04]);
        assert_eq!(close[6..], [0x0A, 0x0E, 1, 0, 2, 0, 3, 0, 0, 0, 1, 0, 0x20, 0x04]);
    }
}
