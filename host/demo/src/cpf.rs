//! The common packet format: a count, then items of kind, length and data; and the socket address item.

use std::net::{Ipv4Addr, SocketAddrV4};

/// No address: in front of an unconnected message.
pub const NULL_ADDRESS: u16 = 0x0000;
/// What a device is (ListIdentity).
pub const IDENTITY: u16 = 0x000C;
/// The data of a connection.
pub const CONNECTED_DATA: u16 = 0x00B1;
/// An unconnected message.
pub const UNCONNECTED_DATA: u16 = 0x00B2;
/// What a device can do (ListServices).
pub const SERVICES: u16 = 0x0100;
/// The socket that T→O packets go to.
pub const SOCKET_T_O: u16 = 0x8001;
/// A connection's id and the sequence of a frame.
pub const SEQUENCED_ADDRESS: u16 = 0x8002;

/// A kind and its data.
pub type Item<'a> = (u16, &'a [u8]);

fn u16_at(bytes: &[u8], at: usize) -> Option<u16> {
    bytes.get(at..at + 2).map(|b| u16::from_le_bytes([b[0], b[1]]))
}

/// The items; None unless the last ends with the bytes.
pub fn read(bytes: &[u8]) -> Option<Vec<Item<'_>>> {
    let count = u16_at(bytes, 0)?;
    let mut items = Vec::new();
    let mut at = 2;
    for _ in 0..count {
        let end = at + 4 + usize::from(u16_at(bytes, at + 2)?);
        items.push((u16_at(bytes, at)?, bytes.get(at + 4..end)?));
        at = end;
    }
    (at == bytes.len()).then_some(items)
}

/// The bytes of items.
pub fn write(items: &[Item]) -> Vec<u8> {
    let mut out = (items.len() as u16).to_le_bytes().to_vec();
    for (kind, data) in items {
        out.extend(kind.to_le_bytes());
        out.extend((data.len() as u16).to_le_bytes());
        out.extend(*data);
    }
    out
}

/// The items of SendRRData: an interface handle and a timeout stand in front.
pub fn read_rr(data: &[u8]) -> Option<Vec<Item<'_>>> {
    read(data.get(6..)?)
}

/// The data of SendRRData: interface CIP, no timeout.
pub fn write_rr(items: &[Item]) -> Vec<u8> {
    let mut out = vec![0; 6];
    out.extend(write(items));
    out
}

/// The first item of a kind.
pub fn find<'a>(items: &[Item<'a>], kind: u16) -> Option<&'a [u8]> {
    items.iter().find(|(k, _)| *k == kind).map(|(_, data)| *data)
}

/// The data of a socket address item: family 2, port and address big-endian, eight zero bytes.
pub fn write_socket(socket: SocketAddrV4) -> [u8; 16] {
    let mut out = [0; 16];
    out[1] = 2;
    out[2..4].copy_from_slice(&socket.port().to_be_bytes());
    out[4..8].copy_from_slice(&socket.ip().octets());
    out
}

/// A socket address item; None for another length or family.
pub fn read_socket(data: &[u8]) -> Option<SocketAddrV4> {
    match data {
        [0, 2, p, q, a, b, c, d, rest @ ..] if rest.len() == 8 => {
            Some(SocketAddrV4::new(Ipv4Addr::new(*a, *b, *c, *d), u16::from_be_bytes([*p, *q])))
        }
        _ => None,
    }
}

#[cfg(test)]
mod tests {
    use super::*;

    const UNCONNECTED: [u8; 13] = [2, 0, 0, 0, 0, 0, 0xB2, 0, 3, 0, 0x0E, 1, 2];

    #[test]
    fn writes_and_reads_the_fixed_bytes() {
        let items: [Item; 2] = [(NULL_ADDRESS, &[]), (UNCONNECTED_DATA, &[0x0E, 1, 2])];
        assert_eq!(write(&items), UNCONNECTED);
        assert_eq!(read(&UNCONNECTED), Some(items.to_vec()));
        assert_eq!(find(&items, UNCONNECTED_DATA), Some(&[0x0E, 1, 2][..]));
        assert_eq!(find(&items, SOCKET_T_O), None);
    }

    #[test]
    fn items_end_with_the_bytes() {
        for length in 0..UNCONNECTED.len() {
            assert_eq!(read(&UNCONNECTED[..length]), None, "{length} bytes");
        }
        let mut longer = UNCONNECTED.to_vec();
        longer.push(0);
        assert_eq!(read(&longer), None);
        assert_eq!(read(&[0, 0]), Some(vec![]));
        assert_eq!(read(&[0xFF, 0xFF]), None);
    }

    #[test]
    fn rr_data_has_six_bytes_in_front() {
        let data = write_rr(&[(NULL_ADDRESS, &[]), (UNCONNECTED_DATA, &[0x0E, 1, 2])]);
        assert_eq!(data[6..], UNCONNECTED);
        assert_eq!(read_rr(&data), read(&UNCONNECTED));
        assert_eq!(read_rr(&data[..5]), None);
    }

    #[test]
    fn socket_items() {
        let socket = SocketAddrV4::new(Ipv4Addr::new(239, 192, 1, 0), 2222);
        let bytes = [0, 2, 0x08, 0xAE, 239, 192, 1, 0, 0, 0, 0, 0, 0, 0, 0, 0];
        assert_eq!(write_socket(socket), bytes);
        assert_eq!(read_socket(&bytes), Some(socket));
        assert_eq!(read_socket(&bytes[..15]), None);
        assert_eq!(read_socket(&[bytes.as_slice(), &[0]].concat()), None);
        let mut other = bytes;
        other[1] = 10;
        assert_eq!(read_socket(&other), None);
    }
}
