//! Classic pcap: Ethernet, IPv4, UDP and TCP frames with their checksums, made from what was sent and received.

use std::net::{Ipv4Addr, SocketAddrV4};

/// A TCP flag.
pub const FIN: u8 = 0x01;
/// A TCP flag.
pub const SYN: u8 = 0x02;
/// A TCP flag.
pub const PSH: u8 = 0x08;
/// A TCP flag.
pub const ACK: u8 = 0x10;
/// The most data in one TCP segment.
pub const SEGMENT: usize = 1460;

const UDP: u8 = 17;
const TCP: u8 = 6;

/// The head of a file: microseconds, little-endian, Ethernet.
pub fn head() -> [u8; 24] {
    let mut out = [0; 24];
    out[..4].copy_from_slice(&0xA1B2_C3D4_u32.to_le_bytes());
    out[4..6].copy_from_slice(&2u16.to_le_bytes());
    out[6..8].copy_from_slice(&4u16.to_le_bytes());
    out[16..20].copy_from_slice(&262_144_u32.to_le_bytes()); // the most bytes of a frame
    out[20..].copy_from_slice(&1u32.to_le_bytes()); // Ethernet
    out
}

/// A frame at a time, in microseconds since 1970.
pub fn record(time: u64, frame: &[u8]) -> Vec<u8> {
    let mut out = Vec::with_capacity(16 + frame.len());
    out.extend(((time / 1_000_000) as u32).to_le_bytes());
    out.extend(((time % 1_000_000) as u32).to_le_bytes());
    out.extend((frame.len() as u32).to_le_bytes());
    out.extend((frame.len() as u32).to_le_bytes());
    out.extend(frame);
    out
}

/// The one's complement sum of 16-bit words that IPv4, UDP and TCP use.
pub fn checksum(parts: &[&[u8]]) -> u16 {
    let mut sum = 0u64;
    for part in parts {
        for pair in part.chunks(2) {
            sum += u64::from(u16::from_be_bytes([pair[0], pair.get(1).copied().unwrap_or(0)]));
        }
    }
    while sum > 0xFFFF {
        sum = (sum & 0xFFFF) + (sum >> 16);
    }
    !(sum as u16)
}

/// The Ethernet address that stands for an IP address: the group's own, else a local one with the address in it.
pub fn mac(address: Ipv4Addr) -> [u8; 6] {
    let [a, b, c, d] = address.octets();
    if address.is_multicast() { [0x01, 0, 0x5E, b & 0x7F, c, d] } else { [0x02, 0, a, b, c, d] }
}

fn ipv4(id: u16, protocol: u8, from: Ipv4Addr, to: Ipv4Addr, body: &[u8]) -> Vec<u8> {
    let mut head = [0; 20];
    head[0] = 0x45;
    head[2..4].copy_from_slice(&((20 + body.len()) as u16).to_be_bytes());
    head[4..6].copy_from_slice(&id.to_be_bytes());
    head[6] = 0x40; // not to be cut in pieces
    head[8] = if to.is_multicast() { 1 } else { 64 };
    head[9] = protocol;
    head[12..16].copy_from_slice(&from.octets());
    head[16..].copy_from_slice(&to.octets());
    let sum = checksum(&[&head]);
    head[10..12].copy_from_slice(&sum.to_be_bytes());
    let mut out = Vec::with_capacity(14 + 20 + body.len());
    out.extend(mac(to));
    out.extend(mac(from));
    out.extend([0x08, 0x00]);
    out.extend(head);
    out.extend(body);
    out
}

/// What UDP and TCP put in front of their checksum's bytes; `head` and data make the length even.
fn transport_sum(protocol: u8, from: Ipv4Addr, to: Ipv4Addr, head: &[u8], data: &[u8]) -> u16 {
    let length = ((head.len() + data.len()) as u16).to_be_bytes();
    checksum(&[&from.octets(), &to.octets(), &[0, protocol], &length, head, data])
}

/// A UDP datagram.
pub fn udp(id: u16, from: SocketAddrV4, to: SocketAddrV4, data: &[u8]) -> Vec<u8> {
    let mut head = [0; 8];
    head[..2].copy_from_slice(&from.port().to_be_bytes());
    head[2..4].copy_from_slice(&to.port().to_be_bytes());
    head[4..6].copy_from_slice(&((8 + data.len()) as u16).to_be_bytes());
    let sum = match transport_sum(UDP, *from.ip(), *to.ip(), &head, data) {
        0 => 0xFFFF, // 0 would say that there is no checksum
        sum => sum,
    };
    head[6..].copy_from_slice(&sum.to_be_bytes());
    ipv4(id, UDP, *from.ip(), *to.ip(), &[&head, data].concat())
}

/// A TCP segment.
pub fn tcp(
    id: u16,
    (from, to): (SocketAddrV4, SocketAddrV4),
    (sequence, acknowledged): (u32, u32),
    flags: u8,
    data: &[u8],
) -> Vec<u8> {
    let mut head = [0; 20];
    head[..2].copy_from_slice(&from.port().to_be_bytes());
    head[2..4].copy_from_slice(&to.port().to_be_bytes());
    head[4..8].copy_from_slice(&sequence.to_be_bytes());
    head[8..12].copy_from_slice(&acknowledged.to_be_bytes());
    head[12] = 5 << 4; // five words of header
    head[13] = flags;
    head[14..16].copy_from_slice(&0xFFFF_u16.to_be_bytes()); // window
    let sum = transport_sum(TCP, *from.ip(), *to.ip(), &head, data);
    head[16..18].copy_from_slice(&sum.to_be_bytes());
    ipv4(id, TCP, *from.ip(), *to.ip(), &[&head, data].concat())
}

#[cfg(test)]
mod tests {
    use super::*;

    fn socket(last: u8, port: u16) -> SocketAddrV4 {
        SocketAddrV4::new(Ipv4Addr::new(127, 0, 0, last), port)
    }

    #[test]
    fn the_head_is_of_classic_pcap() {
        assert_eq!(
            head(),
            [0xD4, 0xC3, 0xB2, 0xA1, 2, 0, 4, 0, 0, 0, 0, 0, 0, 0, 0, 0, 0, 0, 4, 0, 1, 0, 0, 0] // little-endian
        );
    }

    #[test]
    fn a_record_has_its_time_and_its_length_twice() {
        let out = record(1_700_000_000_000_123, &[0xAA; 5]);
        assert_eq!(out[..4], 1_700_000_000_u32.to_le_bytes());
        assert_eq!(out[4..8], 123u32.to_le_bytes());
        assert_eq!(out[8..16], [5, 0, 0, 0, 5, 0, 0, 0]);
        assert_eq!(out[16..], [0xAA; 5]);
    }

    #[test]
    fn the_checksum_of_the_usual_example() {
        // the IPv4 header that explanations of the sum use: 0xB861
        let head = [0x45, 0, 0, 0x73, 0, 0, 0x40, 0, 0x40, 0x11, 0, 0, 0xC0, 0xA8, 0, 1, 0xC0, 0xA8, 0, 0xC7];
        assert_eq!(checksum(&[&head]), 0xB861);
        assert_eq!(checksum(&[&[0x12]]), !0x1200);
        assert_eq!(checksum(&[&[0xFF; 40_000]]), 0);
    }

    // whoever checks a header sums it with its checksum and wants 0
    fn holds(frame: &[u8], protocol: u8) {
        assert_eq!(frame[12..14], [0x08, 0x00]);
        assert_eq!(checksum(&[&frame[14..34]]), 0, "IPv4");
        assert_eq!(usize::from(u16::from_be_bytes([frame[16], frame[17]])), frame.len() - 14);
        let body = &frame[34..];
        let length = (body.len() as u16).to_be_bytes();
        assert_eq!(checksum(&[&frame[26..34], &[0, protocol], &length, body]), 0, "UDP or TCP");
    }

    #[test]
    fn udp_of_every_small_length_holds() {
        for length in 0..40 {
            let data: Vec<u8> = (0..length).collect();
            let frame = udp(u16::from(length), socket(1, 2222), socket(2, 40_000), &data);
            holds(&frame, UDP);
            assert_eq!(frame[34..40], [0x08, 0xAE, 0x9C, 0x40, 0, 8 + length]);
            assert_eq!(frame[42..], data);
        }
    }

    #[test]
    fn a_udp_checksum_is_never_zero() {
        // the data is chosen so that the sum comes out as 0
        let frame = udp(0, socket(1, 1), socket(2, 2), &[0, 0]);
        let sum = u16::from_be_bytes([frame[40], frame[41]]);
        let frame = udp(0, socket(1, 1), socket(2, 2), &sum.to_be_bytes());
        assert_eq!(frame[40..42], [0xFF, 0xFF]);
    }

    #[test]
    fn tcp_holds() {
        let frame = tcp(9, (socket(2, 40_000), socket(1, 44_818)), (7, 0xFFFF_FFFF), PSH | ACK, b"odd");
        holds(&frame, TCP);
        assert_eq!(frame[38..46], [0, 0, 0, 7, 0xFF, 0xFF, 0xFF, 0xFF]);
        assert_eq!((frame[47], &frame[54..]), (PSH | ACK, &b"odd"[..]));
    }

    #[test]
    fn a_group_has_its_ethernet_address_and_stays_in_the_subnet() {
        let group = SocketAddrV4::new(Ipv4Addr::new(239, 192, 1, 0), 2222);
        let frame = udp(0, socket(1, 2222), group, &[1]);
        assert_eq!(frame[..6], [0x01, 0x00, 0x5E, 0x40, 1, 0]);
        assert_eq!(frame[22], 1);
        holds(&frame, UDP);
    }
}
