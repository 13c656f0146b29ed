//! Calls, answers and differences in words that a person can read.

use crate::block::{self, MOST_ASSEMBLIES};
use crate::call::{BLOCK, Call};
use crate::run::{Difference, Make, answers};
use crate::seen::ConnSeen;
use crate::words::Word;
use std::fmt::Write;
use std::net::Ipv4Addr;

pub fn hex(bytes: &[u8]) -> String {
    const MOST: usize = 64;
    let mut text: Vec<String> = bytes.iter().take(MOST).map(|b| format!("{b:02X}")).collect();
    if bytes.len() > MOST {
        text.push(format!("... ({} bytes)", bytes.len()));
    }
    if text.is_empty() { "(none)".into() } else { text.join(" ") }
}

fn address(n: u32) -> String {
    Ipv4Addr::from(n).to_string()
}

/// Prints a line; ends the program quietly where nobody reads any more.
pub fn print_line(line: std::fmt::Arguments<'_>) {
    use std::io::Write;
    if writeln!(std::io::stdout(), "{line}").is_err() {
        std::process::exit(1);
    }
}

/// `println!`, but for a reader that went away.
#[macro_export]
macro_rules! say {
    ($($text:tt)*) => { $crate::print_line(format_args!($($text)*)) };
}

/// A number with its thousands set apart.
pub fn grouped(n: u64) -> String {
    let digits = n.to_string();
    let mut out = String::new();
    for (i, c) in digits.chars().enumerate() {
        if i > 0 && (digits.len() - i).is_multiple_of(3) {
            out.push(',');
        }
        out.push(c);
    }
    out
}

/// The C interface's number in words. `open` says that it answers an open.
pub fn answer(n: u64, open: bool) -> String {
    let value = n >> 8;
    match n & 0xFF {
        0 if value == 0 => "yes".into(),
        0 if open => format!("yes, multicast to {}:{}", address((n >> 32) as u32), n >> 16 & 0xFFFF),
        0 => format!("yes, {value}"),
        1 => "no. 1, state of the wrong size or failing its test".into(),
        2 => "no. 2, setup beyond the sizes".into(),
        3 => "no. 3, time above 2^63 - 1".into(),
        4 => "no. 4, bytes that do not parse".into(),
        5 => {
            let (word, second) = ((n >> 32) as u16, (n >> 48) as u16);
            let more = if n >> 16 & 0xFF == 2 { format!(", {second}") } else { String::new() };
            format!("no. 5, {}{more}", Word(word))
        }
        6 => "no. 6, no assembly of that instance and kind".into(),
        7 => "no. 7, longer than the assembly".into(),
        8 => "no. 8, lent output too short".into(),
        9 => "no. 9, nothing there".into(),
        other => format!("{other}, which is no number for no"),
    }
}

fn le(bytes: &[u8], at: usize, width: usize) -> u64 {
    let part = bytes.get(at..at + width).unwrap_or(&[]);
    part.iter().rev().fold(0, |n, b| n << 8 | u64::from(*b))
}

fn kind(code: u8) -> String {
    match code {
        1 => "owner".into(),
        2 => "input-only".into(),
        3 => "listen-only".into(),
        n => format!("kind {n}"),
    }
}

/// An event or connection record in words.
pub fn event(r: &[u8; 32]) -> String {
    let what = match r[0] {
        0 => "connection",
        1 => "opened",
        2 => "closed",
        3 => "timed out",
        4 => return format!("configuration stored, instance {}, {} bytes", le(r, 4, 2), le(r, 6, 2)),
        5 => return format!("output changed, instance {}", le(r, 4, 2)),
        _ => return hex(r),
    };
    format!(
        "{what} ({}{}, from {}, O→T id {:#X}, T→O id {:#X}, input {}, output {})",
        kind(r[1]),
        if r[2] == 1 { ", multicast" } else { "" },
        address(le(r, 4, 4) as u32),
        le(r, 16, 4),
        le(r, 20, 4),
        le(r, 24, 2),
        le(r, 28, 2),
    )
}

/// The fields in which two connections differ.
pub fn conn_difference(text: &mut String, names: [&str; 2], a: &ConnSeen, b: &ConnSeen) {
    macro_rules! fields {
        ($($field:ident: $words:literal),* $(,)?) => {
            $(if a.$field != b.$field {
                let _ = writeln!(text, "    {}: {} {:?}, {} {:?}", $words, names[0], a.$field, names[1], b.$field);
            })*
        };
    }
    fields!(
        kind: "kind",
        multicast: "multicast",
        triad: "triad",
        originator: "originator",
        o_t_id: "O→T id",
        t_o_id: "T→O id",
        o_t_rpi: "O→T RPI",
        t_o_rpi: "T→O RPI",
        timeout: "timeout",
        input: "input instance",
        input_size: "input size",
        output: "output instance",
        output_size: "output size",
        dest: "destination",
        local: "local address",
        until: "receive time plus timeout",
        last_sequence: "last sequence",
        last_cip: "last CIP sequence",
        due: "due time, if it sends",
        sequence: "sequence sent",
        cip: "CIP sequence sent",
    );
}

/// A path's segments, as far as they can be told.
fn path(bytes: &[u8]) -> String {
    let mut parts: Vec<String> = Vec::new();
    let mut at = 0;
    while at < bytes.len() {
        let first = bytes[at];
        let name = match first & 0xFC {
            0x20 => "class",
            0x24 => "instance",
            0x2C => "point",
            0x30 => "attribute",
            _ => "",
        };
        let (text, size) = match first {
            _ if !name.is_empty() && first & 3 < 3 => {
                let (skip, width) = [(1, 1), (2, 2), (2, 4)][usize::from(first & 3)];
                (format!("{name} {}", le(bytes, at + skip, width)), skip + width)
            }
            0x34 => {
                let b = |i: usize| bytes.get(at + i).copied().unwrap_or(0);
                let text = format!(
                    "key vendor {} device {} product {} revision {}{}.{}",
                    le(bytes, at + 2, 2),
                    le(bytes, at + 4, 2),
                    le(bytes, at + 6, 2),
                    if b(8) & 0x80 != 0 { "compatible " } else { "" },
                    b(8) & 0x7F,
                    b(9)
                );
                (text, 10)
            }
            0x80 => {
                let n = 2 * usize::from(bytes.get(at + 1).copied().unwrap_or(0));
                (format!("data of {n} bytes"), 2 + n)
            }
            _ => {
                parts.push(format!("then {}", hex(&bytes[at..])));
                break;
            }
        };
        parts.push(if at + size > bytes.len() { format!("{text} (cut)") } else { text });
        at += size;
    }
    if parts.is_empty() { "empty".into() } else { parts.join(", ") }
}

fn params(bits: u64, large: bool) -> String {
    let (size, variable, net) = if large {
        (bits & 0xFFFF, bits >> 25 & 1, bits >> 29 & 3)
    } else {
        (bits & 0x1FF, bits >> 9 & 1, bits >> 13 & 3)
    };
    let net = ["null", "multicast", "point-to-point", "reserved"][net as usize];
    format!("{size} bytes{} {net}", if variable == 1 { " variable" } else { "" })
}

fn open(service: u8, r: &[u8]) -> String {
    let large = service == 0x5B;
    let p = if large { 4 } else { 2 };
    let name = match service {
        0x54 => "small".into(),
        0x5B => "large".into(),
        n => format!("service {n:#04X}"),
    };
    if r.len() < 32 + 2 * p {
        return format!("{name}, {} bytes: {}", r.len(), hex(r));
    }
    let (t_o, path_at) = (26 + p, 32 + 2 * p);
    let words = 2 * usize::from(r[path_at - 1]);
    format!(
        "{name}, triad {}/{}/{}, T→O id {:#X}, O→T {} µs x {} {}, T→O {} µs {}, transport {:#04X},\n      path: {}{}\n      bytes: {}",
        le(r, 10, 2),
        le(r, 12, 2),
        le(r, 14, 4),
        le(r, 6, 4),
        grouped(le(r, 22, 4)),
        4u64 << r[18].min(7),
        params(le(r, 26, p), large),
        grouped(le(r, t_o, 4)),
        params(le(r, t_o + 4, p), large),
        r[path_at - 2],
        path(r.get(path_at..(path_at + words).min(r.len())).unwrap_or(&[])),
        if r.len() < path_at + words { " (cut short)" } else { "" },
        hex(r),
    )
}

fn frame(f: &[u8]) -> String {
    let plain = f.len() >= 18 && f[..6] == [2, 0, 2, 0x80, 8, 0] && f[14..16] == [0xB1, 0];
    if !plain || f.len() != 18 + le(f, 16, 2) as usize {
        return format!("{} bytes: {}", f.len(), hex(f));
    }
    let data = &f[18..];
    let payload = match data.len() {
        0 => "empty".into(),
        1 => hex(data),
        2..6 => format!("CIP sequence {}, then {}", le(data, 0, 2), hex(&data[2..])),
        n => format!(
            "CIP sequence {}, header {:#X}, {} bytes of data {}",
            le(data, 0, 2),
            le(data, 2, 4),
            n - 6,
            hex(&data[6..])
        ),
    };
    format!("O→T id {:#X}, sequence {}, {payload}", le(f, 6, 4), le(f, 10, 4))
}

fn setup(block: &[u8], eds: &[u8], seed: u32) -> String {
    if block.len() != BLOCK {
        return format!("a block of {} bytes", block.len());
    }
    let mut list = Vec::new();
    for i in 0..usize::from(block[block::ASSEMBLIES]).min(MOST_ASSEMBLIES) {
        let kind = match block[block::kind(i)] {
            1 => "input".into(),
            2 => "output".into(),
            3 => "configuration".into(),
            n => format!("kind {n}"),
        };
        list.push(format!("{kind} {} of {} bytes", le(block, block::instance(i), 2), le(block, block::size(i), 2)));
    }
    format!(
        "{} assemblies ({}), heartbeats {} input-only and {} listen-only, RPI {} to {}, vendor {} device {} product {} revision {}.{}, EDS {}, late limit {}, transfer limit {}, seed {seed:#X}\n      block: {}",
        block[block::ASSEMBLIES],
        list.join(", "),
        le(block, block::INPUT_ONLY, 4),
        le(block, block::LISTEN_ONLY, 4),
        grouped(le(block, block::RPI_MIN, 4)),
        grouped(le(block, block::RPI_MAX, 4)),
        le(block, block::VENDOR, 2),
        le(block, block::DEVICE_TYPE, 2),
        le(block, block::PRODUCT_CODE, 2),
        block[block::MAJOR],
        block[block::MINOR],
        match le(block, block::EDS, 4) {
            0 if eds.is_empty() => "absent".into(),
            n => format!("flag {n}, {} bytes", eds.len()),
        },
        le(block, block::LATE_LIMIT, 4),
        block[block::TRANSFER_LIMIT],
        block.iter().map(|b| format!("{b:02X}")).collect::<Vec<_>>().join(" "),
    )
}

/// One call in words.
pub fn call(call: &Call) -> String {
    let at = |t: u64| format!("at {} µs", grouped(t));
    let room = |needed: usize, room: usize| {
        if room < needed { format!(" (room for {room} bytes)") } else { String::new() }
    };
    match call {
        Call::Setup { block, eds, seed } => format!("setup: {}", setup(block, eds, *seed)),
        Call::SetInput { instance, data } => format!("set_input {instance}: {} bytes {}", data.len(), hex(data)),
        Call::Output { instance, room } => format!("output {instance} (room for {room} bytes)"),
        Call::Assembly { kind, instance, room } => {
            format!("assembly of kind {kind}, {instance} (room for {room} bytes)")
        }
        Call::Open { time, service, request, peer, local, mask, given, address: a, port, io_port, room: r } => format!(
            "open {} from {} on {}/{}{}, I/O port {io_port}{}: {}",
            at(*time),
            address(*peer),
            address(*local),
            address(*mask),
            if *given { format!(", given socket {}:{port}", address(*a)) } else { String::new() },
            room(26, *r),
            open(*service, request),
        ),
        Call::OpenRefusal { service, request, room: r } => {
            format!("open_refusal{}: {}", room(10, *r), open(*service, request))
        }
        Call::Close { request, room: r } => format!(
            "close{} of triad {}/{}/{}: {}",
            room(10, *r),
            le(request, 2, 2),
            le(request, 4, 2),
            le(request, 6, 4),
            hex(request)
        ),
        Call::Receive { time, from, frame: f } => {
            format!("receive {} from {}: {}", at(*time), address(*from), frame(f))
        }
        Call::Produce { time, room } => format!("produce {} (room for {room} bytes)", at(*time)),
        Call::Expire { time } => format!("expire {}", at(*time)),
        Call::NextDeadline { room } => format!("next_deadline (room for {room} bytes)"),
        Call::NextEvent { room } => format!("next_event (room for {room} bytes)"),
        Call::Connections { room } => format!("connections (room for {room} bytes)"),
        Call::Stats { room } => format!("stats (room for {room} bytes)"),
        Call::Message { session, local, mask, message, room: r } => {
            let words = 2 * usize::from(message.get(1).copied().unwrap_or(0));
            let end = (2 + words).min(message.len());
            format!(
                "message in session {session} on {}/{}{}: service {:#04X}, path: {}, data {}",
                address(*local),
                address(*mask),
                room(516, *r),
                message.first().copied().unwrap_or(0),
                path(message.get(2..end).unwrap_or(&[])),
                hex(message.get(end..).unwrap_or(&[])),
            )
        }
        Call::Path { path: p, room } => format!("path (room for {room} bytes): {}; {}", path(p), hex(p)),
        Call::Request { message, room } => format!("request (room for {room} bytes): {}", hex(message)),
        Call::NewSession { session } => format!("session {session} begins anew"),
        Call::PlantSent { row, sequence, cip } => {
            format!("(no call) connection {row}, if it sends, is set to sequence {sequence:#X}, CIP sequence {cip:#X}")
        }
    }
}

/// A run that shows a difference: each call with the first side's answer, then what differs.
pub fn show_run(first: Make, calls: &[Call], difference: &Difference) -> String {
    let answers = answers(first, calls);
    let mut text = String::new();
    for (i, c) in calls.iter().enumerate().take(difference.at + 1) {
        let _ = writeln!(text, "{:3}. {}", i + 1, call(c));
        if let Some((n, out)) = answers.get(i) {
            let opens = matches!(c, Call::Open { .. });
            let length = match c {
                Call::Open { .. } => 26,
                Call::Expire { .. } => 0,
                _ => (*n >> 8) as usize,
            };
            let bytes = match (n & 0xFF, out.get(..length)) {
                (0, Some(bytes)) if !bytes.is_empty() => format!(": {}", hex(bytes)),
                _ => String::new(),
            };
            let _ = writeln!(text, "      = {}{bytes}", answer(*n, opens));
        }
    }
    let _ = writeln!(text, "after call {}:", difference.at + 1);
    text.push_str(&difference.what);
    text
}
