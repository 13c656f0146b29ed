//! A recorded sample: calls with what ciplink answered to each, in the form that crates/run_replay reads.
//!
//! A record is 56 bytes of numbers, little-endian, and the bytes they speak of:
//!
//! | at | size | what |
//! |---|---|---|
//! | 0 | 1 | the call: 1 setup, 2 set_input, 3 output, 4 assembly, 5 open, 6 open_refusal, 7 close, 8 receive, 9 produce, 10 expire, 11 next_deadline, 12 next_event, 13 connections, 14 stats, 15 message, 16 path, 17 request, 18 a new session |
//! | 1 | 1 | the service, the kind of an assembly, or the session |
//! | 2 | 1 | 1 if a T→O socket address was given |
//! | 4 | 8 | the time |
//! | 12 | 4 | the seed, instance, peer, sender, or a message's local address |
//! | 16 | 4 | an open's local address, or a message's mask |
//! | 20 | 4 | an open's mask |
//! | 24 | 4 | the given address |
//! | 28 | 2 | the given port |
//! | 30 | 2 | the I/O port |
//! | 32 | 4 | how many bytes are passed in: the block, data, request, frame, path or message |
//! | 36 | 4 | how many bytes of EDS |
//! | 40 | 4 | the size of the lent output |
//! | 44 | 4 | how many bytes of it were written |
//! | 48 | 8 | the answer |
//! | 56 | | the bytes passed in, the EDS, the bytes written |

use crate::call::Call;
use crate::generate::Generator;
use crate::run::{LENT, Make};
use crate::script;
use crate::seen::Seen;

/// The numbers of a record, in the order of their places.
#[derive(Default)]
struct Numbers {
    call: u8,
    small: u8,
    given: bool,
    time: u64,
    first: u32,
    second: u32,
    third: u32,
    address: u32,
    port: u16,
    io_port: u16,
}

fn parts(call: &Call) -> Option<(Numbers, &[u8], &[u8])> {
    let n = Numbers::default();
    Some(match call {
        Call::Setup { block, eds, seed } => (Numbers { call: 1, first: *seed, ..n }, block, eds),
        Call::SetInput { instance, data } => (Numbers { call: 2, first: *instance, ..n }, data, &[]),
        Call::Output { instance, .. } => (Numbers { call: 3, first: *instance, ..n }, &[], &[]),
        Call::Assembly { kind, instance, .. } => (Numbers { call: 4, small: *kind, first: *instance, ..n }, &[], &[]),
        Call::Open { time, service, request, peer, local, mask, given, address, port, io_port, .. } => (
            Numbers {
                call: 5,
                small: *service,
                given: *given,
                time: *time,
                first: *peer,
                second: *local,
                third: *mask,
                address: *address,
                port: *port,
                io_port: *io_port,
            },
            request,
            &[],
        ),
        Call::OpenRefusal { service, request, .. } => (Numbers { call: 6, small: *service, ..n }, request, &[]),
        Call::Close { request, .. } => (Numbers { call: 7, ..n }, request, &[]),
        Call::Receive { time, from, frame } => (Numbers { call: 8, time: *time, first: *from, ..n }, frame, &[]),
        Call::Produce { time, .. } => (Numbers { call: 9, time: *time, ..n }, &[], &[]),
        Call::Expire { time } => (Numbers { call: 10, time: *time, ..n }, &[], &[]),
        Call::NextDeadline { .. } => (Numbers { call: 11, ..n }, &[], &[]),
        Call::NextEvent { .. } => (Numbers { call: 12, ..n }, &[], &[]),
        Call::Connections { .. } => (Numbers { call: 13, ..n }, &[], &[]),
        Call::Stats { .. } => (Numbers { call: 14, ..n }, &[], &[]),
        Call::Message { session, local, mask, message, .. } => {
            (Numbers { call: 15, small: *session as u8, first: *local, second: *mask, ..n }, message, &[])
        }
        Call::Path { path, .. } => (Numbers { call: 16, ..n }, path, &[]),
        Call::Request { message, .. } => (Numbers { call: 17, ..n }, message, &[]),
        Call::NewSession { session } => (Numbers { call: 18, small: *session as u8, ..n }, &[], &[]),
        // sets a sequence behind the adapter's back: nothing to replay
        Call::PlantSent { .. } => return None,
    })
}

fn put(file: &mut Vec<u8>, call: &Call, answer: u64, out: &[u8]) {
    let Some((n, bytes, eds)) = parts(call) else { return };
    let written = out.iter().rposition(|b| *b != LENT).map_or(0, |at| at + 1);
    file.extend([n.call, n.small, n.given as u8, 0]);
    file.extend(n.time.to_le_bytes());
    for word in [n.first, n.second, n.third, n.address] {
        file.extend(word.to_le_bytes());
    }
    file.extend(n.port.to_le_bytes());
    file.extend(n.io_port.to_le_bytes());
    for size in [bytes.len(), eds.len(), out.len(), written] {
        file.extend((size as u32).to_le_bytes());
    }
    file.extend(answer.to_le_bytes());
    file.extend(bytes);
    file.extend(eds);
    file.extend(&out[..written]);
}

/// The runs written by hand, then the runs of a seed, each cut after so many calls, until the file has that size. A run whose setup has a long EDS is left
/// out: it would fill the file.
pub fn record(side: Make, seed: u64, calls: usize, size: usize) -> Vec<u8> {
    let mut file = Vec::new();
    for run in script::runs() {
        let mut side = side();
        for call in &run {
            let mut out = vec![LENT; call.room()];
            let answer = side.call(call, &mut out);
            put(&mut file, call, answer, &out);
        }
    }
    let mut number = 0;
    while file.len() < size {
        let mut generator = Generator::new(seed, number);
        number += 1;
        let mut side = side();
        let mut seen = Seen::default();
        let mut call = generator.first();
        if matches!(&call, Call::Setup { eds, .. } if eds.len() > 1000) {
            continue;
        }
        for _ in 0..calls {
            let mut out = vec![LENT; call.room()];
            if parts(&call).is_some() {
                let answer = side.call(&call, &mut out);
                put(&mut file, &call, answer, &out);
            }
            side.see(&mut seen);
            call = generator.next(&seen);
        }
    }
    file
}
