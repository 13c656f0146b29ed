//! The rules' limits and the known differences, each as its smallest run: the two sides agree, and the answers are the
//! ones that the rules name.

use compare::bytes::{self, MULTICAST, Open, POINT_TO_POINT, Params, Seg, Setup, Shape};
use compare::{Call, MAX_PACKETS, Side, answers, ciplink, replay, show_run};

const PEER: u32 = 0x0A00_0001;
const LOCAL: u32 = 0x0A00_0064;
const MASK: u32 = 0xFFFF_FF00;

fn reference() -> Box<dyn Side> {
    Box::new(ciplink::reference::Original::default())
}

#[cfg(feature = "library")]
fn other() -> Box<dyn Side> {
    Box::new(compare::Library::default())
}

#[cfg(not(feature = "library"))]
fn other() -> Box<dyn Side> {
    Box::new(ciplink::documented::Original::default())
}

fn shape(kind: u8, instance: u32, size: usize) -> Shape {
    Shape { instance, size, kind }
}

fn setup() -> Setup {
    Setup {
        assemblies: vec![shape(1, 100, 4), shape(2, 150, 2), shape(2, 151, 2), shape(3, 199, 4)],
        limit: 240,
        eds: true,
        vendor: 1,
        device: 0x2B,
        product: 7,
        major: 3,
        minor: 5,
        input_only: 238,
        listen_only: 237,
        rpi_min: 2_000,
        rpi_max: 3_200_000,
        late: 1_000,
        name: b"lane".to_vec(),
        ..Setup::default()
    }
}

fn begin(setup: &Setup) -> Vec<Call> {
    vec![Call::Setup { block: setup.block(), eds: vec![1, 2, 3], seed: 0x100 }]
}

fn path(point: u32, input: u32) -> Vec<u8> {
    bytes::path(&[Seg::Class(4, 0), Seg::Point(point, 0), Seg::Point(input, 0)])
}

/// An input-only open, T→O point-to-point.
fn heartbeat(serial: u16) -> Open {
    Open::plain(serial, Params::new(2, POINT_TO_POINT), Params::new(6, POINT_TO_POINT), path(238, 100))
}

fn owner(serial: u16, output: u32) -> Open {
    Open { o_t: Params::new(8, POINT_TO_POINT), path: path(output, 100), ..heartbeat(serial) }
}

fn multicast(open: Open) -> Open {
    Open { t_o: Params::new(6, MULTICAST), ..open }
}

fn open_bytes(time: u64, service: u8, request: Vec<u8>) -> Call {
    Call::Open {
        time,
        service,
        request,
        peer: PEER,
        local: LOCAL,
        mask: MASK,
        given: false,
        address: 0,
        port: 0,
        io_port: 2222,
        room: 26,
    }
}

fn open(time: u64, o: &Open) -> Call {
    open_bytes(time, o.service(), o.bytes())
}

fn close(serial: u16) -> Call {
    Call::Close { request: bytes::close((serial, 2, 3), &[], &[]), room: 10 }
}

fn frame(time: u64, id: u32, sequence: u32, cip: u16, data: &[u8]) -> Call {
    Call::Receive {
        time,
        from: PEER,
        frame: bytes::items(&bytes::frame_items(id, sequence, bytes::payload(cip, 1, data))),
    }
}

fn produce(time: u64) -> Call {
    Call::Produce { time, room: MAX_PACKETS }
}

fn output(instance: u32) -> Call {
    Call::Output { instance, room: 3 }
}

fn word(w: u64) -> u64 {
    5 | 1 << 8 | 1 << 16 | w << 32
}

/// Runs the calls of both sides; the answers, which both gave.
fn agreed(calls: &[Call]) -> Vec<(u64, Vec<u8>)> {
    let (difference, _) = replay(&reference, &other, calls);
    if let Some(difference) = difference {
        panic!("the two differ\n{}", show_run(&reference, calls, &difference));
    }
    answers(&reference, calls)
}

fn numbers(calls: &[Call]) -> Vec<u64> {
    agreed(calls).iter().map(|(n, _)| *n).collect()
}

#[test]
fn the_least_lengths_of_requests() {
    let mut calls = begin(&setup());
    let cut = |n: usize, service: u8| open_bytes(0, service, vec![0; n]);
    calls.extend([cut(35, 0x54), cut(36, 0x54), cut(39, 0x5B), cut(40, 0x5B)]);
    for n in [11, 12] {
        calls.push(Call::Close { request: vec![0; n], room: 10 });
    }
    calls.push(cut(36, 0x55));
    let transport = word(0x0103);
    assert_eq!(numbers(&calls)[1..], [4, transport, 4, transport, 4, 9, 4]);
}

#[test]
fn the_32nd_and_33rd_connection() {
    let mut calls = begin(&setup());
    for serial in 1..=32 {
        calls.push(open(0, &heartbeat(serial)));
    }
    calls.push(open(0, &heartbeat(33)));
    // another check comes first, and no id was drawn
    calls.push(open(0, &heartbeat(32)));
    calls.push(close(5));
    calls.push(open(0, &heartbeat(34)));
    let got = agreed(&calls);
    assert!(got[1..=32].iter().all(|(n, _)| *n == 0));
    assert_eq!(got[33].0, word(0x0113));
    assert_eq!(got[34].0, word(0x0100));
    assert_eq!(got[36].0, 0);
    assert_eq!(got[36].1[..4], (0x101u32 + 32).to_le_bytes());
}

#[test]
fn the_1024th_and_1025th_event() {
    let mut calls = begin(&setup());
    // two events each
    for serial in 0..512 {
        calls.push(open(0, &heartbeat(serial)));
        calls.push(close(serial));
    }
    let oldest = Call::NextEvent { room: 32 };
    let full = {
        let mut calls = calls.clone();
        calls.push(oldest.clone());
        agreed(&calls).pop().unwrap()
    };
    assert_eq!((full.0, full.1[0]), (32 << 8, 1));
    calls.push(open(0, &heartbeat(1_000)));
    calls.push(oldest);
    let dropped = agreed(&calls).pop().unwrap();
    assert_eq!((dropped.0, dropped.1[0]), (32 << 8, 2));
    // 1,023 are left after that one
    calls.extend((0..1_024).map(|_| Call::NextEvent { room: 32 }));
    let got = numbers(&calls);
    assert_eq!(got[got.len() - 2..], [32 << 8, 9]);
}

#[test]
fn d1_a_point_to_point_close_does_not_rewind_a_stream() {
    let mut calls = begin(&setup());
    calls.push(open(0, &multicast(owner(1, 150))));
    calls.extend((0..5).map(|i| produce(10_000 * i)));
    // the stream's T→O id is 0x102; a point-to-point originator chooses it too
    calls.push(open(45_000, &Open { t_o_id: 0x102, ..heartbeat(2) }));
    calls.push(close(2));
    calls.push(produce(50_000));
    let (n, packet) = agreed(&calls).pop().unwrap();
    assert_eq!(n >> 8, 13 + 24);
    assert_eq!(packet[13 + 10..13 + 14], 6u32.to_le_bytes(), "the stream goes on at sequence 6");
}

#[test]
fn d1_in_an_expiry_that_takes_several() {
    let mut calls = begin(&setup());
    calls.push(open(0, &multicast(Open { multiplier: 7, ..owner(1, 150) })));
    calls.push(produce(0));
    calls.push(open(0, &Open { t_o_id: 0x102, ..heartbeat(2) }));
    calls.push(open(0, &multicast(heartbeat(3))));
    calls.push(open(0, &Open { t_o_id: 0x102, ..heartbeat(4) }));
    calls.push(Call::Expire { time: 40_001 });
    calls.push(produce(40_001));
    let got = agreed(&calls);
    assert_eq!(got[6].0, 3 << 8);
    assert_eq!(got[7].1[13 + 10..13 + 14], 2u32.to_le_bytes());
}

#[test]
fn d2_a_configuration_event_has_instance_and_length() {
    let mut calls = begin(&setup());
    let segs =
        [Seg::Class(4, 0), Seg::Instance(199, 0), Seg::Point(238, 0), Seg::Point(100, 0), Seg::Data(vec![9, 8, 7, 6])];
    calls.push(open(0, &Open { path: bytes::path(&segs), ..heartbeat(1) }));
    calls.extend([Call::NextEvent { room: 32 }, Call::NextEvent { room: 32 }]);
    calls.push(Call::Assembly { kind: 3, instance: 199, room: 4 });
    let got = agreed(&calls);
    assert_eq!(got[2].1[0], 1);
    assert_eq!(got[3].1[..8], [4, 0, 0, 0, 199, 0, 4, 0]);
    assert_eq!(got[4].1, [9, 8, 7, 6]);
}

#[test]
fn the_sequences_that_document_01_names() {
    for (last, next, taken) in [(5, 5, false), (u32::MAX, 0, true), (0, 0x7FFF_FFFF, true), (0, 0x8000_0000, false)] {
        let mut calls = begin(&setup());
        calls.push(open(0, &owner(1, 150)));
        calls.push(frame(1, 0x101, last, 1, &[1, 1]));
        calls.push(frame(2, 0x101, next, 2, &[2, 2]));
        calls.push(output(150));
        let (_, out) = agreed(&calls).pop().unwrap();
        assert_eq!(out, if taken { [1, 2, 2] } else { [1, 1, 1] }, "{last} then {next}");
    }
}

#[test]
fn a_cip_sequence_is_recorded_before_the_length_is_looked_at() {
    let mut calls = begin(&setup());
    calls.push(open(0, &owner(1, 150)));
    calls.push(frame(1, 0x101, 1, 7, &[1]));
    calls.push(frame(2, 0x101, 2, 7, &[2, 2]));
    calls.push(output(150));
    calls.push(frame(3, 0x101, 3, 8, &[3, 3]));
    calls.push(output(150));
    let got = agreed(&calls);
    assert_eq!(got[4].1, [0, 0, 0]);
    assert_eq!(got[6].1, [1, 3, 3]);
}

#[test]
fn run_clears_when_the_owner_is_silent_for_longer_than_its_timeout() {
    let mut calls = begin(&setup());
    calls.push(open(0, &owner(1, 150)));
    calls.push(frame(5_000, 0x101, 1, 1, &[1, 2]));
    calls.push(Call::NextDeadline { room: 8 });
    calls.push(Call::Expire { time: 45_000 });
    calls.push(output(150));
    calls.push(Call::Expire { time: 45_001 });
    calls.push(output(150));
    calls.push(Call::NextDeadline { room: 8 });
    let got = agreed(&calls);
    assert_eq!((got[4].0, got[5].1.clone()), (0, vec![1, 1, 2]));
    assert_eq!((got[6].0, got[7].1.clone()), (1 << 8, vec![0, 1, 2]));
    assert_eq!(got[8].0, 9);
}

#[test]
fn listeners_end_with_their_stream() {
    let mut calls = begin(&setup());
    let listener = |serial| multicast(Open { path: path(237, 100), t_o_rpi: 50_000, ..heartbeat(serial) });
    calls.push(open(0, &listener(9)));
    calls.push(open(0, &multicast(owner(1, 150))));
    calls.push(open(0, &listener(2)));
    calls.push(open(0, &listener(3)));
    calls.push(close(1));
    calls.extend((0..6).map(|_| Call::NextEvent { room: 32 }));
    calls.push(Call::NextEvent { room: 32 });
    let got = agreed(&calls);
    assert_eq!(got[1].0, word(0x0119));
    // the listener gets the stream's id and RPI
    assert_eq!(got[3].1[4..8], 0x102u32.to_le_bytes());
    assert_eq!(got[3].1[20..24], 10_000u32.to_le_bytes());
    let events: Vec<(u8, u8)> = got[6..12].iter().map(|(_, r)| (r[0], r[1])).collect();
    assert_eq!(events, [(1, 1), (1, 3), (1, 3), (2, 3), (2, 3), (2, 1)]);
    assert_eq!(got[12].0, 9);
}

#[test]
fn the_ends_of_time() {
    const LAST: u64 = i64::MAX as u64;
    let mut calls = begin(&setup());
    calls.push(open(LAST, &Open { multiplier: 200, ..heartbeat(1) }));
    calls.push(produce(LAST));
    calls.push(Call::NextDeadline { room: 8 });
    calls.push(Call::Expire { time: LAST + 1 });
    calls.push(produce(LAST + 1));
    calls.push(frame(u64::MAX, 0x101, 1, 1, &[]));
    calls.push(open(LAST + 1, &heartbeat(2)));
    let got = agreed(&calls);
    assert_eq!(got[3].1, (LAST + 10_000).to_le_bytes());
    assert!(got[4..].iter().all(|(n, _)| *n == 3));
}

#[test]
fn ids_skip_zero() {
    let mut calls = begin(&setup());
    calls[0] = Call::Setup { block: setup().block(), eds: vec![], seed: u32::MAX };
    calls.push(open(0, &multicast(heartbeat(1))));
    let (_, reply) = agreed(&calls).pop().unwrap();
    assert_eq!((&reply[..4], &reply[4..8]), (&u32::MAX.to_le_bytes()[..], &1u32.to_le_bytes()[..]));
}

#[test]
fn an_upload_with_a_repeat_and_past_its_end() {
    let mut calls = begin(&setup());
    let file = |service: u8, data: &[u8]| Call::Message {
        session: 0,
        local: LOCAL,
        mask: MASK,
        message: bytes::message(service, &bytes::path(&[Seg::Class(0x37, 0), Seg::Instance(0xC8, 0)]), data),
        room: 516,
    };
    calls.push(file(0x4F, &[0]));
    calls.push(file(0x4B, &[2]));
    for number in [0, 0, 1, 2, 1] {
        calls.push(file(0x4F, &[number]));
    }
    let replies: Vec<Vec<u8>> = agreed(&calls)[1..].iter().map(|(n, out)| out[..(*n >> 8) as usize].to_vec()).collect();
    assert_eq!(replies[0], [0xCF, 0, 0x0C, 0]);
    assert_eq!(replies[1], [0xCB, 0, 0, 0, 3, 0, 0, 0, 2]);
    assert_eq!(replies[2], [0xCF, 0, 0, 0, 0, 0, 1, 2]);
    assert_eq!(replies[3], replies[2]);
    assert_eq!(replies[4], [0xCF, 0, 0, 0, 1, 2, 3, 0xFA, 0xFF]);
    assert_eq!(replies[5], [0xCF, 0, 0, 0, 2, 2, 0xFA, 0xFF]);
    assert_eq!(replies[6], [0xCF, 0, 0x0C, 0]);
}

#[test]
fn a_refusal_for_room_changes_nothing() {
    let mut calls = begin(&setup());
    let short = |mut call: Call| {
        match &mut call {
            Call::Open { room, .. }
            | Call::Close { room, .. }
            | Call::Output { room, .. }
            | Call::Produce { room, .. } => *room -= 1,
            _ => {}
        }
        call
    };
    let opening = open(0, &owner(1, 150));
    let exact = Call::Produce { time: 0, room: 13 + 24 };
    calls.extend([short(opening.clone()), opening]);
    calls.extend([short(exact.clone()), exact]);
    calls.push(frame(1, 0x101, 1, 1, &[1, 2]));
    calls.extend([short(output(150)), output(150)]);
    calls.extend([Call::NextEvent { room: 31 }, Call::NextEvent { room: 32 }]);
    calls.extend([short(close(1)), close(1), short(close(1))]);
    let got: Vec<u64> = numbers(&calls).iter().map(|n| n & 0xFF).collect();
    assert_eq!(got, [0, 8, 0, 8, 0, 0, 8, 0, 8, 0, 8, 0, 9]);
}

/// D4: counters stop at their largest value. ciplink cannot be brought there.
#[cfg(feature = "library")]
#[test]
fn d4_counters_stop_at_their_largest_value() {
    let mut library = compare::Library::default();
    let mut out = vec![0; MAX_PACKETS];
    let mut calls = begin(&setup());
    calls.push(open(0, &heartbeat(1)));
    for call in &calls {
        assert_eq!(library.call(call, &mut out), 0);
    }
    library.plant_counters(u64::MAX - 1, u64::MAX);
    for time in [50_000, 100_000, 150_000] {
        assert_eq!(library.call(&produce(time), &mut out), (13 + 24) << 8);
    }
    assert_eq!(library.call(&Call::Stats { room: 24 }, &mut out), 24 << 8);
    assert_eq!(out[..16], [0xFF; 16]);
    assert_eq!(out[16..24], 50_000u64.to_le_bytes());
}
