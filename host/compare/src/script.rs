//! Calls written out by hand that a recorded sample begins with: every attribute of every object, an upload from its beginning to past
//! its end with repeats, the 33rd connection, the ends of time, and a lane's frames, packets and silences.

use crate::bytes::{self, Open, POINT_TO_POINT, Params, Seg, Setup, Shape};
use crate::call::{Call, MAX_PACKETS, MAX_REPLY, MAX_TIME};
use crate::lane;

const PEER: u32 = 0x0A00_0001;
const LOCAL: u32 = 0x0A00_0064;
const MASK: u32 = 0xFFFF_FF00;
const FILE: u32 = 0x37;
const EDS: u32 = 0xC8;

fn begin(eds: Option<usize>) -> Call {
    let shape = |kind, instance, size| Shape { instance, size, kind };
    let setup = Setup {
        assemblies: vec![shape(1, 100, 512), shape(2, 150, 2), shape(3, 199, 4)],
        limit: 240,
        eds: eds.is_some(),
        vendor: 1,
        device: 0x2B,
        product: 7,
        major: 3,
        minor: 5,
        serial: 0xC0FF_EE00,
        input_only: 238,
        listen_only: 237,
        rpi_min: 2_000,
        rpi_max: 3_200_000,
        late: 1_000,
        mac: [2, 4, 6, 8, 10, 12],
        name: b"a product name of 32 bytes here.".to_vec(),
        eds_name: b"lane.eds".to_vec(),
    };
    let eds = (0..eds.unwrap_or(0)).map(|i| (i * 7) as u8).collect();
    Call::Setup { block: setup.block(), eds, seed: 0xFFFF_FFF0 }
}

fn message(service: u8, segs: &[Seg], data: &[u8]) -> Call {
    let message = bytes::message(service, &bytes::path(segs), data);
    Call::Message { session: 0, local: LOCAL, mask: MASK, message, room: MAX_REPLY }
}

/// Get_Attribute_Single of everything there might be.
fn attributes() -> Vec<Call> {
    let mut calls = Vec::new();
    for (class, instances) in
        [(0x01, [0, 1, 2]), (0x04, [0, 100, 150]), (0xF5, [0, 1, 2]), (0xF6, [0, 1, 2]), (FILE, [0, 1, EDS])]
    {
        for instance in instances {
            for number in 0..=12 {
                calls.push(message(
                    0x0E,
                    &[Seg::Class(class, 0), Seg::Instance(instance, 0), Seg::Attribute(number, 0)],
                    &[],
                ));
            }
        }
        calls.push(message(0x01, &[Seg::Class(class, 0), Seg::Instance(1, 0)], &[]));
    }
    for class in [0x02, 0x64, 0xF4] {
        calls.push(message(0x0E, &[Seg::Class(class, 0), Seg::Instance(1, 0), Seg::Attribute(1, 0)], &[]));
    }
    calls
}

/// An upload of three transfers, each asked for twice, one out of turn, two past the end.
fn upload(wanted: u8) -> Vec<Call> {
    let file = [Seg::Class(FILE, 0), Seg::Instance(EDS, 0)];
    let mut calls = vec![message(0x4F, &file, &[0]), message(0x4B, &file, &[]), message(0x4B, &file, &[wanted])];
    for number in [0, 0, 1, 1, 5, 2, 2, 3, 3, 4] {
        calls.push(message(0x4F, &file, &[number]));
    }
    calls
}

fn open(time: u64, serial: u16) -> Call {
    let path = bytes::path(&[Seg::Class(4, 0), Seg::Point(238, 0), Seg::Point(100, 0)]);
    let (o_t, t_o) = (Params::new(2, POINT_TO_POINT), Params::new(514, POINT_TO_POINT));
    let open = Open { large: true, ..Open::plain(serial, o_t, t_o, path) }; // a size of 514 has more than nine bits
    let (service, request) = (open.service(), open.bytes());
    Call::Open {
        time,
        service,
        request,
        peer: PEER,
        local: LOCAL,
        mask: MASK,
        given: false,
        address: 0,
        port: 0,
        io_port: 2222,
        room: 26,
    }
}

/// 33 opens, produced into one byte too little and exactly enough, and all expired.
fn full_table() -> Vec<Call> {
    let mut calls: Vec<Call> = (0..33).map(|serial| open(1_000, serial)).collect();
    for room in [MAX_PACKETS - 1, MAX_PACKETS] {
        calls.push(Call::Produce { time: 1_000, room });
    }
    calls.extend([41_000, 41_001].map(|time| Call::Expire { time }));
    calls
}

/// The last time, and the first that is none.
fn ends_of_time() -> Vec<Call> {
    let mut calls = Vec::new();
    for time in [MAX_TIME, MAX_TIME + 1, u64::MAX] {
        calls.push(open(time, 1));
        calls.push(Call::Produce { time, room: MAX_PACKETS });
        calls.push(Call::Receive { time, from: PEER, frame: Vec::new() });
        calls.push(Call::Expire { time });
        calls.push(Call::NextDeadline { room: 8 });
    }
    calls
}

/// Runs, each of which begins with a setup.
pub fn runs() -> Vec<Vec<Call>> {
    let with = |eds, more: Vec<Vec<Call>>| {
        let mut calls = vec![begin(eds)];
        calls.extend(more.into_iter().flatten());
        calls
    };
    let mut runs = vec![
        with(Some(600), vec![attributes(), upload(255), upload(0), upload(200)]),
        with(Some(0), vec![upload(1)]),
        with(None, vec![vec![message(0x0E, &[Seg::Class(FILE, 0), Seg::Instance(EDS, 0), Seg::Attribute(1, 0)], &[])]]),
        with(None, vec![full_table(), ends_of_time()]),
    ];
    runs.extend(lane::runs());
    runs
}
