//! A lane, in calls written out by hand: an output of two bytes, an input of one, a controller and a display. After each frame, packet,
//! silence or open stands what a host can see of it, so that a wrong reading of the run bit, of liveness, of events, of due times, of
//! the deadline or of a check gives other bytes.

use crate::bytes::{self, MULTICAST, Open, POINT_TO_POINT, Params, Seg, Setup, Shape};
use crate::call::{Call, MAX_REPLY};

const CONTROLLER: u32 = 0x0A00_0001;
const DISPLAY: u32 = 0x0A00_0002;
const LOCAL: u32 = 0x0A00_0064;
const MASK: u32 = 0xFFFF_FF00;
/// The ids of the first connections: the seed with bit 0 set, and on.
const SEED: u32 = 0x4000_0000;
const FIRST: u32 = 0x4000_0001;
/// The points of an owner, an input-only and a listen-only connection.
const OWNER: u32 = 150;
const INPUT_ONLY: u32 = 238;
const LISTEN_ONLY: u32 = 237;

fn begin(input_only: u32, listen_only: u32) -> Call {
    let shape = |kind, instance, size| Shape { instance, size, kind };
    let setup = Setup {
        assemblies: vec![shape(1, 100, 1), shape(2, OWNER, 2), shape(3, 199, 4)],
        limit: 240,
        major: 3,
        minor: 5,
        input_only,
        listen_only,
        rpi_min: 1_000,
        rpi_max: 3_200_000,
        ..Setup::default()
    };
    Call::Setup { block: setup.block(), eds: Vec::new(), seed: SEED }
}

fn points(point: u32) -> Vec<Seg> {
    vec![Seg::Class(4, 0), Seg::Instance(199, 0), Seg::Point(point, 0), Seg::Point(100, 0)]
}

/// An open that passes, at intervals of 10 and 1,000 ms.
fn ask(serial: u16, point: u32, net: u8) -> Open {
    let o_t = Params::new(if point == OWNER { 8 } else { 0 }, POINT_TO_POINT);
    Open { t_o_rpi: 1_000_000, ..Open::plain(serial, o_t, Params::new(3, net), bytes::path(&points(point))) }
}

fn open_on(local: u32, time: u64, peer: u32, open: &Open) -> Call {
    let (service, request, mask) = (open.service(), open.bytes(), MASK);
    Call::Open { time, service, request, peer, local, mask, given: false, address: 0, port: 0, io_port: 2222, room: 26 }
}

fn open(time: u64, peer: u32, open: &Open) -> Call {
    open_on(LOCAL, time, peer, open)
}

fn close(serial: u16) -> Call {
    Call::Close { request: bytes::close((serial, 2, 3), &[], &[]), room: 10 }
}

fn frame(time: u64, from: u32, id: u32, sequence: u32, payload: Vec<u8>) -> Call {
    Call::Receive { time, from, frame: bytes::items(&bytes::frame_items(id, sequence, payload)) }
}

/// The status of Identity: the fault mark, whether there is an owner, and whether anything is in run.
fn status() -> Call {
    let path = bytes::path(&[Seg::Class(1, 0), Seg::Instance(1, 0), Seg::Attribute(5, 0)]);
    Call::Message { session: 0, local: LOCAL, mask: MASK, message: bytes::message(0x0E, &path, &[]), room: MAX_REPLY }
}

const DEADLINE: Call = Call::NextDeadline { room: 8 };
const EVENT: Call = Call::NextEvent { room: 32 };
const OUTPUT: Call = Call::Output { instance: OWNER, room: 3 };
const STATS: Call = Call::Stats { room: 24 };

/// The controller's frames: time, sequence, payload.
fn sent() -> Vec<(u64, u32, Vec<u8>)> {
    let io = bytes::payload;
    vec![
        (2_000, 0, io(0, 1, &[1, 2])), // the first sequence and the first CIP sequence are free
        (3_000, 0, io(1, 0, &[3, 4])), // not newer
        (4_000, 1, io(1, 1, &[1, 2])), // nothing changes
        (5_000, 2, io(2, 0, &[1, 2])), // run is cleared
        (6_000, 3, io(2, 1, &[9, 9])), // a repeated CIP sequence
        (7_000, 4, io(3, 1, &[9])),    // a byte too few, and its CIP sequence counts
        (8_000, 5, io(3, 1, &[9, 9])), // so this one repeats it
        (9_000, 6, io(4, 2, &[5, 6])), // run is bit 0 alone
        (10_000, 7, io(5, 0x0101_0100, &[5, 6])), // of the first byte alone
        (11_000, 8, io(6, 3, &[5, 6])), // and it is set among others
        (12_000, 9, vec![7]),          // no CIP sequence
        (12_500, 9, io(20, 0, &[8, 8])), // but its sequence counts
        (13_000, 10, io(7, 1, &[7, 8])), // and 7 is new
        (13_500, 11, vec![8, 0, 1]),   // a CIP sequence without a header
        (13_600, 12, io(8, 0, &[3, 3])), // counts too
        (14_000, 13, io(9, 1, &[7, 8, 9])), // a byte too many
        (15_000, 13 + 0x8000_0000, io(10, 0, &[1, 1])), // half way round is old
        (16_000, 13 + 0x7FFF_FFFF, io(11, 1, &[1, 1])), // one less is not
        (17_000, 0xFFFF_FFFF, io(12, 0, &[2, 2])), // the last before the wrap
        (9_000, 0, Vec::new()),        // beyond it, of a clock that went back
        (18_000, 1, io(4, 1, &[2, 2])), // a CIP sequence may be smaller
        (19_000, 2, io(5, 1, &[2, 3])), // and its data is another
    ]
}

/// The controller's frames, each with its event; then either the output, read, and until when the controller lives, or the output unread.
fn frames(read: bool) -> Vec<Call> {
    let io = bytes::payload;
    let owner = Open { multiplier: 1, t_o_rpi: 3_200_000, ..ask(1, OWNER, POINT_TO_POINT) };
    let mut calls = vec![begin(INPUT_ONLY, LISTEN_ONLY), open(1_000, CONTROLLER, &owner)];
    calls.extend([Call::Produce { time: 1_000, room: 40 }, EVENT]);
    for (time, sequence, payload) in sent() {
        calls.extend([frame(time, CONTROLLER, FIRST, sequence, payload), EVENT]);
        calls.extend(match read {
            true => [OUTPUT, DEADLINE],
            false => [status(), Call::Assembly { kind: 2, instance: OWNER, room: 2 }],
        });
    }
    calls.extend(of_no_use());
    // a change, a read without room, a change: told once
    calls.extend([OUTPUT, frame(21_000, CONTROLLER, FIRST, 21, io(21, 1, &[2, 4])), EVENT]);
    calls.push(Call::Output { instance: OWNER, room: 2 });
    calls.extend([frame(22_000, CONTROLLER, FIRST, 22, io(22, 1, &[2, 5])), EVENT, OUTPUT]);
    calls
}

/// From another address; with a byte behind the items; with an address item of nine bytes.
fn of_no_use() -> Vec<Call> {
    let payload = || bytes::payload(20, 0, &[0, 0]);
    let mut spare = bytes::items(&bytes::frame_items(FIRST, 20, payload()));
    spare.push(0);
    let mut long = bytes::frame_items(FIRST, 20, payload());
    long[0].1.push(0);
    let received = |frame| Call::Receive { time: 20_000, from: CONTROLLER, frame };
    let other = frame(20_000, DISPLAY, FIRST, 20, payload());
    vec![other, DEADLINE, received(spare), DEADLINE, received(bytes::items(&long)), DEADLINE]
}

/// A stream, the display that listens to it, a second stream; silence at its very end and one past it; a new open after a fault.
fn silence() -> Vec<Call> {
    let owner = Open { multiplier: 1, ..ask(1, OWNER, MULTICAST) };
    let listener = |serial| Open { o_t_rpi: 30_000, ..ask(serial, LISTEN_ONLY, MULTICAST) };
    let mut segs = points(INPUT_ONLY);
    segs.push(Seg::Data(vec![5, 6, 7, 8]));
    let path = bytes::path(&segs);
    let second = Open { o_t_rpi: 15_000, t_o_rpi: 1_200_000, path, ..ask(3, INPUT_ONLY, POINT_TO_POINT) };
    let mut calls = vec![begin(INPUT_ONLY, LISTEN_ONLY), open(1_000, CONTROLLER, &owner)];
    calls.extend([open(2_000, DISPLAY, &listener(2)), open(3_000, DISPLAY, &second), DEADLINE]);
    calls.extend([Call::Connections { room: 96 }, Call::Produce { time: 3_000, room: 200 }, DEADLINE]);
    calls.extend([EVENT, EVENT, EVENT, EVENT, EVENT]);
    calls.extend([frame(4_000, CONTROLLER, FIRST, 1, bytes::payload(1, 1, &[1, 2])), EVENT, status()]);
    // the display's heartbeat, and one that is old
    calls.extend([40_000, 50_000].map(|time| frame(time, DISPLAY, FIRST + 2, 7, Vec::new())));
    for time in [0, 63_000, 63_001, 84_000] {
        calls.extend([Call::Expire { time }, DEADLINE, status(), EVENT]);
    }
    calls.extend([Call::Expire { time: 84_001 }, OUTPUT, EVENT, EVENT, EVENT, status(), DEADLINE]);
    calls.extend([open(85_000, DISPLAY, &listener(4)), status(), open(86_000, CONTROLLER, &owner), status(), EVENT]);
    calls.extend([open(86_000, DISPLAY, &listener(5)), Call::Connections { room: 64 }]);
    // the listener goes with its stream, told before its owner; the output is told already, and stays so
    calls.extend([frame(87_000, CONTROLLER, FIRST + 4, 1, bytes::payload(1, 1, &[1, 3])), EVENT, EVENT]);
    calls.extend([close(1), EVENT, EVENT, EVENT, status(), DEADLINE, open(88_000, CONTROLLER, &owner), EVENT]);
    calls.extend([frame(89_000, CONTROLLER, FIRST + 7, 1, bytes::payload(1, 1, &[1, 4])), EVENT, OUTPUT]);
    calls
}

/// A stream whose members came over three cards: who produces tells its own.
fn stream() -> Vec<Call> {
    let produce = |time| Call::Produce { time, room: 34 };
    let mut calls = vec![begin(INPUT_ONLY, LISTEN_ONLY), open(1_000, CONTROLLER, &ask(1, OWNER, MULTICAST))];
    calls.push(open_on(LOCAL + 1, 1_000, DISPLAY, &ask(2, LISTEN_ONLY, MULTICAST)));
    calls.push(open_on(LOCAL + 2, 1_000, DISPLAY, &ask(3, INPUT_ONLY, MULTICAST)));
    calls.extend([
        produce(1_000),
        close(1),
        status(),
        produce(1_001_000),
        close(2),
        produce(2_001_000),
        close(3),
        DEADLINE,
    ]);
    calls
}

/// A producer at its due time and around it, within an interval, just one behind, and far behind; what was late.
fn packets() -> Vec<Call> {
    let slow = |t_o_rpi, asked| Open { o_t_rpi: 800_000, t_o_rpi, ..asked };
    let mut calls = vec![begin(INPUT_ONLY, LISTEN_ONLY)];
    calls.push(open(1_000, CONTROLLER, &slow(2_000, ask(1, OWNER, MULTICAST))));
    calls.push(open(1_000, DISPLAY, &slow(2_000, ask(2, LISTEN_ONLY, MULTICAST))));
    calls.push(open(1_000, DISPLAY, &Open { multiplier: 7, ..slow(3_000, ask(3, INPUT_ONLY, POINT_TO_POINT)) }));
    let times = [999, 1_000, 2_999, 3_000, 4_999, 7_000, 7_999, 20_000, 20_000, 24_500];
    for (time, value) in times.into_iter().zip(1..) {
        calls.push(Call::SetInput { instance: 100, data: vec![value] });
        calls.extend([33, 68].map(|room| Call::Produce { time, room }));
        calls.extend([STATS, DEADLINE]);
    }
    calls.extend([Call::SetInput { instance: 100, data: Vec::new() }, Call::Produce { time: 30_000, room: 68 }]);
    calls
}

/// Opens that fail one check, or two, and some that pass just so.
fn asked() -> Vec<Open> {
    let base = || ask(9, INPUT_ONLY, POINT_TO_POINT);
    let by = |before: &[Seg], behind: &[Seg]| {
        let segs = [before, &points(INPUT_ONLY), behind].concat();
        Open { path: bytes::path(&segs), ..base() }
    };
    let key = |major, minor| by(&[Seg::Key { vendor: 0, device: 0, product: 0, major, minor }], &[]);
    let data = |bytes: &[u8]| Seg::Data(bytes.to_vec());
    let short = by(&[], &[data(&[1, 2])]);
    vec![
        base(),
        by(&[], &[data(&[9; 4]), data(&[1, 2, 3, 4])]), // the last data counts
        short.clone(),
        key(3, 4),
        key(0x83, 4),
        key(0x83, 6),
        by(&[], &[Seg::Raw(vec![0x28, 1])]), // a member segment
        Open { o_t_rpi: 999, ..short },
        Open { o_t_rpi: 999, o_t: Params::new(0, MULTICAST), ..base() },
        Open { o_t: Params::new(0, MULTICAST), ..base() },
        Open { t_o: Params::new(4, POINT_TO_POINT), ..base() },
    ]
}

/// Each of them, with the configuration that is stored after it; then closes, and a point that is all three.
fn checks() -> Vec<Call> {
    let base = || ask(9, INPUT_ONLY, POINT_TO_POINT);
    let mut calls =
        vec![begin(INPUT_ONLY, LISTEN_ONLY), open(1_000, DISPLAY, &ask(9, INPUT_ONLY, POINT_TO_POINT)), status()];
    calls.push(open(1_000, DISPLAY, &Open { t_o: Params::new(4, POINT_TO_POINT), ..base() }));
    for (serial, one) in (20..).zip(asked()) {
        calls.push(open(1_000, DISPLAY, &Open { serial, ..one }));
        calls.push(Call::Assembly { kind: 3, instance: 199, room: 4 });
    }
    calls.extend([
        Call::Close { request: bytes::close((9, 2, 3), &[], &[])[..11].to_vec(), room: 10 },
        close(9),
        close(9),
    ]);
    // one point is all three: input-only is tried first
    calls.extend([
        begin(OWNER, OWNER),
        open(1_000, CONTROLLER, &Open { o_t: Params::new(0, POINT_TO_POINT), ..ask(1, OWNER, POINT_TO_POINT) }),
    ]);
    calls.extend([EVENT, status()]);
    calls
}

/// Runs, each of which begins with a setup.
pub fn runs() -> Vec<Vec<Call>> {
    vec![frames(true), frames(false), silence(), stream(), packets(), checks()]
}
