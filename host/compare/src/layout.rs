//! The library's state, read by its layout (docs/STATE.md): what no call tells.

use crate::block::{self, MOST_ASSEMBLIES, MOST_NAME};
use crate::call::{MAX_CONNECTIONS, MAX_EVENTS, RECORD};
use crate::places::{
    ADDRESS, CIP, CONNECTIONS, DATA, DUE, EDS, EVENTS, FLAGS, INSTANCES, KINDS, LAST_CIP, LAST_SEQUENCE, LATE, LOCAL,
    MARKS, MAX_LATE, MULTIPLIER, NEXT_ID, ORIGINATOR, ORIGINATOR_SERIAL, O_T_ID, O_T_RPI, PORT, PRODUCED, RING,
    RING_BOUND, ROLE, ROW, SEQUENCE, SERIAL, SIZES, SLOT, STATE_SIZE, TABLE, T_O_ID, T_O_RPI, UNTIL, VENDOR,
};
use crate::seen::{AssemblySeen, ConnSeen, Seen, UploadSeen};

const _: () = assert!(MULTIPLIER + 1 == ROW, "a row is its fields");

/// The EDS's region: its largest length and one.
const EDS_SIZE: usize = STATE_SIZE - EDS;

fn u16_at(s: &[u8], at: usize) -> u16 {
    u16::from_le_bytes([s[at], s[at + 1]])
}

fn u32_at(s: &[u8], at: usize) -> u32 {
    u32::from_le_bytes([s[at], s[at + 1], s[at + 2], s[at + 3]])
}

fn u64_at(s: &[u8], at: usize) -> u64 {
    u64::from(u32_at(s, at)) | u64::from(u32_at(s, at + 4)) << 32
}

fn put(s: &mut [u8], at: usize, bytes: &[u8]) {
    s[at..at + bytes.len()].copy_from_slice(bytes);
}

// an assembly's shape, by its place in the setup's list: its three numbers, each in its column
fn instance(place: usize) -> usize {
    INSTANCES + 2 * place
}

fn size(place: usize) -> usize {
    SIZES + 2 * place
}

fn kind(place: usize) -> usize {
    KINDS + place
}

fn assemblies(s: &[u8]) -> usize {
    usize::from(s[block::ASSEMBLIES]).min(MOST_ASSEMBLIES)
}

fn assembly(s: &[u8], place: usize) -> AssemblySeen {
    // a place past the list is the empty assembly
    if place >= assemblies(s) {
        return AssemblySeen { instance: 0, kind: 1, size: 0, run: false, notified: false };
    }
    AssemblySeen {
        instance: u32::from(u16_at(s, instance(place))),
        kind: s[kind(place)],
        size: usize::from(u16_at(s, size(place))),
        run: s[MARKS + place] & 1 == 1,
        notified: s[MARKS + place] & 2 == 2,
    }
}

fn conn(s: &[u8], row: usize) -> ConnSeen {
    let r = &s[TABLE + ROW * row..TABLE + ROW * (row + 1)];
    let (flags, role) = (r[FLAGS], r[ROLE]);
    let kind = match role {
        254 => 2,
        255 => 3,
        _ => 1,
    };
    let input = assembly(s, usize::from(flags / 8));
    let output = (kind == 1).then(|| assembly(s, usize::from(role)));
    let o_t_rpi = u32_at(r, O_T_RPI);
    ConnSeen {
        kind,
        multicast: flags & 4 == 4,
        triad: (u16_at(r, SERIAL), u16_at(r, VENDOR), u32_at(r, ORIGINATOR_SERIAL)),
        originator: u32_at(r, ORIGINATOR),
        o_t_id: u32_at(r, O_T_ID),
        t_o_id: u32_at(r, T_O_ID),
        o_t_rpi,
        t_o_rpi: u32_at(r, T_O_RPI),
        timeout: u64::from(o_t_rpi) * (4 << r[MULTIPLIER].min(7)),
        input: input.instance,
        input_size: input.size,
        output: output.map(|a| a.instance),
        output_size: output.map_or(0, |a| a.size),
        dest: (u32_at(r, ADDRESS), u16_at(r, PORT)),
        local: u32_at(r, LOCAL),
        until: u64_at(r, UNTIL),
        last_sequence: (flags & 1 == 1).then(|| u32_at(r, LAST_SEQUENCE)),
        last_cip: (flags & 2 == 2).then(|| u16_at(r, LAST_CIP)),
        due: u64_at(r, DUE).checked_sub(1),
        sequence: u32_at(r, SEQUENCE),
        cip: u16_at(r, CIP),
    }
}

/// Reads what no call tells. The rest of `seen` is the calls'.
pub fn see(s: &[u8], seen: &mut Seen) {
    let connections = usize::from(u16_at(s, CONNECTIONS)).min(MAX_CONNECTIONS);
    seen.conns.extend((0..connections).map(|row| conn(s, row)));
    for place in 0..assemblies(s) {
        let a = assembly(s, place);
        let from = DATA + SLOT * place;
        seen.assemblies.push(a);
        seen.data.extend_from_slice(&s[from..from + a.size.min(SLOT)]);
    }
    seen.produced = u64_at(s, PRODUCED);
    seen.late = u64_at(s, LATE);
    seen.max_late = u64_at(s, MAX_LATE);
    seen.next_id = u32_at(s, NEXT_ID);
    let ring = u32_at(s, RING);
    seen.fault = ring & 1 == 1;
    seen.events = waiting(ring);
}

// the ring's word: 2,048 for each event that waits, 2 for each slot before the oldest one's, 1 for the fault mark
fn waiting(ring: u32) -> usize {
    ring as usize / (2 * MAX_EVENTS)
}

fn oldest(ring: u32) -> usize {
    ring as usize / 2 % MAX_EVENTS
}

/// The records of the events waiting, from a place on.
pub fn events(s: &[u8], from: usize, into: &mut Vec<[u8; RECORD]>) {
    let ring = u32_at(s, RING);
    for i in from..waiting(ring) {
        let at = EVENTS + RECORD * ((oldest(ring) + i) % MAX_EVENTS);
        into.push(std::array::from_fn(|k| s[at + k]));
    }
}

/// Sets what a connection has sent, if it sends.
pub fn plant_sent(s: &mut [u8], row: usize, sequence: u32, cip: u16) {
    if row < usize::from(u16_at(s, CONNECTIONS)) {
        let at = TABLE + ROW * row;
        if u64_at(s, at + DUE) != 0 {
            put(s, at + SEQUENCE, &sequence.to_le_bytes());
            put(s, at + CIP, &cip.to_le_bytes());
        }
    }
}

/// Sets the counters: of packets produced, and late.
pub fn plant_counters(s: &mut [u8], produced: u64, late: u64) {
    put(s, PRODUCED, &produced.to_le_bytes());
    put(s, LATE, &late.to_le_bytes());
}

/// Makes any bytes pass the state test: each number that docs/STATE.md says is tested becomes a good one. `below` draws one below a bound.
pub fn plant_tested(s: &mut [u8], mut below: impl FnMut(usize) -> usize) {
    s[block::ASSEMBLIES] = below(MOST_ASSEMBLIES + 1) as u8;
    s[block::TRANSFER_LIMIT] = below(255) as u8 + 1;
    s[block::NAME_LENGTH] = below(MOST_NAME + 1) as u8;
    s[block::EDS_NAME_LENGTH] = below(MOST_NAME + 1) as u8;
    put(s, block::EDS, &(below(EDS_SIZE + 1) as u32).to_le_bytes());
    for place in 0..MOST_ASSEMBLIES {
        put(s, size(place), &(below(SLOT + 1) as u16).to_le_bytes());
    }
    s[NEXT_ID] |= 1;
    put(s, RING, &(below(RING_BOUND as usize) as u32).to_le_bytes());
    put(s, CONNECTIONS, &(below(MAX_CONNECTIONS + 1) as u16).to_le_bytes());
}

/// An upload position: transfer size (0: none), next number, last number and whether there was one, offset, last offset.
pub fn upload(p: &[u8]) -> Option<UploadSeen> {
    (p[0] != 0).then(|| UploadSeen {
        size: usize::from(p[0]),
        next: p[1],
        offset: usize::from(u16_at(p, 4)),
        last: (p[3] != 0).then(|| (p[2], usize::from(u16_at(p, 6)))),
    })
}
