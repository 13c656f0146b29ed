//! ciplink behind the C interface's calls: its results as the interface's numbers and bytes. What the rules have and
//! ciplink has not is done here and nowhere else: lent room and times (No. 1, 2, 3, 8), the sizes, D1 (`MEND_D1`),
//! D2 (a Config event as instance and length), D3 (a copy is asked about the 33rd connection), and the three messages
//! outside the domain.

use super::AssemblyKind;
use super::forms::{config, event_record, path_record, record, request_record};
use super::objects::{self, Ctx};
use super::state::{Origin, Refusal, Sent, State};
use super::wire::{self, ForwardOpen, Triad};
use compare::{
    AssemblySeen, Call, ConnSeen, MAX_BYTES, MAX_CONNECTIONS, MAX_REPLY, MAX_TIME, RECORD, SESSIONS, Seen, Side,
    UploadSeen,
};
use std::net::{Ipv4Addr, SocketAddrV4};
use std::time::{Duration, Instant};

/// D1: a removed point-to-point connection does not hand production on. In ciplink it does, to the first multicast
/// connection of an equal T→O id; that connection's sending side is put back after such a removal.
const MEND_D1: bool = true;

const STATE: u64 = 1;
const SETUP: u64 = 2;
const TIME: u64 = 3;
const PARSE: u64 = 4;
const ASSEMBLY: u64 = 6;
const TOO_LONG: u64 = 7;
const ROOM: u64 = 8;
const NOTHING: u64 = 9;

fn yes(value: usize) -> u64 {
    (value as u64) << 8
}

fn refused((general, words): Refusal) -> u64 {
    let word = |i: usize| words.get(i).map_or(0, |w| u64::from(*w));
    5 | u64::from(general) << 8 | (words.len() as u64) << 16 | word(0) << 32 | word(1) << 48
}

fn accepted(item: Option<SocketAddrV4>) -> u64 {
    item.map_or(0, |a| 1 << 8 | u64::from(a.port()) << 16 | u64::from(u32::from(*a.ip())) << 32)
}

/// Writes an answer's bytes, or says that there is no room.
fn give(out: &mut [u8], bytes: &[u8]) -> u64 {
    match out.get_mut(..bytes.len()) {
        Some(part) => {
            part.copy_from_slice(bytes);
            yes(bytes.len())
        }
        None => ROOM,
    }
}

/// ciplink, behind the calls of the comparison.
pub struct Original {
    state: Option<State>,
    uploads: [Ctx; SESSIONS],
    base: Instant,
}

fn fresh_uploads() -> [Ctx; SESSIONS] {
    std::array::from_fn(|_| Ctx::new(Ipv4Addr::UNSPECIFIED, Ipv4Addr::UNSPECIFIED))
}

impl Default for Original {
    fn default() -> Self {
        Original { state: None, uploads: fresh_uploads(), base: Instant::now() }
    }
}

/// The connection that ciplink would make produce when the one at `index` goes, where D1 says it must not: its triad
/// and its sending side.
fn spared(state: &State, index: usize) -> Option<(Triad, Sent)> {
    let going = &state.conns[index];
    if !MEND_D1 || going.multicast || !going.sent().produces {
        return None;
    }
    let next = state.conns.iter().find(|c| c.multicast && c.t_o_id == going.t_o_id)?;
    Some((next.triad, next.sent()))
}

fn put_back(state: &mut State, spared: Option<(Triad, Sent)>) {
    if let Some((triad, sent)) = spared
        && let Some(conn) = state.conns.iter_mut().find(|c| c.triad == triad)
    {
        conn.set_sent(sent);
    }
}

fn close(state: &mut State, triad: Triad) -> bool {
    let spared = state.conns.iter().position(|c| c.triad == triad).and_then(|i| spared(state, i));
    let closed = state.close(triad);
    put_back(state, spared);
    closed
}

fn expired(state: &State, now: Instant) -> Vec<usize> {
    (0..state.conns.len())
        .filter(|i| {
            let c = &state.conns[*i];
            now.saturating_duration_since(c.heard().last_rx) > c.timeout()
        })
        .collect()
}

/// ciplink's expiry. Where D1 would show, one connection at a time: the others that are due to go are held back by a
/// receive time of now, and get theirs again.
fn expire(state: &mut State, now: Instant) {
    loop {
        let going = expired(state, now);
        if !going.iter().any(|i| spared(state, *i).is_some()) {
            return state.expire(now);
        }
        let spared = spared(state, going[0]);
        let held: Vec<(Triad, Instant)> =
            going[1..].iter().map(|i| (state.conns[*i].triad, state.conns[*i].heard().last_rx)).collect();
        let hold = |state: &mut State, times: &[(Triad, Instant)]| {
            for (triad, time) in times {
                if let Some(c) = state.conns.iter_mut().find(|c| c.triad == *triad) {
                    c.set_last_rx(*time);
                }
            }
        };
        let to_now: Vec<(Triad, Instant)> = held.iter().map(|(t, _)| (*t, now)).collect();
        hold(state, &to_now);
        state.expire(now);
        hold(state, &held);
        put_back(state, spared);
    }
}

/// What the rules answer to the messages outside the domain (docs/DIFFERENCES.md).
fn outside_the_domain(message: &[u8]) -> Option<u8> {
    let request = wire::parse_request(message)?;
    match wire::class_instance(&request.path)? {
        (0x01, 1) if message[0] == 0x01 => Some(0x08),
        (0x64 | 0xF4, _) => Some(0x05),
        _ => None,
    }
}

fn answer_message(state: &mut State, upload: &mut Ctx, message: &[u8]) -> Vec<u8> {
    let service = message.first().copied().unwrap_or(0);
    if message.len() > MAX_BYTES {
        return wire::reply(service, 0x04, &[], &[]);
    }
    match outside_the_domain(message) {
        Some(general) => wire::reply(service, general, &[], &[]),
        None => objects::message(state, upload, message),
    }
}

fn decode_open(service: u8, request: &[u8]) -> Option<ForwardOpen> {
    let large = match service {
        0x54 => false,
        0x5B => true,
        _ => return None,
    };
    if request.len() > MAX_BYTES {
        return None;
    }
    ForwardOpen::decode(request, large)
}

fn kind_of(code: u8) -> Option<AssemblyKind> {
    AssemblyKind::from_code(code)
}

impl Original {
    fn at(&self, time: u64) -> Instant {
        self.base + Duration::from_micros(time)
    }

    fn micros(&self, time: Instant) -> u64 {
        (time - self.base).as_micros() as u64
    }

    fn setup(&mut self, block: &[u8], eds: &[u8], seed: u32) -> u64 {
        let Some(config) = config(block, eds) else {
            return SETUP;
        };
        self.state = Some(State::new(config, seed));
        self.uploads = fresh_uploads();
        0
    }

    fn open(&mut self, call: &Call, out: &mut [u8]) -> u64 {
        let Call::Open { time, service, request, peer, local, mask, given, address, port, io_port, .. } = call else {
            unreachable!("an open")
        };
        let now = self.at((*time).min(MAX_TIME));
        let Some(state) = &mut self.state else {
            return STATE;
        };
        if *time > MAX_TIME {
            return TIME;
        }
        let Some(fo) = decode_open(*service, request) else {
            return PARSE;
        };
        let origin = Origin {
            peer: Ipv4Addr::from(*peer),
            local: Ipv4Addr::from(*local),
            mask: Ipv4Addr::from(*mask),
            t_o_sockaddr: given.then(|| SocketAddrV4::new(Ipv4Addr::from(*address), *port)),
            io_port: *io_port,
        };
        let full = state.conns.len() >= MAX_CONNECTIONS;
        if full || out.len() < 26 {
            return match state.copy_to_ask().open(&fo, &origin, now) {
                Err(refusal) => refused(refusal),
                Ok(_) if full => refused((0x01, vec![0x0113])),
                Ok(_) => ROOM,
            };
        }
        match state.open(&fo, &origin, now) {
            Err(refusal) => refused(refusal),
            Ok((reply, item)) => {
                give(out, &reply);
                accepted(item)
            }
        }
    }

    fn produce(&mut self, time: u64, out: &mut [u8]) -> u64 {
        let now = self.at(time.min(MAX_TIME));
        let Some(state) = &mut self.state else {
            return STATE;
        };
        if time > MAX_TIME {
            return TIME;
        }
        let need: usize = state
            .conns
            .iter()
            .filter(|c| c.sent().produces && c.sent().next_due <= now)
            .map(|c| 13 + 20 + c.input_size)
            .sum();
        if out.len() < need {
            return ROOM;
        }
        let mut bytes = Vec::with_capacity(need);
        for packet in state.produce(now) {
            bytes.extend(packet.dest.ip().octets());
            bytes.extend(packet.dest.port().to_be_bytes());
            bytes.push(u8::from(packet.multicast));
            bytes.extend(packet.local.octets());
            bytes.extend((packet.frame.len() as u16).to_be_bytes());
            bytes.extend(packet.frame);
        }
        give(out, &bytes)
    }
}

impl Side for Original {
    fn name(&self) -> &'static str {
        "ciplink"
    }

    fn call(&mut self, call: &Call, out: &mut [u8]) -> u64 {
        let base = self.base;
        let at = |time: u64| base + Duration::from_micros(time.min(MAX_TIME));
        match call {
            Call::Setup { block, eds, seed } => return self.setup(block, eds, *seed),
            Call::Open { .. } => return self.open(call, out),
            Call::Produce { time, .. } => return self.produce(*time, out),
            Call::OpenRefusal { service, request, .. } => {
                return match decode_open(*service, request) {
                    Some(fo) => give(out, &fo.refusal()),
                    None => PARSE,
                };
            }
            Call::Path { path, .. } => return path_record(path).map_or(PARSE, |r| give(out, &r)),
            Call::Request { message, .. } => return request_record(message).map_or(PARSE, |r| give(out, &r)),
            _ => {}
        }
        let Some(state) = &mut self.state else {
            return STATE;
        };
        match call {
            Call::SetInput { instance, data } => match state.set_input(*instance, data) {
                Ok(()) => 0,
                Err(e) if e.starts_with("no input assembly") => ASSEMBLY,
                Err(_) => TOO_LONG,
            },
            Call::Output { instance, .. } => {
                let Some(size) =
                    state.assembly(*instance).filter(|a| a.kind == AssemblyKind::Output).map(|a| a.data.len())
                else {
                    return ASSEMBLY;
                };
                if out.len() < 1 + size {
                    return ROOM;
                }
                match state.output(*instance) {
                    None => ASSEMBLY,
                    Some(output) => {
                        out[0] = u8::from(output.run);
                        out[1..=size].copy_from_slice(&output.data);
                        yes(1 + size)
                    }
                }
            }
            Call::Assembly { kind, instance, .. } => {
                match state.assembly(*instance).filter(|a| kind_of(*kind) == Some(a.kind)) {
                    None => ASSEMBLY,
                    Some(a) => give(out, &a.data),
                }
            }
            Call::Close { request, .. } => {
                if request.len() > MAX_BYTES {
                    return PARSE;
                }
                let Some((triad, _)) = wire::decode_forward_close(request) else {
                    return PARSE;
                };
                if out.len() < 10 {
                    let known = state.conns.iter().any(|c| c.triad == triad);
                    return if known { ROOM } else { NOTHING };
                }
                if !close(state, triad) {
                    return NOTHING;
                }
                give(out, &wire::forward_close_reply(triad))
            }
            Call::Receive { time, from, frame } => {
                if *time > MAX_TIME {
                    return TIME;
                }
                if frame.len() <= MAX_BYTES {
                    let sender = SocketAddrV4::new(Ipv4Addr::from(*from), 2222);
                    state.receive(frame, sender, at(*time));
                }
                0
            }
            Call::Expire { time } => {
                if *time > MAX_TIME {
                    return TIME;
                }
                let before = state.conns.len();
                expire(state, at(*time));
                yes(before - state.conns.len())
            }
            Call::NextDeadline { .. } => match state.next_deadline() {
                None => NOTHING,
                Some(time) => give(out, &((time - base).as_micros() as u64).to_le_bytes()),
            },
            Call::NextEvent { .. } => match state.events.front().map(event_record) {
                None => NOTHING,
                Some(_) if out.len() < RECORD => ROOM,
                Some(record) => {
                    state.events.pop_front();
                    give(out, &record)
                }
            },
            Call::Connections { .. } => {
                let records: Vec<u8> = state.connections().iter().flat_map(|info| record(0, info)).collect();
                give(out, &records)
            }
            Call::Stats { .. } => {
                let stats = state.stats;
                let mut bytes = [0; 24];
                bytes[..8].copy_from_slice(&stats.produced.to_le_bytes());
                bytes[8..16].copy_from_slice(&stats.late.to_le_bytes());
                bytes[16..].copy_from_slice(&(stats.max_late.as_micros() as u64).to_le_bytes());
                give(out, &bytes)
            }
            Call::Message { session, local, mask, message, .. } => {
                if out.len() < MAX_REPLY {
                    return ROOM;
                }
                let upload = &mut self.uploads[*session];
                upload.local = Ipv4Addr::from(*local);
                upload.mask = Ipv4Addr::from(*mask);
                let reply = answer_message(state, upload, message);
                give(out, &reply)
            }
            Call::NewSession { session } => {
                self.uploads[*session] = Ctx::new(Ipv4Addr::UNSPECIFIED, Ipv4Addr::UNSPECIFIED);
                0
            }
            Call::PlantSent { row, sequence, cip } => {
                if let Some(conn) = state.conns.get_mut(*row) {
                    let mut sent = conn.sent();
                    if sent.produces {
                        sent.sequence = *sequence;
                        sent.cip_sequence = *cip;
                        conn.set_sent(sent);
                    }
                }
                0
            }
            _ => unreachable!("answered above"),
        }
    }

    fn see(&mut self, seen: &mut Seen) {
        seen.conns.clear();
        seen.assemblies.clear();
        seen.data.clear();
        seen.records.clear();
        let base = self.base;
        let Some(state) = &self.state else {
            return;
        };
        let micros = |time: Instant| (time - base).as_micros() as u64;
        for c in &state.conns {
            let (sent, heard) = (c.sent(), c.heard());
            seen.conns.push(ConnSeen {
                kind: c.kind.code(),
                multicast: c.multicast,
                triad: c.triad,
                originator: u32::from(c.originator),
                o_t_id: c.o_t_id,
                t_o_id: c.t_o_id,
                o_t_rpi: c.o_t_rpi.as_micros() as u32,
                t_o_rpi: c.t_o_rpi.as_micros() as u32,
                timeout: c.timeout().as_micros() as u64,
                input: c.input,
                input_size: c.input_size,
                output: c.output,
                output_size: c.output_size,
                dest: (u32::from(*c.dest.ip()), c.dest.port()),
                local: u32::from(c.local),
                until: micros(heard.last_rx + c.timeout()),
                last_sequence: heard.last_sequence,
                last_cip: heard.last_cip_sequence,
                due: sent.produces.then(|| micros(sent.next_due)),
                sequence: sent.sequence,
                cip: sent.cip_sequence,
            });
            // the records are what `connections` answers, in its order
        }
        for a in &state.assemblies {
            seen.assemblies.push(AssemblySeen {
                instance: a.instance,
                kind: a.kind.code(),
                size: a.data.len(),
                run: a.run,
                notified: a.notified(),
            });
            seen.data.extend_from_slice(&a.data);
        }
        seen.records.extend(state.connections().iter().map(|info| record(0, info)));
        seen.produced = state.stats.produced;
        seen.late = state.stats.late;
        seen.max_late = state.stats.max_late.as_micros() as u64;
        seen.next_id = state.next_id();
        seen.fault = state.faulted;
        seen.status = state.identity_status();
        seen.deadline = state.next_deadline().map(micros);
        seen.events = state.events.len();
        for (place, ctx) in seen.uploads.iter_mut().zip(&self.uploads) {
            *place = ctx.position().map(|(size, next, offset, last)| UploadSeen { size, next, offset, last });
        }
    }

    fn events(&self, from: usize, into: &mut Vec<[u8; RECORD]>) {
        into.clear();
        if let Some(state) = &self.state {
            into.extend(state.events.iter().skip(from).map(event_record));
        }
    }
}
