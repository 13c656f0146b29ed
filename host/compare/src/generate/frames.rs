//! I/O frames: sequences at the wrap, repeated and new data, short payloads, other senders, damaged copies.

use super::Generator;
use crate::bytes;
use crate::call::{Call, MAX_BYTES};
use crate::seen::{ConnSeen, Seen};

impl Generator {
    fn sequence(&mut self, last: Option<u32>) -> u32 {
        let Some(last) = last else {
            return match self.rng.below(6) {
                0 => self.rng.pick(&[0, 1, u32::MAX, u32::MAX - 1, 0x7FFF_FFFF, 0x8000_0000]),
                _ => self.rng.next() as u32,
            };
        };
        match self.rng.below(20) {
            0 | 1 => last,
            2 => last.wrapping_sub(1 + self.rng.below(3) as u32),
            3 => last.wrapping_add(2 + self.rng.below(8) as u32),
            4 => last.wrapping_add(0x7FFF_FFFF),
            5 => last.wrapping_add(0x8000_0000),
            6 => last.wrapping_add(0x8000_0001),
            7 => self.rng.pick(&[0, u32::MAX, 1]),
            8 if self.rng.chance(30) => self.rng.next() as u32,
            _ => last.wrapping_add(1),
        }
    }

    fn cip(&mut self, last: Option<u16>) -> u16 {
        match (last, self.rng.below(10)) {
            (Some(last), 0..2) => last,
            (Some(last), 2..9) => last.wrapping_add(1),
            _ => self.rng.next() as u16,
        }
    }

    /// An owner's data: as it is, with a byte changed, or new.
    fn output_data(&mut self, seen: &Seen, c: &ConnSeen) -> Vec<u8> {
        let place = seen.assemblies.iter().position(|a| Some(a.instance) == c.output);
        let mut data = place.map_or(Vec::new(), |p| seen.data_of(p).to_vec());
        match self.rng.below(10) {
            0..4 => {}
            4..8 if !data.is_empty() => {
                let at = match self.rng.below(3) {
                    0 => 0,
                    1 => data.len() - 1,
                    _ => self.rng.index(data.len()),
                };
                data[at] ^= 1 << self.rng.below(8);
            }
            _ => data = self.rng.bytes(data.len()),
        }
        data
    }

    fn header(&mut self) -> u32 {
        let run = u32::from(self.rng.chance(75));
        if self.rng.chance(15) { self.rng.next() as u32 & !1 | run } else { run }
    }

    fn payload(&mut self, seen: &Seen, c: &ConnSeen) -> Vec<u8> {
        let cip = self.cip(c.last_cip);
        if c.output.is_none() {
            return match self.rng.below(4) {
                0 => Vec::new(),
                1 => cip.to_le_bytes().to_vec(),
                2 => bytes::payload(cip, 1, &[]),
                _ => {
                    let n = self.rng.index(12);
                    self.rng.bytes(n)
                }
            };
        }
        let mut data = self.output_data(seen, c);
        match self.rng.below(40) {
            0 => data.push(0),
            1 => {
                data.pop();
            }
            2 => {
                // shorter than CIP sequence and header
                let header = self.header();
                let mut short = bytes::payload(cip, header, &[]);
                short.truncate(self.rng.index(6));
                return short;
            }
            3 => data.clear(),
            _ => {}
        }
        let header = self.header();
        bytes::payload(cip, header, &data)
    }

    pub(super) fn receive(&mut self, seen: &Seen) -> Call {
        let time = self.time(seen);
        if seen.conns.is_empty() {
            return if self.rng.chance(70) {
                self.open(seen, true)
            } else {
                let n = self.rng.index(40);
                let from = self.peer();
                Call::Receive { time, from, frame: self.rng.bytes(n) }
            };
        }
        // owners twice as often
        let mut c = seen.conns[self.rng.index(seen.conns.len())];
        if c.output.is_none() {
            c = seen.conns[self.rng.index(seen.conns.len())];
        }
        let from = match self.rng.below(20) {
            0 => self.peer(),
            1 => self.rng.pick(&[0, c.originator ^ 1, c.local, c.dest.0]),
            _ => c.originator,
        };
        let id = match self.rng.below(30) {
            0 => c.t_o_id,
            1 => self.rng.pick(&[0, seen.next_id, c.o_t_id.wrapping_add(1)]),
            _ => c.o_t_id,
        };
        let sequence = self.sequence(c.last_sequence);
        let payload = self.payload(seen, &c);
        let frame = self.frame(bytes::frame_items(id, sequence, payload));
        Call::Receive { time, from, frame }
    }

    /// The frame's bytes, now and then in a form that is no I/O frame, or only just one.
    fn frame(&mut self, mut items: Vec<(u16, Vec<u8>)>) -> Vec<u8> {
        match self.rng.below(60) {
            0 | 1 => {
                // further items are of no matter but must be well formed
                for _ in 0..=self.rng.below(2) {
                    let n = self.rng.index(9);
                    items.push((self.rng.next() as u16, self.rng.bytes(n)));
                }
                let frame = bytes::items(&items);
                if self.rng.chance(40) { self.damaged(frame) } else { frame }
            }
            2 => {
                items[0].0 = self.rng.pick(&[0x00A1, 0, 0x8001, 0x0280, 0x00B1]);
                bytes::items(&items)
            }
            3 => {
                items[1].0 = self.rng.pick(&[0x00B2, 0x00A1, 0x8002, 0xB100]);
                bytes::items(&items)
            }
            4 => {
                if self.rng.chance(50) {
                    items[0].1.push(0);
                } else {
                    items[0].1.pop();
                }
                bytes::items(&items)
            }
            5 => {
                let mut frame = bytes::items(&items);
                frame[0] = self.rng.pick(&[0, 1, 3, 255]);
                frame[1] = self.rng.pick(&[0, 0, 1]);
                frame
            }
            6 | 7 => {
                let frame = bytes::items(&items);
                self.damaged(frame)
            }
            8 => {
                items.swap(0, 1);
                bytes::items(&items)
            }
            9 => {
                items.insert(self.rng.index(2), (0, Vec::new()));
                bytes::items(&items)
            }
            10 if self.rng.once_in(60) => {
                // at the size that is still read, and one over
                let used: usize = 2 + items.iter().map(|(_, d)| 4 + d.len()).sum::<usize>();
                let more = MAX_BYTES + self.rng.index(2) - used - 4;
                items.push((0, vec![0; more.min(65_535)]));
                bytes::items(&items)
            }
            _ => bytes::items(&items),
        }
    }

    /// A good frame to a row's connection.
    pub(super) fn refresh_frame(&mut self, seen: &Seen, row: usize) -> Call {
        let Some(c) = seen.conns.get(row).copied() else {
            return self.produce(seen);
        };
        let sequence = c.last_sequence.map_or(1, |last| last.wrapping_add(1));
        let cip = self.cip(c.last_cip);
        let payload = if c.output.is_some() {
            let data = self.output_data(seen, &c);
            let header = self.header();
            bytes::payload(cip, header, &data)
        } else {
            Vec::new()
        };
        Call::Receive {
            time: self.clock.min(crate::call::MAX_TIME),
            from: c.originator,
            frame: bytes::items(&bytes::frame_items(c.o_t_id, sequence, payload)),
        }
    }

    /// A frame to an owner that changes its output.
    pub(super) fn change(&mut self, seen: &Seen) -> Call {
        let owners: Vec<ConnSeen> = seen.conns.iter().copied().filter(|c| c.output.is_some()).collect();
        if owners.is_empty() {
            return self.open(seen, true);
        }
        let c = self.rng.pick(&owners);
        let place = seen.assemblies.iter().position(|a| Some(a.instance) == c.output);
        let mut data = place.map_or(Vec::new(), |p| seen.data_of(p).to_vec());
        let mut run = place.is_some_and(|p| seen.assemblies[p].run);
        match data.first_mut() {
            Some(byte) if self.rng.chance(80) => *byte = byte.wrapping_add(1),
            _ => run = !run,
        }
        let sequence = c.last_sequence.map_or(1, |last| last.wrapping_add(1));
        let cip = c.last_cip.map_or(1, |last| last.wrapping_add(1));
        Call::Receive {
            time: self.clock.min(crate::call::MAX_TIME),
            from: c.originator,
            frame: bytes::items(&bytes::frame_items(c.o_t_id, sequence, bytes::payload(cip, u32::from(run), &data))),
        }
    }
}
