//! Opens and closes: good ones, and ones with one to three twists, each aimed at a check (rules 6.1 to 6.13).

use super::Generator;
use super::drafts::Draft;
use crate::bytes::{self, MULTICAST, NULL, POINT_TO_POINT, Params, Seg};
use crate::call::{Call, MAX_BYTES};
use crate::seen::Seen;

impl Generator {
    /// One change, aimed at a check.
    fn twist(&mut self, seen: &Seen, d: &mut Draft) {
        match self.rng.below(35) {
            0 => d.open.transport = self.rng.pick(&[0, 2, 3, 0x81, 0x80, 0x91, 0x11, 0xA3, 0x71]),
            1 => d.open.transport = self.rng.byte(),
            2 => d.other.push(Seg::Raw(vec![0x01, 0x00])),
            3 => d.other.push(Seg::Attribute(self.rng.below(300) as u32, 1)),
            4 => {
                let port = self.port_segment();
                d.other.push(Seg::Raw(port));
            }
            5 | 6 => d.keys = vec![self.other_key()],
            // two keys: the last counts
            7 => d.keys = vec![self.other_key(), self.own_key()],
            8 => d.keys = vec![self.own_key(), self.other_key()],
            9 => d.classes = vec![Seg::Class(self.rng.pick(&[0, 3, 5, 0x0104]), 1)],
            10 => d.classes = if self.rng.chance(50) { Vec::new() } else { vec![Seg::Class(0x1_0004, 2)] },
            // two classes: the last counts
            11 => {
                let at = self.rng.index(d.classes.len() + 1);
                d.classes.insert(at, Seg::Class(self.rng.pick(&[6, 4]), 0));
            }
            12 => d.numbers = d.numbers.split_off(d.numbers.len().min(1)),
            13 => {
                let n = self.some_instance();
                d.numbers.insert(0, self.number(n));
            }
            14 => {
                let n = self.some_instance();
                self.put_number(d, 1, n);
            }
            15 => {
                let n = self.some_instance();
                self.put_number(d, 2, n);
            }
            16 => {
                let point = self.rng.pick(&[self.setup.input_only, self.setup.listen_only]);
                self.put_number(d, 2, point);
            }
            17 => {
                let n = 2 * self.rng.index(20);
                d.data = vec![Seg::Data(self.rng.bytes(n))];
            }
            18 => self.two_data_segments(d),
            19 => self.config_of_another_kind(d),
            20 => {
                let rpi = self.edge_rpi();
                d.open.o_t_rpi = rpi;
            }
            21 => {
                let rpi = self.edge_rpi();
                d.open.t_o_rpi = rpi;
            }
            22 => d.open.o_t.net = self.rng.pick(&[NULL, MULTICAST, 3, POINT_TO_POINT]),
            23 => d.open.t_o.net = self.rng.pick(&[NULL, MULTICAST, 3, POINT_TO_POINT]),
            24 => self.other_size(&mut d.open.o_t),
            25 => self.other_size(&mut d.open.t_o),
            26 => d.open.o_t.size = self.rng.index(9),
            27 | 28 => {
                if let Some((serial, vendor, originator)) = self.triad_in_use(seen) {
                    (d.open.serial, d.open.vendor, d.open.originator) = (serial, vendor, originator);
                }
            }
            29 => {
                // one number of a triad in use differs
                if let Some((serial, vendor, originator)) = self.triad_in_use(seen) {
                    (d.open.serial, d.open.vendor, d.open.originator) = match self.rng.below(3) {
                        0 => (serial.wrapping_add(1), vendor, originator),
                        1 => (serial, vendor.wrapping_add(1), originator),
                        _ => (serial, vendor, originator ^ 0x0100_0000),
                    };
                }
            }
            30 => self.owned_output(seen, d),
            31 => {
                // listen-only, with a stream or without
                self.put_number(d, 2, self.setup.listen_only);
                d.open.o_t.size = self.rng.pick(&[0, 2, 6]);
                d.open.o_t.variable = false;
            }
            33 => {
                // a key of another format
                let mut key = bytes::path(&[self.own_key()]);
                key[1] = self.rng.pick(&[0, 3, 5, 0x14]);
                d.keys = vec![Seg::Raw(key)];
            }
            32 => d.service = Some(self.rng.pick(&[0x4E, 0x54, 0x5B, 0])),
            _ => d.shuffled = true,
        }
    }

    /// Replaces the number that is so many from the end.
    fn put_number(&mut self, d: &mut Draft, from_end: usize, n: u32) {
        let seg = self.number(n);
        match d.numbers.len().checked_sub(from_end) {
            Some(at) => d.numbers[at] = seg,
            None => d.numbers.push(seg),
        }
    }

    pub(super) fn port_segment(&mut self) -> Vec<u8> {
        let n = self.rng.index(6);
        let mut link = self.rng.bytes(n);
        let mut out = match self.rng.below(3) {
            0 => vec![0x10 | self.rng.between(1, 14) as u8, n as u8],
            1 => vec![0x1F, n as u8, 0x34, 0x12],
            _ => {
                link = vec![self.rng.byte()];
                if self.rng.chance(50) { vec![0x0F, 0x34, 0x12] } else { vec![self.rng.below(15) as u8] }
            }
        };
        out.extend(link);
        if out.len() % 2 == 1 {
            out.push(0);
        }
        out
    }

    fn two_data_segments(&mut self, d: &mut Draft) {
        let n = 2 * self.rng.index(8);
        let more = Seg::Data(self.rng.bytes(n));
        match (d.data.is_empty(), self.rng.below(3)) {
            (false, 0) => d.data.insert(0, more),
            (false, 1) => d.data.push(Seg::Data(Vec::new())),
            _ => d.data.push(more),
        }
    }

    /// Configuration data for an instance that is no configuration assembly.
    fn config_of_another_kind(&mut self, d: &mut Draft) {
        let instance = self.some_instance();
        let seg = self.number(instance);
        if d.numbers.len() >= 3 {
            d.numbers[0] = seg;
        } else {
            d.numbers.insert(0, seg);
        }
        let size = self.setup.assemblies.iter().find(|a| a.instance == instance).map_or(2, |a| a.size);
        d.data = vec![Seg::Data(self.rng.bytes((size & !1).clamp(2, 480)))];
    }

    fn edge_rpi(&mut self) -> u32 {
        let (min, max) = (self.setup.rpi_min, self.setup.rpi_max);
        match self.rng.below(6) {
            0 => min,
            1 => max,
            2 => min.wrapping_sub(1),
            3 => max.wrapping_add(1),
            4 => 0,
            _ => self.rng.next() as u32,
        }
    }

    fn other_size(&mut self, params: &mut Params) {
        params.variable = self.rng.chance(50);
        params.size = match self.rng.below(4) {
            0 => params.size + 1,
            1 => params.size.saturating_sub(1),
            2 => self.rng.index(600),
            _ => params.size,
        };
    }

    fn owned_output(&mut self, seen: &Seen, d: &mut Draft) {
        let owned: Vec<(u32, usize)> = seen.conns.iter().filter_map(|c| c.output.map(|o| (o, c.output_size))).collect();
        if !owned.is_empty() {
            let (output, size) = self.rng.pick(&owned);
            self.put_number(d, 2, output);
            d.open.o_t.size = size + 6;
            d.open.large |= size + 6 > 511;
        }
    }

    fn finish(&mut self, d: Draft) -> (u8, Vec<u8>) {
        let mut segs = Vec::new();
        segs.extend(d.keys);
        segs.extend(d.classes);
        segs.extend(d.numbers);
        segs.extend(d.data);
        for seg in d.other {
            let at = self.rng.index(segs.len() + 1);
            segs.insert(at, seg);
        }
        if d.shuffled && segs.len() > 1 {
            let (i, j) = (self.rng.index(segs.len()), self.rng.index(segs.len()));
            segs.swap(i, j);
        }
        let mut open = d.open;
        open.path = bytes::path(&segs);
        if open.path.len() > 510 {
            open.path.truncate(510);
        }
        (d.service.unwrap_or(open.service()), open.bytes())
    }

    fn request(&mut self, seen: &Seen, good: bool) -> (u8, Vec<u8>) {
        let mut draft = self.draft(seen);
        if good || !self.rng.chance(self.profile.twisted) {
            return self.finish(draft);
        }
        for _ in 0..self.rng.pick(&[1, 1, 1, 2, 2, 3]) {
            self.twist(seen, &mut draft);
        }
        let (service, mut request) = self.finish(draft);
        match self.rng.below(30) {
            0..2 => request = self.damaged(request),
            2 => self.damage_path(service, &mut request),
            3 => {
                // at the least length and one under it
                let least = if service == 0x5B { 40 } else { 36 };
                let short = least - self.rng.index(2);
                if let Some(words) = request.get_mut(least - 1) {
                    *words = 0;
                }
                request.truncate(short);
            }
            4 if self.rng.once_in(40) => request.resize(MAX_BYTES + self.rng.index(2), 0),
            _ => {}
        }
        (service, request)
    }

    /// The path of an open.
    pub(super) fn open_path(&mut self, seen: &Seen) -> Vec<u8> {
        let (service, request) = self.request(seen, false);
        let from = if service == 0x5B { 40 } else { 36 };
        request.get(from..).unwrap_or(&[]).to_vec()
    }

    /// One byte of the path changed: mostly a segment's first, so that it is of another kind.
    fn damage_path(&mut self, service: u8, request: &mut [u8]) {
        let from = if service == 0x5B { 40 } else { 36 };
        if request.len() > from {
            let at = from + self.rng.index(request.len() - from);
            request[at] =
                self.rng.pick(&[0x20, 0x23, 0x24, 0x28, 0x2C, 0x2F, 0x30, 0x34, 0x80, 0x81, 0x00, 0x10, 0x1F, 0xFF]);
        }
    }

    pub(super) fn open(&mut self, seen: &Seen, good: bool) -> Call {
        let (service, request) = self.request(seen, good);
        let time = if good { self.clock.min(crate::call::MAX_TIME) } else { self.time(seen) };
        let (local, mask) = if self.rng.chance(60) { self.locals[0] } else { self.rng.pick(&self.locals) };
        let (address, port) = match self.rng.below(5) {
            0 => (0, 0),
            1 => (0, 3_000),
            2 => (0xEFC0_0101, 2_222),
            _ => (self.rng.next() as u32, self.rng.next() as u16),
        };
        Call::Open {
            time,
            service,
            request,
            peer: self.peer(),
            local,
            mask,
            given: self.rng.chance(40),
            address,
            port,
            io_port: self.rng.pick(&self.io_ports),
            room: if good { 26 } else { self.room(26) },
        }
    }

    pub(super) fn open_refusal(&mut self, seen: &Seen) -> Call {
        let (service, request) = self.request(seen, false);
        Call::OpenRefusal { service, request, room: self.room(10) }
    }

    pub(super) fn close(&mut self, seen: &Seen) -> Call {
        let gone = self.gone.len();
        let triad = match self.rng.below(20) {
            0 => self.fresh_triad(),
            1 if gone > 0 => self.gone[self.rng.index(gone)],
            2 => {
                let (serial, vendor, originator) = self.triad_in_use(seen).unwrap_or((1, 1, 1));
                self.rng.pick(&[
                    (serial ^ 1, vendor, originator),
                    (serial, vendor ^ 1, originator),
                    (serial, vendor, originator ^ 1),
                ])
            }
            _ => self.triad_in_use(seen).unwrap_or((1, 1, 1)),
        };
        if gone < 8 {
            self.gone.push(triad);
        } else {
            self.gone[self.triads as usize % 8] = triad;
        }
        // the path is not parsed
        let n = 2 * self.rng.index(5);
        let path = self.rng.bytes(n);
        let behind = if self.rng.chance(10) { vec![1, 2, 3] } else { Vec::new() };
        let mut request = bytes::close(triad, &path, &behind);
        match self.rng.below(40) {
            0 => request = self.damaged(request),
            1 => {
                request[10] = 0;
                request.truncate(12 - self.rng.index(2));
            }
            2 => request[10] = self.rng.byte(),
            3 if self.rng.once_in(60) => request.resize(MAX_BYTES + self.rng.index(2), 0),
            _ => {}
        }
        Call::Close { request, room: self.room(10) }
    }

    /// The close of some connection, with room.
    pub(super) fn close_one(&mut self, seen: &Seen) -> Call {
        match self.triad_in_use(seen) {
            Some(triad) => Call::Close { request: bytes::close(triad, &[], &[]), room: 10 },
            None => self.open(seen, true),
        }
    }
}
