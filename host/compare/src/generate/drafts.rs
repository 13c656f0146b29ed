//! Opens that pass: owner, input-only and listen-only, multicast and point-to-point, with and without a key and
//! configuration data.

use super::Generator;
use crate::bytes::{self, MULTICAST, Open, POINT_TO_POINT, Params, Seg, Shape};
use crate::seen::Seen;

/// An open before it is bytes: the segments apart, so that a twist can change them.
pub(super) struct Draft {
    pub(super) open: Open,
    pub(super) keys: Vec<Seg>,
    pub(super) classes: Vec<Seg>,
    pub(super) numbers: Vec<Seg>,
    pub(super) data: Vec<Seg>,
    pub(super) other: Vec<Seg>,
    pub(super) shuffled: bool,
    pub(super) service: Option<u8>,
}

#[derive(Clone, Copy, PartialEq)]
enum Kind {
    Owner,
    InputOnly,
    ListenOnly,
}

impl Generator {
    pub(super) fn number(&mut self, n: u32) -> Seg {
        let least = bytes::width(n);
        let wide = if self.rng.chance(85) { least } else { self.rng.between(u64::from(least), 2) as u8 };
        if self.rng.chance(80) { Seg::Point(n, wide) } else { Seg::Instance(n, wide) }
    }

    /// One of few intervals, so that streams are shared.
    pub(super) fn rpi(&mut self) -> u32 {
        let (min, max) = (self.setup.rpi_min, self.setup.rpi_max);
        let rpi = match self.rng.below(12) {
            0 => min,
            1 => max,
            2 => 20_000,
            3 => self.rng.next() as u32,
            4 => self.rng.below(50_000) as u32,
            _ => 10_000,
        };
        if min <= max { rpi.clamp(min, max) } else { rpi }
    }

    pub(super) fn fresh_triad(&mut self) -> (u16, u16, u32) {
        self.triads += 1;
        let n = self.triads;
        match self.rng.below(4) {
            0 => (n as u16, 1, 7),
            1 => (1, n as u16, 7),
            2 => (1, 1, 100 + n),
            _ => (n as u16, 2, n),
        }
    }

    pub(super) fn triad_in_use(&mut self, seen: &Seen) -> Option<(u16, u16, u32)> {
        match seen.conns.len() {
            0 => None,
            n => Some(seen.conns[self.rng.index(n)].triad),
        }
    }

    /// A T→O id: the originator's own choice, sometimes one that a stream has or will draw.
    fn t_o_id(&mut self, seen: &Seen) -> u32 {
        if !self.rng.chance(self.profile.colliding) {
            return self.rng.next() as u32;
        }
        let streams: Vec<u32> = seen.conns.iter().filter(|c| c.multicast).map(|c| c.t_o_id).collect();
        match self.rng.below(6) {
            0 => seen.next_id.wrapping_add(self.rng.below(4) as u32),
            1 if !seen.conns.is_empty() => seen.conns[self.rng.index(seen.conns.len())].o_t_id,
            2 if !seen.conns.is_empty() => seen.conns[self.rng.index(seen.conns.len())].t_o_id,
            _ if !streams.is_empty() => self.rng.pick(&streams),
            _ => seen.next_id.wrapping_add(1),
        }
    }

    fn kind(&mut self, seen: &Seen, outputs: &[Shape], multicast: bool) -> (Kind, Option<Shape>) {
        let free: Vec<Shape> =
            outputs.iter().copied().filter(|a| !seen.conns.iter().any(|c| c.output == Some(a.instance))).collect();
        let streams = seen.conns.iter().any(|c| c.multicast && c.kind != 3);
        match self.rng.below(10) {
            0..5 if !free.is_empty() => (Kind::Owner, Some(self.rng.pick(&free))),
            0 if !outputs.is_empty() && self.rng.chance(30) => (Kind::Owner, Some(self.rng.pick(outputs))),
            5..8 if multicast && streams => (Kind::ListenOnly, None),
            _ => (Kind::InputOnly, None),
        }
    }

    pub(super) fn own_key(&mut self) -> Seg {
        let setup = &self.setup;
        let (vendor, device, product) = (setup.vendor, setup.device, setup.product);
        let (our_major, our_minor) = (setup.major, setup.minor);
        let compatible = self.rng.chance(40);
        let minor = match self.rng.below(4) {
            0 => 0,
            1 if compatible => self.rng.between(0, u64::from(our_minor)) as u8,
            _ => our_minor,
        };
        let major = match self.rng.below(5) {
            0 => 0,
            _ if our_major < 128 => our_major,
            _ => 0,
        };
        Seg::Key {
            vendor: if self.rng.chance(70) { vendor } else { 0 },
            device: if self.rng.chance(70) { device } else { 0 },
            product: if self.rng.chance(70) { product } else { 0 },
            major: major | if compatible { 0x80 } else { 0 },
            minor,
        }
    }

    pub(super) fn other_key(&mut self) -> Seg {
        let Seg::Key { mut vendor, mut device, mut product, mut major, mut minor } = self.own_key() else {
            unreachable!("a key")
        };
        let (our_major, our_minor) = (self.setup.major, self.setup.minor);
        for _ in 0..=self.rng.below(2) {
            match self.rng.below(7) {
                0 => vendor = self.rng.pick(&[1, 2, 0x1234, 0x3412]),
                1 => product = self.rng.pick(&[1, 2, 65_535]),
                2 => device = self.rng.pick(&[1, 0x2B, 12]),
                3 => major = our_major.wrapping_add(self.rng.pick(&[0, 1, 255])) & 0x7F | major & 0x80,
                4 => {
                    major = our_major & 0x7F | self.rng.pick(&[0, 0x80]);
                    minor = our_minor.wrapping_add(self.rng.pick(&[1, 255, 0, 2]));
                }
                5 => minor = self.rng.byte(),
                _ => major = self.rng.byte(),
            }
        }
        Seg::Key { vendor, device, product, major, minor }
    }

    /// An open that passes, if the setup has what it takes and the table has room.
    pub(super) fn draft(&mut self, seen: &Seen) -> Draft {
        let multicast = self.rng.chance(self.profile.multicast);
        let (inputs, outputs, configs) = (self.shapes(1), self.shapes(2), self.shapes(3));
        let (kind, output) = self.kind(seen, &outputs, multicast);
        let none = Shape { instance: 100, size: 4, kind: 1 };
        let input = match inputs.len() {
            0 => none,
            // few inputs, so that streams are shared
            n => inputs[if self.rng.chance(70) { 0 } else { self.rng.index(n) }],
        };
        let point = match kind {
            Kind::Owner => output.map_or(150, |o| o.instance),
            Kind::InputOnly => self.setup.input_only,
            Kind::ListenOnly => self.setup.listen_only,
        };
        let o_t_size = match kind {
            Kind::Owner => output.map_or(0, |o| o.size) + 6,
            _ => self.rng.pick(&[0, 2, 6]),
        };
        let t_o_size = input.size + 2;
        let large = o_t_size > 511 || t_o_size > 511 || self.rng.chance(25);
        let (serial, vendor, originator) = self.fresh_triad();
        let mut o_t = Params::new(o_t_size, POINT_TO_POINT);
        let mut t_o = Params::new(t_o_size, if multicast { MULTICAST } else { POINT_TO_POINT });
        if self.rng.chance(20) {
            (o_t.other, t_o.other) = (self.rng.next() as u32, self.rng.next() as u32);
        }
        if self.rng.chance(10) {
            t_o.variable = true;
            t_o.size = self.rng.index(t_o_size + 1);
        }
        if self.rng.chance(10) && kind == Kind::Owner {
            o_t.variable = true;
            o_t.size = self.rng.index(o_t_size + 1);
        }
        let o_t_rpi = self.rpi();
        let open = Open {
            large,
            o_t_id: self.rng.next() as u32,
            t_o_id: self.t_o_id(seen),
            serial,
            vendor,
            originator,
            multiplier: match self.rng.below(10) {
                0 => self.rng.byte(),
                1 => self.rng.pick(&[7, 8, 6]),
                n => (n % 4) as u8,
            },
            o_t_rpi,
            o_t,
            t_o_rpi: if self.rng.chance(60) { o_t_rpi } else { self.rpi() },
            t_o,
            transport: 0x01 | if self.rng.chance(20) { (self.rng.below(8) as u8) << 4 } else { 0 },
            path: Vec::new(),
            behind: if self.rng.chance(10) { self.rng.bytes(3) } else { Vec::new() },
        };
        let mut numbers = vec![self.number(point), self.number(input.instance)];
        let mut data = Vec::new();
        if !configs.is_empty() && self.rng.chance(35) {
            let config = self.rng.pick(&configs);
            numbers.insert(0, self.number(config.instance));
            if config.size.is_multiple_of(2) && config.size <= 490 && self.rng.chance(60) {
                data.push(Seg::Data(self.rng.bytes(config.size)));
            }
        } else if self.rng.chance(10) {
            let any = self.some_instance();
            numbers.insert(0, self.number(any));
        }
        Draft {
            open,
            keys: if self.rng.chance(40) { vec![self.own_key()] } else { Vec::new() },
            classes: vec![Seg::Class(4, if self.rng.chance(90) { 0 } else { self.rng.between(0, 2) as u8 })],
            numbers,
            data,
            other: Vec::new(),
            shuffled: self.rng.chance(10),
            service: None,
        }
    }
}
