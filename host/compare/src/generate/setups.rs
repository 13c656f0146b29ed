//! Setups within the sizes (docs/RULES.md, chapter 1), and some beyond.

use super::Generator;
use crate::block::{self, MOST_ASSEMBLIES, MOST_NAME};
use crate::bytes::{Setup, Shape};
use crate::call::{BLOCK, Call, SESSIONS};
use crate::places::SLOT;

const SIZES: [usize; 14] = [0, 1, 2, 3, 4, 8, 32, 100, 500, 506, 509, 510, 511, 512];
const EDS_SIZES: [usize; 14] = [0, 1, 2, 100, 239, 240, 241, 300, 479, 480, 481, 719, 720, 1000];

impl Generator {
    fn assembly_size(&mut self) -> usize {
        match self.rng.below(10) {
            0..3 => self.rng.pick(&SIZES),
            3 => self.rng.index(513),
            _ => self.rng.pick(&[2, 4, 8, 10, 32]),
        }
    }

    fn shape_list(&mut self) -> Vec<Shape> {
        let (inputs, outputs, configs) = match self.rng.below(60) {
            0 => (0, 0, 0),
            1 => (0, 1, 1),
            2..4 => (1, 0, 0),
            4..9 => (1, 14, 1),
            9..14 => (8, 8, 0),
            _ => (self.rng.between(1, 3), self.rng.between(1, 4), self.rng.below(3)),
        };
        let mut list: Vec<Shape> = Vec::new();
        for (kind, count, base) in [(1, inputs, 100), (2, outputs, 150), (3, configs, 199)] {
            for i in 0..count {
                let mut instance = match self.rng.below(12) {
                    0 => self.rng.between(1, 65_535) as u32,
                    1 => self.rng.pick(&[1, 255, 256, 65_535]),
                    _ => base + i as u32,
                };
                while list.iter().any(|a| a.instance == instance) {
                    instance = self.rng.between(1, 65_535) as u32;
                }
                let mut size = self.assembly_size();
                if kind == 3 && self.rng.chance(70) {
                    size = size.min(500) & !1; // one that an open can fill
                }
                list.push(Shape { instance, size, kind });
            }
        }
        if self.rng.chance(30) {
            for i in (1..list.len()).rev() {
                let j = self.rng.index(i + 1);
                list.swap(i, j);
            }
        }
        list
    }

    fn heartbeat(&mut self, usual: u32, list: &[Shape]) -> u32 {
        match self.rng.below(12) {
            0 if !list.is_empty() => {
                let i = self.rng.index(list.len());
                list[i].instance
            }
            1 => self.rng.pick(&[0, 1, 238, 237, 70_000, u32::MAX]),
            _ => usual,
        }
    }

    pub(super) fn good_setup(&mut self) -> Call {
        let assemblies = self.shape_list();
        let (rpi_min, rpi_max) = match self.rng.below(60) {
            0 => (10_000, 9_999),
            1..6 => (0, u32::MAX),
            6..11 => (0, 5_000),
            11..14 => (10_000, 10_000),
            14..19 => (1, 20_000),
            _ => (2_000, 3_200_000),
        };
        let eds = match self.rng.below(10) {
            0..3 => None,
            3..9 => Some(self.rng.pick(&EDS_SIZES)),
            _ if self.rng.once_in(10) => Some(self.rng.pick(&[65_535, 65_534, 61_200])),
            _ => Some(self.rng.index(2_000)),
        };
        let lengths = [0, 1, 10, 31, 32];
        let (name, eds_name) = (self.rng.pick(&lengths), self.rng.pick(&lengths));
        let input_only = self.heartbeat(238, &assemblies);
        let listen_only = self.heartbeat(237, &assemblies);
        let seed = match self.rng.below(6) {
            0 => self.rng.pick(&[u32::MAX, u32::MAX - 1, u32::MAX - 2, u32::MAX - 6, u32::MAX - 11]),
            1 => self.rng.pick(&[0, 1, 2]),
            _ => self.rng.next() as u32,
        };
        let setup = Setup {
            assemblies,
            limit: 240,
            eds: eds.is_some(),
            vendor: self.rng.pick(&[0, 1, 1337, 0x1234]),
            device: self.rng.pick(&[0, 0x2B, 12]),
            product: self.rng.pick(&[0, 1, 65_535]),
            major: self.rng.pick(&[0, 1, 2, 127, 128, 130]),
            minor: self.rng.pick(&[0, 1, 5, 255]),
            serial: self.rng.next() as u32,
            input_only,
            listen_only,
            rpi_min,
            rpi_max,
            late: self.rng.pick(&[0, 1_000]),
            mac: std::array::from_fn(|_| self.rng.byte()),
            name: self.rng.bytes(name),
            eds_name: self.rng.bytes(eds_name),
        };
        self.eds = eds.unwrap_or(0);
        let mut block = setup.block();
        if self.rng.chance(20) {
            // what lies past the lengths and the number of assemblies is not read
            let unused = (setup.assemblies.len()..MOST_ASSEMBLIES).flat_map(block::fields).flatten();
            for at in (block::NAME + name..block::NAME + MOST_NAME).chain(unused).chain(block::SPARE..BLOCK) {
                block[at] = self.rng.byte();
            }
        }
        self.setup = setup;
        self.triads = 0;
        Call::Setup { block, eds: self.rng.bytes(self.eds), seed }
    }

    /// A setup on a state in use: a good one, or one that is refused and that changes nothing.
    pub(super) fn setup_again(&mut self) -> Call {
        if self.rng.chance(20) {
            return self.good_setup();
        }
        let (kept, eds_kept) = (self.setup.clone(), self.eds);
        let call = self.good_setup();
        let bad_assemblies = self.setup.assemblies.len();
        (self.setup, self.eds) = (kept, eds_kept);
        let Call::Setup { mut block, mut eds, seed } = call else {
            return call;
        };
        match self.rng.below(12) {
            0 => block[block::ASSEMBLIES] = 17 + self.rng.below(239) as u8,
            1 => block[block::TRANSFER_LIMIT] = 0,
            2 => block[block::NAME_LENGTH] = 33,
            3 => block[block::EDS_NAME_LENGTH] = 33 + self.rng.below(222) as u8,
            4 => block[block::EDS + self.rng.index(4)] = 2,
            5 => block.truncate(self.rng.index(BLOCK)),
            6 => block.push(0),
            7 => {
                block[block::EDS..block::EDS + 4].fill(0);
                eds = vec![7];
            }
            8 => {
                block[block::EDS] = 1;
                eds = vec![0; 65_536];
            }
            n if bad_assemblies > 0 => {
                let place = self.rng.index(bad_assemblies);
                let [instance, size, _] = block::fields(place);
                match n {
                    9 => block[size].copy_from_slice(&(SLOT as u16 + 1).to_le_bytes()),
                    10 => block[block::kind(place)] = self.rng.pick(&[0, 4, 255]),
                    _ if place > 0 => block.copy_within(block::fields(0)[0].clone(), instance.start),
                    _ => block[instance].fill(0),
                }
            }
            _ => block[block::TRANSFER_LIMIT] = 0,
        }
        Call::Setup { block, eds, seed }
    }

    pub(super) fn new_session(&mut self) -> Call {
        Call::NewSession { session: self.rng.index(SESSIONS) }
    }
}
