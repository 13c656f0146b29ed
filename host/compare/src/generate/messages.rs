//! Explicit messages to the five objects and their neighbours, and EDS uploads with repeats.

use super::{Generator, Step};
use crate::bytes::{self, Seg};
use crate::call::{Call, MAX_BYTES, MAX_REPLY, PATH_RECORD, REQUEST_RECORD};
use crate::seen::Seen;

const CLASSES: [u32; 8] = [0x01, 0x04, 0xF5, 0xF6, 0x37, 0x37, 0x04, 0x01];
const OTHERS: [u32; 9] = [0x02, 0x06, 0x64, 0xF4, 0, 0x1_0001, 0x0137, 0xFFFF_FFFF, 0x05];

impl Generator {
    fn wide(&mut self, n: u32) -> u8 {
        let least = bytes::width(n);
        if self.rng.chance(80) { least } else { self.rng.between(u64::from(least), 2) as u8 }
    }

    fn message_instance(&mut self, class: u32) -> u32 {
        match self.rng.below(10) {
            0 => 0,
            1 => self.rng.pick(&[0, 2, 0x1_0001, 0xC9, 0x1_00C8]),
            2 => self.some_instance(),
            _ => match class {
                0x37 => 0xC8,
                0x04 if !self.setup.assemblies.is_empty() => {
                    let i = self.rng.index(self.setup.assemblies.len());
                    self.setup.assemblies[i].instance
                }
                _ => 1,
            },
        }
    }

    fn message_attribute(&mut self) -> u32 {
        match self.rng.below(20) {
            0 => self.rng.pick(&[0, 13, 255, 65_537, 0x0100_0003]),
            _ => self.rng.between(1, 12) as u32,
        }
    }

    fn message_path(&mut self) -> Vec<Seg> {
        let class = if self.rng.chance(88) { self.rng.pick(&CLASSES) } else { self.rng.pick(&OTHERS) };
        let (instance, attribute) = (self.message_instance(class), self.message_attribute());
        let class = Seg::Class(class, self.wide(class));
        let instance = Seg::Instance(instance, self.wide(instance));
        let attribute = Seg::Attribute(attribute, self.wide(attribute));
        let other = Seg::Attribute(self.rng.between(1, 9) as u32, 0);
        let port = Seg::Raw(self.port_segment());
        let key = Seg::Key { vendor: 1, device: 2, product: 3, major: 4, minor: 5 };
        let point = Seg::Point(self.rng.below(256) as u32, 0);
        match self.rng.below(30) {
            0 => vec![class],
            1 | 2 => vec![class, attribute],
            3 => vec![class, attribute, other],
            4 => vec![class, instance, attribute, other],
            5 => vec![key, class, instance, attribute],
            6 => vec![class, instance, port, attribute],
            7 => vec![class, point],
            8 => vec![port, class, instance, attribute],
            9 => vec![instance, class, attribute],
            10 => vec![class.clone(), class, instance, attribute],
            11 => vec![class, instance.clone(), instance, attribute],
            12 => Vec::new(),
            13 => vec![class, instance],
            14 => vec![class, instance, Seg::Data(vec![1, 2]), attribute],
            _ => vec![class, instance, attribute],
        }
    }

    pub(super) fn message(&mut self, seen: &Seen) -> Call {
        if self.rng.once_in(40) {
            return self.new_session();
        }
        if self.rng.chance(20) {
            let session = self.session();
            return self.transfer(seen, session);
        }
        let path = self.message_path();
        let service = match self.rng.below(20) {
            0 => self.rng.byte(),
            1 => 0x01,
            2 => 0x4B,
            3 => 0x4F,
            4 => self.rng.pick(&[0x8E, 0x10, 0x00, 0x54]),
            _ => 0x0E,
        };
        let n = if self.rng.chance(70) { 0 } else { self.rng.index(4) };
        let data = self.rng.bytes(n);
        let mut message = bytes::message(service, &bytes::path(&path), &data);
        match self.rng.below(40) {
            0..3 => message = self.damaged(message),
            3 => message.truncate(self.rng.index(3)),
            4 => message = self.rng.bytes(n),
            5 if self.rng.once_in(200) => message.resize(MAX_BYTES + self.rng.index(2), 0),
            _ => {}
        }
        self.send(message)
    }

    /// A path or a message on its own.
    pub(super) fn routing(&mut self, seen: &Seen) -> Call {
        if self.rng.chance(40) {
            let Call::Message { message, .. } = self.message(seen) else {
                return self.new_session();
            };
            return Call::Request { message, room: self.room(REQUEST_RECORD) };
        }
        let mut path = if self.rng.chance(50) { bytes::path(&self.message_path()) } else { self.open_path(seen) };
        match self.rng.below(12) {
            0..3 => path = self.damaged(path),
            3 if self.rng.once_in(8) => path = vec![0; 508 + 2 * self.rng.index(3)],
            _ => {}
        }
        Call::Path { path, room: self.room(PATH_RECORD) }
    }

    fn send(&mut self, message: Vec<u8>) -> Call {
        let session = self.session();
        self.send_in(session, message)
    }

    fn send_in(&mut self, session: usize, message: Vec<u8>) -> Call {
        let (local, mask) = self.rng.pick(&self.locals);
        let room = match self.rng.below(100) {
            0 => MAX_REPLY - 1,
            1 => 0,
            2..10 => MAX_REPLY + 1,
            _ => MAX_REPLY,
        };
        Call::Message { session, local, mask, message, room }
    }

    fn file(&mut self, session: usize, service: u8, data: &[u8]) -> Call {
        let path = bytes::path(&[Seg::Class(0x37, 0), Seg::Instance(0xC8, 0)]);
        let message = bytes::message(service, &path, data);
        self.send_in(session, message)
    }

    /// A transfer of a session: in turn, the last again, out of turn; or an upload begins.
    pub(super) fn transfer(&mut self, seen: &Seen, session: usize) -> Call {
        let Some(upload) = seen.uploads[session] else {
            if self.rng.chance(15) {
                let number = self.rng.byte();
                return self.file(session, 0x4F, &[number]);
            }
            return self.initiate(session);
        };
        let last = upload.last.map_or(0, |(number, _)| number);
        match self.rng.below(20) {
            0 => self.initiate(session),
            1..4 => self.file(session, 0x4F, &[last]),
            4 => self.file(session, 0x4F, &[upload.next.wrapping_add(1)]),
            5 => self.file(session, 0x4F, &[last.wrapping_sub(1)]),
            6 => self.file(session, 0x4F, &[]),
            7 => {
                let number = self.rng.byte();
                self.file(session, 0x4F, &[number])
            }
            _ => self.file(session, 0x4F, &[upload.next, 9]),
        }
    }

    pub(super) fn transfer_in_turn(&mut self, seen: &Seen, session: usize) -> Call {
        let Some(upload) = seen.uploads[session] else {
            return self.initiate(session);
        };
        let number = match (upload.last, self.rng.below(20)) {
            (Some((last, _)), 0..2) => last,
            (_, 2) => upload.next.wrapping_add(1),
            _ => upload.next,
        };
        self.file(session, 0x4F, &[number])
    }

    fn initiate(&mut self, session: usize) -> Call {
        let size = match self.rng.below(10) {
            0 => self.rng.pick(&[0, 1, 239, 240, 241, 255]),
            1 => self.rng.byte(),
            // so small that the transfer numbers wrap
            2 if self.eds < 400 => 1,
            _ => self.rng.pick(&[16, 60, 100, 200, 240, 255]),
        };
        let data = if self.rng.chance(97) { vec![size] } else { Vec::new() };
        self.file(session, 0x4B, &data)
    }

    /// A whole upload, a few transfers past its end.
    pub(super) fn upload(&mut self, _seen: &Seen) -> Call {
        let session = self.session();
        let (size, transfers) = match self.rng.below(4) {
            0 if self.eds < 600 => (1, self.eds + 3),
            0 | 1 => (100, self.eds / 100 + 4),
            _ => (240, self.eds / 240 + 4),
        };
        for _ in 0..transfers.min(700) {
            self.steps.push_back(Step::Transfer(session));
        }
        self.file(session, 0x4B, &[size])
    }
}
