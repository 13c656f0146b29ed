//! The library as a side: its C functions as they are, on a state that is lent to nobody else.

use crate::call::{Call, MAX_CONNECTIONS, MAX_REPLY, RECORD, SESSIONS};
use crate::layout;
use crate::seen::{Seen, Side};
use threshtide::sys;

/// Every so many calls the whole state is kept beforehand, to see that a refusal changes none of it.
const WATCHED: u64 = 16;

/// The service, path and so on of a message that asks for the Identity status word.
const ASK_STATUS: [u8; 8] = [0x0E, 3, 0x20, 0x01, 0x24, 0x01, 0x30, 0x05];

pub struct Library {
    state: Vec<u8>,
    uploads: [Vec<u8>; SESSIONS],
    before: Vec<u8>,
    calls: u64,
    fault: Option<String>,
}

impl Default for Library {
    fn default() -> Self {
        // SAFETY: both take nothing.
        let (size, upload) = unsafe { (sys::threshtide_state_size(), sys::threshtide_upload_size()) };
        Library {
            state: vec![0; size as usize],
            uploads: std::array::from_fn(|_| vec![0; upload as usize]),
            before: Vec::new(),
            calls: 0,
            fault: None,
        }
    }
}

impl Library {
    /// The lent bytes.
    pub fn state(&self) -> &[u8] {
        &self.state
    }

    /// Lends other bytes.
    pub fn set_state(&mut self, state: Vec<u8>) {
        self.state = state;
    }

    /// Sets the counters of packets produced and late, as 2^64 calls would.
    pub fn plant_counters(&mut self, produced: u64, late: u64) {
        layout::plant_counters(&mut self.state, produced, late);
    }

    fn ask(&mut self, call: &Call, out: &mut [u8]) -> u64 {
        let (state, size) = (self.state.as_mut_ptr(), self.state.len());
        let (to, room) = (out.as_mut_ptr(), out.len());
        // SAFETY: each pointer goes with the length of its slice, and the state, an upload position and the output are
        // three buffers that nothing else refers to.
        unsafe {
            match call {
                Call::Setup { block, eds, seed } => {
                    sys::threshtide_setup(state, size, block.as_ptr(), block.len(), eds.as_ptr(), eds.len(), *seed)
                }
                Call::SetInput { instance, data } => {
                    sys::threshtide_set_input(state, size, *instance, data.as_ptr(), data.len())
                }
                Call::Output { instance, .. } => sys::threshtide_output(state, size, *instance, to, room),
                Call::Assembly { kind, instance, .. } => {
                    sys::threshtide_assembly(state, size, *kind, *instance, to, room)
                }
                Call::Open { time, service, request, peer, local, mask, given, address, port, io_port, .. } => {
                    sys::threshtide_open(
                        state,
                        size,
                        *time,
                        *service,
                        request.as_ptr(),
                        request.len(),
                        *peer,
                        *local,
                        *mask,
                        *given,
                        *address,
                        *port,
                        *io_port,
                        to,
                        room,
                    )
                }
                Call::OpenRefusal { service, request, .. } => {
                    sys::threshtide_open_refusal(*service, request.as_ptr(), request.len(), to, room)
                }
                Call::Close { request, .. } => {
                    sys::threshtide_close(state, size, request.as_ptr(), request.len(), to, room)
                }
                Call::Receive { time, from, frame } => {
                    sys::threshtide_receive(state, size, *time, *from, frame.as_ptr(), frame.len())
                }
                Call::Produce { time, .. } => sys::threshtide_produce(state, size, *time, to, room),
                Call::Expire { time } => sys::threshtide_expire(state, size, *time),
                Call::NextDeadline { .. } => sys::threshtide_next_deadline(state, size, to, room),
                Call::NextEvent { .. } => sys::threshtide_next_event(state, size, to, room),
                Call::Connections { .. } => sys::threshtide_connections(state, size, to, room),
                Call::Stats { .. } => sys::threshtide_stats(state, size, to, room),
                Call::Message { session, local, mask, message, .. } => {
                    let upload = &mut self.uploads[*session];
                    sys::threshtide_message(
                        state,
                        size,
                        upload.as_mut_ptr(),
                        upload.len(),
                        *local,
                        *mask,
                        message.as_ptr(),
                        message.len(),
                        to,
                        room,
                    )
                }
                Call::Path { path, .. } => sys::threshtide_path(path.as_ptr(), path.len(), to, room),
                Call::Request { message, .. } => sys::threshtide_request(message.as_ptr(), message.len(), to, room),
                Call::NewSession { session } => {
                    self.uploads[*session].fill(0);
                    0
                }
                Call::PlantSent { row, sequence, cip } => {
                    layout::plant_sent(&mut self.state, *row, *sequence, *cip);
                    0
                }
            }
        }
    }

    /// The state, or a kept byte of it, that a refusal changed.
    fn watch(&mut self, call: &Call, answer: u64) {
        if answer as u8 != 0 && self.state != self.before {
            let at = self.state.iter().zip(&self.before).position(|(a, b)| a != b);
            self.fault = Some(format!("{} was refused and changed the state at byte {at:?}", call.name()));
        }
    }
}

impl Side for Library {
    fn name(&self) -> &'static str {
        "threshtide"
    }

    fn call(&mut self, call: &Call, out: &mut [u8]) -> u64 {
        self.calls += 1;
        let watched = self.calls.is_multiple_of(WATCHED);
        if watched {
            self.before.clone_from(&self.state);
        }
        let answer = self.ask(call, out);
        if watched {
            self.watch(call, answer);
        }
        if matches!(call, Call::Setup { .. }) && answer == 0 {
            // sessions of the state before are over
            self.uploads.iter_mut().for_each(|u| u.fill(0));
        }
        answer
    }

    fn see(&mut self, seen: &mut Seen) {
        seen.conns.clear();
        seen.assemblies.clear();
        seen.data.clear();
        seen.records.clear();
        let mut out = [0; MAX_CONNECTIONS * RECORD];
        let answer = self.ask(&Call::Connections { room: 0 }, &mut out);
        if answer as u8 != 0 {
            return; // not set up
        }
        let (records, _) = out[..(answer >> 8) as usize].as_chunks();
        seen.records.extend_from_slice(records);
        layout::see(&self.state, seen);
        // what a call tells is taken from the call
        let mut bytes = [0; 24];
        self.ask(&Call::Stats { room: 0 }, &mut bytes);
        let number = |at: usize| u64::from_le_bytes(std::array::from_fn(|i| bytes[at + i]));
        (seen.produced, seen.late, seen.max_late) = (number(0), number(8), number(16));
        let mut bytes = [0; 8];
        let answer = self.ask(&Call::NextDeadline { room: 0 }, &mut bytes);
        seen.deadline = (answer as u8 == 0).then(|| u64::from_le_bytes(bytes));
        let mut at = 0;
        for place in 0..seen.assemblies.len() {
            let a = seen.assemblies[place];
            let call = Call::Assembly { kind: a.kind, instance: a.instance, room: 0 };
            self.ask(&call, &mut seen.data[at..at + a.size]);
            at += a.size;
        }
        let mut reply = [0; MAX_REPLY];
        let mut upload = vec![0; self.uploads[0].len()];
        // SAFETY: as in `ask`.
        unsafe {
            sys::threshtide_message(
                self.state.as_ptr(),
                self.state.len(),
                upload.as_mut_ptr(),
                upload.len(),
                0,
                0,
                ASK_STATUS.as_ptr(),
                ASK_STATUS.len(),
                reply.as_mut_ptr(),
                reply.len(),
            );
        }
        seen.status = u16::from_le_bytes([reply[4], reply[5]]);
        for (place, bytes) in seen.uploads.iter_mut().zip(&self.uploads) {
            *place = layout::upload(bytes);
        }
    }

    fn events(&self, from: usize, into: &mut Vec<[u8; RECORD]>) {
        into.clear();
        layout::events(&self.state, from, into);
    }

    fn fault(&mut self) -> Option<String> {
        self.fault.take()
    }
}
