//! Lent state of any bytes: every call ends with one of its own numbers, and where it refuses, nothing changes.

#[path = "../src/places.rs"]
#[allow(dead_code)]
#[rustfmt::skip]
mod places;

use places::{EVENTS, RECORD};
use threshtide::{Adapter, Assembly, BLOCK_SIZE, Setup, sys};

/// SplitMix64.
struct Rng(u64);

impl Rng {
    fn next(&mut self) -> u64 {
        self.0 = self.0.wrapping_add(0x9E37_79B9_7F4A_7C15);
        let z = (self.0 ^ (self.0 >> 30)).wrapping_mul(0xBF58_476D_1CE4_E5B9);
        let z = (z ^ (z >> 27)).wrapping_mul(0x94D0_49BB_1331_11EB);
        z ^ (z >> 31)
    }

    fn below(&mut self, n: usize) -> usize {
        (self.next() % n as u64) as usize
    }

    fn bytes(&mut self, n: usize) -> Vec<u8> {
        (0..n).map(|_| self.next() as u8).collect()
    }
}

/// A state with connections, data and events.
fn used_state(serials: u8) -> Vec<u8> {
    let assemblies = vec![Assembly::input(100, 4), Assembly::output(150, 2), Assembly::configuration(199, 2)];
    let setup = Setup { assemblies, eds: Some(vec![7; 900]), ..Setup::default() };
    let mut state = Adapter::new(&setup, 1).expect("within the sizes").as_bytes().to_vec();
    for serial in 0..serials {
        let request = open(serial);
        let mut out = [0; 26];
        // SAFETY: each pointer goes with the length of its slice.
        unsafe {
            let (s, n, r, m) = (state.as_mut_ptr(), state.len(), request.as_ptr(), request.len());
            sys::threshtide_open(s, n, 0, 0x54, r, m, 1, 2, 3, false, 0, 0, 2222, out.as_mut_ptr(), 26);
        }
    }
    state
}

fn open(serial: u8) -> Vec<u8> {
    let (point, size) = if serial == 0 { (150, 8) } else { (238, 2) };
    let net = if serial.is_multiple_of(2) { 0x40 } else { 0x20 };
    let mut out = vec![0x0A, 0x0E, 0, 0, 0, 0, 0x11, 0x22, 0x33, 0x44, serial, 0, 2, 0, 3, 0, 0, 0, 0, 0, 0, 0];
    out.extend([0x10, 0x27, 0, 0, size, 0x40, 0x10, 0x27, 0, 0, 6, net, 0x01, 3, 0x20, 4, 0x2C, point, 0x2C, 100]);
    out
}

const CALLS: usize = 14;
/// The numbers that each call may answer with, its low byte.
const NUMBERS: [&[u8]; CALLS] = [
    &[0, 1, 6, 7],
    &[0, 1, 6, 8],
    &[0, 1, 6, 8],
    &[0, 1, 3, 4, 5, 8],
    &[0, 1, 4, 8, 9],
    &[0, 1, 3],
    &[0, 1, 3, 8],
    &[0, 1, 3],
    &[0, 1, 8, 9],
    &[0, 1, 8, 9],
    &[0, 1, 8],
    &[0, 1, 8],
    &[0, 1, 8],
    &[0, 1, 2],
];

/// Makes a call of arguments that are good or anything.
fn call(which: usize, state: &mut [u8], upload: &mut [u8], out: &mut [u8], rng: &mut Rng) -> u64 {
    let (s, n, o, m) = (state.as_mut_ptr(), state.len(), out.as_mut_ptr(), out.len());
    let good = rng.below(2) == 0;
    let time = if good { rng.below(100_000) as u64 } else { rng.next() };
    let instance = if good { [100, 150, 199][rng.below(3)] } else { rng.next() as u32 };
    let size = rng.below(80);
    let bytes = if good { open(rng.below(40) as u8) } else { rng.bytes(size) };
    let (b, k) = (bytes.as_ptr(), bytes.len());
    // SAFETY: each pointer goes with the length of its slice, and what is written to is lent to nobody else.
    unsafe {
        match which {
            0 => sys::threshtide_set_input(s, n, instance, b, k.min(6)),
            1 => sys::threshtide_output(s, n, instance, o, m),
            2 => sys::threshtide_assembly(s, n, 1 + (rng.next() % 3) as u8, instance, o, m),
            3 => sys::threshtide_open(s, n, time, 0x54, b, k, 1, 2, 3, good, 0, 5, 2222, o, m),
            4 => sys::threshtide_close(s, n, b, k, o, m),
            5 => {
                let mut frame = vec![2, 0, 0x02, 0x80, 8, 0, 1, 0, 0, 0, size as u8, 0, 0, 0, 0xB1, 0, 8, 0];
                frame.extend(rng.bytes(8));
                let frame = if good { frame } else { bytes.clone() };
                sys::threshtide_receive(s, n, time, 1, frame.as_ptr(), frame.len())
            }
            6 => sys::threshtide_produce(s, n, time, o, m),
            7 => sys::threshtide_expire(s, n, time),
            8 => sys::threshtide_next_deadline(s, n, o, m),
            9 => sys::threshtide_next_event(s, n, o, m),
            10 => sys::threshtide_connections(s, n, o, m),
            11 => sys::threshtide_stats(s, n, o, m),
            12 => {
                let path = [0x4F, 2, 0x20, 0x37, 0x24, 0xC8, size as u8];
                let message = if good { &path[..] } else { &bytes };
                sys::threshtide_message(
                    s,
                    n,
                    upload.as_mut_ptr(),
                    upload.len(),
                    1,
                    2,
                    message.as_ptr(),
                    message.len(),
                    o,
                    m,
                )
            }
            _ => {
                let block = rng.bytes(BLOCK_SIZE);
                sys::threshtide_setup(s, n, block.as_ptr(), block.len(), b, k, 1)
            }
        }
    }
}

#[test]
fn every_call_answers_for_any_state() {
    let mut rng = Rng(1);
    let starts = [used_state(0), used_state(5), used_state(32)];
    let (mut refused, mut taken) = (0, 0);
    for _ in 0..3_000 {
        let mut state = starts[rng.below(3)].clone();
        for _ in 0..rng.below(6) {
            // setup, head, marks, table and the first events
            let at = rng.below(EVENTS + 4 * RECORD);
            state[at] = if rng.below(2) == 0 { rng.next() as u8 } else { 0xFF };
        }
        // SAFETY: takes nothing.
        let mut upload = vec![0; unsafe { sys::threshtide_upload_size() } as usize];
        if rng.below(3) == 0 {
            upload = rng.bytes(upload.len());
        }
        for _ in 0..6 {
            let which = rng.below(CALLS);
            let room = [0, 8, 31, 32, 600, 20_000][rng.below(6)];
            let mut out = vec![0xA5; room];
            let (state_before, upload_before) = (state.clone(), upload.clone());
            let answer = call(which, &mut state, &mut upload, &mut out, &mut rng);
            assert!(NUMBERS[which].contains(&(answer as u8)), "call {which} answered {answer:#X}");
            if answer as u8 == 0 {
                taken += 1;
            } else {
                refused += 1;
                assert!(
                    state == state_before && upload == upload_before,
                    "call {which} was refused ({answer:#X}) and changed"
                );
                assert!(out.iter().all(|b| *b == 0xA5), "call {which} was refused ({answer:#X}) and wrote");
            }
        }
    }
    println!("{taken} calls were taken, {refused} refused");
    assert!(taken > 1_000 && refused > 1_000);
}
