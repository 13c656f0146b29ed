//! The command `hammer`: random calls on random states, for valgrind to watch. Every lent buffer is an allocation of its own, so that a
//! byte read or written past its end is seen.

use compare::places::EVENTS;
use compare::{Call, Generator, Library, RECORD, Seen, Side, grouped, plant_tested, say};
use std::collections::BTreeMap;
use std::process::ExitCode;

const USAGE: &str = "\
usage: hammer [--seed N] [--calls N]

Makes random calls of the library on states of random bytes, on states of random bytes that pass the state test, and on states
that a few bytes of were changed; says how each was answered. An answer that the interface has no number for, or a state that
passes its test before a call and not after it, is a failure.

  --seed N   other calls (default 1)
  --calls N  so many (default 20,000)
";

/// How a state is made.
#[derive(Clone, Copy, PartialEq, Eq, PartialOrd, Ord, Debug)]
enum Made {
    /// Random bytes, of the right size or not.
    Random,
    /// Random bytes with the few fields that the state test reads made good.
    Passing,
    /// Set up and used, then some bytes changed.
    Damaged,
}

struct Numbers(u64);

impl Numbers {
    fn next(&mut self) -> u64 {
        self.0 ^= self.0 << 13;
        self.0 ^= self.0 >> 7;
        self.0 ^= self.0 << 17;
        self.0
    }

    fn below(&mut self, n: u64) -> u64 {
        self.next() % n
    }
}

fn random_state(n: &mut Numbers, size: usize) -> Vec<u8> {
    let mut state: Vec<u8> = (0..size).map(|_| n.next() as u8).collect();
    if n.below(3) == 0 {
        state.fill(n.next() as u8);
    }
    state
}

fn passes(library: &mut Library) -> bool {
    let mut out = vec![0; 24];
    library.call(&Call::Stats { room: 24 }, &mut out) as u8 != 1
}

#[derive(Default)]
struct Tally(BTreeMap<(Made, &'static str, u64), u64>);

/// One state and the calls on it.
fn run(n: &mut Numbers, number: u64, calls: u64, tally: &mut Tally) -> Result<u64, String> {
    let made = [Made::Random, Made::Passing, Made::Passing, Made::Damaged][n.below(4) as usize];
    let mut library = Library::default();
    let mut generator = Generator::new(n.next(), number);
    let size = library.state().len();
    let first = generator.first();
    match made {
        Made::Random => {
            let size = [size, size, size - 1, size + 1, 0][n.below(5) as usize];
            library.set_state(random_state(n, size));
        }
        Made::Passing => {
            let mut state = random_state(n, size);
            plant_tested(&mut state, |bound| n.below(bound as u64) as usize);
            library.set_state(state);
        }
        Made::Damaged => {
            library.call(&first, &mut []);
        }
    }
    let mut seen = Seen::default();
    for done in 0..calls {
        library.see(&mut seen);
        let call = generator.next(&seen);
        if made == Made::Damaged && n.below(8) == 0 {
            let mut state = library.state().to_vec();
            // what is tested stands before the events; some of those are changed as well
            let at = n.below((EVENTS + 14 * RECORD) as u64) as usize;
            state[at] ^= 1 << n.below(8);
            library.set_state(state);
        }
        let before = passes(&mut library);
        let mut out = vec![0xA5; call.room()];
        let answer = library.call(&call, &mut out);
        let no = answer & 0xFF;
        *tally.0.entry((made, call.name(), no)).or_default() += 1;
        if no > 9 {
            return Err(format!(
                "{call:?} on a state made {made:?} was answered {answer:#x}, a number for no that is not there"
            ));
        }
        if before && !passes(&mut library) {
            return Err(format!("{call:?} on a state made {made:?} left one that fails its test"));
        }
        if done % 64 == 63 && n.below(2) == 0 {
            return Ok(done + 1);
        }
    }
    Ok(calls)
}

fn options() -> Result<(u64, u64), String> {
    let (mut seed, mut calls) = (1, 20_000);
    let mut args = std::env::args().skip(1);
    while let Some(arg) = args.next() {
        let place = match arg.as_str() {
            "--seed" => &mut seed,
            "--calls" => &mut calls,
            other => return Err(format!("{other:?} is no option")),
        };
        let value = args.next().ok_or(format!("{arg} wants a number"))?;
        *place = value.replace([',', '_'], "").parse().map_err(|_| format!("{arg} wants a number, not {value:?}"))?;
    }
    Ok((seed, calls))
}

fn main() -> ExitCode {
    let (seed, calls) = match options() {
        Ok(picked) => picked,
        Err(e) if e.contains("help") => {
            say!("{USAGE}");
            return ExitCode::SUCCESS;
        }
        Err(e) => {
            eprintln!("hammer: {e}\n{USAGE}");
            return ExitCode::from(2);
        }
    };
    let mut n = Numbers(seed.wrapping_mul(0x9E37_79B9_7F4A_7C15) | 1);
    let (mut done, mut states, mut tally) = (0, 0, Tally::default());
    while done < calls {
        match run(&mut n, states, (calls - done).min(400), &mut tally) {
            Ok(made) => done += made,
            Err(what) => {
                say!("hammer: {what} (again: --seed {seed} --calls {calls})");
                return ExitCode::FAILURE;
            }
        }
        states += 1;
    }
    for ((made, call, no), count) in &tally.0 {
        say!("  {:>9}  {made:?} {call}: {no}", grouped(*count));
    }
    say!("hammer: {} calls on {} states, every one answered", grouped(done), grouped(states));
    ExitCode::SUCCESS
}
