//! The runner itself: it finds nothing where nothing is, finds what is there, shortens it, and says what it was given.

use compare::{Call, RECORD, Runner, Seen, Side, ciplink, show_run, shrink};
use std::process::Command;
use std::time::Duration;

fn reference() -> Box<dyn Side> {
    Box::new(ciplink::reference::Original::default())
}

fn again() -> Box<dyn Side> {
    Box::new(ciplink::again::Original::default())
}

fn documented() -> Box<dyn Side> {
    Box::new(ciplink::documented::Original::default())
}

/// ciplink, but for a close right after a packet was produced late: its answer is another.
struct Odd {
    inner: ciplink::again::Original,
    late: bool,
}

impl Side for Odd {
    fn name(&self) -> &'static str {
        "odd"
    }

    fn call(&mut self, call: &Call, out: &mut [u8]) -> u64 {
        let mut seen = Seen::default();
        self.inner.see(&mut seen);
        let before = seen.late;
        let answer = self.inner.call(call, out);
        if let (Call::Close { .. }, true, 0) = (call, self.late, answer & 0xFF) {
            return answer + 256;
        }
        self.inner.see(&mut seen);
        self.late |= seen.late > before;
        answer
    }

    fn see(&mut self, seen: &mut Seen) {
        self.inner.see(seen);
    }

    fn events(&self, from: usize, into: &mut Vec<[u8; RECORD]>) {
        self.inner.events(from, into);
    }
}

fn odd() -> Box<dyn Side> {
    Box::new(Odd { inner: Default::default(), late: false })
}

fn runs(second: fn() -> Box<dyn Side>, seed: u64, calls: u64) -> Result<u64, compare::Found> {
    let mut runner = Runner::new(&reference, &second, seed);
    let mut number = 0;
    while runner.calls < calls {
        runner.run(number, &mut |_| true)?;
        number += 1;
    }
    Ok(runner.calls)
}

#[test]
fn nothing_is_found_between_ciplink_and_itself() {
    for seed in 1..4 {
        if let Err(found) = runs(again, seed, 60_000) {
            panic!("{}", show_run(&reference, &found.run.calls, &found.difference));
        }
    }
}

#[test]
fn the_way_with_d1_is_exact() {
    for seed in 4..8 {
        if let Err(found) = runs(documented, seed, 60_000) {
            panic!("{}", show_run(&reference, &found.run.calls, &found.difference));
        }
    }
}

#[test]
fn a_difference_is_found_shortened_and_shown() {
    let found = runs(odd, 1, 400_000).expect_err("the odd close");
    let (calls, difference) = shrink(&reference, &odd, &found.run.calls, &found.difference, Duration::from_secs(30));
    let names: Vec<&str> = calls.iter().map(Call::name).collect();
    assert_eq!(names, ["setup", "open", "produce", "close"]);
    let text = show_run(&reference, &calls, &difference);
    assert!(text.contains("  4. close of triad"), "{text}");
    assert!(text.contains("answer: ciplink yes, 10, odd yes, 11"), "{text}");
}

#[test]
fn a_run_is_the_same_again() {
    for run in [0, 7, 100] {
        let calls = |n: u64| {
            let mut generator = compare::Generator::new(5, run);
            let mut side = reference();
            let mut seen = Seen::default();
            let mut all = vec![generator.first()];
            for _ in 0..n {
                let last = all.last().expect("one at least");
                side.call(last, &mut vec![0; last.room()]);
                side.see(&mut seen);
                all.push(generator.next(&seen));
            }
            all
        };
        assert_eq!(calls(200), calls(200));
    }
}

#[test]
fn wrong_arguments_get_the_usage() {
    for args in [&["--sed", "1"][..], &["--seed"], &["--seed", "one"], &["--against", "nobody"], &["--calls"]] {
        let out = Command::new(env!("CARGO_BIN_EXE_compare")).args(args).output().expect("it runs");
        assert_eq!(out.status.code(), Some(2), "{args:?}");
        let text = String::from_utf8_lossy(&out.stderr);
        assert!(text.starts_with("compare: ") && text.contains("usage: compare"), "{args:?}: {text}");
    }
}

#[test]
fn the_command_says_what_it_did() {
    let out = Command::new(env!("CARGO_BIN_EXE_compare"))
        .args(["--calls", "20000", "--against", "original"])
        .output()
        .expect("it runs");
    let text = String::from_utf8_lossy(&out.stdout);
    assert!(out.status.success() && text.contains("20,000 calls") && text.ends_with("no difference\n"), "{text}");
}
