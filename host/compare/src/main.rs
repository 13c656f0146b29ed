//! The command `compare`.

use compare::{Runner, Side, Tally, ciplink, grouped, record, say, show_run, shrink};
use std::process::ExitCode;
use std::time::{Duration, Instant};

const USAGE: &str = "\
usage: compare [--seed N] [--seconds N | --calls N] [--run N] [--against SIDE] [--shrink SECONDS] [--tally]
       compare --record FILE [--seed N] [--calls N] [--size BYTES]

Drives ciplink and the library with the same calls and compares every answer and every field of the state after each.

  --seed N          the runs of another seed (default 1)
  --seconds N       for so long (default 10)
  --calls N         for so many calls
  --run N           only the run of that number, as a difference names it
  --against SIDE    library     Threshtide's static library (default, if built in)
                    original    ciplink a second time: nothing may be found
                    documented  ciplink with D1 in its text as the rules have it: nothing may be found
  --shrink SECONDS  for how long to shorten a run that shows a difference (default 20)
  --tally           print how often each call and answer came
  --record FILE     compare nothing: write calls and what ciplink answers to them, for crates/run_replay
                    (runs of at most --calls calls, default 150, until the file has --size bytes, default 250,000)
";

struct Options {
    seed: u64,
    seconds: u64,
    calls: Option<u64>,
    run: Option<u64>,
    against: String,
    shrink: u64,
    tally: bool,
    record: Option<String>,
    size: u64,
}

fn number(name: &str, value: Option<String>) -> Result<u64, String> {
    let value = value.ok_or_else(|| format!("{name} wants a number"))?;
    let plain = value.replace([',', '_'], "");
    plain.parse().map_err(|_| format!("{name} wants a number, not {value:?}"))
}

fn options(mut args: impl Iterator<Item = String>) -> Result<Options, String> {
    let mut o = Options {
        seed: 1,
        seconds: 10,
        calls: None,
        run: None,
        against: if cfg!(feature = "library") { "library" } else { "original" }.into(),
        shrink: 20,
        tally: false,
        record: None,
        size: 250_000,
    };
    while let Some(arg) = args.next() {
        match arg.as_str() {
            "--seed" => o.seed = number("--seed", args.next())?,
            "--seconds" => o.seconds = number("--seconds", args.next())?,
            "--calls" => o.calls = Some(number("--calls", args.next())?),
            "--run" => o.run = Some(number("--run", args.next())?),
            "--shrink" => o.shrink = number("--shrink", args.next())?,
            "--against" => o.against = args.next().ok_or("--against wants a side")?,
            "--tally" => o.tally = true,
            "--record" => o.record = Some(args.next().ok_or("--record wants a file")?),
            "--size" => o.size = number("--size", args.next())?,
            other => return Err(format!("{other:?} is no option")),
        }
    }
    Ok(o)
}

fn side(name: &str) -> Result<fn() -> Box<dyn Side>, String> {
    match name {
        "original" => Ok(|| Box::new(ciplink::again::Original::default())),
        "documented" => Ok(|| Box::new(ciplink::documented::Original::default())),
        #[cfg(feature = "library")]
        "library" => Ok(|| Box::new(compare::Library::default())),
        #[cfg(not(feature = "library"))]
        "library" => Err("the library is not built in (feature \"library\")".into()),
        other => Err(format!("--against {other:?} is no side")),
    }
}

fn print_tally(tally: &Tally) {
    say!("calls and answers:");
    for ((call, answer), n) in &tally.calls {
        say!("  {:>12}  {call}: {answer}", grouped(*n));
    }
    say!("situations:");
    for (what, n) in &tally.happened {
        say!("  {:>12}  {what}", grouped(*n));
    }
}

fn write_sample(path: &str, sample: &[u8]) -> ExitCode {
    match std::fs::write(path, sample) {
        Ok(()) => {
            say!("compare: {path} has {} bytes", grouped(sample.len() as u64));
            ExitCode::SUCCESS
        }
        Err(e) => {
            eprintln!("compare: {path}: {e}");
            ExitCode::FAILURE
        }
    }
}

fn main() -> ExitCode {
    let args: Vec<String> = std::env::args().skip(1).collect();
    if args.iter().any(|a| a == "--help" || a == "-h") {
        say!("{USAGE}");
        return ExitCode::SUCCESS;
    }
    let picked = options(args.into_iter()).and_then(|o| side(&o.against).map(|s| (o, s)));
    let (o, second) = match picked {
        Ok(picked) => picked,
        Err(e) => {
            eprintln!("compare: {e}\n{USAGE}");
            return ExitCode::from(2);
        }
    };
    let first = || -> Box<dyn Side> { Box::new(ciplink::reference::Original::default()) };
    if let Some(path) = &o.record {
        return write_sample(path, &record(&first, o.seed, o.calls.unwrap_or(150) as usize, o.size as usize));
    }
    let mut runner = Runner::new(&first, &second, o.seed);
    runner.tally = o.tally.then(Tally::default);
    say!("compare: ciplink against {}, seed {}", o.against, o.seed);
    let start = Instant::now();
    let end = start + Duration::from_secs(o.seconds);
    let mut told = start;
    let mut number = o.run.unwrap_or(0);
    let found = loop {
        let (calls_end, single) = (o.calls, o.run.is_some());
        let (runs, so_far) = (runner.runs, start);
        let mut go_on = |calls: u64| {
            if calls.is_multiple_of(4096) && told.elapsed() > Duration::from_secs(2) {
                told = Instant::now();
                let spent = so_far.elapsed().as_secs_f64();
                say!(
                    "  {spent:6.1} s  {:>13} calls  {:>8} runs  {:>9} calls a second",
                    grouped(calls),
                    grouped(runs),
                    grouped((calls as f64 / spent) as u64)
                );
            }
            single || calls_end.is_none_or(|n| calls < n)
        };
        if let Err(found) = runner.run(number, &mut go_on) {
            break Some(found);
        }
        let done = match o.calls {
            Some(n) => runner.calls >= n,
            None => Instant::now() >= end,
        };
        if done || o.run.is_some() {
            break None;
        }
        number += 1;
    };
    let spent = start.elapsed().as_secs_f64();
    if let Some(tally) = &runner.tally {
        print_tally(tally);
    }
    say!(
        "compare: {} calls in {} runs, {:.1} s, {} calls a second",
        grouped(runner.calls),
        grouped(runner.runs),
        spent,
        grouped((runner.calls as f64 / spent) as u64)
    );
    let Some(found) = found else {
        say!("compare: no difference");
        return ExitCode::SUCCESS;
    };
    say!(
        "compare: DIFFERENCE in run {number} ({}), after its call {} (again: --seed {} --run {number})",
        found.run.profile,
        found.difference.at + 1,
        o.seed
    );
    say!("{}", found.difference.what);
    say!("shortening ..");
    let (calls, difference) =
        shrink(&first, &second, &found.run.calls, &found.difference, Duration::from_secs(o.shrink));
    say!("the shortest run found has {} calls:", calls.len());
    say!("{}", show_run(&first, &calls, &difference));
    ExitCode::FAILURE
}
