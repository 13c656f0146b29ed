//! The command `plants`: every planted wrong reading of the rules must be noticed.

mod list;

/// Copies of ciplink, each with one wrong reading.
#[allow(clippy::all, unused_parens, unreachable_patterns, unreachable_code)]
mod copies {
    include!(concat!(env!("OUT_DIR"), "/copies.rs"));
}

use compare::{Runner, Side, ciplink, grouped, say, show_run, shrink};
use list::Plant;
use std::process::ExitCode;
use std::time::{Duration, Instant};

const USAGE: &str = "\
usage: plants [NAME ..] [--calls N] [--seed N] [--against SIDE] [--shrink SECONDS] [--show] [--list]

Compares ciplink with a wrong reading planted in it, one after the other, against a side without; fails if one is not
noticed.

  NAME ..           only those (default: all of plants/list.txt)
  --calls N         give up on one after so many calls (default 4,000,000)
  --seed N          the runs of another seed (default 1)
  --against SIDE    library (default, if built in) or original
  --shrink SECONDS  shorten each run that notices for so long, and say how many calls it then has (default 0: do not)
  --show            print each shortened run
  --list            print the list and end
";

struct Options {
    names: Vec<String>,
    calls: u64,
    seed: u64,
    against: String,
    shrink: u64,
    show: bool,
    list: bool,
}

fn number(name: &str, value: Option<String>) -> Result<u64, String> {
    let value = value.ok_or_else(|| format!("{name} wants a number"))?;
    let plain = value.replace([',', '_'], "");
    plain.parse().map_err(|_| format!("{name} wants a number, not {value:?}"))
}

fn options(mut args: impl Iterator<Item = String>) -> Result<Options, String> {
    let mut o = Options {
        names: Vec::new(),
        calls: 4_000_000,
        seed: 1,
        against: if cfg!(feature = "library") { "library" } else { "original" }.into(),
        shrink: 0,
        show: false,
        list: false,
    };
    while let Some(arg) = args.next() {
        match arg.as_str() {
            "--calls" => o.calls = number("--calls", args.next())?,
            "--seed" => o.seed = number("--seed", args.next())?,
            "--shrink" => o.shrink = number("--shrink", args.next())?,
            "--against" => o.against = args.next().ok_or("--against wants a side")?,
            "--show" => o.show = true,
            "--list" => o.list = true,
            other if other.starts_with('-') => return Err(format!("{other:?} is no option")),
            name if copies::side(name).is_none() => {
                return Err(format!("{name:?} is no planted reading; --list names them"));
            }
            name => o.names.push(name.into()),
        }
    }
    if o.show && o.shrink == 0 {
        o.shrink = 10;
    }
    Ok(o)
}

fn other_side(name: &str) -> Result<fn() -> Box<dyn Side>, String> {
    match name {
        "original" => Ok(|| Box::new(ciplink::again::Original::default())),
        #[cfg(feature = "library")]
        "library" => Ok(|| Box::new(compare::Library::default())),
        #[cfg(not(feature = "library"))]
        "library" => Err("the library is not built in (feature \"library\")".into()),
        other => Err(format!("--against {other:?} is no side")),
    }
}

/// Whether a planted reading was noticed; says so.
fn try_one(plant: &Plant, second: fn() -> Box<dyn Side>, o: &Options) -> bool {
    let Some(first) = copies::side(&plant.name) else {
        return false;
    };
    let mut runner = Runner::new(&first, &second, o.seed);
    let mut number = 0;
    while runner.calls < o.calls {
        if let Err(found) = runner.run(number, &mut |_| true) {
            let mut shorter = String::new();
            if o.shrink > 0 {
                let most = Duration::from_secs(o.shrink);
                let (calls, difference) = shrink(&first, &second, &found.run.calls, &found.difference, most);
                shorter = format!(", {} calls when shortened", calls.len());
                if o.show {
                    say!("{}", show_run(&first, &calls, &difference));
                }
            }
            say!(
                "noticed {:28} after {:>9} calls ({}){shorter}: {}",
                plant.name,
                grouped(runner.calls),
                found.run.profile,
                plant.says
            );
            return true;
        }
        number += 1;
    }
    say!("NOT NOTICED {} in {} calls: {}", plant.name, grouped(runner.calls), plant.says);
    false
}

fn main() -> ExitCode {
    let args: Vec<String> = std::env::args().skip(1).collect();
    if args.iter().any(|a| a == "--help" || a == "-h") {
        say!("{USAGE}");
        return ExitCode::SUCCESS;
    }
    let picked = options(args.into_iter()).and_then(|o| other_side(&o.against).map(|s| (o, s)));
    let (o, second) = match picked {
        Ok(picked) => picked,
        Err(e) => {
            eprintln!("plants: {e}\n{USAGE}");
            return ExitCode::from(2);
        }
    };
    let plants = list::read(include_str!("../list.txt")).expect("read when this was built");
    if o.list {
        for p in &plants {
            say!("{}: {} ({}: {:?} -> {:?})", p.name, p.says, p.file, p.old, p.new);
        }
        return ExitCode::SUCCESS;
    }
    // a planted reading may make ciplink panic, which counts as noticed
    std::panic::set_hook(Box::new(|_| {}));
    let start = Instant::now();
    let picked: Vec<&Plant> = plants.iter().filter(|p| o.names.is_empty() || o.names.contains(&p.name)).collect();
    let noticed = picked.iter().filter(|p| try_one(p, second, &o)).count();
    say!(
        "plants: {noticed} of {} wrong readings noticed against {}, {:.1} s",
        picked.len(),
        o.against,
        start.elapsed().as_secs_f64()
    );
    if noticed == picked.len() { ExitCode::SUCCESS } else { ExitCode::FAILURE }
}
