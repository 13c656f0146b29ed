//! The command `bench`: the library and ciplink timed in one run, on the same inputs, by medians of paired ratios.

mod cases;
mod measure;
mod pair;
mod record;
mod tables;

/// ciplink as it is: compiled from its own text.
mod ciplink {
    include!(concat!(env!("OUT_DIR"), "/copies.rs"));
}

use cases::CASES;
use compare::say;
use measure::How;
use record::Record;
use std::process::ExitCode;
use std::time::Duration;

const USAGE: &str = "\
usage: bench [--rounds N] [--batch MICROSECONDS] [--case TEXT] [--record FILE] [--against FILE [--percent N]]
       bench --read FILE [--page FILE] [--against FILE [--percent N]]

Times each hot call of the library and of ciplink in turn and prints the tables of docs/SPEED.md.

  --rounds N            pairs of batches for each figure (default 1,001)
  --batch MICROSECONDS  how long a batch is, about (default 100)
  --case TEXT           only calls whose name has that text
  --record FILE         write what was measured there
  --read FILE           measure nothing: take what was recorded there
  --page FILE           put the tables into that page, between its two marks
  --against FILE        print what changed since what was recorded there, as ratios to ciplink
  --percent N           how much slower counts as slower (default 10)

Status: 0; 1 with --against where a figure is slower by more than N percent; 2 wrong usage, or a file that cannot be read or written.
";

#[derive(Default)]
struct Options {
    rounds: Option<u64>,
    batch: Option<u64>,
    case: Option<String>,
    record: Option<String>,
    read: Option<String>,
    page: Option<String>,
    against: Option<String>,
    percent: Option<u64>,
}

fn number(name: &str, value: String) -> Result<u64, String> {
    let plain = value.replace([',', '_'], "");
    plain.parse().ok().filter(|n| *n > 0).ok_or_else(|| format!("{name} wants a number above 0, not {value:?}"))
}

fn options(mut args: impl Iterator<Item = String>) -> Result<Options, String> {
    let mut o = Options::default();
    while let Some(arg) = args.next() {
        let name = arg.as_str();
        if !USAGE.contains(&format!("\n  {name} ")) || !name.starts_with("--") {
            return Err(format!("{name:?} is no option"));
        }
        let value = args.next().ok_or_else(|| format!("{name} wants a value"))?;
        match name {
            "--rounds" => o.rounds = Some(number(name, value)?),
            "--batch" => o.batch = Some(number(name, value)?),
            "--percent" => o.percent = Some(number(name, value)?),
            "--case" => o.case = Some(value),
            "--record" => o.record = Some(value),
            "--read" => o.read = Some(value),
            "--page" => o.page = Some(value),
            _ => o.against = Some(value),
        }
    }
    let measures = o.rounds.is_some() || o.batch.is_some() || o.case.is_some() || o.record.is_some();
    if o.read.is_some() && measures {
        return Err("--read measures nothing: it goes with --page and --against alone".into());
    }
    if o.page.is_some() && o.read.is_none() {
        return Err("--page goes with --read: the page's tables are drawn from a recorded table".into());
    }
    if o.percent.is_some() && o.against.is_none() {
        return Err("--percent goes with --against".into());
    }
    if let Some(case) = o.case.as_ref().filter(|text| !CASES.iter().any(|c| c.name.contains(*text))) {
        let names: Vec<&str> = CASES.iter().map(|c| c.name).collect();
        return Err(format!("no call's name has {case:?}; there are: {}", names.join("; ")));
    }
    Ok(o)
}

fn read(file: &str) -> Result<Record, String> {
    let text = std::fs::read_to_string(file).map_err(|e| format!("cannot read {file}: {e}"))?;
    Record::read(&text).map_err(|e| format!("{file}: {e}"))
}

fn write(file: &str, text: &str) -> Result<(), String> {
    std::fs::write(file, text).map_err(|e| format!("cannot write {file}: {e}"))
}

fn measured(o: &Options) -> Record {
    if cfg!(debug_assertions) {
        eprintln!("bench: built without optimisation: the figures say nothing (use --release)");
    }
    measure::all(&How {
        rounds: o.rounds.unwrap_or(1_001) as usize,
        batch: Duration::from_micros(o.batch.unwrap_or(100)),
        case: o.case.clone().unwrap_or_default(),
    })
}

/// How many figures are slower.
fn run(o: &Options) -> Result<usize, String> {
    // before anything is measured: a file that is not there is said at once
    let then = o.against.as_deref().map(read).transpose()?;
    let now = match &o.read {
        Some(file) => read(file)?,
        None => measured(o),
    };
    if let Some(file) = &o.record {
        write(file, &now.to_string())?;
    }
    if let Some(file) = &o.page {
        let page = std::fs::read_to_string(file).map_err(|e| format!("cannot read {file}: {e}"))?;
        write(file, &tables::into_page(&page, &now).map_err(|e| format!("{file} {e}"))?)?;
    }
    let Some(then) = then else {
        say!("{}", tables::tables(&now).trim_end());
        return Ok(0);
    };
    let found = tables::changes(&now, &then, o.percent.unwrap_or(10) as f64)?;
    say!("{}", found.text);
    Ok(found.slower)
}

fn main() -> ExitCode {
    let args: Vec<String> = std::env::args().skip(1).collect();
    if args.iter().any(|a| a == "--help" || a == "-h") {
        say!("{USAGE}");
        return ExitCode::SUCCESS;
    }
    let o = match options(args.into_iter()) {
        Ok(o) => o,
        Err(e) => {
            eprintln!("bench: {e}\n{USAGE}");
            return ExitCode::from(2);
        }
    };
    match run(&o) {
        Ok(0) => ExitCode::SUCCESS,
        Ok(_) => ExitCode::FAILURE,
        Err(e) => {
            eprintln!("bench: {e}");
            ExitCode::from(2)
        }
    }
}

#[cfg(test)]
mod tests {
    use super::*;

    fn said(words: &str) -> Result<Options, String> {
        options(words.split_whitespace().map(String::from))
    }

    #[test]
    fn options_that_go_together() {
        for good in ["", "--rounds 3 --batch 1,000 --record a --against b --percent 5", "--read a --page b --against c"]
        {
            assert!(said(good).is_ok(), "{good}");
        }
    }

    #[test]
    fn options_that_do_not() {
        for (bad, why) in [
            ("--fast", "no option"),
            ("table.md", "no option"),
            ("--rounds", "wants a value"),
            ("--rounds 0", "above 0"),
            ("--batch few", "above 0"),
            ("--read a --rounds 3", "measures nothing"),
            ("--read a --record b", "measures nothing"),
            ("--page a", "goes with --read"),
            ("--percent 5", "goes with --against"),
            ("--case nowhere", "there are: receive, new data; "),
        ] {
            let e = said(bad).err().unwrap_or_default();
            assert!(e.contains(why), "{bad}: {e}");
        }
    }

    #[test]
    fn files_that_cannot_be_read_are_said_before_anything_is_measured() {
        let o = said("--against /nowhere/speed.txt").expect("options");
        assert!(run(&o).expect_err("no file").contains("cannot read /nowhere/speed.txt"));
    }
}
