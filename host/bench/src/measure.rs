//! Times a call on both, in turn, and takes medians of pairs.

use crate::cases::{CASES, CONNECTIONS, Case, Counters, Row, Which};
use crate::pair::Pair;
use crate::record::{Figure, Record};
use std::time::{Duration, Instant};

/// How to measure.
pub struct How {
    /// Pairs of batches for each figure.
    pub rounds: usize,
    /// How long a batch is, about.
    pub batch: Duration,
    /// Only calls whose name has this text.
    pub case: String,
}

/// The size of the data where it does not matter.
const PLAIN: usize = 32;
const ROUNDS_A_PASS: usize = 25;

fn median(mut list: Vec<f64>) -> f64 {
    list.sort_by(f64::total_cmp);
    list[list.len() / 2]
}

fn timed(case: &Case, pair: &mut Pair, which: Which, times: u32, counters: &mut Counters) -> f64 {
    let start = Instant::now();
    (case.run)(pair, which, times, counters);
    start.elapsed().as_nanos() as f64 / f64::from(times)
}

/// How many calls make a batch, by the slower of the two.
fn calls_in_a_batch(case: &Case, pair: &mut Pair, counters: &mut [Counters; 2], batch: Duration) -> u32 {
    let mut times = 16;
    loop {
        let slower = [Which::Library, Which::Original]
            .into_iter()
            .zip(counters.iter_mut())
            .map(|(which, c)| timed(case, pair, which, times, c))
            .fold(0.0, f64::max);
        if slower * f64::from(times) * 4.0 > batch.as_nanos() as f64 {
            return (batch.as_nanos() as f64 / slower).max(1.0) as u32;
        }
        times *= 2;
    }
}

/// A figure that is being measured.
struct Timed {
    case: &'static Case,
    row: &'static Row,
    connections: usize,
    pair: Pair,
    counters: [Counters; 2],
    /// Calls in a batch.
    times: u32,
    library: Vec<f64>,
    original: Vec<f64>,
    ratios: Vec<f64>,
}

impl Timed {
    fn new(case: &'static Case, row: &'static Row, connections: usize, batch: Duration) -> Timed {
        let mut pair = (case.pair)(connections, row.bytes.unwrap_or(PLAIN));
        let mut counters = [Counters::default(); 2];
        let times = calls_in_a_batch(case, &mut pair, &mut counters, batch);
        let (library, original, ratios) = (Vec::new(), Vec::new(), Vec::new());
        Timed { case, row, connections, pair, counters, times, library, original, ratios }
    }

    /// A pair of batches: nanoseconds a call.
    fn round(&mut self, library_first: bool) -> (f64, f64) {
        let (mut library, mut original) = (0.0, 0.0);
        for which in if library_first { [Which::Library, Which::Original] } else { [Which::Original, Which::Library] } {
            let [first, second] = &mut self.counters;
            match which {
                Which::Library => library = timed(self.case, &mut self.pair, which, self.times, first),
                Which::Original => original = timed(self.case, &mut self.pair, which, self.times, second),
            }
        }
        (library, original)
    }

    fn rounds(&mut self, rounds: usize) {
        // what others left in the caches is not measured
        self.round(true);
        for round in 0..rounds {
            let (library, original) = self.round(round % 2 == 0);
            self.library.push(library);
            self.original.push(original);
            self.ratios.push(library / original);
        }
    }

    fn figure(mut self) -> Figure {
        self.pair.agree();
        Figure {
            call: self.case.name.into(),
            bytes: self.row.bytes,
            connections: self.connections,
            library: median(self.library),
            original: median(self.original),
            ratio: median(self.ratios),
        }
    }
}

/// On other processors than x86 the name is not in /proc/cpuinfo.
fn of_lscpu() -> Option<String> {
    let out = std::process::Command::new("lscpu").output().ok()?;
    let text = String::from_utf8(out.stdout).ok()?;
    let line = text.lines().find(|l| l.starts_with("Model name"))?;
    Some(format!("{} ({})", line.split(':').nth(1)?.trim(), std::env::consts::ARCH))
}

fn processor() -> String {
    let text = std::fs::read_to_string("/proc/cpuinfo").unwrap_or_default();
    let line = text.lines().find(|l| l.starts_with("model name"));
    let named = line.and_then(|l| l.split(':').nth(1)).map(|s| s.trim().to_string());
    named.or_else(of_lscpu).unwrap_or_else(|| std::env::consts::ARCH.into())
}

/// Processes that ran or waited to run, on average over the last minute.
fn load() -> String {
    let text = std::fs::read_to_string("/proc/loadavg").unwrap_or_default();
    text.split(' ').next().filter(|s| !s.is_empty()).unwrap_or("unknown").into()
}

/// Every figure of the calls that were asked for.
fn started(how: &How) -> Vec<Timed> {
    let mut all = Vec::new();
    for case in CASES.iter().filter(|c| c.name.contains(&how.case)) {
        for (row, connections) in case.rows.iter().flat_map(|r| CONNECTIONS.map(|n| (r, n))) {
            all.push(Timed::new(case, row, connections, how.batch));
        }
    }
    all
}

/// The pairs of a figure are spread over the whole run: a busy minute of the machine is then every figure's.
pub fn all(how: &How) -> Record {
    let cores = std::thread::available_parallelism().map_or(1, usize::from);
    let before = load();
    let mut figures = started(how);
    let passes = how.rounds.div_ceil(ROUNDS_A_PASS);
    for pass in 0..passes {
        eprintln!("bench: pass {} of {passes}", pass + 1);
        let rounds = ROUNDS_A_PASS.min(how.rounds - pass * ROUNDS_A_PASS);
        figures.iter_mut().for_each(|figure| figure.rounds(rounds));
    }
    Record {
        processor: processor(),
        load: format!("{before} before and {} after, on {cores} cores", load()),
        pairs: format!("{} of batches of {} microseconds", how.rounds, how.batch.as_micros()),
        figures: figures.into_iter().map(Timed::figure).collect(),
    }
}

#[cfg(test)]
mod tests {
    use super::*;

    #[test]
    fn every_call_does_the_same_on_both() {
        let how = How { rounds: 30, batch: Duration::from_micros(20), case: String::new() };
        let record = all(&how);
        assert_eq!(record.figures.len(), CASES.iter().map(|c| c.rows.len()).sum::<usize>() * CONNECTIONS.len());
        for figure in &record.figures {
            assert!(figure.ratio > 0.0 && figure.ratio.is_finite(), "{figure}");
        }
    }

    #[test]
    fn the_median_is_the_middle() {
        assert_eq!(median(vec![9.0, 1.0, 5.0]), 5.0);
    }
}
