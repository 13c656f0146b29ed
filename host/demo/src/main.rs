//! `demo`: the story on loopback, or the lane on a network.

use demo::capture::Capture;
use demo::clock::Clock;
use demo::host::{Config, Host, Notes};
use demo::lane::{self, Lane};
use demo::options::{self, Asked, Options, USAGE};
use demo::said::Said;
use demo::story::{self, Plan};
use demo::timeline::Timeline;
use std::hash::{BuildHasher, Hasher, RandomState};
use std::path::Path;
use std::process::ExitCode;
use std::sync::Arc;
use std::time::Duration;

fn main() -> ExitCode {
    match options::read(std::env::args().skip(1)) {
        Ok(Asked::Help) => {
            println!("{USAGE}");
            ExitCode::SUCCESS
        }
        Ok(Asked::Run(options)) => run(&options).unwrap_or_else(|error| {
            eprintln!("demo: {error}");
            ExitCode::FAILURE
        }),
        Err(error) => {
            eprintln!("demo: {error}\n{USAGE}");
            ExitCode::from(2)
        }
    }
}

type Failure = Box<dyn std::error::Error>;

fn to_write<T>(path: &Path, made: std::io::Result<T>) -> Result<T, Failure> {
    made.map_err(|error| format!("cannot write {}: {error}", path.display()).into())
}

fn run(options: &Options) -> Result<ExitCode, Failure> {
    let clock = Clock::new();
    let mut notes = Notes::default();
    if let Some(path) = &options.pcap {
        notes.capture = Some(Arc::new(to_write(path, Capture::create(path, clock))?));
    }
    if let Some(path) = &options.said {
        notes.said = Arc::new(to_write(path, Said::create(path))?);
    }
    let timeline = Arc::new(Timeline::new(clock, Box::new(std::io::stdout())));
    let status = if options.serve {
        serve(options, &timeline, notes.clone())?;
        ExitCode::SUCCESS
    } else {
        play(options, &timeline, notes.clone())?
    };
    if let (Some(path), Some(capture)) = (&options.pcap, &notes.capture) {
        let frames = to_write(path, capture.frames())?;
        timeline.say("demo", format!("{} has {frames} frames", path.display()));
    }
    if let Some(path) = &options.said {
        to_write(path, notes.said.finish())?;
    }
    Ok(status)
}

fn play(options: &Options, timeline: &Arc<Timeline>, notes: Notes) -> Result<ExitCode, Failure> {
    let plan = Plan { port: options.port, io_port: options.io_port, ..Plan::default() };
    // a story that could not go on has said so by its checks
    let ended = story::play(&plan, timeline, notes);
    let (checks, failed) = timeline.outcome();
    if let Err(error) = ended {
        timeline.say("demo", format!("the story ended early: {error}"));
        if failed.is_empty() {
            return Err(error);
        }
    }
    if failed.is_empty() {
        timeline.say("demo", format!("{checks} checks, all hold"));
        return Ok(ExitCode::SUCCESS);
    }
    timeline.say("demo", format!("{} of {checks} checks do not hold:", failed.len()));
    for must in failed {
        timeline.say("demo", format!("NOT SO: {must}"));
    }
    Ok(ExitCode::FAILURE)
}

fn serve(options: &Options, timeline: &Arc<Timeline>, notes: Notes) -> Result<(), Failure> {
    let config = Config {
        address: options.address,
        mask: options.mask,
        port: options.port,
        io_port: options.io_port,
        setup: lane::setup(),
        seed: RandomState::new().build_hasher().finish() as u32,
    };
    let host = Host::start(config, Box::new(Lane::new(Arc::clone(timeline), None)), timeline.clock(), notes)?;
    timeline.say("adapter", lane::identity());
    timeline.say("adapter", story::listening(options.address, &host));
    let Some(seconds) = options.seconds else {
        loop {
            std::thread::park();
        }
    };
    std::thread::sleep(Duration::from_secs(seconds));
    let stats = host.look(|adapter| adapter.stats());
    host.stop();
    timeline.say("adapter", story::produced(&stats));
    Ok(())
}
