//! The story end to end: as it must be it holds, and played otherwise its checks notice.

use demo::clock::Clock;
use demo::host::Notes;
use demo::lane;
use demo::story::{self, Plan};
use demo::timeline::Timeline;
use std::net::Ipv4Addr;
use std::path::PathBuf;
use std::process::{Command, Output};
use std::sync::Arc;
use threshtide::{Assembly, Setup};

/// Plays a story; the checks that did not hold.
fn play(plan: &Plan) -> Vec<String> {
    let timeline = Arc::new(Timeline::new(Clock::new(), Box::new(std::io::sink())));
    let ended = story::play(plan, &timeline, Notes::default());
    let (checks, failed) = timeline.outcome();
    assert!(checks > 0);
    assert!(ended.is_ok() || !failed.is_empty(), "ended by {ended:?} and no check tells");
    failed
}

fn noticed(plan: Plan, must: &str) {
    let failed = play(&plan);
    assert!(failed.iter().any(|line| line.contains(must)), "wanted: {must}; failed: {failed:#?}");
}

#[test]
fn it_holds() {
    assert_eq!(play(&Plan::default()), Vec::<String>::new());
}

#[test]
fn a_scanner_that_does_not_run_is_noticed() {
    noticed(Plan { runs: false, ..Plan::default() }, "the lane moves by word 0000002A");
}

#[test]
fn a_scanner_that_goes_on_is_noticed() {
    noticed(Plan { falls_silent: false, ..Plan::default() }, "the owner's connection times out");
}

#[test]
fn a_stranger_who_is_believed_is_noticed() {
    // from the scanner's own address the frame counts
    let plan = Plan { stranger: Ipv4Addr::LOCALHOST, ..Plan::default() };
    noticed(plan, "the lane never heard of the stranger's word");
}

#[test]
fn another_identity_is_noticed() {
    let setup = Setup { serial: 5, ..lane::setup() };
    noticed(Plan { setup, ..Plan::default() }, "ListIdentity over UDP");
}

#[test]
fn a_refused_owner_is_noticed() {
    let setup = Setup { rpi_min: 30_000, ..lane::setup() };
    // the display's 50 ms and 100 ms pass, the scanner's 25 ms do not
    noticed(Plan { setup, ..Plan::default() }, "the scanner's open is accepted");
}

#[test]
fn another_word_of_a_refusal_is_noticed() {
    let setup = Setup { listen_only_heartbeat: 1, ..lane::setup() };
    noticed(Plan { setup, ..Plan::default() }, "refused with status 0x01 and word 0x0119, not 0x01 and [0117]");
}

#[test]
fn another_assembly_is_noticed() {
    let mut setup = lane::setup();
    setup.assemblies[2] = Assembly::configuration(lane::CONFIGURATION, 6);
    noticed(Plan { setup, ..Plan::default() }, "the scanner's open is accepted");
}

fn demo(words: &[&str]) -> Output {
    Command::new(env!("CARGO_BIN_EXE_demo")).args(words).output().expect("the demo runs")
}

fn said(output: &Output) -> (String, String) {
    let text = |bytes: &[u8]| String::from_utf8_lossy(bytes).into_owned();
    (text(&output.stdout), text(&output.stderr))
}

#[test]
fn the_command_tells_the_story_and_writes_the_capture() {
    let folder = PathBuf::from(env!("CARGO_TARGET_TMPDIR"));
    let (pcap, lines) = (folder.join("story.pcap"), folder.join("story.said"));
    let words = ["--port", "0", "--io-port", "0", "--pcap", pcap.to_str().unwrap(), "--said", lines.to_str().unwrap()];
    let output = demo(&words);
    let (out, err) = said(&output);
    assert_eq!((output.status.code(), err.as_str()), (Some(0), ""), "{out}");
    for line in [
        "scanner   asks to own the lane",
        "rival     is refused: general status 0x01, word 0x0106: ownership conflict",
        "lane      run is set: moves by word 0000002A",
        "adapter   timed out: the owner connection",
        "lane      run is clear: stands (word 0000002C is kept, not obeyed)",
        "display   the stream ended",
        "checks, all hold",
    ] {
        assert!(out.contains(line), "no line `{line}` in\n{out}");
    }
    let times: Vec<f64> = out.lines().skip(1).map(|line| line[..10].trim().parse().expect(line)).collect();
    assert!(times.is_sorted(), "{times:?}");
    // the file has whole frames, as many as the last line says
    let bytes = std::fs::read(&pcap).unwrap();
    let (mut at, mut frames) = (24, 0);
    while at < bytes.len() {
        at += 16 + u32::from_le_bytes(bytes[at + 8..at + 12].try_into().unwrap()) as usize;
        frames += 1;
    }
    assert_eq!(at, bytes.len());
    assert!(out.contains(&format!("has {frames} frames")), "{frames} frames\n{out}");
    let lines = std::fs::read_to_string(&lines).unwrap();
    assert!(lines.lines().any(|line| line.starts_with("opened\t")));
}

#[test]
fn wrong_words_get_usage_and_status_2() {
    let output = demo(&["--frobnicate"]);
    let (out, err) = said(&output);
    assert_eq!((output.status.code(), out.as_str()), (Some(2), ""));
    assert!(err.starts_with("demo: '--frobnicate' is no option\nusage: demo"), "{err}");
}

#[test]
fn help_is_not_an_error() {
    let output = demo(&["--help"]);
    assert_eq!(output.status.code(), Some(0));
    assert!(said(&output).0.starts_with("usage: demo"));
}

#[test]
fn a_file_that_cannot_be_written_is_said() {
    let output = demo(&["--pcap", "/nowhere/at/all.pcap"]);
    let (_, err) = said(&output);
    assert_eq!(output.status.code(), Some(1));
    assert!(err.starts_with("demo: cannot write /nowhere/at/all.pcap: "), "{err}");
}

#[test]
fn a_port_in_use_is_said() {
    let taken = std::net::TcpListener::bind((story::DEVICE, 0)).unwrap();
    let port = taken.local_addr().unwrap().port().to_string();
    let output = demo(&["--port", &port]);
    let (_, err) = said(&output);
    assert_eq!(output.status.code(), Some(1), "{err}");
    assert!(err.starts_with(&format!("demo: cannot listen on TCP 127.0.0.4:{port}: ")), "{err}");
    assert!(err.contains("another EtherNet/IP program has the port"), "{err}");
    let taken = std::net::UdpSocket::bind((story::DEVICE, 0)).unwrap();
    let port = taken.local_addr().unwrap().port().to_string();
    let output = demo(&["--io-port", &port]);
    let (_, err) = said(&output);
    assert_eq!(output.status.code(), Some(1), "{err}");
    assert!(err.starts_with(&format!("demo: cannot listen on UDP 127.0.0.4:{port}: ")), "{err}");
}
