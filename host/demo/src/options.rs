//! The command line.

use crate::host::{IO_PORT, PORT};
use std::net::Ipv4Addr;
use std::path::PathBuf;

/// How the program is used.
pub const USAGE: &str = "\
usage: demo [--pcap FILE] [--said FILE] [--port N] [--io-port N]
       demo serve [--address A] [--mask M] [--port N] [--io-port N] [--seconds N] [--pcap FILE] [--said FILE]

Without `serve`: plays a story on loopback by itself, as a timeline, and checks it; status 1 if something is not as it
must be. Ports are free ones unless given; with --pcap they are 44818 and 2222, by which Wireshark knows the protocol.
With `serve`: the lane on a network until it is ended, on TCP and UDP port 44818 and I/O port 2222 unless given.

  --pcap FILE    write what went over the wire, for Wireshark (classic pcap)
  --said FILE    write what each side says it sent, a line for a message
  --port N       TCP and UDP port of sessions and browsing; 0 for a free one
  --io-port N    UDP port of class 1 I/O; 0 for a free one
  --address A    local address (default 127.0.0.1; 0.0.0.0 for all)
  --mask M       its subnet mask (default 255.255.255.0; loopback has 255.0.0.0)
  --seconds N    end after so many seconds";

/// What is asked for.
#[derive(Clone, Debug, PartialEq, Eq)]
pub struct Options {
    /// The lane stays; else the story.
    pub serve: bool,
    /// The local address.
    pub address: Ipv4Addr,
    /// Its subnet mask.
    pub mask: Ipv4Addr,
    /// The port of sessions and browsing.
    pub port: u16,
    /// The port of class 1 I/O.
    pub io_port: u16,
    /// When a lane that stays ends by itself.
    pub seconds: Option<u64>,
    /// Where to write what went over the wire.
    pub pcap: Option<PathBuf>,
    /// Where to write what was said.
    pub said: Option<PathBuf>,
}

/// What a command line asks for.
#[derive(Clone, Debug, PartialEq, Eq)]
pub enum Asked {
    /// To run.
    Run(Options),
    /// To be told how.
    Help,
}

/// Reads the words after the program's name; the error is a line for a person.
pub fn read(words: impl IntoIterator<Item = String>) -> Result<Asked, String> {
    let mut words = words.into_iter().peekable();
    let serve = words.next_if(|word| word == "serve").is_some();
    let (mut port, mut io_port) = (None, None);
    let mut options = Options {
        serve,
        address: Ipv4Addr::LOCALHOST,
        mask: Ipv4Addr::new(255, 255, 255, 0),
        port: 0,
        io_port: 0,
        seconds: None,
        pcap: None,
        said: None,
    };
    while let Some(word) = words.next() {
        let for_serve = matches!(word.as_str(), "--address" | "--mask" | "--seconds");
        if for_serve && !serve {
            return Err(format!("{word} goes with `demo serve`"));
        }
        let mut value = || words.next().ok_or(format!("{word} wants a value"));
        match word.as_str() {
            "-h" | "--help" => return Ok(Asked::Help),
            "--pcap" => options.pcap = Some(value()?.into()),
            "--said" => options.said = Some(value()?.into()),
            "--port" => port = Some(parsed(&word, &value()?, "a port, 0 to 65535")?),
            "--io-port" => io_port = Some(parsed(&word, &value()?, "a port, 0 to 65535")?),
            "--address" => options.address = parsed(&word, &value()?, "an address such as 192.168.1.10")?,
            "--mask" => options.mask = mask(&value()?)?,
            "--seconds" => options.seconds = Some(parsed(&word, &value()?, "a number of seconds")?),
            _ => return Err(format!("'{word}' is no option")),
        }
    }
    let usual = serve || options.pcap.is_some();
    options.port = port.unwrap_or(if usual { PORT } else { 0 });
    options.io_port = io_port.unwrap_or(if usual { IO_PORT } else { 0 });
    if options.port != 0 && options.port == options.io_port {
        return Err(format!("--port and --io-port are both {}: each needs one of its own", options.port));
    }
    Ok(Asked::Run(options))
}

fn parsed<T: std::str::FromStr>(word: &str, value: &str, wanted: &str) -> Result<T, String> {
    value.parse().map_err(|_| format!("{word} wants {wanted}, not '{value}'"))
}

fn mask(value: &str) -> Result<Ipv4Addr, String> {
    let mask: Ipv4Addr = parsed("--mask", value, "a subnet mask such as 255.255.255.0")?;
    let bits = u32::from(mask);
    if bits.leading_ones() + bits.trailing_zeros() < 32 {
        return Err(format!("--mask wants a subnet mask such as 255.255.255.0, not '{value}'"));
    }
    Ok(mask)
}

#[cfg(test)]
mod tests {
    use super::*;

    fn of(line: &str) -> Result<Asked, String> {
        read(line.split_whitespace().map(String::from))
    }

    fn run(line: &str) -> Options {
        match of(line) {
            Ok(Asked::Run(options)) => options,
            other => panic!("{line}: {other:?}"),
        }
    }

    #[test]
    fn the_story_has_free_ports_and_the_lane_the_usual_ones() {
        assert_eq!((run("").serve, run("").port, run("").io_port), (false, 0, 0));
        let serve = run("serve");
        assert_eq!((serve.serve, serve.port, serve.io_port, serve.address), (true, 44_818, 2_222, Ipv4Addr::LOCALHOST));
    }

    #[test]
    fn a_capture_has_the_usual_ports_unless_others_are_given() {
        assert_eq!((run("--pcap a").port, run("--pcap a").io_port), (44_818, 2_222));
        assert_eq!((run("--port 0 --pcap a").port, run("--pcap a --io-port 0").io_port), (0, 0));
    }

    #[test]
    fn options_are_taken() {
        let options =
            run("serve --address 10.0.0.4 --mask 255.255.0.0 --port 1 --io-port 2 --seconds 3 --pcap a --said b");
        assert_eq!(options.address, Ipv4Addr::new(10, 0, 0, 4));
        assert_eq!(options.mask, Ipv4Addr::new(255, 255, 0, 0));
        assert_eq!((options.port, options.io_port, options.seconds), (1, 2, Some(3)));
        assert_eq!((options.pcap, options.said), (Some("a".into()), Some("b".into())));
        assert_eq!(of("serve --help"), Ok(Asked::Help));
    }

    #[test]
    fn what_is_wrong_is_said() {
        for (line, says) in [
            ("--pcap", "--pcap wants a value"),
            ("--port x", "--port wants a port"),
            ("--port 65536", "--port wants a port"),
            ("--seconds 3", "--seconds goes with `demo serve`"),
            ("serve --mask 255.0.255.0", "--mask wants a subnet mask"),
            ("serve --address lane", "--address wants an address"),
            ("server", "'server' is no option"),
            ("--port 7 --io-port 7", "--port and --io-port are both 7"),
        ] {
            let error = of(line).expect_err(line);
            assert!(error.starts_with(says), "{line}: {error}");
        }
    }
}
