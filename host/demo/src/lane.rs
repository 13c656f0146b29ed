//! The device of the demo: a lane that moves while its scanner says run, by the lane word that comes with it.

use crate::host::{Application, Inputs};
use crate::timeline::Timeline;
use std::net::Ipv4Addr;
use std::sync::Arc;
use std::sync::mpsc::Sender;
use threshtide::{Assembly, Connection, ConnectionKind, Event, Output, Refusal, Setup};

/// The input assembly: the word that the lane moves by (0 while it stands), and whether it moves.
pub const INPUT: u16 = 100;
/// Its size.
pub const INPUT_SIZE: u16 = 8;
/// The output assembly: the lane word.
pub const OUTPUT: u16 = 150;
/// Its size.
pub const OUTPUT_SIZE: u16 = 4;
/// The configuration assembly: the lane's speed and length.
pub const CONFIGURATION: u16 = 151;
/// Its size.
pub const CONFIGURATION_SIZE: u16 = 4;

/// What a configuration tool reads of the lane: its electronic data sheet.
fn eds() -> String {
    let assembly =
        |n: u16, what: &str, bytes: u16| format!("    Assem{n} = \"{what}\",,{bytes},0x0000,,,{},;\n", 8 * bytes);
    format!(
        "[File]\n    DescText = \"Threshtide lane\";\n    CreateDate = 11-15-2026;\n    CreateTime = 08:00:00;\n    Revision = 1.0;\n\n\
         [Device]\n    VendCode = 65000;\n    VendName = \"no vendor\";\n    ProdType = 12;\n    ProdTypeStr = \"Communications Adapter\";\n    \
         ProdCode = 44;\n    MajRev = 4;\n    MinRev = 1;\n    ProdName = \"Threshtide lane 4\";\n\n[Assembly]\n{}{}{}",
        assembly(INPUT, "The word that the lane moves by", INPUT_SIZE),
        assembly(OUTPUT, "The lane word", OUTPUT_SIZE),
        assembly(CONFIGURATION, "Speed and length", CONFIGURATION_SIZE),
    )
}

/// What the lane is set up with.
pub fn setup() -> Setup {
    Setup {
        vendor: 65_000,    // no vendor has this number
        device_type: 0x0C, // communications adapter
        product_code: 44,
        revision: (4, 1),
        serial: 0x0004_1A9E,
        product_name: b"Threshtide lane 4".to_vec(),
        assemblies: vec![
            Assembly::input(INPUT, INPUT_SIZE),
            Assembly::output(OUTPUT, OUTPUT_SIZE),
            Assembly::configuration(CONFIGURATION, CONFIGURATION_SIZE),
        ],
        mac: [0x02, 0, 127, 0, 0, 1],
        eds: Some(eds().into_bytes()),
        eds_name: b"lane4.eds".to_vec(),
        ..Setup::default()
    }
}

/// Who the lane is, in words.
pub fn identity() -> String {
    let s = setup();
    format!(
        "is \"{}\": vendor {}, device type {}, product code {}, revision {}.{}, serial number 0x{:08x}",
        String::from_utf8_lossy(&s.product_name),
        s.vendor,
        s.device_type,
        s.product_code,
        s.revision.0,
        s.revision.1,
        s.serial
    )
}

/// Something that the lane was told, with its time.
#[derive(Clone, Debug, PartialEq, Eq)]
pub enum Told {
    /// An event.
    Happened(u64, Event),
    /// The lane moves by a word, or stands.
    Lane {
        /// When.
        time: u64,
        /// Whether it moves.
        moves: bool,
        /// The lane word, kept while the lane stands.
        word: u32,
    },
    /// An open was refused.
    Refused(Ipv4Addr, Refusal),
}

/// The lane. It tells the timeline what it is told, and a listener if it has one.
pub struct Lane {
    timeline: Arc<Timeline>,
    listener: Option<Sender<Told>>,
    now: Option<(bool, u32)>,
}

impl Lane {
    /// A lane that stands.
    pub fn new(timeline: Arc<Timeline>, listener: Option<Sender<Told>>) -> Lane {
        Lane { timeline, listener, now: None }
    }

    fn tell(&self, told: Told) {
        if let Some(listener) = &self.listener {
            let _ = listener.send(told); // nobody may be listening any more
        }
    }
}

/// The input assembly of a lane.
pub fn input(moves: bool, word: u32) -> [u8; INPUT_SIZE as usize] {
    let mut out = [0; INPUT_SIZE as usize];
    if moves {
        out[..4].copy_from_slice(&word.to_le_bytes());
        out[4] = 1;
    }
    out
}

fn who(connection: &Connection) -> String {
    let kind = match connection.kind {
        ConnectionKind::Owner => "owner",
        ConnectionKind::InputOnly => "input-only",
        ConnectionKind::ListenOnly => "listen-only",
    };
    format!("the {kind} connection of {}", connection.originator)
}

fn words(event: &Event) -> String {
    match event {
        Event::Opened(c) => format!(
            "opened: {}, O→T id {:08X} each {} ms, T→O id {:08X} each {} ms{}",
            who(c),
            c.o_t_id.0,
            c.o_t_rpi / 1_000,
            c.t_o_id.0,
            c.t_o_rpi / 1_000,
            if c.multicast { ", multicast" } else { "" }
        ),
        Event::Closed(c) => format!("closed: {}", who(c)),
        Event::TimedOut(c) => format!("timed out: {}", who(c)),
        Event::Configured { instance, length } => format!("configured: {length} bytes stored in assembly {instance}"),
        Event::Output { instance } => format!("output {instance} changed"),
    }
}

impl Application for Lane {
    fn output(&mut self, time: u64, instance: u16, output: &Output, inputs: &mut Inputs) {
        let Some(word) = output.data.first_chunk().map(|word| u32::from_le_bytes(*word)) else {
            return self.trouble(time, &format!("output {instance} is too short for a lane word"));
        };
        if let Err(no) = inputs.set(INPUT, &input(output.run, word)) {
            self.trouble(time, &format!("input {INPUT}: {no}"));
        }
        if self.now.replace((output.run, word)) != Some((output.run, word)) {
            let what = if output.run {
                format!("run is set: moves by word {word:08X}")
            } else {
                format!("run is clear: stands (word {word:08X} is kept, not obeyed)")
            };
            self.timeline.say("lane", what);
        }
        self.tell(Told::Lane { time, moves: output.run, word });
    }

    fn happened(&mut self, time: u64, event: &Event) {
        if !matches!(event, Event::Output { .. }) {
            self.timeline.say("adapter", words(event));
        }
        self.tell(Told::Happened(time, *event));
    }

    fn refused(&mut self, _: u64, peer: Ipv4Addr, refusal: &Refusal) {
        self.timeline.say("adapter", format!("refuses {peer}: {refusal}"));
        self.tell(Told::Refused(peer, *refusal));
    }

    fn trouble(&mut self, _: u64, what: &str) {
        self.timeline.say("adapter", format!("trouble: {what}"));
    }
}
