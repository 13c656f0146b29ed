//! The acts of the story, in order.

use super::originator::{Answer, Hearer, Originator, Talker, Way, browse};
use super::{Failure, SLACK, Stage, tool};
use crate::cip::{self, ForwardOpen, OpenReply, Reply};
use crate::cpf;
use crate::encap;
use crate::io::{IoFrame, with_header};
use crate::lane::{self, Told};
use crate::timeline::milliseconds;
use std::net::{Ipv4Addr, SocketAddrV4, UdpSocket};
use threshtide::{ConnectionKind, Event, Word};

const CONFIGURATION: [u8; lane::CONFIGURATION_SIZE as usize] = [0x2C, 0x01, 0x10, 0x27];

pub(super) fn play(stage: &Stage) -> Result<(), Failure> {
    browsed(stage)?;
    tool::visits(stage)?;
    let mut display = Originator::connect(stage.target, &stage.notes.said)?;
    stage.say("display", format!("connects and has session {:08X}", display.session()));
    listens_too_early(stage, &mut display)?;

    let mut scanner = Originator::connect(stage.target, &stage.notes.said)?;
    stage.say("scanner", format!("connects and has session {:08X}", scanner.session()));
    let (owner, group) = owns(stage, &mut scanner)?;
    rivals(stage)?;
    let listener = joins(stage, &mut display, &owner, group)?;

    let screen = screen(stage, group)?;
    let heartbeat = heartbeat(stage, listener.o_t_id)?;
    let talker = talk(stage, owner.o_t_id)?;
    runs(stage, &talker, &screen, &mut scanner)?;
    is_not_disturbed(stage, &talker, owner.o_t_id)?;
    falls_silent(stage, talker, &screen, &owner)?;
    heartbeat.stop();
    drop(screen);
    let status = scanner.attribute(0x01, 1, 5)?;
    told(stage, &scanner, (0x01, 1, 5), "0x0020");
    stage.check(
        status == [0x20, 0],
        format!("the identity's status tells of a timed-out connection: 0x0020, not {status:02X?}"),
    );
    listens_too_early(stage, &mut display)?;

    comes_back(stage, &mut scanner)?;
    for (name, session) in [("display", display), ("scanner", scanner)] {
        stage.check(session.leave()?, format!("the device ends {name}'s connection after UnRegisterSession"));
        stage.say(name, "ends its session");
    }
    let connections = stage.host.look(|adapter| adapter.connections());
    stage.check(connections.is_empty(), format!("no connection is left: {connections:?}"));
    Ok(())
}

/// Someone was told an attribute, as tshark reads it.
fn told(stage: &Stage, to: &Originator, (class, instance, number): (u8, u8, u8), read: &str) {
    stage.notes.said.attribute(to.address(), cip::GET_SINGLE, (class, instance, Some(number)), &[read.to_string()]);
}

/// A browser finds the device over UDP, and over TCP the same.
fn browsed(stage: &Stage) -> Result<(), Failure> {
    let data = browse(Ipv4Addr::LOCALHOST, stage.target)?;
    let setup = lane::setup();
    let mut item = vec![1, 0];
    item.extend(cpf::write_socket(stage.target));
    item.extend(setup.vendor.to_le_bytes());
    item.extend(setup.device_type.to_le_bytes());
    item.extend(setup.product_code.to_le_bytes());
    item.extend([setup.revision.0, setup.revision.1]);
    item.extend([0x30, 0]); // no I/O connections
    item.extend(setup.serial.to_le_bytes());
    item.push(setup.product_name.len() as u8);
    item.extend(&setup.product_name);
    item.push(3); // operational
    let found = stage.check(
        data == cpf::write(&[(cpf::IDENTITY, &item)]),
        "ListIdentity over UDP tells the identity that the device was set up with",
    );
    if found {
        stage.say("browser", "finds the device by ListIdentity, with that identity");
    }
    stage.notes.said.identity(&setup);
    let mut session = Originator::connect(stage.target, &stage.notes.said)?;
    let over_tcp = session.ask(encap::LIST_IDENTITY, Vec::new())?.data;
    stage.notes.said.identity(&setup);
    stage.check(over_tcp == data, "ListIdentity over TCP tells the same");
    let name = session.attribute(0x01, 1, 7)?;
    told(stage, &session, (0x01, 1, 7), &String::from_utf8_lossy(&setup.product_name));
    stage.check(name[1..] == setup.product_name, "attribute 7 of Identity is the product name");
    session.leave()?;
    Ok(())
}

/// A refused open is shown with its word and meaning, and must have the word that is expected.
fn refused(stage: &Stage, who: &str, answer: &Answer, open: &ForwardOpen, word: u16) -> Result<(), Failure> {
    let Answer::Refused(Reply { general, words, data, .. }) = answer else {
        return Err(stage.fail(format!("{who}'s open is refused with 0x{word:04X}; it was accepted")));
    };
    let shown = words.first().copied().unwrap_or(0);
    let meaning = Word(shown).meaning().unwrap_or("no meaning known");
    stage.say(who, format!("is refused: general status 0x{general:02X}, word 0x{shown:04X}: {meaning}"));
    stage.check(
        (*general, &words[..]) == (cip::CONNECTION_FAILURE, &[word][..]),
        format!("{who}'s open is refused with status 0x01 and word 0x{word:04X}, not 0x{general:02X} and {words:04X?}"),
    );
    let triad = [&open.triad.bytes()[..], &[0, 0]].concat();
    stage.check(*data == triad, format!("the refusal names {who}'s triad"));
    Ok(())
}

/// Without an owner there is no stream to listen to.
fn listens_too_early(stage: &Stage, display: &mut Originator) -> Result<(), Failure> {
    let open = stage.plan.listener();
    stage.say("display", "asks to listen (Large Forward Open, listen-only), but nothing streams");
    let answer = display.open(&open, None)?;
    refused(stage, "display", &answer, &open, 0x0119)
}

/// The scanner opens as owner, T→O multicast, with configuration data.
fn owns(stage: &Stage, scanner: &mut Originator) -> Result<(OpenReply, SocketAddrV4), Failure> {
    let open = stage.plan.owner(1, true, &CONFIGURATION);
    let mark = stage.mark();
    stage.say(
        "scanner",
        format!(
            "asks to own the lane (Forward Open): {} ms both ways, timeout {} ms",
            open.o_t.rpi / 1_000,
            open.timeout() / 1_000
        ),
    );
    let Answer::Opened(reply, socket) = scanner.open(&open, None)? else {
        return Err(stage.fail("the scanner's open is accepted"));
    };
    stage.until(mark, "the application hears of the open", |told| {
        matches!(told, Told::Happened(_, Event::Opened(c)) if c.kind == ConnectionKind::Owner && c.o_t_id.0 == reply.o_t_id)
    });
    stage.until(mark, "the application hears of the configuration", |told| {
        matches!(told, Told::Happened(_, Event::Configured { instance: lane::CONFIGURATION, length: 4 }))
    });
    let stored = scanner.attribute(0x04, lane::CONFIGURATION as u8, 3)?;
    told(stage, scanner, (0x04, lane::CONFIGURATION as u8, 3), "2c011027");
    stage.check(stored == CONFIGURATION, "the configuration assembly has the bytes of the open");
    stage.check(reply.triad == open.triad, "the reply names the open's triad");
    stage
        .check((reply.o_t_rpi, reply.t_o_rpi) == (open.o_t.rpi, open.t_o.rpi), "the reply has the intervals asked for");
    stage.check(reply.t_o_id != open.t_o_id, "the device draws the T→O id of a new stream");
    // 127.0.0.4 in 127.0.0.0/8: host part 4, so 3 times 32 behind 239.192.1.0
    let group = SocketAddrV4::new(Ipv4Addr::new(239, 192, 1, 96), stage.io.port());
    stage.check(socket == Some(group), format!("the stream goes to {group}, as its T→O socket address item says"));
    stage.say("scanner", format!("owns the lane; the stream {:08X} goes to {group}", reply.t_o_id));
    Ok((reply, group))
}

/// An output has one owner.
fn rivals(stage: &Stage) -> Result<(), Failure> {
    let mut rival = Originator::connect(stage.target, &stage.notes.said)?;
    let open = stage.plan.owner(2, true, &[]);
    stage.say("rival", "asks to own the lane too");
    let answer = rival.open(&open, None)?;
    refused(stage, "rival", &answer, &open, 0x0106)?;
    rival.leave()?;
    Ok(())
}

/// The display joins the stream: its id, its group, its interval.
fn joins(
    stage: &Stage,
    display: &mut Originator,
    owner: &OpenReply,
    group: SocketAddrV4,
) -> Result<OpenReply, Failure> {
    let open = stage.plan.listener();
    stage.say("display", "asks again to listen");
    let Answer::Opened(reply, socket) = display.open(&open, None)? else {
        return Err(stage.fail("the display's open is accepted"));
    };
    stage.check(reply.t_o_id == owner.t_o_id, "the display gets the stream's T→O id");
    stage.check(reply.o_t_id != owner.o_t_id, "the display gets an O→T id of its own");
    stage.check(reply.t_o_rpi == owner.t_o_rpi, "the display gets the stream's interval, not the one it asked for");
    stage.check(socket == Some(group), "the display is told the stream's group");
    let asked = open.t_o.rpi / 1_000;
    stage.say("display", format!("listens, each {} ms (it asked for {asked} ms)", reply.t_o_rpi / 1_000));
    Ok(reply)
}

/// The display's screen: what arrives at the group.
fn screen(stage: &Stage, group: SocketAddrV4) -> Result<Hearer, Failure> {
    // bound to the group's own address, so that nothing else arrives, and joined on loopback
    let socket = UdpSocket::bind(group)?;
    socket.join_multicast_v4(group.ip(), &Ipv4Addr::LOCALHOST)?;
    Ok(Hearer::start(socket, stage.timeline.clock())?)
}

fn way(stage: &Stage, from: Ipv4Addr, id: u32) -> Result<Way, Failure> {
    Ok(Way { socket: UdpSocket::bind((from, 0))?, from, to: stage.io, id })
}

fn heartbeat(stage: &Stage, id: u32) -> Result<Talker, Failure> {
    let way = way(stage, Ipv4Addr::LOCALHOST, id)?;
    let clock = stage.timeline.clock();
    Ok(Talker::start(way, 2 * stage.plan.interval(), Vec::new(), false, clock, &stage.notes.said))
}

fn talk(stage: &Stage, id: u32) -> Result<Talker, Failure> {
    stage.say("scanner", "begins to send: word 00000007, but idle");
    let mark = stage.mark();
    let way = way(stage, Ipv4Addr::LOCALHOST, id)?;
    let data = with_header(false, &7u32.to_le_bytes());
    let talker = Talker::start(way, stage.plan.interval(), data, true, stage.timeline.clock(), &stage.notes.said);
    stage.until(mark, "the lane has the word and stands: run is not set", |told| {
        matches!(told, Told::Lane { moves: false, word: 7, .. })
    });
    Ok(talker)
}

/// The scanner sets a word and run; the lane moves by it, and who hears the packets sees it.
fn moves(stage: &Stage, talker: &Talker, (who, ear): (&str, &Hearer), by: u32) {
    let mark = stage.mark();
    let seen = ear.heard().len();
    stage.say("scanner", format!("sets run with word {by:08X}"));
    talker.set(with_header(stage.plan.runs, &by.to_le_bytes()));
    let must = format!("the lane moves by word {by:08X}");
    stage.until(mark, &must, |told| matches!(told, Told::Lane { moves: true, word, .. } if *word == by));
    let told = ear.hears(seen, &lane::input(true, by), stage.patience());
    if stage.check(told, format!("the packets tell that the lane moves by {by:08X}")) {
        stage.say(who, format!("sees the lane move by {by:08X}"));
    }
}

fn runs(stage: &Stage, talker: &Talker, screen: &Hearer, scanner: &mut Originator) -> Result<(), Failure> {
    moves(stage, talker, ("display", screen), 0x2A);
    let status = scanner.attribute(0x01, 1, 5)?;
    told(stage, scanner, (0x01, 1, 5), "0x0061");
    stage.check(status == [0x61, 0], format!("the identity's status is owned and in run: 0x0061, not {status:02X?}"));
    let mark = stage.mark();
    stage.say("scanner", "goes to idle, the word stays");
    talker.set(with_header(false, &0x2A_u32.to_le_bytes()));
    stage.until(mark, "the lane stands when the scanner is idle", |told| {
        matches!(told, Told::Lane { moves: false, word: 0x2A, .. })
    });
    moves(stage, talker, ("display", screen), 0x2B);
    Ok(())
}

/// A frame with the owner's id from another address changes nothing.
fn is_not_disturbed(stage: &Stage, talker: &Talker, id: u32) -> Result<(), Failure> {
    let mark = stage.mark();
    stage.say("stranger", format!("at {} sends word DEADBEEF with the owner's id", stage.plan.stranger));
    let way = way(stage, stage.plan.stranger, id)?;
    let data = with_header(true, &0xDEAD_BEEF_u32.to_le_bytes());
    let frame = IoFrame { id, sequence: 1_000_000, cip_sequence: 0xFFFF, data };
    way.socket.send_to(&frame.bytes(), way.to)?;
    stage.notes.said.strange(way.from, &frame);
    stage.intervals(3);
    let moved = stage.since(mark).iter().any(|told| matches!(told, Told::Lane { .. }));
    if stage.check(!moved, "the lane is told nothing new by the stranger's frame") {
        stage.say("lane", "is told nothing: the stranger's frame is of no connection");
    }
    stage.say("scanner", "sets word 0000002C");
    talker.set(with_header(stage.plan.runs, &0x2C_u32.to_le_bytes()));
    stage.until(mark, "the owner's next word still counts: 0000002C", |told| {
        matches!(told, Told::Lane { moves: true, word: 0x2C, .. })
    });
    let strange = stage.since(mark).iter().any(|told| matches!(told, Told::Lane { word: 0xDEAD_BEEF, .. }));
    stage.check(!strange, "the lane never heard of the stranger's word");
    Ok(())
}

/// The scanner falls silent: after its timeout, and not before, run clears and the stream ends.
fn falls_silent(stage: &Stage, talker: Talker, screen: &Hearer, owner: &OpenReply) -> Result<(), Failure> {
    let timeout = stage.plan.owner(1, true, &[]).timeout();
    let mark = stage.mark();
    let last = if stage.plan.falls_silent {
        let (last, frames) = talker.stop();
        let at = milliseconds(last);
        stage.say("scanner", format!("has fallen silent: {frames} frames, the last at {at} ms with run still set"));
        Some(last)
    } else {
        stage.say("scanner", "goes on");
        None
    };
    let told = stage.until(
        mark,
        "the owner's connection times out",
        |told| matches!(told, Told::Happened(_, Event::TimedOut(c)) if c.kind == ConnectionKind::Owner),
    );
    let (Some(Told::Happened(ended, _)), Some(last)) = (told, last) else {
        return Err("the owner's connection is still there".into());
    };
    let after = ended - last;
    let latest = timeout + SLACK.as_micros() as u64;
    stage.check(
        after > timeout && after <= latest,
        format!(
            "it ends {} to {} ms after the last frame, not {}",
            timeout / 1_000,
            latest / 1_000,
            milliseconds(after)
        ),
    );
    stage.until(
        mark,
        "run is clear, and the application knows",
        |told| matches!(told, Told::Lane { time, moves: false, word: 0x2C } if *time == ended),
    );
    let told = stage.since(mark);
    let outputs = told.iter().filter(|told| matches!(told, Told::Happened(_, Event::Output { .. }))).count();
    stage.check(outputs == 0, "no Output event told so: the host acted on TimedOut");
    let events: Vec<_> = told.iter().filter_map(ended_kind).collect();
    stage.check(
        events == [(ConnectionKind::ListenOnly, false), (ConnectionKind::Owner, true)],
        format!("the display's connection closed first, then the owner's timed out: {events:?}"),
    );
    stream_ends(stage, screen, owner, ended);
    Ok(())
}

/// The kind of a connection that ended, and whether it timed out.
fn ended_kind(told: &Told) -> Option<(ConnectionKind, bool)> {
    match told {
        Told::Happened(_, Event::Closed(c)) => Some((c.kind, false)),
        Told::Happened(_, Event::TimedOut(c)) => Some((c.kind, true)),
        _ => None,
    }
}

/// The display's stream ended, and was whole and in time until then.
fn stream_ends(stage: &Stage, screen: &Hearer, owner: &OpenReply, ended: u64) {
    stage.intervals(2);
    let heard = screen.heard();
    stage.intervals(6);
    stage.check(screen.heard().len() == heard.len(), "nothing arrives at the group any more");
    let frames: Vec<&IoFrame> = heard.iter().filter_map(|h| h.frame.as_ref()).collect();
    stage.check(frames.len() == heard.len(), "everything that arrived at the group is an I/O frame");
    stage.check(frames.iter().all(|f| f.id == owner.t_o_id), "every frame names the stream's id");
    let in_turn = |pair: &[&IoFrame]| {
        pair[1].sequence == pair[0].sequence.wrapping_add(1)
            && pair[1].cip_sequence == pair[0].cip_sequence.wrapping_add(1)
    };
    stage.check(frames.windows(2).all(in_turn), "both sequences step by one from frame to frame");
    let produced = stage.host.look(|adapter| adapter.stats().produced);
    let last = frames.last().map(|f| u64::from(f.sequence));
    stage.check(last == Some(produced), format!("the last frame heard is the last produced: {last:?} of {produced}"));
    if let (Some(first), Some(last)) = (heard.first(), heard.last()) {
        let interval = (last.time - first.time) / (heard.len() as u64 - 1).max(1);
        let rpi = u64::from(stage.plan.rpi);
        stage.check(
            (rpi * 9 / 10..=rpi * 2).contains(&interval),
            format!("the frames came each {} ms or so, not each {} ms", rpi / 1_000, milliseconds(interval)),
        );
        let quiet = milliseconds(stage.timeline.clock().now() - last.time);
        let what = format!(
            "the stream ended: {} frames, one each {} ms, the last {} ms before the timeout; none for {quiet} ms",
            heard.len(),
            milliseconds(interval),
            milliseconds(ended.saturating_sub(last.time))
        );
        stage.say("display", what);
    }
}

/// The scanner opens again, point-to-point to a port of its own, runs, and closes: run clears at once.
fn comes_back(stage: &Stage, scanner: &mut Originator) -> Result<(), Failure> {
    let socket = UdpSocket::bind((scanner.address(), 0))?;
    let own = SocketAddrV4::new(scanner.address(), socket.local_addr()?.port());
    let ear = Hearer::start(socket, stage.timeline.clock())?;
    let open = stage.plan.owner(1, false, &[]);
    stage.say("scanner", format!("comes back: owner again, T→O point-to-point to {own}"));
    let Answer::Opened(reply, socket) = scanner.open(&open, Some(own))? else {
        return Err(stage.fail("the scanner's second open is accepted"));
    };
    stage.check(socket.is_none(), "a point-to-point reply has no T→O socket address item");
    stage.check(reply.t_o_id == open.t_o_id, "point-to-point, the T→O id is the scanner's own");
    let stands = ear.hears(0, &lane::input(false, 0), stage.patience());
    stage.check(stands, "the packets come to that port, and tell that the lane stands");
    let talker = talk(stage, reply.o_t_id)?;
    moves(stage, &talker, ("scanner", &ear), 0x2D);
    let mark = stage.mark();
    stage.say("scanner", "closes (Forward Close)");
    let closed = scanner.close(open.triad, &open.path)?;
    let triad = [&open.triad.bytes()[..], &[0, 0]].concat();
    stage.check((closed.general, closed.data) == (0, triad), "the close is accepted and names the triad");
    stage.until(mark, "run is clear after the close", |told| {
        matches!(told, Told::Lane { moves: false, word: 0x2D, .. })
    });
    talker.stop();
    let again = scanner.close(open.triad, &open.path)?;
    stage.check(
        (again.general, &again.words[..]) == (cip::CONNECTION_FAILURE, &[cip::CONNECTION_NOT_FOUND][..]),
        "a second close finds no connection: 0x0107",
    );
    stage.say("scanner", "closes again and is told that there is no such connection: word 0x0107");
    stage.intervals(2);
    let heard = ear.heard().len();
    stage.intervals(4);
    stage.check(ear.heard().len() == heard, "nothing arrives at the scanner's port any more");
    Ok(())
}
