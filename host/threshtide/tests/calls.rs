//! The library through its safe face: values, reasons for no, and lent memory of the wrong size.

use std::net::{Ipv4Addr, SocketAddrV4};
use threshtide::{
    Adapter, Assembly, AssemblyKind, ConnectionKind, Event, MAX_PACKETS, No, OpenError, Origin, Service, Session,
    Setup, SetupError, Stats, Word, open_refusal, sys,
};

const PEER: Ipv4Addr = Ipv4Addr::new(10, 0, 0, 1);

fn setup() -> Setup {
    Setup {
        assemblies: vec![Assembly::input(100, 4), Assembly::output(150, 2), Assembly::configuration(199, 2)],
        eds: Some(vec![1, 2, 3]),
        ..Setup::default()
    }
}

fn adapter() -> Adapter {
    Adapter::new(&setup(), 0x100).expect("within the sizes")
}

fn origin() -> Origin {
    Origin {
        peer: PEER,
        local: Ipv4Addr::new(10, 0, 0, 100),
        mask: Ipv4Addr::new(255, 255, 255, 0),
        t_o_socket: None,
        io_port: 2222,
    }
}

/// A Forward Open: O→T of so many bytes point-to-point, T→O of 6 bytes, 10 ms both ways, timeout 40 ms.
fn request(serial: u8, o_t: u8, t_o_multicast: bool, path: &[u8]) -> Vec<u8> {
    let net = if t_o_multicast { 0x20 } else { 0x40 };
    let mut out = vec![0x0A, 0x0E, 0, 0, 0, 0, 0x11, 0x22, 0x33, 0x44, serial, 0, 2, 0, 3, 0, 0, 0, 0, 0, 0, 0];
    out.extend([0x10, 0x27, 0, 0, o_t, 0x40, 0x10, 0x27, 0, 0, 6, net, 0x01, (path.len() / 2) as u8]);
    out.extend(path);
    out
}

fn owner(serial: u8) -> Vec<u8> {
    request(serial, 8, false, &[0x20, 4, 0x2C, 150, 0x2C, 100])
}

fn frame(id: u32, sequence: u32, cip: u16, run: u8, data: [u8; 2]) -> Vec<u8> {
    let mut out = vec![2, 0, 0x02, 0x80, 8, 0];
    out.extend(id.to_le_bytes());
    out.extend(sequence.to_le_bytes());
    out.extend([0xB1, 0, 8, 0]);
    out.extend(cip.to_le_bytes());
    out.extend([run, 0, 0, 0]);
    out.extend(data);
    out
}

#[test]
fn every_setup_beyond_the_sizes_is_refused_with_its_reason() {
    let good = setup();
    let with = |assemblies: Vec<Assembly>| Setup { assemblies, ..good.clone() };
    let many = |n: u16| (1..=n).map(|i| Assembly::input(i, 0)).collect::<Vec<_>>();
    let cases = [
        (with(many(17)), SetupError::Assemblies(17)),
        (with(vec![Assembly::input(0, 4)]), SetupError::InstanceZero),
        (with(vec![Assembly::input(7, 4), Assembly::output(7, 4)]), SetupError::InstanceTwice(7)),
        (with(vec![Assembly::input(7, 513)]), SetupError::AssemblySize { instance: 7, size: 513 }),
        (Setup { product_name: vec![0; 33], ..good.clone() }, SetupError::ProductName(33)),
        (Setup { eds_name: vec![0; 33], ..good.clone() }, SetupError::EdsName(33)),
        (Setup { eds: Some(vec![0; 65_536]), ..good.clone() }, SetupError::Eds(65_536)),
        (Setup { transfer_limit: 0, ..good.clone() }, SetupError::TransferLimit),
    ];
    for (bad, reason) in cases {
        assert_eq!(Adapter::new(&bad, 1).map(|_| ()), Err(reason));
        assert_eq!(bad.fault(), Some(reason));
    }
    // the limits themselves
    for edge in [
        with(many(16)),
        with(Vec::new()),
        with(vec![Assembly::output(65_535, 512)]),
        Setup { product_name: vec![0xFF; 32], eds_name: vec![0; 32], ..good.clone() },
        Setup { eds: Some(vec![0; 65_535]), transfer_limit: 255, ..good.clone() },
        Setup { eds: None, transfer_limit: 1, rpi_min: 9, rpi_max: 8, ..good.clone() },
    ] {
        assert_eq!(edge.fault(), None);
        Adapter::new(&edge, 0).expect("within the sizes");
    }
}

#[test]
fn a_refused_setup_changes_nothing() {
    let mut a = adapter();
    a.open(0, Service::ForwardOpen, &owner(1), &origin()).expect("accepted");
    let before = a.as_bytes().to_vec();
    let bad = Setup { transfer_limit: 0, ..setup() };
    assert_eq!(a.set_up(&bad, 1), Err(SetupError::TransferLimit));
    assert_eq!(a.as_bytes(), before);
    a.set_up(&setup(), 0x100).expect("within the sizes");
    assert_eq!(a.connections(), []);
    assert_eq!(a.next_event(), None);
}

#[test]
fn an_owner_opens_runs_and_closes() {
    let mut a = adapter();
    let opened = a.open(0, Service::ForwardOpen, &owner(1), &origin()).expect("accepted");
    assert_eq!((opened.o_t_id().0, opened.t_o_id().0), (0x101, 0x4433_2211));
    assert_eq!((opened.o_t_rpi(), opened.t_o_rpi(), opened.multicast), (10_000, 10_000, None));
    let [connection] = a.connections()[..] else { panic!("one connection") };
    assert_eq!(connection.kind, ConnectionKind::Owner);
    assert_eq!(connection.originator, PEER);
    assert_eq!((connection.input, connection.input_size, connection.output), (100, 4, Some((150, 2))));
    assert_eq!(a.next_event(), Some(Event::Opened(connection)));
    assert_eq!(a.next_deadline(), Some(0));
    a.receive(5, PEER, &frame(0x101, 1, 1, 1, [7, 8])).expect("in time");
    assert_eq!(a.next_event(), Some(Event::Output { instance: 150 }));
    let output = a.output(150).expect("an output");
    assert_eq!((output.run, &output.data[..]), (true, &[7, 8][..]));
    assert_eq!(a.assembly(AssemblyKind::Output, 150), Ok(vec![7, 8]));
    // the triad: serial 1, vendor 2, originator 3
    let close = [0x0A, 0x0E, 1, 0, 2, 0, 3, 0, 0, 0, 0, 0];
    assert_eq!(a.close(&close), Ok([1, 0, 2, 0, 3, 0, 0, 0, 0, 0]));
    assert_eq!(a.close(&close), Err(No::Nothing));
    assert_eq!(a.next_event(), Some(Event::Closed(connection)));
    assert!(!a.output(150).expect("an output").run);
    assert_eq!(a.next_deadline(), None);
}

#[test]
fn packets_come_out_as_they_go_on_the_wire() {
    let mut a = adapter();
    a.set_input(100, &[1, 2, 3]).expect("it fits");
    let multicast = request(1, 2, true, &[0x20, 4, 0x2C, 238, 0x2C, 100]);
    let opened = a.open(0, Service::ForwardOpen, &multicast, &origin()).expect("accepted");
    let group = SocketAddrV4::new(Ipv4Addr::new(239, 192, 13, 96), 2222);
    assert_eq!(opened.multicast, Some(group));
    a.open(0, Service::ForwardOpen, &owner(2), &origin()).expect("accepted");
    let mut room = [0xA5; MAX_PACKETS];
    assert_eq!(a.produce(0, &mut room[..73]).map(|_| ()), Err(No::Room));
    let packets: Vec<_> = a.produce(0, &mut room).expect("room").collect();
    assert_eq!(packets.len(), 2);
    assert_eq!((packets[0].destination, packets[0].multicast, packets[0].local), (group, true, origin().local));
    assert_eq!(packets[0].frame[..10], [2, 0, 0x02, 0x80, 8, 0, 2, 1, 0, 0]);
    assert_eq!(packets[0].frame[10..], [1, 0, 0, 0, 0xB1, 0, 6, 0, 1, 0, 1, 2, 3, 0]);
    assert_eq!(packets[1].destination, SocketAddrV4::new(PEER, 2222));
    assert_eq!(a.produce(1, &mut room).expect("room").count(), 0);
    assert_eq!(a.stats(), Stats { produced: 2, late: 0, max_late: 0 });
}

#[test]
fn a_refused_open_has_its_word_and_meaning() {
    let mut a = adapter();
    let refused = |a: &mut Adapter, bytes: &[u8]| match a.open(0, Service::ForwardOpen, bytes, &origin()) {
        Err(OpenError::Refused(refusal)) => refusal,
        other => panic!("{other:?}"),
    };
    let size = refused(&mut a, &request(1, 9, false, &[0x20, 4, 0x2C, 150, 0x2C, 100]));
    assert_eq!((size.general, size.word, size.size), (0x01, Word(0x0109), Some(8)));
    assert_eq!(size.words().collect::<Vec<_>>(), [0x0109, 8]);
    assert_eq!(size.to_string(), "0x0109 invalid connection size; the size that fits follows (fits: 8)");
    let path = refused(&mut a, &request(1, 8, false, &[0x20, 4, 0x2C, 150, 0x2C, 101]));
    assert_eq!((path.word, path.size), (Word(0x0117), None));
    assert!(path.word.meaning().is_some() && path.word.rules() == Some("6.4"));
    assert!(Word::all().all(|w| w.meaning().is_some() && w.rules().is_some()));
    assert_eq!(Word(0x0200).meaning(), None);
    assert_eq!(open_refusal(Service::ForwardOpen, &owner(9)), Ok([9, 0, 2, 0, 3, 0, 0, 0, 0, 0]));
    assert_eq!(a.open(0, Service::LargeForwardOpen, &[0; 39], &origin()), Err(OpenError::No(No::Parse)));
    assert_eq!(a.open(1 << 63, Service::ForwardOpen, &owner(1), &origin()), Err(OpenError::No(No::Time)));
    assert_eq!(a.connections(), []);
}

#[test]
fn reasons_for_no() {
    let mut a = adapter();
    assert_eq!(a.set_input(150, &[0]), Err(No::Assembly));
    assert_eq!(a.set_input(0x1_0064, &[0]), Err(No::Assembly));
    assert_eq!(a.set_input(100, &[0; 5]), Err(No::TooLong));
    assert_eq!(a.output(100), Err(No::Assembly));
    assert_eq!(a.assembly(AssemblyKind::Configuration, 100), Err(No::Assembly));
    assert_eq!(a.receive(u64::MAX, PEER, &[]), Err(No::Time));
    assert_eq!(a.receive(0, PEER, &[1, 2, 3]), Ok(()));
    assert_eq!(a.expire(1 << 63), Err(No::Time));
    assert_eq!(a.close(&[0; 11]), Err(No::Parse));
    let all = [No::State, No::Setup, No::Time, No::Parse, No::Assembly, No::TooLong, No::Room, No::Nothing];
    assert_eq!(all.map(No::number), [1, 2, 3, 4, 6, 7, 8, 9]);
    assert_eq!(No::Room.to_string(), "no. 8: lent output shorter than the answer");
}

#[test]
fn configuration_is_stored_and_told() {
    let mut a = adapter();
    let with_data = request(1, 2, false, &[0x20, 4, 0x24, 199, 0x2C, 238, 0x2C, 100, 0x80, 1, 0xAB, 0xCD]);
    a.open(0, Service::ForwardOpen, &with_data, &origin()).expect("accepted");
    assert!(
        matches!(a.next_event(), Some(Event::Opened(c)) if c.kind == ConnectionKind::InputOnly && c.output.is_none())
    );
    assert_eq!(a.next_event(), Some(Event::Configured { instance: 199, length: 2 }));
    assert_eq!(a.assembly(AssemblyKind::Configuration, 199), Ok(vec![0xAB, 0xCD]));
}

#[test]
fn a_session_uploads_the_eds() {
    let a = adapter();
    let mut session = Session::new(Ipv4Addr::LOCALHOST, Ipv4Addr::new(255, 0, 0, 0));
    let mut ask = |service: u8, data: &[u8]| {
        let mut message = vec![service, 2, 0x20, 0x37, 0x24, 0xC8];
        message.extend(data);
        a.message(&mut session, &message).expect("room")
    };
    assert_eq!(ask(0x4F, &[0]), [0xCF, 0, 0x0C, 0]);
    assert_eq!(ask(0x4B, &[255]), [0xCB, 0, 0, 0, 3, 0, 0, 0, 240]);
    assert_eq!(ask(0x4F, &[0]), [0xCF, 0, 0, 0, 0, 4, 1, 2, 3, 0xFA, 0xFF]);
}

#[test]
fn a_saved_state_goes_on_and_a_spoilt_one_is_refused() {
    let mut a = adapter();
    a.open(0, Service::ForwardOpen, &owner(1), &origin()).expect("accepted");
    let saved = a.as_bytes().to_vec();
    assert_eq!(saved.len(), Adapter::state_size());
    let mut b = Adapter::from_bytes(saved.clone()).expect("as the library left it");
    assert_eq!(b.expire(40_001), a.expire(40_001));
    assert_eq!(a.as_bytes(), b.as_bytes());
    assert_eq!(Adapter::from_bytes(saved[1..].to_vec()).map(|_| ()), Err(No::State));
    assert_eq!(Adapter::from_bytes(vec![0; saved.len()]).map(|_| ()), Err(No::State));
    // no transfer limit
    let mut spoilt = saved;
    spoilt[1] = 0;
    assert_eq!(Adapter::from_bytes(spoilt).map(|_| ()), Err(No::State));
}

#[test]
fn lent_state_of_the_wrong_size_is_answered_with_1_and_stays() {
    let good = adapter().as_bytes().to_vec();
    for size in [0, 1, good.len() - 1, good.len() + 1] {
        let mut state = good.clone();
        state.resize(size, 0);
        let before = state.clone();
        let (s, n) = (state.as_mut_ptr(), state.len());
        let (block, open) = (setup().block().expect("a block"), owner(1));
        let mut out = [0xA5; 600];
        let (o, m) = (out.as_mut_ptr(), out.len());
        // SAFETY: each pointer goes with the length of its slice.
        let answers = unsafe {
            let mut upload = vec![0; sys::threshtide_upload_size() as usize];
            [
                sys::threshtide_setup(s, n, block.as_ptr(), block.len(), block.as_ptr(), 0, 1),
                sys::threshtide_set_input(s, n, 100, block.as_ptr(), 1),
                sys::threshtide_output(s, n, 150, o, m),
                sys::threshtide_assembly(s, n, 1, 100, o, m),
                sys::threshtide_open(s, n, 0, 0x54, open.as_ptr(), open.len(), 1, 2, 3, false, 0, 0, 2222, o, m),
                sys::threshtide_close(s, n, open.as_ptr(), open.len(), o, m),
                sys::threshtide_receive(s, n, u64::MAX, 1, open.as_ptr(), open.len()),
                sys::threshtide_produce(s, n, u64::MAX, o, m),
                sys::threshtide_expire(s, n, u64::MAX),
                sys::threshtide_next_deadline(s, n, o, m),
                sys::threshtide_next_event(s, n, o, m),
                sys::threshtide_connections(s, n, o, m),
                sys::threshtide_stats(s, n, o, m),
                sys::threshtide_message(s, n, upload.as_mut_ptr(), upload.len(), 1, 2, open.as_ptr(), open.len(), o, m),
            ]
        };
        assert_eq!(answers, [1; 14], "a state of {size} bytes");
        assert!(state == before && out == [0xA5; 600]);
    }
}

#[test]
fn a_session_of_another_adapter_is_refused_where_its_upload_cannot_be() {
    let with = |eds: Option<Vec<u8>>| Adapter::new(&Setup { eds, ..setup() }, 1).expect("within the sizes");
    let (long, short, none) = (with(Some(vec![9; 1_000])), with(Some(vec![9; 3])), with(None));
    let mut session = Session::new(Ipv4Addr::LOCALHOST, Ipv4Addr::new(255, 0, 0, 0));
    let file = |service: u8, data: u8| [service, 2, 0x20, 0x37, 0x24, 0xC8, data];
    for message in [file(0x4B, 240), file(0x4F, 0), file(0x4F, 1)] {
        assert_eq!(long.message(&mut session, &message).expect("room")[2], 0);
    }
    let before = session.clone();
    assert_eq!(short.message(&mut session, &file(0x4F, 2)), Err(No::State));
    assert_eq!(none.message(&mut session, &file(0x4F, 2)), Err(No::State));
    assert_eq!(session, before);
    assert_eq!(long.message(&mut session, &file(0x4F, 2)).expect("room")[4..6], [2, 1]);
}
