//! The host's answers on real sockets, right ones and wrong ones.

use demo::capture::Capture;
use demo::cip::{self, Direction, ForwardOpen, Reply, Triad};
use demo::clock::Clock;
use demo::cpf;
use demo::encap::{self, Frame};
use demo::host::{Application, Config, Host, Inputs, Notes};
use demo::lane;
use demo::story::originator::{Answer, Originator, browse};
use std::io::{Read, Write};
use std::net::{Ipv4Addr, SocketAddrV4, TcpStream};
use std::sync::{Arc, Mutex};
use std::time::Duration;
use threshtide::{Event, Output, Refusal};

struct Quiet;

impl Application for Quiet {
    fn output(&mut self, _: u64, _: u16, _: &Output, _: &mut Inputs) {}
    fn happened(&mut self, _: u64, _: &Event) {}
    fn refused(&mut self, _: u64, _: Ipv4Addr, _: &Refusal) {}
    fn trouble(&mut self, _: u64, what: &str) {
        panic!("{what}");
    }
}

/// A host for one test, which stops at its end.
struct Running {
    host: Option<Host>,
    target: SocketAddrV4,
}

impl Running {
    fn start() -> Running {
        let address = Ipv4Addr::LOCALHOST;
        let mask = Ipv4Addr::new(255, 0, 0, 0);
        let config = Config { address, mask, port: 0, io_port: 0, setup: lane::setup(), seed: 1 };
        let host = Host::start(config, Box::new(Quiet), Clock::new(), Notes::default()).unwrap();
        let target = SocketAddrV4::new(address, host.port());
        Running { host: Some(host), target }
    }

    fn session(&self) -> Originator {
        Originator::connect(self.target, &Default::default()).unwrap()
    }

    fn raw(&self) -> TcpStream {
        let stream = TcpStream::connect(self.target).unwrap();
        stream.set_read_timeout(Some(Duration::from_secs(3))).unwrap();
        stream
    }
}

impl Drop for Running {
    fn drop(&mut self) {
        self.host.take().unwrap().stop();
    }
}

fn ask(stream: &mut TcpStream, frame: &Frame) -> Frame {
    stream.write_all(&frame.bytes()).unwrap();
    Frame::of_stream(stream).unwrap().expect("an answer")
}

fn ended(stream: &mut TcpStream) -> bool {
    stream.read(&mut [0]).is_ok_and(|size| size == 0)
}

fn open(t_o: Direction) -> ForwardOpen {
    ForwardOpen {
        large: false,
        t_o_id: 7,
        triad: Triad { serial: 1, vendor: 2, originator: 3 },
        multiplier: 7,
        o_t: Direction { rpi: 100_000, size: lane::OUTPUT_SIZE + 6, multicast: false },
        t_o,
        path: cip::assembly_path(&[lane::OUTPUT as u8, lane::INPUT as u8], &[]),
    }
}

const TO_ONE: Direction = Direction { rpi: 100_000, size: lane::INPUT_SIZE + 2, multicast: false };

#[test]
fn sessions_are_registered_once_and_by_version_1() {
    let running = Running::start();
    let mut stream = running.raw();
    let register = |data: &[u8]| Frame::command(encap::REGISTER_SESSION, 0, data.to_vec());
    assert_eq!(ask(&mut stream, &register(&[2, 0, 0, 0])).status, encap::UNSUPPORTED_VERSION);
    assert_eq!(ask(&mut stream, &register(&[1, 0])).status, encap::INVALID_LENGTH);
    let answer = ask(&mut stream, &Frame { context: *b"context!", ..register(&[1, 0, 0, 0]) });
    assert_eq!((answer.status, &answer.data[..], &answer.context), (0, &[1, 0, 0, 0][..], b"context!"));
    assert_ne!(answer.session, 0);
    assert_eq!(ask(&mut stream, &register(&[1, 0, 0, 0])).status, encap::INVALID_COMMAND);
    assert_ne!(running.session().session(), answer.session);
}

#[test]
fn messages_need_a_session_and_whole_items() {
    let running = Running::start();
    let mut stream = running.raw();
    let message = cip::get_single(1, 1, 1);
    let data = cpf::write_rr(&[(cpf::NULL_ADDRESS, &[]), (cpf::UNCONNECTED_DATA, &message)]);
    let send = |session, data: &[u8]| Frame::command(encap::SEND_RR_DATA, session, data.to_vec());
    assert_eq!(ask(&mut stream, &send(0, &data)).status, encap::INVALID_SESSION);
    let session = ask(&mut stream, &Frame::command(encap::REGISTER_SESSION, 0, vec![1, 0, 0, 0])).session;
    assert_eq!(ask(&mut stream, &send(session + 1, &data)).status, encap::INVALID_SESSION);
    assert_eq!(ask(&mut stream, &send(session, &data[..data.len() - 1])).status, encap::BAD_DATA);
    let without = cpf::write_rr(&[(cpf::NULL_ADDRESS, &[])]);
    assert_eq!(ask(&mut stream, &send(session, &without)).status, encap::BAD_DATA);
    let answer = ask(&mut stream, &send(session, &data));
    let vendor = lane::setup().vendor.to_le_bytes();
    let reply = [&[0x8E, 0, 0, 0][..], &vendor].concat();
    assert_eq!((answer.status, answer.data), (0, cpf::write_rr(&[(0, &[]), (cpf::UNCONNECTED_DATA, &reply)])));
}

#[test]
fn other_commands() {
    let running = Running::start();
    let mut stream = running.raw();
    // not answered: the next answer is to the next command
    stream.write_all(&Frame::command(encap::NOP, 0, vec![1, 2, 3]).bytes()).unwrap();
    let services = ask(&mut stream, &Frame::command(encap::LIST_SERVICES, 0, vec![]));
    assert_eq!((services.command, services.status), (encap::LIST_SERVICES, 0));
    assert!(services.data.ends_with(b"\x20\x01Communications\0\0"));
    assert_eq!(ask(&mut stream, &Frame::command(encap::LIST_INTERFACES, 0, vec![])).data, [0, 0]);
    for command in [0x0070, 0x1234] {
        assert_eq!(ask(&mut stream, &Frame::command(command, 0, vec![])).status, encap::INVALID_COMMAND);
    }
    stream.write_all(&Frame::command(encap::UNREGISTER_SESSION, 0, vec![]).bytes()).unwrap();
    assert!(ended(&mut stream));
}

#[test]
fn browsers_get_an_answer_and_nonsense_gets_none() {
    let running = Running::start();
    let socket = std::net::UdpSocket::bind((Ipv4Addr::LOCALHOST, 0)).unwrap();
    socket.set_read_timeout(Some(Duration::from_millis(200))).unwrap();
    let nonsense: [&[u8]; 3] = [&[], &[0x63; 23], &Frame::command(0x6F, 0, vec![0; 9]).bytes()];
    for bytes in nonsense {
        socket.send_to(bytes, running.target).unwrap();
    }
    assert!(socket.recv_from(&mut [0; 99]).is_err());
    let data = browse(Ipv4Addr::LOCALHOST, running.target).unwrap();
    let items = cpf::read(&data).unwrap();
    let item = cpf::find(&items, cpf::IDENTITY).unwrap();
    assert_eq!(cpf::read_socket(&item[2..18]), Some(running.target));
}

#[test]
fn an_open_inside_an_unconnected_send_is_an_open() {
    let running = Running::start();
    let mut session = running.session();
    let inner = open(TO_ONE).message();
    let mut message = vec![cip::UNCONNECTED_SEND, 2, 0x20, 0x06, 0x24, 0x01, 0x0A, 0x0E];
    message.extend((inner.len() as u16).to_le_bytes());
    message.extend(&inner);
    message.extend([1, 0, 1, 0]); // route: port 1, link 0
    let (reply, _) = session.send(&message, None).unwrap();
    assert_eq!((reply.service, reply.general, reply.data.len()), (0xD4, 0, 26));
    let (reply, _) = session.send(&message[..12], None).unwrap();
    assert_eq!((reply.service, reply.general), (0xD2, cip::NOT_ENOUGH_DATA));
}

#[test]
fn opens_and_closes_that_are_cut_short() {
    let running = Running::start();
    let mut session = running.session();
    let message = open(TO_ONE).message();
    let (reply, _) = session.send(&message[..message.len() - 1], None).unwrap();
    assert_eq!(reply, Reply::to(cip::FORWARD_OPEN, cip::NOT_ENOUGH_DATA, vec![], vec![]));
    let close = cip::forward_close(open(TO_ONE).triad, &[]);
    let (reply, _) = session.send(&close[..close.len() - 1], None).unwrap();
    assert_eq!(reply, Reply::to(cip::FORWARD_CLOSE, cip::NOT_ENOUGH_DATA, vec![], vec![]));
    let (reply, _) = session.send(&close, None).unwrap();
    let triad = vec![1, 0, 2, 0, 3, 0, 0, 0, 0, 0];
    let not_found = vec![cip::CONNECTION_NOT_FOUND];
    assert_eq!(reply, Reply::to(cip::FORWARD_CLOSE, cip::CONNECTION_FAILURE, not_found, triad));
}

#[test]
fn a_size_that_does_not_fit_is_refused_with_the_size_that_does() {
    let running = Running::start();
    let wrong = open(Direction { size: 99, ..TO_ONE });
    let Answer::Refused(reply) = running.session().open(&wrong, None).unwrap() else { panic!("accepted") };
    assert_eq!((reply.general, reply.words), (0x01, vec![0x0109, lane::INPUT_SIZE + 2]));
    assert_eq!(reply.data, [1, 0, 2, 0, 3, 0, 0, 0, 0, 0]);
}

#[test]
fn other_services_and_objects() {
    let running = Running::start();
    let mut session = running.session();
    for (message, general) in [
        (vec![0x0E, 2, 0x20, 0x06, 0x24, 0x01], 0x08), // the Connection Manager has no attributes here
        (vec![0x01, 2, 0x20, 0x01, 0x24, 0x01], 0x08), // get attributes all
        (vec![0x0E, 2, 0x20, 0x63, 0x24, 0x01], 0x05), // no such class
        (vec![0x0E, 9, 0x20], 0x04),                   // a path that is cut short
        (vec![], 0x04),
    ] {
        let (reply, socket) = session.send(&message, None).unwrap();
        assert_eq!((reply.general, socket), (general, None), "{message:02X?}");
    }
}

#[test]
fn packets_go_to_the_given_port_of_the_peer() {
    let running = Running::start();
    let socket = std::net::UdpSocket::bind((Ipv4Addr::LOCALHOST, 0)).unwrap();
    socket.set_read_timeout(Some(Duration::from_secs(3))).unwrap();
    // address 0.0.0.0: the peer's own, with this port
    let given = SocketAddrV4::new(Ipv4Addr::UNSPECIFIED, socket.local_addr().unwrap().port());
    let mut session = running.session();
    assert!(matches!(session.open(&open(TO_ONE), Some(given)).unwrap(), Answer::Opened(_, None)));
    let mut buffer = [0; 99];
    let (size, from) = socket.recv_from(&mut buffer).unwrap();
    let frame = demo::io::IoFrame::read(&buffer[..size]).unwrap();
    assert_eq!((frame.id, frame.sequence, frame.data), (7, 1, vec![0; 8]));
    assert_eq!(from.ip(), *running.target.ip());
}

/// A writer whose bytes the test can read.
#[derive(Clone, Default)]
struct Bytes(Arc<Mutex<Vec<u8>>>);

impl Write for Bytes {
    fn write(&mut self, bytes: &[u8]) -> std::io::Result<usize> {
        self.0.lock().unwrap().extend(bytes);
        Ok(bytes.len())
    }

    fn flush(&mut self) -> std::io::Result<()> {
        Ok(())
    }
}

#[test]
fn bound_to_all_addresses_a_stream_leaves_from_the_one_that_was_reached() {
    let bytes = Bytes::default();
    let clock = Clock::new();
    let capture = Capture::to(Box::new(bytes.clone()), clock).unwrap();
    let notes = Notes { capture: Some(Arc::new(capture)), ..Notes::default() };
    let address = Ipv4Addr::UNSPECIFIED;
    let config = Config { address, mask: address, port: 0, io_port: 0, setup: lane::setup(), seed: 1 };
    let host = Host::start(config, Box::new(Quiet), clock, notes).unwrap();
    let target = SocketAddrV4::new(Ipv4Addr::new(127, 0, 0, 7), host.port());
    let mut session = Originator::connect(target, &Default::default()).unwrap();
    let to_many = Direction { multicast: true, ..TO_ONE };
    let Answer::Opened(reply, group) = session.open(&open(to_many), None).unwrap() else { panic!("refused") };
    // host part 7 of loopback's 255.0.0.0: 6 times 32 behind 239.192.1.0
    assert_eq!(group, Some(SocketAddrV4::new(Ipv4Addr::new(239, 192, 1, 192), host.io_port())));
    std::thread::sleep(Duration::from_millis(300));
    host.stop();
    let file = bytes.0.lock().unwrap();
    let ends: Vec<u8> = [target.ip().octets(), group.unwrap().ip().octets()].concat();
    let id = reply.t_o_id.to_le_bytes();
    let mut packets = file.windows(8).enumerate().filter(|(_, window)| *window == ends);
    let (at, _) = packets.next().expect("a packet from the local address to the group");
    assert_eq!(file[at + 8 + 8 + 6..][..4], id, "the UDP header, then six bytes, then the stream's id");
    assert!(packets.next().is_some(), "and another");
}

#[test]
fn the_sixty_fifth_connection_is_closed_and_a_freed_place_is_used() {
    let running = Running::start();
    let mut streams: Vec<Originator> = (0..64).map(|_| running.session()).collect();
    assert!(ended(&mut running.raw()));
    assert!(streams.pop().unwrap().leave().unwrap());
    // the place is free once the thread that served it is gone
    let again = (0..100).any(|_| {
        std::thread::sleep(Duration::from_millis(10));
        Originator::connect(running.target, &Default::default()).is_ok()
    });
    assert!(again);
}

#[test]
fn stopping_does_not_wait_for_sessions() {
    let running = Running::start();
    let _idle = running.session();
    let clock = Clock::new();
    drop(running);
    assert!(clock.now() < 2_000_000);
}
