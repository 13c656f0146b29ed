//! ciplink's calls as they are, for timing: nothing is turned into the C interface's numbers and bytes.

use super::forms::config;
use super::state::{Origin, State};
use super::wire::{self, ForwardOpen};
use std::net::{Ipv4Addr, SocketAddrV4};
use std::time::{Duration, Instant};

/// A state of ciplink's.
pub struct Raw {
    state: State,
    base: Instant,
}

impl Raw {
    /// None where setup answers No. 2.
    pub fn new(block: &[u8], eds: &[u8], seed: u32) -> Option<Raw> {
        Some(Raw { state: State::new(config(block, eds)?, seed), base: Instant::now() })
    }

    /// The time as ciplink takes it.
    pub fn at(&self, time: u64) -> Instant {
        self.base + Duration::from_micros(time)
    }

    /// Whether the open was accepted. The request is decoded here, as the server does before it calls.
    pub fn open(&mut self, request: &[u8], peer: Ipv4Addr, local: Ipv4Addr, now: Instant) -> bool {
        let origin = Origin { peer, local, mask: Ipv4Addr::new(255, 255, 255, 0), t_o_sockaddr: None, io_port: 2222 };
        ForwardOpen::decode(request, false).is_some_and(|fo| self.state.open(&fo, &origin, now).is_ok())
    }

    /// Takes the last open back, without a close: its connection and its event.
    pub fn forget_open(&mut self) {
        self.state.conns.pop();
        self.state.events.pop_back();
    }

    pub fn close(&mut self, request: &[u8]) -> Vec<u8> {
        match wire::decode_forward_close(request) {
            Some((triad, _)) if self.state.close(triad) => wire::forward_close_reply(triad),
            _ => Vec::new(),
        }
    }

    pub fn receive(&mut self, frame: &[u8], from: SocketAddrV4, now: Instant) {
        self.state.receive(frame, from, now);
    }

    /// How many packets there were; they are made, looked at and dropped.
    pub fn produce(&mut self, now: Instant) -> usize {
        std::hint::black_box(self.state.produce(now)).len()
    }

    pub fn expire(&mut self, now: Instant) {
        self.state.expire(now);
    }

    pub fn next_deadline(&self) -> Option<Instant> {
        self.state.next_deadline()
    }

    pub fn set_input(&mut self, instance: u32, data: &[u8]) -> bool {
        self.state.set_input(instance, data).is_ok()
    }

    /// Output data and run, the oldest event, and the number of connections: to see that both did the same.
    pub fn output(&mut self, instance: u32) -> Option<(Vec<u8>, bool)> {
        self.state.output(instance).map(|o| (o.data, o.run))
    }

    pub fn next_event(&mut self) -> bool {
        self.state.events.pop_front().is_some()
    }

    pub fn connections(&self) -> usize {
        self.state.conns.len()
    }

    pub fn produced(&self) -> u64 {
        self.state.stats.produced
    }

    /// The O→T id of the connection in a row.
    pub fn o_t_id(&self, row: usize) -> u32 {
        self.state.conns[row].o_t_id
    }
}
