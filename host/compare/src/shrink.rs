//! The shortest run that can be found that still shows a difference.

use crate::block::{self, MOST_ASSEMBLIES, MOST_NAME};
use crate::call::{BLOCK, Call};
use crate::run::{Difference, Make, replay};
use std::time::{Duration, Instant};

struct Shrinker<'a> {
    first: Make<'a>,
    second: Make<'a>,
    calls: Vec<Call>,
    difference: Difference,
    /// The next id before each call.
    ids: Vec<u32>,
    until: Instant,
    tried: u64,
}

/// Shortens a run that shows a difference, for at most so long: calls left out, then calls made simpler. A run that
/// shows none when made again from fresh sides stays as it is.
pub fn shrink(
    first: Make,
    second: Make,
    calls: &[Call],
    difference: &Difference,
    most: Duration,
) -> (Vec<Call>, Difference) {
    let (again, ids) = replay(first, second, calls);
    let Some(again) = again else {
        return (calls.to_vec(), difference.clone());
    };
    let mut s = Shrinker {
        first,
        second,
        calls: calls[..=again.at].to_vec(),
        difference: again,
        ids,
        until: Instant::now() + most,
        tried: 0,
    };
    loop {
        let before = (s.calls.len(), s.weight());
        s.leave_out();
        s.simplify();
        s.plain_numbers();
        if (s.calls.len(), s.weight()) == before || s.late() {
            return (s.calls, s.difference);
        }
    }
}

impl Shrinker<'_> {
    fn late(&self) -> bool {
        Instant::now() >= self.until
    }

    /// The bytes of all calls: what `simplify` brings down.
    fn weight(&self) -> usize {
        self.calls.iter().map(weight).sum()
    }

    /// Takes a candidate if it still shows a difference.
    fn take(&mut self, calls: Vec<Call>) -> bool {
        self.tried += 1;
        let (difference, ids) = replay(self.first, self.second, &calls);
        let Some(difference) = difference else {
            return false;
        };
        self.calls = calls;
        self.calls.truncate(difference.at + 1);
        self.difference = difference;
        self.ids = ids;
        true
    }

    /// Leaves out stretches of calls, long ones first. The setup stays.
    fn leave_out(&mut self) {
        let mut size = (self.calls.len() / 2).max(1);
        loop {
            let mut end = self.calls.len();
            while end > 1 && !self.late() {
                let start = end.saturating_sub(size).max(1);
                if self.without(start, end) {
                    end = start.min(self.calls.len());
                } else {
                    end = start;
                }
            }
            if size == 1 || self.late() {
                return;
            }
            size /= 2;
        }
    }

    /// Leaves out calls; ids drawn after them may have to follow, since fewer were drawn before.
    fn without(&mut self, start: usize, end: usize) -> bool {
        let mut calls = self.calls[..start].to_vec();
        calls.extend_from_slice(&self.calls[end..]);
        let (before, after) = (self.ids[start], self.ids.get(end).copied().unwrap_or(self.ids[start]));
        if self.take(calls.clone()) {
            return true;
        }
        if before == after {
            return false;
        }
        for call in &mut calls[start..] {
            renumber(call, after, after.wrapping_sub(before));
        }
        self.take(calls)
    }

    /// Times from 0 on, ids from 1 on, few addresses and ports: each where the difference still shows.
    fn plain_numbers(&mut self) {
        let least = self.calls.iter_mut().filter_map(time_of).map(|t| *t).min().unwrap_or(0);
        self.change_all(&|call| {
            if let Some(time) = time_of(call) {
                *time -= least;
            }
        });
        let first = match &self.calls[0] {
            Call::Setup { seed, .. } => *seed | 1,
            _ => 1,
        };
        self.change_all(&|call| match call {
            Call::Setup { seed, .. } => *seed = 1,
            other => renumber(other, first, first.wrapping_sub(1)),
        });
        let mut peers: Vec<u32> = self.calls.iter_mut().filter_map(peer_of).map(|p| *p).collect();
        peers.sort_unstable();
        peers.dedup();
        self.change_all(&|call| {
            if let Some(peer) = peer_of(call) {
                let place = peers.binary_search(peer).unwrap_or(0);
                *peer = 0x0A00_0001 + place as u32;
            }
        });
        self.change_all(&|call| {
            if let Call::Open { local, mask, io_port, .. } = call {
                (*local, *mask, *io_port) = (0x0A00_0064, 0xFFFF_FF00, 2222);
            }
        });
    }

    /// Changes every call; taken if the run is no longer for it.
    fn change_all(&mut self, change: &dyn Fn(&mut Call)) {
        let mut calls = self.calls.clone();
        calls.iter_mut().for_each(change);
        if calls != self.calls && !self.late() {
            self.take(calls);
        }
    }

    fn simplify(&mut self) {
        let mut at = 0;
        while at < self.calls.len() {
            for simpler in simpler(&self.calls[at]) {
                if self.late() {
                    return;
                }
                if weight(&simpler) < weight(&self.calls[at]) {
                    let mut calls = self.calls.clone();
                    calls[at] = simpler;
                    self.take(calls);
                }
                if at >= self.calls.len() {
                    return;
                }
            }
            at += 1;
        }
    }
}

fn time_of(call: &mut Call) -> Option<&mut u64> {
    match call {
        Call::Open { time, .. } | Call::Receive { time, .. } | Call::Produce { time, .. } | Call::Expire { time } => {
            Some(time)
        }
        _ => None,
    }
}

fn peer_of(call: &mut Call) -> Option<&mut u32> {
    match call {
        Call::Open { peer, .. } => Some(peer),
        Call::Receive { from, .. } => Some(from),
        _ => None,
    }
}

/// Ids from `after` on were drawn `less` later than they now are.
fn renumber(call: &mut Call, after: u32, less: u32) {
    let bytes = match call {
        Call::Receive { frame, .. } => frame,
        Call::Open { request, .. } => request,
        _ => return,
    };
    if let Some(part) = bytes.get_mut(6..10) {
        let id = u32::from_le_bytes([part[0], part[1], part[2], part[3]]);
        if id.wrapping_sub(after) < 4096 {
            part.copy_from_slice(&id.wrapping_sub(less).to_le_bytes());
        }
    }
}

fn ones(bytes: &[u8]) -> usize {
    bytes.len() + bytes.iter().filter(|b| **b != 0).count()
}

/// How much there is to read in a call: bytes, and bytes that are not zero.
fn weight(call: &Call) -> usize {
    match call {
        Call::Setup { block, eds, .. } => ones(block) + ones(eds),
        Call::SetInput { data, .. } => ones(data),
        Call::Open { request, given, .. } => ones(request) + usize::from(*given),
        Call::OpenRefusal { request, .. } | Call::Close { request, .. } => ones(request),
        Call::Receive { frame, .. } => ones(frame),
        Call::Message { message, .. } | Call::Request { message, .. } => ones(message),
        Call::Path { path, .. } => ones(path),
        _ => 0,
    }
}

/// A setup without the assembly in a place.
fn without_assembly(block: &[u8], place: usize) -> Vec<u8> {
    let mut out = block.to_vec();
    let last = usize::from(block[block::ASSEMBLIES]) - 1;
    for i in place..last {
        for (from, to) in block::fields(i + 1).into_iter().zip(block::fields(i)) {
            out.copy_within(from, to.start);
        }
    }
    for i in last..MOST_ASSEMBLIES {
        block::fields(i).into_iter().for_each(|field| out[field].fill(0));
    }
    out[block::ASSEMBLIES] -= 1;
    out
}

/// The request with its path replaced.
fn with_path(request: &[u8], from: usize, path: &[u8]) -> Vec<u8> {
    let mut out = request[..from].to_vec();
    out[from - 1] = (path.len() / 2) as u8;
    out.extend(path);
    out
}

/// Calls that say less than this one.
fn simpler(call: &Call) -> Vec<Call> {
    let mut all = Vec::new();
    match call {
        Call::Setup { block, eds, seed }
            if block.len() == BLOCK && usize::from(block[block::ASSEMBLIES]) <= MOST_ASSEMBLIES =>
        {
            let mut change = |change: &dyn Fn(&mut Vec<u8>, &mut Vec<u8>)| {
                let (mut block, mut eds) = (block.clone(), eds.clone());
                change(&mut block, &mut eds);
                all.push(Call::Setup { block, eds, seed: *seed });
            };
            for place in (0..usize::from(block[block::ASSEMBLIES])).rev() {
                change(&|b, _| *b = without_assembly(block, place));
                let size = block::size(place);
                change(&|b, _| b[size + 1] = 0);
                change(&|b, _| {
                    b[size] = b[size].min(4);
                    b[size + 1] = 0;
                });
            }
            change(&|b, e| {
                b[block::EDS] = 0;
                e.clear();
            });
            change(&|_, e| e.truncate(e.len() / 2));
            change(&|b, _| {
                b[block::NAME_LENGTH] = 0;
                b[block::NAME..block::NAME + MOST_NAME].fill(0);
            });
            change(&|b, _| {
                b[block::EDS_NAME_LENGTH] = 0;
                b[block::EDS_NAME..block::EDS_NAME + MOST_NAME].fill(0);
            });
            change(&|b, _| b[block::MAC..block::MAC + 6].fill(0));
            change(&|b, _| b[block::SERIAL..block::SERIAL + 4].fill(0));
            change(&|b, _| {
                for i in usize::from(b[block::ASSEMBLIES])..MOST_ASSEMBLIES {
                    block::fields(i).into_iter().for_each(|field| b[field].fill(0));
                }
                b[block::SPARE..].fill(0);
            });
        }
        Call::SetInput { instance, data } => {
            for n in [0, data.len() / 2, data.len()] {
                let mut data = data.clone();
                data[..n].fill(0);
                all.push(Call::SetInput { instance: *instance, data });
            }
        }
        Call::Receive { time, from, frame } => {
            for start in [24, 20, 18] {
                if frame.len() > start {
                    let mut frame = frame.clone();
                    frame[start..].fill(0);
                    all.push(Call::Receive { time: *time, from: *from, frame });
                }
            }
        }
        Call::Open { service, request, .. } => {
            let from = if *service == 0x5B { 40 } else { 36 };
            let mut change = |new: Vec<u8>| {
                let mut call = call.clone();
                if let Call::Open { request, given, .. } = &mut call {
                    *request = new;
                    *given = false;
                }
                all.push(call);
            };
            change(request.clone());
            if request.len() > from {
                let end = (from + 2 * usize::from(request[from - 1])).min(request.len());
                change(request[..end].to_vec());
                let path = &request[from..end];
                if path.len() > 10 && path[0] == 0x34 {
                    change(with_path(request, from, &path[10..]));
                }
                for zero in [2..6, 6..10, 14..18, 0..2] {
                    let mut new = request.clone();
                    new[zero].fill(0);
                    change(new);
                }
            }
        }
        Call::Close { request, room } if request.len() > 12 => {
            let mut request = request[..12].to_vec();
            request[10] = 0;
            all.push(Call::Close { request, room: *room });
        }
        _ => {}
    }
    all
}
