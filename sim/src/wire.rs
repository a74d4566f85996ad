//! Connections of the world: bytes on their way, how far they came, and how a connection ends.

use crate::draw::Draw;
use crate::liar::Liar;
use crate::library::Who;
use std::collections::VecDeque;

/// Who made a connection.
#[derive(Clone, Copy, Debug, PartialEq, Eq)]
pub enum Caller {
    Client(usize),
    /// This peer of this host, by the connection of this number.
    Peer { host: usize, epoch: u64, peer: u32, number: u64 },
}

/// Bytes that were sent and did not arrive, and when they do.
struct Segment {
    at: u64,
    bytes: Vec<u8>,
}

/// The bytes in one direction.
pub struct Way {
    flight: VecDeque<Segment>,
    /// What has arrived, of which the first so many bytes were read.
    inbox: Vec<u8>,
    begins: usize,
    /// How many bytes were sent and not read.
    held: usize,
    /// How many may be.
    pub room: usize,
    last: u64,
    /// The sender says no more, and when that arrives.
    end: Option<u64>,
    /// That has arrived.
    has_ended: bool,
    /// In all, how many bytes were sent.
    pub sent: u64,
    /// An event tells when the next of it arrives.
    pub is_scheduled: bool,
}

impl Way {
    /// A way of so much room on which nothing is.
    fn new(room: usize) -> Way {
        Way {
            flight: VecDeque::new(),
            inbox: Vec::new(),
            begins: 0,
            held: 0,
            room,
            last: 0,
            end: None,
            has_ended: false,
            sent: 0,
            is_scheduled: false,
        }
    }

    /// How many bytes more may be sent.
    pub fn free(&self) -> usize {
        if self.end.is_some() { 0 } else { self.room.saturating_sub(self.held) }
    }

    /// Sends bytes, for which there is room, in drawn pieces; when the last of them arrives.
    pub fn send(&mut self, bytes: &[u8], now: u64, delay: u64, draw: &mut Draw) -> u64 {
        let mut rest = bytes;
        while !rest.is_empty() {
            let cut = if draw.one_in(3) { draw.range(1, rest.len() as u64) as usize } else { rest.len() };
            self.last = self.last.max(now + 1 + draw.time(delay));
            self.flight.push_back(Segment { at: self.last, bytes: rest[..cut].to_vec() });
            rest = &rest[cut..];
        }
        self.held += bytes.len();
        self.sent += bytes.len() as u64;
        self.last
    }

    /// Says that nothing more is sent; when that arrives.
    pub fn finish(&mut self, now: u64, delay: u64, draw: &mut Draw) -> u64 {
        self.last = self.last.max(now + 1 + draw.time(delay));
        if self.end.is_none() {
            self.end = Some(self.last);
        }
        self.last
    }

    /// What was sent and did not arrive is later by so much.
    pub fn hold_back(&mut self, until: u64) -> u64 {
        for segment in &mut self.flight {
            segment.at = segment.at.max(until);
        }
        self.end = self.end.map(|at| if self.has_ended { at } else { at.max(until) });
        self.last = self.last.max(until);
        self.last
    }

    /// When the next of it arrives, if something is on its way and no event tells so.
    pub fn next_arrival(&mut self) -> Option<u64> {
        let end = self.end.filter(|_| !self.has_ended);
        let at = self.flight.front().map(|segment| segment.at).or(end)?;
        if std::mem::replace(&mut self.is_scheduled, true) { None } else { Some(at) }
    }

    /// What has arrived by now is there; whether anything is new.
    pub fn arrive(&mut self, now: u64) -> bool {
        let mut is_new = false;
        while self.flight.front().is_some_and(|segment| segment.at <= now) {
            let segment = self.flight.pop_front().expect("it is there");
            self.inbox.extend_from_slice(&segment.bytes);
            is_new = true;
        }
        if !self.has_ended && self.flight.is_empty() && self.end.is_some_and(|at| at <= now) {
            self.has_ended = true;
            is_new = true;
        }
        is_new
    }

    /// How many bytes may be read.
    pub fn ready(&self) -> usize {
        self.inbox.len() - self.begins
    }

    /// Reads so many bytes at most.
    pub fn read(&mut self, most: usize) -> Vec<u8> {
        let count = most.min(self.ready());
        self.held -= count;
        let bytes = self.inbox[self.begins..self.begins + count].to_vec();
        self.begins += count;
        if self.begins == self.inbox.len() {
            self.inbox.clear();
            self.begins = 0;
        }
        bytes
    }

    /// How many bytes were read in all.
    pub fn was_read(&self) -> u64 {
        self.sent - self.held as u64
    }

    /// Whether the end of what comes is reached.
    pub fn is_at_end(&self) -> bool {
        self.has_ended && self.ready() == 0
    }

    /// Whether the sender's end has arrived.
    pub fn has_ended(&self) -> bool {
        self.has_ended
    }
}

/// A connection.
pub struct Conn {
    pub caller: Caller,
    /// The host that was called, and the so-manieth time that it ran.
    pub host: usize,
    pub epoch: u64,
    /// From the caller to the host, and back.
    pub up: Way,
    pub down: Way,
    /// Who it is to the host, once it was let in.
    pub who: Option<Who>,
    /// Both ends are told that it is gone, or find it so.
    pub is_reset: bool,
    /// Nothing arrives on it any more, and nobody is told.
    pub is_dead: bool,
    /// The host has closed it: nothing of it is known there.
    pub is_left_by_host: bool,
    /// The caller has.
    pub is_left_by_caller: bool,
    /// The host was asked for it, and has not let it in.
    pub is_waiting: bool,
    /// The longest delay of what is sent on it.
    pub delay: u64,
    /// How many bytes the host has heard of it, and had when it began to end in order.
    pub heard: u64,
    pub heard_by_end: Option<u64>,
    /// The host may have closed it before it told all.
    pub is_cut_short: bool,
    /// How long it was there when the host closed it, by the host's clock, and with how many others.
    pub closed_behind: Option<u64>,
    pub was_crowded: bool,
    /// What passes on it was held up, or the clock of the host that made it jumped: it may be thought dead.
    pub is_doubtful: bool,
    /// It leads to one that is no host.
    pub liar: Option<Liar>,
}

impl Conn {
    /// A connection that is being made.
    pub fn new(caller: Caller, host: usize, epoch: u64, room: usize, delay: u64) -> Conn {
        Conn {
            caller,
            host,
            epoch,
            up: Way::new(room),
            down: Way::new(room),
            who: None,
            is_reset: false,
            is_dead: false,
            is_left_by_host: false,
            is_left_by_caller: false,
            is_waiting: false,
            delay,
            heard: 0,
            heard_by_end: None,
            is_cut_short: false,
            closed_behind: None,
            was_crowded: false,
            is_doubtful: false,
            liar: None,
        }
    }
}
