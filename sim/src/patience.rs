//! Clients that say nothing, or too little: how long a host bears them, by its clock, and that it bears all others.

use crate::client::{Nature, Speech, TOKEN_WITHIN};
use crate::library::Who;
use crate::making::Shape;
use crate::talk::What;
use crate::tokens::rights_in;
use crate::wire::Caller;
use crate::world::World;

const SECOND: u64 = 1_000_000;

/// Who speaks WebSocket may be silent so long, and is pinged before; a head comes within this.
const LONGEST_SILENCE: u64 = 60 * SECOND;
const LONGEST_HEAD: u64 = 10 * SECOND;
const NO_PING: i64 = 29 * SECOND as i64;

/// A host looks once a second.
const LOOK: u64 = SECOND + SECOND / 10;

/// What comes of a head, a byte at a time.
const HEAD: &[u8] = b"GET / HTTP/1.1\r\nHost: localhost:4000\r\nX: ";

impl World {
    /// A client of few words does something.
    pub fn say_little(&mut self, client: usize) {
        let it = &mut self.clients[client];
        match it.nature {
            Nature::Silent if !std::mem::replace(&mut it.has_begun, true) => {
                let mut lines = String::new();
                self.say(client, "program", What::Program, &mut lines);
                self.post(client, &lines);
            }
            Nature::HalfHead => {
                it.fed += 1;
                let byte = HEAD.get(it.fed as usize - 1).copied().unwrap_or(b'y');
                it.outbox.push_back(byte);
            }
            _ => {}
        }
    }

    /// Until when, by its clock, a host bears a client, if there is an end to it.
    fn bears_until(&self, host: usize, who: Who) -> Option<u64> {
        let seat = self.hosts[host].shell.seat_of(who)?;
        let Caller::Client(client) = self.conns[seat.conn].caller else { return None };
        let it = &self.clients[client];
        if it.conn != Some(seat.conn) {
            return None;
        }
        let until = match (it.nature, it.speech) {
            (Nature::Silent, Speech::Web) if it.is_upgraded => Some(seat.heard_at + LONGEST_SILENCE),
            (Nature::HalfHead, _) => seat.first_at.map(|first| first + LONGEST_HEAD),
            _ => None,
        };
        let brings = it.speech == Speech::Http || !it.brings_nothing() || !self.has_tokens;
        let stranger = (it.nature == Nature::HalfHead || !brings).then_some(seat.came_at + TOKEN_WITHIN);
        match (until, stranger.filter(|_| self.has_tokens)) {
            (Some(until), Some(stranger)) => Some(until.min(stranger)),
            (until, stranger) => until.or(stranger),
        }
    }

    /// A client is closed: if it says too little, not before its time. A host that ends closes all.
    pub fn look_at_early(&mut self, host: usize, who: Who) {
        if self.shape != Shape::Patient || self.hosts[host].is_ending() {
            return;
        }
        let now = self.clock(host);
        let nature = self.hosts[host].shell.seat_of(who).and_then(|seat| match self.conns[seat.conn].caller {
            Caller::Client(client) => Some(self.clients[client].nature),
            Caller::Peer { .. } => None,
        });
        if !matches!(nature, Some(Nature::Silent | Nature::HalfHead | Nature::Mute)) {
            return;
        }
        if let Some(until) = self.bears_until(host, who) {
            self.kinds.silent += 1;
            // A place may be wanted for who brings a token.
            let is_crowded = self.has_tokens && (self.hosts[host].shell.count() as u32 + 1) * 2 >= self.most_clients;
            if now < until && !is_crowded {
                self.fail(format!("host {host} closes the client with the key {} {} microseconds early", who.key, until - now));
            }
        }
    }

    /// Nobody is there who says too little for longer than a host bears it.
    pub fn look_at_late(&mut self, host: usize) {
        if self.shape != Shape::Patient || self.hosts[host].is_ending() {
            return;
        }
        self.look_at_reasons(host);
        let now = self.clock(host);
        for who in self.hosts[host].shell.all() {
            if self.bears_until(host, who).is_some_and(|until| now > until + LOOK) {
                self.fail(format!("host {host} bears the client with the key {} for too long", who.key));
            }
        }
    }

    /// A client is pinged: not before it was silent for long.
    pub fn hear_ping(&mut self, client: usize) -> Result<(), String> {
        let it = &self.clients[client];
        let silence = self.now as i64 - it.said_at;
        if silence < NO_PING && !it.may_be_closed {
            return Err(format!("it is pinged {silence} microseconds behind what it said"));
        }
        Ok(())
    }

    /// A peer is given up: it is lost, or may be thought so. Where tokens change it may be refused.
    pub fn look_at_given_up(&mut self, host: usize, peer: u32, number: u64) {
        let Some(link) = self.hosts[host].shell.links.get(peer as usize) else { return };
        let (true, Some(conn)) = (link.number == number && link.has_come, link.conn) else { return };
        let it = &self.conns[conn];
        let other = &self.hosts[it.host];
        let is_lost = it.liar.is_some() || it.is_dead || it.is_reset || it.is_left_by_host || it.is_doubtful;
        let is_away = other.epoch != it.epoch || other.is_ending() || self.hosts[host].is_ending();
        let is_refused = other.known().versions.iter().any(|version| rights_in(*version, "all").is_none());
        if !is_lost && !is_away && !is_refused {
            self.fail(format!("host {host} gives up its peer {peer}, which is there"));
        }
    }
}
