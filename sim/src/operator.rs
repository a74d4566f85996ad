//! The operator of a host: what is said on its standard input, how the shell brings it to the machine (`channel.rs` and
//! `operating.rs` of `warp_host` have that), and whether each answer is the one that may come.

use crate::client::Nature;
use crate::draw::Draw;
use crate::library::Machine;
use crate::tokens::{TokenFile, VERSIONS};
use crate::world::World;
use std::collections::VecDeque;

/// So many bytes of standard input are read at once, and a longer line is no word.
const PIECE: u64 = 64;
const LONGEST_LINE: usize = 4_096;

/// What an operator says.
#[derive(Clone, Copy, Debug, PartialEq, Eq)]
pub enum Say {
    Stop,
    Status,
    /// The file of tokens is so, and is to be read again.
    Tokens(TokenFile),
    Level(&'static str),
    /// What is no word.
    Nonsense(&'static str),
    /// The same, with so many bytes.
    Long(usize),
}

impl Say {
    /// What is drawn.
    pub fn draw(draw: &mut Draw) -> Say {
        match draw.below(12) {
            0..=2 => Say::Status,
            3..=6 => Say::Tokens(match draw.below(10) {
                0..=5 => TokenFile::Version(draw.below(VERSIONS.len() as u64) as usize),
                6 => TokenFile::Bad,
                7 => TokenFile::Empty,
                8 => TokenFile::Unread,
                _ => TokenFile::Shown,
            }),
            7 => Say::Level(*draw.of(&["error", "warn", "info"])),
            8 => Say::Nonsense(*draw.of(&["", "stop ", "Stop", "log-level", "log-level loud", "status 1", "tokens\r"])),
            9 => Say::Long(*draw.of(&[1, 63, 64, 4_096, 4_097, 9_000])),
            _ => Say::Stop,
        }
    }

    /// Its line.
    fn line(self) -> String {
        match self {
            Say::Stop => "stop".into(),
            Say::Status => "status".into(),
            Say::Tokens(_) => "tokens".into(),
            Say::Level(level) => format!("log-level {level}"),
            Say::Nonsense(line) => line.into(),
            Say::Long(len) => "s".repeat(len),
        }
    }
}

/// The standard input of a host.
#[derive(Default)]
pub struct Channel {
    /// What came and was not read, and what was read of a line that has not ended.
    input: VecDeque<u8>,
    line: Vec<u8>,
    /// What was said and not answered.
    said: VecDeque<Say>,
    /// The greatest horizon of a status.
    horizon: (u64, u64),
    /// So many connections are to be closed in this round, these among them.
    to_close: u32,
    losers: Vec<(usize, usize)>,
}

impl Channel {
    /// Whether there is something to read.
    pub fn is_due(&self) -> bool {
        !self.input.is_empty()
    }
}

impl World {
    /// An operator says this to a host, if it runs.
    pub fn operate(&mut self, host: usize, say: Say) {
        if self.hosts[host].machine.is_none() {
            return;
        }
        if let Say::Tokens(file) = say {
            self.hosts[host].token_file = file;
        }
        let channel = &mut self.hosts[host].shell.channel;
        channel.input.extend(say.line().bytes().chain([b'\n']));
        channel.said.push_back(say);
        self.wake_worker(host);
    }

    /// Reads standard input once, and has done what its lines say.
    pub fn look_at_input(&mut self, host: usize, machine: &mut Machine) {
        if !self.hosts[host].shell.channel.is_due() {
            return;
        }
        let most = if self.draws.network.one_in(4) { self.draws.network.range(1, PIECE) } else { PIECE };
        machine.seen(self.hosts[host].durable.synced, 0);
        for _ in 0..most {
            let channel = &mut self.hosts[host].shell.channel;
            match channel.input.pop_front() {
                None => return,
                Some(b'\n') => {
                    let line = std::mem::take(&mut channel.line);
                    self.obey(host, if line.len() > LONGEST_LINE { b"" } else { &line }, machine);
                }
                Some(byte) => channel.line.push(byte),
            }
        }
    }

    /// Has a line done, and looks at its answer.
    fn obey(&mut self, host: usize, line: &[u8], machine: &mut Machine) {
        let now = self.clock(host);
        let file = self.hosts[host].token_file;
        let answer = machine.operator(line, now).unwrap_or_else(|| machine.tokens_read(file.text(), now));
        self.note(&format!("its operator says {:?}, and is told {answer}", String::from_utf8_lossy(line)), host);
        let Some(say) = self.hosts[host].shell.channel.said.pop_front() else {
            return self.fail(format!("an operator of host {host} is answered for nothing: {answer}"));
        };
        let right = match say {
            Say::Stop => {
                self.kinds.stops += 1;
                self.begin_end(host);
                answer == "ok"
            }
            Say::Status => return self.check_status(host, &answer, machine),
            Say::Tokens(_) if !self.has_tokens => answer == "no tokens: the host began without --tokens",
            Say::Tokens(_) => match (file, file.refusal()) {
                (TokenFile::Version(version), _) => self.change_tokens(host, version, &answer),
                (_, refusal) => refusal == Some(&answer),
            },
            Say::Level(_) => answer == "ok",
            Say::Nonsense(line) if line.starts_with("log-level") => answer == "no level: error, warn or info",
            Say::Nonsense(_) | Say::Long(_) => answer == "no word: stop, status, tokens, log-level L",
        };
        if !right {
            self.fail(format!("an operator of host {host} says {say:?}, and is told {answer}"));
        }
    }

    /// A host ends in order from now on: what it has read of its clients by then is answered.
    pub fn begin_end(&mut self, host: usize) {
        let clock = self.clock(host);
        let it = &mut self.hosts[host];
        if it.ends_since.is_some() {
            return;
        }
        it.ends_clock = clock;
        it.ends_since = Some((self.now, it.failures));
        self.kinds.ends_in_order += 1;
        for conn in self.conns.iter_mut().filter(|conn| conn.host == host && conn.epoch == it.epoch) {
            conn.heard_by_end = Some(conn.heard);
        }
    }

    /// Whether a status is so.
    fn check_status(&mut self, host: usize, answer: &str, machine: &Machine) {
        self.kinds.statuses += 1;
        let it = &mut self.hosts[host];
        let is_failing = it.shell.is_told_failing;
        let peers = if it.ends_since.is_some() { 0 } else { it.peers.len() };
        let numbers: Vec<u64> = answer.split(' ').filter_map(|word| word.parse().ok()).collect();
        let [_, _, _, room, _, found, all, time, microstep, ..] = numbers[..] else {
            return self.fail(format!("a status of host {host} is {answer}"));
        };
        let shape = format!(
            "ok clients {} {} records {} {room} synced {} peers {found} {peers} horizon {time} {microstep} full 0 failing {}",
            it.shell.count(), self.most_clients, machine.len(), it.durable.synced, u8::from(is_failing)
        );
        let horizon = (time, microstep);
        let state = it.known_mut().history.all();
        let is_grown = horizon >= it.shell.channel.horizon && horizon <= state.horizon;
        let is_right = answer == shape && found <= all && room >= 10_000 && is_grown;
        it.shell.channel.horizon = horizon;
        if !is_right {
            self.fail(format!("a status of host {host} is {answer}; expected {shape}, horizon up to {:?}", state.horizon));
        }
    }

    /// Other tokens are there from now on, and so many connections are to be closed: at least those of which it is known that
    /// they lose their token. Whether the answer says that.
    fn change_tokens(&mut self, host: usize, version: usize, answer: &str) -> bool {
        let Some(count) = answer.strip_prefix("ok closed ").and_then(|count| count.parse::<u32>().ok()) else { return false };
        let it = &mut self.hosts[host];
        let before = it.known().version();
        it.known_mut().versions.push(version);
        it.shell.channel.to_close += count;
        self.kinds.token_changes += 1;
        self.kinds.tokens_lost += u32::from(count > 0);
        let epoch = self.hosts[host].epoch;
        for at in 0..self.clients.len() {
            let client = &mut self.clients[at];
            let Some(conn) = client.conn.filter(|_| client.host == host) else { continue };
            client.may_lose_token(before, version);
            let it = &self.conns[conn];
            let is_here = it.epoch == epoch && it.who.is_some() && !it.is_left_by_host;
            if is_here && client.nature != Nature::Hostile && client.loses_token(before, version) {
                self.hosts[host].shell.channel.losers.push((at, conn));
            }
        }
        true
    }

    /// What an operator's words were to close in this round is closed.
    pub fn look_at_closed(&mut self, host: usize) {
        let shell = &mut self.hosts[host].shell;
        let to_close = std::mem::take(&mut shell.channel.to_close);
        let losers = std::mem::take(&mut shell.channel.losers);
        if shell.closed < to_close || losers.len() as u32 > to_close {
            let why = format!("host {host} was to close {to_close} connections, {} for a token: {}", losers.len(), shell.closed);
            return self.fail(why);
        }
        for (client, conn) in losers {
            if !self.conns[conn].is_left_by_host {
                self.fail(format!("client {client} of host {host} lost its token, and is not closed"));
            }
        }
    }
}
