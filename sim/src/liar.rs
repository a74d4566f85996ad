//! Peers that are no hosts: they say nothing, too little, too much or nonsense. A host gives each up in time, tries it again
//! behind pauses that grow, tells of it not too often, and takes nothing of it that the program refuses.

use crate::draw::Draw;
use crate::faults::Fault;
use crate::operator::Say;
use crate::oracle::Record;
use crate::wire::{Caller, Conn};
use crate::world::{Event, World};
use std::collections::BTreeSet;

const SECOND: u64 = 1_000_000;

/// Peers from this number on are liars, each with the lie of its number.
pub const LIARS: usize = 1 << 20;

/// A peer that says no whole line for so long is given up, and of a line that does not end no more is heard than this.
const LONGEST_SILENCE: u64 = 15 * SECOND;
const LOOK: u64 = SECOND + SECOND / 2;
const MOST_HEARD: u64 = 32_768;

/// So many tries come in front of those that follow each other by the longest pause.
const MOST_TRIES: u64 = 9;
const LONGEST_PAUSE: u64 = 5 * SECOND;

/// What a liar does.
#[derive(Clone, Copy, Debug, PartialEq, Eq)]
enum Lie {
    Silence,
    /// A line that is no answer, at once or behind a record.
    Nonsense,
    Record,
    /// Records that the program refuses.
    Refused,
    /// A line that does not end, at once or behind what is right; all at once or a byte now and then.
    LongLine,
    LongPush,
    Trickle,
    TricklePush,
    /// As many bytes of a line as one may have, or one more.
    Longest,
    TooLong,
}

const LIES: [Lie; 10] = [
    Lie::Silence,
    Lie::Nonsense,
    Lie::Record,
    Lie::Refused,
    Lie::LongLine,
    Lie::LongPush,
    Lie::Trickle,
    Lie::TricklePush,
    Lie::Longest,
    Lie::TooLong,
];

/// Who says no whole line is given up for its silence, and for nothing that it said.
const ENDLESS: [Lie; 4] = [Lie::Silence, Lie::Trickle, Lie::TricklePush, Lie::Longest];

/// A connection to a liar.
pub struct Liar {
    lie: Lie,
    kept: Vec<u8>,
    /// When it said something whole last, by the clock of who hears it.
    since: u64,
    /// It says what does not end, or nonsense in the next step.
    goes_on: bool,
}

/// What is known of a host and a liar since the host began.
#[derive(Default)]
pub struct Lies {
    began: u64,
    tries: u64,
    notes: u64,
    /// When records were told that are refused, for the first time.
    told_at: Option<u64>,
    /// For which reasons it was told that a record was refused.
    reasons: BTreeSet<String>,
}

impl Lies {
    /// Those of a host that begins now.
    pub fn since(began: u64) -> Lies {
        Lies { began, ..Lies::default() }
    }
}

/// A drawn liar.
pub fn draw_liar(draw: &mut Draw) -> usize {
    LIARS + draw.below(LIES.len() as u64) as usize
}

/// The name of a peer.
pub fn name_of(peer: usize) -> String {
    if peer >= LIARS { format!("liar{}:1", peer - LIARS) } else { format!("host{peer}:1") }
}

impl World {
    /// A connection of a host to a liar is begun.
    pub fn call_liar(&mut self, caller: Caller, host: usize, to: usize) -> usize {
        let conn = self.call(caller, host);
        let since = self.clock(host);
        self.conns[conn].liar = Some(Liar { lie: LIES[to - LIARS], kept: Vec::new(), since, goes_on: false });
        let lies = self.hosts[host].lies.entry(to).or_default();
        lies.tries += 1;
        let most = MOST_TRIES + (since - lies.began.min(since)) / LONGEST_PAUSE;
        if lies.tries > most {
            self.fail(format!("host {host} has tried {} more than {most} times", name_of(to)));
        }
        conn
    }

    /// A liar hears of a connection.
    pub fn liar_reached(&mut self, conn: usize) {
        let at = self.passes_at(conn) + 1 + self.draws.network.time(self.delay);
        self.push(at, Event::Made(conn));
        self.schedule(conn, true);
        self.push(at, Event::Liar(conn));
    }

    /// A liar does something, and does so again.
    pub fn lie(&mut self, conn: usize) {
        let Conn { caller: Caller::Peer { host, epoch, .. }, .. } = self.conns[conn] else { return };
        let it = &self.conns[conn];
        if self.hosts[host].epoch != epoch || it.is_left_by_caller || it.is_reset || it.is_dead {
            return;
        }
        self.kinds.lies += 1;
        // What it goes on with comes half a second behind what it answered.
        let goes_on = self.conns[conn].liar.as_ref().is_some_and(|liar| liar.goes_on);
        self.hear_of_host(conn, host);
        if goes_on {
            self.go_on_lying(conn);
        }
        self.look_at_liar(conn, host);
        self.push(self.now + SECOND / 2, Event::Liar(conn));
    }

    /// A liar answers the lines that came.
    fn hear_of_host(&mut self, conn: usize, host: usize) {
        let bytes = self.conns[conn].up.read(usize::MAX);
        let Some(liar) = &mut self.conns[conn].liar else { return };
        liar.kept.extend(bytes);
        let end = liar.kept.iter().rposition(|byte| *byte == b'\n').map_or(0, |at| at + 1);
        let lines: Vec<u8> = liar.kept.drain(..end).collect();
        for line in String::from_utf8_lossy(&lines).lines() {
            self.answer_host(conn, host, line);
        }
    }

    /// A liar answers a line.
    fn answer_host(&mut self, conn: usize, host: usize, line: &str) {
        let now = self.clock(host);
        let identity = format!("{}\n", self.identity);
        let Some(liar) = &mut self.conns[conn].liar else { return };
        if liar.goes_on && matches!(liar.lie, Lie::Longest | Lie::TooLong | Lie::LongPush | Lie::TricklePush) {
            // It is within a line.
            return;
        }
        let word = line.split(' ').next().unwrap_or("");
        let said = match (liar.lie, word) {
            (Lie::Silence | Lie::Trickle | Lie::LongLine, _) => {
                liar.goes_on = liar.lie != Lie::Silence;
                return;
            }
            (Lie::Nonsense, _) => "what\n".to_string(),
            (_, "program") => identity,
            (_, "log") => "none 0\n".to_string(),
            (lie, "watch") => {
                liar.goes_on = true;
                format!("watching 1\n{}", pushes(lie, line))
            }
            _ => "refused 1\n".to_string(),
        };
        liar.since = now;
        let lie = liar.lie;
        if lie == Lie::Record || lie == Lie::Refused {
            self.said.insert(TOLD);
        }
        if lie == Lie::Refused && word == "watch" {
            let place = LIES.iter().position(|other| *other == lie).unwrap_or(0);
            if let Some(lies) = self.hosts[host].lies.get_mut(&(LIARS + place)) {
                lies.told_at.get_or_insert(now);
            }
        }
        self.send_lie(conn, said.as_bytes());
    }

    /// A liar says more of what does not end.
    fn go_on_lying(&mut self, conn: usize) {
        let Some(liar) = &self.conns[conn].liar else { return };
        match liar.lie {
            Lie::Trickle | Lie::TricklePush => self.send_lie(conn, b"p"),
            Lie::LongLine | Lie::LongPush => self.send_lie(conn, &[b'x'; 1_000]),
            Lie::Record | Lie::Refused => self.send_lie(conn, b"nonsense\n"),
            _ => {}
        }
    }

    /// A liar sends bytes, as far as there is room.
    fn send_lie(&mut self, conn: usize, bytes: &[u8]) {
        let from = self.passes_at(conn);
        let it = &mut self.conns[conn];
        let count = bytes.len().min(it.down.free());
        it.down.send(&bytes[..count], from, it.delay, &mut self.draws.network);
        self.schedule(conn, false);
    }

    /// A liar that says nothing whole is given up in time, and so is one whose line has no end.
    fn look_at_liar(&mut self, conn: usize, host: usize) {
        let now = self.clock(host);
        let is_failing = self.hosts[host].durable.is_failing;
        let it = &mut self.conns[conn];
        let has_passed = !it.is_doubtful;
        let heard = it.down.was_read();
        let Some(liar) = &mut it.liar else { return };
        if is_failing || !has_passed {
            // Peers wait, or nothing passes.
            liar.since = now;
        }
        let silence = now - liar.since.min(now);
        let ends = liar.lie != Lie::Nonsense;
        if ends && silence > LONGEST_SILENCE + 2 * LOOK {
            let why = format!("host {host} bears a peer that lies for {silence} microseconds: {:?}", liar.lie);
            return self.fail(why);
        }
        if heard > MOST_HEARD {
            self.fail(format!("host {host} has heard {heard} bytes of a peer that lies"));
        }
    }

    /// An operator is told of a liar: not too often, and of a record that is refused once for each reason.
    pub fn hear_of_liar(&mut self, host: usize, text: &str) {
        let now = self.clock(host);
        let Some(number) = text.strip_prefix("peer liar").and_then(|rest| rest.split(':').next()?.parse::<usize>().ok()) else { return };
        let Some(lies) = self.hosts[host].lies.get_mut(&(LIARS + number)) else { return };
        lies.notes += 1;
        let most = (now - lies.began.min(now)) / SECOND + 3;
        let is_strange = text.contains("said what answers no question") && ENDLESS.contains(&LIES[number]);
        let reason = text.split(" was refused ").nth(1).map(|rest| rest.split(' ').next().unwrap_or("").to_string());
        let is_told = reason.is_some_and(|reason| !lies.reasons.insert(reason));
        if is_strange {
            return self.fail(format!("host {host} tells of {:?}: {text}", LIES[number]));
        }
        if lies.notes > most || is_told {
            self.fail(format!("host {host} tells once more, more than {most} times or of the same: {text}"));
        }
    }
}

impl World {
    /// An operator was told for which reasons records of a liar were refused, where nothing of it was lost.
    pub fn look_at_reasons(&mut self, host: usize) {
        let hides = |fault: &Fault| {
            matches!(fault, Fault::Cut(..) | Fault::Drop(..) | Fault::Jump(..) | Fault::Operate(_, Say::Level(_)))
        };
        let now = self.clock(host);
        let is_late = |lies: &Lies| lies.reasons.len() < 2 && lies.told_at.is_some_and(|at| now > at + 10 * SECOND);
        let it = &self.hosts[host];
        if it.failures == 0 && it.lies.values().any(is_late) && !self.faults.iter().any(|(_, fault)| hides(fault)) {
            self.fail(format!("host {host} does not tell that records of a peer are refused"));
        }
    }
}

/// The record that a liar tells.
const TOLD: Record = Record::Event { origin: 0, tag: (1, 0), input: 0, value: 1 };

/// What follows the answer to a line `watch log P`.
fn pushes(lie: Lie, line: &str) -> String {
    let place: u32 = line.split(' ').nth(2).and_then(|word| word.parse().ok()).unwrap_or(1);
    match lie {
        Lie::Record => format!("* log {place} {}\n", TOLD.line()),
        Lie::Refused => format!(
            "* log {place} {}\n* log {} event 0 5 0 9 3\n* log {} event 9 5 0 0 3\n* log {} event 8 5 0 0 3\n",
            TOLD.line(),
            place + 1,
            place + 2,
            place + 3
        ),
        Lie::LongPush | Lie::TricklePush => format!("* log {place} "),
        Lie::Longest => "x".repeat(128),
        Lie::TooLong => "x".repeat(129),
        _ => String::new(),
    }
}
