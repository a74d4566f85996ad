//! Faults: what goes wrong in a world, and when. A further kind is a case of `Fault`, a line of `draw_fault`, a function that
//! does it, and a number in `Kinds` where a world has to have it now and then.

use crate::draw::Draw;
use crate::keeping::KEEPER;
use crate::library::Machine;
use crate::operator::Say;
use crate::scribe::Stage;
use crate::world::{Event, World};

const SECOND: u64 = 1_000_000;

/// A host stands still for so long at most, which is too short for others to give it up.
const LONGEST_STAND: u64 = 4 * SECOND;

/// How a host ends.
#[derive(Clone, Copy, Debug, PartialEq, Eq)]
pub enum Kill {
    /// Its process dies.
    Process,
    /// Its machine loses its power.
    Power,
    /// It is asked to end.
    InOrder,
}

/// What goes wrong.
#[derive(Clone, Copy, Debug)]
pub enum Fault {
    /// A host ends, and starts again later.
    Kill(usize, Kill),
    /// A host ends within its next write of its journal.
    KillInWrite(usize, Kill),
    /// Nothing passes between these two for so long.
    Cut(usize, usize, u64),
    /// The network lets go of one in so many connections, or of what is said on it nothing arrives any more.
    Drop(u64, bool),
    /// The disk has no room, or fails, for so long.
    Full(usize, u64),
    Fails(usize, u64),
    /// The clock of a host jumps ahead by so much.
    Jump(usize, u64),
    /// The operator of a host says something.
    Operate(usize, Say),
    /// A host stands still for so long.
    Stand(usize, u64),
}

/// The classes of faults, by which they are switched off.
pub const CLASSES: [&str; 6] = ["kills", "network", "disks", "clocks", "operators", "pauses"];

impl World {
    /// Draws what goes wrong before the calm.
    pub fn make_faults(&mut self, seed: u64, calm_at: u64, without: &[String]) {
        for class in CLASSES {
            let mut draw = Draw::new(seed, class, 1);
            let most = 1 << draw.range(0, 3);
            let is_other = class == "pauses" && self.plan.is_none();
            let count = if self.shape.is_fed() || is_other { 0 } else { draw.below(most) };
            for _ in 0..count {
                let at = SECOND / 2 + draw.below(calm_at - SECOND);
                let fault = self.draw_fault(class, &mut draw);
                if !without.iter().any(|name| name == class) {
                    self.push(at, Event::Fault(self.faults.len()));
                    self.faults.push((at, fault));
                }
            }
        }
    }

    /// Draws a fault of a class.
    fn draw_fault(&self, class: &str, draw: &mut Draw) -> Fault {
        let hosts = self.hosts.len() as u64;
        let host = draw.below(hosts) as usize;
        let long = SECOND / 10 + draw.time(12 * SECOND);
        match class {
            "kills" => {
                let is_always = self.hosts[host].has_journal && self.hosts[host].when == crate::scribe::SyncWhen::Always;
                let kill = match draw.below(5) {
                    0 | 1 if is_always => Kill::Power,
                    4 => Kill::InOrder,
                    _ => Kill::Process,
                };
                if kill != Kill::InOrder && draw.one_in(3) { Fault::KillInWrite(host, kill) } else { Fault::Kill(host, kill) }
            }
            "network" if draw.one_in(2) => {
                let other = if draw.one_in(3) { usize::MAX } else { (host + 1) % hosts as usize };
                Fault::Cut(host, other, long)
            }
            "network" => Fault::Drop(draw.range(1, 6), draw.one_in(3)),
            "disks" if draw.one_in(2) => Fault::Full(host, long),
            "disks" => Fault::Fails(host, long),
            "operators" => Fault::Operate(host, Say::draw(draw)),
            "pauses" => Fault::Stand(if draw.one_in(3) { host } else { KEEPER }, draw.time(LONGEST_STAND)),
            _ => Fault::Jump(host, draw.time(100 * SECOND)),
        }
    }

    /// The fault of this number happens.
    pub fn befall(&mut self, at: usize) {
        let (_, fault) = self.faults[at];
        if self.is_calm {
            return;
        }
        self.note(&format!("{fault:?}"), 0);
        match fault {
            Fault::Kill(host, kill) => self.kill(host, kill),
            Fault::KillInWrite(host, kill) => {
                // A host without a journal writes nothing.
                if self.hosts[host].has_journal {
                    self.hosts[host].is_doomed = Some(kill);
                } else {
                    self.kill(host, kill);
                }
            }
            Fault::Cut(one, other, long) => self.cut(one, other, self.now + long),
            Fault::Drop(many, is_silent) => self.drop_some(many, is_silent),
            Fault::Operate(host, say) => self.operate(host, say),
            Fault::Stand(host, long) => self.stand(host, long),
            Fault::Full(host, long) => self.hosts[host].disk.full_until = self.now + long,
            Fault::Fails(host, long) => self.hosts[host].disk.fails_until = self.now + long,
            Fault::Jump(host, by) => {
                self.hosts[host].clock.ahead += by;
                self.note_jump(host, by);
            }
        }
    }

    /// A host stands still for so long, if it does not already.
    fn stand(&mut self, host: usize, long: u64) {
        let it = &mut self.hosts[host];
        if it.machine.is_some() && it.stands_until <= self.now {
            it.stands_until = self.now + long;
            it.stood += long;
        }
    }

    /// A host ends so at this moment.
    pub fn kill_at(&mut self, host: usize, kill: Kill, at: u64) {
        self.push(at, Event::Fault(self.faults.len()));
        self.faults.push((at, Fault::Kill(host, kill)));
    }

    /// A host ends so now, if it runs.
    fn kill(&mut self, host: usize, kill: Kill) {
        let now = self.clock(host);
        let it = &mut self.hosts[host];
        let Some(machine) = &mut it.machine else { return };
        self.kinds.kills += 1;
        match kill {
            Kill::InOrder => {
                machine.input_ended(now);
                self.begin_end(host);
                self.wake_worker(host);
            }
            Kill::Process => self.stop_host(host, true),
            Kill::Power => {
                self.kinds.losses_of_power += 1;
                let is_renaming = it.scribe.as_ref().is_some_and(|scribe| scribe.stage == Stage::Renames);
                self.tear(host);
                self.hosts[host].disk.lose_power(is_renaming, &mut self.draws.disk);
                self.hosts[host].scribe = None;
                self.stop_host(host, true);
            }
        }
    }

    /// The write that goes on is cut where it is.
    fn tear(&mut self, host: usize) {
        let it = &mut self.hosts[host];
        let stage = it.scribe.as_ref().map_or(Stage::Rests, |scribe| scribe.stage);
        if let (Stage::Writes { bytes, .. }, Some(file)) = (stage, &mut it.disk.file) {
            self.kinds.kills_in_write += 1;
            file.tear(bytes, &mut self.draws.disk);
        }
    }

    /// A host does not run any more, and starts again later.
    pub fn stop_host(&mut self, host: usize, is_killed: bool) {
        if is_killed {
            self.tear(host);
        } else {
            self.finish_log(host);
        }
        let it = &mut self.hosts[host];
        it.machine = None;
        it.scribe = None;
        it.is_doomed = None;
        it.epoch += 1;
        let shell = std::mem::take(&mut it.shell);
        for conn in shell.conns() {
            self.let_go(conn, host, is_killed);
        }
        self.note("stopped", host);
        let pause = SECOND / 10 + self.draws.kills.time(8 * SECOND);
        self.push(self.now + pause, Event::Start(host));
    }

    /// Hands all of the log to the journal, of a host that ends in order.
    fn finish_log(&mut self, host: usize) {
        let known = self.hosts[host].known().history.len();
        let handed = self.hosts[host].shell.handed();
        let Some(machine) = &mut self.hosts[host].machine else { return };
        let rest = Machine::records(machine, handed, known.saturating_sub(handed));
        self.finish_journal(host, rest);
    }

    /// A connection of a host that runs no more.
    fn let_go(&mut self, conn: usize, host: usize, is_killed: bool) {
        self.conns[conn].is_cut_short = true;
        let is_callee = self.conns[conn].host == host;
        if is_callee {
            self.conns[conn].is_left_by_host = true;
        } else {
            self.conns[conn].is_left_by_caller = true;
        }
        if is_killed && self.draws.network.one_in(4) {
            // Nobody is told.
            self.conns[conn].is_dead = true;
        } else if is_killed {
            let at = self.now + self.draws.network.time(self.delay);
            self.push(at, Event::Reset(conn));
        } else if is_callee {
            self.finish_down(conn);
        } else {
            self.finish_up(conn);
        }
    }

    /// Nothing passes between these two until then.
    fn cut(&mut self, one: usize, other: usize, until: u64) {
        self.kinds.cuts += 1;
        self.cuts.push((one, other, until));
        for conn in 0..self.conns.len() {
            let from = self.passes_at(conn);
            if from > self.now {
                self.conns[conn].is_doubtful = true;
                self.conns[conn].up.hold_back(from);
                self.conns[conn].down.hold_back(from);
            }
        }
    }

    /// The network lets go of one in so many connections; or nothing arrives on them any more.
    fn drop_some(&mut self, many: u64, is_silent: bool) {
        for conn in 0..self.conns.len() {
            let it = &self.conns[conn];
            if it.is_left_by_host || it.is_left_by_caller || it.is_reset || !self.draws.network.one_in(many) {
                continue;
            }
            if is_silent {
                self.conns[conn].is_dead = true;
            } else {
                self.reset(conn);
            }
        }
    }
}
