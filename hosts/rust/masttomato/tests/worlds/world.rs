//! A world: engines in one thread, with a network and clocks that are made up.

mod hostile;

use crate::common::checking::fault_among;
use crate::deeds::{Deed, Kind, Script};
use crate::net::Net;
use hostile::Hostile;
use masttomato::engine::{Answered, Engine, Life, Session, Settings, Ticket};
use masttomato::space::{
    Job, Limits, Outcome, Reason, Reference, SpaceError, SpaceId, Status, Trace, Value,
};
use masttomato_sys::stand_in::want_memory;
use std::collections::{BTreeSet, HashMap};
use std::sync::{Arc, Mutex};
use std::time::Duration;

/// A node of a world: an engine, and what its program has.
struct Node {
    engine: Engine,
    now: Duration,
    hands: Vec<Reference>,
    jobs: Vec<Job>,
    exported: u64,
    withdrawn: u64,
    lines: Arc<Mutex<String>>,
}

/// What became of a call, by its ticket.
#[derive(Clone, Copy, Debug, Default)]
struct Fate {
    ran: u32,
    answers: u32,
    replies: u32,
    is_abandoned: bool,
    // Whether it is made by the one that misbehaves, or to it.
    is_by_hostile: bool,
    is_to_hostile: bool,
}

impl Fate {
    fn is_settled(&self) -> bool {
        self.is_abandoned || self.answers > 0 || self.is_by_hostile
    }

    // Who misbehaves is promised nothing, and what it answers may be anything: but each call is answered once.
    fn judge(&self) -> bool {
        let has_run = self.ran <= 1 && self.replies <= self.ran;
        let is_answered = match self.is_abandoned {
            true => self.answers == 0,
            false => self.answers == 1,
        };
        self.is_by_hostile || is_answered && (has_run || self.is_to_hostile)
    }
}

pub struct World {
    nodes: Vec<Node>,
    net: Net,
    calls: HashMap<u64, Fate>,
    made: u64,
    // Pairs of whom one opened the session anew.
    opened: BTreeSet<(usize, usize)>,
    spoils: bool,
    is_recorded: bool,
    hostile: Option<Hostile>,
}

// A new object. Where memory is wanted, it is asked for again.
fn exported(engine: &mut Engine) -> Reference {
    loop {
        match engine.export() {
            Err(SpaceError::OutOfMemory) => {}
            object => return object.expect("room for an object"),
        }
    }
}

pub fn space(place: usize) -> SpaceId {
    SpaceId::new(place as u16 + 1).expect("a space")
}

impl World {
    pub fn new(script: &Script) -> World {
        World::with(script, true)
    }

    /// One whose engines aren't recorded: these ask their spaces in other ways.
    pub fn unrecorded(script: &Script) -> World {
        World::with(script, false)
    }

    fn with(script: &Script, is_recorded: bool) -> World {
        let count = usize::from(script.nodes);
        let node = |place| {
            let mut settings = Settings::new(space(place), space(count - 1));
            settings.give_up_after = Duration::from_secs(script.give_up);
            settings.open_calls = 8;
            let mut engine = Engine::new(settings, Duration::ZERO).expect("memory");
            let lines = Arc::new(Mutex::new(String::new()));
            let sink = lines.clone();
            if is_recorded {
                engine.record(Box::new(move |text: &str| {
                    sink.lock().expect("no panic").push_str(text);
                    Ok(())
                }));
            }
            let (now, hands, jobs) = (Duration::ZERO, Vec::new(), Vec::new());
            Node { engine, now, hands, jobs, exported: 0, withdrawn: 0, lines }
        };
        let nodes = (0..count).map(node).collect();
        let (net, calls, opened) = (Net::default(), HashMap::new(), BTreeSet::new());
        let hostile = script.is_hostile.then(|| Hostile::new(count - 1));
        let (made, spoils) = (0, false);
        let mut world = World { nodes, net, calls, made, opened, spoils, is_recorded, hostile };
        for one in 0..count {
            (0..one).for_each(|other| world.connect(one, other));
        }
        world
    }

    /// From now on bytes are changed on their way, which is to be seen.
    pub fn spoil(&mut self) {
        self.spoils = true;
    }

    pub fn play(&mut self, script: &Script) {
        for deed in &script.deeds {
            self.make(*deed);
        }
        self.heal();
    }

    fn make(&mut self, deed: Deed) {
        let count = self.nodes.len();
        let one = usize::from(deed.node) % count;
        let other = (one + 1 + usize::from(deed.with) % (count - 1)) % count;
        let (with, how) = (usize::from(deed.with), usize::from(deed.how));
        match deed.kind {
            Kind::Export => self.export(one),
            Kind::Call => self.call(one, with, how),
            Kind::Drop => self.give_back(one, with),
            Kind::Finish => self.finish(one, with, how),
            Kind::Abandon => self.abandon(one, with),
            Kind::Turn => self.turn(one, 1 + how % 2_000),
            Kind::Carry => self.carry(one, other, 1 + how % 400),
            Kind::Break => self.break_off(one, other, how % 2 == 0),
            Kind::Connect => self.connect(one, other),
            Kind::Open => self.open(one, other, how % 3 > 0),
            Kind::Pass => self.pass(one, how),
            Kind::Misbehave => self.misbehave(with, how),
        }
    }

    fn export(&mut self, one: usize) {
        let node = &mut self.nodes[one];
        node.hands.push(exported(&mut node.engine));
        node.exported += 1;
    }

    // The list of the call's ticket and of some references that the node holds.
    fn call(&mut self, one: usize, with: usize, how: usize) {
        let count = self.nodes.len();
        let node = &mut self.nodes[one];
        self.made += 1;
        let ticket = self.made * count as u64 + one as u64;
        let others = (1..count).map(|step| space((one + step) % count).agent());
        let targets: Vec<Reference> = node.hands.iter().copied().chain(others).collect();
        let target = targets[with % targets.len()];
        let passed = node.hands.iter().cycle().skip(how).take(how % 4).copied();
        let list = [Value::Int(ticket as i64)].into_iter().chain(passed.map(Value::Ref));
        let value = Value::List(list.take(1 + node.hands.len().min(3)).collect());
        let is_hostile = |place| self.hostile.as_ref().is_some_and(|known| known.place == place);
        let is_to_hostile = is_hostile(usize::from(target.owner.get()) - 1);
        let fate = Fate { is_by_hostile: is_hostile(one), is_to_hostile, ..Fate::default() };
        self.calls.insert(ticket, fate);
        match how % 8 {
            7 => node.engine.try_call(Ticket(ticket), target, how as u16, value),
            _ => node.engine.call(Ticket(ticket), target, how as u16, value),
        }
    }

    fn give_back(&mut self, one: usize, with: usize) {
        let node = &mut self.nodes[one];
        if !node.hands.is_empty() {
            let reference = node.hands.swap_remove(with % node.hands.len());
            node.engine.release(reference);
        }
    }

    // Ends a job: what it was passed is answered, or kept, or dropped, or a fresh object is answered.
    fn finish(&mut self, one: usize, with: usize, how: usize) {
        let node = &mut self.nodes[one];
        if node.jobs.is_empty() {
            return;
        }
        let job = node.jobs.swap_remove(with % node.jobs.len());
        let passed = job.value.references();
        for reference in passed.iter().take(how % 3) {
            if node.engine.hold(*reference).is_ok() {
                node.hands.push(*reference);
            }
        }
        let outcome = match how % 7 {
            0 => Outcome::Answer(Value::Unit),
            1 => Outcome::Answer(job.value),
            2 => Outcome::Fault(Value::List(passed.into_iter().map(Value::Ref).collect())),
            3 => Outcome::NoMethod,
            4 => Outcome::Answer(Value::Bytes(vec![7; 9_000])),
            5 => Outcome::Answer(Value::Bytes(vec![7; 1 + how % 5_000])),
            _ => {
                let fresh = exported(&mut node.engine);
                node.exported += 1;
                node.engine.finish(job.job, Outcome::Answer(Value::Ref(fresh)));
                return node.engine.release(fresh);
            }
        };
        node.engine.finish(job.job, outcome);
    }

    fn abandon(&mut self, one: usize, with: usize) {
        let count = self.nodes.len() as u64;
        let is_its = |ticket: &u64| *ticket % count == one as u64;
        let mut waits: Vec<u64> = self.calls.keys().copied().filter(is_its).collect();
        waits.retain(|ticket| self.calls[ticket].answers == 0);
        waits.sort_unstable();
        if let Some(ticket) = waits.get(with % waits.len().max(1)) {
            self.nodes[one].engine.abandon(Ticket(*ticket));
            self.calls.entry(*ticket).or_default().is_abandoned = true;
        }
    }

    // A turn, and so many bytes of each output are written.
    fn turn(&mut self, one: usize, count: usize) {
        let node = &mut self.nodes[one];
        let turn = node.engine.turn(node.now);
        node.withdrawn += turn.withdrawn.len() as u64;
        for job in turn.jobs {
            if let Value::List(list) = &job.value
                && let Some(Value::Int(ticket)) = list.first()
            {
                self.calls.entry(*ticket as u64).or_default().ran += 1;
            }
            node.jobs.push(job);
        }
        for (Ticket(ticket), answered) in turn.answers {
            let fate = self.calls.entry(ticket).or_default();
            fate.answers += 1;
            if let Answered::Replied { value, status } = answered {
                fate.replies += u32::from(status != Status::Lost);
                node.hands.extend(value.references());
            }
        }
        for peer in turn.silent {
            let other = usize::from(peer.get()) - 1;
            self.break_off(one, other, false);
        }
        for (peer, session) in turn.changes {
            self.changed(one, usize::from(peer.get()) - 1, session);
        }
        self.write(one, count);
    }

    // No session between honest ones closes since either sent what no space sends, or where the other one hasn't closed
    // it or opened it anew.
    fn changed(&self, one: usize, other: usize, session: Session) {
        let is_honest = !self.is_hostile(one) && !self.is_hostile(other);
        let (true, Session::Closed(reason)) = (is_honest, session) else { return };
        let is_closed = |session| matches!(session, Session::Closed(_));
        let is_right = match reason {
            Reason::Asked | Reason::RetriesUsedUp => true,
            Reason::PeerClosed => {
                is_closed(self.nodes[other].engine.session(space(one)))
                    || self.opened.contains(&(one.min(other), one.max(other)))
            }
            _ => false,
        };
        assert!(is_right, "{}: {reason:?} with {}", one + 1, other + 1);
    }

    fn write(&mut self, one: usize, count: usize) {
        if self.is_mute(one) {
            return;
        }
        for other in (0..self.nodes.len()).filter(|other| *other != one) {
            if self.net.is_up(one, other) {
                let out = self.nodes[one].engine.output(space(other));
                let left = out.left();
                let taken = self.net.write(one, other, &left[..left.len().min(count)]);
                if let Some(hostile) = self.hostile.as_mut().filter(|known| known.place == one)
                    && taken == left.len()
                    && taken > 0
                {
                    hostile.said.insert(other, left.to_vec());
                }
                out.advance(taken);
            }
        }
    }

    // So many bytes come from one node to the other.
    fn carry(&mut self, one: usize, other: usize, count: usize) {
        if self.spoils {
            self.net.spoil(one, other);
        }
        if self.is_deaf(other) {
            return;
        }
        let bytes = self.net.read(one, other, count);
        let node = &mut self.nodes[other];
        if bytes.is_empty() {
            return;
        }
        let heard = node.engine.bytes(space(one), &bytes, node.now);
        match self.is_hostile(one) {
            true if heard.is_err() => self.break_off(other, one, true),
            true => {}
            false => heard.expect("what an honest peer sends"),
        }
    }

    fn break_off(&mut self, one: usize, other: usize, both: bool) {
        for (here, there) in [(one, other), (other, one)].into_iter().take(1 + usize::from(both)) {
            if self.net.is_up(here, there) {
                self.net.cut(here, there);
                let node = &mut self.nodes[here];
                node.engine.disconnected(space(there), node.now);
            }
        }
        // Nothing that is on its way to who knows of no connection comes any more.
        self.net.read(other, one, usize::MAX);
    }

    fn connect(&mut self, one: usize, other: usize) {
        if self.net.is_up(one, other) && self.net.is_up(other, one) {
            return;
        }
        self.break_off(one, other, true);
        self.net.connect(one, other);
        for (here, there) in [(one, other), (other, one)] {
            let node = &mut self.nodes[here];
            let life = Life::only(there as u64 + 100);
            node.engine.connected(space(there), life, node.now).expect("its own life");
        }
    }

    // What a node has of one with whom its session has closed is lost: it is given back before.
    fn open(&mut self, one: usize, other: usize, both: bool) {
        for (here, there) in [(one, other), (other, one)].into_iter().take(1 + usize::from(both)) {
            let node = &mut self.nodes[here];
            if !matches!(node.engine.session(space(there)), Session::Closed(_)) {
                continue;
            }
            let is_lost = |reference: &Reference| reference.owner == space(there);
            let (lost, kept) = node.hands.drain(..).partition(is_lost);
            node.hands = kept;
            let lost: Vec<Reference> = lost;
            lost.into_iter().for_each(|reference| node.engine.release(reference));
            if node.engine.open(space(there), node.now).is_ok() {
                self.opened.insert((here.min(there), here.max(there)));
            }
        }
    }

    // Ends in different sessions may stay so, where neither has anything to say: so both are closed.
    fn close_opened(&mut self) {
        for (one, other) in self.opened.clone() {
            for (here, there) in [(one, other), (other, one)] {
                self.nodes[here].engine.close(space(there));
            }
        }
    }

    fn pass(&mut self, one: usize, how: usize) {
        self.nodes[one].now += match how % 12 {
            0 => Duration::from_secs(3_600 * (how as u64 % 5)),
            1..=3 => Duration::from_secs(how as u64 % 8),
            _ => Duration::from_millis(how as u64 % 30),
        };
    }

    // All connections come back, all jobs end, all is given back, until there is nothing to do. Memory, where it
    // was wanted, is there again after some rounds.
    fn heal(&mut self) {
        let count = self.nodes.len();
        for round in 0..4_000 {
            if round == 40 {
                want_memory(0, 0);
            }
            if round == 20 {
                self.cast_out();
            }
            if round == 400 {
                self.close_opened();
            }
            for one in 0..count {
                let connected = if round < 20 { one } else { one.min(self.honest()) };
                (0..connected).for_each(|other| self.connect(one, other));
                self.nodes[one].now += Duration::from_millis(5);
                (0..self.nodes[one].jobs.len()).for_each(|_| self.finish(one, 0, 0));
                (0..self.nodes[one].hands.len()).for_each(|_| self.give_back(one, 0));
                self.turn(one, usize::MAX);
            }
            for one in 0..count {
                (1..count).for_each(|step| self.carry(one, (one + step) % count, usize::MAX));
            }
            if round % 8 == 7 && self.is_quiet() {
                return;
            }
        }
        panic!("it never gets quiet: {}", self.state());
    }

    fn is_quiet(&mut self) -> bool {
        let is_idle = |node: &Node| {
            node.jobs.is_empty()
                && node.hands.is_empty()
                && node.engine.is_settled()
                && node.exported == node.withdrawn
        };
        let honest = self.honest();
        self.net.is_quiet(honest)
            && self.nodes[..honest].iter().all(is_idle)
            && self.has_all_answers()
    }

    fn has_all_answers(&self) -> bool {
        self.calls.values().all(Fate::is_settled)
    }

    fn state(&self) -> String {
        let state = |node: &Node| {
            let (exported, withdrawn) = (node.exported, node.withdrawn);
            let (jobs, hands) = (node.jobs.len(), node.hands.len());
            let settled = node.engine.is_settled();
            format!(
                "{exported} exported, {withdrawn} withdrawn, {jobs} jobs, {hands} held, settled {settled}; "
            )
        };
        let open = self.calls.iter().filter(|(_, fate)| !fate.is_settled());
        let open: Vec<_> = open.map(|(ticket, _)| ticket).collect();
        self.nodes.iter().map(state).collect::<String>() + &format!("open calls {open:?}")
    }

    /// Whether each call was answered once, and ran once if it was replied to and at most once in any
    /// case; and what is wrong with the traces.
    pub fn judge(&self) {
        want_memory(0, 0);
        for (ticket, fate) in &self.calls {
            assert!(fate.judge(), "{ticket}: {fate:?}");
        }
        // Whoever has a reference is listed for its object whenever a call of it is acted on.
        let unlisted = |node: &Node| node.engine.counts().calls_unlisted;
        assert!(self.hostile.is_some() || self.nodes.iter().map(unlisted).sum::<u64>() == 0);
        if !self.is_recorded {
            return;
        }
        let traces = self.traces();
        // What it sends beside what its engine gives comes from nobody.
        let hostile = self.hostile.as_ref().map(|hostile| space(hostile.place));
        if let Some(fault) = fault_among(&traces, hostile) {
            panic!("{fault}");
        }
    }

    /// The traces of all nodes.
    pub fn traces(&self) -> Vec<String> {
        let spaces = space(self.nodes.len() - 1);
        let limits = Limits::new(64, 255).expect("limits");
        let trace = |(place, node): (usize, &Node)| {
            let lines = node.lines.lock().expect("no panic");
            let count = lines.lines().count() as u64;
            Trace::first_line(space(place), spaces, limits, count) + &lines
        };
        self.nodes.iter().enumerate().map(trace).collect()
    }

    /// How often memory or room was wanted.
    pub fn wants(&self) -> u64 {
        self.nodes.iter().map(|node| node.engine.counts().wants).sum()
    }

    /// How often somebody was seen to misbehave, and how many calls of honest ones to honest ones were replied to.
    pub fn misbehaved(&self) -> u64 {
        self.nodes.iter().map(|node| node.engine.counts().misbehaved).sum()
    }

    pub fn replies_of_honest(&self) -> u32 {
        let between = self.calls.values().filter(|fate| !fate.is_by_hostile && !fate.is_to_hostile);
        between.map(|fate| fate.replies).sum()
    }

    /// How many pairs of nodes were in more than one session.
    pub fn opened(&self) -> u64 {
        self.opened.len() as u64
    }

    /// Whether any session has closed, and how many calls were replied to.
    pub fn sums(&self) -> (bool, u32, u64) {
        let closed = self.nodes.iter().any(|node| {
            node.engine.peers().any(|peer| matches!(node.engine.session(peer), Session::Closed(_)))
        });
        let replies = self.calls.values().map(|fate| fate.replies).sum();
        (closed, replies, self.nodes.iter().map(|node| node.exported).sum())
    }
}
