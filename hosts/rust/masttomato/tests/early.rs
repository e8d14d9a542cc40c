//! Engines whose frames are lost with their connection, or come in another order than they went.

mod common;

use common::checking::fault_of;
use masttomato::engine::{Answered, Engine, Life, Session, Settings, Ticket};
use masttomato::space::{Job, Limits, Outcome, Reason, Reference, SpaceId, Status, Trace, Value};
use std::collections::HashMap;
use std::sync::{Arc, Mutex};
use std::time::Duration;

fn id(number: u16) -> SpaceId {
    SpaceId::new(number).expect("a space")
}

fn engine(number: u16, give_up_after: u64) -> Engine {
    let give_up_after = Duration::from_secs(give_up_after);
    let settings = Settings { give_up_after, ..Settings::new(id(number), id(2)) };
    Engine::new(settings, Duration::ZERO).expect("memory")
}

fn connect(one: &mut Engine, other: &mut Engine, now: Duration) {
    let (first, second) = (one.id(), other.id());
    for (here, there) in [(one, second), (other, first)] {
        here.connected(there, Life::only(there.get().into()), now).expect("its only life");
    }
}

fn disconnect(one: &mut Engine, other: &mut Engine, now: Duration) {
    one.disconnected(other.id(), now);
    other.disconnected(one.id(), now);
}

// What an engine has for the other comes to it.
fn carry(from: &mut Engine, to: &mut Engine, now: Duration) {
    let out = from.output(to.id());
    to.bytes(id(3 - to.id().get()), out.left(), now).expect("what an honest engine sends");
    out.advance(usize::MAX);
}

fn call_often(engine: &mut Engine, owner: &Engine, count: u64) {
    for ticket in 1..=count {
        engine.call(Ticket(ticket), owner.id().agent(), 0, Value::Int(ticket as i64));
    }
}

// A window of calls goes with a connection. The next connection has all of them in its first record, though
// a Transmit repeats one item.
#[test]
fn what_a_connection_lost_is_written_at_once_on_the_next_one() {
    let (mut owner, mut caller, mut now) = (engine(1, 600), engine(2, 600), Duration::ZERO);
    connect(&mut owner, &mut caller, now);
    call_often(&mut caller, &owner, 70);
    for round in 1..=3 {
        let _turn = caller.turn(now);
        assert_eq!(caller.counts().frames_out, 64 * round);
        now += Duration::from_millis(1);
        disconnect(&mut owner, &mut caller, now);
        connect(&mut owner, &mut caller, now);
    }
    let _turn = caller.turn(now);
    carry(&mut caller, &mut owner, now);
    assert_eq!(owner.counts().frames_in, 64);
    let mut served = Vec::new();
    while caller.counts().calls_answered < 70 {
        now += Duration::from_millis(1);
        for job in owner.turn(now).jobs {
            owner.finish(job.job, Outcome::NoMethod);
            served.push(job.value);
        }
        carry(&mut owner, &mut caller, now);
        let _turn = caller.turn(now);
        carry(&mut caller, &mut owner, now);
        assert!(now < Duration::from_secs(9), "{served:?}");
    }
    assert_eq!(served, (1..=70).map(Value::Int).collect::<Vec<_>>());
}

// Where nobody was ever connected a Transmit goes nowhere, since only what was transmitted is counted; the
// first connection has all of it.
#[test]
fn what_was_transmitted_to_nobody_is_on_the_first_connection() {
    let (mut owner, mut caller, mut now) = (engine(1, 255), engine(2, 255), Duration::ZERO);
    call_often(&mut caller, &owner, 5);
    for _ in 0..10 {
        now += Duration::from_secs(1);
        let _turn = caller.turn(now);
    }
    connect(&mut owner, &mut caller, now);
    call_often(&mut caller, &owner, 2);
    let _turn = caller.turn(now);
    assert_eq!(caller.counts().frames_out, 7);
    carry(&mut caller, &mut owner, now);
    assert_eq!(owner.counts().frames_in, 7);
    while owner.counts().jobs_finished < 7 {
        for job in owner.turn(now).jobs {
            owner.finish(job.job, Outcome::NoMethod);
        }
    }
}

// A peer that takes what it is sent and doesn't acknowledge it is written all of it again at a tick, since
// it may have had no memory for it.
#[test]
fn what_nobody_acknowledges_is_written_again_at_a_tick() {
    let (mut owner, mut caller, mut now) = (engine(1, 255), engine(2, 255), Duration::ZERO);
    connect(&mut owner, &mut caller, now);
    call_often(&mut caller, &owner, 5);
    let _turn = caller.turn(now);
    let ticks = 4;
    for _ in 0..ticks {
        caller.output(id(1)).advance(usize::MAX);
        now += Duration::from_secs(1);
        let _turn = caller.turn(now);
    }
    assert_eq!(caller.counts().frames_out, 5 * (1 + ticks));
    carry(&mut caller, &mut owner, now);
    assert_eq!(owner.counts().frames_in, 5);
}

// What was sent in a session comes after both ends have opened it anew, over another connection: nothing of it is acted
// on, and its numbers are those of other items now.
#[test]
fn what_comes_late_of_an_older_session_is_not_acted_on() {
    let mut now = Duration::ZERO;
    let mut scene = Scene::new();
    let [owner, caller] = &mut scene.engines;
    call_often(caller, owner, 3);
    let _turn = caller.turn(now);
    let late = caller.output(id(1)).left().to_vec();
    disconnect(owner, caller, now);
    now += Duration::from_secs(600);
    let turn = caller.turn(now);
    let ended =
        |(_, answered): &(_, Answered)| matches!(answered, Answered::Ended(Reason::RetriesUsedUp));
    assert!(turn.answers.len() == 3 && turn.answers.iter().all(ended), "{turn:?}");
    let _turn = owner.turn(now);
    assert_eq!((owner.open(id(2), now), caller.open(id(1), now)), (Ok(2), Ok(2)));
    assert_eq!(caller.session(id(1)), Session::Down { since: now });
    connect(owner, caller, now);
    assert_eq!(caller.session(id(1)), Session::Open);
    owner.bytes(id(2), &late, now).expect("what an honest engine sent");
    assert!(owner.turn(now).jobs.is_empty());
    for ticket in 11..=12 {
        caller.call(Ticket(ticket), id(1).agent(), 0, Value::Int(ticket as i64));
    }
    let mut served = Vec::new();
    while caller.counts().calls_answered < 2 {
        now += Duration::from_millis(1);
        let _turn = caller.turn(now);
        carry(caller, owner, now);
        owner.bytes(id(2), &late, now).expect("what an honest engine sent");
        for _turn in 0..3 {
            for job in owner.turn(now).jobs {
                owner.finish(job.job, Outcome::NoMethod);
                served.push(job.value);
            }
        }
        carry(owner, caller, now);
        assert!(now < Duration::from_secs(609), "{served:?}");
    }
    assert_eq!(served, [11, 12].map(Value::Int));
    let _turns = (owner.turn(now), caller.turn(now));
    assert_eq!(fault_of(&scene.traces()), None);
}

/// Numbers from a seed.
struct Numbers(u64);

impl Numbers {
    fn below(&mut self, bound: u64) -> u64 {
        self.0 ^= self.0 << 13;
        self.0 ^= self.0 >> 7;
        self.0 ^= self.0 << 17;
        (self.0 >> 11) % bound
    }
}

/// Two engines, and the frames on their way, each a record of its own.
struct Scene {
    engines: [Engine; 2],
    lines: [Arc<Mutex<String>>; 2],
    way: Vec<(usize, Vec<u8>)>,
    jobs: [Vec<Job>; 2],
    held: [Vec<Reference>; 2],
    answers: HashMap<Ticket, Answered>,
    ran: Vec<u64>,
    now: Duration,
    made: u64,
}

impl Scene {
    fn new() -> Scene {
        let [mut one, mut two] = [engine(1, 600), engine(2, 600)];
        let lines: [Arc<Mutex<String>>; 2] = Default::default();
        for (engine, lines) in [&mut one, &mut two].into_iter().zip(&lines) {
            let lines = lines.clone();
            engine.record(Box::new(move |text: &str| {
                lines.lock().expect("no panic").push_str(text);
                Ok(())
            }));
        }
        connect(&mut one, &mut two, Duration::ZERO);
        let (now, answers) = (Duration::ZERO, HashMap::new());
        let (way, ran, jobs, held) =
            (Vec::new(), Vec::new(), Default::default(), Default::default());
        Scene { engines: [one, two], lines, way, jobs, held, answers, ran, now, made: 0 }
    }

    // Calls with the call's ticket, and with what the caller holds or a fresh object.
    fn call(&mut self, place: usize, numbers: &mut Numbers) {
        self.made += 1;
        let engine = &mut self.engines[place];
        let mut passed = self.held[place].pop();
        if numbers.below(3) == 0 {
            passed = passed.or(Some(engine.export().expect("room")));
        }
        let ticket = Value::Int(self.made as i64);
        let value = Value::List([ticket].into_iter().chain(passed.map(Value::Ref)).collect());
        engine.call(Ticket(self.made), id(2 - place as u16).agent(), 0, value);
        passed.into_iter().for_each(|reference| engine.release(reference));
    }

    fn finish(&mut self, place: usize) {
        if let Some(job) = self.jobs[place].pop() {
            self.engines[place].finish(job.job, Outcome::Answer(job.value));
        }
    }

    fn turn(&mut self, place: usize) {
        let turn = self.engines[place].turn(self.now);
        for job in turn.jobs {
            let Value::List(list) = &job.value else { panic!("{job:?}") };
            let Some(Value::Int(ticket)) = list.first() else { panic!("{job:?}") };
            self.ran.push(*ticket as u64);
            self.jobs[place].push(job);
        }
        for (ticket, answered) in turn.answers {
            if let Answered::Replied { value, .. } = &answered {
                self.held[place].extend(value.references());
            }
            assert_eq!(self.answers.insert(ticket, answered), None, "{ticket:?} is answered twice");
        }
        let out = self.engines[place].output(id(2 - place as u16));
        let mut left = out.left();
        while let Some(head) = left.first_chunk::<16>() {
            let length = u32::from_be_bytes([head[0], head[1], head[2], head[3]]) as usize;
            let mut body = &left[16..16 + length];
            if length == 0 {
                self.way.push((1 - place, head.to_vec()));
            }
            while let Some(frame) = body.first_chunk::<32>() {
                let length = frame[24..].first_chunk().expect("a length");
                let length = 32 + u32::from_be_bytes(*length) as usize;
                let stamp = &head[4..];
                let bytes = [&(length as u32).to_be_bytes()[..], stamp, &body[..length]].concat();
                self.way.push((1 - place, bytes));
                body = &body[length..];
            }
            left = &left[16 + length..];
        }
        out.advance(usize::MAX);
    }

    // Some frame on its way comes, and may come again.
    fn come(&mut self, numbers: &mut Numbers) {
        if self.way.is_empty() {
            return;
        }
        let place = numbers.below(self.way.len() as u64) as usize;
        let (to, bytes) = match numbers.below(4) {
            0 => self.way[place].clone(),
            _ => self.way.swap_remove(place),
        };
        let from = id(2 - to as u16);
        self.engines[to].bytes(from, &bytes, self.now).expect("what an honest engine sends");
    }

    fn traces(&self) -> Vec<String> {
        let limits = Limits::new(64, 255).expect("limits");
        let trace = |(space, lines): (u16, &Arc<Mutex<String>>)| {
            let lines = lines.lock().expect("no panic");
            Trace::first_line(id(space), id(2), limits, lines.lines().count() as u64) + &lines
        };
        (1..).zip(&self.lines).map(trace).collect()
    }

    fn is_done(&self) -> bool {
        self.way.is_empty()
            && self.answers.len() as u64 == self.made
            && self.held.iter().all(Vec::is_empty)
            && self.engines.iter().all(Engine::is_settled)
    }
}

fn play(seed: u64) {
    let mut numbers = Numbers(seed.wrapping_mul(0x9e37_79b9_7f4a_7c15) | 1);
    let mut scene = Scene::new();
    for _ in 0..150 {
        let place = numbers.below(2) as usize;
        match numbers.below(16) {
            0..3 => scene.call(place, &mut numbers),
            3..5 => scene.finish(place),
            5..8 => scene.turn(place),
            8 => scene.now += Duration::from_millis(numbers.below(9)),
            _ => scene.come(&mut numbers),
        }
    }
    for _ in 0..20_000 {
        if scene.is_done() {
            break;
        }
        let place = numbers.below(2) as usize;
        scene.finish(place);
        for reference in std::mem::take(&mut scene.held[place]) {
            scene.engines[place].release(reference);
        }
        scene.now += Duration::from_millis(1);
        scene.turn(place);
        (0..3).for_each(|_| scene.come(&mut numbers));
    }
    assert!(scene.is_done(), "seed {seed} never gets quiet");
    scene.ran.sort_unstable();
    assert_eq!(scene.ran, (1..=scene.made).collect::<Vec<_>>(), "seed {seed}");
    let replied = |answered: &Answered| {
        matches!(answered, Answered::Replied { status: Status::Answered, .. })
    };
    assert!(scene.answers.values().all(replied), "seed {seed}");
    assert!(
        scene
            .engines
            .iter()
            .all(|engine| engine.session(id(3 - engine.id().get())) == Session::Open)
    );
    assert_eq!(fault_of(&scene.traces()), None, "seed {seed}");
}

// Frames that come in any order, and some of them twice: each call is carried out once and answered once,
// with what is kept until those before it come.
#[test]
fn frames_come_in_any_order() {
    (1..=600).for_each(play);
}
