//! Sessions that one end opens anew before the other does: what is sent in them meanwhile waits at the other end, and is
//! acted on as soon as that opens, long before the next tick.

mod common;

use common::checking::fault_of;
use common::nobj;
use masttomato::engine::{Answered, Engine, Life, Session, Settings, Ticket};
use masttomato::space::{Limits, Outcome, Reason, SpaceId, Status, Trace, Value};
use std::sync::{Arc, Mutex};
use std::time::Duration;

const ENGINES: u16 = 3;
/// A tick of these engines: it is two seconds and more.
const TICK: Duration = Duration::from_millis(600_000 / 255);
/// More than the 64 that may be unacknowledged.
const CALLS: u64 = 70;

fn id(place: usize) -> SpaceId {
    SpaceId::new(place as u16 + 1).expect("a space")
}

/// Three engines, each connected to the others.
struct Scene {
    engines: Vec<Engine>,
    lines: Vec<Arc<Mutex<String>>>,
    now: Duration,
    // What was carried out, by whom and of whom; and the tickets of calls that were answered.
    served: Vec<(usize, usize, i64)>,
    answered: Vec<Ticket>,
    // Of what an engine has for another so many bytes come, and then their connection breaks.
    cut: Option<(usize, usize, usize)>,
}

impl Scene {
    fn new() -> Scene {
        let lines: Vec<Arc<Mutex<String>>> = (0..ENGINES).map(|_| Arc::default()).collect();
        let engine = |(place, lines): (usize, &Arc<Mutex<String>>)| {
            let settings = Settings::new(id(place), id(usize::from(ENGINES) - 1));
            let mut engine = Engine::new(settings, Duration::ZERO).expect("memory");
            let lines = lines.clone();
            engine.record(Box::new(move |text: &str| {
                lines.lock().expect("no panic").push_str(text);
                Ok(())
            }));
            engine
        };
        let engines = lines.iter().enumerate().map(engine).collect();
        let (now, served, answered) = (Duration::ZERO, Vec::new(), Vec::new());
        let mut scene = Scene { engines, lines, now, served, answered, cut: None };
        for (one, other) in [(0, 1), (0, 2), (1, 2)] {
            scene.connect(one, other);
        }
        scene
    }

    fn connect(&mut self, one: usize, other: usize) {
        for (here, there) in [(one, other), (other, one)] {
            let life = Life::only(there as u64 + 1);
            self.engines[here].connected(id(there), life, self.now).expect("its only life");
        }
    }

    fn break_off(&mut self, one: usize, other: usize) {
        for (here, there) in [(one, other), (other, one)] {
            self.engines[here].disconnected(id(there), self.now);
        }
    }

    // A call of another's agent with a number, and with a fresh object in every third one.
    fn call(&mut self, from: usize, to: usize, number: u64) {
        let engine = &mut self.engines[from];
        let object = number.is_multiple_of(3).then(|| engine.export().expect("room"));
        let list = [Value::Int(number as i64)].into_iter().chain(object.map(Value::Ref));
        engine.call(Ticket(number), id(to).agent(), 0, Value::List(list.collect()));
        object.into_iter().for_each(|object| engine.release(object));
    }

    // A millisecond later each engine does what there is to do, and what it wrote comes to the others.
    fn step(&mut self) {
        self.now += Duration::from_millis(1);
        for place in 0..self.engines.len() {
            let turn = self.engines[place].turn(self.now);
            for job in turn.jobs {
                let Value::List(list) = &job.value else { panic!("{job:?}") };
                let Some(Value::Int(number)) = list.first() else { panic!("{job:?}") };
                self.served.push((place, usize::from(job.client.get()) - 1, *number));
                let passed = job.value.references();
                self.engines[place].finish(job.job, Outcome::Answer(Value::Unit));
                assert!(passed.len() <= 1);
            }
            for (ticket, answered) in turn.answers {
                let is_answered = matches!(
                    answered,
                    Answered::Replied { status: Status::Answered, value: Value::Unit }
                );
                assert!(is_answered, "{ticket:?}: {answered:?}");
                self.answered.push(ticket);
            }
        }
        for from in 0..self.engines.len() {
            for to in (0..self.engines.len()).filter(|to| *to != from) {
                self.carry(from, to);
            }
        }
    }

    fn carry(&mut self, from: usize, to: usize) {
        let out = self.engines[from].output(id(to));
        let mut bytes = out.left().to_vec();
        out.advance(usize::MAX);
        let breaks = match &mut self.cut {
            Some((one, other, left)) if (*one, *other) == (from, to) => {
                let is_cut = bytes.len() > *left;
                bytes.truncate(*left);
                *left -= bytes.len();
                is_cut
            }
            _ => false,
        };
        self.engines[to].bytes(id(from), &bytes, self.now).expect("what an honest engine sends");
        if breaks {
            self.cut = None;
            self.break_off(from, to);
            self.connect(from, to);
        }
    }

    fn steps(&mut self, count: u32) {
        (0..count).for_each(|_| self.step());
    }

    // Steps until so many calls are answered: how long that takes.
    fn until_answered(&mut self, count: u64) -> Duration {
        let began = self.now;
        while (self.answered.len() as u64) < count {
            self.step();
            let taken = self.now - began;
            assert!(taken < 4 * TICK, "{} of {count} are answered", self.answered.len());
        }
        self.now - began
    }

    fn numbers_of(&self, place: usize, client: usize) -> Vec<i64> {
        let of_both = self.served.iter().filter(|(by, of, _)| (*by, *of) == (place, client));
        of_both.map(|(_, _, number)| *number).collect::<Vec<_>>()
    }

    fn traces(&self) -> Vec<String> {
        let limits = Limits::new(64, 255).expect("limits");
        let trace = |(place, lines): (usize, &Arc<Mutex<String>>)| {
            let lines = lines.lock().expect("no panic");
            let last = id(usize::from(ENGINES) - 1);
            Trace::first_line(id(place), last, limits, lines.lines().count() as u64) + &lines
        };
        self.lines.iter().enumerate().map(trace).collect()
    }
}

/// Who closes the session of the first two, who opens it first, whether the other still thinks it open when that is
/// so, and where the connection breaks meanwhile.
#[derive(Clone, Copy, Debug)]
struct Case {
    closer: usize,
    opener: usize,
    other_is_told: bool,
    cut: Option<usize>,
}

// What the one that opens first sends before the other opens is carried out at once when that does.
fn play(case: Case) -> Scene {
    let Case { closer, opener, other_is_told, cut } = case;
    let (other, third) = (1 - opener, 2);
    let mut scene = Scene::new();
    for (number, (from, to)) in (1..).zip([(0, 1), (1, 0), (third, 0), (third, 1), (0, third)]) {
        scene.call(from, to, number);
    }
    scene.until_answered(5);
    scene.steps(9);
    scene.engines[closer].close(id(1 - closer));
    if other_is_told {
        scene.steps(9);
    } else {
        scene.engines[opener].close(id(other));
    }
    assert_eq!(scene.engines[opener].open(id(other), scene.now), Ok(2), "{case:?}");
    scene.cut = cut.map(|bytes| (opener, other, bytes));
    for number in 1_000..1_000 + CALLS {
        scene.call(opener, other, number);
    }
    // The third calls both meanwhile.
    scene.call(third, opener, 6);
    scene.call(third, other, 7);
    scene.steps(50);
    assert_eq!(scene.answered.len(), 7, "{case:?}");
    assert!(matches!(scene.engines[other].session(id(opener)), Session::Closed(_)), "{case:?}");
    let before = scene.numbers_of(other, opener).len();

    assert_eq!(scene.engines[other].open(id(opener), scene.now), Ok(2), "{case:?}");
    scene.call(other, opener, 8);
    // The object that is called carries out one a step.
    let taken = scene.until_answered(8 + CALLS);
    assert!(taken < TICK / 20, "{case:?}: it took {taken:?}");
    // One that carries an object is carried out later than the next ones, but none twice.
    let mut served = scene.numbers_of(other, opener).split_off(before);
    served.sort_unstable();
    assert_eq!(served, (1_000..1_000 + CALLS as i64).collect::<Vec<_>>(), "{case:?}");
    scene.steps(20);
    let traces = scene.traces();
    assert_eq!(fault_of(&traces), None, "{case:?}");
    scene
}

fn is_accepted(scene: &Scene) {
    if let Some(said) = nobj("check", scene.traces().concat().as_bytes()) {
        assert!(said.ends_with("\nverdict yes\n"), "{said}");
    }
}

#[test]
fn what_came_before_a_session_was_opened_here_is_acted_on_at_once() {
    for closer in [0, 1] {
        for opener in [0, 1] {
            for other_is_told in [true, false] {
                // One that still thinks it open is the one that was not asked to close.
                if other_is_told || closer == opener {
                    is_accepted(&play(Case { closer, opener, other_is_told, cut: None }));
                }
            }
        }
    }
}

// The connection breaks behind any byte of what was sent before the other opens: the next one has all of it again.
#[test]
fn a_connection_that_is_lost_meanwhile_loses_nothing() {
    for cut in (1..6_000).step_by(59) {
        for opener in [0, 1] {
            play(Case { closer: 0, opener, other_is_told: true, cut: Some(cut) });
        }
    }
}

// What waited of a session is let go where its opener has gone on to a later one meanwhile: of that one alone
// anything is acted on.
#[test]
fn what_waited_of_a_session_that_was_left_is_not_acted_on() {
    let mut scene = Scene::new();
    scene.engines[0].close(id(1));
    scene.steps(9);
    for session in 2..=4 {
        assert_eq!(scene.engines[0].open(id(1), scene.now), Ok(session));
        scene.engines[0].try_call(Ticket(7), id(1).agent(), 0, Value::Int(session.into()));
        // It is transmitted, and its answer that there will be none is passed over here.
        let _turn = scene.engines[0].turn(scene.now);
        scene.carry(0, 1);
        scene.engines[0].close(id(1));
        let answers = scene.engines[0].turn(scene.now).answers;
        assert_eq!(answers, [(Ticket(7), Answered::Ended(Reason::Asked))]);
        scene.carry(0, 1);
    }
    assert_eq!(scene.engines[0].open(id(1), scene.now), Ok(5));
    scene.call(0, 1, 1_000);
    scene.steps(9);
    assert_eq!(scene.engines[1].open(id(0), scene.now), Ok(5));
    scene.until_answered(1);
    assert_eq!(scene.numbers_of(1, 0), [1_000]);
    assert_eq!(fault_of(&scene.traces()), None);
    is_accepted(&scene);
}
