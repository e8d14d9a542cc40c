//! Spaces that die at any moment and come back under their numbers, from seeds: three engines in one thread, over a network
//! that is made up and bounds in real files. Nothing is used twice; sessions open again by themselves; in the end all that was
//! held is given up; and the lives, joined, are a run of a world, also where they recorded chains.

mod common;

use common::checking::fault_of;
use common::nobj;
use masttomato::engine::{Answered, Engine, Life, Session, Settings, Ticket, TraceSink, World};
use masttomato::space::{
    Bounds, BoundsError, Job, Limits, Outcome, Reason, Reference, SegmentSize, SpaceId, Value,
    join_lives,
};
use std::collections::HashSet;
use std::fs;
use std::io;
use std::path::PathBuf;
use std::sync::atomic::{AtomicU64, Ordering};
use std::sync::{Arc, Mutex};
use std::time::Duration;

const SPACES: usize = 3;
/// So many worlds, or as many times that as MASTTOMATO_TIMES says.
const SEEDS: u64 = 4;
const STEPS: u64 = 700;
/// So many of the worlds are judged by `nobj check`, too, which may be an unproved and slow one.
const JUDGED: u64 = 2;

fn id(place: usize) -> SpaceId {
    SpaceId::new(place as u16 + 1).expect("a space")
}

fn world() -> World {
    World::named("reborn")
}

/// Takes what a life records, behind a stamp of the lives before.
struct Sink(Arc<Mutex<String>>, u64);

impl TraceSink for Sink {
    fn entries(&mut self, lines: &str) -> io::Result<()> {
        self.0.lock().expect("no panic").push_str(lines);
        Ok(())
    }

    fn last_stamp(&self) -> u64 {
        self.1
    }
}

/// A program: its engine, while it lives, and what it has.
#[derive(Default)]
struct Program {
    engine: Option<Engine>,
    life: u64,
    hands: Vec<Reference>,
    jobs: Vec<Job>,
    /// What each life recorded: a chain in segments of this size, or a trace.
    lives: Vec<Arc<Mutex<String>>>,
    segments: Option<SegmentSize>,
}

impl Program {
    fn engine(&mut self) -> &mut Engine {
        self.engine.as_mut().expect("it lives")
    }

    fn last_stamp(&self) -> u64 {
        let stamp =
            |text: &str| text.lines().rev().find_map(|line| line.split(' ').next()?.parse().ok());
        let lives = self.lives.iter().rev();
        lives.filter_map(|lines| stamp(&lines.lock().expect("no panic"))).next().unwrap_or(0)
    }
}

struct Scene {
    folder: PathBuf,
    programs: Vec<Program>,
    now: Duration,
    state: u64,
    connected: HashSet<(usize, usize)>,
    tickets: u64,
    shown: HashSet<Reference>,
    answered: HashSet<Ticket>,
    deaths: u64,
}

impl Scene {
    fn new(seed: u64) -> Scene {
        // Each scene has a folder of its own: tests play scenes of the same seed side by side.
        static SCENES: AtomicU64 = AtomicU64::new(0);
        let scene = SCENES.fetch_add(1, Ordering::Relaxed);
        let name = format!("masttomato-reborn-{}-{scene}", std::process::id());
        let folder = std::env::temp_dir().join(name);
        fs::create_dir_all(&folder).expect("a folder");
        let mut scene = Scene {
            folder,
            programs: (0..SPACES).map(|_| Program::default()).collect(),
            now: Duration::ZERO,
            state: seed.wrapping_mul(0x9e37_79b9_7f4a_7c15) | 1,
            connected: HashSet::new(),
            tickets: 0,
            shown: HashSet::new(),
            answered: HashSet::new(),
            deaths: 0,
        };
        for place in 0..SPACES {
            let size = SegmentSize::new(1 + (seed as u32 * 7 + place as u32) % 90);
            scene.programs[place].segments =
                size.filter(|_| !(seed as usize + place).is_multiple_of(3));
            let path = scene.path(place);
            Bounds::create(path, world(), id(place), id(SPACES - 1)).expect("a file");
            scene.begin(place);
        }
        scene
    }

    fn path(&self, place: usize) -> PathBuf {
        self.folder.join(format!("space-{}.bounds", place + 1))
    }

    fn below(&mut self, bound: u64) -> u64 {
        self.state ^= self.state << 13;
        self.state ^= self.state >> 7;
        self.state ^= self.state << 17;
        (self.state >> 11) % bound
    }

    fn begin(&mut self, place: usize) {
        let bounds = Bounds::open(self.path(place), world(), id(place), id(SPACES - 1));
        let bounds = bounds.expect("a file that nobody has");
        let settings = Settings::new(id(place), id(SPACES - 1));
        let life = bounds.life();
        let mut engine = Engine::begin_behind(bounds, settings, self.now).expect("in range");
        let program = &mut self.programs[place];
        let lines: Arc<Mutex<String>> = Arc::default();
        let sink = Box::new(Sink(lines.clone(), program.last_stamp()));
        match program.segments {
            Some(size) => engine.record_chain(size, sink),
            None => engine.record(sink),
        }
        program.lives.push(lines);
        (program.engine, program.life) = (Some(engine), life);
    }

    // It dies: nothing of it is left but its file and what it recorded.
    fn die(&mut self, place: usize) {
        for other in (0..SPACES).filter(|other| *other != place) {
            self.break_off(place, other);
        }
        let program = &mut self.programs[place];
        program.engine = None;
        program.hands.clear();
        program.jobs.clear();
        self.deaths += 1;
    }

    fn lives(&self, place: usize) -> bool {
        self.programs[place].engine.is_some()
    }

    fn connect(&mut self, one: usize, other: usize) {
        let pair = (one.min(other), one.max(other));
        if one == other || !self.lives(one) || !self.lives(other) || !self.connected.insert(pair) {
            return;
        }
        for (here, there) in [(one, other), (other, one)] {
            let number = self.programs[there].life;
            let life = Life { number, process: number * 100 + there as u64 };
            let now = self.now;
            self.programs[here].engine().connected(id(there), life, now).expect("its latest life");
        }
    }

    fn break_off(&mut self, one: usize, other: usize) {
        if self.connected.remove(&(one.min(other), one.max(other))) {
            for (here, there) in [(one, other), (other, one)] {
                let now = self.now;
                self.programs[here].engine().disconnected(id(there), now);
            }
        }
    }

    // A call of another's agent, or of an object of another's, with some of what the program has.
    fn call(&mut self, place: usize) {
        let to = self.below(SPACES as u64) as usize;
        let (fresh, picks) = (self.below(2) == 0, self.below(3));
        let mut passed = Vec::new();
        if fresh && let Ok(object) = self.programs[place].engine().export() {
            assert!(self.shown.insert(object), "{object} is given twice");
            passed.push(object);
        }
        for _ in 0..picks {
            let count = self.programs[place].hands.len() as u64;
            if count > 0 {
                let pick = self.below(count) as usize;
                passed.push(self.programs[place].hands[pick]);
            }
        }
        let held = |one: &&Reference| one.owner == id(to);
        let target = self.programs[place].hands.iter().find(held).copied();
        let target = target.filter(|_| picks > 0).unwrap_or(id(to).agent());
        self.tickets += 1;
        let ticket = Ticket(self.tickets);
        let value = Value::List(passed.iter().copied().map(Value::Ref).collect());
        let engine = self.programs[place].engine();
        if to != place {
            engine.call(ticket, target, 0, value);
        }
        if fresh && let Some(object) = passed.first() {
            engine.release(*object);
        }
    }

    fn turn(&mut self, place: usize) {
        let now = self.now;
        let Some(engine) = &mut self.programs[place].engine else { return };
        let turn = engine.turn(now);
        for peer in turn.renewed {
            let hands = &mut self.programs[place].hands;
            let (lost, kept) = hands.drain(..).partition(|one| one.owner == peer);
            *hands = kept;
            let lost: Vec<Reference> = lost;
            lost.into_iter().for_each(|one| self.programs[place].engine().release(one));
        }
        let program = &mut self.programs[place];
        program.jobs.extend(turn.jobs);
        for (ticket, answered) in turn.answers {
            if let Answered::Replied { value, .. } = answered {
                program.hands.extend(value.references());
                self.answered.insert(ticket);
            }
        }
    }

    // A job ends: what it was given is kept, or handed back.
    fn finish(&mut self, place: usize, keeps: bool) {
        let Some(job) = self.programs[place].jobs.pop() else { return };
        let program = &mut self.programs[place];
        let engine = program.engine.as_mut().expect("it lives");
        let given = job.value.references();
        for one in given.iter().filter(|_| keeps) {
            if engine.hold(*one).is_ok() {
                program.hands.push(*one);
            }
        }
        let outcome = match job.target {
            0 if job.method == 19 => Outcome::Answer(Value::Unit),
            _ => Outcome::Answer(Value::List(given.into_iter().map(Value::Ref).collect())),
        };
        engine.finish(job.job, outcome);
    }

    fn give_back(&mut self, place: usize) {
        let count = self.programs[place].hands.len() as u64;
        if count > 0 {
            let pick = self.below(count) as usize;
            let one = self.programs[place].hands.swap_remove(pick);
            self.programs[place].engine().release(one);
        }
    }

    // What one wrote comes to the other, up to so many bytes; of less than all of it the connection breaks.
    fn carry(&mut self, from: usize, to: usize, most: usize) {
        if !self.connected.contains(&(from.min(to), from.max(to))) {
            return;
        }
        let now = self.now;
        let out = self.programs[from].engine().output(id(to));
        let bytes = out.left().to_vec();
        out.advance(usize::MAX);
        let come = &bytes[..bytes.len().min(most)];
        self.programs[to].engine().bytes(id(from), come, now).expect("an honest peer");
        if come.len() < bytes.len() {
            self.break_off(from, to);
        }
    }

    fn step(&mut self) {
        let passed = self.below(20);
        self.now += Duration::from_millis(passed);
        let place = self.below(SPACES as u64) as usize;
        let other = self.below(SPACES as u64) as usize;
        if !self.lives(place) {
            if self.below(6) == 0 {
                self.begin(place);
            }
            return;
        }
        match self.below(40) {
            0 if self.below(3) == 0 => self.die(place),
            1 => self.break_off(place, other),
            2..8 => self.connect(place, other),
            8..14 => self.call(place),
            14..18 => {
                let keeps = self.below(2) == 0;
                self.finish(place, keeps);
            }
            18..21 => self.give_back(place),
            21..30 => self.turn(place),
            30 if place != other => {
                let most = self.below(200) as usize;
                self.carry(place, other, most);
            }
            _ if place != other => self.carry(place, other, usize::MAX),
            _ => {}
        }
    }

    // All live, all connections stand, all jobs end and all is given back, until nothing is left.
    fn heal(&mut self) {
        for place in 0..SPACES {
            if !self.lives(place) {
                self.begin(place);
            }
        }
        for round in 0..3_000 {
            self.now += Duration::from_millis(if round % 50 == 49 { 3_000 } else { 5 });
            for place in 0..SPACES {
                (0..place).for_each(|other| self.connect(place, other));
                while !self.programs[place].jobs.is_empty() {
                    self.finish(place, false);
                }
                while !self.programs[place].hands.is_empty() {
                    self.give_back(place);
                }
                self.turn(place);
            }
            for from in 0..SPACES {
                (0..SPACES)
                    .filter(|to| *to != from)
                    .for_each(|to| self.carry(from, to, usize::MAX));
            }
            if self.is_quiet() {
                return;
            }
        }
        panic!("it never gets quiet: {}", self.state());
    }

    fn is_quiet(&mut self) -> bool {
        let now = self.now;
        self.programs.iter_mut().all(|program| {
            let is_idle = program.jobs.is_empty() && program.hands.is_empty();
            let engine = program.engine();
            let report = engine.report(now);
            let is_open = |session: &masttomato::SessionReport| session.session == Session::Open;
            is_idle
                && report.live == 0
                && report.counts.calls_open == 0
                && engine.is_settled()
                && report.sessions.iter().all(is_open)
        })
    }

    fn state(&mut self) -> String {
        let now = self.now;
        let report = |program: &mut Program| format!("{:?}\n", program.engine().report(now));
        self.programs.iter_mut().map(report).collect()
    }
}

impl Scene {
    // What all lives recorded, joined; of the first life of the first program so many lines alone.
    fn joined(&self, kept: usize) -> Vec<String> {
        let texts = |program: &Program| -> Vec<String> {
            program.lives.iter().map(|lines| lines.lock().expect("no panic").clone()).collect()
        };
        let mut lives: Vec<Vec<String>> = self.programs.iter().map(texts).collect();
        lives[0][0] = lives[0][0].split_inclusive('\n').take(kept).collect();
        let limits = Limits::new(64, 255).expect("limits");
        join_lives(id(SPACES - 1), limits, &lives).expect("lines of lives")
    }

    fn session(&mut self, place: usize, peer: usize) -> Session {
        self.programs[place].engine().session(id(peer))
    }
}

impl Drop for Scene {
    fn drop(&mut self) {
        let _removed = fs::remove_dir_all(&self.folder);
    }
}

#[test]
fn spaces_die_at_any_moment_and_come_back() {
    let times = std::env::var("MASTTOMATO_TIMES").map(|text| text.parse().expect("a number"));
    let seeds = SEEDS * times.unwrap_or(1);
    let (mut deaths, mut entries, mut chains) = (0, 0, 0);
    for seed in 1..=seeds {
        let mut scene = Scene::new(seed);
        (0..STEPS).for_each(|_| scene.step());
        scene.heal();
        let now = scene.now;
        for program in &mut scene.programs {
            // What isn't recorded yet is, and then the life ends: in order, or without its last seal.
            let _turn = program.engine().turn(now);
            if seed.is_multiple_of(2) {
                program.engine().seal();
            }
            program.engine().end_life().expect("it is written");
        }
        let traces = scene.joined(usize::MAX);
        assert_eq!(fault_of(&traces), None, "seed {seed}");
        chains += traces.iter().filter(|trace| trace.starts_with("chain ")).count();
        deaths += scene.deaths;
        entries += traces.iter().map(|trace| trace.lines().count()).sum::<usize>();
        if seed <= JUDGED
            && let Some(said) = nobj("check", traces.concat().as_bytes())
        {
            assert!(said.ends_with("\nverdict yes\n"), "seed {seed}: {said}");
        }
    }
    assert!(deaths >= seeds && chains >= seeds as usize, "only {deaths} deaths, {chains} chains");
    println!("{deaths} deaths, {entries} entries");
}

// A bridge that is left out is no run: the new life's answers aren't those of a space that goes on.
#[test]
fn lives_without_their_bridges_are_no_run() {
    let mut scene = Scene::new(99);
    scene.connect(0, 1);
    for _ in 0..30 {
        scene.step();
    }
    if scene.lives(0) {
        scene.die(0);
    }
    scene.begin(0);
    scene.call(0);
    scene.turn(0);
    let lives = &scene.programs[0].lives;
    let texts: Vec<String> =
        lives.iter().map(|lines| lines.lock().expect("no panic").clone()).collect();
    let entries =
        texts.iter().flat_map(|text| text.lines().filter(|line| !line.starts_with("life ")));
    let entries: Vec<&str> = entries.collect();
    let first = format!("trace2 1 of 3 window 64 retry 255 entries {}\n", entries.len());
    let joined = first + &entries.join("\n") + "\n";
    assert!(common::checking::replay_fault(&joined).is_some());
}

#[test]
fn two_lives_at_once_are_refused() {
    let mut scene = Scene::new(7);
    let again = |scene: &Scene| Bounds::open(scene.path(0), world(), id(0), id(SPACES - 1));
    assert!(matches!(again(&scene), Err(BoundsError::InUse)));
    scene.die(0);
    assert_eq!(again(&scene).expect("nobody has it").life(), 2);
}

// A process dies under a call. Its peer hears nothing of that until the next life says hello; then no time passes until its
// session has closed, its call has ended, and the session is opened again and carries calls.
#[test]
fn a_peer_that_knew_an_older_life_closes_at_once_and_opens_again() {
    let mut scene = Scene::new(5);
    scene.connect(0, 1);
    let call = |scene: &mut Scene, number| {
        scene.programs[1].engine().call(Ticket(number), id(0).agent(), 0, Value::Unit);
    };
    call(&mut scene, 1);
    scene.turn(1);
    scene.carry(1, 0, usize::MAX);
    scene.turn(0);
    scene.die(0);
    scene.begin(0);
    assert!(matches!(scene.session(1, 0), Session::Down { .. }));
    scene.connect(0, 1);
    assert_eq!(scene.session(1, 0), Session::Closed(Reason::PeerClosed));
    let now = scene.now;
    let turn = scene.programs[1].engine().turn(now);
    assert_eq!(turn.answers, [(Ticket(1), Answered::Ended(Reason::PeerClosed))]);
    assert_eq!(turn.renewed, [id(0)]);
    // What is asked meanwhile waits for the session that is opened.
    call(&mut scene, 2);
    for _ in 0..6 {
        for place in 0..2 {
            scene.turn(place);
            while !scene.programs[place].jobs.is_empty() {
                scene.finish(place, false);
            }
            scene.turn(place);
            scene.carry(place, 1 - place, usize::MAX);
        }
    }
    assert_eq!((scene.session(1, 0), scene.session(0, 1)), (Session::Open, Session::Open));
    assert_eq!(scene.now, now);
    assert!(scene.answered.contains(&Ticket(2)));
}

// A life of the first program that makes three calls, which leave, and an object, and then dies; another one begins.
fn a_death_behind_calls(segments: Option<SegmentSize>) -> Scene {
    let mut scene = Scene::new(3);
    scene.die(0);
    scene.programs[0] = Program { segments, ..Program::default() };
    fs::remove_file(scene.path(0)).expect("its file");
    Bounds::create(scene.path(0), world(), id(0), id(SPACES - 1)).expect("a file");
    scene.begin(0);
    scene.connect(0, 1);
    for number in 1..=3 {
        scene.programs[0].engine().call(Ticket(number), id(1).agent(), 0, Value::Unit);
        scene.turn(0);
        scene.carry(0, 1, usize::MAX);
        scene.turn(1);
    }
    scene.programs[0].engine().export().expect("room");
    scene.turn(0);
    scene.die(0);
    scene.begin(0);
    scene
}

// The entries of a record may be lost behind the last frame that left, and none before it: then somebody took a frame that
// nobody transmitted.
#[test]
fn a_record_that_lost_its_end_is_a_run_if_no_frame_left_of_that() {
    for size in [None, SegmentSize::new(2)] {
        let scene = a_death_behind_calls(size);
        let first = scene.programs[0].lives[0].lock().expect("no panic").clone();
        let lines: Vec<&str> = first.lines().collect();
        let is_frame = |line: &&str| line.contains(" send 2 = frames 4e");
        let needed = lines.iter().rposition(is_frame).expect("a frame");
        assert!(needed + 1 < lines.len() && lines.len() > 7, "{first}");
        for kept in 1..=lines.len() {
            let traces = scene.joined(kept);
            let has_seals = lines[..kept].iter().any(|line| line.starts_with("seal "));
            assert_eq!(traces[0].starts_with("chain "), has_seals);
            let fault = fault_of(&traces);
            let is_cut = fault.as_deref().is_some_and(|fault| fault.ends_with("came from nobody"));
            let wanted = (kept <= needed, kept > needed);
            assert_eq!((is_cut, fault.is_none()), wanted, "{kept}: {fault:?}");
            if let Some(said) = nobj("check", traces.concat().as_bytes()) {
                let wanted = if kept > needed { "verdict yes" } else { "C2 2 " };
                let last = said.trim_end().lines().next_back().unwrap_or_default();
                assert!(last.starts_with(wanted), "{kept}: {said}");
            }
        }
    }
}
