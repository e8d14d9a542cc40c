//! Scripts that are made as they are played: this crate and `nobj script` write the same of each, byte for byte, and
//! `nobj check` accepts the traces of its spaces. MASTTOMATO_TIMES=4 plays four times as many.

mod common;

use common::nobj;
use masttomato::space::script::{Opening, Step, World, play};
use masttomato::space::{Answer, CallNo, Event, JobNo, Limits, Outcome, Reference, SpaceId, Value};
use std::sync::atomic::{AtomicUsize, Ordering::Relaxed};
use std::thread;

const SCRIPTS: u64 = 250;

const THREADS: u64 = 4;

static OPENED: AtomicUsize = AtomicUsize::new(0);

#[test]
fn scripts_give_the_same_text() {
    let times = std::env::var("MASTTOMATO_TIMES").map(|text| text.parse().expect("a number"));
    let scripts = SCRIPTS * times.unwrap_or(1);
    let steps: usize = thread::scope(|scope| {
        let threads: Vec<_> = (1..=THREADS)
            .map(|first| {
                let seeds = (first..=scripts).step_by(THREADS as usize);
                scope.spawn(move || seeds.map(assert_same_text).sum::<usize>())
            })
            .collect();
        threads.into_iter().map(|thread| thread.join().expect("the same text")).sum()
    });
    let opened = OPENED.load(Relaxed);
    println!("{scripts} scripts of {steps} steps; {opened} sessions were opened anew");
    assert!(opened > scripts as usize / 10, "{opened}");
}

// How many steps the script of a seed has, which gives the same text by `nobj script`.
fn assert_same_text(seed: u64) -> usize {
    let script = Maker::new(seed).script();
    let (text, world) = play(script.as_bytes()).expect("memory");
    let world = world.unwrap_or_else(|| panic!("seed {seed}: {text}"));
    if let Some(wanted) = nobj("script", script.as_bytes()) {
        assert_eq!(text + "verdict yes\n", wanted, "seed {seed}");
    }
    if let Some(checked) = nobj("check", world.traces().as_bytes()) {
        assert!(checked.ends_with("\nverdict yes\n"), "seed {seed}: {checked}");
    }
    script.lines().count() - 1
}

#[test]
fn a_bad_line_ends_a_script() {
    for seed in 1..=50 {
        let mut maker = Maker::new(seed);
        let mut script = maker.script().into_bytes();
        // One byte is another: mostly that makes a line that is no step.
        let place = maker.below(script.len() as u64) as usize;
        script[place] = *maker.one_of(b" \n.,019abcir[]\xff");
        let (text, world) = play(&script).expect("memory");
        let verdict = if world.is_some() { "verdict yes\n" } else { "" };
        if let Some(wanted) = nobj("script", &script) {
            assert_eq!(text + verdict, wanted, "seed {seed}");
        }
    }
}

// Makes a script by what its steps answer, so that many of them are steps that can be made.
struct Maker {
    state: u64,
    spaces: SpaceId,
    world: World,
    script: String,
    objects: Vec<Reference>,
    calls: Vec<(SpaceId, CallNo)>,
    jobs: Vec<(SpaceId, JobNo)>,
    closed: Vec<(SpaceId, SpaceId)>,
}

impl Maker {
    fn new(seed: u64) -> Maker {
        let first = SpaceId::new(1).expect("a space");
        let opening = Opening { spaces: first, limits: Limits::default() };
        let mut maker = Maker {
            state: seed.wrapping_mul(0x9e37_79b9_7f4a_7c15),
            spaces: first,
            world: World::new(opening).expect("memory"),
            script: String::new(),
            objects: Vec::new(),
            calls: Vec::new(),
            jobs: Vec::new(),
            closed: Vec::new(),
        };
        maker.open();
        maker
    }

    // Two to five spaces, seldom one or more of them.
    fn open(&mut self) {
        let number = match self.below(16) {
            0 => 1 + self.below(32),
            _ => 2 + self.below(4),
        };
        self.spaces = SpaceId::new(number as u16).expect("a space");
        self.script = format!("spaces {}", self.spaces);
        let mut limits = Limits::default();
        if self.below(2) == 0 {
            let (window, retry) = (1 + self.below(64) as u8, 1 + self.below(20) as u8);
            limits = Limits::new(window, retry).expect("limits");
            self.script.push_str(&format!(" window {window} retry {retry}"));
        }
        self.script.push('\n');
        self.world = World::new(Opening { spaces: self.spaces, limits }).expect("memory");
    }

    fn script(&mut self) -> String {
        for _ in 0..40 + self.below(200) {
            let step = self.step();
            self.script.push_str(&format!("{step}\n"));
            if let Ok(answer) = self.world.step(&step) {
                self.learn(&step, answer);
            }
        }
        self.script.clone()
    }

    // Keeps what an answer told, for later steps.
    fn learn(&mut self, step: &Step, answer: Answer) {
        if let Answer::Closed(_) = answer {
            self.closed.extend(self.ends_of(step));
        }
        let Step::Do(space, _) = step else { return };
        match answer {
            Answer::Exported(object) => self.objects.push(object),
            Answer::Called(call) => self.calls.push((*space, call)),
            Answer::Job(job) => self.jobs.push((*space, job.job)),
            Answer::Opened(_) => {
                OPENED.fetch_add(1, Relaxed);
            }
            _ => {}
        }
    }

    // Whose session with whom a step may have closed.
    fn ends_of(&self, step: &Step) -> Option<(SpaceId, SpaceId)> {
        match step {
            Step::Do(space, Event::Act(peer) | Event::Tick(peer) | Event::Close(peer)) => {
                Some((*space, *peer))
            }
            Step::Deliver(number) => {
                self.world.frame(*number).map(|frame| (frame.to(), frame.from()))
            }
            _ => None,
        }
    }

    // One step of three delivers a frame, mostly one of the last twelve. Of the others most are what
    // a space could do next.
    fn step(&mut self) -> Step {
        let frames = self.world.frame_count();
        if frames > 0 && self.below(3) == 0 {
            return Step::Deliver(match self.below(8) {
                0 => self.below(frames + 2),
                _ => frames - self.below(frames.min(12)),
            });
        }
        let space = self.space();
        match self.below(2) {
            0 => self.next_of(space).unwrap_or_else(|| Step::Do(space, self.event(space))),
            _ => Step::Do(space, self.event(space)),
        }
    }

    // What a space could do next, if anything.
    fn next_of(&mut self, space: SpaceId) -> Option<Step> {
        let work = self.world.spaces().get(usize::from(space.get()) - 1)?.work();
        let peers = || self.spaces.up_to();
        let mut events: Vec<Event> = peers().filter(|p| work.act(*p)).map(Event::Act).collect();
        events.extend(peers().filter(|peer| work.send(*peer)).map(Event::Transmit));
        events.extend(work.settle.then_some(Event::Settle));
        events.extend(work.clean.then_some(Event::Clean));
        events.extend(work.claim.then_some(Event::Claim));
        events.extend(work.withdraw.map(Event::Withdraw));
        let place = self.below(events.len().max(1) as u64) as usize;
        events.into_iter().nth(place).map(|event| Step::Do(space, event))
    }

    // A space; seldom one that isn't there.
    fn space(&mut self) -> SpaceId {
        let most = if self.below(50) == 0 { 32 } else { self.spaces.get() };
        SpaceId::new(1 + self.below(most.into()) as u16).expect("a space")
    }

    fn event(&mut self, space: SpaceId) -> Event {
        match self.below(34) {
            0..=2 => Event::Export,
            3 => Event::Dup(self.reference()),
            4..=6 => Event::Release(self.reference()),
            7..=12 => self.call(),
            13 | 14 => Event::TakeReply(self.call_of(space)),
            15 | 16 => Event::Claim,
            17..=20 => self.finish(space),
            21..=23 => Event::Act(self.space()),
            24 => Event::Settle,
            25 => Event::Clean,
            26 => Event::Withdraw(self.reference().index),
            27..=29 => Event::Transmit(self.space()),
            30 => Event::Tick(self.space()),
            31 | 32 => Event::Open(self.closed_of(space)),
            _ if self.below(4) == 0 => Event::Close(self.space()),
            _ => Event::Tick(self.space()),
        }
    }

    fn call(&mut self) -> Event {
        let target = match self.below(2) {
            0 => self.space().agent(),
            _ => self.reference(),
        };
        Event::Call { target, method: self.below(3) as u16, value: self.value(0) }
    }

    fn finish(&mut self, space: SpaceId) -> Event {
        let own: Vec<JobNo> = of_space(&self.jobs, space);
        let job = match own.len() {
            0 => JobNo::new(self.below(4)),
            _ => *self.one_of(&own),
        };
        let outcome = match self.below(6) {
            0 => Outcome::NoMethod,
            1 => Outcome::Fault(self.value(0)),
            _ => Outcome::Answer(self.value(0)),
        };
        Event::Finish(job, outcome)
    }

    fn call_of(&mut self, space: SpaceId) -> CallNo {
        let own: Vec<CallNo> = of_space(&self.calls, space);
        match own.len() {
            0 => CallNo::new(self.below(4)),
            _ => *self.one_of(&own),
        }
    }

    // A peer with whom a space's session has closed, where there is one.
    fn closed_of(&mut self, space: SpaceId) -> SpaceId {
        let own: Vec<SpaceId> = of_space(&self.closed, space);
        match own.len() {
            0 => self.space(),
            _ => *self.one_of(&own),
        }
    }

    // One that was exported, mostly; seldom one that wasn't, or an agent's.
    fn reference(&mut self) -> Reference {
        if self.objects.is_empty() || self.below(10) == 0 {
            return Reference { owner: self.space(), index: self.below(4) };
        }
        let objects = self.objects.clone();
        *self.one_of(&objects)
    }

    // A value; seldom one that has no pickle.
    fn value(&mut self, depth: u64) -> Value {
        match self.below(20) {
            0..=3 => Value::Unit,
            4 | 5 => Value::Int(self.next() as i64 >> self.below(64)),
            6 => Value::Bytes((0..self.below(12)).map(|byte| byte as u8 * 23).collect()),
            7 if depth == 0 && self.below(4) == 0 => self.value_without_pickle(),
            8..=10 if depth < 3 => {
                Value::List((0..self.below(4)).map(|_| self.value(depth + 1)).collect())
            }
            _ => Value::Ref(self.reference()),
        }
    }

    fn value_without_pickle(&mut self) -> Value {
        match self.below(4) {
            0 => Value::Bytes(vec![7; 8_193]),
            1 => Value::List(vec![Value::Unit; 257]),
            2 => (0..16).fold(Value::Unit, |value, _| Value::List(vec![value])),
            _ => Value::List(vec![Value::Ref(self.reference()); 33]),
        }
    }

    fn one_of<'a, T>(&mut self, all: &'a [T]) -> &'a T {
        &all[self.below(all.len() as u64) as usize]
    }

    fn below(&mut self, bound: u64) -> u64 {
        (self.next() >> 11) % bound
    }

    fn next(&mut self) -> u64 {
        self.state ^= self.state << 13;
        self.state ^= self.state >> 7;
        self.state ^= self.state << 17;
        self.state
    }
}

// What was told of this space.
fn of_space<T: Copy>(all: &[(SpaceId, T)], space: SpaceId) -> Vec<T> {
    all.iter().filter(|(owner, _)| *owner == space).map(|(_, number)| *number).collect()
}
