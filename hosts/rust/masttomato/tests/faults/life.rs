//! What a process does until it is killed, or told to end: it makes, calls, passes, holds and drops what
//! others have and what it has, and sees that what it is answered is right.

use crate::bearer::*;
use crate::sealed::{self, WORLD};
use crate::things::*;
use crate::{Numbers, SPACES};
use masttomato::engine::{Files, World};
use masttomato::space::{Bounds, Refusal, SegmentSize, SpaceError, SpaceId};
use masttomato::{
    Builder, CallError, Changes, Fault, Node, NodeError, Peers, Remote, Run, Session, Why,
};
use std::path::{Path, PathBuf};
use std::sync::Arc;
use std::sync::atomic::{AtomicBool, AtomicU64, Ordering::SeqCst};
use std::time::{Duration, Instant};
use std::{fs, io, thread};

/// A session without progress closes after this.
const GIVE_UP: Duration = Duration::from_secs(2);
const FILE: u64 = 1 << 20;

/// Where a process says where it listens.
pub fn address_file(folder: &Path, number: u16) -> PathBuf {
    folder.join(format!("address-{number}"))
}

/// Where a space keeps its bounds.
pub fn bounds_file(folder: &Path, number: u16) -> PathBuf {
    folder.join(format!("bounds-{number}"))
}

/// Whether the processes of a number keep bounds, and so come back under it.
pub fn keeps_bounds(number: u16) -> bool {
    number.is_multiple_of(2)
}

// A node of the world, before it says what it records.
fn builder(number: u16, peers: Peers, folder: &Path) -> Builder {
    let builder = Node::builder(id(number), peers).world(WORLD).spaces(id(SPACES));
    let builder = builder.listen("127.0.0.1:0").give_up_after(GIVE_UP).workers(2);
    sealed::shown(builder, number, folder)
}

/// The first node of the world, which nothing befalls but weather.
pub fn first_node(folder: &Path) -> Node {
    let files = Files::new(folder, id(1), FILE);
    builder(1, Peers::none(), folder).record(files).start().expect("a node")
}

// The node of a life: it records a trace, or a chain.
fn node(number: u16, peers: Peers, folder: &Path, numbers: &mut Numbers) -> Node {
    let (here, mut builder) = (id(number), builder(number, peers, folder));
    let mut files = Files::new(folder, here, FILE);
    if keeps_bounds(number) {
        let path = bounds_file(folder, number);
        let bounds = Bounds::open(path, World::named(WORLD), here, id(SPACES)).expect("its file");
        files = Files::of_life(folder, here, bounds.life(), FILE);
        builder = builder.bounds(bounds);
    }
    let size = SegmentSize::new(1 + numbers.below(500) as u32).filter(|_| numbers.below(2) == 0);
    let builder = match size {
        Some(size) => builder.record_chain(size, files.for_chain()),
        None => builder.record(files),
    };
    builder.start().expect("a node")
}

// A counter that only this process calls: what it was last known to say, and how many calls of it may have
// been carried out since.
struct Own {
    counter: Remote<dyn Counter>,
    known: i64,
    unknown: i64,
}

impl Own {
    // One more is added, and what is said is one more than was known, or as many more as may be.
    fn add(&mut self, numbers: &mut Numbers) -> bool {
        let limit = Duration::from_millis([0, 3, 50, 3_000][numbers.below(4) as usize]);
        let call = match numbers.below(4) {
            0 => self.counter.try_add(1),
            1 => self.counter.add(1).or_cancel(),
            _ => self.counter.add(1),
        };
        self.unknown += 1;
        match call.wait_for(limit) {
            Ok(total) => {
                let most = self.known + self.unknown;
                assert!((self.known + 1..=most).contains(&total), "{total}, not up to {most}");
                (self.known, self.unknown) = (total, 0);
                true
            }
            Err(CallError::Busy) => {
                self.unknown -= 1;
                true
            }
            Err(CallError::TimedOut) => true,
            Err(error) => is_excused(&error),
        }
    }
}

// Whether an error is one that faults of the way explain; then what was called is given up.
fn is_excused(error: &CallError) -> bool {
    match error {
        CallError::Ended(_) | CallError::Down(_) | CallError::Lost | CallError::TimedOut => false,
        CallError::Fault(Fault::Lost) => false,
        // Where connections are sealed and one came to the wrong node, or bytes of none were in it.
        CallError::Refused(_, Why::Certificate(_)) => false,
        other => panic!("no fault of the way explains this: {other}"),
    }
}

/// What a process has while it lives.
struct Living {
    node: Node,
    shelf: Remote<dyn Shelf>,
    bearer: Remote<dyn Bearer>,
    own: Vec<Own>,
    others: Vec<Remote<dyn Counter>>,
    alive: Arc<AtomicU64>,
    changes: Changes,
    /// Peers whose sessions have closed, and are to be opened anew.
    shut: Vec<SpaceId>,
    numbers: Numbers,
}

/// The life of a process: its number, its seed, and the folder of its world.
pub fn live(number: u16, seed: u64, folder: &Path) {
    let text = fs::read_to_string(folder.join("world.peers")).expect("the places");
    let lower: String =
        text.lines().take(usize::from(number) - 1).map(|line| format!("{line}\n")).collect();
    let mut numbers = Numbers::new(seed);
    let node = node(number, lower.parse().expect("the places"), folder, &mut numbers);
    let changes = node.changes().expect("a node");
    let address = node.address().expect("it listens").to_string();
    let file = address_file(folder, number);
    fs::write(file.with_extension("new"), address).expect("a file");
    fs::rename(file.with_extension("new"), file).expect("a file");
    let is_over = Arc::new(AtomicBool::new(false));
    let over = is_over.clone();
    thread::spawn(move || {
        // The end of the input is the word to end.
        let _ended = io::copy(&mut io::stdin(), &mut io::sink());
        over.store(true, SeqCst);
    });
    let limit = 3 * GIVE_UP;
    let Ok(shelf) = node.lookup::<dyn Shelf>(id(1), "shelf").wait_for(limit) else { return };
    let Ok(bearer) = node.lookup::<dyn Bearer>(id(1), "bearer").wait_for(limit) else { return };
    let (own, others, shut) = (Vec::new(), Vec::new(), Vec::new());
    let alive = Arc::default();
    let mut living = Living { node, shelf, bearer, own, others, alive, changes, shut, numbers };
    while !is_over.load(SeqCst) && !matches!(living.node.session(id(1)), Session::Closed(_)) {
        thread::sleep(Duration::from_millis(living.numbers.below(5)));
        living.deed();
        living.open_again();
    }
    each_call_ends(&living.node);
}

// Each call is answered, or ends with its session: none stays open, whoever is stopped or gone.
fn each_call_ends(node: &Node) {
    let end = Instant::now() + 15 * GIVE_UP;
    while node.counts().calls_open > 0 {
        assert!(Instant::now() < end, "a call stays open: {:?}", node.report());
        thread::sleep(Duration::from_millis(5));
    }
}

impl Living {
    fn limit(&mut self) -> Duration {
        Duration::from_millis(1 + self.numbers.below(2_000))
    }

    // One of others' counters, or of this one's own that others may have: its place.
    fn any_other(&mut self) -> Option<usize> {
        let count = self.others.len() as u64;
        (count > 0).then(|| self.numbers.below(count) as usize)
    }

    fn deed(&mut self) {
        match self.numbers.below(28) {
            0 | 1 => self.has_one_made(),
            2 => self.makes_one(),
            3..6 => self.puts_one(),
            6 | 7 => self.takes_one(),
            8 if !self.own.is_empty() => {
                let place = self.numbers.below(self.own.len() as u64) as usize;
                drop(self.own.swap_remove(place));
            }
            9 => drop(self.any_other().map(|place| self.others.swap_remove(place))),
            10 | 11 => self.has_one_called(),
            12 | 13 => self.calls_one(),
            14 | 15 => self.has_one_borne(),
            16 => self.has_much_borne(),
            17 | 18 => self.binds_one(),
            19..22 => self.looks_one_up(),
            22 => self.closes_one(),
            _ => self.adds(),
        }
        self.others.truncate(16);
    }

    fn has_one_made(&mut self) {
        let (start, limit) = (self.numbers.below(100) as i64, self.limit());
        if self.own.len() < 12
            && let Ok(counter) = self.shelf.make(start).or_cancel().wait_for(limit)
        {
            self.own.push(Own { counter, known: start, unknown: 0 });
        }
    }

    // One of its own is for all; its methods run on a worker, or on the node's thread.
    fn makes_one(&mut self) {
        let run = if self.numbers.below(2) == 0 { Run::Pool } else { Run::Inline };
        let made = self.node.export_with::<dyn Counter>(Tally::new(&self.alive), run);
        self.others.push(made.expect("room"));
    }

    fn puts_one(&mut self) {
        let Some(place) = self.any_other() else { return };
        let put = self.shelf.put(self.others[place].clone());
        let _put = put.wait_for(self.limit()).map_err(|error| is_excused(&error));
    }

    fn takes_one(&mut self) {
        match self.shelf.take().wait_for(self.limit()) {
            Ok(taken) => self.others.extend(taken),
            Err(error) => drop(is_excused(&error)),
        }
    }

    fn has_one_called(&mut self) {
        let Some(place) = self.any_other() else { return };
        let call = self.shelf.add_through(self.others[place].clone(), 1).or_cancel();
        if let Ok(Err(text)) = call.wait_for(self.limit()) {
            assert!(!text.contains("panic"), "{text}");
        }
    }

    fn calls_one(&mut self) {
        let Some(place) = self.any_other() else { return };
        let limit = self.limit();
        if let Err(error) = self.others[place].add(1).wait_for(limit)
            && error != CallError::TimedOut
            && !is_excused(&error)
        {
            self.others.swap_remove(place);
        }
    }

    // By a method that takes no thread while it waits.
    fn has_one_borne(&mut self) {
        let Some(place) = self.any_other() else { return };
        let call = self.bearer.add_to(self.others[place].clone(), 1).or_cancel();
        let _added = call.wait_for(self.limit()).map_err(|error| is_excused(&error));
    }

    // Much at once, so that what goes over a connection is written and cut in many pieces.
    fn has_much_borne(&mut self) {
        let count = self.numbers.below(8_000) as usize;
        let bytes = self.numbers.bytes(count);
        match self.bearer.echo(bytes.clone()).wait_for(self.limit()) {
            Ok(echoed) => assert!(echoed == bytes, "{count} bytes come back otherwise"),
            Err(error) => drop(is_excused(&error)),
        }
    }

    fn binds_one(&mut self) {
        let Some(place) = self.any_other() else { return };
        match self.numbers.below(3) {
            0 => drop(self.node.unbind("common")),
            _ => self.node.bind("common", &self.others[place]).expect("a name"),
        }
    }

    // What another one has under its name, be it there or not.
    fn looks_one_up(&mut self) {
        let owner = id(1 + self.numbers.below(SPACES.into()) as u16);
        match self.node.lookup::<dyn Counter>(owner, "common").wait_for(self.limit()) {
            Ok(counter) => self.others.push(counter),
            Err(CallError::Fault(Fault::NoName)) => {}
            Err(error) => drop(is_excused(&error)),
        }
    }

    // The session with the owner of something closes, but not with the first one.
    fn closes_one(&mut self) {
        let Some(place) = self.any_other() else { return };
        let peer = self.others[place].owner();
        if ![self.node.id(), id(1)].contains(&peer) {
            self.node.close(peer);
        }
    }

    // Sessions that have closed are opened anew, once nothing is left of what was had of the peer. Those of a node that
    // came back are opened by the node.
    fn open_again(&mut self) {
        while let Some((peer, session)) = self.changes.try_next() {
            if matches!(session, Session::Closed(_)) && peer != id(1) {
                self.shut.push(peer);
            }
        }
        if self.shut.is_empty() {
            return;
        }
        self.others.retain(|other| !self.shut.contains(&other.owner()));
        self.node.unbind("common");
        let node = &self.node;
        self.shut.retain(|peer| match node.open(*peer) {
            Ok(_) => false,
            Err(NodeError::Space(SpaceError::Refused(refusal))) => refusal == Refusal::StillHeld,
            Err(error) => panic!("a session isn't opened: {error}"),
        });
    }

    fn adds(&mut self) {
        if self.own.is_empty() {
            return;
        }
        let place = self.numbers.below(self.own.len() as u64) as usize;
        if !self.own[place].add(&mut self.numbers) {
            self.own.swap_remove(place);
        }
    }
}
