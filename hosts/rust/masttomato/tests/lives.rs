//! Processes that are killed at any moment and come back under their numbers: no index, call or session number is used twice;
//! and nodes that are killed and started again, all of them, while they call each other, go on without anybody's help, give up
//! in the end what they held, and leave traces that are, joined, a run of a world.
//!
//! It takes some seconds; MASTTOMATO_LIVES says how many the nodes are to be killed for, and MASTTOMATO_SEED from which seed:
//!
//!     MASTTOMATO_LIVES=600 MASTTOMATO_SEED=5 tools/host-cargo test --test lives -- --nocapture

#[path = "common/mod.rs"]
mod common;
#[path = "nodes/things.rs"]
#[allow(dead_code)]
mod things;

use common::checking::{each_of, fault_of};
use common::nobj;
use masttomato::engine::{Files, HELLO, Hello, Life, TraceSink, WINDOW, World};
use masttomato::space::{Bounds, BoundsError, Limits, SegmentSize, Space};
use masttomato::{CallError, Fault, Node, NodeError, Peers, Remote, Session, Value, Why};
use std::collections::HashSet;
use std::fs::{self, OpenOptions};
use std::io::{BufRead, BufReader, Read, Write};
use std::net::{TcpListener, TcpStream};
use std::path::{Path, PathBuf};
use std::process::{Child, ChildStdin, ChildStdout, Command, Stdio};
use std::sync::Mutex;
use std::sync::atomic::{AtomicU16, Ordering::SeqCst};
use std::sync::mpsc::{Receiver, TryRecvError, channel};
use std::thread;
use std::time::{Duration, Instant};
use things::*;

const SPACES: u16 = 3;
const COUNTS: &str = "MASTTOMATO_COUNTS";
const BEGINS: &str = "MASTTOMATO_BEGINS";
const LIFE: &str = "MASTTOMATO_LIFE";
/// So often the process that only uses numbers is killed.
const KILLS: u64 = 25;
/// The traces of a world of more entries aren't judged by `nobj check`, which may be an unproved and slow one, unless a length
/// is asked for.
const JUDGED: usize = 150_000;

fn world() -> World {
    World::named("lives")
}

fn bounds_of(folder: &Path, number: u16) -> PathBuf {
    folder.join(format!("space-{number}.bounds"))
}

fn number_of(name: &str, otherwise: u64) -> u64 {
    std::env::var(name).map_or(otherwise, |text| text.parse().expect("a number"))
}

/// A folder that goes with the test, unless something is wrong.
struct Folder(PathBuf);

impl Folder {
    fn new(name: &str) -> Folder {
        let folder = std::env::temp_dir().join(format!("masttomato-{name}-{}", std::process::id()));
        fs::create_dir_all(&folder).expect("a folder");
        for number in 1..=SPACES {
            let path = bounds_of(&folder, number);
            Bounds::create(path, world(), id(number), id(SPACES)).expect("a file");
        }
        Folder(folder)
    }
}

impl Drop for Folder {
    fn drop(&mut self) {
        if !thread::panicking() {
            let _removed = fs::remove_dir_all(&self.0);
        }
    }
}

// This test again, as another process that does something else.
fn again(test: &str, word: &str, told: &str) -> Command {
    let mut command = Command::new(std::env::current_exe().expect("this test"));
    command.args(["--exact", test, "--nocapture"]).env(word, told);
    command
}

// Uses numbers, and writes each down as soon as it has, until it is killed.
#[test]
fn a_process_that_uses_numbers() {
    let Ok(folder) = std::env::var(COUNTS) else { return };
    let path = bounds_of(Path::new(&folder), 1);
    let bounds = Bounds::open(path, world(), id(1), id(SPACES)).expect("nobody has it");
    let mut log = OpenOptions::new();
    let log = log.append(true).create(true).open(Path::new(&folder).join("used"));
    let mut log = log.expect("a file");
    let mut used = |what: &str, number: u64| {
        log.write_all(format!("{what} {number}\n").as_bytes()).expect("a file");
    };
    let limits = Limits::default();
    used("session", bounds.birth().session(id(2)).into());
    let mut space = Space::begin_behind(bounds, limits).expect("memory");
    loop {
        for _ in 0..300 {
            let object = space.export().expect("room");
            used("index", object.index);
            space.release(object).expect("it is held");
            space.withdraw(object.index).expect("nothing uses it");
        }
        for _ in 0..100 {
            let call = space.call(id(2).agent(), 0, &Value::Unit).expect("room");
            used("call", call.get());
        }
        space.close(id(2)).expect("it is open");
        used("session", space.open(id(2)).expect("nothing is held").into());
    }
}

#[test]
fn no_number_is_used_twice_by_processes_that_are_killed() {
    let folder = Folder::new("used");
    let mut numbers = Numbers::new(1);
    let length = || fs::metadata(folder.0.join("used")).map_or(0, |data| data.len());
    for _ in 0..KILLS {
        let before = length();
        let told = folder.0.display().to_string();
        let mut command = again("a_process_that_uses_numbers", COUNTS, &told);
        let command = command.stdout(Stdio::null()).stderr(Stdio::null());
        let mut child = command.spawn().expect("a process");
        // Most are killed while they use numbers, and some before, while they begin.
        if numbers.below(5) > 0 {
            eventually("it has begun", || length() > before);
        }
        thread::sleep(Duration::from_millis(numbers.below(60)));
        child.kill().expect("it ran until now");
        child.wait().expect("it has ended");
    }
    let used = fs::read_to_string(folder.0.join("used")).unwrap_or_default();
    let (mut known, mut last) = (HashSet::new(), (0, 0));
    for line in used.lines() {
        assert!(known.insert(line), "{line} was used twice");
        let number: u64 =
            line.split(' ').nth(1).and_then(|word| word.parse().ok()).expect("a number");
        last = if line.starts_with("session") { (last.0, number) } else { (number, last.1) };
    }
    let path = bounds_of(&folder.0, 1);
    let bounds = Bounds::open(path, world(), id(1), id(SPACES)).expect("nobody has it");
    println!("{} numbers in {} lives", known.len(), bounds.life() - 1);
    assert!(bounds.life() > KILLS / 2 && u64::from(bounds.birth().session(id(2))) > last.1 + 1);
}

// A process that says which life it is, or that another has the number, and lives until its input ends.
#[test]
fn a_process_that_begins() {
    let Ok(folder) = std::env::var(BEGINS) else { return };
    let opened = Bounds::open(bounds_of(Path::new(&folder), 1), world(), id(1), id(SPACES));
    match &opened {
        Ok(bounds) => println!("\nlife {}", bounds.life()),
        Err(BoundsError::InUse) => println!("\nin use"),
        Err(error) => panic!("{error}"),
    }
    let _ended = std::io::copy(&mut std::io::stdin(), &mut std::io::sink());
}

#[test]
fn of_processes_that_begin_at_once_one_lives() {
    let folder = Folder::new("begin");
    for life in 1..=4_u64 {
        let start = |_| {
            let mut command =
                again("a_process_that_begins", BEGINS, &folder.0.display().to_string());
            Running::of(command.stdin(Stdio::piped()).stdout(Stdio::piped()))
        };
        let processes: Vec<Running> = (0..5).map(start).collect();
        let says = |process: &Running| {
            let mut said = process.said.lock().expect("no panic");
            let mut line = String::new();
            while !["life", "in use"].iter().any(|word| line.starts_with(word)) {
                line.clear();
                assert!(
                    said.read_line(&mut line).expect("a line") > 0,
                    "it ended before it said so"
                );
            }
            line.trim_end().to_string()
        };
        let mut said: Vec<String> = processes.iter().map(says).collect();
        said.sort();
        let (wanted, others) = said.split_last().expect("five");
        assert_eq!(
            (wanted, others.iter().all(|said| said == "in use")),
            (&format!("life {life}"), true)
        );
        // Killed, it leaves the number to the next one.
        processes.into_iter().for_each(Running::kill);
    }
}

/// Numbers from a seed.
struct Numbers(u64);

impl Numbers {
    fn new(seed: u64) -> Numbers {
        Numbers(seed.wrapping_mul(0x9e37_79b9_7f4a_7c15) | 1)
    }

    fn below(&mut self, bound: u64) -> u64 {
        self.0 ^= self.0 << 13;
        self.0 ^= self.0 >> 7;
        self.0 ^= self.0 << 17;
        (self.0 >> 11) % bound
    }
}

// A node that has a shelf and uses those of others, until it is killed or told to be quiet; then it has nothing any more.
#[test]
fn a_life() {
    let Ok(told) = std::env::var(LIFE) else { return };
    let words: Vec<&str> = told.split(' ').collect();
    let (number, seed, folder) =
        (words[0].parse().expect("a number"), words[1], Path::new(words[2]));
    // Nothing takes so long: where something waits for ever, the test ends.
    let limit = Duration::from_secs(number_of("MASTTOMATO_LIVES", 3)) + 4 * SOON;
    thread::spawn(move || {
        thread::sleep(limit);
        std::process::abort();
    });
    let seed: u64 = seed.parse().expect("a number");
    let bounds =
        Bounds::open(bounds_of(folder, number), world(), id(number), id(SPACES)).expect("its file");
    let mut numbers = Numbers::new(seed + bounds.life());
    let node = node_of(bounds, folder, &words[3..], &mut numbers);
    let shelf = node.export::<dyn Shelf>(Box::new(Board::default())).expect("room");
    node.bind("shelf", &shelf).expect("a name");
    let lines = lines();
    let others = (1..=SPACES).filter(|other| *other != number);
    let others: Vec<_> = others.map(|other| node.named::<dyn Shelf>(id(other), "shelf")).collect();
    let mut held: Vec<Remote<dyn Counter>> = Vec::new();
    while lines.try_recv() == Err(TryRecvError::Empty) {
        thread::sleep(Duration::from_millis(1 + numbers.below(4)));
        let other = &others[numbers.below(others.len() as u64) as usize];
        let place = numbers.below(1 << 16) as usize;
        let asked = other.with(|shelf| deed(shelf, &mut held, place, &mut numbers));
        asked.unwrap_or_else(|error| assert!(is_excused(&error), "{error}"));
        held.truncate(8);
    }
    drop((held, others));
    println!("\nquiet");
    lines.recv().expect("a second word");
    node.unbind("shelf");
    while let Ok(Some(_)) = shelf.take().wait_for(SOON) {}
    drop(shelf);
    // What others gave up may still be on its way.
    let is_rid =
        || node.report().is_ok_and(|report| report.live == 0 && report.counts.calls_open == 0);
    eventually("nobody has anything of it", is_rid);
    println!("\nrid");
    lines.recv().expect_err("no third word");
    node.shutdown(SOON);
}

// The node of a life, which records a trace, or a chain whose segments are short, so that some are sealed before it is killed.
fn node_of(bounds: Bounds, folder: &Path, addresses: &[&str], numbers: &mut Numbers) -> Node {
    let (here, life) = (bounds.space(), bounds.life());
    let files = Files::of_life(folder, here, life, 1 << 18);
    let peers = (1..)
        .zip(addresses)
        .fold(Peers::none(), |peers, (number, address)| peers.with(id(number), address));
    let node = Node::builder(here, peers)
        .spaces(id(SPACES))
        .world("lives")
        .give_up_after(Duration::from_secs(20))
        .workers(2)
        .bounds(bounds);
    let size = SegmentSize::new(1 + numbers.below(300) as u32);
    let node = match size.filter(|_| !(u64::from(here.get()) + life).is_multiple_of(3)) {
        Some(size) => node.record_chain(size, files.for_chain()),
        None => node.record(files),
    };
    node.start().expect("a node")
}

// The lines of the standard input, as they come.
fn lines() -> Receiver<String> {
    let (says, said) = channel();
    thread::spawn(move || {
        std::io::stdin().lines().map_while(Result::ok).try_for_each(|line| says.send(line))
    });
    said
}

fn deed(
    shelf: &Remote<dyn Shelf>,
    held: &mut Vec<Remote<dyn Counter>>,
    place: usize,
    numbers: &mut Numbers,
) -> Result<(), CallError> {
    match numbers.below(6) {
        0 => held.push(shelf.make(1).wait_for(SOON)?),
        1 => held.extend(shelf.take().wait_for(SOON)?),
        2 if !held.is_empty() => shelf.put(held[place % held.len()].clone()).wait_for(SOON)?,
        3 if !held.is_empty() => {
            let other = held[place % held.len()].clone();
            // What it says of one that is gone is no error of this call.
            let _said = shelf.add_through(other, 1).wait_for(SOON)?;
        }
        4 if !held.is_empty() => {
            let place = place % held.len();
            if held[place].add(1).wait_for(SOON).is_err() {
                held.swap_remove(place);
            }
        }
        _ => drop(shelf.who().wait_for(SOON)?),
    }
    Ok(())
}

// Whether an error is one that the death of a process explains.
fn is_excused(error: &CallError) -> bool {
    matches!(
        error,
        CallError::Ended(_)
            | CallError::Down(_)
            | CallError::Lost
            | CallError::TimedOut
            | CallError::Fault(Fault::NoName | Fault::Lost)
    )
}

// A port that is free, and that no listener on port 0 is ever given: below those that systems give.
fn port() -> u16 {
    static NEXT: AtomicU16 = AtomicU16::new(0);
    loop {
        let port = 9_000 + (std::process::id() as u16 % 100) * 20 + NEXT.fetch_add(1, SeqCst) % 20;
        if TcpListener::bind(("127.0.0.1", port)).is_ok() {
            return port;
        }
    }
}

/// A process of a node.
struct Running {
    child: Child,
    told: ChildStdin,
    said: Mutex<BufReader<ChildStdout>>,
}

impl Running {
    fn start(number: u16, seed: u64, folder: &Path, addresses: &[String]) -> Running {
        let told = format!("{number} {seed} {} {}", folder.display(), addresses.join(" "));
        let mut command = again("a_life", LIFE, &told);
        Running::of(command.stdin(Stdio::piped()).stdout(Stdio::piped()))
    }

    fn of(command: &mut Command) -> Running {
        let mut child = command.spawn().expect("a process");
        let told = child.stdin.take().expect("a pipe");
        let said = Mutex::new(BufReader::new(child.stdout.take().expect("a pipe")));
        Running { child, told, said }
    }

    fn kill(mut self) {
        self.child.kill().expect("it ran until now");
        self.child.wait().expect("it has ended");
    }

    // Tells it a word.
    fn tell(&mut self, word: &str) {
        writeln!(self.told, "{word}").expect("it runs");
    }

    // Waits until it says a word.
    fn hear(&mut self, wanted: &str) {
        let mut said = self.said.lock().expect("no panic");
        let mut line = String::new();
        while line.trim_end() != wanted {
            line.clear();
            assert!(
                said.read_line(&mut line).expect("a line") > 0,
                "it ended before it was {wanted}"
            );
        }
    }

    fn end(mut self) {
        drop(self.told);
        assert!(self.child.wait().expect("it has ended").success());
    }
}

#[test]
fn nodes_are_killed_and_go_on_under_their_numbers() {
    let time = Duration::from_secs(number_of("MASTTOMATO_LIVES", 3));
    let seed = number_of("MASTTOMATO_SEED", 1);
    let (folder, mut numbers) = (Folder::new("lives"), Numbers::new(seed));
    let addresses: Vec<String> = (1..=SPACES).map(|_| format!("127.0.0.1:{}", port())).collect();
    let start = |number| Running::start(number, seed, &folder.0, &addresses);
    let mut nodes: Vec<Running> = (1..=SPACES).map(start).collect();
    let (end, mut kills) = (Instant::now() + time, 0);
    while Instant::now() < end {
        thread::sleep(Duration::from_millis(100 + numbers.below(700)));
        let place = numbers.below(SPACES.into()) as usize;
        // The next one starts as soon as this one has died, or a while later.
        nodes.remove(place).kill();
        thread::sleep(Duration::from_millis([0, 0, 50, 300][numbers.below(4) as usize]));
        nodes.insert(place, start(place as u16 + 1));
        kills += 1;
    }
    for (word, wanted) in [("be quiet", "quiet"), ("give up", "rid")] {
        // All are told before any is waited for: one has what another waits to be rid of.
        nodes.iter_mut().for_each(|node| node.tell(word));
        nodes.iter_mut().for_each(|node| node.hear(wanted));
    }
    nodes.into_iter().for_each(Running::end);
    let joined = Files::join_lives(&folder.0, id(SPACES)).expect("lines of lives");
    let entries = joined.lines().count();
    println!("{kills} kills, {entries} entries");
    let is_long = std::env::var_os("MASTTOMATO_LIVES").is_some();
    let traces = each_of(&joined);
    assert_eq!(traces.len(), usize::from(SPACES));
    assert_eq!(fault_of(&traces), None);
    if (is_long || entries < JUDGED)
        && let Some(said) = nobj("check", joined.as_bytes())
    {
        assert!(said.ends_with("\nverdict yes\n"), "{said}");
    }
    assert!(kills > 0);
}

// A file for each line or two, and more lives than their numbers have places for.
#[test]
fn files_of_lives_are_joined_in_their_order() {
    let folder = Folder::new("files");
    let of_life = |life| Files::of_life(&folder.0, id(1), life, 8);
    let write = |mut files: Files, text: &str| {
        text.split_inclusive('\n').for_each(|line| files.entries(line).expect("a file"));
    };
    write(of_life(999_999), "life 1 indexes 0 calls 0 jobs 0\n4 export = exported 1.1\n");
    assert_eq!(of_life(1_000_000).last_stamp(), 4);
    write(of_life(1_000_000), "life 2 indexes 1 calls 0 jobs 0\n7 export = exported 1.2\n8 dup");
    assert_eq!(of_life(1_000_001).for_chain().last_stamp(), 7);
    let joined = || Files::join_lives(&folder.0, id(1)).expect("lines of lives");
    let trace = "trace2 1 of 1 window 64 retry 255 entries 4\n\
                 12 export = exported 1.1\n\
                 13 release 1.1 = ok\n\
                 14 withdraw 1 = withdrawn\n\
                 21 export = exported 1.2\n";
    assert_eq!(joined(), trace);
    // A third life left a chain, and a trace beside it, which isn't read.
    let third = "life 3 indexes 2 calls 0 jobs 0\n9 export = exported 1.3\n";
    write(of_life(1_000_001), third);
    write(of_life(1_000_001).for_chain(), &format!("{third}seal 9 live 1\n"));
    assert_eq!(of_life(1_000_002).last_stamp(), 9);
    // Each bridge ends a segment.
    let chain = "chain 1 of 1 window 64 retry 255 segments 3\n\
                 segment 1 entries 3\n\
                 12 export = exported 1.1\n13 release 1.1 = ok\n14 withdraw 1 = withdrawn\n\
                 seal 14 live 0\n\
                 segment 2 entries 3\n\
                 21 export = exported 1.2\n22 release 1.2 = ok\n23 withdraw 2 = withdrawn\n\
                 seal 23 live 0\n\
                 segment 3 entries 1\n27 export = exported 1.3\nseal 27 live 1\n";
    assert_eq!(joined(), chain);
    assert!(Files::join(&folder.0, id(1), id(1)).is_err());
    assert!(Files::join_chain(&folder.0, id(1), id(1)).is_err());
}

// A node of the next life of a number, at a port that stays the same.
fn next_life(number: u16, file: &Path, peers: Peers, port: u16) -> Node {
    let bounds = Bounds::open(file, world(), id(number), id(SPACES)).expect("nobody has it");
    let builder = Node::builder(id(number), peers).spaces(id(SPACES)).world("lives").bounds(bounds);
    builder.listen(format!("127.0.0.1:{port}")).start().expect("a node")
}

#[test]
fn handles_of_a_life_that_ended_are_lost_and_its_names_lead_to_the_next() {
    let (folder, port) = (Folder::new("handles"), port());
    let file = bounds_of(&folder.0, 1);
    let one = next_life(1, &file, Peers::none(), port);
    let (counter, _alive) = tally(&one);
    one.bind("counter", &counter).expect("a name");
    let peers = Peers::none().with(id(1), format!("127.0.0.1:{port}"));
    let two =
        Node::builder(id(2), peers).spaces(id(SPACES)).world("lives").start().expect("a node");
    let named = two.named::<dyn Counter>(id(1), "counter");
    assert_eq!(named.with(|counter| counter.add(5).wait_for(SOON)), Ok(5));
    let old = named.get().expect("it was found");
    drop(counter);
    one.shutdown(SOON);
    eventually("its peer was told", || matches!(two.session(id(1)), Session::Closed(_)));
    assert!(!old.is_lost() && old.add(1).wait_for(SOON) == Err(CallError::Down(id(1))));

    let one = next_life(1, &file, Peers::none(), port);
    let (counter, alive) = tally(&one);
    one.bind("counter", &counter).expect("a name");
    eventually("it is found again", || named.with(|counter| counter.add(7).wait_for(SOON)).is_ok());
    assert_eq!(two.session(id(1)), Session::Open);
    assert!(old.is_lost() && old.add(1).wait_for(SOON) == Err(CallError::Down(id(1))));
    assert!(old != named.get().expect("it was found"));
    assert_eq!((two.counts().renewals, two.counts().not_covered), (1, 0));
    drop((named, counter, old));
    one.unbind("counter");
    eventually("nobody has the counter any more", || alive.load(SeqCst) == 0);
}

// What nothing prevents: a node has in memory alone who used a number, so that one that begins again lets another process in under
// it. A process without bounds is told so on the first page.
#[test]
fn a_node_that_begins_again_has_forgotten_who_used_a_number() {
    let (folder, port) = (Folder::new("forgotten"), port());
    let file = bounds_of(&folder.0, 1);
    let two = || {
        let peers = Peers::none().with(id(1), format!("127.0.0.1:{port}"));
        let builder = Node::builder(id(2), peers).spaces(id(SPACES)).world("lives");
        builder.start().expect("a node")
    };
    let one = next_life(1, &file, Peers::none(), port);
    let (counter, _alive) = tally(&one);
    one.bind("counter", &counter).expect("a name");
    let first = two();
    assert!(first.lookup::<dyn Counter>(id(1), "counter").wait_for(SOON).is_ok());
    first.shutdown(SOON);
    let second = two();
    let refused = second.lookup::<dyn Counter>(id(1), "counter").wait_for(SOON);
    assert_eq!(refused.expect_err("it was used"), CallError::Refused(id(1), Why::NumberUsed));
    second.shutdown(SOON);
    one.shutdown(SOON);

    let one = next_life(1, &file, Peers::none(), port);
    let (counter, _alive) = tally(&one);
    one.bind("counter", &counter).expect("a name");
    let third = two();
    let found = || third.lookup::<dyn Counter>(id(1), "counter").wait_for(SOON).is_ok();
    eventually("it is let in", found);
}

#[test]
fn a_life_below_the_latest_is_refused() {
    let (folder, port) = (Folder::new("older"), port());
    let (file, older) = (bounds_of(&folder.0, 2), folder.0.join("older"));
    fs::copy(&file, &older).expect("as must never be done");
    let one = next_life(1, &bounds_of(&folder.0, 1), Peers::none(), port);
    let (counter, _alive) = tally(&one);
    one.bind("counter", &counter).expect("a name");
    let peers = || Peers::none().with(id(1), format!("127.0.0.1:{port}"));
    for _ in 0..2 {
        let two = next_life(2, &file, peers(), 0);
        let found = || two.lookup::<dyn Counter>(id(1), "counter").wait_for(SOON).is_ok();
        eventually("it is let in", found);
        two.shutdown(SOON);
    }
    let two = next_life(2, &older, peers(), 0);
    let refused =
        two.lookup::<dyn Counter>(id(1), "counter").wait_for(SOON).expect_err("it is older");
    assert_eq!(refused, CallError::Refused(id(1), Why::OldLife));
    // The life that the copy comes to next is the latest one's, but another process has it.
    two.shutdown(SOON);
    let two = next_life(2, &older, peers(), 0);
    let refused =
        two.lookup::<dyn Counter>(id(1), "counter").wait_for(SOON).expect_err("it was used");
    assert_eq!(refused, CallError::Refused(id(1), Why::NumberUsed));
}

#[test]
fn a_hello_of_another_version_is_refused_in_words() {
    let folder = Folder::new("version");
    let one = next_life(1, &bounds_of(&folder.0, 1), Peers::none(), 0);
    let life = Life { number: 0, process: 1 };
    let hello = Hello {
        space: id(2),
        spaces: id(SPACES),
        world: world(),
        life,
        window: WINDOW,
        refused: None,
    };
    for (version, why) in [(3, Some(Why::OtherVersion)), (4, None)] {
        let mut stream = TcpStream::connect(one.address().expect("it listens")).expect("a node");
        let mut bytes = hello.to_bytes();
        bytes[5] = version;
        stream.write_all(&bytes).expect("a hello");
        let mut said = [0; HELLO];
        stream.read_exact(&mut said).expect("a hello");
        let said = Hello::from_bytes(&said).expect("a hello");
        assert_eq!((said.refused, said.life.number), (why, 1));
    }
}

#[test]
fn bounds_of_another_space_or_world_are_refused() {
    let folder = Folder::new("others");
    let bounds =
        || Bounds::open(bounds_of(&folder.0, 1), world(), id(1), id(SPACES)).expect("its file");
    let refused = |builder: masttomato::Builder| {
        let started = builder.bounds(bounds()).start();
        matches!(started, Err(NodeError::Bounds(BoundsError::OtherSpace)))
    };
    let builder = |number| Node::builder(id(number), Peers::none());
    assert!(refused(builder(2).spaces(id(SPACES)).world("lives")));
    assert!(refused(builder(1).spaces(id(SPACES)).world("others")));
    assert!(refused(builder(1).spaces(id(2)).world("lives")));
    let node =
        builder(1).spaces(id(SPACES)).world("lives").bounds(bounds()).start().expect("a node");
    assert!(matches!(
        Bounds::open(bounds_of(&folder.0, 1), world(), id(1), id(SPACES)),
        Err(BoundsError::InUse)
    ));
    drop(node);
    assert_eq!(bounds().life(), 5);
}
