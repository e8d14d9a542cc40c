//! Real processes and bad weather: worlds one after the other, for a time and from a seed. In each, processes
//! call, pass, hold and drop each other's objects by way of proxies that cut behind any byte, reset and stall, delay, split and
//! join what is written, bring some connections to the wrong node, and put bytes of no record between records; and strangers come
//! to all of them. Some processes are killed, some paused, some end in order; those that keep bounds come back under their
//! numbers, and others take the places of the rest. In the end nobody has anything, no process has panicked, and the lives
//! of all, as far as each was recorded, are joined a run.
//!
//! It takes some seconds; MASTTOMATO_FAULTS says how many it is to take, and MASTTOMATO_SEED from which seed. `bench/faults MINUTES
//! SEED` does so:
//!
//!     MASTTOMATO_FAULTS=1800 MASTTOMATO_SEED=5 tools/host-cargo test --test faults -- --nocapture

mod bearer;
#[path = "../common/mod.rs"]
mod common;
mod life;
mod manner;
mod plan;
mod sealed;
mod strangers;
#[path = "../nodes/things.rs"]
#[allow(dead_code)]
mod things;
mod weather;

use bearer::{Bearer, Porter};
use common::checking::{each_of, fault_of};
use common::nobj;
use life::{address_file, bounds_file, keeps_bounds};
use masttomato::engine::{Files, World};
use masttomato::space::Bounds;
use masttomato::{Remote, Session};
use plan::{Fate, Plan};
use sealed::WORLD;
use std::fs::{self, File};
use std::path::{Path, PathBuf};
use std::process::{Child, Command, Stdio};
use std::sync::atomic::{AtomicU64, Ordering::SeqCst};
use std::thread;
use std::time::{Duration, Instant};
use things::*;
use weather::Weather;

/// So many spaces has a world: the first one, and those whose processes come and go.
pub const SPACES: u16 = 16;
const AT_ONCE: usize = 3;
/// So long processes begin in a world.
const LEAST: Duration = Duration::from_secs(3);
const LONGEST: Duration = Duration::from_secs(20);
const LIFE: &str = "MASTTOMATO_LIFE";
const JUDGE: &str = "MASTTOMATO_JUDGE";

/// Numbers from a seed.
#[derive(Debug)]
pub struct Numbers(u64);

impl Numbers {
    /// Those of this seed.
    pub fn new(seed: u64) -> Numbers {
        Numbers(seed.wrapping_mul(0x9e37_79b9_7f4a_7c15) | 1)
    }

    /// The next one, below a bound.
    pub fn below(&mut self, bound: u64) -> u64 {
        self.0 ^= self.0 << 13;
        self.0 ^= self.0 >> 7;
        self.0 ^= self.0 << 17;
        (self.0 >> 11) % bound
    }

    /// The next so many bytes.
    pub fn bytes(&mut self, count: usize) -> Vec<u8> {
        (0..count).map(|_| self.below(256) as u8).collect()
    }
}

fn number_of(name: &str, otherwise: u64) -> u64 {
    std::env::var(name).map_or(otherwise, |text| text.parse().expect("a number"))
}

// This test again, as another process that does something else.
fn again(test: &str, word: &str, told: &str) -> Command {
    let mut command = Command::new(std::env::current_exe().expect("this test"));
    command.args(["--exact", test, "--nocapture"]).env(word, told).stdout(Stdio::null());
    command
}

#[test]
fn a_life() {
    let Ok(told) = std::env::var(LIFE) else { return };
    let [number, seed, folder] = told.splitn(3, ' ').collect::<Vec<_>>()[..] else { return };
    let (number, seed) = (number.parse().expect("a number"), seed.parse().expect("a number"));
    life::live(number, seed, Path::new(folder));
}

// Whether the traces in a folder are a run: in a process of its own, whose memory goes with it.
#[test]
fn a_judge() {
    let Ok(folder) = std::env::var(JUDGE) else { return };
    let joined = Files::join_lives(Path::new(&folder), id(SPACES)).expect("lines of lives");
    let traces = each_of(&joined);
    assert_eq!(traces.len(), usize::from(SPACES));
    assert_eq!(fault_of(&traces), None);
    if let Some(said) = nobj("check", joined.as_bytes()) {
        assert!(said.ends_with("\nverdict yes\n"), "{said}");
    }
}

/// A process that lives at a place, and what is to befall it.
struct Life {
    process: Child,
    number: u16,
    fate: Fate,
    began: Instant,
    is_paused: bool,
}

impl Life {
    fn begin(number: u16, fate: Fate, folder: &Path) -> Life {
        let told = format!("{number} {} {}", fate.seed, folder.display());
        // Nobody finds it where the life before was.
        let _was_there = fs::remove_file(address_file(folder, number));
        let said = File::create(folder.join(format!("said-{number}-{}", fate.seed)));
        let mut command = again("a_life", LIFE, &told);
        command.stdin(Stdio::piped()).stderr(said.expect("a file"));
        let process = command.spawn().expect("a process");
        Life { process, number, fate, began: Instant::now(), is_paused: false }
    }

    // Stops the process where it is, or lets it go on.
    fn pause(&mut self, is_paused: bool) {
        let word = if is_paused { "-STOP" } else { "-CONT" };
        let _sent = Command::new("kill").args([word, &self.process.id().to_string()]).status();
        self.is_paused = is_paused;
    }

    fn kill(mut self) {
        let _was_there = self.process.kill();
        self.process.wait().expect("it has ended");
    }

    // Tells it to end, and waits for that.
    fn end(mut self) {
        self.pause(false);
        drop(self.process.stdin.take());
        let mut ended = None;
        eventually("a process ends that is told to", || {
            ended = self.process.try_wait().expect("a process");
            ended.is_some()
        });
        assert!(ended.is_some_and(|status| status.success()), "life {}: {ended:?}", self.number);
    }
}

/// What a world came to.
#[derive(Debug, Default)]
struct Sums {
    is_sealed: bool,
    lives: u32,
    reborn: u32,
    kills: u32,
    pauses: u32,
    faults: u64,
    strangers: u64,
    astray: u64,
    calls: u64,
}

// A world of so long at most.
fn world(seed: u64, time: Duration, folder: &Path) -> Sums {
    let plan = Plan::new(seed);
    // Every other world has certificates, where they can be made.
    let is_sealed = seed.is_multiple_of(2) && sealed::make(folder);
    let weather = Weather::new(SPACES, plan, is_sealed);
    let places: String =
        (1..=SPACES).map(|place| format!("{place} {}\n", weather.address(place))).collect();
    fs::write(folder.join("world.peers"), places).expect("a file");
    for number in (2..=SPACES).filter(|number| keeps_bounds(*number)) {
        let path = bounds_file(folder, number);
        Bounds::create(path, World::named(WORLD), id(number), id(SPACES)).expect("a file");
    }
    let node = life::first_node(folder);
    weather.settle(1, node.address());
    let board = Board::default();
    let alive = board.alive.clone();
    let shelf = node.export::<dyn Shelf>(Box::new(board)).expect("room");
    let bearer = node.export::<dyn Bearer>(Box::new(Porter)).expect("room");
    node.bind("shelf", &shelf).expect("a name");
    node.bind("bearer", &bearer).expect("a name");
    let mut sums = populate(&weather, time, plan, folder);
    [sums.faults, sums.strangers, sums.astray] = weather.sums();
    // What the lives held is given up, and what they left on the shelf is the first one's own again.
    node.unbind("shelf");
    node.unbind("bearer");
    empty(&shelf);
    let came =
        |number| !matches!(node.session(id(number)), Session::Down { since } if since.is_zero());
    for number in (2..=SPACES).filter(|number| came(*number)) {
        eventually("its session closes", || matches!(node.session(id(number)), Session::Closed(_)));
    }
    drop((shelf, bearer));
    eventually("what the lives held is given up", || alive.load(SeqCst) == 0);
    eventually("no call is open", || node.counts().calls_open == 0);
    eventually("no object is live", || node.report().is_ok_and(|report| report.live == 0));
    (sums.is_sealed, sums.calls) = (is_sealed, node.counts().jobs_finished);
    node.shutdown(SOON);
    assert_no_panic(folder);
    sums
}

// For so long processes begin and come to their ends; then all that live are told to.
fn populate(weather: &Weather, time: Duration, plan: Plan, folder: &Path) -> Sums {
    let (end, mut sums, mut lives) = (Instant::now() + time, Sums::default(), Vec::new());
    let mut used = Vec::new();
    while Instant::now() < end {
        let fate = plan.fate(sums.lives.into());
        if lives.len() < AT_ONCE
            && let Some(number) = next_number(&used, &lives, fate.reborn)
        {
            sums.lives += 1;
            sums.reborn += u32::from(used.contains(&number));
            used.push(number);
            lives.push(Life::begin(number, fate, folder));
        }
        thread::sleep(Duration::from_millis(20));
        follow(weather, &mut lives, &mut sums, folder);
    }
    lives.into_iter().for_each(Life::end);
    sums
}

// Whose process is the next to begin: one that comes back, which of them from any number on, or one whose number wasn't used.
fn next_number(used: &[u16], lives: &[Life], reborn: Option<u64>) -> Option<u16> {
    let is_free = |number: &u16| lives.iter().all(|life| life.number != *number);
    let fresh = (2..=SPACES).find(|number| !used.contains(number));
    let back: Vec<u16> =
        (2..=SPACES).filter(|n| keeps_bounds(*n) && used.contains(n)).filter(is_free).collect();
    let one = |which: u64| back.get(which as usize % back.len().max(1)).copied();
    reborn.map_or_else(|| fresh.or_else(|| one(0)), |which| one(which).or(fresh))
}

// Also of a process that was killed afterwards, or went on, it is known what it said.
fn assert_no_panic(folder: &Path) {
    for entry in fs::read_dir(folder).expect("the folder") {
        let path = entry.expect("an entry").path();
        if path.file_name().is_some_and(|name| name.to_string_lossy().starts_with("said-")) {
            let said = fs::read_to_string(&path).expect("text");
            assert!(!said.contains("panicked at"), "{}: {said}", path.display());
        }
    }
}

// Lives come to their ends: by themselves, killed, or told to.
fn follow(weather: &Weather, lives: &mut Vec<Life>, sums: &mut Sums, folder: &Path) {
    for mut life in std::mem::take(lives) {
        if let Some(ended) = life.process.try_wait().expect("a process") {
            assert!(ended.success(), "life {}: {ended}", life.number);
            continue;
        }
        if let Ok(address) = fs::read_to_string(address_file(folder, life.number)) {
            weather.settle(life.number, address.parse().ok());
        }
        let age = life.began.elapsed();
        if age < life.fate.lasts {
            let is_paused = life.fate.is_paused(age);
            sums.pauses += u32::from(is_paused && !life.is_paused);
            if is_paused != life.is_paused {
                life.pause(is_paused);
            }
            lives.push(life);
        } else if life.fate.is_killed {
            sums.kills += 1;
            life.kill();
        } else {
            life.end();
        }
    }
}

fn empty(shelf: &Remote<dyn Shelf>) {
    while shelf.take().wait_for(SOON).expect("its own shelf").is_some() {}
}

// How much memory this process has, in kilobytes.
fn memory() -> u64 {
    let status = fs::read_to_string("/proc/self/status").unwrap_or_default();
    let line = status.lines().find_map(|line| line.strip_prefix("VmRSS:"));
    line.and_then(|line| line.trim().strip_suffix(" kB")?.parse().ok()).unwrap_or(0)
}

/// A folder that goes with the world.
struct Folder(PathBuf);

impl Folder {
    fn new(seed: u64) -> Folder {
        static NEXT: AtomicU64 = AtomicU64::new(0);
        let number = NEXT.fetch_add(1, SeqCst);
        let name = format!("masttomato-faults-{}-{seed}-{number}", std::process::id());
        let folder = std::env::temp_dir().join(name);
        fs::create_dir_all(&folder).expect("a folder");
        Folder(folder)
    }
}

impl Drop for Folder {
    fn drop(&mut self) {
        // Where something is wrong, the traces stay, and what each process said.
        match thread::panicking() {
            true => eprintln!("it stays: {}", self.0.display()),
            false => drop(fs::remove_dir_all(&self.0)),
        }
    }
}

// One world from a seed, and whether what happened in it is a run.
fn stands(seed: u64, lasts: Duration) -> Sums {
    let folder = Folder::new(seed);
    let sums = world(seed, lasts, &folder.0);
    let judged = again("a_judge", JUDGE, &folder.0.display().to_string()).status();
    assert!(judged.expect("a process").success(), "seed {seed}: {}", folder.0.display());
    sums
}

#[test]
fn processes_and_connections_fail_and_nodes_stand() {
    let first = number_of("MASTTOMATO_SEED", 1);
    match std::env::var_os("MASTTOMATO_FAULTS") {
        Some(_) => stand_for(Duration::from_secs(number_of("MASTTOMATO_FAULTS", 0)), first),
        // One that may be sealed, and one that isn't, beside each other.
        None => thread::scope(|scope| {
            for seed in [first, first + 1] {
                scope.spawn(move || println!("seed {seed}: {:?}", stands(seed, LEAST)));
            }
        }),
    }
}

// For so long one world stands after the other.
fn stand_for(time: Duration, first: u64) {
    let (since, mut memories) = (Instant::now(), Vec::new());
    for seed in first.. {
        // At least one that may be sealed, and one that isn't.
        let left = time.saturating_sub(since.elapsed());
        if left.is_zero() && memories.len() > 1 {
            break;
        }
        let lasts = left.clamp(time.min(LEAST), LONGEST).min(time / 2);
        let sums = stands(seed, lasts);
        memories.push(memory());
        println!("{:>5} s, seed {seed}: {sums:?}, {} kB", since.elapsed().as_secs(), memory());
    }
    // What the first worlds wanted is enough for all that follow.
    if let [_, _, _, fourth, .., last] = memories[..] {
        assert!(last <= fourth + 32 * 1_024, "memory grows: {memories:?} kB");
    }
    assert!(!memories.is_empty());
}
