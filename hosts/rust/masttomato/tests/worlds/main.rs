//! Worlds of engines without a network: 10,000 scripts from seeds, in which connections break at any
//! byte and clocks jump. In each every call is answered once and carried out once at most, all objects are
//! withdrawn once nobody holds them, and the traces of all nodes are a run, as `nobj check` judges too where it is there. A script that fails is made
//! shorter and printed; WORLD_SCRIPT names a file with one that is to be played again. In further worlds one
//! node misbehaves: the others keep all that among each other. MASTTOMATO_TIMES=4 plays four times as many of each.

#[path = "../common/mod.rs"]
mod common;
mod deeds;
mod misdeeds;
mod net;
#[path = "../common/scene.rs"]
mod scene;
mod world;

use common::checking::is_of;
use common::nobj;
use deeds::{Deed, Kind, Script};
use masttomato_sys::stand_in::want_memory;
use misdeeds::{MISDEEDS, Misdeed};
use std::collections::HashMap;
use std::panic::{AssertUnwindSafe, catch_unwind};
use std::sync::Mutex;
use std::sync::atomic::{AtomicU64, Ordering::Relaxed};
use std::thread;
use world::World;

const RUNS: u64 = 10_000;
/// Of worlds of other kinds there are fewer.
const FEWER: u64 = 250;
const THREADS: u64 = 2;

// So many of a kind, or as many times that as is said.
fn many(runs: u64) -> u64 {
    let times = std::env::var("MASTTOMATO_TIMES").map(|text| text.parse().expect("a number"));
    runs * times.unwrap_or(1)
}

fn play(script: &Script) -> World {
    let mut world = World::new(script);
    world.play(script);
    world.judge();
    world
}

fn fails(script: &Script, play: impl Fn(&Script)) -> bool {
    catch_unwind(AssertUnwindSafe(|| play(script))).is_err()
}

// The world of a seed's script; one that fails is shown by a shorter script.
fn played(seed: u64, script: &Script) -> World {
    catch_unwind(|| play(script)).unwrap_or_else(|_| {
        let shorter = script.clone().shrink(|script| fails(script, |script| drop(play(script))));
        panic!("seed {seed} fails, and so does this script:\n{shorter}");
    })
}

// Each seed, by some threads.
fn each_of(seeds: u64, run: impl Fn(u64) + Sync) {
    thread::scope(|scope| {
        for first in 1..=THREADS {
            let run = &run;
            scope.spawn(move || (first..=seeds).step_by(THREADS as usize).for_each(run));
        }
    });
}

#[test]
fn worlds_keep_their_promises() {
    let runs = many(RUNS);
    let [closed, replies, objects, checked, opened] = [const { AtomicU64::new(0) }; 5];
    let run = |seed: u64| {
        let world = played(seed, &Script::of_seed(seed));
        let (any_closed, replied, exported) = world.sums();
        closed.fetch_add(any_closed.into(), Relaxed);
        replies.fetch_add(replied.into(), Relaxed);
        objects.fetch_add(exported, Relaxed);
        opened.fetch_add(world.opened(), Relaxed);
        if let Some(said) = nobj("check", world.traces().concat().as_bytes()) {
            assert!(said.ends_with("\nverdict yes\n"), "seed {seed}: {said}");
            checked.fetch_add(1, Relaxed);
        }
    };
    each_of(runs, run);
    let [closed, replies, objects, checked, opened] =
        [closed, replies, objects, checked, opened].map(AtomicU64::into_inner);
    println!(
        "{runs} worlds: {replies} replies, {objects} objects, all withdrawn; sessions closed in {closed}, \
         {opened} pairs opened theirs anew; nobj checked {checked}"
    );
    assert!(replies > 5 * runs && closed > runs / 50 && closed < runs / 2);
    assert!(opened > runs / 50, "{opened}");
}

// What `nobj check` says of a world in which one misbehaves: nothing; or where the first frame came that this one didn't
// transmit, or not before.
fn is_judged(said: &str, world: &World) -> bool {
    let last = said.lines().last().unwrap_or_default();
    let words: Vec<&str> = last.split(' ').collect();
    let ["C2" | "C3", space, place] = words[..] else { return last == "verdict yes" };
    let [space, place] = [space, place].map(|number| number.parse().unwrap_or(0_usize));
    let traces = world.traces();
    let entry = traces.get(space.wrapping_sub(1)).and_then(|trace| trace.lines().nth(place));
    let frame = entry.and_then(|entry| entry.split(' ').nth(2));
    frame.is_some_and(|frame| is_of(frame, world::space(world.honest())))
}

// The honest ones are answered, and each of their calls among each other is carried out once at most; what they had of the
// one that misbehaves, and it of them, is given up once their sessions with it have closed, and no other session closes.
#[test]
fn worlds_in_which_one_misbehaves_keep_their_promises() {
    let runs = many(FEWER);
    let [misbehaved, replies] = [const { AtomicU64::new(0) }; 2];
    let done = Mutex::new(HashMap::<Misdeed, u64>::new());
    let run = |seed: u64| {
        let world = played(seed, &Script::with_hostile(seed));
        misbehaved.fetch_add(world.misbehaved(), Relaxed);
        replies.fetch_add(world.replies_of_honest().into(), Relaxed);
        for (misdeed, count) in world.misdeeds() {
            *done.lock().expect("no panic").entry(misdeed).or_default() += count;
        }
        if let Some(said) = nobj("check", world.traces().concat().as_bytes()) {
            assert!(is_judged(&said, &world), "seed {seed}: {said}");
        }
    };
    each_of(runs, run);
    let (misbehaved, replies) = (misbehaved.into_inner(), replies.into_inner());
    let done = done.into_inner().expect("no panic");
    println!("{runs} worlds: {replies} replies of honest ones; {misbehaved} times, {done:?}");
    assert!(replies > runs && misbehaved > runs);
    assert!(MISDEEDS.iter().all(|misdeed| done.get(misdeed) > Some(&(runs / 5))), "{done:?}");
}

// What wanted memory is tried again, and nothing is lost. The library wants none where there is some, so this
// is tried over the stand-in.
#[test]
fn worlds_want_memory() {
    if masttomato::IS_PROVED {
        return eprintln!("skipped: the proved library can't be told to want memory");
    }
    let (mut wants, runs) = (0, many(FEWER));
    for seed in 1..=runs {
        // In every fourth of them one misbehaves, too.
        let is_hostile = seed.is_multiple_of(4);
        let script = if is_hostile { Script::with_hostile(seed) } else { Script::of_seed(seed) };
        want_memory(2 + seed % 20, seed);
        let mut world = World::new(&script);
        world.play(&script);
        world.judge();
        wants += world.wants();
    }
    assert!(wants > 10 * runs, "{wants}");
}

// An engine that isn't recorded asks its space where one that is looks first what there is to do.
#[test]
fn worlds_are_not_recorded() {
    let (mut objects, runs) = (0, many(FEWER));
    for seed in 1..=runs {
        let script = Script::of_seed(seed);
        let mut world = World::unrecorded(&script);
        world.play(&script);
        world.judge();
        objects += world.sums().2;
    }
    assert!(objects > runs, "{objects}");
}

#[test]
fn a_script_is_played_again() {
    let Ok(path) = std::env::var("WORLD_SCRIPT") else { return };
    let text = std::fs::read_to_string(path).expect("the script");
    play(&Script::read(&text).expect("a script"));
}

#[test]
fn a_script_has_a_text() {
    for script in [Script::of_seed(5), Script::with_hostile(5)] {
        assert_eq!(Script::read(&script.to_string()), Some(script));
    }
}

// A network that changes bytes is seen by the first script that has anything go over it, and what is
// left of the script is the little that is needed to see it.
#[test]
fn a_failure_shrinks_to_a_short_script() {
    let spoiled = |script: &Script| {
        let mut world = World::new(script);
        world.spoil();
        world.play(script);
        world.judge();
    };
    let script = Script::of_seed(3);
    assert!(fails(&script, spoiled));
    let shorter = script.shrink(|script| fails(script, spoiled));
    assert!(shorter.deeds.len() <= 4, "{shorter}");
}

// A connection that is cut behind each byte of a call and its reply, one after the other.
#[test]
fn a_connection_may_be_cut_behind_each_byte() {
    let deed = |kind, node, with, how| Deed { kind, node, with, how };
    for cut in 0..400 {
        let deeds = vec![
            deed(Kind::Export, 0, 0, 0),
            deed(Kind::Call, 0, 1, 1),
            deed(Kind::Turn, 0, 0, 1_999),
            deed(Kind::Carry, 0, 0, cut),
            deed(Kind::Turn, 1, 0, 1_999),
            deed(Kind::Carry, 1, 0, cut),
            deed(Kind::Break, (cut / 200) % 2, 0, cut),
            deed(Kind::Connect, 0, 0, 0),
        ];
        let world = play(&Script { nodes: 2, give_up: 600, is_hostile: false, deeds });
        assert_eq!(world.sums(), (false, 1, 1), "cut behind {cut}");
    }
}
