//! Who sleeps is woken: all ways in which the steps of several threads can follow one another, in a small
//! model of what `node/shared.rs` and `node/later.rs` do. Each step here is one that they make at once: an
//! atomic one, or one under a lock.

use std::collections::HashSet;
use std::hash::Hash;

/// Goes through all states that are reached from the first one, each of so many threads making its next
/// step, if it can: how many there are. Where none can, it is looked at how that ended.
fn explore<S: Clone + Eq + Hash>(
    first: S,
    threads: usize,
    step: impl Fn(&S, usize) -> Option<S>,
    ended: impl Fn(&S),
) -> usize {
    let (mut known, mut left) = (HashSet::from([first.clone()]), vec![first]);
    while let Some(state) = left.pop() {
        let next: Vec<S> = (0..threads).filter_map(|thread| step(&state, thread)).collect();
        if next.is_empty() {
            ended(&state);
        }
        left.extend(next.into_iter().filter(|state| known.insert(state.clone())));
    }
    known.len()
}

const POSTERS: usize = 3;

/// A node's line of commands, and whether its thread sleeps.
#[derive(Clone, Default, PartialEq, Eq, Hash)]
struct Line {
    lock: Option<usize>,
    commands: u8,
    has_commands: bool,
    sleeps: bool,
    waker: bool,
    taken: u8,
    places: [u8; POSTERS + 1],
}

// The steps of `Shared::post`.
fn post(mut line: Line, poster: usize) -> Option<Line> {
    match line.places[poster] {
        0 if line.lock.is_none() => line.lock = Some(poster),
        1 => line.commands += 1,
        2 => line.has_commands = true,
        3 => line.lock = None,
        4 => {
            line.places[poster] += 1 + u8::from(!line.sleeps);
            line.sleeps = false;
            return Some(line);
        }
        5 => line.waker = true,
        _ => return None,
    }
    line.places[poster] += 1;
    Some(line)
}

// The steps of a node's thread: `Shared::take`, `may_sleep`, the poll, `awake`.
fn rest(mut line: Line) -> Option<Line> {
    const NODE: usize = POSTERS;
    line.places[NODE] = match line.places[NODE] {
        0 => {
            let had = std::mem::take(&mut line.has_commands);
            if had { 1 } else { 3 }
        }
        1 if line.lock.is_none() => {
            line.lock = Some(NODE);
            line.taken += std::mem::take(&mut line.commands);
            2
        }
        2 => {
            line.lock = None;
            3
        }
        3 => {
            line.sleeps = true;
            4
        }
        4 if line.has_commands => 6,
        4 => 5,
        5 if line.waker => {
            line.waker = false;
            6
        }
        6 => {
            line.sleeps = false;
            0
        }
        _ => return None,
    };
    Some(line)
}

#[test]
fn a_node_never_sleeps_while_a_command_waits() {
    let step = |line: &Line, thread: usize| match thread {
        POSTERS => rest(line.clone()),
        poster => post(line.clone(), poster),
    };
    let states = explore(Line::default(), POSTERS + 1, step, |line| {
        let left = (line.taken, line.commands, line.has_commands);
        assert_eq!(left, (POSTERS as u8, 0, false), "a command waits for ever");
    });
    assert!(states > 1_000, "{states}");
}

const ANSWERS: u8 = 3;

/// Threads that sleep until their answers come, of which each was given; and those that were left to who looks.
#[derive(Clone, Default, PartialEq, Eq, Hash)]
struct Sleepers {
    lock: Option<usize>,
    answered: u8,
    roused: u8,
    left: u8,
    has_some: bool,
    // Whether somebody looks, or may soon: it depends on what was found before, so either may be.
    may_look: bool,
    // How often the looker looks yet, and where each of both is.
    looks: u8,
    places: [u8; 2],
}

impl Sleepers {
    // The steps of `Shared::rouse_asleep` behind the first one.
    fn rouse(&mut self, thread: usize, next: u8) -> Option<()> {
        match self.lock {
            None => self.lock = Some(thread),
            Some(holder) if holder == thread => {
                self.roused += std::mem::take(&mut self.left);
                (self.lock, self.places[thread]) = (None, next);
            }
            Some(_) => return None,
        }
        Some(())
    }
}

// The steps of a node's thread: an answer, `Driver::rouse`, and what it does before it sleeps.
fn answer(mut all: Sleepers) -> Option<Sleepers> {
    const NODE: usize = 0;
    match all.places[NODE] {
        // What was left in the turn before, where it is still there.
        0 if std::mem::take(&mut all.has_some) => all.places[NODE] = 5,
        0 if all.answered == ANSWERS => all.places[NODE] = 4,
        0 => {
            all.answered += 1;
            all.places[NODE] = 1;
        }
        1 if all.may_look => all.places[NODE] = 2,
        1 => {
            all.roused += 1;
            all.places[NODE] = 0;
        }
        2 if all.lock.is_none() => {
            all.left += 1;
            all.places[NODE] = 3;
        }
        3 => {
            all.has_some = true;
            all.places[NODE] = 0;
        }
        5 => all.rouse(NODE, 0)?,
        _ => return None,
    }
    Some(all)
}

// The steps of a thread that looks for its own answer so often: `Call::look`.
fn look(mut all: Sleepers) -> Option<Sleepers> {
    const LOOKER: usize = 1;
    match all.places[LOOKER] {
        0 => {
            all.may_look = true;
            all.places[LOOKER] = 1;
        }
        1 if all.looks == 0 => {
            all.may_look = false;
            all.places[LOOKER] = 3;
        }
        1 => {
            all.looks -= 1;
            all.places[LOOKER] = if std::mem::take(&mut all.has_some) { 2 } else { 1 };
        }
        2 => all.rouse(LOOKER, 1)?,
        _ => return None,
    }
    Some(all)
}

#[test]
fn whoever_has_an_answer_is_roused_before_the_node_sleeps() {
    for (looks, may_look) in (0..6).flat_map(|looks| [(looks, false), (looks, true)]) {
        let step = |all: &Sleepers, thread: usize| match thread {
            0 => answer(all.clone()),
            _ => look(all.clone()),
        };
        let first = Sleepers { looks, may_look, ..Sleepers::default() };
        let states = explore(first, 2, step, |all| {
            assert_eq!((all.roused, all.left), (ANSWERS, 0), "a thread sleeps for ever");
        });
        assert!(states > 10, "{states}");
    }
}

const WAKERS: usize = 3;
const WORKERS: usize = 2;

#[derive(Clone, Copy, PartialEq, Eq, Hash, Debug)]
enum State {
    Sleeps,
    InLine,
    Turns,
    Woken,
}

/// An async method, and how often what it waits for came, and was seen.
#[derive(Clone, PartialEq, Eq, Hash)]
struct Method {
    state: State,
    in_line: u8,
    came: u8,
    seen: u8,
    places: [u8; WAKERS + WORKERS],
}

// The steps of who brings what it waits for: `Turned::wake`.
fn wake(mut method: Method, waker: usize) -> Option<Method> {
    let place = &mut method.places[waker];
    *place += 1;
    match (*place, method.state) {
        (1, _) => method.came += 1,
        (2, State::Sleeps) => method.state = State::InLine,
        (2, State::Turns) => {
            method.state = State::Woken;
            *place = 9;
        }
        (2, _) => *place = 9,
        (3, _) => method.in_line += 1,
        _ => return None,
    }
    Some(method)
}

// The steps of a worker: `Turned::turn`.
fn turn(mut method: Method, worker: usize) -> Option<Method> {
    let place = method.places[worker];
    method.places[worker] = match place {
        0 if method.in_line > 0 => {
            method.in_line -= 1;
            1
        }
        1 => {
            method.state = State::Turns;
            2
        }
        2 => {
            method.seen = method.came;
            3
        }
        3 if method.state == State::Turns => {
            method.state = State::Sleeps;
            0
        }
        3 => 4,
        4 => {
            method.state = State::InLine;
            5
        }
        5 => {
            method.in_line += 1;
            0
        }
        _ => return None,
    };
    let turning = method.places[WAKERS..].iter().filter(|place| **place > 0).count();
    assert!(turning + usize::from(method.in_line) <= 1, "two workers turn it");
    Some(method)
}

#[test]
fn an_async_method_sees_all_that_it_was_woken_for() {
    let places = [0; WAKERS + WORKERS];
    let first = Method { state: State::InLine, in_line: 1, came: 0, seen: 0, places };
    let step = |method: &Method, thread: usize| match thread {
        0..WAKERS => wake(method.clone(), thread),
        worker => turn(method.clone(), worker),
    };
    let states = explore(first, WAKERS + WORKERS, step, |method| {
        assert_eq!(
            (method.seen, method.state),
            (WAKERS as u8, State::Sleeps),
            "it sleeps for ever"
        );
    });
    assert!(states > 1_000, "{states}");
}
