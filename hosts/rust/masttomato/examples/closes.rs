//! What a close costs beside what others have at a space: what `bench/closes` measures.
//!
//!     closes KIND HELD
//!
//! Space 1 comes to have HELD of what KIND says, all of it with spaces 2 and 3, and then it closes its
//! sessions with 29 others, one after the other, with which it has nothing. KIND is `called`, calls of
//! its own; `ready`, ready jobs that space 2 called; `running`, such jobs that run, each at an object
//! of its own; or `waiting`, messages of space 2 that wait for the answers of space 3. It prints how
//! many nanoseconds a close took: the one in the middle, by their time, and the longest.
//!
//! Or KIND is `surrogates`, of space 2's objects, which nothing holds; or `pins`, references to space
//! 1's own objects that are under way to space 2, and which nothing holds either. Then it closes its
//! session with space 2, and prints how many nanoseconds that took for each of them.

use masttomato::space::{Limits, Outcome, Reference, Space, SpaceError, SpaceId, Value};
use std::env;
use std::error::Error;
use std::time::Instant;

type Fallible<T> = Result<T, Box<dyn Error>>;

/// The spaces that there are. Those above 3 never come.
const SPACES: u16 = 32;

/// So many references are sent in a call.
const TOGETHER: u64 = 32;

const USAGE: &str = "closes called|ready|running|waiting|surrogates|pins HELD";

fn main() -> Fallible<()> {
    let words: Vec<String> = env::args().skip(1).collect();
    let [kind, held] = &words[..] else {
        return Err(USAGE.into());
    };
    let held = held.parse::<u64>()?;
    let mut spaces = [new_space(1)?, new_space(2)?, new_space(3)?];
    for number in 0..held {
        hold(kind, &mut spaces, held - number)?;
    }
    let [mut one, two, _] = spaces;
    if matches!(kind.as_str(), "surrogates" | "pins") {
        let taken = close(&mut one, two.id())?;
        println!("{}", taken / u128::from(held.max(1)));
        return Ok(());
    }
    let mut times = Vec::new();
    for number in 4..=SPACES {
        times.push(close(&mut one, space_id(number))?);
    }
    times.sort_unstable();
    println!("{} {}", times[times.len() / 2], times[times.len() - 1]);
    Ok(())
}

/// Space 1 comes to have one more of what a word says, where so many are left.
fn hold(kind: &str, [one, two, three]: &mut [Space; 3], left: u64) -> Fallible<()> {
    match kind {
        "called" => call(one, two.id().agent(), &Value::Unit)?,
        "ready" => ask(two, one, space_id(1).agent())?,
        "running" => {
            let object = pass(one, two)?;
            ask(two, one, object)?;
            one.claim()?;
        }
        "waiting" => {
            let object = pass(three, two)?;
            call(two, one.id().agent(), &Value::Ref(object))?;
            bring(two, one)?;
            bring(one, two)?;
        }
        "surrogates" => {
            let object = pass(two, one)?;
            one.release(object)?;
        }
        "pins" if left.is_multiple_of(TOGETHER) => send(one, two.id().agent())?,
        "pins" => {}
        _ => return Err(USAGE.into()),
    }
    Ok(())
}

/// How many nanoseconds the close of a session takes.
fn close(space: &mut Space, peer: SpaceId) -> Result<u128, SpaceError> {
    let started = Instant::now();
    space.close(peer)?;
    Ok(started.elapsed().as_nanos())
}

fn space_id(number: u16) -> SpaceId {
    SpaceId::new(number).expect("1 to 32")
}

fn new_space(number: u16) -> Result<Space, SpaceError> {
    Space::new(space_id(number), space_id(SPACES), Limits::new(64, 255).expect("limits"))
}

/// A space calls an object.
fn call(space: &mut Space, object: Reference, value: &Value) -> Result<(), SpaceError> {
    space.call(object, 0, value)?;
    Ok(())
}

/// A space makes as many objects as a call carries references to, sends those, and holds none. The
/// call isn't transmitted.
fn send(from: &mut Space, agent: Reference) -> Result<(), SpaceError> {
    let mut objects = Vec::new();
    for _ in 0..TOGETHER {
        objects.push(from.export()?);
    }
    let value = Value::List(objects.iter().map(|object| Value::Ref(*object)).collect());
    call(from, agent, &value)?;
    for object in objects {
        from.release(object)?;
    }
    Ok(())
}

/// A space calls an object of another, which acts on the call.
fn ask(from: &mut Space, to: &mut Space, object: Reference) -> Result<(), SpaceError> {
    call(from, object, &Value::Unit)?;
    exchange(from, to)
}

/// A reference to a new object of a space, which another has in hand then.
fn pass(from: &mut Space, to: &mut Space) -> Result<Reference, SpaceError> {
    let object = from.export()?;
    let number = from.call(to.id().agent(), 0, &Value::Ref(object))?;
    exchange(from, to)?;
    to.dup(object)?;
    let job = to.claim()?;
    to.finish(job.job, &Outcome::NoMethod)?;
    exchange(to, from)?;
    from.take_reply(number)?;
    Ok(object)
}

/// What a space has to send is brought to another, which acts on it.
fn bring(from: &mut Space, to: &mut Space) -> Result<(), SpaceError> {
    for frame in from.transmit(to.id())?.iter() {
        to.arrive(&frame)?;
    }
    while to.work().act(from.id()) {
        to.act(from.id())?;
    }
    Ok(())
}

/// Each brings the other what it has to send, and settles what can be, until both have nothing.
fn exchange(one: &mut Space, other: &mut Space) -> Result<(), SpaceError> {
    while one.work().send(other.id()) || other.work().send(one.id()) {
        bring(one, other)?;
        while other.work().settle {
            other.settle()?;
        }
        bring(other, one)?;
        while one.work().settle {
            one.settle()?;
        }
    }
    Ok(())
}
