//! Calls of one caller within one process, in which nobody looks for what isn't there yet: so each takes as many instructions
//! and calls of the system as any other. `bench/instructions` counts them.
//!
//!     turns spaces|tcp|local|looks|node CALLS
//!
//! `spaces` are two spaces alone, whose frames are handed over in memory, and `tcp` two whose frames are written and read as in
//! the example `tcp_calls`. `local` are two `LocalNode`s of one thread that are turned one after the other, `looks` two that look
//! before they sleep, as they do where nothing else is said, and so never sleep here, since what they look for is there; and
//! `node` are two nodes, each with its thread, on which the object's method runs. All but the first go over TCP on 127.0.0.1.

use masttomato::space::{CallResult, Due, Limits, Outcome, Space};
use masttomato::{Builder, Node, Peers, Remote, Run, SpaceId, Value, interface};
use std::env;
use std::error::Error;
use std::future::{Future, poll_fn};
use std::io::{ErrorKind, Read, Write};
use std::net::{Ipv4Addr, TcpListener, TcpStream};
use std::pin::pin;
use std::sync::Arc;
use std::sync::atomic::{AtomicU64, Ordering::Relaxed};
use std::time::{Duration, Instant};

type Fallible<T> = Result<T, Box<dyn Error>>;

const LONG: Duration = Duration::from_secs(600);
/// So long is looked at most, also where every instruction is counted.
const LOOKS: Duration = Duration::from_millis(1);

/// What is called.
#[interface]
pub trait Target {
    /// Counts the call.
    fn call(&mut self);
}

struct Counted(Arc<AtomicU64>);

impl Target for Counted {
    fn call(&mut self) {
        self.0.fetch_add(1, Relaxed);
    }
}

fn main() -> Fallible<()> {
    let words: Vec<String> = env::args().skip(1).collect();
    match &words.iter().map(String::as_str).collect::<Vec<_>>()[..] {
        ["spaces", calls] => spaces(calls.parse()?),
        ["tcp", calls] => tcp(calls.parse()?),
        ["local", calls] => local(calls.parse()?, Duration::ZERO),
        ["looks", calls] => local(calls.parse()?, LOOKS),
        ["node", calls] => node(calls.parse()?),
        _ => Err("turns spaces|tcp|local|looks|node CALLS".into()),
    }
}

fn id(number: u16) -> SpaceId {
    SpaceId::new(number).expect("1 to 32")
}

// What a space does with what came.
fn bring(to: &mut Space, from: SpaceId, frames: &[u8]) -> Fallible<()> {
    to.push(from, frames)?;
    while let Some(arrived) = to.arrive_next() {
        arrived?;
    }
    while to.act(from).is_ok() {}
    while to.settle().is_ok() {}
    while to.clean().is_ok() {}
    Ok(())
}

// Makes calls of one space to another one, where what is due is carried from one to the other.
fn between_spaces(
    calls: u64,
    mut carry: impl FnMut(&mut Space, &mut Space) -> Fallible<()>,
) -> Fallible<()> {
    let limits = Limits::new(64, 255).expect("limits");
    let mut owner = Space::new(id(1), id(2), limits)?;
    let mut caller = Space::new(id(2), id(2), limits)?;
    for _ in 0..calls {
        let call = caller.call(id(1).agent(), 0, &Value::Unit)?;
        carry(&mut caller, &mut owner)?;
        let job = owner.claim()?;
        owner.finish(job.job, &Outcome::Answer(Value::Unit))?;
        carry(&mut owner, &mut caller)?;
        let CallResult::Replied { .. } = caller.take_reply(call)? else {
            return Err("it wasn't answered".into());
        };
    }
    Ok(())
}

fn spaces(calls: u64) -> Fallible<()> {
    between_spaces(calls, |from, to| {
        let frames = from.transmit(to.id())?;
        bring(to, from.id(), frames.as_bytes())
    })
}

fn tcp(calls: u64) -> Fallible<()> {
    let listener = TcpListener::bind((Ipv4Addr::LOCALHOST, 0))?;
    let mut ends = [TcpStream::connect(listener.local_addr()?)?, listener.accept()?.0];
    for end in &ends {
        end.set_nodelay(true)?;
        end.set_nonblocking(true)?;
    }
    let mut piece = vec![0; 65_536];
    between_spaces(calls, |from, to| {
        if from.due(to.id()) == Due::New {
            ends[0].write_all(from.transmit(to.id())?.as_bytes())?;
        }
        ends.swap(0, 1);
        // It looks for so long, as who waits for a connection does.
        let since = Instant::now();
        while since.elapsed() < LONG {
            match ends[0].read(&mut piece) {
                Ok(length) => return bring(to, from.id(), &piece[..length]),
                Err(error) if error.kind() == ErrorKind::WouldBlock => {}
                Err(error) => return Err(error.into()),
            }
        }
        Err("nothing came".into())
    })
}

fn builder(number: u16, peers: Peers, looks: Duration) -> Builder {
    Node::builder(id(number), peers).spaces(id(2)).looks(looks)
}

fn local(calls: u64, looks: Duration) -> Fallible<()> {
    let count = Arc::new(AtomicU64::new(0));
    let owner = builder(1, Peers::none(), looks).listen("127.0.0.1:0").start_local()?;
    owner.bind("target", &owner.export::<dyn Target>(Box::new(Counted(count.clone())))?)?;
    let peers = Peers::none().with(id(1), owner.address().ok_or("it listens")?);
    let caller = builder(2, peers, looks).start_local()?;
    let turn = || {
        owner.run_for(Duration::from_millis(5));
        caller.run_for(Duration::from_millis(5));
    };
    let mut found = pin!(caller.lookup(id(1), "target"));
    let target: Remote<dyn Target> = caller.block_on(poll_fn(|context| {
        turn();
        found.as_mut().poll(context)
    }))?;
    for made in 1..=calls {
        let mut call = pin!(target.call());
        caller.block_on(poll_fn(|context| {
            // The call has been written by now, and its answer is once it was carried out.
            if count.load(Relaxed) < made {
                owner.run_until(LONG, || count.load(Relaxed) == made);
            }
            call.as_mut().poll(context)
        }))?;
    }
    Ok(())
}

fn node(calls: u64) -> Fallible<()> {
    let owner = builder(1, Peers::none(), Duration::ZERO).listen("127.0.0.1:0").start()?;
    let object = Box::new(Counted(Arc::default()));
    owner.bind("target", &owner.export_with::<dyn Target>(object, Run::Inline)?)?;
    let peers = Peers::none().with(id(1), owner.address().ok_or("it listens")?);
    let caller = builder(2, peers, Duration::ZERO).start()?;
    let target: Remote<dyn Target> = caller.lookup(id(1), "target").wait()?;
    for _ in 0..calls {
        target.call().wait()?;
    }
    Ok(())
}
