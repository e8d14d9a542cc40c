//! Calls between nodes of two processes over TCP on 127.0.0.1: what `bench/tcp` measures beside
//! `tcp_calls`, in the same words.
//!
//!     node_calls KIND CALLERS CALLS [AT_ONCE]
//!
//! The first process has a node with an object, whose method runs inline, or on a worker. In the second
//! the callers are threads that share one node; where KIND begins with `local`, each has a LocalNode of
//! its own. KIND is `null` or `fresh`, behind `pool-` where the method runs on a worker or `local-`: a
//! call with no argument, or one that passes a reference to a new object, which nobody keeps.
//! AT_ONCE, 1 where it isn't named, is how many calls of a caller wait for their replies at once. It
//! prints how many calls were answered in a second, after a fifth as many that aren't counted.

use masttomato::{Call, LocalNode, Node, NodeError, Peers, Remote, Run, SpaceId, interface};
use std::error::Error;
use std::io::{BufRead, BufReader};
use std::process::{Command, Stdio};
use std::sync::{Arc, Barrier};
use std::time::Instant;
use std::{env, thread};

type Fallible<T> = Result<T, Box<dyn Error + Send + Sync>>;

/// What is called.
#[interface]
pub trait Target {
    /// Does nothing.
    fn call(&mut self);
    /// Does nothing with what it is passed.
    fn pass(&mut self, fresh: Remote<dyn Fresh>);
}

/// What is passed.
#[interface]
pub trait Fresh {}

struct Nothing;

impl Target for Nothing {
    fn call(&mut self) {}

    fn pass(&mut self, _: Remote<dyn Fresh>) {}
}

impl Fresh for Nothing {}

fn main() -> Fallible<()> {
    let words: Vec<String> = env::args().skip(1).collect();
    match &words.iter().map(String::as_str).collect::<Vec<_>>()[..] {
        ["serve"] => serve(),
        [kind, callers, calls] => measure(kind, callers.parse()?, calls.parse()?, 1),
        [kind, callers, calls, at_once] => {
            measure(kind, callers.parse()?, calls.parse()?, at_once.parse()?)
        }
        _ => Err("node_calls [pool-|local-]null|fresh CALLERS CALLS [AT_ONCE]".into()),
    }
}

fn space(number: u16) -> SpaceId {
    SpaceId::new(number).expect("1 to 32")
}

fn serve() -> Fallible<()> {
    let node =
        Node::builder(space(1), Peers::none()).listen("127.0.0.1:0").spaces(space(8)).start()?;
    for (name, run) in [("inline", Run::Inline), ("pool", Run::Pool)] {
        node.bind(name, &node.export_with::<dyn Target>(Box::new(Nothing), run)?)?;
    }
    println!("{}", node.address().ok_or("it listens")?);
    node.run_until_stopped();
    Ok(())
}

/// Either kind of node.
enum Any {
    Shared(Node),
    Local(LocalNode),
}

impl Any {
    fn lookup(&self, name: &str) -> Call<Remote<dyn Target>> {
        match self {
            Any::Shared(node) => node.lookup(space(1), name),
            Any::Local(node) => node.lookup(space(1), name),
        }
    }

    fn fresh(&self) -> Result<Remote<dyn Fresh>, NodeError> {
        match self {
            Any::Shared(node) => node.export(Box::new(Nothing)),
            Any::Local(node) => node.export(Box::new(Nothing)),
        }
    }
}

fn measure(kind: &str, callers: u16, calls: u64, at_once: usize) -> Fallible<()> {
    let mut command = Command::new(env::current_exe()?);
    let mut server = command.arg("serve").stdout(Stdio::piped()).spawn()?;
    let mut line = String::new();
    BufReader::new(server.stdout.take().expect("a pipe")).read_line(&mut line)?;
    let peers = Peers::none().with(space(1), line.trim());
    let start = |number| Node::builder(space(number), peers.clone()).spaces(space(8));
    let shared = if kind.starts_with("local") { None } else { Some(start(2).start()?) };
    let ready = Arc::new(Barrier::new(usize::from(callers) + 1));
    let is_fresh = kind.ends_with("fresh");
    let name = if kind.starts_with("pool") { "pool" } else { "inline" };
    let taken = thread::scope(|scope| {
        for number in 0..callers {
            let (ready, shared, start) = (ready.clone(), shared.clone(), &start);
            scope.spawn(move || {
                let node = match shared {
                    Some(node) => Any::Shared(node),
                    None => Any::Local(start(number + 2).start_local().expect("a node")),
                };
                let target = node.lookup(name).wait().expect("a target");
                make(&node, &target, is_fresh, calls / 5, at_once).expect("answers");
                ready.wait();
                make(&node, &target, is_fresh, calls, at_once).expect("answers");
                ready.wait();
            });
        }
        ready.wait();
        let started = Instant::now();
        ready.wait();
        started.elapsed()
    });
    server.kill()?;
    server.wait()?;
    println!("{:.0}", (calls * u64::from(callers)) as f64 / taken.as_secs_f64());
    Ok(())
}

// Makes so many calls, of which so many wait at once.
fn make(
    node: &Any,
    target: &Remote<dyn Target>,
    is_fresh: bool,
    calls: u64,
    at_once: usize,
) -> Fallible<()> {
    let call = || match is_fresh {
        true => Ok::<_, NodeError>(target.pass(node.fresh()?)),
        false => Ok(target.call()),
    };
    let mut waiting = std::collections::VecDeque::with_capacity(at_once);
    for _ in 0..calls {
        if waiting.len() == at_once {
            Call::wait(waiting.pop_front().expect("a call"))?;
        }
        waiting.push_back(call()?);
    }
    waiting.into_iter().try_for_each(|call| call.wait().map_err(Into::into))
}
