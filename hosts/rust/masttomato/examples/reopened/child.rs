//! What each of the three processes does: it is told so by its standard input, a line each.

use crate::{Fallible, space};
use masttomato::engine::Files;
use masttomato::{Changes, Node, Peers, Remote, Session, interface};
use std::io;
use std::path::Path;
use std::sync::mpsc::{Receiver, Sender, channel};
use std::time::Duration;

/// Nothing here takes so long.
const LONG: Duration = Duration::from_secs(60);

/// What is counted.
#[interface]
pub trait Counter {
    /// Adds a number: the new total.
    fn add(&mut self, by: i64) -> i64;
}

struct Tally {
    total: i64,
    dropped: Sender<()>,
}

impl Counter for Tally {
    fn add(&mut self, by: i64) -> i64 {
        self.total += by;
        self.total
    }
}

impl Drop for Tally {
    fn drop(&mut self) {
        // Nobody may listen any more.
        let _heard = self.dropped.send(());
    }
}

struct Program {
    node: Node,
    changes: Changes,
    counter: Option<Remote<dyn Counter>>,
    dropped: Receiver<()>,
}

pub fn run(number: u16, folder: &Path, lower: &[String]) -> Fallible<()> {
    let here = space(number);
    let peers = (1..)
        .zip(lower)
        .fold(Peers::none(), |peers, (number, address)| peers.with(space(number), address));
    let node = Node::builder(here, peers)
        .listen("127.0.0.1:0")
        .spaces(space(3))
        .give_up_after(Duration::from_secs(3))
        .record(Files::new(folder, here, 1 << 16))
        .start()?;
    let (drops, dropped) = channel();
    // Bound before the address is told, so that whoever knows it finds the name.
    if number == 1 {
        let tally = Tally { total: 0, dropped: drops };
        node.bind("counter", &node.export::<dyn Counter>(Box::new(tally))?)?;
    }
    println!("{}", node.address().ok_or("it listens")?);
    let mut program = Program { changes: node.changes()?, node, counter: None, dropped };
    for line in io::stdin().lines() {
        println!("{}", program.answer(&line?)?);
    }
    // The node says bye, and its threads end.
    program.node.shutdown(LONG);
    Ok(())
}

impl Program {
    // Does what a line says: what there is to say of it.
    fn answer(&mut self, line: &str) -> Fallible<String> {
        let (word, number) = line.rsplit_once(' ').unwrap_or((line, ""));
        match (word, number) {
            ("look", "up") => {
                self.counter = Some(self.node.lookup(space(1), "counter").wait_for(LONG)?);
                Ok("looked the counter up".into())
            }
            ("add", by) => self.add(by.parse()?),
            ("wait for", peer) => self.wait_for_close(peer.parse()?),
            ("open", peer) => Ok(self.open(peer.parse()?)),
            ("drop", _) => {
                self.counter = None;
                Ok("gave the counter back".into())
            }
            ("unbind", _) => {
                self.node.unbind("counter");
                Ok("the counter has no name any more".into())
            }
            ("wait until", _) => {
                self.dropped.recv_timeout(LONG)?;
                Ok("nobody has the counter any more, and it is dropped".into())
            }
            _ => Err(format!("it knows no {line}").into()),
        }
    }

    fn add(&self, by: i64) -> Fallible<String> {
        let counter = self.counter.as_ref().ok_or("it has no counter")?;
        Ok(match counter.add(by).wait_for(LONG) {
            Ok(total) => format!("added {by}: {total}"),
            Err(error) => format!("added nothing: {error}"),
        })
    }

    fn wait_for_close(&self, peer: u16) -> Fallible<String> {
        loop {
            match self.changes.next_within(LONG).ok_or("nothing changes")? {
                (who, Session::Closed(reason)) if who == space(peer) => {
                    return Ok(format!("the session with space {peer} closed for reason {reason}"));
                }
                _ => {}
            }
        }
    }

    fn open(&self, peer: u16) -> String {
        match self.node.open(space(peer)) {
            Ok(number) => format!("opened session {number} with space {peer}"),
            Err(error) => format!("opened no session with space {peer}: {error}"),
        }
    }
}
