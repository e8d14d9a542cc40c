//! What each of the three processes does.

use crate::{Fallible, space};
use masttomato::engine::Files;
use masttomato::{Node, Peers, Remote, Session, interface};
use std::path::Path;
use std::sync::mpsc::{Sender, channel};
use std::time::Duration;
use std::{io, process, thread};

/// What is counted.
#[interface]
pub trait Counter {
    /// Adds a number: the new total.
    fn add(&mut self, by: i64) -> i64;
}

/// Who is handed a counter.
#[interface]
pub trait Heir {
    /// Takes it.
    fn take(&mut self, counter: Remote<dyn Counter>);
}

struct Tally {
    total: i64,
    totals: Sender<i64>,
}

impl Counter for Tally {
    fn add(&mut self, by: i64) -> i64 {
        self.total += by;
        // Nobody listens once the last total was heard.
        let _heard = self.totals.send(self.total);
        self.total
    }
}

impl Drop for Tally {
    fn drop(&mut self) {
        println!("nobody has the counter any more, and it is dropped");
    }
}

struct Third;

impl Heir for Third {
    // The method ends before the counter is called: the node keeps it beyond the call.
    fn take(&mut self, counter: Remote<dyn Counter>) {
        thread::spawn(move || {
            let total = counter.add(3).wait().expect("space 1 is there");
            drop(counter);
            println!("added 3: {total}, and dropped it");
        });
    }
}

pub fn run(number: u16, folder: &Path, lower: &[String]) -> Fallible<()> {
    let here = space(number);
    let peers = (1..)
        .zip(lower)
        .fold(Peers::none(), |peers, (number, address)| peers.with(space(number), address));
    let node = Node::builder(here, peers)
        .listen("127.0.0.1:0")
        .spaces(space(3))
        .give_up_after(Duration::from_secs(2))
        .record(Files::new(folder, here, 1 << 16))
        .start()?;
    let (totals, said) = channel();
    // Bound before the address is told, so that whoever knows it finds the name.
    match number {
        1 => node
            .bind("counter", &node.export::<dyn Counter>(Box::new(Tally { total: 0, totals }))?)?,
        3 => node.bind("heir", &node.export::<dyn Heir>(Box::new(Third))?)?,
        _ => {}
    }
    println!("{}", node.address().ok_or("it listens")?);
    // The parent's end of the pipe closes where the parent ends.
    thread::spawn(|| process::exit(io::stdin().lines().count() as i32));
    match number {
        1 => {
            while said.recv()? != 42 {}
            node.unbind("counter");
        }
        2 => hand_on(&node)?,
        3 => node.run_until_stopped(),
        _ => {}
    }
    let reason = loop {
        match node.session(space(3)) {
            Session::Closed(reason) => break reason,
            _ => thread::sleep(Duration::from_millis(20)),
        }
    };
    println!("the session with space 3 closed for reason {reason}");
    Ok(())
}

fn hand_on(node: &Node) -> Fallible<()> {
    let counter: Remote<dyn Counter> = node.lookup(space(1), "counter").wait()?;
    println!("looked the counter up");
    let mut total = 0;
    for _ in 0..39 {
        total = counter.add(1).wait()?;
    }
    println!("added 39 times 1: {total}");
    let heir: Remote<dyn Heir> = node.lookup(space(3), "heir").wait()?;
    heir.take(counter).wait()?;
    println!("handed it to space 3, and dropped it");
    Ok(())
}
