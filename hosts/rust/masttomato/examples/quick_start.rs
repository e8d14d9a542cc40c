//! Two processes, one of which calls the other's counter: see README.md.
//!
//!     quick_start owner        in one terminal
//!     quick_start 2            in another; and once more with the next number, 3, since each life of
//!                              a process has a number of its own

use masttomato::{Node, Peers, Remote, SpaceId, interface};

/// What is counted.
#[interface]
pub trait Counter {
    /// Adds a number: the new total.
    fn add(&mut self, by: i64) -> i64;
}

struct Tally {
    total: i64,
}

impl Counter for Tally {
    fn add(&mut self, by: i64) -> i64 {
        self.total += by;
        self.total
    }
}

fn main() -> Result<(), Box<dyn std::error::Error>> {
    let one = SpaceId::new(1).expect("1 to 32");
    let peers = Peers::read("world.peers")?; // a line each: 1 127.0.0.1:7001
    let word = std::env::args().nth(1).unwrap_or_default();
    if word == "owner" {
        let node = Node::builder(one, peers).start()?;
        node.bind("counter", &node.export::<dyn Counter>(Box::new(Tally { total: 0 }))?)?;
        node.run_until_stopped();
    } else {
        let here = SpaceId::new(word.parse()?).ok_or("a number from 2 to 32")?;
        let node = Node::builder(here, peers).start()?;
        let counter: Remote<dyn Counter> = node.lookup(one, "counter").wait()?;
        println!("{}", counter.add(20).wait()?); // or: counter.add(20).await?
    } // the counter is given back, and the node says bye
    Ok(())
}
