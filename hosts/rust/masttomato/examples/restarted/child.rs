//! What each of the three processes does, until its input ends.

use crate::{Fallible, SPACES, bounds_of, space, world};
use masttomato::engine::Files;
use masttomato::space::{Bounds, SegmentSize};
use masttomato::{CallError, Fault, Node, Peers, Remote, interface};
use std::io;
use std::path::Path;
use std::sync::Arc;
use std::sync::atomic::{AtomicBool, Ordering::SeqCst};
use std::thread;
use std::time::Duration;

/// Longer than a call takes while the service lives.
const SOON: Duration = Duration::from_secs(5);
/// So many entries stand before a seal.
const SEGMENT: u32 = 200;

/// What the service has.
#[interface]
pub trait Shelf {
    /// Adds a number: the new total, of this life.
    fn add(&mut self, by: i64) -> i64;
    /// Puts a bell there, in place of the one that was.
    fn put(&mut self, bell: Remote<dyn Bell>);
    /// The bell that is there.
    fn look(&mut self) -> Option<Remote<dyn Bell>>;
}

/// What the callers have.
#[interface]
pub trait Bell {
    /// Rings: how often it has.
    fn ring(&mut self) -> i64;
}

#[derive(Default)]
struct Board {
    total: i64,
    bell: Option<Remote<dyn Bell>>,
}

impl Shelf for Board {
    fn add(&mut self, by: i64) -> i64 {
        self.total += by;
        self.total
    }

    fn put(&mut self, bell: Remote<dyn Bell>) {
        self.bell = Some(bell);
    }

    fn look(&mut self) -> Option<Remote<dyn Bell>> {
        self.bell.clone()
    }
}

struct Brass {
    rung: i64,
}

impl Bell for Brass {
    fn ring(&mut self) -> i64 {
        self.rung += 1;
        self.rung
    }
}

pub fn run(number: u16, folder: &Path, addresses: &[String]) -> Fallible<()> {
    let here = space(number);
    // Whatever befell the life before, this one begins behind its bounds.
    let bounds = Bounds::open(bounds_of(folder, number), world(), here, space(SPACES))?;
    let files = Files::of_life(folder, here, bounds.life(), 1 << 20).for_chain();
    let size = SegmentSize::new(SEGMENT).ok_or("a size")?;
    let peers = (1..)
        .zip(addresses)
        .fold(Peers::none(), |peers, (number, address)| peers.with(space(number), address));
    let node = Node::builder(here, peers)
        .spaces(space(SPACES))
        .world("restarted")
        .give_up_after(Duration::from_secs(30))
        .bounds(bounds)
        .record_chain(size, files)
        .start()?;
    if number == 1 {
        let shelf = node.export::<dyn Shelf>(Box::new(Board::default()))?;
        node.bind("shelf", &shelf)?;
        io::copy(&mut io::stdin(), &mut io::sink())?;
    } else {
        call(&node)?;
    }
    // Its numbers are exact then, and the life after it skips none.
    node.shutdown(SOON);
    Ok(())
}

// Calls the service again and again without a pause, and says a line for each answer.
fn call(node: &Node) -> Fallible<()> {
    let is_over = Arc::new(AtomicBool::new(false));
    let over = is_over.clone();
    thread::spawn(move || {
        // The end of the input is the word to end.
        let _ended = io::copy(&mut io::stdin(), &mut io::sink());
        over.store(true, SeqCst);
    });
    let shelf = node.named::<dyn Shelf>(space(1), "shelf");
    for step in 0_u64.. {
        if is_over.load(SeqCst) {
            break;
        }
        match shelf.with(|shelf| one_call(node, shelf, step)) {
            Ok(()) => println!("answered"),
            // It will be there again: the next call waits for that.
            Err(error) if is_excused(&error) => {}
            Err(error) => return Err(error.into()),
        }
    }
    Ok(())
}

fn one_call(node: &Node, shelf: &Remote<dyn Shelf>, step: u64) -> Result<(), CallError> {
    match step % 4 {
        0 => {
            let bell = node.export::<dyn Bell>(Box::new(Brass { rung: 0 }));
            shelf.put(bell.map_err(|_| CallError::NodeStopped)?).wait_for(SOON)
        }
        1 => match shelf.look().wait_for(SOON)? {
            // It may be the other caller's.
            Some(bell) => bell.ring().wait_for(SOON).map(drop),
            None => Ok(()),
        },
        _ => shelf.add(1).wait_for(SOON).map(drop),
    }
}

// Whether an error is one that the death of a process explains.
fn is_excused(error: &CallError) -> bool {
    matches!(
        error,
        CallError::Ended(_)
            | CallError::Down(_)
            | CallError::Lost
            | CallError::TimedOut
            | CallError::Fault(Fault::NoName | Fault::Lost)
    )
}
