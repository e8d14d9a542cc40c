//! Spaces that are refused memory again and again: what wanted it is tried again, and takes time alone.

use crate::things::*;
use masttomato::space::SpaceError;
use masttomato::{Node, NodeError, Remote, Run, interface};
use masttomato_sys::stand_in::want_memory;
use std::sync::Arc;
use std::sync::atomic::{AtomicU64, Ordering::SeqCst};
use std::time::Duration;

/// An object on the thread of its node, whose space is refused memory once in so many times from then on.
#[interface]
pub trait Memory {
    fn is_wanted(&mut self, once_in: u64);
}

struct Thread;

impl Memory for Thread {
    fn is_wanted(&mut self, once_in: u64) {
        want_memory(once_in, 74);
    }
}

fn memory(node: &Node) -> Remote<dyn Memory> {
    node.export_with::<dyn Memory>(Box::new(Thread), Run::Inline).expect("room")
}

// Where there is no memory for an object, who exports it hears so, and may try again.
fn exported(node: &Node, alive: &Arc<AtomicU64>) -> Remote<dyn Counter> {
    loop {
        match node.export::<dyn Counter>(Tally::new(alive)) {
            Err(NodeError::Space(SpaceError::OutOfMemory)) => {}
            counter => return counter.expect("room"),
        }
    }
}

// References go and come back, are kept and dropped, by calls of which each is carried out once.
#[test]
fn want_of_memory_takes_time_and_nothing_else() {
    if masttomato::IS_PROVED {
        return eprintln!("skipped: the proved library can't be told to want memory");
    }
    let often = |builder: masttomato::Builder| builder.give_up_after(Duration::from_secs(10));
    let [one, two] = nodes(2, often).try_into().expect("two");
    let (counter, alive) = tally(&one);
    one.bind("counter", &counter).expect("a name");
    let shelf = one.export::<dyn Shelf>(Box::new(Board::default())).expect("room");
    one.bind("shelf", &shelf).expect("a name");
    let memories = [memory(&one), memory(&two)];
    memories.iter().for_each(|memory| memory.is_wanted(4).wait_for(SOON).expect("it is told"));
    let counter: Remote<dyn Counter> = two.lookup(id(1), "counter").wait_for(SOON).expect("it");
    let shelf: Remote<dyn Shelf> = two.lookup(id(1), "shelf").wait_for(SOON).expect("a shelf");
    for total in 1..=10 {
        assert_eq!(counter.add(1).wait_for(SOON), Ok(total));
        let mine = exported(&two, &alive);
        assert_eq!(shelf.add_through(mine.clone(), 2).wait_for(SOON), Ok(Ok(2)));
        shelf.put(mine).wait_for(SOON).expect("an answer");
    }
    let kept = (0..10).map(|_| shelf.take().wait_for(SOON).expect("an answer"));
    let kept: Vec<Remote<dyn Counter>> = kept.collect::<Option<_>>().expect("all that were put");
    assert!(kept.iter().all(Remote::is_mine) && alive.load(SeqCst) == 11);
    drop(kept);
    one.unbind("counter");
    drop(counter);
    eventually("all but the first are dropped", || alive.load(SeqCst) == 1);
    assert!(one.counts().wants > 20 && two.counts().wants > 20, "{:?}", one.counts());
    memories.iter().for_each(|memory| memory.is_wanted(0).wait_for(SOON).expect("it is told"));
    assert!(one.shutdown(SOON).told);
}
