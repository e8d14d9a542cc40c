//! What a node says of its threads, and of the method that runs for the longest time.

use super::same;
use super::things::*;
use masttomato::engine::Doing;
use masttomato::{Call, Node, Remote, Run, ThreadReport, interface};
use std::time::Duration;

#[interface]
pub trait Through {
    fn waits_for(&mut self, other: Remote<dyn Trouble>) -> u32;
}

struct Asks;

impl Through for Asks {
    fn waits_for(&mut self, other: Remote<dyn Trouble>) -> u32 {
        other.waits().wait().unwrap_or(0)
    }
}

// The first of a node's threads that carries out a method.
fn busy(node: &Node) -> Option<ThreadReport> {
    let is_busy = |thread: &ThreadReport| matches!(thread.doing, Doing::Runs(_));
    node.threads().into_iter().find(is_busy)
}

fn trouble(node: &Node, run: Run) -> (Remote<dyn Trouble>, Gate) {
    let gate = Gate::default();
    let object = Box::new(Maker(gate.clone()));
    (node.export_with::<dyn Trouble>(object, run).expect("room"), gate)
}

// A method waits for another one's answer, which runs at another node.
#[test]
fn a_node_says_what_its_threads_do_and_wait_for() {
    let [one, two] = nodes(2, same).try_into().expect("two");
    let (maker, gate) = trouble(&one, Run::Pool);
    two.bind("asks", &two.export::<dyn Through>(Box::new(Asks)).expect("room")).expect("a name");
    let asks: Remote<dyn Through> = one.lookup(id(2), "asks").wait().expect("it is bound");
    let call: Call<u32> = asks.waits_for(maker);
    eventually("its thread waits", || {
        busy(&two).is_some_and(|thread| thread.waits_for.is_some_and(|it| it.target.is_some()))
    });
    let said = busy(&two).expect("it waits").to_string();
    let parts: Vec<&str> = said.split([':', ',', ';']).map(str::trim).collect();
    let [name, runs, _, waits, _] = parts[..] else { panic!("{said}") };
    assert!(name.starts_with("masttomato-2-worker-"), "{said}");
    assert!(runs.starts_with("runs method 0 of object 1 for space 1 (its call "), "{said}");
    assert_eq!(waits, "waits for method 1 of 1.1");
    eventually("the other one runs", || busy(&one).is_some());
    let thread = busy(&one).expect("it runs");
    let Doing::Runs(running) = thread.doing else { panic!("{thread}") };
    assert_eq!((running.object, running.method, running.caller), (1, 1, id(2)));
    assert!(running.call.is_some() && thread.waits_for.is_none());
    // The report has the same, and for how long.
    eventually("it runs long", || {
        let longest = one.report().expect("it runs").longest;
        longest.is_some_and(|(it, time)| it == running && time > Duration::from_millis(20))
    });
    let text = one.report().expect("it runs").to_string();
    assert!(text.lines().any(|line| line == "masttomato_threads_busy{space=\"1\"} 1"), "{text}");
    gate.open();
    assert_eq!(call.wait_for(SOON), Ok(1));
    eventually("all rest", || busy(&one).is_none() && busy(&two).is_none());
    assert_eq!(one.report().expect("it runs").longest, None);
}

// A method on the node's own thread holds all up, but who asks for its threads sees which it is.
#[test]
fn a_method_that_holds_the_node_up_is_seen() {
    let [one, two] = nodes(2, same).try_into().expect("two");
    let (maker, gate) = trouble(&one, Run::Inline);
    one.bind("maker", &maker).expect("a name");
    let maker: Remote<dyn Trouble> = two.lookup(id(1), "maker").wait().expect("it is bound");
    let call = maker.waits();
    eventually("it runs", || busy(&one).is_some());
    let thread = busy(&one).expect("it runs");
    assert_eq!(thread.name, "masttomato-1");
    assert!(thread.to_string().starts_with("masttomato-1: runs method 1 of object 1 for space 2"));
    gate.open();
    assert_eq!(call.wait_for(SOON), Ok(1));
}
