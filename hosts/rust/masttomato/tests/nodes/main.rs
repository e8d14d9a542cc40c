//! Nodes over TCP on 127.0.0.1: objects, references, calls, and all that may happen to them.

mod byes;
#[path = "../common/mod.rs"]
mod common;
mod later;
mod plain;
mod proxy;
#[path = "../common/scene.rs"]
mod scene;
mod things;
mod threads;
mod wants;

use common::checking::fault_of;
use common::nobj;
use masttomato::engine::{Answered, Files, HELLO, Why};
use masttomato::space::{
    Limits, Outcome, Reference, Refusal, SegmentSize, SpaceError, Status, Trace, Value,
};
use masttomato::{CallError, Fault, Node, NodeError, Peers, Reason, Remote, Run, Session};
use plain::Plain;
use proxy::Proxy;
use std::collections::HashSet;
use std::future::Future;
use std::io::{Read, Write};
use std::net::{TcpListener, TcpStream};
use std::pin::pin;
use std::sync::atomic::{AtomicU64, Ordering::SeqCst};
use std::sync::{Arc, Mutex};
use std::task::{Context, Poll, Wake};
use std::thread;
use std::time::{Duration, Instant};
use things::*;

fn same(builder: masttomato::Builder) -> masttomato::Builder {
    builder
}

// Two nodes; a counter of the first is bound to a name, and the second has it.
fn pair() -> (Node, Node, Remote<dyn Counter>, Arc<AtomicU64>) {
    let [one, two] = nodes(2, same).try_into().expect("two");
    let (counter, alive) = tally(&one);
    one.bind("counter", &counter).expect("a name");
    let counter = two.lookup(id(1), "counter").wait().expect("a counter");
    (one, two, counter, alive)
}

fn board(node: &Node, name: &str) -> Arc<AtomicU64> {
    let board = Board::default();
    let alive = board.alive.clone();
    let shelf = node.export::<dyn Shelf>(Box::new(board)).expect("room");
    node.bind(name, &shelf).expect("a name");
    alive
}

#[test]
fn an_object_is_looked_up_called_and_dropped_when_nobody_has_it() {
    let (one, two, counter, alive) = pair();
    assert_eq!((counter.owner(), counter.is_mine()), (id(1), false));
    assert_eq!(counter.add(20).wait(), Ok(20));
    let other = counter.clone();
    drop(counter);
    assert_eq!(other.add(22).wait(), Ok(42));
    assert!(one.unbind("counter") && !one.unbind("counter"));
    thread::sleep(Duration::from_millis(50));
    assert_eq!(alive.load(SeqCst), 1, "the second node has it");
    drop(other);
    eventually("the object is dropped", || alive.load(SeqCst) == 0);
    assert_eq!(one.counts().withdrawn, 1);
    assert!(two.session(id(1)) == Session::Open);
}

#[test]
fn a_reference_is_handed_to_a_third_party_and_comes_home() {
    let [one, two, three] = nodes(3, same).try_into().expect("three");
    let (counter, alive) = tally(&one);
    one.bind("counter", &counter).expect("a name");
    board(&three, "shelf");
    let of_one: Remote<dyn Counter> = two.lookup(id(1), "counter").wait().expect("a counter");
    let shelf: Remote<dyn Shelf> = two.lookup(id(3), "shelf").wait().expect("a shelf");
    shelf.put(of_one.clone()).wait().expect("an answer");
    assert_eq!(shelf.add_through(of_one, 5).wait(), Ok(Ok(5)));
    // Space 1 has its own object back from space 3, and calls it without the network.
    let shelf: Remote<dyn Shelf> = one.lookup(id(3), "shelf").wait().expect("a shelf");
    let home = shelf.take().wait().expect("an answer").expect("what was put there");
    assert!(home.is_mine() && home == counter);
    let made = one.counts().calls_made;
    assert_eq!(home.add(1).wait(), Ok(6));
    assert_eq!(one.counts().calls_made, made);
    assert_eq!(shelf.take().wait().expect("an answer"), None);
    one.unbind("counter");
    drop((home, counter));
    eventually("the object is dropped", || alive.load(SeqCst) == 0);
}

#[test]
fn a_method_makes_objects_and_answers_one_twice() {
    let [one, two] = nodes(2, same).try_into().expect("two");
    let alive = board(&one, "shelf");
    let shelf: Remote<dyn Shelf> = two.lookup(id(1), "shelf").wait().expect("a shelf");
    assert_eq!(shelf.who().wait(), Ok(2));
    let made = shelf.make(40).wait().expect("a counter");
    assert_eq!(made.add(2).wait(), Ok(42));
    shelf.put(made.clone()).wait().expect("an answer");
    let (both, most) = shelf.two().wait().expect("an answer");
    assert!(both.len() == 2 && both[0] == both[1] && both[0] == made && most == u64::MAX);
    drop((both, made));
    drop(shelf.take().wait());
    eventually("the made object is dropped", || alive.load(SeqCst) == 0);
}

#[test]
fn names_and_interfaces_are_judged() {
    let (one, two, counter, _alive) = pair();
    let no_name = two.lookup::<dyn Counter>(id(1), "nothing").wait();
    assert_eq!(no_name.expect_err("no name"), CallError::Fault(Fault::NoName));
    let other = two.lookup::<dyn Shelf>(id(1), "counter").wait();
    assert_eq!(other.expect_err("no shelf"), CallError::Fault(Fault::OtherInterface));
    let cast = counter.clone().cast::<dyn Shelf>().wait();
    assert_eq!(cast.expect_err("no shelf"), CallError::Fault(Fault::OtherInterface));
    let cast = counter.clone().cast::<dyn Counter>().wait().expect("it is one");
    assert_eq!(cast.add(1).wait(), Ok(1));
    let own: Remote<dyn Counter> = one.lookup(id(1), "counter").wait().expect("its own name");
    assert!(own.is_mine());
    assert_eq!(own.cast::<dyn Counter>().wait().expect("it is one").add(1).wait(), Ok(2));
    assert_eq!(counter.invoke::<(), i64>(99, ()).wait(), Err(CallError::NoMethod));
    let bad = counter.invoke::<(String,), i64>(0, ("x".into(),)).wait();
    assert_eq!(bad, Err(CallError::Fault(Fault::BadArguments)));
    assert_eq!(counter.invoke::<(i64,), String>(0, (1,)).wait(), Err(CallError::BadAnswer));
    assert!(one.bind("", &cast).is_err() && one.bind(&"x".repeat(256), &cast).is_err());
}

#[test]
fn all_that_can_be_passed_comes_back_the_same() {
    let [one, two] = nodes(2, same).try_into().expect("two");
    let maker = one.export::<dyn Trouble>(Box::new(Maker::default())).expect("room");
    one.bind("trouble", &maker).expect("a name");
    let maker: Remote<dyn Trouble> = two.lookup(id(1), "trouble").wait().expect("a maker");
    let all = Everything {
        numbers: (-8, 65_535, i64::MIN, u64::MAX, -0.5, 200),
        text: "für uns".repeat(1_300),
        bytes: (0..=255).collect(),
        list: vec![None, Some(true), Some(false)],
        result: Ok('ß'),
        three: [1, 2, u32::MAX],
        kind: Kind::Pair(-3, Box::new(Kind::Named { name: "ok".into() })),
        nothing: Nothing,
    };
    assert_eq!(maker.echoes(all.clone()).wait(), Ok(all.clone()));
    let other = Everything { result: Err(()), kind: Kind::Plain, ..all };
    assert_eq!(maker.echoes(other.clone()).wait(), Ok(other));
}

#[test]
fn what_is_too_large_is_said() {
    let [one, two] = nodes(2, same).try_into().expect("two");
    let maker = one.export::<dyn Trouble>(Box::new(Maker::default())).expect("room");
    one.bind("trouble", &maker).expect("a name");
    let maker: Remote<dyn Trouble> = two.lookup(id(1), "trouble").wait().expect("a maker");
    assert_eq!(maker.panics("x".repeat(16_001)).wait(), Err(CallError::TooLarge));
    assert_eq!(maker.answers(15_900).wait().map(|bytes| bytes.len()), Ok(15_900));
    assert_eq!(maker.answers(16_000).wait(), Err(CallError::Fault(Fault::TooLarge)));
    assert_eq!(maker.answers(1).wait(), Ok(vec![7]));
}

// What is within the limits is sent, and answered by there being no such method.
#[test]
fn what_has_too_many_parts_or_levels_is_said() {
    let (_one, _two, counter, _alive) = pair();
    let list = |length| counter.invoke::<(Vec<u8>, Vec<i64>), ()>(99, (vec![], vec![0; length]));
    assert_eq!(list(256).wait(), Err(CallError::NoMethod));
    assert_eq!(list(257).wait(), Err(CallError::TooLarge));
    let references = |count| {
        let all: Vec<Remote<dyn Counter>> = vec![counter.clone(); count];
        counter.invoke::<(Vec<Remote<dyn Counter>>,), ()>(99, (all,))
    };
    assert_eq!(references(32).wait(), Err(CallError::NoMethod));
    assert_eq!(references(33).wait(), Err(CallError::TooLarge));
    // A number in so many lists, one within the other.
    let nested = |lists| {
        let kind = (1..lists).fold(Kind::Plain, |kind, _| Kind::Pair(0, Box::new(kind)));
        counter.invoke::<(Kind,), ()>(99, (kind,))
    };
    assert_eq!(nested(15).wait(), Err(CallError::NoMethod));
    assert_eq!(nested(16).wait(), Err(CallError::TooLarge));
    assert_eq!(counter.add(1).wait(), Ok(1));
}

#[test]
fn a_method_that_panics_is_a_fault_from_then_on() {
    let [one, two] = nodes(2, same).try_into().expect("two");
    for run in [Run::Pool, Run::Inline] {
        let maker = one.export_with::<dyn Trouble>(Box::new(Maker::default()), run).expect("room");
        one.bind("trouble", &maker).expect("a name");
        let far: Remote<dyn Trouble> = two.lookup(id(1), "trouble").wait().expect("a maker");
        assert_eq!(far.panics(String::new()).wait(), Ok(true));
        let panicked = Err(CallError::Fault(Fault::Panicked));
        assert_eq!(far.panics("now".into()).wait(), panicked);
        assert_eq!(far.panics(String::new()).wait(), panicked);
        assert_eq!(maker.panics(String::new()).wait(), panicked);
    }
    let (counter, _alive) = tally(&one);
    assert_eq!(counter.add(1).wait(), Ok(1), "the node goes on");
}

#[test]
fn a_method_that_blocks_takes_a_worker_and_nothing_else() {
    let [one, two] = nodes(2, same).try_into().expect("two");
    let gate = Gate::default();
    let maker = one.export::<dyn Trouble>(Box::new(Maker(gate.clone()))).expect("room");
    one.bind("trouble", &maker).expect("a name");
    let (counter, _alive) = tally(&one);
    one.bind("counter", &counter).expect("a name");
    let maker: Remote<dyn Trouble> = two.lookup(id(1), "trouble").wait().expect("a maker");
    let counter: Remote<dyn Counter> = two.lookup(id(1), "counter").wait().expect("a counter");
    let short = Duration::from_millis(50);
    assert_eq!(maker.waits().wait_for(short), Err(CallError::TimedOut));
    let dropped = maker.waits();
    drop(dropped);
    assert_eq!(counter.add(1).wait(), Ok(1), "other objects go on");
    eventually("both were given up", || two.counts().calls_abandoned == 2);
    assert_eq!((two.counts().calls_open, gate.passed()), (2, 0));
    gate.open();
    assert_eq!(maker.waits().wait(), Ok(3), "what nobody waited for was carried out");
    eventually("their answers were taken", || two.counts().calls_open == 0);
}

// What each end says of its session is what the other says of it, once all that was sent has been acted on.
#[test]
fn a_report_says_what_a_node_has() {
    let (one, two, counter, _alive) = pair();
    for by in 1..=20 {
        assert_eq!(counter.add(by).wait(), Ok(by * (by + 1) / 2));
    }
    let sessions = || {
        let of = |node: &Node, peer| {
            let session = node.report().expect("it runs").sessions[0];
            assert_eq!((session.peer, session.session), (id(peer), Session::Open));
            session
        };
        (of(&one, 2), of(&two, 1))
    };
    eventually("both say the same", || {
        let (of_one, of_two) = sessions();
        (of_one.tally.sent, of_two.tally.sent) == (of_two.tally.acted, of_one.tally.acted)
            && (of_one.unacknowledged, of_two.unacknowledged) == (0, 0)
    });
    let (of_one, of_two) = sessions();
    assert_eq!((of_one.tally.session, of_one.tally.closed), (1, None));
    // 21 calls of the second, and what its reference to the counter took.
    assert!(of_two.tally.sent > 21 && of_one.tally.sent > 21, "{of_one:?}, {of_two:?}");
    assert_eq!((one.report().expect("it runs").live, two.report().expect("it runs").live), (1, 0));

    let gate = Gate::default();
    let maker = one.export::<dyn Trouble>(Box::new(Maker(gate.clone()))).expect("room");
    one.bind("trouble", &maker).expect("a name");
    let maker: Remote<dyn Trouble> = two.lookup(id(1), "trouble").wait().expect("a maker");
    let of_two = two.report().expect("it runs");
    assert_eq!((of_two.of_space.surrogates, of_two.sessions[0].of_space.surrogates), (2, 2));
    let line = "masttomato_session_surrogates{space=\"2\",peer=\"1\"} 2";
    assert!(of_two.to_string().lines().any(|said| said == line), "{of_two}");
    let waits = maker.waits();
    eventually("a job is long there", || {
        let report = one.report().expect("it runs");
        report.jobs == 1 && report.oldest_job.is_some_and(|time| time > Duration::from_millis(20))
    });
    let text = one.report().expect("it runs").to_string();
    for line in
        ["masttomato_jobs{space=\"1\"} 1", "masttomato_session_up{space=\"1\",peer=\"2\"} 1"]
    {
        assert!(text.lines().any(|said| said == line), "{text}");
    }
    assert_is_prometheus(&text);
    gate.open();
    assert_eq!(waits.wait(), Ok(1));
    two.close(id(1));
    let closed = two.report().expect("it runs").sessions[0];
    assert_eq!((closed.tally.closed, closed.unacknowledged), (Some(Reason::Asked), 0));
    assert_eq!((closed.tally.session, closed.of_space.surrogates), (1, 0));
}

// Each metric has its help and its kind before its values, once, and each value is a number.
fn assert_is_prometheus(text: &str) {
    let mut known: Vec<String> = Vec::new();
    for line in text.lines() {
        if let Some(rest) = line.strip_prefix("# TYPE ") {
            let (name, kind) = rest.split_once(' ').expect("a kind");
            assert_eq!(name.ends_with("_total"), kind == "counter", "{line}");
            assert!(!known.contains(&name.to_string()), "{line}");
            known.push(name.into());
        } else if !line.starts_with("# HELP ") {
            let (name, rest) = line.split_once('{').expect("labels");
            let (_, value) = rest.split_once("} ").expect("a value");
            assert_eq!(known.last().map(String::as_str), Some(name), "{line}");
            assert!(value.parse::<f64>().is_ok(), "{line}");
        }
    }
    assert!(known.len() > 20);
}

// A reply that nobody waits for brings a reference: it is given back.
#[test]
fn what_an_abandoned_call_brings_is_given_back() {
    let [one, two] = nodes(2, same).try_into().expect("two");
    let alive = board(&one, "shelf");
    let shelf: Remote<dyn Shelf> = two.lookup(id(1), "shelf").wait().expect("a shelf");
    for _ in 0..20 {
        drop(shelf.make(1));
        drop(shelf.make(1).wait());
    }
    eventually("all were given back", || alive.load(SeqCst) == 0 && one.counts().withdrawn == 40);
}

struct Unpark(thread::Thread);

impl Wake for Unpark {
    fn wake(self: Arc<Unpark>) {
        self.0.unpark();
    }
}

fn block_on<F: Future>(future: F) -> F::Output {
    let mut future = pin!(future);
    let waker = Arc::new(Unpark(thread::current())).into();
    let mut context = Context::from_waker(&waker);
    loop {
        match future.as_mut().poll(&mut context) {
            Poll::Ready(output) => return output,
            Poll::Pending => thread::park(),
        }
    }
}

#[test]
fn calls_are_awaited_on_any_executor() {
    let (_one, _two, counter, _alive) = pair();
    let sum = block_on(async {
        let calls: Vec<_> = (1..=10).map(|number| counter.add(number)).collect();
        let mut last = 0;
        for call in calls {
            last = call.await?;
        }
        Ok::<_, CallError>(last)
    });
    assert_eq!(sum, Ok(55));
}

// More calls at once than may be open, by several threads: all are answered, each was carried out once.
#[test]
fn calls_wait_for_room() {
    let [one, two] = nodes(2, |builder| builder.open_calls(4)).try_into().expect("two");
    let (counter, _alive) = tally(&one);
    one.bind("counter", &counter).expect("a name");
    let counter: Remote<dyn Counter> = two.lookup(id(1), "counter").wait().expect("a counter");
    thread::scope(|scope| {
        for _ in 0..4 {
            scope.spawn(|| {
                let calls: Vec<_> = (0..250).map(|_| counter.add(1)).collect();
                assert!(calls.into_iter().all(|call| call.wait().is_ok()));
            });
        }
    });
    assert_eq!(counter.add(0).wait(), Ok(1_000));
    assert_eq!(two.counts().calls_made, 1_002);
}

// A method that is called calls its caller back, on workers of both.
#[test]
fn calls_are_made_from_methods() {
    let [one, two] = nodes(2, same).try_into().expect("two");
    board(&one, "shelf");
    let shelf: Remote<dyn Shelf> = two.lookup(id(1), "shelf").wait().expect("a shelf");
    let (mine, alive) = tally(&two);
    for total in 1..=20 {
        assert_eq!(shelf.add_through(mine.clone(), 1).wait(), Ok(Ok(total)));
    }
    drop(mine);
    eventually("nobody kept it", || alive.load(SeqCst) == 0);
}

// An object runs one call at a time: so one that is called by whom it waits for isn't there for that call, in
// the same process and in another one. Once either has waited enough both go on.
#[test]
fn two_objects_that_call_each_other_wait_for_each_other() {
    let [one, two] = nodes(2, same).try_into().expect("two");
    for other in [&one, &two] {
        let first = one.export::<dyn Friend>(Box::new(Caller)).expect("room");
        let second = other.export::<dyn Friend>(Box::new(Caller)).expect("room");
        for (node, name, friend) in [(&one, "first", &first), (other, "second", &second)] {
            node.bind(name, friend).expect("a name");
        }
        let first: Remote<dyn Friend> = two.lookup(id(1), "first").wait().expect("a friend");
        let second: Remote<dyn Friend> = two.lookup(other.id(), "second").wait().expect("a friend");
        let asks =
            |times, wait| first.ask(second.clone(), first.clone(), times, wait).wait_for(SOON);
        assert_eq!((asks(0, 60_000), asks(1, 60_000)), (Ok(Ok(0)), Ok(Ok(1))));
        assert_eq!(asks(2, 40), Ok(Err(CallError::TimedOut.to_string())));
        assert_eq!(asks(1, 60_000), Ok(Ok(1)), "both go on");
    }
}

#[test]
fn a_local_node_turns_where_it_waits() {
    let one = nodes(1, |builder| builder.spaces(id(2))).remove(0);
    let (counter, _alive) = tally(&one);
    one.bind("counter", &counter).expect("a name");
    board(&one, "shelf");
    let peers = Peers::none().with(id(1), one.address().expect("it listens"));
    let two = Node::builder(id(2), peers).start_local().expect("a node");
    let counter: Remote<dyn Counter> = two.lookup(id(1), "counter").wait().expect("a counter");
    assert_eq!(counter.add(4).wait(), Ok(4));
    assert_eq!(two.block_on(async { counter.add(1).await }), Ok(5));
    let shelf: Remote<dyn Shelf> = two.lookup(id(1), "shelf").wait().expect("a shelf");
    // While it waits, the node calls its own object back, which runs on this thread.
    let alive = Arc::new(AtomicU64::new(0));
    let mine = two.export::<dyn Counter>(Tally::new(&alive)).expect("room");
    assert_eq!(shelf.add_through(mine, 7).wait(), Ok(Ok(7)));
    assert!(two.run_until(SOON, || alive.load(SeqCst) == 0));
    assert!(two.shutdown(SOON).told);
    eventually("the other was told", || one.session(id(2)) == Session::Closed(Reason::PeerClosed));
}

// What each node recorded is together a run.
#[test]
fn the_traces_of_nodes_are_a_run() {
    let lines: Arc<Mutex<[String; 3]>> = Arc::default();
    let place = AtomicU64::new(0);
    let record = |builder: masttomato::Builder| {
        let (lines, place) = (lines.clone(), place.fetch_add(1, SeqCst) as usize);
        builder.record(move |text: &str| {
            lines.lock().unwrap()[place].push_str(text);
            Ok(())
        })
    };
    let [one, two, three] = nodes(3, record).try_into().expect("three");
    let (counter, alive) = tally(&one);
    one.bind("counter", &counter).expect("a name");
    board(&three, "shelf");
    let of_one: Remote<dyn Counter> = two.lookup(id(1), "counter").wait().expect("a counter");
    let shelf: Remote<dyn Shelf> = two.lookup(id(3), "shelf").wait().expect("a shelf");
    for total in 1..=50 {
        assert_eq!(shelf.add_through(of_one.clone(), 1).wait(), Ok(Ok(total)));
    }
    one.unbind("counter");
    drop((counter, of_one));
    eventually("the object is dropped", || alive.load(SeqCst) == 0);
    drop((one, two, three));
    let limits = Limits::new(64, 255).expect("limits");
    let traces: Vec<String> = (1..)
        .zip(lines.lock().unwrap().iter())
        .map(|(space, lines)| {
            let count = lines.lines().count() as u64;
            Trace::first_line(id(space), id(3), limits, count) + lines
        })
        .collect();
    assert!(traces.iter().all(|trace| trace.lines().count() > 50));
    assert_eq!(fault_of(&traces), None);
    if let Some(said) = nobj("check", traces.concat().as_bytes()) {
        assert!(said.ends_with("\nverdict yes\n"), "{said}");
    }
}

// The same of chains that they leave in files, whose last segments are sealed as they end. One whose seal says another
// number is found.
#[test]
fn the_chains_of_nodes_are_a_run() {
    let folder = std::env::temp_dir().join(format!("masttomato-chains-{}", std::process::id()));
    std::fs::create_dir_all(&folder).expect("a folder");
    let place = AtomicU64::new(0);
    let record = |builder: masttomato::Builder| {
        let number = place.fetch_add(1, SeqCst) as u16 + 1;
        let size = SegmentSize::new(10 * u32::from(number)).expect("a size");
        builder.record_chain(size, Files::new(&folder, id(number), 1 << 12).for_chain())
    };
    let [one, two] = nodes(2, record).try_into().expect("two");
    let (counter, _alive) = tally(&one);
    one.bind("counter", &counter).expect("a name");
    let counter: Remote<dyn Counter> = two.lookup(id(1), "counter").wait().expect("a counter");
    for total in 1..=50 {
        assert_eq!(counter.add(1).wait(), Ok(total));
    }
    two.close(id(1));
    drop((counter, one, two));
    let chains: Vec<String> = (1..=2)
        .map(|space| Files::join_chain(&folder, id(space), id(2)).expect("a chain"))
        .collect();
    std::fs::remove_dir_all(&folder).expect("the folder");
    let last: Vec<&str> = chains.iter().filter_map(|chain| chain.lines().last()).collect();
    for (seal, session) in last.iter().zip([" peer 2 session 1 sent ", " peer 1 session 1 sent "]) {
        assert!(seal.starts_with("seal ") && seal.contains(session), "{seal}");
        assert!(seal.contains(" closed "), "{seal}");
    }
    if let Some(said) = nobj("check", chains.concat().as_bytes()) {
        assert!(said.ends_with("\nverdict yes\n"), "{said}");
        let spoilt = chains.concat().replacen(" live 1 ", " live 2 ", 1);
        let said = nobj("check", spoilt.as_bytes()).expect("it is there");
        assert!(said.ends_with("C5 1 1\n"), "{said}");
    }
}

// ---- lost and found -------------------------------------------------------------------------------

// The second node knows the first by way of a proxy.
fn through_a_proxy(give_up: Duration) -> (Node, Node, Proxy, Remote<dyn Counter>, Arc<AtomicU64>) {
    let tell = |builder: masttomato::Builder| builder.spaces(id(2)).give_up_after(give_up);
    let one = nodes(1, tell).remove(0);
    let (counter, alive) = tally(&one);
    one.bind("counter", &counter).expect("a name");
    let proxy = Proxy::to(one.address().expect("it listens"));
    let peers = Peers::none().with(id(1), proxy.address);
    let two = tell(Node::builder(id(2), peers)).start().expect("a node");
    let counter = two.lookup(id(1), "counter").wait().expect("a counter");
    (one, two, proxy, counter, alive)
}

#[test]
fn a_connection_that_breaks_is_opened_again_and_each_call_is_carried_out_once() {
    let (_one, two, proxy, counter, _alive) = through_a_proxy(Duration::from_secs(60));
    let before = two.counts().connects;
    for total in 1..=60_i64 {
        let call = counter.add(1);
        if total % 5 == 0 {
            proxy.cut();
        }
        assert_eq!(call.wait_for(SOON), Ok(total));
    }
    assert!(two.counts().connects >= before + 5, "{:?}", two.counts());
}

#[test]
fn a_peer_that_stays_away_is_given_up_at_both_ends() {
    let (one, two, proxy, counter, alive) = through_a_proxy(Duration::from_millis(600));
    let changes = two.changes().expect("it runs");
    one.unbind("counter");
    proxy.close();
    let call = counter.add(1);
    let ended = call.wait_for(SOON).expect_err("no answer");
    assert_eq!(ended, CallError::Ended(Reason::RetriesUsedUp));
    assert_eq!(counter.add(1).wait(), Err(CallError::Down(id(1))));
    let closed = Session::Closed(Reason::RetriesUsedUp);
    assert_eq!(two.session(id(1)), closed);
    let seen: Vec<Session> =
        std::iter::from_fn(|| changes.try_next().map(|(_, how)| how)).collect();
    assert!(matches!(seen[..], [Session::Down { .. }, .., Session::Closed(Reason::RetriesUsedUp)]));
    eventually("the owner gives it up too", || matches!(one.session(id(2)), Session::Closed(_)));
    eventually("what it held is given up", || alive.load(SeqCst) == 0);
    assert_eq!(one.counts().withdrawn, 1);
}

fn is_closed(node: &Node, peer: u16) -> bool {
    matches!(node.session(id(peer)), Session::Closed(_))
}

fn refusal(opened: Result<u32, NodeError>) -> Refusal {
    match opened {
        Err(NodeError::Space(SpaceError::Refused(refusal))) => refusal,
        other => panic!("{other:?}"),
    }
}

// What was lost hinders until it is given back; then both ends open the session anew, they are connected again,
// and the object is looked up again. It was never given up by its owner, which has its name.
#[test]
fn a_session_that_was_given_up_is_opened_anew() {
    let (one, two, proxy, counter, alive) = through_a_proxy(Duration::from_secs(3));
    assert_eq!(counter.add(20).wait(), Ok(20));
    proxy.close();
    let lost = counter.add(1).wait_for(SOON);
    assert_eq!(lost, Err(CallError::Ended(Reason::RetriesUsedUp)));
    eventually("the owner gives it up too", || is_closed(&one, 2));
    two.bind("far", &counter).expect("a name");
    assert_eq!(refusal(two.open(id(1))), Refusal::StillHeld);
    drop(counter);
    assert_eq!(refusal(two.open(id(1))), Refusal::StillHeld);
    assert!(two.unbind("far"));
    proxy.open();
    assert_eq!((one.open(id(2)).expect("closed"), two.open(id(1)).expect("nothing held")), (2, 2));
    assert_eq!(refusal(two.open(id(1))), Refusal::StillOpen);
    assert_eq!(refusal(two.open(id(2))), Refusal::NoPeer);
    let counter: Remote<dyn Counter> = two.lookup(id(1), "counter").wait().expect("a counter");
    assert_eq!(counter.add(22).wait(), Ok(42));
    assert!(one.session(id(2)) == Session::Open && two.session(id(1)) == Session::Open);
    one.unbind("counter");
    drop(counter);
    eventually("the object is dropped", || alive.load(SeqCst) == 0);
}

// Each closes and opens, again and again: they have the same number.
#[test]
fn each_of_two_nodes_closes_its_session_and_opens_it() {
    let (one, two, counter, _alive) = pair();
    drop(counter);
    for number in 2..=5 {
        one.close(id(2));
        two.close(id(1));
        assert_eq!(one.open(id(2)).expect("nothing of space 2's is held"), number);
        assert_eq!(two.open(id(1)).expect("nothing of space 1's is held"), number);
        let counter: Remote<dyn Counter> = two.lookup(id(1), "counter").wait().expect("its name");
        assert_eq!(counter.add(1).wait(), Ok(i64::from(number) - 1));
    }
}

// Where the other end is open it closes with the first frame of the new session, and what is sent waits until its
// program opens it as well.
#[test]
fn one_end_opens_a_session_and_the_other_hears_of_it() {
    let (one, two, counter, _alive) = pair();
    drop(counter);
    two.close(id(1));
    assert_eq!(two.open(id(1)).expect("nothing is held"), 2);
    let found = two.lookup::<dyn Counter>(id(1), "counter");
    eventually("the owner hears of it", || is_closed(&one, 2));
    assert_eq!(one.session(id(2)), Session::Closed(Reason::PeerClosed));
    assert_eq!(one.open(id(2)).expect("nothing is held"), 2);
    assert_eq!(found.wait().expect("a counter").add(1).wait(), Ok(1));
    one.stop();
    eventually("it stops", || matches!(one.open(id(2)), Err(NodeError::Stopped)));
}

#[test]
fn a_peer_that_was_never_there_is_given_up() {
    let nobody =
        TcpListener::bind("127.0.0.1:0").expect("a port").local_addr().expect("an address");
    let builder = Node::builder(id(2), Peers::none().with(id(1), nobody));
    let two = builder.give_up_after(Duration::from_millis(400)).start().expect("a node");
    let error = two.lookup::<dyn Counter>(id(1), "counter").wait_for(SOON).expect_err("nobody");
    assert_eq!(error, CallError::Ended(Reason::RetriesUsedUp));
    let error = two.lookup::<dyn Counter>(id(1), "counter").wait_for(SOON).expect_err("nobody");
    assert_eq!(error, CallError::Down(id(1)));
}

#[test]
fn a_stalled_connection_goes_on_where_it_was() {
    let (_one, _two, proxy, counter, _alive) = through_a_proxy(Duration::from_secs(60));
    proxy.stall(true);
    let call = counter.add(1);
    assert_eq!(counter.add(1).wait_for(Duration::from_millis(60)), Err(CallError::TimedOut));
    proxy.stall(false);
    assert_eq!(call.wait_for(SOON), Ok(1));
    assert_eq!(counter.add(1).wait_for(SOON), Ok(3), "what wasn't waited for was carried out");
}

#[test]
fn a_peer_that_shuts_down_says_so() {
    let (one, two, counter, _alive) = pair();
    let gate = Gate::default();
    let maker = one.export::<dyn Trouble>(Box::new(Maker(gate.clone()))).expect("room");
    one.bind("trouble", &maker).expect("a name");
    let maker: Remote<dyn Trouble> = two.lookup(id(1), "trouble").wait().expect("a maker");
    let waits = maker.waits();
    eventually("it runs", || one.counts().jobs_claimed > one.counts().jobs_finished);
    let since = Instant::now();
    let shutdown = one.shutdown(Duration::from_millis(100));
    assert!(shutdown.told && shutdown.still_running == 1, "{shutdown:?}");
    assert!(since.elapsed() < SOON);
    assert_eq!(waits.wait_for(SOON), Err(CallError::Ended(Reason::PeerClosed)));
    assert_eq!(counter.add(1).wait(), Err(CallError::Down(id(1))));
    gate.open();
}

#[test]
fn a_method_that_runs_is_waited_for_at_shutdown() {
    let [one, two] = nodes(2, same).try_into().expect("two");
    let gate = Gate::default();
    let maker = one.export::<dyn Trouble>(Box::new(Maker(gate.clone()))).expect("room");
    one.bind("trouble", &maker).expect("a name");
    let maker: Remote<dyn Trouble> = two.lookup(id(1), "trouble").wait().expect("a maker");
    let waits = maker.waits();
    eventually("it runs", || one.counts().jobs_claimed > one.counts().jobs_finished);
    let ends = thread::spawn(move || one.shutdown(SOON));
    thread::sleep(Duration::from_millis(60));
    gate.open();
    let shutdown = ends.join().expect("no panic");
    assert!(shutdown.told && shutdown.still_running == 0, "{shutdown:?}");
    assert_eq!(waits.wait_for(SOON), Ok(1), "its reply was written first");
}

#[test]
fn a_node_that_has_stopped_answers_nothing() {
    let (one, two, counter, alive) = pair();
    let waits = two.clone();
    let until = thread::spawn(move || waits.run_until_stopped());
    two.stop();
    until.join().expect("no panic");
    assert_eq!(counter.add(1).wait(), Err(CallError::NodeStopped));
    assert!(two.export::<dyn Counter>(Tally::new(&alive)).is_err());
    eventually("the other was told", || one.session(id(2)) == Session::Closed(Reason::PeerClosed));
    eventually("the object that found no node is gone", || alive.load(SeqCst) == 1);
}

#[test]
fn a_number_that_was_used_is_refused() {
    let (one, two, counter, _alive) = pair();
    let peers = Peers::none().with(id(1), one.address().expect("it listens"));
    let again = Node::builder(id(2), peers).start().expect("a node");
    let error = again.lookup::<dyn Counter>(id(1), "counter").wait_for(SOON).expect_err("refused");
    assert_eq!(error, CallError::Refused(id(1), Why::NumberUsed));
    assert_eq!(again.session(id(1)), Session::Refused(Why::NumberUsed));
    let error = again.lookup::<dyn Counter>(id(1), "counter").wait().expect_err("refused");
    assert_eq!(error, CallError::Refused(id(1), Why::NumberUsed));
    assert_eq!(counter.add(1).wait(), Ok(1), "the first life goes on");
    assert_eq!(two.session(id(1)), Session::Open);
    let peers = Peers::none().with(id(1), one.address().expect("it listens"));
    let other = Node::builder(id(2), peers).world("another").start().expect("a node");
    eventually("it is refused", || other.session(id(1)) == Session::Refused(Why::OtherWorld));
}

// A reference whose owner has gone is passed on: the callee isn't called.
#[test]
fn what_was_lost_cannot_be_passed_on() {
    let [one, two, three] = nodes(3, same).try_into().expect("three");
    let (counter, _alive) = tally(&one);
    one.bind("counter", &counter).expect("a name");
    board(&three, "shelf");
    let of_one: Remote<dyn Counter> = two.lookup(id(1), "counter").wait().expect("a counter");
    let shelf: Remote<dyn Shelf> = two.lookup(id(3), "shelf").wait().expect("a shelf");
    two.close(id(1));
    assert_eq!(shelf.put(of_one.clone()).wait(), Err(CallError::Lost));
    assert_eq!(of_one.add(1).wait(), Err(CallError::Down(id(1))));
    assert_eq!(shelf.take().wait().expect("an answer"), None);
    let of_another = tally(&one).0;
    assert_eq!(shelf.put(of_another).wait(), Err(CallError::OtherNode));
}

// ---- strangers ------------------------------------------------------------------------------------

#[test]
fn strangers_at_the_socket_leave_a_node_standing() {
    let (one, _two, counter, _alive) = pair();
    let address = one.address().expect("it listens");
    let connect = || TcpStream::connect(address).expect("a node");
    // Silent ones, more of them than may wait.
    let silent: Vec<TcpStream> = (0..300).map(|_| connect()).collect();
    assert_eq!(counter.add(1).wait_for(SOON), Ok(1));
    drop(silent);
    // Garbage in place of a hello, and behind a good one.
    for round in 0..30_u8 {
        let _written = connect().write_all(&[round; 200]);
    }
    eventually("a good hello is heard again", || {
        let mut stream = connect();
        let hello = plain::hello(2, 2, 9).to_bytes();
        let mut room = [0; HELLO];
        stream.write_all(&hello).is_ok() && stream.read_exact(&mut room).is_ok()
    });
    assert_eq!(counter.add(1).wait_for(SOON), Ok(2));
    // One who says the hello of a number that isn't there, and then floods.
    let [owner] = nodes(1, |builder| builder.spaces(id(3))).try_into().expect("one");
    let mut flood = TcpStream::connect(owner.address().expect("it listens")).expect("a node");
    flood.write_all(&plain::hello(3, 3, 9).to_bytes()).expect("a node");
    let said = plain::read_hello(&mut flood);
    assert_eq!(said.refused, None);
    let _written = flood.write_all(&vec![0xff; 1 << 20]);
    eventually("it is dropped", || owner.counts().misbehaved == 1);
    assert!(matches!(owner.session(id(3)), Session::Down { .. }));
}

// Programs of another kind know an agent's method 1, a name's reference, and nothing of interfaces.
#[test]
fn other_programs_look_names_up_at_a_node() {
    let one = nodes(1, |builder| builder.spaces(id(2))).remove(0);
    let (counter, alive) = tally(&one);
    one.bind("counter", &counter).expect("a name");
    let mut plain = Plain::connect(2, 2, one.address().expect("it listens"));
    let agent = id(1).agent();
    let name = Value::Bytes(b"counter".to_vec());
    let Answered::Replied { status: Status::Answered, value: Value::Ref(reference) } =
        plain.call(agent, 1, name)
    else {
        panic!("no reference");
    };
    let answered = plain.call(reference, 0, Value::Int(5));
    assert_eq!(answered, Answered::Replied { status: Status::Answered, value: Value::Int(5) });
    let fault = |number| Answered::Replied { status: Status::Fault, value: Value::Int(number) };
    assert_eq!(plain.call(agent, 1, Value::Bytes(b"no".to_vec())), fault(3));
    assert_eq!(plain.call(agent, 1, Value::Int(5)), fault(1));
    let pair = Value::List(vec![Value::Bytes(b"counter".to_vec()), Value::Ref(reference)]);
    assert_eq!(plain.call(agent, 0, pair), fault(4), "nothing is bound from outside");
    let none = Answered::Replied { status: Status::NoMethod, value: Value::Unit };
    assert_eq!(plain.call(agent, 3, Value::Unit), none);
    // Which of its calls it wants no more: any number, also one of no call.
    let unit = Answered::Replied { status: Status::Answered, value: Value::Unit };
    assert_eq!(plain.call(agent, 18, Value::Int(i64::MAX)), unit);
    assert_eq!(plain.call(agent, 18, Value::Int(-1)), fault(1));
    one.unbind("counter");
    drop(counter);
    plain.engine.release(reference);
    eventually("the object is dropped", || {
        plain.turn(&mut |_, _, _, _| Outcome::NoMethod);
        alive.load(SeqCst) == 0
    });
}

#[test]
fn a_node_looks_names_up_at_other_programs() {
    let listener = TcpListener::bind("127.0.0.1:0").expect("a port");
    let peers = Peers::none().with(id(1), listener.local_addr().expect("an address"));
    let two = Node::builder(id(2), peers).start().expect("a node");
    let asks = thread::spawn(move || {
        let counter: Remote<dyn Counter> = two.lookup(id(1), "counter").wait_for(SOON)?;
        let total = counter.add(5).wait_for(SOON)?;
        let missing = two.lookup::<dyn Counter>(id(1), "no").wait_for(SOON);
        Ok::<_, CallError>((total, missing.err()))
    });
    let mut plain = Plain::accept(1, &listener);
    let object = plain.engine.export().expect("room");
    let mut serve = |_: &mut masttomato::engine::Engine, target: Reference, method, value| match (
        target.index,
        method,
        value,
    ) {
        (0, 1, Value::Bytes(name)) if name == b"counter" => Outcome::Answer(Value::Ref(object)),
        (0, 1, _) => Outcome::Fault(Value::Int(3)),
        (1, 0, Value::Int(by)) => Outcome::Answer(Value::Int(by * 2)),
        _ => Outcome::NoMethod,
    };
    while !asks.is_finished() {
        plain.turn(&mut serve);
    }
    let asked = asks.join().expect("no panic");
    assert_eq!(asked, Ok((10, Some(CallError::Fault(Fault::NoName)))));
}

#[test]
fn only_this_machine_is_spoken_to_without_tls() {
    let far = || Node::builder(id(1), Peers::none()).listen("0.0.0.0:0");
    let Err(error) = far().start() else { panic!("it listens everywhere") };
    let sentence =
        "an address isn't this machine's own: without TLS, Builder::insecure must allow that";
    assert_eq!(error.to_string(), sentence);
    assert!(far().insecure().start().is_ok());
    let peers = Peers::none().with(id(1), "192.0.2.1:7000");
    let two = Node::builder(id(2), peers).start();
    assert!(matches!(two, Err(masttomato::NodeError::Insecure)));
    let high = Node::builder(id(9), Peers::none()).spaces(id(2)).start();
    assert!(matches!(high, Err(masttomato::NodeError::OtherSpaces)));
}

// Whoever posts to a node that is about to sleep wakes it: many times, by several threads.
#[test]
fn a_sleeping_node_is_woken() {
    let one = nodes(1, same).remove(0);
    let (counter, _alive) = tally(&one);
    thread::scope(|scope| {
        for number in 0..3_u64 {
            let counter = counter.clone();
            scope.spawn(move || {
                for step in 0..2_000 {
                    counter.add(1).wait_for(SOON).expect("it was woken");
                    if step % 64 == number {
                        thread::sleep(Duration::from_micros(200));
                    }
                }
            });
        }
    });
    assert_eq!(counter.add(0).wait(), Ok(6_000));
}

// Who often exports doesn't wait for the node's thread any more, and what the node has ready for it isn't counted.
#[test]
fn objects_are_exported_by_many_threads() {
    let two = pair().1;
    let some = || (0..100).map(|_| tally(&two)).collect::<Vec<_>>();
    let all: Vec<_> = thread::scope(|scope| {
        let threads: Vec<_> = (0..4).map(|_| scope.spawn(some)).collect();
        threads.into_iter().flat_map(|thread| thread.join().expect("no panic")).collect()
    });
    let (objects, alive): (HashSet<_>, Vec<_>) = all.into_iter().unzip();
    assert_eq!((objects.len(), two.report().expect("it runs").live), (400, 400));
    for object in objects {
        assert_eq!(object.add(7).wait(), Ok(7));
    }
    eventually("all are dropped", || alive.iter().all(|alive| alive.load(SeqCst) == 0));
    eventually("none is live", || two.report().expect("it runs").live == 0);
    assert_eq!(two.counts().withdrawn, 400);
}

// Of many callers one looks and the others sleep: each is woken once its answer has come.
#[test]
fn many_threads_call_by_one_node() {
    let (_one, _two, counter, _alive) = pair();
    let calls = || (0..300).for_each(|_| assert!(counter.add(1).wait().is_ok()));
    thread::scope(|scope| (0..8).for_each(|_| drop(scope.spawn(calls))));
    assert_eq!(counter.add(0).wait(), Ok(2_400));
}
