//! Methods that are async, calls that are made at once or not at all, and calls that are cancelled.

use crate::things::*;
use crate::{block_on, same};
use masttomato::{CallError, Context, Fault, Node, Peers, Remote, Run, Session, interface};
use std::future::poll_fn;
use std::pin::Pin;
use std::sync::atomic::{AtomicU32, Ordering::SeqCst};
use std::sync::{Arc, Mutex};
use std::task::{Poll, Waker};
use std::thread;
use std::time::{Duration, Instant};

/// Methods that wait.
#[interface]
pub trait Slow {
    /// Waits until the door is open: how many came through it before.
    async fn pass(&mut self) -> u32;
    async fn add_through(&mut self, thing: Remote<dyn Counter>, by: i64) -> Result<i64, String>;
    async fn panics(&mut self, waits: bool);
    /// Waits until its call is cancelled.
    async fn is_cancelled(&mut self, context: &Context) -> u16;
    /// The same on a worker.
    fn looks(&mut self, context: &Context);
    fn count(&mut self) -> u32;
}

/// A door that methods wait at without a thread.
#[derive(Clone, Default)]
struct Door(Arc<Mutex<(bool, Vec<Waker>)>>);

impl Door {
    fn open(&self) {
        let wakers = {
            let mut door = self.0.lock().unwrap();
            door.0 = true;
            std::mem::take(&mut door.1)
        };
        wakers.into_iter().for_each(Waker::wake);
    }

    async fn is_open(&self) {
        poll_fn(|context| {
            let mut door = self.0.lock().unwrap();
            if door.0 {
                return Poll::Ready(());
            }
            door.1.push(context.waker().clone());
            Poll::Pending
        })
        .await;
    }

    fn has_waiters(&self, count: usize) -> bool {
        self.0.lock().unwrap().1.len() >= count
    }
}

/// Counts what ended in it, and what began to wait for its being cancelled.
#[derive(Clone, Default)]
struct Waiter {
    door: Door,
    count: Arc<AtomicU32>,
    begun: Arc<AtomicU32>,
}

impl Slow for Waiter {
    async fn pass(&mut self) -> u32 {
        self.door.is_open().await;
        self.count.fetch_add(1, SeqCst)
    }

    async fn add_through(&mut self, thing: Remote<dyn Counter>, by: i64) -> Result<i64, String> {
        let first = thing.add(by).await.map_err(|error| error.to_string())?;
        let second = thing.add(by).await.map_err(|error| error.to_string())?;
        Ok(first + second)
    }

    async fn panics(&mut self, waits: bool) {
        if waits {
            self.door.is_open().await;
        }
        panic!("as it was asked to");
    }

    async fn is_cancelled(&mut self, context: &Context) -> u16 {
        self.begun.fetch_add(1, SeqCst);
        context.cancelled().await;
        self.count.fetch_add(1, SeqCst);
        context.caller().get()
    }

    fn looks(&mut self, context: &Context) {
        self.begun.fetch_add(1, SeqCst);
        let end = Instant::now() + SOON;
        while !context.is_cancelled() && Instant::now() < end {
            thread::sleep(Duration::from_millis(1));
        }
        self.count.fetch_add(u32::from(context.is_cancelled()), SeqCst);
    }

    fn count(&mut self) -> u32 {
        self.count.load(SeqCst)
    }
}

// Two nodes; the first has a waiter, bound to a name, and the second a reference to it.
fn pair(
    tell: impl Fn(masttomato::Builder) -> masttomato::Builder,
) -> (Node, Node, Remote<dyn Slow>, Waiter) {
    let [one, two] = nodes(2, tell).try_into().expect("two");
    let waiter = bind(&one, "waiter", Run::Pool);
    let slow = two.lookup(id(1), "waiter").wait().expect("a waiter");
    (one, two, slow, waiter)
}

fn bind(node: &Node, name: &str, run: Run) -> Waiter {
    let waiter = Waiter::default();
    let slow = node.export_with::<dyn Slow>(Box::new(waiter.clone()), run).expect("room");
    node.bind(name, &slow).expect("a name");
    waiter
}

// ---- async methods ----------------------------------------------------------------------------------

// A hundred objects wait at once, where there is one worker, and beside them a method runs on it.
#[test]
fn async_methods_wait_without_a_thread() {
    for run in [Run::Pool, Run::Inline] {
        let [one, two] = nodes(2, |builder| builder.workers(1)).try_into().expect("two");
        let door = Door::default();
        let count = Arc::new(AtomicU32::new(0));
        let mut all: Vec<Remote<dyn Slow>> = Vec::new();
        for number in 0..100 {
            let (door, count) = (door.clone(), count.clone());
            let waiter = Waiter { door, count, begun: Arc::default() };
            let slow = one.export_with::<dyn Slow>(Box::new(waiter), run).expect("room");
            one.bind(&number.to_string(), &slow).expect("a name");
            all.push(two.lookup(id(1), &number.to_string()).wait().expect("a waiter"));
        }
        let calls: Vec<_> = all.iter().map(SlowStub::pass).collect();
        let mine: Vec<_> = all.iter().map(SlowStub::pass).collect();
        eventually("all of them wait", || door.has_waiters(100));
        let (counter, _alive) = tally(&one);
        assert_eq!(counter.add(1).wait_for(SOON), Ok(1));
        door.open();
        let mut passed: Vec<u32> = calls
            .into_iter()
            .chain(mine)
            .map(|call| call.wait_for(SOON).expect("it passes"))
            .collect();
        passed.sort_unstable();
        assert!(passed.into_iter().eq(0..200));
    }
}

// An object runs one call at a time, also where the call waits.
#[test]
fn an_object_waits_for_its_async_method() {
    let (one, _two, slow, waiter) = pair(same);
    let passes = slow.pass();
    eventually("it waits", || waiter.door.has_waiters(1));
    let own: Remote<dyn Slow> = one.lookup(id(1), "waiter").wait().expect("its own");
    let counts = [slow.count(), own.count()];
    assert_eq!(slow.count().wait_for(Duration::from_millis(40)), Err(CallError::TimedOut));
    waiter.door.open();
    assert_eq!(passes.wait_for(SOON), Ok(0));
    assert_eq!(counts.map(|call| call.wait_for(SOON)), [Ok(1), Ok(1)]);
}

#[test]
fn async_methods_await_calls_of_others() {
    let (one, two, slow, _waiter) = pair(same);
    let (mine, alive) = tally(&two);
    for round in 0..20 {
        assert_eq!(slow.add_through(mine.clone(), 1).wait_for(SOON), Ok(Ok(4 * round + 3)));
    }
    drop(mine);
    eventually("nobody kept it", || alive.load(SeqCst) == 0);
    // By a LocalNode, which turns them where it waits.
    let peers = Peers::none().with(id(1), one.address().expect("it listens"));
    let three = Node::builder(id(2), peers).life(7).world("local").start_local().expect("a node");
    let slow = three.export::<dyn Slow>(Box::new(Waiter::default())).expect("room");
    let counter = three.export::<dyn Counter>(Tally::new(&alive)).expect("room");
    assert_eq!(slow.add_through(counter.clone(), 2).wait_for(SOON), Ok(Ok(6)));
    assert_eq!(three.block_on(slow.add_through(counter, 2)), Ok(Ok(14)));
    assert_eq!(slow.panics(false).wait_for(SOON), Err(CallError::Fault(Fault::Panicked)));
}

#[test]
fn an_async_method_that_panics_is_a_fault_from_then_on() {
    let [one, two] = nodes(2, same).try_into().expect("two");
    for (waits, run) in
        [(false, Run::Pool), (true, Run::Pool), (false, Run::Inline), (true, Run::Inline)]
    {
        let waiter = bind(&one, "waiter", run);
        let slow: Remote<dyn Slow> = two.lookup(id(1), "waiter").wait().expect("a waiter");
        let panics = slow.panics(waits);
        if waits {
            eventually("it waits", || waiter.door.has_waiters(1));
        }
        waiter.door.open();
        let panicked = || CallError::Fault(Fault::Panicked);
        assert_eq!(panics.wait_for(SOON), Err(panicked()));
        assert_eq!(slow.pass().wait_for(SOON), Err(panicked()));
        assert_eq!(slow.count().wait_for(SOON), Err(panicked()));
    }
}

#[test]
fn a_spawner_runs_async_methods() {
    let ran = Arc::new(AtomicU32::new(0));
    let count = ran.clone();
    let spawner = move |future: Pin<Box<dyn Future<Output = ()> + Send>>| {
        count.fetch_add(1, SeqCst);
        drop(thread::spawn(|| block_on(future)));
    };
    let (one, two, slow, waiter) = pair(|builder| builder.spawner(spawner.clone()));
    let passes = slow.pass();
    eventually("it waits", || waiter.door.has_waiters(1));
    waiter.door.open();
    assert_eq!(passes.wait_for(SOON), Ok(0));
    assert_eq!(slow.count().wait_for(SOON), Ok(1));
    let (mine, _alive) = tally(&two);
    assert_eq!(slow.add_through(mine, 1).wait_for(SOON), Ok(Ok(3)));
    assert_eq!(ran.load(SeqCst), 2, "what isn't async runs on a worker");
    drop(one);
}

// What a spawner drops, or panics at, has taken its object with it.
#[test]
fn a_spawner_that_runs_nothing_leaves_no_caller_waiting() {
    let panicked = || Err(CallError::Fault(Fault::Panicked));
    let (_one, _two, slow, _waiter) = pair(|builder| builder.spawner(drop));
    assert_eq!(slow.pass().wait_for(SOON), panicked());
    assert_eq!(slow.count().wait_for(SOON), Err(CallError::Fault(Fault::Panicked)));
    let (one, _two, slow, _waiter) = pair(|builder| builder.spawner(|_| panic!("it is shut down")));
    assert_eq!(slow.pass().wait_for(SOON), panicked());
    let (counter, _alive) = tally(&one);
    assert_eq!(counter.add(1).wait_for(SOON), Ok(1), "the node goes on");
}

// A node that is shut down says how many methods still waited; they are dropped once they are woken.
#[test]
fn a_node_shuts_down_while_async_methods_wait() {
    let (one, _two, slow, waiter) = pair(same);
    let passes = slow.pass();
    eventually("it waits", || waiter.door.has_waiters(1));
    let shutdown = one.shutdown(Duration::from_millis(50));
    assert_eq!((shutdown.told, shutdown.still_running), (true, 1));
    assert!(matches!(passes.wait_for(SOON), Err(CallError::Ended(_))));
    waiter.door.open();
    let Waiter { count, door, .. } = waiter;
    drop(door);
    eventually("its object is dropped", || Arc::strong_count(&count) == 1);
}

// Nor does anybody wait for ever for a call of an own object that still runs, or waits for one that does.
#[test]
fn a_node_that_stops_answers_its_own_calls() {
    let node = nodes(1, same).remove(0);
    let gate = Gate::default();
    let maker = node.export::<dyn Trouble>(Box::new(Maker(gate.clone()))).expect("room");
    let waiter = Waiter::default();
    let slow = node.export::<dyn Slow>(Box::new(waiter.clone())).expect("room");
    let calls = [maker.waits(), maker.waits(), slow.pass(), slow.pass()];
    eventually("it waits", || waiter.door.has_waiters(1));
    assert_eq!(node.shutdown(Duration::from_millis(50)).still_running, 2);
    let answers = calls.map(|call| call.wait_for(SOON));
    assert_eq!(answers, [(); 4].map(|()| Err(CallError::NodeStopped)));
    gate.open();
    waiter.door.open();
}

// ---- at once or not at all ----------------------------------------------------------------------------

#[test]
fn a_try_call_is_made_at_once_or_not_at_all() {
    let (one, two, slow, waiter) = pair(|builder| builder.open_calls(2));
    let (counter, _alive) = tally(&one);
    one.bind("counter", &counter).expect("a name");
    let counter: Remote<dyn Counter> = two.lookup(id(1), "counter").wait().expect("a counter");
    let open = [slow.pass(), slow.pass()];
    assert_eq!(counter.try_add(1).wait_for(SOON), Err(CallError::Busy));
    let waits = counter.add(2);
    assert_eq!(slow.try_pass().wait_for(SOON), Err(CallError::Busy));
    waiter.door.open();
    assert_eq!(open.map(|call| call.wait_for(SOON)), [Ok(0), Ok(1)]);
    assert_eq!(waits.wait_for(SOON), Ok(2), "the try calls were never made");
    assert_eq!(counter.try_add(1).wait_for(SOON), Ok(3));
    assert_eq!(two.counts().calls_made, 6);
    // An own object's line has room.
    let (mine, _alive) = tally(&two);
    assert_eq!(mine.try_add(1).wait_for(SOON), Ok(1));
    one.shutdown(SOON);
    eventually("the bye comes", || matches!(two.session(id(1)), Session::Closed(_)));
    assert_eq!(counter.try_add(1).wait_for(SOON), Err(CallError::Down(id(1))));
}

// ---- cancelled ------------------------------------------------------------------------------------------

// Those that wait for their object never run, whether their owner's node has them yet or not.
#[test]
fn what_is_cancelled_before_it_begins_never_runs() {
    let (one, two, slow, waiter) = pair(same);
    let own: Remote<dyn Slow> = one.lookup(id(1), "waiter").wait().expect("its own");
    let passes = slow.pass();
    eventually("it waits", || waiter.door.has_waiters(1));
    for _ in 0..10 {
        slow.pass().cancel();
        own.pass().cancel();
        let call = slow.pass().or_cancel();
        eventually("it is made", || call.number().is_some());
        assert_eq!(call.wait_for(Duration::ZERO), Err(CallError::TimedOut));
    }
    // The owner's agent hears of this behind what it hears of those.
    drop(two.lookup::<dyn Slow>(id(1), "waiter").wait_for(SOON).expect("a waiter"));
    waiter.door.open();
    assert_eq!(passes.wait_for(SOON), Ok(0));
    assert_eq!(slow.pass().or_cancel().wait_for(SOON), Ok(1), "the 30 between them didn't run");
    assert_eq!(own.count().wait_for(SOON), Ok(2));
    eventually("all answers were taken", || two.counts().calls_open == 0);
}

// One that waits for room at the caller is never made.
#[test]
fn what_is_cancelled_before_it_is_made_never_is() {
    let (_one, two, slow, waiter) = pair(|builder| builder.open_calls(1));
    let passes = slow.pass();
    eventually("it waits", || waiter.door.has_waiters(1));
    let before = two.counts().calls_made;
    let waits: Vec<_> = (0..10).map(|_| slow.pass()).collect();
    waits.into_iter().for_each(masttomato::Call::cancel);
    waiter.door.open();
    assert_eq!(passes.wait_for(SOON), Ok(0));
    assert_eq!(slow.pass().wait_for(SOON), Ok(1));
    assert_eq!(two.counts().calls_made, before + 1);
}

// A method that runs sees it, on a worker and where it is async, of another's call and of an own one.
#[test]
fn a_method_sees_that_its_call_is_cancelled() {
    let (one, two, slow, waiter) = pair(same);
    let own: Remote<dyn Slow> = one.lookup(id(1), "waiter").wait().expect("its own");
    for (round, remote) in (0..).zip([&slow, &own, &slow, &own]) {
        let begun = |count| eventually("it runs", || waiter.begun.load(SeqCst) == count);
        let ended = |count| eventually("it has ended", || waiter.count.load(SeqCst) == count);
        let call = remote.looks().or_cancel();
        begun(2 * round + 1);
        assert_eq!(call.wait_for(Duration::ZERO), Err(CallError::TimedOut));
        ended(2 * round + 1);
        let call = remote.is_cancelled().or_cancel();
        begun(2 * round + 2);
        drop(call);
        ended(2 * round + 2);
    }
    assert_eq!(slow.count().wait_for(SOON), Ok(8));
    eventually("all answers were taken", || two.counts().calls_open == 0);
}

// What has ended isn't disturbed by it, and what is dropped without it goes on.
#[test]
fn an_answered_call_cannot_be_cancelled() {
    let (_one, two, slow, waiter) = pair(same);
    waiter.door.open();
    for number in 0..200 {
        let call = slow.pass().or_cancel();
        if number % 3 == 0 {
            assert!(call.wait_for(SOON).is_ok());
        } else {
            // The answer may be on its way to the caller, and the word to the owner, at once.
            eventually("it has passed", || waiter.count.load(SeqCst) > number);
            drop(call);
        }
    }
    drop(slow.pass());
    eventually("all passed", || waiter.count.load(SeqCst) > 200);
    eventually("all answers were taken", || two.counts().calls_open == 0);
    assert_eq!(slow.count().wait_for(SOON), Ok(201));
}
