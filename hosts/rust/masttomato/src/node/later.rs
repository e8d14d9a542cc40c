//! Methods that are async: futures that have their objects, and who turns them.

use super::core::{Done, End};
use super::hold::Hold;
use super::pool::Pool;
use super::shared::{Command, Shared};
use crate::interface::{Exported, Served};
use std::future::Future;
use std::panic::{AssertUnwindSafe, catch_unwind};
use std::pin::Pin;
use std::sync::atomic::{AtomicU8, Ordering::SeqCst};
use std::sync::{Arc, Mutex, PoisonError};
use std::task::{Context, Poll, Wake, Waker};

/// Runs futures: what a node gives its objects' async methods to, in place of turning them itself. A
/// function that takes a future is one.
///
/// ```
/// use masttomato::{Node, Peers, SpaceId};
/// use std::pin::Pin;
///
/// # fn main() -> Result<(), Box<dyn std::error::Error>> {
/// // With tokio: move |future| drop(handle.spawn(future)), of a Handle::current().
/// let spawner = |future: Pin<Box<dyn Future<Output = ()> + Send>>| {
///     let _thread = std::thread::spawn(|| my_executor::block_on(future));
/// };
/// let node = Node::builder(SpaceId::new(1).ok_or("1 to 32")?, Peers::none()).spawner(spawner).start()?;
/// # Ok(())
/// # }
/// # mod my_executor { pub fn block_on(future: impl Future) { drop(future) } }
/// ```
#[diagnostic::on_unimplemented(
    message = "`{Self}` runs no futures",
    label = "a function that takes one does: move |future| drop(handle.spawn(future))"
)]
pub trait Spawn: Send + Sync + 'static {
    /// Runs a future to its end, on any thread; it is called on the node's own, which it mustn't hold up. Of
    /// one that is dropped before its end the object is gone: it is as if its method had panicked.
    ///
    /// ```
    /// use masttomato::Spawn;
    /// use std::pin::Pin;
    ///
    /// /// Runs each future by a thread of its own.
    /// struct Threads;
    ///
    /// impl Spawn for Threads {
    ///     fn spawn(&self, future: Pin<Box<dyn Future<Output = ()> + Send>>) {
    ///         let _thread = std::thread::spawn(|| my_executor::block_on(future));
    ///     }
    /// }
    /// # mod my_executor { pub fn block_on(future: impl Future) { drop(future) } }
    /// ```
    fn spawn(&self, future: Pin<Box<dyn Future<Output = ()> + Send>>);
}

impl<F: Fn(Pin<Box<dyn Future<Output = ()> + Send>>) + Send + Sync + 'static> Spawn for F {
    fn spawn(&self, future: Pin<Box<dyn Future<Output = ()> + Send>>) {
        self(future);
    }
}

type Method = Pin<Box<dyn Future<Output = (Box<dyn Exported>, Served)> + Send>>;

/// What is to be told once a method has ended.
struct Ends {
    index: u64,
    loans: Vec<Arc<Hold>>,
    end: End,
}

/// A method that is async, with its object. Its node hears of its end, also where it panics or is dropped
/// before.
pub(crate) struct Later {
    method: Option<Method>,
    ends: Option<Ends>,
    shared: Arc<Shared>,
}

impl Later {
    pub(crate) fn new(
        shared: &Arc<Shared>,
        method: Method,
        index: u64,
        loans: Vec<Arc<Hold>>,
        end: End,
    ) -> Later {
        let ends = Some(Ends { index, loans, end });
        Later { method: Some(method), ends, shared: shared.clone() }
    }

    // The method is dropped first, since what it holds is looked at when its job ends.
    fn end(&mut self, object: Option<Box<dyn Exported>>, served: Served) {
        let method = self.method.take();
        let _dropped = catch_unwind(AssertUnwindSafe(|| drop(method)));
        if let Some(Ends { index, loans, end }) = self.ends.take() {
            let done = Done { index, object, served, loans, end };
            self.shared.post(Command::Done(Box::new(done)));
        }
    }
}

impl Future for Later {
    type Output = ();

    fn poll(mut self: Pin<&mut Self>, context: &mut Context<'_>) -> Poll<()> {
        let Some(method) = &mut self.method else { return Poll::Ready(()) };
        match catch_unwind(AssertUnwindSafe(|| method.as_mut().poll(context))) {
            Ok(Poll::Pending) => return Poll::Pending,
            Ok(Poll::Ready((object, served))) => self.end(Some(object), served),
            Err(_) => self.end(None, Served::Panicked),
        }
        Poll::Ready(())
    }
}

impl Drop for Later {
    fn drop(&mut self) {
        self.end(None, Served::Panicked);
    }
}

/// Who turns a method that is async and that no spawner was given.
pub(crate) enum Turner {
    Workers(Arc<Pool>),
    Thread(Arc<Shared>),
}

/// It sleeps; it is in line; it is turned; and it is, and was woken meanwhile.
const SLEEPS: u8 = 0;
const IN_LINE: u8 = 1;
const TURNS: u8 = 2;
const WOKEN: u8 = 3;

/// A method that is async, in line again each time that it is woken.
pub(crate) struct Turned {
    later: Mutex<Option<Later>>,
    state: AtomicU8,
    turner: Turner,
}

impl Turned {
    /// One that is in line from the beginning.
    pub(crate) fn begin(later: Later, turner: Turner) {
        let (later, state) = (Mutex::new(Some(later)), AtomicU8::new(IN_LINE));
        Arc::new(Turned { later, state, turner }).stand_in_line();
    }

    fn stand_in_line(self: Arc<Turned>) {
        match &self.turner {
            Turner::Workers(pool) => pool.turn(self.clone()),
            Turner::Thread(shared) => drop(shared.post(Command::Turn(self.clone()))),
        }
    }

    /// One turn. Who turned it to its end drops it.
    pub(crate) fn turn(self: Arc<Turned>) {
        self.state.store(TURNS, SeqCst);
        let waker = Waker::from(self.clone());
        let mut later = self.later.lock().unwrap_or_else(PoisonError::into_inner);
        let poll = |later: &mut Later| Pin::new(later).poll(&mut Context::from_waker(&waker));
        let is_done = later.as_mut().is_none_or(|later| poll(later).is_ready());
        let ended = if is_done { later.take() } else { None };
        drop(later);
        drop(ended);
        let sleeps = self.state.compare_exchange(TURNS, SLEEPS, SeqCst, SeqCst).is_ok();
        if !is_done && !sleeps {
            self.state.store(IN_LINE, SeqCst);
            self.stand_in_line();
        }
    }
}

impl Wake for Turned {
    fn wake(self: Arc<Turned>) {
        let woken = |state| match state {
            SLEEPS => Some(IN_LINE),
            TURNS => Some(WOKEN),
            _ => None,
        };
        if self.state.fetch_update(SeqCst, SeqCst, woken) == Ok(SLEEPS) {
            self.stand_in_line();
        }
    }
}
