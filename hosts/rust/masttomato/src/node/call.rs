//! Calls that are waited for, or not.

use super::cancel::Cancel;
use super::desks::Waits;
use super::driver::driving;
use super::shared::{Command, Shared};
use super::spans::CallSpan;
use crate::engine::{Ticket, Why};
use crate::interface::Packed;
use crate::pass::Pass;
use crate::space::{CallNo, Reason, Reference, SpaceId, Value};
use std::cell::Cell;
use std::fmt;
use std::future::Future;
use std::hint;
use std::marker::PhantomData;
use std::pin::Pin;
use std::sync::atomic::{AtomicBool, AtomicU64, Ordering};
use std::sync::{Arc, Condvar, Mutex, MutexGuard};
use std::task::{Context, Poll, Waker};
use std::time::{Duration, Instant};

/// A fault that a node answered in a method's place, or that a method of another kind of program did. What a
/// method itself has to say of its failing is in its answer, a `Result`.
///
/// ```
/// # use masttomato::*;
/// # #[interface]
/// # pub trait Bell { fn ring(&mut self) -> String; }
/// # struct Brass;
/// # impl Bell for Brass { fn ring(&mut self) -> String { "ding".into() } }
/// # let [one, two] = [1, 2].map(|number| SpaceId::new(number).expect("1 to 32"));
/// # let node = Node::builder(one, Peers::none()).spaces(two).start()?;
/// let missing = node.lookup::<dyn Bell>(one, "bell").wait();
/// assert_eq!(missing.unwrap_err(), CallError::Fault(Fault::NoName));
/// assert_eq!(Fault::NoName.to_string(), "no object has that name");
/// # Ok::<(), Box<dyn std::error::Error>>(())
/// ```
#[derive(Clone, Debug, PartialEq, Eq, Hash)]
#[non_exhaustive]
pub enum Fault {
    /// The method takes other arguments.
    BadArguments,
    /// The method panicked, now or in an earlier call, or it was async and whoever ran it dropped it: its
    /// object answers nothing any more.
    Panicked,
    /// The answer was too large.
    TooLarge,
    /// The answer had a reference that was lost.
    Lost,
    /// Whoever called cancelled it before the method began.
    Cancelled,
    /// No object has that name.
    NoName,
    /// The object has another interface, or another version of it.
    OtherInterface,
    /// Any other.
    Other(Value),
}

impl fmt::Display for Fault {
    fn fmt(&self, f: &mut fmt::Formatter<'_>) -> fmt::Result {
        match self {
            Fault::BadArguments => f.write_str("the method takes other arguments"),
            Fault::Panicked => f.write_str("the method panicked"),
            Fault::TooLarge => f.write_str("the answer was too large"),
            Fault::Lost => f.write_str("the answer had a reference that was lost"),
            Fault::Cancelled => f.write_str("the call was cancelled before the method began"),
            Fault::NoName => f.write_str("no object has that name"),
            Fault::OtherInterface => f.write_str("the object has another interface"),
            Fault::Other(value) => write!(f, "the method failed with {value}"),
        }
    }
}

impl std::error::Error for Fault {}

/// Why a call has no answer.
///
/// ```
/// use masttomato::{CallError, Fault};
///
/// // Whether it is worth to call again. Of `Ended` and `TimedOut` it isn't known whether the method ran.
/// fn is_to_be_tried_again(error: &CallError) -> bool {
///     match error {
///         CallError::Busy => true,
///         CallError::Fault(Fault::NoName) => true,      // nothing is bound to that name yet
///         _ => false,
///     }
/// }
/// assert!(is_to_be_tried_again(&CallError::Busy));
/// ```
#[derive(Clone, Debug, PartialEq, Eq, Hash)]
#[non_exhaustive]
pub enum CallError {
    /// It wasn't made: the session with the object's owner has closed, or never was.
    Down(SpaceId),
    /// It wasn't made, and none will be: that space and this one never connect, and why.
    Refused(SpaceId, Why),
    /// It wasn't made: its arguments have more than 16,000 bytes, 32 references, 256 elements in a list
    /// or 16 levels.
    TooLarge,
    /// It wasn't made, since it was a `try_` call: as many calls are open as may be, or the owner of the
    /// object has too much to acknowledge.
    Busy,
    /// It was made, and the session closed before a reply came: whether it ran isn't known.
    Ended(Reason),
    /// It was made, or will be, and goes on; its answer will be thrown away.
    TimedOut,
    /// The object has no such method.
    NoMethod,
    /// A reference among its arguments was lost, since its owner has gone.
    Lost,
    /// It wasn't made: the bounds of the node's life can't be written, so it can have no number. See
    /// [`Bounds`](crate::space::Bounds).
    NotCovered,
    /// A reference among its arguments is another node's of this process.
    OtherNode,
    /// The method, or the node in its place, answered a fault.
    Fault(Fault),
    /// What was answered isn't of the type that is wanted.
    BadAnswer,
    /// The node has stopped.
    NodeStopped,
}

impl fmt::Display for CallError {
    fn fmt(&self, f: &mut fmt::Formatter<'_>) -> fmt::Result {
        match self {
            CallError::Down(space) => write!(f, "there is no session with space {space}"),
            CallError::Refused(space, why) => {
                write!(
                    f,
                    "space {space} and this one don't connect. Of the one that was refused: {why}"
                )
            }
            CallError::Busy => f.write_str("there is no room for the call at once"),
            CallError::TooLarge => f.write_str("the arguments are too large"),
            CallError::Ended(reason) => {
                write!(f, "the session closed before a reply came, for reason {reason}")
            }
            CallError::TimedOut => f.write_str("no reply came in time"),
            CallError::NoMethod => f.write_str("the object has no such method"),
            CallError::Lost => f.write_str("a reference among the arguments was lost"),
            CallError::NotCovered => f.write_str("the bounds of the node's life can't be written"),
            CallError::OtherNode => {
                f.write_str("a reference among the arguments is another node's")
            }
            CallError::Fault(fault) => fault.fmt(f),
            CallError::BadAnswer => f.write_str("the answer isn't of the type that is wanted"),
            CallError::NodeStopped => f.write_str("the node has stopped"),
        }
    }
}

// Its sentence has what the fault, or the refusal, says: so that is no source of it.
impl std::error::Error for CallError {}

/// So many times it is looked for an answer between two looks at the time.
const LOOKS_A_TIME: usize = 32;

/// Who rouses others while it looks does so for so many times as long at most.
const MOST_LOOKS: u32 = 8;

/// What a call came to, before it is known of which type the answer is to be.
pub(crate) type Completed = Result<Packed, CallError>;

/// What is called, and by which method. A name that is looked up in another way is still the same call.
pub(crate) type Aim = (Reference, u16);

#[derive(Debug, Default)]
struct Slot {
    completed: Option<Completed>,
    waker: Option<Waker>,
    // Somebody sleeps until it is completed: waking nobody would cost a call of the system too.
    sleeps: bool,
}

/// Who waits for an answer that has come, and is to be roused. That takes the system's time, so it is done once what is to be
/// written has been.
#[derive(Debug)]
pub(crate) enum Rouse {
    Task(Waker),
    /// A thread that sleeps.
    Thread(Arc<CallState>),
}

impl Rouse {
    pub(crate) fn rouse(self) {
        match self {
            Rouse::Task(waker) => waker.wake(),
            Rouse::Thread(state) => state.rouse(),
        }
    }
}

/// Where a call's answer is put.
#[derive(Debug, Default)]
pub(crate) struct CallState {
    slot: Mutex<Slot>,
    ready: Condvar,
    is_done: AtomicBool,
    number: AtomicU64,
    // Of a call of an own object: whether it was cancelled.
    cancel: Cancel,
    span: CallSpan,
    // What is called, and by which method.
    aim: Option<Aim>,
}

impl CallState {
    fn slot(&self) -> MutexGuard<'_, Slot> {
        self.slot.lock().unwrap_or_else(|poisoned| poisoned.into_inner())
    }

    /// Puts the answer there: who is to be woken, once nothing of the node is locked any more.
    pub(crate) fn complete(self: &Arc<CallState>, completed: Completed) -> Option<Rouse> {
        self.span.completed(&completed);
        let mut slot = self.slot();
        slot.completed = Some(completed);
        self.is_done.store(true, Ordering::Release);
        match slot.waker.take() {
            Some(waker) => Some(Rouse::Task(waker)),
            None => slot.sleeps.then(|| Rouse::Thread(self.clone())),
        }
    }

    // What came of it, where that is there and wasn't taken.
    fn take_completed(&self) -> Option<Completed> {
        if self.is_done.load(Ordering::Acquire) { self.slot().completed.take() } else { None }
    }

    /// Rouses the thread that sleeps until the answer comes.
    pub(crate) fn rouse(&self) {
        self.ready.notify_one();
    }

    pub(crate) fn cancel(&self) -> &Cancel {
        &self.cancel
    }

    pub(crate) fn set_number(&self, number: CallNo) {
        self.number.store(number.get(), Ordering::Relaxed);
        self.span.is_made(number);
    }

    /// What is called.
    pub(crate) fn calls(&self, target: Reference, method: u16) {
        self.span.calls(target, method);
    }

    pub(crate) fn aim(&self) -> Option<Aim> {
        self.aim
    }
}

/// A call that was asked for: a future, and something to wait for. Dropping it means that nobody waits
/// any more; a call that was made goes on, and its node takes what it brings and gives it back.
///
/// ```
/// # use masttomato::{interface, Node, Peers, SpaceId};
/// # use std::time::Duration;
/// # #[interface]
/// # pub trait Bell { fn ring(&mut self) -> String; }
/// # struct Brass;
/// # impl Bell for Brass { fn ring(&mut self) -> String { "ding".into() } }
/// # fn main() -> Result<(), Box<dyn std::error::Error>> {
/// # let node = Node::builder(SpaceId::new(1).ok_or("1 to 32")?, Peers::none()).start()?;
/// # let bell = node.export::<dyn Bell>(Box::new(Brass))?;
/// let first = bell.ring();                                  // both are made now,
/// let second = bell.ring();
/// assert_eq!(second.wait()?, "ding");                       // and waited for in any order
/// assert_eq!(first.wait_for(Duration::from_secs(5))?, "ding");
/// # Ok(())
/// # }
/// ```
#[must_use = "a call that is dropped goes on, but nobody has its answer"]
pub struct Call<T> {
    shared: Arc<Shared>,
    ticket: Ticket,
    state: Arc<CallState>,
    is_taken: bool,
    is_cancelled: bool,
    answer: PhantomData<fn() -> T>,
}

impl<T> fmt::Debug for Call<T> {
    fn fmt(&self, f: &mut fmt::Formatter<'_>) -> fmt::Result {
        write!(f, "Call({})", self.ticket.0)
    }
}

impl<T> Call<T> {
    pub(crate) fn posted(
        shared: &Arc<Shared>,
        aim: Aim,
        command: impl FnOnce(Ticket, Arc<CallState>) -> Command,
    ) -> Call<T> {
        let state = Arc::new(CallState { aim: Some(aim), ..CallState::default() });
        let ticket = shared.next_ticket();
        let call = Call {
            shared: shared.clone(),
            ticket,
            state: state.clone(),
            is_taken: false,
            is_cancelled: false,
            answer: PhantomData,
        };
        if !shared.post(command(ticket, state)) {
            call.state.complete(Err(CallError::NodeStopped));
        }
        call
    }

    /// One that isn't made.
    pub(crate) fn unmade(shared: &Arc<Shared>, why: CallError) -> Call<T> {
        let state = Arc::new(CallState::default());
        state.complete(Err(why));
        Call {
            shared: shared.clone(),
            ticket: shared.next_ticket(),
            state,
            is_taken: false,
            is_cancelled: false,
            answer: PhantomData,
        }
    }

    /// The number of the call among those of this space, as the trace has it, once it was made. A call
    /// of an own object has none.
    ///
    /// ```
    /// # use masttomato::{interface, Node, Peers, SpaceId};
    /// # #[interface]
    /// # pub trait Bell { fn ring(&mut self); }
    /// # struct Brass;
    /// # impl Bell for Brass { fn ring(&mut self) {} }
    /// # fn main() -> Result<(), Box<dyn std::error::Error>> {
    /// # let node = Node::builder(SpaceId::try_from(1)?, Peers::none()).start()?;
    /// # let bell = node.export::<dyn Bell>(Box::new(Brass))?;
    /// let call = bell.ring();
    /// assert_eq!(call.number(), None);
    /// # Ok(call.wait()?)
    /// # }
    /// ```
    pub fn number(&self) -> Option<CallNo> {
        match self.state.number.load(Ordering::Relaxed) {
            0 => None,
            number => Some(CallNo::new(number)),
        }
    }

    /// The same call, which is cancelled where it is dropped, or waited for in vain: one that wasn't made never
    /// is; of one that was, the node of the object is told. A method that hasn't begun never does, and one
    /// that runs can [see it](super::Context::is_cancelled). What it answers is thrown away.
    ///
    /// ```
    /// # use masttomato::{interface, CallError, Node, Peers, SpaceId};
    /// # use std::time::Duration;
    /// # #[interface]
    /// # pub trait Mill { fn grind(&mut self, corn: u32) -> u32; }
    /// # struct Stone;
    /// # impl Mill for Stone { fn grind(&mut self, corn: u32) -> u32 { corn } }
    /// # fn main() -> Result<(), Box<dyn std::error::Error>> {
    /// # let node = Node::builder(SpaceId::new(1).ok_or("1 to 32")?, Peers::none()).start()?;
    /// # let mill = node.export::<dyn Mill>(Box::new(Stone))?;
    /// match mill.grind(7).or_cancel().wait_for(Duration::from_secs(5)) {
    ///     Err(CallError::TimedOut) => println!("and it isn't carried out any more, as far as that goes"),
    ///     flour => assert_eq!(flour?, 7),
    /// }
    /// # Ok(())
    /// # }
    /// ```
    pub fn or_cancel(mut self) -> Call<T> {
        self.is_cancelled = true;
        self
    }

    /// Nobody wants the answer, or the call itself, any more: [`or_cancel`](Call::or_cancel), and dropped.
    ///
    /// ```
    /// # use masttomato::*;
    /// # #[interface]
    /// # pub trait Bell { fn ring(&mut self) -> String; }
    /// # struct Brass;
    /// # impl Bell for Brass { fn ring(&mut self) -> String { "ding".into() } }
    /// # let [one, two] = [1, 2].map(|number| SpaceId::new(number).expect("1 to 32"));
    /// # let node = Node::builder(one, Peers::none()).spaces(two).start()?;
    /// let bell = node.export::<dyn Bell>(Box::new(Brass))?;
    /// bell.ring().cancel();
    /// # Ok::<(), Box<dyn std::error::Error>>(())
    /// ```
    pub fn cancel(self) {
        drop(self.or_cancel());
    }
}

impl<T: Pass> Call<T> {
    /// Waits for the answer.
    ///
    /// ```
    /// # use masttomato::*;
    /// # #[interface]
    /// # pub trait Bell { fn ring(&mut self) -> String; }
    /// # struct Brass;
    /// # impl Bell for Brass { fn ring(&mut self) -> String { "ding".into() } }
    /// # let [one, two] = [1, 2].map(|number| SpaceId::new(number).expect("1 to 32"));
    /// # let node = Node::builder(one, Peers::none()).spaces(two).start()?;
    /// let bell = node.export::<dyn Bell>(Box::new(Brass))?;
    /// let [first, second] = [bell.ring(), bell.ring()];          // both are on their way
    /// assert_eq!((first.wait()?, second.wait()?), ("ding".into(), "ding".into()));
    /// # Ok::<(), Box<dyn std::error::Error>>(())
    /// ```
    ///
    /// # Errors
    /// Why there is none.
    pub fn wait(mut self) -> Result<T, CallError> {
        self.wait_until(None)
    }

    /// Waits for the answer for so long.
    ///
    /// ```
    /// # use masttomato::{interface, CallError, Node, Peers, SpaceId};
    /// # use std::{thread, time::Duration};
    /// # #[interface]
    /// # pub trait Bell { fn ring(&mut self); }
    /// # struct Slow;
    /// impl Bell for Slow {
    ///     fn ring(&mut self) {
    ///         thread::sleep(Duration::from_millis(20));
    ///     }
    /// }
    /// # fn main() -> Result<(), Box<dyn std::error::Error>> {
    /// # let node = Node::builder(SpaceId::try_from(1)?, Peers::none()).start()?;
    /// # let bell = node.export::<dyn Bell>(Box::new(Slow))?;
    /// assert_eq!(bell.ring().wait_for(Duration::ZERO), Err(CallError::TimedOut));
    /// bell.ring().wait()?;
    /// # Ok(())
    /// # }
    /// ```
    ///
    /// # Errors
    /// Why there is none; `TimedOut` where it may still come.
    pub fn wait_for(mut self, limit: Duration) -> Result<T, CallError> {
        self.wait_until(Instant::now().checked_add(limit))
    }

    fn wait_until(&mut self, end: Option<Instant>) -> Result<T, CallError> {
        let completed = match driving(&self.shared) {
            Some(driver) => driver.turn_until(end, || self.state.take_completed()),
            None => self.sleep_until(end),
        };
        self.taken(completed.unwrap_or(Err(CallError::TimedOut)))
    }

    // Looks, since a reply comes soon or late; then sleeps.
    fn sleep_until(&self, end: Option<Instant>) -> Option<Completed> {
        self.look();
        let _waits = Waits::until(&self.state);
        let mut slot = self.state.slot();
        loop {
            if let Some(completed) = slot.completed.take() {
                return Some(completed);
            }
            slot.sleeps = true;
            let unpoisoned = |slot| match slot {
                Ok(slot) => slot,
                Err(poisoned) => std::sync::PoisonError::into_inner(poisoned),
            };
            slot = match end {
                None => unpoisoned(self.state.ready.wait(slot)),
                Some(end) => {
                    let left = end.checked_duration_since(Instant::now())?;
                    match self.state.ready.wait_timeout(slot, left) {
                        Ok((slot, _)) => slot,
                        Err(poisoned) => poisoned.into_inner().0,
                    }
                }
            };
        }
    }

    // Looks for a while whether the answer has come, if nobody else does: others would only take the
    // processors from those who bring it. Meanwhile it rouses others whose answers have come; the more there are, the longer it
    // looks, since then its own is likely to come soon as well.
    fn look(&self) {
        let is_done = || self.state.is_done.load(Ordering::Acquire);
        if is_done() {
            return;
        }
        let Some(looks) = self.shared.begin_look() else { return };
        let (since, times) = (Instant::now(), Cell::new(1));
        let is_found = || {
            hint::spin_loop();
            if self.shared.has_asleep() {
                self.shared.rouse_asleep();
                times.set(MOST_LOOKS.min(times.get() + 1));
            }
            is_done()
        };
        while !(0..LOOKS_A_TIME).any(|_| is_found()) && since.elapsed() < looks * times.get() {}
        self.shared.end_look(is_done());
    }

    fn taken(&mut self, completed: Completed) -> Result<T, CallError> {
        self.is_taken = !matches!(completed, Err(CallError::TimedOut));
        completed?.unpack(&self.shared).ok_or(CallError::BadAnswer)
    }
}

impl<T: Pass> Future for Call<T> {
    type Output = Result<T, CallError>;

    fn poll(mut self: Pin<&mut Self>, context: &mut Context<'_>) -> Poll<Self::Output> {
        let mut slot = self.state.slot();
        let Some(completed) = slot.completed.take() else {
            slot.waker = Some(context.waker().clone());
            return Poll::Pending;
        };
        drop(slot);
        Poll::Ready(self.taken(completed))
    }
}

impl<T> Drop for Call<T> {
    fn drop(&mut self) {
        if self.is_taken {
            return;
        }
        if self.is_cancelled {
            self.state.cancel.set().into_iter().for_each(Waker::wake);
            self.shared.post(Command::Cancel(self.ticket));
        } else {
            self.shared.post(Command::Abandon(self.ticket));
        }
    }
}
