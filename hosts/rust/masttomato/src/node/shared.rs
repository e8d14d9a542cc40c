//! What a node's threads, its handles and its remote objects share: a line of commands, and who is woken.

use super::Run;
use super::ahead::Ahead;
use super::call::CallState;
use super::core::{Core, Done};
use super::desks::Desks;
use super::hold::Hold;
use super::later::Turned;
use crate::engine::Ticket;
use crate::interface::{Description, Exported, Packed};
use crate::space::{Reference, SpaceId};
use mio::Waker;
use std::fmt;
use std::sync::atomic::Ordering::{Relaxed, SeqCst};
use std::sync::atomic::{AtomicBool, AtomicU32, AtomicU64};
use std::sync::{Arc, Condvar, Mutex, MutexGuard, PoisonError, mpsc};
use std::time::{Duration, Instant};

/// Where looking was in vain, it isn't tried for so many times.
pub(crate) const RESTS: u32 = 20;

/// What a node's thread is asked.
pub(crate) enum Command {
    Call {
        ticket: Ticket,
        target: Arc<Hold>,
        method: u16,
        packed: Packed,
        state: Arc<CallState>,
        /// Whether it is made at once or not at all.
        is_try: bool,
    },
    Lookup {
        ticket: Ticket,
        peer: SpaceId,
        name: Vec<u8>,
        wanted: Description,
        state: Arc<CallState>,
    },
    Cast {
        ticket: Ticket,
        hold: Arc<Hold>,
        wanted: Description,
        state: Arc<CallState>,
    },
    /// An object that is called by a reference that was exported ahead.
    Place {
        reference: Reference,
        object: Box<dyn Exported>,
        run: Run,
    },
    Abandon(Ticket),
    /// As `Abandon`, and the object's owner is told.
    Cancel(Ticket),
    Release(Reference),
    Done(Box<Done>),
    /// A method that is async and was woken.
    Turn(Arc<Turned>),
    Ask(Box<dyn FnOnce(&mut Core) + Send>),
    /// The node is to stop, by this time at the latest.
    Stop(Instant),
}

#[derive(Default)]
struct Line {
    commands: Vec<Command>,
    is_closed: bool,
}

/// What stands apart in memory, so that threads that write it don't take what is beside it from those that look at that.
#[derive(Default)]
#[repr(align(128))]
struct Apart<T>(T);

/// What the node's thread looks at, and what wakes it.
struct Bell {
    has_commands: AtomicBool,
    sleeps: AtomicBool,
    waker: Waker,
}

/// Who looks for answers, or may.
#[derive(Default)]
struct Lookers {
    rests: AtomicU32,
    is_looked_for: AtomicBool,
}

/// Threads that sleep though their answers have come. Who looks rouses them in place of the node's thread, which does it in the
/// end, and never sleeps before.
#[derive(Default)]
struct Left {
    all: Mutex<Vec<Arc<CallState>>>,
    has_some: AtomicBool,
}

/// What all that belongs to a node shares.
pub struct Shared {
    id: SpaceId,
    looks: Duration,
    line: Apart<Mutex<Line>>,
    bell: Apart<Bell>,
    tickets: Apart<AtomicU64>,
    lookers: Apart<Lookers>,
    left: Apart<Left>,
    stopped: Mutex<bool>,
    stops: Condvar,
    desks: Desks,
    ahead: Ahead,
}

impl fmt::Debug for Shared {
    fn fmt(&self, f: &mut fmt::Formatter<'_>) -> fmt::Result {
        write!(f, "Shared({})", self.id)
    }
}

type Locked<'a, T> = MutexGuard<'a, T>;

fn unpoisoned<'a, T>(locked: Result<Locked<'a, T>, PoisonError<Locked<'a, T>>>) -> Locked<'a, T> {
    locked.unwrap_or_else(PoisonError::into_inner)
}

impl Shared {
    pub(crate) fn new(id: SpaceId, waker: Waker, looks: Duration) -> Arc<Shared> {
        Arc::new(Shared {
            id,
            looks,
            line: Apart::default(),
            bell: Apart(Bell {
                has_commands: AtomicBool::new(false),
                sleeps: AtomicBool::new(false),
                waker,
            }),
            tickets: Apart(AtomicU64::new(1)),
            lookers: Apart::default(),
            left: Apart::default(),
            stopped: Mutex::new(false),
            stops: Condvar::new(),
            desks: Desks::default(),
            ahead: Ahead::default(),
        })
    }

    pub(crate) fn id(&self) -> SpaceId {
        self.id
    }

    pub(crate) fn desks(&self) -> &Desks {
        &self.desks
    }

    pub(crate) fn ahead(&self) -> &Ahead {
        &self.ahead
    }

    pub(crate) fn looks(&self) -> Duration {
        self.looks
    }

    /// How long whoever waits for an answer may look before it sleeps: not where another does, nor for
    /// some times after that was in vain.
    pub(crate) fn begin_look(&self) -> Option<Duration> {
        let rest = |rests: u32| rests.checked_sub(1);
        if self.looks.is_zero() || self.lookers.0.rests.fetch_update(Relaxed, Relaxed, rest).is_ok()
        {
            return None;
        }
        (!self.lookers.0.is_looked_for.swap(true, Relaxed)).then_some(self.looks)
    }

    /// Who looked has ended: whether that was in vain.
    pub(crate) fn end_look(&self, found: bool) {
        self.lookers.0.is_looked_for.store(false, Relaxed);
        if !found {
            self.lookers.0.rests.store(RESTS, Relaxed);
        }
    }

    /// Leaves threads that sleep to be roused by who looks, or is about to since its answer came together with theirs: whether it
    /// was left to that.
    pub(crate) fn leave_asleep(&self, all: &mut Vec<Arc<CallState>>) -> bool {
        let may_look = !self.looks.is_zero() && self.lookers.0.rests.load(Relaxed) == 0;
        let leaves = may_look || self.lookers.0.is_looked_for.load(Relaxed);
        if leaves {
            unpoisoned(self.left.0.all.lock()).append(all);
            self.left.0.has_some.store(true, SeqCst);
        }
        leaves
    }

    /// Whether there are threads to be roused.
    pub(crate) fn has_asleep(&self) -> bool {
        self.left.0.has_some.load(Relaxed)
    }

    /// Rouses threads that were left asleep.
    pub(crate) fn rouse_asleep(&self) {
        if self.left.0.has_some.swap(false, SeqCst) {
            let all = std::mem::take(&mut *unpoisoned(self.left.0.all.lock()));
            all.iter().for_each(|state| state.rouse());
        }
    }

    pub(crate) fn next_ticket(&self) -> Ticket {
        Ticket(self.tickets.0.fetch_add(1, SeqCst))
    }

    /// Whether the command is in the line; it isn't once the node has stopped.
    pub(crate) fn post(&self, command: Command) -> bool {
        let mut line = unpoisoned(self.line.0.lock());
        if line.is_closed {
            drop(line);
            // What is in the command may post when it is dropped, so nothing is locked then.
            drop(command);
            return false;
        }
        line.commands.push(command);
        self.bell.0.has_commands.store(true, SeqCst);
        drop(line);
        if self.bell.0.sleeps.swap(false, SeqCst) {
            // A waker that fails has nobody to wake.
            let _woken = self.bell.0.waker.wake();
        }
        true
    }

    /// Has the node's thread turn, whether it sleeps or is about to: for who left it something elsewhere than in the line.
    pub(crate) fn rouse(&self) {
        let _woken = self.bell.0.waker.wake();
    }

    pub(crate) fn has_commands(&self) -> bool {
        self.bell.0.has_commands.load(SeqCst)
    }

    /// All commands that are in the line, in place of an empty list.
    pub(crate) fn take(&self, into: &mut Vec<Command>) {
        if self.bell.0.has_commands.swap(false, SeqCst) {
            std::mem::swap(&mut unpoisoned(self.line.0.lock()).commands, into);
        }
    }

    /// Whether the node's thread may sleep: whoever posts from now on wakes it.
    pub(crate) fn may_sleep(&self) -> bool {
        self.bell.0.sleeps.store(true, SeqCst);
        let may = !self.has_commands();
        if !may {
            self.bell.0.sleeps.store(false, SeqCst);
        }
        may
    }

    pub(crate) fn awake(&self) {
        self.bell.0.sleeps.store(false, SeqCst);
    }

    /// No command is taken any more: those that were in the line.
    pub(crate) fn close(&self) -> Vec<Command> {
        let mut line = unpoisoned(self.line.0.lock());
        line.is_closed = true;
        std::mem::take(&mut line.commands)
    }

    pub(crate) fn is_closed(&self) -> bool {
        unpoisoned(self.line.0.lock()).is_closed
    }

    /// Asks the node's thread, and waits for what it says: `None` where it has stopped.
    pub(crate) fn ask<T: Send + 'static>(
        &self,
        ask: impl FnOnce(&mut Core) -> T + Send + 'static,
    ) -> Option<T> {
        let (sender, receiver) = mpsc::sync_channel(1);
        let asked = self.post(Command::Ask(Box::new(move |core: &mut Core| {
            // Who asked may have gone.
            let _heard = sender.send(ask(core));
        })));
        if asked { receiver.recv().ok() } else { None }
    }

    /// The node has stopped.
    pub(crate) fn set_stopped(&self) {
        *unpoisoned(self.stopped.lock()) = true;
        self.stops.notify_all();
    }

    pub(crate) fn wait_until_stopped(&self) {
        let mut stopped = unpoisoned(self.stopped.lock());
        while !*stopped {
            stopped = unpoisoned(self.stops.wait(stopped));
        }
    }
}
