//! What each thread of a node does, and what it waits for: written down by itself, and read by whoever asks, also where the node's
//! own thread doesn't answer any more.

use super::call::CallState;
use crate::engine::{Awaited, Doing, Running, ThreadReport};
use std::cell::RefCell;
use std::sync::{Arc, Mutex, MutexGuard, PoisonError};
use std::time::Instant;

thread_local! {
    // The desk of this thread, if it is one of a node's.
    static OWN: RefCell<Option<Arc<Desk>>> = const { RefCell::new(None) };
}

struct State {
    doing: Doing,
    since: Instant,
    waits_for: Option<(Arc<CallState>, Instant)>,
}

/// What one thread does.
pub(crate) struct Desk {
    name: String,
    state: Mutex<State>,
}

impl Desk {
    fn state(&self) -> MutexGuard<'_, State> {
        self.state.lock().unwrap_or_else(PoisonError::into_inner)
    }

    /// From now on it does this.
    pub(crate) fn does(&self, doing: Doing, now: Instant) {
        let mut state = self.state();
        if state.doing != doing {
            (state.doing, state.since) = (doing, now);
        }
    }

    /// It carries out a method.
    pub(crate) fn runs(&self, method: Running, now: Instant) {
        let mut state = self.state();
        (state.doing, state.since) = (Doing::Runs(method), now);
    }

    fn report(&self) -> ThreadReport {
        let state = self.state();
        let waits_for =
            state.waits_for.as_ref().map(|(call, since)| Awaited::new(call.aim(), since.elapsed()));
        let (name, doing, time) = (self.name.clone(), state.doing, state.since.elapsed());
        ThreadReport::new(name, doing, time, waits_for)
    }
}

/// The desks of a node's threads.
#[derive(Default)]
pub(crate) struct Desks(Mutex<Vec<Arc<Desk>>>);

impl Desks {
    /// That of this thread from now on.
    pub(crate) fn open(&self, name: String) -> Arc<Desk> {
        let state = State { doing: Doing::Works, since: Instant::now(), waits_for: None };
        let desk = Arc::new(Desk { name, state: Mutex::new(state) });
        self.0.lock().unwrap_or_else(PoisonError::into_inner).push(desk.clone());
        OWN.with(|own| *own.borrow_mut() = Some(desk.clone()));
        desk
    }

    /// What each of them does, by their names.
    pub(crate) fn report(&self) -> Vec<ThreadReport> {
        let desks = self.0.lock().unwrap_or_else(PoisonError::into_inner).clone();
        let mut all: Vec<ThreadReport> = desks.iter().map(|desk| desk.report()).collect();
        all.sort_by(|one, other| one.name.cmp(&other.name));
        all
    }
}

/// While this is there its thread waits for the answer to a call.
pub(crate) struct Waits(Option<Arc<Desk>>);

impl Waits {
    pub(crate) fn until(call: &Arc<CallState>) -> Waits {
        let desk = OWN.try_with(|own| own.borrow().clone()).ok().flatten();
        if let Some(desk) = &desk {
            desk.state().waits_for = Some((call.clone(), Instant::now()));
        }
        Waits(desk)
    }
}

impl Drop for Waits {
    fn drop(&mut self) {
        if let Some(desk) = &self.0 {
            desk.state().waits_for = None;
        }
    }
}
