//! References that a space has exported ahead of who exports objects, who so needn't wait for the node's thread.

use crate::space::Reference;
use std::collections::VecDeque;
use std::sync::{Mutex, MutexGuard, PoisonError};

/// Of a node that had to be asked so often, so many are ready from then on: the first of these numbers less often is
/// none, and more than the last are never.
const SELDOM: usize = 16;
const MOST: usize = 64;

/// References to objects that aren't there yet, each of which is in the hand.
#[derive(Default)]
pub(crate) struct Ahead(Mutex<VecDeque<Reference>>);

impl Ahead {
    fn all(&self) -> MutexGuard<'_, VecDeque<Reference>> {
        self.0.lock().unwrap_or_else(PoisonError::into_inner)
    }

    /// One for an object, whose node is told next which one that is.
    pub(crate) fn take(&self) -> Option<Reference> {
        self.all().pop_front()
    }
}

/// How many are ready, and are to be, as the node's thread knows.
#[derive(Default)]
pub(crate) struct Reckoning {
    asked: usize,
    ready: usize,
}

impl Reckoning {
    /// The node had to be asked.
    pub(crate) fn was_asked(&mut self) {
        self.asked = MOST.min(self.asked + 1);
    }

    /// An object is there for one that was ready.
    pub(crate) fn is_placed(&mut self) {
        self.ready -= 1;
    }

    /// How many are ready.
    pub(crate) fn ready(&self) -> u64 {
        self.ready as u64
    }

    /// Whether more are to be ready than are.
    pub(crate) fn is_short(&self) -> bool {
        self.asked >= SELDOM && self.ready < self.asked
    }

    /// Has as many ready as are to be. Where no more can be exported it isn't tried again before the node was asked as often anew.
    pub(crate) fn fill(&mut self, ahead: &Ahead, mut export: impl FnMut() -> Option<Reference>) {
        if !self.is_short() {
            return;
        }
        let mut all = ahead.all();
        while self.ready < self.asked {
            let Some(reference) = export() else {
                self.asked = 0;
                return;
            };
            all.push_back(reference);
            self.ready += 1;
        }
    }
}
