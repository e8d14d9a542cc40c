//! Lives: a peer that comes back under its number, or this space that does.
//!
//! Neither end knows in which session the other one's is. So whoever began a life calls the other, in its own session. The end
//! whose session is lower closes, by what it hears, and is opened again by its engine, in the higher number; then it calls in
//! turn, so that the other hears of that. Nothing is asked of the program meanwhile: what it had of an earlier life is lost.

use super::link::Renewal;
use super::{Engine, Life, Ticket};
use crate::space::{Reason, SpaceError, SpaceId, Value};
use std::time::Duration;

/// The agent's method that says nothing and is answered by nothing: see the README, "On the wire".
pub(crate) const GREET: u16 = 19;
/// The ticket of calls that nobody waits for. No program has it, since theirs rise from 1.
const NOBODY: Ticket = Ticket(u64::MAX);

impl Engine {
    // The first life of a peer that is heard of. Where it, or this one, isn't the first of its number, the ends may be in
    // different sessions.
    pub(super) fn meet(&mut self, peer: SpaceId, life: Life) {
        let own = self.space.bounds().map_or(0, |bounds| bounds.life());
        let Some(link) = self.links.get_mut(peer).filter(|link| link.is_open()) else { return };
        if own > 1 || life.number > 1 {
            link.renewal = Renewal::Meets;
            link.greets = own > 1;
            self.has_renewals = true;
        }
    }

    // A new life of a peer is heard of: the session with the old one closes at once. It isn't opened again where the
    // program had closed it.
    pub(super) fn renew(&mut self, peer: SpaceId) {
        self.counts.renewals += 1;
        let Some(link) = self.links.get_mut(peer) else { return };
        let was_closed_here = link.session == super::Session::Closed(Reason::Asked);
        link.refused = None;
        link.renewal = match was_closed_here {
            true => Renewal::No,
            false => Renewal::Closed { is_heard: false },
        };
        self.has_renewals = true;
        if self.space.close(peer).is_ok() {
            self.closed(peer, Reason::PeerClosed);
        }
        self.turn.renewed.push(peer);
    }

    // Whether the session with a peer has closed and is opened again by itself.
    pub(super) fn renews(&self, peer: SpaceId) -> bool {
        let link = self.links.get(peer);
        link.is_some_and(|link| matches!(link.renewal, Renewal::Closed { .. }))
    }

    // Opens what is to be opened, and calls who is to be called.
    pub(super) fn go_on_renewing(&mut self, now: Duration) {
        self.has_renewals = false;
        for peer in self.peers.clone().iter().copied() {
            let Some(link) = self.links.get(peer) else { continue };
            if link.renewal == (Renewal::Closed { is_heard: true }) {
                self.reopen(peer, now);
            }
            self.greet(peer);
        }
    }

    fn reopen(&mut self, peer: SpaceId, now: Duration) {
        match self.open(peer, now) {
            Ok(_) => self.has_held = true,
            // Something of the old life is still lent to a method, or on its way to a third space.
            Err(_) => self.has_renewals = true,
        }
    }

    fn greet(&mut self, peer: SpaceId) {
        let Some(link) = self.links.get_mut(peer).filter(|link| link.greets) else { return };
        if !link.is_open() {
            return;
        }
        match self.space.call(peer.agent(), GREET, &Value::Unit) {
            Ok(number) => {
                link.greets = false;
                self.counts.calls_made += 1;
                self.calls.insert(number, (NOBODY, peer));
            }
            Err(SpaceError::NotCovered) => self.counts.not_covered += 1,
            Err(_) => self.has_renewals = true,
        }
    }
}
