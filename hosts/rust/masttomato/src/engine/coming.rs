//! What comes over connections: records, frames, and the items in them.

use super::link::Renewal;
use super::wire::{self, ItemKind, Kind, Seen};
use super::{Answered, Engine, MOST_UNANSWERED, Misbehaved, STUCK, Session};
use crate::space::{
    ActResult, ArriveError, Arrived, CallNo, CallResult, Reason, Refusal, SpaceError, SpaceId,
};
use std::time::Duration;

impl Engine {
    /// A piece of what came over the connection of a peer, cut anywhere.
    ///
    /// ```
    /// # use masttomato::engine::*;
    /// # use masttomato::space::{Outcome, Status};
    /// # use masttomato::{SpaceId, Value};
    /// # use std::time::Duration;
    /// # fn carry(from: &mut Engine, to: &mut Engine) -> Vec<masttomato::space::Job> {
    /// #     let (one, two, now) = (from.id(), to.id(), Duration::ZERO);
    /// #     let _turn = from.turn(now);
    /// #     to.bytes(one, from.output(two).left(), now).expect("an honest peer");
    /// #     from.output(two).advance(usize::MAX);
    /// #     to.turn(now).jobs
    /// # }
    /// # let [one, two] = [1, 2].map(|number| SpaceId::new(number).expect("1 to 32"));
    /// # let now = Duration::ZERO;
    /// # let mut owner = Engine::new(Settings::new(one, two), now)?;
    /// # let mut caller = Engine::new(Settings::new(two, two), now)?;
    /// # owner.connected(two, Life::only(12), now)?;
    /// # caller.connected(one, Life::only(11), now)?;
    /// caller.call(Ticket(7), one.agent(), 0, Value::Unit);
    /// let _turn = caller.turn(now);
    /// for byte in caller.output(one).left() {
    ///     owner.bytes(two, &[*byte], now)?;                        // cut anywhere
    /// }
    /// assert_eq!(owner.turn(now).jobs.len(), 1);
    /// # Ok::<(), Box<dyn std::error::Error>>(())
    /// ```
    ///
    /// # Errors
    /// What the peer did that no honest one does: its connection is to be dropped. Nothing of the
    /// record in which it did so has come to the space.
    pub fn bytes(&mut self, peer: SpaceId, piece: &[u8], now: Duration) -> Result<(), Misbehaved> {
        let Some(link) = self.links.get_mut(peer).filter(|link| link.is_up) else { return Ok(()) };
        link.heard = now;
        link.pinged = None;
        self.counts.bytes_in += piece.len() as u64;
        // What was left of the pieces before stands in front. Most pieces are whole records.
        let mut kept = std::mem::take(&mut link.input);
        let done = if kept.is_empty() {
            self.records(peer, piece, now).inspect(|taken| kept.extend(&piece[*taken..]))
        } else {
            kept.extend(piece);
            self.records(peer, &kept, now).inspect(|taken| drop(kept.drain(..*taken)))
        };
        if let Some(link) = self.links.get_mut(peer) {
            link.input = kept;
        }
        if done.is_err() {
            self.counts.misbehaved += 1;
        }
        done.map(drop)
    }

    // Takes the whole records at the front: how long they are.
    fn records(&mut self, peer: SpaceId, bytes: &[u8], now: Duration) -> Result<usize, Misbehaved> {
        let mut taken = 0;
        while let Some((kind, stamp, length)) = wire::head_of(&bytes[taken..])? {
            let start = taken + wire::HEAD;
            let Some(body) = bytes.get(start..start + length) else { break };
            self.record_of(peer, kind, stamp, body, now)?;
            taken = start + length;
        }
        Ok(taken)
    }

    fn record_of(
        &mut self,
        peer: SpaceId,
        kind: Kind,
        stamp: u64,
        body: &[u8],
        now: Duration,
    ) -> Result<(), Misbehaved> {
        match kind {
            Kind::Frames => {
                wire::check_frames(body, peer, self.space.id())?;
                self.space.rise_to(stamp);
                let arrived = self.arrive_all(peer, body, now);
                self.act(peer, now);
                arrived
            }
            Kind::Ping => {
                if let Some(link) = self.links.get_mut(peer) {
                    link.owes_pong = true;
                }
                Ok(())
            }
            Kind::Pong => Ok(()),
            Kind::Bye => {
                if self.space.close(peer).is_ok() {
                    self.closed(peer, Reason::PeerClosed);
                }
                Ok(())
            }
        }
    }

    fn arrive_all(&mut self, peer: SpaceId, body: &[u8], now: Duration) -> Result<(), Misbehaved> {
        for seen in wire::frames_of(body) {
            self.counts.frames_in += 1;
            self.arrive(peer, &seen, now)?;
        }
        if let Some(link) = self.links.get_mut(peer) {
            link.sent.acknowledge(link.acked);
        }
        Ok(())
    }

    // A frame comes to the space. One of a session that isn't open here is kept until it is.
    fn arrive(&mut self, peer: SpaceId, seen: &Seen<'_>, now: Duration) -> Result<(), Misbehaved> {
        let arrived = match self.space.arrive_bytes(seen.bytes) {
            Ok(arrived) => arrived,
            Err(ArriveError::Fault(_)) => return Err(Misbehaved::NoFrame),
            Err(ArriveError::Space(SpaceError::FarSession)) => {
                self.counts.far_frames += 1;
                return Ok(());
            }
            Err(ArriveError::Space(SpaceError::NotCovered)) => {
                self.counts.not_covered += 1;
                return Ok(());
            }
            Err(ArriveError::Space(_)) => {
                self.counts.wants += 1;
                return Ok(());
            }
        };
        if let Arrived::Closed(reason) = arrived {
            self.closed(peer, reason);
        }
        let Some(link) = self.links.get_mut(peer) else { return Ok(()) };
        if link.renewal != Renewal::No {
            let closes = matches!(arrived, Arrived::Closed(Reason::PeerClosed));
            link.heard_of(seen.session(), closes);
            self.has_renewals = true;
        }
        let is_heard = seen.session() == link.number;
        if is_heard {
            link.acked = link.acked.max(seen.ack());
        }
        if !seen.is_data() {
            return Ok(());
        }
        if link.owed == 0 {
            link.owed_since = now;
        }
        link.owed += 1;
        match arrived {
            Arrived::Took(count) if is_heard && link.is_open() => link.came(seen, count),
            _ => link.passed_over(seen),
        }
        Ok(())
    }

    // The session with a peer is open anew, under this number: what was passed over of it comes again.
    pub(super) fn bring_passed_over(&mut self, peer: SpaceId, now: Duration) {
        let Some(link) = self.links.get_mut(peer) else { return };
        for bytes in link.take_passed_over() {
            // It was a frame when it came first.
            let _is_frame = self.arrive(peer, &Seen { bytes: &bytes }, now);
        }
        self.act(peer, now);
    }

    // Acts on all that waits from a peer. What there is no room for is tried again later.
    pub(super) fn act(&mut self, peer: SpaceId, now: Duration) {
        while let Some(link) = self.links.get_mut(peer).filter(|link| !link.inbox.is_empty()) {
            if link.stuck_until.is_some_and(|until| now < until) {
                self.has_stuck = true;
                return;
            }
            link.stuck_until = None;
            match self.space.act(peer) {
                Ok(ActResult::Acted(item)) => self.acted(peer, item.get()),
                Ok(ActResult::Closed(reason)) => self.closed(peer, reason),
                Err(_) => {
                    link.stuck_until = Some(now + STUCK);
                    self.has_stuck = true;
                    self.counts.wants += 1;
                    return;
                }
            }
        }
    }

    fn acted(&mut self, peer: SpaceId, item: u64) {
        let Some(link) = self.links.get_mut(peer) else { return };
        let kind = link.inbox.pop_front().unwrap_or(ItemKind::Other);
        self.stirred.is_acted_on(kind);
        match kind {
            ItemKind::Call { call, target, .. } => {
                link.calls_acted_on += 1;
                link.unclaimed += 1;
                self.unclaimed += 1;
                link.asked.insert(call, false);
                // Whoever may call an object that isn't an agent is listed for it until its calls were acted on.
                if target != 0 && !self.space.lists(target, peer) {
                    link.note_unlisted(call, target);
                }
                if link.unanswered() > MOST_UNANSWERED {
                    self.counts.misbehaved += 1;
                    self.close(peer);
                }
            }
            ItemKind::Reply { call, .. } => {
                let call = CallNo::new(call);
                if self.space.reply_ready(call) {
                    self.ready.push(call);
                } else {
                    link.unsettled.insert(item, call);
                }
            }
            // It may be a call.
            ItemKind::Other => self.unclaimed += 1,
            _ => {}
        }
    }

    // The session with a peer has closed: what waited for it ends.
    pub(super) fn closed(&mut self, peer: SpaceId, reason: Reason) {
        self.stirred.is_closed();
        self.has_held = true;
        if matches!(reason, Reason::BadItem | Reason::BadReference | Reason::OutOfPlace) {
            self.counts.misbehaved += 1;
        }
        let Some(link) = self.links.get_mut(peer) else { return };
        if link.refused.is_none() {
            link.session = Session::Closed(reason);
            self.turn.changes.push((peer, link.session));
        }
        link.forget();
        self.end_held(peer);
        let mut to_peer: Vec<CallNo> = self.calls_to(peer);
        to_peer.sort_unstable();
        for call in to_peer {
            self.take_reply(call, reason);
        }
    }

    // The calls that wait to be made to a peer never are.
    pub(super) fn end_held(&mut self, peer: SpaceId) {
        let Some(link) = self.links.get_mut(peer) else { return };
        for call in std::mem::take(&mut link.calls) {
            let down = self.down(peer);
            self.answer(call.ticket, down);
            self.release_all(call.holds);
        }
    }

    fn calls_to(&self, peer: SpaceId) -> Vec<CallNo> {
        self.calls.iter().filter(|(_, (_, to))| *to == peer).map(|(call, _)| *call).collect()
    }

    // Takes a reply that is ready, or that never comes for this reason.
    pub(super) fn take_reply(&mut self, call: CallNo, reason: Reason) {
        let answered = match self.space.take_reply(call) {
            Ok(CallResult::Replied { status, value }) => {
                self.counts.calls_answered += 1;
                Answered::Replied { status, value }
            }
            Ok(CallResult::Ended) => {
                self.counts.calls_ended += 1;
                let to = self.calls.get(&call).map(|(_, to)| *to);
                let refused =
                    to.filter(|to| self.links.get(*to).is_some_and(|link| link.refused.is_some()));
                refused.map_or(Answered::Ended(reason), |to| self.down(to))
            }
            Err(SpaceError::Refused(Refusal::NoCall)) => return,
            Err(_) => {
                // The hand is full, or memory is: it is tried again in the next turn.
                self.counts.wants += 1;
                self.ready.push(call);
                return;
            }
        };
        if let Some((ticket, _)) = self.calls.remove(&call) {
            self.answer(ticket, answered);
        }
    }
}
