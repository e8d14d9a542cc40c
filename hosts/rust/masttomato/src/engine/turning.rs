//! What an engine does by itself: it settles, claims, gives up, counts ticks, and tries again.

use super::link::Link;
use super::wire::ItemKind;
use super::{Answered, Claimed, Engine, LOOK, Made, NO_ROOM, TICKS, Ticket, Turn};
use crate::space::{Due, Job, Outcome, Reason, Reference, Refusal, SpaceError, SpaceId};
use std::time::Duration;

/// What a space may have to do by itself, by what happened since it was asked in vain. To ask it costs little, to look what
/// it could do costs more; and where its entries are recorded each refusal is one, so it is looked first.
#[derive(Clone, Copy, Debug, Default)]
pub(super) struct Stirred {
    pub(super) settle: bool,
    pub(super) clean: bool,
    pub(super) claim: bool,
    pub(super) withdraw: bool,
    // Something was looked for that could be withdrawn, in vain, while there were calls and jobs, to which objects are lent.
    lent: bool,
    // A session has closed or a reference was refused: so messages may be lost that are settled.
    losses: bool,
}

impl Stirred {
    /// There may be all of it.
    pub(super) fn all(&mut self) {
        (self.settle, self.clean, self.claim, self.withdraw) = (true, true, true, true);
    }

    /// A session has closed.
    pub(super) fn is_closed(&mut self) {
        self.all();
        self.losses = true;
    }

    /// An item was acted on.
    pub(super) fn is_acted_on(&mut self, kind: ItemKind) {
        match kind {
            ItemKind::Call { may_refer, .. } => {
                self.claim = true;
                self.settle |= may_refer;
            }
            ItemKind::Reply { may_refer, .. } => self.settle |= may_refer,
            ItemKind::Settle => (self.clean, self.withdraw) = (true, true),
            ItemKind::Granted => (self.settle, self.clean) = (true, true),
            ItemKind::Refused => (self.settle, self.clean, self.losses) = (true, true, true),
            ItemKind::Clean => self.withdraw = true,
            ItemKind::Dirty => {}
            ItemKind::Other => self.all(),
        }
    }

    /// A job was finished: what it was lent is given back, and its object may have further ones, if there are any.
    pub(super) fn is_finished(&mut self, lent: Lent, has_unclaimed: bool) {
        self.claim |= has_unclaimed;
        self.clean |= lent.others;
        self.withdraw |= lent.own || self.lent;
    }

    // A message was settled: it is a job, or it was lost and what it was lent was given back.
    fn is_settled(&mut self) {
        self.claim = true;
        self.clean |= self.losses;
        self.withdraw |= self.losses;
    }

    fn any(&self, claims: bool) -> bool {
        self.settle | self.clean | self.withdraw | (self.claim & claims)
    }
}

/// Whether a job's argument refers to own objects, and to those of others.
#[derive(Clone, Copy, Debug)]
pub(super) struct Lent {
    own: bool,
    others: bool,
}

// Whether something stays to be tried again, since it wasn't done for want of memory or room.
fn is_wanted(error: SpaceError) -> bool {
    error != SpaceError::Refused(Refusal::Nothing)
}

impl Engine {
    /// Does all that there is to do, and fills each connection's output that is empty: `work`, then
    /// `fill`.
    ///
    /// ```
    /// # use masttomato::engine::*;
    /// # use masttomato::{SpaceId, Value};
    /// # use std::time::Duration;
    /// # let [one, two] = [1, 2].map(|number| SpaceId::new(number).expect("1 to 32"));
    /// # let now = Duration::ZERO;
    /// # let mut engine = Engine::new(Settings::new(one, two), now)?;
    /// let object = engine.export()?;
    /// engine.release(object);
    /// let turn = engine.turn(now);
    /// assert_eq!(turn.withdrawn, [object.index]);
    /// # Ok::<(), Box<dyn std::error::Error>>(())
    /// ```
    pub fn turn(&mut self, now: Duration) -> Turn {
        let mut turn = self.work(now);
        self.fill(now);
        turn.changes.append(&mut self.turn.changes);
        turn.silent.append(&mut self.turn.silent);
        turn.renewed.append(&mut self.turn.renewed);
        turn.next = self.next(now);
        turn
    }

    /// Does all that there is to do, but writes nothing. Whoever has short jobs ends them before `fill`, so
    /// that their replies go at once.
    ///
    /// ```
    /// # use masttomato::engine::*;
    /// # use masttomato::space::{Outcome, Status};
    /// # use masttomato::{SpaceId, Value};
    /// # use std::time::Duration;
    /// # fn carry(from: &mut Engine, to: &mut Engine) -> Vec<masttomato::space::Job> {
    /// #     let (one, two, now) = (from.id(), to.id(), Duration::ZERO);
    /// #     let _turn = from.turn(now);
    /// #     to.bytes(one, from.output(two).left(), now).expect("an honest peer");
    /// #     from.output(two).advance(usize::MAX);
    /// #     to.turn(now).jobs
    /// # }
    /// # let [one, two] = [1, 2].map(|number| SpaceId::new(number).expect("1 to 32"));
    /// # let now = Duration::ZERO;
    /// # let mut owner = Engine::new(Settings::new(one, two), now)?;
    /// # let mut caller = Engine::new(Settings::new(two, two), now)?;
    /// # owner.connected(two, Life::only(12), now)?;
    /// # caller.connected(one, Life::only(11), now)?;
    /// caller.call(Ticket(7), one.agent(), 0, Value::Unit);
    /// let _turn = caller.turn(now);
    /// owner.bytes(two, caller.output(one).left(), now)?;
    /// for job in owner.work(now).jobs {
    ///     owner.finish(job.job, Outcome::Answer(Value::Unit));
    /// }
    /// owner.fill(now);                                             // the answers go at once
    /// assert!(!owner.output(two).is_empty());
    /// # Ok::<(), Box<dyn std::error::Error>>(())
    /// ```
    pub fn work(&mut self, now: Duration) -> Turn {
        self.go_on(now);
        std::mem::take(&mut self.turn)
    }

    /// The same, but what it gives is put to what was given before.
    pub(crate) fn go_on(&mut self, now: Duration) {
        if !self.is_idle(now) {
            self.go_on_with_all(now);
        }
    }

    // Whether there is nothing to do.
    fn is_idle(&self, now: Duration) -> bool {
        let tries_again = self.has_stuck | self.has_renewals | self.has_held;
        let has_any = self.stirred.any(self.claims) | !self.ready.is_empty();
        !(tries_again | has_any) && now < self.look_at
    }

    #[inline(never)]
    fn go_on_with_all(&mut self, now: Duration) {
        if std::mem::take(&mut self.has_stuck) {
            for peer in self.peers.clone().iter() {
                self.act(*peer, now);
            }
        }
        if self.has_renewals {
            self.go_on_renewing(now);
        }
        if now >= self.look_at {
            for peer in self.peers.clone().iter() {
                self.tick(*peer, now);
            }
            self.stirred.all();
            let counts = self.space.counts();
            self.unclaimed = counts.waiting + counts.ready;
            self.look_at = now + LOOK.min(self.settings.give_up_after / u32::from(TICKS));
        }
        loop {
            let did = self.stirred.any(self.claims) && self.stir(now);
            if !self.ready.is_empty() {
                self.take_ready();
            }
            if self.has_held {
                self.retry();
            }
            if !did {
                return;
            }
        }
    }

    // Takes the replies that are ready. Of those that can't be taken now it is tried again in the next turn.
    fn take_ready(&mut self) {
        let mut ready = std::mem::take(&mut self.ready);
        for call in ready.drain(..) {
            self.take_reply(call, Reason::Asked);
        }
        ready.append(&mut self.ready);
        self.ready = ready;
    }

    /// Whether anything was given since that was taken last.
    pub(crate) fn has_given(&self) -> bool {
        !self.turn.is_empty()
    }

    /// What was given since it was taken last, in place of an empty turn whose room is used again.
    pub(crate) fn swap_turn(&mut self, empty: &mut Turn) {
        std::mem::swap(&mut self.turn, empty);
    }

    /// Whether any call was answered since that was taken last.
    pub(crate) fn has_answers(&self) -> bool {
        !self.turn.answers.is_empty()
    }

    /// The answers that were given since they were taken last, in place of none, whose room is used again.
    pub(crate) fn swap_answers(&mut self, empty: &mut Vec<(Ticket, Answered)>) {
        std::mem::swap(&mut self.turn.answers, empty);
    }

    /// Whether any job was claimed since that was taken last.
    pub(crate) fn has_jobs(&self) -> bool {
        !self.turn.jobs.is_empty()
    }

    /// The jobs that were claimed since they were taken last, in place of none, whose room is used again.
    pub(crate) fn swap_jobs(&mut self, empty: &mut Vec<Job>) {
        std::mem::swap(&mut self.turn.jobs, empty);
    }

    /// From now on no job is claimed.
    ///
    /// ```
    /// # use masttomato::engine::*;
    /// # use masttomato::space::{Outcome, Status};
    /// # use masttomato::{SpaceId, Value};
    /// # use std::time::Duration;
    /// # fn carry(from: &mut Engine, to: &mut Engine) -> Vec<masttomato::space::Job> {
    /// #     let (one, two, now) = (from.id(), to.id(), Duration::ZERO);
    /// #     let _turn = from.turn(now);
    /// #     to.bytes(one, from.output(two).left(), now).expect("an honest peer");
    /// #     from.output(two).advance(usize::MAX);
    /// #     to.turn(now).jobs
    /// # }
    /// # let [one, two] = [1, 2].map(|number| SpaceId::new(number).expect("1 to 32"));
    /// # let now = Duration::ZERO;
    /// # let mut owner = Engine::new(Settings::new(one, two), now)?;
    /// # let mut caller = Engine::new(Settings::new(two, two), now)?;
    /// # owner.connected(two, Life::only(12), now)?;
    /// # caller.connected(one, Life::only(11), now)?;
    /// owner.claim_no_more();
    /// caller.call(Ticket(7), one.agent(), 0, Value::Unit);
    /// assert!(carry(&mut caller, &mut owner).is_empty());
    /// # Ok::<(), Box<dyn std::error::Error>>(())
    /// ```
    pub fn claim_no_more(&mut self) {
        self.claims = false;
    }

    // Settles, gives up, claims and withdraws what can be: whether anything was.
    fn stir(&mut self, now: Duration) -> bool {
        let mut did_any = false;
        loop {
            if self.space.is_recorded() && self.stirred.any(self.claims) {
                let work = self.space.work();
                let (settle, clean, claim) = (work.settle, work.clean, work.claim);
                let withdraw = work.withdraw.is_some();
                self.stirred = Stirred { settle, clean, claim, withdraw, ..self.stirred };
            }
            let mut did = self.stirred.settle && self.settle();
            did |= self.stirred.clean && self.clean();
            did |= self.stirred.claim && self.claims && self.claim(now);
            did |= self.stirred.withdraw && self.withdraw();
            did_any |= did;
            if !did {
                return did_any;
            }
        }
    }

    fn settle(&mut self) -> bool {
        let settled = match self.space.settle() {
            Ok(settled) => settled,
            Err(error) => {
                self.stirred.settle = is_wanted(error);
                return false;
            }
        };
        self.stirred.is_settled();
        let link = self.links.get_mut(settled.peer);
        let reply = link.and_then(|link| link.unsettled.remove(&settled.item.get()));
        self.ready.extend(reply);
        true
    }

    fn clean(&mut self) -> bool {
        let cleaned = self.space.clean();
        self.stirred.clean = cleaned.is_ok() || cleaned.is_err_and(is_wanted);
        cleaned.is_ok()
    }

    fn claim(&mut self, now: Duration) -> bool {
        let job = match self.space.claim() {
            Ok(job) => job,
            Err(error) => {
                self.stirred.claim = is_wanted(error);
                return false;
            }
        };
        self.counts.jobs_claimed += 1;
        self.unclaimed = self.unclaimed.saturating_sub(1);
        self.stirred.claim = self.unclaimed > 0;
        let references = job.value.references();
        let is_own = |reference: &Reference| reference.owner == self.id();
        let own = references.iter().any(is_own);
        let lent = Lent { own, others: !references.iter().all(is_own) };
        self.jobs.insert(job.job, Claimed { client: job.client, since: now, lent });
        let link = self.links.get_mut(job.client);
        let is_unlisted = link.is_some_and(|link| {
            link.unclaimed = link.unclaimed.saturating_sub(1);
            link.take_unlisted(job.call.get(), job.target)
        });
        if is_unlisted {
            self.counts.calls_unlisted += 1;
            self.finish(job.job, Outcome::NoMethod);
        } else {
            self.turn.jobs.push(job);
        }
        true
    }

    fn withdraw(&mut self) -> bool {
        let Some(index) = self.space.work().withdraw else {
            self.stirred.withdraw = false;
            let is_unclaimed = self.links.values_mut().any(|link| link.unclaimed > 0);
            self.stirred.lent = is_unclaimed || !self.jobs.is_empty();
            return false;
        };
        let is_withdrawn = self.space.withdraw(index).is_ok();
        if is_withdrawn {
            self.counts.withdrawn += 1;
            self.turn.withdrawn.push(index);
        }
        is_withdrawn
    }

    // What waited for room, where an acknowledgement has come or a session has closed.
    fn retry(&mut self) {
        self.has_held = false;
        for peer in self.peers.clone().iter() {
            while let Some(finish) = self.next_held(*peer, |link| link.finishes.pop_front()) {
                if self.try_finish(&finish) {
                    self.release_all(finish.holds);
                } else if let Some(link) = self.links.get_mut(*peer) {
                    link.finishes.push_front(finish);
                    break;
                }
            }
            while self.calls.len() < self.settings.open_calls
                && let Some(call) = self.next_held(*peer, |link| link.calls.pop_front())
            {
                let made = self.make(&call);
                if !matches!(made, Made::Waits) {
                    let _number = self.is_made(call.ticket, made);
                    self.release_all(call.holds);
                } else if let Some(link) = self.links.get_mut(*peer) {
                    link.calls.push_front(call);
                    break;
                }
            }
            let link = self.links.get(*peer);
            self.has_held |=
                link.is_some_and(|link| !link.calls.is_empty() || !link.finishes.is_empty());
        }
    }

    // What is held for a peer and may be tried again.
    fn next_held<T>(
        &mut self,
        peer: SpaceId,
        first: impl FnOnce(&mut Link) -> Option<T>,
    ) -> Option<T> {
        let link = self.links.get_mut(peer).filter(|link| !link.is_blocked())?;
        link.blocked_at = None;
        first(link)
    }

    // Counts a tick where nothing was acknowledged since the last one, and gives up where it is time.
    fn tick(&mut self, peer: SpaceId, now: Duration) {
        let every = self.settings.give_up_after / u32::from(TICKS);
        let Some(link) = self.links.get_mut(peer) else { return };
        let is_given_up = !link.is_up
            && link.life.is_some()
            && now.saturating_sub(link.down_since) >= self.settings.give_up_after;
        if is_given_up && !link.is_open() {
            // What waits for a session that is to be opened again.
            return self.end_held(peer);
        }
        let Some(link) = self.links.get_mut(peer).filter(|link| link.is_open()) else { return };
        if is_given_up && self.space.close(peer).is_ok() {
            return self.closed(peer, Reason::RetriesUsedUp);
        }
        if link.finishes.is_empty() || !link.is_blocked() {
            link.blocked_since = None;
        } else if now.saturating_sub(*link.blocked_since.get_or_insert(now)) >= NO_ROOM {
            self.counts.misbehaved += 1;
            return self.close(peer);
        }
        if now < link.next_tick {
            return;
        }
        link.next_tick = now + every;
        let is_stalled = link.acked == link.acked_at_tick;
        link.acked_at_tick = link.acked;
        let due = self.space.due(peer);
        if !is_stalled || !matches!(due, Due::New | Due::Again) {
            return;
        }
        link.again = true;
        if !link.is_up && due == Due::New {
            // A tick counts only what was transmitted: so it is, and waits for a connection.
            self.give(peer);
        }
        if let Ok(Some(reason)) = self.space.tick(peer) {
            self.closed(peer, reason);
        }
    }
}
