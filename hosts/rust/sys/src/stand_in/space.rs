//! A space: what it answers to each event, and what that changes.

use super::frame::{self, Frame};
use super::item::Item;
use super::pickle::Pickle;
use super::session::{Arrival, LAST_ITEM, Session};
use super::table::{LAST_INDEX, MOST_LIVE, Standing, Table};
use super::{Answer, Reference};
use crate::{Counts, Front, PeerCounts};
use std::collections::{BTreeMap, BTreeSet, HashMap, VecDeque};

const MOST_CALLS: usize = 4_096;
const LAST_NUMBER: u64 = 1 << 48;

/// The numbers of a space's refusals.
pub(super) mod refusal {
    pub(in super::super) const NO_PEER: u32 = 1;
    pub(in super::super) const CLOSED: u32 = 2;
    pub(in super::super) const NO_OBJECT: u32 = 3;
    pub(in super::super) const NOT_HELD: u32 = 4;
    pub(in super::super) const QUEUE_FULL: u32 = 5;
    pub(in super::super) const SEQ_END: u32 = 6;
    pub(in super::super) const NO_CALL: u32 = 8;
    pub(in super::super) const NOT_READY: u32 = 9;
    pub(in super::super) const NOTHING: u32 = 10;
    pub(in super::super) const NO_JOB: u32 = 12;
    pub(in super::super) const LIMIT: u32 = 13;
    pub(in super::super) const STILL_OPEN: u32 = 15;
    pub(in super::super) const STILL_HELD: u32 = 16;
    pub(in super::super) const HELD: u32 = 111;
    pub(in super::super) const IN_TRANSIT: u32 = 112;
    pub(in super::super) const LISTED: u32 = 113;
    pub(in super::super) const AGENT: u32 = 114;
}
use refusal::*;

const BAD_ITEM: u8 = 4;
const BAD_REFERENCE: u8 = 5;
const OUT_OF_PLACE: u8 = 6;

// What a call or a reply that was acted on is for.
#[derive(Clone, Copy, Debug)]
enum Purpose {
    Call { call: u64, target: u64, method: u16 },
    Reply { call: u64, status: u8 },
}

#[derive(Debug)]
struct Message {
    peer: u16,
    // The number of the session that it came in.
    session: u32,
    item: u64,
    purpose: Purpose,
    value: Pickle,
    // Which references of the value are lent, by their places.
    lent: Vec<bool>,
}

#[derive(Debug)]
enum Call {
    // Whether a reply was acted on, whose references are to be resolved.
    Out { peer: u16, is_replied: bool },
    Ready(u8, Message),
    Ended,
}

/// The numbers that a life of a space begins behind, and the number of the session with each space, by its place.
#[derive(Clone, Copy, Debug)]
pub(super) struct Birth<'a> {
    pub(super) indexes: u64,
    pub(super) calls: u64,
    pub(super) jobs: u64,
    pub(super) sessions: &'a [u32],
}

impl Birth<'_> {
    /// The status of the first of its numbers that is out of range: a count above its limit, a session below 2, or
    /// more calls and jobs than items could come and go in the earlier sessions with any one peer. Of a new space,
    /// where nothing was and each session has number 1, none is.
    pub(super) fn fault(&self, here: u16) -> Option<u32> {
        let of_peers = (1..).zip(self.sessions).filter(|(space, _)| *space != here);
        let numbers: Vec<u64> = of_peers.map(|(_, number)| (*number).into()).collect();
        let could_be = |before: u64| {
            let earlier = |number: &u64| LAST_ITEM.saturating_mul(number - 1);
            numbers.iter().any(|number| before <= earlier(number))
        };
        let was_nothing = (self.indexes, self.calls, self.jobs) == (0, 0, 0);
        match () {
            () if was_nothing && numbers.iter().all(|number| *number == 1) => None,
            () if self.indexes > LAST_INDEX => Some(71),
            () if self.calls > LAST_NUMBER => Some(72),
            () if self.jobs > LAST_NUMBER => Some(73),
            () if numbers.iter().any(|number| *number < 2) => Some(74),
            () if self.calls + self.jobs > 0 && !could_be(self.calls + self.jobs) => Some(75),
            () => None,
        }
    }
}

/// A space of the numbers 1 to `spaces`.
#[derive(Debug)]
pub(super) struct Space {
    here: u16,
    spaces: u16,
    sessions: Vec<Session>,
    table: Table,
    // The references of each item that a peer hasn't settled.
    pins: HashMap<(u16, u64), Vec<Reference>>,
    calls: HashMap<u64, Call>,
    made: u64,
    // Messages by the order of acting; those that wait for references, and of these who can be settled.
    messages: BTreeMap<u64, Message>,
    acted: u64,
    settled: BTreeSet<u64>,
    ready: VecDeque<Message>,
    running: HashMap<u64, Message>,
    busy: BTreeSet<u64>,
    claimed: u64,
    // The calls that have a ready reply, in order of its becoming ready.
    replied: VecDeque<u64>,
}

type Refused = u32;

impl Space {
    /// A space whose life begins at a birth that is in range: with a session's number for each space.
    pub(super) fn begin_at(here: u16, window: u64, retry: u64, birth: Birth<'_>) -> Space {
        // Nothing is ever asked of the session in place 0.
        let numbers = (0..).zip([1].iter().chain(birth.sessions));
        let sessions = numbers
            .map(|(peer, number)| Session::begin_at(here, peer, window, retry, *number))
            .collect();
        Space {
            here,
            spaces: birth.sessions.len() as u16,
            sessions,
            table: Table::begin_at(here, birth.indexes),
            pins: HashMap::new(),
            calls: HashMap::new(),
            made: birth.calls,
            messages: BTreeMap::new(),
            acted: 0,
            settled: BTreeSet::new(),
            ready: VecDeque::new(),
            running: HashMap::new(),
            busy: BTreeSet::new(),
            claimed: birth.jobs,
            replied: VecDeque::new(),
        }
    }

    pub(super) fn id(&self) -> u16 {
        self.here
    }

    pub(super) fn peers(&self) -> impl Iterator<Item = u16> + use<> {
        let here = self.here;
        (1..=self.spaces).filter(move |peer| *peer != here)
    }

    pub(super) fn is_peer(&self, space: u16) -> bool {
        space != self.here && (1..=self.spaces).contains(&space)
    }

    pub(super) fn session(&self, peer: u16) -> &Session {
        &self.sessions[usize::from(peer)]
    }

    fn session_mut(&mut self, peer: u16) -> &mut Session {
        &mut self.sessions[usize::from(peer)]
    }

    fn is_open(&self, space: u16) -> bool {
        self.is_peer(space) && self.session(space).is_open()
    }

    fn open_peer(&self, peer: u16) -> Result<(), Refused> {
        match () {
            () if !self.is_peer(peer) => Err(NO_PEER),
            () if !self.is_open(peer) => Err(CLOSED),
            () => Ok(()),
        }
    }

    // An own object that isn't live, of the references that may name one.
    fn is_gone(&self, reference: Reference) -> bool {
        let is_own = self.table.is_own(reference) && reference.index != 0;
        is_own && !self.table.is_live(reference.index)
    }

    pub(super) fn export(&mut self) -> Result<Answer, Refused> {
        let index = self.table.export().ok_or(LIMIT)?;
        Ok(Answer::Reference(1, Reference { owner: self.here, index }))
    }

    pub(super) fn dup(&mut self, reference: Reference) -> Result<Answer, Refused> {
        self.may_be_held(reference)?;
        if !self.table.fits_hand(reference, 1) {
            return Err(LIMIT);
        }
        self.table.add_hand(reference);
        Ok(Answer::Done)
    }

    // S3, S4 and S2 of a reference that is to be held or sent.
    fn may_be_held(&self, reference: Reference) -> Result<(), Refused> {
        match () {
            () if self.is_gone(reference) => Err(NO_OBJECT),
            () if reference.index == 0 || self.table.holds(reference) == 0 => Err(NOT_HELD),
            () if !self.table.is_own(reference) && !self.is_open(reference.owner) => Err(CLOSED),
            () => Ok(()),
        }
    }

    pub(super) fn release(&mut self, reference: Reference) -> Result<Answer, Refused> {
        match () {
            () if self.is_gone(reference) => return Err(NO_OBJECT),
            () if reference.index == 0 || self.table.hand(reference) == 0 => return Err(NOT_HELD),
            () => self.table.drop_hand(reference),
        }
        Ok(Answer::Done)
    }

    pub(super) fn call(
        &mut self,
        target: Reference,
        method: u16,
        value: Pickle,
    ) -> Result<Answer, Refused> {
        let peer = target.owner;
        self.open_peer(peer)?;
        if target.index != 0 && self.table.holds(target) == 0 {
            return Err(NOT_HELD);
        }
        value.references.iter().try_for_each(|reference| self.may_be_held(*reference))?;
        if self.calls.len() == MOST_CALLS || self.made == LAST_NUMBER {
            return Err(LIMIT);
        }
        self.has_room(peer)?;
        self.made += 1;
        let call = self.made;
        self.calls.insert(call, Call::Out { peer, is_replied: false });
        self.hand_on(peer, Item::Call { call, target: target.index, method, value });
        Ok(Answer::Number(3, call))
    }

    fn has_room(&self, peer: u16) -> Result<(), Refused> {
        match self.session(peer) {
            session if !session.has_room() => Err(QUEUE_FULL),
            session if session.free_numbers() == 0 => Err(SEQ_END),
            _ => Ok(()),
        }
    }

    // Hands an item on, and pins its references.
    fn hand_on(&mut self, peer: u16, item: Item) {
        let number = self.session_mut(peer).send(item.spell());
        let (Item::Call { value, .. } | Item::Reply { value, .. }) = item else { return };
        if value.references.is_empty() {
            return;
        }
        value.references.iter().for_each(|reference| self.table.pin(*reference));
        self.pins.insert((peer, number), value.references);
    }

    /// What a call brought, and the value of its reply.
    pub(super) fn take_reply(&mut self, call: u64) -> Result<(Answer, Option<Pickle>), Refused> {
        match self.calls.get(&call).ok_or(NO_CALL)? {
            Call::Out { .. } => return Err(NOT_READY),
            Call::Ready(_, message) => {
                let all = &message.value.references;
                let times =
                    |one: &Reference| all.iter().filter(|other| *other == one).count() as u64;
                if !all.iter().all(|one| self.table.fits_hand(*one, times(one))) {
                    return Err(LIMIT);
                }
            }
            Call::Ended => {}
        }
        match self.calls.remove(&call) {
            Some(Call::Ready(status, message)) => {
                self.replied.retain(|other| *other != call);
                for reference in &message.value.references {
                    self.table.add_hand(*reference);
                    self.table.give_back(*reference);
                }
                Ok((Answer::Number(4, status.into()), Some(message.value)))
            }
            _ => Ok((Answer::Ended, None)),
        }
    }

    fn next_job(&self) -> Option<usize> {
        let is_free = |message: &Message| !self.busy.contains(&target_of(message));
        self.ready.iter().position(is_free)
    }

    pub(super) fn can_claim(&self) -> bool {
        self.next_job().is_some()
    }

    /// The first ready job whose object isn't running, and its argument.
    pub(super) fn claim(&mut self) -> Result<(Answer, Pickle), Refused> {
        let place = self.next_job().ok_or(NOTHING)?;
        if self.claimed == LAST_NUMBER {
            return Err(LIMIT);
        }
        let Some(message) = self.ready.remove(place) else { return Err(NOTHING) };
        self.claimed += 1;
        let Purpose::Call { call, target, method } = message.purpose else { return Err(NOTHING) };
        let value = message.value.clone();
        let job = Answer::Job { job: self.claimed, client: message.peer, call, target, method };
        self.busy.insert(target);
        self.running.insert(self.claimed, message);
        Ok((job, value))
    }

    pub(super) fn finish(
        &mut self,
        job: u64,
        status: u8,
        value: Pickle,
    ) -> Result<Answer, Refused> {
        let message = self.running.get(&job).ok_or(NO_JOB)?;
        let (client, Purpose::Call { call, target, .. }) = (message.peer, message.purpose) else {
            return Err(NO_JOB);
        };
        let is_open = self.is_open(client) && self.session(client).number() == message.session;
        if is_open {
            value.references.iter().try_for_each(|reference| self.may_be_held(*reference))?;
            self.has_room(client)?;
            self.hand_on(client, Item::Reply { call, status, value });
        }
        if let Some(message) = self.running.remove(&job) {
            self.take_back(&message);
        }
        self.busy.remove(&target);
        Ok(if is_open { Answer::Finished } else { Answer::Dropped })
    }

    // Gives back all that a message lent, its target too.
    fn take_back(&mut self, message: &Message) {
        for (reference, is_lent) in message.value.references.iter().zip(&message.lent) {
            if *is_lent {
                self.table.give_back(*reference);
            }
        }
        if let Purpose::Call { target, .. } = message.purpose
            && target != 0
        {
            self.table.give_back(Reference { owner: self.here, index: target });
        }
    }

    /// Acts on the item at the front of the inbox from a peer.
    pub(super) fn act(&mut self, peer: u16) -> Result<Answer, Refused> {
        self.open_peer(peer)?;
        let (number, bytes) = self.session(peer).front().ok_or(NOTHING)?;
        let item = Item::read(bytes);
        let fault = item.as_ref().map_or(Some(BAD_ITEM), |item| self.fault_of(peer, item));
        let Some(item) = item.filter(|_| fault.is_none()) else {
            return Ok(self.close(peer, fault.unwrap_or(BAD_ITEM)));
        };
        match item {
            Item::Call { call, target, method, value } => {
                self.act_on_message(peer, number, Purpose::Call { call, target, method }, value)?;
            }
            Item::Reply { call, status, value } => {
                self.act_on_message(peer, number, Purpose::Reply { call, status }, value)?;
            }
            Item::Dirty(index) => {
                let is_live = self.table.is_live(index);
                if self.session(peer).free_numbers() == 0 {
                    return Err(SEQ_END);
                }
                if is_live {
                    self.table.list(index, peer, true);
                }
                self.hand_on(
                    peer,
                    if is_live { Item::DirtyOk(index) } else { Item::DirtyNo(index) },
                );
            }
            Item::Settle(settled) => self.unpin(peer, settled),
            Item::DirtyOk(index) => self.answered(Reference { owner: peer, index }, true),
            Item::DirtyNo(index) => self.answered(Reference { owner: peer, index }, false),
            Item::Clean(index) => self.table.list(index, peer, false),
        }
        self.session_mut(peer).take();
        Ok(Answer::Number(9, number))
    }

    // The reason that an item closes the session for, if it has a fault.
    fn fault_of(&self, peer: u16, item: &Item) -> Option<u8> {
        let is_gone =
            |value: &Pickle| value.references.iter().any(|reference| self.is_gone(*reference));
        let is_pending = |index: &u64| {
            let reference = Reference { owner: peer, index: *index };
            self.table.standing(reference) == Some(Standing::Pending)
        };
        match item {
            Item::Call { target, value, .. } => {
                let no_target = *target != 0 && !self.table.is_live(*target);
                (no_target || is_gone(value)).then_some(BAD_REFERENCE)
            }
            Item::Reply { call, value, .. } => match self.calls.get(call) {
                Some(Call::Out { peer: to, is_replied: false }) if *to == peer => {
                    is_gone(value).then_some(BAD_REFERENCE)
                }
                _ => Some(OUT_OF_PLACE),
            },
            Item::Settle(number) => {
                (!self.pins.contains_key(&(peer, *number))).then_some(OUT_OF_PLACE)
            }
            Item::Dirty(index) | Item::Clean(index) => {
                (!self.table.was_exported(*index)).then_some(BAD_REFERENCE)
            }
            Item::DirtyOk(index) | Item::DirtyNo(index) => {
                (!is_pending(index)).then_some(OUT_OF_PLACE)
            }
        }
    }

    // A call or a reply: its references are lent or asked for, and it is ready or waits for them.
    fn act_on_message(
        &mut self,
        peer: u16,
        item: u64,
        purpose: Purpose,
        value: Pickle,
    ) -> Result<(), Refused> {
        let mut asked: Vec<Reference> = Vec::new();
        for reference in &value.references {
            let is_new = !self.table.is_own(*reference)
                && self.is_open(reference.owner)
                && self.table.standing(*reference).is_none();
            if is_new && !asked.contains(reference) {
                asked.push(*reference);
            }
        }
        let in_all =
            self.messages.len() + self.ready.len() + self.running.len() + self.replied.len();
        if in_all >= MOST_LIVE || !self.table.has_surrogate_room(asked.len()) {
            return Err(LIMIT);
        }
        for owner in self.peers() {
            let count = asked.iter().filter(|reference| reference.owner == owner).count();
            if self.session(owner).free_numbers() < count as u64 {
                return Err(SEQ_END);
            }
        }
        if let Purpose::Call { target, .. } = purpose
            && target != 0
        {
            self.table.lend(Reference { owner: self.here, index: target });
        }
        let mut lent = Vec::with_capacity(value.references.len());
        for reference in &value.references {
            let is_granted = self.table.standing(*reference) == Some(Standing::Granted);
            let is_usable =
                self.table.is_own(*reference) || is_granted && self.is_open(reference.owner);
            if is_usable {
                self.table.lend(*reference);
            }
            lent.push(is_usable);
        }
        for reference in asked {
            self.table.ask(reference);
            self.hand_on(reference.owner, Item::Dirty(reference.index));
        }
        let session = self.session(peer).number();
        self.keep(Message { peer, session, item, purpose, value, lent });
        Ok(())
    }

    // A message without references is ready at once; another waits to be settled.
    fn keep(&mut self, message: Message) {
        if let Purpose::Reply { call, .. } = message.purpose
            && let Some(Call::Out { is_replied, .. }) = self.calls.get_mut(&call)
        {
            *is_replied = true;
        }
        if message.value.references.is_empty() {
            self.make_ready(message);
            return;
        }
        self.acted += 1;
        if !self.is_pending(&message) {
            self.settled.insert(self.acted);
        }
        self.messages.insert(self.acted, message);
    }

    fn make_ready(&mut self, message: Message) {
        match message.purpose {
            Purpose::Call { .. } => self.ready.push_back(message),
            Purpose::Reply { call, status } => {
                self.replied.push_back(call);
                self.calls.insert(call, Call::Ready(status, message));
            }
        }
    }

    // Whether a reference of the message waits for its owner's answer.
    fn is_pending(&self, message: &Message) -> bool {
        message.value.references.iter().any(|reference| {
            self.table.standing(*reference) == Some(Standing::Pending)
                && self.is_open(reference.owner)
        })
    }

    fn is_lost(&self, message: &Message) -> bool {
        message.value.references.iter().any(|reference| {
            let is_refused = self.table.standing(*reference) == Some(Standing::Refused);
            !self.table.is_own(*reference) && (is_refused || !self.is_open(reference.owner))
        })
    }

    fn unpin(&mut self, peer: u16, item: u64) {
        for reference in self.pins.remove(&(peer, item)).unwrap_or_default() {
            self.table.unpin(reference);
        }
    }

    // The owner's answer to a Dirty: what waited for it is lent, or lost.
    fn answered(&mut self, reference: Reference, is_granted: bool) {
        self.table.answer(reference, is_granted);
        for message in self.messages.values_mut() {
            for (other, is_lent) in message.value.references.iter().zip(&mut message.lent) {
                if *other == reference && is_granted {
                    self.table.lend(reference);
                    *is_lent = true;
                }
            }
        }
        self.look_for_settled();
    }

    // Which messages could be settled now.
    fn look_for_settled(&mut self) {
        let messages = self.messages.iter().filter(|(_, message)| !self.is_pending(message));
        self.settled = messages.map(|(number, _)| *number).collect();
    }

    pub(super) fn can_settle(&self) -> bool {
        !self.settled.is_empty()
    }

    pub(super) fn settle(&mut self) -> Result<Answer, Refused> {
        let first = *self.settled.first().ok_or(NOTHING)?;
        let message = self.messages.get(&first).ok_or(NOTHING)?;
        let (peer, item, is_lost) = (message.peer, message.item, self.is_lost(message));
        let is_call = matches!(message.purpose, Purpose::Call { .. });
        if self.session(peer).free_numbers() < 1 + u64::from(is_lost && is_call) {
            return Err(SEQ_END);
        }
        self.settled.remove(&first);
        let Some(mut message) = self.messages.remove(&first) else { return Err(NOTHING) };
        self.hand_on(peer, Item::Settle(item));
        if !is_lost {
            self.make_ready(message);
            return Ok(Answer::Settled(peer, item));
        }
        self.take_back(&message);
        match message.purpose {
            Purpose::Call { call, .. } => {
                self.hand_on(peer, Item::Reply { call, status: 3, value: Pickle::unit() });
            }
            Purpose::Reply { call, .. } => {
                message.purpose = Purpose::Reply { call, status: 3 };
                message.value = Pickle::unit();
                self.make_ready(message);
            }
        }
        Ok(Answer::Settled(peer, item))
    }

    pub(super) fn can_clean(&self) -> bool {
        self.table.first_idle().is_some()
    }

    pub(super) fn clean(&mut self) -> Result<Answer, Refused> {
        let reference = self.table.first_idle().ok_or(NOTHING)?;
        if self.session(reference.owner).free_numbers() == 0 {
            return Err(SEQ_END);
        }
        self.hand_on(reference.owner, Item::Clean(reference.index));
        self.table.give_up(reference);
        Ok(Answer::Reference(12, reference))
    }

    pub(super) fn first_unused(&self) -> Option<u64> {
        self.table.first_unused()
    }

    pub(super) fn withdraw(&mut self, index: u64) -> Result<Answer, Refused> {
        let own = Reference { owner: self.here, index };
        match () {
            () if index == 0 => Err(AGENT),
            () if !self.table.is_live(index) => Err(NO_OBJECT),
            () if self.table.holds(own) > 0 => Err(HELD),
            () if self.table.pins(index) > 0 => Err(IN_TRANSIT),
            () if self.table.has_clients(index) => Err(LISTED),
            () => {
                self.table.withdraw(index);
                Ok(Answer::Withdrawn)
            }
        }
    }

    /// The bytes of the frames for a peer, and how many they are.
    pub(super) fn transmit(&mut self, peer: u16) -> Result<(Vec<u8>, u64), Refused> {
        if !self.is_peer(peer) {
            return Err(NO_PEER);
        }
        Ok(self.session_mut(peer).transmit())
    }

    pub(super) fn arrive(&mut self, frame: &Frame<'_>) -> Result<Answer, Refused> {
        if frame.to != self.here || !self.is_peer(frame.from) {
            return Err(NO_PEER);
        }
        debug_assert!(frame.kind <= frame::CLOSE);
        match self.session_mut(frame.from).arrive(frame) {
            Arrival::Took(count) => Ok(Answer::Number(15, count)),
            Arrival::Closed(reason) => Ok(self.close(frame.from, reason)),
        }
    }

    pub(super) fn tick(&mut self, peer: u16) -> Result<Answer, Refused> {
        self.open_peer(peer)?;
        match self.session_mut(peer).tick() {
            true => Ok(self.close(peer, 3)),
            false => Ok(Answer::Done),
        }
    }

    pub(super) fn asked_to_close(&mut self, peer: u16) -> Result<Answer, Refused> {
        self.open_peer(peer)?;
        Ok(self.close(peer, 1))
    }

    /// Opens a session that has closed, once nothing of the peer's objects is left here.
    pub(super) fn open(&mut self, peer: u16) -> Result<Answer, Refused> {
        match () {
            () if !self.is_peer(peer) => return Err(NO_PEER),
            () if self.is_open(peer) => return Err(STILL_OPEN),
            () if self.still_holds(peer) => return Err(STILL_HELD),
            () => {}
        }
        let number = self.session(peer).next_number().ok_or(LIMIT)?;
        self.session_mut(peer).reopen(number);
        Ok(Answer::Number(17, number.into()))
    }

    // Whether a reference to an object of a peer's is held or pinned, or stands in a message that waits.
    fn still_holds(&self, peer: u16) -> bool {
        let carries =
            |message: &Message| message.value.references.iter().any(|one| one.owner == peer);
        self.table.has_any_of(peer) || self.messages.values().any(carries)
    }

    // Closes the session with a peer, and gives up what hung on it.
    fn close(&mut self, peer: u16, reason: u8) -> Answer {
        self.session_mut(peer).close(reason);
        let sent: Vec<u64> =
            self.pins.keys().filter(|(to, _)| *to == peer).map(|(_, item)| *item).collect();
        sent.into_iter().for_each(|item| self.unpin(peer, item));
        for call in self.calls.values_mut() {
            if matches!(call, Call::Out { peer: to, .. } if *to == peer) {
                *call = Call::Ended;
            }
        }
        let (gone, kept) = std::mem::take(&mut self.messages)
            .into_iter()
            .partition(|(_, message)| message.peer == peer);
        self.messages = kept;
        let (gone_ready, kept) =
            std::mem::take(&mut self.ready).into_iter().partition(|message| message.peer == peer);
        self.ready = kept;
        let gone: BTreeMap<u64, Message> = gone;
        let gone_ready: VecDeque<Message> = gone_ready;
        for message in gone.into_values().chain(gone_ready) {
            self.take_back(&message);
        }
        self.table.close(peer);
        self.look_for_settled();
        Answer::Number(10, reason.into())
    }

    pub(super) fn is_listed(&self, index: u64, client: u16) -> bool {
        self.table.is_listed(index, client)
    }

    /// How many objects are live.
    pub(super) fn live(&self) -> u64 {
        self.table.live()
    }

    pub(super) fn counts(&self) -> Counts {
        Counts {
            live: self.table.live(),
            surrogates: self.table.surrogates(),
            calls: self.calls.len() as u64,
            waiting: self.messages.len() as u64,
            ready: self.ready.len() as u64,
            running: self.running.len() as u64,
            replies: self.replied.len() as u64,
        }
    }

    pub(super) fn peer_counts(&self, peer: u16) -> PeerCounts {
        let pinned = self.pins.keys().filter(|(to, _)| *to == peer).count() as u64;
        let (unacknowledged, inbox) = self.session(peer).held();
        let is_from = |message: &&Message| message.peer == peer;
        let waiting = self.messages.values().filter(is_from).count() as u64;
        let ready = self.ready.iter().filter(is_from).count() as u64;
        let surrogates = self.table.surrogates_of(peer);
        PeerCounts { pinned, unacknowledged, inbox, waiting, ready, surrogates }
    }

    pub(super) fn front(&self, peer: u16) -> Front {
        let front = self.session(peer).front().filter(|_| self.is_open(peer));
        front.map_or_else(Front::default, |(item, bytes)| match Item::read(bytes) {
            Some(read) => Front { item, ..read.seen() },
            None => Front { kind: 8, item, ..Front::default() },
        })
    }

    pub(super) fn reply_ready(&self, call: u64) -> bool {
        !matches!(self.calls.get(&call), Some(Call::Out { .. }))
    }

    /// The call whose reply became ready first.
    pub(super) fn next_reply(&self) -> Option<u64> {
        self.replied.front().copied()
    }
}

fn target_of(message: &Message) -> u64 {
    match message.purpose {
        Purpose::Call { target, .. } => target,
        Purpose::Reply { .. } => 0,
    }
}
