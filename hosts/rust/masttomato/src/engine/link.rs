//! What an engine keeps of one peer.

use super::wire::{self, ItemKind, Life, Seen, Why};
use super::{Session, Ticket};
use crate::numbers::{ByNumber, ByTheirNumber};
use crate::space::{CallNo, JobNo, Outcome, Reference, SpaceId, Value};
use std::collections::{BTreeMap, VecDeque};
use std::time::Duration;

/// So many numbers from the next on are in a space's reach: it keeps items of these that come early.
const REACH: u64 = 64;
/// The number of the session that a space begins in with each peer.
const FIRST_SESSION: u32 = 1;

/// Bytes that are to be written, and how many of them were.
///
/// ```
/// use masttomato::engine::Engine;
/// use masttomato::SpaceId;
/// use std::io::{self, Write};
///
/// // Writes what an engine has for a peer.
/// fn write(engine: &mut Engine, peer: SpaceId, stream: &mut impl Write) -> io::Result<()> {
///     let out = engine.output(peer);
///     while !out.is_empty() {
///         let count = stream.write(out.left())?;
///         out.advance(count);
///     }
///     Ok(())
/// }
/// # use masttomato::engine::{Life, Settings, Ticket};
/// # use masttomato::Value;
/// # use std::time::Duration;
/// # let [one, two] = [1, 2].map(|number| SpaceId::new(number).expect("a space"));
/// # let mut engine = Engine::new(Settings::new(one, two), Duration::ZERO)?;
/// # engine.connected(two, Life::only(1), Duration::ZERO)?;
/// # engine.call(Ticket(1), two.agent(), 0, Value::Unit);
/// # let _turn = engine.turn(Duration::ZERO);
/// # let mut written = Vec::new();
/// # write(&mut engine, two, &mut written)?;
/// # assert_eq!(written.len(), 16 + 32 + 20);
/// # Ok::<(), Box<dyn std::error::Error>>(())
/// ```
#[derive(Debug, Default)]
pub struct OutBuffer {
    bytes: Vec<u8>,
    written: usize,
}

impl OutBuffer {
    /// What is left to be written.
    ///
    /// ```
    /// # use masttomato::engine::*;
    /// # use masttomato::{SpaceId, Value};
    /// # use std::time::Duration;
    /// # let [one, two] = [1, 2].map(|number| SpaceId::new(number).expect("1 to 32"));
    /// # let now = Duration::ZERO;
    /// # let mut engine = Engine::new(Settings::new(one, two), now)?;
    /// engine.connected(two, Life::only(12), now)?;
    /// engine.call(Ticket(1), two.agent(), 0, Value::Unit);
    /// let _turn = engine.turn(now);
    /// assert_eq!(engine.output(two).left().len(), 16 + 32 + 20);    // a record's head, a frame's header, an item
    /// # Ok::<(), Box<dyn std::error::Error>>(())
    /// ```
    pub fn left(&self) -> &[u8] {
        &self.bytes[self.written..]
    }

    /// Whether all of it was written.
    ///
    /// ```
    /// # use masttomato::engine::*;
    /// # use masttomato::{SpaceId, Value};
    /// # use std::time::Duration;
    /// # let [one, two] = [1, 2].map(|number| SpaceId::new(number).expect("1 to 32"));
    /// # let now = Duration::ZERO;
    /// # let mut engine = Engine::new(Settings::new(one, two), now)?;
    /// engine.connected(two, Life::only(12), now)?;
    /// let _turn = engine.turn(now);
    /// assert!(engine.output(two).is_empty());
    /// # Ok::<(), Box<dyn std::error::Error>>(())
    /// ```
    pub fn is_empty(&self) -> bool {
        self.written == self.bytes.len()
    }

    /// So many more bytes were written, at most those that are left.
    ///
    /// ```
    /// # use masttomato::engine::*;
    /// # use masttomato::{SpaceId, Value};
    /// # use std::time::Duration;
    /// # let [one, two] = [1, 2].map(|number| SpaceId::new(number).expect("1 to 32"));
    /// # let now = Duration::ZERO;
    /// # let mut engine = Engine::new(Settings::new(one, two), now)?;
    /// engine.connected(two, Life::only(12), now)?;
    /// engine.call(Ticket(1), two.agent(), 0, Value::Unit);
    /// let _turn = engine.turn(now);
    /// engine.output(two).advance(60);
    /// assert_eq!(engine.output(two).left().len(), 8);
    /// # Ok::<(), Box<dyn std::error::Error>>(())
    /// ```
    pub fn advance(&mut self, count: usize) {
        self.written = self.bytes.len().min(self.written + count);
        if self.is_empty() {
            self.bytes.clear();
            self.written = 0;
        }
    }

    pub(super) fn clear(&mut self) {
        self.bytes.clear();
        self.written = 0;
    }

    pub(super) fn bytes_mut(&mut self) -> &mut Vec<u8> {
        &mut self.bytes
    }
}

/// Frames that Transmits gave and that the peer hasn't acknowledged, in a row. A Transmit repeats the first
/// item alone; so where all of them may have been lost, they are written again from here.
#[derive(Debug, Default)]
pub(super) struct Sent {
    bytes: Vec<u8>,
    start: usize,
}

impl Sent {
    pub(super) fn keep(&mut self, frame: &Seen<'_>) {
        self.bytes.extend(frame.bytes);
    }

    pub(super) fn frames(&self) -> impl Iterator<Item = Seen<'_>> {
        wire::frames_of(&self.bytes[self.start..])
    }

    /// Those below this number are acknowledged.
    pub(super) fn acknowledge(&mut self, ack: u64) {
        let known = self.frames().take_while(|frame| frame.seq() < ack);
        self.start += known.map(|frame| frame.bytes.len()).sum::<usize>();
        if self.start == self.bytes.len() {
            self.clear();
        } else if self.start > self.bytes.len() / 2 {
            self.bytes.drain(..self.start);
            self.start = 0;
        }
    }

    pub(super) fn clear(&mut self) {
        self.bytes.clear();
        self.bytes.shrink_to(1 << 16);
        self.start = 0;
    }
}

/// Frames of data that came of a session before it was opened here, in which the space takes nothing from
/// them: by their numbers, of the newest session alone. A peer transmits no others before this space has
/// acknowledged anything of that session, and the space never heard of it.
#[derive(Debug, Default)]
struct PassedOver {
    session: u32,
    frames: BTreeMap<u64, Box<[u8]>>,
}

/// More calls than a peer may have unanswered in a session and in the one before.
const MOST_UNLISTED: usize = 8_192;

/// A call that waits to be made.
#[derive(Debug)]
pub(super) struct HeldCall {
    pub(super) ticket: Ticket,
    pub(super) target: Reference,
    pub(super) method: u16,
    pub(super) value: Value,
    /// What the engine holds for it meanwhile.
    pub(super) holds: Vec<Reference>,
}

/// A Finish that waits for room.
#[derive(Debug)]
pub(super) struct HeldFinish {
    pub(super) job: JobNo,
    pub(super) outcome: Outcome,
    pub(super) holds: Vec<Reference>,
}

/// Whether an engine opens the session with a peer by itself, since either of them began a life under its number.
#[derive(Clone, Copy, Debug, PartialEq, Eq)]
pub(super) enum Renewal {
    /// It doesn't: only its program knows what it had.
    No,
    /// The ends may be in different sessions. Where this one closes for that it had nothing, and is opened again.
    Meets,
    /// The session closed since a life began, and is opened again once that is heard of; whether it was.
    Closed { is_heard: bool },
}

/// What an engine keeps of a peer.
#[derive(Debug)]
pub(super) struct Link {
    pub(super) session: Session,
    /// The number of the session: what is kept below of items is of this one.
    pub(super) number: u32,
    pub(super) life: Option<Life>,
    pub(super) renewal: Renewal,
    /// The peer is to be called, so that it hears of this space's session.
    pub(super) greets: bool,
    /// Why there never was a connection, and won't be one unless the session is opened anew.
    pub(super) refused: Option<Why>,
    pub(super) is_up: bool,
    pub(super) input: Vec<u8>,
    pub(super) out: OutBuffer,
    /// The greatest number that a Transmit gave, and what it gave that isn't acknowledged.
    pub(super) given: u64,
    pub(super) sent: Sent,
    /// All that isn't acknowledged is to be written again.
    pub(super) again: bool,
    /// Something may be left that was never given, since a Transmit gave as much as one may, or none could be made.
    pub(super) has_more: bool,
    /// The items that wait in the space's inbox, those that it keeps from the next number on, and how many
    /// it has accepted; and the replies whose references aren't settled.
    pub(super) inbox: VecDeque<ItemKind>,
    early: VecDeque<Option<ItemKind>>,
    accepted: u64,
    pub(super) unsettled: ByNumber<u64, CallNo>,
    passed_over: PassedOver,
    /// The calls of the peer that were acted on and have no reply on its way: whether each was cancelled;
    /// and how many calls were acted on, and replies given.
    pub(super) asked: ByTheirNumber<u64, bool>,
    /// The calls of the peer, and their objects, for which it wasn't listed when they were acted on: they aren't
    /// carried out, also where their session has closed since.
    unlisted: VecDeque<(u64, u64)>,
    pub(super) calls_acted_on: u64,
    /// How many calls of the peer were acted on and not claimed, those included that are lost.
    pub(super) unclaimed: u64,
    pub(super) replies_given: u64,
    /// What the peer has acknowledged, by its frames; how much of that was so at the last tick, and when
    /// something that is held found no room.
    pub(super) acked: u64,
    pub(super) acked_at_tick: u64,
    pub(super) blocked_at: Option<u64>,
    pub(super) blocked_since: Option<Duration>,
    /// Data frames that came since anything was written, and when the first of them did.
    pub(super) owed: u32,
    pub(super) owed_since: Duration,
    pub(super) heard: Duration,
    pub(super) pinged: Option<Duration>,
    pub(super) owes_pong: bool,
    pub(super) says_bye: bool,
    pub(super) down_since: Duration,
    pub(super) next_tick: Duration,
    pub(super) stuck_until: Option<Duration>,
    pub(super) calls: VecDeque<HeldCall>,
    pub(super) finishes: VecDeque<HeldFinish>,
}

impl Link {
    pub(super) fn new(now: Duration) -> Link {
        Link {
            session: Session::Down { since: now },
            number: FIRST_SESSION,
            life: None,
            renewal: Renewal::No,
            greets: false,
            refused: None,
            is_up: false,
            input: Vec::new(),
            out: OutBuffer::default(),
            given: 0,
            sent: Sent::default(),
            again: false,
            has_more: false,
            inbox: VecDeque::new(),
            early: VecDeque::new(),
            accepted: 0,
            unsettled: ByNumber::default(),
            passed_over: PassedOver::default(),
            asked: ByTheirNumber::default(),
            unlisted: VecDeque::new(),
            calls_acted_on: 0,
            unclaimed: 0,
            replies_given: 0,
            acked: 0,
            acked_at_tick: 0,
            blocked_at: None,
            blocked_since: None,
            owed: 0,
            owed_since: now,
            heard: now,
            pinged: None,
            owes_pong: false,
            says_bye: false,
            down_since: now,
            next_tick: now,
            stuck_until: None,
            calls: VecDeque::new(),
            finishes: VecDeque::new(),
        }
    }

    pub(super) fn is_open(&self) -> bool {
        self.refused.is_none() && !matches!(self.session, Session::Closed(_))
    }

    /// Whether nothing is to be written but what a Transmit gives, and nothing waits for a pong.
    pub(super) fn is_quiet(&self) -> bool {
        self.out.is_empty() && self.pinged.is_none() && !(self.owes_pong | self.says_bye)
    }

    /// Whether there was no room, and nothing was acknowledged since.
    pub(super) fn is_blocked(&self) -> bool {
        self.is_open() && self.blocked_at == Some(self.acked)
    }

    /// A connection stands, of which nothing was read or written yet.
    pub(super) fn up(&mut self, life: Life, now: Duration) {
        self.life = Some(life);
        self.is_up = true;
        self.fresh(now);
        self.again = true;
        if self.is_open() {
            self.session = Session::Open;
        }
    }

    pub(super) fn down(&mut self, now: Duration) {
        self.is_up = false;
        self.fresh(now);
        self.down_since = now;
        if self.is_open() {
            self.session = Session::Down { since: now };
        }
    }

    fn fresh(&mut self, now: Duration) {
        self.input.clear();
        self.input.shrink_to(1 << 16);
        self.out.clear();
        self.heard = now;
        self.pinged = None;
        self.owes_pong = false;
    }

    /// A frame was heard, of this session number, by which the peer closed this end or not: so the ends differ, or have met.
    pub(super) fn heard_of(&mut self, session: u32, closes: bool) {
        self.renewal = match self.renewal {
            Renewal::Closed { .. } => Renewal::Closed { is_heard: true },
            Renewal::Meets if closes || session > self.number => Renewal::Closed { is_heard: true },
            Renewal::Meets if self.is_open() && session == self.number => Renewal::No,
            other => other,
        };
    }

    /// A frame of data came, at which the space accepted so many items: this one's and others that it had
    /// kept. Of two frames of one number it keeps the first.
    pub(super) fn came(&mut self, frame: &Seen<'_>, accepted: u64) {
        if accepted == 1 && self.early.is_empty() && frame.seq() == self.accepted + 1 {
            self.accepted += 1;
            return self.inbox.push_back(frame.item());
        }
        let ahead = frame.seq().checked_sub(self.accepted + 1).filter(|ahead| *ahead < REACH);
        if let Some(place) = ahead.map(|ahead| ahead as usize) {
            if self.early.len() <= place {
                self.early.resize(place + 1, None);
            }
            self.early[place].get_or_insert(frame.item());
        }
        for _ in 0..accepted {
            let kind = self.early.pop_front().flatten();
            self.inbox.push_back(kind.unwrap_or(ItemKind::Other));
        }
        self.accepted += accepted;
    }

    /// A frame of data came of which the space took nothing. Where it is of a later session than this end is in it is
    /// kept for that one: of two of one number the first.
    pub(super) fn passed_over(&mut self, frame: &Seen<'_>) {
        let kept = &mut self.passed_over;
        let session = frame.session();
        if session <= self.number || session < kept.session || !(1..=REACH).contains(&frame.seq()) {
            return;
        }
        if session > kept.session {
            *kept = PassedOver { session, frames: BTreeMap::new() };
        }
        kept.frames.entry(frame.seq()).or_insert_with(|| frame.bytes.into());
    }

    /// What was passed over of the session that this end is in now, in the order of its numbers. Nothing is kept
    /// then.
    pub(super) fn take_passed_over(&mut self) -> impl Iterator<Item = Box<[u8]>> + use<> {
        let kept = std::mem::take(&mut self.passed_over);
        let is_its = kept.session == self.number;
        kept.frames.into_values().filter(move |_| is_its)
    }

    /// The session has closed: what came, and what isn't acknowledged, is thrown away.
    pub(super) fn forget(&mut self) {
        self.sent.clear();
        self.inbox.clear();
        self.early.clear();
        self.unsettled.clear();
        self.asked.clear();
        self.unclaimed = 0;
        self.stuck_until = None;
    }

    /// The session is open anew, under a number: nothing was given, accepted or acknowledged in it. The connection
    /// and what is to be written over it stay: what was given before is answered as any frame of an older session.
    pub(super) fn open(&mut self, number: u32, now: Duration) {
        self.forget();
        self.number = number;
        self.refused = None;
        (self.given, self.accepted) = (0, 0);
        (self.calls_acted_on, self.replies_given) = (0, 0);
        (self.acked, self.acked_at_tick) = (0, 0);
        (self.blocked_at, self.blocked_since) = (None, None);
        (self.owed, self.again) = (0, false);
        (self.down_since, self.next_tick) = (now, now);
        self.session = if self.is_up { Session::Open } else { Session::Down { since: now } };
    }

    /// A frame was given for the first time: it is kept, and a reply that it carries is on its way.
    pub(super) fn gave(&mut self, frame: &Seen<'_>) {
        self.given = frame.seq();
        self.sent.keep(frame);
        if let ItemKind::Reply { call, .. } = frame.item() {
            self.asked.remove(&call);
            self.unlisted.retain(|(known, _)| *known != call);
            self.replies_given += 1;
        }
    }

    /// A call was acted on of an object for which the peer isn't listed.
    pub(super) fn note_unlisted(&mut self, call: u64, target: u64) {
        // Of so many the first ones were lost with what they brought, and are never claimed.
        if self.unlisted.len() == MOST_UNLISTED {
            self.unlisted.pop_front();
        }
        self.unlisted.push_back((call, target));
    }

    /// Whether a call that is claimed now is one of those, which it isn't any more.
    pub(super) fn take_unlisted(&mut self, call: u64, target: u64) -> bool {
        let place = self.unlisted.iter().position(|known| *known == (call, target));
        place.is_some_and(|place| self.unlisted.remove(place).is_some())
    }

    /// How many calls of the peer were acted on and have no reply on its way yet.
    pub(super) fn unanswered(&self) -> u64 {
        self.calls_acted_on.saturating_sub(self.replies_given)
    }
}

/// The links to all peers, by their numbers.
#[derive(Debug)]
pub(super) struct Links(Vec<Option<Link>>);

impl Links {
    pub(super) fn new(peers: impl Iterator<Item = SpaceId>, now: Duration) -> Links {
        let mut links: Vec<Option<Link>> = (0..=SpaceId::MOST).map(|_| None).collect();
        for peer in peers {
            links[usize::from(peer.get())] = Some(Link::new(now));
        }
        Links(links)
    }

    pub(super) fn get(&self, peer: SpaceId) -> Option<&Link> {
        self.0[usize::from(peer.get())].as_ref()
    }

    pub(super) fn get_mut(&mut self, peer: SpaceId) -> Option<&mut Link> {
        self.0[usize::from(peer.get())].as_mut()
    }

    pub(super) fn values_mut(&mut self) -> impl Iterator<Item = &mut Link> {
        self.0.iter_mut().flatten()
    }
}
