//! A space with its connections' bytes and all that is to be kept of its peers, but without sockets,
//! threads and clocks: bytes in, bytes out, time given. Nodes are made of it, and tests run several in
//! one thread over a network and a clock that are made up.
//!
//! ```
//! use masttomato::engine::{Answered, Engine, Life, Settings, Ticket};
//! use masttomato::space::{Outcome, SpaceId, Status, Value};
//! use std::time::Duration;
//!
//! # fn main() -> Result<(), Box<dyn std::error::Error>> {
//! let [one, two] = [1, 2].map(|number| SpaceId::new(number).expect("a space"));
//! let now = Duration::ZERO;
//! let mut owner = Engine::new(Settings::new(one, two), now)?;
//! let mut caller = Engine::new(Settings::new(two, two), now)?;
//! owner.connected(two, Life::only(12), now)?;
//! caller.connected(one, Life::only(11), now)?;
//! caller.call(Ticket(7), one.agent(), 3, Value::Int(20));
//! caller.turn(now);
//! owner.bytes(two, caller.output(one).left(), now)?;
//! let job = owner.turn(now).jobs.remove(0);
//! owner.finish(job.job, Outcome::Answer(Value::Int(42)));
//! owner.turn(now);
//! caller.bytes(one, owner.output(two).left(), now)?;
//! let answers = caller.turn(now).answers;
//! assert_eq!(answers, [(Ticket(7), Answered::Replied { status: Status::Answered, value: Value::Int(42) })]);
//! # Ok(())
//! # }
//! ```

mod coming;
mod going;
mod link;
mod renewing;
mod report;
mod trace;
mod turning;
mod wire;

pub use crate::space::World;
pub use link::OutBuffer;
pub(crate) use renewing::GREET;
pub use report::{Awaited, Doing, Report, Running, SessionReport, ThreadReport, TurnedAway};
pub use trace::{Files, TraceSink};
pub use wire::{Flaw, HELLO, Hello, LONGEST_BODY, Life, WINDOW, Why};

use crate::numbers::ByNumber;
use crate::space::{
    Birth, BirthError, Bounds, BoundsError, CallNo, Due, Job, JobNo, Limits, Outcome, Reason,
    Reference, Refusal, SegmentSize, Space, SpaceError, SpaceId, Status, Value,
};
use link::{HeldCall, HeldFinish, Link, Links, Renewal};
use std::fmt;
use std::sync::Arc;
use std::time::Duration;
use turning::{Lent, Stirred};

/// An acknowledgement alone waits so long, or for so many items, for an item that says it too.
const ACK_WAITS: Duration = Duration::from_millis(2);
const ACK_ITEMS: u32 = 32;
/// After so much silence a peer is pinged, and after so much more the connection is dropped.
const SILENCE: Duration = Duration::from_secs(5);
const NO_PONG: Duration = Duration::from_secs(10);
/// An item that no room was there for is tried again after this.
const STUCK: Duration = Duration::from_millis(20);
/// So long a Finish waits for a peer to acknowledge anything. Its object runs no other call meanwhile, so
/// then the session closes: an honest peer hardly ever has 4,096 items out, and never says nothing of them.
const NO_ROOM: Duration = Duration::from_secs(5);
/// More calls of one peer without a reply on its way are no honest space's.
const MOST_UNANSWERED: u64 = 4_096;
/// Timers of seconds are looked at so often.
const LOOK: Duration = Duration::from_millis(500);
/// So many ticks without progress close a session.
const TICKS: u8 = 255;
/// The limits of an engine's sessions.
const LIMITS: Limits = Limits::new(WINDOW, TICKS).expect("these are limits");

/// The program's own number of a call, by which it knows the answer again: see [`Engine::call`].
///
/// ```
/// # use masttomato::engine::*;
/// # use masttomato::{SpaceId, Value};
/// # use std::time::Duration;
/// # let [one, two] = [1, 2].map(|number| SpaceId::new(number).expect("1 to 32"));
/// # let now = Duration::ZERO;
/// # let mut engine = Engine::new(Settings::new(one, two), now)?;
/// engine.connected(two, Life::only(12), now)?;
/// engine.call(Ticket(700), two.agent(), 0, Value::Unit);
/// assert_eq!(engine.number(Ticket(700)).map(|call| call.get()), Some(1));
/// # Ok::<(), Box<dyn std::error::Error>>(())
/// ```
#[derive(Clone, Copy, Debug, PartialEq, Eq, Hash, PartialOrd, Ord)]
pub struct Ticket(pub u64);

/// What an engine is made with.
///
/// ```
/// use masttomato::engine::Settings;
/// use masttomato::SpaceId;
/// use std::time::Duration;
///
/// let [one, two] = [SpaceId::try_from(1)?, SpaceId::try_from(2)?];
/// let settings = Settings { give_up_after: Duration::from_secs(60), ..Settings::new(one, two) };
/// assert_eq!(settings.open_calls, 2_048);
/// # Ok::<(), masttomato::space::NoSpace>(())
/// ```
#[derive(Clone, Debug, PartialEq, Eq, Hash)]
pub struct Settings {
    /// The number of its space.
    pub space: SpaceId,
    /// The last space that there is.
    pub spaces: SpaceId,
    /// A session without progress, or without a connection, closes after this.
    pub give_up_after: Duration,
    /// So many calls are open at most; further ones wait.
    pub open_calls: usize,
}

impl Settings {
    /// The usual settings of a space among those from 1 to `spaces`: give up after ten minutes, and
    /// 2,048 open calls.
    ///
    /// ```
    /// # use masttomato::engine::*;
    /// # use masttomato::{SpaceId, Value};
    /// # use std::time::Duration;
    /// # let [one, two] = [1, 2].map(|number| SpaceId::new(number).expect("1 to 32"));
    /// # let now = Duration::ZERO;
    /// # let mut engine = Engine::new(Settings::new(one, two), now)?;
    /// let settings = Settings::new(one, two);
    /// assert_eq!((settings.give_up_after, settings.open_calls), (Duration::from_secs(600), 2_048));
    /// # Ok::<(), Box<dyn std::error::Error>>(())
    /// ```
    pub fn new(space: SpaceId, spaces: SpaceId) -> Settings {
        let give_up_after = Duration::from_secs(600);
        Settings { space, spaces, give_up_after, open_calls: 2_048 }
    }
}

/// How the session with a peer stands: see [`Node::session`](crate::Node::session) and
/// [`Engine::session`].
///
/// ```
/// # use masttomato::engine::*;
/// # use masttomato::{SpaceId, Value};
/// # use std::time::Duration;
/// # let [one, two] = [1, 2].map(|number| SpaceId::new(number).expect("1 to 32"));
/// # let now = Duration::ZERO;
/// # let mut engine = Engine::new(Settings::new(one, two), now)?;
/// assert_eq!(engine.session(two), Session::Down { since: now });
/// engine.connected(two, Life::only(12), now)?;
/// assert_eq!(engine.session(two), Session::Open);
/// engine.close(two);
/// assert_eq!(engine.session(two), Session::Closed(masttomato::Reason::Asked));
/// # Ok::<(), Box<dyn std::error::Error>>(())
/// ```
#[derive(Clone, Copy, Debug, PartialEq, Eq, Hash)]
#[non_exhaustive]
pub enum Session {
    /// There is a connection.
    Open,
    /// There is none, since this time of the engine. It may come back.
    Down {
        /// Since when.
        since: Duration,
    },
    /// It has closed, and stays so until it is opened anew: see [`Node::open`](crate::Node::open).
    Closed(Reason),
    /// There is none, and the last one was refused.
    Refused(Why),
}

/// What came of a call: see [`Engine::call`].
///
/// ```
/// # use masttomato::engine::*;
/// # use masttomato::{SpaceId, Value};
/// # use std::time::Duration;
/// # let [one, two] = [1, 2].map(|number| SpaceId::new(number).expect("1 to 32"));
/// # let now = Duration::ZERO;
/// # let mut engine = Engine::new(Settings::new(one, two), now)?;
/// engine.close(two);
/// engine.call(Ticket(1), two.agent(), 0, Value::Unit);
/// assert_eq!(engine.turn(now).answers, [(Ticket(1), Answered::Down(two))]);
/// # Ok::<(), Box<dyn std::error::Error>>(())
/// ```
#[derive(Clone, Debug, PartialEq, Eq, Hash)]
#[non_exhaustive]
pub enum Answered {
    /// Its reply. Each reference in it is once in the hand, repeats included.
    Replied {
        /// What kind of answer it is.
        status: Status,
        /// What it answered.
        value: Value,
    },
    /// It was made, and the session closed before a reply came.
    Ended(Reason),
    /// It wasn't made: there is no session with the owner, or it has closed.
    Down(SpaceId),
    /// It wasn't made: there was never a session with this space, which refused this one's hello.
    Refused(SpaceId, Why),
    /// It wasn't made: the value has no pickle.
    TooLarge,
    /// It wasn't made: a reference in it was lost, its owner has gone.
    Lost,
    /// It wasn't made: there was no room for it at once, and it was to be made at once or not at all.
    Busy,
    /// It wasn't made: the bounds of the engine's life can't be raised, so there is no number for it.
    NotCovered,
}

/// What a peer did that no honest one does. Its connection is to be dropped. See [`Engine::bytes`].
///
/// ```
/// # use masttomato::engine::*;
/// # use masttomato::{SpaceId, Value};
/// # use std::time::Duration;
/// # let [one, two] = [1, 2].map(|number| SpaceId::new(number).expect("1 to 32"));
/// # let now = Duration::ZERO;
/// # let mut engine = Engine::new(Settings::new(one, two), now)?;
/// engine.connected(two, Life::only(12), now)?;
/// assert_eq!(engine.bytes(two, &[7; 16], now), Err(Misbehaved::NoRecord));
/// # Ok::<(), Box<dyn std::error::Error>>(())
/// ```
#[derive(Clone, Copy, Debug, PartialEq, Eq, Hash)]
#[non_exhaustive]
pub enum Misbehaved {
    /// It sent bytes that are no record.
    NoRecord,
    /// It sent the head of a record that is too long.
    LongRecord,
    /// It sent a record that cuts a frame.
    CutFrame,
    /// It sent a frame in another's name.
    OtherSender,
    /// It sent a frame for another.
    OtherReceiver,
    /// It sent bytes that are no frame.
    NoFrame,
}

impl fmt::Display for Misbehaved {
    fn fmt(&self, f: &mut fmt::Formatter<'_>) -> fmt::Result {
        f.write_str(match self {
            Misbehaved::NoRecord => "it sent bytes that are no record",
            Misbehaved::LongRecord => "it sent a record that is too long",
            Misbehaved::CutFrame => "it sent a record that cuts a frame",
            Misbehaved::OtherSender => "it sent a frame in another's name",
            Misbehaved::OtherReceiver => "it sent a frame for another",
            Misbehaved::NoFrame => "it sent bytes that are no frame",
        })
    }
}

impl std::error::Error for Misbehaved {}

/// What a turn of an engine gave: see [`Engine::turn`].
///
/// ```
/// # use masttomato::engine::*;
/// # use masttomato::{SpaceId, Value};
/// # use std::time::Duration;
/// # let [one, two] = [1, 2].map(|number| SpaceId::new(number).expect("1 to 32"));
/// # let now = Duration::ZERO;
/// # let mut engine = Engine::new(Settings::new(one, two), now)?;
/// engine.connected(two, Life::only(12), now)?;
/// let turn = engine.turn(now);
/// assert_eq!(turn.changes, [(two, Session::Open)]);
/// assert!(turn.jobs.is_empty() && turn.answers.is_empty() && turn.next.is_some());
/// # Ok::<(), Box<dyn std::error::Error>>(())
/// ```
#[derive(Clone, Debug, Default, PartialEq, Eq)]
#[must_use = "jobs are to be finished, and references in answers given back"]
#[non_exhaustive]
pub struct Turn {
    /// Jobs that were claimed: each wants one `finish`.
    pub jobs: Vec<Job>,
    /// What came of calls.
    pub answers: Vec<(Ticket, Answered)>,
    /// The indexes of own objects that nobody can use any more.
    pub withdrawn: Vec<u64>,
    /// Peers whose sessions stand otherwise than before.
    pub changes: Vec<(SpaceId, Session)>,
    /// Peers that began a new life, so that what was had of them is lost: each reference to their objects is to be
    /// given back. Then their sessions are opened again by the engine.
    pub renewed: Vec<SpaceId>,
    /// Peers that are silent: their connections are to be dropped.
    pub silent: Vec<SpaceId>,
    /// When it wants the next turn at the latest.
    pub next: Option<Duration>,
}

impl Turn {
    fn is_empty(&self) -> bool {
        self.jobs.is_empty()
            && self.answers.is_empty()
            && self.withdrawn.is_empty()
            && self.changes.is_empty()
            && self.renewed.is_empty()
            && self.silent.is_empty()
    }
}

/// What an engine counted.
///
/// ```
/// # use masttomato::{Node, Peers, SpaceId};
/// # fn main() -> Result<(), Box<dyn std::error::Error>> {
/// let node = Node::builder(SpaceId::try_from(1)?, Peers::none()).start()?;
/// let counts = node.counts();
/// println!("{} calls, {} of them open", counts.calls_made, counts.calls_open);
/// # Ok(())
/// # }
/// ```
#[derive(Clone, Copy, Debug, Default, PartialEq, Eq, Hash)]
#[non_exhaustive]
pub struct Counts {
    /// Calls that were made, those of agents too.
    pub calls_made: u64,
    /// Calls whose replies came.
    pub calls_answered: u64,
    /// Calls whose sessions closed first.
    pub calls_ended: u64,
    /// Calls that nobody waited for any more.
    pub calls_abandoned: u64,
    /// Calls that are open.
    pub calls_open: u64,
    /// Jobs that were claimed.
    pub jobs_claimed: u64,
    /// Jobs that were finished.
    pub jobs_finished: u64,
    /// Frames that came.
    pub frames_in: u64,
    /// Frames that were given to be written.
    pub frames_out: u64,
    /// Frames that were left out, since this connection has them already.
    pub frames_left_out: u64,
    /// Bytes that came.
    pub bytes_in: u64,
    /// Bytes that were given to be written.
    pub bytes_out: u64,
    /// Records that were given to be written: as many writes.
    pub records_out: u64,
    /// Connections that came to stand.
    pub connects: u64,
    /// Objects that were withdrawn.
    pub withdrawn: u64,
    /// Times that a peer misbehaved.
    pub misbehaved: u64,
    /// Times that something waited for want of memory or room.
    pub wants: u64,
    /// Times that the trace couldn't be written.
    pub trace_faults: u64,
    /// Times that the bounds of its life couldn't be raised.
    pub not_covered: u64,
    /// Frames that were lost since their sessions were further ahead than any honest peer's.
    pub far_frames: u64,
    /// Times that a peer came back as a new life.
    pub renewals: u64,
    /// Calls of objects for which their caller wasn't listed: it can't have had the reference, and they were
    /// answered as if there were no such method.
    pub calls_unlisted: u64,
    /// Connections that were hung up on before anybody was let in by them.
    pub turned_away: u64,
}

/// A space, its connections' bytes, and all that is kept of its peers. The module has an example of two.
///
/// What it is asked of references is as of a space, and never refused: what a call, or a job's outcome, refers
/// to is kept until that has been handed on.
///
/// ```
/// use masttomato::engine::{Answered, Engine, Session, Settings, Ticket};
/// use masttomato::{Reason, SpaceId, Value};
/// use std::time::Duration;
///
/// # fn main() -> Result<(), Box<dyn std::error::Error>> {
/// # let [one, two] = [1, 2].map(|number| SpaceId::new(number).expect("a space"));
/// let now = Duration::ZERO;
/// let mut engine = Engine::new(Settings { open_calls: 1, ..Settings::new(one, two) }, now)?;
/// engine.record(Box::new(|entries: &str| {
///     print!("{entries}");
///     Ok(())
/// }));
/// let object = engine.export()?;
/// engine.hold(object)?;                       // it is in the hand twice
/// engine.call(Ticket(1), two.agent(), 0, Value::Ref(object));
/// engine.release(object);
/// engine.release(object);                     // the call has it still
/// engine.call(Ticket(2), two.agent(), 0, Value::Unit);
/// engine.try_call(Ticket(3), two.agent(), 0, Value::Unit);
/// engine.abandon(Ticket(2));                  // it waited for the first one, and is never made
/// let turn = engine.turn(now);
/// assert_eq!(turn.answers, [(Ticket(3), Answered::Busy)]);
/// assert!(turn.withdrawn.is_empty() && engine.number(Ticket(1)).is_some());
///
/// engine.close(two);
/// let turn = engine.turn(now);
/// assert_eq!(turn.answers, [(Ticket(1), Answered::Ended(Reason::Asked))]);
/// assert_eq!((turn.withdrawn, engine.session(two)), (vec![object.index], Session::Closed(Reason::Asked)));
/// assert_eq!((engine.counts().calls_made, engine.counts().calls_abandoned), (1, 1));
/// # Ok(())
/// # }
/// ```
pub struct Engine {
    space: Space,
    settings: Settings,
    links: Links,
    peers: Arc<[SpaceId]>,
    // Those that are connected.
    up: Vec<SpaceId>,
    claims: bool,
    // What there may be to settle, claim, give up or withdraw; whether something is held until there is room, and whether
    // an item waits for room; and when timers are looked at.
    stirred: Stirred,
    has_held: bool,
    has_stuck: bool,
    // Whether a session is to be opened, or a peer to be called, since a life began.
    has_renewals: bool,
    // How many calls of all peers were acted on and not claimed, at most: those that are lost count until timers are looked at.
    unclaimed: u64,
    look_at: Duration,
    calls: ByNumber<CallNo, (Ticket, SpaceId)>,
    jobs: ByNumber<JobNo, Claimed>,
    tickets: ByNumber<Ticket, Option<CallNo>>,
    ready: Vec<CallNo>,
    turn: Turn,
    counts: Counts,
    turned_away: Option<TurnedAway>,
    // Where frames are put that a Transmit gives.
    frames: Vec<u8>,
    sink: Option<Box<dyn TraceSink>>,
    chain_sink: Option<Box<dyn TraceSink>>,
}

// A job that wasn't finished: whose it is, since when, and what it is lent.
struct Claimed {
    client: SpaceId,
    since: Duration,
    lent: Lent,
}

// What came of a call that was to be made.
enum Made {
    As(CallNo),
    // It never will be.
    Never(Answered),
    // There is no room for it now.
    Waits,
}

impl fmt::Debug for Engine {
    fn fmt(&self, f: &mut fmt::Formatter<'_>) -> fmt::Result {
        f.debug_struct("Engine").field("space", &self.space.id()).finish_non_exhaustive()
    }
}

impl Engine {
    /// An engine of a space that has done nothing.
    ///
    /// ```
    /// # use masttomato::engine::*;
    /// # use masttomato::{SpaceId, Value};
    /// # use std::time::Duration;
    /// # let [one, two] = [1, 2].map(|number| SpaceId::new(number).expect("1 to 32"));
    /// # let now = Duration::ZERO;
    /// # let mut engine = Engine::new(Settings::new(one, two), now)?;
    /// let engine = Engine::new(Settings { open_calls: 64, ..Settings::new(one, two) }, now)?;
    /// assert_eq!(engine.peers().collect::<Vec<_>>(), [two]);
    /// # Ok::<(), Box<dyn std::error::Error>>(())
    /// ```
    ///
    /// # Errors
    /// Where there is no memory for the space.
    ///
    /// # Panics
    /// Where its number is above the last one.
    pub fn new(settings: Settings, now: Duration) -> Result<Engine, SpaceError> {
        let space = Space::new(settings.space, settings.spaces, LIMITS)?;
        Ok(Engine::of(space, settings, now))
    }

    /// An engine of a space whose life begins behind bounds. What of it is known of earlier lives is nothing; peers that
    /// knew one close their sessions and open them again by themselves.
    ///
    /// ```
    /// # use masttomato::engine::*;
    /// # use masttomato::space::Bounds;
    /// # use masttomato::SpaceId;
    /// # use std::time::Duration;
    /// # let path = std::env::temp_dir().join(format!("masttomato-engine-{}", std::process::id()));
    /// # let [one, two] = [1, 2].map(|number| SpaceId::new(number).expect("1 to 32"));
    /// # let now = Duration::ZERO;
    /// Bounds::create(&path, World::named("shop"), one, two)?;
    /// for first in ["1.1", "1.1025"] {
    ///     let bounds = Bounds::open(&path, World::named("shop"), one, two)?;
    ///     let mut engine = Engine::begin_behind(bounds, Settings::new(one, two), now)?;
    ///     assert_eq!(engine.export()?.to_string(), first);
    /// }
    /// # std::fs::remove_file(&path)?;
    /// # Ok::<(), Box<dyn std::error::Error>>(())
    /// ```
    ///
    /// # Errors
    /// As of [`Space::begin_behind`].
    ///
    /// # Panics
    /// Where the bounds are another space's than the settings.
    pub fn begin_behind(
        bounds: Bounds,
        settings: Settings,
        now: Duration,
    ) -> Result<Engine, BirthError> {
        let is_its = (bounds.space(), bounds.spaces()) == (settings.space, settings.spaces);
        assert!(is_its, "the bounds are another space's");
        Ok(Engine::of(Space::begin_behind(bounds, LIMITS)?, settings, now))
    }

    fn of(space: Space, settings: Settings, now: Duration) -> Engine {
        let mut links = Links::new(space.peers(), now);
        if let Some(bounds) = space.bounds() {
            for peer in space.peers() {
                if let Some(link) = links.get_mut(peer) {
                    link.number = bounds.birth().session(peer);
                }
            }
        }
        Engine {
            settings,
            peers: space.peers().collect(),
            space,
            links,
            up: Vec::new(),
            claims: true,
            stirred: Stirred::default(),
            has_held: false,
            has_stuck: false,
            has_renewals: false,
            unclaimed: 0,
            look_at: now,
            calls: ByNumber::default(),
            jobs: ByNumber::default(),
            tickets: ByNumber::default(),
            ready: Vec::new(),
            turn: Turn::default(),
            counts: Counts::default(),
            turned_away: None,
            frames: Vec::new(),
            sink: None,
            chain_sink: None,
        }
    }

    /// From now on the entries of the space's trace go to a sink, each before the bytes leave that it
    /// tells of. It is to be asked for before anything else. See [`Files`].
    ///
    /// ```
    /// # use masttomato::engine::*;
    /// # use masttomato::{SpaceId, Value};
    /// # use std::time::Duration;
    /// # let [one, two] = [1, 2].map(|number| SpaceId::new(number).expect("1 to 32"));
    /// # let now = Duration::ZERO;
    /// # let mut engine = Engine::new(Settings::new(one, two), now)?;
    /// engine.record(Box::new(|entries: &str| {
    ///     print!("{entries}");
    ///     Ok(())
    /// }));
    /// # Ok::<(), Box<dyn std::error::Error>>(())
    /// ```
    pub fn record(&mut self, sink: Box<dyn TraceSink>) {
        self.space.keep_trace();
        self.sink = self.begun(sink);
    }

    // A life says first what it begins behind; and its stamps go on behind those of the lives before.
    fn begun(&mut self, mut sink: Box<dyn TraceSink>) -> Option<Box<dyn TraceSink>> {
        let Some(line) = self.space.bounds().map(life_line) else { return Some(sink) };
        self.space.rise_to(sink.last_stamp());
        let is_put = sink.entries(&line).is_ok();
        self.counts.trace_faults += u64::from(!is_put);
        is_put.then_some(sink)
    }

    /// From now on the space keeps a chain, whose entries go to a sink, each before the bytes leave that it tells of, and behind
    /// each segment its seal. The first lines of segments aren't given: [`Files`] puts them in where it joins a chain. It is to be
    /// asked for before anything else, and may be beside a trace. See [`Files::for_chain`].
    ///
    /// ```
    /// # use masttomato::engine::*;
    /// # use masttomato::space::SegmentSize;
    /// # use masttomato::{SpaceId, Value};
    /// # use std::time::Duration;
    /// # let [one, two] = [1, 2].map(|number| SpaceId::new(number).expect("1 to 32"));
    /// # let now = Duration::ZERO;
    /// # let mut engine = Engine::new(Settings::new(one, two), now)?;
    /// engine.record_chain(SegmentSize::default(), Box::new(|lines: &str| {
    ///     print!("{lines}");
    ///     Ok(())
    /// }));
    /// engine.export()?;
    /// engine.seal();                                   // now a seal stands behind it
    /// # Ok::<(), Box<dyn std::error::Error>>(())
    /// ```
    pub fn record_chain(&mut self, size: SegmentSize, sink: Box<dyn TraceSink>) {
        self.space.keep_chain(size);
        self.chain_sink = self.begun(sink);
    }

    /// Seals what of the chain isn't sealed yet, and gives that to its sink: at the end, so that the space itself has said
    /// what it was then.
    ///
    /// ```
    /// # use masttomato::engine::*;
    /// # use masttomato::{SpaceId, Value};
    /// # use std::time::Duration;
    /// # let [one, two] = [1, 2].map(|number| SpaceId::new(number).expect("1 to 32"));
    /// # let now = Duration::ZERO;
    /// # let mut engine = Engine::new(Settings::new(one, two), now)?;
    /// engine.seal();                                   // it keeps none
    /// # Ok::<(), Box<dyn std::error::Error>>(())
    /// ```
    pub fn seal(&mut self) {
        self.space.seal();
        self.flush();
    }

    /// The number of the space.
    ///
    /// ```
    /// # use masttomato::engine::*;
    /// # use masttomato::{SpaceId, Value};
    /// # use std::time::Duration;
    /// # let [one, two] = [1, 2].map(|number| SpaceId::new(number).expect("1 to 32"));
    /// # let now = Duration::ZERO;
    /// # let mut engine = Engine::new(Settings::new(one, two), now)?;
    /// assert_eq!(engine.id(), one);
    /// # Ok::<(), Box<dyn std::error::Error>>(())
    /// ```
    pub fn id(&self) -> SpaceId {
        self.space.id()
    }

    /// How the session with a peer stands; that of a space which is no peer is closed.
    ///
    /// ```
    /// # use masttomato::engine::*;
    /// # use masttomato::{SpaceId, Value};
    /// # use std::time::Duration;
    /// # let [one, two] = [1, 2].map(|number| SpaceId::new(number).expect("1 to 32"));
    /// # let now = Duration::ZERO;
    /// # let mut engine = Engine::new(Settings::new(one, two), now)?;
    /// assert_eq!(engine.session(two), Session::Down { since: now });
    /// # Ok::<(), Box<dyn std::error::Error>>(())
    /// ```
    pub fn session(&self, peer: SpaceId) -> Session {
        self.links.get(peer).map_or(Session::Closed(Reason::Asked), |link| link.session)
    }

    /// What was counted until now.
    ///
    /// ```
    /// # use masttomato::engine::*;
    /// # use masttomato::{SpaceId, Value};
    /// # use std::time::Duration;
    /// # let [one, two] = [1, 2].map(|number| SpaceId::new(number).expect("1 to 32"));
    /// # let now = Duration::ZERO;
    /// # let mut engine = Engine::new(Settings::new(one, two), now)?;
    /// engine.connected(two, Life::only(12), now)?;
    /// engine.call(Ticket(1), two.agent(), 0, Value::Unit);
    /// assert_eq!((engine.counts().calls_made, engine.counts().calls_open), (1, 1));
    /// # Ok::<(), Box<dyn std::error::Error>>(())
    /// ```
    pub fn counts(&self) -> Counts {
        Counts { calls_open: self.calls.len() as u64, ..self.counts }
    }

    /// The number of the call of a ticket, once it was made and until it is answered.
    ///
    /// ```
    /// # use masttomato::engine::*;
    /// # use masttomato::{SpaceId, Value};
    /// # use std::time::Duration;
    /// # let [one, two] = [1, 2].map(|number| SpaceId::new(number).expect("1 to 32"));
    /// # let now = Duration::ZERO;
    /// # let mut engine = Engine::new(Settings::new(one, two), now)?;
    /// engine.call(Ticket(1), two.agent(), 0, Value::Unit);
    /// assert!(engine.number(Ticket(1)).is_some() && engine.number(Ticket(2)).is_none());
    /// # Ok::<(), Box<dyn std::error::Error>>(())
    /// ```
    pub fn number(&self, ticket: Ticket) -> Option<CallNo> {
        self.tickets.get(&ticket).copied().flatten()
    }

    /// The stamp of the last entry of the trace.
    ///
    /// ```
    /// # use masttomato::engine::*;
    /// # use masttomato::{SpaceId, Value};
    /// # use std::time::Duration;
    /// # let [one, two] = [1, 2].map(|number| SpaceId::new(number).expect("1 to 32"));
    /// # let now = Duration::ZERO;
    /// # let mut engine = Engine::new(Settings::new(one, two), now)?;
    /// engine.record(Box::new(|_: &str| Ok(())));
    /// engine.export()?;
    /// assert_eq!(engine.stamp(), 1);
    /// # Ok::<(), Box<dyn std::error::Error>>(())
    /// ```
    pub fn stamp(&self) -> u64 {
        self.space.stamp()
    }

    /// A connection with a peer stands, over which nothing went yet but the hellos.
    ///
    /// ```
    /// # use masttomato::engine::*;
    /// # use masttomato::{SpaceId, Value};
    /// # use std::time::Duration;
    /// # let [one, two] = [1, 2].map(|number| SpaceId::new(number).expect("1 to 32"));
    /// # let now = Duration::ZERO;
    /// # let mut engine = Engine::new(Settings::new(one, two), now)?;
    /// engine.connected(two, Life::only(12), now)?;
    /// assert_eq!(engine.session(two), Session::Open);
    /// assert_eq!(engine.connected(one, Life::only(12), now), Err(Why::OtherNumber));
    /// # Ok::<(), Box<dyn std::error::Error>>(())
    /// ```
    ///
    /// # Errors
    /// `NumberUsed` where another process has used the peer's number, `OldLife` where a later life of it is known,
    /// `OtherNumber` where it is none.
    pub fn connected(&mut self, peer: SpaceId, life: Life, now: Duration) -> Result<(), Why> {
        let link = self.links.get_mut(peer).ok_or(Why::OtherNumber)?;
        let follows = link.life.map(|known| life.follows(known)).transpose()?;
        link.up(life, now);
        if !self.up.contains(&peer) {
            self.up.push(peer);
        }
        self.counts.connects += 1;
        self.turn.changes.push((peer, link.session));
        match follows {
            None => self.meet(peer, life),
            Some(true) => self.renew(peer),
            Some(false) => {}
        }
        Ok(())
    }

    /// Whether this life of a peer may be connected now: a connection that stands is given up for another one after that alone.
    ///
    /// ```
    /// # use masttomato::engine::*;
    /// # use masttomato::SpaceId;
    /// # use std::time::Duration;
    /// # let [one, two] = [1, 2].map(|number| SpaceId::new(number).expect("1 to 32"));
    /// # let now = Duration::ZERO;
    /// # let mut engine = Engine::new(Settings::new(one, two), now)?;
    /// engine.connected(two, Life::only(12), now)?;
    /// assert_eq!(engine.may_connect(two, Life::only(12)), Ok(()));
    /// assert_eq!(engine.may_connect(two, Life::only(13)), Err(Why::NumberUsed));
    /// # Ok::<(), Box<dyn std::error::Error>>(())
    /// ```
    ///
    /// # Errors
    /// As of [`Engine::connected`].
    pub fn may_connect(&self, peer: SpaceId, life: Life) -> Result<(), Why> {
        let link = self.links.get(peer).ok_or(Why::OtherNumber)?;
        link.life.map_or(Ok(()), |known| life.follows(known).map(drop))
    }

    /// The connection with a peer is gone.
    ///
    /// ```
    /// # use masttomato::engine::*;
    /// # use masttomato::{SpaceId, Value};
    /// # use std::time::Duration;
    /// # let [one, two] = [1, 2].map(|number| SpaceId::new(number).expect("1 to 32"));
    /// # let now = Duration::ZERO;
    /// # let mut engine = Engine::new(Settings::new(one, two), now)?;
    /// engine.connected(two, Life::only(12), now)?;
    /// let later = now + Duration::from_secs(1);
    /// engine.disconnected(two, later);
    /// assert_eq!(engine.session(two), Session::Down { since: later });
    /// # Ok::<(), Box<dyn std::error::Error>>(())
    /// ```
    pub fn disconnected(&mut self, peer: SpaceId, now: Duration) {
        let Some(link) = self.links.get_mut(peer) else { return };
        if link.is_up {
            link.down(now);
            self.up.retain(|known| *known != peer);
            self.turn.changes.push((peer, link.session));
        }
    }

    /// A peer refused this node's hello, or the other way round. Where they were never connected, and
    /// another try would end the same, the session closes, and what waited for it ends.
    ///
    /// ```
    /// # use masttomato::engine::*;
    /// # use masttomato::{SpaceId, Value};
    /// # use std::time::Duration;
    /// # let [one, two] = [1, 2].map(|number| SpaceId::new(number).expect("1 to 32"));
    /// # let now = Duration::ZERO;
    /// # let mut engine = Engine::new(Settings::new(one, two), now)?;
    /// engine.refused(two, Why::OtherWorld);
    /// engine.call(Ticket(1), two.agent(), 0, Value::Unit);
    /// assert_eq!(engine.turn(now).answers, [(Ticket(1), Answered::Refused(two, Why::OtherWorld))]);
    /// # Ok::<(), Box<dyn std::error::Error>>(())
    /// ```
    pub fn refused(&mut self, peer: SpaceId, why: Why) {
        let Some(link) = self.links.get_mut(peer) else { return };
        if link.is_up || matches!(link.session, Session::Closed(_)) || link.refused.is_some() {
            return;
        }
        link.session = Session::Refused(why);
        self.turn.changes.push((peer, link.session));
        let is_for_good =
            matches!(why, Why::NumberUsed | Why::OldLife | Why::OtherWorld | Why::OtherSpaces);
        if is_for_good && link.life.is_none() {
            link.refused = Some(why);
            if let Ok(reason) = self.space.close(peer) {
                self.closed(peer, reason);
            }
        }
    }

    /// A new object: its reference, once in the hand.
    ///
    /// ```
    /// # use masttomato::engine::*;
    /// # use masttomato::{SpaceId, Value};
    /// # use std::time::Duration;
    /// # let [one, two] = [1, 2].map(|number| SpaceId::new(number).expect("1 to 32"));
    /// # let now = Duration::ZERO;
    /// # let mut engine = Engine::new(Settings::new(one, two), now)?;
    /// let object = engine.export()?;
    /// assert_eq!(object.to_string(), "1.1");
    /// # Ok::<(), Box<dyn std::error::Error>>(())
    /// ```
    ///
    /// # Errors
    /// Where there are as many objects as there may be.
    pub fn export(&mut self) -> Result<Reference, SpaceError> {
        self.space.export()
    }

    /// One more hold of a reference.
    ///
    /// ```
    /// # use masttomato::engine::*;
    /// # use masttomato::{SpaceId, Value};
    /// # use std::time::Duration;
    /// # let [one, two] = [1, 2].map(|number| SpaceId::new(number).expect("1 to 32"));
    /// # let now = Duration::ZERO;
    /// # let mut engine = Engine::new(Settings::new(one, two), now)?;
    /// let object = engine.export()?;
    /// engine.hold(object)?;
    /// engine.release(object);
    /// assert!(engine.turn(now).withdrawn.is_empty());              // it is held once still
    /// # Ok::<(), Box<dyn std::error::Error>>(())
    /// ```
    ///
    /// # Errors
    /// Where it isn't held, or its owner has gone.
    pub fn hold(&mut self, reference: Reference) -> Result<(), SpaceError> {
        self.space.dup(reference)
    }

    /// A hold is given back.
    ///
    /// ```
    /// # use masttomato::engine::*;
    /// # use masttomato::{SpaceId, Value};
    /// # use std::time::Duration;
    /// # let [one, two] = [1, 2].map(|number| SpaceId::new(number).expect("1 to 32"));
    /// # let now = Duration::ZERO;
    /// # let mut engine = Engine::new(Settings::new(one, two), now)?;
    /// let object = engine.export()?;
    /// engine.release(object);
    /// assert_eq!(engine.turn(now).withdrawn, [object.index]);
    /// # Ok::<(), Box<dyn std::error::Error>>(())
    /// ```
    pub fn release(&mut self, reference: Reference) {
        match reference.owner == self.id() {
            true => self.stirred.withdraw = true,
            false => self.stirred.clean = true,
        }
        self.release_sent(reference);
    }

    /// The same of a reference that a call has just taken along: nothing is to be given up or withdrawn for that before
    /// the peer has said that the call has arrived.
    pub(crate) fn release_sent(&mut self, reference: Reference) {
        if self.space.release(reference).is_err() {
            self.counts.wants += 1;
        }
    }

    /// Calls a method of another space's object, as soon as there is room for it. What comes of it is
    /// an answer of a later turn. What the value refers to and the target are held until this returns,
    /// and needn't be any longer.
    ///
    /// ```
    /// # use masttomato::engine::*;
    /// # use masttomato::space::{Outcome, Status};
    /// # use masttomato::{SpaceId, Value};
    /// # use std::time::Duration;
    /// # fn carry(from: &mut Engine, to: &mut Engine) -> Vec<masttomato::space::Job> {
    /// #     let (one, two, now) = (from.id(), to.id(), Duration::ZERO);
    /// #     let _turn = from.turn(now);
    /// #     to.bytes(one, from.output(two).left(), now).expect("an honest peer");
    /// #     from.output(two).advance(usize::MAX);
    /// #     to.turn(now).jobs
    /// # }
    /// # let [one, two] = [1, 2].map(|number| SpaceId::new(number).expect("1 to 32"));
    /// # let now = Duration::ZERO;
    /// # let mut owner = Engine::new(Settings::new(one, two), now)?;
    /// # let mut caller = Engine::new(Settings::new(two, two), now)?;
    /// # owner.connected(two, Life::only(12), now)?;
    /// # caller.connected(one, Life::only(11), now)?;
    /// caller.call(Ticket(7), one.agent(), 3, Value::Int(20));
    /// let job = carry(&mut caller, &mut owner).remove(0);
    /// assert_eq!((job.client, job.method, job.value), (two, 3, Value::Int(20)));
    /// # Ok::<(), Box<dyn std::error::Error>>(())
    /// ```
    pub fn call(&mut self, ticket: Ticket, target: Reference, method: u16, value: Value) {
        let _number = self.call_or_wait(ticket, target, method, value);
    }

    /// As `call`: the call's number, if it was made at once.
    pub(crate) fn call_or_wait(
        &mut self,
        ticket: Ticket,
        target: Reference,
        method: u16,
        value: Value,
    ) -> Option<CallNo> {
        let mut call = HeldCall { ticket, target, method, value, holds: Vec::new() };
        let made = self.make_now(&call);
        if !matches!(made, Made::Waits) {
            return self.is_made(ticket, made);
        }
        self.tickets.insert(ticket, None);
        call.holds = self.hold_all(call.value.references().into_iter().chain([target]));
        if let Some(link) = self.links.get_mut(target.owner) {
            link.calls.push_back(call);
            self.has_held = true;
        }
        None
    }

    /// Calls as [`Engine::call`] does, but only where there is room for it now; else what comes of it is
    /// [`Answered::Busy`].
    ///
    /// ```
    /// # use masttomato::engine::*;
    /// # use masttomato::{SpaceId, Value};
    /// # use std::time::Duration;
    /// # let [one, two] = [1, 2].map(|number| SpaceId::new(number).expect("1 to 32"));
    /// # let now = Duration::ZERO;
    /// # let mut engine = Engine::new(Settings::new(one, two), now)?;
    /// let mut engine = Engine::new(Settings { open_calls: 1, ..Settings::new(one, two) }, now)?;
    /// engine.try_call(Ticket(1), two.agent(), 0, Value::Unit);
    /// engine.try_call(Ticket(2), two.agent(), 0, Value::Unit);
    /// assert_eq!(engine.turn(now).answers, [(Ticket(2), Answered::Busy)]);
    /// # Ok::<(), Box<dyn std::error::Error>>(())
    /// ```
    pub fn try_call(&mut self, ticket: Ticket, target: Reference, method: u16, value: Value) {
        let _number = self.try_to_call(ticket, target, method, value);
    }

    /// As `try_call`: the call's number, if it was made.
    pub(crate) fn try_to_call(
        &mut self,
        ticket: Ticket,
        target: Reference,
        method: u16,
        value: Value,
    ) -> Option<CallNo> {
        let made =
            match self.make_now(&HeldCall { ticket, target, method, value, holds: Vec::new() }) {
                Made::Waits => Made::Never(Answered::Busy),
                made => made,
            };
        self.is_made(ticket, made)
    }

    // Writes down what came of a call that doesn't wait any more: its number, if it was made.
    fn is_made(&mut self, ticket: Ticket, made: Made) -> Option<CallNo> {
        let number = match made {
            Made::As(number) => number,
            Made::Never(answered) => {
                self.tickets.remove(&ticket);
                self.turn.answers.push((ticket, answered));
                return None;
            }
            Made::Waits => return None,
        };
        self.tickets.insert(ticket, Some(number));
        Some(number)
    }

    // Makes a call, if no other one waits for room.
    fn make_now(&mut self, call: &HeldCall) -> Made {
        let Some(link) = self.links.get(call.target.owner) else {
            return Made::Never(Answered::Down(call.target.owner));
        };
        let is_first = link.calls.is_empty() && !link.is_blocked();
        let has_room = is_first && self.calls.len() < self.settings.open_calls;
        if has_room { self.make(call) } else { Made::Waits }
    }

    fn make(&mut self, call: &HeldCall) -> Made {
        let HeldCall { ticket, target, method, value, .. } = call;
        let peer = target.owner;
        Made::Never(match self.space.call(*target, *method, value) {
            Ok(number) => {
                self.counts.calls_made += 1;
                self.calls.insert(number, (*ticket, peer));
                return Made::As(number);
            }
            Err(error) if self.is_want_of_room(peer, error) => return Made::Waits,
            Err(SpaceError::NotCovered) => {
                self.counts.not_covered += 1;
                Answered::NotCovered
            }
            // What is asked of the agent waits until the session is open again.
            Err(SpaceError::Refused(Refusal::Closed)) if target.index == 0 && self.renews(peer) => {
                self.has_renewals = true;
                return Made::Waits;
            }
            Err(SpaceError::Refused(Refusal::TooBig)) => Answered::TooLarge,
            Err(_) if self.links.get(peer).is_some_and(Link::is_open) => Answered::Lost,
            Err(_) => self.down(peer),
        })
    }

    // Why nothing goes to a peer whose session has closed.
    fn down(&self, peer: SpaceId) -> Answered {
        let refused = self.links.get(peer).and_then(|link| link.refused);
        refused.map_or(Answered::Down(peer), |why| Answered::Refused(peer, why))
    }

    // Whether what a peer was to be told wants room, which comes with an acknowledgement, or memory.
    fn is_want_of_room(&mut self, peer: SpaceId, error: SpaceError) -> bool {
        let is_full = matches!(error, SpaceError::Refused(Refusal::QueueFull | Refusal::Limit));
        if is_full && let Some(link) = self.links.get_mut(peer) {
            link.blocked_at = Some(link.acked);
        }
        let is_want = is_full || error == SpaceError::OutOfMemory;
        self.counts.wants += u64::from(is_want);
        is_want
    }

    fn answer(&mut self, ticket: Ticket, answered: Answered) {
        if self.tickets.remove(&ticket).is_some() {
            self.turn.answers.push((ticket, answered));
        } else if let Answered::Replied { value, .. } = answered {
            self.release_all(value.references());
        }
    }

    // Holds what can be held of these: what was.
    fn hold_all(&mut self, references: impl IntoIterator<Item = Reference>) -> Vec<Reference> {
        let counted = references.into_iter().filter(|reference| reference.is_counted());
        counted.filter(|reference| self.space.dup(*reference).is_ok()).collect()
    }

    fn release_all(&mut self, references: Vec<Reference>) {
        references.into_iter().for_each(|reference| self.release(reference));
    }

    /// Nobody waits for a call any more. One that wasn't made yet never is; the reply of another is
    /// taken when it comes, and what it brings is given back.
    ///
    /// ```
    /// # use masttomato::engine::*;
    /// # use masttomato::{SpaceId, Value};
    /// # use std::time::Duration;
    /// # let [one, two] = [1, 2].map(|number| SpaceId::new(number).expect("1 to 32"));
    /// # let now = Duration::ZERO;
    /// # let mut engine = Engine::new(Settings::new(one, two), now)?;
    /// engine.call(Ticket(1), two.agent(), 0, Value::Unit);
    /// engine.abandon(Ticket(1));
    /// engine.close(two);
    /// assert!(engine.turn(now).answers.is_empty());
    /// assert_eq!(engine.counts().calls_abandoned, 1);
    /// # Ok::<(), Box<dyn std::error::Error>>(())
    /// ```
    pub fn abandon(&mut self, ticket: Ticket) {
        let Some(made) = self.tickets.remove(&ticket) else {
            return self.forget_answer(ticket);
        };
        self.counts.calls_abandoned += 1;
        if made.is_some() {
            return;
        }
        let mut holds = Vec::new();
        for link in self.links.values_mut() {
            link.calls.retain_mut(|call| {
                let stays = call.ticket != ticket;
                if !stays {
                    holds.append(&mut call.holds);
                }
                stays
            });
        }
        self.release_all(holds);
    }

    // An answer that no turn has given yet is given back.
    fn forget_answer(&mut self, ticket: Ticket) {
        let answers = &mut self.turn.answers;
        let Some(place) = answers.iter().position(|(known, _)| *known == ticket) else { return };
        self.counts.calls_abandoned += 1;
        if let (_, Answered::Replied { value, .. }) = answers.remove(place) {
            self.release_all(value.references());
        }
    }

    /// A peer waits no more for a call that it made, or won't for one that waits to be claimed: whether that
    /// is still to be answered.
    ///
    /// ```
    /// # use masttomato::engine::*;
    /// # use masttomato::space::{Outcome, Status};
    /// # use masttomato::{SpaceId, Value};
    /// # use std::time::Duration;
    /// # fn carry(from: &mut Engine, to: &mut Engine) -> Vec<masttomato::space::Job> {
    /// #     let (one, two, now) = (from.id(), to.id(), Duration::ZERO);
    /// #     let _turn = from.turn(now);
    /// #     to.bytes(one, from.output(two).left(), now).expect("an honest peer");
    /// #     from.output(two).advance(usize::MAX);
    /// #     to.turn(now).jobs
    /// # }
    /// # let [one, two] = [1, 2].map(|number| SpaceId::new(number).expect("1 to 32"));
    /// # let now = Duration::ZERO;
    /// # let mut owner = Engine::new(Settings::new(one, two), now)?;
    /// # let mut caller = Engine::new(Settings::new(two, two), now)?;
    /// # owner.connected(two, Life::only(12), now)?;
    /// # caller.connected(one, Life::only(11), now)?;
    /// caller.call(Ticket(7), one.agent(), 0, Value::Unit);
    /// let job = carry(&mut caller, &mut owner).remove(0);
    /// assert!(owner.cancel(two, job.call) && owner.is_cancelled(two, job.call));
    /// owner.finish(job.job, Outcome::NoMethod);
    /// carry(&mut owner, &mut caller);
    /// assert!(!owner.cancel(two, job.call));                       // it was answered
    /// # Ok::<(), Box<dyn std::error::Error>>(())
    /// ```
    pub fn cancel(&mut self, client: SpaceId, call: CallNo) -> bool {
        let link = self.links.get_mut(client);
        let cancelled = link.and_then(|link| link.asked.get_mut(&call.get()));
        cancelled.map(|is_cancelled| *is_cancelled = true).is_some()
    }

    /// Whether a call of a peer that is still to be answered was cancelled.
    ///
    /// ```
    /// # use masttomato::engine::*;
    /// # use masttomato::space::{Outcome, Status};
    /// # use masttomato::{SpaceId, Value};
    /// # use std::time::Duration;
    /// # fn carry(from: &mut Engine, to: &mut Engine) -> Vec<masttomato::space::Job> {
    /// #     let (one, two, now) = (from.id(), to.id(), Duration::ZERO);
    /// #     let _turn = from.turn(now);
    /// #     to.bytes(one, from.output(two).left(), now).expect("an honest peer");
    /// #     from.output(two).advance(usize::MAX);
    /// #     to.turn(now).jobs
    /// # }
    /// # let [one, two] = [1, 2].map(|number| SpaceId::new(number).expect("1 to 32"));
    /// # let now = Duration::ZERO;
    /// # let mut owner = Engine::new(Settings::new(one, two), now)?;
    /// # let mut caller = Engine::new(Settings::new(two, two), now)?;
    /// # owner.connected(two, Life::only(12), now)?;
    /// # caller.connected(one, Life::only(11), now)?;
    /// caller.call(Ticket(7), one.agent(), 0, Value::Unit);
    /// let job = carry(&mut caller, &mut owner).remove(0);
    /// assert!(!owner.is_cancelled(two, job.call));
    /// # Ok::<(), Box<dyn std::error::Error>>(())
    /// ```
    pub fn is_cancelled(&self, client: SpaceId, call: CallNo) -> bool {
        self.links.get(client).is_some_and(|link| link.asked.get(&call.get()) == Some(&true))
    }

    /// A job's outcome goes to its client as soon as there is room for it. What it refers to is held
    /// until this returns, and needn't be any longer. An answer without a pickle becomes a fault of
    /// this value, and so does one that refers to what is lost.
    ///
    /// ```
    /// # use masttomato::engine::*;
    /// # use masttomato::space::{Outcome, Status};
    /// # use masttomato::{SpaceId, Value};
    /// # use std::time::Duration;
    /// # fn carry(from: &mut Engine, to: &mut Engine) -> Vec<masttomato::space::Job> {
    /// #     let (one, two, now) = (from.id(), to.id(), Duration::ZERO);
    /// #     let _turn = from.turn(now);
    /// #     to.bytes(one, from.output(two).left(), now).expect("an honest peer");
    /// #     from.output(two).advance(usize::MAX);
    /// #     to.turn(now).jobs
    /// # }
    /// # let [one, two] = [1, 2].map(|number| SpaceId::new(number).expect("1 to 32"));
    /// # let now = Duration::ZERO;
    /// # let mut owner = Engine::new(Settings::new(one, two), now)?;
    /// # let mut caller = Engine::new(Settings::new(two, two), now)?;
    /// # owner.connected(two, Life::only(12), now)?;
    /// # caller.connected(one, Life::only(11), now)?;
    /// caller.call(Ticket(7), one.agent(), 0, Value::Unit);
    /// let job = carry(&mut caller, &mut owner).remove(0);
    /// owner.finish(job.job, Outcome::Answer(Value::Int(42)));
    /// let _turn = owner.turn(now);
    /// caller.bytes(one, owner.output(two).left(), now)?;
    /// let replied = Answered::Replied { status: Status::Answered, value: Value::Int(42) };
    /// assert_eq!(caller.turn(now).answers, [(Ticket(7), replied)]);
    /// # Ok::<(), Box<dyn std::error::Error>>(())
    /// ```
    pub fn finish(&mut self, job: JobNo, outcome: Outcome) {
        let mut finish = HeldFinish { job, outcome, holds: Vec::new() };
        if self.try_finish(&finish) {
            return;
        }
        if let Outcome::Answer(value) | Outcome::Fault(value) = &finish.outcome {
            finish.holds = self.hold_all(value.references());
        }
        let client = self.jobs.get(&job).map(|job| job.client);
        if let Some(link) = client.and_then(|client| self.links.get_mut(client)) {
            link.finishes.push_back(finish);
            self.has_held = true;
        }
    }

    // Whether the job was finished.
    fn try_finish(&mut self, finish: &HeldFinish) -> bool {
        let Some(Claimed { client, lent, .. }) = self.jobs.get(&finish.job) else { return true };
        let (client, lent) = (*client, *lent);
        match self.space.finish(finish.job, &finish.outcome) {
            Ok(_) => {}
            Err(error) if self.is_want_of_room(client, error) => return false,
            Err(SpaceError::Refused(Refusal::NoJob)) => return true,
            Err(error) => {
                let fault = match error {
                    SpaceError::Refused(Refusal::TooBig) => TOO_LARGE,
                    _ => LOST,
                };
                let outcome = Outcome::Fault(fault_value(fault));
                return self.try_finish(&HeldFinish {
                    job: finish.job,
                    outcome,
                    holds: Vec::new(),
                });
            }
        }
        self.jobs.remove(&finish.job);
        self.stirred.is_finished(lent, self.unclaimed > 0);
        self.counts.jobs_finished += 1;
        true
    }

    /// Closes the session with a peer.
    ///
    /// ```
    /// # use masttomato::engine::*;
    /// # use masttomato::{SpaceId, Value};
    /// # use std::time::Duration;
    /// # let [one, two] = [1, 2].map(|number| SpaceId::new(number).expect("1 to 32"));
    /// # let now = Duration::ZERO;
    /// # let mut engine = Engine::new(Settings::new(one, two), now)?;
    /// engine.close(two);
    /// assert_eq!(engine.session(two), Session::Closed(masttomato::Reason::Asked));
    /// # Ok::<(), Box<dyn std::error::Error>>(())
    /// ```
    pub fn close(&mut self, peer: SpaceId) {
        if let Some(link) = self.links.get_mut(peer) {
            (link.renewal, link.greets) = (Renewal::No, false);
        }
        if let Ok(reason) = self.space.close(peer) {
            self.closed(peer, reason);
        }
    }

    /// Opens the session with a peer anew, which has closed here: its number. The peer's program opens it as well. Until
    /// it has, what is sent to it waits there, up to 64 items, and is given again and again, as long as for a peer that
    /// doesn't acknowledge anything. What waited here of the peer's comes to the space at once.
    ///
    /// ```
    /// # use masttomato::engine::*;
    /// # use masttomato::space::{Refusal, SpaceError};
    /// # use masttomato::{SpaceId, Value};
    /// # use std::time::Duration;
    /// # let [one, two] = [1, 2].map(|number| SpaceId::new(number).expect("1 to 32"));
    /// # let now = Duration::ZERO;
    /// # let mut engine = Engine::new(Settings::new(one, two), now)?;
    /// assert_eq!(engine.open(two, now), Err(SpaceError::Refused(Refusal::StillOpen)));
    /// engine.close(two);
    /// assert_eq!(engine.open(two, now)?, 2);
    /// assert_eq!(engine.session(two), Session::Down { since: now });
    /// # Ok::<(), Box<dyn std::error::Error>>(())
    /// ```
    ///
    /// # Errors
    /// As of [`Space::open`]: where there is no such peer, the session is open, or something of the peer's is still held
    /// here. That may be what a call carries which another peer hasn't settled: so it may go later.
    pub fn open(&mut self, peer: SpaceId, now: Duration) -> Result<u32, SpaceError> {
        let number = self.space.open(peer)?;
        if let Some(link) = self.links.get_mut(peer) {
            link.open(number, now);
            if link.renewal != Renewal::No {
                // The other end is told in which number it was opened.
                (link.renewal, link.greets) = (Renewal::Meets, true);
                self.has_renewals = true;
            }
            self.turn.changes.push((peer, link.session));
        }
        self.bring_passed_over(peer, now);
        Ok(number)
    }

    /// Ends the life of an engine that has bounds, in order: the next one skips no index and no call, and may begin. It
    /// is the last that is asked of an engine, once its connections are closed.
    ///
    /// ```
    /// # use masttomato::engine::*;
    /// # use masttomato::SpaceId;
    /// # use std::time::Duration;
    /// # let [one, two] = [1, 2].map(|number| SpaceId::new(number).expect("1 to 32"));
    /// # let now = Duration::ZERO;
    /// # let mut engine = Engine::new(Settings::new(one, two), now)?;
    /// engine.end_life()?;                              // it has no bounds
    /// # Ok::<(), Box<dyn std::error::Error>>(())
    /// ```
    ///
    /// # Errors
    /// Where that couldn't be written: the next life begins as after a death.
    pub fn end_life(&mut self) -> Result<(), BoundsError> {
        self.space.end_life()
    }

    /// Closes all sessions, and says bye over each connection once what is due was written.
    ///
    /// ```
    /// # use masttomato::engine::*;
    /// # use masttomato::space::{Outcome, Status};
    /// # use masttomato::{SpaceId, Value};
    /// # use std::time::Duration;
    /// # fn carry(from: &mut Engine, to: &mut Engine) -> Vec<masttomato::space::Job> {
    /// #     let (one, two, now) = (from.id(), to.id(), Duration::ZERO);
    /// #     let _turn = from.turn(now);
    /// #     to.bytes(one, from.output(two).left(), now).expect("an honest peer");
    /// #     from.output(two).advance(usize::MAX);
    /// #     to.turn(now).jobs
    /// # }
    /// # let [one, two] = [1, 2].map(|number| SpaceId::new(number).expect("1 to 32"));
    /// # let now = Duration::ZERO;
    /// # let mut owner = Engine::new(Settings::new(one, two), now)?;
    /// # let mut caller = Engine::new(Settings::new(two, two), now)?;
    /// # owner.connected(two, Life::only(12), now)?;
    /// # caller.connected(one, Life::only(11), now)?;
    /// owner.close_all();
    /// carry(&mut owner, &mut caller);
    /// assert_eq!(caller.session(one), Session::Closed(masttomato::Reason::PeerClosed));
    /// # Ok::<(), Box<dyn std::error::Error>>(())
    /// ```
    pub fn close_all(&mut self) {
        for peer in self.space.peers() {
            self.close(peer);
            if let Some(link) = self.links.get_mut(peer) {
                link.says_bye = link.is_up;
            }
        }
    }

    /// Whether anything is still to be written, or acknowledged by a peer that is connected.
    ///
    /// ```
    /// # use masttomato::engine::*;
    /// # use masttomato::space::{Outcome, Status};
    /// # use masttomato::{SpaceId, Value};
    /// # use std::time::Duration;
    /// # fn carry(from: &mut Engine, to: &mut Engine) -> Vec<masttomato::space::Job> {
    /// #     let (one, two, now) = (from.id(), to.id(), Duration::ZERO);
    /// #     let _turn = from.turn(now);
    /// #     to.bytes(one, from.output(two).left(), now).expect("an honest peer");
    /// #     from.output(two).advance(usize::MAX);
    /// #     to.turn(now).jobs
    /// # }
    /// # let [one, two] = [1, 2].map(|number| SpaceId::new(number).expect("1 to 32"));
    /// # let now = Duration::ZERO;
    /// # let mut owner = Engine::new(Settings::new(one, two), now)?;
    /// # let mut caller = Engine::new(Settings::new(two, two), now)?;
    /// # owner.connected(two, Life::only(12), now)?;
    /// # caller.connected(one, Life::only(11), now)?;
    /// assert!(caller.is_settled());
    /// caller.call(Ticket(7), one.agent(), 0, Value::Unit);
    /// let _turn = caller.turn(now);
    /// assert!(!caller.is_settled());
    /// # Ok::<(), Box<dyn std::error::Error>>(())
    /// ```
    pub fn is_settled(&self) -> bool {
        self.up.iter().filter_map(|peer| Some((peer, self.links.get(*peer)?))).all(
            |(peer, link)| {
                !link.is_up
                    || (link.out.is_empty()
                        && !link.says_bye
                        && self.space.due(*peer) == Due::Nothing)
            },
        )
    }

    /// What is to be written to a peer: at most one record, and what goes with it. A turn fills it where
    /// it is empty.
    ///
    /// ```
    /// # use masttomato::engine::*;
    /// # use masttomato::{SpaceId, Value};
    /// # use std::time::Duration;
    /// # let [one, two] = [1, 2].map(|number| SpaceId::new(number).expect("1 to 32"));
    /// # let now = Duration::ZERO;
    /// # let mut engine = Engine::new(Settings::new(one, two), now)?;
    /// engine.connected(two, Life::only(12), now)?;
    /// engine.call(Ticket(1), two.agent(), 0, Value::Unit);
    /// let _turn = engine.turn(now);
    /// let record = engine.output(two).left().to_vec();
    /// assert!(!record.is_empty());
    /// # Ok::<(), Box<dyn std::error::Error>>(())
    /// ```
    ///
    /// # Panics
    /// Where the space is none of the peers.
    pub fn output(&mut self, peer: SpaceId) -> &mut OutBuffer {
        &mut self.links.get_mut(peer).expect("a peer").out
    }

    /// The peers, rising.
    ///
    /// ```
    /// # use masttomato::engine::*;
    /// # use masttomato::{SpaceId, Value};
    /// # use std::time::Duration;
    /// # let [one, two] = [1, 2].map(|number| SpaceId::new(number).expect("1 to 32"));
    /// # let now = Duration::ZERO;
    /// # let mut engine = Engine::new(Settings::new(one, two), now)?;
    /// assert_eq!(engine.peers().collect::<Vec<_>>(), [two]);
    /// # Ok::<(), Box<dyn std::error::Error>>(())
    /// ```
    pub fn peers(&self) -> impl Iterator<Item = SpaceId> + use<> {
        self.space.peers()
    }
}

/// The numbers of faults that a node answers in a method's place.
pub(crate) const BAD_ARGUMENTS: i64 = 1;
pub(crate) const PANICKED: i64 = 2;
pub(crate) const TOO_LARGE: i64 = 3;
pub(crate) const LOST: i64 = 4;
pub(crate) const CANCELLED: i64 = 5;

/// A fault as it goes in a reply: a list of its number, which no fault of a method's own has alone.
pub(crate) fn fault_value(number: i64) -> Value {
    Value::List(vec![Value::Int(number), Value::Unit])
}

// What a life's trace begins with: its number, and what it begins behind.
fn life_line(bounds: &Bounds) -> String {
    let birth = bounds.birth();
    let Birth { indexes, calls, jobs, .. } = birth;
    let mut line = format!("life {} indexes {indexes} calls {calls} jobs {jobs}", bounds.life());
    for peer in bounds.spaces().up_to().filter(|peer| *peer != bounds.space()) {
        line.push_str(&format!(" {peer}:{}", birth.session(peer)));
    }
    line + "\n"
}
