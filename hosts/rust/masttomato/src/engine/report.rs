//! What who runs a node sees of it.

use super::link::Link;
use super::{Counts, Engine, Session, Why};
use crate::space::{self, CallNo, PeerCounts, Reference, SpaceId, Tally};
use std::fmt::{self, Write};
use std::net::SocketAddr;
use std::time::Duration;

/// How a node, or an engine, stands: what it has, its sessions, and what it counted. See
/// [`Node::report`](crate::Node::report) and [`Engine::report`]. Its text is for Prometheus to read.
///
/// ```
/// # use masttomato::{Node, Peers, SpaceId};
/// # fn main() -> Result<(), Box<dyn std::error::Error>> {
/// let here = SpaceId::try_from(1)?;
/// let node = Node::builder(here, Peers::none()).spaces(SpaceId::try_from(2)?).start()?;
/// let report = node.report()?;
/// assert_eq!((report.live, report.sessions.len(), report.oldest_job), (0, 1, None));
/// assert!(report.to_string().contains("\nmasttomato_live_objects{space=\"1\"} 0\n"));
/// assert!(report.to_string().contains("\nmasttomato_messages{space=\"1\",state=\"ready\"} 0\n"));
/// assert!(report.to_string().contains("\nmasttomato_session_pinned{space=\"1\",peer=\"2\"} 0\n"));
/// # Ok(())
/// # }
/// ```
#[derive(Clone, Debug, PartialEq, Eq, Hash)]
#[non_exhaustive]
pub struct Report {
    /// Whose it is.
    pub space: SpaceId,
    /// How many of its objects are live: exported, and not withdrawn.
    pub live: u64,
    /// What the space itself counts: objects, surrogates, calls and messages.
    pub of_space: space::Counts,
    /// Jobs that were claimed and aren't finished: each runs, or waits for its object.
    pub jobs: u64,
    /// How long the oldest of them is there, if there is one.
    pub oldest_job: Option<Duration>,
    /// The sessions with all peers, rising.
    pub sessions: Vec<SessionReport>,
    /// The method of a node that runs for the longest time, and how long, if any does.
    pub longest: Option<(Running, Duration)>,
    /// What each of a node's threads does; an engine has none.
    pub threads: Vec<ThreadReport>,
    /// The last connection that was hung up on since it wasn't a member's.
    pub turned_away: Option<TurnedAway>,
    /// What was counted since it began.
    pub counts: Counts,
}

/// A method that is carried out: see [`Report`].
///
/// ```
/// # use masttomato::engine::{Doing, Running};
/// fn object(doing: Doing) -> Option<u64> {
///     match doing {
///         Doing::Runs(Running { object, .. }) => Some(object),
///         _ => None,
///     }
/// }
/// ```
#[derive(Clone, Copy, Debug, PartialEq, Eq, Hash)]
#[non_exhaustive]
pub struct Running {
    /// The index of its object.
    pub object: u64,
    /// Its number.
    pub method: u16,
    /// Who called it.
    pub caller: SpaceId,
    /// The number of the call among the caller's; none of a node's call of its own object.
    pub call: Option<CallNo>,
}

impl Running {
    pub(crate) fn new(object: u64, method: u16, caller: SpaceId, call: Option<CallNo>) -> Running {
        Running { object, method, caller, call }
    }
}

impl fmt::Display for Running {
    fn fmt(&self, f: &mut fmt::Formatter<'_>) -> fmt::Result {
        write!(f, "method {} of object {} for space {}", self.method, self.object, self.caller)?;
        self.call.map_or(Ok(()), |call| write!(f, " (its call {call})"))
    }
}

/// What a thread of a node does: see [`ThreadReport`].
///
/// ```
/// # use masttomato::{Node, Peers, SpaceId};
/// # use masttomato::engine::Doing;
/// # let node = Node::builder(SpaceId::new(1).expect("1 to 32"), Peers::none()).workers(3).start()?;
/// while node.threads().iter().filter(|thread| thread.doing == Doing::Rests).count() < 3 {}
/// # Ok::<(), Box<dyn std::error::Error>>(())
/// ```
#[derive(Clone, Copy, Debug, PartialEq, Eq, Hash)]
#[non_exhaustive]
pub enum Doing {
    /// It waits for something to do.
    Rests,
    /// It does what there is to do of a node: it turns it or an async method, or drops an object.
    Works,
    /// It carries out a method.
    Runs(Running),
}

/// A call whose answer a thread waits for: see [`ThreadReport`].
///
/// ```
/// # use masttomato::engine::ThreadReport;
/// fn waits_for(thread: &ThreadReport) -> Option<String> {
///     let awaited = thread.waits_for?;
///     Some(format!("{}, for {:?}", awaited.target?, awaited.time))
/// }
/// ```
#[derive(Clone, Copy, Debug, PartialEq, Eq, Hash)]
#[non_exhaustive]
pub struct Awaited {
    /// The object that was called, once the node has taken the call.
    pub target: Option<Reference>,
    /// Which method of it.
    pub method: Option<u16>,
    /// How long it waits.
    pub time: Duration,
}

impl Awaited {
    pub(crate) fn new(aim: Option<(Reference, u16)>, time: Duration) -> Awaited {
        let (target, method) = aim.unzip();
        Awaited { target, method, time }
    }
}

/// What a thread of a node does, and what it waits for: see [`Node::threads`](crate::Node::threads).
///
/// ```
/// # use masttomato::{Node, Peers, SpaceId};
/// let node = Node::builder(SpaceId::new(1).expect("1 to 32"), Peers::none()).workers(2).start()?;
/// for thread in node.threads() {
///     println!("{thread}");           // masttomato-1-worker-2: rests, for 0.0 s
/// }
/// # Ok::<(), Box<dyn std::error::Error>>(())
/// ```
#[derive(Clone, Debug, PartialEq, Eq, Hash)]
#[non_exhaustive]
pub struct ThreadReport {
    /// The thread's name.
    pub name: String,
    /// What it does.
    pub doing: Doing,
    /// Since when.
    pub time: Duration,
    /// The call whose answer its method waits for, if it does.
    pub waits_for: Option<Awaited>,
}

impl ThreadReport {
    pub(crate) fn new(
        name: String,
        doing: Doing,
        time: Duration,
        waits_for: Option<Awaited>,
    ) -> ThreadReport {
        ThreadReport { name, doing, time, waits_for }
    }
}

impl fmt::Display for ThreadReport {
    fn fmt(&self, f: &mut fmt::Formatter<'_>) -> fmt::Result {
        write!(f, "{}: ", self.name)?;
        match self.doing {
            Doing::Rests => f.write_str("rests")?,
            Doing::Works => f.write_str("works")?,
            Doing::Runs(running) => write!(f, "runs {running}")?,
        }
        write!(f, ", for {:.1} s", self.time.as_secs_f64())?;
        let Some(awaited) = self.waits_for else { return Ok(()) };
        f.write_str("; waits for ")?;
        match (awaited.target, awaited.method) {
            (Some(target), Some(method)) => write!(f, "method {method} of {target}")?,
            _ => f.write_str("a call")?,
        }
        write!(f, ", for {:.1} s", awaited.time.as_secs_f64())
    }
}

/// Who was turned away at a node's door, and why: see [`Report`].
///
/// ```
/// # use masttomato::{Node, Peers, SpaceId};
/// # use std::io::Write;
/// # fn main() -> Result<(), Box<dyn std::error::Error>> {
/// # let [one, two] = [SpaceId::try_from(1)?, SpaceId::try_from(2)?];
/// let node = Node::builder(one, Peers::none()).listen("127.0.0.1:0").spaces(two).start()?;
/// let mut stranger = std::net::TcpStream::connect(node.address().ok_or("it listens")?)?;
/// stranger.write_all(&[7; 64])?;
/// let turned_away = loop {
///     if let Some(turned_away) = node.report()?.turned_away {
///         break turned_away;
///     }
/// };
/// let said = format!("{}: it said no hello", stranger.local_addr()?);
/// assert_eq!(turned_away.to_string(), said);
/// # Ok(())
/// # }
/// ```
#[derive(Clone, Copy, Debug, PartialEq, Eq, Hash)]
#[non_exhaustive]
pub struct TurnedAway {
    /// Where the connection came from.
    pub from: SocketAddr,
    /// Why it was hung up on.
    pub why: Why,
}

impl fmt::Display for TurnedAway {
    fn fmt(&self, f: &mut fmt::Formatter<'_>) -> fmt::Result {
        write!(f, "{}: {}", self.from, self.why)
    }
}

/// How the session with a peer stands: see [`Report`].
///
/// ```
/// # use masttomato::engine::*;
/// # use masttomato::{SpaceId, Value};
/// # use std::time::Duration;
/// # let [one, two] = [1, 2].map(|number| SpaceId::new(number).expect("1 to 32"));
/// # let now = Duration::ZERO;
/// # let mut engine = Engine::new(Settings::new(one, two), now)?;
/// engine.connected(two, Life::only(12), now)?;
/// engine.call(Ticket(1), two.agent(), 0, Value::Unit);
/// let session = engine.report(now).sessions[0];
/// assert_eq!((session.peer, session.session), (two, Session::Open));
/// assert_eq!((session.tally.session, session.tally.sent, session.unacknowledged), (1, 1, 1));
/// # Ok::<(), Box<dyn std::error::Error>>(())
/// ```
#[derive(Clone, Copy, Debug, PartialEq, Eq, Hash)]
#[non_exhaustive]
pub struct SessionReport {
    /// With whom.
    pub peer: SpaceId,
    /// How it stands.
    pub session: Session,
    /// Its number, what went each way on it, and why it closed, if it has: what the space itself says.
    pub tally: Tally,
    /// Items that were handed to the peer and that it hasn't acknowledged.
    pub unacknowledged: u64,
    /// What the space itself counts of it: what is pinned for it, what it hasn't acknowledged, what came and wasn't acted on,
    /// and the surrogates of its objects.
    pub of_space: PeerCounts,
    /// Calls and answers that wait for room.
    pub held: u64,
}

impl Engine {
    /// How it stands.
    ///
    /// ```
    /// # use masttomato::engine::*;
    /// # use masttomato::{SpaceId, Value};
    /// # use std::time::Duration;
    /// # let [one, two] = [1, 2].map(|number| SpaceId::new(number).expect("1 to 32"));
    /// # let now = Duration::ZERO;
    /// # let mut engine = Engine::new(Settings::new(one, two), now)?;
    /// engine.export()?;
    /// assert_eq!(engine.report(now).live, 1);
    /// # Ok::<(), Box<dyn std::error::Error>>(())
    /// ```
    pub fn report(&self, now: Duration) -> Report {
        let since = self.jobs.values().map(|job| job.since).min();
        let of_space = self.space.counts();
        Report {
            space: self.space.id(),
            live: of_space.live,
            of_space,
            jobs: self.jobs.len() as u64,
            oldest_job: since.map(|since| now.saturating_sub(since)),
            sessions: self.peers.iter().filter_map(|peer| self.session_report(*peer)).collect(),
            longest: None,
            threads: Vec::new(),
            turned_away: self.turned_away,
            counts: self.counts(),
        }
    }

    /// So many more connections were turned away; the last of those of which it is known why.
    pub(crate) fn turned_away(&mut self, count: u64, last: Option<TurnedAway>) {
        self.counts.turned_away += count;
        self.turned_away = last.or(self.turned_away);
    }

    fn session_report(&self, peer: SpaceId) -> Option<SessionReport> {
        let (link, tally) = (self.links.get(peer)?, self.space.tally(peer)?);
        let of_space = self.space.peer_counts(peer);
        let (session, unacknowledged, held) = (link.session, of_space.unacknowledged, held(link));
        Some(SessionReport { peer, session, tally, unacknowledged, of_space, held })
    }
}

fn held(link: &Link) -> u64 {
    (link.calls.len() + link.finishes.len()) as u64
}

/// Whether a number only ever rises.
#[derive(Clone, Copy)]
enum Kind {
    Counter,
    Gauge,
}

// Puts a metric of a space: its help, its kind, and its value for each of these further labels.
fn put(
    f: &mut fmt::Formatter<'_>,
    space: SpaceId,
    (name, kind, help): (&str, Kind, &str),
    values: impl IntoIterator<Item = (String, f64)>,
) -> fmt::Result {
    let (kind, end) = match kind {
        Kind::Counter => ("counter", "_total"),
        Kind::Gauge => ("gauge", ""),
    };
    writeln!(f, "# HELP masttomato_{name}{end} {help}")?;
    writeln!(f, "# TYPE masttomato_{name}{end} {kind}")?;
    for (labels, value) in values {
        writeln!(f, "masttomato_{name}{end}{{space=\"{space}\"{labels}}} {value}")?;
    }
    Ok(())
}

/// The text that Prometheus reads, of version 0.0.4: a program serves it wherever it likes.
impl fmt::Display for Report {
    fn fmt(&self, f: &mut fmt::Formatter<'_>) -> fmt::Result {
        let oldest = self.oldest_job.map_or(0.0, |time| time.as_secs_f64());
        let longest = self.longest.map_or(0.0, |(_, time)| time.as_secs_f64());
        let is_busy = |thread: &&ThreadReport| matches!(thread.doing, Doing::Runs(_));
        let busy = self.threads.iter().filter(is_busy).count() as f64;
        let gauges = [
            ("live_objects", "Objects that are exported and not withdrawn.", self.live as f64),
            ("jobs", "Jobs that run or wait for their object.", self.jobs as f64),
            ("oldest_job_seconds", "How long the oldest of these is there.", oldest),
            ("longest_method_seconds", "How long the longest method runs.", longest),
            ("threads_busy", "Threads that carry out a method.", busy),
            ("calls_open", "Calls that are open.", self.counts.calls_open as f64),
            ("surrogates", "References to others' objects.", self.of_space.surrogates as f64),
        ];
        for (name, help, value) in gauges {
            put(f, self.space, (name, Kind::Gauge, help), [(String::new(), value)])?;
        }
        self.put_messages(f)?;
        self.put_sessions(f)?;
        for (name, help, value) in self.counters() {
            put(f, self.space, (name, Kind::Counter, help), [(String::new(), value as f64)])?;
        }
        Ok(())
    }
}

impl Report {
    fn put_messages(&self, f: &mut fmt::Formatter<'_>) -> fmt::Result {
        let space::Counts { waiting, ready, running, replies, .. } = self.of_space;
        let all =
            [("waiting", waiting), ("ready", ready), ("running", running), ("replies", replies)];
        let values = all.map(|(state, count)| (format!(",state=\"{state}\""), count as f64));
        let help = "Calls and answers of others that came and aren't done.";
        put(f, self.space, ("messages", Kind::Gauge, help), values)
    }

    fn put_sessions(&self, f: &mut fmt::Formatter<'_>) -> fmt::Result {
        type Look = fn(&SessionReport) -> u64;
        let gauges: [(&str, &str, Look); 12] = [
            ("session_up", "Whether there is a connection and the session is open.", |one| {
                u64::from(one.session == Session::Open)
            }),
            ("session_closed", "Why the session closed here, 1 to 6, or 0.", |one| {
                one.tally.closed.map_or(0, |reason| reason.number().into())
            }),
            ("session_number", "The session's number.", |one| one.tally.session.into()),
            ("session_sent", "Items handed to the peer in this session.", |one| one.tally.sent),
            ("session_acted", "Items of the peer acted on in it.", |one| one.tally.acted),
            ("session_unacknowledged", "Items that the peer hasn't acknowledged.", |one| {
                one.unacknowledged
            }),
            ("session_held", "Calls and answers that wait for room.", |one| one.held),
            ("session_pinned", "Items whose references the peer hasn't settled.", |one| {
                one.of_space.pinned
            }),
            ("session_inbox", "Items of the peer that wait to be acted on.", |one| {
                one.of_space.inbox
            }),
            ("session_waiting", "Calls and answers of the peer that wait for references.", |one| {
                one.of_space.waiting
            }),
            ("session_ready", "Calls of the peer that are to be carried out.", |one| {
                one.of_space.ready
            }),
            ("session_surrogates", "References to the peer's objects.", |one| {
                one.of_space.surrogates
            }),
        ];
        for (name, help, look) in gauges {
            let values = self.sessions.iter().map(|one| {
                let mut labels = String::new();
                // A String takes any text.
                let _written = write!(labels, ",peer=\"{}\"", one.peer);
                (labels, look(one) as f64)
            });
            put(f, self.space, (name, Kind::Gauge, help), values)?;
        }
        Ok(())
    }

    fn counters(&self) -> [(&'static str, &'static str, u64); 22] {
        let counts = &self.counts;
        [
            ("calls_made", "Calls that were made.", counts.calls_made),
            ("calls_answered", "Calls whose replies came.", counts.calls_answered),
            ("calls_ended", "Calls whose sessions closed first.", counts.calls_ended),
            ("calls_abandoned", "Calls that nobody waited for.", counts.calls_abandoned),
            ("calls_unlisted", "Calls of objects that were guessed.", counts.calls_unlisted),
            ("jobs_claimed", "Jobs that were claimed.", counts.jobs_claimed),
            ("jobs_finished", "Jobs that were finished.", counts.jobs_finished),
            ("frames_in", "Frames that came.", counts.frames_in),
            ("frames_out", "Frames that were written.", counts.frames_out),
            ("frames_left_out", "Frames that a connection had already.", counts.frames_left_out),
            ("bytes_in", "Bytes that came.", counts.bytes_in),
            ("bytes_out", "Bytes that were written.", counts.bytes_out),
            ("records_out", "Records that were written.", counts.records_out),
            ("connects", "Connections that came to stand.", counts.connects),
            ("withdrawn", "Objects that were withdrawn.", counts.withdrawn),
            ("misbehaved", "Times that a peer misbehaved.", counts.misbehaved),
            ("wants", "Times that something waited for room or memory.", counts.wants),
            ("trace_faults", "Times that a trace couldn't be written.", counts.trace_faults),
            ("not_covered", "Times that the life's bounds couldn't be raised.", counts.not_covered),
            ("far_frames", "Frames of sessions that are too far ahead.", counts.far_frames),
            ("renewals", "Times that a peer came back as a new life.", counts.renewals),
            ("turned_away", "Connections that weren't let in.", counts.turned_away),
        ]
    }
}
