//! What a space is asked, and what it answers, with the texts that scripts and traces have of them.

use super::answers::Status;
use super::frame::{Frame, Frames};
use super::names::{CallNo, ItemNo, JobNo, Reason, Reference, SpaceId};
use super::value::Value;
use std::fmt;

/// What a job's method made of its call.
///
/// ```
/// # use masttomato::space::{Outcome, Value};
/// assert_eq!(Outcome::Answer(Value::Int(7)).to_string(), "answer i7");
/// ```
#[derive(Clone, Debug, PartialEq, Eq, Hash)]
pub enum Outcome {
    /// It answered this value.
    Answer(Value),
    /// It failed, with this value.
    Fault(Value),
    /// There is no such method.
    NoMethod,
}

/// What a space is asked to do. Nothing more than this ever changes it. Its text is that of traces.
///
/// ```
/// # use masttomato::space::{Event, Value};
/// let event: Event = "call 2.1 4 [i5,u]".parse()?;
/// let Event::Call { target, method: 4, value: Value::List(values) } = event else { panic!("no call") };
/// assert_eq!((target.to_string(), values.len()), ("2.1".to_string(), 2));
/// # Ok::<(), masttomato::space::NoText>(())
/// ```
#[derive(Clone, Debug, PartialEq, Eq, Hash)]
#[non_exhaustive]
pub enum Event {
    /// Makes a new object known under the next index and holds it once.
    Export,
    /// Holds a reference once more.
    Dup(Reference),
    /// Gives back one hold on a reference.
    Release(Reference),
    /// Calls a method of the object that a reference names.
    Call {
        /// The object.
        target: Reference,
        /// The number of the method.
        method: u16,
        /// The argument.
        value: Value,
    },
    /// Takes the reply to a call.
    TakeReply(CallNo),
    /// Takes a job: a call that has come and whose object isn't running.
    Claim,
    /// Ends a job.
    Finish(JobNo, Outcome),
    /// Acts on the next item that was accepted from a peer.
    Act(SpaceId),
    /// Settles the first message whose references are all resolved.
    Settle,
    /// Gives up the first surrogate that nothing uses.
    Clean,
    /// Withdraws the object of this index.
    Withdraw(u64),
    /// Gives the frames that are to be sent to a peer now.
    Transmit(SpaceId),
    /// Takes a frame that has come.
    Arrive(Frame),
    /// Counts a tick of the session with a peer.
    Tick(SpaceId),
    /// Closes the session with a peer.
    Close(SpaceId),
    /// Opens the session with a peer anew, which has closed here.
    Open(SpaceId),
}

/// A call that its owner is to carry out: see [`Space::claim`](super::Space::claim).
///
/// ```
/// # use masttomato::space::*;
/// # fn carry(from: &mut Space, to: &mut Space) -> Result<(), SpaceError> {
/// #     for frame in from.transmit(to.id())?.iter() {
/// #         to.arrive(&frame)?;
/// #     }
/// #     while to.act(from.id()).is_ok() || to.settle().is_ok() || to.clean().is_ok() {}
/// #     Ok(())
/// # }
/// # let [one, two] = [1, 2].map(|number| SpaceId::new(number).expect("1 to 32"));
/// # let mut caller = Space::new(one, two, Limits::default())?;
/// # let mut owner = Space::new(two, two, Limits::default())?;
/// caller.call(two.agent(), 3, &Value::Int(20))?;
/// carry(&mut caller, &mut owner)?;
/// let job = owner.claim()?;
/// assert_eq!((job.client, job.call.get(), job.target, job.method), (one, 1, 0, 3));
/// assert_eq!(job.to_string(), "job 1 from 1 call 1 on 0 method 3 i20");
/// # Ok::<(), SpaceError>(())
/// ```
#[derive(Clone, Debug, PartialEq, Eq, Hash)]
pub struct Job {
    /// The number of the job at this space.
    pub job: JobNo,
    /// The space that calls.
    pub client: SpaceId,
    /// The number of the call at that space.
    pub call: CallNo,
    /// The index of the object that is called.
    pub target: u64,
    /// The number of the method.
    pub method: u16,
    /// The argument.
    pub value: Value,
}

/// What a space answers to an event that it doesn't refuse: see [`Space::step`](super::Space::step). Its text
/// is that of traces.
///
/// ```
/// # use masttomato::space::*;
/// # let [one, two] = [1, 2].map(|number| SpaceId::new(number).expect("1 to 32"));
/// # let mut space = Space::new(one, two, Limits::default())?;
/// assert_eq!(space.step(&Event::Export)?.to_string(), "exported 1.1");
/// assert_eq!(space.step(&Event::Transmit(two))?, Answer::Frames(Frames::default()));
/// # Ok::<(), SpaceError>(())
/// ```
#[derive(Clone, Debug, PartialEq, Eq, Hash)]
#[non_exhaustive]
pub enum Answer {
    /// Of Export: the new object's reference.
    Exported(Reference),
    /// Of Dup, of Release, and of a Tick that closes nothing.
    Done,
    /// Of Call: the number of the call.
    Called(CallNo),
    /// Of TakeReply: the reply's status and its value.
    Replied(Status, Value),
    /// Of TakeReply: the session closed before the reply was ready.
    Ended,
    /// Of Claim: the job.
    Job(Job),
    /// Of Finish: the reply is handed on.
    Finished,
    /// Of Finish: the session that the call came in has closed, opened again or not, and there is no reply.
    Dropped,
    /// Of Act: the number of the item.
    Acted(ItemNo),
    /// Of Act, Arrive, Tick and Close: the session closed.
    Closed(Reason),
    /// Of Settle: the peer that sent the message, and its item's number.
    Settled(SpaceId, ItemNo),
    /// Of Clean: the reference.
    Cleaned(Reference),
    /// Of Withdraw.
    Withdrawn,
    /// Of Transmit: the frames, in order.
    Frames(Frames),
    /// Of Arrive: so many items were accepted.
    Took(u64),
    /// Of Open: the number of the session.
    Opened(u32),
}

impl fmt::Display for Outcome {
    fn fmt(&self, f: &mut fmt::Formatter<'_>) -> fmt::Result {
        match self {
            Outcome::Answer(value) => write!(f, "answer {value}"),
            Outcome::Fault(value) => write!(f, "fault {value}"),
            Outcome::NoMethod => f.write_str("nomethod"),
        }
    }
}

impl fmt::Display for Event {
    fn fmt(&self, f: &mut fmt::Formatter<'_>) -> fmt::Result {
        match self {
            Event::Export => f.write_str("export"),
            Event::Dup(reference) => write!(f, "dup {reference}"),
            Event::Release(reference) => write!(f, "release {reference}"),
            Event::Call { target, method, value } => write!(f, "call {target} {method} {value}"),
            Event::TakeReply(call) => write!(f, "take {call}"),
            Event::Claim => f.write_str("claim"),
            Event::Finish(job, outcome) => write!(f, "finish {job} {outcome}"),
            Event::Act(peer) => write!(f, "act {peer}"),
            Event::Settle => f.write_str("settle"),
            Event::Clean => f.write_str("clean"),
            Event::Withdraw(index) => write!(f, "withdraw {index}"),
            Event::Transmit(peer) => write!(f, "send {peer}"),
            Event::Arrive(frame) => write!(f, "arrive {frame}"),
            Event::Tick(peer) => write!(f, "tick {peer}"),
            Event::Close(peer) => write!(f, "close {peer}"),
            Event::Open(peer) => write!(f, "open {peer}"),
        }
    }
}

impl fmt::Display for Job {
    fn fmt(&self, f: &mut fmt::Formatter<'_>) -> fmt::Result {
        let Job { job, client, call, target, method, value } = self;
        write!(f, "job {job} from {client} call {call} on {target} method {method} {value}")
    }
}

impl fmt::Display for Answer {
    fn fmt(&self, f: &mut fmt::Formatter<'_>) -> fmt::Result {
        match self {
            Answer::Exported(reference) => write!(f, "exported {reference}"),
            Answer::Done => f.write_str("ok"),
            Answer::Called(call) => write!(f, "call {call}"),
            Answer::Replied(status, value) => write!(f, "reply {status} {value}"),
            Answer::Ended => f.write_str("ended"),
            Answer::Job(job) => job.fmt(f),
            Answer::Finished => f.write_str("finished"),
            Answer::Dropped => f.write_str("dropped"),
            Answer::Acted(item) => write!(f, "acted {item}"),
            Answer::Closed(reason) => write!(f, "closed {reason}"),
            Answer::Settled(peer, item) => write!(f, "settled {peer} {item}"),
            Answer::Cleaned(reference) => write!(f, "cleaned {reference}"),
            Answer::Withdrawn => f.write_str("withdrawn"),
            Answer::Frames(frames) if frames.is_empty() => f.write_str("frames none"),
            Answer::Frames(frames) => {
                f.write_str("frames")?;
                frames.iter().try_for_each(|frame| write!(f, " {frame}"))
            }
            Answer::Took(count) => write!(f, "took {count}"),
            Answer::Opened(number) => write!(f, "opened {number}"),
        }
    }
}
