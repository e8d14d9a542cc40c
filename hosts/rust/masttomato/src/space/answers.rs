//! What a space answers to some of its events, each in a type of its own.

use super::event::Answer;
use super::names::{ItemNo, Reason, SpaceId};
use super::value::Value;
use std::fmt;

/// What kind of answer a reply is. Its text is its number.
///
/// ```
/// # use masttomato::space::Status;
/// assert_eq!(Status::from_number(2), Some(Status::NoMethod));
/// assert_eq!(Status::NoMethod.to_string(), "2");
/// ```
#[derive(Clone, Copy, Debug, PartialEq, Eq, Hash)]
#[non_exhaustive]
pub enum Status {
    /// 0: the method answered.
    Answered = 0,
    /// 1: the method failed.
    Fault = 1,
    /// 2: there is no such method.
    NoMethod = 2,
    /// 3: a reference among the arguments was lost, and the method wasn't called; or one in the answer was.
    Lost = 3,
}

impl Status {
    const ALL: [Status; 4] = [Status::Answered, Status::Fault, Status::NoMethod, Status::Lost];

    /// The status's number, 0 to 3.
    ///
    /// ```
    /// # use masttomato::space::*;
    /// assert_eq!((Status::Answered.number(), Status::Lost.number()), (0, 3));
    /// ```
    pub const fn number(self) -> u8 {
        self as u8
    }

    /// The status of this number: `None` where none has it.
    ///
    /// ```
    /// # use masttomato::space::*;
    /// assert_eq!((Status::from_number(1), Status::from_number(4)), (Some(Status::Fault), None));
    /// ```
    pub fn from_number(number: u8) -> Option<Status> {
        Status::ALL.into_iter().find(|status| status.number() == number)
    }
}

impl fmt::Display for Status {
    fn fmt(&self, f: &mut fmt::Formatter<'_>) -> fmt::Result {
        self.number().fmt(f)
    }
}

/// What a call brought: see [`Space::take_reply`](super::Space::take_reply).
///
/// ```
/// # use masttomato::space::*;
/// // What a call was answered, where it was.
/// fn answer_of(result: CallResult) -> Option<Value> {
///     match result {
///         CallResult::Replied { status: Status::Answered, value } => Some(value),
///         _ => None,
///     }
/// }
/// let replied = CallResult::Replied { status: Status::Answered, value: Value::Int(5) };
/// assert_eq!((answer_of(replied), answer_of(CallResult::Ended)), (Some(Value::Int(5)), None));
/// ```
#[derive(Clone, Debug, PartialEq, Eq, Hash)]
#[non_exhaustive]
pub enum CallResult {
    /// Its reply.
    Replied {
        /// What kind of answer it is.
        status: Status,
        /// What it answered; unit where there is no method, or a reference was lost.
        value: Value,
    },
    /// The session closed before a reply came.
    Ended,
}

/// What became of a reply: see [`Space::finish`](super::Space::finish).
///
/// ```
/// # use masttomato::space::*;
/// assert_eq!(Answer::from(ReplyFate::HandedOn).to_string(), "finished");
/// assert_eq!(Answer::from(ReplyFate::Dropped).to_string(), "dropped");
/// ```
#[derive(Clone, Copy, Debug, PartialEq, Eq, Hash)]
#[non_exhaustive]
pub enum ReplyFate {
    /// It is handed on.
    HandedOn,
    /// The session that the call came in has closed, opened again or not, and there is none.
    Dropped,
}

/// What an Act did: see [`Space::act`](super::Space::act).
///
/// ```
/// # use masttomato::space::*;
/// assert_eq!(Answer::from(ActResult::Acted(ItemNo::new(4))).to_string(), "acted 4");
/// assert_eq!(Answer::from(ActResult::Closed(Reason::BadItem)).to_string(), "closed 4");
/// ```
#[derive(Clone, Copy, Debug, PartialEq, Eq, Hash)]
#[non_exhaustive]
pub enum ActResult {
    /// The item of this number was acted on.
    Acted(ItemNo),
    /// The item has a fault, and the session closed.
    Closed(Reason),
}

/// What a frame brought: see [`Space::arrive`](super::Space::arrive).
///
/// ```
/// # use masttomato::space::*;
/// assert_eq!(Answer::from(Arrived::Took(2)).to_string(), "took 2");
/// assert_eq!(Answer::from(Arrived::Closed(Reason::PeerClosed)).to_string(), "closed 2");
/// ```
#[derive(Clone, Copy, Debug, PartialEq, Eq, Hash)]
#[non_exhaustive]
pub enum Arrived {
    /// So many items, 0 to 64: it may be kept until those before it come, and bring those behind it that
    /// came early.
    Took(u64),
    /// It closed the session with its sender.
    Closed(Reason),
}

/// A message that was settled: whose item it was. See [`Space::settle`](super::Space::settle).
///
/// ```
/// # use masttomato::space::*;
/// let settled = SettledItem { peer: SpaceId::try_from(3)?, item: ItemNo::new(7) };
/// assert_eq!(Answer::from(settled).to_string(), "settled 3 7");
/// # Ok::<(), NoSpace>(())
/// ```
#[derive(Clone, Copy, Debug, PartialEq, Eq, Hash)]
pub struct SettledItem {
    /// The peer that sent it.
    pub peer: SpaceId,
    /// Its item's number.
    pub item: ItemNo,
}

impl From<CallResult> for Answer {
    fn from(brought: CallResult) -> Answer {
        match brought {
            CallResult::Replied { status, value } => Answer::Replied(status, value),
            CallResult::Ended => Answer::Ended,
        }
    }
}

impl From<ReplyFate> for Answer {
    fn from(fate: ReplyFate) -> Answer {
        match fate {
            ReplyFate::HandedOn => Answer::Finished,
            ReplyFate::Dropped => Answer::Dropped,
        }
    }
}

impl From<ActResult> for Answer {
    fn from(done: ActResult) -> Answer {
        match done {
            ActResult::Acted(item) => Answer::Acted(item),
            ActResult::Closed(reason) => Answer::Closed(reason),
        }
    }
}

impl From<Arrived> for Answer {
    fn from(arrived: Arrived) -> Answer {
        match arrived {
            Arrived::Took(count) => Answer::Took(count),
            Arrived::Closed(reason) => Answer::Closed(reason),
        }
    }
}

impl From<SettledItem> for Answer {
    fn from(settled: SettledItem) -> Answer {
        Answer::Settled(settled.peer, settled.item)
    }
}
