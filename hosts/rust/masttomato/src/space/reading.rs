//! Texts to what they say. Each thing has one text, and all other texts say nothing.

use super::event::{Event, Outcome};
use super::frame::Frame;
use super::hex::bytes_of;
use super::names::{CallNo, JobNo, Limits, Reference, SpaceId};
use super::script::{Opening, Step};
use super::value::Value;
use std::error::Error;
use std::fmt;
use std::str::FromStr;

/// A text that spells nothing of the kind.
///
/// ```
/// # use masttomato::space::{NoText, Value};
/// assert_eq!("i05".parse::<Value>(), Err(NoText));      // a number has one text
/// ```
#[derive(Clone, Copy, Debug, PartialEq, Eq, Hash)]
pub struct NoText;

impl fmt::Display for NoText {
    fn fmt(&self, f: &mut fmt::Formatter<'_>) -> fmt::Result {
        f.write_str("the text spells nothing of the kind")
    }
}

impl Error for NoText {}

impl FromStr for Value {
    type Err = NoText;

    fn from_str(text: &str) -> Result<Value, NoText> {
        value_of(text).ok_or(NoText)
    }
}

impl FromStr for Reference {
    type Err = NoText;

    fn from_str(text: &str) -> Result<Reference, NoText> {
        reference_of(text).ok_or(NoText)
    }
}

impl FromStr for Event {
    type Err = NoText;

    fn from_str(text: &str) -> Result<Event, NoText> {
        match text.strip_prefix("arrive ") {
            Some(bytes) => arrival_of(bytes).ok_or(NoText),
            None => event_of(text).ok_or(NoText),
        }
    }
}

/// So many lists may stand in one another in a text.
const MOST_LISTS: usize = 1_000;

/// What the first line of a script says.
pub(crate) fn opening_of(line: &str) -> Option<Opening> {
    let words: Vec<&str> = line.split(' ').collect();
    let (spaces, limits) = match words[..] {
        ["spaces", spaces] => (spaces, Limits::default()),
        ["spaces", spaces, "window", window, "retry", retry] => {
            (spaces, Limits::new(small_number_of(window)?, small_number_of(retry)?)?)
        }
        _ => return None,
    };
    Some(Opening { spaces: space_of(spaces)?, limits })
}

/// What a further line of a script says.
pub(crate) fn step_of(line: &str) -> Option<Step> {
    let (first, rest) = line.split_once(' ')?;
    match first {
        "deliver" => Some(Step::Deliver(number_of(rest)?)),
        _ => Some(Step::Do(space_of(first)?, event_of(rest)?)),
    }
}

fn arrival_of(text: &str) -> Option<Event> {
    Some(Event::Arrive(Frame::from_bytes(bytes_of(text)?).ok()?))
}

/// The event that a text spells; an arrival has none in scripts.
fn event_of(text: &str) -> Option<Event> {
    let (word, rest) = match text.split_once(' ') {
        Some((word, rest)) => (word, Some(rest)),
        None => (text, None),
    };
    match (word, rest) {
        ("export", None) => Some(Event::Export),
        ("claim", None) => Some(Event::Claim),
        ("settle", None) => Some(Event::Settle),
        ("clean", None) => Some(Event::Clean),
        ("dup", Some(rest)) => reference_of(rest).map(Event::Dup),
        ("release", Some(rest)) => reference_of(rest).map(Event::Release),
        ("call", Some(rest)) => call_of(rest),
        ("take", Some(rest)) => number_of(rest).map(CallNo::new).map(Event::TakeReply),
        ("finish", Some(rest)) => finish_of(rest),
        ("act", Some(rest)) => space_of(rest).map(Event::Act),
        ("send", Some(rest)) => space_of(rest).map(Event::Transmit),
        ("tick", Some(rest)) => space_of(rest).map(Event::Tick),
        ("close", Some(rest)) => space_of(rest).map(Event::Close),
        ("open", Some(rest)) => space_of(rest).map(Event::Open),
        ("withdraw", Some(rest)) => number_of(rest).map(Event::Withdraw),
        _ => None,
    }
}

fn call_of(text: &str) -> Option<Event> {
    let (target, text) = text.split_once(' ')?;
    let (method, value) = text.split_once(' ')?;
    Some(Event::Call {
        target: reference_of(target)?,
        method: number_of(method)?.try_into().ok()?,
        value: value_of(value)?,
    })
}

fn finish_of(text: &str) -> Option<Event> {
    let (job, outcome) = text.split_once(' ')?;
    let outcome = match outcome.split_once(' ') {
        None if outcome == "nomethod" => Outcome::NoMethod,
        Some(("answer", value)) => Outcome::Answer(value_of(value)?),
        Some(("fault", value)) => Outcome::Fault(value_of(value)?),
        _ => return None,
    };
    Some(Event::Finish(JobNo::new(number_of(job)?), outcome))
}

fn value_of(text: &str) -> Option<Value> {
    let (value, "") = value_at(text, MOST_LISTS)? else {
        return None;
    };
    Some(value)
}

// The value at the front of a text, in which so many lists may stand in one another, and the rest.
fn value_at(text: &str, lists: usize) -> Option<(Value, &str)> {
    let rest = text.get(1..)?;
    let (front, behind) = rest.split_at(rest.find([',', ']']).unwrap_or(rest.len()));
    match text.as_bytes()[0] {
        b'u' => Some((Value::Unit, rest)),
        b'i' => Some((Value::Int(integer_of(front)?), behind)),
        b'b' => Some((Value::Bytes(bytes_of(front)?), behind)),
        b'r' => Some((Value::Ref(reference_of(front)?), behind)),
        b'[' => list_at(rest, lists.checked_sub(1)?),
        _ => None,
    }
}

// The list whose elements stand at the front of a text.
fn list_at(text: &str, lists: usize) -> Option<(Value, &str)> {
    let mut values = Vec::new();
    if let Some(rest) = text.strip_prefix(']') {
        return Some((Value::List(values), rest));
    }
    let mut left = text;
    loop {
        let (value, rest) = value_at(left, lists)?;
        values.push(value);
        if let Some(rest) = rest.strip_prefix(']') {
            return Some((Value::List(values), rest));
        }
        left = rest.strip_prefix(',')?;
    }
}

fn reference_of(text: &str) -> Option<Reference> {
    let (owner, index) = text.split_once('.')?;
    Some(Reference { owner: space_of(owner)?, index: number_of(index)? })
}

fn space_of(text: &str) -> Option<SpaceId> {
    SpaceId::new(number_of(text)?.try_into().ok()?)
}

fn small_number_of(text: &str) -> Option<u8> {
    number_of(text)?.try_into().ok()
}

// A number has no sign and no leading zero.
fn number_of(text: &str) -> Option<u64> {
    text.parse().ok().filter(|number: &u64| number.to_string() == text)
}

fn integer_of(text: &str) -> Option<i64> {
    text.parse().ok().filter(|number: &i64| number.to_string() == text)
}
