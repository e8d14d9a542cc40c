//! Traces: what a space was asked and answered, as the text that `nobj check` reads.

use super::event::{Answer, Event};
use super::names::{Limits, SpaceId};
use super::refusal::Refusal;
use std::fmt::{self, Write};

/// What one space was asked and answered, in order, each entry with its stamp. Its text is a trace:
/// the traces of all spaces, written one after the other, are what `nobj check` reads. It is a trace of
/// version 2, whose first line begins with `trace2` and whose frames name their sessions.
///
/// Stamps rise by one from entry to entry, and more where `rise_to` says so. Several traces are
/// merged by their stamps, and a frame must be transmitted before it arrives in what they make
/// together. So where frames come from elsewhere, carry beside each the stamp of the entry that
/// transmitted it, and rise to it before the frame arrives.
///
/// ```
/// use masttomato::space::{Answer, Event, Limits, SpaceId, Trace};
///
/// # fn main() -> Result<(), Box<dyn std::error::Error>> {
/// let one = SpaceId::try_from(1)?;
/// let mut trace = Trace::new(one, SpaceId::try_from(2)?, Limits::default());
/// trace.rise_to(4);
/// trace.push(&Event::Claim, &Err(masttomato::space::Refusal::Nothing));
/// trace.push(&"dup 2.1".parse()?, &Ok(Answer::Done));
/// let text = "trace2 1 of 2 window 8 retry 16 entries 2\n5 claim = S10\n6 dup 2.1 = ok\n";
/// assert_eq!(trace.to_string(), text);
/// # Ok(())
/// # }
/// ```
#[derive(Clone, Debug)]
pub struct Trace {
    space: SpaceId,
    spaces: SpaceId,
    limits: Limits,
    count: u64,
    stamp: u64,
    lines: String,
}

impl Trace {
    /// A trace without entries, of a space among those from 1 to `spaces`.
    ///
    /// ```
    /// # use masttomato::space::*;
    /// let one = SpaceId::try_from(1)?;
    /// let trace = Trace::new(one, one, Limits::default());
    /// assert_eq!(trace.to_string(), "trace2 1 of 1 window 8 retry 16 entries 0\n");
    /// # Ok::<(), NoSpace>(())
    /// ```
    pub fn new(space: SpaceId, spaces: SpaceId, limits: Limits) -> Trace {
        Trace { space, spaces, limits, count: 0, stamp: 0, lines: String::new() }
    }

    /// The stamp of the last entry, or what it was risen to since.
    ///
    /// ```
    /// # use masttomato::space::*;
    /// # let one = SpaceId::try_from(1)?;
    /// let mut trace = Trace::new(one, one, Limits::default());
    /// trace.push(&Event::Settle, &Err(Refusal::Nothing));
    /// assert_eq!(trace.stamp(), 1);
    /// # Ok::<(), NoSpace>(())
    /// ```
    pub fn stamp(&self) -> u64 {
        self.stamp
    }

    /// The next entry has a stamp above this one, if it is below 2^63: so whatever stamps others
    /// send, there are some left.
    ///
    /// ```
    /// # use masttomato::space::*;
    /// # let one = SpaceId::try_from(1)?;
    /// let mut trace = Trace::new(one, one, Limits::default());
    /// trace.rise_to(7);
    /// trace.rise_to(1 << 63);
    /// trace.push(&Event::Settle, &Err(Refusal::Nothing));
    /// assert_eq!(trace.lines(), "8 settle = S10\n");
    /// # Ok::<(), NoSpace>(())
    /// ```
    pub fn rise_to(&mut self, stamp: u64) {
        if stamp < 1 << 63 {
            self.stamp = self.stamp.max(stamp);
        }
    }

    /// Puts an entry behind the others, with a stamp above the last one.
    ///
    /// ```
    /// # use masttomato::space::*;
    /// # let one = SpaceId::try_from(1)?;
    /// let mut trace = Trace::new(one, one, Limits::default());
    /// trace.push(&Event::Export, &Ok(Answer::Exported(Reference { owner: one, index: 1 })));
    /// assert_eq!(trace.lines(), "1 export = exported 1.1\n");
    /// # Ok::<(), NoSpace>(())
    /// ```
    pub fn push(&mut self, event: &Event, result: &Result<Answer, Refusal>) {
        self.count += 1;
        self.stamp += 1;
        put_entry(&mut self.lines, self.stamp, event, result);
    }

    /// How many entries there are.
    ///
    /// ```
    /// # use masttomato::space::*;
    /// # let one = SpaceId::try_from(1)?;
    /// let mut trace = Trace::new(one, one, Limits::default());
    /// trace.push(&Event::Clean, &Err(Refusal::Nothing));
    /// let _taken = trace.take_lines();
    /// assert_eq!(trace.count(), 1);
    /// # Ok::<(), NoSpace>(())
    /// ```
    pub fn count(&self) -> u64 {
        self.count
    }

    /// Takes the lines that weren't taken yet: they are in the trace no more, and are counted still.
    ///
    /// ```
    /// # use masttomato::space::*;
    /// # let one = SpaceId::try_from(1)?;
    /// let mut trace = Trace::new(one, one, Limits::default());
    /// trace.push(&Event::Clean, &Err(Refusal::Nothing));
    /// assert_eq!(trace.take_lines(), "1 clean = S10\n");
    /// assert_eq!(trace.take_lines(), "");
    /// # Ok::<(), NoSpace>(())
    /// ```
    pub fn take_lines(&mut self) -> String {
        std::mem::take(&mut self.lines)
    }

    /// The lines of all entries that weren't taken, without the trace's first line.
    ///
    /// ```
    /// # use masttomato::space::*;
    /// # let one = SpaceId::try_from(1)?;
    /// let mut trace = Trace::new(one, one, Limits::default());
    /// trace.push(&Event::Claim, &Err(Refusal::Nothing));
    /// assert_eq!(trace.lines(), "1 claim = S10\n");
    /// # Ok::<(), NoSpace>(())
    /// ```
    pub fn lines(&self) -> &str {
        &self.lines
    }

    /// The first line of a trace with so many entries.
    ///
    /// ```
    /// # use masttomato::space::*;
    /// let [one, two] = [SpaceId::try_from(1)?, SpaceId::try_from(2)?];
    /// let first = Trace::first_line(one, two, Limits::default(), 3);
    /// assert_eq!(first, "trace2 1 of 2 window 8 retry 16 entries 3\n");
    /// # Ok::<(), NoSpace>(())
    /// ```
    pub fn first_line(space: SpaceId, spaces: SpaceId, limits: Limits, count: u64) -> String {
        let (window, retry) = (limits.window(), limits.retry());
        format!("trace2 {space} of {spaces} window {window} retry {retry} entries {count}\n")
    }
}

/// Puts the line of an entry behind others.
pub(super) fn put_entry(
    lines: &mut String,
    stamp: u64,
    event: &Event,
    result: &Result<Answer, Refusal>,
) {
    match result {
        Ok(answer) => writeln!(lines, "{stamp} {event} = {answer}"),
        Err(refusal) => writeln!(lines, "{stamp} {event} = {}", refusal.name()),
    }
    .expect("a String takes any text");
}

impl fmt::Display for Trace {
    fn fmt(&self, f: &mut fmt::Formatter<'_>) -> fmt::Result {
        f.write_str(&Trace::first_line(self.space, self.spaces, self.limits, self.count))?;
        f.write_str(&self.lines)
    }
}
