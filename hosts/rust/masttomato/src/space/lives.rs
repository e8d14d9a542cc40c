//! Joins what the lives of spaces recorded into traces and chains that `nobj check` judges.

use super::birth::Birth;
use super::chain::Chain;
use super::event::{Answer, Event, Outcome};
use super::events::Space;
use super::names::{CallNo, JobNo, Limits, Reference, SpaceId};
use super::refusal::SpaceError;
use super::tally::PeerTally;
use super::trace::Trace;
use super::value::Value;
use std::collections::{BTreeMap, BTreeSet};
use std::error::Error;
use std::fmt::{self, Write};

/// So many calls can be made in one session that nobody acknowledges.
const MOST_CALLS: u64 = 4_096;

/// Why lives aren't joined: see [`join_lives`].
///
/// ```
/// # use masttomato::space::*;
/// # let one = SpaceId::new(1).expect("1 to 32");
/// let lives = [vec!["1 export = exported 1.1\nno entry\n".to_string()]];
/// let why = join_lives(one, Limits::default(), &lives).unwrap_err();
/// assert_eq!(why.to_string(), "space 1, life 1, line 2: no entry");
/// ```
#[derive(Clone, Debug, PartialEq, Eq, Hash)]
#[non_exhaustive]
pub enum JoinError {
    /// A line is no entry, and not what a life begins with: whose, in which of its lives, and where.
    Line {
        /// The space.
        space: SpaceId,
        /// Which of its lives, from 1 on.
        life: usize,
        /// The line, from 1 on.
        line: usize,
        /// What it says.
        text: String,
    },
    /// The stamps would be too large.
    Stamps,
    /// There is no memory for the space that plays the entries again.
    Space(SpaceError),
}

impl fmt::Display for JoinError {
    fn fmt(&self, f: &mut fmt::Formatter<'_>) -> fmt::Result {
        match self {
            JoinError::Line { space, life, line, text } => {
                write!(f, "space {space}, life {life}, line {line}: {text}")
            }
            JoinError::Stamps => f.write_str("the stamps would be too large"),
            JoinError::Space(error) => error.fmt(f),
        }
    }
}

impl Error for JoinError {}

/// Joins the lives of all spaces, from 1 on, into a trace or a chain each, for `nobj check`. A life is the lines that it recorded:
/// first `life 2 indexes 4 calls 4 jobs 0 2:3`, which says what it began behind, and then its entries, with seals between them where it
/// kept a chain; a space that kept no bounds has one life, without such a first line.
///
/// Between two lives stands a *bridge*: entries of what the space is taken to have done in between, each of which is one that
/// any space may do by itself. It closes all sessions, ends its jobs, takes its replies, gives back all that it holds,
/// withdraws its objects, passes over indexes, calls and session numbers, and opens its sessions again. For others that can't
/// be told from a death and a birth; and it is right after every list of right entries, as `nob_model_lives` proves. Each
/// life's jobs are raised by those of the lives before; and all stamps, of all traces, are multiplied by one number, so that
/// there is room for those of the bridges.
///
/// A space of which a life left seals is joined into a chain: behind the entries of each segment stands the seal that the space itself
/// left, and each bridge ends a segment whose seal is made here, in which what the life before it hadn't sealed stands before the
/// bridge. What the last life hadn't sealed is sealed here, too. Any other space is joined into a trace.
///
/// What is joined needs no trust for a verdict to be true, but that entries are copied as they are: a bridge that is wrong
/// is refused by `check`, as any wrong entry is.
///
/// ```
/// use masttomato::space::{Limits, SpaceId, join_lives};
///
/// # fn main() -> Result<(), Box<dyn std::error::Error>> {
/// let first = "life 1 indexes 0 calls 0 jobs 0 2:1\n1 export = exported 1.1\n";
/// let second = "life 2 indexes 2 calls 0 jobs 0 2:3\n2 export = exported 1.3\n";
/// let one = vec![first.to_string(), second.to_string()];
/// let two = vec![String::new()];
/// let traces = join_lives(SpaceId::try_from(2)?, Limits::default(), &[one, two])?;
/// let trace = "trace2 1 of 2 window 8 retry 16 entries 11\n\
///              10 export = exported 1.1\n\
///              11 close 2 = closed 1\n\
///              12 release 1.1 = ok\n\
///              13 withdraw 1 = withdrawn\n\
///              14 export = exported 1.2\n\
///              15 release 1.2 = ok\n\
///              16 withdraw 2 = withdrawn\n\
///              17 open 2 = opened 2\n\
///              18 close 2 = closed 1\n\
///              19 open 2 = opened 3\n\
///              20 export = exported 1.3\n";
/// assert_eq!(traces[0], trace);
///
/// // The same in chains. The first life had sealed its first entry as it died.
/// let first = "life 1 indexes 0 calls 0 jobs 0\n1 export = exported 1.1\nseal 1 live 1\n2 dup 1.1 = ok\n";
/// let second = "life 2 indexes 1 calls 0 jobs 0\n3 export = exported 1.2\nseal 3 live 1\n";
/// let one = vec![first.to_string(), second.to_string()];
/// let chain = "chain 1 of 1 window 8 retry 16 segments 3\n\
///              segment 1 entries 1\n\
///              4 export = exported 1.1\n\
///              seal 4 live 1\n\
///              segment 2 entries 4\n\
///              8 dup 1.1 = ok\n\
///              9 release 1.1 = ok\n\
///              10 release 1.1 = ok\n\
///              11 withdraw 1 = withdrawn\n\
///              seal 11 live 0\n\
///              segment 3 entries 1\n\
///              12 export = exported 1.2\n\
///              seal 12 live 1\n";
/// assert_eq!(join_lives(SpaceId::try_from(1)?, Limits::default(), &[one])?, [chain]);
/// # Ok(())
/// # }
/// ```
///
/// # Errors
/// Where a line is none of these, or the stamps become too large.
///
/// # Panics
/// Where there are lives of more spaces than there are.
pub fn join_lives(
    spaces: SpaceId,
    limits: Limits,
    lives: &[Vec<String>],
) -> Result<Vec<String>, JoinError> {
    assert!(lives.len() <= usize::from(spaces.get()), "more spaces than there are");
    let joined: Vec<Joined> = spaces
        .up_to()
        .zip(lives)
        .map(|(space, lives)| Joined::of(space, spaces, limits, lives))
        .collect::<Result<_, _>>()?;
    let factor = joined.iter().map(|joined| joined.longest).max().unwrap_or(0) + 1;
    joined.iter().map(|joined| joined.text(factor)).collect()
}

/// A line of what is joined: an entry, or a seal behind others.
struct Line {
    /// The stamp of the last entry that was recorded, and how far this line's own stands behind it.
    stamp: (u64, u64),
    is_seal: bool,
    /// What follows the stamp.
    text: String,
}

/// The lines of a space, in order; behind the last entry stands a seal, if any does.
struct Joined {
    space: Space,
    lines: Vec<Line>,
    longest: u64,
}

impl Joined {
    fn of(
        id: SpaceId,
        spaces: SpaceId,
        limits: Limits,
        lives: &[String],
    ) -> Result<Joined, JoinError> {
        let space = Space::new(id, spaces, limits).map_err(JoinError::Space)?;
        let mut replay = Replay::new(space);
        for (place, text) in lives.iter().enumerate() {
            for (line, text) in text.lines().enumerate() {
                if replay.line(text).is_none() {
                    let (space, life, line) = (id, place + 1, line + 1);
                    return Err(JoinError::Line { space, life, line, text: text.into() });
                }
            }
        }
        replay.seal();
        let Replay { space, lines, longest, has_seals, .. } = replay;
        let lines = lines.into_iter().filter(|line| has_seals || !line.is_seal).collect();
        Ok(Joined { space, lines, longest })
    }

    fn text(&self, factor: u64) -> Result<String, JoinError> {
        let (id, spaces, limits) = (self.space.id(), self.space.spaces(), self.space.limits());
        let is_chain = self.lines.iter().any(|line| line.is_seal);
        let segments: Vec<&[Line]> = self.lines.split_inclusive(|line| line.is_seal).collect();
        let mut text = match is_chain {
            true => Chain::first_line(id, spaces, limits, segments.len() as u64),
            false => Trace::first_line(id, spaces, limits, self.lines.len() as u64),
        };
        for (number, lines) in (1..).zip(segments) {
            if is_chain {
                let entries = lines.len() - 1;
                writeln!(text, "segment {number} entries {entries}").expect(TAKES_ANY);
            }
            lines.iter().try_for_each(|line| line.put(&mut text, factor))?;
        }
        Ok(text)
    }
}

const TAKES_ANY: &str = "a String takes any text";

impl Line {
    fn put(&self, text: &mut String, factor: u64) -> Result<(), JoinError> {
        let (recorded, behind) = self.stamp;
        let stamp = recorded.checked_mul(factor).and_then(|stamp| stamp.checked_add(behind));
        let stamp = stamp.filter(|stamp| *stamp < 1 << 62).ok_or(JoinError::Stamps)?;
        let head = if self.is_seal { "seal " } else { "" };
        writeln!(text, "{head}{stamp} {}", self.text).expect(TAKES_ANY);
        Ok(())
    }
}

/// The entries so far, played again by a space, and what is to be ended in a bridge.
struct Replay {
    space: Space,
    lines: Vec<Line>,
    /// Whether a life has left seals.
    has_seals: bool,
    stamp: u64,
    behind: u64,
    longest: u64,
    exported: u64,
    made: u64,
    claimed: u64,
    /// What is added to the numbers of this life's jobs.
    raised: u64,
    hands: BTreeMap<Reference, u64>,
    live: BTreeSet<u64>,
    untaken: BTreeSet<CallNo>,
    running: BTreeSet<JobNo>,
}

impl Replay {
    fn new(mut space: Space) -> Replay {
        space.keep_trace();
        Replay {
            space,
            lines: Vec::new(),
            has_seals: false,
            stamp: 0,
            behind: 0,
            longest: 0,
            exported: 0,
            made: 0,
            claimed: 0,
            raised: 0,
            hands: BTreeMap::new(),
            live: BTreeSet::new(),
            untaken: BTreeSet::new(),
            running: BTreeSet::new(),
        }
    }

    // A line of a life: `None` where it is none.
    fn line(&mut self, line: &str) -> Option<()> {
        if let Some(rest) = line.strip_prefix("life ") {
            let birth = birth_of(rest)?;
            self.bridge(&birth);
            self.raised = self.claimed.checked_sub(birth.jobs)?;
            return Some(());
        }
        if let Some(rest) = line.strip_prefix("seal ") {
            return self.recorded_seal(rest);
        }
        let (stamp, entry) = line.split_once(' ')?;
        let (event, result) = entry.split_once(" = ")?;
        let event = raise(event, "finish ", self.raised)?;
        let result = raise(result, "job ", self.raised)?;
        (self.stamp, self.behind) = (stamp.parse().ok()?, 0);
        self.push(format!("{event} = {result}"), false);
        // What is recorded stays as it is, also where a space would have answered otherwise: `check` says so.
        self.step(&event.parse().ok()?);
        let _played = self.space.take_lines();
        Some(())
    }

    fn push(&mut self, text: String, is_seal: bool) {
        let stamp = (self.stamp, self.behind);
        self.lines.push(Line { stamp, is_seal, text });
    }

    // A seal that the space left itself stays as it is, but for its stamp.
    fn recorded_seal(&mut self, rest: &str) -> Option<()> {
        let (stamp, text) = rest.split_once(' ')?;
        let (stamp, is_seal, text) = ((stamp.parse().ok()?, 0), true, text.into());
        self.has_seals = true;
        self.has_unsealed().then(|| self.lines.push(Line { stamp, is_seal, text }))
    }

    fn has_unsealed(&self) -> bool {
        self.lines.last().is_some_and(|line| !line.is_seal)
    }

    // Seals what isn't: the space that plays the entries says of itself what is right.
    fn seal(&mut self) {
        if self.has_unsealed() {
            let mut text = format!("live {}", self.space.live());
            for peer in self.space.peers() {
                if let Some(tally) = self.space.tally(peer) {
                    write!(text, " {}", PeerTally { peer, tally }).expect(TAKES_ANY);
                }
            }
            self.push(text, true);
        }
    }

    fn step(&mut self, event: &Event) -> Option<Answer> {
        let answer = self.space.step(event).ok()?;
        match (event, &answer) {
            (_, Answer::Exported(reference)) => {
                self.exported = reference.index;
                self.live.insert(reference.index);
                self.add_hand(*reference);
            }
            (Event::Dup(reference), _) => self.add_hand(*reference),
            (Event::Release(reference), _) => {
                if let Some(count) = self.hands.get_mut(reference) {
                    *count -= 1;
                }
            }
            (_, Answer::Called(call)) => {
                self.made = call.get();
                self.untaken.insert(*call);
            }
            (Event::TakeReply(call), taken) => {
                self.untaken.remove(call);
                if let Answer::Replied(_, value) = taken {
                    value.references().into_iter().for_each(|one| self.add_hand(one));
                }
            }
            (_, Answer::Job(job)) => {
                self.claimed = job.job.get();
                self.running.insert(job.job);
            }
            (Event::Finish(job, _), _) => drop(self.running.remove(job)),
            (Event::Withdraw(index), _) => drop(self.live.remove(index)),
            _ => {}
        }
        Some(answer)
    }

    fn add_hand(&mut self, reference: Reference) {
        if reference.is_counted() {
            *self.hands.entry(reference).or_default() += 1;
        }
    }

    // An entry of a bridge: what the space answers is what is right.
    fn put(&mut self, event: &Event) -> Option<Answer> {
        let answer = self.step(event);
        let lines = self.space.take_lines();
        if let Some((_, entry)) = lines.trim_end().split_once(' ') {
            self.behind += 1;
            self.longest = self.longest.max(self.behind);
            self.push(entry.into(), false);
        }
        answer
    }

    // What leads from the life before to a birth.
    fn bridge(&mut self, birth: &Birth) {
        let counts = (birth.indexes, birth.calls, birth.jobs);
        let is_new = counts == (0, 0, 0) && self.space.peers().all(|peer| birth.session(peer) == 1);
        if is_new && self.lines.is_empty() {
            return;
        }
        self.end_all();
        self.pass_indexes(birth.indexes);
        self.pass_calls(birth);
        for peer in self.space.peers() {
            self.open_in(peer, birth.session(peer));
        }
        self.seal();
    }

    fn end_all(&mut self) {
        for peer in self.space.peers() {
            if self.space.tally(peer).is_some_and(|tally| tally.closed.is_none()) {
                self.put(&Event::Close(peer));
            }
        }
        for job in std::mem::take(&mut self.running) {
            self.put(&Event::Finish(job, Outcome::NoMethod));
        }
        for call in std::mem::take(&mut self.untaken) {
            self.put(&Event::TakeReply(call));
        }
        for (reference, count) in std::mem::take(&mut self.hands) {
            (0..count).for_each(|_| drop(self.put(&Event::Release(reference))));
        }
        for index in std::mem::take(&mut self.live) {
            self.put(&Event::Withdraw(index));
        }
    }

    fn number(&self, peer: SpaceId) -> u32 {
        self.space.tally(peer).map_or(0, |tally| tally.session)
    }

    fn pass_indexes(&mut self, last: u64) {
        while self.exported < last {
            let Some(Answer::Exported(object)) = self.put(&Event::Export) else { return };
            self.put(&Event::Release(object));
            self.put(&Event::Withdraw(object.index));
        }
    }

    // Calls are made in sessions that are passed over with one peer, and go nowhere.
    fn pass_calls(&mut self, birth: &Birth) {
        let wide = |peer: &SpaceId| birth.session(*peer).saturating_sub(self.number(*peer));
        let Some(peer) = self.space.peers().max_by_key(wide) else { return };
        while self.made < birth.calls && self.number(peer) + 1 < birth.session(peer) {
            let Some(Answer::Opened(_)) = self.put(&Event::Open(peer)) else { return };
            for _ in 0..MOST_CALLS.min(birth.calls - self.made) {
                let (target, value) = (peer.agent(), Value::Unit);
                self.put(&Event::Call { target, method: 0, value });
            }
            self.put(&Event::Close(peer));
            for call in std::mem::take(&mut self.untaken) {
                self.put(&Event::TakeReply(call));
            }
        }
    }

    // Numbers are passed over until the session opens in this one.
    fn open_in(&mut self, peer: SpaceId, number: u32) {
        while let Some(Answer::Opened(opened)) = self.put(&Event::Open(peer)) {
            if opened >= number {
                return;
            }
            self.put(&Event::Close(peer));
        }
    }
}

// The birth of a life: `2 indexes 4 calls 4 jobs 0 2:3`.
fn birth_of(text: &str) -> Option<Birth> {
    let words: Vec<&str> = text.split(' ').collect();
    let [_, "indexes", indexes, "calls", calls, "jobs", jobs, sessions @ ..] = &words[..] else {
        return None;
    };
    let mut birth = Birth {
        indexes: indexes.parse().ok()?,
        calls: calls.parse().ok()?,
        jobs: jobs.parse().ok()?,
        ..Birth::default()
    };
    for session in sessions {
        let (peer, number) = session.split_once(':')?;
        birth.set_session(peer.parse().ok()?, number.parse().ok()?);
    }
    Some(birth)
}

// A text with the number of a job behind this word, if it stands there, raised.
fn raise(text: &str, word: &str, raised: u64) -> Option<String> {
    let Some(rest) = text.strip_prefix(word) else { return Some(text.into()) };
    let (number, rest) = rest.split_once(' ')?;
    let number = number.parse::<u64>().ok()?.checked_add(raised)?;
    Some(format!("{word}{number} {rest}"))
}
