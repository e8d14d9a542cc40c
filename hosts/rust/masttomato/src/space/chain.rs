//! Chains: a trace in segments, each with a seal behind it, as the text that `nobj check` reads.

use super::event::{Answer, Event};
use super::names::{Limits, SpaceId};
use super::refusal::Refusal;
use super::tally::{PeerTally, Tally};
use super::trace::put_entry;
use std::fmt;

/// How many entries a segment of a chain has at most: 1 to 65,536, which is the default.
///
/// ```
/// use masttomato::space::SegmentSize;
///
/// assert_eq!(SegmentSize::new(4).map(SegmentSize::get), Some(4));
/// assert_eq!((SegmentSize::new(0), SegmentSize::new(65_537)), (None, None));
/// assert_eq!(SegmentSize::default().get(), 65_536);
/// ```
#[derive(Clone, Copy, Debug, PartialEq, Eq, PartialOrd, Ord, Hash)]
pub struct SegmentSize(u32);

impl SegmentSize {
    const MOST: u32 = 65_536;

    /// So many entries: none where there are too few or too many.
    ///
    /// ```
    /// # use masttomato::space::SegmentSize;
    /// assert!(SegmentSize::new(1).is_some());
    /// ```
    pub const fn new(entries: u32) -> Option<SegmentSize> {
        if entries >= 1 && entries <= SegmentSize::MOST { Some(SegmentSize(entries)) } else { None }
    }

    /// How many they are.
    ///
    /// ```
    /// # use masttomato::space::SegmentSize;
    /// assert_eq!(SegmentSize::default().get(), 65_536);
    /// ```
    pub const fn get(self) -> u32 {
        self.0
    }
}

impl Default for SegmentSize {
    fn default() -> SegmentSize {
        SegmentSize(SegmentSize::MOST)
    }
}

/// What one space was asked and answered, in order, in segments of so many entries. Behind each segment stands
/// a seal: what the space itself says, right then, of its live objects and its sessions. So `nobj check`, which
/// runs the entries again, sees whether the two belong together.
///
/// Its text is a chain; chains and traces of all spaces, written one after the other, are what `nobj check` reads.
/// Entries that no seal stands behind aren't in it: [`seal`](Chain::seal) ends a segment early. The first segments of a
/// chain are a chain, too: so they may be written to a file as they are sealed, and the first line, which
/// says how many they are, to one of its own ([`first_line`](Chain::first_line)).
///
/// A space keeps one by [`Space::keep_chain`](crate::space::Space::keep_chain), and seals it. Stamps are as a
/// [`Trace`](crate::space::Trace)'s.
///
/// ```
/// use masttomato::space::{Answer, Chain, Event, Limits, Reference, SegmentSize, SpaceId, Tally};
///
/// # fn main() -> Result<(), Box<dyn std::error::Error>> {
/// let [one, two] = [SpaceId::try_from(1)?, SpaceId::try_from(2)?];
/// let mut chain = Chain::new(one, two, Limits::default(), SegmentSize::default());
/// let object = Reference { owner: one, index: 1 };
/// chain.push(&Event::Export, &Ok(Answer::Exported(object)));
/// chain.seal(1, [(two, Tally { session: 1, sent: 0, acted: 0, closed: None })]);
/// let text = "chain 1 of 2 window 8 retry 16 segments 1\n\
///             segment 1 entries 1\n\
///             1 export = exported 1.1\n\
///             seal 1 live 1 peer 2 session 1 sent 0 acted 0 open\n";
/// assert_eq!(chain.to_string(), text);
/// # Ok(())
/// # }
/// ```
#[derive(Clone, Debug)]
pub struct Chain {
    space: SpaceId,
    spaces: SpaceId,
    limits: Limits,
    size: SegmentSize,
    // How many segments are sealed, and the lines of those that weren't taken.
    segments: u64,
    sealed: String,
    // How many entries aren't sealed, and their lines.
    count: u32,
    open: String,
    // The stamp of the last entry, and what the next one is to be above.
    last: u64,
    stamp: u64,
}

impl Chain {
    /// A chain without segments, of a space among those from 1 to `spaces`.
    ///
    /// ```
    /// # use masttomato::space::*;
    /// let one = SpaceId::try_from(1)?;
    /// let chain = Chain::new(one, one, Limits::default(), SegmentSize::default());
    /// assert_eq!(chain.to_string(), "chain 1 of 1 window 8 retry 16 segments 0\n");
    /// # Ok::<(), NoSpace>(())
    /// ```
    pub fn new(space: SpaceId, spaces: SpaceId, limits: Limits, size: SegmentSize) -> Chain {
        let (sealed, open) = (String::new(), String::new());
        Chain {
            space,
            spaces,
            limits,
            size,
            segments: 0,
            sealed,
            count: 0,
            open,
            last: 0,
            stamp: 0,
        }
    }

    /// The stamp of the last entry, or what it was risen to since.
    ///
    /// ```
    /// # use masttomato::space::*;
    /// # let one = SpaceId::try_from(1)?;
    /// let mut chain = Chain::new(one, one, Limits::default(), SegmentSize::default());
    /// chain.push(&Event::Settle, &Err(Refusal::Nothing));
    /// assert_eq!(chain.stamp(), 1);
    /// # Ok::<(), NoSpace>(())
    /// ```
    pub fn stamp(&self) -> u64 {
        self.stamp
    }

    /// The next entry has a stamp above this one, if it is below 2^63.
    ///
    /// ```
    /// # use masttomato::space::*;
    /// # let one = SpaceId::try_from(1)?;
    /// let mut chain = Chain::new(one, one, Limits::default(), SegmentSize::default());
    /// chain.rise_to(7);
    /// chain.rise_to(1 << 63);
    /// chain.push(&Event::Settle, &Err(Refusal::Nothing));
    /// assert_eq!(chain.stamp(), 8);
    /// # Ok::<(), NoSpace>(())
    /// ```
    pub fn rise_to(&mut self, stamp: u64) {
        if stamp < 1 << 63 {
            self.stamp = self.stamp.max(stamp);
        }
    }

    /// Puts an entry behind the others, with a stamp above the last one. Where that makes the segment full
    /// ([`is_full`](Chain::is_full)), it is to be sealed before the next one.
    ///
    /// ```
    /// # use masttomato::space::*;
    /// # let one = SpaceId::try_from(1)?;
    /// let size = SegmentSize::new(1).expect("1 to 65,536");
    /// let mut chain = Chain::new(one, one, Limits::default(), size);
    /// chain.push(&Event::Settle, &Err(Refusal::Nothing));
    /// assert!(chain.is_full());
    /// # Ok::<(), NoSpace>(())
    /// ```
    pub fn push(&mut self, event: &Event, result: &Result<Answer, Refusal>) {
        self.count += 1;
        self.stamp += 1;
        self.last = self.stamp;
        put_entry(&mut self.open, self.stamp, event, result);
    }

    /// Whether the segment that isn't sealed has as many entries as it may.
    ///
    /// ```
    /// # use masttomato::space::*;
    /// # let one = SpaceId::try_from(1)?;
    /// let chain = Chain::new(one, one, Limits::default(), SegmentSize::default());
    /// assert!(!chain.is_full());
    /// # Ok::<(), NoSpace>(())
    /// ```
    pub fn is_full(&self) -> bool {
        self.count >= self.size.get()
    }

    /// Ends the segment with what its space says of itself behind its last entry: how many objects are
    /// live, and of each peer, rising, what went each way. Where there are no entries nothing happens, since no segment is
    /// empty.
    ///
    /// ```
    /// # use masttomato::space::*;
    /// # let one = SpaceId::try_from(1)?;
    /// let mut chain = Chain::new(one, one, Limits::default(), SegmentSize::default());
    /// chain.seal(0, []);
    /// assert_eq!(chain.segments(), 0);
    /// chain.push(&Event::Settle, &Err(Refusal::Nothing));
    /// chain.seal(0, []);
    /// assert_eq!(chain.segments(), 1);
    /// # Ok::<(), NoSpace>(())
    /// ```
    pub fn seal(&mut self, live: u64, peers: impl IntoIterator<Item = (SpaceId, Tally)>) {
        if self.count == 0 {
            return;
        }
        self.segments += 1;
        let (number, count, stamp) = (self.segments, self.count, self.last);
        self.sealed.push_str(&format!("segment {number} entries {count}\n"));
        self.sealed.push_str(&self.open);
        self.sealed.push_str(&format!("seal {stamp} live {live}"));
        for (peer, tally) in peers {
            self.sealed.push_str(&format!(" {}", PeerTally { peer, tally }));
        }
        self.sealed.push('\n');
        self.open.clear();
        self.count = 0;
    }

    /// How many segments are sealed.
    ///
    /// ```
    /// # use masttomato::space::*;
    /// # let one = SpaceId::try_from(1)?;
    /// let chain = Chain::new(one, one, Limits::default(), SegmentSize::default());
    /// assert_eq!(chain.segments(), 0);
    /// # Ok::<(), NoSpace>(())
    /// ```
    pub fn segments(&self) -> u64 {
        self.segments
    }

    /// Takes the lines of the sealed segments that weren't taken yet: they are in the chain no more, and are counted
    /// still.
    ///
    /// ```
    /// # use masttomato::space::*;
    /// # let one = SpaceId::try_from(1)?;
    /// let mut chain = Chain::new(one, one, Limits::default(), SegmentSize::default());
    /// chain.push(&Event::Clean, &Err(Refusal::Nothing));
    /// assert_eq!(chain.take_segments(), "");
    /// chain.seal(0, []);
    /// assert_eq!(chain.take_segments(), "segment 1 entries 1\n1 clean = S10\nseal 1 live 0\n");
    /// assert_eq!(chain.take_segments(), "");
    /// # Ok::<(), NoSpace>(())
    /// ```
    pub fn take_segments(&mut self) -> String {
        std::mem::take(&mut self.sealed)
    }

    /// Takes the lines that weren't taken yet, of entries and of seals, also of the segment that isn't sealed: for who writes each
    /// down before others hear of it. The first lines of segments aren't among them, since they say how many entries there will be;
    /// `engine::Files` puts them in. All lines of a chain are taken so, or by [`take_segments`](Chain::take_segments).
    ///
    /// ```
    /// # use masttomato::space::*;
    /// # let one = SpaceId::try_from(1)?;
    /// let mut chain = Chain::new(one, one, Limits::default(), SegmentSize::default());
    /// chain.push(&Event::Clean, &Err(Refusal::Nothing));
    /// assert_eq!(chain.take_lines(), "1 clean = S10\n");
    /// chain.push(&Event::Clean, &Err(Refusal::Nothing));
    /// chain.seal(0, []);
    /// assert_eq!(chain.take_lines(), "2 clean = S10\nseal 2 live 0\n");
    /// # Ok::<(), NoSpace>(())
    /// ```
    pub fn take_lines(&mut self) -> String {
        let open = std::mem::take(&mut self.open);
        if self.sealed.is_empty() {
            return open;
        }
        let sealed = std::mem::take(&mut self.sealed);
        let lines = sealed.split_inclusive('\n').filter(|line| !line.starts_with("segment "));
        lines.chain([open.as_str()]).collect()
    }

    /// The first line of a chain with so many segments.
    ///
    /// ```
    /// # use masttomato::space::*;
    /// let [one, two] = [SpaceId::try_from(1)?, SpaceId::try_from(2)?];
    /// let first = Chain::first_line(one, two, Limits::default(), 3);
    /// assert_eq!(first, "chain 1 of 2 window 8 retry 16 segments 3\n");
    /// # Ok::<(), NoSpace>(())
    /// ```
    pub fn first_line(space: SpaceId, spaces: SpaceId, limits: Limits, segments: u64) -> String {
        let (window, retry) = (limits.window(), limits.retry());
        format!("chain {space} of {spaces} window {window} retry {retry} segments {segments}\n")
    }
}

impl fmt::Display for Chain {
    fn fmt(&self, f: &mut fmt::Formatter<'_>) -> fmt::Result {
        f.write_str(&Chain::first_line(self.space, self.spaces, self.limits, self.segments))?;
        f.write_str(&self.sealed)
    }
}
