//! A space: the proved one of the static library, behind safe methods.

use super::answers::{ActResult, Arrived, CallResult, ReplyFate, SettledItem, Status};
use super::birth::{Birth, BirthError};
use super::bounds::{self, Bounds, BoundsError, Wanted};
use super::chain::{Chain, SegmentSize};
use super::counts::{Counts, Front, FrontItem, PeerCounts};
use super::event::{Answer, Event, Job, Outcome};
use super::frame::{Frame, FrameFault, Frames, sender_of};
use super::names::{CallNo, ItemNo, JobNo, Limits, Reason, Reference, SpaceId};
use super::refusal::{OTHER_VERSION, Refusal, SpaceError};
use super::tally::Tally;
use super::trace::Trace;
use super::value::Value;
use masttomato_sys::{Handle, Told};

/// A space among those from 1 to `spaces`: it owns objects, holds references to those of others,
/// and has a session with each other space. What it answers is proved to be right; which frames
/// arrive, how often and when is up to the program. A refused event, or one that memory is wanted
/// for, leaves it as it was. Dropping it closes its sessions, tells no peer, and frees its memory.
///
/// Whoever has one asks it for events and carries its frames. Two spaces, and a call from one to the other:
///
/// ```
/// use masttomato::space::{CallResult, Limits, Outcome, Space, SpaceError, SpaceId, Status, Value};
///
/// // Carries what a space has for the other, which acts on it.
/// fn carry(from: &mut Space, to: &mut Space) -> Result<(), SpaceError> {
///     for frame in from.transmit(to.id())?.iter() {
///         to.arrive(&frame)?;
///     }
///     while to.work().act(from.id()) {
///         to.act(from.id())?;
///     }
///     while to.work().settle {
///         to.settle()?;
///     }
///     Ok(())
/// }
///
/// # fn main() -> Result<(), SpaceError> {
/// # let [first, second] = [1, 2].map(|number| SpaceId::new(number).expect("a space"));
/// let mut owner = Space::new(first, second, Limits::default())?;
/// let mut caller = Space::new(second, second, Limits::default())?;
///
/// let call = caller.call(first.agent(), 3, &Value::from(20))?;
/// carry(&mut caller, &mut owner)?;
/// let job = owner.claim()?;
/// assert_eq!((job.client, job.method, job.value), (second, 3, Value::Int(20)));
///
/// let object = owner.export()?;
/// owner.finish(job.job, &Outcome::Answer(Value::from(object)))?;
/// owner.release(object)?;
/// carry(&mut owner, &mut caller)?;      // the caller asks for what the answer refers to,
/// carry(&mut caller, &mut owner)?;
/// carry(&mut owner, &mut caller)?;      // and has it
/// let replied = CallResult::Replied { status: Status::Answered, value: Value::from(object) };
/// assert_eq!(caller.take_reply(call)?, replied);
/// carry(&mut caller, &mut owner)?;
/// assert!(owner.lists(object.index, second) && owner.work().withdraw.is_none());
///
/// caller.release(object)?;
/// assert_eq!(caller.clean()?, object);
/// carry(&mut caller, &mut owner)?;
/// assert_eq!(owner.work().withdraw, Some(object.index));
/// owner.withdraw(object.index)?;
/// # Ok(())
/// # }
/// ```
///
/// What the library tells is believed: where it is of another version than this crate and tells a number that
/// this crate doesn't know, the method that asked panics.
///
/// A space stays on the thread that made it: it is neither `Send` nor `Sync`.
///
/// ```compile_fail
/// fn sent(space: masttomato::space::Space) {
///     std::thread::spawn(move || drop(space));
/// }
/// ```
#[derive(Debug)]
pub struct Space {
    handle: Handle,
    id: SpaceId,
    spaces: SpaceId,
    limits: Limits,
    trace: Option<Trace>,
    chain: Option<Chain>,
    bounds: Option<Bounds>,
    // Where bytes of the library are copied to, and where pickles are written.
    room: Vec<u8>,
    pickle: Vec<u8>,
}

/// What a Transmit would give: see [`Space::due`].
///
/// ```
/// # use masttomato::space::*;
/// # let [one, two] = [1, 2].map(|number| SpaceId::new(number).expect("1 to 32"));
/// # let mut space = Space::new(one, two, Limits::default())?;
/// assert_eq!(space.due(two), Due::Nothing);
/// space.call(two.agent(), 0, &Value::Unit)?;
/// assert_eq!(space.due(two), Due::New);
/// space.transmit(two)?;
/// assert_eq!(space.due(two), Due::Again);
/// space.close(two)?;
/// assert_eq!(space.due(two), Due::Close);
/// # Ok::<(), SpaceError>(())
/// ```
#[derive(Clone, Copy, Debug, PartialEq, Eq, Hash)]
#[non_exhaustive]
pub enum Due {
    /// Nothing.
    Nothing,
    /// An Ack alone.
    Ack,
    /// An item that was given before, and no other.
    Again,
    /// An item that was never given, or more.
    New,
    /// The Close that a closed end owes.
    Close,
}

/// What a space could do next, limits, free numbers and want of memory aside: see [`Space::work`].
///
/// ```
/// # use masttomato::space::*;
/// # let [one, two] = [1, 2].map(|number| SpaceId::new(number).expect("1 to 32"));
/// # let mut space = Space::new(one, two, Limits::default())?;
/// let object = space.export()?;
/// space.release(object)?;
/// let work = space.work();
/// assert!(!work.settle && !work.clean && !work.claim && !work.act(two) && !work.send(two));
/// assert_eq!(work.withdraw, Some(object.index));
/// # Ok::<(), SpaceError>(())
/// ```
#[derive(Clone, Copy, Debug, PartialEq, Eq, Hash)]
pub struct Work {
    act: u32,
    send: u32,
    /// Whether there is a message to settle.
    pub settle: bool,
    /// Whether there is a surrogate to give up.
    pub clean: bool,
    /// Whether there is a job to claim.
    pub claim: bool,
    /// The least index of an object that Withdraw would take.
    pub withdraw: Option<u64>,
}

impl Work {
    /// Whether there is an item from this space to act on, also one whose fault closes the session.
    ///
    /// ```
    /// # use masttomato::space::*;
    /// # fn carry(from: &mut Space, to: &mut Space) -> Result<(), SpaceError> {
    /// #     for frame in from.transmit(to.id())?.iter() {
    /// #         to.arrive(&frame)?;
    /// #     }
    /// #     while to.act(from.id()).is_ok() || to.settle().is_ok() || to.clean().is_ok() {}
    /// #     Ok(())
    /// # }
    /// # let [one, two] = [1, 2].map(|number| SpaceId::new(number).expect("1 to 32"));
    /// # let mut caller = Space::new(one, two, Limits::default())?;
    /// # let mut owner = Space::new(two, two, Limits::default())?;
    /// caller.call(two.agent(), 0, &Value::Unit)?;
    /// for frame in caller.transmit(two)?.iter() {
    ///     owner.arrive(&frame)?;
    /// }
    /// assert!(owner.work().act(one));
    /// # Ok::<(), SpaceError>(())
    /// ```
    pub fn act(&self, peer: SpaceId) -> bool {
        self.act >> (peer.get() - 1) & 1 == 1
    }

    /// Whether a Transmit to this space would give a frame.
    ///
    /// ```
    /// # use masttomato::space::*;
    /// # let [one, two] = [1, 2].map(|number| SpaceId::new(number).expect("1 to 32"));
    /// # let mut space = Space::new(one, two, Limits::default())?;
    /// space.call(two.agent(), 0, &Value::Unit)?;
    /// assert!(space.work().send(two));
    /// # Ok::<(), SpaceError>(())
    /// ```
    pub fn send(&self, peer: SpaceId) -> bool {
        self.send >> (peer.get() - 1) & 1 == 1
    }
}

/// Why a piece of a stream of frames wasn't taken.
///
/// ```
/// # use masttomato::space::*;
/// # let [one, two] = [1, 2].map(|number| SpaceId::new(number).expect("1 to 32"));
/// # let mut space = Space::new(one, two, Limits::default())?;
/// assert_eq!(space.push(two, &[0; 32]), Err(StreamError::Fault(FrameFault::Magic)));
/// # Ok::<(), SpaceError>(())
/// ```
#[derive(Clone, Copy, Debug, PartialEq, Eq, Hash)]
#[non_exhaustive]
pub enum StreamError {
    /// The stream isn't one of frames: said from then on, until the stream is restarted.
    Fault(FrameFault),
    /// Frames of an earlier piece still wait.
    Waiting,
    /// Memory ran out; the same piece may be pushed again.
    OutOfMemory,
    /// A space that has bounds takes frames one by one, by [`Space::arrive_bytes`].
    HasBounds,
    /// A frame in it says that it is from another space than this peer, or for another than this space. No frame of the
    /// piece waits, and the stream goes on behind it; whoever sent it is to be hung up on.
    OfOthers,
}

impl std::fmt::Display for StreamError {
    fn fmt(&self, f: &mut std::fmt::Formatter<'_>) -> std::fmt::Result {
        match self {
            StreamError::Fault(fault) => fault.fmt(f),
            StreamError::Waiting => f.write_str("frames still wait"),
            StreamError::OutOfMemory => f.write_str("out of memory"),
            StreamError::HasBounds => f.write_str("a space that has bounds takes no streams"),
            StreamError::OfOthers => f.write_str("a frame of another space, or for another one"),
        }
    }
}

impl std::error::Error for StreamError {}

/// Why bytes didn't arrive as a frame.
///
/// ```
/// # use masttomato::space::*;
/// # let [one, two] = [1, 2].map(|number| SpaceId::new(number).expect("1 to 32"));
/// # let mut space = Space::new(one, two, Limits::default())?;
/// assert_eq!(space.arrive_bytes(&[0; 32]), Err(ArriveError::Fault(FrameFault::Magic)));
/// # Ok::<(), SpaceError>(())
/// ```
#[derive(Clone, Copy, Debug, PartialEq, Eq, Hash)]
#[non_exhaustive]
pub enum ArriveError {
    /// They spell no frame.
    Fault(FrameFault),
    /// The space doesn't take it.
    Space(SpaceError),
}

impl std::fmt::Display for ArriveError {
    fn fmt(&self, f: &mut std::fmt::Formatter<'_>) -> std::fmt::Result {
        match self {
            ArriveError::Fault(fault) => fault.fmt(f),
            ArriveError::Space(error) => error.fmt(f),
        }
    }
}

impl std::error::Error for ArriveError {}

impl From<FrameFault> for StreamError {
    fn from(fault: FrameFault) -> StreamError {
        StreamError::Fault(fault)
    }
}

impl Space {
    /// A space that has done nothing: its sessions with all others, those from 1 to `spaces`, are
    /// open.
    ///
    /// ```
    /// # use masttomato::space::*;
    /// let [second, last] = [2, 5].map(|number| SpaceId::new(number).expect("1 to 32"));
    /// let space = Space::new(second, last, Limits::default())?;
    /// assert_eq!(space.peers().count(), 4);
    /// # Ok::<(), SpaceError>(())
    /// ```
    ///
    /// # Errors
    /// Where memory runs out, or the library that is linked is of another version.
    ///
    /// # Panics
    /// Where its number is above the last one.
    pub fn new(id: SpaceId, spaces: SpaceId, limits: Limits) -> Result<Space, SpaceError> {
        let (window, retry) = (limits.window().into(), limits.retry().into());
        let handle = Handle::new(id.get(), spaces.get(), window, retry).map_err(error_of)?;
        Ok(Space::of(handle, id, spaces, limits))
    }

    /// A space whose life begins behind these numbers, which lives before it used; else it is as a new one. Nothing of
    /// those lives is there: no object is live, nothing is held, and each session is open, in its number of the birth. Whoever
    /// asks for it keeps what it needs of the life, for the next one: [`Space::begin_behind`] does so by itself.
    ///
    /// ```
    /// # use masttomato::space::*;
    /// let [one, two] = [SpaceId::try_from(1)?, SpaceId::try_from(2)?];
    /// let mut birth = Birth { indexes: 4, calls: 7, ..Birth::default() };
    /// birth.set_session(two, 3);
    /// let mut space = Space::begin_at(one, two, Limits::default(), &birth)?;
    /// assert_eq!((space.export()?.index, space.call(two.agent(), 0, &Value::Unit)?.get()), (5, 8));
    /// assert_eq!(space.tally(two).map(|tally| tally.session), Some(3));
    /// assert_eq!(space.dup(Reference { owner: one, index: 4 }), Err(Refusal::NoObject.into()));
    /// # Ok::<(), Box<dyn std::error::Error>>(())
    /// ```
    ///
    /// # Errors
    /// Which number of the birth is out of range, the first of those that are; or that memory ran out.
    ///
    /// # Panics
    /// Where its number is above the last one.
    pub fn begin_at(
        id: SpaceId,
        spaces: SpaceId,
        limits: Limits,
        birth: &Birth,
    ) -> Result<Space, BirthError> {
        assert!(id <= spaces, "the space's number is above the last one");
        let handle = Handle::begin_at(
            id.get(),
            spaces.get(),
            limits.window().into(),
            limits.retry().into(),
            birth.indexes,
            birth.calls,
            birth.jobs,
            birth.sessions_up_to(spaces),
        );
        let handle = handle.map_err(|status| {
            BirthError::from_status(status).unwrap_or_else(|| unknown("status", status))
        })?;
        Ok(Space::of(handle, id, spaces, limits))
    }

    /// A space whose life begins behind bounds, which it keeps and raises as long as it lives: before an Export, a Call, an
    /// Open, and a frame of a later session than was heard before, what they use is on disk. Where it can't be written
    /// they answer [`SpaceError::NotCovered`] and change nothing. Streams of frames aren't taken ([`Space::push`]).
    ///
    /// ```
    /// # use masttomato::space::*;
    /// # let path = std::env::temp_dir().join(format!("masttomato-behind-{}", std::process::id()));
    /// # let [one, two] = [1, 2].map(|number| SpaceId::new(number).expect("1 to 32"));
    /// Bounds::create(&path, World::default(), one, two)?;
    /// for first in ["1.1", "1.1025", "1.2049"] {
    ///     let bounds = Bounds::open(&path, World::default(), one, two)?;
    ///     let mut space = Space::begin_behind(bounds, Limits::default())?;
    ///     assert_eq!(space.export()?.to_string(), first);
    ///     // Here it is dropped, as if its process had been killed.
    /// }
    /// # std::fs::remove_file(&path)?;
    /// # Ok::<(), Box<dyn std::error::Error>>(())
    /// ```
    ///
    /// # Errors
    /// As of [`Space::begin_at`].
    pub fn begin_behind(bounds: Bounds, limits: Limits) -> Result<Space, BirthError> {
        let space = Space::begin_at(bounds.space(), bounds.spaces(), limits, bounds.birth())?;
        Ok(Space { bounds: Some(bounds), ..space })
    }

    fn of(handle: Handle, id: SpaceId, spaces: SpaceId, limits: Limits) -> Space {
        let (trace, chain, bounds) = (None, None, None);
        let (room, pickle) = (vec![0; 1024], Vec::new());
        Space { handle, id, spaces, limits, trace, chain, bounds, room, pickle }
    }

    /// The bounds that it lives behind, if it does.
    ///
    /// ```
    /// # use masttomato::space::*;
    /// # let one = SpaceId::new(1).expect("1 to 32");
    /// assert!(Space::new(one, one, Limits::default())?.bounds().is_none());
    /// # Ok::<(), SpaceError>(())
    /// ```
    pub fn bounds(&self) -> Option<&Bounds> {
        self.bounds.as_ref()
    }

    /// Ends the life of a space that has bounds, in order: they are exact then, so that the next life skips no index and no
    /// call, and may begin. From now on the space answers [`SpaceError::NotCovered`] to an Export, a Call, an Open, a Transmit
    /// and an Arrive. Of a space without bounds nothing ends.
    ///
    /// ```
    /// # use masttomato::space::*;
    /// # let path = std::env::temp_dir().join(format!("masttomato-end-life-{}", std::process::id()));
    /// # let one = SpaceId::new(1).expect("1 to 32");
    /// # Bounds::create(&path, World::default(), one, one)?;
    /// let bounds = Bounds::open(&path, World::default(), one, one)?;
    /// let mut space = Space::begin_behind(bounds, Limits::default()).expect("its numbers are in range");
    /// space.export().expect("room");
    /// space.end_life()?;
    /// assert_eq!(space.export(), Err(SpaceError::NotCovered));
    /// assert_eq!(Bounds::open(&path, World::default(), one, one)?.birth().indexes, 1);
    /// # std::fs::remove_file(&path)?;
    /// # Ok::<(), BoundsError>(())
    /// ```
    ///
    /// # Errors
    /// Where the exact numbers couldn't be written, or others weren't before: the next life begins behind the bounds, as after a
    /// death.
    pub fn end_life(&mut self) -> Result<(), BoundsError> {
        self.bounds.as_mut().map_or(Ok(()), Bounds::end)
    }

    // The one place through which all goes that uses a number for the first time: it is covered on disk before. A frame
    // that is further ahead than any honest one is lost here.
    fn cover(&mut self, wanted: Wanted) -> Result<(), SpaceError> {
        let Some(bounds) = &mut self.bounds else { return Ok(()) };
        if let Wanted::Session(peer, number) = wanted
            && number > bounds.session(peer)
            && number > self.handle.tally(peer.get()).session.saturating_add(bounds::FARTHEST)
        {
            return Err(SpaceError::FarSession);
        }
        if bounds.cover(wanted) { Ok(()) } else { Err(SpaceError::NotCovered) }
    }

    // What a frame says that was heard: its session is covered, where it is from a peer and for this space.
    fn cover_heard(&mut self, frame: &Frame) -> Result<(), SpaceError> {
        self.goes_on()?;
        let is_its = frame.to() == self.id && frame.from() <= self.spaces;
        if is_its { self.cover(Wanted::Session(frame.from(), frame.session())) } else { Ok(()) }
    }

    // Whether bytes that may spell a frame are of a session above the bounds, if there are any. Most aren't.
    fn is_above_bounds(&self, bytes: &[u8]) -> bool {
        let (Some(bounds), Some((from, session))) = (&self.bounds, sender_of(bytes)) else {
            return false;
        };
        session > bounds.session(from)
    }

    // Nothing is given and nothing arrives once a life has ended.
    fn goes_on(&self) -> Result<(), SpaceError> {
        let is_over = self.bounds.as_ref().is_some_and(Bounds::is_over);
        if is_over { Err(SpaceError::NotCovered) } else { Ok(()) }
    }

    /// The number of the space.
    ///
    /// ```
    /// # use masttomato::space::*;
    /// # let [one, two] = [1, 2].map(|number| SpaceId::new(number).expect("1 to 32"));
    /// # let mut space = Space::new(one, two, Limits::default())?;
    /// assert_eq!(space.id(), one);
    /// # Ok::<(), SpaceError>(())
    /// ```
    pub fn id(&self) -> SpaceId {
        self.id
    }

    /// How many spaces there are, named by the last of them.
    ///
    /// ```
    /// # use masttomato::space::*;
    /// # let [one, two] = [1, 2].map(|number| SpaceId::new(number).expect("1 to 32"));
    /// # let mut space = Space::new(one, two, Limits::default())?;
    /// assert_eq!(space.spaces(), two);
    /// # Ok::<(), SpaceError>(())
    /// ```
    pub fn spaces(&self) -> SpaceId {
        self.spaces
    }

    /// All other spaces.
    ///
    /// ```
    /// # use masttomato::space::*;
    /// # let [one, two] = [1, 2].map(|number| SpaceId::new(number).expect("1 to 32"));
    /// # let mut space = Space::new(one, two, Limits::default())?;
    /// assert_eq!(space.peers().collect::<Vec<_>>(), [two]);
    /// # Ok::<(), SpaceError>(())
    /// ```
    pub fn peers(&self) -> impl Iterator<Item = SpaceId> + use<> {
        let id = self.id;
        self.spaces.up_to().filter(move |space| *space != id)
    }

    /// The limits of its sessions.
    ///
    /// ```
    /// # use masttomato::space::*;
    /// # let [one, two] = [1, 2].map(|number| SpaceId::new(number).expect("1 to 32"));
    /// # let mut space = Space::new(one, two, Limits::default())?;
    /// assert_eq!(space.limits(), Limits::default());
    /// # Ok::<(), SpaceError>(())
    /// ```
    pub fn limits(&self) -> Limits {
        self.limits
    }

    /// From now on the space keeps a trace of what it is asked and answers. It is to be asked for
    /// before the first event, since `nobj check` judges a trace from the beginning.
    ///
    /// ```
    /// # use masttomato::space::{Limits, Space, SpaceError, SpaceId};
    /// # fn main() -> Result<(), SpaceError> {
    /// # let [first, second] = [1, 2].map(|number| SpaceId::new(number).expect("a space"));
    /// let mut space = Space::new(first, second, Limits::default())?;
    /// space.keep_trace();
    /// let object = space.export()?;
    /// space.rise_to(7);                           // what comes next came after another's entry 7
    /// let _refused = space.withdraw(object.index);
    /// assert_eq!(space.stamp(), 8);
    /// assert_eq!(space.take_lines(), "1 export = exported 1.1\n8 withdraw 1 = S11(1)\n");
    /// # Ok(())
    /// # }
    /// ```
    pub fn keep_trace(&mut self) {
        self.trace = Some(Trace::new(self.id, self.spaces, self.limits));
    }

    /// Takes the lines of the trace that weren't taken yet, so that they need no more memory: none
    /// where no trace is kept.
    ///
    /// ```
    /// # use masttomato::space::*;
    /// # let [one, two] = [1, 2].map(|number| SpaceId::new(number).expect("1 to 32"));
    /// # let mut space = Space::new(one, two, Limits::default())?;
    /// space.keep_trace();
    /// let _nothing = space.clean();
    /// assert_eq!(space.take_lines(), "1 clean = S10\n");
    /// # Ok::<(), SpaceError>(())
    /// ```
    pub fn take_lines(&mut self) -> String {
        self.trace.as_mut().map(Trace::take_lines).unwrap_or_default()
    }

    /// The trace, where one is kept.
    ///
    /// ```
    /// # use masttomato::space::*;
    /// # let [one, two] = [1, 2].map(|number| SpaceId::new(number).expect("1 to 32"));
    /// # let mut space = Space::new(one, two, Limits::default())?;
    /// assert!(space.trace().is_none());
    /// space.keep_trace();
    /// space.export()?;
    /// assert_eq!(space.trace().map(Trace::lines), Some("1 export = exported 1.1\n"));
    /// # Ok::<(), SpaceError>(())
    /// ```
    pub fn trace(&self) -> Option<&Trace> {
        self.trace.as_ref()
    }

    /// From now on the space keeps a chain of what it is asked and answered: a trace in segments of so many entries, each
    /// of which it seals by what it says of itself then. It is to be asked for before the first event, and may be
    /// kept beside a trace.
    ///
    /// ```
    /// # use masttomato::space::*;
    /// # let [one, two] = [1, 2].map(|number| SpaceId::new(number).expect("1 to 32"));
    /// # let mut space = Space::new(one, two, Limits::default())?;
    /// space.keep_chain(SegmentSize::new(2).expect("1 to 65,536"));
    /// let object = space.export()?;
    /// space.dup(object)?;
    /// space.dup(object)?;
    /// space.seal();                                   // the last segment isn't full
    /// let segments = "segment 1 entries 2\n\
    ///                 1 export = exported 1.1\n\
    ///                 2 dup 1.1 = ok\n\
    ///                 seal 2 live 1 peer 2 session 1 sent 0 acted 0 open\n\
    ///                 segment 2 entries 1\n\
    ///                 3 dup 1.1 = ok\n\
    ///                 seal 3 live 1 peer 2 session 1 sent 0 acted 0 open\n";
    /// let text = Chain::first_line(one, two, Limits::default(), 2) + segments;
    /// assert_eq!(space.chain().map(Chain::to_string), Some(text));
    /// # Ok::<(), SpaceError>(())
    /// ```
    pub fn keep_chain(&mut self, size: SegmentSize) {
        self.chain = Some(Chain::new(self.id, self.spaces, self.limits, size));
    }

    /// Seals what of the chain isn't sealed yet, where one is kept: before its text is asked for, say.
    ///
    /// ```
    /// # use masttomato::space::*;
    /// # let [one, two] = [1, 2].map(|number| SpaceId::new(number).expect("1 to 32"));
    /// # let mut space = Space::new(one, two, Limits::default())?;
    /// space.keep_chain(SegmentSize::default());
    /// let _nothing = space.clean();
    /// space.seal();
    /// space.seal();                                   // there is nothing to seal
    /// assert_eq!(space.chain().map(Chain::segments), Some(1));
    /// # Ok::<(), SpaceError>(())
    /// ```
    pub fn seal(&mut self) {
        let Some(mut chain) = self.chain.take() else { return };
        let tallies = self.peers().filter_map(|peer| Some((peer, self.tally(peer)?)));
        chain.seal(self.live(), tallies);
        self.chain = Some(chain);
    }

    /// Takes the lines of the chain's sealed segments that weren't taken yet, so that they need no more memory: none
    /// where no chain is kept.
    ///
    /// ```
    /// # use masttomato::space::*;
    /// # let [one, two] = [1, 2].map(|number| SpaceId::new(number).expect("1 to 32"));
    /// # let mut space = Space::new(one, two, Limits::default())?;
    /// space.keep_chain(SegmentSize::default());
    /// let _nothing = space.clean();
    /// assert_eq!(space.take_segments(), "");
    /// space.seal();
    /// assert_eq!(space.take_segments().lines().count(), 3);
    /// # Ok::<(), SpaceError>(())
    /// ```
    pub fn take_segments(&mut self) -> String {
        self.chain.as_mut().map(Chain::take_segments).unwrap_or_default()
    }

    /// Takes the lines of the chain that weren't taken yet, as [`Chain::take_lines`] does: none where no chain is kept.
    ///
    /// ```
    /// # use masttomato::space::*;
    /// # let [one, two] = [1, 2].map(|number| SpaceId::new(number).expect("1 to 32"));
    /// # let mut space = Space::new(one, two, Limits::default())?;
    /// space.keep_chain(SegmentSize::default());
    /// let _nothing = space.clean();
    /// assert_eq!(space.take_chain_lines(), "1 clean = S10\n");
    /// space.seal();
    /// assert_eq!(space.take_chain_lines(), "seal 1 live 0 peer 2 session 1 sent 0 acted 0 open\n");
    /// # Ok::<(), SpaceError>(())
    /// ```
    pub fn take_chain_lines(&mut self) -> String {
        self.chain.as_mut().map(Chain::take_lines).unwrap_or_default()
    }

    /// The chain, where one is kept.
    ///
    /// ```
    /// # use masttomato::space::*;
    /// # let [one, two] = [1, 2].map(|number| SpaceId::new(number).expect("1 to 32"));
    /// # let mut space = Space::new(one, two, Limits::default())?;
    /// assert!(space.chain().is_none());
    /// space.keep_chain(SegmentSize::default());
    /// assert_eq!(space.chain().map(Chain::segments), Some(0));
    /// # Ok::<(), SpaceError>(())
    /// ```
    pub fn chain(&self) -> Option<&Chain> {
        self.chain.as_ref()
    }

    /// The stamp of the last entry of a trace or a chain, or what it was risen to since; 0 where none is kept.
    ///
    /// ```
    /// # use masttomato::space::*;
    /// # let [one, two] = [1, 2].map(|number| SpaceId::new(number).expect("1 to 32"));
    /// # let mut space = Space::new(one, two, Limits::default())?;
    /// space.keep_trace();
    /// space.export()?;
    /// assert_eq!(space.stamp(), 1);
    /// # Ok::<(), SpaceError>(())
    /// ```
    pub fn stamp(&self) -> u64 {
        let of_trace = self.trace.as_ref().map_or(0, Trace::stamp);
        of_trace.max(self.chain.as_ref().map_or(0, Chain::stamp))
    }

    /// The next entry of a trace or a chain has a stamp above this one.
    ///
    /// ```
    /// # use masttomato::space::*;
    /// # let [one, two] = [1, 2].map(|number| SpaceId::new(number).expect("1 to 32"));
    /// # let mut space = Space::new(one, two, Limits::default())?;
    /// space.keep_trace();
    /// space.rise_to(7);                                // that of the entry by which a frame was transmitted
    /// space.export()?;
    /// assert_eq!(space.stamp(), 8);
    /// # Ok::<(), SpaceError>(())
    /// ```
    pub fn rise_to(&mut self, stamp: u64) {
        if let Some(trace) = &mut self.trace {
            trace.rise_to(stamp);
        }
        if let Some(chain) = &mut self.chain {
            chain.rise_to(stamp);
        }
    }

    /// A new object: its reference, once in the hand.
    ///
    /// ```
    /// # use masttomato::space::*;
    /// # let [one, two] = [1, 2].map(|number| SpaceId::new(number).expect("1 to 32"));
    /// # let mut space = Space::new(one, two, Limits::default())?;
    /// assert_eq!(space.export()?.to_string(), "1.1");
    /// assert_eq!(space.export()?.to_string(), "1.2");
    /// # Ok::<(), SpaceError>(())
    /// ```
    ///
    /// # Errors
    /// Limit where the space has all the live objects or indexes that it may have.
    pub fn export(&mut self) -> Result<Reference, SpaceError> {
        self.cover(Wanted::Index)?;
        let result = told(self.handle.export()).map(reference_of);
        if let (Ok(given), Some(bounds)) = (&result, &mut self.bounds) {
            bounds.gave_index(given.index);
        }
        self.noted(result, || Event::Export, Answer::Exported)
    }

    /// One more hold in the hand.
    ///
    /// ```
    /// # use masttomato::space::*;
    /// # let [one, two] = [1, 2].map(|number| SpaceId::new(number).expect("1 to 32"));
    /// # let mut space = Space::new(one, two, Limits::default())?;
    /// let object = space.export()?;
    /// space.dup(object)?;                              // it is held twice now,
    /// space.release(object)?;
    /// space.release(object)?;                          // and no more
    /// assert_eq!(space.dup(object), Err(SpaceError::Refused(Refusal::NotHeld)));
    /// # Ok::<(), SpaceError>(())
    /// ```
    ///
    /// # Errors
    /// NoObject where an own object isn't live, NotHeld where nothing holds the reference or it is an
    /// agent's, Closed where the session with its owner has closed here, Limit where the hand is full.
    pub fn dup(&mut self, reference: Reference) -> Result<(), SpaceError> {
        let result = told(self.handle.dup(reference.owner.get(), reference.index)).map(drop);
        self.noted(result, || Event::Dup(reference), done)
    }

    /// A hold in the hand is given back.
    ///
    /// ```
    /// # use masttomato::space::*;
    /// # let [one, two] = [1, 2].map(|number| SpaceId::new(number).expect("1 to 32"));
    /// # let mut space = Space::new(one, two, Limits::default())?;
    /// let object = space.export()?;
    /// space.release(object)?;
    /// assert_eq!(space.release(object), Err(SpaceError::Refused(Refusal::NotHeld)));
    /// # Ok::<(), SpaceError>(())
    /// ```
    ///
    /// # Errors
    /// NoObject where an own object isn't live, NotHeld where none is in the hand.
    pub fn release(&mut self, reference: Reference) -> Result<(), SpaceError> {
        let result = told(self.handle.release(reference.owner.get(), reference.index)).map(drop);
        self.noted(result, || Event::Release(reference), done)
    }

    /// Calls a method of an object with a value, whose references are pinned until the object's
    /// owner has settled them: the number of the call. Linear in the value.
    ///
    /// ```
    /// # use masttomato::space::*;
    /// # let [one, two] = [1, 2].map(|number| SpaceId::new(number).expect("1 to 32"));
    /// # let mut space = Space::new(one, two, Limits::default())?;
    /// let object = space.export()?;
    /// let call = space.call(two.agent(), 1, &Value::List(vec![Value::Int(5), Value::Ref(object)]))?;
    /// assert_eq!(call.get(), 1);
    /// space.release(object)?;                          // it is pinned until space 2 has settled it
    /// assert_eq!(space.withdraw(object.index), Err(SpaceError::Refused(Refusal::StillUsed(Use::InTransit))));
    /// # Ok::<(), SpaceError>(())
    /// ```
    ///
    /// # Errors
    /// NoPeer, Closed, NotHeld of the target; TooBig where the value has no pickle; NoObject, NotHeld or
    /// Closed of a reference in it; then Limit, QueueFull or SeqEnd.
    pub fn call(
        &mut self,
        target: Reference,
        method: u16,
        value: &Value,
    ) -> Result<CallNo, SpaceError> {
        // One of no peer is refused, whatever else it is; and where there is no peer no call can ever be passed over.
        if target.owner != self.id && target.owner <= self.spaces {
            self.cover(Wanted::Call)?;
        }
        let (pickle, has_pickle) = self.pickle_of(value);
        let asked = self.handle.call(target.owner.get(), target.index, method, &pickle);
        self.pickle = pickle;
        let result = judged(told(asked), has_pickle).map(|told| CallNo::new(told.number));
        if let (Ok(made), Some(bounds)) = (&result, &mut self.bounds) {
            bounds.made_call(made.get());
        }
        let event = || Event::Call { target, method, value: value.clone() };
        self.noted(result, event, Answer::Called)
    }

    /// What a call brought: its reply, whose references come into the hand, or that there will be
    /// none.
    ///
    /// ```
    /// # use masttomato::space::*;
    /// # let [one, two] = [1, 2].map(|number| SpaceId::new(number).expect("1 to 32"));
    /// # let mut space = Space::new(one, two, Limits::default())?;
    /// let call = space.call(two.agent(), 0, &Value::Unit)?;
    /// assert_eq!(space.take_reply(call), Err(SpaceError::Refused(Refusal::NotReady)));
    /// space.close(two)?;
    /// assert_eq!(space.take_reply(call)?, CallResult::Ended);
    /// assert_eq!(space.take_reply(call), Err(SpaceError::Refused(Refusal::NoCall)));
    /// # Ok::<(), SpaceError>(())
    /// ```
    ///
    /// # Errors
    /// NoCall where there is no such call, NotReady while there is no reply, Limit where a hand would be
    /// too full.
    ///
    /// # Panics
    /// Where there is no memory for the pickle of the reply's value, which can't be asked for again.
    pub fn take_reply(&mut self, call: CallNo) -> Result<CallResult, SpaceError> {
        let result = told(self.handle.take_reply(call.get())).map(|told| match told.kind {
            4 => CallResult::Replied { status: status_of(told), value: self.value() },
            5 => CallResult::Ended,
            other => unknown("kind", other),
        });
        self.noted(result, || Event::TakeReply(call), Answer::from)
    }

    /// The first ready job, in order of becoming ready, whose target isn't running.
    ///
    /// ```
    /// # use masttomato::space::*;
    /// # fn carry(from: &mut Space, to: &mut Space) -> Result<(), SpaceError> {
    /// #     for frame in from.transmit(to.id())?.iter() {
    /// #         to.arrive(&frame)?;
    /// #     }
    /// #     while to.act(from.id()).is_ok() || to.settle().is_ok() || to.clean().is_ok() {}
    /// #     Ok(())
    /// # }
    /// # let [one, two] = [1, 2].map(|number| SpaceId::new(number).expect("1 to 32"));
    /// # let mut caller = Space::new(one, two, Limits::default())?;
    /// # let mut owner = Space::new(two, two, Limits::default())?;
    /// caller.call(two.agent(), 3, &Value::Int(20))?;
    /// carry(&mut caller, &mut owner)?;
    /// let job = owner.claim()?;
    /// assert_eq!((job.client, job.target, job.method, job.value), (one, 0, 3, Value::Int(20)));
    /// # Ok::<(), SpaceError>(())
    /// ```
    ///
    /// # Errors
    /// Nothing where there is none, Limit where the numbers are used up.
    ///
    /// # Panics
    /// Where there is no memory for the pickle of the job's value, which can't be asked for again.
    pub fn claim(&mut self) -> Result<Job, SpaceError> {
        let result = told(self.handle.claim()).map(|told| Job {
            job: JobNo::new(told.number),
            client: space_of(told.space),
            call: CallNo::new(told.call),
            target: told.index,
            method: told.method,
            value: self.value(),
        });
        if let (Ok(claimed), Some(bounds)) = (&result, &mut self.bounds) {
            bounds.claimed_job(claimed.job.get());
        }
        self.noted(result, || Event::Claim, Answer::Job)
    }

    /// A job's outcome goes to its client, or is dropped where the session that its call came in has
    /// closed, opened again or not; what the job had on loan is given back.
    ///
    /// ```
    /// # use masttomato::space::*;
    /// # fn carry(from: &mut Space, to: &mut Space) -> Result<(), SpaceError> {
    /// #     for frame in from.transmit(to.id())?.iter() {
    /// #         to.arrive(&frame)?;
    /// #     }
    /// #     while to.act(from.id()).is_ok() || to.settle().is_ok() || to.clean().is_ok() {}
    /// #     Ok(())
    /// # }
    /// # let [one, two] = [1, 2].map(|number| SpaceId::new(number).expect("1 to 32"));
    /// # let mut caller = Space::new(one, two, Limits::default())?;
    /// # let mut owner = Space::new(two, two, Limits::default())?;
    /// let call = caller.call(two.agent(), 3, &Value::Int(20))?;
    /// carry(&mut caller, &mut owner)?;
    /// let job = owner.claim()?;
    /// assert_eq!(owner.finish(job.job, &Outcome::Answer(Value::Int(42)))?, ReplyFate::HandedOn);
    /// carry(&mut owner, &mut caller)?;
    /// let replied = CallResult::Replied { status: Status::Answered, value: Value::Int(42) };
    /// assert_eq!(caller.take_reply(call)?, replied);
    /// # Ok::<(), SpaceError>(())
    /// ```
    ///
    /// # Errors
    /// NoJob where no such job runs; then as of the value of a call, or QueueFull or SeqEnd.
    pub fn finish(&mut self, job: JobNo, outcome: &Outcome) -> Result<ReplyFate, SpaceError> {
        let (number, (pickle, has_pickle)) = match outcome {
            Outcome::Answer(value) => (0, self.pickle_of(value)),
            Outcome::Fault(value) => (1, self.pickle_of(value)),
            Outcome::NoMethod => (2, (Vec::new(), true)),
        };
        let asked = told(self.handle.finish(job.get(), number, &pickle));
        self.pickle = pickle;
        let result = judged(asked, has_pickle).map(|told| match told.kind {
            7 => ReplyFate::HandedOn,
            8 => ReplyFate::Dropped,
            other => unknown("kind", other),
        });
        self.noted(result, || Event::Finish(job, outcome.clone()), Answer::from)
    }

    /// The item at the front of the inbox from a peer is acted on; one with a fault closes the
    /// session instead.
    ///
    /// ```
    /// # use masttomato::space::*;
    /// # fn carry(from: &mut Space, to: &mut Space) -> Result<(), SpaceError> {
    /// #     for frame in from.transmit(to.id())?.iter() {
    /// #         to.arrive(&frame)?;
    /// #     }
    /// #     while to.act(from.id()).is_ok() || to.settle().is_ok() || to.clean().is_ok() {}
    /// #     Ok(())
    /// # }
    /// # let [one, two] = [1, 2].map(|number| SpaceId::new(number).expect("1 to 32"));
    /// # let mut caller = Space::new(one, two, Limits::default())?;
    /// # let mut owner = Space::new(two, two, Limits::default())?;
    /// caller.call(two.agent(), 0, &Value::Unit)?;
    /// for frame in caller.transmit(two)?.iter() {
    ///     owner.arrive(&frame)?;
    /// }
    /// assert_eq!(owner.act(one)?, ActResult::Acted(ItemNo::new(1)));
    /// assert_eq!(owner.act(one), Err(SpaceError::Refused(Refusal::Nothing)));
    /// # Ok::<(), SpaceError>(())
    /// ```
    ///
    /// # Errors
    /// NoPeer, Closed, Nothing where none waits; and the item stays, by Limit or SeqEnd, where a limit would
    /// be passed or a session has no number for what it asks for.
    pub fn act(&mut self, peer: SpaceId) -> Result<ActResult, SpaceError> {
        let result = told(self.handle.act(peer.get())).map(|told| match told.kind {
            9 => ActResult::Acted(ItemNo::new(told.number)),
            10 => ActResult::Closed(reason_of(told)),
            other => unknown("kind", other),
        });
        self.noted(result, || Event::Act(peer), Answer::from)
    }

    /// The first message, in order of acting, whose references are all resolved is settled, and
    /// its sender told: whose item that was.
    ///
    /// ```
    /// # use masttomato::space::*;
    /// # fn carry(from: &mut Space, to: &mut Space) -> Result<(), SpaceError> {
    /// #     for frame in from.transmit(to.id())?.iter() {
    /// #         to.arrive(&frame)?;
    /// #     }
    /// #     while to.act(from.id()).is_ok() || to.settle().is_ok() || to.clean().is_ok() {}
    /// #     Ok(())
    /// # }
    /// # let [one, two] = [1, 2].map(|number| SpaceId::new(number).expect("1 to 32"));
    /// # let mut caller = Space::new(one, two, Limits::default())?;
    /// # let mut owner = Space::new(two, two, Limits::default())?;
    /// let object = caller.export()?;
    /// caller.call(two.agent(), 0, &Value::Ref(object))?;
    /// carry(&mut caller, &mut owner)?;                 // the call waits, and its reference is asked for
    /// carry(&mut owner, &mut caller)?;
    /// for frame in caller.transmit(two)?.iter() {
    ///     owner.arrive(&frame)?;
    /// }
    /// owner.act(one)?;                                 // it is granted
    /// assert_eq!(owner.settle()?, SettledItem { peer: one, item: ItemNo::new(1) });
    /// assert!(owner.work().claim);                     // and the call is a job
    /// # Ok::<(), SpaceError>(())
    /// ```
    ///
    /// # Errors
    /// Nothing where there is none, SeqEnd where a session has no number left.
    pub fn settle(&mut self) -> Result<SettledItem, SpaceError> {
        let result = told(self.handle.settle())
            .map(|told| SettledItem { peer: space_of(told.space), item: ItemNo::new(told.number) });
        self.noted(result, || Event::Settle, Answer::from)
    }

    /// The first surrogate, in the order of their last Dirties, that is granted on an open session,
    /// without holds and without pins, is given up, and its owner told: its reference.
    ///
    /// ```
    /// # use masttomato::space::*;
    /// # fn carry(from: &mut Space, to: &mut Space) -> Result<(), SpaceError> {
    /// #     for frame in from.transmit(to.id())?.iter() {
    /// #         to.arrive(&frame)?;
    /// #     }
    /// #     while to.act(from.id()).is_ok() || to.settle().is_ok() || to.clean().is_ok() {}
    /// #     Ok(())
    /// # }
    /// # let [one, two] = [1, 2].map(|number| SpaceId::new(number).expect("1 to 32"));
    /// # let mut caller = Space::new(one, two, Limits::default())?;
    /// # let mut owner = Space::new(two, two, Limits::default())?;
    /// let object = caller.export()?;
    /// caller.call(two.agent(), 0, &Value::Ref(object))?;
    /// for _ in 0..2 {
    ///     carry(&mut caller, &mut owner)?;             // the owner of the agent asks for the reference, and is granted it
    ///     carry(&mut owner, &mut caller)?;
    /// }
    /// carry(&mut caller, &mut owner)?;
    /// let job = owner.claim()?;
    /// assert!(owner.clean().is_err());                 // the job has it
    /// owner.finish(job.job, &Outcome::NoMethod)?;
    /// assert_eq!(owner.clean()?, object);
    /// # Ok::<(), SpaceError>(())
    /// ```
    ///
    /// # Errors
    /// Nothing where there is none, SeqEnd where the session has no number left.
    pub fn clean(&mut self) -> Result<Reference, SpaceError> {
        let result = told(self.handle.clean()).map(reference_of);
        self.noted(result, || Event::Clean, Answer::Cleaned)
    }

    /// The object of an index is live no more.
    ///
    /// ```
    /// # use masttomato::space::*;
    /// # let [one, two] = [1, 2].map(|number| SpaceId::new(number).expect("1 to 32"));
    /// # let mut space = Space::new(one, two, Limits::default())?;
    /// let object = space.export()?;
    /// assert_eq!(space.withdraw(object.index), Err(SpaceError::Refused(Refusal::StillUsed(Use::Held))));
    /// space.release(object)?;
    /// space.withdraw(object.index)?;
    /// # Ok::<(), SpaceError>(())
    /// ```
    ///
    /// # Errors
    /// NoObject where none is live, StillUsed where it is held, pinned here, listed for a client, or the
    /// agent.
    pub fn withdraw(&mut self, index: u64) -> Result<(), SpaceError> {
        let result = told(self.handle.withdraw(index)).map(drop);
        self.noted(result, || Event::Withdraw(index), withdrawn)
    }

    /// The frames that are to be sent to a peer now: the first item that isn't acknowledged and, up to a
    /// window from it on, those that were never given; or an Ack or a Close that is owed, or none.
    ///
    /// ```
    /// # use masttomato::space::*;
    /// # let [one, two] = [1, 2].map(|number| SpaceId::new(number).expect("1 to 32"));
    /// # let mut space = Space::new(one, two, Limits::default())?;
    /// space.call(two.agent(), 0, &Value::Unit)?;
    /// assert_eq!(space.transmit(two)?.iter().count(), 1);
    /// space.call(two.agent(), 0, &Value::Unit)?;
    /// assert_eq!(space.transmit(two)?.iter().count(), 2);      // the first again, since it isn't acknowledged
    /// # Ok::<(), SpaceError>(())
    /// ```
    ///
    /// # Errors
    /// NoPeer where there is no such peer.
    pub fn transmit(&mut self, peer: SpaceId) -> Result<Frames, SpaceError> {
        let mut room = std::mem::take(&mut self.room);
        let given = self.transmit_in(peer, &mut room).map(|length| &room[..length]);
        let given = given.map(Frames::from_library);
        self.room = room;
        given
    }

    /// The same, but the frames are put there: how long they are together.
    pub(crate) fn transmit_in(
        &mut self,
        peer: SpaceId,
        room: &mut Vec<u8>,
    ) -> Result<usize, SpaceError> {
        self.goes_on()?;
        let result = told(self.handle.transmit(peer.get())).map(|told| match told.number {
            0 => 0,
            _ => answer_in(&mut self.handle, room),
        });
        let given = |length: usize| Answer::Frames(Frames::from_library(&room[..length]));
        self.noted(result, || Event::Transmit(peer), given)
    }

    /// A frame came for this space: how many items are there with it, or that it closed the session with
    /// its sender.
    ///
    /// ```
    /// # use masttomato::space::*;
    /// # fn carry(from: &mut Space, to: &mut Space) -> Result<(), SpaceError> {
    /// #     for frame in from.transmit(to.id())?.iter() {
    /// #         to.arrive(&frame)?;
    /// #     }
    /// #     while to.act(from.id()).is_ok() || to.settle().is_ok() || to.clean().is_ok() {}
    /// #     Ok(())
    /// # }
    /// # let [one, two] = [1, 2].map(|number| SpaceId::new(number).expect("1 to 32"));
    /// # let mut caller = Space::new(one, two, Limits::default())?;
    /// # let mut owner = Space::new(two, two, Limits::default())?;
    /// caller.call(two.agent(), 0, &Value::Unit)?;
    /// caller.call(two.agent(), 1, &Value::Unit)?;
    /// let frames: Vec<Frame> = caller.transmit(two)?.iter().collect();
    /// assert_eq!(owner.arrive(&frames[1])?, Arrived::Took(0));      // it is early, and kept
    /// assert_eq!(owner.arrive(&frames[0])?, Arrived::Took(2));
    /// assert_eq!(owner.arrive(&frames[0])?, Arrived::Took(0));      // it came before
    /// # Ok::<(), SpaceError>(())
    /// ```
    ///
    /// # Errors
    /// NoPeer where it isn't for this space or from none of its peers.
    pub fn arrive(&mut self, frame: &Frame) -> Result<Arrived, SpaceError> {
        self.cover_heard(frame)?;
        let result = told(self.handle.arrive(frame.as_bytes())).map(arrived_of);
        self.noted(result, || Event::Arrive(frame.clone()), Answer::from)
    }

    /// The frame that these bytes spell came for this space: as [`arrive`](Space::arrive).
    ///
    /// ```
    /// # use masttomato::space::*;
    /// # fn carry(from: &mut Space, to: &mut Space) -> Result<(), SpaceError> {
    /// #     for frame in from.transmit(to.id())?.iter() {
    /// #         to.arrive(&frame)?;
    /// #     }
    /// #     while to.act(from.id()).is_ok() || to.settle().is_ok() || to.clean().is_ok() {}
    /// #     Ok(())
    /// # }
    /// # let [one, two] = [1, 2].map(|number| SpaceId::new(number).expect("1 to 32"));
    /// # let mut caller = Space::new(one, two, Limits::default())?;
    /// # let mut owner = Space::new(two, two, Limits::default())?;
    /// caller.call(two.agent(), 0, &Value::Unit)?;
    /// let frames = caller.transmit(two)?;
    /// assert_eq!(owner.arrive_bytes(frames.as_bytes()), Ok(Arrived::Took(1)));
    /// assert_eq!(owner.arrive_bytes(&[7]), Err(ArriveError::Fault(FrameFault::Short)));
    /// # Ok::<(), SpaceError>(())
    /// ```
    ///
    /// # Errors
    /// [`ArriveError::Fault`] where they spell no frame, and else what `arrive` answers.
    ///
    /// # Panics
    /// Where the library takes bytes for a frame that are none, and a trace is kept.
    pub fn arrive_bytes(&mut self, bytes: &[u8]) -> Result<Arrived, ArriveError> {
        self.goes_on().map_err(ArriveError::Space)?;
        if self.is_above_bounds(bytes) {
            let frame = Frame::from_bytes(bytes.to_vec()).map_err(ArriveError::Fault)?;
            self.cover_heard(&frame).map_err(ArriveError::Space)?;
        }
        let asked = self.handle.arrive(bytes);
        if let status @ 41..=52 = asked.0 {
            return Err(ArriveError::Fault(FrameFault::ALL[status as usize - 41]));
        }
        let result = told(asked).map(arrived_of);
        let event = || Event::Arrive(Frame::from_bytes(bytes.to_vec()).expect("a frame"));
        self.noted(result, event, Answer::from).map_err(ArriveError::Space)
    }

    /// The next piece of a stream of frames from a peer, cut anywhere: how many frames are whole
    /// now and wait. They arrive by `arrive_next`, all of them before the next piece.
    ///
    /// ```
    /// # use masttomato::space::{Arrived, Limits, Space, SpaceId, Value};
    /// # fn main() -> Result<(), Box<dyn std::error::Error>> {
    /// # let [first, second] = [1, 2].map(|number| SpaceId::new(number).expect("a space"));
    /// let mut caller = Space::new(first, second, Limits::default())?;
    /// let mut owner = Space::new(second, second, Limits::default())?;
    /// caller.call(second.agent(), 0, &Value::Unit)?;
    /// let frames = caller.transmit(second)?;
    /// let (front, rest) = frames.as_bytes().split_at(9);
    /// assert_eq!(owner.push(first, front)?, 0);
    /// assert_eq!(owner.push(first, rest)?, 1);
    /// assert_eq!(owner.arrive_next(), Some(Ok(Arrived::Took(1))));
    /// assert_eq!(owner.arrive_next(), None);
    /// # Ok(())
    /// # }
    /// ```
    ///
    /// # Errors
    /// Waiting where frames of the piece before still wait, Fault where the stream isn't one of frames, OfOthers where
    /// a frame isn't from this peer to this space, and OutOfMemory, after which the same piece may be pushed again.
    pub fn push(&mut self, peer: SpaceId, piece: &[u8]) -> Result<u64, StreamError> {
        if self.bounds.is_some() {
            return Err(StreamError::HasBounds);
        }
        match self.handle.push(peer.get(), piece) {
            (0, told) => Ok(told.number),
            (14, _) => Err(StreamError::OutOfMemory),
            (61, _) => Err(StreamError::Waiting),
            (64, _) => Err(StreamError::OfOthers),
            (status @ 41..=52, _) => Err(FrameFault::ALL[status as usize - 41].into()),
            (other, _) => unknown("status of nob_push", other),
        }
    }

    /// The first frame that waits arrives: as [`arrive`](Space::arrive), or `None` where none waits.
    ///
    /// ```
    /// # use masttomato::space::*;
    /// # fn carry(from: &mut Space, to: &mut Space) -> Result<(), SpaceError> {
    /// #     for frame in from.transmit(to.id())?.iter() {
    /// #         to.arrive(&frame)?;
    /// #     }
    /// #     while to.act(from.id()).is_ok() || to.settle().is_ok() || to.clean().is_ok() {}
    /// #     Ok(())
    /// # }
    /// # let [one, two] = [1, 2].map(|number| SpaceId::new(number).expect("1 to 32"));
    /// # let mut caller = Space::new(one, two, Limits::default())?;
    /// # let mut owner = Space::new(two, two, Limits::default())?;
    /// caller.call(two.agent(), 0, &Value::Unit)?;
    /// owner.push(one, caller.transmit(two)?.as_bytes()).expect("frames");
    /// assert_eq!(owner.arrive_next(), Some(Ok(Arrived::Took(1))));
    /// assert_eq!(owner.arrive_next(), None);
    /// # Ok::<(), SpaceError>(())
    /// ```
    ///
    /// # Panics
    /// Where the library gave bytes that are no frame, and a trace is kept.
    pub fn arrive_next(&mut self) -> Option<Result<Arrived, SpaceError>> {
        let asked = self.handle.bring_next();
        if asked.0 == 62 {
            return None;
        }
        let result = told(asked).map(arrived_of);
        if self.trace.is_none() || result == Err(SpaceError::OutOfMemory) {
            return Some(result);
        }
        let frame = Frame::from_bytes(self.answer().to_vec()).expect("the frame that came");
        Some(self.noted(result, || Event::Arrive(frame), Answer::from))
    }

    /// Forgets what is kept of a peer's stream, and its fault, for a new stream, as where a connection was
    /// opened again. Frames that wait stay.
    ///
    /// ```
    /// # use masttomato::space::*;
    /// # fn carry(from: &mut Space, to: &mut Space) -> Result<(), SpaceError> {
    /// #     for frame in from.transmit(to.id())?.iter() {
    /// #         to.arrive(&frame)?;
    /// #     }
    /// #     while to.act(from.id()).is_ok() || to.settle().is_ok() || to.clean().is_ok() {}
    /// #     Ok(())
    /// # }
    /// # let [one, two] = [1, 2].map(|number| SpaceId::new(number).expect("1 to 32"));
    /// # let mut caller = Space::new(one, two, Limits::default())?;
    /// # let mut owner = Space::new(two, two, Limits::default())?;
    /// caller.call(two.agent(), 0, &Value::Unit)?;
    /// let frames = caller.transmit(two)?;
    /// assert_eq!(owner.push(one, &frames.as_bytes()[..20]), Ok(0));
    /// owner.restart(one);                              // the connection broke, and there is another one
    /// assert_eq!(owner.push(one, frames.as_bytes()), Ok(1));
    /// # Ok::<(), SpaceError>(())
    /// ```
    ///
    /// # Panics
    /// Where the library says that the peer is no space.
    pub fn restart(&mut self, peer: SpaceId) {
        let status = self.handle.restart(peer.get());
        assert_eq!(status, 0, "nob_restart takes any space's number");
    }

    /// The session with a peer counts one tick more: for which reason it closes, where its retries
    /// are used up.
    ///
    /// ```
    /// # use masttomato::space::{Limits, Reason, Space, SpaceError, SpaceId, Value};
    /// # fn main() -> Result<(), SpaceError> {
    /// # let [first, second] = [1, 2].map(|number| SpaceId::new(number).expect("a space"));
    /// let limits = Limits::new(8, 2).expect("limits");
    /// let mut space = Space::new(first, second, limits)?;
    /// assert_eq!(space.tick(second)?, None);       // nothing is out, so nothing is counted
    /// space.call(second.agent(), 0, &Value::Unit)?;
    /// space.transmit(second)?;
    /// assert_eq!((space.tick(second)?, space.tick(second)?), (None, Some(Reason::RetriesUsedUp)));
    /// # Ok(())
    /// # }
    /// ```
    ///
    /// # Errors
    /// NoPeer where there is no such peer, Closed where the session has closed already.
    pub fn tick(&mut self, peer: SpaceId) -> Result<Option<Reason>, SpaceError> {
        let result = told(self.handle.tick(peer.get())).map(|told| match told.kind {
            2 => None,
            10 => Some(reason_of(told)),
            other => unknown("kind", other),
        });
        self.noted(result, || Event::Tick(peer), ticked)
    }

    /// Closes the session with a peer, for the reason that it was asked to.
    ///
    /// ```
    /// # use masttomato::space::*;
    /// # let [one, two] = [1, 2].map(|number| SpaceId::new(number).expect("1 to 32"));
    /// # let mut space = Space::new(one, two, Limits::default())?;
    /// assert_eq!(space.close(two)?, Reason::Asked);
    /// assert_eq!(space.close(two), Err(SpaceError::Refused(Refusal::Closed)));
    /// # Ok::<(), SpaceError>(())
    /// ```
    ///
    /// # Errors
    /// NoPeer where there is no such peer, Closed where the session has closed already.
    pub fn close(&mut self, peer: SpaceId) -> Result<Reason, SpaceError> {
        let result = told(self.handle.close(peer.get())).map(reason_of);
        self.noted(result, || Event::Close(peer), Answer::Closed)
    }

    /// Opens the session with a peer anew, which has closed here: its number, which is above the one before and
    /// not below any in a frame of the peer's. Nothing of the sessions before is acted on from then on.
    ///
    /// Either end opens for itself, and they are in one session once they are under one number. A frame of a later
    /// number closes an end that is open, and from then on it can be opened under that.
    ///
    /// ```
    /// # use masttomato::space::*;
    /// # let [one, two] = [1, 2].map(|number| SpaceId::new(number).expect("1 to 32"));
    /// # let mut first = Space::new(one, two, Limits::default())?;
    /// # let mut second = Space::new(two, two, Limits::default())?;
    /// first.close(two)?;
    /// assert_eq!(first.open(two)?, 2);
    /// first.call(two.agent(), 0, &Value::Unit)?;
    /// let call = first.transmit(two)?.iter().next().expect("a call");
    /// assert_eq!(second.arrive(&call)?, Arrived::Closed(Reason::PeerClosed));
    /// assert_eq!(second.open(one)?, 2);
    /// assert_eq!(second.arrive(&call)?, Arrived::Took(1));              // it is given again until it is taken
    /// # Ok::<(), SpaceError>(())
    /// ```
    ///
    /// # Errors
    /// NoPeer where there is no such peer, StillOpen where the session is open here, StillHeld while a reference to
    /// an object of the peer's is held here (in the hand, or on loan to a message or a job), is pinned here or
    /// stands in a message that waits here, Limit where no number is left.
    pub fn open(&mut self, peer: SpaceId) -> Result<u32, SpaceError> {
        let present = self.handle.tally(peer.get()).session;
        self.cover(Wanted::Session(peer, present.saturating_add(1)))?;
        let result = told(self.handle.open(peer.get())).map(number_of_session);
        self.noted(result, || Event::Open(peer), Answer::Opened)
    }

    /// One event, by its own method.
    ///
    /// ```
    /// # use masttomato::space::{Answer, Event, Limits, Space, SpaceError, SpaceId};
    /// # fn main() -> Result<(), Box<dyn std::error::Error>> {
    /// # let first = SpaceId::try_from(1)?;
    /// let mut space = Space::new(first, first, Limits::default())?;
    /// let event: Event = "export".parse()?;
    /// assert_eq!(space.step(&event)?.to_string(), "exported 1.1");
    /// # Ok(())
    /// # }
    /// ```
    ///
    /// # Errors
    /// As the event's own method.
    ///
    /// # Panics
    /// As the event's own method.
    pub fn step(&mut self, event: &Event) -> Result<Answer, SpaceError> {
        match event {
            Event::Export => self.export().map(Answer::Exported),
            Event::Dup(reference) => self.dup(*reference).map(done),
            Event::Release(reference) => self.release(*reference).map(done),
            Event::Call { target, method, value } => {
                self.call(*target, *method, value).map(Answer::Called)
            }
            Event::TakeReply(call) => self.take_reply(*call).map(Answer::from),
            Event::Claim => self.claim().map(Answer::Job),
            Event::Finish(job, outcome) => self.finish(*job, outcome).map(Answer::from),
            Event::Act(peer) => self.act(*peer).map(Answer::from),
            Event::Settle => self.settle().map(Answer::from),
            Event::Clean => self.clean().map(Answer::Cleaned),
            Event::Withdraw(index) => self.withdraw(*index).map(withdrawn),
            Event::Transmit(peer) => self.transmit(*peer).map(Answer::Frames),
            Event::Arrive(frame) => self.arrive(frame).map(Answer::from),
            Event::Tick(peer) => self.tick(*peer).map(ticked),
            Event::Close(peer) => self.close(*peer).map(Answer::Closed),
            Event::Open(peer) => self.open(*peer).map(Answer::Opened),
        }
    }

    /// Whether a client is listed for the object of an index: it asked for it, was granted it, and
    /// hasn't given it up.
    ///
    /// ```
    /// # use masttomato::space::*;
    /// # fn carry(from: &mut Space, to: &mut Space) -> Result<(), SpaceError> {
    /// #     for frame in from.transmit(to.id())?.iter() {
    /// #         to.arrive(&frame)?;
    /// #     }
    /// #     while to.act(from.id()).is_ok() || to.settle().is_ok() || to.clean().is_ok() {}
    /// #     Ok(())
    /// # }
    /// # let [one, two] = [1, 2].map(|number| SpaceId::new(number).expect("1 to 32"));
    /// # let mut caller = Space::new(one, two, Limits::default())?;
    /// # let mut owner = Space::new(two, two, Limits::default())?;
    /// let object = owner.export()?;
    /// let call = caller.call(two.agent(), 0, &Value::Unit)?;
    /// carry(&mut caller, &mut owner)?;
    /// let job = owner.claim()?;
    /// owner.finish(job.job, &Outcome::Answer(Value::Ref(object)))?;
    /// assert!(!owner.lists(object.index, one));
    /// carry(&mut owner, &mut caller)?;                 // the caller asks for the object
    /// carry(&mut caller, &mut owner)?;
    /// assert!(owner.lists(object.index, one));
    /// # let _ = call;
    /// # Ok::<(), SpaceError>(())
    /// ```
    pub fn lists(&self, index: u64, client: SpaceId) -> bool {
        self.handle.lists(index, client.get())
    }

    /// Whether TakeReply of a call would say anything but that the reply isn't ready.
    ///
    /// ```
    /// # use masttomato::space::*;
    /// # fn carry(from: &mut Space, to: &mut Space) -> Result<(), SpaceError> {
    /// #     for frame in from.transmit(to.id())?.iter() {
    /// #         to.arrive(&frame)?;
    /// #     }
    /// #     while to.act(from.id()).is_ok() || to.settle().is_ok() || to.clean().is_ok() {}
    /// #     Ok(())
    /// # }
    /// # let [one, two] = [1, 2].map(|number| SpaceId::new(number).expect("1 to 32"));
    /// # let mut caller = Space::new(one, two, Limits::default())?;
    /// # let mut owner = Space::new(two, two, Limits::default())?;
    /// let call = caller.call(two.agent(), 0, &Value::Unit)?;
    /// carry(&mut caller, &mut owner)?;
    /// assert!(!caller.reply_ready(call));
    /// let job = owner.claim()?;
    /// owner.finish(job.job, &Outcome::NoMethod)?;
    /// carry(&mut owner, &mut caller)?;
    /// assert!(caller.reply_ready(call));
    /// # Ok::<(), SpaceError>(())
    /// ```
    pub fn reply_ready(&self, call: CallNo) -> bool {
        self.handle.reply_ready(call.get())
    }

    /// What the space could do next: to ask it that would be no refusal, limits, free numbers and
    /// want of memory aside.
    ///
    /// ```
    /// # use masttomato::space::{Due, Limits, Space, SpaceError, SpaceId, Value};
    /// # fn main() -> Result<(), SpaceError> {
    /// # let [first, second] = [1, 2].map(|number| SpaceId::new(number).expect("a space"));
    /// let mut space = Space::new(first, second, Limits::default())?;
    /// assert!(!space.work().send(second));
    /// let object = space.export()?;
    /// space.call(second.agent(), 1, &Value::Unit)?;
    /// space.release(object)?;
    /// assert_eq!((space.work().send(second), space.due(second)), (true, Due::New));
    /// assert_eq!(space.work().withdraw, Some(object.index));
    /// # Ok(())
    /// # }
    /// ```
    pub fn work(&self) -> Work {
        let work = self.handle.work();
        Work {
            act: work.act,
            send: work.send,
            settle: work.settle,
            clean: work.clean,
            claim: work.claim,
            withdraw: work.withdraw.then_some(work.index),
        }
    }

    /// What a Transmit to a peer would give.
    ///
    /// ```
    /// # use masttomato::space::*;
    /// # let [one, two] = [1, 2].map(|number| SpaceId::new(number).expect("1 to 32"));
    /// # let mut space = Space::new(one, two, Limits::default())?;
    /// space.call(two.agent(), 0, &Value::Unit)?;
    /// assert_eq!(space.due(two), Due::New);
    /// # Ok::<(), SpaceError>(())
    /// ```
    pub fn due(&self, peer: SpaceId) -> Due {
        match self.handle.due(peer.get()) {
            0 => Due::Nothing,
            1 => Due::Ack,
            2 => Due::Again,
            3 => Due::New,
            4 => Due::Close,
            other => unknown("due", other),
        }
    }

    /// What went each way on the session with a peer, and how it ended: none where the space is no peer.
    ///
    /// ```
    /// # use masttomato::space::*;
    /// # let [one, two] = [1, 2].map(|number| SpaceId::new(number).expect("1 to 32"));
    /// # let mut space = Space::new(one, two, Limits::default())?;
    /// space.call(two.agent(), 0, &Value::Unit)?;
    /// let tally = Tally { session: 1, sent: 1, acted: 0, closed: None };
    /// assert_eq!((space.tally(two), space.tally(one)), (Some(tally), None));
    /// # Ok::<(), SpaceError>(())
    /// ```
    pub fn tally(&self, peer: SpaceId) -> Option<Tally> {
        let tally = self.handle.tally(peer.get());
        (tally.session > 0).then(|| Tally {
            session: tally.session,
            sent: tally.sent,
            acted: tally.acted,
            closed: ending_of(tally.closed),
        })
    }

    /// How many objects of this space are live: exported and not withdrawn. The agent isn't counted.
    ///
    /// ```
    /// # use masttomato::space::*;
    /// # let [one, two] = [1, 2].map(|number| SpaceId::new(number).expect("1 to 32"));
    /// # let mut space = Space::new(one, two, Limits::default())?;
    /// space.export()?;
    /// assert_eq!(space.live(), 1);
    /// # Ok::<(), SpaceError>(())
    /// ```
    pub fn live(&self) -> u64 {
        self.handle.live()
    }

    /// How much the space has: objects, surrogates, calls and messages. Constant time.
    ///
    /// ```
    /// # use masttomato::space::*;
    /// # let [one, two] = [1, 2].map(|number| SpaceId::new(number).expect("1 to 32"));
    /// # let mut space = Space::new(one, two, Limits::default())?;
    /// space.export()?;
    /// space.call(two.agent(), 0, &Value::Unit)?;
    /// assert_eq!(space.counts(), Counts { live: 1, calls: 1, ..Counts::default() });
    /// # Ok::<(), SpaceError>(())
    /// ```
    pub fn counts(&self) -> Counts {
        let counts = self.handle.counts();
        Counts {
            live: counts.live,
            surrogates: counts.surrogates,
            calls: counts.calls,
            waiting: counts.waiting,
            ready: counts.ready,
            running: counts.running,
            replies: counts.replies,
        }
    }

    /// How much of what the space has is with a peer; nothing where the space is no peer. Linear in the peer's messages
    /// that wait, its ready jobs, and the surrogates of the space.
    ///
    /// ```
    /// # use masttomato::space::*;
    /// # let [one, two] = [1, 2].map(|number| SpaceId::new(number).expect("1 to 32"));
    /// # let mut space = Space::new(one, two, Limits::default())?;
    /// let object = space.export()?;
    /// space.call(two.agent(), 0, &Value::Ref(object))?;
    /// let counts = PeerCounts { pinned: 1, unacknowledged: 1, ..PeerCounts::default() };
    /// assert_eq!((space.peer_counts(two), space.peer_counts(one)), (counts, PeerCounts::default()));
    /// # Ok::<(), SpaceError>(())
    /// ```
    pub fn peer_counts(&self, peer: SpaceId) -> PeerCounts {
        let counts = self.handle.peer_counts(peer.get());
        PeerCounts {
            pinned: counts.pinned,
            unacknowledged: counts.unacknowledged,
            inbox: counts.inbox,
            waiting: counts.waiting,
            ready: counts.ready,
            surrogates: counts.surrogates,
        }
    }

    /// What stands at the front of the inbox from a peer: what [`act`](Space::act) would act on. None where the space is
    /// no peer, the session with it has closed, or nothing waits. It makes no value.
    ///
    /// ```
    /// # use masttomato::space::*;
    /// # let [one, two] = [1, 2].map(|number| SpaceId::new(number).expect("1 to 32"));
    /// # let mut caller = Space::new(one, two, Limits::default())?;
    /// # let mut owner = Space::new(two, two, Limits::default())?;
    /// let call = caller.call(two.agent(), 7, &Value::Unit)?;
    /// for frame in caller.transmit(two)?.iter() {
    ///     owner.arrive(&frame)?;
    /// }
    /// let front = owner.front(one).expect("the call");
    /// assert_eq!(front.item.get(), 1);
    /// assert_eq!(front.is, FrontItem::Call { call, target: 0, method: 7, references: 0 });
    /// # Ok::<(), SpaceError>(())
    /// ```
    pub fn front(&self, peer: SpaceId) -> Option<Front> {
        let front = self.handle.front(peer.get());
        let (call, references) = (CallNo::new(front.number), front.references);
        let is = match front.kind {
            0 => return None,
            1 => FrontItem::Call {
                call,
                target: front.index,
                method: u16::try_from(front.method)
                    .unwrap_or_else(|_| unknown("method", front.method)),
                references,
            },
            2 => {
                let status = u8::try_from(front.method).ok().and_then(Status::from_number);
                let status = status.unwrap_or_else(|| unknown("status of a reply", front.method));
                FrontItem::Reply { call, status, references }
            }
            3 => FrontItem::Settle(ItemNo::new(front.number)),
            4 => FrontItem::Dirty(front.index),
            5 => FrontItem::DirtyOk(front.index),
            6 => FrontItem::DirtyNo(front.index),
            7 => FrontItem::Clean(front.index),
            8 => FrontItem::NoItem,
            other => unknown("kind of an item", other),
        };
        Some(Front { item: ItemNo::new(front.item), is })
    }

    /// The call whose reply became ready first, of those that weren't taken: what [`take_reply`](Space::take_reply) is
    /// asked next where many calls are on their way. None where no reply is ready. It says nothing of the calls that
    /// a close ended: `take_reply` says [`CallResult::Ended`] of each.
    ///
    /// ```
    /// # use masttomato::space::*;
    /// # fn carry(from: &mut Space, to: &mut Space) -> Result<(), SpaceError> {
    /// #     for frame in from.transmit(to.id())?.iter() {
    /// #         to.arrive(&frame)?;
    /// #     }
    /// #     while to.act(from.id()).is_ok() || to.settle().is_ok() || to.clean().is_ok() {}
    /// #     Ok(())
    /// # }
    /// # let [one, two] = [1, 2].map(|number| SpaceId::new(number).expect("1 to 32"));
    /// # let mut caller = Space::new(one, two, Limits::default())?;
    /// # let mut owner = Space::new(two, two, Limits::default())?;
    /// let call = caller.call(two.agent(), 0, &Value::Unit)?;
    /// assert_eq!(caller.next_reply(), None);
    /// carry(&mut caller, &mut owner)?;
    /// let job = owner.claim()?;
    /// owner.finish(job.job, &Outcome::NoMethod)?;
    /// carry(&mut owner, &mut caller)?;
    /// assert_eq!(caller.next_reply(), Some(call));
    /// # Ok::<(), SpaceError>(())
    /// ```
    pub fn next_reply(&self) -> Option<CallNo> {
        let call = self.handle.next_reply();
        (call > 0).then(|| CallNo::new(call))
    }

    /// Whether a trace or a chain is kept.
    pub(crate) fn is_recorded(&self) -> bool {
        self.trace.is_some() || self.chain.is_some()
    }

    // Where a trace or a chain is kept, what was asked and what came of it is its next entry; but not where
    // memory was wanted. A segment that is full is sealed at once.
    fn noted<T: Clone>(
        &mut self,
        result: Result<T, SpaceError>,
        event: impl FnOnce() -> Event,
        answer: impl FnOnce(T) -> Answer,
    ) -> Result<T, SpaceError> {
        if !self.is_recorded() {
            return result;
        }
        let noted = match result.clone() {
            Ok(given) => Ok(answer(given)),
            Err(SpaceError::Refused(refusal)) => Err(refusal),
            Err(_) => return result,
        };
        self.rise_to(self.stamp());
        let event = event();
        if let Some(trace) = &mut self.trace {
            trace.push(&event, &noted);
        }
        if let Some(chain) = &mut self.chain {
            chain.push(&event, &noted);
            if chain.is_full() {
                self.seal();
            }
        }
        result
    }

    // The pickle of a value, and whether it is one. A value without a pickle can't be given to the
    // library. So it is given a reference in its place which this space can't hold, since no object
    // has that index: it refuses that, by S3, just where it would refuse the value by S7, and does
    // else what it would do with the value.
    fn pickle_of(&mut self, value: &Value) -> (Vec<u8>, bool) {
        if let Ok(pickle) = value.encode_in(std::mem::take(&mut self.pickle)) {
            return (pickle, true);
        }
        let nothing = Reference { owner: self.id, index: u64::MAX };
        (Value::Ref(nothing).encode().expect("a reference has a pickle"), false)
    }

    // The value that the last reply or job brought.
    fn value(&mut self) -> Value {
        match self.handle.value() {
            0 => Value::decode(self.answer()).expect("a value's pickle"),
            14 => panic!("out of memory: a value was brought, and there is none for its pickle"),
            other => unknown("status of nob_value", other),
        }
    }

    // The bytes of the library's answer.
    fn answer(&mut self) -> &[u8] {
        let length = answer_in(&mut self.handle, &mut self.room);
        &self.room[..length]
    }
}

// Puts the bytes of the library's answer there: how many they are.
fn answer_in(handle: &mut Handle, room: &mut Vec<u8>) -> usize {
    let mut length = handle.answer(room);
    if length > room.len() {
        room.resize(length.next_power_of_two(), 0);
        length = handle.answer(room);
    }
    length
}

fn done((): ()) -> Answer {
    Answer::Done
}

fn withdrawn((): ()) -> Answer {
    Answer::Withdrawn
}

fn ticked(closed: Option<Reason>) -> Answer {
    closed.map_or(Answer::Done, Answer::Closed)
}

// What was told, or why nothing was done.
fn told((status, told): (u32, Told)) -> Result<Told, SpaceError> {
    match status {
        0 => Ok(told),
        _ => Err(error_of(status)),
    }
}

// Why nothing was done, by a status other than 0.
fn error_of(status: u32) -> SpaceError {
    let place = match status {
        1..=10 => status - 1,
        111..=114 => status - 101,
        12..=13 => status + 2,
        15..=16 => status + 1,
        14 => return SpaceError::OutOfMemory,
        OTHER_VERSION => return SpaceError::OtherVersion(masttomato_sys::version()),
        _ => unknown("status", status),
    };
    SpaceError::Refused(Refusal::ALL[place as usize])
}

// What came of a value, or of what stood in its place and is refused by S3 where it is by S7.
fn judged(result: Result<Told, SpaceError>, has_pickle: bool) -> Result<Told, SpaceError> {
    match result {
        Err(SpaceError::Refused(Refusal::NoObject)) if !has_pickle => {
            Err(SpaceError::Refused(Refusal::TooBig))
        }
        _ => result,
    }
}

fn reference_of(told: Told) -> Reference {
    Reference { owner: space_of(told.space), index: told.index }
}

fn space_of(number: u16) -> SpaceId {
    SpaceId::new(number).unwrap_or_else(|| unknown("space", number.into()))
}

fn reason_of(told: Told) -> Reason {
    u8::try_from(told.number)
        .ok()
        .and_then(Reason::from_number)
        .unwrap_or_else(|| unknown("reason", told.kind))
}

// Why an end closed, or none where it is open.
fn ending_of(number: u32) -> Option<Reason> {
    let reason = u8::try_from(number).ok().and_then(Reason::from_number);
    (number > 0).then(|| reason.unwrap_or_else(|| unknown("reason", number)))
}

fn number_of_session(told: Told) -> u32 {
    match u32::try_from(told.number) {
        Ok(number) if told.kind == 17 => number,
        _ => unknown("kind", told.kind),
    }
}

fn status_of(told: Told) -> Status {
    let number = u8::try_from(told.number).ok();
    let status = number.and_then(Status::from_number);
    status.unwrap_or_else(|| unknown("status of a reply", told.kind))
}

fn arrived_of(told: Told) -> Arrived {
    match told.kind {
        15 => Arrived::Took(told.number),
        10 => Arrived::Closed(reason_of(told)),
        other => unknown("kind", other),
    }
}

// The archive doesn't keep to what its README says: it isn't the one of this crate's version.
fn unknown(what: &str, number: u32) -> ! {
    panic!("libnob_host.a and this crate don't belong together: {what} {number} is unknown")
}
