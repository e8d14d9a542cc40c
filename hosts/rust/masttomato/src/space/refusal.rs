//! Why a space doesn't do what it is asked.

use std::error::Error;
use std::fmt;

/// The status where the library has functions of another version.
pub(super) const OTHER_VERSION: u32 = 66;

/// What still uses an object that is to be withdrawn: the first of these that holds. See [`Refusal`].
///
/// ```
/// # use masttomato::space::*;
/// # let [one, two] = [1, 2].map(|number| SpaceId::new(number).expect("1 to 32"));
/// # let mut space = Space::new(one, two, Limits::default())?;
/// let object = space.export()?;
/// let refused = space.withdraw(object.index);
/// assert_eq!(refused, Err(SpaceError::Refused(Refusal::StillUsed(Use::Held))));
/// # Ok::<(), SpaceError>(())
/// ```
#[derive(Clone, Copy, Debug, PartialEq, Eq, Hash)]
#[non_exhaustive]
pub enum Use {
    /// S11(1): its owner holds it.
    Held,
    /// S11(2): a reference to it is in transit from its owner.
    InTransit,
    /// S11(3): a client is listed for it.
    Listed,
    /// S11(4): it is the agent.
    Agent,
}

/// A refusal of a space. It changes nothing. Its text is a name, a colon, and what it says.
///
/// ```
/// use masttomato::space::{Refusal, Use};
///
/// assert_eq!(Refusal::NotHeld.to_string(), "S4: the reference isn't held");
/// assert_eq!(Refusal::StillUsed(Use::Listed).name(), "S11(3)");
/// ```
#[derive(Clone, Copy, Debug, PartialEq, Eq, Hash)]
#[non_exhaustive]
pub enum Refusal {
    /// S1: there is no such peer.
    NoPeer,
    /// S2: the session is closed at this space.
    Closed,
    /// S3: the object isn't live.
    NoObject,
    /// S4: the reference isn't held.
    NotHeld,
    /// S5: too many items are unacknowledged.
    QueueFull,
    /// S6: the numbers of items are used up.
    SeqEnd,
    /// S7: the value has no pickle.
    TooBig,
    /// S8: there is no such call, or its reply was taken.
    NoCall,
    /// S9: the reply isn't ready.
    NotReady,
    /// S10: there is nothing to do.
    Nothing,
    /// S11: the object is still used.
    StillUsed(Use),
    /// S12: the job isn't running.
    NoJob,
    /// S13: a limit is reached.
    Limit,
    /// S15: the session is open at this space.
    StillOpen,
    /// S16: a reference to an object of the peer is held, is pinned or waits at this space.
    StillHeld,
}

impl Refusal {
    /// All refusals, in the order of their names.
    ///
    /// ```
    /// # use masttomato::space::*;
    /// assert_eq!((Refusal::ALL[0].name(), Refusal::ALL[17].name()), ("S1", "S16"));
    /// ```
    pub const ALL: [Refusal; 18] = [
        Refusal::NoPeer,
        Refusal::Closed,
        Refusal::NoObject,
        Refusal::NotHeld,
        Refusal::QueueFull,
        Refusal::SeqEnd,
        Refusal::TooBig,
        Refusal::NoCall,
        Refusal::NotReady,
        Refusal::Nothing,
        Refusal::StillUsed(Use::Held),
        Refusal::StillUsed(Use::InTransit),
        Refusal::StillUsed(Use::Listed),
        Refusal::StillUsed(Use::Agent),
        Refusal::NoJob,
        Refusal::Limit,
        Refusal::StillOpen,
        Refusal::StillHeld,
    ];

    /// The refusal's name, as scripts and traces have it: `S1`, .., `S11(3)`, ..
    ///
    /// ```
    /// # use masttomato::space::*;
    /// assert_eq!(Refusal::Nothing.name(), "S10");
    /// ```
    pub fn name(self) -> &'static str {
        self.texts().0
    }

    // The name, and what it says.
    fn texts(self) -> (&'static str, &'static str) {
        match self {
            Refusal::NoPeer => ("S1", "there is no such peer"),
            Refusal::Closed => ("S2", "the session is closed at this space"),
            Refusal::NoObject => ("S3", "the object isn't live"),
            Refusal::NotHeld => ("S4", "the reference isn't held"),
            Refusal::QueueFull => ("S5", "too many items are unacknowledged"),
            Refusal::SeqEnd => ("S6", "the numbers of items are used up"),
            Refusal::TooBig => ("S7", "the value has no pickle"),
            Refusal::NoCall => ("S8", "there is no such call, or its reply was taken"),
            Refusal::NotReady => ("S9", "the reply isn't ready"),
            Refusal::Nothing => ("S10", "there is nothing to do"),
            Refusal::StillUsed(Use::Held) => ("S11(1)", "its owner holds it"),
            Refusal::StillUsed(Use::InTransit) => {
                ("S11(2)", "a reference to it is in transit from its owner")
            }
            Refusal::StillUsed(Use::Listed) => ("S11(3)", "a client is listed for it"),
            Refusal::StillUsed(Use::Agent) => ("S11(4)", "it is the agent"),
            Refusal::NoJob => ("S12", "the job isn't running"),
            Refusal::Limit => ("S13", "a limit is reached"),
            Refusal::StillOpen => ("S15", "the session is open at this space"),
            Refusal::StillHeld => (
                "S16",
                "a reference to an object of the peer is held, is pinned or waits at this space",
            ),
        }
    }
}

impl fmt::Display for Refusal {
    fn fmt(&self, f: &mut fmt::Formatter<'_>) -> fmt::Result {
        let (name, text) = self.texts();
        write!(f, "{name}: {text}")
    }
}

impl Error for Refusal {}

/// Why a space didn't do what it was asked. It is then as it was before.
///
/// ```
/// use masttomato::space::{Limits, Refusal, Space, SpaceError, SpaceId};
///
/// # fn main() -> Result<(), Box<dyn std::error::Error>> {
/// let one = SpaceId::try_from(1)?;
/// let mut space = Space::new(one, one, Limits::default())?;
/// assert_eq!(space.claim().map(|job| job.job), Err(SpaceError::Refused(Refusal::Nothing)));
/// # Ok(())
/// # }
/// ```
#[derive(Clone, Copy, Debug, PartialEq, Eq, Hash)]
#[non_exhaustive]
pub enum SpaceError {
    /// The space refuses it.
    Refused(Refusal),
    /// Memory ran out inside the space. This makes no entry of a trace.
    OutOfMemory,
    /// What it would use couldn't be covered on disk before, or the space's life has ended: see
    /// [`Space::begin_behind`](super::Space::begin_behind). This makes no entry of a trace, either.
    NotCovered,
    /// The frame is of a session more than 2^20 above that of its end, which no honest peer reaches: it is lost. Only a
    /// space that has bounds says so, since such frames would use up the numbers of its lives.
    FarSession,
    /// The static library that is linked has functions of this version, and not of that which this crate was written for
    /// (`masttomato_sys::VERSION`): no space is made.
    OtherVersion(u32),
}

impl From<Refusal> for SpaceError {
    fn from(refusal: Refusal) -> SpaceError {
        SpaceError::Refused(refusal)
    }
}

impl fmt::Display for SpaceError {
    fn fmt(&self, f: &mut fmt::Formatter<'_>) -> fmt::Result {
        match self {
            SpaceError::Refused(refusal) => refusal.fmt(f),
            SpaceError::OutOfMemory => f.write_str("out of memory"),
            SpaceError::NotCovered => f.write_str("the bounds of the space's life can't be raised"),
            SpaceError::FarSession => f.write_str("the frame's session is too far ahead"),
            SpaceError::OtherVersion(version) => other_version(f, *version),
        }
    }
}

// What is wrong with a library of another version.
pub(super) fn other_version(f: &mut fmt::Formatter<'_>, version: u32) -> fmt::Result {
    let wanted = masttomato_sys::VERSION;
    write!(
        f,
        "the library nob_host that is linked has functions of version {version}; this crate wants those of {wanted}"
    )
}

impl Error for SpaceError {}
