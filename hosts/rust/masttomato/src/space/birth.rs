//! Births: the numbers that a life of a space begins behind.

use super::names::SpaceId;
use super::refusal::{OTHER_VERSION, other_version};
use std::error::Error;
use std::fmt;

/// The numbers that a life of a space begins behind: what earlier lives under its number used, or may have used. See
/// [`Space::begin_at`](super::Space::begin_at).
///
/// ```
/// use masttomato::space::{Birth, Limits, Space, SpaceId};
///
/// # fn main() -> Result<(), Box<dyn std::error::Error>> {
/// let [one, two] = [SpaceId::try_from(1)?, SpaceId::try_from(2)?];
/// let mut birth = Birth { indexes: 1_024, calls: 1_024, ..Birth::default() };
/// birth.set_session(two, 3);
/// let mut space = Space::begin_at(one, two, Limits::default(), &birth)?;
/// assert_eq!(space.export()?.to_string(), "1.1025");
/// # Ok(())
/// # }
/// ```
#[derive(Clone, Debug, PartialEq, Eq, Hash)]
pub struct Birth {
    /// So many indexes were given, at most 2^48.
    pub indexes: u64,
    /// So many calls were made, at most 2^48.
    pub calls: u64,
    /// So many jobs were claimed, at most 2^48.
    pub jobs: u64,
    /// The number that the session with each space begins in, from space 1 on: in a new space each is 1, else each is 2 or
    /// above. The space's own place isn't read.
    pub sessions: [u32; SpaceId::MOST as usize],
}

impl Birth {
    /// The number that the session with a space begins in.
    ///
    /// ```
    /// # use masttomato::space::*;
    /// assert_eq!(Birth::default().session(SpaceId::try_from(2)?), 1);
    /// # Ok::<(), NoSpace>(())
    /// ```
    pub fn session(&self, peer: SpaceId) -> u32 {
        self.sessions[peer.place()]
    }

    /// The session with a space begins in this number: in a new space each is 1, else each is 2 or above.
    ///
    /// ```
    /// # use masttomato::space::*;
    /// let (mut birth, two) = (Birth::default(), SpaceId::try_from(2)?);
    /// birth.set_session(two, 3);
    /// assert_eq!(birth.session(two), 3);
    /// # Ok::<(), NoSpace>(())
    /// ```
    pub fn set_session(&mut self, peer: SpaceId, number: u32) {
        self.sessions[peer.place()] = number;
    }

    // The numbers of the sessions with the spaces up to one.
    pub(super) fn sessions_up_to(&self, last: SpaceId) -> &[u32] {
        &self.sessions[..=last.place()]
    }
}

/// The birth of a space that never lived: nothing was used, and each session begins in number 1.
impl Default for Birth {
    fn default() -> Birth {
        Birth { indexes: 0, calls: 0, jobs: 0, sessions: [1; SpaceId::MOST as usize] }
    }
}

/// Why no life begins: the first number of its birth that is out of range. See
/// [`Space::begin_at`](super::Space::begin_at).
///
/// ```
/// # use masttomato::space::*;
/// # let [one, two] = [1, 2].map(|number| SpaceId::new(number).expect("1 to 32"));
/// let begin = |birth: &Birth| Space::begin_at(one, two, Limits::default(), birth).map(drop);
/// let refused = begin(&Birth { indexes: (1 << 48) + 1, ..Birth::default() });
/// assert_eq!(refused, Err(BirthError::Indexes));
/// let refused = begin(&Birth { calls: 1, ..Birth::default() });
/// assert_eq!(refused, Err(BirthError::Session));             // a call, and all sessions in their first number
/// ```
#[derive(Clone, Copy, Debug, PartialEq, Eq, Hash)]
#[non_exhaustive]
pub enum BirthError {
    /// There are more indexes than 2^48.
    Indexes,
    /// There are more calls than 2^48.
    Calls,
    /// There are more jobs than 2^48.
    Jobs,
    /// The number of the session with a peer is below 2, and it isn't a new space's.
    Session,
    /// There were calls or jobs, but more than can have come and gone in the sessions before: 2^40 in each earlier
    /// number, with some one peer.
    Earlier,
    /// Memory ran out.
    OutOfMemory,
    /// The static library that is linked has functions of this version, and not of that which this crate was written for.
    OtherVersion(u32),
}

impl BirthError {
    // By the status of the library.
    pub(super) fn from_status(status: u32) -> Option<BirthError> {
        match status {
            14 => Some(BirthError::OutOfMemory),
            71 => Some(BirthError::Indexes),
            72 => Some(BirthError::Calls),
            73 => Some(BirthError::Jobs),
            74 => Some(BirthError::Session),
            75 => Some(BirthError::Earlier),
            OTHER_VERSION => Some(BirthError::OtherVersion(masttomato_sys::version())),
            _ => None,
        }
    }
}

impl fmt::Display for BirthError {
    fn fmt(&self, f: &mut fmt::Formatter<'_>) -> fmt::Result {
        f.write_str(match self {
            BirthError::OtherVersion(version) => return other_version(f, *version),
            BirthError::Indexes => "more indexes were given than there are",
            BirthError::Calls => "more calls were made than there are numbers for",
            BirthError::Jobs => "more jobs were claimed than there are numbers for",
            BirthError::Session => "the session with a peer has a number below 2",
            BirthError::Earlier => "so many calls and jobs can't have been in earlier sessions",
            BirthError::OutOfMemory => "out of memory",
        })
    }
}

impl Error for BirthError {}
