//! The names that everything else is about: spaces, references, numbers, limits, and reasons.

use std::fmt;
use std::str::FromStr;

/// A space, by its number from 1 to 32.
///
/// ```
/// use masttomato::SpaceId;
///
/// assert_eq!("7".parse::<SpaceId>()?.get(), 7);
/// assert_eq!(u16::from(SpaceId::try_from(7)?), 7);
/// assert_eq!(SpaceId::try_from(33).unwrap_err().to_string(), "a space has a number from 1 to 32");
/// # Ok::<(), masttomato::space::NoSpace>(())
/// ```
#[derive(Clone, Copy, Debug, PartialEq, Eq, PartialOrd, Ord, Hash)]
pub struct SpaceId(u16);

impl SpaceId {
    /// The greatest number of a space.
    ///
    /// ```
    /// # use masttomato::space::*;
    /// assert_eq!((SpaceId::new(SpaceId::MOST).is_some(), SpaceId::new(SpaceId::MOST + 1)), (true, None));
    /// ```
    pub const MOST: u16 = 32;

    /// The space of this number: `None` where no space has it.
    ///
    /// ```
    /// # use masttomato::space::*;
    /// const ORDERS: SpaceId = SpaceId::new(7).expect("1 to 32");
    /// assert_eq!((ORDERS.get(), SpaceId::new(0)), (7, None));
    /// ```
    pub const fn new(number: u16) -> Option<SpaceId> {
        if number == 0 || number > SpaceId::MOST {
            return None;
        }
        Some(SpaceId(number))
    }

    /// The space's number.
    ///
    /// ```
    /// # use masttomato::space::*;
    /// assert_eq!(SpaceId::try_from(7)?.get(), 7);
    /// # Ok::<(), NoSpace>(())
    /// ```
    pub const fn get(self) -> u16 {
        self.0
    }

    // Its place in arrays of all spaces.
    pub(crate) const fn place(self) -> usize {
        self.0 as usize - 1
    }

    /// The reference to this space's agent, which every space may call and which isn't counted.
    ///
    /// ```
    /// # use masttomato::space::*;
    /// let agent = SpaceId::try_from(7)?.agent();
    /// assert_eq!((agent.to_string(), agent.is_counted()), ("7.0".to_string(), false));
    /// # Ok::<(), NoSpace>(())
    /// ```
    pub const fn agent(self) -> Reference {
        Reference { owner: self, index: 0 }
    }

    /// The spaces from 1 to this one.
    ///
    /// ```
    /// # use masttomato::space::*;
    /// let all: Vec<u16> = SpaceId::try_from(3)?.up_to().map(SpaceId::get).collect();
    /// assert_eq!(all, [1, 2, 3]);
    /// # Ok::<(), NoSpace>(())
    /// ```
    pub fn up_to(self) -> impl Iterator<Item = SpaceId> {
        (1..=self.0).map(SpaceId)
    }
}

/// A number that no space has: see [`SpaceId`].
///
/// ```
/// # use masttomato::space::*;
/// assert_eq!((SpaceId::try_from(33), "0".parse::<SpaceId>()), (Err(NoSpace), Err(NoSpace)));
/// ```
#[derive(Clone, Copy, Debug, PartialEq, Eq, Hash)]
pub struct NoSpace;

impl fmt::Display for NoSpace {
    fn fmt(&self, f: &mut fmt::Formatter<'_>) -> fmt::Result {
        f.write_str("a space has a number from 1 to 32")
    }
}

impl std::error::Error for NoSpace {}

impl TryFrom<u16> for SpaceId {
    type Error = NoSpace;

    fn try_from(number: u16) -> Result<SpaceId, NoSpace> {
        SpaceId::new(number).ok_or(NoSpace)
    }
}

impl From<SpaceId> for u16 {
    fn from(space: SpaceId) -> u16 {
        space.0
    }
}

impl FromStr for SpaceId {
    type Err = NoSpace;

    fn from_str(text: &str) -> Result<SpaceId, NoSpace> {
        text.parse().ok().and_then(SpaceId::new).ok_or(NoSpace)
    }
}

impl fmt::Display for SpaceId {
    fn fmt(&self, f: &mut fmt::Formatter<'_>) -> fmt::Result {
        self.0.fmt(f)
    }
}

/// A reference: the space that owns an object, and the object's index there. Index 0 is the owner's
/// agent. Its text is `OWNER.INDEX`.
///
/// ```
/// use masttomato::{Reference, SpaceId};
///
/// let reference = Reference { owner: SpaceId::try_from(3)?, index: 14 };
/// assert_eq!((reference.to_string(), reference.is_counted()), ("3.14".to_string(), true));
/// assert_eq!("3.14".parse(), Ok(reference));
/// assert!(!reference.owner.agent().is_counted());
/// # Ok::<(), masttomato::space::NoSpace>(())
/// ```
#[derive(Clone, Copy, Debug, PartialEq, Eq, PartialOrd, Ord, Hash)]
pub struct Reference {
    /// The space that has the object.
    pub owner: SpaceId,
    /// The object's index at its owner.
    pub index: u64,
}

impl Reference {
    /// Whether the collector counts the reference: it doesn't count those to an agent.
    ///
    /// ```
    /// # use masttomato::space::*;
    /// let owner = SpaceId::try_from(3)?;
    /// assert!(Reference { owner, index: 1 }.is_counted() && !owner.agent().is_counted());
    /// # Ok::<(), NoSpace>(())
    /// ```
    pub const fn is_counted(self) -> bool {
        self.index != 0
    }
}

impl fmt::Display for Reference {
    fn fmt(&self, f: &mut fmt::Formatter<'_>) -> fmt::Result {
        write!(f, "{}.{}", self.owner, self.index)
    }
}

/// The name of a world, 16 bytes. Two worlds never mix.
///
/// ```
/// # use masttomato::space::World;
/// assert_eq!(World::default(), World::named(""));
/// ```
#[derive(Clone, Copy, Debug, Default, PartialEq, Eq, Hash)]
pub struct World(pub [u8; 16]);

impl World {
    /// The world of a name, of which the first 16 bytes count.
    ///
    /// ```
    /// # use masttomato::space::World;
    /// assert_ne!(World::named("shop"), World::named("bank"));
    /// ```
    pub fn named(name: &str) -> World {
        let mut bytes = [0; 16];
        for (place, byte) in bytes.iter_mut().zip(name.bytes()) {
            *place = byte;
        }
        World(bytes)
    }
}

/// A number of one kind, so that a call isn't taken for a job.
macro_rules! numbers {
    ($($(#[$doc:meta])* $name:ident)*) => {$(
        $(#[$doc])*
        #[derive(Clone, Copy, Debug, PartialEq, Eq, PartialOrd, Ord, Hash)]
        pub struct $name(u64);

        impl $name {
            /// The one of this number, which may be any.
            ///
            /// ```
            /// # use masttomato::space::*;
            /// assert_eq!(Event::TakeReply(CallNo::new(7)).to_string(), "take 7");
            /// ```
            pub const fn new(number: u64) -> $name {
                $name(number)
            }

            /// The number.
            ///
            /// ```
            /// # use masttomato::space::*;
            /// assert_eq!((CallNo::new(7).get(), u64::from(CallNo::new(7))), (7, 7));
            /// ```
            pub const fn get(self) -> u64 {
                self.0
            }
        }

        impl From<$name> for u64 {
            fn from(number: $name) -> u64 {
                number.0
            }
        }

        impl fmt::Display for $name {
            fn fmt(&self, f: &mut fmt::Formatter<'_>) -> fmt::Result {
                self.0.fmt(f)
            }
        }
    )*};
}

numbers! {
    /// The number of a call among those of its client, from 1 on.
    ///
    /// ```
    /// # use masttomato::space::*;
    /// assert!(CallNo::new(1) < CallNo::new(2));
    /// ```
    CallNo
    /// The number of a job among those that its space has claimed, from 1 on.
    ///
    /// ```
    /// # use masttomato::space::*;
    /// assert_eq!(Event::Finish(JobNo::new(4), Outcome::NoMethod).to_string(), "finish 4 nomethod");
    /// ```
    JobNo
    /// The number of an item among those that one space handed on to another, from 1 on.
    ///
    /// ```
    /// # use masttomato::space::*;
    /// assert_eq!(Answer::Acted(ItemNo::new(4)).to_string(), "acted 4");
    /// ```
    ItemNo
}

/// The limits of a space's sessions.
///
/// ```
/// use masttomato::Limits;
///
/// let limits = Limits::new(64, 255).expect("limits");
/// assert_eq!((limits.window(), limits.retry()), (64, 255));
/// assert_eq!((Limits::default().window(), Limits::new(65, 1)), (8, None));
/// ```
#[derive(Clone, Copy, Debug, PartialEq, Eq, Hash)]
pub struct Limits {
    window: u8,
    retry: u8,
}

impl Limits {
    /// These limits: `None` where the window isn't 1 to 64, or the retry limit is 0.
    ///
    /// ```
    /// # use masttomato::space::*;
    /// assert!(Limits::new(1, 1).is_some() && Limits::new(64, 255).is_some());
    /// assert!(Limits::new(0, 1).is_none() && Limits::new(65, 1).is_none() && Limits::new(1, 0).is_none());
    /// ```
    pub const fn new(window: u8, retry: u8) -> Option<Limits> {
        if window == 0 || window > 64 || retry == 0 {
            return None;
        }
        Some(Limits { window, retry })
    }

    /// How many items may be given and not acknowledged.
    ///
    /// ```
    /// # use masttomato::space::*;
    /// assert_eq!(Limits::default().window(), 8);
    /// ```
    pub const fn window(self) -> u8 {
        self.window
    }

    /// At how many counted ticks a session closes.
    ///
    /// ```
    /// # use masttomato::space::*;
    /// assert_eq!(Limits::default().retry(), 16);
    /// ```
    pub const fn retry(self) -> u8 {
        self.retry
    }
}

impl Default for Limits {
    /// A window of 8, a retry limit of 16.
    fn default() -> Limits {
        Limits { window: 8, retry: 16 }
    }
}

/// Why a session was closed. Its text is its number.
///
/// ```
/// use masttomato::Reason;
///
/// assert_eq!(Reason::from_number(3), Some(Reason::RetriesUsedUp));
/// assert_eq!(Reason::RetriesUsedUp.to_string(), "3");
/// ```
#[derive(Clone, Copy, Debug, PartialEq, Eq, Hash)]
#[non_exhaustive]
pub enum Reason {
    /// 1: this end was asked to close.
    Asked = 1,
    /// 2: the peer has closed.
    PeerClosed,
    /// 3: something stayed unacknowledged for as many ticks as the retry limit has.
    RetriesUsedUp,
    /// 4: an item that can't be read, or an acknowledgement of what was never transmitted.
    BadItem,
    /// 5: a reference to an object that its owner doesn't have.
    BadReference,
    /// 6: an item that answers nothing.
    OutOfPlace,
}

impl Reason {
    const ALL: [Reason; 6] = [
        Reason::Asked,
        Reason::PeerClosed,
        Reason::RetriesUsedUp,
        Reason::BadItem,
        Reason::BadReference,
        Reason::OutOfPlace,
    ];

    /// The reason's number, 1 to 6.
    ///
    /// ```
    /// # use masttomato::space::*;
    /// assert_eq!((Reason::Asked.number(), Reason::OutOfPlace.number()), (1, 6));
    /// ```
    pub const fn number(self) -> u8 {
        self as u8
    }

    /// The reason of this number: `None` where no reason has it.
    ///
    /// ```
    /// # use masttomato::space::*;
    /// assert_eq!((Reason::from_number(2), Reason::from_number(7)), (Some(Reason::PeerClosed), None));
    /// ```
    pub fn from_number(number: u8) -> Option<Reason> {
        Reason::ALL.into_iter().find(|reason| reason.number() == number)
    }
}

impl fmt::Display for Reason {
    fn fmt(&self, f: &mut fmt::Formatter<'_>) -> fmt::Result {
        self.number().fmt(f)
    }
}
