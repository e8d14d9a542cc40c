//! What a space has, and what came from a peer.

use super::answers::Status;
use super::names::{CallNo, ItemNo};

/// How much a space has of what its memory goes to: see [`Space::counts`](crate::space::Space::counts).
///
/// ```
/// # use masttomato::space::*;
/// # let [one, two] = [1, 2].map(|number| SpaceId::new(number).expect("1 to 32"));
/// # let mut space = Space::new(one, two, Limits::default())?;
/// space.export()?;
/// assert_eq!(space.counts(), Counts { live: 1, ..Counts::default() });
/// # Ok::<(), SpaceError>(())
/// ```
#[derive(Clone, Copy, Debug, Default, PartialEq, Eq, Hash)]
pub struct Counts {
    /// Its live objects: exported and not withdrawn. At most 65,536.
    pub live: u64,
    /// Its surrogates of others' objects, on sessions that are open here. At most 65,536.
    pub surrogates: u64,
    /// Its own calls whose reply, or the word that there will be none, wasn't taken. At most 4,096.
    pub calls: u64,
    /// The Calls and Replies that wait for their references.
    pub waiting: u64,
    /// The jobs that are ready and weren't claimed.
    pub ready: u64,
    /// The jobs that run.
    pub running: u64,
    /// The replies that are ready and weren't taken.
    pub replies: u64,
}

impl Counts {
    /// The messages: those that wait, ready and running jobs, and ready replies. At most 65,536.
    ///
    /// ```
    /// # use masttomato::space::Counts;
    /// let counts = Counts { waiting: 1, ready: 2, running: 3, replies: 4, ..Counts::default() };
    /// assert_eq!(counts.messages(), 10);
    /// ```
    pub fn messages(&self) -> u64 {
        self.waiting + self.ready + self.running + self.replies
    }
}

/// How much of what a space has is with one peer: see [`Space::peer_counts`](crate::space::Space::peer_counts).
///
/// ```
/// # use masttomato::space::*;
/// # let [one, two] = [1, 2].map(|number| SpaceId::new(number).expect("1 to 32"));
/// # let mut space = Space::new(one, two, Limits::default())?;
/// space.call(two.agent(), 0, &Value::Unit)?;
/// assert_eq!(space.peer_counts(two), PeerCounts { unacknowledged: 1, ..PeerCounts::default() });
/// # Ok::<(), SpaceError>(())
/// ```
#[derive(Clone, Copy, Debug, Default, PartialEq, Eq, Hash)]
pub struct PeerCounts {
    /// The items to the peer whose references are pinned here until the peer settles them.
    pub pinned: u64,
    /// The items to the peer that it hasn't acknowledged.
    pub unacknowledged: u64,
    /// The items from the peer that were accepted and not acted on.
    pub inbox: u64,
    /// The Calls and Replies from the peer that wait for their references.
    pub waiting: u64,
    /// The jobs of the peer's Calls that are ready and weren't claimed.
    pub ready: u64,
    /// The surrogates of the peer's objects, on a session that is open here.
    pub surrogates: u64,
}

/// What stands at the front of the inbox from a peer: see [`Space::front`](crate::space::Space::front).
///
/// ```
/// # use masttomato::space::*;
/// # let [one, two] = [1, 2].map(|number| SpaceId::new(number).expect("1 to 32"));
/// # let space = Space::new(one, two, Limits::default())?;
/// assert_eq!(space.front(two), None);
/// # Ok::<(), SpaceError>(())
/// ```
#[derive(Clone, Copy, Debug, PartialEq, Eq, Hash)]
pub struct Front {
    /// Its number among the items of the session.
    pub item: ItemNo,
    /// What it is.
    pub is: FrontItem,
}

/// What an item is, without its value: see [`Front`]. How many references the value has is said with repeats and agents'
/// included.
///
/// ```
/// # use masttomato::space::FrontItem;
/// fn makes_a_job(item: FrontItem) -> bool {
///     matches!(item, FrontItem::Call { .. })
/// }
/// ```
#[derive(Clone, Copy, Debug, PartialEq, Eq, Hash)]
#[non_exhaustive]
pub enum FrontItem {
    /// A call.
    Call {
        /// The number of the call among those of its sender.
        call: CallNo,
        /// The index of the object that is called.
        target: u64,
        /// The number of the method.
        method: u16,
        /// How many references its value has.
        references: u32,
    },
    /// The answer to a call of this space.
    Reply {
        /// The number of the call.
        call: CallNo,
        /// What came of it.
        status: Status,
        /// How many references its value has.
        references: u32,
    },
    /// The references that came with the item of this number have been dealt with.
    Settle(ItemNo),
    /// The sender wants to be listed for the object of this index.
    Dirty(u64),
    /// This space is listed for the sender's object of this index.
    DirtyOk(u64),
    /// This space isn't listed for the sender's object of this index: there is none.
    DirtyNo(u64),
    /// The sender has no use any more for the object of this index.
    Clean(u64),
    /// The bytes are no item's: to act on them closes the session.
    NoItem,
}
