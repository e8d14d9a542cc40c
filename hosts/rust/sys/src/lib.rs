//! The static library `nob_host`, declared for Rust: a space behind a handle, in numbers and bytes.
//! What each function says stands in the README of `crates/nob_host`, and safe types over it are in
//! the crate `masttomato`.
//!
//! There are two of it. Where the build finds a `libnob_host.a`, [`Handle`] is the proved library's
//! (`IS_PROVED`), which the package may carry with its [`PROVENANCE`]; else it is the [`stand_in`]'s, plain Rust that gives the same answers and that nothing is
//! proved of, so that a program is built and tested in seconds where nothing was proved. A release
//! build without a library is refused, unless the feature `stand-in` asks for it.

#[cfg(nob_host_library)]
#[allow(unsafe_code)]
mod library;
pub mod stand_in;

#[cfg(nob_host_library)]
pub use library::Handle;
#[cfg(not(nob_host_library))]
pub use stand_in::Handle;

/// The proved library's handle, where it is linked, beside the stand-in's: to compare them.
#[cfg(nob_host_library)]
pub mod proved {
    pub use crate::library::Handle;
}

/// Whether [`Handle`] is that of the proved library, and not the stand-in's.
///
/// ```
/// println!("proved: {}", masttomato_sys::IS_PROVED);
/// ```
pub const IS_PROVED: bool = cfg!(nob_host_library);

/// Where the library that is linked comes from, if it is the one that the package carries: the commit of its sources, the
/// kit that proved and compiled it, and the sums of its files, a line each.
///
/// ```
/// match masttomato_sys::PROVENANCE {
///     Some(provenance) => assert!(provenance.starts_with("commit ")),
///     None => assert!(!masttomato_sys::IS_CARRIED),
/// }
/// ```
#[cfg(all(nob_host_library, nob_host_carried))]
pub const PROVENANCE: Option<&str> = Some(include_str!(env!("NOB_HOST_PROVENANCE")));
/// Where the library that is linked comes from, if it is the one that the package carries: it isn't.
#[cfg(not(all(nob_host_library, nob_host_carried)))]
pub const PROVENANCE: Option<&str> = None;

/// Whether the library that is linked is the one that the package carries.
///
/// ```
/// assert!(!masttomato_sys::IS_CARRIED || masttomato_sys::IS_PROVED);
/// ```
pub const IS_CARRIED: bool = PROVENANCE.is_some();

/// What came of what was asked.
///
/// ```
/// # use masttomato_sys::{Handle, Told};
/// # let mut handle = Handle::new(1, 2, 8, 16)?;
/// assert_eq!(handle.export(), (0, Told { kind: 1, space: 1, index: 1, ..Told::default() }));
/// assert_eq!(handle.claim(), (10, Told::default()));
/// # Ok::<(), u32>(())
/// ```
#[repr(C)]
#[derive(Clone, Copy, Debug, Default, PartialEq, Eq)]
pub struct Told {
    /// What kind of thing it is.
    pub kind: u32,
    /// A space.
    pub space: u16,
    /// The number of a method.
    pub method: u16,
    /// A number, which one depends on the kind.
    pub number: u64,
    /// The index of an object.
    pub index: u64,
    /// The number of a call.
    pub call: u64,
}

/// What a space could do next.
///
/// ```
/// # use masttomato_sys::{Handle, Work};
/// # let handle = Handle::new(1, 2, 8, 16)?;
/// assert_eq!(handle.work(), Work::default());
/// # Ok::<(), u32>(())
/// ```
#[repr(C)]
#[derive(Clone, Copy, Debug, Default, PartialEq, Eq)]
pub struct Work {
    /// Bit p - 1: whether there is an item from space p to act on.
    pub act: u32,
    /// Bit p - 1: whether a Transmit to space p would give a frame.
    pub send: u32,
    /// Whether there is something to settle.
    pub settle: bool,
    /// Whether there is something to give up.
    pub clean: bool,
    /// Whether there is something to claim.
    pub claim: bool,
    /// Whether an object could be withdrawn.
    pub withdraw: bool,
    /// The least index of such an object, or 0.
    pub index: u64,
}

/// What went each way on the present session with a peer, and how it ended.
///
/// ```
/// # use masttomato_sys::{Handle, Tally};
/// # let mut handle = Handle::new(1, 2, 8, 16)?;
/// handle.call(2, 0, 0, &[0]);
/// assert_eq!(handle.tally(2), Tally { session: 1, closed: 0, sent: 1, acted: 0 });
/// assert_eq!(handle.tally(1), Tally::default());                   // that is no peer
/// # Ok::<(), u32>(())
/// ```
#[repr(C)]
#[derive(Clone, Copy, Debug, Default, PartialEq, Eq)]
pub struct Tally {
    /// The session's number, from 1 on: 0 where there is no such peer, and then all is 0.
    pub session: u32,
    /// The number of the reason why this end closed, 1 to 6, or 0 where it is open.
    pub closed: u32,
    /// How many items were handed to the peer.
    pub sent: u64,
    /// How many of the peer's items were acted on here.
    pub acted: u64,
}

/// How much a space has of what its memory goes to.
///
/// ```
/// # use masttomato_sys::{Counts, Handle};
/// # let mut handle = Handle::new(1, 2, 8, 16)?;
/// handle.export();
/// assert_eq!(handle.counts(), Counts { live: 1, ..Counts::default() });
/// # Ok::<(), u32>(())
/// ```
#[repr(C)]
#[derive(Clone, Copy, Debug, Default, PartialEq, Eq)]
pub struct Counts {
    /// Its live objects: exported and not withdrawn.
    pub live: u64,
    /// Its surrogates of others' objects, on sessions that are open here.
    pub surrogates: u64,
    /// Its own calls whose reply, or the word that there will be none, wasn't taken.
    pub calls: u64,
    /// The Calls and Replies that wait for their references.
    pub waiting: u64,
    /// The jobs that are ready and weren't claimed.
    pub ready: u64,
    /// The jobs that run.
    pub running: u64,
    /// The replies that are ready and weren't taken.
    pub replies: u64,
}

/// How much of what a space has is with one peer.
///
/// ```
/// # use masttomato_sys::{Handle, PeerCounts};
/// # let mut handle = Handle::new(1, 2, 8, 16)?;
/// handle.call(2, 0, 0, &[0]);
/// assert_eq!(handle.peer_counts(2), PeerCounts { unacknowledged: 1, ..PeerCounts::default() });
/// # Ok::<(), u32>(())
/// ```
#[repr(C)]
#[derive(Clone, Copy, Debug, Default, PartialEq, Eq)]
pub struct PeerCounts {
    /// The items to the peer whose references are pinned here until the peer settles them.
    pub pinned: u64,
    /// The items to the peer that it hasn't acknowledged.
    pub unacknowledged: u64,
    /// The items from the peer that were accepted and not acted on.
    pub inbox: u64,
    /// The Calls and Replies from the peer that wait for their references.
    pub waiting: u64,
    /// The jobs of the peer's Calls that are ready and weren't claimed.
    pub ready: u64,
    /// The surrogates of the peer's objects, on a session that is open here.
    pub surrogates: u64,
}

/// What stands at the front of the inbox from a peer: what an Act would act on.
///
/// ```
/// # use masttomato_sys::{Front, Handle};
/// # let handle = Handle::new(1, 2, 8, 16)?;
/// assert_eq!(handle.front(2), Front::default());                   // nothing
/// # Ok::<(), u32>(())
/// ```
#[repr(C)]
#[derive(Clone, Copy, Debug, Default, PartialEq, Eq)]
pub struct Front {
    /// What it is: 0 nothing, 1 a Call, 2 a Reply, 3 Settle, 4 Dirty, 5 DirtyOk, 6 DirtyNo, 7 Clean, 8 bytes that
    /// are no item's. What a kind doesn't have is 0.
    pub kind: u32,
    /// How many references the value of a Call or a Reply has, repeats and agents' included.
    pub references: u32,
    /// The method of a Call, the status of a Reply.
    pub method: u32,
    /// Its number among the items of the session.
    pub item: u64,
    /// The number of a Call's or a Reply's call, or of the item that a Settle names.
    pub number: u64,
    /// The index of a Call's target, or of the object that another note names.
    pub index: u64,
}

/// The version of the library's functions that this crate was written for. A library of another one makes no space.
///
/// ```
/// assert_eq!(masttomato_sys::VERSION, 4);
/// ```
pub const VERSION: u32 = 4;

/// The version of the functions of the library that is linked; the stand-in's is [`VERSION`].
///
/// ```
/// assert_eq!(masttomato_sys::version(), masttomato_sys::VERSION);
/// ```
pub fn version() -> u32 {
    #[cfg(nob_host_library)]
    return library::version();
    #[cfg(not(nob_host_library))]
    VERSION
}

/// What a call answered: a status, and what it told.
///
/// ```
/// # use masttomato_sys::{Answered, Handle};
/// # let mut handle = Handle::new(1, 2, 8, 16)?;
/// let (status, told): Answered = handle.export();
/// assert_eq!((status, told.index), (0, 1));
/// # Ok::<(), u32>(())
/// ```
pub type Answered = (u32, Told);
