//! What goes over a connection: a hello each way, and then records.

use super::Misbehaved;
use crate::space::{SpaceId, World};
use std::fmt;

/// How long a hello is.
///
/// ```
/// # use masttomato::engine::*;
/// # use masttomato::SpaceId;
/// # let [one, two] = [1, 2].map(|number| SpaceId::new(number).expect("1 to 32"));
/// # let world = World::named("shop");
/// # let hello = Hello { space: one, spaces: two, world, life: Life::only(7), window: WINDOW, refused: None };
/// assert_eq!(hello.to_bytes().len(), HELLO);
/// # Ok::<(), Why>(())
/// ```
pub const HELLO: usize = 64;
/// The head of a record.
pub(crate) const HEAD: usize = 16;
/// The header of a frame.
const FRAME_HEADER: usize = 32;
/// The longest body: as many frames as a peer may have to acknowledge, each as long as one can be.
///
/// ```
/// # use masttomato::engine::*;
/// # use masttomato::SpaceId;
/// assert_eq!(LONGEST_BODY, 64 * (32 + 16_384));
/// ```
pub const LONGEST_BODY: usize = 64 * 16_416;

const MARK: [u8; 4] = *b"NOBN";
// The fourth, since a hello says its window: one of the third has none there.
const VERSION: u16 = 4;

/// The window of the sessions of each member: so many items may be given at once.
///
/// ```
/// # use masttomato::engine::*;
/// assert_eq!(WINDOW, 64);
/// ```
pub const WINDOW: u8 = 64;

/// Which life of a space a process has. One that keeps [bounds](crate::space::Bounds) counts them, and comes back under its
/// number; a number without bounds has one life alone. See [`Hello`].
///
/// ```
/// # use masttomato::engine::*;
/// # use masttomato::{SpaceId, Value};
/// # use std::time::Duration;
/// # let [one, two] = [1, 2].map(|number| SpaceId::new(number).expect("1 to 32"));
/// # let now = Duration::ZERO;
/// # let mut engine = Engine::new(Settings::new(one, two), now)?;
/// engine.connected(two, Life { number: 1, process: 12 }, now)?;
/// engine.disconnected(two, now);
/// engine.connected(two, Life { number: 1, process: 12 }, now)?;         // the same one, over another connection
/// engine.connected(two, Life { number: 2, process: 13 }, now)?;         // the next one
/// assert_eq!(engine.session(two), Session::Closed(masttomato::Reason::PeerClosed));
/// let older = engine.connected(two, Life { number: 1, process: 12 }, now);
/// assert_eq!(older, Err(Why::OldLife));
/// # Ok::<(), Box<dyn std::error::Error>>(())
/// ```
#[derive(Clone, Copy, Debug, PartialEq, Eq, Hash)]
pub struct Life {
    /// Its number among the lives of its space, from 1 on, and 0 where no other follows it.
    pub number: u64,
    /// A random number of its process.
    pub process: u64,
}

impl Life {
    /// The life of a process that keeps no bounds: the only one of its number.
    ///
    /// ```
    /// # use masttomato::engine::Life;
    /// assert_eq!(Life::only(12), Life { number: 0, process: 12 });
    /// ```
    pub const fn only(process: u64) -> Life {
        Life { number: 0, process }
    }

    /// Whether this life comes after one that is known, and isn't that one.
    ///
    /// ```
    /// # use masttomato::engine::{Life, Why};
    /// let second = Life { number: 2, process: 12 };
    /// assert_eq!(second.follows(second), Ok(false));
    /// assert_eq!(Life { number: 3, process: 13 }.follows(second), Ok(true));
    /// assert_eq!(Life { number: 1, process: 11 }.follows(second), Err(Why::OldLife));
    /// // Two processes at once have the same bounds, or an older copy of them was put back.
    /// assert_eq!(Life { number: 2, process: 13 }.follows(second), Err(Why::NumberUsed));
    /// assert_eq!(second.follows(Life::only(11)), Err(Why::NumberUsed));
    /// ```
    ///
    /// # Errors
    /// `NumberUsed` where both are the first of their processes under this number, or either has no number;
    /// `OldLife` where this one is before the one that is known.
    pub fn follows(self, known: Life) -> Result<bool, Why> {
        match () {
            () if self == known => Ok(false),
            () if self.number == known.number || known.number == 0 => Err(Why::NumberUsed),
            () if self.number == 0 => Err(Why::NumberUsed),
            () if self.number < known.number => Err(Why::OldLife),
            () => Ok(true),
        }
    }
}

/// Why a hello was refused: see [`Hello`].
///
/// ```
/// # use masttomato::engine::*;
/// # use masttomato::SpaceId;
/// # let [one, two] = [1, 2].map(|number| SpaceId::new(number).expect("1 to 32"));
/// # let world = World::named("shop");
/// # let hello = Hello { space: one, spaces: two, world, life: Life::only(7), window: WINDOW, refused: None };
/// let other = Hello { space: two, world: World::named("bank"), ..hello };
/// let why = hello.judge(&other).unwrap_err();
/// assert_eq!((why, why.to_string()), (Why::OtherWorld, "it is of another world".into()));
/// # Ok::<(), Why>(())
/// ```
#[derive(Clone, Copy, Debug, PartialEq, Eq, Hash)]
#[non_exhaustive]
pub enum Why {
    /// It is no hello.
    NoHello,
    /// It is from another world.
    OtherWorld,
    /// It counts another number of spaces.
    OtherSpaces,
    /// It says a number that isn't expected there, or this node's own.
    OtherNumber,
    /// Another process has used that number, and this one doesn't come back under it: it has no bounds, or not that
    /// one's.
    NumberUsed,
    /// A later life of that number is known.
    OldLife,
    /// It is a hello of another version.
    OtherVersion,
    /// Its sessions have another window.
    OtherWindow,
    /// It doesn't show who it is, where nodes show certificates.
    Certificate(Flaw),
}

/// What is wrong with the certificate of who is at the other end of a connection, or with how it is shown: see
/// [`Why::Certificate`].
///
/// ```
/// use masttomato::Why;
/// use masttomato::engine::Flaw;
///
/// let why = Why::Certificate(Flaw::Expired);
/// assert_eq!(why.to_string(), "its certificate has expired");
/// ```
#[derive(Clone, Copy, Debug, PartialEq, Eq, Hash)]
#[non_exhaustive]
pub enum Flaw {
    /// It doesn't speak TLS 1.3.
    NoTls,
    /// It shows none.
    Missing,
    /// Another authority than this world's has signed it, or nobody but itself.
    OtherAuthority,
    /// It has expired.
    Expired,
    /// It isn't valid yet.
    NotYet,
    /// It stands on this node's list of those that aren't taken any more.
    Revoked,
    /// It doesn't name the space that it is shown for, or is of another world.
    OtherName,
    /// It is no certificate of a node: an authority's own, or for other uses, or broken.
    Unfit,
    /// The other end refuses this node's, and says in its own report why.
    Refused,
    /// It took too long to show it.
    Late,
    /// The connection broke before.
    Broken,
}

impl fmt::Display for Flaw {
    fn fmt(&self, f: &mut fmt::Formatter<'_>) -> fmt::Result {
        f.write_str(match self {
            Flaw::NoTls => "it doesn't speak TLS 1.3",
            Flaw::Missing => "it shows no certificate",
            Flaw::OtherAuthority => "its certificate isn't signed by this world's authority",
            Flaw::Expired => "its certificate has expired",
            Flaw::NotYet => "its certificate isn't valid yet",
            Flaw::Revoked => "its certificate was revoked",
            Flaw::OtherName => "its certificate doesn't name this space of this world",
            Flaw::Unfit => {
                "its certificate is none of a node: an authority's own, or for other uses"
            }
            Flaw::Refused => "it doesn't take this node's certificate; its own report says why",
            Flaw::Late => "it didn't show in time who it is",
            Flaw::Broken => "it broke the connection off before it had shown who it is",
        })
    }
}

impl std::error::Error for Flaw {}

impl Why {
    const ALL: [Why; 9] = [
        Why::NoHello,
        Why::OtherWorld,
        Why::OtherSpaces,
        Why::OtherNumber,
        Why::NumberUsed,
        Why::OldLife,
        Why::OtherVersion,
        Why::Certificate(Flaw::OtherName),
        Why::OtherWindow,
    ];

    // A hello says of certificates alone that it isn't the right one.
    fn number(self) -> u8 {
        let said = match self {
            Why::Certificate(_) => Why::Certificate(Flaw::OtherName),
            why => why,
        };
        Why::ALL.iter().position(|why| *why == said).map_or(0, |place| place as u8 + 1)
    }
}

impl fmt::Display for Why {
    fn fmt(&self, f: &mut fmt::Formatter<'_>) -> fmt::Result {
        f.write_str(match self {
            Why::Certificate(flaw) => return flaw.fmt(f),
            Why::NoHello => "it said no hello",
            Why::OtherWorld => "it is of another world",
            Why::OtherSpaces => "it counts another number of spaces",
            Why::OtherNumber => "it has a number that isn't expected there",
            Why::NumberUsed => {
                "its number was used by an earlier life: a process that starts again takes the next number, or keeps bounds and comes back"
            }
            Why::OldLife => "a later life of its number is known: an older process, or an older copy of its bounds",
            Why::OtherVersion => "it says hello in another version: both must be of releases whose hellos have version 4",
            Why::OtherWindow => "its sessions have another window: each member gives up to 64 items at once",
        })
    }
}

impl std::error::Error for Why {}

/// The first thing that either side of a connection says.
///
/// ```
/// use masttomato::engine::{Hello, Life, WINDOW, Why, World};
/// use masttomato::SpaceId;
///
/// # fn main() -> Result<(), Box<dyn std::error::Error>> {
/// let [one, two] = [SpaceId::try_from(1)?, SpaceId::try_from(2)?];
/// let world = World::named("shop");
/// let own = Hello { space: one, spaces: two, world, life: Life::only(7), window: WINDOW, refused: None };
/// let came = Hello { space: two, life: Life::only(8), ..own }.to_bytes();
/// let peer = Hello::from_bytes(&came)?;
/// own.judge(&peer)?;
/// assert_eq!(own.judge(&Hello { world: World::named("bank"), ..peer }), Err(Why::OtherWorld));
/// # Ok(())
/// # }
/// ```
#[derive(Clone, Copy, Debug, PartialEq, Eq, Hash)]
pub struct Hello {
    /// Who says it.
    pub space: SpaceId,
    /// How many spaces it counts.
    pub spaces: SpaceId,
    /// Which world it is of.
    pub world: World,
    /// Which life says it.
    pub life: Life,
    /// How many items it gives at once.
    pub window: u8,
    /// Where it answers a hello that it refuses: why.
    pub refused: Option<Why>,
}

impl Hello {
    /// The bytes that spell it.
    ///
    /// ```
    /// # use masttomato::engine::*;
    /// # use masttomato::SpaceId;
    /// # let [one, two] = [1, 2].map(|number| SpaceId::new(number).expect("1 to 32"));
    /// # let world = World::named("shop");
    /// # let hello = Hello { space: one, spaces: two, world, life: Life::only(7), window: WINDOW, refused: None };
    /// assert!(hello.to_bytes().starts_with(b"NOBN"));
    /// # Ok::<(), Why>(())
    /// ```
    pub fn to_bytes(&self) -> [u8; HELLO] {
        let mut bytes = [0; HELLO];
        let mut put =
            |place: usize, part: &[u8]| bytes[place..place + part.len()].copy_from_slice(part);
        put(0, &MARK);
        put(4, &VERSION.to_be_bytes());
        put(6, &self.space.get().to_be_bytes());
        put(8, &self.spaces.get().to_be_bytes());
        put(10, &[self.refused.map_or(0, Why::number), self.window]);
        put(12, &self.world.0);
        put(28, &self.life.process.to_be_bytes());
        put(36, &self.life.number.to_be_bytes());
        bytes
    }

    /// The hello that these bytes spell.
    ///
    /// ```
    /// # use masttomato::engine::*;
    /// # use masttomato::SpaceId;
    /// # let [one, two] = [1, 2].map(|number| SpaceId::new(number).expect("1 to 32"));
    /// # let world = World::named("shop");
    /// # let hello = Hello { space: one, spaces: two, world, life: Life::only(7), window: WINDOW, refused: None };
    /// assert_eq!(Hello::from_bytes(&hello.to_bytes())?, hello);
    /// assert_eq!(Hello::from_bytes(&[0; HELLO]), Err(Why::NoHello));
    /// # Ok::<(), Why>(())
    /// ```
    ///
    /// # Errors
    /// `NoHello` where they spell none, `OtherVersion` where they spell one of another version.
    pub fn from_bytes(bytes: &[u8; HELLO]) -> Result<Hello, Why> {
        let u16_at = |place: usize| u16::from_be_bytes([bytes[place], bytes[place + 1]]);
        let u64_at = |place: usize| {
            bytes[place..].first_chunk().map_or(0, |bytes| u64::from_be_bytes(*bytes))
        };
        if bytes[..4] != MARK {
            return Err(Why::NoHello);
        }
        if u16_at(4) != VERSION {
            return Err(Why::OtherVersion);
        }
        let (space, spaces) = (SpaceId::new(u16_at(6)), SpaceId::new(u16_at(8)));
        let (Some(space), Some(spaces)) = (space, spaces) else { return Err(Why::NoHello) };
        let is_refusal = usize::from(bytes[10]) <= Why::ALL.len();
        if bytes[44..] != [0; 20] || !is_refusal {
            return Err(Why::NoHello);
        }
        let world = World(*bytes[12..].first_chunk().ok_or(Why::NoHello)?);
        let refused = usize::from(bytes[10]).checked_sub(1).map(|place| Why::ALL[place]);
        let life = Life { number: u64_at(36), process: u64_at(28) };
        Ok(Hello { space, spaces, world, life, window: bytes[11], refused })
    }

    /// Whether a peer's hello goes with this one.
    ///
    /// ```
    /// # use masttomato::engine::*;
    /// # use masttomato::SpaceId;
    /// # let [one, two] = [1, 2].map(|number| SpaceId::new(number).expect("1 to 32"));
    /// # let world = World::named("shop");
    /// # let hello = Hello { space: one, spaces: two, world, life: Life::only(7), window: WINDOW, refused: None };
    /// hello.judge(&Hello { space: two, life: Life::only(8), ..hello })?;
    /// assert_eq!(hello.judge(&hello), Err(Why::OtherNumber));
    /// # Ok::<(), Why>(())
    /// ```
    ///
    /// # Errors
    /// Why it doesn't.
    pub fn judge(&self, peer: &Hello) -> Result<(), Why> {
        match () {
            () if peer.world != self.world => Err(Why::OtherWorld),
            () if peer.spaces != self.spaces => Err(Why::OtherSpaces),
            () if peer.space == self.space || peer.space > self.spaces => Err(Why::OtherNumber),
            () if peer.window != self.window => Err(Why::OtherWindow),
            () => Ok(()),
        }
    }
}

/// What a record is for.
#[derive(Clone, Copy, Debug, PartialEq, Eq)]
pub(crate) enum Kind {
    Frames,
    Ping,
    Pong,
    Bye,
}

/// Puts a record's head behind other bytes; its body, of this length, is to follow.
pub(crate) fn put_head(out: &mut Vec<u8>, kind: Kind, stamp: u64, length: usize) {
    let mut head = [0; HEAD];
    head[..4].copy_from_slice(&(length as u32).to_be_bytes());
    head[4] = kind as u8;
    head[8..].copy_from_slice(&stamp.to_be_bytes());
    out.extend_from_slice(&head);
}

/// The record at the front of some bytes: what it is for, its stamp, and how long its body is. `None`
/// where its head isn't all there.
pub(crate) fn head_of(bytes: &[u8]) -> Result<Option<(Kind, u64, usize)>, Misbehaved> {
    let Some(head) = bytes.first_chunk::<HEAD>() else { return Ok(None) };
    let [a, b, c, d, kind, 0, 0, 0, stamp @ ..] = *head else { return Err(Misbehaved::NoRecord) };
    let length = u32::from_be_bytes([a, b, c, d]) as usize;
    let kind = match kind {
        0 => Kind::Frames,
        1 => Kind::Ping,
        2 => Kind::Pong,
        3 => Kind::Bye,
        _ => return Err(Misbehaved::NoRecord),
    };
    let longest = if kind == Kind::Frames { LONGEST_BODY } else { 0 };
    if length > longest {
        return Err(Misbehaved::LongRecord);
    }
    Ok(Some((kind, u64::from_be_bytes(stamp), length)))
}

/// Whether each frame of a record's body comes from the peer whose connection this is, goes to this
/// space, and is all there. What the spaces promise rests on it: a space that is told a frame in
/// another's name acts on it. So nothing of a record comes to the space before all of it was checked.
pub(crate) fn check_frames(body: &[u8], from: SpaceId, to: SpaceId) -> Result<(), Misbehaved> {
    let mut left = body;
    while !left.is_empty() {
        let header = left.first_chunk::<FRAME_HEADER>().ok_or(Misbehaved::CutFrame)?;
        if header[4..6] != from.get().to_be_bytes() {
            return Err(Misbehaved::OtherSender);
        }
        if header[6..8] != to.get().to_be_bytes() {
            return Err(Misbehaved::OtherReceiver);
        }
        left = left.get(frame_length(header)..).ok_or(Misbehaved::CutFrame)?;
    }
    Ok(())
}

fn frame_length(header: &[u8; FRAME_HEADER]) -> usize {
    FRAME_HEADER + u32::from_be_bytes([header[24], header[25], header[26], header[27]]) as usize
}

/// The frames of a body that was checked, each with what can be seen of it from outside.
pub(crate) fn frames_of(body: &[u8]) -> impl Iterator<Item = Seen<'_>> {
    let mut left = body;
    std::iter::from_fn(move || {
        let header = left.first_chunk::<FRAME_HEADER>()?;
        let (bytes, rest) = left.split_at_checked(frame_length(header))?;
        left = rest;
        Some(Seen { bytes })
    })
}

/// A frame, and what can be seen of it.
#[derive(Clone, Copy, Debug)]
pub(crate) struct Seen<'a> {
    pub(crate) bytes: &'a [u8],
}

impl Seen<'_> {
    pub(crate) fn is_data(&self) -> bool {
        self.bytes[2] == 1
    }

    /// The number of the session that its sender's end was in.
    pub(crate) fn session(&self) -> u32 {
        let bytes = self.bytes[28..FRAME_HEADER].first_chunk();
        bytes.map_or(0, |bytes| u32::from_be_bytes(*bytes))
    }

    pub(crate) fn seq(&self) -> u64 {
        self.u64_at(8)
    }

    pub(crate) fn ack(&self) -> u64 {
        self.u64_at(16)
    }

    /// What kind of item it carries.
    pub(crate) fn item(&self) -> ItemKind {
        let number = || self.u64_at(FRAME_HEADER + 1);
        let length = self.bytes.len().saturating_sub(FRAME_HEADER);
        match self.bytes.get(FRAME_HEADER) {
            Some(1) if length >= CALL => {
                let target = self.u64_at(FRAME_HEADER + 9);
                ItemKind::Call { call: number(), target, may_refer: length >= CALL + REFERENCE }
            }
            Some(2) if length >= REPLY => {
                ItemKind::Reply { call: number(), may_refer: length >= REPLY + REFERENCE }
            }
            Some(3) => ItemKind::Settle,
            Some(4) => ItemKind::Dirty,
            Some(5) => ItemKind::Granted,
            Some(6) => ItemKind::Refused,
            Some(7) => ItemKind::Clean,
            _ => ItemKind::Other,
        }
    }

    fn u64_at(&self, place: usize) -> u64 {
        let bytes = self.bytes[place..].first_chunk::<8>();
        bytes.map_or(0, |bytes| u64::from_be_bytes(*bytes))
    }
}

/// So long a call and a reply are in front of their pickles, and so long is a reference in a pickle.
const CALL: usize = 19;
const REPLY: usize = 10;
const REFERENCE: usize = 11;

/// What an item is, as far as an engine must know.
#[derive(Clone, Copy, Debug, PartialEq, Eq)]
pub(crate) enum ItemKind {
    /// The call of this number among those of its sender, of the object of this index; and whether its value is long
    /// enough for a reference.
    Call {
        call: u64,
        target: u64,
        may_refer: bool,
    },
    /// The reply to the call of this number.
    Reply {
        call: u64,
        may_refer: bool,
    },
    /// That the references of a call or a reply have arrived.
    Settle,
    /// That its sender wants to be listed for an object.
    Dirty,
    /// That the peer is listed, or isn't.
    Granted,
    Refused,
    /// That its sender gives an object up.
    Clean,
    /// What is none of these.
    Other,
}

#[cfg(test)]
mod tests {
    use super::*;

    fn id(number: u16) -> SpaceId {
        SpaceId::new(number).expect("a space")
    }

    // A Clean of 5 from one space to another.
    fn frame(from: u8, to: u8) -> Vec<u8> {
        let mut bytes = vec![0x4e, 2, 1, 0, 0, from, 0, to];
        bytes.extend([0, 0, 0, 0, 0, 0, 0, 1, 0, 0, 0, 0, 0, 0, 0, 1, 0, 0, 0, 9, 0, 0, 0, 1]);
        bytes.extend([7, 0, 0, 0, 0, 0, 0, 0, 5]);
        bytes
    }

    #[test]
    fn frames_of_the_peer_for_this_space_pass() {
        let two = [frame(2, 1), frame(2, 1)].concat();
        assert_eq!(check_frames(&two, id(2), id(1)), Ok(()));
        assert_eq!(check_frames(&[], id(2), id(1)), Ok(()));
        assert_eq!(frames_of(&two).map(|seen| seen.bytes.len()).collect::<Vec<_>>(), [41, 41]);
        assert_eq!(frames_of(&two).map(|seen| seen.session()).collect::<Vec<_>>(), [1, 1]);
    }

    #[test]
    fn a_frame_in_anothers_name_stops_the_record() {
        let second = [frame(2, 1), frame(3, 1)].concat();
        assert_eq!(check_frames(&second, id(2), id(1)), Err(Misbehaved::OtherSender));
        let elsewhere = [frame(2, 1), frame(2, 3)].concat();
        assert_eq!(check_frames(&elsewhere, id(2), id(1)), Err(Misbehaved::OtherReceiver));
    }

    #[test]
    fn a_record_that_cuts_a_frame_is_refused_wherever_it_is_cut() {
        let two = [frame(2, 1), frame(2, 1)].concat();
        for end in (1..two.len()).filter(|end| *end != 41) {
            assert_eq!(check_frames(&two[..end], id(2), id(1)), Err(Misbehaved::CutFrame), "{end}");
        }
    }

    #[test]
    fn a_hello_is_read_as_it_was_said_and_nothing_else_is() {
        let said = Hello {
            space: id(3),
            spaces: id(8),
            world: World::named("a world of tests"),
            life: Life { number: 7, process: 77 },
            window: WINDOW,
            refused: Some(Why::OtherWindow),
        };
        let bytes = said.to_bytes();
        assert_eq!(Hello::from_bytes(&bytes), Ok(said));
        for place in (0..6).chain([7, 8, 10, 44, 63]) {
            let mut other = bytes;
            other[place] ^= 0x60;
            let why = if [4, 5].contains(&place) { Why::OtherVersion } else { Why::NoHello };
            assert_eq!(Hello::from_bytes(&other), Err(why), "{place}");
        }
        let narrow = Hello { space: id(2), window: 8, refused: None, ..said };
        let read = Hello::from_bytes(&narrow.to_bytes()).expect("a hello");
        assert_eq!((read, said.judge(&read)), (narrow, Err(Why::OtherWindow)));
    }

    #[test]
    fn only_heads_of_records_are_taken() {
        let mut bytes = Vec::new();
        put_head(&mut bytes, Kind::Frames, 7, 41);
        assert_eq!(head_of(&bytes), Ok(Some((Kind::Frames, 7, 41))));
        assert_eq!(head_of(&bytes[..15]), Ok(None));
        for (place, byte) in [(4, 4), (5, 1), (7, 1)] {
            let mut other = bytes.clone();
            other[place] = byte;
            assert_eq!(head_of(&other), Err(Misbehaved::NoRecord));
        }
        bytes[0] = 1;
        assert_eq!(head_of(&bytes), Err(Misbehaved::LongRecord));
    }
}
