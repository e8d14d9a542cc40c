//! Frames: what spaces give to be carried to other spaces, as bytes.

use super::hex::Hex;
use super::names::{Reason, SpaceId};
use std::fmt;
use std::io::{self, Read};

/// A header is so long, and a payload at most so long.
const HEADER: usize = 32;
const LONGEST_PAYLOAD: usize = 16_384;
/// The greatest number of an item.
const LAST_ITEM: u64 = 1 << 40;

/// What a frame is for: see [`Frame`].
///
/// ```
/// # use masttomato::space::*;
/// # fn carry(from: &mut Space, to: &mut Space) -> Result<(), SpaceError> {
/// #     for frame in from.transmit(to.id())?.iter() {
/// #         to.arrive(&frame)?;
/// #     }
/// #     while to.act(from.id()).is_ok() || to.settle().is_ok() || to.clean().is_ok() {}
/// #     Ok(())
/// # }
/// # let [one, two] = [1, 2].map(|number| SpaceId::new(number).expect("1 to 32"));
/// # let mut caller = Space::new(one, two, Limits::default())?;
/// # let mut owner = Space::new(two, two, Limits::default())?;
/// assert!(caller.transmit(two)?.is_empty());
/// caller.call(two.agent(), 0, &Value::Unit)?;
/// let kind = |frames: Frames| frames.iter().next().map(|frame| frame.kind());
/// assert_eq!(kind(caller.transmit(two)?), Some(FrameKind::Data));
/// carry(&mut caller, &mut owner)?;
/// assert_eq!(kind(owner.transmit(one)?), Some(FrameKind::Ack));
/// caller.close(two)?;
/// assert_eq!(kind(caller.transmit(two)?), Some(FrameKind::Close));
/// # Ok::<(), SpaceError>(())
/// ```
#[derive(Clone, Copy, Debug, PartialEq, Eq, Hash)]
#[non_exhaustive]
pub enum FrameKind {
    /// It carries one item.
    Data,
    /// It carries an acknowledgement alone.
    Ack,
    /// It says that its sender's end has closed, and why.
    Close,
}

/// Why bytes are no frame: see [`Frame::from_bytes`].
///
/// ```
/// # use masttomato::space::*;
/// assert_eq!(Frame::from_bytes(vec![0x4e, 2]), Err(FrameFault::Short));
/// assert_eq!(Frame::from_bytes(vec![0; 32]), Err(FrameFault::Magic));
/// assert_eq!(FrameFault::Magic.to_string(), "F2: the first byte isn't 4e");
/// ```
#[derive(Clone, Copy, Debug, PartialEq, Eq, Hash)]
#[non_exhaustive]
pub enum FrameFault {
    /// F1: the header or the payload isn't all there.
    Short,
    /// F2: the first byte isn't a frame's.
    Magic,
    /// F3: the version isn't 2.
    Version,
    /// F4: the kind is none of the three.
    Kind,
    /// F5: a flag is set.
    Flags,
    /// F6: one of the two spaces is outside 1 to 32, or they are one.
    Spaces,
    /// F7: the number of the item is outside 1 to 2^40, or isn't 0 in a frame without an item.
    Seq,
    /// F8: the acknowledgement is outside 1 to 2^40 + 1.
    Ack,
    /// F9: the payload is longer or shorter than the kind allows.
    Length,
    /// F10: the reason of a close is outside 1 to 6.
    Reason,
    /// F11: bytes stand after the frame.
    Trailing,
    /// F12: the number of the session is 0. It is judged behind F9.
    Session,
}

impl FrameFault {
    /// All faults, F1 to F12.
    ///
    /// ```
    /// # use masttomato::space::*;
    /// assert!(FrameFault::ALL.iter().zip(1..).all(|(fault, n)| fault.to_string().starts_with(&format!("F{n}:"))));
    /// ```
    pub const ALL: [FrameFault; 12] = [
        FrameFault::Short,
        FrameFault::Magic,
        FrameFault::Version,
        FrameFault::Kind,
        FrameFault::Flags,
        FrameFault::Spaces,
        FrameFault::Seq,
        FrameFault::Ack,
        FrameFault::Length,
        FrameFault::Reason,
        FrameFault::Trailing,
        FrameFault::Session,
    ];
}

impl fmt::Display for FrameFault {
    fn fmt(&self, f: &mut fmt::Formatter<'_>) -> fmt::Result {
        f.write_str(match self {
            FrameFault::Short => "F1: the frame isn't all there",
            FrameFault::Magic => "F2: the first byte isn't 4e",
            FrameFault::Version => "F3: an unknown version",
            FrameFault::Kind => "F4: an unknown kind",
            FrameFault::Flags => "F5: a flag is set",
            FrameFault::Spaces => "F6: not two spaces",
            FrameFault::Seq => "F7: the item's number is out of range",
            FrameFault::Ack => "F8: the acknowledgement is out of range",
            FrameFault::Length => "F9: the payload's length is out of range",
            FrameFault::Reason => "F10: an unknown reason",
            FrameFault::Trailing => "F11: bytes after the frame",
            FrameFault::Session => "F12: the session's number is out of range",
        })
    }
}

impl std::error::Error for FrameFault {}

/// A frame: bytes that spell one. Its text is these bytes in lower case hexadecimal.
///
/// ```
/// use masttomato::space::{FrameKind, Limits, Space, SpaceError, SpaceId, Value};
///
/// # fn main() -> Result<(), SpaceError> {
/// # let [first, second] = [1, 2].map(|number| SpaceId::new(number).expect("a space"));
/// let mut space = Space::new(first, second, Limits::default())?;
/// space.call(second.agent(), 0, &Value::Unit)?;
/// let frames = space.transmit(second)?;
/// let frame = frames.iter().next().expect("one item");
/// assert_eq!((frame.kind(), frame.from(), frame.to()), (FrameKind::Data, first, second));
/// assert_eq!((frame.session(), frame.seq(), frame.ack()), (1, 1, 1));
/// # Ok(())
/// # }
/// ```
#[derive(Clone, Debug, PartialEq, Eq, Hash)]
pub struct Frame {
    bytes: Vec<u8>,
}

impl Frame {
    /// The frame that all of these bytes spell.
    ///
    /// ```
    /// # use masttomato::space::{Frame, FrameFault};
    /// let bytes = [&[0x4e, 2, 2, 0, 0, 1, 0, 2][..], &[0; 15], &[1], &[0; 4], &[0, 0, 0, 9]].concat();
    /// assert_eq!(Frame::from_bytes(bytes.clone())?.session(), 9);
    /// assert_eq!(Frame::from_bytes(bytes[..31].to_vec()), Err(FrameFault::Short));
    /// # Ok::<(), FrameFault>(())
    /// ```
    ///
    /// # Errors
    /// The first that they are refused for, of F1 to F9, F12, F1 of the payload, F10 and F11.
    pub fn from_bytes(bytes: Vec<u8>) -> Result<Frame, FrameFault> {
        let header = bytes.first_chunk().ok_or(FrameFault::Short)?;
        let end = HEADER + judge_header(header)?;
        let payload = bytes.get(HEADER..end).ok_or(FrameFault::Short)?;
        judge_payload(header, payload)?;
        if bytes.len() > end {
            return Err(FrameFault::Trailing);
        }
        Ok(Frame { bytes })
    }

    /// The next frame of a stream on which frames stand one after the other: `None` where the
    /// stream ends before one begins.
    ///
    /// ```
    /// # use masttomato::space::Frame;
    /// # fn main() -> std::io::Result<()> {
    /// let bytes = [&[0x4e, 2, 2, 0, 0, 1, 0, 2][..], &[0; 15], &[1], &[0; 4], &[0, 0, 0, 1]].concat();
    /// let mut stream = &bytes[..];
    /// assert!(Frame::read_from(&mut stream)?.is_some());
    /// assert!(Frame::read_from(&mut stream)?.is_none());
    /// # Ok(())
    /// # }
    /// ```
    ///
    /// # Errors
    /// Those of the stream; one of kind `InvalidData`, with the [`FrameFault`], where it has other bytes.
    pub fn read_from(mut stream: impl Read) -> io::Result<Option<Frame>> {
        let mut header = [0; HEADER];
        if !fill_or_end(&mut stream, &mut header)? {
            return Ok(None);
        }
        let length = judge_header(&header).map_err(invalid)?;
        let mut bytes = vec![0; HEADER + length];
        bytes[..HEADER].copy_from_slice(&header);
        stream.read_exact(&mut bytes[HEADER..])?;
        judge_payload(&header, &bytes[HEADER..]).map_err(invalid)?;
        Ok(Some(Frame { bytes }))
    }

    /// The bytes that spell the frame.
    ///
    /// ```
    /// # use masttomato::space::*;
    /// # let [one, two] = [1, 2].map(|number| SpaceId::new(number).expect("1 to 32"));
    /// # let mut space = Space::new(one, two, Limits::default())?;
    /// # space.call(two.agent(), 0, &Value::Unit)?;
    /// # let frames = space.transmit(two)?;
    /// # let frame = frames.iter().next().expect("one");
    /// assert_eq!(frame.as_bytes()[..3], [0x4e, 2, 1]);
    /// # Ok::<(), SpaceError>(())
    /// ```
    pub fn as_bytes(&self) -> &[u8] {
        &self.bytes
    }

    /// The bytes that spell the frame.
    ///
    /// ```
    /// # use masttomato::space::*;
    /// # let [one, two] = [1, 2].map(|number| SpaceId::new(number).expect("1 to 32"));
    /// # let mut space = Space::new(one, two, Limits::default())?;
    /// # space.call(two.agent(), 0, &Value::Unit)?;
    /// # let frames = space.transmit(two)?;
    /// # let frame = frames.iter().next().expect("one");
    /// let bytes = frame.clone().into_bytes();
    /// assert_eq!(Frame::from_bytes(bytes), Ok(frame));
    /// # Ok::<(), SpaceError>(())
    /// ```
    pub fn into_bytes(self) -> Vec<u8> {
        self.bytes
    }

    /// What the frame is for.
    ///
    /// ```
    /// # use masttomato::space::*;
    /// # let [one, two] = [1, 2].map(|number| SpaceId::new(number).expect("1 to 32"));
    /// # let mut space = Space::new(one, two, Limits::default())?;
    /// # space.call(two.agent(), 0, &Value::Unit)?;
    /// # let frames = space.transmit(two)?;
    /// # let frame = frames.iter().next().expect("one");
    /// assert_eq!(frame.kind(), FrameKind::Data);
    /// # Ok::<(), SpaceError>(())
    /// ```
    pub fn kind(&self) -> FrameKind {
        match self.bytes[2] {
            1 => FrameKind::Data,
            2 => FrameKind::Ack,
            _ => FrameKind::Close,
        }
    }

    /// The space that transmitted it.
    ///
    /// ```
    /// # use masttomato::space::*;
    /// # let [one, two] = [1, 2].map(|number| SpaceId::new(number).expect("1 to 32"));
    /// # let mut space = Space::new(one, two, Limits::default())?;
    /// # space.call(two.agent(), 0, &Value::Unit)?;
    /// # let frames = space.transmit(two)?;
    /// # let frame = frames.iter().next().expect("one");
    /// assert_eq!(frame.from(), space.id());
    /// # Ok::<(), SpaceError>(())
    /// ```
    pub fn from(&self) -> SpaceId {
        self.space_at(4)
    }

    /// The space that it goes to.
    ///
    /// ```
    /// # use masttomato::space::*;
    /// # let [one, two] = [1, 2].map(|number| SpaceId::new(number).expect("1 to 32"));
    /// # let mut space = Space::new(one, two, Limits::default())?;
    /// # space.call(two.agent(), 0, &Value::Unit)?;
    /// # let frames = space.transmit(two)?;
    /// # let frame = frames.iter().next().expect("one");
    /// assert_eq!(frame.to(), two);
    /// # Ok::<(), SpaceError>(())
    /// ```
    pub fn to(&self) -> SpaceId {
        self.space_at(6)
    }

    /// The number of the session that its sender's end was in: 1 until that space [opened](super::Space::open) it
    /// anew.
    ///
    /// ```
    /// # use masttomato::space::*;
    /// # let [one, two] = [1, 2].map(|number| SpaceId::new(number).expect("1 to 32"));
    /// # let mut space = Space::new(one, two, Limits::default())?;
    /// # space.call(two.agent(), 0, &Value::Unit)?;
    /// # let frames = space.transmit(two)?;
    /// # let frame = frames.iter().next().expect("one");
    /// assert_eq!(frame.session(), 1);
    /// # Ok::<(), SpaceError>(())
    /// ```
    pub fn session(&self) -> u32 {
        u32_at(&self.bytes, 28)
    }

    /// The number of the item that a Data frame carries; 0 in the others.
    ///
    /// ```
    /// # use masttomato::space::*;
    /// # let [one, two] = [1, 2].map(|number| SpaceId::new(number).expect("1 to 32"));
    /// # let mut space = Space::new(one, two, Limits::default())?;
    /// # space.call(two.agent(), 0, &Value::Unit)?;
    /// # let frames = space.transmit(two)?;
    /// # let frame = frames.iter().next().expect("one");
    /// assert_eq!(frame.seq(), 1);                      // it is the first item of all
    /// # Ok::<(), SpaceError>(())
    /// ```
    pub fn seq(&self) -> u64 {
        u64_at(&self.bytes, 8)
    }

    /// The number of the next item that its sender hasn't accepted yet.
    ///
    /// ```
    /// # use masttomato::space::*;
    /// # let [one, two] = [1, 2].map(|number| SpaceId::new(number).expect("1 to 32"));
    /// # let mut space = Space::new(one, two, Limits::default())?;
    /// # space.call(two.agent(), 0, &Value::Unit)?;
    /// # let frames = space.transmit(two)?;
    /// # let frame = frames.iter().next().expect("one");
    /// assert_eq!(frame.ack(), 1);                      // nothing was accepted yet
    /// # Ok::<(), SpaceError>(())
    /// ```
    pub fn ack(&self) -> u64 {
        u64_at(&self.bytes, 16)
    }

    fn space_at(&self, place: usize) -> SpaceId {
        SpaceId::new(u16_at(&self.bytes, place)).expect("the header was judged")
    }
}

impl fmt::Display for Frame {
    fn fmt(&self, f: &mut fmt::Formatter<'_>) -> fmt::Result {
        Hex(&self.bytes).fmt(f)
    }
}

/// The frames that one Transmit gave, in order. They may be none. See [`Space::push`](super::Space::push).
///
/// ```
/// # use masttomato::space::*;
/// # let [one, two] = [1, 2].map(|number| SpaceId::new(number).expect("1 to 32"));
/// # let mut space = Space::new(one, two, Limits::default())?;
/// (0..3).try_for_each(|number| space.call(two.agent(), 0, &Value::Int(number)).map(drop))?;
/// let frames = space.transmit(two)?;
/// assert_eq!(frames.iter().map(|frame| frame.seq()).collect::<Vec<_>>(), [1, 2, 3]);
/// # Ok::<(), SpaceError>(())
/// ```
#[derive(Clone, Debug, Default, PartialEq, Eq, Hash)]
pub struct Frames {
    // They stand one after the other.
    bytes: Vec<u8>,
}

impl Frames {
    // The frames whose bytes the library gave.
    pub(crate) fn from_library(bytes: &[u8]) -> Frames {
        Frames { bytes: bytes.to_vec() }
    }

    /// Whether there is none.
    ///
    /// ```
    /// # use masttomato::space::*;
    /// # let [one, two] = [1, 2].map(|number| SpaceId::new(number).expect("1 to 32"));
    /// # let mut space = Space::new(one, two, Limits::default())?;
    /// assert!(space.transmit(two)?.is_empty());
    /// # Ok::<(), SpaceError>(())
    /// ```
    pub fn is_empty(&self) -> bool {
        self.bytes.is_empty()
    }

    /// The bytes of the frames, one after the other: what a stream of frames is made of.
    ///
    /// ```
    /// # use masttomato::space::*;
    /// # let [one, two] = [1, 2].map(|number| SpaceId::new(number).expect("1 to 32"));
    /// # let mut space = Space::new(one, two, Limits::default())?;
    /// # space.call(two.agent(), 0, &Value::Unit)?;
    /// # let frames = space.transmit(two)?;
    /// # let frame = frames.iter().next().expect("one");
    /// assert_eq!(frames.as_bytes(), frame.as_bytes());          // there is but one
    /// # Ok::<(), SpaceError>(())
    /// ```
    pub fn as_bytes(&self) -> &[u8] {
        &self.bytes
    }

    /// The frames, in order.
    ///
    /// ```
    /// # use masttomato::space::*;
    /// # let [one, two] = [1, 2].map(|number| SpaceId::new(number).expect("1 to 32"));
    /// # let mut space = Space::new(one, two, Limits::default())?;
    /// # space.call(two.agent(), 0, &Value::Unit)?;
    /// # let frames = space.transmit(two)?;
    /// # let frame = frames.iter().next().expect("one");
    /// assert_eq!(frames.iter().count(), 1);
    /// # Ok::<(), SpaceError>(())
    /// ```
    ///
    /// The iterator panics where the library gave other bytes than frames.
    pub fn iter(&self) -> FramesIter<'_> {
        FramesIter { left: &self.bytes }
    }
}

impl<'a> IntoIterator for &'a Frames {
    type Item = Frame;
    type IntoIter = FramesIter<'a>;

    fn into_iter(self) -> FramesIter<'a> {
        self.iter()
    }
}

/// The frames that a Transmit gave, in order: see [`Frames::iter`].
///
/// ```
/// # use masttomato::space::*;
/// # let [one, two] = [1, 2].map(|number| SpaceId::new(number).expect("1 to 32"));
/// # let mut space = Space::new(one, two, Limits::default())?;
/// space.call(two.agent(), 0, &Value::Unit)?;
/// for frame in &space.transmit(two)? {
///     assert_eq!(frame.to(), two);
/// }
/// # Ok::<(), SpaceError>(())
/// ```
#[derive(Clone, Debug)]
#[must_use = "an iterator gives nothing until it is asked"]
pub struct FramesIter<'a> {
    left: &'a [u8],
}

impl Iterator for FramesIter<'_> {
    type Item = Frame;

    fn next(&mut self) -> Option<Frame> {
        Frame::read_from(&mut self.left).expect("whole frames")
    }
}

// How long the payload is behind a header, or the first of F2 to F9 and F12.
fn judge_header(header: &[u8; HEADER]) -> Result<usize, FrameFault> {
    if header[0] != 0x4e {
        return Err(FrameFault::Magic);
    }
    if header[1] != 2 {
        return Err(FrameFault::Version);
    }
    let kind = header[2];
    if !(1..=3).contains(&kind) {
        return Err(FrameFault::Kind);
    }
    if header[3] != 0 {
        return Err(FrameFault::Flags);
    }
    let (from, to) = (SpaceId::new(u16_at(header, 4)), SpaceId::new(u16_at(header, 6)));
    if from.is_none() || to.is_none() || from == to {
        return Err(FrameFault::Spaces);
    }
    let is_data = kind == 1;
    let items = if is_data { 1..=LAST_ITEM } else { 0..=0 };
    if !items.contains(&u64_at(header, 8)) {
        return Err(FrameFault::Seq);
    }
    if !(1..=LAST_ITEM + 1).contains(&u64_at(header, 16)) {
        return Err(FrameFault::Ack);
    }
    let length = u32_at(header, 24) as usize;
    let fits = match kind {
        1 => (1..=LONGEST_PAYLOAD).contains(&length),
        2 => length == 0,
        _ => length == 1,
    };
    match () {
        () if !fits => Err(FrameFault::Length),
        () if u32_at(header, 28) == 0 => Err(FrameFault::Session),
        () => Ok(length),
    }
}

// F10, of a Close.
fn judge_payload(header: &[u8; HEADER], payload: &[u8]) -> Result<(), FrameFault> {
    if header[2] == 3 && Reason::from_number(payload[0]).is_none() {
        return Err(FrameFault::Reason);
    }
    Ok(())
}

/// Who has sent a frame, and in which session, as its header says, before any of it was judged.
pub(super) fn sender_of(bytes: &[u8]) -> Option<(SpaceId, u32)> {
    let header = bytes.first_chunk::<HEADER>()?;
    Some((SpaceId::new(u16_at(header, 4))?, u32_at(header, 28)))
}

// Reads until these bytes are filled: whether a first one came before the stream's end.
fn fill_or_end(stream: &mut impl Read, bytes: &mut [u8]) -> io::Result<bool> {
    let mut filled = 0;
    while filled == 0 {
        match stream.read(bytes) {
            Ok(0) => return Ok(false),
            Ok(count) => filled = count,
            Err(error) if error.kind() == io::ErrorKind::Interrupted => {}
            Err(error) => return Err(error),
        }
    }
    stream.read_exact(&mut bytes[filled..])?;
    Ok(true)
}

fn invalid(fault: FrameFault) -> io::Error {
    io::Error::new(io::ErrorKind::InvalidData, fault)
}

fn u16_at(bytes: &[u8], place: usize) -> u16 {
    u16::from_be_bytes([bytes[place], bytes[place + 1]])
}

fn u32_at(bytes: &[u8], place: usize) -> u32 {
    let mut number = [0; 4];
    number.copy_from_slice(&bytes[place..place + 4]);
    u32::from_be_bytes(number)
}

fn u64_at(bytes: &[u8], place: usize) -> u64 {
    let mut number = [0; 8];
    number.copy_from_slice(&bytes[place..place + 8]);
    u64::from_be_bytes(number)
}
