//! Frames, judged and spelled, and streams of them.

const HEADER: usize = 32;
const LONGEST: usize = 16_384;
const LAST_ITEM: u64 = 1 << 40;

pub(super) const DATA: u8 = 1;
pub(super) const ACK: u8 = 2;
pub(super) const CLOSE: u8 = 3;

/// A frame's fields.
#[derive(Clone, Copy, Debug)]
pub(super) struct Frame<'a> {
    pub(super) kind: u8,
    pub(super) from: u16,
    pub(super) to: u16,
    pub(super) session: u32,
    pub(super) seq: u64,
    pub(super) ack: u64,
    pub(super) payload: &'a [u8],
}

impl Frame<'_> {
    /// Puts the frame behind others.
    pub(super) fn put(&self, out: &mut Vec<u8>) {
        out.extend([0x4e, 2, self.kind, 0]);
        out.extend(self.from.to_be_bytes());
        out.extend(self.to.to_be_bytes());
        out.extend(self.seq.to_be_bytes());
        out.extend(self.ack.to_be_bytes());
        out.extend((self.payload.len() as u32).to_be_bytes());
        out.extend(self.session.to_be_bytes());
        out.extend(self.payload);
    }
}

/// The frame at the front of some bytes and how long it is, or the number of its first fault.
pub(super) fn front(bytes: &[u8]) -> Result<(Frame<'_>, usize), u32> {
    let header = bytes.first_chunk::<HEADER>().ok_or(1_u32)?;
    let u16_at = |place: usize| u16::from_be_bytes([header[place], header[place + 1]]);
    let u64_at =
        |place: usize| header[place..place + 8].iter().fold(0, |n, b| n << 8 | u64::from(*b));
    let (kind, from, to, seq, ack) = (header[2], u16_at(4), u16_at(6), u64_at(8), u64_at(16));
    let (length, session) = ((u64_at(20) & 0xffff_ffff) as usize, u64_at(24) as u32);
    let is_space = |number| (1..=32).contains(&number);
    let faults = [
        (2, header[0] != 0x4e),
        (3, header[1] != 2),
        (4, !(DATA..=CLOSE).contains(&kind)),
        (5, header[3] != 0),
        (6, !is_space(from) || !is_space(to) || from == to),
        (7, if kind == DATA { seq == 0 || seq > LAST_ITEM } else { seq != 0 }),
        (8, ack == 0 || ack > LAST_ITEM + 1),
        (
            9,
            match kind {
                DATA => length == 0 || length > LONGEST,
                ACK => length != 0,
                _ => length != 1,
            },
        ),
        (12, session == 0),
    ];
    if let Some((number, _)) = faults.iter().find(|(_, holds)| *holds) {
        return Err(*number);
    }
    let payload = bytes.get(HEADER..HEADER + length).ok_or(1_u32)?;
    if kind == CLOSE && !(1..=6).contains(&payload[0]) {
        return Err(10);
    }
    Ok((Frame { kind, from, to, session, seq, ack, payload }, HEADER + length))
}

/// The frame that all of these bytes spell, or the number of its first fault.
pub(super) fn whole(bytes: &[u8]) -> Result<Frame<'_>, u32> {
    match front(bytes)? {
        (frame, length) if length == bytes.len() => Ok(frame),
        _ => Err(11),
    }
}

/// What is kept of a stream of frames: bytes that begin with no whole frame, or its fault.
#[derive(Clone, Debug)]
pub(super) struct Feed(Result<Vec<u8>, u32>);

impl Feed {
    pub(super) fn new() -> Feed {
        Feed(Ok(Vec::new()))
    }

    /// The frames that are whole with this piece, or the number of the stream's fault.
    pub(super) fn push(&mut self, piece: &[u8]) -> Result<Vec<Vec<u8>>, u32> {
        let mut kept = self.0.clone()?;
        kept.extend(piece);
        let (mut frames, mut place) = (Vec::new(), 0);
        loop {
            match front(&kept[place..]) {
                Ok((_, length)) => {
                    frames.push(kept[place..place + length].to_vec());
                    place += length;
                }
                Err(1) => break,
                Err(fault) => {
                    self.0 = Err(fault);
                    return Err(fault);
                }
            }
        }
        kept.drain(..place);
        self.0 = Ok(kept);
        Ok(frames)
    }
}
