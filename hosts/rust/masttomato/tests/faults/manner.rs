//! How bytes go one way over a connection: as they come, late, in small pieces, or many at once; up to a byte; with
//! some between them that are none of a node's; or with a bit of one changed.

use crate::Numbers;
use std::collections::VecDeque;
use std::io::{self, ErrorKind, Write};
use std::net::{Shutdown, TcpStream};
use std::thread;
use std::time::{Duration, Instant};

/// So many bytes have the hello of a connection and the head of a record.
const HELLO: usize = 64;
const HEAD: usize = 16;
/// The longest a way waits for what comes, so that it hears of a fault.
const PATIENCE: Duration = Duration::from_millis(20);

/// How bytes go over a connection.
#[derive(Clone, Copy, Debug, Default, PartialEq, Eq)]
pub struct Manner {
    /// Each comes so long after it was sent.
    delay: Duration,
    /// What comes within so long goes together.
    joins: Duration,
    /// They are written so many at once at most, each time as a packet of its own.
    grain: Option<usize>,
}

impl Manner {
    /// Any of them, or as they come.
    pub fn any(numbers: &mut Numbers) -> Manner {
        let mut manner = Manner::default();
        if numbers.below(3) == 0 {
            manner.delay = Duration::from_millis(1 + numbers.below(80));
        }
        match numbers.below(4) {
            0 => manner.joins = Duration::from_millis(1 + numbers.below(50)),
            1 | 2 => manner.grain = Some(1 + numbers.below(40) as usize),
            _ => {}
        }
        manner
    }
}

/// One way of a connection.
pub struct Way {
    to: TcpStream,
    numbers: Numbers,
    manner: Manner,
    /// What is on its way, and when it is to come.
    waiting: VecDeque<(Instant, Vec<u8>)>,
    /// So many more bytes are carried, where that is known.
    left: Option<usize>,
    /// So many bytes of no record are to come behind the next record.
    garbage: Option<usize>,
    /// Behind so many more bytes comes one of which a bit is changed.
    changed: Option<usize>,
    /// Where records end; of what is sealed that can't be seen.
    records: Option<Records>,
    is_silent: bool,
}

impl Way {
    /// A way to this end, on which bytes go as they come.
    pub fn new(to: TcpStream, seed: u64, is_sealed: bool) -> Way {
        Way {
            to,
            numbers: Numbers::new(seed),
            manner: Manner::default(),
            waiting: VecDeque::new(),
            left: None,
            garbage: None,
            changed: None,
            records: (!is_sealed).then(Records::new),
            is_silent: false,
        }
    }

    /// Bytes go so from now on.
    pub fn turns(&mut self, manner: Manner) {
        self.manner = manner;
    }

    /// The connection is cut behind so many more bytes.
    pub fn ends_behind(&mut self, count: usize) {
        self.left = Some(count);
    }

    /// So many bytes that are none of a record come behind the next record, or anywhere.
    pub fn spoils(&mut self, count: usize) {
        self.garbage = Some(count);
    }

    /// A bit is changed behind so many more bytes. Nobody could tell that of what isn't sealed, so that is cut there.
    pub fn changes(&mut self, count: usize) {
        match self.records {
            Some(_) => self.ends_behind(count),
            None => self.changed = Some(count),
        }
    }

    /// The other end is told that nothing comes any more.
    pub fn falls_silent(&mut self) {
        let _was_closed = self.to.shutdown(Shutdown::Write);
        self.is_silent = true;
    }

    /// How long it may be waited for more before what is on its way is due.
    pub fn patience(&self) -> Duration {
        let due = self
            .waiting
            .front()
            .map_or(PATIENCE, |(due, _)| due.saturating_duration_since(Instant::now()));
        due.clamp(Duration::from_millis(1), PATIENCE)
    }

    /// Takes what came, and brings what is due to the other end.
    ///
    /// # Errors
    /// Where the connection is over.
    pub fn carry(&mut self, came: &[u8]) -> io::Result<()> {
        let now = Instant::now();
        if !came.is_empty() {
            let mut bytes = self.spoilt(came);
            self.change(&mut bytes);
            let last = self.waiting.back().map(|(due, _)| *due).filter(|due| *due > now);
            let due = match last {
                // What is being gathered goes together.
                Some(last) if !self.manner.joins.is_zero() => last,
                last => last.unwrap_or(now).max(now + self.manner.delay + self.manner.joins),
            };
            self.waiting.push_back((due, bytes));
        }
        let count = self.waiting.iter().take_while(|(due, _)| *due <= now).count();
        self.bring(count)
    }

    /// Brings what is on its way, since nothing follows.
    ///
    /// # Errors
    /// As of `carry`.
    pub fn bring_all(&mut self) -> io::Result<()> {
        self.bring(self.waiting.len())
    }

    fn bring(&mut self, count: usize) -> io::Result<()> {
        let bytes: Vec<u8> = self.waiting.drain(..count).flat_map(|(_, bytes)| bytes).collect();
        if bytes.is_empty() || self.is_silent { Ok(()) } else { self.write(&bytes) }
    }

    // What comes, with garbage behind its first record that ends, where that is wanted.
    fn spoilt(&mut self, came: &[u8]) -> Vec<u8> {
        let ends = self.records.as_mut().map_or(Some(came.len()), |records| records.end_in(came));
        match (ends, self.garbage) {
            (Some(end), Some(count)) => {
                self.garbage = None;
                let mut garbage = self.numbers.bytes(count);
                // Where a head has zeros, so that it is none whatever else it is.
                garbage[5] |= 1;
                [&came[..end], &garbage, &came[end..]].concat()
            }
            _ => came.to_vec(),
        }
    }

    // Changes a bit of one of these bytes, where it is to be there.
    fn change(&mut self, bytes: &mut [u8]) {
        let Some(count) = self.changed else { return };
        self.changed = count.checked_sub(bytes.len());
        if let Some(byte) = bytes.get_mut(count) {
            *byte ^= 1 << self.numbers.below(8);
        }
    }

    fn write(&mut self, bytes: &[u8]) -> io::Result<()> {
        let count = self.left.map_or(bytes.len(), |left| left.min(bytes.len()));
        for (place, grain) in
            bytes[..count].chunks(self.manner.grain.unwrap_or(usize::MAX)).enumerate()
        {
            self.to.write_all(grain)?;
            if self.manner.grain.is_some() && place < 8 {
                // So that it is read before the next one comes.
                thread::sleep(Duration::from_micros(300));
            }
        }
        match &mut self.left {
            Some(left) if *left == count => Err(ErrorKind::ConnectionAborted.into()),
            Some(left) => {
                *left -= count;
                Ok(())
            }
            None => Ok(()),
        }
    }

    /// The connection is over.
    pub fn close(self) {
        let _was_closed = self.to.shutdown(Shutdown::Both);
    }
}

/// Where the records that go one way end.
struct Records {
    /// So many bytes are to come before the hello, the head or the body that is being carried is whole.
    wanted: usize,
    /// The part of a head that has come.
    head: Option<Vec<u8>>,
}

impl Records {
    fn new() -> Records {
        Records { wanted: HELLO, head: None }
    }

    // Where the first record ends that does in these bytes, which come next.
    fn end_in(&mut self, bytes: &[u8]) -> Option<usize> {
        let (mut place, mut first) = (0, None);
        while place < bytes.len() {
            let count = self.wanted.min(bytes.len() - place);
            let part = &bytes[place..place + count];
            place += count;
            self.wanted -= count;
            if let Some(head) = &mut self.head {
                head.extend(part);
            }
            if self.wanted > 0 {
                break;
            }
            // The hello or a body is whole, and a head comes; or a head is, and its body does, if it has one.
            let length = self.head.as_deref().map_or(0, length_of);
            (self.wanted, self.head) = match length {
                0 => (HEAD, Some(Vec::new())),
                length => (length, None),
            };
            if length == 0 {
                first = first.or(Some(place));
            }
        }
        first
    }
}

// How long the body behind a head is.
fn length_of(head: &[u8]) -> usize {
    head.first_chunk().map_or(0, |bytes| u32::from_be_bytes(*bytes) as usize)
}
