//! One end of a session.

use super::frame::{ACK, CLOSE, DATA, Frame};
use crate::Tally;
use std::cmp::Ordering;
use std::collections::VecDeque;

/// The greatest number of an item.
pub(super) const LAST_ITEM: u64 = 1 << 40;
/// So many unacknowledged items refuse a call or a reply.
const MOST_OUT: usize = 4_096;
/// So many accepted items wait to be acted on.
const MOST_WAITING: usize = 256;
/// So many numbers from the next on are in reach: a frame of one of them is kept, whatever came before it.
const REACH: usize = 64;
/// The number of the session that a new end is in.
const FIRST_SESSION: u32 = 1;
/// The greatest number of a session.
const LAST_SESSION: u32 = u32::MAX;

/// An end of a session: what it sent, what it accepted, and whether it has closed.
#[derive(Debug)]
pub(super) struct Session {
    here: u16,
    peer: u16,
    // The session's number, which stands in each frame that it gives.
    number: u32,
    // The greatest number in a frame that came, 0 where none did.
    seen: u32,
    window: u64,
    retry: u64,
    // Unacknowledged payloads; the first has the number `lowest`.
    out: VecDeque<Vec<u8>>,
    lowest: u64,
    transmitted: u64,
    inbox: VecDeque<Vec<u8>>,
    accepted: u64,
    // Of those, how many were acted on.
    acted: u64,
    // What was kept at each number in reach, from the next one on.
    early: VecDeque<Option<Vec<u8>>>,
    data_came: bool,
    ticks: u64,
    closed: Option<u8>,
    owes: bool,
}

/// What a frame brought: so many items, or that the session closed for a reason.
pub(super) enum Arrival {
    Took(u64),
    Closed(u8),
}

impl Session {
    pub(super) fn new(here: u16, peer: u16, window: u64, retry: u64) -> Session {
        Session::begin_at(here, peer, window, retry, FIRST_SESSION)
    }

    /// The end of a session of this number, at which nothing has arrived.
    pub(super) fn begin_at(here: u16, peer: u16, window: u64, retry: u64, number: u32) -> Session {
        Session {
            here,
            peer,
            number,
            seen: 0,
            window,
            retry,
            out: VecDeque::new(),
            lowest: 1,
            transmitted: 0,
            inbox: VecDeque::new(),
            accepted: 0,
            acted: 0,
            early: vec![None; REACH].into(),
            data_came: false,
            ticks: 0,
            closed: None,
            owes: false,
        }
    }

    pub(super) fn is_open(&self) -> bool {
        self.closed.is_none()
    }

    pub(super) fn number(&self) -> u32 {
        self.number
    }

    /// The number that the session would be opened under: above its own, and none below what came.
    pub(super) fn next_number(&self) -> Option<u32> {
        (self.number < LAST_SESSION).then(|| self.seen.max(self.number + 1))
    }

    /// Opens the session under a number, with nothing sent or accepted.
    pub(super) fn reopen(&mut self, number: u32) {
        let new = Session::new(self.here, self.peer, self.window, self.retry);
        *self = Session { number, seen: self.seen, ..new };
    }

    /// How many items were handed on.
    pub(super) fn handed(&self) -> u64 {
        self.lowest - 1 + self.out.len() as u64
    }

    pub(super) fn free_numbers(&self) -> u64 {
        LAST_ITEM - self.handed()
    }

    pub(super) fn has_room(&self) -> bool {
        self.out.len() < MOST_OUT
    }

    /// Hands an item on: its number.
    pub(super) fn send(&mut self, payload: Vec<u8>) -> u64 {
        self.out.push_back(payload);
        self.handed()
    }

    /// The item at the front of the inbox, with its number.
    pub(super) fn front(&self) -> Option<(u64, &[u8])> {
        let front = self.inbox.front()?;
        Some((self.accepted + 1 - self.inbox.len() as u64, front))
    }

    /// It was acted on.
    pub(super) fn take(&mut self) {
        self.acted += u64::from(self.inbox.pop_front().is_some());
    }

    /// How many items stand unacknowledged, and how many wait to be acted on.
    pub(super) fn held(&self) -> (u64, u64) {
        (self.out.len() as u64, self.inbox.len() as u64)
    }

    /// What went each way, and how it ended.
    pub(super) fn tally(&self) -> Tally {
        let closed = self.closed.map_or(0, u32::from);
        Tally { session: self.number, closed, sent: self.handed(), acted: self.acted }
    }

    // The greatest number that a transmit would give.
    fn last_in_window(&self) -> u64 {
        self.handed().min(self.lowest + self.window - 1)
    }

    /// What a transmit would give: 0 nothing, 1 an Ack, 2 given items alone, 3 new ones, 4 a Close.
    pub(super) fn due(&self) -> u32 {
        match () {
            () if self.closed.is_some() => 4 * u32::from(self.owes),
            () if self.out.is_empty() => u32::from(self.data_came),
            () if self.last_in_window() > self.transmitted => 3,
            () => 2,
        }
    }

    /// The bytes of the frames that are to be sent now, and how many they are.
    pub(super) fn transmit(&mut self) -> (Vec<u8>, u64) {
        let due = self.due();
        let reason = self.closed.unwrap_or(0);
        let ack = self.accepted + 1;
        let (from, to, session) = (self.here, self.peer, self.number);
        let alone = |kind, payload| Frame { kind, from, to, session, seq: 0, ack, payload };
        let mut bytes = Vec::new();
        self.data_came = false;
        match due {
            0 => return (bytes, 0),
            1 => alone(ACK, &[]).put(&mut bytes),
            4 => {
                alone(CLOSE, &[reason]).put(&mut bytes);
                self.owes = false;
            }
            _ => {
                let (last, given) = (self.last_in_window(), self.transmitted);
                let is_wanted = |seq: u64| seq == self.lowest || seq > given;
                let window = (self.lowest..=last).zip(&self.out);
                let wanted: Vec<_> = window.filter(|(seq, _)| is_wanted(*seq)).collect();
                for (seq, payload) in &wanted {
                    let seq = *seq;
                    Frame { kind: DATA, from, to, session, seq, ack, payload }.put(&mut bytes);
                }
                let count = wanted.len() as u64;
                self.transmitted = given.max(last);
                return (bytes, count);
            }
        }
        (bytes, 1)
    }

    /// A frame from the peer.
    pub(super) fn arrive(&mut self, frame: &Frame<'_>) -> Arrival {
        self.seen = self.seen.max(frame.session);
        match frame.session.cmp(&self.number) {
            Ordering::Less => self.older(frame),
            Ordering::Equal => self.of_this_session(frame),
            Ordering::Greater if self.is_open() => Arrival::Closed(2),
            Ordering::Greater => Arrival::Took(0),
        }
    }

    // A frame that its sender gave in an earlier session: it brings nothing, but is answered.
    fn older(&mut self, frame: &Frame<'_>) -> Arrival {
        match self.closed {
            Some(_) => self.owes |= frame.kind != CLOSE,
            None => self.data_came |= frame.kind == DATA,
        }
        Arrival::Took(0)
    }

    fn of_this_session(&mut self, frame: &Frame<'_>) -> Arrival {
        if self.closed.is_some() {
            self.owes |= frame.kind != CLOSE;
            return Arrival::Took(0);
        }
        if frame.kind == CLOSE {
            return Arrival::Closed(2);
        }
        if frame.ack > self.transmitted + 1 {
            return Arrival::Closed(4);
        }
        if frame.ack > self.lowest {
            self.out.drain(..(frame.ack - self.lowest) as usize);
            self.lowest = frame.ack;
            self.ticks = 0;
        }
        match frame.kind {
            DATA => {
                self.data_came = true;
                self.keep(frame);
                Arrival::Took(self.accept())
            }
            _ => Arrival::Took(0),
        }
    }

    // Keeps a frame's item where its number is in reach, unless one of that number came before.
    fn keep(&mut self, frame: &Frame<'_>) {
        let ahead =
            frame.seq.checked_sub(self.accepted + 1).and_then(|ahead| ahead.try_into().ok());
        if let Some(place) = ahead.and_then(|ahead: usize| self.early.get_mut(ahead)) {
            place.get_or_insert_with(|| frame.payload.to_vec());
        }
    }

    // Accepts what is kept at the next number, and the next, as long as there is room: how many.
    fn accept(&mut self) -> u64 {
        let before = self.accepted;
        while self.inbox.len() < MOST_WAITING
            && let Some(payload) = self.early.front_mut().and_then(Option::take)
        {
            self.early.rotate_left(1);
            self.inbox.push_back(payload);
            self.accepted += 1;
        }
        self.accepted - before
    }

    /// One tick more: whether the retries are used up.
    pub(super) fn tick(&mut self) -> bool {
        if self.transmitted >= self.lowest {
            self.ticks += 1;
        }
        self.ticks == self.retry
    }

    /// Ends for a reason.
    pub(super) fn close(&mut self, reason: u8) {
        self.closed = Some(reason);
        self.owes = reason != 2;
        self.lowest = self.handed() + 1;
        self.out = VecDeque::new();
        self.inbox = VecDeque::new();
        self.early = VecDeque::new();
    }
}

#[cfg(test)]
mod tests {
    use super::*;

    // Space 1's end of a session with space 2, of this number.
    fn end(number: u32) -> Session {
        Session { number, ..Session::new(1, 2, 8, 16) }
    }

    fn frame(kind: u8, session: u32) -> Frame<'static> {
        let (seq, payload): (u64, &[u8]) = match kind {
            DATA => (1, &[7]),
            CLOSE => (0, &[1]),
            _ => (0, &[]),
        };
        Frame { kind, from: 2, to: 1, session, seq, ack: 99, payload }
    }

    fn took(arrival: Arrival) -> Option<u64> {
        match arrival {
            Arrival::Took(count) => Some(count),
            Arrival::Closed(_) => None,
        }
    }

    fn is_closed_by_peer(arrival: Arrival) -> bool {
        matches!(arrival, Arrival::Closed(2))
    }

    // Its acknowledgement isn't heard and its item isn't kept, but one that carries an item is answered.
    #[test]
    fn an_open_end_takes_nothing_of_an_older_frame() {
        for (kind, due) in [(DATA, 1), (ACK, 0), (CLOSE, 0)] {
            let mut end = end(3);
            assert_eq!(took(end.arrive(&frame(kind, 2))), Some(0));
            assert_eq!((end.is_open(), end.due(), end.accepted), (true, due, 0));
            assert!(end.early.iter().all(Option::is_none));
        }
    }

    #[test]
    fn a_closed_end_owes_a_close_for_an_older_frame_that_is_none() {
        for (kind, due) in [(DATA, 4), (ACK, 4), (CLOSE, 0)] {
            let mut end = end(3);
            end.close(2);
            assert_eq!(took(end.arrive(&frame(kind, 1))), Some(0));
            assert_eq!(end.due(), due);
        }
    }

    // Whatever else it says, a newer frame says that its sender has left this session.
    #[test]
    fn a_newer_frame_closes_an_open_end_and_is_nothing_to_a_closed_one() {
        for kind in [DATA, ACK, CLOSE] {
            let mut end = end(3);
            assert!(is_closed_by_peer(end.arrive(&frame(kind, 4))));
            end.close(2);
            assert_eq!(took(end.arrive(&frame(kind, u32::MAX))), Some(0));
            assert_eq!(end.due(), 0);
        }
    }

    #[test]
    fn a_frame_has_the_number_of_its_end() {
        let mut end = end(0x0102_0304);
        end.send(vec![7]);
        let (bytes, count) = end.transmit();
        assert_eq!((count, &bytes[28..]), (1, &[1, 2, 3, 4, 7][..]));
        end.close(1);
        assert_eq!(end.transmit().0[28..], [1, 2, 3, 4, 1]);
    }

    // What it sent and accepted in the session before is of no account, and no Close or Ack is owed for that.
    #[test]
    fn an_end_that_opens_again_begins_anew() {
        let mut end = end(1);
        end.send(vec![7]);
        end.transmit();
        let first = Frame { ack: 1, ..frame(DATA, 1) };
        assert_eq!(took(end.arrive(&first)), Some(1));
        end.close(1);
        end.reopen(end.next_number().expect("there is one"));
        assert_eq!((end.number, end.is_open(), end.due(), end.handed()), (2, true, 0, 0));
        assert_eq!(end.front(), None);
        assert!(!end.tick());
        assert_eq!(took(end.arrive(&first)), Some(0));
        assert_eq!((end.due(), end.accepted), (1, 0));
        assert_eq!(took(end.arrive(&Frame { session: 2, ..first })), Some(1));
    }

    #[test]
    fn an_end_opens_under_no_number_below_what_it_saw() {
        for (seen, next) in [(1, Some(4)), (4, Some(4)), (9, Some(9)), (u32::MAX, Some(u32::MAX))] {
            let mut end = end(3);
            end.close(2);
            end.arrive(&frame(CLOSE, seen));
            assert_eq!(end.next_number(), next);
        }
        assert_eq!(end(u32::MAX).next_number(), None);
    }
}
