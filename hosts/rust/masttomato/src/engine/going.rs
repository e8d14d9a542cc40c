//! What goes over connections, and when.

use super::link::{Link, OutBuffer};
use super::wire::{self, Kind, Seen};
use super::{ACK_ITEMS, ACK_WAITS, Engine, LIMITS, NO_PONG, SILENCE, STUCK, TraceSink};
use crate::space::{Due, SpaceId};
use std::time::Duration;

// Whether a sink, where there is one, has taken these lines. One that hasn't is given no more.
fn is_put(sink: &mut Option<Box<dyn TraceSink>>, lines: &str) -> bool {
    let is_taken = match sink {
        Some(sink) if !lines.is_empty() => sink.entries(lines).is_ok(),
        _ => true,
    };
    if !is_taken {
        *sink = None;
    }
    is_taken
}

// Puts a record of these frames to what is to be written.
fn put_frames<'a, I: Iterator<Item = Seen<'a>>>(
    out: &mut OutBuffer,
    stamp: u64,
    frames: impl Fn() -> I,
) {
    let length = frames().map(|frame| frame.bytes.len()).sum();
    let out = out.bytes_mut();
    wire::put_head(out, Kind::Frames, stamp, length);
    frames().for_each(|frame| out.extend(frame.bytes));
}

// What a Transmit gave: so many bytes, of so many frames, of which so many are new, that is above the greatest number that was
// given before.
struct Given {
    length: usize,
    known: u64,
    count: u64,
    new: u64,
}

// Whether what a Transmit to a peer would give is to be given now.
fn is_time_to_transmit(link: &Link, due: Due, now: Duration) -> bool {
    let owes_ack = || {
        link.owed >= ACK_ITEMS || link.owed > 0 && now.saturating_sub(link.owed_since) >= ACK_WAITS
    };
    match due {
        Due::Nothing => false,
        Due::Ack => owes_ack(),
        Due::Again => link.again || owes_ack(),
        Due::New | Due::Close => true,
    }
}

fn is_new(frame: &Seen<'_>, known: u64) -> bool {
    !frame.is_data() || frame.seq() > known
}

// Puts all that isn't acknowledged, in order: how many frames.
fn put_again(link: &mut Link, stamp: u64, frames: &[u8], known: u64) -> u64 {
    let all = || wire::frames_of(frames);
    let is_new = |frame: &Seen<'_>| is_new(frame, known);
    let first = all().find(|frame| !is_new(frame)).map_or(0, |frame| frame.seq());
    let is_other = |frame: &Seen<'_>| (first + 1..=known).contains(&frame.seq());
    let repeated = all().filter(|frame| !is_new(frame));
    let others = link.sent.frames().filter(is_other);
    let chosen: Vec<Seen<'_>> = repeated.chain(others).chain(all().filter(is_new)).collect();
    if !chosen.is_empty() {
        link.owed = 0;
        put_frames(&mut link.out, stamp, || chosen.iter().copied());
    }
    chosen.len() as u64
}

impl Engine {
    /// Fills each connection's output that is empty and that there is something for.
    ///
    /// ```
    /// # use masttomato::engine::*;
    /// # use masttomato::{SpaceId, Value};
    /// # use std::time::Duration;
    /// # let [one, two] = [1, 2].map(|number| SpaceId::new(number).expect("1 to 32"));
    /// # let now = Duration::ZERO;
    /// # let mut engine = Engine::new(Settings::new(one, two), now)?;
    /// engine.connected(two, Life::only(12), now)?;
    /// engine.call(Ticket(1), two.agent(), 0, Value::Unit);
    /// let _turn = engine.work(now);
    /// assert!(engine.output(two).is_empty());
    /// engine.fill(now);
    /// assert!(!engine.output(two).is_empty());
    /// # Ok::<(), Box<dyn std::error::Error>>(())
    /// ```
    pub fn fill(&mut self, now: Duration) {
        for place in 0..self.up.len() {
            self.fill_for(self.up[place], now);
        }
        self.flush();
    }

    /// When it wants the next turn at the latest.
    ///
    /// ```
    /// # use masttomato::engine::*;
    /// # use masttomato::{SpaceId, Value};
    /// # use std::time::Duration;
    /// # let [one, two] = [1, 2].map(|number| SpaceId::new(number).expect("1 to 32"));
    /// # let now = Duration::ZERO;
    /// # let mut engine = Engine::new(Settings::new(one, two), now)?;
    /// let _turn = engine.turn(now);
    /// assert!(engine.next(now).is_some_and(|next| next > now));
    /// # Ok::<(), Box<dyn std::error::Error>>(())
    /// ```
    pub fn next(&self, now: Duration) -> Option<Duration> {
        let waits = self.up.iter().filter_map(|peer| self.next_of(*peer, now));
        let is_soon = self.has_stuck || self.has_renewals;
        waits.chain([self.look_at]).chain(is_soon.then_some(now + STUCK)).min()
    }

    /// Whether there is more to write at once.
    pub(crate) fn has_more(&self, now: Duration) -> bool {
        self.up.iter().any(|peer| {
            self.links.get(*peer).is_some_and(|link| link.has_more && link.out.is_empty())
                && self.is_time_to_transmit(*peer, now)
        })
    }

    // Fills the output to a peer, where it is empty and there is something to write.
    fn fill_for(&mut self, peer: SpaceId, now: Duration) {
        let due = self.space.due(peer);
        let Some(link) = self.links.get_mut(peer).filter(|link| link.is_up) else { return };
        let transmits = is_time_to_transmit(link, due, now);
        link.has_more = !link.out.is_empty();
        if transmits || !link.is_quiet() || now.saturating_sub(link.heard) >= SILENCE {
            self.fill_with_all(peer, transmits, now);
        }
    }

    #[inline(never)]
    fn fill_with_all(&mut self, peer: SpaceId, transmits: bool, now: Duration) {
        let Some(link) = self.links.get_mut(peer) else { return };
        let is_silent = now.saturating_sub(link.heard) >= SILENCE;
        let (was_empty, pings) = (link.out.is_empty(), is_silent && link.pinged.is_none());
        if link.pinged.is_some_and(|since| now.saturating_sub(since) >= NO_PONG) {
            self.turn.silent.push(peer);
        }
        if pings {
            link.pinged = Some(now);
        }
        if !was_empty {
            return;
        }
        if pings {
            wire::put_head(link.out.bytes_mut(), Kind::Ping, 0, 0);
        }
        if std::mem::take(&mut link.owes_pong) {
            wire::put_head(link.out.bytes_mut(), Kind::Pong, 0, 0);
        }
        if transmits {
            self.transmit(peer);
        }
        let Some(link) = self.links.get_mut(peer) else { return };
        if link.says_bye && self.space.due(peer) == Due::Nothing {
            link.says_bye = false;
            wire::put_head(link.out.bytes_mut(), Kind::Bye, 0, 0);
        }
        self.counts.bytes_out += link.out.left().len() as u64;
        self.counts.records_out += u64::from(!link.out.is_empty());
    }

    fn is_time_to_transmit(&self, peer: SpaceId, now: Duration) -> bool {
        let link = self.links.get(peer);
        link.is_some_and(|link| is_time_to_transmit(link, self.space.due(peer), now))
    }

    // One Transmit, whose frames it puts there. New ones are kept until they are acknowledged.
    fn give_in(&mut self, peer: SpaceId, room: &mut Vec<u8>) -> Option<Given> {
        let length = self.space.transmit_in(peer, room);
        let link = self.links.get_mut(peer)?;
        let Ok(length) = length else {
            self.counts.wants += 1;
            link.has_more = true;
            return None;
        };
        let mut given = Given { length, known: link.given, count: 0, new: 0 };
        for frame in wire::frames_of(&room[..length]) {
            let is_new = frame.seq() > given.known;
            given.count += 1;
            given.new += u64::from(is_new || !frame.is_data());
            if is_new {
                link.gave(&frame);
            }
        }
        link.has_more = given.count >= u64::from(LIMITS.window());
        Some(given)
    }

    // One Transmit to a peer without a connection: its new frames are kept.
    pub(super) fn give(&mut self, peer: SpaceId) {
        let mut frames = std::mem::take(&mut self.frames);
        let _given = self.give_in(peer, &mut frames);
        self.frames = frames;
    }

    // Writes what one Transmit gives.
    #[inline(never)]
    fn transmit(&mut self, peer: SpaceId) {
        let mut frames = std::mem::take(&mut self.frames);
        if let Some(given) = self.give_in(peer, &mut frames) {
            self.put(peer, &frames[..given.length], &given);
        }
        self.frames = frames;
    }

    // Puts the frames of a Transmit to what is to be written. The item that it repeats is left out, since this connection has it
    // already; but where nothing else says an acknowledgement that is owed, it is written again. Where
    // anything may have been lost, all that isn't acknowledged is.
    fn put(&mut self, peer: SpaceId, frames: &[u8], given: &Given) {
        let stamp = self.space.stamp();
        let Some(link) = self.links.get_mut(peer) else { return };
        if std::mem::take(&mut link.again) {
            self.counts.frames_out += put_again(link, stamp, frames, given.known);
            return;
        }
        let repeats = given.new == 0 && link.owed > 0;
        let put = if repeats { given.count } else { given.new };
        self.counts.frames_left_out += given.count - put;
        self.counts.frames_out += put;
        if put == 0 {
            return;
        }
        link.owed = 0;
        if put == given.count {
            let out = link.out.bytes_mut();
            wire::put_head(out, Kind::Frames, stamp, frames.len());
            out.extend(frames);
        } else {
            let known = given.known;
            put_frames(&mut link.out, stamp, || {
                wire::frames_of(frames).filter(move |frame| is_new(frame, known))
            });
        }
    }

    // The entries go to their sinks before the bytes leave: those of the trace, and those of the chain, with its seals.
    pub(super) fn flush(&mut self) {
        if self.space.is_recorded() {
            self.flush_lines();
        }
    }

    #[inline(never)]
    fn flush_lines(&mut self) {
        let lines = self.space.take_lines();
        self.counts.trace_faults += u64::from(!is_put(&mut self.sink, &lines));
        let lines = self.space.take_chain_lines();
        self.counts.trace_faults += u64::from(!is_put(&mut self.chain_sink, &lines));
    }

    // When a peer that is connected wants the next turn at the latest.
    fn next_of(&self, peer: SpaceId, now: Duration) -> Option<Duration> {
        let link = self.links.get(peer)?;
        let silence = link.pinged.map_or(link.heard + SILENCE, |since| since + NO_PONG);
        if !link.out.is_empty() {
            return Some(silence.max(now));
        }
        if self.is_time_to_transmit(peer, now) {
            return Some(now);
        }
        let waits_with_ack = link.owed > 0 && matches!(self.space.due(peer), Due::Ack | Due::Again);
        let ack = link.owed_since + ACK_WAITS;
        Some(if waits_with_ack { silence.min(ack) } else { silence }.max(now))
    }
}
