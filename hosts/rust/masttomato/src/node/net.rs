//! A node's connections: who is connected to, who connects, and what goes over them.

mod by_peer;
#[cfg(test)]
mod tests;

use self::by_peer::ByPeer;
use super::door::{Came, Door};
use super::peers::Line;
use super::seal::{Wire, flaw_in, is_for_later};
use super::spans;
use crate::engine::{Engine, Flaw, HELLO, Hello, TurnedAway, Why};
use crate::space::SpaceId;
use mio::net::{TcpListener, TcpStream};
use mio::{Events, Interest, Poll, Registry, Token};
use std::collections::HashMap;
use std::io::{self, ErrorKind, Read, Write};
use std::net::{Shutdown, SocketAddr};
use std::time::{Duration, Instant};

pub(crate) const WAKER: Token = Token(0);
const LISTENER: Token = Token(1);
const FIRST: usize = 2;

/// So many connections at once may still have to say hello, for so long each.
const MOST_PENDING: usize = 64;
const HELLO_WAITS: Duration = Duration::from_secs(5);
/// A connection that broke, or that wasn't taken, is opened again after this, doubled up to that.
const FIRST_WAIT: Duration = Duration::from_millis(50);
const LONGEST_WAIT: Duration = Duration::from_secs(5);
/// A peer that misbehaved isn't let in again for this.
const SHUNNED: Duration = Duration::from_secs(1);
/// So much is read of a peer in one turn.
const PIECE: usize = 64 * 1024;
/// So often the system is asked what has come also where there is always something to do: of who connects, and of connections that can
/// be written again, it alone knows.
const ASKS: Duration = Duration::from_millis(1);
/// Where looking found something so many times, and it was never waited for, the system needn't watch the connections. That
/// would cost it a little for each piece that comes.
const FOUND: u32 = 64;
/// So many connections are looked at one by one; of more the system says which of them something came over.
const FEW: usize = 3;
/// How long a node that ends waits for its peers to end their connections, too.
const LINGERS: Duration = Duration::from_millis(200);

/// How many pieces of what a peer sent are read away at once.
const PIECES: usize = 16;
/// So many bytes are still heard of a peer to which nothing can be written any more: more than systems keep of what came.
const LAST_WORDS: usize = 64 * 1024 * 1024;

struct Link {
    wire: Wire,
    token: Token,
    /// Whether the system says when something comes or can be written again.
    is_watched: bool,
    is_readable: bool,
    is_writable: bool,
    /// Where nothing can be written any more, how much of what came may still be heard.
    last_words: Option<usize>,
    dial: Option<usize>,
}

impl Link {
    // Has the system watch the connection: whether it does.
    fn watch(&mut self, registry: &Registry) -> bool {
        if !self.is_watched {
            let both = Interest::READABLE | Interest::WRITABLE;
            // What came before is said as well.
            self.is_watched = registry.register(&mut self.wire.stream, self.token, both).is_ok();
        }
        if !self.is_watched {
            self.breaks();
        }
        self.is_watched
    }

    // From now on it is looked whether something came. Of one that can't be written the system is to say when it can.
    fn unwatch(&mut self, registry: &Registry) {
        if self.is_watched && self.is_writable {
            self.is_watched = registry.deregister(&mut self.wire.stream).is_err();
        }
    }

    // Nothing can be written any more. What came is heard all the same, since it may end with a bye.
    fn breaks(&mut self) {
        (self.is_readable, self.is_writable) = (true, false);
        self.last_words.get_or_insert(LAST_WORDS);
    }

    // So much was read: whether more is to be.
    fn heard(&mut self, count: usize) -> bool {
        // The system says again when more comes behind a piece that isn't full.
        self.is_readable = count == PIECE || self.wire.is_sealed() || self.last_words.is_some();
        let Some(left) = &mut self.last_words else { return true };
        *left = left.saturating_sub(count);
        *left > 0
    }
}

// Reads away what came: whether the other end has ended, too.
fn has_ended(stream: &mut TcpStream, room: &mut [u8]) -> bool {
    for _ in 0..PIECES {
        match stream.read(room) {
            Ok(0) => return true,
            Ok(_) => {}
            Err(error) if is_for_later(&error) => return false,
            Err(_) => return true,
        }
    }
    false
}

// A connection over which not both hellos went yet.
struct Pending {
    wire: Wire,
    dial: Option<usize>,
    came: Vec<u8>,
    said: usize,
    since: Duration,
}

// Who is connected to: the lower numbers.
struct Dial {
    line: Line,
    addresses: Vec<SocketAddr>,
    tries: usize,
    wait: Duration,
    at: Duration,
    is_busy: bool,
}

impl Dial {
    // Whether it is time to connect.
    fn is_due(&self, now: Duration) -> bool {
        !self.is_busy && now >= self.at && !self.addresses.is_empty()
    }
}

/// A node's connections.
pub(crate) struct Net {
    poll: Poll,
    events: Events,
    listener: Option<TcpListener>,
    accepts: bool,
    /// Where connections are sealed: who comes, or is connected to, comes by this.
    door: Option<Door>,
    turned_away: (u64, Option<TurnedAway>),
    hello: Hello,
    links: ByPeer<Link>,
    tokens: HashMap<usize, SpaceId>,
    pending: HashMap<usize, Pending>,
    dials: Vec<Dial>,
    shunned: HashMap<SpaceId, Duration>,
    next_token: usize,
    piece: Vec<u8>,
    jitter: u64,
    /// When the system is to be asked what has come, if it was asked not long ago.
    asks_at: Option<Duration>,
    /// How often something was found by looking since it was waited for.
    found: u32,
}

impl Net {
    pub(crate) fn new(
        poll: Poll,
        mut listener: Option<TcpListener>,
        door: Option<Door>,
        hello: Hello,
        dialed: Vec<(Line, Vec<SocketAddr>)>,
    ) -> io::Result<Net> {
        if let Some(listener) = &mut listener {
            poll.registry().register(listener, LISTENER, Interest::READABLE)?;
        }
        let dial = |(line, addresses)| Dial {
            line,
            addresses,
            tries: 0,
            wait: FIRST_WAIT,
            at: Duration::ZERO,
            is_busy: false,
        };
        Ok(Net {
            poll,
            events: Events::with_capacity(128),
            listener,
            accepts: true,
            door,
            turned_away: (0, None),
            hello,
            links: ByPeer::new(),
            tokens: HashMap::new(),
            pending: HashMap::new(),
            dials: dialed.into_iter().map(dial).collect(),
            shunned: HashMap::new(),
            next_token: FIRST,
            piece: vec![0; PIECE],
            jitter: hello.life.process | 1,
            asks_at: None,
            found: 0,
        })
    }

    /// Ends all connections. Where one went while something of the peer's is unread here the system would throw away what the peer
    /// hasn't read, a bye too: so it is read away until the peer has ended its own end, or for a while.
    pub(crate) fn close(&mut self) {
        self.door = None;
        self.listener = None;
        self.pending.clear();
        self.dials.clear();
        for link in self.links.values_mut() {
            link.wire.end();
            let _ended = link.wire.stream.shutdown(Shutdown::Write);
        }
        let end = Instant::now() + LINGERS;
        loop {
            self.links.retain(|link| !has_ended(&mut link.wire.stream, &mut self.piece));
            let left = end.saturating_duration_since(Instant::now());
            if self.links.is_empty() || left.is_zero() {
                return self.links.clear();
            }
            let _slept = self.poll.poll(&mut self.events, Some(left.min(LINGERS / 10)));
        }
    }

    /// When it wants to be turned at the latest.
    pub(crate) fn next(&self) -> Option<Duration> {
        let dials = self.dials.iter().filter(|dial| !dial.is_busy).map(|dial| dial.at);
        let hellos = self.pending.values().map(|pending| pending.since + HELLO_WAITS);
        dials.chain(hellos).chain(self.has_more().then_some(Duration::ZERO)).min()
    }

    /// Sleeps until something comes, or for so long.
    pub(crate) fn sleep(&mut self, limit: Duration) {
        (self.asks_at, self.found) = (None, 0);
        let mut all_are_watched = true;
        for link in self.links.values_mut() {
            all_are_watched &= link.watch(self.poll.registry());
        }
        self.ask(if all_are_watched { limit } else { Duration::ZERO });
    }

    // Asks the system what has come, where it wasn't asked for a while.
    fn ask_again(&mut self, now: Duration) {
        let at = *self.asks_at.get_or_insert(now + ASKS);
        if now >= at {
            self.asks_at = Some(now + ASKS);
            self.ask(Duration::ZERO);
            for link in self.links.values_mut().filter(|link| !link.is_watched) {
                link.is_readable = true;
            }
        }
    }

    // Has the system say what has come, or waits for that for so long.
    fn ask(&mut self, limit: Duration) {
        // A poll that is interrupted is one that nothing came to.
        let _slept = self.poll.poll(&mut self.events, Some(limit));
        for event in &self.events {
            let Token(token) = event.token();
            if event.token() == LISTENER {
                self.accepts = true;
            }
            let Some(link) = self.tokens.get(&token).and_then(|peer| self.links.get_mut(*peer))
            else {
                continue;
            };
            link.is_readable |= event.is_readable() || event.is_read_closed() || event.is_error();
            link.is_writable |= event.is_writable() && link.last_words.is_none();
        }
    }

    /// Takes what came over connections, whether or not the system has said so: whether anything did.
    pub(crate) fn look(&mut self, engine: &mut Engine, now: Duration) -> bool {
        if self.links.len() > FEW || !self.pending.is_empty() {
            self.sleep(Duration::ZERO);
            return self.read(engine, now);
        }
        let mut did = false;
        for place in 0..self.links.len() {
            let peer = self.links.peer_at(place);
            did |= peer.is_some_and(|peer| self.read_from(peer, engine, now));
        }
        if did {
            self.finds();
        }
        did
    }

    // Something was found by looking, once more.
    fn finds(&mut self) {
        self.found = self.found.wrapping_add(1);
        if self.found.is_multiple_of(FOUND) {
            for link in self.links.values_mut() {
                link.unwatch(self.poll.registry());
            }
        }
    }

    /// Whether more has come than was read.
    pub(crate) fn has_more(&self) -> bool {
        self.accepts || self.links.values().any(|link| link.is_readable)
    }

    /// Takes what came: whether anything did.
    pub(crate) fn read(&mut self, engine: &mut Engine, now: Duration) -> bool {
        let mut did = self.is_time_to_welcome(now) && self.welcome(engine, now);
        if self.links.values().any(|link| link.is_readable) {
            did |= self.read_all(engine, now);
        }
        did
    }

    // Takes what came over connections, as far as the system has said so.
    #[inline(never)]
    fn read_all(&mut self, engine: &mut Engine, now: Duration) -> bool {
        let (mut did, mut last) = (false, None);
        while let Some(peer) = self.readable_behind(last) {
            did |= self.read_from(peer, engine, now);
            last = Some(peer);
        }
        did
    }

    // Whether there may be anything to do for connections that aren't there yet.
    fn is_time_to_welcome(&self, now: Duration) -> bool {
        let has_some = self.accepts || self.door.is_some() || !self.pending.is_empty();
        has_some
            || self.asks_at.is_none_or(|at| now >= at)
            || self.dials.iter().any(|dial| dial.is_due(now))
    }

    // Accepts, connects, and says and hears hellos: whether anything came.
    #[inline(never)]
    fn welcome(&mut self, engine: &mut Engine, now: Duration) -> bool {
        self.ask_again(now);
        let mut did = self.accept(now);
        did |= self.let_in(engine, now);
        self.dial(now);
        did |= self.greet(engine, now);
        if self.turned_away.0 > 0 {
            let (count, last) = std::mem::take(&mut self.turned_away);
            engine.turned_away(count, last);
        }
        did
    }

    // The first peer behind this one, or of all, from whom something may have come.
    fn readable_behind(&self, last: Option<SpaceId>) -> Option<SpaceId> {
        let mut readable = self.links.iter().filter(|(_, link)| link.is_readable);
        readable.find(|(peer, _)| last.is_none_or(|last| *peer > last)).map(|(peer, _)| peer)
    }

    fn read_from(&mut self, peer: SpaceId, engine: &mut Engine, now: Duration) -> bool {
        let Some(link) = self.links.get_mut(peer) else { return false };
        match link.wire.read(&mut self.piece) {
            Ok(0) => self.drop_link(peer, engine, now),
            Ok(count) => {
                let has_more = link.heard(count);
                let said = engine.bytes(peer, &self.piece[..count], now);
                if let Err(how) = said {
                    spans::misbehaved(self.hello.space, peer, how);
                    self.shunned.insert(peer, now + SHUNNED);
                }
                if said.is_err() || !has_more {
                    self.drop_link(peer, engine, now);
                }
            }
            Err(error) if error.kind() == ErrorKind::WouldBlock && link.last_words.is_none() => {
                link.is_readable = false;
                return false;
            }
            Err(error) if error.kind() == ErrorKind::Interrupted => {}
            Err(_) => self.drop_link(peer, engine, now),
        }
        true
    }

    /// Writes what is to be written. A connection that takes nothing any more goes once all that came over it was heard.
    pub(crate) fn write(&mut self, engine: &mut Engine) {
        for (peer, link) in self.links.iter_mut() {
            let out = engine.output(peer);
            while !out.is_empty() && link.is_writable {
                match link.wire.write(out.left()) {
                    Ok(count) => out.advance(count),
                    Err(error) if error.kind() == ErrorKind::WouldBlock => {
                        link.is_writable = false;
                        link.watch(self.poll.registry());
                    }
                    Err(error) if error.kind() == ErrorKind::Interrupted => {}
                    Err(_) => link.breaks(),
                }
            }
        }
    }

    /// A connection goes; whoever opened it opens it again later.
    pub(crate) fn drop_link(&mut self, peer: SpaceId, engine: &mut Engine, now: Duration) {
        let Some(link) = self.links.remove(peer) else { return };
        self.tokens.remove(&link.token.0);
        engine.disconnected(peer, now);
        if let Some(dial) = link.dial {
            self.wait_to_dial(dial, now);
        }
    }

    /// The next try to connect to a peer doesn't wait.
    pub(crate) fn dial_soon(&mut self, peer: SpaceId, now: Duration) {
        for dial in self.dials.iter_mut().filter(|dial| dial.line.has(peer)) {
            (dial.at, dial.wait) = (now, FIRST_WAIT);
        }
    }

    // A try failed or a connection broke: the next try waits, longer each time.
    fn wait_to_dial(&mut self, place: usize, now: Duration) {
        self.jitter ^= self.jitter << 13;
        self.jitter ^= self.jitter >> 7;
        self.jitter ^= self.jitter << 17;
        let Some(dial) = self.dials.get_mut(place) else { return };
        let quarter = dial.wait.as_millis() as u64 / 4;
        dial.at = now + dial.wait + Duration::from_millis(self.jitter % (quarter + 1));
        dial.wait = (dial.wait * 2).min(LONGEST_WAIT);
        dial.is_busy = false;
    }

    fn token(&mut self) -> usize {
        self.next_token += 1;
        self.next_token - 1
    }

    fn accept(&mut self, now: Duration) -> bool {
        let mut did = false;
        while self.accepts {
            let accepted = self.listener.as_ref().map(TcpListener::accept);
            let Some(Ok((stream, _))) = accepted else {
                self.accepts = false;
                break;
            };
            did = true;
            match self.has_room() {
                true => self.begin(Wire::plain(stream), None, now, now),
                false => self.turned_away.0 += 1,
            }
        }
        did
    }

    // Whether one more that came may be listened to.
    fn has_room(&self) -> bool {
        self.pending.values().filter(|pending| pending.dial.is_none()).count() < MOST_PENDING
    }

    // Takes what came through the door: whether anything did.
    fn let_in(&mut self, engine: &mut Engine, now: Duration) -> bool {
        let Some(door) = &self.door else { return false };
        let (came, (count, last)) = (door.take(), door.take_turned_away());
        self.turned_away = (self.turned_away.0 + count, last.or(self.turned_away.1));
        let did = !came.is_empty();
        for came in came {
            match came {
                Came::Shaken { wire, dial, waited } if dial.is_some() || self.has_room() => {
                    self.begin(wire, dial, now.saturating_sub(waited), now);
                }
                Came::Shaken { .. } => self.turned_away.0 += 1,
                Came::Refused { dial, flaw } => self.not_shaken(dial, flaw, engine, now),
            }
        }
        did
    }

    // A connection that was opened isn't sealed: of what stays so it is waited for the longest.
    fn not_shaken(&mut self, place: usize, flaw: Flaw, engine: &mut Engine, now: Duration) {
        let Some(dial) = self.dials.get_mut(place) else { return };
        if !matches!(flaw, Flaw::Broken | Flaw::Late) {
            dial.wait = LONGEST_WAIT;
            let line = dial.line.clone();
            let why = Why::Certificate(flaw);
            for space in line.last.up_to().filter(|space| line.has(*space)) {
                spans::not_connected(self.hello.space, Some(space), why);
                engine.refused(space, why);
            }
        }
        self.wait_to_dial(place, now);
    }

    fn dial(&mut self, now: Duration) {
        for place in 0..self.dials.len() {
            let dial = &mut self.dials[place];
            if !dial.is_due(now) {
                continue;
            }
            dial.is_busy = true;
            dial.tries += 1;
            let address = dial.addresses[dial.tries % dial.addresses.len()];
            match (TcpStream::connect(address), &self.door) {
                (Ok(stream), Some(door)) => door.ask(stream, place, dial.line.clone()),
                (Ok(stream), None) => self.begin(Wire::plain(stream), Some(place), now, now),
                (Err(_), _) => self.wait_to_dial(place, now),
            }
        }
    }

    fn begin(&mut self, mut wire: Wire, dial: Option<usize>, since: Duration, now: Duration) {
        let token = self.token();
        let both = Interest::READABLE | Interest::WRITABLE;
        if self.poll.registry().register(&mut wire.stream, Token(token), both).is_err() {
            if let Some(dial) = dial {
                self.wait_to_dial(dial, now);
            }
            return;
        }
        let pending = Pending { wire, dial, came: Vec::new(), said: 0, since };
        self.pending.insert(token, pending);
    }

    // Hellos come and go: whether any did.
    fn greet(&mut self, engine: &mut Engine, now: Duration) -> bool {
        if self.pending.is_empty() {
            return false;
        }
        let mut did = false;
        let tokens: Vec<usize> = self.pending.keys().copied().collect();
        for token in tokens {
            let Some(pending) = self.pending.get_mut(&token) else { continue };
            let is_late = now.saturating_sub(pending.since) > HELLO_WAITS;
            match pending.step(&self.hello) {
                Ok(None) if !is_late => {}
                Ok(Some(peer)) => {
                    did = true;
                    self.greeted(token, peer, engine, now);
                }
                Ok(None) => self.forget(token, None, engine, now),
                Err(error) => self.forget(token, flaw_in(&error), engine, now),
            }
        }
        did
    }

    fn forget(&mut self, token: usize, flaw: Option<Flaw>, engine: &mut Engine, now: Duration) {
        let Some(pending) = self.pending.remove(&token) else { return };
        match pending.dial {
            Some(dial) => self.not_shaken(dial, flaw.unwrap_or(Flaw::Broken), engine, now),
            None => self.turn_away(&pending, flaw.map_or(Why::NoHello, Why::Certificate)),
        }
    }

    fn turn_away(&mut self, pending: &Pending, why: Why) {
        self.turned_away.0 += 1;
        if let Ok(from) = pending.wire.stream.peer_addr() {
            spans::turned_away(self.hello.space, from, why);
            self.turned_away.1 = Some(TurnedAway { from, why });
        }
    }

    // The peer's hello is there: it is judged, and answered where it connected.
    fn greeted(
        &mut self,
        token: usize,
        peer: Result<Hello, Why>,
        engine: &mut Engine,
        now: Duration,
    ) {
        let judged = peer.and_then(|peer| self.judge(token, &peer, now).map(|()| peer));
        let connected = judged.and_then(|peer| {
            engine.may_connect(peer.space, peer.life)?;
            if self.links.has(peer.space) {
                self.drop_link(peer.space, engine, now);
            }
            engine.connected(peer.space, peer.life, now).map(|()| peer.space)
        });
        let Some(mut pending) = self.pending.remove(&token) else { return };
        if pending.dial.is_none() {
            let said = Hello { refused: connected.err(), ..self.hello };
            if pending.wire.write(&said.to_bytes()).ok() != Some(HELLO) {
                return connected.into_iter().for_each(|space| engine.disconnected(space, now));
            }
        }
        match connected {
            Ok(space) => self.link(token, space, pending),
            Err(why) => {
                let peer = peer.ok().map(|peer| peer.space);
                self.not_linked(&pending, peer, why, engine, now);
            }
        }
    }

    // A peer is connected.
    fn link(&mut self, token: usize, space: SpaceId, pending: Pending) {
        if let Some(dial) = pending.dial.and_then(|place| self.dials.get_mut(place)) {
            dial.wait = FIRST_WAIT;
        }
        let Pending { wire, dial, .. } = pending;
        self.tokens.insert(token, space);
        let token = Token(token);
        let (is_watched, is_readable, is_writable) = (true, true, true);
        let link =
            Link { wire, token, is_watched, is_readable, is_writable, last_words: None, dial };
        self.links.insert(space, link);
    }

    // Either end refused the other one's hello.
    fn not_linked(
        &mut self,
        pending: &Pending,
        peer: Option<SpaceId>,
        why: Why,
        engine: &mut Engine,
        now: Duration,
    ) {
        spans::not_connected(self.hello.space, peer, why);
        let Some(place) = pending.dial else { return self.turn_away(pending, why) };
        if let Some(space) = peer {
            engine.refused(space, why);
        }
        if let Some(dial) = self.dials.get_mut(place) {
            dial.wait = LONGEST_WAIT;
        }
        self.wait_to_dial(place, now);
    }

    // Whether a peer that says this hello may be connected: of two the higher one connects.
    fn judge(&self, token: usize, peer: &Hello, now: Duration) -> Result<(), Why> {
        if let Some(why) = peer.refused {
            return Err(why);
        }
        self.hello.judge(peer)?;
        let pending = self.pending.get(&token);
        let dial = pending.and_then(|pending| pending.dial);
        let is_expected = match dial.and_then(|place| self.dials.get(place)) {
            Some(dial) => dial.line.has(peer.space),
            None => peer.space > self.hello.space,
        };
        let is_shunned = self.shunned.get(&peer.space).is_some_and(|until| now < *until);
        if !is_expected || is_shunned {
            return Err(Why::OtherNumber);
        }
        let is_it = pending.is_some_and(|pending| pending.wire.may_be(peer.space));
        if is_it { Ok(()) } else { Err(Why::Certificate(Flaw::OtherName)) }
    }
}

impl Pending {
    // Says hello where this side connects, and hears the peer's: it, once it is there.
    fn step(&mut self, hello: &Hello) -> io::Result<Option<Result<Hello, Why>>> {
        if self.dial.is_some() && self.said < HELLO {
            let bytes = hello.to_bytes();
            match self.wire.write(&bytes[self.said..]) {
                Ok(count) => self.said += count,
                Err(error) if is_for_later(&error) => return Ok(None),
                Err(error) => return Err(error),
            }
            self.wire.stream.set_nodelay(true)?;
        }
        let mut room = [0; HELLO];
        match self.wire.read(&mut room[self.came.len()..]) {
            Ok(0) => return Err(ErrorKind::UnexpectedEof.into()),
            Ok(count) => {
                let start = self.came.len();
                self.came.extend(&room[start..start + count]);
            }
            Err(error) if is_for_later(&error) => return Ok(None),
            Err(error) => return Err(error),
        }
        let Ok(bytes) = <&[u8; HELLO]>::try_from(&self.came[..]) else { return Ok(None) };
        self.wire.stream.set_nodelay(true)?;
        Ok(Some(Hello::from_bytes(bytes)))
    }
}
