//! A connection over which nothing can be written any more: what came is heard to its end, but not for ever. And what is asked of
//! the system where nothing is waited for.

use super::*;
use crate::engine::{Life, Session, Settings, Ticket, WINDOW, World};
use crate::node::seal::Seal;
use crate::space::{Reason, Value};

const PING: [u8; 16] = [0, 0, 0, 0, 1, 0, 0, 0, 0, 0, 0, 0, 0, 0, 0, 0];
const BYE: [u8; 16] = [0, 0, 0, 0, 3, 0, 0, 0, 0, 0, 0, 0, 0, 0, 0, 0];

/// So many pieces of pings came, and then a bye.
struct Broken(usize);

impl Seal for Broken {
    fn shake(&mut self, _: &mut TcpStream) -> Result<bool, Flaw> {
        Ok(true)
    }

    fn read(&mut self, _: &mut TcpStream, room: &mut [u8]) -> io::Result<usize> {
        let Some(left) = self.0.checked_sub(1) else { return Ok(0) };
        let record = if left == 0 { BYE } else { PING };
        let count = if left == 0 { 1 } else { room.len() / record.len() };
        self.0 = left;
        let rooms = room.chunks_exact_mut(record.len()).take(count);
        rooms.for_each(|room| room.copy_from_slice(&record));
        Ok(count * record.len())
    }

    fn write(&mut self, _: &mut TcpStream, _: &[u8]) -> io::Result<usize> {
        Err(ErrorKind::BrokenPipe.into())
    }

    fn names(&self, _: SpaceId) -> bool {
        true
    }

    fn end(&mut self, _: &mut TcpStream) {}
}

// The first of two spaces, connected with the other one, and its connections, which are none yet.
fn alone(listener: Option<TcpListener>) -> (Engine, Net) {
    let [one, two] = [1, 2].map(|number| SpaceId::new(number).expect("1 to 32"));
    let (now, life) = (Duration::ZERO, Life::only(1));
    let mut engine = Engine::new(Settings::new(one, two), now).expect("memory");
    engine.connected(two, Life::only(2), now).expect("its first life");
    let (world, window, refused) = (World::default(), WINDOW, None);
    let hello = Hello { space: one, spaces: two, world, life, window, refused };
    let poll = Poll::new().expect("a poll");
    (engine, Net::new(poll, listener, None, hello, Vec::new()).expect("no socket"))
}

// How an engine's session stands, and how much it heard, once it has written to such a peer.
fn heard(pieces: usize) -> (Session, usize) {
    let two = SpaceId::new(2).expect("1 to 32");
    let now = Duration::ZERO;
    let (mut engine, mut net) = alone(None);
    engine.call(Ticket(1), two.agent(), 0, Value::Unit);
    let _turn = engine.turn(now);
    let listener = std::net::TcpListener::bind("127.0.0.1:0").expect("a port");
    let stream = TcpStream::connect(listener.local_addr().expect("its address")).expect("a socket");
    let wire = Wire::sealed(stream, Box::new(Broken(pieces)));
    let (token, is_watched, dial) = (Token(FIRST), false, None);
    let (is_readable, is_writable, last_words) = (false, true, None);
    let link = Link { wire, token, is_watched, is_readable, is_writable, last_words, dial };
    net.links.insert(two, link);
    net.write(&mut engine);
    while net.has_more() {
        net.read(&mut engine, now);
    }
    assert!(net.links.is_empty() && engine.output(two).is_empty());
    (engine.session(two), engine.counts().bytes_in as usize)
}

#[test]
fn a_bye_is_heard_behind_many_pieces() {
    for pieces in [1, 2, 17, 100] {
        let all = (pieces - 1) * PIECE + BYE.len();
        assert_eq!(heard(pieces), (Session::Closed(Reason::PeerClosed), all));
    }
}

#[test]
fn who_says_no_bye_is_heard_for_a_while() {
    assert_eq!(heard(0), (Session::Down { since: Duration::ZERO }, 0));
    assert_eq!(heard(usize::MAX), (Session::Down { since: Duration::ZERO }, LAST_WORDS));
}

// A connection with the other space, and its far end.
fn linked(net: &mut Net, now: Duration) -> (SpaceId, std::net::TcpStream) {
    let two = SpaceId::new(2).expect("1 to 32");
    let listener = std::net::TcpListener::bind("127.0.0.1:0").expect("a port");
    let address = listener.local_addr().expect("its address");
    let far = std::net::TcpStream::connect(address).expect("a socket");
    let (near, _) = listener.accept().expect("a connection");
    near.set_nonblocking(true).expect("a socket");
    let token = net.next_token;
    net.begin(Wire::plain(TcpStream::from_std(near)), None, now, now);
    let pending = net.pending.remove(&token).expect("it was begun");
    net.link(token, two, pending);
    (two, far)
}

#[test]
fn a_connection_that_is_always_busy_is_not_watched_until_it_is_waited_for() {
    let now = Duration::ZERO;
    let (mut engine, mut net) = alone(None);
    let (two, mut far) = linked(&mut net, now);
    for found in 0..FOUND {
        let link = net.links.get_mut(two).expect("a link");
        assert!(link.is_watched, "found {found} times");
        far.write_all(&PING).expect("a socket");
        while !net.look(&mut engine, now) {}
    }
    assert!(!net.links.get_mut(two).expect("a link").is_watched);
    // What came since is heard of at once.
    far.write_all(&PING).expect("a socket");
    net.sleep(Duration::from_secs(60));
    let link = net.links.get_mut(two).expect("a link");
    assert!(link.is_watched && link.is_readable);
    assert!(net.read(&mut engine, now) && !net.look(&mut engine, now));
}

#[test]
fn who_connects_or_sends_is_heard_also_where_nothing_is_waited_for() {
    let listener = TcpListener::bind("127.0.0.1:0".parse().expect("an address")).expect("a port");
    let address = listener.local_addr().expect("its address");
    let (mut engine, mut net) = alone(Some(listener));
    let (_, mut far) = linked(&mut net, Duration::ZERO);
    net.read(&mut engine, Duration::ZERO);
    let _stranger = std::net::TcpStream::connect(address).expect("a socket");
    far.write_all(&PING).expect("a socket");
    let heard = |net: &Net, engine: &Engine| (net.pending.len(), engine.counts().bytes_in);
    net.read(&mut engine, ASKS / 2);
    assert_eq!(heard(&net, &engine), (0, 0));
    net.read(&mut engine, ASKS);
    assert_eq!(heard(&net, &engine), (1, PING.len() as u64));
}
