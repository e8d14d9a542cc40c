//! What a program that listens to `tracing` hears of two nodes: a span of each call and one of the method at the other
//! end, which have the same number, and an event of each change of a session.

use masttomato::engine::{HELLO, Hello, Life, WINDOW, World};
use masttomato::{CallError, Node, Peers, Remote, SpaceId, interface};
use std::collections::BTreeMap;
use std::fmt::Debug;
use std::io::{Read, Write};
use std::net::TcpStream;
use std::sync::{Arc, Mutex};
use std::time::{Duration, Instant};
use tracing::field::{Field, Visit};
use tracing::span::{Attributes, Id, Record};
use tracing::{Event, Metadata, Subscriber, info_span};

/// An object of tests.
#[interface]
pub trait Bell {
    /// Rings once.
    fn ring(&mut self) -> String;
    /// Rings later.
    async fn ring_later(&mut self) -> String;
}

struct Brass;

impl Bell for Brass {
    fn ring(&mut self) -> String {
        "ding".into()
    }

    async fn ring_later(&mut self) -> String {
        "dong".into()
    }
}

/// A span or an event, with its fields.
#[derive(Clone, Debug, Default, PartialEq)]
struct Heard {
    name: &'static str,
    fields: BTreeMap<&'static str, String>,
    closed: bool,
    entered: bool,
}

impl Visit for Heard {
    fn record_debug(&mut self, field: &Field, value: &dyn Debug) {
        self.fields.insert(field.name(), format!("{value:?}"));
    }
}

/// Keeps all that it hears, of masttomato alone.
#[derive(Clone, Default)]
struct Listener(Arc<Mutex<Vec<Heard>>>);

impl Listener {
    fn put(&self, heard: Heard) -> u64 {
        let mut all = self.0.lock().expect("no panic");
        all.push(heard);
        all.len() as u64
    }

    fn change(&self, span: &Id, change: impl FnOnce(&mut Heard)) {
        let mut all = self.0.lock().expect("no panic");
        change(&mut all[span.into_u64() as usize - 1]);
    }

    fn of_name(&self, name: &str) -> Vec<Heard> {
        let all = self.0.lock().expect("no panic");
        all.iter().filter(|heard| heard.name == name).cloned().collect()
    }
}

impl Subscriber for Listener {
    fn enabled(&self, _: &Metadata<'_>) -> bool {
        true
    }

    fn new_span(&self, span: &Attributes<'_>) -> Id {
        let mut heard = Heard { name: span.metadata().name(), ..Heard::default() };
        span.record(&mut heard);
        Id::from_u64(self.put(heard))
    }

    fn record(&self, span: &Id, values: &Record<'_>) {
        self.change(span, |heard| values.record(heard));
    }

    fn record_follows_from(&self, _: &Id, _: &Id) {}

    fn event(&self, event: &Event<'_>) {
        let mut heard = Heard { name: "event", ..Heard::default() };
        event.record(&mut heard);
        self.put(heard);
    }

    fn enter(&self, span: &Id) {
        self.change(span, |heard| heard.entered = true);
    }

    fn exit(&self, _: &Id) {}

    fn try_close(&self, span: Id) -> bool {
        self.change(&span, |heard| heard.closed = true);
        true
    }
}

fn eventually(what: &str, mut holds: impl FnMut() -> bool) {
    let since = Instant::now();
    while !holds() {
        assert!(since.elapsed() < Duration::from_secs(20), "{what}");
        std::thread::sleep(Duration::from_millis(5));
    }
}

#[test]
fn calls_and_methods_are_spans_and_sessions_make_events() {
    let listener = Listener::default();
    tracing::subscriber::set_global_default(listener.clone()).expect("the only one");
    let [one, two] = [1, 2].map(|number| SpaceId::new(number).expect("1 to 32"));
    let owner = Node::builder(one, Peers::none()).listen("127.0.0.1:0").spaces(two);
    let owner = owner.start().expect("a node");
    owner.bind("bell", &owner.export::<dyn Bell>(Box::new(Brass)).expect("room")).expect("a name");
    let peers = Peers::none().with(one, owner.address().expect("it listens"));
    let caller = Node::builder(two, peers).start().expect("a node");
    let bell: Remote<dyn Bell> = caller.lookup(one, "bell").wait().expect("a bell");
    let outside = info_span!("outside");
    let rung = outside.in_scope(|| bell.ring().wait());
    assert_eq!(rung, Ok("ding".to_string()));
    assert_eq!(bell.ring_later().wait(), Ok("dong".to_string()));

    // Each method that was carried out at the owner is a call of the caller, with the same number.
    let served = || {
        let all = listener.of_name("serve").into_iter();
        all.map(|heard| (heard.fields["call"].clone(), heard.fields["object"].clone()))
    };
    eventually("both methods are heard of", || served().count() == 2);
    let calls = listener.of_name("call");
    for (call, object) in served() {
        let fields = &calls.iter().find(|heard| heard.fields["call"] == call).expect("it").fields;
        assert_eq!((&fields["owner"], &fields["object"]), (&"1".to_string(), &object));
    }
    assert!(listener.of_name("serve").iter().all(|heard| heard.fields["client"] == "2"));
    assert!(listener.of_name("serve").iter().all(|heard| heard.entered));
    eventually("they are over", || listener.of_name("serve").iter().all(|heard| heard.closed));

    caller.close(one);
    assert!(matches!(bell.ring().wait(), Err(CallError::Down(_) | CallError::Ended(_))));
    let errors = || {
        listener.of_name("call").into_iter().filter_map(|heard| heard.fields.get("error").cloned())
    };
    assert_eq!(errors().count(), 1);
    let changes = |session: &str| {
        let events = listener.of_name("event").into_iter();
        events
            .filter(|heard| heard.fields.get("session").is_some_and(|said| said == session))
            .count()
    };
    eventually("both ends say that they are open", || changes("Open") >= 2);
    eventually("both ends say that they closed", || {
        changes("Closed(Asked)") == 1 && changes("Closed(PeerClosed)") == 1
    });

    // Who is turned away at the door makes one, with where it came from and why.
    let mut stranger = TcpStream::connect(owner.address().expect("it listens")).expect("a node");
    stranger.write_all(&[7; 64]).expect("a socket");
    let from = stranger.local_addr().expect("it has one").to_string();
    let is_heard = |one: (&str, &str), other: (&str, &str)| {
        let said = |heard: &Heard, (name, wanted): (&str, &str)| {
            heard.fields.get(name).is_some_and(|said| said == wanted)
        };
        listener.of_name("event").iter().any(|heard| said(heard, one) && said(heard, other))
    };
    let why = ("why", "it said no hello");
    eventually("the stranger is heard of", || is_heard(("from", &from), why));

    // And so does a peer that misbehaves.
    let other = Node::builder(one, Peers::none()).listen("127.0.0.1:0").spaces(two);
    let other = other.start().expect("a node");
    let mut peer = TcpStream::connect(other.address().expect("it listens")).expect("a node");
    let (life, world) = (Life::only(7), World::default());
    let hello = Hello { space: two, spaces: two, world, life, window: WINDOW, refused: None };
    peer.write_all(&hello.to_bytes()).expect("a socket");
    peer.read_exact(&mut [0; HELLO]).expect("an answer");
    peer.write_all(&[0xff; 64]).expect("a socket");
    let how = ("how", "it sent bytes that are no record");
    eventually("the peer is heard of", || is_heard(("peer", "2"), how));
}
