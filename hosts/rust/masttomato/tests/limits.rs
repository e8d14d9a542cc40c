//! Limits of a node: what is said at each, and that others go on meanwhile. Those of which tests/hostile.rs speaks aren't
//! here, and how much memory a node takes at them is looked at in tests/memory.rs.

use masttomato::engine::{
    Answered, Engine, HELLO, Hello, Life, Session, Settings, Ticket, WINDOW, Why, World,
};
use masttomato::space::{Outcome, Refusal, SpaceError, SpaceId, Value};
use masttomato::{Node, NodeError, Peers, Remote, interface};
use std::io::{ErrorKind, Read, Write};
use std::net::{SocketAddr, TcpStream};
use std::time::{Duration, Instant};

/// An object of tests.
#[interface]
pub trait Bell {
    /// Rings.
    fn ring(&mut self) -> u8;
}

struct Brass;

impl Bell for Brass {
    fn ring(&mut self) -> u8 {
        7
    }
}

fn id(number: u16) -> SpaceId {
    SpaceId::new(number).expect("1 to 32")
}

fn engine(number: u16, spaces: u16) -> Engine {
    Engine::new(Settings::new(id(number), id(spaces)), Duration::ZERO).expect("memory")
}

fn connect(one: &mut Engine, other: &mut Engine) {
    let (first, second) = (one.id(), other.id());
    one.connected(second, Life::only(second.get().into()), Duration::ZERO).expect("its only life");
    other.connected(first, Life::only(first.get().into()), Duration::ZERO).expect("its only life");
}

// What an engine has for the other comes to it, which does what there is to do.
fn carry(from: &mut Engine, to: &mut Engine, now: Duration) {
    let _turn = from.turn(now);
    let out = from.output(to.id());
    to.bytes(from_of(to), out.left(), now).expect("what an honest engine sends");
    out.advance(usize::MAX);
}

// Of two engines, 1 and 2, the other one's number.
fn from_of(to: &Engine) -> SpaceId {
    id(3 - to.id().get())
}

#[test]
fn so_many_calls_are_open_and_further_ones_wait() {
    let (mut owner, mut caller) = (engine(1, 2), engine(2, 2));
    connect(&mut owner, &mut caller);
    for ticket in 1..=2_048 {
        caller.try_call(Ticket(ticket), id(1).agent(), 0, Value::Unit);
    }
    caller.try_call(Ticket(3_000), id(1).agent(), 0, Value::Unit);
    caller.call(Ticket(3_001), id(1).agent(), 0, Value::Unit);
    let now = Duration::ZERO;
    assert_eq!(caller.turn(now).answers, [(Ticket(3_000), Answered::Busy)]);
    let report = caller.report(now);
    assert_eq!((report.counts.calls_open, report.sessions[0].held), (2_048, 1));
    // One answer makes room for the one that waits.
    carry(&mut caller, &mut owner, now);
    let job = owner.turn(now).jobs.remove(0);
    owner.finish(job.job, Outcome::NoMethod);
    // An acknowledgement, and then the answer.
    (0..2).for_each(|_| carry(&mut owner, &mut caller, now));
    assert_eq!(caller.turn(now).answers.len(), 1);
    let report = caller.report(now);
    assert_eq!((report.counts.calls_open, report.sessions[0].held), (2_048, 0));
    assert_eq!(caller.session(id(1)), Session::Open);
}

#[test]
fn so_many_objects_are_live_and_no_more() {
    let mut owner = engine(1, 2);
    let first = owner.export().expect("room");
    for _ in 2..=65_536 {
        owner.export().expect("room");
    }
    assert_eq!(owner.export(), Err(SpaceError::Refused(Refusal::Limit)));
    assert_eq!(owner.report(Duration::ZERO).live, 65_536);
    owner.release(first);
    assert_eq!(owner.turn(Duration::ZERO).withdrawn, [first.index]);
    let next = owner.export().expect("room again");
    assert_eq!(next.index, 65_537, "no index is used twice");
}

#[test]
fn so_many_names_are_bound_and_no_more() {
    let node = Node::builder(id(1), Peers::none()).start().expect("a node");
    let bell = node.export::<dyn Bell>(Box::new(Brass)).expect("room");
    for number in 0..1_024 {
        node.bind(&format!("bell {number}"), &bell).expect("a name");
    }
    for name in ["one more", "", &"n".repeat(256)] {
        assert!(matches!(node.bind(name, &bell), Err(NodeError::BadName)), "{name}");
    }
    node.bind("bell 5", &bell).expect("a name that is there may be bound again");
    assert!(node.unbind("bell 6"));
    node.bind(&"n".repeat(255), &bell).expect("room again");
}

// Whether whoever listens has hung up.
fn is_hung_up(stream: &mut TcpStream) -> bool {
    stream.set_nonblocking(true).expect("a socket");
    match stream.read(&mut [0]) {
        Ok(count) => count == 0,
        Err(error) => error.kind() != ErrorKind::WouldBlock,
    }
}

fn eventually(what: &str, mut holds: impl FnMut() -> bool) {
    let since = Instant::now();
    while !holds() {
        assert!(since.elapsed() < Duration::from_secs(60), "it never comes: {what}");
        std::thread::sleep(Duration::from_millis(5));
    }
}

// Strangers who say nothing: 64 are waited for, five seconds each; whoever comes meanwhile is hung up on at once,
// and members who are there go on. Afterwards there is room again.
#[test]
fn so_many_strangers_are_waited_for_and_not_for_long() {
    let owner = Node::builder(id(1), Peers::none()).listen("127.0.0.1:0").spaces(id(3));
    let owner = owner.start().expect("a node");
    let address = owner.address().expect("it listens");
    owner.bind("bell", &owner.export::<dyn Bell>(Box::new(Brass)).expect("room")).expect("a name");
    let member = |number| {
        let peers = Peers::none().with(id(1), address);
        Node::builder(id(number), peers).spaces(id(3)).start().expect("a node")
    };
    let two = member(2);
    let bell: Remote<dyn Bell> = two.lookup(id(1), "bell").wait().expect("a bell");
    let began = Instant::now();
    let connect = || TcpStream::connect(address).expect("a node");
    let mut strangers: Vec<TcpStream> = (0..64).map(|_| connect()).collect();
    let mut further = connect();
    eventually("a further one is hung up on", || is_hung_up(&mut further));
    let waited = strangers.iter_mut().map(is_hung_up).filter(|is_over| !is_over).count();
    // On a machine that is busy some of their five seconds may be over.
    assert!(waited == 64 || began.elapsed() > Duration::from_secs(4), "{waited}");
    assert_eq!(bell.ring().wait_for(Duration::from_secs(60)), Ok(7));
    eventually("they are hung up on", || strangers.iter_mut().all(is_hung_up));
    assert!(began.elapsed() >= Duration::from_secs(4));
    let three = member(3);
    let bell: Remote<dyn Bell> = three.lookup(id(1), "bell").wait().expect("a bell");
    assert_eq!(bell.ring().wait_for(Duration::from_secs(60)), Ok(7));
}

fn hello(number: u16) -> Hello {
    let (life, world) = (Life::only(33), World::default());
    Hello { space: id(number), spaces: id(3), world, life, window: WINDOW, refused: None }
}

// Says these bytes in place of a hello, and hears why that is refused, if it is.
fn say(address: SocketAddr, hello: &[u8; HELLO]) -> (TcpStream, Option<Why>) {
    let mut stream = TcpStream::connect(address).expect("a node");
    stream.write_all(hello).expect("a socket");
    let mut answer = [0; HELLO];
    stream.read_exact(&mut answer).expect("an answer");
    (stream, Hello::from_bytes(&answer).expect("a hello").refused)
}

// Says hello as space 3.
fn greet(address: SocketAddr) -> (TcpStream, Option<Why>) {
    say(address, &hello(3).to_bytes())
}

// Hellos of strangers to a node of space 1, which space 2 is connected to, in a world of 3.
fn hellos_that_do_not_fit() -> [([u8; HELLO], Why, &'static str); 7] {
    let world = Hello { world: World::named("another"), ..hello(3) }.to_bytes();
    let spaces = Hello { spaces: id(4), ..hello(3) }.to_bytes();
    let mut version = hello(3).to_bytes();
    version[5] = 2;
    let used = "its number was used by an earlier life: a process that starts again takes the next number, or keeps bounds and comes back";
    let releases =
        "it says hello in another version: both must be of releases whose hellos have version 4";
    let narrow = Hello { window: 8, ..hello(3) }.to_bytes();
    let windows = "its sessions have another window: each member gives up to 64 items at once";
    [
        ([7; HELLO], Why::NoHello, "it said no hello"),
        (world, Why::OtherWorld, "it is of another world"),
        (spaces, Why::OtherSpaces, "it counts another number of spaces"),
        (hello(1).to_bytes(), Why::OtherNumber, "it has a number that isn't expected there"),
        (hello(2).to_bytes(), Why::NumberUsed, used),
        (version, Why::OtherVersion, releases),
        (narrow, Why::OtherWindow, windows),
    ]
}

// Space 1 with a bell, where it listens, and space 2, which has it.
fn owner_and_member() -> (Node, SocketAddr, Node, Remote<dyn Bell>) {
    let owner = Node::builder(id(1), Peers::none()).listen("127.0.0.1:0").spaces(id(3));
    let owner = owner.start().expect("a node");
    owner.bind("bell", &owner.export::<dyn Bell>(Box::new(Brass)).expect("room")).expect("a name");
    let address = owner.address().expect("it listens");
    let two = Node::builder(id(2), Peers::none().with(id(1), address)).spaces(id(3));
    let two = two.start().expect("a node");
    let bell = two.lookup(id(1), "bell").wait().expect("a bell");
    (owner, address, two, bell)
}

// A hello that doesn't fit is answered by why, the report has the sentence, and a member's connection stays.
#[test]
fn a_hello_that_does_not_fit_is_refused_with_a_sentence() {
    let (owner, address, two, bell) = owner_and_member();
    for (place, (said, why, sentence)) in hellos_that_do_not_fit().into_iter().enumerate() {
        let (mut stream, refused) = say(address, &said);
        assert_eq!(refused, Some(why));
        eventually("it is hung up on", || is_hung_up(&mut stream));
        eventually("it is counted", || owner.counts().turned_away == place as u64 + 1);
        let last = owner.report().expect("it runs").turned_away.expect("the last one");
        assert_eq!(last.to_string(), format!("{}: {sentence}", last.from));
        assert_eq!(bell.ring().wait_for(Duration::from_secs(60)), Ok(7));
    }
    assert_eq!((two.counts().connects, owner.session(id(2))), (1, Session::Open));
    assert!(matches!(owner.session(id(3)), Session::Down { .. }), "nobody was let in as it");
}

// As many strangers come as can in a second or so, while a member calls: each of its calls is answered, on the
// connection that it had.
#[test]
fn strangers_who_come_without_a_pause_leave_members_alone() {
    let (owner, address, two, bell) = owner_and_member();
    std::thread::scope(|scope| {
        let come = scope.spawn(move || {
            for number in 0_usize..5_000 {
                let mut stream = TcpStream::connect(address).expect("it listens");
                let _said = stream.write_all(&vec![7; number % 65]);
            }
        });
        let mut rung = 0;
        while !come.is_finished() || rung == 0 {
            assert_eq!(bell.ring().wait_for(Duration::from_secs(60)), Ok(7));
            rung += 1;
        }
        come.join().expect("no panic");
    });
    eventually("all are turned away", || owner.counts().turned_away == 5_000);
    assert_eq!((two.counts().connects, owner.session(id(2))), (1, Session::Open));
}

// A peer that sends what no honest one does is hung up on, and let in again when a second has passed, and not before; its
// session stays as it was.
#[test]
fn who_misbehaves_waits_for_a_second() {
    let owner = Node::builder(id(1), Peers::none()).listen("127.0.0.1:0").spaces(id(3));
    let owner = owner.start().expect("a node");
    let address = owner.address().expect("it listens");
    let (mut stream, refused) = greet(address);
    assert_eq!(refused, None);
    let since = Instant::now();
    stream.write_all(&[0xff; 64]).expect("a socket");
    eventually("it is hung up on", || is_hung_up(&mut stream));
    assert_eq!(owner.counts().misbehaved, 1);
    // Its connection stays, so that its session does.
    let _let_in = loop {
        match greet(address) {
            (stream, None) => break stream,
            (_, Some(why)) => assert_eq!(why, Why::OtherNumber),
        }
        std::thread::sleep(Duration::from_millis(20));
    };
    assert!(since.elapsed() >= Duration::from_secs(1), "{:?}", since.elapsed());
    eventually("its session is open", || owner.session(id(3)) == Session::Open);
}
