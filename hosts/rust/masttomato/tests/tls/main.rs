//! Nodes whose connections are sealed: who comes in, and who doesn't, with what words; and that neither is any matter to
//! the others. `openssl` makes the certificates, by tools/world-certificates.

#[path = "../nodes/proxy.rs"]
#[allow(dead_code)]
mod proxy;
#[path = "../common/scene.rs"]
mod scene;
mod strangers;

use masttomato::engine::{Flaw, Hello, Life, WINDOW, World};
use masttomato::{
    BadIdentity, Builder, CallError, Context, Identity, Node, NodeError, Peers, Reason, Remote,
    Run, Session, SpaceId, Why, interface,
};
use proxy::Proxy;
use scene::{call, frame, record};
use std::io::{ErrorKind, Read, Write};
use std::net::{SocketAddr, TcpStream};
use std::path::{Path, PathBuf};
use std::process::Command;
use std::sync::mpsc::{Receiver, Sender, channel};
use std::sync::{Arc, Mutex, OnceLock};
use std::time::{Duration, Instant};
use strangers::{Shown, Talks, between, first_words, knock, pose, shown};

/// An object of tests.
#[interface]
pub trait Bell {
    /// Answers what it is given.
    fn ring(&mut self, sound: Vec<u8>) -> Vec<u8>;
}

struct Brass;

impl Bell for Brass {
    fn ring(&mut self, sound: Vec<u8>) -> Vec<u8> {
        sound
    }
}

fn id(number: u16) -> SpaceId {
    SpaceId::new(number).expect("1 to 32")
}

const LAST: u16 = 9;
const MINUTE: Duration = Duration::from_secs(60);

// ---- certificates -----------------------------------------------------------------------------------

// Has the tool make certificates, with what it is told in its environment.
fn make(folder: &Path, world: &str, spaces: &[&str], told: &[(&str, &str)]) {
    let tool = Path::new(env!("CARGO_MANIFEST_DIR")).join("../../../tools/world-certificates");
    let mut command = Command::new(tool);
    command.arg(folder).arg(world).args(spaces).envs(told.iter().copied());
    let done = command.output().expect("the tool runs");
    assert!(done.status.success(), "{}", String::from_utf8_lossy(&done.stderr));
}

// A folder below that of all certificates, with the authority of the world.
fn beside(all: &Path, name: &str) -> PathBuf {
    let folder = all.join(name);
    std::fs::create_dir_all(&folder).expect("a folder");
    for file in ["authority.pem", "authority.key"] {
        std::fs::copy(all.join(file), folder.join(file)).expect("a copy");
    }
    folder
}

// The certificates of all tests; none where there is no openssl.
fn certificates() -> Option<&'static Path> {
    static ALL: OnceLock<Option<PathBuf>> = OnceLock::new();
    let made = ALL.get_or_init(|| {
        if Command::new("openssl").arg("version").output().is_err() {
            eprintln!("skipped: there is no openssl to make certificates");
            return None;
        }
        let all =
            Path::new(env!("CARGO_TARGET_TMPDIR")).join(format!("tls-{}", std::process::id()));
        make(&all, "shop", &["1", "2", "3", "4..=6", "7..=8"], &[]);
        make(&beside(&all, "bank"), "bank", &["1", "2"], &[]);
        make(&beside(&all, "past"), "shop", &["2"], &[("UNTIL", "20200102000000Z")]);
        let ahead = [("FROM", "20490101000000Z"), ("UNTIL", "20491231000000Z")];
        make(&beside(&all, "ahead"), "shop", &["2"], &ahead);
        let wild = [("NAMES", "DNS:*.shop.masttomato")];
        make(&beside(&all, "wild"), "shop", &["2"], &wild);
        make(&beside(&all, "gone"), "shop", &["1", "2"], &[]);
        make(&all.join("other"), "shop", &["1", "2"], &[]);
        let alone = Command::new("openssl")
            .args([
                "req",
                "-x509",
                "-newkey",
                "ec",
                "-pkeyopt",
                "ec_paramgen_curve:P-256",
                "-nodes",
            ])
            .args(["-subj", "/CN=alone", "-addext", "subjectAltName=DNS:space-2.shop.masttomato"])
            .args(["-addext", "basicConstraints=CA:FALSE", "-keyout"])
            .arg(all.join("alone.key"))
            .arg("-out")
            .arg(all.join("alone.pem"))
            .output();
        assert!(alone.expect("openssl").status.success());
        Some(all)
    });
    made.as_deref()
}

fn identity(folder: &Path, name: &str) -> Identity {
    let file = |ending: &str| folder.join(format!("{name}.{ending}"));
    Identity::read(file("pem"), file("key"), folder.join("authority.pem")).expect("an identity")
}

// The certificates that no member takes any more.
fn revoked(all: &Path) -> String {
    let read = |name: &str| std::fs::read_to_string(all.join("gone").join(name)).expect("a file");
    [read("space-1.pem"), read("space-2.pem")].concat()
}

fn identity_of_member(all: &Path, name: &str) -> Identity {
    identity(all, name).without(&revoked(all)).expect("certificates")
}

// ---- nodes ------------------------------------------------------------------------------------------

fn builder(number: u16, peers: Peers) -> Builder {
    Node::builder(id(number), peers).spaces(id(LAST)).world("shop")
}

// The first space, with a bell, and where it listens.
fn owner(all: &Path) -> (Node, SocketAddr) {
    let owner = builder(1, Peers::none()).tls(identity_of_member(all, "space-1"));
    let owner = owner.listen("127.0.0.1:0").start().expect("a node");
    owner.bind("bell", &owner.export::<dyn Bell>(Box::new(Brass)).expect("room")).expect("a name");
    let address = owner.address().expect("it listens");
    (owner, address)
}

fn member(all: &Path, number: u16, name: &str, owner: SocketAddr) -> Node {
    let peers = Peers::none().with(id(1), owner);
    builder(number, peers).tls(identity_of_member(all, name)).start().expect("a node")
}

fn bell(node: &Node) -> Remote<dyn Bell> {
    node.lookup(id(1), "bell").wait_for(MINUTE).expect("a bell")
}

fn assert_rings(bell: &Remote<dyn Bell>) {
    assert_eq!(bell.ring(b"ding".to_vec()).wait_for(MINUTE), Ok(b"ding".to_vec()));
}

fn eventually(what: &str, mut holds: impl FnMut() -> bool) {
    let since = Instant::now();
    while !holds() {
        assert!(since.elapsed() < MINUTE, "it never comes: {what}");
        std::thread::sleep(Duration::from_millis(5));
    }
}

fn hello(number: u16, world: &str, process: u64) -> Hello {
    let (space, spaces, life) = (id(number), id(LAST), Life::only(process));
    Hello { space, spaces, world: World::named(world), life, window: WINDOW, refused: None }
}

// ---- members ----------------------------------------------------------------------------------------

// The longest values go each way, by a way on which none of them can be read.
#[test]
fn members_call_each_other_and_nobody_reads_it() {
    let Some(all) = certificates() else { return };
    let (_owner, address) = owner(all);
    let proxy = Proxy::to(address);
    let two = member(all, 2, "space-2", proxy.address);
    let two_bell = bell(&two);
    for length in [0, 1, 8_000, 15_900] {
        let sound: Vec<u8> = (0..length).map(|place| (place % 251) as u8).collect();
        assert_eq!(two_bell.ring(sound.clone()).wait_for(MINUTE), Ok(sound));
    }
    let all_at_once: Vec<_> = (0..500).map(|_| two_bell.ring(vec![7; 12_000])).collect();
    assert!(all_at_once.into_iter().all(|call| call.wait_for(MINUTE) == Ok(vec![7; 12_000])));
    // A connection that breaks is opened again, and sealed anew.
    proxy.cut();
    assert_rings(&two_bell);
    let local = builder(3, Peers::none().with(id(1), address)).tls(identity(all, "space-3"));
    let local = local.start_local().expect("a node");
    let local_bell: Remote<dyn Bell> = local.lookup(id(1), "bell").wait().expect("a bell");
    assert_eq!(local_bell.ring(vec![9]).wait(), Ok(vec![9]));
}

// What a member says to an owner while it rings once, as it can be seen on the way.
fn seen_of_a_member(all: &Path, owner: SocketAddr, sound: &[u8]) -> Vec<u8> {
    let seen = Arc::<Mutex<Vec<u8>>>::default();
    let notes = seen.clone();
    let way = between(owner, move || {
        let notes = notes.clone();
        Box::new(move |piece| notes.lock().expect("no panic").extend_from_slice(piece))
    });
    let two = member(all, 2, "space-2", way.address);
    assert_eq!(bell(&two).ring(sound.to_vec()).wait_for(MINUTE), Ok(sound.to_vec()));
    two.shutdown(MINUTE);
    drop(way);
    std::mem::take(&mut seen.lock().expect("no panic"))
}

// What goes over a connection begins as TLS does, and has nothing of what is said.
#[test]
fn nothing_that_is_said_can_be_seen() {
    let Some(all) = certificates() else { return };
    let (_owner, address) = owner(all);
    let sound = b"a very loud sound";
    let seen = seen_of_a_member(all, address, sound);
    assert_eq!(seen[..2], [22, 3], "a handshake of TLS");
    for hidden in [&b"NOBN"[..], b"bell", sound, b"shop"] {
        assert!(!seen.windows(hidden.len()).any(|part| part == hidden), "{hidden:?}");
    }
}

// Who says again what was seen of a member isn't let in by it, and nothing of it is heard.
#[test]
fn what_was_seen_cannot_be_said_again() {
    let Some(all) = certificates() else { return };
    let (owner, address) = owner(all);
    let seen = seen_of_a_member(all, address, b"a sound");
    let has_left = || matches!(owner.session(id(2)), Session::Closed(_));
    eventually("the owner has heard all of it", has_left);
    let before = owner.counts();
    for count in 1..=3 {
        let mut stream = TcpStream::connect(address).expect("it listens");
        let _said = stream.write_all(&seen);
        eventually("it is turned away", || {
            owner.counts().turned_away >= before.turned_away + count
        });
    }
    let after = owner.counts();
    assert_eq!((after.frames_in, after.connects), (before.frames_in, before.connects));
    assert_rings(&bell(&member(all, 3, "space-3", address)));
}

// A byte is changed on the way behind every 20,000th: the connection ends there and is opened again, and each call is carried
// out once, with what was said.
#[test]
fn what_is_changed_on_the_way_is_not_taken() {
    let Some(all) = certificates() else { return };
    let (owner, address) = owner(all);
    let way = between(address, || {
        let mut count = 0;
        Box::new(move |piece| {
            count += piece.len();
            if count > 20_000 {
                piece[0] ^= 0x10;
            }
        })
    });
    let two = member(all, 2, "space-2", way.address);
    let bell = bell(&two);
    for number in 0..40 {
        let sound = vec![number; 4_000];
        assert_eq!(bell.ring(sound.clone()).wait_for(MINUTE), Ok(sound));
    }
    assert!(two.counts().connects > 5, "{:?}", two.counts());
    assert_eq!((owner.counts().misbehaved, two.counts().misbehaved), (0, 0));
    drop((bell, two));
}

/// An object that isn't for everybody.
#[interface]
pub trait Safe {
    /// Whether it opens for who calls.
    fn open(&mut self, context: &Context) -> bool;
}

struct Steel;

impl Safe for Steel {
    fn open(&mut self, context: &Context) -> bool {
        context.caller() == id(2)
    }
}

// Any member may call it, and it asks who does: a certificate says so.
#[test]
fn an_object_knows_who_calls() {
    let Some(all) = certificates() else { return };
    let (owner, address) = owner(all);
    let safe = owner.export::<dyn Safe>(Box::new(Steel)).expect("room");
    owner.bind("safe", &safe).expect("a name");
    for (number, name, opens) in [(2, "space-2", true), (3, "space-3", false)] {
        let node = member(all, number, name, address);
        let safe: Remote<dyn Safe> = node.lookup(id(1), "safe").wait_for(MINUTE).expect("a safe");
        assert_eq!(safe.open().wait_for(MINUTE), Ok(opens));
    }
}

// A certificate may name all numbers that a service's processes take, one after the other, at one address.
#[test]
fn a_certificate_may_name_a_range() {
    let Some(all) = certificates() else { return };
    let (_owner, address) = owner(all);
    let peers = |line: &str| line.parse::<Peers>().expect("peers").with(id(1), address);
    let five = builder(5, peers("4..=6 127.0.0.1:0")).tls(identity(all, "space-4-6"));
    let five = five.start().expect("a node");
    five.bind("bell", &five.export::<dyn Bell>(Box::new(Brass)).expect("room")).expect("a name");
    let at = five.address().expect("it listens");
    let seven = builder(7, peers(&format!("4..=6 {at}"))).tls(identity(all, "space-7-8"));
    let seven = seven.start().expect("a node");
    let found: Remote<dyn Bell> = seven.lookup(id(5), "bell").wait_for(MINUTE).expect("a bell");
    assert_rings(&found);
    assert_rings(&bell(&seven));
}

/// Says that it was rung, and answers when it is told to.
struct Stuck(Sender<()>, Receiver<()>);

impl Bell for Stuck {
    fn ring(&mut self, sound: Vec<u8>) -> Vec<u8> {
        let _told = (self.0.send(()), self.1.recv());
        sound
    }
}

// A member calls, says bye and is gone while the owner's thread carries its call out. It hasn't read the owner's hello: so
// its end is a reset, and nothing can be written to it any more. What it said before is heard all the same.
#[test]
fn a_bye_is_heard_though_nothing_can_be_written() {
    let Some(all) = certificates() else { return };
    let (owner, address) = owner(all);
    let ((rung, is_rung), (go_on, goes_on)) = (channel(), channel());
    let stuck = owner.export_with::<dyn Bell>(Box::new(Stuck(rung, goes_on)), Run::Inline);
    owner.bind("stuck", &stuck.expect("room")).expect("a name");
    let mut member = Talks::to(address, &shown(all, "space-2"));
    member.say(&hello(2, "shop", 77).to_bytes());
    eventually("it is let in", || owner.session(id(2)) == Session::Open);
    // It asks to be listed for the owner's second object, and calls that.
    let mut item = call(1, &[2, 0, 0, 0, 1, 7]);
    item[16] = 2;
    let dirty = [4, 0, 0, 0, 0, 0, 0, 0, 2];
    member.say(&record(0, 1, &[frame(2, 1, 1, &dirty), frame(2, 1, 2, &item)].concat()));
    is_rung.recv_timeout(MINUTE).expect("its call runs");
    member.say(&record(1, 0, &[]).repeat(1_000));
    member.say(&record(3, 0, &[]));
    drop(member);
    go_on.send(()).expect("it waits");
    eventually("it is heard", || owner.session(id(2)) == Session::Closed(Reason::PeerClosed));
}

// ---- strangers --------------------------------------------------------------------------------------

/// Who comes, what is shown, what is said, and why that isn't enough.
type Stranger = (&'static str, Option<Shown>, Hello, Why, &'static str);

// The first ten don't come as far as a hello, which would be answered. README.md has the sentences.
fn strangers_of(all: &Path) -> Vec<Stranger> {
    let of = |folder: &str, name: &str| Some(shown(&all.join(folder), name));
    let mut long: Shown = shown(all, "space-3");
    long.chain.extend(std::iter::repeat_n(shown(all, "authority").chain.remove(0), 3));
    let three = hello(3, "shop", 33);
    use Flaw::{Expired, Missing, NotYet, OtherAuthority, OtherName, Revoked, Unfit};
    let authority = "its certificate isn't signed by this world's authority";
    let name = "its certificate doesn't name this space of this world";
    let unfit = "its certificate is none of a node: an authority's own, or for other uses";
    let used = "its number was used by an earlier life: a process that starts again takes the next number, or keeps bounds and comes back";
    let shows =
        |what, shown, flaw, sentence| (what, shown, three, Why::Certificate(flaw), sentence);
    vec![
        shows("no certificate", None, Missing, "it shows no certificate"),
        shows("signed by itself", of("", "alone"), OtherAuthority, authority),
        shows("another authority", of("other", "space-2"), OtherAuthority, authority),
        shows("expired", of("past", "space-2"), Expired, "its certificate has expired"),
        shows("not valid yet", of("ahead", "space-2"), NotYet, "its certificate isn't valid yet"),
        shows("revoked", of("gone", "space-2"), Revoked, "its certificate was revoked"),
        shows("another world", of("bank", "space-2"), OtherName, name),
        shows("all names at once", of("wild", "space-2"), OtherName, name),
        shows("the authority itself", of("", "authority"), Unfit, unfit),
        shows("a long chain", Some(long), Unfit, unfit),
        shows("another's number", of("", "space-4-6"), OtherName, name),
        (
            "a hello of another world",
            of("", "space-3"),
            hello(3, "bank", 33),
            Why::OtherWorld,
            "it is of another world",
        ),
        ("a number that is used", of("", "space-2"), hello(2, "shop", 99), Why::NumberUsed, used),
    ]
}

// What an owner says of who comes, as each of these does; meanwhile a member rings.
#[test]
fn who_is_no_member_is_turned_away_with_a_sentence() {
    let Some(all) = certificates() else { return };
    let (owner, address) = owner(all);
    let two = member(all, 2, "space-2", address);
    let bell = bell(&two);
    let strangers = strangers_of(all).into_iter().enumerate();
    for (place, (what, shown, said, wanted, sentence)) in strangers {
        let answer = knock(address, shown.as_ref(), &said.to_bytes());
        // Who has a certificate of this world is answered, and hears why it isn't let in.
        if let Ok(answer) = &answer {
            let answer = Hello::from_bytes(answer[..].try_into().expect("a hello")).expect("one");
            assert_eq!(answer.refused, Some(wanted), "{what}");
        }
        let is_answered = place >= 10;
        assert_eq!(answer.is_ok(), is_answered, "{what}: {answer:?}");
        let is_told = || {
            let report = owner.report().expect("it runs");
            report.counts.turned_away == place as u64 + 1
        };
        eventually(what, is_told);
        let turned_away = owner.report().expect("it runs").turned_away.expect("the last one");
        assert_eq!((what, turned_away.why), (what, wanted));
        assert_eq!(turned_away.to_string(), format!("{}: {sentence}", turned_away.from));
        assert_rings(&bell);
    }
    assert_eq!((owner.session(id(2)), owner.counts().misbehaved), (Session::Open, 0));
    assert_eq!(two.counts().connects, 1, "nor was its connection touched");
}

// Who doesn't speak TLS, in a member's words or in none.
#[test]
fn who_speaks_no_tls_is_turned_away() {
    let Some(all) = certificates() else { return };
    let (owner, address) = owner(all);
    let two = member(all, 2, "space-2", address);
    let bell = bell(&two);
    // It says that its first words will be 16 MB, and begins them.
    let endless = [&[22, 3, 1, 0x40, 0, 1, 0xff, 0xff, 0xff][..], &[7; 0x3fff]].concat();
    let plain = hello(3, "shop", 33).to_bytes();
    for said in [&plain[..], &[0xff; 300], b"GET / HTTP/1.1\r\n\r\n", &endless] {
        let before = owner.counts().turned_away;
        let mut stream = TcpStream::connect(address).expect("it listens");
        stream.write_all(said).expect("a socket");
        eventually("it is turned away", || owner.counts().turned_away > before);
        let why = owner.report().expect("it runs").turned_away.map(|last| last.why);
        assert_eq!(why, Some(Why::Certificate(Flaw::NoTls)));
        assert_rings(&bell);
    }
}

// Whoever is connected to is asked as well: one that poses as the owner hears nothing of what was for it.
#[test]
fn who_poses_as_another_is_not_talked_to() {
    let Some(all) = certificates() else { return };
    let of = |folder: &str, name: &str| pose(&shown(&all.join(folder), name));
    let plain = Node::builder(id(1), Peers::none()).spaces(id(LAST)).world("shop");
    let plain = plain.listen("127.0.0.1:0").start().expect("a node");
    let cases = [
        ("another space", of("", "space-3"), Flaw::OtherName),
        ("another world", of("bank", "space-1"), Flaw::OtherName),
        ("another authority", of("other", "space-1"), Flaw::OtherAuthority),
        ("signed by itself", of("", "alone"), Flaw::OtherAuthority),
        ("expired", of("past", "space-2"), Flaw::Expired),
        ("revoked", of("gone", "space-1"), Flaw::Revoked),
    ];
    let posing = cases.iter().map(|(what, posing, flaw)| (*what, posing.address, *flaw));
    let plain = ("no TLS", plain.address().expect("it listens"), Flaw::NoTls);
    for (what, address, flaw) in posing.chain([plain]) {
        let two = member(all, 2, "space-2", address);
        let refused = Session::Refused(Why::Certificate(flaw));
        eventually(what, || two.session(id(1)) == refused);
        let call = two.lookup::<dyn Bell>(id(1), "bell").wait_for(Duration::from_millis(50));
        assert_eq!(call.unwrap_err(), CallError::TimedOut, "{what}");
    }
}

// One that is honest, but has its certificate of somebody else, hears that it isn't let in, and its owner's report says why.
#[test]
fn a_node_hears_that_its_certificate_is_not_taken() {
    let Some(all) = certificates() else { return };
    let (owner, address) = owner(all);
    let read = |path: PathBuf| std::fs::read_to_string(path).expect("a file");
    let authorities = read(all.join("authority.pem")) + &read(all.join("other/authority.pem"));
    let [certificate, key] =
        ["other/space-2.pem", "other/space-2.key"].map(|it| read(all.join(it)));
    let other = Identity::from_pem(&certificate, &key, &authorities).expect("an identity");
    let two = builder(2, Peers::none().with(id(1), address)).tls(other).start().expect("a node");
    let refused = Session::Refused(Why::Certificate(Flaw::Refused));
    eventually("it hears of it", || two.session(id(1)) == refused);
    let why = || owner.report().expect("it runs").turned_away.map(|last| last.why);
    eventually("the report says why", || why() == Some(Why::Certificate(Flaw::OtherAuthority)));
}

// ---- limits -----------------------------------------------------------------------------------------

// Whether whoever listens has hung up.
fn is_hung_up(stream: &mut TcpStream) -> bool {
    stream.set_nonblocking(true).expect("a socket");
    match stream.read(&mut [0]) {
        Ok(count) => count == 0,
        Err(error) => error.kind() != ErrorKind::WouldBlock,
    }
}

// 64 strangers that say nothing, or a byte now and then, are listened to for five seconds each; who comes meanwhile is
// hung up on at once, and members who are there go on. Afterwards there is room again.
#[test]
fn handshakes_are_bounded_in_count_and_time() {
    let Some(all) = certificates() else { return };
    let (owner, address) = owner(all);
    let two = member(all, 2, "space-2", address);
    let bell = bell(&two);
    let began = Instant::now();
    let connect = || TcpStream::connect(address).expect("it listens");
    let mut strangers: Vec<TcpStream> = (0..64).map(|_| connect()).collect();
    let mut further = connect();
    eventually("a further one is hung up on", || is_hung_up(&mut further));
    assert_rings(&bell);
    let mut bytes = [22, 3, 1, 2, 0, 1, 0, 1, 0xfc, 3, 3].into_iter().cycle();
    eventually("all are hung up on", || {
        let byte = [bytes.next().expect("without end")];
        strangers.iter_mut().for_each(|stream| drop(stream.write(&byte)));
        std::thread::sleep(Duration::from_millis(100));
        assert_rings(&bell);
        strangers.iter_mut().all(is_hung_up)
    });
    // Those whose bytes were none of TLS were hung up on before their time.
    assert!(began.elapsed() < Duration::from_secs(40));
    let three = member(all, 3, "space-3", address);
    assert_rings(&self::bell(&three));
    assert!(owner.counts().turned_away >= 65);
}

// As many strangers come as can in some seconds, of whom each third begins a handshake, which costs the door a signature: a
// member that is there goes on, on the connection that it had.
#[test]
fn strangers_who_come_without_a_pause_leave_members_alone() {
    let Some(all) = certificates() else { return };
    let (owner, address) = owner(all);
    let two = member(all, 2, "space-2", address);
    let bell = bell(&two);
    let words = [Vec::new(), vec![0xff; 300], first_words()];
    std::thread::scope(|scope| {
        let come = scope.spawn(|| {
            for words in words.iter().cycle().take(3_000) {
                let mut stream = TcpStream::connect(address).expect("it listens");
                let _said = stream.write_all(words);
            }
        });
        let mut rung = 0;
        while !come.is_finished() || rung == 0 {
            assert_rings(&bell);
            rung += 1;
        }
        come.join().expect("no panic");
    });
    eventually("all are turned away", || owner.counts().turned_away == 3_000);
    assert_eq!((two.counts().connects, owner.session(id(2))), (1, Session::Open));
    assert_rings(&self::bell(&member(all, 3, "space-3", address)));
}

// ---- who a node is ----------------------------------------------------------------------------------

#[test]
fn a_node_that_nobody_would_let_in_is_not_started() {
    let Some(all) = certificates() else { return };
    let start = |world: &str, number: u16, identity: Identity| {
        let builder = Node::builder(id(number), Peers::none()).world(world).listen("127.0.0.1:0");
        match builder.tls(identity).start() {
            Err(NodeError::Identity(bad)) => bad.to_string(),
            other => panic!("{other:?}"),
        }
    };
    let cases = [
        (
            start("shop", 2, identity(all, "space-1")),
            "the certificate doesn't name space-2.shop.masttomato",
        ),
        (
            start("bank", 1, identity(all, "space-1")),
            "the certificate doesn't name space-1.bank.masttomato",
        ),
        (
            start("The Shop", 1, identity(all, "space-1")),
            "with TLS a world's name has letters from a to z, digits, and - between them",
        ),
        (
            start("", 1, identity(all, "space-1")),
            "with TLS a world's name has letters from a to z, digits, and - between them",
        ),
        (
            start("shop", 2, identity(&all.join("past"), "space-2")),
            "nobody would let this node in: its certificate has expired",
        ),
    ];
    for (said, wanted) in cases {
        assert_eq!(said, wanted);
    }
    let read = |name: &str| std::fs::read_to_string(all.join(name)).expect("a file");
    let other = Identity::from_pem(
        &read("space-1.pem"),
        &read("space-1.key"),
        &read("other/authority.pem"),
    );
    let said = start("shop", 1, other.expect("an identity"));
    assert_eq!(
        said,
        "nobody would let this node in: its certificate isn't signed by this world's authority"
    );
    let key =
        Identity::from_pem(&read("space-1.pem"), &read("space-1.pem"), &read("authority.pem"));
    assert!(matches!(key, Err(BadIdentity::NoKey)));
    let none = Identity::from_pem(&read("space-1.pem"), &read("space-1.key"), "");
    assert!(matches!(none, Err(BadIdentity::NoAuthority)));
}

// With certificates a node listens on all addresses, and without them on this machine's own alone.
#[test]
fn who_shows_a_certificate_may_listen_everywhere() {
    let Some(all) = certificates() else { return };
    let everywhere = || builder(1, Peers::none()).listen("0.0.0.0:0");
    assert!(matches!(everywhere().start(), Err(NodeError::Insecure)));
    let node = everywhere().tls(identity(all, "space-1")).start().expect("a node");
    assert!(node.address().is_some_and(|address| address.ip().is_unspecified()));
}
