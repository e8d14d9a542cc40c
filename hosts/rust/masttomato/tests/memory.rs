//! How much memory a node takes at each of its limits: less than 64 MB beside what it holds for others by right, each in a
//! process of its own. It goes on serving who is honest meanwhile.

#[path = "common/scene.rs"]
mod scene;

use masttomato::engine::{Engine, LONGEST_BODY, Life, Misbehaved, Session, Settings, Ticket};
use masttomato::space::{Outcome, Reason, Value};
use masttomato::{Builder, CallError, Node, Peers, Remote, interface};
use scene::{HOSTILE, Scene, call, frame, id, record, sent};
use std::io::Write;
use std::net::{SocketAddr, TcpStream};
use std::process::{Command, Stdio};
use std::time::{Duration, Instant};

/// So much a node may take beside what it holds.
const MOST: usize = 64 << 20;
/// Says to a process which limit it is to reach.
const LIMIT: &str = "MASTTOMATO_LIMIT";
const MINUTE: Duration = Duration::from_secs(60);

type Reach = fn(&Watch);

const LIMITS: &[(&str, Reach)] = &[
    ("calls of its own that wait for room", own_calls),
    ("calls of a peer that have no answer", calls_of_a_peer),
    ("answers that a peer doesn't acknowledge", answers_to_a_peer),
    ("bytes that a peer doesn't read", bytes_to_a_peer),
    ("records that never end", records_without_end),
    ("records that are too long", long_records),
    ("items of later sessions", items_of_later_sessions),
    ("objects", objects),
    ("objects of others", objects_of_others),
    ("values that are too large", large_values),
    ("strangers at the door", strangers),
    #[cfg(feature = "tls")]
    ("strangers at a door where certificates are shown", strangers_at_a_sealed_door),
];

#[test]
fn at_each_limit_a_node_takes_little_beside_what_it_holds() {
    if memory().is_none() {
        return eprintln!("skipped: nobody says how much memory a process has");
    }
    for (place, (what, _)) in LIMITS.iter().enumerate() {
        let mut command = Command::new(std::env::current_exe().expect("this test"));
        command.args(["--exact", "one_limit", "--nocapture"]).env(LIMIT, place.to_string());
        let output = command.stdin(Stdio::null()).output().expect("this test runs again");
        let said = String::from_utf8_lossy(&output.stderr);
        assert!(output.status.success(), "{what}: {said}");
    }
}

#[test]
fn one_limit() {
    let Ok(place) = std::env::var(LIMIT) else { return };
    let place: usize = place.parse().expect("a number");
    LIMITS[place].1(&Watch { before: memory().expect("it was looked at before") });
}

// How much memory this process has, where the system says so.
fn memory() -> Option<usize> {
    let statm = std::fs::read_to_string("/proc/self/statm").ok()?;
    let pages: usize = statm.split(' ').nth(1)?.parse().ok()?;
    Some(pages * 4_096)
}

struct Watch {
    before: usize,
}

impl Watch {
    // So much is held by right.
    fn assert_small(&self, held: usize) {
        let taken = memory().expect("as before").saturating_sub(self.before);
        assert!(taken < MOST + held, "{taken} bytes, of which {held} are held");
    }
}

// ---- by one peer ------------------------------------------------------------------------------------

const LENGTH: usize = 8_000;

// The pickle of so many bytes.
fn long() -> Vec<u8> {
    [&[2][..], &(LENGTH as u32).to_be_bytes(), &[7; LENGTH]].concat()
}

// 2,048 are made; the others are held for who asked.
fn own_calls(watch: &Watch) {
    let mut scene = Scene::new();
    for ticket in 0..20_000 {
        scene.owner.call(Ticket(1 << 32 | ticket), id(HOSTILE).agent(), 0, Value::Int(5));
        if ticket % 1_000 == 0 {
            let _turn = scene.turn();
        }
    }
    watch.assert_small(0);
    assert_eq!(scene.owner.counts().calls_open, 2_048);
    scene.assert_serves();
}

fn calls_of_a_peer(watch: &Watch) {
    let mut scene = Scene::new();
    let pickle = long();
    for number in 1..=4_096 {
        scene.send(&sent(number, &call(number, &pickle))).expect("a call");
    }
    watch.assert_small(4_096 * LENGTH);
    scene.send(&sent(4_097, &call(4_097, &pickle))).expect("a call");
    assert_eq!(scene.session(HOSTILE), Session::Closed(Reason::Asked));
    scene.assert_serves();
}

// A scene in which so many calls are answered by what they bring.
fn echoed(calls: u64, mut taken: impl FnMut(&mut Scene)) -> Scene {
    let mut scene = Scene::new();
    let pickle = long();
    for number in 1..=calls {
        scene.send(&sent(number, &call(number, &pickle))).expect("a call");
        for job in scene.owner.turn(scene.now).jobs {
            scene.owner.finish(job.job, Outcome::Answer(job.value));
        }
        taken(&mut scene);
    }
    scene
}

fn answers_to_a_peer(watch: &Watch) {
    let mut scene = echoed(4_096, |scene| {
        scene.read();
    });
    watch.assert_small(4_096 * LENGTH);
    scene.assert_serves();
}

fn bytes_to_a_peer(watch: &Watch) {
    let mut scene = echoed(2_000, |_| {});
    watch.assert_small(2_000 * LENGTH);
    assert!(scene.owner.output(id(HOSTILE)).left().len() <= LONGEST_BODY + 64);
    scene.assert_serves();
}

fn long_records(watch: &Watch) {
    let mut scene = Scene::new();
    let mut head = record(0, 1, &[]);
    for length in [LONGEST_BODY as u32 + 1, 1 << 30, u32::MAX] {
        head[..4].copy_from_slice(&length.to_be_bytes());
        assert_eq!(scene.send(&head), Err(Misbehaved::LongRecord));
    }
    watch.assert_small(0);
    scene.assert_serves();
}

// References without end, of which no more than 65,536 are taken; the items behind them wait.
fn objects_of_others(watch: &Watch) {
    let mut scene = Scene::new();
    let mut index = 0_u64;
    for number in 1..=2_100 {
        let mut pickle = vec![3, 0, 32];
        for _ in 0..32 {
            index += 1;
            pickle.extend([4, 0, 3]);
            pickle.extend(index.to_be_bytes());
        }
        scene.send(&sent(number, &call(number, &pickle))).expect("a call");
        let _turn = scene.turn();
        scene.read();
    }
    watch.assert_small(0);
    assert!(scene.owner.counts().wants > 0);
    scene.assert_serves();
}

fn objects(watch: &Watch) {
    let mut scene = Scene::new();
    while scene.owner.export().is_ok() {}
    watch.assert_small(0);
    assert_eq!(scene.owner.report(scene.now).live, 65_536);
    scene.assert_serves();
}

// ---- by 31 peers ------------------------------------------------------------------------------------

const ALL: std::ops::RangeInclusive<u16> = 2..=32;

fn engine_of_32() -> Engine {
    let settings = Settings::new(id(1), id(32));
    let mut owner = Engine::new(settings, Duration::ZERO).expect("memory");
    for peer in ALL {
        owner.connected(id(peer), Life::only(peer.into()), Duration::ZERO).expect("its only life");
    }
    owner
}

// Of each peer all but the last byte of a record comes.
fn records_without_end(watch: &Watch) {
    let mut owner = engine_of_32();
    let mut almost = record(0, 1, &vec![7; LONGEST_BODY]);
    almost.pop();
    for peer in ALL {
        owner.bytes(id(peer), &almost, Duration::ZERO).expect("a part of a record");
    }
    watch.assert_small(0);
    assert!(owner.export().is_ok(), "it still does what it is asked");
}

// The longest items of sessions that aren't open here, of more sessions than one and more numbers than fit.
fn items_of_later_sessions(watch: &Watch) {
    let mut owner = engine_of_32();
    ALL.for_each(|peer| owner.close(id(peer)));
    let payload = vec![7; 16_384];
    for session in [2_u32, 4, 3] {
        for seq in 1..=80 {
            for peer in ALL {
                let mut frame = frame(peer, 1, seq, &payload);
                frame[28..32].copy_from_slice(&session.to_be_bytes());
                owner.bytes(id(peer), &record(0, 1, &frame), Duration::ZERO).expect("a frame");
            }
        }
        let _turn = owner.turn(Duration::ZERO);
    }
    watch.assert_small(0);
    assert!(owner.export().is_ok(), "it still does what it is asked");
}

// ---- of nodes ---------------------------------------------------------------------------------------

/// An object of tests.
#[interface]
pub trait Bell {
    /// Answers how much it is given.
    fn ring(&mut self, sound: Vec<u8>) -> u32;
}

struct Brass;

impl Bell for Brass {
    fn ring(&mut self, sound: Vec<u8>) -> u32 {
        sound.len() as u32
    }
}

type World = (Node, SocketAddr, Node, Remote<dyn Bell>);

// A node with a bell, where it listens, and a member that has the bell.
fn world() -> World {
    world_of(|builder| builder)
}

fn world_of(tell: impl Fn(Builder) -> Builder) -> World {
    let start = |number, peers| {
        let builder = Node::builder(id(number), peers).listen("127.0.0.1:0").spaces(id(3));
        tell(builder).start().expect("a node")
    };
    let owner = start(1, Peers::none());
    owner.bind("bell", &owner.export::<dyn Bell>(Box::new(Brass)).expect("room")).expect("a name");
    let address = owner.address().expect("it listens");
    let member = start(2, Peers::none().with(id(1), address));
    let bell = member.lookup(id(1), "bell").wait_for(MINUTE).expect("a bell");
    (owner, address, member, bell)
}

fn large_values(watch: &Watch) {
    let (_owner, _, _member, bell) = world();
    let calls: Vec<_> = (0..200).map(|_| bell.ring(vec![7; 1 << 20])).collect();
    watch.assert_small(0);
    for call in calls {
        assert_eq!(call.wait_for(MINUTE), Err(CallError::TooLarge));
    }
    watch.assert_small(0);
    assert_eq!(bell.ring(vec![7; 15_000]).wait_for(MINUTE), Ok(15_000));
}

fn wait_for_turned_away(owner: &Node, count: u64) {
    let since = Instant::now();
    while owner.counts().turned_away < count {
        assert!(since.elapsed() < MINUTE, "{:?}", owner.counts());
        std::thread::sleep(Duration::from_millis(5));
    }
}

// Many more than the 64 that are listened to; each says a part of a hello, if anything.
fn strangers(watch: &Watch) {
    let (owner, address, _member, bell) = world();
    let mut here = Vec::new();
    for number in 0_usize..5_000 {
        let mut stream = TcpStream::connect(address).expect("it listens");
        let _said = stream.write_all(&vec![7; number % 64]);
        here.push(stream);
        if here.len() == 400 {
            here.clear();
        }
        if number % 500 == 0 {
            watch.assert_small(0);
            assert_eq!(bell.ring(Vec::new()).wait_for(MINUTE), Ok(0));
        }
    }
    watch.assert_small(0);
    wait_for_turned_away(&owner, 5_000 - 64);
    assert_eq!(bell.ring(vec![7]).wait_for(MINUTE), Ok(1));
}

// Each of 64 says that its first words have 65,520 bytes, and all of them but the last; many more come meanwhile.
#[cfg(feature = "tls")]
fn strangers_at_a_sealed_door(watch: &Watch) {
    let folder = std::path::Path::new(env!("CARGO_TARGET_TMPDIR"))
        .join(format!("memory-{}", std::process::id()));
    let tool = concat!(env!("CARGO_MANIFEST_DIR"), "/../../../tools/world-certificates");
    let made = Command::new(tool).arg(&folder).args(["doors", "1..=2"]).output();
    if !made.is_ok_and(|made| made.status.success()) {
        return eprintln!("skipped: no certificates can be made");
    }
    let file = |name: &str| folder.join(name);
    let files = [file("space-1-2.pem"), file("space-1-2.key"), file("authority.pem")];
    let [certificate, key, authority] = files;
    let identity = masttomato::Identity::read(certificate, key, authority).expect("an identity");
    std::fs::remove_dir_all(&folder).expect("the folder");
    let sealed = |builder: Builder| builder.world("doors").tls(identity.clone());
    let (owner, address, _member, bell) = world_of(sealed);
    let mut words = vec![1, 0, 0xff, 0xf0];
    words.resize(65_519, 7);
    let records = words.chunks(0x4000).flat_map(|piece| {
        let length = (piece.len() as u16).to_be_bytes();
        [&[22, 3, 1][..], &length, piece].concat()
    });
    let records: Vec<u8> = records.collect();
    let mut here = Vec::new();
    for number in 0..200 {
        let mut stream = TcpStream::connect(address).expect("it listens");
        let _said = stream.write_all(&records);
        here.push(stream);
        if number % 20 == 0 {
            watch.assert_small(0);
            assert_eq!(bell.ring(Vec::new()).wait_for(MINUTE), Ok(0));
        }
    }
    watch.assert_small(0);
    wait_for_turned_away(&owner, 200 - 64);
    assert_eq!(bell.ring(vec![7]).wait_for(MINUTE), Ok(1));
}
