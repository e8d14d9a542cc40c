//! What strangers at a node's door cost its members: doors KIND RATE SECONDS [FOLDER], for bench/doors.
//!
//! A member calls an object of a node, without strangers and with them by turns, and both figures are printed, in calls a
//! second. So many strangers come each second: `silent` ones that connect, say nothing and stay as long as they are let;
//! `gone` ones that hang up at once; `garbage` ones that say 300 bytes of nothing; or `hello` ones, that begin a handshake
//! of TLS and leave the answer, a signature, where it is. With FOLDER, where tools/world-certificates made those of a
//! world `doors` for 1 and 2, the node's connections are sealed.

use masttomato::{Builder, Node, Peers, Remote, SpaceId, interface};
use std::collections::VecDeque;
use std::error::Error;
use std::io::Write;
use std::net::{SocketAddr, TcpStream};
use std::sync::Arc;
use std::sync::atomic::{AtomicBool, AtomicU64, Ordering::SeqCst};
use std::thread::{self, JoinHandle};
use std::time::{Duration, Instant};

/// An object to be called.
#[interface]
pub trait Target {
    /// Does nothing.
    fn null(&mut self);
}

struct Nothing;

impl Target for Nothing {
    fn null(&mut self) {}
}

/// With and without strangers, so often.
const TURNS: u32 = 6;

#[cfg(feature = "tls")]
fn sealed(builder: Builder, number: u16, folder: Option<&str>) -> Result<Builder, Box<dyn Error>> {
    let Some(folder) = folder else { return Ok(builder) };
    let file = |name: String| format!("{folder}/{name}");
    let identity = masttomato::Identity::read(
        file(format!("space-{number}.pem")),
        file(format!("space-{number}.key")),
        file("authority.pem".into()),
    )?;
    Ok(builder.world("doors").tls(identity))
}

#[cfg(not(feature = "tls"))]
fn sealed(builder: Builder, _: u16, folder: Option<&str>) -> Result<Builder, Box<dyn Error>> {
    match folder {
        None => Ok(builder),
        Some(_) => Err("it was built without the feature tls".into()),
    }
}

// What a stranger says, if it says anything.
fn words(kind: &str) -> Result<Vec<u8>, Box<dyn Error>> {
    match kind {
        "silent" | "gone" => Ok(Vec::new()),
        "garbage" => Ok(vec![0xff; 300]),
        "hello" => client_hello(),
        _ => Err("silent, gone, garbage or hello".into()),
    }
}

#[cfg(feature = "tls")]
fn client_hello() -> Result<Vec<u8>, Box<dyn Error>> {
    let config = rustls::ClientConfig::builder()
        .with_safe_defaults()
        .with_root_certificates(rustls::RootCertStore::empty())
        .with_no_client_auth();
    let name = rustls::ServerName::try_from("doors.masttomato")?;
    let mut connection = rustls::ClientConnection::new(Arc::new(config), name)?;
    let mut bytes = Vec::new();
    connection.write_tls(&mut bytes)?;
    Ok(bytes)
}

#[cfg(not(feature = "tls"))]
fn client_hello() -> Result<Vec<u8>, Box<dyn Error>> {
    Err("it was built without the feature tls".into())
}

/// Strangers who come as long as they are told to, and end with this.
struct Strangers {
    told: Arc<Told>,
    thread: Option<JoinHandle<()>>,
}

#[derive(Default)]
struct Told {
    come: AtomicBool,
    end: AtomicBool,
    came: AtomicU64,
}

impl Strangers {
    fn to(address: SocketAddr, kind: &str, rate: u64) -> Result<Strangers, Box<dyn Error>> {
        let told = Arc::<Told>::default();
        let (words, stay) = (words(kind)?, kind != "gone");
        let pause = Duration::from_secs(1) / rate.clamp(1, 1_000_000) as u32;
        let heard = told.clone();
        let thread = thread::spawn(move || heard.follow(address, &words, stay, pause));
        Ok(Strangers { told, thread: Some(thread) })
    }

    fn come(&self, do_come: bool) {
        self.told.come.store(do_come, SeqCst);
    }
}

impl Drop for Strangers {
    fn drop(&mut self) {
        self.told.end.store(true, SeqCst);
        let _ended = self.thread.take().map(JoinHandle::join);
    }
}

impl Told {
    fn follow(&self, address: SocketAddr, words: &[u8], stay: bool, pause: Duration) {
        let (mut here, mut next) = (VecDeque::new(), Instant::now());
        while !self.end.load(SeqCst) {
            if !self.come.load(SeqCst) {
                here.clear();
                thread::sleep(Duration::from_millis(5));
                next = Instant::now();
                continue;
            }
            if let Ok(mut stream) = TcpStream::connect(address) {
                let _said = stream.write_all(words);
                self.came.fetch_add(1, SeqCst);
                here.extend(stay.then_some(stream));
            }
            if here.len() > 500 {
                here.pop_front();
            }
            next += pause;
            thread::sleep(next.saturating_duration_since(Instant::now()));
        }
    }
}

// How many calls are answered a second.
fn rate_of(target: &Remote<dyn Target>, time: Duration) -> Result<f64, Box<dyn Error>> {
    let (since, mut count) = (Instant::now(), 0_u32);
    while since.elapsed() < time {
        target.null().wait()?;
        count += 1;
    }
    Ok(f64::from(count) / since.elapsed().as_secs_f64())
}

// A node, and an object that a member of its world has of it.
type World = (Node, Node, Remote<dyn Target>);

fn world(folder: Option<&str>) -> Result<World, Box<dyn Error>> {
    let [one, two] = [SpaceId::try_from(1)?, SpaceId::try_from(2)?];
    let owner = Node::builder(one, Peers::none()).spaces(two).listen("127.0.0.1:0");
    let owner = sealed(owner, 1, folder)?.start()?;
    owner.bind("target", &owner.export::<dyn Target>(Box::new(Nothing))?)?;
    let peers = Peers::none().with(one, owner.address().ok_or("it listens")?);
    let caller = sealed(Node::builder(two, peers), 2, folder)?.start()?;
    let target = caller.lookup(one, "target").wait()?;
    Ok((owner, caller, target))
}

fn main() -> Result<(), Box<dyn Error>> {
    let words: Vec<String> = std::env::args().skip(1).collect();
    let [kind, rate, seconds, ..] = &words[..] else {
        return Err("doors KIND RATE SECONDS [FOLDER]".into());
    };
    let (owner, _caller, target) = world(words.get(3).map(String::as_str))?;
    let address = owner.address().ok_or("it listens")?;
    let strangers = Strangers::to(address, kind, rate.parse()?)?;
    let time = Duration::try_from_secs_f64(seconds.parse::<f64>()? / f64::from(2 * TURNS))?;
    rate_of(&target, time)?;
    let (mut without, mut with, mut they_came) = (0.0, 0.0, Duration::ZERO);
    for _ in 0..TURNS {
        without += rate_of(&target, time)? / f64::from(TURNS);
        let since = Instant::now();
        strangers.come(true);
        with += rate_of(&target, time)? / f64::from(TURNS);
        strangers.come(false);
        they_came += since.elapsed();
    }
    let came = strangers.told.came.load(SeqCst) as f64 / they_came.as_secs_f64();
    let turned_away = owner.counts().turned_away;
    println!("{without:.0} {with:.0} {came:.0} {turned_away}");
    Ok(())
}
