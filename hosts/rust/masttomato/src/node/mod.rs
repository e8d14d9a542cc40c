//! Nodes: objects, names, calls and connections of one process in a world.

mod ahead;
mod call;
mod cancel;
mod core;
mod desks;
#[cfg_attr(not(feature = "tls"), allow(dead_code))]
mod door;
mod driver;
mod hold;
mod later;
mod local;
mod named;
mod net;
mod peers;
mod pool;
#[cfg_attr(not(feature = "tls"), allow(dead_code))]
mod seal;
mod shared;
mod spans;
#[cfg(feature = "tls")]
mod tls;

pub use self::call::{Call, CallError, Fault};
pub use self::cancel::Cancelled;
pub use self::hold::{Hold, Remote};
pub use self::later::Spawn;
pub use self::local::LocalNode;
pub use self::named::Named;
pub use self::peers::{BadPeers, Peers};
pub use self::shared::Shared;
#[cfg(feature = "tls")]
pub use self::tls::{BadIdentity, Identity};

use self::core::{Core, Heard};
use self::door::Door;
use self::driver::{Driver, driving};
use self::net::{Net, WAKER};
use self::pool::Pool;
use self::seal::Sealer;
use self::shared::Command;
use crate::engine::{
    Counts, Engine, Hello, Life, Report, Session, Settings, ThreadReport, TraceSink, WINDOW, World,
};
use crate::interface::{Description, Exported, Interface};
use crate::space::{BirthError, Bounds, BoundsError, Reference, SegmentSize, SpaceError, SpaceId};
use mio::net::TcpListener;
use mio::{Poll, Waker};
use std::fmt;
use std::hash::{BuildHasher, Hasher};
use std::net::{SocketAddr, ToSocketAddrs};
use std::sync::{Arc, Mutex, PoisonError, mpsc};
use std::thread::JoinHandle;
use std::time::{Duration, Instant};
use std::{io, thread};

/// Where an object's methods run: see [`Node::export_with`].
///
/// ```
/// # use masttomato::*;
/// # #[interface]
/// # pub trait Bell { fn ring(&mut self) -> String; }
/// # struct Brass;
/// # impl Bell for Brass { fn ring(&mut self) -> String { "ding".into() } }
/// # let [one, two] = [1, 2].map(|number| SpaceId::new(number).expect("1 to 32"));
/// # let node = Node::builder(one, Peers::none()).spaces(two).start()?;
/// let sooner = node.export_with::<dyn Bell>(Box::new(Brass), Run::Inline)?;
/// let may_block = node.export_with::<dyn Bell>(Box::new(Brass), Run::Pool)?;
/// assert_eq!((sooner.ring().wait()?, may_block.ring().wait()?), ("ding".into(), "ding".into()));
/// # Ok::<(), Box<dyn std::error::Error>>(())
/// ```
#[derive(Clone, Copy, Debug, Default, PartialEq, Eq, Hash)]
#[non_exhaustive]
pub enum Run {
    /// On one of the node's workers: they may block, and wait for calls of others. Those that are async take
    /// a worker only while they do something; or none, where there is a [`Builder::spawner`].
    #[default]
    Pool,
    /// On the node's own thread: they never block. A reply goes sooner so.
    Inline,
}

/// Why a node isn't started, or doesn't do something.
///
/// ```
/// use masttomato::{Node, NodeError, Peers, SpaceId};
///
/// let one = SpaceId::new(1).expect("1 to 32");
/// let everywhere = Node::builder(one, Peers::none()).listen("0.0.0.0:0").start();
/// assert!(matches!(everywhere, Err(NodeError::Insecure)));
/// ```
#[derive(Debug)]
#[non_exhaustive]
pub enum NodeError {
    /// The addresses aren't this machine's own, and without TLS `Builder::insecure` must allow that.
    Insecure,
    /// The node's certificate isn't one that others would let it in by.
    #[cfg(feature = "tls")]
    Identity(BadIdentity),
    /// There is no memory for the space, or it refuses what it was asked.
    Space(SpaceError),
    /// The number of spaces, or the node's own number, doesn't fit the others.
    OtherSpaces,
    /// There are as many objects as there may be.
    Full,
    /// It is no name, of 1 to 255 bytes; or there are as many names as there may be.
    BadName,
    /// The reference is another node's of this process.
    OtherNode,
    /// The bounds of its life are those of another world, space or number of spaces.
    Bounds(BoundsError),
    /// The numbers that its life is to begin behind are out of range.
    Birth(BirthError),
    /// The node has stopped.
    Stopped,
    /// An address, a socket or a thread can't be had.
    Io(io::Error),
}

impl fmt::Display for NodeError {
    fn fmt(&self, f: &mut fmt::Formatter<'_>) -> fmt::Result {
        match self {
            NodeError::Insecure => f.write_str(
                "an address isn't this machine's own: without TLS, Builder::insecure must allow that",
            ),
            #[cfg(feature = "tls")]
            NodeError::Identity(error) => error.fmt(f),
            NodeError::Space(error) => error.fmt(f),
            NodeError::OtherSpaces => f.write_str("the node's number is above the last space"),
            NodeError::Full => f.write_str("there are as many objects as there may be"),
            NodeError::BadName => f.write_str("a name has 1 to 255 bytes, and there are 1,024 at most"),
            NodeError::OtherNode => f.write_str("the reference is another node's"),
            NodeError::Bounds(error) => error.fmt(f),
            NodeError::Birth(error) => error.fmt(f),
            NodeError::Stopped => f.write_str("the node has stopped"),
            NodeError::Io(error) => error.fmt(f),
        }
    }
}

// Each says what the error in it says: so that isn't said twice.
impl std::error::Error for NodeError {
    fn source(&self) -> Option<&(dyn std::error::Error + 'static)> {
        match self {
            #[cfg(feature = "tls")]
            NodeError::Identity(error) => error.source(),
            NodeError::Space(error) => error.source(),
            NodeError::Bounds(error) => error.source(),
            NodeError::Birth(error) => error.source(),
            NodeError::Io(error) => error.source(),
            _ => None,
        }
    }
}

impl From<io::Error> for NodeError {
    fn from(error: io::Error) -> NodeError {
        NodeError::Io(error)
    }
}

/// How sessions of a node change, from when it was asked for: an iterator that waits.
///
/// ```
/// use masttomato::{Node, Peers, Session, SpaceId};
/// use std::time::Duration;
///
/// # fn main() -> Result<(), Box<dyn std::error::Error>> {
/// # let [one, two] = [1, 2].map(|number| SpaceId::new(number).expect("1 to 32"));
/// let first = Node::builder(one, Peers::none()).listen("127.0.0.1:0").spaces(two).start()?;
/// let mut changes = first.changes()?;
/// let peers = Peers::none().with(one, first.address().ok_or("it listens")?);
/// let second = Node::builder(two, peers).start()?;
/// assert_eq!(changes.next(), Some((two, Session::Open)));
/// assert_eq!(changes.try_next(), None);
/// drop(second);
/// assert!(changes.next_within(Duration::from_secs(60)).is_some());
/// # Ok(())
/// # }
/// ```
#[derive(Debug)]
pub struct Changes(mpsc::Receiver<(SpaceId, Session)>);

impl Changes {
    pub(crate) fn new(receiver: mpsc::Receiver<(SpaceId, Session)>) -> Changes {
        Changes(receiver)
    }

    /// The next one, if it is there.
    ///
    /// ```
    /// # use masttomato::*;
    /// # #[interface]
    /// # pub trait Bell { fn ring(&mut self) -> String; }
    /// # struct Brass;
    /// # impl Bell for Brass { fn ring(&mut self) -> String { "ding".into() } }
    /// # let [one, two] = [1, 2].map(|number| SpaceId::new(number).expect("1 to 32"));
    /// # let node = Node::builder(one, Peers::none()).spaces(two).start()?;
    /// let changes = node.changes()?;
    /// assert_eq!(changes.try_next(), None);
    /// node.close(two);
    /// # let closed = Session::Closed(Reason::Asked);
    /// assert_eq!(changes.next_within(std::time::Duration::from_secs(60)), Some((two, closed)));
    /// # Ok::<(), Box<dyn std::error::Error>>(())
    /// ```
    pub fn try_next(&self) -> Option<(SpaceId, Session)> {
        self.0.try_recv().ok()
    }

    /// The next one within so long.
    ///
    /// ```
    /// # use masttomato::*;
    /// # #[interface]
    /// # pub trait Bell { fn ring(&mut self) -> String; }
    /// # struct Brass;
    /// # impl Bell for Brass { fn ring(&mut self) -> String { "ding".into() } }
    /// # let [one, two] = [1, 2].map(|number| SpaceId::new(number).expect("1 to 32"));
    /// # let node = Node::builder(one, Peers::none()).spaces(two).start()?;
    /// let changes = node.changes()?;
    /// node.close(two);
    /// let change = changes.next_within(std::time::Duration::from_secs(60));
    /// assert_eq!(change, Some((two, Session::Closed(Reason::Asked))));
    /// # Ok::<(), Box<dyn std::error::Error>>(())
    /// ```
    pub fn next_within(&self, limit: Duration) -> Option<(SpaceId, Session)> {
        self.0.recv_timeout(limit).ok()
    }
}

/// Waits for each change, until the node ends.
impl Iterator for Changes {
    type Item = (SpaceId, Session);

    fn next(&mut self) -> Option<(SpaceId, Session)> {
        self.0.recv().ok()
    }
}

/// What a method may know of its call, as a first parameter `context: &Context` that callers don't give.
///
/// ```
/// use masttomato::{Context, interface};
///
/// #[interface]
/// pub trait Door {
///     fn knock(&mut self, context: &Context) -> String;
/// }
///
/// struct Oak;
///
/// impl Door for Oak {
///     fn knock(&mut self, context: &Context) -> String {
///         format!("space {} knocks", context.caller())
///     }
/// }
/// ```
#[derive(Debug)]
pub struct Context {
    caller: SpaceId,
    heard: Heard,
    shared: Arc<Shared>,
}

impl Context {
    pub(crate) fn new(caller: SpaceId, heard: Heard, shared: Arc<Shared>) -> Context {
        Context { caller, heard, shared }
    }

    /// The space that calls.
    ///
    /// ```
    /// # use masttomato::*;
    /// #[interface]
    /// pub trait Door {
    ///     fn knock(&mut self, context: &Context) -> u16;
    /// }
    ///
    /// struct Oak;
    ///
    /// impl Door for Oak {
    ///     fn knock(&mut self, context: &Context) -> u16 {
    ///         context.caller().get()
    ///     }
    /// }
    /// # let node = Node::builder(SpaceId::new(1).expect("1 to 32"), Peers::none()).start()?;
    /// assert_eq!(node.export::<dyn Door>(Box::new(Oak))?.knock().wait()?, 1);
    /// # Ok::<(), Box<dyn std::error::Error>>(())
    /// ```
    pub fn caller(&self) -> SpaceId {
        self.caller
    }

    /// The space of this node.
    ///
    /// ```
    /// # use masttomato::*;
    /// #[interface]
    /// pub trait Door {
    ///     fn is_called_from_inside(&mut self, context: &Context) -> bool;
    /// }
    ///
    /// struct Oak;
    ///
    /// impl Door for Oak {
    ///     fn is_called_from_inside(&mut self, context: &Context) -> bool {
    ///         context.caller() == context.here()
    ///     }
    /// }
    /// # let node = Node::builder(SpaceId::new(1).expect("1 to 32"), Peers::none()).start()?;
    /// assert!(node.export::<dyn Door>(Box::new(Oak))?.is_called_from_inside().wait()?);
    /// # Ok::<(), Box<dyn std::error::Error>>(())
    /// ```
    pub fn here(&self) -> SpaceId {
        self.shared.id()
    }

    /// Whether who calls wants no answer any more: it [cancelled](Call::or_cancel) the call. A method that
    /// runs long may look, and end early.
    ///
    /// ```
    /// # use masttomato::{Context, interface};
    /// # #[interface]
    /// # pub trait Search { fn primes(&mut self, context: &Context, below: u32) -> Vec<u32>; }
    /// # struct Sieve;
    /// impl Search for Sieve {
    ///     fn primes(&mut self, context: &Context, below: u32) -> Vec<u32> {
    ///         let is_prime = |number: &u32| (2..*number).all(|by| number % by != 0);
    ///         (2..below).take_while(|_| !context.is_cancelled()).filter(is_prime).collect()
    ///     }
    /// }
    /// ```
    pub fn is_cancelled(&self) -> bool {
        self.heard.cancel().is_set()
    }

    /// What is ready once [`is_cancelled`](Context::is_cancelled) holds: for async methods, which may wait
    /// for it beside what they wait for.
    ///
    /// ```
    /// # use masttomato::{Context, interface};
    /// # #[interface]
    /// # pub trait Queue { async fn next(&mut self, context: &Context) -> Option<String>; }
    /// # struct Line;
    /// # impl Line { async fn comes(&mut self) -> String { std::future::pending().await } }
    /// use std::future::{Future, poll_fn};
    /// use std::pin::pin;
    /// use std::task::Poll;
    ///
    /// impl Queue for Line {
    ///     async fn next(&mut self, context: &Context) -> Option<String> {
    ///         let (mut comes, mut cancelled) = (pin!(self.comes()), pin!(context.cancelled()));
    ///         poll_fn(|waker| match comes.as_mut().poll(waker) {
    ///             Poll::Ready(next) => Poll::Ready(Some(next)),
    ///             Poll::Pending => cancelled.as_mut().poll(waker).map(|()| None),
    ///         })
    ///         .await
    ///     }
    /// }
    /// ```
    pub fn cancelled(&self) -> Cancelled<'_> {
        Cancelled(self.heard.cancel())
    }

    /// Makes an object known, as [`Node::export`].
    ///
    /// ```
    /// use masttomato::{Context, Remote, interface};
    ///
    /// #[interface]
    /// pub trait Counter {
    ///     fn add(&mut self, by: i64) -> i64;
    /// }
    ///
    /// #[interface]
    /// pub trait Maker {
    ///     fn make(&mut self, context: &Context, start: i64) -> Remote<dyn Counter>;
    /// }
    ///
    /// struct Tally(i64);
    /// # impl Counter for Tally { fn add(&mut self, by: i64) -> i64 { self.0 += by; self.0 } }
    /// struct Shop;
    ///
    /// impl Maker for Shop {
    ///     fn make(&mut self, context: &Context, start: i64) -> Remote<dyn Counter> {
    ///         context.export::<dyn Counter>(Box::new(Tally(start))).expect("fewer than 65,536 objects")
    ///     }
    /// }
    /// # use masttomato::{Node, Peers, SpaceId};
    /// # let node = Node::builder(SpaceId::new(1).expect("1 to 32"), Peers::none()).start()?;
    /// # let shop = node.export::<dyn Maker>(Box::new(Shop))?;
    /// # assert_eq!(shop.make(40).wait()?.add(2).wait()?, 42);
    /// # Ok::<(), Box<dyn std::error::Error>>(())
    /// ```
    ///
    /// # Errors
    /// Where there are as many objects as there may be, or the node has stopped.
    pub fn export<I: Interface + ?Sized>(&self, object: Box<I>) -> Result<Remote<I>, NodeError> {
        export(&self.shared, object, Run::Pool)
    }
}

// Asks a node's tables, from any thread.
fn ask<T: Send + 'static>(
    shared: &Arc<Shared>,
    ask: impl FnOnce(&mut Core) -> T + Send + 'static,
) -> Result<T, NodeError> {
    match driving(shared) {
        Some(driver) => Ok(driver.ask(ask)),
        None => shared.ask(ask).ok_or(NodeError::Stopped),
    }
}

fn export<I: Interface + ?Sized>(
    shared: &Arc<Shared>,
    object: Box<I>,
    run: Run,
) -> Result<Remote<I>, NodeError> {
    let object = Box::new(object);
    let reference = match driving(shared) {
        Some(driver) => driver.ask(|core| core.export(object, run))?,
        None => export_elsewhere(shared, object, run)?,
    };
    Ok(Remote::new(Hold::held(shared, reference)))
}

// The same from another thread than the node's, which is asked where nothing was exported ahead.
fn export_elsewhere(
    shared: &Arc<Shared>,
    object: Box<dyn Exported>,
    run: Run,
) -> Result<Reference, NodeError> {
    let Some(reference) = shared.ahead().take() else {
        return shared.ask(move |core| core.export_for(object, run)).ok_or(NodeError::Stopped)?;
    };
    match shared.post(Command::Place { reference, object, run }) {
        true => Ok(reference),
        false => Err(NodeError::Stopped),
    }
}

fn bind<I: ?Sized>(shared: &Arc<Shared>, name: &str, object: &Remote<I>) -> Result<(), NodeError> {
    if !Arc::ptr_eq(object.hold().shared(), shared) {
        return Err(NodeError::OtherNode);
    }
    let (name, hold) = (name.to_string(), object.hold().clone());
    ask(shared, move |core| core.bind(&name, hold))?
}

fn unbind(shared: &Arc<Shared>, name: &str) -> bool {
    let name = name.to_string();
    ask(shared, move |core| core.unbind(&name)).unwrap_or(false)
}

fn open(shared: &Arc<Shared>, peer: SpaceId) -> Result<u32, NodeError> {
    ask(shared, move |core| core.open(peer))?
}

fn close(shared: &Arc<Shared>, peer: SpaceId) {
    let _asked = ask(shared, move |core| core.engine.close(peer));
}

fn lookup<I: Interface + ?Sized>(
    shared: &Arc<Shared>,
    peer: SpaceId,
    name: &str,
) -> Call<Remote<I>> {
    let (name, wanted) = (name.as_bytes().to_vec(), Description::of::<I>());
    let aim = (peer.agent(), core::LOOKUP);
    Call::posted(shared, aim, |ticket, state| Command::Lookup { ticket, peer, name, wanted, state })
}

/// What a node is started with.
///
/// ```
/// # use masttomato::{Node, Peers, SpaceId};
/// # use std::time::Duration;
/// # fn main() -> Result<(), Box<dyn std::error::Error>> {
/// let node = Node::builder(SpaceId::new(1).ok_or("1 to 32")?, Peers::none())
///     .listen("127.0.0.1:0")
///     .spaces(SpaceId::new(2).ok_or("1 to 32")?)
///     .world("shop")
///     .give_up_after(Duration::from_secs(60))
///     .open_calls(256)
///     .workers(2)
///     .looks(Duration::ZERO)
///     .start()?;
/// assert!(node.address().is_some_and(|address| address.port() != 0));
/// # Ok(())
/// # }
/// ```
#[must_use = "a builder does nothing until it is started"]
pub struct Builder {
    space: SpaceId,
    peers: Peers,
    spaces: Option<SpaceId>,
    listen: Option<String>,
    world: World,
    is_insecure: bool,
    #[cfg(feature = "tls")]
    identity: Option<Identity>,
    workers: usize,
    looks: Duration,
    give_up_after: Duration,
    open_calls: usize,
    life: Life,
    bounds: Option<Bounds>,
    sink: Option<Box<dyn TraceSink>>,
    chain: Option<(SegmentSize, Box<dyn TraceSink>)>,
    spawner: Option<Arc<dyn Spawn>>,
}

impl fmt::Debug for Builder {
    fn fmt(&self, f: &mut fmt::Formatter<'_>) -> fmt::Result {
        f.debug_struct("Builder").field("space", &self.space).finish_non_exhaustive()
    }
}

// A number that no other life has, as far as chance goes.
fn random_life() -> Life {
    Life::only(std::collections::hash_map::RandomState::new().build_hasher().finish())
}

impl Builder {
    fn new(space: SpaceId, peers: Peers) -> Builder {
        Builder {
            space,
            peers,
            spaces: None,
            listen: None,
            world: World::default(),
            is_insecure: false,
            #[cfg(feature = "tls")]
            identity: None,
            workers: 4,
            looks: Duration::from_micros(50),
            give_up_after: Duration::from_secs(600),
            open_calls: 2_048,
            life: random_life(),
            bounds: None,
            sink: None,
            chain: None,
            spawner: None,
        }
    }

    /// Where it listens, in place of its own address among the peers.
    ///
    /// ```
    /// # use masttomato::{Node, Peers, SpaceId};
    /// # let [one, two] = [1, 2].map(|number| SpaceId::new(number).expect("1 to 32"));
    /// let node = Node::builder(one, Peers::none()).listen("127.0.0.1:0").start()?;
    /// assert!(node.address().is_some());
    /// # Ok::<(), Box<dyn std::error::Error>>(())
    /// ```
    pub fn listen(mut self, address: impl fmt::Display) -> Builder {
        self.listen = Some(address.to_string());
        self
    }

    /// How many spaces there are, in place of the last one among the peers. All nodes of a world must
    /// say the same.
    ///
    /// ```
    /// # use masttomato::{Node, Peers, SpaceId};
    /// # let [one, two] = [1, 2].map(|number| SpaceId::new(number).expect("1 to 32"));
    /// let node = Node::builder(one, Peers::none()).spaces(two).start()?;
    /// node.close(two);                                 // there is such a space
    /// # Ok::<(), Box<dyn std::error::Error>>(())
    /// ```
    pub fn spaces(mut self, last: SpaceId) -> Builder {
        self.spaces = Some(last);
        self
    }

    /// The world's name, of which the first 16 bytes count: nodes of two worlds never connect.
    ///
    /// ```
    /// # use masttomato::{Node, Peers, SpaceId};
    /// # let [one, two] = [1, 2].map(|number| SpaceId::new(number).expect("1 to 32"));
    /// let node = Node::builder(one, Peers::none()).world("shop").start()?;
    /// # drop(node);
    /// # Ok::<(), Box<dyn std::error::Error>>(())
    /// ```
    pub fn world(mut self, name: &str) -> Builder {
        self.world = World::named(name);
        self
    }

    /// Each connection is sealed by TLS 1.3, and both ends show certificates: who comes is a space of this world, by the
    /// word of its authority. A thread of its own shakes hands with who comes, 64 at once, for five seconds each.
    ///
    /// ```no_run
    /// # use masttomato::{Identity, Node, Peers, SpaceId};
    /// # fn main() -> Result<(), Box<dyn std::error::Error>> {
    /// # let one = SpaceId::new(1).ok_or("1 to 32")?;
    /// let identity = Identity::read("space-1.pem", "space-1.key", "authority.pem")?;
    /// let node = Node::builder(one, Peers::none()).world("shop").tls(identity).listen("0.0.0.0:7001").start()?;
    /// # Ok(())
    /// # }
    /// ```
    #[cfg(feature = "tls")]
    pub fn tls(mut self, identity: Identity) -> Builder {
        self.identity = Some(identity);
        self
    }

    // What seals connections, if anything does.
    fn sealer(&mut self) -> Result<Option<Arc<dyn Sealer>>, NodeError> {
        #[cfg(feature = "tls")]
        if let Some(identity) = self.identity.take() {
            let sealer = identity.sealer(self.space, self.world).map_err(NodeError::Identity)?;
            return Ok(Some(sealer));
        }
        Ok(None)
    }

    /// Without TLS, allows addresses of other machines, though nothing is encrypted and nobody is asked who they are.
    ///
    /// ```
    /// # use masttomato::{Node, Peers, SpaceId};
    /// # let [one, two] = [1, 2].map(|number| SpaceId::new(number).expect("1 to 32"));
    /// let node = Node::builder(one, Peers::none()).listen("0.0.0.0:0").insecure().start()?;
    /// assert!(node.address().is_some());
    /// # Ok::<(), Box<dyn std::error::Error>>(())
    /// ```
    pub fn insecure(mut self) -> Builder {
        self.is_insecure = true;
        self
    }

    /// How many threads run methods; 4 where it isn't said.
    ///
    /// ```
    /// # use masttomato::{Node, Peers, SpaceId};
    /// # let [one, two] = [1, 2].map(|number| SpaceId::new(number).expect("1 to 32"));
    /// let node = Node::builder(one, Peers::none()).workers(16).start()?;
    /// # drop(node);
    /// # Ok::<(), Box<dyn std::error::Error>>(())
    /// ```
    pub fn workers(mut self, count: usize) -> Builder {
        self.workers = count;
        self
    }

    /// Who runs methods that are async, in place of the node's workers: an executor of your own. A
    /// [`LocalNode`] runs them itself.
    ///
    /// ```
    /// # use masttomato::{Node, Peers, SpaceId};
    /// # let [one, two] = [1, 2].map(|number| SpaceId::new(number).expect("1 to 32"));
    /// # mod my_executor { pub fn block_on(future: impl Future) { drop(future) } }
    /// # use std::pin::Pin;
    /// let spawner = |future: Pin<Box<dyn Future<Output = ()> + Send>>| {
    ///     let _thread = std::thread::spawn(|| my_executor::block_on(future));
    /// };
    /// let node = Node::builder(one, Peers::none()).spawner(spawner).start()?;
    /// # drop(node);
    /// # Ok::<(), Box<dyn std::error::Error>>(())
    /// ```
    pub fn spawner(mut self, spawner: impl Spawn) -> Builder {
        self.spawner = Some(Arc::new(spawner));
        self
    }

    /// For how long a thread that waits looks before it sleeps; 50 microseconds where it isn't said.
    /// That is most of the speed where there are processors for it, and a loss where there aren't.
    ///
    /// ```
    /// # use masttomato::{Node, Peers, SpaceId};
    /// # let [one, two] = [1, 2].map(|number| SpaceId::new(number).expect("1 to 32"));
    /// use std::time::Duration;
    ///
    /// let node = Node::builder(one, Peers::none()).looks(Duration::ZERO).start()?;     // whoever waits sleeps at once
    /// # drop(node);
    /// # Ok::<(), Box<dyn std::error::Error>>(())
    /// ```
    pub fn looks(mut self, time: Duration) -> Builder {
        self.looks = time;
        self
    }

    /// When a session closes that has no connection, or whose peer acknowledges nothing; ten minutes
    /// where it isn't said.
    ///
    /// ```
    /// # use masttomato::{Node, Peers, SpaceId};
    /// # let [one, two] = [1, 2].map(|number| SpaceId::new(number).expect("1 to 32"));
    /// use std::time::Duration;
    ///
    /// let node = Node::builder(one, Peers::none()).give_up_after(Duration::from_secs(3_600)).start()?;
    /// # drop(node);
    /// # Ok::<(), Box<dyn std::error::Error>>(())
    /// ```
    pub fn give_up_after(mut self, time: Duration) -> Builder {
        self.give_up_after = time;
        self
    }

    /// How many calls are open at most, up to 4,096, while further ones wait; 2,048 where it isn't said.
    ///
    /// ```
    /// # use masttomato::{Node, Peers, SpaceId};
    /// # let [one, two] = [1, 2].map(|number| SpaceId::new(number).expect("1 to 32"));
    /// let node = Node::builder(one, Peers::none()).open_calls(64).start()?;
    /// # drop(node);
    /// # Ok::<(), Box<dyn std::error::Error>>(())
    /// ```
    pub fn open_calls(mut self, count: usize) -> Builder {
        self.open_calls = count.clamp(1, 4_096);
        self
    }

    /// The entries of the space's trace go to a sink: for `nobj check`, which then says of the traces
    /// of all nodes whether they kept their promises.
    ///
    /// ```
    /// # use masttomato::{Node, Peers, SpaceId};
    /// # let [one, two] = [1, 2].map(|number| SpaceId::new(number).expect("1 to 32"));
    /// use masttomato::engine::Files;
    ///
    /// let node = Node::builder(one, Peers::none()).record(Files::new("traces", one, 1 << 20)).start()?;
    /// # drop(node);
    /// # Ok::<(), Box<dyn std::error::Error>>(())
    /// ```
    pub fn record(mut self, sink: impl TraceSink + 'static) -> Builder {
        self.sink = Some(Box::new(sink));
        self
    }

    /// The space keeps a chain: its entries go to a sink, as a trace's do, and behind each segment of this size what the space
    /// says of itself, the last time when the node ends. A node that is killed leaves its last segment without a seal:
    /// [`Files::join_lives`](crate::engine::Files::join_lives) seals it, and
    /// [`Files::join_chain`](crate::engine::Files::join_chain) leaves it out. A trace may be asked for beside.
    ///
    /// ```
    /// # use masttomato::space::SegmentSize;
    /// # use masttomato::{Node, Peers, SpaceId};
    /// # let [one, two] = [1, 2].map(|number| SpaceId::new(number).expect("1 to 32"));
    /// use masttomato::engine::Files;
    ///
    /// let files = Files::new("chains", one, 1 << 20).for_chain();
    /// let node = Node::builder(one, Peers::none()).record_chain(SegmentSize::default(), files).start()?;
    /// # drop(node);
    /// # Ok::<(), Box<dyn std::error::Error>>(())
    /// ```
    pub fn record_chain(mut self, size: SegmentSize, sink: impl TraceSink + 'static) -> Builder {
        self.chain = Some((size, Box::new(sink)));
        self
    }

    /// The node has one life of its number: it begins behind these bounds, keeps them as long as it runs, and another process
    /// may take its number when it has ended, or was killed. Peers that knew an earlier life close their sessions with that as soon
    /// as they are connected to this one, and open them again; what they had of it is lost.
    ///
    /// Without bounds the number is for this one process, for the whole life of its world: see [`Node::builder`].
    ///
    /// ```
    /// # use masttomato::space::{Bounds, World};
    /// # use masttomato::{Node, Peers, SpaceId};
    /// # use std::time::Duration;
    /// # let path = std::env::temp_dir().join(format!("masttomato-builder-{}", std::process::id()));
    /// # let [one, two] = [1, 2].map(|number| SpaceId::new(number).expect("1 to 32"));
    /// let world = World::named("shop");
    /// if !path.exists() {
    ///     // By hand, or by who sets the machine up; never because a file isn't there that should be.
    ///     Bounds::create(&path, world, one, two)?;
    /// }
    /// let bounds = Bounds::open(&path, world, one, two)?;
    /// let node = Node::builder(one, Peers::none()).spaces(two).world("shop").bounds(bounds).start()?;
    /// node.shutdown(Duration::from_secs(1));
    /// assert_eq!(Bounds::open(&path, world, one, two)?.life(), 2);
    /// # std::fs::remove_file(&path)?;
    /// # Ok::<(), Box<dyn std::error::Error>>(())
    /// ```
    pub fn bounds(mut self, bounds: Bounds) -> Builder {
        self.life.number = bounds.life();
        self.bounds = Some(bounds);
        self
    }

    // Tests say which life it is.
    #[doc(hidden)]
    pub fn life(mut self, life: u64) -> Builder {
        self.life.process = life;
        self
    }

    /// Starts the node, with a thread of its own and its workers. See [`Node`].
    ///
    /// ```
    /// # use masttomato::{Node, Peers, SpaceId};
    /// # let [one, two] = [1, 2].map(|number| SpaceId::new(number).expect("1 to 32"));
    /// let node = Node::builder(one, Peers::none()).start()?;
    /// assert_eq!(node.id(), one);
    /// # Ok::<(), Box<dyn std::error::Error>>(())
    /// ```
    ///
    /// # Errors
    /// Where an address isn't this machine's own and `insecure` wasn't said; where the node's number is
    /// above the last space; where an address, a socket or a thread can't be had.
    pub fn start(self) -> Result<Node, NodeError> {
        let workers = self.workers;
        let parts = self.parts()?;
        let (shared, address) = (parts.shared.clone(), parts.address);
        let pool = Pool::start(&shared, workers)?;
        let (says, said) = mpsc::sync_channel(1);
        let (run_pool, name) = (pool.clone(), format!("masttomato-{}", shared.id()));
        // The space is made on the thread that has it, since it never leaves that.
        let run = move || match parts.driver(Some(run_pool)) {
            Ok(driver) => {
                let _heard = says.send(Ok(()));
                driver.run_to_the_end()
            }
            Err(error) => {
                let _heard = says.send(Err(error));
                (0, false)
            }
        };
        let thread = thread::Builder::new().name(name).spawn(run)?;
        match said.recv() {
            Ok(Ok(())) => {}
            Ok(Err(error)) => {
                pool.close();
                return Err(error);
            }
            Err(_) => return Err(NodeError::Stopped),
        }
        let inner = Inner { shared, pool, address, thread: Mutex::new(Some(thread)) };
        Ok(Node { inner: Arc::new(inner) })
    }

    /// Starts the node on this thread, which turns it where it waits. See [`LocalNode`].
    ///
    /// ```
    /// # use masttomato::{Node, Peers, SpaceId};
    /// # let [one, two] = [1, 2].map(|number| SpaceId::new(number).expect("1 to 32"));
    /// let node = Node::builder(one, Peers::none()).start_local()?;
    /// assert_eq!(node.id(), one);
    /// # Ok::<(), Box<dyn std::error::Error>>(())
    /// ```
    ///
    /// # Errors
    /// As [`Builder::start`].
    pub fn start_local(self) -> Result<LocalNode, NodeError> {
        let parts = self.parts()?;
        let (shared, address) = (parts.shared.clone(), parts.address);
        Ok(LocalNode::new(parts.driver(None)?, shared, address))
    }

    // All that can be made on any thread.
    fn parts(mut self) -> Result<Parts, NodeError> {
        let sealer = self.sealer()?;
        let named = self.peers.last().map_or(self.space, |last| last.max(self.space));
        let spaces = self.spaces.unwrap_or(named);
        if self.space > spaces {
            return Err(NodeError::OtherSpaces);
        }
        let is_its = |bounds: &Bounds| {
            let of = (bounds.world(), bounds.space(), bounds.spaces());
            of == (self.world, self.space, spaces)
        };
        if !self.bounds.as_ref().is_none_or(is_its) {
            return Err(NodeError::Bounds(BoundsError::OtherSpace));
        }
        let own = self.peers.lines().iter().find(|line| line.has(self.space));
        let listen = self.listen.clone().or(own.map(|line| line.address.clone()));
        let listened: Vec<SocketAddr> = match &listen {
            Some(address) => address.to_socket_addrs()?.collect(),
            None => Vec::new(),
        };
        let lower = |line: &&peers::Line| line.last < self.space;
        let mut dialed = Vec::new();
        for line in self.peers.lines().iter().filter(lower) {
            dialed.push((line.clone(), line.addresses()?));
        }
        let all = dialed.iter().flat_map(|(_, addresses)| addresses).chain(&listened);
        let is_inside = sealer.is_none() && !self.is_insecure;
        if is_inside && all.into_iter().any(|address| !address.ip().is_loopback()) {
            return Err(NodeError::Insecure);
        }
        let listener = listened.first().map(|address| TcpListener::bind(*address)).transpose()?;
        let address = listener.as_ref().map(TcpListener::local_addr).transpose()?;
        let poll = Poll::new()?;
        let waker = Waker::new(poll.registry(), WAKER)?;
        let (space, world, life) = (self.space, self.world, self.life);
        let hello = Hello { space, spaces, world, life, window: WINDOW, refused: None };
        let shared = Shared::new(space, waker, self.looks);
        let (listener, door) = match sealer {
            Some(sealer) => (None, Some(Door::open(sealer, listener, shared.clone())?)),
            None => (listener, None),
        };
        let net = Net::new(poll, listener, door, hello, dialed)?;
        let settings = Settings {
            space,
            spaces,
            give_up_after: self.give_up_after,
            open_calls: self.open_calls,
        };
        let (bounds, sink, chain) = (self.bounds, self.sink, self.chain);
        let spawner = self.spawner;
        Ok(Parts { shared, net, settings, bounds, sink, chain, spawner, address })
    }
}

struct Parts {
    shared: Arc<Shared>,
    net: Net,
    settings: Settings,
    bounds: Option<Bounds>,
    sink: Option<Box<dyn TraceSink>>,
    chain: Option<(SegmentSize, Box<dyn TraceSink>)>,
    spawner: Option<Arc<dyn Spawn>>,
    address: Option<SocketAddr>,
}

impl Parts {
    fn driver(self, pool: Option<Arc<Pool>>) -> Result<std::rc::Rc<Driver>, NodeError> {
        let started = Instant::now();
        let (settings, now) = (self.settings, Duration::ZERO);
        let mut engine = match self.bounds {
            None => Engine::new(settings, now).map_err(NodeError::Space)?,
            Some(bounds) => {
                Engine::begin_behind(bounds, settings, now).map_err(NodeError::Birth)?
            }
        };
        if let Some(sink) = self.sink {
            engine.record(sink);
        }
        if let Some((size, sink)) = self.chain {
            engine.record_chain(size, sink);
        }
        let core = Core::new(engine, self.shared.clone(), pool, self.spawner, started);
        Ok(Driver::new(core, self.net, self.shared, started))
    }
}

/// What was left when a node had been shut down: see [`Node::shutdown`].
///
/// ```
/// # use masttomato::*;
/// # #[interface]
/// # pub trait Bell { fn ring(&mut self) -> String; }
/// # struct Brass;
/// # impl Bell for Brass { fn ring(&mut self) -> String { "ding".into() } }
/// # let [one, two] = [1, 2].map(|number| SpaceId::new(number).expect("1 to 32"));
/// # let node = Node::builder(one, Peers::none()).spaces(two).start()?;
/// let left = node.shutdown(std::time::Duration::from_secs(5));
/// assert_eq!((left.still_running, left.told), (0, true));
/// # Ok::<(), Box<dyn std::error::Error>>(())
/// ```
#[derive(Clone, Copy, Debug, PartialEq, Eq, Hash)]
#[non_exhaustive]
pub struct Shutdown {
    /// How many methods still ran.
    pub still_running: usize,
    /// Whether each peer that was connected was told.
    pub told: bool,
}

struct Inner {
    shared: Arc<Shared>,
    pool: Arc<Pool>,
    address: Option<SocketAddr>,
    thread: Mutex<Option<JoinHandle<(usize, bool)>>>,
}

impl Inner {
    fn shut_down(&self, limit: Duration) -> Shutdown {
        self.shared.post(Command::Stop(Instant::now() + limit));
        let thread = self.thread.lock().unwrap_or_else(PoisonError::into_inner).take();
        // A node that is shut down by its own thread, as by an object's drop, ends later by itself.
        let is_other = |thread: &JoinHandle<_>| thread.thread().id() != thread::current().id();
        let ended = thread.filter(is_other).map(JoinHandle::join);
        self.pool.close();
        match ended {
            Some(Ok((still_running, told))) => Shutdown { still_running, told },
            _ => Shutdown { still_running: 0, told: false },
        }
    }
}

impl Drop for Inner {
    fn drop(&mut self) {
        self.shut_down(Duration::from_secs(5));
    }
}

/// A node: a space in a world, with its objects and its connections, turned by a thread of its own.
/// Clones are one node. The last of them that is dropped shuts it down, in five seconds at most;
/// [`Remote`]s don't keep it up.
///
/// ```
/// use masttomato::{interface, Node, Peers, Remote, SpaceId};
///
/// #[interface]
/// pub trait Counter {
///     /// Adds a number: the new total.
///     fn add(&mut self, by: i64) -> i64;
/// }
///
/// struct Tally(i64);
///
/// impl Counter for Tally {
///     fn add(&mut self, by: i64) -> i64 {
///         self.0 += by;
///         self.0
///     }
/// }
///
/// # fn main() -> Result<(), Box<dyn std::error::Error>> {
/// let [one, two] = [1, 2].map(|number| SpaceId::new(number).expect("1 to 32"));
/// let owner = Node::builder(one, Peers::none()).listen("127.0.0.1:0").spaces(two).start()?;
/// owner.bind("counter", &owner.export::<dyn Counter>(Box::new(Tally(0)))?)?;
///
/// let peers = Peers::none().with(one, owner.address().ok_or("it listens")?);
/// let caller = Node::builder(two, peers).spaces(two).start()?;
/// let counter: Remote<dyn Counter> = caller.lookup(one, "counter").wait()?;
/// assert_eq!(counter.add(20).wait()?, 20);
/// assert_eq!(counter.add(22).wait()?, 42);
/// # Ok(())
/// # }
/// ```
#[derive(Clone)]
pub struct Node {
    inner: Arc<Inner>,
}

impl fmt::Debug for Node {
    fn fmt(&self, f: &mut fmt::Formatter<'_>) -> fmt::Result {
        write!(f, "Node({})", self.id())
    }
}

impl Node {
    /// What a node of this number among these peers is started with.
    ///
    /// Unless it [keeps bounds](Builder::bounds), no other process may ever have had this number in its world, nor have
    /// it later. Nodes that knew another one refuse it (`NumberUsed`), but those that began again since then have
    /// forgotten it and let it in, and then an old reference names an object of the wrong process. So who starts
    /// processes without bounds counts their numbers up, also when others were restarted.
    ///
    /// ```
    /// # use masttomato::{Node, Peers, SpaceId};
    /// # let [one, two] = [1, 2].map(|number| SpaceId::new(number).expect("1 to 32"));
    /// let peers: Peers = "1 127.0.0.1:7001\n2..=32 127.0.0.1:0".parse()?;
    /// let builder = Node::builder(two, peers).workers(2);
    /// # drop(builder);
    /// # Ok::<(), Box<dyn std::error::Error>>(())
    /// ```
    pub fn builder(space: SpaceId, peers: Peers) -> Builder {
        Builder::new(space, peers)
    }

    /// The number of its space.
    ///
    /// ```
    /// # use masttomato::*;
    /// # #[interface]
    /// # pub trait Bell { fn ring(&mut self) -> String; }
    /// # struct Brass;
    /// # impl Bell for Brass { fn ring(&mut self) -> String { "ding".into() } }
    /// # let [one, two] = [1, 2].map(|number| SpaceId::new(number).expect("1 to 32"));
    /// # let node = Node::builder(one, Peers::none()).spaces(two).start()?;
    /// assert_eq!(node.id(), one);
    /// # Ok::<(), Box<dyn std::error::Error>>(())
    /// ```
    pub fn id(&self) -> SpaceId {
        self.inner.shared.id()
    }

    /// Where it listens.
    ///
    /// ```
    /// # use masttomato::*;
    /// # #[interface]
    /// # pub trait Bell { fn ring(&mut self) -> String; }
    /// # struct Brass;
    /// # impl Bell for Brass { fn ring(&mut self) -> String { "ding".into() } }
    /// # let [one, two] = [1, 2].map(|number| SpaceId::new(number).expect("1 to 32"));
    /// # let node = Node::builder(one, Peers::none()).spaces(two).start()?;
    /// assert_eq!(node.address(), None);                // nobody connects to it
    /// let node = Node::builder(one, Peers::none()).listen("127.0.0.1:0").start()?;
    /// assert!(node.address().is_some_and(|address| address.port() > 0));
    /// # Ok::<(), Box<dyn std::error::Error>>(())
    /// ```
    pub fn address(&self) -> Option<SocketAddr> {
        self.inner.address
    }

    /// Makes an object known, whose methods run on a worker: a reference to it. The object is dropped
    /// once nobody has one.
    ///
    /// ```
    /// # use masttomato::*;
    /// # #[interface]
    /// # pub trait Bell { fn ring(&mut self) -> String; }
    /// # struct Brass;
    /// # impl Bell for Brass { fn ring(&mut self) -> String { "ding".into() } }
    /// # let [one, two] = [1, 2].map(|number| SpaceId::new(number).expect("1 to 32"));
    /// # let node = Node::builder(one, Peers::none()).spaces(two).start()?;
    /// let bell = node.export::<dyn Bell>(Box::new(Brass))?;
    /// assert_eq!(bell.ring().wait()?, "ding");
    /// # Ok::<(), Box<dyn std::error::Error>>(())
    /// ```
    ///
    /// # Errors
    /// Where there are as many objects as there may be, or the node has stopped.
    pub fn export<I: Interface + ?Sized>(&self, object: Box<I>) -> Result<Remote<I>, NodeError> {
        self.export_with(object, Run::Pool)
    }

    /// Makes an object known, and says where its methods run.
    ///
    /// ```
    /// # use masttomato::{Node, Peers, Run, SpaceId, interface};
    /// # #[interface]
    /// # pub trait Bell { fn ring(&mut self) -> String; }
    /// # struct Brass;
    /// # impl Bell for Brass { fn ring(&mut self) -> String { "ding".into() } }
    /// # fn main() -> Result<(), Box<dyn std::error::Error>> {
    /// # let here = SpaceId::try_from(1)?;
    /// # let node = Node::builder(here, Peers::none()).start()?;
    /// let bell = node.export_with::<dyn Bell>(Box::new(Brass), Run::Inline)?;
    /// assert_eq!(bell.ring().wait()?, "ding");
    /// # Ok(())
    /// # }
    /// ```
    ///
    /// # Errors
    /// As [`Node::export`].
    pub fn export_with<I: Interface + ?Sized>(
        &self,
        object: Box<I>,
        run: Run,
    ) -> Result<Remote<I>, NodeError> {
        export(&self.inner.shared, object, run)
    }

    /// Makes an object known by a name to all that look it up here, until `unbind`, or another object is
    /// bound to that name.
    ///
    /// ```
    /// # use masttomato::{CallError, Fault, Node, Peers, Remote, SpaceId, interface};
    /// # #[interface]
    /// # pub trait Bell { fn ring(&mut self) -> String; }
    /// # struct Brass;
    /// # impl Bell for Brass { fn ring(&mut self) -> String { "ding".into() } }
    /// # fn main() -> Result<(), Box<dyn std::error::Error>> {
    /// # let here = SpaceId::try_from(1)?;
    /// # let node = Node::builder(here, Peers::none()).start()?;
    /// let bell = node.export::<dyn Bell>(Box::new(Brass))?;
    /// node.bind("bell", &bell)?;
    /// let found: Remote<dyn Bell> = node.lookup(here, "bell").wait()?;
    /// assert!(found == bell && node.unbind("bell"));
    /// let missing = node.lookup::<dyn Bell>(here, "bell").wait();
    /// assert_eq!(missing.unwrap_err(), CallError::Fault(Fault::NoName));
    /// # Ok(())
    /// # }
    /// ```
    ///
    /// # Errors
    /// Where it is no name, or there are too many; where the reference is another node's.
    pub fn bind<I: ?Sized>(&self, name: &str, object: &Remote<I>) -> Result<(), NodeError> {
        bind(&self.inner.shared, name, object)
    }

    /// Whether the name was bound. It isn't any more.
    ///
    /// ```
    /// # use masttomato::*;
    /// # #[interface]
    /// # pub trait Bell { fn ring(&mut self) -> String; }
    /// # struct Brass;
    /// # impl Bell for Brass { fn ring(&mut self) -> String { "ding".into() } }
    /// # let [one, two] = [1, 2].map(|number| SpaceId::new(number).expect("1 to 32"));
    /// # let node = Node::builder(one, Peers::none()).spaces(two).start()?;
    /// node.bind("bell", &node.export::<dyn Bell>(Box::new(Brass))?)?;
    /// assert!(node.unbind("bell") && !node.unbind("bell"));
    /// # Ok::<(), Box<dyn std::error::Error>>(())
    /// ```
    pub fn unbind(&self, name: &str) -> bool {
        unbind(&self.inner.shared, name)
    }

    /// Asks a space for the object of a name. An object of another interface is
    /// [`Fault::OtherInterface`]. Where the space can't be reached, the call waits, up to
    /// `give_up_after`.
    ///
    /// ```
    /// # use masttomato::*;
    /// # #[interface]
    /// # pub trait Bell { fn ring(&mut self) -> String; }
    /// # struct Brass;
    /// # impl Bell for Brass { fn ring(&mut self) -> String { "ding".into() } }
    /// # let [one, two] = [1, 2].map(|number| SpaceId::new(number).expect("1 to 32"));
    /// # let node = Node::builder(one, Peers::none()).spaces(two).start()?;
    /// node.bind("bell", &node.export::<dyn Bell>(Box::new(Brass))?)?;
    /// let bell: Remote<dyn Bell> = node.lookup(one, "bell").wait()?;
    /// assert!(bell.is_mine());
    /// # Ok::<(), Box<dyn std::error::Error>>(())
    /// ```
    pub fn lookup<I: Interface + ?Sized>(&self, peer: SpaceId, name: &str) -> Call<Remote<I>> {
        lookup(&self.inner.shared, peer, name)
    }

    /// An object that a peer has under a name, which is looked up again where it was lost.
    ///
    /// ```
    /// # use masttomato::*;
    /// # #[interface]
    /// # pub trait Bell { fn ring(&mut self) -> String; }
    /// # struct Brass;
    /// # impl Bell for Brass { fn ring(&mut self) -> String { "ding".into() } }
    /// # let one = SpaceId::new(1).expect("1 to 32");
    /// # let node = Node::builder(one, Peers::none()).start()?;
    /// # node.bind("bell", &node.export::<dyn Bell>(Box::new(Brass))?)?;
    /// let bell = node.named::<dyn Bell>(one, "bell");
    /// assert_eq!(bell.get()?.ring().wait()?, "ding");
    /// # Ok::<(), Box<dyn std::error::Error>>(())
    /// ```
    pub fn named<I: Interface + ?Sized>(&self, peer: SpaceId, name: &str) -> Named<I> {
        Named::new(&self.inner.shared, peer, name)
    }

    /// How the session with a peer stands; closed where the node has stopped.
    ///
    /// ```
    /// # use masttomato::*;
    /// # #[interface]
    /// # pub trait Bell { fn ring(&mut self) -> String; }
    /// # struct Brass;
    /// # impl Bell for Brass { fn ring(&mut self) -> String { "ding".into() } }
    /// # let [one, two] = [1, 2].map(|number| SpaceId::new(number).expect("1 to 32"));
    /// # let node = Node::builder(one, Peers::none()).spaces(two).start()?;
    /// assert!(matches!(node.session(two), Session::Down { .. }));
    /// # Ok::<(), Box<dyn std::error::Error>>(())
    /// ```
    pub fn session(&self, peer: SpaceId) -> Session {
        let stopped = Session::Closed(crate::space::Reason::Asked);
        ask(&self.inner.shared, move |core| core.engine.session(peer)).unwrap_or(stopped)
    }

    /// How sessions change from now on.
    ///
    /// ```
    /// # use masttomato::*;
    /// # #[interface]
    /// # pub trait Bell { fn ring(&mut self) -> String; }
    /// # struct Brass;
    /// # impl Bell for Brass { fn ring(&mut self) -> String { "ding".into() } }
    /// # let [one, two] = [1, 2].map(|number| SpaceId::new(number).expect("1 to 32"));
    /// # let node = Node::builder(one, Peers::none()).spaces(two).start()?;
    /// let mut changes = node.changes()?;
    /// node.close(two);
    /// assert_eq!(changes.next(), Some((two, Session::Closed(Reason::Asked))));
    /// # Ok::<(), Box<dyn std::error::Error>>(())
    /// ```
    ///
    /// # Errors
    /// Where the node has stopped.
    pub fn changes(&self) -> Result<Changes, NodeError> {
        ask(&self.inner.shared, Core::watch)
    }

    /// Closes the session with a peer: what either has of the other is lost. It stays closed until it is
    /// [opened](Node::open) anew.
    ///
    /// ```
    /// # use masttomato::{Node, Peers, Reason, Session, SpaceId};
    /// # fn main() -> Result<(), Box<dyn std::error::Error>> {
    /// # let [one, two] = [1, 2].map(|number| SpaceId::new(number).expect("1 to 32"));
    /// let node = Node::builder(one, Peers::none()).spaces(two).start()?;
    /// assert!(matches!(node.session(two), Session::Down { .. }));
    /// node.close(two);
    /// assert_eq!(node.session(two), Session::Closed(Reason::Asked));
    /// # Ok(())
    /// # }
    /// ```
    pub fn close(&self, peer: SpaceId) {
        close(&self.inner.shared, peer);
    }

    /// Opens the session with a peer anew, which has closed here: its number. A node never does so by itself, since
    /// its program knows what it had of the peer. That is lost: give it back (drop each [`Remote`] of the peer's
    /// objects, remove their names), open, and look up again.
    ///
    /// The peer's program opens the session as well, where it has closed there; what is sent before waits for
    /// that. Where it is open there, it closes with the first frame of the new one. Either end may be the first, and
    /// they are connected again if they aren't.
    ///
    /// ```
    /// # use masttomato::*;
    /// # #[interface]
    /// # pub trait Bell { fn ring(&mut self) -> String; }
    /// # struct Brass;
    /// # impl Bell for Brass { fn ring(&mut self) -> String { "ding".into() } }
    /// # let [one, two] = [1, 2].map(|number| SpaceId::new(number).expect("1 to 32"));
    /// # let owner = Node::builder(one, Peers::none()).listen("127.0.0.1:0").spaces(two).start()?;
    /// # owner.bind("bell", &owner.export::<dyn Bell>(Box::new(Brass))?)?;
    /// # let peers = Peers::none().with(one, owner.address().ok_or("it listens")?);
    /// # let node = Node::builder(two, peers).give_up_after(std::time::Duration::from_secs(60)).start()?;
    /// let mut changes = owner.changes()?;
    /// let bell: Remote<dyn Bell> = node.lookup(one, "bell").wait()?;
    /// node.close(one);
    /// assert!(node.open(one).is_err());                       // the bell that was lost is still held
    /// drop(bell);
    /// assert_eq!(node.open(one)?, 2);
    /// let bell = node.lookup::<dyn Bell>(one, "bell");
    /// assert!(changes.any(|(_, session)| session == Session::Closed(Reason::PeerClosed)));
    /// assert_eq!(owner.open(two)?, 2);
    /// assert_eq!(bell.wait()?.ring().wait()?, "ding");
    /// # Ok::<(), Box<dyn std::error::Error>>(())
    /// ```
    ///
    /// # Errors
    /// The space's refusal: where the session is open, or something of the peer's is still held here. That may be what
    /// a call carries which a third node hasn't taken yet, or an argument of a method that runs: so it may go later.
    /// Or the node has stopped.
    pub fn open(&self, peer: SpaceId) -> Result<u32, NodeError> {
        open(&self.inner.shared, peer)
    }

    /// How it stands: its live objects, its sessions and what went each way on them, its oldest job, and what it
    /// counted. The report's text is for Prometheus to read.
    ///
    /// ```
    /// # use masttomato::{Node, Peers, SpaceId};
    /// # fn main() -> Result<(), Box<dyn std::error::Error>> {
    /// let node = Node::builder(SpaceId::try_from(1)?, Peers::none()).start()?;
    /// println!("{}", node.report()?);
    /// # Ok(())
    /// # }
    /// ```
    ///
    /// # Errors
    /// Where the node has stopped.
    pub fn report(&self) -> Result<Report, NodeError> {
        ask(&self.inner.shared, Core::report)
    }

    /// What each of its threads does, and for which call it waits. The node isn't asked for that: so it is answered also where
    /// a method that runs inline never ends.
    ///
    /// ```
    /// # use masttomato::{Node, Peers, SpaceId};
    /// # let node = Node::builder(SpaceId::new(1).expect("1 to 32"), Peers::none()).workers(2).start()?;
    /// for thread in node.threads() {
    ///     println!("{thread}");           // masttomato-1-worker-2: rests, for 0.0 s
    /// }
    /// # Ok::<(), Box<dyn std::error::Error>>(())
    /// ```
    pub fn threads(&self) -> Vec<ThreadReport> {
        self.inner.shared.desks().report()
    }

    /// What was counted; nothing where the node has stopped.
    ///
    /// ```
    /// # use masttomato::*;
    /// # #[interface]
    /// # pub trait Bell { fn ring(&mut self) -> String; }
    /// # struct Brass;
    /// # impl Bell for Brass { fn ring(&mut self) -> String { "ding".into() } }
    /// # let [one, two] = [1, 2].map(|number| SpaceId::new(number).expect("1 to 32"));
    /// # let node = Node::builder(one, Peers::none()).spaces(two).start()?;
    /// assert_eq!(node.counts().calls_made, 0);
    /// # Ok::<(), Box<dyn std::error::Error>>(())
    /// ```
    pub fn counts(&self) -> Counts {
        ask(&self.inner.shared, |core| core.engine.counts()).unwrap_or_default()
    }

    /// Has the node stop, in five seconds at most, and returns at once.
    ///
    /// ```
    /// # use masttomato::*;
    /// # #[interface]
    /// # pub trait Bell { fn ring(&mut self) -> String; }
    /// # struct Brass;
    /// # impl Bell for Brass { fn ring(&mut self) -> String { "ding".into() } }
    /// # let [one, two] = [1, 2].map(|number| SpaceId::new(number).expect("1 to 32"));
    /// # let node = Node::builder(one, Peers::none()).spaces(two).start()?;
    /// node.stop();
    /// node.run_until_stopped();
    /// assert!(matches!(node.export::<dyn Bell>(Box::new(Brass)), Err(NodeError::Stopped)));
    /// # Ok::<(), Box<dyn std::error::Error>>(())
    /// ```
    pub fn stop(&self) {
        self.inner.shared.post(Command::Stop(Instant::now() + Duration::from_secs(5)));
    }

    /// Waits until the node has stopped, as by [`stop`](Node::stop) of another thread.
    ///
    /// ```
    /// # use masttomato::{Node, Peers, SpaceId};
    /// # fn main() -> Result<(), Box<dyn std::error::Error>> {
    /// let node = Node::builder(SpaceId::try_from(1)?, Peers::none()).start()?;
    /// let other = node.clone();
    /// std::thread::spawn(move || other.stop());
    /// node.run_until_stopped();
    /// # Ok(())
    /// # }
    /// ```
    pub fn run_until_stopped(&self) {
        self.inner.shared.wait_until_stopped();
    }

    /// Shuts the node down, also where there are other clones: no new call is carried out; methods that
    /// run go on to their ends, for so long at most; peers are told; the node's thread ends.
    ///
    /// ```
    /// # use masttomato::{Node, Peers, SpaceId};
    /// # use std::time::Duration;
    /// # fn main() -> Result<(), Box<dyn std::error::Error>> {
    /// let node = Node::builder(SpaceId::try_from(1)?, Peers::none()).start()?;
    /// let left = node.shutdown(Duration::from_secs(5));
    /// assert!(left.told && left.still_running == 0);
    /// # Ok(())
    /// # }
    /// ```
    pub fn shutdown(self, limit: Duration) -> Shutdown {
        self.inner.shut_down(limit)
    }
}
