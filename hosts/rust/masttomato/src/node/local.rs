//! A node on the thread of whoever uses it.

use super::call::Call;
use super::driver::Driver;
use super::hold::Remote;
use super::named::Named;
use super::shared::Shared;
use super::{Changes, NodeError, Run, Shutdown};
use crate::engine::{Counts, Report, Session};
use crate::interface::Interface;
use crate::space::SpaceId;
use std::fmt;
use std::future::Future;
use std::net::SocketAddr;
use std::pin::pin;
use std::rc::Rc;
use std::sync::Arc;
use std::task::{Context, Poll, Waker};
use std::time::{Duration, Instant};

/// A node without threads: whoever waits for a call turns it, and its objects' methods run there. It is
/// the fastest for a single caller, and for tests and tools; it does nothing while nobody waits or
/// [turns](LocalNode::run_for) it.
///
/// ```
/// # use masttomato::{interface, Node, Peers, SpaceId};
/// # #[interface]
/// # pub trait Bell { fn ring(&mut self) -> String; }
/// # struct Brass;
/// # impl Bell for Brass { fn ring(&mut self) -> String { "ding".into() } }
/// # fn main() -> Result<(), Box<dyn std::error::Error>> {
/// let node = Node::builder(SpaceId::new(1).ok_or("1 to 32")?, Peers::none()).start_local()?;
/// let bell = node.export::<dyn Bell>(Box::new(Brass))?;
/// assert_eq!(bell.ring().wait()?, "ding");
/// assert_eq!(node.block_on(async { bell.ring().await })?, "ding");
/// # Ok(())
/// # }
/// ```
pub struct LocalNode {
    driver: Rc<Driver>,
    shared: Arc<Shared>,
    address: Option<SocketAddr>,
}

impl fmt::Debug for LocalNode {
    fn fmt(&self, f: &mut fmt::Formatter<'_>) -> fmt::Result {
        write!(f, "LocalNode({})", self.id())
    }
}

impl LocalNode {
    pub(super) fn new(
        driver: Rc<Driver>,
        shared: Arc<Shared>,
        address: Option<SocketAddr>,
    ) -> LocalNode {
        LocalNode { driver, shared, address }
    }

    /// The number of its space.
    ///
    /// ```
    /// # use masttomato::*;
    /// # #[interface]
    /// # pub trait Bell { fn ring(&mut self) -> String; }
    /// # struct Brass;
    /// # impl Bell for Brass { fn ring(&mut self) -> String { "ding".into() } }
    /// # let [one, two] = [1, 2].map(|number| SpaceId::new(number).expect("1 to 32"));
    /// # let node = Node::builder(one, Peers::none()).spaces(two).start_local()?;
    /// assert_eq!(node.id(), one);
    /// # Ok::<(), Box<dyn std::error::Error>>(())
    /// ```
    pub fn id(&self) -> SpaceId {
        self.shared.id()
    }

    /// Where it listens.
    ///
    /// ```
    /// # use masttomato::*;
    /// # #[interface]
    /// # pub trait Bell { fn ring(&mut self) -> String; }
    /// # struct Brass;
    /// # impl Bell for Brass { fn ring(&mut self) -> String { "ding".into() } }
    /// # let [one, two] = [1, 2].map(|number| SpaceId::new(number).expect("1 to 32"));
    /// # let node = Node::builder(one, Peers::none()).spaces(two).start_local()?;
    /// assert_eq!(node.address(), None);
    /// let node = Node::builder(one, Peers::none()).listen("127.0.0.1:0").start_local()?;
    /// assert!(node.address().is_some());
    /// # Ok::<(), Box<dyn std::error::Error>>(())
    /// ```
    pub fn address(&self) -> Option<SocketAddr> {
        self.address
    }

    /// Makes an object known: a reference to it.
    ///
    /// ```
    /// # use masttomato::*;
    /// # #[interface]
    /// # pub trait Bell { fn ring(&mut self) -> String; }
    /// # struct Brass;
    /// # impl Bell for Brass { fn ring(&mut self) -> String { "ding".into() } }
    /// # let [one, two] = [1, 2].map(|number| SpaceId::new(number).expect("1 to 32"));
    /// # let node = Node::builder(one, Peers::none()).spaces(two).start_local()?;
    /// let bell = node.export::<dyn Bell>(Box::new(Brass))?;
    /// assert_eq!(bell.ring().wait()?, "ding");
    /// # Ok::<(), Box<dyn std::error::Error>>(())
    /// ```
    ///
    /// # Errors
    /// Where there are as many objects as there may be.
    pub fn export<I: Interface + ?Sized>(&self, object: Box<I>) -> Result<Remote<I>, NodeError> {
        super::export(&self.shared, object, Run::Inline)
    }

    /// Makes an object known by a name, as [`Node::bind`](super::Node::bind).
    ///
    /// ```
    /// # use masttomato::*;
    /// # #[interface]
    /// # pub trait Bell { fn ring(&mut self) -> String; }
    /// # struct Brass;
    /// # impl Bell for Brass { fn ring(&mut self) -> String { "ding".into() } }
    /// # let [one, two] = [1, 2].map(|number| SpaceId::new(number).expect("1 to 32"));
    /// # let node = Node::builder(one, Peers::none()).spaces(two).start_local()?;
    /// node.bind("bell", &node.export::<dyn Bell>(Box::new(Brass))?)?;
    /// assert_eq!(node.lookup::<dyn Bell>(one, "bell").wait()?.ring().wait()?, "ding");
    /// # Ok::<(), Box<dyn std::error::Error>>(())
    /// ```
    ///
    /// # Errors
    /// Where it is no name, or there are too many; where the reference is another node's.
    pub fn bind<I: ?Sized>(&self, name: &str, object: &Remote<I>) -> Result<(), NodeError> {
        super::bind(&self.shared, name, object)
    }

    /// Whether the name was bound. It isn't any more.
    ///
    /// ```
    /// # use masttomato::*;
    /// # #[interface]
    /// # pub trait Bell { fn ring(&mut self) -> String; }
    /// # struct Brass;
    /// # impl Bell for Brass { fn ring(&mut self) -> String { "ding".into() } }
    /// # let [one, two] = [1, 2].map(|number| SpaceId::new(number).expect("1 to 32"));
    /// # let node = Node::builder(one, Peers::none()).spaces(two).start_local()?;
    /// node.bind("bell", &node.export::<dyn Bell>(Box::new(Brass))?)?;
    /// assert!(node.unbind("bell") && !node.unbind("bell"));
    /// # Ok::<(), Box<dyn std::error::Error>>(())
    /// ```
    pub fn unbind(&self, name: &str) -> bool {
        super::unbind(&self.shared, name)
    }

    /// Asks a space for the object of a name, as [`Node::lookup`](super::Node::lookup).
    ///
    /// ```
    /// # use masttomato::*;
    /// # #[interface]
    /// # pub trait Bell { fn ring(&mut self) -> String; }
    /// # struct Brass;
    /// # impl Bell for Brass { fn ring(&mut self) -> String { "ding".into() } }
    /// # let [one, two] = [1, 2].map(|number| SpaceId::new(number).expect("1 to 32"));
    /// # let node = Node::builder(one, Peers::none()).spaces(two).start_local()?;
    /// let missing = node.lookup::<dyn Bell>(one, "bell").wait();
    /// assert_eq!(missing.unwrap_err(), CallError::Fault(Fault::NoName));
    /// # Ok::<(), Box<dyn std::error::Error>>(())
    /// ```
    pub fn lookup<I: Interface + ?Sized>(&self, peer: SpaceId, name: &str) -> Call<Remote<I>> {
        super::lookup(&self.shared, peer, name)
    }

    /// An object that a peer has under a name, which is looked up again where it was lost.
    ///
    /// ```
    /// # use masttomato::*;
    /// # #[interface]
    /// # pub trait Bell { fn ring(&mut self) -> String; }
    /// # struct Brass;
    /// # impl Bell for Brass { fn ring(&mut self) -> String { "ding".into() } }
    /// # let one = SpaceId::new(1).expect("1 to 32");
    /// # let node = Node::builder(one, Peers::none()).start_local()?;
    /// # node.bind("bell", &node.export::<dyn Bell>(Box::new(Brass))?)?;
    /// let bell = node.named::<dyn Bell>(one, "bell");
    /// assert_eq!(bell.get()?.ring().wait()?, "ding");
    /// # Ok::<(), Box<dyn std::error::Error>>(())
    /// ```
    pub fn named<I: Interface + ?Sized>(&self, peer: SpaceId, name: &str) -> Named<I> {
        Named::new(&self.shared, peer, name)
    }

    /// How the session with a peer stands.
    ///
    /// ```
    /// # use masttomato::*;
    /// # #[interface]
    /// # pub trait Bell { fn ring(&mut self) -> String; }
    /// # struct Brass;
    /// # impl Bell for Brass { fn ring(&mut self) -> String { "ding".into() } }
    /// # let [one, two] = [1, 2].map(|number| SpaceId::new(number).expect("1 to 32"));
    /// # let node = Node::builder(one, Peers::none()).spaces(two).start_local()?;
    /// assert!(matches!(node.session(two), Session::Down { .. }));
    /// # Ok::<(), Box<dyn std::error::Error>>(())
    /// ```
    pub fn session(&self, peer: SpaceId) -> Session {
        self.driver.ask(|core| core.engine.session(peer))
    }

    /// Closes the session with a peer, as [`Node::close`](super::Node::close).
    ///
    /// ```
    /// # use masttomato::*;
    /// # let [one, two] = [1, 2].map(|number| SpaceId::new(number).expect("1 to 32"));
    /// # let node = Node::builder(one, Peers::none()).spaces(two).start_local()?;
    /// node.close(two);
    /// assert_eq!(node.session(two), Session::Closed(Reason::Asked));
    /// # Ok::<(), Box<dyn std::error::Error>>(())
    /// ```
    pub fn close(&self, peer: SpaceId) {
        super::close(&self.shared, peer);
    }

    /// Opens the session with a peer anew, as [`Node::open`](super::Node::open).
    ///
    /// ```
    /// # use masttomato::*;
    /// # let [one, two] = [1, 2].map(|number| SpaceId::new(number).expect("1 to 32"));
    /// # let node = Node::builder(one, Peers::none()).spaces(two).start_local()?;
    /// assert!(node.open(two).is_err());                       // it is open
    /// node.close(two);
    /// assert_eq!(node.open(two)?, 2);
    /// # Ok::<(), Box<dyn std::error::Error>>(())
    /// ```
    ///
    /// # Errors
    /// As [`Node::open`](super::Node::open).
    pub fn open(&self, peer: SpaceId) -> Result<u32, NodeError> {
        super::open(&self.shared, peer)
    }

    /// How sessions change from now on.
    ///
    /// ```
    /// # use masttomato::*;
    /// # #[interface]
    /// # pub trait Bell { fn ring(&mut self) -> String; }
    /// # struct Brass;
    /// # impl Bell for Brass { fn ring(&mut self) -> String { "ding".into() } }
    /// # let [one, two] = [1, 2].map(|number| SpaceId::new(number).expect("1 to 32"));
    /// # let node = Node::builder(one, Peers::none()).spaces(two).start_local()?;
    /// let changes = node.changes();
    /// assert_eq!(changes.try_next(), None);
    /// # Ok::<(), Box<dyn std::error::Error>>(())
    /// ```
    pub fn changes(&self) -> Changes {
        self.driver.ask(super::Core::watch)
    }

    /// How it stands: see [`Node::report`](crate::Node::report).
    ///
    /// ```
    /// # use masttomato::{Node, Peers, SpaceId};
    /// # fn main() -> Result<(), Box<dyn std::error::Error>> {
    /// let node = Node::builder(SpaceId::try_from(1)?, Peers::none()).start_local()?;
    /// assert_eq!(node.report().live, 0);
    /// # Ok(())
    /// # }
    /// ```
    pub fn report(&self) -> Report {
        self.driver.ask(super::Core::report)
    }

    /// What was counted.
    ///
    /// ```
    /// # use masttomato::*;
    /// # #[interface]
    /// # pub trait Bell { fn ring(&mut self) -> String; }
    /// # struct Brass;
    /// # impl Bell for Brass { fn ring(&mut self) -> String { "ding".into() } }
    /// # let [one, two] = [1, 2].map(|number| SpaceId::new(number).expect("1 to 32"));
    /// # let node = Node::builder(one, Peers::none()).spaces(two).start_local()?;
    /// assert_eq!(node.counts().calls_open, 0);
    /// # Ok::<(), Box<dyn std::error::Error>>(())
    /// ```
    pub fn counts(&self) -> Counts {
        self.driver.ask(|core| core.engine.counts())
    }

    /// Turns the node for so long.
    ///
    /// ```
    /// # use masttomato::*;
    /// # #[interface]
    /// # pub trait Bell { fn ring(&mut self) -> String; }
    /// # struct Brass;
    /// # impl Bell for Brass { fn ring(&mut self) -> String { "ding".into() } }
    /// # let [one, two] = [1, 2].map(|number| SpaceId::new(number).expect("1 to 32"));
    /// # let node = Node::builder(one, Peers::none()).spaces(two).start_local()?;
    /// node.run_for(std::time::Duration::from_millis(1));
    /// # Ok::<(), Box<dyn std::error::Error>>(())
    /// ```
    pub fn run_for(&self, time: Duration) {
        self.driver.turn_until(Instant::now().checked_add(time), || None::<()>);
    }

    /// Turns the node until something holds, or for so long: whether it holds.
    ///
    /// ```
    /// # use masttomato::{Node, Peers, Session, SpaceId};
    /// # use std::time::Duration;
    /// # fn main() -> Result<(), Box<dyn std::error::Error>> {
    /// # let [one, two] = [1, 2].map(|number| SpaceId::new(number).expect("1 to 32"));
    /// let owner = Node::builder(one, Peers::none()).listen("127.0.0.1:0").spaces(two).start()?;
    /// let peers = Peers::none().with(one, owner.address().ok_or("it listens")?);
    /// let node = Node::builder(two, peers).start_local()?;
    /// assert!(node.run_until(Duration::from_secs(60), || node.session(one) == Session::Open));
    /// # Ok(())
    /// # }
    /// ```
    pub fn run_until(&self, limit: Duration, mut holds: impl FnMut() -> bool) -> bool {
        let end = Instant::now().checked_add(limit);
        self.driver.turn_until(end, || holds().then_some(())).is_some()
    }

    /// Turns the node until a future is ready.
    ///
    /// ```
    /// # use masttomato::*;
    /// # #[interface]
    /// # pub trait Bell { fn ring(&mut self) -> String; }
    /// # struct Brass;
    /// # impl Bell for Brass { fn ring(&mut self) -> String { "ding".into() } }
    /// # let [one, two] = [1, 2].map(|number| SpaceId::new(number).expect("1 to 32"));
    /// # let node = Node::builder(one, Peers::none()).spaces(two).start_local()?;
    /// let bell = node.export::<dyn Bell>(Box::new(Brass))?;
    /// let rung = node.block_on(async { Ok::<_, CallError>((bell.ring().await?, bell.ring().await?)) })?;
    /// assert_eq!(rung, ("ding".into(), "ding".into()));
    /// # Ok::<(), Box<dyn std::error::Error>>(())
    /// ```
    pub fn block_on<F: Future>(&self, future: F) -> F::Output {
        let mut future = pin!(future);
        // Nobody sleeps while it turns, so nobody is to be woken.
        let mut context = Context::from_waker(Waker::noop());
        let mut poll = || match future.as_mut().poll(&mut context) {
            Poll::Ready(output) => Some(output),
            Poll::Pending => None,
        };
        loop {
            if let Some(output) = self.driver.turn_until(None, &mut poll) {
                return output;
            }
        }
    }

    /// Shuts the node down, in so long at most: peers are told.
    ///
    /// ```
    /// # use masttomato::*;
    /// # #[interface]
    /// # pub trait Bell { fn ring(&mut self) -> String; }
    /// # struct Brass;
    /// # impl Bell for Brass { fn ring(&mut self) -> String { "ding".into() } }
    /// # let [one, two] = [1, 2].map(|number| SpaceId::new(number).expect("1 to 32"));
    /// # let node = Node::builder(one, Peers::none()).spaces(two).start_local()?;
    /// assert!(node.shutdown(std::time::Duration::from_secs(5)).told);
    /// # Ok::<(), Box<dyn std::error::Error>>(())
    /// ```
    pub fn shutdown(self, limit: Duration) -> Shutdown {
        let (still_running, told) = self.driver.end(Instant::now() + limit);
        Shutdown { still_running, told }
    }
}

impl Drop for LocalNode {
    fn drop(&mut self) {
        if !self.shared.is_closed() {
            self.driver.end(Instant::now() + Duration::from_secs(1));
        }
    }
}
