//! Remote objects by their names, which are looked up again where they were lost.

use super::call::{Call, CallError};
use super::hold::Remote;
use super::shared::Shared;
use crate::interface::Interface;
use crate::space::SpaceId;
use std::fmt;
use std::sync::{Arc, Mutex, PoisonError};
use std::time::Duration;

/// An object that another node has under a name. It is looked up when it is first wanted, and again where what was had
/// is lost, since its owner's process died and came back: see [`Node::named`](crate::Node::named).
///
/// ```
/// use masttomato::{CallError, Named, Node, Peers, SpaceId, interface};
///
/// #[interface]
/// pub trait Bell {
///     fn ring(&mut self) -> String;
/// }
/// # struct Brass;
/// # impl Bell for Brass { fn ring(&mut self) -> String { "ding".into() } }
///
/// /// Rings whichever bell has the name now.
/// fn ring(bell: &Named<dyn Bell>) -> Result<String, CallError> {
///     bell.with(|bell| bell.ring().wait())
/// }
///
/// # fn main() -> Result<(), Box<dyn std::error::Error>> {
/// # let one = SpaceId::try_from(1)?;
/// # let node = Node::builder(one, Peers::none()).start()?;
/// node.bind("bell", &node.export::<dyn Bell>(Box::new(Brass))?)?;
/// let bell = node.named::<dyn Bell>(one, "bell");
/// assert_eq!(ring(&bell)?, "ding");
/// # Ok(())
/// # }
/// ```
pub struct Named<I: ?Sized> {
    shared: Arc<Shared>,
    peer: SpaceId,
    name: String,
    found: Mutex<Option<Remote<I>>>,
}

impl<I: Interface + ?Sized> Named<I> {
    pub(crate) fn new(shared: &Arc<Shared>, peer: SpaceId, name: &str) -> Named<I> {
        let (shared, name) = (shared.clone(), name.to_string());
        Named { shared, peer, name, found: Mutex::new(None) }
    }

    /// The object: what was found before, unless it is lost, and else what its owner has under the name now. Whether a
    /// session has closed that may be opened anew isn't asked: [`Named::with`] finds that out. It waits as long as the
    /// owner's node says nothing: [`Named::get_for`] doesn't.
    ///
    /// ```
    /// # use masttomato::*;
    /// # #[interface]
    /// # pub trait Bell { fn ring(&mut self) -> String; }
    /// # let one = SpaceId::new(1).expect("1 to 32");
    /// # let node = Node::builder(one, Peers::none()).start()?;
    /// let none = node.named::<dyn Bell>(one, "bell").get();
    /// assert_eq!(none.unwrap_err(), CallError::Fault(Fault::NoName));
    /// # Ok::<(), Box<dyn std::error::Error>>(())
    /// ```
    ///
    /// # Errors
    /// Why it wasn't found.
    pub fn get(&self) -> Result<Remote<I>, CallError> {
        self.get_by(Call::wait)
    }

    /// The same, but that a look-up waits no longer than this.
    ///
    /// ```
    /// # use masttomato::*;
    /// # use std::time::Duration;
    /// # #[interface]
    /// # pub trait Bell { fn ring(&mut self) -> String; }
    /// # let [one, two] = [1, 2].map(|number| SpaceId::new(number).expect("1 to 32"));
    /// let node = Node::builder(one, Peers::none()).spaces(two).start()?;       // and nobody is space 2
    /// let none = node.named::<dyn Bell>(two, "bell").get_for(Duration::from_millis(20));
    /// assert_eq!(none.unwrap_err(), CallError::TimedOut);
    /// # Ok::<(), Box<dyn std::error::Error>>(())
    /// ```
    ///
    /// # Errors
    /// Why it wasn't found: `TimedOut` where nothing was heard.
    pub fn get_for(&self, limit: Duration) -> Result<Remote<I>, CallError> {
        self.get_by(|call| call.wait_for(limit))
    }

    // What was found before, or what is found by a look-up that is waited for so.
    fn get_by(
        &self,
        wait: impl FnOnce(Call<Remote<I>>) -> Result<Remote<I>, CallError>,
    ) -> Result<Remote<I>, CallError> {
        let known = self.found().clone();
        if let Some(known) = known.filter(|known| !known.is_lost()) {
            return Ok(known);
        }
        let found = wait(self.lookup())?;
        *self.found() = Some(found.clone());
        Ok(found)
    }

    /// Asks the owner for what it has under the name, whatever was found before.
    ///
    /// ```
    /// # use masttomato::*;
    /// # #[interface]
    /// # pub trait Bell { fn ring(&mut self) -> String; }
    /// # struct Brass;
    /// # impl Bell for Brass { fn ring(&mut self) -> String { "ding".into() } }
    /// # let one = SpaceId::new(1).expect("1 to 32");
    /// # let node = Node::builder(one, Peers::none()).start()?;
    /// let bell = node.named::<dyn Bell>(one, "bell");
    /// node.bind("bell", &node.export::<dyn Bell>(Box::new(Brass))?)?;
    /// assert!(bell.lookup().wait()?.is_mine());
    /// # Ok::<(), Box<dyn std::error::Error>>(())
    /// ```
    pub fn lookup(&self) -> Call<Remote<I>> {
        super::lookup(&self.shared, self.peer, &self.name)
    }

    /// Asks the object something. What was found is forgotten where the session with its owner has closed, so that the
    /// next time the name is looked up.
    ///
    /// ```
    /// # use masttomato::*;
    /// # #[interface]
    /// # pub trait Bell { fn ring(&mut self) -> String; }
    /// # struct Brass;
    /// # impl Bell for Brass { fn ring(&mut self) -> String { "ding".into() } }
    /// # let one = SpaceId::new(1).expect("1 to 32");
    /// # let node = Node::builder(one, Peers::none()).start()?;
    /// # node.bind("bell", &node.export::<dyn Bell>(Box::new(Brass))?)?;
    /// let bell = node.named::<dyn Bell>(one, "bell");
    /// assert_eq!(bell.with(|bell| bell.ring().wait())?, "ding");
    /// # Ok::<(), Box<dyn std::error::Error>>(())
    /// ```
    ///
    /// # Errors
    /// Why it wasn't found, or what it was asked failed.
    pub fn with<T>(
        &self,
        ask: impl FnOnce(&Remote<I>) -> Result<T, CallError>,
    ) -> Result<T, CallError> {
        self.asked(&self.get()?, ask)
    }

    /// The same, but that a look-up waits no longer than this; what is asked has a limit of its own.
    ///
    /// ```
    /// # use masttomato::*;
    /// # use std::time::Duration;
    /// # #[interface]
    /// # pub trait Bell { fn ring(&mut self) -> String; }
    /// # let [one, two] = [1, 2].map(|number| SpaceId::new(number).expect("1 to 32"));
    /// let node = Node::builder(one, Peers::none()).spaces(two).start()?;       // and nobody is space 2
    /// let (bell, limit) = (node.named::<dyn Bell>(two, "bell"), Duration::from_millis(20));
    /// assert_eq!(bell.with_for(limit, |bell| bell.ring().wait_for(limit)), Err(CallError::TimedOut));
    /// # Ok::<(), Box<dyn std::error::Error>>(())
    /// ```
    ///
    /// # Errors
    /// Why it wasn't found, or what it was asked failed.
    pub fn with_for<T>(
        &self,
        limit: Duration,
        ask: impl FnOnce(&Remote<I>) -> Result<T, CallError>,
    ) -> Result<T, CallError> {
        self.asked(&self.get_for(limit)?, ask)
    }

    // What this object answers. It is forgotten where the session with its owner has closed.
    fn asked<T>(
        &self,
        object: &Remote<I>,
        ask: impl FnOnce(&Remote<I>) -> Result<T, CallError>,
    ) -> Result<T, CallError> {
        let asked = ask(object);
        if let Err(CallError::Down(_) | CallError::Ended(_) | CallError::Refused(..)) = asked {
            *self.found() = None;
        }
        asked
    }

    fn found(&self) -> std::sync::MutexGuard<'_, Option<Remote<I>>> {
        self.found.lock().unwrap_or_else(PoisonError::into_inner)
    }
}

impl<I: ?Sized> fmt::Debug for Named<I> {
    fn fmt(&self, f: &mut fmt::Formatter<'_>) -> fmt::Result {
        write!(f, "Named({} {:?})", self.peer, self.name)
    }
}
