//! Holds of references, and remote objects.

use super::call::{Call, CallError};
use super::core::DESCRIBE;
use super::shared::{Command, Shared};
use crate::interface::{Description, Interface, Packed};
use crate::pass::{Parameters, Pass};
use crate::space::{Reference, SpaceId};
use std::fmt;
use std::hash::{Hash, Hasher};
use std::marker::PhantomData;
use std::sync::Arc;
use std::sync::atomic::{AtomicU8, Ordering};

/// On loan until a job's end; in the hand; and neither, since it isn't counted or was lost.
const LOAN: u8 = 0;
const HELD: u8 = 1;
const VOID: u8 = 2;

/// A hold of a reference, which its drop gives back.
#[doc(hidden)]
pub struct Hold {
    shared: Arc<Shared>,
    reference: Reference,
    state: AtomicU8,
}

impl Hold {
    fn new(shared: &Arc<Shared>, reference: Reference, state: u8) -> Arc<Hold> {
        Arc::new(Hold { shared: shared.clone(), reference, state: AtomicU8::new(state) })
    }

    /// One that is in the hand.
    pub(crate) fn held(shared: &Arc<Shared>, reference: Reference) -> Arc<Hold> {
        Hold::new(shared, reference, HELD)
    }

    /// One that a job has on loan.
    pub(crate) fn loan(shared: &Arc<Shared>, reference: Reference) -> Arc<Hold> {
        Hold::new(shared, reference, LOAN)
    }

    /// One that isn't counted.
    pub(crate) fn uncounted(shared: &Arc<Shared>, reference: Reference) -> Arc<Hold> {
        Hold::new(shared, reference, VOID)
    }

    pub(crate) fn reference(&self) -> Reference {
        self.reference
    }

    pub(crate) fn shared(&self) -> &Arc<Shared> {
        &self.shared
    }

    /// The loan has ended: the reference is in the hand now, or lost.
    pub(crate) fn end_loan(&self, is_held: bool) {
        self.state.store(if is_held { HELD } else { VOID }, Ordering::Release);
    }

    /// What was in the hand is lost: whether it was, and is to be given back to the space now.
    pub(crate) fn lose(&self) -> bool {
        self.state.compare_exchange(HELD, VOID, Ordering::AcqRel, Ordering::Acquire).is_ok()
    }

    /// Whether it was lost: it is counted, and neither on loan nor in the hand.
    pub(crate) fn is_lost(&self) -> bool {
        self.reference.is_counted() && self.state.load(Ordering::Acquire) == VOID
    }
}

impl fmt::Debug for Hold {
    fn fmt(&self, f: &mut fmt::Formatter<'_>) -> fmt::Result {
        self.reference.fmt(f)
    }
}

impl Drop for Hold {
    fn drop(&mut self) {
        if *self.state.get_mut() == HELD {
            self.shared.post(Command::Release(self.reference));
        }
    }
}

/// A reference to an object of an interface, here or in another space. Clones share one hold, and the
/// last of them that is dropped gives it back: so the owner drops the object once nobody has one.
///
/// The methods of the interface are called by the trait `TraitStub` that `#[interface]` writes beside
/// `Trait`, which must be in scope.
///
/// ```
/// # use masttomato::{interface, LocalNode, Node, Peers, SpaceId};
/// # #[interface]
/// # pub trait Bell { fn ring(&mut self) -> String; }
/// # struct Brass;
/// # impl Bell for Brass { fn ring(&mut self) -> String { "ding".into() } }
/// # fn main() -> Result<(), Box<dyn std::error::Error>> {
/// # let node = Node::builder(SpaceId::new(1).ok_or("1 to 32")?, Peers::none()).start_local()?;
/// let bell = node.export::<dyn Bell>(Box::new(Brass))?;
/// assert!(bell.is_mine() && bell == bell.clone());
/// assert_eq!(bell.ring().wait()?, "ding");
/// # Ok(())
/// # }
/// ```
pub struct Remote<I: ?Sized> {
    hold: Arc<Hold>,
    interface: PhantomData<fn() -> Box<I>>,
}

impl<I: ?Sized> Remote<I> {
    pub(crate) fn new(hold: Arc<Hold>) -> Remote<I> {
        Remote { hold, interface: PhantomData }
    }

    pub(crate) fn hold(&self) -> &Arc<Hold> {
        &self.hold
    }

    pub(crate) fn into_hold(self) -> Arc<Hold> {
        self.hold
    }

    /// The space whose object it is.
    ///
    /// ```
    /// # use masttomato::*;
    /// # #[interface]
    /// # pub trait Bell { fn ring(&mut self) -> String; }
    /// # struct Brass;
    /// # impl Bell for Brass { fn ring(&mut self) -> String { "ding".into() } }
    /// # let [one, two] = [1, 2].map(|number| SpaceId::new(number).expect("1 to 32"));
    /// # let node = Node::builder(one, Peers::none()).spaces(two).start()?;
    /// let bell = node.export::<dyn Bell>(Box::new(Brass))?;
    /// assert_eq!(bell.owner(), node.id());
    /// # Ok::<(), Box<dyn std::error::Error>>(())
    /// ```
    pub fn owner(&self) -> SpaceId {
        self.hold.reference.owner
    }

    /// Whether the object is this node's own.
    ///
    /// ```
    /// # use masttomato::*;
    /// # #[interface]
    /// # pub trait Bell { fn ring(&mut self) -> String; }
    /// # struct Brass;
    /// # impl Bell for Brass { fn ring(&mut self) -> String { "ding".into() } }
    /// # let [one, two] = [1, 2].map(|number| SpaceId::new(number).expect("1 to 32"));
    /// # let node = Node::builder(one, Peers::none()).spaces(two).start()?;
    /// let bell = node.export::<dyn Bell>(Box::new(Brass))?;
    /// assert!(bell.is_mine());
    /// # Ok::<(), Box<dyn std::error::Error>>(())
    /// ```
    pub fn is_mine(&self) -> bool {
        self.owner() == self.hold.shared.id()
    }

    /// Whether it is lost for good, since the process of its owner died and another life of it began: calls answer
    /// [`CallError::Down`](crate::CallError::Down), and the object that is wanted is looked up by its name again. A session that
    /// closes otherwise may be opened anew, and what closed with it is lost, too, but isn't said so here.
    ///
    /// ```
    /// # use masttomato::*;
    /// # #[interface]
    /// # pub trait Bell { fn ring(&mut self) -> String; }
    /// # struct Brass;
    /// # impl Bell for Brass { fn ring(&mut self) -> String { "ding".into() } }
    /// # let one = SpaceId::new(1).expect("1 to 32");
    /// # let node = Node::builder(one, Peers::none()).start()?;
    /// let bell = node.export::<dyn Bell>(Box::new(Brass))?;
    /// assert!(!bell.is_lost());
    /// # Ok::<(), Box<dyn std::error::Error>>(())
    /// ```
    pub fn is_lost(&self) -> bool {
        self.hold.is_lost()
    }

    /// The same reference for another interface, where its object has that: its owner is asked.
    ///
    /// ```
    /// # use masttomato::{CallError, Fault, Node, Peers, SpaceId, interface};
    /// # #[interface]
    /// # pub trait Bell { fn ring(&mut self) -> String; }
    /// # #[interface]
    /// # pub trait Door { fn knock(&mut self); }
    /// # struct Brass;
    /// # impl Bell for Brass { fn ring(&mut self) -> String { "ding".into() } }
    /// # fn main() -> Result<(), Box<dyn std::error::Error>> {
    /// # let node = Node::builder(SpaceId::try_from(1)?, Peers::none()).start()?;
    /// # let bell = node.export::<dyn Bell>(Box::new(Brass))?;
    /// let door = bell.cast::<dyn Door>().wait();
    /// assert_eq!(door.unwrap_err(), CallError::Fault(Fault::OtherInterface));
    /// # Ok(())
    /// # }
    /// ```
    pub fn cast<J: Interface + ?Sized>(self) -> Call<Remote<J>> {
        let wanted = Description::of::<J>();
        let shared = self.hold.shared.clone();
        Call::posted(&shared, (self.owner().agent(), DESCRIBE), |ticket, state| Command::Cast {
            ticket,
            hold: self.hold,
            wanted,
            state,
        })
    }

    #[doc(hidden)]
    pub fn invoke<A: Parameters, T: Pass>(&self, method: u16, arguments: A) -> Call<T> {
        self.call(method, arguments, false)
    }

    #[doc(hidden)]
    pub fn try_invoke<A: Parameters, T: Pass>(&self, method: u16, arguments: A) -> Call<T> {
        self.call(method, arguments, true)
    }

    fn call<A: Parameters, T: Pass>(&self, method: u16, arguments: A, is_try: bool) -> Call<T> {
        let (target, packed) = (self.hold.clone(), Packed::of(arguments));
        // It would be refused, and be kept until then.
        if !self.is_mine() && packed.value.is_too_long() {
            return Call::unmade(&self.hold.shared, CallError::TooLarge);
        }
        let aim = (self.hold.reference, method);
        Call::posted(&self.hold.shared, aim, |ticket, state| Command::Call {
            ticket,
            target,
            method,
            packed,
            state,
            is_try,
        })
    }
}

impl<I: ?Sized> Clone for Remote<I> {
    fn clone(&self) -> Remote<I> {
        Remote::new(self.hold.clone())
    }
}

impl<I: ?Sized> fmt::Debug for Remote<I> {
    fn fmt(&self, f: &mut fmt::Formatter<'_>) -> fmt::Result {
        write!(f, "Remote({})", self.hold.reference)
    }
}

/// Two are equal where they refer to one object.
impl<I: ?Sized> PartialEq for Remote<I> {
    fn eq(&self, other: &Remote<I>) -> bool {
        self.hold.reference == other.hold.reference
    }
}

impl<I: ?Sized> Eq for Remote<I> {}

impl<I: ?Sized> Hash for Remote<I> {
    fn hash<H: Hasher>(&self, state: &mut H) {
        self.hold.reference.hash(state);
    }
}
