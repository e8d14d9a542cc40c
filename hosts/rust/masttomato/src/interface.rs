//! What `#[interface]` makes of a trait.

use crate::node::{Context, Hold, Shared};
use crate::pass::{Packer, Parameters, Pass, Unpacker};
use crate::space::Value;
use std::future::Future;
use std::pin::Pin;
use std::sync::Arc;

/// A trait whose objects can be exported and called from other spaces: `dyn Trait` is one where the trait
/// has the attribute `#[interface]`, which writes this.
///
/// ```
/// use masttomato::{Interface, interface};
///
/// #[interface]
/// pub trait Greeter {
///     fn greet(&mut self, name: String) -> String;
/// }
///
/// assert_eq!(<dyn Greeter as Interface>::NAME, "Greeter");
/// ```
#[diagnostic::on_unimplemented(
    message = "`{Self}` is no interface",
    label = "an interface is `dyn Trait` of a trait with the attribute #[masttomato::interface]",
    note = "name it where an object is exported: node.export::<dyn Trait>(Box::new(object))"
)]
pub trait Interface: Send + 'static {
    /// The trait's name.
    ///
    /// ```
    /// # use masttomato::{Interface, interface};
    /// #[interface]
    /// pub trait Door {
    ///     fn knock(&mut self);
    /// }
    /// assert_eq!(<dyn Door as Interface>::NAME, "Door");
    /// ```
    const NAME: &'static str;
    /// A number of its methods' signatures: two traits of one name and other methods have others.
    ///
    /// ```
    /// # use masttomato::{Interface, interface};
    /// mod first {
    ///     #[masttomato::interface]
    ///     pub trait Door {
    ///         fn knock(&mut self);
    ///     }
    /// }
    /// mod second {
    ///     #[masttomato::interface]
    ///     pub trait Door {
    ///         fn knock(&mut self, times: u32);
    ///     }
    /// }
    /// assert_ne!(<dyn first::Door as Interface>::CHECKSUM, <dyn second::Door as Interface>::CHECKSUM);
    /// ```
    const CHECKSUM: u64;

    /// Carries out a method, by its number.
    #[doc(hidden)]
    fn serve(&mut self, method: u16, arguments: Arguments, context: &Context) -> Served;

    /// Whether a method is async.
    #[doc(hidden)]
    fn is_async(method: u16) -> bool {
        let _none_is = method;
        false
    }

    /// Carries out a method that is async.
    #[doc(hidden)]
    fn serve_async<'a>(
        &'a mut self,
        method: u16,
        arguments: Arguments,
        context: &'a Context,
    ) -> Boxed<'a, Served> {
        let served = self.serve(method, arguments, context);
        Box::pin(std::future::ready(served))
    }
}

/// What comes of a method that is async.
#[doc(hidden)]
pub type Boxed<'a, T> = Pin<Box<dyn Future<Output = T> + Send + 'a>>;

/// A value, with what keeps the references in it.
#[derive(Debug)]
#[doc(hidden)]
pub struct Packed {
    pub(crate) value: Value,
    pub(crate) holds: Vec<Arc<Hold>>,
}

impl Packed {
    pub(crate) fn plain(value: Value) -> Packed {
        Packed { value, holds: Vec::new() }
    }

    pub(crate) fn of<A: Parameters>(arguments: A) -> Packed {
        let mut packer = Packer::default();
        let value = arguments.pack(&mut packer);
        Packed { value, holds: packer.holds }
    }

    /// What it says, to a node.
    pub(crate) fn unpack<T: Pass>(self, shared: &Arc<Shared>) -> Option<T> {
        let unpacker = Unpacker { shared: shared.clone(), holds: self.holds };
        T::unpack(self.value, &unpacker).ok()
    }
}

/// The arguments of a method that is called.
#[derive(Debug)]
#[doc(hidden)]
pub struct Arguments {
    pub(crate) packed: Packed,
    pub(crate) shared: Arc<Shared>,
}

impl Arguments {
    /// The parameters that they say.
    ///
    /// # Errors
    /// Where they don't.
    pub fn take<A: Parameters>(self) -> Result<A, Served> {
        let unpacker = Unpacker { shared: self.shared, holds: self.packed.holds };
        A::unpack(self.packed.value, &unpacker).map_err(|_| Served::BadArguments)
    }
}

/// What came of a method.
#[derive(Debug)]
#[doc(hidden)]
pub enum Served {
    Answer(Packed),
    BadArguments,
    NoMethod,
    Panicked,
    Cancelled,
}

impl Served {
    pub fn answer<T: Pass>(answer: T) -> Served {
        let mut packer = Packer::default();
        let value = answer.pack(&mut packer);
        Served::Answer(Packed { value, holds: packer.holds })
    }
}

/// An exported object, whatever its interface is.
pub(crate) trait Exported: Send {
    fn serve(&mut self, method: u16, arguments: Arguments, context: &Context) -> Served;
    fn is_async(&self, method: u16) -> bool;
    fn serve_async<'a>(
        &'a mut self,
        method: u16,
        arguments: Arguments,
        context: &'a Context,
    ) -> Boxed<'a, Served>;
    fn describe(&self) -> Description;
}

/// An interface's name and checksum.
#[derive(Clone, Copy, Debug, PartialEq, Eq)]
pub(crate) struct Description {
    pub(crate) name: &'static str,
    pub(crate) checksum: u64,
}

impl Description {
    pub(crate) fn of<I: Interface + ?Sized>() -> Description {
        Description { name: I::NAME, checksum: I::CHECKSUM }
    }

    /// As it goes in a call.
    pub(crate) fn values(self) -> [Value; 2] {
        let checksum = self.checksum.to_be_bytes().to_vec();
        [Value::Bytes(self.name.as_bytes().to_vec()), Value::Bytes(checksum)]
    }
}

impl<I: Interface + ?Sized> Exported for Box<I> {
    fn serve(&mut self, method: u16, arguments: Arguments, context: &Context) -> Served {
        (**self).serve(method, arguments, context)
    }

    fn is_async(&self, method: u16) -> bool {
        I::is_async(method)
    }

    fn serve_async<'a>(
        &'a mut self,
        method: u16,
        arguments: Arguments,
        context: &'a Context,
    ) -> Boxed<'a, Served> {
        (**self).serve_async(method, arguments, context)
    }

    fn describe(&self) -> Description {
        Description::of::<I>()
    }
}
