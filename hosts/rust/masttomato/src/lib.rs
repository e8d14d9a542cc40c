//! Network Objects for programs in Rust: objects that are exported, looked up by name, called, handed
//! on and dropped, from process to process, over a proved space.
#![cfg_attr(feature = "derive", doc = "", doc = include_str!("first.md"))]

#[cfg(feature = "node")]
pub mod engine;
#[cfg(feature = "node")]
mod interface;
#[cfg(feature = "node")]
mod node;
#[cfg(feature = "node")]
mod numbers;
#[cfg(feature = "node")]
mod pass;
pub mod space;

#[cfg(feature = "node")]
pub use engine::{Counts, Report, Session, SessionReport, ThreadReport, TurnedAway, Why};
#[cfg(feature = "node")]
pub use interface::Interface;
#[cfg(feature = "tls")]
pub use node::{BadIdentity, Identity};
#[cfg(feature = "node")]
pub use node::{
    BadPeers, Builder, Call, CallError, Cancelled, Changes, Context, Fault, LocalNode, Named, Node,
    NodeError, Peers, Remote, Run, Shutdown, Spawn,
};
#[cfg(feature = "node")]
pub use pass::{NotPassed, Packer, Pass, Unpacker};

/// ```
/// use masttomato::Pass;
///
/// #[derive(Pass)]
/// struct Point {
///     x: f64,
///     y: f64,
/// }
/// ```
#[cfg(feature = "derive")]
pub use masttomato_derive::Pass;
/// ```
/// use masttomato::{Context, Remote, interface};
///
/// #[interface]
/// pub trait Shelf {
///     /// Puts a thing there, and says how many there are.
///     fn put(&mut self, name: String, thing: Remote<dyn Thing>) -> u32;
///     /// Puts all things on another shelf, and waits for that without a thread.
///     async fn move_to(&mut self, context: &Context, other: Remote<dyn Shelf>) -> u32;
///     /// Its number stays the same whatever is written above it.
///     #[method(7)]
///     fn count(&mut self) -> u32;
/// }
///
/// #[interface]
/// pub trait Thing {}
/// ```
#[cfg(feature = "derive")]
pub use masttomato_derive::interface;

/// What the macros write, and nobody else.
#[cfg(feature = "node")]
#[doc(hidden)]
pub mod macros {
    pub use crate::interface::{Arguments, Boxed, Served};
    pub use crate::pass::{Parameters, list_of};
    pub use crate::space::Value;
}

pub use space::{CallNo, Limits, Reason, Reference, SpaceId, Value};

/// Whether the spaces of this program are those of the proved library, and not the stand-in's.
///
/// ```
/// if !masttomato::IS_PROVED {
///     eprintln!("over the stand-in");
/// }
/// ```
pub const IS_PROVED: bool = masttomato_sys::IS_PROVED;
