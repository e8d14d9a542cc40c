//! Spaces of Network Objects for programs in Rust: the proved space of `nob_host`, a static library,
//! behind safe methods.
//!
//! A *space* owns objects and hands out references to them, holds references to those of other
//! spaces, calls their methods and carries out what others call. Its owner reclaims an object once
//! no space refers to it, and not before. A program carries the frames that a space gives for
//! another to that one, in whatever way: they may be lost, repeated and reordered.
//!
//! Of two programs that carry frames over a socket the example `tcp_calls` is one; [`script`] plays several
//! spaces in one process.
//!
//! ```
//! # use masttomato::space::{Limits, Refusal, Space, SpaceId, SpaceError, Use, Value};
//! # fn main() -> Result<(), SpaceError> {
//! let [first, second] = [1, 2].map(|number| SpaceId::new(number).expect("a space"));
//! let mut space = Space::new(first, second, Limits::default())?;
//! let object = space.export()?;
//! let call = space.call(second.agent(), 1, &Value::Ref(object))?;
//! space.release(object)?;
//! // A reference to the object is on its way to space 2.
//! let in_transit = Refusal::StillUsed(Use::InTransit);
//! assert_eq!(space.withdraw(object.index), Err(in_transit.into()));
//! for frame in space.transmit(second)?.iter() {
//!     // To be brought to space 2, whose program has it arrive there.
//!     println!("{frame}");
//! }
//! assert!(!space.reply_ready(call));
//! # Ok(())
//! # }
//! ```

mod answers;
mod birth;
mod bounds;
mod chain;
mod counts;
mod event;
mod events;
mod frame;
mod hex;
mod lives;
mod names;
mod reading;
mod refusal;
pub mod script;
mod tally;
mod trace;
mod value;

pub use answers::{ActResult, Arrived, CallResult, ReplyFate, SettledItem, Status};
pub use birth::{Birth, BirthError};
pub use bounds::{Bounds, BoundsError};
pub use chain::{Chain, SegmentSize};
pub use counts::{Counts, Front, FrontItem, PeerCounts};
pub use event::{Answer, Event, Job, Outcome};
pub use events::{ArriveError, Due, Space, StreamError, Work};
pub use frame::{Frame, FrameFault, FrameKind, Frames, FramesIter};
pub use lives::{JoinError, join_lives};
pub use names::{CallNo, ItemNo, JobNo, Limits, NoSpace, Reason, Reference, SpaceId, World};
pub use reading::NoText;
pub use refusal::{Refusal, SpaceError, Use};
pub use tally::Tally;
pub use trace::Trace;
pub use value::{PickleFault, Value};
