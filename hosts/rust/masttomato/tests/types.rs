//! What a program may rely on of the public types, as the compiler sees it: which may be sent and shared, what errors
//! are, and that everything can be shown.

use masttomato::engine::{self, Engine, Files, Hello, Life, Misbehaved, Settings, Ticket, Turn};
use masttomato::space::{
    self, Answer, Birth, BirthError, Bounds, BoundsError, Chain, Event, Frame, FrameFault, Frames,
    Job, JoinError, NoSpace, NoText, PickleFault, Refusal, SpaceError, StreamError, Trace,
};
use masttomato::{
    BadPeers, Builder, Call, CallError, Cancelled, Changes, Context, Counts, Fault, LocalNode,
    Named, Node, NodeError, NotPassed, Pass, Peers, Reference, Remote, Report, Session, Shutdown,
    SpaceId, Value, Why, interface,
};
use std::error::Error;
use std::fmt::Debug;
use std::hash::Hash;

/// An object of tests.
#[interface]
pub trait Bell {
    /// Rings.
    fn ring(&mut self) -> u8;
}

fn may_be_shared<T: Send + Sync + Debug>() {}
fn may_be_sent<T: Send + Debug>() {}
fn is_shown<T: Debug>() {}
fn is_an_error<T: Error + Send + Sync + 'static>() {}
fn is_plain<T: Clone + Eq + Hash + Send + Sync + Debug>() {}

#[test]
fn programs_share_and_send_what_nodes_give_them() {
    may_be_shared::<Node>();
    may_be_shared::<Remote<dyn Bell>>();
    may_be_shared::<Named<dyn Bell>>();
    may_be_shared::<Call<u8>>();
    may_be_shared::<Context>();
    may_be_shared::<Cancelled<'static>>();
    may_be_sent::<Builder>();
    may_be_sent::<Changes>();
    may_be_sent::<Bounds>();
    may_be_shared::<Files>();
    may_be_shared::<Chain>();
    may_be_shared::<Trace>();
    // A space stays on its thread, and so do these.
    is_shown::<LocalNode>();
    is_shown::<Engine>();
    is_shown::<space::Space>();
    is_shown::<space::script::World>();
}

#[test]
fn errors_are_errors() {
    is_an_error::<NodeError>();
    is_an_error::<CallError>();
    is_an_error::<Fault>();
    is_an_error::<Why>();
    is_an_error::<engine::Flaw>();
    is_an_error::<Misbehaved>();
    is_an_error::<BadPeers>();
    is_an_error::<NotPassed>();
    is_an_error::<SpaceError>();
    is_an_error::<Refusal>();
    is_an_error::<StreamError>();
    is_an_error::<space::ArriveError>();
    is_an_error::<FrameFault>();
    is_an_error::<PickleFault>();
    is_an_error::<BirthError>();
    is_an_error::<BoundsError>();
    is_an_error::<JoinError>();
    is_an_error::<NoSpace>();
    is_an_error::<NoText>();
    is_an_error::<space::script::StepError>();
    #[cfg(feature = "tls")]
    is_an_error::<masttomato::BadIdentity>();
}

#[test]
fn what_only_says_something_is_compared_and_hashed() {
    is_plain::<SpaceId>();
    is_plain::<Reference>();
    is_plain::<Value>();
    is_plain::<Peers>();
    is_plain::<Session>();
    is_plain::<Report>();
    is_plain::<Counts>();
    is_plain::<Shutdown>();
    is_plain::<CallError>();
    is_plain::<Settings>();
    is_plain::<Ticket>();
    is_plain::<Life>();
    is_plain::<Hello>();
    is_plain::<Birth>();
    is_plain::<Event>();
    is_plain::<Answer>();
    is_plain::<Job>();
    is_plain::<Frame>();
    is_plain::<Frames>();
    is_shown::<Turn>();
}

// References are passed as what they are, and as often as a program likes.
#[test]
fn references_are_values_of_methods() {
    fn is_passed<T: Pass + Clone + Eq + Hash>() {}
    is_passed::<Remote<dyn Bell>>();
    is_passed::<Vec<Option<String>>>();
}
