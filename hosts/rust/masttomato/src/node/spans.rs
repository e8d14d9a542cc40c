//! Spans and events for `tracing`, with the feature of that name; without it there is nothing behind these.

use super::call::Completed;
use crate::engine::{Misbehaved, Session, Why};
use crate::space::{CallNo, Reference, SpaceId};
use std::future::Future;
use std::net::SocketAddr;

#[cfg(feature = "tracing")]
use tracing::{Instrument, Span, field};

/// The span of a call, from when it is asked for until nobody needs its answer any more, within whatever span its
/// caller is in.
#[derive(Debug)]
pub(crate) struct CallSpan {
    #[cfg(feature = "tracing")]
    span: Span,
}

#[cfg_attr(not(feature = "tracing"), allow(clippy::derivable_impls))]
impl Default for CallSpan {
    fn default() -> CallSpan {
        CallSpan {
            #[cfg(feature = "tracing")]
            span: tracing::debug_span!(
                "call",
                owner = field::Empty,
                object = field::Empty,
                method = field::Empty,
                call = field::Empty,
                error = field::Empty
            ),
        }
    }
}

#[cfg_attr(not(feature = "tracing"), allow(unused_variables, clippy::unused_self))]
impl CallSpan {
    /// What is called.
    pub(crate) fn calls(&self, target: Reference, method: u16) {
        #[cfg(feature = "tracing")]
        self.span
            .record("owner", target.owner.get())
            .record("object", target.index)
            .record("method", method);
    }

    /// The call has a number now, by which its owner knows it too.
    pub(crate) fn is_made(&self, number: CallNo) {
        #[cfg(feature = "tracing")]
        self.span.record("call", number.get());
    }

    /// What came of it.
    pub(crate) fn completed(&self, completed: &Completed) {
        #[cfg(feature = "tracing")]
        if let Err(error) = completed {
            self.span.record("error", field::display(error));
        }
    }
}

/// The span of a method that is carried out, for a caller of this number.
pub(crate) struct ServeSpan {
    #[cfg(feature = "tracing")]
    span: Span,
}

#[cfg_attr(not(feature = "tracing"), allow(unused_variables, clippy::unused_self))]
impl ServeSpan {
    /// Of a method of an object; the call's number is its client's, and 0 for a call within this node.
    pub(crate) fn new(
        client: SpaceId,
        call: Option<CallNo>,
        object: u64,
        method: u16,
    ) -> ServeSpan {
        ServeSpan {
            #[cfg(feature = "tracing")]
            span: tracing::debug_span!(
                "serve",
                client = client.get(),
                call = call.map_or(0, CallNo::get),
                object,
                method
            ),
        }
    }

    pub(crate) fn within<T>(self, method: impl FnOnce() -> T) -> T {
        #[cfg(feature = "tracing")]
        return self.span.in_scope(method);
        #[cfg(not(feature = "tracing"))]
        method()
    }

    pub(crate) fn around<F: Future>(self, method: F) -> impl Future<Output = F::Output> {
        #[cfg(feature = "tracing")]
        return method.instrument(self.span);
        #[cfg(not(feature = "tracing"))]
        method
    }
}

/// The session with a peer stands otherwise than before.
#[cfg_attr(not(feature = "tracing"), allow(unused_variables))]
pub(crate) fn changed(here: SpaceId, peer: SpaceId, session: Session) {
    #[cfg(feature = "tracing")]
    tracing::info!(here = here.get(), peer = peer.get(), ?session, "the session changes");
}

/// A peer did what no honest one does, and its connection is dropped.
#[cfg_attr(not(feature = "tracing"), allow(unused_variables))]
pub(crate) fn misbehaved(here: SpaceId, peer: SpaceId, how: Misbehaved) {
    #[cfg(feature = "tracing")]
    tracing::warn!(here = here.get(), peer = peer.get(), %how, "a peer misbehaves");
}

/// Who connects isn't let in, or doesn't let this node in.
#[cfg_attr(not(feature = "tracing"), allow(unused_variables))]
pub(crate) fn not_connected(here: SpaceId, peer: Option<SpaceId>, why: Why) {
    #[cfg(feature = "tracing")]
    tracing::warn!(here = here.get(), peer = peer.map_or(0, SpaceId::get), %why, "no connection");
}

/// A stranger isn't let in.
#[cfg_attr(not(feature = "tracing"), allow(unused_variables))]
pub(crate) fn turned_away(here: SpaceId, from: SocketAddr, why: Why) {
    #[cfg(feature = "tracing")]
    tracing::warn!(here = here.get(), %from, %why, "a stranger is turned away");
}
