//! Calls that nobody wants any more.

use std::future::Future;
use std::pin::Pin;
use std::sync::atomic::{AtomicBool, Ordering::SeqCst};
use std::sync::{Mutex, MutexGuard, PoisonError};
use std::task::{Context, Poll, Waker};

/// Whether a call was cancelled, and who is to be woken where it is.
#[derive(Debug, Default)]
pub(crate) struct Cancel {
    is_cancelled: AtomicBool,
    wakers: Mutex<Vec<Waker>>,
}

impl Cancel {
    pub(crate) fn is_set(&self) -> bool {
        self.is_cancelled.load(SeqCst)
    }

    /// Whether it is as it was made.
    pub(crate) fn is_unused(&mut self) -> bool {
        let wakers = self.wakers.get_mut().unwrap_or_else(PoisonError::into_inner);
        !*self.is_cancelled.get_mut() && wakers.is_empty()
    }

    fn wakers(&self) -> MutexGuard<'_, Vec<Waker>> {
        self.wakers.lock().unwrap_or_else(PoisonError::into_inner)
    }

    /// It is cancelled: who is to be woken, once nothing of the node is borrowed any more.
    pub(crate) fn set(&self) -> Vec<Waker> {
        self.is_cancelled.store(true, SeqCst);
        std::mem::take(&mut *self.wakers())
    }
}

/// What is ready once its call is cancelled: see [`Context::cancelled`](crate::Context::cancelled).
///
/// ```
/// # use masttomato::{Context, interface};
/// #[interface]
/// pub trait Kiln {
///     /// Burns until nobody wants that any more.
///     async fn burn(&mut self, context: &Context);
/// }
///
/// struct Brick;
///
/// impl Kiln for Brick {
///     async fn burn(&mut self, context: &Context) {
///         context.cancelled().await;
///     }
/// }
/// ```
#[derive(Debug)]
#[must_use = "a future does nothing until it is awaited"]
pub struct Cancelled<'a>(pub(super) &'a Cancel);

impl Future for Cancelled<'_> {
    type Output = ();

    fn poll(self: Pin<&mut Self>, context: &mut Context<'_>) -> Poll<()> {
        let mut wakers = self.0.wakers();
        // Whoever cancels says so before it takes the wakers.
        if self.0.is_set() {
            return Poll::Ready(());
        }
        if !wakers.iter().any(|waker| waker.will_wake(context.waker())) {
            wakers.push(context.waker().clone());
        }
        Poll::Pending
    }
}
