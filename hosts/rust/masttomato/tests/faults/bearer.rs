//! What the first node of a world has beside its shelf: an object whose methods take no thread while they wait.

use crate::things::*;
use masttomato::{Remote, interface};

#[interface]
pub trait Bearer {
    /// Adds to a counter, wherever that is: what it says, if it does.
    async fn add_to(&mut self, counter: Remote<dyn Counter>, by: i64) -> Option<i64>;
    /// The same bytes again.
    async fn echo(&mut self, bytes: Vec<u8>) -> Vec<u8>;
}

/// Bears what it is given to where that goes.
pub struct Porter;

impl Bearer for Porter {
    async fn add_to(&mut self, counter: Remote<dyn Counter>, by: i64) -> Option<i64> {
        counter.add(by).await.ok()
    }

    async fn echo(&mut self, bytes: Vec<u8>) -> Vec<u8> {
        bytes
    }
}
