//! What went each way on a session.

use super::names::{Reason, SpaceId};
use std::fmt;

/// What went each way on the present session with a peer, and how it ended: see
/// [`Space::tally`](crate::space::Space::tally).
///
/// ```
/// # use masttomato::space::*;
/// # let [one, two] = [1, 2].map(|number| SpaceId::new(number).expect("1 to 32"));
/// # let mut space = Space::new(one, two, Limits::default())?;
/// space.call(two.agent(), 0, &Value::Unit)?;
/// space.close(two)?;
/// let closed = Some(Reason::Asked);
/// assert_eq!(space.tally(two), Some(Tally { session: 1, sent: 1, acted: 0, closed }));
/// # Ok::<(), SpaceError>(())
/// ```
#[derive(Clone, Copy, Debug, PartialEq, Eq, Hash)]
pub struct Tally {
    /// The session's number, from 1 on.
    pub session: u32,
    /// How many items were handed to the peer, be they transmitted or not.
    pub sent: u64,
    /// How many of the peer's items were acted on here.
    pub acted: u64,
    /// Why this end closed, if it has.
    pub closed: Option<Reason>,
}

/// What a seal says of a peer.
pub(crate) struct PeerTally {
    pub(crate) peer: SpaceId,
    pub(crate) tally: Tally,
}

impl fmt::Display for PeerTally {
    fn fmt(&self, f: &mut fmt::Formatter<'_>) -> fmt::Result {
        let PeerTally { peer, tally: Tally { session, sent, acted, closed } } = self;
        write!(f, "peer {peer} session {session} sent {sent} acted {acted} ")?;
        match closed {
            Some(reason) => write!(f, "closed {reason}"),
            None => f.write_str("open"),
        }
    }
}
