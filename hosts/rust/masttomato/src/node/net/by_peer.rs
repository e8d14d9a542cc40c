//! A map for the few peers that a node can have, which is gone through in each turn.

use crate::space::SpaceId;

/// What there is of each of some peers, rising.
pub(super) struct ByPeer<T>(Vec<(SpaceId, T)>);

impl<T> ByPeer<T> {
    pub(super) fn new() -> ByPeer<T> {
        ByPeer(Vec::new())
    }

    // Where it is, or where it would stand.
    fn place(&self, peer: SpaceId) -> Result<usize, usize> {
        self.0.binary_search_by_key(&peer, |(known, _)| *known)
    }

    pub(super) fn len(&self) -> usize {
        self.0.len()
    }

    pub(super) fn is_empty(&self) -> bool {
        self.0.is_empty()
    }

    pub(super) fn has(&self, peer: SpaceId) -> bool {
        self.place(peer).is_ok()
    }

    pub(super) fn get_mut(&mut self, peer: SpaceId) -> Option<&mut T> {
        self.place(peer).ok().map(|place| &mut self.0[place].1)
    }

    pub(super) fn insert(&mut self, peer: SpaceId, value: T) {
        match self.place(peer) {
            Ok(place) => self.0[place].1 = value,
            Err(place) => self.0.insert(place, (peer, value)),
        }
    }

    pub(super) fn remove(&mut self, peer: SpaceId) -> Option<T> {
        self.place(peer).ok().map(|place| self.0.remove(place).1)
    }

    /// The peer at a place, from 0 on.
    pub(super) fn peer_at(&self, place: usize) -> Option<SpaceId> {
        self.0.get(place).map(|(peer, _)| *peer)
    }

    pub(super) fn values(&self) -> impl Iterator<Item = &T> {
        self.0.iter().map(|(_, value)| value)
    }

    pub(super) fn values_mut(&mut self) -> impl Iterator<Item = &mut T> {
        self.0.iter_mut().map(|(_, value)| value)
    }

    pub(super) fn iter(&self) -> impl Iterator<Item = (SpaceId, &T)> {
        self.0.iter().map(|(peer, value)| (*peer, value))
    }

    pub(super) fn iter_mut(&mut self) -> impl Iterator<Item = (SpaceId, &mut T)> {
        self.0.iter_mut().map(|(peer, value)| (*peer, value))
    }

    pub(super) fn retain(&mut self, mut is_kept: impl FnMut(&mut T) -> bool) {
        self.0.retain_mut(|(_, value)| is_kept(value));
    }

    pub(super) fn clear(&mut self) {
        self.0.clear();
    }
}

#[test]
fn peers_stand_in_order_and_once() {
    let [one, two, three] = [1, 2, 3].map(|number| SpaceId::new(number).expect("1 to 32"));
    let mut all = ByPeer::new();
    for (peer, value) in [(two, 'a'), (three, 'b'), (one, 'c'), (three, 'd')] {
        all.insert(peer, value);
    }
    let known: Vec<_> = all.iter().map(|(peer, value)| (peer, *value)).collect();
    assert_eq!(known, [(one, 'c'), (two, 'a'), (three, 'd')]);
    assert_eq!((all.remove(two), all.remove(two), all.has(two)), (Some('a'), None, false));
    assert_eq!((all.peer_at(1), all.peer_at(2), all.len()), (Some(three), None, 2));
}
