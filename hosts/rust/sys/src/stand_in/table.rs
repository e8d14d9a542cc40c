//! Who holds what: a space's objects and surrogates, with their counts, pins and lists.

use super::Reference;
use std::collections::{BTreeMap, BTreeSet, HashMap, HashSet};

/// So many objects are live at once, and so many surrogates.
pub(super) const MOST_LIVE: usize = 65_536;
/// The greatest index.
pub(super) const LAST_INDEX: u64 = 1 << 48;
const MOST_IN_HAND: u64 = u32::MAX as u64;

#[derive(Clone, Copy, Debug, Default)]
struct Counts {
    hand: u64,
    lent: u64,
    pins: u64,
    clients: u32,
}

impl Counts {
    fn holds(&self) -> u64 {
        self.hand + self.lent
    }

    fn is_unused(&self) -> bool {
        self.holds() == 0 && self.pins == 0 && self.clients == 0
    }
}

/// How a surrogate stands with its owner.
#[derive(Clone, Copy, Debug, PartialEq, Eq)]
pub(super) enum Standing {
    Pending,
    Granted,
    Refused,
}

// A reference to another space's object. Without a standing it is lost, or was never asked for.
#[derive(Debug, Default)]
struct Other {
    counts: Counts,
    standing: Option<(Standing, u64)>,
}

/// The objects and surrogates of a space.
#[derive(Debug)]
pub(super) struct Table {
    here: u16,
    exported: u64,
    live: HashMap<u64, Counts>,
    others: HashMap<Reference, Other>,
    listed: [HashSet<u64>; 33],
    // What Withdraw and Clean would take: objects, and surrogates by the place of their Dirties.
    unused: BTreeSet<u64>,
    idle: BTreeMap<u64, Reference>,
    surrogates: usize,
    dirties: u64,
}

impl Table {
    /// The table of a space that gave so many indexes before, of which no object is live.
    pub(super) fn begin_at(here: u16, exported: u64) -> Table {
        Table {
            here,
            exported,
            live: HashMap::new(),
            others: HashMap::new(),
            listed: std::array::from_fn(|_| HashSet::new()),
            unused: BTreeSet::new(),
            idle: BTreeMap::new(),
            surrogates: 0,
            dirties: 0,
        }
    }

    pub(super) fn is_own(&self, reference: Reference) -> bool {
        reference.owner == self.here
    }

    pub(super) fn is_live(&self, index: u64) -> bool {
        self.live.contains_key(&index)
    }

    pub(super) fn live(&self) -> u64 {
        self.live.len() as u64
    }

    pub(super) fn surrogates(&self) -> u64 {
        self.surrogates as u64
    }

    /// How many surrogates there are of one owner's objects.
    pub(super) fn surrogates_of(&self, owner: u16) -> u64 {
        let is_surrogate =
            |(one, other): &(&Reference, &Other)| one.owner == owner && other.standing.is_some();
        self.others.iter().filter(is_surrogate).count() as u64
    }

    pub(super) fn was_exported(&self, index: u64) -> bool {
        (1..=self.exported).contains(&index)
    }

    /// A new object's index, once in the hand: `None` where there may be no more.
    pub(super) fn export(&mut self) -> Option<u64> {
        if self.live.len() == MOST_LIVE || self.exported == LAST_INDEX {
            return None;
        }
        self.exported += 1;
        self.live.insert(self.exported, Counts { hand: 1, ..Counts::default() });
        Some(self.exported)
    }

    fn counts(&self, reference: Reference) -> Counts {
        let found = match self.is_own(reference) {
            true => self.live.get(&reference.index).copied(),
            false => self.others.get(&reference).map(|other| other.counts),
        };
        found.unwrap_or_default()
    }

    pub(super) fn holds(&self, reference: Reference) -> u64 {
        self.counts(reference).holds()
    }

    pub(super) fn hand(&self, reference: Reference) -> u64 {
        self.counts(reference).hand
    }

    /// Whether so many more fit into the hand.
    pub(super) fn fits_hand(&self, reference: Reference, more: u64) -> bool {
        self.hand(reference) + more <= MOST_IN_HAND
    }

    // Changes what is counted of a reference, and keeps what is unused.
    fn change(&mut self, reference: Reference, change: impl FnOnce(&mut Counts)) {
        if self.is_own(reference) {
            let Some(counts) = self.live.get_mut(&reference.index) else { return };
            change(counts);
            match counts.is_unused() {
                true => self.unused.insert(reference.index),
                false => self.unused.remove(&reference.index),
            };
            return;
        }
        let other = self.others.entry(reference).or_default();
        change(&mut other.counts);
        match other.standing {
            Some((Standing::Granted, place)) if other.counts.is_unused() => {
                self.idle.insert(place, reference);
            }
            Some((_, place)) => drop(self.idle.remove(&place)),
            None if other.counts.is_unused() => drop(self.others.remove(&reference)),
            None => {}
        }
    }

    pub(super) fn add_hand(&mut self, reference: Reference) {
        self.change(reference, |counts| counts.hand += 1);
    }

    pub(super) fn drop_hand(&mut self, reference: Reference) {
        self.change(reference, |counts| counts.hand -= 1);
    }

    pub(super) fn lend(&mut self, reference: Reference) {
        self.change(reference, |counts| counts.lent += 1);
    }

    pub(super) fn give_back(&mut self, reference: Reference) {
        self.change(reference, |counts| counts.lent -= 1);
    }

    pub(super) fn pin(&mut self, reference: Reference) {
        self.change(reference, |counts| counts.pins += 1);
    }

    pub(super) fn unpin(&mut self, reference: Reference) {
        self.change(reference, |counts| counts.pins -= 1);
    }

    pub(super) fn pins(&self, index: u64) -> u64 {
        self.live.get(&index).map_or(0, |counts| counts.pins)
    }

    pub(super) fn is_listed(&self, index: u64, client: u16) -> bool {
        self.listed.get(usize::from(client)).is_some_and(|indexes| indexes.contains(&index))
    }

    pub(super) fn has_clients(&self, index: u64) -> bool {
        self.live.get(&index).is_some_and(|counts| counts.clients > 0)
    }

    /// Lists a client at a live object, or takes it out.
    pub(super) fn list(&mut self, index: u64, client: u16, is_listed: bool) {
        let indexes = &mut self.listed[usize::from(client)];
        let changed = if is_listed { indexes.insert(index) } else { indexes.remove(&index) };
        let owner = self.here;
        if changed {
            self.change(Reference { owner, index }, |counts| match is_listed {
                true => counts.clients += 1,
                false => counts.clients -= 1,
            });
        }
    }

    pub(super) fn first_unused(&self) -> Option<u64> {
        self.unused.first().copied()
    }

    pub(super) fn withdraw(&mut self, index: u64) {
        self.live.remove(&index);
        self.unused.remove(&index);
    }

    pub(super) fn standing(&self, reference: Reference) -> Option<Standing> {
        self.others.get(&reference)?.standing.map(|(standing, _)| standing)
    }

    pub(super) fn has_surrogate_room(&self, more: usize) -> bool {
        self.surrogates + more <= MOST_LIVE
    }

    /// A Dirty for this reference is handed on.
    pub(super) fn ask(&mut self, reference: Reference) {
        self.surrogates += 1;
        let place = self.dirties;
        self.dirties += 1;
        self.others.entry(reference).or_default().standing = Some((Standing::Pending, place));
    }

    /// The owner's answer to a Dirty.
    pub(super) fn answer(&mut self, reference: Reference, is_granted: bool) {
        let standing = if is_granted { Standing::Granted } else { Standing::Refused };
        if let Some(other) = self.others.get_mut(&reference) {
            other.standing = other.standing.map(|(_, place)| (standing, place));
        }
        self.change(reference, |_| {});
    }

    pub(super) fn first_idle(&self) -> Option<Reference> {
        self.idle.first_key_value().map(|(_, reference)| *reference)
    }

    pub(super) fn give_up(&mut self, reference: Reference) {
        if let Some((_, place)) = self.others.remove(&reference).and_then(|other| other.standing) {
            self.idle.remove(&place);
            self.surrogates -= 1;
        }
    }

    /// Whether a reference to an object of another space is held or pinned.
    pub(super) fn has_any_of(&self, owner: u16) -> bool {
        let is_used = |counts: &Counts| counts.holds() > 0 || counts.pins > 0;
        self.others.iter().any(|(one, other)| one.owner == owner && is_used(&other.counts))
    }

    /// The session with a space has closed: it is listed nowhere, and its references are lost.
    pub(super) fn close(&mut self, peer: u16) {
        for index in self.listed[usize::from(peer)].clone() {
            self.list(index, peer, false);
        }
        let owned = |reference: &&Reference| reference.owner == peer;
        let lost: Vec<Reference> = self.others.keys().filter(owned).copied().collect();
        for reference in lost {
            let Some(other) = self.others.get_mut(&reference) else { continue };
            if let Some((_, place)) = other.standing.take() {
                self.surrogates -= 1;
                self.idle.remove(&place);
            }
            self.change(reference, |_| {});
        }
    }
}
