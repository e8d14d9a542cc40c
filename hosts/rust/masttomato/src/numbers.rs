//! Maps whose keys are numbers: those that this program counts itself, so that nobody can choose them badly, and those
//! that a peer chooses. Most of either rise one by one.

use crate::engine::Ticket;
use crate::space::{CallNo, JobNo, SpaceId};
use std::collections::HashMap;
use std::hash::{BuildHasher, BuildHasherDefault, Hash, Hasher, RandomState};
use std::sync::OnceLock;

/// So many places a row has.
const PLACES: usize = 64;

/// What has a number.
pub(crate) trait Numbered: Copy + Eq + Hash {
    fn number(&self) -> u64;
}

impl Numbered for u64 {
    fn number(&self) -> u64 {
        *self
    }
}

impl Numbered for CallNo {
    fn number(&self) -> u64 {
        self.get()
    }
}

impl Numbered for JobNo {
    fn number(&self) -> u64 {
        self.get()
    }
}

impl Numbered for Ticket {
    fn number(&self) -> u64 {
        self.0
    }
}

/// A call of another space, by its number there.
impl Numbered for (SpaceId, CallNo) {
    fn number(&self) -> u64 {
        self.1.get()
    }
}

/// A map of which most numbers rise one by one and are removed soon. Each has its place in a row, where it is found at once; one whose place is
/// taken is in a map beside it.
#[derive(Debug)]
pub(crate) struct InRow<K, V, S> {
    // None as long as nothing was ever put there.
    row: Vec<Option<(K, V)>>,
    beside: HashMap<K, V, S>,
    len: usize,
}

impl<K, V, S: Default> Default for InRow<K, V, S> {
    fn default() -> InRow<K, V, S> {
        InRow { row: Vec::new(), beside: HashMap::default(), len: 0 }
    }
}

impl<K: Numbered, V, S: BuildHasher> InRow<K, V, S> {
    fn place(key: &K) -> usize {
        key.number() as usize % PLACES
    }

    pub(crate) fn len(&self) -> usize {
        self.len
    }

    pub(crate) fn is_empty(&self) -> bool {
        self.len == 0
    }

    pub(crate) fn get(&self, key: &K) -> Option<&V> {
        match self.row.get(Self::place(key)) {
            Some(Some((known, value))) if known == key => Some(value),
            _ if self.beside.is_empty() => None,
            _ => self.beside.get(key),
        }
    }

    pub(crate) fn get_mut(&mut self, key: &K) -> Option<&mut V> {
        match self.row.get_mut(Self::place(key)) {
            Some(Some((known, value))) if known == key => Some(value),
            _ if self.beside.is_empty() => None,
            _ => self.beside.get_mut(key),
        }
    }

    pub(crate) fn insert(&mut self, key: K, value: V) {
        if let Some(known) = self.get_mut(&key) {
            *known = value;
            return;
        }
        if self.row.is_empty() {
            self.row.resize_with(PLACES, || None);
        }
        self.len += 1;
        match &mut self.row[Self::place(&key)] {
            place @ None => *place = Some((key, value)),
            Some(_) => drop(self.beside.insert(key, value)),
        }
    }

    pub(crate) fn remove(&mut self, key: &K) -> Option<V> {
        let value = match self.row.get_mut(Self::place(key)) {
            Some(place) if place.as_ref().is_some_and(|(known, _)| known == key) => {
                place.take().map(|(_, value)| value)
            }
            _ if self.beside.is_empty() => None,
            _ => self.beside.remove(key),
        };
        self.len -= usize::from(value.is_some());
        value
    }

    pub(crate) fn iter(&self) -> impl Iterator<Item = (&K, &V)> {
        self.row.iter().flatten().map(|(key, value)| (key, value)).chain(&self.beside)
    }

    pub(crate) fn values(&self) -> impl Iterator<Item = &V> {
        self.iter().map(|(_, value)| value)
    }

    pub(crate) fn values_mut(&mut self) -> impl Iterator<Item = &mut V> {
        let row = self.row.iter_mut().flatten().map(|(_, value)| value);
        row.chain(self.beside.values_mut())
    }

    /// Takes all that is there.
    pub(crate) fn drain(&mut self) -> impl Iterator<Item = (K, V)> {
        self.len = 0;
        std::mem::take(&mut self.row).into_iter().flatten().chain(self.beside.drain())
    }

    pub(crate) fn clear(&mut self) {
        self.drain().for_each(drop);
    }
}

/// A map by such a number.
pub(crate) type ByNumber<K, V> = InRow<K, V, BuildHasherDefault<Mixed>>;

/// Spreads a number over all bits by one multiplication.
#[derive(Default)]
pub(crate) struct Mixed(u64);

impl Hasher for Mixed {
    fn finish(&self) -> u64 {
        self.0
    }

    fn write(&mut self, bytes: &[u8]) {
        bytes.iter().for_each(|byte| self.write_u64(u64::from(*byte)));
    }

    fn write_u64(&mut self, number: u64) {
        self.0 = (self.0 ^ number).wrapping_mul(0x9e37_79b9_7f4a_7c15);
    }
}

/// A map by numbers that a peer chooses, and of which it can't know how they are spread.
pub(crate) type ByTheirNumber<K, V> = InRow<K, V, Secret>;

/// Two numbers of this process that nobody is told: one to begin with, and an odd one to multiply by.
#[derive(Clone, Copy, Debug)]
pub(crate) struct Secret {
    first: u64,
    by: u64,
}

impl Default for Secret {
    fn default() -> Secret {
        static SECRET: OnceLock<Secret> = OnceLock::new();
        *SECRET.get_or_init(|| {
            let state = RandomState::new();
            Secret { first: state.hash_one(1), by: state.hash_one(2) | 1 }
        })
    }
}

impl BuildHasher for Secret {
    type Hasher = Folded;

    fn build_hasher(&self) -> Folded {
        Folded { now: self.first, by: self.by }
    }
}

/// Spreads numbers by a multiplication each, of which both halves count.
pub(crate) struct Folded {
    now: u64,
    by: u64,
}

impl Hasher for Folded {
    fn finish(&self) -> u64 {
        self.now
    }

    fn write(&mut self, bytes: &[u8]) {
        bytes.iter().for_each(|byte| self.write_u64(u64::from(*byte)));
    }

    fn write_u16(&mut self, number: u16) {
        self.write_u64(number.into());
    }

    fn write_u64(&mut self, number: u64) {
        let product = u128::from(self.now ^ number) * u128::from(self.by);
        self.now = product as u64 ^ (product >> 64) as u64;
    }
}

#[test]
fn numbers_are_found_in_the_row_and_beside_it() {
    let mut all: ByNumber<u64, u64> = ByNumber::default();
    let step = PLACES as u64;
    for number in [3, 4, 3 + step, 3 + 2 * step] {
        assert!(all.is_empty() || all.get(&number).is_none());
        all.insert(number, 10 * number);
    }
    assert_eq!((all.len(), all.get(&(3 + step))), (4, Some(&(10 * (3 + step)))));
    // The place in the row is free again, and what is beside it stays there.
    assert_eq!((all.remove(&3), all.remove(&3)), (Some(30), None));
    all.insert(3 + step, 1);
    *all.get_mut(&4).expect("it is there") += 1;
    let mut found: Vec<(u64, u64)> = all.iter().map(|(number, value)| (*number, *value)).collect();
    found.sort_unstable();
    assert_eq!(found, [(4, 41), (3 + step, 1), (3 + 2 * step, 10 * (3 + 2 * step))]);
    assert_eq!(all.values().count(), 3);
    all.values_mut().for_each(|value| *value = 0);
    assert!(all.drain().all(|(_, value)| value == 0) && all.is_empty() && all.get(&4).is_none());
}

// Whatever is done, it is what a map of the library says.
#[test]
fn a_row_is_a_map() {
    let (mut row, mut map): (ByTheirNumber<u64, u32>, _) =
        (ByTheirNumber::default(), HashMap::new());
    let mut state = 7_u64;
    for step in 0..100_000 {
        state =
            state.wrapping_mul(6_364_136_223_846_793_005).wrapping_add(1_442_695_040_888_963_407);
        let (number, kind) = (state >> 33 & 0xff, state >> 60);
        match kind {
            0..=7 => {
                row.insert(number, step);
                map.insert(number, step);
            }
            8..=14 => assert_eq!(row.remove(&number), map.remove(&number)),
            _ => assert_eq!(row.get(&number), map.get(&number)),
        }
        assert_eq!((row.len(), row.is_empty()), (map.len(), map.is_empty()));
    }
    let mut left: Vec<(u64, u32)> = row.drain().collect();
    let mut wanted: Vec<(u64, u32)> = map.into_iter().collect();
    left.sort_unstable();
    wanted.sort_unstable();
    assert_eq!(left, wanted);
}
