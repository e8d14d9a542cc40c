//! What is on disk: a record, spelled in a fixed number of bytes with a sum, and twice in a file.

use crate::space::names::{SpaceId, World};

/// How many bytes a record has.
pub(super) const RECORD: usize = 256;
/// Where the second record stands: on other sectors and pages than the first.
pub(super) const SECOND: usize = 4_096;
/// How many bytes the file has.
pub(super) const FILE: usize = 2 * SECOND;

const MARK: [u8; 4] = *b"NOBB";
const VERSION: u16 = 1;
const SESSIONS: usize = 76;
const SUM: usize = RECORD - 8;
const MOST: usize = SpaceId::MOST as usize;

/// What is kept of a number's lives.
#[derive(Clone, Debug, PartialEq, Eq)]
pub(super) struct Record {
    /// It rises by one with each record that is written: of two whole ones the higher counts.
    pub(super) serial: u64,
    pub(super) world: World,
    pub(super) space: SpaceId,
    pub(super) spaces: SpaceId,
    /// How many lives have begun.
    pub(super) life: u64,
    /// Whether the last of them has ended in order. Then its counts are exact, and else they are bounds.
    pub(super) has_ended: bool,
    pub(super) indexes: u64,
    pub(super) calls: u64,
    /// How many jobs were claimed until the last life ended in order. They are bounds of nothing.
    pub(super) jobs: u64,
    /// No session number that was used with a space, or heard of it, is above these.
    pub(super) sessions: [u32; MOST],
}

impl Record {
    /// The first record of a number: it hasn't lived.
    pub(super) fn new(world: World, space: SpaceId, spaces: SpaceId) -> Record {
        Record {
            serial: 1,
            world,
            space,
            spaces,
            life: 0,
            has_ended: true,
            indexes: 0,
            calls: 0,
            jobs: 0,
            sessions: [0; MOST],
        }
    }

    pub(super) fn to_bytes(&self) -> [u8; RECORD] {
        let mut bytes = [0; RECORD];
        let mut put = |place: usize, part: &[u8]| {
            bytes[place..place + part.len()].copy_from_slice(part);
        };
        put(0, &MARK);
        put(4, &VERSION.to_be_bytes());
        put(6, &self.space.get().to_be_bytes());
        put(8, &self.spaces.get().to_be_bytes());
        put(10, &[self.has_ended.into()]);
        put(12, &self.world.0);
        let counts = [self.serial, self.life, self.indexes, self.calls, self.jobs];
        for (place, count) in counts.iter().enumerate() {
            put(32 + 8 * place, &count.to_be_bytes());
        }
        for (place, number) in self.sessions.iter().enumerate() {
            put(SESSIONS + 4 * place, &number.to_be_bytes());
        }
        let sum = sum_of(&bytes[..SUM]);
        bytes[SUM..].copy_from_slice(&sum.to_be_bytes());
        bytes
    }

    /// The record that these bytes spell: none where any of them was torn.
    pub(super) fn from_bytes(bytes: &[u8; RECORD]) -> Option<Record> {
        let u16_at = |place: usize| u16::from_be_bytes([bytes[place], bytes[place + 1]]);
        let u64_at = |place: usize| {
            bytes[place..].first_chunk().map_or(0, |bytes| u64::from_be_bytes(*bytes))
        };
        let u32_at = |place: usize| {
            bytes[place..].first_chunk().map_or(0, |bytes| u32::from_be_bytes(*bytes))
        };
        let is_whole = sum_of(&bytes[..SUM]) == u64_at(SUM);
        if !is_whole || bytes[..4] != MARK || u16_at(4) != VERSION {
            return None;
        }
        let counts: [u64; 5] = std::array::from_fn(|place| u64_at(32 + 8 * place));
        let [serial, life, indexes, calls, jobs] = counts;
        Some(Record {
            serial,
            world: World(*bytes[12..].first_chunk()?),
            space: SpaceId::new(u16_at(6))?,
            spaces: SpaceId::new(u16_at(8))?,
            life,
            has_ended: bytes[10] == 1,
            indexes,
            calls,
            jobs,
            sessions: std::array::from_fn(|place| u32_at(SESSIONS + 4 * place)),
        })
    }
}

/// The two records of a file, each where it is whole; and none where it hasn't the length of one.
pub(super) fn records_of(file: &[u8]) -> [Option<Record>; 2] {
    if file.len() != FILE {
        return [None, None];
    }
    let at = |place: usize| file[place..].first_chunk().and_then(Record::from_bytes);
    [at(0), at(SECOND)]
}

// FNV-1a, of 64 bits.
fn sum_of(bytes: &[u8]) -> u64 {
    bytes.iter().fold(0xcbf2_9ce4_8422_2325, |sum, byte| {
        (sum ^ u64::from(*byte)).wrapping_mul(0x0000_0100_0000_01b3)
    })
}
