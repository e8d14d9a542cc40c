//! Bounds: what is durable of a space that comes back under its number after its process died.

mod medium;
mod record;
#[cfg(test)]
mod tests;

use super::birth::Birth;
use super::names::{SpaceId, World};
use medium::{Locked, Medium};
use record::{FILE, Record, SECOND, records_of};
use std::error::Error;
use std::fmt;
use std::io;
use std::path::Path;

/// So many indexes and calls are taken ahead at once.
const BLOCK: u64 = 1_024;
/// The greatest index, and the greatest number of a call.
const LAST: u64 = 1 << 48;
/// A frame whose session is further above that of its end than this is none of an honest peer.
pub(super) const FARTHEST: u32 = 1 << 20;

/// What is durable of a space, in a file: no index, no number of a call and no number of a session that the space used, or
/// heard, is above these bounds. So a process that dies, at any moment, can come back under its number: its next life
/// begins behind them. It has none of the objects and references of the life before, and nothing that others still
/// have of that one names anything of its own.
///
/// The file is made once, by [`Bounds::create`], and each life opens it, by [`Bounds::open`], and has it alone until it ends
/// or its process does. What is used is covered by the file first: a [`Space`](super::Space) that has bounds, by
/// [`Space::begin_behind`](super::Space::begin_behind), sees to that in one place.
///
/// What is asked of whoever has such a file, and what is kept by it:
///
/// 1. *Before use.* No index, call or session number is used, and no frame of a later session than before comes to the space,
///    before a bound that isn't below it is on disk (`fsync`). Indexes and calls are taken 1,024 at once.
/// 2. *Behind the bounds.* A life begins with the first index and the first call above the bounds, and with each session in the
///    number two above its bound, which is on disk before the first frame leaves.
/// 3. *One life at a time.* The file is locked as long as a life lasts.
/// 4. *One file.* It must never be copied to another machine, put back from a backup, or made anew for a number that has
///    lived. Nothing can find that out for sure, and then an index may name two objects.
/// 5. *Entries before frames*, for runs that are to be checked: what a node records of its events is written before the
///    frames leave that tell of them.
///
/// ```
/// use masttomato::space::{Bounds, BoundsError, Limits, Space, SpaceId, World};
///
/// # fn main() -> Result<(), Box<dyn std::error::Error>> {
/// # let folder = std::env::temp_dir().join(format!("masttomato-bounds-{}", std::process::id()));
/// # std::fs::create_dir_all(&folder)?;
/// # let path = folder.join("space-1.bounds");
/// let [one, two] = [SpaceId::try_from(1)?, SpaceId::try_from(2)?];
/// let world = World::named("shop");
/// Bounds::create(&path, world, one, two)?;                 // once in the life of a world
///
/// let bounds = Bounds::open(&path, world, one, two)?;      // in each life of the process
/// assert!(matches!(Bounds::open(&path, world, one, two), Err(BoundsError::InUse)));
/// let mut space = Space::begin_behind(bounds, Limits::default())?;
/// assert_eq!(space.export()?.to_string(), "1.1");
/// drop(space);                                             // as if the process had been killed
///
/// let bounds = Bounds::open(&path, world, one, two)?;
/// assert_eq!((bounds.life(), bounds.birth().session(two)), (2, 3));
/// let mut space = Space::begin_behind(bounds, Limits::default())?;
/// assert_eq!(space.export()?.to_string(), "1.1025");
/// space.end_life()?;                                       // in order, so nothing is skipped
///
/// let bounds = Bounds::open(&path, world, one, two)?;
/// assert_eq!((bounds.life(), bounds.birth().indexes), (3, 1_025));
/// # std::fs::remove_dir_all(&folder)?;
/// # Ok(())
/// # }
/// ```
pub struct Bounds {
    // None once the life has ended.
    medium: Option<Box<dyn Medium>>,
    // What is on disk, and where the older of its two copies stands; the serial of the last try to write one.
    record: Record,
    older: usize,
    serial: u64,
    birth: Birth,
    // What was used in fact, which is covered.
    indexes: u64,
    calls: u64,
    jobs: u64,
    fault: Option<BoundsError>,
}

impl fmt::Debug for Bounds {
    fn fmt(&self, f: &mut fmt::Formatter<'_>) -> fmt::Result {
        f.debug_struct("Bounds").field("record", &self.record).finish_non_exhaustive()
    }
}

/// What is about to be used for the first time.
#[derive(Clone, Copy, Debug, PartialEq, Eq)]
pub(super) enum Wanted {
    Index,
    Call,
    Session(SpaceId, u32),
}

/// Why bounds can't be made, opened or raised: see [`Bounds`].
///
/// ```
/// # use masttomato::space::*;
/// # let one = SpaceId::new(1).expect("1 to 32");
/// let missing = Bounds::open("/nowhere/space-1.bounds", World::default(), one, one);
/// assert!(matches!(missing, Err(BoundsError::Missing)));
/// ```
#[derive(Debug)]
#[non_exhaustive]
pub enum BoundsError {
    /// There is such a file already: it is opened, and never made anew.
    Exists,
    /// There is no such file. Where its number has lived, nothing safe is left of that number, and another must be taken.
    Missing,
    /// Another life has it: a number has one life at a time.
    InUse,
    /// It isn't a file of bounds, or both of its copies are spoiled.
    Damaged,
    /// It is of another world, another space, or another number of spaces.
    OtherSpace,
    /// The numbers of a session are used up, after thousands of millions of lives or at a peer that isn't honest.
    UsedUp,
    /// It was replaced or changed while this life had it.
    Replaced,
    /// The life has ended.
    Ended,
    /// It couldn't be written before, so what is on disk isn't known.
    Broken,
    /// The system says so.
    Io(io::Error),
}

impl fmt::Display for BoundsError {
    fn fmt(&self, f: &mut fmt::Formatter<'_>) -> fmt::Result {
        f.write_str(match self {
            BoundsError::Exists => "there is a file of bounds already, which is opened and never made anew",
            BoundsError::Missing => {
                "there is no file of bounds: one is made once, by an act of its own, for a number that was never used"
            }
            BoundsError::InUse => "another life of this number has the file of bounds",
            BoundsError::Damaged => "that is no file of bounds, or it is spoiled: another number must be taken",
            BoundsError::OtherSpace => "the bounds are those of another world, space or number of spaces",
            BoundsError::UsedUp => "the numbers of a session are used up: another number must be taken",
            BoundsError::Replaced => "the file of bounds was replaced or changed while this life had it",
            BoundsError::Ended => "the life has ended",
            BoundsError::Broken => "the file of bounds couldn't be written",
            BoundsError::Io(error) => return error.fmt(f),
        })
    }
}

impl Error for BoundsError {
    fn source(&self) -> Option<&(dyn Error + 'static)> {
        match self {
            BoundsError::Io(error) => error.source(),
            _ => None,
        }
    }
}

impl From<io::Error> for BoundsError {
    fn from(error: io::Error) -> BoundsError {
        BoundsError::Io(error)
    }
}

impl Bounds {
    /// Makes the file of a number that has never lived: of this space of a world, among the spaces from 1 to `spaces`. That is
    /// an act of its own, done once; the lives open it.
    ///
    /// ```
    /// # use masttomato::space::*;
    /// # let path = std::env::temp_dir().join(format!("masttomato-create-{}", std::process::id()));
    /// # let [one, two] = [1, 2].map(|number| SpaceId::new(number).expect("1 to 32"));
    /// Bounds::create(&path, World::named("shop"), one, two)?;
    /// let again = Bounds::create(&path, World::named("shop"), one, two);
    /// assert!(matches!(again, Err(BoundsError::Exists)));
    /// # std::fs::remove_file(&path)?;
    /// # Ok::<(), BoundsError>(())
    /// ```
    ///
    /// # Errors
    /// `Exists` where there is one, `OtherSpace` where the space is above the last one, and what the system says.
    pub fn create(
        path: impl AsRef<Path>,
        world: World,
        space: SpaceId,
        spaces: SpaceId,
    ) -> Result<(), BoundsError> {
        if space > spaces {
            return Err(BoundsError::OtherSpace);
        }
        let record = Record::new(world, space, spaces).to_bytes();
        let mut bytes = vec![0; FILE];
        for place in [0, SECOND] {
            bytes[place..place + record.len()].copy_from_slice(&record);
        }
        Locked::create(path.as_ref(), &bytes)
    }

    /// Begins the next life of a number, whose file is there: nobody else has it until this is dropped. That the life has begun
    /// is on disk then, with the numbers that it begins behind.
    ///
    /// ```
    /// # use masttomato::space::*;
    /// # let path = std::env::temp_dir().join(format!("masttomato-open-{}", std::process::id()));
    /// # let [one, two] = [1, 2].map(|number| SpaceId::new(number).expect("1 to 32"));
    /// let (shop, bank) = (World::named("shop"), World::named("bank"));
    /// Bounds::create(&path, shop, one, two)?;
    /// assert!(matches!(Bounds::open(&path, bank, one, two), Err(BoundsError::OtherSpace)));
    /// assert_eq!(*Bounds::open(&path, shop, one, two)?.birth(), Birth::default());
    /// assert_eq!(Bounds::open(&path, shop, one, two)?.life(), 2);
    /// # std::fs::remove_file(&path)?;
    /// # Ok::<(), BoundsError>(())
    /// ```
    ///
    /// # Errors
    /// `Missing` where there is none: it is never made here. `InUse` where another life has it; `Damaged`, `OtherSpace` and
    /// `UsedUp` by what stands in it; and what the system says. No life has begun then.
    pub fn open(
        path: impl AsRef<Path>,
        world: World,
        space: SpaceId,
        spaces: SpaceId,
    ) -> Result<Bounds, BoundsError> {
        Bounds::begin(Box::new(Locked::open(path.as_ref())?), world, space, spaces)
    }

    fn begin(
        mut medium: Box<dyn Medium>,
        world: World,
        space: SpaceId,
        spaces: SpaceId,
    ) -> Result<Bounds, BoundsError> {
        let (record, older) = newest_of(records_of(&medium.read()?)).ok_or(BoundsError::Damaged)?;
        if (record.world, record.space, record.spaces) != (world, space, spaces) {
            return Err(BoundsError::OtherSpace);
        }
        let birth = birth_behind(&record).ok_or(BoundsError::UsedUp)?;
        let (indexes, calls, jobs) = (birth.indexes, birth.calls, birth.jobs);
        let sessions = birth.sessions;
        let begun = Record { life: record.life + 1, has_ended: false, sessions, ..record.clone() };
        let (serial, fault) = (record.serial, None);
        let medium = Some(medium);
        let mut bounds =
            Bounds { medium, record, older, serial, birth, indexes, calls, jobs, fault };
        match bounds.write(begun) {
            Ok(()) => Ok(bounds),
            Err(()) => Err(bounds.fault.unwrap_or(BoundsError::Broken)),
        }
    }

    /// The number of this life: 1, and one more for each life that begins.
    ///
    /// ```
    /// # use masttomato::space::*;
    /// # let path = std::env::temp_dir().join(format!("masttomato-life-{}", std::process::id()));
    /// # let one = SpaceId::new(1).expect("1 to 32");
    /// Bounds::create(&path, World::default(), one, one)?;
    /// assert_eq!(Bounds::open(&path, World::default(), one, one)?.life(), 1);
    /// # std::fs::remove_file(&path)?;
    /// # Ok::<(), BoundsError>(())
    /// ```
    pub fn life(&self) -> u64 {
        self.record.life
    }

    /// The world.
    ///
    /// ```
    /// # use masttomato::space::*;
    /// # let path = std::env::temp_dir().join(format!("masttomato-of-world-{}", std::process::id()));
    /// # let one = SpaceId::new(1).expect("1 to 32");
    /// Bounds::create(&path, World::named("shop"), one, one)?;
    /// let bounds = Bounds::open(&path, World::named("shop"), one, one)?;
    /// assert_eq!((bounds.world(), bounds.space(), bounds.spaces()), (World::named("shop"), one, one));
    /// # std::fs::remove_file(&path)?;
    /// # Ok::<(), BoundsError>(())
    /// ```
    pub fn world(&self) -> World {
        self.record.world
    }

    /// The number of the space. As of [`Bounds::world`].
    ///
    /// ```
    /// # use masttomato::space::*;
    /// # let path = std::env::temp_dir().join(format!("masttomato-of-space-{}", std::process::id()));
    /// # let [one, two] = [1, 2].map(|number| SpaceId::new(number).expect("1 to 32"));
    /// Bounds::create(&path, World::default(), one, two)?;
    /// assert_eq!(Bounds::open(&path, World::default(), one, two)?.space(), one);
    /// # std::fs::remove_file(&path)?;
    /// # Ok::<(), BoundsError>(())
    /// ```
    pub fn space(&self) -> SpaceId {
        self.record.space
    }

    /// The last space that there is. As of [`Bounds::world`].
    ///
    /// ```
    /// # use masttomato::space::*;
    /// # let path = std::env::temp_dir().join(format!("masttomato-of-spaces-{}", std::process::id()));
    /// # let [one, two] = [1, 2].map(|number| SpaceId::new(number).expect("1 to 32"));
    /// Bounds::create(&path, World::default(), one, two)?;
    /// assert_eq!(Bounds::open(&path, World::default(), one, two)?.spaces(), two);
    /// # std::fs::remove_file(&path)?;
    /// # Ok::<(), BoundsError>(())
    /// ```
    pub fn spaces(&self) -> SpaceId {
        self.record.spaces
    }

    /// The numbers that this life begins behind.
    ///
    /// ```
    /// # use masttomato::space::*;
    /// # let path = std::env::temp_dir().join(format!("masttomato-birth-{}", std::process::id()));
    /// # let [one, two] = [1, 2].map(|number| SpaceId::new(number).expect("1 to 32"));
    /// Bounds::create(&path, World::default(), one, two)?;
    /// drop(Bounds::open(&path, World::default(), one, two)?);
    /// assert_eq!(Bounds::open(&path, World::default(), one, two)?.birth().session(two), 3);
    /// # std::fs::remove_file(&path)?;
    /// # Ok::<(), BoundsError>(())
    /// ```
    pub fn birth(&self) -> &Birth {
        &self.birth
    }

    /// Why nothing more is covered, where that is so.
    ///
    /// ```
    /// # use masttomato::space::*;
    /// # let path = std::env::temp_dir().join(format!("masttomato-fault-{}", std::process::id()));
    /// # let one = SpaceId::new(1).expect("1 to 32");
    /// Bounds::create(&path, World::default(), one, one)?;
    /// let bounds = Bounds::open(&path, World::default(), one, one)?;
    /// std::fs::rename(&path, path.with_extension("elsewhere"))?;
    /// let mut space = Space::begin_behind(bounds, Limits::default()).expect("its numbers are in range");
    /// assert_eq!(space.export(), Err(SpaceError::NotCovered));
    /// let fault = space.bounds().and_then(Bounds::fault);
    /// assert!(matches!(fault, Some(BoundsError::Replaced)));
    /// # std::fs::remove_file(path.with_extension("elsewhere"))?;
    /// # Ok::<(), BoundsError>(())
    /// ```
    pub fn fault(&self) -> Option<&BoundsError> {
        self.fault.as_ref()
    }

    /// Sees to it that what is about to be used isn't above the bounds: whether it is so, and on disk.
    pub(super) fn cover(&mut self, wanted: Wanted) -> bool {
        // Behind the greatest number there is none to cover, which the space says itself.
        let is_covered = match wanted {
            Wanted::Index => self.indexes < self.record.indexes || self.indexes >= LAST,
            Wanted::Call => self.calls < self.record.calls || self.calls >= LAST,
            Wanted::Session(peer, number) => number <= self.session(peer),
        };
        match &self.fault {
            None => is_covered || self.write(self.raised(wanted)).is_ok(),
            Some(BoundsError::Io(_) | BoundsError::Broken) => is_covered,
            Some(_) => false,
        }
    }

    // A record that covers it, which the present one doesn't.
    fn raised(&self, wanted: Wanted) -> Record {
        let mut next = self.record.clone();
        match wanted {
            Wanted::Index => next.indexes = (self.indexes + BLOCK).min(LAST),
            Wanted::Call => next.calls = (self.calls + BLOCK).min(LAST),
            Wanted::Session(peer, number) => next.sessions[peer.place()] = number,
        }
        next
    }

    /// Whether the life has ended.
    pub(super) fn is_over(&self) -> bool {
        self.medium.is_none()
    }

    /// The bound of the session with a space.
    pub(super) fn session(&self, peer: SpaceId) -> u32 {
        self.record.sessions[peer.place()]
    }

    /// This index was given; calls and jobs have functions of their own.
    pub(super) fn gave_index(&mut self, index: u64) {
        self.indexes = index;
    }

    pub(super) fn made_call(&mut self, call: u64) {
        self.calls = call;
    }

    pub(super) fn claimed_job(&mut self, job: u64) {
        self.jobs = job;
    }

    /// The life ends in order: the counts are exact. Nothing is covered any more, and the next life may begin.
    pub(super) fn end(&mut self) -> Result<(), BoundsError> {
        if let Some(fault) = self.fault.replace(BoundsError::Ended) {
            self.medium = None;
            return Err(fault);
        }
        let (indexes, calls, jobs) = (self.indexes, self.calls, self.jobs);
        let last = Record { has_ended: true, indexes, calls, jobs, ..self.record.clone() };
        let written = self.write_both(&Record { serial: self.serial + 1, ..last });
        self.medium = None;
        written
    }

    // Writes a record over the older copy, and then over the other one: whatever becomes of one, the other is whole, and
    // where this returns both say the same. Nothing is written after a fault, since what is on disk isn't known then.
    fn write(&mut self, record: Record) -> Result<(), ()> {
        self.serial += 1;
        let record = Record { serial: self.serial, ..record };
        match self.write_both(&record) {
            Ok(()) => {
                self.record = record;
                Ok(())
            }
            Err(error) => {
                self.fault = Some(error);
                Err(())
            }
        }
    }

    fn write_both(&mut self, record: &Record) -> Result<(), BoundsError> {
        let medium = self.medium.as_mut().ok_or(BoundsError::Ended)?;
        let found = newest_of(records_of(&medium.read()?)).map(|(found, _)| found);
        if !medium.is_in_place()? || found.as_ref() != Some(&self.record) {
            return Err(BoundsError::Replaced);
        }
        let bytes = record.to_bytes();
        for place in [self.older, SECOND - self.older] {
            medium.write_at(place, &bytes)?;
            medium.sync()?;
        }
        self.older = 0;
        Ok(())
    }
}

// The newest whole record, and the place of the other one, which is to be written first.
fn newest_of(records: [Option<Record>; 2]) -> Option<(Record, usize)> {
    match records {
        [Some(first), Some(second)] if first.serial >= second.serial => Some((first, SECOND)),
        [Some(first), None] => Some((first, SECOND)),
        [_, second] => second.map(|second| (second, 0)),
    }
}

// The birth behind the bounds of a record: each session in the number two above its bound, so that one is passed over. The
// first life is that of a new space.
fn birth_behind(record: &Record) -> Option<Birth> {
    if record.life == 0 {
        return Some(Birth::default());
    }
    let Record { indexes, calls, jobs, .. } = *record;
    let mut sessions = record.sessions;
    for number in &mut sessions {
        *number = number.checked_add(2)?;
    }
    Some(Birth { indexes, calls, jobs, sessions })
}
