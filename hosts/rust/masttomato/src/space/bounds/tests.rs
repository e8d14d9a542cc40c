//! Lives over a disk that is made up: they die at each write and behind each byte of it, and their files are cut and spoiled
//! at each byte.

use super::medium::{Locked, Medium};
use super::record::{FILE, RECORD, Record, SECOND, records_of};
use super::{BLOCK, Bounds, BoundsError, FARTHEST, LAST, Wanted};
use crate::space::{
    ArriveError, Arrived, Birth, CallNo, Event, Frame, Limits, Reason, Refusal, Space, SpaceError,
    SpaceId, StreamError, Use, Value, World,
};
use std::fs::{self, OpenOptions};
use std::io::{self, Write};
use std::path::{Path, PathBuf};
use std::process::{self, Command, Stdio};
use std::sync::{Arc, Barrier, Mutex};
use std::thread;

fn id(number: u16) -> SpaceId {
    SpaceId::new(number).expect("a space")
}

/// A disk: what is on it, and behind how many writes, and how many bytes of the next one, the power goes: its first
/// ones, or its last ones.
#[derive(Debug, Default)]
struct Disk {
    bytes: Vec<u8>,
    fails_at: Option<(usize, usize)>,
    keeps_last: bool,
    writes: usize,
    is_elsewhere: bool,
}

#[derive(Clone)]
struct MadeUp(Arc<Mutex<Disk>>);

impl MadeUp {
    fn new() -> MadeUp {
        let record = Record::new(World::named("tests"), id(1), id(3)).to_bytes();
        let mut bytes = vec![0; FILE];
        bytes[..RECORD].copy_from_slice(&record);
        bytes[SECOND..SECOND + RECORD].copy_from_slice(&record);
        MadeUp::of(bytes)
    }

    fn of(bytes: Vec<u8>) -> MadeUp {
        MadeUp(Arc::new(Mutex::new(Disk { bytes, ..Disk::default() })))
    }

    fn open(&self) -> Result<Bounds, BoundsError> {
        Bounds::begin(Box::new(self.clone()), World::named("tests"), id(1), id(3))
    }

    fn with<T>(&self, ask: impl FnOnce(&mut Disk) -> T) -> T {
        ask(&mut self.0.lock().expect("no panic"))
    }

    fn bytes(&self) -> Vec<u8> {
        self.with(|disk| disk.bytes.clone())
    }

    // The power goes behind so many writes, and so many bytes of the next one. Then it is there again.
    fn fail_at(&self, fails_at: Option<(usize, usize)>) {
        self.with(|disk| (disk.fails_at, disk.writes) = (fails_at, 0));
    }
}

impl Medium for MadeUp {
    fn read(&mut self) -> io::Result<Vec<u8>> {
        Ok(self.bytes())
    }

    fn write_at(&mut self, place: usize, bytes: &[u8]) -> io::Result<()> {
        self.with(|disk| {
            let kept = match disk.fails_at {
                Some((write, _)) if write < disk.writes => 0,
                Some((write, kept)) if write == disk.writes => kept,
                _ => bytes.len(),
            };
            let first = if disk.keeps_last { bytes.len() - kept } else { 0 };
            let part = first..first + kept;
            disk.bytes[place + part.start..place + part.end].copy_from_slice(&bytes[part]);
            disk.writes += 1;
            let is_over = disk.fails_at.is_some_and(|(write, _)| write < disk.writes);
            if is_over { Err(io::ErrorKind::Interrupted.into()) } else { Ok(()) }
        })
    }

    fn sync(&mut self) -> io::Result<()> {
        Ok(())
    }

    fn is_in_place(&self) -> io::Result<bool> {
        Ok(self.with(|disk| !disk.is_elsewhere))
    }
}

/// What all lives of a number used: the last index and call, and the highest session with space 2; and the file where
/// each is written down as it is used, where lives are processes.
#[derive(Debug, Default)]
struct Shown {
    index: u64,
    call: u64,
    session: u32,
    log: Option<PathBuf>,
}

impl Shown {
    // What is written down, to be gone on with.
    fn read(log: PathBuf) -> Shown {
        let text = fs::read_to_string(&log).unwrap_or_default();
        let last = |word: &str| {
            let numbers =
                text.lines().filter_map(|line| line.strip_prefix(word)?.trim().parse().ok());
            numbers.max().unwrap_or(0)
        };
        let session = last("session").try_into().expect("a session");
        Shown { index: last("index"), call: last("call"), session, log: Some(log) }
    }

    fn note(&self, word: &str, number: u64) {
        let Some(log) = &self.log else { return };
        let mut log = OpenOptions::new().append(true).create(true).open(log).expect("a file");
        log.write_all(format!("{word} {number}\n").as_bytes()).expect("a file");
    }

    // A life, as far as it gets: whether it ended in order. Nothing that it uses was used before.
    fn live(&mut self, disk: &MadeUp) -> bool {
        disk.open().is_ok_and(|bounds| self.live_behind(bounds))
    }

    fn live_behind(&mut self, bounds: Bounds) -> bool {
        let first = bounds.birth().session(id(2));
        assert!(first > self.session + u32::from(self.session > 0), "{first}: {self:?}");
        self.session = first;
        self.note("session", first.into());
        let limits = Limits::default();
        let mut space = Space::begin_behind(bounds, limits).expect("memory");
        let lived = self.deeds(&mut space);
        lived.is_some() && space.end_life().is_ok()
    }

    fn deeds(&mut self, space: &mut Space) -> Option<()> {
        for _ in 0..2 {
            let index = space.export().ok()?.index;
            assert!(index > self.index, "{index}: {self:?}");
            self.index = index;
            self.note("index", index);
            let call = space.call(id(2).agent(), 0, &Value::Unit).ok()?.get();
            assert!(call > self.call, "{call}: {self:?}");
            self.call = call;
            self.note("call", call);
        }
        space.arrive(&close_in(self.session + 5)).ok()?;
        self.session += 5;
        self.note("session", self.session.into());
        let opened = space.open(id(2)).ok()?;
        assert!(opened >= self.session, "{opened}: {self:?}");
        self.session = opened;
        space.close(id(2)).ok()?;
        self.session = space.open(id(2)).ok()?;
        self.note("session", self.session.into());
        Some(())
    }
}

// A Close from space 2 for space 1, in this session.
fn close_in(session: u32) -> Frame {
    let mut bytes = vec![0x4e, 2, 3, 0, 0, 2, 0, 1];
    bytes.extend([0_u64.to_be_bytes(), 1_u64.to_be_bytes()].concat());
    bytes.extend([1_u32.to_be_bytes(), session.to_be_bytes()].concat());
    bytes.push(1);
    Frame::from_bytes(bytes).expect("a frame")
}

/// The writes of a life: its beginning, the first index, the first call, a session that is heard, and one that is opened
/// above it, and its end; each over both copies.
const WRITES: usize = 12;

#[test]
fn a_life_that_nothing_befalls_writes_so_often_and_skips_nothing() {
    let (disk, mut shown) = (MadeUp::new(), Shown::default());
    assert!(shown.live(&disk));
    assert_eq!(disk.with(|disk| disk.writes), WRITES);
    assert_eq!((shown.index, shown.call, shown.session), (2, 2, 7));
    assert!(shown.live(&disk));
    assert_eq!((shown.index, shown.call, shown.session), (4, 4, 15));
}

#[test]
fn nothing_is_used_twice_wherever_a_life_dies() {
    for keeps_last in [false, true] {
        for place in (0..WRITES).flat_map(|write| (0..=RECORD).map(move |kept| (write, kept))) {
            let (disk, mut shown) = (MadeUp::new(), Shown::default());
            disk.with(|disk| disk.keeps_last = keeps_last);
            disk.fail_at(Some(place));
            assert!(!shown.live(&disk));
            for _ in 0..2 {
                disk.fail_at(None);
                assert!(shown.live(&disk), "{place:?} {keeps_last}");
            }
        }
    }
}

#[test]
fn nothing_is_used_twice_wherever_two_lives_die() {
    let places = |step| {
        (0..WRITES).flat_map(move |write| (0..=RECORD).step_by(step).map(move |kept| (write, kept)))
    };
    for first in places(32) {
        for second in places(51) {
            let (disk, mut shown) = (MadeUp::new(), Shown::default());
            for place in [first, second] {
                disk.fail_at(Some(place));
                shown.live(&disk);
            }
            disk.fail_at(None);
            assert!(shown.live(&disk), "{first:?} {second:?}");
        }
    }
}

#[test]
fn a_file_that_is_cut_is_refused() {
    let (disk, mut shown) = (MadeUp::new(), Shown::default());
    assert!(shown.live(&disk));
    let bytes = disk.bytes();
    for length in 0..FILE {
        let cut = bytes[..length].to_vec();
        assert!(matches!(MadeUp::of(cut).open(), Err(BoundsError::Damaged)), "{length}");
    }
    let longer = [bytes, vec![0]].concat();
    assert!(matches!(MadeUp::of(longer).open(), Err(BoundsError::Damaged)));
}

#[test]
fn of_a_file_that_is_spoiled_at_a_byte_the_other_copy_counts() {
    let (disk, mut shown) = (MadeUp::new(), Shown::default());
    disk.fail_at(Some((WRITES - 2, 0)));
    assert!(!shown.live(&disk), "it dies before its end");
    let bytes = disk.bytes();
    let birth = MadeUp::of(bytes.clone()).open().expect("two copies").birth().clone();
    for place in 0..FILE {
        let mut spoiled = bytes.clone();
        spoiled[place] ^= 0x10;
        let opened = MadeUp::of(spoiled).open().expect("one copy is whole");
        assert_eq!(*opened.birth(), birth, "{place}");
    }
    let mut spoiled = bytes.clone();
    (spoiled[60], spoiled[SECOND + 60]) = (0xff, 0xff);
    assert!(matches!(MadeUp::of(spoiled).open(), Err(BoundsError::Damaged)));
}

// The premise: nobody can see that a file is older than what was used. This is why it must not be put back.
#[test]
fn an_older_copy_that_is_put_back_gives_an_index_again() {
    let disk = MadeUp::new();
    let older = disk.bytes();
    assert!(Shown::default().live(&disk));
    disk.with(|disk| disk.bytes = older);
    assert_eq!(*disk.open().expect("a whole file").birth(), Birth::default());
}

#[test]
fn a_life_whose_file_is_replaced_or_changed_uses_nothing_more() {
    for is_elsewhere in [true, false] {
        let disk = MadeUp::new();
        let mut bounds = disk.open().expect("a file");
        assert!(bounds.cover(Wanted::Index));
        match is_elsewhere {
            true => disk.with(|disk| disk.is_elsewhere = true),
            // Another life begins behind its back, as no lock allows.
            false => drop(disk.open().expect("a file")),
        }
        assert!(bounds.cover(Wanted::Index), "that is covered still");
        assert!(!bounds.cover(Wanted::Call));
        assert!(matches!(bounds.fault(), Some(BoundsError::Replaced)));
        assert!(!bounds.cover(Wanted::Index), "now it knows");
        assert!(matches!(bounds.end(), Err(BoundsError::Replaced)));
    }
}

#[test]
fn behind_a_write_that_failed_only_what_was_covered_is_used() {
    let disk = MadeUp::new();
    let mut space =
        Space::begin_behind(disk.open().expect("a file"), Limits::default()).expect("memory");
    let object = space.export().expect("room");
    disk.fail_at(Some((0, 17)));
    assert_eq!(space.call(id(2).agent(), 0, &Value::Unit), Err(SpaceError::NotCovered));
    disk.fail_at(None);
    assert_eq!(space.call(id(2).agent(), 0, &Value::Unit), Err(SpaceError::NotCovered));
    let fault = space.bounds().and_then(Bounds::fault);
    assert!(matches!(fault, Some(BoundsError::Io(_))));
    for index in 2..=BLOCK {
        assert_eq!(space.export().map(|given| given.index), Ok(index));
    }
    assert_eq!(space.export(), Err(SpaceError::NotCovered));
    // What uses no number goes on.
    assert_eq!(space.withdraw(object.index), Err(Refusal::StillUsed(Use::Held).into()));
    assert_eq!(space.arrive(&close_in(1)).map(|_| ()), Ok(()));
    assert_eq!(space.open(id(2)), Err(SpaceError::NotCovered));
    assert!(space.end_life().is_err());
}

#[test]
fn a_frame_that_is_too_far_ahead_is_lost() {
    let disk = MadeUp::new();
    let mut space =
        Space::begin_behind(disk.open().expect("a file"), Limits::default()).expect("memory");
    let farthest = 1 + FARTHEST;
    assert_eq!(space.arrive(&close_in(farthest + 1)), Err(SpaceError::FarSession));
    assert_eq!(space.arrive(&close_in(u32::MAX)), Err(SpaceError::FarSession));
    assert!(space.tally(id(2)).is_some_and(|tally| tally.closed.is_none()));
    assert!(matches!(space.arrive(&close_in(farthest)), Ok(Arrived::Closed(_))));
    assert_eq!(space.open(id(2)), Ok(farthest));
    drop(space);
    assert_eq!(disk.open().expect("a file").birth().session(id(2)), farthest + 2);
}

#[test]
fn what_is_for_another_space_raises_no_bound() {
    let disk = MadeUp::new();
    let mut space =
        Space::begin_behind(disk.open().expect("a file"), Limits::default()).expect("memory");
    let writes = || disk.with(|disk| disk.writes);
    let before = writes();
    for (from, to) in [(2, 3), (4, 1), (5, 6)] {
        let mut bytes = close_in(9).into_bytes();
        (bytes[5], bytes[7]) = (from, to);
        let frame = Frame::from_bytes(bytes.clone()).expect("a frame");
        assert_eq!(space.arrive(&frame), Err(Refusal::NoPeer.into()));
        assert!(space.arrive_bytes(&bytes).is_err());
    }
    assert_eq!(writes(), before);
    assert_eq!(space.push(id(2), close_in(9).as_bytes()), Err(StreamError::HasBounds));
    assert!(space.arrive_bytes(close_in(9).as_bytes()).is_ok());
    assert_eq!(writes(), before + 2);
}

#[test]
fn numbers_that_are_used_up_are_refused() {
    let with = |change: &dyn Fn(&mut Record)| {
        let mut record = Record { life: 1, ..Record::new(World::named("tests"), id(1), id(3)) };
        change(&mut record);
        let (mut bytes, record) = (vec![0; FILE], record.to_bytes());
        bytes[..RECORD].copy_from_slice(&record);
        MadeUp::of(bytes)
    };
    let last = with(&|record| record.sessions[1] = u32::MAX - 2).open().expect("one more");
    assert_eq!(last.birth().session(id(2)), u32::MAX);
    let refused = with(&|record| record.sessions[1] = u32::MAX - 1).open();
    assert!(matches!(refused, Err(BoundsError::UsedUp)));
    let disk = with(&|record| {
        (record.indexes, record.calls, record.sessions) = (LAST - 1, LAST, [300; 32]);
    });
    let mut space =
        Space::begin_behind(disk.open().expect("a file"), Limits::default()).expect("memory");
    assert_eq!(space.export().map(|given| given.index), Ok(LAST));
    assert_eq!(space.export(), Err(Refusal::Limit.into()));
    assert_eq!(space.call(id(2).agent(), 0, &Value::Unit), Err(Refusal::Limit.into()));
    assert_eq!(space.take_reply(CallNo::new(LAST)), Err(Refusal::NoCall.into()));
}

// No call can be passed over where there is no peer: so one that is refused raises no bound.
#[test]
fn a_space_without_peers_that_was_asked_for_a_call_comes_back() {
    let record = Record::new(World::named("tests"), id(1), id(1)).to_bytes();
    let mut bytes = vec![0; FILE];
    bytes[..RECORD].copy_from_slice(&record);
    let disk = MadeUp::of(bytes);
    for life in 1..=3 {
        let opened = Bounds::begin(Box::new(disk.clone()), World::named("tests"), id(1), id(1));
        let bounds = opened.expect("a file");
        assert_eq!((bounds.life(), bounds.birth().calls), (life, 0));
        let mut space = Space::begin_behind(bounds, Limits::default()).expect("in range");
        space.export().expect("room");
        for owner in [1, 2] {
            let called = space.call(id(owner).agent(), 0, &Value::Unit);
            assert_eq!(called, Err(Refusal::NoPeer.into()));
        }
    }
}

/// A disk that keeps nothing of what wasn't synced: what is on it, and what was written.
#[derive(Clone)]
struct Forgetful(Arc<Mutex<[Vec<u8>; 2]>>);

impl Medium for Forgetful {
    fn read(&mut self) -> io::Result<Vec<u8>> {
        Ok(self.0.lock().expect("no panic")[1].clone())
    }

    fn write_at(&mut self, place: usize, bytes: &[u8]) -> io::Result<()> {
        let [_, written] = &mut *self.0.lock().expect("no panic");
        written[place..place + bytes.len()].copy_from_slice(bytes);
        Ok(())
    }

    fn sync(&mut self) -> io::Result<()> {
        let [kept, written] = &mut *self.0.lock().expect("no panic");
        kept.clone_from(written);
        Ok(())
    }

    fn is_in_place(&self) -> io::Result<bool> {
        Ok(true)
    }
}

impl Forgetful {
    // The life that begins where the power goes now.
    fn next(&self) -> Bounds {
        MadeUp::of(self.0.lock().expect("no panic")[0].clone()).open().expect("a whole copy")
    }
}

#[test]
fn what_is_used_is_on_disk_before() {
    let bytes = MadeUp::new().bytes();
    let disk = Forgetful(Arc::new(Mutex::new([bytes.clone(), bytes])));
    for life in 1..=3 {
        let world = World::named("tests");
        let bounds = Bounds::begin(Box::new(disk.clone()), world, id(1), id(3)).expect("a file");
        let mut session = bounds.birth().session(id(2));
        assert_eq!((bounds.life(), disk.next().life()), (life, life + 1));
        assert!(disk.next().birth().session(id(2)) > session + 1);
        let mut space = Space::begin_behind(bounds, Limits::default()).expect("in range");
        for _ in 0..=BLOCK {
            let index = space.export().expect("room").index;
            assert!(disk.next().birth().indexes >= index);
            let call = space.call(id(2).agent(), 0, &Value::Unit).expect("room").get();
            assert!(disk.next().birth().calls >= call);
        }
        for heard in [true, false] {
            if heard {
                session += 7;
                space.arrive(&close_in(session)).expect("it is heard");
            } else {
                session = space.open(id(2)).expect("nothing is held") + 1;
                space.close(id(2)).expect("it is open");
                session = session.max(space.open(id(2)).expect("nothing is held"));
            }
            assert!(disk.next().birth().session(id(2)) > session + 1);
        }
    }
}

#[test]
fn of_two_whole_copies_the_one_with_the_higher_serial_number_counts() {
    let record = |serial, indexes| {
        let new = Record::new(World::named("tests"), id(1), id(3));
        Record { serial, life: 1, indexes, ..new }.to_bytes()
    };
    let (older, newer) = (record(8, 5), record(9, 1_029));
    for (first, second) in [(older, newer), (newer, older)] {
        let mut bytes = vec![0; FILE];
        bytes[..RECORD].copy_from_slice(&first);
        bytes[SECOND..SECOND + RECORD].copy_from_slice(&second);
        let disk = MadeUp::of(bytes);
        assert_eq!(disk.open().expect("a file").birth().indexes, 1_029);
        // Now both say the same.
        let [first, second] = records_of(&disk.bytes());
        assert!(first.is_some() && first == second);
    }
}

// Its bytes are those that docs/LIVES.md says; the sum was made by another program.
#[test]
fn a_record_stands_as_it_is_written_down() {
    let mut record = Record {
        serial: 0x0102_0304_0506_0708,
        life: 3,
        has_ended: false,
        indexes: 1_024,
        calls: 2_048,
        jobs: 7,
        ..Record::new(World(*b"a world of tests"), id(2), id(32))
    };
    record.sessions[0] = 9;
    record.sessions[31] = 0x0a0b_0c0d;
    let bytes = record.to_bytes();
    let parts: [(usize, &[u8]); 11] = [
        (0, b"NOBB\x00\x01"),
        (6, &[0, 2, 0, 32]),
        (10, &[0, 0]),
        (12, b"a world of tests\0\0\0\0"),
        (32, &[1, 2, 3, 4, 5, 6, 7, 8]),
        (40, &[0, 0, 0, 0, 0, 0, 0, 3]),
        (48, &[0, 0, 0, 0, 0, 0, 4, 0, 0, 0, 0, 0, 0, 0, 8, 0]),
        (64, &[0, 0, 0, 0, 0, 0, 0, 7]),
        (76, &[0, 0, 0, 9, 0, 0, 0, 0]),
        (200, &[10, 11, 12, 13, 0, 0]),
        (248, &0xc8b4_37a2_44d1_2c09_u64.to_be_bytes()),
    ];
    for (place, part) in parts {
        assert_eq!(&bytes[place..place + part.len()], part, "at {place}");
    }
    assert!(bytes[206..248].iter().all(|byte| *byte == 0));
    assert_eq!(Record::from_bytes(&bytes), Some(record));
}

#[test]
fn no_door_leads_past_bounds_that_cannot_be_written() {
    type Door = fn(&mut Space) -> SpaceError;
    let doors: [Door; 9] = [
        |space| space.export().expect_err("export"),
        |space| space.call(id(2).agent(), 0, &Value::Unit).expect_err("call"),
        |space| space.open(id(3)).expect_err("open"),
        |space| space.arrive(&close_in(2)).expect_err("arrive"),
        |space| match space.arrive_bytes(close_in(2).as_bytes()) {
            Err(ArriveError::Space(error)) => error,
            other => panic!("{other:?}"),
        },
        |space| space.step(&Event::Export).expect_err("export"),
        |space| {
            let call = Event::Call { target: id(2).agent(), method: 0, value: Value::Unit };
            space.step(&call).expect_err("call")
        },
        |space| space.step(&Event::Open(id(3))).expect_err("open"),
        |space| space.step(&Event::Arrive(close_in(2))).expect_err("arrive"),
    ];
    for door in doors {
        let disk = MadeUp::new();
        let bounds = disk.open().expect("a file");
        let mut space = Space::begin_behind(bounds, Limits::default()).expect("in range");
        space.keep_trace();
        space.close(id(3)).expect("it is open");
        let before = (space.take_lines(), space.tally(id(2)), space.tally(id(3)));
        disk.fail_at(Some((0, 0)));
        assert_eq!(door(&mut space), SpaceError::NotCovered);
        let after =
            (String::from("1 close 3 = closed 1\n"), space.tally(id(2)), space.tally(id(3)));
        assert_eq!((before, space.live(), space.take_lines()), (after, 0, String::new()));
        // What the old session brings needs no number.
        assert_eq!(space.arrive(&close_in(1)), Ok(Arrived::Closed(Reason::PeerClosed)));
    }
}

/// A folder that goes with the test.
struct Folder(PathBuf);

impl Folder {
    fn new(name: &str) -> Folder {
        let folder = std::env::temp_dir().join(format!("masttomato-{name}-{}", process::id()));
        fs::create_dir_all(&folder).expect("a folder");
        Folder(folder)
    }

    fn bounds(&self) -> PathBuf {
        self.0.join("space-1.bounds")
    }

    fn create(&self) -> Result<(), BoundsError> {
        Bounds::create(self.bounds(), World::named("tests"), id(1), id(3))
    }

    fn open(&self) -> Result<Bounds, BoundsError> {
        Bounds::open(self.bounds(), World::named("tests"), id(1), id(3))
    }
}

impl Drop for Folder {
    fn drop(&mut self) {
        let _removed = fs::remove_dir_all(&self.0);
    }
}

#[test]
fn to_make_a_file_and_to_open_it_are_two_acts() {
    let folder = Folder::new("acts");
    assert!(matches!(folder.open(), Err(BoundsError::Missing)));
    assert_eq!(fs::read_dir(&folder.0).expect("the folder").count(), 0, "nothing is made");
    // What a process left that died while it made one is passed over.
    let draft = folder.0.join(format!("space-1.bounds.{}-0.new", process::id()));
    fs::write(&draft, b"half of it").expect("a file");
    folder.create().expect("there is none");
    assert_eq!(fs::read(&draft).expect("it stays"), b"half of it");
    assert_eq!(fs::read_dir(&folder.0).expect("the folder").count(), 2);
    drop(folder.open().expect("it is there"));
    let bytes = fs::read(folder.bounds()).expect("a file");
    assert!(matches!(folder.create(), Err(BoundsError::Exists)));
    assert_eq!(fs::read(folder.bounds()).expect("a file"), bytes, "it is as it was");
}

#[test]
fn of_many_who_begin_at_once_one_does() {
    let folder = Folder::new("at-once");
    let all = |ask: &(dyn Fn() -> bool + Sync)| {
        let barrier = Barrier::new(8);
        let asked = || {
            barrier.wait();
            // Nobody gives back what he got before all have asked.
            let got = ask();
            barrier.wait();
            got
        };
        thread::scope(|scope| {
            let threads: Vec<_> = (0..8).map(|_| scope.spawn(asked)).collect();
            let got = threads.into_iter().map(|thread| thread.join().expect("no panic"));
            got.filter(|got| *got).count()
        })
    };
    assert_eq!(all(&|| folder.create().is_ok()), 1);
    for life in 1..=20 {
        let got = Mutex::new(Vec::new());
        let opened = all(&|| match folder.open() {
            Ok(bounds) => {
                got.lock().expect("no panic").push(bounds);
                true
            }
            Err(error) => {
                assert!(matches!(error, BoundsError::InUse), "{error}");
                false
            }
        });
        assert_eq!(opened, 1);
        assert_eq!(got.into_inner().expect("no panic")[0].life(), life);
    }
}

/// The file of a process that is killed at a step: before a write, in the middle of it, behind it, or behind its sync.
struct Deadly {
    file: Locked,
    steps: u32,
}

impl Deadly {
    fn step(&mut self) {
        match self.steps.checked_sub(1) {
            Some(left) => self.steps = left,
            None => process::abort(),
        }
    }
}

impl Medium for Deadly {
    fn read(&mut self) -> io::Result<Vec<u8>> {
        self.file.read()
    }

    fn write_at(&mut self, place: usize, bytes: &[u8]) -> io::Result<()> {
        self.step();
        self.file.write_at(place, &bytes[..bytes.len() / 2])?;
        self.step();
        self.file.write_at(place, bytes)?;
        self.step();
        Ok(())
    }

    fn sync(&mut self) -> io::Result<()> {
        self.file.sync()?;
        self.step();
        Ok(())
    }

    fn is_in_place(&self) -> io::Result<bool> {
        self.file.is_in_place()
    }
}

const DEADLY: &str = "MASTTOMATO_DEADLY";

// What a process does that is killed at a step. It is this test again, as another process.
#[test]
fn a_life_that_is_killed() {
    let Ok(told) = std::env::var(DEADLY) else { return };
    let (steps, folder) = told.split_once(' ').expect("two words");
    let file = Locked::open(&Path::new(folder).join("space-1.bounds")).expect("nobody has it");
    let medium = Deadly { file, steps: steps.parse().expect("a number") };
    let bounds = Bounds::begin(Box::new(medium), World::named("tests"), id(1), id(3));
    let mut shown = Shown::read(Path::new(folder).join("used"));
    assert!(shown.live_behind(bounds.expect("a whole copy")));
}

#[test]
fn nothing_is_used_twice_by_processes_that_are_killed_at_each_step() {
    let folder = Folder::new("deadly");
    folder.create().expect("there is none");
    let steps = 4 * WRITES as u32;
    for step in 0..=steps {
        let mut command = Command::new(std::env::current_exe().expect("this test"));
        let test = "space::bounds::tests::a_life_that_is_killed";
        command.args(["--exact", test]).env(DEADLY, format!("{step} {}", folder.0.display()));
        let ended = command.stdout(Stdio::null()).stderr(Stdio::null()).status();
        let ended = ended.expect("a process");
        // It was killed, or came to its end; but found nothing wrong.
        assert_eq!(
            (ended.code(), ended.success()),
            if step < steps { (None, false) } else { (Some(0), true) }
        );
    }
    let bounds = folder.open().expect("nobody has it");
    // Where a process dies in its first write no life has begun.
    assert!(bounds.life() > u64::from(steps) - 8, "life {}", bounds.life());
    let shown = Shown::read(folder.0.join("used"));
    assert!(bounds.birth().indexes >= shown.index && bounds.birth().calls >= shown.call);
    assert!(bounds.birth().session(id(2)) > shown.session + 1);
}
