//! What a node leaves in files: each entry before the bytes leave that it tells of, in files of a size, of which none is cut
//! within an entry, and which joined are a run.

mod common;

use common::checking::fault_of;
use common::nobj;
use masttomato::engine::{Engine, Files, Life, Settings, Ticket, TraceSink};
use masttomato::space::{Outcome, SpaceId, Value};
use std::fs;
use std::io;
use std::path::{Path, PathBuf};
use std::sync::{Arc, Mutex};
use std::time::Duration;

const NOW: Duration = Duration::ZERO;
const SIZE: u64 = 2_000;

fn id(number: u16) -> SpaceId {
    SpaceId::new(number).expect("1 to 32")
}

/// A folder that goes with the test.
struct Folder(PathBuf);

impl Folder {
    fn new(name: &str) -> Folder {
        let path = Path::new(env!("CARGO_TARGET_TMPDIR"))
            .join(format!("records-{name}-{}", std::process::id()));
        let _old = fs::remove_dir_all(&path);
        fs::create_dir_all(&path).expect("a folder");
        Folder(path)
    }

    // The files in it, in order, with their texts.
    fn files(&self) -> Vec<(String, String)> {
        let entries = fs::read_dir(&self.0).expect("a folder").map(|entry| entry.expect("a file"));
        let mut files: Vec<(String, String)> = entries
            .map(|entry| {
                let name = entry.file_name().into_string().expect("a name");
                (name, fs::read_to_string(entry.path()).expect("a text"))
            })
            .collect();
        files.sort();
        files
    }
}

impl Drop for Folder {
    fn drop(&mut self) {
        let _gone = fs::remove_dir_all(&self.0);
    }
}

// Two engines, the second of which calls the first; both record into the folder.
fn pair(folder: &Path) -> [Engine; 2] {
    let engine = |number| {
        let mut engine = Engine::new(Settings::new(id(number), id(2)), NOW).expect("memory");
        engine.record(Box::new(Files::new(folder, id(number), SIZE)));
        engine
    };
    let mut pair = [engine(1), engine(2)];
    connect(&mut pair, 1);
    pair
}

fn connect([owner, caller]: &mut [Engine; 2], times: u32) {
    for _ in 0..times {
        owner.disconnected(id(2), NOW);
        caller.disconnected(id(1), NOW);
        owner.connected(id(2), Life::only(2), NOW).expect("its only life");
        caller.connected(id(1), Life::only(1), NOW).expect("its only life");
    }
}

// What an engine has to write. Each of its frames is told of in its files by now.
fn output(engine: &mut Engine, folder: &Path) -> Vec<u8> {
    let peer = id(3 - engine.id().get());
    let out = engine.output(peer);
    let bytes = out.left().to_vec();
    out.advance(bytes.len());
    let entries = Files::join(folder, engine.id(), id(2)).expect("a trace");
    let mut left = &bytes[..];
    while let Some((head, rest)) = left.split_first_chunk::<16>() {
        let length = u32::from_be_bytes([head[0], head[1], head[2], head[3]]) as usize;
        let (mut frames, rest) = rest.split_at(length);
        while !frames.is_empty() {
            let length = 32 + u32::from_be_bytes([frames[24], frames[25], frames[26], frames[27]]);
            let (frame, others) = frames.split_at(length as usize);
            let hex: String = frame.iter().map(|byte| format!("{byte:02x}")).collect();
            assert!(entries.contains(&hex), "{hex} leaves before its entry is written");
            frames = others;
        }
        left = rest;
    }
    bytes
}

// So many calls, each of which is carried out and answered; the connection breaks now and then.
fn call(pair: &mut [Engine; 2], folder: &Path, calls: u64) {
    for ticket in 1..=calls {
        pair[1].call(Ticket(ticket), id(1).agent(), 0, Value::Int(ticket as i64));
        let mut answers = 0;
        while answers == 0 {
            let [owner, caller] = pair;
            answers = caller.turn(NOW).answers.len();
            owner.bytes(id(2), &output(caller, folder), NOW).expect("honest bytes");
            for job in owner.turn(NOW).jobs {
                owner.finish(job.job, Outcome::Answer(job.value));
            }
            let _turn = owner.turn(NOW);
            caller.bytes(id(1), &output(owner, folder), NOW).expect("honest bytes");
        }
        if ticket % 7 == 0 {
            connect(pair, 1);
        }
    }
}

#[test]
fn an_entry_is_written_before_the_bytes_leave_that_it_tells_of() {
    let folder = Folder::new("before");
    let mut pair = pair(&folder.0);
    call(&mut pair, &folder.0, 60);
    pair.iter_mut().for_each(|engine| drop(engine.turn(NOW)));
    let traces: Vec<String> =
        [1, 2].map(|number| Files::join(&folder.0, id(number), id(2)).expect("a trace")).into();
    assert_eq!(fault_of(&traces), None);
    if let Some(said) = nobj("check", traces.concat().as_bytes()) {
        assert!(said.ends_with("\nverdict yes\n"), "{said}");
    }
    // The next file is begun once one has its size; entries of one turn stay together.
    for space in ["space-1.", "space-2."] {
        let files = folder.files();
        let own: Vec<_> = files.iter().filter(|(name, _)| name.starts_with(space)).collect();
        assert!(own.len() > 3, "{}", own.len());
        for (place, (name, text)) in own.iter().enumerate() {
            assert_eq!(*name, format!("{space}{:06}.entries", place + 1));
            assert!(text.ends_with('\n'), "{name} ends within an entry");
            let is_full = text.len() as u64 >= SIZE;
            assert!(is_full || place + 1 == own.len(), "{name} is left at {}", text.len());
        }
    }
}

/// Keeps the lines beside, and writes them to the disk itself.
struct Both(Files, Arc<Mutex<String>>);

impl TraceSink for Both {
    fn entries(&mut self, lines: &str) -> io::Result<()> {
        self.1.lock().expect("no panic").push_str(lines);
        self.0.entries(lines)
    }
}

#[test]
fn what_is_joined_is_what_was_written() {
    let folder = Folder::new("joined");
    let lines = Arc::new(Mutex::new(String::new()));
    let mut engine = engine_of(1);
    let files = Files::new(&folder.0, id(1), SIZE).synced();
    engine.record(Box::new(Both(files, lines.clone())));
    for _ in 0..500 {
        engine.export().expect("room");
        let _turn = engine.turn(NOW);
    }
    let joined = Files::join(&folder.0, id(1), id(2)).expect("a trace");
    let lines = lines.lock().expect("no panic");
    assert_eq!(joined.split_once('\n').map(|(_, rest)| rest), Some(&lines[..]));
    assert_eq!(joined.lines().count(), 501);
    assert!(folder.files().len() > 3);
}

fn engine_of(number: u16) -> Engine {
    Engine::new(Settings::new(id(number), id(2)), NOW).expect("memory")
}

// A trace that can't be written is given up, which is counted; what the engine does goes on.
#[test]
fn a_trace_that_cannot_be_written_is_given_up() {
    let folder = Folder::new("gone");
    let mut engine = engine_of(1);
    engine.record(Box::new(Files::new(folder.0.join("isn't there"), id(1), SIZE)));
    for _ in 0..3 {
        engine.export().expect("room");
        let _turn = engine.turn(NOW);
    }
    assert_eq!((engine.counts().trace_faults, engine.report(NOW).live), (1, 3));
}
