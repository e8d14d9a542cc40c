//! What it costs a node to record: recorded KIND CALLERS CALLS FOLDER, for bench/records.
//!
//! Callers, threads that share a node, call an object of another node of the same process over TCP on 127.0.0.1, CALLS times each. Both nodes record into the
//! folder: KIND is `none`, where they don't; `files`; `synced`, which waits for the disk; or `chain`, segments in place of
//! entries. It prints how many calls were answered a second, and how many bytes of records a call left at both together.

use masttomato::engine::Files;
use masttomato::space::SegmentSize;
use masttomato::{Builder, Node, Peers, Remote, SpaceId, interface};
use std::error::Error;
use std::time::{Duration, Instant};
use std::{fs, thread};

/// An object to be called.
#[interface]
pub trait Target {
    /// Does nothing.
    fn null(&mut self);
}

struct Nothing;

impl Target for Nothing {
    fn null(&mut self) {}
}

const SIZE: u64 = 16 << 20;

fn recorded(builder: Builder, kind: &str, folder: &str, space: SpaceId) -> Result<Builder, String> {
    let files = || Files::new(folder, space, SIZE);
    Ok(match kind {
        "none" => builder,
        "files" => builder.record(files()),
        "synced" => builder.record(files().synced()),
        "chain" => {
            let segments = files().for_chain();
            builder.record_chain(SegmentSize::default(), segments)
        }
        _ => return Err("none, files, synced or chain".into()),
    })
}

fn call_all(target: &Remote<dyn Target>, callers: u32, calls: u32) {
    thread::scope(|scope| {
        for _ in 0..callers {
            scope.spawn(|| (0..calls).for_each(|_| target.null().wait().expect("an answer")));
        }
    });
}

fn size_of(folder: &str) -> Result<u64, Box<dyn Error>> {
    let mut size = 0;
    for entry in fs::read_dir(folder)? {
        size += entry?.metadata()?.len();
    }
    Ok(size)
}

fn main() -> Result<(), Box<dyn Error>> {
    let words: Vec<String> = std::env::args().skip(1).collect();
    let [kind, callers, calls, folder] = &words[..] else {
        return Err("recorded KIND CALLERS CALLS FOLDER".into());
    };
    let (callers, calls) = (callers.parse()?, calls.parse()?);
    let [one, two] = [SpaceId::try_from(1)?, SpaceId::try_from(2)?];
    let owner = Node::builder(one, Peers::none()).spaces(two).listen("127.0.0.1:0");
    let owner = recorded(owner, kind, folder, one)?.start()?;
    owner.bind("target", &owner.export::<dyn Target>(Box::new(Nothing))?)?;
    let peers = Peers::none().with(one, owner.address().ok_or("it listens")?);
    let caller = recorded(Node::builder(two, peers), kind, folder, two)?.start()?;
    let target: Remote<dyn Target> = caller.lookup(one, "target").wait()?;
    call_all(&target, callers, calls / 5);
    let began = Instant::now();
    call_all(&target, callers, calls);
    let rate = f64::from(callers * calls) / began.elapsed().as_secs_f64();
    drop(target);
    caller.shutdown(Duration::from_secs(5));
    owner.shutdown(Duration::from_secs(5));
    let bytes = size_of(folder)? as f64 / (f64::from(callers * calls) * 1.2);
    println!("{rate:.0} {bytes:.0}");
    Ok(())
}
