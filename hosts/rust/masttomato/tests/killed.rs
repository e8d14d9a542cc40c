//! Processes that are killed at any moment, while they make, hold and pass references: what they held is
//! given up, the others go on, and the traces of all, as far as each was written, are a run.

#[path = "common/mod.rs"]
mod common;
#[path = "nodes/things.rs"]
#[allow(dead_code)]
mod things;

use common::checking::fault_of;
use common::nobj;
use masttomato::engine::Files;
use masttomato::{Node, Peers, Remote, Session};
use std::fs;
use std::path::{Path, PathBuf};
use std::process::{Command, Stdio};
use std::sync::atomic::Ordering::SeqCst;
use std::thread;
use std::time::Duration;
use things::*;

/// So many processes live and are killed, some of them at once.
const LIVES: u16 = 10;
const AT_ONCE: u16 = 2;
const CHILD: &str = "MASTTOMATO_CHILD";

// What a process does until it is killed. It is this test again, as another process.
#[test]
fn a_life() {
    let Ok(told) = std::env::var(CHILD) else { return };
    let [number, address, folder] = told.split(' ').collect::<Vec<_>>()[..] else { return };
    let here = id(number.parse().expect("a number"));
    let node = Node::builder(here, Peers::none().with(id(1), address))
        .spaces(id(LIVES + 1))
        .record(Files::new(folder, here, 1 << 14))
        .start()
        .expect("a node");
    let shelf: Remote<dyn Shelf> = node.lookup(id(1), "shelf").wait().expect("a shelf");
    let mut held = Vec::new();
    for step in 0.. {
        let made = shelf.make(step).wait().expect("a counter");
        assert_eq!(made.add(1).wait(), Ok(step + 1));
        if step % 3 == 0 {
            // What others put there may be gone by now, and what is put there may be this life's own.
            let _put = shelf.put(made.clone()).wait();
            let _taken = shelf.take().wait();
        }
        held.push(made);
        if held.len() > 8 {
            held.remove(0);
        }
    }
}

fn live(number: u16, address: &str, folder: &Path) {
    let mut command = Command::new(std::env::current_exe().expect("this test"));
    command
        .args(["--exact", "a_life"])
        .env(CHILD, format!("{number} {address} {}", folder.display()));
    let mut child = command.stdout(Stdio::null()).stderr(Stdio::null()).spawn().expect("a process");
    // Any moment, but the same in each run of this test, as far as time goes.
    let moment = 20 + u64::from(number) * 7_919 % 180;
    thread::sleep(Duration::from_millis(moment));
    child.kill().expect("it ran until now");
    child.wait().expect("it has ended");
}

#[test]
fn processes_are_killed_at_any_moment() {
    let folder = std::env::temp_dir().join(format!("masttomato-killed-{}", std::process::id()));
    fs::create_dir_all(&folder).expect("a folder");
    let own = Files::new(&folder, id(1), 1 << 14);
    let node = Node::builder(id(1), Peers::none())
        .listen("127.0.0.1:0")
        .spaces(id(LIVES + 1))
        .give_up_after(Duration::from_millis(800))
        .record(own)
        .start()
        .expect("a node");
    let board = Board::default();
    let alive = board.alive.clone();
    let shelf = node.export::<dyn Shelf>(Box::new(board)).expect("room");
    node.bind("shelf", &shelf).expect("a name");
    let address = node.address().expect("it listens").to_string();
    thread::scope(|scope| {
        for first in 0..AT_ONCE {
            let (address, folder): (&str, &PathBuf) = (&address, &folder);
            scope.spawn(move || {
                for number in (2 + first..LIVES + 2).step_by(AT_ONCE.into()) {
                    live(number, address, folder);
                }
            });
        }
    });
    let (counter, _alive) = tally(&node);
    assert_eq!(counter.add(1).wait(), Ok(1), "the node goes on");
    // What the last of them left on the shelf is the owner's own again.
    while shelf.take().wait_for(SOON).expect("a shelf").is_some() {}
    eventually("what the killed ones held is given up", || alive.load(SeqCst) == 0);
    let was_there = |number: u16| matches!(node.session(id(number)), Session::Closed(_));
    let came = (2..LIVES + 2).filter(|number| was_there(*number)).count();
    assert!(came >= usize::from(LIVES) / 2, "only {came} ever said anything");
    let calls = node.counts().jobs_finished;
    node.shutdown(SOON);
    let trace = |number| Files::join(&folder, id(number), id(LIVES + 1)).expect("a trace");
    let traces: Vec<String> = (1..LIVES + 2).map(trace).collect();
    fs::remove_dir_all(&folder).expect("the folder");
    assert_eq!(fault_of(&traces), None);
    println!("{came} lives, {calls} calls");
    if let Some(said) = nobj("check", traces.concat().as_bytes()) {
        assert!(said.ends_with("\nverdict yes\n"), "{said}");
    }
}
