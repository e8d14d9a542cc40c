//! The examples of several processes, which say the same each time.

#[path = "common/running.rs"]
mod running;

use running::{Running, example, port};
use std::fs;
use std::path::PathBuf;
use std::process::Stdio;

const COUNTER: &str = "\
space 2: looked the counter up
space 2: added 39 times 1: 39
space 2: handed it to space 3, and dropped it
space 3: added 3: 42, and dropped it
space 1: nobody has the counter any more, and it is dropped
the connection was cut: true
space 3 is killed
space 1: the session with space 3 closed for reason 3
space 2: the session with space 3 closed for reason 3
";

const REOPENED: &str = "\
space 2: looked the counter up
space 2: added 20: 20
space 3: looked the counter up
space 3: added 3: 23
space 2 is cut off from space 1
space 2: the session with space 1 closed for reason 3
space 1: the session with space 2 closed for reason 3
space 3: added 4: 27
space 2: added nothing: there is no session with space 1
space 2: opened no session with space 1: S16: a reference to an object of the peer is held, is pinned or waits at this space
space 2: gave the counter back
space 2 can reach space 1 again
space 1: opened session 2 with space 2
space 2: opened session 2 with space 1
space 2: looked the counter up
space 2: added 15: 42
space 2: gave the counter back
space 3: gave the counter back
space 1: the counter has no name any more
space 1: nobody has the counter any more, and it is dropped
";

#[test]
fn a_counter_over_three_processes() {
    assert_says("counter", COUNTER);
}

#[test]
fn a_session_that_is_opened_anew() {
    assert_says("reopened", REOPENED);
}

#[test]
fn a_service_that_is_killed_ten_times() {
    let was = |life| format!("life {life} of the service was called by both, and was killed\n");
    let lives: String = (1..=10).map(was).collect();
    let last = "life 11 of the service was called by both, and goes on\nall have ended\n";
    assert_says("restarted", &(lives + last));
}

fn assert_says(name: &str, wanted: &str) {
    let output = example(name).stderr(Stdio::inherit()).output().expect("the example");
    let said = String::from_utf8_lossy(&output.stdout);
    let (played, last) = said.trim_end().rsplit_once('\n').expect("lines");
    assert_eq!(format!("{played}\n"), wanted);
    assert!(matches!(last, "verdict yes" | "not checked: there is no nobj"), "{last}");
    eprintln!("{last}");
    assert!(output.status.success());
}

/// A folder that goes with the test, and a list of peers: so many, and all others have no address.
struct Place(PathBuf);

impl Place {
    fn new(name: &str, spaces: u16) -> Place {
        let folder = std::env::temp_dir().join(format!("masttomato-{name}-{}", std::process::id()));
        fs::create_dir_all(&folder).expect("a folder");
        let line = |number: u16| format!("{number} 127.0.0.1:{}\n", port());
        let peers: String = (1..=spaces).map(line).collect();
        let others = format!("{}..=32 127.0.0.1:0\n", spaces + 1);
        fs::write(folder.join("world.peers"), peers + &others).expect("a file");
        Place(folder)
    }
}

impl Drop for Place {
    fn drop(&mut self) {
        let _removed = fs::remove_dir_all(&self.0);
    }
}

#[test]
fn the_quick_start() {
    let place = Place::new("quick-start", 1);
    let _owner = Running::start(example("quick_start").current_dir(&place.0).arg("owner"));
    let run = |number: &str| {
        let mut command = example("quick_start");
        command.current_dir(&place.0).arg(number);
        command.output().expect("it ends")
    };
    // Who comes before the owner has bound the name finds nothing there, and the next one tries again.
    let answered = |number: &u16| {
        let said = run(&number.to_string()).stdout;
        (!said.is_empty()).then(|| (*number, String::from_utf8_lossy(&said).into_owned()))
    };
    let mut found = (2..=32).filter_map(|number| answered(&number));
    let (first, said) = found.next().expect("the owner binds the name");
    assert_eq!(said, "20\n");
    let (_second, said) = found.next().expect("it stays bound");
    assert_eq!(said, "40\n");
    // A number that was used is refused, in words.
    let again = run(&first.to_string());
    let said = String::from_utf8_lossy(&again.stderr);
    assert!(!again.status.success() && said.contains("NumberUsed"), "{said}");
}

#[test]
fn a_chat_of_three() {
    let place = Place::new("chat", 3);
    let start = |number: &str, name: &str| {
        let mut command = example("chat");
        Running::start(command.current_dir(&place.0).args(["world.peers", number, name]))
    };
    let mut ann = start("1", "ann");
    ann.hears("ann: is here");
    ann.hears("0 were here before");
    let mut ben = start("2", "ben");
    ann.hears("ben: is here");
    ben.hears("ben: is here");
    ben.hears("1 were here before");
    let mut cas = start("3", "cas");
    for who in [&mut ann, &mut ben, &mut cas] {
        who.hears("cas: is here");
    }
    cas.hears("2 were here before");
    for (place, line) in [(0, "good evening"), (1, "has anybody seen the cat?"), (2, "on the mat")]
    {
        [&mut ann, &mut ben, &mut cas][place].says(line);
        let name = ["ann", "ben", "cas"][place];
        for who in [&mut ann, &mut ben, &mut cas] {
            who.hears(&format!("{name}: {line}"));
        }
    }
    // One leaves in order; of one that is killed the others are told once it can't be told anything.
    drop(ben.0.stdin.take());
    assert!(ben.0.wait().expect("it ends").success());
    ann.hears("ben: has left");
    cas.hears("ben: has left");
    drop(cas);
    ann.says("is anybody there?");
    ann.hears("ann: is anybody there?");
    ann.hears("cas: has left");
}
