//! A chat, of up to 32 processes. The first has the room; what somebody says, a line of standard input,
//! the room tells all by calling back.
//!
//!     chat PEERS 1 ann         has the room, and is in it
//!     chat PEERS 2 ben
//!     chat PEERS 3 cas
//!
//! PEERS is a file with a line for each, as `1 127.0.0.1:7001`.

use masttomato::{Node, Peers, Remote, SpaceId, interface};
use std::error::Error;
use std::io;
use std::time::Duration;

/// Where people talk.
#[interface]
pub trait Room {
    /// Somebody comes in, and is called back with all that is said from now on: who was there before.
    fn enter(&mut self, name: String, listener: Remote<dyn Listener>) -> Vec<String>;
    /// Somebody says a line.
    fn say(&mut self, name: String, text: String);
    /// Somebody goes.
    fn leave(&mut self, name: String);
}

/// Who listens.
#[interface]
pub trait Listener {
    /// Somebody said a line.
    fn hear(&mut self, name: String, text: String);
}

#[derive(Default)]
struct Parlour {
    guests: Vec<(String, Remote<dyn Listener>)>,
}

impl Parlour {
    // Tells all, at once. Whoever can't be told any more has left, and that is told too.
    fn tell(&mut self, name: &str, text: &str) {
        let calls: Vec<_> = self
            .guests
            .iter()
            .map(|(guest, listener)| (guest.clone(), listener.hear(name.into(), text.into())))
            .collect();
        for (guest, call) in calls {
            if call.wait_for(Duration::from_secs(5)).is_err() {
                self.leave(guest);
            }
        }
    }
}

impl Room for Parlour {
    fn enter(&mut self, name: String, listener: Remote<dyn Listener>) -> Vec<String> {
        let before = self.guests.iter().map(|(guest, _)| guest.clone()).collect();
        self.guests.push((name.clone(), listener));
        self.tell(&name, "is here");
        before
    }

    fn say(&mut self, name: String, text: String) {
        self.tell(&name, &text);
    }

    fn leave(&mut self, name: String) {
        let count = self.guests.len();
        self.guests.retain(|(guest, _)| *guest != name);
        if self.guests.len() < count {
            self.tell(&name, "has left");
        }
    }
}

struct Ear;

impl Listener for Ear {
    fn hear(&mut self, name: String, text: String) {
        println!("{name}: {text}");
    }
}

fn main() -> Result<(), Box<dyn Error>> {
    let words: Vec<String> = std::env::args().skip(1).collect();
    let [peers, number, name] = &words[..] else { return Err("chat PEERS NUMBER NAME".into()) };
    let host = SpaceId::new(1).ok_or("a space")?;
    let here = SpaceId::new(number.parse()?).ok_or("a number from 1 to 32")?;
    let node =
        Node::builder(here, Peers::read(peers)?).give_up_after(Duration::from_secs(30)).start()?;
    if here == host {
        let room = node.export::<dyn Room>(Box::new(Parlour::default()))?;
        node.bind("room", &room)?;
    }
    let room: Remote<dyn Room> = node.lookup(host, "room").wait()?;
    let ear = node.export::<dyn Listener>(Box::new(Ear))?;
    let there = room.enter(name.clone(), ear).wait()?;
    println!("{} were here before", there.len());
    for line in io::stdin().lines() {
        room.say(name.clone(), line?).wait()?;
    }
    room.leave(name.clone()).wait()?;
    Ok(())
}
