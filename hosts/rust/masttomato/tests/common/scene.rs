//! An engine with an honest peer and one that isn't. Not each test uses all of it.
#![allow(dead_code)]

use masttomato::engine::{Answered, Engine, Life, Misbehaved, Session, Settings, Ticket, Turn};
use masttomato::space::{Outcome, SpaceId, Status, Value};
use std::time::Duration;

pub const HERE: u16 = 1;
pub const HONEST: u16 = 2;
pub const HOSTILE: u16 = 3;

pub fn id(number: u16) -> SpaceId {
    SpaceId::new(number).expect("a space")
}

/// An engine with an honest peer and one whose bytes the test makes up.
pub struct Scene {
    pub owner: Engine,
    honest: Engine,
    pub now: Duration,
    pub served: usize,
}

impl Scene {
    pub fn new() -> Scene {
        let now = Duration::ZERO;
        let engine = |number| Engine::new(Settings::new(id(number), id(3)), now).expect("memory");
        let (mut owner, mut honest) = (engine(HERE), engine(HONEST));
        owner.connected(id(HONEST), Life::only(HONEST.into()), now).expect("its first life");
        owner.connected(id(HOSTILE), Life::only(HOSTILE.into()), now).expect("its first life");
        honest.connected(id(HERE), Life::only(HERE.into()), now).expect("its first life");
        Scene { owner, honest, now, served: 0 }
    }

    pub fn send(&mut self, bytes: &[u8]) -> Result<(), Misbehaved> {
        self.owner.bytes(id(HOSTILE), bytes, self.now)
    }

    /// A turn of the owner, which answers unit to all that it is asked.
    pub fn turn(&mut self) -> Turn {
        let mut turn = self.owner.turn(self.now);
        for job in std::mem::take(&mut turn.jobs) {
            self.served += 1;
            self.owner.finish(job.job, Outcome::Answer(Value::Unit));
        }
        turn
    }

    /// Turns until no job is left.
    pub fn serve_all(&mut self) {
        let mut before = usize::MAX;
        while before != self.served {
            before = self.served;
            let _ = self.turn();
        }
    }

    /// What the owner has for the hostile peer is taken, and thrown away.
    pub fn read(&mut self) -> usize {
        let out = self.owner.output(id(HOSTILE));
        let count = out.left().len();
        out.advance(count);
        count
    }

    /// The honest peer calls, and is answered.
    pub fn assert_serves(&mut self) {
        let ticket = Ticket(self.served as u64);
        self.honest.call(ticket, id(HERE).agent(), 0, Value::Int(5));
        for _ in 0..20 {
            self.now += Duration::from_millis(1);
            let answers = self.honest.turn(self.now).answers;
            if let [(answered, what)] = &answers[..] {
                let wanted = Answered::Replied { status: Status::Answered, value: Value::Unit };
                assert_eq!((*answered, what), (ticket, &wanted));
                return;
            }
            let out = self.honest.output(id(HERE));
            self.owner.bytes(id(HONEST), out.left(), self.now).expect("honest bytes");
            out.advance(usize::MAX);
            let _ = self.turn();
            let _ = self.turn();
            let out = self.owner.output(id(HONEST));
            self.honest.bytes(id(HERE), out.left(), self.now).expect("honest bytes");
            out.advance(usize::MAX);
        }
        panic!("the honest peer isn't answered");
    }

    /// What the owner and the honest peer have for each other comes to them, some times.
    pub fn meet(&mut self) {
        for _ in 0..4 {
            self.now += Duration::from_millis(3);
            let _turns = (self.owner.turn(self.now), self.honest.turn(self.now));
            let out = self.honest.output(id(HERE));
            self.owner.bytes(id(HONEST), out.left(), self.now).expect("honest bytes");
            out.advance(usize::MAX);
            let out = self.owner.output(id(HONEST));
            self.honest.bytes(id(HERE), out.left(), self.now).expect("honest bytes");
            out.advance(usize::MAX);
        }
    }

    /// Both the owner and the honest peer open their session anew: its number, which is one for both.
    pub fn open_anew(&mut self) -> u32 {
        let numbers = (
            self.owner.open(id(HONEST), self.now).expect("nothing is held"),
            self.honest.open(id(HERE), self.now).expect("nothing is held"),
        );
        assert_eq!(numbers.0, numbers.1);
        numbers.0
    }

    pub fn session(&self, number: u16) -> Session {
        self.owner.session(id(number))
    }
}

pub fn frame(from: u16, to: u16, seq: u64, payload: &[u8]) -> Vec<u8> {
    let mut bytes = vec![0x4e, 2, 1, 0];
    bytes.extend(from.to_be_bytes());
    bytes.extend(to.to_be_bytes());
    bytes.extend(seq.to_be_bytes());
    bytes.extend(1_u64.to_be_bytes());
    bytes.extend((payload.len() as u32).to_be_bytes());
    bytes.extend(1_u32.to_be_bytes());
    bytes.extend(payload);
    bytes
}

pub fn record(kind: u8, stamp: u64, body: &[u8]) -> Vec<u8> {
    let mut bytes = (body.len() as u32).to_be_bytes().to_vec();
    bytes.extend([kind, 0, 0, 0]);
    bytes.extend(stamp.to_be_bytes());
    bytes.extend(body);
    bytes
}

/// A call of the agent with a pickle.
pub fn call(number: u64, pickle: &[u8]) -> Vec<u8> {
    let mut item = vec![1];
    item.extend(number.to_be_bytes());
    item.extend([0; 10]);
    item.extend(pickle);
    item
}

pub fn sent(seq: u64, item: &[u8]) -> Vec<u8> {
    record(0, seq, &frame(HOSTILE, HERE, seq, item))
}
