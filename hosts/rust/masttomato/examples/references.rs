//! What references cost whose indexes a stranger chooses: what `bench/references` measures.
//!
//!     references KIND HELD
//!
//! Space 2 is a stranger: it isn't ours, and gives its objects the indexes that it likes. It passes
//! HELD references to objects of its own, 32 in a call, and space 1 comes to know them all, answers
//! the calls, and gives the references up, one after the other. KIND says which indexes: `dense`, the
//! numbers from 1 on; or `alike`, numbers that agree in their 47 lowest bits, so that they can only
//! be told apart by the others. It prints how many nanoseconds a reference took: to come, and to go.

use masttomato::space::{Frame, FrameKind, Limits, Outcome, Space, SpaceError, SpaceId};
use std::env;
use std::error::Error;
use std::time::Instant;

type Fallible<T> = Result<T, Box<dyn Error>>;

/// So many references come in a call.
const TOGETHER: u64 = 32;

/// The first bytes of a Call, a Dirty and its answer.
const CALL: u8 = 1;
const DIRTY: u8 = 4;
const DIRTY_OK: u8 = 5;

fn main() -> Fallible<()> {
    let words: Vec<String> = env::args().skip(1).collect();
    let [kind, held] = &words[..] else {
        return Err("references dense|alike HELD".into());
    };
    let shift = match kind.as_str() {
        "dense" => 0,
        "alike" => 47,
        _ => return Err("references dense|alike HELD".into()),
    };
    let held = held.parse::<u64>()?;
    let mut space = Space::new(space_id(1), space_id(2), Limits::new(64, 255).ok_or("limits")?)?;
    let mut stranger = Stranger::default();
    let started = Instant::now();
    for first in (1..=held).step_by(TOGETHER as usize) {
        let last = held.min(first + TOGETHER - 1);
        let indexes: Vec<u64> = (first..=last).map(|number| number << shift).collect();
        stranger.call(&mut space, &indexes)?;
    }
    let came = started.elapsed();
    let started = Instant::now();
    let mut gone = 0;
    while let Ok(_reference) = space.clean() {
        gone += 1;
        stranger.answer(&mut space)?;
    }
    if gone != held {
        return Err(format!("{gone} went of {held}").into());
    }
    let each = |taken: std::time::Duration| taken.as_nanos() / u128::from(held);
    println!("{} {}", each(came), each(started.elapsed()));
    Ok(())
}

fn space_id(number: u16) -> SpaceId {
    SpaceId::new(number).expect("1 to 32")
}

/// Space 2, as far as space 1 can tell.
#[derive(Default)]
struct Stranger {
    /// How many items it has sent, and how many it has accepted.
    sent: u64,
    taken: u64,
    calls: u64,
}

impl Stranger {
    /// It calls the agent of a space with references to objects of its own, and sees the call answered.
    fn call(&mut self, space: &mut Space, indexes: &[u64]) -> Fallible<()> {
        self.calls += 1;
        let mut item = vec![CALL];
        item.extend(self.calls.to_be_bytes());
        item.extend([0; 10]);
        item.push(3);
        item.extend((indexes.len() as u16).to_be_bytes());
        for index in indexes {
            item.extend([4, 0, 2]);
            item.extend(index.to_be_bytes());
        }
        self.send(space, &item)?;
        space.act(space_id(2))?;
        self.answer(space)?;
        space.settle()?;
        let job = space.claim()?;
        space.finish(job.job, &Outcome::NoMethod)?;
        self.answer(space)
    }

    /// It takes what the space has for it, and grants what it asks for.
    fn answer(&mut self, space: &mut Space) -> Fallible<()> {
        while let Some(frames) = waiting(space)? {
            for frame in frames {
                if frame.kind() != FrameKind::Data || frame.seq() != self.taken + 1 {
                    continue;
                }
                self.taken += 1;
                let payload = &frame.as_bytes()[32..];
                if payload[0] == DIRTY {
                    let mut granted = payload.to_vec();
                    granted[0] = DIRTY_OK;
                    self.send(space, &granted)?;
                    space.act(space_id(2))?;
                }
            }
            space.arrive(&self.frame(2, 0, &[])?)?;
        }
        Ok(())
    }

    /// It sends an item.
    fn send(&mut self, space: &mut Space, item: &[u8]) -> Fallible<()> {
        self.sent += 1;
        let frame = self.frame(1, self.sent, item)?;
        space.arrive(&frame)?;
        Ok(())
    }

    /// A frame of its own, with what it has accepted.
    fn frame(&self, kind: u8, seq: u64, payload: &[u8]) -> Fallible<Frame> {
        let mut bytes = vec![0x4e, 2, kind, 0, 0, 2, 0, 1];
        bytes.extend(seq.to_be_bytes());
        bytes.extend((self.taken + 1).to_be_bytes());
        bytes.extend((payload.len() as u32).to_be_bytes());
        bytes.extend(1_u32.to_be_bytes());
        bytes.extend(payload);
        Ok(Frame::from_bytes(bytes)?)
    }
}

/// The frames that a space has for space 2 with items, if it has some.
fn waiting(space: &mut Space) -> Result<Option<Vec<Frame>>, SpaceError> {
    if !space.work().send(space_id(2)) {
        return Ok(None);
    }
    Ok(Some(space.transmit(space_id(2))?.iter().collect()))
}
