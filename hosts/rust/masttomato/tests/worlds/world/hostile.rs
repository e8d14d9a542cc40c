//! A member of a world that misbehaves: it has an engine like the others, and does more than that has it do.

use super::{World, space};
use crate::deeds::Numbers;
use crate::misdeeds::{Aim, MISDEEDS, Misdeed, bytes_of};
use std::collections::HashMap;
use std::time::Duration;

/// The last of the nodes.
#[derive(Debug)]
pub struct Hostile {
    pub place: usize,
    /// Whether it reads nothing.
    pub is_deaf: bool,
    /// Whether nothing of its engine's is sent.
    pub is_mute: bool,
    /// The last record that it sent to each.
    pub said: HashMap<usize, Vec<u8>>,
    pub done: HashMap<Misdeed, u64>,
}

impl Hostile {
    pub fn new(place: usize) -> Hostile {
        Hostile {
            place,
            is_deaf: false,
            is_mute: false,
            said: HashMap::new(),
            done: HashMap::new(),
        }
    }
}

impl World {
    pub fn is_hostile(&self, place: usize) -> bool {
        self.hostile.as_ref().is_some_and(|hostile| hostile.place == place)
    }

    pub fn is_deaf(&self, place: usize) -> bool {
        self.hostile.as_ref().is_some_and(|hostile| hostile.place == place && hostile.is_deaf)
    }

    pub fn is_mute(&self, place: usize) -> bool {
        self.hostile.as_ref().is_some_and(|hostile| hostile.place == place && hostile.is_mute)
    }

    /// How many of the nodes are honest.
    pub fn honest(&self) -> usize {
        self.nodes.len() - usize::from(self.hostile.is_some())
    }

    /// How often each misdeed was done.
    pub fn misdeeds(&self) -> HashMap<Misdeed, u64> {
        self.hostile.as_ref().map_or_else(HashMap::new, |hostile| hostile.done.clone())
    }

    // The hostile node does something to one of the others, if it is connected.
    pub(super) fn misbehave(&mut self, with: usize, how: usize) {
        let Some(Hostile { place, .. }) = self.hostile else { return };
        let other = with % self.honest();
        if !how.is_multiple_of(4) {
            self.connect(place, other);
        }
        if !self.net.is_up(place, other) || !self.net.is_up(other, place) {
            return;
        }
        let mut numbers = Numbers::new((with as u64) << 16 | how as u64);
        let misdeed = MISDEEDS[numbers.below(MISDEEDS.len() as u64) as usize];
        // What is written in part stands in front of it, unless that isn't sent any more.
        self.write(place, usize::MAX);
        self.carry(place, other, usize::MAX);
        let aim = self.aim(place, other);
        let mut bytes = bytes_of(misdeed, &aim, &mut numbers);
        if let Some(hostile) = &mut self.hostile {
            *hostile.done.entry(misdeed).or_default() += 1;
            match misdeed {
                Misdeed::IsSilent | Misdeed::NeverAcknowledges => hostile.is_mute = true,
                Misdeed::ReadsNothing => hostile.is_deaf = true,
                Misdeed::Behaves => (hostile.is_deaf, hostile.is_mute) = (false, false),
                Misdeed::Repeats => bytes = hostile.said.get(&other).cloned().unwrap_or_default(),
                _ => {}
            }
        }
        self.hear(place, other, &bytes, misdeed == Misdeed::SendsBytes, &mut numbers);
    }

    fn aim(&self, place: usize, other: usize) -> Aim {
        let third = (other + 1) % self.honest();
        let node = &self.nodes[other];
        let report = node.engine.report(node.now);
        let session = report.sessions.iter().find(|session| session.peer == space(place));
        let (session, acted, waiting) = session.map_or((1, 0, 0), |session| {
            (session.tally.session, session.tally.acted, session.of_space.inbox)
        });
        Aim {
            from: space(place).get(),
            to: space(other).get(),
            third: space(third).get(),
            made: self.nodes[third].exported,
            session,
            next: acted + waiting + 1,
        }
    }

    // The bytes come in pieces; or one a second, and perhaps not all of them.
    fn hear(
        &mut self,
        place: usize,
        other: usize,
        bytes: &[u8],
        is_slow: bool,
        numbers: &mut Numbers,
    ) {
        let (size, count) = match is_slow {
            true => (1, 1 + numbers.below(bytes.len() as u64) as usize),
            false => (1 + numbers.below(3_000) as usize, usize::MAX),
        };
        for piece in bytes.chunks(size).take(count) {
            if is_slow {
                self.nodes[other].now += Duration::from_secs(1);
            }
            let node = &mut self.nodes[other];
            if node.engine.bytes(space(place), piece, node.now).is_err() {
                return self.break_off(other, place, true);
            }
        }
    }

    /// The honest ones have nothing to do with it any more: their sessions close.
    pub(super) fn cast_out(&mut self) {
        let Some(Hostile { place, .. }) = self.hostile else { return };
        for other in 0..self.honest() {
            self.break_off(place, other, true);
            self.nodes[other].engine.close(space(place));
        }
    }
}
