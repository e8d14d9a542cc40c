//! What is to befall a world, as its seed says and nothing else does: which faults come to connections, and when; which strangers
//! come; which connections go astray; how long each process lives, and how it ends. The next one of a kind is the same however
//! fast the ones before it went. To whom it comes depends on who is there then.

use crate::Numbers;
use crate::weather::Fault;
use std::time::Duration;

/// What is to befall a world.
#[derive(Clone, Copy, Debug)]
pub struct Plan {
    seed: u64,
}

/// What befalls a connection, so long after the one before.
#[derive(Debug, PartialEq, Eq)]
pub struct Blow {
    pub after: Duration,
    /// Which of those that are there, from any number on.
    pub which: u64,
    pub fault: Fault,
}

/// How a connection to a place goes.
#[derive(Debug, PartialEq, Eq)]
pub struct Passage {
    /// It comes to whoever lives elsewhere: which of them, from any number on.
    pub astray: Option<u64>,
    /// What befalls it from its first byte on, if anything does.
    pub begins: Option<Fault>,
    /// The seeds of its two ways.
    pub ways: [u64; 2],
}

/// What a process does and what befalls it.
#[derive(Debug, PartialEq, Eq)]
pub struct Fate {
    /// The seed of what it does.
    pub seed: u64,
    /// Which number it has, of those that come back, from any number on; or one that none had.
    pub reborn: Option<u64>,
    pub lasts: Duration,
    /// When it is stopped where it is, and for how long.
    pauses: Vec<(Duration, Duration)>,
    /// It is killed in the end, and not told to end.
    pub is_killed: bool,
}

impl Fate {
    /// Whether it is stopped so long after it began.
    pub fn is_paused(&self, age: Duration) -> bool {
        self.pauses.iter().any(|(from, time)| (*from..*from + *time).contains(&age))
    }
}

/// Of what a plan has many.
#[derive(Clone, Copy)]
enum Kind {
    Blow,
    Stranger,
    Passage(u16),
    Fate,
}

impl Plan {
    /// That of a seed.
    pub fn new(seed: u64) -> Plan {
        Plan { seed }
    }

    // The numbers that say what the so-many-th of a kind is.
    fn numbers(self, kind: Kind, place: u64) -> Numbers {
        let kind = match kind {
            Kind::Blow => 1,
            Kind::Stranger => 2,
            Kind::Fate => 3,
            Kind::Passage(to) => 4 + u64::from(to),
        };
        let mixed = [self.seed, kind, place].iter().fold(0_u64, |mixed, word| {
            (mixed ^ word).wrapping_add(1).wrapping_mul(0x9e37_79b9_7f4a_7c15).rotate_left(29)
        });
        Numbers::new(mixed)
    }

    /// The so-many-th fault of a connection.
    pub fn blow(self, place: u64) -> Blow {
        let mut numbers = self.numbers(Kind::Blow, place);
        let after = Duration::from_millis(5 + numbers.below(250));
        Blow { after, which: numbers.below(1 << 32), fault: Fault::any(&mut numbers) }
    }

    /// How long after the one before the so-many-th stranger comes, to which of those that are there, from any number
    /// on, and the numbers by which it says what it says.
    pub fn stranger(self, place: u64) -> (Duration, u64, Numbers) {
        let mut numbers = self.numbers(Kind::Stranger, place);
        let after = Duration::from_millis(20 + numbers.below(300));
        (after, numbers.below(1 << 32), numbers)
    }

    /// How the so-many-th connection to a place goes.
    pub fn passage(self, to: u16, place: u64) -> Passage {
        let mut numbers = self.numbers(Kind::Passage(to), place);
        let astray = (numbers.below(15) == 0).then(|| numbers.below(1 << 32));
        let begins = (numbers.below(4) == 0).then(|| Fault::early(&mut numbers));
        Passage { astray, begins, ways: [numbers.below(1 << 40), numbers.below(1 << 40)] }
    }

    /// What befalls the so-many-th process.
    pub fn fate(self, place: u64) -> Fate {
        let mut numbers = self.numbers(Kind::Fate, place);
        // Some hardly begin.
        let least_and_more = if numbers.below(6) == 0 { (0, 250) } else { (200, 6_000) };
        let lasts = Duration::from_millis(least_and_more.0 + numbers.below(least_and_more.1));
        let pauses = (0..numbers.below(4)).map(|_| any_pause(&mut numbers)).collect();
        let reborn = (numbers.below(3) != 0).then(|| numbers.below(1 << 32));
        let is_killed = numbers.below(4) != 0;
        Fate { seed: numbers.below(1 << 40), reborn, lasts, pauses, is_killed }
    }
}

// When a process is stopped, and for how long: now and then for longer than a session without progress lasts.
fn any_pause(numbers: &mut Numbers) -> (Duration, Duration) {
    let longest = if numbers.below(4) == 0 { 4_000 } else { 600 };
    let [from, time] = [numbers.below(6_000), 20 + numbers.below(longest)];
    (Duration::from_millis(from), Duration::from_millis(time))
}

#[test]
fn a_seed_says_all_that_is_to_befall_a_world() {
    let all = |seed: u64| {
        let plan = Plan::new(seed);
        let strangers = (0..50).map(|place| {
            let (after, which, mut numbers) = plan.stranger(place);
            (after, which, numbers.below(1 << 32))
        });
        let passages = (0..50).map(|place| plan.passage(3, place));
        let blows: Vec<Blow> = (0..400).map(|place| plan.blow(place)).collect();
        let fates: Vec<Fate> = (0..50).map(|place| plan.fate(place)).collect();
        (blows, fates, strangers.collect::<Vec<_>>(), passages.collect::<Vec<_>>())
    };
    let (blows, fates, _, passages) = all(7);
    assert_eq!(all(7), all(7));
    assert_ne!(blows, all(8).0);
    assert_ne!(fates, all(8).1);
    // Each kind of fault is among them.
    let kind_of = |blow: &Blow| std::mem::discriminant(&blow.fault);
    let kinds: std::collections::HashSet<_> = blows.iter().map(kind_of).collect();
    assert_eq!(kinds.len(), 8, "{blows:?}");
    assert!(passages.iter().any(|passage| passage.astray.is_some()));
    assert!(passages.iter().any(|passage| passage.begins.is_some()));
    let is_told = |fate: &&Fate| !fate.is_killed;
    assert!((5..45).contains(&fates.iter().filter(is_told).count()), "{fates:?}");
    assert!(fates.iter().any(|fate| !fate.pauses.is_empty() && fate.reborn.is_some()));
}
