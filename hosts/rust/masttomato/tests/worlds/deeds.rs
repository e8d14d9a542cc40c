//! What is done in a world of tests: a script, a line a deed.

use std::fmt;

/// A deed's kind. What its three numbers say depends on it and on what is there: each is taken modulo
/// what there is to choose from, so that every deed can be done in every world.
#[derive(Clone, Copy, Debug, PartialEq, Eq)]
pub enum Kind {
    /// A node makes an object.
    Export,
    /// A node calls something that it holds, or an agent, with some of what it holds.
    Call,
    /// A node gives back something that it holds.
    Drop,
    /// A node ends a job, and keeps some of what it was passed.
    Finish,
    /// A node waits no more for a call.
    Abandon,
    /// A node does what there is to do, and some bytes of its outputs are written.
    Turn,
    /// Some bytes on their way come to a node.
    Carry,
    /// A connection breaks, of which one side or both learn at once.
    Break,
    /// Two nodes are connected.
    Connect,
    /// A node, or both of two, open the session that has closed there anew, after they gave back what is lost.
    Open,
    /// A node's clock goes on: a little, or by hours.
    Pass,
    /// The node that misbehaves, where there is one, does something that no honest one does.
    Misbehave,
}

// How often each is, among so many; the last one only where a node misbehaves.
const KINDS: [(Kind, &str, u64); 12] = [
    (Kind::Export, "export", 4),
    (Kind::Call, "call", 14),
    (Kind::Drop, "drop", 8),
    (Kind::Finish, "finish", 12),
    (Kind::Abandon, "abandon", 2),
    (Kind::Turn, "turn", 24),
    (Kind::Carry, "carry", 26),
    (Kind::Break, "break", 3),
    (Kind::Connect, "connect", 5),
    (Kind::Open, "open", 4),
    (Kind::Pass, "pass", 6),
    (Kind::Misbehave, "misbehave", 16),
];

/// A deed.
#[derive(Clone, Copy, Debug, PartialEq, Eq)]
pub struct Deed {
    pub kind: Kind,
    pub node: u16,
    pub with: u16,
    pub how: u16,
}

impl fmt::Display for Deed {
    fn fmt(&self, f: &mut fmt::Formatter<'_>) -> fmt::Result {
        let name =
            KINDS.iter().find(|(kind, ..)| *kind == self.kind).map_or("", |(_, name, _)| name);
        write!(f, "{name} {} {} {}", self.node, self.with, self.how)
    }
}

/// A script: how many nodes there are, how soon they give up in seconds, whether the last one misbehaves, and what is done.
#[derive(Clone, Debug, PartialEq, Eq)]
pub struct Script {
    pub nodes: u16,
    pub give_up: u64,
    pub is_hostile: bool,
    pub deeds: Vec<Deed>,
}

impl fmt::Display for Script {
    fn fmt(&self, f: &mut fmt::Formatter<'_>) -> fmt::Result {
        let hostile = if self.is_hostile { " hostile" } else { "" };
        writeln!(f, "nodes {} give up {}{hostile}", self.nodes, self.give_up)?;
        self.deeds.iter().try_for_each(|deed| writeln!(f, "{deed}"))
    }
}

impl Script {
    /// The script of a seed.
    pub fn of_seed(seed: u64) -> Script {
        let mut numbers = Numbers::new(seed);
        let nodes = 2 + numbers.below(3) as u16;
        let give_up = if numbers.below(3) == 0 { 2 } else { 600 };
        let count = 40 + numbers.below(120);
        let deeds = (0..count).map(|_| numbers.deed(false)).collect();
        Script { nodes, give_up, is_hostile: false, deeds }
    }

    /// The script of a seed in which the last of three or four nodes misbehaves.
    pub fn with_hostile(seed: u64) -> Script {
        let mut numbers = Numbers::new(seed);
        let nodes = 3 + numbers.below(2) as u16;
        let give_up = if numbers.below(3) == 0 { 2 } else { 600 };
        let count = 40 + numbers.below(120);
        let deeds = (0..count).map(|_| numbers.deed(true)).collect();
        Script { nodes, give_up, is_hostile: true, deeds }
    }

    /// The script that a text spells.
    pub fn read(text: &str) -> Option<Script> {
        let mut lines = text.lines();
        let words: Vec<&str> = lines.next()?.split(' ').collect();
        let (nodes, give_up, is_hostile) = match words[..] {
            ["nodes", nodes, "give", "up", give_up] => (nodes, give_up, false),
            ["nodes", nodes, "give", "up", give_up, "hostile"] => (nodes, give_up, true),
            _ => return None,
        };
        let deeds = lines.map(|line| {
            let words: Vec<&str> = line.split(' ').collect();
            let [name, node, with, how] = words[..] else { return None };
            let (kind, ..) = KINDS.iter().find(|(_, known, _)| *known == name)?;
            let number = |text: &str| text.parse().ok();
            Some(Deed { kind: *kind, node: number(node)?, with: number(with)?, how: number(how)? })
        });
        let (nodes, give_up) = (nodes.parse().ok()?, give_up.parse().ok()?);
        Some(Script { nodes, give_up, is_hostile, deeds: deeds.collect::<Option<_>>()? })
    }

    /// A shorter script that fails too, from which no deed can be left out.
    pub fn shrink(mut self, fails: impl Fn(&Script) -> bool) -> Script {
        let mut size = self.deeds.len().div_ceil(2);
        while size > 0 {
            let mut place = 0;
            let mut got_shorter = false;
            while place < self.deeds.len() {
                let mut shorter = self.clone();
                shorter.deeds.drain(place..(place + size).min(self.deeds.len()));
                if fails(&shorter) {
                    (self, got_shorter) = (shorter, true);
                } else {
                    place += size;
                }
            }
            if size > 1 || !got_shorter {
                size /= 2;
            }
        }
        self
    }
}

/// Numbers from a seed.
pub struct Numbers(u64);

impl Numbers {
    pub fn new(seed: u64) -> Numbers {
        Numbers(seed.wrapping_mul(0x9e37_79b9_7f4a_7c15) | 1)
    }

    pub fn below(&mut self, bound: u64) -> u64 {
        self.0 ^= self.0 << 13;
        self.0 ^= self.0 >> 7;
        self.0 ^= self.0 << 17;
        (self.0 >> 11) % bound
    }

    fn deed(&mut self, is_hostile: bool) -> Deed {
        let kinds = &KINDS[..KINDS.len() - usize::from(!is_hostile)];
        let total: u64 = kinds.iter().map(|(.., weight)| weight).sum();
        let mut left = self.below(total);
        let kind = kinds.iter().find(|(.., weight)| {
            let is_it = left < *weight;
            left = left.wrapping_sub(*weight);
            is_it
        });
        let number = |numbers: &mut Numbers| numbers.below(1 << 16) as u16;
        let kind = kind.map_or(Kind::Turn, |(kind, ..)| *kind);
        Deed { kind, node: number(self), with: number(self), how: number(self) }
    }
}
