//! A network that is made up: a pipe each way between two nodes, that keeps the order of bytes and is
//! cut wherever a deed says.

use std::collections::HashMap;

/// So much is on its way from one node to another at most.
const CAPACITY: usize = 1 << 16;

#[derive(Debug, Default)]
pub struct Pipe {
    bytes: std::collections::VecDeque<u8>,
}

/// The connections between nodes, by their numbers from 0 on.
#[derive(Debug, Default)]
pub struct Net {
    pipes: HashMap<(usize, usize), Pipe>,
}

impl Net {
    /// Whether a node has a connection to another, as far as it knows.
    pub fn is_up(&self, from: usize, to: usize) -> bool {
        self.pipes.contains_key(&(from, to))
    }

    pub fn connect(&mut self, one: usize, other: usize) {
        self.pipes.insert((one, other), Pipe::default());
        self.pipes.insert((other, one), Pipe::default());
    }

    /// A node's end of its connection goes, with all that is on its way to the other.
    pub fn cut(&mut self, from: usize, to: usize) {
        self.pipes.remove(&(from, to));
    }

    /// Writes some bytes: how many were taken. Bytes to a node that knows of no connection vanish.
    pub fn write(&mut self, from: usize, to: usize, bytes: &[u8]) -> usize {
        let is_heard = self.is_up(to, from);
        let Some(pipe) = self.pipes.get_mut(&(from, to)) else { return 0 };
        let count = bytes.len().min(CAPACITY - pipe.bytes.len());
        if is_heard {
            pipe.bytes.extend(&bytes[..count]);
        }
        count
    }

    /// Some bytes that came.
    pub fn read(&mut self, from: usize, to: usize, count: usize) -> Vec<u8> {
        let pipe = self.pipes.get_mut(&(from, to));
        pipe.map_or(Vec::new(), |pipe| pipe.bytes.drain(..count.min(pipe.bytes.len())).collect())
    }

    /// Changes a byte that is on its way, which no network here does but to show that it is seen.
    pub fn spoil(&mut self, from: usize, to: usize) {
        if let Some(byte) = self.pipes.get_mut(&(from, to)).and_then(|pipe| pipe.bytes.back_mut()) {
            *byte ^= 0x40;
        }
    }

    /// Whether nothing is on its way between the first so many nodes.
    pub fn is_quiet(&self, count: usize) -> bool {
        let mut between = self.pipes.iter().filter(|((one, other), _)| *one.max(other) < count);
        between.all(|(_, pipe)| pipe.bytes.is_empty())
    }
}
