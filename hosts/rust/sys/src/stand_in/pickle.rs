//! Pickles, judged: which references they have, or their first fault.

use super::Reference;

const MOST_IN_ALL: usize = 16_000;
const MOST_BYTES: usize = 8_192;
const MOST_ELEMENTS: usize = 256;
const MOST_REFERENCES: usize = 32;
const MOST_LEVELS: usize = 16;

/// The pickle of unit.
pub(super) const UNIT: &[u8] = &[0];

/// A value's bytes with its counted references, in reading order, repeats included, and how many
/// references it has in all: agents' aren't counted.
#[derive(Clone, Debug)]
pub(super) struct Pickle {
    pub(super) bytes: Vec<u8>,
    pub(super) references: Vec<Reference>,
    pub(super) count: u32,
}

impl Pickle {
    pub(super) fn unit() -> Pickle {
        Pickle { bytes: UNIT.to_vec(), references: Vec::new(), count: 0 }
    }

    /// The pickle that all of these bytes are, or the number of its first fault, 1 to 8.
    pub(super) fn judge(bytes: &[u8]) -> Result<Pickle, u32> {
        if bytes.len() > MOST_IN_ALL {
            return Err(8);
        }
        let mut reader = Reader { left: bytes, count: 0, counted: Vec::new() };
        reader.value(1)?;
        if !reader.left.is_empty() {
            return Err(6);
        }
        let count = reader.count as u32;
        Ok(Pickle { bytes: bytes.to_vec(), references: reader.counted, count })
    }
}

struct Reader<'a> {
    left: &'a [u8],
    count: usize,
    counted: Vec<Reference>,
}

impl Reader<'_> {
    fn take<const N: usize>(&mut self) -> Result<[u8; N], u32> {
        let (front, left) = self.left.split_first_chunk().ok_or(1_u32)?;
        self.left = left;
        Ok(*front)
    }

    fn value(&mut self, depth: usize) -> Result<(), u32> {
        if depth > MOST_LEVELS {
            return Err(5);
        }
        match self.take()? {
            [0] => Ok(()),
            [1] => self.take::<8>().map(drop),
            [2] => self.bytes(),
            [3] => self.list(depth),
            [4] => self.reference(),
            _ => Err(2),
        }
    }

    fn bytes(&mut self) -> Result<(), u32> {
        let length = u32::from_be_bytes(self.take()?) as usize;
        if length > MOST_BYTES {
            return Err(3);
        }
        self.left = self.left.get(length..).ok_or(1_u32)?;
        Ok(())
    }

    fn list(&mut self, depth: usize) -> Result<(), u32> {
        let count = u16::from_be_bytes(self.take()?) as usize;
        if count > MOST_ELEMENTS {
            return Err(4);
        }
        (0..count).try_for_each(|_| self.value(depth + 1))
    }

    fn reference(&mut self) -> Result<(), u32> {
        let [high, low, index @ ..] = self.take::<10>()?;
        let owner = u16::from_be_bytes([high, low]);
        if !(1..=32).contains(&owner) {
            return Err(7);
        }
        if self.count == MOST_REFERENCES {
            return Err(8);
        }
        self.count += 1;
        let index = u64::from_be_bytes(index);
        if index != 0 {
            self.counted.push(Reference { owner, index });
        }
        Ok(())
    }
}
