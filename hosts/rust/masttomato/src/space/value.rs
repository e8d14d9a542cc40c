//! Values, and the bytes that spell them.

use super::hex::Hex;
use super::names::{Reference, SpaceId};
use std::fmt;

/// More bytes are in no pickle.
const MOST_IN_ALL: usize = 16_000;
/// More bytes are in no one value.
const MOST_BYTES: usize = 8_192;
/// More elements are in no list.
const MOST_ELEMENTS: usize = 256;
/// More references are in no pickle.
const MOST_REFERENCES: usize = 32;
/// The outermost value has depth 1, and none is deeper than this.
const MOST_LEVELS: usize = 16;

/// What a call carries, and what a reply brings. Its text is `u`, `i-5`, `b00ff`, `r1.2`, or a list
/// of such in brackets, parted by commas.
///
/// ```
/// use masttomato::space::{SpaceId, Value};
///
/// # fn main() -> Result<(), Box<dyn std::error::Error>> {
/// let agent = SpaceId::try_from(2)?.agent();
/// let value = Value::from(vec![Value::from(-5), Value::from(&[0, 255][..]), Value::from(agent)]);
/// assert_eq!(value.to_string(), "[i-5,b00ff,r2.0]");
/// assert_eq!("[i-5,b00ff,r2.0]".parse::<Value>()?, value);
/// # Ok(())
/// # }
/// ```
#[derive(Clone, Debug, PartialEq, Eq, Hash)]
pub enum Value {
    /// Nothing.
    Unit,
    /// A whole number.
    Int(i64),
    /// Bytes, whatever they mean.
    Bytes(Vec<u8>),
    /// Values, in order.
    List(Vec<Value>),
    /// A reference.
    Ref(Reference),
}

/// Why a value has no pickle, or why bytes are none.
///
/// ```
/// # use masttomato::space::{PickleFault, Value};
/// assert_eq!(Value::Bytes(vec![0; 8_193]).encode(), Err(PickleFault::Bytes));
/// assert_eq!(PickleFault::Bytes.to_string(), "P3: more than 8192 bytes in one value");
/// ```
#[derive(Clone, Copy, Debug, PartialEq, Eq, Hash)]
#[non_exhaustive]
pub enum PickleFault {
    /// P1: the bytes end inside a value.
    Short,
    /// P2: a first byte that no value has.
    Tag,
    /// P3: more than 8,192 bytes in one value.
    Bytes,
    /// P4: more than 256 elements in one list.
    Count,
    /// P5: more than 16 levels.
    Depth,
    /// P6: bytes stand after the value.
    Trailing,
    /// P7: a reference whose owner is no space.
    Space,
    /// P8: more than 16,000 bytes in all, or more than 32 references.
    TooBig,
}

impl PickleFault {
    /// All faults, P1 to P8.
    ///
    /// ```
    /// # use masttomato::space::*;
    /// assert!(PickleFault::ALL.iter().zip(1..).all(|(fault, n)| fault.to_string().starts_with(&format!("P{n}:"))));
    /// ```
    pub const ALL: [PickleFault; 8] = [
        PickleFault::Short,
        PickleFault::Tag,
        PickleFault::Bytes,
        PickleFault::Count,
        PickleFault::Depth,
        PickleFault::Trailing,
        PickleFault::Space,
        PickleFault::TooBig,
    ];
}

impl fmt::Display for PickleFault {
    fn fmt(&self, f: &mut fmt::Formatter<'_>) -> fmt::Result {
        f.write_str(match self {
            PickleFault::Short => "P1: the input ends inside a value",
            PickleFault::Tag => "P2: no value begins so",
            PickleFault::Bytes => "P3: more than 8192 bytes in one value",
            PickleFault::Count => "P4: more than 256 elements in one list",
            PickleFault::Depth => "P5: more than 16 levels",
            PickleFault::Trailing => "P6: bytes after the value",
            PickleFault::Space => "P7: the owner is no space",
            PickleFault::TooBig => "P8: more than 16000 bytes or 32 references",
        })
    }
}

impl std::error::Error for PickleFault {}

impl From<()> for Value {
    fn from((): ()) -> Value {
        Value::Unit
    }
}

impl From<i64> for Value {
    fn from(number: i64) -> Value {
        Value::Int(number)
    }
}

impl From<Vec<u8>> for Value {
    fn from(bytes: Vec<u8>) -> Value {
        Value::Bytes(bytes)
    }
}

impl From<&[u8]> for Value {
    fn from(bytes: &[u8]) -> Value {
        Value::Bytes(bytes.to_vec())
    }
}

impl From<Vec<Value>> for Value {
    fn from(values: Vec<Value>) -> Value {
        Value::List(values)
    }
}

impl From<Reference> for Value {
    fn from(reference: Reference) -> Value {
        Value::Ref(reference)
    }
}

impl Value {
    /// The value's pickle.
    ///
    /// ```
    /// # use masttomato::space::Value;
    /// let pickle = Value::Int(5).encode()?;
    /// assert_eq!(pickle, [1, 0, 0, 0, 0, 0, 0, 0, 5]);
    /// assert_eq!(Value::decode(&pickle)?, Value::Int(5));
    /// # Ok::<(), masttomato::space::PickleFault>(())
    /// ```
    ///
    /// # Errors
    /// The first fault in writing order; but that it would be too long comes before all others.
    pub fn encode(&self) -> Result<Vec<u8>, PickleFault> {
        let length = self.add_length(0).ok_or(PickleFault::TooBig)?;
        self.put_in(Vec::with_capacity(length))
    }

    /// The same in place of what these bytes were.
    pub(super) fn encode_in(&self, mut room: Vec<u8>) -> Result<Vec<u8>, PickleFault> {
        self.add_length(0).ok_or(PickleFault::TooBig)?;
        room.clear();
        self.put_in(room)
    }

    fn put_in(&self, bytes: Vec<u8>) -> Result<Vec<u8>, PickleFault> {
        let mut pickle = Writer { bytes, references: 0 };
        pickle.put(self, 1)?;
        Ok(pickle.bytes)
    }

    /// The value that all of these bytes spell.
    ///
    /// ```
    /// # use masttomato::space::*;
    /// assert_eq!(Value::decode(&[0]), Ok(Value::Unit));
    /// assert_eq!(Value::decode(&[1, 0, 0]), Err(PickleFault::Short));
    /// assert_eq!(Value::decode(&[0, 9]), Err(PickleFault::Trailing));
    /// ```
    ///
    /// # Errors
    /// The first fault from the front.
    pub fn decode(pickle: &[u8]) -> Result<Value, PickleFault> {
        if pickle.len() > MOST_IN_ALL {
            return Err(PickleFault::TooBig);
        }
        let mut reader = Reader { left: pickle, references: 0 };
        let value = reader.take_value(1)?;
        if !reader.left.is_empty() {
            return Err(PickleFault::Trailing);
        }
        Ok(value)
    }

    /// The counted references in the value, in reading order, repeats included.
    ///
    /// ```
    /// # use masttomato::space::Value;
    /// let value: Value = "[r1.2,[r1.2,r1.0],u]".parse()?;
    /// assert_eq!(value.references().len(), 2);     // 1.0 is an agent's, which isn't counted
    /// # Ok::<(), masttomato::space::NoText>(())
    /// ```
    pub fn references(&self) -> Vec<Reference> {
        let mut found = Vec::new();
        self.add_references(&mut found);
        found
    }

    /// Whether its spelling has more bytes than a pickle may have. It looks no further than that.
    #[cfg(feature = "node")]
    pub(crate) fn is_too_long(&self) -> bool {
        self.add_length(0).is_none()
    }

    fn add_references(&self, found: &mut Vec<Reference>) {
        match self {
            Value::Ref(reference) if reference.is_counted() => found.push(*reference),
            Value::List(values) => values.iter().for_each(|value| value.add_references(found)),
            _ => {}
        }
    }

    // How long the spelling is behind so many bytes: `None` where it is too long. It goes no deeper
    // than a pickle could, since each level takes bytes.
    fn add_length(&self, before: usize) -> Option<usize> {
        let own = match self {
            Value::Unit => 1,
            Value::Int(_) => 9,
            Value::Bytes(bytes) => bytes.len().checked_add(5)?,
            Value::List(_) => 3,
            Value::Ref(_) => 11,
        };
        let length = before.checked_add(own).filter(|length| *length <= MOST_IN_ALL)?;
        match self {
            Value::List(values) => {
                values.iter().try_fold(length, |length, value| value.add_length(length))
            }
            _ => Some(length),
        }
    }
}

impl fmt::Display for Value {
    fn fmt(&self, f: &mut fmt::Formatter<'_>) -> fmt::Result {
        match self {
            Value::Unit => f.write_str("u"),
            Value::Int(number) => write!(f, "i{number}"),
            Value::Bytes(bytes) => write!(f, "b{}", Hex(bytes)),
            Value::Ref(reference) => write!(f, "r{reference}"),
            Value::List(values) => {
                f.write_str("[")?;
                for (place, value) in values.iter().enumerate() {
                    let comma = if place == 0 { "" } else { "," };
                    write!(f, "{comma}{value}")?;
                }
                f.write_str("]")
            }
        }
    }
}

struct Writer {
    bytes: Vec<u8>,
    references: usize,
}

impl Writer {
    fn put(&mut self, value: &Value, depth: usize) -> Result<(), PickleFault> {
        if depth > MOST_LEVELS {
            return Err(PickleFault::Depth);
        }
        match value {
            Value::Unit => self.bytes.push(0),
            Value::Int(number) => {
                self.bytes.push(1);
                self.bytes.extend(number.to_be_bytes());
            }
            Value::Bytes(bytes) => self.put_bytes(bytes)?,
            Value::List(values) => self.put_list(values, depth)?,
            Value::Ref(reference) => self.put_reference(*reference)?,
        }
        Ok(())
    }

    fn put_bytes(&mut self, bytes: &[u8]) -> Result<(), PickleFault> {
        if bytes.len() > MOST_BYTES {
            return Err(PickleFault::Bytes);
        }
        self.bytes.push(2);
        self.bytes.extend((bytes.len() as u32).to_be_bytes());
        self.bytes.extend(bytes);
        Ok(())
    }

    fn put_list(&mut self, values: &[Value], depth: usize) -> Result<(), PickleFault> {
        if values.len() > MOST_ELEMENTS {
            return Err(PickleFault::Count);
        }
        self.bytes.push(3);
        self.bytes.extend((values.len() as u16).to_be_bytes());
        values.iter().try_for_each(|value| self.put(value, depth + 1))
    }

    fn put_reference(&mut self, reference: Reference) -> Result<(), PickleFault> {
        if self.references == MOST_REFERENCES {
            return Err(PickleFault::TooBig);
        }
        self.references += 1;
        self.bytes.push(4);
        self.bytes.extend(reference.owner.get().to_be_bytes());
        self.bytes.extend(reference.index.to_be_bytes());
        Ok(())
    }
}

struct Reader<'a> {
    left: &'a [u8],
    references: usize,
}

impl Reader<'_> {
    fn take<const N: usize>(&mut self) -> Result<[u8; N], PickleFault> {
        let (bytes, left) = self.left.split_first_chunk().ok_or(PickleFault::Short)?;
        self.left = left;
        Ok(*bytes)
    }

    fn take_value(&mut self, depth: usize) -> Result<Value, PickleFault> {
        if depth > MOST_LEVELS {
            return Err(PickleFault::Depth);
        }
        let [tag] = self.take()?;
        match tag {
            0 => Ok(Value::Unit),
            1 => Ok(Value::Int(i64::from_be_bytes(self.take()?))),
            2 => self.take_bytes(),
            3 => self.take_list(depth),
            4 => self.take_reference(),
            _ => Err(PickleFault::Tag),
        }
    }

    fn take_bytes(&mut self) -> Result<Value, PickleFault> {
        let length = u32::from_be_bytes(self.take()?) as usize;
        if length > MOST_BYTES {
            return Err(PickleFault::Bytes);
        }
        let (bytes, left) = self.left.split_at_checked(length).ok_or(PickleFault::Short)?;
        self.left = left;
        Ok(Value::Bytes(bytes.to_vec()))
    }

    fn take_list(&mut self, depth: usize) -> Result<Value, PickleFault> {
        let count = u16::from_be_bytes(self.take()?) as usize;
        if count > MOST_ELEMENTS {
            return Err(PickleFault::Count);
        }
        (0..count).map(|_| self.take_value(depth + 1)).collect::<Result<_, _>>().map(Value::List)
    }

    fn take_reference(&mut self) -> Result<Value, PickleFault> {
        let bytes: [u8; 10] = self.take()?;
        let [high, low, index @ ..] = bytes;
        let owner = SpaceId::new(u16::from_be_bytes([high, low])).ok_or(PickleFault::Space)?;
        if self.references == MOST_REFERENCES {
            return Err(PickleFault::TooBig);
        }
        self.references += 1;
        Ok(Value::Ref(Reference { owner, index: u64::from_be_bytes(index) }))
    }
}
