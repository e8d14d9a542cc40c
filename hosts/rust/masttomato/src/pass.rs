//! What the methods of an interface take and answer.

use crate::node::{Hold, Remote, Shared};
use crate::space::{Reference, Value};
use std::fmt;
use std::sync::Arc;

/// More bytes stand in no one value; longer ones go in pieces.
const PIECE: usize = 8_192;

/// A value that isn't one of the type that is wanted: see [`Pass`].
///
/// ```
/// # use masttomato::NotPassed;
/// assert_eq!(NotPassed.to_string(), "the value isn't of the type that is wanted");
/// ```
#[derive(Clone, Copy, Debug, PartialEq, Eq, Hash)]
pub struct NotPassed;

impl fmt::Display for NotPassed {
    fn fmt(&self, f: &mut fmt::Formatter<'_>) -> fmt::Result {
        f.write_str("the value isn't of the type that is wanted")
    }
}

impl std::error::Error for NotPassed {}

/// Keeps the references that are in what is passed until it has gone: see [`Pass`].
///
/// ```
/// # use masttomato::{Packer, Pass, Value};
/// assert_eq!(7_i64.pack(&mut Packer::default()), Value::Int(7));
/// ```
#[derive(Debug, Default)]
pub struct Packer {
    pub(crate) holds: Vec<Arc<Hold>>,
}

/// Knows the references that are in what came: see [`Pass`].
///
/// ```
/// use masttomato::{NotPassed, Packer, Pass, Unpacker, Value};
///
/// /// A number that isn't 0.
/// struct Count(u32);
///
/// impl Pass for Count {
///     fn pack(self, packer: &mut Packer) -> Value {
///         self.0.pack(packer)
///     }
///
///     fn unpack(value: Value, unpacker: &Unpacker) -> Result<Count, NotPassed> {
///         match u32::unpack(value, unpacker)? {
///             0 => Err(NotPassed),
///             count => Ok(Count(count)),
///         }
///     }
/// }
/// ```
#[derive(Debug)]
pub struct Unpacker {
    pub(crate) shared: Arc<Shared>,
    pub(crate) holds: Vec<Arc<Hold>>,
}

impl Unpacker {
    fn hold(&self, reference: Reference) -> Result<Arc<Hold>, NotPassed> {
        if !reference.is_counted() {
            return Ok(Hold::uncounted(&self.shared, reference));
        }
        let found = self.holds.iter().find(|hold| hold.reference() == reference);
        found.cloned().ok_or(NotPassed)
    }
}

/// What can be passed to a method, and answered by one: numbers, texts, bytes, lists, options, results,
/// tuples, [`Remote`]s, and the structs and enums that derive it.
///
/// ```
/// use masttomato::Pass;
///
/// #[derive(Pass, Debug, PartialEq)]
/// struct Order {
///     item: String,
///     count: u32,
/// }
///
/// #[derive(Pass, Debug, PartialEq)]
/// enum Answer {
///     Sold { at: i64 },
///     SoldOut,
/// }
/// ```
///
/// A type of another crate is passed as one that is `Pass`, by a type of your own around it:
///
/// ```
/// use masttomato::{NotPassed, Packer, Pass, Unpacker, Value};
/// use std::time::Duration;
///
/// struct Time(Duration);
///
/// impl Pass for Time {
///     fn pack(self, packer: &mut Packer) -> Value {
///         (self.0.as_secs(), self.0.subsec_nanos()).pack(packer)
///     }
///
///     fn unpack(value: Value, unpacker: &Unpacker) -> Result<Time, NotPassed> {
///         let (seconds, nanos) = Pass::unpack(value, unpacker)?;
///         if nanos < 1_000_000_000 { Ok(Time(Duration::new(seconds, nanos))) } else { Err(NotPassed) }
///     }
/// }
/// ```
#[diagnostic::on_unimplemented(
    message = "`{Self}` can't be passed to another space",
    label = "an interface's methods take and answer what is `Pass`",
    note = "derive it for a struct or an enum of your own: #[derive(masttomato::Pass)]",
    note = "write String for &str, Vec<T> for &[T], and masttomato::Remote<dyn Trait> for an object"
)]
pub trait Pass: Sized + Send + 'static {
    /// The value that says it, of which the packer keeps the references.
    ///
    /// ```
    /// # use masttomato::{Packer, Pass, Value};
    /// let value = ("tea".to_string(), 3_u8).pack(&mut Packer::default());
    /// assert_eq!(value.to_string(), "[b746561,i3]");
    /// # let _: Value = value;
    /// ```
    fn pack(self, packer: &mut Packer) -> Value;

    /// What a value says.
    ///
    /// ```
    /// # use masttomato::{NotPassed, Pass, Unpacker, Value};
    /// // What a type of your own does, too, with each of its parts.
    /// fn both(value: Value, unpacker: &Unpacker) -> Result<(String, u8), NotPassed> {
    ///     Pass::unpack(value, unpacker)
    /// }
    /// ```
    ///
    /// # Errors
    /// Where it says nothing of this type.
    fn unpack(value: Value, unpacker: &Unpacker) -> Result<Self, NotPassed>;

    /// The value of several of these: bytes have one of their own.
    #[doc(hidden)]
    fn pack_all(all: Vec<Self>, packer: &mut Packer) -> Value {
        Value::List(all.into_iter().map(|one| one.pack(packer)).collect())
    }

    #[doc(hidden)]
    fn unpack_all(value: Value, unpacker: &Unpacker) -> Result<Vec<Self>, NotPassed> {
        list_of(value)?.into_iter().map(|one| Self::unpack(one, unpacker)).collect()
    }
}

#[doc(hidden)]
pub fn list_of(value: Value) -> Result<Vec<Value>, NotPassed> {
    match value {
        Value::List(values) => Ok(values),
        _ => Err(NotPassed),
    }
}

impl Pass for () {
    fn pack(self, _: &mut Packer) -> Value {
        Value::Unit
    }

    fn unpack(value: Value, _: &Unpacker) -> Result<(), NotPassed> {
        if value == Value::Unit { Ok(()) } else { Err(NotPassed) }
    }
}

impl Pass for bool {
    fn pack(self, _: &mut Packer) -> Value {
        Value::Int(self.into())
    }

    fn unpack(value: Value, _: &Unpacker) -> Result<bool, NotPassed> {
        match value {
            Value::Int(number @ 0..=1) => Ok(number == 1),
            _ => Err(NotPassed),
        }
    }
}

macro_rules! whole_numbers {
    ($($number:ty)*) => {$(
        impl Pass for $number {
            fn pack(self, _: &mut Packer) -> Value {
                Value::Int(self.into())
            }

            fn unpack(value: Value, _: &Unpacker) -> Result<$number, NotPassed> {
                match value {
                    Value::Int(number) => number.try_into().map_err(|_| NotPassed),
                    _ => Err(NotPassed),
                }
            }
        }
    )*};
}

whole_numbers! { i8 i16 i32 i64 u16 u32 }

impl Pass for u8 {
    fn pack(self, _: &mut Packer) -> Value {
        Value::Int(self.into())
    }

    fn unpack(value: Value, _: &Unpacker) -> Result<u8, NotPassed> {
        match value {
            Value::Int(number) => number.try_into().map_err(|_| NotPassed),
            _ => Err(NotPassed),
        }
    }

    fn pack_all(all: Vec<u8>, _: &mut Packer) -> Value {
        match all.len() {
            0..=PIECE => Value::Bytes(all),
            _ => Value::List(all.chunks(PIECE).map(|piece| Value::Bytes(piece.to_vec())).collect()),
        }
    }

    fn unpack_all(value: Value, _: &Unpacker) -> Result<Vec<u8>, NotPassed> {
        let piece_of = |value| match value {
            Value::Bytes(bytes) => Ok(bytes),
            _ => Err(NotPassed),
        };
        match value {
            Value::Bytes(bytes) => Ok(bytes),
            Value::List(pieces) => {
                Ok(pieces.into_iter().map(piece_of).collect::<Result<Vec<_>, _>>()?.concat())
            }
            _ => Err(NotPassed),
        }
    }
}

macro_rules! eight_bytes {
    ($($number:ty)*) => {$(
        impl Pass for $number {
            fn pack(self, _: &mut Packer) -> Value {
                Value::Bytes(self.to_be_bytes().to_vec())
            }

            fn unpack(value: Value, _: &Unpacker) -> Result<$number, NotPassed> {
                match value {
                    Value::Bytes(bytes) => {
                        Ok(<$number>::from_be_bytes(bytes.try_into().map_err(|_| NotPassed)?))
                    }
                    _ => Err(NotPassed),
                }
            }
        }
    )*};
}

eight_bytes! { u64 f64 }

impl Pass for char {
    fn pack(self, packer: &mut Packer) -> Value {
        u32::from(self).pack(packer)
    }

    fn unpack(value: Value, unpacker: &Unpacker) -> Result<char, NotPassed> {
        char::from_u32(u32::unpack(value, unpacker)?).ok_or(NotPassed)
    }
}

impl Pass for String {
    fn pack(self, packer: &mut Packer) -> Value {
        u8::pack_all(self.into_bytes(), packer)
    }

    fn unpack(value: Value, unpacker: &Unpacker) -> Result<String, NotPassed> {
        String::from_utf8(u8::unpack_all(value, unpacker)?).map_err(|_| NotPassed)
    }
}

impl<T: Pass> Pass for Vec<T> {
    fn pack(self, packer: &mut Packer) -> Value {
        T::pack_all(self, packer)
    }

    fn unpack(value: Value, unpacker: &Unpacker) -> Result<Vec<T>, NotPassed> {
        T::unpack_all(value, unpacker)
    }
}

impl<T: Pass, const N: usize> Pass for [T; N] {
    fn pack(self, packer: &mut Packer) -> Value {
        T::pack_all(self.into_iter().collect(), packer)
    }

    fn unpack(value: Value, unpacker: &Unpacker) -> Result<[T; N], NotPassed> {
        T::unpack_all(value, unpacker)?.try_into().map_err(|_| NotPassed)
    }
}

impl<T: Pass> Pass for Option<T> {
    fn pack(self, packer: &mut Packer) -> Value {
        Value::List(self.into_iter().map(|one| one.pack(packer)).collect())
    }

    fn unpack(value: Value, unpacker: &Unpacker) -> Result<Option<T>, NotPassed> {
        let mut values = list_of(value)?;
        let first = values.pop().map(|value| T::unpack(value, unpacker)).transpose()?;
        if values.is_empty() { Ok(first) } else { Err(NotPassed) }
    }
}

impl<T: Pass, E: Pass> Pass for Result<T, E> {
    fn pack(self, packer: &mut Packer) -> Value {
        let (number, value) = match self {
            Ok(value) => (0, value.pack(packer)),
            Err(error) => (1, error.pack(packer)),
        };
        Value::List(vec![Value::Int(number), value])
    }

    fn unpack(value: Value, unpacker: &Unpacker) -> Result<Result<T, E>, NotPassed> {
        let [number, value] = list_of(value)?.try_into().map_err(|_| NotPassed)?;
        match number {
            Value::Int(0) => T::unpack(value, unpacker).map(Ok),
            Value::Int(1) => E::unpack(value, unpacker).map(Err),
            _ => Err(NotPassed),
        }
    }
}

impl<T: Pass> Pass for Box<T> {
    fn pack(self, packer: &mut Packer) -> Value {
        (*self).pack(packer)
    }

    fn unpack(value: Value, unpacker: &Unpacker) -> Result<Box<T>, NotPassed> {
        T::unpack(value, unpacker).map(Box::new)
    }
}

impl<I: ?Sized + 'static> Pass for Remote<I> {
    fn pack(self, packer: &mut Packer) -> Value {
        let reference = self.hold().reference();
        packer.holds.push(self.into_hold());
        Value::Ref(reference)
    }

    fn unpack(value: Value, unpacker: &Unpacker) -> Result<Remote<I>, NotPassed> {
        match value {
            Value::Ref(reference) => unpacker.hold(reference).map(Remote::new),
            _ => Err(NotPassed),
        }
    }
}

macro_rules! tuples {
    ($(($($name:ident)+))*) => {$(
        impl<$($name: Pass),+> Pass for ($($name,)+) {
            #[allow(non_snake_case)]
            fn pack(self, packer: &mut Packer) -> Value {
                let ($($name,)+) = self;
                Value::List(vec![$($name.pack(packer)),+])
            }

            fn unpack(value: Value, unpacker: &Unpacker) -> Result<Self, NotPassed> {
                let mut values = list_of(value)?.into_iter();
                let all = ($($name::unpack(values.next().ok_or(NotPassed)?, unpacker)?,)+);
                if values.next().is_none() { Ok(all) } else { Err(NotPassed) }
            }
        }
    )*};
}

tuples! { (A) (A B) (A B C) (A B C D) (A B C D E) (A B C D E F) (A B C D E F G) (A B C D E F G H) }

/// A method's parameters: none are unit, one is itself, and more are a list.
#[doc(hidden)]
pub trait Parameters: Sized {
    fn pack(self, packer: &mut Packer) -> Value;

    /// # Errors
    /// Where the value doesn't say such parameters.
    fn unpack(value: Value, unpacker: &Unpacker) -> Result<Self, NotPassed>;
}

impl Parameters for () {
    fn pack(self, _: &mut Packer) -> Value {
        Value::Unit
    }

    fn unpack(value: Value, unpacker: &Unpacker) -> Result<(), NotPassed> {
        <() as Pass>::unpack(value, unpacker)
    }
}

impl<A: Pass> Parameters for (A,) {
    fn pack(self, packer: &mut Packer) -> Value {
        self.0.pack(packer)
    }

    fn unpack(value: Value, unpacker: &Unpacker) -> Result<(A,), NotPassed> {
        Ok((A::unpack(value, unpacker)?,))
    }
}

macro_rules! parameters {
    ($(($($name:ident)+))*) => {$(
        impl<$($name: Pass),+> Parameters for ($($name,)+) {
            fn pack(self, packer: &mut Packer) -> Value {
                Pass::pack(self, packer)
            }

            fn unpack(value: Value, unpacker: &Unpacker) -> Result<Self, NotPassed> {
                <Self as Pass>::unpack(value, unpacker)
            }
        }
    )*};
}

parameters! { (A B) (A B C) (A B C D) (A B C D E) (A B C D E F) (A B C D E F G) (A B C D E F G H) }
