//! Items: what a frame of data carries.

use super::pickle::Pickle;
use crate::Front;

const LAST_CALL: u64 = 1 << 48;
const LAST_ITEM: u64 = 1 << 40;

/// What a space tells another in one item.
#[derive(Clone, Debug)]
pub(super) enum Item {
    Call { call: u64, target: u64, method: u16, value: Pickle },
    Reply { call: u64, status: u8, value: Pickle },
    Settle(u64),
    Dirty(u64),
    DirtyOk(u64),
    DirtyNo(u64),
    Clean(u64),
}

impl Item {
    /// The bytes that spell it.
    pub(super) fn spell(&self) -> Vec<u8> {
        let note = |tag: u8, number: &u64| [&[tag][..], &number.to_be_bytes()].concat();
        match self {
            Item::Call { call, target, method, value } => {
                let (call, target) = (call.to_be_bytes(), target.to_be_bytes());
                [&[1][..], &call, &target, &method.to_be_bytes(), &value.bytes].concat()
            }
            Item::Reply { call, status, value } => {
                [&[2][..], &call.to_be_bytes(), &[*status], &value.bytes].concat()
            }
            Item::Settle(number) => note(3, number),
            Item::Dirty(index) => note(4, index),
            Item::DirtyOk(index) => note(5, index),
            Item::DirtyNo(index) => note(6, index),
            Item::Clean(index) => note(7, index),
        }
    }

    /// What is seen of it where it stands in front, but for its number.
    pub(super) fn seen(&self) -> Front {
        let note = |kind, number, index| Front { kind, number, index, ..Front::default() };
        match self {
            Item::Call { call, target, method, value } => {
                let (method, references) = ((*method).into(), value.count);
                Front { method, references, ..note(1, *call, *target) }
            }
            Item::Reply { call, status, value } => {
                let (method, references) = ((*status).into(), value.count);
                Front { method, references, ..note(2, *call, 0) }
            }
            Item::Settle(item) => note(3, *item, 0),
            Item::Dirty(index) => note(4, 0, *index),
            Item::DirtyOk(index) => note(5, 0, *index),
            Item::DirtyNo(index) => note(6, 0, *index),
            Item::Clean(index) => note(7, 0, *index),
        }
    }

    /// The item that all of these bytes spell, if they do.
    pub(super) fn read(bytes: &[u8]) -> Option<Item> {
        let (tag, rest) = bytes.split_first()?;
        let (number, rest) = rest.split_first_chunk::<8>()?;
        let number = u64::from_be_bytes(*number);
        match tag {
            1 if (1..=LAST_CALL).contains(&number) => call_of(number, rest),
            2 if (1..=LAST_CALL).contains(&number) => reply_of(number, rest),
            3 if rest.is_empty() && (1..=LAST_ITEM).contains(&number) => Some(Item::Settle(number)),
            4 if rest.is_empty() => Some(Item::Dirty(number)),
            5 if rest.is_empty() => Some(Item::DirtyOk(number)),
            6 if rest.is_empty() => Some(Item::DirtyNo(number)),
            7 if rest.is_empty() => Some(Item::Clean(number)),
            _ => None,
        }
    }
}

fn call_of(call: u64, rest: &[u8]) -> Option<Item> {
    let (target, rest) = rest.split_first_chunk::<8>()?;
    let (method, rest) = rest.split_first_chunk::<2>()?;
    let (target, method) = (u64::from_be_bytes(*target), u16::from_be_bytes(*method));
    Some(Item::Call { call, target, method, value: Pickle::judge(rest).ok()? })
}

fn reply_of(call: u64, rest: &[u8]) -> Option<Item> {
    let (status, rest) = rest.split_first()?;
    let value = Pickle::judge(rest).ok().filter(|_| *status <= 3)?;
    Some(Item::Reply { call, status: *status, value })
}
