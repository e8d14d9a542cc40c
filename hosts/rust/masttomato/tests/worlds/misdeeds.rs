//! What a peer that misbehaves sends: bytes that no honest one sends, or such as one sends at another time.

use crate::deeds::Numbers;
use crate::scene::{call, frame, record};

/// What it does. The first eight are what any program may run into, without malice.
#[derive(Clone, Copy, Debug, PartialEq, Eq, Hash)]
pub enum Misdeed {
    /// From now on nothing of its own is sent, so nothing is acknowledged; but it calls.
    NeverAcknowledges,
    /// It sends frames in another's name, or for another.
    SpeaksForAnother,
    /// From now on it reads nothing; and it calls with long values, which may be answered.
    ReadsNothing,
    /// It sends a record by bytes, one a second, and perhaps not to its end.
    SendsBytes,
    /// From now on nothing of its own is sent.
    IsSilent,
    /// It calls and calls.
    CallsOften,
    /// It passes references to objects of its own that there aren't.
    PassesReferences,
    /// It says great stamps.
    SaysStamps,
    /// It sends records of wrong lengths.
    SendsWrongLengths,
    /// It sends bytes that say nothing.
    SendsGarbage,
    /// It sends items that spell nothing.
    SendsNoItem,
    /// It answers what nobody asked, or what it was asked, but otherwise than its space does.
    Answers,
    /// It uses, or gives back, objects by indexes that it guessed.
    Guesses,
    /// It speaks of another session.
    SpeaksOfAnotherSession,
    /// It acknowledges what it was never given.
    Acknowledges,
    /// It says again what it said, perhaps in an earlier session.
    Repeats,
    /// It passes a reference to a third one's object on that it has guessed.
    PassesGuesses,
    /// It behaves again.
    Behaves,
}

use Misdeed::*;

pub const MISDEEDS: [Misdeed; 18] = [
    NeverAcknowledges,
    SpeaksForAnother,
    ReadsNothing,
    SendsBytes,
    IsSilent,
    CallsOften,
    PassesReferences,
    SaysStamps,
    SendsWrongLengths,
    SendsGarbage,
    SendsNoItem,
    Answers,
    Guesses,
    SpeaksOfAnotherSession,
    Acknowledges,
    Repeats,
    PassesGuesses,
    Behaves,
];

/// Whom it is done to, and what is known there of the session.
#[derive(Clone, Copy, Debug)]
pub struct Aim {
    pub from: u16,
    pub to: u16,
    /// An honest one beside.
    pub third: u16,
    /// How many objects that one has made.
    pub made: u64,
    /// The session's number, and that of the next item in it.
    pub session: u32,
    pub next: u64,
}

impl Aim {
    // A frame with an item, this many behind the next one.
    fn item(&self, ahead: u64, item: &[u8]) -> Vec<u8> {
        let mut bytes = frame(self.from, self.to, self.next + ahead, item);
        bytes[28..32].copy_from_slice(&self.session.to_be_bytes());
        bytes
    }

    fn items(&self, items: impl IntoIterator<Item = Vec<u8>>) -> Vec<u8> {
        let frames = (0..).zip(items).map(|(ahead, item)| self.item(ahead, &item));
        frames.map(|frame| record(0, 1, &frame)).collect::<Vec<_>>().concat()
    }
}

fn note(kind: u8, number: u64) -> Vec<u8> {
    [&[kind][..], &number.to_be_bytes()].concat()
}

fn reference(owner: u16, index: u64) -> Vec<u8> {
    [&[4][..], &owner.to_be_bytes(), &index.to_be_bytes()].concat()
}

// A list of so many values.
fn list(values: Vec<Vec<u8>>) -> Vec<u8> {
    [&[3][..], &(values.len() as u16).to_be_bytes(), &values.concat()].concat()
}

fn bytes(length: u32) -> Vec<u8> {
    [&[2][..], &length.to_be_bytes(), &vec![7; length as usize]].concat()
}

fn call_of(number: u64, target: u64, value: &[u8]) -> Vec<u8> {
    let mut item = call(number, value);
    item[9..17].copy_from_slice(&target.to_be_bytes());
    item
}

fn reply(number: u64, status: u8, value: &[u8]) -> Vec<u8> {
    [&note(2, number)[..], &[status], value].concat()
}

// Great numbers of calls, beside those that its own space makes.
fn fresh_call(numbers: &mut Numbers) -> u64 {
    (1 << 20) + numbers.below(1 << 40)
}

/// The bytes of a misdeed.
pub fn bytes_of(misdeed: Misdeed, aim: &Aim, numbers: &mut Numbers) -> Vec<u8> {
    match misdeed {
        NeverAcknowledges => calls(aim, 1 + numbers.below(40), numbers, &[0]),
        SpeaksForAnother => for_another(aim, numbers),
        ReadsNothing => {
            let long = list(vec![bytes(8_000), bytes(7_600)]);
            calls(aim, 1 + numbers.below(3), numbers, &long)
        }
        CallsOften => {
            let is_flood = numbers.below(60) == 0;
            let count = if is_flood { 4_100 } else { 1 + numbers.below(200) };
            calls(aim, count, numbers, &[0])
        }
        PassesReferences => {
            let first = numbers.below(1 << 40);
            let fresh = (1..=32).map(|index| reference(aim.from, first + index)).collect();
            calls(aim, 1 + numbers.below(8), numbers, &list(fresh))
        }
        SendsBytes => aim.items([call(fresh_call(numbers), &[0])]),
        SaysStamps => {
            let stamp = [1 << 63, u64::MAX, (1 << 63) + 5, 1 << 40][numbers.below(4) as usize];
            record(0, stamp, &aim.item(0, &call(fresh_call(numbers), &[0])))
        }
        SendsWrongLengths => {
            let mut bytes = aim.items([call(fresh_call(numbers), &[0])]);
            let wrong = [numbers.below(90) as u32, u32::MAX, 1_050_625][numbers.below(3) as usize];
            bytes[..4].copy_from_slice(&wrong.to_be_bytes());
            bytes
        }
        SendsGarbage => (0..1 + numbers.below(90)).map(|_| numbers.below(256) as u8).collect(),
        SendsNoItem => aim.items([no_item(numbers)]),
        Answers => answers(aim, numbers),
        Guesses => guesses(aim, numbers),
        SpeaksOfAnotherSession => {
            let other = [aim.session.saturating_add(1), aim.session.saturating_sub(1), 9, u32::MAX];
            let session = other[numbers.below(4) as usize];
            Aim { session, next: 1, ..*aim }.items([call(fresh_call(numbers), &[0])])
        }
        Acknowledges => {
            let mut bytes = aim.item(0, &call(fresh_call(numbers), &[0]));
            bytes[16..24].copy_from_slice(&(2 + numbers.below(1 << 12)).to_be_bytes());
            record(0, 1, &bytes)
        }
        // Of what its owner never made it closes the session of two honest ones, which isn't prevented: see docs/ATTACKS.md.
        PassesGuesses if aim.made > 0 => {
            let index = 1 + numbers.below(aim.made);
            calls(aim, 1, numbers, &list(vec![reference(aim.third, index)]))
        }
        PassesGuesses | IsSilent | Repeats | Behaves => Vec::new(),
    }
}

fn calls(aim: &Aim, count: u64, numbers: &mut Numbers, value: &[u8]) -> Vec<u8> {
    let first = fresh_call(numbers);
    aim.items((first..first + count).map(|number| call(number, value)))
}

// A frame in an honest one's name, or for that one, alone or behind one of its own.
fn for_another(aim: &Aim, numbers: &mut Numbers) -> Vec<u8> {
    let mut close = frame(aim.third, aim.to, 0, &[1]);
    close[2] = 3;
    let other = match numbers.below(3) {
        0 => close,
        1 => frame(aim.third, aim.to, 1 + numbers.below(40), &note(7, 1 + numbers.below(9))),
        _ => frame(aim.from, aim.third, 1, &call(1, &[0])),
    };
    let own = aim.item(0, &call(fresh_call(numbers), &[0]));
    let has_own = numbers.below(2) == 0;
    record(0, 1, &[if has_own { own } else { Vec::new() }, other].concat())
}

fn no_item(numbers: &mut Numbers) -> Vec<u8> {
    let number = fresh_call(numbers);
    let all = [
        note(9, 1),
        call(number, &[0])[..12].to_vec(),
        call(0, &[0]),
        call(number, &[]),
        call(number, &[0, 0]),
        call(number, &[9]),
        call(number, &[[3, 0, 1].repeat(17), vec![0]].concat()),
        call(number, &bytes(8_193)),
        call(number, &[2, 0, 0, 0x20, 0]),
        call(number, &list(vec![vec![0]; 257])),
        call(number, &list(vec![reference(3, 1); 33])),
        reply(1, 4, &[0]),
    ];
    all[numbers.below(12) as usize].clone()
}

// Replies to calls that there may be or not, and what a space says of references.
fn answers(aim: &Aim, numbers: &mut Numbers) -> Vec<u8> {
    let number = 1 + numbers.below(12);
    let value = match numbers.below(3) {
        0 => vec![0],
        1 => reference(aim.from, 1 + numbers.below(1 << 30)),
        _ => reference(aim.to, 1 + numbers.below(4)),
    };
    let item = match numbers.below(5) {
        0 | 1 => reply(number, numbers.below(4) as u8, &value),
        2 => note(3, number),
        3 => note(5, number),
        _ => note(6, number),
    };
    aim.items([item])
}

// Calls of objects that it may have been given or not, that it wants to be listed for, or gives back.
fn guesses(aim: &Aim, numbers: &mut Numbers) -> Vec<u8> {
    let index = 1 + numbers.below(8);
    let call = call_of(fresh_call(numbers), index, &[0]);
    match numbers.below(4) {
        0 => aim.items([call]),
        1 => aim.items([note(4, index), call]),
        2 => aim.items([note(7, index)]),
        _ => aim.items([note(4, index), note(7, index), call]),
    }
}
