//! The cases of crates/nob_cases, whose answers come from the rules, on the pickles and the frames of
//! this crate: the same bytes are read and written, and the same fault is named.

use masttomato::space::{Frame, FrameKind, PickleFault, Reference, SpaceId, Value};
use std::fmt::Display;

const CASES: &str = concat!(env!("CARGO_MANIFEST_DIR"), "/../../../crates/nob_cases/stdout");

#[test]
fn pickles_are_read_as_the_cases_say() {
    let tried = try_cases("value ", |case, answer| {
        let read = Value::decode(&bytes_of(case));
        assert_eq!(read.map_err(name_of), wanted(answer, value_of), "value {case}");
    });
    assert!(tried >= 70, "{tried} cases");
}

#[test]
fn pickles_are_written_as_the_cases_say() {
    let tried = try_cases("encode value ", |case, answer| {
        let written = value_of(case).encode();
        assert_eq!(written.map_err(name_of), wanted(answer, bytes_of), "encode value {case}");
    });
    assert!(tried >= 40, "{tried} cases");
}

#[test]
fn frames_are_read_as_the_cases_say() {
    let tried = try_cases("frame ", |case, answer| {
        let read = Frame::from_bytes(bytes_of(case)).map(|frame| fields_of(&frame));
        assert_eq!(read.map_err(name_of), wanted(answer, written_out), "frame {case}");
    });
    assert!(tried >= 70, "{tried} cases");
}

#[test]
fn a_value_of_thousands_of_levels_is_refused() {
    let mut value = Value::Unit;
    for _ in 0..6_000 {
        value = Value::List(vec![value]);
    }
    assert_eq!(value.encode(), Err(PickleFault::TooBig));
}

// Tries each case that begins with these words: how many there are.
fn try_cases(words: &str, judge: impl Fn(&str, &str)) -> usize {
    let text = std::fs::read_to_string(CASES).expect("the repository's cases");
    let cases = text.lines().filter_map(|line| line.strip_prefix(words)?.split_once(" = "));
    let cases = cases.filter(|(case, answer)| *answer != "no case" && is_plain(case));
    cases.map(|(case, answer)| judge(case, answer)).count()
}

// Whether a case isn't one of those that have a further word, as `0 of ..`.
fn is_plain(case: &str) -> bool {
    case.starts_with("deep ") || !case.contains(' ')
}

// What a case's answer says: a fault by its name, or what is read.
fn wanted<T>(answer: &str, read: impl Fn(&str) -> T) -> Result<T, String> {
    let is_fault = |letter| answer.strip_prefix(letter).is_some_and(|n| n.parse::<u8>().is_ok());
    if is_fault('P') || is_fault('F') { Err(answer.into()) } else { Ok(read(answer)) }
}

// The name that the text of a fault begins with.
fn name_of(fault: impl Display) -> String {
    fault.to_string().split(':').next().unwrap_or_default().into()
}

// `-`, or parts joined by dots, each hexadecimal digits or those and how often they stand.
fn bytes_of(text: &str) -> Vec<u8> {
    let text = expanded(text);
    let digits: Vec<u8> = text.bytes().filter(|byte| *byte != b'-').collect();
    let pairs = digits.chunks(2).map(|pair| str::from_utf8(pair).expect("digits"));
    pairs.map(|pair| u8::from_str_radix(pair, 16).expect("digits")).collect()
}

// The same text with every `PART*N` written out and no dots.
fn expanded(text: &str) -> String {
    let parts = text.split('.').map(|part| match part.split_once('*') {
        Some((part, times)) => part.repeat(times.parse().expect("a number")),
        None => part.into(),
    });
    parts.collect()
}

fn value_of(text: &str) -> Value {
    if let Some(rest) = text.strip_prefix("deep ") {
        let (levels, value) = rest.split_once(' ').expect("levels and a value");
        let levels: usize = levels.parse().expect("a number");
        return (0..levels).fold(value_of(value), |value, _| Value::List(vec![value]));
    }
    let (value, rest) = value_at(text);
    assert_eq!(rest, "", "{text}");
    value
}

fn value_at(text: &str) -> (Value, &str) {
    let (tag, rest) = text.split_at(1);
    let (front, behind) = rest.split_at(rest.find([',', ']']).unwrap_or(rest.len()));
    match tag {
        "u" => (Value::Unit, rest),
        "i" => (Value::Int(front.parse().expect("a number")), behind),
        "b" => (Value::Bytes(bytes_of(front)), behind),
        "r" => {
            let (number, star) = front.split_at(front.find('*').unwrap_or(front.len()));
            let behind = &rest[rest.len() - behind.len() - star.len()..];
            (Value::Ref(reference_of(number)), behind)
        }
        _ => list_at(rest),
    }
}

fn list_at(text: &str) -> (Value, &str) {
    let mut values = Vec::new();
    let mut left = text;
    while !left.starts_with(']') {
        let (value, mut rest) = value_at(left.trim_start_matches(','));
        let mut times = 1;
        if let Some(number) = rest.strip_prefix('*') {
            let end = number.find([',', ']']).expect("the list's end");
            times = number[..end].parse().expect("a number");
            rest = &number[end..];
        }
        values.extend(std::iter::repeat_n(value, times));
        left = rest;
    }
    (Value::List(values), &left[1..])
}

fn reference_of(text: &str) -> Reference {
    let (owner, index) = text.split_once('.').expect("a reference");
    let owner = SpaceId::new(owner.parse().expect("a number")).expect("a space");
    Reference { owner, index: index.parse().expect("a number") }
}

// The fields of a frame, with its payload written out.
fn written_out(fields: &str) -> String {
    let (numbers, payload) = fields.rsplit_once(' ').expect("fields");
    format!("{numbers} {}", expanded(payload))
}

// A frame as the cases write it.
fn fields_of(frame: &Frame) -> String {
    let kind = match frame.kind() {
        FrameKind::Data => "data",
        FrameKind::Ack => "ack",
        FrameKind::Close => "close",
        other => panic!("{other:?}"),
    };
    let (from, to, session) = (frame.from(), frame.to(), frame.session());
    let (seq, ack) = (frame.seq(), frame.ack());
    let payload = frame.to_string()[64..].to_string();
    let payload = if payload.is_empty() { "-".to_string() } else { payload };
    format!("{kind} {from} to {to} session {session} seq {seq} ack {ack} {payload}")
}
