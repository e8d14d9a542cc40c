//! Whether traces are together a run: each answer is what a space answers (it is asked all of it
//! again), and each frame that arrives was transmitted before. `nobj check` says more, where it is there.

use masttomato::space::{Event, Limits, SegmentSize, Space, SpaceId};
use std::collections::HashMap;

/// What is wrong with the traces and chains, which each begin with their first lines.
pub fn fault_of(traces: &[String]) -> Option<String> {
    fault_among(traces, None)
}

/// The same where frames of a space that misbehaves may have come from nobody.
pub fn fault_among(traces: &[String], hostile: Option<SpaceId>) -> Option<String> {
    let mut given: HashMap<&str, (u64, usize)> = HashMap::new();
    for (place, trace) in traces.iter().enumerate() {
        for (stamp, event, result) in entries(trace) {
            if event.starts_with("send ") {
                for frame in result.split(' ').skip(1) {
                    let first = given.entry(frame).or_insert((stamp, place));
                    *first = (*first).min((stamp, place));
                }
            }
        }
    }
    for (place, trace) in traces.iter().enumerate() {
        for (stamp, event, _) in entries(trace) {
            let Some(frame) = event.strip_prefix("arrive ") else { continue };
            if hostile.is_some_and(|hostile| is_of(frame, hostile)) {
                continue;
            }
            match given.get(frame) {
                None => return Some(format!("{}: {stamp} came from nobody", place + 1)),
                Some(first) if *first >= (stamp, place) => {
                    return Some(format!("{}: {stamp} came before it was transmitted", place + 1));
                }
                Some(_) => {}
            }
        }
    }
    traces.iter().find_map(|trace| replay_fault(trace))
}

/// Whether a frame, as it stands in a trace, says that it is a space's.
pub fn is_of(frame: &str, space: SpaceId) -> bool {
    frame.get(8..12) == Some(&format!("{:04x}", space.get())[..])
}

/// The traces and chains that stand one after the other in a text.
pub fn each_of(joined: &str) -> Vec<String> {
    let mut traces: Vec<String> = Vec::new();
    for line in joined.split_inclusive('\n') {
        let is_first = line.starts_with("trace") || line.starts_with("chain ");
        match traces.last_mut().filter(|_| !is_first) {
            Some(trace) => trace.push_str(line),
            None => traces.push(line.into()),
        }
    }
    traces
}

fn entries(trace: &str) -> impl Iterator<Item = (u64, &str, &str)> {
    let is_entry = |line: &&str| !line.starts_with("segment ") && !line.starts_with("seal ");
    trace.lines().skip(1).filter(is_entry).map(|line| {
        let (stamp, entry) = line.split_once(' ').expect("a stamp");
        let (event, result) = entry.split_once(" = ").expect("an event and its result");
        (stamp.parse().expect("a number"), event, result)
    })
}

/// What a space answers otherwise than its trace says; or than its chain says, or says otherwise in a seal. A trace of
/// version 1 is read as one of version 2: its frames name no session, and are of the first.
pub fn replay_fault(trace: &str) -> Option<String> {
    let trace = &of_version_2(trace);
    let mut lines = trace.lines();
    let mut space = space_of(lines.next().expect("a first line"));
    for line in lines {
        match line.split_once(' ').expect("two words") {
            ("segment", _) => {}
            ("seal", _) => space.seal(),
            (stamp, entry) => ask(&mut space, stamp, entry),
        }
    }
    let chain = space.chain().map(ToString::to_string);
    let played = chain.or(space.trace().map(ToString::to_string)).expect("one of them is kept");
    let differs = played.lines().zip(trace.lines()).find(|(played, wanted)| played != wanted);
    match differs {
        Some((played, wanted)) => Some(format!("played {played}, wanted {wanted}")),
        None if played.len() != trace.len() => Some("a trace of another length".into()),
        None => None,
    }
}

fn ask(space: &mut Space, stamp: &str, entry: &str) {
    let (event, _) = entry.split_once(" = ").expect("an event and its result");
    let event: Event = event.parse().unwrap_or_else(|_| panic!("no event: {event}"));
    space.rise_to(stamp.parse::<u64>().expect("a stamp") - 1);
    let _ = space.step(&event);
}

// The same trace with frames of version 2. One of version 1 has no `open`.
fn of_version_2(trace: &str) -> String {
    let Some(rest) = trace.strip_prefix("trace ") else { return trace.into() };
    let mut text = String::from("trace2 ");
    for line in rest.split_inclusive('\n') {
        let (event, result) = line.split_once(" = ").unwrap_or((line, ""));
        assert!(!event.contains(" open "), "no entry of version 1: {line}");
        let has_frames = result.starts_with("frames ") || event.contains(" arrive ");
        match has_frames {
            true => text.extend(line.split_inclusive([' ', '\n']).map(frame_of_version_2)),
            false => text.push_str(line),
        }
    }
    text
}

// A word with a frame of version 2, where it has one of version 1: the session behind the length.
fn frame_of_version_2(word: &str) -> String {
    match word.strip_prefix("4e01").and_then(|rest| rest.split_at_checked(52)) {
        Some((header, payload)) => format!("4e02{header}00000001{payload}"),
        None => word.into(),
    }
}

// A space as the first line of a trace says, `trace2 S of N window W retry R entries K`, or of a chain: it keeps one.
fn space_of(line: &str) -> Space {
    let words: Vec<&str> = line.split(' ').collect();
    let [kind, space, "of", spaces, "window", window, "retry", retry, _, _] = words[..] else {
        panic!("{line}");
    };
    let number = |text: &str| text.parse::<u16>().expect("a number");
    let space_of = |text| SpaceId::new(number(text)).expect("a space");
    let limits = Limits::new(number(window) as u8, number(retry) as u8).expect("limits");
    let mut space = Space::new(space_of(space), space_of(spaces), limits).expect("memory");
    match kind {
        "chain" => space.keep_chain(SegmentSize::default()),
        _ => space.keep_trace(),
    }
    space
}
