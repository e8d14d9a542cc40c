//! Chains of sealed segments: the accepted ones of examples/spaces/chain are written again as they stand there, by spaces
//! that are asked the same; and what scripts make is a chain that `nobj check` accepts where it accepts their traces.

mod common;

use common::checking::replay_fault;
use common::{file, files, nobj};
use masttomato::space::{
    Chain, Event, JoinError, Limits, SegmentSize, Space, SpaceId, join_lives, script,
};

fn number(text: &str) -> u16 {
    text.parse().expect("a number")
}

fn id(text: &str) -> SpaceId {
    SpaceId::new(number(text)).expect("a space")
}

// A space as a first line says, `chain S of N window W retry R segments K`, or as a trace's, and what it counts.
fn space_of(line: &str) -> (Space, u64) {
    let [_, space, "of", spaces, "window", window, "retry", retry, _, count] =
        line.split(' ').collect::<Vec<_>>()[..]
    else {
        panic!("{line}");
    };
    let limits = Limits::new(number(window) as u8, number(retry) as u8).expect("limits");
    let space = Space::new(id(space), id(spaces), limits).expect("memory");
    (space, count.parse().expect("a count"))
}

// Asks a space what the line of an entry says, under its stamp.
fn ask(space: &mut Space, line: &str) {
    let (stamp, entry) = line.split_once(' ').expect("a stamp");
    let (event, _) = entry.split_once(" = ").expect("an event and its result");
    let event: Event = event.parse().unwrap_or_else(|_| panic!("no event: {event}"));
    space.rise_to(stamp.parse::<u64>().expect("a stamp") - 1);
    let _ = space.step(&event);
}

// The first line of a chain, or of a trace, and the lines behind it, of each in a text.
fn parts(text: &str) -> Vec<Vec<&str>> {
    let mut parts: Vec<Vec<&str>> = Vec::new();
    for line in text.lines() {
        if line.starts_with("chain ") || line.starts_with("trace") {
            parts.push(Vec::new());
        }
        parts.last_mut().expect("a first line").push(line);
    }
    parts
}

// The same chain, written by a space that is asked the same and seals where the segments end.
fn written_again(lines: &[&str]) -> String {
    let (mut space, segments) = space_of(lines[0]);
    space.keep_chain(SegmentSize::default());
    for line in &lines[1..] {
        match line.split(' ').next() {
            Some("segment") => {}
            Some("seal") => space.seal(),
            _ => ask(&mut space, line),
        }
    }
    let chain = space.chain().expect("a chain");
    assert_eq!(chain.segments(), segments);
    chain.to_string()
}

#[test]
fn accepted_chains_are_written_as_they_stand() {
    let mut written = 0;
    for name in files("examples/spaces/chain", ".traces") {
        if !file(&format!("{name}.out")).ends_with("\nverdict yes\n") {
            continue;
        }
        for lines in parts(&file(&format!("{name}.traces"))) {
            if lines[0].starts_with("chain ") {
                let wanted: String = lines.iter().map(|line| format!("{line}\n")).collect();
                assert_eq!(written_again(&lines), wanted, "{name}");
                written += 1;
            }
        }
    }
    assert!(written >= 12, "{written}");
}

// The chain of a trace, in segments of this size.
fn chain_of(lines: &[&str], size: u32) -> String {
    let (mut space, _) = space_of(lines[0]);
    space.keep_chain(SegmentSize::new(size).expect("a size"));
    space.keep_trace();
    lines[1..].iter().for_each(|line| ask(&mut space, line));
    space.seal();
    let chain = space.chain().expect("a chain");
    assert_eq!(chain.segments(), (lines.len() as u64 - 1).div_ceil(size.into()));
    assert_eq!(space.trace().expect("a trace").to_string(), lines.join("\n") + "\n");
    let text = chain.to_string();
    // Its entries are the trace's.
    let entries: Vec<&str> = text
        .lines()
        .skip(1)
        .filter(|line| line.starts_with(|c: char| c.is_ascii_digit()))
        .collect();
    assert_eq!(entries, lines[1..]);
    text
}

#[test]
fn what_scripts_make_is_accepted_as_a_chain() {
    for name in files("examples/spaces/world", ".in") {
        let script = file(&format!("{name}.in"));
        let (_, world) = script::play(script.as_bytes()).expect("memory");
        let Some(world) = world else { continue };
        let traces = world.traces();
        let said = nobj("check", traces.as_bytes());
        for size in [1, 3, 65_536] {
            let chains: String = parts(&traces).iter().map(|lines| chain_of(lines, size)).collect();
            assert_eq!(nobj("check", chains.as_bytes()), said, "{name} in segments of {size}");
        }
    }
}

// A seal that is a number off is found, so that the check sees what a chain says.
#[test]
fn a_seal_that_is_wrong_is_found() {
    let (mut space, _) = space_of("chain 1 of 1 window 8 retry 16 segments 0");
    space.keep_chain(SegmentSize::new(2).expect("a size"));
    for _ in 0..3 {
        space.export().expect("memory");
    }
    space.seal();
    let text = space.chain().expect("a chain").to_string();
    for (seals, wanted) in
        [(["live 2", "live 3"], "verdict yes\n"), (["live 2", "live 2"], "C5 1 2\n")]
    {
        let text = text.replace("live 2", seals[0]).replace("live 3", seals[1]);
        if let Some(said) = nobj("check", text.as_bytes()) {
            assert!(said.ends_with(wanted), "{said}");
        }
    }
    assert_eq!(
        Chain::first_line(space.id(), space.spaces(), space.limits(), 2),
        text.lines().next().expect("a line").to_owned() + "\n"
    );
}

// Two lives, of which the first died before its second entry was sealed: their seals stay as they are, and a wrong one is
// found where it stands.
#[test]
fn the_seals_of_lives_are_judged_as_they_left_them() {
    let join = |seals: [&str; 2]| {
        let [first, second] = seals;
        let first = format!(
            "life 1 indexes 0 calls 0 jobs 0\n1 export = exported 1.1\n{first}\n2 dup 1.1 = ok\n"
        );
        let second =
            format!("life 2 indexes 1 calls 0 jobs 0\n3 export = exported 1.2\n{second}\n");
        join_lives(id("1"), Limits::default(), &[vec![first, second]]).map(|chains| chains.concat())
    };
    let cases = [
        (["seal 1 live 1", "seal 3 live 1"], "verdict yes"),
        (["seal 1 live 2", "seal 3 live 1"], "C5 1 1"),
        (["seal 2 live 1", "seal 3 live 1"], "C5 1 1"),
        (["seal 1 live 1", "seal 3 live 2"], "C5 1 3"),
    ];
    for (seals, wanted) in cases {
        let chain = join(seals).expect("lines of lives");
        assert!(chain.starts_with("chain 1 of 1 window 8 retry 16 segments 3\n"), "{chain}");
        assert_eq!(replay_fault(&chain).is_none(), wanted == "verdict yes", "{chain}");
        if let Some(said) = nobj("check", chain.as_bytes()) {
            assert!(said.ends_with(&format!("{wanted}\n")), "{said}");
        }
    }
    for seal in [
        "seal",
        "seal 1",
        "seal one live 1",
        "1 export = exported 1.1\nseal 1 live 1\nseal 1 live 1",
    ] {
        let refused = join([seal, "seal 3 live 1"]);
        assert!(matches!(refused, Err(JoinError::Line { life: 1, .. })), "{seal}: {refused:?}");
    }
}
