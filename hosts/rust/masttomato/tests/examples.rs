//! The worked examples of the repository's examples/, through this crate.

mod common;

use common::checking::replay_fault;
use common::{file, files, nobj};
use masttomato::space::script;

const HAS_VERDICT: &str = "verdict yes\n";

#[test]
fn scripts_give_what_is_stated() {
    let scripts = files("examples/spaces/world", ".in");
    assert!(scripts.len() >= 8, "{scripts:?}");
    play_scripts(scripts);
}

// More scripts, traces and sets of traces than the repository has, in the folders `world`, `space` and
// `check` of the one that MASTTOMATO_VECTORS names.
#[test]
fn further_scripts_and_traces_give_what_is_stated() {
    let Ok(folder) = std::env::var("MASTTOMATO_VECTORS") else { return };
    let of = |kind: &str, ending| files(&format!("{folder}/{kind}"), ending);
    let (scripts, traces) = (of("world", ".in"), of("space", ".trace"));
    let sets = accepted_of(of("check", ".traces"));
    let (all, kept) = (scripts.len(), sets.len());
    println!("{all} scripts, {} traces and {kept} accepted sets of them", traces.len());
    play_scripts(scripts);
    for name in traces {
        assert_played_again(&name, &file(&format!("{name}.trace")));
    }
    sets.iter().for_each(|name| assert_set_played_again(name));
}

fn play_scripts(scripts: Vec<String>) {
    for name in scripts {
        let (input, wanted) = (file(&format!("{name}.in")), file(&format!("{name}.out")));
        let (text, world) = script::play(input.as_bytes()).expect("memory");
        let Some(world) = world else {
            assert_eq!(text, wanted, "{name}");
            continue;
        };
        assert_eq!(text + HAS_VERDICT, wanted, "{name}");
        if let Some(checked) = nobj("check", world.traces().as_bytes()) {
            assert!(checked.ends_with(HAS_VERDICT), "{name}: {checked}");
        }
    }
}

#[test]
fn spaces_answer_as_the_traces_say() {
    let traces = files("examples/spaces/space", ".trace");
    assert!(traces.len() >= 13, "{traces:?}");
    for name in traces {
        assert_played_again(&name, &file(&format!("{name}.trace")));
    }
}

#[test]
fn spaces_answer_as_the_accepted_sets_of_traces_say() {
    let sets = files("examples/spaces/check", ".traces");
    let sets = accepted_of(sets);
    assert!(sets.len() >= 8, "{sets:?}");
    sets.iter().for_each(|name| assert_set_played_again(name));
}

fn accepted_of(mut sets: Vec<String>) -> Vec<String> {
    sets.retain(|name| file(&format!("{name}.out")).ends_with(HAS_VERDICT));
    sets
}

fn assert_set_played_again(name: &str) {
    let text = file(&format!("{name}.traces"));
    let mut traces: Vec<String> = Vec::new();
    for line in text.split_inclusive('\n') {
        match traces.last_mut() {
            Some(trace) if !line.starts_with("trace") => trace.push_str(line),
            _ => traces.push(line.into()),
        }
    }
    traces.iter().for_each(|trace| assert_played_again(name, trace));
}

// A space that is asked what a trace says gives that trace, byte for byte but for the version of its frames.
fn assert_played_again(name: &str, trace: &str) {
    assert_eq!(replay_fault(trace), None, "{name}");
}
