//! What tests share: the repository, and the program `nobj`. Not each of them uses all of it.
#![allow(dead_code)]

pub mod checking;

use std::io::Write;
use std::path::{Path, PathBuf};
use std::process::{Command, Stdio};
use std::sync::OnceLock;

/// A path in the repository.
pub fn in_repository(path: &str) -> PathBuf {
    Path::new(env!("CARGO_MANIFEST_DIR")).join("../../..").join(path)
}

/// A file of the repository.
pub fn file(path: &str) -> String {
    let path = in_repository(path);
    std::fs::read_to_string(&path).unwrap_or_else(|error| panic!("{}: {error}", path.display()))
}

/// The files of a folder of the repository that have this ending, in order, without the ending.
pub fn files(folder: &str, ending: &str) -> Vec<String> {
    let entries = std::fs::read_dir(in_repository(folder)).expect("a folder of the repository");
    let names = entries.map(|entry| entry.expect("an entry").file_name());
    let names = names.filter_map(|name| Some(name.to_str()?.strip_suffix(ending)?.to_string()));
    let mut paths: Vec<String> = names.map(|name| format!("{folder}/{name}")).collect();
    paths.sort();
    paths
}

/// What `nobj` writes, with a word, for an input: `None` where there is no such program, which is said
/// once. NOBJ names it; else it is the one that the gate has left.
pub fn nobj(word: &str, input: &[u8]) -> Option<String> {
    static PROGRAM: OnceLock<Option<PathBuf>> = OnceLock::new();
    let program = PROGRAM.get_or_init(|| {
        let named = std::env::var_os("NOBJ").map(PathBuf::from);
        let program = named.unwrap_or_else(|| in_repository("crates/nob_demo/out/nob_demo"));
        if !program.is_file() {
            eprintln!("skipped: nothing is compared with nobj, there is no {}", program.display());
            return None;
        }
        Some(program)
    });
    Some(run(program.as_deref()?, word, input).0)
}

// What a program writes for an input, and what it says on standard error.
fn run(program: &Path, word: &str, input: &[u8]) -> (String, String) {
    let mut command = Command::new(program);
    command.arg(word).stdin(Stdio::piped()).stdout(Stdio::piped()).stderr(Stdio::piped());
    let mut child =
        command.spawn().unwrap_or_else(|error| panic!("{}: {error}", program.display()));
    let mut stdin = child.stdin.take().expect("its standard input");
    let input = input.to_vec();
    // By another thread, since the program may write before it has read all.
    let writer = std::thread::spawn(move || stdin.write_all(&input));
    let output = child.wait_with_output().expect("its output");
    writer.join().expect("the writer").expect("its input is taken");
    let text = |bytes| String::from_utf8(bytes).expect("text");
    (text(output.stdout), text(output.stderr))
}
