//! What a programmer may do wrong is an error of the compiler with a sentence: each program of
//! `tests/refused` is refused, with the sentences behind its `//~`.

use std::fs;
use std::path::{Path, PathBuf};
use std::process::Command;
use std::thread;
use std::time::SystemTime;

const GOOD: &str = "
    #[masttomato::interface]
    pub trait Greeter { fn greet(&mut self, name: String) -> String; }
    fn main() {}
";

// Where the libraries are that this test was built with.
fn libraries() -> PathBuf {
    let this = std::env::current_exe().expect("this test's program");
    this.parent().expect("its folder").to_path_buf()
}

// Compiles a program with one of the libraries: what the compiler says, if it refuses it.
fn refused(library: &Path, source: &Path) -> Option<String> {
    let folder = library.parent().expect("a folder");
    let mut compiler = Command::new(std::env::var_os("RUSTC").unwrap_or("rustc".into()));
    compiler.args(["--edition", "2024", "--emit=metadata", "-Adead_code"]);
    compiler.arg(format!("--out-dir={}", env!("CARGO_TARGET_TMPDIR")));
    compiler.arg(format!("-Ldependency={}", folder.display()));
    compiler.arg(format!("--extern=masttomato={}", library.display()));
    let output = compiler.arg(source).output().expect("a compiler");
    let said = String::from_utf8_lossy(&output.stderr).into_owned();
    (!output.status.success()).then_some(said)
}

// The newest library of this crate by which a good program compiles: there may be others of it, with
// other features.
fn library() -> PathBuf {
    let good = Path::new(env!("CARGO_TARGET_TMPDIR")).join("good.rs");
    fs::write(&good, GOOD).expect("a file");
    let is_one = |path: &PathBuf| {
        let name = path.file_name().and_then(|name| name.to_str()).unwrap_or_default();
        name.starts_with("libmasttomato-") && name.ends_with(".rlib")
    };
    let entries = fs::read_dir(libraries()).expect("the folder of libraries");
    let mut found: Vec<PathBuf> =
        entries.filter_map(|entry| Some(entry.ok()?.path())).filter(is_one).collect();
    let changed = |path: &PathBuf| fs::metadata(path).and_then(|data| data.modified()).ok();
    found.sort_by_key(|path| std::cmp::Reverse(changed(path).unwrap_or(SystemTime::UNIX_EPOCH)));
    let said = |library: &PathBuf| refused(library, &good);
    let first = found.iter().find(|library| said(library).is_none());
    first.cloned().unwrap_or_else(|| panic!("no library compiles a good program: {found:?}"))
}

// What is wrong with one of the programs that are to be refused: which of its sentences aren't said.
fn missing(library: &Path, program: &Path) -> Vec<String> {
    let source = fs::read_to_string(program).expect("a program");
    let said = refused(library, program).unwrap_or_else(|| panic!("{program:?} is taken"));
    let sentences: Vec<&str> =
        source.lines().filter_map(|line| line.strip_prefix("//~ ")).collect();
    assert!(!sentences.is_empty(), "{program:?} says no sentence");
    let missing = sentences.iter().filter(|sentence| !said.contains(**sentence));
    missing.map(|sentence| format!("{}: no {sentence:?} in\n{said}", program.display())).collect()
}

#[test]
fn what_is_wrong_is_refused_with_a_sentence() {
    let library = library();
    let folder = Path::new(env!("CARGO_MANIFEST_DIR")).join("tests/refused");
    let entries = fs::read_dir(folder).expect("the programs");
    let programs: Vec<PathBuf> = entries.map(|entry| entry.expect("a program").path()).collect();
    assert!(programs.len() >= 35);
    // The compiler takes a processor for each of them.
    let (first, second) = programs.split_at(programs.len() / 2);
    let all = |programs: &[PathBuf]| -> Vec<String> {
        programs.iter().flat_map(|program| missing(&library, program)).collect()
    };
    let wrong = thread::scope(|scope| {
        let other = scope.spawn(|| all(second));
        let mut wrong = all(first);
        wrong.extend(other.join().expect("each is refused"));
        wrong
    });
    assert!(wrong.is_empty(), "{}", wrong.join("\n"));
}
