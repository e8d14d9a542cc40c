//! Links the static library of `nob_host` where there is one, and never makes or proves it.
//!
//! In this order: the file that NOB_HOST_ARCHIVE names; the one for this target that the package carries
//! below `lib`; `crates/nob_host/out/libnob_host.a` of the repository that this crate stands in. The first
//! and the last go with the kit's `liblibc_c.a`, which takes memory for them (RATTLE_KIT names the kit's
//! folder, where `rt` isn't to be asked); the package carries it too. Else, or with the feature `stand-in`,
//! the stand-in takes the library's place; a release build wants the feature for that.

use std::env;
use std::path::{Path, PathBuf};
use std::process::Command;

fn main() {
    println!("cargo::rustc-check-cfg=cfg(nob_host_library)");
    println!("cargo::rustc-check-cfg=cfg(nob_host_carried)");
    println!("cargo::rerun-if-env-changed=NOB_HOST_ARCHIVE");
    println!("cargo::rerun-if-env-changed=RATTLE_KIT");
    let wants_stand_in = env::var_os("CARGO_FEATURE_STAND_IN").is_some();
    match library() {
        _ if wants_stand_in => {}
        Ok((archive, allocator)) => link(&archive, &allocator),
        Err(why) => do_without(&why),
    }
}

// The archive, and the kit's functions that take memory for it.
fn library() -> Result<(PathBuf, PathBuf), String> {
    let own = Path::new(env!("CARGO_MANIFEST_DIR"));
    let archive = match env::var_os("NOB_HOST_ARCHIVE").filter(|named| !named.is_empty()) {
        Some(named) => PathBuf::from(named),
        None => match carried(own) {
            Some(both) => return Ok(both),
            None => return made(own),
        },
    };
    println!("cargo::rerun-if-changed={}", archive.display());
    with_allocator(archive)
}

fn with_allocator(archive: PathBuf) -> Result<(PathBuf, PathBuf), String> {
    if !archive.is_file() {
        return Err(format!("there is no {}", archive.display()));
    }
    let allocator = kit()?.join("c/liblibc_c.a");
    match allocator.is_file() {
        true => Ok((archive, allocator)),
        false => Err(format!("there is no {}", allocator.display())),
    }
}

// The one that the repository's tools make. As long as it isn't there its crate is watched in its place, if there is one: where a
// file is watched that isn't there, cargo runs this each time, and builds all that hangs on it again.
fn made(own: &Path) -> Result<(PathBuf, PathBuf), String> {
    let source = own.join("../../../crates/nob_host");
    let archive = source.join("out/libnob_host.a");
    if let Some(watched) = [&archive, &source].into_iter().find(|path| path.exists()) {
        println!("cargo::rerun-if-changed={}", watched.display());
    }
    with_allocator(archive)
}

// The same, where the package carries them for this target: tools/host-package put them there.
fn carried(own: &Path) -> Option<(PathBuf, PathBuf)> {
    let folder = own.join("lib").join(env::var("TARGET").ok()?);
    let [archive, allocator, provenance] =
        ["libnob_host.a", "liblibc_c.a", "PROVENANCE"].map(|name| folder.join(name));
    // Nothing is watched that isn't there: cargo would run this each time.
    if ![&archive, &allocator, &provenance].iter().all(|file| file.is_file()) {
        return None;
    }
    println!("cargo::rerun-if-changed={}", folder.display());
    println!("cargo::rustc-cfg=nob_host_carried");
    println!("cargo::rustc-env=NOB_HOST_PROVENANCE={}", provenance.display());
    Some((archive, allocator))
}

fn link(archive: &Path, allocator: &Path) {
    println!("cargo::rustc-cfg=nob_host_library");
    for (name, file) in [("nob_host", archive), ("libc_c", allocator)] {
        let folder = file.parent().unwrap_or(Path::new("."));
        println!("cargo::rerun-if-changed={}", file.display());
        println!("cargo::rustc-link-search=native={}", folder.display());
        println!("cargo::rustc-link-lib=static={name}");
    }
}

// A build for use is refused; one for tests and editors goes on, and says so.
fn do_without(why: &str) {
    let how = "`tools/host-library` makes the proved library after `rt ci`; NOB_HOST_ARCHIVE names another one";
    if env::var("PROFILE").as_deref() == Ok("release") {
        println!(
            "cargo::error={why}: {how}; or ask for the unproved stand-in by the feature `stand-in`"
        );
        return;
    }
    println!(
        "cargo::warning=not proved: the stand-in takes the place of libnob_host.a, since {why}; {how}"
    );
}

// The kit's folder: that of the page which `rt doc` names.
fn kit() -> Result<PathBuf, String> {
    if let Some(named) = env::var_os("RATTLE_KIT") {
        return Ok(named.into());
    }
    let asked = Command::new("rt").arg("doc").output();
    let page = asked.ok().filter(|output| output.status.success()).map(|output| output.stdout);
    let page = page.and_then(|bytes| String::from_utf8(bytes).ok()).unwrap_or_default();
    match Path::new(page.trim()).parent() {
        Some(folder) if folder.is_dir() => Ok(folder.into()),
        _ => Err("`rt doc` doesn't say where the Rattle kit is, and RATTLE_KIT isn't set".into()),
    }
}
