//! Finds the C static library, and has it built where it is not there yet or
//! older than the Rattle sources.

use std::env;
use std::fs;
use std::path::{Path, PathBuf};
use std::process::{exit, Command};
use std::time::SystemTime;

const ARCHIVE: &str = "libhivesaddle.a";
/// Names a folder that has it.
const GIVEN: &str = "HIVESADDLE_LIB_DIR";
/// What makes it.
const MAKER: &str = "tools/library";
/// What the archive is made of, from the repository's root.
const SOURCES: [&str; 3] = ["crates.txt", "crates", MAKER];
/// What the maker ends with where it has said what is missing.
const MISSING: i32 = 2;

fn main() {
    println!("cargo:rerun-if-env-changed={GIVEN}");
    println!("cargo:rerun-if-changed=build.rs");
    check_target();
    let folder = match env::var_os(GIVEN).filter(|given| !given.is_empty()) {
        Some(given) => PathBuf::from(given),
        None => own_folder(),
    };
    let archive = folder.join(ARCHIVE);
    if !archive.is_file() {
        stop(&format!("there is no {ARCHIVE} in {}", folder.display()));
    }
    println!("cargo:rerun-if-changed={}", archive.display());
    println!("cargo:rustc-link-search=native={}", folder.display());
    println!("cargo:rustc-link-lib=static=hivesaddle");
}

/// Ends with one sentence; a panic would show a backtrace beside it.
fn stop(sentence: &str) -> ! {
    eprintln!("hivesaddle: {sentence}");
    exit(1)
}

/// The toolchain makes archives for one kind of machine.
fn check_target() {
    let of = |name: &str| env::var(format!("CARGO_CFG_TARGET_{name}")).unwrap_or_default();
    if [of("ARCH"), of("OS"), of("POINTER_WIDTH")] != ["x86_64", "linux", "64"] {
        let target = env::var("TARGET").unwrap_or_default();
        stop(&format!(
            "the library is for x86-64 Linux and nothing else, as the Rattle toolchain makes no \
             other; this is a build for {target}"
        ));
    }
}

/// target/staticlib of the repository, with the archive of the sources as
/// they are.
fn own_folder() -> PathBuf {
    let root = repository_root();
    let sources = SOURCES.map(|source| root.join(source));
    for source in &sources {
        println!("cargo:rerun-if-changed={}", source.display());
    }
    let folder = root.join("target").join("staticlib");
    let made = changed(&folder.join(ARCHIVE));
    if made.is_none() || sources.iter().any(|source| newest(source) > made) {
        make_archive(&root);
    }
    folder
}

fn repository_root() -> PathBuf {
    let here = PathBuf::from(env::var_os("CARGO_MANIFEST_DIR").expect("cargo sets it"));
    match here.join("../..").canonicalize() {
        Ok(root) if root.join(MAKER).is_file() => root,
        _ => stop(&format!(
            "outside its repository the crate does not build the library: set {GIVEN} to the \
             folder that has {ARCHIVE}"
        )),
    }
}

fn changed(path: &Path) -> Option<SystemTime> {
    fs::metadata(path).and_then(|data| data.modified()).ok()
}

/// When a file, or the newest file below a folder, was changed.
fn newest(path: &Path) -> Option<SystemTime> {
    match fs::read_dir(path) {
        Ok(entries) => entries.filter_map(|entry| newest(&entry.ok()?.path())).max(),
        Err(_) => changed(path),
    }
}

fn make_archive(root: &Path) {
    match Command::new(root.join(MAKER)).status() {
        Ok(status) if status.success() => {}
        Ok(status) if status.code() == Some(MISSING) => exit(1),
        Ok(_) => stop(&format!(
            "{MAKER} failed, which proves and builds the library in some six minutes on two cores"
        )),
        Err(error) => stop(&format!("{MAKER} could not be started: {error}")),
    }
}
