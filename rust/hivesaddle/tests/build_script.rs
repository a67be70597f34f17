//! What the build script says where there is no library to link, and that two
//! builds of it don't meet. Each test has a small repository of its own, with
//! `tools/library` as it is and a toolchain that only looks like one.

use std::fs;
use std::os::unix::fs::{symlink, PermissionsExt};
use std::path::{Path, PathBuf};
use std::process::{Command, Output};
use std::thread;

/// What `tools/library` runs beside the toolchain.
const TOOLS: [&str; 10] =
    ["bash", "dirname", "readlink", "mkdir", "flock", "find", "sleep", "touch", "rmdir", "cp"];

/// Fails where another is at it. The second call would too: the first one's
/// archive is there.
const RT: &str = "#!/usr/bin/env bash
set -eu
[ \"$*\" = lib ]
mkdir ../../target/at-it
sleep 0.5
mkdir out
touch out/libhivesaddle_c.a
rmdir ../../target/at-it
";

struct Repository {
    root: PathBuf,
    script: PathBuf,
}

impl Repository {
    fn new(name: &str) -> Repository {
        let root = Path::new(env!("CARGO_TARGET_TMPDIR")).join(name);
        let _ = fs::remove_dir_all(&root);
        for folder in ["bin", "crates/hivesaddle_c", "tools", "rust/hivesaddle"] {
            fs::create_dir_all(root.join(folder)).unwrap();
        }
        fs::write(root.join("crates.txt"), "").unwrap();
        let here = Path::new(env!("CARGO_MANIFEST_DIR"));
        fs::copy(here.join("../../tools/library"), root.join("tools/library")).unwrap();
        for tool in TOOLS {
            symlink(installed(tool), root.join("bin").join(tool)).unwrap();
        }
        let script = root.join("build-script");
        let compiled = Command::new("rustc")
            .args(["--edition", "2021", "-o"])
            .args([&script, &here.join("build.rs")])
            .status();
        assert!(compiled.expect("rustc").success());
        Repository { root, script }
    }

    fn with_toolchain(self) -> Repository {
        let rt = self.root.join("bin/rt");
        fs::write(&rt, RT).unwrap();
        fs::set_permissions(&rt, fs::Permissions::from_mode(0o755)).unwrap();
        self
    }

    fn run(&self, changes: &[(&str, &str)]) -> Output {
        let mut command = Command::new(&self.script);
        command
            .env_clear()
            .env("PATH", self.root.join("bin"))
            .env("CARGO_MANIFEST_DIR", self.root.join("rust/hivesaddle"))
            .env("TARGET", "x86_64-unknown-linux-gnu")
            .env("CARGO_CFG_TARGET_ARCH", "x86_64")
            .env("CARGO_CFG_TARGET_OS", "linux")
            .env("CARGO_CFG_TARGET_POINTER_WIDTH", "64")
            .envs(changes.iter().copied());
        command.output().unwrap()
    }

    /// The one line that it ends with.
    fn said(&self, changes: &[(&str, &str)]) -> String {
        let output = self.run(changes);
        assert_eq!(output.status.code(), Some(1));
        let said = String::from_utf8(output.stderr).unwrap();
        assert_eq!(said.lines().count(), 1, "{said}");
        said
    }
}

/// Where a tool of this machine is.
fn installed(tool: &str) -> PathBuf {
    let folders = std::env::var_os("PATH").unwrap();
    let places = std::env::split_paths(&folders).map(|folder| folder.join(tool));
    places.into_iter().find(|place| place.is_file()).unwrap_or_else(|| panic!("no {tool}"))
}

fn links(output: &Output) -> bool {
    let said = String::from_utf8_lossy(&output.stdout);
    output.status.success() && said.contains("cargo:rustc-link-lib=static=hivesaddle")
}

#[test]
fn another_target() {
    let repository = Repository::new("target").with_toolchain();
    let board = [("TARGET", "thumbv7em-none-eabi"), ("CARGO_CFG_TARGET_ARCH", "arm")];
    assert_eq!(
        repository.said(&board),
        "hivesaddle: the library is for x86-64 Linux and nothing else, as the Rattle toolchain \
         makes no other; this is a build for thumbv7em-none-eabi\n"
    );
    for (name, other) in [("OS", "windows"), ("POINTER_WIDTH", "32")] {
        let said = repository.said(&[(&format!("CARGO_CFG_TARGET_{name}"), other)]);
        assert!(said.contains("for x86-64 Linux and nothing else"), "{said}");
    }
}

#[test]
fn without_the_toolchain() {
    let said = Repository::new("toolchain").said(&[]);
    assert!(said.starts_with("library: rt, the Rattle toolchain "), "{said}");
    assert!(said.contains("six minutes") && said.contains("HIVESADDLE_LIB_DIR"), "{said}");
}

#[test]
fn outside_the_repository() {
    let repository = Repository::new("outside");
    fs::remove_file(repository.root.join("tools/library")).unwrap();
    let said = repository.said(&[]);
    assert!(said.contains("set HIVESADDLE_LIB_DIR to the folder"), "{said}");
}

#[test]
fn a_folder_that_is_named() {
    let repository = Repository::new("named");
    let folder = repository.root.to_str().unwrap();
    let said = repository.said(&[("HIVESADDLE_LIB_DIR", folder)]);
    assert_eq!(said, format!("hivesaddle: there is no libhivesaddle.a in {folder}\n"));
    fs::write(repository.root.join("libhivesaddle.a"), "").unwrap();
    assert!(links(&repository.run(&[("HIVESADDLE_LIB_DIR", folder)])));
}

#[test]
fn two_builds_at_a_time() {
    let repository = Repository::new("two").with_toolchain();
    thread::scope(|scope| {
        let both = [(); 2].map(|()| scope.spawn(|| repository.run(&[])));
        for output in both.map(|build| build.join().unwrap()) {
            assert!(links(&output), "{output:?}");
        }
    });
    // The archive is there, and newer than all it is made of.
    assert!(links(&repository.run(&[])));
}

#[test]
fn a_proof_that_fails() {
    let repository = Repository::new("fails").with_toolchain();
    fs::create_dir_all(repository.root.join("target/at-it")).unwrap();
    let output = repository.run(&[]);
    let said = String::from_utf8(output.stderr).unwrap();
    assert_eq!(output.status.code(), Some(1));
    assert!(said.contains("hivesaddle: tools/library failed") && said.contains("six minutes"));
    assert!(!said.contains("panicked"), "{said}");
}
