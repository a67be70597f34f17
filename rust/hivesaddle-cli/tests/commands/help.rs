//! The help of every command, and whether its examples work.

use crate::folder::{out, root, said, small, status, Folder};
use std::ffi::OsString;
use std::fs;
use std::path::Path;
use std::process::Command;

/// Those that the general help names: lines with two blanks before them.
fn commands() -> Vec<String> {
    let help = out(&Folder::new("commands").run(&["--help"]));
    let rows = help.lines().filter_map(|line| line.strip_prefix("  "));
    rows.filter_map(|row| row.split_whitespace().next()).map(String::from).collect()
}

#[test]
fn the_general_help_names_the_commands_there_are() {
    let modules = fs::read_dir(Path::new(env!("CARGO_MANIFEST_DIR")).join("src")).unwrap();
    let is_command = |path: &Path| {
        path.is_file() && fs::read_to_string(path).unwrap().contains("\npub const HELP: &str")
    };
    let mut there: Vec<String> = modules
        .map(|module| module.unwrap().path())
        .filter(|path| is_command(path))
        .map(|path| path.file_stem().unwrap().to_string_lossy().into_owned())
        .collect();
    there.sort();
    let mut named = commands();
    named.sort();
    assert_eq!(named, there);
}

#[test]
fn every_command_has_a_help_that_fits() {
    let folder = Folder::new("helps");
    for command in commands() {
        let help = folder.run(&[&command, "--help"]);
        assert_eq!(said(&help), said(&folder.run(&["help", &command])), "{command}");
        assert_eq!(status(&folder.run(&[&command, "x", "--help"])), 0, "{command}");
        let help = out(&help);
        assert!(help.starts_with(&format!("usage: hivesaddle {command} ")), "{help}");
        assert!(help.contains("\nexample: hivesaddle "), "{help}");
        assert!(help.lines().all(|line| line.chars().count() <= 100), "{help}");
    }
}

/// The lines from `example:` on are typed as they stand, where the examples are.
#[test]
fn every_example_works() {
    for command in commands() {
        let folder = Folder::new(&format!("example-{command}"));
        copy(&root().join("examples"), &folder.0.join("examples"));
        folder.put("examples/samples/small.pf", small());
        let help = out(&folder.run(&[&command, "--help"]));
        let (_, example) = help.split_once("\nexample: ").expect("an example");
        let output = Command::new("sh")
            .args(["-c", example])
            .current_dir(&folder.0)
            .env("PATH", path_with_program())
            .output()
            .unwrap();
        // The examples of `check` and `make` end with a file that is refused.
        let expected = if command == "check" || command == "make" { 1 } else { 0 };
        assert_eq!(status(&output), expected, "{command}: {}", said(&output));
        assert!(output.stderr.is_empty(), "{command}: {}", said(&output));
    }
}

/// Where a shell finds the built program first.
pub fn path_with_program() -> OsString {
    let program = Path::new(env!("CARGO_BIN_EXE_hivesaddle")).parent().unwrap();
    let others = std::env::var_os("PATH").unwrap_or_default();
    let all = std::iter::once(program.to_path_buf()).chain(std::env::split_paths(&others));
    std::env::join_paths(all).unwrap()
}

/// But for the samples, which are more where they have been made.
pub fn copy(from: &Path, to: &Path) {
    fs::create_dir_all(to).unwrap();
    for entry in fs::read_dir(from).unwrap().map(|entry| entry.unwrap()) {
        let target = to.join(entry.file_name());
        if entry.file_name() == "samples" {
            fs::create_dir(target).unwrap();
        } else if entry.path().is_dir() {
            copy(&entry.path(), &target);
        } else {
            fs::copy(entry.path(), target).unwrap();
        }
    }
}
