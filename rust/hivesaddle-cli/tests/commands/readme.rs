//! README's command-line part: every command line of it is typed as it stands,
//! and prints what stands below it.

use crate::folder::{root, said, small, Folder};
use crate::help::{copy, path_with_program};
use std::fs;
use std::process::Command;

/// Command lines, and what the last of them prints.
struct Example {
    commands: Vec<String>,
    printed: Vec<String>,
}

/// Indented blocks. One that begins with the program's name is command lines, and
/// one behind it that does not is what they print.
fn examples(text: &str) -> Vec<Example> {
    let mut examples: Vec<Example> = Vec::new();
    let mut before = String::new();
    for block in text.split("\n\n") {
        let lines: Vec<String> =
            block.lines().filter_map(|line| line.strip_prefix("    ")).map(String::from).collect();
        let is_code = lines.len() == block.trim_start_matches('\n').lines().count();
        if is_code && lines.first().is_some_and(|line| line.starts_with("hivesaddle ")) {
            examples.push(Example { commands: lines, printed: Vec::new() });
            before = "commands".to_string();
            continue;
        }
        if let (true, "commands", Some(last)) = (is_code, before.as_str(), examples.last_mut()) {
            last.printed = lines;
        }
        before = String::new();
    }
    examples
}

/// The cells of a row, on a terminal or in a pipe.
fn cells(line: &str) -> Vec<String> {
    let spaced = line.replace('\t', "  ");
    spaced.split("  ").map(str::trim).filter(|cell| !cell.is_empty()).map(String::from).collect()
}

#[test]
fn every_command_line_prints_what_it_says() {
    let readme = fs::read_to_string(root().join("README.md")).expect("README.md");
    let (_, part) = readme.split_once("## Use it from the command line\n").expect("the part");
    let (part, _) = part.split_once("\n## ").expect("its end");
    let folder = Folder::new("readme");
    copy(&root().join("examples"), &folder.0.join("examples"));
    folder.put("examples/samples/small.pf", small());
    let examples = examples(part);
    assert!(examples.len() >= 8, "{}", examples.len());
    for Example { commands, printed } in examples {
        let output = Command::new("sh")
            .args(["-c", &commands.join("\n")])
            .current_dir(&folder.0)
            .env("PATH", path_with_program())
            .output()
            .expect("a shell");
        assert!(output.stderr.is_empty(), "{commands:?}: {}", said(&output));
        let text = String::from_utf8_lossy(&output.stdout).into_owned();
        let expected: Vec<Vec<String>> = printed.iter().map(|line| cells(line)).collect();
        let got: Vec<Vec<String>> = text.lines().map(cells).collect();
        // What earlier commands say comes first, and a table in a pipe has no titles.
        let titles = usize::from(text.contains('\t'));
        let wanted = &expected[titles.min(expected.len())..];
        let is_said = printed.is_empty() || !wanted.is_empty() && got.ends_with(wanted);
        assert!(is_said, "{commands:?} prints\n{text}");
    }
}
