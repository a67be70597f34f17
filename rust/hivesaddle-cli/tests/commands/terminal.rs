//! What only a terminal shows. Python has one to lend.

use crate::folder::{out, small, Folder};
use crate::slow;
use hivesaddle::TestFile;
use std::process::Stdio;

const LENT: &str = "import pty, sys; sys.exit(pty.spawn(sys.argv[1:]) >> 8)";

/// All that a command writes to a terminal of this width.
fn seen(folder: &Folder, columns: usize, words: &[&str]) -> String {
    let program = env!("CARGO_BIN_EXE_hivesaddle");
    let output = std::process::Command::new("python3")
        .args(["-c", LENT, program])
        .args(words)
        .current_dir(&folder.0)
        .env("COLUMNS", columns.to_string())
        .stdin(Stdio::null())
        .output()
        .expect("python3 starts");
    out(&output).replace("\r\n", "\n")
}

#[test]
fn a_row_of_a_list_is_one_line() {
    let folder = Folder::new("lines");
    folder.put("small.pf", small());
    let long = format!(r"\DISK\{}\LONG.EXE", "FOLDER".repeat(40));
    let file = TestFile::new(23).name("LONG.EXE").hash_of(&long).file(&long);
    folder.put("long.pf", file.write().expect("a sound file"));
    for columns in [40, 60, 80, 120, 200] {
        let listed = seen(&folder, columns, &["list", "."]);
        assert_eq!(listed.lines().count(), 3, "{listed}");
        let width = listed.lines().map(|line| line.chars().count()).max();
        assert!(width <= Some(columns), "{columns}: {listed}");
        // The end of a path says most.
        assert!(listed.contains(r"\LONG.EXE"), "{columns}: {listed}");
    }
    // The least important go first.
    let titles = |columns| seen(&folder, columns, &["list", "."]).lines().next().map(String::from);
    assert!(titles(200).is_some_and(|titles| titles.contains("chains  volumes")));
    assert!(titles(80).is_some_and(|titles| !titles.contains("chains") && titles.contains("runs")));
    // Of a long name the end is shown, beside the path.
    let deep = "folder/".repeat(12);
    std::fs::create_dir_all(folder.0.join(&deep)).unwrap();
    folder.put(format!("{deep}small.pf"), small());
    let rows = seen(&folder, 50, &["list", &deep]);
    let row = rows.lines().nth(1).unwrap_or_default();
    assert!(row.contains("/small.pf  ") && row.ends_with("CHAMBER.EXE"), "{rows}");
    assert!(row.chars().count() <= 50, "{rows}");
    let wide = seen(&folder, 80, &["list", "--wide", "."]);
    assert!(wide.contains(&long) && wide.contains("chains"), "{wide}");
}

/// Shown at once where a file is known to take long, and cleared before all that is
/// written.
#[test]
fn a_bar_for_long_work() {
    let folder = Folder::new("bar");
    folder.put("a.pf", small());
    folder.put("b.pf", slow::names());
    folder.put("c.pf", "no Prefetch file");
    let dots = ".".repeat(27);
    let bar = format!("\rreading [{}{dots}] 1 of 3 files\x1B[K", "#".repeat(13));
    let checked = seen(&folder, 80, &["check", "--patient", "."]);
    let accepted = "./a.pf: accepted\n";
    assert!(
        checked.starts_with(&format!("{accepted}{bar}\r\x1B[K./b.pf: accepted\n")),
        "{checked}"
    );
    assert!(checked.contains("\n./c.pf: refused 1"), "{checked}");
    // Of all folders, where they are named one by one.
    let lines = seen(&folder, 80, &["catalogue", "--patient", "3=a.pf", "3=b.pf", "4=a.pf"]);
    assert!(lines.contains(&bar) && lines.contains("\r\x1B[K0"), "{lines}");
    // Nothing of it in a pipe.
    let piped = folder.run(&["check", "--patient", "b.pf"]);
    assert!(piped.stderr.is_empty());
}
