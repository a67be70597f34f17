//! The commands `chart`, `starts`, `replay` and `year`, run as a person runs
//! them, beside stored outputs. With HIVESADDLE_STORE set the outputs are stored
//! anew; see what changed with `git diff`.

#[path = "../commands/folder.rs"]
mod folder;

mod chart;
mod page;
mod pulls;
mod replay;
mod table;

use folder::{err, out, root, said, status, Folder};
use std::fs;
use std::io::Write;
use std::path::{Path, PathBuf};
use std::process::{Command, Output, Stdio};

fn is_expected(name: &str, printed: &str) {
    let path = here().join("../year-expected").join(name);
    if std::env::var_os("HIVESADDLE_STORE").is_some() {
        fs::write(&path, printed).expect("the output is stored");
    }
    let expected = fs::read_to_string(&path).unwrap_or_default();
    assert!(printed == expected, "{name}: expected\n{expected}\nprinted\n{printed}");
}

fn here() -> PathBuf {
    Path::new(env!("CARGO_MANIFEST_DIR")).join("tests/year")
}

/// What each command says in a folder. Its words have blanks between them.
fn each_is_expected(folder: &Folder, cases: &[(&str, &str)]) {
    for (name, words) in cases {
        is_expected(name, &said(&run(folder, words)));
    }
}

fn run(folder: &Folder, words: &str) -> Output {
    folder.run(&words.split(' ').collect::<Vec<&str>>())
}

/// The sample, and the year of the examples.
fn example(name: &str) -> Folder {
    let folder = Folder::new(name);
    let examples = root().join("examples");
    for file in ["samples/small.pf", "year/catalogue.txt", "year/starts.txt", "year/chamber.txt"] {
        let path = examples.join(file);
        folder.put(path.file_name().expect("a name"), fs::read(&path).expect("an example"));
    }
    folder
}

/// What another program reads in an output: see read.py.
fn read_back(kind: &str, output: &[u8]) -> String {
    let mut child = Command::new("python3")
        .arg(here().join("read.py"))
        .arg(kind)
        .stdin(Stdio::piped())
        .stdout(Stdio::piped())
        .spawn()
        .expect("python3 starts");
    child.stdin.take().expect("its input").write_all(output).expect("it reads");
    let read = child.wait_with_output().expect("it ends");
    assert!(read.status.success(), "{kind} can't be read");
    out(&read)
}

/// The one line that a refused or failed command says, and nothing besides.
fn complaint(output: &Output, expected: i32) -> String {
    assert_eq!((out(output), status(output)), (String::new(), expected), "{}", err(output));
    assert_eq!(err(output).matches('\n').count(), 1);
    err(output).trim_end().trim_start_matches("hivesaddle: ").to_string()
}
