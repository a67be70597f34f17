//! Bad input: a row or a line says so, and the others still come.

use crate::folder::{err, out, small, status, Folder};
use std::fs::{self, File, OpenOptions};
use std::io::{BufRead, BufReader, Write};
use std::process::{Command, Output, Stdio};
use std::sync::atomic::{AtomicBool, Ordering};

/// The first field of each row, and the last.
fn ends(rows: &str) -> Vec<(String, String)> {
    let of = |row: &str| {
        let fields: Vec<&str> = row.split('\t').collect();
        (fields[0].to_string(), fields[fields.len() - 1].to_string())
    };
    rows.lines().map(of).collect()
}

const FOUND: &str = r"\DEVICE\HARDDISKVOLUME1\PROGRAM FILES\CHAMBER\CHAMBER.EXE";

fn sparse(folder: &Folder, name: &str, length: u64) {
    let file = File::create(folder.0.join(name)).unwrap();
    file.set_len(length).unwrap();
}

#[test]
fn files_without_bytes_to_show() {
    let folder = Folder::new("bad");
    folder.put("empty.pf", "");
    folder.put("small.pf", small());
    sparse(&folder, "above.pf", 67_108_865);
    sparse(&folder, "largest.pf", 67_108_864);
    let listed = folder.run(&["list", "missing.pf", "."]);
    let expected = [
        ("missing.pf", "cannot read: No such file or directory"),
        ("./above.pf", "above the limit of 67108864 bytes"),
        ("./empty.pf", "empty"),
        ("./largest.pf", "refused 1 0 at 0x0: the version is not 17, 23, 26 or 30"),
        ("./small.pf", FOUND),
    ];
    let expected = expected.map(|(file, problem)| (file.to_string(), problem.to_string()));
    assert_eq!(ends(&out(&listed)), expected);
    assert_eq!((status(&listed), err(&listed)), (2, String::new()));

    let checked = folder.run(&["check", "empty.pf", "above.pf", "small.pf"]);
    assert_eq!((out(&checked), status(&checked)), ("small.pf: accepted\n".to_string(), 2));
    let said = "hivesaddle: empty.pf: empty\n\
                hivesaddle: above.pf: above the limit of 67108864 bytes\n";
    assert_eq!(err(&checked), said);
}

#[test]
fn folders() {
    let folder = Folder::new("folders");
    for name in ["inner", "inner/deep.pf", "none"] {
        fs::create_dir(folder.0.join(name)).unwrap();
    }
    folder.put("none/readme.txt", "no file of ours");
    for name in ["inner/b.PF", "inner/a.pf", "inner/C.pF", "inner/d.pf.bak", "inner/pf"] {
        folder.put(name, small());
    }
    folder.put("inner/deep.pf/e.pf", small());
    let listed = folder.run(&["list", "none", "inner"]);
    let files = ["none", "inner/C.pF", "inner/a.pf", "inner/b.PF"];
    let problems = ["no .pf files in this folder", FOUND, FOUND, FOUND];
    let expected: Vec<(String, String)> =
        files.iter().zip(problems).map(|(file, last)| (file.to_string(), last.into())).collect();
    assert_eq!(ends(&out(&listed)), expected);
    assert_eq!(status(&listed), 2);
}

#[cfg(unix)]
#[test]
fn what_may_not_be_read() {
    use std::os::unix::fs::{symlink, PermissionsExt};
    let folder = Folder::new("closed");
    fs::create_dir(folder.0.join("closed")).unwrap();
    folder.put("closed/a.pf", small());
    folder.put("closed.pf", small());
    folder.put("open.pf", small());
    symlink("nowhere", folder.0.join("link.pf")).unwrap();
    symlink("open.pf", folder.0.join("other.pf")).unwrap();
    // Nobody writes to it, so that it would be waited for.
    let made = Command::new("mkfifo").arg(folder.0.join("pipe")).status().unwrap();
    assert!(made.success());
    symlink("pipe", folder.0.join("pipe.pf")).unwrap();
    for name in ["closed", "closed.pf"] {
        fs::set_permissions(folder.0.join(name), fs::Permissions::from_mode(0o000)).unwrap();
    }
    let listed = ends(&out(&folder.run(&["list", "closed", "."])));
    // The superuser reads them all the same.
    let is_closed = File::open(folder.0.join("closed.pf")).is_err();
    fs::set_permissions(folder.0.join("closed"), fs::Permissions::from_mode(0o700)).unwrap();
    let of = |name: &str| listed.iter().find(|row| row.0 == name).map(|row| row.1.as_str());
    if is_closed {
        assert_eq!(of("closed"), Some("cannot read: Permission denied"));
        assert_eq!(of("./closed.pf"), Some("cannot read: Permission denied"));
    }
    assert_eq!(of("./link.pf"), Some("cannot read: No such file or directory"));
    assert_eq!(
        [of("./open.pf"), of("./other.pf"), of("./pipe.pf")],
        [Some(FOUND), Some(FOUND), None]
    );
}

/// What is said of a file that another thread makes longer all the while.
fn list_while_it_grows(folder: &Folder) -> Output {
    sparse(folder, "grows.pf", 60_000_000);
    let mut file = OpenOptions::new().append(true).open(folder.0.join("grows.pf")).unwrap();
    let ended = AtomicBool::new(false);
    std::thread::scope(|scope| {
        scope.spawn(|| {
            while !ended.load(Ordering::Relaxed) {
                file.write_all(b"x").unwrap();
            }
        });
        let listed = folder.run(&["list", "grows.pf", "small.pf"]);
        ended.store(true, Ordering::Relaxed);
        listed
    })
}

#[test]
fn a_file_that_changes_while_it_is_read() {
    let folder = Folder::new("grows");
    folder.put("small.pf", small());
    // On a busy machine the other thread may have to wait the whole time.
    let is_seen = (0..20).any(|_| {
        let listed = list_while_it_grows(&folder);
        let rows = ends(&out(&listed));
        assert_eq!(rows[1].1, FOUND);
        rows[0].1 == "changed while it was read" && status(&listed) == 2
    });
    assert!(is_seen);
}

#[test]
fn standard_input() {
    let folder = Folder::new("input");
    for name in ["-", "/dev/stdin"] {
        let listed = folder.run_with(&["list", name], &small());
        assert_eq!(ends(&out(&listed)), [(name.to_string(), FOUND.to_string())]);
    }
    let checked = folder.run_with(&["check", "--", "-"], &small());
    assert_eq!(out(&checked), "-: accepted\n");
    let named = folder.run_with(&["names", "-"], &small());
    assert_eq!((out(&named).lines().count(), status(&named)), (6, 0));
    let nothing = folder.run_with(&["list", "-"], b"");
    assert_eq!((ends(&out(&nothing))[0].1.as_str(), status(&nothing)), ("empty", 2));
    let endless = folder.run_with(&["list", "/dev/zero"], b"");
    assert_eq!(ends(&out(&endless))[0].1, "above the limit of 67108864 bytes");
}

#[test]
fn standard_input_is_there_once() {
    let folder = Folder::new("once");
    for (command, words) in [
        ("list", "- -"),
        ("check", "- small.pf -"),
        ("catalogue", "- -"),
        ("starts", "3=- 7=-"),
        ("year", "a b - --names -"),
    ] {
        let words: Vec<&str> = std::iter::once(command).chain(words.split(' ')).collect();
        let output = folder.run_with(&words, &small());
        let once = "only one of the files can be -; see hivesaddle help";
        let expected = format!("hivesaddle: {command}: {once} {command}\n");
        assert_eq!((out(&output), err(&output)), (String::new(), expected));
        assert_eq!(status(&output), 2);
    }
}

/// `hivesaddle list .. | head` ends quietly.
#[test]
fn a_reader_that_has_seen_enough() {
    let folder = Folder::new("enough");
    folder.put("small.pf", small());
    for command in ["list", "check", "catalogue"] {
        let mut child = folder
            .command()
            .arg(command)
            .args(vec!["small.pf"; 8_000])
            .stdout(Stdio::piped())
            .stderr(Stdio::piped())
            .spawn()
            .unwrap();
        let mut line = String::new();
        BufReader::with_capacity(64, child.stdout.take().unwrap()).read_line(&mut line).unwrap();
        let output = child.wait_with_output().unwrap();
        assert_eq!((err(&output), status(&output)), (String::new(), 0), "{command}");
    }
}

/// What was refused before that is not forgotten.
#[test]
fn a_reader_that_has_seen_enough_after_a_refusal() {
    let folder = Folder::new("enough-refused");
    folder.put("small.pf", small());
    folder.put("odd.pf", "no Prefetch file");
    for command in ["list", "check"] {
        let mut child = folder
            .command()
            .args([command, "odd.pf"])
            .args(vec!["small.pf"; 8_000])
            .stdout(Stdio::piped())
            .spawn()
            .unwrap();
        let mut line = String::new();
        BufReader::with_capacity(64, child.stdout.take().unwrap()).read_line(&mut line).unwrap();
        assert!(line.contains("refused 1"), "{line}");
        assert_eq!(child.wait().unwrap().code(), Some(1), "{command}");
    }
}

/// A pipe that nobody writes to takes as long as can be. Rows before it are there.
#[test]
fn rows_before_a_file_that_takes_long() {
    let folder = Folder::new("long");
    folder.put("small.pf", small());
    let pipe = folder.0.join("pipe");
    assert!(Command::new("mkfifo").arg(&pipe).status().unwrap().success());
    for words in [
        &["list", "small.pf", "pipe"][..],
        &["list", "--json", "small.pf", "pipe"],
        &["check", "small.pf", "pipe"],
        &["catalogue", "small.pf", "pipe"],
    ] {
        let mut child =
            folder.command().args(words).stdout(Stdio::piped()).stderr(Stdio::null()).spawn();
        let child = child.as_mut().unwrap();
        let (send, receive) = std::sync::mpsc::channel();
        let mut out = BufReader::new(child.stdout.take().unwrap());
        let reader = std::thread::spawn(move || {
            let mut line = String::new();
            out.read_line(&mut line).unwrap();
            send.send(line).unwrap();
        });
        let line = receive.recv_timeout(std::time::Duration::from_secs(20));
        // Lets it go on, and end.
        child.kill().unwrap();
        child.wait().unwrap();
        reader.join().unwrap();
        assert!(line.is_ok_and(|line| !line.is_empty()), "{words:?}");
    }
}

/// A device that is full is no reader that has seen enough.
#[cfg(target_os = "linux")]
#[test]
fn output_that_can_not_be_written() {
    let folder = Folder::new("full");
    folder.put("small.pf", small());
    for words in [&["list", "small.pf"][..], &["--help"], &["make", "--list"]] {
        let full = OpenOptions::new().write(true).open("/dev/full").unwrap();
        let output = folder.command().args(words).stdout(full).output().unwrap();
        let expected = "hivesaddle: standard output: No space left on device\n";
        assert_eq!((err(&output).as_str(), status(&output)), (expected, 2), "{words:?}");
    }
}
