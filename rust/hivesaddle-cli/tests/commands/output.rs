//! Outputs: nothing that was there is lost.

use crate::folder::{err, out, said, small, status, Folder};
use std::fs::{self, File};
use std::os::unix::fs::{symlink, PermissionsExt};
use std::path::Path;
use std::process::{Command, Output, Stdio};

const STARTS: &str = "00000000000000050300000041\n";
const CATALOGUE: &str = "00000094000000410000000111\n";
const RECORDING: &str = "000000000000000503FF38\n";

/// A year of one reading.
fn year(name: &str) -> Folder {
    let folder = Folder::new(name);
    folder.put("catalogue.txt", CATALOGUE);
    folder.put("starts.txt", STARTS);
    folder.put("recording.txt", RECORDING);
    folder
}

fn page(folder: &Folder, out: &str) -> Output {
    folder.run(&["year", "catalogue.txt", "starts.txt", "recording.txt", "--html", out])
}

fn is_page(folder: &Folder, name: &str) -> bool {
    folder.read(name).starts_with(b"<!DOCTYPE html>")
}

/// The names in a folder, in order.
fn names_in(path: &Path) -> Vec<String> {
    let entries = fs::read_dir(path).expect("a folder");
    let name = |entry: fs::DirEntry| entry.file_name().to_string_lossy().into_owned();
    let mut names: Vec<String> = entries.map(|entry| name(entry.expect("an entry"))).collect();
    names.sort();
    names
}

/// By another name, or as standard input.
#[test]
fn inputs_are_not_written_over() {
    let folder = year("inputs");
    fs::hard_link(folder.0.join("recording.txt"), folder.0.join("hard.txt")).unwrap();
    symlink("hard.txt", folder.0.join("soft.txt")).unwrap();
    for name in ["hard.txt", "soft.txt", "./recording.txt"] {
        let made = page(&folder, name);
        let what = "is what it would be made from; give it another name";
        assert_eq!(err(&made), format!("hivesaddle: {name}: {what}\n"));
        assert_eq!(status(&made), 2);
    }
    for name in ["recording.txt", "hard.txt"] {
        let words = ["year", "catalogue.txt", "starts.txt", "-", "--html", name];
        let input = File::open(folder.0.join("recording.txt")).unwrap();
        let made = folder.command().args(words).stdin(input).output().unwrap();
        assert!(err(&made).contains("is what it would be made from"), "{}", said(&made));
    }
    folder.put("sound.txt", "version 17\nname A.EXE\n");
    let input = File::open(folder.0.join("sound.txt")).unwrap();
    let made = folder.command().args(["make", "-", "sound.txt"]).stdin(input).output().unwrap();
    assert!(err(&made).contains("is what it would be made from"), "{}", said(&made));
    assert_eq!(folder.read("sound.txt"), b"version 17\nname A.EXE\n");
    assert_eq!(folder.read("recording.txt"), RECORDING.as_bytes());
}

/// A limit on the size of files stands for a disk that is full.
#[test]
fn a_full_disk_leaves_the_old_file() {
    let folder = year("full");
    let before = names_in(&folder.0);
    let limited = |out: &str| {
        let script = "trap '' XFSZ; ulimit -f 2; exec \"$0\" \"$@\"";
        let program = env!("CARGO_BIN_EXE_hivesaddle");
        let words = ["year", "catalogue.txt", "starts.txt", "recording.txt", "--html", out];
        let mut shell = Command::new("sh");
        shell.args(["-c", script, program]).args(words).current_dir(&folder.0).output().unwrap()
    };
    let made = limited("year.html");
    assert!(err(&made).starts_with("hivesaddle: year.html: cannot write: "), "{}", said(&made));
    assert_eq!((status(&made), names_in(&folder.0)), (2, before));
    folder.put("year.html", "as it was");
    let before = names_in(&folder.0);
    assert_eq!(status(&limited("year.html")), 2);
    assert_eq!((folder.read("year.html"), names_in(&folder.0)), (b"as it was".to_vec(), before));
}

#[test]
fn links_are_followed_and_the_mode_is_kept() {
    let folder = year("links");
    fs::create_dir(folder.0.join("inner")).unwrap();
    folder.put("inner/old.html", "old");
    let mode = |name: &str| fs::metadata(folder.0.join(name)).unwrap().permissions().mode() & 0o777;
    fs::set_permissions(folder.0.join("inner/old.html"), fs::Permissions::from_mode(0o640))
        .unwrap();
    symlink("inner/link.html", folder.0.join("first.html")).unwrap();
    symlink("old.html", folder.0.join("inner/link.html")).unwrap();
    symlink("inner/new.html", folder.0.join("nothing.html")).unwrap();
    for name in ["first.html", "nothing.html"] {
        assert_eq!(said(&page(&folder, name)), "-- status 0\n");
        assert!(fs::symlink_metadata(folder.0.join(name)).unwrap().is_symlink());
    }
    assert_eq!(names_in(&folder.0.join("inner")), ["link.html", "new.html", "old.html"]);
    assert!(is_page(&folder, "inner/old.html") && is_page(&folder, "inner/new.html"));
    assert_eq!(mode("inner/old.html"), 0o640);
    symlink("round.html", folder.0.join("round.html")).unwrap();
    assert_eq!(status(&page(&folder, "round.html")), 2);
}

/// What keeps nothing is written to directly.
#[test]
fn devices_and_pipes() {
    let folder = year("devices");
    assert_eq!(said(&page(&folder, "/dev/null")), "-- status 0\n");
    assert!(out(&page(&folder, "/dev/stdout")).starts_with("<!DOCTYPE html>"));
    let pipe = folder.0.join("pipe");
    assert!(Command::new("mkfifo").arg(&pipe).status().unwrap().success());
    let reader = Command::new("cat").arg(&pipe).stdout(Stdio::piped()).spawn().unwrap();
    assert_eq!(said(&page(&folder, "pipe")), "-- status 0\n");
    assert!(out(&reader.wait_with_output().unwrap()).ends_with("</html>\n"));
    let full = page(&folder, "/dev/full");
    assert_eq!(err(&full), "hivesaddle: /dev/full: cannot write: No space left on device\n");
}

/// Windows has 15 or 17 at 8, and what is made has 0.
#[test]
fn files_of_windows_are_not_made_anew() {
    let folder = Folder::new("made");
    let description = b"version 17\nname A.EXE\n";
    let make = |name: &str| folder.run_with(&["make", "-", name], description);
    for number in [15, 17] {
        let mut file = small();
        file[8] = number;
        folder.put("real.pf", &file);
        let made = make("real.pf");
        let over = "is a Prefetch file that was not made with this command; give another name";
        assert_eq!(err(&made), format!("hivesaddle: real.pf: {over}\n"));
        assert_eq!((status(&made), folder.read("real.pf")), (2, file));
    }
    folder.put("packed.pf", b"MAM\x04\x10\0\0\0packed");
    assert_eq!(status(&make("packed.pf")), 2);
    for old in [small(), b"short".to_vec(), Vec::new(), b"a text that is longer".to_vec()] {
        folder.put("made.pf", old);
        assert_eq!((status(&make("made.pf")), folder.read("made.pf").len()), (0, 152));
        assert_eq!(status(&make("made.pf")), 0);
    }
}

/// Each version has its own places for what is said of it.
#[test]
fn odd_files_of_every_version() {
    let folder = Folder::new("versions");
    let lines = "name A.EXE\nhash-of A\nrun-time 7\nrun-count 42\nfile A\nfile B\n\
        chain 3 1\nchain 4\nvolume C\nserial 0x1234ABCD\ndirectory D\n";
    for version in [17, 23, 26, 30] {
        let name = format!("{version}.pf");
        folder.make(&name, &format!("version {version}\nodd\n{lines}"));
        let chains = if version == 30 { 0 } else { 2 };
        let row = out(&folder.run(&["list", &name]));
        let fields: Vec<&str> = row.trim_end().split('\t').collect();
        let expected = [&version.to_string(), "42", "1601-01-01T00:00:00.0000007Z", "2"];
        assert_eq!(fields[3..7], expected);
        assert_eq!(fields[7..], [&chains.to_string(), "1", "A"]);
        assert!(out(&folder.run(&["volumes", &name])).contains("\t1234ABCD\t"));
        // Without `odd`, the writer's versions alone; with bytes changed too.
        for change in ["", "bytes-at 8 11\n"] {
            let text = format!("version {version}\n{lines}{change}");
            let made = folder.run_with(&["make", "-", "plain.pf"], text.as_bytes());
            assert_eq!(status(&made), if version < 26 { 0 } else { 1 }, "{}", said(&made));
            let _ = fs::remove_file(folder.0.join("plain.pf"));
        }
    }
}
