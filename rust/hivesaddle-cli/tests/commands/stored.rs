//! What each command says, beside stored outputs. With HIVESADDLE_STORE set the
//! outputs are stored anew; see what changed with `git diff`.

use crate::folder::{err, out, root, said, small, status, Folder};
use std::fs::{self, File};
use std::path::Path;
use std::process::Command;
use std::time::{Duration, SystemTime};

/// The refusals that a file can be made for.
const ODD: [u32; 17] = [1, 2, 3, 4, 5, 6, 8, 9, 10, 11, 12, 13, 14, 15, 16, 17, 21];

fn is_expected(name: &str, printed: &str) {
    let folder = Path::new(env!("CARGO_MANIFEST_DIR")).join("tests/expected");
    let path = folder.join(format!("{name}.txt"));
    if std::env::var_os("HIVESADDLE_STORE").is_some() {
        fs::write(&path, printed).expect("the output is stored");
    }
    let expected = fs::read_to_string(&path).unwrap_or_default();
    assert!(printed == expected, "{name}: expected\n{expected}\nprinted\n{printed}");
}

/// What is said in a folder with the sample and a file for each refusal.
fn each_is_expected(folder: &Folder, cases: &[(&str, &[&str])]) {
    for (name, words) in cases {
        is_expected(name, &said(&folder.run(words)));
    }
}

/// So that a list of them is always the same.
fn set_times(folder: &Folder) {
    let time = SystemTime::UNIX_EPOCH + Duration::from_secs(1_700_000_000);
    for entry in fs::read_dir(&folder.0).unwrap() {
        let file = File::options().write(true).open(entry.unwrap().path()).unwrap();
        file.set_modified(time).unwrap();
    }
}

/// The sample, a file of each refusal, and some that are accepted.
fn files(name: &str) -> Folder {
    let folder = Folder::new(name);
    folder.put("small.pf", small());
    for number in ODD {
        let description = out(&folder.run(&["make", "--list", &number.to_string()]));
        folder.make(&format!("odd-{number:02}.pf"), &description);
    }
    // Of each version, and one whose path has the hash less 6.
    let switched = "hash 0x158781ED\nfile A";
    folder.make("switch.pf", &format!("version 17\nname A.EXE\n{switched}\nrun-time 1\nchain 2 3"));
    // A hosting program, whose hash no file has, and one that is not among its files.
    let host = "hash 0x12345678\nfile \\DISK\\HOST.DLL\nfile \\DISK\\HOST.EXE";
    folder.make("host.pf", &format!("version 23\nname HOST.EXE\n{host}"));
    folder.make("strange.pf", &format!("version 23\nname STRANGE.EXE\n{host}"));
    folder.make("eight.pf", "version 26\nodd\nname EIGHT.EXE\nhash-of B\nfile B\nchain 1");
    folder
        .make("ten.pf", "version 30\nodd\nname TEN.EXE\nbytes-at 84 30 01 00 00\nbytes-at 208 07");
    set_times(&folder);
    folder
}

#[test]
fn lists() {
    each_is_expected(
        &files("lists"),
        &[
            ("list", &["list", "small.pf"]),
            ("list-folder", &["list", "."]),
            ("list-csv", &["list", "--csv", "."]),
            ("list-json", &["list", ".", "--json"]),
            ("list-nothing", &["list"]),
            ("list-both", &["list", "--csv", "--json", "small.pf"]),
            ("list-option", &["list", "--xml", "small.pf"]),
            ("list-missing", &["list", "small.pf", "missing.pf", "small.pf"]),
        ],
    );
}

#[test]
fn checks() {
    let folder = files("checks");
    for number in ODD {
        let file = format!("odd-{number:02}.pf");
        let output = folder.run(&["check", &file]);
        assert_eq!(status(&output), 1);
        assert!(out(&output).starts_with(&format!("{file}: refused {number}: ")));
    }
    each_is_expected(
        &folder,
        &[("check", &["check", "."]), ("check-small", &["check", "small.pf"])],
    );
}

/// Those that tools/make-samples writes.
#[test]
fn samples() {
    let folder = Folder::new("samples");
    let made = Command::new(root().join("tools/make-samples")).arg(&folder.0).status();
    assert!(made.expect("tools/make-samples starts").success());
    each_is_expected(
        &folder,
        &[
            ("samples-list", &["list", "."]),
            ("samples-check", &["check", "."]),
            ("samples-catalogue", &["catalogue", "."]),
            ("samples-names", &["names", "unpacked.pf"]),
            ("samples-volumes", &["volumes", "volume.pf"]),
        ],
    );
}

/// Files that end before the field at fault, and one that is compressed.
#[test]
fn checks_of_short_files() {
    let folder = Folder::new("short");
    folder.put("three.pf", &small()[..3]);
    folder.put("fourteen.pf", &small()[..14]);
    folder.put("head.pf", &small()[..100]);
    folder.put("letter.pf", "M");
    folder.put("packed.pf", b"MAM\x04\x10\0\0\0packed");
    folder.put("text.pf", "version 23\n");
    set_times(&folder);
    each_is_expected(
        &folder,
        &[("check-short", &["check", "."]), ("list-short", &["list", "--csv", "."])],
    );
    let packed = "packed.pf: refused 1: compressed (MAM); unpack it first, with another tool\n";
    for words in [
        "names packed.pf",
        "volumes packed.pf",
        "catalogue packed.pf",
        "starts 3=packed.pf",
        "chart packed.pf packed.svg",
    ] {
        let output = folder.run(&words.split(' ').collect::<Vec<&str>>());
        assert_eq!((err(&output), status(&output)), (format!("hivesaddle: {packed}"), 1));
    }
}

#[test]
fn parts_of_a_file() {
    each_is_expected(
        &files("parts"),
        &[
            ("names", &["names", "small.pf"]),
            ("names-refused", &["names", "--csv", "odd-09.pf"]),
            ("names-none", &["names", "--csv", "odd-02.pf"]),
            ("names-two", &["names", "small.pf", "odd-09.pf"]),
            ("volumes", &["volumes", "small.pf"]),
            ("volumes-json", &["volumes", "small.pf", "--json"]),
            ("volumes-refused", &["volumes", "odd-14.pf"]),
            ("volumes-none", &["volumes", "--json", "odd-02.pf"]),
            ("volumes-folder", &["volumes", "."]),
        ],
    );
}

/// Of each refusal, what is still sound.
#[test]
fn parts_of_refused_files() {
    let folder = files("refused");
    for command in ["names", "volumes"] {
        let of = |number| {
            let file = format!("odd-{number:02}.pf");
            format!("$ hivesaddle {command} {file}\n{}", said(&folder.run(&[command, &file])))
        };
        is_expected(&format!("{command}-odd"), &ODD.map(of).concat());
    }
}

#[test]
fn catalogues() {
    let folder = files("catalogues");
    each_is_expected(
        &folder,
        &[
            ("catalogue", &["catalogue", "small.pf", "switch.pf", "eight.pf", "ten.pf"]),
            ("catalogue-folder", &["catalogue", ".", "missing.pf"]),
            ("catalogue-nothing", &["catalogue"]),
        ],
    );
    for line in folder.run(&["catalogue", "."]).stdout.chunks(27) {
        assert!(hivesaddle::catalogue_read(line).is_ok());
    }
}

#[test]
fn makes() {
    let folder = Folder::new("makes");
    folder.put(
        "sound.txt",
        "\u{FEFF}version 17\r\nname A.EXE\r\nhash-of A\r\nfile A\r\nchain 2 3\r\n",
    );
    folder.put("ring.txt", "version 23\ntrace 1 8\ntrace 0 8\n");
    folder.put("odd.txt", "version 23\ntrace 1 8\ntrace 0 8\nodd\n");
    folder.put("wrong.txt", "version 23\n# a slip\nnmae A.EXE\n");
    folder.put("ten.txt", "version 30\nname A.EXE\n");
    folder.put("long.txt", "version 23\nfile-length 67108866\n");
    folder.put("empty.txt", "");
    folder.put("latin.txt", b"version 23\nname \xC4.EXE\n");
    each_is_expected(
        &folder,
        &[
            ("make", &["make", "sound.txt", "made.pf"]),
            ("make-odd", &["make", "odd.txt", "made.pf"]),
            ("make-refused", &["make", "ring.txt", "refused.pf"]),
            ("make-version", &["make", "ten.txt", "refused.pf"]),
            ("make-wrong", &["make", "wrong.txt", "wrong.pf"]),
            ("make-long", &["make", "long.txt", "wrong.pf"]),
            ("make-empty", &["make", "empty.txt", "wrong.pf"]),
            ("make-latin", &["make", "latin.txt", "wrong.pf"]),
            ("make-nowhere", &["make", "sound.txt", "nowhere/made.pf"]),
            ("make-itself", &["make", "sound.txt", "./sound.txt"]),
            ("make-one", &["make", "sound.txt"]),
            ("make-list", &["make", "--list"]),
            ("make-list-two", &["make", "--list", "13", "9"]),
            ("make-list-none", &["make", "--list", "7"]),
        ],
    );
    // What was there is written over, and nothing is made of what is wrong.
    assert_eq!(folder.read("made.pf").len(), 264);
    assert!(!folder.0.join("refused.pf").exists() && !folder.0.join("wrong.pf").exists());
    let made = folder.run_with(&["make", "-", "-"], b"version 17\nname A.EXE");
    assert_eq!((made.stdout.len(), err(&made), status(&made)), (152, String::new(), 0));
}

#[test]
fn the_program_itself() {
    let folder = Folder::new("itself");
    each_is_expected(
        &folder,
        &[
            ("help", &["--help"]),
            ("no-command", &[]),
            ("unknown-command", &["lits\u{1B}"]),
            ("unknown-help", &["help", "lits"]),
        ],
    );
    let version = out(&folder.run(&["--version"]));
    assert_eq!(version, format!("hivesaddle {}\n", env!("CARGO_PKG_VERSION")));
    for words in [&["help"][..], &["-h"], &["help", "--help"]] {
        assert_eq!(out(&folder.run(words)), out(&folder.run(&["--help"])));
    }
}
