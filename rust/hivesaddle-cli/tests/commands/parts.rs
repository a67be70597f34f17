//! What stands in a file: directories and file references.

use crate::folder::{out, root, said, small, status, Folder};
use crate::help::{copy, path_with_program};
use hivesaddle::{Reference, TestFile, TestVolume};
use std::process::Command;

fn volume(path: &str, references: &[(u64, u16)], directories: &[&str]) -> TestVolume {
    let reference =
        |&(entry_index, sequence_number): &(u64, u16)| Reference { entry_index, sequence_number };
    TestVolume {
        path: path.to_string(),
        serial_number: 0x1234_ABCD,
        references: references.iter().map(reference).collect(),
        directories: directories.iter().map(|text| text.to_string()).collect(),
        ..TestVolume::default()
    }
}

/// A volume with both, and one without, in each of two files.
fn files() -> Folder {
    let folder = Folder::new("parts");
    let both = volume(r"\D", &[(40, 1), ((1 << 48) - 1, u16::MAX)], &[r"\D\WINDOWS", r"\D\USERS"]);
    let file = TestFile::new(23).volume(volume(r"\C", &[], &[])).volume(both);
    folder.put("a.pf", file.write().expect("a sound file"));
    folder.put("b.pf", TestFile::new(30).volume(volume(r"\E", &[(7, 0)], &[""])).lay_out());
    folder
}

#[test]
fn directories() {
    let folder = files();
    let shown = folder.run(&["directories", "."]);
    let expected = "1\t\\D\\WINDOWS\t./a.pf\n1\t\\D\\USERS\t./a.pf\n0\t\t./b.pf\n-- status 0\n";
    assert_eq!(said(&shown), expected);
    let csv = out(&folder.run(&["directories", "--csv", "--find", "windows", "a.pf", "b.pf"]));
    assert_eq!(csv, "volume,directory,file\n1,\\D\\WINDOWS,a.pf\n");
    let json = out(&folder.run(&["directories", "--json", "b.pf"]));
    assert_eq!(json, "[\n{\"volume\": 0, \"directory\": \"\", \"file\": \"b.pf\"}\n]\n");
    // Of a refused file those of sound volumes, here the first of two.
    folder.make("odd.pf", &out(&folder.run(&["make", "--list", "14"])));
    let shown = folder.run(&["directories", "odd.pf"]);
    assert_eq!(out(&shown), "0\t\\DEVICE\\HARDDISKVOLUME1\\WINDOWS\todd.pf\n");
    assert_eq!(status(&shown), 1);
}

/// The general help does not list it, and it has one of its own.
#[test]
fn help_of_directories() {
    let folder = Folder::new("directories-help");
    copy(&root().join("examples"), &folder.0.join("examples"));
    folder.put("examples/samples/small.pf", small());
    let help = folder.run(&["directories", "--help"]);
    assert_eq!(said(&help), said(&folder.run(&["help", "directories"])));
    let help = out(&help);
    assert!(help.starts_with("usage: hivesaddle directories "), "{help}");
    assert!(help.lines().all(|line| line.chars().count() <= 100), "{help}");
    let (_, example) = help.split_once("\nexample: ").expect("an example");
    let output = Command::new("sh")
        .args(["-c", example])
        .current_dir(&folder.0)
        .env("PATH", path_with_program())
        .output()
        .expect("a shell");
    assert_eq!(status(&output), 0, "{}", said(&output));
    assert!(!output.stdout.is_empty() && output.stderr.is_empty(), "{}", said(&output));
    // The help of `volumes` leads to it.
    assert!(out(&folder.run(&["volumes", "--help"])).contains("directories` shows"));
}

#[test]
fn references_of_volumes() {
    let folder = files();
    let shown = folder.run(&["volumes", "--references", "."]);
    let expected = "1\t\\D\t1234ABCD\t40-1\t./a.pf\n\
        1\t\\D\t1234ABCD\t281474976710655-65535\t./a.pf\n\
        0\t\\E\t1234ABCD\t7-0\t./b.pf\n-- status 0\n";
    assert_eq!(said(&shown), expected);
    let csv = out(&folder.run(&["volumes", "--references", "--csv", "b.pf"]));
    assert_eq!(csv, "volume,path,serial,reference,file\n0,\\E,0x1234ABCD,7-0,b.pf\n");
}

/// Version 17 has none.
#[test]
fn references_of_names() {
    let folder = Folder::new("references");
    for version in [23, 26, 30] {
        let mut file = TestFile::new(version).file("A").file("B").lay_out();
        let metrics = u32::from_le_bytes(file[84..88].try_into().unwrap()) as usize;
        file[metrics + 24..metrics + 32].copy_from_slice(&[0xFF, 2, 0, 0, 0, 1, 3, 0]);
        folder.put("a.pf", &file);
        let names = out(&folder.run(&["names", "--references", "a.pf"]));
        assert_eq!(names, "0\tA\ta.pf\t1099511628543-3\t\n1\tB\ta.pf\t0-0\t\n");
    }
    folder.put("a.pf", TestFile::new(17).file("A").lay_out());
    assert_eq!(out(&folder.run(&["names", "--references", "a.pf"])), "0\tA\ta.pf\t\t\n");
    // Without the option there is no such column.
    assert_eq!(out(&folder.run(&["names", "a.pf"])), "0\tA\ta.pf\n");
}
