//! What an analyst does every day.

use crate::folder::{err, out, said, small, status, Folder};
use hivesaddle::{TestFile, TestVolume};
use std::fs;
use std::os::unix::fs::symlink;
use std::process::Command;

const DISK: &str = r"\DEVICE\HARDDISKVOLUME1";
/// 2024-11-16T01:30:00Z, and as seconds since 1970.
const TIME: u64 = 133_761_942_000_000_000;
const SECONDS: u64 = 1_731_720_600;

/// Version 26 with these run times, a path and a volume.
fn file(name: &str, times: &[u64]) -> Vec<u8> {
    let path = format!(r"{DISK}\WINDOWS\{name}");
    let volume = TestVolume {
        path: DISK.into(),
        serial_number: 0x1234_5678,
        creation_time: TIME,
        ..TestVolume::default()
    };
    let file = TestFile::new(26).name(name).hash_of(&path).run_count(9);
    let mut file = file.file(r"\X\NTDLL.DLL").file(&path).volume(volume).lay_out();
    for (i, time) in times.iter().enumerate() {
        file[128 + 8 * i..][..8].copy_from_slice(&time.to_le_bytes());
    }
    file
}

fn hash(name: &str) -> u32 {
    let path: Vec<u8> =
        format!(r"{DISK}\WINDOWS\{name}").encode_utf16().flat_map(u16::to_le_bytes).collect();
    hivesaddle::hash_vista_bytes(&path)
}

#[test]
fn a_timeline() {
    let folder = Folder::new("timeline");
    let minute = 600_000_000;
    folder.put("a.pf", file("A.EXE", &[TIME + 2 * minute, TIME]));
    folder.put("b.pf", file("B|.EXE", &[TIME + minute]));
    // A later pull of the first.
    folder.put("c.pf", file("A.EXE", &[TIME + 3 * minute, TIME + 2 * minute, 0, TIME]));
    let shown = folder.run(&["timeline", "."]);
    let row = |minutes: u64, name: &str, which: &str, file: &str| {
        let path = format!(r"{DISK}\WINDOWS\{name}");
        let time = format!("2024-11-16T01:3{minutes}:00.0000000Z");
        let hash = hash(name);
        format!("{time}\t{name}\t{path}\t{which}\t9\t{hash:08X}\t12345678\t./{file}\tby hash\n")
    };
    let expected = [
        row(0, "A.EXE", "2\t2", "a.pf"),
        row(1, "B|.EXE", "1\t1", "b.pf"),
        row(2, "A.EXE", "1\t2", "a.pf"),
        row(3, "A.EXE", "1\t3", "c.pf"),
    ];
    assert_eq!(said(&shown), format!("{}-- status 0\n", expected.concat()));
    let csv = out(&folder.run(&["timeline", "--csv", "b.pf"]));
    let titles = "time,program,path,start,of,runs,hash,serial,file,path_found\n";
    assert!(csv.starts_with(titles) && csv.contains(",0x12345678,b.pf,by hash\n"), "{csv}");
    let json = out(&folder.run(&["timeline", "--json", "b.pf"]));
    assert!(json.contains("\"serial\": \"12345678\", \"file\": \"b.pf\""), "{json}");

    let body = out(&folder.run(&["timeline", "--bodyfile", "a.pf", "b.pf"]));
    let line = |minutes: u64, name: &str, file: &str| {
        let seconds = SECONDS + 60 * minutes;
        format!("0|{DISK}\\WINDOWS\\{name} (prefetch {file})|0|0|0|0|0|{seconds}|0|0|0\n")
    };
    let b = line(1, r"B\u{7C}.EXE", "b.pf");
    assert_eq!(body, [line(0, "A.EXE", "a.pf"), b, line(2, "A.EXE", "a.pf")].concat());
    assert_eq!(status(&folder.run(&["timeline", "--bodyfile", "--csv", "."])), 2);
    folder.put("odd.pf", "no Prefetch file");
    let shown = folder.run(&["timeline", "."]);
    assert_eq!((status(&shown), out(&shown).lines().count()), (1, 4));
}

#[test]
fn names_over_many_files() {
    let folder = Folder::new("find");
    folder.put("a.pf", file("A.EXE", &[]));
    folder.put("b.pf", file("B.EXE", &[]));
    let found = out(&folder.run(&["names", "--find", "ntDLL", "."]));
    assert_eq!(found, "0\t\\X\\NTDLL.DLL\t./a.pf\n0\t\\X\\NTDLL.DLL\t./b.pf\n");
    let found = out(&folder.run(&["names", "--find=windows\\b", "--csv", "a.pf", "b.pf"]));
    assert_eq!(found, format!("entry,name,file\n1,{DISK}\\WINDOWS\\B.EXE,b.pf\n"));
    let none = folder.run(&["names", "--find", "nowhere", "."]);
    assert_eq!(said(&none), "-- status 0\n");
    let volumes = out(&folder.run(&["volumes", "."]));
    assert_eq!(volumes.lines().count(), 2);
    assert!(volumes.ends_with("\t./b.pf\n"), "{volumes}");
}

#[test]
fn references_over_many_files() {
    let folder = Folder::new("find-references");
    folder.put("a.pf", file("A.EXE", &[]));
    folder.put("b.pf", file("B.EXE", &[]));
    let found = out(&folder.run(&["names", "--references", "--find", "ntDLL", "."]));
    let row = |file: &str| format!("0\t\\X\\NTDLL.DLL\t./{file}.pf\t0-0\t\n");
    assert_eq!(found, row("a") + &row("b"));
    let words = ["names", "--references", "--find=windows\\b", "--csv", "a.pf", "b.pf"];
    let titles = "entry,name,file,reference,program";
    let expected = format!("{titles}\n1,{DISK}\\WINDOWS\\B.EXE,b.pf,0-0,by hash\n");
    assert_eq!(out(&folder.run(&words)), expected);
}

#[test]
fn folders_inside_folders() {
    let folder = Folder::new("recursive");
    fs::create_dir_all(folder.0.join("top/inner/deep")).unwrap();
    folder.put("top/inner/b.pf", small());
    folder.put("top/inner/deep/a.pf", small());
    // Known by how they begin.
    folder.put("top/inner/evidence.bin", small());
    folder.put("top/inner/packed", b"MAM\x04\x10\0\0\0packed");
    folder.put("top/inner/notes.txt", "MAMMALS, and no file of ours");
    symlink("..", folder.0.join("top/inner/loop")).unwrap();
    let listed = folder.run(&["list", "top"]);
    let subfolders = "no .pf files in this folder; --recursive looks into its subfolders";
    assert!(out(&listed).trim_end().ends_with(subfolders), "{}", out(&listed));
    assert_eq!(status(&listed), 2);
    let listed = folder.run(&["list", "--recursive", "top"]);
    let files: Vec<String> =
        out(&listed).lines().filter_map(|row| row.split('\t').next()).map(String::from).collect();
    let inner =
        ["b.pf", "evidence.bin", "packed", "deep/a.pf"].map(|file| format!("top/inner/{file}"));
    assert_eq!((files, status(&listed)), (inner.to_vec(), 1));
    for words in [
        &["check", "--recursive", "top"][..],
        &["names", "--recursive", "top"],
        &["volumes", "--recursive", "top"],
        &["timeline", "--recursive", "top"],
        &["catalogue", "--recursive", "3=top"],
        &["starts", "--recursive", "3=top"],
    ] {
        let shown = folder.run(words);
        assert_eq!(status(&shown), 1, "{words:?}: {}", said(&shown));
        assert!(!out(&shown).is_empty());
    }
    fs::create_dir_all(folder.0.join("bare/bare")).unwrap();
    let listed = out(&folder.run(&["list", "--recursive", "bare"]));
    assert!(listed.ends_with("\tno .pf files in this folder\n"), "{listed}");
}

#[test]
fn directories_of_folders_inside_folders() {
    let folder = Folder::new("recursive-directories");
    fs::create_dir_all(folder.0.join("top/inner")).unwrap();
    folder.put("top/inner/a.pf", small());
    folder.put("top/inner/packed", b"MAM\x04\x10\0\0\0packed");
    let shown = folder.run(&["directories", "--recursive", "top"]);
    assert_eq!(status(&shown), 1, "{}", said(&shown));
    assert!(!out(&shown).is_empty());
}

#[test]
fn a_year_of_folders_inside_folders() {
    let folder = Folder::new("recursive-year");
    for month in ["2024-11", "2024-12"] {
        fs::create_dir_all(folder.0.join("board3").join(month)).unwrap();
        folder.put(format!("board3/{month}/small.pf"), small());
    }
    folder.put("recording.txt", "01DB37C70D605C0003FF38\n");
    let year = folder.run(&["year", "--csv", "--recursive", "recording.txt", "3=board3"]);
    assert!(out(&year).contains(",CHAMBER.EXE,1,42,1,"), "{}", said(&year));
    assert_eq!(status(&folder.run(&["year", "recording.txt", "3=board3"])), 2);
}

/// The last columns of a row of CSV, from all run times on.
fn more(folder: &Folder, words: &[&str]) -> Vec<String> {
    let csv = out(&folder.run(&[&["list", "--csv"], words].concat()));
    let row = csv.lines().nth(1).expect("a row");
    row.split(',').skip(16).map(String::from).collect()
}

#[test]
fn all_columns_of_a_list() {
    let folder = Folder::new("columns");
    let bytes = file("A.EXE", &[TIME + 10_000_000, TIME]);
    let name = format!("A.EXE-{:08X}.pf", hash("A.EXE"));
    folder.put(&name, &bytes);
    folder.put("A.EXE-00000000.pf", &bytes);
    let columns = more(&folder, &[&name]);
    let (first, second) = ("2024-11-16T01:30:01.0000000Z", "2024-11-16T01:30:00.0000000Z");
    let size = bytes.len().to_string();
    let expected = [&format!("{first}; {second}"), DISK, "0x12345678", second, &size];
    assert_eq!(columns[..5], expected);
    assert!(columns[5].starts_with("20") && columns[5].ends_with('Z'), "{columns:?}");
    assert_eq!(columns[6..], ["yes"]);
    assert_eq!(more(&folder, &["A.EXE-00000000.pf"])[6..], ["no"]);
    folder.put("other.pf", &bytes);
    assert_eq!(more(&folder, &["other.pf"])[6..], [""]);
    let json = out(&folder.run(&["list", "--json", "other.pf"]));
    let lists = format!(
        "\"run_times\": [\"{first}\", \"{second}\"], \
         \"volume_paths\": [\"{}\"], \"volume_serials\": [\"12345678\"]",
        DISK.replace('\\', "\\\\")
    );
    assert!(json.contains(&lists), "{json}");
    let csv = out(&folder.run(&["list", "--csv", "other.pf"]));
    assert!(csv.contains(&format!(",0x{:08X},26,9,", hash("A.EXE"))), "{csv}");
}

/// Volumes that all have the same long path.
#[test]
fn a_cell_of_volumes_has_an_end() {
    let folder = Folder::new("volumes-end");
    let (volumes, units) = (20_000u32, 60_000u32);
    let mut entry = [0; 40];
    for (at, number) in [(0, 40 * volumes), (4, units), (20, 40 * volumes - 8), (24, 8)] {
        entry[at..at + 4].copy_from_slice(&number.to_le_bytes());
    }
    let section = [entry.repeat(volumes as usize), [b'A', 0].repeat(units as usize)].concat();
    let file = TestFile::new(17).name("A.EXE").volumes(&section).volume_count(volumes).lay_out();
    folder.put("a.pf", file);
    for form in ["--csv", "--json"] {
        let listed = folder.run(&["list", form, "a.pf"]);
        assert_eq!(status(&listed), 0, "{}", err(&listed));
        assert!((100_000..2_000_000).contains(&listed.stdout.len()), "{}", listed.stdout.len());
    }
}

#[test]
fn sums() {
    let folder = Folder::new("sums");
    folder.put("a.pf", small());
    let said = Command::new("sha256sum").arg(folder.0.join("a.pf")).output().unwrap();
    let sum = out(&said)[..64].to_string();
    assert_eq!(more(&folder, &["--sha256", "a.pf"])[7..], [sum]);
    let bare = ["list", "--csv", "--sha256", "a.pf"];
    let without = folder.command().args(bare).env("PATH", "").output().unwrap();
    assert_eq!(err(&without), "hivesaddle: sha256sum: No such file or directory\n");
    assert_eq!((status(&without), out(&without).lines().count()), (2, 2));
    assert_eq!(status(&folder.run(&["list", "--sha256", "a.pf"])), 2);
}

/// Made of the same text as the help.
#[test]
fn manual_pages_and_completions() {
    let folder = Folder::new("manual");
    let help = out(&folder.run(&["list", "--help"]));
    let page = out(&folder.run(&["help", "--man", "list"]));
    let plain = page.replace("\\-", "-").replace("\\e", "\\").replace("\\&", "");
    assert!(page.starts_with(".TH HIVESADDLE-LIST 1\n"), "{page}");
    assert!(help.lines().skip(2).all(|line| plain.contains(line)), "{page}");
    let bash = folder.run(&["help", "--completion", "bash"]);
    folder.put("completion", &bash.stdout);
    let script = "source ./completion; COMP_WORDS=(hivesaddle list --s); COMP_CWORD=2; \
                  _hivesaddle; echo \"${COMPREPLY[@]}\"; COMP_WORDS=(hivesaddle ti); COMP_CWORD=1; \
                  _hivesaddle; echo \"${COMPREPLY[@]}\"";
    let run = Command::new("bash").args(["-c", script]).current_dir(&folder.0).output().unwrap();
    assert_eq!(said(&run), "--sha256\ntimeline\n-- status 0\n");
    let fish = out(&folder.run(&["help", "--completion", "fish"]));
    assert!(fish.contains("-n '__fish_seen_subcommand_from year' -l by-board -d 'a table"));
    assert_eq!(status(&folder.run(&["help", "--man", "lits"])), 2);
}
