//! Windows 10 names \VOLUME{..}, and takes the hash over the path from a device
//! on.

use crate::folder::{out, Folder};
use hivesaddle::{TestFile, TestVolume};

const VOLUME: &str = r"\VOLUME{01d2b4a8c5e0f1a3-5c0a70e1}";
const PATH: &str = r"\USERS\CREW\ONEDRIVE.EXE";

/// Version 30, whose stored hash is that of a path, and the number added to it. It
/// loads a library and the program, and has two volumes.
fn file(hash_of: &str, added: u32, volume: &str, name: &str) -> Vec<u8> {
    let hash = hivesaddle::hash_vista_bytes(
        &hash_of.encode_utf16().flat_map(u16::to_le_bytes).collect::<Vec<u8>>(),
    );
    let on = |path: &str, serial_number| TestVolume {
        path: path.to_string(),
        serial_number,
        ..TestVolume::default()
    };
    TestFile::new(30)
        .name("ONEDRIVE.EXE")
        .hash(hash.wrapping_add(added))
        .run_time(133_761_942_000_000_000)
        .run_count(5)
        .file(&format!(r"{volume}\WINDOWS\NTDLL.DLL"))
        .file(name)
        .volume(on(r"\VOLUME{0}", 1))
        .volume(on(VOLUME, 0x5C0A_70E1))
        .lay_out()
}

fn device(number: u32) -> String {
    format!(r"\DEVICE\HARDDISKVOLUME{number}{PATH}")
}

/// The last column of `list` in a pipe.
fn listed(folder: &Folder, file: &[u8]) -> String {
    folder.put("a.pf", file);
    let row = out(&folder.run(&["list", "a.pf"]));
    row.trim_end().rsplit('\t').next().unwrap_or_default().to_string()
}

#[test]
fn devices_are_tried() {
    let folder = Folder::new("devices");
    let own = format!("{VOLUME}{PATH}");
    for number in [1, 2, 9, 10, 64] {
        let file = file(&device(number), 0, VOLUME, &own);
        assert_eq!(listed(&folder, &file), format!("{} (for volume 1)", device(number)));
    }
    let switched = file(&device(3), 6, VOLUME, &own);
    assert_eq!(listed(&folder, &switched), format!("{} (for volume 1, +6)", device(3)));
    // Beyond what is tried, and more than a switch adds.
    for (number, added) in [(0, 0), (65, 0), (3, 9), (3, u32::MAX)] {
        let file = file(&device(number), added, VOLUME, &own);
        assert_eq!(listed(&folder, &file), format!("{own} (by name)"));
    }
    // The search itself comes first.
    assert_eq!(listed(&folder, &file(&own, 2, VOLUME, &own)), format!("{own} (+2)"));
}

#[test]
fn only_volumes_of_windows_10() {
    let folder = Folder::new("volumes-10");
    for volume in [r"\VOLUME", r"\VOLUME{", r"\VOLUME{01d2b4a8c5e0f1a3-5c0a70e2}", r"\DEVICE\X"] {
        let own = format!("{volume}{PATH}");
        let listed = listed(&folder, &file(&device(2), 0, volume, &own));
        assert_eq!(listed, format!("{own} (by name)"));
    }
    // Not the program's name.
    let other = file(
        &device(2).replace("ONEDRIVE", "OTHER"),
        0,
        VOLUME,
        &format!(r"{VOLUME}\USERS\CREW\OTHER.EXE"),
    );
    assert_eq!(
        listed(&folder, &other),
        "none: no file loaded has the stored hash or the program's name"
    );
}

/// As many entries with the program's name as volumes, and a list of directories
/// that all of these share: none is gone through for each of the others.
#[test]
fn many_names_and_volumes() {
    let folder = Folder::new("many-10");
    let own: Vec<u8> =
        format!("{VOLUME}{PATH}\0").encode_utf16().flat_map(u16::to_le_bytes).collect();
    let mut file = TestFile::new(30).name("ONEDRIVE.EXE").hash_of(&device(65)).strings(&own);
    for _ in 0..20_000 {
        file = file.metrics(0, own.len() as u32 / 2 - 1);
    }
    for i in 0..5_000 {
        let path = format!(r"\VOLUME{{{i}}}");
        file = file.volume(TestVolume { path, ..TestVolume::default() });
    }
    let last = TestVolume { path: VOLUME.into(), ..TestVolume::default() };
    let directories = vec!["A".to_string(); 20_000];
    let file = file.volume(TestVolume { directories, ..last }).lay_out();
    let began = std::time::Instant::now();
    assert_eq!(listed(&folder, &file), format!("{VOLUME}{PATH} (by name)"));
    // Far less, where each is looked at once.
    assert!(began.elapsed().as_secs() < 5, "{:?}", began.elapsed());
}

#[test]
fn said_by_list_timeline_and_names() {
    let folder = Folder::new("shown-10");
    folder.put("a.pf", file(&device(2), 6, VOLUME, &format!("{VOLUME}{PATH}")));
    let found = "by hash, with HARDDISKVOLUME2 for volume 1";
    let csv = out(&folder.run(&["list", "--csv", "a.pf"]));
    let row = csv.lines().nth(1).unwrap_or_default();
    assert!(row.contains(&format!(",2,{},6,,,,,\"{found}\",", device(2))), "{row}");
    let timeline = out(&folder.run(&["timeline", "a.pf"]));
    let fields: Vec<&str> = timeline.trim_end().split('\t').collect();
    assert_eq!((fields[2], fields[7], fields[9]), (&*device(2), "5C0A70E1", found));
    let body = out(&folder.run(&["timeline", "--bodyfile", "a.pf"]));
    assert!(body.starts_with(&format!("0|{} (prefetch a.pf)|0|", device(2))), "{body}");
    let names = out(&folder.run(&["names", "--references", "a.pf"]));
    let expected = format!(
        "0\t{VOLUME}\\WINDOWS\\NTDLL.DLL\ta.pf\t0-0\t\n1\t{VOLUME}{PATH}\ta.pf\t0-0\t{found}\n"
    );
    assert_eq!(names, expected);
}

/// A cell that is blank says why.
#[test]
fn no_path_at_all() {
    let folder = Folder::new("no-path");
    let named = |name: &str| TestFile::new(23).name(name).hash(7).run_time(7);
    let hosting = "none: the hash of a hosting program covers its command line, \
                   and no file loaded has its name";
    let neither = "none: no file loaded has the stored hash or the program's name";
    let cases = [
        (named("SVCHOST.EXE"), hosting),
        (named("SVCHOST.EXE").file("A"), hosting),
        (named("A.EXE"), neither),
        (named("A.EXE").file("A"), neither),
    ];
    for (file, why) in cases {
        let file = file.write().expect("a sound file");
        assert_eq!(listed(&folder, &file), why);
        let csv = out(&folder.run(&["list", "--csv", "a.pf"]));
        assert!(csv.contains(why), "{csv}");
        assert!(out(&folder.run(&["timeline", "a.pf"])).trim_end().ends_with(why));
    }
}
