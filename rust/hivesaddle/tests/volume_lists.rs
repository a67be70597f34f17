//! What a volume lists, what an entry refers to, the search from another start
//! and the cost, on files of the builder.

use hivesaddle::*;

fn utf16(text: &str) -> Vec<u8> {
    text.encode_utf16().flat_map(u16::to_le_bytes).collect()
}

fn volume_of(path: &str, directories: &[&str], references: &[(u64, u16)]) -> TestVolume {
    let reference =
        |&(entry_index, sequence_number): &(u64, u16)| Reference { entry_index, sequence_number };
    TestVolume {
        path: path.into(),
        directories: directories.iter().map(|&directory| directory.into()).collect(),
        references: references.iter().map(reference).collect(),
        ..TestVolume::default()
    }
}

/// Two volumes, the second with nothing to list.
fn file(version: u32) -> Vec<u8> {
    TestFile::new(version)
        .hash_of(r"\DEVICE\HARDDISKVOLUME2\WINDOWS\A.EXE")
        .file(r"\VOLUME{01}\WINDOWS\A.EXE")
        .file(r"\VOLUME{01}0\WINDOWS\A.EXE")
        .volume(volume_of(
            r"\VOLUME{01}",
            &[r"\VOLUME{01}\WINDOWS", "", r"\VOLUME{01}\W"],
            &[(5, 1), ((1 << 48) - 1, u16::MAX)],
        ))
        .volume(volume_of(r"\VOLUME{01}0", &[], &[]))
        .write()
        .unwrap()
}

#[test]
fn lists_are_those_of_the_volume() {
    for version in [17, 23] {
        let file = file(version);
        let texts = [r"\VOLUME{01}\WINDOWS", "", r"\VOLUME{01}\W"].map(utf16);
        assert_eq!(directories(&file, 0), texts);
        let numbers = references(&file, 0);
        let numbers: Vec<_> = numbers.iter().map(|r| (r.entry_index, r.sequence_number)).collect();
        assert_eq!(numbers, [(5, 1), ((1 << 48) - 1, u16::MAX)]);
        for i in [1, 2, u64::MAX] {
            assert!(directories(&file, i).is_empty() && references(&file, i).is_empty());
        }
        let each = (0..2).map(|k| reference(&file, 0, k).unwrap());
        assert!(each.eq(references(&file, 0)));
        let cut = &file[..file.len() - 1];
        assert!(directories(cut, 0).is_empty() && references(cut, 0).is_empty());
    }
}

#[test]
fn the_field_is_there_from_version_23_on() {
    let unset = Reference { entry_index: 0, sequence_number: 0 };
    for (version, reference) in [(17, None), (23, Some(unset))] {
        let file = file(version);
        assert_eq!(entry_reference(&file, 1), Some(EntryReference { reference }));
        assert_eq!(entry_reference(&file, 2), None);
    }
}

#[test]
fn a_program_is_found_from_another_start() {
    for version in [17, 23] {
        let file = file(version);
        let start = utf16(r"\DEVICE\HARDDISKVOLUME2");
        let found = |entry| Some(FoundPath { entry, number: 0 });
        assert_eq!(find_path(&file), None);
        assert_eq!(find_path_from(&file, 0, &start), found(0));
        assert_eq!(find_path_from(&file, 1, &start), found(1));
        assert_eq!(find_path_from(&file, 2, &start), None);
        assert_eq!(find_path_from(&file, 0, &start[1..]), None);
        let own = volume(&file, 0).unwrap().path;
        assert_eq!(find_path_from(&file, 0, own), None);
    }
}

#[test]
fn what_is_named_twice_costs_twice() {
    for version in [17, 23] {
        let once = TestFile::new(version).file("A");
        let names = |file: &TestFile| cost(&file.write().unwrap()).unwrap().names;
        assert_eq!(names(&once), 4);
        assert_eq!(names(&once.clone().metrics(0, 1)), 8);
        let directories = cost(&file(version)).unwrap().directories;
        assert_eq!(directories, 12);
    }
}
