//! The iterators beside the queries and lists that they go through, on whole,
//! cut and damaged files.

use hivesaddle::*;

const SMALL: &[u8] = include_bytes!("../../../examples/samples/small.pf");

/// Files of every version, each with a name that runs past the strings in the
/// middle, two volumes, and three chains.
fn files() -> impl Iterator<Item = Vec<u8>> {
    let volume = |path: &str, directories: &[&str]| TestVolume {
        path: path.into(),
        references: vec![Reference { entry_index: 40, sequence_number: 1 }; directories.len()],
        directories: directories.iter().map(|&directory| directory.into()).collect(),
        ..TestVolume::default()
    };
    let file = move |version| {
        let file = TestFile::new(version).file(r"\A.EXE").metrics(999, 1).file("").file("B");
        let file = file.volume(volume(r"\V1", &[r"\V1\A", "", "B"])).volume(volume(r"\V2", &[]));
        file.chain(&[1, 2]).chain(&[3]).chain(&[4, 5]).lay_out()
    };
    [17, 23, 26, 30].into_iter().map(file).chain([SMALL.to_vec()])
}

/// What stands behind the last entry or volume is none, far away too.
fn held_to_the_queries(file: &[u8]) {
    let all = 0..file.len() as u64 + 2;
    let of_query = all.clone().filter_map(|i| Some((i, Text::new(entry_name(file, i)?))));
    assert!(names(file).eq(of_query));
    let of_query = all.filter_map(|i| Some((i, volume(file, i)?)));
    assert!(volumes(file).eq(of_query));
}

#[test]
fn names_and_volumes_of_prefixes() {
    for file in files() {
        for length in 0..=file.len() {
            held_to_the_queries(&file[..length]);
        }
    }
}

#[test]
fn names_and_volumes_of_damaged_files() {
    for mut file in files() {
        // The counts among them, from 84 to 119.
        for at in 0..160 {
            for byte in [0, 1, 127, 255] {
                let was = std::mem::replace(&mut file[at], byte);
                held_to_the_queries(&file);
                file[at] = was;
            }
        }
    }
}

#[test]
fn sound_names_of_a_damaged_file() {
    for file in files().take(4) {
        let given: Vec<_> = names(&file).map(|(entry, name)| (entry, name.to_string())).collect();
        let expected = [(0, r"\A.EXE"), (2, ""), (3, "B")];
        assert_eq!(given, expected.map(|(entry, name)| (entry, name.to_string())));
        assert!(names(&file).rev().map(|(entry, _)| entry).eq([3, 2, 0]));
        assert!(volumes(&file).map(|(i, volume)| (i, volume.directories)).eq([(0, 3), (1, 0)]));
    }
}

#[test]
fn what_volumes_list() {
    for file in files() {
        for i in 0..3 {
            let (texts, numbers) = (directories(&file, i), references(&file, i));
            let mut list = vec![0; 2 * texts.len() + 1];
            let given = directories_iter(&file, i, &mut list).unwrap();
            assert_eq!(given.len(), texts.len());
            assert!(given.map(Text::bytes).eq(texts.iter().copied()));
            let mut list = vec![0; 2 * numbers.len() + 1];
            assert!(references_iter(&file, i, &mut list).unwrap().eq(numbers));
        }
    }
}

#[test]
fn a_list_that_is_too_short() {
    let file = files().next().unwrap();
    for length in 0..6 {
        let short = Some(TooShort { needed: 6 });
        assert_eq!(directories_iter(&file, 0, &mut vec![0; length]).err(), short);
        assert_eq!(references_iter(&file, 0, &mut vec![0; length]).err(), short);
    }
}

#[test]
fn chains_are_the_walk_cut_at_its_heads() {
    let ring = TestFile::new(17).trace(0, 1).lay_out();
    assert_eq!(chains(&ring, &mut [0], &mut [0]).unwrap_err().number, 13);
    // The chains 0 -> 3 -> 1 and 2.
    let crossed = TestFile::new(17).trace(3, 1).trace(NONE, 1).trace(NONE, 1).trace(1, 1).lay_out();
    let (mut predecessors, mut order) = ([0; 6], [7; 5]);
    let given = chains(&crossed, &mut predecessors, &mut order).unwrap();
    assert!(given.eq([&[0, 3, 1][..], &[2]]));
    assert_eq!(chains(&crossed, &mut [0; 3], &mut [0; 4]).unwrap_err().number, 7);
    assert_eq!(chains(&crossed, &mut [0; 4], &mut [0; 3]).unwrap_err().number, 23);

    let FileContents { record, mut predecessors } = read_file_alloc(SMALL).unwrap();
    let mut order = vec![0; predecessors.len()];
    let given: Vec<&[u32]> = chains(SMALL, &mut predecessors, &mut order).unwrap().collect();
    assert_eq!(given.len(), record.chain_count as usize);
    let joined = given.concat();
    walk(SMALL, &mut predecessors, &mut order).unwrap();
    assert_eq!(joined, order);

    let without_links = TestFile::new(30).chain(&[1, 2]).lay_out();
    assert_eq!(chains(&without_links, &mut [], &mut []).unwrap().count(), 0);
}

#[test]
fn text_of_any_units() {
    let units = [0x41, 0xD83D, 0xDE00, 0xDC00, 0, 0xD800];
    let mut bytes: Vec<u8> = units.iter().flat_map(|unit: &u16| unit.to_le_bytes()).collect();
    let text = Text::new(&bytes);
    assert!(text.units().eq(units));
    assert_eq!(text.to_string(), String::from_utf16_lossy(&units));
    assert_eq!(text.to_string_lossy(), text.to_string());
    assert_eq!(text.try_to_string(), Err(LoneSurrogate { place: 3, unit: 0xDC00 }));
    assert_ne!(text, *text.to_string());
    assert_eq!(Text::new(&bytes[..6]).try_to_string().as_deref(), Ok("A\u{1F600}"));
    // Half a unit is none.
    bytes.push(1);
    assert!(Text::new(&bytes).units().eq(units));
}

/// All that a call can fail with goes through `?`.
#[test]
fn errors() {
    fn is_error<E: core::error::Error + Send + Sync + 'static>() {}
    is_error::<Refusal>();
    is_error::<BadLine>();
    is_error::<YearRefusal>();
    is_error::<DescriptionError>();
    is_error::<LoneSurrogate>();
    is_error::<TooShort>();
    let said = |number, place| YearRefusal { number, place }.to_string();
    assert_eq!(said(24, 1_030), "refused 24: line or start 1030 brings a 1,025th stored hash");
    assert_eq!(said(26, 0), "refused 26: more than 1,048,576 lines, or more than 1,048,576 starts");
}

/// A record may be made with any numbers.
#[test]
fn more_run_times_than_there_are() {
    let mut record = Record::new(17);
    record.time_count = 9;
    assert_eq!(record.times(), [0; 8]);
    assert_eq!((record.runs().count(), record.last_run()), (0, None));
}
