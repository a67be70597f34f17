//! The writer through the safe calls, and the builder of test files.

use hivesaddle::*;

const EMPTY: Description = Description {
    version: 17,
    name: &[],
    stored_hash: 0,
    run_time: 0,
    run_count: 0,
    metrics: &[],
    trace: &[],
    strings: &[],
    volumes: &[],
    volume_count: 0,
};

fn refusal(number: u32, index: u64, offset: u64) -> Refusal {
    Refusal { number, index, offset }
}

/// A file of each version that has something of everything.
fn full(version: u32) -> TestFile {
    let path = r"\DEVICE\HARDDISKVOLUME1\A.EXE";
    let volume = TestVolume {
        path: r"\DEVICE\HARDDISKVOLUME1".into(),
        serial_number: 0xDEAD_BEEF,
        creation_time: u64::MAX - 1,
        references: vec![
            Reference { entry_index: (1 << 48) - 1, sequence_number: 2 },
            Reference { entry_index: 5, sequence_number: u16::MAX },
        ],
        directories: vec![r"\D".into(), String::new(), r"\DEVICE".into()],
    };
    TestFile::new(version)
        .name("A.EXE")
        .hash_of(path)
        .run_time(u64::MAX)
        .run_count(u32::MAX)
        .file("B")
        .file(path)
        .file("")
        .chain(&[1, 2, u32::MAX])
        .chain(&[])
        .chain(&[4])
        .volume(volume)
        .volume(TestVolume::default())
}

#[test]
fn fields_are_where_the_reader_looks() {
    for (version, size) in [(17, 152), (23, 240)] {
        let described = Description {
            version,
            name: &[65, 66, 0, 67],
            stored_hash: 0x8000_0001,
            run_time: u64::MAX,
            run_count: 0x8000_0002,
            ..EMPTY
        };
        assert_eq!(described.size(), size);
        let mut output = vec![7; size + 3];
        let record = write_file(&described, &mut [], &mut output).unwrap();
        assert_eq!(output[size..], [7; 3]);
        assert_eq!(read_file(&output[..size], &mut []), Ok(record));
        assert_eq!((record.version, record.declared_size), (version, size as u32));
        assert_eq!((record.name_units, record.stored_hash), (2, 0x8000_0001));
        assert_eq!((record.times(), record.run_count), (&[u64::MAX][..], 0x8000_0002));
        assert_eq!(program_name(&output[..size]), Some(&b"A\0B\0"[..]));
    }
}

#[test]
fn refused() {
    let cases = [
        (Description { version: 26, ..EMPTY }, 0, 152, refusal(1, 0, 0)),
        (Description { version: 30, ..EMPTY }, 0, 152, refusal(1, 0, 0)),
        (Description { name: &[65; 30], ..EMPTY }, 0, 152, refusal(4, 0, 16)),
        (Description { trace: &[NONE, 1], ..EMPTY }, 0, 164, refusal(7, 0, 96)),
        (Description { volume_count: 1, ..EMPTY }, 0, 152, refusal(8, 0, 112)),
        (Description { metrics: &[0, 0], ..EMPTY }, 0, 172, refusal(9, 0, 160)),
        (Description { metrics: &[0, 0], strings: &[1, 0], ..EMPTY }, 0, 174, refusal(10, 0, 160)),
        (Description { trace: &[1, 1], ..EMPTY }, 1, 164, refusal(11, 0, 152)),
        (Description { trace: &[1, 0, 1, 0], ..EMPTY }, 2, 176, refusal(12, 1, 164)),
        (Description { trace: &[0, 1], ..EMPTY }, 1, 164, refusal(13, 0, 152)),
        (Description { trace: &[0, 1], ..EMPTY }, 1, 0, refusal(13, 0, 152)),
        (Description { trace: &[NONE, 1], ..EMPTY }, 2, 163, refusal(20, 0, 0)),
        (EMPTY, 1, 0, refusal(20, 0, 0)),
    ];
    for (described, slots, bytes, refusal) in cases {
        let (mut predecessors, mut output) = (vec![7; slots], vec![7; bytes]);
        let given = write_file(&described, &mut predecessors, &mut output);
        assert_eq!(given, Err(refusal), "{described:?}");
        assert_eq!((predecessors, output), (vec![NONE; slots], vec![7; bytes]));
    }
}

/// The limit itself, and one byte past it. The size is looked at before the
/// name.
#[test]
fn limit() {
    let strings = vec![0; (64 << 20) - 240 + 1];
    let too_large = Description { version: 23, name: &[65; 30], strings: &strings, ..EMPTY };
    assert_eq!(write_file_alloc(&too_large), Err(refusal(3, 0, 12)));
    let largest = Description { name: &[65; 29], strings: &strings[1..], ..too_large };
    assert_eq!(write_file_alloc(&largest).map(|file| file.len()), Ok(64 << 20));
}

#[test]
fn odd_last_numbers_are_ignored() {
    let even = Description { metrics: &[0, 0], trace: &[NONE, 5], strings: &[0, 0], ..EMPTY };
    let odd = Description { metrics: &[0, 0, 9], trace: &[NONE, 5, 9], ..even };
    let file = write_file_alloc(&even).unwrap();
    assert_eq!(file.len(), 152 + 20 + 12 + 2);
    assert_eq!((odd.size(), write_file_alloc(&odd)), (even.size(), Ok(file)));
}

#[test]
fn everything_is_read_back() {
    for version in [17, 23] {
        let file = full(version).write().unwrap();
        let FileContents { record, predecessors } = read_file_alloc(&file).unwrap();
        assert_eq!((record.metrics_count, record.trace_count, record.chain_count), (3, 4, 2));
        assert_eq!(predecessors, [NONE, 0, 1, NONE]);
        let mut order = [0; 4];
        let walked = walk(&file, &mut [0; 4], &mut order).unwrap();
        assert_eq!((order, walked.total), ([0, 1, 2, 3], 1 + 2 + u32::MAX as u64 + 4));
        assert_eq!(find_path(&file), Some(FoundPath { entry: 1, number: 0 }));
        assert_eq!(entry_name(&file, 0), Some(&b"B\0"[..]));
        assert_eq!(entry_name(&file, 2), Some(&b""[..]));
        let volume = volume(&file, 0).unwrap();
        assert_eq!((volume.serial_number, volume.creation_time), (0xDEAD_BEEF, u64::MAX - 1));
        assert_eq!((volume.references, volume.directories, volume.path.len()), (2, 3, 46));
        let first = Reference { entry_index: (1 << 48) - 1, sequence_number: 2 };
        let second = Reference { entry_index: 5, sequence_number: u16::MAX };
        assert_eq!((reference(&file, 0, 0), reference(&file, 0, 1)), (Some(first), Some(second)));
    }
}

/// Sound or odd, the file laid out is the one that the writer speaks of.
#[test]
fn laid_out_as_written() {
    for version in [17, 23] {
        let sound = full(version);
        assert_eq!(sound.write(), Ok(sound.lay_out()));
        let mut output = vec![7; sound.lay_out().len()];
        assert!(sound.write_into(&mut [0; 4], &mut output).is_ok());
        assert_eq!(output, sound.lay_out());
        let odd = [
            sound.clone().name_units(&[65; 31]),
            sound.clone().volume_count(1_000),
            sound.clone().metrics(u32::MAX, 1),
            sound.clone().metrics(0, 0),
            sound.clone().trace(5, 0),
            sound.clone().trace(1, 0),
            sound.clone().trace(4, 0),
            TestFile::new(version).volumes(&[1; 104]).volume_count(1),
            TestFile::new(version).strings(&vec![0; 64 << 20]),
        ];
        let numbers = [4, 8, 9, 10, 11, 12, 13, 14, 3];
        for (file, number) in odd.iter().zip(numbers) {
            let refusal = file.write().unwrap_err();
            assert_eq!(refusal.number, number);
            assert_eq!(read_file_alloc(&file.lay_out()), Err(refusal));
        }
    }
    let unknown = full(24);
    assert_eq!(unknown.write(), Err(refusal(1, 0, 0)));
    assert_eq!(read_file_alloc(&unknown.lay_out()), Err(refusal(1, 0, 0)));
}
