//! The files of a board, pulled again and again.

use crate::{err, example, out, read_back, run, said, status, Folder};
use hivesaddle::TestFile;
use std::fs;

/// A pull of a file in a folder of its own.
fn pull(folder: &Folder, path: &str, hash: u32, time: u64, count: u32) {
    let file = TestFile::new(17).name("A.EXE").hash(hash).run_time(time).run_count(count);
    put(folder, path, &file.write().expect("a sound file"));
}

fn put(folder: &Folder, path: &str, file: &[u8]) {
    fs::create_dir_all(folder.0.join(path)).expect("a folder");
    folder.put(format!("{path}/A.pf"), file);
}

/// Version 26, with these run times and no others.
fn eight(times: &[u64]) -> Vec<u8> {
    let mut file = TestFile::new(26).name("A.EXE").hash(0x41).run_count(9).lay_out();
    for (i, time) in times.iter().enumerate() {
        file[128 + 8 * i..][..8].copy_from_slice(&time.to_le_bytes());
    }
    file
}

/// The run counts of the lines, and what standard error says.
fn counts(folder: &Folder, words: &str) -> (Vec<u32>, String) {
    let made = run(folder, words);
    assert_eq!(status(&made), 0, "{}", said(&made));
    let count = |line: &str| u32::from_str_radix(&line[16..24], 16).expect("digits");
    (out(&made).lines().map(count).collect(), err(&made))
}

#[test]
fn pulls_of_a_board_are_joined() {
    let folder = Folder::new("joined");
    pull(&folder, "w1", 0x41, 10, 4);
    pull(&folder, "w2", 0x41, 20, 6);
    let joined = "hivesaddle: catalogue: of 2 files 1 is an earlier pull of others, and joined\n";
    for words in ["catalogue 3=w1 3=w2", "catalogue 3=w2 3=w1"] {
        assert_eq!(counts(&folder, words), (vec![6], joined.to_string()));
    }
    assert_eq!(counts(&folder, "catalogue --all 3=w1 3=w2"), (vec![4, 6], String::new()));
    assert_eq!(counts(&folder, "catalogue 3=w1 7=w2"), (vec![4, 6], String::new()));
    let twice = "hivesaddle: catalogue: A.EXE 00000041 comes more than once; \
                 pulls of one board are joined where it is named, as in 3=FOLDER\n";
    assert_eq!(counts(&folder, "catalogue w1 w2"), (vec![4, 6], twice.to_string()));
    assert_eq!(counts(&folder, "catalogue w1 3=w2"), (vec![4, 6], String::new()));
    // A folder whose name looks like a board.
    pull(&folder, "3=x", 0x42, 30, 7);
    assert_eq!(counts(&folder, "catalogue ./3=x"), (vec![7], String::new()));
    let wrong = run(&folder, "catalogue 256=w1");
    assert_eq!((status(&wrong), out(&wrong)), (2, String::new()));
}

/// Equal times are in the order of the counts, and an equal count is no new
/// beginning. Another hash is another file.
#[test]
fn new_beginnings_are_named() {
    let folder = Folder::new("begun");
    for (path, hash, time, count) in [
        ("w1", 0x41, 10, 4),
        ("w2", 0x41, 20, 9),
        ("w3", 0x41, 20, 8),
        ("w4", 0x41, 30, 9),
        ("w5", 0x41, 40, 1),
        ("w6", 0x41, 50, 3),
        ("w7", 0x42, 60, 2),
    ] {
        pull(&folder, path, hash, time, count);
    }
    let words = "catalogue 3=w7 3=w6 3=w5 3=w4 3=w3 3=w2 3=w1";
    let expected = "hivesaddle: w5/A.pf: board 3, A.EXE 00000041: \
                    begun anew, with 1 run after 9; both count\n\
                    hivesaddle: catalogue: of 7 files 4 are earlier pulls of others, and joined\n";
    assert_eq!(counts(&folder, words), (vec![2, 3, 9], expected.to_string()));
}

#[test]
fn a_start_is_written_once() {
    let folder = Folder::new("once");
    put(&folder, "w1", &eight(&[5, 4, 4, 3]));
    put(&folder, "w2", &eight(&[9, 8, 7, 6, 5, 4, 3, 2]));
    let made = run(&folder, "starts 3=w1 3=w2");
    let times: Vec<String> = out(&made).lines().map(|line| line[15..18].to_string()).collect();
    assert_eq!(times, ["503", "403", "303", "903", "803", "703", "603", "203"]);
    assert_eq!(err(&made), "hivesaddle: starts: 3 starts stood more than once, and count once\n");
    // Another board, or another name with the same hash, is another start.
    let made = run(&folder, "starts 3=w1 7=w1");
    assert_eq!(out(&made).lines().count(), 6);
    let mut other = eight(&[5]);
    other[16] = b'B';
    put(&folder, "w3", &other);
    let made = run(&folder, "starts 3=w1 3=w3");
    assert_eq!(out(&made).lines().count(), 4);
    assert_eq!(err(&made), "hivesaddle: starts: 1 start stood more than once, and counts once\n");
}

/// Over more pulls than a file keeps starts.
#[test]
fn starts_of_many_pulls() {
    let folder = Folder::new("many-pulls");
    put(&folder, "w1", &eight(&[5, 4, 4, 3]));
    put(&folder, "w2", &eight(&[9, 8, 7, 6, 5, 4, 3, 2]));
    put(&folder, "w0", &eight(&[16, 15, 14, 13, 12, 11, 10, 9]));
    assert_eq!(out(&run(&folder, "starts 3=w1 3=w2 3=w0")).lines().count(), 15);
}

/// What was made of pulls without joining them.
#[test]
fn the_year_warns_of_repeats() {
    let folder = Folder::new("repeats");
    folder.put("catalogue.txt", "00000094000000410000000411\n00000094000000410000000611\n");
    let start = "00000000000000050300000041\n";
    folder.put("starts.txt", [start, start].concat());
    folder.put("recording.txt", "000000000000000503FF38\n");
    let made = run(&folder, "year catalogue.txt starts.txt recording.txt");
    assert_eq!(status(&made), 0);
    let expected = "\
hivesaddle: starts.txt: 1 start stands more than once, all of which count; \
hivesaddle starts writes each once
hivesaddle: catalogue.txt: 00000041 has more lines than boards among its starts: \
unless Windows began a file anew, these are pulls that were not joined; \
see hivesaddle help catalogue
";
    assert_eq!(err(&made), expected);
}

/// Two pulls of one board, six runs in all, and one of another.
fn two_boards(name: &str) -> Folder {
    let folder = Folder::new(name);
    pull(&folder, "w1", 0x41, 10, 4);
    pull(&folder, "w2", 0x41, 20, 6);
    pull(&folder, "other", 0x41, 20, 5);
    folder.put(
        "recording.txt",
        "000000000000000A03FF38\n000000000000001403FF9C\n\
                                 000000000000001407000A\n",
    );
    folder
}

#[test]
fn one_step_for_the_crew() {
    let folder = two_boards("step");
    let made = run(&folder, "year recording.txt 3=w1 3=w2 7=other --csv");
    let titles = "hash,program,files,runs,readings,lowest,mean,highest,oldest_seconds";
    let row = "0x00000041,A.EXE,2,11,3,-20.0,-9.7,1.0,0";
    assert_eq!(out(&made), format!("{titles}\n{row}\n"));
    let joined = "hivesaddle: year: of 3 files 1 is an earlier pull of others, and joined\n";
    assert_eq!((err(&made), status(&made)), (joined.to_string(), 0));
    // The same by hand.
    folder.put("catalogue.txt", run(&folder, "catalogue 3=w1 3=w2 7=other").stdout);
    folder.put("starts.txt", run(&folder, "starts 3=w1 3=w2 7=other").stdout);
    let by_hand = run(&folder, "year catalogue.txt starts.txt recording.txt --csv --names w1");
    assert_eq!((out(&by_hand), err(&by_hand)), (out(&made), String::new()));

    let made = run(&folder, "year recording.txt 3=w1 3=w2 7=other --html year.html");
    assert_eq!((out(&made), status(&made)), (String::new(), 0));
    let page = read_back("html", &folder.read("year.html"));
    let row = "['A.EXE', '00000041', '-20.0', '-9.7', '1.0', '2', '11', '3', '0s']";
    assert!(page.contains(row), "{page}");
}

#[test]
fn a_table_for_each_board() {
    let folder = two_boards("by-board");
    let made = run(&folder, "year recording.txt 3=w1 3=w2 7=other --by-board --csv");
    let titles = "board,hash,program,files,runs,readings,lowest,mean,highest,oldest_seconds";
    let rows =
        "3,0x00000041,A.EXE,1,6,2,-20.0,-15.0,-10.0,0\n7,0x00000041,A.EXE,1,5,1,1.0,1.0,1.0,0\n";
    assert_eq!(out(&made), format!("{titles}\n{rows}"));
    let page = run(&folder, "year recording.txt 3=w1 3=w2 7=other --by-board --html -");
    let page = read_back("html", &page.stdout);
    assert!(page.starts_with("['Board', 'Program', 'Hash', "), "{page}");
    assert!(page.contains("\nboard 7 A.EXE 00000041lowest 1.0, mean 1.0, highest 1.0\n"), "{page}");
}

#[test]
fn wrong_ways_to_call_it() {
    let folder = two_boards("wrong");
    for words in [
        "year recording.txt",
        "year recording.txt 3=w1 w2",
        "year recording.txt 300=w1",
        "year recording.txt 3=w1 --names w1",
        "year - 3=-",
        "year a b c --by-board",
        "year recording.txt 3=w1 --within 5",
    ] {
        let made = run(&folder, words);
        assert_eq!((status(&made), out(&made)), (2, String::new()), "{words}");
        assert!(err(&made).ends_with("; see hivesaddle help year\n"), "{}", err(&made));
    }
    // What is refused is named, and the table is made of the others.
    folder.put("w1/B.pf", "no Prefetch file");
    let made = run(&folder, "year recording.txt 3=w1 --csv");
    assert_eq!((status(&made), out(&made).lines().count()), (1, 2));
    let made = run(&folder, "year recording.txt 3=w1 --html w1/A.pf");
    assert_eq!(status(&made), 2);
}

/// In hundreds of nanoseconds: 1 h is 36,000,000,000.
#[test]
fn old_readings() {
    let folder = Folder::new("old");
    let hour = 36_000_000_000u64;
    folder.put("recording.txt", format!("{:016X}03FF38\n", 7));
    let starts = [7, 7 + hour, 8 + hour].map(|time| format!("{time:016X}0300000041\n"));
    folder.put("starts.txt", starts.concat());
    folder.put("catalogue.txt", "00000094000000410000000111\n");
    let reading = "000000000000000703FF38";
    let replayed =
        |words: &str| out(&run(&folder, &format!("replay starts.txt recording.txt{words}")));
    assert_eq!(replayed(""), format!("{reading}\n").repeat(3));
    assert_eq!(replayed(" --within 1h"), format!("{reading}\n{reading}\nnone\n"));
    assert_eq!(replayed(" --within 3600s"), replayed(" --within=60m"));
    assert_eq!(replayed(" --within 0s"), format!("{reading}\nnone\nnone\n"));
    assert_eq!(replayed(" --within 1d"), replayed(""));

    let year =
        |words: &str| run(&folder, &format!("year catalogue.txt starts.txt recording.txt{words}"));
    let all = year("");
    assert_eq!(out(&all), "00000041\t\t1\t1\t3\t-20.0\t-20.0\t-20.0\t1h 0m\n");
    let old = "1 row has a reading older than an hour at its start, 1h 0m at most";
    let advice = "--within 1h leaves such readings out";
    assert_eq!(err(&all), format!("hivesaddle: recording.txt: {old}; {advice}\n"));
    let some = year(" --within 1h --csv");
    assert!(out(&some).ends_with("00000041,,1,1,2,-20.0,-20.0,-20.0,3600\n"), "{}", out(&some));
    assert_eq!((err(&some), status(&some)), (String::new(), 0));
    let page = out(&year(" --html -"));
    assert!(page.contains("1 row has a reading that was older than an hour at its start."));
}

#[test]
fn a_wrong_board_number() {
    let folder = example("board");
    let missing = "hivesaddle: chamber.txt: has no reading of board 33, which has starts; \
                   it has boards 3, 7, 9\n";
    let made = run(&folder, "year chamber.txt 33=small.pf --csv");
    assert_eq!((err(&made), status(&made)), (missing.to_string(), 0));
    folder.put("starts.txt", run(&folder, "starts 33=small.pf").stdout);
    let replayed = run(&folder, "replay starts.txt chamber.txt");
    let expected = format!("none\n-- standard error\n{missing}-- status 0\n");
    assert_eq!(said(&replayed), expected);
}

#[test]
fn a_catalogue_in_place_of_starts_in_a_replay() {
    let folder = example("replay-catalogue");
    let replayed = run(&folder, "replay catalogue.txt chamber.txt");
    assert_eq!((out(&replayed), status(&replayed)), ("none\n".repeat(3), 0));
    let are = "every line reads as a catalogue line, and no start has a reading";
    let asked = "is it the file that hivesaddle starts wrote?";
    let expected = format!("hivesaddle: catalogue.txt: {are}; {asked}\n");
    assert!(err(&replayed).ends_with(&expected), "{}", err(&replayed));
    let replayed = run(&folder, "replay starts.txt chamber.txt");
    assert_eq!(err(&replayed), "");
}

/// What an editor does not show, in the catalogue too.
#[test]
fn why_a_catalogue_line_is_bad() {
    let folder = example("catalogue-why");
    let line = "00000B4C978DAB150000002A17";
    let small = line.to_lowercase();
    let cases = [
        (format!("{line}\r\n"), "ends in a carriage return"),
        (format!("\u{FEFF}{line}\n"), "begins with a byte order mark"),
        (format!("{small}\n"), "has lowercase digits"),
        (line.to_string(), "is the last, and has no line feed behind it"),
        (format!("{line} \n"), "has blanks behind its digits"),
    ];
    for (bad, why) in cases {
        folder.put("bad.txt", format!("{line}\n{bad}"));
        let made = run(&folder, "year bad.txt starts.txt chamber.txt");
        assert!(err(&made).starts_with("hivesaddle: bad.txt: refused 18: line 2 is no catalogue"));
        assert!(err(&made).contains(&format!(": it {why}")), "{}", err(&made));
        assert_eq!(status(&made), 1);
    }
}
