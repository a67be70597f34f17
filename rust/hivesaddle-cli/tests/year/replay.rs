//! `starts` and `replay`.

use crate::{complaint, each_is_expected, example, out, run, said, status, Folder};

#[test]
fn outputs() {
    let folder = example("replay");
    folder.make("ring.pf", &out(&run(&folder, "make --list 13")));
    folder.put("none.txt", "");
    let cases = [
        ("starts.txt", "starts 3=small.pf 0=small.pf 255=small.pf"),
        ("starts-folder.txt", "starts 3=."),
        ("starts-missing.txt", "starts 3=missing.pf 3=small.pf"),
        ("starts-board.txt", "starts 256=small.pf"),
        ("starts-words.txt", "starts small.pf"),
        ("starts-no-file.txt", "starts 3="),
        ("replay.txt", "replay starts.txt chamber.txt"),
        ("replay-no-starts.txt", "replay none.txt chamber.txt"),
        ("replay-no-readings.txt", "replay starts.txt none.txt"),
        ("replay-swapped.txt", "replay chamber.txt starts.txt"),
        ("replay-missing.txt", "replay starts.txt missing.txt"),
        ("replay-folder.txt", "replay starts.txt ."),
        ("replay-both.txt", "replay - -"),
        ("replay-words.txt", "replay starts.txt"),
    ];
    each_is_expected(&folder, &cases);
}

/// What the proved program is tried with: starts, and behind them the recording.
#[test]
fn answers_are_those_of_the_proved_program() {
    for name in ["chamber", "late-start"] {
        let folder = Folder::new(name);
        let examples = crate::root().join("examples");
        let read = |path| std::fs::read_to_string(examples.join(path)).expect("an example");
        let input = read(format!("recordings/{name}.txt"));
        let is_start = |line: &&str| line.len() == 18;
        let count = input.lines().take_while(is_start).count();
        let mut lines = input.split_inclusive('\n');
        folder.put("starts.txt", lines.by_ref().take(count).collect::<String>());
        folder.put("recording.txt", lines.collect::<String>());
        let replayed = run(&folder, "replay starts.txt recording.txt");
        let expected = read(format!("expected/replay/{name}.txt"));
        match expected.strip_prefix("refused 22 ") {
            None => assert_eq!(out(&replayed), expected),
            // It counts the lines of both.
            Some(line) => {
                let line: usize = line.trim().parse().expect("a number");
                let words = format!("refused 22: line {} is no reading", line - count);
                assert!(complaint(&replayed, 1).contains(&words), "{}", said(&replayed));
            }
        }
    }
}

#[test]
fn either_file_may_be_standard_input() {
    let folder = example("input");
    let expected = out(&run(&folder, "replay starts.txt chamber.txt"));
    for (words, input) in
        [("replay - chamber.txt", "starts.txt"), ("replay starts.txt -", "chamber.txt")]
    {
        let words: Vec<&str> = words.split(' ').collect();
        assert_eq!(out(&folder.run_with(&words, &folder.read(input))), expected);
    }
}

#[test]
fn lines_that_are_no_start_or_no_reading() {
    let folder = Folder::new("lines");
    let (start, reading) = ("000000000000000503", "000000000000000503FF38");
    let starts = |text: String| {
        folder.put("starts.txt", text);
        folder.put("recording.txt", format!("{reading}\n"));
        complaint(&run(&folder, "replay starts.txt recording.txt"), 1)
    };
    let rule = "is no start, 18 or 26 digits 0-9 A-F and a line feed";
    for bad in ["\n", "00\n", "00000000000000050g\n", &format!("{reading}\n")] {
        let said = starts(format!("{start}\n{start}\n{bad}"));
        assert_eq!(said, format!("starts.txt: refused 22: line 3 {rule}"));
    }
    // Without an end, however long.
    let said = starts("0".repeat(1_000_000));
    assert_eq!(said, format!("starts.txt: refused 22: line 1 {rule}"));
    for bad in ["\n", &format!("{start}\n"), "00000000000000050\n", &"0".repeat(1_000_000)] {
        folder.put("starts.txt", format!("{start}\n"));
        folder.put("recording.txt", format!("{reading}\n{bad}"));
        let said = complaint(&run(&folder, "replay starts.txt recording.txt"), 1);
        let rule = "is no reading, 22 digits 0-9 A-F and a line feed";
        assert_eq!(said, format!("recording.txt: refused 22: line 2 {rule}"));
    }
}

/// What an editor does not show is said.
#[test]
fn why_a_line_is_bad() {
    let folder = Folder::new("why");
    let (start, reading) = ("00000000000000050300000041", "000000000000000503FF38");
    let wide = |line: &str| line.encode_utf16().flat_map(u16::to_le_bytes).collect::<Vec<u8>>();
    let windows = "it ends in a carriage return, as Windows writes it; save with line ends LF";
    for (is_start, line) in [(true, start), (false, reading)] {
        let small = line.to_lowercase().replace("41", "4a");
        let two = |bad: &str| format!("{line}\n{bad}").into_bytes();
        let cases = [
            (1, format!("{line}\r\n").repeat(2).into_bytes(), windows),
            (2, two(&format!("{line}\r\n{line}\r\n")), windows),
            (2, two(&format!("{small}\n{line}\n")), "it has lowercase digits"),
            (2, two(line), "it is the last, and has no line feed behind it"),
            (
                1,
                format!("\u{FEFF}{line}\n").into(),
                "it begins with a byte order mark; save as text without one",
            ),
            (1, wide(&format!("{line}\n")), "it is in UTF-16; save as ASCII"),
        ];
        for (number, bad, why) in cases {
            folder.put("starts.txt", format!("{start}\n"));
            folder.put("recording.txt", format!("{reading}\n"));
            let (name, words) = match is_start {
                true => ("starts.txt", "replay - recording.txt"),
                false => ("recording.txt", "replay starts.txt -"),
            };
            folder.put(name, &bad);
            let said = complaint(&run(&folder, "replay starts.txt recording.txt"), 1);
            let is_no = format!("{name}: refused 22: line {number} is no ");
            assert!(said.starts_with(&is_no) && said.ends_with(&format!(": {why}")), "{said}");
            // A recording from a pipe is not there to be read again.
            let piped = folder.run_with(&words.split(' ').collect::<Vec<&str>>(), &bad);
            assert_eq!(complaint(&piped, 1).ends_with(why), is_start);
        }
    }
}

#[test]
fn blanks_behind_a_line_are_said() {
    let folder = Folder::new("blanks");
    let (start, reading) = ("00000000000000050300000041", "000000000000000503FF38");
    for (name, line) in [("starts.txt", start), ("recording.txt", reading)] {
        folder.put("starts.txt", format!("{start}\n"));
        folder.put("recording.txt", format!("{reading}\n"));
        folder.put(name, format!("{line}\n{line} \t\n{line}\n"));
        let said = complaint(&run(&folder, "replay starts.txt recording.txt"), 1);
        assert!(said.starts_with(&format!("{name}: refused 22: line 2 is no ")), "{said}");
        assert!(said.ends_with(": it has blanks behind its digits"), "{said}");
    }
}

/// Longer than a piece, so that lines lie across the ends of pieces.
#[test]
fn a_long_recording() {
    let folder = Folder::new("long");
    let reading = |time: u64| format!("{time:016X}03{:04X}\n", time % 1_000);
    let mut recording: String = (1..=20_000).map(reading).collect();
    folder.put("recording.txt", &recording);
    let times = [1, 2_849, 2_850, 19_999, 20_000, 30_000];
    folder.put("starts.txt", times.map(|time: u64| format!("{time:016X}03\n")).concat());
    let expected: String = times.map(|time| reading(time.min(20_000))).concat();
    let replayed = run(&folder, "replay starts.txt recording.txt");
    assert_eq!((out(&replayed), status(&replayed)), (expected, 0));
    recording.pop();
    folder.put("recording.txt", &recording);
    let said = complaint(&run(&folder, "replay starts.txt recording.txt"), 1);
    assert!(said.starts_with("recording.txt: refused 22: line 20000 is no reading"), "{said}");
}

/// More than the proved program takes.
#[test]
fn many_starts() {
    let folder = Folder::new("many");
    folder.put("recording.txt", "000000000000000503FF38\n");
    let starts: String = (0..5_000).map(|time| format!("{time:016X}0300000041\n")).collect();
    folder.put("starts.txt", starts);
    let replayed = out(&run(&folder, "replay starts.txt recording.txt"));
    let expected = "none\n".repeat(5) + &"000000000000000503FF38\n".repeat(4_995);
    assert!(replayed == expected);
}
