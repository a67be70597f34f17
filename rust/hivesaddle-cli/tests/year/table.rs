//! `year` as a table, and what it refuses.

use crate::{complaint, each_is_expected, example, out, read_back, run, said, status, Folder};
use hivesaddle::TestFile;

#[test]
fn outputs() {
    let folder = example("year");
    folder.make("ring.pf", &out(&run(&folder, "make --list 13")));
    folder.put("none.txt", "");
    folder.put("short.txt", "01DB37C70D605C0003978DAB15\n01DB37C70D605C0003\n");
    let cases = [
        ("year.txt", "year catalogue.txt starts.txt chamber.txt"),
        ("year-names.txt", "year catalogue.txt starts.txt chamber.txt --names small.pf"),
        ("year-refused.txt", "year catalogue.txt starts.txt chamber.txt --csv --names ."),
        ("year-csv.txt", "year catalogue.txt starts.txt chamber.txt --csv --names=small.pf"),
        ("year-json.txt", "year --json catalogue.txt starts.txt chamber.txt --names small.pf"),
        ("year-no-lines.txt", "year none.txt starts.txt chamber.txt"),
        ("year-no-starts.txt", "year catalogue.txt none.txt chamber.txt"),
        ("year-nothing.txt", "year none.txt none.txt none.txt --json"),
        ("year-short.txt", "year catalogue.txt short.txt chamber.txt"),
        ("year-swapped.txt", "year starts.txt catalogue.txt chamber.txt"),
        ("year-missing.txt", "year catalogue.txt missing.txt chamber.txt"),
        ("year-both.txt", "year - - chamber.txt"),
        ("year-words.txt", "year catalogue.txt starts.txt"),
        ("year-value.txt", "year catalogue.txt starts.txt chamber.txt --names"),
        ("year-exclude.txt", "year catalogue.txt starts.txt chamber.txt --csv --html a.html"),
    ];
    each_is_expected(&folder, &cases);
    assert!(!folder.0.join("a.html").exists());
}

/// The files of a board, and a table of them with a reading for each.
pub fn year_of(folder: &Folder, programs: &[(TestFile, &str)]) {
    let mut recording = String::new();
    let mut starts = vec!["starts".to_string()];
    for (i, (file, tenths)) in programs.iter().enumerate() {
        let name = format!("{i}.pf");
        let file = file.clone().run_time(0x01DB_37C7_0D60_5C00).run_count(i as u32 + 1);
        folder.put(&name, file.write().expect("a sound file"));
        starts.push(format!("{i}={name}"));
        if !tenths.is_empty() {
            recording += &format!("01DB37C70D605C00{i:02X}{tenths}\n");
        }
    }
    folder.put("recording.txt", recording);
    folder.put("catalogue.txt", run(folder, "catalogue .").stdout);
    let starts: Vec<&str> = starts.iter().map(String::as_str).collect();
    folder.put("starts.txt", folder.run(&starts).stdout);
}

#[test]
fn temperatures_of_every_sign() {
    let folder = Folder::new("signs");
    let tenths = ["7FFF", "8000", "FFFF", "0000", "FF38", "0514", "FFFB", ""];
    let programs: Vec<(TestFile, &str)> = tenths
        .iter()
        .enumerate()
        .map(|(i, tenths)| (TestFile::new(23).name("A").hash(i as u32), *tenths))
        .collect();
    year_of(&folder, &programs);
    let degrees = ["3276.7", "-3276.8", "-0.1", "0.0", "-20.0", "130.0", "-0.5", ""];
    let csv = run(&folder, "year catalogue.txt starts.txt recording.txt --csv");
    let row = |(i, d): (usize, &&str)| {
        let readings = if d.is_empty() { 0 } else { 1 };
        let age = if d.is_empty() { "" } else { "0" };
        format!(
            "['0x0000000{i}', '', '1', '{}', '{readings}', '{d}', '{d}', '{d}', '{age}']\n",
            i + 1
        )
    };
    let expected: String = degrees.iter().enumerate().map(row).collect();
    assert_eq!(read_back("csv", &csv.stdout), expected);
    let json = run(&folder, "year catalogue.txt starts.txt recording.txt --json");
    let row = |(i, d): (usize, &&str)| match *d {
        "" => format!("['0000000{i}', None, 1, {}, 0, None, None, None, None]\n", i + 1),
        d => format!("['0000000{i}', None, 1, {}, 1, {d}, {d}, {d}, 0]\n", i + 1),
    };
    let expected: String = degrees.iter().enumerate().map(row).collect();
    assert_eq!(read_back("json", &json.stdout), expected);
}

/// The mean of -0.4 and -0.1 is rounded down, to -0.3.
#[test]
fn means_are_rounded_down() {
    let folder = Folder::new("means");
    folder.put("catalogue.txt", "00000094000000410000000211\n0000D400000041FFFFFFFF1E\n");
    let starts = ["000000000000000501", "000000000000000502", "000000000000000401"];
    folder.put("starts.txt", starts.map(|start| format!("{start}00000041\n")).concat());
    folder.put("recording.txt", "000000000000000501FFFC\n000000000000000502FFFF\n");
    let table = out(&run(&folder, "year catalogue.txt starts.txt recording.txt"));
    assert_eq!(table, "00000041\t\t2\t4294967297\t2\t-0.4\t-0.3\t-0.1\t0s\n");
}

#[test]
fn hostile_names_in_csv_and_json() {
    let folder = Folder::new("hostile");
    let names = ["</script>", "\"quoted\", \u{1B}[2J", "=cmd()", "A,B"];
    let programs: Vec<(TestFile, &str)> = names
        .iter()
        .enumerate()
        .map(|(i, name)| (TestFile::new(17).name(name).hash(i as u32), ""))
        .collect();
    year_of(&folder, &programs);
    let read = |kind: &str| {
        let words = format!("year catalogue.txt starts.txt recording.txt --{kind} --names .");
        let rows = read_back(kind, &run(&folder, &words).stdout);
        let name = |row: &str| row.split("', ").nth(1).map(String::from);
        rows.lines().filter_map(name).collect::<Vec<String>>()
    };
    let csv = ["'</script>", "'\"quoted\", \\\\u{1B}[2J", "\"'=cmd()\", '1", "'A,B"];
    assert_eq!(read("csv"), csv);
    let json = ["'</script>", "'\"quoted\", \\x1b[2J", "'=cmd()", "'A,B"];
    assert_eq!(read("json"), json);
    let plain = out(&run(&folder, "year catalogue.txt starts.txt recording.txt --names ."));
    assert!(plain.contains("\t\"quoted\", \\u{1B}[2J\t") && !plain.contains('\u{1B}'));
}

#[test]
fn a_hash_with_several_names() {
    let folder = Folder::new("several");
    let programs: Vec<(TestFile, &str)> = ["B", "A", "B", "C", "D", "E", "F"]
        .map(|name| (TestFile::new(17).name(name).hash(1), ""))
        .into();
    year_of(&folder, &programs);
    let names = |words: &str| {
        let table =
            out(&run(&folder, &format!("year catalogue.txt starts.txt recording.txt {words}")));
        table.split('\t').nth(1).map(String::from)
    };
    assert_eq!(names("--names 0.pf --names=1.pf --names 2.pf").as_deref(), Some("B, A"));
    assert_eq!(names("--names .").as_deref(), Some("B, A, C, D, ..."));
}

#[test]
fn refusals_name_the_file_and_the_line() {
    let folder = Folder::new("refusals");
    let (line, start) = ("00000094000000410000000111\n", "00000000000000050300000041\n");
    let refuse = |catalogue: &str, starts: &str, recording: &str| {
        folder.put("catalogue.txt", catalogue);
        folder.put("starts.txt", starts);
        folder.put("recording.txt", recording);
        complaint(&run(&folder, "year catalogue.txt starts.txt recording.txt"), 1)
    };
    let said = refuse(&format!("{line}{line}{}", &line[..26]), start, "");
    assert!(said.starts_with("catalogue.txt: refused 18: line 3 is no catalogue line, "), "{said}");
    let said = refuse(line, start, "000000000000000503FF38\n\n");
    assert!(said.starts_with("recording.txt: refused 22: line 2 is no reading, "), "{said}");
    let said = refuse(line, &format!("{start}{start}x\n"), "");
    assert!(said.starts_with("starts.txt: refused 22: line 3 is no start, "), "{said}");

    let lines = |hashes: std::ops::Range<u32>| -> String {
        hashes.map(|hash| format!("00000094{hash:08X}0000000111\n")).collect()
    };
    let many = "brings a 1,025th program; make a table of fewer";
    let said = refuse(&lines(0..1_026), start, "");
    assert_eq!(said, format!("catalogue.txt: refused 24: line 1025 {many}"));
    let starts = "00000000000000050300000000\n00000000000000050300000FFF\n";
    let said = refuse(&lines(0..1_024), starts, "");
    assert_eq!(said, format!("starts.txt: refused 24: line 2 {many}"));

    let many = "refused 26: more than 1,048,576 lines; make a table of fewer";
    assert_eq!(refuse(&line.repeat(1_048_577), start, ""), format!("catalogue.txt: {many}"));
    assert_eq!(refuse("x", &start.repeat(1_048_577), ""), format!("starts.txt: {many}"));
}

/// Both have lines of 26 digits.
#[test]
fn a_catalogue_in_place_of_the_starts() {
    let folder = Folder::new("order");
    let order = "are the files in the order CATALOGUE STARTS RECORDING?";
    let (line, start) = ("00000094000000410000000111\n", "00000000000000050300000041\n");
    let other = "00000000000000050300000042\n";
    folder.put("catalogue.txt", line);
    folder.put("copy.txt", line.repeat(2));
    folder.put("recording.txt", "000000000000000503FF38\n");
    let year = |starts: &str| run(&folder, &format!("year catalogue.txt {starts} recording.txt"));
    let said = complaint(&year("./catalogue.txt"), 2);
    assert_eq!(said, format!("./catalogue.txt: is the catalogue too; {order}"));
    let said = complaint(&year("copy.txt"), 2);
    let hashes = "2 starts are of hashes that no catalogue line has";
    assert_eq!(said, format!("copy.txt: {hashes}; {order}"));

    folder.put("starts.txt", [start, other].concat());
    let made = year("starts.txt");
    let rows = "00000041\t\t1\t1\t1\t-20.0\t-20.0\t-20.0\t0s\n\
                00000042\t\t0\t0\t1\t-20.0\t-20.0\t-20.0\t0s\n";
    let hash = "1 start is of a hash that no catalogue line has";
    let error = format!("-- standard error\nhivesaddle: starts.txt: {hash}; {order}\n");
    assert_eq!(crate::said(&made), format!("{rows}{error}-- status 0\n"));
}

/// As many as a table is made of.
#[test]
fn the_largest_year() {
    let folder = Folder::new("largest");
    folder.put("catalogue.txt", "0400000000000041FFFFFFFF17\n".repeat(1_048_576));
    folder.put("starts.txt", "00000000000000050300000041\n".repeat(1_048_576));
    folder.put("recording.txt", "0000000000000005038000\n");
    let table = run(&folder, "year catalogue.txt starts.txt recording.txt --json");
    assert_eq!(status(&table), 0, "{}", said(&table));
    let expected =
        "['00000041', None, 1048576, 4503599626321920, 1048576, -3276.8, -3276.8, -3276.8, 0]\n";
    assert_eq!(read_back("json", &table.stdout), expected);
}
