//! CSV and JSON, read back by Python and held to what the library says, with
//! names that are made to do harm.

use crate::folder::{out, said, Folder};
use hivesaddle::{find_path, hash_vista_bytes, read_file_alloc, TestFile, TestVolume};
use std::ffi::OsStr;
use std::io::Write;
use std::os::unix::ffi::OsStrExt;
use std::process::{Command, Stdio};

/// A line for each row, of its first columns: `-` for null, numbers, and texts as the digits of their
/// UTF-16 units behind a u.
const SHOW: &str = "
def show(value):
    if value is None: return '-'
    if isinstance(value, int): return str(value)
    return 'u' + value.encode('utf-16-be', 'surrogatepass').hex()
for row in rows: print(' '.join(map(show, row)))
";
const OF_JSON: &str =
    "import json, sys\nrows = [list(row.values())[:16] for row in json.load(sys.stdin)]";
const OF_CSV: &str =
    "import csv, sys\nrows = (row[:16] for row in csv.reader(sys.stdin, strict=True))";

/// What Python makes of a text.
fn python(read: &str, text: &str) -> Vec<String> {
    let mut child = Command::new("python3")
        .args(["-c", &format!("{read}\n{SHOW}")])
        .env("PYTHONIOENCODING", "utf-8")
        .stdin(Stdio::piped())
        .stdout(Stdio::piped())
        .spawn()
        .expect("python3 is there");
    child.stdin.take().unwrap().write_all(text.as_bytes()).unwrap();
    let output = child.wait_with_output().unwrap();
    assert!(output.status.success(), "{text}");
    out(&output).lines().map(String::from).collect()
}

fn text(units: impl IntoIterator<Item = u16>) -> String {
    let digits: String = units.into_iter().map(|unit| format!("{unit:04x}")).collect();
    format!("u{digits}")
}

fn words(text_of: &str) -> String {
    text(text_of.encode_utf16())
}

fn units(text: &str) -> Vec<u16> {
    text.encode_utf16().collect()
}

/// Names of programs and paths, as units.
fn names() -> Vec<Vec<u16>> {
    let mut names: Vec<Vec<u16>> = [
        "A\u{1B}[2J\u{7}.EXE",
        "A\n\r\tB.EXE",
        "\"A\",'B';C",
        "</script><b>&amp;",
        "=1+1",
        "-1",
        "@A,\"B",
        " A ",
        r"\u{1B}\n\x{FF}",
        "\u{202E}EXE.A\u{200B}",
        "\u{65E5}\u{672C}\u{1F600}\u{E0041}",
    ]
    .map(units)
    .to_vec();
    names.push(vec![0xD800, 0x41, 0xDC00, 0xDFFF, 0xD83D]);
    names
}

/// A file whose program, whose path and whose volume have this name.
fn file(name: &[u16]) -> Vec<u8> {
    let bytes: Vec<u8> = name.iter().flat_map(|unit| unit.to_le_bytes()).collect();
    let volume = TestVolume { path: String::from_utf16_lossy(name), ..TestVolume::default() };
    TestFile::new(23)
        .name_units(name)
        .hash(hash_vista_bytes(&bytes).wrapping_add(3))
        .metrics(0, name.len() as u32)
        .strings(&bytes)
        .strings(&[0, 0])
        .volume(volume)
        .write()
        .expect("a file that is accepted")
}

/// The row of `list` that the library would write.
fn row(file_name: &str, file: &[u8], name: &str, path: &str) -> Vec<String> {
    let record = read_file_alloc(file).unwrap().record;
    let found = find_path(file).unwrap();
    assert_eq!((found.entry, found.number), (0, 3));
    let hash = format!("{:08X}", record.stored_hash);
    let numbers = [record.metrics_count, record.chain_count, record.volume_count];
    let mut row = vec![words(file_name), name.to_string(), words(&hash)];
    row.extend([record.version, record.run_count].map(|number| number.to_string()));
    row.push("-".to_string());
    row.extend(numbers.map(|number| number.to_string()));
    row.extend([path.to_string(), found.number.to_string()]);
    row.extend(vec!["-".to_string(); 4]);
    row.push(words("by hash"));
    row
}

/// A folder with a file for each of the names, in their order.
fn folder() -> Folder {
    let folder = Folder::new("formats");
    for (i, name) in names().iter().enumerate() {
        folder.put(format!("{i:02}.pf"), file(name));
    }
    folder
}

#[test]
fn json_has_every_unit() {
    let folder = folder();
    let rows = python(OF_JSON, &out(&folder.run(&["list", "--json", "."])));
    assert_eq!(rows.len(), names().len());
    for (i, (name, shown)) in names().into_iter().zip(rows).enumerate() {
        let expected = text(name.iter().copied());
        let expected = row(&format!("./{i:02}.pf"), &file(&name), &expected, &expected);
        assert_eq!(shown, expected.join(" "));
    }
    let rows = python(OF_JSON, &out(&folder.run(&["names", "--json", "11.pf"])));
    assert_eq!(rows, [format!("0 {} {}", text(names()[11].iter().copied()), words("11.pf"))]);
}

/// As the text is shown, see src/text.rs; an apostrophe before a formula.
const SHOWN: [&str; 12] = [
    r"A\u{1B}[2J\u{7}.EXE",
    r"A\u{A}\u{D}\u{9}B.EXE",
    "\"A\",'B';C",
    "</script><b>&amp;",
    "'=1+1",
    "'-1",
    "'@A,\"B",
    " A ",
    r"\u{5C}u{1B}\n\u{5C}x{FF}",
    r"\u{202E}EXE.A\u{200B}",
    "\u{65E5}\u{672C}\u{1F600}\\u{E0041}",
    r"\u{D800}A\u{DC00}\u{DFFF}\u{D83D}",
];

#[test]
fn csv_has_what_is_shown() {
    let rows = python(OF_CSV, &out(&folder().run(&["list", "--csv", "."])));
    assert_eq!(rows.len(), 1 + names().len());
    // All fields are texts there, and what is null is empty.
    let as_csv = |cell: &String| match cell.as_str() {
        "-" => "u".to_string(),
        text if text.starts_with('u') => text.to_string(),
        number => words(number),
    };
    for (i, name) in names().iter().enumerate() {
        let shown = words(SHOWN[i]);
        let expected = row(&format!("./{i:02}.pf"), &file(name), &shown, &shown);
        let mut expected: Vec<String> = expected.iter().map(as_csv).collect();
        // Two more units before the hash.
        expected[2].insert_str(1, "00300078");
        assert_eq!(rows[1 + i], expected.join(" "));
    }
}

/// The names of the files themselves.
#[test]
fn names_of_files() {
    let folder = Folder::new("names");
    for name in ["a\u{1B}.pf", "b\n.pf", "c\",.pf", "=d.pf"] {
        folder.put(name, "SCCA");
    }
    folder.put(OsStr::from_bytes(b"e\xFF.pf"), "SCCA");
    let json = python(OF_JSON, &out(&folder.run(&["list", "--json", "."])));
    let csv = python(OF_CSV, &out(&folder.run(&["list", "--csv", "."])));
    let first = |rows: &[String]| -> Vec<String> {
        rows.iter().filter_map(|row| row.split(' ').next()).map(String::from).collect()
    };
    let expected = ["./=d.pf", "./a\u{1B}.pf", "./b\n.pf", "./c\",.pf", r"./e\x{FF}.pf"];
    assert_eq!(first(&json), expected.map(words));
    let expected =
        ["file", "./=d.pf", r"./a\u{1B}.pf", r"./b\u{A}.pf", "./c\",.pf", r"./e\x{FF}.pf"];
    assert_eq!(first(&csv), expected.map(words));
}

/// No control reaches a terminal or a pipe, whatever the command.
#[test]
fn no_control_is_written() {
    let folder = Folder::new("controls");
    for (i, name) in names().iter().enumerate() {
        folder.put(format!("{i}\u{1B}.pf"), file(name));
    }
    folder.put("odd\u{1B}.pf", "no such file");
    folder.put("wrong\u{1B}.txt", "version 23\nna\u{1B}me A\u{7}");
    let files: Vec<String> = (0..names().len()).map(|i| format!("{i}\u{1B}.pf")).collect();
    let mut all = vec![vec!["list", "."], vec!["check", "."], vec!["catalogue", "."]];
    all.extend([vec!["list", "--csv", "."], vec!["list", "--json", "."]]);
    all.extend([vec!["make", "wrong\u{1B}.txt", "x"], vec!["check", "--\u{1B}"]]);
    for file in &files {
        all.extend([vec!["names", file], vec!["volumes", file]]);
    }
    for words in all {
        let said = said(&folder.run(&words));
        let harmful = |c: char| c.is_control() && c != '\n' && c != '\t' || c == '\u{202E}';
        assert!(!said.contains(harmful), "{words:?}: {said:?}");
    }
}

/// The same of `directories`, of times, and of what only an option shows.
#[test]
fn no_control_of_parts_is_written() {
    let folder = Folder::new("part-controls");
    for (i, name) in names().iter().enumerate() {
        let file_name = format!("{i}\u{1B}.pf");
        folder.put(&file_name, file(name));
        for words in [
            &["names", "--references"][..],
            &["directories"],
            &["volumes", "--references"],
            &["timeline"],
        ] {
            let said = said(&folder.run(&[words, &[&*file_name]].concat()));
            let harmful = |c: char| c.is_control() && c != '\n' && c != '\t' || c == '\u{202E}';
            assert!(!said.contains(harmful), "{words:?}: {said:?}");
        }
    }
}

#[test]
fn json_has_every_unit_beside_a_reference() {
    let folder = folder();
    let rows = python(OF_JSON, &out(&folder.run(&["names", "--references", "--json", "11.pf"])));
    let [name, file] = [text(names()[11].iter().copied()), words("11.pf")];
    assert_eq!(rows, [format!("0 {name} {file} {} {}", words("0-0"), words("by hash"))]);
}
