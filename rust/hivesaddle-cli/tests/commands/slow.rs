//! Files that are made to be slow, at a size that takes no second.

use crate::folder::{err, out, small, status, Folder};
use hivesaddle::TestFile;

/// Each entry names the one text there is.
pub fn names() -> Vec<u8> {
    let entries = 16_400;
    let text = [b'A', 0].repeat(entries / 2 - 1);
    let mut file = TestFile::new(17).name("SLOW.EXE").run_time(7).strings(&text).strings(&[0, 0]);
    for _ in 0..entries {
        file = file.metrics(0, entries as u32 / 2 - 1);
    }
    file.lay_out()
}

const NAMES: &str = "odd: its names overlap 16400-fold; reading it would take about 1s";

/// Each volume lists the same empty directories.
fn directories() -> Vec<u8> {
    let (volumes, directories) = (2_048, 32_800);
    let references = 40 * volumes;
    let mut entry = [0; 40];
    for (at, number) in [(20, references), (24, 8), (28, references + 8), (32, directories)] {
        entry[at..at + 4].copy_from_slice(&(number as u32).to_le_bytes());
    }
    let rest = vec![0; 8 + 4 * directories];
    let section = [entry.repeat(volumes), rest].concat();
    TestFile::new(17).name("SLOW.EXE").volumes(&section).volume_count(volumes as u32).lay_out()
}

const DIRECTORIES: &str = "odd: its directories overlap 1260-fold; reading it would take about 1s";

fn files() -> Folder {
    let folder = Folder::new("slow");
    folder.put("a.pf", names());
    folder.put("b.pf", directories());
    folder.put("c.pf", small());
    folder
}

/// Every command that reads files knows before, and the others are read.
#[test]
fn said_and_not_read() {
    let folder = files();
    let listed = folder.run(&["list", "."]);
    let rows: Vec<String> = out(&listed).lines().map(String::from).collect();
    assert_eq!(status(&listed), 1);
    assert_eq!(rows[0], format!("./a.pf\tSLOW.EXE\t\t\t\t\t\t\t\t{NAMES}"));
    assert_eq!(rows[1], format!("./b.pf\tSLOW.EXE\t\t\t\t\t\t\t\t{DIRECTORIES}"));
    assert!(rows[2].ends_with("CHAMBER.EXE"), "{rows:?}");
    let csv = out(&folder.run(&["list", "--csv", "--sha256", "a.pf"]));
    assert!(csv.contains(&format!(",{NAMES},,")), "{csv}");
    // A sum does not take long.
    assert_eq!(csv.trim_end().rsplit(',').next().map(str::len), Some(64), "{csv}");

    let checked = folder.run(&["check", "."]);
    let advice = "  what to do: --patient reads it all the same";
    let expected =
        format!("./a.pf: {NAMES}\n{advice}\n./b.pf: {DIRECTORIES}\n{advice}\n./c.pf: accepted\n");
    assert_eq!((out(&checked), status(&checked)), (expected, 1));

    folder.put("recording.txt", "01DB37C70D605C0003FF38\n");
    for words in [
        &["timeline", "."][..],
        &["names", "."],
        &["directories", "."],
        &["volumes", "."],
        &["catalogue", "."],
        &["starts", "3=."],
        &["year", "recording.txt", "3=."],
    ] {
        let shown = folder.run(words);
        let expected = format!("hivesaddle: ./a.pf: {NAMES}\nhivesaddle: ./b.pf: {DIRECTORIES}\n");
        assert_eq!((err(&shown), status(&shown)), (expected, 1), "{words:?}");
        assert!(!out(&shown).is_empty() && out(&shown).len() < 2_000, "{words:?}: {}", out(&shown));
    }
    let charted = folder.run(&["chart", "a.pf", "a.svg"]);
    assert_eq!((err(&charted), status(&charted)), (format!("hivesaddle: a.pf: {NAMES}\n"), 1));
    assert!(!folder.0.join("a.svg").exists());
}

#[test]
fn read_with_patience() {
    let folder = files();
    let checked = folder.run(&["check", "--patient", "a.pf", "b.pf"]);
    assert_eq!((out(&checked), status(&checked)), ("a.pf: accepted\nb.pf: accepted\n".into(), 0));
    for words in [
        &["list", "--patient", "b.pf"][..],
        &["timeline", "--patient", "a.pf"],
        &["names", "--patient", "b.pf"],
        &["directories", "--patient", "a.pf"],
        &["volumes", "--patient", "a.pf"],
        &["catalogue", "--patient", "a.pf"],
        &["starts", "--patient", "3=a.pf"],
        &["chart", "--patient", "b.pf", "-"],
    ] {
        let shown = folder.run(words);
        assert_eq!((err(&shown), status(&shown)), (String::new(), 0), "{words:?}");
    }
    let year = ["year", "--patient", "recording.txt", "3=b.pf"];
    folder.put("recording.txt", "01DB37C70D605C0003FF38\n");
    assert!(out(&folder.run(&year)).contains("\tSLOW.EXE\t1\t"));
}
