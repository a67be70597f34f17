//! `chart`.

use crate::{complaint, each_is_expected, err, example, out, read_back, run, status, Folder};
use hivesaddle::{TestFile, NONE};

#[test]
fn outputs() {
    let folder = example("chart");
    folder.make("ring.pf", &out(&run(&folder, "make --list 13")));
    let cases = [
        ("chart.txt", "chart small.pf small.svg"),
        ("chart-itself.txt", "chart small.pf ./small.pf"),
        ("chart-nowhere.txt", "chart small.pf missing/small.svg"),
        ("chart-refused.txt", "chart ring.pf ring.svg"),
        ("chart-missing.txt", "chart missing.pf ring.svg"),
        ("chart-words.txt", "chart small.pf"),
    ];
    each_is_expected(&folder, &cases);
    crate::is_expected("small.svg", &String::from_utf8(folder.read("small.svg")).expect("text"));
    assert_eq!(folder.read("small.svg"), run(&folder, "chart small.pf -").stdout);
    assert!(!folder.0.join("ring.svg").exists());
    assert_eq!(folder.read("small.pf"), crate::folder::small());
}

/// As in `chart *.pf`, sound files or not.
#[test]
fn prefetch_files_are_not_written_over() {
    let folder = example("over");
    folder.make("odd.pf", &out(&run(&folder, "make --list 1")));
    folder.put("packed.pf", b"MAM\x04\x10\0\0\0packed");
    for name in ["odd.pf", "packed.pf", "./small.pf"] {
        let before = folder.read(name);
        let said = complaint(&run(&folder, &format!("chart small.pf {name}")), 2);
        let over = "is a Prefetch file, and would be written over; give the output another name";
        assert_eq!(said, format!("{name}: {over}"));
        assert_eq!(folder.read(name), before);
    }
    for text in ["", "MA", "<svg", "SCCA"] {
        folder.put("old.svg", text);
        assert_eq!(status(&run(&folder, "chart small.pf old.svg")), 0);
    }
}

/// Each row as another program reads it: title, label and number of bars.
fn rows(folder: &Folder, file: &[u8]) -> Vec<String> {
    folder.put("file.pf", file);
    let charted = run(folder, "chart file.pf -");
    assert_eq!((status(&charted), err(&charted)), (0, String::new()));
    read_back("svg", &charted.stdout).lines().map(String::from).collect()
}

fn rows_of(name: &str, file: TestFile) -> Vec<String> {
    rows(&Folder::new(name), &file.write().expect("a sound file"))
}

#[test]
fn odd_files_have_charts() {
    assert_eq!(rows_of("nothing", TestFile::new(17)), [""; 0]);
    let few = TestFile::new(23).file("A").file("B").chain(&[1, 9]);
    let expected = ["A: 2 trace entries, up to 9 | A | 2", "B: 0 trace entries | B | 0"];
    assert_eq!(rows_of("few", few), expected);
    let many = TestFile::new(17).file("A").chain(&[1]).chain(&[2]).chain(&[0, 4]);
    let expected = ["A: 1 trace entry, up to 1 | A | 1", "no file: 3 trace entries | no file | 0"];
    assert_eq!(rows_of("many", many), expected);
    let none = TestFile::new(17).file("A").chain(&[0, 0]);
    assert_eq!(rows_of("none", none), ["A: 2 trace entries, up to 0 | A | 1"]);
}

/// Positions are drawn, each row on a scale of its own, and nothing is added up.
#[test]
fn a_map_for_each_file() {
    let file = TestFile::new(23)
        .file(r"\DISK\A.EXE")
        .file(r"\DISK\SYSTEM\B.DLL")
        .chain(&[0, 4_096, u32::MAX])
        .chain(&[8, 16]);
    let folder = Folder::new("maps");
    let rows = rows(&folder, &file.write().expect("a sound file"));
    let expected = [
        r"\DISK\A.EXE: 3 trace entries, up to 4,294,967,295 | A.EXE | 2",
        r"\DISK\SYSTEM\B.DLL: 2 trace entries, up to 16 | SYSTEM\B.DLL | 2",
    ];
    assert_eq!(rows, expected);
    let svg = out(&run(&folder, "chart file.pf -"));
    assert!(svg.contains(r">all in \DISK\</text>"), "{svg}");
    assert!(svg.contains("scale of its own") && !svg.contains("block"), "{svg}");
    // Texts keep their size, and places are parts of the width.
    assert!(svg.contains("width=\"100%\"") && !svg.contains("viewBox=\"0 0 1"), "{svg}");
}

#[test]
fn names_are_text() {
    let file = TestFile::new(17)
        .name("</title>&\u{1B}\"")
        .file("</script><b>'\"&amp;\u{1B}]\u{202E}")
        .chain(&[1])
        .file(&"LONG\\".repeat(300));
    let folder = Folder::new("names");
    let rows = rows(&folder, &file.write().expect("a sound file"));
    let shown = "</script><b>'\"&amp;\\u{1B}]\\u{202E}";
    assert_eq!(rows[0], format!("{shown}: 1 trace entry, up to 1 | {shown} | 1"));
    assert!(rows[1].contains("| \u{2026}ONG\\LONG\\LONG") && rows[1].len() < 700, "{}", rows[1]);
    let svg = out(&run(&folder, "chart file.pf -"));
    let title = "<title id=\"t\">Loading chart of &lt;/title&gt;&amp;\\u{1B}&quot;</title>";
    assert!(svg.contains(title), "{svg}");
}

/// A million trace entries, and more files than have rows of their own.
#[test]
fn a_large_file_has_a_small_chart() {
    let mut file = TestFile::new(17);
    for _ in 0..1_200 {
        file = file.file("F");
    }
    for entry in 0..1_000_000u32 {
        file = file.trace(if entry % 800 == 799 { NONE } else { entry + 1 }, entry % 5);
    }
    let folder = Folder::new("large");
    let rows = rows(&folder, &file.write().expect("a sound file"));
    assert_eq!(rows.len(), 1_002);
    assert_eq!(rows[1_000], "200 further files: 160,000 trace entries | 200 further files | 0");
    assert_eq!(rows[1_001], "no file: 40,000 trace entries | no file | 0");
    let length = run(&folder, "chart file.pf -").stdout.len();
    assert!(length < 1_000_000, "{length} bytes");
}

/// Version 30: the metrics at 304 name their trace entries, whether these are
/// there or not.
#[test]
fn version_30() {
    let folder = Folder::new("version-30");
    let (metrics, entries) = (1_500, 6_000);
    let trace = 304 + 32 * metrics;
    let strings = trace + 8 * entries;
    let mut file = vec![0; strings + 2];
    let mut set = |at: usize, number: usize| {
        file[at..at + 4].copy_from_slice(&(number as u32).to_le_bytes());
    };
    set(0, 30);
    set(4, u32::from_le_bytes(*b"SCCA") as usize);
    set(12, strings + 2);
    for (at, numbers) in [(84, [304, metrics]), (92, [trace, entries]), (100, [strings, 2])] {
        set(at, numbers[0]);
        set(at + 4, numbers[1]);
    }
    // All of them name all entries, but the first, which names some that are not there.
    for entry in 0..metrics {
        set(304 + 32 * entry, if entry == 0 { entries - 1 } else { 0 });
        set(304 + 32 * entry + 4, if entry == 0 { u32::MAX as usize } else { entries });
    }
    (0..entries).for_each(|entry| set(trace + 8 * entry, 3));
    let rows = rows(&folder, &file);
    assert_eq!(rows.len(), 1_001);
    assert!(rows[0].starts_with(": 1 trace entry, up to 3 |"), "{}", rows[0]);
    assert!(rows[1_000].starts_with("500 further files: 6,000 trace entries |"));
    let svg = run(&folder, "chart file.pf -").stdout;
    assert!(svg.len() < 2_000_000, "{} bytes", svg.len());
    assert!(String::from_utf8_lossy(&svg).contains("Version 30 has no chains"));
}

#[test]
fn a_refused_file_writes_nothing() {
    let folder = Folder::new("refused");
    folder.put("out.svg", "as it was");
    folder.put("file.pf", "no Prefetch file");
    let said = complaint(&run(&folder, "chart file.pf out.svg"), 1);
    assert!(said.starts_with("file.pf: refused 1 0 at 0x0: "), "{said}");
    assert_eq!(folder.read("out.svg"), b"as it was");
}
