//! The page of `year`.

use crate::table::year_of;
use crate::{complaint, err, example, out, read_back, run, status, Folder};
use hivesaddle::TestFile;

#[test]
fn the_page_of_the_example() {
    let folder = example("page");
    let words = "year catalogue.txt starts.txt chamber.txt --names small.pf --html";
    let made = run(&folder, &format!("{words} year.html"));
    assert_eq!((status(&made), out(&made), err(&made)), (0, String::new(), String::new()));
    let page = String::from_utf8(folder.read("year.html")).expect("text");
    crate::is_expected("year.html", &page);
    assert_eq!(out(&run(&folder, &format!("{words} -"))), page);
    let expected = "\
['Program', 'Hash', 'Lowest', 'Mean', 'Highest', 'Files', 'Runs', 'Readings', 'Oldest']
['CHAMBER.EXE', '978DAB15', '-20.5', '-5.1', '21.5', '2', '84', '9', '1m 0s']
['', '9DE758B4', 'none', 'none', 'none', '1', '42', '0', 'none']
CHAMBER.EXE 978DAB15lowest -20.5, mean -5.1, highest 21.5
";
    assert_eq!(read_back("html", page.as_bytes()), expected);
    assert!(page.contains("Starts from 2024-11-09 to 2024-11-16, UTC"));
}

/// Names, temperatures and a year of nothing: all pages can be read.
#[test]
fn odd_pages() {
    let folder = Folder::new("odd-pages");
    let program = |name: &str, hash| TestFile::new(23).name(name).hash(hash);
    let programs = [
        (program("</script><b onload='x'>&amp;", 1), "7FFF"),
        (program("\" onload=\"x\u{1B}", 2), "8000"),
        (program("--></style>", 3), "FFFF"),
        (program("", 4), ""),
    ];
    year_of(&folder, &programs);
    let words = "year catalogue.txt starts.txt recording.txt --html -";
    let page = run(&folder, &format!("{words} --names ."));
    let expected = "\
['Program', 'Hash', 'Lowest', 'Mean', 'Highest', 'Files', 'Runs', 'Readings', 'Oldest']
[\"</script><b onload='x'>&amp;\", '00000001', '3276.7', '3276.7', '3276.7', '1', '1', '1', '0s']
['\" onload=\"x\\\\u{1B}', '00000002', '-3276.8', '-3276.8', '-3276.8', '1', '2', '1', '0s']
['--></style>', '00000003', '-0.1', '-0.1', '-0.1', '1', '3', '1', '0s']
['', '00000004', 'none', 'none', 'none', '1', '4', '0', 'none']
</script><b onload='x'>&amp; 00000001lowest 3276.7, mean 3276.7, highest 3276.7
\" onload=\"x\\u{1B} 00000002lowest -3276.8, mean -3276.8, highest -3276.8
--></style> 00000003lowest -0.1, mean -0.1, highest -0.1
";
    assert_eq!(read_back("html", &page.stdout), expected);
    // Without names there is no column for them.
    let nameless = read_back("html", &run(&folder, words).stdout);
    assert!(nameless.starts_with("['Hash', 'Lowest', "), "{nameless}");

    folder.put("none.txt", "");
    let nothing = run(&folder, "year none.txt none.txt none.txt --html -");
    assert_eq!(read_back("html", &nothing.stdout).lines().count(), 1);
    assert!(
        out(&nothing).contains("No starts") && out(&nothing).contains("No program has a reading")
    );
}

/// The axis has its unit, and stands at both ends of a long plot.
#[test]
fn the_axis_of_a_plot() {
    for (programs, axes) in [(19, 1), (20, 2)] {
        let folder = Folder::new("axis");
        let program = |hash| (TestFile::new(23).name("A").hash(hash), "FF38");
        year_of(&folder, &(0..programs).map(program).collect::<Vec<_>>());
        let page = out(&run(&folder, "year catalogue.txt starts.txt recording.txt --html -"));
        assert_eq!(page.matches("-19.9 \u{B0}C</text>").count(), axes, "{page}");
        assert_eq!(page.matches("<div class=\"axis below\">").count(), axes - 1);
        let (first, last) = (page.find("<div class=\"axis\">"), page.find("<ol>"));
        assert!(first.is_some() && first < last);
        assert!(axes == 1 || page.find("<div class=\"axis below\">") > page.find("</ol>"));
    }
}

#[test]
fn a_page_that_can_not_be_written() {
    let folder = example("no-page");
    let words = "year catalogue.txt starts.txt chamber.txt --html";
    let said = complaint(&run(&folder, &format!("{words} missing/year.html")), 2);
    assert!(said.starts_with("missing/year.html: cannot write: "), "{said}");
    let said = complaint(&run(&folder, &format!("{words} ./chamber.txt")), 2);
    assert!(said.starts_with("./chamber.txt: is what it would be made from"), "{said}");
    let said = complaint(&run(&folder, &format!("{words} small.pf --names small.pf")), 2);
    assert!(said.starts_with("small.pf: is a Prefetch file, and would be"), "{said}");
    assert_eq!(folder.read("small.pf"), crate::folder::small());
    // A file of a folder of --names, though it is no Prefetch file.
    std::fs::create_dir(folder.0.join("names")).expect("a folder");
    folder.put("names/text.pf", "as it was");
    let made = run(&folder, &format!("{words} names/text.pf --names small.pf --names names"));
    assert!(err(&made).contains("names/text.pf: is what it would be made from"), "{}", err(&made));
    assert_eq!((status(&made), folder.read("names/text.pf")), (2, b"as it was".to_vec()));
    // Nothing is written where something is refused.
    folder.put("bad.txt", "bad\n");
    folder.put("year.html", "as it was");
    complaint(&run(&folder, "year catalogue.txt starts.txt bad.txt --html year.html"), 1);
    assert_eq!(folder.read("year.html"), b"as it was");
}
