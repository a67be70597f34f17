//! A description of an odd file for each refusal that a file can get. 7 is not
//! among them: it is about memory that the caller lends.

/// A sound file of version 23. The lines that make it odd follow.
const SOUND: &str = r"hash-of \DEVICE\HARDDISKVOLUME1\WINDOWS\SYSTEM32\CMD.EXE
run-time 133761942000000000
run-count 42
file \DEVICE\HARDDISKVOLUME1\WINDOWS\SYSTEM32\CMD.EXE
file \DEVICE\HARDDISKVOLUME1\WINDOWS\SYSTEM32\NTDLL.DLL
chain 8 16 4
chain 2
volume \DEVICE\HARDDISKVOLUME1
serial 0x5C0A70E1
created 129000000000000000
reference 40 1
directory \DEVICE\HARDDISKVOLUME1\WINDOWS
";

struct Odd {
    number: u32,
    version: u32,
    name: &'static str,
    title: &'static str,
    /// Behind those of the sound file.
    lines: &'static str,
}

const fn odd(number: u32, title: &'static str, lines: &'static str) -> Odd {
    Odd { number, version: 23, name: "CMD.EXE", title, lines }
}

const ODD: [Odd; 17] = [
    Odd { version: 24, ..odd(1, "a version that is not known", "") },
    odd(2, "another signature", "bytes-at 4 53 43 43 42"),
    odd(3, "a declared size that holds no head", "bytes-at 12 10 00 00 00"),
    Odd { name: "A-NAME-OF-THIRTY-UNITS-OR-MORE", ..odd(4, "a program name of thirty units", "") },
    odd(5, "strings that start behind the end of the file", "bytes-at 100 00 10 00 00"),
    odd(6, "a trace that starts where the metrics do", "bytes-at 92 F0 00 00 00"),
    odd(8, "more volumes than there is room for", "volume-count 100"),
    odd(9, "a name that runs past the strings", "metrics 1000 5"),
    odd(10, "a name that is cut short", "metrics 0 5"),
    odd(11, "a trace entry that leads to one that is not there", "trace 9 1"),
    odd(12, "two trace entries that lead to the same", "trace 1 1"),
    odd(13, "two trace entries that lead to each other", "trace 5 1\ntrace 4 1"),
    odd(14, "a second volume that is only text of the first", "volume-count 2"),
    odd(15, "a directory without a zero behind it", "bytes-at 784 41 00"),
    odd(16, "a file that ends too early", "file-length 700"),
    odd(17, "a file that goes on behind its declared size", "file-length 2000"),
    Odd {
        version: 30,
        ..odd(21, "a head of version 30 in a form that is not known", "bytes-at 84 28 01 00 00")
    },
];

/// Their numbers, rising.
pub fn numbers() -> impl Iterator<Item = u32> {
    ODD.iter().map(|odd| odd.number)
}

/// The description that gives this refusal, if there is one.
pub fn description(number: u32) -> Option<String> {
    let Odd { version, name, title, lines, .. } = ODD.iter().find(|odd| odd.number == number)?;
    let lines = if lines.is_empty() { String::new() } else { format!("{lines}\n") };
    let head = format!("# Refusal {number}: {title}.\nversion {version}\nodd\nname {name}\n");
    Some(format!("{head}{SOUND}{lines}"))
}
