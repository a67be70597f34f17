//! The program `replay` beside the plain one, which is this one with another
//! word. Both are started anew for each input and take it from a file.

use crate::replay::starts;
use crate::timing::{children_time, median_of};
use compare::groups::replay_program::PROGRAM;
use compare::plain::replay::text;
use std::ffi::OsString;
use std::fs::File;
use std::io::{Read, Write};
use std::path::Path;
use std::process::{Command, Stdio};

const TURNS: usize = 11;
pub const PLAIN: &str = "plain-replay";

pub fn run(recording: &[u8]) {
    let Some(program) = std::env::var_os(PROGRAM) else {
        println!("the program is left out, since {PROGRAM} names none");
        return;
    };
    println!("program: starts, bytes, ms, MB a second, plain ms, MB a second, ratio, times its own with one start");
    let path = std::env::temp_dir().join(format!("bench-replay-{}", std::process::id()));
    let mut with_one = None;
    for count in [1, 1_024] {
        let mut input = String::new();
        for start in starts(count) {
            input.push_str(&format!("{:016X}{:02X}\n", start.time, start.board));
        }
        let input = [input.as_bytes(), recording].concat();
        std::fs::write(&path, &input).expect("a file for the input");
        let [own, plain] = times(&program, &path);
        let one = *with_one.get_or_insert(own);
        let speed = |time: f64| input.len() as f64 * 1_000.0 / time;
        println!(
            "{count}, {}, {:.1}, {:.0}, {:.1}, {:.0}, {:.2}, {:.2}",
            input.len(),
            own / 1e6,
            speed(own),
            plain / 1e6,
            speed(plain),
            own / plain,
            own / one
        );
    }
    std::fs::remove_file(&path).expect("the file");
}

fn times(program: &OsString, path: &Path) -> [f64; 2] {
    let own = || Command::new(program);
    let plain = || {
        let mut command = Command::new(std::env::current_exe().expect("this program"));
        command.arg(PLAIN);
        command
    };
    assert_eq!(ran(own(), path).0, ran(plain(), path).0);
    let turns: Vec<[f64; 2]> =
        (0..TURNS).map(|_| [ran(own(), path).1, ran(plain(), path).1]).collect();
    [median_of(&turns, |turn| turn[0]), median_of(&turns, |turn| turn[1])]
}

/// What it wrote, and the processor time that it took.
fn ran(mut command: Command, path: &Path) -> (Vec<u8>, f64) {
    let input = File::open(path).expect("the input");
    let before = children_time();
    let output = command.stdin(Stdio::from(input)).output().expect("the program");
    (output.stdout, (children_time() - before) as f64)
}

/// The plain program.
pub fn plain() {
    let mut input = Vec::new();
    std::io::stdin().read_to_end(&mut input).expect("the input");
    std::io::stdout().write_all(text(&input).as_bytes()).expect("the output");
}
