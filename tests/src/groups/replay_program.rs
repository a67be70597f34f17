//! The text of the program `replay` for the bytes on its standard input. The
//! program is the one that HIVESADDLE_REPLAY names. Where the input comes from
//! and in which pieces must change nothing.

use super::replay_points::{reading, start, three, LAST};
use super::Run;
use crate::generate::recordings::{any_case, case_of, lines_of, spoil, start_line, Case, EDGES};
use crate::random::Random;
use crate::reference::replay::{replayed_text, Reading, Start, MOST_STARTS};
use crate::tally::Tally;
use std::fs::File;
use std::io::{ErrorKind, Write};
use std::os::fd::AsRawFd;
use std::process::{Child, ChildStdin, Command, Stdio};
use std::time::{Duration, Instant};

pub const PROGRAM: &str = "HIVESADDLE_REPLAY";
/// Bytes that the program takes in one step.
const STEP: usize = 4_096;

pub fn run(run: &Run, tally: &mut Tally) {
    if std::env::var_os(PROGRAM).is_none() {
        println!("replays: the program is left out, since {PROGRAM} names none");
        return;
    }
    let random = &mut run.random("program");
    let program = &mut Program { random, tally };
    program.by_hand();
    program.most_starts();
    program.order_of_lines();
    program.bad_bytes();
    program.cuts_and_pieces();
    program.steps();
    program.whole_steps();
    program.long_lines();
    program.nothing_before_the_end();
    program.seeded(150 * run.scale);
}

struct Program<'a> {
    random: &'a mut Random,
    tally: &'a mut Tally,
}

impl Program<'_> {
    fn named(&mut self, name: &str, input: &[u8], text: &str) {
        self.tally.named(name, text, &text_of(input, Way::Pipe));
        self.tally.named(name, text, &replayed_text(input));
    }

    fn same(&mut self, input: &[u8], way: Way) {
        let expected = replayed_text(input);
        let shown = || format!("{way:?}, {:?}", String::from_utf8_lossy(input));
        self.tally.same("replayed text", &expected, &text_of(input, way), shown);
    }

    fn each_way(&mut self, input: &[u8]) {
        // Not more pieces than can be waited for.
        let some = self.random.between(1, 3 * STEP).max(input.len() / 1_000);
        for way in [Way::Pipe, Way::File, Way::Pieces(some)] {
            self.same(input, way);
        }
    }

    fn by_hand(&mut self) {
        let starts = "000000000000000501\n000000000000000402\nFFFFFFFFFFFFFFFFFF\n";
        let readings = "000000000000000601FFFF\n000000000000000401FF38\n0000000000000004010514\n";
        let both = format!("{starts}{readings}");
        self.named("answers", both.as_bytes(), "0000000000000004010514\nnone\nnone\n");
        self.named("no input", b"", "");
        self.named("starts alone", starts.as_bytes(), "none\nnone\nnone\n");
        self.named("readings alone", readings.as_bytes(), "");
        self.named("a line feed", b"\n", "refused 22 1\n");
        let unended = &both.as_bytes()[..both.len() - 1];
        self.named("a rest without its line feed", unended, "refused 22 6\n");
        self.named("a start without its line feed", &unended[..18], "refused 22 1\n");
        self.named("one byte", b"0", "refused 22 1\n");
        let returns = both.replace('\n', "\r\n");
        self.named("carriage returns", returns.as_bytes(), "refused 22 1\n");
        self.named("lowercase", both.to_lowercase().as_bytes(), "refused 22 3\n");
        let empty = both.replacen("\n00", "\n\n00", 1);
        self.named("an empty line", empty.as_bytes(), "refused 22 2\n");
        self.named("an empty line last", format!("{both}\n").as_bytes(), "refused 22 7\n");
        for bits in EDGES {
            let line = format!("{:016X}{:02X}{bits:04X}\n", 5, 1);
            let input = format!("000000000000000501\n{line}");
            self.named("temperatures", input.as_bytes(), &line);
        }
        let ends = [reading(0, 0, 1), reading(LAST, 255, -1)];
        let input = Case { readings: ends.to_vec(), starts: vec![start(0, 0), start(LAST, 255)] };
        let text = "0000000000000000000001\nFFFFFFFFFFFFFFFFFFFFFF\n";
        self.named("first and last time", &input.input(), text);
    }

    /// One more is bad, be it only a start of a line that is bad otherwise too.
    fn most_starts(&mut self) {
        for count in [1, MOST_STARTS - 1, MOST_STARTS, MOST_STARTS + 1, 2 * MOST_STARTS] {
            let case = case_of(self.random, 400, count);
            self.each_way(&case.input());
            let starts = &case.input()[..19 * count];
            let text = match count <= MOST_STARTS {
                true => "none\n".repeat(count),
                false => "refused 22 1025\n".to_string(),
            };
            self.named(&format!("{count} starts"), starts, &text);
            self.same(&[starts, b"x"].concat(), Way::Pipe);
            self.same(&starts[..starts.len() - 1], Way::Pipe);
        }
        let case = case_of(self.random, 1, MOST_STARTS);
        let mut input = case.input();
        input.extend(start_line(&case.starts[0]));
        self.named("a start too many and too late", &input, "refused 22 1026\n");
    }

    fn order_of_lines(&mut self) {
        let (a, b) = (start_line(&start(5, 1)), three());
        let late = |lines: usize| [&a[..], &b[..23 * lines], &a, &b].concat();
        for lines in 1..=3 {
            let text = format!("refused 22 {}\n", lines + 2);
            self.named("a start behind readings", &late(lines), &text);
        }
        self.named("a start last", &[&b[..], &a].concat(), "refused 22 4\n");
        let mut first = late(1);
        first[3] = b'x';
        self.named("a worse line before it", &first, "refused 22 1\n");
        let wide = lines_of(&[reading(5, 1, 7)]);
        let input = [&a[..], &wide, &wide, &a[..18]].concat();
        self.named("a start behind readings, unended", &input, "refused 22 4\n");
    }

    /// Bytes beside the digits, and those that other programs take for digits,
    /// at every place of a start and of a reading; every byte at some of them.
    fn bad_bytes(&mut self) {
        let sound = [start_line(&start(5, 1)), start_line(&start(LAST, 2)), three()].concat();
        let lines = [19..38, 38..61];
        for at in lines.clone().into_iter().flatten() {
            for &byte in b"\0\t\n\r +-/09:@AFG`afgx~\x7F\x80\xB0\xC1\xFF" {
                self.changed(&sound, at, byte);
            }
        }
        for at in lines.into_iter().flat_map(|line| [line.start, line.start + 17, line.end - 1]) {
            for byte in 0..=255 {
                self.changed(&sound, at, byte);
            }
        }
    }

    fn changed(&mut self, sound: &[u8], at: usize, byte: u8) {
        let mut input = sound.to_vec();
        input[at] = byte;
        self.same(&input, Way::Pipe);
    }

    /// A short input cut at every place, and fed in two pieces there; then in
    /// pieces of every length up to some lines.
    fn cuts_and_pieces(&mut self) {
        let starts = vec![start(5, 1), start(LAST, 2), start(4, 1)];
        let readings = vec![reading(4, 1, -1), reading(5, 1, 2), reading(9, 2, -300)];
        let input = Case { readings, starts }.input();
        for at in 0..=input.len() {
            self.same(&input[..at], Way::Pipe);
            self.same(&input, Way::Two(at));
        }
        for length in 1..50 {
            self.same(&input, Way::Pieces(length));
        }
        let mut bad = input;
        bad[100] = b'G';
        for at in 80..bad.len() {
            self.same(&bad, Way::Two(at));
        }
    }

    /// With none to 22 starts a step ends at each place of a reading; starts
    /// alone take four steps and more. A line that is bad at the end of a step,
    /// and an input that ends about there.
    fn steps(&mut self) {
        for count in 0..23 {
            let starts: Vec<Start> = (0..count).map(|i| start(200 + 40 * i, 1)).collect();
            let readings: Vec<Reading> = (0..600).map(|i| reading(i, 1, i as i16)).collect();
            let input = Case { readings, starts }.input();
            self.around_steps(&input);
        }
        for starts in [216, 431, 647, 862, 1_024] {
            let case = case_of(self.random, 600, starts);
            self.around_steps(&case.input());
        }
    }

    fn around_steps(&mut self, input: &[u8]) {
        self.each_way(input);
        self.same(input, Way::Pieces(STEP - 1));
        for step in [STEP, 2 * STEP, 3 * STEP] {
            let more = self.random.below(23);
            let mut spoilt = input.to_vec();
            spoilt[step - more] = b' ';
            self.same(&spoilt, Way::File);
            spoilt.remove(step - more);
            self.same(&spoilt, Way::File);
            self.same(&input[..step + more], Way::File);
        }
    }

    /// Inputs that end with a step, with a line's end there and without.
    fn whole_steps(&mut self) {
        for steps in 1..=4 {
            let length = steps * STEP;
            let starts = (0..23).find(|starts| (length - 19 * starts) % 23 == 0).unwrap_or(0);
            let case = case_of(self.random, (length - 19 * starts) / 23, starts);
            let input = case.input();
            self.tally.named("an input of whole steps", &length, &input.len());
            self.each_way(&input);
            for more in 1..=23 {
                self.same(&[&input[..], &input[length - 23..][..more]].concat(), Way::File);
                self.same(&input[..length - more], Way::File);
            }
        }
    }

    /// Lines as long as a step, and many empty ones.
    fn long_lines(&mut self) {
        let front = [start_line(&start(5, 1)), three()].concat();
        for length in [STEP - 1, STEP, STEP + 1, 2 * STEP - front.len(), 10_000, 100_000] {
            for byte in [b'0', b'\n', 0] {
                let line = vec![byte; length];
                self.each_way(&line);
                self.each_way(&[&front[..], &line].concat());
                self.same(&[&front[..], &line, b"\n", &front].concat(), Way::File);
                self.same(&[&line[..], b"\n", &front].concat(), Way::File);
            }
        }
        let recording = three()[..23].repeat(70_000);
        self.each_way(&[&front[..19], &recording].concat());
        self.same(&[&front[..19], &recording, b"0"].concat(), Way::Pipe);
    }

    /// Be the input good so far or bad already.
    fn nothing_before_the_end(&mut self) {
        let good = case_of(self.random, 100, 50).input();
        let too_many = case_of(self.random, 0, MOST_STARTS + 5).input();
        let late = [three(), start_line(&start(5, 1)), three()].concat();
        for input in [&good[..], &too_many, &late, b"\n\n\n", &[b'0'; 3 * STEP]] {
            let (early, text) = early_and_text_of(input);
            let shown = || String::from_utf8_lossy(input).into_owned();
            self.tally.same("bytes written before the end", &0, &early, shown);
            self.tally.same("text at the end", &replayed_text(input), &text, shown);
        }
    }

    fn seeded(&mut self, rounds: usize) {
        for _ in 0..rounds {
            let (readings, starts) =
                (*self.random.pick(&[3, 30, 1_000]), *self.random.pick(&[3, 1_030]));
            let mut input = any_case(self.random, readings, starts).input();
            self.each_way(&input);
            spoil(self.random, &mut input);
            self.each_way(&input);
        }
    }
}

/// How the program gets its input.
#[derive(Clone, Copy, Debug)]
enum Way {
    /// As the two sides come to it.
    Pipe,
    /// Every step is full.
    File,
    /// The next piece comes when the one before has been taken.
    Pieces(usize),
    Two(usize),
}

/// What the program writes.
fn text_of(input: &[u8], way: Way) -> String {
    let mut child = started(match way {
        Way::File => Stdio::from(file_of(input)),
        _ => Stdio::piped(),
    });
    feed(&mut child, input, way);
    text_at_end(child)
}

/// How many bytes it has written while more could come, and all in the end.
fn early_and_text_of(input: &[u8]) -> (i32, String) {
    let mut child = started(Stdio::piped());
    let mut stdin = child.stdin.take().expect("it is a pipe");
    feed_piece(&mut stdin, input);
    std::thread::sleep(Duration::from_millis(50));
    let early = waiting(child.stdout.as_ref().expect("it is a pipe"));
    drop(stdin);
    (early, text_at_end(child))
}

fn started(stdin: Stdio) -> Child {
    let program = std::env::var_os(PROGRAM).expect("only run with a program");
    let mut command = Command::new(program);
    command.stdin(stdin).stdout(Stdio::piped()).spawn().expect("the program could not be started")
}

fn text_at_end(child: Child) -> String {
    let output = child.wait_with_output().expect("the program's output");
    String::from_utf8_lossy(&output.stdout).into_owned()
}

/// A file with these bytes that is gone once it is closed.
fn file_of(input: &[u8]) -> File {
    let path = std::env::temp_dir().join(format!("replay-input-{}", std::process::id()));
    std::fs::write(&path, input).expect("a file for the input");
    let file = File::open(&path).expect("the file");
    std::fs::remove_file(&path).expect("the file");
    file
}

fn feed(child: &mut Child, input: &[u8], way: Way) {
    let Some(mut stdin) = child.stdin.take() else { return };
    match way {
        Way::Pieces(length) => input.chunks(length).for_each(|piece| feed_piece(&mut stdin, piece)),
        Way::Two(at) => {
            feed_piece(&mut stdin, &input[..at]);
            feed_piece(&mut stdin, &input[at..]);
        }
        _ => write_to(&mut stdin, input),
    }
}

/// A program that has ended closes its input.
fn write_to(stdin: &mut ChildStdin, bytes: &[u8]) {
    if let Err(error) = stdin.write_all(bytes) {
        assert_eq!(error.kind(), ErrorKind::BrokenPipe, "{error}");
    }
}

/// Waits until the piece has been taken, but not for a program that takes none.
fn feed_piece(stdin: &mut ChildStdin, piece: &[u8]) {
    write_to(stdin, piece);
    let began = Instant::now();
    while waiting(stdin) > 0 && began.elapsed() < Duration::from_millis(300) {
        std::thread::yield_now();
    }
}

/// FIONREAD of Linux: how many bytes of a pipe have not been read.
const BYTES_TO_READ: std::ffi::c_ulong = 0x541B;

extern "C" {
    fn ioctl(file: i32, request: std::ffi::c_ulong, ...) -> i32;
}

fn waiting(pipe: &impl AsRawFd) -> i32 {
    let mut bytes = 0;
    let failed = unsafe { ioctl(pipe.as_raw_fd(), BYTES_TO_READ, &mut bytes) };
    assert_eq!(failed, 0, "the pipe can't be asked");
    bytes
}
