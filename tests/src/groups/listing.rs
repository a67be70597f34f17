//! The program's text for a file on its standard input. The program is the
//! one that HIVESADDLE_PROGRAM names.

use super::Run;
use crate::generate::bare::with_path;
use crate::generate::cuts::cuts;
use crate::generate::damage::{damage, edits, AIMS};
use crate::generate::{any, rich, set_32, sound_of, Counts, Sample};
use crate::random::Random;
use crate::reference::layout::LAYOUTS;
use crate::reference::listing::{listing, LONGEST_INPUT, PLACES};
use crate::tally::{hex, Tally};
use std::io::Write;
use std::process::{Child, Command, Stdio};

pub const PROGRAM: &str = "HIVESADDLE_PROGRAM";

pub fn run(run: &Run, tally: &mut Tally) {
    let mut random = run.random("listing");
    example(tally);
    example_paths(tally);
    lengths(&mut random, tally);
    places(&mut random, tally);
    found_paths(&mut random, tally);
    for _ in 0..520 * run.scale {
        written(&any(&mut random).bytes, tally);
        written(&cut_or_longer(&mut random).bytes, tally);
        written(&damaged(&mut random).bytes, tally);
        written(&edited(&mut random).bytes, tally);
    }
}

/// The file of the paper and its listing, word for word.
fn example(tally: &mut Tally) {
    let mut file = vec![0; 148];
    file[0] = 17;
    file[4..8].copy_from_slice(b"SCCA");
    file[12] = 148;
    file[16] = b'A';
    file[76] = 65;
    file[144] = 1;
    let text =
        "version 17\nname A\nhash 00000041\nruns 1\nfiles 0\nchains 0\nvolumes 0\npath none\n";
    tally.named("the paper's listing", text, &text_of(&file));
    file[4] = 0;
    tally.named("the paper's refusal", "refused 2 0\n", &text_of(&file));
    tally.named("no input", "refused 16 0\n", &text_of(b""));
}

/// A path that is found: the example of source document 000 for XP, and the
/// same path by its other functions.
fn example_paths(tally: &mut Tally) {
    let path = r"\DEVICE\HARDDISKVOLUME1\WINDOWS\NOTEPAD.EXE";
    let cases = [
        (17, 0x189578DA, "path 0 0"),
        (23, 0x3D2AFDB4, "path 0 0"),
        (26, 0x3D2AFDB4, "path 0 0"),
        (26, 0x189578DA, "path none"),
        (30, 0x3D2AFDB4, "path 0 0"),
        (30, 0x189578DA, "path none"),
        // With a number of the /prefetch switch, and one too great.
        (17, 0x189578DB, "path 0 1"),
        (23, 0x3D2AFDBC, "path 0 8"),
        (26, 0x3D2AFDBD, "path none"),
        (30, 0x3D2AFDBC, "path 0 8"),
        (30, 0x3D2AFDBD, "path none"),
    ];
    for (version, hash, last) in cases {
        let text = format!(
            "version {version}\nname \nhash {hash:08X}\nruns 0\nfiles 1\nchains 0\nvolumes 0\n{last}\n"
        );
        tally.named("the example path", &text, &text_of(&with_path(version, path, hash)));
    }
}

/// Around the longest input, accepted and refused.
fn lengths(random: &mut Random, tally: &mut Tally) {
    for length in [LONGEST_INPUT - 1, LONGEST_INPUT, LONGEST_INPUT + 1, 2 * LONGEST_INPUT] {
        let mut file = rich(random).bytes;
        file.resize(length, 0xAA);
        set_32(&mut file, 12, length as u32);
        written(&file, tally);
        written(&random.bytes(length), tally);
    }
}

/// As many trace entries as the input can hold; then a head that declares as
/// many as there are slots, and one more. Version 30 needs no slots: of its
/// entries more fit the input than there are slots.
fn places(random: &mut Random, tally: &mut Tally) {
    for layout in &LAYOUTS {
        let trace = (LONGEST_INPUT - layout.head_end as usize - 100) / layout.trace_entry as usize;
        let counts = Counts { metrics: 0, trace, volumes: 0 };
        let mut file = sound_of(random, layout, counts).bytes;
        written(&file, tally);
        set_32(&mut file, 12, 100_000);
        set_32(&mut file, 104, 0);
        set_32(&mut file, 116, 0);
        for count in [PLACES as u32, PLACES as u32 + 1] {
            set_32(&mut file, 96, count);
            written(&file, tally);
        }
    }
}

/// Files of each version whose path is found.
fn found_paths(random: &mut Random, tally: &mut Tally) {
    for layout in &LAYOUTS {
        let mut found = 0;
        for _ in 0..200 {
            let counts = Counts { metrics: 4, trace: 5, volumes: 2 };
            let file = sound_of(random, layout, counts).bytes;
            if listing(&file).ends_with("path none\n") {
                continue;
            }
            found += 1;
            written(&file, tally);
        }
        tally.holds("a found path", found > 0, || layout.version.to_string());
    }
}

fn cut_or_longer(random: &mut Random) -> Sample {
    let mut sample = rich(random);
    if random.one_in(4) {
        let length = random.between(1, 3);
        sample.bytes.extend(random.bytes(length));
    } else {
        let length = *random.pick(&cuts(&sample));
        sample.bytes.truncate(length);
    }
    sample
}

fn damaged(random: &mut Random) -> Sample {
    let mut sample = rich(random);
    let number = *random.pick(&AIMS);
    damage(random, &mut sample, number);
    sample
}

fn edited(random: &mut Random) -> Sample {
    let mut sample = any(random);
    edits(random, &mut sample);
    sample
}

fn written(file: &[u8], tally: &mut Tally) {
    tally.same("listing", &listing(file)[..], &text_of(file)[..], || hex(file));
}

/// What the program writes.
fn text_of(input: &[u8]) -> String {
    let program = std::env::var_os(PROGRAM).expect("the group is only run with a program");
    let mut child = Command::new(program)
        .stdin(Stdio::piped())
        .stdout(Stdio::piped())
        .spawn()
        .expect("the program could not be started");
    feed(&mut child, input);
    let output = child.wait_with_output().expect("the program's output");
    String::from_utf8_lossy(&output.stdout).into_owned()
}

/// A program that has read enough may close its input early.
fn feed(child: &mut Child, input: &[u8]) {
    let mut stdin = child.stdin.take().expect("it is a pipe");
    if let Err(error) = stdin.write_all(input) {
        assert_eq!(error.kind(), std::io::ErrorKind::BrokenPipe, "{error}");
    }
}
