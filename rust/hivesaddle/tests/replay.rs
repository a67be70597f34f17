//! The replay through the safe calls, with answers by hand, and in pieces
//! beside the whole.

use hivesaddle::*;

fn start(time: u64, board: u8) -> Start {
    Start { time, board }
}

fn reading(time: u64, board: u8, temperature: i16) -> Option<Reading> {
    Some(Reading { time, board, temperature })
}

fn recording(readings: &[(u64, u8, u16)]) -> Vec<u8> {
    let lines =
        readings.iter().map(|(time, board, bits)| format!("{time:016X}{board:02X}{bits:04X}\n"));
    lines.collect::<String>().into_bytes()
}

/// Out of time order, with equal times and two boards.
fn chamber() -> Vec<u8> {
    recording(&[
        (9, 1, 0x0514),
        (5, 1, 0xFF38),
        (5, 1, 0xFFFF),
        (7, 2, 0x8000),
        (0, 1, 0x7FFF),
        (u64::MAX, 2, 0x0000),
    ])
}

#[test]
fn greatest_time_not_after_the_start() {
    let cases = [
        (start(0, 1), reading(0, 1, 32_767)),
        (start(4, 1), reading(0, 1, 32_767)),
        (start(5, 1), reading(5, 1, -1)),
        (start(8, 1), reading(5, 1, -1)),
        (start(9, 1), reading(9, 1, 1_300)),
        (start(u64::MAX, 1), reading(9, 1, 1_300)),
        (start(6, 2), None),
        (start(u64::MAX - 1, 2), reading(7, 2, -32_768)),
        (start(u64::MAX, 2), reading(u64::MAX, 2, 0)),
        (start(u64::MAX, 3), None),
        (start(5, 1), reading(5, 1, -1)),
    ];
    let (starts, expected): (Vec<Start>, Vec<Option<Reading>>) = cases.into_iter().unzip();
    assert_eq!(replay(&chamber(), &starts), Ok(expected));
}

#[test]
fn nothing_recorded_and_nothing_started() {
    assert_eq!(replay(b"", &[start(1, 1)]), Ok(vec![None]));
    assert_eq!(replay(b"", &[]), Ok(vec![]));
    assert_eq!(replay(&chamber(), &[]), Ok(vec![]));
    assert_eq!(replay(b"\n", &[]), Err(BadLine { line: 1 }));
}

#[test]
fn bad_lines() {
    let sound = chamber();
    for (at, byte) in [(0, b'g'), (22, b'0'), (23, b'\n'), (45, b'\r'), (46, b'a'), (137, b' ')] {
        let mut recording = sound.clone();
        recording[at] = byte;
        let line = at as u64 / 23 + 1;
        assert_eq!(replay(&recording, &[start(1, 1)]), Err(BadLine { line }), "{at}");
    }
    for length in (0..sound.len()).filter(|length| length % 23 != 0) {
        let line = length as u64 / 23 + 1;
        assert_eq!(replay(&sound[..length], &[]), Err(BadLine { line }));
    }
}

#[test]
fn borrowed_lists_of_any_length() {
    let (times, boards) = ([9, 5, 0, 6, 5], [1, 1, 2, 2]);
    let whole = [[1, 9, 1, 0x0514], [1, 5, 1, 0xFFFF], [0; 4], [0; 4]].concat();
    for work_length in 0..7 {
        for answers_length in 0..20 {
            let (mut work, mut answers) = (vec![7; work_length], vec![7; answers_length]);
            let given = replay_into(&chamber(), &times, &boards, &mut work, &mut answers);
            assert_eq!((given, work), (Ok(()), vec![NONE; work_length]));
            let written = (answers_length / 4 * 4).min(16);
            assert_eq!(answers[..written], whole[..written]);
            assert!(answers[written..].iter().all(|&number| number == 7));
        }
    }
    let (mut work, mut answers) = ([7; 4], [7; 18]);
    let given = replay_into(b"0\n", &times, &boards, &mut work, &mut answers);
    assert_eq!((given, work), (Err(BadLine { line: 1 }), [NONE; 4]));
    assert_eq!(answers[..16], [0; 16]);
    assert_eq!(answers[16..], [7; 2]);
}

fn in_pieces(
    recording: &[u8],
    starts: &[Start],
    length: usize,
) -> Result<Vec<Option<Reading>>, BadLine> {
    let mut replay = Replay::new(starts);
    recording.chunks(length).for_each(|piece| replay.feed(piece));
    replay.finish()
}

/// A sequence without order; the same every time.
fn noise(count: u64) -> impl Iterator<Item = u64> {
    (0..count).map(|i| i.wrapping_mul(0x9E37_79B9_7F4A_7C15) >> 40)
}

/// More lines than are gathered at once, with many equal times.
fn long_recording() -> Vec<u8> {
    let lines = noise(20_000).enumerate();
    let lines = lines.map(|(i, noise)| (noise % 3_000, (noise % 7) as u8, i as u16));
    recording(&lines.collect::<Vec<_>>())
}

#[test]
fn pieces_of_any_length() {
    let starts: Vec<Start> =
        noise(500).map(|noise| start(noise % 3_500, (noise % 8) as u8)).collect();
    let recording = long_recording();
    let whole = replay(&recording, &starts);
    let found = whole.iter().flatten().filter(|answer| answer.is_some()).count();
    assert!((1..starts.len()).contains(&found), "{found}");
    for length in [1, 22, 23, 24, 4_095, 4_096, 94_207, 94_208, 94_209, recording.len()] {
        assert_eq!(in_pieces(&recording, &starts, length), whole, "pieces of {length}");
    }
    let many: Vec<Start> = noise(9_000).map(|noise| start(noise % 3_500, 2)).collect();
    assert_eq!(in_pieces(&recording, &many, 1_000), replay(&recording, &many));
}

#[test]
fn bad_lines_in_pieces() {
    let sound = long_recording();
    let starts = [start(100, 1)];
    let ends = [0, 1, 22, 23, 94_206, 94_207, 94_208, 94_230, 188_415, 188_416, 300_000];
    for at in ends {
        let (mut spoilt, cut) = (sound.clone(), &sound[..at]);
        spoilt[at] = b'x';
        let mut longer = sound.clone();
        longer.insert(at, b'0');
        let mut endless = cut.to_vec();
        endless.resize(at + 200_000, b'0');
        for recording in [&spoilt[..], cut, &longer, &endless] {
            let whole = replay(recording, &starts);
            for length in [7, 4_096, 94_208, recording.len().max(1)] {
                assert_eq!(in_pieces(recording, &starts, length), whole, "{at}, {length}");
            }
        }
    }
}

/// Bytes that were not used come first in the next piece.
fn into_lists(
    recording: &[u8],
    (times, boards): (&[u64], &[u8]),
    length: usize,
    work: &mut [u32],
    answers: &mut [u64],
) -> (u64, Result<(), BadLine>) {
    let mut replay = ReplayInto::new(times, boards, work, answers);
    let mut waiting = Vec::new();
    for piece in recording.chunks(length) {
        waiting.extend(piece);
        let used = replay.feed(&waiting);
        waiting.drain(..used);
        assert!(waiting.len() < 23);
    }
    (replay.served(), replay.finish(waiting.len()))
}

#[test]
fn borrowed_lists_in_pieces() {
    let (times, boards) = ([9, 5, 0, 6, 5], [1, 1, 2, 2]);
    let whole = [[1, 9, 1, 0x0514], [1, 5, 1, 0xFFFF], [0; 4], [0; 4]].concat();
    for (recording, given) in
        [(chamber(), Ok(())), (chamber()[..50].to_vec(), Err(BadLine { line: 3 }))]
    {
        for (work_length, answers_length) in (0..7).flat_map(|work| (0..20).map(move |a| (work, a)))
        {
            for length in [1, 22, 23, 24, 100, 1_000] {
                let (mut work, mut answers) = (vec![7; work_length], vec![7; answers_length]);
                let lists = (&times[..], &boards[..]);
                let (served, finished) =
                    into_lists(&recording, lists, length, &mut work, &mut answers);
                let written = 4 * work_length.min(answers_length / 4).min(4);
                assert_eq!((4 * served as usize, finished), (written, given));
                assert_eq!(work, vec![NONE; work_length]);
                let zeros = vec![0; written];
                let expected = if given.is_ok() { &whole[..written] } else { &zeros[..] };
                assert_eq!(&answers[..written], expected);
                assert!(answers[written..].iter().all(|&number| number == 7));
            }
        }
    }
}
