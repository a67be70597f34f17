//! The replay of a temperature recording against program starts.

use crate::raw::*;
use core::fmt;

#[cfg(feature = "alloc")]
mod gathered;
#[cfg(feature = "alloc")]
pub use gathered::{replay, Replay};

/// A program start: when, and on which board.
#[derive(Clone, Copy, Debug, PartialEq, Eq, Hash)]
pub struct Start {
    /// A run time, as [`crate::Record`] has it.
    pub time: u64,
    /// The board's number.
    pub board: u8,
}

/// A reading of a recording.
#[derive(Clone, Copy, Debug, PartialEq, Eq, Hash)]
pub struct Reading {
    /// When it was taken, a FILETIME; see [`crate::FileTime`].
    pub time: u64,
    /// The board's number.
    pub board: u8,
    /// Tenths of a degree, below zero too.
    pub temperature: i16,
}

impl Reading {
    /// The temperature in degrees.
    ///
    /// ```
    /// let reading = hivesaddle::Reading { time: 1, board: 2, temperature: -205 };
    /// assert_eq!(reading.degrees(), -20.5);
    /// ```
    pub fn degrees(&self) -> f64 {
        f64::from(self.temperature) / 10.0
    }

    /// The reading in four numbers of `answers`, as [`replay_into`] leaves
    /// them: 1, time, board and the temperature's 16 bits. None where the first
    /// is 0, or where there are fewer than four.
    ///
    /// ```
    /// use hivesaddle::Reading;
    /// let reading = Reading { time: 5, board: 3, temperature: -200 };
    /// assert_eq!(Reading::from_answer(&[1, 5, 3, 0xFF38]), Some(reading));
    /// assert_eq!(Reading::from_answer(&[0; 4]), None);
    /// ```
    pub fn from_answer(answer: &[u64]) -> Option<Reading> {
        match *answer {
            [is_there, time, board, bits] if is_there != 0 => {
                Some(Reading { time, board: board as u8, temperature: bits as u16 as i16 })
            }
            _ => None,
        }
    }

    /// The four numbers for an answer, as [`replay_into`] leaves them.
    ///
    /// ```
    /// use hivesaddle::Reading;
    /// let reading = Reading { time: 5, board: 3, temperature: -200 };
    /// assert_eq!(Reading::answer(Some(reading)), [1, 5, 3, 0xFF38]);
    /// assert_eq!(Reading::answer(None), [0; 4]);
    /// ```
    pub fn answer(reading: Option<Reading>) -> [u64; HS_ANSWER_LENGTH] {
        match reading {
            Some(Reading { time, board, temperature }) => {
                [1, time, board.into(), (temperature as u16).into()]
            }
            None => [0; HS_ANSWER_LENGTH],
        }
    }
}

/// Refusal 22: a line that is no reading. Every answer is then none.
///
/// ```
/// let bad = hivesaddle::replay(b"no reading\n", &[]).unwrap_err();
/// assert_eq!(bad.to_string(), "refused 22: line 1 is no reading");
/// ```
#[derive(Clone, Copy, Debug, PartialEq, Eq)]
pub struct BadLine {
    /// The number of the first such line, from 1.
    pub line: u64,
}

impl fmt::Display for BadLine {
    fn fmt(&self, f: &mut fmt::Formatter) -> fmt::Result {
        write!(f, "refused 22: line {} is no reading", self.line)
    }
}

impl core::error::Error for BadLine {}

/// As [`crate::replay()`], without a heap. Start k is `times[k]` and `boards[k]`; there
/// are as many as the shorter of the two has.
///
/// `answers` takes four numbers for each start, see [`Reading::from_answer`]: as
/// many whole answers as fit. All else of it stays as it was. After a bad line
/// every answer is none, four zeros.
///
/// `work` takes one place for each start. With fewer the recording is gone
/// through more than once, once for each so many starts, and the answers are the
/// same. Afterwards each place holds [`crate::NONE`].
///
/// ```
/// use hivesaddle::{replay_into, Reading, NONE};
/// let recording = b"000000000000000503FF38\n";
/// let (mut work, mut answers) = ([0; 3], [7; 10]);
/// let given = replay_into(recording, &[6, 4, 5], &[3, 3, 3], &mut work, &mut answers);
/// assert_eq!(given, Ok(()));
/// assert_eq!(work, [NONE; 3]);
/// // Two whole answers fit.
/// assert_eq!(answers, [1, 5, 3, 0xFF38, 0, 0, 0, 0, 7, 7]);
/// let readings: Vec<_> = answers.chunks_exact(4).map(Reading::from_answer).collect();
/// assert_eq!(readings, [Some(Reading { time: 5, board: 3, temperature: -200 }), None]);
/// ```
pub fn replay_into(
    recording: &[u8],
    times: &[u64],
    boards: &[u8],
    work: &mut [u32],
    answers: &mut [u64],
) -> Result<(), BadLine> {
    let mut out = [0];
    // SAFETY: each list is a slice with its length, and those written are borrowed as mut.
    let answer = unsafe {
        hs_replay(
            recording.as_ptr(),
            recording.len(),
            times.as_ptr(),
            times.len(),
            boards.as_ptr(),
            boards.len(),
            work.as_mut_ptr(),
            work.len(),
            answers.as_mut_ptr(),
            answers.len(),
            out.as_mut_ptr(),
            out.len(),
        )
    };
    match answer {
        0 => Ok(()),
        22 => Err(BadLine { line: out[0] }),
        other => unreachable!("no such answer: {other}"),
    }
}

/// Where a replay in pieces has got to.
#[derive(Clone, Copy, Debug, Default, PartialEq, Eq)]
struct Progress {
    lines: u64,
    /// The first bad line, or 0.
    bad: u64,
}

impl Progress {
    fn bad_line(&self) -> Option<BadLine> {
        (self.bad != 0).then_some(BadLine { line: self.bad })
    }
}

/// The lists that each call takes, as they are after the call before.
struct Borrowed<'a> {
    times: &'a [u64],
    boards: &'a [u8],
    work: &'a mut [u32],
    answers: &'a mut [u64],
}

impl Borrowed<'_> {
    /// Also how many starts are served.
    fn begin(&mut self) -> (Progress, u64) {
        let mut out = [0; 3];
        // SAFETY: each list is a slice with its length, and those written are borrowed as mut.
        let answer = unsafe {
            hs_replay_begin(
                self.times.as_ptr(),
                self.times.len(),
                self.boards.as_ptr(),
                self.boards.len(),
                self.work.as_mut_ptr(),
                self.work.len(),
                self.answers.as_mut_ptr(),
                self.answers.len(),
                out.as_mut_ptr(),
                out.len(),
            )
        };
        assert_eq!(answer, 0, "no such answer");
        let [lines, bad, served] = out;
        (Progress { lines, bad }, served)
    }

    /// Also the bytes of the piece that need not come again.
    fn feed(&mut self, Progress { lines, bad }: Progress, piece: &[u8]) -> (Progress, usize) {
        let mut out = [0; 3];
        // SAFETY: each list is a slice with its length, and those written are borrowed as mut.
        let answer = unsafe {
            hs_replay_feed(
                lines,
                bad,
                piece.as_ptr(),
                piece.len(),
                self.times.as_ptr(),
                self.times.len(),
                self.boards.as_ptr(),
                self.boards.len(),
                self.work.as_ptr(),
                self.work.len(),
                self.answers.as_mut_ptr(),
                self.answers.len(),
                out.as_mut_ptr(),
                out.len(),
            )
        };
        assert_eq!(answer, 0, "no such answer");
        let [lines, bad, used] = out;
        (Progress { lines, bad }, used as usize)
    }

    fn finish(&mut self, Progress { lines, bad }: Progress, waiting: usize) -> Result<(), BadLine> {
        let mut out = [0];
        // SAFETY: each list is a slice with its length, and those written are borrowed as mut.
        let answer = unsafe {
            hs_replay_finish(
                lines,
                bad,
                waiting as u64,
                self.times.as_ptr(),
                self.times.len(),
                self.boards.as_ptr(),
                self.boards.len(),
                self.work.as_mut_ptr(),
                self.work.len(),
                self.answers.as_mut_ptr(),
                self.answers.len(),
                out.as_mut_ptr(),
                out.len(),
            )
        };
        match answer {
            0 => Ok(()),
            22 => Err(BadLine { line: out[0] }),
            other => unreachable!("no such answer: {other}"),
        }
    }
}

/// [`replay_into`] for a recording that comes in pieces: without a heap, in the
/// caller's lists. However it is cut, the answers are those of the whole.
///
/// Start k is `times[k]` and `boards[k]`. A start is served where it has a place
/// in each of the four lists, four in `answers`; the others get no answer, and
/// their numbers stay as they were.
///
/// ```
/// use hivesaddle::{Reading, ReplayInto, NONE};
/// let recording = b"000000000000000503FF38\n0000000000000007030514\n";
/// let (mut work, mut answers) = ([0; 2], [7; 9]);
/// let mut replay = ReplayInto::new(&[6, 4], &[3, 3], &mut work, &mut answers);
/// assert_eq!(replay.served(), 2);
/// // A line that has not come whole comes again.
/// assert_eq!(replay.feed(&recording[..30]), 23);
/// assert_eq!(replay.feed(&recording[23..]), 23);
/// assert_eq!(replay.finish(0), Ok(()));
/// assert_eq!(work, [NONE; 2]);
/// assert_eq!(answers, [1, 5, 3, 0xFF38, 0, 0, 0, 0, 7]);
/// ```
pub struct ReplayInto<'a> {
    lists: Borrowed<'a>,
    served: u64,
    progress: Progress,
}

impl<'a> ReplayInto<'a> {
    /// `work` takes the order of the starts served, and must stay as it is; their
    /// answers are none.
    pub fn new(
        times: &'a [u64],
        boards: &'a [u8],
        work: &'a mut [u32],
        answers: &'a mut [u64],
    ) -> ReplayInto<'a> {
        let mut lists = Borrowed { times, boards, work, answers };
        let (progress, served) = lists.begin();
        ReplayInto { lists, served, progress }
    }

    /// How many starts are served, the first of the lists.
    pub fn served(&self) -> u64 {
        self.served
    }

    /// The next bytes of the recording. Gives how many of them were used: the
    /// others have to come first in the next piece, and at most 22 wait so.
    /// Behind a bad line all are used.
    ///
    /// Each call looks at every place of `work` first, so pieces should not be
    /// short beside the number of starts.
    pub fn feed(&mut self, piece: &[u8]) -> usize {
        let (progress, used) = self.lists.feed(self.progress, piece);
        self.progress = progress;
        used
    }

    /// The first bad line, if it has been met: what follows changes nothing.
    pub fn bad_line(&self) -> Option<BadLine> {
        self.progress.bad_line()
    }

    /// The end of the recording, with so many bytes that were not used: those of
    /// a line without its line feed, which is bad. After a bad line every answer
    /// served is none. Each place of `work` holds [`crate::NONE`] afterwards.
    pub fn finish(mut self, waiting: usize) -> Result<(), BadLine> {
        self.lists.finish(self.progress, waiting)
    }
}
