//! The replay for callers that have a heap.

use super::{replay_into, BadLine, Borrowed, Progress, Reading, Start};
use crate::raw::{HS_ANSWER_LENGTH, HS_READING_LINE_LENGTH};
use alloc::{vec, vec::Vec};

/// For each start, in their order: the reading of its board with the greatest
/// time not after the start's, the one later in the recording among equal
/// times, or none. Readings may be out of time order, and starts may repeat.
///
/// A reading is a line of 22 digits 0-9 A-F and a line feed: time 16, board 2,
/// temperature 4, most significant digit first, the temperature in tenths of a
/// degree and two's complement. Any other line is bad: an empty one, one with a
/// carriage return or a lowercase digit, and a last one without its line feed.
///
/// This allocates, 45 bytes for each start. [`replay_into`] is the same with borrowed buffers, and
/// [`Replay`] and [`crate::ReplayInto`] take the recording in pieces.
///
/// ```
/// use hivesaddle::{replay, BadLine, Reading, Start};
/// let recording = b"00000000000000070302BC\n\
///                   000000000000000503FF38\n\
///                   0000000000000005040514\n";
/// let starts = [
///     Start { time: 6, board: 3 },
///     Start { time: 7, board: 3 },
///     Start { time: 4, board: 4 },
/// ];
/// let cold = Reading { time: 5, board: 3, temperature: -200 };
/// let warm = Reading { time: 7, board: 3, temperature: 700 };
/// assert_eq!(replay(recording, &starts), Ok(vec![Some(cold), Some(warm), None]));
///
/// // The last line has lost its line feed.
/// assert_eq!(replay(&recording[..68], &starts), Err(BadLine { line: 3 }));
/// ```
pub fn replay(recording: &[u8], starts: &[Start]) -> Result<Vec<Option<Reading>>, BadLine> {
    let mut lists = Lists::new(starts);
    lists.replay(recording)?;
    Ok(lists.readings().collect())
}

/// The lists of one call, with a place of each kind for every start.
#[derive(Clone, Debug)]
struct Lists {
    times: Vec<u64>,
    boards: Vec<u8>,
    work: Vec<u32>,
    answers: Vec<u64>,
}

impl Lists {
    fn new(starts: &[Start]) -> Lists {
        Lists {
            times: starts.iter().map(|start| start.time).collect(),
            boards: starts.iter().map(|start| start.board).collect(),
            work: vec![0; starts.len()],
            answers: vec![0; HS_ANSWER_LENGTH * starts.len()],
        }
    }

    fn replay(&mut self, recording: &[u8]) -> Result<(), BadLine> {
        replay_into(recording, &self.times, &self.boards, &mut self.work, &mut self.answers)
    }

    fn borrowed(&mut self) -> Borrowed<'_> {
        Borrowed {
            times: &self.times,
            boards: &self.boards,
            work: &mut self.work,
            answers: &mut self.answers,
        }
    }

    fn readings(&self) -> impl Iterator<Item = Option<Reading>> + '_ {
        self.answers.chunks_exact(HS_ANSWER_LENGTH).map(Reading::from_answer)
    }
}

/// Fewest readings that are gathered before they are fed.
const GATHERED: usize = 4_096;

/// [`replay()`] for a recording that comes in pieces. However it is cut, the
/// answers are those of the whole.
///
/// Bytes are gathered until there are as many readings as starts, and 4,096 at
/// least, and then fed to the library. So there is room for as many readings as
/// that and no more, however long the recording is. [`crate::ReplayInto`] does it with
/// borrowed lists and gathers nothing.
///
/// ```
/// use hivesaddle::{Reading, Replay, Start};
/// let mut replay = Replay::new(&[Start { time: 6, board: 3 }]);
/// for piece in ["0000000000000005", "03FF38\n00000000", "00000007030514\n"] {
///     replay.feed(piece.as_bytes());
/// }
/// let cold = Reading { time: 5, board: 3, temperature: -200 };
/// assert_eq!(replay.finish(), Ok(vec![Some(cold)]));
/// ```
#[derive(Clone, Debug)]
pub struct Replay {
    lists: Lists,
    progress: Progress,
    /// What has come and was not used yet.
    gathered: Vec<u8>,
    /// The length at which it is fed.
    enough: usize,
}

impl Replay {
    /// Begins with these starts; nothing has come yet.
    pub fn new(starts: &[Start]) -> Replay {
        let mut lists = Lists::new(starts);
        let (progress, served) = lists.borrowed().begin();
        assert_eq!(served, starts.len() as u64, "more starts than can be served");
        Replay {
            lists,
            progress,
            gathered: Vec::new(),
            enough: HS_READING_LINE_LENGTH * starts.len().max(GATHERED),
        }
    }

    /// The next bytes of the recording. Behind a bad line they are not looked
    /// at.
    pub fn feed(&mut self, mut piece: &[u8]) {
        while !piece.is_empty() && self.progress.bad == 0 {
            let (now, later) = piece.split_at(piece.len().min(self.enough - self.gathered.len()));
            self.gathered.extend_from_slice(now);
            piece = later;
            if self.gathered.len() == self.enough {
                self.feed_gathered();
                assert!(self.gathered.len() < self.enough, "a line waits that has come whole");
            }
        }
    }

    /// The first bad line, if it has been met: what follows changes nothing.
    ///
    /// ```
    /// use hivesaddle::Replay;
    /// let mut replay = Replay::new(&[]);
    /// replay.feed(&[b'?'; 100_000]);
    /// assert_eq!(replay.bad_line().map(|bad| bad.line), Some(1));
    /// ```
    pub fn bad_line(&self) -> Option<BadLine> {
        self.progress.bad_line()
    }

    /// The answers, once all has been fed. A line that has begun and not ended
    /// is bad.
    pub fn finish(mut self) -> Result<Vec<Option<Reading>>, BadLine> {
        self.feed_gathered();
        self.lists.borrowed().finish(self.progress, self.gathered.len())?;
        Ok(self.lists.readings().collect())
    }

    /// What was not used stays gathered.
    fn feed_gathered(&mut self) {
        let (progress, used) = self.lists.borrowed().feed(self.progress, &self.gathered);
        self.progress = progress;
        self.gathered.drain(..used);
    }
}
