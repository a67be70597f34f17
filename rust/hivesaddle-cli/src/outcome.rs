//! How a command ends, and its complaints.

use crate::{bar, text};
use std::ffi::OsStr;
use std::fmt::Display;
use std::io::{self, Write};
use std::process::ExitCode;

/// The exit status. Of two outcomes the worse stands.
#[derive(Clone, Copy, Debug, PartialEq, Eq, PartialOrd, Ord)]
pub enum Outcome {
    /// 0: all is done.
    Done,
    /// 1: a file or a line was refused.
    Refused,
    /// 2: wrong usage, or something could not be read or written.
    Failed,
}

impl Outcome {
    pub fn worst(self, other: Outcome) -> Outcome {
        self.max(other)
    }

    pub fn note(&mut self, other: Outcome) {
        *self = self.worst(other);
    }
}

impl From<Outcome> for ExitCode {
    fn from(outcome: Outcome) -> ExitCode {
        ExitCode::from(outcome as u8)
    }
}

/// Complains, and has failed.
pub fn failed(name: &OsStr, message: impl Display) -> Outcome {
    complain(name, message);
    Outcome::Failed
}

/// One line on standard error about a file, or about whatever has that name.
pub fn complain(name: &OsStr, message: impl Display) {
    bar::clear();
    // Whoever closed standard error does not want to know.
    let _ = writeln!(io::stderr(), "hivesaddle: {}: {message}", text::shown_name(name));
}

/// The system's words for an error, without its number.
pub fn plain(error: &io::Error) -> String {
    let words = error.to_string();
    words.split(" (os error").next().unwrap_or_default().to_string()
}

/// The command was called in a wrong way.
pub fn usage(command: &str, message: impl Display) -> Outcome {
    failed(command.as_ref(), format_args!("{message}; see hivesaddle help {command}"))
}

/// What a command comes to that writes to standard output, and notes the worst
/// as it goes. A reader that has seen enough, as `head`, is no error: what was
/// noted until then stands.
///
/// An output that was closed before the program began, `>&-`, is not seen: the
/// standard library opens the null device in its place.
pub fn written(write: impl FnOnce(&mut Outcome) -> io::Result<()>) -> Outcome {
    let mut worst = Outcome::Done;
    match write(&mut worst) {
        Ok(()) => worst,
        Err(error) if error.kind() == io::ErrorKind::BrokenPipe => worst,
        Err(error) => failed("standard output".as_ref(), plain(&error)),
    }
}
