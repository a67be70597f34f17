//! `hivesaddle check`: accepted, or what is wrong and where.

use crate::args::{Args, Known};
use crate::files::Wanted;
use crate::look::{each_look, Look};
use crate::options::of_files;
use crate::outcome::{usage, written, Outcome};
use crate::output::rows;
use crate::{hex, refusal, text};
use hivesaddle::Refusal;
use std::ffi::{OsStr, OsString};
use std::io::{self, Write};

pub const HELP: &str = concat!(
    "\
usage: hivesaddle check [OPTIONS] FILE|FOLDER ..

Says of each file that it is accepted, or why it is refused: the number of the refusal, what it
means and with which section, entry or volume, where the field at fault stands, and the bytes
there as a hex editor shows them, with ^^ below the field. A byte that the file is too short to
have is shown as --. include/hivesaddle.h has a table of all refusals.

Of a folder, the files whose names end in .pf, or .PF, are checked.

",
    of_files!(),
    "
Exit status: 0 all are accepted; 1 one was refused; 2 one could not be read.

example: hivesaddle make --list 13 >ring.txt
         hivesaddle make ring.txt ring.pf
         hivesaddle check ring.pf
"
);

pub fn run(words: Vec<OsString>) -> Outcome {
    match Args::of_files(words, Known { flags: &["recursive", "patient"], valued: &[] }) {
        Ok(args) => written(|worst| check(args.wanted(), worst)),
        Err(message) => usage("check", message),
    }
}

fn check(wanted: Wanted, worst: &mut Outcome) -> io::Result<()> {
    let mut out = rows();
    each_look(wanted, worst, |name, look| match look {
        Look::Ahead => out.flush(),
        Look::Accepted(..) => writeln!(out, "{}: accepted", text::shown_name(name)),
        Look::Refused(file, refusal) => out.write_all(refused(name, file, refusal).as_bytes()),
        Look::Slow(_, slow) => {
            let advice = "  what to do: --patient reads it all the same";
            writeln!(out, "{}: {slow}\n{advice}", text::shown_name(name))
        }
        Look::Troubled(_) => {
            look.complain(name);
            Ok(())
        }
    })?;
    out.flush()
}

fn refused(name: &OsStr, file: &[u8], refusal: Refusal) -> String {
    let Refusal { number, offset, .. } = refusal;
    let words = refusal::words(file, refusal);
    let value = number_at(file, refusal, words.length).unwrap_or_default();
    let rows = hex::marked(file, offset, words.length);
    let mut said = format!("{}: refused {number}: {}\n", text::shown_name(name), words.says);
    let bytes = text::count(file.len(), "byte");
    said += &format!("  at {offset:#X} of {bytes}, {}{value}:\n", words.field);
    said.extend(rows.lines().map(|row| format!("  {row}\n")));
    said + &format!("  what to do: {}\n", words.advice)
}

/// The number that the field holds, if it is one and the file has all of it.
fn number_at(file: &[u8], refusal: Refusal, length: usize) -> Option<String> {
    // The signature is letters.
    if length != 4 || refusal.number == 2 {
        return None;
    }
    let field = file.get(usize::try_from(refusal.offset).ok()?..)?.first_chunk()?;
    let number = u32::from_le_bytes(*field);
    Some(format!(", which says {number} ({number:#X})"))
}
