//! `hivesaddle chart`: what a program loaded, as a picture.

mod rows;
mod svg;

pub use svg::{grouped, several};

use crate::args::{Args, Known};
use crate::files::Reader;
use crate::outcome::{failed, usage, Outcome};
use crate::replay::refused;
use crate::slow::Slow;
use crate::{output, refusal, text};
use hivesaddle::program_name;
use rows::Chart;
use std::ffi::{OsStr, OsString};

pub const HELP: &str = "\
usage: hivesaddle chart [--patient] FILE OUT.svg

Draws the loading chart: a row for each file that the program loaded, with its
number of trace entries and a map of where in the file they lie. Each row has a
scale of its own, from 0 to its greatest position. A browser opens it. What all
names begin with stands above the rows, which show their ends.

The first chain of trace entries is the first file's, and so on. Version 30 has
no chains: there each file names its entries. What the papers call the block
load count of an entry rises along every chain in files that Windows wrote: it
is a position, and is drawn as one and not added up.

FILE may be -, standard input, and OUT.svg may be -, standard output. An OUT.svg
that is there already is written over, unless it is a Prefetch file. A file that
is refused has no chart.

  --patient  also of a file that is made to be slow: one whose names or
             directories overlap many times is else not read

Exit status: 0; 1 if the file was refused; 2 if something could not be read or
written.

example: hivesaddle chart examples/samples/small.pf small.svg
";

pub fn run(words: Vec<OsString>) -> Outcome {
    let args = match Args::split(words, Known { flags: &["patient"], valued: &[] }) {
        Ok(args) => args,
        Err(message) => return usage("chart", message),
    };
    match &args.operands[..] {
        [file, out] => chart(file, out, args.ways().patient).unwrap_or_else(|stopped| stopped),
        _ => usage("chart", "it takes a file and the name of the picture"),
    }
}

fn chart(name: &OsStr, out: &OsStr, patient: bool) -> Result<Outcome, Outcome> {
    let mut reader = Reader::default();
    let file = reader.read(name).map_err(|trouble| failed(name, trouble))?;
    if let (false, Some(slow)) = (patient, Slow::of(file)) {
        return Err(refused(name, slow));
    }
    let chart = Chart::of(file).map_err(|refusal| refused(name, refusal::line(file, refusal)))?;
    let program = text::shown(program_name(file).unwrap_or_default());
    Ok(output::write_view(out, &svg::svg(&chart, &program), output::one(&name.to_owned())))
}
