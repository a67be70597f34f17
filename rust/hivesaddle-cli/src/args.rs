//! The words behind a command: options, which begin with `--`, and operands.

use crate::files::{Wanted, Ways};
use crate::text;
use std::ffi::{OsStr, OsString};

/// What was given, options before, behind or between the operands.
#[derive(Debug, PartialEq, Eq)]
pub struct Args {
    options: Vec<(String, Option<OsString>)>,
    pub operands: Vec<OsString>,
}

/// The options that a command knows, without their `--`.
#[derive(Clone, Copy, Default)]
pub struct Known<'a> {
    pub flags: &'a [&'a str],
    /// Those that are followed by a value, as `--html OUT` or `--html=OUT`.
    pub valued: &'a [&'a str],
}

impl Args {
    /// A lone `-` is an operand, and so is everything behind `--`. The error is
    /// a complaint about the first option that is not known.
    pub fn split(words: Vec<OsString>, known: Known) -> Result<Args, String> {
        let mut args = Args { options: Vec::new(), operands: Vec::new() };
        let mut words = words.into_iter();
        while let Some(word) = words.next() {
            if word == "--" {
                args.operands.extend(words);
                break;
            }
            if word == "-" || !word.as_encoded_bytes().starts_with(b"-") {
                args.operands.push(word);
                continue;
            }
            args.options.push(option(&word, &mut words, known)?);
        }
        Ok(args)
    }

    /// As [`Args::split`], for a command whose operands are files, one at least.
    pub fn of_files(words: Vec<OsString>, known: Known) -> Result<Args, String> {
        let args = Args::split(words, known)?;
        input_once(&args.operands)?;
        if args.operands.is_empty() {
            return Err("no file is named".to_string());
        }
        Ok(args)
    }

    /// The files and folders that are the operands.
    pub fn wanted(&self) -> Wanted<'_> {
        Wanted { operands: &self.operands, ways: self.ways() }
    }

    pub fn ways(&self) -> Ways {
        Ways { recursive: self.has("recursive"), patient: self.has("patient") }
    }

    pub fn has(&self, flag: &str) -> bool {
        self.options.iter().any(|(name, _)| name == flag)
    }

    /// The values given with an option, in their order.
    pub fn values<'a>(&'a self, name: &'a str) -> impl Iterator<Item = &'a OsStr> {
        let given = self.options.iter().filter(move |(option, _)| option == name);
        given.filter_map(|(_, value)| value.as_deref())
    }

    /// The last of them.
    pub fn value<'a>(&'a self, name: &'a str) -> Option<&'a OsStr> {
        self.values(name).last()
    }
}

/// Standard input can be one of the files and not two.
pub fn input_once<'a>(names: impl IntoIterator<Item = &'a OsString>) -> Result<(), String> {
    match names.into_iter().filter(|name| *name == "-").count() {
        0 | 1 => Ok(()),
        _ => Err("only one of the files can be -".to_string()),
    }
}

fn option(
    word: &OsStr,
    behind: &mut impl Iterator<Item = OsString>,
    known: Known,
) -> Result<(String, Option<OsString>), String> {
    let unknown = || format!("no such option: {}", text::shown_name(word));
    // Only the value of an option may be something else than UTF-8, and that is
    // given as a word of its own then.
    let name = word.to_str().and_then(|word| word.strip_prefix("--")).ok_or_else(unknown)?;
    if known.flags.contains(&name) {
        return Ok((name.to_string(), None));
    }
    let (name, value) = match name.split_once('=') {
        Some((name, value)) => (name, Some(OsString::from(value))),
        None => (name, None),
    };
    if !known.valued.contains(&name) {
        return Err(unknown());
    }
    let value = value.or_else(|| behind.next());
    let value = value.ok_or_else(|| format!("--{name} is followed by a value"))?;
    Ok((name.to_string(), Some(value)))
}

#[cfg(test)]
mod tests {
    use super::*;

    const KNOWN: Known = Known { flags: &["csv"], valued: &["html"] };

    fn split(words: &[&str]) -> Result<Args, String> {
        Args::split(words.iter().map(OsString::from).collect(), KNOWN)
    }

    #[test]
    fn options_stand_anywhere() {
        for words in [["--csv", "a", "b"], ["a", "--csv", "b"], ["a", "b", "--csv"]] {
            let args = split(&words).unwrap();
            assert!(args.has("csv"));
            assert_eq!(args.operands, ["a", "b"]);
        }
        assert!(!split(&["a"]).unwrap().has("csv"));
    }

    #[test]
    fn a_dash_and_what_follows_two_are_operands() {
        assert_eq!(split(&["-"]).unwrap().operands, ["-"]);
        let args = split(&["--", "--csv", "--"]).unwrap();
        assert!(!args.has("csv"));
        assert_eq!(args.operands, ["--csv", "--"]);
    }

    #[test]
    fn values() {
        let spaced = split(&["--html", "out", "a"]).unwrap();
        assert_eq!((spaced.value("html"), spaced.operands.len()), (Some(OsStr::new("out")), 1));
        assert_eq!(split(&["--html=b=c"]).unwrap().value("html"), Some(OsStr::new("b=c")));
        assert_eq!(split(&["--html=a", "--html=b"]).unwrap().value("html"), Some(OsStr::new("b")));
        let two = split(&["--html=a", "x", "--html", "b"]).unwrap();
        assert_eq!(two.values("html").collect::<Vec<_>>(), ["a", "b"]);
        assert_eq!(split(&[]).unwrap().value("html"), None);
    }

    #[test]
    fn unknown_options() {
        for word in ["--xml", "-c", "--csv=1", "---"] {
            assert_eq!(split(&[word]), Err(format!("no such option: {word}")));
        }
        assert_eq!(split(&["--html"]), Err("--html is followed by a value".to_string()));
    }
}
