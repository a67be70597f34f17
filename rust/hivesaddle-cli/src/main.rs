//! `hivesaddle`: what the library can do, from one command.

mod age;
mod args;
mod bar;
mod board;
mod catalogue;
mod chart;
mod check;
mod files;
mod head;
mod hex;
mod list;
mod look;
mod make;
mod manual;
mod names;
mod odd;
mod options;
mod outcome;
mod output;
mod page;
mod parts;
mod path;
mod pulls;
mod refusal;
mod replay;
mod slow;
mod starts;
mod table;
mod terminal;
mod text;
mod time;
mod timeline;
mod volumes;
mod year;

use outcome::{failed, Outcome};
use output::say;
use std::ffi::{OsStr, OsString};
use std::process::ExitCode;
use volumes::directories;

const VERSION: &str = concat!("hivesaddle ", env!("CARGO_PKG_VERSION"), "\n");

struct Command {
    name: &'static str,
    /// In a few words, for the general help.
    does: &'static str,
    help: &'static str,
    run: fn(Vec<OsString>) -> Outcome,
}

const fn command(
    name: &'static str,
    does: &'static str,
    help: &'static str,
    run: fn(Vec<OsString>) -> Outcome,
) -> Command {
    Command { name, does, help, run }
}

const COMMANDS: [Command; 12] = [
    command("list", "a row for each file", list::HELP, list::run),
    command("check", "accepted, or what is wrong and where", check::HELP, check::run),
    command("timeline", "all starts, in the order of time", timeline::HELP, timeline::run),
    command("names", "the files that the program loaded", names::HELP, names::run),
    command("directories", "the directories that they lie in", directories::HELP, directories::run),
    command("volumes", "the volumes that they lie on", volumes::HELP, volumes::run),
    command("catalogue", "a catalogue line for each file", catalogue::HELP, catalogue::run),
    command("make", "a test file from a plain text description", make::HELP, make::run),
    command("chart", "the loading chart, as a picture", chart::HELP, chart::run),
    command("starts", "a line for each start that files tell of", starts::HELP, starts::run),
    command("replay", "the reading that each start has in a recording", replay::HELP, replay::run),
    command("year", "the year's table, or its page", year::HELP, year::run),
];

/// The general help stays as it was before this one; the help of `volumes` names it.
const UNLISTED: &str = "directories";

fn general_help() -> String {
    let row = |command: &Command| format!("  {:<10} {}\n", command.name, command.does);
    let listed = COMMANDS.iter().filter(|command| command.name != UNLISTED);
    let commands: String = listed.map(row).collect();
    format!(
        "hivesaddle reads Windows Prefetch files, and says what is wrong with those it refuses.\n\n\
         usage: hivesaddle COMMAND [OPTIONS] ..\n\n{commands}\n\
         hivesaddle COMMAND --help says more about one, with an example.\n\
         hivesaddle help --man COMMAND writes the same as a manual page, and\n\
         hivesaddle help --completion bash or fish a completion for that shell.\n\
         A - in place of a file is standard input.\n\
         Exit status: 0 all is well; 1 a file or a line was refused;\n\
         2 wrong usage, or something could not be read or written.\n"
    )
}

fn find(name: &OsStr) -> Option<&'static Command> {
    COMMANDS.iter().find(|command| name == command.name)
}

fn no_such_command(name: &OsStr) -> Outcome {
    failed(name, "no such command; hivesaddle --help lists them")
}

/// `hivesaddle help`, with a command behind it or none, or as other programs read
/// it.
fn help(words: &[OsString]) -> Outcome {
    let topic = |command: &Command| (command.name, command.does, command.help);
    let topics = || COMMANDS.iter().map(topic).collect::<Vec<manual::Topic>>();
    match words {
        [form, name] if form == "--man" => {
            return find(name).map_or_else(
                || no_such_command(name),
                |command| say(manual::page(topic(command)).as_bytes()),
            );
        }
        [form, shell] if form == "--completion" && shell == "bash" => {
            return say(manual::bash(&topics()).as_bytes());
        }
        [form, shell] if form == "--completion" && shell == "fish" => {
            return say(manual::fish(&topics()).as_bytes());
        }
        _ => {}
    }
    match words.first().map(|name| (name, find(name))) {
        None => say(general_help().as_bytes()),
        Some((_, Some(command))) => say(command.help.as_bytes()),
        Some((name, None)) => no_such_command(name),
    }
}

/// Behind `--` there are only operands.
fn asks_for_help(words: &[OsString]) -> bool {
    words.iter().take_while(|word| *word != "--").any(|word| word == "--help" || word == "-h")
}

fn main() -> ExitCode {
    let mut words: Vec<OsString> = std::env::args_os().skip(1).collect();
    if words.is_empty() {
        return failed("no command".as_ref(), "hivesaddle --help lists them").into();
    }
    let name = words.remove(0);
    let outcome = match (name.to_str(), find(&name)) {
        (_, Some(command)) if asks_for_help(&words) => say(command.help.as_bytes()),
        (_, Some(command)) => (command.run)(words),
        (Some("help"), _) if !asks_for_help(&words) => help(&words),
        (Some("help" | "--help" | "-h"), _) => help(&[]),
        (Some("--version"), _) => say(VERSION.as_bytes()),
        _ => no_such_command(&name),
    };
    outcome.into()
}
