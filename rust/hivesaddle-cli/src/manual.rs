//! Manual pages and completions, made of the same texts as the help.

/// A command's name, what it does in a few words, and its help.
pub type Topic = (&'static str, &'static str, &'static str);

/// A manual page in roff, for `man -l`.
pub fn page((name, does, help): Topic) -> String {
    let (usage, rest) = help.split_once("\n\n").unwrap_or((help, ""));
    let usage: Vec<&str> =
        usage.lines().map(|line| line.trim_start_matches("usage:").trim_start()).collect();
    let title = format!("hivesaddle-{name}");
    format!(
        ".TH {} 1\n.SH NAME\n{} \\- {}\n.SH SYNOPSIS\n{}.SH DESCRIPTION\n{}",
        title.to_uppercase(),
        roff(&title),
        roff(does),
        as_it_stands(&usage.join("\n")),
        as_it_stands(rest),
    )
}

/// Lines that are not filled, since the help has its own breaks.
fn as_it_stands(text: &str) -> String {
    let lines: String = text.lines().map(|line| format!("{}\n", roff(line))).collect();
    format!(".nf\n{lines}.fi\n")
}

/// A point or an apostrophe at the start of a line would be a request.
fn roff(line: &str) -> String {
    let guard = if line.starts_with(['.', '\'']) { "\\&" } else { "" };
    format!("{guard}{}", line.replace('\\', "\\e").replace('-', "\\-"))
}

/// The options that a help lists, without their dashes, each with what is said of
/// it on its line.
fn options(help: &'static str) -> impl Iterator<Item = (&'static str, &'static str)> {
    let row = |line: &'static str| {
        let option = line.strip_prefix("  --")?;
        let (name, rest) = option.split_once(' ').unwrap_or((option, ""));
        // Behind a value's name and the blanks.
        let said = rest.trim_start_matches(|c: char| c.is_ascii_uppercase()).trim();
        Some((name, said))
    };
    help.lines().filter_map(row)
}

pub fn bash(topics: &[Topic]) -> String {
    let names: Vec<&str> = topics.iter().map(|topic| topic.0).collect();
    let case = |&(name, _, help): &Topic| {
        let words: Vec<String> = options(help).map(|(option, _)| format!("--{option}")).collect();
        format!("        {name}) words=\"{} --help\" ;;\n", words.join(" "))
    };
    let cases: String = topics.iter().map(case).collect();
    format!(
        "# Completion of hivesaddle for bash: source this file.\n\
         _hivesaddle() {{\n    local words=\"{} help\"\n    \
         [ \"$COMP_CWORD\" -eq 1 ] || case ${{COMP_WORDS[1]}} in\n{cases}        \
         *) words= ;;\n    esac\n    \
         mapfile -t COMPREPLY < <(compgen -W \"$words\" -- \"${{COMP_WORDS[COMP_CWORD]}}\")\n}}\n\
         complete -o default -F _hivesaddle hivesaddle\n",
        names.join(" "),
    )
}

pub fn fish(topics: &[Topic]) -> String {
    let quoted = |text: &str| format!("'{}'", text.replace('\\', "\\\\").replace('\'', "\\'"));
    let mut out = String::from("# Completion of hivesaddle for fish.\n");
    for &(name, does, help) in topics {
        let does = quoted(does);
        out += &format!("complete -c hivesaddle -n __fish_use_subcommand -a {name} -d {does}\n");
        for (option, said) in options(help) {
            let (seen, said) = (format!("'__fish_seen_subcommand_from {name}'"), quoted(said));
            out += &format!("complete -c hivesaddle -n {seen} -l {option} -d {said}\n");
        }
    }
    out
}

#[cfg(test)]
mod tests {
    use super::*;

    const TOPIC: Topic =
        ("x", "a - b", "usage: hivesaddle x\n\n  --a-b WORD  says \\x\n.dot\n\nexample: y\n");

    #[test]
    fn pages_and_completions() {
        let expected =
            ".TH HIVESADDLE-X 1\n.SH NAME\nhivesaddle\\-x \\- a \\- b\n.SH SYNOPSIS\n.nf\n\
             hivesaddle x\n.fi\n.SH DESCRIPTION\n.nf\n  \\-\\-a\\-b WORD  says \\ex\n\\&.dot\n\n\
             example: y\n.fi\n";
        assert_eq!(page(TOPIC), expected);
        assert_eq!(options(TOPIC.2).collect::<Vec<_>>(), [("a-b", "says \\x")]);
        assert!(bash(&[TOPIC]).contains("        x) words=\"--a-b --help\" ;;\n"));
        assert!(fish(&[TOPIC]).contains("from x' -l a-b -d 'says \\\\x'\n"));
    }
}
