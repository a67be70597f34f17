//! The text of the C program.

use crate::call::{Argument, Call, List, Number, MARGIN};
use crate::cases::replays;
use crate::prototypes::Prototype;
use std::fmt::Write;

pub fn text(prototypes: &[Prototype], calls: &[Call]) -> String {
    let mut text = String::from("/* Written by tests/header. */\n#include \"hivesaddle.h\"\n");
    text += "#include \"check.h\"\n";
    if prototypes.iter().any(|prototype| prototype.name == RUN_IN_PIECES) {
        text += &run_of_pieces();
    }
    let mut rows = String::new();
    for prototype in prototypes {
        let own: Vec<&Call> = calls.iter().filter(|call| call.function == prototype.name).collect();
        let swaps = swaps(own[0]);
        for (number, call) in own.iter().enumerate() {
            text += &function(number, call, &prototype.parameters, &swaps);
            let name = call.function;
            writeln!(rows, "    {{\"{name}\", {name}_{number}, {name}_swaps}},").unwrap();
        }
        if prototype.name == RUN_IN_PIECES {
            rows +=
                &format!("    {{\"{RUN_IN_PIECES}\", pieces_in_turn, {RUN_IN_PIECES}_swaps}},\n");
        }
        let names = swaps.iter().map(|(one, other)| format!("\"{one}, {other}\", "));
        let names: String = names.collect();
        writeln!(text, "static const char *const {}_swaps[] = {{{names}NULL}};", prototype.name)
            .unwrap();
    }
    writeln!(text, "\nstatic const struct call calls[] = {{\n{rows}}};\n").unwrap();
    text += "int main(int count, char **words)\n{\n    (void)words;\n";
    text += "    return run(calls, sizeof calls / sizeof *calls, count > 1);\n}\n";
    text
}

/// The function whose answers show only at the end of a run.
const RUN_IN_PIECES: &str = "hs_replay_feed";

/// What the run of the replay in pieces takes and has to leave.
fn run_of_pieces() -> String {
    let (recording, answers) = (replays::RECORDING.as_bytes(), replays::final_answers());
    let mut text = String::new();
    for (name, c_type, numbers) in [
        ("recording", "uint8_t", numbers(recording)),
        ("times", "uint64_t", numbers(&replays::TIMES)),
        ("boards", "uint8_t", numbers(&replays::BOARDS)),
        ("final_answers", "uint64_t", numbers(&answers)),
    ] {
        writeln!(text, "static const {c_type} {name}[] = {{{}}};", numbers.join(", ")).unwrap();
    }
    text + "#include \"pieces.h\"\n"
}

type Swap = (&'static str, &'static str);

/// Arguments that could change places without a word of the compiler, a list with its length.
fn swaps(call: &Call) -> Vec<Swap> {
    let mut swaps = Vec::new();
    for (place, one) in call.arguments.iter().enumerate() {
        let others = call.arguments[place + 1..].iter();
        let alike = others.filter(|other| other.kind() == one.kind());
        swaps.extend(alike.map(|other| (one.name(), other.name())));
    }
    swaps
}

/// Calls the function as the header has it, or with two arguments swapped, and says whether the answer is the known one.
fn function(number: usize, call: &Call, parameters: &[String], swaps: &[Swap]) -> String {
    let mut text = format!("\nstatic int {}_{number}(int swapped)\n{{\n", call.function);
    for list in lists(call) {
        text += &arrays(list);
    }
    let types: Vec<String> = in_order(call, parameters, None).iter().map(types).collect();
    let types = if types.is_empty() { "void".to_string() } else { types.join(", ") };
    let Call { function, result, gives, .. } = call;
    writeln!(text, "    {result} (*const called)({types}) = {function};").unwrap();
    writeln!(text, "    {result} given = 0;\n    switch (swapped) {{").unwrap();
    let orders = std::iter::once(None).chain(swaps.iter().copied().map(Some));
    for (order, swap) in orders.enumerate() {
        let arguments = in_order(call, parameters, swap);
        let arguments: Vec<String> = arguments.iter().map(handed).collect();
        let arguments = arguments.join(", ");
        writeln!(text, "    case {order}: given = called({arguments}); break;").unwrap();
    }
    text += "    }\n";
    write!(text, "    return given == {gives}u").unwrap();
    for List { name, own, .. } in lists(call).filter(|list| list.is_written()) {
        write!(text, " && SAME({name}, {name}_after, {MARGIN}, {own})").unwrap();
    }
    text += ";\n}\n";
    text
}

fn lists(call: &Call) -> impl Iterator<Item = &List> {
    call.arguments.iter().filter_map(|argument| match argument {
        Argument::List(list) => Some(list),
        Argument::Number { .. } => None,
    })
}

fn numbers<T: Number>(numbers: &[T]) -> Vec<String> {
    numbers.iter().map(|number| format!("{}u", number.wide())).collect()
}

/// A list that is written is made anew in each call.
fn arrays(list: &List) -> String {
    let List { name, c_type, before, after, .. } = list;
    let array = |kind: &str, ending: &str, numbers: &[u64]| {
        format!(
            "    {kind}{c_type} {name}{ending}[] = {{{}}};\n",
            self::numbers(numbers).join(", ")
        )
    };
    match after {
        None => array("static const ", "", before),
        Some(after) => array("", "", before) + &array("static const ", "_after", after),
    }
}

/// The arguments as the header has their parameters; of two that are swapped each stands where the other belongs.
fn in_order<'a>(call: &'a Call, parameters: &[String], swap: Option<Swap>) -> Vec<&'a Argument> {
    let standing_at = |parameter: &String| {
        let name = match swap {
            Some((one, other)) if parameter == one => other,
            Some((one, other)) if parameter == other => one,
            _ => parameter,
        };
        call.arguments.iter().find(|argument| argument.name() == name)
    };
    parameters.iter().filter_map(standing_at).collect()
}

fn types(argument: &&Argument) -> String {
    match argument {
        Argument::Number { c_type, .. } => c_type.to_string(),
        Argument::List(List { c_type, after: None, .. }) => format!("const {c_type} *, size_t"),
        Argument::List(List { c_type, .. }) => format!("{c_type} *, size_t"),
    }
}

fn handed(argument: &&Argument) -> String {
    match argument {
        Argument::Number { value, .. } => format!("{value}u"),
        Argument::List(list) => format!("{} + {MARGIN}, {}", list.name, list.length),
    }
}
