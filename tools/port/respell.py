#!/usr/bin/env python3
"""Spells the names of this repository's definitions and lemmas as today's Rattle does. Run once, after port.py, at the top of the checkout.

A word in camel case becomes snake case, `isDigit` is_digit, wherever it stands: in specs/, proofs/, the contracts of src/, the
must-fail edits and, between back quotes, the documents. In the name of a lemma a dash stays between two names of definitions and
becomes `_` before a plain word: `laid-start` is laid_start, `isDigit-true` is_digit-true. A lemma that would have its definition's name
gets `_lem`, and in the label of a record each dash is a `_`. Names of functions, exported C names,
strings, inputs and outputs stay. It stops before it writes where two names would fall together.
"""
import os
import re
import sys

WORD = re.compile(r"[^\s(){}.;,@\"«»\[\]\\:`]+")
TOP = re.compile(r"^(?:(?:pub|abbrev|unfoldable|data|record|ruleset) )*([^\s(){}.;,@\"«»\[\]\\:]+) :(?: |$)")
LABEL = re.compile(r"^ +pub ([^\s(){}.;,@\"«»\[\]\\:]+) :(?: |$)")
HEAD = re.compile(r"^(?:(?:pub|abbrev|unfoldable|data|record|ruleset) )+([^\s(){}.;,@\"«»\[\]\\:]+)")
# Names of std and the logic that lemmas of ours are about, beside those that the files declare.
LIBRARY = set(
    "length take drop set sets get get_or append reverse map sum replicate concat paste tabulate min max div mod rem add sub mul pow suc zero"
    " true false not and or nil cons le lt eq ltb leb eqb some none vec_items".split()
)
# A word that is no field of a record.
FREE = re.compile(r"(?<![.\w'])([^\s(){}.;,@\"«»\[\]\\:`]+)")
# Lemmas in snake case that stand in a file beside the definition that they are about.
SAME = {"carried_on", "in_order"}
# Fields of records, which keep their names beside a definition of the same name.
FIELDS = set(
    "declared_size stored_hash name_offset_at name_length_at trace_entry volume_entry metrics_entry file_reference_at form_required run_time_at"
    " run_count_at time_count first_section head_end has_next trace_at volumes_at strings_at read_line".split()
)
FACT = re.compile(r"(Is|All|Any|Contains|[A-Z])\w*$")


def files(*endings):
    for folder, dirs, names in os.walk("crates"):
        dirs[:] = sorted(d for d in dirs if d not in ("out", ".git"))
        for name in sorted(names):
            if name.endswith(endings):
                yield os.path.join(folder, name)


def read(path):
    with open(path, encoding="utf-8") as it:
        return it.read()


def part(text):
    """One part of a name, in snake case where it is in camel case."""
    if not re.match(r"[a-z]", text) or not re.search(r"[a-z0-9][A-Z]", text):
        return text
    return re.sub(r"(?<=[a-z0-9])([A-Z])", lambda m: "_" + m[1].lower(), text)


def camel(name):
    out = "-".join("_".join(part(p) for p in d.split("_")) for d in name.split("-"))
    return re.sub(r"(?<![A-Za-z0-9])getD(?![A-Za-z0-9])", "get_or", out.replace("get_d", "get_or"))


def code(text):
    """The text of a .antt file without its comments."""
    return "\n".join(line for line in text.split("\n") if not line.lstrip().startswith("--"))


def names():
    declared, of_specs, lemmas, labels, every = set(), set(), set(), set(), set()
    for path in files(".antt"):
        text = code(read(path))
        every.update(WORD.findall(text))
        for line in text.split("\n"):
            m = LABEL.match(line)
            if m:
                labels.add(m[1])
            m = TOP.match(line) or HEAD.match(line)
            if m and not path.endswith("/Proof.antt"):
                declared.add(m[1])
                (of_specs if "/specs/" in path else lemmas).add(m[1])
    for path in files(".rt"):
        for line in read(path).split("\n"):
            if "ghost use" in line or "{" in line or "≡" in line:
                every.update(WORD.findall(line))
    return declared, of_specs, lemmas - of_specs, labels, every


def is_name(text, known):
    return text in known or bool(FACT.match(text)) or not re.match(r"[A-Za-z]", text)


def table():
    """The new name of each old one, and the names that would stand for two things in one file."""
    declared, of_specs, lemmas, labels, every = names()
    known = {camel(n) for n in of_specs if "-" not in n} | LIBRARY
    to = {}
    for name in sorted(every | declared):
        if not re.match(r"[a-z]", name):
            continue
        new = camel(name)
        if name in labels:
            new = new.replace("-", "_")
        elif name in declared and "-" in name:
            parts = new.split("-")
            new = parts[0]
            for before, after in zip(parts, parts[1:]):
                new += ("-" if is_name(before, known) and is_name(after, known) else "_") + after
        if new != name:
            to[name] = new
    # A lemma or a label that would have the name of a definition in one of its files gets another; two rounds do.
    for _ in range(2):
        for _, new, olds in clashes(to):
            for old in olds:
                if "-" in old or old in SAME:
                    to[old] = new + "_lem"
    return to, clashes(to)


def clashes(to):
    found = []
    for path in files(".antt"):
        seen = {}
        for line in code(read(path)).split("\n"):
            brought = re.match(r"(?:pub )?use .*\.\{(.*)\}", line)
            here = [w.strip() for w in brought[1].split(",")] if brought else [] if line.startswith("use ") else FREE.findall(line)
            for word in here:
                seen.setdefault(to.get(word, word), set()).add(word)
        found += [(path, new, sorted(olds)) for new, olds in sorted(seen.items()) if len(olds) > 1 and (new not in FIELDS or new != "read_line" and any("-" in it for it in olds))]
    return found


def spelled(text, to, comments=False):
    return WORD.sub(lambda m: to.get(m[0], m[0]), text)


def in_antt(text, to, plain):
    """Code by the whole table; comments by the names in camel case alone, since a dash there is English."""
    return "\n".join(spelled(line, plain if line.lstrip().startswith("--") else to) for line in text.split("\n"))


def in_rt(text, to):
    """Of a source only what is ghost: the imports, and the clauses between a signature and its body."""
    out, depth = [], 0
    for line in text.split("\n"):
        clause = depth or re.match(r"\s*(ghost use|requires|ensures|ghost|also_owns|decreases)\b", line)
        if clause:
            line = spelled(line, to)
            depth += line.count("{") - line.count("}")
        out.append(line)
    return "\n".join(out)


def main():
    to, bad = table()
    if "--list" in sys.argv:
        for old, new in sorted(to.items()):
            print(old, new)
    if bad:
        print("fall together:", *bad, sep="\n", file=sys.stderr)
    if "--list" in sys.argv or bad:
        return 1 if bad else 0
    plain = {old: new for old, new in to.items() if re.search(r"[a-z0-9][A-Z]", old)}
    quoted = lambda text: re.sub(r"`[^`\n]*`", lambda m: spelled(m[0], plain), text)
    for path in files(".antt", ".rt", ".edit"):
        text = read(path)
        if path.endswith(".antt"):
            new = in_antt(text, to, plain)
        elif path.endswith(".rt"):
            new = in_rt(text, to)
        else:
            new, kind = [], ""
            for line in text.split("\n"):
                kind = line[6:] if line.startswith("file: ") else kind
                ghost = kind.startswith("specs/") or re.match(r"(old|new): *(ghost use|requires|ensures)", line)
                new.append(spelled(line, to if ghost else {}))
            new = "\n".join(new)
        if new != text:
            with open(path, "w", encoding="utf-8") as it:
                it.write(new)
    for folder, dirs, found in os.walk("."):
        dirs[:] = [d for d in dirs if d not in ("crates", ".git", "target", "rust", "tests", "examples")]
        for name in found:
            path = os.path.join(folder, name)
            if name.endswith(".md"):
                text = read(path)
                new = quoted(text)
                if new != text:
                    with open(path, "w", encoding="utf-8") as it:
                        it.write(new)
    return 0


if __name__ == "__main__":
    sys.exit(main())
