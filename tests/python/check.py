"""check.py ANSWERS: holds python/hivesaddle.py to the answers of the independent reading, which `answers` writes."""

import json
import sys

import hivesaddle


def plain(value):
    """As JSON has it: texts as hexadecimal digits, tuples as lists."""
    if isinstance(value, str):
        return value.encode("utf-16-le", "surrogatepass").hex()
    return [plain(item) for item in value] if isinstance(value, (list, tuple)) else value


def read(file):
    try:
        return {"accepted": plain(hivesaddle.read_file(file))}
    except hivesaddle.Refused as refusal:
        return {"refused": [refusal.number, refusal.index, refusal.offset]}


def shown(function, file):
    """None where there is nothing to list; the refusal is that of read_file."""
    try:
        return plain(function(file))
    except hivesaddle.Refused as refusal:
        assert read(file) == {"refused": [refusal.number, refusal.index, refusal.offset]}
        return None


def of_file(case):
    file = bytes.fromhex(case["file"])
    volume, start, _ = case["from"]
    text = bytes.fromhex(start).decode("utf-16-le", "surrogatepass")
    return {
        "file": case["file"],
        "read": read(file),
        "names": shown(hivesaddle.names, file),
        "volumes": shown(hivesaddle.volumes, file),
        "directories": [plain(hivesaddle.directories(file, volume)) for volume in range(3)],
        "references": [plain(hivesaddle.references(file, volume)) for volume in range(3)],
        "path": plain(hivesaddle.find_path(file)),
        "from": [volume, start, plain(hivesaddle.find_path_from(bytearray(file), volume, text))],
        "cost": plain(hivesaddle.cost(memoryview(file))),
    }


def of_year(case):
    given = {"lines": case["lines"], "starts": case["starts"]}
    try:
        rows = hivesaddle.year_table(bytes.fromhex(case["lines"]), case["starts"])
        return {**given, "rows": plain(rows)}
    except hivesaddle.YearRefused as refusal:
        return {**given, "refused": [refusal.number, refusal.place]}


def main(path):
    with open(path) as opened:
        answers = json.load(opened)
    pairs = [(case, of_file(case)) for case in answers["files"]] + [(case, of_year(case)) for case in answers["years"]]
    wrong = [pair for pair in pairs if pair[0] != pair[1]]
    for expected, given in wrong[:3]:
        print({name: (expected.get(name), given.get(name)) for name in {*expected, *given} if expected.get(name) != given.get(name)})
    accepted = sum("accepted" in case["read"] for case in answers["files"])
    found = sum(case["from"][2] is not None for case in answers["files"])
    print(len(pairs), "cases,", accepted, "files accepted,", found, "found from another start,", len(wrong), "wrong")
    return 0 if pairs and accepted and found and not wrong else 1


sys.exit(main(sys.argv[1]))
