#!/usr/bin/env python3
"""The driver of rows, crates/dsr_rows: tests/driver.py, or with the names of some of its parts. With `files --write` it writes stdin and stdout of the driver anew
from the rows of conformance/rows.

files: each verb of the driver, and each kind of token, is in a row with an answer other than `no-call`. crates/dsr_rows/stdin has the first row of each file
without its answers, and stdout has it with them: `rt ci` runs the driver on it, as two compilers build it.

rows: the driver, as `rt ci` built it, is given each file without its answers, and must write the file.

refusals: the same over all files of a group at once, with the 1st, 2nd, 3rd .. allocation of the driver refused, until a run meets no refusal; in a long one with
wider and wider steps. A run that met one must write the files all the same, since the driver makes a refused call again; or end with status 1 and say so, if the
driver itself had no memory, after a prefix of them.

cuts: of each row with the tag `cut`: each text that is a token, cut at every byte from both sides, or with a byte changed, must be another token or none. Each
script with a byte changed must be a script, or have a shape outside the limits, or its first bad line must not be before that byte.
"""

import os
import re
import sys
from typing import NamedTuple

from kit.inputs import cut_at_bytes
from kit.program import TOP, bytes_of, fault_of_building, run, shown, text_of, write_bytes
from kit.refusals import refusing
from kit.report import in_threads, main

sys.path.insert(0, f"{TOP}/conformance")

import run as conformance  # noqa: E402

ROWS = f"{TOP}/conformance/rows"
CRATE = "crates/dsr_rows"
# The library whose calls it makes.
CALLS = "crates/dsr_row_calls"
DRIVER = [f"{TOP}/{CRATE}/out/dsr_rows"]
SECONDS = 60


class File(NamedTuple):
    name: str
    group: str
    rows: list
    text: bytes


def read_files():
    """The files of rows; and what is wrong with one, or None."""
    try:
        groups = conformance.all_rows(ROWS)
    except SystemExit as fault:
        return [], str(fault)
    names = sorted(name for name in os.listdir(ROWS) if name.endswith(".rows"))
    return [File(name, group, rows, bytes_of(f"{ROWS}/{name}")) for name, (group, rows) in zip(names, groups)], None if groups else "there are none"


def asked(text):
    """The rows without their answers."""
    return b"".join(line for line in text.splitlines(keepends=True) if not line.startswith(b"<"))


def first_row(text):
    """The file's text to the end of its first row."""
    first, row, _ = text.partition(b"\nrow ")
    return first + row + text[len(first + row):].partition(b"\nrow ")[0].rstrip(b"\n") + b"\n"


def answers_in(written):
    return [line[2:] for line in written.decode("latin-1").split("\n") if line.startswith("< ")]


# ---- files


def fault_of_verbs(found):
    """A verb or a kind of the driver that no row makes, or None."""
    sources = "".join(text_of(f"{crate}/src/{name}") for crate in (CALLS, CRATE) for name in sorted(os.listdir(f"{TOP}/{crate}/src")))
    known = set(re.findall(r'^    \("([a-z0-9-]+)", \w+::\w+\),$', sources, re.M))
    made = {word for file in found for row in file.rows for call, answer in row.calls if answer != "no-call" for word in call.split(" ")[:2]}
    left = sorted(known - made)
    return f"no row makes {', '.join(left)}" if left else None if known else "the driver has no verbs"


def files(report, is_written):
    found, fault = read_files()
    if not report.judge("files of rows", fault, f", {len(found)} files"):
        return
    report.judge("verbs", fault_of_verbs(found))
    first = b"".join(first_row(file.text) for file in found)
    for name, wanted in [("stdin", asked(first)), ("stdout", first)]:
        if is_written:
            write_bytes(f"{CRATE}/{name}", wanted)
        fault = None if bytes_of(f"{CRATE}/{name}") == wanted else "it is not that of the rows: tests/driver.py files --write writes it"
        report.judge(f"{CRATE}/{name}", fault)


# ---- the driver

NO_MEMORY = 1, b"dsr: no memory\n"
# So many first allocations are refused one by one; then each step is wider by a part of what came before.
FIRST, PART = 300, 8
CHANGES, SCRIPT_CHANGES = " 01rc+-,/~()", "\n 01rc+-,/~("


def difference(rows, text):
    """The first row that was answered otherwise, and how many more there are, in words."""
    answers, faults = answers_in(text), []
    for row in rows:
        own, answers = answers[:len(row.calls)], answers[len(row.calls):]
        other = [(call, wanted, *own[at:at + 1]) for at, (call, wanted) in enumerate(row.calls) if own[at:at + 1] != [wanted]]
        if other:
            call, wanted, *answer = other[0]
            faults.append(f"{row.name}: `{call}` is " + (f"answered `{answer[0]}`, and not `{wanted}`" if answer else "not answered"))
    if not faults:
        return "each call is answered as its row says, but the rows do not come out as they are"
    return faults[0] + (f"; and {len(faults) - 1} rows more" if faults[1:] else "")


def fault_of_file(file):
    """What is wrong with the driver's run on this file, or None."""
    ran = run(DRIVER, asked(file.text), SECONDS)
    if ran[1] != file.text:
        return f"{difference(file.rows, ran[1])}, {shown(ran)}"
    return None if ran == (0, file.text, b"") else shown(ran)


def check_of_refusals(shim, group, found):
    """What the runs of these files with an allocation refused are, what is wrong with them, or None, and what is said of them."""
    rows, text = [row for file in found for row in file.rows], b"".join(file.text for file in found)
    nth, count, ended, fault = 1, 0, 0, None
    while not fault:
        ran, noted = shim.run(DRIVER, asked(text), SECONDS, nth=nth)
        status, output, errors = ran
        if noted is None:
            fault = None if count and ran == (0, text, b"") else f"no allocation is refused, and {shown(ran)}"
            break
        count += 1
        if (status, errors) == NO_MEMORY and text.startswith(output):
            ended += 1
        elif ran != (0, text, b""):
            fault = f"with allocation {nth} refused: {difference(rows, output) if status == 0 else shown(ran)}"
        nth += 1 if nth < FIRST else 1 + nth // PART
    return f"{group} with allocations refused", fault, f", {count} runs, {ended} of which ended for want of memory"


def answers(calls):
    """What the driver answers to these calls, which need no value before them."""
    return answers_in(run(DRIVER, "".join(f"> {call}\n" for call in calls).encode("latin-1"), SECONDS)[1])


def changed(text, changes):
    """The text with each byte changed to each of these."""
    return [text[:at] + other + text[at + 1:] for at in range(len(text)) for other in changes]


def fault_of_cut_token(kind, text):
    """What is wrong with what the driver says of the text of a token, cut and changed, or None; and how many texts there are."""
    others = [*cut_at_bytes(text[:-1]), *(text[at:] for at in range(len(text))), *changed(text, CHANGES)]
    found = answers([f"token {kind} {other}" for other in others])
    if len(found) != len(others):
        return "not every text is answered", len(others)
    return next((f"{other!r} is read as {answer!r}" for other, answer in zip(others, found) if answer not in ("ok", "no")), None), len(others)


def spelled(text):
    """The text as a call has it: a spaced bar for each line feed."""
    words = text.replace("\n", " | ")
    return words[:-1] if text.endswith("\n") else words


def fault_of_changed_script(words):
    """What is wrong with what the driver says of a script with a byte changed, or None; and how many scripts there are."""
    text = (words + " ").replace(" | ", "\n")
    lines = [text[:at].count("\n") + 1 for at in range(len(text)) for _ in SCRIPT_CHANGES]
    others = changed(text, SCRIPT_CHANGES)
    found = answers([f"script {spelled(other)}" for other in others])
    if len(found) != len(others):
        return "not every script is answered", len(others)
    for other, line, answer in zip(others, lines, found):
        bad = re.fullmatch(r"E13 BadText (\d+)", answer)
        if answer not in ("ok", "E1 BadShape") and not (bad and line <= int(bad[1]) <= text.count("\n") + 2):
            return f"{other!r}, changed in line {line}, is answered {answer!r}", len(others)
    return None, len(others)


def check_of_cuts(row):
    """What the cut and changed texts of the row are, what is wrong with what the driver says of them, or None, and what is said of them."""
    count, fault = 0, None
    for call, answer in row.calls:
        verb, _, rest = call.partition(" ")
        if verb == "script":
            fault, more = fault_of_changed_script(rest)
        else:
            fault, more = fault_of_cut_token(*rest.partition(" ")[::2]) if answer == "ok" else (None, 0)
        count += more
        if fault:
            break
    return f"{row.name} cut and changed", fault, f", {count} texts"


def found_files(report):
    """The files of rows, if they and the driver are there: else that is judged to be wrong."""
    found, fault = read_files()
    return found if report.judge("the driver", fault_of_building("dsr_rows") or fault, None) else []


def rows(report, _):
    report.judge_all((file.name, fault_of_file(file), f", {len(file.rows)} rows") for file in found_files(report))


def refusals(report, _):
    groups = {}
    for file in found_files(report):
        groups.setdefault(file.group, []).append(file)
    with refusing() as shim:
        report.judge_all(in_threads(lambda group: check_of_refusals(shim, group, groups[group]), groups))


def cuts(report, _):
    report.judge_some("rows cut and changed", (check_of_cuts(row) for file in found_files(report) for row in file.rows if "cut" in row.tags))


if __name__ == "__main__":
    PARTS = {"files": files, "rows": rows, "refusals": refusals, "cuts": cuts}
    sys.exit(main(__doc__, PARTS, "--write", without_program=PARTS))
