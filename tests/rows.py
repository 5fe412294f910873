#!/usr/bin/env python3
"""The rows of conformance/rows, which say what the calls of the parts answer: tests/rows.py, or with the names of some of its parts. conformance/run.py
runs another program on the rows, in whatever language.

files: each file is in the grammar of conformance/README.md, and no name stands twice.

models: tests/models/parts.py, which was written anew from the documents, answers all rows as they say, but for a few that it skips.

runner: what conformance/run.py says of adapters. An adapter that goes wrong in one row fails that row, and no other; where that row is, and its notes, are told. A
row that is known to fail and does not, a call that is skipped, answers without their mark or line feed, answers of another program, files that are no rows, and an
output that nobody reads. tests/suite.py has the adapters of conformance/adapters, and all else that
is about the suite.
"""

import functools
import os
import re
import shlex
import sys
import tempfile

from kit.program import PYTHON, TOP, run, shown, write_bytes
from kit.report import in_threads, main

sys.path.insert(0, f"{TOP}/conformance")

import run as conformance  # noqa: E402

ROWS = f"{TOP}/conformance/rows"
SECONDS = 60


# ---- files


def files(report, _):
    try:
        groups, fault = conformance.all_rows(ROWS), None
    except SystemExit as bad:
        groups, fault = [], str(bad)
    rows = [row for _, of_group in groups for row in of_group]
    calls = sum(len(row.calls) for row in rows)
    report.judge("files of rows", fault or (None if rows else "there are none"), f", {len(groups)} files, {len(rows)} rows, {calls} calls")


# ---- models, and what runs adapters

# The most rows that the models skip.
MOST_SKIPPED = 4
# Within which an adapter ends that ends, on a machine that does much else. One that hangs is waited for so long.
SECONDS_OF_A_WRONG_ONE = 10

SOME_ROWS = """dsr-rows 1 some
row some/first
> one
< ok
row some/middle tagged
note It goes wrong here.
note Rule: all is ok,
note also here.
> two
< ok
> three
< ok
row some/last
> four
< ok
"""

# What is told of the middle row if it fails: its line, the rule, and its other note.
WHERE = b"some.rows:5\n    Rule: all is ok,\n    also here.\n    It goes wrong here.\n"

# An adapter that gives one answer to all calls, and does something else at the call `three`.
ADAPTER = """
import os, sys, time
for line in sys.stdin:
    if line == "> three\\n":
        {}
    if line.startswith(">"):
        print("< {}", flush=True)
"""

WRONG = {
    "ends": "sys.exit()",
    "ends with a status": "os._exit(3)",
    "answers and ends with a status": "print('< ok', flush=True); os._exit(3)",
    "hangs": "time.sleep(600)",
    "hangs in a program of its own": "os.system('sleep 600')",
    "stops writing and hangs": "os.close(1); time.sleep(600)",
    "writes without end": "while True: print('< ok', '< ' + 'ok' * 10_000, sep='\\n')",
    "writes a line without end": "while True: print('< ok' * 10_000, end='')",
    "writes one answer more": "print('< ok')",
    "writes one answer less": "continue",
    "answers something else": "print('< no'); continue",
    "answers what no XML may have": "print('< \\0\\x1b<&]]>', flush=True); continue",
}

NO_ROWS = {
    "another header": SOME_ROWS.replace("dsr-rows 1", "dsr-rows 2"),
    "another group": SOME_ROWS.replace("row some/last", "row other/last"),
    "a name that stands twice": SOME_ROWS.replace("some/last", "some/first"),
    "a call without an answer": SOME_ROWS.removesuffix("< ok\n"),
    "an answer without a call": SOME_ROWS + "< ok\n",
    "a row without a call": SOME_ROWS + "row some/more\n",
    "a line that is none": SOME_ROWS + "rows\n",
    "a note after a call": SOME_ROWS + "note It is late.\n",
    "no line feed at the end": SOME_ROWS.removesuffix("\n"),
}


def conformance_run(*words):
    """The run of conformance/run.py with these words, and how many rows passed, failed and were skipped, or None."""
    ran = run([*PYTHON, f"{TOP}/conformance/run.py", *words], seconds=600)
    found = re.search(rb"^(\d+) passed, (\d+) failed, (\d+) skipped\n\Z", ran[1], re.MULTILINE)
    return ran, tuple(map(int, found.groups())) if found else None


def told_by(ran):
    return b"".join(ran[1:]).decode(errors="replace")


def told(counts):
    return counts and "{} rows passed, {} failed, {} skipped".format(*counts)


def fault_of_run(words, status, wanted, *says):
    """How the run with these words differs from the wanted status and counts, or does not say one of these, or fails badly; or None."""
    ran, counts = conformance_run(*words)
    is_well = (ran[0], counts) == (status, wanted) and all(said in ran[1] for said in says) and b"Traceback" not in ran[2]
    return None if is_well else f"{counts}, {shown(ran)}"


def fault_of_closed_pipe(words):
    """What is wrong with a run whose standard output nobody reads, or None: it ends with status 1, and says nothing."""
    reader, writer = os.pipe()
    os.close(reader)
    status, _, errors = run([*PYTHON, f"{TOP}/conformance/run.py", *words], stdout=writer)
    os.close(writer)
    return None if (status, errors) == (1, b"") else f"status {status}, errors {errors[:200]!r}"


def models(report, _):
    ran, counts = conformance_run("--seconds", str(SECONDS), "--", *PYTHON, f"{TOP}/tests/models/parts.py")
    is_well = ran[0] == 0 and counts is not None and counts[2] <= MOST_SKIPPED
    report.judge("the models", None if is_well else told_by(ran), f", {told(counts)}")


def adapter(statement, answer="ok"):
    """The words for conformance/run.py by which it starts such an adapter."""
    return ["--", *PYTHON, "-c", ADAPTER.format(statement, answer)]


def written(room, name, text):
    """Writes a file, and gives its path."""
    write_bytes(f"{room}/{name}", text.encode())
    return f"{room}/{name}"


def choices(room):
    """What is tried: rows that are known to fail, left out, skipped, or missing, and answers that are none; with which words, and the status, the counts and
    perhaps the words that are wanted."""
    known = ["--known", written(room, "known", "some/middle\n")]
    says_no, says_ok, skips = map(adapter, [WRONG["answers something else"], "pass", "print('< skip'); continue"])
    yield "a row that is known to fail and fails", [*known, *says_no], 0, (3, 0, 0)
    yield "a row that is known to fail and passes", [*known, *says_ok], 1, (2, 1, 0)
    yield "a row that is left out", ["--without", "tagged", *says_no], 0, (2, 0, 0)
    yield "a row that is skipped", skips, 0, (2, 0, 1), b"its rows: three 1\n"
    yield "all rows skipped", adapter("pass", "skip"), 1, (0, 0, 3), b"its rows: four 1, one 1, three 1, two 1\n"
    wrote = b"no line `< ANSWER` for it; the adapter wrote "
    for what, statement, why in [
        ("an answer without its mark", "print('ok'); continue", wrote + b"`ok`\n"),
        ("an answer without a line feed", "print('< ok', end='', flush=True); os._exit(0)", wrote + b"`< ok` without a line feed at the end\n"),
        ("a call that is copied, and not answered", "print(line, end=''); continue", b"no answer: it ended\n"),
    ]:
        yield what, adapter(statement), 1, (2, 1, 0), b"> three\n      wanted    ok\n      " + why
    yield "a group that there is not", ["--group", "other", *says_ok], 1, None
    yield "a known row that there is not", ["--known", written(room, "strange", "some/row\n"), *says_ok], 1, None
    yield "a program that there is not", ["--", f"{room}/nothing"], 1, None
    yield "the answers of another program, the same", ["--answers", shlex.join(says_ok[1:]), *says_ok], 0, (3, 0, 0)
    yield "the answers of another program, others", ["--answers", shlex.join(says_no[1:]), *says_ok], 1, (2, 1, 0)
    yield "another program that skips a row", ["--answers", shlex.join(skips[1:]), *says_no], 0, (2, 0, 0)
    yield "another program that ends early", ["--answers", shlex.join(adapter(WRONG["ends"])[1:]), *says_ok], 1, None
    yield "a file for JUnit that cannot be written", ["--junit", f"{room}/no/junit.xml", *says_ok], 2, None


def check_of_wrong(words, what):
    """What an adapter does that goes wrong, and what is wrong with the run of it, or None."""
    words = [*words, "--seconds", str(SECONDS_OF_A_WRONG_ONE), *adapter(WRONG[what])]
    return f"an adapter that {what}", fault_of_run(words, 1, (2, 1, 0), b"some/middle: FAILED\n", WHERE), None


def runner(report, _):
    with tempfile.TemporaryDirectory(prefix="dsr-adapters-") as room:
        words = ["--rows", room]
        for what, text in {"rows": SOME_ROWS, **NO_ROWS}.items():
            written(room, "some.rows", text)
            report.judge(what, fault_of_run([*words, *adapter("pass")], *((0, (3, 0, 0)) if what == "rows" else (1, None))), None)
        written(room, "some.rows", SOME_ROWS)
        report.judge_all(in_threads(functools.partial(check_of_wrong, words), WRONG))
        for what, more, *wanted in choices(room):
            report.judge(what, fault_of_run([*words, *more], *wanted), None)
        for what, statement in [("all is well", "pass"), ("a row fails", WRONG["answers something else"])]:
            report.judge(f"nobody reads that {what}", fault_of_closed_pipe([*words, *adapter(statement)]), None)


if __name__ == "__main__":
    PARTS = {"files": files, "models": models, "runner": runner}
    sys.exit(main(__doc__, PARTS, without_program=PARTS))
