#!/usr/bin/env python3
"""Runs an adapter against the rows: run.py [--group G ..] [--without TAG ..] [--known FILE] [--rows FOLDER] [--seconds N] [--junit FILE] [--random N
[--seed S]] [--answers COMMAND] ADAPTER ..

ADAPTER is a command with its words; it follows `--` if a word of it begins with a dash. It reads lines `row NAME` and `> CALL` on standard input, and
writes one line `< ANSWER` for each call, or `< skip` if it has no such call; other lines that it writes are ignored. It forgets everything at a `row`.
It never reads what the rows want.

All rows of a file go to one start of the adapter. If that start ends early, takes longer than N seconds, or writes too little or too much, each row of
the file goes to a start of its own, so that only the rows at fault fail.

Of a row that fails it says in which file and line the row is, the rule and the notes on it, its calls so far, and what was wanted. At the end it prints a line
for each group; if rows failed, a line for each rule that they have as a tag; if rows were skipped, the verbs that were, each with the count of its rows; and
`N passed, M failed, K skipped`. The status is 0 if no row failed and some row passed. FILE of `--known` names rows that are known to fail, one a line: each of them passes if it fails, and fails if
it does not. FILE of `--junit` gets the outcomes as JUnit XML, which most build servers read.

With `--random` the rows are N of each group by chance, the same for the same S, as tests/rows_by_chance.py has the models answer them. With `--answers`
what is wanted is what that command answers to the calls, in place of what the rows say; a row to which it says `skip` is left out.
"""

import argparse
import collections
import os
import re
import selectors
import shlex
import signal
import subprocess
import sys
import tempfile
import time
import xml.etree.ElementTree as ElementTree

HERE = os.path.dirname(os.path.realpath(__file__))
MOST_BYTES = 16 * 2**20
NAME = re.compile("[a-z0-9]+(-[a-z0-9]+)*")
# What no XML may have, escaped or not.
NO_XML = re.compile("[^\t\n\x20-\ud7ff]")
# How much is shown of a line that is no answer, and what begins lines that an adapter may copy from its input.
MOST_SHOWN = 60
COPIED = ("row ", "note ", "> ")
# Tags that say what a row has in it. All others name the rule that the row is about.
KINDS = ("lists", "remove", "contract", "cut")


# ---- rows


class Row:
    """A row: its name, its tags, its notes, and its calls, each with the answer that is wanted. Once its file is read, also what is told of it if it fails: the
    file and line in which it begins, the rule that it is about, and its other notes."""

    def __init__(self, name, tags):
        self.name, self.tags, self.notes, self.calls, self.told = name, tags, [], [], []

    def text(self):
        return "".join([f"row {self.name}\n", *(f"> {call}\n" for call, _ in self.calls)])


class BadRows(Exception):
    """A file of rows is not in the grammar."""


def read_line(group, rows, asked, line):
    """Adds a line to the rows. Returns the call that waits for its answer, or None; `asked` is what it returned for the line before."""
    kind, _, rest = line.partition(" ")
    if kind == "<" and asked is not None:
        rows[-1].calls.append((asked, rest))
        return None
    if asked is not None or not rest:
        raise BadRows
    if kind == "row":
        name, *tags = rest.split(" ")
        if not name.startswith(f"{group}/") or not all(map(NAME.fullmatch, [name.removeprefix(f"{group}/"), *tags])):
            raise BadRows
        rows.append(Row(name, tags))
    elif not rows or kind != ">" and (kind != "note" or rows[-1].calls):
        raise BadRows
    elif kind == "note":
        rows[-1].notes.append(rest)
    return rest if kind == ">" else None


def read_rows(path):
    """Returns the group and the rows of a file."""
    with open(path, encoding="latin-1", newline="\n") as file:
        text = file.read()
    header, *lines = text.removesuffix("\n").split("\n")
    title, _, group = header.rpartition(" ")
    if title != "dsr-rows 1" or not NAME.fullmatch(group):
        raise SystemExit(f"{path}: line 1 is no header of rows")
    rows, asked = [], None
    for number, line in enumerate(lines, 2):
        try:
            asked = read_line(group, rows, asked, line)
        except BadRows:
            raise SystemExit(f"{path}: line {number} is not in the grammar of rows") from None
    if asked is not None or not all(row.calls for row in rows) or not text.endswith("\n"):
        raise SystemExit(f"{path}: a call has no answer, a row has no call, or the last line is not ended")
    fill_told(os.path.relpath(path), lines, rows)
    return group, rows


def fill_told(path, lines, rows):
    """Gives each row what is told of it if it fails. A rule is a note that begins with `Rule:` and the notes of that row after it; it is about the rows up to
    the next rule."""
    begun = [number for number, line in enumerate(lines, 2) if line.startswith("row ")]
    rule = []
    for row, number in zip(rows, begun):
        stated = next((at for at, note in enumerate(row.notes) if note.startswith("Rule:")), len(row.notes))
        rule = row.notes[stated:] or rule
        row.told = [f"{path}:{number}", *rule, *row.notes[:stated]]


def all_rows(folder):
    """Returns the files of the folder, each as its group and its rows; no two rows have one name."""
    files = [read_rows(os.path.join(folder, name)) for name in sorted(os.listdir(folder)) if name.endswith(".rows")]
    counts = collections.Counter(row.name for _, rows in files for row in rows)
    twice = [name for name, count in counts.items() if count > 1]
    if twice:
        raise SystemExit(f"{folder}: two rows have one name: {', '.join(twice)}")
    return files


# ---- one start of an adapter


def read_to_end(pipe, seconds):
    """Returns what is written to the pipe, and why reading it was given up, or None."""
    written, end = bytearray(), time.monotonic() + seconds
    with selectors.DefaultSelector() as selector:
        selector.register(pipe, selectors.EVENT_READ)
        while selector.select(max(0, end - time.monotonic())):
            found = os.read(pipe.fileno(), 65_536)
            if not found:
                return written, None
            written += found
            if len(written) > MOST_BYTES:
                return written, f"it wrote more than {MOST_BYTES} bytes"
    return written, f"it did not end within {seconds:g} seconds"


def ended(adapter, seconds):
    """Waits for the end of an adapter that writes no more. Returns what is wrong with it, or None."""
    try:
        status = adapter.wait(seconds)
    except subprocess.TimeoutExpired:
        return f"it wrote no more, and did not end within {seconds:g} seconds"
    return f"it ended with status {status}" if status else None


def stop(adapter):
    """Stops an adapter that was not waited for, and what it started itself. Until then no other process can have its number."""
    if adapter.returncode is None:
        os.killpg(adapter.pid, signal.SIGKILL)
        adapter.wait()


def start(command, rows, errors):
    """Starts the adapter, with the calls of these rows as its standard input. What it writes on standard error goes to `errors`."""
    with tempfile.TemporaryFile() as calls:
        calls.write("".join(row.text() for row in rows).encode("latin-1"))
        calls.seek(0)
        try:
            return subprocess.Popen(command, stdin=calls, stdout=subprocess.PIPE, stderr=errors, start_new_session=True)
        except OSError as fault:
            raise SystemExit(f"{shlex.join(command)} does not start: {fault.strerror}") from None


def answers_of(command, rows, seconds, errors=None):
    """Returns the answers of one start of the adapter on these rows, what is wrong with how it ended, or None, and the first line that is neither an answer
    nor copied, or None."""
    adapter = start(command, rows, errors)
    with adapter.stdout as pipe:
        try:
            written, fault = read_to_end(pipe, seconds)
            fault = fault or ended(adapter, seconds)
        finally:
            stop(adapter)
    *lines, rest = written.decode("latin-1").split("\n")
    strange = next((f"`{line[:MOST_SHOWN]}`" for line in lines if line and not line.startswith(("< ", *COPIED))), None)
    if strange is None and rest:
        strange = f"`{rest[:MOST_SHOWN]}` without a line feed at the end"
    return [line[2:] for line in lines if line.startswith("< ")], fault, strange


# ---- what comes of rows


class Outcome:
    """What came of a row: `passed`, `failed` or `skipped`; in words why it failed; and which verbs were skipped."""

    def __init__(self, kind, why="", verbs=()):
        self.kind, self.why, self.verbs = kind, why, verbs


def failed_at(row, place, answered):
    """Returns the outcome of a row that failed at this call: the calls so far, and what was wanted."""
    before = [f"    > {call}" for call, _ in row.calls[:place + 1]]
    return Outcome("failed", "\n".join([*before, f"      wanted    {row.calls[place][1]}", f"      {answered}"]))


def judged(row, answers):
    """Returns the outcome of a row with all its answers: the first that is not as wanted decides."""
    for place, ((_, wanted), answer) in enumerate(zip(row.calls, answers)):
        if answer == "skip":
            return Outcome("skipped", verbs={call.split(" ")[0] for (call, _), other in zip(row.calls, answers) if other == "skip"})
        if answer != wanted:
            return failed_at(row, place, f"answered  {answer}")
    return Outcome("passed")


def lack_of_answer(fault, strange):
    """Returns in words that a call has no answer, by how the adapter ended and what it wrote in place of answers."""
    if strange:
        return f"no line `< ANSWER` for it; the adapter wrote {strange}{f', and {fault}' if fault else ''}"
    return f"no answer: {fault or 'it ended'}"


def alone(command, row, seconds):
    """Returns the outcome of a row that has a start of the adapter for itself."""
    answers, fault, strange = answers_of(command, [row], seconds)
    outcome = judged(row, answers)
    if outcome.kind == "failed" or fault is None and len(answers) == len(row.calls):
        return outcome
    if len(answers) < len(row.calls):
        return failed_at(row, len(answers), lack_of_answer(fault, strange))
    return Outcome("failed", f"      {fault or f'{len(answers)} answers to {len(row.calls)} calls'}")


def outcomes(command, rows, seconds):
    """Yields each row with its outcome."""
    answers, fault, _ = answers_of(command, rows, seconds, subprocess.DEVNULL) if rows else ([], None, None)
    together = fault is None and len(answers) == sum(len(row.calls) for row in rows)
    for row in rows:
        count = len(row.calls)
        yield row, judged(row, answers[:count]) if together else alone(command, row, seconds)
        answers = answers[count:]


def with_known(outcome):
    """Returns what comes of a row that is known to fail."""
    if outcome.kind == "failed":
        return Outcome("passed")
    return Outcome("failed", "      it is known to fail, and passes") if outcome.kind == "passed" else outcome


# ---- the report


class Report:
    """Keeps outcomes by their groups, and tells of each row that failed."""

    def __init__(self):
        self.groups = {}

    def note(self, group, row, outcome):
        self.groups.setdefault(group, []).append((row, outcome))
        if outcome.kind == "failed":
            print("\n".join([f"{row.name}: FAILED", *(f"    {line}" for line in row.told), outcome.why]), flush=True)

    def all(self):
        return [pair for pairs in self.groups.values() for pair in pairs]

    def rules(self):
        """Yields each rule of which a row failed, how many of its rows failed, and how many it has; first those of which the greatest part failed."""
        failed, whole = collections.Counter(), collections.Counter()
        for row, outcome in self.all():
            rules = [tag for tag in row.tags if tag not in KINDS]
            whole.update(rules)
            failed.update(rules if outcome.kind == "failed" else [])
        for rule in sorted(failed, key=lambda rule: (-failed[rule] / whole[rule], rule)):
            yield rule, failed[rule], whole[rule]

    def skipped(self):
        """Returns each verb that was skipped with the count of its rows; first those of most rows."""
        count = collections.Counter(verb for _, outcome in self.all() for verb in outcome.verbs)
        return [f"{verb} {count[verb]}" for verb in sorted(count, key=lambda verb: (-count[verb], verb))]

    def summary(self):
        """Prints a line for each group, one for each rule of which rows failed, one with the verbs that were skipped, and one for all. Returns the count of
        all."""
        total = count_of(self.all())
        width = max(map(len, self.groups), default=0)
        for group, pairs in self.groups.items():
            count = count_of(pairs)
            parts = [f"{count[kind]} {kind}" for kind in ("passed", "failed", "skipped") if count[kind]]
            print(f"{group:{width}}  {', '.join(parts)}")
        for rule, failed, whole in self.rules():
            print(f"rule {rule}: {failed} of {whole} rows failed")
        if self.skipped():
            print(f"verbs that were skipped, each with the count of its rows: {', '.join(self.skipped())}")
        print(f"{total['passed']} passed, {total['failed']} failed, {total['skipped']} skipped")
        return total

    def as_junit(self):
        """Returns the outcomes as JUnit XML: a suite for each group, in it a case for each row."""
        suites = ElementTree.Element("testsuites", attributes_of("dsr-rows", self.all()))
        for group, pairs in self.groups.items():
            suite = ElementTree.SubElement(suites, "testsuite", attributes_of(group, pairs))
            for row, outcome in pairs:
                case = ElementTree.SubElement(suite, "testcase", classname=group, name=row.name)
                if outcome.kind == "failed":
                    why = NO_XML.sub(lambda found: f"\\x{ord(found[0]):02x}", outcome.why)
                    ElementTree.SubElement(case, "failure", message=f"{row.name} failed").text = why
                elif outcome.kind == "skipped":
                    ElementTree.SubElement(case, "skipped")
        ElementTree.indent(suites)
        return ElementTree.tostring(suites, "utf-8", xml_declaration=True) + b"\n"


def count_of(pairs):
    return collections.Counter(outcome.kind for _, outcome in pairs)


def attributes_of(name, pairs):
    """Returns the attributes of a suite with these outcomes."""
    count = count_of(pairs)
    return {"name": name, "tests": str(len(pairs)), "failures": str(count["failed"]), "errors": "0", "skipped": str(count["skipped"])}


def words():
    parser = argparse.ArgumentParser(description=__doc__, formatter_class=argparse.RawDescriptionHelpFormatter)
    parser.add_argument("--group", action="append", metavar="G", help="only rows of this group")
    parser.add_argument("--without", action="append", metavar="TAG", default=[], help="no rows with this tag")
    parser.add_argument("--known", type=argparse.FileType(), metavar="FILE", help="rows that are known to fail")
    parser.add_argument("--rows", metavar="FOLDER", default=os.path.join(HERE, "rows"), help="where the files of rows are")
    parser.add_argument("--seconds", type=float, metavar="N", default=20, help="how long a start of the adapter may take")
    parser.add_argument("--junit", type=argparse.FileType("wb"), metavar="FILE", help="where to write the outcomes as JUnit XML")
    parser.add_argument("--random", type=int, metavar="N", help="rows by chance in place of those in files")
    parser.add_argument("--seed", type=int, metavar="S", default=1, help="which rows by chance")
    parser.add_argument("--answers", metavar="COMMAND", help="whose answers are wanted, in place of those of the rows")
    parser.add_argument("adapter", nargs="+", metavar="ADAPTER")
    return parser.parse_args()


def rows_by_chance(count, seed):
    """Returns files of rows by chance, as many of each group as the count says."""
    program = os.path.join(os.path.dirname(HERE), "tests", "rows_by_chance.py")
    with tempfile.TemporaryDirectory(prefix="dsr-rows-") as folder:
        if subprocess.run([sys.executable, "-B", program, folder, str(seed), str(count)], check=False).returncode != 0:
            raise SystemExit("no rows by chance: they need the folder tests of the repository")
        files = all_rows(folder)
    for _, rows in files:
        for row in rows:
            del row.told[0]
    return files


def with_answers(command, rows, seconds):
    """Returns the rows that the command answers, with its answers in place of theirs."""
    answers, fault, _ = answers_of(shlex.split(command), rows, seconds) if rows else ([], None, None)
    if fault or len(answers) != sum(len(row.calls) for row in rows):
        raise SystemExit(f"{command} answers not all calls: {fault or f'{len(answers)} answers'}")
    found = iter(answers)
    for row in rows:
        row.calls = [(call, next(found)) for call, _ in row.calls]
    return [row for row in rows if "skip" not in [answer for _, answer in row.calls]]


def chosen(asked):
    """Yields the group and the rows of each file that is asked for."""
    for group, rows in asked.files:
        if not asked.group or group in asked.group:
            rows = [row for row in rows if not set(row.tags) & set(asked.without)]
            yield group, with_answers(asked.answers, rows, asked.seconds) if asked.answers else rows


def run(asked, known):
    """Returns the report on all rows that are asked for."""
    report = Report()
    for group, rows in chosen(asked):
        for row, outcome in outcomes(asked.adapter, rows, asked.seconds):
            report.note(group, row, with_known(outcome) if row.name in known else outcome)
    return report


def main():
    asked = words()
    asked.files = rows_by_chance(asked.random, asked.seed) if asked.random else all_rows(asked.rows)
    known = set(asked.known.read().split()) if asked.known else set()
    unheard = known - {row.name for _, rows in asked.files for row in rows} | set(asked.group or []) - {group for group, _ in asked.files}
    if unheard:
        raise SystemExit(f"no row and no group has the name {', '.join(sorted(unheard))}")
    report = run(asked, known)
    if asked.junit:
        asked.junit.write(report.as_junit())
        asked.junit.close()
    total = report.summary()
    return 1 if total["failed"] or not total["passed"] else 0


def main_on_a_pipe():
    """Does what `main` does; but if nobody reads standard output any more, it ends with status 1 and says nothing."""
    try:
        status = main()
        sys.stdout.flush()
        return status
    except BrokenPipeError:
        os.dup2(os.open(os.devnull, os.O_WRONLY), sys.stdout.fileno())
        return 1


if __name__ == "__main__":
    sys.exit(main_on_a_pipe())
