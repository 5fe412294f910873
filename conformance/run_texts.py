#!/usr/bin/env python3
"""Runs a program on whole texts: run_texts.py KIND [--text NAME ..] [--seconds N] [--junit FILE] -- COMMAND ..

COMMAND is started once for each text, which it reads on standard input. By KIND:

    check       the text is a transcript: it writes the report of the run
    play        the text is a play: it writes what comes of it
    transcript  the text is a play: it writes the transcript
    events      the text is a play: it writes what each event is, and what comes of it

texts/manifest.json names the texts, and beside each the file with what is to be written, to the byte; the status must be 0. If the manifest says instead that the
text is refused, the status must not be 0, and the last line on standard error must end with what the manifest says, as `not a run at line 47`; what is on
standard output does not count then. Of events the lines of other kinds are left out before they are compared, and of a line `no-vote` the words from the fourth on.

`--text` takes only the texts of this name, `--seconds` is how long a start may take, 20 if it is left out, and FILE of `--junit` gets the outcomes as JUnit
XML. The last line is `N passed, M failed, K skipped`; the status is 0 if no text failed and some passed.
"""

import argparse
import itertools
import json
import os
import shlex
import subprocess
import sys
import tempfile

import run as rows

HERE = os.path.dirname(os.path.realpath(__file__))
TOP = os.path.dirname(HERE)
# Of each kind the list of the manifest, and the entries that name the text and what is to be written.
KINDS = {
    "check": ("transcripts", "transcript", "report"), "play": ("plays", "play", "report"), "transcript": ("plays", "play", "transcript"),
    "events": ("plays", "play", "events"),
}
# The lines of events that are compared, by their first words.
NOTES = (b"dsr-explain", b"event", b"chain", b"close", b"decide", b"act", b"stale", b"vote", b"no-vote", b"accept", b"waits")
WORDS_OF_NO_VOTE, LINE_FEED = 3, b"\n"


class Text:
    """A text: its name, its path, and what is to be written, or why it is refused."""

    # As of a row; a text has no rule, and its name says where it is.
    tags = told = ()

    def __init__(self, kind, entry):
        _, given, written = KINDS[kind]
        self.name, self.kind, self.path, self.refused = f"{kind}/{entry['name']}", kind, os.path.join(TOP, entry[given]), entry.get("refused")
        self.wanted = b"" if self.refused else bytes_of(os.path.join(TOP, entry[written]))


def bytes_of(path):
    with open(path, "rb") as file:
        return file.read()


def texts_of(kind, names):
    """Returns the texts of this kind, or those of them that have these names."""
    found = json.loads(bytes_of(os.path.join(HERE, "texts", "manifest.json")))[KINDS[kind][0]]
    unheard = set(names) - {entry["name"] for entry in found}
    if unheard:
        raise SystemExit(f"no text of this kind has the name {', '.join(sorted(unheard))}")
    return [Text(kind, entry) for entry in found if not names or entry["name"] in names]


def compared(kind, written):
    """Returns the lines that are compared of what is written."""
    lines = written.split(LINE_FEED)
    if kind != "events":
        return lines
    words = (line.split(b" ") for line in lines)
    return [b" ".join(line[:WORDS_OF_NO_VOTE] if line[0] == b"no-vote" else line) for line in words if line[0] in (*NOTES, b"")]


def started(command, path, errors):
    """Starts the command with the text of this path as its standard input."""
    with open(path, "rb") as text:
        try:
            return subprocess.Popen(command, stdin=text, stdout=subprocess.PIPE, stderr=errors, start_new_session=True)
        except OSError as fault:
            raise SystemExit(f"{shlex.join(command)} does not start: {fault.strerror}") from None


def run_of(command, path, seconds):
    """Returns what a start of the command wrote on its two streams, its status, and why it was given up, or None."""
    with tempfile.TemporaryFile() as errors:
        child, status = started(command, path, errors), None
        try:
            with child.stdout as pipe:
                written, fault = rows.read_to_end(pipe, seconds)
            if fault is None:
                status = child.wait(seconds)
        except subprocess.TimeoutExpired:
            fault = f"it wrote no more, and did not end within {seconds:g} seconds"
        finally:
            rows.stop(child)
        errors.seek(0)
        return bytes(written), errors.read(rows.MOST_BYTES), status, fault


def shown(line):
    return line[:300].decode("latin-1") if line else "nothing"


def fault_of_refusal(text, written, errors, status):
    """Returns what is wrong with how a text was refused that is to be, or None."""
    last = (errors.decode("latin-1").splitlines() or [""])[-1]
    if status == 0:
        return f"wanted   a refusal: {text.refused}\n      written  {shown(written.split(LINE_FEED)[0])}"
    return None if last.endswith(text.refused) else f"wanted             {text.refused}\n      on standard error  {last}"


def fault_of_output(text, written, errors, status):
    """Returns the first line in which what was written differs from what is wanted, or what is wrong with the status, or None."""
    if status != 0:
        return f"it ended with status {status}, and {errors[-300:].decode('latin-1')}"
    pairs = itertools.zip_longest(compared(text.kind, text.wanted), compared(text.kind, written))
    for number, (wanted, found) in enumerate(pairs, 1):
        if wanted != found:
            return f"in line {number}\n      wanted   {shown(wanted)}\n      written  {shown(found)}"
    return None


def outcome_of(command, text, seconds):
    written, errors, status, fault = run_of(command, text.path, seconds)
    fault = fault or (fault_of_refusal if text.refused else fault_of_output)(text, written, errors, status)
    return rows.Outcome("failed", f"      {fault}") if fault else rows.Outcome("passed")


def words():
    parser = argparse.ArgumentParser(description=__doc__, formatter_class=argparse.RawDescriptionHelpFormatter)
    parser.add_argument("kind", choices=KINDS, metavar="KIND", help="check, play, transcript or events")
    parser.add_argument("--text", action="append", metavar="NAME", default=[], help="only the text of this name")
    parser.add_argument("--seconds", type=float, metavar="N", default=20, help="how long a start may take")
    parser.add_argument("--junit", type=argparse.FileType("wb"), metavar="FILE", help="where to write the outcomes as JUnit XML")
    parser.add_argument("command", nargs="+", metavar="COMMAND")
    return parser.parse_args()


def main():
    asked, report = words(), rows.Report()
    for text in texts_of(asked.kind, asked.text):
        report.note(asked.kind, text, outcome_of(asked.command, text, asked.seconds))
    if asked.junit:
        asked.junit.write(report.as_junit())
        asked.junit.close()
    total = report.summary()
    return 1 if total["failed"] or not total["passed"] else 0


if __name__ == "__main__":
    sys.exit(main())
