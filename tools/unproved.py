#!/usr/bin/env python3
"""Runs the program of these sources without proofs, for ./dsr: tools/unproved.py WORDS < INPUT.

`rt try` compiles the sources with run-time checks and runs them; nothing is proved. What the program writes goes to standard output and
standard error, as if the built program had run, and the exit status is its own. What `rt try` says itself is left out, unless the
program did not run to its end: then all of it is shown, and the status is 70. One line on standard error before the run and one after
it tell that the run is unproved, and what proves and builds the program.
"""

import os
import re
import subprocess
import sys
import tempfile

TOP = os.path.dirname(os.path.dirname(os.path.realpath(__file__)))
FOLDER = f"{TOP}/crates/dsr"
# The words after which the program reads its standard input.
TASKS = ("apply", "play", "explain", "serve", "check")
# The lines that `rt try` adds after what the program wrote on standard error, and the last of them if the program ended by itself.
OWN_LINE = re.compile(rb"(checked|interpreted|races|run|rt)[:=]")
ENDED = re.compile(rb"run=ended status=(\d+)\b")
NOT_RUN = 70


def say(text):
    print(f"dsr: {text}", file=sys.stderr, flush=True)


def write_input(file, words):
    """Copies standard input to the file. `rt try` would stop reading a pipe that is silent for two seconds. At a terminal nothing is
    read unless the program would read it."""
    if not sys.stdin.isatty() or set(words) & set(TASKS):
        file.write(sys.stdin.buffer.read())
        file.seek(0)


def parted(said):
    """What the program wrote on standard error, and the lines that `rt try` added."""
    lines = said.splitlines(keepends=True)
    end = len(lines)
    while end and OWN_LINE.match(lines[end - 1]):
        end -= 1
    return b"".join(lines[:end]), b"".join(lines[end:])


def run_unproved(words):
    """Runs the program with these words, and gives its status, or NOT_RUN if it did not run to its end."""
    with tempfile.TemporaryFile() as given:
        write_input(given, words)
        try:
            run = subprocess.run(["rt", "try", "--", *words], cwd=FOLDER, stdin=given, stdout=subprocess.PIPE, stderr=subprocess.PIPE)
        except FileNotFoundError:
            say("the toolchain's command rt is not on the path")
            return NOT_RUN
    errors, added = parted(run.stderr)
    ended = ENDED.search(added)
    if ended is None:
        sys.stderr.buffer.write(run.stderr)
        say("the program did not run to its end; without proofs it has 60 seconds, and writes at most 1 MiB")
        return NOT_RUN
    sys.stdout.buffer.write(run.stdout)
    sys.stdout.buffer.flush()
    sys.stderr.buffer.write(errors)
    return int(ended[1])


def main(words):
    say("not built yet, so these sources are compiled and run WITHOUT PROOFS; that takes about a minute")
    try:
        status = run_unproved(words)
    except BrokenPipeError:
        # Whoever read the output has enough of it.
        os.dup2(os.open(os.devnull, os.O_WRONLY), sys.stdout.fileno())
        status = 0
    say("this run was unproved; `tools/build` proves the program and builds it, and so does `./test`")
    return status


if __name__ == "__main__":
    sys.exit(main(sys.argv[1:]))
