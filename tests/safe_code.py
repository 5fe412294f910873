#!/usr/bin/env python3
"""No unsafe code: tests/safe_code.py, with no arguments.

What is proved of a key, or of any type with a private field, holds only if no code goes behind the compiler's back. So no
file in Rattle (each *.rt and *.rs of crates/, tests/ and bench/) may have the word `unsafe` or `extern` anywhere, not even in
a comment. The exceptions are the two static libraries, the checker for programs in C and the tasks for the page: each has to give the name of its
one function. Of each file in ALLOWED the two lines are there once each, one right after the other. They let nobody call anything else, and no pointer is
in those functions' hands.
"""

import os
import re
import sys

from kit.program import TOP, name_of, text_of
from kit.report import main, say

FOLDERS = ["crates", "tests", "bench"]
REFUSED = re.compile(r"\b(unsafe|extern)\b")
# How each static library names its one function, and where.
ALLOWED = {
    "crates/dsr_check_c/src/lib.rt": ["#[unsafe(no_mangle)]", 'pub extern "C" fn dsr_check_text(alloc: Global, text: &[u8], report: &mut Report)'],
    "crates/dsr_page/src/lib.rt": ["#[unsafe(no_mangle)]", 'pub extern "C" fn dsr_page_run('],
}


def sources():
    """The files in Rattle, but for what rt made."""
    for folder in FOLDERS:
        for at, folders, files in os.walk(f"{TOP}/{folder}"):
            folders[:] = sorted(name for name in folders if name != "out")
            yield from (f"{at}/{name}" for name in sorted(files) if name.endswith((".rt", ".rs")))


def refused_in(path, lines):
    """The lines of the file, counted from 1, that have either word and may not."""
    refused = [at for at, line in enumerate(lines, 1) if REFUSED.search(line)]
    if len(refused) != 2 or refused[1] != refused[0] + 1:
        return refused
    return [] if [lines[at - 1].strip() for at in refused] == ALLOWED.get(name_of(path)) else refused


def words(report, _):
    paths, count = list(sources()), 0
    for path in paths:
        lines = text_of(path).splitlines()
        for at in refused_in(path, lines):
            count += 1
            say(f"{name_of(path)}:{at}: {lines[at - 1].strip()}")
    fault = None if paths and not count else f"{count} lines have either word and may not"
    report.judge(f"{len(paths)} files in Rattle", fault, ", none has either word but where it may")


if __name__ == "__main__":
    sys.exit(main(__doc__, {"words": words}, without_program=["words"]))
