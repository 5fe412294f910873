#!/usr/bin/env python3
"""The whole of what ./test samples of faults: tests/soak.py, with no arguments, or with the names of some of its parts. It needs what `rt ci` built.

Runs one after the other, each on all processors, and each with all of what it leaves out otherwise:

- allocations of tests/faults.py: each allocation of every word of the program on each example refused in turn;
- malicious of tests/texts.py: each text of the examples cut at every byte, with each byte changed, and with 10,000 changes by chance for each word;
- streams of tests/faults.py: each read and each write that fails, in each way;
- services of tests/threads.py: a thousand services in threads, with traitors, gates that stop them, and threads and allocations that are refused;
- load of tests/cost.py: memory of 20,000 rounds, and services of 16 replicas and 32 clients of 100 operations;
- transcripts of tests/texts.py: each transcript of the examples with twice as many changes;
- native of tests/page.py: the tasks of the page by its static library in a program of C;
- large_transcripts, which is transcripts of tests/cost.py, and plays of tests/texts.py: texts at the limits of sizes, which ./test runs as they are.

An hour of random tries of the mail is another command, tests/threads.py mail soak. Everything that runs is shown, and after each part how long it took, and
its counts.
"""

import sys
import time

import cost
import faults
import page
import texts
import threads
from kit.report import main, say

PARTS = {"allocations": faults.allocations, "malicious": texts.malicious, "streams": faults.streams, "services": threads.services, "load": cost.load, "native": page.native,
         "large_transcripts": cost.transcripts, "plays": texts.plays, "transcripts": texts.transcripts}


def timed(name, part):
    """The part with all of what it leaves out otherwise, and with what it tells of itself at its end."""
    def run(report, _):
        begun, passed, failed = time.monotonic(), report.passed, report.failed
        say(f"== {name}")
        part(report, True)
        say(f"-- {name}: {(time.monotonic() - begun) / 60:.1f} minutes, {report.passed - passed} passed, {report.failed - failed} failed")

    return run


if __name__ == "__main__":
    sys.exit(main(__doc__, {name: timed(name, part) for name, part in PARTS.items()}))
