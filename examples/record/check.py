#!/usr/bin/env python3
"""Checks the transcript on standard input, by the library for programs in C. Also a module: `Checker(PATH).check(TEXT)`. From the top of the repository:

    (cd crates/dsr_check_c && rt lib)
    cc -shared -o libdsr_check.so -Wl,-u,dsr_check_text crates/dsr_check_c/out/libdsr_check_c.a "$(dirname "$(rt doc)")/c/liblibc_c.a"
    python3 examples/record/check.py ./libdsr_check.so < TRANSCRIPT

It prints what was found, and ends with its number: 0 for a run.
"""

import ctypes
import sys

RUN, BAD_SHAPE, NO_MEMORY, BAD_TEXT, NOT_A_RUN = 0, 1, 12, 13, 14


class Report(ctypes.Structure):
    """What a text was found to be: `struct dsr_report` of include/dsr_check.h, which says what each field means."""

    _fields_ = [(name, ctypes.c_uint64) for name in ("status", "line", "entries", "history", "accepted")]

    def __str__(self):
        return {
            RUN: f"entries {self.entries}\nhistory {self.history}\naccepted {self.accepted}",
            BAD_SHAPE: "the shape is not allowed",
            BAD_TEXT: f"bad text in line {self.line}",
            NOT_A_RUN: f"not a run at line {self.line}",
        }.get(self.status, "no memory")


class Checker:
    """The library, as a shared object at this path."""

    def __init__(self, path):
        self.call = ctypes.CDLL(path).dsr_check_text
        self.call.argtypes, self.call.restype = [ctypes.c_char_p, ctypes.c_size_t, ctypes.POINTER(Report)], None

    def check(self, text):
        """Returns the report on a text, which is bytes. Python's other threads run on meanwhile."""
        report = Report()
        self.call(text, len(text), report)
        return report


def main(words):
    if len(words) != 1:
        print(__doc__, file=sys.stderr)
        return 2
    report = Checker(words[0]).check(sys.stdin.buffer.read())
    print(report)
    return report.status


if __name__ == "__main__":
    sys.exit(main(sys.argv[1:]))
