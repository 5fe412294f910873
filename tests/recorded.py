#!/usr/bin/env python3
"""The checker from other languages, by the library for programs in C: tests/recorded.py. The library is built, and a shared object of it, as
examples/record/check.py says; then check.py, the Rust crate examples/record/rust and the Go program examples/record/go are run on what
examples/record/service.py printed, honest and lying, and on texts that are no transcripts. What they must print and end with is written here. A language without
its tools here is skipped, and counted. check.py must also answer many texts in one process alike, in threads.
"""

import os
import shutil
import subprocess
import sys
import tempfile

from kit.archives import archive_of, linked_with
from kit.program import PYTHON, TOP, bytes_of, difference, run
from kit.report import in_threads, main, say

sys.path[:0] = [f"{TOP}/tools", f"{TOP}/examples/record"]

import check  # noqa: E402
import libraries  # noqa: E402

LIBRARY = "dsr_check_c"
SECONDS_OF_BUILDING = 600

# Each text, and what must be printed, and the status.
ROWS = [
    ("an honest service", bytes_of("examples/record/honest.transcript"), b"entries 273\nhistory 5\naccepted 5\n", 0),
    ("a lying service", bytes_of("examples/record/lying.transcript"), b"not a run at line 47\n", 14),
    ("no entries", b"dsr-transcript 1 1 0 1 -\n", b"entries 0\nhistory 0\naccepted 0\n", 0),
    ("nothing", b"", b"bad text in line 1\n", 13),
    ("a line that is not ended", bytes_of("examples/record/honest.transcript")[:-1], b"bad text in line 274\n", 13),
    ("bytes that no text has", b"dsr-transcript 1 1 0 1 -\n\0\xff\n", b"bad text in line 2\n", 13),
    ("a shape outside the limits", b"dsr-transcript 1 2 1 1 -\n", b"the shape is not allowed\n", 1),
]


def fault_of_library(room):
    """What is wrong with building the library and its shared object in this folder, or None."""
    archive, fault = archive_of(LIBRARY)
    if fault:
        return fault
    # Programs in Rust and in Go look for it here.
    shutil.copy(archive, room)
    words = ["cc", "-shared", "-o", f"{room}/libdsr_check.so", "-Wl,-u,dsr_check_text", *linked_with(archive)]
    made = subprocess.run(words, capture_output=True, text=True)
    return None if made.returncode == 0 else f"the shared object is not built: {made.stderr}"


def judge_rows(report, language, fault, command):
    for what, text, output, status in ROWS:
        report.judge(f"{language}, {what}", fault or difference(run(command, text), (status, output, b"")))


def judge_threads(report, fault, room):
    """The module's function in several threads at once, each on another text."""
    texts = [text for _, text, *_ in ROWS] * 20
    if not fault:
        checker = check.Checker(f"{room}/libdsr_check.so")
        found = [f"{it}\n".encode() for it in in_threads(checker.check, texts)]
        fault = None if found == [output for _, _, output, _ in ROWS] * 20 else f"{found}"
    report.judge("Python, in threads", fault)


def cargo(room):
    """What is wrong with building the Rust crate in this folder, or None."""
    words = ["cargo", "build", "--offline", "--quiet", "--locked", "--target-dir", f"{room}/target", "--manifest-path",
        f"{TOP}/examples/record/rust/Cargo.toml"]
    folders = {"DSR_CHECK_LIBRARIES": f"{room}:{libraries.toolchain().KIT}/c", "RUSTFLAGS": "-D warnings"}
    made = subprocess.run(words, capture_output=True, text=True, timeout=SECONDS_OF_BUILDING, env={**os.environ, **folders})
    return None if made.returncode == 0 else f"the crate is not built: {made.stderr}"


def go(room):
    """What is wrong with building the Go program in this folder, or None."""
    words = ["go", "build", "-buildvcs=false", "-o", f"{room}/check-record-go", "."]
    settings = {"CGO_ENABLED": "1", "CGO_LDFLAGS": f"-L{room} -L{libraries.toolchain().KIT}/c", "CC": "cc", "GOCACHE": f"{room}/go-cache", "GOFLAGS": "", "GOPROXY": "off"}
    made = subprocess.run(words, cwd=f"{TOP}/examples/record/go", capture_output=True, text=True, timeout=SECONDS_OF_BUILDING, env={**os.environ, **settings})
    return None if made.returncode == 0 else f"the program is not built: {made.stderr}"


def judge_built(report, language, tool, build, fault, room, program):
    """The rows by a program that this tool builds, if it is here."""
    if shutil.which(tool):
        judge_rows(report, language, fault or build(room), [f"{room}/{program}"])
    else:
        say(f"{language}: skipped, since there is no {tool}")
        report.add(0, 0, len(ROWS))


def languages(report, _):
    with tempfile.TemporaryDirectory(prefix="dsr-recorded-") as room:
        fault = fault_of_library(room)
        judge_rows(report, "Python", fault, [*PYTHON, f"{TOP}/examples/record/check.py", f"{room}/libdsr_check.so"])
        judge_threads(report, fault, room)
        judge_built(report, "Rust", "cargo", cargo, fault, room, "target/debug/check-record")
        judge_built(report, "Go", "go", go, fault, room, "check-record-go")


if __name__ == "__main__":
    PARTS = {"languages": languages}
    sys.exit(main(__doc__, PARTS, without_program=PARTS))
