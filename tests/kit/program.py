"""The built program, how tests run it, and what they say of its runs. A run is a status, a standard output and a standard error."""

import glob
import os
import subprocess
import sys
import tempfile

TOP = os.path.dirname(os.path.dirname(os.path.dirname(os.path.realpath(__file__))))
PROGRAM = f"{TOP}/crates/dsr/out/dsr"
BUILDING = "./test proves and builds it, and if it is the program dsr, so does tools/build"
# What a script runs as ./dsr is the built program, and never the sources without proofs.
os.environ["DSR_UNPROVED"] = "no"
# ./dsr runs the program in this environment too: with large pages of memory, if the system has them.
LARGE_PAGES = {"GLIBC_TUNABLES": "glibc.malloc.hugetlb=1", **os.environ}
# How a script starts a program of Python's that needs the standard library alone: many run for less time than it takes to look for other packages.
PYTHON = [sys.executable, "-B", "-S"]
MOST_BYTES = 16_777_216
MOST_EVENTS = 1_000_000
SECONDS = 120


def sources():
    """What ./dsr looks at to see if the program is older: the crates' sources, and the folders that these are in, whose times change if one comes or goes."""
    yield f"{TOP}/crates.txt"
    for kind in ("src", "specs", "proofs"):
        for top in glob.iglob(f"{TOP}/crates/*/{kind}"):
            for folder, _, names in os.walk(top):
                yield folder
                yield from (f"{folder}/{name}" for name in names)


def fault_of_building(name="dsr"):
    """Says that the program of this crate is not built, or is older than a source; or None. Nothing is built here."""
    built = f"{TOP}/crates/{name}/out/{name}"
    if not os.path.exists(built):
        return f"{name_of(built)} is not built: {BUILDING}"
    newer = next((path for path in sources() if os.path.getmtime(path) > os.path.getmtime(built)), None)
    return f"{name_of(built)} is older than {name_of(newer)}: {BUILDING}" if newer else None


def bytes_of(path, otherwise=b""):
    """The bytes of a file, whose path may begin at the top of the repository; or these if there is no such file."""
    if not os.path.exists(os.path.join(TOP, path)):
        return otherwise
    with open(os.path.join(TOP, path), "rb") as file:
        return file.read()


def text_of(path):
    """The text of a file, whose path may begin at the top of the repository."""
    with open(os.path.join(TOP, path), encoding="utf-8") as file:
        return file.read()


def write_bytes(path, written):
    """Makes these bytes the content of a file, whose path may begin at the top of the repository."""
    with open(os.path.join(TOP, path), "wb") as file:
        file.write(written)


def name_of(path):
    """The path from the top of the repository."""
    return os.path.relpath(path, TOP)


def run(command, text=b"", seconds=SECONDS, **more):
    """The run of a command on this text. A stream that the caller passes on is not seen, and is None."""
    streams = {"stdout": subprocess.PIPE, "stderr": subprocess.PIPE, **more}
    if "stdin" not in streams:
        streams["input"] = text
    try:
        ran = subprocess.run(command, timeout=seconds, **streams)
    except subprocess.TimeoutExpired:
        return f"none within {seconds} seconds", b"", b""
    return ran.returncode, ran.stdout, ran.stderr


def command_of(words):
    """The command of the program with these words, which are a list, or one text if each is free of spaces."""
    return [PROGRAM, *(words.split() if isinstance(words, str) else words)]


def program(words, text=b"", seconds=SECONDS, **more):
    """The run of the program with these words on this text."""
    return run(command_of(words), text, seconds, **more)


def shown(ran):
    """A run in short."""
    status, output, errors = ran
    return f"status {status}, output {output and output[:200]!r}, errors {errors and errors[:200]!r}"


def difference(ran, wanted):
    """How a run differs from the one that is wanted, or None."""
    return None if ran == wanted else f"{shown(ran)}, and not {shown(wanted)}"


def fault_of(words, text, wanted, seconds=SECONDS):
    """How the program's run on this text differs from the one that is wanted, or None."""
    return difference(program(words, text, seconds), wanted)


def with_memory(limit, command):
    """The command with at most so many bytes of memory."""
    return ["sh", "-c", 'ulimit -v "$0"; exec "$@"', str(limit // 1024), *command]


def least_time(words, text, runs, begins=b""):
    """The least seconds of a processor that the program takes for this text; None if a run fails, or writes what does not begin so."""
    times = []
    for _ in range(runs):
        with tempfile.TemporaryFile() as given, tempfile.TemporaryFile() as written:
            given.write(text)
            given.seek(0)
            # The time of `timeout` is that of the program too.
            child = subprocess.Popen(["timeout", str(SECONDS), *command_of(words)], stdin=given, stdout=written, env=LARGE_PAGES)
            _, status, used = os.wait4(child.pid, 0)
            child.returncode = os.waitstatus_to_exitcode(status)
            written.seek(0)
            if child.returncode != 0 or written.read(len(begins)) != begins:
                return None
            times.append(used.ru_utime + used.ru_stime)
    return min(times)
