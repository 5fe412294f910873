"""Programs of which something is refused: allocations, threads, reads or writes; or whose calls are counted or take longer. The C files of tests/ are preloaded
to do that."""

import itertools
import os
import subprocess
import tempfile

from kit.program import SECONDS, TOP, run

MOST_RUNS = 20_000


class Shim:
    """A C file of tests/, built in a temporary folder, and the runs of programs into which it is preloaded. Threads may run them at once."""

    def __init__(self, name, prefix):
        self.name, self.prefix, self.runs = name, prefix, itertools.count()

    def __enter__(self):
        self.room = tempfile.TemporaryDirectory(prefix=f"dsr-{self.name}-")
        self.library = f"{self.room.name}/shim.so"
        words = ["-Wall", "-Wextra", "-Werror", "-shared", "-fPIC", "-O1", "-o", self.library]
        subprocess.run(["cc", *words, f"{TOP}/tests/{self.name}.c", "-ldl"], check=True)
        return self

    def __exit__(self, *_):
        self.room.cleanup()

    def run(self, command, text=b"", seconds=SECONDS, env=os.environ, stdin=None, **named):
        """The run of a command on this text, and what the shim noted; None if it noted nothing. The named values go to the shim: tests/NAME.c says
        what they mean."""
        note = f"{self.room.name}/note{next(self.runs)}"
        values = {f"{self.prefix}_{name.upper()}": str(value) for name, value in named.items() if value is not None}
        env = {**env, "LD_PRELOAD": self.library, f"{self.prefix}_NOTE": note, **values}
        ran = run(command, text, seconds, env=env, **({} if stdin is None else {"stdin": stdin}))
        if not os.path.exists(note):
            return ran, None
        with open(note, "rb") as file:
            noted = file.read()
        os.remove(note)
        return ran, noted


def refusing():
    """The shim that refuses allocations or threads. It notes that it did."""
    return Shim("refuse", "REFUSE")


def failing():
    """The shim that lets reads or writes fail. It notes a byte for each call from the first that failed on."""
    return Shim("streams", "FAIL")


def counting():
    """The shim that refuses nothing, and counts allocations, reallocations, the bytes of these, and the most bytes held at once."""
    return Shim("count", "COUNT")


def yielding():
    """The shim that refuses nothing, and counts how often a program lets other threads run, but goes on at once: eight bytes, the least first."""
    return Shim("yields", "YIELDS")


def resting():
    """The shim that refuses nothing, and has each thread that has woken another rest a while. It notes how many were woken: eight bytes, the least first."""
    return Shim("wakes", "WAKES")


def numbers(first=0, steps=None, shift=0):
    """The numbers of the calls that are refused, in turn: each of the first ones, and then some, with wider and wider steps if `steps` says so."""
    nth = 1
    while nth < MOST_RUNS:
        yield nth
        nth += 1 if steps is None or nth < first else 1 + (nth + shift) // steps
