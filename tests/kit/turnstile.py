"""Services whose hosts make their tries in the order of a schedule, one at a time, each when it is told to here: by `dsr_own_service in-turn`. A host that waits
for its turn waits at the gate, and says so. One that sleeps at a box is seen to sleep, by /proc: nobody else runs then. So there is no luck in it: what is asked
of a service is known to be over before more is asked. A sleep that ends early, which its contract allows, counts as a fault here."""

import mmap
import os
import re
import select
import struct
import subprocess
import tempfile
import time
from collections import deque

from kit.program import TOP

SERVICE = f"{TOP}/crates/dsr_own_service/out/dsr_own_service"
TRANSCRIPT = b"dsr-transcript "
# The line of an actor that comes to the gate.
ASK = re.compile(rb"([rc][0-9]+) ([0-9]+)")
# Within which a host must come where it is expected, and the service must end.
SECONDS = 10
# How many nanoseconds of a processor show that a thread goes on and on: a host that was refused tells the others in some thousandths of that.
GOES_ON = 3_000_000
# How long is waited between two looks at threads.
PAUSE = 0.0002


class Left(Exception):
    """The service is not where it should be; says how."""


def content(path):
    try:
        with open(path, "rb") as file:
            return file.read()
    except (FileNotFoundError, ProcessLookupError):
        return b""


class Threads:
    """The threads of a process, as /proc shows them."""

    def __init__(self, process):
        self.folder = f"/proc/{process}/task"

    def all(self):
        try:
            return os.listdir(self.folder)
        except FileNotFoundError:
            return []

    def states(self):
        """Of each the letter of its state, `S` if it sleeps, and how often it has had a processor."""
        found = {}
        for thread in self.all():
            state, had = content(f"{self.folder}/{thread}/stat").rpartition(b") ")[2][:1], content(f"{self.folder}/{thread}/schedstat").split()
            if state and len(had) == 3:
                found[thread] = state.decode(), int(had[2])
        return found

    def times(self):
        """How many nanoseconds of a processor each has had."""
        found = [(thread, content(f"{self.folder}/{thread}/schedstat").split(b" ")[0]) for thread in self.all()]
        return {thread: int(spent) for thread, spent in found if spent}


class Turnstile:
    """A service of the program, by a schedule: its turns in their order, as words."""

    def __init__(self, script, turns, shim):
        """`shim` is the library of tests/yields.c."""
        with tempfile.TemporaryFile() as file:
            file.write(bytes(8))
            file.flush()
            self.counted = mmap.mmap(file.fileno(), 8)
            env = {**os.environ, "LD_PRELOAD": shim, "YIELDS_NOTE": f"/proc/self/fd/{file.fileno()}"}
            streams = dict.fromkeys(["stdin", "stdout", "stderr"], subprocess.PIPE)
            command = [SERVICE, "in-turn", script, *turns]
            self.process = subprocess.Popen(command, env=env, bufsize=0, pass_fds=[file.fileno()], **streams)
        self.threads, self.output = Threads(self.process.pid), self.process.stdout.fileno()
        # The clock of the time that the process has had of processors, as Linux numbers it.
        self.clock = ~self.process.pid << 3 | 2
        os.set_blocking(self.output, False)
        # Asks that were heard and not looked at yet, and the bytes of a line that has not ended, or of the transcript.
        self.asked, self.rest, self.has_ended = deque(), b"", False

    def __enter__(self):
        return self

    def __exit__(self, *_):
        self.process.kill()
        self.process.wait()
        self.counted.close()
        for stream in (self.process.stdin, self.process.stdout, self.process.stderr):
            stream.close()

    def step(self):
        """Has the next turn begin."""
        try:
            os.write(self.process.stdin.fileno(), b".")
        except BrokenPipeError:
            raise Left("the service has ended") from None

    def yields(self):
        """How often the service's threads have let others run."""
        return struct.unpack("=Q", self.counted[:])[0]

    def spent(self):
        """How many seconds of a processor the service has had."""
        return time.clock_gettime(self.clock)

    def hear(self, seconds):
        """Reads what the service has written, and waits for it at most so long. Returns whether there was something."""
        if self.has_ended or not select.select([self.output], [], [], seconds)[0]:
            return False
        read = os.read(self.output, 1 << 16)
        self.has_ended = not read
        self.rest += read
        while b"\n" in self.rest and not self.rest.startswith(TRANSCRIPT):
            line, _, self.rest = self.rest.partition(b"\n")
            found = ASK.fullmatch(line)
            if not found:
                raise Left(f"it wrote {line[:200]!r}")
            self.asked.append((found[1].decode(), int(found[2])))
        return True

    def next_ask(self):
        """The next actor that asks, and with which turn."""
        end = time.monotonic() + SECONDS
        while not self.asked:
            left = end - time.monotonic()
            if left <= 0 or self.has_ended:
                raise Left("the service has ended" if self.has_ended else f"nobody asked within {SECONDS} seconds")
            self.hear(left)
        return self.asked.popleft()

    def need_no_ask(self):
        """Nobody may have asked."""
        self.hear(0)
        if self.asked:
            actor, turn = self.asked[0]
            raise Left(f"{actor} asked with turn {turn}, which was not expected")

    def rest_with(self, count, is_over):
        """Waits until there are so many threads of hosts, and it is over with what they do, as this tells by two looks at them, one after the other."""
        end, before = time.monotonic() + SECONDS, None
        while True:
            states = self.threads.states()
            is_at_rest = len(states) == count + 1 and is_over(before, states)
            self.need_no_ask()
            if is_at_rest:
                return
            if time.monotonic() > end:
                letters = " ".join(state for state, _ in states.values())
                raise Left(f"after {SECONDS} seconds the states of the threads are {letters}, and {count} hosts were to be left")
            before = states
            time.sleep(PAUSE)

    def sleeps_with(self, count):
        """Waits until there are so many threads of hosts, and all of them sleep, as does the one that waits for them, and none has run in between."""
        self.rest_with(count, lambda before, states: before == states and all(state == "S" for state, _ in states.values()))

    def ends_with(self, count):
        """Waits until there are so many threads of hosts."""
        self.rest_with(count, lambda before, states: True)

    def goes_on_with(self, count):
        """Waits until there are so many threads of hosts, and one of them goes on and on."""
        times = self.threads.times()
        self.rest_with(count, lambda before, states: self.has_run_on(times))

    def has_run_on(self, before):
        """Whether a thread has had much of a processor since."""
        return any(spent - before.get(thread, spent) > GOES_ON for thread, spent in self.threads.times().items())

    def ended(self):
        """Waits until the program has ended. Returns its status, the transcript and what it said."""
        end = time.monotonic() + SECONDS
        while not self.has_ended:
            if time.monotonic() > end:
                raise Left(f"the service has not ended within {SECONDS} seconds")
            self.hear(0.1)
        self.need_no_ask()
        try:
            status = self.process.wait(SECONDS)
        except subprocess.TimeoutExpired:
            raise Left(f"the service has not ended within {SECONDS} seconds") from None
        return status, self.rest, self.process.stderr.read()
