"""Proves and builds libraries of this repository side by side, for the scripts in tests/ that need them.

No command of rt's does that: `rt run` builds the libraries below a program one after the other, `rt all check` gives each crate
one processor, and a second `rt lib` waits for the first, as both stand on the same libraries. So this loads the module in which
rt keeps its commands, and makes the calls that those commands make. Each library is left as `rt run` leaves it: with its proofs, over
the work that earlier checks kept, and with the stamp that tells what was proved. `rt must-fail` goes by that stamp, and builds a
library again if it does not fit.

Nothing here decides what is proved. A toolchain of another make may lack that module, or have other calls in it. Then OtherToolchain
is raised, and the caller uses rt's own commands.
"""

import contextlib
import importlib.machinery
import importlib.util
import inspect
import os
import re
import shutil
import signal
import subprocess
import sys
import tempfile
import threading
from concurrent.futures import FIRST_COMPLETED, ThreadPoolExecutor, wait

# What is called of the module, and of each of its crates.
CALLS = ("KIT", "RATTLE", "crates_below", "files_of", "guarded", "lock", "stop_on_links")
CRATE_CALLS = ("below", "build_rlib", "call", "is_built", "makes_rlib", "stamp", "words")
# A check takes at most 3 GB.
MEMORY_OF_A_CHECK = 3_000_000_000
MOST_JOBS = 4


class OtherToolchain(Exception):
    """The toolchain's module is not there, or not as it is used here."""


class NotBuilt(Exception):
    """A library is not proved: its name, and what the toolchain said."""

    def __init__(self, name, said):
        super().__init__(name)
        self.name, self.said = name, said


def toolchain():
    """The module in which rt keeps its commands."""
    command = shutil.which("rt")
    if not command:
        raise OtherToolchain("there is no command rt")
    path = os.path.join(os.path.dirname(os.path.realpath(command)), "rtlib.py")
    sys.dont_write_bytecode = True
    loader = importlib.machinery.SourceFileLoader("rtlib", path)
    module = importlib.util.module_from_spec(importlib.util.spec_from_loader("rtlib", loader))
    sys.modules["rtlib"] = module
    try:
        loader.exec_module(module)
    except (OSError, SyntaxError, ImportError) as error:
        raise OtherToolchain(str(error)) from error
    lacking = [name for name in CALLS if not hasattr(module, name)]
    lacking += [name for name in CRATE_CALLS if not hasattr(getattr(module, "Crate", None), name)]
    if lacking:
        raise OtherToolchain(f"rtlib.py has no {', '.join(lacking)}")
    module.Crate.stamp = each_once(module.Crate.stamp)
    return module


def each_once(walk):
    """rt's stamp of a crate, for which each crate below is gone through once, and not once for each way to it: of those there are very many."""
    seen = threading.local()

    def stamp(crate):
        outermost = not hasattr(seen, "stamps")
        if outermost:
            seen.stamps = {}
        try:
            if crate.folder not in seen.stamps:
                seen.stamps[crate.folder] = walk(crate)
            return seen.stamps[crate.folder]
        finally:
            if outermost:
                del seen.stamps

    return stamp


def takes_names():
    """Whether this toolchain's `rt ci` takes names of crates, and so can prove some of them ahead. One that does not answers with its usage."""
    with tempfile.TemporaryDirectory(prefix="dsr-nothing-") as folder:
        run = subprocess.run(["rt", "ci", "no_such_crate"], cwd=folder, stdin=subprocess.DEVNULL, stdout=subprocess.PIPE, stderr=subprocess.STDOUT, text=True,
                             errors="replace")
    return not run.stdout.startswith("usage:")


def quick_commands(folder):
    """Makes in this folder the toolchain's commands, with `each_once` for stamps, and gives the folder to put first on the path. Without it rt takes ten minutes until
    it begins to check a crate with many below it. None if `rt ci` takes names, as such a toolchain does not need this, or if it is not as expected here."""
    command = shutil.which("rt")
    own = os.path.dirname(os.path.realpath(command or "rt"))
    try:
        with open(f"{own}/rtlib.py", encoding="utf-8") as file:
            text = file.read()
        if takes_names() or not re.search(r"^import threading$", text, re.M) or not re.search(r"^class Crate\b", text, re.M):
            return None
        os.makedirs(f"{folder}/bin")
        for kit, to in ((os.path.dirname(own), folder), (own, f"{folder}/bin")):
            for name in set(os.listdir(kit)) - {"bin", "rt", "rtlib.py"}:
                os.symlink(f"{kit}/{name}", f"{to}/{name}")
        shutil.copy2(f"{own}/rt", f"{folder}/bin")
        with open(f"{folder}/bin/rtlib.py", "w", encoding="utf-8") as file:
            file.write(f"{text}\n\n{inspect.getsource(each_once)}\n\nCrate.stamp = each_once(Crate.stamp)\n")
    except OSError:
        return None
    return f"{folder}/bin"


def crates_of(module, top):
    """The repository's crates by their names, lowest first."""
    return {crate.name: crate for crate in module.crates_below(top)}


def free_memory():
    """How many bytes of memory are free."""
    with open("/proc/meminfo", encoding="utf-8") as file:
        return 1024 * int(re.search(r"MemAvailable:\s+(\d+)", file.read())[1])


def processors():
    """How many checks may run at a time: one a processor, as far as there is memory."""
    return max(1, min(len(os.sched_getaffinity(0)), free_memory() // MEMORY_OF_A_CHECK))


def lines_of(module, crate):
    """How many lines the crate has: by them the time of its check is guessed."""
    found = 0
    for path in module.files_of(crate.folder):
        with open(path, "rb") as file:
            found += file.read().count(b"\n")
    return found


def waiting_for(module, crates):
    """For each crate's name the lines of the longest chain of crates that begins with it, each standing on the one before."""
    behind = {}
    for crate in reversed(crates):
        above = [behind[other.name] for other in crates if crate in other.deps]
        behind[crate.name] = lines_of(module, crate) + max(above, default=0)
    return behind


def made(make, crate, jobs):
    """Makes one crate with so many jobs, and gives its status and what the toolchain said."""
    with tempfile.TemporaryFile("w+", encoding="utf-8", errors="replace") as crate.out:
        try:
            status = make(crate, jobs)
        except SystemExit as stopped:
            status = stopped.code or 2
        crate.out.flush()
        crate.out.seek(0)
        return status, crate.out.read()


def build_library(crate, jobs):
    """Proves and builds a library with so many jobs, as `rt run` does."""
    return crate.build_rlib(["--jobs", str(jobs)], anew=False)


class Lanes:
    """Libraries that are built side by side: each once those below it are, and first those for which most waits."""

    def __init__(self, module, crates, progress):
        self.left = [crate for crate in crates if not crate.is_built()]
        self.progress, self.jobs = progress, {}
        behind = waiting_for(module, crates)
        self.left.sort(key=lambda crate: -behind[crate.name])
        self.total = len(self.left)
        self.lanes = processors()
        self.running = {}

    def ready(self):
        waited_for = {*self.left, *self.running.values()}
        return [crate for crate in self.left if not waited_for.intersection(crate.below())]

    def start(self, pool):
        """Starts what can start. The first, for which most waits, gets all that is free but one job for each other."""
        ready = self.ready()
        for at, crate in enumerate(ready):
            free = self.lanes - sum(self.jobs[it.name] for it in self.running.values())
            if free < 1:
                return
            self.jobs[crate.name] = max(1, min(MOST_JOBS, free - (len(ready) - at - 1)))
            self.left.remove(crate)
            self.running[pool.submit(made, build_library, crate, self.jobs[crate.name])] = crate

    def end_some(self):
        """Waits until a library is built or fails."""
        for future in wait(self.running, return_when=FIRST_COMPLETED).done:
            crate = self.running.pop(future)
            status, said = future.result()
            if status:
                raise NotBuilt(crate.name, said)

    def run(self):
        with ThreadPoolExecutor(self.lanes) as pool:
            while self.left or self.running:
                self.start(pool)
                names = [crate.name for crate in self.running.values()]
                self.progress(self.total - len(self.left) - len(names), self.total, names)
                self.end_some()
        return self.total


def needed_by(crates, wanted):
    """The libraries that have these names or stand below them, lowest first."""
    names = {it.name for name in wanted for it in [*crates[name].below(), crates[name]] if it.makes_rlib()}
    return [crate for crate in crates.values() if crate.name in names]


@contextlib.contextmanager
def alone_with(module, crates):
    """Keeps other commands of rt's out of these crates' folders."""
    # The first call sets a signal's handler, which only the main thread may.
    module.guarded()
    held = module.lock(crates)
    # An interrupt ends all at once, as under rt. Python would first wait for the checks that are under way.
    before = signal.signal(signal.SIGINT, signal.SIG_DFL)
    try:
        for crate in crates:
            module.stop_on_links(crate.folder)
        yield
    finally:
        signal.signal(signal.SIGINT, before)
        for it in held:
            os.close(it)


@contextlib.contextmanager
def other_toolchain():
    """What a toolchain of another make may raise where its calls are other ones."""
    try:
        yield
    except (AttributeError, KeyError, TypeError, ValueError) as error:
        raise OtherToolchain(f"{type(error).__name__}: {error}") from error


def build(top, wanted, progress):
    """Proves and builds the libraries of this repository that have these names, and all below them, as far as they are not,
    and gives how many that were. `progress` is called as checks begin and end: how many are proved, of how many, and the names of those that are at it."""
    with other_toolchain():
        module = toolchain()
        crates = needed_by(crates_of(module, top), wanted)
        with alone_with(module, crates):
            return Lanes(module, crates, progress).run()


def build_archive(top, name, to, toolchain_in=None):
    """Proves the static library of this name and compiles it to this file, over the libraries below it as rt left them in out/, which must be
    there; by the compilers in this folder, or else by the toolchain's own. Gives what the toolchain said where that fails, else None."""
    with other_toolchain():
        module = toolchain()
        crate = crates_of(module, top)[name]
        with alone_with(module, [*crate.below(), crate]):
            def make(crate, jobs):
                compilers = toolchain_in or f"{module.KIT}/toolchain"
                words = [*crate.words(["--jobs", str(jobs)], keeps=False), "--toolchain", compilers, "--backend", "llvm"]
                return crate.call(module.RATTLE, "build", *words, "-o", to)
            # More jobs take no less time, and nearly half as much processor time again.
            status, said = made(make, crate, 1)
            return said if status else None
