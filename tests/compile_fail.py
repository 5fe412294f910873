#!/usr/bin/env python3
"""Programs that must not compile: each file tests/compile-fail/NAME.rs is one.

Its first line names the crates that it uses, as `// uses: dsr_desk dsr_names`. Each line that must be
refused ends with the name of its error, as `//~ borrow-e0382`, or with two, as `//~ private-item or unknown-method`, where
it depends on what is built of the crates below which one is found. The files are made the modules of a crate
`refused_cases` in a temporary copy of the crates, and `rt check --only=` looks at it there. That
compiles it and proves nothing. It must find exactly the errors that are marked. The compiler looks for some errors only where it found no others,
so those in which it finds none are looked at once more, without the rest. If these compile, the check is stopped: it would go on to prove all crates below.
"""

import glob
import os
import re
import shutil
import signal
import subprocess
import sys
import tempfile

from kit.program import TOP, name_of, text_of
from kit.report import main

CASES = f"{TOP}/tests/compile-fail"
CRATE = "refused_cases"
USES = re.compile(r"// uses: (.*)\n")
# A crate's root has this line, and a module of it may not.
OF_A_ROOT = "#![tactic(auto)]\n"
MARK = re.compile(r"//~ ([\w-]+)(?: or ([\w-]+))?$")
ERROR = re.compile(r"^src/(\w+)\.rt:(\d+):\d+: error\[([\w-]+)\]", re.M)
# How the line begins with which the check's first pass says that the crate compiles.
COMPILES = "only="


def listed(errors):
    return ", ".join(f"{name} at line {line}" for line, name in sorted(errors)) or "none"


def marks_of(text):
    """The marked lines, each with the names of which one is wanted."""
    lines = ((at, MARK.search(line)) for at, line in enumerate(text.split("\n"), 1))
    return {at: {name for name in mark.groups() if name} for at, mark in lines if mark}


def are_wanted(found, marks):
    """Whether the errors that were found are one of each marked line, and no others."""
    return len(found) == len(marks) and {line for line, _ in found} == marks.keys() and all(name in marks[line] for line, name in found)


def make_room(room):
    """Copies the crates into the room."""
    shutil.copytree(f"{TOP}/crates", f"{room}/crates", ignore=shutil.ignore_patterns("out", "wrong-bodies"))
    if os.path.exists(f"{TOP}/HANDLES"):
        shutil.copy(f"{TOP}/HANDLES", room)


def write_crate(room, texts):
    """Makes each text a module of one more crate there, and nothing else."""
    uses = sorted({name for text in texts.values() for name in USES.match(text)[1].split()})
    with open(f"{room}/crates.txt", "w") as file:
        file.write(f"{text_of('crates.txt')}\n{CRATE}: {' '.join(uses)}\n")
    sources = f"{room}/crates/{CRATE}/src"
    shutil.rmtree(sources, ignore_errors=True)
    os.makedirs(sources)
    for name, text in {"lib": OF_A_ROOT + "".join(f"mod {name};\n" for name in texts), **texts}.items():
        with open(f"{sources}/{name}.rt", "w") as file:
            file.write(text if name == "lib" else text.replace(OF_A_ROOT, "\n"))


def check(crate):
    """The exit status of a check of this crate, and what it wrote. It is stopped where it says that the crate compiles."""
    run = subprocess.Popen(["rt", "check", "--only="], cwd=crate, stdin=subprocess.DEVNULL, stdout=subprocess.PIPE, stderr=subprocess.STDOUT, text=True,
                           errors="replace", start_new_session=True)
    said = []
    for line in run.stdout:
        said.append(line)
        if line.startswith(COMPILES):
            os.killpg(run.pid, signal.SIGKILL)
    return run.wait(), "".join(said)


def errors_of(room, texts):
    """The errors that the compiler finds in the modules: of each that has some, their lines and names. And whether it ended as it does where it finds errors, all
    of them in modules; and what it wrote, with its exit status."""
    write_crate(room, texts)
    status, said = check(f"{room}/crates/{CRATE}")
    found = {}
    for module, at, name in ERROR.findall(said):
        found.setdefault(module, set()).add((int(at), name))
    return found, status == 1 and found.keys() <= texts.keys(), f"the check ended with status {status}:\n{said}"


def faults_of(texts):
    """Why each case fails, or None where it is refused as it must be."""
    faults, left = {}, dict(texts)
    with tempfile.TemporaryDirectory(prefix="compile-fail-") as room:
        make_room(room)
        while left:
            found, is_well, said = errors_of(room, left)
            # Where no more errors are found, none of those that are left is refused.
            for module in [module for module in left if module in found] or list(left):
                marks, errors = marks_of(left.pop(module)), found.get(module, set())
                wanted = {(line, " or ".join(sorted(names))) for line, names in marks.items()}
                is_refused = is_well and marks and are_wanted(errors, marks)
                faults[module] = None if is_refused else f"wanted: {listed(wanted)}; found: {listed(errors)}; {said}"
    return faults


def cases(report, _):
    paths = {os.path.basename(path).removesuffix(".rs").replace("-", "_"): path for path in sorted(glob.glob(f"{CASES}/*.rs"))}
    texts = {name: text_of(path) for name, path in paths.items()}
    faults = {name: "its first line is not '// uses: CRATES'" for name, text in texts.items() if not USES.match(text)}
    faults |= faults_of({name: text for name, text in texts.items() if name not in faults})
    report.judge_some("programs that must not compile", ((name_of(path), faults[name], ", refused") for name, path in paths.items()))


if __name__ == "__main__":
    sys.exit(main(__doc__, {"cases": cases}, without_program=["cases"]))
