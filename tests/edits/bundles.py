"""Several wrong bodies tried by one check.

A function is proved from its own body and from what others promise: the contracts of what it calls, types, definitions and lemmas. So where
one edit changes the body of one function and another edit that of another, the goals of each function are those that it has with its own edit
alone. One check of a bundle of such edits shows of each whether its function is refused: it tells of a goal that is not proved at a place
in that function, or in the folder of its proof. The check is of these functions, and of those that they call, alone. With the edit alone it would tell of the same place, and so the edit is refused.

What is not seen in this way says nothing: a function that calls another one of the bundle may not be tried at all. So an edit that is not
refused in its first bundle gets one more, and then it is tried alone. Alone is tried too what changes anything but the body of one
function: a contract, a type, a definition, a constant, two functions.

Nothing here decides what an edit is or what is recorded of it; that is record.py.
"""

import os
import re
import subprocess
from collections import namedtuple

from edits.record import Outcome, applied, key_of, place_of
from kit.program import text_of

MOST_OF_A_BUNDLE = 12
FUNCTION = re.compile(r"( *)(?:pub(?:\(crate\))? )?(?:const )?(?:unsafe )?(?:extern \"C\" )?fn (\w+)")
IMPL = re.compile(r"impl(?:<.*?>)? (?:.* for )?(\w+)")
# What a check tells of a place: the file, the line, and what is wrong there.
TOLD = re.compile(r"(?:note: )?(?:\./)?((?:src|proofs)/\S+?):(\d+):\d+: (.*)")
# A proof file that names what an edit took away, which says nothing of a contract.
NAMES = re.compile(r"has no field|is not in scope|has no `|was not admitted")
# How a check of a crate ends that is refused, and one of some functions.
ENDED_SO = {False: r"^logic=not-proved", True: r"^only=\d+ proved=\d+$"}
# What rt prints of an edit goes so far, and the record goes by that.
LONGEST_LINE = 160

# A function: its file, its type or, where it has none, its module, its name, and the lines of all of it and of its body, from 0.
Function = namedtuple("Function", "file owner name first body last")


def functions_of(file, text):
    """The functions of a source, as `rt fmt` lays them out."""
    found, owner, lines = [], None, text.split("\n")
    for at, line in enumerate(lines):
        block = IMPL.match(line)
        if block:
            owner = block[1]
        elif line == "}":
            owner = None
        begun = FUNCTION.match(line)
        if begun:
            body = next((i for i in range(at, len(lines)) if lines[i] == f"{begun[1]}{{" or lines[i].endswith(" {")), None)
            last = body and next((i for i in range(body, len(lines)) if lines[i] == f"{begun[1]}}}"), None)
            if last:
                module = os.path.basename(file).removesuffix(".rt")
                found.append(Function(file, owner or module, begun[2], at, body + 1, last))
    return found


def changed_lines(edit, folder):
    """The lines that an edit changes, by their file and number, with what each becomes; None where it cannot be applied or changes how
    many lines there are."""
    found = {}
    for path, text in (applied(edit.path, folder)[0] or {}).items():
        was, now = text_of(f"{folder}/{path}").split("\n"), text.split("\n")
        if len(was) != len(now):
            return None
        found.update({(path, at): now[at] for at in range(len(was)) if was[at] != now[at]})
    return found or None


def replace(path, text):
    """Replaces the file by one with this text. It is never changed in place, as other copies of the repository may have it too."""
    with open(f"{path}.new", "w", encoding="utf-8") as file:
        file.write(text)
    os.replace(f"{path}.new", path)


class Crate:
    """A crate's functions, and its sources as they stand."""

    def __init__(self, folder):
        self.folder, self.texts, self.functions = folder, {}, []
        for at, _, names in os.walk(f"{folder}/src"):
            for name in sorted(names):
                file = os.path.relpath(f"{at}/{name}", folder)
                self.texts[file] = text_of(f"{folder}/{file}")
                self.functions += functions_of(file, self.texts[file])

    def function_at(self, file, line):
        return next((it for it in self.functions if it.file == file and it.first <= line <= it.last), None)

    def function_of_proof(self, file):
        """The function whose proof's folder has this file, where there is one function of such a name alone."""
        parts = file.split("/")[:-1]
        if len(parts) < 2:
            return None
        owner = "lib" if len(parts) == 2 else parts[-2]
        its = [it for it in self.functions if it.name == parts[-1] and it.owner == owner]
        return its[0] if len(its) == 1 else None

    def function_of(self, changes):
        """The function whose body has all of these changes, if there is one."""
        its = {self.function_at(file, line) for file, line in changes}
        one = its.pop() if len(its) == 1 else None
        return one if one and all(one.body <= line < one.last for _, line in changes) else None

    def write(self, changes):
        """Writes the sources that have changes, with these."""
        for file in {file for file, _ in changes}:
            lines = self.texts[file].split("\n")
            for (other, line), text in changes.items():
                if other == file:
                    lines[line] = text
            replace(f"{self.folder}/{file}", "\n".join(lines))

    def restore(self, changes):
        for file in {file for file, _ in changes}:
            replace(f"{self.folder}/{file}", self.texts[file])


def places_told(crate, said):
    """At which places the check tells of something that is not proved, by the function that it is told of."""
    found = {}
    for line in said.split("\n"):
        told = TOLD.match(line)
        if not told or not ("error: " in told[3] or line.startswith("note: ") and "it is not proved" in told[3]):
            continue
        in_proof = told[1].startswith("proofs/")
        if in_proof and NAMES.search(told[3]):
            continue
        function = crate.function_of_proof(told[1]) if in_proof else crate.function_at(told[1], int(told[2]) - 1)
        if function:
            found.setdefault(function, []).append(place_of(line[:LONGEST_LINE]))
    return found


def path_of(function):
    """What a check calls the function: the end of its path, which fits no other."""
    return function.name if function.owner in ("lib", "main") else f"{function.owner}::{function.name}"


def checked(crate, functions=()):
    """Whether the crate, or these functions with those that they call, are proved, refused, or neither, and what the check said."""
    only, one_job = [f"--only={path_of(it)}" for it in functions], {**os.environ, "RT_JOBS": "1"}
    run = subprocess.run(["rt", "check", "--jobs", "1", *only], cwd=crate.folder, env=one_job, stdin=subprocess.DEVNULL, stdout=subprocess.PIPE,
                         stderr=subprocess.STDOUT, encoding="utf-8", errors="replace")
    is_refused = run.returncode == 1 and re.search(ENDED_SO[bool(only)], run.stdout, re.M) and "error[" not in run.stdout
    return "proved" if run.returncode == 0 else "refused" if is_refused else None, run.stdout


def bundles_of(functions, edits):
    """The edits in bundles, each with one edit of a function at most."""
    bundles = []
    for edit in edits:
        fits = (it for it in bundles if len(it) < MOST_OF_A_BUNDLE and all(functions[edit] != functions[other] for other in it))
        bundle = next(fits, None)
        if bundle is None:
            bundles.append(bundle := [])
        bundle.append(edit)
    return bundles


def refused_in_bundles(folder, edits, record, is_proved):
    """What came of those edits of the crate in this folder that are refused in a bundle. The crate is left as it was. If it is not known to be proved, it is checked
    first: otherwise each edit would be refused."""
    crate = Crate(folder)
    changes = {edit: changed_lines(edit, folder) for edit in edits}
    functions = {edit: its and crate.function_of(its) for edit, its in changes.items()}
    left, found = [edit for edit in edits if functions[edit]], {}
    if not left or not is_proved and checked(crate)[0] != "proved":
        return found
    for _ in range(2):
        for bundle in bundles_of(functions, left):
            found.update(tried_as_one(crate, bundle, changes, functions, record))
        left = [edit for edit in left if edit not in found]
    return found


def tried_as_one(crate, bundle, changes, functions, record):
    """What came of those edits of the bundle of which the check tells. Of the places told of an edit's function it is the recorded one, where that is
    among them, and else the first."""
    together = {at: text for edit in bundle for at, text in changes[edit].items()}
    crate.write(together)
    try:
        verdict, said = checked(crate, [functions[edit] for edit in bundle])
        if verdict is None:
            # As where a path fits two functions.
            verdict, said = checked(crate)
    finally:
        crate.restore(together)
    told = places_told(crate, said) if verdict == "refused" else {}
    found = {}
    for edit in bundle:
        places = told.get(functions[edit])
        if places:
            recorded = record.get(key_of(edit))
            place = recorded.place if recorded and recorded.place in places else places[0]
            found[edit] = Outcome(place, None)
    return found
