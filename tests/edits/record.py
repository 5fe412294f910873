"""Wrong bodies and the record of their refusals: which edits there are, what the refusal of each rests on, what the toolchain says of
them, and tests/refused.txt. Nothing here runs a prover.

The record has a line for each edit that was refused: CRATE/EDIT, a sum, and the place at which it was refused. The sum is a SHA-256
over all that the refusal rests on: the logic in which the toolchain proves (`logic_of`), HANDLES, of the edit's crate and of each below it the
row in crates.txt and the files of src/, specs/ and proofs/, the text of the edit, and what it makes of the files that it changes. Of a source
counts what a prover reads of it (lexing.py). Of a crate below, proofs that no other crate names do not count: the files with the proof of one function
(`PROOFS_OF_ONE`), which is private to its function, so that others cite the contract alone; and lemmas that serve their own crate alone (`own_lemmas`). So an
edit whose sum stands in the record was refused over exactly these sources, but for comments, hints on inlining and such proofs, by a toolchain of this logic. A
line with any other sum says nothing.
"""

import hashlib
import os
import re
from collections import namedtuple

from edits.lexing import read_of
from kit.program import bytes_of, text_of

FOLDER = "wrong-bodies"
# Where rt itself looks for edits. `rt ci` would try them all, each time, and no record would be kept of them.
FOLDER_OF_RT = "must-fail"
PARTS = ("src", "specs", "proofs")
# The files with the proof of one function, in a folder of its own below proofs/.
PROOFS_OF_ONE = ("Answers.antt", "Invariants.antt", "Proof.antt")
# The file right in proofs/ that declares those with lemmas, one a line.
DECLARES = "Lib.antt"
DECLARED = re.compile(r"(?:pub )?mod (\w+)")
# How a file of a crate is named in a `use` line, and in an attribute of a source.
CITED = re.compile(r"\b(?:Rattle\.)?(\w+)(?:\.proofs\.|::proofs::)(\w+)")
NAME = re.compile(r"[A-Za-z0-9_-][A-Za-z0-9_.-]*\.edit")
LINE = re.compile(r"rt: must-fail (\S+): (.*)")
REFUSED = "refused, as it must be"
LONGEST_PLACE = 140
HEAD = """\
# Which wrong bodies the prover refused, over which sources, and where; written by tests/edits.py --record.
"""

Edit = namedtuple("Edit", "crate name path")
Record = namedtuple("Record", "sum place")
# What came of an edit: where it was refused, or what is wrong.
Outcome = namedtuple("Outcome", "place fault")


def logic_of(version):
    """The logic that a toolchain proves in, from the line of `rt version`: its name, `logic` and a sum. The name changes with each of its releases, also if only
    its commands differ; releases with the same sum prove by the same rules."""
    return version.partition("logic ")[2] or version


def key_of(edit):
    return f"{edit.crate}/{edit.name}"


def digest(parts):
    """One sum over these texts in this order. Each goes in with its length, so that none can run on into the next."""
    total = hashlib.sha256()
    for part in parts:
        total.update(b"%d:" % len(part) + part)
    return total.hexdigest()


def files_below(folder):
    """The paths of all files below the folder, in one order everywhere."""
    found = []
    for at, folders, names in os.walk(folder):
        folders.sort()
        found += [f"{at}/{name}" for name in names]
    return sorted(found)


def rows_of(path):
    """What crates.txt says of each crate: its row, and the names that stand after the colon."""
    rows = {}
    for line in bytes_of(path).decode().split("\n"):
        row = " ".join(line.partition("#")[0].split())
        if row:
            head, _, uses = row.partition(":")
            rows[head.split()[0]] = row, re.split(r"[\s,]+", uses.strip())
    return rows


def applied(edit, folder):
    """What an edit makes of the files of its crate in this folder, or why it cannot be applied, as rt takes it."""
    texts, path, old = {}, None, None
    for line in text_of(edit).split("\n"):
        if line.startswith("file: "):
            path = line.removeprefix("file: ").strip()
        elif line.startswith("old: "):
            old = line.removeprefix("old: ")
        elif line.startswith("new:"):
            if not path or not old:
                return None, "a 'new:' line is before any 'file:' or 'old:' line"
            if path.split("/")[0] not in PARTS or not os.path.isfile(f"{folder}/{path}"):
                return None, f"there is no source {path}"
            text = texts[path] if path in texts else text_of(f"{folder}/{path}")
            if text.count(old) != 1:
                return None, f"an 'old:' text is in {path} {text.count(old)} times, and not once: {old}"
            texts[path], old = text.replace(old, line.removeprefix("new:").removeprefix(" ")), None
    is_any = any(text != text_of(f"{folder}/{path}") for path, text in texts.items())
    return (texts, None) if is_any else (None, "it changes nothing")


class Repository:
    """The sources of a repository, as far as refusals rest on them."""

    def __init__(self, top, logic):
        self.top, self.logic = top, logic
        self.rows = rows_of(f"{top}/crates.txt")
        self.sums = {}
        # Which crates name which file of lemmas, by (crate, file).
        self.citing = {}
        for crate in self.rows:
            for path in [*self.files_of(crate), *files_below(f"{top}/crates/{crate}/{FOLDER}")]:
                for cited in CITED.findall(bytes_of(path).decode(errors="replace")):
                    self.citing.setdefault(cited, set()).add(crate)

    def below(self, crate):
        """The crates below this one, each after those that it stands on itself."""
        found = []
        for name in self.rows[crate][1]:
            if name in self.rows:
                found += [it for it in [*self.below(name), name] if it not in found]
        return found

    def files_of(self, crate):
        return [path for part in PARTS for path in files_below(f"{self.top}/crates/{crate}/{part}")]

    def lines_of(self, crate):
        return sum(bytes_of(path).count(b"\n") for path in self.files_of(crate))

    def own_lemmas(self, crate):
        """The names of the files of lemmas right in the crate's proofs/ that serve the crate alone: no other crate names them, and no file of lemmas does that
        another crate names."""
        folder = f"{self.top}/crates/{crate}/proofs"
        names = {os.path.basename(path).removesuffix(".antt") for path in files_below(folder) if os.path.dirname(path) == folder} - {DECLARES.removesuffix(".antt")}
        for_others, new = set(), {name for name in names if self.citing.get((crate, name), set()) - {crate}}
        while new:
            for_others |= new
            cited = {name for it in new for at, name in CITED.findall(text_of(f"{folder}/{it}.antt")) if at == crate}
            new = (cited & names) - for_others
        return names - for_others

    def stated_by(self, crate):
        """The files of a crate that a crate above it may rest on, with their bytes: all but the proofs of single functions and lemmas for the crate alone."""
        proofs, own = f"{self.top}/crates/{crate}/proofs", self.own_lemmas(crate)
        for path in self.files_of(crate):
            folder, name = os.path.split(path)
            if folder == proofs and name == DECLARES:
                lines = bytes_of(path).decode(errors="replace").split("\n")
                yield path, "\n".join(line for line in lines if not (DECLARED.fullmatch(line) and DECLARED.fullmatch(line)[1] in own)).encode()
            elif folder == proofs and name.removesuffix(".antt") in own:
                continue
            elif folder == proofs or not path.startswith(f"{proofs}/") or name not in PROOFS_OF_ONE:
                yield path, bytes_of(path)

    def sum_of_crate(self, crate, is_below):
        """The sum over the crate's row and files: all of them, or if it is below the edit's crate those that a crate above may rest on."""
        if (crate, is_below) not in self.sums:
            parts = [self.rows[crate][0].encode()]
            for path, read in self.stated_by(crate) if is_below else ((path, bytes_of(path)) for path in self.files_of(crate)):
                parts += [os.path.relpath(path, f"{self.top}/crates/{crate}").encode(), *read_of(path, read)]
            self.sums[crate, is_below] = digest(parts)
        return self.sums[crate, is_below]

    def sum_of(self, edit):
        """The sum over all that the refusal of this edit rests on."""
        parts = [self.logic.encode(), bytes_of(f"{self.top}/HANDLES", b"none")]
        for crate in sorted([*self.below(edit.crate), edit.crate]):
            parts += [crate.encode(), self.sum_of_crate(crate, crate != edit.crate).encode()]
        texts, fault = applied(edit.path, f"{self.top}/crates/{edit.crate}")
        for path, text in sorted((texts or {}).items()):
            parts += [path.encode(), *read_of(path, text.encode())]
        return digest([*parts, (fault or "").encode(), bytes_of(edit.path)])

    def edits(self):
        """The edits of all crates, and what is wrong with where files lie."""
        good, faults = [], []
        for crate in sorted(os.listdir(f"{self.top}/crates")):
            folder = f"crates/{crate}"
            for path in files_below(f"{self.top}/{folder}/{FOLDER_OF_RT}"):
                faults.append(f"{os.path.relpath(path, self.top)}: edits lie in {folder}/{FOLDER}/, where the record counts: move it there")
            for path in files_below(f"{self.top}/{folder}/{FOLDER}"):
                name, short = os.path.basename(path), os.path.relpath(path, self.top)
                if crate not in self.rows:
                    faults.append(f"{short}: crates.txt has no crate {crate}")
                elif os.path.dirname(path) == f"{self.top}/{folder}/{FOLDER}" and NAME.fullmatch(name):
                    good.append(Edit(crate, name, path))
                elif not name.endswith(".md"):
                    faults.append(f"{short}: an edit stands right in {FOLDER}/; its name is of letters, digits, _, - and ., and ends in .edit")
        return good, faults


def read_record(path):
    """The record, by CRATE/EDIT. What is no line of a record is passed over, so that its edit is tried."""
    found = {}
    for line in bytes_of(path).decode(errors="replace").split("\n"):
        words = line.split(" ", 2)
        if len(words) == 3 and re.fullmatch(r"[0-9a-f]{64}", words[1]):
            found[words[0]] = Record(words[1], words[2])
    return found


def write_record(path, record):
    """Writes the record, in one step, so that a stop leaves the old one or the new one."""
    lines = [f"{key} {line.sum} {line.place}\n" for key, line in sorted(record.items())]
    with open(f"{path}.new", "w", encoding="utf-8") as file:
        file.write(HEAD + "".join(lines))
    os.replace(f"{path}.new", path)


def place_of(text):
    """A place and what is said of it, without what tells of the machine: the path of a temporary folder, and how a search ended."""
    text = re.sub(r"(?<![\w.])/\S*/(?=(src|specs|proofs)/)", "", text.removeprefix("note: ").removeprefix("./"))
    return " ".join(text.split(";")[0].split())[:LONGEST_PLACE].strip()


def outcome_of(said):
    """What came of an edit, of which rt said this after its name."""
    if not said.startswith(REFUSED):
        return Outcome(None, said)
    more = said.removeprefix(REFUSED)
    # rt takes these for refused too, but no clause was tried.
    if more.startswith(" (only because"):
        return Outcome(None, f"refused{more}")
    if re.search(r":\d+:\d+: warning: ", more):
        return Outcome(None, f"refused for a warning alone, which says nothing of a contract{more}")
    place = place_of(more.removeprefix(": "))
    if not place:
        # As where the borrow checker does not cover what an edit made of a function.
        return Outcome(None, "refused at no place, which says nothing of a contract")
    return Outcome(place, None)


def outcomes(said):
    """What came of each edit, by CRATE/EDIT, read from all that `rt must-fail` printed."""
    found, key = {}, None
    for line in said.split("\n"):
        begun = LINE.fullmatch(line)
        if begun:
            key = begun[1]
            found[key] = begun[2]
        elif line.startswith("rt: "):
            key = None
        elif key and line.strip():
            found[key] += f"\n    {line}"
    return {key: outcome_of(text) for key, text in found.items()}
