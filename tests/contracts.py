"""What the sources say of each public item: its contract, the line above it, and what is seen of a type. tests/reading.py makes tables of it.

A call is public where its crate's `lib.rt` offers it, or its type or trait. A law is a public function of a `laws.rt`, or one without arguments that
does nothing.
"""

import functools
import os
import re
from dataclasses import dataclass, field

from kit.program import TOP, text_of

IMPORT = re.compile(r"use (Rattle\.[\w.+]+)\.\{(.*?)\}", re.S)
WORD = re.compile(r"[A-Za-z_][\w-]*")
SCOPE = re.compile(r"^(?:(impl)|pub trait) ?(.*?) ?\{(\})?$")
FUNCTION = re.compile(r"^( *)(pub |final )?(?:extern \"C\" )?fn (\w+)")
CLAUSE = re.compile(r"\s*(requires|ensures)\s*(\w*)\s*\{")
GHOST = re.compile(r"ghost (\w+)\s*=\s*\{")


@functools.cache
def lines_of(path):
    return text_of(path).split("\n")


def imports_of(text):
    """What each imported name is: the module and its name there."""
    found = {}
    for module, names in IMPORT.findall(text):
        for name in names.split(","):
            there, _, here = name.strip().partition(" as ")
            found[here or there] = module, there
    return found


@dataclass
class Clause:
    """A clause of a contract: its name, which may be none, its text, and the definitions of this repository that it names."""

    name: str
    text: str
    definitions: list


@dataclass
class Call:
    path: str
    name: str
    says: str
    is_law: bool
    requires: list = field(default_factory=list)
    ensures: list = field(default_factory=list)


@dataclass
class Crate:
    name: str
    stands_on: list
    says: str = ""
    offers: set = field(default_factory=set)
    calls: list = field(default_factory=list)
    constants: list = field(default_factory=list)
    traits: dict = field(default_factory=dict)
    models: list = field(default_factory=list)


def without_generics(text):
    while True:
        shorter = re.sub(r"<[^<>]*>", "", text.replace("->", ""))
        if shorter == text:
            return text
        text = shorter


def after_closing(text, at, opening, closing):
    """The place after the bracket that closes the one at this place."""
    depth = 0
    while True:
        depth += (text[at] == opening) - (text[at] == closing)
        at += 1
        if depth == 0:
            return at


def clauses_from(text, at, imports):
    """The clauses of a contract that begins at this place, and the place after them."""
    found = []
    while True:
        begun = CLAUSE.match(text, at)
        if not begun:
            return found, at
        end = after_closing(text, begun.end() - 1, "{", "}")
        said = " ".join(text[begun.end():end - 1].split())
        named = [word for word in dict.fromkeys(WORD.findall(said)) if is_definition(imports.get(word))]
        found.append((begun[1], Clause(begun[2], said, named)))
        at = end


def is_definition(imported):
    parts = imported[0].split(".") if imported else []
    return len(parts) > 2 and parts[1].startswith("dsr_") and parts[2] == "specs" and parts[3] not in ("declared", "contracts")


def said_above(lines, number, mark="///"):
    """The comment above a line of code, attributes passed over, as one text."""
    said = []
    for line in reversed(lines[:number]):
        stripped = line.strip()
        if stripped.startswith("#["):
            continue
        if not stripped.startswith(mark):
            break
        said.append(stripped[len(mark):].strip())
    return " ".join(reversed(said)).strip()


def call_at(text, start, begun, owner, path, imports, says):
    """The call whose head begins at this place."""
    at = start + begun.end()
    if text[at] == "<":
        at = after_closing(text.replace("->", "  "), at, "<", ">")
    end = after_closing(text, at, "(", ")")
    arguments = text[at + 1:end - 1].strip()
    at = re.compile(r"(?=\s(?:requires|ensures)\b)|\s*(?=[{;])").search(text, end).end()
    clauses, at = clauses_from(text, at, imports)
    name = f"{owner}::{begun[3]}" if owner else begun[3]
    does_nothing = not arguments and re.match(r"\s*\{\}", text[at:at + 20]) is not None
    is_law = not owner and (does_nothing or path.endswith("/laws.rt"))
    call = Call(path, name, says, is_law)
    for kind, clause in clauses:
        getattr(call, kind).append(clause)
    return call


def ghosts_of(body):
    """The ghost members of an implementation with their texts, but for what they import."""
    found = {}
    for begun in GHOST.finditer(body):
        end = after_closing(body, begun.end() - 1, "{", "}")
        found[begun[1]] = " ".join(body[begun.end():end - 1].split())
    return found


def offered_by(text):
    """The names that a `lib.rt` offers of its own modules, or has itself."""
    names = set(re.findall(r"^pub (?:extern \"C\" )?(?:fn|struct|enum|trait|const|type) (\w+)", text, re.M))
    for module, listed in re.findall(r"^pub use (\w+)(?:::\w+)*::\{([^}]*)\};", text, re.M):
        if not module.startswith("dsr_"):
            names.update(WORD.findall(listed))
    names.update(name for module, name in re.findall(r"^pub use (\w+)(?:::\w+)*::(\w+);", text, re.M) if not module.startswith("dsr_"))
    return names


def read_file(crate, path):
    lines = lines_of(path)
    text = "\n".join(lines)
    imports = imports_of(text)
    starts = [0]
    for line in lines:
        starts.append(starts[-1] + len(line) + 1)
    owner, trait, shown = None, False, True
    for number, line in enumerate(lines):
        scope = SCOPE.match(line)
        if scope and not line.startswith("pub(crate)"):
            head = re.split(r" where |:", without_generics(scope[2]).strip().replace("::", "·"))[0].replace("·", "::")
            of_trait, _, of_type = head.rpartition(" for ")
            owner, trait = of_type.strip(), bool(of_trait.strip())
            shown = owner.split("::")[-1] in crate.offers
            if trait and shown:
                note_trait(crate, of_trait.strip().split("::")[-1], owner, path, text[starts[number]:])
            if scope[3]:
                owner, trait, shown = None, False, True
            continue
        if line == "}":
            owner, trait, shown = None, False, True
        constant = re.match(r" *pub const (\w+)", line)
        if constant and shown and (owner or constant[1] in crate.offers):
            crate.constants.append(f"{owner}::{constant[1]}" if owner else constant[1])
        begun = FUNCTION.match(line)
        if not begun or trait or not shown or (len(begun[1]) not in ((4,) if owner else (0,))):
            continue
        in_trait = owner and re.search(rf"^pub trait {owner}\b", text, re.M)
        if begun[2] != "pub " and not in_trait:
            continue
        if not owner and begun[3] not in crate.offers:
            continue
        crate.calls.append(call_at(text, starts[number], begun, owner, path, imports, said_above(lines, number)))


def note_trait(crate, trait, owner, path, text):
    body = text[:text.find("\n}\n")]
    ghosts = ghosts_of(body)
    if trait == "Model":
        crate.models.append((owner, path, ghosts.get("Value", ""), ghosts.get("view", "the value itself"), ghosts.get("invariant", "")))
    elif trait != "Drop":
        types, members = crate.traits.setdefault(trait, ([], []))
        types.append(owner)
        members += [name for name in ghosts if name not in members]


def crates():
    """All crates, in the order of crates.txt."""
    found = []
    for line in lines_of(f"{TOP}/crates.txt"):
        head, colon, below = line.partition(":")
        if not colon or line.startswith("#"):
            continue
        crate = Crate(head.split()[0], below.split())
        folder = f"{TOP}/crates/{crate.name}/src"
        top = next(path for path in (f"{folder}/lib.rt", f"{folder}/main.rt") if os.path.exists(path))
        text = "\n".join(lines_of(top))
        crate.says = " ".join(re.match(r"(?://!.*\n)*", text)[0].replace("//!", "").split())
        crate.offers = offered_by(text)
        for name in sorted(os.listdir(folder)):
            if name.endswith(".rt"):
                read_file(crate, f"{folder}/{name}")
        found.append(crate)
    return found
