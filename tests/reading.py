#!/usr/bin/env python3
"""What one reads: tests/reading.py, or with the names of some of its parts. With --write it writes the tables anew first.

named: each crate, file and folder that a document names is there, and so is each file and each heading to which one of its links leads. The documents are
those of `DOCUMENTS`. A name in capital letters in a path represents any name, and a star does.

tables: the tables of docs/tables/, which are generated from the sources: what is promised call by call, law by law, and what must be believed.

crates.md           What each crate is, what it uses and what it offers.
calls.md            The contract of each public call: what the line above it says, and the names of its clauses.
laws.md             The laws, likewise.
models.md           What contracts see of each type.
definitions.md      For each chosen promise of tests/written/promises.txt the definitions that the contracts of its functions name, those that these
                    name, and so on, as far as they are in a `specs/` of this repository; and the types of the code that they name. The tests of
                    equality in `specs/Support/` are left out, as docs/READING.md says. Beside each promise is the number of their lines,
                    without comments.
meanings.md         Each definition with the line of plain meaning above it.
wrong-bodies.md     The edits that the prover must refuse.
"""

import glob
import os
import re
import sys

from contracts import WORD, crates, imports_of, lines_of
from kit.program import TOP, bytes_of, name_of, write_bytes
from kit.report import main
from kit.written import tables as tables_by_hand

TABLES = f"{TOP}/docs/tables"
DEFINITION = re.compile(r"(?:(?:abbrev|unfoldable|data|record|pub) )+([\w-]+)")
MADE = "Generated from the sources by `tests/reading.py --write`; `./test` checks that it is current.\n"
# Documents that are written by hand. Those of docs/tables are generated.
DOCUMENTS = ["*.md", "docs/*.md", "docs/details/*.md", "examples/*.md", "examples/*/*.md", "conformance/*.md", "bench/*.md"]
# What a document may name: a crate or a function of that name, a path from the top, and, in a link, a path from the document and a heading.
DSR_NAME = re.compile(r"\bdsr_[a-z_]*[a-z]\b")
DSR_FUNCTION = re.compile(r"\bfn (dsr_[a-z_]+)")
TOP_PATH = re.compile(r"(?<![\w./-])(?:tests|crates|tools|conformance|examples|docs|page|bench)/[\w./*-]*[\w*]")
LINK = re.compile(r"\]\(([^)#\s]*)(?:#([^)\s]+))?\)")
CAPITALS = re.compile(r"\b[A-Z][A-Z-]*\b")
BESIDE_THE_CODE = ("dsr_mail_tries", "dsr_own_service", "dsr_row_calls", "dsr_rows")


class Source:
    """A file of definitions: what it imports, and each definition with its line and its words."""

    def __init__(self, path):
        lines = lines_of(path)
        self.imports = imports_of("\n".join(lines))
        self.definitions = {}
        name = None
        for number, line in enumerate(lines, 1):
            begun = DEFINITION.match(line)
            if begun and not line.startswith(("use", "pub use", "pub mod")):
                name = begun[1]
                self.definitions.setdefault(name, (number, set()))
            if name and not line.startswith("--"):
                self.definitions[name][1].update(WORD.findall(line))


SOURCES = {}


def source(path):
    if path not in SOURCES:
        SOURCES[path] = Source(path)
    return SOURCES[path]


def declared_type(crate, name):
    """The file and line of a type of the code."""
    for path in glob.glob(f"{TOP}/crates/{crate}/src/*.rt"):
        for number, line in enumerate(lines_of(path), 1):
            if re.match(rf"pub(\(crate\))? (enum|struct) {name}\b", line):
                return path, number
    raise SystemExit(f"there is no type {name} in {crate}")


def place_of(module, name):
    """The file of a definition, and whether it is one of definitions; None if it is not to be listed."""
    parts = module.split(".")
    if not parts[1].startswith("dsr_") or parts[2] != "specs" or "Support" in parts:
        return None
    if parts[3] in ("declared", "contracts"):
        return None if {"TheVariants", "TheImpl", "TheViews"} & set(parts) else declared_type(parts[1], name)
    return f"{TOP}/crates/{parts[1]}/specs/{'/'.join(parts[3:])}.antt", None


def named_in(path, function):
    """The imported names in a function's contract."""
    text = "\n".join(lines_of(f"{TOP}/{path}"))
    begin = re.search(rf"fn {function}\b", text)
    if not begin:
        raise SystemExit(f"there is no function {function} in {path}")
    contract = re.split(r"\n\s*\{", text[begin.start():], maxsplit=1)[0]
    imports = imports_of(text)
    return [imports[word] for word in set(WORD.findall(contract)) if word in imports]


def definitions_for(functions):
    """All that the contracts of these functions rest on: by file, the names with their lines."""
    found, todo = {}, [named for path, function in functions for named in named_in(path, function)]
    while todo:
        module, name = todo.pop()
        place = place_of(module, name)
        if not place or name in found.get(place[0], {}):
            continue
        path, line = place
        if line is None:
            here = source(path)
            line, words = here.definitions[name]
            todo += [here.imports.get(word, (module, word)) for word in words if word in here.imports or word in here.definitions]
        found.setdefault(path, {})[name] = line
    return found


def length_of(path, line):
    """How many lines a definition or a type of the code has, without the comments."""
    lines = lines_of(path)
    end = lines.index("}", line - 1) + 1 if "/src/" in path else lines.index("", line)
    return sum(not text.lstrip().startswith(("//", "--")) for text in lines[line - 1:end])


def definitions_of(named, order):
    """The table for the functions that a promise names, and its two counts of lines."""
    functions = []
    for part in re.findall(r"(\S+): ([^;]+)", named):
        functions += [(part[0], function.strip()) for function in part[1].split(",")]
    found = definitions_for(functions)
    rows, counts = [], {True: 0, False: 0}
    for path in sorted(found, key=lambda path: (-order.index(path.split("/crates/")[1].split("/")[0]), "/src/" in path, path)):
        names = sorted(found[path].items(), key=lambda item: item[1])
        rows.append(f"| `{os.path.relpath(path, TOP)}` | {', '.join(f'`{name}` {line}' for name, line in names)} |")
        counts["/src/" in path] += sum(length_of(path, line) for _, line in names)
    shown = ", ".join(f"`{function}` of `{path}`" for path, function in functions)
    return "\n".join([f"Of {shown}.", "", table(["File", "Definitions, each with its line"], rows)]), counts


def table(heads, rows):
    return "\n".join([f"| {' | '.join(heads)} |", f"|{'---|' * len(heads)}", *rows]) + "\n"


def cell(text):
    return text.replace("|", "\\|")


def definitions_table(all_crates):
    order = [crate.name for crate in all_crates]
    rows, parts = [], []
    for title, named in tables_by_hand("promises")["promises"]:
        text, counts = definitions_of(named, order)
        rows.append(f"| {title} | {counts[False]} | {counts[True]} |")
        parts.append(f"## {title}\n\n{text}")
    head = f"# What must be believed\n\n{MADE}\nFor each chosen promise the definitions on which its contracts rest, file by file. "
    head += "[models.md](models.md) says what contracts see of a type, and [meanings.md](meanings.md) what each definition means.\n\n"
    return head + table(["Promise", "Lines of definitions", "Lines of types of the code"], rows) + "\n" + "\n".join(parts)


def clauses(listed, at_length=0):
    """The clauses by their names, each with the definitions that it names, or with its text if that is short enough."""
    shown = []
    for clause in listed:
        name = f"`{clause.name}`" if clause.name else ""
        if len(clause.text) <= at_length:
            shown.append(f"{name}: `{clause.text}`" if name else f"`{clause.text}`")
        else:
            named = ", ".join(f"`{word}`" for word in clause.definitions)
            shown.append(f"{name or 'one clause'} ({named})" if named else name or "one clause")
    return cell("; ".join(shown))


def is_shown(crate):
    return not crate.name.endswith("_tests") and crate.name not in BESIDE_THE_CODE


def sections(all_crates, heads, rows_of):
    """A table of each crate that is shown and has rows, and what `rows_of` gives beside them: first what comes above the table, and at last what comes
    below it."""
    for crate in filter(is_shown, all_crates):
        above, rows, *below = rows_of(crate)
        if rows:
            yield f"## `{crate.name}`\n\n{above}{table(heads, rows)}"
            yield from below


def rows_of_calls(crate):
    """The calls of a crate, and what it has of traits and constants."""
    calls = [call for call in crate.calls if not call.is_law]
    yield f"{crate.says}\n\n"
    yield [f"| `{call.name}` *{os.path.basename(call.path)}* | {cell(call.says)} | {clauses(call.requires, 120)} | {clauses(call.ensures)} |" for call in calls]
    for trait, (types, members) in sorted(crate.traits.items()):
        said = f" ({', '.join(f'`{member}`' for member in members)})" if members else ""
        yield f"`{trait}`{said} of {', '.join(f'`{name}`' for name in dict.fromkeys(types))}.\n"
    if crate.constants:
        yield f"Constants: {', '.join(f'`{name}`' for name in crate.constants)}.\n"


def calls_table(all_crates):
    head = f"# Public calls and their contracts\n\n{MADE}\nThe second column is the line above the call. After the name of a clause are the definitions " \
        "that it names. Beside these clauses each call is proved to be free of overflow and of reads out of range, and to return, unless it " \
        "takes a bound `Wait`. [laws.md](laws.md) has the laws, and [READING.md](../READING.md) says how to read a clause.\n"
    texts = sections(all_crates, ["Call", "What it does", "Requires", "Ensures"], rows_of_calls)
    return "\n".join([head, *texts])


def rows_of_laws(crate):
    yield ""
    yield [f"| `{law.name}` *{os.path.basename(law.path)}* | {cell(law.says)} | {clauses(law.ensures)} |" for law in crate.calls if law.is_law]


def laws_table(all_crates):
    head = f"# Laws\n\n{MADE}\nA law is a public function whose contract is all that matters. The second column is the line above it. After the name of " \
        "a clause are the definitions that it names. Laws require nothing but what they say.\n"
    return "\n".join([head, *sections(all_crates, ["Law", "What it says", "Clauses"], rows_of_laws)])


def rows_of_models(crate):
    yield ""
    yield [f"| `{name}` *{os.path.basename(path)}* | " + " | ".join(f"`{cell(text)}`" if text else "" for text in said) + " |"
           for name, path, *said in crate.models]


def models_table(all_crates):
    head = f"# What contracts see of a type\n\n{MADE}\nA value is seen as the second column says, read off its fields by the third. The fourth is the " \
        "invariant that each value keeps, which the prover checks. A public type that is in no table is seen as it is " \
        "declared, each part by its own model.\n"
    return "\n".join([head, *sections(all_crates, ["Type", "Seen as", "View", "Invariant"], rows_of_models)])


def crates_table(all_crates):
    rows = []
    for crate in all_crates:
        names = sorted(crate.offers, key=lambda name: (name.islower(), name))
        below = ", ".join(f"`{name}`" for name in crate.stands_on)
        rows.append(f"| `{crate.name}` | {cell(crate.says)} | {below} | {', '.join(f'`{name}`' for name in names)} |")
    return f"# The crates\n\n{MADE}\nLowest first, as crates.txt has them. Each uses those that its row names, and std.\n\n" + \
        table(["Crate", "What it is", "Uses", "Offers"], rows)


def meanings_in(path):
    """The comment at the head of a file of definitions, and the definitions that have one above them."""
    head, rows, said, begun = "", [], [], False
    for line in lines_of(path):
        if line.startswith("--"):
            said.append(line[2:].strip())
            continue
        if not begun:
            head, said, begun = " ".join(said), [], True
        found = DEFINITION.match(line)
        if found and said and not line.startswith(("use", "pub use", "pub mod")):
            rows.append(f"| `{found[1]}` | {cell(' '.join(said))} |")
        said = []
    return head, rows


def meanings_table(all_crates):
    parts = [f"# What the definitions mean\n\n{MADE}\nEach definition in a crate's `specs/` with the line above it, file by file. Those of `specs/Support/` are left "
             "out.\n"]
    for crate in filter(is_shown, all_crates):
        for path in sorted(glob.glob(f"{TOP}/crates/{crate.name}/specs/*.antt")):
            head, rows = meanings_in(path)
            if rows:
                title = f"{crate.name.removeprefix('dsr_')}/{os.path.basename(path).removesuffix('.antt')}"
                parts.append(f"## {title}\n\n" + (f"{head}\n\n" if head else "") + table(["Definition", "Meaning"], rows))
    return "\n".join(parts)


def wrong_bodies_table(all_crates):
    parts, count = [], 0
    for crate in all_crates:
        files = {}
        for path in sorted(glob.glob(f"{TOP}/crates/{crate.name}/wrong-bodies/*.edit")):
            count += 1
            edited = lines_of(path)[0].removeprefix("file:").strip()
            files.setdefault(edited, []).append(f"`{os.path.basename(path)[:-len('.edit')]}`")
        rows = [f"| *{edited}* | {', '.join(names)} |" for edited, names in sorted(files.items())]
        if rows:
            parts.append(f"## `{crate.name}`\n\n" + table(["File", "Edits"], rows))
    head = f"# Wrong bodies that the prover refuses\n\n{MADE}\n{count} edits of the code, or of a definition if the file is one of `specs/`, each named for what " \
        "it breaks. `tests/edits.py` tries them, and `tests/refused.txt` records where each was refused.\n\n"
    return head + "\n".join(parts)


def tables():
    """The name of each table's file with its text."""
    all_crates = crates()
    return {"crates": crates_table(all_crates), "calls": calls_table(all_crates), "laws": laws_table(all_crates), "models": models_table(all_crates),
            "definitions": definitions_table(all_crates), "meanings": meanings_table(all_crates), "wrong-bodies": wrong_bodies_table(all_crates)}


def judged_tables(report, is_written):
    made = tables()
    for name, text in made.items():
        path = f"{TABLES}/{name}.md"
        if is_written:
            os.makedirs(TABLES, exist_ok=True)
            write_bytes(path, text.encode())
        report.judge(name_of(path), None if bytes_of(path) == text.encode() else "it is stale; tests/reading.py --write writes it anew")
    for path in sorted(set(os.listdir(TABLES)) - {f"{name}.md" for name in made}):
        report.judge(f"docs/tables/{path}", "nothing makes it")


# ---- what documents name


def names_of_crates():
    """The names of crates, and of the functions of theirs that begin as these do."""
    found = set(os.listdir(f"{TOP}/crates"))
    for path in glob.glob(f"{TOP}/crates/*/src/*.rt"):
        found.update(DSR_FUNCTION.findall("\n".join(lines_of(path))))
    return found


def is_there(path):
    """Whether there is such a file or folder, or building makes it; also if the path leaves out how its name ends."""
    if "/out/" in path:
        return True
    path = f"{TOP}/{CAPITALS.sub('*', path)}"
    return bool(glob.glob(path) or glob.glob(f"{path}.*"))


def headings_in(path):
    """The headings of a document, as links spell them."""
    heads = [line.lstrip("#").strip().lower() for line in lines_of(path) if line.startswith("#")]
    return {re.sub(r"[^\w -]", "", re.sub(r"\[(.*?)\]\(.*?\)", r"\1", head)).replace(" ", "-") for head in heads}


def fault_of_link(document, path, heading):
    """Where a link of this document leads to nothing, or None."""
    target = os.path.normpath(os.path.join(os.path.dirname(document), path)) if path else document
    if "://" in path:
        return None
    if not os.path.exists(target):
        return f"a link to {path}"
    return f"a link to {path}#{heading}" if heading and heading not in headings_in(target) else None


def faults_of(document, crates_there):
    """What the document names that is not there."""
    text = "\n".join(lines_of(document))
    yield from sorted({name for name in DSR_NAME.findall(text) if name not in crates_there})
    yield from sorted({path for path in TOP_PATH.findall(text) if not is_there(path)})
    yield from filter(None, (fault_of_link(document, *link) for link in LINK.findall(text)))


def named(report, _):
    crates_there = names_of_crates()
    for document in sorted(path for pattern in DOCUMENTS for path in glob.glob(f"{TOP}/{pattern}")):
        faults = list(faults_of(document, crates_there))
        report.judge(f"what {name_of(document)} names", f"there is not: {'; '.join(faults)}" if faults else None, None)


if __name__ == "__main__":
    PARTS = {"named": named, "tables": judged_tables}
    sys.exit(main(__doc__, PARTS, "--write", without_program=PARTS))
