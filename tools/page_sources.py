"""What the page page/dsr.html is made from, and the two sums by which it says so.

The sum of the module is over the code of crates/dsr_page and of each crate below it (their rows in crates.txt, and each file of src/), and over what makes
the module of it. The sum of the page is over the sum of the module and over all else that stands in the page. Contracts stand in src/ too; definitions
and proofs do not go in, as no byte of the module comes from them.
"""

import hashlib
import json
import os
import re

TOP = os.path.dirname(os.path.dirname(os.path.realpath(__file__)))
PAGE = f"{TOP}/page/dsr.html"
PARTS = f"{TOP}/page/parts"
NAME = "dsr_page"
MODULE_MADE_BY = ["tools/page_module.py", "page/parts/heap.c"]
# The page names its two sums in this line.
SUMS = re.compile(r'<meta name="dsr-made-from" content="module ([0-9a-f]{64}) page ([0-9a-f]{64})">')
# It has its module in this one, as base64 of a gzip, with what it says of it.
MODULE = re.compile(r'const packed = "([A-Za-z0-9+/=]*)", made = ("[^"]*");')


def bytes_of(path):
    with open(os.path.join(TOP, path), "rb") as file:
        return file.read()


def text_of(path):
    return bytes_of(path).decode()


def digest(parts):
    """One sum over these bytes in this order. Each goes in with its length, so that none can run on into the next."""
    total = hashlib.sha256()
    for part in parts:
        total.update(b"%d:" % len(part) + part)
    return total.hexdigest()


def rows():
    """The lines of crates.txt without comments, by the name of the crate."""
    lines = [" ".join(line.partition("#")[0].split()) for line in text_of("crates.txt").splitlines()]
    return {re.split(r"[ :]", line)[0]: line for line in lines if line}


def crates():
    """The rows of the page's crate and of all below it, lowest first."""
    told, found, todo = rows(), set(), [NAME]
    while todo:
        name = todo.pop()
        if name in told and name not in found:
            found.add(name)
            todo += told[name].partition(":")[2].split()
    return {name: row for name, row in told.items() if name in found}


def code_of(crate):
    """The paths of the crate's code."""
    found = []
    for at, folders, names in os.walk(f"{TOP}/crates/{crate}/src"):
        folders.sort()
        found += [os.path.relpath(f"{at}/{name}", TOP) for name in sorted(names)]
    return found


def module_sum():
    parts = []
    for crate, row in crates().items():
        parts.append(row.encode())
        for path in code_of(crate):
            parts += [path.encode(), bytes_of(path)]
    for path in MODULE_MADE_BY:
        parts += [path.encode(), bytes_of(path)]
    return digest(parts)


def page_sum(module, parts):
    """The sum of a page with a module of this sum, and with these texts by their names."""
    return digest([module.encode(), *(text.encode() for named in sorted(parts.items()) for text in named)])


# ---- the samples

def rows_of(path):
    """The rows of a document's table, by the names in their first cells: what stands in the others."""
    cells = [[cell.strip() for cell in line.strip().strip("|").split("|")] for line in text_of(path).splitlines() if line.startswith("| ")]
    return {found[1]: row[1:] for row in cells if (found := re.match(r"\[?`([\w-]+)`", row[0]))}


def plain(text):
    """A cell without its links."""
    return re.sub(r"\s*\(?\[([^\]]*)\]\([^)]*\)\)?", lambda link: "" if link[0].lstrip().startswith("(") else link[1], text)


def samples():
    """The samples: the group, the name, the text, and what is said of it, of each."""
    for name, cells in rows_of("examples/attacks/README.md").items():
        yield "Attacks", name, text_of(f"examples/attacks/{name}.play"), [f"Tried: {plain(cells[0])}", f"What stops it: {plain(cells[1])}"]
    for name in sorted(name[:-5] for name in os.listdir(f"{TOP}/examples/why") if name.endswith(".play")):
        yield "Wrong in one line", f"why-{name}", text_of(f"examples/why/{name}.play"), ["c0's write is not served, since one line is wrong. Which? Explain says why."]
    yield "Transcripts", "honest-service", text_of("examples/record/honest.transcript"), ["A service in another language recorded this of itself. It is a run."]
    yield "Transcripts", "lying-service", text_of("examples/record/lying.transcript"), ["The same service, but it lies about one step. Which?"]
    for name in ("first-lines", "repeated-numbers", "swaps", "removed"):
        yield "Requests, with no replicas", name, text_of(f"examples/{name}.apply"), ["Lines of requests, which one directory answers one after another."]


def samples_text():
    named = [dict(zip(("group", "name", "text", "told"), sample)) for sample in samples()]
    return json.dumps(named, ensure_ascii=False, separators=(",", ":"))
