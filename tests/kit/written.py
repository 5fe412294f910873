"""Tables that were written by hand: the files tests/written/NAME.txt.

A line `== TITLE` begins a table. Each other line is a row of it, of cells with ` => ` between them; empty lines, and those that begin with `# `, are none.
A cell is a text, in which ` | `, and ` |` at its end, represents a line feed, and {NAME} the text of that name in the table `== names` above; or it is a
text in double quotes, spelled as in Python.
"""

import ast
import re

from kit.program import text_of


def cell_of(text, names):
    if text.startswith('"'):
        return ast.literal_eval(text)
    named = re.sub(r"\{(\w+)\}", lambda found: names[found[1]], text)
    return re.sub(r" \|(?: |$)", "\n", named)


def tables(name):
    """The tables of this file, by their titles: of each its rows, which are lists of cells, or texts where each row has one cell alone."""
    found, names = {}, {}
    for line in text_of(f"tests/written/{name}.txt").split("\n"):
        if line.startswith("== "):
            if line[3:] in found:
                raise ValueError(f"tests/written/{name}.txt has two tables {line[3:]}")
            found[line[3:]] = rows = []
        elif line and not line.startswith("# "):
            cells = [cell_of(cell, names) for cell in line.split(" => ")]
            rows.append(cells)
            names.update([cells] if rows is found.get("names") else [])
    return {title: [cells[0] for cells in rows] if all(len(cells) == 1 for cells in rows) else rows for title, rows in found.items()}
