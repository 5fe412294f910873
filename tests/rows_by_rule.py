#!/usr/bin/env python3
"""Rows that are listed by rules, tests/rules: tests/rows_by_rule.py says which files of conformance/rows are not as the rules and the models have them;
tests/rows_by_rule.py --write writes them.

A rule lists calls. The models of tests/models answer them. Where the rule says an answer itself, that must be the models' answer, or nothing
is written. The first row of each rule has in its notes what the rule is.
"""

import os
import sys
import textwrap

from models.parts import Adapter
from rules import chains, clients, drafts, registers, replicas, runs, slots, tokens

TOP = os.path.dirname(os.path.dirname(os.path.realpath(__file__)))
MODULES = [chains, slots, replicas, clients, registers, drafts, tokens, runs]
# How wide notes are.
WIDTH = 150


class Wrong(Exception):
    """A rule and the models do not agree, or a row is none."""


def answers_to(row):
    """Returns the answers of the models to the calls of a row."""
    adapter = Adapter()
    return [adapter.answer(call) for call in row.calls]


def lines_of(group, row, notes):
    """Returns the lines of a row, of which the answers are those of the models."""
    name, answers = f"{group}/{row.name}", answers_to(row)
    if row.wanted and answers[len(answers) - len(row.wanted):] != row.wanted:
        raise Wrong(f"{name}: the models answer {answers}, and the rule says {row.wanted}")
    if not answers or {"skip", "bad-row"} & set(answers):
        raise Wrong(f"{name}: {row.calls} are answered {answers}")
    told = [line for call, answer in zip(row.calls, answers) for line in (f"> {call}", f"< {answer}")]
    return [" ".join([f"row {name}", *row.tags]), *(f"note {note}" for note in notes), *told]


def text_of(name, rules):
    """Returns the text of a file of rows that these rules list."""
    group = name.split("-")[0]
    lines = [f"dsr-rows 1 {group}"]
    for rule in rules:
        notes = textwrap.wrap("Rule: " + " ".join(rule.__doc__.split()), WIDTH)
        for row in rule():
            lines += lines_of(group, row, notes)
            notes = []
        if notes:
            raise Wrong(f"{name}: {rule.__name__} lists no rows")
    return "".join(f"{line}\n" for line in lines)


def files():
    """Yields the path of each file that rules list, from the top of the repository, and its text."""
    for module in MODULES:
        for name, rules in module.FILES.items():
            yield f"conformance/rows/{name}.rows", text_of(name, rules)


def main(words):
    if words not in ([], ["--write"]):
        print(__doc__, file=sys.stderr)
        return 2
    stale = 0
    for path, text in files():
        found = None
        if os.path.exists(f"{TOP}/{path}"):
            with open(f"{TOP}/{path}", encoding="latin-1", newline="\n") as file:
                found = file.read()
        if found != text:
            stale += 1
            print(f"{path} {'is written' if words else 'is not current'}")
            if words:
                with open(f"{TOP}/{path}", "w", encoding="latin-1", newline="\n") as file:
                    file.write(text)
    return 1 if stale and not words else 0


if __name__ == "__main__":
    sys.exit(main(sys.argv[1:]))
