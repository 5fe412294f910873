"""What all rules share: rows that are being listed, and the texts of tokens.

A rule is a function that yields rows. Its docstring says which rows those are; it stands as notes in the first of them. A row whose
answers follow at once from the rule says them in `wanted`, call by call; `tests/rows_by_rule.py` compares the models with them.
"""

from typing import NamedTuple

# Shapes with as few replicas as f traitors allow, by f, and two with more.
SHAPES = {0: "1 0 2 -", 1: "3 1 3 -", 2: "5 2 3 -", 7: "15 7 8 -"}
LARGER = {0: "2 0 2 -", 1: "4 1 3 -", 2: "6 2 3 -", 7: "16 7 32 -"}
NUM_MOST, VAL_MOST = 2**40 - 1, 2**64 - 1
# Two contents and a third one, as the signed requests of a value.
A, B, C = ["c0#1:write:a:1"], ["c1#1:write:a:2"], ["c2#1:write:a:3"]
NAMES = {"A": A, "B": B, "C": C, "idle": []}


class Listed(NamedTuple):
    """A row: its name without its group, its tags, its calls, and the answers that the rule says, of the last calls."""

    name: str
    tags: list
    calls: list
    wanted: list = []


def replicas_of(shape):
    return int(shape.split(" ")[0])


def rounds_of(shape):
    """Returns how many rounds a slot takes in this shape."""
    return int(shape.split(" ")[1]) + 1


def sender_of(shape, slot):
    return f"r{slot % replicas_of(shape)}"


def signers_of(shape, slot, count, without=()):
    """Returns the sender of the slot, and after it other replicas, rising, until there are as many as the count says."""
    first = sender_of(shape, slot)
    others = [f"r{number}" for number in range(replicas_of(shape)) if f"r{number}" not in (first, *without)]
    return [first, *others][:count]


def content_text(requests):
    return ",".join(requests) or "idle"


def value_text(requests):
    """Returns the text of a value with these requests, each signed by its client."""
    return ",".join(f"{request}~{request.split('#')[0]}" for request in requests) or "idle"


def chain_text(slot, requests, signers):
    """Returns the text of a chain whose signatures all fit."""
    return f"{slot}/{value_text(requests)}/{'+'.join(signers) or '-'}"


def link_text(slot, requests, before):
    return f"{slot}/{content_text(requests)}/{'+'.join(before) or '-'}"


def places(count):
    """Returns the first place, one in the middle and the last, as far as they differ, each with its name."""
    return {place: name for name, place in [("middle", count // 2), ("last", count - 1), ("first", 0)] if 0 <= place < count}
