#!/usr/bin/env python3
"""Rows by chance, with the answers of the models: tests/rows_by_chance.py FOLDER SEED COUNT writes files of rows, COUNT rows each.

    tests/rows_by_chance.py /tmp/rows 1 200 && conformance/run.py --rows /tmp/rows ADAPTER ..

compares an adapter with the models. What is called is near to what loyal actors do: a chain is proper but for a change or two, a round has
the posts and takes that are due but for one that is not, and names, numbers and values are few, so that they meet.
"""

import os
import random
import sys

from models.parts import Adapter
from models.transcript_text import (
    Ask, Chain, Empty, Link, Reply, Request, Round, Seen, Shape, Signature, Signed, actor_text, chain_text, content_of, content_text,
    envelope_text, shape_text, signed_text,
)

SHAPES = [Shape(1, 0, 1, ()), Shape(2, 0, 2, ()), Shape(3, 1, 2, ()), Shape(3, 1, 3, (1,)), Shape(4, 1, 2, ()), Shape(5, 2, 3, (0, 2))]
ANSWERS = ["written", "held none", "held 1", "swapped", "kept 1", "full", "removed none"]
OPERATIONS = [("read", "a"), ("write", "a", "1"), ("write", "b", "2"), ("swap", "a", "none", "1"), ("swap", "a", "1", "2"), ("remove", "a")]


class Chance(random.Random):
    """Draws parts of calls."""

    def often(self):
        return self.random() < 0.8

    def actor(self, shape):
        """Returns an actor of the shape, or one right outside it."""
        kind = self.choice("rrrc")
        return kind, self.randrange((shape.n if kind == "r" else shape.m) + 1)

    def request(self, shape):
        return Request(self.randrange(shape.m), self.randrange(1, 4), self.choice(OPERATIONS))

    def content(self, shape):
        return tuple(self.request(shape) for _ in range(self.choice([0, 1, 1, 1, 2, 3])))

    def signed(self, request):
        return Signed(request, Signature(("c", request.client), request))

    def chain(self, shape, slot, count, contents):
        """Returns a chain of one of these contents that is proper for this round of the slot, or near to it."""
        signers = [("r", slot % shape.n), *self.sample([("r", p) for p in range(shape.n) if p != slot % shape.n], count - 1)]
        chain = chain_of(slot, tuple(map(self.signed, self.choice(contents))), signers)
        for _ in range(self.choice([0, 0, 0, 0, 1, 1, 2])):
            chain = self.choice([self.with_signer, self.with_more, self.with_less, self.with_statement, self.with_asker, self.in_slot])(shape, chain)
        return chain

    def with_signer(self, shape, chain):
        """Changes one signer, to one that may be there already, a client, or no replica of the shape."""
        signers = [signature.signer for signature in chain.signatures]
        if signers:
            signers[self.randrange(len(signers))] = self.actor(shape)
        return chain_of(chain.slot, chain.value, signers)

    def with_more(self, shape, chain):
        return chain_of(chain.slot, chain.value, [*(signature.signer for signature in chain.signatures), self.actor(shape)][:16])

    def with_less(self, shape, chain):
        return chain._replace(signatures=chain.signatures[:-1])

    def with_statement(self, shape, chain):
        """Changes the statement of one signature."""
        if not chain.signatures:
            return chain
        place = self.randrange(len(chain.signatures))
        signatures = list(chain.signatures)
        before = tuple(self.actor(shape) for _ in range(self.randrange(3)))
        statement = self.choice([self.request(shape), Link(chain.slot + self.randrange(2), self.choice([content_of(chain.value), ()]), before)])
        signatures[place] = Signature(signatures[place].signer, statement)
        return chain._replace(signatures=tuple(signatures))

    def with_asker(self, shape, chain):
        """Changes the signature beside one request."""
        if not chain.value:
            return chain
        value = list(chain.value)
        place = self.randrange(len(value))
        value[place] = Signed(value[place].request, Signature(self.actor(shape), self.choice([value[place].request, self.request(shape)])))
        return chain._replace(value=tuple(value))

    def in_slot(self, shape, chain):
        signers = [signature.signer for signature in chain.signatures]
        return chain_of(max(0, chain.slot + self.choice([-1, 1])), chain.value, signers)

    def reply(self, number):
        return Reply(number, self.randrange(2), self.choice(ANSWERS[:2]))

    def envelope(self, shape):
        """Returns any envelope."""
        chains = [self.chain(shape, self.randrange(3), self.randrange(1, shape.f + 2), [self.content(shape)]) for _ in range(self.randrange(3))]
        request = self.request(shape)
        ask = Signed(request, Signature(self.actor(shape), self.choice([request, request, self.request(shape)])))
        return self.choice([Empty(), Round(self.randrange(3), tuple(chains)), Round(0, tuple(chains)), Ask(ask), self.reply(1), Seen(self.randrange(9))])


def chain_of(slot, value, signers):
    links = [Signature(signer, Link(slot, content_of(value), tuple(signers[:place]))) for place, signer in enumerate(signers)]
    return Chain(slot, value, tuple(links))


# ---- the calls of a row, by groups


def chain_calls(chance):
    shape = chance.choice(SHAPES)
    for _ in range(8):
        slot, count = chance.randrange(7), chance.randrange(1, shape.f + 2)
        yield f"check {shape_text(shape)} {slot} {count} {chain_text(chance.chain(shape, slot, count, [chance.content(shape)]))}"


def slot_calls(chance):
    shape, slot = chance.choice(SHAPES), chance.randrange(7)
    contents = [chance.content(shape) for _ in range(3)]
    yield f"slot {shape_text(shape)} {slot}"
    for count in range(1, shape.f + 2):
        for _ in range(chance.randrange(5)):
            chain = chain_text(chance.chain(shape, slot, count, contents))
            yield from chance.choice([[f"read {chain}"], [f"would-keep {chain}", f"read {chain}"]])
        yield from ["kept", "close", *(f"relays r{p}" for p in range(shape.n)), "decide"]
    yield from [f"relays-in {chance.randrange(4)} r0", "take-decision", "close"]


def tally_calls(chance):
    f = chance.randrange(4)
    replies = [f"{chance.randrange(1, 3)} {chance.randrange(2)} {answer}" for answer in chance.sample(ANSWERS, 2)]
    yield f"tally {f} {2 * f + 1}"
    for _ in range(4 * f + 2):
        yield from [f"note r{chance.randrange(2 * f + 1)} {chance.choice(replies)}", "winner", f"votes {chance.choice(replies)}"]
    yield from [f"vote-of r{replica}" for replica in range(2 * f + 1)]


def directory_calls(chance):
    yield "directory"
    if chance.random() < 0.1:
        yield f"write-each {chance.randrange(2)} {1024 + chance.randrange(2)} 5"
    for _ in range(12):
        yield f"apply {' '.join(chance.choice(OPERATIONS))}"
    yield from ["len", "get a", "get b"]


def machine_calls(chance):
    shape = chance.choice(SHAPES)
    yield f"machine {shape.m}"
    for _ in range(6):
        yield from [f"accept {content_text(chance.content(shape))}", "history", "get a"]
    yield from [f"kept c{number}" for number in range(shape.m)]


def client_calls(chance):
    shape = chance.choice(SHAPES)
    me = chance.randrange(shape.m)
    yield f"client {shape_text(shape)} c{me}"
    for _ in range(20):
        sender = chance.choice([("r", p) for p in range(shape.n)] + [("c", c) for c in range(shape.m) if c != me])
        envelope = chance.reply(chance.randrange(1, 4)) if chance.often() else chance.envelope(shape)
        yield chance.choice([f"begin {' '.join(chance.choice(OPERATIONS))}", *[f"taken {actor_text(sender)} {envelope_text(envelope)}"] * 5])
        yield chance.choice(["seen", "outstanding", "ask-for r0", "first-ask read a", f"told {chance.randrange(5)}"])


def replica_calls(chance):
    """Yields the calls of four rounds of a replica. What it takes is by chance; what it posts is due, or refused."""
    shape = chance.choice(SHAPES)
    contents = [chance.content(shape) for _ in range(3)]
    yield f"replica {shape_text(shape)} r{chance.randrange(shape.n)}"
    for t in range(4):
        for p in range(shape.n):
            yield from asks(chance, shape)
            yield f"post r{chance.randrange(shape.n)}"
            if p == 0:
                yield f"post r0 from {'+'.join(f'c{c}' for c in chance.sample(range(shape.m), chance.randrange(1, shape.m + 1)))}"
            yield from [f"post r{p}", "due"]
        for p in range(shape.n):
            word = chance.choice(["passed-over", "taken"])
            envelope = envelope_text(round_of(chance, shape, t, contents))
            yield from [f"{word} r{p} {envelope}", f"taken r{p} {envelope}"][word == "taken":]
        yield from ["in-flight", "decided", "history", "entries", *(f"reply c{c}" for c in range(shape.m))]


def asks(chance, shape):
    for _ in range(chance.randrange(2)):
        signed = chance.signed(chance.request(shape))
        yield f"ask c{signed.request.client if chance.often() else 0} {signed_text(signed)}"
        yield f"held c{signed.request.client}"


def round_of(chance, shape, t, contents):
    """Returns an envelope of this round, or any other."""
    if not chance.often():
        return chance.envelope(shape)
    slots = [chance.randrange(max(0, t - shape.f), t + 1) for _ in range(chance.randrange(4))]
    return Round(t, tuple(chance.chain(shape, slot, t - slot + 1, contents) for slot in slots))


def draft_calls(chance):
    shape = chance.choice(SHAPES)
    yield f"keys {'+'.join(sorted({actor_text(chance.actor(shape)) for _ in range(chance.randrange(4))})) or '-'}"
    for _ in range(10):
        envelope = envelope_text(chance.envelope(shape))
        yield from [f"build {envelope}", *chance.choice([[], [f"learn {envelope}", f"build {envelope}"]])]


CALLS = {
    "chain": chain_calls, "client": client_calls, "directory": directory_calls, "draft": draft_calls, "machine": machine_calls,
    "replica": replica_calls, "slot": slot_calls, "tally": tally_calls,
}


def rows_of(group, seed, count):
    """Returns a file of rows by chance."""
    lines = [f"dsr-rows 1 {group}"]
    for number in range(count):
        calls = CALLS[group](Chance(f"{seed} {number}"))
        lines += [f"row {group}/by-chance-{seed}-{number}", *(f"> {call}" for call in calls)]
    return "".join(Adapter().follow(f"{line}\n" for line in lines))


def main(words):
    if len(words) != 3:
        print(__doc__, file=sys.stderr)
        return 2
    folder, seed, count = words[0], int(words[1]), int(words[2])
    os.makedirs(folder, exist_ok=True)
    for group in CALLS:
        with open(f"{folder}/{group}.rows", "w", encoding="latin-1") as file:
            file.write(rows_of(group, seed, count))
    return 0


if __name__ == "__main__":
    sys.exit(main(sys.argv[1:]))
