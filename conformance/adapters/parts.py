#!/usr/bin/env python3
"""An adapter in Python, as an example: chains, slots, votes and the calendar. It passes what it answers of these groups, and skips all other calls:

    conformance/run.py --group chain --group slot --group tally --group calendar conformance/adapters/parts.py

It reads `row NAME` and `> CALL` on standard input, and writes one `< ANSWER` for each call. Chains stay texts here: a signature is on the
statement that fits its place if no other statement is spelled out beside it.
"""

import sys
from typing import NamedTuple


def split(text, mark):
    """Returns the items of a text that this mark joins outside parentheses."""
    items, depth = [""], 0
    for letter in text:
        depth += (letter == "(") - (letter == ")")
        if letter == mark and depth == 0:
            items.append("")
        else:
            items[-1] += letter
    return items


class Chain(NamedTuple):
    text: str
    slot: int
    asks: list
    signatures: list

    def signers(self):
        return [signature.partition("(")[0] for signature in self.signatures]

    def content(self):
        """Returns the requests alone: who signed them is no part of the content."""
        return [ask.partition("~")[0] for ask in self.asks]

    def extended(self, signer):
        return f"{self.text.removesuffix('-')}{'+' * bool(self.signatures)}{signer}"


def read_chain(text):
    slot, value, signatures = split(text, "/")
    return Chain(text, int(slot), [] if value == "idle" else split(value, ","), [] if signatures == "-" else split(signatures, "+"))


class Shape(NamedTuple):
    n: int
    f: int
    replicas: list
    clients: list


def read_shape(n, f, m, traitors):
    """Reads a shape. Who is a traitor is not looked at: no rule depends on it."""
    return Shape(int(n), int(f), [f"r{number}" for number in range(int(n))], [f"c{number}" for number in range(int(m))])


# ---- chains


def is_asked(ask, clients):
    request, signature = ask.split("~", 1)
    client = request.split("#")[0]
    return client in clients and signature == client


# Each fault, and when it holds of a chain in this round of the slot. The first that holds is the answer.
FAULTS = {
    "other-slot": lambda chain, slot, count, shape: chain.slot != slot,
    "wrong-count": lambda chain, slot, count, shape: len(chain.signatures) != count,
    "wrong-sender": lambda chain, slot, count, shape: chain.signers()[:1] != [shape.replicas[slot % shape.n]],
    "no-replica": lambda chain, slot, count, shape: not set(chain.signers()) <= set(shape.replicas),
    "signed-twice": lambda chain, slot, count, shape: len(set(chain.signers())) < len(chain.signers()),
    "misfit": lambda chain, slot, count, shape: chain.signers() != chain.signatures,
    "bad-request": lambda chain, slot, count, shape: not all(is_asked(ask, shape.clients) for ask in chain.asks),
}


def fault_of(chain, slot, count, shape):
    return next((name for name, holds in FAULTS.items() if holds(chain, slot, count, shape)), None)


def check(n, f, m, traitors, slot, count, chain):
    shape = read_shape(n, f, m, traitors)
    return (fault_of(read_chain(chain), int(slot), int(count), shape) or "ok") if 1 <= int(count) <= shape.f + 1 else "no-call"


# ---- one slot at one replica


class Slot:
    """What is kept so far: at most two chains with different contents, each with the round in which it was read."""

    def __init__(self, n, f, m, traitors, slot):
        self.shape, self.slot, self.closed, self.chains = read_shape(n, f, m, traitors), int(slot), 0, []

    def fate(self, chain):
        contents = [kept.content() for _, kept in self.chains]
        fault = fault_of(chain, self.slot, self.closed + 1, self.shape)
        return fault or ("not-new" if chain.content() in contents else ["first", "second", "one-too-many"][len(contents)])

    def read(self, text):
        if self.closed > self.shape.f:
            return "no-call"
        chain = read_chain(text)
        fate = self.fate(chain)
        if fate in ("first", "second"):
            self.chains.append((self.closed + 1, chain))
        return fate

    def would_keep(self, text):
        if self.closed > self.shape.f:
            return "no-call"
        return "yes" if self.fate(read_chain(text)) in ("first", "second") else "no"

    def close_round(self, *chains):
        if self.closed > self.shape.f:
            return "no-call"
        for chain in chains:
            self.read(chain)
        self.closed += 1
        return str(self.closed)

    def relays_in(self, count, me):
        """Answers with the chains that were kept in the round before and that this replica has not signed, each with its signature."""
        chains = [chain.extended(me) for at, chain in self.chains if at + 1 == int(count) and me not in chain.signers()]
        return " ".join([f"round {count}", *chains]) if chains else "empty"

    def kept(self):
        return " | ".join(f"round {at} {chain.text}" for at, chain in self.chains) or "-"

    def asks(self):
        """Returns the requests of the value that is decided: those of the one chain that is kept."""
        return self.chains[0][1].asks if len(self.chains) == 1 else []

    def decide(self):
        return ",".join(ask.partition("~")[0] for ask in self.asks()) or "idle" if self.closed > self.shape.f else "-"

    def take_decision(self):
        value = ",".join(self.asks()) or "idle"
        return f"{self.decide()} value {value} requests {len(self.asks())}" if self.closed > self.shape.f else "no-call"

    CALLS = {
        "read": read, "would-keep": would_keep, "close": close_round, "close-round": close_round, "relays-in": relays_in, "kept": kept, "decide": decide,
        "take-decision": take_decision,
        "relays": lambda self, me: self.relays_in(self.closed + 1, me),
    }


# ---- votes


class Tally:
    """The first reply of each of at most 16 replicas, and the reply that first had more than f votes."""

    def __init__(self, f, n):
        self.f, self.n, self.firsts, self.won = int(f), int(n), {}, None

    def note(self, replica, *reply):
        if int(replica[1:]) >= self.n:
            return "no-call"
        self.firsts.setdefault(replica, " ".join(reply))
        if int(self.votes(*reply)) > self.f:
            self.won = self.won or " ".join(reply)
        return "ok"

    def votes(self, *reply):
        return str(list(self.firsts.values()).count(" ".join(reply)))

    def clear(self):
        self.firsts, self.won = {}, None
        return "ok"

    CALLS = {
        "note": note, "votes": votes, "clear": clear, "winner": lambda self: self.won or "-", "vote-of": lambda self, replica: self.firsts.get(replica, "-"),
    }


# ---- the calendar


def calendar(n, f, m, traitors, t):
    n, f, t = int(n), int(f), int(t)
    return f"slots {max(0, t - f)} {t} closes {t - f if t >= f else '-'} sender r{t % n}"


def round_of(n, f, m, traitors, slot, t):
    return str(int(t) - int(slot) + 1) if 0 <= int(t) - int(slot) <= int(f) else "-"


CALLS = {
    "check": check, "calendar": calendar, "round-of": round_of, "has-misfit": lambda chain: "yes" if FAULTS["misfit"](read_chain(chain), 0, 0, None) else "no",
    "asked": lambda n, f, m, traitors, ask: "yes" if is_asked(ask, read_shape(n, f, m, traitors).clients) else "no",
    "has-signer": lambda signer, chain: "yes" if signer in read_chain(chain).signers() else "no",
}
OPENERS = {"slot": Slot, "tally": Tally}


class Adapter:
    """The value that the row opened, if it opened one."""

    def __init__(self):
        self.opened = None

    def answer(self, verb, *operands):
        if verb == "tally" and int(operands[1]) > 16:
            return "no-call"
        if verb in OPENERS:
            self.opened = OPENERS[verb](*operands)
            return "ok"
        call = getattr(self.opened, "CALLS", {}).get(verb)
        if call:
            return call(self.opened, *operands)
        return CALLS[verb](*operands) if verb in CALLS else "skip"


def main():
    adapter = Adapter()
    for line in sys.stdin:
        word, *operands = line.rstrip("\n").split(" ")
        if word == "row":
            adapter = Adapter()
        elif word == ">":
            print("<", adapter.answer(*operands), flush=True)


if __name__ == "__main__":
    main()
