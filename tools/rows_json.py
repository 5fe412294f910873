#!/usr/bin/env python3
"""The rows of conformance/rows as JSON: tools/rows_json.py says which files of conformance/json are not current; tools/rows_json.py --write writes them.

There is a file for each group. Each row is a line in it. A call has its text, and each operand as text and as a tree; an answer likewise, if it is a
token. In trees numbers are strings, and a signature is `{"signer": ACTOR, "on": STATEMENT}`, with the text of the statement, which real keys can sign.
"""

import json
import os
import sys

TOP = os.path.dirname(os.path.dirname(os.path.realpath(__file__)))
sys.path[:0] = [f"{TOP}/tests", f"{TOP}/conformance"]

import run as conformance  # noqa: E402
from models import calls, clients, directory, keys, replicas, slots, tokens, votes  # noqa: E402
from models.transcript_text import (  # noqa: E402
    Ask, Bad, Chain, Empty, Link, Reader, Reply, Request, Round, Seen, Shape, Signature, Signed, actor_text, content_text, request_text, statement_text,
)

FOLDER = f"{TOP}/conformance/json"

# ---- trees


def of_operation(op):
    fields = {"read": ["name"], "write": ["name", "value"], "swap": ["name", "from", "to"], "remove": ["name"]}[op[0]]
    return {"word": op[0], **dict(zip(fields, op[1:]))}


def of_request(request):
    return {"client": f"c{request.client}", "number": str(request.number), "operation": of_operation(request.op)}


def of_statement(statement):
    if isinstance(statement, Request):
        return {"text": request_text(statement), "request": of_request(statement)}
    contents = list(map(request_text, statement.content))
    return {"text": statement_text(statement), "slot": str(statement.slot), "content": contents, "before": list(map(actor_text, statement.before))}


def of_signature(signature):
    return {"signer": actor_text(signature.signer), "on": of_statement(signature.statement)}


def of_signed(signed):
    return {"request": of_request(signed.request), "signature": of_signature(signed.signature)}


def of_chain(chain):
    return {"slot": str(chain.slot), "value": list(map(of_signed, chain.value)), "signatures": list(map(of_signature, chain.signatures))}


def of_answer(text):
    word, _, value = text.partition(" ")
    return {"word": word, "value": value} if value else {"word": word}


def of_shape(shape):
    return {"n": str(shape.n), "f": str(shape.f), "m": str(shape.m), "traitors": [f"r{traitor}" for traitor in shape.traitors]}


TREES = {
    Shape: of_shape, Request: of_request, Link: of_statement, Signature: of_signature, Signed: of_signed, Chain: of_chain, Empty: lambda _: {"kind": "empty"},
    Round: lambda it: {"kind": "round", "round": str(it.round), "chains": list(map(of_chain, it.chains))},
    Ask: lambda it: {"kind": "ask", "ask": of_signed(it.ask)}, Seen: lambda it: {"kind": "seen", "front": str(it.front)},
    Reply: lambda it: {"kind": "reply", "number": str(it.number), "place": str(it.place), "answer": of_answer(it.answer)},
}
WORDS = ("read", "write", "swap", "remove")


def of_tuple(found):
    """Returns the tree of a list, an actor or an operation."""
    if len(found) == 2 and found[0] in ("r", "c") and isinstance(found[1], int):
        return actor_text(found)
    if found and isinstance(found[0], str) and found[0] in WORDS:
        return of_operation(found)
    return [tree(item) for item in found]


def tree(found):
    """Returns the tree of what a reader read."""
    if type(found) in TREES:
        return TREES[type(found)](found)
    if isinstance(found, (tuple, list)):
        return of_tuple(found)
    return str(found) if isinstance(found, int) else found


# ---- the operands of each verb


# What reads an operand of each kind. Those that are not here are texts alone.
READS = {
    "shape": Reader.shape, "number": calls.val, "replica": calls.replica, "client": calls.client, "actor": Reader.actor, "name": Reader.name,
    "operation": calls.spaced_operation, "request": Reader.request, "requests": tokens.requests, "content": Reader.content, "statement": Reader.statement,
    "signed-request": Reader.signed, "value": Reader.value, "chain": Reader.chain, "chains": slots.spaced_chains, "envelope": Reader.envelope,
    "reply": votes.reply,
    "replies": directory.client_replies, "signers": calls.signers, "signatures": keys.spaced_signatures, "holders": keys.holders, "word": calls.word,
    "choice": calls.optional("from ", replicas.chosen), "rest": calls.rest,
}
OPERANDS = {
    "shape-of": "number number number number", "shape-parts": "shape", "replica-of": "number", "client-of": "number", "has": "shape actor",
    "is-loyal": "shape actor",
    "sender": "shape number", "size": "shape", "place": "shape actor", "actor-at": "shape number", "request": "client number operation",
    "request-parts": "request",
    "check": "shape number number chain", "asked": "shape signed-request", "parts": "chain", "signature": "number chain", "has-signer": "actor chain",
    "has-misfit": "chain", "start": "actor number value", "extend": "actor chain", "sign": "actor statement", "links": "number content signers",
    "are-links": "number content signatures", "link-fits": "number content signers", "calendar": "shape number", "round-of": "shape number number",
    "plain": "envelope",
    "keys-of": "shape", "take": "actor", "tally": "number number", "note": "replica reply", "votes": "reply", "vote-of": "replica", "apply": "operation",
    "get": "name",
    "machine": "number", "accept": "content", "kept": "client", "answer-at": "number", "ledger": "number", "slot": "shape number", "read": "chain",
    "would-keep": "chain",
    "close-round": "chains", "relays": "replica", "relays-in": "number replica", "client": "shape client", "begin": "operation", "first-ask": "operation",
    "ask-for": "replica", "taken": "actor envelope", "told": "number", "replica": "shape replica", "allows": "replica choice", "refused": "replica choice",
    "envelope": "replica choice", "post": "replica choice", "passed-over": "replica envelope", "ask": "client signed-request", "held": "client",
    "reply": "client",
    "keys": "holders", "build": "envelope", "learn": "envelope", "forged": "envelope", "ops": "client", "right": "replies", "step": "number",
}
# Two verbs have other operands in some groups.
IN_GROUP = {("ledger", "acts"): "client number", ("ledger", "note"): "client reply", ("judge", "acts"): "requests", ("slot", "kept"): ""}
# Verbs whose last operand is a text of lines, and those whose answer is a token.
TEXTS = ("play", "script", "transcript")
ANSWERS = {
    "relays": "envelope", "relays-in": "envelope", "envelope": "envelope", "post": "envelope", "ask-for": "envelope", "first-ask": "envelope",
    "extend": "envelope",
    "reply": "envelope", "decide": "content", "held": "request", "sign": "long-signature", "signature": "long-signature", "forged": "long-signature",
}


def read_all(read, text):
    """Returns what all of the text spells, or None."""
    reader = Reader(text)
    try:
        found = read(reader)
        reader.end()
    except (Bad, calls.Refused):
        return None
    return found


def tree_of(kind, found):
    """Returns the tree of what was read of this kind. A request that is a statement is an ask."""
    return of_statement(found) if kind == "statement" else tree(found)


def token(kind, text, read):
    """Returns a token as text and as a tree; of a text that is none the tree is missing."""
    found = read_all(read, text)
    return {"kind": kind, "text": text} if found is None else {"kind": kind, "text": text, "tree": tree_of(kind, found)}


def of_lines(text):
    """Returns a text of lines: whether its last line is ended, and of each line the text."""
    lines = text.removesuffix(" |").split(" | ")
    return {"kind": "text", "lines": lines, "ended": text.endswith(" |")}


def of_step(line):
    """Returns the tree of a line of a transcript, or None if it is none."""
    step = read_all(Reader.step, line)
    return step and {"actor": actor_text(step.actor), "does": step.word, "other": actor_text(step.other), "envelope": tree(step.envelope)}


def operands_of(group, verb, text):
    """Returns the operands of a call, in their order."""
    if verb in TEXTS:
        lines = of_lines(text)
        return [{**lines, "steps": list(map(of_step, lines["lines"][1:]))} if verb == "transcript" else lines]
    kind, _, rest = text.partition(" ")
    if verb == "token" and kind in tokens.KINDS:
        return [{"kind": "word", "text": kind}, token(kind, rest, tokens.KINDS[kind])]
    if verb == "same" and kind in tokens.COMPARED:
        of, read = ("chain", Reader.chain) if kind == "content" else (kind, tokens.COMPARED[kind])
        return [{"kind": "word", "text": kind}, *(token(of, side, read) for side in rest.split(" | "))]
    kinds = IN_GROUP.get((group, verb), OPERANDS.get(verb))
    if kinds is None:
        return [{"kind": "text", "lines": [text], "ended": False}] if text else []
    return read_operands(kinds.split(), text)


def read_operands(kinds, text):
    """Returns the operands of these kinds, which a space parts. Words that are none of them are one text."""
    reader, found = Reader(text), []
    try:
        for place, kind in enumerate(kinds):
            if place and reader.at < len(text):
                reader.need(" ")
            begun = reader.at
            value = READS[kind](reader)
            if reader.at > begun:
                found.append({"kind": kind, "text": text[begun:reader.at], "tree": tree_of(kind, value)})
        reader.end()
    except (Bad, calls.Refused, calls.NoCall):
        return [{"kind": "text", "lines": [text], "ended": False}]
    return found


def of_call(group, call, wanted):
    verb, _, text = call.partition(" ")
    found = {"call": call, "verb": verb, "operands": operands_of(group, verb, text), "answer": wanted}
    kind = ANSWERS.get(verb)
    read = tokens.long_signature if kind == "long-signature" else READS.get(kind)
    value = read and read_all(read, wanted)
    return {**found, "tree": tree(value)} if value is not None else found


def of_row(group, row):
    return {"name": row.name, "tags": row.tags, "notes": row.notes, "calls": [of_call(group, *call) for call in row.calls]}


# ---- files


def files():
    """Yields the path of each file, from the top of the repository, and its text."""
    groups = {}
    for group, rows in conformance.all_rows(f"{TOP}/conformance/rows"):
        groups.setdefault(group, []).extend(rows)
    for group, rows in groups.items():
        lines = ",\n".join(json.dumps(of_row(group, row), ensure_ascii=True, separators=(",", ":")) for row in rows)
        yield f"conformance/json/{group}.json", f'{{"format":"dsr-rows 1","group":"{group}","rows":[\n{lines}\n]}}\n'


def main(words):
    if words not in ([], ["--write"]):
        print(__doc__, file=sys.stderr)
        return 2
    stale = 0
    os.makedirs(FOLDER, exist_ok=True)
    for path, text in files():
        found = None
        if os.path.exists(f"{TOP}/{path}"):
            with open(f"{TOP}/{path}", encoding="ascii") as file:
                found = file.read()
        if found != text:
            stale += 1
            print(f"{path} {'is written' if words else 'is not current'}")
            if words:
                with open(f"{TOP}/{path}", "w", encoding="ascii") as file:
                    file.write(text)
    return 1 if stale and not words else 0


if __name__ == "__main__":
    sys.exit(main(sys.argv[1:]))
