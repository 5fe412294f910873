#!/usr/bin/env python3
"""What tools/export writes, read again by readers that are written here: tests/exports.py, or with the names of some of its parts. No program of dsr runs:
the data lines and transcripts are those of the models of tests/models, and of examples/.

jepsen: the histories of all plays of examples/, of their transcripts, of random plays, and of what examples/record/service.py printed. Each is read as
EDN, and judged by a search for an order of the operations that the registers allow; it must be found. A history with another value, or with an answer
before its request, must not be judged so.

shiviz: the logs of the same. In each clock an actor counts its own events one by one, and of each other actor just those that happened before, which is
computed anew from the steps.

refused: what tools/export must not take.
"""

import collections
import json
import random
import re
import subprocess
import sys
import tempfile

from kit import inputs
from kit.program import PYTHON, TOP, bytes_of, name_of, shown
from kit.report import in_threads, main
from models import slow_check, slow_play
from models.words import MODELS

RANDOM_PLAYS = 40
STEP = re.compile("(?P<host>\\S*) (?P<clock>{.*})\n(?P<event>.*)\n")


def exported(words, text):
    """The run of tools/export with these words on this text."""
    ran = subprocess.run([*PYTHON, f"{TOP}/tools/export", *words], input=text, capture_output=True, timeout=120)
    return ran.returncode, ran.stdout, ran.stderr


def runs():
    """Yields the name of each run and its text, of both kinds that tools/export reads."""
    for stem in inputs.plays("*.play", "attacks/*.play", "agreement/*.play", "why/*.play"):
        text = bytes_of(f"{stem}.play")
        status, data, _ = MODELS["explain --data"](text)
        if status == 0:
            yield f"{name_of(stem)}, explained", data
            yield f"{name_of(stem)}, transcript", MODELS["play --transcript"](text)[1]
    yield "examples/record/honest.transcript", bytes_of("examples/record/honest.transcript")
    for seed in range(RANDOM_PLAYS):
        yield f"random play {seed}", slow_play.played(inputs.random_play(random.Random(seed)).text(), True)[1]


# ---- EDN, as far as histories have it

EDN = re.compile(r'[\[\]{}]|"[^"]*"|[^\s,\[\]{}"]+')


def read_edn(tokens):
    """Reads one value from these tokens: a map, a vector, a string, a keyword, nil or a number."""
    token = next(tokens)
    if token in ("{", "["):
        items = []
        while (item := read_edn(tokens)) is not END:
            items.append(item)
        return dict(zip(items[::2], items[1::2])) if token == "{" else items
    if token in ("}", "]"):
        return END
    if token == "nil":
        return None
    return token[1:].strip('"') if token[0] in ':"' else int(token.removesuffix("N"))


END = object()


def read_history(text):
    """Reads a history, an operation a line, and returns the events of each."""
    return [read_edn(iter(EDN.findall(line))) for line in text.decode().splitlines()]


# ---- whether a history is one of registers


class Call(collections.namedtuple("Call", "begin end kind f register value result")):
    """An operation of a history: from which event to which it lasted, how it ended, and what it was told."""


def calls_of(history):
    """The operations of a history, or what is wrong with it as one: its times fall, or a process does not take turns."""
    open_calls, calls = {}, []
    for place, event in enumerate(history):
        if event["index"] != place or place and event["time"] < history[place - 1]["time"]:
            return f"event {place} is out of order"
        if (event["type"] == "invoke") == (event["process"] in open_calls):
            return f"event {place} is not its process's turn"
        if event["type"] == "invoke":
            open_calls[event["process"]] = place, event
            continue
        begin, asked = open_calls.pop(event["process"])
        if (asked["f"], asked["value"][0]) != (event["f"], event["value"][0]):
            return f"event {place} ends another operation"
        calls.append(Call(begin, place, event["type"], event["f"], event["value"][0], asked["value"][1], event))
    return f"{len(open_calls)} operations do not end" if open_calls else calls


def after(registers, call):
    """What registers hold after an operation, or None if it cannot have ended so."""
    held, ended = registers.get(call.register), call.result
    if call.kind == "info":
        ended = None
    left = {"read": held, "write": call.value, "remove": None, "cas": call.value[1] if call.f == "cas" and held == call.value[0] else held}[call.f]
    fits = {
        "read": lambda: ended["value"][1] == held, "remove": lambda: ended["value"][1] == held, "write": lambda: ended["type"] == "ok",
        "cas": lambda: ended["type"] == "ok" and held == call.value[0] or ended.get("error") == "kept" and ended["kept"] == held != call.value[0],
    }[call.f]
    return {**registers, call.register: left} if ended is None or fits() else None


def has_order(calls, done=frozenset(), registers=None, seen=None):
    """Whether the operations that are left can be put in an order. One without an answer may be left out. What is tried twice is tried once."""
    registers, seen = registers or {}, seen if seen is not None else set()
    left = [call for place, call in enumerate(calls) if place not in done]
    if all(call.kind == "info" for call in left):
        return True
    state = done, tuple(sorted(registers.items(), key=str))
    if state in seen:
        return False
    seen.add(state)
    first_end = min(call.end for call in left)
    for place, call in enumerate(calls):
        if place not in done and call.begin <= first_end:
            more = after(registers, call)
            if more is not None and has_order(calls, done | {place}, more, seen):
                return True
    return False


def fault_of_history(history):
    calls = calls_of(history)
    if isinstance(calls, str):
        return calls
    return None if has_order(calls) else "there is no order of its operations"


def accepted_in(text):
    """The accepted replies in the run's own words: those that the data lines tell, or that the checker of tests/models reports of a transcript."""
    if text.startswith(b"dsr-explain"):
        return [line.split(" ", 1)[1] for line in text.decode().split("\n") if line.startswith("accept ")]
    return [line.split(" ", 1)[1] for line in slow_check.verdict_of(text)[1].decode().split("\n") if line.startswith("accepted ")]


def check_of_history(named):
    """The name of a run, what is wrong with its history, or None, and what is said of it."""
    name, text = named
    status, output, errors = ran = exported(["jepsen"], text)
    if status or errors:
        return name, shown(ran), None, 0
    history = read_history(output)
    ended = sum(event["type"] in ("ok", "fail") for event in history)
    fault = fault_of_history(history)
    if ended != len(accepted_in(text)):
        fault = f"{ended} operations end, and {len(accepted_in(text))} replies are accepted"
    return name, fault, None, ended


def wrong_histories():
    """Histories that are none of registers, or none at all, each with what is wrong with it."""
    honest = exported(["jepsen"], bytes_of("examples/record/honest.transcript"))[1].decode()
    yield "as it is", honest, None
    yield "another value read", '["b" 8]'.join(honest.rsplit('["b" 7]', 1)), "there is no order of its operations"
    yield "a value that was overwritten", honest.replace('["a" 6]}', '["a" 5]}'), "there is no order of its operations"
    yield "a swap from another value", honest.replace('["a" [5 6]]', '["a" [4 6]]'), "there is no order of its operations"
    lines = honest.splitlines(keepends=True)
    yield "an end left out", "".join(lines[:-1]), "1 operations do not end"
    yield "two lines exchanged", "".join([*lines[:2], lines[3], lines[2], *lines[4:]]), "event 2 is out of order"


def fault_of_register(text, register):
    """What is wrong with the history of one register, beside that of all, or None."""
    whole = [event for event in read_history(exported(["jepsen"], text)[1]) if event["value"][0] == register]
    alone = read_history(exported(["jepsen", "--register", register], text)[1])
    same = [{**event, "value": event["value"][1], "index": place} for place, event in enumerate(whole)]
    return None if alone == same and alone else f"{alone}, and not {same}"


def jepsen(report, _):
    ended = 0
    for name, fault, said, count in in_threads(check_of_history, runs()):
        report.judge(f"history of {name}", fault, said)
        ended += count
    report.judge("operations that end", None if ended > 100 else f"only {ended}", f", {ended}")
    for name, text, wanted in wrong_histories():
        report.compare(f"a history with {name}", fault_of_history(read_history(text.encode())), wanted)
    for register in ("a", "b"):
        report.judge(f"register {register} alone", fault_of_register(bytes_of("examples/record/honest.transcript"), register))


# ---- logs with vector clocks


def steps_of(text):
    """The steps that a run's text tells, in their order: actor, whether it takes, and the other end."""
    lines = text.decode().split("\n")[1:-1]
    if text.startswith(b"dsr-transcript"):
        words = [line.split(" ") for line in lines]
        return [(actor, word == "take", other) for actor, word, other, *_ in words]
    words = [line.split(" ") for line in lines if line.startswith("event ")]
    return [(event[4], event[3] == "take", event[5]) for event in words if event[6] == "done"]


def counts_before(steps):
    """For each step how many steps of each actor happened before it or are it: by all steps before, and not by clocks."""
    past, last, boxes, counts = [], {}, collections.defaultdict(list), []
    for place, (actor, takes, other) in enumerate(steps):
        sources = [last[actor]] if actor in last else []
        sources += [boxes[other, actor].pop(0)] if takes else []
        past.append({place}.union(*(past[source] for source in sources)))
        last[actor] = place
        if not takes:
            boxes[actor, other].append(place)
        counts.append(collections.Counter(steps[earlier][0] for earlier in past[-1]))
    return counts


def check_of_log(named):
    """The name of a run, what is wrong with its log, or None, and what is said of it."""
    name, text = named
    status, output, errors = ran = exported(["shiviz"], text)
    log, steps = output.decode(), steps_of(text)
    events = list(STEP.finditer(log))
    if status or errors or "".join(event[0] for event in events) != log:
        return name, shown(ran), None
    if [(event["host"], event["event"].split(" ")[0] == "take", event["event"].split(" ")[1]) for event in events] != steps:
        return name, "it has other steps", None
    for place, (event, counts) in enumerate(zip(events, counts_before(steps))):
        if json.loads(event["clock"]) != counts:
            return name, f"event {place}: {event['clock']}, and not {dict(counts)}", None
    return name, None if events or not steps else "it has no events", None


def shiviz(report, _):
    report.judge_some("logs", ((f"log of {name}", fault, said) for name, fault, said in in_threads(check_of_log, runs())))
    told = exported(["shiviz"], MODELS["explain --data"](bytes_of("examples/attacks/two-faced-sender.play"))[1])[1]
    for wanted in (b"\ntake r2 reply 1 0 written | vote c0 r2 2 2 | accept c0 1 0 written\n", b" | close r1 1 | decide r1 0 2 idle\n"):
        report.judge(f"a log tells {wanted!r}", None if wanted in told else "it does not")


# ---- what is refused


def refused(report, _):
    with tempfile.NamedTemporaryFile(prefix="dsr-report-") as other:
        other.write(b"accepted c0 1 0 written\n")
        other.flush()
        judge_refused(report, other.name)


def judge_refused(report, other):
    honest, right = bytes_of("examples/record/honest.transcript"), f"{TOP}/examples/record/honest.out"
    for what, words, text, status in [
        ("the report of this run", ["jepsen", "--report", right], honest, 0),
        ("the report of another run", ["jepsen", "--report", other], honest, 1),
        ("a transcript that ends too early", ["jepsen", "--report", right], b"".join(honest.splitlines(keepends=True)[:200]), 1),
        ("no text", ["jepsen"], b"", 1), ("a play", ["shiviz"], bytes_of("examples/one-replica.play"), 1),
        ("a last line without its end", ["shiviz"], honest[:-1], 1),
        ("a line that is none", ["jepsen"], honest + b"c0\n", 1), ("a take of nothing", ["shiviz"], b"dsr-transcript 1 1 0 1 -\nr0 take c0 empty\n", 1),
        ("no word", [], honest, 2), ("another word", ["dot"], honest, 2),
    ]:
        ran = exported(words, text)
        is_well = ran[0] == status and b"Traceback" not in ran[2] and bool(ran[1]) == (status == 0)
        report.judge(f"{what}: status {status}", None if is_well else shown(ran))


if __name__ == "__main__":
    PARTS = {"jepsen": jepsen, "shiviz": shiviz, "refused": refused}
    sys.exit(main(__doc__, PARTS, without_program=PARTS))
