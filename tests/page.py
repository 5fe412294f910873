#!/usr/bin/env python3
"""The page page/dsr.html: tests/page.py, or with the names of some of its parts.

sums: the page names the sums of what it is made from, and these are the sums of the sources that are here (tools/page makes it anew if they are not). It loads
nothing from elsewhere, and what it suggests to change in a play is there.

module: each task is done with each text by the module that the page has in it, in node, and must be what the built program writes.

native: the same by the static library dsr_page in a program of C. It needs the libraries that `rt ci` leaves, and a C compiler, `cc`, and takes minutes. Where node
can run the module, which is made of the same sources, this part runs only if it is named.

pictures: what page/parts/picture.js makes of data lines, in node, must be what tools/picture_run.py makes of them for SVGs, as far as those show it; and what it says of
some events is written here. A long run is drawn in stretches (page/parts/stretch.js): each must have what the picture of the whole has there.

The texts are the examples of all words but `serve`, all transcripts, 20 random plays, and a play that writes far more than it says. Without a node that knows the module's memory, the module and the
pictures are skipped, and counted.
"""

import base64
import contextlib
import functools
import gzip
import json
import os
import random
import re
import shutil
import subprocess
import sys
import tempfile

from kit import inputs
from kit.archives import archive_of, linked_with
from kit.program import PYTHON, TOP, bytes_of, program, run, shown, text_of
from kit.report import in_threads, main, say
from kit.written import tables

sys.path.insert(0, f"{TOP}/tools")

import page_sources
from picture_run import BadData, Run

TASKS = ["apply", "play", "play --transcript", "check", "explain", "explain --data"]
RANDOM_PLAYS, MUCH = 20, 150
FLAG = "--experimental-wasm-memory64"
# Where a page could ask for something.
ELSEWHERE = re.compile(r"""\b(?:src|href)\s*=\s*["']?(?!["']?#)(?!["']?\$\{shownPage\})|url\((?!["']?#)|@import|https?://(?!www\.w3\.org/2000/svg")|fetch\(|XMLHttpRequest|sendBeacon""")


# ---- the page and its sources

def fault_of_sums():
    """How the page is not that of these sources, or None."""
    found = subprocess.run([*PYTHON, f"{TOP}/tools/page", "sums"], stdin=subprocess.DEVNULL, stdout=subprocess.PIPE, text=True)
    return None if found.returncode == 0 else f"{found.stdout.strip()}; tools/page makes it anew"


def fault_of_loading():
    found = ELSEWHERE.search(page_sources.MODULE.sub("", text_of(page_sources.PAGE)))
    return f"it asks for {found[0]}" if found else None


def fault_of_tries():
    """What is wrong with what the page suggests to change, or None: each is in its play once."""
    script = text_of("page/parts/page.js")
    table = re.search(r"const TRIES = \{(.*?)\n\};", script, re.S)[1]
    name, tries = re.search(r'"([\w-]+)": \[', table)[1], re.findall(r'\bold: "([^"]*)"', table)
    play = text_of(f"examples/attacks/{name}.play")
    lacking = [old for old in tries if play.count(old.replace("\\n", "\n")) != 1]
    return None if tries and not lacking else f"{name}: of {len(tries)} changes these are not there once: {lacking}"


def sums(report, _):
    report.judge("the page is that of these sources", fault_of_sums())
    report.judge("the page loads nothing", fault_of_loading())
    report.judge("what the page suggests to change", fault_of_tries())


# ---- the texts and what must come of them

@functools.cache
def texts():
    """Texts by their names."""
    found = {}
    for word in ("apply", "play", "check"):
        for path in inputs.found(*(f"{folder}*.{word}" for folder in ("", "attacks/", "agreement/", "why/", "malicious/"))):
            found[os.path.relpath(path, TOP)] = bytes_of(path)
    for path in inputs.found("**/*.transcript"):
        found[os.path.relpath(path, TOP)] = bytes_of(path)
    for seed in range(RANDOM_PLAYS):
        found[f"random play {seed}"] = inputs.random_play(random.Random(f"page {seed}")).text()
    # Its transcript has more bytes than the module is lent room for at first.
    found["a play that writes much"] = b"dsr-play 1 16 7 0 -\n" + b"posts *\ntakes *\n" * MUCH
    return found


@functools.cache
def wanted(task, text):
    return program(task, text)


def cases():
    """Each text with each task."""
    return [(f"{name}: {task}", task, text) for name, text in texts().items() for task in TASKS]


# ---- the library in a program of C

def fault_of_library(room):
    """What is wrong with the library or the program that calls it, which is built in this folder, or None."""
    archive, fault = archive_of(page_sources.NAME)
    if fault:
        return fault
    words = ["cc", "-std=c11", "-Wall", "-Wextra", "-Werror", f"-I{TOP}/include", f"{TOP}/tests/page.c", *linked_with(archive)]
    return None if subprocess.run([*words, "-o", f"{room}/page"]).returncode == 0 else "tests/page.c is not built"


def native(report, _):
    with tempfile.TemporaryDirectory(prefix="dsr-page-") as room:
        fault = fault_of_library(room)
        report.judge("the library is built", fault)
        if fault:
            return
        for name, found, expected in in_threads(lambda case: (case[0], run([f"{room}/page", str(TASKS.index(case[1]))], case[2]), wanted(*case[1:])), cases()):
            report.judge(f"{name}, by the library", None if found == expected else f"{shown(found)}, and not {shown(expected)}", None)
        say(f"{len(cases())} tasks by the library")
        report.compare("a number that is no task's", run([f"{room}/page", "6"], b"c0 1 read a\n"), (2, b"", b""))
        some = b"c0 1 write a 5\nc0 2 read a\n"
        for lent in (0, 1, 10, 19, 20, 21):
            report.compare(f"room for {lent} bytes", run([f"{room}/page", "0", str(lent)], some), (0, b"0 written\n1 held 5\n"[:lent], b""))


# ---- the module and the drawing in node

def module_of_page():
    """The module that the page has in it."""
    packed = page_sources.MODULE.search(text_of(page_sources.PAGE))[1]
    return gzip.decompress(base64.b64decode(packed))


def node(path):
    """The words that run node with this module, or None."""
    valid = "process.exit(WebAssembly.validate(require('fs').readFileSync(process.argv[1])) ? 0 : 1)"
    for words in (["node"], ["node", FLAG]):
        if shutil.which("node") and run([*words, "-e", valid, path])[0] == 0:
            return words
    return None


@contextlib.contextmanager
def module_file():
    """The path of a file that has the module, for as long as it is used."""
    with tempfile.TemporaryDirectory(prefix="dsr-page-") as room:
        path = f"{room}/page.wasm"
        with open(path, "wb") as file:
            file.write(module_of_page())
        yield path


def has_node():
    """Whether there is a node that knows the module's memory."""
    with module_file() as path:
        return node(path) is not None


def judge_in_node(report, what, lines):
    """Has tests/page_cases.js do these cases, and counts each."""
    with module_file() as path:
        words = node(path)
        if not words:
            say(f"{what}: skipped, as there is no node that knows the module's memory")
            report.skipped += len(lines)
            return
        status, output, errors = run([*words, f"{TOP}/tests/page_cases.js", path], "".join(json.dumps(line) + "\n" for line in lines).encode(), seconds=600)
    found = [json.loads(line) for line in output.decode().splitlines()]
    report.judge(what, None if status == 0 and len(found) == len(lines) else f"status {status}, {len(found)} of {len(lines)}: {errors[-300:]!r}", f", {len(lines)}")
    report.judge_all((f"{line['name']}, in node", line["fault"], None) for line in found)


def in_base64(data):
    return base64.b64encode(data).decode()


def module(report, _):
    lines = []
    for name, task, text in cases():
        status, output, errors = wanted(task, text)
        lines.append({"name": name, "task": task, "text": in_base64(text), "status": status, "output": in_base64(output), "errors": in_base64(errors)})
    judge_in_node(report, "tasks by the module", lines)


MOST_LINES = 40
# What is said of an event of an attack, and of what came of it.
SAYINGS = [
    ("two-faced-sender", 13, ["r0 plants for r1: slot 0 A/r0"]),
    ("two-faced-sender", 24, ["r1 takes from r0: slot 0 A/r0", "r1 keeps A/r0 of slot 0, in round 1 of the slot: the first content."]),
    ("two-faced-sender", 43, ["r1 takes from r1: slot 0 A/r0+r1; slot 1 AB/r1", "A/r0+r1 of slot 0: this content is kept already.",
                              "r1 keeps AB/r1 of slot 1, in round 1 of the slot: the first content."]),
    ("two-faced-sender", 44, ["r1 takes from r2: slot 0 B/r0+r2", "r1 keeps B/r0+r2 of slot 0, in round 2 of the slot: a second content, so it will decide idle.",
                              "r1 closes round 1.", "r1 decides slot 0: idle. It kept 2 contents."]),
    ("two-faced-sender", 71, ["c0 takes from r2: replies to number 1: place 0, written", "The reply of r2 is a vote at c0: 2 of the 2 that are needed.",
                              "c0 accepts: number 1 stands at place 0, and the answer is written."]),
    ("misfitting-relay", 87, ["r2 takes from r1: slot 0 A/r0+r1*",
                              "A/r0+r1 of slot 0 is dropped: the signature of r1 is on something else than what stands before it."]),
    ("framed-sender", 40, ["r0 takes from r1: slot 0 BA/r0*+r1, A/r0*+r1",
                           "BA/r0+r1 of slot 0 is dropped: the signature of r0 is on something else than what stands before it.",
                           "A/r0+r1 of slot 0 is dropped: the signature of r0 is on something else than what stands before it."]),
]


def slots_of(run):
    """What was kept and decided of each slot: rows of cells, rows of decisions, and what the marks stand for."""
    places, rows = {actor: at for at, actor in enumerate(run.actors)}, {}
    for slot, (kept, decided) in run.slots().items():
        marks = run.marks(content for told in kept.values() for _, content, _ in told)
        cells = [[places[replica], at, event, marks[content], run.content_name(content), int(is_second)]
                 for (replica, at), told in kept.items() for event, content, is_second in told]
        decisions = [[places[replica], event, number, run.content_name(content)] for replica, (event, number, content) in decided.items()]
        rows[str(slot)] = [cells, decisions, run.key_of(marks)]
    return rows


def drawn(data):
    """What tools/picture_run.py makes of these data lines; None if they are none."""
    try:
        run = Run(data.decode())
    except BadData:
        return None
    return {
        "shape": run.shape_words(), "rounds": run.rounds(), "slots": slots_of(run), "names": [[run.names[it], it] for it in run.requests] if run.has_letters else [],
        "bands": [[int(band.is_posts), band.events[0].index, band.events[-1].index, band.label, [list(line) for line in run.lines_of(band, MOST_LINES)]]
                  for band in run.bands],
        "events": [[event.band, event.mate.index if event.mate else -1, int(run.is_loud(event)), int(run.is_dropped(event))] for event in run.events],
    }


# Events around which a stretch of a long play is drawn, which has 4,204.
STRETCHES, LONG_ROUNDS = [0, 700, 1000, 1001, 2600, 4000, 4203], 120


def long_play():
    """A play of many rounds, in which r3 tells two things in its slots and forges a signature, clients ask, and their replies are taken late."""
    lines = ["dsr-play 1 4 1 2 r3"]
    for number in range(LONG_ROUNDS):
        lines += ["asks c0 begin write a 1", "asks c1 begin read a", "hears c0", "hears c1"] if number % 8 == 4 else []
        lines += [f"posts r{replica}" + (f" from c{number // 8 % 2}" if number % 8 == replica + 4 else "") for replica in range(3)]
        told = [f"round {number} {number}/{value}/r3" for value in ("idle", "c0#1:write:a:1~c0")] if number % 4 == 3 else ["empty", "empty"]
        lines += [f"plant r3 r{replica} {told[replica % 2]}" for replica in range(4)]
        lines += [f"plant r3 r1 round {number} {number}/idle/r0"] if number % 10 == 9 else []
        lines += ["takes *"] + (["replies c0", "replies c1", "takes c0", "takes c1"] if number % 16 == 1 else [])
    return "".join(f"{line}\n" for line in lines).encode()


def pictures(report, _):
    lines = []
    for name, text in texts().items():
        status, data, _ = wanted("explain --data", text)
        if status == 0:
            lines.append({"name": f"the picture of {name}", "data": in_base64(data), "drawn": drawn(data)})
    header = b"dsr-explain 1 3 1 1 r0\n"
    for name, data in {"no text": b"", "no data lines": b"dsr-play 1 3 1 1 r0\n", "an event out of its turn": header + b"event 1 2 post c0 r0 done empty\n",
                       "a note that is not known": header + b"event 0 2 post c0 r0 done empty\nclosed r1 0\n",
                       "a note with a word too few": header + b"event 0 2 post c0 r0 done empty\ndecide r1 0 1\n"}.items():
        lines.append({"name": f"no picture of {name}", "data": in_base64(data), "drawn": None})
    for name, event, said in SAYINGS:
        data = wanted("explain --data", bytes_of(f"examples/attacks/{name}.play"))[1]
        lines.append({"name": f"what is said of event {event} of {name}", "data": in_base64(data), "event": event, "said": said})
    for steps, _, told, reason in tables("stops")["stops"]:
        data, said = header + b"event 0 2 post r0 r1 E14 -\n" + told.split("\n")[0].encode() + b"\n", ["r0 posts to r1", f"Refused, E14 NotARun: {reason}."]
        lines.append({"name": f"what is said of the step after {steps[-80:]!r}", "data": in_base64(data), "event": 0, "said": said})
    data = wanted("explain --data", long_play())[1]
    report.compare("events of a long play", data.count(b"\nevent "), STRETCHES[-1] + 1)
    lines += [{"name": f"the stretch around event {at} of a long play", "data": in_base64(data), "at": at} for at in STRETCHES]
    judge_in_node(report, "pictures drawn", lines)


if __name__ == "__main__":
    sys.exit(main(__doc__, {"sums": sums, "module": module, "native": native, "pictures": pictures}, without_program=["sums"],
                  only_named=["native"] if has_node() else []))
