#!/usr/bin/env python3
"""The words of the command line: tests/words.py, with no arguments.

1. `dsr --version` prints the version and the logic of the toolchain, as `rt version` names it, and README.md names that logic.
2. Each help is the text in tests/helps/, to the byte, and short enough to be shown. So is what is said of an unknown word; a word too long to be shown
   is not.
3. The lists of words of tests/written/words.txt; each list of at most two words of a vocabulary; and 2,000 others drawn by chance, most of them longer.
   On an empty input each asks for what a definition written anew says, and what is written by hand beside it. A help is the one that was asked for, and a
   usage fault says so on standard error alone.
4. Each play of examples/ with `--strict`, alone and with `--transcript` in either order: the same is written as without it, and the status is
   1 exactly if an event was refused, or that of the refusal.
5. Each of these plays explained, with some options: the status is 0, or that of the refusal of the play.
"""

import itertools
import random
import re
import shlex
import sys

from edits.record import logic_of
from kit import inputs
from kit.program import bytes_of, difference, fault_of, name_of, program, run, shown, text_of
from kit.report import main
from kit.written import tables
from models.transcript_text import bad_line

VERSION = "1.0.0"
TITLE = b"dsr keeps a directory of named registers, each free or holding a number.\n"
# A help is cut where it has more bytes than this after the title and the empty line below it.
MOST_HELP = 3_700
TASKS = ["apply", "play", "serve", "check", "explain"]
TOO_LONG = b"error: the message is too long to show\n"
TRY_HELP = b"\nFor more information, try '--help'.\n"
TIP = b"\n  tip: to play the play in a file, run `dsr play < FILE`\n"
VOCABULARY = ["apply", "play", "serve", "check", "explain", "--strict", "--transcript", "--slot", "--actor", "--refused", "--data", "0", "7", "07", "-1",
              "1099511627775", "1099511627776", "r0", "r15", "r16", "c31", "c32", "r00", "R0", "--slot=7", "--strict=true", "--help", "--help=no", "-h", "-hx",
              "-x", "-", "--", "--version", "-V", "help", "FILE.play", ""]
PIECES = {"play": [["--strict"], ["--transcript"]], "serve": [["--transcript"]],
          "explain": [["--slot", "7"], ["--actor", "r15"], ["--refused"], ["--data"]]}
OPTIONS = [[], ["--slot", "0"], ["--actor", "r0"], ["--actor", "c31"], ["--refused"], ["--data"],
           ["--data", "--refused", "--actor", "c0", "--slot", "1"]]


def help_text(name):
    """The text of tests/helps/ of this name: of a task, `dsr`, or `unknown-word`."""
    return bytes_of(f"tests/helps/{name}.txt")


# ---- what words ask for, written anew


def asked_by_other(word):
    """What a word asks for that is none of those that may be there."""
    return "help" if word == "--help" or word.startswith("-h") else "unknown"


def asked_by_flags(words, flags):
    """What is asked for after a task's name, where each of the flags may be given once."""
    for at, word in enumerate(words):
        if word not in flags or word in words[:at]:
            return asked_by_other(word)
    return "task"


def is_slot(word):
    return re.fullmatch(r"0|[1-9][0-9]*", word) is not None and int(word) < 2**40


def is_actor(word):
    return word in [f"r{number}" for number in range(16)] + [f"c{number}" for number in range(32)]


def asked_by_options(words):
    """What is asked for after `explain`."""
    left, values = {"--slot", "--actor", "--refused", "--data"}, {"--slot": is_slot, "--actor": is_actor}
    words = list(words)
    while words:
        word = words.pop(0)
        if word not in left:
            return asked_by_other(word)
        left.remove(word)
        if word in values and not (words and values[word](words.pop(0))):
            return "unknown"
    return "task"


def asked(words):
    """What is asked for: a task, the version, the help, or nothing that the program knows."""
    if not words:
        return "task"
    first, *rest = words
    if first in ("apply", "check"):
        return asked_by_flags(rest, [])
    if first in ("play", "serve"):
        return asked_by_flags(rest, ["--strict", "--transcript"] if first == "play" else ["--transcript"])
    if first == "explain":
        return asked_by_options(rest)
    if first == "--version":
        return "unknown" if rest else "version"
    return asked_by_other(first)


def does_not_know(ran):
    """Whether the run is that of words that the program does not know."""
    status, output, errors = ran
    return status == 2 and not output and errors.startswith(b"error: ") and TIP in errors and len(errors) <= 4096


def does(words, ran):
    """Whether the program's run on an empty input is that of what the words ask for."""
    status, output, errors = ran
    kind = asked(words)
    if kind == "version":
        return ran == (0, program(["--version"])[1], b"")
    if kind == "help":
        return ran == (0, help_text(words[0] if words[0] in TASKS else "dsr"), b"")
    if kind == "unknown":
        return does_not_know(ran) and TRY_HELP in errors
    if words in ([], ["apply"]):
        return ran == (0, b"", b"")
    return status == 1 and errors == bad_line(1)[2] and (not output or words[0] == "explain")


def longer_words(count):
    """A task with some of its flags and options, and often one word more somewhere among them."""
    chance = random.Random(2026)
    for _ in range(count):
        task = chance.choice(["play", "serve", "explain", "explain"])
        pieces = chance.sample(PIECES[task], chance.randint(0, len(PIECES[task])))
        words = [task, *itertools.chain.from_iterable(pieces)]
        if chance.random() < 0.6:
            words.insert(chance.randint(0, len(words)), chance.choice(VOCABULARY))
        yield words


def fault_of_words(lists):
    """The first list of words that the program does not do as it asks, or None; and how many there are."""
    count = 0
    for words in lists:
        count += 1
        ran = program(words)
        if not does(words, ran):
            return f"{words} asks for {asked(words)}: {shown(ran)}", count
    return None, count


def fault_of_written(kind, lines):
    """The first of these lists, written by hand, that asks for something else, or that the program does not do as it asks, or None; and how many there are."""
    lists = [shlex.split(line) for line in lines]
    for words in lists:
        if asked(words) != kind:
            return f"{words} asks for {asked(words)}, and not {kind}", len(lists)
    return fault_of_words(lists)


# ---- plays, helps, and all


def fault_of_play(play):
    """What is wrong with this play, if it is strict or explained, or None."""
    report, transcript = program("play", play), program("play --transcript", play)
    refused = report[0] == 0 and int(re.search(rb"^refused (\d+)$", report[1], re.M)[1])
    for words, plain in [("--strict", report), ("--strict --transcript", transcript), ("--transcript --strict", transcript)]:
        status, *written = plain
        fault = fault_of(f"play {words}", play, (1 if status == 0 and refused else status, *written))
        if fault:
            return f"play {words}: {fault}"
    for options in OPTIONS:
        ran = program(["explain", *options], play)
        if ran[::2] != report[::2]:
            return f"explain {' '.join(options)}: {shown(ran)}, and not {shown(report)}"
    return None


def fault_of_help(name):
    """What is wrong with the help of the task of this name, or of the program, or None."""
    wanted = help_text(name)
    if not wanted.startswith(TITLE + b"\n") or len(wanted) > len(TITLE) + 1 + MOST_HELP:
        return f"tests/helps/{name}.txt has another title, or more than {MOST_HELP} bytes after it"
    for word in ("--help", "-h"):
        fault = fault_of([word] if name == "dsr" else [name, word], b"", (0, wanted, b""))
        if fault:
            return f"with {word} it is not tests/helps/{name}.txt: {fault}"
    return None


def fault_of_long_word():
    """What is wrong with what is said of a word of 5,000 bytes, or None."""
    ran = program(["x" * 5_000])
    return None if does_not_know(ran) and ran[2].startswith(TOO_LONG) else shown(ran)


def fault_of_version():
    """What is wrong with the version, or None."""
    logic = logic_of(run(["rt", "version"])[1].decode().strip())
    fault = fault_of("--version", b"", (0, f"dsr {VERSION} (rattle logic {logic})\n".encode(), b""))
    is_named = f"`logic {logic}`" in " ".join(text_of("README.md").split())
    return fault or (None if is_named else f"README.md does not name the logic {logic}")


def words(report, _):
    report.judge("--version", fault_of_version())
    report.judge_all((f"the help of {name}", fault_of_help(name)) for name in ["dsr", *TASKS])
    report.judge("an unknown word", difference(program(["help"]), (2, b"", help_text("unknown-word"))))
    report.judge("a long word", fault_of_long_word())
    for kind, lines in tables("words").items():
        fault, count = fault_of_written(kind, lines)
        report.judge(f"words that ask for {kind}, written by hand", fault, f", {count} lists")
    lists = [(f"{number} words", itertools.product(VOCABULARY, repeat=number)) for number in range(3)]
    for what, some in [*lists, ("words drawn by chance", longer_words(2_000))]:
        fault, count = fault_of_words(map(list, some))
        report.judge(what, fault, f", {count} lists")
    report.judge_some("plays", ((f"{name_of(stem)}.play", fault_of_play(bytes_of(f"{stem}.play"))) for stem in inputs.plays()))


if __name__ == "__main__":
    sys.exit(main(__doc__, {"words": words}))
