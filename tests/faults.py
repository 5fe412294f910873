#!/usr/bin/env python3
"""Allocations, reads and writes that are refused, each in turn: tests/faults.py, or with the names of some of its parts, and with the word `soak` all of
them, of which some are left out otherwise. It needs what `rt ci` built, and a C compiler, `cc`. tests/threads.py refuses allocations of services, and
tests/driver.py those of the calls that rows make.

allocations: the built program runs with most of its words on the examples, with its 1st, 2nd, 3rd .. allocation refused, until a run meets no refusal; and
with all later ones refused too. A run that met a refusal must do all the same what it does with ample memory; or end with status 3, say so on
standard error, and write nothing on standard output. A play may also be reported whole, with status 3, if one of its events was refused for that. Then the
report must be, to the byte, that of tests/models/slow_play.py in which this event alone has no memory, so that nothing else was changed; and its
transcript likewise, on which `dsr check` must report as this model says. If each event of a play is made twice, the transcript must be that of ample memory:
the event that was refused is done when it is made again. An explanation that goes out in parts may break off where the text about some of the first events
ends. Then the same with so little memory that the system refuses it, on long texts, with more and more
until all is done. Then the tests of the crates below the command line, one by one: a test that meets a refusal must pass, or end with that error, or with an
assertion that got that error (`WriteFailed` if what is written goes to memory). One that ends otherwise got a wrong answer in its place. A
test of a module whose name ends in `_memory` makes each refused call again, and must pass whichever allocation is refused.

streams: the program runs with every word on examples.

1. The 1st, 2nd, 3rd .. read fails, until a run meets no failure, over reads that move few bytes each, so that there are many: with an input or output
   error, with one for a call that was interrupted, or that would have to wait; all later reads fail too, or none. The program must end with status 1 and
   `reading failed`, write nothing on standard output, and not read again. With no failure, however few bytes a read moves, it gives what it should.
2. The 1st, 2nd, 3rd .. write fails in the same ways, or takes nothing. The program must end with status 1 and `writing failed`, not write again, and what
   went out is what the writes before moved: the beginning of what it should give. With no failure all of it goes out. Likewise for an explanation in parts.
3. The reads end early: then the text is what was read, and the program gives what tests/models give for that.
4. Writes on standard error fail: the status alone tells, and standard output is as it should be.
5. The system's own: closed streams, folders, full files, pipes that nobody reads, that are left, empty or full, and input in pieces; and terminals.

library: the library for programs in C, and examples/record/check.c, which uses it, are built, and run on texts: transcripts of runs, texts that are
none, and one with each of its allocations refused in turn. Of each the output and the status must be those of tests/written/library.txt. On each text
tests/c_library.c then sees that calls leave nothing on the heap.
"""

import errno
import fcntl
import functools
import itertools
import os
import pty
import re
import signal
import subprocess
import sys
import tempfile
import time
import zlib

from kit import inputs
from kit.archives import archive_of, linked_with
from kit.long_plays import one_replica
from kit.program import PROGRAM, TOP, bytes_of, command_of, difference, program, run, shown, with_memory
from kit.refusals import MOST_RUNS, failing, numbers, refusing
from kit.report import in_threads, main, say
from kit.written import tables
from models import histories, slow_texts, starved
from models.transcript_text import refused
from models.words import MODELS

MIB = 1 << 20


# ---- allocations: the runs of the program

NO_MEMORY = (3, b"", b"dsr: no memory\n")
# The words of a run in which each event is made again: the one that was refused for want of memory is then done.
AGAIN = "play --transcript, each event made again,"
# The runs in which each allocation is refused, also without the word `soak`.
WHOLE = {("apply", "first-lines.apply"), ("apply", "swaps.apply"), ("apply", "repeated-numbers.apply"), ("apply", "full-table.apply"),
         ("play", "one-replica.play"), ("play", "three-loyal.play"), ("play --transcript", "one-replica.play"), ("check", "whole-run.check"),
         (AGAIN, "three-loyal.play")}
# Of the others so many first ones are, and then steps grow by one for so many; and where all later ones are refused too.
SOME, FEW = (24, 16), (8, 4)
# The crates of tests that end with an error where memory was refused.
CRATES = ["dsr_boxes_tests", "dsr_hosts_tests"]
# Tests that are left out: those that run threads. tests/threads.py refuses allocations of services.
IN_THREADS = "threads::"
WANT_OF_MEMORY = re.compile(rb"^(?:[Ee]rror:|  left:) .*(NoMemory|AllocError|AllocFailed|WriteFailed)", re.M)
# Within which a run with a refused allocation must end.
SECONDS_OF_A_RUN = 60


def rows_of_play(stem):
    """The runs on a play of examples/, and on its transcript, if it is played."""
    text, wanted = bytes_of(f"{stem}.play"), inputs.wanted_of(stem)
    yield "play", f"{stem}.play", text, wanted
    if wanted[0]:
        yield "play --transcript", f"{stem}.play", text, wanted
        return
    transcript = bytes_of(f"{stem}.transcript")
    yield "play --transcript", f"{stem}.play", text, (0, transcript, b"")
    yield AGAIN, f"{stem}.play", starved.each_event_twice(text), (0, transcript, b"")
    yield "check", f"{stem}.transcript", transcript, (0, histories.checked_report(wanted[1]), b"")


def allocation_rows():
    """The words of each run, the name of its input, its input, and what it must give with ample memory."""
    for word, pattern in [("apply", "*.apply"), ("check", "*.check"), ("check", "malicious/*.check")]:
        for path in inputs.found(pattern):
            yield word, path, bytes_of(path), inputs.wanted_of(path.removesuffix(f".{word}"))
    for stem in inputs.plays():
        yield from rows_of_play(stem)
    for stem in inputs.plays("why/*.play"):
        yield "explain", f"{stem}.play", bytes_of(f"{stem}.play"), (0, bytes_of(f"{stem}.explained"), b"")
    bad = bytes_of("examples/bad-play-line.play")
    yield "explain", f"{TOP}/examples/bad-play-line.play", bad, (1, *run_of("explain", bad)[1:])
    for words, status in [("--help", 0), ("play --help", 0), ("explain --help", 0), ("--version", 0), ("fly", 2), ("check --transcript", 2),
                          ("explain --slot", 2), ("explain --slot 07", 2)]:
        yield words, "nothing", b"", (status, *run_of(words, b"")[1:])


def command_for(words):
    """The command of a row. What comes after a comma in its words says something of the text."""
    return command_of(words.split(",")[0])


def run_of(words, text):
    return run(command_for(words), text, SECONDS_OF_A_RUN)


def refused_run(shim, words, text, nth, rest=None):
    """The run with its nth allocation refused, with `rest` all later ones too; and whether it came to that."""
    ran, noted = shim.run(command_for(words), text, SECONDS_OF_A_RUN, nth=nth, rest=rest)
    return ran, noted is not None


# ---- allocations in turn


class Tally:
    """What came of the runs on one row."""

    def __init__(self, starved):
        self.starved, self.runs, self.ended, self.reported, self.last = starved, 0, 0, 0, 0

    def fault_of(self, run, wanted, nth):
        """What is wrong with a run that met a refusal, or None."""
        self.runs, self.last = self.runs + 1, nth
        if run == wanted:
            return None
        self.ended += run == NO_MEMORY
        if run == NO_MEMORY:
            return None
        if run[::2] == NO_MEMORY[::2] and self.tells(run[1], wanted[1]):
            self.reported += 1
            return None
        return f"with allocation {nth} refused: {shown(run)}"

    def tells(self, output, wanted):
        """Whether the output may be that of a play of which one event was refused for want of memory: all was done where it was made again."""
        return self.starved.tells(output, lambda transcript: run_of("check", transcript)) and (self.starved.words != AGAIN or output == wanted)

    def said(self):
        """How many runs there were, and how they ended."""
        told = f", {self.reported} times with the report of {len(self.starved.told)} starved events" if self.reported else ""
        return f", {self.runs} runs with one of {self.last} allocations refused, {self.ended} times with status 3 and no output{told}"


def fault_in_turn(row, tally, shim, is_whole):
    """What is wrong with the runs on this row with one allocation refused, or None."""
    words, name, text, wanted = row
    for nth in numbers() if is_whole else numbers(*SOME, zlib.crc32(name.encode()) % SOME[1]):
        ran, is_refused = refused_run(shim, words, text, nth)
        if not is_refused:
            return None if ran == wanted else f"with no refusal: {shown(ran)}"
        fault = tally.fault_of(ran, wanted, nth)
        if fault:
            return fault
    return f"there is still a refusal after {MOST_RUNS} allocations"


def fault_of_rest(row, tally, shim, is_soak):
    """What is wrong with the runs on this row with all allocations refused from one on, or None."""
    words, _, text, wanted = row
    for nth in numbers(*(SOME if is_soak else FEW)):
        ran, is_refused = refused_run(shim, words, text, nth, 1)
        if not is_refused:
            return None
        tally.runs += 1
        if ran not in (NO_MEMORY, wanted):
            return f"with all allocations refused from {nth} on: {shown(ran)}"
    return f"there is still a refusal after {MOST_RUNS} allocations"


def check_of_row(row, shim, is_soak):
    """What the runs on this row are, what is wrong with them, or None, what is said of them, the words, and what came of them."""
    words, name, text, _ = row
    is_whole = is_soak or (words, os.path.basename(name)) in WHOLE
    tally = Tally(starved.Starved(words, text))
    fault = fault_in_turn(row, tally, shim, is_whole) or fault_of_rest(row, tally, shim, is_soak)
    if not fault and not tally.ended:
        fault = "no refusal ended it"
    if not fault and is_whole and len(tally.starved.done) > 1 and not tally.reported:
        fault = "no event that was refused is reported"
    name = inputs.name_in_examples(name) if os.path.isabs(name) else name
    return f"{words} on {name}", fault, tally.said(), words, tally


# ---- little memory


def long_rows():
    """Words and texts that take much memory."""
    yield "apply", b"".join(b"c0 %d write k%d 1\n" % (number, number % 1024) for number in range(1, 60_000))
    play = one_replica(30_000).text()
    yield "play", play
    yield "play --transcript", play
    yield "check", run_of("play --transcript", play)[1]


def is_starved(words, output, wanted):
    """Whether this is the report of a play of which events were refused for want of memory, and right of what was done; or the transcript of a run."""
    if words == "play --transcript":
        status, found, _ = run_of("check", output)
        return status == 0 and found.startswith(b"run %d\n" % (output.count(b"\n") - 1))
    if words != "play":
        return False
    report, whole = histories.read_report(output.decode()), histories.read_report(wanted.decode())
    if isinstance(report, str) or report.get("first", [""])[1:] != ["E12", "NoMemory"]:
        return False
    return not histories.faults_of(report, whole["done"] + whole["refused"])


def fault_of_little(words, text):
    """What is wrong with the runs with so little memory that the system refuses it, or None; and how many they are."""
    wanted, count, limit = run_of(words, text), 0, 6 * MIB
    if wanted[0] or wanted[2]:
        return f"with ample memory: {shown(wanted)}", 1
    while True:
        ran = run(with_memory(limit, command_for(words)), text, SECONDS_OF_A_RUN)
        count += 1
        if ran == wanted:
            return ("it never had too little" if count == 1 else None), count
        if ran != NO_MEMORY and not (ran[::2] == NO_MEMORY[::2] and is_starved(words, ran[1], wanted[1])):
            return f"with {limit} bytes: {shown(ran)}", count
        if limit > 1024 * MIB:
            return f"with {limit} bytes there is still too little", count
        limit += limit // 8


def check_of_little(row):
    """What the runs of these words with little memory are, what is wrong with them, or None, and what is said of them."""
    words, text = row
    fault, count = fault_of_little(words, text)
    return f"{words} on {len(text)} bytes with little memory", fault, f", {count} runs with more and more"


# ---- an explanation that goes out in parts

# What begins the text about an event, and what the line about an event or of its notes begins with.
EVENT_BEGINS, OF_EVENTS = re.compile(rb"^line ", re.M), re.compile(rb"(?:line |    ).*\n")


@functools.cache
def long_explanation():
    """A play, its explanation, which goes out in several parts, and how many of its bytes went out where it may have broken off."""
    text = one_replica(3_000).text()
    whole = run_of("explain", text)[1]
    ends = {begun.start() for begun in EVENT_BEGINS.finditer(whole)}
    last = max(ends)
    while OF_EVENTS.match(whole, last):
        last = OF_EVENTS.match(whole, last).end()
    return text, whole, ends | {last}


def check_of_starved_explanation(shim):
    """What the runs of an explanation with allocations refused are, what is wrong with them, or None, and what is said of them."""
    text, whole, ends = long_explanation()
    lengths = []
    for nth, rest in itertools.product(numbers(*FEW), (None, 1)):
        ran, is_refused = refused_run(shim, "explain", text, nth, rest)
        if not is_refused:
            break
        if ran != (0, whole, b"") and (ran[::2] != NO_MEMORY[::2] or whole[:len(ran[1])] != ran[1] or len(ran[1]) not in ends):
            return "explain in parts", f"with allocation {nth} refused, all later ones too {rest}: {shown(ran)}", ""
        lengths.append(len(ran[1]))
    fault = None if any(0 < length < len(whole) for length in lengths) else "no explanation broke off"
    return "explain in parts", fault, f", {len(lengths)} runs with allocations refused, {len(set(lengths))} lengths of what went out"


def fault_of_unwritten_explanation(shim):
    """What is wrong with the runs of an explanation of which a write fails, or None; and how many they are."""
    text, whole, ends = long_explanation()
    length = -1
    for nth in range(1, MOST_CALLS):
        ran, calls = failing_run(shim, "explain", text, 1, nth, *kinds(WRITE_ERRORS, nth))
        if not calls:
            return difference(ran, (0, whole, b"")) or (None if nth > 4 else f"it wrote {nth - 1} times"), nth
        if ran[::2] != (1, UNWRITTEN[1]) or whole[:len(ran[1])] != ran[1] or len(ran[1]) not in ends or len(ran[1]) <= length or calls > 1:
            return f"write {nth} fails: {shown(ran)}, {calls} calls", nth
        length = len(ran[1])
    return f"there is still a write after {MOST_CALLS}", MOST_CALLS


# ---- allocations: the tests of crates


def fault_of_test(shim, tests, test):
    """What is wrong with the runs of this test of a program of tests, or None; and how many allocations were refused."""
    for nth in numbers():
        (status, output, errors), noted = shim.run([tests, test], b"", SECONDS_OF_A_RUN, nth=nth)
        if noted is None:
            return (None if status == 0 else f"{test} fails with ample memory"), nth - 1
        may_end = not test.split("::")[0].endswith("_memory") and WANT_OF_MEMORY.search(output + errors)
        if status != 0 and not may_end:
            return f"{test} with allocation {nth} refused says {(output + errors)[:200]!r}", nth
    return f"{test} still meets a refusal after {MOST_RUNS} runs", MOST_RUNS


def fault_of_crate(crate, shim):
    """What is wrong with the runs of this crate's tests, or None; how many tests there are, and how many allocations were refused."""
    built = f"{TOP}/crates/{crate}/out/{crate}_tests"
    if not os.path.exists(built):
        return "its tests are not built", 0, 0
    listed = run([built, "--list"], b"", SECONDS_OF_A_RUN)[1].decode()
    tests = [test for test in re.findall(r"^(\S+): test$", listed, re.M) if not test.startswith(IN_THREADS)]
    count = 0
    for test in tests:
        fault, more = fault_of_test(shim, built, test)
        count += more
        if fault:
            return fault, len(tests), count
    return (None if tests else "it lists no test"), len(tests), count


def check_of_crate(crate, shim):
    """The crate, what is wrong with the runs of its tests, or None, and what is said of them."""
    fault, tests, count = fault_of_crate(crate, shim)
    return crate, fault, f", each of {count} allocations of {tests} tests refused in turn"


def judge_words(report, found):
    """Judges that in all runs of a word together something was refused, and events of plays were starved."""
    for words in dict.fromkeys(of for of, _ in found):
        tallies = [tally for of, tally in found if of == words]
        count, ended, reported = (sum(getattr(tally, name) for tally in tallies) for name in ("runs", "ended", "reported"))
        passes = ended > 0 and (reported > 0 or words not in ("play", "play --transcript", AGAIN))
        said = f"{len(tallies)} inputs, {count} runs with allocations refused, {ended} times with status 3 and no output, {reported} times with status 3 and " \
            "the report or transcript of the other events"
        report.judge(words, None if passes else said, f", {said}")


def allocations(report, is_soak):
    with refusing() as shim:
        checks = [functools.partial(check_of_crate, crate, shim) for crate in CRATES]
        checks += [functools.partial(check_of_row, row, shim, is_soak) for row in allocation_rows()]
        checks += [functools.partial(check_of_little, row) for row in long_rows()]
        checks += [functools.partial(check_of_starved_explanation, shim)]
        found = []
        for what, fault, said, *more in in_threads(lambda check: check(), checks):
            report.judge(what, fault, said)
            found += [more] if more else []
    judge_words(report, found)


# ---- streams: calls that fail

# Within which a run with a stream that fails must end.
SECONDS = 20
UNREAD, UNWRITTEN = refused("reading failed"), (1, b"dsr: writing failed\n")
MOST_CALLS = 10_000
READ_ERRORS = [errno.EIO, errno.EINTR, errno.EAGAIN]
# A write that answers 0 took nothing.
WRITE_ERRORS = [errno.ENOSPC, errno.EINTR, errno.EAGAIN, errno.EPIPE, errno.EIO, 0]
# The words, and the input, of runs whose output is known. A service whose clients ask for nothing ends at once, and has its report.
EXAMPLES = [("apply", "swaps.apply", "swaps.out"), ("apply", "bad-lines.apply", "bad-lines.out"), ("play", "planted-forgery.play", "planted-forgery.out"),
            ("play --transcript", "one-replica.play", "one-replica.transcript"), ("check", "whole-run.check", "whole-run.out"),
            ("serve", "services/nothing-asked.serve", "services/nothing-asked.out")]


# The same of runs whose streams fail as the system lets them alone.
MORE_EXAMPLES = [("", "swaps.apply", "swaps.out"), ("play --strict", "one-replica.play", "one-replica.out"),
                 ("explain", "why/reply-too-early.play", "why/reply-too-early.explained")]


def given(name):
    return bytes_of(f"examples/{name}")


def stream_rows(*examples):
    """The words of each run, its input, and its status, output and errors if nothing fails."""
    for words, text, written in examples:
        status, _, errors = inputs.wanted_of(f"examples/{text.rsplit('.', 1)[0]}")
        yield words, given(text), (status, given(written), errors)


def failing_run(shim, words, text, stream, nth=None, error=0, times=None, most=None):
    """The run, and how many calls on the stream there were from the first that failed on, that one counted."""
    ran, noted = shim.run(command_of(words), text, SECONDS, stream=stream, nth=nth, error=error, times=times, most=most)
    return ran, len(noted or b"")


def kinds(errors, nth):
    """The error of the nth call, and how many calls fail: all of them from then on, or that one alone."""
    return errors[nth % len(errors)], None if nth // len(errors) % 2 else 1


def failures(errors, all_kinds):
    """Which call fails, with which error, and how many do, in turn: each call in each way, or in one."""
    for nth in range(1, MOST_CALLS):
        for error, times in itertools.product(errors, [None, 1]) if all_kinds else [kinds(errors, nth)]:
            yield nth, error, times


def fault_of_calls(shim, row, stream, most, all_kinds):
    """What is wrong with the runs on this row in which a read or a write of at most so many bytes fails, or None; and how many they are."""
    words, text, wanted = row
    call, errors = ("write", WRITE_ERRORS) if stream else ("read", READ_ERRORS)
    for count, (nth, error, times) in enumerate(failures(errors, all_kinds), 1):
        ran, calls = failing_run(shim, words, text, stream, nth, error, times, most)
        if not calls:
            # the last of the reads tells that there is no more
            whole = nth - 1 if stream else -(-len(text) // most) + 1
            return difference(ran, wanted) or (f"it read {nth - 1} times, and not {whole}" if nth - 1 != whole else None), count
        ended = (UNWRITTEN[0], wanted[1][:(nth - 1) * most], UNWRITTEN[1]) if stream else UNREAD
        fault = difference(ran, ended) or (f"there are {calls - 1} calls after the failure" if calls > 1 else None)
        if fault:
            return f"{call} {nth} of at most {most} bytes fails with error {error}, times {times}: {fault}", count
    return f"there is still a {call} after {MOST_CALLS}", MOST_CALLS


def fault_of_early_end(shim, row, most):
    """What is wrong with the runs on this row whose reads end early, or None; and how many they are."""
    words, text, _ = row
    for nth in range(1, MOST_CALLS):
        begun = text[:(nth - 1) * most]
        if words == "serve":
            fault = slow_texts.fault_of_service(begun, lambda _: failing_run(shim, words, text, 0, nth, 0, None, most)[0])
        else:
            fault = difference(failing_run(shim, words, text, 0, nth, 0, None, most)[0], MODELS[words](begun))
        if fault:
            return f"read {nth} of at most {most} bytes is the end: {fault}", nth
        if len(begun) == len(text):
            return None, nth
    return f"there is still a read after {MOST_CALLS}", MOST_CALLS


def fault_of_errors(shim, words, text, wanted):
    """What is wrong with the runs in which writes on standard error fail, or move few bytes, or None; and how many they are."""
    status, output, errors = wanted
    if failing_run(shim, words, text, 2, most=1)[0] != wanted:
        return "one byte at a time its errors differ", 1
    for nth in range(1, len(errors) + 1):
        error, times = kinds(WRITE_ERRORS, nth)
        ran, calls = failing_run(shim, words, text, 2, nth, error, times, 1)
        fault = difference(ran, (status, output, errors[:nth - 1])) or (f"it wrote {calls - 1} times after the failure" if calls != 1 else None)
        if fault:
            return f"write {nth} on standard error fails: {fault}", nth
    return None, len(errors) + 1


def fault_of_transcribed(shim):
    """What is wrong with runs of `serve --transcript` whose calls fail, or None; and how many they are. Which steps a service has is up to its threads, so of
    what went out it is known how long it is, and how it begins, and of a whole transcript that it is a run."""
    words, text = "serve --transcript", given("services/nothing-asked.serve")
    header = text.replace(b"dsr-serve", b"dsr-transcript")
    reads = -(-len(text) // 7) + 1
    for count, (nth, error, times) in enumerate(failures(READ_ERRORS, True), 1):
        if nth > reads:
            break
        fault = difference(failing_run(shim, words, text, 0, nth, error, times, 7)[0], UNREAD)
        if fault:
            return f"read {nth} fails with error {error}: {fault}", count
    for nth, error, times in failures(WRITE_ERRORS, False):
        ran, calls = failing_run(shim, words, text, 1, nth, error, times, 7)
        count += 1
        if not calls:
            checked = program("check", ran[1], SECONDS)
            return (None if (ran[0], ran[2], checked[0]) == (0, b"", 0) and nth > 3 else f"{shown(ran)}, and {shown(checked)}"), count
        if (ran[0], ran[2], len(ran[1]), calls) != (1, UNWRITTEN[1], 7 * (nth - 1), 1) or ran[1][:len(header)] != header[:len(ran[1])] or nth > 400:
            return f"write {nth} fails with error {error}, times {times}: {shown(ran)}, {calls} calls", count


def short_calls(shim, row):
    """What is wrong with runs whose reads or writes move few bytes each, or None; and how many they are."""
    words, text, wanted = row
    for count, (stream, most) in enumerate(itertools.product([0, 1], [1, 2, 3, 5, 64, 1000]), 1):
        fault = difference(failing_run(shim, words, text, stream, most=most)[0], wanted)
        if fault:
            return f"at most {most} bytes at a time on stream {stream}: {fault}", count
    return None, count


def refusals():
    """The words and the text of runs that are refused, and what they must give."""
    yield "apply", given("bad-lines.apply"), (1, given("bad-lines.out"), given("bad-lines.err"))
    yield "play", b"dsr-play 1 2 1 1 -\n", refused("the shape is not allowed")
    yield "serve", b"", refused("bad text in line 1")
    yield "check", b"dsr-transcript 1 1 0 1 -\nr0 post r0 empty\n", refused("not a run at line 2")
    yield "fly", b"", program("fly", b"", SECONDS)


def worked_rows():
    """Writers that take so many bytes in all, and then fail, or take nothing more."""
    for errors in ([errno.EIO], [0]):
        yield "apply, a writer that takes 5 bytes", "apply", "first-lines.apply", 5, errors, b"0 wri"
        yield "play --transcript, a writer that takes 4 bytes", "play --transcript", "one-replica.play", 4, errors, b"dsr-"


def fault_of_worked(shim, words, text, most, errors, wanted):
    """What is wrong with the run on this example whose writer takes so many bytes, or None; and that it is one."""
    ran, _ = failing_run(shim, words, given(text), 1, 2, errors[0], None, most)
    return difference(ran, (1, wanted, UNWRITTEN[1])), 1


def failing_calls(shim, is_soak):
    """What fails, and how it is found out what is wrong with that, and how many runs it took."""
    for row in stream_rows(*EXAMPLES):
        words, text, wanted = row
        # a large row has as many reads and writes as a small one
        for most in (1, 2, 7, 4096) if is_soak else (1, 7):
            yield f"{words}, reads that fail", functools.partial(fault_of_calls, shim, row, 0, most, is_soak or most > 1)
            yield f"{words}, reads that end early", functools.partial(fault_of_early_end, shim, row, most)
            if wanted[0] == 0:
                yield f"{words}, writes that fail", functools.partial(fault_of_calls, shim, row, 1, most, is_soak or most > 1)
        yield f"{words}, short reads and writes", functools.partial(short_calls, shim, row)
    yield "serve --transcript, reads and writes that fail", functools.partial(fault_of_transcribed, shim)
    yield "explain in parts, writes that fail", functools.partial(fault_of_unwritten_explanation, shim)
    shown_help = program("--help", b"", SECONDS)
    yield "--help, writes that fail", functools.partial(fault_of_calls, shim, ("--help", b"", shown_help), 1, 37, True)
    for words, text, wanted in refusals():
        yield f"{words}, writes on standard error that fail", functools.partial(fault_of_errors, shim, words, text, wanted)
    for what, *row in worked_rows():
        yield what, functools.partial(fault_of_worked, shim, *row)


# ---- streams: the system's


def by_shell(words, text, streams):
    """A run of the program by a shell that opens or closes streams before it. A stream that is not seen is empty."""
    return run(["sh", "-c", f'exec "$0" "$@" {streams}', *command_of(words)], text, SECONDS)


def closed_streams(row):
    words, text, wanted = row
    status, output, errors = wanted
    yield by_shell(words, b"", "<&-"), UNREAD
    yield by_shell(words, b"", f"< '{TOP}'"), UNREAD
    yield by_shell(words, b"", "0> /dev/null"), UNREAD
    if status == 0:
        yield by_shell(words, text, ">&-"), (1, b"", UNWRITTEN[1])
        yield by_shell(words, text, "1< /dev/null"), (1, b"", UNWRITTEN[1])
        yield by_shell(words, text, "> /dev/full"), (1, b"", UNWRITTEN[1])
        yield by_shell(words, text, "> /dev/full 2>&-"), (1, b"", b"")
    yield by_shell(words, text, "2>&-"), (status, output, b"")
    yield by_shell(words, text, "2> /dev/full"), (status, output, b"")
    yield by_shell(words, b"", "<&- 2>&-"), (1, b"", b"")
    yield by_shell(words, text, "<&- >&- 2>&-"), (1, b"", b"")


def transcribed_streams():
    words, text = "serve --transcript", given("services/nothing-asked.serve")
    yield by_shell(words, b"", "<&-"), UNREAD
    yield by_shell(words, b"", f"< '{TOP}'"), UNREAD
    yield idle_pipe(words), UNREAD
    yield by_shell(words, text, ">&-"), (1, b"", UNWRITTEN[1])
    yield by_shell(words, text, "> /dev/full"), (1, b"", UNWRITTEN[1])
    yield unread_pipe(words, text, signal.SIG_DFL), (1, b"", UNWRITTEN[1])


def unread_streams():
    """Runs that need no input, or refuse it."""
    for words in ("--help", "explain --help", "--version"):
        yield by_shell(words, b"", "> /dev/full"), (1, b"", UNWRITTEN[1])
    for words, status in [("", 1), ("play", 1), ("fly", 2)]:
        yield by_shell(words, b"c0 1 read a", "2> /dev/full"), (status, b"", b"")


def unread_pipe(words, text, handled):
    """The run of a program whose standard output is a pipe that nobody reads, and that was started with the signal which tells of it handled so."""
    reader, writer = os.pipe()
    os.close(reader)
    with tempfile.TemporaryFile() as file:
        file.write(text)
        file.seek(0)
        before = signal.signal(signal.SIGPIPE, handled)
        child = subprocess.Popen(command_of(words), stdin=file, stdout=writer, stderr=subprocess.PIPE, restore_signals=False)
        signal.signal(signal.SIGPIPE, before)
        os.close(writer)
        _, errors = child.communicate(timeout=SECONDS)
    return child.returncode, b"", errors


def unread_pipes(row):
    words, text, _ = row
    for handled in (signal.SIG_DFL, signal.SIG_IGN):
        yield unread_pipe(words, text, handled), (1, b"", UNWRITTEN[1])


def many_lines():
    """Request lines with more answers than a pipe holds, and these."""
    count = 40_000
    return b"".join(b"c0 %d read a\n" % number for number in range(1, count + 1)), b"".join(b"%d held none\n" % place for place in range(count))


def left_pipe(count):
    """The run of a program whose output somebody reads for so many bytes, and then no more; and what was read."""
    with tempfile.TemporaryFile() as file:
        file.write(many_lines()[0])
        file.seek(0)
        child = subprocess.Popen([PROGRAM, "apply"], stdin=file, stdout=subprocess.PIPE, stderr=subprocess.PIPE)
        found = child.stdout.read(count)
        child.stdout.close()
        status = child.wait(timeout=SECONDS)
        with child.stderr:
            return status, found, child.stderr.read()


def full_pipe():
    """The run of a program whose output is a pipe that nobody reads before it has ended, and that it may not wait for; and what it wrote there."""
    reader, writer = os.pipe()
    os.set_blocking(writer, False)
    room = fcntl.fcntl(writer, fcntl.F_GETPIPE_SZ)
    status, _, errors = program("apply", many_lines()[0], SECONDS, stdout=writer)
    os.close(writer)
    with open(reader, "rb") as file:
        return (status, file.read(), errors), (1, many_lines()[1][:room], UNWRITTEN[1])


def idle_pipe(words):
    """The run of a program whose input is a pipe that has nothing, and that it may not wait for."""
    reader, writer = os.pipe()
    os.set_blocking(reader, False)
    ran = program(words, None, SECONDS, stdin=reader)
    os.close(reader)
    os.close(writer)
    return ran


def in_pieces(words, text, pieces):
    """The run of a program whose input comes in so many pieces, each some time after the other."""
    child = subprocess.Popen(command_of(words), stdin=subprocess.PIPE, stdout=subprocess.PIPE, stderr=subprocess.PIPE)
    size = len(text) // pieces + 1
    for at in range(0, len(text), size):
        child.stdin.write(text[at:at + size])
        child.stdin.flush()
        time.sleep(0.02)
    output, errors = child.communicate(timeout=SECONDS)
    return child.returncode, output, errors


# ---- streams: terminals


def time_of(child):
    """The seconds of processors that the process took so far."""
    with open(f"/proc/{child.pid}/stat") as file:
        fields = file.read().rsplit(")", 1)[1].split()
    return (int(fields[11]) + int(fields[12])) / os.sysconf("SC_CLK_TCK")


def terminal_run(words, act):
    """The run of a program whose input is a terminal, at which something is done with its other end, a file."""
    master, slave = pty.openpty()
    with open(master, "wb", buffering=0) as terminal:
        child = subprocess.Popen(command_of(words), stdin=slave, stdout=subprocess.PIPE, stderr=subprocess.PIPE, start_new_session=True)
        os.close(slave)
        try:
            act(child, terminal)
            output, errors = child.communicate(timeout=SECONDS)
        except subprocess.TimeoutExpired:
            return f"none within {SECONDS} seconds", b"", b""
        finally:
            child.kill()
            child.wait()
    return child.returncode, output, errors


def end_input(_, terminal):
    """The input ends at once."""
    terminal.write(b"\x04")


def hang_up(_, terminal):
    """Nobody is at the terminal any more."""
    time.sleep(0.1)
    terminal.close()


def wait_and_type(child, terminal):
    """Nothing is typed for a while, in which the program must wait, and not try again and again. Then lines are, and the end of input."""
    time.sleep(0.5)
    if child.poll() is not None or time_of(child) > 0.1:
        raise RuntimeError("it did not wait for the terminal")
    for line in given("first-lines.apply").splitlines(keepends=True):
        terminal.write(line)
    terminal.write(b"\x04")


def terminals():
    """What is done at terminals, the words, how it is done, and what the program may give."""
    for words in ("apply", "play", "play --transcript", "serve", "serve --transcript", "check"):
        nothing = (0, b"", b"") if words == "apply" else refused("bad text in line 1")
        yield f"{words}, a terminal with the end of input at once", words, end_input, [nothing]
        # what a terminal gives that is gone is the end of input, or an error
        yield f"{words}, a terminal that hangs up", words, hang_up, [nothing, UNREAD]
    yield "apply, a terminal without input for a while", "apply", wait_and_type, [(0, given("first-lines.out"), b"")]


def fault_of_terminal(words, act, allowed):
    """What is wrong with the run at a terminal, or None; and that it is one."""
    try:
        ran = terminal_run(words, act)
    except (OSError, RuntimeError) as error:
        return str(error), 1
    return (None if ran in allowed else f"{shown(ran)}, and not {shown(allowed[0])}"), 1


def fault_of_pairs(pairs):
    """What is wrong with one of these runs, each with what it must give, or None; and how many they are."""
    count = 0
    for ran, wanted in pairs:
        count += 1
        fault = difference(ran, wanted)
        if fault:
            return f"run {count}: {fault}", count
    return None, count


def system_streams():
    """What is done, and how it is found out what is wrong with it, and how many runs it took. These runs are made one by one, as a signal is set for them."""
    for row in stream_rows(*EXAMPLES, *MORE_EXAMPLES):
        what = row[0] or "no words"
        yield f"{what}, closed streams", lambda row=row: fault_of_pairs(closed_streams(row))
        if row[2][0] == 0:
            yield f"{what}, pipes that nobody reads", lambda row=row: fault_of_pairs(unread_pipes(row))
        yield f"{what}, input that is not there yet", lambda row=row: fault_of_pairs([(idle_pipe(row[0]), UNREAD)])
        yield f"{what}, input in pieces", lambda row=row: fault_of_pairs([(in_pieces(row[0], row[1], 5), row[2])])
    yield "serve --transcript, streams that fail", lambda: fault_of_pairs(transcribed_streams())
    yield "full streams of helps, the version and refused texts", lambda: fault_of_pairs(unread_streams())
    yield "apply, a pipe that is left", lambda: fault_of_pairs([(left_pipe(count), (1, many_lines()[1][:count], UNWRITTEN[1])) for count in (1, 1000, 70_000)])
    yield "apply, a pipe that is full", lambda: fault_of_pairs([full_pipe()])
    for what, words, act, allowed in terminals():
        yield what, lambda words=words, act=act, allowed=allowed: fault_of_terminal(words, act, allowed)


def streams(report, is_soak):
    with failing() as shim:
        tasks = list(failing_calls(shim, is_soak))
        for (what, _), (fault, count) in zip(tasks, in_threads(lambda task: task[1](), tasks)):
            report.gather(what, count, [fault] if fault else [])
    for what, run_it in system_streams():
        fault, count = run_it()
        report.gather(what, count, [fault] if fault else [])
    report.judge_gathered("streams that fail")


# ---- the library for programs in C

LIBRARY = "dsr_check_c"
# What may come of a refused allocation.
REFUSALS = [(12, b"no memory\n"), (17, b"")]
# The C library then keeps no freed blocks at hand, and what it says of its heap is exact.
EXACT = {"GLIBC_TUNABLES": "glibc.malloc.tcache_count=0", **os.environ}


def library_rows():
    """Each text, and the status and the output that it must give."""
    for text, status, output in tables("library")["texts"]:
        yield text.encode("latin-1"), (int(status), output.encode())
    # what a service in another language recorded of itself, honest and lying
    yield bytes_of("examples/record/honest.transcript"), (0, b"entries 273\nhistory 5\naccepted 5\n")
    yield bytes_of("examples/record/lying.transcript"), (14, b"not a run at line 47\n")


def fault_of_building(room):
    """What is wrong with the library or the programs that use it, which are built in this folder, or None."""
    archive, fault = archive_of(LIBRARY)
    if fault:
        return fault
    words = ["cc", "-Wall", "-Wextra", "-Werror", "-std=c11", f"-I{TOP}/include"]
    for source, made in [("examples/record/check.c", "check"), ("tests/c_library.c", "again")]:
        if subprocess.run([*words, f"{TOP}/{source}", *linked_with(archive), "-o", made], cwd=room).returncode != 0:
            return f"{source} is not built"
    return None


def fault_of_refusals(room):
    """What is wrong with the runs of the example in which each allocation is refused in turn, or None. Each refusal is reported, or done without."""
    text, wanted = next(library_rows())
    with refusing() as shim:
        for nth in numbers():
            found, noted = shim.run([f"{room}/check"], text, nth=nth)
            if noted is None:
                say(f"{nth - 1} allocations, each refused in turn")
                return None if nth > 1 and found[:2] == wanted else f"with none refused: {shown(found)}"
            if found[:2] not in [*REFUSALS, wanted]:
                return f"with allocation {nth} refused: {shown(found)}"
    return f"there is still a refusal after {MOST_RUNS} allocations"


def library(report, _):
    with tempfile.TemporaryDirectory(prefix="dsr-library-") as room:
        fault = fault_of_building(room)
        for text, wanted in library_rows():
            report.judge(f"{text[:60]!r}", fault or difference((*run([f"{room}/check"], text)[:2], b""), (*wanted, b"")), None)
            again = fault or difference(run([f"{room}/again"], text, env=EXACT), (0, b"", b""))
            report.judge(f"{text[:60]!r}: what calls leave on the heap", again, None)
        report.judge("each allocation refused in turn", fault or fault_of_refusals(room), None)


if __name__ == "__main__":
    sys.exit(main(__doc__, {"allocations": allocations, "streams": streams, "library": library}, "soak"))
