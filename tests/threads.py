#!/usr/bin/env python3
"""Services and mail in threads: tests/threads.py, or with the name of one of its parts, and with the word `soak` much more of it. It needs what `rt ci`
built, and a C compiler, `cc`. How threads take turns is up to them, so no two runs are alike.

services: 200 services, with `soak` a thousand, by `dsr_own_service`, on scripts with traitors that are silent, that send one replica what they don't send
another, that lie to clients, and that would forge. Each must end in time, with status 0, or with 1 if its gate stopped it or a client had no reply before the
rounds were used up; its transcript must be a run; and with status 0 each client accepted replies to its requests 1, 2, and so on, as many as the script has.
Of those that are not to be stopped at least nine of ten must serve all clients, and of those that are to be, half must be stopped.

Then services of which something is refused, each of which must end within 20 seconds:

1. each thread in turn: the service ends as `no thread`, and its transcript is a run;
2. each thread in turn, while the gate stops the host that was started before it: the service ends as `no thread` too, whichever of the two has the lower place;
3. one allocation, the 1st, the 2nd and so on, with wider and wider steps, until a service meets no refusal: the service serves all clients; or it ends as
   `no memory`, or as `no thread` if the memory was that of a thread, and its transcript is a run, if it has the memory to write one. Of the example
   `three-loyal` each of the first 200 is refused, and with `soak` each up to the last; if it serves all clients, its report is the one beside the example.

The first and the last of these are asked of `dsr serve` and of `dsr serve --transcript` too. Their status is 3 if they say `no memory`, and 1 if they say
anything else; and the report says of each accepted reply that the client's request is at its place of the history.

wakes: 20 services, with `soak` a hundred, in which each thread rests for two thousandths of a second as soon as it has woken another. So a host that is woken
too early looks, and sleeps again, before what it waits for is there, and nobody wakes it then. Each service must end within 20 seconds, as above.

answers: 200 services by `dsr serve --transcript`, with `soak` a thousand, and one of 16 replicas, with traitors, judged by tests/models/real_time.py and
tests/models/eager.py. A search finds an order of the requests that keeps real time, and the history that `dsr check` reports is one: in the transcript, and
in the same logs with each ask as late as it can come. All loyal replicas are eager, and what they hold acts within the bound of rounds: the greatest count of
each shape is said, beside the bound. At least nine of ten services must serve all clients.

schedules: 500 services by `dsr_own_service in-turn`, with `soak` 5,000, over ten shapes, with traitors; and two in which replicas use up their rounds before
their clients are served. A model that was written anew (tests/models/hosts.py) draws by chance in which order their hosts make their tries, one at a time; and
after each turn the hosts must be where it has them: who asks next and with which turn, whether all others sleep, and how many have ended. At the end each entry
of each log must be the model's, and why the service ended. Some hosts are slow, some are stopped, and in a third of the schedules almost every post and take
wakes somebody who sleeps. If somebody sleeps after 50 turns, all are left alone for 0.3 seconds, in which at most a tenth of a processor may be spent; and of
all turns in which a host goes on or falls asleep, at most one of 50 may take much of one. Until all are told to stop, hosts must have let others run
(sched_yield, which returns at once here) as often as the model's. In all together replicas and traitors were woken by posts and takes, often, and by hosts of
each kind that told all to stop. A schedule that is not kept fails some 10 seconds after the first host that does not come, and says where.

mail: random tries of the mail, by `dsr_mail_tries`, over shapes of all sizes, with `soak` for an hour. Each thread makes random calls at its seats, and
what came of it is a transcript, which must be a run. By its lines alone what an actor took from another is the first so many envelopes that were posted to
it there, so none was lost, none came twice, and none overtook another; and there is no post at a full box, or take at an empty one. In all runs together
each actor that there can be posted and took, and each kind of envelope was posted and taken.
"""

import os
import random
import re
import sys
import time
from collections import Counter, namedtuple

from kit import schedules as turns
from kit.inputs import lines_text
from kit.program import MOST_BYTES, TOP, bytes_of, command_of, program, run, shown
from kit.refusals import numbers, refusing, resting, yielding
from kit.report import in_processes, main, say
from kit.turnstile import SERVICE
from models import eager, real_time
from models.histories import requests_of
from models.transcript_text import Reader, whole

TRIES = f"{TOP}/crates/dsr_mail_tries/out/dsr_mail_tries"
# Within which a run must end, and one of which something is refused.
SECONDS, SECONDS_OF_REFUSED = 300, 20


def checked(transcript):
    """What `dsr check` says against a transcript, or None if it takes it for a run of as many steps as it has lines after the first; and its report."""
    if len(transcript) > MOST_BYTES:
        return f"its transcript has {len(transcript)} bytes, more than `dsr check` reads", b""
    status, report, errors = ran = program("check", transcript, SECONDS)
    is_run = status == 0 and not errors and report.startswith(b"run %d\n" % (transcript.count(b"\n") - 1))
    return None if is_run else f"its transcript is no run: {shown(ran)}", report


# ---- services

# How often a gate passes that is not to stop a service.
UNSTOPPED = 10**12
SHAPES = ["1 0 1 -", "3 1 1 -", "3 1 2 r2", "4 1 2 r0", "4 1 4 r3", "5 2 3 r1+r4", "7 3 4 r0+r2+r6"]
LARGE = "16 7 32 r1+r3+r5+r7+r9+r11+r13"
# The shapes of which each allocation is refused, with wider and wider steps: those that `dsr_own_service` serves, and those that `dsr serve` does.
STARVED_SHAPES = ["1 0 1 -", "3 1 2 r2", "7 3 4 r0+r2+r6"]
SERVED_SHAPES = ["1 0 1 -", "3 1 2 r2"]
# The shapes of which a thread is refused while the gate stops the host before it. Hosts are started by falling numbers, first those of clients, then those of
# traitors: so the stopped one has a lower place than the refused one where that is a loyal replica after a traitor.
STOPPED_SHAPES = ["1 0 1 -", "3 1 1 r0", "5 2 3 r1+r4"]
# How many milliseconds a thread's refusal takes then, in which the host of the thread before it is stopped, and stops the others.
LATE = 60
FORMS = ["serve", "serve --transcript"]
NO_MEMORY, NO_THREAD, NO_ANSWER = b"dsr: no memory\n", b"dsr: no thread\n", b"dsr: no answer within the turns\n"
# What the example says if there is no memory for its own words, of which it then has none.
USAGE = b"usage: dsr_own_service COUNT [transcript], or dsr_own_service in-turn SCRIPT TURN..\n"
# A line of a report of `dsr serve`.
ACCEPTED = re.compile(r"^accepted (c\d+) (\d+) (\d+) .+$", re.M)
# The status of `dsr serve`, by what it says.
STATUSES = {b"": 0, NO_ANSWER: 1, NO_THREAD: 1, NO_MEMORY: 3}
# A script: its shape, its text, how many operations each client has there, and the report if all clients are served, if it is known.
Script = namedtuple("Script", "shape text counts report", defaults=[None])
THREE_LOYAL = Script("3 1 1 -", bytes_of("examples/services/three-loyal.serve"), [2], bytes_of("examples/services/three-loyal.out"))
# Of so many allocations each one is refused.
EACH_REFUSED = 200


def drafts_of(chance, n, m, traitor):
    """The lines of what a traitor does in its first rounds."""
    kind = chance.choice(["silent", "two-faced", "lying", "forging"])
    lines = []
    for t in range(3 * n if kind != "silent" else 0):
        if kind == "two-faced" and t % n == traitor:
            to = chance.randrange(n)
            lines.append(f"script r{traitor} {t} r{to} round {t} {t}/idle/r{traitor}")
        elif kind == "lying":
            lines.append(f"script r{traitor} {t} c{chance.randrange(m)} reply {1 + t % 3} {t} held {t}")
        elif kind == "forging":
            lines.append(f"script r{traitor} {t} r{chance.randrange(n)} round {t} {t}/idle/r{t % n}")
    return lines


def script_of(chance, shape):
    """A random script of the shape."""
    n, _, m, traitors = shape.split(" ")
    n, m = int(n), int(m)
    counts = [chance.randrange(1, 4) for _ in range(m)]
    lines = [f"ask c{client} {chance.choice(turns.OPERATIONS)}" for client in range(m) for _ in range(counts[client])]
    for traitor in [] if traitors == "-" else traitors.split("+"):
        lines += list(dict.fromkeys(drafts_of(chance, n, m, int(traitor[1:]))))
    return Script(shape, lines_text([f"dsr-serve 1 {shape}", *lines]), counts)


def accepted_in(report):
    """The numbers of the replies that each client accepted, by the report of `dsr check`."""
    numbers_of = {}
    for client, number, _ in ACCEPTED.findall(report.decode()):
        numbers_of.setdefault(client, []).append(int(number))
    return numbers_of


def fault_of_transcript(status, transcript, counts):
    """What is wrong with the transcript of a service with this status, or None."""
    fault, report = checked(transcript)
    wanted = {f"c{client}": list(range(1, count + 1)) for client, count in enumerate(counts)}
    if not fault and status == 0 and accepted_in(report) != wanted:
        return f"accepted were {accepted_in(report)}, and not {wanted}"
    return fault


def fault_of_report(status, report, counts):
    """What is wrong with the report of `dsr serve` with this status, or None."""
    accepted = ACCEPTED.findall(report.decode())
    title, *history = report.decode().split("\n")[len(accepted):]
    if not history or title != f"history {len(history) - 1}" or history[-1] != "":
        return f"it wrote {report[:200]!r}"
    for client, number, place in accepted:
        if not any(line.startswith(f"{place} {client}#{number}:") for line in history[int(place):int(place) + 1]):
            return f"the history has no request of {client} under {number} at place {place}: {report!r}"
    for client, count in enumerate(counts):
        wanted, had = list(range(1, count + 1)), accepted_in(report).get(f"c{client}", [])
        if had != wanted[:len(had)] or (status == 0 and had != wanted):
            return f"c{client} accepted replies to its requests {had}, and not to {wanted}"
    return None


def fault_of_service(ran, counts, may_stop=False):
    """What is wrong with how `dsr_own_service` ended, or None."""
    status, transcript, said = ran
    ends = {0: [b""], 1: [NO_ANSWER] + [b"dsr: stopped by the gate\n"] * may_stop}
    return fault_of_transcript(status, transcript, counts) if said in ends.get(status, []) else shown(ran)


def fault_of_program(form, ran, counts):
    """What is wrong with how `dsr serve` ended in this form, of which something was refused, or None."""
    status, written, said = ran
    if STATUSES.get(said) != status:
        return shown(ran)
    if said == NO_MEMORY and not written:
        return None
    return (fault_of_transcript if "--transcript" in form else fault_of_report)(status, written, counts)


def rows(runs):
    """Each run: its shape, after how many passes it is stopped, and whether it has one processor alone."""
    for number in range(runs):
        is_stopped = number % 4 == 3
        yield SHAPES[number % len(SHAPES)], 1 + 7 * number % 101 if is_stopped else UNSTOPPED, number % 5 == 2
    yield LARGE, UNSTOPPED, False


def judge_services(report, chance, runs):
    """Judges so many services, and what is asked of all of them together."""
    served = unstopped = halted = halting = 0
    for number, (shape, passes, is_alone) in enumerate(rows(runs)):
        script, is_stopped = script_of(chance, shape), passes != UNSTOPPED
        ran = run([*(["taskset", "-c", "0"] if is_alone else []), SERVICE, str(passes), "transcript"], script.text)
        fault = fault_of_service(ran, script.counts, is_stopped)
        report.judge(f"service {number} of shape {shape}", fault and f"{fault}\n{script.text.decode()}", None)
        halting, halted = halting + is_stopped, halted + (is_stopped and ran[0] == 1)
        unstopped, served = unstopped + (not is_stopped), served + (not is_stopped and ran[0] == 0)
    if 10 * served < 9 * unstopped:
        report.judge("services that nothing stopped", f"only {served} of {unstopped} have served all clients")
    if 2 * halted < halting:
        report.judge("services that are to be stopped", f"only {halted} of {halting} were, by their gates")
    say(f"{halted} of {halting} services were stopped by their gates")
    say(f"{served} of {unstopped} services that nothing stopped have served all clients")


# ---- services of which something is refused


def refused_service(shim, script, form, passes=UNSTOPPED, **refusal):
    """How a service ended of which something was refused, `dsr serve` in this form, or else `dsr_own_service`, which its gate stops after so many passes;
    and whether it came to that."""
    command = command_of(form) if form else [SERVICE, str(passes), "transcript"]
    ran, noted = shim.run(command, script.text, SECONDS_OF_REFUSED, **refusal)
    return ran, noted is not None


def fault_without_thread(shim, script, form, **refusal):
    """What is wrong with how a service ended of which a thread was refused, or None."""
    ran, is_refused = refused_service(shim, script, form, **refusal)
    if not is_refused:
        return "no thread was refused"
    if ran[::2] != (1, NO_THREAD):
        return shown(ran)
    return fault_of_program(form, ran, script.counts) if form else fault_of_transcript(*ran[:2], script.counts)


def judge_without_threads(report, chance, shim):
    """Judges services of which one thread was refused, each in turn: one for each host."""
    kinds = [("dsr_own_service", [*SHAPES, LARGE], 1, None, {}), ("dsr_own_service, its gate shut", STOPPED_SHAPES, 2, None, {"passes": 0, "late": LATE}),
             *((f"dsr {form}", SERVED_SHAPES, 1, form, {}) for form in FORMS)]
    for what, shapes, first, form, more in kinds:
        count = 0
        for shape in shapes:
            script = script_of(chance, shape)
            n, _, m, _ = shape.split(" ")
            for nth in range(first, int(n) + int(m) + 1):
                fault = fault_without_thread(shim, script, form, thread=nth, **more)
                report.judge(f"{what} of shape {shape} with thread {nth} refused", fault and f"{fault}\n{script.text.decode()}", None)
                count += 1
        say(f"{count} services with one thread refused: {what}")


def fault_without_memory(ran, counts):
    """What is wrong with how `dsr_own_service` ended of which one allocation was refused, or None."""
    if ran in [(1, b"", NO_MEMORY), (2, b"", USAGE)]:
        return None
    if ran[::2] not in [(0, b""), (1, NO_MEMORY), (1, NO_THREAD), (1, NO_ANSWER)]:
        return shown(ran)
    return fault_of_transcript(*ran[:2], counts)


def fault_of_starved(ran, is_refused, form, script):
    """What is wrong with how a service ended of which an allocation was refused, or at last none, or None."""
    if form == "serve" and script.report and ran[0] == 0 and ran[1] != script.report:
        return f"its report is another than the one that is known: {shown(ran)}"
    if form:
        return fault_of_program(form, ran, script.counts) if is_refused or ran[2] in (b"", NO_ANSWER) else shown(ran)
    return fault_without_memory(ran, script.counts) if is_refused else fault_of_service(ran, script.counts)


def fault_of_ends(ends):
    """What is wrong with what services said of which one allocation after the other was refused, or None."""
    if USAGE in ends[ends.count(USAGE):]:
        return "one said how it is used after others had memory for their words"
    if NO_MEMORY not in ends:
        return "no refusal ended one"
    if 10 * ends.count(NO_ANSWER) > len(ends):
        return f"{ends.count(NO_ANSWER)} services had no answer"
    return None


def starved(shim, script, form, refused):
    """What is wrong with services of which one allocation after the other is refused, those of these numbers, or None; and what they said."""
    ends = []
    for nth in refused:
        ran, is_refused = refused_service(shim, script, form, nth=nth)
        fault = fault_of_starved(ran, is_refused, form, script)
        if fault:
            return f"with allocation {nth} refused: {fault}", ends
        ends.append(ran[2])
        if not is_refused:
            return fault_of_ends(ends), ends
    return "there is no end of refusals", ends


def judge_starved(report, what, shim, script, form, refused):
    """Judges services on this script, of which one allocation after the other was refused."""
    fault, ends = starved(shim, script, form, refused)
    told = {said.decode(): ends.count(said) for said in ends}
    said = f", {len(ends)} services with one allocation refused, by what they said: {told}"
    report.judge(what, fault and f"{fault}\n{script.text.decode()}", said)


def judge_without_memory(report, chance, shim, is_soak):
    """Judges services on some scripts, and on that of the example, of which one allocation after the other was refused."""
    kinds = [("dsr_own_service", shape, None) for shape in STARVED_SHAPES] + [(f"dsr {form}", shape, form) for form in FORMS for shape in SERVED_SHAPES]
    for what, shape, form in kinds:
        judge_starved(report, f"{what} of shape {shape}", shim, script_of(chance, shape), form, numbers(steps=30 if form else 60))
    for form in FORMS:
        refused = numbers() if is_soak else numbers(first=EACH_REFUSED, steps=30)
        judge_starved(report, f"dsr {form} of the example three-loyal", shim, THREE_LOYAL, form, refused)


def services(report, is_soak):
    chance = random.Random(1983)
    judge_services(report, chance, 1000 if is_soak else 200)
    with refusing() as shim:
        judge_without_threads(report, chance, shim)
        judge_without_memory(report, chance, shim, is_soak)


# ---- wakes

# The shapes of these services, and how many there are of each, and with `soak` five times as many.
WAKING_SHAPES, WAKING = ["3 1 2 r2", "4 1 2 -", "4 1 4 r3", "5 2 3 r1+r4", "7 3 4 r0+r2+r6"], 4
# For how many microseconds a thread rests that has woken another, and how many must be woken in all services of a shape together.
REST, FEWEST_WOKEN = 2_000, 20


def wakes(report, is_soak):
    chance = random.Random(2003)
    with resting() as shim:
        for shape in WAKING_SHAPES:
            woken = 0
            for number in range(WAKING * (5 if is_soak else 1)):
                script = script_of(chance, shape)
                ran, noted = shim.run([SERVICE, str(UNSTOPPED), "transcript"], script.text, SECONDS_OF_REFUSED, rest=REST)
                woken += int.from_bytes(noted or b"", "little")
                fault = fault_of_service(ran, script.counts)
                report.judge(f"service {number} of shape {shape}", fault and f"{fault}\n{script.text.decode()}", None)
            report.judge(f"threads woken in services of shape {shape}", f"only {woken}" if woken < FEWEST_WOKEN else None, f", {woken}")


# ---- answers

# The shapes that are served so often, each, and with `soak` five times as often.
ANSWERED = 20
ANSWERED_SHAPES = [
    "1 0 1 -", "1 0 9 -", "3 1 1 r0", "3 1 2 r2", "4 1 3 -", "4 1 8 r3", "4 1 9 r1", "5 2 3 r1+r4", "7 3 4 r0+r2+r6", "7 3 16 r1+r3+r5",
]


def fault_of_history(transcript, counts, sums):
    """What is wrong with the answers in a run, in which each client is to have as many as `counts` says, or None. What is counted is added to the sums."""
    fault, report = checked(transcript)
    if fault:
        return fault
    calls = real_time.calls_of(transcript)
    answered = sum(call.answered is not None for call in calls)
    fault, is_small = real_time.judged(calls, requests_of(report))
    sums.update(histories=1, small=is_small, answered=answered, pairs=len(real_time.pairs_in_real_time(calls)))
    return fault or (f"{answered} requests were answered, and not {sum(counts)}" if answered != sum(counts) else None)


def fault_of_answers(script, is_alone, sums, greatest):
    """What is wrong with how a service on this script answers its clients, perhaps on one processor alone, or None. The greatest count of rounds goes to its
    shape. A service that has used up its rounds, as a client's thread came too late, is not judged."""
    ran = run([*(["taskset", "-c", "0"] if is_alone else []), *command_of("serve --transcript")], script.text, SECONDS)
    status, transcript, said = ran
    if (status, said) != (0, b""):
        return None if (status, said) == (1, NO_ANSWER) else shown(ran)
    rounds = eager.counted(transcript)
    greatest[script.shape] = max(rounds.greatest, greatest.get(script.shape, 0))
    sums["served"] += 1
    return (rounds.fault() or rounds.fault_of_eagerness() or fault_of_history(transcript, script.counts, sums)
            or fault_of_history(real_time.with_late_asks(transcript), script.counts, sums))


def answers(report, is_soak):
    chance, sums, greatest = random.Random(1990), Counter(), {}
    shapes = [*ANSWERED_SHAPES * ANSWERED * (5 if is_soak else 1), LARGE]
    count = len(shapes)
    for number, shape in enumerate(shapes):
        script = script_of(chance, shape)
        fault = fault_of_answers(script, number % 7 == 2, sums, greatest)
        report.judge(f"service {number} of shape {shape}", fault and f"{fault}\n{script.text.decode()}", None)
    for shape, rounds in greatest.items():
        bound = eager.rounds_to_act(whole(shape.encode(), Reader.shape))
        say(f"shape {shape}: at most {rounds} rounds from held to acted, of {bound}")
    say(f"{sums['served']} of {count} services have served all clients; {sums['answered']} answers, {sums['pairs']} pairs in real time")
    say(f"{sums['small']} of {sums['histories']} histories were small enough for the search; the others were judged by their places alone")
    report.judge("services that have served all clients", None if 10 * sums["served"] >= 9 * count else f"only {sums['served']} of {count}", None)
    report.judge("pairs in real time", None if sums["pairs"] else "there are none", None)


# ---- schedules

# How often at least each kind of host must have been woken by posts, and by takes, and by a host of each kind that was the first to stop all.
WOKEN, WOKEN_BY_ALL = 1_000, 10


def schedules(report, is_soak):
    rows = list(turns.rows(5_000 if is_soak else 500))
    causes, woken, count = Counter(), Counter(), 0
    with yielding() as shim:
        for row, (fault, came) in zip(rows, in_processes(turns.judged_row, [(row, shim.library) for row in rows])):
            report.judge(f"schedule {row.seed} of shape {row.shape}, {row.rule}, with {row.stops} to be stopped", fault, None)
            causes[came.cause] += 1
            woken += came.woken
            count += came.turns
    ends = ", ".join(f"{cause or 'served'} {often}" for cause, often in causes.items())
    say(f"{count} turns; services ended: {ends}")
    say("; ".join(f"{kind} woken by {what} {often}" for (kind, what), often in sorted(woken.items())))
    wanted = {(kind, what): WOKEN for kind in ("replica", "traitor") for what in ("post", "take")}
    wanted |= {(kind, what): WOKEN_BY_ALL for kind in ("replica", "traitor") for what in ("replica", "traitor", "client")}
    for (kind, what), often in wanted.items():
        report.judge(f"{kind} woken by {what}", None if woken[kind, what] >= often else f"only {woken[kind, what]} times", None)
    report.judge("services that ended each way", None if len(causes) == 3 else f"they ended as {causes}", None)


# ---- mail

# For how many seconds the mail is tried with `soak`.
SOAK = 3_600
# Each shape, at how many seats a thread takes turns, how many tries each thread makes, and how many runs there are.
TRIED = [
    ("1 0 1 -", 1, 200_000, 2),
    ("1 0 32 -", 8, 100_000, 2),
    ("3 1 2 -", 1, 200_000, 4),
    ("4 1 2 r0", 4, 200_000, 4),
    ("4 1 2 r3", 1, 200_000, 4),
    ("5 2 4 r1+r4", 2, 200_000, 4),
    ("7 3 8 r0+r2+r6", 3, 200_000, 4),
    ("10 4 16 r0+r3+r5+r9", 6, 200_000, 4),
    ("16 7 32 r0+r1+r2+r3+r4+r5+r6", 16, 400_000, 2),
    ("16 7 32 r1+r3+r5+r7+r9+r11+r13", 1, 50_000, 4),
    ("16 7 32 -", 16, 150_000, 2),
    ("16 0 32 -", 16, 150_000, 1),
]


def threads_of(shape, seats):
    """How many threads there are, each of which takes turns at so many seats: of loyal replicas, of traitors, or of clients."""
    n, _, m, traitors = shape.split(" ")
    count = 0 if traitors == "-" else len(traitors.split("+"))
    return sum(-(-seats_of_kind // seats) for seats_of_kind in (int(n) - count, count, int(m)))


def box_fault(lines):
    """What is wrong with what was posted and taken at each box, by the lines of a transcript without the first; or None."""
    posted, taken = {}, {}
    for line in lines:
        actor, what, other, envelope = line.split(" ", 3)
        if what == "post":
            box = (actor, other)
            if len(posted.get(box, ())) != len(taken.get(box, ())):
                return f"posted into a full box: {line[:80]}"
            posted.setdefault(box, []).append(envelope)
        elif what == "take":
            box = (other, actor)
            if len(posted.get(box, ())) == len(taken.get(box, ())):
                return f"taken from an empty box: {line[:80]}"
            taken.setdefault(box, []).append(envelope)
        else:
            return f"no line of a transcript: {line[:80]}"
    for box, envelopes in taken.items():
        if envelopes != posted[box][:len(envelopes)]:
            return f"what {box[1]} took from {box[0]} is not what was posted there first"
    return None


def fault_of_mail(text, shape):
    """What is wrong with a transcript of this shape, or None."""
    first, *lines = text.decode().split("\n")[:-1]
    if first not in (f"dsr-transcript 1 {shape}", f"dsr-transcript 2 {shape}"):
        return f"its first line is {first[:80]!r}"
    return box_fault(lines) or checked(text)[0]


def kinds_of(text):
    """Who posted and took, and which kinds of envelopes, as a set of pairs of words."""
    found = set()
    for line in text.decode().split("\n")[1:-1]:
        actor, what, _, envelope = line.split(" ", 3)
        found |= {(actor, what), (what, envelope.split(" ", 1)[0])}
    return found


def wanted_kinds():
    """What must be found in all runs together."""
    actors = [f"r{number}" for number in range(16)] + [f"c{number}" for number in range(32)]
    return {(actor, what) for actor in actors for what in ("post", "take")} | {
        (what, envelope) for what in ("post", "take") for envelope in ("ask", "round", "reply", "seen", "empty")}


class Mail:
    """The tries of the mail, what is said of each, and what all so far had."""

    def __init__(self, report):
        self.report, self.tries, self.steps, self.found = report, 0, 0, set()

    def judge_run(self, seed, tries, seats, shape):
        status, text, errors = ran = run([TRIES, str(seed), str(tries), str(seats), shape], b"", SECONDS)
        fault = shown(ran) if status != 0 or errors else fault_of_mail(text, shape)
        if self.report.judge(f"seed {seed}, {tries} tries, {seats} seats a thread, {shape}", fault, None):
            self.tries += tries * threads_of(shape, seats)
            self.steps += text.count(b"\n") - 1
            self.found |= kinds_of(text)

    def judge_runs(self, seed):
        """All rows, each run with a seed of its own."""
        for at, (shape, seats, tries, runs) in enumerate(TRIED):
            for again in range(runs):
                self.judge_run(seed + 1_000 * at + again, tries, seats, shape)

    def judge_kinds(self):
        missing = sorted(wanted_kinds() - self.found)
        fault = f"in no run: {', '.join(' '.join(words) for words in missing[:8])}, {len(missing)} in all" if missing else None
        self.report.judge("who posted and took, and what", fault, None)


def judge_the_judges(report):
    """Judges that both judges of the mail find what is wrong. Each case is of one replica and two clients."""
    good = ["c0 post c1 seen 0", "c1 take c0 seen 0", "c0 post r0 ask c0#1:write:a:7~c0", "r0 take c0 ask c0#1:write:a:7~c0",
            "c0 post c1 seen 0", "c1 post c0 seen 0", "c0 take c1 seen 0", "c1 take c0 seen 0"]
    for what, lines, is_wrong in [
        ("a run", good, False),
        ("an envelope taken twice", good[:2] + good[1:], True),
        ("an envelope lost", good[:2] + [good[4]] + good[4:], True),
        ("another envelope taken than was posted", good[:3] + ["r0 take c0 ask c0#1:write:a:8~c0"] + good[4:], True),
        ("a take before its post", [good[1], good[0]] + good[2:], True),
    ]:
        of_boxes, (of_check, _) = box_fault(lines), checked(lines_text(["dsr-transcript 1 1 0 2 -", *lines]))
        for judge, fault in [("the count of boxes", of_boxes), ("`dsr check`", of_check)]:
            report.judge(f"{judge}, of {what}", f"it says {fault}" if (fault is not None) != is_wrong else None, None)


def mail(report, is_soak):
    if not os.path.exists(TRIES):
        report.judge(TRIES, "it is missing: `rt ci` builds it")
        return
    judge_the_judges(report)
    tried, start, seed, took = Mail(report), time.monotonic(), 1, 0
    while not took or is_soak and not report.failed and took <= SOAK:
        tried.judge_runs(seed)
        seed, took = seed + 1_000_000, time.monotonic() - start
        say(f"{tried.tries} tries so far, of which {tried.steps} are steps, in {took:.0f} seconds")
    tried.judge_kinds()


if __name__ == "__main__":
    sys.exit(main(__doc__, {"services": services, "wakes": wakes, "answers": answers, "schedules": schedules, "mail": mail}, "soak"))
