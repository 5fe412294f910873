#!/usr/bin/env python3
"""What long and large texts cost: tests/cost.py, or with the names of some of its parts, and with the word `soak` more load. It needs what `rt ci` built,
and a C compiler, `cc`. A call may refuse for want of memory whatever its contract says, and no contract speaks of cost. So here texts are as large as they
can be, and each event is to be done.

sizes: plays of a million events, and of few, whose whole report is reckoned by tests/kit/long_plays.py. The program has twice the memory that it needed when
that was measured, so many bytes an event: a program fails that takes room for much before it has use for it. An explanation of a million events has less memory
than its text has bytes. How often a play asks for memory grows
with its events and no faster, and what grows in one piece is given room by doubling. Ten times as many events cost not much more than ten times the time.

load: plays of 2,500, 5,000 and 10,000 rounds, with `soak` most of 20,000 too, and the checks of their transcripts: one replica, three, and four of which one
is a traitor; rounds in which nothing is asked, and such in which a request is asked for, decided and answered. The most that is on the heap at once,
counted, must be flat but for what is kept, which is the same of each round: of twice the rounds the later ones take no more bytes each than the first
ones, and a twentieth; and a round takes no more than is written here, a tenth more than when that was measured. Then services of 16 replicas and
32 clients: without traitors, and with seven that tell each other's stories, lie to clients, and would forge. Each must serve all clients, and its
report be right by tests/models/slow_texts.py. So must a service of four replicas and 32 clients, which asks for no more large pieces of memory than is written
here: its posts share asks and chains.

transcripts: what `dsr check` does with transcripts of 16 MiB of the worst kinds.

1. Each kind repeats two lines, a post of an envelope and the take of it, until the text has as many bytes as a transcript may have. So
   how many steps it has is known by how it was made, and that nothing acts. Then the same with a last line that is no step, and with one byte
   more than may be read. The program has twice the memory that it needed when that was measured: so many MiB for each kind.
2. Transcripts with some 700,000 signatures that are spelled out: all the same, of a traitor, and of a client, which each time must be found among those
   that a service made known; and all different, but alike in signer, slot, and how many signed before; and scripts with such signatures. A byte of
   them may take four times the processor time of a byte of the transcript of a service, which is the common case; and a byte of a service of four times the
   rounds half as much again.
"""

import re
import sys
import tempfile
import time

from kit.inputs import lines_text
from kit.long_plays import Rounds, broadcasts, one_replica
from kit.program import LARGE_PAGES, MOST_BYTES, MOST_EVENTS, command_of, difference, least_time, program, run, shown, with_memory
from kit.refusals import counting
from kit.report import main
from models import slow_texts
from models.transcript_text import refused


# ---- sizes: reports and memory

# What the program needed of memory, as RLIMIT_AS counts it, when it was measured: by play, for the start and for the shape, and for each
# event with its share of the report. The plays of 1,000,000 events needed 314, 271 and 62 MiB.
ONE_REPLICA = (5 << 20, 328)
SIXTEEN_REPLICAS = (8 << 20, 58)
# It is given twice that.
AMPLE = 2


def first_difference(written, wanted):
    """The first line in which a report differs from the one that is wanted."""
    written, wanted = written.decode(errors="replace").split("\n"), wanted.decode().split("\n")
    for at, (line, right) in enumerate(zip(written, wanted), 1):
        if line != right:
            return f"line {at} of its report is {line[:160]!r}, and not {right[:160]!r}"
    return f"its report has {len(written)} lines, and not {len(wanted)}"


def fault_within(play, limit):
    """What is wrong with the program's report of this play, if it has so many bytes of memory; or None."""
    text, wanted = play.text(), (0, play.report(), b"")
    if len(text) > MOST_BYTES or play.events > MOST_EVENTS:
        return f"the play has {len(text)} bytes and {play.events} events"
    status, output, errors = ran = run(with_memory(limit, command_of("play")), text, env=LARGE_PAGES)
    if ran == wanted:
        return None
    return f"status {status}, {errors[:120]!r}" + ("" if output == wanted[1] else f"; {first_difference(output, wanted[1])}")


def judge_reports(report):
    """Judges the plays, with what the program needs for each."""
    for what, play, (start, an_event) in [
        ("one replica, a few events", one_replica(1_000), ONE_REPLICA),
        ("one replica, 8 requests in a round", one_replica(MOST_EVENTS), ONE_REPLICA),
        ("one replica, each round for one client", one_replica(MOST_EVENTS, 1, 1), ONE_REPLICA),
        ("sixteen replicas, a few events", broadcasts(1), SIXTEEN_REPLICAS),
        ("sixteen replicas, seven of them traitors", broadcasts(98), SIXTEEN_REPLICAS),
    ]:
        limit = AMPLE * (start + an_event * play.events)
        said = f", {play.events} events, {len(play.closed())} slots closed, at most {max(map(len, play.accepted))} replies of a client"
        report.judge(what, fault_within(play, limit), f"{said}, within {limit >> 20} MiB")


# What an explanation of a million events is given: less than its text has bytes, which goes out in parts. It needed less than 90 MiB.
OF_AN_EXPLANATION = 120 << 20


def fault_of_explanation(play):
    """How the play's explanation with little memory differs from that with ample memory, which tests/told.py judges, or None; and what is said about it."""
    text, command = play.text(), command_of("explain")
    wanted = run(command, text, env=LARGE_PAGES)
    said = f", {len(wanted[1]) >> 20} MiB of text within {OF_AN_EXPLANATION >> 20} MiB"
    if wanted[0] or wanted[2] or len(wanted[1]) <= OF_AN_EXPLANATION:
        return f"with ample memory: status {wanted[0]}, {wanted[2]!r}", said
    status, output, errors = run(with_memory(OF_AN_EXPLANATION, command), text, env=LARGE_PAGES)
    return None if (status, output, errors) == wanted else f"status {status}, {errors[:120]!r}, {len(output)} bytes", said


# ---- sizes: counts

# What grows with the play of one client is given room by doubling: the input, the events, the entries, the decisions, the history, its
# answers, the accepted replies and the report. Twice as many events are one more doubling of each. For a text they are two where that passes
# two powers of two, as its numbers have more digits then.
MOST_GROWN = 2 * 8


def done_with(play):
    """With what the report of a play begins of which each event was done."""
    return f"done {play.events}\nrefused 0\n".encode()


def growth(shim, plays):
    """How the counts of a play and of one with twice the rounds grew: what is wrong with it, or None; by how many reallocations; and what they are."""
    counts = []
    for play in plays:
        ran, noted = shim.run(command_of("play"), play.text(), env=LARGE_PAGES)
        if ran[0] != 0 or not ran[1].startswith(done_with(play)):
            return shown(ran), 0, ""
        counts.append([int(count) for count in noted.split()][:3])
    (first, second) = counts
    # Of a linear program each is twice as great, and less as far as the start takes some. But the last room of a text is four times as great where the text passes
    # two powers of two.
    limits = [("allocations", 2.2), ("reallocations", 2.2), ("bytes that reallocations had", 2.5)]
    faults = [f"{what} are {before} and {after}" for (what, most), before, after in zip(limits, first, second) if after > most * before]
    return "; ".join(faults) or None, second[1] - first[1], f", {first} and {second}"


def judge_allocations(report):
    with counting() as shim:
        # rounds of six events
        fault, grown, said = growth(shim, [one_replica(6 * rounds, 1, 1) for rounds in (1_000, 2_000)])
        if grown > MOST_GROWN:
            more = f"for twice the rounds there are {grown} reallocations more, and not at most {MOST_GROWN}"
            fault = f"{fault}; {more}" if fault else more
        report.judge("1,000 and 2,000 rounds of one replica, allocations", fault, said)
        # 2,000 rounds would be more events than a play may have
        fault, _, said = growth(shim, [broadcasts(cycles) for cycles in (16, 32)])
        report.judge("256 and 512 rounds of sixteen replicas, allocations", fault, said)


# ---- sizes: time

# A linear program takes 10 times as long for 10 times the events, and one that goes over all that was done before, for each event, 100 times.
MOST_TIMES = 30


def fault_of_time(*plays):
    """What is wrong with the time of a play and of one with ten times the events, beside an idle one, or None; and how many times as long that took."""
    idle, few, many = (least_time("play", play.text(), runs, done_with(play)) for play, runs in zip(plays, (30, 30, 5)))
    if None in (idle, few, many):
        return "not each event was done", ""
    first, second = few - idle, many - idle
    # so small a time is not measured well
    ratio = second / max(first, 0.0005)
    return f"it took {first:.4f} and {second:.4f} seconds" if ratio > MOST_TIMES else None, f", {ratio:.1f} times as long"


def sizes(report, _):
    judge_reports(report)
    report.judge("sixteen replicas, seven of them traitors, explained", *fault_of_explanation(broadcasts(98)))
    judge_allocations(report)
    for what, *plays in [
        ("one replica", one_replica(0, 1, 1), one_replica(10_000, 1, 1), one_replica(100_000, 1, 1)),
        ("sixteen replicas", broadcasts(0), broadcasts(1), broadcasts(10)),
    ]:
        report.judge(f"10,000 and 100,000 events of {what}, time", *fault_of_time(*plays))


# ---- load: rounds

ROUNDS, ROUNDS_SOAK = [2_500, 5_000, 10_000], [2_500, 5_000, 10_000, 20_000]
# How much more a later round may take than an earlier one, as a part of it.
MORE = 0.05
# Within which a run under load must end.
SECONDS = 300
# Each kind of play: n, f, its traitors, whether requests are asked for, the most rounds whose transcript is not too long to be checked, and the bytes that a
# round takes at most, in a play and in a check.
KINDS = [
    ("one replica, nothing asked", 1, 0, [], False, 20_000, 2_630, 790),
    ("one replica, a request a round", 1, 0, [], True, 20_000, 6_620, 3_870),
    ("three replicas, nothing asked", 3, 1, [], False, 20_000, 12_240, 8_290),
    ("four replicas with a traitor, a request a round", 4, 1, [3], True, 10_000, 36_850, 28_570),
]
# How many operations each client of a large service has, and the traitors of these.
OPERATIONS, OPERATIONS_SOAK = 25, 100
# How many large pieces of memory a service of four replicas and 32 clients may ask for, for each operation. It asked for 1.7 to 2.5, most on a busy machine,
# and for 5.1 and more when each of the four posts of an ask, and of a replica's round, had a copy of its own.
MOST_LARGE = 4
LARGE = [("16 replicas and 32 clients", "-"), ("16 replicas, seven of them traitors, and 32 clients", "r1+r3+r5+r7+r9+r11+r13")]


def memory_of(shim, words, text):
    """The most bytes that the program had on its heap with this text, and what it wrote; None if it did not end with status 0."""
    # A pipe gives pieces of any size, and how the input grows depends on them. A file gives as much as is asked for.
    with tempfile.TemporaryFile() as given:
        given.write(text)
        given.seek(0)
        (status, output, errors), noted = shim.run(command_of(words), None, SECONDS, stdin=given)
    return (int(noted.split()[3]), output) if (status, errors) == (0, b"") else (0, None)


def measured(shim, kind, rounds):
    """The bytes that a play of so many rounds took, and the check of its transcript, and what is wrong with them, or None."""
    _, n, f, traitors, is_asked, *_ = kind
    play = Rounds(n, f, traitors, is_asked, rounds)
    text = play.text()
    of_play, report = memory_of(shim, "play", text)
    _, transcript = memory_of(shim, "play --transcript", text)
    if report != play.report() or transcript is None or transcript.count(b"\n") != play.events + 1:
        return 0, 0, f"the play of {rounds} rounds is not done, or reported wrongly: {report and report[:120]!r}"
    of_check, found = memory_of(shim, "check", transcript)
    if found is None or not found.startswith(b"run %d\n" % play.events):
        return 0, 0, f"the transcript of {rounds} rounds is no run: {found and found[:120]!r}"
    return of_play, of_check, None


def fault_of_growth(rounds, sizes, most):
    """What is wrong with how memory grows with the rounds, or None; and the bytes of a round, at the end."""
    for at in range(2, len(sizes)):
        before, after = sizes[at - 1] - sizes[at - 2], sizes[at] - sizes[at - 1]
        if after > 2 * before * (1 + MORE):
            return f"{rounds[at]} rounds took {sizes[at]} bytes, and half of them {sizes[at - 1]}", 0
    of_round = (sizes[-1] - sizes[-2]) / (rounds[-1] - rounds[-2])
    return (f"a round took {of_round:.0f} bytes, and at most {most} were allowed" if of_round > most else None), of_round


def judge_kind(report, shim, kind, rounds):
    """Judges the memory of plays of a kind, and of the checks of their transcripts."""
    rounds = [count for count in rounds if count <= kind[5]]
    found = [measured(shim, kind, count) for count in rounds]
    for word, at, most in [("play", 0, kind[6]), ("check", 1, kind[7])]:
        fault, of_round = next((fault for _, _, fault in found if fault), None), 0
        if not fault:
            fault, of_round = fault_of_growth(rounds, [sizes[at] for sizes in found], most)
        report.judge(f"{word}, {kind[0]}, up to {rounds[-1]} rounds", fault, f", {of_round:.0f} bytes a round")


# ---- load: services


def script_of(shape, traitors, operations, more=()):
    """A script of 32 clients, each with so many operations, and of these n, f and traitors; and its operations. `more` has its other lines."""
    asked = [[("write", f"a{client}", str(k)) if k % 2 else ("read", f"a{(client + k) % 32}") for k in range(operations)] for client in range(32)]
    lines = [f"dsr-serve 1 {shape} 32 {traitors}"] + [f"ask c{client} {' '.join(op)}" for client, of_one in enumerate(asked) for op in of_one]
    return lines_text([*lines, *more]), asked


def large_script(traitors, operations):
    """A script of 16 replicas and 32 clients, each with so many operations, and these traitors; and its operations."""
    lines = []
    masks = [] if traitors == "-" else [int(name[1:]) for name in traitors.split("+")]
    for t in range(64):
        for p in masks:
            lines.append(f"script r{p} {t} c{(t + p) % 32} reply {1 + t % 3} {t} held {t}")
            for to in range(p % 2, 16, 2):
                if t % 16 == p:
                    lines.append(f"script r{p} {t} r{to} round {t} {t}/idle/r{p}")
                elif t % 16 in masks:
                    lines.append(f"script r{p} {t} r{to} round {t} {t - 1}/idle/r{t % 16}+r{p}")
    return script_of("16 7", traitors, operations, lines)


def judge_sharing(report, shim):
    """Judges how often a service asks for a large piece of memory: for an ask, or for the requests of a chain, which its posts to the replicas share."""
    text, asked = script_of("4 1", "-", OPERATIONS_SOAK)
    noted = []

    def serve():
        with tempfile.TemporaryFile() as given:
            given.write(text)
            given.seek(0)
            ran, counts = shim.run(command_of("serve"), None, SECONDS, stdin=given)
        noted.append(int(counts.split()[4]) / (32 * OPERATIONS_SOAK))
        return ran

    fault = slow_texts.fault_of_served(asked, slow_texts.answered_run(serve))
    if not fault and noted[-1] > MOST_LARGE:
        fault = f"it asked for {noted[-1]:.1f} large pieces of memory for each operation, and at most {MOST_LARGE} were allowed"
    report.judge(f"4 replicas and 32 clients of {OPERATIONS_SOAK} operations, what posts share", fault, f", {noted[-1]:.1f} large pieces of memory an operation")


def load(report, is_soak):
    with counting() as shim:
        for kind in KINDS:
            judge_kind(report, shim, kind, ROUNDS_SOAK if is_soak else ROUNDS)
        judge_sharing(report, shim)
    operations = OPERATIONS_SOAK if is_soak else OPERATIONS
    for what, traitors in LARGE:
        text, asked = large_script(traitors, operations)
        begun = time.monotonic()
        fault = slow_texts.fault_of_served(asked, slow_texts.answered_run(lambda text=text: program("serve", text, SECONDS)))
        report.judge(f"{what} of {operations} operations", fault, f", in {time.monotonic() - begun:.1f} seconds")


# ---- transcripts of 16 MiB

TRAITOR = "dsr-transcript 2 3 1 1 r0"


def sent(envelope):
    """The traitor posts the envelope to itself, and takes it."""
    return [f"r0 post r0 {envelope}", f"r0 take r0 {envelope}"]


def chains(chain, count=32):
    """An envelope with this chain, so many times."""
    return "round 0 " + " ".join([chain] * count)


# What each kind is, its first lines, the two that are repeated, and how many MiB it needed.
ASKED = ["c0 post r0 ask c0#1:write:a:7~c0"]
REQUESTS = ",".join(["c0#1:write:a:7~c0"] * 8)
LARGE_KINDS = [
    ("the shortest lines", ["dsr-transcript 1 1 0 2 -"], ["c0 post c1 seen 0", "c1 take c0 seen 0"], 140),
    ("one chain of one signature", [TRAITOR], sent("round 0 0/idle/r0"), 150),
    ("32 chains of one signature", [TRAITOR], sent(chains("0/idle/r0")), 160),
    ("32 chains of 16 signatures", [TRAITOR], sent(chains("0/idle/" + "+".join(["r0"] * 16))), 155),
    ("32 chains of 8 requests", [TRAITOR, *ASKED], sent(chains(f"0/{REQUESTS}/r0")), 130),
    ("statements that are spelled out", [TRAITOR], sent(chains("0/idle/" + "+".join(["r0(1/idle/-)"] * 16))), 1005),
]


def transcript(first, repeated, last=()):
    """The text of these lines, the repeated ones as often as fits into the most bytes, and how many steps it has."""
    size = sum(len(line) + 1 for line in [*first, *last])
    times = (MOST_BYTES - size) // sum(len(line) + 1 for line in repeated)
    lines = [*first, *repeated * times, *last]
    return lines_text(lines), len(lines) - 1


def large_cases():
    """What each case is, its text, the MiB of memory that the program has, and its run."""
    for what, first, repeated, needed in LARGE_KINDS:
        text, steps = transcript(first, repeated)
        yield what, text, 2 * needed, (0, f"run {steps}\nhistory 0\n".encode(), b"")
        # the box is empty again after each take, so nothing can be taken once more
        text, steps = transcript(first, repeated, repeated[1:])
        yield f"{what}, and a last line that is no step", text, 2 * needed, refused(f"not a run at line {steps + 1}")
    what, first, repeated, needed = LARGE_KINDS[0]
    text, _ = transcript(first, repeated)
    yield "one byte more than can be read", text + b"\n" * (MOST_BYTES + 1 - len(text)), 2 * needed, refused("reading failed")


# ---- the time of transcripts

SIGNATURES = 700_000
# Of one envelope: 32 chains with 16 signatures each.
OF_AN_ENVELOPE = 512
# How many times as long a byte may take, and one of four times the rounds.
MOST_TIMES_A_BYTE, MOST_GROWTH = 4, 1.5
RUNS = 5
# Rounds of a script, and operations of its client.
OF_A_SCRIPT = 24


def signed_chains(signature, first):
    """32 chains with 16 signatures each. `signature` gives each of a number."""
    signatures = [signature(first + at) for at in range(OF_AN_ENVELOPE)]
    return " ".join("0/idle/" + "+".join(signatures[at:at + 16]) for at in range(0, OF_AN_ENVELOPE, 16))


def alike(first, signature):
    """A transcript with so many signatures, in posts and takes together, or as many as fit, and how many steps it has."""
    lines, size = [TRAITOR, *first], 0
    for number in range(0, SIGNATURES // 2, OF_AN_ENVELOPE):
        more = sent(f"round 0 {signed_chains(signature, number)}")
        size += sum(len(line) + 1 for line in more)
        if size > MOST_BYTES - 1_000:
            break
        lines += more
    return lines_text(lines), len(lines) - 1


def script(signature):
    """A script with so many signatures, which its traitor posts to itself: what it took it may post again, so it keeps them."""
    lines = ["dsr-serve 1 3 1 1 r0", *["ask c0 read a"] * OF_A_SCRIPT]
    for t in range(OF_A_SCRIPT):
        lines.append(f"script r0 {t} r0 round {t} {signed_chains(signature, 1_000_000 + t * OF_AN_ENVELOPE)}")
    return lines_text(lines)


def service(shape, rounds):
    """The transcript of a service in so many rounds, in which a client has a request in most of them."""
    n, f, traitors = shape
    return program("play --transcript", Rounds(n, f, traitors, True, rounds).text())[1]


def times_a_byte(words, texts):
    """The least seconds of a processor that the program takes for a byte of each of these texts; None if what it writes for one does not begin as it must.
    The texts take turns, since a processor may change its speed meanwhile."""
    rounds = [[least_time(words, text, 1, begins) for text, begins in texts] for _ in range(RUNS)]
    if any(None in seconds for seconds in rounds):
        return None
    return [min(seconds) / len(text) for (text, _), seconds in zip(texts, zip(*rounds))]


def times():
    """What each case is, its fault, or None, and how long it took."""
    common, longer = (service((4, 1, [3]), rounds) for rounds in (1_500, 6_000))
    asked = service((3, 1, [0]), 1_500).decode().splitlines()[1:]
    # the last request that the client signed
    last = re.findall("ask (c0#[^~]*)~c0", "\n".join(asked))[-1]
    cases = [
        ("a service of four times the rounds", MOST_GROWTH, longer, longer.count(b"\n") - 1),
        (f"{SIGNATURES} times the same signature of a traitor", MOST_TIMES_A_BYTE, *alike([], lambda number: "r0(1/idle/-)")),
        (f"{SIGNATURES} times the same signature of a client, after a service", MOST_TIMES_A_BYTE, *alike(asked, lambda number: f"c0({last})")),
        (f"signatures that agree in signer, slot and count, up to {SIGNATURES}", MOST_TIMES_A_BYTE,
         *alike([], lambda number: f"r0(0/c0#{number + 1}:read:a/-)")),
    ]
    found = times_a_byte("check", [(text, b"run %d\n" % steps) for text, steps in [(common, common.count(b"\n") - 1), *(case[2:] for case in cases)]])
    if found is None:
        yield "transcripts whose time is taken", "one of them is no run"
        return
    usual, *others = found
    for (what, most, text, _), a_byte in zip(cases, others):
        said = f"{len(text)} bytes, {a_byte * len(text):.2f} seconds, {a_byte / usual:.2f} times as long a byte as {len(common)} bytes of a service"
        yield what, said if a_byte > most * usual else None, f", {said}"
    yield script_times()


def script_times():
    """The same of scripts: what signatures take that differ in what is signed alone, beside some that differ in their slot."""
    alike_ones, others = script(lambda number: f"r0(0/c0#{number}:read:a/-)"), script(lambda number: f"r0({number}/c0#1:read:a/-)")
    found = times_a_byte("serve", [(text, b"accepted c0 1 ") for text in (alike_ones, others)])
    what = f"a script with {OF_A_SCRIPT * OF_AN_ENVELOPE} signatures that agree in signer, slot and count"
    if found is None:
        return what, "one of two scripts is not served"
    a_byte, usual = found
    said = f"{len(alike_ones)} bytes, {a_byte * len(alike_ones):.2f} seconds, {a_byte / usual:.2f} times as long a byte as if they differ in their slot"
    return what, said if a_byte > MOST_TIMES_A_BYTE * usual else None, f", {said}"


def transcripts(report, _):
    for what, text, mib, wanted in large_cases():
        ran = run(with_memory(mib << 20, command_of("check")), text, env=LARGE_PAGES)
        report.judge(f"{what}, {len(text)} bytes, within {mib} MiB", difference(ran, wanted))
    report.judge_all(times())


if __name__ == "__main__":
    sys.exit(main(__doc__, {"sizes": sizes, "load": load, "transcripts": transcripts}, "soak"))
