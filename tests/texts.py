#!/usr/bin/env python3
"""Texts for every word of the program: tests/texts.py, or with the names of some of its parts, and with the word `soak` many more texts. What the
program gives on a text must be what tests/models give: status, standard output and standard error, to the byte.

transcripts: what `dsr play --transcript` writes of the plays of examples/, and of 200 random plays with traitors in them; and what `dsr check` says of these
transcripts, of the texts of tests/written/transcripts.txt, and of what examples/record/service.py records of itself. Each transcript is tried with small
changes too: two neighbouring lines exchanged, a line left out, cut after each line, a byte changed, some cut at every byte; those of random plays with
changes by chance. Then texts of as many bytes as are allowed, and of more.

malicious: each text of examples/ that `apply`, `play`, `serve` or `check` reads, cut at every byte, and with each byte changed: a part of these, with `soak`
all of them, in several ways, and the transcripts of plays too. Then these texts with changes by chance: bytes left out, lines moved or made twice, words and
headers exchanged; and texts of nothing but words and bytes drawn by chance. Then texts at each limit and past it: bytes of input, events, chains of an
envelope, signatures of a chain, signers of a statement, requests of a value, clients of a choice, numbers, values, and names. So nothing is written on
standard output after a text is refused but the answers of `apply` to the lines before the bad one; and memory never runs out. Of a service it is
judged whether its report may be. Each run must end within a minute.

plays: inputs of as many bytes as `dsr play` allows, and of one more; plays of as many events as are allowed, and of one more; each play of examples/ cut at
every byte.
"""

import itertools
import os
import random
import sys

import transcript_rows
from kit import inputs
from kit.inputs import by_byte, by_chance, cut_at_bytes, with_a_byte_changed
from kit.program import MOST_BYTES, MOST_EVENTS, PYTHON, TOP, bytes_of, fault_of, name_of, program, run
from kit.report import in_processes, main
from models import slow_check, slow_play, slow_texts
from models.histories import checked_report
from models.transcript_text import bad_line, refused
from models.words import MODELS

UNREAD = refused("reading failed")
SECONDS = 60
TEXTS_A_TASK = 500
RANDOM_PLAYS = 200
CHANGES_EACH = 12
# The most bytes of a transcript of which each byte is changed in several ways.
SHORT_TRANSCRIPT = 450


# ---- texts and models


class Judge:
    """What is wrong with what the program gives with these words."""

    def __init__(self, words):
        self.words, self.models = words, {**MODELS, "check": slow_check.Judge().verdict_of}

    def fault_of(self, text):
        if self.words == "serve":
            return slow_texts.fault_of_service(text, lambda script: program("serve", script, SECONDS))
        return fault_of(self.words, text, self.models[self.words](text), SECONDS)


def faults_of(words, texts):
    """How many texts there are, and what is wrong with what the program gives on them."""
    judge, count, faults = Judge(words), 0, []
    for text in texts:
        fault = judge.fault_of(text)
        faults += [f"{fault}, on {text[:2000]!r}"] if fault else []
        count += 1
    return count, faults


def faults_of_part(task):
    """The name of a family of texts, how many there are in this part of it, and what is wrong with what the program gives on them."""
    name, family, words, *more, first = task
    return name, *faults_of(words, itertools.islice(family(words, *more), first, first + TEXTS_A_TASK))


def parts_of(name, family, words, *more):
    """The tasks of a family of texts: a function of these words and what else there is."""
    for first in range(0, sum(1 for _ in family(words, *more)), TEXTS_A_TASK):
        yield name, family, words, *more, first


# ---- transcripts


def fault_of_transcript(stem):
    """What is wrong with the transcript that the program makes of a play, or with what it says of it, or None."""
    text, (status, transcript, errors) = bytes_of(f"{stem}.play"), inputs.wanted_of(stem, "transcript")
    if status == 0 and not transcript:
        return "there is no transcript beside it"
    fault = fault_of("play --transcript", text, (status, transcript, errors))
    if fault or status:
        return fault
    return fault_of("check", transcript, (0, checked_report(bytes_of(f"{stem}.out")), b""))


def small_changes(_, text, is_row, is_soak):
    """All that is tried on a transcript: of a short one much, of an attack's or a service's a part, and without `soak` half as much."""
    yield from inputs.exchanged(text)
    yield from inputs.without_a_line(text)
    yield from inputs.cut_after_a_line(text)
    part = 1 if is_soak else 2
    if len(text) <= SHORT_TRANSCRIPT:
        yield from with_a_byte_changed(text, 6 // part)
    else:
        yield from with_a_byte_changed(text, 1, part if is_row else part * max(2, len(text) // 1_500))
    if len(text) <= 2 * SHORT_TRANSCRIPT:
        yield from cut_at_bytes(text)


def parts_of_transcripts(is_soak):
    for stem in [*inputs.plays(), f"{TOP}/examples/record/honest"]:
        text, is_row = bytes_of(f"{stem}.transcript"), os.path.basename(os.path.dirname(stem)) == "examples"
        if text:
            yield from parts_of(f"{name_of(stem)}.transcript, changed", small_changes, "check", text, is_row, is_soak)


def faults_of_random_play(seed):
    """What the program says of a random play and of its transcript, changed and not: how many texts, and the faults."""
    chance = random.Random(seed)
    play = inputs.any_play(chance, seed)
    world, _ = slow_play.world_of(play)
    transcript = world.transcript().encode()
    count, faults = faults_of("check", (by_chance(chance, transcript) for _ in range(CHANGES_EACH)))
    plain = [fault_of("play --transcript", play, (0, transcript, b"")), fault_of("check", transcript, (0, world.check_report().encode(), b""))]
    return "random plays", count + len(plain), [fault for fault in [*plain, *faults] if fault]


def fault_of_record(word, ending, status):
    """What is wrong with a run of the service that records itself, or with what the program says of that, or None."""
    stem = f"examples/record/{word}"
    transcript, verdict = bytes_of(f"{stem}.transcript"), bytes_of(f"{stem}.{ending}")
    command = [*PYTHON, f"{TOP}/examples/record/service.py", *([word] if word == "lying" else [])]
    if run(command, None, SECONDS, stdin=None) != (0, transcript, b"") or not transcript:
        return "its transcript is another one"
    return fault_of("check", transcript, (status, verdict, b"") if status == 0 else (status, b"", verdict))


def faults_of_row(row):
    name, text, wanted = row
    return name, 1, [fault for fault in [fault_of("check", text, wanted)] if fault]


def faults_of_play(stem):
    fault = fault_of_transcript(stem)
    return f"{name_of(stem)}.play", 1, [fault] if fault else []


def transcripts(report, is_soak):
    for function, tasks, chunk in [
        (faults_of_row, transcript_rows.rows(), 8),
        (faults_of_play, inputs.plays(), 8),
        (faults_of_part, parts_of_transcripts(is_soak), 1),
        (faults_of_random_play, range(RANDOM_PLAYS), 8),
        (faults_of_row, transcript_rows.large_rows(), 1),
    ]:
        for result in in_processes(function, tasks, chunk):
            report.gather(*result)
    report.judge_gathered("transcripts")
    for word, ending, status in [("honest", "out", 0), ("lying", "err", 1)]:
        report.judge(f"examples/record, {word}", fault_of_record(word, ending, status), None)


# ---- malicious texts

# The texts of each word.
TEXTS = [("apply", "*.apply"), ("play", "*.play"), ("play", "attacks/*.play"), ("serve", "services/*.serve"), ("serve", "malicious/*.serve"),
         ("check", "*.check"), ("check", "malicious/*.check")]
# Of how many bytes of a short text one is cut or changed without `soak`; a text of more bytes than this is treated so as if it had so many.
STEPS = {"apply": 1, "play": 2, "play --transcript": 16, "serve": 1, "check": 1}
SHORT = 400
# In how many ways a byte is changed with `soak`, and how many texts of each word have changes by chance.
TURNS = 4
BY_CHANCE, BY_CHANCE_SOAK = 250, 10_000


def cut_and_changed(words, text, is_soak):
    """The text cut and changed, as often as is wanted."""
    step = 1 if is_soak else STEPS[words] * max(1, len(text) // SHORT)
    first, turns = len(text) % step, TURNS if is_soak and not text.startswith(b"dsr-transcript") else 1
    return itertools.chain(cut_at_bytes(text, step, first), with_a_byte_changed(text, turns, step, first))


def examples():
    """The words, the path and the text of each example. Of apply texts with more than a thousand lines it is their beginning and their end."""
    for words, pattern in TEXTS:
        for path in inputs.found(pattern):
            lines = bytes_of(path).splitlines(keepends=True)
            yield words, path, b"".join(lines if len(lines) < 1000 else lines[:3] + lines[-5:])
            if words == "play":
                yield "play --transcript", path, b"".join(lines)


def parts_of_examples(is_soak):
    """The tasks of the examples, and with `soak` those of the transcripts of plays."""
    paths = inputs.found("*.transcript", "attacks/*.transcript") if is_soak else []
    for words, path, text in itertools.chain(examples(), (("check", path, bytes_of(path)) for path in paths)):
        yield from parts_of(f"{words} on {name_of(path)}, cut and changed", cut_and_changed, words, text, is_soak)


def changed(chance, text):
    """The text with some changes by chance."""
    for _ in range(chance.choice([1, 1, 2, 3])):
        try:
            text = by_chance(chance, text)
        except ValueError:
            # some changes want a text with a header
            text = by_byte(chance, text) if text else text
    return text


def nonsense(chance, words):
    """A text of words and bytes drawn by chance, often after a header."""
    title = {"play": "dsr-play 1", "play --transcript": "dsr-play 1", "serve": "dsr-serve 1", "check": f"dsr-transcript {chance.choice('12')}"}
    shape = chance.choice(["1 0 1 -", "3 1 1 r0", "3 1 2 -", "5 2 2 r0+r1", "2 1 1 -", "16 7 32 r9"])
    header = f"{title[words]} {shape}\n" if words in title and chance.random() < 0.8 else ""
    tokens = ["r0", "c0", "r16", "c31", "post", "posts", "plant", "plants", "take", "takes", "tell", "asks", "hears", "replies", "ask", "script", "begin", "from",
              "*", "empty", "round", "0", "1", "1099511627775", "1099511627776", "18446744073709551616", "0/idle/r0", "0/idle/-", "0/c0#1:read:a~c0/r0",
              "0/idle/r0(0/idle/-)", "seen", "reply", "written", "held", "none", "read", "write", "swap", "remove", "a", "-", "+", "(", ")", "/", "~", ":", ","]
    lines = [" ".join(chance.choice(tokens) for _ in range(chance.randrange(9))) for _ in range(chance.randrange(6))]
    text = (header + "".join(f"{line}\n" for line in lines)).encode()
    return bytes(chance.randrange(256) for _ in range(chance.randrange(40))) if chance.random() < 0.1 else text


def texts_by_chance(words, seed, count):
    """So many texts: examples of these words with changes, and nonsense."""
    chance, found = random.Random(f"{words} {seed}"), [text for other, _, text in examples() if other == words and 0 < len(text) < 2000]
    for _ in range(count):
        yield nonsense(chance, words) if chance.random() < 0.3 else changed(chance, chance.choice(found))


def faults_by_chance(task):
    """The name of a task, how many texts it has, and what is wrong with what the program gives on them."""
    words, seed, count = task
    return f"{words}, changes by chance", *faults_of(words, texts_by_chance(words, seed, count))


def parts_by_chance(is_soak):
    for words in STEPS:
        for seed in range((BY_CHANCE_SOAK if is_soak else BY_CHANCE) // TEXTS_A_TASK or 1):
            yield words, seed, TEXTS_A_TASK if is_soak else BY_CHANCE


# ---- malicious texts at limits


def envelopes():
    """Envelopes with as many parts as are allowed, and with one more."""
    for what, envelope, _ in transcript_rows.lists_at_limits():
        yield what, envelope
    for number in (2**40 - 1, 2**40):
        yield f"round {number}", f"round {number}"
        yield f"slot {number}", f"round 0 {number}/idle/r0"
        yield f"slot {number} in a statement", f"round 0 0/idle/r0({number}/idle/-)"
        yield f"request number {number}", f"ask c0#{number}:read:a~r0"
        yield f"reply to number {number}", f"reply {number} 0 written"
        yield f"place {number}", f"reply 1 {number} written"
        yield f"front {number}", f"seen {number}"
    for value in (2**64 - 1, 2**64):
        yield f"value {value}", f"reply 1 0 held {value}"
        yield f"value {value} that is written", f"ask c0#1:write:a:{value}~r0"
    for length in (32, 33):
        yield f"a name of {length} bytes", f"ask c0#1:read:{'a' * length}~r0"


def lines_at_limits():
    """Lines of plays and of apply texts at limits, and past them: what each is, its words, and its text."""
    for most in (8, 9):
        clients = "+".join(f"c{client}" for client in range(most))
        yield f"{most} clients of a choice", "play", f"dsr-play 1 1 0 9 -\nposts r0 from {clients}\n"
    for n, f, m, traitors in [(16, 7, 32, 7), (17, 7, 32, 7), (16, 8, 32, 7), (16, 7, 33, 7), (16, 7, 32, 8)]:
        shape = f"{n} {f} {m} {'+'.join(f'r{p}' for p in range(traitors))}"
        for words, title in [("play", "dsr-play 1"), ("serve", "dsr-serve 1"), ("check", "dsr-transcript 1")]:
            yield f"shape {n} {f} {m} with {traitors} traitors", words, f"{title} {shape}\n"
    for number in (2**40 - 1, 2**40):
        yield f"request number {number}", "apply", f"c0 {number} read a\n"
    for value in (2**64 - 1, 2**64):
        yield f"value {value}", "apply", f"c0 1 write a {value}\nc0 2 read a\n"
        yield f"value {value} to be held", "apply", f"c0 1 swap a {value} 1\n"
    for length in (32, 33):
        yield f"a name of {length} bytes", "apply", f"c0 1 read {'a' * length}\n"


def small_limits():
    """What is tried, its words, and its text: the traitor posts the envelope in each way in which a text can say so."""
    for what, envelope in envelopes():
        yield what, "play", f"dsr-play 1 3 1 1 r0\nplant r0 r1 {envelope}\n"
        yield what, "play --transcript", f"dsr-play 1 3 1 1 r0\nplants r0 {envelope}\n"
        yield what, "serve", f"dsr-serve 1 3 1 1 r0\nask c0 read a\nscript r0 0 r1 {envelope}\n"
        yield what, "check", f"{transcript_rows.TRAITOR_TWO}\nr0 post r1 {envelope}\n"
    yield from lines_at_limits()


def filled(header, line, words, size):
    """A text of so many bytes: the header, then lines, and a last line or two with longer names; and how many lines these are. `line` gives the line
    of a number, each of the same length. `words` are those before the name in the last ones."""
    length, least = len(line(0)), len(words) + 2
    count, rest = divmod(size - len(header), length)
    while rest < 2 * least:
        count, rest = count - 1, rest + length
    names = [rest // 2, rest - rest // 2]
    return header + b"".join(map(line, range(count))), count, [b"a" * (size - least + 1) for size in names]


def apply_of(size):
    """Request lines of so many bytes, and what must be answered."""
    text, count, names = filled(b"", lambda number: b"c0 %07d read a\n" % (number + 1_000_000), b"c0 9999999 read ", size)
    text += b"".join(b"c0 %d read %s\n" % (9_999_998 + at, name) for at, name in enumerate(names))
    assert len(text) == size
    return text, b"".join(b"%d held none\n" % place for place in range(count + 2))


def script_of(size):
    """A script of so many bytes, and the operations that it has. The traitor posts nothing of it that anybody waits for."""
    header = b"dsr-serve 1 3 1 1 r0\n"
    text, _, names = filled(header, lambda number: b"script r0 %d r1 empty\n" % (number + 1_000_000), b"ask c0 read ", size)
    text += b"".join(b"ask c0 read %s\n" % name for name in names)
    assert len(text) == size
    return text, [[("read", name.decode()) for name in names]]


def fault_of_script(text, asked):
    """What is wrong with the service of a large script, or None."""
    return slow_texts.fault_of_served(asked, slow_texts.answered_run(lambda: program("serve", text, SECONDS)))


def large_limits():
    """What is tried, and what is wrong with it."""
    text, answers = apply_of(MOST_BYTES)
    yield f"apply, {MOST_BYTES} bytes", fault_of("apply", text, (0, answers, b""), SECONDS)
    yield "apply, one byte more", fault_of("apply", apply_of(MOST_BYTES + 1)[0], UNREAD, SECONDS)
    text, asked = script_of(MOST_BYTES)
    yield f"serve, {MOST_BYTES} bytes", fault_of_script(text, asked)
    for words in ("serve", "serve --transcript"):
        yield f"{words}, one byte more", fault_of(words, script_of(MOST_BYTES + 1)[0], UNREAD, SECONDS)
    for words in ("apply", "play", "play --transcript", "serve", "serve --transcript", "check"):
        yield f"{words}, one byte more, which is no text", fault_of(words, b"\n" * (MOST_BYTES + 1), UNREAD, SECONDS)
    most = b"dsr-play 1 10 0 1 -\n" + b"takes *\n" * (MOST_EVENTS // 100)
    yield f"play --transcript, {MOST_EVENTS} events", fault_of("play --transcript", most, (0, b"dsr-transcript 1 10 0 1 -\n", b""), SECONDS)
    more = most + b"take r0 r0\n"
    yield "play --transcript, one event more", fault_of("play --transcript", more, bad_line(MOST_EVENTS // 100 + 2), SECONDS)


def malicious(report, is_soak):
    for function, tasks in [(faults_of_part, parts_of_examples(is_soak)), (faults_by_chance, parts_by_chance(is_soak))]:
        for result in in_processes(function, tasks):
            report.gather(*result)
    for what, words, text in small_limits():
        count, faults = faults_of(words, [text.encode()])
        report.gather(f"{words}, limits", count, [f"{what}: {fault}" for fault in faults])
    report.judge_gathered("malicious texts")
    report.judge_all(large_limits())


# ---- plays at their limits


def refused_report(events, first, seen, decided):
    """The report of a play in which each event was refused, the first one so."""
    lines = ["done 0", f"refused {events}", f"first 0 {first}"]
    lines += [f"seen c{client} 0" for client in range(seen)] + [f"decided r{replica} -" for replica in range(decided)]
    return 0, "".join(f"{line}\n" for line in [*lines, "history 0"]).encode(), b""


def play_of(size):
    """A play of so many bytes, and how many events it has: posts from a client to a client, which are nobody's part."""
    begun = b"post c0 c1 begin read "
    text, count, names = filled(b"dsr-play 1 1 0 2 -\n", lambda _: begun + b"a" * 32 + b"\n", begun, size)
    text += b"".join(b"%s%s\n" % (begun, name) for name in names)
    assert len(text) == size
    return text, count + len(names)


def takes(shape, lines):
    """A play of this shape, of so many lines which each let all replicas take from all."""
    return f"dsr-play 1 {shape}\n".encode() + b"takes *\n" * lines


def limits():
    """What is tried, its text, and how it must end."""
    text, events = play_of(MOST_BYTES)
    yield f"{MOST_BYTES} bytes", text, refused_report(events, "E16 WrongRole", 2, 1)
    yield "one byte more", play_of(MOST_BYTES + 1)[0], UNREAD
    at_most = takes("10 0 1 -", MOST_EVENTS // 100)
    yield f"{MOST_EVENTS} events", at_most, refused_report(MOST_EVENTS, "E5 NotDue", 1, 10)
    yield "one event more", at_most + b"take r0 r0\n", bad_line(MOST_EVENTS // 100 + 2)
    yield "a hundred events more", at_most + b"takes *\n", bad_line(MOST_EVENTS // 100 + 2)
    yield "one event more, then a bad line", at_most + b"take r0 r0\n\n", bad_line(MOST_EVENTS // 100 + 2)
    yield "999,936 events", takes("16 7 1 -", 3_906), refused_report(999_936, "E5 NotDue", 1, 16)
    yield "256 events more", takes("16 7 1 -", 3_907), bad_line(3_908)


def all_cuts(_, text):
    return cut_at_bytes(text)


def parts_of_cuts():
    """The tasks of the plays that are played, and of those that are refused for their shape, each cut at every byte."""
    for stem in inputs.plays("*.play"):
        if b"shape" in bytes_of(f"{stem}.err", b"shape"):
            yield from parts_of(f"{name_of(stem)}.play, cut", all_cuts, "play", bytes_of(f"{stem}.play"))


def plays(report, _):
    report.judge_all((what, fault_of("play", text, wanted)) for what, text, wanted in limits())
    for result in in_processes(faults_of_part, parts_of_cuts()):
        report.gather(*result)
    report.judge_gathered("plays to be cut")


if __name__ == "__main__":
    sys.exit(main(__doc__, {"transcripts": transcripts, "malicious": malicious, "plays": plays}, "soak"))
