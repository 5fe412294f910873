#!/usr/bin/env python3
"""What is told and shown of the program: tests/told.py, or with the names of some of its parts. With `explanations --write` it writes the explanations in
examples/why/ anew, and with `pictures --write` the pictures of the attacks.

explanations: what `dsr explain` tells. Of each play of examples/, and of random plays, the lines of data are those of tests/models/explain_model.py; and so
are, in words, all lines that say why an event is refused or why a reply is no vote, the beginnings of those of events that find a box full, and those at the
end that count something, which are also written by hand for plays that show one each. Each reason why an event is refused, but a counter at its limit, is
that of a play by hand. Of each attack there are lines that name what stopped it. Of each play of examples/why/, which is wrong in one line, the first refused
event is of that line, and the explanation beside it is what the program writes. Of texts that are no play the line, the column, and what was expected there
are named; of 2,000 texts that are nearly plays the line and the column are those of tests/models/first_faults.py: the first byte with which no play goes on;
and of 600 texts each that are nearly serve scripts, transcripts and request lines. Plays written by hand show what is told of requests that are not proposed,
of posts that are refused, and at the end. What is told with options is told without them too; as data, each option leaves just what it is to leave. To tell
what was refused takes at most three times the processor time of the play.

transcripts: what `dsr explain` tells of transcripts. Those of tests/written/stops.txt stop being runs at the line that is there, for the reason that is there,
as data and in words, and each line after it is the one there; the others there are runs. Of each transcript of examples/ that is not one of a run the explanation
is the one beside it, which was written or checked by hand. The transcripts of examples/, and 600 that were changed by chance, are runs or stop at the line that `dsr check`
names, and end with its status and what it tells. If the model of plays refuses the event that the line would be, it has the same reason.

pictures: of each attack what its explanation says was decided, acted and accepted is what the .out beside it says; the .svg beside it is what tools/picture
makes of the explanation, is well formed, asks for nothing from elsewhere, and has less than 60,000 bytes. The page that tools/picture makes has all of its
events, and asks for nothing from elsewhere. Both are made of random plays too, and of a long one of 16 replicas. Of texts that are no explanation
tools/picture says which line is none, writes nothing, and ends with status 1. What tools/steps tells of each transcript of examples/ is what the play beside it
does, or its steps, and last why one may not follow, and it can be drawn.

samples: each `$ COMMAND` with the lines it prints, in README.md, examples/record/README.md and the helps, in which `dsr` is `./dsr`, prints just that. Of
docs/FORMATS.md the requests with their answers, two or more spaces after them; each text of code in the table of bad lines, if the row says no more about it;
each transcript, play and script with the report that one of the later blocks has, in their order; and each text of code in the first columns of
the tables of lines that are no steps, right after the header that the table names.

texts: the program passes all whole texts of conformance/texts, by conformance/run_texts.py: what each transcript, each play, and each event of a play comes to.
"""

import fnmatch
import itertools
import json
import os
import random
import re
import sys
import xml.etree.ElementTree

from kit import inputs, wrong_texts
from kit.inputs import lines_text
from kit.program import PYTHON, TOP, bytes_of, command_of, least_time, name_of, program, run, shown, text_of, write_bytes
from kit.report import in_processes, main
from kit.written import tables
from models import explain_model, first_faults, histories, slow_check, slow_play
from random_plays import begun, event_of


# ---- explanations

EXPLAINED_PLAYS = 200
# How many texts that are nearly plays there are, and how many of them have nearly as many events as a play may have.
NEARLY_PLAYS, FULL_PLAYS = 2_000, 100
# How many texts that are nearly of another kind there are, of each kind.
NEARLY_OTHERS = 600
# How many times the processor time of a play it may take to tell what was refused.
MOST_TIMES = 3
# How lines begin in words that count something at the end, and those and the ones that have a reason.
COUNTING = tuple(words.split("{}")[0] for words in explain_model.COUNTED.values())
SENTENCES = ("    because ", "    no vote of ", *COUNTING)
TABLES = tables("explanations")
# The wrong line of each play of examples/why/, or the line in which what it lacks is missed first.
WRONG_LINES = {"forgotten-post": 6, "wrong-senders-choice": 5, "request-not-asked": 3, "signature-of-another-slot": None, "reply-too-early": 8}
# Options of which each leaves a part of what is told.
NARROWING = [
    {"slot": "0"}, {"slot": "1"}, {"slot": "1099511627775"}, {"actor": "r1"}, {"actor": "c0"}, {"actor": "c31"}, {"refused": True},
    {"actor": "r2", "slot": "0"}, {"actor": "r1", "refused": True}, {"slot": "0", "actor": "c0", "refused": True},
]


def fault_of_lines(play):
    """What is wrong with the data of this play, or None."""
    status, data, told = program("explain --data", play)
    if status != 0 or told:
        return f"status {status}, {told!r}"
    return fault_of_same(data.decode().splitlines(), explain_model.explained(play)[1].decode().splitlines())


def fault_of_same(found, wanted):
    """In which line these lists are not the same, or None."""
    if found == wanted:
        return None
    at = next((at for at, (one, other) in enumerate(zip(found, wanted)) if one != other), min(len(found), len(wanted)))
    return f"line {at + 1} of those that are compared is {found[at:at + 1]}, and not {wanted[at:at + 1]}"


def fault_of_sentences(play):
    """What is wrong with the sentences that say why events of this play are refused, since when a box is full, or why replies are no votes, or that count
    something; or None."""
    status, text, told = program("explain", play)
    if status != 0 or told:
        return f"status {status}, {told!r}"
    found = [line for line in text.decode().splitlines() if line.startswith(SENTENCES)]
    full = [f"{line.partition(')')[0]})" for line in text.decode().splitlines() if ": refused, E6 BoxFull: " in line]
    data = explain_model.explained(play)[1]
    return fault_of_same(found, [*explain_model.sentences(data), *explain_model.ends(data)]) or fault_of_same(full, [*explain_model.full_boxes(data)])


def fault_of_reason(lines, reason, sentence):
    """What is wrong with the reason that is told of the last event of a play with these lines, or None."""
    play = lines_text(["dsr-play 1 3 1 2 r2", *lines.split("\n")])
    for words, begin, reason_told in (("explain --refused --data", "why ", reason), ("explain --refused", "    because ", sentence)):
        status, text, told = program(words, play)
        found = [line.removeprefix(begin) for line in text.decode().splitlines() if line.startswith(begin)]
        if status != 0 or told or found[-1:] != [reason_told]:
            return f"{words}: status {status}, {told!r}, {found[-1:]}"
    return None


def fault_of_reasons():
    """Whether a row shows each reason, and none another word; or None."""
    shown = {reason.split(" ")[0] for _, reason, _ in TABLES["reasons"]}
    return None if shown == set(explain_model.REASONS) else f"{sorted(shown ^ set(explain_model.REASONS))}"


def plays_of_examples():
    """The name and the bytes of each play of examples/ that can be read."""
    for path in inputs.found("**/*.play"):
        play = bytes_of(path)
        if program("play", play)[0] == 0:
            yield inputs.name_in_examples(path), play


def fault_of_stops(name, play):
    """Which pattern of the attack matches no line, or None."""
    lines = program("explain --data", play)[1].decode().splitlines()
    for pattern in dict(TABLES["attacks"]).get(name, "an attack of which nothing is known here").split("\n"):
        if not any(fnmatch.fnmatchcase(line, pattern) for line in lines):
            return f"no line is `{pattern}`"
    return None


def fault_of_why(name, write):
    """What is wrong with the explanation of a play of examples/why/, or None."""
    path = f"examples/why/{name}"
    play, explained = bytes_of(f"{path}.play"), bytes_of(f"{path}.explained")
    status, written, told = program("explain", play)
    if write:
        write_bytes(f"{path}.explained", written)
        explained = written
    if status != 0 or told or written != explained:
        return "the explanation is another one; tests/told.py explanations --write writes them anew"
    refused = program("explain --refused", play)[1].split(b",")[0]
    line = WRONG_LINES.get(name)
    if line is None:
        return None if b"not proper (misfit)" in written else "no misfit is named"
    return None if refused == b"line %d" % line else f"the first refused event is of {refused!r}"


def fault_of_no_play(text, line, column, expected):
    """What is wrong with how a text that is no play is explained, or None."""
    status, written, told = program("explain", text)
    if (status, told) != (1, program("play", text)[2]):
        return f"status {status}, {told!r}"
    first = written.split(b"\n")[0]
    if not first.startswith(b"line %d, column %d: " % (line, column)) or expected not in first:
        return f"it says {first}"
    if first_faults.fault_of(text) != (line, column):
        return f"tests/models/first_faults.py says {first_faults.fault_of(text)}"
    return None if written.split(b"\n")[2].index(b"^") == 4 + column - 1 else "the column is not marked"


def nearly_a_play(number):
    """The text with this number of those that are nearly plays."""
    chance = random.Random(f"nearly a play {number}")
    if number < FULL_PLAYS:
        return wrong_texts.full(chance)
    if number % 4 == 0:
        return wrong_texts.changed(chance, bytes_of(chance.choice(inputs.found("**/*.play"))))
    if number % 4 == 1:
        return wrong_texts.changed(chance, inputs.random_play(chance).text())
    return wrong_texts.drawn(chance) if number % 4 == 2 else wrong_texts.changed(chance, wrong_texts.drawn(chance))


def fault_of_place(number):
    """What is wrong with where this text is said to be wrong, or None. What a play of a million events comes to is not asked."""
    text = nearly_a_play(number)
    kind = other_kind_of(text)
    if kind:
        return fault_of_other(kind, text)
    place = first_faults.fault_of(text)
    if place is None and number < FULL_PLAYS:
        return None
    status, written, _ = program("explain --refused", text)
    said = re.match(rb"line (\d+), column (\d+): (?:expected |empty lines |a play has at most )", written)
    found = (int(said[1]), int(said[2])) if said and status == 1 else None if status == 0 else (status, written[:80])
    return None if found == place else f"{text[-200:]!r} is wrong at {place}, and not at {found}"


# The other kinds of texts: what begins the examples' names end with, what draws one, what says where one is wrong, and how it is to begin to be told of one.
OTHER_KINDS = [
    ("serve", wrong_texts.drawn_script, first_faults.fault_of_script, b"dsr-serve "),
    ("check", wrong_texts.drawn_transcript, first_faults.fault_of_transcript, b"dsr-transcript "),
    ("apply", wrong_texts.drawn_requests, first_faults.fault_of_requests, b"c"),
]


def begins_as(kind, text):
    """Whether the text begins like one of this kind."""
    ending, _, _, beginning = kind
    return text.startswith(beginning) and (ending != "apply" or text[1:2].isdigit())


def other_kind_of(text):
    """The kind of texts, other than plays, like which this one begins, or None."""
    return next((kind for kind in OTHER_KINDS if begins_as(kind, text)), None)


def fault_of_other(kind, text):
    """What is wrong with where `dsr explain` says that this text, which begins like one of the kind, is wrong, or None."""
    place, is_transcript = kind[2](text), kind[0] == "check"
    if is_transcript and place is None:
        return fault_of_account(text)
    status, written, told = program("explain", text)
    said = re.match(rb"th[^\n]* not a play: [^\n]*, and finds a bad line\nline (\d+), column (\d+): (?:expected |empty lines )", written)
    found = (int(said[1]), int(said[2])) if said else None
    wanted = program("check" if is_transcript else "play", text)[2]
    if status != 1 or told != wanted or (place is None and b"finds no bad line\n" not in written):
        return f"of {text[-200:]!r} it says {written[:120]!r} and {told!r}"
    return None if found == place else f"{text[-200:]!r} is wrong at {place}, and not at {found}"


def fault_of_place_in_other(task):
    """What is wrong with where `dsr explain` says that a text of another kind than plays is wrong, or None."""
    kind, number = task
    ending, draw, *_ = kind
    chance = random.Random(f"nearly {ending} {number}")
    text = bytes_of(chance.choice(inputs.found(f"**/*.{ending}"))) if number % 4 == 0 else draw(chance)
    if number % 2:
        text = wrong_texts.changed(chance, text)
    return fault_of_other(kind, text) if begins_as(kind, text) else None


def fault_of_sayings(lines, ends, nowhere):
    """Which of these ends no line of the explanation has, or what is in it and should not be; or None."""
    play = lines_text(["dsr-play 1 3 1 1 -", *lines.split("\n")])
    status, written, told = program("explain", play)
    if status != 0 or told:
        return f"status {status}, {told!r}"
    written = written.decode()
    for end in ends.split("\n"):
        if not any(line.endswith(end) for line in written.splitlines()):
            return f"no line ends with `{end}`"
    return next((f"it says `{text}`" for text in nowhere.split("\n") if text and text in written), None)


def fault_of_refused_plants(lines, told):
    """What is told otherwise than these lines of the refused events of a play with these lines, or what is wrong with its data; or None."""
    play = lines_text(["dsr-play 1 3 1 1 r0", *lines.split("\n")])
    status, text, errors = program("explain --refused", play)
    if status != 0 or errors:
        return f"status {status}, {errors!r}"
    return fault_of_same([line for line in text.decode().splitlines() if line.startswith("line ")], told.split("\n")) or fault_of_lines(play)


def fault_of_counts(lines, counts):
    """What is wrong with the lines at the end that count something, of a play with these lines; or None."""
    status, text, told = program("explain", lines_text(["dsr-play 1 3 1 2 r2", *lines.split("\n")]))
    if status != 0 or told:
        return f"status {status}, {told!r}"
    return fault_of_same([line for line in text.decode().splitlines() if line.startswith(COUNTING)], counts.splitlines())


def with_slots(notes):
    """Each note of an event, with the slot that it is of, or None. What acts, and what does not, is of the slot that was decided before it."""
    decided = None
    for note in notes:
        word, *rest = note.split(" ")
        if word == "decide":
            decided = rest[1]
        yield note, rest[1] if word in ("chain", "unproposed", "kept", "decide") else decided if word in ("act", "stale") else None


def narrowed(lines, slot=None, actor=None, refused=False):
    """The lines of data that these options leave of all of them."""
    ends = [line for line in lines if line.startswith("waits ")]
    starts = [at for at, line in enumerate(lines) if line.startswith("event ")] + [len(lines) - len(ends)]
    left = lines[:starts[0]]
    for first, after in zip(starts, starts[1:]):
        event, notes = lines[first], list(with_slots(lines[first + 1:after]))
        words = event.split(" ")
        if (not refused or words[6] != "done") and actor in (None, words[4]) and (slot is None or slot in [of for _, of in notes]):
            left += [event, *(note for note, of in notes if slot is None or of in (None, slot))]
    if actor is not None:
        return left + [end for end in ends if end.split(" ")[1] == actor]
    return left + (ends if slot is None and not refused else [])


def fault_of_options(play):
    """Which options make a line that is not there without them, or leave other lines of data than they are to leave, or None."""
    whole, data = (program(words, play)[1].decode().splitlines() for words in ("explain", "explain --data"))
    for options in NARROWING:
        words = [word for name, value in options.items() for word in ([f"--{name}"] if value is True else [f"--{name}", value])]
        for order in (words, ["--data", *words], [*words, "--data"]):
            status, some, told = program(["explain", *order], play)
            some = some.decode().splitlines()
            is_part = set(some) <= set(whole) or (len(some) == 1 and some[0].startswith(("none of the ", "no event was refused")))
            if status != 0 or told or (some != narrowed(data, **options) if "--data" in order else not is_part or not some):
                return " ".join(order)
    return None


def play_of_many_events():
    """A play of some 300,000 events, in which each client asks once in a while."""
    lines = ["dsr-play 1 4 1 2 -"]
    for number in range(4_000):
        sender = number % 4
        if number % 8 == 0:
            lines += ["asks c0 begin write a 1", "hears c0"]
        lines += [f"posts r{replica}" + (" from c0" if replica == sender and number % 8 == 0 else "") for replica in range(4)] + ["takes *"]
        if number % 8 == 7:
            lines += ["replies c0", "takes c0"]
    return lines_text(lines)


def check_of_time():
    """What is checked, whether it takes too long to tell what was refused, and what explanations take."""
    play = play_of_many_events()
    plain, refused, whole = (least_time(words, play, 3) for words in ("play", "explain --refused", "explain"))
    if None in (plain, refused, whole):
        return "the time of an explanation", "the play is not explained"
    said = f"the play takes {plain:.2f} seconds, its refused events {refused / plain:.1f} times that, all of its events {whole / plain:.1f} times"
    return "the time of an explanation", said if refused > MOST_TIMES * plain else None, f": {said}"


def explanations(report, is_written):
    chance = random.Random(11)
    drawn = ((f"random play {number}", inputs.random_play(chance).text()) for number in range(EXPLAINED_PLAYS))
    for name, play in itertools.chain(plays_of_examples(), drawn):
        report.judge(f"the data of {name}", fault_of_lines(play), None)
        report.judge(f"the reasons in words of {name}", fault_of_sentences(play), None)
    for stem in inputs.plays("attacks/*.play"):
        name, play = os.path.basename(stem), bytes_of(f"{stem}.play")
        report.judge(f"what stops {name}", fault_of_stops(name, play), None)
        report.judge(f"the options on {name}", fault_of_options(play), None)
    for stem in inputs.plays("why/*.play"):
        report.judge(inputs.name_in_examples(stem), fault_of_why(os.path.basename(stem), is_written), None)
    report.judge("a row for each reason", fault_of_reasons(), None)
    for lines, *told in TABLES["reasons"]:
        report.judge(f"why {lines!r} is refused", fault_of_reason(lines, *told), None)
    for lines, *told in TABLES["sayings"]:
        report.judge(f"what is told of {lines!r}", fault_of_sayings(lines, *told), None)
    for lines, told in TABLES["refused plants"]:
        report.judge(f"the refused plants of {lines!r}", fault_of_refused_plants(lines, told), None)
    for lines, counts in TABLES["counts"]:
        report.judge(f"what is counted of {lines!r}", fault_of_counts(lines, counts), None)
    for text, line, column, expected in TABLES["no plays"]:
        report.judge(f"no play: {text[:60]!r}", fault_of_no_play(text.encode(), int(line), int(column), expected.encode()), None)
    faults = [fault for fault in in_processes(fault_of_place, range(NEARLY_PLAYS), 25) if fault]
    report.gather("where texts that are nearly plays are wrong", NEARLY_PLAYS, faults)
    for kind in OTHER_KINDS:
        tasks = [(kind, number) for number in range(NEARLY_OTHERS)]
        report.gather(f"where texts that `dsr {kind[0]}` nearly reads are wrong", NEARLY_OTHERS, [
            fault for fault in in_processes(fault_of_place_in_other, tasks, 25) if fault
        ])
    report.judge_gathered("texts that are nearly of a kind")
    report.judge(*check_of_time())


# ---- transcripts

CHANGED_TRANSCRIPTS = 600
STOPS = tables("stops")
# What lines of data say in words, by their beginnings and whose line it is; a line that ends with a dash says something of its own.
WORDS = {
    "wanted": "    it posts there: {0}", "box": "    in the box from {0} to {1}: {2}", "box -": "    in the box from {0} to {1}: nothing",
    "due r post": "    due at {0}: the post to {2}", "due r take": "    due at {0}: the take from {2}",
    "due r -": "    due at {0}: nothing, since it is a traitor", "due c -": "    outstanding at {0}: nothing", "due c": "    outstanding at {0}: request {1}",
}


def in_words(line):
    """What this line of data, which follows that of the reason, says in words."""
    word, rest = line.split(" ", 1)
    if word == "wanted":
        return WORDS[word].format(rest)
    parts = rest.split(" ", 2)
    if word == "box":
        return WORDS["box -" if parts[2] == "-" else "box"].format(*parts)
    whose = parts[0][0]
    return WORDS[f"due {whose}" if whose == "c" and parts[1] != "-" else f"due {whose} {parts[1]}"].format(*parts)


def client_twice(world, line):
    """The first client that comes twice in the requests with which this post of a loyal replica begins a slot of its own; None for none."""
    actor, word, other, envelope = line.split(" ", 3)
    if word == "take" or actor not in world.loyal:
        return None
    clients = begun(actor, other, envelope, world.shape.n)
    return next((client for place, client in enumerate(clients) if client in clients[place + 1:]), None)


def modelled_reason(transcript):
    """The reason by the model of plays, if it refuses the event that is the first line which may not follow, or if the line begins a slot with a client twice;
    else None. The model knows nobody who is not of the shape."""
    header, *lines = transcript.decode("latin-1").split("\n")[:-1]
    world = slow_play.World(slow_check.header_of(header.encode())[1])
    for line in lines:
        event, twice = event_of(world, line), client_twice(world, line)
        try:
            world.step(event)
        except slow_play.Refused as refusal:
            return f"why {explain_model.why_refused(world, event, refusal.args[0])}"
        if world.lines[-1] != line:
            return f"why client-twice {twice}" if twice else None
    return None


def fault_of_account(transcript):
    """What is told otherwise of this transcript than `dsr check` judges it, and than the model of plays says, or None."""
    status, report, error = program("check", transcript)
    ended, data, told = program("explain --data", transcript)
    if (ended, told) != (status, error):
        return f"it ends with {ended}, {told!r}, and not with {status}, {error!r}: {transcript[-200:]!r}"
    lines, given = data.decode().split("\n"), transcript.decode("latin-1").split("\n")
    if status == 0:
        wanted = f"run {report.split(maxsplit=2)[1].decode()}"
    elif b"not a run" in error:
        line = int(error.split()[-1])
        wanted = f"stop {line} {given[line - 1]}"
    else:
        return None
    shape = f"dsr-explain 1 {given[0].split(' ', 2)[2]}"
    if lines[:2] != [shape, wanted]:
        return f"it says {lines[:2]}, and not {[shape, wanted]}"
    why = modelled_reason(transcript) if status else None
    is_free = why is None and not (status and lines[2].startswith("why client-twice "))
    return None if is_free or why == lines[2] or lines[2].startswith("why signed-outside ") else f"it says {lines[2]}, and not {why}"


def fault_of_lines_told(transcript, data, words):
    """What is told otherwise of this transcript than these lines of data, after the shape, and these in words; or None."""
    found = [program(task, transcript)[1].decode().splitlines() for task in ("explain --data", "explain")]
    return fault_of_account(transcript) or fault_of_same(found[0][1:], data) or fault_of_same(found[1], words)


def fault_of_stop(lines, line, data, reason):
    """What is told otherwise of these lines than was written by hand, or None."""
    transcript, told = f"dsr-transcript 2 {lines}", data.split("\n")
    step = transcript.split("\n")[int(line) - 1]
    words = [f"line {line} may not follow those before it: {step}", f"    because {reason}", *map(in_words, told[1:])]
    return fault_of_lines_told(transcript.encode(), [f"stop {line} {step}", *told], words)


def fault_of_run(lines, count):
    """What is told otherwise than that these lines are a run of so many steps, or None."""
    words = f"this is a run: each step may follow those before it; number of steps: {count}"
    return fault_of_lines_told(f"dsr-transcript 2 {lines}".encode(), [f"run {count}"], [words])


def transcripts(report, _):
    for row in STOPS["stops"]:
        report.judge(f"where it stops: {row[0][-80:]!r}", fault_of_stop(*row), None)
    for row in STOPS["runs"]:
        report.judge(f"a run: {row[0][-80:]!r}", fault_of_run(*row), None)
    given = inputs.found("**/*.check", "**/*.transcript")
    for path in given:
        transcript, (stem, _) = bytes_of(path), os.path.splitext(path)
        report.judge(f"what is told of {inputs.name_in_examples(path)}", fault_of_account(transcript), None)
        if b"not a run" in program("check", transcript)[2]:
            told = program("explain", transcript)[1]
            report.judge(f"why {inputs.name_in_examples(path)} is not a run", None if told == bytes_of(f"{stem}.explained") else f"it says {told!r}", None)
    chance = random.Random(12)
    texts = [inputs.by_chance(chance, bytes_of(path)) for path in itertools.islice(itertools.cycle(given), CHANGED_TRANSCRIPTS)]
    report.gather("transcripts that were changed", len(texts), [fault for fault in in_processes(fault_of_account, texts, 25) if fault])
    report.judge_gathered("transcripts that were changed by chance")


# ---- pictures

MOST_BYTES_OF_A_PICTURE = 60_000
PICTURED_PLAYS = 30
# Where a picture could ask for something.
ELSEWHERE = re.compile(r"""(?:src|href)\s*=|url\((?!["']?#)|@import|https?://(?!www\.w3\.org/2000/svg")""")


def explanation_of(play):
    """The data lines of this play, as the built program prints them."""
    return program("explain --data", play)[1]


def picture(data, *words):
    """The run of tools/picture with these words on these data lines."""
    return run([*PYTHON, f"{TOP}/tools/picture", *words], data)


def svg_of(data, title):
    """The SVG of these data lines; a fault's text if there is none."""
    status, output, errors = picture(data, "--svg", "--title", title)
    return output if status == 0 and not errors else f"tools/picture --svg ends with status {status}: {errors[:300]!r}"


def fault_of_data(data, report):
    """What an explanation says otherwise than the report of the play, or None."""
    notes = [line.split(" ") for line in data.decode().splitlines()]
    events = [words for words in notes if words[0] == "event"]
    if [sum(words[6] == "done" for words in events), sum(words[6] != "done" for words in events)] != [report["done"], report["refused"]]:
        return "it has other numbers of events that were done and refused"
    decided = {replica: [words[4] for words in notes if words[:2] == ["decide", replica]] for replica in report["decided"]}
    if decided != report["decided"]:
        return f"it says that {decided} were decided, and not {report['decided']}"
    for replica in decided:
        acted = [request for request, _ in histories.acted(decided[replica])]
        told = [words[2:] for words in notes if words[:2] == ["act", replica]]
        if told != [[str(place), request] for place, request in enumerate(acted)]:
            return f"it says that {told} acted at {replica}"
    accepted = [(words[1], int(words[2]), int(words[3]), " ".join(words[4:])) for words in notes if words[0] == "accept"]
    return None if sorted(accepted) == sorted(report["accepted"]) else f"it says that {accepted} were accepted, and not {report['accepted']}"


def fault_of_svg(svg):
    """What is wrong with this SVG, or None. A text is a fault itself."""
    if isinstance(svg, str):
        return svg
    try:
        xml.etree.ElementTree.fromstring(svg)
    except xml.etree.ElementTree.ParseError as error:
        return f"the SVG is not well formed: {error}"
    if len(svg) >= MOST_BYTES_OF_A_PICTURE:
        return f"the SVG has {len(svg)} bytes"
    found = ELSEWHERE.search(svg.decode())
    return f"the SVG asks for {found[0]}" if found else None


def fault_of_page(data):
    """What is wrong with the page of these data lines, or None."""
    status, output, errors = picture(data, "--title", "a <title>")
    if status or errors:
        return f"tools/picture ends with status {status}: {errors[:300]!r}"
    page = output.decode()
    code, _, rest = page.partition("const run = picture.dataOf(")
    drawn, _, code_after = rest.partition(");\n")
    found = ELSEWHERE.search(code + code_after)
    if found:
        return f"the page asks for {found[0]}"
    if "</" in drawn or "<title>a &lt;title&gt;</title>" not in code:
        return "the page does not escape what stands in it"
    if json.loads(f"[{drawn}]".replace("<\\!--", "<!--")) != [data.decode(), "a <title>"]:
        return "the page has other data lines, or another title"
    return None


def fault_of_attack(stem, is_written):
    """What is wrong with the explanation and the pictures of an attack, or None. Its picture is written first if it is to be."""
    name = os.path.basename(stem)
    data = explanation_of(bytes_of(f"{stem}.play"))
    report = histories.read_report(bytes_of(f"{stem}.out").decode())
    svg = svg_of(data, name)
    fault = (report if isinstance(report, str) else fault_of_data(data, report)) or fault_of_svg(svg)
    if fault:
        return fault
    if is_written:
        write_bytes(f"{stem}.svg", svg)
    if bytes_of(f"{stem}.svg") != svg:
        return "its picture is another, or there is none: tests/told.py pictures --write"
    return fault_of_page(data)


def fault_of_random_plays():
    """What is wrong with the pictures of random plays, or None."""
    for seed in range(PICTURED_PLAYS):
        data = explanation_of(inputs.random_play(random.Random(f"pictures {seed}")).text())
        fault = fault_of_svg(svg_of(data, f"random {seed}")) or (fault_of_page(data) if seed % 6 == 0 else None)
        if fault:
            return f"random play {seed}: {fault}"
    return None


def play_of_sixteen(rounds):
    """A play of 16 replicas, three of them traitors, which sign two values each in their slots."""
    loyal, traitors = [r for r in range(16) if r not in (3, 8, 12)], (3, 8, 12)
    lines = ["dsr-play 1 16 7 4 r3+r8+r12"]
    lines += [line for c in range(4) for line in (f"asks c{c} begin write k{c} {c}", f"hears c{c}")]
    for t in range(rounds):
        lines += [f"posts r{r}" + (f" from c{t % 4}+c{(t + 1) % 4}" if t % 16 == r else "") for r in loyal]
        for r in traitors:
            drafts = [f"round {t} {t}/c{c}#1:write:k{c}:{c}~c{c}/r{r}" if t % 16 == r else f"round {t} {t}/idle/r{r}" for c in (t % 4, (t + 1) % 4)]
            lines += [f"plant r{r} r{q} {drafts[q % 2] if t % 16 == r or q == (t + r) % 16 else 'empty'}" for q in range(16)]
        lines.append("takes *")
    return lines_text(lines)


def fault_of_long_play():
    """What is wrong with the pictures of a long play, or None."""
    data = explanation_of(play_of_sixteen(20))
    svg = svg_of(data, "sixteen replicas")
    fault = fault_of_svg(svg) or fault_of_page(data)
    return fault or (None if b"The run goes on" in svg else "the SVG does not say that the run goes on")


def without_lines(data):
    """These data lines, as lists of words, without the lines in which events stand."""
    return [[*words[:2], *words[3:]] if words[0] == "event" else words for words in (line.split(" ") for line in data.decode().splitlines())]


def fault_of_steps(path):
    """What tools/steps tells otherwise of a transcript than it should, or None. If it is that of a play beside it, of which no event is refused, it tells what the
    play does. Otherwise it tells the steps of the run as events that are done, and last the step that may not follow, if there is one, and why."""
    transcript, (stem, _) = bytes_of(path), os.path.splitext(path)
    status, data, errors = run([*PYTHON, f"{TOP}/tools/steps"], transcript)
    if status or errors:
        return shown((status, data, errors))
    play = without_lines(explanation_of(bytes_of(f"{stem}.play"))) if os.path.exists(f"{stem}.play") else []
    if play and all(words[0] != "event" or words[5] == "done" for words in play):
        return fault_of_same(without_lines(data), play)
    header, *steps = transcript.decode().splitlines()
    told, *why = program("explain --data", transcript)[1].decode().splitlines()[1:3]
    stop = int(told.split(" ")[1]) if told.startswith("stop ") else None
    lines = [line for line in data.decode().splitlines() if not line.startswith("waits ")]
    if stop:
        actor, word, other, envelope = steps[stop - 2].split(" ", 3)
        is_planted, is_told = word == "post" and actor in header.split(" ")[-1].split("+"), word == "post" and actor[0] == other[0] == "c"
        kind = "plant" if is_planted else "tell" if is_told else word
        wanted = [f"event {stop - 2} {stop} {kind} {actor} {other} E14 {envelope}", *why]
        if lines[-2:] != wanted:
            return f"it ends with {lines[-2:]}, and not with {wanted}"
    events = [line.split(" ", 7) for line in lines[:-2 if stop else None] if line.startswith("event ")]
    found = [f"{words[4]} {'take' if words[3] == 'take' else 'post'} {words[5]} {words[7]}" for words in events]
    return fault_of_same(found, steps[:stop - 2] if stop else steps) or fault_of_svg(svg_of(data, "steps"))


HEADER = b"dsr-explain 1 3 1 1 r0\n"
NO_EXPLANATIONS = [
    ("an empty text", b""),
    ("a play", b"dsr-play 1 3 1 1 r0\n"),
    ("a header that is not ended", HEADER[:-1]),
    ("a header without a shape", b"dsr-explain 1 3 1\n"),
    ("a line that is not ended", HEADER + b"event 0 2 post c0 r0 done empty"),
    ("an event out of its turn", HEADER + b"event 1 2 post c0 r0 done empty\n"),
    ("a note before any event", HEADER + b"close r1 0\n"),
    ("a note that is not known", HEADER + b"event 0 2 post c0 r0 done empty\nclosed r1 0\n"),
    ("a chain with a fate that is not known", HEADER + b"event 0 2 take r1 r0 done round 0 0/idle/r0\nchain r1 0 1 r0 idle third\n"),
    ("a note with a word too few", HEADER + b"event 0 2 post c0 r0 done empty\ndecide r1 0 1\n"),
    ("no text", HEADER + b"\xff\n"),
]


def fault_of_none(text):
    """What is wrong with how tools/picture ends on a text that is no explanation, or None."""
    status, output, errors = ran = picture(text)
    is_sentence = errors.startswith(b"tools/picture: ") and errors.count(b"\n") == 1 and errors.endswith(b"\n")
    return None if (status, output) == (1, b"") and is_sentence and (b"dsr explain --data" in errors or text.startswith(HEADER[:15])) else shown(ran)


def pictures(report, is_written):
    stems = inputs.plays("attacks/*.play")
    for stem in stems:
        report.judge(name_of(stem), fault_of_attack(stem, is_written))
    alone = sorted(set(inputs.found("attacks/*.svg")) - {f"{stem}.svg" for stem in stems})
    report.judge("pictures and attacks", None if stems and not alone else f"{len(stems)} attacks; pictures of none: {alone}")
    report.judge(f"{PICTURED_PLAYS} random plays", fault_of_random_plays())
    report.judge("a long play", fault_of_long_play())
    report.judge_all((name, fault_of_none(text)) for name, text in NO_EXPLANATIONS)
    for path in inputs.found("**/*.check", "**/*.transcript"):
        errors = program("check", bytes_of(path))[2]
        if not errors or b"not a run" in errors:
            report.judge(f"the steps of {inputs.name_in_examples(path)}", fault_of_steps(path))


# ---- samples

HELPS = ["--help", "apply --help", "play --help", "serve --help", "check --help"]


def output_of(words, text):
    """The run of the program with these words on a text, whose output is a text too."""
    status, output, errors = program(words, text.encode())
    return status, output.decode(), errors.decode()


def commands(lines):
    """Each line `$ COMMAND` with the lines that follow it at the same depth, up to an empty one or the next command."""
    for at, line in enumerate(lines):
        shown = re.match(r"( *)\$ (.*)", line)
        if not shown:
            continue
        depth, printed = shown[1], []
        for after in lines[at + 1:]:
            if not after.startswith(depth) or not after.strip() or after.startswith(f"{depth}$ ") or after.startswith("```"):
                break
            printed.append(after[len(depth):])
        yield shown[2], "".join(f"{line}\n" for line in printed)


def shown_commands(text):
    """The commands that are shown with what they print: each, what it printed, and what is shown. One that is shown with nothing printed is not run."""
    for command, printed in commands(text.split("\n")):
        if printed:
            _, output, errors = run(["sh", "-c", re.sub(r"\| dsr\b", "| ./dsr", command)], b"", cwd=TOP)
            yield command, output + errors, printed.encode()


def answers(text):
    """The requests that are shown with their answers: words of the program, a text, and what it must give. So have the next ones."""
    for block in re.findall(r"^```\n(c\d+ \d+ .*?)^```", text, re.M | re.S):
        requests, answered = zip(*(re.split(r" {2,}", line) for line in block.splitlines()))
        yield "apply", "".join(f"{request}\n" for request in requests), (0, "".join(f"{answer}\n" for answer in answered), "")


def bad_lines(text):
    """The lines that are shown as bad, each alone and after another one."""
    shown = text.split("Bad are, for example:", 1)[1].split("\n## ", 1)[0]
    for row in re.findall(r"^\| (`.*) \| [^|]* \|$", shown, re.M):
        for line in re.findall(r"`([^`]*)`", row) if re.fullmatch(r"`[^`]*`(, `[^`]*`)*", row) else []:
            for before, answered in [("", ""), ("c7 1 read z\n", "0 held none\n")]:
                yield "apply", f"{before}{line}\nc7 2 read z\n", (1, answered, f"dsr: bad text in line {1 + before.count(chr(10))}\n")


def reported(text):
    """The transcripts, plays and scripts, each with the block that shows what is written of it."""
    transcripts, reports, plays, outcomes, scripts, served = (
        re.findall(rf"^```\n({begin} .*?)^```", text, re.M | re.S) for begin in ("dsr-transcript", "run", "dsr-play", "done", "dsr-serve", "accepted"))
    for words, texts, written in [("check", transcripts, reports), ("play", plays, outcomes), ("play --transcript", plays, transcripts[:len(plays)]),
                                  ("serve", scripts, served)]:
        for given, output in itertools.zip_longest(texts, written, fillvalue=""):
            yield words, given, (0, output, "")


def no_steps(text):
    """The lines that are shown as no steps, right after the header that their table names."""
    for header, shown in re.findall(r"^\| Line, right after `(dsr-transcript [^`]*)` \|[^\n]*\n(.*?)^$", text, re.M | re.S):
        for row in re.findall(r"^\| (`[^`]*`(?:, `[^`]*`)*) \| [^|]* \|$", shown, re.M):
            for line in re.findall(r"`([^`]*)`", row):
                yield "check", f"{header}\n{line}\n", (1, "", "dsr: not a run at line 2\n")


def check_of_samples(name, *kinds):
    """A document, what is wrong with its samples, or None, and what is said of them. Of each kind there must be some."""
    kinds = list(map(list, kinds))
    faults = [f"{what} gives {found!r}, and not {wanted!r}" for kind in kinds for what, found, wanted in kind if found != wanted]
    if not all(kinds):
        faults.append(f"there are no samples in it ({list(map(len, kinds))})")
    return name, "; ".join(faults), f", {sum(map(len, kinds))} samples"


def samples(report, _):
    for path in ("README.md", "examples/record/README.md"):
        report.judge(*check_of_samples(path, shown_commands(text_of(path))))
    formats = text_of("docs/FORMATS.md")
    kinds = [[(f"{words} on {given!r}", output_of(words, given), wanted) for words, given, wanted in kind(formats)]
             for kind in (answers, bad_lines, reported, no_steps)]
    report.judge(*check_of_samples("docs/FORMATS.md", *kinds))
    for help_words in HELPS:
        report.judge(*check_of_samples(f"dsr {help_words}", shown_commands(output_of(help_words, "")[1])))


# ---- whole texts of the conformance suite

# The program's words for each kind of texts.
WORDS_OF_KINDS = {"check": "check", "play": "play", "transcript": "play --transcript", "events": "explain --data"}


def texts(report, _):
    for kind, words in WORDS_OF_KINDS.items():
        status, output, errors = run([*PYTHON, f"{TOP}/conformance/run_texts.py", kind, "--", *command_of(words)])
        counts = (output.decode().splitlines() or [""])[-1]
        report.judge(f"whole texts, dsr {words}", None if status == 0 and not errors else (output[-2000:] + errors).decode(), f", {counts}")


if __name__ == "__main__":
    sys.exit(main(__doc__, {"explanations": explanations, "transcripts": transcripts, "pictures": pictures, "samples": samples, "texts": texts}, "--write"))
