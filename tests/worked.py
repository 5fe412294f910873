#!/usr/bin/env python3
"""Worked rows: texts, and what the program must give on them, all written by hand, in tests/written/worked.txt: tests/worked.py, with no arguments.

1. Request lines at limits, and bad ones.
2. Lines of plays, each alone after a header: for how many events it stands, or that it is bad. Headers of plays, and the first bad line of some texts.
3. Plays, transcripts and scripts: what is reported, transcribed and refused of them, status, standard output and standard error to the byte.
4. Each event of a play: what it is, in its order; what it is refused with, if it is; what was to be proposed, begun or planted; and of which signature it
   is said that it is forged.
5. A service of one replica and one client: its transcript is a run, in which the client is answered.
"""

import re
import sys

from kit.program import program
from kit.report import main
from kit.written import tables
from models.slow_texts import answered_run

TABLES = tables("worked")
NAMES = dict(TABLES["names"])


def refusal(reason):
    """What is said on standard error if a text is refused for this reason, or for none."""
    return f"dsr: {reason}\n" if reason else ""


HEADERS = {traitor: f"dsr-play 1 3 1 1 {traitor}\n" for traitor in ("r0", "r1")}
NARROWINGS = ["explain", "explain --refused --slot 0", "explain --data --actor r0"]


def ran(words, text):
    """The status of the program with these words on this text, and what it wrote on standard output and standard error. A service is run again if a client came
    too late, and had no answer."""
    status, output, errors = answered_run(lambda: program(words, text.encode()))
    return status, output.decode(), errors.decode()


def fault_of(words, text, wanted):
    """How the program's run on this text differs from the one that is wanted, or None."""
    found = ran(words, text)
    return None if found == wanted else f"{found}, and not {wanted}"


def fault_of_beginning(text, wanted):
    """What is wrong with the run on this play, which has so many events or is refused so, or None."""
    if not wanted.isdigit():
        return fault_of("play", text, (1, "", refusal(wanted)))
    status, output, errors = ran("play", text)
    found = re.match(r"done (\d+)\nrefused (\d+)\n", output)
    if status or errors or not found:
        return f"{(status, output, errors)}"
    events = int(found[1]) + int(found[2])
    return None if events == int(wanted) else f"{events} events, and not {wanted}"


def fault_of_events(text, wanted, signers):
    """What is wrong with how the events of this play are refused, or with whose signatures are said to be forged, or None."""
    status, output, errors = ran("explain --data", text)
    lines = [line.split(" ") for line in output.splitlines()]
    found = [line[6] for line in lines if line[0] == "event"], [line[2] for line in lines if line[:2] == ["why", "forged"]]
    return None if (status, errors, found) == (0, "", (wanted, signers)) else f"status {status}, {found}, {errors!r}, and not {(wanted, signers)}"


def fault_of_kinds(lines, wanted):
    """What is wrong with the events that these lines are said to stand for, or with the shape, or None."""
    status, output, errors = ran("explain --data", f"dsr-play 1 3 1 2 r1\n{lines}\n")
    header, *told = output.splitlines()
    found = ",".join(" ".join(line.split(" ")[3:6]) for line in told if line.startswith("event "))
    return None if (status, errors, header, found) == (0, "", "dsr-explain 1 3 1 2 r1", wanted) else f"status {status}, {header}, {found}, {errors!r}"


def fault_of_choices(line, wanted):
    """What is wrong with what is told of the events of this line, or None."""
    status, output, errors = ran("explain", f"dsr-play 1 3 1 32 r1\n{line}\n")
    found = [told.split(": ", 1)[1] for told in output.splitlines() if told.startswith("line 2, event ")]
    return None if (status, errors, found) == (0, "", wanted) else f"status {status}, {found}, {errors!r}"


def fault_of_draft(draft):
    """What is wrong with the envelopes that are said to be planted, or None."""
    status, output, errors = ran("explain --data", f"dsr-play 1 3 1 1 r0\nplants r0 {draft}\nplant r0 c0 {draft}\n")
    found = [line.split(" ", 7)[7] for line in output.splitlines() if line.startswith("event ")]
    return None if (status, errors, found) == (0, "", [draft] * 4) else f"status {status}, {found}, {errors!r}"


def fault_of_service():
    """What is wrong with the transcript of a service of one replica and one client, or None. The replica may have made some rounds before the client asked."""
    status, transcript, errors = ran("serve --transcript", NAMES["SCRIPT"])
    checked = ran("check", transcript)
    begins = transcript.startswith("dsr-transcript 1 1 0 1 -\n")
    ends = checked[1].endswith("\naccepted c0 1 0 written\nhistory 1\n0 c0#1:write:a:7\n")
    return None if (status, errors, begins, checked[0], ends, checked[2]) == (0, "", True, 0, True, "") else f"{(status, transcript, errors)}, {checked}"


def fault_of_third_value():
    """What is wrong with the posts of a replica which read three values in one envelope, or None."""
    status, output, errors = ran("play --transcript", NAMES["THIRD_VALUE"])
    posts = [line.removeprefix("r1 post r0 ") for line in output.splitlines() if line.startswith("r1 post r0 ")]
    wanted = ["empty", "round 1 0/c0#1:write:a:1~c0/r0+r1 0/c1#1:write:a:2~c1/r0+r1 1/idle/r1"]
    return None if (status, posts, errors) == (0, wanted, "") else f"status {status}, {posts}, {errors!r}"


def rows_of_lines():
    """What each row shows of a line of a play or of its beginning, and what is wrong with it."""
    for traitor, header in HEADERS.items():
        for line, events in TABLES[f"lines with the traitor {traitor}"]:
            yield f"the line {line!r}", fault_of_beginning(f"{header}{line}\n", events)
    for line in TABLES["bad lines"]:
        yield f"the line {line!r}", fault_of_beginning(f"{HEADERS['r0']}{line}\n", "bad text in line 2")
    for text, wanted in TABLES["beginnings"]:
        yield f"the play {text!r}", fault_of_beginning(text, wanted)


def rows_of_explanations():
    """What each row shows of what is explained, and what is wrong with it."""
    for words in NARROWINGS:
        for text, reason in [*TABLES["refused plays"], (NAMES["PLAY"], ""), (NAMES["REFUSING"], "")]:
            status, _, errors = ran(words, text)
            is_wanted = (status, errors) == (1 if reason else 0, refusal(reason))
            yield f"dsr {words} on {text!r}", None if is_wanted else f"status {status}, {errors!r}"
    for text, wanted, signers in TABLES["refused events"]:
        yield f"the events of {text!r}", fault_of_events(text, wanted.split(), signers.split())
    for lines, wanted in TABLES["events"]:
        yield f"the events of {lines!r}", fault_of_kinds(lines, wanted)
    for line, wanted in TABLES["choices"]:
        yield f"what is told of {line!r}", fault_of_choices(line, wanted.split("\n"))
    for draft in TABLES["drafts"]:
        yield f"what is planted by {draft!r}", fault_of_draft(draft)


def rows():
    """What each row shows, and what is wrong with it."""
    for text, answers, reason in TABLES["request lines"]:
        yield f"apply, {text!r}", fault_of("apply", text, (1 if reason else 0, answers, refusal(reason)))
    yield from rows_of_lines()
    for words, text, status, output, reason in TABLES["texts"]:
        yield f"dsr {words} on {text!r}", fault_of(words, text, (int(status), output, refusal(reason)))
    for text, reason in TABLES["refused scripts"]:
        for words in ("serve", "serve --transcript"):
            yield f"dsr {words} on {text!r}", fault_of(words, text, (1, "", refusal(reason)))
    yield from rows_of_explanations()
    yield "a third value", fault_of_third_value()
    yield "a service of one replica", fault_of_service()


def worked(report, _):
    for what, fault in rows():
        report.judge(what, fault, None)


if __name__ == "__main__":
    sys.exit(main(__doc__, {"worked": worked}))
