"""Transcripts written by hand, each with what `dsr check` must say of it: tests/written/transcripts.txt, and what is made of its tables here. Nothing was made
by a program of this repository.
"""

from kit.program import MOST_BYTES
from kit.written import tables

ONE = "dsr-transcript 1 1 0 1 -"
TWO_CLIENTS = "dsr-transcript 1 1 0 2 -"
LISTS = "dsr-transcript 2 1 0 2 -"
TRAITOR = "dsr-transcript 1 3 1 1 r0"
TRAITOR_TWO = "dsr-transcript 2 3 1 1 r0"
FIVE = "dsr-transcript 2 5 2 2 r0+r1"
UNREAD, SHAPE = "reading failed", "the shape is not allowed"
A_STEP = "run 1\nhistory 0"
TABLES = tables("transcripts")
BOTH_ASKED = ["c0 post r0 ask c0#1:read:a~c0", "c1 post r0 ask c1#1:read:b~c1", "r0 take c0 ask c0#1:read:a~c0", "r0 take c1 ask c1#1:read:b~c1"]
FIVE_ASKS = ["c0 post r0 ask c0#1:write:a:5~c0", "c1 post r0 ask c1#1:write:a:6~c1"]


def bad(line):
    return f"bad text in line {line}"


def stops(line):
    return f"not a run at line {line}"


def verdict(outcome):
    """Status, standard output and standard error of an outcome: a report, or why the text is refused."""
    return (0, f"{outcome}\n".encode(), b"") if outcome.startswith("run ") else (1, b"", f"dsr: {outcome}\n".encode())


# ---- one line after the header of three replicas, the first of them a traitor, and one client


def lists_at_limits():
    """Envelopes with lists of as many items as are allowed, and of one more: what each has, it, and the header of a transcript that may have it, or None."""
    for count, header in [(32, TRAITOR), (33, None)]:
        yield f"{count} chains", f"round 0{' 0/idle/r0' * count}", header
    for count, header in [(16, TRAITOR), (17, None)]:
        yield f"{count} signatures", f"round 0 0/idle/{'+'.join(['r0'] * count)}", header
        yield f"{count} signatures that are spelled out", f"round 0 0/idle/{'+'.join(['r0(1/idle/-)'] * count)}", header
        yield f"{count} signers before", f"round 0 0/idle/r0(0/idle/{'+'.join(['c9'] * count)})", header
    for count, header in [(8, TRAITOR_TWO), (9, None)]:
        requests = [f"c0#{number}:read:a" for number in range(1, count + 1)]
        yield f"{count} requests", f"round 0 0/{','.join(f'{request}~r0' for request in requests)}/r0", header
        yield f"{count} requests in a statement", f"round 0 0/idle/r0(0/{','.join(requests)}/-)", header


def one_line_rows():
    for line in TABLES["steps"]:
        yield TRAITOR, line, A_STEP
        yield TRAITOR_TWO, line, A_STEP
    for line in TABLES["no steps"]:
        yield TRAITOR, line, stops(2)
    for line in TABLES["bad lines"]:
        yield TRAITOR, line, bad(2)
        yield TRAITOR_TWO, line, bad(2)
    for line, outcome in TABLES["lines of version 2"]:
        yield TRAITOR, line, bad(2)
        yield TRAITOR_TWO, line, outcome
    for line in TABLES["bad lines of version 2"]:
        yield TRAITOR_TWO, line, bad(2)
    for _, envelope, allowed in lists_at_limits():
        for header in [allowed] if allowed else [TRAITOR, TRAITOR_TWO]:
            yield header, f"r0 post r1 {envelope}", A_STEP if allowed else bad(2)


# ---- several lines


def round_of_five(messages):
    """All five post their messages to all, and take from all."""
    names = [f"r{p}" for p in range(5)]
    posts = [f"{p} post {q} {message}" for p, message in zip(names, messages) for q in names]
    return posts + [f"{q} take {p} {message}" for q in names for p, message in zip(names, messages)]


def with_chain(chain, relayed):
    """Three rounds in which r1 posts this chain in the second one, and loyal replicas relay these chains in the third."""
    last = []
    for p in (2, 3, 4):
        chains = [f"{more}+r{p}".replace("/-+", "/") for more in relayed] + (["2/idle/r2"] if p == 2 else [])
        last.append(f"round 2 {' '.join(chains)}" if chains else "empty")
    return [
        *FIVE_ASKS,
        *round_of_five(["empty"] * 5),
        *round_of_five(["empty", f"round 1 {chain}", "empty", "empty", "empty"]),
        *round_of_five(["empty", "empty", *last]),
    ]


def with_kept(first, second, relayed):
    """Two rounds in which r0 and r1 post chains on these values in the first, and loyal replicas relay these in the second."""
    begun = [" ".join(["round 0", *(f"0/{value}/r0" for value in values)]) if values else "empty" for values in (first, second)]
    last = [" ".join(["round 1", *(f"0/{value}/r0+r{p}" for value in relayed)]) for p in (2, 3, 4)]
    return [*FIVE_ASKS, *round_of_five([*begun, "empty", "empty", "empty"]), *round_of_five(["empty", "empty", *last])]


def others_than(relayed):
    """Other lists: in another order, one left out, and one more."""
    backwards = [relayed[::-1]] if len(relayed) > 1 else []
    return [*backwards, *([relayed[:1], relayed[1:]] if backwards else []), [*relayed, "c0#1:read:a~c0"], [*relayed, relayed[0]]]


def listed(cell):
    """The items of a cell, with a space between them; a dash if there are none."""
    return [] if cell == "-" else cell.split(" ")


def several_lines_rows():
    for title, header in [("one replica", ONE), ("one replica and two clients", TWO_CLIENTS), ("three replicas, one of them a traitor", TRAITOR)]:
        for what, lines, outcome in TABLES[title]:
            yield what, header, lines.split("\n"), outcome
    for what, value, outcome in TABLES["lists"]:
        yield what, LISTS, [*BOTH_ASKED, f"r0 post r0 round 0 0/{value}/r0"], outcome
    for what, chain in TABLES["improper chains"]:
        yield f"an improper chain: {what}", FIVE, with_chain(chain, []), "run 152\nhistory 0"
        yield f"an improper chain, relayed: {what}", FIVE, with_chain(chain, [chain]), stops(2 + 2 + 100 + 10)
    for what, value, acted in TABLES["proper chains"]:
        chain, acted = f"0/{value}/r0+r1", listed(acted)
        history = [f"history {len(acted)}", *(f"{place} {request}" for place, request in enumerate(acted))]
        yield f"a proper chain: {what}", FIVE, with_chain(chain, [chain]), "\n".join(["run 152", *history])
        yield f"a proper chain, not relayed: {what}", FIVE, with_chain(chain, []), stops(2 + 2 + 100 + 10)
    for what, *lists in TABLES["kept"]:
        first, second, relayed = map(listed, lists)
        yield f"kept: {what}", FIVE, with_kept(first, second, relayed), "run 102\nhistory 0"
        for other in others_than(relayed):
            yield f"kept otherwise: {what}, {other}", FIVE, with_kept(first, second, other), stops(2 + 2 + 50 + 10)


def rows():
    """What each row shows, its text, and status, standard output and standard error of `dsr check` on it."""
    for text, outcome in TABLES["headers"]:
        yield repr(text), text.encode("latin-1"), verdict(outcome)
    for title, outcome in [("shapes that are not allowed", SHAPE), ("no shapes", bad(1))]:
        for shape in TABLES[title]:
            yield f"shape {shape}", f"dsr-transcript 1 {shape}\n".encode(), verdict(outcome)
    for header, line, outcome in one_line_rows():
        yield f"{header}, {line!r}", f"{header}\n{line}\n".encode("latin-1"), verdict(outcome)
    for what, header, lines, outcome in several_lines_rows():
        yield what, "".join(f"{line}\n" for line in [header, *lines]).encode("latin-1"), verdict(outcome)


def large_rows():
    """Texts of as many bytes as are allowed, and of more."""
    text = f"{TRAITOR}\n".encode() + b"r0 post r1 empty\n" * 986_884 + b"r0 post r1 seen 0\n" * 9
    assert len(text) == MOST_BYTES
    yield f"{MOST_BYTES} bytes", text, verdict(stops(3))
    yield "one byte more", text + b"\n", verdict(UNREAD)
