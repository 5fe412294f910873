"""Histories written by hand, each with whether it is linearizable: first by the answers alone, and then also by the places. Nothing here was made by a program.

A line says what happens at its moment: `c0 asks write a 1` invokes a request, `c0 gets 0 written` answers it, with a place and an answer. The numbers of each
client count from 1.
"""

from models.real_time import Call


def history_of(lines):
    """Returns the history of these lines."""
    calls, pending = [], {}
    for moment, line in enumerate(lines):
        client, word, *rest = line.split(" ")
        if word == "asks":
            number = 1 + sum(call.client == client for call in calls)
            pending[client] = len(calls)
            calls.append(Call(client, number, tuple(rest), moment))
        else:
            at = pending.pop(client)
            calls[at] = calls[at]._replace(answered=moment, place=int(rest[0]), answer=" ".join(rest[1:]))
    return calls


# Two requests, one after the other.
WROTE = ["c0 asks write a 1", "c0 gets 0 written"]
# Two requests at the same time, in the order of their places.
TWO_WRITES = ["c0 asks write a 1", "c1 asks write a 2", "c0 gets 0 written", "c1 gets 1 written"]
# Six clients wait for each other's numbers, and ask in the wrong order, all at the same time.
CHAIN = [
    "c0 asks swap a 5 6", "c1 asks swap a 4 5", "c2 asks swap a 3 4", "c3 asks swap a 2 3", "c4 asks swap a 1 2", "c5 asks swap a none 1",
    "c0 gets 5 swapped", "c1 gets 4 swapped", "c2 gets 3 swapped", "c3 gets 2 swapped", "c4 gets 1 swapped",
]

# What each shows, its lines, and whether it is linearizable by the answers, and by the places too.
HISTORIES = [
    ("nothing", [], True, True),
    ("nothing is answered", ["c0 asks write a 1", "c1 asks read a"], True, True),
    ("a read after a write", [*WROTE, "c1 asks read a", "c1 gets 1 held 1"], True, True),
    ("the same, with the two requests exchanged in real time", ["c1 asks read a", "c1 gets 1 held 1", *WROTE], False, False),
    ("a read after a write that tells what was there before it", [*WROTE, "c1 asks read a", "c1 gets 0 held none"], False, False),
    ("a wrong answer", [*WROTE, "c1 asks swap a 2 3", "c1 gets 1 swapped"], False, False),
    ("an answer that is right", [*WROTE, "c1 asks swap a 2 3", "c1 gets 1 kept 1"], True, True),
    ("an answer to another operation", ["c0 asks read a", "c0 gets 0 written"], False, False),
    ("a read beside a write, before it", ["c0 asks write a 1", "c1 asks read a", "c1 gets 0 held none", "c0 gets 1 written"], True, True),
    ("a read beside a write, after it", ["c0 asks write a 1", "c1 asks read a", "c1 gets 1 held 1", "c0 gets 0 written"], True, True),
    ("a read that sees a pending write", ["c0 asks write a 1", "c1 asks read a", "c1 gets 1 held 1"], True, True),
    ("a read that does not see a pending write", ["c0 asks write a 1", "c1 asks read a", "c1 gets 0 held none"], True, True),
    ("a pending write that is seen, and then is not",
     ["c0 asks write a 1", "c1 asks read a", "c1 gets 1 held 1", "c1 asks read a", "c1 gets 2 held none"], False, False),
    ("a pending write that is not seen, and then is",
     ["c0 asks write a 1", "c1 asks read a", "c1 gets 0 held none", "c1 asks read a", "c1 gets 2 held 1"], True, True),
    ("the new value, and then another client gets the old one, while the write goes on",
     ["c0 asks write a 1", "c1 asks read a", "c1 gets 1 held 1", "c2 asks read a", "c2 gets 0 held none", "c0 gets 1 written"], False, False),
    ("a read of what is asked for later", ["c1 asks read a", "c1 gets 1 held 1", "c0 asks write a 1"], False, False),
    ("a read of what nobody wrote", [*WROTE, "c1 asks read a", "c1 gets 1 held 2"], False, False),
    ("two writes at once, and two reads that agree",
     [*TWO_WRITES, "c2 asks read a", "c2 gets 2 held 2", "c3 asks read a", "c3 gets 3 held 2"], True, True),
    ("two writes at once, and two reads that do not agree",
     [*TWO_WRITES, "c2 asks read a", "c2 gets 2 held 2", "c3 asks read a", "c3 gets 3 held 1"], False, False),
    ("two writes at once, and a read of the one with the lesser place", [*TWO_WRITES, "c2 asks read a", "c2 gets 2 held 1"], True, False),
    ("two requests at one place", ["c0 asks write a 1", "c1 asks write b 1", "c0 gets 0 written", "c1 gets 0 written"], True, False),
    ("a place with nothing before it", ["c0 asks read a", "c0 gets 1 held none"], True, False),
    ("a place with a pending request before it", ["c1 asks write b 1", "c0 asks read a", "c0 gets 1 held none"], True, True),
    ("two requests whose places stand against real time",
     ["c0 asks write a 1", "c0 gets 1 written", "c1 asks write b 1", "c1 gets 0 written"], True, False),
    ("the two of one client in the wrong order", ["c0 asks write a 1", "c0 gets 1 written", "c0 asks read a", "c0 gets 0 held none"], False, False),
    ("two take out the same value", [*WROTE, "c1 asks remove a", "c2 asks remove a", "c1 gets 1 removed 1", "c2 gets 2 removed 1"], False, False),
    ("one takes out what the other does not find",
     [*WROTE, "c1 asks remove a", "c2 asks remove a", "c1 gets 2 removed none", "c2 gets 1 removed 1"], True, True),
    ("two have won one swap",
     ["c0 asks swap a none 1", "c1 asks swap a none 2", "c0 gets 0 swapped", "c1 gets 1 swapped"], False, False),
    ("one has won the swap", ["c0 asks swap a none 1", "c1 asks swap a none 2", "c0 gets 1 kept 2", "c1 gets 0 swapped"], True, True),
    ("six at once, whose only order is the last asked first", [*CHAIN, "c5 gets 0 swapped"], True, True),
    ("the same, and the last did not swap", [*CHAIN, "c5 gets 0 kept none"], False, False),
    ("the same, and the last is pending", CHAIN, True, True),
]

# What each shows, the lines of a history, those of each branch after them, whether each branch is linearizable, and whether one order suits them all: by the
# answers alone.
WRITES = ["c0 asks write a 1", "c1 asks write a 2", "c0 gets 0 written", "c1 gets 1 written"]
SWAP_BESIDE = ["c0 asks swap a none 1", "c1 asks write a 2", "c1 gets 1 written", "c2 asks read a", "c2 gets 2 held 2"]
BRANCHES = [
    ("no branch", WRITES, [], [], True),
    ("two branches alike", WRITES, [["c2 asks read a", "c2 gets 2 held 2"], ["c3 asks read a", "c3 gets 2 held 2"]], [True, True], True),
    ("two branches that tell different pasts", WRITES, [["c2 asks read a", "c2 gets 2 held 1"], ["c2 asks read a", "c2 gets 2 held 2"]],
     [True, True], False),
    ("what is pending is seen in one branch alone", ["c0 asks write a 1"],
     [["c2 asks read a", "c2 gets 1 held 1"], ["c2 asks read a", "c2 gets 0 held none"]], [True, True], True),
    ("one branch that is not linearizable", ["c0 asks write a 1"],
     [["c2 asks read a", "c2 gets 1 held 1"], ["c2 asks read a", "c2 gets 0 held 5"]], [True, False], False),
    ("a pending swap that came first, or has not come yet", SWAP_BESIDE, [["c0 gets 0 swapped"], ["c0 gets 2 kept 2"]], [True, True], False),
    ("a pending swap that came first", SWAP_BESIDE, [["c0 gets 0 swapped"], ["c3 asks read a", "c3 gets 3 held 2"]], [True, True], True),
    ("a pending swap that has not come yet", SWAP_BESIDE, [["c0 gets 2 kept 2"], ["c3 asks read a", "c3 gets 3 held 2"]], [True, True], True),
]

# What each shows, the lines of a history, an order of requests, and a word of what is wrong with that as its linearization, or None.
READ_AFTER = [*WROTE, "c1 asks read a", "c1 gets 1 held 1"]
ORDERS = [
    ("no request", [], [], None),
    ("a read after a write", READ_AFTER, ["c0#1:write:a:1", "c1#1:read:a"], None),
    ("an order without what was answered", READ_AFTER, ["c0#1:write:a:1"], "answered"),
    ("the two exchanged", READ_AFTER, ["c1#1:read:a", "c0#1:write:a:1"], "answered"),
    ("a wrong answer", [*WROTE, "c1 asks read a", "c1 gets 1 held none"], ["c0#1:write:a:1", "c1#1:read:a"], "answered"),
    ("a request that nobody asked for", WROTE, ["c0#1:write:a:1", "c1#1:read:a"], "nobody"),
    ("another operation than was asked for", WROTE, ["c0#1:write:a:2"], "nobody"),
    ("a request twice", WROTE, ["c0#1:write:a:1", "c0#1:write:a:1"], "rise"),
    ("a pending request before what was answered", ["c1 asks write b 1", "c0 asks read a", "c0 gets 1 held none"], ["c1#1:write:b:1", "c0#1:read:a"], None),
    ("a pending request that is left out", ["c1 asks write b 1", "c0 asks read a", "c0 gets 0 held none"], ["c0#1:read:a"], None),
    ("a pending request before what was answered before it was asked for",
     ["c0 asks read a", "c0 gets 1 held none", "c1 asks write b 1"], ["c1#1:write:b:1", "c0#1:read:a"], "answered before"),
    ("two at once, in the other order than they were asked for",
     ["c0 asks write a 1", "c1 asks write b 1", "c0 gets 1 written", "c1 gets 0 written"], ["c1#1:write:b:1", "c0#1:write:a:1"], None),
    ("places against real time",
     ["c0 asks write a 1", "c0 gets 1 written", "c1 asks write b 1", "c1 gets 0 written"], ["c1#1:write:b:1", "c0#1:write:a:1"], "answered before"),
]

# A transcript's lines after the first, of three replicas and two clients, and its history: a client's number, the request's, the operation, the moments at
# which it was invoked and answered, and the reply.
SHAPE = "3 1 2 r2"
TRANSCRIPTS = [
    ("the first post of a request invokes it, and the second equal vote answers it", [
        "c0 post r1 ask c0#1:write:a:7~c0",
        "c0 post r0 ask c0#1:write:a:7~c0",
        "c0 take r2 reply 1 0 held 9",
        "c0 take r0 reply 1 0 written",
        "c0 take r0 reply 1 0 written",
        "c0 take r1 reply 1 0 written",
        "c0 post r0 ask c0#2:read:a~c0",
     ], [Call("c0", 1, ("write", "a", "7"), 0, 5, 0, "written"), Call("c0", 2, ("read", "a"), 6)]),
    ("what others tell, and replies to other numbers, answer nothing", [
        "c1 post c0 seen 0",
        "c0 take c1 seen 0",
        "c0 post r0 ask c0#1:read:a~c0",
        "c0 take r0 reply 2 0 held none",
        "c0 take r1 reply 2 0 held none",
        "r2 post c0 reply 1 0 held none",
     ], [Call("c0", 1, ("read", "a"), 2)]),
    ("two clients, one after the other", [
        "c0 post r0 ask c0#1:read:a~c0",
        "c1 post r0 ask c1#1:remove:b~c1",
        "c1 take r1 reply 1 1 removed none",
        "c1 take r0 reply 1 1 removed none",
        "c0 take r0 reply 1 0 held none",
        "c0 take r2 reply 1 0 held none",
     ], [Call("c0", 1, ("read", "a"), 0, 5, 0, "held none"), Call("c1", 1, ("remove", "b"), 1, 3, 1, "removed none")]),
]

# What each shows, a transcript's lines after the first, and the same logs in the order in which asks come late.
LATE_ASKS = [
    ("an ask comes after what does not wait for it", [
        "c1 post r0 ask c1#1:read:a~c1",
        "c0 post r0 ask c0#1:read:a~c0",
        "r0 take c0 ask c0#1:read:a~c0",
        "r0 post c0 reply 1 0 held none",
        "c0 take r0 reply 1 0 held none",
        "r0 take c1 ask c1#1:read:a~c1",
     ], [
        "c0 post r0 ask c0#1:read:a~c0",
        "r0 take c0 ask c0#1:read:a~c0",
        "r0 post c0 reply 1 0 held none",
        "c0 take r0 reply 1 0 held none",
        "c1 post r0 ask c1#1:read:a~c1",
        "r0 take c1 ask c1#1:read:a~c1",
     ]),
    ("the second post of a request is as any other step", [
        "c0 post r0 ask c0#1:read:a~c0",
        "c1 post r1 ask c1#1:read:a~c1",
        "c0 post r1 ask c0#1:read:a~c0",
     ], [
        "c0 post r0 ask c0#1:read:a~c0",
        "c0 post r1 ask c0#1:read:a~c0",
        "c1 post r1 ask c1#1:read:a~c1",
     ]),
]

# What each shows, the lines of a history, and whether its clients do not take turns.
TURNS = [
    ("one after the other", [*WROTE, "c0 asks read a", "c0 gets 1 held 1"], False),
    ("two clients at once", TWO_WRITES, False),
    ("a client that does not wait for its answer", ["c0 asks write a 1", "c0 asks read a"], True),
]
