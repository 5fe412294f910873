"""Registers and numbers: what each operation answers in each state of its register, at the limit of registers; and which requests act."""

import itertools

from rules.listing import NUM_MOST, VAL_MOST, Listed

OPERATIONS = ["read a", "write a 5", "write a 0", f"write a {VAL_MOST}", "swap a none 1", "swap a 0 1", "swap a 5 1", "swap a 5 5", f"swap a 6 {VAL_MOST}",
    "remove a"]
STATES = {"never-written": [], "zero": ["write a 0"], "5": ["write a 5"], "greatest": [f"write a {VAL_MOST}"], "removed": ["write a 5", "remove a"]}
VALUES = {"never-written": "none", "zero": "0", "5": "5", "greatest": str(VAL_MOST), "removed": "none"}


def named(operation):
    """Returns an operation as part of a name of a row."""
    return operation.replace(" a", "").replace(" ", "-").replace(str(VAL_MOST), "greatest")


def answered(operation, held, is_blocked=False):
    """Returns the answer to an operation on a register that holds this, and what it then holds, by the table of docs/PROTOCOL.md."""
    word, _, *values = operation.split(" ")
    if word == "read":
        return f"held {held}", held
    if word == "remove":
        return f"removed {held}", "none"
    if word == "swap" and held != values[0]:
        return f"kept {held}", held
    if is_blocked and held == "none":
        return "full", "none"
    return {"write": "written", "swap": "swapped"}[word], values[-1]


def tags_of(calls):
    return ["registers"] + ["remove"] * any(call.startswith(("apply remove", "remove-each")) for call in calls)


# ---- registers


def operations():
    """Each operation on a register that was never written, that holds 0, 5 or the greatest value, and that was removed: its answer, what the register
    then holds, and how many registers hold a value. None is no number, and 0 is one. A swap that does not fit changes nothing."""
    for state, before in STATES.items():
        for operation in OPERATIONS:
            answer, held = answered(operation, VALUES[state])
            calls = ["directory", *(f"apply {one}" for one in before), f"apply {operation}", "get a", "len", "is-empty", "apply read a"]
            empty = held == "none"
            wanted = [answer, held, str(int(not empty)), "yes" if empty else "no", f"held {held}"]
            yield Listed(f"{named(operation)}-where-{state}", tags_of(calls), calls, wanted)


def at_the_limit():
    """Each operation on a register without a value, and on one with 5, where 1,022, 1,023 or 1,024 registers hold a value, that one among them. Only a
    write or a swap that would be the 1,025th is full; a swap that does not fit is kept before it is full."""
    for count, held in itertools.product((1022, 1023, 1024), ("none", "5")):
        for operation in ("read a", "write a 7", "swap a none 7", "swap a 5 7", "swap a 6 7", "remove a"):
            others = count - (held != "none")
            answer, left = answered(operation, held, count == 1024)
            calls = ["directory", *["apply write a 5"] * (held == "5"), f"write-each 0 {others} 1", "len", f"apply {operation}", "get a", "len"]
            wanted = [str(others), str(count), answer, left, str(others + (left != "none"))]
            yield Listed(f"{named(operation)}-of-{held}-among-{count}", tags_of(calls), calls, wanted)


def room_again():
    """A register that is removed leaves room for another one, at the limit too; a full write leaves nothing, and may be made again."""
    for name, removal, freed in [("one", "apply remove k7", "removed 1"), ("none", "apply remove z", "removed none"), ("all", "remove-each 0 1024", "1024")]:
        calls = ["directory", "write-each 0 1024 1", "apply write a 5", removal, "apply write a 5", "get a", "apply write b 6", "len"]
        is_free = name != "none"
        wanted = ["1024", "full", freed, "written" if is_free else "full", "5" if is_free else "none", "written" if name == "all" else "full",
                  "2" if name == "all" else "1024"]
        yield Listed(f"room-after-removing-{name}", tags_of(calls), calls, wanted)


# ---- numbers


def acting(numbers):
    """Returns which of these numbers of one client act: those that are greater than all before them."""
    return [all(number > before for before in numbers[:place]) for place, number in enumerate(numbers)]


def requests_of(numbers, client="c0"):
    """Returns a request for each number, each of which writes another value."""
    return [f"{client}#{number}:write:a:{value}" for value, number in enumerate(numbers)]


def three_numbers():
    """Three requests of one client with each choice of the numbers 1, 2 and 3, one after another and all in one value: those act whose number is
    greater than all before, and no other, whatever they would do."""
    for numbers in itertools.product((1, 2, 3), repeat=3):
        acts, requests = acting(numbers), requests_of(numbers)
        history = " ".join(request for request, does in zip(requests, acts) if does)
        last = max(place for place in range(3) if acts[place])
        tail = [history, f"{numbers[last]} {sum(acts) - 1} written", str(last)]
        name = "-".join(map(str, numbers))
        calls = ["machine 1", *(f"accept {request}" for request in requests), "history", "kept c0", "get a"]
        yield Listed(f"numbers-{name}-in-turn", ["numbers"], calls, [*(str(int(does)) for does in acts), *tail])
        calls = ["machine 1", f"accept {','.join(requests)}", "history", "kept c0", "get a"]
        yield Listed(f"numbers-{name}-in-one-value", ["numbers", "lists"], calls, [str(sum(acts)), *tail])


def two_clients():
    """The numbers of each client count for themselves, and places for all: two requests of c0, with 1 and 2 in both orders and equal, and one of c1 with
    number 1 before, between and after them."""
    for numbers in ((1, 2), (2, 1), (1, 1)):
        for place in range(3):
            requests = requests_of(numbers)
            requests.insert(place, "c1#1:read:a")
            acts = [request.startswith("c1") or acting(numbers)[int(request[-1])] for request in requests]
            history = [request for request, does in zip(requests, acts) if does]
            calls = ["machine 2", *(f"accept {request}" for request in requests), "history", "kept c1"]
            at = history.index("c1#1:read:a")
            held = history[at - 1][-1] if at else "none"
            name = f"{numbers[0]}-and-{numbers[1]}-with-c1-at-{place}"
            yield Listed(name, ["numbers"], calls, [*(str(int(does)) for does in acts), " ".join(history), f"1 {at} held {held}"])


def limits_of_numbers():
    """After a number, in a history and in a ledger: the one before acts no more, nor does the same, and the next does; about 1, 5, 2^32 and the greatest
    number, of one client; and of another each does."""
    for number in (1, 5, 2**32, NUM_MOST):
        around = [other for other in (number - 1, number, number + 1) if 1 <= other <= NUM_MOST]
        acts = ["yes" if other > number else "no" for other in around]
        calls = ["ledger 2", f"note c0 {number} 0 written", *(f"acts c0 {other}" for other in around), *(f"acts c1 {other}" for other in around)]
        yield Listed(f"after-number-{number}", ["numbers"], calls, [*acts, *["yes"] * len(around)])


def machines_at_limits():
    """The same where a history goes by: after a number the one before does not act, nor does the same with another operation, and the next does."""
    for number in (1, 5, 2**32, NUM_MOST):
        for other in (number - 1, number, number + 1):
            if 1 <= other <= NUM_MOST:
                calls = ["machine 1", f"accept c0#{number}:write:a:1", f"accept c0#{other}:write:a:2", "get a"]
                wanted = ["1", str(int(other > number)), "2" if other > number else "1"]
                yield Listed(f"number-{other}-after-{number}", ["numbers"], calls, wanted)


# ---- replies, judged by a history

HISTORY = ["c0#1:write:a:5", "c1#1:read:a", "c0#3:swap:a:5:6"]
REPLIES = [["c0", "1", "0", "written"], ["c1", "1", "1", "held 5"], ["c0", "3", "2", "swapped"]]
CHANGES = {"client": (0, "c2"), "number": (1, "2"), "place": (2, "7"), "answer": (3, "full")}


def right():
    """A reply is right if at its place in the history there is a request of its client with its number, and its answer is the directory's there. One of three
    replies has one part changed: client, number, place or answer, at the first, a middle and the last place."""
    opened = ["judge", *(f"acts {request}" for request in HISTORY)]
    yield Listed("all-right", ["replies"], [*opened, "right " + " | ".join(map(" ".join, REPLIES))], ["yes"])
    for at in range(3):
        for part, (where, other) in CHANGES.items():
            replies = [list(reply) for reply in REPLIES]
            replies[at][where] = other
            yield Listed(f"other-{part}-at-{at}", ["replies"], [*opened, "right " + " | ".join(map(" ".join, replies))], ["no"])


def legal():
    """A history is legal if within each client numbers rise strictly. In one that is not no reply is right, and not even none at all is. Two requests of c0
    numbered 1 to 3, in each pair, and the second of them of c1."""
    for one, other in itertools.product((1, 2, 3), repeat=2):
        for client in ("c0", "c1"):
            calls = ["judge", f"acts c0#{one}:read:a", f"acts {client}#{other}:read:a", "right -", f"right c0 {one} 0 held none"]
            is_legal = client == "c1" or one < other
            yield Listed(f"c0-{one}-then-{client}-{other}", ["numbers"], calls, ["yes" if is_legal else "no"] * 2)


FILES = {
    "directory-states": [operations, at_the_limit, room_again],
    "machine-numbers": [three_numbers, two_clients, machines_at_limits],
    "ledger-limits": [limits_of_numbers],
    "judge-parts": [right, legal],
}
