"""Votes and clients: how many equal first replies are enough, which do not count, numbers of requests, and fronts."""

import itertools

from rules.listing import LARGER, NUM_MOST, SHAPES, Listed, replicas_of

X, Y = "1 0 written", "1 1 full"


def tally(f, shape):
    return f"tally {f} {replicas_of(shape)}"


def notes(replicas, reply):
    return [f"note r{number} {reply}" for number in replicas]


# ---- votes


def enough():
    """f equal replies are one too few, and f+1 are enough: for f = 0, 1, 2 and 7, with n = 2f+1 and one more, of the first replicas and of the last."""
    for shapes, kind in ((SHAPES, "fewest"), (LARGER, "more")):
        for f, shape in shapes.items():
            n = replicas_of(shape)
            for name, voters in (("first", range(f + 1)), ("last", range(n - 1, n - f - 2, -1))):
                calls = [tally(f, shape), *notes(voters[:f], X), "winner", *notes(voters[f:], X), "winner", f"votes {X}"]
                wanted = ["-", "ok", X, str(f + 1)]
                yield Listed(f"f{f}-{kind}-replicas-{name}-ones-vote", ["votes"], calls, wanted)


def not_alike():
    """f+1 replies that differ in one part from each other are not enough: one has another number, place or answer, or tells of another value, or of none in
    place of 0; it comes first or last. f = 1, 2 and 7."""
    base = "3 4 held 0"
    others = {"number": "2 4 held 0", "place": "3 5 held 0", "word": "3 4 kept 0", "value": "3 4 held 1", "none": "3 4 held none", "answer": "3 4 written"}
    for f in (1, 2, 7):
        for part, other in others.items():
            for name, replies in (("first", [other, *[base] * f]), ("last", [*[base] * f, other])):
                calls = [tally(f, SHAPES[f]), *(f"note r{number} {reply}" for number, reply in enumerate(replies)), "winner", f"votes {base}", f"votes {other}"]
                yield Listed(f"f{f}-other-{part}-{name}", ["votes"], calls, ["-", str(f), "1"])


def first_votes():
    """A replica votes for the reply that it gave first. Each list of three notes by r0 and r1 of the replies X and Y, of which the first is r0's of X,
    with f = 1: the winner after each. It wins who first has two votes; that stays so."""
    for second, third in itertools.product(itertools.product((0, 1), (X, Y)), repeat=2):
        given = [(0, X), second, third]
        calls, votes, winner, wanted = [tally(1, SHAPES[1])], {}, None, []
        for number, reply in given:
            votes.setdefault(number, reply)
            winner = winner or next((vote for vote in votes.values() if list(votes.values()).count(vote) == 2), None)
            calls += [f"note r{number} {reply}", "winner"]
            wanted += ["ok", winner or "-"]
        name = "-".join(f"r{number}-{'x' if reply == X else 'y'}" for number, reply in given)
        yield Listed(f"first-votes-{name}", ["votes"], calls, wanted)


def again():
    """One replica gives the same reply again, f times more: it counts once. Then f others join it, one after another. f = 1, 2 and 7."""
    for f in (1, 2, 7):
        calls = [tally(f, SHAPES[f]), *notes([0] * (f + 1), X), "winner", f"votes {X}", *notes(range(1, f), X), "winner", *notes([f], X), "winner",
            "vote-of r0"]
        wanted = ["-", "1", *["ok"] * (f - 1), "-", "ok", X, X]
        yield Listed(f"f{f}-one-replica-again", ["votes"], calls, wanted)


def liars():
    """f traitors agree on a lie, before, between and after f+1 loyal replicas that agree on X: X wins, as soon as all of these have replied."""
    for f in (1, 2, 7):
        n = 2 * f + 1
        orders = {"first": [*range(f + 1, n), *range(f + 1)], "last": [*range(n)], "between": [0, *range(f + 1, n), *range(1, f + 1)]}
        for name, order in orders.items():
            calls, wanted, loyal = [tally(f, SHAPES[f])], [], 0
            for number in order:
                loyal += number <= f
                calls += [f"note r{number} {X if number <= f else Y}", "winner"]
                wanted += ["ok", X if loyal == f + 1 else "-"]
            yield Listed(f"f{f}-liars-{name}", ["votes"], calls, wanted)


# ---- clients


def begun(shape, operation="write a 5"):
    return [f"client {shape} c0", f"begin {operation}"]


def taken(voters, reply):
    return [f"taken r{number} reply {reply}" for number in voters]


def accepted():
    """A client accepts with the reply number f+1 that is alike: for f = 0, 1, 2 and 7. Then nothing is outstanding, its front is the place and one, and
    its next request has the next number."""
    for f, shape in SHAPES.items():
        for place in (0, 6):
            reply = f"1 {place} written"
            calls = [*begun(shape), *taken(range(f + 1), reply), "outstanding", "seen", "begin read a", "outstanding"]
            yield Listed(f"f{f}-accepts-at-place-{place}", ["votes"], calls, [*["-"] * f, reply, "-", str(place + 1), "2", "2"])


def other_numbers():
    """Replies with another number than the outstanding one count for nothing: of the request before, of the next one, and the greatest. f = 1 and 2,
    with the first request outstanding and with the second."""
    for f in (1, 2):
        n = replicas_of(SHAPES[f])
        for outstanding in (1, 2):
            for number in {outstanding - 1, outstanding + 1, NUM_MOST} - {0}:
                before = [*taken(range(f + 1), "1 0 written"), "begin read a"] if outstanding == 2 else []
                calls = [*begun(SHAPES[f]), *before, *taken(range(n), f"{number} 1 written"), "outstanding", *taken(range(f + 1), f"{outstanding} 1 held 5")]
                wanted = [*["-"] * n, str(outstanding), *["-"] * f, f"{outstanding} 1 held 5"]
                yield Listed(f"f{f}-number-{number}-beside-{outstanding}", ["numbers"], calls, wanted)


def not_outstanding():
    """Replies that come before the request is posted, and after its reply was accepted, are no votes: not for this request, nor for the next. f = 1 and 2."""
    for f in (1, 2):
        for early in range(1, f + 2):
            calls = [f"client {SHAPES[f]} c0", *taken(range(early), "1 0 written"), "begin write a 5", "votes 1 0 written",
                     *taken(range(f), "1 0 written"), *taken([f], "1 0 written")]
            wanted = [*["-"] * early, "1", "0", *["-"] * f, "1 0 written"]
            yield Listed(f"f{f}-{early}-replies-before-the-request", ["votes"], calls, wanted)
        calls = [*begun(SHAPES[f]), *taken(range(f + 1), "1 0 written"), *taken(range(f + 1, 2 * f + 1), "2 1 held 5"), "begin read a",
                 *taken(range(f), "2 1 held 5"), "outstanding"]
        yield Listed(f"f{f}-replies-to-the-next-request-ahead", ["votes"], calls, [*["-"] * f, "2", *["-"] * f, "2"])


def not_replies():
    """What a replica sends beside replies, and what another client sends as a reply, is no vote and no front: an empty envelope, a round, an ask, a front of
    a replica, a reply of a client. A front of a client is one."""
    sent = {"empty": "empty", "round": "round 0 0/idle/r0", "ask": "ask c0#1:read:a~c0", "front": "seen 7", "reply": "reply 1 0 written"}
    for kind, envelope in sent.items():
        for sender in ("r0", "c1"):
            calls = [*begun(SHAPES[1]), f"taken {sender} {envelope}", "votes 1 0 written", "seen", "outstanding"]
            votes = "1" if (kind, sender) == ("reply", "r0") else "0"
            yield Listed(f"{kind}-from-{sender}", ["votes"], calls, ["-", votes, "7" if (kind, sender) == ("front", "c1") else "0", "1"])


def fronts():
    """The front is the greatest of what other clients told and of place+1 of the accepted replies: told before and after a reply at place 4, below, at
    and above 5; and of two that were told in both orders."""
    for f in (0, 1):
        reply = taken(range(f + 1), "1 4 written")
        for told in (0, 4, 5, 6, NUM_MOST):
            most = max(told, 5)
            calls = [f"client {SHAPES[f]} c0", f"told {told}", "seen", "begin write a 5", *reply, "seen"]
            yield Listed(f"f{f}-front-{told}-before-place-4", ["fronts"], calls, [str(told), "1", *["-"] * f, "1 4 written", str(most)])
            calls = [*begun(SHAPES[f]), *reply, "seen", f"told {told}", "seen"]
            yield Listed(f"f{f}-front-{told}-after-place-4", ["fronts"], calls, ["5", "ok", str(most)])
    for one, other in ((3, 8), (8, 3), (8, 8)):
        yield Listed(f"front-{one}-then-{other}", ["fronts"], [f"client {SHAPES[1]} c0", f"taken c1 seen {one}", f"taken c2 seen {other}", "seen"], ["8"])


def asked_again():
    """Whatever replica it asks, and however often, the outstanding request stays the one that was begun: a second operation is `Busy`, as long as nothing is
    accepted. For f = 0, 1, 2 and 7."""
    for f, shape in SHAPES.items():
        last = f"r{replicas_of(shape) - 1}"
        ask = "ask c0#1:write:a:5~c0"
        calls = [f"client {shape} c0", f"ask-for {last}", "begin write a 5", f"ask-for {last}", "begin read b", "ask-for r0", *taken(range(f), "1 0 written"),
                 "begin read b", "outstanding"]
        wanted = ["-", "1", ask, "E4 Busy", ask, *["-"] * f, "E4 Busy", "1"]
        yield Listed(f"f{f}-asks-the-same-again", ["numbers"], calls, wanted)


FILES = {
    "tally-limits": [enough, not_alike, first_votes, again, liars],
    "client-replies": [accepted, other_numbers, not_outstanding, not_replies, fronts, asked_again],
}
