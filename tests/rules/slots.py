"""The broadcast of one slot at one replica, and the calendar: contents in every order of rounds, late and early chains, repeats, faults, relays,
decisions."""

import itertools

from rules.chains import CHANGES, Chain
from rules.listing import A, LARGER, NAMES, NUM_MOST, SHAPES, Listed, chain_text, content_text, replicas_of, rounds_of, sender_of, signers_of

# The slot of all rows: its sender is not r0, but in the shape with one replica.
SLOT = 7


def read_in(shape, name, count, without=()):
    """Returns the chain of a content that is proper for this round of the slot."""
    return chain_text(SLOT, NAMES[name], signers_of(shape, SLOT, count, without))


def spectator(shape):
    """Returns the replica that signs last: none of the chains that rows have in it is signed by it, if that can be."""
    return f"r{replicas_of(shape) - 1}" if sender_of(shape, SLOT) != f"r{replicas_of(shape) - 1}" else f"r{replicas_of(shape) - 2}"


def whole_slot(shape, arrivals, more=()):
    """Returns the calls of all rounds of a slot, in which contents arrive: pairs of a round and a content, in their order. After each round
    they ask what a replica that has not signed relays, if there is one."""
    calls, me = [f"slot {shape} {SLOT}"], spectator(shape)
    for r in range(1, rounds_of(shape) + 1):
        chains = [read_in(shape, name, r, [me]) for at, name in arrivals if at == r]
        calls.append(" ".join(["close-round", *chains]))
        if r < rounds_of(shape) and replicas_of(shape) > 1:
            calls.append(f"relays {me}")
    return [*calls, *more, "kept", "decide"]


def decision_of(arrivals):
    """Returns what is decided if these contents arrive in this order: the content, if there is just one; else idle."""
    contents = {name for _, name in arrivals}
    return content_text(NAMES[contents.pop()]) if len(contents) == 1 else "idle"


def name_of(arrivals):
    return "-then-".join(f"{name.lower()}-in-{r}" for r, name in arrivals)


# ---- contents in every order


def two_contents():
    """Two contents arrive in every pair of rounds, and within one round in both orders: A and B, A and idle, idle and A. Both are kept, in
    the order in which they arrived; each is relayed in the round after it, and in no other; idle is decided. f = 1 and 2; f = 7 in some rounds."""
    for f, rounds in [(1, (1, 2)), (2, (1, 2, 3)), (7, (1, 4, 8))]:
        for one, other in [("A", "B"), ("A", "idle"), ("idle", "A")]:
            for at, then in itertools.product(rounds, rounds):
                arrivals = sorted([(at, one), (then, other)], key=lambda arrival: arrival[0])
                if at <= then or (one, other) == ("A", "B"):
                    yield Listed(f"two-f{f}-{name_of(arrivals)}", ["two-contents"], whole_slot(SHAPES[f], arrivals), [decision_of(arrivals)])
    for r, names in [(1, ("B", "A")), (2, ("B", "A"))]:
        arrivals = [(r, name) for name in names]
        yield Listed(f"two-f1-{name_of(arrivals)}", ["two-contents"], whole_slot(SHAPES[1], arrivals), ["idle"])


def three_contents():
    """Three contents arrive in every order and in every way to divide them between two rounds: the first two are kept, and the third is dropped."""
    for order in itertools.permutations("ABC"):
        for first in range(4):
            arrivals = [(1 if at < first else 2, name) for at, name in enumerate(order)]
            kept = " | ".join(f"round {r} {read_in(SHAPES[1], name, r, [spectator(SHAPES[1])])}" for r, name in arrivals[:2])
            yield Listed(f"three-{name_of(arrivals)}", ["two-contents"], whole_slot(SHAPES[1], arrivals), [kept, "idle"])


def one_content():
    """One content arrives, in each of the rounds for f = 0, 1, 2 and 7, also the last one, and is decided; or nothing does, and idle is."""
    for f, shape in SHAPES.items():
        for r in range(1, f + 2):
            yield Listed(f"one-f{f}-in-round-{r}", ["decision"], whole_slot(shape, [(r, "A")]), [content_text(A)])
        yield Listed(f"one-f{f}-idle-in-round-{f + 1}", ["decision"], whole_slot(shape, [(f + 1, "idle")]), ["idle"])
        yield Listed(f"none-f{f}", ["decision"], whole_slot(shape, []), ["-", "idle"])


def again():
    """A content that is kept arrives again: in the same round, in each later round, by other signers, and between two others. It is not new,
    it is relayed once, in the round after it came first, and it does not make two contents."""
    for f in (1, 2):
        shape, me = SHAPES[f], spectator(SHAPES[f])
        for at, then in itertools.combinations_with_replacement(range(1, f + 2), 2):
            arrivals = [(at, "A"), (then, "A")]
            yield Listed(f"again-f{f}-{name_of(arrivals)}", ["again"], whole_slot(shape, arrivals), [content_text(A)])
            yield Listed(f"again-f{f}-{name_of([*arrivals, (then, 'B')])}", ["again"], whole_slot(shape, [*arrivals, (then, "B")]), ["idle"])
    shape, me = SHAPES[2], spectator(SHAPES[2])
    one, other = [chain_text(SLOT, A, signers) for signers in (["r2", "r0"], ["r2", "r1"])]
    for name, chains in [("r0-first", [one, other]), ("r1-first", [other, one])]:
        calls = [f"slot {shape} {SLOT}", "close", *(f"read {chain}" for chain in chains), "close", f"relays {me}"]
        yield Listed(f"again-by-two-relayers-{name}", ["again"], calls, ["first", "not-new", "2", f"round 3 {chains[0]}+{me}"])


# ---- chains that do not count


def late_and_early():
    """A chain with c signatures is read in round r, for all c and r with f = 1 and 2, and near the diagonal with f = 7: it is kept if c is r, and
    only then decided. So a chain that a traitor kept back counts no more, and one that is signed ahead counts not yet."""
    for f, shape in SHAPES.items():
        for r, count in itertools.product(range(1, f + 2), range(1, min(f + 2, replicas_of(shape)) + 1)):
            if f != 7 or abs(r - count) <= 1:
                calls = [f"slot {shape} {SLOT}", *["close"] * (r - 1), f"read {read_in(shape, 'A', count)}", *["close"] * (f + 2 - r), "decide"]
                wanted = ["first" if count == r else "wrong-count", *map(str, range(r, f + 2)), content_text(A) if count == r else "idle"]
                yield Listed(f"f{f}-{count}-signatures-in-round-{r}", ["wrong-count"], calls, wanted)


def faulty():
    """A chain with one fault is read in each round, for f = 1 and 2: alone it keeps nothing and leaves idle; beside a proper chain of another content it is
    no second one."""
    for f in (1, 2):
        shape = SHAPES[f]
        for fault, change in CHANGES.items():
            for r in range(1, f + 2):
                bad = Chain(shape, r, ["c1#1:write:a:2"])
                place = r - 1 if fault in ("no-replica", "signed-twice") else 0
                if (fault in ("no-replica", "signed-twice") and r == 1) or (fault == "wrong-count" and r == replicas_of(shape)):
                    continue
                change(bad, place)
                alone = [f"slot {shape} {SLOT}", *["close"] * (r - 1), f"read {bad.text()}"]
                beside = [*alone[:-1], f"read {read_in(shape, 'A', r)}", alone[-1]]
                rest = [*["close"] * (f + 2 - r), "decide"]
                tail = [*map(str, range(r, f + 2))]
                yield Listed(f"f{f}-{fault}-in-round-{r}", [fault], [*alone, *rest], [fault, *tail, "idle"])
                yield Listed(f"f{f}-{fault}-beside-a-proper-one-in-round-{r}", [fault], [*beside, *rest], ["first", fault, *tail, content_text(A)])


def not_kept():
    """Would a chain be kept? Of each content and each count of signatures, before anything is kept, beside one content and beside two. Asking keeps
    nothing."""
    shape = SHAPES[1]
    for kept, already in [("nothing", []), ("a", ["A"]), ("a-and-b", ["A", "B"])]:
        for name in ("A", "C", "idle"):
            calls = [f"slot {shape} {SLOT}", *(f"read {read_in(shape, other, 1)}" for other in already)]
            calls += [f"would-keep {read_in(shape, name, count)}" for count in (1, 2)] + [f"would-keep {read_in(shape, name, 1)}"]
            is_new = "yes" if len(already) < 2 and name not in already else "no"
            yield Listed(f"would-keep-{name.lower()}-beside-{kept}", ["two-contents"], calls, [is_new, "no", is_new])


# ---- relays and decisions


def relayers():
    """Which replicas relay a chain that was kept in round r, for f = 1, 2 and 7: those that have not signed it, each with its own signature at the end;
    and nobody in a round that is not the next, nor past the last."""
    for f, r in [(1, 1), (2, 1), (2, 2), (7, 1), (7, 7)]:
        shape, signers = SHAPES[f], signers_of(SHAPES[f], SLOT, r)
        for number in range(replicas_of(shape)) if f < 7 else (0, 1, 6, 7, 14):
            me, chain = f"r{number}", chain_text(SLOT, A, signers)
            calls = [f"slot {shape} {SLOT}", *["close"] * (r - 1), f"read {chain}", "close"]
            calls += [f"relays-in {later} {me}" for later in (r, r + 1, r + 2)]
            relayed = "empty" if me in signers else f"round {r + 1} {chain}+{me}"
            yield Listed(f"f{f}-{me}-relays-what-came-in-round-{r}", ["relays"], calls, ["empty", relayed, "empty"])


def relays_of_two():
    """Two contents are kept in one round, each signed by some of r2, r0 and r1: each replica relays those that it has not signed, in the order in which
    they were kept. f = 2, round 2."""
    shape = SHAPES[2]
    for one, other in itertools.product(("r0", "r1"), ("r0", "r1")):
        chains = [chain_text(SLOT, NAMES["A"], ["r2", one]), chain_text(SLOT, NAMES["B"], ["r2", other])]
        for me in ("r0", "r1", "r2", "r3"):
            calls = [f"slot {shape} {SLOT}", "close", *(f"read {chain}" for chain in chains), "close", f"relays {me}"]
            left = [f"{chain}+{me}" for chain, signer in zip(chains, (one, other)) if me not in ("r2", signer)]
            wanted = " ".join(["round 3", *left]) if left else "empty"
            yield Listed(f"a-by-{one}-b-by-{other}-relayed-by-{me}", ["relays"], calls, ["first", "second", "2", wanted])


def decided_when():
    """Nothing is decided before the last round is closed, whatever is kept; then it is. f = 0, 1, 2 and 7."""
    for f, shape in SHAPES.items():
        calls = [f"slot {shape} {SLOT}", f"read {read_in(shape, 'A', 1)}"]
        wanted = ["first"]
        for r in range(1, f + 2):
            calls += ["decide", "close"]
            wanted += ["-", str(r)]
        yield Listed(f"f{f}-decided-after-the-last-round", ["decision"], [*calls, "decide"], [*wanted, content_text(A)])


def values():
    """The value that is decided has the requests in their order, with the signatures beside them; of more than one request too, and one may stand
    twice. The same requests in another order are another content."""
    one, other = "c0#1:write:a:1", "c1#1:write:a:2"
    for name, requests in [("one", [one]), ("both", [one, other]), ("both-turned", [other, one]), ("one-twice", [one, one])]:
        calls = [f"slot 3 1 3 - {SLOT}", f"read {chain_text(SLOT, requests, ['r1'])}", "close", "close", "decide", "take-decision"]
        value = ",".join(f"{request}~{request[:2]}" for request in requests)
        text = content_text(requests)
        yield Listed(f"decided-{name}", ["decision", "lists"], calls, ["1", "2", text, f"{text} value {value} requests {len(requests)}"])
    calls = [f"slot 3 1 3 - {SLOT}", *(f"read {chain_text(SLOT, requests, ['r1'])}" for requests in ([one, other], [other, one], [one], [one, one]))]
    yield Listed("orders-are-contents", ["two-contents", "lists"], calls, ["first", "second", "one-too-many", "one-too-many"])


# ---- the calendar


def rounds():
    """In global round t the slots t-f to t are in flight, as far as there are such; slot t begins, slot t-f closes, and r(t mod n) sends. For f = 0, 1, 2
    and 7, with n = 2f+1 and one more: rounds about f, about n, and the greatest number of a token."""
    for shapes in (SHAPES, LARGER):
        for f, shape in shapes.items():
            n = replicas_of(shape)
            for t in sorted({0, f - 1, f, f + 1, n - 1, n, n + 1, 2 * n + f, NUM_MOST} - {-1}):
                closes = str(t - f) if t >= f else "-"
                wanted = f"slots {max(0, t - f)} {t} closes {closes} sender r{t % n}"
                yield Listed(f"{n}-replicas-f{f}-round-{t}", ["calendar"], [f"calendar {shape} {t}"], [wanted])


def rounds_of_slots():
    """Round t is round t-k+1 of slot k from round k to round k+f, and else none: before the first, at it, after it, at the last, and after that."""
    for f, shape in SHAPES.items():
        for slot in (0, 5, NUM_MOST - 8):
            rounds = sorted({t for t in (slot - 1, slot, slot + 1, slot + f, slot + f + 1) if t >= 0})
            wanted = [str(t - slot + 1) if slot <= t <= slot + f else "-" for t in rounds]
            yield Listed(f"f{f}-rounds-of-slot-{slot}", ["calendar"], [f"round-of {shape} {slot} {t}" for t in rounds], wanted)


FILES = {
    "slot-contents": [two_contents, three_contents, one_content, again],
    "slot-faults": [late_and_early, faulty, not_kept],
    "slot-relays": [relayers, relays_of_two, decided_when, values],
    "calendar-limits": [rounds, rounds_of_slots],
}
