"""A loyal replica: which ask is held, what it may propose, and what becomes of envelopes, by the orders of posters, chains and rounds."""

import itertools

from rules.listing import A, B, C, NAMES, Listed, chain_text, content_text, value_text

SHAPE = "3 1 3 -"
ME = "r2"


def signed(request):
    return value_text([request])


def opened(shape=SHAPE, me=ME):
    return [f"replica {shape} {me}"]


def round_calls(n, taken=(), clients=None):
    """Returns the calls of a round: posts to all, and takes, by the number of the poster; what is not said is empty."""
    posts = [f"post r{number}{f' from {clients}' if clients and number == 0 else ''}" for number in range(n)]
    return posts + [f"taken r{number} {dict(taken).get(number, 'empty')}" for number in range(n)]


# ---- held asks

ASKS = {
    "1": ("c0", "c0#1:write:a:1~c0"),
    "1-other": ("c0", "c0#1:write:a:9~c0"),
    "2": ("c0", "c0#2:read:a~c0"),
    "3-unsigned": ("c0", "c0#3:read:a~c1"),
    "3-on-2": ("c0", "c0#3:read:a~c0(c0#2:read:a)"),
    "9-of-c1": ("c0", "c1#9:read:a~c1"),
    "9-from-c1": ("c1", "c0#9:read:a~c0"),
}
GOOD = {"1": 1, "1-other": 1, "2": 2}


def held_after(order):
    """Returns the request that is held of c0 after these asks: the latest of the greatest number, of those that count."""
    good = [name for name in order if name in GOOD]
    most = max((GOOD[name] for name in good), default=0)
    best = [ASKS[name][1].split("~")[0] for name in good if GOOD[name] == most]
    return best[-1] if best else "-"


def held():
    """Two asks arrive in every order, of seven kinds: number 1, number 1 with another operation, number 2, one that its client did not sign, one that it
    signed for another number, one of another client, and one of c0 that c1 sent. Held is the latest of the greatest number, of those that c0 sent and
    signed as its own. The last two kinds count for nothing."""
    for order in itertools.product(ASKS, repeat=2):
        calls = opened() + [f"ask {ASKS[name][0]} {ASKS[name][1]}" for name in order] + ["held c0"]
        yield Listed(f"held-{order[0]}-then-{order[1]}", ["held"], calls, [held_after(order)])


def held_of_three():
    """Three asks of c0 in every order, numbered 1, 1 with another operation, and 2."""
    for order in itertools.permutations(GOOD):
        calls = opened() + [f"ask {ASKS[name][0]} {ASKS[name][1]}" for name in order] + ["held c0", "held c1"]
        yield Listed(f"held-of-three-{'-then-'.join(order)}", ["held"], calls, [held_after(order), "-"])


# ---- proposals


def proposals():
    """In its own slot a replica may propose asks that it holds of different clients, in any order; by no choice it proposes idle. It may choose nobody
    of whom it holds nothing, in no other's slot, and at no other post than that to r0. Clients c0 and c1 have asked, c2 has not."""
    asks = ["ask c0 c0#1:write:a:1~c0", "ask c1 c1#1:write:a:2~c1"]
    for me in ("r0", "r1"):
        for clients in (None, "c0", "c1", "c0+c1", "c1+c0", "c2", "c0+c2"):
            choice = f" from {clients}" if clients else ""
            calls = [*opened(me=me), *asks, f"allows r0{choice}", f"refused r0{choice}", f"envelope r0{choice}"]
            may = clients is None or me == "r0" and "c2" not in clients
            requests = [{"c0": A, "c1": B}[client][0] for client in (clients or "").split("+") if client in ("c0", "c1")]
            envelope = "empty" if me == "r1" else f"round 0 {chain_text(0, requests, ['r0'])}"
            wanted = ["yes", "-", envelope] if may else ["no", "E5 NotDue", "E5 NotDue"]
            yield Listed(f"{me}-chooses-{(clients or 'nobody').replace('+', '-and-')}", ["proposal", "lists"], calls, wanted)
    calls = [*opened(me="r0"), *asks, "post r0 from c0", "refused r1 from c0", "post r1", "post r2"]
    envelope = f"round 0 {chain_text(0, A, ['r0'])}"
    yield Listed("chooses-at-r0-alone", ["proposal"], calls, [envelope, "E5 NotDue", envelope, envelope])


def due():
    """In each round it posts to r0, r1 and r2, and then takes from r0, r1 and r2. After each of these six steps just one post is allowed, or none."""
    steps = [f"post r{number}" for number in range(3)] + [f"taken r{number} empty" for number in range(3)]
    for count in range(7):
        next_step = (["post r0", "post r1", "post r2", "take r0", "take r1", "take r2"] * 2)[count]
        calls = opened() + steps[:count] + ["due", "allows r0", "allows r1", "allows r2"]
        wanted = [next_step] + ["yes" if next_step == f"post r{number}" else "no" for number in range(3)]
        yield Listed(f"due-after-{count}-steps", ["turns"], calls, wanted)


# ---- what is read


def posters():
    """A and B, of r0's slot, come in round 0 from every two posters, or both from one in each order; all of them are chains that r0 signed. Posters are
    read by their number, and the chains of one as they stand: so it relays them, and r1's or r2's own slot comes after."""
    for p, q in itertools.product(range(3), repeat=2):
        for one, other in (("A", "B"), ("B", "A")):
            texts = [chain_text(0, NAMES[name], ["r0"]) for name in (one, other)]
            taken = {p: f"round 0 {texts[0]}", q: f"round 0 {texts[1]}"} if p != q else {p: f"round 0 {' '.join(texts)}"}
            order = texts if p <= q else texts[::-1]
            calls = opened() + round_calls(3, taken.items()) + ["post r0"]
            wanted = [f"round 1 {order[0]}+{ME} {order[1]}+{ME}"]
            if p < q or p == q:
                yield Listed(f"{one.lower()}-from-r{p}-{other.lower()}-from-r{q}", ["two-contents"], calls, wanted)


def rounds():
    """A comes in one of the first two rounds, or in both, and B in one of them, from posters r0 and r1: of those that are proper the first round comes first,
    then the lower poster. Two contents leave the slot idle; one is decided when round 1 closes."""
    for first, second in itertools.product([(), ("A",), ("B",), ("A", "B")], repeat=2):
        taken = [{number: f"round 0 {chain_text(0, NAMES[name], ['r0'])}" for number, name in enumerate(first)},
                 {number: f"round 1 {chain_text(0, NAMES[name], ['r0', 'r1'])}" for number, name in enumerate(second)}]
        calls = opened() + round_calls(3, taken[0].items()) + round_calls(3, taken[1].items()) + ["decided", "history"]
        contents = {*first, *second}
        decided = content_text(NAMES[contents.pop()]) if len(contents) == 1 else "idle"
        name = f"{'-and-'.join(first).lower() or 'nothing'}-then-{'-and-'.join(second).lower() or 'nothing'}"
        yield Listed(f"rounds-{name}", ["decision"], calls, [decided, decided if decided != "idle" else "-"])


def other_envelopes():
    """What comes from r0, r1 or r2 in place of its envelope of round 0 counts as no chains: an envelope of another round, an ask, a reply, a front, and the
    empty one. One of round 0 counts, from whomever. The round closes all the same."""
    chain = chain_text(0, A, ["r0"])
    kinds = {"round-0": f"round 0 {chain}", "round-1": f"round 1 {chain}", "greatest-round": f"round 1099511627775 {chain}", "ask": f"ask {signed(A[0])}",
             "reply": "reply 1 0 written", "front": "seen 3", "nothing": "empty", "round-without-chains": "round 0"}
    for number in range(3):
        for kind, envelope in kinds.items():
            calls = opened() + round_calls(3, {number: envelope}.items()) + ["in-flight", "post r0"]
            relayed = f"round 1 {chain}+{ME}" if kind == "round-0" else "empty"
            yield Listed(f"{kind}-from-r{number}", ["rounds"], calls, ["0 1", relayed])


def passed_over():
    """An envelope is passed over where nothing of it is kept; else it is not taken. A proper chain, one with each fault, one of another slot, one of another
    round, and one whose content is kept."""
    kinds = {"proper": (chain_text(0, A, ["r0"]), "no"), "idle": (chain_text(0, [], ["r0"]), "no"), "wrong-sender": (chain_text(0, A, ["r1"]), "yes"),
             "wrong-count": (chain_text(0, A, ["r0", "r1"]), "yes"), "misfit": ("0/idle/r0(1/idle/-)", "yes"), "slot-not-in-flight": ("1/idle/r1", "yes"),
             "bad-request": ("0/c0#1:read:a~c1/r0", "yes"), "unsigned": ("0/idle/-", "yes"), "outside": ("0/idle/r3", "yes")}
    for kind, (chain, answer) in kinds.items():
        calls = opened() + [f"post r{number}" for number in range(3)] + [f"passed-over r0 round 0 {chain}", "due"]
        yield Listed(f"passed-over-{kind}", ["rounds"], calls, [answer, "take r1" if answer == "yes" else "take r0"])
        two = [f"passed-over r0 round 0 1/idle/r1 {chain}", "due"]
        yield Listed(f"passed-over-beside-{kind}", ["rounds"], opened() + [f"post r{number}" for number in range(3)] + two,
                     [answer, "take r1" if answer == "yes" else "take r0"])
    kept = opened() + [f"post r{number}" for number in range(3)] + [f"taken r0 round 0 {chain_text(0, A, ['r0'])}"]
    yield Listed("passed-over-content-again", ["rounds"], [*kept, f"passed-over r1 round 0 {chain_text(0, A, ['r0'])}"], ["yes"])
    yield Listed("passed-over-second-content", ["rounds"], [*kept, f"passed-over r1 round 0 {chain_text(0, B, ['r0'])}"], ["no"])
    third = [*kept, f"taken r1 round 0 {chain_text(0, B, ['r0'])}", f"passed-over r2 round 0 {chain_text(0, C, ['r0'])}"]
    yield Listed("passed-over-third-content", ["rounds"], third, ["yes"])


# ---- replies


def replies():
    """After a slot with requests a replica replies to each client its last request that acted, with its number, place and answer; to others nothing. In one
    slot: one request, two of two clients in both orders, and one of c0 twice. The replica is alone, so each round closes a slot."""
    for name, requests in [("one", A), ("two", [*A, *B]), ("two-turned", [*B, *A]), ("one-twice", [*A, *A]), ("none", [])]:
        envelope = f"round 0 {chain_text(0, requests, ['r0'])}"
        acts = list(dict.fromkeys(requests))
        calls = ["replica 1 0 3 - r0", "post r0", f"taken r0 {envelope}", "decided", "history", "reply c0", "reply c1", "reply c2"]
        told = {request[:2]: f"reply 1 {place} written" for place, request in enumerate(acts)}
        wanted = [content_text(requests), " ".join(acts) or "-", *(told.get(f"c{client}", "-") for client in range(3))]
        yield Listed(f"replies-{name}", ["replies", "lists"], calls, wanted)


FILES = {
    "replica-asks": [held, held_of_three, proposals],
    "replica-reads": [due, posters, rounds, other_envelopes, passed_over, replies],
}
