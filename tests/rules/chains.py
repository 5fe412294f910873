"""Chains: each fault alone and beside each later one, at the first, a middle and the last place; rounds, senders, signers and askers at their limits."""

from rules.listing import (
    LARGER, NUM_MOST, SHAPES, Listed, chain_text, content_text, link_text, places, replicas_of, rounds_of, sender_of, signers_of,
)

FAULTS = ["other-slot", "wrong-count", "wrong-sender", "no-replica", "signed-twice", "misfit", "bad-request"]
# The slot in which chains are checked: its sender is not r0, but in the shape with one replica.
SLOT = 7
REQUESTS = ["c0#1:write:a:5", "c1#2:read:b", "c2#3:swap:c:none:1"]


class Chain:
    """A chain that is proper for its round of the slot, until it is changed."""

    def __init__(self, shape, count, requests):
        self.shape, self.count, self.slot = shape, count, SLOT
        self.asks = [[request, request.split("#")[0]] for request in requests]
        self.signers = signers_of(shape, SLOT, count)
        # by the place of a signature: what gives the statement that it is on
        self.on = {}

    def requests(self):
        return [request for request, _ in self.asks]

    def text(self):
        value = ",".join(f"{request}~{signature}" for request, signature in self.asks) or "idle"
        signatures = [
            signer + (f"({self.on[place](self, place)})" if place in self.on else "") for place, signer in enumerate(self.signers)
        ]
        return f"{self.slot}/{value}/{'+'.join(signatures) or '-'}"

    def call(self):
        return f"check {self.shape} {SLOT} {self.count} {self.text()}"

    def other(self):
        """Returns a replica that has not signed, or a client if all have."""
        free = [f"r{number}" for number in range(replicas_of(self.shape)) if f"r{number}" not in self.signers]
        return free[0] if free else "c0"


# ---- what a signature may be on in place of the link that fits, and who may have signed beside a request


def other_slot(chain, place):
    return link_text(chain.slot + 1, chain.requests(), chain.signers[:place])


def same_senders_slot(chain, place):
    return link_text(chain.slot + replicas_of(chain.shape), chain.requests(), chain.signers[:place])


def other_content(chain, place):
    return link_text(chain.slot, [] if chain.asks else ["c0#1:read:a"], chain.signers[:place])


def other_operand(chain, place):
    return link_text(chain.slot, ["c0#1:write:a:6", *chain.requests()[1:]], chain.signers[:place])


def signer_more(chain, place):
    return link_text(chain.slot, chain.requests(), chain.signers[:place + 1])


def signer_less(chain, place):
    return link_text(chain.slot, chain.requests(), chain.signers[1:place] if place else [chain.other()])


def an_ask(chain, place):
    return "c0#1:write:a:5"


STATEMENTS = {
    "other-slot": other_slot, "same-senders-slot": same_senders_slot, "other-content": other_content, "other-operand": other_operand,
    "signer-more": signer_more, "signer-less": signer_less, "an-ask": an_ask,
}

# The signature beside a request, by the request, its client and the next one.
ASKERS = {
    "other-client": lambda request, client: "c1" if client == "c0" else "c0",
    "replica": lambda request, client: "r0",
    "other-number": lambda request, client: f"{client}({client}#9:{request.split(':', 1)[1]})",
    "other-operation": lambda request, client: f"{client}({request.split(':', 1)[0]}:read:z)",
    "a-link": lambda request, client: f"{client}(7/{request}/-)",
    "other-clients-own": lambda request, client: f"c1(c1#1:{request.split(':', 1)[1]})" if client == "c0" else f"c0(c0#1:{request.split(':', 1)[1]})",
}


# ---- changes, by the fault that each of them makes


def to_other_slot(chain, place):
    chain.slot += replicas_of(chain.shape)


def to_wrong_count(chain, place):
    chain.signers.append(chain.other())


def to_wrong_sender(chain, place):
    chain.signers[0] = chain.other()


def to_no_replica(chain, place):
    chain.signers[place] = "c1"


def to_signed_twice(chain, place):
    chain.signers[place] = chain.signers[place - 1]


def to_misfit(chain, place):
    chain.on[place] = other_slot


def to_bad_request(chain, place):
    request, signature = chain.asks[place]
    chain.asks[place][1] = ASKERS["other-client"](request, signature)


CHANGES = dict(zip(FAULTS, [to_other_slot, to_wrong_count, to_wrong_sender, to_no_replica, to_signed_twice, to_misfit, to_bad_request]))


def places_of(fault, chain):
    """Returns the places at which a fault can be made, with their names. Two faults are of the whole chain, one of its first place alone."""
    if fault in ("other-slot", "wrong-count"):
        return {0: "whole"}
    if fault == "wrong-sender":
        return {0: "first"}
    found = places(len(chain.asks if fault == "bad-request" else chain.signers))
    return {place: name for place, name in found.items() if place or fault not in ("no-replica", "signed-twice")}


def largest_rounds():
    """Yields each shape with more than one round, with its f and the last of its rounds."""
    for f, shape in SHAPES.items():
        if f:
            yield f, shape, rounds_of(shape)


# ---- rules


def proper():
    """A chain that is proper for round r of slot 7, of idle, one request and three: for f = 0, 1, 2 and 7, with n = 2f+1 and one
    replica more, in the first round, the last, and one between."""
    for shapes, kind in [(SHAPES, "fewest"), (LARGER, "more")]:
        for f, shape in shapes.items():
            for count in sorted({1, (f + 2) // 2, f + 1}):
                for requests, name in [([], "idle"), (REQUESTS[:1], "one")] + ([(REQUESTS, "three")] if f else []):
                    tags = ["proper"] + ["lists"] * (len(requests) > 1)
                    yield Listed(f"f{f}-{kind}-replicas-round-{count}-{name}", tags, [Chain(shape, count, requests).call()], ["ok"])


def alone_in_slot():
    """A chain of another slot, with all its signatures on links of that slot: the slot before, the next, and those of the same sender
    before and after; for f = 0, 1, 2 and 7, in the last round."""
    for f, shape in SHAPES.items():
        n = replicas_of(shape)
        for name, slot in [("before", SLOT - 1), ("after", SLOT + 1), ("same-sender-after", SLOT + n), ("same-sender-before", SLOT - n)]:
            if slot >= 0 and not (n == 1 and "same" in name):
                chain = Chain(shape, rounds_of(shape), REQUESTS[:1])
                chain.slot, chain.signers = slot, signers_of(shape, slot, rounds_of(shape))
                yield Listed(f"f{f}-other-slot-{name}", ["other-slot"], [chain.call()], ["other-slot"])


def alone_in_sender():
    """The first signer is not the sender of slot 7, and there is no other fault before that one: another replica, which signed first or
    alone; a client; a replica outside the shape; and the sender in the second place. For f = 1, 2 and 7 in the last round, for f = 0 in its only one."""
    for f, shape in SHAPES.items():
        chain = Chain(shape, rounds_of(shape), REQUESTS[:1])
        firsts = {"client": "c0", "outside": f"r{replicas_of(shape)}", "other-replica": chain.other()}
        for name, first in firsts.items():
            chain = Chain(shape, rounds_of(shape), REQUESTS[:1])
            chain.signers[0] = first
            if first != "c0" or name == "client":
                yield Listed(f"f{f}-wrong-sender-{name}-first", ["wrong-sender"], [chain.call()], ["wrong-sender"])
        if f:
            chain = Chain(shape, rounds_of(shape), REQUESTS[:1])
            chain.signers[:2] = reversed(chain.signers[:2])
            yield Listed(f"f{f}-wrong-sender-sender-second", ["wrong-sender"], [chain.call()], ["wrong-sender"])


def alone_in_signers():
    """One signer is a client, or a replica outside the shape, at a middle and the last place; f = 1, 2 and 7, the last round. And one signs
    twice: the sender again, a neighbour again, and the second again at the end."""
    for f, shape, count in largest_rounds():
        for place, name in places(count).items():
            for kind, signer in [("client", "c0"), ("outside", f"r{replicas_of(shape)}")]:
                if place:
                    chain = Chain(shape, count, REQUESTS[:1])
                    chain.signers[place] = signer
                    yield Listed(f"f{f}-no-replica-{kind}-at-{name}", ["no-replica"], [chain.call()], ["no-replica"])
        pairs = {(0, 1): "sender-again-at-once", (0, count - 1): "sender-again-at-the-end", (count - 2, count - 1): "neighbour-at-the-end",
                 (1, count - 1): "second-again-at-the-end", (0, count // 2): "sender-again-between"}
        for (one, again), name in pairs.items():
            if one < again:
                chain = Chain(shape, count, REQUESTS[:1])
                chain.signers[again] = chain.signers[one]
                yield Listed(f"f{f}-signed-twice-{name}", ["signed-twice"], [chain.call()], ["signed-twice"])


def alone_on_statements():
    """One signature is on another statement than the link that fits its place: of the next slot, of another slot of this sender, of another content,
    of one operand changed, with one signer more before it and, but at the first place, one less, and a request in place of a link. At the first, a middle and
    the last place; f = 0, 1, 2 and 7, the last round."""
    for f, shape in SHAPES.items():
        count = rounds_of(shape)
        for kind, statement in STATEMENTS.items():
            for place, name in places(count).items():
                chain = Chain(shape, count, REQUESTS[:1])
                chain.on[place] = statement
                if place or kind != "signer-less":
                    yield Listed(f"f{f}-misfit-{kind}-at-{name}", ["misfit"], [chain.call()], ["misfit"])


def alone_beside_requests():
    """One of three requests, the first, a middle one and the last, has another signature beside it than its client's on that request: by another
    client, by a replica, on another number, on another operation, on a link, and another client's on a request of its own. Or its client
    is right outside the shape. f = 1, 2 and 7, the last round."""
    for f, shape, count in largest_rounds():
        for place, name in places(len(REQUESTS)).items():
            for kind, asker in ASKERS.items():
                chain = Chain(shape, count, REQUESTS)
                request, client = chain.asks[place]
                chain.asks[place][1] = asker(request, client)
                yield Listed(f"f{f}-bad-request-{kind}-at-{name}", ["bad-request", "lists"], [chain.call()], ["bad-request"])
            clients = shape.split(" ")[2]
            chain = Chain(shape, count, REQUESTS)
            chain.asks[place] = [f"c{clients}#1:read:a", f"c{clients}"]
            yield Listed(f"f{f}-bad-request-outside-at-{name}", ["bad-request", "lists"], [chain.call()], ["bad-request"])


def pairs():
    """Each fault with each later one in the same chain: the earlier one of the table in docs/PROTOCOL.md is the answer. The later fault is at the
    first, a middle and the last place that it can have, and the earlier one at the first. f = 2, the last round."""
    shape, count = SHAPES[2], rounds_of(SHAPES[2])
    for at, fault in enumerate(FAULTS):
        for later in FAULTS[at + 1:]:
            for place, name in places_of(later, Chain(shape, count, REQUESTS)).items():
                chain = Chain(shape, count, REQUESTS)
                first = min(places_of(fault, chain))
                CHANGES[later](chain, place)
                CHANGES[fault](chain, first)
                yield Listed(f"{fault}-before-{later}-at-{name}", [fault, later, "lists"], [chain.call()], [fault])


def next_pairs():
    """Each fault with the next one of the table, with seven traitors, in the last round: the earlier fault at the last place that it can have."""
    shape, count = SHAPES[7], rounds_of(SHAPES[7])
    for fault, later in zip(FAULTS, FAULTS[1:]):
        for place, name in places_of(later, Chain(shape, count, REQUESTS)).items():
            chain = Chain(shape, count, REQUESTS)
            last = max(places_of(fault, chain))
            CHANGES[later](chain, place)
            CHANGES[fault](chain, last)
            yield Listed(f"f7-{fault}-before-{later}-at-{name}", [fault, later, "lists"], [chain.call()], [fault])


def counts():
    """In each round r of a slot, for f = 0, 1, 2 and 7, chains of 0 to f+2 signatures, as far as there are replicas: just that with r signatures is
    proper. All else of them is right. So late chains count no more than early ones."""
    for f, shape in SHAPES.items():
        for r in range(1, f + 2):
            most = min(f + 2, replicas_of(shape))
            calls = [f"check {shape} {SLOT} {r} {chain_text(SLOT, REQUESTS[:1], signers_of(shape, SLOT, count))}" for count in range(most + 1)]
            wanted = ["ok" if count == r else "wrong-count" for count in range(most + 1)]
            yield Listed(f"f{f}-counts-in-round-{r}", ["wrong-count"], calls, wanted)


def senders():
    """Slot k is of replica k mod n: for slots about n and 2n and for the greatest, the chain of that replica is proper in round 1, and that of the
    replica after it is not."""
    for shape in [SHAPES[1], LARGER[1], SHAPES[2], LARGER[2], SHAPES[7], LARGER[7]]:
        n = replicas_of(shape)
        for name, slot in [("0", 0), ("n-less-1", n - 1), ("n", n), ("n-and-1", n + 1), ("2n", 2 * n), ("greatest", NUM_MOST)]:
            signers = [sender_of(shape, slot), sender_of(shape, slot + 1)]
            calls = [f"check {shape} {slot} 1 {chain_text(slot, [], [signer])}" for signer in signers]
            yield Listed(f"{n}-replicas-slot-{name}", ["wrong-sender"], calls, ["ok", "wrong-sender"])


def last_signers():
    """Replica n-1 may sign, and replica n may not, however many traitors there may be."""
    for n, f in [(3, 0), (3, 1), (4, 1), (5, 2), (15, 7)]:
        if f:
            calls = [f"check {n} {f} 1 - 0 2 0/idle/r0+r{number}" for number in (n - 1, n)]
            yield Listed(f"last-of-{n}-replicas-f{f}", ["no-replica"], calls, ["ok", "no-replica"])
    yield Listed("last-of-16-replicas", ["no-replica"], ["check 16 7 1 - 0 2 0/idle/r0+r15"], ["ok"])


def last_askers():
    """Client m-1 may ask, and client m may not; for m = 1, 2, 8, 31 and 32."""
    for m in (1, 2, 8, 31):
        calls = [f"check 3 1 {m} - 0 1 0/c{number}#1:read:a~c{number}/r0" for number in (m - 1, m)]
        yield Listed(f"last-of-{m}-clients", ["bad-request"], calls, ["ok", "bad-request"])
    yield Listed("last-of-32-clients", ["bad-request"], ["check 3 1 32 - 0 1 0/c31#1:read:a~c31/r0"], ["ok"])


def traitors():
    """Whether a signer is a traitor changes nothing: the same chains, proper and not, with no traitor, with the sender as one, and with another signer."""
    for who in ("-", "r2", "r0", "r0+r2"):
        shape = f"5 2 3 {who}"
        bad = Chain(shape, 3, REQUESTS[:1])
        to_signed_twice(bad, 2)
        misfit = Chain(shape, 3, REQUESTS[:1])
        to_misfit(misfit, 1)
        calls = [Chain(shape, 3, REQUESTS[:1]).call(), bad.call(), misfit.call()]
        yield Listed(f"traitors-{who.replace('+', '-') if who != '-' else 'none'}", ["proper"], calls, ["ok", "signed-twice", "misfit"])


def extended():
    """A signature more stands at the end, on the link that fits there, whatever is on the chain before it: for 1 to 15 signatures."""
    for count in (1, 2, 3, 8, 15):
        signers = [f"r{number}" for number in range(count)]
        longer = chain_text(SLOT, REQUESTS[:1], [*signers, "r15"])
        calls = [f"extend r15 {chain_text(SLOT, REQUESTS[:1], signers)}", f"has-misfit {longer}", f"signature {count} {longer}"]
        link = link_text(SLOT, REQUESTS[:1], signers)
        yield Listed(f"extended-after-{count}", ["extended"], calls, [f"round 0 {longer}", "no", f"r15({link})"])
    yield Listed("extended-by-a-signer-again", ["extended"], ["extend r0 7/idle/r0"], ["round 0 7/idle/r0+r0"])
    yield Listed("extended-by-a-client", ["extended"], ["extend c0 7/idle/r0"], ["round 0 7/idle/r0+c0"])
    calls = ["extend r1 7/idle/r0(8/idle/-)", "signature 1 7/idle/r0(8/idle/-)+r1"]
    yield Listed("extended-after-a-misfit", ["extended"], calls, ["round 0 7/idle/r0(8/idle/-)+r1", "r1(7/idle/r0)"])


def misfits():
    """Whether a chain has a misfit, whichever of its three signatures is one, and on whatever other statement."""
    for kind, statement in STATEMENTS.items():
        calls = []
        for place in range(3):
            chain = Chain(SHAPES[2], 3, REQUESTS[:1])
            chain.on[place] = statement
            calls.append(f"has-misfit {chain.text()}")
        yield Listed(f"has-misfit-{kind}", ["misfit"], calls, ["yes"] * 3)


def asked():
    """Whether the signature beside a request is its client's on that request, and the client of the shape."""
    for kind, asker in ASKERS.items():
        calls = [f"asked 3 1 3 - {request}~{asker(request, request.split('#')[0])}" for request in REQUESTS]
        yield Listed(f"asked-{kind}", ["bad-request"], calls, ["no"] * 3)
    calls = [f"asked 3 1 {m} - c2#3:read:a~c2" for m in (2, 3, 32)]
    yield Listed("asked-by-the-last-client", ["bad-request"], calls, ["no", "yes", "yes"])
    calls = [f"asked 3 1 3 {who} {REQUESTS[0]}~c0" for who in ("-", "r0", "r2")]
    yield Listed("asked-beside-traitors", ["bad-request"], calls, ["yes"] * 3)


def contents():
    """Content is the requests alone, in their order: not the slot, nor who signed."""
    one = chain_text(0, REQUESTS[:2], ["r0"])
    for name, other, answer in [
        ("other-slot", chain_text(1, REQUESTS[:2], ["r0"]), "yes"),
        ("other-signers", chain_text(0, REQUESTS[:2], ["r1", "r2"]), "yes"),
        ("unsigned", chain_text(0, REQUESTS[:2], []), "yes"),
        ("other-askers", f"0/{REQUESTS[0]}~c1,{REQUESTS[1]}~r0/r0", "yes"),
        ("other-order", chain_text(0, REQUESTS[1::-1], ["r0"]), "no"),
        ("one-less", chain_text(0, REQUESTS[:1], ["r0"]), "no"),
        ("one-more", chain_text(0, REQUESTS, ["r0"]), "no"),
        ("one-twice", chain_text(0, [REQUESTS[0], REQUESTS[0]], ["r0"]), "no"),
        ("idle", chain_text(0, [], ["r0"]), "no"),
    ]:
        yield Listed(f"content-{name}", ["content", "lists"], [f"same content {one} | {other}", f"same content {other} | {one}"], [answer] * 2)
    assert content_text([]) == "idle"


FILES = {
    "chain-alone": [proper, alone_in_slot, alone_in_sender, alone_in_signers, alone_on_statements, alone_beside_requests],
    "chain-pairs": [pairs, next_pairs],
    "chain-limits": [counts, senders, last_signers, last_askers, traitors],
    "chain-growth": [extended, misfits, asked, contents],
}
