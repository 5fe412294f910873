"""A slow checker of transcripts, written anew from the definitions of docs/PROTOCOL.md.

It gives what `dsr check` must give: the refusal or the report, and the status. Logs are kept whole, the oldest entry first, and all that
is asked of them is computed again from their first entry on. Nothing is shared with the program, and no idea of it: each step is
judged by the relation that says which steps may be next.
"""

import functools
from collections import namedtuple

from models import histories
from models.transcript_text import (
    MOST_REQUESTS, NUMBERS, Ask, Chain, Empty, Link, Reply, Request, Round, Seen, Signature, Signed, bad_line, begun, content_of, content_text, is_actor,
    is_plain, refused, step_of,
)

ROUNDS = 2**36


# A chain that is kept, and the round of its slot in which it came.
Kept = namedtuple("Kept", "round chain")
# What a client has outstanding, the replies that it notes, and those that it accepted.
State = namedtuple("State", "outstanding notes accepted")


# ---- shapes


def is_traitor(shape, actor):
    kind, number = actor
    return kind == "r" and number in shape.traitors


def sender_of(shape, slot):
    return "r", slot % shape.n


# ---- logs


def posted_to(log, actor):
    return [step.envelope for step in log if step.word == "post" and step.other == actor]


def taken_from(log, actor):
    return [step.envelope for step in log if step.word == "take" and step.other == actor]


def rounds(shape, log):
    """How many rounds are closed."""
    return len(taken_from(log, ("r", shape.n - 1)))


def due(shape, log):
    """What a loyal replica does next with the replicas: to post to one or to take from one."""
    with_replicas = [step for step in log if step.other[0] == "r"]
    if not with_replicas:
        return "post", 0
    last = with_replicas[-1]
    if last.other[1] + 1 < shape.n:
        return last.word, last.other[1] + 1
    return ("take" if last.word == "post" else "post"), 0


# ---- chains


def is_asked(shape, signed):
    """The request is of a client of the shape, and the signature beside it is that client's, on that request."""
    client = "c", signed.request.client
    return is_actor(shape, client) and signed.signature == Signature(client, signed.request)


@functools.lru_cache(maxsize=100_000)
def is_proper(shape, slot, round_of_slot, chain):
    signers = [signature.signer for signature in chain.signatures]
    return (
        chain.slot == slot
        and len(signers) == round_of_slot
        and signers[:1] == [sender_of(shape, slot)]
        and all(kind == "r" and number < shape.n for kind, number in signers)
        and len(set(signers)) == len(signers)
        and all(
            signature.statement == Link(slot, content_of(chain.value), tuple(signers[:place]))
            for place, signature in enumerate(chain.signatures)
        )
        and all(is_asked(shape, signed) for signed in chain.value)
    )


def extended(chain, signer):
    before = tuple(signature.signer for signature in chain.signatures)
    more = Signature(signer, Link(chain.slot, content_of(chain.value), before))
    return chain._replace(signatures=(*chain.signatures, more))


# ---- what a replica's log says of the slots


def read_in(shape, log, t):
    """The chains that were read in round t: by the poster's number, then as they stand in its envelope of the round."""
    chains = []
    for p in range(shape.n):
        taken = taken_from(log, ("r", p))
        if t < len(taken) and isinstance(taken[t], Round) and taken[t].round == t:
            chains += taken[t].chains
    return chains


def slot_kept(shape, log, slot, first_rounds):
    """What is kept of the slot after its first rounds: the first two contents of proper chains."""
    kept = []
    for r in range(1, first_rounds + 1):
        for chain in read_in(shape, log, slot + r - 1):
            contents = [content_of(k.chain.value) for k in kept]
            if is_proper(shape, slot, r, chain) and content_of(chain.value) not in contents and len(kept) < 2:
                kept.append(Kept(r, chain))
    return kept


def decided(shape, log):
    """The content that was decided of each closed slot."""
    contents = []
    for slot in range(max(0, rounds(shape, log) - shape.f)):
        kept = slot_kept(shape, log, slot, shape.f + 1)
        contents.append(content_of(kept[0].chain.value) if len(kept) == 1 else ())
    return contents


def acted(contents):
    """The requests that act by these contents, each with its answer, as texts."""
    return histories.acted([content_text(content) for content in contents])


def reply_to(shape, log, client):
    """The reply to the client's last request that acted by this log; None where none did."""
    replies = [
        Reply(histories.parts(request)[1], place, answer)
        for place, (request, answer) in enumerate(acted(decided(shape, log)))
        if histories.parts(request)[0] == f"c{client}"
    ]
    return replies[-1] if replies else None


def held(shape, log, client):
    """Of the asks taken from the client which it signed as its own requests, the latest of the greatest number."""
    asks = [envelope.ask for envelope in taken_from(log, ("c", client)) if isinstance(envelope, Ask)]
    own = [ask for ask in asks if ask.request.client == client and is_asked(shape, ask)]
    best = max((ask.request.number for ask in own), default=None)
    return next((ask for ask in reversed(own) if ask.request.number == best), None)


# ---- the conduct of a loyal replica


def chains_posted(shape, me, log, value):
    """The chains of the round in progress, by ascending slot, where this value is proposed."""
    t, chains = rounds(shape, log), []
    for slot in range(max(0, t - shape.f), t + 1):
        r = t - slot + 1
        for kept in slot_kept(shape, log, slot, r - 1):
            if kept.round + 1 == r and me not in [signature.signer for signature in kept.chain.signatures]:
                chains.append(extended(kept.chain, me))
        if r == 1 and sender_of(shape, slot) == me:
            chains.append(extended(Chain(slot, value, ()), me))
    return tuple(chains)


def envelope_with(shape, me, log, value):
    chains = chains_posted(shape, me, log, value)
    return Round(rounds(shape, log), chains) if chains else Empty()


def is_of_held(shape, log, value):
    """The value is the held asks of 1 to 8 different clients."""
    clients = [signed.request.client for signed in value]
    return (
        1 <= len(value) <= MOST_REQUESTS
        and len(set(clients)) == len(clients)
        and all(any(held(shape, log, client) == signed for client in range(shape.m)) for signed in value)
    )


def may_propose(shape, me, log, value):
    """Some choice proposes this value at the post to replica 0: idle always, held asks where the slot that begins is its own."""
    return value == () or sender_of(shape, rounds(shape, log)) == me and is_of_held(shape, log, value)


def is_first_post(shape, me, log, envelope):
    """Some choice gives this envelope to replica 0. Where it matters which value that proposes, the value stands in the envelope."""
    shown = [chain.value for chain in envelope.chains] if isinstance(envelope, Round) else []
    return any(
        may_propose(shape, me, log, value) and envelope_with(shape, me, log, value) == envelope for value in dict.fromkeys([(), *shown])
    )


def keeps_replica(shape, me, log, step):
    """The step keeps the conduct of this loyal replica."""
    kind, number = step.other
    if kind == "c":
        return number < shape.m and (step.word == "take" or reply_to(shape, log, number) == step.envelope)
    if due(shape, log) != (step.word, number):
        return False
    if step.word == "take":
        return True
    if rounds(shape, log) >= ROUNDS:
        return False
    if number == 0:
        return is_first_post(shape, me, log, step.envelope)
    return posted_to(log, ("r", 0))[rounds(shape, log)] == step.envelope


# ---- the conduct of a client


def winner(shape, notes):
    """The reply that first had more than f votes; a replica votes for the first one that it gave."""
    for end in range(1, len(notes) + 1):
        votes = dict(reversed(notes[:end]))
        given = notes[end - 1][1]
        if sum(vote == given for vote in votes.values()) > shape.f:
            return given
    return None


def with_step(shape, state, step):
    """The client's state after one more entry."""
    envelope = step.envelope
    if step.other[0] == "c":
        return state
    if step.word == "post":
        is_new = isinstance(envelope, Ask) and state.outstanding is None
        return State(envelope.ask, (), state.accepted) if is_new else state
    if not isinstance(envelope, Reply) or state.outstanding is None or envelope.number != state.outstanding.request.number:
        return state
    notes = (*state.notes, (step.other[1], envelope))
    won = winner(shape, notes)
    return State(None, (), (*state.accepted, won)) if won else state._replace(notes=notes)


def state_after(shape, log):
    return functools.reduce(functools.partial(with_step, shape), log, State(None, (), ()))


def accepted(shape, log):
    return state_after(shape, log).accepted


def seen(shape, log):
    fronts = [reply.place + 1 for reply in accepted(shape, log)]
    told = [step.envelope.front for step in log if step.word == "take" and step.other[0] == "c" and isinstance(step.envelope, Seen)]
    return max([0, *fronts, *told])


def keeps_client(shape, me, log, step):
    """The step keeps the conduct of this client."""
    if step.other == me:
        return False
    if step.word == "take":
        return True
    if step.other[0] == "c":
        return step.envelope == Seen(seen(shape, log))
    if not isinstance(step.envelope, Ask):
        return False
    ask, state = step.envelope.ask, state_after(shape, log)
    if state.outstanding is not None:
        return ask == state.outstanding
    new = Request(me[1], len(state.accepted) + 1, ask.request.op)
    return ask == Signed(new, Signature(me, new))


# ---- traitors


def carried(envelope):
    """The signatures that an envelope carries: on chains, beside the requests of their values, and beside a request that is asked."""
    if isinstance(envelope, Ask):
        return [envelope.ask.signature]
    chains = envelope.chains if isinstance(envelope, Round) else ()
    return [s for chain in chains for s in (*chain.signatures, *(signed.signature for signed in chain.value))]


def has_posted(log, signature):
    return any(step.word == "post" and signature in carried(step.envelope) for step in log)


def forges_nothing(shape, logs, step):
    """Each signature that is posted is a traitor's, or its signer posted it before."""
    return step.word == "take" or all(
        is_traitor(shape, s.signer) and is_actor(shape, s.signer) or has_posted(logs.get(s.signer, []), s)
        for s in carried(step.envelope)
    )


# ---- runs


def keeps_box(logs, step):
    """A post finds its box empty; a take takes what its box holds."""
    mine, others = logs.get(step.actor, []), logs.get(step.other, [])
    if step.word == "post":
        return posted_to(mine, step.other) == taken_from(others, step.actor)
    return posted_to(others, step.actor) == [*taken_from(mine, step.other), step.envelope]


def keeps_limits(logs, step):
    return step.word == "take" or len(posted_to(logs.get(step.actor, []), step.other)) + 1 < NUMBERS


def keeps_conduct(shape, logs, step):
    log = logs.get(step.actor, [])
    if step.actor[0] == "c":
        return keeps_client(shape, step.actor, log, step)
    if is_traitor(shape, step.actor):
        return forges_nothing(shape, logs, step)
    return keeps_replica(shape, step.actor, log, step)


def is_next(shape, logs, step):
    return (
        is_actor(shape, step.actor)
        and is_actor(shape, step.other)
        and keeps_box(logs, step)
        and keeps_limits(logs, step)
        and keeps_conduct(shape, logs, step)
    )


def history(shape, logs):
    """The requests that acted by the loyal replica with the most closed slots."""
    loyal = [("r", p) for p in range(shape.n) if not is_traitor(shape, ("r", p))]
    lists = [decided(shape, logs.get(actor, [])) for actor in loyal]
    return [request for request, _ in acted(max(lists, key=len, default=[]))]


class Run:
    """A run and its logs. A step that was added can be taken off again, so that texts with one beginning share it."""

    def __init__(self, shape):
        self.shape, self.steps, self.logs = shape, [], {}

    def add(self, step):
        """Whether the step may be next; it is added then."""
        if not is_next(self.shape, self.logs, step):
            return False
        self.steps.append(step)
        self.logs.setdefault(step.actor, []).append(step)
        return True

    def cut(self, count):
        """Takes off all steps but the first ones, as many as the number says."""
        while len(self.steps) > count:
            self.logs[self.steps.pop().actor].pop()

    def follow(self, steps):
        """Makes this the run of as many of the steps as are one, and says how many they are."""
        same = 0
        while same < min(len(self.steps), len(steps)) and self.steps[same] == steps[same]:
            same += 1
        self.cut(same)
        while len(self.steps) < len(steps) and self.add(steps[len(self.steps)]):
            pass
        return len(self.steps)

    def report(self):
        lines = [f"run {len(self.steps)}"]
        for c in range(self.shape.m):
            for reply in accepted(self.shape, self.logs.get(("c", c), [])):
                lines.append(f"accepted c{c} {reply.number} {reply.place} {reply.answer}")
        acted_requests = history(self.shape, self.logs)
        return "".join(f"{line}\n" for line in [*lines, *histories.history_lines(acted_requests)])


# ---- texts


def read_transcript(text):
    """The version, the shape and the steps of a transcript; or what `dsr check` gives if it refuses the text."""
    version = 2 if text.startswith(b"dsr-transcript 2 ") else 1
    header, fault = begun(text, b"dsr-transcript %d " % version)
    if fault:
        return None, fault
    (shape, lines, rest), steps = header, []
    for number, line in enumerate(lines, 2):
        step = step_of(line)
        if step is None or version == 1 and not is_plain(step.envelope):
            return None, bad_line(number)
        steps.append(step)
    return (version, shape, steps), bad_line(len(lines) + 2) if rest else None


def header_of(line):
    """The version and the shape of a transcript with this first line; None if it has none that is allowed."""
    found, _ = read_transcript(line + b"\n")
    return found and found[:2]


class Judge:
    """Judges one text after another, and keeps the last run for those that begin alike."""

    def __init__(self):
        self.run = None

    def verdict_of(self, text):
        """The status of `dsr check` on this text, and what it writes on standard output and standard error."""
        found, fault = read_transcript(text)
        return fault or self.verdict_on(*found[1:])

    def verdict_on(self, shape, steps):
        if self.run is None or self.run.shape != shape:
            self.run = Run(shape)
        good = self.run.follow(steps)
        if good < len(steps):
            return refused(f"not a run at line {good + 2}")
        return 0, self.run.report().encode(), b""


def verdict_of(text):
    return Judge().verdict_of(text)
