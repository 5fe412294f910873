"""A slow model of explanations, over the one of plays.

It gives the data lines of a play, from which tools/picture draws: each event and what came of it. The header of tools/picture has what
lines there are. What replicas and clients do is told by slow_play.py, the fault of a chain by chains.py; why, by what stands here:

- A chain is read as one of the slot that it says, so none is of another slot. Where that slot is not in flight it is `not-in-flight`, in the
  round 0. Else it has the first fault that holds, in the order of docs/PROTOCOL.md; where none holds, it is `not-new` if its content is
  kept, and `one-too-many` if two others are.
- What traitors take has no notes. Envelopes of another round count as no chains; that is their one note, a `silence`.
- A replica could have proposed each request that it holds, in the slot of which it is the sender, if neither that request nor a later one of its client acted
  there, and none of the chains that it keeps has it.
- The envelope of an event that was refused stands there where the play says it, so of a `plant` alone.

From the data lines it makes the sentences that say why an event was refused or an envelope is no vote, how the line of an event begins that found a box full,
and the lines of the end in words that count something.
"""

from models import chains, histories, slow_play
from models.transcript_text import Reader, content_of, content_text, shape_text, signers_text, whole

TITLE = "dsr-explain 1"


# ---- chains


class Reading:
    """What a loyal replica makes of the chains of one envelope, one after another."""

    def __init__(self, machine):
        self.machine = machine
        self.kept = {slot: [self.as_kept(chain, at - slot + 1) for at, chain in kept] for slot, kept in machine.kept.items()}

    def as_kept(self, text, round_of_slot):
        """The round of its slot in which a chain was read, its signers and its content."""
        chain = whole(text.encode(), Reader.chain)
        return round_of_slot, signers_text(chains.signers_of(chain)), content_text(content_of(chain.value))

    def note(self, text):
        chain = whole(text.encode(), Reader.chain)
        round_of_slot = self.machine.round - chain.slot + 1
        read = self.as_kept(text, round_of_slot)
        _, signers, content = read
        is_in_flight = 1 <= round_of_slot <= self.machine.shape.f + 1
        fate = self.fate(chain, read) if is_in_flight else "not-in-flight"
        return f"chain {self.machine.me} {chain.slot} {round_of_slot if is_in_flight else 0} {signers} {content} {fate}"

    def fate(self, chain, read):
        fault = chains.fault_of(self.machine.shape, chain.slot, read[0], chain)
        if fault:
            return fault
        kept = self.kept.setdefault(chain.slot, [])
        if read[2] in [content for _, _, content in kept]:
            return "not-new"
        if len(kept) == 2:
            return "one-too-many"
        kept.append(read)
        return ["first", "second"][len(kept) - 1]


# ---- notes on what was taken


def notes_of_closing(machine, slots, kept, numbers, acted):
    """The notes on a round that the replica has just closed, by what it had before: how many slots were decided, what was kept of them,
    and which numbers and how many requests had acted."""
    me = machine.me
    notes = [f"kept {me} {slot} {at} {signers} {content}" for slot in range(slots, len(machine.decided)) for at, signers, content in kept.get(slot, [])]
    notes.append(f"close {me} {machine.round - 1}")
    for slot in range(slots, len(machine.decided)):
        content = machine.decided[slot]
        notes.append(f"decide {me} {slot} {len(kept.get(slot, []))} {content}")
        for request in [] if content == "idle" else content.split(","):
            client, number, _ = histories.parts(request)
            if number > numbers.get(client, 0):
                numbers[client] = number
                notes.append(f"act {me} {acted} {request}")
                acted += 1
            else:
                notes.append(f"stale {me} {request}")
    return notes


def replica_takes(world, a, b):
    """Makes the take of a loyal replica, and gives the notes on it."""
    machine, envelope = world.machines[a], world.boxes.get((b, a), "")
    slots, numbers, acted, closed = len(machine.decided), dict(machine.numbers), len(machine.acted), machine.round
    reading, words = Reading(machine), envelope.split(" ")
    if b[0] == "c":
        world.take(a, b)
        return [f"hold {a} {words[1].split('~')[0]}"] if machine.asks.get(b) == words[1] else []
    notes = []
    if words[:2] == ["round", str(machine.round)]:
        notes = [reading.note(chain) for chain in words[2:]]
    elif envelope not in ("", "empty"):
        notes = [f"silence {a} {machine.round}"]
    world.take(a, b)
    if machine.round > closed:
        notes += notes_of_closing(machine, slots, reading.kept, numbers, acted)
    return notes


def reason_for_no_vote(machine, replica, number):
    if machine.ask is None:
        return "nothing-outstanding"
    if number != str(machine.number):
        return f"other-number {machine.number}"
    return "has-voted" if replica in machine.votes else None


def client_takes(world, a, b):
    """Makes the take of a client, and gives the notes on it."""
    machine, envelope = world.machines[a], world.boxes.get((b, a), "")
    words, accepted = envelope.split(" "), len(machine.accepted)
    is_reply = words[0] == "reply" and b[0] == "r"
    reason = reason_for_no_vote(machine, b, words[1]) if is_reply else None
    world.take(a, b)
    if not is_reply:
        return [f"no-vote {a} {b} no-reply"] if b[0] == "r" else []
    if reason:
        return [f"no-vote {a} {b} {reason}"]
    votes = list(machine.votes.values()).count(envelope)
    return [f"vote {a} {b} {votes} {world.shape.f + 1}", *(f"accept {a} {reply}" for reply in machine.accepted[accepted:])]


# ---- notes on what was posted


def unproposed(machine):
    """The notes on the choice of a loyal replica to propose nothing, which it is about to make: what it could have proposed."""
    if machine.me != f"r{machine.round % machine.shape.n}":
        return []
    kept = [request.split("~")[0] for of_slot in machine.kept.values() for _, chain in of_slot for request in slow_play.parts_of(chain)[1]]
    held = [machine.asks[client].split("~")[0] for client in sorted(machine.asks, key=lambda client: int(client[1:]))]
    could = [request for request in held if request not in kept and histories.parts(request)[1] > machine.numbers.get(request.split("#")[0], 0)]
    return [f"unproposed {machine.me} {machine.round} {request}" for request in could]


# ---- why an event was refused

# The words of `why` and of `no-vote` lines, each with the sentence that says the same; what belongs to it follows the word, in this order.
REASONS = {
    "no-actor": "{} is no actor of this shape",
    "traitor": "{} is a traitor: what it posts is planted",
    "loyal": "{} is loyal: only traitors plant",
    "both-clients": "clients post nothing to each other: they tell",
    "from-itself": "a client takes nothing from itself",
    "not-two-clients": "only a client tells, and only another client",
    "due-post": "it must first post to {}",
    "due-take": "it must first take from {}",
    "chosen-before": "what it proposes is chosen at its post to r0",
    "other-sender": "the slot that begins with this round, {}, has the sender {}",
    "nothing-held": "it holds no ask of {}",
    "begins-nothing": "a replica begins no request",
    "nothing-acted": "no request of {} has acted there yet",
    "no-choice": "a replica has no choice at a post to a client",
    "proposes-nothing": "a client proposes nothing",
    "outstanding": "its request {} is outstanding",
    "nothing-outstanding": "no request of it is outstanding",
    "box-full": "what was posted there before has not been taken",
    "box-empty": "no envelope is waiting there",
    "forged": "the signature of {0} on {1} is forged: {0} is no traitor of this shape, and has not posted it",
}
NO_VOTES = {
    "no-reply": "it is no reply",
    "nothing-outstanding": "no request is outstanding",
    "other-number": "request {} is outstanding",
    "has-voted": "it has voted, and only its first reply counts",
}


def why_not_due(world, word, a, b, pick):
    """Why it is not the turn of this loyal actor to do that."""
    machine = world.machines[a]
    if a[0] == "c":
        return why_not_asked(machine, pick)
    if b[0] == "c":
        return "no-choice" if pick else f"nothing-acted {b}"
    due, other = machine.due()
    if (due, other) != (word, b):
        return f"due-{due} {other}"
    if pick[0] == "begin":
        return "begins-nothing"
    return "chosen-before" if b != "r0" else why_not_proposed(world, machine, pick[1])


def why_not_asked(machine, pick):
    if pick is None:
        return "nothing-outstanding"
    return "proposes-nothing" if pick[0] == "from" else f"outstanding {machine.number}"


def why_not_proposed(world, machine, clients):
    sender = f"r{machine.round % world.shape.n}"
    if sender != machine.me:
        return f"other-sender {machine.round} {sender}"
    return f"nothing-held {next(client for client in clients if client not in machine.asks)}"


def why_wrong_role(world, word, a, b):
    if word == "post":
        return f"traitor {a}" if a in world.traitors else "both-clients"
    return {"plant": f"loyal {a}", "take": "from-itself", "tell": "not-two-clients"}[word]


def why_forged(world, envelope):
    return next(
        f"forged {signer} {statement}" for signer, statement in slow_play.signatures_in(envelope)
        if signer not in world.traitors and (signer, statement) not in world.known
    )


def why_refused(world, event, code):
    """The word of the reason, and what belongs to it."""
    word, a, b, *more = event
    reasons = {
        5: lambda: why_not_due(world, word, a, b, more[0] if more else None),
        6: lambda: "box-full",
        7: lambda: "box-empty",
        8: lambda: why_forged(world, more[0]),
        15: lambda: f"no-actor {next(actor for actor in (a, b) if actor not in world.replicas + world.clients)}",
        16: lambda: why_wrong_role(world, word, a, b),
    }
    return reasons[code]()


def sentences(data):
    """What `dsr explain` says in words where these data lines have a reason: the lines that say why."""
    for line in data.decode().splitlines():
        word, *parts = line.split(" ")
        if word == "why":
            yield f"    because {REASONS[parts[0]].format(*parts[1:])}"
        elif word == "no-vote":
            client, replica, reason, *more = parts
            yield f"    no vote of {replica} at {client}: {NO_VOTES[reason].format(*more)}"


# What an event is called in words.
VERBS = {"post": "posts to", "plant": "plants for", "take": "takes from", "tell": "tells"}


def full_boxes(data):
    """How the lines of events begin in words that are refused because a box is full: also with the line of the post that fills it."""
    since = {}
    for _, index, line, kind, a, b, outcome, *_ in (line.split(" ") for line in data.decode().splitlines() if line.startswith("event ")):
        if outcome == "E6":
            yield f"line {line}, event {index}: refused, E6 BoxFull: {a} {VERBS[kind]} {b} (the box is full since line {since[a, b]})"
        elif outcome == "done" and kind != "take":
            since[a, b] = line


# ---- what mattered although it was not refused

# The lines of the end in words that count something, by what is counted: how often it happened, the line of the first, and what else belongs to the first.
COUNTED = {
    "refused": "refused: {}, the first in line {}; those after it may follow from it",
    "silence": "taken envelopes that are not of the round in progress: {}, the first in line {}",
    "improper": "taken chains that are not proper: {}, the first in line {}",
    "not-in-flight": "taken chains of a slot that is not in flight: {}, the first in line {}",
    "unproposed": "slots in which the sender proposes nothing, though it holds a request: {}, the first in line {}",
    "stale": "decided requests that do not act: {}, the first in line {}",
    "other-vote": "votes that differ from the first vote on the same request: {}, the first in line {}; it differs from a vote in line {}",
    "no-vote": "taken envelopes that give a waiting client no vote: {}, the first in line {}",
}
# Such chains were kept, or would have been if others had not been before them.
PROPER = ("first", "second", "not-new", "one-too-many")


class Clients:
    """What data lines tell of clients, line by line: who waits for an answer, and the reply of the first vote on its request, with the line of the vote."""

    def __init__(self):
        self.waiting, self.first = set(), {}

    def counts(self, event, word):
        """What is counted for a line that begins with this word, and belongs to this event, and what else belongs to that; None for nothing."""
        line, actor, envelope = event[2], event[4], event[7:]
        if word == "event" and event[3] == "post" and actor[0] == "c" and event[6] == "done":
            self.waiting.add(actor)
        elif word == "accept":
            self.waiting.discard(actor)
            self.first.pop(actor)
        elif word == "vote":
            reply, earlier = self.first.setdefault(actor, (envelope, line))
            return ("other-vote", earlier) if reply != envelope else None
        elif word == "no-vote" and actor in self.waiting:
            return (word,)
        return None


def counted(data):
    """What these data lines have that the end in words counts, each with the line of the play, and with what else belongs to it. A sender's post counts once,
    however many requests it holds."""
    clients, event, proposing = Clients(), [], None
    for words in (line.split(" ") for line in data.decode().splitlines()[1:] if not line.startswith("waits ")):
        word, last = words[0], words[-1]
        event = words if word == "event" else event
        found = clients.counts(event, word)
        if word == "event" and event[6] != "done":
            found = ("refused",)
        elif word == "unproposed" and proposing != event:
            found, proposing = (word,), event
        elif word in ("silence", "stale"):
            found = (word,)
        elif word == "chain" and last not in PROPER:
            found = (last if last == "not-in-flight" else "improper",)
        if found:
            kind, *more = found
            yield kind, event[2], *more


def ends(data):
    """The lines of the end in words that count something, for these data lines."""
    found = list(counted(data))
    for kind, words in COUNTED.items():
        firsts = [more for counted_as, *more in found if counted_as == kind]
        if firsts:
            yield words.format(len(firsts), *firsts[0])


# ---- the lines


def done(world, event):
    """Makes this event, and gives its envelope and the notes on it."""
    word, a, b = event[:3]
    if word != "take":
        notes = unproposed(world.machines[a]) if word == "post" and a in world.loyal and b == "r0" and event[3] is None else []
        world.step(event)
        return world.boxes[a, b], notes
    takes = replica_takes if a in world.loyal else client_takes if a in world.clients else None
    if takes is None or b not in world.replicas + world.clients or not world.machines[a].may_take(b):
        world.step(event)
        notes = []
    else:
        notes = takes(world, a, b)
    return world.lines[-1].split(" ", 3)[3], notes


def lines_of_event(world, index, number, event):
    word, a, b, *more = event
    try:
        (envelope, notes), outcome = done(world, event), "done"
    except slow_play.Refused as refusal:
        code = refusal.args[0]
        envelope, outcome = more[0] if word == "plant" else "-", f"E{code}"
        notes = [f"why {why_refused(world, event, code)}"]
    return [f"event {index} {number} {word} {a} {b} {outcome} {envelope}", *notes]


def numbered_events(text, shape):
    """Each event of a play with the number of its line."""
    for number, line in enumerate(text.split(b"\n")[1:-1], 2):
        for event in slow_play.events_of(line, shape):
            yield number, event


def waiting(world):
    """What each loyal replica waits for at the end, or has still to do."""
    for replica in world.loyal:
        machine = world.machines[replica]
        yield f"waits {replica} {' '.join(machine.due())} {machine.round}"


def explained(text):
    """The status of `dsr explain --data` on a play, and what it writes on standard output and standard error; the refusal of any other text."""
    play, fault = slow_play.read_play(text)
    if fault:
        return fault
    world = slow_play.World(play[0])
    lines = [f"{TITLE} {shape_text(play[0])}"]
    for index, (number, event) in enumerate(numbered_events(text, play[0])):
        lines += lines_of_event(world, index, number, event)
    return 0, "".join(f"{line}\n" for line in [*lines, *waiting(world)]).encode(), b""
