"""A slow model of plays, written anew.

It gives what `dsr play` must give: the report, or the transcript of the steps that were done. Each actor is a small machine, as somebody
would write it who reads docs/PROTOCOL.md, and envelopes are their texts: a chain is proper where its text is the one that proper chains
have. So it has nothing in common with slow_check.py but the reader of tokens and the directory, and each of the two is a check on the other.
"""

import functools
import re

from models import histories
from models.transcript_text import Bad, Reader, actor_text, all_of, bad_line, begun, envelope_text, shape_text

MOST_EVENTS = 1_000_000
NAMES = {5: "NotDue", 6: "BoxFull", 7: "BoxEmpty", 8: "Forged", 12: "NoMemory", 15: "NoActor", 16: "WrongRole"}


class Refused(Exception):
    """The event is refused, with this number."""


# ---- chains and signatures, as texts


def split(text, mark):
    """The items of a text that are joined by this mark, where it stands outside of parentheses."""
    if "(" not in text:
        return text.split(mark)
    items, depth = [""], 0
    for letter in text:
        depth += (letter == "(") - (letter == ")")
        if letter == mark and depth == 0:
            items.append("")
        else:
            items[-1] += letter
    return items


def parts_of(chain):
    """Slot, value and signatures of a chain, the last two as lists."""
    slot, value, signatures = split(chain, "/")
    return int(slot), [] if value == "idle" else split(value, ","), [] if signatures == "-" else split(signatures, "+")


def content_of(value):
    """The content of a value, as a text: its requests without the signatures beside them."""
    return ",".join(signed.split("~")[0] for signed in value) or "idle"


def signature(text, fitting):
    """The signer and the statement of a signature at a place that this statement fits."""
    signer, _, other = text.partition("(")
    return signer, other[:-1] or fitting


def signatures_in(envelope):
    """Signer and statement of each signature that an envelope carries."""
    word, *rest = envelope.split(" ")
    if word == "ask":
        return [signed_by(rest[0])]
    return [found for chain in (rest[1:] if word == "round" else []) for found in signatures_on(chain)]


def signed_by(signed):
    request, beside = signed.split("~", 1)
    return signature(beside, request)


def signatures_on(chain):
    """First the replicas', then those beside the requests."""
    slot, value, signatures = parts_of(chain)
    found = []
    for text in signatures:
        before = "+".join(signer for signer, _ in found) or "-"
        found.append(signature(text, f"{slot}/{content_of(value)}/{before}"))
    return found + [signed_by(signed) for signed in value]


@functools.lru_cache(maxsize=100_000)
def is_proper(shape, chain, slot, round_of_slot):
    """Whether the chain is proper for this round of the slot: then each signature has its short form, and each request its client's."""
    if "(" in chain:
        return False
    number, value, signers = parts_of(chain)
    replicas = {f"r{p}" for p in range(shape.n)}
    clients = {f"c{c}" for c in range(shape.m)}
    return (
        number == slot
        and len(signers) == round_of_slot == len(set(signers))
        and signers[0] == f"r{slot % shape.n}"
        and replicas.issuperset(signers)
        and all(client in clients and client == signer for client, signer in (re.split("#.*~", signed) for signed in value))
    )


# ---- loyal replicas


class Replica:
    """A loyal replica: it posts to all, takes from all, and so on, round by round."""

    def __init__(self, shape, me):
        self.shape, self.me = shape, me
        self.round, self.turn = 0, 0
        self.envelope = None
        self.kept = {}
        self.decided = []
        self.asks = {}
        self.numbers, self.directory, self.replies, self.acted = {}, {}, {}, []

    def due(self):
        """The word and the other replica of what it does next."""
        word = "post" if self.turn < self.shape.n else "take"
        return word, f"r{self.turn % self.shape.n}"

    def envelope_for(self, to, pick):
        """What it posts next to this actor, by this choice."""
        if to[0] == "c":
            if pick or to not in self.replies:
                raise Refused(5)
            return self.replies[to]
        if self.due() != ("post", to) or pick and (pick[0] != "from" or to != "r0"):
            raise Refused(5)
        return self.envelope_by(pick) if to == "r0" else self.envelope

    def envelope_by(self, pick):
        """The envelope of the round that begins."""
        is_own = self.me == f"r{self.round % self.shape.n}"
        if pick and not (is_own and all(client in self.asks for client in pick[1])):
            raise Refused(5)
        value = ",".join(self.asks[client] for client in pick[1]) if pick else "idle"
        chains = [chain for slot in sorted(self.kept) for chain in self.relayed(slot)]
        chains += [f"{self.round}/{value}/{self.me}"] if is_own else []
        return " ".join([f"round {self.round}", *chains]) if chains else "empty"

    def relayed(self, slot):
        """What it relays of the slot: what it kept in the round before and has not signed."""
        return [
            f"{chain}+{self.me}" for at, chain in self.kept[slot] if at == self.round - 1 and self.me not in parts_of(chain)[2]
        ]

    def posted(self, to, envelope):
        if to[0] == "r":
            self.turn += 1
            self.envelope = envelope

    def may_take(self, other):
        return other[0] == "c" or self.due() == ("take", other)

    def taken(self, other, envelope):
        if other[0] == "c":
            self.hear(other, envelope)
            return
        self.read(envelope.split(" "))
        self.turn += 1
        if self.turn == 2 * self.shape.n:
            self.close()

    def hear(self, client, envelope):
        """It holds the ask if it is the client's own, and no older than the one that it holds."""
        word, *rest = envelope.split(" ")
        if word != "ask" or not re.fullmatch(rf"{client}#[^~]*~{client}", rest[0]):
            return
        number = histories.parts(rest[0])[1]
        if client not in self.asks or number >= histories.parts(self.asks[client])[1]:
            self.asks[client] = rest[0]

    def read(self, words):
        """It keeps of each slot in flight the first two contents of proper chains, each with the round in which it came."""
        if words[:2] != ["round", str(self.round)]:
            return
        for chain in words[2:]:
            slot = int(chain.split("/")[0])
            r = self.round - slot + 1
            if not 1 <= r <= self.shape.f + 1 or not is_proper(self.shape, chain, slot, r):
                continue
            kept = self.kept.setdefault(slot, [])
            if len(kept) < 2 and content_of(parts_of(chain)[1]) not in [content_of(parts_of(c)[1]) for _, c in kept]:
                kept.append((self.round, chain))

    def close(self):
        """The round is over, and with it, from round f on, a slot."""
        slot = self.round - self.shape.f
        self.round, self.turn = self.round + 1, 0
        if slot >= 0:
            kept = self.kept.pop(slot, [])
            self.decided.append(content_of(parts_of(kept[0][1])[1]) if len(kept) == 1 else "idle")
            for request in [] if self.decided[-1] == "idle" else self.decided[-1].split(","):
                self.act(request)

    def act(self, request):
        client, number, operation = histories.parts(request)
        if number > self.numbers.get(client, 0):
            self.numbers[client] = number
            self.replies[client] = f"reply {number} {len(self.acted)} {histories.answered(self.directory, operation)}"
            self.acted.append(request)


# ---- clients


class Client:
    def __init__(self, shape, me):
        self.shape, self.me = shape, me
        self.ask, self.number = None, 0
        self.votes = {}
        self.accepted = []
        self.seen = 0

    def envelope_for(self, to, pick):
        """What it posts next to a replica: its request again, or a new one where none is outstanding."""
        if pick and pick[0] == "begin" and self.ask is None:
            request = f"{self.me}#{self.number + 1}:{':'.join(pick[1])}"
            return f"ask {request}~{self.me}"
        if pick or self.ask is None:
            raise Refused(5)
        return self.ask

    def posted(self, to, envelope):
        if to[0] == "r" and self.ask is None:
            self.ask, self.votes = envelope, {}
            self.number += 1

    def may_take(self, other):
        return True

    def taken(self, other, envelope):
        word, *rest = envelope.split(" ")
        if word == "seen" and other[0] == "c":
            self.seen = max(self.seen, int(rest[0]))
        if word != "reply" or other[0] == "c" or self.ask is None or rest[0] != str(self.number):
            return
        self.votes.setdefault(other, envelope)
        if list(self.votes.values()).count(envelope) > self.shape.f and self.votes[other] == envelope:
            self.ask = None
            self.accepted.append(envelope.removeprefix("reply "))
            self.seen = max(self.seen, int(rest[1]) + 1)


# ---- the world


class World:
    """All actors, the boxes between them, and the lines of the transcript so far."""

    def __init__(self, shape):
        self.shape = shape
        self.replicas = [f"r{p}" for p in range(shape.n)]
        self.clients = [f"c{c}" for c in range(shape.m)]
        self.traitors = {f"r{p}" for p in shape.traitors}
        self.loyal = [p for p in self.replicas if p not in self.traitors]
        self.machines = {p: Replica(shape, p) for p in self.loyal} | {c: Client(shape, c) for c in self.clients}
        self.boxes = {}
        self.known = set()
        self.lines = []
        self.done, self.refused = 0, []

    def step(self, event):
        """One event: it is done, or refused with a number."""
        word, *rest = event
        {"post": self.post, "plant": self.plant, "take": self.take, "tell": self.tell}[word](*rest)

    def run(self, events):
        for index, event in enumerate(events):
            try:
                self.step(event)
                self.done += 1
            except Refused as refusal:
                self.refused.append((index, refusal.args[0]))

    def need_actors(self, *actors):
        if not all(actor in self.replicas or actor in self.clients for actor in actors):
            raise Refused(15)

    def fill(self, a, b, envelope):
        """Puts the envelope into the box from a to b, if that is empty, and so does what is left of a post."""
        if (a, b) in self.boxes:
            raise Refused(6)
        if a in self.traitors and any(
            signer not in self.traitors and (signer, statement) not in self.known for signer, statement in signatures_in(envelope)
        ):
            raise Refused(8)
        if a not in self.traitors:
            self.known.update(signatures_in(envelope))
            self.machines[a].posted(b, envelope)
        self.boxes[a, b] = envelope
        self.lines.append(f"{a} post {b} {envelope}")

    def post(self, a, b, pick):
        self.need_actors(a, b)
        if a in self.traitors or a[0] == b[0] == "c":
            raise Refused(16)
        self.fill(a, b, self.machines[a].envelope_for(b, pick))

    def plant(self, a, b, envelope):
        self.need_actors(a, b)
        if a not in self.traitors:
            raise Refused(16)
        self.fill(a, b, envelope)

    def tell(self, a, b):
        self.need_actors(a, b)
        if a == b or a[0] != "c" or b[0] != "c":
            raise Refused(16)
        self.fill(a, b, f"seen {self.machines[a].seen}")

    def take(self, a, b):
        self.need_actors(a, b)
        if a == b and a[0] == "c":
            raise Refused(16)
        machine = self.machines.get(a)
        if machine and not machine.may_take(b):
            raise Refused(5)
        if (b, a) not in self.boxes:
            raise Refused(7)
        envelope = self.boxes.pop((b, a))
        if machine:
            machine.taken(b, envelope)
        self.lines.append(f"{a} take {b} {envelope}")

    # ---- what came of it

    def outcome(self):
        """The accepted lines, and those of the history: what the reports of a play and of its transcript have in common."""
        acted = max((self.machines[p].acted for p in self.loyal), key=len)
        replies = [f"accepted {c} {reply}" for c in self.clients for reply in self.machines[c].accepted]
        return replies, histories.history_lines(acted)

    def report(self):
        replies, history = self.outcome()
        lines = [f"done {self.done}", f"refused {len(self.refused)}"]
        lines += [f"first {index} E{code} {NAMES[code]}" for index, code in self.refused[:1]]
        lines += replies + [f"seen {c} {self.machines[c].seen}" for c in self.clients]
        lines += [f"decided {p} {' '.join(self.machines[p].decided) or '-'}" for p in self.loyal]
        return "".join(f"{line}\n" for line in [*lines, *history])

    def check_report(self):
        """The report of the checker on the transcript."""
        replies, history = self.outcome()
        return "".join(f"{line}\n" for line in [f"run {len(self.lines)}", *replies, *history])

    def transcript(self):
        version = 2 if any(needs_version_two(line) for line in self.lines) else 1
        return "".join(f"{line}\n" for line in [f"dsr-transcript {version} {shape_text(self.shape)}", *self.lines])


def needs_version_two(line):
    """A list of requests stands in the line, or a request that removes, or an answer that tells of one."""
    return "," in line or re.search("#[0-9]+:remove:", line) is not None or " removed " in line


# ---- the lines of plays


class PlayReader(Reader):
    """A line of a play, and the events for which it stands in a world of a shape."""

    def __init__(self, text, shape):
        super().__init__(text)
        self.shape = shape
        self.replicas = [f"r{p}" for p in range(shape.n)]
        self.loyal = [f"r{p}" for p in range(shape.n) if p not in shape.traitors]

    def who(self, kinds="rc"):
        """A space and an actor of one of these kinds."""
        self.need(" ")
        actor = self.actor()
        if actor[0] not in kinds:
            raise Bad
        return actor_text(actor)

    def pick(self, words):
        """What may follow a post: a choice, of those that these words begin."""
        if "from" in words and self.has(" from "):
            clients = self.items("+", lambda: actor_text(self.actor_of("c")), 8)
            if len(set(clients)) < len(clients):
                raise Bad
            return "from", clients
        return ("begin", self.operation(" ")) if "begin" in words and self.has(" begin ") else None

    def draft(self):
        self.need(" ")
        return envelope_text(self.envelope())

    def posts_to_all(self, a, pick):
        return [("post", a, b, None if at else pick) for at, b in enumerate(self.replicas)]

    def events(self):
        """The events of the whole line."""
        word = self.text.split(" ", 1)[0]
        self.at = len(word)
        if word == "posts" and self.has(" *"):
            return [event for a in self.loyal for event in self.posts_to_all(a, None)]
        if word == "takes" and self.has(" *"):
            return [("take", a, b) for a in self.replicas for b in self.replicas]
        readers = {"posts": self.posts, "asks": self.posts, "plants": self.plants, "takes": self.takes, "hears": self.hears, "replies": self.replies,
                   **dict.fromkeys(["post", "plant", "take", "tell"], self.one_event)}
        if word not in readers:
            raise Bad
        return readers[word](word)

    def one_event(self, word):
        a, b = self.who(), self.who()
        if word == "post":
            return [(word, a, b, self.pick(("from", "begin")))]
        return [(word, a, b, self.draft())] if word == "plant" else [(word, a, b)]

    def posts(self, word):
        kind, words = ("r", ("from",)) if word == "posts" else ("c", ("begin",))
        return self.posts_to_all(self.who(kind), self.pick(words))

    def plants(self, _):
        a, envelope = self.who("r"), self.draft()
        return [("plant", a, b, envelope) for b in self.replicas]

    def takes(self, _):
        a = self.who()
        return [("take", a, b) for b in self.replicas]

    def hears(self, _):
        client = self.who("c")
        return [("take", a, client) for a in self.replicas]

    def replies(self, _):
        client = self.who("c")
        return [("post", a, client, None) for a in self.loyal]


def events_of(line, shape):
    """The events of a line; None where it is none."""
    return all_of(PlayReader(line.decode("latin-1"), shape), PlayReader.events)


def event_line(event):
    """The line of a play that represents this event alone."""
    word, actor, other, *more = event
    if word == "plant":
        return f"plant {actor} {other} {more[0]}"
    choice = more[0] if more else None
    if choice is None:
        return f"{word} {actor} {other}"
    return f"{word} {actor} {other} {choice[0]} {('+' if choice[0] == 'from' else ' ').join(choice[1])}"


def read_play(text):
    """The shape and the events of a play; or what `dsr play` gives if it refuses the text."""
    header, fault = begun(text, b"dsr-play 1 ")
    if fault:
        return None, fault
    (shape, lines, rest), events = header, []
    for number, line in enumerate(lines, 2):
        more = events_of(line, shape)
        if more is None or len(events) + len(more) > MOST_EVENTS:
            return None, bad_line(number)
        events += more
    return (shape, events), bad_line(len(lines) + 2) if rest else None


def world_of(text):
    """The world after a play; or what `dsr play` gives where it refuses the text."""
    play, fault = read_play(text)
    if fault:
        return None, fault
    world = World(play[0])
    world.run(play[1])
    return world, None


def played(text, as_transcript=False):
    """The status of `dsr play` on this text, and what it writes on standard output and standard error."""
    world, fault = world_of(text)
    return fault or (0, (world.transcript() if as_transcript else world.report()).encode(), b"")
