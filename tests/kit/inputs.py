"""Inputs: the examples, texts that are changed a little, and random plays. Everything random is drawn from what the caller gives.

A change of a byte puts one there that may mean something else: another digit, the other kind of actor, another mark that texts have, or
a byte that no token has.
"""

import copy
import glob
import os
import random
import re

from kit.program import TOP, bytes_of
from models.slow_play import World, events_of
from models.transcript_text import (
    Ask, Chain, Link, Reader, Reply, Request, Round, Seen, Shape, Signature, Signed, content_of, envelope_text, shape_text, whole,
)

LETTERS = {"r": "c", "c": "r", "o": "O", "t": "T"}
MARKS = " /+,:#~()-"
FOREIGN = "\t\r\0\x80\xff\n"
# How many steps a random walk has.
STEPS = 160


# ---- examples


def found(*patterns):
    """The paths of the examples that one of these patterns has, pattern by pattern."""
    return [path for pattern in patterns for path in sorted(glob.glob(f"{TOP}/examples/{pattern}", recursive=True))]


def plays(*patterns):
    """The paths of the plays of these patterns without their ending: of those that are rows of docs/PROTOCOL.md, and of the attacks, if no pattern is given."""
    return [path.removesuffix(".play") for path in found(*(patterns or ("*.play", "attacks/*.play")))]


def name_in_examples(path):
    return os.path.relpath(path, f"{TOP}/examples")


def wanted_of(stem, ending="out"):
    """The run that an example must give, by the files beside it."""
    return int(bytes_of(f"{stem}.status", b"0")), bytes_of(f"{stem}.{ending}"), bytes_of(f"{stem}.err")


def lines_text(lines):
    """These lines, each with its line feed, as one text in bytes."""
    return "".join(f"{line}\n" for line in lines).encode("latin-1")


# ---- texts that are changed


def lines_of(text):
    """The lines of a text, each with its line feed, and what is left after the last one."""
    return re.findall(rb"[^\n]*\n|[^\n]+", text)


def exchanged(text):
    """Any two neighbouring lines that differ are exchanged."""
    lines = lines_of(text)
    for at, (line, after) in enumerate(zip(lines, lines[1:])):
        if line != after:
            yield b"".join([*lines[:at], after, line, *lines[at + 2:]])


def without_a_line(text):
    lines = lines_of(text)
    for at in range(len(lines)):
        yield b"".join(lines[:at] + lines[at + 1:])


def cut_after_a_line(text):
    lines = lines_of(text)
    for count in range(len(lines)):
        yield b"".join(lines[:count])


def cut_at_bytes(text, step=1, first=0):
    """The text cut at each byte, or at each so many of them, and perhaps whole."""
    for size in range(first, len(text) + 1, step):
        yield text[:size]


def likely(letter, turn):
    """A byte to put in the place of this one; `turn` says which of those that may be telling."""
    if letter.isdigit():
        return str((int(letter) + 1 + turn % 9) % 10)
    if letter in MARKS:
        return (MARKS.replace(letter, "") + FOREIGN)[turn % (len(MARKS) - 1 + len(FOREIGN))]
    if letter == "\n":
        return (FOREIGN[:-1] + MARKS)[turn % (len(FOREIGN) - 1 + len(MARKS))]
    return [LETTERS.get(letter, chr(ord(letter) + 1)), "0", letter.upper(), "\0"][turn % 4]


def with_byte(text, at, turn):
    return text[:at] + likely(chr(text[at]), turn).encode("latin-1") + text[at + 1:]


def with_a_byte_changed(text, turns, step=1, first=0):
    """A byte is changed, at each of the places, or at each so many of them: in so many ways, of which the place says the first."""
    for at in range(first, len(text), step):
        for more in range(turns):
            yield with_byte(text, at, at + more)


def by_byte(chance, text):
    at = chance.randrange(len(text))
    return text[:at] + likely(chr(text[at]), chance.randrange(40)).encode("latin-1") + text[at + 1:]


def by_bytes_left_out(chance, text):
    at = chance.randrange(len(text))
    return text[:at] + text[at + chance.randint(1, 3):]


def by_line_moved(chance, text):
    lines = lines_of(text)
    line = lines.pop(chance.randrange(len(lines)))
    lines.insert(chance.randrange(len(lines) + 1), line)
    return b"".join(lines)


def by_line_again(chance, text):
    lines = lines_of(text)
    lines.insert(chance.randrange(len(lines) + 1), chance.choice(lines))
    return b"".join(lines)


def by_word_of_another_line(chance, text):
    """A word of a line gives way to one that stands in another."""
    words = text.split(b" ")
    words[chance.randrange(len(words))] = chance.choice(words)
    return b" ".join(words)


def by_envelope_everywhere(chance, text):
    """An envelope is changed in one byte wherever it stands: in the post, in the take, and in the posts to others."""
    line = chance.choice(lines_of(text)[1:] or [text])
    envelope = line.rstrip(b"\n").split(b" ", 3)[-1]
    if len(envelope) < 2:
        return by_byte(chance, text)
    return text.replace(envelope, by_byte(chance, envelope))


def by_other_traitors(chance, text):
    """The header tells of other traitors, or of another number of actors."""
    header, end, rest = text.partition(b"\n")
    words = header.split(b" ")
    at = chance.randrange(1, len(words)) if len(words) > 2 else 0
    words[at] = chance.choice([b"-", b"r0", b"r1", b"r2", b"r0+r1"] if at == 5 else [b"0", b"1", b"2", b"3", b"4", b"5"])
    return b" ".join(words) + end + rest


CHANGES = [by_byte, by_bytes_left_out, by_line_moved, by_line_again, by_word_of_another_line, by_envelope_everywhere, by_other_traitors]


def by_chance(chance, text):
    """The text with one change, sometimes with two."""
    for _ in range(chance.choice([1, 1, 1, 2])):
        if text:
            text = chance.choice(CHANGES)(chance, text)
    return text


# ---- plays in rounds


class Play:
    """A play that is being written."""

    def __init__(self, n, f, m, traitors):
        self.n, self.f, self.m = n, f, m
        self.traitors = list(traitors)
        self.loyal = [p for p in range(n) if p not in self.traitors]
        self.lines, self.events = [], 0
        # for each client the number of its last request
        self.numbers = [0] * m

    def text(self):
        mask = "+".join(f"r{p}" for p in self.traitors) or "-"
        return lines_text([f"dsr-play 1 {self.n} {self.f} {self.m} {mask}", *self.lines])

    def add(self, line, events=1):
        self.lines.append(line)
        self.events += events


class RandomPlay(Play):
    """A random play, and what its writer knows of the run."""

    def __init__(self, chance, n, f, m, traitors):
        super().__init__(n, f, m, traitors)
        self.chance, self.plants, self.asked = chance, 0, {}

    def add(self, line, events=1):
        super().add(line, events)
        self.plants += line.startswith("plant ")

    def operation(self):
        name = self.chance.choice(["a", "b", "none"])
        value = self.chance.randrange(4)
        old = self.chance.choice(["none", value])
        return self.chance.choice([f"read {name}", f"write {name} {value}", f"swap {name} {old} {value}", f"remove {name}"])

    def ask(self, client):
        """The client asks all for a request; it may have one outstanding, and then asks again."""
        if self.chance.random() < 0.7:
            self.numbers[client] += 1
            operation = self.operation()
            self.asked[client] = f"c{client}#{self.numbers[client]}:{operation.replace(' ', ':')}"
            self.add(f"asks c{client} begin {operation}", self.n)
        else:
            self.add(f"asks c{client}", self.n)
        self.add(f"hears c{client}", self.n)

    def request(self):
        """A request that was asked, as far as this writer knows, or one that nobody signed."""
        if self.asked and self.chance.random() < 0.9:
            request = self.chance.choice(sorted(self.asked.values()))
        else:
            request = f"c{self.chance.randrange(self.m)}#{self.chance.randrange(1, 9)}:write:a:9"
        return f"{request}~{request.split('#')[0]}"

    def chain(self, traitor, t):
        """A chain that a traitor may like to post in round t: often proper, sometimes not."""
        slot = max(0, t - self.chance.randrange(self.f + 1))
        value = ",".join(self.request() for _ in range(self.chance.choice([1, 1, 1, 2]))) if self.chance.random() < 0.8 else "idle"
        signers = [slot % self.n] + self.chance.sample(self.traitors, len(self.traitors))
        if self.chance.random() < 0.2:
            signers += [self.chance.randrange(self.n)]
        signers = list(dict.fromkeys(signers))[:t - slot + 1]
        return f"{slot}/{value}/" + "+".join(f"r{p}" for p in signers)

    def plant(self, traitor, to, t):
        kind = self.chance.random()
        if kind < 0.4:
            self.add(f"plant r{traitor} r{to} empty")
            return
        chains = " ".join(self.chain(traitor, t) for _ in range(self.chance.choice([1, 1, 2, 3])))
        number = t if self.chance.random() < 0.9 else t + 1
        self.add(f"plant r{traitor} r{to} round {number} {chains}")
        # it fills the box where it was refused as forged
        self.add(f"plant r{traitor} r{to} empty")

    def noise(self):
        """An event that may well be refused."""
        actors = [f"r{p}" for p in range(self.n + 1)] + [f"c{c}" for c in range(self.m)]
        a, b = self.chance.choice(actors), self.chance.choice(actors)
        # a take from a client or by one never hinders a round
        self.add(self.chance.choice([f"take c{self.chance.randrange(self.m)} {a}", f"tell {a} {b}", f"post {a} {b} from c0",
                                     f"take r{self.n} {a}", f"post r{self.n} {b}"]))

    def round(self, t):
        sender = t % self.n
        order = self.chance.sample(range(self.n), self.n)
        for p in order:
            if p in self.traitors:
                for to in range(self.n):
                    self.plant(p, to, t)
            elif p == sender and self.asked and self.chance.random() < 0.8:
                some = self.chance.sample(sorted(self.asked), self.chance.randrange(1, len(self.asked) + 1))
                clients = "+".join(f"c{c}" for c in some)
                self.add(f"posts r{p} from {clients}", self.n)
                # where the choice is not allowed, all of them were refused
                self.add(f"posts r{p}", self.n)
            else:
                self.add(f"posts r{p}", self.n)
            if self.chance.random() < 0.1:
                self.noise()
        for p in self.chance.sample(range(self.n), self.n):
            self.add(f"takes r{p}", self.n)

    def turn(self, t):
        """Round t, and what clients ask before it and are told after it."""
        for client in range(self.m):
            if self.chance.random() < 0.5:
                self.ask(client)
        self.round(t)
        for client in range(self.m):
            if self.chance.random() < 0.5:
                self.reply(client)
        if self.m > 1 and self.chance.random() < 0.2:
            self.add("tell c0 c1")
            self.add("take c1 c0")

    def reply(self, client):
        if self.traitors and self.chance.random() < 0.5:
            lie = self.chance.choice(["written", "held 3", "held none", "kept 1", "full"])
            number = max(1, self.numbers[client] + self.chance.choice([-1, 0, 0, 1]))
            self.add(f"plant r{self.chance.choice(self.traitors)} c{client} reply {number} {self.chance.randrange(3)} {lie}")
        self.add(f"replies c{client}", len(self.loyal))
        self.add(f"takes c{client}", self.n)


def begun_play(chance):
    """A random play that has no events yet."""
    n = chance.choice([1, 2, 3, 3, 3, 4, 5])
    f = chance.randint(0, (n - 1) // 2)
    return RandomPlay(chance, n, f, chance.randint(1, 3), sorted(chance.sample(range(n), chance.randint(0, f))))


def random_play(chance):
    """A random play in rounds. Replicas, clients and traitors take their steps in a random order, by random choices."""
    play = begun_play(chance)
    for t in range(chance.randint(2, 10)):
        play.turn(t)
    return play


def branching_play(chance, count):
    """A random play in rounds, and some that go on from it, each in its own way."""
    stem = begun_play(chance)
    rounds = chance.randint(2, 6)
    for t in range(rounds):
        stem.turn(t)
    branches = [copy.deepcopy(stem) for _ in range(count)]
    for branch in branches:
        branch.chance = random.Random(chance.random())
        for t in range(rounds, rounds + chance.randint(2, 5)):
            branch.turn(t)
    return stem, branches


# ---- plays in which anybody may act at any time


def operation(chance):
    name, value = chance.choice(["a", "b", "none", "remove"]), str(chance.randrange(3))
    old = chance.choice(["none", value])
    return chance.choice([("read", name), ("write", name, value), ("swap", name, old, value), ("remove", name)])


class Walk:
    """A play whose steps are chosen one by one. It has no rounds of its own: takes come late, replies are posted at odd times, clients ask again and
    tell each other what they have seen, and traitors post whatever they have seen, in parts and put together anew."""

    def __init__(self, chance):
        self.chance = chance
        n = chance.choice([1, 2, 3, 3, 3, 4])
        f = chance.randint(0, (n - 1) // 2)
        traitors = tuple(sorted(chance.sample(range(n), f)))
        self.shape = Shape(n, f, chance.randint(1, 3), traitors)
        self.world = World(self.shape)
        self.lines = []

    def add(self, line):
        self.lines.append(line)
        self.world.run(events_of(line.encode(), self.shape))

    def text(self):
        return lines_text([f"dsr-play 1 {shape_text(self.shape)}", *self.lines])

    def some(self, items):
        return self.chance.choice(sorted(items))

    # ---- what traitors put together

    def request(self):
        """A request that was asked for, or one that was not."""
        asked = [statement for _, statement in self.world.known if statement[0] == "c"]
        if asked and self.chance.random() < 0.8:
            return whole(self.some(asked).encode(), Reader.request)
        return Request(self.chance.randrange(self.shape.m), self.chance.randint(1, 3), operation(self.chance))

    def signature(self, fitting, signer):
        """The signature that fits, by one who would sign there, or some other one."""
        kind = self.chance.random()
        if kind < 0.8:
            return Signature(signer, fitting)
        if kind < 0.9 and self.world.known:
            other, statement = self.some(self.world.known)
            return Signature(whole(other.encode(), Reader.actor), whole(statement.encode(), Reader.statement))
        traitor = "r", self.some(self.shape.traitors)
        return Signature(traitor, self.chance.choice([fitting, self.request(), Link(0, (), (traitor,))]))

    def signed(self):
        request = self.request()
        return Signed(request, self.signature(request, ("c", request.client)))

    def chain(self, t):
        slot = max(0, t - self.chance.randrange(self.shape.f + 2))
        value = tuple(self.signed() for _ in range(self.chance.choice([0, 1, 1, 2])))
        others = [("r", p) for p in self.chance.sample(self.shape.traitors, len(self.shape.traitors))]
        before = []
        for signer in dict.fromkeys([("r", slot % self.shape.n), *others]):
            if len(before) <= t - slot or self.chance.random() < 0.1:
                before.append(self.signature(Link(slot, content_of(value), tuple(s.signer for s in before)), signer))
        return Chain(slot, value, tuple(before))

    def envelope(self, to):
        """What a traitor posts: something that was posted before, or something new."""
        posted = [line.split(" ", 3)[3] for line in self.world.lines if " post " in line]
        kind = self.chance.random()
        if kind < 0.2:
            return "empty"
        if kind < 0.4 and posted:
            return self.chance.choice(posted)
        if to[0] == "c" or kind < 0.45:
            answer = self.chance.choice(["written", "held none", "held 1", "full", "removed none"])
            return envelope_text(self.chance.choice([Reply(self.chance.randint(1, 3), self.chance.randrange(3), answer), Seen(3)]))
        if kind < 0.5:
            return envelope_text(Ask(self.signed()))
        t = max((machine.round for actor, machine in self.world.machines.items() if actor[0] == "r"), default=0)
        chains = tuple(self.chain(t) for _ in range(self.chance.choice([1, 1, 2])))
        return envelope_text(Round(t + self.chance.choice([0, 0, 0, 0, 1]), chains))

    # ---- steps

    def take(self):
        if self.world.boxes:
            a, b = self.some(self.world.boxes)
            self.add(f"take {b} {a}")

    def take_due(self):
        """A loyal replica takes what is due, if it is there; else a traitor may post it."""
        p = self.some(self.world.loyal)
        word, other = self.world.machines[p].due()
        if word == "post":
            self.post_due(p, other)
        elif (other, p) in self.world.boxes:
            self.add(f"take {p} {other}")
        elif other in self.world.traitors:
            self.add(f"plant {other} {p} {self.envelope(p)}")

    def post_due(self, p, other):
        asks = sorted(self.world.machines[p].asks)
        if other == "r0" and asks and self.chance.random() < 0.8:
            clients = self.chance.sample(asks, self.chance.randint(1, len(asks)))
            self.add(f"post {p} r0 from {'+'.join(clients)}")
        self.add(f"post {p} {other}")

    def plant(self):
        if self.world.traitors:
            to = self.some([*self.world.replicas, *self.world.clients])
            self.add(f"plant {self.some(self.world.traitors)} {to} {self.envelope(to)}")

    def ask(self):
        client = self.some(self.world.clients)
        if self.world.machines[client].ask is None:
            self.add(f"post {client} {self.some(self.world.replicas)} begin {' '.join(operation(self.chance))}")
        self.add(f"post {client} {self.some(self.world.replicas)}")

    def reply(self):
        self.add(f"post {self.some(self.world.loyal)} {self.some(self.world.clients)}")

    def tell(self):
        self.add(f"tell {self.some(self.world.clients)} {self.some(self.world.clients)}")

    def anything(self):
        a, b = (self.some([*self.world.replicas, *self.world.clients]) for _ in range(2))
        self.add(self.chance.choice([f"post {a} {b}", f"take {a} {b}", f"plant {a} {b} empty", f"post {a} {b} from c0"]))


def random_walk(chance):
    """The text of a random play."""
    walk = Walk(chance)
    steps = [walk.take, walk.take_due, walk.plant, walk.ask, walk.reply, walk.tell, walk.anything]
    for _ in range(STEPS):
        chance.choices(steps, [30, 60, 4, 6, 5, 2, 2])[0]()
    return walk.text()


def any_play(chance, seed):
    """The text of a random play: in rounds, or a walk."""
    return random_walk(chance) if seed % 2 else random_play(chance).text()
