"""The tokens of docs/FORMATS.md and the lines of transcripts, read and written: definitions written anew for tests, over tuples.

Texts are bytes, read one character a byte. What is read is made of plain tuples, so that equal values are equal tuples: an actor is
("r", 0) or ("c", 0), an operation ("swap", "a", "none", "1") is its parts as they are spelled, and an answer is its own text. A value
is a tuple of signed requests, and a content one of requests; both are empty where it is idle.
"""

import functools
import re
from collections import namedtuple

MOST_BYTES = 16_777_216
NUMBERS = 2**40
VALUES = 2**64
MOST_REQUESTS, MOST_SIGNATURES, MOST_CHAINS = 8, 16, 32
MOST_REPLICAS, MOST_CLIENTS = 16, 32

DECIMAL = re.compile("0|[1-9][0-9]*")
MOST_DIGITS = 20
NAME = re.compile("[a-z0-9._-]+")
KIND = re.compile("[rc]")
WORD = re.compile("[a-z]+")
# the operands of each operation, and whether an answer tells what a register held
OPERANDS = {"read": "n", "write": "nv", "swap": "nov", "remove": "n"}
ANSWERS = {"held": True, "written": False, "swapped": False, "kept": True, "full": False, "removed": True}


# An actor is a kind and a number, and traitors are numbers.
Shape = namedtuple("Shape", "n f m traitors")
Request = namedtuple("Request", "client number op")
Link = namedtuple("Link", "slot content before")
Signature = namedtuple("Signature", "signer statement")
Signed = namedtuple("Signed", "request signature")
Chain = namedtuple("Chain", "slot value signatures")
# The envelopes: those whose fields could be taken for those of another kind have their word too.
Empty = namedtuple("Empty", "word", defaults=["empty"])
Round = namedtuple("Round", "round chains")
Ask = namedtuple("Ask", "ask word", defaults=["ask"])
Reply = namedtuple("Reply", "number place answer")
Seen = namedtuple("Seen", "front word", defaults=["seen"])
Step = namedtuple("Step", "actor word other envelope")


class Bad(Exception):
    """The text is not in the grammar."""


def content_of(value):
    return tuple(signed.request for signed in value)


# ---- reading


class Reader:
    """The rest of a line that is being read."""

    def __init__(self, text):
        self.text, self.at = text, 0

    def found(self, pattern):
        """What the pattern takes here, as much as it can."""
        match = pattern.match(self.text, self.at)
        if not match:
            raise Bad
        self.at = match.end()
        return match[0]

    def has(self, mark):
        """Whether this mark stands here; it is passed then."""
        if not self.text.startswith(mark, self.at):
            return False
        self.at += len(mark)
        return True

    def need(self, mark):
        if not self.has(mark):
            raise Bad

    def end(self):
        if self.at != len(self.text):
            raise Bad

    def items(self, mark, item, most):
        """One or more items joined by the mark, and at most so many."""
        found = [item()]
        while self.has(mark):
            found.append(item())
        if len(found) > most:
            raise Bad
        return tuple(found)

    def items_or_dash(self, mark, item, most):
        return () if self.has("-") else self.items(mark, item, most)

    # ---- tokens

    def decimal(self, limit):
        digits = self.found(DECIMAL)
        if len(digits) > MOST_DIGITS or int(digits) >= limit:
            raise Bad
        return int(digits)

    def number(self):
        return self.decimal(NUMBERS)

    def positive(self):
        number = self.number()
        if number == 0:
            raise Bad
        return number

    def old(self):
        return "none" if self.has("none") else str(self.decimal(VALUES))

    def actor(self):
        kind = self.found(KIND)
        return kind, self.decimal(MOST_REPLICAS if kind == "r" else MOST_CLIENTS)

    def actor_of(self, kind):
        actor = self.actor()
        if actor[0] != kind:
            raise Bad
        return actor

    def name(self):
        name = self.found(NAME)
        if len(name) > 32:
            raise Bad
        return name

    def operation(self, separator):
        word = self.found(WORD)
        if word not in OPERANDS:
            raise Bad
        readers = {"n": self.name, "v": lambda: str(self.decimal(VALUES)), "o": self.old}
        parts = [word]
        for operand in OPERANDS[word]:
            self.need(separator)
            parts.append(readers[operand]())
        return tuple(parts)

    def answer(self):
        word = self.found(WORD)
        if word not in ANSWERS:
            raise Bad
        if not ANSWERS[word]:
            return word
        self.need(" ")
        return f"{word} {self.old()}"

    def request(self):
        client = self.actor_of("c")[1]
        self.need("#")
        number = self.positive()
        self.need(":")
        return Request(client, number, self.operation(":"))

    def content(self):
        return () if self.has("idle") else self.items(",", self.request, MOST_REQUESTS)

    def statement(self):
        if self.text.startswith("c", self.at):
            return self.request()
        slot = self.number()
        self.need("/")
        content = self.content()
        self.need("/")
        return Link(slot, content, self.items_or_dash("+", self.actor, MOST_SIGNATURES))

    def signature(self, fitting):
        """A signature at a place that this statement fits: the long form is for all other statements."""
        signer = self.actor()
        if not self.has("("):
            return Signature(signer, fitting)
        statement = self.statement()
        self.need(")")
        if statement == fitting:
            raise Bad
        return Signature(signer, statement)

    def signed(self):
        request = self.request()
        self.need("~")
        return Signed(request, self.signature(request))

    def value(self):
        return () if self.has("idle") else self.items(",", self.signed, MOST_REQUESTS)

    def chain(self):
        slot = self.number()
        self.need("/")
        value = self.value()
        self.need("/")
        before = []

        def next_signature():
            signature = self.signature(Link(slot, content_of(value), tuple(before)))
            before.append(signature.signer)
            return signature

        return Chain(slot, value, self.items_or_dash("+", next_signature, MOST_SIGNATURES))

    def chains(self):
        found = []
        while self.has(" "):
            found.append(self.chain())
        if len(found) > MOST_CHAINS:
            raise Bad
        return tuple(found)

    def envelope(self):
        word = self.found(WORD)
        if word == "empty":
            return Empty()
        self.need(" ")
        if word == "round":
            return Round(self.number(), self.chains())
        if word == "ask":
            return Ask(self.signed())
        if word == "seen":
            return Seen(self.number())
        if word != "reply":
            raise Bad
        number = self.positive()
        self.need(" ")
        place = self.number()
        self.need(" ")
        return Reply(number, place, self.answer())

    def shape(self):
        numbers = []
        for _ in range(3):
            numbers.append(self.number())
            self.need(" ")
        traitors = [number for _, number in self.items_or_dash("+", lambda: self.actor_of("r"), MOST_REPLICAS)]
        if any(later <= earlier for earlier, later in zip(traitors, traitors[1:])):
            raise Bad
        return Shape(*numbers, tuple(traitors))

    def step(self):
        actor = self.actor()
        self.need(" ")
        word = self.found(WORD)
        if word not in ("post", "take"):
            raise Bad
        self.need(" ")
        other = self.actor()
        self.need(" ")
        return Step(actor, word, other, self.envelope())


def all_of(reader, read):
    """What all that is left of a line spells; None if it spells nothing."""
    try:
        found = read(reader)
        reader.end()
    except Bad:
        return None
    return found


def whole(text, read):
    """What these bytes spell, all of them; None where they do not."""
    return all_of(Reader(text.decode("latin-1")), read)


@functools.lru_cache(maxsize=100_000)
def step_of(line):
    """The step that a line spells, without its line feed; None where it spells none."""
    return whole(line, Reader.step)


def is_allowed(shape):
    """Whether the shape is within the limits."""
    return (
        1 <= shape.n <= MOST_REPLICAS
        and shape.n >= 2 * shape.f + 1
        and 1 <= shape.m <= MOST_CLIENTS
        and all(traitor < shape.n for traitor in shape.traitors)
        and len(shape.traitors) <= shape.f
    )


def is_actor(shape, actor):
    kind, number = actor
    return number < (shape.n if kind == "r" else shape.m)


# ---- texts


def refused(text, output=b""):
    """What the program gives if it refuses a text, after this output."""
    return 1, output, f"dsr: {text}\n".encode()


def bad_line(number, output=b""):
    return refused(f"bad text in line {number}", output)


def begun(text, title):
    """The shape of a text with this title, its other lines, and what is left after the last one; or None and the refusal if it begins otherwise."""
    if len(text) > MOST_BYTES:
        return None, refused("reading failed")
    *lines, rest = text.split(b"\n")
    shape = whole(lines[0][len(title):], Reader.shape) if lines and lines[0].startswith(title) else None
    if shape is None:
        return None, bad_line(1)
    return ((shape, lines[1:], rest), None) if is_allowed(shape) else (None, refused("the shape is not allowed"))


# ---- version 1: no list of requests, nothing removed, in what is signed neither


def is_plain_content(requests):
    return len(requests) <= 1 and all(request.op[0] != "remove" for request in requests)


def is_plain_statement(statement):
    return is_plain_content((statement,) if isinstance(statement, Request) else statement.content)


def is_plain_value(value):
    return is_plain_content(content_of(value)) and all(is_plain_statement(signed.signature.statement) for signed in value)


def is_plain(envelope):
    if isinstance(envelope, Round):
        return all(
            is_plain_value(chain.value) and all(is_plain_statement(signature.statement) for signature in chain.signatures)
            for chain in envelope.chains
        )
    if isinstance(envelope, Ask):
        return is_plain_value((envelope.ask,))
    return not (isinstance(envelope, Reply) and envelope.answer.startswith("removed"))


# ---- writing


def actor_text(actor):
    return f"{actor[0]}{actor[1]}"


def request_text(request):
    return f"c{request.client}#{request.number}:{':'.join(request.op)}"


def content_text(content):
    return ",".join(map(request_text, content)) or "idle"


def signers_text(signers):
    return "+".join(map(actor_text, signers)) or "-"


def statement_text(statement):
    if isinstance(statement, Request):
        return request_text(statement)
    return f"{statement.slot}/{content_text(statement.content)}/{signers_text(statement.before)}"


def signature_text(signature, fitting):
    other = "" if signature.statement == fitting else f"({statement_text(signature.statement)})"
    return actor_text(signature.signer) + other


def signed_text(signed):
    return f"{request_text(signed.request)}~{signature_text(signed.signature, signed.request)}"


def chain_text(chain):
    content, signers = content_of(chain.value), [signature.signer for signature in chain.signatures]
    signatures = [signature_text(s, Link(chain.slot, content, tuple(signers[:i]))) for i, s in enumerate(chain.signatures)]
    return f"{chain.slot}/{','.join(map(signed_text, chain.value)) or 'idle'}/{'+'.join(signatures) or '-'}"


def envelope_text(envelope):
    if isinstance(envelope, Round):
        return " ".join([f"round {envelope.round}", *map(chain_text, envelope.chains)])
    if isinstance(envelope, Ask):
        return f"ask {signed_text(envelope.ask)}"
    if isinstance(envelope, Reply):
        return f"reply {envelope.number} {envelope.place} {envelope.answer}"
    return f"seen {envelope.front}" if isinstance(envelope, Seen) else "empty"


def step_text(step):
    return f"{actor_text(step.actor)} {step.word} {actor_text(step.other)} {envelope_text(step.envelope)}"


def shape_text(shape):
    return f"{shape.n} {shape.f} {shape.m} {'+'.join(f'r{traitor}' for traitor in shape.traitors) or '-'}"
