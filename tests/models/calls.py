"""What all groups share: how the operands of a call are read, which methods answer calls, and how an answer is written."""

import functools

from models.transcript_text import MOST_SIGNATURES, VALUES, Reader, Step, is_actor, is_allowed

REFUSALS = {
    1: "BadShape", 2: "BadName", 3: "BadNumber", 4: "Busy", 5: "NotDue", 6: "BoxFull", 7: "BoxEmpty", 8: "Forged", 9: "Exhausted",
    10: "Stopped", 11: "Unanswered", 12: "NoMemory", 13: "BadText", 14: "NotARun", 15: "NoActor", 16: "WrongRole", 17: "ReadFailed",
    18: "WriteFailed", 19: "NoThread",
}


class Refused(Exception):
    """The call is refused: with this number, and for a bad text with this line."""

    def __str__(self):
        number, *line = self.args
        return " ".join([f"E{number}", REFUSALS[number], *map(str, line)])


class NoCall(Exception):
    """The contract forbids the call."""


class NotSaid(Exception):
    """The documents do not say what the answer is."""


def need(is_so):
    """Raises `NoCall` unless what the contract requires is so."""
    if not is_so:
        raise NoCall


class Logged:
    """A loyal actor of a shape, and its log."""

    def __init__(self, shape, me):
        need(is_actor(shape, me))
        self.shape, self.me, self.log = shape, me, []

    def add(self, word, other, envelope):
        self.log.append(Step(self.me, word, other, envelope))


def allowed_shape(reader):
    """Reads a shape, and refuses one outside the limits."""
    shape = reader.shape()
    if not is_allowed(shape):
        raise Refused(1)
    return shape


def replica(reader):
    return reader.actor_of("r")


def client(reader):
    return reader.actor_of("c")


def val(reader):
    """Reads a number below 2^64."""
    return reader.decimal(VALUES)


def joined_operation(reader):
    return reader.operation(":")


def spaced_operation(reader):
    return reader.operation(" ")


def word(reader):
    """Reads all up to the next space."""
    found, _, _ = reader.text[reader.at:].partition(" ")
    reader.at += len(found)
    return found


def rest(reader):
    """Reads all that is left, whatever it is."""
    found = reader.text[reader.at:]
    reader.at = len(reader.text)
    return found


def signers(reader):
    return reader.items_or_dash("+", reader.actor, MOST_SIGNATURES)


def optional(word, read):
    """Returns a reader of what may follow the word at the end of a call; it gives None if nothing does."""
    return lambda reader: read(reader) if reader.has(word) else None


def operands(text, reads):
    """Returns the operands of a call. One space precedes each but the first; those at the end may be missing if they are optional."""
    reader = Reader(text)
    found = []
    for place, read in enumerate(reads):
        if place and reader.at < len(text):
            reader.need(" ")
        found.append(read(reader))
    reader.end()
    return found


def verb(*reads):
    """Marks a function or a method that answers the calls of its name, and says which operands they have."""
    def marked(function):
        @functools.wraps(function)
        def answer(*arguments):
            *owner, text = arguments
            return function(*owner, *operands(text, reads))
        answer.is_verb = True
        return answer
    return marked


def answer_text(found):
    """Writes an answer: `-` for nothing, `yes` or `no` for a test, and all else as it is."""
    if found is None:
        return "-"
    if isinstance(found, bool):
        return "yes" if found else "no"
    return str(found)
