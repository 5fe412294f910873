"""Shapes and their actors, requests and refusals."""

from models import slow_texts
from models.slow_check import is_traitor, sender_of
from models.transcript_text import (
    MOST_CLIENTS, MOST_REPLICAS, NUMBERS, Reader, Request, Shape, actor_text, all_of, is_actor, is_allowed, request_text, shape_text,
)

from models.calls import REFUSALS, NotSaid, Refused, allowed_shape, client, need, rest, spaced_operation, val, verb, word

TEXTS = {
    "BadShape": "the shape is not allowed",
    "BadName": "not a register name",
    "BadNumber": "number out of range",
    "Busy": "a request is outstanding",
    "NotDue": "not due",
    "BoxFull": "the box is full",
    "BoxEmpty": "the box is empty",
    "Forged": "a signature is forged",
    "Exhausted": "a counter is exhausted",
    "Stopped": "stopped by the gate",
    "Unanswered": "no answer within the turns",
    "NoMemory": "no memory",
    "BadText": "bad text in line {}",
    "NotARun": "not a run at line {}",
    "NoActor": "no such actor",
    "WrongRole": "not that actor's part",
    "ReadFailed": "reading failed",
    "WriteFailed": "writing failed",
    "NoThread": "no thread",
}


def actors_of(shape):
    """Returns all actors of the shape: replicas first, then clients."""
    return [("r", number) for number in range(shape.n)] + [("c", number) for number in range(shape.m)]


@verb(val, val, val, val)
def shape_of(n, f, m, bits):
    """Takes the traitors as bits: bit i is replica i."""
    shape = Shape(n, f, m, tuple(number for number in range(64) if bits >> number & 1))
    if not is_allowed(shape):
        raise Refused(1)
    return shape_text(shape)


@verb(allowed_shape)
def shape_parts(shape):
    return f"n {shape.n} f {shape.f} m {shape.m} traitors {sum(2**traitor for traitor in shape.traitors)}"


def actor_of(kind, number, most):
    if number >= most:
        raise Refused(15)
    return f"{kind}{number}"


@verb(val)
def replica_of(number):
    return actor_of("r", number, MOST_REPLICAS)


@verb(val)
def client_of(number):
    return actor_of("c", number, MOST_CLIENTS)


@verb(allowed_shape, Reader.actor)
def has(shape, actor):
    return actor in actors_of(shape)


@verb(allowed_shape, Reader.actor)
def is_loyal(shape, actor):
    return is_actor(shape, actor) and not is_traitor(shape, actor)


@verb(allowed_shape, val)
def sender(shape, slot):
    return actor_text(sender_of(shape, slot))


@verb(allowed_shape)
def size(shape):
    return len(actors_of(shape))


@verb(allowed_shape, Reader.actor)
def place(shape, actor):
    if actor not in actors_of(shape):
        raise NotSaid
    return actors_of(shape).index(actor)


@verb(allowed_shape, val)
def actor_at(shape, at):
    need(at < len(actors_of(shape)))
    return actor_text(actors_of(shape)[at])


@verb(client, val, spaced_operation)
def request(asker, number, operation):
    if not 1 <= number < NUMBERS:
        raise Refused(3)
    return request_text(Request(asker[1], number, operation))


@verb(Reader.request)
def request_parts(found):
    return f"c{found.client} {found.number} {' '.join(found.op)} on {found.op[1]}"


@verb(rest)
def request_line(text):
    found = all_of(Reader(text), slow_texts.request_line)
    return found and f"{found[0]}#{found[1]}:{':'.join(found[2])}"


def told(name, line):
    """Returns the text of the refusal with this name; some of them name a line."""
    return TEXTS[name].format(line)


def line_number(reader):
    """Reads the line that a refusal names, if it names one."""
    return rest(reader) or None


@verb(word, line_number)
def refusal(name, line):
    number = next(number for number, other in REFUSALS.items() if other == name)
    return f"{number} {told(name, line)}"


@verb(word, line_number)
def tell(name, line):
    return f"dsr: {told(name, line)} |"
