"""Which texts are tokens, and of which kind; whether two tokens are of the same value."""

from models.slow_texts import request_line
from models.transcript_text import MOST_REQUESTS, Bad, Reader, Signature, all_of, content_of, is_allowed, is_plain

from models.calls import Refused, client, joined_operation, replica, rest, signers, spaced_operation, val, verb, word


def requests(reader):
    return reader.items(",", reader.request, MOST_REQUESTS)


# A kind of token, and who reads it.
KINDS = {
    "num": Reader.number,
    "val": val,
    "old": Reader.old,
    "replica": replica,
    "client": client,
    "actor": Reader.actor,
    "shape": Reader.shape,
    "name": Reader.name,
    "op": spaced_operation,
    "joined-op": joined_operation,
    "answer": Reader.answer,
    "signers": signers,
    "request": Reader.request,
    "request-line": request_line,
    "requests": requests,
    "content": Reader.content,
    "statement": Reader.statement,
    "signed-request": Reader.signed,
    "chain": Reader.chain,
    "envelope": Reader.envelope,
}


def kind_of(kinds):
    """Returns a reader of the word of one of these kinds; it gives who reads such tokens."""
    def read(reader):
        found = kinds.get(word(reader))
        if found is None:
            raise Bad
        return found
    return read


@verb(kind_of(KINDS), rest)
def token(read, text):
    found = all_of(Reader(text), read)
    if found is None and read is Reader.name:
        raise Refused(2)
    if found is not None and read is Reader.shape and not is_allowed(found):
        raise Refused(1)
    return "no" if found is None else "ok"


def long_signature(reader):
    """Reads a signature with its statement in parentheses."""
    signer = reader.actor()
    reader.need("(")
    statement = reader.statement()
    reader.need(")")
    return Signature(signer, statement)


# A kind of value, and who reads what two of them are compared by: of two chains, their contents may be.
COMPARED = {
    "name": Reader.name,
    "requests": requests,
    "statement": Reader.statement,
    "signature": long_signature,
    "signed-request": Reader.signed,
    "value": Reader.value,
    "chain": Reader.chain,
    "content": lambda reader: content_of(reader.chain().value),
    "envelope": Reader.envelope,
    "draft": Reader.envelope,
}


@verb(kind_of(COMPARED), rest)
def same(read, text):
    one, bar, other = text.partition(" | ")
    found = [all_of(Reader(side), read) for side in (one, other)]
    if not bar or None in found:
        raise Bad
    return found[0] == found[1]


@verb(Reader.envelope)
def plain(envelope):
    return is_plain(envelope)


def is_limited(kind, parts):
    """Returns whether an envelope of this kind and of these parts is within the limits: whether it has a text."""
    if kind == "round":
        number, slot, count = parts.split(" ")
        parts = " ".join([number, *[f"{slot}/idle/r0"] * int(count)])
    return all_of(Reader(f"{kind} {parts}"), Reader.envelope) is not None


@verb(word, rest)
def fits(kind, parts):
    return is_limited(kind, parts)
