"""Chains: which fault a check finds first, and how chains begin and grow."""

from models.slow_check import extended, is_asked, is_proper, sender_of
from models.transcript_text import (
    MOST_SIGNATURES, Chain, Link, Reader, Round, actor_text, content_of, content_text, envelope_text, signed_text, signers_text,
    statement_text,
)

from models.calls import allowed_shape, need, val, verb


def signers_of(chain):
    return [signature.signer for signature in chain.signatures]


def is_of_other_slot(shape, slot, count, chain):
    return chain.slot != slot


def has_wrong_count(shape, slot, count, chain):
    return len(chain.signatures) != count


def has_wrong_sender(shape, slot, count, chain):
    return signers_of(chain)[:1] != [sender_of(shape, slot)]


def has_no_replica(shape, slot, count, chain):
    replicas = [("r", number) for number in range(shape.n)]
    return any(signer not in replicas for signer in signers_of(chain))


def is_signed_twice(shape, slot, count, chain):
    return any(signers_of(chain).count(signer) > 1 for signer in signers_of(chain))


def is_misfit(shape, slot, count, chain):
    before = signers_of(chain)
    return any(
        signature.statement != Link(slot, content_of(chain.value), tuple(before[:place]))
        for place, signature in enumerate(chain.signatures)
    )


def has_bad_request(shape, slot, count, chain):
    return any(not is_asked(shape, signed) for signed in chain.value)


FAULTS = {
    "other-slot": is_of_other_slot,
    "wrong-count": has_wrong_count,
    "wrong-sender": has_wrong_sender,
    "no-replica": has_no_replica,
    "signed-twice": is_signed_twice,
    "misfit": is_misfit,
    "bad-request": has_bad_request,
}


def fault_of(shape, slot, count, chain):
    """Returns the first fault of the chain in this round of the slot, or None if it is proper."""
    fault = next((name for name, holds in FAULTS.items() if holds(shape, slot, count, chain)), None)
    assert (fault is None) == is_proper(shape, slot, count, chain)
    return fault


def value_text(value):
    return ",".join(map(signed_text, value)) or "idle"


def parts_text(chain):
    """Writes the parts of a chain; of one whose slot is past the limits too."""
    value, content, signers = value_text(chain.value), content_text(content_of(chain.value)), signers_of(chain)
    count = len(chain.value)
    return f"slot {chain.slot} value {value} content {content} requests {count} signers {signers_text(signers)} count {len(signers)}"


def long_signature(signature):
    """Writes a signature with its statement, whether that fits its place or not."""
    return f"{actor_text(signature.signer)}({statement_text(signature.statement)})"


@verb(allowed_shape, val, val, Reader.chain)
def check(shape, slot, count, chain):
    need(1 <= count <= shape.f + 1)
    return fault_of(shape, slot, count, chain) or "ok"


@verb(allowed_shape, Reader.signed)
def asked(shape, signed):
    return is_asked(shape, signed)


@verb(Reader.chain)
def parts(chain):
    return parts_text(chain)


@verb(val, Reader.chain)
def signature(place, chain):
    need(place < len(chain.signatures))
    return long_signature(chain.signatures[place])


@verb(Reader.actor, Reader.chain)
def has_signer(actor, chain):
    return actor in signers_of(chain)


@verb(Reader.chain)
def has_misfit(chain):
    return is_misfit(None, chain.slot, None, chain)


@verb(Reader.actor, val, Reader.value)
def start(signer, slot, value):
    return parts_text(extended(Chain(slot, value, ()), signer))


@verb(Reader.actor, Reader.chain)
def extend(signer, chain):
    need(len(chain.signatures) < MOST_SIGNATURES)
    return envelope_text(Round(0, (extended(chain, signer),)))
