"""Keys, and what they sign: the keys of a shape, and the keys that somebody holds who drafts envelopes."""

from models.slow_check import carried
from models.transcript_text import NUMBERS, Link, Reader, Signature, actor_text, shape_text, signers_text

from models.calls import NotSaid, Refused, allowed_shape, need, signers, val, verb
from models.chains import long_signature
from models.shapes import actors_of
from models.tokens import long_signature as read_signature


class KeysOf:
    """The keys of a shape, and whose keys were taken."""

    OPERANDS = (allowed_shape,)

    def __init__(self, shape):
        self.shape_of, self.taken = shape, []

    @verb(Reader.actor)
    def take(self, actor):
        if actor not in actors_of(self.shape_of) or actor in self.taken:
            return None
        self.taken.append(actor)
        return actor_text(actor)

    @verb()
    def whole(self):
        return not self.taken

    @verb()
    def shape(self):
        return shape_text(self.shape_of)


@verb(Reader.actor, Reader.statement)
def sign(signer, statement):
    return long_signature(Signature(signer, statement))


@verb(val, Reader.content, signers)
def link_fits(slot, content, before):
    return slot < NUMBERS


def links_by(slot, content, actors):
    """Returns the signatures that these actors make in turn."""
    return [Signature(actor, Link(slot, content, tuple(actors[:place]))) for place, actor in enumerate(actors)]


@verb(Reader.number, Reader.content, signers)
def links(slot, content, actors):
    return " ".join(map(long_signature, links_by(slot, content, actors))) or None


def spaced_signatures(reader):
    """Reads the signatures at the end of a call, with a space between them."""
    found = []
    while reader.at < len(reader.text):
        if found:
            reader.need(" ")
        found.append(read_signature(reader))
    return found


@verb(Reader.number, Reader.content, spaced_signatures)
def are_links(slot, content, signatures):
    need(len(signatures) <= 16)
    actors = [signature.signer for signature in signatures]
    return signers_text(actors) if signatures == links_by(slot, content, actors) else None


def holders(reader):
    """Reads the actors whose keys are held."""
    return reader.items_or_dash("+", reader.actor, 48)


class Keys:
    """The holders of the keys, and all envelopes that were seen."""

    OPERANDS = (holders,)

    def __init__(self, actors):
        self.holders, self.envelopes = actors, []

    def forged_on(self, envelope):
        """Returns the signatures on the envelope that are by no holder and on no envelope that was seen."""
        known = [signature for seen in self.envelopes for signature in carried(seen)]
        return [signature for signature in carried(envelope) if signature.signer not in self.holders and signature not in known]

    @verb(Reader.envelope)
    def build(self, envelope):
        if self.forged_on(envelope):
            raise Refused(8)
        return "ok"

    @verb(Reader.envelope)
    def forged(self, envelope):
        """Answers with the forged signature. The documents do not say which if there are several."""
        found = set(self.forged_on(envelope))
        if len(found) > 1:
            raise NotSaid
        return long_signature(found.pop()) if found else None

    @verb(Reader.envelope)
    def learn(self, envelope):
        self.envelopes.append(envelope)
        return "ok"

    @verb()
    def room(self):
        return "ok"
