"""A loyal replica: its log, and what that says of its next post or take."""

from models import slow_check
from models.transcript_text import Ask, Reader, content_text, envelope_text, request_text

from models.calls import Logged, Refused, allowed_shape, client, need, optional, replica, verb


def chosen(reader):
    """Reads the clients of a choice."""
    return reader.items("+", lambda: reader.actor_of("c"), 8)


class Replica(Logged):
    """The log of a replica."""

    OPERANDS = (allowed_shape, replica)

    def round(self):
        return slow_check.rounds(self.shape, self.log)

    def next_envelope(self, to, clients):
        """Returns what the replica posts next to this replica; by choice it proposes the asks that it holds of these clients."""
        if slow_check.due(self.shape, self.log) != ("post", to[1]) or clients is not None and to != ("r", 0):
            raise Refused(5)
        if to != ("r", 0):
            return slow_check.posted_to(self.log, ("r", 0))[self.round()]
        value = tuple(slow_check.held(self.shape, self.log, asker) for _, asker in clients or ())
        if clients is not None and (None in value or not slow_check.may_propose(self.shape, self.me, self.log, value)):
            raise Refused(5)
        return slow_check.envelope_with(self.shape, self.me, self.log, value)

    @verb(replica, optional("from ", chosen))
    def refused(self, to, clients):
        try:
            self.next_envelope(to, clients)
        except Refused as refusal:
            return str(refusal)
        return None

    @verb(replica, optional("from ", chosen))
    def allows(self, to, clients):
        try:
            self.next_envelope(to, clients)
        except Refused:
            return False
        return True

    @verb(replica, optional("from ", chosen))
    def envelope(self, to, clients):
        return envelope_text(self.next_envelope(to, clients))

    @verb(replica, optional("from ", chosen))
    def post(self, to, clients):
        envelope = self.next_envelope(to, clients)
        self.add("post", to, envelope)
        return envelope_text(envelope)

    @verb()
    def due(self):
        word, number = slow_check.due(self.shape, self.log)
        return f"{word} r{number}"

    def slots_in_flight(self):
        return range(max(0, self.round() - self.shape.f), self.round() + 1)

    @verb()
    def in_flight(self):
        return " ".join(map(str, self.slots_in_flight()))

    def may_take(self, other):
        if other[0] == "c":
            return slow_check.is_actor(self.shape, other)
        return slow_check.due(self.shape, self.log) == ("take", other[1])

    @verb(Reader.actor, Reader.envelope)
    def taken(self, other, envelope):
        need(self.may_take(other))
        self.add("take", other, envelope)
        return "ok"

    def kept(self, slots):
        """Returns what is kept of each of these slots."""
        return [slow_check.slot_kept(self.shape, self.log, slot, self.shape.f + 1) for slot in slots]

    @verb(replica, Reader.envelope)
    def passed_over(self, other, envelope):
        """Takes an envelope if nothing of it is kept, and answers whether it does."""
        need(self.may_take(other))
        slots = self.slots_in_flight()
        before = self.kept(slots)
        self.add("take", other, envelope)
        if self.kept(slots) == before:
            return True
        self.log.pop()
        return False

    @verb(client, Reader.signed)
    def ask(self, asker, signed):
        need(self.may_take(asker))
        self.add("take", asker, Ask(signed))
        return "ok"

    @verb(client)
    def held(self, asker):
        held = slow_check.held(self.shape, self.log, asker[1])
        return held and request_text(held.request)

    @verb(client)
    def reply(self, asker):
        """Posts the reply to this client, if there is one."""
        need(slow_check.is_actor(self.shape, asker))
        reply = slow_check.reply_to(self.shape, self.log, asker[1])
        if reply is None:
            return None
        self.add("post", asker, reply)
        return envelope_text(reply)

    @verb()
    def decided(self):
        return " ".join(map(content_text, slow_check.decided(self.shape, self.log))) or None

    @verb()
    def history(self):
        return " ".join(request for request, _ in slow_check.acted(slow_check.decided(self.shape, self.log))) or None

    @verb()
    def entries(self):
        return len(self.log)
