"""The votes of replicas for the replies to one request."""

from models.slow_check import winner
from models.transcript_text import MOST_REPLICAS, Reader, Reply, Shape

from models.calls import need, replica, val, verb


def reply(reader):
    """Reads a reply: a number, a place and an answer. Both numbers may be past the limits of envelopes."""
    number = val(reader)
    reader.need(" ")
    place = val(reader)
    reader.need(" ")
    return Reply(number, place, reader.answer())


def reply_text(given):
    return given and f"{given.number} {given.place} {given.answer}"


class Tally:
    """All replies that were noted, each with the replica that gave it, in their order."""

    OPERANDS = (Reader.number, Reader.number)

    def __init__(self, f, n):
        need(n <= MOST_REPLICAS)
        self.f, self.n, self.notes = f, n, []

    def votes_so_far(self):
        """Returns of each replica that gave a reply its first one."""
        return {giver: next(given for other, given in self.notes if other == giver) for giver, _ in self.notes}

    @verb(replica, reply)
    def note(self, giver, given):
        need(giver[1] < self.n)
        self.notes.append((giver[1], given))
        return "ok"

    @verb()
    def winner(self):
        return reply_text(winner(Shape(self.n, self.f, 1, ()), self.notes))

    @verb(reply)
    def votes(self, given):
        return list(self.votes_so_far().values()).count(given)

    @verb(replica)
    def vote_of(self, giver):
        return reply_text(self.votes_so_far().get(giver[1]))

    @verb()
    def clear(self):
        self.notes = []
        return "ok"
