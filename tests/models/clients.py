"""A loyal client: its log, and what that says of its requests, its votes and its front."""

from models import slow_check
from models.slow_check import state_after
from models.transcript_text import NUMBERS, Ask, Reader, Request, Seen, Signature, Signed, envelope_text

from models.calls import Logged, Refused, allowed_shape, client, need, replica, spaced_operation, val, verb
from models.votes import reply, reply_text


class Client(Logged):
    """The log of a client."""

    OPERANDS = (allowed_shape, client)

    def outstanding_ask(self):
        return state_after(self.shape, self.log).outstanding

    def new_ask(self, operation):
        """Returns the next request, signed. Its number is one more than the count of accepted replies."""
        request = Request(self.me[1], len(self.replies()) + 1, operation)
        return Ask(Signed(request, Signature(self.me, request)))

    @verb(spaced_operation)
    def first_ask(self, operation):
        return envelope_text(self.new_ask(operation)) if self.outstanding_ask() is None else None

    @verb(spaced_operation)
    def begin(self, operation):
        """Posts the request to r0: it is outstanding from its first post on, whichever replica gets that."""
        if self.outstanding_ask() is not None:
            raise Refused(4)
        self.add("post", ("r", 0), self.new_ask(operation))
        return self.outstanding_ask().request.number

    @verb()
    def outstanding(self):
        ask = self.outstanding_ask()
        return ask and ask.request.number

    @verb(replica)
    def ask_for(self, other):
        ask = self.outstanding_ask()
        return ask and envelope_text(Ask(ask))

    def replies(self):
        return slow_check.accepted(self.shape, self.log)

    @verb(Reader.actor, Reader.envelope)
    def taken(self, other, envelope):
        need(other != self.me and slow_check.is_actor(self.shape, other))
        before = len(self.replies())
        self.add("take", other, envelope)
        return reply_text(self.replies()[-1]) if len(self.replies()) > before else None

    @verb(reply)
    def votes(self, given):
        """Answers how many replicas gave this reply first, of the replies to the outstanding request."""
        firsts = dict(reversed(state_after(self.shape, self.log).notes))
        return list(firsts.values()).count(given)

    @verb(val)
    def told(self, front):
        """Takes a front from another client; it does not matter which."""
        need(front < NUMBERS)
        self.add("take", ("c", self.me[1] + 1), Seen(front))
        return "ok"

    @verb()
    def seen(self):
        return slow_check.seen(self.shape, self.log)
