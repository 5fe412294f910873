"""The registers, and the history of requests that acted."""

import itertools

from models import histories
from models.transcript_text import Reader, Reply, Request, actor_text, content_text

from models.calls import NotSaid, client, need, spaced_operation, val, verb
from models.tokens import requests
from models.votes import reply, reply_text


def replayed(operations):
    """Returns the answers to these operations in turn, and what the registers hold after them."""
    registers = {}
    answers = [histories.answered(registers, operation) for operation in operations]
    return answers, registers


class Directory:
    """All operations that were applied, in their order."""

    OPERANDS = ()

    def __init__(self):
        self.operations = []

    def answers_to(self, operations):
        """Applies these operations, and returns the answers to them."""
        before = len(self.operations)
        self.operations = [*self.operations, *operations]
        return replayed(self.operations)[0][before:]

    def registers(self):
        return replayed(self.operations)[1]

    @verb(spaced_operation)
    def apply(self, operation):
        return self.answers_to([operation])[0]

    @verb(Reader.name)
    def get(self, name):
        return self.registers().get(name, "none")

    @verb()
    def len(self):
        return len(self.registers())

    @verb()
    def is_empty(self):
        return not self.registers()

    @verb()
    def clear(self):
        self.operations = []
        return "ok"

    @verb(Reader.number, Reader.number, val)
    def write_each(self, first, end, value):
        operations = [("write", f"k{number}", str(value)) for number in range(first, end)]
        return self.answers_to(operations).count("written")

    @verb(Reader.number, Reader.number)
    def remove_each(self, first, end):
        answers = self.answers_to([("remove", f"k{number}") for number in range(first, end)])
        return len(answers) - answers.count("removed none")


class Machine:
    """The contents of all values that were accepted, in their order."""

    OPERANDS = (Reader.number,)

    def __init__(self, clients):
        self.clients, self.contents, self.is_roomy = clients, [], False

    def acted(self):
        """Returns the requests that act, each with its answer, as texts."""
        return histories.acted(map(content_text, self.contents))

    @verb(Reader.content)
    def accept(self, content):
        need(all(request.client < self.clients for request in content))
        before = len(self.acted())
        self.contents.append(content)
        self.is_roomy = False
        return len(self.acted()) - before

    @verb(client)
    def kept(self, asker):
        """Answers with the reply to the client's last request that acted."""
        replies = [
            f"{histories.parts(request)[1]} {place} {answer}"
            for place, (request, answer) in enumerate(self.acted())
            if histories.parts(request)[0] == actor_text(asker)
        ]
        return replies[-1] if replies else None

    @verb(Reader.number)
    def answer_at(self, place):
        answers = [answer for _, answer in self.acted()]
        return answers[place] if place < len(answers) else None

    @verb(Reader.name)
    def get(self, name):
        return replayed(histories.parts(request)[2] for request, _ in self.acted())[1].get(name, "none")

    @verb()
    def history(self):
        return " ".join(request for request, _ in self.acted()) or None

    @verb()
    def room(self):
        self.is_roomy = True
        return "ok"

    @verb()
    def has_room(self):
        """Answers right after room was made. The documents do not say when else there is room."""
        if not self.is_roomy:
            raise NotSaid
        return True


def client_replies(reader):
    """Reads replies, each after its client, with a spaced bar between them; a dash if there are none."""
    def client_reply():
        asker = client(reader)
        reader.need(" ")
        return asker, reply(reader)

    return () if reader.has("-") else reader.items(" | ", client_reply, len(reader.text))


class Ledger:
    """The replies that were noted, in their order, each with its client."""

    OPERANDS = (Reader.number,)

    def __init__(self, clients):
        self.clients, self.notes = clients, []

    def last_of(self, asker):
        return next((given for other, given in reversed(self.notes) if other == asker), None)

    def would_act(self, asker, number):
        return number > max((given.number for other, given in self.notes if other == asker), default=0)

    @verb(client, val)
    def acts(self, asker, number):
        need(asker[1] < self.clients)
        return self.would_act(asker, number)

    @verb(client, reply)
    def note(self, asker, given):
        need(asker[1] < self.clients and self.would_act(asker, given.number))
        self.notes.append((asker, given))
        return "ok"

    @verb(client)
    def kept(self, asker):
        return reply_text(self.last_of(asker))


class Judged:
    """The requests of a history, by which replies are judged."""

    OPERANDS = ()

    def __init__(self):
        self.requests = []

    def with_more(self, more):
        self.requests += more
        return len(self.requests)

    @verb(requests)
    def acts(self, more):
        return self.with_more(more)

    @verb(client, Reader.number, Reader.number, val)
    def write_each(self, asker, first, end, value):
        """Adds requests of the client, numbered from 1 on."""
        names = [f"k{register}" for register in range(first, end)]
        return self.with_more([Request(asker[1], number, ("write", name, str(value))) for number, name in enumerate(names, 1)])

    def is_legal(self):
        """Returns whether the numbers of each client rise strictly."""
        return all(
            earlier.client != later.client or earlier.number < later.number for earlier, later in itertools.combinations(self.requests, 2)
        )

    @verb(client_replies)
    def right(self, replies):
        """Answers no if the history is not legal, whatever the replies are."""
        answers, _ = replayed(request.op for request in self.requests)
        right = [
            (("c", request.client), Reply(request.number, place, answer))
            for place, (request, answer) in enumerate(zip(self.requests, answers))
        ]
        return self.is_legal() and all(given in right for given in replies)
