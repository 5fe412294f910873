"""Eager replicas, and after how many closed rounds what one of them holds has acted: definitions written anew, over the lines of a transcript.

A client waits at a replica if the request held of it has a greater number than its last one that acted there. A loyal replica is eager if it begins each slot
of its own with the requests of the first 8 clients that wait, in turn after the client that it proposed last; idle if none waits. A request is held since
round t if a loyal replica held it when it had closed t rounds, and was eager from then on. It must have acted at each loyal replica that has closed
t + `rounds_to_act` rounds, however many of the others are eager.
"""

from models import histories, slow_check
from models.slow_play import Replica, parts_of

MOST_PROPOSED = 8


def rounds_to_act(shape):
    """Returns the bound: n rounds for each 8 clients, and the f+1 rounds of the last slot."""
    return shape.n * -(-shape.m // MOST_PROPOSED) + shape.f + 1


def waits(replica, client):
    ask = replica.asks.get(client)
    return ask is not None and histories.parts(ask)[1] > replica.numbers.get(client, 0)


def next_clients(replica, last):
    """Returns the clients that this replica proposes next if it is eager, and proposed this one last."""
    first = 0 if last is None else int(last[1:]) + 1
    ring = [f"c{(first + step) % replica.shape.m}" for step in range(replica.shape.m)]
    return [client for client in ring if waits(replica, client)][:MOST_PROPOSED]


def last_proposed(replica, envelope, before):
    """Returns the client that the replica proposed last if it posts this envelope, in a round in which a slot of its own begins."""
    own = [parts_of(chain) for chain in envelope.split(" ")[2:]]
    clients = [signed.split("#")[0] for slot, value, _ in own if slot == replica.round for signed in value]
    return clients[-1] if clients else before


class Host:
    """A loyal replica, as its lines of the transcript so far show it."""

    def __init__(self, shape, me):
        self.replica, self.last, self.lazy = Replica(shape, me), None, []
        # Since which round it holds each request, and has been eager.
        self.since = {}

    def held(self):
        return [ask.split("~")[0] for ask in self.replica.asks.values()]

    def posted(self, other, envelope):
        replica = self.replica
        if replica.due() == ("post", "r0") == ("post", other) and replica.round % replica.shape.n == int(replica.me[1:]):
            clients = next_clients(replica, self.last)
            if envelope != replica.envelope_by(("from", clients) if clients else None):
                self.lazy.append(f"{replica.me} did not begin slot {replica.round} with what was next, {'+'.join(clients) or 'idle'}")
                self.since = {request: replica.round for request in self.held()}
            self.last = last_proposed(replica, envelope, self.last)
        replica.posted(other, envelope)

    def taken(self, other, envelope):
        self.replica.taken(other, envelope)
        for request in self.held():
            self.since.setdefault(request, self.replica.round)


class Rounds:
    """The count of rounds in a transcript: the greatest from held to acted, what is over the bound, and who was not eager."""

    def __init__(self, shape, bound):
        self.bound, self.greatest, self.faults = bound, 0, []
        self.hosts = {f"r{p}": Host(shape, f"r{p}") for p in range(shape.n) if p not in shape.traitors}

    def follow(self, line):
        actor, word, other, envelope = line.split(" ", 3)
        host = self.hosts.get(actor)
        if host and word == "post":
            host.posted(other, envelope)
        elif host:
            rounds, count = host.replica.round, len(host.replica.acted)
            host.taken(other, envelope)
            if host.replica.round > rounds:
                self.closed(host.replica, host.replica.acted[count:])

    def since(self):
        """Returns since which round each request is held."""
        found = {}
        for host in self.hosts.values():
            for request, t in host.since.items():
                found[request] = min(t, found.get(request, t))
        return found

    def closed(self, replica, acted):
        """The replica has closed a round, and these requests have acted there with it."""
        for request, t in self.since().items():
            count = replica.round - t
            if request in acted:
                self.greatest = max(self.greatest, count)
            elif request not in replica.acted and count >= self.bound:
                self.faults.append(f"{request} is held since {t} rounds were closed, and {replica.me} has closed {replica.round}")

    def fault(self):
        """Returns what has not acted in time, or None."""
        if self.greatest > self.bound:
            return f"a request has acted after {self.greatest} rounds, and not within {self.bound}"
        return next(iter(self.faults), None)

    def fault_of_eagerness(self):
        """Returns which loyal replica was not eager, or None."""
        return next((fault for host in self.hosts.values() for fault in host.lazy), None)


def counted(transcript, less=0):
    """Returns the rounds that are counted in a transcript, beside the bound or one that is less."""
    header, *lines = transcript.decode().split("\n")[:-1]
    _, shape = slow_check.header_of(header.encode())
    rounds = Rounds(shape, rounds_to_act(shape) - less)
    for line in lines:
        rounds.follow(line)
    return rounds
