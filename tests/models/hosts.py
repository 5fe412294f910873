"""Hosts, and the service in threads that they make: definitions written anew, from docs/THREADS.md and docs/PROTOCOL.md, with the numbers of rounds, turns and
rests that the crates name.

A host is a generator. It stops where it asks its gate, and goes on with the gate's answer; and it stops where it sleeps at a box, and goes on once the box
is full or empty, as it needs it, or somebody wakes all. So whoever answers the gates says in which order the hosts make their tries, one at a time, and all else follows: who
asks next and with which turn, who sleeps where, what each log has, and how each host ends. Envelopes are their texts, and the conduct of loyal replicas and
clients is that of slow_play.py.
"""

from collections import Counter

from models.eager import next_clients
from models.slow_play import Client, Replica, signatures_in

# How many rounds the host of a replica or a traitor makes, and how many turns a call of a client has.
ROUNDS, TURNS = 4096, 1000
# How often a replica lets others run before a round for which it finds nothing posted, if it has answered all clients, and if not.
IDLE_YIELDS, BUSY_YIELDS = 1, 4
# How a host ends before its work is done.
TOLD, STOPPED, UNANSWERED = "told to stop", "stopped", "unanswered"


class Ended(Exception):
    """The host ends before its work is done, in this way."""


class Mail:
    """The boxes, and the log of each actor: the lines of a transcript without the actor."""

    def __init__(self, actors):
        self.boxes, self.logs = {}, {actor: [] for actor in actors}

    def post(self, me, to, envelope):
        """Posts, and returns whether it did: not if the box is full."""
        if (me, to) in self.boxes:
            return False
        self.boxes[me, to] = envelope
        self.logs[me].append(f"post {to} {envelope}")
        return True

    def take(self, me, other):
        """Takes, and returns the envelope; None if the box is empty."""
        envelope = self.boxes.pop((other, me), None)
        if envelope is not None:
            self.logs[me].append(f"take {other} {envelope}")
        return envelope


class Caller:
    """A client's seat, and its calls."""

    def __init__(self, shape, mail, me):
        self.shape, self.mail, self.me = shape, mail, me
        self.machine, self.asked = Client(shape, me), set()
        # How often a call went from the last replica on to the first one.
        self.laps = 0

    def call(self, operation, turns):
        """Makes a call with so many turns: goes on with the outstanding request, or begins one for the operation. Returns whether a reply was accepted. If it
        has gone past all replicas and nothing has come of it, nothing comes of what is left either, since all others wait."""
        left, q, moves = turns, 0, 0
        while left > 0:
            left, moved, is_accepted = self.visit(f"r{q}", operation, left)
            if is_accepted:
                return True
            moves += moved
            q = (q + 1) % self.shape.n
            if q == 0:
                self.laps += 1
                if not moves:
                    self.laps += self.laps_of(left)
                    return False
                moves = 0
        return False

    def laps_of(self, left):
        """Returns how often the turns that are left go past all replicas, if every box stays as it is: a turn at each replica, and one more where it is not
        asked, since its box is full. The last turn may be the first one of two at the last replica."""
        cost = 2 * self.shape.n - len(self.asked)
        return left // cost + (left % cost == cost - 1 and f"r{self.shape.n - 1}" not in self.asked)

    def visit(self, replica, operation, left):
        """Asks the replica, unless it was asked, and takes from it, if a turn is left. Returns the turns that are left, whether something was posted or taken,
        and whether a reply was accepted."""
        moved, before = False, len(self.machine.accepted)
        if replica not in self.asked:
            left -= 1
            moved = self.ask(replica, operation)
        if left > 0:
            left -= 1
            envelope = self.mail.take(self.me, replica)
            if envelope is not None:
                moved = True
                self.machine.taken(replica, envelope)
        is_accepted = len(self.machine.accepted) > before
        if is_accepted:
            self.asked = set()
        return left, moved, is_accepted

    def ask(self, replica, operation):
        """Posts the outstanding request, or a new one; returns whether it did."""
        choice = ("begin", operation) if self.machine.ask is None else None
        envelope = self.machine.envelope_for(replica, choice)
        if not self.mail.post(self.me, replica, envelope):
            return False
        self.machine.posted(replica, envelope)
        self.asked.add(replica)
        return True


class Service:
    """A service: its mail, its hosts, and where each of them is."""

    def __init__(self, shape, operations, drafts):
        """`operations` has for each client the operations of the script, `drafts` for each traitor, round and actor the envelope."""
        self.shape, self.operations, self.drafts = shape, operations, drafts
        self.replicas = [f"r{p}" for p in range(shape.n)]
        self.clients = [f"c{c}" for c in range(shape.m)]
        self.actors = self.replicas + self.clients
        self.traitors = {f"r{p}" for p in shape.traitors}
        self.mail = Mail(self.actors)
        self.callers = {client: Caller(shape, self.mail, client) for client in self.clients}
        # Where each host is: at its gate with a turn, asleep at a box until it is full or empty, or ended.
        self.asks, self.sleeps, self.ends = {}, {}, {}
        # Which hosts came to their gates since somebody looked, and the box at which the next try of each waits.
        self.came, self.waits_at = [], {}
        # How often hosts slept, and of which kind who slept was when woken by what: a post, a take, or a host of a kind that wakes all.
        self.slept, self.woken = 0, Counter()
        self.turns = dict.fromkeys(self.actors, 0)
        # Whether all were told to stop, and who told them first and wakes them.
        self.is_told, self.waker = False, None
        # How many clients are not served, how many replicas and traitors have ended, and how often replicas have rested.
        self.unserved, self.over, self.rests = shape.m, 0, 0
        self.hosts = {actor: self.host(actor) for actor in self.actors}
        for actor in self.actors:
            self.go_on(actor, None)

    # ---- where the hosts are

    def let(self, actor, answer):
        """The gate answers the actor, which waits there. Then each host is at its gate again, asleep, or ended."""
        del self.asks[actor]
        self.go_on(actor, answer)

    def go_on(self, actor, value):
        ready = [(actor, value)]
        while ready:
            actor, value = ready.pop()
            try:
                what, more = self.hosts[actor].send(value)
            except StopIteration as end:
                self.leave(actor, end.value)
            else:
                self.put(actor, what, more)
            for other, (box, is_full) in list(self.sleeps.items()):
                has_changed = (box in self.mail.boxes) == is_full
                if has_changed or self.is_waking():
                    del self.sleeps[other]
                    ready.append((other, None))
                    self.woken[self.kind(other), ("post" if is_full else "take") if has_changed else self.kind(self.waker)] += 1

    def put(self, actor, what, more):
        if what == "asks":
            self.asks[actor] = more
            self.came.append((actor, more))
        else:
            self.sleeps[actor] = more
            self.slept += 1

    def leave(self, actor, end):
        """The host ends. A refusal stops all, and so does the last client that is served. Who is the first to stop all wakes all until replicas and traitors
        have ended."""
        self.ends[actor] = end
        is_client = actor in self.callers
        if is_client and end is None:
            self.unserved -= 1
        if not is_client:
            self.over += 1
        is_last_served = is_client and end is None and self.unserved == 0
        if not self.is_told and (end in (STOPPED, UNANSWERED) or is_last_served):
            self.is_told, self.waker = True, actor

    def kind(self, actor):
        return "client" if actor in self.callers else "traitor" if actor in self.traitors else "replica"

    def is_waking(self):
        """Whether somebody wakes all now."""
        return self.is_told and self.over < self.shape.n

    def yields(self):
        """How often hosts have let others run, until somebody wakes all."""
        return self.rests + sum(caller.laps for caller in self.callers.values())

    def threads(self):
        """How many threads hosts have."""
        return len(self.actors) - len(self.ends) + self.is_waking()

    def cause(self):
        """Why the service ended, if it did so before all clients were served: of several refusals that of the least actor counts."""
        refused = [end for end in (self.ends.get(actor) for actor in self.actors) if end in (STOPPED, UNANSWERED)]
        return refused[0] if refused else UNANSWERED if self.unserved else None

    # ---- what the hosts do

    def host(self, actor):
        """The host of the actor, whose value is how it ended: None if its work was done."""
        work = self.serve_client if actor in self.callers else self.act_by_script if actor in self.traitors else self.act_loyally
        try:
            yield from work(actor)
        except Ended as end:
            return end.args[0]
        return None

    def passes(self, me, box=None, is_full=None):
        """Asks whether to go on with the next turn. Where the try waits for a box to be full or empty, this is known meanwhile."""
        if self.is_told:
            raise Ended(TOLD)
        turn = self.turns[me]
        self.turns[me] += 1
        self.waits_at[me] = box and (box, is_full)
        if not (yield "asks", turn):
            raise Ended(STOPPED)

    def post_to(self, me, to, envelope, is_forged=lambda: False):
        """Posts as soon as the box is empty. Returns whether it did: not if the envelope is forged."""
        while True:
            yield from self.passes(me, (me, to), False)
            if is_forged():
                return False
            if self.mail.post(me, to, envelope):
                return True
            yield "sleeps", ((me, to), False)

    def take_from(self, me, other):
        """Takes as soon as the box is full."""
        while True:
            yield from self.passes(me, (other, me), True)
            envelope = self.mail.take(me, other)
            if envelope is not None:
                return envelope
            yield "sleeps", ((other, me), True)

    def act_loyally(self, me):
        machine, last, unanswered = Replica(self.shape, me), None, set()
        for number in range(ROUNDS):
            if not any((other, me) in self.mail.boxes for other in self.actors):
                self.rests += BUSY_YIELDS if unanswered else IDLE_YIELDS
            for client in self.clients:
                yield from self.passes(me)
                envelope = self.mail.take(me, client)
                if envelope is not None:
                    unanswered.add(client)
                    machine.taken(client, envelope)
            clients = next_clients(machine, last) if number % self.shape.n == int(me[1:]) else []
            for to in self.replicas:
                envelope = machine.envelope_for(to, ("from", clients) if clients and to == "r0" else None)
                yield from self.post_to(me, to, envelope)
                machine.posted(to, envelope)
            last = clients[-1] if clients else last
            for other in self.replicas:
                machine.taken(other, (yield from self.take_from(me, other)))
            for client in self.clients:
                if client in unanswered and owes(machine, client):
                    yield from self.passes(me)
                    if self.mail.post(me, client, machine.replies[client]):
                        unanswered.remove(client)

    def act_by_script(self, me):
        known = set()

        def is_forged(envelope):
            return any(signer != me and (signer, statement) not in known for signer, statement in signatures_in(envelope))

        for number in range(ROUNDS):
            for client in self.clients:
                yield from self.passes(me)
                known.update(signatures_in(self.mail.take(me, client) or "empty"))
            for to in self.replicas:
                draft = self.drafts.get((me, number, to))
                if draft is None or not (yield from self.post_to(me, to, draft, lambda envelope=draft: is_forged(envelope))):
                    yield from self.post_to(me, to, "empty")
            for client in self.clients:
                draft = self.drafts.get((me, number, client))
                if draft is not None:
                    yield from self.passes(me)
                    if not is_forged(draft):
                        self.mail.post(me, client, draft)
            for other in self.replicas:
                known.update(signatures_in((yield from self.take_from(me, other))))

    def serve_client(self, me):
        """Makes calls for each operation until the reply is accepted; one more after all replicas and traitors have ended, and then it gives up."""
        for operation in self.operations[me]:
            while True:
                is_over = self.over == self.shape.n
                yield from self.passes(me)
                if self.callers[me].call(operation, TURNS):
                    break
                if is_over:
                    raise Ended(UNANSWERED)


def owes(machine, client):
    """Whether the reply of the replica to this client is to the request that it holds of it."""
    if client not in machine.replies or client not in machine.asks:
        return False
    return machine.replies[client].split(" ")[1] == machine.asks[client].split("#")[1].split(":")[0]
