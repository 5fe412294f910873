#!/usr/bin/env python3
"""A small replicated service that records its run: examples/record/service.py, or examples/record/service.py lying.

Three replicas and two clients, written without any code of `dsr`. Replica r2 is a traitor, and the header says so. Each message is printed
when it is posted and when it is taken, as a line of a transcript. `dsr check` says whether what was printed is a run of the protocol.

With `lying`, r1 breaks the rules as well, which the header doesn't say: it relays a chain that nobody gave it.
"""

import sys

REPLICAS, CLIENTS, TRAITOR = ["r0", "r1", "r2"], ["c0", "c1"], "r2"
MOST_TRAITORS = 1
OPERATIONS = {"c0": ["write:a:5", "read:b"], "c1": ["write:b:7", "swap:a:5:6", "read:a"]}


class Network:
    """A box from each actor to each, with room for one message. What goes into a box and out of it is recorded."""

    def __init__(self):
        self.boxes = {}

    def post(self, me, to, message):
        """Posts the message, if the box is empty; whether it was."""
        if (me, to) in self.boxes:
            return False
        self.boxes[me, to] = message
        print(f"{me} post {to} {message}")
        return True

    def take(self, me, other):
        """Takes the message that the other one posted; None where there is none."""
        message = self.boxes.pop((other, me), None)
        if message is not None:
            print(f"{me} take {other} {message}")
        return message


# ---- chains, as they stand in messages: slot, signed requests and signers, such as 0/c0#1:write:a:5~c0/r0+r1


def requests_of(value):
    return [] if value == "idle" else [signed.split("~")[0] for signed in value.split(",")]


def is_proper(chain, slot, round_of_slot):
    """The chain counts: it has one signature for each round so far, the sender's first, and each client signed its own request."""
    number, value, signatures = chain.split("/")
    signers = signatures.split("+")
    return (
        number == str(slot)
        and len(signers) == round_of_slot == len(set(signers) & set(REPLICAS))
        and signers[0] == REPLICAS[slot % len(REPLICAS)]
        and (value == "idle" or all(signed.split("#")[0] == signed.split("~")[1] for signed in value.split(",")))
    )


class Directory:
    """The state machine: it answers requests one after another, each at a place of its own, and keeps the last reply to each client."""

    def __init__(self):
        self.registers, self.numbers, self.replies, self.places = {}, {}, {}, 0

    def process(self, request):
        client, rest = request.split("#")
        number, operation = rest.split(":", 1)
        if int(number) > self.numbers.get(client, 0):
            self.numbers[client] = int(number)
            self.replies[client] = f"reply {number} {self.places} {self.answer(*operation.split(':'))}"
            self.places += 1

    def answer(self, word, name, *values):
        held = self.registers.get(name, "none")
        if word == "read":
            return f"held {held}"
        if word == "swap" and held != values[0]:
            return f"kept {held}"
        self.registers[name] = values[-1]
        return "written" if word == "write" else "swapped"


class Replica:
    """What a replica knows: the round, what it kept of each slot, what clients asked it for, and the directory."""

    def __init__(self, me, is_lying):
        self.me, self.is_lying = me, is_lying
        self.round, self.kept, self.asks = 0, {}, {}
        self.directory = Directory()

    def hear(self, client, message):
        """Of each client the last ask is held."""
        self.asks[client] = message.removeprefix("ask ")

    def message(self):
        """The message of this round, the same to all: what it relays, and in its own slot a value of its own."""
        chains = [
            f"{chain}+{self.me}"
            for slot in sorted(self.kept)
            for at, chain in self.kept[slot]
            if at == self.round - 1 and self.me not in chain.split("/")[2].split("+")
        ]
        if REPLICAS[self.round % len(REPLICAS)] == self.me:
            chains.append(f"{self.round}/{','.join(self.waiting()) or 'idle'}/{self.me}")
        if self.is_lying and self.round == 1:
            chains[0] = f"0/idle/r0+{self.me}"
        return " ".join([f"round {self.round}", *chains]) if chains else "empty"

    def waiting(self):
        """The asks that it holds and that did not act yet."""
        return [
            ask for client, ask in sorted(self.asks.items())
            if int(ask.split("#")[1].split(":")[0]) > self.directory.numbers.get(client, 0)
        ]

    def read(self, message):
        """Of each slot in flight it keeps the first two values that differ, each from a proper chain."""
        word, *rest = message.split(" ")
        if word != "round" or rest[0] != str(self.round):
            return
        for chain in rest[1:]:
            for slot in range(max(0, self.round - MOST_TRAITORS), self.round + 1):
                kept = self.kept.setdefault(slot, [])
                known = [k.split("/")[1] for _, k in kept]
                if is_proper(chain, slot, self.round - slot + 1) and chain.split("/")[1] not in known and len(kept) < 2:
                    kept.append((self.round, chain))

    def close(self):
        """The round is over, and with it a slot: where exactly one value is kept, its requests are processed."""
        kept = self.kept.pop(self.round - MOST_TRAITORS, [])
        for request in requests_of(kept[0][1].split("/")[1]) if len(kept) == 1 else []:
            self.directory.process(request)
        self.round += 1


# ---- the actors: each is a generator, which yields where it has to wait


def replica(network, me, is_lying):
    state = Replica(me, is_lying)
    while True:
        for client in CLIENTS:
            ask = network.take(me, client)
            if ask:
                state.hear(client, ask)
        message = state.message()
        for to in REPLICAS:
            while not network.post(me, to, message):
                yield
        for other in REPLICAS:
            while (message := network.take(me, other)) is None:
                yield
            state.read(message)
        state.close()
        for client, reply in state.directory.replies.items():
            network.post(me, client, reply)
        yield


def traitor(network, me):
    """It is silent in the slots of others, shows each replica another value in its own, and lies to clients."""
    asks, t = {}, 0
    while True:
        for client in CLIENTS:
            asks[client] = network.take(me, client) or asks.get(client)
            network.post(me, client, "reply 1 0 held 9")
        for to in REPLICAS:
            shown = asks["c0" if to == "r0" else "c1"] if REPLICAS[t % len(REPLICAS)] == me else None
            while not network.post(me, to, f"round {t} {t}/{shown.removeprefix('ask ')}/{me}" if shown else "empty"):
                yield
        for other in REPLICAS:
            while network.take(me, other) is None:
                yield
        t += 1
        yield


def client(network, me):
    """It asks all replicas, and believes what more than `MOST_TRAITORS` of them reply alike. At the end it tells what it has seen."""
    seen = 0
    for number, operation in enumerate(OPERATIONS[me], 1):
        for to in REPLICAS:
            while not network.post(me, to, f"ask {me}#{number}:{operation}~{me}"):
                yield
        votes, accepted = {}, None
        while not accepted:
            yield
            for other in REPLICAS:
                reply = network.take(me, other)
                if reply and reply.split(" ")[1] == str(number):
                    votes.setdefault(other, reply)
                accepted = accepted or next((v for v in votes.values() if list(votes.values()).count(v) > MOST_TRAITORS), None)
        seen = max(seen, int(accepted.split(" ")[2]) + 1)
    for other in CLIENTS:
        if other != me:
            network.post(me, other, f"seen {seen}")


def main(words):
    if words not in ([], ["lying"]):
        print(__doc__, file=sys.stderr)
        return 2
    print(f"dsr-transcript 2 {len(REPLICAS)} {MOST_TRAITORS} {len(CLIENTS)} {TRAITOR}")
    network = Network()
    clients = [client(network, me) for me in CLIENTS]
    replicas = [traitor(network, me) if me == TRAITOR else replica(network, me, bool(words) and me == "r1") for me in REPLICAS]
    while clients:
        clients = [actor for actor in clients if next(actor, "done") != "done"]
        for actor in replicas:
            next(actor)
    return 0


if __name__ == "__main__":
    sys.exit(main(sys.argv[1:]))
