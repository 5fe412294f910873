"""Random schedules of services in threads. In each turn one host goes on or is stopped, and after it the service must match the model of tests/models/hosts.py:
which hosts ask next and with which turn, how many have ended, and that all others sleep; at the end each entry of each log, and why the service ended."""

import random
import time
from collections import Counter, namedtuple

from kit.inputs import lines_text
from kit.turnstile import Left, Turnstile
from models import hosts
from models.transcript_text import Reader, shape_text, whole

# Why a service ended, as the program says it.
SAID = {None: (0, b""), hosts.STOPPED: (1, b"dsr: stopped by the gate\n"), hosts.UNANSWERED: (1, b"dsr: no answer within the turns\n")}
# How many turns a schedule has at most before all are stopped.
MOST_TURNS = 2_500
OPERATIONS = ["read a", "write a 5", "write b 7", "remove a", "swap a 5 6", "swap b none 1"]

# A service: its shape, the operations of each client, and the drafts of traitors, by traitor, round and actor.
Served = namedtuple("Served", "shape operations drafts")
# What a schedule came to: how many turns it had, who was woken by what and how often, and why the service ended.
Came = namedtuple("Came", "turns woken cause")
# A random service and schedule: of which shape, how many hosts are to be stopped, and by which rule the next host is drawn.
Row = namedtuple("Row", "seed shape stops rule")
SHAPES = ["1 0 1 -", "1 0 3 -", "2 0 2 -", "3 1 1 r2", "3 1 2 r0", "4 1 3 r3", "4 1 2 -", "5 2 2 r1+r4", "6 2 5 r0+r5", "7 3 4 r0+r2+r6"]
# After how many turns all is left alone, if somebody sleeps, for how many seconds, and how many of these may be spent of a processor.
LEFT_ALONE, ALONE, SPENT_ALONE = 50, 0.3, 0.03
# A turn is slow if it takes more than so many seconds of a processor, some fifty times what it takes: a try of a replica or a traitor, and a call of a client,
# which has up to 1,000 tries. So many turns may be slow, and one of so many.
SLOW_TRY, SLOW_CALL, MOST_SLOW, FEW = 0.0005, 0.01, 9, 50
# After how many faults a process tries no more.
MOST_FAULTS = 2
FOUND = Counter()


def text_of(served):
    """The script of the service."""
    asks = [f"ask {client} {operation}" for client, operations in served.operations.items() for operation in operations]
    drafts = [f"script {traitor} {number} {to} {envelope}" for (traitor, number, to), envelope in served.drafts.items()]
    return lines_text([f"dsr-serve 1 {shape_text(served.shape)}", *asks, *drafts])


def model_of(served):
    operations = {client: [tuple(operation.split(" ")) for operation in some] for client, some in served.operations.items()}
    return hosts.Service(served.shape, operations, served.drafts)


def random_service(chance, words):
    """A random service of the shape that these words spell."""
    shape = whole(words.encode(), Reader.shape)
    operations = {f"c{c}": [chance.choice(OPERATIONS) for _ in range(chance.randint(1, 2))] for c in range(shape.m)}
    drafts = {}
    for traitor in shape.traitors:
        for number in range(chance.choice([0, 4 * shape.n])):
            to, envelope = draft_of(chance, shape, traitor, number)
            drafts[f"r{traitor}", number, to] = envelope
    return Served(shape, operations, drafts)


def draft_of(chance, shape, traitor, number):
    """A draft of a traitor for a round: to whom, and what."""
    to, own = f"r{chance.randrange(shape.n)}", number - (number - traitor) % shape.n
    kind = chance.choice(["reply", "two-faced", "late", "forged", "ask"])
    if kind == "reply":
        return f"c{chance.randrange(shape.m)}", f"reply {chance.randint(1, 2)} {chance.randrange(3)} {chance.choice(['written', 'held 5', 'held none'])}"
    if kind == "two-faced" or kind == "late" and own < 0:
        return to, f"round {number} {number}/idle/r{traitor}"
    if kind == "late":
        return to, f"round {number} {own}/idle/r{traitor}"
    if kind == "forged":
        return to, f"round {number} {number}/idle/r{(traitor + 1) % shape.n}"
    client = chance.randrange(shape.m)
    return to, f"round {number} {number}/c{client}#1:write:a:5~c{client}/r{traitor}"


# ---- who is next


class Random:
    """Any host that waits at its gate is next, but some are slow; and some are stopped, at one of their turns."""

    most = MOST_TURNS

    def __init__(self, chance, actors, stops):
        self.chance = chance
        self.weights = {actor: chance.choice([0.02, 0.3, 1, 1, 1]) * (0.2 if actor[0] == "c" else 1) for actor in actors}
        self.stops = {actor: int(10 ** chance.uniform(0, 2.5)) - 1 for actor in chance.sample(actors, min(stops, len(actors)))}

    def next(self, model):
        """The next host, and whether it goes on."""
        actors = sorted(model.asks)
        actor = self.chance.choices(actors, [self.weights[actor] for actor in actors])[0]
        return actor, model.asks[actor] < self.stops.get(actor, self.most)


class Sleepy(Random):
    """A host whose next try would find its box full or empty, and sleep, is next, if there is one: so almost every hand-over wakes somebody who sleeps."""

    def next(self, model):
        boxes = model.mail.boxes
        sleepy = [actor for actor in sorted(model.asks) if model.waits_at[actor] and (model.waits_at[actor][0] in boxes) != model.waits_at[actor][1]]
        return (self.chance.choice(sleepy), True) if sleepy else super().next(model)


class Late(Random):
    """Replicas use up their rounds first. Once one has ended a client makes some calls, and goes on when all have."""

    most, calls = 10**6, 3

    def next(self, model):
        replicas = [actor for actor in sorted(model.asks) if actor not in model.callers]
        clients = [actor for actor in sorted(model.asks) if actor in model.callers]
        if not replicas or model.over and self.calls:
            self.calls -= 1
            return self.chance.choice(clients), True
        return self.chance.choice(replicas), True


RULES = {"random": Random, "sleepy": Sleepy, "late": Late}


def rows(count):
    """So many rows, and some in which replicas use up their rounds."""
    yield Row(1, "2 0 1 -", 0, "late")
    yield Row(2, "1 0 2 -", 0, "late")
    for seed in range(count):
        yield Row(seed, SHAPES[seed % len(SHAPES)], [0, 0, 1, 1, 2][seed // len(SHAPES) % 5], "sleepy" if seed % 3 == 0 else "random")


# ---- a schedule, and what comes of it

# A turn: whose it is, its number, and whether the actor goes on. What the model has before it: how often hosts have let others run, or None if they were told to
# stop, and whether somebody sleeps. What it has after it: who asks then and with which turn, how many threads hosts have, and how it is known that no host does
# anything then, or None if the host asks again, and nobody sleeps or ends.
Turn = namedtuple("Turn", "actor number goes_on yields sleeps came threads rest")
# Hosts are at rest if all sleep; while the first that stops all wakes them, in which it goes on and on; and later, as soon as those have ended that do.
SLEEP, WAKE, END = "sleep", "wake", "end"


def planned(model, rule):
    """Draws a schedule, by which the model goes on until all its hosts have ended."""
    schedule = []
    while model.asks:
        actor, goes_on = rule.next(model)
        goes_on = goes_on and len(schedule) < rule.most
        number, before, was_told, sleeps = model.asks[actor], state_of(model), model.is_told, bool(model.sleeps)
        yields, model.came = None if was_told else model.yields(), []
        model.let(actor, goes_on)
        rest = None
        if state_of(model) != before and model.threads():
            rest = SLEEP if not model.is_waking() else END if was_told else WAKE
        schedule.append(Turn(actor, number, goes_on, yields, sleeps, model.came, model.threads(), rest))
    return schedule


def state_of(model):
    """What changes in the model if a host sleeps or ends."""
    return model.threads(), model.is_told, model.slept


def word_of(turn):
    """The turn as a word of the program."""
    return turn.actor if turn.goes_on else f"!{turn.actor}"


def follow(gate, first, schedule):
    """Has the service go on by the schedule, until all hosts have ended. At first these ask. Yields each turn that is over."""
    hear(gate, first)
    spent = Spent()
    for number, turn in enumerate(schedule):
        if turn.yields is not None:
            look_at_yields(gate, turn.yields)
            if number == LEFT_ALONE and turn.sleeps:
                leave_alone(gate)
        before = gate.spent()
        gate.step()
        hear(gate, turn.came)
        if turn.rest:
            {SLEEP: gate.sleeps_with, WAKE: gate.goes_on_with, END: gate.ends_with}[turn.rest](turn.threads)
        if turn.rest in (None, SLEEP):
            spent.look(turn, gate.spent() - before)
        yield turn


def look_at_yields(gate, wanted):
    """The hosts must have let others run as often as the model's have, which shows when they rest, and how often calls have gone past all replicas."""
    if gate.yields() != wanted:
        raise Left(f"the hosts have let others run {gate.yields()} times, and not {wanted}")


def leave_alone(gate):
    """Lets nobody go on for a while, in which those that sleep spend next to nothing of a processor."""
    before = gate.spent()
    time.sleep(ALONE)
    spent = gate.spent() - before
    gate.need_no_ask()
    if spent > SPENT_ALONE:
        raise Left(f"in {ALONE} seconds in which all waited or slept, {spent:.3f} seconds of a processor were spent")


class Spent:
    """How many turns were slow."""

    def __init__(self):
        self.seen = self.slow = 0

    def look(self, turn, taken):
        """This turn has taken so many seconds of a processor. Few turns may be slow."""
        self.seen += 1
        self.slow += taken > (SLOW_CALL if turn.actor[0] == "c" else SLOW_TRY)
        if self.slow > MOST_SLOW and self.slow * FEW > self.seen:
            raise Left(f"of {self.seen} turns {self.slow} have taken long, the last {taken:.4f} seconds of a processor")


def hear(gate, came):
    """Waits until the service has asked this, in any order."""
    came = dict(came)
    while came:
        actor, turn = gate.next_ask()
        if came.pop(actor, None) != turn:
            raise Left(f"{actor} asked with turn {turn}, which was not to come then")


def fault_of_logs(model, transcript):
    """What is wrong with the logs in the transcript, or None."""
    first, *lines = transcript.decode().split("\n")[:-1]
    if first.split(" ")[2:] != shape_text(model.shape).split(" "):
        return f"the transcript begins with {first}"
    logs = {actor: [] for actor in model.actors}
    for line in lines:
        actor, _, entry = line.partition(" ")
        logs.setdefault(actor, []).append(entry)
    if sorted(logs) != sorted(model.actors):
        return f"there are logs of {' '.join(sorted(logs))}"
    for actor, log in logs.items():
        for place, (entry, wanted) in enumerate(zip(log, model.mail.logs[actor])):
            if entry != wanted:
                return f"entry {place} of {actor} is `{entry[:200]}`, and not `{wanted[:200]}`"
        if len(log) != len(model.mail.logs[actor]):
            return f"{actor} has {len(log)} entries, and not {len(model.mail.logs[actor])}"
    return None


def fault_of_end(model, ended):
    """What is wrong with how the program ended, or None."""
    status, transcript, said = ended
    wanted = SAID[model.cause()]
    if (status, said) != wanted:
        return f"it ended with status {status} and said {said!r}, and not {wanted}"
    return fault_of_logs(model, transcript)


def told(schedule, count=12):
    """The last turns of a schedule, in words."""
    return " ".join(f"{turn.actor}:{turn.number}{'' if turn.goes_on else '!'}" for turn in schedule[-count:])


def judged(served, rule, shim):
    """What is wrong with a service by a schedule, or None; and what it came to. The fault says where the schedule was left."""
    model, over = model_of(served), []
    first = list(model.came)
    schedule = planned(model, rule)
    if model.sleeps:
        return "the model sleeps for ever", Came(len(schedule), model.woken, None)
    with Turnstile(text_of(served).decode(), map(word_of, schedule), shim) as gate:
        try:
            for turn in follow(gate, first, schedule):
                over.append(turn)
            fault = fault_of_end(model, gate.ended())
        except Left as left:
            fault = str(left)
    if fault:
        at = f"in the turn after {told(schedule[:len(over)])}" if len(over) < len(schedule) else "at the end"
        fault = f"{fault}\n{at}, of {len(schedule)}\n{text_of(served).decode()}"
    return fault, Came(len(schedule), model.woken, model.cause())


def judged_row(task):
    """The same of a row, and the library of tests/yields.c. A process that has found some faults tries no more, since each may take its time."""
    if FOUND["faults"] >= MOST_FAULTS:
        return "not tried, after other faults", Came(0, Counter(), None)
    row, shim = task
    chance = random.Random(row.seed)
    served = random_service(chance, row.shape)
    fault, came = judged(served, RULES[row.rule](chance, model_of(served).actors, row.stops), shim)
    FOUND["faults"] += fault is not None
    return fault, came
