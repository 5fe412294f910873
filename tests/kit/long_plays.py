"""Long plays, and the reports that they must give, reckoned by how the plays are made."""

from kit import inputs
from kit.inputs import lines_text
from models.histories import acted, history_lines

OPERATIONS = ["write a 7", "read a", "swap a 7 8", "remove b", "write b 1", "swap b 2 3", "read b", "remove a"]


class Play(inputs.Play):
    """A play that is being written, each of whose events is to be done, and what is to come of it."""

    def __init__(self, n, f, m, traitors):
        super().__init__(n, f, m, traitors)
        # the request that each client asked for last, as a content spells it
        self.asked = [None] * m
        # for each client the numbers whose replies it accepted
        self.accepted = [[] for _ in range(m)]
        # who told whom what it had seen, and how many replies it had accepted then
        self.told = []
        # the content of each slot, by its number
        self.slots = []

    def ask(self, client):
        """The client asks all replicas for a new request, and all hear it."""
        self.numbers[client] += 1
        number = self.numbers[client]
        operation = OPERATIONS[(number + client) % len(OPERATIONS)]
        self.asked[client] = f"c{client}#{number}:{operation.replace(' ', ':')}"
        self.add(f"asks c{client} begin {operation}", self.n)
        self.add(f"hears c{client}", self.n)

    def reply(self, client):
        """Each loyal replica replies to the client's last request, which is decided everywhere, and the client takes the replies."""
        self.add(f"replies c{client}", len(self.loyal))
        for p in self.loyal:
            self.add(f"take c{client} r{p}")
        self.accepted[client].append(self.numbers[client])

    def tell(self, teller, other):
        """The one client tells the other what it has seen."""
        self.add(f"tell c{teller} c{other}")
        self.add(f"take c{other} c{teller}")
        self.told.append((teller, other, len(self.accepted[teller])))

    def closed(self):
        """The contents of the slots that are closed: the first f rounds close none."""
        return self.slots[:max(0, len(self.slots) - self.f)]

    def report(self):
        """The report, as its definitions say."""
        history = acted(self.closed())
        places = {request.split(":", 1)[0]: place for place, (request, _) in enumerate(history)}
        lines = [f"done {self.events}", "refused 0"]
        for client, numbers in enumerate(self.accepted):
            for number in numbers:
                place = places[f"c{client}#{number}"]
                lines.append(f"accepted c{client} {number} {place} {history[place][1]}")
        lines += [f"seen c{client} {front}" for client, front in enumerate(self.fronts(places))]
        content = " ".join(self.closed()) or "-"
        lines += [f"decided r{p} {content}" for p in self.loyal]
        return lines_text([*lines, *history_lines([request for request, _ in history])])

    def fronts(self, places):
        """What each client has seen: one more than the greatest place of its replies, and of what it was told."""
        def after(client, count):
            """What the client has seen by its first replies, of which the last stands last in the history."""
            return places[f"c{client}#{self.accepted[client][count - 1]}"] + 1 if count else 0

        told = [0] * self.m
        for teller, other, count in self.told:
            told[other] = max(told[other], told[teller], after(teller, count))
        return [max(told[client], after(client, len(numbers))) for client, numbers in enumerate(self.accepted)]


def names(clients):
    return "+".join(f"c{client}" for client in clients)


def one_replica(most, of_a_round=8, m=32):
    """One replica and its clients, each of whose rounds decides so many requests: just so many events."""
    play = Play(1, 0, m, [])
    groups = [range(first, first + of_a_round) for first in range(0, m, of_a_round)]
    while play.events + 4 * of_a_round + 4 <= most:
        turn = len(play.slots)
        clients = groups[turn % len(groups)]
        for client in clients:
            play.ask(client)
        play.add(f"posts r0 from {names(clients)}")
        play.add("takes *")
        play.slots.append(",".join(play.asked[client] for client in clients))
        for client in clients:
            play.reply(client)
        if m > 1 and turn % 16 == 15:
            play.tell(0, m - 1)
    # What is left are posts and takes that change nothing: a request is asked for, and then once more.
    if play.events + 2 <= most:
        play.ask(0)
    while play.events + 2 <= most:
        play.add("asks c0")
        play.add("hears c0")
    return play


def chain(slot, content, signers):
    """A chain of a traitor: what the clients asked for they signed."""
    value = "idle" if content == "idle" else ",".join(f"{request}~{request.split('#')[0]}" for request in content.split(","))
    return f"{slot}/{value}/" + "+".join(f"r{p}" for p in signers)


class Broadcasts:
    """Sixteen replicas, of which the last seven are traitors, and 32 clients. A cycle is sixteen rounds, in each of which another replica is
    the sender of the slot that begins. In five of the slots of loyal senders eight clients' requests are proposed."""

    GROUPS = {0: range(0, 8), 1: range(8, 16), 2: range(16, 24), 3: range(24, 32), 8: range(0, 8)}
    # in so many cycles traitors' envelopes are filled up to 32 chains by chains with 16 signatures, which take much memory
    FULL = 4

    def __init__(self, cycles):
        self.play = Play(16, 7, 32, range(9, 16))
        # what traitors post: by round, poster and taker
        self.plants = {}
        for _ in range(16 * cycles):
            self.round(len(self.play.slots))
        self.play.tell(0, 31)

    def round(self, t):
        play, sender = self.play, t % 16
        # what was proposed eight rounds ago is decided
        for client in self.GROUPS.get((t - 8) % 16, []):
            if t >= 8:
                play.reply(client)
        group = self.GROUPS.get(sender, [])
        for client in group:
            play.ask(client)
        if sender in play.traitors:
            self.conspire(t, sender)
        else:
            play.slots.append(",".join(play.asked[client] for client in group) or "idle")
        for p in play.loyal:
            play.add(f"posts r{p} from {names(group)}" if p == sender and group else f"posts r{p}", 16)
        for p in play.traitors:
            self.post(t, p)
        play.add("takes *", 256)
        if t % 16 == 15:
            play.tell(0, 31)
            play.tell(31, 1)

    def post(self, t, traitor):
        """The traitor posts what is planned for this round."""
        letters = [self.plants.pop((t, traitor, to), None) for to in range(16)]
        said = [f"round {t} {' '.join(chains)}" if chains else "empty" for chains in letters]
        if len(set(said)) == 1:
            self.play.add(f"plants r{traitor} {said[0]}", 16)
        else:
            for to, envelope in enumerate(said):
                self.play.add(f"plant r{traitor} r{to} {envelope}")

    def plan(self, t, traitor, takers, a_chain):
        for to in takers:
            self.plants.setdefault((t, traitor, to), []).append(a_chain)

    def conspire(self, t, sender):
        """Plans what traitors do in the slot that a traitor begins in this round, and says what loyal replicas decide of it."""
        play, cycle = self.play, t // 16
        one, other = (",".join(play.asked[client] for client in clients) for clients in (range(16, 24), range(24, 32)))
        others = [p for p in play.traitors if p != sender]
        if cycle % 4 == 0:
            # It gives one content to half of the replicas, and another to the rest. All relay, and hear of both.
            self.plan(t, sender, range(0, 16, 2), chain(t, one, [sender]))
            self.plan(t, sender, range(1, 16, 2), chain(t, other, [sender]))
            play.slots.append("idle")
        elif cycle % 4 == 1:
            self.reveal(t, sender, others, one, other)
            play.slots.append("idle")
        elif cycle % 4 == 2:
            # In the last round but one a loyal replica gets a chain that all traitors signed. It is the eighth to sign, and all decide on it.
            self.plan(t + 6, sender, [sender - 9], chain(t, one, [sender, *others]))
            play.slots.append(one)
        else:
            # It does what a loyal replica does.
            self.plan(t, sender, range(16), chain(t, one, [sender]))
            play.slots.append(one)

    def reveal(self, t, sender, others, one, other):
        """All seven slots of traitors come to light in one round, each with two contents. All relay 14 chains."""
        play, end = self.play, t - sender + 15
        for content in (play.asked[16], other):
            self.plan(end, 9, range(16), chain(t, content, [sender, *others][:end - t + 1]))
        if sender == 15 and t // 16 < 4 * self.FULL:
            # 18 more, with 16 signatures, which are dropped
            signers = (play.traitors * 3)[:16]
            for at in range(18):
                self.plan(end, 9, range(16), chain(t - at % 8, "idle" if at % 2 else one, signers))
            for p in others[1:]:
                for at in range(32):
                    self.plan(end, p, [t // 16 % 9], chain(t, one, signers))


def broadcasts(cycles):
    return Broadcasts(cycles).play


class Rounds(Play):
    """A play of so many rounds, in each of which something is asked for, or nothing."""

    def __init__(self, n, f, traitors, is_asked, rounds):
        super().__init__(n, f, 1, traitors)
        for t in range(rounds):
            self.round(t, is_asked)

    def round(self, t, is_asked):
        """One round. A request is asked for where a loyal replica's slot begins and the last one was answered, and answered when that slot is closed."""
        sender = t % self.n
        if self.numbers[0] > len(self.accepted[0]) and t > self.proposed + self.f:
            self.reply(0)
        is_asked = is_asked and sender in self.loyal and self.numbers[0] == len(self.accepted[0])
        if is_asked:
            self.ask(0)
            self.proposed = t
        for p in self.loyal:
            self.add(f"posts r{p} from c0" if p == sender and is_asked else f"posts r{p}", self.n)
        for p in self.traitors:
            self.add(f"plants r{p} round {t} {t}/idle/r{p}" if p == sender else f"plants r{p} empty", self.n)
        self.add("takes *", self.n * self.n)
        self.slots.append(self.asked[0] if is_asked else "idle")
