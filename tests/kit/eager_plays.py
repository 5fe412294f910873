"""Plays whose loyal replicas are eager (models/eager.py), beside traitors: random ones, and the slowest. Who waits is known by a model of the world."""

from kit.inputs import RandomPlay
from models.eager import Host, next_clients, rounds_to_act
from models.slow_play import World, events_of
from models.transcript_text import Shape

# n, f and m of the random plays: small ones are drawn more often.
SHAPES = [(1, 0, 2), (1, 0, 9), (2, 0, 3), (3, 1, 2), (3, 1, 2), (3, 1, 3), (3, 1, 9), (4, 1, 4), (5, 2, 2)]


class EagerPlay(RandomPlay):
    """A play that is being written, in which each loyal replica begins its slots with the requests that are next."""

    def __init__(self, chance, n, f, m, traitors):
        super().__init__(chance, n, f, m, traitors)
        self.shape = Shape(n, f, m, tuple(traitors))
        self.world = World(self.shape)
        # The loyal replicas, as the world's lines so far show them.
        self.hosts = {p: Host(self.shape, f"r{p}") for p in self.loyal}
        self.shown = 0

    def add(self, line, events=1):
        super().add(line, events)
        self.world.run(events_of(line.encode(), self.shape))
        for step in self.world.lines[self.shown:]:
            actor, word, other, envelope = step.split(" ", 3)
            if actor[0] == "r" and int(actor[1:]) in self.hosts:
                host = self.hosts[int(actor[1:])]
                (host.posted if word == "post" else host.taken)(other, envelope)
        self.shown = len(self.world.lines)

    def post(self, p):
        """The replica posts to all, and begins a slot of its own with what is next; a traitor posts nothing but empty envelopes."""
        if p in self.traitors:
            self.add(f"plants r{p} empty", self.n)
            return
        host = self.hosts[p]
        is_own = host.replica.round % self.n == p
        clients = next_clients(host.replica, host.last) if is_own else []
        self.add(f"posts r{p} from {'+'.join(clients)}" if clients else f"posts r{p}", self.n)

    # ---- by chance

    def ask(self, client):
        """The client asks all for a new request, or one, or asks once more for what it has outstanding."""
        if self.world.machines[f"c{client}"].ask is None:
            operation = self.operation()
            self.numbers[client] += 1
            self.asked[client] = f"c{client}#{self.numbers[client]}:{operation.replace(' ', ':')}"
            if self.chance.random() < 0.7:
                self.add(f"asks c{client} begin {operation}", self.n)
            else:
                self.add(f"post c{client} r{self.chance.randrange(self.n)} begin {operation}")
        elif self.chance.random() < 0.3:
            self.add(f"asks c{client}", self.n)

    def hear(self, likely):
        """Each ask that waits in a box is taken, or is not, by chance."""
        for a, b in sorted(self.world.boxes):
            if a[0] == "c" and b[0] == "r" and self.chance.random() < likely:
                self.add(f"take {b} {a}")

    def round(self, t):
        for p in self.chance.sample(range(self.n), self.n):
            for to in range(self.n) if p in self.traitors else []:
                self.plant(p, to, t)
            if p in self.loyal:
                self.post(p)
            self.hear(0.3)
        for p in self.chance.sample(range(self.n), self.n):
            self.add(f"takes r{p}", self.n)


def random_eager_play(chance):
    """A random play of eager replicas, with more rounds than it takes to act. In some the clients ask in one round alone."""
    n, f, m = chance.choice(SHAPES)
    play = EagerPlay(chance, n, f, m, sorted(chance.sample(range(n), chance.randint(0, f))))
    only = chance.choice([None, None, chance.randrange(n + 1)])
    for t in range((only or 0) + rounds_to_act(play.shape) + chance.randint(1, 4)):
        for client in range(m):
            if t == only or only is None and chance.random() < 0.4:
                play.ask(client)
        play.round(t)
        for client in range(m):
            if play.world.machines[f"c{client}"].ask is not None and chance.random() < 0.5:
                play.reply(client)
    return play


def slowest_play(n, f, m, p, traitors=()):
    """The play in which it takes longest until all requests have acted. The loyal replica p begins the first slot of its own idle, and in that very round it
    hears all clients, who have asked no other. The traitors are silent. So the clients come in its next slots, 8 in each, and the last of them in the last
    one."""
    play = EagerPlay(None, n, f, m, traitors)
    for t in range(p + rounds_to_act(play.shape)):
        for q in range(n):
            play.post(q)
        for client in range(m) if t == p else []:
            play.add(f"post c{client} r{p} begin write a {client}")
            play.add(f"take r{p} c{client}")
        play.add("takes *", n * n)
    for client in range(m):
        play.add(f"replies c{client}", len(play.loyal))
        for q in play.loyal:
            play.add(f"take c{client} r{q}")
    return play
