"""Texts that are nearly plays, serve scripts, transcripts or request lines: lines of every kind, drawn by chance, with numbers and counts at their limits and
just over them, changed in a byte or two.

Everything random is drawn from what the caller gives.
"""

from kit import inputs

LIMITS = {40: 2**40, 64: 2**64}
SHAPES = ["1 0 1 -", "3 1 2 r0", "3 1 1 -", "5 2 3 r1+r4", "16 7 32 r0+r3+r15", "16 7 32 -"]
OTHER_SHAPES = ["0 0 1 -", "17 1 1 -", "3 2 1 -", "3 1 33 -", "3 1 1 r0+r1", "3 1 1 r3", "5 2 3 r4+r1", "5 2 3 r1+r1", "16 7 32 r9+r10+r11", "3 0 1 r0", "03 1 1 -"]
LETTERS = "abcrxz0129 /+,:#~()-._*\t\r\x00\x80\xff"


class Line:
    """What a line is drawn from."""

    def __init__(self, chance):
        self.chance = chance

    def one(self, *texts):
        return self.chance.choice(texts)

    def often(self, text, seldom):
        return text if self.chance.random() < 0.9 else seldom

    def number(self, bits, least=0):
        limit = LIMITS[bits]
        edge = self.one(limit - 1, limit, limit // 10, limit // 10 + 1, limit * 10, self.chance.randrange(limit), 0)
        return str(self.often(self.chance.randrange(least, 12), edge))

    def actor(self, kinds="rc"):
        kind = self.one(*kinds)
        last = {"r": 15, "c": 31}[kind]
        return f"{kind}{self.often(self.chance.randrange(4), self.one(last, last + 1, last - 1, 10, 20, 30, 100))}"

    def name(self):
        return self.often(self.one("a", "b", "none", "a.b_c-d", "x" * 31), self.one("y" * 32, "z" * 33, "", "A"))

    def old(self):
        return self.one("none", self.number(64))

    def operation(self, joint):
        parts = self.one(
            ["read", self.name()], ["write", self.name(), self.number(64)], ["swap", self.name(), self.old(), self.number(64)], ["remove", self.name()],
        )
        return joint.join(self.often(parts, parts[:-1]))

    def count(self, most):
        return self.often(self.chance.randrange(1, 3), self.one(most - 1, most, most + 1))

    def joined(self, mark, most, item):
        return mark.join(item() for _ in range(self.count(most)))

    def request(self):
        return f"{self.actor('c')}#{self.number(40, 1)}:{self.operation(':')}"

    def signers(self):
        return self.one("-", self.joined("+", 16, self.actor))

    def statement(self):
        content = self.one("idle", self.joined(",", 8, self.request))
        return self.one(self.request(), f"{self.number(40)}/{content}/{self.signers()}")

    def signature(self, fitting):
        said = self.often(self.statement(), self.one(fitting, fitting[:-1], f"{fitting}0", f"{fitting}+r1"))
        return self.one(self.actor(), self.actor(), f"{self.actor()}({said})", f"{self.actor()}({fitting})" if self.chance.random() < 0.3 else self.actor())

    def signed(self):
        request = self.request()
        return f"{request}~{self.signature(request)}"

    def chain(self):
        requests = [self.request() for _ in range(self.one(0, 1, 1, self.count(8)))]
        slot, before, signatures = self.number(40), [], []
        value = ",".join(f"{request}~{self.signature(request)}" for request in requests) or "idle"
        for _ in range(self.one(0, 1, 2, self.count(16))):
            signature = self.signature(f"{slot}/{','.join(requests) or 'idle'}/{'+'.join(before) or '-'}")
            signatures.append(signature)
            before.append(signature.split("(")[0])
        return f"{slot}/{value}/{'+'.join(signatures) or '-'}"

    def envelope(self):
        chains = "".join(f" {self.chain()}" for _ in range(self.one(0, 1, 2) if self.chance.random() < 0.98 else self.one(32, 33)))
        answer = self.one("written", "swapped", "full", f"held {self.old()}", f"kept {self.old()}", f"removed {self.old()}")
        return self.one(
            "empty", f"round {self.number(40)}{chains}", f"round {self.number(40)}{chains}", f"ask {self.signed()}",
            f"reply {self.number(40, 1)} {self.number(40)} {answer}", f"seen {self.number(40)}",
        )

    def choice(self, kinds):
        some = [f"c{number}" for number in self.chance.sample(self.one(range(4), range(32), [3, 30, 31, 2, 20]), self.one(1, 2, 3))]
        clients = "+".join(self.often(some, self.one(some + some[:1], [f"c{number}" for number in range(9)])))
        return self.often(self.one("", *({"from": f" from {clients}", "begin": f" begin {self.operation(' ')}"}[kind] for kind in kinds)), " begin read a")

    def text(self):
        return self.one(
            f"post {self.actor()} {self.actor()}{self.choice(['from', 'begin'])}", f"plant {self.actor()} {self.actor()} {self.envelope()}",
            f"plant r0 r1 {self.envelope()}", f"take {self.actor()} {self.actor()}", f"tell {self.actor()} {self.actor()}",
            f"posts {self.actor('r')}{self.choice(['from'])}", "posts *", f"plants {self.actor('r')} {self.envelope()}", f"takes {self.actor()}", "takes *",
            f"asks {self.actor('c')}{self.choice(['begin'])}", f"hears {self.actor('c')}", f"replies {self.actor('c')}", self.often("takes *", ""),
        )


def with_byte_put_in(chance, text):
    at = chance.randrange(len(text) + 1)
    return text[:at] + chance.choice(LETTERS).encode("latin-1") + text[at:]


def cut(chance, text):
    return text[:chance.randrange(len(text) + 1)]


def drawn(chance):
    """A text with a header and some lines."""
    shape = chance.choice(SHAPES if chance.random() < 0.9 else OTHER_SHAPES)
    return inputs.lines_text([f"dsr-play 1 {shape}", *(Line(chance).text() for _ in range(chance.randint(0, 3)))])


def drawn_script(chance):
    shape = chance.choice(SHAPES if chance.random() < 0.95 else OTHER_SHAPES)
    line = Line(chance)
    _, _, clients, named = shape.split(" ")

    def actor():
        return line.often(line.one("r0", "r1", "r2", "c0", f"c{int(clients) - 1}"), line.actor())

    def text():
        number = line.often(str(chance.randrange(2)), line.number(40))
        if named == "-" or chance.random() < 0.4:
            return f"ask {line.often('c0', line.actor('c'))} {line.operation(' ')}"
        return f"script {line.often(line.one(*named.split('+')), line.actor('r'))} {number} {actor()} {line.one('empty', line.envelope())}"

    return inputs.lines_text([f"dsr-serve 1 {shape}", *(text() for _ in range(chance.randint(0, 4)))])


def drawn_transcript(chance):
    shape = chance.choice(SHAPES if chance.random() < 0.95 else OTHER_SHAPES)
    line = Line(chance)
    lines = [f"{line.actor()} {line.one('post', 'take')} {line.actor()} {line.envelope()}" for _ in range(chance.randint(0, 3))]
    return inputs.lines_text([f"dsr-transcript {line.one('1', '2')} {shape}", *lines])


def drawn_requests(chance):
    line = Line(chance)
    return inputs.lines_text([f"{line.actor('c')} {line.number(40, 1)} {line.operation(' ')}" for _ in range(chance.randint(1, 5))])


def full(chance):
    """A play that has nearly as many events as it may have, or just as many, and then lines."""
    left = chance.randrange(300)
    whole, single = divmod(1_000_000 - left, 256)
    lines = ["takes *"] * whole + ["take r0 r1"] * single
    return inputs.lines_text(["dsr-play 1 16 7 1 r0+r1+r2", *lines, *(Line(chance).text() for _ in range(3))])


CHANGES = [inputs.by_byte, inputs.by_byte, with_byte_put_in, with_byte_put_in, inputs.by_bytes_left_out, cut]


def changed(chance, text):
    """The text with a change or two, or as it is."""
    for _ in range(chance.choice([0, 1, 1, 1, 2])):
        if text:
            text = chance.choice([*CHANGES, inputs.by_chance] if b"\n" in text else CHANGES)(chance, text)
    return text
