"""A recogniser of plays, serve scripts, transcripts and request lines, written anew from docs/FORMATS.md: where a text that is none is wrong first.

A grammar is made of recognisers. One looks at a text from a place on, and gives the places at which what it recognises can end, and whether the text ends
within something that could go on. So a front of a line can become a line if one of both is there, and the first byte with which no line goes on is found
by looking at fronts.
"""

import functools
import re

MOST_EVENTS = 1_000_000
NOTHING = frozenset(), False
# Every byte that can stand in a line.
ALPHABET = [chr(code) for code in range(32, 127)]


# ---- recognisers


def literal(words):
    def look(text, at):
        if text.startswith(words, at):
            return frozenset([at + len(words)]), False
        return frozenset(), words.startswith(text[at:])
    return look


def one_of(*kinds):
    def look(text, at):
        found = [kind(text, at) for kind in kinds]
        return frozenset().union(*(ends for ends, _ in found)), any(goes_on for _, goes_on in found)
    return look


def row(*parts):
    def look(text, at):
        ends, goes_on = frozenset([at]), False
        for part in parts:
            found = [part(text, end) for end in ends]
            ends = frozenset().union(*(more for more, _ in found))
            goes_on = goes_on or any(open_end for _, open_end in found)
        return ends, goes_on
    return look


def maybe(kind):
    def look(text, at):
        ends, goes_on = kind(text, at)
        return ends | {at}, goes_on
    return look


def items(kind, mark, most):
    """One to `most` of a kind, with the mark between them."""
    return kind if most == 1 else row(kind, maybe(row(literal(mark), lambda text, at: items(kind, mark, most - 1)(text, at))))


def decimal(least, limit):
    """A decimal from `least` on, 0 or 1, and below the limit."""
    def look(text, at):
        digits = re.match("[0-9]*", text[at:at + 25])[0]
        fronts = [digits[:size] for size in range(1, len(digits) + 1)]
        good = [front for front in fronts if str(int(front)) == front and least <= int(front) < limit]
        ends = frozenset(at + len(front) for front in good)
        is_cut = at + len(digits) == len(text)
        return ends, is_cut and (not digits or (digits in good and digits != "0" and int(digits) * 10 < limit))
    return look


def among(words):
    return one_of(*(literal(word) for word in words))


def name(text, at):
    length = len(re.match("[a-z0-9._-]*", text[at:at + 32])[0])
    return frozenset(range(at + 1, at + length + 1)), at + length == len(text) and length < 32


# ---- tokens

NUM, POSITIVE, VAL = decimal(0, 2**40), decimal(1, 2**40), decimal(0, 2**64)
REPLICAS, CLIENTS = [f"r{number}" for number in range(16)], [f"c{number}" for number in range(32)]
ACTOR, REPLICA, CLIENT = among(REPLICAS + CLIENTS), among(REPLICAS), among(CLIENTS)
SPACE = literal(" ")
OLD = one_of(literal("none"), VAL)


def operation(joint, is_plain=False):
    mark = literal(joint)
    kinds = [
        row(literal("read"), mark, name),
        row(literal("write"), mark, name, mark, VAL),
        row(literal("swap"), mark, name, mark, OLD, mark, VAL),
        row(literal("remove"), mark, name),
    ]
    return one_of(*(kinds[:3] if is_plain else kinds))


def is_front(kind, text):
    """Whether something of this kind begins with the text, or is it."""
    ends, goes_on = kind(text, 0)
    return goes_on or len(text) in ends


def content_of(value):
    """What is left of a value without its signatures."""
    return re.sub(r"~\w+(\([^)]*\))?", "", value)


class Envelopes:
    """The envelopes of texts, or of those in which each line is plain, as version 1 of transcripts has them."""

    def __init__(self, is_plain):
        self.most_requests = 1 if is_plain else 8
        self.request = row(CLIENT, literal("#"), POSITIVE, literal(":"), operation(":", is_plain))
        content = one_of(literal("idle"), items(self.request, ",", self.most_requests))
        signers = one_of(literal("-"), items(ACTOR, "+", 16))
        self.statement = one_of(self.request, row(NUM, literal("/"), content, literal("/"), signers))
        self.value = one_of(literal("idle"), items(self.signed, ",", self.most_requests))
        tells = ["held ", "kept "] if is_plain else ["held ", "kept ", "removed "]
        answer = one_of(among(["written", "swapped", "full"]), row(among(tells), OLD))
        self.envelope = one_of(
            literal("empty"),
            row(literal("round "), NUM, maybe(row(SPACE, items(self.chain, " ", 32)))),
            row(literal("ask "), self.signed),
            row(literal("reply "), POSITIVE, SPACE, NUM, SPACE, answer),
            row(literal("seen "), NUM),
        )

    @functools.lru_cache(maxsize=100_000)
    def is_front_of_another(self, text, fitting):
        """Whether a statement begins with the text, or is it, that is another than this one."""
        if not is_front(self.statement, text):
            return False
        if not fitting.startswith(text):
            return True
        return any(self.is_front_of_another(text + letter, fitting) for letter in ALPHABET)

    def signature(self, fitting):
        """A signature at a place where this statement fits."""
        def stated(text, at):
            size = text.find(")", at) - at
            if size < 0:
                return frozenset(), self.is_front_of_another(text[at:], fitting)
            said = text[at:at + size]
            return frozenset([at + size + 1] if at + size in self.statement(text, at)[0] and said != fitting else []), False
        return row(ACTOR, maybe(row(literal("("), stated)))

    def signed(self, text, at):
        """A request and its signature."""
        ends, goes_on = row(self.request, literal("~"))(text, at)
        found = [self.signature(text[at:end - 1])(text, end) for end in ends]
        return frozenset().union(*(more for more, _ in found)), goes_on or any(open_end for _, open_end in found)

    def signatures(self, text, at, stem, before):
        """Signatures that come after those of the signers before, on a chain whose slot and content make this stem of statements."""
        ends, goes_on = self.signature(f"{stem}{'+'.join(before) or '-'}")(text, at)
        for end in ends:
            if len(before) < 15 and text.startswith("+", end):
                signer = re.match("[rc][0-9]+", text[at:end])[0]
                more, more_goes_on = self.signatures(text, end + 1, stem, [*before, signer])
                ends, goes_on = ends | more, goes_on or more_goes_on
            goes_on = goes_on or (end == len(text) and len(before) < 15)
        return ends, goes_on

    def chain(self, text, at):
        ends, goes_on = row(NUM, literal("/"), self.value, literal("/"))(text, at)
        for end in ends:
            slot, value = text[at:end - 1].split("/", 1)
            signed = functools.partial(self.signatures, stem=f"{slot}/{content_of(value)}/", before=[])
            found = one_of(literal("-"), signed)(text, end)
            ends, goes_on = ends - {end} | found[0], goes_on or found[1]
        return ends, goes_on


ANY, PLAIN = Envelopes(False), Envelopes(True)


# ---- lines


def different_clients(text, at, left=tuple(CLIENTS), most=8):
    ends, goes_on = among(left)(text, at)
    for end in ends:
        if most > 1 and text.startswith("+", end):
            more, more_goes_on = different_clients(text, end + 1, tuple(client for client in left if client != text[at:end]), most - 1)
            ends, goes_on = ends | more, goes_on or more_goes_on
        goes_on = goes_on or (end == len(text) and most > 1)
    return ends, goes_on


FROM = row(literal(" from "), different_clients)
BEGIN = row(literal(" begin "), operation(" "))


def lines(n, loyal):
    """Of each kind of line how many events it has, and what recognises it."""
    ends = row(ACTOR, SPACE, ACTOR)
    return [
        (1, row(literal("post "), ends, maybe(one_of(FROM, BEGIN)))),
        (1, row(literal("plant "), ends, SPACE, ANY.envelope)),
        (1, row(among(["take ", "tell "]), ends)),
        (n, row(literal("posts "), REPLICA, maybe(FROM))),
        (n * loyal, literal("posts *")),
        (n, row(literal("plants "), REPLICA, SPACE, ANY.envelope)),
        (n, row(literal("takes "), ACTOR)),
        (n * n, literal("takes *")),
        (n, row(literal("asks "), CLIENT, maybe(BEGIN))),
        (n, row(literal("hears "), CLIENT)),
        (loyal, row(literal("replies "), CLIENT)),
    ]


LINES = functools.lru_cache(lines)


def traitors(n, f):
    """Of n replicas at most f, rising."""
    def rising(least, most):
        def look(text, at):
            ends, goes_on = among(REPLICAS[least:n])(text, at)
            for end in ends:
                number = int(text[at + 1:end])
                if most > 1 and number + 1 < n:
                    more, more_goes_on = row(literal("+"), rising(number + 1, most - 1))(text, end)
                    ends, goes_on = ends | more, goes_on or more_goes_on
            return ends, goes_on
        return look
    return one_of(literal("-"), *([rising(0, f)] if f else []))


def header(*titles):
    """A header that begins with one of these titles, of two words and a space."""
    def look(text, at):
        ends, goes_on = row(among(titles), decimal(1, 17), SPACE)(text, at)
        for end in ends:
            n = int(text[at:end].split(" ")[2])
            more, more_goes_on = row(decimal(0, (n - 1) // 2 + 1), SPACE)(text, end)
            goes_on = goes_on or more_goes_on
            for after in more:
                last = row(decimal(1, 33), SPACE, traitors(n, int(text[end:after])))(text, after)
                ends, goes_on = ends | last[0], goes_on or last[1]
        return frozenset(end for end in ends if text[at:end].count(" ") == 5), goes_on
    return look


def serve_line(n, m, traitors, used):
    """A line of a serve script, where these triples of a traitor, a round and an actor have a line already."""
    actors = REPLICAS[:n] + CLIENTS[:m]

    def scripted(traitor):
        def look(text, at):
            ends, goes_on = NUM(text, at)
            found = []
            for end in ends:
                left = [actor for actor in actors if (traitor, text[at:end], actor) not in used]
                found += [row(SPACE, among(left), SPACE, ANY.envelope)(text, end)] if left else []
            return frozenset().union(*(more for more, _ in found)), goes_on or any(more_goes_on for _, more_goes_on in found)
        return row(literal(f"script {traitor} "), look)

    return one_of(row(literal("ask "), among(CLIENTS[:m]), SPACE, operation(" ")), *(scripted(traitor) for traitor in traitors))


def step_line(envelopes):
    return row(ACTOR, among([" post ", " take "]), ACTOR, SPACE, envelopes.envelope)


REQUEST_LINE = row(CLIENT, SPACE, POSITIVE, SPACE, operation(" "))


# ---- texts


def first_bad(kind, line):
    """How many bytes the longest front of a line has that something of this kind begins with or is, and whether the line is such."""
    if len(line) in kind(line, 0)[0]:
        return len(line), True
    low, high = 0, len(line)
    while low < high:
        middle = (low + high + 1) // 2
        low, high = (middle, high) if is_front(kind, line[:middle]) else (low, middle - 1)
    return low, False


@functools.lru_cache(maxsize=200_000)
def first_bad_of_line(line, n, loyal, room):
    """The same of a line of a play with room for so many events, or for more than any line has, and how many events it has."""
    kinds = [(events, kind) for events, kind in LINES(n, loyal) if events <= room]
    for events, kind in kinds:
        if len(line) in kind(line, 0)[0]:
            return len(line), True, events
    return (*first_bad(one_of(*(kind for _, kind in kinds)), line), 0)


def fault_of(text):
    """The line and the column of the first byte with which no play goes on, both counted from 1; None if the text is a play. Of a text that could go on the
    column is that of the byte that is missing at its end."""
    all_lines = text.decode("latin-1").split("\n")
    good, is_whole = first_bad(header("dsr-play 1 "), all_lines[0])
    if not is_whole or len(all_lines) == 1:
        return 1, good + 1
    _, _, n, _, _, named = all_lines[0].split(" ")
    n, room = int(n), MOST_EVENTS
    loyal = n - (0 if named == "-" else len(named.split("+")))
    for number, line in enumerate(all_lines[1:], 2):
        if number == len(all_lines) and not line:
            return None
        good, is_whole, events = first_bad_of_line(line, n, loyal, min(room, 256))
        if not is_whole or number == len(all_lines):
            return number, good + 1
        room -= events
    return None


def first_fault(all_lines, kinds):
    """The line and the column of the first fault of lines that are each of a kind, which `kinds` gives for its number and the lines before it; or None."""
    for number, line in enumerate(all_lines, 1):
        is_last = number == len(all_lines)
        if is_last and not line:
            return None
        good, is_whole = first_bad(kinds(number, all_lines[:number - 1]), line)
        if not is_whole or is_last:
            return number, good + 1
    return None


def fault_of_script(text):
    """The same as `fault_of`, for serve scripts."""
    used = set()

    def kind(number, before):
        if number == 1:
            return header("dsr-serve 1 ")
        if before[-1].startswith("script "):
            used.add(tuple(before[-1].split(" ")[1:4]))
        _, _, n, _, m, named = before[0].split(" ")
        return serve_line(int(n), int(m), [] if named == "-" else named.split("+"), used)

    return first_fault(text.decode("latin-1").split("\n"), kind) if text else (1, 1)


def fault_of_transcript(text):
    """The same for transcripts."""
    steps = {"1": step_line(PLAIN), "2": step_line(ANY)}

    def kind(number, before):
        return steps[before[0].split(" ")[1]] if before else header("dsr-transcript 1 ", "dsr-transcript 2 ")

    return first_fault(text.decode("latin-1").split("\n"), kind) if text else (1, 1)


def fault_of_requests(text):
    """The same for request lines."""
    return first_fault(text.decode("latin-1").split("\n"), lambda number, before: REQUEST_LINE)
