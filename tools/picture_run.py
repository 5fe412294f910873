"""What tools/picture --svg draws: the data lines, read, and what happened in plain words. page/parts/picture.js does the same for pages, and tests/page.py
compares the two.

The events stand in bands: stretches of events that are all posts, or all takes. So a round of replicas is two bands, and an envelope goes from
the band of its post to that of its take.
"""

import re

TITLE = "dsr-explain 1 "
REFUSALS = {"E1": "BadShape", "E4": "Busy", "E5": "NotDue", "E6": "BoxFull", "E7": "BoxEmpty", "E8": "Forged", "E9": "Exhausted", "E12": "NoMemory",
            "E14": "NotARun", "E15": "NoActor", "E16": "WrongRole"}
KEPT, UNKEPT = ("first", "second"), ("not-new", "one-too-many")
FAULTS = ("wrong-count", "wrong-sender", "no-replica", "signed-twice", "misfit", "bad-request", "other-slot", "not-in-flight")
# Why an envelope is no vote, in words, by the word of its line; what belongs to it follows the word.
NO_VOTES = {"no-reply": "it is no reply", "nothing-outstanding": "no request is outstanding", "other-number": "request {} is outstanding",
            "has-voted": "it has voted, and only its first reply counts"}
# Notes that are not drawn, and how many parts each has.
UNDRAWN = {"silence": 2, "kept": 5, "hold": 2, "unproposed": 3}
MOST_LETTERS = 26
MOST_SHOWN = 3


class BadData(Exception):
    """The input is not what tools/picture reads."""


def counted(number, word):
    return f"{number} {word}" + ("" if number == 1 else "s")


def listed(items):
    """`a`, `a and b`, `a, b and c`."""
    items = list(items)
    return items[0] if len(items) == 1 else f"{', '.join(items[:-1])} and {items[-1]}"


def span(actors):
    """Actors in short, replicas before clients: three or more in a row as `r2 to r5`."""
    runs = []
    for actor in sorted(actors, key=lambda actor: (actor[0] == "c", int(actor[1:]))):
        kind, number = actor[0], int(actor[1:])
        if runs and runs[-1][0] == kind and runs[-1][2] == number - 1:
            runs[-1][2] = number
        else:
            runs.append([kind, number, number])
    parts = []
    for kind, low, high in runs:
        parts += [f"{kind}{low} to {kind}{high}"] if high - low > 1 else [f"{kind}{number}" for number in range(low, high + 1)]
    return ", ".join(parts)


def split(text, mark):
    """The items of a text that this mark joins, where it stands outside of parentheses."""
    items, depth, begun = [], 0, 0
    if "(" not in text:
        return text.split(mark)
    for at, letter in enumerate(text):
        depth += (letter == "(") - (letter == ")")
        if letter == mark and depth == 0:
            items.append(text[begun:at])
            begun = at + 1
    return [*items, text[begun:]]


class Chain:
    """What a replica made of a chain that it took."""

    def __init__(self, words):
        self.replica, slot, number, signers, self.content, self.fate = words
        self.slot, self.round = int(slot), int(number)
        self.signers = [] if signers == "-" else signers.split("+")
        if self.fate not in (*KEPT, *UNKEPT, *FAULTS):
            raise ValueError


class Event:
    def __init__(self, index, line, kind, a, b, outcome, envelope):
        self.index, self.line, self.kind, self.a, self.b = index, line, kind, a, b
        self.outcome, self.envelope = outcome, envelope
        self.notes = []
        self.band = None
        # the take of a post, the post of a take
        self.mate = None
        # the round in which a loyal replica takes it; of a post to a traitor, in which others take the same
        self.taken_in = None

    @property
    def is_done(self):
        return self.outcome == "done"

    @property
    def chains(self):
        return [note for word, note in self.notes if word == "chain"]

    def of(self, word):
        return [note for told, note in self.notes if told == word]


class Band:
    def __init__(self, is_posts):
        self.is_posts = is_posts
        self.events = []
        self.label = ""


class Run:
    """A run, as the data lines tell it."""

    def __init__(self, text):
        lines = text.split("\n")
        if not lines[0].startswith(TITLE):
            what = "this is a play" if lines[0].startswith("dsr-play ") else f"the first line is not a header `{TITLE}N F M TRAITORS`"
            raise BadData(f"{what}: pass what `dsr explain --data` writes of a play, as in `./dsr explain --data < NAME.play | tools/picture > NAME.html`, or `tools/steps` of a "
                          "transcript")
        if lines[-1]:
            raise BadData("the last line has no line feed: the data lines are cut short")
        try:
            n, f, m, traitors = lines[0][len(TITLE):].split(" ")
            self.n, self.f, self.m = int(n), int(f), int(m)
        except ValueError:
            raise BadData(f"the first line has no shape: it must be `{TITLE}N F M TRAITORS`") from None
        self.traitors = set() if traitors == "-" else set(traitors.split("+"))
        self.replicas = [f"r{number}" for number in range(self.n)]
        self.clients = [f"c{number}" for number in range(self.m)]
        self.actors = self.replicas + self.clients
        self.loyal = [replica for replica in self.replicas if replica not in self.traitors]
        self.events = []
        for number, line in enumerate(lines[1:-1], 2):
            try:
                self.read(line)
            except (ValueError, IndexError, KeyError):
                raise BadData(f"line {number} is not a data line that may come here: {line[:80]}") from None
        self.pair()
        self.find_bands()
        self.find_names()

    def sender(self, slot):
        return f"r{slot % self.n}"

    # ---- reading

    def read(self, line):
        word, _, rest = line.partition(" ")
        if word == "event":
            index, at, kind, a, b, outcome, envelope = rest.split(" ", 6)
            if int(index) != len(self.events):
                raise ValueError
            self.events.append(Event(int(index), int(at), kind, a, b, outcome, "" if envelope == "-" else envelope))
        elif word == "waits":
            # what is waited for at the end is told beside the page alone
            if len(rest.split(" ")) != 4:
                raise ValueError
        elif word in UNDRAWN:
            # what the event and other notes show already
            if len(rest.split(" ")) != UNDRAWN[word] or not self.events:
                raise ValueError
        else:
            self.events[-1].notes.append((word, self.note(word, rest)))

    @staticmethod
    def note(word, rest):
        if word == "why":
            return rest
        if word == "chain":
            return Chain(rest.split(" "))
        fields = {"close": 2, "decide": 4, "act": 3, "stale": 2, "vote": 4, "no-vote": 3, "accept": 4}[word]
        found = rest.split(" ", fields - 1)
        if len(found) != fields:
            raise ValueError
        if word == "no-vote":
            reason, *more = found[2].split(" ")
            found[2] = NO_VOTES[reason].format(*more)
        return found

    def pair(self):
        """Finds to each take its post, and in which round a loyal replica took it."""
        boxes, rounds = {}, dict.fromkeys(self.loyal, 0)
        for event in self.events:
            if not event.is_done:
                continue
            if event.kind != "take":
                boxes[event.a, event.b] = event
                continue
            event.mate = boxes.pop((event.b, event.a), None)
            if event.mate:
                event.mate.mate = event
            if event.a in rounds and event.b[0] == "r":
                event.taken_in = rounds[event.a]
                if event.mate:
                    event.mate.taken_in = event.taken_in
            for replica, number in event.of("close"):
                rounds[replica] = int(number) + 1

    def find_bands(self):
        """An event that was refused stands in the band of its own kind that goes on or begins there, if there is one."""
        self.bands, following = [], None
        kinds = []
        for event in reversed(self.events):
            following = event.kind != "take" if event.is_done else following
            kinds.append(following)
        for event, next_is_posts in zip(self.events, reversed(kinds)):
            is_posts = event.kind != "take"
            begins = self.bands and self.bands[-1].is_posts != is_posts and next_is_posts == is_posts
            if not self.bands or begins:
                self.bands.append(Band(is_posts))
            event.band = len(self.bands) - 1
            self.bands[-1].events.append(event)
        for band in self.bands:
            taken = {(event.a, event.envelope): event.taken_in for event in band.events if event.kind != "take" and event.taken_in is not None}
            for event in band.events:
                if event.kind != "take" and event.b in self.traitors:
                    event.taken_in = taken.get((event.a, event.envelope))
            closed = sorted({int(number) for event in band.events for _, number in event.of("close")})
            band.label = f"round {closed[0]}" + (f"–{closed[-1]}" if len(closed) > 1 else "") if closed else ""

    # ---- names of requests

    def find_names(self):
        """A letter for each request that stands in an envelope; where they are too many, its client and number."""
        found = {}
        for event in self.events:
            for request in re.findall(r"c\d+#\d+:[a-z0-9:._-]+", event.envelope):
                found.setdefault(request)
        self.requests = list(found)
        if len(self.requests) <= MOST_LETTERS:
            self.names = {request: chr(ord("A") + at) for at, request in enumerate(self.requests)}
            return
        self.names, told = {}, {}
        for request in self.requests:
            short = request.split(":")[0]
            self.names[request] = short + "'" * told.get(short, 0)
            told[short] = told.get(short, 0) + 1

    @property
    def has_letters(self):
        return len(self.requests) <= MOST_LETTERS

    def joined(self, names, is_short):
        """The names of the requests of a content. In short of a long list only the first is told, where there are no letters."""
        names = list(names)
        if self.has_letters:
            return "".join(names)
        return f"{names[0]} and {len(names) - 1} more" if is_short and len(names) > 2 else ",".join(names)

    def content_name(self, content, is_short=False):
        return content if content == "idle" else self.joined((self.names.get(request, request) for request in content.split(",")), is_short)

    def request_name(self, signed):
        """The name of a signed request, with a star where the signature beside it is not its client's on it."""
        request, _, beside = signed.partition("~")
        return self.names.get(request, request) + ("" if beside == request.split("#")[0] else "*")

    def chain_name(self, chain, is_short):
        """A chain in short, as A/r0+r1. A star stands at a signature on something else than what fits there."""
        _, value, signatures = split(chain, "/")
        content = value if value == "idle" else self.joined(map(self.request_name, split(value, ",")), is_short)
        signers = [signature.split("(")[0] + ("*" if "(" in signature else "") for signature in split(signatures, "+")]
        return f"{content}/{'+'.join(signers)}"

    # ---- words

    def says_other_round(self, event):
        """Whether a loyal replica took this envelope in another round than it says."""
        words = event.envelope.split(" ")
        return words[0] == "round" and event.taken_in is not None and words[1] != str(event.taken_in)

    def envelope_words(self, event, most=MOST_SHOWN):
        """What an envelope says, in short."""
        word, *rest = event.envelope.split(" ")
        if word == "round":
            return self.chains_words(rest, most, self.says_other_round(event))
        if word == "ask":
            return f"{'asks for' if event.a[0] == 'c' else 'the ask for'} {self.request_name(rest[0])}"
        if word == "reply":
            return f"replies to number {rest[0]}: place {rest[1]}, {' '.join(rest[2:])}"
        if word == "seen":
            return f"has seen {rest[0]}"
        return "nothing"

    def chains_words(self, rest, most, is_off):
        number, chains = rest[0], rest[1:]
        by_slot = {}
        for chain in chains[:most]:
            by_slot.setdefault(chain.split("/", 1)[0], []).append(self.chain_name(chain, most == MOST_SHOWN))
        parts = [f"slot {slot} {', '.join(names)}" for slot, names in by_slot.items()]
        more = [f"{len(chains) - most} more chains"] if len(chains) > most else []
        return (f"as of round {number}: " if is_off else "") + ("; ".join(parts + more) or "no chain")

    def is_loud(self, event):
        """Whether the envelope says anything."""
        return event.envelope not in ("", "empty")

    def reason_to_ignore(self, event):
        """Why a loyal actor makes nothing of what it takes, which is no chain that it drops; None where that is not so."""
        word = event.envelope.split(" ")[0]
        if event.kind != "take" or not event.is_done or event.a in self.traitors or event.b[0] == "c" or word in ("", "empty"):
            return None
        if event.a[0] == "c":
            return {"reply": None, "seen": "what a replica says it has seen counts for nothing"}.get(word, "it is no reply")
        if word != "round":
            return "it has no chains, as it is of no round"
        said = event.envelope.split(" ")[1]
        return f"it says round {said} in round {event.taken_in}, so it counts as no chains" if self.says_other_round(event) else None

    def is_dropped(self, event):
        """Whether this is a loyal actor's take of which it makes nothing, or not all."""
        return self.reason_to_ignore(event) is not None or event.kind == "take" and any(chain.fate in FAULTS for chain in event.chains)

    # ---- the lines beside a band: pairs of a kind and a text

    def lines_of(self, band, most_lines=None):
        lines = self.lines_of_posts(band) if band.is_posts else self.lines_of_takes(band)
        lines += self.lines_of_refused(band)
        if most_lines and len(lines) > most_lines:
            lines = [*lines[:most_lines - 1], ("plain", f"and {len(lines) - most_lines + 1} lines more")]
        return lines

    def lines_of_posts(self, band):
        said = {}
        for event in band.events:
            if event.is_done and event.kind != "take":
                said.setdefault(event.a, {}).setdefault(self.envelope_words(event), []).append(event.b)
        lines, silent = {}, []
        for actor in self.actors:
            texts = said.get(actor, {})
            if list(texts) == ["nothing"]:
                silent.append(actor)
                continue
            kind = "traitor" if actor in self.traitors else "client" if actor[0] == "c" else "plain"
            for text, to in sorted(texts.items(), key=lambda item: item[0] == "nothing"):
                lines.setdefault((kind, self.all_or(to), text), []).append(actor)
        shown = [(kind, f"{span(actors)} → {to}: {text}") for (kind, to, text), actors in lines.items()]
        return shown + ([("quiet", f"{span(silent)}: nothing")] if silent else [])

    def all_or(self, actors):
        return "all" if actors == self.replicas and self.n > 1 else span(actors)

    def lines_of_takes(self, band):
        groups = {}

        def group(kind, text, actor):
            groups.setdefault((kind, text), [])
            if actor not in groups[kind, text]:
                groups[kind, text].append(actor)

        for event in band.events:
            reason = self.reason_to_ignore(event)
            if reason:
                group("dropped", f"{{}} ignored what {event.b} posted: {reason}", event.a)
            for word, note in event.notes:
                self.group_note(event, word, note, group)
        for text, replica in self.dropped_in(band):
            group("dropped", text, replica)
        for client, votes in self.votes_in(band).items():
            for envelope, (count, needed, replicas) in votes.items():
                _, _, place, answer = envelope.split(" ", 3)
                group("vote", f"{client} has {count} of {needed} votes for place {place}, {answer}: {span(replicas)}", client)
        order = ["kept", "second", "dropped", "decided", "idle", "acts", "stale", "vote", "no-vote", "accepted"]
        return [(kind, text.format(span(actors))) for (kind, text), actors in sorted(groups.items(), key=lambda item: order.index(item[0][0]))]

    def dropped_in(self, band):
        """Pairs of a text and a replica for the chains that are dropped for a fault; many with one fault are only counted."""
        by_fate = {}
        for event in band.events:
            for chain in event.chains:
                if chain.fate in FAULTS:
                    by_fate.setdefault(chain.fate, {}).setdefault(chain.replica, []).append(chain)
        for fate, by_replica in by_fate.items():
            is_many = any(len(chains) > MOST_SHOWN for chains in by_replica.values())
            for replica, chains in by_replica.items():
                names = [f"slot {c.slot} {self.content_name(c.content, True)}/{'+'.join(c.signers) or '-'}" for c in chains]
                for name in [counted(len(chains), "chain")] if is_many else names:
                    yield f"{{}} dropped {name}: {fate.replace('-', ' ')}", replica

    @staticmethod
    def votes_in(band):
        """By clients and replies: how many votes there are after the band, how many are needed, and whose came in it."""
        found = {}
        for event in band.events:
            for client, replica, count, needed in event.of("vote"):
                before = found.setdefault(client, {}).get(event.envelope, (0, 0, []))
                found[client][event.envelope] = count, needed, [*before[2], replica]
        return found

    def group_note(self, event, word, note, group):
        if word == "chain":
            content = self.content_name(note.content, True)
            if note.fate == "first":
                group("kept", f"{{}} kept {content} of slot {note.slot}", note.replica)
            elif note.fate == "second":
                group("second", f"{{}} kept {content} of slot {note.slot} too", note.replica)
        elif word == "decide":
            replica, slot, kept, content = note
            said = f"idle, {kept if kept != '0' else 'none'} kept" if content == "idle" else self.content_name(content, True)
            group("idle" if content == "idle" else "decided", f"{{}} decided slot {slot}: {said}", replica)
        elif word == "act":
            group("acts", f"{{}}: {self.content_name(note[2])} acts at place {note[1]}", note[0])
        elif word == "stale":
            group("stale", f"{{}}: {self.content_name(note[1])} does not act", note[0])
        elif word == "no-vote":
            group("no-vote", f"{note[0]} counts no vote of {{}}: {note[2]}", note[1])
        elif word == "accept":
            group("accepted", f"{note[0]} accepted number {note[1]}: place {note[2]}, {note[3]}", note[0])

    def lines_of_refused(self, band):
        groups = {}
        for event in band.events:
            if not event.is_done:
                tried = f": {self.envelope_words(event)}" if event.envelope else ""
                arrow = "←" if event.kind == "take" else "→"
                groups.setdefault((event.a, arrow, f"{tried} refused, {self.refusal(event)}"), []).append(event.b)
        return [("refused", f"{actor} {arrow} {span(dict.fromkeys(others))}{words}") for (actor, arrow, words), others in groups.items()]

    @staticmethod
    def refusal(event):
        name = REFUSALS.get(event.outcome)
        return f"{event.outcome} {name}" if name else event.outcome

    def shape_words(self):
        traitors = [replica for replica in self.replicas if replica in self.traitors]
        told = f"{listed(traitors)} {'is a traitor' if len(traitors) == 1 else 'are traitors'}" if traitors else "no traitor"
        return f"{counted(self.n, 'replica')}, f = {self.f}, {counted(self.m, 'client')}; {told}"

    # ---- slots

    def marks(self, contents):
        """A short mark for each of the contents of a slot: its name if there is room for it, else a small letter."""
        marks, most = {}, 2 if self.n <= 8 else 1
        for content in contents:
            if content not in marks:
                name = "∅" if content == "idle" else self.content_name(content)
                marks[content] = name if len(name) <= most else chr(ord("a") + sum(mark.islower() for mark in marks.values()) % 26)
        return marks

    def key_of(self, marks):
        """What the marks stand for that are no names."""
        return ", ".join(f"{mark} = {self.content_name(content)}" for content, mark in marks.items() if mark.islower())

    def slots(self):
        """What was kept and decided of each slot: by slots, a pair of a table of (replica, round) to (event, content, whether it is the
        second), and a table of replicas to (event, how many were kept, content)."""
        table = {}
        for event in self.events:
            for word, note in event.notes:
                if word == "chain" and note.fate in KEPT:
                    kept, _ = table.setdefault(note.slot, ({}, {}))
                    kept.setdefault((note.replica, note.slot + note.round - 1), []).append((event.index, note.content, note.fate == "second"))
                elif word == "decide":
                    table.setdefault(int(note[1]), ({}, {}))[1][note[0]] = (event.index, int(note[2]), note[3])
        return table

    def rounds(self):
        """How many rounds some loyal replica closed, and the one after them if anything was posted in it."""
        closed = [int(number) + 1 for event in self.events for _, number in event.of("close")]
        shown = [slot + chain.round for event in self.events for chain in event.chains if chain.fate in KEPT for slot in [chain.slot]]
        return max([*closed, *shown, 1])
