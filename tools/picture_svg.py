"""The picture of a whole small run as one SVG: the actors' lanes, and below them the slots against the rounds."""

import textwrap
from xml.sax.saxutils import escape

# What is drawn of a long run: its first bands, with so many events.
MOST_EVENTS, MOST_BANDS = 1_000, 40
MOST_LINES = 24
MOST_REQUESTS = 12

LEFT, TOP, TEXT_WIDTH, LINE = 74, 92, 420, 14
LETTERS_A_LINE = 72

SANS = "system-ui,-apple-system,'Segoe UI',Roboto,'Helvetica Neue',Arial,sans-serif"
MONO = "ui-monospace,SFMono-Regular,Menlo,Consolas,'Liberation Mono',monospace"
COLOURS = {
    "ink": "#1f2933", "soft": "#616e7c", "line": "#d5dae0", "band": "#f6f8fa",
    "loyal": "#2a5d8f", "quiet": "#b4bdc8", "traitor": "#b93a10", "traitor-quiet": "#e2b29f",
    "refused": "#7a2f91", "decided": "#1c6e45", "idle": "#616e7c",
    "first": "#dbe8f5", "second": "#fbe2bd", "second-edge": "#a05e00",
}
# The colour of each kind of line beside a band.
LINES = {"plain": "ink", "client": "ink", "traitor": "traitor", "quiet": "soft", "kept": "loyal", "second": "second-edge", "dropped": "refused",
         "refused": "refused", "decided": "decided", "idle": "idle", "acts": "decided", "stale": "soft", "vote": "ink", "no-vote": "refused",
         "accepted": "decided"}
STYLE = """
text{font:12px SANS;fill:ink}
.m{font-family:MONO;font-size:11px}
.h{font-size:17px;font-weight:600}
.s{fill:soft}
.b{font-weight:600}
.k{text-anchor:middle}
.w{fill:#fff}
.z{font-size:10px}
.zz{font-size:8.5px}
.g path{fill:none}
.e{stroke:quiet}.e path{marker-end:url(#e)}
.l{stroke:loyal;stroke-width:1.5}.l path{marker-end:url(#l)}
.q{stroke:traitor-quiet}.q path{marker-end:url(#q)}
.t{stroke:traitor;stroke-width:1.7}.t path{marker-end:url(#t)}
.n path{marker-end:none}
.x{stroke:refused;stroke-width:1.7;fill:none}
.d{stroke:refused;stroke-width:1.5;stroke-dasharray:4 3;fill:none}
"""


def colour(name):
    return COLOURS[name]


def number(value):
    """A coordinate, as short as it goes."""
    return f"{value:.1f}".removesuffix(".0")


def style():
    text = STYLE.replace("SANS", SANS).replace("MONO", MONO)
    for name in sorted(COLOURS, key=len, reverse=True):
        text = text.replace(f":{name};", f":{COLOURS[name]};").replace(f":{name}}}", f":{COLOURS[name]}}}")
    return "".join(text.split("\n"))


def spacing(lanes):
    return 84 if lanes <= 5 else 62 if lanes <= 9 else 44 if lanes <= 14 else 36 if lanes <= 20 else 26


class Drawing:
    """The parts of an SVG, one after another, and how far they reach."""

    def __init__(self):
        self.parts, self.width, self.height = [], 0, 0

    def add(self, part):
        self.parts.append(part)

    def text(self, x, y, words, classes="", fill=""):
        if not words:
            return
        shown = f' class="{classes}"' if classes else ""
        filled = f' style="fill:{fill}"' if fill else ""
        self.parts.append(f'<text x="{number(x)}" y="{number(y)}"{shown}{filled}>{escape(words)}</text>')

    def rect(self, x, y, width, height, fill, stroke="", radius=0):
        edge = f' stroke="{stroke}"' if stroke else ""
        round_ = f' rx="{radius}"' if radius else ""
        self.parts.append(f'<rect x="{number(x)}" y="{number(y)}" width="{number(width)}" height="{number(height)}" fill="{fill}"{edge}{round_}/>')

    def path(self, d, classes="", stroke="", more=""):
        shown = f' class="{classes}"' if classes else ""
        edge = f' stroke="{stroke}"' if stroke else ""
        self.parts.append(f'<path d="{d}"{shown}{edge}{more}/>')

    def reach(self, width, height):
        self.width, self.height = max(self.width, width), max(self.height, height)


class Lanes:
    """The lanes of the actors with the first bands of a run."""

    def __init__(self, run, drawing):
        self.run, self.drawing = run, drawing
        self.gap = spacing(len(run.actors))
        self.x = {actor: LEFT + self.gap * (at + 0.5) for at, actor in enumerate(run.actors)}
        self.text_x = LEFT + self.gap * len(run.actors) + 14
        self.shown = self.bands_shown()
        self.events = [event for band in run.bands[:self.shown] for event in band.events]
        self.rows, self.lines, y = [], [], TOP + 34
        for band in run.bands[:self.shown]:
            lines = [(kind, piece) for kind, line in run.lines_of(band, MOST_LINES) for piece in wrapped(line)]
            least = (58 + 3 * min(len(run.actors), 12)) if band.is_posts else 46
            self.rows.append(y)
            self.lines.append(lines)
            y += max(least, LINE * len(lines) + 16)
        self.end = y

    def bands_shown(self):
        """How many bands are drawn: where not all are, no posts without their takes."""
        shown, events = 0, 0
        for band in self.run.bands:
            if shown >= 2 and (events + len(band.events) > MOST_EVENTS or shown == MOST_BANDS):
                return shown - (shown > 2 and self.run.bands[shown - 1].is_posts)
            shown, events = shown + 1, events + len(band.events)
        return shown

    def draw(self):
        self.draw_bands()
        self.draw_heads()
        self.draw_arrows()
        self.draw_marks()
        self.drawing.reach(self.text_x + TEXT_WIDTH, self.end)

    def draw_bands(self):
        drawing = self.drawing
        for at, (band, y) in enumerate(zip(self.run.bands, self.rows)):
            if band.label:
                begun = self.rows[at - 1] if at else y
                next_row = self.rows[at + 1] if at + 1 < self.shown else self.end
                drawing.rect(LEFT - 6, begun - 13, self.text_x + TEXT_WIDTH - LEFT + 6, next_row - begun, colour("band"), radius=4)
                drawing.text(10, (begun + y) / 2 + 4, band.label, "b s")
        for x in self.x.values():
            drawing.path(f"M{number(x)} {TOP}V{number(self.end - 8)}", stroke=colour("line"))
        for lines, y in zip(self.lines, self.rows):
            for at, (kind, line) in enumerate(lines):
                drawing.text(self.text_x, y + 4 + LINE * at, line, fill=colour(LINES[kind]))

    def draw_heads(self):
        drawing = self.drawing
        width = min(self.gap - 6, 44)
        for actor, x in self.x.items():
            is_traitor = actor in self.run.traitors
            fill = colour("traitor") if is_traitor else colour("loyal") if actor[0] == "r" else "#fff"
            radius = 2 if is_traitor else 11
            drawing.rect(x - width / 2, TOP - 12, width, 22, fill, colour("soft") if actor[0] == "c" else "", radius)
            drawing.text(x, TOP + 3.5, actor, "k b" + ("" if actor[0] == "c" else " w") + (" z" if self.gap < 32 else ""))
            if is_traitor and self.gap >= 40:
                drawing.text(x, TOP - 17, "traitor", "k z", colour("traitor"))

    def draw_arrows(self):
        groups = {f"{name}{rest}": [] for name in "eqlt" for rest in ("", " n")}
        for event in self.events:
            if event.kind == "take" or not event.is_done:
                continue
            is_loud, is_traitor = self.run.is_loud(event), event.a in self.run.traitors
            name = ("t" if is_loud else "q") if is_traitor else ("l" if is_loud else "e")
            groups[name + ("" if self.is_taken(event) else " n")].append(self.arrow(event))
        for name, arrows in groups.items():
            if arrows:
                self.drawing.add(f'<g class="g {name}">' + "".join(f'<path d="{d}"/>' for d in arrows) + "</g>")

    def is_taken(self, event):
        return event.mate is not None and event.mate.band < self.shown

    def arrow(self, event):
        x, y, to = self.x[event.a], self.rows[event.band], self.x[event.b]
        if not self.is_taken(event):
            # it still lies in its box
            end = x + max(-40, min(40, to - x)) * 0.6, y + 20
            return f"M{number(x)} {number(y)} {number(end[0])} {number(end[1])}m-3 0h6v6h-6z"
        end = self.rows[event.mate.band]
        if event.a == event.b:
            return f"M{number(x)} {number(y)}c{number(self.gap * .3)} 14 {number(self.gap * .3)} {number(end - y - 20)} 3 {number(end - y - 5)}"
        length = ((to - x) ** 2 + (end - y) ** 2) ** 0.5
        return f"M{number(x)} {number(y)} {number(to - (to - x) * 5 / length)} {number(end - (end - y) * 5 / length)}"

    def draw_marks(self):
        places, refused = {}, {}
        for event in self.events:
            if event.is_done:
                places.setdefault((event.a, event.band), []).append(event)
            else:
                at = refused[event.a, event.b, event.band] = refused.get((event.a, event.b, event.band), -1) + 1
                self.draw_refused(event, at)
        for (actor, band), events in places.items():
            self.draw_dot(actor, self.rows[band], self.run.bands[band].is_posts)
            for event in events:
                self.draw_outcome(actor, self.rows[band], event)

    def draw_dot(self, actor, y, is_posts):
        x, is_traitor = self.x[actor], actor in self.run.traitors
        edge = colour("traitor") if is_traitor else colour("loyal")
        fill = edge if is_posts else "#fff"
        if is_traitor:
            self.drawing.rect(x - 3.5, y - 3.5, 7, 7, fill, edge)
        else:
            self.drawing.add(f'<circle cx="{number(x)}" cy="{number(y)}" r="3.5" fill="{fill}" stroke="{edge}"/>')

    def draw_outcome(self, actor, y, event):
        if self.run.is_dropped(event):
            x, begun = self.x[actor], self.rows[event.mate.band]
            aside = self.gap * .3 if event.a == event.b else 0.16 * (self.x[event.b] - x)
            cross_y = y - 0.16 * (y - begun)
            cross(self.drawing, x + aside, cross_y)
        for at, (_, slot, _, content) in enumerate(event.of("decide")):
            name = self.run.content_name(content)
            self.draw_badge(actor, y + 8 + 15 * at, [f"{slot}: {name}", name, slot], "idle" if content == "idle" else "decided")
        for _, accepted, _, _ in event.of("accept"):
            self.draw_badge(actor, y + 8, [f"✓ {accepted}", "✓"], "decided")

    def draw_badge(self, actor, y, choices, kind):
        """Writes the first of these words for which there is room, else the last."""
        words = next((choice for choice in choices if len(choice) <= (self.gap - 8) / 5.6), choices[-1])
        width = 8 + 5.8 * len(words)
        self.drawing.rect(self.x[actor] - width / 2, y, width, 14, "#fff" if kind == "idle" else colour(kind), colour(kind), 7)
        self.drawing.text(self.x[actor], y + 10.5, words, "k z" + ("" if kind == "idle" else " w"))

    def draw_refused(self, event, at):
        """A stub towards the other end; the next ones between the same two are longer."""
        x, y = self.x.get(event.a, LEFT), self.rows[event.band]
        aside = self.x.get(event.b, x) - x
        end = x + max(-60, min(60, aside or 20)) * (0.4 + 0.2 * at), y + 20 + 11 * at
        self.drawing.path(f"M{number(x)} {number(y)}L{number(end[0])} {number(end[1])}", "d")
        cross(self.drawing, *end)


def wrapped(line):
    return textwrap.wrap(line, LETTERS_A_LINE, subsequent_indent="\u2003", break_long_words=True, break_on_hyphens=False) or [line]


# ---- slots against rounds


class Grid:
    def __init__(self, run, lanes, drawing):
        self.run, self.drawing, self.lanes = run, drawing, lanes
        self.last_event = lanes.events[-1].index if lanes.events else -1
        self.box = 24 if run.n <= 5 else 18 if run.n <= 8 else 13
        self.cell = self.box * run.n + 12
        closed = [int(r) + 1 for event in lanes.events for _, r in event.of("close")]
        kept = [chain.slot + chain.round for event in lanes.events for chain in event.chains if chain.fate in ("first", "second")]
        self.rounds = max([*closed, *kept, 0])
        self.slots = run.slots()

    def draw(self, y):
        """Draws it from this height on, and gives where it ends."""
        drawing = self.drawing
        if not self.rounds:
            return y
        drawing.text(10, y + 14, "What each replica kept of each slot, by rounds", "b")
        y += 34
        for at in range(self.rounds):
            x = LEFT + self.cell * at
            drawing.text(x, y, f"round {at}", "s")
            for place, replica in enumerate(self.run.replicas):
                fill = colour("traitor") if replica in self.run.traitors else colour("soft")
                words, size = (replica, "z") if self.box >= 18 else (replica[1:], "zz")
                drawing.text(x + self.box * (place + 0.5) - 1, y + 14, words, f"k {size}", fill)
        drawing.text(LEFT + self.cell * self.rounds + 4, y, "decided", "s")
        y += 22
        for slot in range(self.rounds):
            self.draw_slot(slot, y)
            y += 38
        drawing.reach(LEFT + self.cell * self.rounds + 190, y)
        return y

    def draw_slot(self, slot, y):
        run, drawing = self.run, self.drawing
        sender = run.sender(slot)
        drawing.text(10, y + 12, f"slot {slot}", "b")
        drawing.text(10, y + 25, f"of {sender}", "z", colour("traitor") if sender in run.traitors else colour("soft"))
        kept, decided = self.slots.get(slot, ({}, {}))
        marks = run.marks(content for told in kept.values() for _, content, _ in told)
        for at in range(slot, min(slot + run.f + 1, self.rounds)):
            for place, replica in enumerate(run.replicas):
                x = LEFT + self.cell * at + self.box * place
                if replica in run.traitors:
                    drawing.rect(x, y, self.box - 2, 30, "url(#hatch)", colour("traitor-quiet"))
                    continue
                drawing.rect(x, y, self.box - 2, 30, "#fff", colour("line"))
                for event, content, is_second in kept.get((replica, at), []):
                    if event <= self.last_event:
                        self.draw_kept(x, y, marks[content], is_second)
        decisions = {replica: told for replica, told in decided.items() if told[0] <= self.last_event}
        end = self.draw_decision(slot, LEFT + self.cell * self.rounds + 4, y, decisions)
        drawing.text(end + 8, y + 17, run.key_of(marks), "z s")

    def draw_kept(self, x, y, mark, is_second):
        top = y + 15 if is_second else y
        fill, edge = (colour("second"), colour("second-edge")) if is_second else (colour("first"), colour("loyal"))
        self.drawing.rect(x, top, self.box - 2, 15, fill, edge)
        self.drawing.text(x + (self.box - 2) / 2, top + 11.2, mark, "k z")

    def draw_decision(self, slot, x, y, decisions):
        groups, end = {}, x
        for replica, (_, kept, content) in decisions.items():
            groups.setdefault((content, kept), []).append(replica)
        if not groups:
            self.drawing.text(x, y + 19, "in flight", "s")
            return x + 50
        for at, ((content, kept), replicas) in enumerate(groups.items()):
            name = self.run.content_name(content)
            name = name if len(name) <= 18 else name[:17] + "…"
            width = 12 + 6.4 * len(name)
            kind = "idle" if content == "idle" else "decided"
            top = y + 15 * at + (6 if len(groups) == 1 else 0)
            self.drawing.rect(x, top, width, 15, "#fff" if kind == "idle" else colour(kind), colour(kind), 7)
            self.drawing.text(x + width / 2, top + 11, name, "k z" + ("" if kind == "idle" else " w"))
            everyone = "" if len(replicas) == len(self.run.loyal) else f", {len(replicas)} of {len(self.run.loyal)}"
            words = f"{kept or 'none'} kept{everyone}"
            self.drawing.text(x + width + 6, top + 11, words, "z s")
            end = max(end, x + width + 6 + 5.6 * len(words))
        return end


# ---- names and signs


def draw_names(run, drawing, y):
    if not run.requests or not run.has_letters:
        return y
    drawing.text(10, y + 14, "Requests", "b")
    x, row = LEFT + 20, y + 14
    for request in run.requests[:MOST_REQUESTS]:
        words = f"{run.names[request]} = {request}"
        if x > LEFT + 20 and x + 6.8 * len(words) > max(drawing.width, 560):
            x, row = LEFT + 20, row + 17
        drawing.text(x, row, words, "m")
        x += 6.8 * len(words) + 22
    if len(run.requests) > MOST_REQUESTS:
        drawing.text(x, row, f"and {len(run.requests) - MOST_REQUESTS} more", "s")
    return row + 12


def dots(drawing, x, y):
    for at, fill in [(5, colour("loyal")), (15, "#fff")]:
        drawing.add(f'<circle cx="{number(x + at)}" cy="{number(y - 4)}" r="3.5" fill="{fill}" stroke="{colour("loyal")}"/>')


def stub(drawing, x, y):
    drawing.path(f"M{number(x)} {number(y - 4)}h18", "d")
    cross(drawing, x + 20, y - 4)


def cross(drawing, x, y):
    drawing.path(f"M{number(x - 4)} {number(y - 4)}l8 8m0-8l-8 8", "x")


def legend(run):
    """What each sign means: how wide it is, a way to draw it at a place, and its words."""
    def line(classes):
        return lambda d, x, y: d.add(f'<g class="g {classes}"><path d="M{number(x)} {number(y - 4)}h24"/></g>')

    def box(fill, edge, radius=0):
        return lambda d, x, y: d.rect(x, y - 11, 18, 14, fill, colour(edge), radius)

    posts = [event for event in run.events if event.is_done and event.kind != "take"]
    drawn = {(event.a in run.traitors, run.is_loud(event)) for event in posts}
    yield 34, line("l"), "an envelope that says something"
    for is_traitor, is_loud, classes, words in [(False, False, "e", "an empty one"), (True, True, "t", "a traitor's"),
                                                (True, False, "q", "a traitor's empty one")]:
        if (is_traitor, is_loud) in drawn:
            yield 34, line(classes), words
    if any(event.mate is None for event in posts):
        yield 14, lambda d, x, y: d.path(f"M{number(x)} {number(y - 7)}h6v6h-6z", stroke=colour("loyal"), more=' fill="none"'), "left in its box"
    yield 24, dots, "posts, takes"
    if any(run.is_dropped(event) for event in run.events):
        yield 16, lambda d, x, y: cross(d, x + 4, y - 4), "dropped, or something of it"
    if any(not event.is_done for event in run.events):
        yield 32, stub, "refused, as a forgery is"
    fates = {chain.fate for event in run.events for chain in event.chains}
    if "first" in fates:
        yield 24, box(colour("first"), "loyal"), "kept first"
    if "second" in fates:
        yield 24, box(colour("second"), "second-edge"), "kept second"
    decided = {content == "idle" for event in run.events for *_, content in event.of("decide")}
    if False in decided:
        yield 24, box(colour("decided"), "decided", 7), "a decided value"
    if True in decided:
        yield 24, box("#fff", "idle", 7), "decided idle"
    if any(chain.content == "idle" and chain.fate in ("first", "second") for event in run.events for chain in event.chains):
        yield 14, lambda d, x, y: d.text(x, y, "∅"), "the content idle"
    if any("(" in event.envelope for event in run.events):
        yield 12, lambda d, x, y: d.text(x, y + 1, "*"), "a signature on something else"


def draw_legend(run, drawing, y):
    x, row = 10, y + 16
    for width, draw, words in legend(run):
        whole = width + 6.3 * len(words) + 18
        if x > 10 and x + whole > max(drawing.width, 560):
            x, row = 10, row + 20
        draw(drawing, x, row)
        drawing.text(x + width, row, words, "s")
        x += whole
    return row + 14


def svg_of(run, title=""):
    drawing = Drawing()
    lanes = Lanes(run, drawing)
    title = title or "A run"
    lanes.draw()
    y = lanes.end
    left = len(run.events) - len(lanes.events)
    if left:
        drawing.text(LEFT, y + 12, f"The run goes on: {left} events more, to round {run.rounds() - 1}.", "b")
        y += 26
    drawing.path(f"M10 {number(y)}H{number(drawing.width - 10)}", stroke=colour("line"))
    y = Grid(run, lanes, drawing).draw(y + 8) + 8
    y = draw_names(run, drawing, y)
    y = draw_legend(run, drawing, y + 6)
    drawing.reach(0, y)
    drawing.text(10, 28, title, "h")
    drawing.text(10, 48, f"{run.shape_words()}. Time goes down; each envelope goes from its post to its take.", "s")
    width, height = number(drawing.width + 10), number(drawing.height + 6)
    markers = "".join(
        f'<marker id="{name}" viewBox="0 0 8 8" refX="7" refY="4" markerWidth="{size}" markerHeight="{size}" markerUnits="userSpaceOnUse" '
        f'orient="auto"><path d="M0 1 7 4 0 7z" fill="{colour(fill)}"/></marker>'
        for name, fill, size in [("e", "quiet", 7), ("l", "loyal", 9), ("q", "traitor-quiet", 7), ("t", "traitor", 9)]
    )
    hatch = (f'<pattern id="hatch" width="5" height="5" patternUnits="userSpaceOnUse" patternTransform="rotate(45)">'
             f'<rect width="5" height="5" fill="#fff"/><path d="M0 0V5" stroke="{colour("traitor-quiet")}" stroke-width="2"/></pattern>')
    return "\n".join([
        f'<svg xmlns="http://www.w3.org/2000/svg" viewBox="0 0 {width} {height}" width="{width}" height="{height}" role="img">',
        f"<title>{escape(title)}</title>",
        f"<desc>{escape(run.shape_words())}. {len(run.events)} events.</desc>",
        f"<style>{style()}</style>",
        f"<defs>{markers}{hatch}</defs>",
        f'<rect width="{width}" height="{height}" fill="#fff"/>',
        *drawing.parts,
        "</svg>",
        "",
    ])
