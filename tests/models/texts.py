"""Whole texts: plays, serve scripts and transcripts. In a call ` | `, and ` |` at its end, stand for a line feed."""

from models import slow_check
from models import slow_play
from models import slow_texts
from models.transcript_text import Bad, Reader, actor_text, envelope_text, is_allowed, shape_text, step_text, whole

from models.calls import Refused, client, replica, rest, verb

NUMBERS = {"the shape is not allowed": 1, "reading failed": 17, "bad text in line": 13, "not a run at line": 14}


def text_of(reader):
    """Reads a text to the end of the call."""
    found = rest(reader)
    lines = found.removesuffix(" |").split(" | ")
    return ("\n".join(lines) + "\n" * found.endswith(" |")).encode("latin-1")


def told(text):
    """Writes a text as calls have it."""
    return text.replace("\n", " | ").removesuffix(" ") or None


def unless_refused(fault):
    """Raises the refusal that a program tells on standard error, if it tells one."""
    status, _, told = fault or (0, b"", b"")
    if status:
        words = told.decode().removeprefix("dsr: ").rstrip("\n")
        number = next(number for text, number in NUMBERS.items() if words.startswith(text))
        line = [words.split(" ")[-1]] if number in (13, 14) else []
        raise Refused(number, *line)


class Transcript:
    """The text of a transcript."""

    OPERANDS = (text_of,)

    def __init__(self, text):
        found, fault = slow_check.read_transcript(text)
        unless_refused(fault)
        self.whole, (self.its_version, self.its_shape, self.steps) = text, found

    @verb()
    def version(self):
        return self.its_version

    @verb()
    def shape(self):
        return shape_text(self.its_shape)

    @verb()
    def count(self):
        return len(self.steps)

    @verb(Reader.number)
    def step(self, place):
        return step_text(self.steps[place]) if place < len(self.steps) else None

    @verb()
    def text(self):
        return told(self.whole.decode())

    @verb()
    def verdict(self):
        found = slow_check.verdict_of(self.whole)
        unless_refused(found)
        return " | ".join(found[1].decode().splitlines())


class Play:
    """The shape and the events of a play."""

    OPERANDS = (text_of,)

    def __init__(self, text):
        play, fault = slow_play.read_play(text)
        unless_refused(fault)
        self.play = play

    @verb()
    def shape(self):
        return shape_text(self.play[0])

    @verb()
    def count(self):
        return len(self.play[1])

    @verb()
    def events(self):
        return " | ".join(map(slow_play.event_line, self.play[1])) or None


def drafted(line):
    """Returns what a line of a script says that a traitor posts: who, in which round, to whom, and the envelope's text."""
    words = line.split(" ", 4)
    return [words[1], int(words[2]), words[3], words[4]] if words[0] == "script" else None


class Script:
    """The text of a serve script."""

    OPERANDS = (text_of,)

    def __init__(self, text):
        script, fault = slow_texts.read_script(text)
        unless_refused(fault)
        self.read_shape, self.asked = script
        self.lines = text.decode().splitlines()[1:]

    @verb()
    def shape(self):
        return shape_text(self.read_shape)

    @verb(client)
    def ops(self, asker):
        operations = [operation for number, asked in enumerate(self.asked) for operation in asked if number == asker[1]]
        return " | ".join(map(" ".join, operations)) or None

    @verb(replica, Reader.number, Reader.actor)
    def draft(self, traitor, number, to):
        wanted = [actor_text(traitor), number, actor_text(to)]
        found = [words[3] for words in map(drafted, self.lines) if words and words[:3] == wanted]
        return envelope_text(whole(found[0].encode(), Reader.envelope)) if found else None


def title(reader):
    """Reads a title up to the spaced bar."""
    found, bar, _ = reader.text.partition(" |")
    if not bar:
        raise Bad
    reader.at = len(found) + len(bar)
    return found


@verb(title, text_of)
def header(wanted, text):
    """Answers with the shape of the header with this title at the beginning of the text."""
    line, ended, _ = text.partition(b"\n")
    start = f"{wanted} ".encode()
    shape = whole(line[len(start):], Reader.shape) if line.startswith(start) else None
    if shape is None or not ended:
        raise Refused(13, 1)
    if not is_allowed(shape):
        raise Refused(1)
    return shape_text(shape)
