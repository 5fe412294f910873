"""Plays of which an event is refused for want of memory."""

import re

from models import slow_play


def each_event_twice(text):
    """The play with each of its events twice, one right after the other. Where the first is done, the second is refused."""
    (_, events), _ = slow_play.read_play(text)
    return text[:text.index(b"\n") + 1] + b"".join(2 * f"{slow_play.event_line(event)}\n".encode() for event in events)


class Starved:
    """What a play must give if one of its events, whichever of those that would be done, is refused for want of memory."""

    def __init__(self, words, text):
        self.words, self.found = words, {}
        play, fault = slow_play.read_play(text) if words.startswith("play") else (None, None)
        self.shape, self.events = play if play and not fault else (None, [])
        world = slow_play.World(self.shape) if self.events else None
        if world:
            world.run(self.events)
        refused = {index for index, _ in world.refused} if world else set()
        self.done = [index for index in range(len(self.events)) if index not in refused]
        self.told = set()

    def world(self, index):
        """The world after the play, without this event."""
        world = slow_play.World(self.shape)
        world.run(self.events[:index])
        world.refused.append((index, 12))
        world.run(self.events[index + 1:])
        return world

    def output(self, index):
        if index not in self.found:
            world = self.world(index)
            is_report = self.words == "play"
            self.found[index] = (world.report() if is_report else world.transcript()).encode(), world.check_report().encode()
        return self.found[index]

    def likely_first(self, output):
        """The events that were done, with the one first of which the report says that it is the first that was refused."""
        first = re.search(rb"^first (\d+) E12 NoMemory$", output, re.M)
        index = int(first[1]) if first else -1
        return [index, *(other for other in self.done if other != index)] if index in self.done else self.done

    def tells(self, output, check):
        """Whether the output is that of the play if one event, one of those that were done, was refused for want of memory. `check` gives the run of
        `dsr check` on a transcript."""
        for index in self.likely_first(output):
            told, report = self.output(index)
            if told == output and (self.words == "play" or check(output) == (0, report, b"")):
                self.told.add(index)
                return True
        return False
