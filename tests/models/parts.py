#!/usr/bin/env python3
"""Answers the calls of conformance/rows by the models: tests/models/parts.py < CALLS.

It reads lines `row NAME` and `> CALL`. It writes what it reads, and after each call a line `< ANSWER`: `skip` if the models have no such
call, `no-call` if the contract forbids it, `bad-row` if the verb takes no such words, and a refusal with its number and its name. So what
it writes of a file of rows without answers is that file.
"""

import os
import sys

sys.path[0] = os.path.dirname(os.path.dirname(os.path.realpath(__file__)))

from models.transcript_text import Bad  # noqa: E402

from models import chains, clients, directory, keys, replicas, shapes, slots, texts, tokens, votes  # noqa: E402
from models.calls import NoCall, NotSaid, Refused, answer_text, operands  # noqa: E402

# The verbs that open a value. Later calls of the row are at that value.
OPENERS = {
    "client": clients.Client,
    "directory": directory.Directory,
    "judge": directory.Judged,
    "keys": keys.Keys,
    "keys-of": keys.KeysOf,
    "ledger": directory.Ledger,
    "machine": directory.Machine,
    "play": texts.Play,
    "replica": replicas.Replica,
    "script": texts.Script,
    "slot": slots.Slot,
    "tally": votes.Tally,
    "transcript": texts.Transcript,
}
# The modules whose functions answer calls that need no value.
MODULES = [chains, keys, shapes, slots, texts, tokens]


def answering(verb, owners):
    """Returns what answers the calls of this verb in the first owner that does, or None."""
    name = verb.replace("-", "_")
    found = [getattr(owner, name, None) for owner in owners]
    return next((one for one in found if getattr(one, "is_verb", False)), None)


class Adapter:
    """The value that the row has opened, if it has opened one."""

    def __init__(self):
        self.opened = None

    def found_by(self, call):
        """Returns what the models find for a call."""
        verb, _, text = call.partition(" ")
        answer = answering(verb, [self.opened, *MODULES])
        if answer:
            return answer(text)
        if verb not in OPENERS:
            return "skip"
        opener = OPENERS[verb]
        self.opened = opener(*operands(text, opener.OPERANDS))
        return "ok"

    def answer(self, call):
        try:
            return answer_text(self.found_by(call))
        except Refused as refusal:
            return str(refusal)
        except NoCall:
            return "no-call"
        except Bad:
            return "bad-row"
        except NotSaid:
            return "skip"

    def follow(self, lines):
        """Yields these lines, and after each call its answer; a row begins anew."""
        for line in lines:
            word, _, text = line.rstrip("\n").partition(" ")
            yield line
            if word == "row":
                self.opened = None
            elif word == ">":
                yield f"< {self.answer(text)}\n"


def main():
    sys.stdin.reconfigure(encoding="latin-1", newline="\n")
    sys.stdout.reconfigure(encoding="latin-1", newline="\n")
    for line in Adapter().follow(sys.stdin):
        print(line, end="", flush=True)


if __name__ == "__main__":
    main()
