#!/usr/bin/env python3
"""Writes conformance/texts, whole plays and transcripts with all that comes of each, from the texts of examples/: tools/whole_texts.py --write. Without words
it says which files are not current, and ends with status 1 if one is not.

texts/manifest.json names each text of examples/ with the files that have what is expected of it. A file that is in examples/ already is named there; the
others are written here, by the models of tests/models. `tests/told.py texts` compares what the program writes.
"""

import json
import os
import sys

TOP = os.path.dirname(os.path.dirname(os.path.realpath(__file__)))
sys.path.insert(0, f"{TOP}/tests")

from kit import inputs  # noqa: E402
from kit.program import bytes_of, name_of, write_bytes  # noqa: E402
from models.words import MODELS  # noqa: E402

FOLDER = "conformance/texts"
PLAYS = ["*.play", "attacks/*.play", "agreement/*.play", "why/*.play"]
TRANSCRIPTS = ["*.check", "malicious/*.check", "*.transcript", "attacks/*.transcript", "record/*.transcript"]
# The notes of an explanation that are compared: those that follow from the rules, without reasons in words.
NOTES = ("dsr-explain", "event", "chain", "close", "decide", "act", "stale", "vote", "no-vote", "accept", "waits")
WORDS_OF_NO_VOTE = 3


def events_of(data):
    """What of the data lines of an explanation is compared."""
    lines = [line.split(" ") for line in data.decode().splitlines()]
    kept = [words[:WORDS_OF_NO_VOTE] if words[0] == "no-vote" else words for words in lines if words[0] in NOTES]
    return "".join(f"{' '.join(words)}\n" for words in kept).encode()


class Files:
    """The files of conformance/texts, by their paths from the top of the repository."""

    def __init__(self):
        self.written = {}

    def place(self, name, beside, ending, content):
        """Returns the path of the file with this content: in examples/ with the one ending, if it is there, or else here with the other one."""
        path = f"examples/{name}{beside}"
        if beside and os.path.exists(f"{TOP}/{path}") and bytes_of(path) == content:
            return path
        path = f"{FOLDER}/{name}{ending}"
        self.written[path] = content
        return path


def refusal(told):
    """Why a text is refused, as standard error tells it."""
    return told.decode().strip().removeprefix("dsr: ")


def of_play(files, name, path):
    text = bytes_of(path)
    status, report, told = MODELS["play"](text)
    found = {"name": name, "play": path}
    if status:
        return {**found, "refused": refusal(told)}
    return {
        **found, "report": files.place(name, ".out", ".report", report),
        "transcript": files.place(name, ".transcript", ".transcript", MODELS["play --transcript"](text)[1]),
        "events": files.place(name, None, ".events", events_of(MODELS["explain --data"](text)[1])),
    }


def of_transcript(files, name, path):
    status, report, told = MODELS["check"](bytes_of(path))
    found = {"name": name, "transcript": path}
    beside = None if os.path.exists(f"{TOP}/examples/{name}.play") else ".out"
    return {**found, "refused": refusal(told)} if status else {**found, "report": files.place(name, beside, ".run", report)}


def texts_of(files, one, patterns):
    """What the manifest says of the texts of these patterns."""
    paths = sorted(path for pattern in patterns for path in inputs.found(pattern))
    return [one(files, os.path.splitext(inputs.name_in_examples(path))[0], name_of(path)) for path in paths]


def files():
    """Returns the content of each file of conformance/texts by its path from the top of the repository."""
    found = Files()
    parts = {"plays": texts_of(found, of_play, PLAYS), "transcripts": texts_of(found, of_transcript, TRANSCRIPTS)}
    lines = {part: ",\n".join(map(json.dumps, texts)) for part, texts in parts.items()}
    lists = ",\n".join(f'"{part}": [\n{told}\n]' for part, told in lines.items())
    found.written[f"{FOLDER}/manifest.json"] = f'{{"format": "dsr-texts 1",\n{lists}}}\n'.encode()
    return found.written


def stale():
    """Yields each path whose content differs, with what it should be; None for a file that should not be there."""
    wanted = files()
    for path, content in wanted.items():
        if not os.path.exists(f"{TOP}/{path}") or bytes_of(path) != content:
            yield path, content
    for at, _, names in os.walk(f"{TOP}/{FOLDER}"):
        for path in (name_of(f"{at}/{name}") for name in names):
            if path not in wanted:
                yield path, None


def main(words):
    if words not in ([], ["--write"]):
        print(__doc__, file=sys.stderr)
        return 2
    found = list(stale())
    for path, content in found:
        print(f"{path} {'is written' if words and content is not None else 'is removed' if words else 'is not current'}")
        if words and content is None:
            os.remove(f"{TOP}/{path}")
        elif words:
            os.makedirs(os.path.dirname(f"{TOP}/{path}"), exist_ok=True)
            write_bytes(path, content)
    return 1 if found and not words else 0


if __name__ == "__main__":
    sys.dont_write_bytecode = True
    sys.exit(main(sys.argv[1:]))
