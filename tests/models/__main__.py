"""What the program must give on the text on standard input, by the models: python3 tests/models WORDS < TEXT, where WORDS are `apply`, `check`, `play`,
`play --transcript` or `explain --data`."""

import os
import sys

sys.path.insert(0, os.path.dirname(os.path.dirname(os.path.realpath(__file__))))

from models.words import MODELS


def main(words):
    if words not in MODELS:
        print(__doc__, file=sys.stderr)
        return 2
    status, output, errors = MODELS[words](sys.stdin.buffer.read())
    sys.stdout.buffer.write(output)
    sys.stderr.buffer.write(errors)
    return status


if __name__ == "__main__":
    sys.exit(main(" ".join(sys.argv[1:])))
