#!/usr/bin/env python3
"""Wrong bodies that the prover must refuse: tests/edits.py. Its words are told in tests/edits/command.py."""

import sys

from edits import command

if __name__ == "__main__":
    sys.exit(command.main(sys.argv[1:]))
