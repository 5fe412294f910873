#!/usr/bin/env python3
"""A wrong adapter: parts.py, but it forgets that the signers of a chain are distinct, so one traitor signs as often as there are rounds.
The rows that notice it are in parts_forgets.known:

    conformance/run.py --group chain --group slot --known conformance/adapters/parts_forgets.known conformance/adapters/parts_forgets.py
"""

import parts

del parts.FAULTS["signed-twice"]

if __name__ == "__main__":
    parts.main()
