"""The calendar of slots, and the broadcast of one slot at one replica."""

from models.slow_check import extended, sender_of
from models.transcript_text import Reader, Round, actor_text, content_of, content_text, envelope_text, shape_text

from models.calls import allowed_shape, need, replica, val, verb
from models.chains import fault_of, signers_of, value_text


def rounds_of(shape, slot):
    """Returns the global rounds in which the slot is in flight."""
    return range(slot, slot + shape.f + 1)


@verb(allowed_shape, val)
def calendar(shape, t):
    slots = [slot for slot in range(max(0, t - shape.f), t + 1) if t in rounds_of(shape, slot)]
    closes = [slot for slot in slots if t == rounds_of(shape, slot)[-1]]
    closing = closes[0] if closes else "-"
    return f"slots {slots[0]} {slots[-1]} closes {closing} sender {actor_text(sender_of(shape, t))}"


@verb(allowed_shape, val, val)
def round_of(shape, slot, t):
    rounds = rounds_of(shape, slot)
    return rounds.index(t) + 1 if t in rounds else None


def round_text(number, chains):
    return envelope_text(Round(number, tuple(chains)))


def spaced_chains(reader):
    """Reads the chains at the end of a call, with a space between them."""
    if reader.at == len(reader.text):
        return []
    return [reader.chain(), *reader.chains()]


class Slot:
    """A slot at a replica: of each of its rounds so far, the chains that were read in it, in their order. The last round is open."""

    OPERANDS = (allowed_shape, val)

    def __init__(self, shape, slot):
        self.shape_of, self.slot, self.read_in = shape, slot, [[]]

    def closed(self):
        return len(self.read_in) - 1

    def is_over(self):
        return self.closed() == self.shape_of.f + 1

    def kept_chains(self):
        """Returns the first two proper chains with distinct contents, each with the round in which it was read."""
        proper = [
            (number, chain)
            for number, chains in enumerate(self.read_in, 1)
            for chain in chains
            if fault_of(self.shape_of, self.slot, number, chain) is None
        ]
        contents = [content_of(chain.value) for _, chain in proper]
        return [found for place, found in enumerate(proper) if contents[place] not in contents[:place]][:2]

    def fate_of(self, chain):
        """Returns what becomes of the chain if it is read in the open round."""
        need(not self.is_over())
        contents = [content_of(kept.value) for _, kept in self.kept_chains()]
        fault = fault_of(self.shape_of, self.slot, self.closed() + 1, chain)
        if fault or content_of(chain.value) in contents:
            return fault or "not-new"
        return ["first", "second", "one-too-many"][len(contents)]

    @verb(Reader.chain)
    def would_keep(self, chain):
        return self.fate_of(chain) in ("first", "second")

    @verb(Reader.chain)
    def read(self, chain):
        fate = self.fate_of(chain)
        self.read_in[-1].append(chain)
        return fate

    @verb(spaced_chains)
    def close_round(self, chains):
        need(not self.is_over())
        self.read_in[-1] += chains
        self.read_in.append([])
        return self.closed()

    @verb()
    def close(self):
        need(not self.is_over())
        self.read_in.append([])
        return self.closed()

    @verb(val, replica)
    def relays_in(self, number, me):
        """Answers with the chains that were kept in the round before and that the replica has not signed, each with its signature."""
        chains = [extended(chain, me) for at, chain in self.kept_chains() if at + 1 == number and me not in signers_of(chain)]
        return round_text(number, chains) if chains else "empty"

    @verb(replica)
    def relays(self, me):
        return self.relays_in(f"{self.closed() + 1} {actor_text(me)}")

    @verb()
    def kept(self):
        return " | ".join(round_text(number, [chain]) for number, chain in self.kept_chains()) or None

    def decision(self):
        """Returns the value that is decided."""
        values = [chain.value for _, chain in self.kept_chains()]
        return values[0] if len(values) == 1 else ()

    @verb()
    def decide(self):
        return content_text(content_of(self.decision())) if self.is_over() else None

    @verb()
    def take_decision(self):
        need(self.is_over())
        value = self.decision()
        return f"{content_text(content_of(value))} value {value_text(value)} requests {len(value)}"

    @verb()
    def shape(self):
        return shape_text(self.shape_of)

    @verb()
    def number(self):
        return self.slot
