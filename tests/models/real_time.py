"""Linearizable histories of the directory, by the definition of Herlihy and Wing (1990), written anew.

A history is a list of calls. A call is a request that a client made, the moment at which it was invoked, and the moment and the reply with which it was
answered; a pending call has neither. A call precedes another in real time if it was answered before the other was invoked. A history is linearizable if its
answered calls, and some of its pending ones, have an order in which one directory, alone, gives these answers, and in which no call comes before one that
precedes it. It is strongly linearizable (Golab, Higham and Woelfel 2011) with all that may follow it if one such order is what every further history goes on
from. Here a history may have branches, each of which begins as it does.

`Search` looks for an order, one call after another, as Wing and Gong (1993) do: next may come each call that none of the others left precedes. It knows which
states it has met, and gives up after `MOST_STATES` of them. `fault_of_order` judges an order that somebody gives.
"""

from collections import deque, namedtuple

from models import histories, slow_check
from models.directory import replayed
from models.slow_check import State
from models.transcript_text import step_of

# A moment is the number of a line, or of an event. The operation is its words.
Call = namedtuple("Call", "client number operation invoked answered place answer", defaults=[None, None, None])
# Which calls have come, what the registers hold after them, and what those of them were answered that are pending.
Met = namedtuple("Met", "come registers given")
START = Met(frozenset(), frozenset(), frozenset())
MOST_STATES = 5_000
NEVER = float("inf")


class TooLarge(Exception):
    """The search has met too many states."""


def request_of(call):
    """Returns the request as a text, such as c0#1:write:a:5."""
    return f"{call.client}#{call.number}:{':'.join(call.operation)}"


def precedes(first, second):
    return first.answered is not None and first.answered < second.invoked


def pairs_in_real_time(calls):
    return [(first, second) for first in calls for second in calls if precedes(first, second)]


# ---- from a transcript to its history


def calls_of(transcript):
    """Returns the history of a transcript, by its clients' lines alone. A client's first post of a request invokes it, and the take with which the client
    accepts a reply answers it."""
    header, *lines = transcript.split(b"\n")[:-1]
    _, shape = slow_check.header_of(header)
    states, calls = {}, {}
    for moment, line in enumerate(lines):
        if not line.startswith(b"c"):
            continue
        step = step_of(line)
        client = f"c{step.actor[1]}"
        before = states.get(client, State(None, (), ()))
        after = states[client] = slow_check.with_step(shape, before, step)
        if before.outstanding is None and after.outstanding is not None:
            request = step.envelope.ask.request
            calls[client, request.number] = Call(client, request.number, request.op, moment)
        if len(after.accepted) > len(before.accepted):
            _, place, answer = after.accepted[-1]
            at = client, before.outstanding.request.number
            calls[at] = calls[at]._replace(answered=moment, place=place, answer=answer)
    return list(calls.values())


def steps_of(log):
    """Yields of each line of an actor's log the line, its box, whether it fills the box, and whether it is the first post of a request."""
    asked = set()
    for line in log:
        actor, word, other, envelope = line.split(b" ", 3)
        is_post = word == b"post"
        is_new = is_post and actor.startswith(b"c") and envelope.startswith(b"ask ") and envelope not in asked
        asked |= {envelope} if is_new else set()
        yield line, (actor, other) if is_post else (other, actor), is_post, is_new


class Merge:
    """Logs whose lines come in some order, and those that have come."""

    def __init__(self, lines):
        logs = {}
        for line in lines:
            logs.setdefault(line.split(b" ", 1)[0], []).append(line)
        self.left = {actor: deque(steps_of(log)) for actor, log in logs.items()}
        self.full, self.lines = set(), []

    def comes(self, actor, is_new):
        """Lets the actor's next line come if its box allows it, and it is the first post of a request or not, as said. Returns whether it came."""
        if not self.left[actor]:
            return False
        line, box, is_post, asks = self.left[actor][0]
        if asks != is_new or is_post == (box in self.full):
            return False
        (self.full.add if is_post else self.full.remove)(box)
        self.left[actor].popleft()
        self.lines.append(line)
        return True

    def is_waited_for(self, actor):
        """Returns whether somebody can go on only when this actor's next line has come."""
        boxes = {other: steps[0][1] for other, steps in self.left.items() if steps}
        return actor in boxes and any(box == boxes[actor] for other, box in boxes.items() if other != actor)


def with_late_asks(transcript):
    """Returns a transcript of the same logs in another order: a client's first post of a request comes only when nothing else can, and if possible one that
    somebody waits for. So it comes after many answers in real time."""
    header, *lines = transcript.split(b"\n")[:-1]
    merge = Merge(lines)
    while any(merge.left.values()):
        if not any([merge.comes(actor, False) for actor in merge.left]):
            asking = sorted(merge.left, key=merge.is_waited_for, reverse=True)
            next(actor for actor in asking if merge.comes(actor, True))
    return b"".join(line + b"\n" for line in [header, *merge.lines])


# ---- the search


class Search:
    """The orders of a history's calls, as texts of their requests, by the answers alone; or also by the places, which then count the calls before."""

    def __init__(self, calls, with_places=False):
        self.with_places = with_places
        # The search goes first where the places lead, and then everywhere else.
        self.calls = sorted(calls, key=lambda call: (call.place is None, call.place or 0), reverse=True)
        self.named = {request_of(call): call for call in calls}
        self.answered = {name for name, call in self.named.items() if call.answered is not None}

    def following(self, state):
        """Yields each state that one more call leads to."""
        left = [call for call in self.calls if request_of(call) not in state.come]
        first_answer = min((call.answered for call in left if call.answered is not None), default=NEVER)
        for call in left:
            if call.invoked < first_answer:
                registers = dict(state.registers)
                answer = histories.answered(registers, call.operation)
                if self.fits(call, answer, len(state.come)):
                    given = {(request_of(call), answer)} if call.answered is None else set()
                    yield Met(state.come | {request_of(call)}, frozenset(registers.items()), state.given | given)

    def fits(self, call, answer, place):
        """Returns whether the call may be answered so, and at this place. A pending one may be answered in any way."""
        return call.answered is None or call.answer == answer and (call.place == place or not self.with_places)

    def ends(self, start=START):
        """Yields each state, from this one on, in which all answered calls have come. Pending calls may still come then."""
        waiting, met = [start], {start}
        while waiting:
            state = waiting.pop()
            if self.answered <= state.come:
                yield state
            for more in self.following(state):
                if more not in met:
                    met.add(more)
                    waiting.append(more)
            if len(met) > MOST_STATES:
                raise TooLarge

    def goes_on_from(self, state):
        """Returns whether an order goes on from this state of a shorter history. What was pending there may have been answered since, as it was there."""
        answers = [(self.named[name], answer) for name, answer in state.given]
        return all(call.answer in (None, answer) for call, answer in answers) and any(True for _ in self.ends(state))


def is_linearizable(calls, with_places=False):
    """Returns whether the history is linearizable, or None if the search is too large."""
    return is_strongly_linearizable(calls, [], with_places)


def is_strongly_linearizable(calls, branches, with_places=False):
    """Returns whether one order of the history is what each branch can go on from, or None if the search is too large."""
    searches = [Search(branch, with_places) for branch in branches]
    try:
        return any(all(search.goes_on_from(state) for search in searches) for state in Search(calls, with_places).ends())
    except TooLarge:
        return None


# ---- an order that is given


def fault_of_turns(calls):
    """Returns what is wrong with how the clients take turns, or None: each numbers its requests 1, 2 and so on, and invokes none before it has the answer to
    the one before."""
    last = {}
    for call in sorted(calls, key=lambda call: call.invoked):
        before = last.get(call.client)
        if call.number != (before.number + 1 if before else 1) or before and not precedes(before, call):
            return f"{request_of(call)} does not come after the answer to the client's request before it"
        last[call.client] = call
    return None


def fault_of_order(calls, order):
    """Returns why these requests in this order, as texts, do not linearize the history, or None. Each of them must have been invoked; what was answered must
    be there, at the place of its reply, with the directory's answer; and all that precede a request must come before it. Of the order itself it is asked that
    the numbers of each client rise."""
    invoked = {request_of(call): call for call in calls}
    strange = [request for request in order if request not in invoked]
    if strange:
        return f"nobody has asked for {strange[0]}"
    numbers = [(invoked[request].client, invoked[request].number) for request in order]
    if any(client == other and number >= later for at, (client, number) in enumerate(numbers) for other, later in numbers[at + 1:]):
        return f"the numbers of a client do not rise in {numbers}"
    answers, _ = replayed(invoked[request].operation for request in order)
    for call in calls:
        if call.answered is not None and list(zip(order, answers))[call.place:call.place + 1] != [(request_of(call), call.answer)]:
            return f"{request_of(call)} was answered {call.place} {call.answer}, and the order is {order}"
    return fault_of_real_time(calls, {request: place for place, request in enumerate(order)})


def fault_of_real_time(calls, places):
    """Returns which two calls stand against real time if they have these places, or None. All that were answered must have one."""
    for first, second in pairs_in_real_time(calls):
        after = places.get(request_of(second))
        if after is not None and places[request_of(first)] > after:
            return f"{request_of(first)} was answered before {request_of(second)} was asked for, and does not stand before it"
    return None


def judged(calls, order):
    """Returns what is wrong with a history, or with this order as its linearization, or None; and whether the searches for an order came to an end."""
    found = [is_linearizable(calls), is_linearizable(calls, with_places=True)]
    fault = fault_of_turns(calls) or fault_of_order(calls, order) or (f"no order linearizes {calls}" if False in found else None)
    return fault, None not in found


# ---- histories that are spoiled


def with_wrong_answer(calls):
    """Returns the history with an answer that no directory gives, as nobody has asked for the value; None if nothing was answered."""
    at = next((at for at, call in enumerate(calls) if call.answered is not None), None)
    return at if at is None else [*calls[:at], calls[at]._replace(answer="held 18446744073709551615"), *calls[at + 1:]]


def exchanged_in_real_time(calls):
    """Returns the history with the moments of two calls exchanged, of which one precedes the other; None if there are no such two that were answered."""
    pair = next(((first, second) for first, second in pairs_in_real_time(calls) if second.answered is not None), None)
    if pair is None:
        return None
    (first, second), others = pair, [call for call in calls if call not in pair]
    later = first._replace(invoked=second.invoked, answered=second.answered)
    return [*others, second._replace(invoked=first.invoked, answered=first.answered), later]


def exchanged_places(calls, order):
    """Returns the order with two requests exchanged of which one precedes the other in real time; None if there are no such two in it."""
    for first, second in pairs_in_real_time(calls):
        names = request_of(first), request_of(second)
        if set(names) <= set(order):
            exchange = dict(zip(names, reversed(names)))
            return [exchange.get(request, request) for request in order]
    return None
