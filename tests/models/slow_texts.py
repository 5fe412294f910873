"""Slow models of request lines and of serve scripts, written anew for tests: what `dsr apply` must give, and what is wrong with what `dsr serve`
gives. How a service goes depends on its threads, so of what it gives it is only judged whether it may be.
"""

import re

from models import histories
from models.transcript_text import MOST_BYTES, actor_text, bad_line, begun, is_actor, refused, whole

NO_ANSWER = b"dsr: no answer within the turns\n"


# ---- request lines


def request_line(reader):
    """The client, the number and the operation of a request line."""
    client = reader.actor_of("c")
    reader.need(" ")
    number = reader.positive()
    reader.need(" ")
    return actor_text(client), number, reader.operation(" ")


def applied(text):
    """The status of `dsr apply` on this text, and what it writes on standard output and standard error."""
    if len(text) > MOST_BYTES:
        return refused("reading failed")
    *lines, rest = text.split(b"\n")
    replies, directory, place, answers = {}, {}, 0, []
    for line in lines:
        found = whole(line, request_line)
        if found is None:
            return bad_line(len(answers) + 1, b"".join(answers))
        client, number, operation = found
        before = replies.get(client, (0, b""))
        if number > before[0]:
            replies[client] = number, f"{place} {histories.answered(directory, operation)}\n".encode()
            place += 1
        answers.append(b"old\n" if number < before[0] else replies[client][1])
    return bad_line(len(answers) + 1, b"".join(answers)) if rest else (0, b"".join(answers), b"")


# ---- serve scripts


def script_line(reader):
    """A line of a script: a client and its operation, or whose draft it is, of which round, and for whom."""
    if reader.has("ask "):
        client = reader.actor_of("c")
        reader.need(" ")
        return client, reader.operation(" ")
    reader.need("script ")
    traitor = reader.actor_of("r")
    reader.need(" ")
    number = reader.number()
    reader.need(" ")
    to = reader.actor()
    reader.need(" ")
    reader.envelope()
    return traitor, number, to


def can_follow(shape, drafts, found):
    """Whether this line may stand after those that have these drafts."""
    if len(found) == 2:
        return is_actor(shape, found[0])
    traitor, _, to = found
    return traitor[1] in shape.traitors and is_actor(shape, to) and found not in drafts


def read_script(text):
    """The shape of a script, and the operations of each client; or what `dsr serve` gives if it refuses the text."""
    header, fault = begun(text, b"dsr-serve 1 ")
    if fault:
        return None, fault
    shape, lines, rest = header
    asked, drafts = [[] for _ in range(shape.m)], set()
    for number, line in enumerate(lines, 2):
        found = whole(line, script_line)
        if found is None or not can_follow(shape, drafts, found):
            return None, bad_line(number)
        if len(found) == 2:
            asked[found[0][1]].append(found[1])
        else:
            drafts.add(found)
    return (shape, asked), bad_line(len(lines) + 2) if rest else None


def fault_of_report(asked, report):
    """What is wrong with the report of a service that served these operations of each client, or None."""
    found = re.fullmatch(r"((?:accepted .*\n)*)history (\d+)\n((?:\d+ .*\n)*)", report.decode())
    if not found:
        return f"it is no report: {report[:200]!r}"
    requests = [f"c{client}#{number}:{':'.join(operation)}" for client, of_one in enumerate(asked) for number, operation in enumerate(of_one, 1)]
    history = [line.split(" ", 1)[1] for line in found[3].splitlines()]
    if [f"{place} {request}" for place, request in enumerate(history)] != found[3].splitlines() or len(history) != int(found[2]):
        return f"its places are not counted: {found[3][:200]!r}"
    if sorted(history) != sorted(requests):
        return f"its history has {len(history)} requests, which are not the {len(requests)} that were asked for"
    acted = histories.acted(history)
    if [request for request, _ in acted] != history:
        return "a request of its history does not act"
    places = {request: (place, answer) for place, (request, answer) in enumerate(acted)}
    wanted = [f"accepted {request.split('#')[0]} {histories.parts(request)[1]} {' '.join(map(str, places[request]))}" for request in requests]
    return None if wanted == found[1].splitlines() else f"accepted was {found[1][:200]!r}, and not {wanted[:4]}"


def fault_of_served(asked, run):
    """What is wrong with how `dsr serve` ended on a script with these operations, or None."""
    status, output, errors = run
    if (status, errors) != (0, b""):
        return f"status {status}, output {output[:200]!r}, errors {errors[:120]!r}"
    return fault_of_report(asked, output)


def answered_run(serve):
    """What `serve` gives, the run of a service. If a client came too late, and had no answer, it is run once more."""
    for _ in range(10):
        run = serve()
        if run[2] != NO_ANSWER:
            break
    return run


def fault_of_service(text, serve):
    """What is wrong with how `dsr serve` ends on this text, or None. `serve` runs it."""
    script, wanted = read_script(text)
    if not wanted:
        return fault_of_served(script[1], answered_run(lambda: serve(text)))
    run = serve(text)
    return None if run == wanted else f"status {run[0]}, output {run[1][:200]!r}, errors {run[2][:120]!r}, and not {wanted}"
