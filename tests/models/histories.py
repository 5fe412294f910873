"""The directory, the history, and what the report of a play says of both."""


# ---- the directory and the history


def parts(request):
    """The client, the number and the operation of a request such as c0#1:write:a:5."""
    client, rest = request.split("#")
    number, *operation = rest.split(":")
    return client, int(number), operation


def answered(directory, operation):
    """The directory's answer to an operation, which may change it."""
    kind, name = operation[:2]
    held = directory.get(name)
    if kind == "read":
        return f"held {'none' if held is None else held}"
    if kind == "remove":
        directory.pop(name, None)
        return f"removed {'none' if held is None else held}"
    if kind == "swap" and operation[2] != ("none" if held is None else str(held)):
        return f"kept {'none' if held is None else held}"
    if held is None and len(directory) == 1024:
        return "full"
    directory[name] = int(operation[-1])
    return "swapped" if kind == "swap" else "written"


def acted(slots):
    """The requests of these slots that act, in order, each with its answer."""
    last, directory, history = {}, {}, []
    for content in slots:
        for request in [] if content == "idle" else content.split(","):
            client, number, operation = parts(request)
            if number > last.get(client, 0):
                last[client] = number
                history.append((request, answered(directory, operation)))
    return history


def history_lines(requests):
    """The lines of a report that tell of a history with these requests."""
    return [f"history {len(requests)}", *(f"{place} {request}" for place, request in enumerate(requests))]


# ---- reports


def requests_of(report):
    """The requests of the history with which a report ends, in their order."""
    lines = report.decode().splitlines()
    title = next(at for at, line in enumerate(lines) if line.startswith("history "))
    return [line.split(" ")[1] for line in lines[title + 1:]]


def read_report(text):
    """The report of a play, as a dictionary; a text if it is no report."""
    report = {"accepted": [], "seen": {}, "decided": {}, "history": []}
    lines = text.splitlines()
    for at, line in enumerate(lines):
        words = line.split(" ")
        if words[0] in ("done", "refused"):
            report[words[0]] = int(words[1])
        elif words[0] == "first":
            report["first"] = words[1:]
        elif words[0] == "accepted":
            report["accepted"].append((words[1], int(words[2]), int(words[3]), " ".join(words[4:])))
        elif words[0] == "seen":
            report["seen"][words[1]] = int(words[2])
        elif words[0] == "decided":
            report["decided"][words[1]] = [] if words[2:] == ["-"] else words[2:]
        elif words[0] == "history":
            report["history"] = [line.split(" ") for line in lines[at + 1:]]
            if len(report["history"]) != int(words[1]):
                return f"its history has {len(report['history'])} lines, not {words[1]}"
            break
        else:
            return f"a line that no report has: {line}"
    return report


def faults_of(report, events):
    """What is wrong with the report of a play of so many events: of any two loyal replicas' decided slots one list is a prefix of the other; the
    history is what the longest of them makes act; and what clients accepted and have seen is of that history."""
    faults = []
    if report["done"] + report["refused"] != events:
        faults.append(f"{report['done']} done and {report['refused']} refused are not {events}")
    lists = sorted(report["decided"].values(), key=len)
    for shorter, longer in zip(lists, lists[1:]):
        if longer[:len(shorter)] != shorter:
            faults.append(f"loyal replicas disagree: {shorter} and {longer}")
    history = acted(lists[-1])
    if [[str(place), request] for place, (request, _) in enumerate(history)] != report["history"]:
        faults.append(f"the history is not that of {lists[-1]}")
    return faults + faults_of_clients(report, history)


def faults_of_clients(report, history):
    """What is wrong with what clients accepted and have seen. Each accepted reply is the directory's answer at its place, to the request that is
    there, of that client and number; and no client has seen more than there is."""
    faults = []
    for client, number, place, answer in report["accepted"]:
        if place >= len(history):
            faults.append(f"{client} accepted a reply at place {place} of {len(history)}")
            continue
        request, right = history[place]
        if parts(request)[:2] != (client, number) or answer != right:
            faults.append(f"{client} accepted {number} {place} {answer}, and there stands {request} {right}")
    for client, front in report["seen"].items():
        places = [place for other, _, place, _ in report["accepted"] if other == client]
        if front > len(history) or front < max([place + 1 for place in places], default=0):
            faults.append(f"{client} has seen {front} of {len(history)}")
    return faults


def checked_report(report):
    """The report of the checker on the transcript of a play with this report."""
    lines = report.splitlines(keepends=True)
    history = next(at for at, line in enumerate(lines) if line.startswith(b"history "))
    accepted = [line for line in lines if line.startswith(b"accepted ")]
    return b"".join([b"run " + lines[0].removeprefix(b"done "), *accepted, *lines[history:]])
