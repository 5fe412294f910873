"""The files of conformance/json, read anew: each tree is written as a text again, by writers that share nothing with tools/rows_json.py, and must be the
text beside it; and all texts together must be the rows."""

import json

# How the items of a list are joined, by the kind of operand; and how a list without items is spelled.
JOINED = {
    "requests": (",", ""), "content": (",", "idle"), "value": (",", "idle"), "signers": ("+", "-"), "holders": ("+", "-"), "choice": ("+", ""),
    "chains": (" ", ""),
    "signatures": (" ", ""), "replies": (" | ", "-"),
}


def operation(tree, mark=" "):
    return mark.join(tree[field] for field in ("word", "name", "from", "to", "value") if field in tree)


def request(tree):
    return f"{tree['client']}#{tree['number']}:{operation(tree['operation'], ':')}"


def statement(tree):
    text = request(tree["request"]) if "request" in tree else f"{tree['slot']}/{','.join(tree['content']) or 'idle'}/{'+'.join(tree['before']) or '-'}"
    if text != tree["text"]:
        raise ValueError(f"{tree['text']} is the text of a statement that says {text}")
    return text


def signature(tree, fitting):
    text = statement(tree["on"])
    return tree["signer"] if text == fitting else f"{tree['signer']}({text})"


def signed(tree):
    text = request(tree["request"])
    return f"{text}~{signature(tree['signature'], text)}"


def chain(tree):
    content, before, signatures = ",".join(request(it["request"]) for it in tree["value"]) or "idle", [], []
    for one in tree["signatures"]:
        signatures.append(signature(one, f"{tree['slot']}/{content}/{'+'.join(before) or '-'}"))
        before.append(one["signer"])
    return f"{tree['slot']}/{','.join(map(signed, tree['value'])) or 'idle'}/{'+'.join(signatures) or '-'}"


def shape(tree):
    return f"{tree['n']} {tree['f']} {tree['m']} {'+'.join(tree['traitors']) or '-'}"


def envelope(tree):
    kind = tree["kind"]
    if kind == "round":
        return " ".join(["round", tree["round"], *map(chain, tree["chains"])])
    if kind == "ask":
        return f"ask {signed(tree['ask'])}"
    if kind == "reply":
        return f"reply {reply(tree)}"
    return f"seen {tree['front']}" if kind == "seen" else kind


def reply(tree):
    return f"{tree['number']} {tree['place']} {' '.join(tree['answer'].values())}"


def item(tree):
    """The text of an item of a list."""
    if isinstance(tree, str):
        return tree
    if isinstance(tree, list):
        return f"{tree[0]} {reply(tree[1])}"
    if "signatures" in tree:
        return chain(tree)
    if "signer" in tree:
        return f"{tree['signer']}({statement(tree['on'])})"
    return signed(tree) if "signature" in tree else request(tree)


WRITERS = {
    "operation": operation, "op": operation, "joined-op": lambda tree: operation(tree, ":"), "request": request, "statement": statement, "shape": shape,
    "chain": chain,
    "signed-request": signed, "envelope": envelope, "draft": envelope, "reply": reply, "signature": item, "long-signature": item,
}


def text_of(kind, tree):
    """The text of a token of this kind."""
    if kind in WRITERS and not isinstance(tree, str):
        return WRITERS[kind](tree)
    if kind in JOINED:
        mark, none = JOINED[kind]
        return ("from " if kind == "choice" else "") + (mark.join(map(item, tree)) or none)
    if kind == "request-line":
        return f"c{tree[0][1:]} {tree[1]} {operation(tree[2])}"
    return tree if isinstance(tree, str) else item(tree)


def text_of_operand(operand):
    if "lines" in operand:
        return " | ".join(operand["lines"]) + " |" * operand["ended"]
    return operand["text"]


def faults_of_call(call):
    """What is wrong with a call: its text that its operands do not give, or trees that are not those of their texts."""
    between = " | " if call["verb"] == "same" else " "
    kind = [call["operands"][0]["text"]] if call["verb"] == "same" else []
    rest = between.join(text_of_operand(operand) for operand in call["operands"][len(kind):])
    whole = " ".join([call["verb"], *kind, *([rest] if call["operands"] else [])])
    if whole != call["call"]:
        yield f"{call['call']} and not {whole}"
    for operand in call["operands"]:
        for line, step in zip(operand.get("lines", [])[1:], operand.get("steps", [])):
            if step and " ".join([step["actor"], step["does"], step["other"], envelope(step["envelope"])]) != line:
                yield line
        if "tree" in operand and text_of(operand["kind"], operand["tree"]) != operand["text"]:
            yield f"{operand}"
    if "tree" in call and answer_of(call) != call["answer"]:
        yield f"{call['answer']} and not {answer_of(call)}"


def answer_of(call):
    """The text of the tree of an answer."""
    tree = call["tree"]
    if isinstance(tree, list):
        return ",".join(map(request, tree)) or "idle"
    return envelope(tree) if "kind" in tree else item(tree)


def fault_of(text, rows):
    """What is wrong with a file of this text, if it is that of these rows, or None."""
    found = json.loads(text)["rows"]
    if [(row["name"], row["tags"], row["notes"]) for row in found] != [(row.name, row.tags, row.notes) for row in rows]:
        return "it has other rows"
    for one, row in zip(found, rows):
        if [(call["call"], call["answer"]) for call in one["calls"]] != row.calls:
            return f"{row.name}: other calls"
        faults = [fault for call in one["calls"] for fault in faults_of_call(call)]
        if faults:
            return f"{row.name}: {faults[0]}"
    return None


def trees_in(text):
    """How many trees there are."""
    calls = [call for row in json.loads(text)["rows"] for call in row["calls"]]
    return sum(("tree" in call) + sum(("tree" in operand) + len(list(filter(None, operand.get("steps", [])))) for operand in call["operands"])
        for call in calls)
