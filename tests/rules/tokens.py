"""Tokens: each field with a number at its limits and in other spellings, each list at its limits, marks that are missing or doubled; and shapes."""

from rules.listing import NUM_MOST, VAL_MOST, Listed

# Where a NUM stands: what is before it and after it, the kind of token, and whether it may be 0.
NUMBERS = {
    "num": ("num", "", "", True), "request-number": ("request", "c0#", ":read:a", False), "slot-of-a-chain": ("chain", "", "/idle/-", True),
    "slot-of-a-statement": ("statement", "", "/idle/-", True), "round": ("envelope", "round ", "", True),
    "number-of-a-reply": ("envelope", "reply ", " 0 written", False),
    "place-of-a-reply": ("envelope", "reply 1 ", " written", True), "front": ("envelope", "seen ", "", True),
    "number-of-an-ask": ("envelope", "ask c0#", ":read:a~c0", False),
    "number-of-a-line": ("request-line", "c0 ", " read a", False), "slot-in-an-envelope": ("envelope", "round 0 ", "/idle/r0", True),
    "slot-in-a-signed-statement": ("chain", "0/idle/r0(", "/idle/r5)", True),
    "number-in-a-signed-statement": ("signed-request", "c0#1:read:a~c0(c0#", ":read:b)", False),
}
# Where a VAL stands.
VALUES = {
    "val": ("val", "", ""), "old": ("old", "", ""), "written": ("op", "write a ", ""), "swapped-from": ("op", "swap a ", " 1"),
    "swapped-to": ("op", "swap a none ", ""),
    "written-joined": ("joined-op", "write:a:", ""), "held": ("answer", "held ", ""), "kept": ("answer", "kept ", ""), "removed": ("answer", "removed ", ""),
    "value-of-a-request": ("request", "c0#1:write:a:", ""), "value-in-an-envelope": ("envelope", "reply 1 0 held ", ""),
}
# Where an actor stands: what is before it and after it, and whether replicas and clients may.
ACTORS = {
    "replica": ("replica", "", "", "r"), "client": ("client", "", "", "c"), "actor": ("actor", "", "", "rc"), "signers": ("signers", "", "", "rc"),
    "second-signer": ("signers", "r0+", "", "rc"), "signer-of-a-chain": ("chain", "0/idle/", "", "rc"), "asker": ("signed-request", "c0#1:read:a~", "", "rc"),
    "client-of-a-request": ("request", "", "#1:read:a", "c"), "client-of-a-line": ("request-line", "", " 1 read a", "c"),
    "signer-before": ("statement", "0/idle/", "", "rc"),
}
# Lists: the kind of token, what is before, an item, the mark, what is after, the most items, and how none is spelled, if it may be.
LISTS = {
    "requests": ("requests", "", "c0#1:read:a", ",", "", 8, None), "content": ("content", "", "c0#1:read:a", ",", "", 8, "idle"),
    "requests-of-a-statement": ("statement", "0/", "c0#1:read:a", ",", "/-", 8, "idle"),
    "requests-of-a-chain": ("chain", "0/", "c0#1:read:a~c0", ",", "/-", 8, "idle"),
    "signers": ("signers", "", "r0", "+", "", 16, "-"), "signatures": ("chain", "0/idle/", "r0", "+", "", 16, "-"),
    "signers-before": ("statement", "0/idle/", "c9", "+", "", 16, "-"),
    "chains": ("envelope", "round 0", " 0/idle/-", "", "", 32, ""),
}
# A token of each kind, with marks in it.
WHOLES = {
    "shape": "3 1 2 r0", "op": "swap a none 1", "joined-op": "swap:a:none:1", "answer": "held 1", "signers": "r0+c0", "request": "c0#1:swap:a:none:1",
    "requests": "c0#1:read:a,c1#1:read:b", "content": "c0#1:read:a,c1#1:read:b", "statement": "0/c0#1:read:a/r0+r1", "signed-request": "c0#1:read:a~c1",
    "chain": "0/c0#1:read:a~c0/r0+r1(1/idle/r0)", "envelope": "round 3 0/c0#1:read:a~c0/r0+r1 1/idle/r1", "request-line": "c0 1 write a 5", "name": "a.b_c-d",
}
MARKS = " :#,/+~()"


def tokens(kind, texts):
    return [f"token {kind} {text}" for text in texts]


def tags_of(name, kind):
    return ["spelling"] + ["lists"] * (name.startswith(("request", "content"))
        and kind in ("requests", "content", "statement", "chain")) + ["remove"] * ("remove" in name)


def numbers():
    """Each field with a NUM: 0, 1, the greatest, and one more; then 2^64, a leading zero, a sign, a digit too few, and a letter. Request numbers begin
    with 1."""
    for name, (kind, before, after, has_zero) in NUMBERS.items():
        texts = ["0", "1", str(NUM_MOST), str(NUM_MOST + 1), str(2**64), "01", "+1", "-1", "", "1e3", "0x1"]
        wanted = ["ok" if has_zero else "no", "ok", "ok", *["no"] * 8]
        yield Listed(f"number-of-{name}", ["spelling"], tokens(kind, [f"{before}{text}{after}" for text in texts]), wanted)


def values():
    """Each field with a VAL: 0, the greatest NUM and one more, the greatest VAL and one more; a leading zero, a sign, nothing. `none` is a VAL nowhere, but
    an OLD where one may stand."""
    for name, (kind, before, after) in VALUES.items():
        texts = ["0", str(NUM_MOST), str(NUM_MOST + 1), str(VAL_MOST), str(VAL_MOST + 1), "00", "-0", "", "none"]
        has_none = name in ("old", "swapped-from", "held", "kept", "removed", "value-in-an-envelope")
        wanted = [*["ok"] * 4, *["no"] * 4, "ok" if has_none else "no"]
        yield Listed(f"value-of-{name}", ["spelling"] + ["remove"] * (name == "removed"), tokens(kind, [f"{before}{text}{after}" for text in texts]), wanted)


def actors():
    """Each field with an actor: r0, r15 and r16, c0, c31 and c32; a capital, a leading zero, no number, and another letter. Replicas and clients stand
    only where they may."""
    for name, (kind, before, after, kinds) in ACTORS.items():
        texts = ["r0", "r15", "r16", "c0", "c31", "c32", "R0", "r00", "c", "x0"]
        letters = [text[0] for text in texts[:6]]
        wanted = ["ok" if letter in kinds and text not in ("r16", "c32") else "no" for letter, text in zip(letters, texts)] + ["no"] * 4
        # what fits beside the request c0#1:read:a is spelled as c0 alone, which is in the list
        yield Listed(f"actor-of-{name}", ["spelling"], tokens(kind, [f"{before}{text}{after}" for text in texts]), wanted)


def lists():
    """Each list: of one item, of as many as it may have, of one more; none at all, as it is spelled if it may be; a mark too many at the end, and two
    marks between."""
    for name, (kind, before, item, mark, after, most, none) in LISTS.items():
        texts = [item, mark.join([item] * most), mark.join([item] * (most + 1))]
        wanted = ["ok", "ok", "no"]
        for text, answer in [(none, "ok"), (item + mark, "no"), (f"{item}{mark}{mark}{item}", "no")]:
            if text is not None and (mark or text == none):
                texts.append(text)
                wanted.append(answer)
        yield Listed(f"items-of-{name}", tags_of(name, kind), tokens(kind, [f"{before}{text}{after}" for text in texts]), wanted)


def marks():
    """A token of each kind: as it is; with a space before it and after it, a tab after it, a capital first letter; and with each of its marks doubled,
    and then left out."""
    for kind, whole in WHOLES.items():
        at = [place for place, letter in enumerate(whole) if letter in MARKS]
        texts = [whole, f" {whole}", f"{whole} ", f"{whole}\t", whole[0].upper() + whole[1:] if whole[0].isalpha() else f"+{whole}"]
        texts += [whole[:place] + whole[place] + whole[place:] for place in at]
        calls = tokens(kind, texts)
        wanted = ["ok", *["E2 BadName" if kind == "name" else "no"] * (len(calls) - 1)]
        yield Listed(f"marks-of-{kind}-doubled", tags_of("requests", kind), calls, wanted)
        calls = tokens(kind, [whole[:place] + whole[place + 1:] for place in at])
        if calls and kind not in ("chain", "envelope", "statement"):
            yield Listed(f"marks-of-{kind}-left-out", tags_of("requests", kind), calls, ["no"] * len(calls))


def long_forms():
    """The statement that fits its place is spelled by the signer alone: its long form is no token, at the first, the second and the third place, whoever
    signs; the next slot's is one. Beside a request, likewise."""
    before = []
    for place, signer in enumerate(("r0", "c0", "r15")):
        text, joined = "+".join(before) or "-", "".join(f"{one}+" for one in before)
        calls = tokens("chain", [f"4/idle/{joined}{signer}", f"4/idle/{joined}{signer}(4/idle/{text})", f"4/idle/{joined}{signer}(5/idle/{text})"])
        yield Listed(f"long-form-at-place-{place}", ["spelling"], calls, ["ok", "no", "ok"])
        before.append(signer)
    for signer in ("c0", "c1", "r0"):
        calls = tokens("signed-request", [f"c0#1:read:a~{signer}", f"c0#1:read:a~{signer}(c0#1:read:a)", f"c0#1:read:a~{signer}(c0#2:read:a)"])
        yield Listed(f"long-form-beside-a-request-by-{signer}", ["spelling"], calls, ["ok", "no", "ok"])


def shapes():
    """n is 1 to 16 and at least 2f+1; m is 1 to 32; the traitors are replicas of the shape, rising, each once, and at most f. For f = 0 to 8: 2f, 2f+1,
    16 and 17 replicas."""
    for f in range(9):
        counts = [2 * f, 2 * f + 1, 16, 17]
        calls = tokens("shape", [f"{n} {f} 1 -" for n in counts])
        yield Listed(f"shape-f{f}", ["shapes"], calls, ["ok" if 1 <= n <= 16 and n > 2 * f else "E1 BadShape" for n in counts])
    for f in (0, 1, 2, 7):
        n = 2 * f + 1
        texts = ["+".join(f"r{number}" for number in range(count)) or "-" for count in (f, f + 1)] + [f"r{n - 1}", f"r{n}"]
        calls = tokens("shape", [f"{n} {f} 1 {text}" for text in texts])
        yield Listed(f"shape-f{f}-traitors", ["shapes"], calls, ["ok", "E1 BadShape", "ok" if f else "E1 BadShape", "E1 BadShape"])
    calls = tokens("shape", ["5 2 1 r1+r0", "5 2 1 r0+r0", "5 2 1 r0+", "5 2 1 r00", "5 2 1 c0", "5 2 1 r16", "5 2 1", "5 2 1 - -", "5 2 0 -", "5 2 32 -",
        "5 2 33 -"])
    yield Listed("shape-spellings", ["shapes"], calls, [*["no"] * 8, "E1 BadShape", "ok", "E1 BadShape"])


FILES = {"token-fields": [numbers, values, actors], "token-marks": [lists, marks, long_forms, shapes]}
