"""Drafts: at which places of an envelope a signature is forged, and what was seen of it that makes it known. And which envelopes are plain."""

from rules.listing import Listed

# An envelope in which the signature of one actor stands at one place, and all others are r0's and c0's: before that place, at it, after it.
PLACES = {
    "alone-on-a-chain": ("round 3 0/idle/", "r1", ""),
    "first-of-three-signers": ("round 3 0/idle/", "r1", "+r0+r0"),
    "second-of-three-signers": ("round 3 0/idle/r0+", "r1", "+r0"),
    "last-of-three-signers": ("round 3 0/idle/r0+r0+", "r1", ""),
    "first-of-three-chains": ("round 3 0/idle/", "r1", " 0/c0#1:read:a~c0/r0 1/idle/r0"),
    "second-of-three-chains": ("round 3 0/c0#1:read:a~c0/r0 0/idle/", "r1", " 1/idle/r0"),
    "last-of-three-chains": ("round 3 0/c0#1:read:a~c0/r0 1/idle/r0 0/idle/", "r1", ""),
    "beside-one-request": ("round 3 0/c1#1:read:a~", "c1", "/r0"),
    "beside-the-first-of-three-requests": ("round 3 0/c1#1:read:a~", "c1", ",c0#1:read:a~c0,c0#2:read:a~c0/r0"),
    "beside-the-second-of-three-requests": ("round 3 0/c0#1:read:a~c0,c1#1:read:a~", "c1", ",c0#2:read:a~c0/r0"),
    "beside-the-last-of-three-requests": ("round 3 0/c0#1:read:a~c0,c0#2:read:a~c0,c1#1:read:a~", "c1", "/r0"),
    "beside-an-unsigned-request": ("round 3 0/c1#1:read:a~", "c1", "/-"),
    "beside-an-ask": ("ask c1#1:read:a~", "c1", ""),
}
# For each place the statement that is signed there, as an envelope that carries it, and envelopes that carry nearly the same.
LINKS = {"first": "0/idle/r1", "second": "0/idle/r0+r1", "last": "0/idle/r0+r0+r1"}
OTHERS = {
    "other-slot": lambda chain: f"1{chain[1:]}",
    "other-content": lambda chain: chain.replace("idle", "c0#1:read:a~c0"),
    "signer-more": lambda chain: chain.replace("/idle/", "/idle/r2+"),
}


def holder_and_learned(place):
    """Returns who signs at this place, and an envelope that carries that very signature."""
    _, signer, _ = PLACES[place]
    if signer == "c1":
        return signer, "ask c1#1:read:a~c1"
    link = next((LINKS[word] for word in LINKS if place.startswith(f"{word}-of-three-signers")), "0/idle/r1")
    return signer, f"round 9 {link}"


def tags_of(place):
    return ["forged"] + ["lists"] * ("requests" in place)


def held_or_known():
    """One signature of r1 or c1 stands at each of thirteen places of an envelope; all others are by r0 and c0, whose keys are held. The envelope is
    forged if the key of r1 or c1 is not held and that very signature was not seen; it is built if the key is held, and also if it was seen on another
    envelope, of another round."""
    for place, (before, signer, after) in PLACES.items():
        envelope = f"{before}{signer}{after}"
        yield Listed(f"not-held-{place}", tags_of(place), ["keys r0+c0", f"build {envelope}", f"forged {envelope}"][:2], ["E8 Forged"])
        yield Listed(f"held-{place}", tags_of(place), [f"keys {'+'.join(sorted(['r0', 'c0', signer], reverse=True))}", f"build {envelope}"], ["ok"])
        _, learned = holder_and_learned(place)
        yield Listed(f"seen-{place}", tags_of(place), ["keys r0+c0", f"learn {learned}", f"build {envelope}"], ["ok", "ok"])


def nearly_known():
    """What was seen is nearly the signature at the place, and so not it: of another slot, of another content, with one signer more before it; the request
    with another number, another operation, by another client. All of it is forged."""
    for place in PLACES:
        before, signer, after = PLACES[place]
        envelope, (_, learned) = f"{before}{signer}{after}", holder_and_learned(place)
        if signer == "r1":
            near = {name: f"round 9 {other(learned.removeprefix('round 9 '))}" for name, other in OTHERS.items()}
        else:
            near = {"other-number": "ask c1#2:read:a~c1", "other-operation": "ask c1#1:read:b~c1", "other-client": "ask c1#1:read:a~c2",
                "a-link": "round 9 0/c1#1:read:a~c0/c1"}
        for name, other in near.items():
            yield Listed(f"seen-{name}-{place}", tags_of(place), ["keys r0+c0", f"learn {other}", f"build {envelope}"], ["ok", "E8 Forged"])


def seen_where():
    """A signature is known wherever it was seen: a client's on its request from an ask, from a value that others signed, from an unsigned value, and from
    the second place of a list; a replica's on a link from a longer chain, from a second chain, and from an envelope of any round. Not from one that has
    other signatures alone."""
    ask, link = "ask c1#1:read:a~c1", "round 3 0/idle/r1"
    for name, target, learned, answer in [
        ("ask-from-an-ask", ask, ask, "ok"),
        ("ask-from-a-value", ask, "round 0 0/c1#1:read:a~c1/r2", "ok"),
        ("ask-from-an-unsigned-value", ask, "round 0 0/c1#1:read:a~c1/-", "ok"),
        ("ask-from-a-list", ask, "round 0 0/c2#1:read:a~c2,c1#1:read:a~c1/r2", "ok"),
        ("ask-from-another-slot", ask, "round 0 7/c1#1:read:a~c1/r2", "ok"),
        ("ask-from-a-link", ask, "round 0 0/idle/c1(0/c1#1:read:a/-)", "E8 Forged"),
        ("ask-from-a-request-of-another-signature", ask, "round 0 0/c1#1:read:a~c2/r2", "E8 Forged"),
        ("link-from-a-longer-chain", link, "round 0 0/idle/r1+r2+r3", "ok"),
        ("link-from-a-second-chain", link, "round 0 1/idle/r2 0/idle/r1", "ok"),
        ("link-from-another-round", link, "round 1099511627775 0/idle/r1", "ok"),
        ("link-from-a-chain-of-another-slot", link, "round 0 1/idle/r1(0/idle/-)", "ok"),
        ("link-after-a-misfit", "round 3 0/idle/r1", "round 0 0/idle/r2(7/idle/-)+r1", "E8 Forged"),
        ("link-of-the-same-signer-later", link, "round 0 0/idle/r2+r1", "E8 Forged"),
        ("link-from-nothing", link, "empty", "E8 Forged"),
        ("link-from-a-reply", link, "reply 1 0 written", "E8 Forged"),
    ]:
        yield Listed(f"known-{name}", ["forged", "lists"] if "list" in name else ["forged"], ["keys -", f"learn {learned}", f"build {target}"], ["ok", answer])


def which_is_forged():
    """The signature that is forged, if there is one alone: of thirteen places each, with its statement spelled out."""
    for place, (before, signer, after) in PLACES.items():
        envelope = f"{before}{signer}{after}"
        statement = "c1#1:read:a" if signer == "c1" else "0/idle/-"
        if place.endswith("three-signers"):
            statement = {"first": "0/idle/-", "second": "0/idle/r0", "last": "0/idle/r0+r0"}[place.split("-")[0]]
        yield Listed(f"forged-{place}", tags_of(place), ["keys r0+c0", f"forged {envelope}"], [f"{signer}({statement})"])


FILES = {"draft-places": [held_or_known, nearly_known, seen_where, which_is_forged]}
