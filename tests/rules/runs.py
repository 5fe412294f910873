"""Recorded runs: which line may follow the lines before it. A run with each line left out, doubled, and exchanged with the next; what a loyal replica may
post in a round, what a client may, and what a traitor may sign."""

from rules.listing import Listed

# What one replica and two clients did: c0 wrote 7, and told c1; then c1 read it.
ONE_REPLICA = [
    "c0 post r0 ask c0#1:write:a:7~c0", "r0 take c0 ask c0#1:write:a:7~c0", "r0 post r0 round 0 0/c0#1:write:a:7~c0/r0",
    "r0 take r0 round 0 0/c0#1:write:a:7~c0/r0", "r0 post c0 reply 1 0 written", "c0 take r0 reply 1 0 written", "c0 post c1 seen 1",
    "c1 post r0 ask c1#1:read:a~c1", "c1 take c0 seen 1", "r0 take c1 ask c1#1:read:a~c1", "r0 post r0 round 1 1/c1#1:read:a~c1/r0",
    "r0 take r0 round 1 1/c1#1:read:a~c1/r0", "r0 post c1 reply 1 1 held 7", "c1 take r0 reply 1 1 held 7",
]
ONE_HEADER = "dsr-transcript 1 1 0 2 -"
THREE_HEADER = "dsr-transcript 2 3 1 2 -"
ASK = "c0#1:write:a:7~c0"


def row(name, tags, header, lines, *wanted):
    """Returns a row of the transcript with these lines. Without an answer the models say whether it is a run."""
    text = "".join(f"{line} | " for line in [header, *lines]).removesuffix(" ")
    return Listed(name, tags, [f"transcript {text}", "verdict"], list(wanted))


def posted(number, envelope, n=3, first=0):
    return [f"r{number} post r{to} {envelope}" for to in range(first, n)]


def taken(number, envelopes):
    return [f"r{number} take r{other} {envelope}" for other, envelope in enumerate(envelopes)]


def round_zero():
    """Returns the lines of round 0 of three loyal replicas, in which r0 proposes the ask of c0, and the envelope of it."""
    opening = f"round 0 0/{ASK}/r0"
    envelopes = [opening, "empty", "empty"]
    lines = [f"c0 post r0 ask {ASK}", f"r0 take c0 ask {ASK}"]
    for number, envelope in enumerate(envelopes):
        lines += posted(number, envelope)
    for number in range(3):
        lines += taken(number, envelopes)
    return lines


# ---- lines of a whole run


def beginnings():
    """The run of one replica and two clients, cut after each line: the beginning of a run is a run."""
    for count in range(len(ONE_REPLICA) + 1):
        accepted = [f"accepted c0 1 0 written"] * (count > 5) + ["accepted c1 1 1 held 7"] * (count > 13)
        history = ["0 c0#1:write:a:7"] * (count > 3) + ["1 c1#1:read:a"] * (count > 11)
        verdict = " | ".join([f"run {count}", *accepted, f"history {len(history)}", *history])
        yield row(f"first-{count}-lines", ["runs"], ONE_HEADER, ONE_REPLICA[:count], verdict)


def doubled():
    """The same run with each line doubled: that is no step, since its box is full after a post, and empty after a take."""
    for place, line in enumerate(ONE_REPLICA):
        lines = [*ONE_REPLICA[:place + 1], line, *ONE_REPLICA[place + 1:]]
        yield row(f"line-{place + 2}-doubled", ["runs"], ONE_HEADER, lines, f"E14 NotARun {place + 3}")


def left_out():
    """The same run with each line left out: the first line that needed it is named, if there is one."""
    for place in range(len(ONE_REPLICA)):
        yield row(f"line-{place + 2}-left-out", ["runs"], ONE_HEADER, [*ONE_REPLICA[:place], *ONE_REPLICA[place + 1:]])


def exchanged():
    """The same run with each two neighbours exchanged: it stays a run if neither needs the other."""
    for place in range(len(ONE_REPLICA) - 1):
        lines = [*ONE_REPLICA[:place], ONE_REPLICA[place + 1], ONE_REPLICA[place], *ONE_REPLICA[place + 2:]]
        yield row(f"lines-{place + 2}-and-{place + 3}-exchanged", ["runs"], ONE_HEADER, lines)


# ---- the envelope of a round


def first_posts():
    """What r0, whose slot 0 is, posts to r0 in round 0, where it holds an ask of c0 and not one of c1: idle or the ask, in a chain with its own signature
    alone. All else is no step: nothing, no chain, another round, another slot, a second chain, a value that it does not hold, another signature beside
    it, and signatures more."""
    before = [f"c0 post r0 ask {ASK}", f"r0 take c0 ask {ASK}"]
    for name, envelope, is_step in [
        ("idle", "round 0 0/idle/r0", True), ("the-held-ask", f"round 0 0/{ASK}/r0", True), ("nothing", "empty", False), ("no-chain", "round 0", False),
        ("another-round", f"round 1 0/{ASK}/r0", False), ("another-slot", f"round 0 1/{ASK}/r0", False), ("two-chains", f"round 0 0/{ASK}/r0 0/idle/r0", False),
        ("ask-of-nobody", "round 0 0/c1#1:read:a~c1/r0", False), ("held-and-not-held", f"round 0 0/{ASK},c1#1:read:a~c1/r0", False),
        ("ask-twice", f"round 0 0/{ASK},{ASK}/r0", False), ("another-operation", "round 0 0/c0#1:write:a:8~c0/r0", False),
        ("unsigned", f"round 0 0/{ASK}/-", False), ("signed-by-r1", f"round 0 0/{ASK}/r1", False), ("signed-twice", f"round 0 0/{ASK}/r0+r0", False),
        ("misfit", f"round 0 0/{ASK}/r0(0/idle/-)", False), ("asked-by-c1", "round 0 0/c0#1:write:a:7~c1/r0", False),
    ]:
        wanted = "run 3 | history 0" if is_step else "E14 NotARun 4"
        yield row(f"first-post-{name}", ["rounds", "lists"], THREE_HEADER, [*before, f"r0 post r0 {envelope}"], wanted)


def silent_posts():
    """What r1 posts to r0 in round 0: slot 0 is not its own, and it has kept nothing, so only the empty envelope, and not a round without chains."""
    for name, envelope in [("nothing", "empty"), ("no-chain", "round 0"), ("idle-in-the-slot-of-r0", "round 0 0/idle/r1"),
        ("idle-in-its-next-slot", "round 0 1/idle/r1"),
                           ("an-ask", f"ask {ASK}"), ("a-reply", "reply 1 0 written"), ("a-front", "seen 0")]:
        wanted = "run 1 | history 0" if envelope == "empty" else "E14 NotARun 2"
        yield row(f"silent-post-{name}", ["rounds"], THREE_HEADER, [f"r1 post r0 {envelope}"], wanted)


def orders():
    """A loyal replica posts to r0, r1 and r2, the same to all, and then takes from r0, r1 and r2, each once in a round. r0 in round 0, out of turn in
    each way; a post to a client with nothing decided, and takes from clients at any time."""
    idle, ask = "round 0 0/idle/r0", ["c0 post r0 ask c0#1:read:a~c0"]
    posts = posted(0, idle)
    for name, lines, wanted in [
        ("in-turn", [*posts, "r0 take r0 round 0 0/idle/r0"], "run 4 | history 0"),
        ("r1-first", [posts[1]], "E14 NotARun 2"),
        ("r0-left-out", [posts[1], posts[2]], "E14 NotARun 2"),
        ("r1-left-out", [posts[0], posts[2]], "E14 NotARun 3"),
        ("other-to-r1", [posts[0], "r0 post r1 empty"], "E14 NotARun 3"),
        ("other-to-r2", [posts[0], posts[1], f"r0 post r2 round 0 0/{ASK}/r0"], "E14 NotARun 4"),
        ("takes-before-the-last-post", [posts[0], posts[1], "r0 take r0 round 0 0/idle/r0"], "E14 NotARun 4"),
        ("takes-from-r1-first", [*posted(1, "empty"), *posts, "r0 take r1 empty"], "E14 NotARun 8"),
        ("takes-from-r0-twice", [*posts, "r0 take r0 round 0 0/idle/r0", "r0 take r0 round 0 0/idle/r0"], "E14 NotARun 6"),
        ("asks-between-posts", [*ask, posts[0], "r0 take c0 ask c0#1:read:a~c0", posts[1], posts[2]], "run 5 | history 0"),
        ("asks-between-takes", [*ask, *posts, "r0 take r0 round 0 0/idle/r0", "r0 take c0 ask c0#1:read:a~c0"], "run 6 | history 0"),
        ("replies-before-anything-is-decided", ["r0 post c0 reply 1 0 written"], "E14 NotARun 2"),
        ("tells-a-client-a-front", ["r0 post c0 seen 0"], "E14 NotARun 2"),
        ("empty-to-a-client", ["r0 post c0 empty"], "E14 NotARun 2"),
    ]:
        yield row(f"turns-{name}", ["turns"], THREE_HEADER, lines, wanted)


def relays():
    """What r1 posts to r0 in round 1, after r0 proposed the ask of c0 in slot 0 and all took it: the chain of slot 0 with its own signature at the end,
    and then its own slot, idle. All else is no step: one of them left out, their order turned, another signature, another content, its own slot with an
    ask that it does not hold."""
    relay, own, before = f"0/{ASK}/r0+r1", "1/idle/r1", round_zero()
    for name, chains, is_step in [
        ("right", f"round 1 {relay} {own}", True), ("no-relay", f"round 1 {own}", False), ("own-slot-left-out", f"round 1 {relay}", False),
        ("nothing", "empty", False),
        ("slots-turned", f"round 1 {own} {relay}", False), ("relay-unsigned", f"round 1 0/{ASK}/r0 {own}", False),
        ("relay-signed-twice", f"round 1 0/{ASK}/r0+r1+r1 {own}", False),
        ("relay-signed-first", f"round 1 0/{ASK}/r1+r0 {own}", False), ("relay-of-idle", f"round 1 0/idle/r0+r1 {own}", False),
        ("relay-twice", f"round 1 {relay} {relay} {own}", False),
        ("relay-on-another-link", f"round 1 0/{ASK}/r0+r1(0/c0#1:write:a:7/-) {own}", False), ("another-round", f"round 2 {relay} {own}", False),
        ("ask-that-it-does-not-hold", f"round 1 {relay} 1/{ASK}/r1", False), ("own-slot-of-another", f"round 1 {relay} 2/idle/r1", False),
    ]:
        wanted = f"run {len(before) + 1} | history 0" if is_step else f"E14 NotARun {len(before) + 2}"
        yield row(f"relay-{name}", ["relays", "lists"], THREE_HEADER, [*before, f"r1 post r0 {chains}"], wanted)
    for name, line, is_step in [("r0-posts-nothing", "r0 post r0 empty", True), ("r0-signs-again", f"r0 post r0 round 1 0/{ASK}/r0+r0", False),
                                ("r2-relays-alone", f"r2 post r0 round 1 0/{ASK}/r0+r2", True),
                                ("r2-opens-a-slot", f"r2 post r0 round 1 0/{ASK}/r0+r2 2/idle/r2", False)]:
        wanted = f"run {len(before) + 1} | history 0" if is_step else f"E14 NotARun {len(before) + 2}"
        yield row(f"relay-{name}", ["relays"], THREE_HEADER, [*before, line], wanted)


# ---- clients and traitors


def client_posts():
    """What c0 may post after one line or some: its next request, with its number and its signature, to any replica; the same one again to others as long
    as it is outstanding; and to c1 the front that it has seen, which is 0 before anything is accepted."""
    ask = "c0 post r0 ask c0#1:read:a~c0"
    for name, lines, is_step in [
        ("first", [ask], True), ("to-the-last-replica", ["c0 post r2 ask c0#1:read:a~c0"], True),
        ("same-to-another", [ask, "c0 post r1 ask c0#1:read:a~c0"], True),
        ("other-operation-to-another", [ask, "c0 post r1 ask c0#1:read:b~c0"], False),
        ("next-number-while-outstanding", [ask, "c0 post r1 ask c0#2:read:a~c0"], False),
        ("number-2-first", ["c0 post r0 ask c0#2:read:a~c0"], False), ("unsigned-by-itself", ["c0 post r0 ask c0#1:read:a~c1"], False),
        ("signed-on-another", ["c0 post r0 ask c0#1:read:a~c0(c0#2:read:a)"], False), ("of-c1", ["c0 post r0 ask c1#1:read:a~c1"], False),
        ("front-0", ["c0 post c1 seen 0"], True), ("front-1", ["c0 post c1 seen 1"], False), ("front-to-itself", ["c0 post c0 seen 0"], False),
        ("front-to-a-replica", ["c0 post r0 seen 0"], False), ("ask-to-a-client", ["c0 post c1 ask c0#1:read:a~c0"], False),
        ("empty", ["c0 post r0 empty"], False),
        ("reply", ["c0 post r0 reply 1 0 written"], False), ("to-outside", ["c0 post r3 ask c0#1:read:a~c0"], False),
        ("of-outside", ["c2 post r0 ask c2#1:read:a~c2"], False),
    ]:
        wanted = f"run {len(lines)} | history 0" if is_step else f"E14 NotARun {len(lines) + 1}"
        yield row(f"client-posts-{name}", ["clients"], THREE_HEADER, lines, wanted)


def fronts():
    """After its reply at place 0 c0 has seen 1, and tells c1 just that; c1 then has seen 1 too, tells just that, and asks for its own first request."""
    told = ["c0 post c1 seen 1", "c1 take c0 seen 1"]
    before = ONE_REPLICA[:6]
    for name, lines, is_step in [
        ("tells-1", ["c0 post c1 seen 1"], True), ("tells-0", ["c0 post c1 seen 0"], False), ("tells-2", ["c0 post c1 seen 2"], False),
        ("told-one-tells-1", [*told, "c1 post c0 seen 1"], True), ("told-one-tells-0", [*told, "c1 post c0 seen 0"], False),
        ("told-one-asks-number-1", [*told, "c1 post r0 ask c1#1:read:a~c1"], True), ("told-one-asks-number-2", [*told, "c1 post r0 ask c1#2:read:a~c1"], False),
        ("next-number-is-2", ["c0 post r0 ask c0#2:read:a~c0"], True), ("number-1-again", ["c0 post r0 ask c0#1:write:a:7~c0"], False),
        ("number-3", ["c0 post r0 ask c0#3:read:a~c0"], False),
    ]:
        count = len(before) + len(lines)
        wanted = f"run {count} | accepted c0 1 0 written | history 1 | 0 c0#1:write:a:7" if is_step else f"E14 NotARun {count + 1}"
        yield row(f"front-{name}", ["fronts"], ONE_HEADER, [*before, *lines], wanted)


def traitors():
    """The traitor r2 posts anything to anyone, at any time, as long as each signature in it is its own, or its signer has posted it before in some
    envelope, to whomever. r0 has posted its idle chain of slot 0 to r0, and c0 its ask to r1."""
    header = "dsr-transcript 2 3 1 2 r2"
    before = ["r0 post r0 round 0 0/idle/r0", "c0 post r1 ask c0#1:read:a~c0"]
    for name, envelope, is_step in [
        ("nothing", "empty", True), ("own-slot-ahead", "round 9 2/idle/r2", True),
        ("own-signature-on-anything", "round 0 0/idle/r2(7/c0#1:read:a/r0+r0)", True),
        ("own-signature-twice", "round 0 0/idle/r2+r2", True), ("own-signature-beside-a-request", "ask c0#1:read:a~r2", True),
        ("lie-to-a-client", "reply 1 7 full", True),
        ("r0-as-it-signed", "round 0 0/idle/r0", True), ("r0-relayed", "round 1 0/idle/r0+r2", True), ("r0-on-another-slot", "round 0 1/idle/r0", False),
        ("r0-on-another-content", "round 0 0/c0#1:read:a~c0/r0", False), ("r0-at-another-place", "round 1 0/idle/r2+r0", False),
        ("r0-out-of-place", "round 1 1/idle/r2+r0(0/idle/-)", True), ("r1-that-signed-nothing", "round 0 0/idle/r1", False),
        ("c0-as-it-asked", "ask c0#1:read:a~c0", True),
        ("c0-in-a-value", "round 2 2/c0#1:read:a~c0/r2", True), ("c0-with-another-number", "ask c0#2:read:a~c0", False),
        ("c0-on-another-operation", "ask c0#1:read:b~c0", False),
        ("c1-that-asked-nothing", "ask c1#1:read:a~c1", False), ("outside-the-shape", "round 0 0/idle/r3", False),
        ("forged-beside-good", "round 0 0/idle/r0 0/idle/r1", False),
    ]:
        wanted = "run 3 | history 0" if is_step else "E14 NotARun 4"
        yield row(f"traitor-posts-{name}", ["forged"], header, [*before, f"r2 post c1 {envelope}"], wanted)


FILES = {"transcript-lines": [beginnings, doubled, left_out, exchanged],
    "transcript-conduct": [first_posts, silent_posts, orders, relays, client_posts, fronts, traitors]}
