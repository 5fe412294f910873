"""Plays written by hand, with what is counted of their rounds: nothing here was made by a program.

Of each play: what it shows, its shape, its lines, the greatest count of closed rounds from held to acted, or 0 if nothing that is held has acted, and whether
all loyal replicas are eager.
"""

# A round of one replica that proposes nothing, and one that proposes these clients.
IDLE = ["posts r0", "takes *"]


def proposing(clients):
    return [f"posts r0 from {clients}", "takes *"]


def asking(*clients):
    """These clients ask all replicas, which hear them."""
    return [line for client in clients for line in (f"asks {client} begin read a", f"hears {client}")]


def answering(client):
    return [f"replies {client}", f"take {client} r0"]


NINE = [f"c{client}" for client in range(9)]
EIGHT = "c0+c1+c2+c3+c4+c5+c6+c7"
PLAYS = [
    ("held before the slot begins", "1 0 1 -", [*asking("c0"), *proposing("c0")], 1, True),
    ("held after the slot has begun", "1 0 1 -", ["posts r0", *asking("c0"), "takes *", *proposing("c0")], 2, True),
    ("nothing is asked", "1 0 1 -", IDLE * 3, 0, True),
    ("nothing has acted yet", "1 0 1 -", [*asking("c0"), "posts r0 from c0"], 0, True),
    ("idle, though a client waits", "1 0 1 -", [*asking("c0"), *IDLE], 0, False),
    # It is eager since its last idle post: at that no round was closed, or one.
    ("idle, and then eager", "1 0 1 -", [*asking("c0"), *IDLE, *proposing("c0")], 2, False),
    ("twice idle, and then eager", "1 0 1 -", [*asking("c0"), *IDLE, *IDLE, *proposing("c0")], 2, False),
    ("a request that has acted is proposed again", "1 0 1 -", [*asking("c0"), *proposing("c0"), *proposing("c0")], 1, False),
    ("two clients in turn", "1 0 2 -", [*asking("c1", "c0"), *proposing("c0+c1")], 1, True),
    ("two clients in the wrong order", "1 0 2 -", [*asking("c1", "c0"), *proposing("c1+c0")], 1, False),
    ("one of two that wait", "1 0 2 -", [*asking("c0", "c1"), *proposing("c0"), *proposing("c1")], 2, False),
    ("the ring goes on after the one proposed last", "1 0 2 -",
     [*asking("c0"), *proposing("c0"), *answering("c0"), *asking("c0", "c1"), *proposing("c1+c0")], 1, True),
    ("the ring does not begin at the first client again", "1 0 2 -",
     [*asking("c0"), *proposing("c0"), *answering("c0"), *asking("c0", "c1"), *proposing("c0+c1")], 1, False),
    ("the ring goes on after the last of two", "1 0 3 -",
     [*asking("c0", "c1"), *proposing("c0+c1"), *answering("c0"), *answering("c1"), *asking("c1", "c2"), *proposing("c2+c1")], 1, True),
    ("an idle slot leaves the ring as it is", "1 0 2 -",
     [*asking("c0"), *proposing("c0"), *IDLE, *answering("c0"), *asking("c0", "c1"), *proposing("c1+c0")], 1, True),
    ("eight of nine, and then the ninth", "1 0 9 -", [*asking(*NINE), *proposing(EIGHT), *proposing("c8")], 2, True),
    ("seven of nine", "1 0 9 -", [*asking(*NINE), *proposing("c0+c1+c2+c3+c4+c5+c6"), *proposing("c7+c8")], 2, False),
    ("nine that come after the slot has begun", "1 0 9 -", ["posts r0", *asking(*NINE), "takes *", *proposing(EIGHT), *proposing("c8")], 3, True),
    # r1's slot is slot 1, which closes with round 2, the third.
    ("what one of three holds", "3 1 1 -",
     ["post c0 r1 begin read a", "take r1 c0", "posts *", "takes *", "posts r0", "posts r1 from c0", "posts r2", "takes *", "posts *", "takes *"], 3, True),
    # r1 hears it when it has closed slot 1's first round; slot 4 closes with round 5.
    ("what one of three holds too late for its slot", "3 1 1 r0",
     ["plants r0 empty", "posts *", "takes *", "plants r0 empty", "posts *", "post c0 r1 begin read a", "take r1 c0", "takes *",
      *["plants r0 empty", "posts *", "takes *"] * 2, "plants r0 empty", "posts r1 from c0", "posts r2", "takes *", "plants r0 empty", "posts *", "takes *"],
     5, True),
    # r1 holds it too, and lets its slot pass; r2 is eager and has held it as long.
    ("one of two holders is not eager", "3 1 1 -",
     [*asking("c0"), "posts *", "takes *", "posts *", "takes *", "posts r0", "posts r1", "posts r2 from c0", "takes *", "posts *", "takes *"], 4, False),
]

# A shape, and within how many rounds what is held must act there: n times a turn for each 8 clients, and f+1.
BOUNDS = [
    ("1 0 1 -", 2), ("1 0 8 -", 2), ("1 0 9 -", 3), ("1 0 32 -", 5), ("2 0 9 -", 5), ("3 1 1 -", 5), ("3 1 9 r2", 8), ("4 1 8 r0", 6), ("4 1 9 -", 10),
    ("5 2 17 r0+r1", 18), ("7 3 4 -", 11), ("16 7 32 -", 72),
]

# The shapes in which the slowest play must reach the bound: n, f, m, the replica that is asked, and the traitors.
SLOWEST = [
    (1, 0, 1, 0, ()), (1, 0, 8, 0, ()), (1, 0, 9, 0, ()), (1, 0, 32, 0, ()), (2, 0, 9, 1, ()), (3, 1, 1, 0, (2,)), (3, 1, 9, 0, (2,)), (3, 1, 9, 2, ()),
    (4, 1, 8, 1, (0,)), (4, 1, 17, 3, (1,)), (5, 2, 17, 3, (0, 1)), (7, 3, 4, 3, (0, 1, 2)),
]

# The lines of a transcript after the first, of one replica and one client: no run, since what the eager replica proposes never comes. The bound is 2 rounds.
NEVER_DECIDED = [
    "c0 post r0 ask c0#1:read:a~c0",
    "r0 take c0 ask c0#1:read:a~c0",
    "r0 post r0 round 0 0/c0#1:read:a~c0/r0",
    "r0 take r0 empty",
    "r0 post r0 round 1 1/c0#1:read:a~c0/r0",
    "r0 take r0 empty",
]
