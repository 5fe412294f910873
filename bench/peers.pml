/* Authenticated broadcast by Dolev and Strong, as dsr uses it, for four replicas of which one may lie: a model for Spin, which bench/peers runs.

   In each round a slot begins, whose sender is the replica `round % N`, and the slot of the round before ends. Each replica posts to all four and
   then takes from all four, by a channel of one place for each two. A message has up to two contents that its poster proposes as the sender, and
   up to two that it relays of the slot before. Signatures are ideal and are not in it: a loyal sender signs A alone, and a loyal replica reads
   nothing that its signers cannot have signed. There are no clients, no requests, no answers, and no limits.

   Macros: ROUNDS, how many rounds there are; TRAITOR, the replica that lies; ANY, the traitor posts whatever it can. Without ANY it is two-faced:
   it shows A to replica 1, and B to those after it. */

#ifndef ROUNDS
#define ROUNDS 3
#endif
#ifndef TRAITOR
#define TRAITOR 0
#endif
#define N 4
#define LOYAL 3
#define NONE 0
#define A 1
#define B 2

chan box[16] = [1] of { byte, byte, byte, byte };

/* What the first replica decided for a slot, until all loyal ones have: they are at most one slot apart. */
byte verdict[2];
byte deciders[2];

/* A replica keeps the first two contents of a slot. */
inline keep(one, two, content) {
    if
    :: content == NONE || content == one -> skip
    :: content != NONE && content != one && one == NONE -> one = content
    :: content != NONE && content != one && one != NONE && two == NONE -> two = content
    :: else -> skip
    fi
}

/* Agreement: all loyal replicas decide alike. Validity: for a loyal sender's slot they decide what it proposed. */
inline decide(slot, content) {
    if
    :: deciders[(slot) % 2] == 0 -> verdict[(slot) % 2] = content
    :: else -> assert(verdict[(slot) % 2] == content)
    fi;
    assert((slot) % N == TRAITOR || content == A);
    deciders[(slot) % 2] = (deciders[(slot) % 2] + 1) % LOYAL
}

proctype Replica(byte me) {
    int round = 0;
    /* What is kept of the slot that begins, and of the one before. */
    byte new1 = NONE, new2 = NONE, old1 = NONE, old2 = NONE;
    byte own, other, first, second, at, decided;
    do
    :: round == ROUNDS -> break
    :: round < ROUNDS ->
        d_step {
            own = (round % N == me -> A : NONE);
            /* It relays what it has not signed itself. */
            first = (round % N == (me + 1) % N -> NONE : old1);
            second = (round % N == (me + 1) % N -> NONE : old2);
            at = 0
        }
        do
        :: at < N -> box[me * N + at] ! own, NONE, first, second; at++
        :: at == N -> break
        od;
        at = 0;
        do
        :: at < N ->
            d_step {
                box[at * N + me] ? own, other, first, second;
                if
                :: at == round % N -> keep(new1, new2, own); keep(new1, new2, other)
                :: else -> skip
                fi;
                keep(old1, old2, first);
                keep(old1, old2, second);
                own = NONE;
                other = NONE;
                first = NONE;
                second = NONE;
                at++
            }
        :: at == N -> break
        od;
        at = 0;
        d_step {
            if
            :: round > 0 ->
                decided = (old2 == NONE -> old1 : NONE);
                decide(round - 1, decided);
                decided = NONE
            :: else -> skip
            fi;
            old1 = new1;
            old2 = new2;
            new1 = NONE;
            new2 = NONE;
            round++
        }
    od
}

proctype Traitor() {
    int round = 0;
    byte own, other, first, at;
    do
    :: round == ROUNDS -> break
    :: round < ROUNDS ->
        at = 0;
        do
        :: at < N ->
#ifdef ANY
            if
            :: round % N == TRAITOR -> own = NONE; other = NONE
            :: round % N == TRAITOR -> own = A; other = NONE
            :: round % N == TRAITOR -> own = B; other = NONE
            :: round % N == TRAITOR -> own = A; other = B
            :: round % N != TRAITOR -> skip
            fi;
            if
            :: first = NONE
            :: round > 0 && round % N != (TRAITOR + 1) % N -> first = A
            fi;
#else
            own = (round % N != TRAITOR || at == TRAITOR -> NONE : (at == 1 -> A : B));
#endif
            box[TRAITOR * N + at] ! own, other, first, NONE;
            d_step {
                own = NONE;
                other = NONE;
                first = NONE;
                at++
            }
        :: at == N -> break
        od;
        at = 0;
        do
        :: at < N -> box[at * N + TRAITOR] ? _, _, _, _; at++
        :: at == N -> break
        od;
        round++
    od
}

init {
    atomic {
        byte replica = 0;
        do
        :: replica == N -> break
        :: replica == TRAITOR -> run Traitor(); replica++
        :: replica < N && replica != TRAITOR -> run Replica(replica); replica++
        od;
        replica = 0
    }
}
