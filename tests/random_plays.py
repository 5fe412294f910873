#!/usr/bin/env python3
"""Random plays, and models that judge what comes of them: tests/random_plays.py, or with the name of one of its parts.

reports: what `dsr play` reports, judged by tests/models/histories.py. For each n from 1 to 16, with the greatest f and that many silent traitors, and with
f = 0: a client's first request is accepted. Then 1,000 random plays, in which traitors post chains with signatures of their own, with ones that they saw,
and with ones that they would have to forge; and the plays of examples/. That the steps which were done are a run is what the contract of `World::run`
says of them. A definition of runs which nothing meets would be of no use: so the accepted replies, the decided requests and the traitors' posts are
counted, and none of the counts may be 0.

answers: that clients are answered in real time, and in time, by two judges that tests/models/real_time.py and tests/models/eager.py write anew. First of
histories, orders, transcripts and plays written by hand, good and bad. Then of 1,000 random plays, and of 500 whose loyal replicas are eager, with traitors,
as `dsr play` makes them:

1. A search finds an order of the requests in which one directory gives these answers, and which keeps real time; and the history that is reported is one.
   How many histories were small enough for the search is said. Without traitors it is so too if each ask comes as late as the boxes allow.
2. Each such history that is spoiled, by a wrong answer, or by two requests exchanged, in real time or in the order, is seen to be wrong.
3. What an eager replica holds has acted at each loyal replica within the bound of rounds. The slowest plays reach it, their clients accept the replies that
   come then, and a bound one less is seen to fail.
4. Of 100 plays that go on in three ways, one order of what came first suits all three, and the reported histories go on from one.

models: the two models of transcripts that tests/texts.py goes by, each judged by the other. No program runs.

1. Each play of examples/: the model of plays gives the report beside it, or its refusal; the model of the checker accepts the transcript,
   and its report has the same accepted replies and the same history.
2. Random plays: the checker accepts the transcript too, and reports what the world says of itself.
3. The texts of tests/transcript_rows.py, and what examples/record/service.py printed: the checker says what is written beside them.
4. Transcripts of plays with small changes: the checker says the same of each as a world that is told the steps one by one, and has to
   take the very same ones. So what is said of steps that may not be next comes from two sources as well.
"""

import random
import re
import sys
from collections import Counter

import eager_rows
import history_rows
import transcript_rows
from kit import eager_plays, inputs
from kit.inputs import by_chance, cut_after_a_line, exchanged, with_a_byte_changed, without_a_line
from kit.program import bytes_of, name_of, program, shown
from kit.report import in_processes, main, say
from models import eager, real_time, slow_check, slow_play
from models.histories import acted, checked_report, faults_of, read_report
from models.transcript_text import Reader, refused, step_of, step_text, whole

PLAYS = 1_000
EAGER_PLAYS = 500
BRANCHING_PLAYS, BRANCHES = 100, 3
MODELLED_PLAYS = 400
RANDOM_CHANGES = 40


# ---- reports of the program


def report_of(play):
    """The report of the play, as a dictionary; a text if it is no report."""
    status, output, errors = ran = program("play", play)
    return shown(ran) if status != 0 or errors else read_report(output.decode())


def served(n, f):
    """A play in which f traitors, the first replicas, are silent, and the first loyal replica's slot has c0's request."""
    play = inputs.Play(n, f, 1, range(f))
    play.lines = ["asks c0 begin write a 5", "hears c0"]
    for t in range(f + 1 + f):
        play.lines += [f"plants r{p} empty" for p in range(f)]
        play.lines += [f"posts r{p} from c0" if p == t == f else f"posts r{p}" for p in range(f, n)]
        play.lines.append("takes *")
    play.lines += ["replies c0", *(f"take c0 r{p}" for p in range(f, n))]
    return play.text()


def fault_of_served(play):
    """What is wrong with the report of a play in which c0's request is to be accepted, or None."""
    report = report_of(play)
    if not isinstance(report, dict):
        return report
    return "its report has other values" if report["accepted"] != [("c0", 1, 0, "written")] or report["refused"] != 0 else None


def judged(what, play, plants, events=None):
    """The name of a play of so many plants, what is wrong with its report, or None, and what is counted of it. It has so many events, or those that are
    reported."""
    report = report_of(play)
    if isinstance(report, str):
        return what, report, Counter()
    faults = faults_of(report, report["done"] + report["refused"] if events is None else events)
    decided = max(sum(len(acted([slot])) for slot in slots) for slots in report["decided"].values())
    # If there are more plants than refused events, at least so many more were done.
    posts = max(0, plants - report["refused"])
    return what, "; ".join(faults), Counter(accepted=len(report["accepted"]), decided=decided, posts=posts, refused=report["refused"])


def judged_random_play(seed):
    play = inputs.random_play(random.Random(seed))
    return judged(f"random play {seed}", play.text(), play.plants, play.events)


def judged_example(stem):
    play = bytes_of(f"{stem}.play")
    return judged(f"{name_of(stem)}.play", play, len(re.findall(rb"^plant", play, re.M)))


def reports(report, _):
    for n in range(1, 17):
        for f in sorted({0, (n - 1) // 2}):
            report.judge(f"n = {n}, f = {f}", fault_of_served(served(n, f)), None)
    sums = Counter()
    ended = [stem for stem in inputs.plays() if not bytes_of(f"{stem}.status")]
    for function, tasks in [(judged_random_play, range(PLAYS)), (judged_example, ended)]:
        for what, fault, counts in in_processes(function, tasks, 8):
            report.judge(what, fault, None)
            sums += counts
    report.judge("examples", None if ended else "there are none", None)
    say(f"accepted replies {sums['accepted']}, decided requests {sums['decided']}, traitors' posts {sums['posts']}, refused events {sums['refused']}")
    for what in ("accepted", "decided", "posts"):
        report.judge(f"the count of {what}", None if sums[what] else "it is 0", None)


# ---- answers in real time, and in time


def transcript_text(shape, lines):
    return inputs.lines_text([f"dsr-transcript 2 {shape}", *lines])


def judge_histories_by_hand(report):
    for what, lines, by_answers, by_places in history_rows.HISTORIES:
        calls = history_rows.history_of(lines)
        report.compare(f"the history: {what}", [real_time.is_linearizable(calls, with_places) for with_places in (False, True)], [by_answers, by_places], None)
    for what, lines, more, each, together in history_rows.BRANCHES:
        calls, branches = history_rows.history_of(lines), [history_rows.history_of(lines + branch) for branch in more]
        found = [real_time.is_linearizable(branch) for branch in branches], real_time.is_strongly_linearizable(calls, branches)
        report.compare(f"the branches: {what}", found, (each, together), None)
    for what, lines, order, word in history_rows.ORDERS:
        fault = real_time.fault_of_order(history_rows.history_of(lines), order)
        report.judge(f"the order: {what}", None if (word in fault if fault and word else fault == word) else f"it says {fault}", None)
    for what, lines, calls in history_rows.TRANSCRIPTS:
        report.compare(f"the transcript: {what}", real_time.calls_of(transcript_text(history_rows.SHAPE, lines)), calls, None)
    for what, lines, wanted in history_rows.LATE_ASKS:
        found = real_time.with_late_asks(transcript_text(history_rows.SHAPE, lines))
        report.compare(f"late asks: {what}", found, transcript_text(history_rows.SHAPE, wanted), None)
    for what, lines, is_wrong in history_rows.TURNS:
        report.compare(f"turns: {what}", real_time.fault_of_turns(history_rows.history_of(lines)) is not None, is_wrong, None)


def judge_rounds_by_hand(report):
    for what, shape, lines, greatest, is_eager in eager_rows.PLAYS:
        world, _ = slow_play.world_of(inputs.lines_text([f"dsr-play 1 {shape}", *lines]))
        rounds = eager.counted(world.transcript().encode())
        found = world.refused, rounds.fault(), rounds.greatest, rounds.fault_of_eagerness() is None
        report.compare(f"rounds: {what}", found, ([], None, greatest, is_eager), None)
    for shape, bound in eager_rows.BOUNDS:
        report.compare(f"the bound of {shape}", eager.rounds_to_act(whole(shape.encode(), Reader.shape)), bound, None)
    rounds = eager.counted(transcript_text("1 0 1 -", eager_rows.NEVER_DECIDED))
    report.judge("rounds: what is never decided", None if rounds.fault() and not rounds.fault_of_eagerness() else "it is not seen", None)


def spoiled(calls, order):
    """How this history and its order are spoiled, each way that there is, and whether the judges see it; None if the search is too large."""
    wrong, exchanged = real_time.with_wrong_answer(calls), real_time.exchanged_in_real_time(calls)
    places = real_time.exchanged_places(calls, order)
    if wrong:
        yield "a wrong answer", real_time.is_linearizable(wrong)
    if exchanged:
        yield "two exchanged in real time", real_time.is_linearizable(exchanged, with_places=True)
    if places:
        yield "two exchanged in the order", real_time.fault_of_order(calls, places) is None


def history_reported(play):
    """The transcript of a play, its history, and the requests of the history that is reported; or None and why there is none."""
    status, transcript, errors = ran = program("play --transcript", play)
    report = report_of(play)
    if status != 0 or errors or not isinstance(report, dict):
        return None, f"{shown(ran)}, {report}"
    return (transcript, real_time.calls_of(transcript), [request for _, request in report["history"]]), None


def judged_answers(what, play, must_be_eager):
    """The name of a play, what is wrong with how its clients are answered, or None, what is counted of it, and the greatest count of rounds, by the shape."""
    found, fault = history_reported(play)
    if fault:
        return what, fault, Counter(), Counter()
    transcript, calls, order = found
    rounds = eager.counted(transcript)
    fault, is_small = real_time.judged(calls, order)
    fault = fault or rounds.fault() or (rounds.fault_of_eagerness() if must_be_eager else None)
    n, f, m, traitors = slow_check.header_of(transcript.split(b"\n")[0])[1]
    if not traitors:
        # In any order of the steps that the boxes allow they are a run, with the same history.
        fault = fault or real_time.judged(real_time.calls_of(real_time.with_late_asks(transcript)), order)[0]
    counts = Counter(plays=1, small=is_small, answered=sum(call.answered is not None for call in calls), pairs=len(real_time.pairs_in_real_time(calls)))
    for way, is_good in spoiled(calls, order):
        counts[way] += is_good is False
        fault = fault or (f"{way} is not seen" if is_good else None)
    counts["at the bound"] += rounds.greatest == rounds.bound
    return what, fault, counts, Counter({(n, f, m, rounds.bound): rounds.greatest})


def judged_in_real_time(seed):
    return judged_answers(f"answers, random play {seed}", inputs.any_play(random.Random(f"answers {seed}"), seed), False)


def judged_eager_play(seed):
    """The same of a play of eager replicas, whose transcript must be the one that its writer's model of the world has."""
    play = eager_plays.random_eager_play(random.Random(f"eager {seed}"))
    what, fault, *counted = judged_answers(f"answers, eager play {seed}", play.text(), True)
    fault = fault or (None if program("play --transcript", play.text())[1] == play.world.transcript().encode() else "its transcript is another one")
    return what, fault, *counted


def fault_of_slowest(play, counts):
    """What is wrong with a slowest play, of which so much was counted, or None."""
    _, transcript, _ = program("play --transcript", play.text())
    if not counts["at the bound"]:
        return "it does not reach the bound"
    if counts["answered"] != play.m:
        return f"{counts['answered']} of its {play.m} clients have accepted the replies that came then"
    return None if eager.counted(transcript, 1).fault() else "a bound one less is not seen to fail"


def judged_slowest(task):
    play = eager_plays.slowest_play(*task)
    what, fault, counts, greatest = judged_answers(f"answers, slowest play {task}", play.text(), True)
    return what, fault or fault_of_slowest(play, counts), counts, greatest


def judged_branches(seed):
    """A play that goes on in some ways: one order of what came first must suit them all, and the reported histories must go on from one."""
    stem, branches = inputs.branching_play(random.Random(f"branches {seed}"), BRANCHES)
    found = [history_reported(play.text()) for play in (stem, *branches)]
    fault = next((fault for _, fault in found if fault), None)
    if fault:
        return f"branching play {seed}", fault, Counter(), Counter()
    (_, first, before), *others = [history for history, _ in found]
    histories = [calls for _, calls, _ in others]
    fault = None if all(order[:len(before)] == before for _, _, order in others) else "a reported history does not go on from the earlier one"
    if False in [real_time.is_strongly_linearizable(first, histories, with_places) for with_places in (False, True)]:
        fault = fault or f"no order of {first} suits all of {histories}"
    pending = sum(call.answered is None for call in first)
    return f"branching play {seed}", fault, Counter({"branching plays": 1, "pending where the ways part": pending}), Counter()


def answers(report, _):
    judge_histories_by_hand(report)
    judge_rounds_by_hand(report)
    sums, greatest = Counter(), Counter()
    for function, tasks in [(judged_in_real_time, range(PLAYS)), (judged_eager_play, range(EAGER_PLAYS)), (judged_slowest, eager_rows.SLOWEST),
                            (judged_branches, range(BRANCHING_PLAYS))]:
        for what, fault, counts, rounds in in_processes(function, tasks, 8):
            report.judge(what, fault, None)
            sums += counts
            # Of two counters the greater count of each.
            greatest |= rounds
    say("rounds from held to acted, n f m: " + ", ".join(f"{n} {f} {m}: {count} of {bound}" for (n, f, m, bound), count in sorted(greatest.items())))
    say(f"{sums['small']} of {sums['plays']} histories were small enough for the search; the others were judged by their places alone")
    say(", ".join(f"{what} {count}" for what, count in sums.items()))
    for what in ("answered", "pairs", "small", "a wrong answer", "two exchanged in real time", "two exchanged in the order", "at the bound",
                 "pending where the ways part"):
        report.judge(f"the count of {what}", None if sums[what] else "it is 0", None)


# ---- a world that is told the steps of a transcript


def begun(actor, other, envelope, n):
    """The clients of the requests with which this post of a replica begins a slot of its own, by the last chain of that slot; or none."""
    words = envelope.split(" ")
    if words[0] != "round" or other != "r0" or int(words[1]) % n != int(actor[1:]):
        return []
    values = [value for slot, value, _ in map(slow_play.parts_of, words[2:]) if str(slot) == words[1]]
    return [signed.split("#")[0] for signed in values[-1]] if values else []


def pick_of(world, actor, other, envelope):
    """A choice by which a loyal actor may have posted this envelope; None for none."""
    words = envelope.split(" ")
    if actor[0] == "c":
        is_new = words[0] == "ask" and world.machines[actor].ask is None
        return ("begin", words[1].split("~")[0].split(":")[1:]) if is_new else None
    clients = begun(actor, other, envelope, world.shape.n)
    return ("from", clients) if clients and len(set(clients)) == len(clients) else None


def event_of(world, line):
    """The event that has this step, if any has."""
    actor, word, other, envelope = line.split(" ", 3)
    if word == "take":
        return "take", actor, other
    if actor in world.traitors:
        return "plant", actor, other, envelope
    if actor[0] == other[0] == "c":
        return "tell", actor, other
    return "post", actor, other, pick_of(world, actor, other, envelope) if actor in world.machines else None


def follows(world, line):
    """Whether the world takes this very step."""
    try:
        world.step(event_of(world, line))
    except slow_play.Refused:
        return False
    return world.lines[-1] == line


def told_again(text):
    """What the checker should say of a text whose lines are all steps, by a world that is told them."""
    header, *lines = text.split(b"\n")[:-1]
    world = slow_play.World(slow_check.header_of(header)[1])
    for number, line in enumerate(lines, 2):
        if not follows(world, line.decode()):
            return refused(f"not a run at line {number}")
    return 0, world.check_report().encode(), b""


# ---- models that judge each other


def compare(report, what, found, wanted, text=b""):
    """Judges whether a model gives what is wanted, on this text."""
    report.judge(what, None if found == wanted else f"{found}, and not {wanted}\n{text.decode('latin-1')}", None)


def modelled_examples(report):
    """Judges the plays of examples/, and gives their transcripts."""
    found = []
    for stem in inputs.plays():
        name, text, wanted = name_of(stem), bytes_of(f"{stem}.play"), inputs.wanted_of(stem)
        compare(report, f"{name}.play", slow_play.played(text), wanted)
        if wanted[0] == 0:
            _, transcript, _ = slow_play.played(text, as_transcript=True)
            compare(report, f"{name}.transcript", transcript, bytes_of(f"{stem}.transcript"))
            compare(report, f"{name}, checked", slow_check.verdict_of(transcript), (0, checked_report(wanted[1]), b""))
            found.append(transcript)
    return found


def written_rows(report):
    """Judges the texts that were written by hand, and those that the service printed."""
    for name, text, wanted in transcript_rows.rows():
        compare(report, name, slow_check.verdict_of(text), wanted, text)
        if is_read(wanted):
            compare(report, f"{name}, told to a world", told_again(text), wanted, text)
    record = "examples/record"
    for word, wanted in [("honest", (0, bytes_of(f"{record}/honest.out"), b"")), ("lying", (1, b"", bytes_of(f"{record}/lying.err")))]:
        compare(report, f"{record}, {word}", slow_check.verdict_of(bytes_of(f"{record}/{word}.transcript")), wanted)


def modelled_random_plays(report):
    """Judges random plays, and gives their transcripts."""
    found = []
    for seed in range(MODELLED_PLAYS):
        world, _ = slow_play.world_of(inputs.any_play(random.Random(seed), seed))
        transcript = world.transcript().encode()
        compare(report, f"random play {seed}", slow_check.verdict_of(transcript), (0, world.check_report().encode(), b""), transcript)
        found.append(transcript)
    return found


def fault_of_spelling(texts):
    """Which line of these transcripts is another line if it is written again, or None."""
    lines = sorted({line for text in texts for line in text.split(b"\n")[1:-1]})
    others = [line for line in lines if step_text(step_of(line)).encode() != line]
    return f"{others[0]!r} and others are not the same" if others else None


def is_read(verdict):
    """All lines of the text are steps."""
    return verdict[0] == 0 or b"not a run" in verdict[2]


def changes(text, seed):
    """The text with each of the small changes, or with some by chance."""
    if seed is not None:
        chance = random.Random(seed)
        yield from (by_chance(chance, text) for _ in range(RANDOM_CHANGES))
        return
    yield from exchanged(text)
    yield from without_a_line(text)
    yield from cut_after_a_line(text)
    yield from with_a_byte_changed(text, 1, max(1, len(text) // 500))


def judged_changes(task):
    """How many changes of a transcript are runs, none, or bad, and those of which a world that is told the steps says something else."""
    judge, counts, differ = slow_check.Judge(), Counter(), []
    for changed in changes(*task):
        verdict = judge.verdict_of(changed)
        counts += Counter(accepted=verdict[0] == 0, no_runs=b"not a run" in verdict[2], bad=b"bad text" in verdict[2])
        if is_read(verdict) and told_again(changed) != verdict:
            differ.append(f"{told_again(changed)}, and not {verdict}\n{changed.decode('latin-1')}")
    return counts, differ


def models(report, _):
    examples, randoms = modelled_examples(report), modelled_random_plays(report)
    report.judge("lines written again", fault_of_spelling(examples + randoms), None)
    written_rows(report)
    tasks = [*((text, None) for text in examples), *((text, seed) for seed, text in enumerate(examples + randoms))]
    sums = Counter()
    for number, (counts, differ) in enumerate(in_processes(judged_changes, tasks, 4)):
        report.judge(f"changes {number}", "\n".join(differ), None)
        sums += counts
    say(f"changed texts: {sums['accepted']} are runs, {sums['no_runs']} are none, {sums['bad']} are bad")
    for what in ("accepted", "no_runs", "bad"):
        report.judge(f"the count of {what}", None if sums[what] else "it is 0", None)


if __name__ == "__main__":
    sys.exit(main(__doc__, {"reports": reports, "answers": answers, "models": models}, without_program=["models"]))
