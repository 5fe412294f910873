"""Wrong bodies that the prover must refuse: the edits crates/NAME/wrong-bodies/*.edit, each tried by `rt must-fail`.

tests/edits.py                   Tries the edits that tests/refused.txt does not have over these sources, as record.py tells them apart.
tests/edits.py anew              Tries all, and compares with the record.
tests/edits.py CRATE/EDIT ..     Tries these, or all of a CRATE, whatever the record has, and prints where each is refused.
tests/edits.py --record ..       Does the same, and writes the record: a line for each edit that was refused now or before.
tests/edits.py --bundled ..      Does the same, and tries edits that change the bodies of different functions by one check (bundles.py).
tests/edits.py --rules           Tests what decides which edits are tried again, and what counts as refused (rules.py), and that each edit's old
                                 texts are found in the sources. No prover runs.

An edit passes where it is refused since some contract is not proved; what the record rests on is told in record.py.
The crate itself and the libraries below it are proved first, in this repository, over the work that `rt check` kept: of a crate that is not
proved every edit would be refused. With --proved-since SECONDS, what `rt ci` proved and left in out/ is taken, if it began then and no
source has changed since.

The edits are tried in copies of the repository in a temporary folder, as many at a time as there are processors. Within a copy
bundles come first, each by a check of the changed functions and what they call. What no bundle refuses is tried one after another, over
one check of the whole crate. So a crate's edits go to one copy; but if that copy alone would take longer than all processors need for
all edits, they are split over two, or three (`batches_of`).

A line is printed for each crate as it ends, and one for each edit that fails.
"""

import math
import os
import shutil
import subprocess
import sys
import tempfile
import time
from collections import namedtuple
from concurrent.futures import ThreadPoolExecutor, as_completed

from edits.bundles import refused_in_bundles
from edits.record import FOLDER_OF_RT, Outcome, Record, Repository, applied, key_of, logic_of, outcomes, read_record, write_record
from edits.room import Room, libraries
from kit import report
from kit.program import TOP
from kit.report import say

RECORD = f"{TOP}/tests/refused.txt"
MOST_COPIES = 3
# How long the whole check of a crate takes, and that of an edit over it, in seconds: for each some to begin with, and so many lines a second.
BEGIN, LINES_OF_ALL, LINES_OF_EDIT = 10, 25, 140
# A further copy must end this much sooner, or it is not worth its whole check.
GAIN = 0.9

Batch = namedtuple("Batch", "crate edits seconds")
# What the command's words ask for: all edits, some by name, a record to be written, when `rt ci` began, and bundles.
Asked = namedtuple("Asked", "anew names records begun bundles")


def seconds_for(lines, edits):
    """How long a copy takes that tries so many edits of a crate of so many lines. One edit alone is a check of its own; for several
    the crate is checked with the first, and once more at the end."""
    whole = BEGIN + lines / LINES_OF_ALL
    return whole + (0 if edits == 1 else edits * (BEGIN + lines / LINES_OF_EDIT))


def copies_for(numbers, lines, processors):
    """How many copies try the edits of each crate, where `numbers` says how many edits there are. From one copy each on, the crate
    whose copy takes longest gets one more, as long as that copy alone takes longer than all copies shared by the processors,
    and one more shortens it."""
    copies = {crate: 1 for crate in numbers}

    def longest_of(crate, parts):
        return seconds_for(lines[crate], math.ceil(numbers[crate] / parts))

    while True:
        longest = {crate: longest_of(crate, parts) for crate, parts in copies.items()}
        crate = max(longest, key=lambda it: (longest[it], it))
        share = sum(longest[it] * copies[it] for it in copies) / processors
        more = copies[crate] + 1
        is_worth_it = longest_of(crate, min(more, numbers[crate])) < GAIN * longest[crate]
        if longest[crate] <= share or more > min(MOST_COPIES, numbers[crate], processors) or not is_worth_it:
            return copies
        copies[crate] = more


def batches_of(edits, lines, processors):
    """The edits in batches, each for one copy of the repository, those that take longest first."""
    if not edits:
        return []
    by_crate = {}
    for edit in edits:
        by_crate.setdefault(edit.crate, []).append(edit)
    copies = copies_for({crate: len(its) for crate, its in by_crate.items()}, lines, processors)
    batches = []
    for crate, its in by_crate.items():
        parts = (its[at::copies[crate]] for at in range(copies[crate]))
        batches += [Batch(crate, part, seconds_for(lines[crate], len(part))) for part in parts]
    return sorted(batches, key=lambda batch: (-batch.seconds, batch.crate))


def tried(room, number, batch, repository, report):
    """Tries a batch, and gives what came of each of its edits, and how many seconds that took."""
    begun = time.monotonic()
    top = room.copy_for(number, batch, repository)
    folder, found = f"{top}/crates/{batch.crate}", {}
    if report.asked.bundles:
        found = refused_in_bundles(folder, batch.edits, report.record, batch.crate in room.proved)
    for edit in found:
        os.remove(f"{folder}/{FOLDER_OF_RT}/{edit.name}")
    left = [edit for edit in batch.edits if edit not in found]
    found.update(tried_alone(top, batch.crate, left) if left else {})
    shutil.rmtree(top)
    return found, time.monotonic() - begun


def tried_alone(top, crate, edits):
    """What came of each of these edits of the crate, tried one after another."""
    # It would take all processors and all memory for itself, and there are as many copies as there are processors.
    one_job = {**os.environ, "RT_JOBS": "1"}
    run = subprocess.run(["rt", "must-fail", crate], cwd=top, env=one_job, stdin=subprocess.DEVNULL, stdout=subprocess.PIPE,
                         stderr=subprocess.STDOUT, encoding="utf-8", errors="replace")
    found = outcomes(run.stdout)
    if run.returncode != 0 and not any(it.fault for it in found.values()):
        found = {}
    last = "\n    ".join(run.stdout.rstrip("\n").split("\n")[-12:])
    missing = Outcome(None, f"rt ended with status {run.returncode} and said nothing of it; the end of what it said:\n    {last}")
    return {edit: found.get(key_of(edit), missing) for edit in edits}


class Report:
    """What is counted, printed and recorded as batches end."""

    def __init__(self, sums, record, asked):
        self.sums, self.record, self.asked = sums, record, asked
        self.passed, self.failed, self.elsewhere, self.unrecorded = 0, 0, 0, 0
        self.crates, self.found = {}, {}

    def note(self, edit, outcome):
        """Counts an edit and puts it in the record, and gives the line to print of it, if there is one."""
        key = key_of(edit)
        line = self.record.get(key)
        self.found[key] = None if outcome.fault else Record(self.sums[edit], outcome.place)
        is_recorded = line is not None and line.sum == self.sums[edit]
        if outcome.fault:
            self.failed += 1
            return f"  {key}: FAILED: {outcome.fault}{' (the record has it as refused over these sources)' if is_recorded else ''}"
        self.passed += 1
        self.unrecorded += not is_recorded
        if is_recorded and line.place != outcome.place:
            self.elsewhere += 1
            return f"  {key}: refused at {outcome.place}; the record has {line.place}"
        return f"  {key}: refused, as it must be: {outcome.place}" if self.asked.names or self.asked.records else None

    def write(self, gone=()):
        """Writes what was found into the record as it is by now, since another run may have written of other edits."""
        lines = {**read_record(RECORD), **self.found}
        write_record(RECORD, {key: line for key, line in lines.items() if line and key not in gone})

    def ended(self, crate, found, seconds, is_last):
        """Takes what came of a batch, and tells of the crate once its last batch has ended."""
        so_far = self.crates.setdefault(crate, {"lines": [], "tried": 0, "refused": 0, "seconds": 0})
        passed = self.passed
        so_far["lines"] += filter(None, (self.note(edit, outcome) for edit, outcome in found.items()))
        so_far["tried"] += len(found)
        so_far["refused"] += self.passed - passed
        so_far["seconds"] += seconds
        if self.asked.records:
            self.write()
        if is_last:
            said = f"{crate}: {so_far['refused']} of {so_far['tried']} refused, in {so_far['seconds'] / 60:.1f} minutes of its copies"
            say("\n".join([said, *sorted(so_far["lines"])]))


def without(edits, lacking, repository, report):
    """The edits without those of crates that are lacking themselves or above a library that is, which fail."""
    left, by_crate = [], {}
    for edit in edits:
        missing = next((name for name in lacking if name in [*repository.below(edit.crate), edit.crate]), None)
        if missing:
            by_crate.setdefault(edit.crate, {})[edit] = Outcome(None, f"not tried, since {missing} was not proved")
        else:
            left.append(edit)
    for crate, found in by_crate.items():
        report.ended(crate, found, 0, is_last=True)
    return left


def try_all(room, repository, edits, report):
    """Tries these edits side by side, and reports them."""
    crates = {edit.crate for edit in edits}
    needed = {name for crate in crates for name in [*repository.below(crate), crate] if room.is_library(name, repository.rows[name][0])}
    lacking = room.take_libraries([name for name in repository.rows if name in needed], report.asked.begun)
    edits = without(edits, lacking, repository, report)
    processors = libraries.processors()
    batches = batches_of(edits, {crate: repository.lines_of(crate) for crate in crates}, processors)
    say(f"{len(edits)} edits of {len({batch.crate for batch in batches})} crates, in {len(batches)} copies of the repository, {processors} at a time")
    left = [batch.crate for batch in batches]
    with ThreadPoolExecutor(processors) as pool:
        runs = {pool.submit(tried, room, number, batch, repository, report): batch for number, batch in enumerate(batches)}
        for run in as_completed(runs):
            crate = runs[run].crate
            left.remove(crate)
            report.ended(crate, *run.result(), is_last=crate not in left)


def usage(why):
    print(f"tests/edits.py: {why}\n\n{__doc__}", file=sys.stderr)
    sys.exit(2)


def asked_by(words):
    """What these words of the command ask for."""
    records, bundles, begun = "--record" in words, "--bundled" in words, None
    words = [word for word in words if word not in ("--record", "--bundled")]
    if "--proved-since" in words:
        at = words.index("--proved-since")
        try:
            begun = float(words[at + 1])
        except (IndexError, ValueError):
            usage("--proved-since takes a time, in seconds since 1970")
        words = words[:at] + words[at + 2:]
    anew = words == ["anew"]
    names = [] if anew else words
    if any(word.startswith("-") or word == "anew" for word in names):
        usage(f"these words are not understood: {' '.join(words)}")
    return Asked(anew, names, records, begun, bundles)


def named(edits, name):
    """The edits that a word of the command names."""
    found = [edit for edit in edits if name in (edit.crate, key_of(edit), key_of(edit).removesuffix(".edit"))]
    if not found:
        usage(f"there is no edit and no crate with edits {name}")
    return found


def chosen(edits, asked, sums, record):
    """The edits to be tried: all, the named ones, or those that the record does not have over these sources."""
    if asked.anew:
        return edits
    if asked.names:
        return list(dict.fromkeys(edit for name in asked.names for edit in named(edits, name)))
    return [edit for edit in edits if key_of(edit) not in record or record[key_of(edit)].sum != sums[edit]]


def tell_of_record(report, edits, asked):
    """Writes the record, or says what it lacks."""
    gone = report.record.keys() - {key_of(edit) for edit in edits}
    if asked.records:
        report.write(gone)
    elif report.unrecorded or gone:
        say(f"tests/refused.txt lacks {report.unrecorded} of the edits that were refused now, and has {len(gone)} that are gone:"
            " tests/edits.py --record mends it")
    if report.elsewhere:
        say(f"{report.elsewhere} edits were refused at another place than tests/refused.txt has")


def judge(room, asked):
    """Tries what is asked for, and gives how many edits passed, failed and were skipped."""
    version = subprocess.run(["rt", "version"], stdout=subprocess.PIPE, text=True, check=True).stdout.strip()
    repository = Repository(room.top, logic_of(version))
    edits, faults = repository.edits()
    for fault in faults:
        say(f"FAILED: {fault}")
    if faults or not edits:
        say("no edit was tried" if faults else "there are no edits: that is a failure")
        return 0, max(len(faults), 1), 0
    sums = {edit: repository.sum_of(edit) for edit in edits}
    record = read_record(RECORD)
    its = chosen(edits, asked, sums, record)
    report = Report(sums, record, asked)
    if its:
        try_all(room, repository, its, report)
    tell_of_record(report, edits, asked)
    skipped = 0 if asked.names else len(edits) - len(its)
    if not asked.names:
        say(f"{skipped} edits were refused before over these sources, as tests/refused.txt records, and were not tried again")
    return report.passed, report.failed, skipped


def judge_old_texts(counts):
    """Judges that each edit can still be applied to the sources, which a changed comment may prevent too."""
    edits, faults = Repository(TOP, "").edits()
    faults += [f"{key_of(edit)}: {fault}" for edit in edits if (fault := applied(edit.path, f"{TOP}/crates/{edit.crate}")[1])]
    counts.judge(f"each of {len(edits)} edits can be applied to the sources", "\n    ".join(faults) if edits else "there are none")


def main(words):
    counts = report.Report()
    if words == ["--rules"]:
        from edits import rules
        counts.add(*rules.tested())
        judge_old_texts(counts)
    else:
        asked = asked_by(words)
        with tempfile.TemporaryDirectory(prefix="edits-") as folder:
            quick = libraries.quick_commands(f"{folder}/kit")
            if quick:
                os.environ["PATH"] = f"{quick}{os.pathsep}{os.environ['PATH']}"
            counts.add(*judge(Room(folder), asked))
    return counts.ended()
