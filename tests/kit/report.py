"""Counting what passed and what failed. Each script of tests/ has one or more parts, which its command runs all, or those that its words
name; and its last line is `N passed, M failed, K skipped`."""

import multiprocessing
import os
import sys
from concurrent.futures import ThreadPoolExecutor

from kit.program import fault_of_building


def say(text):
    print(text, flush=True)


class Report:
    """What passed and failed so far, and what is gathered of checks that are of many runs."""

    def __init__(self):
        self.passed = self.failed = self.skipped = 0
        self.gathered = {}

    def judge(self, what, fault, said=""):
        """Counts a check, which failed if there is a fault, and says so. One that passes is said only if `said` is not None."""
        self.passed, self.failed = self.passed + (not fault), self.failed + bool(fault)
        if fault or said is not None:
            say(f"{what}: {f'FAILED: {fault}' if fault else f'ok{said}'}")
        return not fault

    def compare(self, what, found, wanted, said=""):
        return self.judge(what, None if found == wanted else f"{found}, and not {wanted}", said)

    def judge_all(self, rows):
        """Counts each of these checks, which are what they check, the fault or None, and perhaps what is said of them."""
        for row in rows:
            self.judge(*row)

    def judge_some(self, what, rows):
        """The same, and that there are some."""
        passed, failed = self.passed, self.failed
        self.judge_all(rows)
        if (passed, failed) == (self.passed, self.failed):
            self.judge(what, "there are none")

    def gather(self, what, count, faults):
        """Takes the faults of so many runs. All that is gathered of one name is one check."""
        gathered = self.gathered.setdefault(what, [0, []])
        gathered[0] += count
        gathered[1] += faults

    def judge_gathered(self, whole):
        """Counts the checks that were gathered, of which there must be some, and says how many runs they are of."""
        if not self.gathered:
            self.judge(whole, "there are none")
        for what, (count, faults) in self.gathered.items():
            fault = f"in {len(faults)} of {count}: " + "\n".join(faults[:3]) if faults else None
            self.judge(what, fault, f", {count} runs" if count > 1 else None)
        say(f"{whole}: {sum(count for count, _ in self.gathered.values())} runs")
        self.gathered = {}

    def add(self, passed, failed, skipped=0):
        self.passed, self.failed, self.skipped = self.passed + passed, self.failed + failed, self.skipped + skipped

    def ended(self):
        """Says the counts, and gives the exit status. A report of nothing failed."""
        self.failed += not self.passed + self.failed + self.skipped
        say(f"{self.passed} passed, {self.failed} failed, {self.skipped} skipped")
        return 1 if self.failed else 0


# How many processors this run may use.
PROCESSORS = len(os.sched_getaffinity(0))


def in_processes(function, tasks, chunk=1):
    """What the function gives for each task, in their order, in as many processes at once as there are processors."""
    with multiprocessing.Pool(PROCESSORS) as pool:
        yield from pool.imap(function, tasks, chunk)


def in_threads(function, tasks):
    """The same in threads, for functions that mostly wait for programs."""
    with ThreadPoolExecutor(PROCESSORS) as pool:
        yield from pool.map(function, tasks)


def main(usage, parts, flag=None, without_program=(), only_named=()):
    """Runs the parts that the words of the command name, or else all but those of `only_named`, and gives the exit status. A part is a function of a report and of
    whether the flag was given, and `parts` has each by its name. The program must be built, unless all of the parts are among those that do without."""
    words = sys.argv[1:]
    names = [word for word in words if word != flag] or [name for name in parts if name not in only_named]
    if not set(names) <= set(parts):
        print(f"{usage}\nThe parts are {', '.join(parts)}{f'; {flag} may be given too' if flag else ''}.", file=sys.stderr)
        return 2
    report = Report()
    fault = None if set(names) <= set(without_program) else fault_of_building()
    if fault:
        report.judge("the program", fault)
    else:
        for name in names:
            parts[name](report, flag in words)
    return report.ended()
