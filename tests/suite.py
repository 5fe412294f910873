#!/usr/bin/env python3
"""The conformance suite beside its rows, which tests/rows.py has: tests/suite.py, or with the names of some of its parts. No program of dsr runs.

readme: what conformance/README.md says of how many rows there are is so.

rules: the files that rules of tests/rules list are as these rules and the models have them (tests/rows_by_rule.py), and all of them are there.

json: conformance/json has the rows as tools/rows_json.py writes them, and each of its trees is the text beside it (tests/rows_in_json.py).

mistakes: each mistake of tests/rules/mistakes.py, made in the models, is noticed by a row (tests/mistakes.py), and conformance/MISTAKES.md says by which.

adapters: the examples of conformance/adapters, in Python, C and Rust, pass all rows that they answer, and each wrong one beside them fails just those of its
file .known, which name the rule that it breaks. One whose compiler is not there is skipped.

chance: rows by chance, as conformance/run.py --random has them.

texts: conformance/texts is as tools/whole_texts.py writes it, and conformance/run_texts.py passes commands that write what is wanted of a text, and no others.

outcomes: the outcomes as JUnit XML, the rule that is told of a row that failed, and an adapter that hangs, which is given up in time.
"""

import re
import shutil
import sys
import tempfile
import time
import xml.etree.ElementTree as ElementTree

import mistakes
import rows_by_rule
import rows_in_json
from kit.program import PYTHON, TOP, bytes_of, run, text_of
from kit.report import main, say
from rows import ROWS, SECONDS, SOME_ROWS, WRONG, adapter, conformance, conformance_run, fault_of_run, told, told_by, written

sys.path.insert(0, f"{TOP}/tools")

import rows_json  # noqa: E402
import whole_texts  # noqa: E402

ADAPTERS = f"{TOP}/conformance/adapters"
# The rows that there are at least, and those that call `check` alone.
LEAST_ROWS, LEAST_CHECKS = 2000, 400


# ---- what the README says


def calls_check_alone(row):
    return all(call.startswith("check ") for call, _ in row.calls)


def readme(report, _):
    rows = [row for _, found in conformance.all_rows(ROWS) for row in found]
    alone = sum(map(calls_check_alone, rows))
    made = len({name for name, *_ in mistakes.MISTAKES})
    of_chain, alone_there = [sum(row.name.startswith("chain/") and is_so(row) for row in rows) for is_so in (lambda row: True, calls_check_alone)]
    for said, is_so in [
        (f": {alone_there} of the {of_chain} rows of the group `chain`\ncall nothing else", True),
        (f"has more than {LEAST_ROWS:,} cases of such rules", len(rows) > LEAST_ROWS), (f"; more than {LEAST_CHECKS} rows call nothing else", alone > LEAST_CHECKS),
        (f": {made} mistakes that were made", True),
    ]:
        report.judge(f"conformance/README.md says ..{said}", None if said in text_of("conformance/README.md") and is_so else f"{len(rows)}, {alone}")


# ---- rows that are listed by rules


def rules(report, _):
    for path, text in rows_by_rule.files():
        fault = None if bytes_of(path) == text.encode("latin-1") else "not as its rules have it: tests/rows_by_rule.py --write writes it"
        report.judge(path, fault, f", {text.count(chr(10) + 'row ')} rows")


# ---- rows as JSON


def as_json(report, _):
    groups = {}
    for group, found in conformance.all_rows(ROWS):
        groups.setdefault(group, []).extend(found)
    for path, text in rows_json.files():
        fault = None if bytes_of(path) == text.encode() else "not current: tools/rows_json.py --write writes it"
        report.judge(path, fault or rows_in_json.fault_of(text, groups.pop(path.split("/")[-1].removesuffix(".json"))),
            f", {rows_in_json.trees_in(text)} trees")
    report.compare("groups without a file", groups, {}, "")


# ---- mistakes


def noticed(report, _):
    text, faults = mistakes.table()
    report.judge("mistakes in the models, each of which a row notices", "\n".join(faults) or None, f", {len(mistakes.MISTAKES)} mistakes")
    fault = None if bytes_of("conformance/MISTAKES.md") == text.encode() else "not current: tests/mistakes.py --write writes it"
    report.judge("conformance/MISTAKES.md", fault)


# ---- adapters


# The adapters in conformance/adapters: what makes a program of each, the groups that it answers, and the rule that a wrong one breaks.
IN_C = ["cc", "-std=c11", "-Wall", "-Wextra", "-Werror"]
IN_RUST = ["rustc", "--edition", "2021", "-D", "warnings", "-O"]
EXAMPLES = [
    ("parts.py", None, ["chain", "slot", "tally", "calendar"], None), ("parts_forgets.py", None, ["chain", "slot"], "signed-twice"),
    ("chains.c", IN_C, ["chain"], None), ("chains_any_slot.c", IN_C, ["chain"], "misfit"),
    ("chains.rs", IN_RUST, ["chain"], None), ("chains_late.rs", IN_RUST, ["chain"], "wrong-count"),
]


def made(compiler, name, room):
    """The command of an adapter, which the compiler makes if there is one; None if it cannot."""
    if compiler is None:
        return [*PYTHON, f"{ADAPTERS}/{name}"]
    status, *_ = run([*compiler, f"{ADAPTERS}/{name}", "-o", f"{room}/{name}.made"])
    return [f"{room}/{name}.made"] if status == 0 else None


def fault_of_adapter(name, command, groups, rule):
    """What is wrong with an adapter, or None, and what is said of it. One that breaks a rule fails the rows of its file .known, and most of all that
    rule's."""
    words = ["--seconds", str(SECONDS), *(word for group in groups for word in ("--group", group))]
    known = f"{ADAPTERS}/{name.split('.')[0]}.known"
    ran, counts = conformance_run(*words, *(["--known", known] if rule else []), "--", *command)
    if ran[0] != 0 or not counts:
        return told_by(ran), ""
    if not rule:
        return None, f", {told(counts)}"
    failed, _ = conformance_run(*words, "--", *command)
    rules = re.findall(rb"^rule (.*): [0-9]+ of ", failed[1], re.M)
    is_named = failed[0] == 1 and rules[:1] == [rule.encode()]
    return None if is_named else f"the rules that it breaks are {rules}", f", {len(text_of(known).split())} rows failed, and most of the rule {rule}"


def adapters(report, _):
    with tempfile.TemporaryDirectory(prefix="dsr-adapters-") as room:
        for name, compiler, groups, rule in EXAMPLES:
            if compiler and not shutil.which(compiler[0]):
                say(f"{name}: skipped, since there is no {compiler[0]}")
                report.add(0, 0, 1)
                continue
            command = made(compiler, name, room)
            fault, said = fault_of_adapter(name, command, groups, rule) if command else (f"{compiler[0]} makes no program of it", "")
            report.judge(name, fault, said)
    words = ["--group", "chain", f"{ADAPTERS}/parts.py"]
    shown_lines = b"".join(b"    " + line for line in conformance_run(*words)[0][1].splitlines(keepends=True)).decode()
    report.judge("the sample in conformance/README.md", None if f"parts.py\n{shown_lines}" in text_of("conformance/README.md") else f"it prints {shown_lines}")


# ---- rows by chance


def by_chance(report, _):
    """Rows by chance: a right adapter passes them, one that makes a mistake does not pass all, and another seed gives others."""
    words = ["--random", "40", "--group", "chain", "--group", "slot", "--seconds", str(SECONDS)]
    right, wrong = f"{ADAPTERS}/parts.py", f"{ADAPTERS}/parts_forgets.py"
    runs = [conformance_run(*words, *seed, adapter_of) for seed, adapter_of in [(["--seed", "1"], right), (["--seed", "1"], wrong), (["--seed", "2"], wrong)]]
    (ran, counts), (_, failed), (_, others) = runs
    report.judge("rows by chance, by a right adapter", None if ran[0] == 0 and counts[0] > 60 else told_by(ran), f", {told(counts)}")
    report.judge("rows by chance, by a wrong one", None if failed[1] and others[1] and runs[1][0][1] != runs[2][0][1] else f"{failed}, {others}",
        f", {told(failed)}")


# ---- whole texts


# Commands of a shell for a text of a kind: whether they pass, and what must be told of those that do not.
REPORT, PLAY = "examples/record/honest.out", "attacks/two-faced-sender"
LIES = "echo dsr: not a run at line"
COMMANDS = [
    ("check", "record/honest", f"cat {REPORT}", True, b""),
    ("check", "record/honest", f"head -n 3 {REPORT}", False, b"in line 4\n      wanted   accepted c1 1 1 written\n      written  nothing\n"),
    ("check", "record/honest", f"cat {REPORT}; echo 5", False, b"\n      wanted   nothing\n      written  5\n"),
    ("check", "record/honest", f"cat {REPORT}; echo late >&2; exit 3", False, b"it ended with status 3, and late\n"),
    ("check", "record/honest", "sleep 60", False, b"it did not end within 2 seconds\n"),
    ("check", "record/honest", "exec >&-; sleep 60", False, b"it wrote no more, and did not end within 2 seconds\n"),
    ("check", "record/lying", f"{LIES} 47 >&2; exit 1", True, b""),
    ("check", "record/lying", f"{LIES} 46 >&2; exit 1", False, b"wanted             not a run at line 47\n      on standard error  dsr: not a run at line 46\n"),
    ("check", "record/lying", "echo run 5", False, b"wanted   a refusal: not a run at line 47\n      written  run 5\n"),
    ("play", PLAY, f"cat examples/{PLAY}.out", True, b""),
    ("transcript", PLAY, f"cat examples/{PLAY}.transcript", True, b""),
    ("transcript", PLAY, "cat", False, b"in line 1\n"),
    ("events", PLAY, f"cat conformance/texts/{PLAY}.events; echo why it is so; echo hold r1 more", True, b""),
    ("events", PLAY, f"sed 's/ idle$/ none/' conformance/texts/{PLAY}.events", False, b"wanted   decide r1 0 2 idle\n"),
]


def fault_of_texts_run(kind, name, script, passes, says):
    """What is wrong with what conformance/run_texts.py makes of this command on a text, or None."""
    words = [f"{TOP}/conformance/run_texts.py", kind, "--text", name, "--seconds", "2", "--", "sh", "-c", script]
    ran = run([*PYTHON, *words], cwd=TOP)
    last = b"1 passed, 0 failed, 0 skipped\n" if passes else b"0 passed, 1 failed, 0 skipped\n"
    return None if ran[0] == (0 if passes else 1) and ran[1].endswith(last) and says in ran[1] and not ran[2] else told_by(ran)


def texts(report, _):
    stale = [path for path, _ in whole_texts.stale()]
    report.judge("conformance/texts", f"not current: {', '.join(stale)}; tools/whole_texts.py --write writes them" if stale else None)
    for command in COMMANDS:
        report.judge(f"of the {command[0]} of {command[1]}: {command[2]}", fault_of_texts_run(*command), None)
    unheard = run([*PYTHON, f"{TOP}/conformance/run_texts.py", "play", "--text", "none", "--", "cat"])
    report.judge("a text that is not there", None if unheard[0] == 1 and unheard[2] == b"no text of this kind has the name none\n" else told_by(unheard), None)


# ---- outcomes


def suites_of(path):
    """The suites of a file of JUnit's: of each its name, the counts that it tells, and what came of each of its cases."""
    for suite in ElementTree.parse(path).getroot():
        cases = {case.get("name"): [(part.tag, part.text) for part in case] for case in suite}
        yield suite.get("name"), [int(suite.get(count)) for count in ("tests", "failures", "errors", "skipped")], cases


def fault_of_junit(words, path, statement, kind, wanted):
    """What is wrong with the file for JUnit of an adapter that does this in the middle of three rows, or None. `wanted` must be in what is told of that
    row."""
    ran, _ = conformance_run(*words, "--junit", path, *adapter(WRONG.get(statement, statement)))
    (name, counts, cases), *more = suites_of(path)
    (found, told), = cases["some/middle"] or [("passed", None)]
    passed = cases["some/first"] == cases["some/last"] == [] and len(cases) == 3
    counted = [3, int(found == "failure"), 0, int(found == "skipped")]
    is_well = not more and name == "some" and passed and counts == counted and found == kind and wanted in (told or "")
    return None if is_well and b"Traceback" not in ran[2] else f"{name}, {counts}, {cases}"


def junit(report, words, room):
    for statement, kind, wanted in [
        ("answers something else", "failure", "wanted    ok\n      answered  no"),
        ("answers what no XML may have", "failure", "answered  \\x00\\x1b<&]]>"),
        ("ends with a status", "failure", "no answer: it ended with status 3"),
        ("print('< skip'); continue", "skipped", ""),
        ("pass", "passed", ""),
    ]:
        report.judge(f"JUnit's file of {statement}", fault_of_junit(words, f"{room}/junit.xml", statement, kind, wanted), None)


def seconds(report, words):
    """An adapter that hangs is given up after the seconds that are asked for: once with all rows, and once with the row at fault."""
    begun = time.monotonic()
    fault = fault_of_run([*words, "--seconds", "4", *adapter(WRONG["hangs"])], 1, (2, 1, 0), b"it did not end within 4 seconds\n")
    took = time.monotonic() - begun
    report.judge("an adapter that hangs is given up in time", fault or (None if 8 <= took < 20 else f"{took:.1f} seconds"))


def outcomes(report, _):
    with tempfile.TemporaryDirectory(prefix="dsr-adapters-") as room:
        written(room, "some.rows", SOME_ROWS)
        words = ["--rows", room]
        says_no = [*words, *adapter(WRONG["answers something else"])]
        report.judge("the rule of a row that fails", fault_of_run(says_no, 1, (2, 1, 0), b"\nrule tagged: 1 of 1 rows failed\n"), None)
        junit(report, words, room)
        seconds(report, words)


if __name__ == "__main__":
    PARTS = {"readme": readme, "rules": rules, "json": as_json, "mistakes": noticed, "adapters": adapters, "chance": by_chance, "texts": texts, "outcomes": outcomes}
    sys.exit(main(__doc__, PARTS, without_program=PARTS))
