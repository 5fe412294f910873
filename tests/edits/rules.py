"""Tests of what decides which wrong bodies are tried again, and what counts as refused.

A wrong rule there would pass over an edit in silence. The repositories are made up, the toolchain's lines are as it printed them, and no
prover runs.
"""

import contextlib
import io
import os
import shutil
import sys
import tempfile
import unittest

from edits import bundles, command
from edits.lexing import read_of
from edits.record import Edit, Outcome, Record, Repository, key_of, logic_of, outcomes, read_record, write_record
from kit import report
from kit.program import text_of

VERSION = "toolchain-1 logic 0123"
SAID = """\
rt: must-fail low/kept.edit: refused, as it must be: note: src/lib.rt:36:5: it is not proved that what the function ensures holds when it returns (`returns`); `search` gave up at one of its l
rt: must-fail low/at-a-path.edit: refused, as it must be: note: /tmp/rt-edit-x1/src/lib.rt:7:1: it is not proved
rt: must-fail low/nowhere.edit: refused, as it must be
rt: must-fail low/still-proved.edit: NOT REFUSED: the crate is still proved with this edit
rt: must-fail low/no-such-text.edit: BAD EDIT: an 'old:' text is in src/lib.rt 0 times, and not once
rt: must-fail low/no-such-name.edit: BAD EDIT: it did not reach the prover; the first lines of what it said:
src/lib.rt:39:28: error[unknown-name]: cannot find value `other` in this scope
rt: must-fail low/no-such-field.edit: BAD EDIT: the prover cannot read the edited text, so no contract was tried: src/lib.rt:59:30: error: `ensures-some`: record `Slots` has no field `firsts`
rt: must-fail low/proof-name.edit: refused, as it must be (only because a proof file names what the edit took away, so this says little of the contract: change a value and keep the names): ./proofs/A.antt:3:4: error: `a` is not in scope
rt: must-fail low/warned.edit: refused, as it must be: proofs/A.antt:3:4: warning: this import is not used
rt: waiting for another rt to finish in low
a line that belongs to no edit
"""


def write(path, text):
    os.makedirs(os.path.dirname(path), exist_ok=True)
    with open(path, "w", encoding="utf-8") as file:
        file.write(text)


class Made(unittest.TestCase):
    """A made-up repository: `high` stands on `low`, and `side` on nothing."""

    def setUp(self):
        self.top = tempfile.mkdtemp(prefix="edits-test-")
        self.addCleanup(shutil.rmtree, self.top)
        self.write("crates.txt", "# lowest first\nlow: memchr\nhigh: low itoa\nside:\n")
        self.write("HANDLES", "Handles allowed: none.\n")
        for crate in ("low", "high", "side"):
            self.write(f"crates/{crate}/src/lib.rt", f"pub fn {crate}() {{}}\n")
            self.write(f"crates/{crate}/wrong-bodies/one.edit", "file: src/lib.rt\nold: {}\nnew: { loop {} }\n")

    def write(self, path, text):
        write(f"{self.top}/{path}", text)

    def edits(self):
        return Repository(self.top, logic_of(VERSION)).edits()

    def sums(self, version=VERSION):
        repository = Repository(self.top, logic_of(version))
        return {key_of(edit): repository.sum_of(edit) for edit in repository.edits()[0]}

    def changed_by(self, path, text):
        """The crates whose edits have another sum once this file has this text, or is gone."""
        before = self.sums()
        if text is None:
            os.remove(f"{self.top}/{path}")
        else:
            self.write(path, text)
        after = self.sums()
        return {key.split("/")[0] for key in before if before[key] != after[key]}


class Sums(Made):
    def test_a_source_reaches_its_crate_and_those_above(self):
        self.assertEqual(self.changed_by("crates/low/src/lib.rt", "pub fn lower() {}\n"), {"low", "high"})

    def test_a_source_reaches_no_crate_below(self):
        self.assertEqual(self.changed_by("crates/high/src/lib.rt", "pub fn higher() {}\n"), {"high"})

    def test_new_specs_proofs_and_tests_count(self):
        for path in ("specs/A.antt", "proofs/low/B.antt", "src/tests.rt"):
            self.assertEqual(self.changed_by(f"crates/low/{path}", "-- new\n"), {"low", "high"}, path)

    def test_the_proof_of_one_function_reaches_its_crate_alone(self):
        for name in ("Answers.antt", "Invariants.antt", "Proof.antt"):
            self.assertEqual(self.changed_by(f"crates/low/proofs/low/{name}", "-- new\na\n"), {"low"}, name)
            self.assertEqual(self.changed_by(f"crates/low/proofs/low/{name}", None), {"low"}, name)

    def test_what_is_only_named_like_a_proof_reaches_the_crates_above(self):
        for path in ("proofs/low/AnswersOf.antt", "proofs/low/answers.antt", "specs/low/Answers.antt", "src/Proof.antt"):
            self.assertEqual(self.changed_by(f"crates/low/{path}", "a\n"), {"low", "high"}, path)

    def test_lemmas_reach_the_crates_above_if_another_crate_names_them(self):
        self.assertEqual(self.changed_by("crates/low/proofs/Lemmas.antt", "a\n"), {"low"})
        for path, cites in (("high/proofs/Own.antt", "use Rattle.low.proofs.Lemmas.{a}"), ("high/src/lib.rt", "#[tactic(auto, using(low::proofs::Lemmas::a))]"),
                            ("side/specs/A.antt", "use Rattle.low.proofs.Lemmas.{a}"), ("high/wrong-bodies/one.edit", "new: low::proofs::Lemmas::a")):
            was = text_of(f"{self.top}/crates/{path}") if os.path.exists(f"{self.top}/crates/{path}") else None
            self.write(f"crates/{path}", f"{cites}\n")
            self.assertEqual(self.changed_by("crates/low/proofs/Lemmas.antt", f"{path}\n"), {"low", "high"}, path)
            self.changed_by(f"crates/{path}", was)
        self.assertEqual(self.changed_by("crates/low/proofs/Lemmas.antt", "b\n"), {"low"})

    def test_lemmas_reach_the_crates_above_if_lemmas_that_another_crate_names_cite_them(self):
        self.write("crates/low/proofs/Below.antt", "a\n")
        self.write("crates/low/proofs/Lemmas.antt", "use Rattle.low.proofs.Middle.{a}\n")
        self.write("crates/low/proofs/Middle.antt", "use Rattle.low.proofs.Below.{a}\n")
        self.assertEqual(self.changed_by("crates/low/proofs/Below.antt", "b\n"), {"low"})
        self.write("crates/high/proofs/Own.antt", "use Rattle.low.proofs.Lemmas.{a}\n")
        self.assertEqual(self.changed_by("crates/low/proofs/Below.antt", "c\n"), {"low", "high"})

    def test_a_line_that_declares_lemmas_counts_as_they_do(self):
        self.write("crates/low/proofs/Lib.antt", "pub mod Lemmas\n")
        self.write("crates/low/proofs/Lemmas.antt", "a\n")
        self.write("crates/low/proofs/Own.antt", "a\n")
        self.assertEqual(self.changed_by("crates/low/proofs/Lib.antt", "mod Own\npub mod Lemmas\n"), {"low"})
        self.assertEqual(self.changed_by("crates/low/proofs/Lib.antt", "mod Own\nmod Lemmas\n"), {"low"})
        self.write("crates/high/proofs/Own.antt", "use Rattle.low.proofs.Lemmas.{a}\n")
        self.assertEqual(self.changed_by("crates/low/proofs/Lib.antt", "pub mod Lemmas\n"), {"low", "high"})
        self.assertEqual(self.changed_by("crates/low/proofs/Lib.antt", "pub mod Lemmas\nuse a\n"), {"low", "high"})

    def test_a_file_that_goes_or_has_another_name_counts(self):
        self.write("crates/low/specs/A.antt", "-- a\n")
        self.assertEqual(self.changed_by("crates/low/specs/A.antt", None), {"low", "high"})
        self.write("crates/low/specs/A.antt", "-- a\n")
        before = self.sums()
        os.rename(f"{self.top}/crates/low/specs/A.antt", f"{self.top}/crates/low/specs/B.antt")
        self.assertNotEqual(before["low/one.edit"], self.sums()["low/one.edit"])

    def test_a_text_that_moves_to_the_next_file_counts(self):
        self.write("crates/low/proofs/A.antt", "a\nb\n")
        self.write("crates/low/proofs/B.antt", "c\n")
        before = self.sums()
        self.write("crates/low/proofs/A.antt", "a\n")
        self.write("crates/low/proofs/B.antt", "b\nc\n")
        self.assertNotEqual(before["low/one.edit"], self.sums()["low/one.edit"])

    def test_a_comment_does_not_count(self):
        for path, text in (("src/lib.rt", "//! Low.\n\n/// The low.\npub fn low() {} // {{{\n"), ("proofs/A.antt", "-- b\n")):
            self.write("crates/low/proofs/A.antt", "-- a\n")
            self.assertEqual(self.changed_by(f"crates/low/{path}", text), set(), path)

    def test_a_comment_in_what_an_edit_replaces_counts(self):
        self.write("crates/low/src/lib.rt", "/// The low.\npub fn low() {}\n")
        self.write("crates/low/wrong-bodies/one.edit", "file: src/lib.rt\nold: /// The low.\nnew: #[must_use] /// The low.\n")
        self.assertEqual(self.changed_by("crates/low/src/lib.rt", "/// Low.\npub fn low() {}\n"), {"low"})

    def test_what_an_edit_makes_of_a_source_counts(self):
        self.write("crates/low/src/lib.rt", "pub fn low() {} // a\n/* b */\n")
        self.write("crates/low/wrong-bodies/one.edit", "file: src/lib.rt\nold: {}\nnew: {} /*\n")
        self.assertEqual(self.changed_by("crates/low/src/lib.rt", "pub fn low() {} // a */\n/* b */\n"), {"low"})

    def test_rows_count_and_comments_do_not(self):
        self.assertEqual(self.changed_by("crates.txt", "low:   memchr # still\nhigh: low itoa\nside:\n"), set())
        self.assertEqual(self.changed_by("crates.txt", "low: memchr itoa\nhigh: low itoa\nside:\n"), {"low", "high"})
        self.assertEqual(self.changed_by("crates.txt", "low: memchr itoa\nhigh: low\nside:\n"), {"high"})

    def test_handles_count(self):
        self.assertEqual(self.changed_by("HANDLES", "Handles allowed: Wait.\n"), {"low", "high", "side"})

    def test_the_text_of_an_edit_counts_for_itself(self):
        self.assertEqual(self.changed_by("crates/low/wrong-bodies/one.edit", "file: src/lib.rt\nold: {}\nnew: {;}\n"), {"low"})

    def test_what_was_built_does_not_count(self):
        self.assertEqual(self.changed_by("crates/low/out/rlib/stamp", "1\n"), set())

    def test_the_logic_of_the_toolchain_counts_and_not_its_name(self):
        before = self.sums()
        self.assertEqual(before, self.sums("toolchain-2 logic 0123"))
        for other in ("toolchain-1 logic 0124", "toolchain-1", "toolchain-2"):
            after = self.sums(other)
            self.assertTrue(all(before[key] != after[key] for key in before), other)
        self.assertNotEqual(self.sums("toolchain-1"), self.sums("toolchain-2"))

    def test_below_is_whole_and_lowest_first(self):
        self.write("crates.txt", "top: high\nhigh: low\nlow:\nside: top low\n")
        self.assertEqual(Repository(self.top, logic_of(VERSION)).below("side"), ["low", "high", "top"])


class Comments(unittest.TestCase):
    """What counts of sources. `left` has what a text in Rust or in antt comes to without comments, with a NUL for each text in it."""

    def left(self, text, path="a.rt"):
        kind, *parts = read_of(path, text.encode())
        return [part.decode() for part in parts] if kind == b"read" else None

    def same(self, path, *texts):
        for text in texts:
            self.assertIsNotNone(self.left(text, path), text)
            self.assertEqual(read_of(path, text.encode()), read_of(path, texts[0].encode()), text)

    def other(self, path, *texts):
        self.assertEqual(len({tuple(read_of(path, text.encode())) for text in texts}), len(texts), texts)

    def test_comments_of_rust(self):
        self.same("a.rt", "let a = b / c;\n", "let a = b / c; // d \"\n", "//! e\n\n/// f '\nlet a = b / c;   \n\n", "/* g\n*/\nlet a = b / c;\n")

    def test_hints_on_inlining(self):
        self.same("a.rt", "a\nfn b() {}\n", "a\n#[inline]\nfn b() {}\n", "a\n    #[inline(never)] // c\nfn b() {}\n", "a\n#[inline(always)]\n#[cold]\nfn b() {}\n")
        self.other("a.rt", "a\nb\n", "a\n#[inline] b\n", "a\n#![inline]\nb\n", "a\n#[inline(sometimes)]\nb\n", "a\n#[test]\nb\n", 'a\n"\n#[inline]\n"\nb\n')
        self.other("a.antt", "a\nb\n", "a\n#[inline]\nb\n")

    def test_nested_comments(self):
        self.same("a.rt", "a\n", "/* b /* c */ d */\na\n", "a\n/** /* */ /* /* \" */ */ ' */\n")
        self.same("a.antt", "a\n", "{- b {- c -} d -}\na\n", "a -- {-\n", "{- -- -}\na\n")
        self.assertEqual(self.left("a /* /* */ b */ c"), ["a" + 15 * " " + "c"])

    def test_words_that_a_comment_parts_stay_apart(self):
        self.assertEqual(self.left("a/**/b//c\nd"), ["a    b\nd"])
        self.other("a.rt", "ab", "a/**/b")
        self.other("a.antt", "ab", "a{--}b")

    def test_texts_and_characters_of_rust(self):
        self.assertEqual(self.left(r'''f("a // b", b"\\", '"', b'\'', '\u{2f}', "\"/*") // c'''),
                         ["f(\0, \0, \0, \0, \0, \0)", '"a // b"', r'b"\\"', "'\"'", r"b'\''", r"'\u{2f}'", r'"\"/*"'])
        self.assertEqual(self.left('r"\\" r#"a" // b"# br##""#"## // c'), ["\0 \0 \0", 'r"\\"', 'r#"a" // b"#', 'br##""#"##'])
        self.other("a.rt", '"a // b"', '"a // c"', '"a"', "'a'", '"a\n\nb"', '"a\nb"', '"a \nb"', 'r"a"', '"\0"')

    def test_lifetimes(self):
        self.same("a.rt", "fn f<'a, 'b>(c: &'a str, d: &'_ T) where 'b: 'static {}\n", "fn f<'a, 'b>(c: &'a str, d: &'_ T) where 'b: 'static {} // '\n")
        self.assertEqual(self.left("f::<'a>('a') // b"), ["f::<'a>(\0)", "'a'"])

    def test_comments_of_antt(self):
        self.same("a.antt", "a' : b → \"-- {- \\\" c\"\n", "a' : b → \"-- {- \\\" c\" -- \" d\n", "---\n-- '\na' : b → \"-- {- \\\" c\"\n\n")
        self.other("a.antt", '"-- a"', '"-- b"')

    def test_columns_count_in_antt_and_not_in_what_a_comment_was(self):
        self.other("a.antt", "a\n  b", "a\n b", "a b")
        self.same("a.antt", "{- a -} b\n", "{- c -} b\n")
        self.other("a.antt", "{- a -} b\n", "{- -} b\n")
        self.same("a.antt", "a\n    {- c\n -} b\n", "a\n{- d\ne-} b\n")

    def test_clauses_are_antt(self):
        self.same("a.rt", "fn f()\n    ensures some { e'' ≡ { x } \"}\" }\n{\n}", "fn f()\n    ensures some { e'' ≡ { x } \"}\" } // ' {\n{\n}")
        self.same("a.rt", "ghost use A.b.{c', ◌≡◌}; 'd'", "ghost use A.b.{c', ◌≡◌}; 'd' // e\n")
        self.same("a.rt", "ghost a: { T' } = { c' }; '}'", "ghost a: { T' } = { c' }; '}' // '")
        for text in ("ensures { a -- b\n}", "ensures { a // b\n}", "requires * { a {- b -} }", "ensures { ⟦ 'a' ⟧ }", "ensures { a",
                     "ensures {- a -} { b }", "ghost use A.{b, -- c\nd};", "ghost use A", "ghost a: { T } = {- b -} { c };"):
            self.assertIsNone(self.left(text), text)

    def test_what_is_unclear_counts_as_a_whole(self):
        for text in ('a"b"', '"a"b', "a'b'", "'ab'", "'\\q'", "''", '"a', "/* a", "/* /* */", 'r#"a"', "a\tb", "a\r\n", "#!a", "a\0", "macro_rules! a {}",
                     "#[derive(Parser)] a"):
            self.assertIsNone(self.left(text), text)
        for text in ('"a', "a--b", "{- a", "a\tb", "[--a]"):
            self.assertIsNone(self.left(text, "a.antt"), text)
        self.assertEqual(read_of("a.rt", b"\xff"), [b"whole", b"\xff"])
        self.assertEqual(read_of("a.txt", b"a // b"), [b"whole", b"a // b"])


class Folders(Made):
    def faults(self):
        return self.edits()[1]

    def test_all_is_well(self):
        self.write("crates/low/wrong-bodies/notes.md", "only to be read\n")
        found, faults = self.edits()
        self.assertEqual([key_of(edit) for edit in found], ["high/one.edit", "low/one.edit", "side/one.edit"])
        self.assertEqual(faults, [])

    def test_an_edit_in_the_other_folder_is_a_fault(self):
        self.write("crates/low/must-fail/two.edit", "file: src/lib.rt\n")
        self.assertEqual(len(self.faults()), 1)
        self.assertIn("crates/low/must-fail/two.edit", self.faults()[0])

    def test_an_edit_of_no_crate_is_a_fault(self):
        self.write("crates/gone/wrong-bodies/one.edit", "file: src/lib.rt\n")
        self.assertEqual(len(self.faults()), 1)

    def test_a_wrong_name_or_place_is_a_fault(self):
        for name in ("two.txt", "a b.edit", "deeper/two.edit"):
            self.write(f"crates/low/wrong-bodies/{name}", "file: src/lib.rt\n")
        self.assertEqual(len(self.faults()), 3)


class OldTexts(Made):
    def judged(self):
        self.addCleanup(setattr, command, "TOP", command.TOP)
        command.TOP = self.top
        counts = report.Report()
        with contextlib.redirect_stdout(io.StringIO()) as printed:
            command.judge_old_texts(counts)
        return counts.passed, counts.failed, printed.getvalue()

    def test_all_are_found(self):
        self.assertEqual(self.judged()[:2], (1, 0))

    def test_one_that_is_gone_or_there_twice_or_changes_nothing_is_named(self):
        for text in ("pub fn low();\n", "pub fn low() {} // {}\n", None):
            if text is None:
                self.write("crates/low/wrong-bodies/one.edit", "file: src/lib.rt\nold: low\nnew: low\n")
            else:
                self.write("crates/low/src/lib.rt", text)
            passed, failed, printed = self.judged()
            self.assertEqual((passed, failed), (0, 1), text)
            self.assertIn("low/one.edit: ", printed)
            self.assertNotIn("high/one.edit", printed)


class Choice(Made):
    def chosen(self, record, *words):
        found = self.edits()[0]
        sums = {edit: self.sums()[key_of(edit)] for edit in found}
        return [key_of(edit) for edit in command.chosen(found, command.asked_by([*words]), sums, record)]

    def record(self):
        return {key: Record(value, "src/lib.rt:1:1: it is not proved") for key, value in self.sums().items()}

    def test_what_is_recorded_over_these_sources_is_not_tried(self):
        self.assertEqual(self.chosen(self.record()), [])

    def test_what_is_not_recorded_is_tried(self):
        self.assertEqual(len(self.chosen({})), 3)

    def test_what_is_recorded_over_other_sources_is_tried(self):
        record = self.record()
        self.write("crates/low/src/lib.rt", "pub fn lower() {}\n")
        self.assertEqual(self.chosen(record), ["high/one.edit", "low/one.edit"])

    def test_the_sum_of_another_edit_does_not_count(self):
        record = self.record()
        record["low/one.edit"] = record["side/one.edit"]
        self.assertEqual(self.chosen(record), ["low/one.edit"])

    def test_anew_and_names(self):
        self.assertEqual(len(self.chosen(self.record(), "anew")), 3)
        self.assertEqual(self.chosen(self.record(), "low/one"), ["low/one.edit"])
        self.assertEqual(self.chosen(self.record(), "--record", "side", "low/one.edit", "low/one"), ["side/one.edit", "low/one.edit"])

    def test_words_that_are_not_understood(self):
        for words in (["--recrd"], ["anew", "low/one"], ["low/two"], ["--proved-since"], ["--proved-since", "now"]):
            with self.assertRaises(SystemExit) as stopped, contextlib.redirect_stderr(io.StringIO()):
                self.chosen({}, *words)
            self.assertEqual(stopped.exception.code, 2, words)


class TheRecord(Made):
    def test_it_is_read_as_it_was_written(self):
        record = {key: Record(value, "src/lib.rt:1:1: it is not proved") for key, value in self.sums().items()}
        write_record(f"{self.top}/refused.txt", record)
        self.assertEqual(read_record(f"{self.top}/refused.txt"), record)

    def test_other_lines_are_no_verdict(self):
        self.write("refused.txt", "# low/one.edit\nlow/one.edit\nlow/one.edit refused here\nlow/one.edit " + "0" * 63 + " here\n\n")
        self.assertEqual(read_record(f"{self.top}/refused.txt"), {})
        self.assertEqual(read_record(f"{self.top}/none.txt"), {})

    def test_only_what_is_refused_is_recorded(self):
        found = self.edits()[0]
        high, low, side = found
        sums = {edit: key_of(edit) for edit in found}
        record = {"low/one.edit": Record("low/one.edit", "here"), "side/one.edit": Record("side/one.edit", "here")}
        report = command.Report(sums, record, command.asked_by([]))
        with contextlib.redirect_stdout(io.StringIO()) as printed:
            report.ended("high", {high: Outcome("here", None)}, 1, True)
            report.ended("low", {low: Outcome(None, "NOT REFUSED")}, 1, True)
            report.ended("side", {side: Outcome("there", None)}, 1, True)
        self.assertEqual((report.passed, report.failed, report.elsewhere), (2, 1, 1))
        self.assertEqual(report.found, {"high/one.edit": Record("high/one.edit", "here"), "low/one.edit": None, "side/one.edit": Record("side/one.edit", "there")})
        self.assertIn("low/one.edit: FAILED: NOT REFUSED", printed.getvalue())

    def test_the_record_loses_what_is_not_refused_or_gone(self):
        self.addCleanup(setattr, command, "RECORD", command.RECORD)
        command.RECORD = f"{self.top}/refused.txt"
        sum_of_all = "0" * 64
        write_record(command.RECORD, {f"low/{name}.edit": Record(sum_of_all, "here") for name in ("kept", "proved", "gone")})
        report = command.Report({}, {}, command.asked_by(["--record"]))
        report.found = {"low/proved.edit": None, "low/new.edit": Record(sum_of_all, "there")}
        report.write({"low/gone.edit"})
        self.assertEqual(read_record(command.RECORD), {"low/kept.edit": Record(sum_of_all, "here"), "low/new.edit": Record(sum_of_all, "there")})


class WhatTheToolchainSays(unittest.TestCase):
    def setUp(self):
        self.found = outcomes(SAID)

    def test_all_edits_are_read(self):
        self.assertEqual(len(self.found), 9)

    def test_refused(self):
        self.assertEqual(self.found["low/kept.edit"], Outcome("src/lib.rt:36:5: it is not proved that what the function ensures holds when it returns (`returns`)", None))
        self.assertEqual(self.found["low/at-a-path.edit"].place, "src/lib.rt:7:1: it is not proved")

    def test_refused_at_no_place(self):
        self.assertEqual(self.found["low/nowhere.edit"], Outcome(None, "refused at no place, which says nothing of a contract"))

    def test_not_refused_and_bad(self):
        for name, word in (("still-proved", "NOT REFUSED"), ("no-such-text", "BAD EDIT"), ("no-such-name", "BAD EDIT"), ("no-such-field", "BAD EDIT")):
            outcome = self.found[f"low/{name}.edit"]
            self.assertIsNone(outcome.place, name)
            self.assertTrue(outcome.fault.startswith(word), name)

    def test_the_lines_below_an_edit_are_its_own(self):
        self.assertIn("cannot find value `other`", self.found["low/no-such-name.edit"].fault)
        self.assertNotIn("belongs to no edit", str(self.found))

    def test_refused_for_no_clause_is_a_fault(self):
        self.assertIsNone(self.found["low/proof-name.edit"].place)
        self.assertIn("names what the edit took away", self.found["low/proof-name.edit"].fault)
        self.assertIn("a warning alone", self.found["low/warned.edit"].fault)


SOURCE = """\
ghost use Rattle.std.specs.Prelude.{◌≡◌};

/// How many.
const MOST: u8 = 3;

impl Row {
    /// The first.
    pub fn first(&self) -> u8
        ensures { result ≡ self.now.first }
    {
        self.first
    }

    fn both(&self) -> u8 {
        self.first + self.second
    }
}

impl fmt::Display for Row {
    fn fmt(&self) -> u8 {
        0
    }
}

/// The same of any.
pub(crate) fn first<T>(row: &T) -> u8
    requires { row.now ≡ 1 }
{
    row.first
}
"""
CHECK = """\
note: src/lib.rt:8:5: it is not proved that what the function ensures holds when it returns (`returns`); `search` gave up at one of its limits
./proofs/lib/Row/both/Answers.antt:7:3: error: `sum`: the two types differ only where one has `1`
./proofs/first/Answers.antt:7:3: error: `b` has no field `gone`
note: src/lib.rt:15:9: warning: this is not used
note: src/lib.rt:31:5: the facts known there say nothing
proofs/Lemmas.antt:3:4: error: `lemma`: expected a type
"""


class Bundles(unittest.TestCase):
    def setUp(self):
        self.top = tempfile.mkdtemp(prefix="bundles-test-")
        self.addCleanup(shutil.rmtree, self.top)
        write(f"{self.top}/src/lib.rt", SOURCE)
        self.crate = bundles.Crate(self.top)

    def edit(self, *pairs, file="src/lib.rt"):
        path = f"{self.top}/{len(os.listdir(self.top))}.edit"
        write(path, f"file: {file}\n" + "".join(f"old: {old}\nnew: {new}\n" for old, new in pairs))
        return Edit("low", os.path.basename(path), path)

    def function_of(self, *pairs, **more):
        changes = bundles.changed_lines(self.edit(*pairs, **more), self.top)
        found = changes and self.crate.function_of(changes)
        return found and (found.owner, found.name)

    def test_functions_have_their_owners(self):
        self.assertEqual([(it.owner, it.name) for it in self.crate.functions],
                         [("Row", "first"), ("Row", "both"), ("Row", "fmt"), ("lib", "first")])

    def test_functions_are_called_by_their_paths(self):
        self.assertEqual([bundles.path_of(it) for it in self.crate.functions], ["Row::first", "Row::both", "Row::fmt", "first"])

    def test_how_a_check_ends_that_is_refused(self):
        self.assertRegex("only=14 proved=13", bundles.ENDED_SO[True])
        self.assertNotRegex("only=14 holes=1", bundles.ENDED_SO[True])
        self.assertRegex("logic=not-proved functions=3", bundles.ENDED_SO[False])

    def test_a_change_in_one_body(self):
        self.assertEqual(self.function_of(("self.first + self.second", "self.first")), ("Row", "both"))
        self.assertEqual(self.function_of(("    row.first", "    0")), ("lib", "first"))
        self.assertEqual(self.function_of(("self.first + self.second", "self.first + 1"), ("self.first + 1", "1")), ("Row", "both"))

    def test_what_is_not_one_body_is_tried_alone(self):
        self.assertIsNone(self.function_of(("const MOST: u8 = 3;", "const MOST: u8 = 4;")))
        self.assertIsNone(self.function_of(("ensures { result ≡ self.now.first }", "ensures { result ≡ 0 }")))
        self.assertIsNone(self.function_of(("    requires { row.now ≡ 1 }", "")))
        self.assertIsNone(self.function_of(("self.first + self.second", "1"), ("    row.first", "    0")))
        self.assertIsNone(self.function_of(("fn both(&self) -> u8 {", "fn both(&self) -> u16 {")))

    def test_what_cannot_be_applied_is_tried_alone(self):
        self.assertIsNone(self.function_of(("there is no such text", "1")))
        self.assertIsNone(self.function_of(("fn ", "1")))
        self.assertIsNone(self.function_of(("        self.first", "1")))
        self.assertIsNone(self.function_of(("self.first + self.second", "1"), file="src/gone.rt"))

    def test_one_edit_of_a_function_in_a_bundle(self):
        both, first = (next(it for it in self.crate.functions if it[1:3] == key) for key in (("Row", "both"), ("lib", "first")))
        self.assertEqual(bundles.bundles_of({"a": both, "b": both, "c": first}, ["a", "b", "c"]), [["a", "c"], ["b"]])
        many = {number: number for number in range(bundles.MOST_OF_A_BUNDLE + 1)}
        self.assertEqual([len(it) for it in bundles.bundles_of(many, list(many))], [bundles.MOST_OF_A_BUNDLE, 1])

    def test_a_check_tells_of_functions(self):
        told = {(it.owner, it.name): places for it, places in bundles.places_told(self.crate, CHECK).items()}
        self.assertEqual(told, {
            ("Row", "first"): ["src/lib.rt:8:5: it is not proved that what the function ensures holds when it returns (`returns`)"],
            ("Row", "both"): ["proofs/lib/Row/both/Answers.antt:7:3: error: `sum`: the two types differ only where one has `1`"],
        })

    def test_two_functions_of_one_name_are_not_told_apart(self):
        write(f"{self.top}/src/other.rt", "impl Row {\n    fn both(&self) {\n        1\n    }\n}\n")
        self.assertNotIn("both", [it.name for it in bundles.places_told(bundles.Crate(self.top), CHECK)])

    def test_sources_are_replaced_and_not_changed(self):
        os.link(f"{self.top}/src/lib.rt", f"{self.top}/another")
        changes = bundles.changed_lines(self.edit(("self.first + self.second", "1")), self.top)
        self.crate.write(changes)
        self.assertIn("        1\n", text_of(f"{self.top}/src/lib.rt"))
        self.assertEqual(text_of(f"{self.top}/another"), SOURCE)
        self.crate.restore(changes)
        self.assertEqual(text_of(f"{self.top}/src/lib.rt"), SOURCE)

    def test_the_recorded_place_is_the_one_that_is_kept(self):
        edit = self.edit(("self.first + self.second", "1"))
        changes = {edit: bundles.changed_lines(edit, self.top)}
        functions = {edit: self.crate.function_of(changes[edit])}
        said = "note: src/lib.rt:15:9: it is not proved (`a`)\nnote: src/lib.rt:15:9: it is not proved (`b`)\n"
        bundles_checked, bundles.checked = bundles.checked, lambda crate, functions: ("refused", said)
        self.addCleanup(setattr, bundles, "checked", bundles_checked)
        for recorded, place in ((None, "(`a`)"), ("src/lib.rt:15:9: it is not proved (`b`)", "(`b`)"), ("src/lib.rt:9:9: elsewhere", "(`a`)")):
            record = {key_of(edit): Record("sum", recorded)} if recorded else {}
            found = bundles.tried_as_one(self.crate, [edit], changes, functions, record)
            self.assertTrue(found[edit].place.endswith(place), recorded)

    def test_a_check_that_proves_or_stops_refuses_nothing(self):
        edit = self.edit(("self.first + self.second", "1"))
        changes = {edit: bundles.changed_lines(edit, self.top)}
        functions = {edit: self.crate.function_of(changes[edit])}
        bundles_checked = bundles.checked
        self.addCleanup(setattr, bundles, "checked", bundles_checked)
        for verdict in ("proved", None):
            bundles.checked = lambda crate, functions=(), verdict=verdict: (verdict, "note: src/lib.rt:15:9: it is not proved (`a`)\n")
            self.assertEqual(bundles.tried_as_one(self.crate, [edit], changes, functions, {}), {})


class Batches(unittest.TestCase):
    def batches(self, numbers, lines, processors):
        made = [Edit(crate, f"{at}.edit", "") for crate, number in numbers.items() for at in range(number)]
        found = command.batches_of(made, lines, processors)
        self.assertEqual(sorted(edit for batch in found for edit in batch.edits), sorted(made))
        self.assertTrue(all(batch.edits and {edit.crate for edit in batch.edits} == {batch.crate} for batch in found))
        self.assertEqual([batch.seconds for batch in found], sorted((batch.seconds for batch in found), reverse=True))
        return {crate: sum(batch.crate == crate for batch in found) for crate in numbers}

    def test_none(self):
        self.assertEqual(command.batches_of([], {}, 4), [])

    def test_one_processor_needs_no_second_copy(self):
        self.assertEqual(self.batches({"low": 40, "high": 40}, {"low": 500, "high": 9000}, 1), {"low": 1, "high": 1})

    def test_where_others_take_as_long_there_is_one_copy_each(self):
        self.assertEqual(self.batches(dict.fromkeys("abcdefgh", 20), dict.fromkeys("abcdefgh", 2000), 4), dict.fromkeys("abcdefgh", 1))

    def test_one_long_crate_is_split(self):
        self.assertGreater(self.batches({"low": 4, "high": 50}, {"low": 500, "high": 10000}, 4)["high"], 1)

    def test_no_more_copies_than_edits_processors_or_three(self):
        self.assertEqual(self.batches({"high": 1}, {"high": 10000}, 4), {"high": 1})
        self.assertLessEqual(self.batches({"high": 2}, {"high": 10000}, 4)["high"], 2)
        self.assertLessEqual(self.batches({"high": 50}, {"high": 10000}, 2)["high"], 2)
        self.assertEqual(self.batches({"high": 90}, {"high": 10000}, 16), {"high": 3})


def tested():
    """How many tests passed, and how many failed."""
    tests = unittest.defaultTestLoader.loadTestsFromModule(sys.modules[__name__])
    ran = unittest.TextTestRunner(stream=sys.stdout).run(tests)
    failed = len(ran.failures) + len(ran.errors)
    return ran.testsRun - failed, failed
