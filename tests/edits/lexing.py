"""What a prover reads of a source: its text without comments, without hints on inlining that have a line of their own, and without what an empty line or a
space at a line's end adds. The hints are for LLVM alone, and change no proof.

In a .rt file comments are Rust's: `//` to the line's end, nested `/* */`, doc comments among them. What follows `requires`, `ensures` and `ghost`, which are
no names, in braces or as `ghost use`, is antt's text. In an .antt file comments are `--` to the line's end, and nested `{- -}`. antt's layout goes by columns:
so what is left keeps its column, and a comment within a line leaves as many spaces as it had characters.

If it is not certain what is a comment, all of the text counts: so does that of a file with a comment in a clause. No doc comment reaches a prover but
through a macro: the text of a file with a macro's rules, or with a derive that may read doc comments, counts too.
"""

import os
import re

# What begins a comment, a text, a character or antt's text in Rust, and what would be one of them if it were whole.
RUST = re.compile(r"""
    (?P<comment>//[^\n]*)
    | (?P<nested>/\*)
    | (?P<text>
        \b[bc]?r(?P<marks>\#*)".*?"(?P=marks)
        | (?:(?<![\w#])|\b[bc])"(?:[^"\\]|\\.)*"
        | (?:(?<!\w)|\bb)'(?:[^'\\\n]|\\(?:[nrt0\\'"]|x[0-9a-fA-F]{2}|u\{[0-9a-fA-F_]{1,8}\}))')
    | (?P<lifetime>(?<!\w)'[^\W\d]\w*)
    | (?P<imports>\bghost\s+use\b[^;]*;)
    | (?P<braces>(?<!r\#)\b(?:requires|ensures|ghost)\b[\s\w*:=]*\{(?!-))
    | (?P<unclear>["']|(?<!r\#)\b(?:requires|ensures|ghost)\b)
    """, re.X | re.S)
# The same in antt's text, where a name may have any of -, / and '.
ANTT = re.compile(r"""
    (?P<text>"(?:[^"\\\n]|\\[^\n])*")
    | (?P<comment>(?<![^ \n(){}.;,@"»])--[^\n]*)
    | (?P<nested>\{-)
    | (?P<unclear>"|--)
    """, re.X)
# Antt's text in the braces of a .rt file, which only has to be read to its end: what might be a comment, a character or Rust again is unclear.
BRACES = re.compile(r"""
    (?P<text>"(?:[^"\\\n]|\\[^\n])*")
    | (?P<unclear>"|--|//|/\*|(?:\}\s*(?:=|\bby\b)\s*)?\{-|⟦|'[{}"]')
    | (?P<opens>\{)
    | (?P<closes>\}) (?: \s*(?:=|\bby\b)\s*(?P<more>\{) )?
    """, re.X)
HINT = re.compile(r" *#\[(?:inline(?:\((?:always|never)\))?|cold)\]")
NOT_IN_IMPORTS = re.compile(r'"|--|//|/\*|\{-')
NESTED = {"/*": re.compile(r"/\*|\*/"), "{-": re.compile(r"\{-|-\}")}
# A text is a NUL in what is left of a source, so that no line of it is taken for one of the source; no source has one of its own.
TEXT = "\0"
NOT_EXPECTED = re.compile(r"[\x00-\x09\x0b-\x1f\x7f\x85\u2028\u2029\ufeff]|\A#!(?!\[)")
# These derives are known to do nothing with a doc comment.
DERIVES = {"Clone", "Copy", "Debug", "Default", "Drop", "Eq", "Error", "Hash", "Ord", "PartialEq", "PartialOrd"}
DERIVE, RULES = re.compile(r"\bderive\s*\(([^)]*)\)"), re.compile(r"\bmacro_rules\b")


class Unclear(Exception):
    """It cannot be told what is a comment."""


def nested_end(text, at, opens):
    """Where the comment ends that opens here."""
    depth = 0
    for mark in NESTED[opens].finditer(text, at):
        depth += 1 if mark[0] == opens else -1
        if not depth:
            return mark.end()
    raise Unclear


def braces_end(text, at):
    """Where antt's text in braces ends, from behind the first of them. A second pair may follow the first, as a value its type."""
    depth = 1
    for mark in BRACES.finditer(text, at):
        if mark.lastgroup == "unclear":
            raise Unclear
        depth += bool(mark["opens"]) + bool(mark["more"]) - bool(mark["closes"])
        if not depth:
            return mark.end()
    raise Unclear


def without_comments(text, tokens):
    """What is left of the text, with a NUL for each text in it, and these texts."""
    if NOT_EXPECTED.search(text):
        raise Unclear
    left, texts, at = [], [], 0
    while mark := tokens.search(text, at):
        kind, begins, ends = mark.lastgroup, mark.start(), mark.end()
        left.append(text[at:begins])
        if kind == "nested":
            ends = nested_end(text, begins, mark[0])
            left.append(re.sub(r"[^\n]", " ", text[begins:ends]))
        elif kind == "text":
            texts.append(mark[0])
            left.append(TEXT)
        elif kind == "braces":
            ends = braces_end(text, ends)
            left.append(text[begins:ends])
        elif kind in ("lifetime", "imports"):
            left.append(mark[0])
        is_unclear = kind == "imports" and NOT_IN_IMPORTS.search(mark[0]) or kind == "text" and re.match(r"\w", text[ends:])
        if kind == "unclear" or is_unclear:
            raise Unclear
        at = ends
    left.append(text[at:])
    return "".join(left), texts


def hands_comments_on(text):
    """Whether something in this text in Rust may make more of a doc comment than a comment."""
    derives = {name.strip() for names in DERIVE.findall(text) for name in names.split(",")}
    return RULES.search(text) or not derives <= DERIVES | {""}


def read_of(path, source):
    """What a prover reads of the source of this name, in parts that tell it from any other."""
    tokens = {".rt": RUST, ".antt": ANTT}.get(os.path.splitext(path)[1])
    try:
        text = source.decode()
        if tokens and not (tokens is RUST and hands_comments_on(text)):
            left, texts = without_comments(text, tokens)
            lines = (line.rstrip(" ") for line in left.split("\n") if not (tokens is RUST and HINT.fullmatch(line.rstrip(" "))))
            return [b"read", *(part.encode() for part in ("\n".join(filter(None, lines)), *texts))]
    except (Unclear, UnicodeDecodeError):
        pass
    return [b"whole", source]
