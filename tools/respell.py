#!/usr/bin/env python3
"""Brings the names of this repository's own definitions and lemmas to today's spelling.

usage: python3 tools/respell.py [--map]      at the top of the repository

Words (definitions, lemmas, fields, constructors that begin with a small letter) are written in snake
case; types and modules keep their camel case. Functions of src/, strings, inputs and outputs keep
their names. Names that would fall together are printed, and nothing is written. With --map only the
map is printed, a line for each name.
"""

import functools
import glob
import re
import sys

MODIFIER = r"(?:(?:pub|unfoldable|abbrev|opaque|private|ghost|infixl|infixr|infix)\s+(?:\d+\s+)?)*"
SIGNATURE = re.compile(r"^\s*" + MODIFIER + r"(?:ruleset\s+)?([^\s(){}.,;:@\"=|]+)\s*(?::|=\s*\()")
TOKEN = re.compile(r"[^\s(){}.,;@\"`\u27e8\u27e9\u2983\u2984]+")
# what the toolchain makes, and old proof files name
MADE = re.compile(r"^[+\u03bc\u00b5]|^(invariant|decreases|conclusion|room)-|-spec$|-loop\d*$")
TURNED = {}
KEEP = {"if", "in", "let"}
# laws that stand in one scope with a definition of the same words: `_law` at their end
LAWS = set("""
advance-answer after-header after-projects bad-slice budget-told command-fields empty-kind empty-project
four-rows header-fields header-spare held-from kind-at kind-fields kind-of kind-spare part-by-five parts-after
place-in-form places-spare plan-from project-at project-fields project-left project-of project-spare
project-used rank-among release-answer release-of released-at rescue-answer rounded-up seats-by show-answer
spare-zero start-answer state-from sum-after sum-at sums-in-form sums-right takes-card to-come unit-after
unit-of workload-by-five last_line open_order fit_of built_of
""".split())
# definitions that would take the name of a theorem that the documents name
OTHERS = {"inTime": "due_in_time", "leftTold": "left_told_number", "sumTold": "sum_told_number"}


def snake(name):
    bare = name.replace("\u25cc", "")
    if not re.match(r"^[a-z][A-Za-z0-9'\u2032_-]*$", bare):
        return name
    s = bare.replace("-", "_")
    s = re.sub(r"([a-z0-9'])([A-Z])", r"\1_\2", s)
    s = re.sub(r"([A-Z])([A-Z][a-z])", r"\1_\2", s)
    s = s.lower().replace("\u2032", "'")
    return name.replace(bare, s)


def antt():
    return sorted(set(glob.glob("crates/*/specs/**/*.antt", recursive=True)) | set(glob.glob("crates/*/proofs/**/*.antt", recursive=True)))


def declared():
    names = set()
    for path in antt():
        # a function's own proof folder names what the toolchain made
        if "/proofs/" in path and path.split("/proofs/")[1].count("/") > 0:
            continue
        for line in open(path, encoding="utf-8"):
            found = SIGNATURE.match(line)
            if found and not line.lstrip().startswith("--"):
                names.add(found.group(1))
    return names


def respelled(names):
    turned, together = {}, {}
    for name in sorted(names):
        new = OTHERS.get(name) or snake(name) + ("_law" if name in LAWS else "")
        if MADE.search(name) or new == name or name in KEEP:
            together.setdefault(name, []).append(name)
            continue
        turned[name.replace("\u25cc", "")] = new.replace("\u25cc", "")
        together.setdefault(new, []).append(name)
    return turned, {new: olds for new, olds in together.items() if len(olds) > 1}


def words(text, turned):
    def one(found):
        token = found.group(0)
        bare = token.strip("\u25cc\u2191-")
        if token in turned:
            return turned[token]
        if bare in turned:
            return token.replace(bare, turned[bare])
        return token

    return TOKEN.sub(one, text)


@functools.cache
def humps_of(size):
    return {old: new for old, new in TURNED.items() if re.search("[a-z][A-Z]", old)}


def prose(text, turned):
    """In a comment: camel case wherever it stands, a name with a hyphen only between backticks."""
    humps = humps_of(len(TURNED))
    parts = text.split("`")
    for at, part in enumerate(parts):
        parts[at] = words(part, turned if at % 2 and len(parts) > 2 else humps)
    return "`".join(parts)


def comment_at(line, mark):
    at = 0 if line.startswith(mark) else line.find(" " + mark + " ")
    return len(line) if at < 0 else at


def turn_antt(text, turned):
    out = []
    for line in text.split("\n"):
        stripped = len(line) - len(line.lstrip())
        at = stripped if line.lstrip().startswith("--") else comment_at(line, "--")
        out.append(words(line[:at], turned) + prose(line[at:], turned))
    return "\n".join(out)


def turn_rt(text, turned):
    """Ghost clauses and imports whole; of the rest only camel case, which no name of the source has."""
    humps = humps_of(len(TURNED))
    out, depth = [], 0
    for line in text.split("\n"):
        opens = re.match(r"^\s*(?:pub\s+)?(?:requires|ensures|ghost|#\[tactic)\b", line)
        if line.lstrip().startswith("//"):
            out.append(prose(line, turned))
            continue
        if opens or depth > 0:
            out.append(words(line, turned))
            depth = max(0, depth + line.count("{") - line.count("}"))
        else:
            out.append(words(line, humps) if '"' not in line else line)
    return "\n".join(out)


def main(argv):
    names = declared()
    turned, together = respelled(names)
    TURNED.update(turned)
    if argv == ["--map"]:
        for old, new in sorted(turned.items()):
            print(old, new)
        return 0
    for new, olds in sorted(together.items()):
        print("falls together:", new, olds)
    for path in antt() + sorted(glob.glob("crates/*/src/**/*.rt", recursive=True)):
        text = open(path, encoding="utf-8").read()
        new = turn_rt(text, turned) if path.endswith(".rt") else turn_antt(text, turned)
        if new != text:
            open(path, "w", encoding="utf-8").write(new)
    print(len(turned), "names respelled")
    return 0


if __name__ == "__main__":
    raise SystemExit(main(sys.argv[1:]))
