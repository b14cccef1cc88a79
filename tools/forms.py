#!/usr/bin/env python3
"""Counts the places of docs/DESIGN-PASS.md in the sources: a line for each kind of place, and with --list each place.

usage: python3 tools/forms.py [--list] [--at FOLDER]      at the top of the repository, or of another checkout

It goes by text. A comment that begins with `kept:` on the line above a place, or in the comment that ends there, says why the place
stays; such places are counted apart.
"""

import collections
import pathlib
import re
import sys

TOP = pathlib.Path(sys.argv[sys.argv.index("--at") + 1] if "--at" in sys.argv else ".")
LISTED = "--list" in sys.argv
FILES = sorted(TOP.glob("crates/*/src/**/*.rt"))

# what a regular expression finds in one line of code
LINES = [
    ("1 own enums", r"^ *(pub )?enum "),
    ("1 an answer beside a value", r"^ *pub(\(crate\))? answer: Answer,$"),
    ("1 a flag beside a value", r"^    (pub )?(clean|released|last|spare): (bool|u8),$"),
    ("1 a refusal's number", r"Answer::(bare|at_project|at_kind)\([0-9]|Refusal::\w+\([0-9]"),
    ("3 loops over a counted index", r"\bfor [a-z_]+ in [^\[&]*\.\.|^ *while "),
    ("4 printing by hand", r"\bio::(write_all|print_decimal|print_hex)\("),
    ("6 a buffer and an index in it", r"\bat: usize"),
    ("6 arrays side by side", r"^    (pub(\(crate\))? )?(works|until|low|end|owner|length|deadline|workload|width|slice|supply): \[|^    (owner|length|deadline|workload): &\["),
    ("7 a switch on the step to run", r"^ *match (stage|self\.stage|course|desk\.course)\b"),
]
# a helper whose whole body is a cast, a lesser or greater of two, or a difference
HELPER = re.compile(r"^ +x as \w+$|^ +\w+ as \w+$|^ +(a|b|x|most|0|least|length|cards|count|separation|Plan::KINDS|Line::CARDS|TOO_LONG)$")
NAME = re.compile(r"[a-z_][a-z0-9_]*|[A-Z][A-Za-z0-9_]*|[0-9][0-9a-z_]*|\S")
WORDS = {"if", "else", "for", "in", "let", "mut", "return", "match", "while", "fn", "pub", "self", "Self", "as", "continue", "break",
         "struct", "enum", "bool", "true", "false"}


def functions(text):
    """(line, name, head, body) of each function."""
    lines = text.split("\n")
    for at, line in enumerate(lines):
        begun = re.match(r'^( *)(?:pub(?:\(crate\))? )?(?:extern "C" )?fn (\w+)', line)
        if begun:
            opening = at
            while lines[opening].rstrip() != begun.group(1) + "{" and not lines[opening].endswith("{"):
                opening += 1
            end = opening
            while lines[end] != begun.group(1) + "}":
                end += 1
            yield at + 1, begun.group(2), "\n".join(lines[at : opening + 1]), lines[opening + 1 : end]


def shape(body):
    """The text with one mark for every name and every number."""
    marks = []
    for word in NAME.findall(re.sub(r"//.*", "", "\n".join(body))):
        marks.append(word if word in WORDS else "n" if re.match(r"\w", word) else word)
    return " ".join(marks)


def kept(lines, at):
    """Whether the comment above the place says why it stays."""
    above = at - 2
    while above >= 0 and lines[above].lstrip().startswith("//"):
        if "kept:" in lines[above]:
            return True
        above -= 1
    return False


def main():
    places = collections.OrderedDict((name, []) for name, _ in LINES)
    helpers, shapes, facts, long = [], collections.defaultdict(list), collections.defaultdict(list), []
    for path in FILES:
        text = path.read_text(encoding="utf-8")
        lines = text.split("\n")
        where = str(path.relative_to(TOP))
        for number, line in enumerate(lines, 1):
            if line.lstrip().startswith("//"):
                continue
            for name, pattern in LINES:
                if re.search(pattern, line):
                    places[name].append((where, number, line.strip(), kept(lines, number)))
        for number, name, head, body in functions(text):
            mark = (where, number, name, kept(lines, number))
            if len(body) <= 4 and body and all(HELPER.match(l) or l.strip() in ("}",) or l.lstrip().startswith(("if ", "return ")) for l in body):
                if HELPER.match(body[-1]):
                    helpers.append(mark)
            marked = shape(body)
            if len(marked.split()) >= 30:
                shapes[marked].append(mark)
            for clause in re.findall(r"requires \{(.*?)\}\n", head + "\n", re.S):
                for fact in re.split(r" × |\n", clause):
                    fact = fact.strip().strip("()")
                    if fact:
                        facts[(where.split("/")[1], fact)].append(mark)
            if len(re.findall(r"\w+: ", head.split("requires")[0].split("ensures")[0])) >= 5:
                long.append(mark)
    places["4 helpers that std has"] = helpers
    places["2 functions of the same shape as another"] = [m for s in shapes.values() if len(s) > 1 for m in s]
    places["5 a fact that three or more functions of a crate require"] = [(c, len(m), f, False) for (c, f), m in facts.items() if len(m) > 2]
    places["5 functions of five or more parameters"] = long
    answers = [p for p in TOP.glob("crates/*/proofs/**/Answers.antt")]
    for name in sorted(places):
        found = places[name]
        stay = sum(1 for place in found if place[3])
        print(f"{name}: {len(found)}" + (f", {stay} with a reason beside them" if stay else ""))
        if LISTED:
            for where, number, what, reason in found:
                print(f"    {where}:{number} {what}" + ("  (kept)" if reason else ""))
    count = sum(len(re.findall(r"^pub \S+ : goal\.", p.read_text(encoding='utf-8'), re.M)) for p in answers)
    print(f"8 answers: {count} in {len(answers)} files")


main()
