#!/usr/bin/env python3
"""Counts the places of docs/DESIGN-PASS.md in crates/*/src: python3 tools/design_places.py [POINT]"""
import collections
import glob
import re
import sys

FILES = sorted(glob.glob("crates/*/src/**/*.rt", recursive=True))
WORDS = {"if", "else", "for", "in", "let", "mut", "return", "match", "while", "fn", "pub", "as", "self", "Self"}


def functions(path):
    """Each function of a file: its name, its signature with the clauses, and its body."""
    lines = open(path, encoding="utf-8").read().split("\n")
    at = 0
    while at < len(lines):
        found = re.match(r"^(\s*)(pub )?(const )?fn (\w+)", lines[at])
        if not found or lines[at].rstrip().endswith(";"):
            at += 1
            continue
        indent = found.group(1)
        opens = at
        while lines[opens] != indent + "{" and not re.match(rf"^{indent}\S.* \{{$", lines[opens]):
            opens += 1
        closes = opens + 1
        while lines[closes] != indent + "}":
            closes += 1
        yield found.group(4), lines[at : opens + 1], lines[opens + 1 : closes]
        at = closes + 1


def enums():
    """Every enum: which of them have the shape of Option or Result the page says."""
    for path in FILES:
        for line in open(path, encoding="utf-8"):
            found = re.match(r"^(?:pub )?enum (\w+)", line)
            if found:
                yield f"{path} {found.group(1)}"


def shape(lines):
    """The words of a body, with the names and the numbers by the order in which they come."""
    seen = {}
    out = []
    for word in re.findall(r"[A-Za-z_]\w*|\d+|[^\s\w]", "\n".join(lines)):
        if re.match(r"[A-Za-z_0-9]", word) and word not in WORDS:
            word = seen.setdefault(word, f"#{len(seen)}")
        out.append(word)
    return " ".join(out)


def twins():
    """Groups of functions of five lines and more whose bodies differ in names, numbers and types alone."""
    groups = collections.defaultdict(list)
    for path in FILES:
        for name, _, body in functions(path):
            if len(body) >= 5:
                groups[shape(body)].append(f"{path} {name}")
    return [" = ".join(group) for group in groups.values() if len(group) > 1]


def lines_like(pattern):
    """Each line that a pattern fits, with its place."""
    for path in FILES:
        for number, line in enumerate(open(path, encoding="utf-8"), 1):
            if re.match(pattern, line):
                yield f"{path}:{number} {line.strip()}"


def loops():
    """Each loop that is no `for`."""
    return lines_like(r"^\s*('\w+: )?(while|loop)\b")


def conversions():
    """Functions that convert, compare or print by hand, by their names."""
    names = r"^(at_most|differ|wide|wide_usize|number_of|status_of|refusal_of|answer_of|verdict_of|\w+_to_\w+|value|number)$"
    for path in FILES:
        for name, _, _ in functions(path):
            if re.match(names, name):
                yield f"{path} {name}"


def conjuncts(clause):
    """The facts of a clause."""
    depth = 0
    fact = ""
    for letter in clause + "×":
        depth += (letter in "([{") - (letter in ")]}")
        if letter == "×" and depth == 0:
            fact = fact.strip()
            yield fact[1:-1] if fact.startswith("(") and fact.endswith(")") else fact
            fact = ""
        else:
            fact += letter


def facts():
    """Facts that three functions and more require, with how many."""
    held = collections.defaultdict(set)
    for path in FILES:
        for name, head, _ in functions(path):
            for line in head:
                found = re.match(r"^\s*requires (?:\w+ )?\{ (.*) \}$", line)
                if found:
                    for fact in conjuncts(found.group(1)):
                        held[fact].add(f"{path} {name}")
    return [f"{len(places)} {fact}" for fact, places in sorted(held.items(), key=lambda x: -len(x[1])) if len(places) > 2]


def buffers():
    """Parameters that are a slice with a place or a length beside it."""
    for path in FILES:
        for name, head, _ in functions(path):
            text = " ".join(head)
            count = len(re.findall(r"\w+: &(?:mut )?\[\w+\], (?:\w*at|start|from|to|place|\w*count|len|row|first|square): usize", text))
            if count:
                yield f"{path} {name} {count}"


def switches():
    """Each match on a kind that is passed in."""
    return lines_like(r"^\s*match (call|rule|kind|which|step)\b")


def answers():
    """Each file of answers, with its lines."""
    for path in sorted(glob.glob("crates/*/proofs/**/Answers.antt", recursive=True)):
        yield f"{path} {len(open(path, encoding='utf-8').read().splitlines())}"


POINTS = [enums, twins, loops, conversions, facts, buffers, switches, answers]


def main():
    chosen = [int(word) for word in sys.argv[1:]] or range(1, 9)
    for point in chosen:
        places = list(POINTS[point - 1]())
        if len(sys.argv) > 1:
            print("\n".join(places))
        print(f"{point} {POINTS[point - 1].__name__}: {len(places)}")


main()
