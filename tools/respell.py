#!/usr/bin/env python3
"""Spells the repository's own definitions and lemmas by the kit's rules for names.

usage: respell.py [--check]        at the top of the repository, once, after port.py

A definition is in snake case, a type or a fact in upper camel case. In a lemma's name a dash joins names, and a plain word is added with an underscore.
A name is renamed wherever it stands as a word, in crates/, modulus/ and between backticks in the pages. A capital letter at the end of a word stays, as in top_Q.
--check prints the names with their new spelling, and the new ones that meet another name, and writes nothing.
"""
import os
import re
import sys

NAME = r'[^\s(){}.;,@"«»:`\\]+'
LINE = re.compile(r"^(\s*)((?:(?:abbrev|unfoldable|pub|data|record|opaque)\s+)*)(" + NAME + r")((?:\s+[({].*?[)}])*)\s+:\s(.*)$")
# Words of the library that lemmas are named by.
WORDS = set("length get_or take drop set replicate map append reverse cond xor mod div mul add sub pow le lt suc pred sum eqb ltb leb max min fst snd".split())
# Kept where the rule gives a name that stands already, and names with no reading as words.
KEPT = {
    "conj-coeff": "conj_coeff_lem",
    "digit-rows": "digit_rows_lem",
    "half-Q": "half_Q_lem",
    "layer-index": "layer_index_lem",
    "one-to-ten": "one_to_ten_lem",
    "rows-or-zero": "rows_or_zero_lem",
    "sign-words": "sign_words_lem",
}


def files(ends, roots=("crates", "modulus")):
    for root in roots:
        for folder, dirs, names in os.walk(root):
            dirs[:] = sorted(d for d in dirs if d not in ("out", "target"))
            for name in sorted(names):
                if name.endswith(ends):
                    yield os.path.join(folder, name)


def declared(path):
    lines = open(path, encoding="utf-8").read().split("\n")
    for i, line in enumerate(lines):
        if line.lstrip().startswith("--"):
            continue
        m = LINE.match(line)
        if not m:
            continue
        text, j = m[5], i + 1
        while j < len(lines) and lines[j].strip() and len(lines[j]) - len(lines[j].lstrip()) > len(m[1]) and not LINE.match(lines[j]):
            text += " " + lines[j].strip()
            j += 1
        yield m[3], m[2].split(), re.sub(r"\s+where$", "", text.strip())


def snake(word):
    """camelCase with underscores; a lone capital at the end stays a capital."""
    if word[:1].isupper() or "◌" in word:
        return word
    word = re.sub(r"(?<=[a-z0-9])([A-Z])(?=[a-z])", lambda m: "_" + m[1].lower(), word)
    word = re.sub(r"(?<=[a-z0-9])([A-Z])(?=$|')", r"_\1", word)
    return word.replace("getD", "get_or")


def as_type(name):
    return "".join(p[:1].upper() + p[1:] for p in name.split("-"))


def as_definition(name):
    return "_".join(snake(p) for p in name.split("-"))


def as_lemma(name, units):
    """Greedy: the longest runs of pieces that are names; a dash where the first unit is a name and the right one is too."""
    pieces = [snake(p) for p in name.replace("getD", "get_or").split("-")]
    found, k = [], 0
    while k < len(pieces):
        for end in range(len(pieces), k, -1):
            one = "_".join(pieces[k:end])
            if one in units:
                found.append((one, True))
                k = end
                break
        else:
            found.append((pieces[k], False))
            k += 1
    text = found[0][0]
    for one, is_name in found[1:]:
        text += ("-" if is_name and found[0][1] else "_") + one
    return text


def of_libraries():
    """The names that files bring from other libraries, or cite by a module of theirs: these stay."""
    found = set()
    for path in files((".antt", ".antt.prime", ".rt", ".rt.prime")):
        text = open(path, encoding="utf-8").read()
        for module, names, alias in re.findall(r"(?m)^\s*(?:pub )?(?:ghost )?use ([^\s;{}]+?)(?:\.\{([^}]*)\})?(?: as (\w+))?;?$", text):
            if re.match(r"Rattle[.·](?!(?:std|core)\b)", module):
                continue
            found.update(re.findall(NAME, names))
            for word in [alias or module.split(".")[-1]]:
                found.update(re.findall(r"(?<![\w.])" + re.escape(word) + r"\.(" + NAME + ")", text))
    return found


def table():
    types, definitions, lemmas = set(), set(), set()
    for path in files((".antt", ".antt.prime")):
        proof = os.path.basename(path).startswith("Proof.")
        for name, marks, text in declared(path):
            if proof and re.match(r"tie\.|.*statement M$|statement", text):
                continue
            if "data" in marks or "record" in marks or re.search(r"(^|→ )Type( \S+)?$", text):
                types.add(name)
            elif "/specs/" in path:
                definitions.add(name)
            else:
                lemmas.add(name)
    units = WORDS | {as_definition(n) for n in definitions} | {as_type(n) for n in types if len(n) > 1} | {"Σ"}
    new = {}
    for n in types:
        new[n] = as_type(n) if n[:1].isupper() else n
    for n in definitions - types:
        new[n] = as_definition(n)
    for n in lemmas - types - definitions:
        new[n] = as_lemma(n, units)
    new.update(KEPT)
    kept = of_libraries()
    return {a: b for a, b in new.items() if a != b and a not in kept}


def words_of(text):
    return set(re.findall(NAME, text))


def main(argv):
    new = table()
    changed = {}
    meets = []
    for path in files((".antt", ".antt.prime", ".rt", ".rt.prime", ".edit")):
        text = open(path, encoding="utf-8").read()
        there = words_of(text)
        mine = [w for w in there if w in new]
        for w in mine:
            if new[w] in there:
                meets.append((path, w, new[w]))
        out = re.sub(NAME, lambda m: new.get(m[0], m[0]), text)
        if out != text:
            changed[path] = out
    pairs = {}
    for a, b in new.items():
        pairs.setdefault(b, []).append(a)
    for b, names in sorted(pairs.items()):
        if len(names) > 1:
            print("fall together:", b, names)
    for path, w, n in meets:
        print("meets:", path, w, n)
    if "--check" in argv:
        for a, b in sorted(new.items()):
            print("new:", a, b)
        return
    for page in [p for p in os.listdir(".") if p.endswith(".md")] + list(files((".md",), ("docs", "modulus", "crates", "oracle", "bench", "bindings"))):
        text = open(page, encoding="utf-8").read()
        out = re.sub(r"`[^`\n]+`", lambda q: re.sub(NAME, lambda m: new.get(m[0], m[0]), q[0]), text)
        if out != text:
            changed[page] = out
    for path, text in changed.items():
        with open(path, "w", encoding="utf-8") as f:
            f.write(text)
    print(len(new), "names,", len(changed), "files")


main(sys.argv[1:])
