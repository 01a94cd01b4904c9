#!/usr/bin/env python3
"""Respells this repository's own definitions and lemmas as today's Rattle spells words: in snake case.

usage: python3 tools/respell.py [--list]        at the top, once, right after port.py; --list prints old and new names only

    termsIn, terms-placed  ->  terms_in, terms_placed

Types, modules and constructors begin with a capital and stay, and so do functions of src/, strings and what the library
spells with a dash. Two names that would fall together where one file cites both are told apart by ALIKE. Only names that
files of specs/ and proofs/ define are turned; in a function's Proof.antt what names a goal or a step is left alone.
"""
import collections
import glob
import re
import sys

# Names that would fall together with another where one file speaks of both, or with a word of the library's.
ALIKE = {
    "bit-and": "bit_of_and",
    "bit-or": "bit_of_or",
    "bit-xor": "bit_of_xor",
}
# Lemmas that port.py gave the name which their definition takes here.
LEMMAS = {
    "in_rows": "in_rows_is",
    "line_read": "line_read_is",
    "no_gap": "no_gap_is",
    "numbers_of": "numbers_of_is",
}
WORD = r"[^\s(){}\[\],;.\"`«»]+"
ONE = re.compile(r"(?<![^\s(){}\[\],;.\"`«»])(" + WORD + r")(?![^\s(){}\[\],;.\"`«»])")
DEFINED = re.compile(
    r"\s*(?:(?:pub|abbrev|unfoldable|opaque|private)\s+)*(" + WORD + r")(?:\s+(?:\(.*?\)|\{.*?\}))*\s*:\s+(\S+)"
)
PATHS = sorted(
    glob.glob("crates/*/specs/**/*.antt", recursive=True) + glob.glob("crates/*/proofs/**/*.antt", recursive=True)
)


def is_odd(name):
    return not name[0].isupper() and bool(re.match(r"[a-zμ][a-z0-9]*[A-Z]", name) or re.search(r"[^-]-[^-]", name))


def snake(name):
    name = name.replace("-", "_")
    return re.sub(r"(?<=[a-z0-9])[A-Z]|(?<=[A-Z])[A-Z](?=[a-z])", lambda m: "_" + m.group(0).lower(), name)


def code(line):
    return line.split("--")[0] if not line.lstrip().startswith("--") else ""


def gathered():
    own = {m.group(1) for m in re.finditer(r"(?m)^(\w+)(?: staticlib)?:", open("crates.txt").read())}
    defined, library, cited = set(), set(), collections.defaultdict(set)
    for path in PATHS:
        text = open(path).read()
        walk = path.endswith("/Proof.antt")
        for m in re.finditer(r"(?m)^\s*(?:pub )?use ([^\s{]+?)(?:\.\{([^}]*)\})?$", text):
            parts = m.group(1).split(".")
            if not (parts[0] == "Rattle" and len(parts) > 1 and parts[1] in own):
                library.update(n.strip() for n in (m.group(2) or "").split(","))
        for line in map(code, text.split("\n")):
            m = DEFINED.match(line)
            if m and not (walk and re.search(r"tie\.|-lts\.|statement M", line)):
                defined.add(m.group(1))
            defined.update(m.group(1) for m in re.finditer(r"\blet\s+(" + WORD + r")\s+[=:]", line) if not walk)
            for word in re.findall(WORD, line):
                cited[word].add(path)
    return defined, library, cited


def table():
    defined, library, cited = gathered()
    turned = {n: ALIKE.get(n, snake(n)) for n in defined if is_odd(n) and n not in library}
    turned.update(LEMMAS)
    # a lemma whose definition takes the name that both would have, or which has it already
    for old in sorted(turned):
        new = turned[old]
        rivals = [n for n in defined if n != old and turned.get(n, n) == new and cited[n] & cited[old]]
        if rivals and "-" in old:
            turned[old] = new + "_is"
    for old in sorted(turned):
        new = turned[old]
        rivals = [n for n in defined | library if n != old and turned.get(n, n) == new and cited[n] & cited[old]]
        if rivals:
            print("falls together:", old, rivals, new, file=sys.stderr)
    return turned


def respell(text, turned, walk, source):
    """Turns names outside comments of .antt files; in comments and .md, those between backticks."""
    def turn(m):
        word = m.group(1)
        if word not in turned:
            return word
        before = m.string[: m.start()]
        # what stands behind a dot in a walk is a step's name, unless a projection of a fact of ours
        if walk and before.endswith(".") and word not in cited_as_field:
            return word
        return turned[word]

    def ticked(part):
        return re.sub(r"`[^`\n]+`", lambda m: ONE.sub(turn, m.group(0)), part)

    out = []
    mark = "//" if source else "--"
    for line in text.split("\n"):
        at = re.search(r"(^|\s)" + re.escape(mark) + r"(\s|$)", line)
        cut = at.start() if at else len(line)
        out.append(ONE.sub(turn, line[:cut]) + ticked(line[cut:]))
    return "\n".join(out)


cited_as_field = set()


def with_earlier(text, turned, defined):
    """The table, and the names of the text that port.py turned already: it reads neither pages nor edits."""
    earlier = {w for w in re.findall(WORD, text) if is_odd(w) and w not in turned}
    told = {snake(w): w for w in earlier}
    found = {w: LEMMAS.get(s, s) if "-" in w else s for s, w in told.items() if s in defined}
    return {**turned, **found}


def main():
    turned = table()
    defined = gathered()[0]
    for path in PATHS:
        if path.endswith("/Proof.antt"):
            continue
        for line in map(code, open(path).read().split("\n")):
            m = re.match(r"\s+(?:pub )?(" + WORD + r") : ", line)
            if m:
                cited_as_field.add(m.group(1))
    if "--list" in sys.argv:
        for old in sorted(turned):
            print(old, turned[old])
        return
    count = 0
    others = sorted(glob.glob("crates/*/src/**/*.rt", recursive=True) + glob.glob("crates/*/must-fail/*.edit"))
    for path in PATHS + others:
        text = open(path).read()
        source = not path.endswith(".antt")
        words = {n: w for n, w in turned.items() if n not in LEMMAS} if source else turned
        if path.endswith(".edit"):
            words = with_earlier(text, words, defined)
        new = respell(text, words, path.endswith("/Proof.antt"), source)
        if new != text:
            open(path, "w").write(new)
            count += 1
    for path in ["README.md"] + sorted(glob.glob("docs/*.md")):
        text = open(path).read()
        words = with_earlier(text, turned, defined)
        new = re.sub(r"`[^`\n]+`", lambda m: ONE.sub(lambda w: words.get(w.group(1), w.group(1)), m.group(0)), text)
        if new != text:
            open(path, "w").write(new)
            count += 1
    print(f"respell: {len(turned)} names, {count} files")


main()
