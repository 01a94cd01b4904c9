"""Asks the built Rust, and compares its products with the rule."""
import pathlib
import subprocess
import sys

sys.path.insert(0, str(pathlib.Path(__file__).resolve().parent.parent / "tests"))
import rule  # noqa: E402


def ask(binary, lines):
    """One answer for each line (the protocol stands in README.md)."""
    text = "".join(line + "\n" for line in lines)
    run = subprocess.run([binary], input=text, capture_output=True, text=True, check=True)
    answers = run.stdout.splitlines()
    assert len(answers) == len(lines), (len(answers), len(lines))
    return answers


def hexes(*words):
    return " ".join(f"{word:x}" for word in words)


def triples(fields):
    """`ann cre coefficient` fields as (ann, cre, coefficient)."""
    it = iter(fields)
    return [(int(ann, 16), int(cre, 16), int(next(it))) for ann, cre in zip(it, it)]


def products(binary, pairs):
    """The Rust's rows for each (m, left, right), or None where it panics."""
    lines = [f"mul_cmpnts {m} {hexes(*left, *right)}" for m, left, right in pairs]
    return [None if a.startswith("panic") else triples(a.split()[1:]) for a in ask(binary, lines)]


def all_pairs(m):
    """Every pair on m modes, as (m, left, right)."""
    words = range(1 << m)
    return [(m, (a, b), (c, d)) for a in words for b in words for c in words for d in words]


def joined(rows):
    """Rows as coefficients by term, {(ann, cre): coefficient}, zeros dropped."""
    sums = {}
    for ann, cre, c in rows:
        sums[ann, cre] = sums.get((ann, cre), 0) + c
    return {term: c for term, c in sums.items() if c}


def kinds(sums, left, right):
    """How the Rust's coefficients by term (None for a panic) differ from the rule's.

    panic    the Rust panics
    sign     a term of the product has the opposite coefficient
    spare    the identity term {|} is there, and the product has no such term
    missing  a term of the product is not there
    other    anything else
    """
    if sums is None:
        return ["panic"]
    right_sums = {(ann, cre): c for (cre, ann), c in rule.multiply(left, right).items()}
    found = set()
    for term in sums.keys() | right_sums.keys():
        is_, should = sums.get(term, 0), right_sums.get(term, 0)
        if is_ == should:
            continue
        if should == 0:
            found.add("spare" if term == (0, 0) else "other")
        elif is_ == 0:
            found.add("missing")
        else:
            found.add("sign" if is_ == -should else "other")
    return sorted(found)
