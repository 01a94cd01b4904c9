#!/usr/bin/env python3
"""Makes the lists of pairs that bench_mul.sh times, into a folder.

    python3 oracle/make_pairs.py FOLDER

A line is `m lcre lann rcre rann`, m decimal and the words hexadecimal. The lists are seeded:
two-body pairs on 16, 32 and 64 modes, 2,000 of all and 2,000 with a product that isn't empty, and for
each b from 0 to 12 some pairs on 64 modes with b branching modes, no other common mode, and two further
modes in each word.
"""
import pathlib
import sys

from ask import hexes, rule
from draw import Draw

SEED_TWO_BODY, SEED_GROWTH = 301, 302
TWO_BODY_PAIRS, GROWTH_PAIRS = 2000, 64


def two_body(draw, m, wanted):
    pairs = []
    while len(pairs) < TWO_BODY_PAIRS:
        words = [draw.among(range(m), 2) for _ in range(4)]
        if wanted == "all" or not rule.is_empty(words[:2], words[2:]):
            pairs.append(words)
    return pairs


def growth(draw, b):
    pairs = []
    for _ in range(GROWTH_PAIRS):
        branch = draw.among(range(64), b)
        rest = draw.shuffled(p for p in range(64) if not branch >> p & 1)
        l_cre, l_ann, r_cre, r_ann = (1 << rest[i] | 1 << rest[i + 1] for i in (0, 2, 4, 6))
        pairs.append([l_cre, l_ann | branch, r_cre | branch, r_ann])
    return pairs


def write(folder, name, m, pairs):
    text = "".join(f"{m} {hexes(*words)}\n" for words in pairs)
    (folder / f"{name}.txt").write_text(text)


def main():
    if len(sys.argv) != 2:
        sys.exit(__doc__)
    folder = pathlib.Path(sys.argv[1])
    folder.mkdir(parents=True, exist_ok=True)
    draw = Draw(SEED_TWO_BODY)
    for m in (16, 32, 64):
        for wanted in ("not_empty", "all"):
            write(folder, f"two_body_{m}_{wanted}", m, two_body(draw, m, wanted))
    draw = Draw(SEED_GROWTH)
    for b in range(13):
        write(folder, f"growth_{b:02}", 64, growth(draw, b))


main()
