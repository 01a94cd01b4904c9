"""The stored answers of the Rust on operators, as oracle/make_answers.py writes them."""
import os

import face


def lines(name):
    """(words before the first bar, fields between the bars, whether marked agree, the answer's words)."""
    with open(os.path.join(face.ROOT, "tests", "answers", f"{name}.txt"), encoding="utf-8") as file:
        for line in file:
            if not line.startswith("#"):
                first, *fields, mark, answer = line.rstrip("\n").split(" |")
                assert mark.strip() == "agree" or mark.startswith(" differs:")
                yield first.split(), [field.split() for field in fields], mark.strip() == "agree", answer.split()


def rows(words):
    """Rows (ann, cre, coefficient) of an operator's words."""
    parts = (word.split(":") for word in words)
    return [(int(ann, 16), int(cre, 16), int(c)) for ann, cre, c in parts]
