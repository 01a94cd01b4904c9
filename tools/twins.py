#!/usr/bin/env python3
"""Functions of the crates that are the same but for names, types and numbers.

python3 tools/twins.py [LINES [FOLDER]], from any folder; FOLDER is the top of another tree of this repository.
It takes each function's parameters and body, writes every name, type and number as its place among those of that
function, and prints the functions that come out alike and have at least LINES lines (3) between their braces.
"""
import glob
import os
import re
import sys


def functions(text):
    """The name, and the text of parameters and body, of each function; contracts and comments are left out."""
    text = re.sub(r"//[^\n]*", "", text)
    for head in re.finditer(r"^( *)(?:pub )?fn (\w+)", text, re.M):
        end = re.search(rf"^{head.group(1)}\}}", text[head.end():], re.M)
        if end is None:
            continue
        whole = text[head.end():head.end() + end.end()]
        body = re.search(rf"(?:^{head.group(1)}| )\{{$", whole, re.M)  # after contracts it stands on a line of its own
        if body is None:
            continue
        params = re.split(r"\n\s*(?:requires|ensures)", whole[:body.start()])[0]
        yield head.group(2), params, whole[body.start():]


def shape(params, body):
    places = {}

    def place(word):
        return str(places.setdefault(word.group(0), len(places)))

    return re.sub(r"\w+(?:::\w+)*", place, " ".join(f"{params} {body}".split()))


def main():
    if len(sys.argv) > 3 or not all(a.isdecimal() for a in sys.argv[1:2]):
        raise SystemExit(__doc__)
    least = int(sys.argv[1]) if len(sys.argv) > 1 else 3
    top = sys.argv[2] if len(sys.argv) > 2 else os.path.dirname(os.path.dirname(os.path.abspath(__file__)))
    paths = sorted(glob.glob(os.path.join(glob.escape(top), "crates", "*", "src", "*.rt")))
    if not paths:
        raise SystemExit(f"tools/twins.py: {top} has no crates")
    groups = {}
    for path in paths:
        crate = path.split(os.sep)[-3]
        for name, params, body in functions(open(path, encoding="utf-8").read()):
            if body.count("\n") - 1 >= least:
                groups.setdefault(shape(params, body), []).append(f"{crate}::{name}")
    alike = [names for names in groups.values() if len(names) > 1]
    for names in alike:
        print(" ".join(names))
    print(f"{len(alike)} groups of {sum(map(len, alike))} functions")


if __name__ == "__main__":
    main()
