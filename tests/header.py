"""What include/fermion.h declares: the parameters of each function, and the numbers that its comment names.

The comment before a function says "Refusals: .." in one sentence: enum names, and "the record" or the name of a
parameter, as in "a (operand 1)", for that record's own check, which is 1 to 5.
"""
import collections
import os
import re

import face

RECORD = {1, 2, 3, 4, 5}
# A pointer with its length, an array, or a number; one parameter more, the answer, stands after each.
PARAMETER = re.compile(r"(?P<const>const )?(?P<type>uint8_t|uint64_t|int64_t|double) "
                       r"(?:\*(?P<slice>\w+), size_t (?P=slice)_len|\w+(?P<array>\[\d+\])|(?P<number>\w+)), ")

# The shapes of the parameters but for the answer, in order: uint64_t, bytes or words with a length, words[n] without one;
# const where they are only read. And the numbers of the refusals.
Declared = collections.namedtuple("Declared", "shapes numbers")


def text():
    with open(os.path.join(face.ROOT, "include", "fermion.h"), encoding="utf-8") as file:
        return file.read()


def shapes(parameters):
    """The shapes, and the names of bytes that are only read. What has no shape stands as it is."""
    rest, found, read = " ".join(parameters.split()), [], set()
    while rest != "uint64_t answer[8]":
        one = PARAMETER.match(rest)
        if not one:
            return found + [rest], read
        kind = "bytes" if one["type"] == "uint8_t" else "words"
        found.append(one["type"] if one["number"] else (one["const"] or "") + kind + (one["array"] or ""))
        if found[-1] == "const bytes":
            read.add(one["slice"])
        rest = rest[one.end():]
    return found, read


def numbers(comment, read, names):
    """The numbers of the sentence after "Refusals:"; None where there is no such sentence."""
    said = re.search(r"Refusals: (.*?)\.( |$)", comment)
    if not said:
        return None
    found = set()
    for item in re.split(r"[,;]", said[1]):
        record = re.fullmatch(r"(the record|\w+)( \(operand \d\))?", item.strip())
        if record and record[1] in {"the record", *read}:
            found |= RECORD
        found |= {names[word] for word in re.findall(r"[A-Z][A-Z_]+", item) if word in names}
    return found


def declared(header):
    """{name without fermion_: Declared} of a header's text."""
    names = {name: int(number) for name, number in re.findall(r"FERMION_(\w+) = (\d+)", header)}
    found, comment = {}, ""
    for said, name, parameters in re.findall(r"/\*(.*?)\*/|^void fermion_(\w+)\(([^)]*)\);", header, re.S | re.M):
        if name:
            each, read = shapes(parameters)
            found[name] = Declared(each, numbers(comment, read, names))
        else:
            comment = " ".join(re.sub(r"^ \*", "", said, flags=re.M).split())
    return found
