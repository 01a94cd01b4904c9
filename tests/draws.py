"""Records drawn for the tests: accepted ones, and copies damaged in one way."""
import face
import records


def coefficient(rng):
    """Not zero; mostly small, sometimes up to 2^54."""
    return rng.choice((1, -1)) * rng.randint(1, 1 << rng.choice((0, 1, 3, 8, 20, 40, 54)))


def of_size(rng, size):
    """A word of so many of 64 modes."""
    return sum(1 << p for p in rng.sample(range(64), size))


def term(rng, m, kind, near=None):
    """(ann, cre) on m modes: dense words, few modes, or as many creations as annihilations; these on modes that are near."""
    if kind == "dense":
        return face.word(rng, m, rng.choice((0.1, 0.3, 0.6))), face.word(rng, m, rng.choice((0.1, 0.3, 0.6)))
    near = near or rng.sample(range(m), min(m, 5))
    most = min(2 if kind == "body" else 3, len(near))
    counts = [rng.randint(0, most)] * 2 if kind == "body" else [rng.randint(0, most) for _ in "ac"]
    return tuple(sum(1 << p for p in rng.sample(near, k)) for k in counts)


def rows(rng, m, n, kind=None, small=False, near=None):
    """Up to n rows, ascending, no term twice, no zero."""
    kind = kind or rng.choice(("dense", "few", "body"))
    terms = {term(rng, m, kind, near) for _ in range(n)}
    return [(*words, rng.choice((-3, -2, -1, 1, 2, 3)) if small else coefficient(rng)) for words in sorted(terms)]


def relative(rng, m, others):
    """Rows that share terms with others: equal, opposite and other coefficients."""
    terms = {row[:2]: row[2] for row in rows(rng, m, rng.randint(0, 5))}
    for ann, cre, c in others:
        if rng.random() < 0.6:
            terms[ann, cre] = rng.choice((c, -c, coefficient(rng)))
    return sorted((*words, c) for words, c in terms.items())


def swapped_too(rng, some):
    """The rows and their adjoint's, so that the record is Hermitian; sometimes with one coefficient changed."""
    terms = {}
    for ann, cre, c in some:
        if (ann, cre) not in terms:
            terms[cre, ann] = c * (-1) ** (records.pairs(ann) + records.pairs(cre))
            terms[ann, cre] = c
    if terms and rng.random() < 0.3:
        words = rng.choice(sorted(terms))
        terms[words] += rng.choice((-2, -1, 1, 2)) * (terms[words] > 2) or -2 * terms[words]
    return sorted((*words, c) for words, c in terms.items())


def many(rng, m, n, same=None):
    """n rows, ascending, with coefficients 1 or -1: on m modes, where that leaves room. All of one annihilation word where
    `same` is given."""
    mask = (1 << m) - 1
    terms = set()
    while len(terms) < n:
        terms.add((rng.getrandbits(m) & mask if same is None else same, rng.getrandbits(m) & mask))
    return [(*words, rng.choice((-1, 1))) for words in sorted(terms)]


# Damage: (number, place, record)

HEADER_FIELDS = range(0, 32, 4)


def with_field(record, at, value):
    return record[:at] + (value % 2**32).to_bytes(4, "little") + record[at + 4:]


def damaged_headers(rng, record):
    """Copies refused with 1: another length, and each of the eight fields changed."""
    m, n = records.decode(record)[0], (len(record) - 32) // 24
    yield from (record[:-1], record + b"\0", record[:31], b"", record[:32] if n else record[:28])
    for at in HEADER_FIELDS:
        was = int.from_bytes(record[at:at + 4], "little")
        others = {was + 1, was - 1, was ^ 1 << rng.randrange(32), was + 2**16, rng.getrandbits(32)} - {was}
        if at == 4:
            others = {0, 65, 66, 2**31, 2**32 - 1, m + 256}
        yield from (with_field(record, at, value) for value in others)
    yield records.encode(m, records.decode(record)[1])[:32] + bytes(24 * n + 1)
    yield records.encode(m, [(0, 0, 1)] * 2049)


def damaged_terms(rng, m, good):
    """(number, place, rows): copies of at least two good rows, refused with 2, 3 or 4 at a place, or with 5."""
    last = len(good) - 1
    for place in {0, last, rng.randint(0, last)}:
        ann, cre, c = good[place]
        changed = lambda *row: good[:place] + [row] + good[place + 1:]
        if m < 64:
            high = 1 << rng.randint(m, 63)
            yield 2, place, changed(ann | high, cre, c)
            yield 2, place, changed(ann, cre | high, c)
            yield 2, place, changed(ann | 1 << m, cre | high, 0)
        yield 4, place, changed(ann, cre, 0)
        yield 5, 0, changed(ann, cre, rng.choice((2**60, -2**60, 2**63 - 1, -2**63)))
        if place:
            yield 3, place, changed(*good[place - 1][:2], c)
            yield 3, place, changed(*good[place - 1][:2], 0)
            yield 3, place, good[:place - 1] + [good[place], good[place - 1]] + good[place + 1:]
            if m < 64 and good[place - 1][0]:
                yield 2, place, changed(0, 1 << m, rng.choice((0, c)))  # below the term before it as well


def two_faults(rng, m, good):
    """(number, place, rows): the earlier term counts, and at one term 2 before 3 before 4; 5 comes last."""
    i, j = sorted(rng.sample(range(len(good)), 2))
    zero_at = lambda some, k: some[:k] + [(*some[k][:2], 0)] + some[k + 1:]
    like_before = lambda some, k: some[:k] + [(*some[k - 1][:2], some[k][2])] + some[k + 1:]
    yield 4, i, zero_at(zero_at(good, i), j)
    yield 4, i, like_before(zero_at(good, i), j)
    if i:
        yield 3, i, zero_at(like_before(good, i), j)
    heavy = [(*row[:2], 2**62) for row in good]
    yield 4, i, zero_at(heavy, i)
    if m < 64:
        out = lambda some, k: some[:k] + [(some[k][0], some[k][1] | 1 << m, some[k][2])] + some[k + 1:]
        yield 4, i, out(zero_at(good, i), j)
        yield 2, i, zero_at(out(good, i), j)
        yield 2, i, like_before(out(good, i), j)
        yield 2, j, out(heavy, j)
