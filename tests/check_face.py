#!/usr/bin/env python3
"""The rule worked out ladder by ladder, against itself; then one term on one word through the C face, against the rule."""
import face
import rule
from calls import run

SEED = 20261115
TOLD = {None: "applied", rule.MISSING: "Zero, a mode is missing", rule.OCCUPIED: "Zero, a mode is occupied"}


def terms_and_kets(rng):
    """Every term and ket on 4 modes; then terms on 1 to 64 modes, most of them on a ket that they act on."""
    for code in range(4096):
        yield code & 15, code >> 4 & 15, code >> 8
    for _ in range(10000):
        m = rng.randint(1, 64)
        cre, ann, ket = (face.word(rng, m, rng.choice((0.1, 0.3, 0.6))) for _ in range(3))
        if rng.random() < 0.75:
            ket = (ket | ann) & ~(cre & ~ann)
        yield cre, ann, ket


def blocked_at(rng, missing, occupied):
    """A term and a ket on 64 modes, of whose modes just these are missing and just those are still occupied."""
    cre, ann, ket = (face.word(rng, 64, rng.choice((0.1, 0.3, 0.6))) for _ in range(3))
    cre, ann = cre | occupied, (ann | missing) & ~occupied
    return cre, ann, (ket | ann) & ~missing & ~(cre & ~ann) | occupied


def blocking(rng):
    """Where a term is blocked, in words, and the modes that block it: one, or one and some above it."""
    for lowest, place in ((0, "mode 0"), (63, "mode 63"), (rng.randrange(1, 63), "a mode between")):
        yield place, 1 << lowest
        if lowest < 63:
            above = face.word(rng, 63 - lowest, rng.choice((0.1, 0.5))) | 1 << rng.randrange(63 - lowest)
            yield place + " and others above it", 1 << lowest | above << lowest + 1


def check_apply(calls):
    for words in terms_and_kets(calls.rng):
        reason, _ = rule.blocked(*words) or (None, None)
        calls.judge("fermion_apply, " + TOLD[reason], "apply", *words)


def check_blocked(calls):
    for _ in range(1000):
        for place, modes in blocking(calls.rng):
            others = 3 << calls.rng.randrange(62) | face.word(calls.rng, 64, 0.2)
            for missing, occupied, reason, besides in ((modes, 0, rule.MISSING, ""), (0, modes, rule.OCCUPIED, ""),
                                                       (modes, others & ~modes, rule.MISSING, ", while others are occupied")):
                words = blocked_at(calls.rng, missing, occupied)
                expected = calls.judge(f"fermion_apply, {TOLD[reason]}: {place}{besides}", "apply", *words)
                made_for = [0] * 6 + [reason, rule.bits(modes)[0]]
                assert expected.numbers == made_for, "an input that is not what it was made for"


rule.check()
run(SEED, (check_apply, check_blocked))
