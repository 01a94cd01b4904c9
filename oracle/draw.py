"""Seeded draws that come out the same with every version of Python (SplitMix64)."""

MASK = 2**64 - 1


class Draw:
    def __init__(self, seed):
        self.state = seed & MASK

    def next(self):
        self.state = (self.state + 0x9E3779B97F4A7C15) & MASK
        z = self.state
        z = (z ^ z >> 30) * 0xBF58476D1CE4E5B9 & MASK
        z = (z ^ z >> 27) * 0x94D049BB133111EB & MASK
        return z ^ z >> 31

    def below(self, n):
        return self.next() % n

    def pick(self, items):
        return items[self.below(len(items))]

    def word(self, m, density):
        """A word on m modes, each mode set with probability density / 16."""
        return sum((self.next() >> 60 < density) << i for i in range(m))

    def among(self, modes, k):
        """A word of k different modes out of a list."""
        left = list(modes)
        return sum(1 << left.pop(self.below(len(left))) for _ in range(k))

    def shuffled(self, items):
        left = list(items)
        return [left.pop(self.below(len(left))) for _ in range(len(left))]
