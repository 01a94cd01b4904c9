"""The C face from Python: the shared object, guarded memory to lend, and comparisons that are counted."""
import ctypes
import os
import subprocess

ROOT = os.path.dirname(os.path.dirname(os.path.abspath(__file__)))
GUARD = 64


def load():
    """The library, and the sentence that says which code it is."""
    built = subprocess.run([os.path.join(ROOT, "tools", "shared_object.sh")], capture_output=True, text=True)
    if built.returncode:
        raise SystemExit(built.stdout + built.stderr)
    path, kind = built.stdout.strip().split("\n")[-1].split(": ", 1)
    return ctypes.CDLL(path), kind


class Lent:
    """Memory that a call is lent, with guard bytes on both sides. A shift moves the start off its alignment."""

    def __init__(self, rng, data, shift=0):
        self.data = data
        self.start, self.end = GUARD + shift, GUARD + shift + len(data)
        self.guards = rng.randbytes(self.start), rng.randbytes(GUARD)
        self.whole = ctypes.create_string_buffer(self.guards[0] + data + self.guards[1], self.end + GUARD)

    def __len__(self):
        return len(self.data)

    def __str__(self):
        return self.data.hex()

    def pointer(self):
        return ctypes.byref(self.whole, self.start)

    def bytes(self):
        return self.whole.raw[self.start:self.end]

    def settled(self):
        """What a call left, which is then what it is to hold until another changes it."""
        self.data = self.bytes()
        return self.data

    def as_before(self):
        return self.bytes() == self.data

    def guards_kept(self):
        return (self.whole.raw[:self.start], self.whole.raw[self.end:]) == self.guards


def word(rng, m, density):
    """A word on m modes, each mode with the given probability."""
    return sum((rng.random() < density) << i for i in range(m))


class Tally:
    """Comparisons by name. A name is one test: it passes if nothing under it differs. The first difference is printed."""

    def __init__(self):
        self.by_name = {}

    def same(self, name, got, expected, about):
        good, bad = self.by_name.get(name, (0, 0))
        if got != expected and not bad:
            print(f"{name}: differs at {about}: got {got}, expected {expected}")
        self.by_name[name] = (good + 1, bad) if got == expected else (good, bad + 1)

    def close(self):
        for name, (good, bad) in self.by_name.items():
            print(f"{name}: {good + bad} compared, {bad} differ")
        failed = sum(bad > 0 for _, bad in self.by_name.values())
        print(f"{len(self.by_name) - failed} passed, {failed} failed")
        raise SystemExit(1 if failed else 0)
