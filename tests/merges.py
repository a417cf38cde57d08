#!/usr/bin/env python3
"""Writes what the program `merges` must write: python3 tests/merges.py > crates/merges/stdout

Document 01's text on merging symbols, done plainly on Python lists: the occurrences are found first,
then the word is rewritten, then the reports are read off the old and the rewritten word. Nothing here
is taken from the library. The walk over the cases and the checksum are those of the program.
"""
from itertools import product
from struct import pack

# the three symbols of the words, and a fourth that occurs in none of them
SYMBOLS = [97, 98, 0, 0xFF020100]
PLACES = 10


def merge(word, a, b, x):
    """The rewritten word, the number of rewrites, the reports."""
    found, free = [], 0
    for i in range(len(word) - 1):  # "left to right without overlap"
        if i >= free and word[i] == a and word[i + 1] == b:
            found.append(i)
            free = i + 2
    new = [x if i in found else s for i, s in enumerate(word) if i - 1 not in found]
    reports = []
    for k, i in enumerate(found):  # "for each rewrite in turn"
        at = i - k  # each rewrite before this one has cost one symbol
        assert new[at] == x
        if at > 0:  # "if a symbol stands before it in the rewritten word"
            reports += [(new[at - 1], a, -1), (new[at - 1], x, 1)]
        if i + 2 < len(word):  # "if a symbol follows"
            reports += [(b, word[i + 2], -1), (x, word[i + 2], 1)]
    if x not in word and x != a and x != b:  # "the signed reports .. add up to its change in count"
        def count(w, pair):
            return sum(1 for q in zip(w, w[1:]) if q == pair)
        for pair in product(SYMBOLS, repeat=2):
            if pair != (a, b):
                assert sum(d for l, r, d in reports if (l, r) == pair) == count(new, pair) - count(word, pair)
    return new, len(found), reports


def over(run, new):
    return new + run[len(new):]


def outcome(symbols, a, b, x, changes, answer):
    """The number returned, and the three runs as they are left."""
    if len(answer) < 64:
        return 1, symbols, changes, answer

    def told(numbers):
        return over(bytes(len(answer)), b"".join(pack("<Q", n) for n in numbers))
    if len(symbols) % 4 or len(changes) % 16:
        return 1, symbols, changes, told([])
    word = [int.from_bytes(symbols[i:i + 4], "little") for i in range(0, len(symbols), 4)]
    new, rewrites, reports = merge(word, a, b, x)
    if len(reports) > len(changes) // 16:
        return 12, symbols, changes, told([])
    symbols = over(symbols, b"".join(pack("<I", s) for s in new))
    changes = over(changes, b"".join(pack("<IIq", *q) for q in reports))
    return 0, symbols, changes, told([rewrites, len(new), len(reports)])


def whole(symbols, i, a, b, x, changes, j, answer, m):
    """The number returned and the three runs, of which the first i, j and m bytes are lent."""
    r, s, c, n = outcome(symbols[:i], a, b, x, changes[:j], answer[:m])
    assert (len(s), len(c), len(n)) == (i, j, m)
    return bytes([r]) + over(symbols, s) + over(changes, c) + over(answer, n)


def show(name, word, a, b, x, places):
    symbols = b"".join(pack("<I", s) for s in word)
    out = whole(over(b"\xa5" * 24, symbols), len(symbols), a, b, x, b"\xa5" * 144, 16 * places, b"\x5a" * 72, 64)
    print(name, out[0])
    print("symbols", out[1:25].hex())
    print("changes", out[25:169].hex())
    print("answer", out[169:].hex())


def fold(h, run):
    for b in run:
        h = (h + b) * 16777619 % 4294967296
    return h


def kind(a, b, x):
    """0: all equal; 1: a pair of equal symbols; 2, 3: x is the left or the right one; 4: all differ."""
    if a == b:
        return 0 if x == a else 1
    return 2 if x == a else 3 if x == b else 4


def main():
    show("example 11:", [97, 97, 97], 97, 97, 256, 2)
    show("example 12:", [97, 98, 97, 98], 97, 98, 256, 4)
    show("example 12, one place short:", [97, 98, 97, 98], 97, 98, 256, 3)
    h, cases = 2166136261, 0
    symbols = b"".join(pack("<I", s) for s in [97, 98] * 3)
    for i in range(25):
        for m in (63, 64, 72):
            for j in range(145):
                h = fold(h, whole(symbols, i, 97, 98, 256, b"\xa5" * 144, j, b"\x5a" * 72, m))
                cases += 1
    print(f"runs of any length: {cases} {h:08x}")
    print("by length and kind:")
    for n in range(7):
        words = [w[::-1] for w in product(range(3), repeat=n)]  # the first symbol changes fastest
        for k in range(5):
            h, cases = 2166136261, 0
            for w in words:
                symbols = b"".join(pack("<I", SYMBOLS[d]) for d in w)
                for t in product(range(4), repeat=3):
                    if kind(*t) != k:
                        continue
                    for places in range(PLACES):
                        run = over(b"\xa5" * 24, symbols)
                        x = [SYMBOLS[d] for d in t]
                        h = fold(h, whole(run, 4 * n, *x, b"\xa5" * 144, 16 * places, b"\x5a" * 72, 72))
                        cases += 1
            print(f"{n} {k} {cases} {h:08x}")


main()
