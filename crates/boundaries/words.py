#!/usr/bin/env python3
"""Writes this folder's `stdin`, the words, and `stdout`, what Python's strict UTF-8 decoder says of them."""
import itertools
import os

# the first and the last character of each row of RFC 3629, section 4, the neighbours of the surrogates among them
BOUNDS = [
    0x00, 0x7F, 0x80, 0x7FF, 0x800, 0xFFF, 0x1000, 0xCFFF, 0xD000, 0xD7FF, 0xE000, 0xFFFF,
    0x10000, 0x3FFFF, 0x40000, 0xFFFFF, 0x100000, 0x10FFFF,
]

# forms that are no character
BROKEN = """
    eda080 edadbf edae80 edafbf edb080 edbe80 edbf80 edbfbf eda18cedbeb4
    c080 c0af c1bf e08080 e080af e09fbf f0808080 f08080af f08fbfbf f8808080af fc80808080af
    f4908080 f4bfbfbf f5808080 f5bfbfbf f6808080 f7bfbfbf f888808080 fbbfbfbfbf fc8480808080 fdbfbfbfbfbf fe ff feff fffe
    80 bf 8080 bfbf 808080 80808080 c280bf e0a080bf f0908080bf c2c280 e0c280 e0a0c280 f090c280 f09080c280
""".split()

AROUND = [b"", b"z", "\u00e9".encode(), "\u20ac".encode(), "\U0001f600".encode()]

# bytes at the bounds of the rows and of the ranges in them
PAIRS = bytes.fromhex("00417f80818f90919f a0a1bf c0c1c2c3dfe0e1eced eeeff0f1f3f4f5f7f8fdfeff")
TRIPLES = bytes.fromhex("418090 9fa0bf c2e0e1 edeff0")
QUADS = bytes.fromhex("41808f90bff0f4")


def words():
    chars = [chr(n).encode() for n in BOUNDS]
    forms = chars + [c[:k] for c in chars for k in range(1, len(c))] + [bytes.fromhex(b) for b in BROKEN]
    yield b""
    for form in forms:
        for before, after in itertools.product(AROUND, AROUND):
            yield before + form + after
    for n in range(256):
        yield bytes([n])
    for alphabet, n in (PAIRS, 2), (TRIPLES, 3), (QUADS, 4):
        for w in itertools.product(alphabet, repeat=n):
            yield bytes(w)


def line(w):
    try:
        kind, units = "c", [c.encode() for c in w.decode("utf-8", "strict")]
    except UnicodeDecodeError:
        kind, units = "b", [bytes([b]) for b in w]
    return f"{kind}{len(units)}:{''.join(str(len(u)) for u in units)}={len(w)}"


def main():
    here = os.path.dirname(os.path.abspath(__file__))
    ws = list(dict.fromkeys(words()))
    with open(os.path.join(here, "stdin"), "w", newline="\n") as f:
        f.writelines(w.hex() + "\n" for w in ws)
    with open(os.path.join(here, "stdout"), "w", newline="\n") as f:
        f.writelines(line(w) + "\n" for w in ws)
        f.write(f"{len(ws)}\n")


if __name__ == "__main__":
    main()
