#!/usr/bin/env python3
"""Runs the demonstration program on many texts: python3 tests/demo.py crates/demo/out/demo

Document 01's section on the program and the sections it rests on, done plainly on Python lists: every
count is taken anew before each merge. Nothing here is taken from the library. Of each text in `CASES`
the answer is also worked out by hand and stands beside it, so that the model is tried too; the random
texts have the model's answer alone. With `--write FOLDER` the texts and answers are written as files.
"""
import os
import random
import re
import subprocess
import sys
import time

SIZE, MINIMUM, SUFFIX = 64, 2, b"</w>"
WORK, PIECE_BYTES = 57344, 2048
LINE = re.compile(rb"([^ \n]+) ([0-9]{1,18})\n")
NONE = b"#version: 0.2\n"


def units_of(word):
    """"a well-formed UTF-8 word is cut into its characters; any other word is cut into bytes as a whole"."""
    try:
        return [c.encode() for c in word.decode("utf-8", "strict")]
    except UnicodeDecodeError:
        return [bytes([b]) for b in word]


def spelled(units):
    """"suffix after the last"."""
    return units[:-1] + [units[-1] + SUFFIX]


def rewrite(word, a, b, x):
    """"left to right without overlap"."""
    new = []
    for s in word:
        # what was rewritten is x, which is neither a nor b, so that no symbol is taken twice
        if new and (new[-1], s) == (a, b):
            new[-1] = x
        else:
            new.append(s)
    return new


def merges_of(pieces, words):
    """The merges, each with the piece that it makes put behind `pieces`."""
    merges = []
    while len(pieces) < SIZE:
        counts = {}
        for frequency, word in words:
            for pair in zip(word, word[1:]):
                counts[pair] = counts.get(pair, 0) + frequency
        if not counts:
            break
        pair = min(counts, key=lambda p: (-counts[p], p))
        if counts[pair] < MINIMUM:
            break
        merges.append(pair)
        words = [(f, rewrite(w, *pair, len(pieces))) for f, w in words]
        pieces.append(pieces[pair[0]] + pieces[pair[1]])
    return merges


def trained(table):
    """The codes of a table of words and frequencies, or its refusal, in the order of document 01."""
    def refused(n):
        return b"refused: %d\n" % n
    words = [word for word, _ in table]
    units = [units_of(word) for word in words]
    if not table:
        return refused(3)
    if any(f == 0 for _, f in table):
        return refused(4)
    if any(a >= b for a, b in zip(words, words[1:])):
        return refused(5)
    if sum(f * len(us) for (_, f), us in zip(table, units)) >= 2**53:
        return refused(6)
    if 512 * sum(map(len, units)) + 32768 > WORK:
        return refused(7)
    pieces = sorted({u for us in units for u in us})
    for us in units:
        pieces += [u for u in spelled(us) if u not in pieces]
    if len(pieces) > SIZE or sum(map(len, pieces)) > PIECE_BYTES:
        return refused(8)
    numbers = [[pieces.index(u) for u in spelled(us)] for us in units]
    merges = merges_of(pieces, [(f, ns) for (_, f), ns in zip(table, numbers) if len(ns) > 1])
    if sum(map(len, pieces)) > PIECE_BYTES:
        return refused(10)
    return NONE + b"".join(pieces[a] + b" " + pieces[b] + b"\n" for a, b in merges)


def answer(text):
    """What the program must write."""
    lines = re.findall(rb"[^\n]*\n|[^\n]+", text)
    if len(text) > 1024 or len(lines) > 64:
        return b"too long\n"
    table = []
    for n, line in enumerate(lines, 1):
        fields = LINE.fullmatch(line)
        if not fields:
            return b"bad line %d\n" % n
        table.append((fields[1], int(fields[2])))
    return trained(table)


def letters(n):
    """n lines of one letter each, in order."""
    return b"".join(b"%c 3\n" % (65 + i) for i in range(n))


def falling(n, first):
    """n characters, each below the one before it, so that each merge of their word is made upon the last one."""
    return [chr(first - i).encode() for i in range(n)]


def chain(chars, most):
    """The codes of such a word: each character in turn is put before what is joined already, from behind."""
    rising = chars[::-1]
    lines = [rising[k] + b" " + b"".join(rising[:k][::-1]) + SUFFIX + b"\n" for k in range(1, len(chars))]
    return NONE + b"".join(lines[:most])


def refusal(n):
    return b"refused: %d\n" % n


BAD = b"bad line 1\n"
LONG = b"too long\n"

FACES = falling(29, 0x1F640)
ACCENT, EURO, ABOVE = "\u00e9".encode(), "\u20ac".encode(), "\U0001f700".encode()

# What is tried, the text, and the answer by hand.
CASES = [
    ("document 01", b"aab 3\nab 2\ncab 4\n", NONE + b"a b</w>\nc ab</w>\na ab</w>\n"),
    ("empty", b"", refusal(3)),
    ("1,024 bytes", b"a" * 1021 + b" 2\n", refusal(7)),
    ("1,025 bytes", b"a" * 1022 + b" 2\n", LONG),
    ("100,000 bytes", b"a 2\n" * 25000, LONG),
    ("1,025 bytes, malformed", b" " * 1025, LONG),
    ("1,024 bytes, malformed", b" " * 1024, BAD),
    ("64 lines", b"".join(b"%c 1\n" % c for c in range(60, 124)), refusal(7)),
    ("65 lines", b"".join(b"%c 1\n" % c for c in range(60, 125)), LONG),
    ("65 empty lines", b"\n" * 65, LONG),
    ("64 empty lines", b"\n" * 64, BAD),
    ("64 lines, the last without LF", b"a 1\n" * 63 + b"a 1", b"bad line 64\n"),
    ("65 lines, the last without LF", b"a 1\n" * 64 + b"a", LONG),
    ("no last LF", b"ab 2", BAD),
    ("no last LF on line 2", b"ab 2\ncd 3", b"bad line 2\n"),
    ("the first of two malformed lines", b"ab 2\ncd\nef\n", b"bad line 2\n"),
    ("malformed before zero", b"ab 0\ncd\n", b"bad line 2\n"),
    ("two spaces", b"ab  2\n", BAD),
    ("a space in front", b" ab 2\n", BAD),
    ("a space behind", b"ab 2 \n", BAD),
    ("no space", b"ab\n", BAD),
    ("no word", b" 2\n", BAD),
    ("no digits", b"ab \n", BAD),
    ("no digits but a letter", b"ab c\n", BAD),
    ("a letter behind the digits", b"ab 2c\n", BAD),
    ("a byte below the digits", b"ab 2/\n", BAD),
    ("a byte above the digits", b"ab 2:\n", BAD),
    ("a sign", b"ab +2\n", BAD),
    ("an empty line behind", b"ab 2\n\n", b"bad line 2\n"),
    ("CR LF", b"ab 2\r\n", BAD),
    ("a tab for the space", b"ab\t2\n", BAD),
    ("19 digits", b"ab 0000000000000000003\n", BAD),
    ("18 digits", b"ab 000000000000000003\n", NONE + b"a b</w>\n"),
    ("18 nines", b"a 999999999999999999\n", refusal(6)),
    ("one unit, 2^53 - 1", b"a 9007199254740991\n", NONE),
    ("one unit, 2^53", b"a 9007199254740992\n", refusal(6)),
    ("two units, 2^52 - 1", b"ab 4503599627370495\n", NONE + b"a b</w>\n"),
    ("two units, 2^52", b"ab 4503599627370496\n", refusal(6)),
    ("zero", b"ab 0\n", refusal(4)),
    ("zero in two digits", b"aa 2\nab 00\n", refusal(4)),
    ("zero before the order", b"b 1\na 0\n", refusal(4)),
    ("out of order", b"b 1\na 1\n", refusal(5)),
    ("the same word twice", b"a 1\na 1\n", refusal(5)),
    ("a longer word before its start", b"ab 1\na 1\n", refusal(5)),
    ("bytes above 127 stand last", b"\x7f 1\n\x80 1\n\xff 1\n", NONE),
    ("the order before the weight", b"b 999999999999999999\na 1\n", refusal(5)),
    ("the weight before the room", b"a" * 49 + b" 999999999999999999\n", refusal(6)),
    ("below the minimum", b"ab 1\nac 1\n", NONE),
    ("at the minimum", b"ab 2\n", NONE + b"a b</w>\n"),
    ("at the minimum in two words", b"cab 1\ndab 1\n", NONE + b"a b</w>\n"),
    ("one unit", b"a 7\n", NONE),
    # n is 0, e with an accent 1, and so is it with the suffix 2
    ("a word that is not ASCII", "n\u00e9 2\n".encode(), NONE + "n \u00e9</w>\n".encode()),
    ("four bytes", "\U0001f600\U0001f601 2\n".encode(), NONE + "\U0001f600 \U0001f601</w>\n".encode()),
    ("an ill-formed word", b"\xffa 2\n", NONE + b"\xff a</w>\n"),
    # A9 is 0, C3 1, FF 2, and FF with the suffix 3: (0,3) is lower than (1,0)
    ("ill-formed as a whole", b"\xc3\xa9\xff 2\n", NONE + b"\xa9 \xff</w>\n\xc3 \xa9\xff</w>\n"),
    # 80 is 0, A0 1, ED 2, and 80 with the suffix 3: (1,3) is lower than (2,1)
    ("a surrogate", b"\xed\xa0\x80 2\n", NONE + b"\xa0 \x80</w>\n\xed \xa0\x80</w>\n"),
    # the tab is 0, a 1, b 2, and b with the suffix 3: (0,3) is lower than (1,0)
    ("a tab in a word", b"a\tb 2\n", NONE + b"\t b</w>\na \tb</w>\n"),
    ("CR in a word", b"a\rb 2\n", NONE + b"\r b</w>\na \rb</w>\n"),
    ("NUL in a word", b"\x00a 2\n", NONE + b"\x00 a</w>\n"),
    # / is 0, < 1, > 2, a 3, w 4, and > with the suffix 5
    ("the suffix in a word", b"a</w> 2\n", NONE + b"/ w\n< /w\na </w\na</w ></w>\n"),
    # a is 0 and with the suffix 1. Then 2 is a a, 3 twice that, 4 and 5 too, and 5 5 4 3 2 0 1 is left, each pair once:
    # (0,1), (2,6), (3,7), (4,8), (5,5), (10,9)
    ("48 units", b"a" * 48 + b" 2\n", NONE + b"".join(b"%s %s\n" % (b"a" * m, b"a" * n + s) for m, n, s in [
        (1, 1, b""), (2, 2, b""), (4, 4, b""), (8, 8, b""), (1, 1, SUFFIX), (2, 2, SUFFIX), (4, 4, SUFFIX), (8, 8, SUFFIX),
        (16, 16, b""), (32, 16, SUFFIX)])),
    ("49 units", b"a" * 49 + b" 2\n", refusal(7)),
    # as before, but the four first pairs alone occur twice
    ("48 units of four bytes", "\U0001f600".encode() * 48 + b" 1\n", NONE + b"".join(
        b"%s %s\n" % (2 * ("\U0001f600".encode() * n,)) for n in [1, 2, 4, 8])),
    ("49 units in two words", b"a" * 24 + b" 2\n" + b"b" * 25 + b" 2\n", refusal(7)),
    ("64 seeds", letters(32), NONE),
    ("66 seeds", letters(33), refusal(8)),
    # 41 seeds leave 23 of the 39 merges
    ("the size ends the merges", b"".join(falling(40, 122)) + b" 2\n", chain(falling(40, 122), 23)),
    # the seeds have 29 * 4 + 2 + 6 bytes and those of the euro 3 + 7, and merge k of 29 makes 4 * k + 6: 2,048
    ("2,048 piece bytes", EURO + b" 1\n" + b"".join(FACES) + ACCENT + b" 2\n", chain(FACES + [ACCENT], 29)),
    # and with 4 + 8 for 3 + 7: 2,050
    ("2,050 piece bytes", b"".join(FACES) + ACCENT + b" 2\n" + ABOVE + b" 1\n", refusal(10)),
]


def random_text(r):
    """A text that is mostly well-formed, with few units and often of a few letters."""
    letter = r.choice(["ab", "abc", "abcdefgh", "a\u00e9\u20ac\U0001f600", "".join(map(chr, range(0x1F600, 0x1F610)))])
    most = r.choice([4, 8, 16, 40])
    words = {"".join(r.choice(letter) for _ in range(r.randint(1, most))).encode() for _ in range(r.randint(1, 12))}
    if r.randrange(6) == 0:
        words = {w[:-1] or w for w in words}
    words, units = sorted(words), 0
    if r.randrange(12) == 0:
        r.shuffle(words)
    text = b""
    for word in words:
        units += len(units_of(word))
        if units > 48 and r.randrange(12):
            break
        text += word + b" %d\n" % r.choice([1, 2, 3, r.randint(1, 9), r.randint(1, 10**6), r.randint(1, 10**14)])
    if r.randrange(10) == 0 and text:
        i = r.randrange(len(text))
        text = text[:i] + bytes([r.choice(b" \n\t0a\xff")]) + text[i + 1:]
    return text


def random_word(r):
    """A word of 48 units."""
    few = r.randint(2, 7)
    return "".join(chr(0x1F600 + r.randrange(few)) for _ in range(48)).encode() + b" 2\n"


def all_cases():
    for name, text, expected in CASES:
        assert answer(text) == expected, (name, answer(text), expected)
        yield name, text, expected
    r = random.Random(64)
    for i in range(400):
        text = random_text(r)
        yield f"random text {i}", text, answer(text)
    for i in range(40):
        text = random_word(r)
        yield f"random word {i}", text, answer(text)


def write_files(folder):
    os.makedirs(folder, exist_ok=True)
    for i, (_, text, expected) in enumerate(all_cases()):
        for kind, run in (("in", text), ("out", expected)):
            with open(os.path.join(folder, f"{i}.{kind}"), "wb") as f:
                f.write(run)


def run(program, text):
    """Status and output, with the text lent as a whole."""
    done = subprocess.run(program, input=text, stdout=subprocess.PIPE)
    return done.returncode, done.stdout


def run_slowly(program, text):
    """The same, with the text written in parts, so that no read gets all of it."""
    with subprocess.Popen(program, stdin=subprocess.PIPE, stdout=subprocess.PIPE, bufsize=0) as p:
        for i in range(0, len(text), 5):
            p.stdin.write(text[i:i + 5])
            time.sleep(0.02)
        p.stdin.close()
        out = p.stdout.read()
    return p.returncode, out


def main():
    if sys.argv[1] == "--write":
        return write_files(sys.argv[2])
    wrong = tried = 0
    slow = [("in parts", text, expected, run_slowly) for _, text, expected in CASES[:1]]
    for name, text, expected, how in slow + [(*case, run) for case in all_cases()]:
        status, out = how(sys.argv[1:], text)
        tried += 1
        if status != 0 or out != expected:
            wrong += 1
            print(f"{name}: {text!r}\n  expected {expected!r}\n  written  {out!r}, status {status}")
    print(f"demo: {tried} texts, {wrong} wrong")
    return 1 if wrong else 0


if __name__ == "__main__":
    sys.exit(main())
