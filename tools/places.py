"""Counts the places that docs/DESIGN-PASS.md speaks of: `python3 tools/places.py`, at the top of a checkout.

With -v it names each place. Comments do not count, but for 1d, which goes by them.
"""
import glob
import re
import sys

NAMED = "-v" in sys.argv[1:]


def sources():
    for path in sorted(glob.glob("crates/*/src/*.rt")):
        yield path, open(path, encoding="utf-8").read().split("\n")


def by_line(pattern, comments=False):
    found = []
    for path, lines in sources():
        for n, line in enumerate(lines, 1):
            if line.lstrip().startswith("//") != comments or (comments and "Stays:" in line and "Stays" not in pattern):
                continue
            for _ in re.finditer(pattern, line):
                found.append(f"{path}:{n}: {line.strip()}")
    return found


def counted_loops():
    """`while` loops that step a variable by one."""
    found = []
    for path, lines in sources():
        for n, line in enumerate(lines):
            head = re.match(r"( *)while (.*) \{$", line)
            if not head:
                continue
            for inner in lines[n + 1:]:
                if inner == head[1] + "}":
                    break
                step = re.match(r" +(\w+) [+-]= 1;$", inner)
                if step and re.search(rf"\b{step[1]}\b", head[2]):
                    found.append(f"{path}:{n + 1}: {line.strip()}")
                    break
    return found


def functions():
    """Each function: where it stands, its name, its parameters, its clauses."""
    for path, lines in sources():
        text = "\n".join(lines)
        for head in re.finditer(r"^ *(?:pub )?(?:extern \"C\" )?fn (\w+)[^(\n]*\(", text, re.M):
            depth, at = 1, head.end()
            while depth:
                depth += {"(": 1, ")": -1}.get(text[at], 0)
                at += 1
            parameters = [p for p in re.split(r",(?![^\[(<]*[\])>])", text[head.end():at - 1]) if p.strip()]
            body = re.search(r"^ *\{$| \{$", text[at:], re.M)
            clauses = text[at:at + body.start()] if body else ""
            yield path, head[1], parameters, clauses


def long_lists():
    return [f"{path}: {name}: {len(parameters)}" for path, name, parameters, _ in functions()
            if len(parameters) >= 8]


def repeated_facts():
    """Facts that stand in the clauses of three or more functions of one crate, letter by letter."""
    seen = {}
    for path, name, _, clauses in functions():
        crate = path.split("/")[1]
        for clause in re.findall(r"requires(?: \w+)? \{ (.*?) \}", clauses, re.S):
            for fact in re.split(r" × ", clause):
                fact = fact.strip()
                if fact.startswith("(") and fact.endswith(")"):
                    fact = fact[1:-1]
                seen.setdefault((crate, fact), set()).add(name)
    return [f"{crate}: {fact}: {len(names)}" for (crate, fact), names in sorted(seen.items()) if len(names) >= 3]


def rebuilt():
    """Structs written again field by field: lines `x: w.x,`."""
    return by_line(r"\b(\w+): \w+\.\1,")


def declared(paths, pattern):
    """The lines of these files that begin a declaration of this form."""
    found = []
    for path in sorted(glob.glob(paths, recursive=True)):
        for n, line in enumerate(open(path, encoding="utf-8"), 1):
            if re.match(pattern, line):
                found.append(f"{path}:{n}: {line.strip()}")
    return found


def answers():
    return declared("crates/*/proofs/*/**/Answers.antt", r"pub \S+ : goal\.")


def laws():
    return declared("crates/*/proofs/*.antt", r"(?:pub |abbrev |unfoldable )*[^\s:(|=]+ : ")


def own_results():
    """Enums that are no error type and have a variant of refusal, of nothing or of an answer."""
    found = []
    for path, lines in sources():
        for n, line in enumerate(lines, 1):
            head = re.match(r"(?:pub )?enum (\w+) \{", line)
            if not head or head[1].endswith("Error"):
                continue
            body = "\n".join(lines[n:lines.index("}", n)])
            if re.search(r"^ +(NoRoom|Nothing|Refused\(\w+\)|Answer\(Next\)),$", body, re.M):
                found.append(f"{path}:{n}: {line}")
    return found


def twins():
    """Functions that differ from another in a type, a size, a constant or the crate that they stand in."""
    pattern = (r"fn (?:set|clear|is)_(?:touched|gained|blocked)\(|fn (?:load|store)[248]\(|fn move_(?:down|up)\(|"
               r"fn (?:read_full|digit)\b|fn spell\(room|fn (?:left|right)_of\(merges|"
               r"fn (?:look|symbol)\(symbols|fn (?:look|peek)\(")
    elsewhere = ("/vocab/", "/word/", "/inputs/")  # vocab::look, word::symbol; inputs has each once
    return [place for place in by_line(pattern) if not any(part in place for part in elsewhere)]


POINTS = [
    ("1a enums of the shape of Option or Result", own_results),
    ("1b a flag with a value beside it",
     lambda: by_line(r"\b(has|behind|ahead): bool\b|\bon: bool, \w+: u32|^ +on: bool,$")),
    ("1c a number for a kind",
     lambda: by_line(r"\bseeding: u64\b|-> Order\b")),
    ("1d a number that stands for none (by the comments)",
     lambda: by_line(r"\b0 (where|past|for one|for none|stands)|[Aa] count of 0|0 if it|or how many (there are|words)|"
                     r"empty where it names none|number of lines where", comments=True)),
    ("2 functions that have a twin", twins),
    ("3 `while` loops that count an index by one", counted_loops),
    ("3 all `while` loops", lambda: by_line(r"^ *while\b")),
    ("4 order, equality, conversion by hand",
     lambda: by_line(r"enum Order\b|fn (compare|equal|better|not_beaten|has_prefix|floor|from_number|is_known)\(")),
    ("4 structs written again field by field (lines)", rebuilt),
    ("5 functions of eight parameters or more", long_lists),
    ("5 facts that three or more functions of a crate require", repeated_facts),
    ("6 a place and a length that go with a run",
     lambda: by_line(r"\b(at|from|left_at|start): usize, (n|to|m|left_n|length): usize")),
    ("7 values that are functions", lambda: by_line(r"\bdyn \w|\bfn\(|\bFn(Mut|Once)?\(")),
    ("8 answers", answers),
    ("8 laws and definitions beside them", laws),
    ("places with a line that says why they stay",
     lambda: by_line(r"// Stays:", comments=True)),
]

for title, count in POINTS:
    places = count()
    print(f"{len(places):5}  {title}")
    if NAMED:
        for place in places:
            print(f"         {place}")
