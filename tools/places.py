#!/usr/bin/env python3
"""Finds the places of docs/DESIGN-PASS.md: what could stand in another form in src/, by the points of that page.

    tools/places.py [--list]      the counts, or with --list each place

It reads text and proves nothing: a place that it finds may stand with a reason, and the page says which do."""
import collections
import pathlib
import re
import sys

ROOT = pathlib.Path(__file__).resolve().parent.parent
WORD = re.compile(r"\b[a-zA-Z_]\w*\b|\b\d[\w.]*\b|b?'[^']*'|b?\"[^\"]*\"")
KEEP = set("fn pub let mut if else while for in return match self Self impl struct enum const as ref usize u8 u16 u32 u64 i16 i32 i64 bool"
           .split())
# What the library's traits and methods stand for: an order, an equality, a copy, a conversion, a print.
BY_HAND = re.compile(r"\bfn (same|below|above|larger|lesser|lower|lowest|max|min|eq|cmp|clone|kept|wide|zero|go|skip|of_\w+|to_\w+|from_\w+|"
                     r"print_byte|print_signed|two_\w+|low|high|signed_word|\w+_read|\w+_got|\w+_judged|not_\w+|refused|plan_head|input_of|"
                     r"number|length|words)\(")


def sources():
    for path in sorted(ROOT.glob("crates/*/src/**/*.rt")):
        yield path.relative_to(ROOT), path.read_text().split("\n")


def functions():
    """Each function: where it stands, its name, its lines without contract and comments."""
    for path, lines in sources():
        at = 0
        while at < len(lines):
            found = re.match(r"( *)(pub )?(extern \"C\" )?fn (\w+)", lines[at])
            if found:
                end = at
                while end < len(lines) and not re.match(found.group(1) + r"}$", lines[end]) and not lines[end].endswith("{}"):
                    end += 1
                yield path, at + 1, found.group(4), [l for l in lines[at:end + 1]]
                at = end
            at += 1


def code(lines):
    return [l for l in lines if not re.match(r"\s*(requires|ensures|//|ghost |#\[)", l)]


def lines_of(pattern):
    test = re.compile(pattern)
    return [(path, n + 1, l.strip()) for path, lines in sources() for n, l in enumerate(lines) if test.search(l)]


def enums():
    """1: enums with one case that holds what was got, and else refusals, or with a case for each number."""
    found = []
    for path, lines in sources():
        for n, l in enumerate(lines):
            name = re.match(r"(pub )?enum (\w+)", l)
            if not name:
                continue
            body = []
            for m in lines[n + 1:]:
                if m == "}":
                    break
                body.append(m.strip().rstrip(","))
            if any(re.match(r"(Got|Done|Passed|Words|Some|Ok)\b", b) for b in body):
                found.append((path, n + 1, name.group(2)))
    return found


def flags():
    return [p for p in lines_of(r"^ {4}(pub )?\w+: (bool|Judged),$") if in_struct(*p[:2])]


def in_struct(path, n):
    lines = (ROOT / path).read_text().split("\n")
    for l in reversed(lines[:n - 1]):
        if re.match(r"(pub )?(struct|enum) ", l):
            return "struct" in l
        if l == "}" or re.match(r"\s*(pub )?fn ", l):
            return False
    return False


def numbers():
    return lines_of(r"\b(kind|op|sort): u8\b")


def stays(word, text):
    """Words that two twins share: those of the language, but for types, and the methods that they call."""
    if text[word.start() - 1:word.start()] == "." and text[word.end():word.end() + 1] == "(":
        return True
    return word.group() in KEEP and not re.match(r"(u|i)\d|usize|bool", word.group())


def twins():
    """2: functions and types that are the same but for names, types and numbers: all of a group but its first."""
    groups = collections.defaultdict(list)
    for path, n, name, lines in functions():
        text = " ".join(" ".join(code(lines)).split())
        shape = WORD.sub(lambda w: w.group() if stays(w, text) else "_", text)
        if len(WORD.findall(text)) > 8:
            groups[shape].append((path, n, name))
    for path, lines in sources():
        for n, l in enumerate(lines):
            name = re.match(r"pub struct (\w+)", l)
            if name and l.endswith("{"):
                body = " ".join(m.strip() for m in lines[n + 1:n + 1 + lines[n + 1:].index("}")])
                groups["struct " + body].append((path, n + 1, name.group(1)))
    return [p for g in groups.values() for p in g[1:]]


def index_loops():
    """3: loops that count an index by hand."""
    found = []
    for path, lines in sources():
        for n, l in enumerate(lines):
            if re.match(r"\s*while ", l):
                depth = len(l) - len(l.lstrip())
                for m in lines[n + 1:]:
                    if m.strip() and len(m) - len(m.lstrip()) <= depth:
                        break
                    if re.match(r"\s*\w+ [+-]= 1;$", m):
                        found.append((path, n + 1, l.strip()))
                        break
    return found


def by_hand():
    """4: equality, order, copies, conversions and prints by hand."""
    return [(path, n + 1, l.strip()) for path, lines in sources() for n, l in enumerate(lines)
            if BY_HAND.search(l) and not l.startswith("ghost")]


def facts():
    """5: facts that stand in the contracts of three functions or more, and parameters that travel together through as many."""
    heads = collections.Counter()
    together = collections.Counter()
    for path, n, name, lines in functions():
        for l in set(re.findall(r"requires (?:\w+ )?\{ (?:\()?([A-Z]\w*) ", "\n".join(lines))):
            heads[l] += 1
        head = " ".join(lines).split("{")[0]
        names = tuple(re.findall(r"\b(\w+): (?:&|Sheet\b|Plan\b|usize|u8|\[)", head))
        for pair in [("b", "sheet"), ("plan", "p"), ("b", "p"), ("b", "at", "wires", "nodes", "bounds"), ("out", "to"), ("job", "s")]:
            if all(p in names or re.search(r"\b%s: " % p, head) for p in pair):
                together[" ".join(pair)] += 1
    return [("facts", c, h) for h, c in sorted(heads.items()) if c > 2] + [("together", c, p) for p, c in sorted(together.items()) if c > 2]


def buffers():
    """6: arrays with a length beside them."""
    found = []
    for path, lines in sources():
        for n, l in enumerate(lines):
            if re.match(r"(pub )?struct \w+.*{$", l):
                body = lines[n + 1:n + 1 + lines[n + 1:].index("}")]
                if any(re.search(r": \[", m) for m in body) and any(re.search(r"\b(count|size|len|length): usize", m) for m in body):
                    found.append((path, n + 1, l))
    return found


def steps():
    """7: a switch on which step to run."""
    return lines_of(r"match (op|sort|byte\(|self\.op)")


def answers():
    """8: goals that a proof file answers."""
    return [(f.relative_to(ROOT), n + 1, l) for f in sorted(ROOT.glob("crates/*/proofs/**/Answers.antt")) if "out" not in f.parts
            for n, l in enumerate(f.read_text().split("\n")) if re.match(r"pub \S+ : goal\.", l)]


POINTS = [("1 enums", enums), ("1 flags", flags), ("1 numbers", numbers), ("2 twins", twins), ("3 index loops", index_loops),
          ("4 by hand", by_hand), ("5 facts and parameters", facts), ("6 buffers", buffers), ("7 steps", steps), ("8 answers", answers)]

for point, find in POINTS:
    places = find()
    print(f"{point}: {len(places)}")
    if "--list" in sys.argv:
        for place in places:
            print("    " + ":".join(str(p) for p in place))
