#!/usr/bin/env python3
# Run once, after the kit's port.py, at the top of the repository: brings the repository's own definitions and lemmas, and the
# fields of its records, to snake case (`half-turn` becomes `half_turn`). Names that the check makes (goals, steps) keep their hyphens, and
# so do the library's. Prints the names that fall together in a file, and with --anyway
# writes the files all the same (a definition may be named as the function that it is about, as `sum` always was).
import re
import sys
from pathlib import Path

ROOT = Path(__file__).resolve().parent.parent
WORD = r"[^\s(){}\[\],.;:\"`@|⟦⟧∷]+"
DECLARED = re.compile(r"^(\s*)(?:abbrev |unfoldable |pub |record |data )*(" + WORD + r")(?: *\([^)]*\)| *\{[^}]*\})* *:(?: |$)(.*)")
# An answer to a goal has the goal's name, and what an answer file is asked for has its function's.
MADE = re.compile(r"\b(tie|goal|given)\.|\bstatement\b")


def declared(path, text):
    inside = "proofs" in path.parts and path.parent.name != "proofs"
    for line in text.split("\n"):
        found = None if line.lstrip().startswith("--") else DECLARED.match(line)
        if found and "-" in found[2] and re.search("[a-zA-Zℤ]", found[2]) and not (inside and MADE.search(found[3])):
            yield found[2]


def snake(word):
    return word.replace("-", "_")


# Of a line the part that is no comment, and the comment.
def split(line, mark):
    at = 0 if line.lstrip().startswith(mark) else line.find(" " + mark + " ")
    return (line, "") if at < 0 else (line[:at], line[at:])


def turn(text, names):
    return re.sub(WORD, lambda found: snake(found[0]) if found[0] in names else found[0], text)


# In comments and pages what stands between backticks, the names of files left out.
def ticked(text, names):
    return re.sub(r"`[^`]*`", lambda found: found[0] if re.search(r"\.(sheet|plan|py|sh)\b", found[0]) else turn(found[0], names), text)


# A word behind a point is a step or a goal of the check's, but where it is a field of a record or a definition behind its module.
def turn_proof(text, names, own):
    def one(found):
        before, word = found[1], found[2]
        if word not in names or before == "." and word not in own:
            return found[0]
        return before + snake(word)

    return re.sub(r"(\.?)(" + WORD + ")", one, text)


def main():
    proofs = {path: path.read_text() for path in sorted(ROOT.glob("crates/*/**/*.antt"))}
    code = {path: path.read_text() for path in sorted(ROOT.glob("crates/*/src/**/*.rt"))}
    docs = {path: path.read_text() for path in [*sorted(ROOT.glob("docs/*.md")), *sorted(ROOT.glob("*.md")), *sorted(ROOT.glob("*/README.md"))]}
    outer = {name for path, text in proofs.items() if "specs" in path.parts or path.parent.name == "proofs" for name in declared(path, text)}
    after = {}
    for path, text in proofs.items():
        names = outer | set(declared(path, text))
        lines = []
        for line in text.split("\n"):
            body, note = split(line, "--")
            lines.append(turn_proof(body, names, outer) + ticked(note, names))
        after[path] = "\n".join(lines)
    for path, text in code.items():
        lines, ghost = [], False
        for line in text.split("\n"):
            body, note = split(line, "//")
            ghost = ghost or bool(re.match(r"\s*(ghost use|ghost |requires|ensures)\b", body))
            lines.append((turn(body, outer) if ghost else body) + ticked(note, outer))
            ghost = ghost and not re.search(r"[;}]\s*$", body)
        after[path] = "\n".join(lines)
    for path, text in docs.items():
        after[path] = ticked(text, outer)

    clash = False
    for path, text in {**proofs, **code}.items():
        seen = {}
        for old in set(re.findall(WORD, "\n".join(split(line, "--" if path.suffix == ".antt" else "//")[0] for line in text.split("\n")))):
            if "-" in old or "_" in old:
                seen.setdefault(snake(old), set()).add(old)
        for words in seen.values():
            if len(words) > 1 and words & outer:
                clash = True
                print(f"falls together: {path.relative_to(ROOT)}: {' '.join(sorted(words))}")
    if clash and "--anyway" not in sys.argv:
        return 1
    for path, text in after.items():
        if path.read_text() != text:
            path.write_text(text)
    print(f"{len(outer)} names")
    return 0


sys.exit(main())
