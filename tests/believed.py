#!/usr/bin/env python3
# Works out what a reader must believe: the definitions in crates/*/specs that the demands and the contracts of the public calls name,
# and those that these name in turn. Prints the tables of docs/THEOREMS.md, "What to believe, in reading order"; with --check FILE it
# compares them with those that stand there. It fails, too, where a file holds definitions of both sorts or does not say which it
# holds, where a file stands before one that it uses, and where a public call has no contract or asks something of its caller.
import re
import sys
from difflib import unified_diff
from pathlib import Path

ROOT = Path(__file__).resolve().parent.parent
CRATES = ROOT / "crates"
SECTION = "## What to believe, in reading order\n"
MARK = "-- Only passes between functions: "

USE = re.compile(r"(?:ghost )?use Rattle\.(?!std\.|core\.)(\w+)\.specs\.([^\s{;]+?)(?:\.\{(.*)\}| as (\S+));?")
DEFINED = re.compile(r"(?:abbrev |unfoldable )?pub (?:record |data )?([^\s:]+)")
FUNCTION = re.compile(r'^pub (extern "C" )?fn (\w+)(.*?)\{$', re.M | re.S)

faults = []

# ---- names: of a definition its crate, its file and its own; of a struct or an enum its crate, `declared` and its module, its own


def is_type(name):
    return name[1].startswith("declared")


# what the words of a file mean by its `use` lines. The cases of an enum mean the enum; an alias of a file has no name of its own
def meanings(lines):
    meant = {}
    for crate, file, names, alias in (found.groups() for found in map(USE.fullmatch, lines) if found):
        own = None
        if file.startswith("declared."):
            file, _, own = file.removesuffix(".TheVariants").rpartition(".")
        if alias:
            meant[alias] = crate, file, own
        for said in names.split(", ") if names else []:
            name, _, other = said.partition(" as ")
            meant[(other or name).strip("◌")] = crate, file, own or name
    return meant


# what a text names. The fields of records, behind a point or before their `=` or `:`, are left out
def named(text, meant):
    text = re.sub(r'--.*|"[^"]*"', "", text)
    text = re.sub(r"([{;])\s*\S+ =|pub \S+ :", r"\1", text)
    for word in re.findall(r"[^\s(){};,]+", text):
        head, _, rest = word.rstrip(".").partition(".")
        if head in meant:
            crate, file, name = meant[head]
            yield crate, file, name or rest


# ---- files of definitions


class File:
    def __init__(self, path):
        self.path, self.crate, self.name = path.relative_to(CRATES), path.parts[-3], path.stem
        lines = path.read_text().splitlines()
        self.marked = lines[0].startswith(MARK)
        self.meant = meanings(lines)
        self.uses = sorted({name[:2] for name in self.meant.values() if not is_type(name)})
        head = lines[: next(i for i, line in enumerate(lines) if not line.startswith("--"))]
        self.about = re.split(r'(?:(?<=\.)|(?<=\.")) (?=["A-Z0-9])', " ".join(line[3:] for line in head))[0]
        code = [line for line in lines if line and not line.startswith("use ") and not line.lstrip().startswith("--")]
        self.count, self.bodies = len(code), {}
        for line in code:
            if found := DEFINED.match(line):
                body = self.bodies[self.crate, self.name, found[1]] = []
            if not line.startswith("infix"):
                body.append(line)
        self.meant |= {name[2].strip("◌"): name for name in self.bodies}

    def named_by(self, name):
        return named("\n".join(self.bodies[name]), self.meant)


# the files in reading order, that of crates.txt and in a crate that of its Lib.antt, which names the marked ones last, under a mark
def files():
    order = re.findall(r"^(\w+)(?: staticlib)?:", (ROOT / "crates.txt").read_text(), re.M)
    for lib in (CRATES / crate / "specs" / "Lib.antt" for crate in order):
        marked = False
        for line in lib.read_text().splitlines() if lib.exists() else []:
            marked = marked or line.startswith(MARK)
            if line.startswith("pub mod "):
                file = File(lib.with_name(line.removeprefix("pub mod ") + ".antt"))
                if file.marked != marked:
                    faults.append("%s names %s on the wrong side of the mark" % (lib.relative_to(CRATES), file.name))
                yield file


# ---- the public calls


# those that the first table of docs/CONTRACTS.md names, by crate, module and name; an exported function by its name alone
def public_calls():
    table = re.search(r"(^\|.*\n)+", (ROOT / "docs" / "CONTRACTS.md").read_text(), re.M)[0]
    return [call for row in table.splitlines() for call in re.findall(r"`([\w:]+)`", row.split("|")[1])]


def named_by_calls():
    heads = {}
    for path in CRATES.glob("*/src/*.rt"):
        text = path.read_text()
        module = [path.parts[-3]] + [path.stem] * (path.stem != "lib")
        for exported, name, head in FUNCTION.findall(text):
            heads[name if exported else "::".join(module + [name])] = head, meanings(text.splitlines())
    calls = public_calls()
    faults.extend("%s is exported and no public call" % name for name in heads if "::" not in name and name not in calls)
    for call in calls:
        head, meant = heads.get(call, ("", {}))
        if "ensures" not in head or "requires" in head:
            faults.append("%s is no function with an `ensures` and without a `requires`" % call)
        yield from named(head.partition("ensures")[2], meant)


# ---- what is reached


def reached(known, roots):
    seen, left = set(), list(roots)
    while left:
        name = left.pop()
        if name not in seen:
            seen.add(name)
            left += [] if is_type(name) else known[name[:2]].named_by(name)
    return seen


# the believed files: each holds nothing else, has no mark, and stands behind those that it uses
def believed(known, seen):
    kept = {}
    for place, file in known.items():
        rest = [name[2] for name in file.bodies if name not in seen]
        if len(rest) == len(file.bodies):
            if not file.marked:
                faults.append("%s is not believed: its first line must begin with `%s`" % (file.path, MARK))
            continue
        if rest:
            faults.append("%s holds both sorts, split it: nothing that is believed names %s" % (file.path, ", ".join(rest)))
        if file.marked:
            faults.append("%s is believed: its first line must not begin with `%s`" % (file.path, MARK))
        faults.extend("%s uses %s/%s, which is no believed file before it" % (file.path, *used) for used in file.uses if used not in kept)
        kept[place] = file
    return list(kept.values())


# the structs and enums that are reached, by the file that they stand in
def types(known, seen):
    order = [crate for crate, _ in known]
    for crate, module in sorted({name[:2] for name in seen if is_type(name)}, key=lambda place: (order.index(place[0]), place)):
        path = CRATES / crate / "src" / ((module.partition(".")[2] or "lib").replace(".", "/") + ".rt")
        standing = re.findall(r"^pub (?:struct|enum) (\w+)", path.read_text(), re.M)
        yield path.relative_to(CRATES), sorted((name[2] for name in seen if name[:2] == (crate, module)), key=standing.index)


def tables(kept, types):
    rows = ["| file | lines | what it says |", "|---|---|---|"]
    rows += ["| `%s` | %d | %s |" % (file.path, file.count, file.about) for file in kept]
    rows += ["| %d files | %d | |" % (len(kept), sum(file.count for file in kept)), ""]
    rows += ["| struct or enum | file |", "|---|---|"]
    return rows + ["| %s | `%s` |" % (", ".join("`%s`" % name for name in names), path) for path, names in types]


# the tables of the section with which the document opens
def standing_in(document):
    sections = re.split(r"^(?=## )", Path(document).read_text(), flags=re.M)
    if not sections[1].startswith(SECTION):
        faults.append("%s does not open with the section %s" % (document, SECTION.strip("# \n")))
    return [line for line in sections[1].splitlines() if line.startswith("|")]


def main():
    known = {(file.crate, file.name): file for file in files()}
    promised = [name for file in known.values() if file.crate == "demands" for name in file.bodies]
    seen = reached(known, promised + list(named_by_calls()))
    kept = believed(known, seen)
    made = tables(kept, types(known, seen))
    if sys.argv[1:2] == ["--check"]:
        stands = standing_in(sys.argv[2])
        faults.extend(unified_diff(stands, [row for row in made if row], sys.argv[2], "tests/believed.py", lineterm="", n=0))
    else:
        print("\n".join(made))
    if faults:
        sys.exit("\n".join(faults))
    lines = sum(file.count for file in kept)
    print("believed: %d files, %d lines; %d files pass between functions" % (len(kept), lines, len(known) - len(kept)))


main()
