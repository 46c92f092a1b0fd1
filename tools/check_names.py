#!/usr/bin/env python3
"""check_names.py [--counts | --write]: refuses a name that is two things in the crates that ship.

Types, free functions and definitions are compared, each with its like, and types with definitions. A name that is two things today has a line
in tools/known_names.txt, `KIND NAME`. The gate fails where a name is two things and has no line, and where a line's name no longer is: so the
list only gets shorter. --write writes the list as it is; review what it adds. --counts prints what a reader of the house has to carry: crates,
lines, names that are two things, and functions of ten parameters and more.
"""
import collections
import re
import sys
from pathlib import Path

TOP = Path(__file__).resolve().parent.parent
KNOWN = TOP / "tools" / "known_names.txt"
TEST = re.compile(r".*_tests|bench|io_memory|folder_memory")
TYPE = re.compile(r"(?:pub(?:\([a-z]+\))? )?(?:unsafe )?(?:struct|enum|trait|type) (\w+)")
FUNCTION = re.compile(r"(?:pub(?:\([a-z]+\))? )?(?:const |unsafe )*fn (\w+)")
# A definition's name: after its words, or alone before a colon.
DEFINITION = re.compile(r"(?:(?:pub|abbrev|unfoldable|opaque|data|record) )+([^\s(){}:,]+)\s*[:({]")
# Many crates have one of each of these, and nobody takes one for another.
ALIKE = {"function limits", "function main"}
MANY = 10


def crates():
    """The names of the crates that ship."""
    rows = (TOP / "crates.txt").read_text(encoding="utf-8").splitlines()
    names = [row.split(":")[0].split()[0] for row in rows if ":" in row and not row.startswith("#")]
    return [name for name in names if not TEST.fullmatch(name)]


def found():
    """Where each name of each kind is defined."""
    places = collections.defaultdict(set)
    for crate in crates():
        folder = TOP / "crates" / crate
        for file in sorted(folder.glob("src/**/*.rt")):
            for line in file.read_text(encoding="utf-8").splitlines():
                for kind, form in (("type", TYPE), ("function", FUNCTION)):
                    if hit := form.match(line):
                        places[kind, hit[1]].add(f"{crate}/{file.name}")
        for file in sorted(folder.glob("specs/**/*.antt")):
            for line in file.read_text(encoding="utf-8").splitlines():
                if (hit := DEFINITION.match(line)) and not line.startswith(("pub use", "pub mod")):
                    places["definition", hit[1]].add(f"{crate}/{file.name}")
    return places


def doubles(places):
    """The names that are two things: of one kind in two files, or a type and a definition."""
    both = {}
    for (kind, name), where in places.items():
        if kind == "definition" and ("type", name) in places:
            where = where | places["type", name]
        if len(where) > 1:
            both[f"{kind} {name}"] = sorted(where)
    return {name: where for name, where in both.items() if name not in ALIKE}


def parameters(text):
    """How many parameters each function of a source has."""
    for hit in re.finditer(r"(?m)^\s*(?:pub(?:\([a-z]+\))? )?(?:const |unsafe )*fn (\w+)(?:<[^>]*>)?\(([^)]*)\)", text):
        listed = [it for it in hit[2].split(",") if ":" in it or "self" in it]
        yield hit[1], len(listed)


def counts(both):
    """Rows of what a reader has to carry."""
    lines = collections.Counter()
    many = 0
    for crate in crates():
        for part, ending in (("src", "rt"), ("specs", "antt"), ("proofs", "antt")):
            for file in (TOP / "crates" / crate / part).glob(f"**/*.{ending}"):
                text = file.read_text(encoding="utf-8")
                lines[part] += text.count("\n")
                if part == "src":
                    many += sum(number >= MANY for _, number in parameters(text))
    yield "crates that ship", len(crates())
    for part in ("src", "specs", "proofs"):
        yield f"lines in {part}", lines[part]
    yield "names that are two things", len(both)
    yield f"functions of {MANY} parameters and more", many


def main(*words):
    both = doubles(found())
    if words == ("--counts",):
        for what, number in counts(both):
            print(f"{what}: {number}")
        return 0
    if words == ("--write",):
        KNOWN.write_text("".join(f"{it}\n" for it in sorted(both)), encoding="utf-8")
        return 0
    if words:
        sys.exit(__doc__)
    known = set(KNOWN.read_text(encoding="utf-8").split("\n")) - {""}
    new, gone = sorted(set(both) - known), sorted(known - set(both))
    for it in new:
        print(f"check_names: {it} is two things: {', '.join(both[it])}")
    for it in gone:
        print(f"check_names: {it} is one thing now: take its line out of tools/known_names.txt")
    if new or gone:
        return 1
    print(f"check_names: {len(both)} names are two things, and tools/known_names.txt has them all")
    return 0


if __name__ == "__main__":
    sys.exit(main(*sys.argv[1:]))
