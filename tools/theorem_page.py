#!/usr/bin/env python3
"""theorem_page.py [--count | --calls]: prints the two theorems over runs on one page, with the definitions in which they are said.

The page begins with what is assumed, the comment of Theorem.antt. Then come `no_nonce_is_used_twice` and `what_was_opened_was_sealed` of
sealer_core/src/theorem.rt, each with its definitions, from the outermost in. Left out are those of the kit, of the cipher, the container, the
journal and the ledger file (OWN), and the clauses of the calls with what these relate (CLAUSES): that a call ended means just that its clause
holds. The end of the page says where they are, but for the nonces of a container (NONCES): those come last. With --count it prints how long the
page is before them; empty lines don't count. With --calls it prints a second page: the law that a call is such a run. Status 1: the page has
more than MOST lines, or a name is defined nowhere.
"""
import collections
import re
import sys
import textwrap
from pathlib import Path

CRATES = Path(__file__).resolve().parent.parent / "crates"
SOURCE = CRATES / "sealer_core/src/theorem.rt"
THEOREMS = ("no_nonce_is_used_twice", "what_was_opened_was_sealed")
CALLS = ("a_call_is_a_run",)
ASSUMED = CRATES / "sealer_core/specs/Theorem.antt"
OWN = ("aead_core", "container_core", "journal_core", "ledger_core", "ranges_core", "reserve_core")
CLAUSES = {
    "command_core": ("AddsOpened", "HaveAdded", "IsOfOpening", "Printed", "Unpipes"),
    "sealer_core": ("HasSealed", "HasSealedStream", "PipeView"),
}
NONCES = ("container_core.specs.Nonces", ("container_nonces", "stream_nonces"))
# What is written in the language itself, as far as a reader needs it.
PRELUDE = "std.specs.Prelude"
MOST = 300
WIDE = 125
ITEM = re.compile(r"(?:(?:abbrev|unfoldable|opaque|pub|record|data) )*([\w']+)")
USE = re.compile(r"^(?:ghost |pub )?use Rattle\.([\w.]+?)(?:\.\{([^}]*)\}| as (\w+));?$", re.M)
WORD = re.compile(r"[A-Za-z_][\w']*(?:\.[A-Za-z_][\w']*)?")


class Module:
    """A file of definitions: their lines, each with its comment, by name; and where the names come from that it imports."""

    def __init__(self, text):
        self.items, self.origin, self.alias = {}, {}, {}
        for where, names, alias in USE.findall(text):
            if alias:
                self.alias[alias] = where
            for name in filter(None, map(str.strip, names.split(","))):
                self.origin[name] = where
        comment, lines = [], None
        for line in text.splitlines():
            if not line or line.startswith(("use ", "ghost use ", "-- ----")):
                comment, lines = [], None
            elif line.startswith("--"):
                comment, lines = [*comment, line] if lines is None else [line], None
            elif name := ITEM.match(line):
                lines = self.items.setdefault(name[1], comment)
                lines.append(line)
            elif lines is not None:
                lines.append(line)
        # a constructor is of the type that lists it
        self.owner = {match[1]: name for name, lines in self.items.items() for line in lines if (match := re.match(r" +(?:pub )?([A-Z]\w*) :", line))}

    def item(self, name):
        """The name of the definition that has this name, if one has."""
        return name if name in self.items else self.owner.get(name)


class Page:
    """The definitions that the theorems reach."""

    def __init__(self):
        self.modules, self.shown, self.elsewhere = {}, {}, collections.defaultdict(set)

    def module(self, where):
        if where not in self.modules:
            crate, *path = where.split(".")
            file = (CRATES / crate / "/".join(path)).with_suffix(".antt")
            self.modules[where] = Module(file.read_text(encoding="utf-8"))
        return self.modules[where]

    def reach(self, lines, module, where):
        """Adds the definitions of the names in these lines of a module, outermost first, and then those that they need."""
        code = "\n".join(line for line in lines if not line.lstrip().startswith(("--", "//")))
        found = []
        for word in dict.fromkeys(WORD.findall(code)):
            first, _, second = word.partition(".")
            if module.item(first):
                found.append((where, first))
            elif first in module.origin:
                found.append((module.origin[first], first))
            elif second and first in module.alias:
                found.append((module.alias[first], second))
        for origin, name in found:
            crate = origin.split(".")[0]
            if crate in OWN or name in CLAUSES.get(crate, ()) or ".declared." in origin or not (CRATES / crate).is_dir():
                origin == PRELUDE or self.elsewhere[crate].add(name)
                continue
            other = self.module(origin)
            item = other.item(name)
            if not item and name in other.origin:
                # passed on
                origin = other.origin[name]
                other = self.module(origin)
                item = other.item(name)
            if not item:
                sys.exit(f"theorem_page.py: {origin} doesn't define {name}")
            if (origin, item) not in self.shown:
                self.shown[origin, item] = other.items[item]
                self.reach(other.items[item], other, origin)

    def lines(self, laws):
        """The whole page of these laws. An empty line is before each definition."""
        source = SOURCE.read_text(encoding="utf-8")
        start = Module("\n".join(line for line in source.splitlines() if line.startswith("ghost use ")))
        text = ASSUMED.read_text(encoding="utf-8").splitlines()
        yield from text[: next(i for i, line in enumerate(text) if not line.startswith("--"))]
        for name in laws:
            law = re.search(rf"((?:///[^\n]*\n)*)pub fn {name}\b(.*?)\n\{{", source, re.S)[0].splitlines()[:-1]
            yield from ["", *law]
            before = len(self.shown)
            self.reach(law, start, "")
            for lines in list(self.shown.values())[before:]:
                yield from ["", *lines]
        yield ""
        elsewhere = [f"{crate} ({', '.join(sorted(names))})" for crate, names in sorted(self.elsewhere.items())]
        yield from textwrap.wrap(f"-- Elsewhere: {', '.join(elsewhere)}.", WIDE, subsequent_indent="-- ")

    def nonces(self):
        """Which nonces a container has, by the definitions of its own crate."""
        where, names = NONCES
        for name in names:
            yield from ["", *self.module(where).items[name]]


def main(words):
    """Returns the status."""
    page, calls = Page(), Page()
    lines, second = list(page.lines(THEOREMS)), list(calls.lines(CALLS))
    if words == ["--calls"]:
        print("\n".join(second))
        return 0
    if words != ["--count"]:
        print("\n".join([*lines, *page.nonces()]))
        return 0
    long, longer = (sum(1 for line in each if line) for each in (lines, second))
    print(f"the theorems and their definitions: {long} lines; that a call is a run: {longer}")
    return int(long > MOST)


if __name__ == "__main__":
    sys.exit(main(sys.argv[1:]))
