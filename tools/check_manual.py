#!/usr/bin/env python3
"""check_manual.py [PROGRAM]: compares `--help` of the built program, man/sealer.1 and docs/MANUAL.md with one another.

Compared of each command: that all three have it, its options with the word for their value, which of them are required,
the ranges and the defaults that --help gives; of the two documents the synopsis too, which is compared with the options.
The texts of faults, and the lines of files, journals and ledgers, are those that the program can print by its sources
(printed_texts.py): none else, and all of them. The manual has each of them once, with just the commands that print it.
README.md and the manual are short, and no link between the documents leads nowhere. Prints what differs, with status 1, or how
much was compared.
"""
import re
import subprocess
import sys
from pathlib import Path

sys.dont_write_bytecode = True
import printed_texts

TOP = Path(__file__).resolve().parent.parent
PROGRAM = TOP / "crates/sealer/out/sealer"
# What --help has in every command; the documents say it once.
HELP = "help"
# The manual's tables, by the word that begins their heading.
OPTIONS, LINES, TEXTS = "option", "line", "text"
# The heading of the column of commands, and the word for all of them there.
COMMANDS, ALL = "commands", "all"
# How many lines a document may have, and README.md with all of docs/.
LONGEST = {"README.md": 100, "docs/MANUAL.md": 480}
LONGEST_TOGETHER = 1800
# The columns of README.md at most.
WIDEST = 140
# Texts that aren't in the sources: the parser's and the loader's.
OF_NO_SOURCE = {
    "error: out of memory",
    "error: ..",
    "this machine lacks a feature of x86-64-v2",
    "this machine lacks a feature of x86-64-v3",
}
# Those that the page has too.
OF_PARSER = "error: out of memory"


class Option:
    """An option: the word for its value, whether it is required, the ranges in its text, and its default."""

    def __init__(self, value, required, ranges, default):
        self.value, self.required, self.ranges, self.default = value, required, ranges, default

    def __repr__(self):
        ranges = ", ".join(f"{low} to {high}" for low, high in self.ranges)
        parts = [self.value or "no value", "required" if self.required else "", ranges]
        return "; ".join(filter(None, [*parts, f"default {self.default}" if self.default else ""]))


def ranges_of(text):
    """The ranges 'A to B' of a text, both numbers in digits, with or without commas."""
    return [tuple(int(it.replace(",", "")) for it in pair) for pair in re.findall(r"\b(\d[\d,]*) to (\d[\d,]*)", text)]


def help_of(program, *words):
    ran = subprocess.run([program, *words, "--help"], stdin=subprocess.DEVNULL, capture_output=True, text=True, timeout=60)
    if ran.returncode or not ran.stdout:
        sys.exit(f"sealer {' '.join(words)} --help: status {ran.returncode}: {ran.stderr}")
    return ran.stdout


def part_of_help(text, heading):
    """The lines below a heading of --help, each entry with its further lines."""
    lines = text.splitlines()
    if heading not in lines:
        return []
    entries = []
    for line in lines[lines.index(heading) + 1:]:
        if not line.strip():
            break
        if re.match(r" {2,6}\S", line) or not entries:
            entries.append(line.strip())
        else:
            entries[-1] += " " + line.strip()
    return entries


def from_help(program):
    """The commands with their options, and which words of help there are."""
    top = help_of(program)
    names = [entry.split()[0] for entry in part_of_help(top, "Commands:")]
    words = {it for it in names if it == HELP}
    for entry in part_of_help(top, "Options:"):
        words.update(re.match(r"(-\w), (--[\w-]+)", entry).groups())
    commands = {}
    for name in [it for it in names if it != HELP]:
        text = help_of(program, name)
        usage = re.search(r"^Usage: (.*)$", text, re.M).group(1)
        required = set(re.findall(r"--([\w-]+)", re.sub(r"\[[^]]*\]", "", usage)))
        options = {}
        for entry in part_of_help(text, "Options:"):
            found = re.match(r"(?:(-\w), )?--([\w-]+)(?:(?:[ =]|\[=)<(\w+)>\]?)?\s*(.*)", entry)
            if not found:
                sys.exit(f"{name} --help: what is '{entry}'?")
            short, long, value, about = found.groups()
            if long == HELP:
                words.add(short)
                continue
            default = re.search(r"\[default: ([^]]*)\]", about)
            options[long] = Option(value, long in required, ranges_of(about), default and int(default.group(1)))
        commands[name] = options
    return commands, {it for it in words if it}


def synopsis(text):
    """The options of a synopsis: each with the word for its value, and whether it is required."""
    found = {}
    for bracket, long, value in re.findall(r"(\[)?--([\w-]+)(?:(?: |\[=)([A-Z]+))?", text):
        found[long] = (value or None, not bracket)
    return found


def rows_below(text):
    """The cells of each row of the tables of a text of Markdown."""
    for line in text.splitlines():
        if line.startswith("|"):
            yield [it.strip() for it in line.strip("|").split("|")]


def tables_of(text):
    """The tables of a text of Markdown: the cells of the heading, and those of the rows."""
    for table in re.findall(r"(?:^\|.*\n)+", text, re.M):
        heading, _, *rows = rows_below(table)
        yield heading, rows


def named(cell):
    """The words that a cell has in backticks."""
    return re.findall(r"`([^`]*)`", cell)


def from_manual(text):
    """The commands of docs/MANUAL.md, and of each its synopsis. A table of options names its commands in a column, or in its heading."""
    commands, lines = {}, {}
    for block in re.findall(r"^```text\n(.*?)^```", text, re.M | re.S):
        for name, words in re.findall(r"^sealer (\w+)((?:.|\n )*)", block, re.M):
            lines[name], commands[name] = synopsis(words), {}
    for heading, rows in tables_of(text):
        if heading[0].split(" ")[0] != OPTIONS:
            continue
        for cells in rows:
            names = named(heading[0])
            if heading[1] == COMMANDS:
                names = named(cells.pop(1))
            option = re.match(r"`--([\w-]+)(?:(?: |\[=)([A-Z]+)\]?)?`$", cells[0])
            if not option or not names:
                sys.exit(f"docs/MANUAL.md: which option of which command is {cells[0]}?")
            only = re.match(r"`(\w+)`: ", cells[1])
            default = re.match(r"[\d,]+$", cells[2])
            for name in names:
                if only and only.group(1) != name:
                    continue
                if option.group(1) in commands.setdefault(name, {}):
                    sys.exit(f"docs/MANUAL.md: {name} --{option.group(1)}: more than once")
                commands[name][option.group(1)] = Option(
                    option.group(2),
                    cells[2] == "it is required",
                    ranges_of(cells[1]),
                    default and int(cells[2].replace(",", "")),
                )
    return commands, lines


def plain(text):
    """A line of mdoc without its macros."""
    text = re.sub(r"^\.", "", text)
    text = re.sub(r"\bFl Fl ", "--", text).replace(" Ns Op = Ns Ar ", "[=")
    return re.sub(r"\s+", " ", re.sub(r"\b(Ar|Cm|Ns|No|Nm|Op)\b ?", "", text).replace("\\&", "")).strip()


def from_page(text):
    """The commands of man/sealer.1, and of each its synopsis."""
    part = dict(re.findall(r"^\.Sh (.*?)\n(.*?)(?=^\.Sh |\Z)", text, re.M | re.S))
    commands, lines = {}, {}
    for words in re.split(r"^\.Nm\n", part["SYNOPSIS"], flags=re.M)[1:]:
        told = [f"[{plain(it)}]" if it.startswith(".Op ") else plain(it) for it in words.splitlines()]
        lines[told[0]] = synopsis(" ".join(told[1:]))
    for name, body in re.findall(r"^\.Ss (\w+)\n(.*?)(?=^\.Ss |\Z)", part["DESCRIPTION"], re.M | re.S):
        if name == HELP:
            continue
        commands[name] = {}
        for long, value, about in re.findall(
            r"^\.It Fl Fl ([\w-]+)(?:(?: Ns Op = Ns)? Ar (\w+))?\n(.*?)(?=^\.It |^\.El)", body, re.M | re.S
        ):
            about = re.sub(r"\s+", " ", about)
            default = re.search(r"The default is ([\d,]+)\.", about)
            commands[name][long] = Option(
                value or None,
                "It is required." in about,
                ranges_of(about),
                default and int(default.group(1).replace(",", "")),
            )
    return commands, lines


def shape(line):
    """A line with X for what varies."""
    return re.sub(r'"X"', "X", re.sub(r"\b[A-Z]+\b", "X", line)).strip()


def differences(where, told, printed):
    """What a document has that is never printed; what is printed and it lacks; and what it has more than once."""
    for it in sorted(set(told) - set(printed)):
        yield f"'{it}': in {where}, and it can't be printed there"
    for it in sorted(set(printed) - set(told)):
        yield f"'{it}': it can be printed, and isn't in {where}"
    for it in sorted({it for it in told if told.count(it) > 1}):
        yield f"'{it}': more than once in {where}"


def commands_by_text():
    """The texts after `failed NAME: `, each with the commands that print it."""
    commands = {}
    for command in printed_texts.FAULTS:
        for it in printed_texts.faults(command)[0]:
            commands.setdefault(it, set()).add(command)
    return commands


def errors_by_text():
    """The texts on standard error but for `failed -: `, each with the commands that print it."""
    commands = {it: set(printed_texts.FAULTS) for it in OF_NO_SOURCE}
    for command in printed_texts.FAULTS:
        for it in printed_texts.faults(command)[1]:
            commands.setdefault(it, set()).add(command)
    return commands


def lines_by_text():
    """The lines, with X for what varies, each with the commands that print it."""
    commands = {}
    for command in printed_texts.LINES:
        for it in printed_texts.lines(command):
            commands.setdefault(it, set()).add(command)
    return commands


def wrong_tables(manual):
    """What is wrong with the texts and the lines in the tables of the manual: each is there once, with just its commands."""
    printed = {TEXTS: {**commands_by_text(), **errors_by_text()}, LINES: lines_by_text()}
    told = {kind: [] for kind in printed}
    for heading, rows in tables_of(manual):
        for cells in rows:
            if heading[0] not in printed:
                for it in set(named(cells[0])) & printed[TEXTS].keys():
                    yield f"'{it}': in a table of the manual that isn't one of texts"
                continue
            if heading[1] != COMMANDS:
                yield f"'{cells[0]}': a table of the manual has no column '{COMMANDS}'"
                continue
            texts = [shape(it) if heading[0] == LINES else it for it in named(cells[0])]
            told[heading[0]] += texts
            commands = set(printed_texts.FAULTS) if cells[1] == ALL else set(named(cells[1]))
            for it in texts:
                if it in printed[heading[0]] and commands != printed[heading[0]][it]:
                    theirs = printed[heading[0]][it]
                    yield f"'{it}': the manual has it of {', '.join(sorted(commands))}, and it is of {', '.join(sorted(theirs))}"
            if not texts:
                yield f"'{cells[0]}': a row of the manual without a text"
    for kind, texts in told.items():
        yield from differences(f"the manual's tables of a '{kind}'", texts, printed[kind])


def items(text):
    """The texts of the items of a list of mdoc."""
    found = [it.replace("\\&", "").replace(" Ns ", "") for it in re.findall(r"^\.It Li (.*)$", text, re.M)]
    return [re.sub(r"\b(Li|Ar|Qq) ", "", it) for it in found]


def wrong_page(page):
    """What is wrong with the texts of the page."""
    part = dict(re.findall(r"^\.Sh (.*?)\n(.*?)(?=^\.Sh |\Z)", page, re.M | re.S))
    failed, errors = part["DIAGNOSTICS"].split("\n.El\n", 1)
    yield from differences("DIAGNOSTICS of man/sealer.1", items(failed), commands_by_text())
    yield from differences("DIAGNOSTICS of man/sealer.1", items(errors), errors_by_text().keys() - OF_NO_SOURCE | {OF_PARSER})
    # its lines of a stream are those of a FILE that is '-'
    lines = {it for command in printed_texts.LINES if command != "pipe" for it in printed_texts.lines(command)}
    yield from differences("OUTPUT of man/sealer.1", [shape(it) for it in items(part["OUTPUT"])], lines)


def anchors(text):
    """The anchors of the headings of a text of Markdown."""
    headings = re.findall(r"^#+ (.*)$", re.sub(r"^```.*?^```", "", text, flags=re.M | re.S), re.M)
    return {re.sub(r"[^\w -]", "", it.lower()).replace(" ", "-") for it in headings}


def broken_links():
    """The broken links between the documents."""
    for document in [TOP / "README.md", *sorted((TOP / "docs").glob("*.md"))]:
        for link in re.findall(r"\]\(([^)#]*(?:#[^)]*)?)\)", document.read_text(encoding="utf-8")):
            name, _, anchor = link.partition("#")
            there = document.parent / name if name else document
            if not name.startswith("http") and not (there.exists() and (not anchor or anchor in anchors(there.read_text()))):
                yield f"{document.relative_to(TOP)}: there is no {link}"


def main():
    program = sys.argv[1] if len(sys.argv) > 1 else PROGRAM
    page, manual = ((TOP / it).read_text(encoding="utf-8") for it in ("man/sealer.1", "docs/MANUAL.md"))
    wanted, words = from_help(program)
    wrong, compared = [], 0
    for where, text, (commands, lines) in (
        ("docs/MANUAL.md", manual, from_manual(manual)),
        ("man/sealer.1", page, from_page(page)),
    ):
        for name in sorted(wanted.keys() | commands.keys() | lines.keys()):
            told, synopsis_of, asked = commands.get(name), lines.get(name), wanted.get(name)
            if told is None or synopsis_of is None or asked is None:
                wrong.append(f"{name}: not in {'--help' if asked is None else where}")
                continue
            for long in sorted(asked.keys() | told.keys() | synopsis_of.keys()):
                compared += 1
                ours, theirs, line = asked.get(long), told.get(long), synopsis_of.get(long)
                if ours is None or theirs is None or line is None:
                    place = "--help" if ours is None else f"the synopsis of {where}" if line is None else where
                    wrong.append(f"{name} --{long}: not in {place}")
                    continue
                if line != (ours.value, ours.required):
                    wrong.append(f"{name} --{long}: --help has '{ours}', the synopsis of {where} '{line}'")
                same = (ours.value, ours.required, ours.default) == (theirs.value, theirs.required, theirs.default)
                if not same or not set(ours.ranges) <= set(theirs.ranges) or not ours.ranges and theirs.ranges:
                    wrong.append(f"{name} --{long}: --help has '{ours}', {where} '{theirs}'")
        told = text if where.endswith(".md") else re.sub(r"^\.Fl (\w)$", r".-\1", text.replace("Fl Fl ", "--"), flags=re.M)
        for word in words:
            if not re.search(rf"(?<![\w-]){re.escape(word)}\b", told):
                wrong.append(f"{word}: not in {where}")
    wrong += [*printed_texts.unlisted(), *wrong_tables(manual), *wrong_page(page)]
    texts = commands_by_text().keys() | errors_by_text().keys()
    if compared < 30 or len(texts) < 30:
        wrong.append(f"only {compared} options and {len(texts)} texts were found")
    wrong += broken_links()
    for name, most in LONGEST.items():
        lines = (TOP / name).read_text(encoding="utf-8").splitlines()
        if len(lines) > most:
            wrong.append(f"{name} has {len(lines)} lines, and {most} are the limit")
        if name == "README.md" and max(map(len, lines)) > WIDEST:
            wrong.append(f"{name} has a line of {max(map(len, lines))} columns, and {WIDEST} are the limit")
    together = sum(len(it.read_text(encoding="utf-8").splitlines()) for it in [TOP / "README.md", *(TOP / "docs").glob("*.md")])
    if together > LONGEST_TOGETHER:
        wrong.append(f"README.md and docs/ have {together} lines, and {LONGEST_TOGETHER} are the limit")
    for line in wrong:
        print(line)
    if not wrong:
        print(f"{len(wanted)} commands, {compared} options and {len(texts)} texts: --help, page and manual agree")
    return 1 if wrong else 0


if __name__ == "__main__":
    sys.exit(main())
