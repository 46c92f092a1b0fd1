"""The options of the commands, as the sources of crates/command_line have them.

options.rt has lists of rows: one for each option, and one for the files of a command. rows.rt makes them arguments of the parser.
arguments.rt says which command has which lists.
words.rt says which options take a word for a number. What can't be read is an error that names it. So is a help without its row's range.
"""
import re
import sys
from collections import namedtuple
from pathlib import Path

TOP = Path(__file__).resolve().parent.parent
SOURCES = TOP / "crates/command_line/src"
# The fields of each kind of `Takes`, as a row has them.
FIELDS = {
    "Path": r"is_required: (?P<required>true|false)",
    "Name": "",
    "Folder": "",
    "FolderWith": r'"(?P<other>[\w-]+)"',
    "Text": "",
    "Number": r'least: (?P<least>\S+),\s*most: (?P<most>\S+),\s*absent: Absent::(?:Default\("(?P<default>\d+)"\)|Nothing|(?P<required>Fault))',
    "Bytes": r'most: (?P<most>\S+) as i64,\s*default: "(?P<default>\d+)"',
    "Words": r'words: &\[(?P<words>[^]]*)\],\s*absent: "(?P<absent>\w+)"',
    "Nothing": "",
    "NothingWithout": r'"(?P<other>[\w-]+)"',
    "FilesUnless": r'"(?P<other>[\w-]+)"',
    "OptionalFiles": "",
    "OptionalFile": "",
}
STRING = r'"((?:[^"\\]|\\.)*)"'
ROW = re.compile(r'Row \{\s*name: "([\w-]+)",\s*takes: Takes::(\w+)(?:\(([^()]*)\)|\s*\{([^{}]*)\})?,\s*help: ' + STRING + r",?\s*\}", re.S)

# An option, or the FILEs of a command, or its only FILE. The word for its value is `value`. If that is a number, `numbers` are the least
# and the greatest, and `word` is one that denotes a number. If it is one of some words, these are `words`. Without the option it is
# `default`; if the option is given without a value, it is `absent`. The option that it needs, or that replaces FILEs, is `other`.
Row = namedtuple("Row", "name kind value is_required numbers words word default absent other help")
# A command: its lists are names of lists of rows.
Command = namedtuple("Command", "name about after lists")
# All of them. `letters` may end a number if its word is `max`.
Options = namedtuple("Options", "lists commands about after letters")


def die(text):
    sys.exit(f"{Path(sys.argv[0]).name}: {text}")


def only(pattern, text, what):
    """The one place of a text where a pattern is."""
    found = re.findall(pattern, text, re.M | re.S)
    if len(found) != 1:
        die(f"{what}: found {len(found)} times where it can be read, and not once")
    return found[0]


def unquoted(literal):
    """The text of a string literal of Rust, given without its quotes."""
    text = re.sub(r"\\\n\s*", "", literal)
    if re.search(r'\\[^n"\\]', text):
        die(f"an escape that can't be read: {literal}")
    return re.sub(r"\\(.)", lambda it: "\n" if it[1] == "n" else it[1], text)


def function(text, name):
    """A function of a source, less the name."""
    return only(rf"^(?:pub(?:\(crate\))? )?fn {name}\b(.*?)^\}}", text, f"the function {name}")


def constant(name, sources):
    """The value of a number of the sources: digits, or a constant such as MAX_LANES or Device::MAX."""
    if name.isdigit() or name == "u32::MAX":
        return int(name) if name.isdigit() else 2**32 - 1
    kind, _, own = name.rpartition("::")
    text = only(rf"^impl {kind} \{{\n(.*?)^\}}", sources, f"impl {kind}") if kind else sources
    # digits, shifts and differences only
    return eval(only(rf"^ *pub const {own}: \w+ = ([\d ()<-]+);", text, f"the constant {name}"), {"__builtins__": {}})


def row_of(found, values, words, sources):
    """The row of a literal."""
    name, kind, inner, outer, text = found
    fields = re.fullmatch(FIELDS[kind], (inner or outer).strip(", \n"), re.S) if kind in FIELDS else None
    if fields is None or kind not in values:
        die(f"--{name} takes {kind} {(inner or outer).strip()}: the table FIELDS or arg_of hasn't that")
    fields, text, numbers = fields.groupdict(), unquoted(text), None
    if fields.get("most"):
        numbers = constant(fields.get("least", "0"), sources), constant(fields["most"], sources)
        if f"{numbers[0]} to {numbers[1]}" not in " ".join(text.split()):
            die(f"--{name}: its text hasn't its range, {numbers[0]} to {numbers[1]}")
    if name in words and not (numbers and re.search(rf"\b{words[name]}\b", text)):
        die(f"--{name}: words.rt reads '{words[name]}' for a number, and its row or text hasn't that")
    return Row(
        name, kind, values[kind], fields.get("required") in ("true", "Fault"), numbers, re.findall(r'"([\w-]+)"', fields.get("words", "")),
        words.get(name), fields.get("default"), fields.get("absent"), fields.get("other"), text,
    )


def lists_of(text, words, sources):
    """The lists of rows by name."""
    values = {}
    for arm in re.split(r"^        Takes::", function(text, "arg_of"), flags=re.M)[1:]:
        values[re.match(r"\w+", arm)[0]] = (re.findall(r'valued\(arg, row\.name, "(\w+)"\)', arm) or [None])[0]
    lists = {}
    for name, count, body in re.findall(r"^pub\(crate\) static (\w+): \[Row; (\d+)\] = \[(.*?)\];$", text, re.M | re.S):
        lists[name] = [row_of(found, values, words, sources) for found in ROW.findall(body)]
        rest = ROW.sub("", body).strip(", \n")
        if rest:
            die(f"{name}: this row can't be read: {' '.join(rest.split())}")
        if len(lists[name]) != int(count):
            die(f"{name} has {count} rows, and {len(lists[name])} were read")
    read = [row.name for rows in lists.values() for row in rows]
    for name in re.findall(r'\bname: "([^"]*)"', text):
        if name not in read:
            die(f"--{name}: it has a row, and is in no list that can be read")
        read.remove(name)
    for name in words.keys() - {row.name for rows in lists.values() for row in rows}:
        die(f"--{name}: words.rt has it, and no row is of this name")
    return lists


def commands_of(text, lists):
    """The program's about and after_help, and its commands in their order."""
    texts = {name: unquoted(it) for name, it in re.findall(rf"^const (\w+): &str =\s*{STRING};$", text, re.M | re.S)}

    def steps(name):
        """What a function adds to its command, in order: lists of rows, and the end of the help."""
        found = re.findall(r"\b(\w+_command)\(|&(\w+_ROWS)\b|after_help\((\w+)\)", function(text, name))
        if function(text, name).count("with_rows(") != sum(1 for _, rows, _ in found if rows) or ".arg(" in text:
            die(f"{name}: arguments.rt gives it options that can't be read")
        for other, rows, after in found:
            yield from steps(other) if other else [rows or after]

    program, commands = function(text, "command"), []
    for name in re.findall(r"\b(\w+_command)\(alloc\)", program):
        word = only(r'(?:_command|Command::new)\(\s*alloc,\s*"(\w+)"', function(text, name), f"the name of {name}")
        about = [unquoted(it) for it in re.findall(STRING, function(text, name), re.S) if it != word]
        parts = list(steps(name))
        after, own = [it for it in parts if it in texts], [it for it in parts if it not in texts]
        if len(about) != 1 or len(after) != 1 or not set(own) <= set(lists):
            die(f"{word}: arguments.rt gives it the texts {about}, the ends {after} and the lists {own}")
        commands.append(Command(word, about[0], texts[after[0]], own))
    about = unquoted(only(rf"\.about\({STRING}\)", program, "the program's text"))
    after = only(r"\.after_help\((\w+)\)", program, "the end of the program's help")
    return commands, about, texts[after]


def words_of(text):
    """The options with a word that denotes a number, as `auto`, each with its word."""
    words = dict(re.findall(r'Shorthand::(\w+)(?:\(\w+\))? if value == "(\w+)"', function(text, "stands_for")))
    taken = {}
    for options, kind in re.findall(r'^ *("--[^=]*) => Shorthand::(\w+)', function(text, "shorthand_of"), re.M):
        taken.update({it: words.get(kind) for it in re.findall(r'"--([\w-]+)"', options)})
    if set(taken.values()) != set(words.values()) or not words:
        die(f"words.rt has the words {words}, of the options {taken}")
    return taken


def rows_of(options, command):
    """The rows of a command, in the order of its help."""
    return [row for name in command.lists for row in options.lists[name]]


def read():
    """The options of the sources."""
    names = ("options", "rows", "arguments", "words")
    rows, of_rows, arguments, words = ((SOURCES / f"{it}.rt").read_text(encoding="utf-8") for it in names)
    sources = "".join(it.read_text(encoding="utf-8") for it in sorted(TOP.glob("crates/*/src/**/*.rt")))
    lists = lists_of(rows + of_rows, words_of(words), sources)
    letters = re.findall(r"b'(\w)' => Some", function(words, "unit_of"))
    options = Options(lists, *commands_of(arguments, lists), letters)
    for name in lists.keys() - {name for it in options.commands for name in it.lists}:
        die(f"no command has the rows of {name}")
    for command in options.commands:
        names = [row.name for row in rows_of(options, command)]
        for it in {it for it in names if names.count(it) > 1}:
            die(f"{command.name} --{it}: more than once")
    return options
