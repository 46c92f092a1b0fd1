#!/usr/bin/env python3
"""make_options.py [--write]: compares help, manual page and completions with the options of the sources, or writes them.

An option is written once, as a row of crates/command_line/src/options.rt, which option_rows.py reads. From the rows come:

- tools/help/*.txt, as `--help` prints them;
- the parts of man/sealer.1 and of completions/ that are between this tool's comments. The rest of these files is written by hand.

Prints how many files agree, or the differences with status 1. With --write it writes the files. A row that it can't read is an error that
names it. So is an option that the page has and no command takes.
"""
import difflib
import re
import sys
import textwrap

sys.dont_write_bytecode = True
from option_rows import TOP, die, read, rows_of

# The FILEs that a command takes: what they are, and how their names end.
FILES = {
    "seal": ("file", ""), "unpipe": ("sealed file", ""), "open": ("sealed file", ".stm"),
    **{it: ("sealed file", "") for it in ("verify", "show", "audit", "ledger")},
}
# The kinds of rows that aren't options: several FILEs, and one.
SEVERAL, ONE = ("FilesUnless", "OptionalFiles"), ("OptionalFile",)
# What the page's synopsis of a command has besides options.
SYNOPSIS = {"audit": [".No < Ar JOURNAL"]}
# What completes a value that is neither a number nor a word, in zsh, bash and fish.
KINDS = {
    "Path": ("file:_files", '_sealer_files "$current"; ', "-rF"),
    "Name": ("file:_files", '_sealer_files "$current"; ', "-rF"),
    "Folder": ("folder:_files -/", '_sealer_folders "$current"; ', "-xa '(__fish_complete_directories)'"),
    "FolderWith": ("folder:_files -/", '_sealer_folders "$current"; ', "-xa '(__fish_complete_directories)'"),
    "Text": ("text: ", "", "-x"),
}
# The parser's own command and options, with their texts.
HELP, HELP_TEXT = "help", "Print this message or the help of the given subcommand(s)"
OWN = {("-h", "--help"): "Print help", ("-V", "--version"): "Print version"}
# Columns of the help, of a name in it that has its text beside it, of the page, and of the options in a line for bash.
HELP_COLUMNS, NAME_COLUMNS, PAGE_COLUMNS, BASH_COLUMNS = 100, 36, 80, 110
# How a part begins and ends, after the characters of a comment.
BEGIN, END = "make_options.py writes from here: ", "make_options.py writes to here"


# ---- help


def is_option(row):
    return row.kind not in SEVERAL + ONE


def named(row):
    """A row as the help has it, with the word for its value."""
    if not is_option(row):
        return f"[{row.name}]" + ("..." if row.kind in SEVERAL else "")
    return f"--{row.name}" + (f"[=<{row.value}>]" if row.words else f" <{row.value}>" if row.value else "")


def entries(heading, pairs):
    """A part of a help: each text beside its name, and its further lines below it."""
    width = max(len(name) for name, _ in pairs)
    if width > NAME_COLUMNS:
        die(f"a name of {width} columns under '{heading}:' leaves no room for a text")
    lines = ["", f"{heading}:"]
    for name, text in pairs:
        first, *further = text.split("\n")
        lines += [f"  {name:<{width}}  {first}", *(" " * (width + 4) + it for it in further)]
    return lines


def help_of(name, usage, about, parts, after):
    """The text of a help. Each part has a heading, and pairs of a name and a text."""
    lines = [about, "", f"Usage: {usage}", *(line for heading, pairs in parts if pairs for line in entries(heading, pairs)), "", after]
    for line in "\n".join(lines).splitlines():
        if len(line) > HELP_COLUMNS:
            die(f"the help of {name} has over {HELP_COLUMNS} columns: {line}")
    return "\n".join(lines) + "\n"


def text_in_help(row):
    text = row.help + (f" [default: {row.default}]" if row.default else "")
    return text + (f" [possible values: {', '.join(row.words)}]" if row.words else "")


def help_of_command(options, command):
    rows = rows_of(options, command)
    usage = ["sealer", command.name, *(["[OPTIONS]"] if any(is_option(it) and not it.is_required for it in rows) else [])]
    usage += [named(it) for it in rows if it.is_required] + [named(it) for it in rows if not is_option(it)]
    pairs = [(f"    {named(it)}", text_in_help(it)) for it in rows if is_option(it)] + own_pairs()[:1]
    files = [(named(it), it.help) for it in rows if not is_option(it)]
    return help_of(command.name, " ".join(usage), command.about, [("Arguments", files), ("Options", pairs)], command.after)


def own_pairs():
    return [(f"{short}, {long}", text) for (short, long), text in OWN.items()]


def help_of_program(options):
    pairs = [*((it.name, it.about) for it in options.commands), (HELP, HELP_TEXT)]
    return help_of("the program", "sealer <COMMAND>", options.about, [("Commands", pairs), ("Options", own_pairs())], options.after)


# ---- the page


def marked(word, names, literals):
    """A word as a line of mdoc with its macro, or None for one that needs none."""
    core, end = re.fullmatch(r"(.*?)([.,:;]*)", word).groups()
    name = re.fullmatch(r"([A-Z]+)(s|\.stm)?", core)
    if core.startswith("--"):
        line = f".Fl Fl {core[2:]}"
    elif core in literals:
        line = f".Ql {core}"
    elif name and name[1] in names:
        line = f".Ar {name[1]}" + (f" Ns {name[2]}" if name[2] else "")
    else:
        return None
    return line + "".join(f" {it}" for it in end)


def mdoc(text, names, literals=()):
    """A sentence as lines of mdoc."""
    lines, plain = [], []
    for word in [*text.split(), None]:
        line = word and marked(word, names, literals)
        if word and not line:
            plain.append(word.replace("\\", r"\e"))
            continue
        filled = textwrap.wrap(" ".join(plain), PAGE_COLUMNS, break_on_hyphens=False, break_long_words=False)
        lines += [re.sub(r"^([.'])", r"\\&\1", it) for it in filled] + ([line] if line else [])
        plain.clear()
    return lines


def item(row):
    """A row as the page has it, after its macro."""
    if not is_option(row):
        return f"Ar {row.name}" + (" ..." if row.kind in SEVERAL else "")
    return f"Fl Fl {row.name}" + (f" Ns Op = Ns Ar {row.value}" if row.words else f" Ar {row.value}" if row.value else "")


def list_in_page(rows):
    """The options of a command, and then its files."""
    names, literals = {it.value or it.name for it in rows}, {"-", *(it.word for it in rows if it.word)}
    lines = [".Bl -tag -width Ds"]
    for row in sorted(rows, key=lambda it: not is_option(it)):
        lines += [f".It {item(row)}", *mdoc(f"{row.help}.", names, literals)]
        if row.words:
            lines += mdoc(f"{row.value} is {' or '.join(row.words)}; if it is not given, {row.absent}.", names, row.words)
        if row.other:
            lines += mdoc(f"It needs --{row.other}." if is_option(row) else f"Without --{row.other} at least one is required.", names)
        if row.is_required:
            lines.append("It is required.")
        if row.default:
            lines.append(f"The default is {row.default}.")
    return [*lines, ".El"]


def synopsis(options):
    lines = []
    for command in options.commands:
        rows = rows_of(options, command)
        lines += [".Nm", f".Cm {command.name}", *(f".{item(it)}" for it in rows if it.is_required)]
        lines += [f".Op {item(it)}" for it in rows if not it.is_required and is_option(it)]
        lines += [f".Op {item(it)}" for it in rows if not is_option(it)]
        lines += SYNOPSIS.get(command.name, [])
    return lines


def page(options):
    parts = {it.name: list_in_page(rows_of(options, it)) for it in options.commands if it.lists}
    return {"synopsis": synopsis(options), **parts}


# ---- completions


def brief(row):
    """The text of an option on one line, up to the first semicolon."""
    return " ".join(row.help.split()).split(";")[0]


def offered(row):
    """The words that are offered as a value. Of numbers up to 256 these are all, or of more than ten the powers of two."""
    if not row.numbers:
        return row.words
    least, most = row.numbers
    few = range(least, most + 1) if most - least < 10 else [1 << it for it in range(9) if least <= 1 << it]
    return [*([row.word] if row.word else []), *(str(it) for it in few if most <= 256 and it <= most)]


def quoted(text):
    """A text as a word of a shell."""
    if "'" not in text:
        return f"'{text}'"
    if re.search(r'["$`\\!]', text):
        die(f"no quotes of all shells fit this text: {text}")
    return f'"{text}"'


def zsh_row(row, letters):
    about, words = brief(row).replace("]", r"\]"), offered(row)
    if not row.value:
        return quoted(f"--{row.name}[{about}]")
    if row.kind in KINDS:
        return quoted(f"--{row.name}=[{about}]:{KINDS[row.kind][0]}")
    action = f"({' '.join(words)})" if words else " "
    if row.words:
        return quoted(f"--{row.name}=-[{about}]::{row.value.lower()}:{action}")
    message = f"{row.numbers[0]} to {row.numbers[1]}"
    sizes = letters if row.numbers[1] >= 1 << 40 else letters[:-1]
    message += f", perhaps with {', '.join(sizes[:-1])} or {sizes[-1]}" if row.word == "max" else ""
    return quoted(f"--{row.name}=[{about}]:{message}:{action}")


def zsh(options):
    arrays = {it: it.lower() for it in options.lists}
    own = [f"'(- *)'{{{short},{long}}}'[{text}]'" for (short, long), text in OWN.items()]
    lines = [f"local -a commands own program {' '.join(arrays.values())}", f"own=({own[0]})", f"program=($own {' '.join(own[1:])})"]
    for name, rows in options.lists.items():
        lines += [f"{arrays[name]}=(", *(f"    {zsh_row(it, options.letters)}" for it in rows if is_option(it)), ")"]
    pairs = [*((it.name, it.about) for it in options.commands), (HELP, HELP_TEXT)]
    lines += ["commands=(", *("    " + quoted(name + ":" + about.replace(":", r"\:")) for name, about in pairs), ")"]
    arms = []
    for it in options.commands:
        words = ["_arguments", "$own", *(f"${arrays[name]}" for name in it.lists)]
        if it.name in FILES:
            what, end = FILES[it.name]
            place = "1" if any(row.kind in ONE for row in rows_of(options, it)) else "*"
            words.append(quoted(f"{place}:{what}:_files" + (f' -g "*{end}"' if end else "")))
        arms.append(f"{it.name}) {' '.join(words)} ;;")
    arms.append(f"{HELP}) _arguments '1:command:({' '.join(name for name, _ in pairs)})' ;;")
    return {"options": lines, "commands": arms}


def bash_values(rows, end):
    """The cases of the options with a value; those that take the same are one case. `end` follows each name."""
    calls = {}
    for row in rows:
        own = f"_sealer_words {quoted(' '.join(offered(row)))} \"$current\"; " if offered(row) else ""
        own = KINDS[row.kind][1] if row.kind in KINDS else own
        name = f"--{row.name}{end}"
        if any(name in names for call, names in calls.items() if call != own):
            die(f"{name}: what is offered differs from one command to the other, and completions/sealer.bash can't say that")
        if name not in calls.setdefault(own, []):
            calls[own].append(name)
    return [f"    {' | '.join(names)}) {call}return ;;" for call, names in calls.items()]


def bash(options):
    rows = [row for rows in options.lists.values() for row in rows if row.value]
    values = ["case $before$cut in", *bash_values([it for it in rows if it.words], "1"), "esac"]
    values += ["case $before in", *bash_values([it for it in rows if not it.words], ""), "esac"]
    commands = [*(it.name for it in options.commands), HELP]
    words = [f"'') words='{' '.join([*commands, *(it for pair in OWN for it in reversed(pair))])}' ;;"]
    for it in options.commands:
        names = [f"--{row.name}" for row in rows_of(options, it) if is_option(row)] + ["--help", "-h"]
        filled = "\n            ".join(textwrap.wrap(" ".join(names), BASH_COLUMNS, break_on_hyphens=False))
        words.append(f"{it.name}) words='{filled}' ;;")
    words.append(f"{HELP}) words='{' '.join(commands)}' ;;")
    files = [f"*:{name}) _sealer_files \"$current\"{f' {end}' if end else ''} ;;" for name, (_, end) in FILES.items()]
    return {"values": values, "words": "\n".join(words).split("\n"), "files": files}


def fish_row(row):
    if row.kind in KINDS:
        value = f" {KINDS[row.kind][2]}"
    else:
        value = (" -x" if row.value and not row.words else "") + (f" -a {quoted(' '.join(offered(row)))}" if offered(row) else "")
    return f"-l {row.name}{value} -d {quoted(brief(row))}"


def fish(options):
    commands = [*(it.name for it in options.commands), HELP]
    first = f"complete -c sealer -n 'not __sealer_command {' '.join(commands)}'"
    lines = [f"{first} -a {it.name} -d {quoted(it.about)}" for it in options.commands] + [f"{first} -a {HELP} -d {quoted(HELP_TEXT)}"]
    lines.append(f"complete -c sealer -n '__sealer_command {HELP}' -a '{' '.join(commands)}'")
    for start, ((short, long), text) in zip(("complete -c sealer", first), OWN.items()):
        lines.append(f"{start} -s {short[1:]} -l {long[2:]} -d {quoted(text)}")
    for name, rows in options.lists.items():
        start = f"complete -c sealer -n '__sealer_command {' '.join(it.name for it in options.commands if name in it.lists)}'"
        lines += ["", *(f"{start} {fish_row(it)}" for it in rows if is_option(it))]
    lines.append("")
    for name, (_, end) in FILES.items():
        lines.append(f"complete -c sealer -n '__sealer_command {name}' " + (f"-k -xa '(__fish_complete_suffix {end})'" if end else "-F"))
    return {"options": lines}


# ---- the files


def with_parts(name, parts):
    """A file with these parts in it, each indented as its comments are."""
    text, found = (TOP / name).read_text(encoding="utf-8"), []

    def replaced(it):
        found.append(it["part"])
        lines = (f"{it['indent']}{line}".rstrip() for line in parts.get(it["part"], []))
        return it["first"] + "".join(f"{line}\n" for line in lines) + it["last"]

    comment = r"(?:#|\.\\\")"
    first = rf"(?P<first>^(?P<indent> *){comment} {re.escape(BEGIN)}(?P<part>\w+)\n)"
    text = re.sub(rf"{first}.*?(?P<last>^ *{comment} {re.escape(END)}\n)", replaced, text, flags=re.M | re.S)
    if sorted(found) != sorted(parts) or text.count(BEGIN) != len(found) or text.count(END) != len(found):
        die(f"{name} has comments of the parts {sorted(found)}, and not of {sorted(parts)}")
    return text


def checked(options):
    """The options, if the tables of this tool fit them."""
    for command in options.commands:
        if (command.name in FILES) == all(map(is_option, rows_of(options, command))):
            die(f"{command.name}: it takes FILEs and the table FILES lacks it, or the other way round")
    for row in [row for rows in options.lists.values() for row in rows]:
        if row.value and not (row.kind in KINDS or row.numbers or row.words):
            die(f"--{row.name}: the table KINDS lacks {row.kind}")
    return options


def texts_of(options):
    """The files by name, and what should be in them."""
    texts = {f"tools/help/{it.name}.txt": help_of_command(options, it) for it in options.commands}
    texts["tools/help/sealer.txt"] = help_of_program(options)
    made = {"man/sealer.1": page, "completions/_sealer": zsh, "completions/sealer.bash": bash, "completions/sealer.fish": fish}
    texts.update({name: with_parts(name, make(options)) for name, make in made.items()})
    known = {row.name for rows in options.lists.values() for row in rows} | {long[2:] for _, long in OWN}
    for name in re.findall(r"\bFl Fl ([\w-]+)", texts["man/sealer.1"]):
        if name not in known:
            die(f"man/sealer.1 has --{name}, and no command takes it")
    return texts


def main():
    if sys.argv[1:] not in ([], ["--write"]):
        sys.exit(__doc__)
    options = checked(read())
    texts = texts_of(options)
    differ = [it.name for it in (TOP / "tools/help").iterdir() if f"tools/help/{it.name}" not in texts]
    for name in differ:
        print(f"tools/help/{name}: there is no such command")
    for name, text in texts.items():
        old = (TOP / name).read_text(encoding="utf-8") if (TOP / name).exists() else ""
        if old != text and sys.argv[1:]:
            (TOP / name).write_text(text, encoding="utf-8")
            print(f"written: {name}")
        elif old != text:
            differ.append(name)
            print("".join(difflib.unified_diff(old.splitlines(True), text.splitlines(True), name, f"{name} by the sources")), end="")
    if differ:
        sys.exit(f"make_options.py: {len(differ)} files differ; --write makes them what the sources say")
    count = sum(len(rows_of(options, it)) for it in options.commands)
    print(f"{len(options.commands)} commands, {count} options and files of them: {len(texts)} files are as the sources have them")


if __name__ == "__main__":
    main()
