"""Command lines made by chance: those that are refused, and lawful ones at the bounds, with what they do."""
from fuzz.container import MOST, USUAL, Parts, shown
from fuzz.run import Ask

KEY, PLAIN = bytes(range(32)), bytes(range(200)) * 100
# The least and the greatest value of the options that take a number: of `unpipe`, `open` and `verify`, of `seal`, of `pipe`, and for version 2.
BOUNDS = {"--workers": (1, 16), "--max-bytes": (0, 2**52 - 2**20)}
SEAL_BOUNDS = {"--workers": (1, 16), "--max-bytes": (0, MOST), "--device": (0, 2**24 - 1), "--lanes": (1, 16), "--window": (1, 256), "--wait": (0, 86400)}
PIPE_BOUNDS = {"--workers": (1, 16), "--device": (0, 2**24 - 1), "--depth": (1, 64), "--max-chunks": (1, 2**32 - 1), "--wait": (0, 86400)}
SECOND_BOUNDS = {"--exponent": (12, 20)}
LABELS = ("", "a", "two words", "\u00e4" * 127 + "b", "x" * 255, "\n")
NO_NUMBERS = ("", " ", "x", "1x", "1.0", "0x1", "1e1", "1,0", "--", "99999999999999999999", "\uff11", "one", "1 1")
# Options of other commands.
NOT_OF_PIPE = ("--lanes=2", "--window=2", "--max-bytes=1", "--show", "--max-chunk=1", "--private", "--quote", "--parents")
NOT_OF_UNPIPE = ("--lanes=2", "--window=2", "--depth=2", "--max-chunks=1", "--show", "--private", "--into=.", "--skip-existing", "--files-from=key", "--parents", "--journal-in=.")
UNKNOWN = ("--worker", "--Workers", "--keys", "--key-file=key", "-k", "-w1", "--dry-run", "--max_bytes=1", "-1")
# The commands that seal; `pipe` takes no file, and `unpipe` at most one.
SEALS = ("seal", "pipe")
# What can't have the spool of standard input: there is no such folder, and it is a file.
NO_FOLDERS = ("none", "", "key")
# No command at all, or more than `audit` takes, or `show` without a file or with a value of its flag.
NO_COMMANDS = ([], ["--key", "key"], ["audit", "a"], ["audit", "--verbose", "a"], ["audit", "--key", "key"], ["audit", "audit"], ["audit", "-1"],
               ["show", "--verbose"], ["show", "--verbose=yes", "a"])


def bounds_of(command, first_only):
    """The options of a command that take a number, with their bounds."""
    if command not in SEALS:
        return BOUNDS
    return {**(SEAL_BOUNDS if command == "seal" else PIPE_BOUNDS), **({} if first_only else SECOND_BOUNDS)}


def lawful_options(rng, command, first_only):
    """Options that a command takes, each with a lawful value, or None where it takes none."""
    given = {"--key": "key"}
    for option, (least, most) in bounds_of(command, first_only).items():
        if option == "--device" or rng.random() < 0.3:
            given[option] = rng.choice((least, most, rng.randint(least, most), least + 1))
    if command != "pipe" and rng.random() < 0.3:
        given["--max-bytes"] = len(PLAIN) + rng.choice((-1, 0, 1))
    if command in SEALS:
        given["--ledger"] = "ledger"
        if rng.random() < 0.1:
            given["--no-new-ledger"] = None
    if not first_only and rng.random() < (0.4 if command in SEALS else 0.1):
        given["--label"] = rng.choice(LABELS)
    if command == "pipe" and rng.random() < 0.3:
        given["--max-chunks"] = max(1, chunks(given) + rng.choice((-1, 0, 1)))
    if command in ("pipe", "unpipe") and rng.random() < 0.1:
        # It is no terminal.
        given["--force-terminal"] = None
    if command == "unpipe" and rng.random() < 0.3:
        given["--spool"] = rng.choice((".", ".", *NO_FOLDERS))
    if not first_only and command == "verify" and rng.random() < 0.2:
        given["--show"] = None
    if command in ("seal", "open") and rng.random() < 0.1:
        given["--private"] = None
    if command in ("seal", "open", "verify") and rng.random() < 0.1:
        # Its names have nothing to escape.
        given[rng.choice(("--quote", "--keep-going"))] = None
    return given


def words_of(rng, options):
    """Options as words, in any order, each with its value in the same word or the next one."""
    words = []
    for option, value in rng.sample(options, len(options)):
        if value is None:
            words.append(option)
        elif rng.random() < 0.5 or str(value).startswith("-"):
            words.append(f"{option}={value}")
        else:
            words += [option, str(value)]
    return words


def chunks(given):
    """How many chunks PLAIN has, by these options."""
    return -(-len(PLAIN) // (1 << given.get("--exponent", 16)))


def sealed(given):
    """The container of PLAIN as these options of `seal` or `pipe` ask for it, under the first number of a new ledger."""
    prefix = given["--device"].to_bytes(3, "big") + bytes(4)
    is_second = "--exponent" in given or "--label" in given
    label = given.get("--label", "").encode() if is_second else None
    return Parts(KEY, prefix, PLAIN, given.get("--exponent", 16), label).data()


# --- What is wrong with a command line. Each gives its words, before the file's name, where one is taken, and from there on. ---


def number_past_a_bound(rng, command, given, names, first_only):
    option, (least, most) = rng.choice(list(bounds_of(command, first_only).items()))
    given[option] = rng.choice((least - 1, most + 1, most + 1, -most - 1, most + 2**32, 2**64 + least))
    return [command, *words_of(rng, list(given.items()))], names


def no_number(rng, command, given, names, first_only):
    given[rng.choice(list(bounds_of(command, first_only)))] = rng.choice(NO_NUMBERS)
    return [command, *words_of(rng, list(given.items()))], names


def option_twice(rng, command, given, names, _):
    options = list(given.items())
    return [command, *words_of(rng, options + [rng.choice(options)])], names


def unknown_option(rng, command, given, names, _):
    words = words_of(rng, list(given.items()))
    words.insert(rng.randrange(len(words) + 1), rng.choice(UNKNOWN + {"pipe": NOT_OF_PIPE, "unpipe": NOT_OF_UNPIPE}.get(command, ())))
    return [command, *words], names


def something_left_out(rng, command, given, names, _):
    required = rng.choice(["name"] * len(names) * (command != "unpipe") + ["--key"] + ["--ledger", "--device"] * (command in SEALS))
    given.pop(required, None)
    return [command, *words_of(rng, list(given.items()))], [] if required == "name" else names


def value_left_out(rng, command, given, names, first_only):
    option = rng.choice(["--key", *bounds_of(command, first_only)])
    given.pop(option, None)
    return [command, *words_of(rng, list(given.items())), *names], [option]


def another_command(rng, command, given, names, _):
    other = rng.choice((command.upper(), command + "s", command[:-1], "", "-", "--", "-v", "unseal"))
    return [other, *words_of(rng, list(given.items()))], names


def value_of_a_flag(rng, command, given, names, _):
    flags = ("--no-new-ledger", "--new-witness", "--force-terminal")[: 2 + (command == "pipe")] if command in SEALS else ("--show",)
    if command == "unpipe":
        flags = ("--force-terminal",)
    flag = rng.choice(("--verbose", *flags))
    given.pop(flag, None)
    return [command, *words_of(rng, list(given.items())), f"{flag}=yes"], names


def label_too_long(rng, command, given, names, _):
    given["--label"] = rng.choice(("x" * 256, "\u00e4" * 128))
    return [command, *words_of(rng, list(given.items()))], names


def no_text(rng, command, given, names, _):
    return [command, *words_of(rng, list(given.items()))], [*names, "\udcff"]


def file_of_a_pipe(rng, command, given, names, _):
    return [command, *words_of(rng, list(given.items()))], ["a"]


def second_file(rng, command, given, names, _):
    return [command, *words_of(rng, list(given.items()))], rng.choice((["a.stm", "-"], ["-", "-"], ["a.stm", "a.stm"]))


WRONGS = [
    number_past_a_bound, number_past_a_bound, no_number, option_twice, option_twice, unknown_option, something_left_out,
    value_left_out, another_command, no_text, value_of_a_flag,
]
# Not wrong where there are no labels.
LABEL_WRONGS = [label_too_long]
# Not wrong of the other commands.
PIPE_WRONGS = {"pipe": [file_of_a_pipe], "unpipe": [second_file]}


# --- The cases ---


def wanted_of(ask, command, given):
    """Puts into a lawful command line what is wanted of it."""
    if given.get("--lanes", 1) > 1 and given.get("--workers", 1) > 1:
        ask.status, ask.faults = 2, "usage: lanes and workers cannot both be above 1\n"
    elif "--no-new-ledger" in given:
        ask.status, ask.faults = 2, "ledger: not there\n"
    elif given.get("--spool") in NO_FOLDERS and ask.names[-1:] != ["a.stm"]:
        ask.status, ask.faults = 2, "usage: the folder of the spool is missing\n"
    elif command == "unpipe":
        name = ask.names[-1] if ask.names[-1:] == ["a.stm"] else "-"
        ask.input = b"" if name == "a.stm" else ask.files["a.stm"]
        fault = "too long" if len(PLAIN) > given.get("--max-bytes", USUAL) else "another label" if "--label" in given else None
        ask.status, ask.container = int(fault is not None), b"" if fault else PLAIN
        ask.faults = f"failed {name}: {fault}\n" if fault else f"opened {name} bytes {len(PLAIN)}\n"
    elif len(PLAIN) > given.get("--max-bytes", USUAL):
        ask.status, ask.out = 1, [f"failed {ask.names[-1]}: too long"]
    elif command not in SEALS and "--label" in given:
        ask.status, ask.out = 1, [f"failed {ask.names[-1]}: another label"]
    elif command == "pipe":
        ask.container, ask.is_cut = sealed(given), chunks(given) > given.get("--max-chunks", 1 << 14)
        ask.status = int(ask.is_cut)
        ask.faults = "failed -: too many chunks\n" if ask.is_cut else f"sealed - file 0 bytes {len(PLAIN)}\n"
    elif command == "verify":
        ask.out = [f"good a.stm bytes {len(PLAIN)}"]
        ask.out += [shown(ask.files["a.stm"])] if "--show" in given else []
    elif command == "open":
        ask.out, ask.left = [f"opened a.stm bytes {len(PLAIN)}"], {"a": PLAIN}
    else:
        ask.out, ask.left = [f"sealed a file 0 bytes {len(PLAIN)}"], {"a.stm": sealed(given)}
    if command in SEALS and ask.status != 2:
        ask.may_leave = ("ledger", "ledger-wal", "ledger-shm")


def ask(rng, case, first_only):
    """One command line."""
    if rng.random() < 0.05:
        return Ask(case, rng.choice(NO_COMMANDS), [], {}, 2, [], None)
    command = rng.choice(("verify", "open", "seal", "seal", "pipe", "pipe", "unpipe"))
    given = lawful_options(rng, command, first_only)
    files, names = {"key": KEY.hex().encode()}, []
    if command != "pipe":
        names = ["a" if command == "seal" else "a.stm"]
        files[names[0]] = PLAIN if command == "seal" else Parts(KEY, bytes(7), PLAIN).data()
    if command == "unpipe":
        names = rng.choice((["a.stm"], ["-"], []))
    if rng.random() < 0.75:
        wrong = rng.choice(WRONGS + LABEL_WRONGS * (not first_only) + PIPE_WRONGS.get(command, []))
        words, names = wrong(rng, command, given, names, first_only)
        return Ask(case, words, names, files, 2, [], None, PLAIN)
    asked = Ask(case, [command, *words_of(rng, list(given.items()))], ["--"] * rng.randrange(2) + names, files, 0, [], input=PLAIN)
    wanted_of(asked, command, given)
    return asked
