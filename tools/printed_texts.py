"""What the program can print of itself, by its sources: the faults of each command, and its lines.

A fault comes after `failed NAME: `, or after a subject on standard error. Its texts are those of the types in FAULTS, which are read
from the sources, less what NEVER says; a number in a text is N. The parser's own texts, of usage and of help, aren't among them.
"""
import functools
import re
from pathlib import Path

TOP = Path(__file__).resolve().parent.parent
# For each command the types of the faults after each subject. Those of RunFault begin with their subject. A cause is a second line.
CAUSE = {"cause": ["Cause"]}
RUN = {"key": ["KeyFault"], "ledger": ["LedgerFault"], "journal": ["JournalFault"], "witness": ["WitnessFault"], "": ["RunFault"], **CAUSE}
FAULTS = {
    "seal": {**RUN, "failed": ["FileFault"], "usage": ["UsageFault", "PlaceFault"]},
    "pipe": {**RUN, "failed": ["FileFault"], "usage": ["UsageFault"]},
    "unpipe": {"failed": ["FileFault"], "key": ["KeyFault"], "usage": ["UsageFault"], **CAUSE},
    "open": {"failed": ["FileFault"], "key": ["KeyFault"], "usage": ["UsageFault", "PlaceFault"], **CAUSE},
    "verify": {"failed": ["FileFault"], "key": ["KeyFault"], "against": ["AgainstFault"], "usage": ["UsageFault"], **CAUSE},
    "show": {"failed": ["FileFault"], "show": ["TellFault"], "usage": ["UsageFault"], **CAUSE},
    "audit": {"audit": ["AuditFault", "TellFault"], "failed": ["FileFault"], "usage": ["UsageFault"], **CAUSE},
    "ledger": {"failed": ["FileFault"], "key": ["KeyFault"], "ledger": ["LedgerFault", "TellFault"], "usage": ["UsageFault"], **CAUSE},
}
# The line with the cause of a FILE: its texts are those of the others, after the FILE's name.
OF_A_FILE = "cause: {name}: {cause}"
# The causes that only a ledger file has, those that only a journal has, and those that only a FILE has, or its output or spool.
OF_LEDGER = "NoPath LostLedger EmptyLedger AnotherLog UnusableLog HardLink LeftJournal CannotMake Empty NoDatabase NoTables SomethingElse Damaged Held"
OF_JOURNAL = "Exists OfLedger"
OF_WITNESS = "AnotherFile NoLine NoWitness NoRoom"
OF_OUTPUT = "NoOutputName LinkOnWay OutputThere OutputShared OutputTaken PartGone"
OF_FILE = f"{OF_OUTPUT} OwnFile NoText TooLarge"
# The faults that can't come at these commands, and why.
NEVER = (
    ("seal", "FileFault", "NoSuffix AnotherLabel Changed SpoolFailed Unopened", "IsOfSealing leaves them out"),
    ("seal", "SealFault", "TooManyChunks", "IsOfSealing leaves it out"),
    ("pipe", "FileFault", "CannotOpen NoSuffix OutputExists CannotCreate OutOfMemory AnotherLabel Changed SpoolFailed Unopened", "IsOfPiping leaves them out"),
    ("pipe", "SealFault", "TooLong", "the length of a stream is bounded by chunks: answer_of_stream"),
    ("unpipe", "FileFault", "NoSuffix OutputExists CannotCreate OutOfMemory NoNumber Unsealed", "IsOfUnpiping leaves them out"),
    ("open", "FileFault", "OutOfMemory NoNumber SpoolFailed Unsealed", "IsOfOpening leaves them out"),
    ("verify", "FileFault", "NoSuffix OutputExists CannotCreate OutOfMemory NoNumber Changed SpoolFailed Unsealed", "IsOfVerifying leaves them out"),
    ("verify", "OpenFault", "Write", "IsOfVerifying leaves it out"),
    ("show audit ledger", "FileFault", "NoSuffix OutputExists CannotCreate OutOfMemory NoNumber AnotherLabel Changed SpoolFailed Unsealed", "IsOfLooking leaves them out"),
    ("show audit ledger", "OpenFault", "TooLong KeyMismatch BadLength Forged OutOfMemory Write", "IsOfLooking leaves them out"),
    ("show audit ledger", "UsageFault", "Missing OutOfRange LanesAndWorkers LabelTooLong InputTwice NoSpoolFolder Terminal", "there is no such option, and - is the name of a file"),
    ("show audit ledger", "UsageFault", "ToForMany ToAndOthers ToNoFile InputNeedsName", "there is no --to"),
    ("show", "UsageFault", "FilesAlone", "there is no --against"),
    ("seal pipe unpipe open verify", "UsageFault", "FilesAlone", "there is no --against"),
    ("seal pipe unpipe open verify show ledger", "UsageFault", "InputIsJournal", "there is no journal on standard input"),
    ("seal pipe unpipe open verify", "UsageFault", "Missing OutOfRange", "the parser takes no words without these arguments, and no other numbers"),
    ("pipe unpipe open verify", "UsageFault", "LanesAndWorkers", "there is no --lanes"),
    ("unpipe open verify show audit ledger", "UsageFault", "TwoJournals", "there is no option for a journal"),
    ("seal pipe unpipe verify", "UsageFault", "ToForMany ToAndOthers ToNoFile InputNeedsName", "there is no --to"),
    ("seal pipe open verify", "UsageFault", "NoSpoolFolder", "there is no spool"),
    ("seal pipe unpipe", "UsageFault", "InputTwice", "- is the name of a file, or there is no list of FILEs"),
    ("open", "UsageFault", "InputTwice", "- needs --to, which takes one file and excludes --files-from"),
    ("seal open verify", "UsageFault", "Terminal", "nothing but lines goes to standard output"),
    ("pipe unpipe", "UsageFault", "NoFiles EmptyName ListNoText CannotReadList", "there is no list of FILEs"),
    ("seal pipe", "ReserveFault", "ZeroCount", "a run without FILEs ended before"),
    ("pipe", "ReserveFault", "TooMany", "it reserves one number"),
    ("ledger", "LedgerFault", "NotSeen", "there is no witness"),
    ("unpipe open verify", "Cause", f"{OF_LEDGER} {OF_JOURNAL} {OF_WITNESS}", "there is no ledger, and no journal"),
    ("ledger", "Cause", f"CannotMake {OF_JOURNAL} {OF_WITNESS}", "there is no journal and no witness"),
    ("show audit", "Cause", f"NoDigits {OF_LEDGER} {OF_JOURNAL} {OF_WITNESS}", "there is no key, no ledger, and no journal file"),
    ("pipe audit", "Cause", "Input", "there is no list, or - is no list: standard input is the journal"),
    ("pipe", "Cause", f"{OF_OUTPUT} OwnFile NoText", "there is no FILE with a cause"),
    ("ledger show audit", "Cause", f"{OF_OUTPUT} OwnFile TooLarge", "a FILE is only read, and can be any file"),
    ("unpipe verify", "Cause", OF_OUTPUT, "there is no output with a name"),
    ("open verify", "Cause", "OwnFile", "a FILE can be any file"),
    ("verify", "Cause", "TooLarge", "nothing is written to a file"),
    ("unpipe", "Cause", "NoText", "its name is a path"),
)
# The line about a key file that others can read, and its commands.
WARNING = r'eprintln!\(rt; "(warning: \{path\} can be read by others)"\)'
WARNED = ("seal", "pipe", "unpipe", "open", "verify", "ledger")
# The line about a FILE that changes while it is sealed.
CHANGED = r'eprintln!\(rt; "(warning: \{name\} changed while it was sealed)"\)'
# The line about lines of --against that are passed over.
PASSED_OVER = r'eprintln!\(rt; "(warning: lines of \{path\} passed over: \{others\})"\)'
# The lines about names that can't be used, as the sources print them: each with its text, and its commands. A fault is PieceFault's.
OF_LISTS = "seal open verify show audit ledger"
OF_OUTPUTS = "seal open"
OF_NAMES = {
    "cause: {unit} {number} of the list is {wanted}": ("cause: line N of the list is {fault}", ("Empty", "NotText"), OF_LISTS),
    "list: {unit} {number}: {fault}": ("list: line N: {fault}", ("Empty",), OF_LISTS),
    "list: {unit} {number}: {fault}: {name}": ("list: line N: {fault}: NAME", ("NotText",), OF_LISTS),
    "list: {unit} {number}: - cannot be standard input": ("list: line N: - cannot be standard input", ("",), "open verify"),
    "list: {unit} {number}: no last name: {name}": ("list: line N: no last name: NAME", ("",), OF_OUTPUTS),
    "list: {unit} {number}: has the output of {unit} {other}": ("list: line N: has the output of line N", ("",), OF_OUTPUTS),
    "list: {unit} {number}: has the output of '{name}'": ("list: line N: has the output of 'NAME'", ("",), OF_OUTPUTS),
    "cause: {file}": ("cause: 'NAME'", ("",), OF_OUTPUTS),
    "cause: {first} and {file}": ("cause: 'NAME' and 'NAME'", ("",), OF_OUTPUTS),
}
# The types of faults that are never printed themselves, and what becomes of them.
UNPRINTED = {
    "PieceFault": "a part of the lines of OF_NAMES",
    "Failed": "a stream's: read failed, or write failed",
    "FolderFault": "an output's: output exists, or cannot create",
    "BookFault": "a Book's, which the program doesn't have",
    "OpenLedgerFault": "ledger: out of memory, of RunFault",
    "IssueFault": "no file number, or out of memory, of FileFault",
    "SettleFault": "it can't come of a number that was granted",
    "BadRange": "it can't come of a range that was reserved",
    "PutFault": "a Shelf's, which the program doesn't have",
    "ShelfFault": "the same",
}
# For each command its lines on standard output, or of pipe and unpipe on standard error. To unpipe standard input is a FILE that is '-'.
LINES = {
    "seal": ["FileOutcome::Sealed", "FileOutcome::Failed"],
    "pipe": ["FileOutcome::Sealed", "FileOutcome::Failed"],
    "unpipe": ["FileOutcome::Opened", "FileOutcome::Failed"],
    "open": ["FileOutcome::Opened", "FileOutcome::Failed"],
    "verify": ["FileOutcome::Good", "FileOutcome::Shown", "FileOutcome::Failed"],
    "show": ["Shown::", "FileOutcome::Failed"],
    "audit": ["Verdict::Legal", "Verdict::Malformed", "Verdict::Illegal", "FileOutcome::Failed"],
    "ledger": ["Holding::", "KeyAlone::", "FileOutcome::Failed"],
}
# The lines of --against, each with its command, and how the sources print it.
AGAINST = {
    "verify": [r'=> b"(missing )"', r'=> b"(other number )"', r'=> b"(not listed )"'],
    "ledger": [r'"(ledger: older than \{name\})\\n"'],
    "audit": [r'"(not sealed \{name\})\\n"', r'"(missing file \{number\})\\n"'],
}
# The line of a FILE that is kept, which print_kept writes.
KEPT = r'"(kept \{name\})\\n"'
# The types that are written by the code of another one.
WRITTEN_BY = {"FileOutcome": "Line"}
# Code that prints, except `eprintln!(RUNTIME; TEXT)` whose runtime is a single name.
PRINT = r'\b(?:e?print|println)!\([^;]*;\s*"[^"]*|\beprintln!\((?!\s*\w+;)[^;]*'
ARM = r"\b[A-Z]\w*::([A-Z]\w*)(?: \{[^}]*\}|\([^=]*?\))? =>"


def read_sources():
    """The code of the crates that the program is made of, less its comments."""
    files = [it for it in sorted((TOP / "crates").glob("*/src/**/*.rt")) if not re.search(r"crates/(\w+_(tests|memory)|bench)/", str(it))]
    return re.sub(r"^\s*//.*\n", "", "".join(it.read_text(encoding="utf-8") for it in files), flags=re.M)


SOURCES = read_sources()


def only(pattern, what):
    """The one place of the sources that a pattern fits."""
    found = re.findall(pattern, SOURCES, re.M | re.S)
    if len(found) != 1:
        raise SystemExit(f"the sources have {len(found)} of {what}, and not one")
    return found[0]


def written(code):
    """The text that a piece of code writes, with its holes."""
    code = re.sub(r"\bwrite_(?!str|char)\w+\(f, ", 'write_str("{it}"), (', code)
    return "".join(re.findall(r'write(?:!\(\s*f,|_str\()\s*"((?:[^"\\]|\\.)*)"', code))


@functools.cache
def texts_by_variant(name):
    """The text of each variant of a type, with its holes; without variants it is that of the empty name."""
    if name not in WRITTEN_BY and re.search(rf"\benum {name} \{{\n[^}}]*#\[error\(", SOURCES):
        body = only(rf"\benum {name} \{{\n(.*?)^\}}", f"enum {name}")
        return dict((variant, text) for text, variant in re.findall(r'#\[error\("([^"]*)"\)\]\s*(\w+)', body))
    writer = WRITTEN_BY.get(name, name)
    code = only(rf"^impl (?:fmt::)?Display for {writer}(?:<'_>)? \{{\n(.*?)^\}}", f"Display for {writer}")
    parts = re.split(ARM, code)
    return dict(zip(parts[1::2], map(written, parts[2::2]))) or {"": written(code)}


@functools.cache
def variants(name):
    """The variants of a type, each with what it holds."""
    body = only(rf"\benum {name} \{{\n(.*?)^\}}", f"enum {name}")
    return dict(re.findall(r"^    (\w+)\b(.*?),$", body, re.M | re.S))


def texts(name, never):
    """The texts of a type of faults, but for those of the variants that never come."""
    by_variant, held = texts_by_variant(name), variants(name)
    if by_variant.keys() != held.keys():
        raise SystemExit(f"{name}: which of {', '.join(sorted(held))} has which text?")
    for variant, text in by_variant.items():
        if (name, variant) in never:
            continue
        if re.search(r"\{(0|fault)\}", text):
            for further in texts(re.search(r"\w+Fault", held[variant]).group(0), never):
                yield re.sub(r"\{(0|fault)\}", further, text)
        else:
            yield re.sub(r"\{\w+\}", "N", text)


@functools.cache
def everywhere():
    """The texts that the program prints itself, before it knows its command."""
    printed = re.findall(r'\beprintln!\(\s*\w+;\s*"([^"]*)"', SOURCES)
    warnings = {
        only(WARNING, "the warning about a key file"), only(CHANGED, "the warning about a FILE"),
        only(PASSED_OVER, "the warning about lines"),
    }
    apart = {"{subject}: {fault}", "cause: {cause}", OF_A_FILE, *OF_NAMES, *warnings}
    if not apart <= set(printed):
        raise SystemExit("where are faults and causes printed?")
    return frozenset(printed) - apart


def faults(command):
    """The texts of a command's faults: those after `failed NAME: `, and those on standard error, with their subjects."""
    never = {(name, it) for commands, name, several, _ in NEVER for it in several.split() if command in commands.split()}
    failed, errors = set(), set(everywhere())
    if command in WARNED:
        errors.add(only(WARNING, "the warning about a key file").replace("{path}", "F"))
    if command == "seal":
        errors.add(only(CHANGED, "the warning about a FILE").replace("{name}", "FILE"))
    if command == "verify":
        errors.add(only(PASSED_OVER, "the warning about lines").replace("{path}", "F").replace("{others}", "N"))
    for text, variants_of_it, commands in OF_NAMES.values():
        if command in commands.split():
            errors.update(text.replace("{fault}", texts_by_variant("PieceFault").get(it, "")) for it in variants_of_it)
    for subject, names in FAULTS[command].items():
        for name in names:
            for text in texts(name, never):
                if subject == "failed":
                    failed.add(text)
                else:
                    errors.add(f"{subject}: {text}" if subject else text)
    return failed, errors


def lines(command):
    """The lines of a command, with X for what varies."""
    if command in ("seal", "open"):
        yield only(KEPT, "the line of a FILE that is kept").replace("{name}", "X")
    for it in AGAINST.get(command, []):
        line = re.sub(r"\{[\w:]+\}", "X", only(it, f"a line of {command} --against"))
        yield line + "X" if line.endswith(" ") else line
    for it in LINES[command]:
        name, variant = it.split("::")
        for line in texts_by_variant(name)[variant].split("\\n"):
            line = texts_by_variant("Facts")[""] if line == "{facts}" else line.replace("{end}", " label {label}")
            line = line.replace("{name}", "-") if command == "pipe" else line
            yield re.sub(r"\{[\w:]+\}", "X", line).strip()


def unlisted():
    """What the sources print, or could, that is not in the tables above; and what these have that the sources don't."""
    reached = {name for subjects in FAULTS.values() for names in subjects.values() for name in names}
    for name in sorted(reached):
        reached.update(re.findall(r"\w+Fault", " ".join(variants(name).values())))
    derived = r"#\[derive\([^)]*Error\)\]\s*(?:#\[error\([^)]*\)\]\s*)?(?:pub(?:\(crate\))? )?(?:enum|struct) (\w+)"
    types = set(re.findall(derived, SOURCES)) | set(re.findall(r"^impl Error for (\w+)", SOURCES, re.M)) | {"FileFault"}
    for name in sorted(types ^ (reached | UNPRINTED.keys())):
        yield f"{name}: {'nobody knows who prints it' if name in types else 'there is no such type'}"
    for name in sorted(reached & UNPRINTED.keys()):
        yield f"{name}: it is printed"
    for _, name, several, _ in NEVER:
        for variant in several.split():
            if variant not in variants(name):
                yield f"{name}::{variant}: there is none"
    for it in re.findall(PRINT, SOURCES):
        if " of {all} files, " not in it and '"\\r\\x1b[K' not in it:
            yield f"{' '.join(it.split())}: is it a text of a fault, or a line?"
    subjects = set(re.findall(r'\b(?:print_complaint|explain)\(\s*rt,\s*"(\w*)"', SOURCES))
    for it in sorted(subjects ^ ({it for table in FAULTS.values() for it in table} - {"failed", "", "cause"})):
        yield f"a fault of '{it}': {'nobody knows its types' if it in subjects else 'it is printed nowhere'}"
    told = {tuple(it.split("::")) for several in LINES.values() for it in several}
    for name in sorted({name for name, _ in told}):
        for variant in sorted(texts_by_variant(name).keys() ^ {it for other, it in told if other == name}):
            yield f"{name}::{variant}: {'nobody knows who prints it' if (name, variant) not in told else 'there is none'}"
