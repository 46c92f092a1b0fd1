"""A run of the program: what it is given, and what is wanted of it."""
import copy
import dataclasses
import os
import shlex
import subprocess
import tempfile

top = os.path.abspath(os.path.join(os.path.dirname(__file__), "../.."))
sealer = os.path.abspath(os.environ.get("SEALER", f"{top}/crates/sealer/out/sealer"))
# Seconds after which a run hangs.
HANG = 30


@dataclasses.dataclass
class Ask:
    """One run of the program, in a folder of its own."""

    case: int
    words: list
    names: list  # words after the others, most often of files
    files: dict  # a name, and its bytes
    status: int
    out: list  # the lines on standard output
    faults: object = ""  # what is on standard error; None is any text but an empty one
    input: bytes = b""
    container: object = None  # the bytes on standard output, in place of lines
    is_cut: bool = False  # the output is a beginning of these, but not all
    left: dict = dataclasses.field(default_factory=dict)  # the files that are there afterwards besides
    may_leave: tuple = ()  # files that may be there too


def together(asks):
    """One run of the same words over the names of all."""
    whole = copy.copy(asks[0])
    whole.names = [name for ask in asks for name in ask.names]
    whole.files = {name: data for ask in asks for name, data in ask.files.items()}
    whole.left = {name: data for ask in asks for name, data in ask.left.items()}
    whole.out = [line for ask in asks for line in ask.out]
    whole.status = max(ask.status for ask in asks)
    return whole


def write(folder, files):
    for name, data in files.items():
        with open(os.path.join(folder, name), "wb") as file:
            file.write(data)


def wrong_files(folder, ask):
    """What is wrong with the files that a run left, or None."""
    wanted = {**ask.files, **ask.left}
    found = set(os.listdir(folder)) - set(ask.may_leave)
    if found != set(wanted):
        return f"leaves the files {sorted(found)}, not {sorted(wanted)}"
    for name, data in wanted.items():
        with open(os.path.join(folder, name), "rb") as file:
            if file.read() != data:
                return f"leaves other bytes in {name}"
    return None


def is_written(out, ask):
    """Whether these bytes are the wanted container, or a beginning of it if it is cut."""
    return out != ask.container and ask.container.startswith(out) if ask.is_cut else out == ask.container


def differs(ask):
    """Runs the program. Returns what isn't as wanted, or None."""
    with tempfile.TemporaryDirectory() as folder:
        write(folder, ask.files)
        words = [sealer, *ask.words, *ask.names]
        try:
            ran = subprocess.run(words, cwd=folder, input=ask.input, capture_output=True, timeout=HANG, check=False)
        except subprocess.TimeoutExpired:
            return "hangs"
        out, faults = ran.stdout.decode(errors="replace"), ran.stderr.decode(errors="replace")
        wanted = "".join(f"{line}\n" for line in ask.out)
        if ran.returncode != ask.status:
            return f"status {ran.returncode}, not {ask.status}; prints '{out[:200]}{faults}', not '{wanted}{ask.faults or ''}'"
        if ask.container is None and out != wanted:
            return f"prints '{out}', not '{wanted}'"
        if ask.container is not None and not is_written(ran.stdout, ask):
            return f"writes {len(ran.stdout)} bytes, and not the container of {len(ask.container)}{', cut' * ask.is_cut}"
        if (not faults) if ask.faults is None else faults != ask.faults:
            return f"prints '{faults}' on standard error, not '{ask.faults or 'some text'}'"
        return wrong_files(folder, ask)


def tell(seed, ask, what):
    """Prints what isn't as wanted in a case, and keeps the files of the case."""
    folder = tempfile.mkdtemp(prefix="fuzz_containers.")
    write(folder, {**ask.files, "standard-input": ask.input})
    # In a word that isn't UTF-8, bytes are printed as question marks.
    words = shlex.join(word.encode(errors="replace").decode() for word in ask.words + ask.names)
    print(f"fuzz_containers: seed {seed}, case {ask.case}: sealer {words[:1000]}")
    print(f"    {what[:2000]}\n    its files are in {folder}", flush=True)


def faults_of(seed, asks):
    """How many of some cases, which can be one run, are wrong. They are printed."""
    whole = together(asks)
    what = differs(whole)
    if what is None:
        return 0
    alone = [(ask, differs(ask)) for ask in asks] if len(asks) > 1 else []
    bad = [(ask, text) for ask, text in alone if text is not None] or [(whole, what)]
    for ask, text in bad:
        tell(seed, ask, text)
    return len(bad)
