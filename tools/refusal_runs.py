#!/usr/bin/env python3
"""refusal_runs.py [EVERY]: runs the built program with each of its allocations refused in turn, with threads refused, and with reads and
writes that move few bytes (tools/refuse.c).

For each kind of run below the 1st, 2nd, .. allocation is refused alone, and in other runs that one and all after it, until a run meets no
refusal. For a sealing only each second is refused with all after it, and over a log each fourth. For a stream, and for outputs in a folder,
only the last ones are refused, after the ledger's; for a stream also each fourth and eighth of all. EVERY multiplies these distances; with 0
every allocation is refused. Each read and write is also limited to 1, 2, 4, 8, .. bytes. The kinds run side by side over the processors.

Whatever is refused, the run ends by itself with a status and a text of docs/MANUAL.md, and both fit its lines. An output is whole or absent,
and absent if its line says that it failed; what was written of a stream begins its container, or the plaintext of `unpipe`, which writes
nothing of a container that doesn't check. A journal that was written is legal, and no
other file is left. The next run on the ledger succeeds, under a number that no output and no journal has.

Prints what each kind had and 'N refusals as they should be', or what differs. Without a C compiler it says so and exits with status 0, and
under CI it fails. The program is crates/sealer/out/sealer, or $SEALER.
"""
import dataclasses
import hashlib
import multiprocessing
import os
import re
import shutil
import subprocess
import sys
import tempfile
import time

top = os.path.abspath(os.path.join(os.path.dirname(__file__), ".."))
sealer = os.path.abspath(os.environ.get("SEALER", f"{top}/crates/sealer/out/sealer"))
key = f"{top}/examples/key"
every = int(sys.argv[1]) if len(sys.argv) > 1 else 1
# Seconds after which a run hangs, and faults of one process after which it ends.
HANG, ENOUGH = 60, 5
# Refusing these changes no answer.
HARMLESS = ("REFUSE_THREADS", "REFUSE_BEYOND")

TEXTS = re.compile(
    r"usage: (an argument is no text|out of memory|cannot read the list)|error: out of memory|key: cannot open|journal: (cannot create|out of memory)"
    r"|ledger: out of memory|audit: out of memory"
)
# The text of a ledger that is always refused. Of any other, refused memory is told as memory.
REFUSED = "ledger: cannot open"
# If memory is refused while the run's own files are looked up, a stream's input isn't read.
FAULT = re.compile(r"failed (\S+): (out of memory|cannot open|cannot create)|failed -: (read failed|spool failed)|failed -: chunk 6 does not check")
DONE = re.compile(r"sealed (\S+) file ([0-9]+) bytes ([0-9]+)|(?:opened|good) (\S+) bytes ([0-9]+)|legal: .*|key [0-9a-f]{14} device .*")
# Texts that some run must print.
WANTED = (
    "failed a: out of memory", "failed -: out of memory", "failed long.stm: out of memory", "ledger: out of memory", "journal: out of memory", "audit: out of memory",
    "failed -: spool failed", "error: out of memory", "usage: an argument is no text", "ledger: cannot open",
)


def text(lines):
    return "".join(f"{i}\n" for i in range(1, lines + 1)).encode()


# The long one has seven chunks. The last three are long enough for the second lane to begin before the first has sealed all.
# `great` is worth four workers to `open` and `verify`: one for each MiB.
FILES = {"small": text(400), "long": text(70_000), "great": text(620_000), "a": text(8_000), "b": text(9_000)[::-1], "c": text(10_000), "next": b"next\n"}
FILES["again"] = FILES["great"]
FILES.update({"x": text(90_000), "y": text(80_000)[::-1], "z": text(85_000)})
# It needs a spool.
HUGE = bytes(range(256)) * (17 << 12)
THREE, LANES = ["a", "b", "c"], ["x", "y", "z"]


@dataclasses.dataclass
class Kind:
    """One command. `given` are the files in its folder, and `made` the files that it works."""

    name: str
    words: list
    made: list
    given: dict = dataclasses.field(default_factory=dict)
    least: int = 800  # a run has at least this many allocations
    which: tuple = ("REFUSE", "REFUSE_FROM", "REFUSE_BEYOND")
    input: bytes = b""
    line: str = ""  # what is printed if nothing is refused
    first: int = 0  # the number that a sealing begins at
    each: dict = dataclasses.field(default_factory=dict)  # the distance of the refused allocations, if it isn't 1
    refused: bool = False  # the ledger is always refused
    threads: bool = False  # some allocation is another thread's; workers make none
    whole: bytes = b""  # what `unpipe` writes if nothing is refused
    last: int = 0  # if not 0, only this many of the last allocations are refused
    told: str = ""  # a text that some run must print where one allocation alone is refused
    heals: int = 0  # it does without this many of its allocations at least: with one of them alone refused a run answers as with none

    @property
    def status(self):
        """That of a run that nothing is refused."""
        return int(self.line.startswith("failed "))


def read(name):
    with open(name, "rb") as file:
        return file.read()


def put(files):
    """Leaves only these files in the folder."""
    for name in os.listdir("."):
        os.remove(name)
    for name, data in files.items():
        with open(name, "wb") as file:
            file.write(data)


def started(words, **more):
    return subprocess.run([sealer, *words], capture_output=True, timeout=HANG, **{"stdin": subprocess.DEVNULL, **more})


def sealing(*words):
    return ["seal", "--key", key, "--ledger", "ledger", "--device", "1", *words]


def piping(*words):
    return ["pipe", "--key", key, "--ledger", "ledger", "--device", "1", "--journal", "journal", *words]


class Checker:
    """The runs of one process, in a folder of its own."""

    def __init__(self, made, shared):
        self.made, self.shared = made, shared
        self.count, self.bad, self.seen, self.healed = 0, [], set(), 0

    def differs(self, what):
        self.bad.append(f"{self.what}: {what}: {self.out} {self.err} status {self.status}")

    def refused(self, kind, which, n):
        """One run and what it leaves. Returns whether something was refused."""
        self.what, self.out, self.err, self.status = f"{kind.name}, {which}={n}", None, None, None
        put(kind.given)
        env = {**os.environ, which: str(n), "LD_PRELOAD": f"{self.shared}/refuse.so"}
        try:
            more = {"input": kind.input, "stdin": None} if kind.input else {}
            ran = started(kind.words, env=env, **more)
        except subprocess.TimeoutExpired:
            self.count += 1
            self.differs("hangs")
            return True
        told = ran.stderr.decode(errors="replace").splitlines()
        self.err = [line for line in told if not line.startswith("refused ")]
        if kind.words[0] in ("pipe", "unpipe"):
            # The line of a stream is on standard error.
            self.out = [line for line in self.err if FAULT.fullmatch(line) or DONE.fullmatch(line)]
            self.err = [line for line in self.err if line not in self.out]
        else:
            self.out = ran.stdout.decode(errors="replace").splitlines()
        self.status = ran.returncode
        met = [line for line in told if line.startswith("refused ")]
        self.seen.update(self.out, self.err, met)
        self.healed += bool(met) and self.status == kind.status
        self.answer(kind, which, bool(met))
        if kind.words[0] == "seal":
            self.sealed(kind)
        elif kind.words[0] == "pipe":
            self.streamed(kind, ran.stdout)
        elif kind.words[0] == "unpipe":
            self.unpiped(kind, ran.stdout)
        else:
            self.opened(kind)
        self.count += bool(met)
        return bool(met)

    def answer(self, kind, which, met):
        """Status, texts and lines go together."""
        faults = [line for line in self.out if FAULT.fullmatch(line)]
        wanted = max(len(kind.made), 1)
        if self.status not in (0, 1, 2):
            return self.differs("another status")
        known = len(self.err) == 1 and (TEXTS.fullmatch(self.err[0]) or kind.refused and self.err[0] == REFUSED)
        if self.err and (not known or self.status != 2):
            self.differs("another text")
        if any(line not in faults and not DONE.fullmatch(line) for line in self.out) or len(self.out) > wanted:
            self.differs("another line")
        if self.status == 2:
            # All is printed and nothing is wrong: a single refusal can't do that.
            if not self.err and len(self.out) == wanted and which == "REFUSE":
                self.differs("no cause")
        elif len(self.out) != wanted or self.status != bool(faults):
            self.differs("another status")
        if not met and self.status != kind.status and not kind.refused:
            self.differs("no refusal, and fails")
        return None

    def outputs(self, kind, name_of, wanted):
        """Each output is whole or absent, as its line says, and no other file is left. Returns which are there."""
        left = set(os.listdir(".")) - set(kind.given)
        if kind.words[0] in ("seal", "pipe"):
            left -= {"ledger", "ledger-wal", "journal"}
        for name in kind.made if wanted else ():
            output = name_of(name)
            said = [line.split(" ")[0] for line in self.out if line.split(" ")[1:2] in ([name], [f"{name}:"])]
            if output in left:
                if read(output) not in wanted(name):
                    self.differs(f"{output} is not whole")
                if "failed" in said:
                    self.differs(f"{output} is there")
            elif said and "failed" not in said:
                self.differs(f"no {output}")
        if left - {name_of(name) for name in kind.made}:
            self.differs(f"leaves {sorted(left)}")
        for name, data in kind.given.items():
            if (kind.words[0] == "ledger" or not name.startswith("ledger")) and read(name) != data:
                self.differs(f"alters {name}")
        return left

    def opened(self, kind):
        if kind.words[0] == "open":
            self.outputs(kind, lambda name: name[:-4], lambda name: [FILES[name[:-4]]])
        else:
            self.outputs(kind, lambda name: None, None)
        for line in self.out:
            if not line.startswith("failed ") and line not in kind.line.split("\n"):
                self.differs("another answer")
        if len(set(self.out)) != len(self.out):
            self.differs("a line twice")

    def sealed(self, kind):
        size = len(kind.made)
        if kind.refused:
            # Over it numbers would be issued again: no run opens or alters it.
            if self.status != 2 or self.out or set(os.listdir(".")) - {"journal"} != set(kind.given):
                self.differs(f"leaves {sorted(os.listdir('.'))}")
            if any(read(name) != data for name, data in kind.given.items()):
                self.differs("alters a file")
            return
        there = self.outputs(kind, lambda name: f"{name}.stm", lambda name: [self.made[name, kind.first + i] for i in range(size)])
        numbers = {name[:-4]: int.from_bytes(read(name)[13:17], "big") for name in there if name.endswith(".stm")}
        if len(set(numbers.values())) != len(numbers):
            self.differs("one number twice")
        for name, number, length in (DONE.fullmatch(line).groups()[:3] for line in self.out if line.startswith("sealed ")):
            if numbers.get(name) != int(number) or len(FILES[name]) != int(length):
                self.differs(f"{name} has number {numbers.get(name)}")
        self.followed(kind, there)

    def streamed(self, kind, written):
        """What was written is the stream's container if its line says so, else a beginning of it."""
        self.outputs(kind, lambda name: None, None)
        whole = self.made["long", kind.first]
        if self.out == [f"sealed - file {kind.first} bytes {len(kind.input)}"]:
            if written != whole:
                self.differs("another container")
        elif any(line.startswith("sealed ") for line in self.out):
            self.differs("another line")
        elif not whole.startswith(written) or self.out and written == whole:
            self.differs(f"{len(written)} bytes that aren't the container's")
        self.followed(kind, {"-"} if written else set())

    def unpiped(self, kind, written):
        """What was written is the plaintext if its line says so, else a beginning of it; nothing if the container doesn't check."""
        self.outputs(kind, lambda name: None, None)
        is_all = self.out == [kind.line]
        if not is_all and any(not line.startswith("failed ") for line in self.out):
            self.differs("another line")
        if is_all and written != kind.whole or not kind.whole.startswith(written) or self.out and not is_all and written == kind.whole != b"":
            self.differs(f"{len(written)} bytes that aren't the plaintext's")
        if written and self.out == ["failed -: spool failed"]:
            self.differs(f"{len(written)} bytes before the whole check")

    def followed(self, kind, there):
        """The journal, if one was written, and the next run; `there` is what was written."""
        size = len(kind.made)
        journal = read("journal") if os.path.exists("journal") else b""
        if journal and not self.err:
            verdict = started(["audit"], input=journal, stdin=None)
            found = re.fullmatch(rb"legal: ([0-9]+) granted, ([0-9]+) sealed, ([0-9]+) void, 0 open, 0 refused\n", verdict.stdout)
            if verdict.returncode != 0 or not found:
                self.differs(f"the journal is {verdict.stdout}")
            elif kind.words[0] == "pipe":
                granted, sealed, _ = map(int, found.groups())
                if granted < len(there) or self.out and sealed != self.out[0].startswith("sealed "):
                    self.differs(f"the journal is {verdict.stdout}")
            elif int(found[2]) < len(there):
                self.differs(f"{len(there)} outputs, and the journal is {verdict.stdout}")
        # The range was reserved or not; it was if something was done with it.
        if os.path.exists("ledger") or there:
            after = started(sealing("next"))
            found = re.fullmatch(rb"sealed next file ([0-9]+) bytes 5\n", after.stdout)
            if after.returncode != 0 or not found:
                self.differs(f"the next run prints {after.stdout} {after.stderr}")
            elif int(found[1]) != kind.first + size and (there or journal or int(found[1]) != kind.first):
                self.differs(f"the next number is {found[1]}")


def containers():
    """Each file's container under each number that it can get, by the program itself."""
    made = {}
    for names in (three[first:] + three[:first] for three in (THREE, LANES) for first in (0, 1, 2)):
        put(FILES)
        assert started(sealing(*names)).returncode == 0
        made.update({(name, number): read(f"{name}.stm") for number, name in enumerate(names)})
    for name in ("small", "long", "great"):
        put(FILES)
        for number in range(3):
            assert started(sealing(name)).returncode == 0
            made[name, number] = read(f"{name}.stm")
            os.remove(f"{name}.stm")
    return made


def files_of_ledger():
    return {name: read(name) for name in ("ledger", "ledger-wal") if os.path.exists(name)}


def ledgers():
    """A ledger file that has a number; the same beside the log of a run that was killed as it reserved; and beside that log one that has
    more numbers, which the log would take back."""
    put(FILES)
    assert started(sealing("a")).returncode == 0
    used = files_of_ledger()
    if not shutil.which("strace"):
        return used, None, None
    for n in range(1, 40):
        put({**FILES, **used})
        words = ["strace", "-f", "-o", "/dev/null", "-e", "trace=fdatasync", "-e", f"inject=fdatasync:signal=KILL:when={n}"]
        subprocess.run([*words, sealer, *sealing("small")], capture_output=True)
        cut = files_of_ledger()
        # The log has the reservation whole, and the ledger file hasn't it yet.
        if len(cut.get("ledger-wal", b"")) > 56 and cut["ledger"] == used["ledger"] and b" file 2 " in started(sealing("next")).stdout:
            put({**FILES, **used})
            assert started(sealing("a", "b", "c", "small")).returncode == 0
            return used, cut, {**files_of_ledger(), "ledger-wal": cut["ledger-wal"]}
    return used, None, None


def huge_container():
    """A container that needs a spool."""
    put({"huge": HUGE})
    assert started(sealing("--exponent", "20", "huge")).returncode == 0
    return read("huge.stm")


def kinds(made):
    huge_stm = huge_container()
    ledger, cut, back = ledgers()
    some = lambda *names, **more: {**{name: FILES[name] for name in (*names, "next")}, **more}
    numbers, long_stm, great_stm = read(f"{top}/examples/numbers.stm"), made["long", 0], made["great", 0]
    history = read(f"{top}/examples/journal.txt")
    verdict = "legal: 2 granted, 1 sealed, 1 void, 0 open, 1 refused"
    half, quarter = {"REFUSE_FROM": 2}, {"REFUSE_FROM": 4}
    yield Kind("seal", sealing("--journal", "journal", "small"), ["small"], some("small"), each=half)
    yield Kind("seal by two workers", sealing("--workers", "2", "--journal", "journal", "long"), ["long"], some("long"), each=half)
    yield Kind("seal three by two lanes", sealing("--lanes", "2", "--journal", "journal", *LANES), LANES, some(*LANES), threads=True, each=half)
    yield Kind("seal three", sealing("--journal", "journal", *THREE), THREE, some(*THREE), each=half)
    no_memory = "ledger: out of memory"
    yield Kind("seal over a ledger", sealing("--journal", "journal", "small"), ["small"], some("small", **ledger), first=1, each=half, told=no_memory)
    # What they do after the ledger.
    placed = ["--into", ".", "--journal", "journal"]
    yield Kind("seal into a folder", sealing(*placed, "--sync", *THREE), THREE, some(*THREE), last=150)
    yield Kind("lanes into a folder", sealing(*placed, "--lanes", "2", *LANES), LANES, some(*LANES), threads=True, last=150)
    if cut:
        yield Kind("seal over a log", sealing("--journal", "journal", "small"), ["small"], some("small", **cut), first=2, each=quarter)
        given = some("small", **back)
        yield Kind("seal over another log", sealing("--journal", "journal", "small"), ["small"], given, 100, refused=True, each=quarter, told=no_memory)
    elif os.environ.get("CI"):
        sys.exit("refusal_runs: no run left a log")
    stream = FILES["long"]
    # What they do after the ledger, and at a distance all.
    yield Kind("pipe", piping(), ["-"], some(), input=stream, last=150)
    yield Kind("pipe by two workers", piping("--workers", "2", "--depth", "3"), ["-"], some(**ledger), input=stream, first=1, last=150)
    both, wide = ("REFUSE", "REFUSE_FROM"), {"REFUSE": 4, "REFUSE_FROM": 8}
    yield Kind("pipe, all of it", piping(), ["-"], some(), which=both, input=stream, each=wide)
    unpiping, line = ["unpipe", "--key", key, "--spool", "."], f"opened - bytes {len(stream)}"
    for workers in ("1", "2"):
        yield Kind(f"unpipe by {workers}", [*unpiping, "--workers", workers], ["-"], input=long_stm, least=50, line=line, whole=stream, each=half)
    damaged = long_stm[:-1] + bytes([long_stm[-1] ^ 1])
    yield Kind("unpipe what does not check", unpiping, ["-"], input=damaged, least=40, line="failed -: chunk 6 does not check", each=half)
    # The last allocations make its spool.
    spooled = f"opened - bytes {len(HUGE)}"
    yield Kind("unpipe by a spool", unpiping, ["-"], input=huge_stm, least=100, which=both, line=spooled, whole=HUGE, last=24)
    opened, good = (f"{word} long.stm bytes {len(FILES['long'])}" for word in ("opened", "good"))
    great_opened, great_good = (f"{word} great.stm bytes {len(FILES['great'])}" for word in ("opened", "good"))
    for workers in ("1", "2"):
        by, great = ["--key", key, "--workers", workers], {"great.stm": great_stm}
        # Of two: a round of four chunks is made by the first thread alone if it can't be shared (the last one has a chunk and always is). And
        # without letter boxes or a buffer none works beside it.
        rounds = len(FILES["great"]) // (1 << 18) if workers == "2" else 0
        yield Kind(f"open by {workers}", ["open", *by, "great.stm"], ["great.stm"], great, 50, line=great_opened, heals=2 * rounds + bool(rounds))
        yield Kind(f"verify by {workers}", ["verify", *by, "great.stm"], ["great.stm"], great, 40, line=great_good, heals=rounds + bool(rounds))
        # Workers that run serve the next file too.
        two, both = ["great.stm", "again.stm"], great | {"again.stm": great_stm}
        for word, line in (("open", great_opened), ("verify", great_good)):
            yield Kind(f"{word} two by {workers}", [word, *by, *two], two, both, 50, line=f"{line}\n{line.replace('great', 'again')}")
    yield Kind("open a small one", ["open", "--key", key, "small.stm"], ["small.stm"], {"small.stm": numbers}, 40, line="opened small.stm bytes 1492")
    into = ["--key", key, "--into", ".", "long.stm"]
    yield Kind("open into a folder", ["open", *into], ["long.stm"], {"long.stm": long_stm}, 40, line=opened)
    listed = {"long.stm": long_stm, "list": b"long.stm\n"}
    yield Kind("verify a list", ["verify", "--key", key, "--files-from", "list"], ["long.stm"], listed, 40, line=good)
    holding = f"key {hashlib.sha256(bytes.fromhex(read(key).decode().strip())).hexdigest()[:14]} device 1 ranges 1 given 1 left 4294967295"
    yield Kind("ledger", ["ledger", "--ledger", "ledger"], [], ledger, 100, line=holding, told=no_memory)
    yield Kind("audit", ["audit"], [], least=10, input=history, line=verdict)
    # Of four workers or lanes three are threads. If one can't be started the others do its work, with the same answer.
    by = ("REFUSE_THREADS",)
    yield Kind("seal, threads refused", sealing("--workers", "4", "long"), ["long"], some("long"), 3, by)
    yield Kind("open, threads refused", ["open", "--key", key, "--workers", "4", "great.stm"], ["great.stm"], {"great.stm": great_stm}, 3, by, line=great_opened)
    yield Kind("verify, threads refused", ["verify", "--key", key, "--workers", "4", "great.stm"], ["great.stm"], {"great.stm": great_stm}, 3, by, line=great_good)
    yield Kind("lanes, threads refused", sealing("--lanes", "4", *LANES), LANES, some(*LANES), 2, by)
    yield Kind("pipe, threads refused", piping("--workers", "4"), ["-"], some(), 3, by, stream)


def allocations(checker, kind):
    """How many a run makes: the last that can be refused."""
    least, most = 0, 1 << 14
    while most - least > 1:
        n = (least + most) // 2
        least, most = (n, most) if checker.refused(kind, "REFUSE", n) else (least, n)
    return least


def part(asked):
    """One kind's runs from a first one on, at a distance. A process does them in a folder of its own."""
    kind, which, first, step, made, shared = asked
    with tempfile.TemporaryDirectory(dir=shared) as folder:
        os.chdir(folder)
        checker = Checker(made, shared)
        n = first
        if kind.last and every and which not in HARMLESS:
            n += max(0, allocations(checker, kind) - kind.last)
        while checker.refused(kind, which, n) and len(checker.bad) < ENOUGH:
            if which in HARMLESS and checker.status != (2 if kind.refused else kind.status):
                checker.differs("another answer")
            n += n if which == "REFUSE_BEYOND" else step
        # It isn't fixed in which run another thread makes some.
        for _ in range(25) if kind.threads and which == "REFUSE" else ():
            checker.refused(kind, "REFUSE_OTHERS", 1)
        os.chdir("/")
    return kind.name, which, n, checker


def main():
    if not shutil.which("cc"):
        print("refusal_runs: skipped, no C compiler is there")
        sys.exit(1 if os.environ.get("CI") else 0)
    begun = time.monotonic()
    # In memory if possible: the disk's speed doesn't matter here.
    processors = len(os.sched_getaffinity(0))
    place = "/dev/shm" if os.access("/dev/shm", os.W_OK) and shutil.disk_usage("/dev/shm").free > processors << 25 else None
    with tempfile.TemporaryDirectory(dir=place) as shared:
        subprocess.run(["cc", "-O2", "-shared", "-fPIC", "-o", f"{shared}/refuse.so", f"{top}/tools/refuse.c", "-ldl"], check=True)
        os.mkdir(f"{shared}/first")
        os.chdir(f"{shared}/first")
        made = containers()
        all_kinds = list(kinds(made))
        os.chdir("/")
        asked = []
        for kind in all_kinds:
            for which in kind.which:
                each = every * kind.each.get(which, 1) or 1
                step = 1 if which in HARMLESS else processors * each
                parts = 1 if which in HARMLESS else processors
                asked += [(kind, which, 1 + i * each, step, made, shared) for i in range(parts)]
        count, bad, seen, ends = 0, [], set(), {}
        with multiprocessing.Pool(processors) as pool:
            for name, which, end, checker in pool.imap_unordered(part, asked):
                count += checker.count
                bad += checker.bad
                seen |= checker.seen
                runs, least, told, healed = ends.get((name, which), (0, end, set(), 0))
                ends[name, which] = (runs + checker.count, min(least, end), told | checker.seen, healed + checker.healed)
    for kind in all_kinds:
        for which in kind.which:
            runs, end, told, healed = ends[kind.name, which]
            print(f"{kind.name}: {runs} by {which}")
            if end <= (1 if which == "REFUSE_BEYOND" else kind.least) and not bad:
                bad.append(f"{kind.name}, {which}: only {end - 1} allocations")
            if kind.told and every < 2 and which == "REFUSE" and kind.told not in told:
                bad.append(f"{kind.name}: no refusal gives: {kind.told}")
            if every < 2 and which == "REFUSE" and healed < kind.heals:
                bad.append(f"{kind.name}: does without {healed} allocations alone")
            if kind.threads and every < 2 and which == "REFUSE" and "refused to another thread" not in told:
                bad.append(f"{kind.name}: nothing was refused to another thread")
    if every < 2:
        bad += [f"no refusal gives: {line}" for line in WANTED if line not in seen]
    for line in bad[:40]:
        print(line)
    if bad:
        sys.exit(f"refusal_runs: {len(bad)} faults in {count} refusals")
    print(f"{count} refusals as they should be, in {time.monotonic() - begun:.0f} s")


if __name__ == "__main__":
    main()
