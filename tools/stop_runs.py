#!/usr/bin/env python3
"""stop_runs.py [NIGHTS [NIGHT]]: stops the built program at its system calls, by strace, and checks what the next run does.

Over one ledger file that lives on, with one lane, two lanes and two workers, into a folder and a tree, and for a stream with one worker and
two, also with a witness, the program is killed at each of its system calls. Each of its calls on files and memory also fails (EIO, ENOSPC,
EINTR, ENOMEM). After a kill no number may be issued that a container already has, and the next run must succeed. After an error the run
must end by itself, with a status and a text of docs/MANUAL.md. An output that is there is whole, and its line doesn't say that it failed. A
journal without a fault is legal and has nothing open. What was written of a stream begins its container, and is all of it if its line says
so. All stops are tried, side by side over the processors, each process over its own ledger; with NIGHTS each NIGHTS-th, from the NIGHT-th
on (0).

Then it is killed as it makes a ledger, at each of its calls on files, and cut within each of its writes there: the next run succeeds, and no
number comes twice. A ledger that was emptied beside the log of a later run, wherever that was killed, is refused.

Then it is killed at its calls over a ledger and a witness that another device and another key share: none of them is refused after it.

Then it is killed right after its first finished output, and the log is deleted, cut at 20 lengths, has one bit flipped at 50 places, or is
another ledger's, with pages or without. The next run gives a number that no run had, or ends with `ledger: cannot open` and leaves the file
unchanged. The same holds if the file itself is cut at each page and around its ends, has a page of zeros, or one after it, with its log and
without. A file that is lost or emptied must be refused. At last, in a ledger with two keys and two devices, the log of a killed run is put
back after two more runs of its key and device: the next run gives a number that none of them had, or is refused.

Prints 'N stops as they should be', or what differs. Needs strace, and Python's package `cryptography`: if one is missing it says so and exits
with status 0; under CI it fails.
"""
import multiprocessing
import os
import re
import shutil
import signal
import subprocess
import sys
import tempfile
import time
from collections import Counter

sys.dont_write_bytecode = True
try:
    import cryptography.hazmat.primitives.ciphers.aead
except ImportError:
    print("stop_runs: skipped, Python's package cryptography isn't there")
    sys.exit(1 if os.environ.get("CI") else 0)
from seal_container import sealed

top = os.path.abspath(os.path.join(os.path.dirname(__file__), ".."))
sealer = os.environ.get("SEALER", f"{top}/crates/sealer/out/sealer")
key = f"{top}/examples/key"
with open(key, encoding="ascii") as digits:
    KEY = bytes.fromhex(digits.read())
nights = int(sys.argv[1]) if len(sys.argv) > 1 else 1
night = int(sys.argv[2]) if len(sys.argv) > 2 else 0

# What a run may print on standard error, and the lines that it may print.
TEXTS = re.compile(
    r"(usage: (an argument is no text|out of memory)|error: out of memory|key: (cannot open|read failed)|journal: (cannot create|out of memory|write failed)"
    r"|ledger: (cannot open|store failed|out of memory|not a ledger|not there)"
    r"|witness: (cannot open|cannot create|no line of this key and device|not a witness|out of memory|write failed))"
)
LINES = re.compile(r"sealed \S+ file [0-9]+ bytes [0-9]+|failed \S+: (cannot open|cannot create|read failed|write failed|out of memory)")
# The calls that are made to fail, and how.
ON_FILES = "openat read pread64 write pwrite64 fsync fdatasync ftruncate lseek statx newfstatat close fadvise64 readlink getcwd fchmod fchown fcntl ioctl link unlink rename".split()
ON_MEMORY = ["mmap", "mremap", "munmap", "mprotect", "madvise", "clone3"]
# At these the program is only killed: they are the loader's and the threads', neither on files nor on memory.
OTHERS = "execve access arch_prctl set_tid_address set_robust_list rseq prlimit64 getrandom futex rt_sigaction rt_sigprocmask exit exit_group".split()
FAULTS = {**{call: ("error=EIO", "error=ENOSPC", "error=EINTR") for call in ON_FILES}, **{call: ("error=ENOMEM",) for call in ON_MEMORY}}
# It returns the end of the heap, never an error; an unchanged end means that memory was refused.
FAULTS["brk"] = ("retval=0",)
# The ledger's bytes, and that the disk has them: a run that couldn't ensure these must report it.
MUST_SHOW = ["fsync", "fdatasync", "pwrite64", "ftruncate"]
# These are called any number of times, and do nothing.
PASSED_OVER = ["sched_yield"]
WITNESS = ["--witness", "witness"]
TREE = ["--into", "out", "--parents"]
WAYS = {
    "one lane": [],
    "two lanes": ["--lanes", "2"],
    "two workers": ["--workers", "2"],
    "one lane, a witness": WITNESS,
    "into a folder": ["--into", "out"],
    "two lanes, into a tree": [*TREE, "--lanes", "2"],
}
STREAMS = {"a stream": ["--depth", "2"], "a stream by two workers": ["--workers", "2", "--depth", "2"], "a stream, a witness": ["--depth", "2", *WITNESS]}

if not shutil.which("strace"):
    print("stop_runs: skipped, strace is not there")
    sys.exit(1 if os.environ.get("CI") else 0)

# Of this process, in a folder of its own:
given = {}  # the prefix of each container that was ever seen, and where
stops = 0
told = []


def differs(what):
    told.append(what)


def command(way, files):
    begin = ["--key", key, "--ledger", "ledger", "--device", "1", "--journal", "journal"]
    return [sealer, "pipe", *begin, *STREAMS[way]] if way in STREAMS else [sealer, "seal", *begin, *WAYS[way], *files]


def ran(way, strace, **more):
    """A run of the files a and b, or of a stream as long as a, whose container is written to a.stm. Its lines are on standard output."""
    if way not in STREAMS:
        return subprocess.run([*strace, *command(way, ["a", "b"])], capture_output=True, text=True, **more)
    with open("a", "rb") as source, open("a.stm", "wb") as container:
        run = subprocess.run([*strace, *command(way, [])], stdin=source, stdout=container, stderr=subprocess.PIPE, text=True, **more)
    lines = run.stderr.splitlines(keepends=True)
    run.stdout = "".join(line for line in lines if " -" in line)
    run.stderr = "".join(line for line in lines if " -" not in line)
    return run


def outputs():
    """The outputs, whole or in part, here and in the folder of --into."""
    return sorted(os.path.join(at, name) for at in (".", "out") if os.path.isdir(at) for name in os.listdir(at) if name.endswith((".stm", ".part")))


def output_of(way, name):
    return f"out/{name}.stm" if "into" in way else f"{name}.stm"


def clear():
    for name in (*outputs(), "journal"):
        if os.path.exists(name):
            os.remove(name)
    # what --into needs is there; what --parents makes isn't
    os.makedirs("out", exist_ok=True)


def take(what):
    """The outputs in the folder, whole or in part, have prefixes that no container had. One file can have two names."""
    seen = set()
    for name in outputs():
        with open(name, "rb") as file:
            begin, number = file.read(17), os.fstat(file.fileno()).st_ino
        if number in seen:
            continue
        seen.add(number)
        if len(begin) == 17:
            if begin[10:] in given:
                differs(f"{what}: {name} has the number of {given[begin[10:]]}")
            given[begin[10:]] = f"{name}, {what}"
    clear()


def calls(way):
    """How often each thread makes each call, at most, after the opening of the key file and in all."""
    ran(way, ["strace", "-f", "-o", "trace"], check=True)
    own, late = Counter(), Counter()
    begun = False
    with open("trace", encoding="utf-8", errors="replace") as file:
        for line in file:
            found = re.match(r"([0-9]+) +([a-z_0-9]+)\(", line)
            if not found:
                continue
            begun = begun or "examples/key" in line and found[2] == "openat"
            own[found[1], found[2]] += 1
            if not begun:
                late[found[2]] += 1
    most = Counter()
    for (_, call), count in own.items():
        most[call] = max(most[call], count)
    take(f"the run that counts calls, {way}")
    return most, late


def witness_of(way):
    return WITNESS if "witness" in way else []


def stopped(way, call, n, how):
    """One run that is stopped, and then one that isn't. Returns whether the first was killed."""
    global stops
    stops += 1
    what = f"{way}, {call} {n}, {how}"
    words = ["strace", "-f", "-qq", "-o", "/dev/null", "-e", f"trace={call}", "-e", f"inject={call}:{how}:when={n}"]
    try:
        run = ran(way, words, timeout=60)
    except subprocess.TimeoutExpired:
        differs(f"{what}: hangs")
        return False
    if how != "signal=KILL":
        if run.returncode not in (0, 1, 2):
            differs(f"{what}: status {run.returncode}")
        if run.returncode == 0 and call in MUST_SHOW and how in ("error=EIO", "error=ENOSPC"):
            differs(f"{what}: it is not reported")
        for line in run.stderr.splitlines():
            if not TEXTS.fullmatch(line):
                differs(f"{what}: prints {line}")
        for line in run.stdout.splitlines():
            if not LINES.fullmatch(line) and "write" != call:
                differs(f"{what}: prints {line}")
        if (run.returncode == 2) != bool(run.stderr) and call != "write":
            differs(f"{what}: status {run.returncode} with '{run.stderr.strip()}'")
        if (run.returncode == 1) != ("failed " in run.stdout) and call != "write":
            differs(f"{what}: status {run.returncode} with '{run.stdout.strip()}'")
        if way in STREAMS:
            streamed(what, run)
        for name in ("a", "b") if way in WAYS else ():
            output = output_of(way, name)
            if os.path.exists(output):
                check = subprocess.run([sealer, "verify", "--key", key, output], capture_output=True, text=True, timeout=60)
                if check.returncode != 0 or f"failed {name}:" in run.stdout:
                    differs(f"{what}: {output} is there: {check.stdout.strip()}, {run.stdout.strip()}")
            elif f"sealed {name} " in run.stdout:
                differs(f"{what}: no {output}")
        if not run.stderr and os.path.exists("journal") and os.path.getsize("journal"):
            with open("journal", "rb") as journal:
                audit = subprocess.run([sealer, "audit"], stdin=journal, capture_output=True, text=True, timeout=60)
            if audit.returncode != 0 or ", 0 open, " not in audit.stdout:
                differs(f"{what}: the journal is {audit.stdout.strip()}")
        for name in outputs() if way in WAYS else ():
            if name.endswith(".part"):
                differs(f"{what}: {name} is left")
    elif way in WAYS:
        both = [output_of(way, name) for name in ("a", "b")]
        for name in both:
            if os.path.exists(name):
                check = subprocess.run([sealer, "verify", "--key", key, name], capture_output=True, text=True, timeout=60)
                if check.returncode != 0:
                    differs(f"{what}: {name} is there: {check.stdout.strip()}")
        # the same command again, but for the journal, which is there
        again = [sealer, "seal", "--key", key, "--ledger", "ledger", "--device", "1", "--skip-existing", *WAYS[way], "a", "b"]
        repaired = subprocess.run(again, capture_output=True, text=True, timeout=60)
        check = subprocess.run([sealer, "verify", "--key", key, *both], capture_output=True, text=True, timeout=60)
        if repaired.returncode != 0 or check.returncode != 0:
            differs(f"{what}: --skip-existing has status {repaired.returncode}, prints {repaired.stdout}{repaired.stderr}, and then {check.stdout}")
    take(what)
    # a witness that was left at any moment refuses no ledger that goes with it
    after = subprocess.run([*command("one lane", ["c"]), *witness_of(way)], capture_output=True, text=True, timeout=60)
    if after.returncode != 0 or not after.stdout.startswith("sealed c file "):
        differs(f"{what}: the run after has status {after.returncode}, prints {after.stdout}{after.stderr}")
    take(f"the run after {what}")
    return run.returncode in (-signal.SIGKILL, 128 + signal.SIGKILL)


def streamed(what, run):
    """What a stream's run wrote is its container if its line says so, else a beginning of it."""
    with open("a.stm", "rb") as file:
        written = file.read()
    # Before its number was written there is nothing to compare it with.
    whole = sealed(KEY, 1, int.from_bytes(written[13:17], "big"), b"a" * 200_000)
    says, fails = (run.stdout.startswith(word) for word in ("sealed - ", "failed -: "))
    if not whole.startswith(written) and len(written) >= 17 or says and written != whole or fails and written == whole:
        differs(f"{what}: {len(written)} bytes were written, with '{run.stdout.strip()}'")


def number_in(name):
    with open(name, "rb") as file:
        return int.from_bytes(file.read(17)[13:], "big")


def killed_behind_an_output():
    """A run of two files that is killed as it prints the line of the first. Returns the last number of its range."""
    subprocess.run(["strace", "-o", "trace", "-e", "trace=write", *command("one lane", ["a", "b"])], stdout=subprocess.DEVNULL, check=True)
    with open("trace", encoding="utf-8", errors="replace") as file:
        writes = [line.startswith('write(1, "sealed a ') for line in file]
    clear()
    words = ["strace", "-o", "/dev/null", "-e", "trace=write", "-e", f"inject=write:signal=KILL:when={writes.index(True) + 1}"]
    subprocess.run([*words, *command("one lane", ["a", "b"])], capture_output=True)
    return number_in("a.stm") + 1


def files_of_ledger():
    with open("ledger", "rb") as ledger, open("ledger-wal", "rb") as log:
        return ledger.read(), log.read()


def put(ledger, log):
    """Makes these the ledger's two files; a log that is None isn't there."""
    with open("ledger", "wb") as file:
        file.write(ledger)
    if os.path.exists("ledger-wal"):
        os.remove("ledger-wal")
    if log is not None:
        with open("ledger-wal", "wb") as file:
            file.write(log)


def logs_with_pages():
    """The logs of runs that are killed as they reserve, or copy their log."""
    logs = []
    before = files_of_ledger()
    for n in range(30, 0, -1):
        put(*before)
        words = ["strace", "-o", "/dev/null", "-e", "trace=fdatasync", "-e", f"inject=fdatasync:signal=KILL:when={n}"]
        subprocess.run([*words, *command("one lane", ["b"])], capture_output=True)
        clear()
        log = files_of_ledger()[1]
        if len(log) > 56:
            logs.append((f"another ledger's, with pages ({n})", log))
    if not logs:
        differs("no run left a log with pages")
    return logs


def altered_ledgers():
    """One run after each alteration of the two files that a killed run left."""
    global stops
    # another ledger, and two of its logs
    subprocess.run(command("one lane", ["a"]), stdout=subprocess.DEVNULL, check=True)
    clear()
    mine = files_of_ledger()
    for name in ("ledger", "ledger-wal"):
        os.remove(name)
    killed_behind_an_output()
    clear()
    other = files_of_ledger()[1]
    others = [("another ledger's", other), *logs_with_pages()]
    put(*mine)
    last = killed_behind_an_output()
    if not os.path.exists("a.stm") or os.path.getsize("a.stm") < 200_000 or not os.path.exists("ledger-wal"):
        differs("the run was not killed after its first output")
    clear()
    ledger, log = files_of_ledger()
    bits = [round(i * (8 * len(log) - 1) / 49) for i in range(50)] if log else []
    logs = [("deleted", None), *others]
    logs += [(f"cut at {at} bytes", log[:at]) for at in sorted({len(log) * i // 20 for i in range(20)})]
    logs += [(f"bit {bit} flipped", log[: bit // 8] + bytes([log[bit // 8] ^ 1 << bit % 8]) + log[bit // 8 + 1 :]) for bit in bits]
    for what, lost in ("the ledger lost", True), ("the ledger emptied", False):
        stops += 1
        put(b"", log)
        if lost:
            os.remove("ledger")
        run = subprocess.run(command("one lane", ["c"]), capture_output=True, text=True, timeout=60)
        if (run.returncode, run.stderr) != (2, "ledger: cannot open\n") or not os.path.exists("journal") or os.path.getsize("journal"):
            differs(f"{what}: status {run.returncode}, {run.stdout}{run.stderr}")
        clear()
    for what, bytes_of_log in logs:
        stops += 1
        put(ledger, bytes_of_log)
        run = subprocess.run(command("one lane", ["c"]), capture_output=True, text=True, timeout=60)
        if run.returncode == 0:
            if number_in("c.stm") <= last:
                differs(f"the log {what}: number {number_in('c.stm')} was given before, up to {last}")
        elif (run.returncode, run.stderr) != (2, "ledger: cannot open\n") or files_of_ledger()[0] != ledger:
            differs(f"the log {what}: status {run.returncode}, {run.stderr}")
        clear()
    page = int.from_bytes(ledger[16:18], "big")
    pages = range(0, len(ledger), page)
    cuts = {1, 16, 99, 100, page - 1, len(ledger) - 1, *pages[1:]}
    files = [(f"cut at {at} bytes", ledger[:at]) for at in sorted(cuts)]
    files += [(f"with zeros at {at}", ledger[:at] + bytes(page) + ledger[at + page :]) for at in pages]
    files += [("with a page of zeros after it", ledger + bytes(page))]
    for what, bytes_of_file in files:
        for which, bytes_of_log in ("its log", log), ("no log", None):
            stops += 1
            put(bytes_of_file, bytes_of_log)
            run = subprocess.run(command("one lane", ["c"]), capture_output=True, text=True, timeout=60)
            with open("ledger", "rb") as file:
                left = file.read()
            if run.returncode == 0:
                if number_in("c.stm") <= last:
                    differs(f"the ledger {what}, with {which}: number {number_in('c.stm')} was given before, up to {last}")
            elif run.returncode != 2 or run.stderr not in ("ledger: cannot open\n", "ledger: not a ledger\n") or left != bytes_of_file:
                differs(f"the ledger {what}, with {which}: status {run.returncode}, {run.stderr}")
            clear()
    logs_put_back()


def seals_c(key_file, device):
    """A run of one file under a key and device. Returns its number, or what it printed if it was refused."""
    run = subprocess.run(seal_c(key_file, device), capture_output=True, text=True, timeout=60)
    answer = number_in("c.stm") if run.returncode == 0 else f"status {run.returncode}, {run.stderr}"
    clear()
    return answer


def seal_c(key_file, device):
    return [sealer, "seal", "--key", key_file, "--ledger", "ledger", "--device", device, "c"]


def logs_put_back():
    """Of a ledger with two keys and two devices, the log of a killed run is put back after two more of its key and device.

    The next run is refused, or gives a number that none had. For each key and device some log would take numbers back."""
    global stops
    with open("another key", "w", encoding="ascii") as file:
        file.write(KEY[::-1].hex())
    for name in ("ledger", "ledger-wal"):
        if os.path.exists(name):
            os.remove(name)
    owners = [(key_file, device) for key_file in (key, "another key") for device in ("1", "2")]
    for owner in owners:
        seals_c(*owner)
    before = files_of_ledger()
    for owner in owners:
        refused = 0
        for n in range(1, 30):
            put(*before)
            words = ["strace", "-o", "/dev/null", "-e", "trace=fdatasync", "-e", f"inject=fdatasync:signal=KILL:when={n}"]
            killed = subprocess.run([*words, *seal_c(*owner)], capture_output=True).returncode
            clear()
            log = files_of_ledger()[1]
            if killed == 0:
                break
            if len(log) <= 56:
                continue
            stops += 1
            seals_c(*owner)
            last = seals_c(*owner)
            ledger = files_of_ledger()[0]
            put(ledger, log)
            answer = seals_c(*owner)
            if answer == "status 2, ledger: cannot open\n" and files_of_ledger()[0] == ledger:
                refused += 1
            elif not isinstance(answer, int) or answer <= last:
                differs(f"device {owner[1]} of {owner[0]}, the log put back ({n}): {answer} after {last}")
        if not refused:
            differs(f"device {owner[1]} of {owner[0]}: no log takes numbers back")


def first_runs():
    """Kills a run as it makes the ledger, at each of its calls on files: the next run makes it, or goes on."""
    global stops
    mine = files_of_ledger()
    for call in ("openat", "fsync", "fdatasync", "pwrite64", "write", "ftruncate"):
        for n in range(1, 100):
            for name in ("ledger", "ledger-wal"):
                if os.path.exists(name):
                    os.remove(name)
            words = ["strace", "-f", "-qq", "-o", "/dev/null", "-e", f"trace={call}", "-e", f"inject={call}:signal=KILL:when={n}"]
            run = subprocess.run([*words, *command("one lane", ["b"])], capture_output=True)
            used = any(name.endswith((".stm", ".part")) and os.path.getsize(name) >= 17 for name in os.listdir("."))
            clear()
            if run.returncode == 0:
                break
            stops += 1
            after = subprocess.run(command("one lane", ["c"]), capture_output=True, text=True, timeout=60)
            if after.returncode != 0 or used and number_in("c.stm") == 0:
                differs(f"first run, {call} {n}: the run after has status {after.returncode}, prints {after.stdout}{after.stderr}")
            clear()
    put(*mine)


def writes_of_first_run():
    """What a run writes to the two files as it makes a ledger and reserves there, in order: which of them, bytes and where, or None and a length."""
    for name in ("ledger", "ledger-wal"):
        if os.path.exists(name):
            os.remove(name)
    words = ["strace", "-f", "-y", "-xx", "-s", "1000000", "-o", "trace", "-e", "trace=pwrite64,ftruncate"]
    subprocess.run([*words, *command("one lane", ["b"])], stdout=subprocess.DEVNULL, check=True)
    clear()
    writes = []
    with open("trace", encoding="ascii") as file:
        for line in file:
            found = re.match(r'[0-9]+ +(pwrite64|ftruncate)\([0-9]+<([^>]*)>, (?:"([^"]*)", [0-9]+, )?([0-9]+)\) += ', line)
            if not found:
                continue
            path = bytes.fromhex(found[2].replace("\\x", "")).decode()
            which = os.path.basename(path)
            if which in ("ledger", "ledger-wal"):
                data = bytes.fromhex(found[3].replace("\\x", "")) if found[3] is not None else None
                writes.append((which, data, int(found[4])))
    return writes


def cuts_of(data):
    """How many bytes of a write reach the file: of a small one each number, of a page some."""
    return range(len(data) + 1) if len(data) <= 64 else sorted({0, 1, 23, 24, 25, 100, 511, 512, 513, len(data) // 2, len(data) - 1, len(data)})


def first_writes():
    """Cuts a run as it makes a ledger within each of its writes, and leaves what was written, or its length with zeros: the next run makes it, or
    goes on, and no number comes twice. The same by a limit on a file's length, which ends a write where it is met."""
    global stops
    mine = files_of_ledger()
    files = {"ledger": b"", "ledger-wal": b""}
    states = []
    for at, (which, data, place) in enumerate(writes_of_first_run()):
        if data is None:
            files[which] = files[which][:place].ljust(place, b"\0")
            states.append((f"{which} set to {place} bytes ({at})", dict(files)))
            continue
        for cut in cuts_of(data):
            for what, end in ("nothing after it", b""), ("zeros after it", bytes(len(data) - cut)):
                new = data[:cut] + end
                # what is after the write stays as it was
                body = files[which].ljust(place, b"\0") if new else files[which]
                left = body[:place] + new + body[place + len(new) :]
                states.append((f"{cut} bytes of a write of {len(data)} at {place} of {which} ({at}), {what}", {**files, which: left}))
        body = files[which].ljust(place, b"\0")
        files[which] = body[:place] + data + body[place + len(data) :]
    if len(states) < 100:
        differs(f"a first run leaves {len(states)} states")
    seen = set()
    for what, state in states:
        if tuple(state.values()) in seen:
            continue
        seen.add(tuple(state.values()))
        stops += 1
        put(state["ledger"], state["ledger-wal"])
        goes_on(f"first run, {what}")
    for limit in [*range(64), 100, 1000, *range(4095, 40000, 1024)]:
        for name in ("ledger", "ledger-wal"):
            if os.path.exists(name):
                os.remove(name)
        stops += 1
        cut = subprocess.run(["prlimit", f"--fsize={limit}", *command("one lane", ["b"])], capture_output=True, text=True, timeout=60)
        used = os.path.exists("b.stm") and os.path.getsize("b.stm") >= 17
        clear()
        goes_on(f"first run, no file over {limit} bytes (status {cut.returncode})", used)
    put(*mine)


def goes_on(what, used=False):
    """Two runs: the first gives number 0, or 1 where 0 was reserved, and the second the next one."""
    numbers = []
    for _ in range(2):
        run = subprocess.run(command("one lane", ["c"]), capture_output=True, text=True, timeout=60)
        if run.returncode != 0:
            differs(f"{what}: a run after has status {run.returncode}, prints {run.stdout}{run.stderr}")
            clear()
            return
        numbers.append(number_in("c.stm"))
        clear()
    if numbers[0] not in ((1,) if used else (0, 1)) or numbers[1] != numbers[0] + 1:
        differs(f"{what}: the runs after have the numbers {numbers}")


def emptied_beside_each_log():
    """Empties a ledger beside each log that a killed later run leaves. None counts as begun, even if it is cut or its header damaged."""
    global stops
    before = files_of_ledger()
    logs = [before[1]]
    for call in ("pwrite64", "fdatasync", "ftruncate"):
        for n in range(1, 60):
            put(*before)
            words = ["strace", "-f", "-qq", "-o", "/dev/null", "-e", f"trace={call}", "-e", f"inject={call}:signal=KILL:when={n}"]
            status = subprocess.run([*words, *command("one lane", ["b"])], capture_output=True).returncode
            clear()
            if status == 0:
                break
            if files_of_ledger()[1] not in logs:
                logs.append(files_of_ledger()[1])
    if len(logs) < 10 or max(map(len, logs)) < 4096:
        differs(f"later runs leave {len(logs)} logs")
    for at, log in enumerate(logs):
        tried = [("whole", log)]
        if len(log) > 56:
            tried += [(f"without byte {byte}", log[:byte] + bytes([log[byte] ^ 0xFF]) + log[byte + 1 :]) for byte in (0, 1, 12, 16, 24, 31, 32, 40, 48)]
            tried += [("without a header", bytes(32) + log[32:]), ("cut at its first page", log[:57])]
        for how, bytes_of_log in tried:
            for emptied in (b"", b"\0"):
                stops += 1
                put(emptied, bytes_of_log)
                run = subprocess.run(command("one lane", ["c"]), capture_output=True, text=True, timeout=60)
                clear()
                if (run.returncode, run.stderr) != (2, "ledger: cannot open\n") or files_of_ledger() != (emptied, bytes_of_log):
                    differs(f"the ledger emptied beside log {at} of {len(log)} bytes, {how}: status {run.returncode}, {run.stdout}{run.stderr}")
    put(*before)


def one_witness():
    """Kills runs of one key and device at their calls on files, over a ledger and a witness that another device and another key share. What such
    a run left may not refuse any of them, though their ranges end at the same number, and no number comes twice."""
    global stops
    with open("another key", "w", encoding="ascii") as file:
        file.write("7" * 64)
    owners = {"device 1": (key, "1"), "device 2": (key, "2"), "another key": ("another key", "1")}
    files = [f"file {n}" for n in range(4)]
    for name in files:
        with open(name, "w", encoding="ascii") as file:
            file.write(name)
    next_of = dict.fromkeys(owners, 0)
    seen, left = set(), Counter()

    def words(owner, count, *more):
        path, device = owners[owner]
        return [sealer, "seal", "--key", path, "--ledger", "shared", "--device", device, "--witness", "seen", *more, *files[:count]]

    def collect(owner, what):
        """The numbers of the outputs, which no container of the owner has. They are removed. One file can have two names."""
        files_of = {os.stat(name).st_ino: name for name in outputs() if os.path.getsize(name) >= 17}
        numbers = [number_in(name) for name in files_of.values()]
        for number in numbers:
            if (owner, number) in seen:
                differs(f"{what}: {owner} has number {number} twice")
            seen.add((owner, number))
        clear()
        return numbers

    def seals(owner, count, what, *more):
        run = subprocess.run(words(owner, count, *more), capture_output=True, text=True, timeout=60)
        numbers = collect(owner, what)
        if run.returncode != 0 or len(numbers) != count:
            differs(f"{what}: {owner} has status {run.returncode}, prints {run.stdout}{run.stderr}")
            return
        next_of[owner] = max(numbers) + 1

    for owner in owners:
        seals(owner, 1, "the first runs", "--new-witness")
    for call in ("openat", "fchown", "write", "fsync", "rename", "unlink"):
        for n in range(1, 40):
            what = f"one witness, {call} {n}"
            begin = max(next_of.values())
            for owner, number in next_of.items():
                if number < begin:
                    seals(owner, begin - number, what)
            killed = ["strace", "-f", "-qq", "-o", "/dev/null", "-e", f"trace={call}", "-e", f"inject={call}:signal=KILL:when={n}"]
            status = subprocess.run([*killed, *words("device 1", 1)], capture_output=True).returncode
            collect("device 1", what)
            if status == 0:
                next_of["device 1"] += 1
                break
            stops += 1
            left.update({name.rsplit(".", 1)[1] for name in os.listdir(".") if name.startswith("seen.")})
            for owner in ("device 2", "another key", "device 1"):
                seals(owner, 1, what)
            for name in os.listdir("."):
                if name.startswith("seen."):
                    os.remove(name)
    if left["new"] < 3 or not left["try"]:
        differs(f"one witness: kills left {dict(left)}")


def in_a_folder(work):
    """Does some work in a folder of its own, over a ledger that has a number. Returns the stops, and what differs."""
    folder = tempfile.mkdtemp(dir=shared)
    os.chdir(folder)
    given.clear()
    told.clear()
    global stops
    stops = 0
    with open("a", "w", encoding="ascii") as file:
        file.write("a" * 200_000)
    for name in ("b", "c"):
        with open(name, "w", encoding="ascii") as file:
            file.write(name)
    subprocess.run(command("one lane", ["a"]), stdout=subprocess.DEVNULL, check=True)
    take("the first run")
    subprocess.run([*command("one lane, a witness", ["c"]), "--new-witness"], stdout=subprocess.DEVNULL, check=True)
    take("the run that makes the witness")
    answer = work()
    os.chdir("/")
    shutil.rmtree(folder)
    return answer, stops, list(told)


def all_stops():
    found = []
    for way in (*WAYS, *STREAMS):
        most, late = calls(way)
        for call, count in sorted(most.items()):
            if call in PASSED_OVER:
                continue
            if call not in FAULTS and call not in OTHERS:
                differs(f"{way}: nothing is known of the call {call}")
            hows = [("signal=KILL", 1)] + [(fault, late[call] + 1) for fault in FAULTS.get(call, ())]
            found += [(way, call, n, how) for how, first in hows for n in range(first, count + 1)]
    return found


WORKS = {
    "altered ledgers": altered_ledgers,
    "first runs": first_runs,
    "first writes": first_writes,
    "emptied ledgers": emptied_beside_each_log,
    "one witness": one_witness,
}


def worked(chosen):
    """The work of one process: some stops, or what has a name."""
    if isinstance(chosen, str):
        return in_a_folder(WORKS[chosen])
    return in_a_folder(lambda: [stopped(*stop) for stop in chosen])


begun = time.monotonic()
# In memory if possible: the disk's speed doesn't matter here.
place = "/dev/shm" if os.access("/dev/shm", os.W_OK) and shutil.disk_usage("/dev/shm").free > 1 << 28 else None
shared = tempfile.mkdtemp(dir=place)
processors = len(os.sched_getaffinity(0))
stops_to_try, _, bad = in_a_folder(all_stops)
stops_to_try = stops_to_try[night % nights :: nights]
parts = [*WORKS] + [stops_to_try[i :: 4 * processors] for i in range(4 * processors)]
counts, met = [], 0
with multiprocessing.Pool(processors) as pool:
    for part, (answer, some, wrong) in zip(parts, pool.imap(worked, parts)):
        counts.append(some)
        met += sum(answer) if isinstance(part, list) else 0
        bad += wrong
count, kills = sum(counts), sum(how == "signal=KILL" for _, _, _, how in stops_to_try)
# Threads make some calls fewer times in one run than in another.
if 2 * met < kills:
    bad.append(f"of {kills} kills {met} met the program")
print(
    f"altered ledgers: {counts[0]} and {counts[3]} emptied; kills: {kills}, {counts[1]} as a ledger is made and {counts[4]} over one witness, "
    f"cuts of its writes: {counts[2]}; "
    f"calls that fail: {len(stops_to_try) - kills}"
)
shutil.rmtree(shared)
for line in bad:
    print(line)
if bad:
    print(f"{len(bad)} faults in {count} stops")
    sys.exit(1)
print(f"{count} stops as they should be, in {time.monotonic() - begun:.0f} s")
