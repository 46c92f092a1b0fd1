#!/usr/bin/env python3
"""power_cuts.py: cuts the power at each call of a run with a witness, in a model of the disk, and checks what the next run does.

A run of the built program is recorded by strace, with the bytes that it writes. The model keeps of each file what the last fsync or fdatasync
left, and of the folder the names that it had at its last fsync. What came later may be there after a cut or not: nothing of it, all, each
beginning, all but one, and the last write torn within a sector's bounds; of names nothing, all, each beginning. Each such state of the ledger,
its log and its witness is laid out, with the ledger's own inode, and the same command runs again: it must succeed, and give no number that
an output had at the cut, also if its bytes never reached the disk. So no state that an honest disk leaves is refused, nor is a run of another
device whose range ends at the same number. Then the ledger and the log from before the recorded run are put back beside the witness: the next
run must be refused, and leave ledger and witness as they are.

The runs: a first one, which makes ledger and witness, as the user gives it again; a later one with --no-new-ledger; a later one of a second
device over the same two files; and, of some states after a cut, the run that repairs it, cut again. The states are tried side by side, one for
each processor, in folders in memory if there is room.

Prints 'N states as they should be', or what differs. Needs strace: if it is missing it says so and exits with status 0; under CI it fails.
"""
import multiprocessing
import os
import re
import shutil
import subprocess
import sys
import tempfile
import time

top = os.path.abspath(os.path.join(os.path.dirname(__file__), ".."))
sealer = os.environ.get("SEALER", f"{top}/crates/sealer/out/sealer")
key = f"{top}/examples/key"
if not shutil.which("strace"):
    print("power_cuts: skipped, strace is not there")
    sys.exit(1 if os.environ.get("CI") else 0)

SECTOR = 512
CALLS = "openat,write,pwrite64,fsync,fdatasync,ftruncate,rename,link,unlink"
UNKNOWN = "pwritev,writev,renameat,renameat2,linkat,unlinkat,fallocate,copy_file_range,sendfile,mkdir,sync_file_range,truncate"
O_CREAT = 0o100
CALL = re.compile(rb"(?:\d+ +)?([a-z_0-9]+)\((.*)\) += (-?\d+)")
TEXT = re.compile(rb'"((?:\\x[0-9a-f]{2})*)"')
# What marks the ledger in a line of a witness.
MARK = re.compile(rb" file [0-9]+ [0-9]+ (?:[0-9]+|-)\n")
# Bytes of a log without pages, at most.
NO_PAGES = 32 + 24
# What a run says over a ledger that was put back, or is gone.
PUT_BACK = ("ledger: older than its witness\n", "ledger: not the file its witness saw\n")
told = []


def differs(what):
    told.append(what)


def plain(text):
    return bytes.fromhex(text.replace(b"\\x", b"").decode())


class Disk:
    """Files by number, with their bytes and those that were synced; names in one folder, and those that were synced."""

    def __init__(self, files):
        self.bytes = dict(enumerate(files.values()))
        self.synced = dict(self.bytes)
        self.late = {number: [] for number in self.bytes}  # what was written to a file since its last sync
        self.names = {name: number for number, name in enumerate(files)}
        self.synced_names = dict(self.names)
        self.late_names = []

    def make(self, name):
        number = len(self.bytes)
        self.bytes[number], self.synced[number], self.late[number] = b"", b"", []
        self.name("make", name, number)

    def name(self, *change):
        renamed(self.names, change)
        self.late_names.append(change)

    def write(self, number, *change):
        self.bytes[number] = written(self.bytes[number], change)
        self.late[number].append(change)

    def sync(self, number):
        self.synced[number], self.late[number] = self.bytes[number], []

    def sync_names(self):
        self.synced_names, self.late_names = dict(self.names), []

    def files(self):
        """For each file the contents that it may have after a cut."""
        for number, late in self.late.items():
            found = {self.synced[number], self.bytes[number]}
            for chosen in [late[:n] for n in range(len(late))] + [late[:n] + late[n + 1 :] for n in range(len(late))]:
                found.add(all_written(self.synced[number], chosen))
            for n, change in enumerate(late):
                at, data = change
                if data is not None and len(data) > 1:
                    half = SECTOR * max(1, len(data) // SECTOR // 2) - at % SECTOR if len(data) > SECTOR else len(data) // 2
                    found.add(all_written(self.synced[number], [*late[:n], (at, data[:half])]))
                    found.add(all_written(self.synced[number], [*late[:n], (at, bytes(len(data)))]))
            yield number, found

    def after_a_cut(self):
        """The states that a cut may leave now: each a set of names with their bytes."""
        for n in range(len(self.late_names) + 1):
            names = dict(self.synced_names)
            for change in self.late_names[:n]:
                renamed(names, change)
            for others in self.synced, self.bytes:
                for number, found in self.files():
                    for data in found:
                        yield frozenset((name, data if one == number else others[one]) for name, one in names.items())


def renamed(names, change):
    kind, *words = change
    if kind == "make":
        names[words[0]] = words[1]
    elif kind == "rename" and words[0] in names:
        names[words[1]] = names.pop(words[0])
    elif kind == "link" and words[0] in names:
        names[words[1]] = names[words[0]]
    elif kind == "unlink":
        names.pop(words[0], None)


def written(old, change):
    at, data = change
    if data is None:  # a new length
        return old[:at] + bytes(max(0, at - len(old)))
    return old[:at] + bytes(max(0, at - len(old))) + data + old[at + len(data) :]


def all_written(old, changes):
    for change in changes:
        old = written(old, change)
    return old


def is_mine(name):
    return name.startswith(("ledger", "witness"))


def folder():
    """The files of the ledger and the witness in the folder."""
    found = {}
    for name in sorted(os.listdir(".")):
        if is_mine(name):
            with open(name, "rb") as file:
                found[name] = file.read()
    return found


def lay_out(state):
    """Makes these the files in the folder. The ledger keeps its inode, which the witness names."""
    if os.path.exists("ledger") and not os.path.exists("kept aside"):
        os.rename("ledger", "kept aside")
    for name in os.listdir("."):
        if is_mine(name) or name.endswith((".stm", ".part")):
            os.remove(name)
    for name, data in state:
        if name == "ledger" and os.path.exists("kept aside"):
            os.rename("kept aside", "ledger")
        with open(name, "r+b" if os.path.exists(name) else "wb") as file:
            file.truncate(0)
            file.write(data)


def command(device, *more):
    return [sealer, "seal", "--key", key, "--ledger", "ledger", "--device", str(device), "--witness", "witness", *more, "a"]


def number_in(begin):
    return (int.from_bytes(begin[10:13], "big"), int.from_bytes(begin[13:17], "big"))


def record(words):
    """Runs a command. Yields the disk after each of its calls that changes it, and the number that its output has by then."""
    disk = Disk(folder())
    trace = ["strace", "-f", "-y", "-xx", "-X", "raw", "-s", "10000000", "-o", "trace", "-e", f"trace={CALLS},{UNKNOWN}"]
    run = subprocess.run([*trace, *words], capture_output=True, text=True)
    if run.returncode != 0 or not run.stdout.startswith("sealed a file "):
        differs(f"the recorded run has status {run.returncode}, prints {run.stdout}{run.stderr}")
    here = os.getcwd().encode()
    used = None
    with open("trace", "rb") as trace:
        lines = trace.read().splitlines()
    for line in lines:
        found = CALL.match(line)
        if not found or int(found[3]) < 0:
            continue
        call, words = found[1].decode(), found[2]
        paths = [os.path.basename(plain(it)).decode() for it in TEXT.findall(words)[:2]] if call not in ("write", "pwrite64") else []
        of = re.match(rb"\d+<((?:\\x[0-9a-f]{2})*)", words)
        open_file = plain(of[1]) if of else b""
        name = os.path.basename(open_file).decode()
        if call in UNKNOWN.split(","):
            differs(f"a call that the model doesn't know: {call}")
        elif call == "openat":
            flags = int(re.search(rb", (0x[0-9a-f]+|0)(?:,|$)", words)[1], 16)
            if flags & O_CREAT and is_mine(paths[0]) and paths[0] not in disk.names:
                disk.make(paths[0])
        elif call in ("fsync", "fdatasync"):
            if open_file == here:
                disk.sync_names()
            elif name in disk.names:
                disk.sync(disk.names[name])
        elif call in ("write", "pwrite64"):
            data = plain(TEXT.search(words)[1])
            if name in disk.names:
                number = disk.names[name]
                at = int(words.rsplit(b", ", 1)[1]) if call == "pwrite64" else len(disk.bytes[number])
                disk.write(number, at, data[: int(found[3])])
            elif data.startswith(b"STRMSEAL"):
                used = number_in(data)
        elif call == "ftruncate" and name in disk.names:
            disk.write(disk.names[name], int(words.rsplit(b", ", 1)[1], 0), None)
        elif call in ("rename", "link", "unlink") and is_mine(paths[0]):
            disk.name(call, *paths)
        else:
            continue
        yield call, disk, used


def cut_each(what, words, given, again, other=None):
    """Cuts a run at each call, and leaves the files as they were. Yields for each state what is to be tried. `again` says of every how many
    states the run that repairs it is cut too, and `other` is a run of another device."""
    before = frozenset(folder().items())
    tried = {}
    for n, (call, disk, used) in enumerate(list_of(words)):
        for state in disk:
            tried.setdefault((state, used), f"{what}, cut after call {n}, {call}")
    for n, ((state, used), where) in enumerate(tried.items()):
        taken = given | ({used} if used else set())
        if again and n % again == 0:
            lay_out(state)
            yield from cut_each(f"{where}, and again", words, taken, 0)
        yield where, words, other, state, taken, before
    lay_out(before)


def list_of(words):
    """The calls of a recorded run, each with the states that a cut after it may leave."""
    return [(call, list(disk.after_a_cut()), used) for call, disk, used in record(words)]


def begin(room):
    """Begins a process that tries states, in a folder of its own."""
    global mark
    os.chdir(tempfile.mkdtemp(dir=room))
    made()
    # Its ledger has an inode of its own, which each witness is given.
    subprocess.run(command(1, "--new-witness"), capture_output=True, check=True)
    with open("witness", "rb") as file:
        mark = MARK.search(file.read())[0]


def tried(asked):
    """One state: the run after the cut, and the one over the ledger from before. Returns what differs."""
    where, words, other, state, taken, before = asked
    wrong = []
    for run_after in (other, words) if other else (words,):
        lay_out((name, MARK.sub(mark, data) if name.startswith("witness") else data) for name, data in state)
        run = subprocess.run(run_after, capture_output=True, text=True, timeout=60)
        if run.returncode != 0:
            return [f"{where}: the run after has status {run.returncode}, prints {run.stdout}{run.stderr}"]
        with open("a.stm", "rb") as file:
            number = number_in(file.read(17))
        wrong += [f"{where}: number {number} comes again"] if number in taken else []
    # The witness of the run after stays beside the ledger and the log from before.
    now = {name: data for name, data in before if not name.startswith("witness")}
    with open("witness", "rb") as file:
        now["witness"] = MARK.sub(mark, file.read())
    lay_out(now.items())
    run = subprocess.run(words, capture_output=True, text=True, timeout=60)
    if run.returncode != 2 or run.stderr not in PUT_BACK or os.path.exists("a.stm"):
        wrong.append(f"{where}: with the ledger from before it has status {run.returncode}, prints {run.stdout}{run.stderr}")
    # The log begins anew, and its pages, if it has some, go to the ledger.
    left, pages = folder(), len(now.get("ledger-wal", b"")) > NO_PAGES
    if left.keys() != now.keys() or left["witness"] != now["witness"] or not pages and left.get("ledger") != now.get("ledger"):
        wrong.append(f"{where}: the refused run over the ledger from before leaves other files")
    return wrong


def made():
    """Makes the files that are sealed."""
    for name in ("a", "b"):
        with open(name, "wb") as file:
            file.write(b"a" * 1000)


def states():
    """What is to be tried, of each run."""
    made()
    yield from cut_each("a first run", command(1, "--new-witness"), set(), 0)
    os.remove("kept aside")
    given = set()
    for device, more in (1, ["--new-witness"]), (2, ["--new-witness"]), (1, []):
        run = subprocess.run(command(device, *more), capture_output=True, text=True)
        if run.returncode != 0:
            differs(f"device {device}: {run.stdout}{run.stderr}")
        with open("a.stm", "rb") as file:
            given.add(number_in(file.read(17)))
        os.remove("a.stm")
    # Device 1 has two numbers and device 2 has one.
    yield from cut_each("a later run", command(1, "--no-new-ledger"), given, 40, command(2, "--no-new-ledger", "b"))
    yield from cut_each("a later run of device 2", command(2, "--no-new-ledger"), given, 0)


def main():
    begun, count, jobs = time.monotonic(), 0, os.cpu_count()
    place = "/dev/shm" if os.access("/dev/shm", os.W_OK) and shutil.disk_usage("/dev/shm").free > jobs << 25 else None
    with tempfile.TemporaryDirectory(dir=place) as room:
        os.mkdir(f"{room}/recorded")
        os.chdir(f"{room}/recorded")
        with multiprocessing.Pool(jobs, begin, (room,)) as pool:
            for wrong in pool.imap_unordered(tried, states()):
                count += 1
                told.extend(wrong)
        os.chdir(top)
    for what in told[:40]:
        print(what)
    print(f"power_cuts: {len(told)} differ" if told else f"power_cuts: {count} states as they should be, in {time.monotonic() - begun:.0f} s")
    sys.exit(1 if told or not count else 0)


if __name__ == "__main__":
    main()
