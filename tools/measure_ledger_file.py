#!/usr/bin/env python3
"""measure_ledger_file.py FOLDER [ROUNDS [GREATEST]]: what a ledger file of many ranges costs a run of the built program.

Makes ledger files of 1 to 1,000,000 ranges of one number, with Python's sqlite3 and the statements of docs/FORMATS.md; GREATEST leaves out
those of more. The ranges belong to the device that reserves, to seven other devices, or to as many other devices. Seals one empty file over
each, and prints each with `sealer ledger`, ROUNDS times (3). Prints for each the least processor time in ms and the greatest peak memory in
MiB, and what each range adds to a ledger of one. $SEALER is another program. FOLDER is empty, best in memory-backed storage. Needs time(1).
"""
import hashlib
import os
import re
import resource
import shutil
import sqlite3
import subprocess
import sys

top = os.path.join(os.path.dirname(os.path.abspath(__file__)), "..")
sealer = os.path.abspath(os.environ.get("SEALER", os.path.join(top, "crates/sealer/out/sealer")))
formats = open(os.path.join(top, "docs/FORMATS.md"), encoding="utf-8").read()
tables = re.findall(r"^    (CREATE TABLE \w+ \(.*?4294967296\)\))$", formats, re.M | re.S)
assert len(tables) == 2, "docs/FORMATS.md has no longer two tables"
os.chdir(sys.argv[1])
rounds = int(sys.argv[2]) if len(sys.argv) > 2 else 3
greatest = int(sys.argv[3]) if len(sys.argv) > 3 else 1_000_000
DEVICE = 1
COUNTS = (1, 1_000, 10_000, 87_600, 438_000, 1_000_000)

with open("key", "w", encoding="ascii") as file:
    file.write("07" * 32)
key_id = hashlib.sha256(bytes([7] * 32)).digest()


def make(path, owners):
    """A ledger file: for each device in owners, its count of ranges of one number."""
    base = sqlite3.connect(path)
    for table in tables:
        # as a run writes it, on one line: else both files are opened in memory before
        base.execute(" ".join(table.split()))
    for device, count in owners:
        base.execute("INSERT INTO mark VALUES (?, ?, ?)", (key_id, device, count))
        base.executemany("INSERT INTO taken VALUES (?, ?, ?, 1)", ((key_id, device, lo) for lo in range(count)))
    base.commit()
    base.close()


def used():
    """Processor seconds of this process's children. os.times() counts in steps of 10 ms."""
    children = resource.getrusage(resource.RUSAGE_CHILDREN)
    return children.ru_utime + children.ru_stime


def run(words):
    """Processor milliseconds of a run, and its peak memory in MiB. A child of this process would count this one's memory too."""
    began = used()
    done = subprocess.run(["/usr/bin/time", "-f", "%M", "-o", "peak", *words], stdout=subprocess.DEVNULL, check=False)
    took = used() - began
    if done.returncode != 0:
        sys.exit(f"{words}: status {done.returncode}")
    with open("peak", encoding="ascii") as file:
        return 1000 * took, int(file.read()) / 1024


def seal(ledger):
    """A sealing of one empty file over a fresh copy of the ledger file."""
    for name in ("copy", "copy-wal", "empty.stm"):
        if os.path.exists(name):
            os.remove(name)
    shutil.copy(ledger, "copy")
    return run([sealer, "seal", "--key", "key", "--ledger", "copy", "--device", str(DEVICE), "empty"])


def told(ledger):
    """The listing of a ledger file."""
    return run([sealer, "ledger", "--ledger", ledger])


def spread(count, devices):
    """The counts of so many devices."""
    return [(9 + i, count // devices + (i < count % devices)) for i in range(min(count, devices))]


open("empty", "wb").close()
kinds = {"its own": lambda n: [(DEVICE, n)], "seven others'": lambda n: spread(n, 7), "as many others'": lambda n: spread(n, n)}
print("ranges   whose             seal: ms      MiB  us, bytes a range   ledger: ms      MiB  us, bytes a range")
for whose, owners in kinds.items():
    first = {}
    for count in COUNTS:
        if count > greatest:
            continue
        make("ledger", owners(count))
        row = f"{count:9,}  {whose:15}"
        for command in (seal, told):
            found = [command("ledger") for _ in range(rounds)]
            took, peak = min(ms for ms, _ in found), max(mib for _, mib in found)
            began = first.setdefault(command, (took, peak))
            more = max(count - 1, 1)
            row += f"  {took:9.1f}  {peak:7.1f}  {1000 * (took - began[0]) / more:8.2f} {1048576 * (peak - began[1]) / more:8.0f}"
        print(row, flush=True)
        os.remove("ledger")
