#!/usr/bin/env python3
"""measure_many.py [-r ROUNDS] [-b MIB] [-s SIZE]... FOLDER [PROGRAM]: many files of one size, by workers and by lanes.

FOLDER: an empty folder, best in memory-backed storage, with 6 times MIB free. There are MIB (512) MiB of files for each SIZE, in KiB (64,
1024, 4096, 16384), and 10,000 files of 4 KiB. Everything is timed in turn, ROUNDS (3) times over, and the least counts: wall seconds, and the
page faults of that run in thousands. Then it prints each as a part of the time of one worker, with its floor: what one thread takes that only
reads these files and writes as many in turn, as the first one does, and the seconds that one worker spent outside the kernel, shared. Threads
cost nothing there; where some are started, a second figure adds what about that takes, by tools/thread_start.c (it needs cc). Of lanes,
whose first thread reads a group, then seals, then writes, `left` is what is left beside the reading and writing, as a part of what is left
of one worker's time beside its own. PROGRAM is crates/sealer/out/sealer by default.
"""
import argparse
import os
import resource
import shutil
import subprocess
import sys
import time
from pathlib import Path

asked = argparse.ArgumentParser(description=__doc__, formatter_class=argparse.RawDescriptionHelpFormatter)
asked.add_argument("-r", "--rounds", type=int, default=3)
asked.add_argument("-b", "--mib", type=int, default=512)
asked.add_argument("-s", "--size", type=int, action="append", help="KiB of a file")
asked.add_argument("folder", type=Path)
asked.add_argument("program", nargs="?", default=Path(__file__).resolve().parent.parent / "crates/sealer/out/sealer")
asked = asked.parse_args()
SMALL, MANY = 4, 10_000
# KiB of a file that `open` reads once.
ONCE = 64
# How many bytes are read and written at a time where only that is timed.
PIECE = 1 << 16
# In KiB: the bytes for which a lane is started, and those for which `verify` and `open` start a worker.
LANE, SHARE = 256, 1024
STARTER = Path(__file__).resolve().with_name("thread_start.c")
os.chdir(asked.folder)
Path("key").write_text("5a" * 32 + "\n", encoding="ascii")


def made(size, count):
    """Makes the files of one size, and the list of their names."""
    folder = Path(f"{size}K")
    folder.mkdir()
    source = subprocess.Popen(["openssl", "enc", "-chacha20", "-K", "00" * 32, "-iv", "00" * 16, "-in", "/dev/zero"], stdout=subprocess.PIPE, stderr=subprocess.DEVNULL)
    names = [f"{folder}/f{at:05}" for at in range(count)]
    for name in names:
        Path(name).write_bytes(source.stdout.read(size << 10))
    source.kill()
    source.wait()
    Path("names").write_text("".join(f"{name}\n" for name in names), encoding="ascii")
    Path("sealed").write_text("".join(f"{name}.stm\n" for name in names), encoding="ascii")
    return folder


def timed(words, before):
    """The wall seconds of a command, its page faults in thousands, and its processor seconds outside the kernel."""
    before()
    with open("errors", "wb") as errors:
        first, start = resource.getrusage(resource.RUSAGE_CHILDREN), time.monotonic()
        status = subprocess.run(words, stdin=subprocess.DEVNULL, stdout=subprocess.DEVNULL, stderr=errors, check=False).returncode
        took = time.monotonic() - start
    if status:
        sys.exit(f"{' '.join(map(str, words))}: status {status}: {Path('errors').read_text(encoding='utf-8')[:200]}")
    last = resource.getrusage(resource.RUSAGE_CHILDREN)
    return took, (last.ru_minflt - first.ru_minflt) / 1000, last.ru_utime - first.ru_utime


def unsealed(folder):
    for file in folder.glob("*.stm"):
        file.unlink()


def warmed(folder):
    """Reads the containers twice: the first readers of a file in memory-backed storage pay for the system's account of it."""
    for _ in range(2):
        for file in folder.glob("*.stm"):
            file.read_bytes()


def read_and_written(folder, at_once):
    """The wall seconds in which one thread reads all files in turn, and in which it makes, writes and names as many: as the program does it, in
    groups of AT_ONCE files that are in memory together, or, if that is 1, in pieces of one room."""
    shutil.rmtree("copies", ignore_errors=True)
    os.mkdir("copies")
    files = sorted(folder.glob("f?????"))
    size = files[0].stat().st_size
    rooms, took = [bytearray(size + 1 if at_once > 1 else PIECE) for _ in range(at_once)], [0.0, 0.0]
    for room in rooms:
        room[:] = b"1" * len(room)
    for first in range(0, len(files), at_once):
        group = list(zip(files[first:first + at_once], rooms))
        start = time.monotonic()
        for file, room in group:
            with open(file, "rb", buffering=0) as source:
                while source.readinto(room):
                    pass
        middle = time.monotonic()
        for file, room in group:
            with open(f"copies/{file.name}.part", "xb", buffering=0) as target:
                for at in range(0, size, len(room)):
                    target.write(memoryview(room)[:min(len(room), size - at)])
                os.link(f"copies/{file.name}.part", f"copies/{file.name}")
                os.unlink(f"copies/{file.name}.part")
        took = [took[0] + middle - start, took[1] + time.monotonic() - middle]
    return took


def thread_costs():
    """The seconds in which the first thread starts 0, 1, 2 and 3 threads."""
    subprocess.run(["cc", "-O2", "-pthread", "-o", "thread_start", STARTER], check=True)
    said = subprocess.run(["./thread_start"], capture_output=True, text=True, check=True).stdout
    print("microseconds to start 1, 2, 3 threads, to join them too, and to wake as many: " + "; ".join(line.split(" ", 1)[1] for line in said.splitlines()))
    return [0.0, *(float(line.split()[1]) / 1e6 for line in said.splitlines())]


def lanes_of(several, size, count):
    """How many lanes a group has, of SEVERAL asked for."""
    return max(min(several, count, several * min(size, LANE) // LANE), 1)


def starts(name, size, count):
    """How often a command starts threads over COUNT files of SIZE KiB, and how many at a time."""
    command, how, several = (name.split() + ["1"])[:3]
    if how == "--lanes":
        lanes = lanes_of(int(several), size, count)
        return (-(-count // int(several)), lanes - 1) if lanes > 1 else (0, 0)
    if command == "seal":
        return count, max(min(int(several), size // 64), 1) - 1
    if command in ("verify", "open"):
        # once a run, all that are asked for
        return 1, int(several) - 1 if size >= 2 * SHARE else 0
    return 0, 0


def in_turn(name, parts, size):
    """The seconds that the first thread reads and writes in turn for a command, as read_and_written took them."""
    command, how, several = (name.split() + ["1"])[:3]
    read, written = parts[int(several) if how == "--lanes" else 1]
    readings = 1 if size <= ONCE else 2
    return {"verify": read, "open": readings * read + written}.get(command, read + written)


def floor(name, parts, shared, size):
    """The least seconds that a command can take whose first thread reads and writes in turn, if SHARED seconds are spent outside the kernel.
    Lanes share only these; workers work while the first thread reads and writes."""
    _, how, several = (name.split() + ["1"])[:3]
    several, first = int(several) if several.isdigit() else 1, in_turn(name, parts, size)
    if how == "--lanes":
        return first + shared / lanes_of(several, size, several)
    return max(first, (first + shared) / several)


def measured(size, count):
    """Measures the files of one size, and prints a row for each command."""
    folder = made(size, count)
    seal = [asked.program, "seal", "--key", "key", "--ledger", "ledger", "--device", "1", "--files-from", "names"]
    read = ["--key", "key", "--files-from", "sealed"]
    copies = lambda: shutil.rmtree("copies", ignore_errors=True)
    works = {
        "cp -r": (["cp", "-r", folder, "copies"], copies),
        **{f"seal --lanes {it}": ([*seal, "--lanes", str(it)], lambda: unsealed(folder)) for it in (2, 4)},
        **{f"seal --workers {it}": ([*seal, "--workers", str(it)], lambda: unsealed(folder)) for it in (2, 4, 1)},
        **{f"verify --workers {it}": ([asked.program, "verify", *read, "--workers", str(it)], lambda: warmed(folder)) for it in (1, 2, 4)},
        **{f"open --workers {it}": ([asked.program, "open", *read, "--into", "copies", "--workers", str(it)], lambda: (warmed(folder), copies(), os.mkdir("copies"))) for it in (1, 2, 4)},
    }
    best = {}
    for _ in range(asked.rounds):
        for name, (words, before) in works.items():
            best[name] = min(best.get(name, (1e9, 0, 0)), timed(words, before))
    parts = {it: [min(took) for took in zip(*(read_and_written(folder, it) for _ in range(asked.rounds)))] for it in (1, 2, 4)}
    for name in works:
        alone = f"{name.split()[0]} --workers 1"
        one, _, shared = best.get(alone, best["cp -r"])
        times, threads = starts(name, size, count)
        least = floor(name, parts, shared, size)
        with_starts = f", with threads {(least + times * costs[threads]) / one:4.2f}" if threads else ""
        floors = f"floor {least / one:4.2f}{with_starts}"
        left = ""
        if "--lanes" in name and one > in_turn(alone, parts, size):
            left = f", left {(best[name][0] - in_turn(name, parts, size)) / (one - in_turn(alone, parts, size)):4.2f}"
        print(f"{count:6} of {size:6} KiB  {name:20} {best[name][0]:7.3f} s  {best[name][0] / one:5.2f} of one worker, {floors}{left}  {best[name][1]:7.1f} k faults", flush=True)
    print(f"{count:6} of {size:6} KiB  in turn, by groups of 1, 2, 4: read {', '.join(f'{it[0]:.3f}' for it in parts.values())} s, written {', '.join(f'{it[1]:.3f}' for it in parts.values())} s")
    copies()
    shutil.rmtree(folder)


costs = thread_costs()
for kib in asked.size or (64, 1024, 4096, 16384):
    measured(kib, (asked.mib << 10) // kib)
if not asked.size:
    measured(SMALL, MANY)
