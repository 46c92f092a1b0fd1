#!/usr/bin/env python3
"""measure_small.py [-r ROUNDS] FOLDER PROGRAM..: 10,000 files of 4 KiB, by several programs in turn.

FOLDER: an empty folder, best in memory-backed storage. Each PROGRAM seals the files, verifies and opens its containers, ROUNDS (8) times over. It
prints the least processor microseconds a file of each, and as a part of the first PROGRAM's.
"""
import argparse
import os
import resource
import shutil
import subprocess
import sys
from pathlib import Path

FILES, BYTES = 10_000, 4096


def made(folder):
    """Makes the files, a key, and the lists of names."""
    (folder / "in").mkdir()
    names = [f"in/f{at:05}" for at in range(FILES)]
    for name in names:
        (folder / name).write_bytes(os.urandom(BYTES))
    (folder / "key").write_text("5a" * 32 + "\n", encoding="ascii")
    (folder / "names").write_text("".join(f"{name}\n" for name in names), encoding="ascii")
    (folder / "sealed").write_text("".join(f"{name}.stm\n" for name in names), encoding="ascii")


def taken(folder, words):
    """The processor microseconds that a command takes a file."""
    before = resource.getrusage(resource.RUSAGE_CHILDREN)
    done = subprocess.run(words, cwd=folder, stdin=subprocess.DEVNULL, stdout=subprocess.DEVNULL, stderr=subprocess.PIPE, check=False)
    after = resource.getrusage(resource.RUSAGE_CHILDREN)
    if done.returncode:
        sys.exit(f"{' '.join(map(str, words))}: status {done.returncode}, {done.stderr.decode(errors='replace')[-500:]}")
    return (after.ru_utime + after.ru_stime - before.ru_utime - before.ru_stime) * 1e6 / FILES


def one_round(folder, program):
    """What each command of a program takes. The plaintexts are as before in the end, and their containers gone."""
    for name in folder.glob("ledger*"):
        name.unlink()
    key = ["--key", "key", "--files-from"]
    took = {"seal": taken(folder, [program, "seal", "--ledger", "ledger", "--device", "1", *key, "names"])}
    took["verify"] = taken(folder, [program, "verify", *key, "sealed"])
    (folder / "in").rename(folder / "plain")
    (folder / "in").mkdir()
    for container in (folder / "plain").glob("*.stm"):
        container.rename(folder / "in" / container.name)
    took["open"] = taken(folder, [program, "open", *key, "sealed"])
    shutil.rmtree(folder / "in")
    (folder / "plain").rename(folder / "in")
    return took


def main():
    """Measures, and prints a row for each command and program."""
    asked = argparse.ArgumentParser(description=__doc__, formatter_class=argparse.RawDescriptionHelpFormatter)
    asked.add_argument("-r", "--rounds", type=int, default=8)
    asked.add_argument("folder", type=Path)
    asked.add_argument("programs", metavar="PROGRAM", nargs="+", type=lambda it: Path(it).resolve())
    asked = asked.parse_args()
    made(asked.folder)
    rounds = [[one_round(asked.folder, program) for program in asked.programs] for _ in range(asked.rounds)]
    for command in ("seal", "verify", "open"):
        least = [min(took[at][command] for took in rounds) for at in range(len(asked.programs))]
        for program, took in zip(asked.programs, least):
            print(f"{command:7} {took:6.1f} us a file, {took / least[0]:5.2f}  {program}")


main()
