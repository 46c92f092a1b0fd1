#!/usr/bin/env python3
"""measure_startup.py [ROUNDS]: how much longer than `true` the program takes to print its help, and to audit a journal of ten lines.

Prints for each the least and the median of ROUNDS (200) runs in turn, in milliseconds, and what they take above `true`.
The program is crates/sealer/out/sealer, or $SEALER.
"""
import os
import shutil
import statistics
import subprocess
import sys
import tempfile
import time

top = os.path.abspath(os.path.join(os.path.dirname(__file__), ".."))
SEALER = os.environ.get("SEALER", f"{top}/crates/sealer/out/sealer")
ROUNDS = int(sys.argv[1]) if len(sys.argv) > 1 else 200
JOURNAL = "range 1 0 5 1\n" + "".join(f"0 issue {n}\n0 sealed {n}\n" for n in range(4)) + "0 issue 4\n"


def timed(words, journal):
    with open(journal, "rb") as given:
        start = time.perf_counter()
        ran = subprocess.run(words, stdin=given, stdout=subprocess.DEVNULL, stderr=subprocess.DEVNULL)
        took = time.perf_counter() - start
    if ran.returncode != 0:
        sys.exit(f"{' '.join(words)}: status {ran.returncode}")
    return took * 1000


def main():
    runs = {"true": [shutil.which("true")], "sealer --help": [SEALER, "--help"], "sealer audit": [SEALER, "audit"]}
    times = {name: [] for name in runs}
    with tempfile.NamedTemporaryFile("w") as journal:
        journal.write(JOURNAL)
        journal.flush()
        for _ in range(ROUNDS):
            for name, words in runs.items():
                times[name].append(timed(words, journal.name))
    base = times["true"]
    for name, took in times.items():
        least, middle = min(took), statistics.median(took)
        print(f"{name:14} least {least:.2f} ms, median {middle:.2f}, above true {least - min(base):.2f} and {middle - statistics.median(base):.2f}")


main()
