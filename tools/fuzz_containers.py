#!/usr/bin/env python3
"""Runs the built program on random inputs, and compares its answers with the text of the formats.

    fuzz_containers.py [--version-1-only] [CASES [SEED]]

The inputs are containers of both versions, for `verify`, `open` and `unpipe`, key files, journals for `audit`, and command lines.
Some are valid. The others are wrong in the fields and bounds of the formats, and some containers are sealed wrongly with
good tags. The right answers are computed in tools/fuzz/ from docs/FORMATS.md and docs/MANUAL.md, independently of the
program and the other tools.

By default there are 10,000 cases, and the seed is drawn; the same numbers make the same cases. A wrong answer, a crash
or a hang is printed with the seed and the case, and the files of the case are kept in a folder; then the status is 1.
With --version-1-only no container of version 2 is made, and none of its options is given.

The program is crates/sealer/out/sealer, or $SEALER. If Python's package `cryptography` is missing it says so and exits
with status 0; under CI it fails.
"""
import argparse
import os
import random
import shutil
import sys

sys.dont_write_bytecode = True
try:
    import cryptography.hazmat.primitives.ciphers.aead
except ImportError:
    print("fuzz_containers: skipped, Python's package cryptography isn't there")
    sys.exit(1 if os.environ.get("CI") else 0)
from fuzz import command, container, journal, key_file, run

# Cases of one kind that are made one after the other, and faults after which it ends.
GROUP, ENOUGH = 40, 10


def runs_of(rng, first, count, first_only):
    """`count` cases of one kind, numbered from `first` on, in lists of those that can be one run."""
    kind = rng.choices(("containers", "keys", "journals", "commands"), (14, 2, 4, 2))[0]
    if kind == "containers":
        asks = list(container.asks(rng, first, count, first_only))
        return [[ask] for ask in asks] if asks[0].words[0] == "unpipe" else [asks]
    cases = range(first, first + count)
    if kind == "keys":
        return [[key_file.ask(rng, case, first_only)] for case in cases]
    if kind == "journals":
        return [[journal.ask(rng, case)] for case in cases]
    return [[command.ask(rng, case, first_only)] for case in cases]


def main():
    parser = argparse.ArgumentParser(description="Runs the built program on random inputs.")
    parser.add_argument("--version-1-only", action="store_true", help="containers and options of version 1 alone")
    parser.add_argument("cases", metavar="CASES", type=int, nargs="?", default=10_000)
    parser.add_argument("seed", metavar="SEED", type=int, nargs="?")
    asked = parser.parse_args()
    if not shutil.which(run.sealer):
        sys.exit(f"fuzz_containers: no program at {run.sealer}")
    seed = asked.seed
    if seed is None:
        seed = random.SystemRandom().randrange(1 << 32)
        print(f"fuzz_containers: seed {seed}", flush=True)
    rng = random.Random(seed)
    bad = case = 0
    while case < asked.cases and bad < ENOUGH:
        for asks in runs_of(rng, case, min(GROUP, asked.cases - case), asked.version_1_only):
            bad += run.faults_of(seed, asks)
            case += len(asks)
            if bad >= ENOUGH:
                break
    if bad:
        print(f"{case} cases (seed {seed}): {bad} are not as they should be")
        sys.exit(1)
    print(f"{case} cases (seed {seed}): all as they should be")


if __name__ == "__main__":
    main()
