#!/usr/bin/env python3
"""proof_times.py [--parts WORD | --goals WORD] [--last SECONDS] CRATE [ROWS]: where the time of a crate's last check went, by function.

It reads when each file below crates/CRATE/out/incremental was written, so the check has to be one process:
`rt check --jobs 1`, or `rt check --test --jobs 1`, best from nothing and with nothing beside it. With --last only what was
written in its last SECONDS counts, as after an edit. With --parts the time of functions with WORD in their name is split
into parts: their code, the relation of their steps (Lts), drops (Tie, Kinds), the goals that tactics close (Proof), and
those with an answer (Answers).

With --goals it names the goals that tactics close in the functions with WORD in their name ('' for all), the dearest first,
by millions of the kernel's steps. Nothing else on the machine changes these, and any check will do.
"""
import argparse
import collections
import re
from pathlib import Path

CRATES = Path(__file__).resolve().parent.parent / "crates"
# What a check notes of a goal: its name, and its steps by kind.
GOAL = re.compile(rb'"name":"([^"]*)".{0,3000}?"steps":\[([\d,]*)\]', re.S)


def modules(crate):
    """Gives the modules of the last check, and when each was written, in this order."""
    files = (CRATES / crate / "out" / "incremental").rglob("*.oantt")
    return sorted((it.stat().st_mtime, it.stem) for it in files)


def function(module):
    """The function that a module is of, by its path in the crate."""
    parts = re.sub(r"^Rattle-\w+-(proofs|specs)\.", "", module).split(".")
    while len(parts) > 1 and (parts[-1][:1].isupper() or parts[-1] == "decls"):
        parts.pop()
    return ".".join(parts)


def goals(crate, word):
    """The steps of each goal that a tactic closes, by function and goal."""
    files = (CRATES / crate / "out" / "incremental").rglob("*.Proof.decls.oantt")
    steps = collections.Counter()
    for file in sorted(files, key=lambda it: it.stat().st_mtime):
        name = function(file.stem)
        if word in name:
            for goal, spent in GOAL.findall(file.read_bytes()):
                steps[f"{name} {goal.decode()}"] = sum(map(int, spent.split(b",")))
    return steps


def main():
    parser = argparse.ArgumentParser(description=__doc__, formatter_class=argparse.RawDescriptionHelpFormatter)
    parser.add_argument("--parts", metavar="WORD")
    parser.add_argument("--goals", metavar="WORD")
    parser.add_argument("--last", metavar="SECONDS", type=float)
    parser.add_argument("crate", metavar="CRATE")
    parser.add_argument("rows", metavar="ROWS", type=int, nargs="?", default=30)
    given = parser.parse_args()
    if given.goals is not None:
        for name, steps in goals(given.crate, given.goals).most_common(given.rows):
            print(f"{steps / 1e6:7.1f} {name}")
        return
    found = modules(given.crate)
    if given.last is not None:
        found = [it for it in found if it[0] > found[-1][0] - given.last]
    if not found:
        parser.exit(2, "nothing was kept of a check\n")
    seconds, before = collections.Counter(), found[0][0]
    for when, module in found:
        name = module if given.parts else function(module)
        if given.parts is None or given.parts in module:
            seconds[name] += when - before
        before = when
    print(f"{found[-1][0] - found[0][0]:.0f} s, {len(found)} modules")
    for name, took in seconds.most_common(given.rows):
        print(f"{took:7.1f} {name}")


if __name__ == "__main__":
    main()
