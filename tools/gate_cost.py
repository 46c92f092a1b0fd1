#!/usr/bin/env python3
"""gate_cost.py FILE [COMMAND..]: prints what the gate costs, by crate.

Runs a command (by default .ci/run), looks at each process below it once a second, and adds what it saw to FILE. So a gate that took several
runs, each over what the ones before kept, gives one table. Then it prints a table. For each crate that has the
processor seconds of its proof, its tests, and its edits in must-fail/, with their number; the first edit proves the crate from nothing. It
also has the most memory of one check. Processes that end within a second can be missed. The edits whose turn it is count among those of their
crate. Last it prints the table of docs/DEVELOPING.md: proof, tests and edits of the dearest crates.
"""
import collections
import json
import os
import re
import subprocess
import sys
import time
from pathlib import Path

KINDS = ("proof", "tests", "edits", "other")
# Crates below this many processor seconds come in one row.
LEAST = 40
# How many crates the table of docs/DEVELOPING.md has in a row, and in how many rows.
ACROSS, DOWN = 5, 3


def looked(leader, seen):
    """Adds what the processes of the leader's session have taken so far."""
    tick = os.sysconf("SC_CLK_TCK")
    for process in filter(str.isdigit, os.listdir("/proc")):
        try:
            stat = Path("/proc", process, "stat").read_text(encoding="utf-8", errors="replace").rsplit(")", 1)[1].split()
            if int(stat[3]) != leader:
                continue
            words = Path("/proc", process, "cmdline").read_text(encoding="utf-8", errors="replace").split("\0")
            name, crate, kind = os.path.basename(words[0]), "others", "other"
            if name == "rattle":
                folder = os.readlink(f"/proc/{process}/cwd").replace(" (deleted)", "")
                crate = words[words.index("--crate-name") + 1] if "--crate-name" in words else os.path.basename(folder)
                kind = "edits" if "rt-edit" in folder else "tests" if "--test" in words else "proof"
            memory = int(re.search(r"VmHWM:\s+(\d+)", Path("/proc", process, "status").read_text(encoding="utf-8"))[1]) // 1024
            seen[process, stat[19]] = crate, kind, (int(stat[11]) + int(stat[12])) / tick, memory
        except (OSError, IndexError, TypeError, ValueError):
            continue


def table(rows):
    """The table, and below it the sums."""
    crates = collections.defaultdict(lambda: {kind: [0, 0.0] for kind in KINDS})
    memory = collections.Counter()
    for crate, kind, seconds, most in rows:
        crates[crate][kind][0] += 1
        crates[crate][kind][1] += seconds
        memory[crate] = max(memory[crate], most)
    total = lambda crate: sum(seconds for _, seconds in crates[crate].values())
    large = sorted((it for it in crates if it != "others" and total(it) >= LEAST), key=lambda it: -total(it))
    lines = [f"{'crate':<16}{'proof':>8}{'tests':>8}{'edits':>14}{'GB':>6}"]
    for crate in large:
        cells = {kind: f"{seconds:.0f}" if count else "-" for kind, (count, seconds) in crates[crate].items()}
        count = crates[crate]["edits"][0]
        cells["edits"] = f"{count}: {cells['edits']}" if count else "-"
        lines.append(f"{crate:<16}{cells['proof']:>8}{cells['tests']:>8}{cells['edits']:>14}{memory[crate] / 1024:>6.1f}")
    rest = sum(total(it) for it in crates if it not in large and it != "others")
    sums = {kind: sum(crates[it][kind][1] for it in crates if it != "others") for kind in KINDS}
    lines.append(f"the other {len([it for it in crates if it != 'others']) - len(large)} crates {rest:.0f}; scripts and compilers {total('others'):.0f}")
    lines.append(f"proofs {sums['proof']:.0f}, tests {sums['tests']:.0f}, edits {sums['edits']:.0f}, all {sum(map(total, crates)):.0f} processor seconds")
    return "\n".join(lines)


def short_table(rows):
    """The table of docs/DEVELOPING.md: the dearest crates, row by row, each with the seconds of its proof, its tests and its edits."""
    crates = collections.defaultdict(collections.Counter)
    for crate, kind, seconds, _ in rows:
        crates[crate][kind] += seconds
    crates.pop("others", None)
    dearest = sorted(crates, key=lambda it: -sum(crates[it].values()))[:ACROSS * DOWN]
    cells = [f"`{it}` | " + ", ".join(f"{crates[it][kind]:.0f}" for kind in KINDS[:3]) for it in dearest]
    lines = ["| crate | s " * ACROSS + "|", "|---|---" * ACROSS + "|"]
    return "\n".join(lines + ["| " + " | ".join(cells[at:at + ACROSS]) + " |" for at in range(0, len(cells), ACROSS)])


def main(file, *command):
    rows = json.loads(file.read_text(encoding="utf-8")) if file.exists() else []
    seen, began = {}, time.time()
    child = subprocess.Popen(command or ["bash", ".ci/run"], stdin=subprocess.DEVNULL, start_new_session=True)
    while child.poll() is None:
        looked(child.pid, seen)
        time.sleep(1)
    rows += seen.values()
    file.write_text(json.dumps(rows), encoding="utf-8")
    print(table(rows), file=sys.stderr)
    print(short_table(rows), file=sys.stderr)
    print(f"this run: {(time.time() - began) / 60:.0f} minutes by the clock, {len(os.sched_getaffinity(0))} processors, status {child.returncode}", file=sys.stderr)
    return child.returncode if child.returncode >= 0 else 1


if __name__ == "__main__":
    if len(sys.argv) < 2:
        sys.exit(__doc__)
    sys.exit(main(Path(sys.argv[1]), *sys.argv[2:]))
