#!/usr/bin/env python3
"""Times sealing, verifying and opening of one file in chunks of 4 KiB, 64 KiB and 1 MiB, as parts of those of 64 KiB.

    measure_shapes.py FOLDER [ROUNDS [MIB]]

FOLDER is an empty folder, best in memory-backed storage, with room for three files of MIB (256) MiB. Each command is run
for each exponent in turn, ROUNDS (7) times. Of each the least wall time of a whole process counts, and beside it the
least processor time. The program is
crates/sealer/out/sealer, or $SEALER.
"""
import os
import subprocess
import sys
import time

sealer = os.path.abspath(os.environ.get("SEALER", os.path.join(os.path.dirname(__file__), "../crates/sealer/out/sealer")))
EXPONENTS, WORKERS, USUAL = (12, 16, 20), (1, 4), 16


def timed(*words):
    """Wall and processor seconds of a run of the program."""
    begin = time.perf_counter()
    child = subprocess.Popen([sealer, *words], stdout=subprocess.DEVNULL)
    _, status, usage = os.wait4(child.pid, 0)
    wall = time.perf_counter() - begin
    child.returncode = os.waitstatus_to_exitcode(status)
    if child.returncode:
        sys.exit(f"{' '.join(words)}: status {child.returncode}")
    return wall, usage.ru_utime + usage.ru_stime


def main():
    if len(sys.argv) < 2:
        sys.exit(__doc__.strip())
    os.chdir(sys.argv[1])
    rounds = int(sys.argv[2]) if len(sys.argv) > 2 else 7
    mib = int(sys.argv[3]) if len(sys.argv) > 3 else 256
    with open("key", "w", encoding="utf-8") as file:
        file.write(os.urandom(32).hex())
    with open("kept", "wb") as file:
        for _ in range(mib):
            file.write(os.urandom(1 << 20))
    times = {}
    for _ in range(rounds):
        for workers in WORKERS:
            for exponent in EXPONENTS:
                os.rename("kept", "big")
                given = ["--key", "key", "--workers", str(workers)]
                shape = ["--exponent", str(exponent), "--ledger", "ledger", "--device", "1"]
                runs = [("seal", timed("seal", *given, *shape, "big"))]
                os.rename("big", "kept")
                runs += [("verify", timed("verify", *given, "big.stm")), ("open", timed("open", *given, "big.stm"))]
                os.remove("big")
                os.remove("big.stm")
                for command, taken in runs:
                    times.setdefault((command, workers, exponent), []).append(taken)
    best = {what: [min(column) for column in zip(*taken)] for what, taken in times.items()}
    print("command, workers: wall ms, then parts by wall at 12, 16, 20; processor ms, then parts at 12, 16, 20")
    for command in ("seal", "verify", "open"):
        for workers in WORKERS:
            cells = []
            for kind in (0, 1):
                usual = best[command, workers, USUAL][kind]
                parts = ", ".join(f"{best[command, workers, it][kind] / usual:.3f}" for it in EXPONENTS)
                cells.append(f"{usual * 1000:.0f} ms, {parts}")
            print(f"{command}, {workers}: {'; '.join(cells)}")


if __name__ == "__main__":
    main()
