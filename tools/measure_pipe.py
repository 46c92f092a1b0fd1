#!/usr/bin/env python3
"""measure_pipe.py FOLDER [ROUNDS [GIB]]: a stream of 1 GiB through `sealer pipe`, beside `age -e`.

FOLDER is an empty one, best in memory-backed storage. Each round takes every row once, in turn; of 5 rounds the best is printed, as a part of
that of `age -e` to a public key. In the upper rows standard input and output are files in FOLDER; in the lower ones `cat` is on either side
(`cat FILE | .. | cat > OUT`). Each row has the processor seconds of the best run, and the greatest resident memory of all runs. That may be
8 MiB and a chunk for each of --depth and --workers. The last run of each row is opened, and compared.

The program is crates/sealer/out/sealer, or $SEALER. `age` is Debian's package.
"""
import filecmp
import os
import re
import resource
import subprocess
import sys
import time

top = os.path.abspath(os.path.join(os.path.dirname(__file__), ".."))
sealer = os.path.abspath(os.environ.get("SEALER", f"{top}/crates/sealer/out/sealer"))
folder = sys.argv[1]
rounds = int(sys.argv[2]) if len(sys.argv) > 2 else 5
size = (int(sys.argv[3]) if len(sys.argv) > 3 else 1) << 30
CHUNK, DEPTH = 1 << 16, 16
# The most that a row may take of `age`'s time.
MARKS = {"sealer pipe, 2 workers": 1.0, "sealer pipe, 4 workers": 0.6}


def piping(workers, depth=DEPTH):
    key = f"{top}/examples/key"
    return [sealer, "pipe", "--key", key, "--ledger", "ledger", "--device", "1", "--workers", str(workers), "--depth", str(depth), "--max-chunks", "4294967295"]


def peak(pid, before):
    """The greatest resident memory of a process so far, in bytes."""
    try:
        with open(f"/proc/{pid}/status", encoding="ascii") as status:
            found = re.search(r"VmHWM:\s*([0-9]+) kB", status.read())
        return int(found[1]) << 10 if found else before
    except OSError:
        return before


def once(words, by_cat):
    """One run: its seconds by the clock, its processor seconds, and its greatest memory."""
    if os.path.exists("out"):
        os.remove("out")
    begun, before = time.monotonic(), resource.getrusage(resource.RUSAGE_CHILDREN)
    with open("plain", "rb") as plain, open("out", "wb") as out:
        if by_cat:
            first = subprocess.Popen(["cat"], stdin=plain, stdout=subprocess.PIPE)
            run = subprocess.Popen(words, stdin=first.stdout, stdout=subprocess.PIPE, stderr=subprocess.PIPE)
            last = subprocess.Popen(["cat"], stdin=run.stdout, stdout=out)
            first.stdout.close()
            run.stdout.close()
            others = [first, last]
        else:
            run = subprocess.Popen(words, stdin=plain, stdout=out, stderr=subprocess.PIPE)
            others = []
        most = 0
        while run.poll() is None:
            most = peak(run.pid, most)
            time.sleep(0.005)
        for it in others:
            it.wait()
        took = time.monotonic() - begun
    after = resource.getrusage(resource.RUSAGE_CHILDREN)
    if run.returncode != 0:
        sys.exit(f"{' '.join(words)}: status {run.returncode}: {run.stderr.read().decode()}")
    run.stderr.close()
    return took, after.ru_utime + after.ru_stime - before.ru_utime - before.ru_stime, most


def is_sealed(name):
    """Opens what a row wrote, and compares it."""
    os.rename("out", "it.stm")
    if name.startswith("age"):
        with open("it", "wb") as out:
            subprocess.run(["age", "-d", "-i", "identity", "it.stm"], stdout=out, check=True)
    else:
        subprocess.run([sealer, "open", "--key", f"{top}/examples/key", "--max-bytes", str(size), "--workers", "4", "it.stm"], stdout=subprocess.DEVNULL, check=True)
    if not filecmp.cmp("it", "plain", shallow=False):
        sys.exit(f"{name}: opens to something else")
    os.remove("it")
    os.remove("it.stm")


def main():
    os.chdir(folder)
    if not os.path.exists("plain"):
        with open("plain", "wb") as plain:
            piece = os.urandom(1 << 20)
            for _ in range(size >> 20):
                plain.write(piece)
    if not os.path.exists("identity"):
        subprocess.run(["age-keygen", "-o", "identity"], capture_output=True, check=True)
    told = subprocess.run(["age-keygen", "-y", "identity"], capture_output=True, text=True, check=True).stdout.strip()
    rows = {"age -e": ["age", "-e", "-r", told], **{f"sealer pipe, {it} workers": piping(it) for it in (1, 2, 4)}}
    rows["sealer pipe, 4 workers, depth 64"] = piping(4, 64)
    for by_cat in (False, True):
        runs = {name: [] for name in rows}
        for turn in range(rounds):
            for name, words in rows.items():
                runs[name].append(once(words, by_cat))
                if turn == rounds - 1:
                    is_sealed(name)
        age = min(took for took, _, _ in runs["age -e"])
        print(f"{size >> 30} GiB, {'cat FILE | .. | cat > OUT' if by_cat else '.. < FILE > OUT'}, the best of {rounds}:")
        for name, took in runs.items():
            best, most = min(took), max(it for _, _, it in took)
            line = f"  {name:34} {best[0]:6.2f} s, {best[0] / age:5.2f} of age -e, {best[1]:6.2f} processor s, {most / (1 << 20):6.1f} MiB"
            found = re.search(r"([0-9]+) workers(?:, depth ([0-9]+))?", name)
            if found:
                allowed = (8 << 20) + (int(found[1]) + int(found[2] or DEPTH)) * CHUNK
                line += f" ({'met' if most <= allowed else 'missed'}: at most {allowed / (1 << 20):.1f})"
            if name in MARKS:
                line += f"; mark {MARKS[name]}: {'met' if best[0] / age <= MARKS[name] else 'missed'}"
            print(line, flush=True)
        print(f"  of all rounds, in s: {', '.join(f'{name} ' + ' '.join(f'{it[0]:.2f}' for it in took) for name, took in runs.items())}")


if __name__ == "__main__":
    main()
