#!/usr/bin/env python3
"""build.py [-j N] [-p PROGRAM | -t CRATE] [--figures] [CPU]: proves and builds the program, which is then crates/sealer/out/sealer.

CPU is the level of the processors that the program is for: x86-64-v3 has AVX2, and x86-64-v2 is the portable one, which
the gate builds. By default it is x86-64-v3 if this machine's processor has all features of it. The last line
names it. A program for x86-64-v3 is crates/sealer/out/sealer-x86-64-v3 too; on a processor that lacks a feature it says
so, and ends with status 127. The cipher takes eight blocks side by side there and else four, so that level proves the
crates from chacha_core up over the other answer of `is_wide`, in out/x86-64-v3 of each; out/ stays as it was. PROGRAM is
another program of crates/. With -t it proves, builds and runs the tests of CRATE, and nothing else.

Each crate is proved once those below it are, N side by side (by default one for each usable processor), and each by
several processes. If the machine or a container is short of memory, there are fewer. The processors go first to the
crates whose chain of crates above takes longest, by tools/build_figures.txt. That file has the processor seconds of each
crate; --figures renews those of the crates that it proves from nothing.

`cd crates/sealer && rt run` builds the portable one, one crate at a time. `rt lib` keeps the folders of all crates below
its own to itself, so here each crate is proved in a room of its own among the system's temporary files: a copy of it and
of those below, with the libraries that were built before. What was proved goes back to the crate's folder at once, so an
interrupted run continues where it was.
"""
import argparse
import contextlib
import fcntl
import os
import shutil
import signal
import subprocess
import sys
import tempfile
import threading
import time
from concurrent.futures import FIRST_COMPLETED, ThreadPoolExecutor, wait
from pathlib import Path

CRATES = Path(__file__).resolve().parent.parent / "crates"
# A line a crate: its name, and the processor seconds of its proof.
FIGURES = Path(__file__).resolve().with_name("build_figures.txt")
PROGRAM = "sealer"
SOURCES = ("src", "specs", "proofs")
# What rt makes of a library, and what it keeps for the next check.
MADE = ("rlib", "incremental")
# The memory assumed for a check, in MB, and for each further process of it. Few need more.
OF_CHECK, OF_PROCESS = 3000, 1000
# More processes than that make no check faster beside others.
MOST = 3
# How much is added to a check's nice value for each one beside it that has a longer chain above.
NICER = 4
# The files of the control group, of version 2 and below it of version 1.
GROUP = Path("/sys/fs/cgroup")
# The status of a program that was built for another processor.
OTHER_CPU = 127
# The level of the gate's build, and the one that has AVX2.
PORTABLE, WIDE = "x86-64-v2", "x86-64-v3"
# Prints which levels a machine has.
LOADER = "/lib64/ld-linux-x86-64.so.2"
# The crate whose function `is_wide` says how many blocks the cipher takes side by side: its file, and its two bodies.
CIPHER = "chacha_core"
SWITCH = Path("src") / "lib.rt"
NARROW_BODY, WIDE_BODY = (f"fn is_wide() -> bool {{\n    {answer}\n}}" for answer in ("false", "true"))
# Seconds after which a terminal's line is redrawn.
REFRESH = 5


class Crate:
    def __init__(self, row):
        self.row = row
        name, _, used = row.partition(":")
        self.name, self.used, self.below = name.split()[0], used.split(), []
        self.folder = CRATES / self.name
        # processor seconds: of the longest chain of crates from this one up, and of its own proof in this run
        self.chain = self.took = 0
        # the folder for what rt makes of it
        self.kept = self.folder / "out"

    def widen(self):
        """Keeps apart what a build for AVX2 proves of the cipher and of the crates above it."""
        if CIPHER in [it.name for it in [*self.below, self]]:
            self.kept = self.folder / "out" / WIDE

    def is_wide(self):
        return self.kept.name == WIDE


def figures():
    """The processor seconds that the crates took, by name."""
    rows = [line.split() for line in FIGURES.read_text(encoding="utf-8").splitlines()]
    return {name: int(seconds) for name, seconds in rows}


def write_figures(crates):
    """Writes what the crates took that were proved from nothing, and leaves the figures of all others."""
    took = {**figures(), **{it.name: round(it.took) for it in crates if it.took}}
    FIGURES.write_text("".join(f"{name} {took[name]}\n" for name in sorted(took)), encoding="utf-8")


def crates_of_program(program):
    """Returns the program's crate and all crates that it uses, each after those below it."""
    text = (CRATES.parent / "crates.txt").read_text(encoding="utf-8")
    rows = [line.partition("#")[0].strip() for line in text.splitlines()]
    known = {it.name: it for it in map(Crate, filter(None, rows))}
    found = []

    def visit(crate):
        for it in [known[name] for name in crate.used if name in known]:
            visit(it)
            crate.below += [below for below in [*it.below, it] if below not in crate.below]
        if crate not in found:
            found.append(crate)

    visit(known[program])
    took = figures()
    for crate in reversed(found):
        # a new crate is assumed to take as long as the average
        seconds = took.get(crate.name, sum(took.values()) / len(took))
        crate.chain = seconds + max((it.chain for it in found if crate in it.below), default=0)
    return found


def words_of(name):
    """The words of a file of the control group, which in a container is its own; none if the file is missing."""
    try:
        return (GROUP / name).read_text(encoding="utf-8").split()
    except OSError:
        return []


def free_memory():
    """The free memory in MB: of the machine, or what the control group may still take."""
    with open("/proc/meminfo", encoding="utf-8") as file:
        free = next(int(line.split()[1]) // 1024 for line in file if line.startswith("MemAvailable"))
    for limit, held, word in (("memory.max", "memory.stat", "anon"), ("memory/memory.limit_in_bytes", "memory/memory.stat", "total_rss")):
        most, told = words_of(limit), words_of(held)
        if most and most[0].isdigit() and word in told:
            free = min(free, max(int(most[0]) - int(told[told.index(word) + 1]), 0) >> 20)
    return free


def processors():
    """How many processors this process may run on: fewer by the control group's quota of their time."""
    found = len(os.sched_getaffinity(0))
    for quota in (words_of("cpu.max"), words_of("cpu/cpu.cfs_quota_us") + words_of("cpu/cpu.cfs_period_us")):
        if len(quota) == 2 and quota[0].isdigit():
            found = min(found, max(int(quota[0]) // int(quota[1]), 1))
    return found


class Runs:
    """Runs of rt. Once they are ended no other begins."""

    def __init__(self):
        self.ended, self.running, self.alone = False, [], threading.Lock()

    def run(self, folder, nice, *words):
        """Runs rt in a crate's folder, and returns its status, its log and the processor seconds that it took."""
        how = {"stdin": subprocess.DEVNULL, "stdout": subprocess.PIPE, "stderr": subprocess.STDOUT, "cwd": folder}
        with self.alone:
            if self.ended:
                return 1, "", 0
            ran = subprocess.Popen(["nice", "-n", str(nice), "rt", *words], text=True, errors="replace", **how)
            self.running.append(ran)
        log = ran.stdout.read()
        with self.alone:
            _, status, usage = os.wait4(ran.pid, 0)
            ran.returncode = os.waitstatus_to_exitcode(status)
            self.running.remove(ran)
        return ran.returncode, log, usage.ru_utime + usage.ru_stime

    def end(self):
        with self.alone:
            self.ended = True
            for ran in self.running:
                ran.terminate()


class Progress:
    """Shows progress on standard error: on one line of a terminal, else in a line for each crate."""

    def __init__(self, crates):
        self.crates, self.proved, self.begun = crates, 0, time.monotonic()
        self.on_terminal = sys.stderr.isatty()

    def show(self, running, proved=None):
        """Prints what is proved and what runs; after a proof also the crate's name."""
        self.proved += proved is not None
        minutes = (time.monotonic() - self.begun) / 60
        line = f"{self.proved} of {self.crates} crates are proved, {minutes:.0f} min"
        if self.on_terminal:
            line += "; at work: " * bool(running) + ", ".join(it.name for it in running)
            print(f"\r\x1b[K{line[:os.get_terminal_size(2).columns - 1]}", end="", file=sys.stderr, flush=True)
        elif proved:
            print(f"{line}: {proved.name}", file=sys.stderr, flush=True)

    def end(self):
        if self.on_terminal:
            print(file=sys.stderr)


def prove(runs, crate, processes, nice):
    """Proves a library in a room, and puts what rt made into the crate's folder. Returns the log of a failure."""
    is_new = not (crate.kept / "rlib").is_dir()
    with room_of(crate) as folder:
        status, log, seconds = runs.run(folder, nice, "lib", "--jobs", str(processes))
        if status == 0:
            crate.took = seconds if is_new else 0
            keep(folder / "out", crate)
            return None
        return log or "ended"


@contextlib.contextmanager
def room_of(crate):
    """Makes a room for a crate, and returns its folder there."""
    room = Path(tempfile.mkdtemp(prefix="sealer-build-"))
    try:
        for it in [*crate.below, crate]:
            there = room / "crates" / it.name
            for part in [part for part in SOURCES if (it.folder / part).is_dir()]:
                shutil.copytree(it.folder / part, there / part)
            # of this crate too, if it was built before: then rt has nothing to do
            with locked(it.folder, fcntl.LOCK_SH):
                if (it.kept / "rlib").is_dir():
                    shutil.copytree(it.kept / "rlib", there / "out" / "rlib", copy_function=linked)
        if crate.is_wide():
            answer_true(room / "crates" / CIPHER / SWITCH)
            begin_with_kept(crate, room / "crates" / crate.name / "out")
        rows = [f"{it.row}\n" for it in [*crate.below, crate]]
        (room / "crates.txt").write_text("".join(rows), encoding="utf-8")
        shutil.copy2(CRATES.parent / "HANDLES", room)
        yield room / "crates" / crate.name
    finally:
        shutil.rmtree(room, ignore_errors=True)


def answer_true(file):
    """Has the cipher take eight blocks side by side, in a room's copy of it."""
    text = file.read_text(encoding="utf-8")
    if text.count(NARROW_BODY) != 1:
        sys.exit(f"{CIPHER}/{SWITCH} has no function is_wide that answers false")
    file.write_text(text.replace(NARROW_BODY, WIDE_BODY), encoding="utf-8")


def begin_with_kept(crate, out):
    """Has rt begin with what was proved of a crate for either level: the statements below it are the same."""
    with locked(crate.folder, fcntl.LOCK_SH):
        for kept in (crate.kept, crate.folder / "out"):
            if (kept / "incremental").is_dir():
                shutil.copytree(kept / "incremental", out / "incremental")
                return


def keep(made, crate):
    """Puts what rt made into a crate's folder, while no rt and no other run of this program works there."""
    with locked(crate.folder, fcntl.LOCK_EX):
        for part in [part for part in MADE if (made / part).is_dir()]:
            shutil.rmtree(crate.kept / part, ignore_errors=True)
            crate.kept.mkdir(parents=True, exist_ok=True)
            shutil.move(str(made / part), str(crate.kept / part))


@contextlib.contextmanager
def locked(folder, how):
    held = os.open(folder, os.O_RDONLY)
    try:
        fcntl.flock(held, how)
        yield
    finally:
        os.close(held)


def linked(one, other):
    try:
        os.link(one, other)
    except OSError:
        shutil.copy2(one, other)


def prove_all(runs, crates, most, progress):
    """Proves libraries, each once those below it are. Returns the log of the first that fails."""
    left, running, memory = sorted(crates, key=lambda it: -it.chain), {}, free_memory()
    with ThreadPoolExecutor(most) as pool:
        try:
            while left or running:
                unproved = [*left, *(crate for crate, _ in running.values())]
                ready = [it for it in left if not any(below in unproved for below in it.below)]
                for crate, processes in fitting(ready, [it for _, it in running.values()], most, memory):
                    left.remove(crate)
                    nice = NICER * sum(other.chain > crate.chain for other, _ in running.values())
                    running[pool.submit(prove, runs, crate, processes, nice)] = crate, processes
                progress.show([crate for crate, _ in running.values()])
                for it in wait(running, timeout=REFRESH, return_when=FIRST_COMPLETED).done:
                    crate, _ = running.pop(it)
                    if it.result():
                        return f"{it.result()}\n{crate.name} is not proved"
                    progress.show([crate for crate, _ in running.values()], crate)
            return None
        except BaseException:
            runs.end()
            raise
        finally:
            if running:
                runs.end()


def level_here():
    """The level of this machine's processor."""
    try:
        said = subprocess.run([LOADER, "--help"], stdin=subprocess.DEVNULL, capture_output=True, text=True, check=False).stdout
    except OSError:
        return PORTABLE
    return WIDE if f"{WIDE} (supported" in said else PORTABLE


def build(runs, program, processes, cpu, progress):
    """Proves and builds the program for a level, once all below it is proved, and puts it into its folder. Returns the log of a failure."""
    is_new, words = not (program.kept / "incremental").is_dir(), ["run", "--jobs", str(processes)]
    # rt runs what it built; other programs know no help
    asked = ["--", "--help"] if program.name == PROGRAM else []
    if not program.is_wide():
        status, log, program.took = watched(runs, progress, program, program.folder, *words, *asked)
    else:
        with room_of(program) as folder:
            status, log, program.took = watched(runs, progress, program, folder, *words, "--cpu", cpu, *asked)
            if status in (0, OTHER_CPU):
                status = 0
                if (folder / "out" / "incremental").is_dir():
                    keep(folder / "out", program)
                built = program.folder / "out" / program.name
                built.parent.mkdir(exist_ok=True)
                # the second one stays when a later build for any processor takes the first one's place
                for name in (built, built.with_name(f"{program.name}-{cpu}")):
                    shutil.copy2(folder / "out" / program.name, name.with_suffix(".new"))
                    name.with_suffix(".new").rename(name)
    program.took = program.took if is_new else 0
    return (log or "ended") if status else None


def test(runs, crate, processes, cpu, progress):
    """Proves, builds and runs the tests of a crate for a level, once all below it is proved. Returns the log of a failure."""
    with room_of(crate) as folder:
        words = ["--cpu", cpu] if crate.is_wide() else []
        status, log, _ = watched(runs, progress, crate, folder, "test", "--jobs", str(processes), *words)
        if status == 0:
            keep(folder / "out", crate)
            return None
        return log or "ended"


def watched(runs, progress, program, folder, *words):
    """Runs rt in a folder of the program while the progress is shown."""
    with ThreadPoolExecutor(1) as pool:
        try:
            ran = pool.submit(runs.run, folder, 0, *words)
            while not wait([ran], timeout=REFRESH).done:
                progress.show([program])
            return ran.result()
        except BaseException:
            runs.end()
            raise


def fitting(ready, taken, most, memory):
    """Gives the crates to begin with now, each with its number of processes, beside checks with these numbers of them.

    There are as many checks as processors, and more processes. While a check reads the libraries below it, or joins what
    its processes proved, it keeps one processor busy; the others are for crates with a shorter chain.
    """
    for crate in ready[:max(most - len(taken), 0)]:
        spare = memory - sum(OF_CHECK + OF_PROCESS * (it - 1) for it in taken)
        room = 1 + (spare - OF_CHECK) // OF_PROCESS
        if taken and room < 1:
            return
        taken.append(max(1, min(MOST, most - 1, room)))
        yield crate, taken[-1]


def main():
    parser = argparse.ArgumentParser(description=__doc__, formatter_class=argparse.RawDescriptionHelpFormatter)
    parser.add_argument("-j", metavar="N", type=int, default=processors())
    parser.add_argument("--figures", action="store_true")
    what = parser.add_mutually_exclusive_group()
    what.add_argument("-p", metavar="PROGRAM", default=PROGRAM)
    what.add_argument("-t", metavar="CRATE")
    parser.add_argument("cpu", nargs="?", metavar="CPU", choices=[PORTABLE, WIDE], default=level_here())
    given = parser.parse_args()
    for it in (signal.SIGTERM, signal.SIGHUP):
        signal.signal(it, lambda *_: sys.exit("stopped"))
    print("proving and building: some minutes", file=sys.stderr)
    *libraries, program = crates_of_program(given.t or given.p)
    if given.cpu == WIDE:
        for it in [*libraries, program]:
            it.widen()
    runs, most, progress = Runs(), max(1, given.j), Progress(len(libraries) + 1)
    try:
        log = prove_all(runs, libraries, most, progress)
        if log:
            sys.exit(log)
        [(_, processes)] = fitting([program], [], most, free_memory())
        log = (test if given.t else build)(runs, program, processes, given.cpu, progress)
        if log:
            sys.exit(log)
        progress.show([], program)
        if given.figures:
            write_figures([*libraries, program])
    except KeyboardInterrupt:
        sys.exit("stopped")
    finally:
        runs.end()
        progress.end()
    if given.t:
        print(f"the tests of {program.name} pass, built for {given.cpu}", file=sys.stderr)
    else:
        print(f"crates/{program.name}/out/{program.name} is built for {given.cpu}", file=sys.stderr)


if __name__ == "__main__":
    main()
