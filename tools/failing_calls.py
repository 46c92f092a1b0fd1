#!/usr/bin/env python3
"""failing_calls.py: makes each call of `open`, `verify`, `unpipe` and `audit` on files and memory fail once, by strace, and checks what they leave.

With one worker and with two, each call after the opening of the key file (for `audit` after the first read of its input) fails with EIO,
ENOSPC and EINTR, those on memory with ENOMEM, and the program is killed at each. For `open` and `seal` each write of an output fails too, or
the file is limited to some length; its removal then fails, or doesn't. Under `--progress` each read of a FILE by `seal`, `open` and `verify`
fails, and so does standard output.

`unpipe` opens a stream, a FILE, a stream whose last chunk is changed, and one of 17 MiB that needs a spool. What it wrote begins the
plaintext, is all of it if its line says so, and is nothing if something doesn't check. No file is left in the spool's folder, but an empty one
by a kill before it was unlinked, or where that failed.

A FILE is exchanged in place between the two readings of `open` and `unpipe`, which a SIGSTOP holds at their second lseek: by another
container, by a shorter and a longer one, and with a byte changed. Then the line is `changed while it was opened`, `open` leaves no output,
and what `unpipe` wrote begins the first plaintext, with none of the chunk that differs: it is nothing if the header does. Another file of its
name changes nothing. FILE is of version 1, and then of version 2 with a label, which tools/seal_container.py makes.

After an error the status and the text are of docs/MANUAL.md, and fit the lines. An output is whole or absent; it is absent if its line says
that it failed, unless its removal failed. No input is altered, and no other file is left. After a kill each output with a line is whole, and
the same `open` with `--skip-existing` opens the rest.

Prints 'N failing calls as they should be', or what differs. Needs strace, and Python's package `cryptography`: without one of them it says so
and exits with status 0, and under CI it fails. The program is crates/sealer/out/sealer, or $SEALER.
"""
import multiprocessing
import os
import re
import resource
import shutil
import signal
import subprocess
import sys
import tempfile
import time
from collections import Counter

top = os.path.abspath(os.path.join(os.path.dirname(__file__), ".."))
sys.path.insert(0, f"{top}/tools")
sys.dont_write_bytecode = True
try:
    import seal_container
except SystemExit:
    print("failing_calls: skipped, Python's package cryptography isn't there")
    sys.exit(1 if os.environ.get("CI") else 0)
sealer = os.path.abspath(os.environ.get("SEALER", f"{top}/crates/sealer/out/sealer"))
key = f"{top}/examples/key"
# Seconds after which a run hangs, and faults of one way after which it ends.
HANG, ENOUGH = 60, 10
TEXTS = re.compile(r"usage: out of memory|error: out of memory|key: (cannot open|read failed)|audit: (read failed|write failed|out of memory)")
FAULT = re.compile(r"failed (\S+): (cannot open|cannot create|read failed|write failed|out of memory|spool failed)")
# After these faults of `unpipe` a prefix of the plaintext may be written.
CUTS = ("read failed", "write failed", "out of memory")
ON_FILES = (
    "openat read pread64 readv write pwrite64 writev fsync fdatasync ftruncate lseek statx newfstatat fstat close fadvise64 readlink link unlink"
    " unlinkat rename fchmod fchown fcntl poll ioctl"
).split()
FAULTS = {call: ("error=EIO", "error=ENOSPC", "error=EINTR") for call in ON_FILES}
FAULTS.update({call: ("error=ENOMEM",) for call in ("mmap", "mremap", "munmap", "madvise", "mprotect", "clone3")})
# It returns the end of the heap; an unchanged end means that memory was refused.
FAULTS["brk"] = ("retval=0",)
# The loader's and the threads', neither on files nor on memory: the program is only killed at these.
OTHERS = "execve access arch_prctl set_tid_address set_robust_list rseq prlimit64 getrandom futex rt_sigaction rt_sigprocmask exit exit_group".split()
# Workers that look for a round make these any number of times, and they do nothing.
PASSED_OVER = ("sched_yield", "clock_nanosleep")
# An error of these can't be passed over. A FILE in which the first lseek fails is read once, or kept.
MUST_SHOW = {call: ("error=EIO", "error=ENOSPC") for call in ("read", "write")}
# `long` has more than 2 MiB, so it is worth two workers to `open` and `verify`, and has more than one round.
PLAIN = {"small": b"".join(b"%d\n" % i for i in range(1, 401)), "long": b"".join(b"%d\n" % i for i in range(1, 320_001))}
PLAIN["large"] = bytes(range(256)) * (17 << 12)
NAMES = ["small.stm", "long.stm"]
VERDICT = "legal: 2 granted, 1 sealed, 1 void, 0 open, 1 refused"
WAYS = {
    f"{command} by {workers}": [command, "--key", key, "--workers", workers, *NAMES] for command in ("open", "verify") for workers in ("1", "2")
}
WAYS["audit"] = ["audit"]
SPOOLING = "unpipe by a spool"
UNPIPE = ["unpipe", "--key", key, "--spool", "."]
WAYS.update({
    "unpipe": UNPIPE, "unpipe by 2": [*UNPIPE, "--workers", "2"], "unpipe a file by 2": [*UNPIPE, "--workers", "2", "long.stm"],
    "unpipe a damaged stream": UNPIPE, SPOOLING: UNPIPE,
})
# Which file is standard input, if it isn't long.stm, and how many chunk the damaged one has.
INPUTS = {"unpipe a damaged stream": "damaged.stm", SPOOLING: "large.stm"}
DAMAGED = "chunk 32 does not check"


def read(name):
    with open(name, "rb") as file:
        return file.read()


def input_of(name):
    """Which file `unpipe` opens, or None of another command."""
    return INPUTS.get(name, "long.stm") if WAYS[name][0] == "unpipe" else None


class Way:
    """The runs of one command line, in a folder of its own."""

    def __init__(self, name, given):
        self.name, self.words, self.given = name, WAYS[name], given
        # the file that a stream is
        self.input = input_of(name)
        self.written, self.empty = b"", 0
        self.count, self.bad, self.shown = 0, [], Counter()

    def run(self, *strace, most=resource.RLIM_INFINITY, output=subprocess.PIPE):
        """One run under strace, with the given files, where no file may be longer than `most` bytes. Returns status, lines and texts."""
        for name in os.listdir("."):
            os.remove(name)
        for name, data in self.given.items():
            with open(name, "wb") as file:
                file.write(data)
        words = ["strace", "-f", "-qq", *strace, sealer, *self.words]
        narrow = lambda: resource.setrlimit(resource.RLIMIT_FSIZE, (most, most))
        # Python ignores SIGXFSZ, and so does the program then.
        more = {"restore_signals": False, "preexec_fn": narrow} if most != resource.RLIM_INFINITY else {}
        # Of a stream the first byte was read before, or the file would be opened again. A pipe gives it in other parts each time.
        with tempfile.TemporaryFile(dir="..", buffering=0) as source:
            source.write(b"x" + (self.given[self.input] if self.input else read(f"{top}/examples/journal.txt")))
            source.seek(1)
            ran = subprocess.run(words, stdin=source, stdout=output, stderr=subprocess.PIPE, timeout=HANG, **more)
        out, texts = ran.stdout or b"", ran.stderr.decode(errors="replace").splitlines()
        if self.words[0] != "unpipe":
            return ran.returncode, out.decode(errors="replace").splitlines(), texts
        self.written = out
        lines = [text for text in texts if text.startswith(("opened ", "failed "))]
        return ran.returncode, lines, [text for text in texts if text not in lines]

    def calls(self):
        """How often a thread makes each call at most, before the work begins and in all."""
        # beside the folder, which is emptied
        trace = f"../trace {self.name}"
        status, lines, _ = self.run("-o", trace)
        if status != int(lines[0].startswith("failed ")) or lines != self.done():
            self.bad.append(f"{self.name}: status {status}, {lines}")
        own, early, begun = Counter(), Counter(), False
        for line in read(trace).decode(errors="replace").splitlines():
            found = re.match(r"([0-9]+) +([a-z_0-9]+)\(", line)
            if not found:
                continue
            begun = begun or f'"{key}"' in line and found[2] == "openat" or found[2] == "read" and "read(0," in line
            if found[2] not in PASSED_OVER:
                own[found[1], found[2]] += 1
            if not begun:
                early[found[2]] += 1
        most = Counter()
        for (_, call), count in own.items():
            most[call] = max(most[call], count)
        for call in sorted(most):
            if call not in FAULTS and call not in OTHERS:
                self.bad.append(f"{self.name}: nothing is known of the call {call}")
        return [(call, early[call] + 1, count) for call, count in sorted(most.items()) if count > early[call]]

    def done(self):
        """The lines if nothing fails."""
        if self.words == ["audit"]:
            return [VERDICT]
        if self.input == "damaged.stm":
            return [f"failed -: {DAMAGED}"]
        if self.input:
            name = self.words[-1] if self.words[-1] == self.input else "-"
            return [f"opened {name} bytes {len(PLAIN[self.input[:-4]])}"]
        word = "opened" if self.words[0] == "open" else "good"
        return [f"{word} {name} bytes {len(PLAIN[name[:-4]])}" for name in NAMES]

    def failing(self, call, n, how):
        """One run with one call that fails, or is the last."""
        self.count += 1
        what = f"{self.name}, {call} {n}, {how}"
        try:
            status, lines, texts = self.run("-o", "/dev/null", "-e", f"trace={call}", "-e", f"inject={call}:{how}:when={n}")
        except subprocess.TimeoutExpired:
            self.bad.append(f"{what}: hangs")
            return
        # a spool whose name can't be removed is not used
        self.keeps_name = call == "unlink"
        wrong = list(self.wrong(call, how, status, lines, texts)) if how != "signal=KILL" else []
        wrong += self.wrong_files(lines, how == "signal=KILL")
        if self.input:
            wrong += self.wrong_plain(lines)
        if how == "signal=KILL" and self.words[0] == "open":
            wrong += self.not_repaired()
        self.shown[call, status] += 1
        if wrong:
            self.bad.append(f"{what}: {', '.join(wrong)}: status {status}, {lines} {texts}")

    def wrong(self, call, how, status, lines, texts):
        done = self.done()
        if status not in (0, 1, 2):
            yield "another status"
        if len(texts) > 1 or any(not TEXTS.fullmatch(text) for text in texts):
            yield "another text"
        # Each line is that of a file, in their order.
        names = [line.split(" ")[1].rstrip(":") for line in done]
        said = [(FAULT.fullmatch(line) or [line, line.split(" ")[1:2]])[1] if line not in done else line.split(" ")[1].rstrip(":") for line in lines]
        if said != names[: len(said)]:
            yield "another line"
        failed = any(line.startswith("failed ") for line in lines)
        if status != (2 if texts or len(lines) < len(done) else 1 if failed else 0):
            yield "another status"
        if status == 0 and (how in MUST_SHOW.get(call, ()) or call == "unlink" and self.input):
            yield "a fault that is not reported"

    def wrong_plain(self, lines):
        """What is wrong with the plaintext that was written of a stream."""
        whole = b"" if self.input == "damaged.stm" else PLAIN[self.input[:-4]]
        if not whole.startswith(self.written):
            yield f"{len(self.written)} bytes that are not the plaintext's"
        if any(line.startswith("opened ") for line in lines) and self.written != whole:
            yield f"{len(self.written)} bytes are not all"
        if any(line.startswith("failed ") and not line.endswith(CUTS) for line in lines) and self.written:
            yield f"{len(self.written)} bytes, and they were not to be written"
        if any(line.startswith("failed ") for line in lines) and self.written == whole != b"":
            yield "all was written"

    def wrong_files(self, lines, killed):
        outputs = {name[:-4]: name for name in NAMES} if self.words[0] == "open" else {}
        for name in sorted({*os.listdir("."), *self.given, *outputs}):
            if name in self.given:
                if not os.path.exists(name) or read(name) != self.given[name]:
                    yield f"{name} is altered"
            elif name.startswith(".sealer-") and self.input and (killed or self.keeps_name) and not os.path.getsize(name):
                self.empty += 1
            elif name.endswith(".part") and killed:
                # It holds a beginning of an output, or all of it, and has that one's name too.
                held = read(name)
                if not any(PLAIN[output].startswith(held) for output in outputs):
                    yield f"{name} is of no output"
            elif name not in outputs:
                yield f"leaves {name}"
            else:
                opened = any(line.startswith(f"opened {name}.stm ") for line in lines)
                failed = any(line.startswith(f"failed {name}.stm: ") for line in lines)
                if os.path.exists(name):
                    if failed:
                        yield f"{name} is there"
                    if read(name) != PLAIN[name]:
                        yield f"{name} is not whole"
                elif opened:
                    yield f"no {name}"

    def not_repaired(self):
        """What the same command leaves undone after a kill, with --skip-existing."""
        again = subprocess.run([sealer, *self.words, "--skip-existing"], capture_output=True, timeout=HANG)
        if again.returncode != 0 or any(not os.path.exists(name[:-4]) or read(name[:-4]) != PLAIN[name[:-4]] for name in NAMES):
            yield f"with --skip-existing status {again.returncode}, {again.stdout.decode(errors='replace').splitlines()}"


def worked(asked):
    """All calls of one way, or those of one part out of `step`."""
    name, given, shared, first, step = asked
    way = Way(name, given)
    with tempfile.TemporaryDirectory(dir=shared) as place:
        folder = f"{place}/files"
        os.mkdir(folder)
        os.chdir(folder)
        turn = 0
        for call, begin, end in way.calls():
            for how in ("signal=KILL", *FAULTS.get(call, ())):
                for n in range(begin, end + 1):
                    turn += 1
                    if turn % step == first and len(way.bad) < ENOUGH:
                        way.failing(call, n, how)
        os.chdir("/")
    return way.count, way.bad, way.shown, way.empty


def exchanges(first, others, header, chunk):
    """What a FILE becomes between its two readings, by name. Its header and its sealed chunks have these lengths."""
    changed = lambda at: first[:at] + bytes([first[at] ^ 1]) + first[at + 1:]
    rows = {**others, "nothing": b"", "more bytes": first + bytes(20)}
    cuts = (header - 1, header, header + chunk - 1, header + 2 * chunk, header + 20 * chunk, len(first) - 1)
    rows.update({f"the first {n} bytes": first[:n] for n in cuts})
    # In version 2 byte 24 is the label's length, and the last byte of the header is the label's last.
    places = (0, 8, 12, 16, 24, header - 1, header, header + chunk - 1, header + 3 * chunk, header + 24 * chunk, len(first) - 1)
    rows.update({f"byte {at} changed": changed(at) for at in places})
    return rows


def is_beginning(plain, first, becomes, header, chunk):
    """Whether what was written of a FILE that became other bytes is a beginning of the first plaintext, of chunks before the first that differs.
    A chunk that is the last of either differs. It is nothing if the header does."""
    end = header + -(-len(plain) // (chunk - 16)) * chunk
    same = not plain or end < min(len(first), len(becomes)) and becomes.startswith(first[:end])
    return same and PLAIN["long"].startswith(plain)


def held(words, becomes, is_replaced):
    """A run that is held at its second reading, while long.stm becomes other bytes, or another file has its name. Returns status, output and
    texts."""
    trace = "../trace of what is held"
    open(trace, "wb").close()
    with open("plain", "wb") as plain:
        strace = ["strace", "-f", "-qq", "-o", trace, "-e", "trace=lseek", "-e", "inject=lseek:signal=STOP:when=2"]
        run = subprocess.Popen([*strace, sealer, *words], stdin=subprocess.DEVNULL, stdout=plain, stderr=subprocess.PIPE, text=True)
        until, stopped = time.monotonic() + HANG, None
        while not stopped and run.poll() is None and time.monotonic() < until:
            time.sleep(0.005)
            stopped = re.search(r"^([0-9]+) +--- stopped by SIGSTOP", read(trace).decode(), re.M)
        if stopped:
            with open("new" if is_replaced else "long.stm", "wb" if is_replaced else "r+b") as file:
                file.write(becomes)
                file.truncate()
            if is_replaced:
                os.rename("new", "long.stm")
            os.kill(int(stopped[1]), signal.SIGCONT)
        texts = run.communicate(timeout=HANG)[1].splitlines()
    return run.returncode if stopped else "never held", read("plain"), texts


def exchanged(first, others, header, chunk):
    """FILEs that are exchanged between the two readings, also by other containers. Header and sealed chunks have these lengths."""
    count, bad = 0, []
    whole = PLAIN["long"]
    for workers in ("1", "2"):
        for command in ("open", "unpipe"):
            words = [command, "--key", key, "--workers", workers, "long.stm"]
            rows = {"the same": first, "another file": next(iter(others.values())), **exchanges(first, others, header, chunk)}
            for what, becomes in rows.items():
                count += 1
                for name in os.listdir("."):
                    os.remove(name)
                with open("long.stm", "wb") as file:
                    file.write(first)
                status, out, texts = held(words, becomes, what == "another file")
                left = sorted(set(os.listdir(".")) - {"long.stm", "plain"})
                if command == "open":
                    lines, plain = out.decode().splitlines(), read("long") if left == ["long"] else b""
                else:
                    lines, texts, plain = texts, [], out
                if what in ("the same", "another file"):
                    right = (status, lines, plain) == (0, [f"opened long.stm bytes {len(whole)}"], whole)
                else:
                    right = (status, lines, left) == (1, ["failed long.stm: changed while it was opened"], [])
                    right = right and is_beginning(plain, first, becomes, header, chunk)
                if texts or not right or read("long.stm") != becomes:
                    told = f"status {status}, {lines} {texts}, {len(plain)} bytes, leaves {left}"
                    bad.append(f"{command} by {workers}, header of {header} bytes, {what} at the second reading: {told}")
    return count, bad


def left_of(output):
    """The bytes of an output that isn't whole, which doesn't have its name."""
    parts = [name for name in os.listdir(".") if name.endswith(".part")]
    if os.path.exists(output) or len(parts) > 1:
        return b"more than a part"
    return read(parts[0]) if parts else None


def removals(given, ledger):
    """A write of an output fails, and its removal too: the line says so, and what is left is a beginning of it."""
    count, bad = 0, []
    sealing = ["seal", "--key", key, "--ledger", "ledger", "--device", "1", "long"]
    ways = {
        "open": (["open", "--key", key, "long.stm"], given, "long", PLAIN["long"], (0, 1, 23, 24, 25, 65_535, 65_536, 65_575, len(PLAIN["long"]) - 1)),
        # The ledger file is shorter than these.
        "seal": (sealing, {"long": PLAIN["long"], **ledger}, "long.stm", given["long.stm"], (65_575, 65_576, 65_592, len(given["long.stm"]) - 1)),
    }
    for name, (words, files, output, whole, lengths) in ways.items():
        way = Way("audit", files)
        way.words = words
        told = (1, [f"failed {words[-1]}: write failed"], [])
        # the first removal is of the second name by which links are tried
        unremoved = ["-o", "/dev/null", "-e", "trace=write,unlink,unlinkat", "-e", "inject=unlink,unlinkat:error=EIO:when=2+"]
        trace = f"../trace {name} removals"
        way.run("-o", trace, "-y", "-e", "trace=write")
        # not the writes of ledger and lines
        writes = [".part>" in line for line in read(trace).decode(errors="replace").splitlines() if " write(" in line]
        turns = [n for n, is_output in enumerate(writes, 1) if is_output]
        for n in turns:
            answer = way.run(*unremoved, "-e", f"inject=write:error=EIO:when={n}")
            count += 1
            left = left_of(output)
            if answer != told or left is None or left == whole or not whole.startswith(left):
                bad.append(f"{name}, write {n} and removal: {answer}, {left and len(left)} bytes left")
        if not turns:
            bad.append(f"{name}: no write of its output failed")
        for most in lengths:
            for strace, rest in ((unremoved, whole[:most]), (["-o", "/dev/null"], None)):
                count += 1
                answer = way.run(*strace, most=most)
                left = left_of(output)
                if answer != told or left != rest:
                    bad.append(f"{name}, {most} bytes, {'' if rest is None else 'not '}removed: {answer}, {left and len(left)} bytes left")
    return count, bad


def under_progress(given, ledger):
    """With progress shown, a read of the FILE fails, and then the write of its line."""
    count, bad = 0, []
    ways = {
        "seal": (["--ledger", "ledger", "--device", "1"], {"long": PLAIN["long"], **ledger}, "long", "long.stm", "sealed"),
        "open": ([], given, "long.stm", "long", "opened"),
        "verify": ([], given, "long.stm", None, "good"),
    }
    for command, (more, files, name, output, word) in ways.items():
        way = Way("audit", files)
        way.words = [command, "--key", key, "--progress=always", *more, name]
        reads = ["-o", "/dev/null", "-P", os.path.abspath(name), "-e", "trace=read"]
        for n in range(1, 200):
            status, lines, _ = way.run(*reads, "-e", f"inject=read:error=EIO:when={n}")
            if status == 0 and len(lines) == 1 and lines[0].startswith(f"{word} {name} ") and n > 3:
                break
            count += 1
            if (status, lines) != (1, [f"failed {name}: read failed"]) or output and os.path.exists(output):
                bad.append(f"{command} under --progress, read {n}: status {status}, {lines}")
        else:
            bad.append(f"{command} under --progress: every read fails")
        with open("/dev/full", "wb") as full:
            status, _, _ = way.run("-o", "/dev/null", "-e", "trace=none", output=full)
        count += 1
        if status != 2:
            bad.append(f"{command} under --progress, a line that fails: status {status}")
    return count, bad


def sealed(name, ledger, *options):
    """A container of one of the plaintexts. Those of 17 MiB need large chunks, which keep the calls few."""
    with open(name, "wb") as file:
        file.write(PLAIN[name])
    words = [sealer, "seal", "--key", key, "--ledger", ledger, "--device", "1", *options, name]
    subprocess.run(words, stdout=subprocess.DEVNULL, check=True)
    container = read(f"{name}.stm")
    os.remove(f"{name}.stm")
    return container


def main():
    if not shutil.which("strace"):
        print("failing_calls: skipped, strace is not there")
        sys.exit(1 if os.environ.get("CI") else 0)
    begun = time.monotonic()
    processors = len(os.sched_getaffinity(0))
    # In memory if possible: each process has a container of 17 MiB there, and its spool.
    place = "/dev/shm" if os.access("/dev/shm", os.W_OK) and shutil.disk_usage("/dev/shm").free > processors << 26 else None
    with tempfile.TemporaryDirectory(dir=place) as shared:
        os.mkdir(f"{shared}/first")
        os.chdir(f"{shared}/first")
        with open("long", "wb") as file:
            file.write(PLAIN["long"])
        words = [sealer, "seal", "--key", key, "--ledger", "ledger", "--device", "1"]
        subprocess.run([*words, "long"], stdout=subprocess.DEVNULL, check=True)
        given = {"small.stm": read(f"{top}/examples/numbers.stm"), "long.stm": read("long.stm")}
        ledger = {name: read(name) for name in ("ledger", "ledger-wal") if os.path.exists(name)}
        # The next one on that ledger.
        os.remove("long.stm")
        subprocess.run([*words, "long"], stdout=subprocess.DEVNULL, check=True)
        given_again = {**given, "long.stm": read("long.stm")}
        # under other numbers than the first, for the runs below empty the folder
        others = {"another container": given_again["long.stm"]}
        others.update({f"a container of {name}": sealed(name, "ledger") for name in ("small", "large")})
        count, bad = removals(given_again, ledger)
        shown_count, shown_bad = under_progress(given_again, ledger)
        count += shown_count
        bad += shown_bad
        # of version 2: a label of seven bytes, and two numbers of another device
        secret, shape = bytes.fromhex(read(key).decode()), {"exponent": 12, "label": b"db dump"}
        second, next_one = (seal_container.sealed(secret, 2, number, PLAIN["long"], **shape) for number in (0, 1))
        for exchanging in ((given["long.stm"], others, 24, 65_552), (second, {"another container": next_one}, 32, 4_112)):
            exchanged_count, exchanged_bad = exchanged(*exchanging)
            count += exchanged_count
            bad += exchanged_bad
        damaged = given["long.stm"][:-1] + bytes([given["long.stm"][-1] ^ 1])
        streams = {"long.stm": given["long.stm"], "damaged.stm": damaged, "large.stm": sealed("large", "another ledger", "--exponent", "20")}
        os.chdir("/")
        files_of = {name: {input_of(name): streams[input_of(name)]} if input_of(name) else given for name in WAYS}
        asked = [(name, files_of[name] if name != "audit" else {}, shared, i, processors) for name in WAYS for i in range(processors)]
        shown, empty = Counter(), 0
        with multiprocessing.Pool(processors) as pool:
            for runs, wrong, told, left in pool.imap_unordered(worked, asked):
                count += runs
                empty += left
                bad += wrong
                shown += told
    for line in bad[:40]:
        print(line)
    if not empty and not bad:
        bad.append("no spool was left between its creation and its removal")
    calls = sorted({call for call, _ in shown})
    told = ", ".join(f"{call} {sum(n for (c, _), n in shown.items() if c == call)}" for call in calls)
    print(f"failing_calls: {empty} empty spools were left; {told}")
    if bad:
        sys.exit(f"failing_calls: {len(bad)} faults in {count} runs")
    print(f"{count} failing calls as they should be, in {time.monotonic() - begun:.0f} s")


if __name__ == "__main__":
    main()
