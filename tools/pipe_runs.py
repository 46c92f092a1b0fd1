#!/usr/bin/env python3
"""pipe_runs.py [GIGABYTES [SEED]]: streams through `sealer pipe` of the built program, and what becomes of them if something goes wrong.

The right output is computed by tools/seal_container.py, which is written from docs/FORMATS.md alone, for the number in the line.

- Streams of each length around the bounds of a chunk, at three chunk sizes, with several workers and depths; the least and greatest value of
  each option; a stream one byte longer than --max-chunks allows.
- A stream of GIGABYTES (8; the gate gives 2) of zeros from `head`, with four workers at depth 16 in 256 MiB of addresses. Each chunk is opened
  as it comes, and no more memory is taken than by an empty stream and the chunks that may wait.
- Readers that stall for ten seconds, and sources that do, of `verify` and `unpipe` too: the program takes less than a fifth of a processor
  second.
- At depth 1 a chunk is written once a byte after it came, and not before.
- Readers that end early, and full disks: what came begins the container, the number is void, and the next run has another.
- 50 runs are killed, at times and lengths drawn from SEED: no later run has a number that one had before.
- A terminal as standard output, which is refused, and values past each bound: nothing is reserved.

Prints 'N streams as they should be', or what differs. If Python's package `cryptography` is missing it says so and exits with status 0; under
CI it fails. The program is crates/sealer/out/sealer, or $SEALER.
"""
import contextlib
import os
import pty
import random
import re
import resource
import select
import shutil
import signal
import subprocess
import sys
import tempfile
import threading
import time
import tty
from pathlib import Path

sys.dont_write_bytecode = True
try:
    from cryptography.exceptions import InvalidTag
    from cryptography.hazmat.primitives.ciphers.aead import ChaCha20Poly1305
except ImportError:
    print("pipe_runs: skipped, Python's package cryptography isn't there")
    sys.exit(1 if os.environ.get("CI") else 0)
from open_container import opened
from seal_container import sealed

top = os.path.abspath(os.path.join(os.path.dirname(__file__), ".."))
sealer = os.path.abspath(os.environ.get("SEALER", f"{top}/crates/sealer/out/sealer"))
gigabytes = int(sys.argv[1]) if len(sys.argv) > 1 else 8
seed = int(sys.argv[2]) if len(sys.argv) > 2 else random.SystemRandom().randrange(1 << 32)
key_file = f"{top}/examples/key"
with open(key_file, encoding="ascii") as file:
    KEY = bytes.fromhex(file.read())
# Seconds after which a run hangs; seconds that a stall lasts, and the processor seconds that it may take.
HANG, STALL, IDLE = 60, 10, 0.2
HEADER, TAG, CHUNK = 24, 16, 1 << 16
SEALED = re.compile(r"sealed - file ([0-9]+) bytes ([0-9]+)\n")
VOID, WHOLE = (f"legal: 1 granted, {s} sealed, {v} void, 0 open, 0 refused\n".encode() for s, v in ((0, 1), (1, 0)))
RNG = random.Random(seed)
NOISE = random.Random(1).randbytes(10_000_000)
DEVICE = 5

count = 0
told = []  # what differs


def differs(what, *more):
    told.append(": ".join(map(str, (what, *more))))


def words_of(*options, ledger="ledger"):
    return [sealer, "pipe", "--key", key_file, "--ledger", ledger, "--device", str(DEVICE), *options]


def piped(*options, source=b"", ledger="ledger", **more):
    """One run, with bytes as its input: status, standard output and standard error."""
    global count
    count += 1
    if isinstance(source, bytes):
        more["input"] = source
    else:
        more["stdin"] = source
    more.setdefault("stdout", subprocess.PIPE)
    ran = subprocess.run(words_of(*options, ledger=ledger), stderr=subprocess.PIPE, timeout=HANG, check=False, **more)
    return ran.returncode, ran.stdout, ran.stderr.decode(errors="replace")


def number_in(data):
    """The file number in a container's header, or None if that is cut."""
    return int.from_bytes(data[13:17], "big") if len(data) >= 17 else None


def is_whole(what, answer, plain, exponent=None, label=None):
    """A stream was sealed: checks its line, status and container. Returns its number."""
    status, out, err = answer
    found = SEALED.fullmatch(err)
    if status != 0 or not found or int(found[2]) != len(plain):
        differs(what, f"status {status}", err)
        return None
    number = int(found[1])
    if out != sealed(KEY, DEVICE, number, plain, exponent, label):
        differs(what, "another container")
    elif opened(KEY, out) != plain:
        differs(what, "opens to something else")
    return number


def is_failed(what, answer, fault, plain, number, exponent=None):
    """A stream failed: checks its line and status. What was written begins its container, and isn't all of it."""
    status, out, err = answer
    if (status, err) != (1, f"failed -: {fault}\n"):
        differs(what, f"status {status}", err)
    whole = sealed(KEY, DEVICE, number, plain, exponent, None if exponent is None else b"")
    if out is not None and (out == whole or not whole.startswith(out)):
        differs(what, f"{len(out)} bytes were written, which don't begin the container")


def judged(what, verdict):
    """The journal of a run, which is removed."""
    if not os.path.exists("journal"):
        return differs(what, "no journal")
    with open("journal", "rb") as journal:
        ran = subprocess.run([sealer, "audit"], stdin=journal, capture_output=True, timeout=HANG, check=False)
    os.remove("journal")
    if ran.stdout != verdict:
        differs(what, f"the journal is {ran.stdout.decode()}")
    return None


def next_number(what):
    """The number of another run, which succeeds."""
    return is_whole(f"after {what}", piped(source=b"next"), b"next")


def lengths():
    """Each length around the bounds of a chunk, from `head`, and the container opened by the program too."""
    with open("noise", "wb") as file:
        file.write(NOISE[: (2 << 20) + 1])
    numbers = []
    for exponent in (12, 16, 20, None):
        size = 1 << (exponent or 16)
        for at, n in enumerate((0, 1, size - 1, size, size + 1, 2 * size - 1, 2 * size, 2 * size + 1)):
            what = f"{n} bytes, exponent {exponent}"
            workers, depth = ((1, 1), (2, 1), (1, 16), (2, 2), (4, 16), (16, 64), (3, 2), (4, 1))[(at + (exponent or 0)) % 8]
            label = (None, "", "ab")[at % 3] if exponent else None
            options = ["--workers", str(workers), "--depth", str(depth)]
            options += ["--exponent", str(exponent)] if exponent else []
            options += [f"--label={label}"] if label is not None else []
            head = subprocess.Popen(["head", "-c", str(n), "noise"], stdout=subprocess.PIPE)
            answer = piped(*options, source=head.stdout)
            head.stdout.close()
            head.wait()
            label = (label or "").encode() if exponent else None
            numbers.append(is_whole(what, answer, NOISE[:n], exponent, label))
            with open("out.stm", "wb") as file:
                file.write(answer[1])
            ran = subprocess.run([sealer, "open", "--key", key_file, "out.stm"], capture_output=True, text=True, timeout=HANG, check=False)
            plain = open("out", "rb").read() if os.path.exists("out") else None
            if (ran.returncode, ran.stdout, plain) != (0, f"opened out.stm bytes {n}\n", NOISE[:n]):
                differs(what, "open", ran.stdout)
            for name in ("out", "out.stm"):
                if os.path.exists(name):
                    os.remove(name)
    if numbers != list(range(numbers[0] or 0, (numbers[0] or 0) + len(numbers))):
        differs("the numbers aren't consecutive", numbers)


def bounds():
    """The least and the greatest value of each option, and those past them."""
    plain = NOISE[:70_000]
    for options in (
        ["--depth", "1"], ["--depth", "64"], ["--max-chunks", "2"], ["--max-chunks", "4294967295"], ["--workers", "16"], ["--force-terminal"],
        ["--workers", "16", "--depth", "1", "--max-chunks", "2"],
    ):
        is_whole(" ".join(options), piped(*options, source=plain), plain)
    is_whole("--max-chunks 1", piped("--max-chunks", "1", source=plain[:CHUNK]), plain[:CHUNK])
    before = next_number("bounds")
    for option, values in {
        "--depth": ("0", "65", "-1", "x"), "--max-chunks": ("0", "4294967296", "-1"), "--workers": ("0", "17"), "--exponent": ("11", "21"),
        "--device": ("-1", "16777216"),
    }.items():
        for value in values:
            words = [it for it in words_of("--journal", "journal") if option != "--device" or it not in ("--device", str(DEVICE))]
            ran = subprocess.run([*words, f"{option}={value}"], input=plain, capture_output=True, timeout=HANG, check=False)
            wanted = f"error: invalid value '{value}' for '{option} <N>'".encode()
            if ran.returncode != 2 or ran.stdout or not ran.stderr.startswith(wanted) or os.path.exists("journal"):
                differs(f"{option} {value}", f"status {ran.returncode}", ran.stderr.decode())
    for words, text in ((["more"], "error: unexpected argument 'more' found"), (["--lanes", "2"], "error: unexpected argument '--lanes' found"),
                        (["--label", "x" * 256], "usage: label too long\n")):
        status, out, err = piped(*words, source=plain)
        if status != 2 or out or not err.startswith(text):
            differs(words, f"status {status}", err)
    if next_number("faults of usage") != before + 1:
        differs("a fault of usage", "a number was reserved")


def too_many():
    """A stream of --max-chunks chunks, and of a byte more: nothing past that byte is read."""
    with open("long", "wb") as file:
        file.write(NOISE[:20_000])
    for workers in (1, 2, 4):
        options = ["--exponent", "12", "--max-chunks", "2", "--workers", str(workers), "--depth", "4", "--journal", "journal"]
        number = is_whole("two chunks", piped(*options, source=NOISE[:8192]), NOISE[:8192], 12, b"")
        judged("two chunks", WHOLE)
        with open("long", "rb") as source:
            answer = piped(*options, source=source)
            if os.lseek(source.fileno(), 0, os.SEEK_CUR) != 8193:
                differs("too many chunks", f"{os.lseek(source.fileno(), 0, os.SEEK_CUR)} bytes were read")
        is_failed("too many chunks", answer, "too many chunks", NOISE[:20_000], number + 1, 12)
        judged("too many chunks", VOID)
        if next_number("too many chunks") != number + 2:
            differs("too many chunks", "the next number")


def resident(pid):
    """The greatest resident memory of a process so far, in bytes."""
    with open(f"/proc/{pid}/status", encoding="ascii") as status:
        return int(re.search(r"VmHWM:\s*([0-9]+) kB", status.read())[1]) << 10


def of_an_empty_stream():
    """The greatest resident memory of a run that reads nothing."""
    run = subprocess.Popen(words_of("--workers", "4"), stdin=subprocess.PIPE, stdout=subprocess.PIPE, stderr=subprocess.DEVNULL)
    run.stdout.read(HEADER)
    time.sleep(0.2)
    peak = resident(run.pid)
    run.communicate()
    return peak


def long_stream():
    """Gigabytes of zeros in 256 MiB of addresses: each chunk is opened as it comes, and is zeros. It takes no more memory than an empty stream and
    the chunks that may wait."""
    global count
    count += 1
    least = of_an_empty_stream()
    begun, chunks = time.monotonic(), gigabytes << 14
    options = ["--workers", "4", "--depth", "16", "--max-chunks", str(chunks)]
    head = subprocess.Popen(["head", "-c", str(gigabytes << 30), "/dev/zero"], stdout=subprocess.PIPE)
    words = ["prlimit", f"--as={256 << 20}", *words_of(*options)]
    run = subprocess.Popen(words, stdin=head.stdout, stdout=subprocess.PIPE, stderr=subprocess.PIPE, pipesize=1 << 20)
    head.stdout.close()
    header = run.stdout.read(HEADER)
    number, cipher, zeros, peak = number_in(header), ChaCha20Poly1305(KEY), bytes(CHUNK), 0
    at = 0
    try:
        while piece := run.stdout.read(CHUNK + TAG):
            nonce = header[10:17] + at.to_bytes(4, "big") + bytes([at + 1 == chunks])
            if cipher.decrypt(nonce, piece, header) != zeros:
                differs("the long stream", f"chunk {at} is something else")
                break
            at += 1
            if at == chunks // 2:
                peak = resident(run.pid)
    except InvalidTag:
        differs("the long stream", f"chunk {at} does not check")
    run.stdout.close()
    err = run.stderr.read().decode()
    status = run.wait()
    head.wait()
    if (status, err, at) != (0, f"sealed - file {number} bytes {gigabytes << 30}\n", chunks):
        differs("the long stream", f"{at} chunks, status {status}", err)
    if peak > least + (16 + 4) * CHUNK:
        differs("the long stream", f"{peak} bytes of memory, where an empty stream takes {least}")
    print(f"pipe_runs: {gigabytes} GiB in {time.monotonic() - begun:.1f} s, {peak >> 10} KiB of memory at most, and {least >> 10} of an empty stream")


def ticks(pid):
    """The processor seconds of a process so far."""
    with open(f"/proc/{pid}/stat", encoding="utf-8") as file:
        fields = file.read().rpartition(")")[2].split()
    return (int(fields[11]) + int(fields[12])) / os.sysconf("SC_CLK_TCK")


class Stalls(threading.Thread):
    """Runs whose reader or source stalls, beside the other streams: it is a thread that waits."""

    def __init__(self):
        super().__init__(daemon=True)
        self.runs, self.most = [], 0
        plain = NOISE[:6_000_000]
        Path("stalled").write_bytes(plain)
        status, container, err = piped(source=plain, ledger="stalled.stm")
        if status:
            return differs("what stalls", f"status {status}", err)
        Path("stalled.stm").write_bytes(container)
        for workers, depth, begun in ((4, 16, None), (16, 64, None), (2, 1, None), (4, 16, 40_000), (1, 16, 40_000)):
            what = f"a {'reader' if begun is None else 'source'} that stalls, {workers} workers, depth {depth}"
            words = words_of("--workers", str(workers), "--depth", str(depth), ledger=f"stalled.{len(self.runs)}")
            self.begin(what, words, "stalled", begun, lambda what, *ran: is_whole(what, ran, plain))
        opened = (0, plain, f"opened - bytes {len(plain)}\n")
        good = (0, f"good - bytes {len(plain)}\n".encode(), "")
        for words, begun, wanted in (("unpipe", 2_000_000, opened), ("verify -", 2_000_000, good), ("unpipe", None, opened)):
            what = f"a {'reader' if begun is None else 'source'} that stalls, {words} by 4 workers"
            words = [sealer, *words.split(), "--key", key_file, "--workers", "4"]
            self.begin(what, words, "stalled.stm", begun, lambda what, *ran, wanted=wanted: ran == wanted or differs(what, ran[0], ran[2]))
        return None

    def begin(self, what, words, name, begun, judge):
        """Starts a run over a file. Its source gives `begun` bytes of that and then nothing; without them its reader reads nothing yet."""
        data = b"" if begun is None else Path(name).read_bytes()
        source, feed = (os.open(name, os.O_RDONLY), None) if begun is None else os.pipe()
        run = subprocess.Popen(words, stdin=source, stdout=subprocess.PIPE, stderr=subprocess.PIPE)
        os.close(source)
        if data:
            threading.Thread(target=self.feed, args=(os.dup(feed), data[:begun]), daemon=True).start()
        self.runs.append((what, run, feed, data[begun or 0:], judge))

    def run(self):
        time.sleep(2)
        before = [ticks(run.pid) for _, run, *_ in self.runs]
        time.sleep(STALL)
        took = [ticks(run.pid) - first for (_, run, *_), first in zip(self.runs, before)]
        self.most = max(took, default=0)
        for (what, run, feed, data, judge), seconds in zip(self.runs, took):
            if seconds >= IDLE:
                differs(what, f"{seconds} processor seconds in {STALL} s")
            if run.poll() is not None:
                differs(what, "it ended")
            if feed is not None:
                threading.Thread(target=self.feed, args=(feed, data), daemon=True).start()
            try:
                out, err = run.communicate(timeout=HANG)
                judge(what, run.returncode, out, err.decode())
            except subprocess.TimeoutExpired:
                differs(what, "hangs")
                run.kill()

    def feed(self, feed, data):
        with contextlib.suppress(BrokenPipeError), os.fdopen(feed, "wb") as file:
            file.write(data)


def as_it_comes():
    """At depth 1 a chunk is written once a byte after it came, and what is written then is all that can be."""
    global count
    for workers in (1, 2):
        count += 1
        what = f"a slow source, {workers} workers"
        run = subprocess.Popen(
            words_of("--depth", "1", "--workers", str(workers)), stdin=subprocess.PIPE, stdout=subprocess.PIPE, stderr=subprocess.PIPE
        )
        got = b""
        for n, wanted in ((CHUNK, HEADER), (1, HEADER + CHUNK + TAG), (CHUNK - 1, HEADER + CHUNK + TAG), (1, HEADER + 2 * (CHUNK + TAG))):
            run.stdin.write(NOISE[:n])
            run.stdin.flush()
            # some time for what shouldn't come
            while select.select([run.stdout], [], [], 0.3 if len(got) >= wanted else HANG)[0]:
                got += os.read(run.stdout.fileno(), 1 << 20)
            if len(got) != wanted:
                differs(what, f"{len(got)} bytes were written, not {wanted}")
        out, err = run.communicate(timeout=HANG)
        is_whole(what, (run.returncode, got + out, err.decode()), NOISE[:CHUNK] + NOISE[:1] + NOISE[: CHUNK - 1] + NOISE[:1])


def ending_readers():
    """A reader that ends early: what it had begins the container, the number is void, and the next run has another."""
    global count
    number = next_number("nothing")
    for n in (0, 1, 23, 24, 25, 65_575, 65_576, 65_592, 1_000_000):
        for workers in (1, 2, 4):
            count += 1
            what = f"a reader of {n} bytes, {workers} workers"
            words = words_of("--workers", str(workers), "--depth", "3", "--journal", "journal")
            run = subprocess.Popen(words, stdin=subprocess.PIPE, stdout=subprocess.PIPE, stderr=subprocess.PIPE)
            feed = threading.Thread(target=fed, args=(run.stdin, NOISE))
            feed.start()
            got = run.stdout.read(n)
            run.stdout.close()
            err = run.stderr.read().decode()
            status = run.wait(HANG)
            feed.join()
            number += 1
            is_failed(what, (status, got, err), "write failed", NOISE, number)
            judged(what, VOID)
    if next_number("readers that end early") != number + 1:
        differs("readers that end early", "the next number")


def fed(into, data):
    """Writes to a program that may end before."""
    try:
        into.write(data)
        into.close()
    except BrokenPipeError:
        pass


def full_disks():
    """An output that takes no more: /dev/full, a limit of a file's length, a file system of 1 MiB."""
    number = next_number("nothing")
    more = {}
    options = ["--journal", "journal", "--workers", "2"]
    for n in (0, 1, 70_000):
        what = f"/dev/full, {n} bytes"
        with open("/dev/full", "wb") as full:
            answer = piped(*options, source=NOISE[:n], stdout=full)
        number += 1
        is_failed(what, answer, "write failed", NOISE[:n], number)
        judged(what, VOID)
    # The ledger file is shorter than these. Python ignores SIGXFSZ, and so does the program then.
    more = {"restore_signals": False}
    for most in (65_575, 65_576, 65_592, 1_000_000):
        what = f"a file of at most {most} bytes"
        with open("out", "wb+") as out:
            narrow = lambda: resource.setrlimit(resource.RLIMIT_FSIZE, (most, most))
            status, _, err = piped(*options, source=NOISE[:2_000_000], stdout=out, preexec_fn=narrow, **more)
            out.seek(0)
            got = out.read()
        number += 1
        is_failed(what, (status, got, err), "write failed", NOISE[:2_000_000], number)
        if len(got) != most:
            differs(what, f"{len(got)} bytes were written")
        judged(what, VOID)
    os.mkdir("small")
    mounted = subprocess.run(["mount", "-t", "tmpfs", "-o", "size=1M", "tmpfs", "small"], capture_output=True, check=False).returncode == 0
    if mounted:
        try:
            with open("small/out", "wb+") as out:
                status, _, err = piped(*options, source=NOISE[:2_000_000], stdout=out)
                out.seek(0)
                got = out.read()
        finally:
            subprocess.run(["umount", "-l", "small"], check=False)
        number += 1
        is_failed("a full file system", (status, got, err), "write failed", NOISE[:2_000_000], number)
        judged("a full file system", VOID)
    if next_number("full disks") != number + 1:
        differs("full disks", "the next number")
    return mounted


def killed(times=50):
    """Runs that are killed: no later run has a number that was in a line or in an output."""
    global count
    had, cut = {}, 0
    for at in range(times):
        count += 1
        what = f"kill {at} (seed {seed})"
        plain = NOISE[: RNG.randrange(3_000_000)]
        words = words_of("--workers", str(RNG.choice((1, 2, 4))), "--depth", str(RNG.choice((1, 4, 16))), ledger="killed")
        run = subprocess.Popen(words, stdin=subprocess.PIPE, stdout=subprocess.PIPE, stderr=subprocess.PIPE)
        feed = threading.Thread(target=fed, args=(run.stdin, plain))
        feed.start()
        if at % 2:
            got = run.stdout.read(RNG.choice((1, 17, 24, 25, RNG.randrange(1, len(plain) + 2))))
        else:
            time.sleep(RNG.random() * 0.06)
            got = b""
        run.send_signal(signal.SIGKILL)
        out, err = run.stdout.read(), run.stderr.read().decode()
        status = run.wait(HANG)
        feed.join()
        got += out
        cut += status == -signal.SIGKILL
        number, line = number_in(got), SEALED.fullmatch(err)
        if line and int(line[1]) != number:
            differs(what, f"the line is {err.strip()}, and the output has number {number}")
        after = is_whole(f"after {what}", piped(source=b"next", ledger="killed"), b"next")
        for it, which in ((number, "it"), (after, "the run after it")):
            if it is not None and it in had:
                differs(what, f"{which} has number {it}, which {had[it]} had")
            had[it] = f"{which} of {what}"
        if number is not None:
            whole = sealed(KEY, DEVICE, number, plain)
            if not whole.startswith(got):
                differs(what, "another beginning of a container")
            if after is not None and after <= number:
                differs(what, f"numbers {number} and then {after}")
    if cut < times // 2:
        differs("kills", f"only {cut} runs were killed")
    return cut


def on_a_terminal(*options):
    """A run whose standard output is a terminal: status, what it wrote there, and standard error."""
    global count
    count += 1
    master, terminal = pty.openpty()
    tty.setraw(terminal)
    run = subprocess.Popen(
        words_of("--journal", "journal", *options, ledger="terminal"), stdin=subprocess.PIPE, stdout=terminal, stderr=subprocess.PIPE
    )
    os.close(terminal)
    fed(run.stdin, b"seen")
    got = b""
    try:
        while more := os.read(master, 1 << 16):
            got += more
    except OSError:
        # the other end is closed
        pass
    os.close(master)
    err = run.stderr.read().decode()
    return run.wait(HANG), got, err


def terminals():
    """A terminal is refused before anything is done, unless it is asked for."""
    answer = on_a_terminal()
    if answer != (2, b"", "usage: standard output is a terminal\n"):
        differs("a terminal", answer)
    status, got, err = on_a_terminal("--label", "x" * 256)
    if (status, got, err) != (2, b"", "usage: label too long\n"):
        differs("a terminal and a label", status, err)
    for name in ("terminal", "terminal-wal", "journal"):
        if os.path.exists(name):
            differs("a terminal", f"leaves {name}")
    if is_whole("--force-terminal", on_a_terminal("--force-terminal"), b"seen") != 0:
        differs("--force-terminal", "isn't the first number")
    judged("--force-terminal", WHOLE)


def main():
    begun = time.monotonic()
    # In memory if possible: the disk's speed doesn't matter here.
    place = "/dev/shm" if os.access("/dev/shm", os.W_OK) and shutil.disk_usage("/dev/shm").free > 1 << 28 else None
    with tempfile.TemporaryDirectory(dir=place) as folder:
        os.chdir(folder)
        stalls = Stalls()
        stalls.start()
        lengths()
        bounds()
        too_many()
        as_it_comes()
        ending_readers()
        mounted = full_disks()
        cut = killed()
        terminals()
        stalls.join()
        long_stream()
        os.chdir("/")
    for line in told[:40]:
        print(line[:1000])
    if told:
        sys.exit(f"pipe_runs: {len(told)} faults in {count} streams (seed {seed})")
    print(f"pipe_runs: {stalls.most:.2f} processor seconds at most in a stall of {STALL}")
    print(f"pipe_runs: {cut} of 50 runs were killed (seed {seed}); {'a' if mounted else 'left out: a'} file system of 1 MiB")
    print(f"{count} streams as they should be, in {time.monotonic() - begun:.0f} s")


if __name__ == "__main__":
    main()
