#!/usr/bin/env python3
"""Compares what `sealer verify`, `sealer unpipe` and `sealer open` print for cut and altered containers with the rules,
with one worker and with several. `unpipe` reads each from a pipe, and writes nothing of one that has a fault. `open --to`
reads all of version 1 and three of five others, from a pipe, which it can read only once, and as a file, which it reads
twice: its output is there, whole, if the container is good, else there is none. Prints how many answers were right.

    altered_containers.py [--self-check]

The containers hold zero bytes, two chunks and one byte more, under the key 00 01 .. 1f, device 1, file 0: one of
version 1, and of version 2 those with labels of 0, 1 and 255 bytes at the exponents 12, 16 and 20. One more has 1,100
chunks. All are made by tools/seal_container.py. The answers are rules written by hand from docs/FORMATS.md. Before the
program is run, tools/open_container.py, another reading of that text, must give the same. With --self-check that is
all, and no program is needed.

The program is crates/sealer/out/sealer, or $SEALER. If Python's package `cryptography` is missing it says so and exits
with status 0; under CI it fails.
"""
import concurrent.futures
import os
import subprocess
import sys
import tempfile

tools = os.path.dirname(os.path.abspath(__file__))
sys.path.insert(0, tools)
sys.dont_write_bytecode = True
try:
    from open_container import Fault, opened
    from seal_container import sealed
except SystemExit:
    print("altered_containers: skipped, Python's package cryptography isn't there")
    sys.exit(1 if os.environ.get("CI") else 0)
sealer = os.path.abspath(os.environ.get("SEALER", os.path.join(tools, "../crates/sealer/out/sealer")))
key = bytes(range(32))
# Bytes of containers in a folder at a time.
FOLDER = 1 << 26
# How many workers there are, in turn.
WORKERS = (1, 4, 16)

SHORT, MAGIC, VERSION = "header cut short", "not a sealed file", "unknown version"
EXPONENT, ANOTHER_KEY, LENGTH = "unknown chunk size", "sealed under another key", "wrong length"


def forged(chunk):
    return f"chunk {chunk} does not check"


class Shape:
    """A container of three chunks, the last of one byte: version 2 where it has an exponent and a label."""

    def __init__(self, exponent=None, label=None):
        self.is_second = exponent is not None
        self.name = f"v2-e{exponent}-b{len(label)}" if self.is_second else "v1"
        self.given = {"exponent": exponent, "label": label}
        self.label, self.exponent = label, exponent if self.is_second else 16
        self.header = 25 + len(label) if self.is_second else 24
        self.plain = 2 * 2**self.exponent + 1
        self.chunk = 2**self.exponent + 16
        self.whole = self.made()

    def made(self, number=0, **other):
        """The container, or another with something else in its place."""
        return sealed(key, 1, number, **{"plain": bytes(self.plain), **self.given, **other})

    def chunks_of(self, container):
        """The sealed chunks of a container with the same plaintext, whatever its header is."""
        header = len(container) - len(self.whole) + self.header
        return [container[at:at + self.chunk] for at in range(header, len(container), self.chunk)]

    def put(self, place, value):
        """The container with this byte at a place."""
        return self.whole[:place] + bytes([value]) + self.whole[place + 1:]


# Each of these gives names, containers and answers: a fault's text, or how many zero bytes a good one holds.


def cuts(shape):
    """Its beginnings, of lengths around each boundary, and the container followed by some bytes."""
    header, first, second = shape.header, shape.header + shape.chunk, shape.header + 2 * shape.chunk
    # up to which length, what is said
    rules = [
        (header - 1, SHORT), (header + 15, LENGTH), (first, forged(0)), (first + 16, LENGTH), (second, forged(1)),
        (second + 16, LENGTH), (second + 17, shape.plain), (second + 37, forged(2)),
    ]
    for length in sorted({*range(header + 21), *range(first - 20, first + 21), *range(second - 20, second + 38)}):
        answer = next(answer for most, answer in rules if length <= most)
        yield f"cut-to-{length}", (shape.whole + bytes(20))[:length], answer


def header_bytes(shape):
    """Each byte of the header changed, but those of the version, the chunk size and the label's length."""
    rules = [(7, MAGIC), (16, forged(0)), (23, ANOTHER_KEY), (shape.header - 1, forged(0))]
    for place in range(shape.header):
        if place not in (8, 9, 24):
            answer = next(answer for last, answer in rules if place <= last)
            yield f"byte-{place}-changed", shape.put(place, shape.whole[place] ^ 1), answer


def versions(shape):
    """Other versions. Read as the other known version, the chunks begin at another byte."""
    for value in (0, 3, 255):
        yield f"version-{value}", shape.put(8, value), VERSION
    if shape.is_second:
        yield "version-1", shape.put(8, 1), forged(0) if shape.exponent == 16 else EXPONENT
    else:
        # The first byte of ciphertext is then the label's length: the last chunk's 17 bytes become 16 less that.
        yield "version-2", shape.put(8, 2), LENGTH if shape.whole[24] < 16 else forged(0)


def exponents(shape):
    """Other exponents. Each valid one can cut this many bytes into chunks."""
    for value in (0, 1, *range(10, 23), 255):
        if value != shape.exponent:
            answer = forged(0) if shape.is_second and 12 <= value <= 20 else EXPONENT
            yield f"exponent-{value}", shape.put(9, value), answer


def label_lengths(shape):
    """Other lengths of the label: the chunks begin earlier or later. The last one has 17 bytes, the empty one 16."""
    label, empty = len(shape.label), shape.made(plain=b"")
    yield "empty", empty, 0
    for value in sorted({0, 1, label - 1, *range(label + 1, label + 19), label + 100, 254, 255} - {label}):
        if 0 <= value <= 255:
            takes_last = label < value <= label + 16
            yield f"label-of-{value}", shape.put(24, value), LENGTH if takes_last else forged(0)
            answer = forged(0) if value < label else LENGTH if takes_last else SHORT
            yield f"empty-label-of-{value}", empty[:24] + bytes([value]) + empty[25:], answer


def moves(shape):
    """Its chunks in another order, repeated, left out, or replaced by one of another container."""
    first, second, third = shape.chunks_of(shape.whole)
    rows = [
        ("exchanged", [second, first, third], forged(0)), ("left-out", [first, third], forged(1)),
        ("first-left-out", [second, third], forged(0)), ("last-alone", [third], forged(0)),
        ("repeated", [first, first, second, third], forged(1)),
        ("second-repeated", [first, second, second, third], forged(2)),
        ("repeated-last", [first, second, third, third], forged(2)),
    ]
    others = {"file": shape.made(number=1)}
    if shape.is_second:
        others["label"] = shape.made(label=shape.label[1:] or b"another")
    if shape.exponent == 16:
        others["version"] = sealed(key, 1, 0, bytes(shape.plain), label=None if shape.is_second else b"")
    for what, other in others.items():
        theirs = shape.chunks_of(other)
        rows.append((f"first-of-another-{what}", [theirs[0], second, third], forged(0)))
        rows.append((f"last-of-another-{what}", [first, second, theirs[2]], forged(2)))
    for name, chunks, answer in rows:
        yield name, shape.whole[:shape.header] + b"".join(chunks), answer


def altered(shape):
    """The container unaltered, and then all alterations of it."""
    yield f"{shape.name}-unaltered", shape.whole, shape.plain
    for kind in [cuts, header_bytes, versions, exponents, moves] + [label_lengths] * shape.is_second:
        for name, container, answer in kind(shape):
            yield f"{shape.name}-{name}", container, answer


def late():
    """A container of 1,100 chunks, as it is and with a bit of chunk 1,060 changed."""
    plain, place = bytes(1_099 * 4_096 + 1), 25 + 1_060 * 4_112
    whole = sealed(key, 1, 0, plain, exponent=12, label=b"")
    yield "many-chunks", whole, len(plain)
    yield "late-chunk-changed", whole[:place] + bytes([whole[place] ^ 1]) + whole[place + 1:], forged(1_060)


def groups(containers):
    """The containers in groups of at most FOLDER bytes."""
    group, size = [], 0
    for row in containers:
        if group and size + len(row[1]) > FOLDER:
            yield group
            group, size = [], 0
        group.append(row)
        size += len(row[1])
    yield group


def differs(who, found, wanted):
    """Prints an answer that isn't the wanted one, and returns whether it differs."""
    if found != wanted:
        print(f"altered_containers: {who}: '{found}', not '{wanted}'")
    return found != wanted


def reader_differs(name, container, answer):
    """Whether open_container.py gives another answer."""
    try:
        plain = opened(key, container)
        found = "other bytes" if any(plain) else len(plain)
    except Fault as fault:
        found = str(fault)
    return differs(f"open_container.py of {name}", found, answer)


def line_of(word, name, answer):
    return f"failed {name}: {answer}" if isinstance(answer, str) else f"{word} {name} bytes {answer}"


def stream_differs(at, name, container, answer):
    """Whether `unpipe` answers otherwise to a pipe that gives the container, or writes what it mustn't."""
    workers = WORKERS[at % 3]
    words = [sealer, "unpipe", "--key", "key", "--workers", str(workers)]
    ran = subprocess.run(words, input=container, capture_output=True, check=False)
    is_good = isinstance(answer, int)
    found = (ran.returncode, ran.stderr.decode(errors="replace"), len(ran.stdout), any(ran.stdout))
    wanted = (int(not is_good), line_of("opened", "-", answer) + "\n", answer if is_good else 0, False)
    return differs(f"unpipe of {name}, {workers} workers: status, line, bytes, others than 0", found, wanted)


def is_opened(at, name):
    """Whether `open` gets the container of this name and place in its group: all of them would take more than twice the time."""
    return at % 5 < 3 or name.startswith("v1-")


def taken(name):
    """How many bytes an output has, and whether others than 0 are among them, or None if it isn't there. Removes it."""
    if not os.path.lexists(name):
        return None
    with open(name, "rb") as file:
        plain = file.read()
    os.remove(name)
    return len(plain), any(plain)


def opens_differ(at, name, container, answer):
    """How many answers of `open` are wrong, to a pipe that gives the container and to a file that holds it, or leave
    another output."""
    if not is_opened(at, name):
        return 0
    bad, source, output = 0, f"in-{at}", f"out-{at}"
    with open(source, "wb") as file:
        file.write(container)
    is_good = isinstance(answer, int)
    for turn, named, given in ((1, "-", {"input": container}), (2, source, {"stdin": subprocess.DEVNULL})):
        # other workers than those of `unpipe`, and of the other run
        workers = WORKERS[(at + turn) % 3]
        words = [sealer, "open", "--key", "key", "--workers", str(workers), "--to", output, named]
        ran = subprocess.run(words, capture_output=True, check=False, **given)
        found = (ran.returncode, ran.stdout.decode(errors="replace"), ran.stderr.decode(errors="replace"), taken(output))
        wanted = (int(not is_good), line_of("opened", named, answer) + "\n", "", (answer, False) if is_good else None)
        how = "from a pipe" if named == "-" else "as a file"
        bad += differs(f"open of {name} {how}, {workers} workers: status, line, faults, output", found, wanted)
    os.remove(source)
    return bad


def streams_differ(containers):
    """How many answers of `unpipe` and `open` are wrong, with as many runs side by side as there are processors."""
    folder = os.getcwd()
    with tempfile.TemporaryDirectory() as room, concurrent.futures.ThreadPoolExecutor(len(os.sched_getaffinity(0))) as pool:
        os.chdir(room)
        with open("key", "w", encoding="ascii") as file:
            file.write(key.hex())
        bad = sum(pool.map(lambda row: stream_differs(row[0], *row[1]) + opens_differ(row[0], *row[1]), enumerate(containers)))
        bad += differs("files left by open", sorted(os.listdir(".")), ["key"])
        os.chdir(folder)
    return bad


def program_differs(group):
    """How many answers of `verify` are wrong."""
    bad = 0
    with tempfile.TemporaryDirectory() as folder:
        with open(os.path.join(folder, "key"), "w", encoding="ascii") as file:
            file.write(key.hex())
        for name, container, _ in group:
            with open(os.path.join(folder, name), "wb") as file:
                file.write(container)
        names = [name for name, _, _ in group]
        lines = [line_of("good", name, answer) for name, _, answer in group]
        whole = (int(any(line.startswith("failed") for line in lines)), "", len(lines))
        for workers in WORKERS:
            words = [sealer, "verify", "--key", "key", "--workers", str(workers), *names]
            ran = subprocess.run(words, cwd=folder, capture_output=True, text=True, check=False)
            found = ran.stdout.splitlines()
            bad += sum(differs(f"{workers} workers", line, want) for line, want in zip(found, lines))
            bad += differs(f"{workers} workers: status, faults, lines", (ran.returncode, ran.stderr, len(found)), whole)
    return bad


def main():
    shapes = [Shape(), *(Shape(exponent, bytes(range(label))) for exponent in (12, 16, 20) for label in (0, 1, 255))]
    kinds = [*(lambda shape=shape: altered(shape) for shape in shapes), late]
    bad = count = 0
    for kind in kinds:
        for name, container, answer in kind():
            count += 1
            bad += reader_differs(name, container, answer)
    if bad:
        sys.exit(1)
    if sys.argv[1:] == ["--self-check"]:
        print(f"altered_containers: {count} answers of open_container.py as they should be")
        return
    bad = count = 0
    for group in (group for kind in kinds for group in groups(kind())):
        bad += program_differs(group) + streams_differ(group)
        count += 4 * len(group) + 2 * sum(is_opened(at, row[0]) for at, row in enumerate(group))
    if bad:
        sys.exit(1)
    print(f"altered_containers: {count} answers as they should be")


if __name__ == "__main__":
    main()
