#!/usr/bin/env python3
"""What `sealer audit` says of journals that were altered, by rules written by hand from docs/FORMATS.md; prints how many verdicts were
as they should be.

The journal is examples/journal.txt: whole; with one line changed, left out, twice, or exchanged with another; cut to each of its lengths;
with each of its bytes changed to some others where any such change is malformed. And lines of millions of bytes, by a program that has
64 MiB of addresses: of a line it keeps no more than the longest lawful one has.

The program is crates/sealer/out/sealer, or $SEALER.
"""
import os
import resource
import subprocess
import sys

top = os.path.abspath(os.path.join(os.path.dirname(__file__), ".."))
sealer = os.path.abspath(os.environ.get("SEALER", f"{top}/crates/sealer/out/sealer"))
with open(f"{top}/examples/journal.txt", encoding="ascii") as journal:
    LINES = journal.read().splitlines()
LEGAL = "legal: 2 granted, 1 sealed, 1 void, 0 open, 1 refused"
DIGITS = 1_000_000
ADDRESSES = 1 << 26
# A line's number, what replaces it, and the verdict.
CHANGED = [
    (2, "0 issue 8", "illegal line 2"), (2, "2 issue 7", "illegal line 2"), (2, "63 issue 7", "illegal line 2"),
    (2, "64 issue 7", "malformed line 2"), (2, "0 issue 4294967296", "malformed line 2"), (2, "0 issue 4294967295", "illegal line 2"),
    (2, "0  issue 7", "malformed line 2"), (2, "", "malformed line 2"), (2, "0 issue 7\r", "malformed line 2"), (2, " 0 issue 7", "malformed line 2"),
    (2, "0 issue 7 ", "malformed line 2"), (2, "0 issue 07", "malformed line 2"), (2, "00 issue 7", "malformed line 2"), (2, "0 issue +7", "malformed line 2"),
    (2, "0 issue -7", "malformed line 2"), (2, "0 Issue 7", "malformed line 2"), (2, "0 issue", "malformed line 2"), (2, "0 issue\t7", "malformed line 2"),
    (2, "0 issue None", "malformed line 2"), (2, "0 sealed none", "malformed line 2"), (2, "0 issue 7\0", "malformed line 2"),
    (2, LINES[0], "malformed line 2"), (2, "7" * DIGITS, "malformed line 2"), (2, "0 issue " + "7" * DIGITS, "malformed line 2"),
    (2, "0 issue " + "0" * DIGITS + "7", "malformed line 2"), (2, "0 issue none", "illegal line 2"), (2, "0 sealed 7", "illegal line 2"),
    (3, "0 issue 8", "illegal line 5"), (3, "1 issue 7", "illegal line 3"), (3, "1 issue 9", "illegal line 3"), (3, "0 issue none", "illegal line 3"),
    (4, "1 issue none", LEGAL), (4, "0 issue none\n0 issue none", "illegal line 5"), (4, "0 issue none\n1 issue none", LEGAL[:-9] + "2 refused"),
    (4, "0 issue 9", "illegal line 4"), (5, "0 sealed 8", "illegal line 5"), (5, "1 sealed 7", "illegal line 5"), (5, "1 sealed 9", "illegal line 5"),
    (6, "0 sealed 7", "legal: 2 granted, 2 sealed, 0 void, 0 open, 1 refused"), (6, "0 void 7\n0 void 7", "illegal line 7"),
    (6, "0 void 7\n0 sealed 7", "illegal line 7"), (6, "1 void 7", "illegal line 6"), (6, "0 void 8", "illegal line 6"),
    (1, "range 16777216 7 2 2", "malformed line 1"), (1, "range 16777215 7 2 2", LEGAL), (1, "range 1 7 0 2", "malformed line 1"),
    (1, "range 1 7 65536 2", "malformed line 1"), (1, "range 1 7 65535 2", "illegal line 4"), (1, "range 1 7 1 2", "illegal line 3"),
    (1, "range 1 4294967295 2 1", "malformed line 1"), (1, "range 1 4294967295 1 1", "illegal line 2"), (1, "range 1 4294967294 2 2", "illegal line 2"),
    (1, "range 1 7 2 0", "malformed line 1"), (1, "range 1 7 2 65", "malformed line 1"), (1, "range 1 7 2 64", LEGAL), (1, "range 1 7 2 1", "illegal line 3"),
    (1, "range 1 6 2 2", "illegal line 2"), (1, "", "malformed line 1"), (1, "Range 1 7 2 2", "malformed line 1"), (1, "range 1 7 2 2 2", "malformed line 1"),
]
# The order of the lines.
ORDERS = [([1, 2, 4, 3, 5, 6], "illegal line 3"), ([2, 1, 3, 4, 5, 6], "malformed line 1"), ([1, 3, 2, 4, 5, 6], "illegal line 2"), ([1, 2, 3, 4, 6, 5], LEGAL)]
ORDERS += [([1, 2, 3, 5, 4, 6], LEGAL), ([1, 3, 4, 5, 6], "illegal line 2"), ([2, 3, 4, 5, 6], "malformed line 1"), ([1, 1, 2, 3, 4, 5, 6], "malformed line 2")]
# Verdicts of the first lines alone.
FRONTS = ["legal: 0 granted, 0 sealed, 0 void, 0 open, 0 refused", "legal: 1 granted, 0 sealed, 0 void, 1 open, 0 refused"]
FRONTS += ["legal: 2 granted, 0 sealed, 0 void, 2 open, 0 refused", "legal: 2 granted, 0 sealed, 0 void, 2 open, 1 refused"]
FRONTS += ["legal: 2 granted, 1 sealed, 0 void, 1 open, 1 refused", LEGAL]


def text(lines):
    return "".join(f"{line}\n" for line in lines).encode()


def journals():
    """Names, journals and verdicts."""
    yield "whole", text(LINES), LEGAL
    for at, line, verdict in CHANGED:
        yield f"line {at} is {line[:30]!r}", text(LINES[: at - 1] + [line] + LINES[at:]), verdict
    for order, verdict in ORDERS:
        yield f"lines {order}", text(LINES[at - 1] for at in order), verdict
    whole = text(LINES)
    for length in range(len(whole)):
        front = whole[:length]
        ended = front.count(b"\n")
        yield f"cut to {length}", front, FRONTS[ended - 1] if front.endswith(b"\n") else f"malformed line {ended + 1}"
    for at in range(len(whole)):
        # No lawful line has such a byte. In the place of a line feed it joins two lines.
        for byte in (0, 0x0D, 0x2B, 0x80, 0xFF):
            yield f"byte {at} is {byte:#x}", whole[:at] + bytes([byte]) + whole[at + 1 :], f"malformed line {whole[:at].count(10) + 1}"
    # the longest possible line, and bytes after it
    longest = b"range 16777215 4294901760 65535 64"
    yield "the longest line", longest + b"\n", FRONTS[0]
    for rest in (b"0", b" ", b"\0", b"\r", b"0" * 2, b" " * (1 << 14), b"0" * (1 << 20)):
        yield f"{len(rest)} bytes after the longest line", longest + rest + b"\n", "malformed line 1"
    for size in (34, 35, 36, 1 << 14, 1 << 27):
        yield f"{size} bytes and no line feed", b"7" * size, "malformed line 1"
        yield f"a second line of {size} bytes", text(LINES[:1]) + b"7" * size + b"\n" + text(LINES[1:]), "malformed line 2"


def narrow():
    resource.setrlimit(resource.RLIMIT_AS, (ADDRESSES, ADDRESSES))


def main():
    bad = count = 0
    for name, journal, verdict in journals():
        count += 1
        ran = subprocess.run([sealer, "audit"], input=journal, capture_output=True, timeout=60, preexec_fn=narrow)
        wanted = (0 if verdict.startswith("legal") else 1, f"{verdict}\n".encode(), b"")
        if (ran.returncode, ran.stdout, ran.stderr) != wanted:
            bad += 1
            print(f"altered_journals: {name}: {ran.returncode} {ran.stdout} {ran.stderr}, not {wanted}")
    if bad:
        sys.exit(1)
    print(f"altered_journals: {count} verdicts as they should be")


if __name__ == "__main__":
    main()
