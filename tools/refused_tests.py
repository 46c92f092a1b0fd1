#!/usr/bin/env python3
"""refused_tests.py [WORD]: runs tests of the libraries' calls with each of their allocations refused in turn (tools/refuse.c).

Each test below is made for it: it passes whichever one allocation is refused, of the calls or of the test itself, which makes the refused
call again. For each test the 1st, 2nd, .. allocation is refused, until a run meets no refusal. With WORD only tests with WORD in their names
run. They run side by side over the processors.

Prints how many refusals each test met, and 'N refusals in T tests as they should be', or what differs. It runs the programs that `rt ci` and
`rt test` leave in crates/NAME/out. If one of them is missing, or a C compiler, it says so and exits with status 0; under CI it fails.
"""
import multiprocessing
import os
import shutil
import subprocess
import sys
import tempfile
import time

top = os.path.abspath(os.path.join(os.path.dirname(__file__), ".."))
# Seconds after which a run hangs, and faults of one test after which it ends.
HANG, ENOUGH = 60, 5
# A crate, a test of it, and how many allocations it makes at least.
TESTS = (
    ("journal_tests", "tests::a_refused_growth_changes_nothing", 5),
    ("ledger_tests", "tests::two_seats_share_a_range", 10),
    ("ledger_tests", "tests::a_settlement_takes_no_memory", 8),
    ("reserve_tests", "refused::a_refused_growth_is_no_other_fault", 50),
    ("crew_tests", "sealed::a_refused_growth_is_out_of_memory", 10),
    ("crew_tests", "seats::a_refused_growth_leaves_the_next_number", 10),
    ("batch_tests", "tests::a_refused_growth_loses_no_number", 10),
    ("engine_tests", "two_chunks::a_refused_growth_seals_nothing_or_all", 10),
    ("engine_tests", "two_chunks::a_refused_growth_opens_nothing_or_all", 10),
    ("engine_tests", "two_chunks::a_refused_growth_is_no_other_fault", 5),
    ("pipe_tests", "refused::a_refused_growth_seals_a_beginning_or_all", 10),
    ("sealer_tests", "refused::a_refused_growth_leaves_a_legal_journal", 500),
)


def program(crate):
    return f"{top}/crates/{crate}/out/{crate}_tests"


def refused(crate, test, n, shared):
    """One run whose nth allocation is refused: whether it met the refusal, and what differs, if anything."""
    env = {**os.environ, "REFUSE": str(n), "LD_PRELOAD": f"{shared}/refuse.so"}
    try:
        ran = subprocess.run([program(crate), test], env=env, capture_output=True, stdin=subprocess.DEVNULL, timeout=HANG)
    except subprocess.TimeoutExpired:
        return True, f"{crate}, {test}, {n}: hangs"
    told = ran.stderr.decode(errors="replace").splitlines()
    met = any(line.startswith("refused ") for line in told)
    if ran.returncode != 0 or b"test result: ok" not in ran.stdout:
        rest = [line for line in told if not line.startswith("refused ")]
        return met, f"{crate}, {test}, {n}: status {ran.returncode}, {ran.stdout.decode(errors='replace').strip()} {' '.join(rest)}"
    return met, None


def part(asked):
    """The runs of one test from a first allocation on, at a distance."""
    crate, test, first, step, shared = asked
    n, bad = first, []
    while len(bad) < ENOUGH:
        met, wrong = refused(crate, test, n, shared)
        if wrong:
            bad.append(wrong)
        if not met:
            break
        n += step
    return crate, test, (n - first) // step, bad


def main():
    word = sys.argv[1] if len(sys.argv) > 1 else ""
    tests = [it for it in TESTS if word in it[1] or word in it[0]]
    lacking = [f"no {os.path.relpath(program(it), top)}" for it in sorted({it[0] for it in tests}) if not os.path.exists(program(it))]
    if not shutil.which("cc"):
        lacking.append("no C compiler")
    if lacking:
        print(f"refused_tests: skipped, {', '.join(lacking)}")
        sys.exit(1 if os.environ.get("CI") else 0)
    begun = time.monotonic()
    processors = len(os.sched_getaffinity(0))
    met, bad = {}, []
    with tempfile.TemporaryDirectory() as shared:
        subprocess.run(["cc", "-O2", "-shared", "-fPIC", "-o", f"{shared}/refuse.so", f"{top}/tools/refuse.c", "-ldl"], check=True)
        asked = [(crate, test, 1 + i, processors, shared) for crate, test, _ in tests for i in range(processors)]
        with multiprocessing.Pool(processors) as pool:
            for crate, test, count, wrong in pool.imap_unordered(part, asked):
                met[crate, test] = met.get((crate, test), 0) + count
                bad += wrong
    for crate, test, least in tests:
        print(f"{crate}, {test}: {met[crate, test]}")
        if met[crate, test] < least and not bad:
            bad.append(f"{crate}, {test}: only {met[crate, test]} refusals")
    for line in bad[:40]:
        print(line)
    count = sum(met.values())
    if bad:
        sys.exit(f"refused_tests: {len(bad)} faults in {count} refusals")
    print(f"{count} refusals in {len(tests)} tests as they should be, in {time.monotonic() - begun:.0f} s")


if __name__ == "__main__":
    main()
