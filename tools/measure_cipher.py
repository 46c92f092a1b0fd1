#!/usr/bin/env python3
"""measure_cipher.py [-c CORE] [-r ROUNDS] [BENCH..]: our cipher beside OpenSSL's and libsodium's, over texts of 64 KiB and of 1 KiB.

BENCH: built programs of crates/bench, as NAME=PATH; v2=crates/bench/out/bench by default. They and the peers run in turn on one
core (2), ROUNDS times over (7), and of each work the best sample of all rounds counts. Prints GB/s, the ratios to each peer, and the ratios
that have a mark, of programs named v2 and v3. OpenSSL runs as it is, with AVX2 at most, and without AVX. Needs cc and Debian's libssl-dev and
libsodium-dev.
"""
import argparse
import os
import subprocess
import tempfile

top = os.path.join(os.path.dirname(os.path.abspath(__file__)), "..")
asked = argparse.ArgumentParser(description=__doc__, formatter_class=argparse.RawDescriptionHelpFormatter)
asked.add_argument("-c", "--core", default="2")
asked.add_argument("-r", "--rounds", type=int, default=7)
asked.add_argument("bench", nargs="*", default=[f"v2={top}/crates/bench/out/bench"])
asked = asked.parse_args()
WORKS = ("apply", "mac", "seal", "open", "check")
LENGTHS = (65536, 1024)
# of each level: the peer, and the least that sealing and opening, `check`, and texts of 1 KiB are to be of its speed
MARKS = {"v2": ("OpenSSL, no AVX", 1.0, 2.8, 1.0), "v3": ("OpenSSL, AVX2", 1.0, 3.1, 1.2)}
LIBSODIUM_MARK = 1.2

with tempfile.TemporaryDirectory() as folder:
    peers = os.path.join(folder, "peers")
    subprocess.run(["cc", "-O2", "-o", peers, f"{top}/tools/cipher_peers.c", "-lcrypto", "-lsodium"], check=True)
    runs = {name: ([path, "cipher"], {}) for name, _, path in (it.partition("=") for it in asked.bench)}
    ours = [*runs]
    runs["OpenSSL"] = ([peers, "openssl"], {})
    runs["OpenSSL, AVX2"] = ([peers, "openssl"], {"OPENSSL_ia32cap": ":~0xd0030000"})
    runs["OpenSSL, no AVX"] = ([peers, "openssl"], {"OPENSSL_ia32cap": "~0x1000000000000000:~0xd0030020"})
    runs["libsodium"] = ([peers, "sodium"], {})
    best = {}
    for _ in range(asked.rounds):
        for name, (words, more) in runs.items():
            out = subprocess.run(["taskset", "-c", asked.core, *words], env={**os.environ, **more}, capture_output=True, text=True, check=True).stdout
            for line in out.splitlines():
                work, length, picos = line.split()[:3]
                at = (name, work, int(length))
                best[at] = min(best.get(at, int(picos)), int(picos))

with open("/proc/cpuinfo", encoding="utf-8") as file:
    print(next(line.split(":")[1].strip() for line in file if line.startswith("model name")))
for length in LENGTHS:
    print(f"\nGB/s over {length} bytes")
    for name in runs:
        rates = [f"{work} {1000 / best[name, work, length]:.2f}" for work in WORKS if (name, work, length) in best]
        print(f"  {name:16}  {'  '.join(rates)}")
    for name in ours:
        for peer in [*runs][len(ours):]:
            ratios = [f"{work} {best[peer, work, length] / best[name, work, length]:.2f}" for work in ("seal", "open")]
            checks = best[peer, "seal", length] / best[name, "check", length]
            print(f"  {name} to {peer}: {'  '.join(ratios)}  check to its seal {checks:.2f}")


def marks(name):
    """Gives each ratio that has a mark, as its words, the mark and the ratio."""
    peer, whole, checks, short = MARKS[name]
    long, brief = LENGTHS
    for work in ("seal", "open"):
        yield f"{work} to {peer}'s", whole, best[peer, work, long] / best[name, work, long]
    yield f"check to {peer}'s seal", checks, best[peer, "seal", long] / best[name, "check", long]
    for work in ("seal", "open"):
        if name == "v3":
            yield f"{work} to libsodium's", LIBSODIUM_MARK, best["libsodium", work, long] / best[name, work, long]
        yield f"{work} of {brief} bytes to {peer}'s", short, best[peer, work, brief] / best[name, work, brief]


for name in [it for it in ours if it in MARKS]:
    print(f"\n{name}: ratio, mark")
    for words, mark, ratio in marks(name):
        print(f"  {words}: {ratio:.2f}, {mark:.1f}{'' if ratio >= mark else ': missed'}")
