#!/bin/bash
# Seals 4 GiB with the built program, verifies them, and opens them with `open` and `unpipe`, in 256 MiB of addresses and 64 MiB of resident
# memory. The plaintext is zeros, with no block on the disk. `unpipe` reads a pipe, and its spool is on the disk. Prints each peak, and 'N large
# runs as they should be', or what differs. It needs some 9 GiB of disk: without them it says so and exits with status 0, and under CI it
# fails. The program is crates/sealer/out/sealer, or $SEALER.
#
#     large_runs.sh [SIZE]: another size than 4G, as of truncate
set -u
cd "$(dirname "$0")/.."
sealer=$(realpath "${SEALER:-crates/sealer/out/sealer}")
key=$PWD/examples/key
size=${1:-4G}
# KiB of addresses, and of resident memory
addresses=262144 resident=65536
room=$(mktemp -d)
trap 'rm -rf "$room"' EXIT
cd "$room" || exit 1
truncate -s "$size" zeros
bytes=$(stat -c %s zeros)
mkdir out spool
free=$(df --output=avail -B 1 "$room" | tail -n 1)
if [ "$free" -lt $((2 * bytes + bytes / 8 + 1000000000)) ]; then
    echo "large_runs: skipped, the folder of temporary files has $((free >> 20)) MiB of room"
    [ -z "${CI:-}" ] && exit 0 || exit 1
fi
# peak COMMAND..: runs it in so many addresses. Its status, and its peak of resident memory in KiB, go to the file peak.
cat > peak.py <<'END'
import resource, subprocess, sys
limit = int(sys.argv[1]) << 10
run = subprocess.run(sys.argv[2:], preexec_fn=lambda: resource.setrlimit(resource.RLIMIT_AS, (limit, limit)))
with open("peak", "w") as file:
    print(run.returncode, resource.getrusage(resource.RUSAGE_CHILDREN).ru_maxrss, file=file)
END
peak() { python3 peak.py "$addresses" "$@"; }
runs=0 bad=0
differs() { bad=1; echo "$1"; }
# wants NAME LINE: the last run ended well with this line alone, within the memory
wants() {
    runs=$((runs + 1))
    local status=none kilobytes=0
    read -r status kilobytes < peak
    [ "$status" = 0 ] || differs "$1: status $status"
    [ "$(cat lines)" = "$2" ] || differs "$1: $(cat lines)"
    [ "$kilobytes" -le $resident ] || differs "$1: $kilobytes KiB of resident memory"
    echo "$1: $bytes bytes, a peak of $((kilobytes >> 10)) MiB, after $SECONDS s"
    rm -f peak lines
}

peak "$sealer" seal --key "$key" --ledger ledger --device 1 --workers 2 --max-bytes "$bytes" zeros > lines 2>&1
wants seal "sealed zeros file 0 bytes $bytes"
peak "$sealer" verify --key "$key" --workers 2 --max-bytes "$bytes" zeros.stm > lines 2>&1
wants verify "good zeros.stm bytes $bytes"
# its spool is a second container's bytes on the disk
cat zeros.stm | peak "$sealer" unpipe --key "$key" --workers 2 --spool spool 2> lines | cmp - zeros || differs 'unpipe: other bytes'
wants unpipe "opened - bytes $bytes"
[ -z "$(ls -A spool)" ] || differs "unpipe leaves $(ls -A spool)"
peak "$sealer" open --key "$key" --workers 2 --max-bytes "$bytes" --into out zeros.stm > lines 2>&1
wants open "opened zeros.stm bytes $bytes"
cmp out/zeros zeros || differs 'open: other bytes'
[ $bad = 0 ] && echo "$runs large runs as they should be"
exit $bad
