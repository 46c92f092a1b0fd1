#!/bin/bash
# One key on eight devices at once, as in docs/MANY_MACHINES.md: GNU parallel seals a thousand small files in eight slots, each with its own
# ledger file and device number. Then every container is opened and compared, and every journal audited. No two containers may have one
# prefix, with which all nonces of a container begin, and no two runs ranges that share a number. At last a ledger is copied and the copy
# used: then both must be noticed. Prints what was sealed, or what is wrong.
# usage: tools/many_devices.sh [FILES [SLOTS]]
set -u
cd "$(dirname "$0")/.."
files=${1:-1000} slots=${2:-8} first=64
sealer=$PWD/crates/sealer/out/sealer
command -v parallel >/dev/null || { echo 'left out: many devices, which need parallel'; [ -z "${CI:-}" ]; exit; }
room=$(mktemp -d)
trap 'rm -rf "$room"' EXIT
cd "$room" || exit 1
mkdir in ledgers journals
bad=0
fault() { bad=1; echo "$*"; }
has() { [ "$2" = "$3" ] || fault "$1: $2, and not $3"; } # WHAT FOUND WANTED

(umask 077; openssl rand -hex 32 > key)
# 0 bytes to two chunks of 4 KiB, each file with other bytes
for ((n = 0; n < files; n++)); do
    printf '%*s' $((n * 37 % 8200)) "$n" > in/$n
done
cp -r in plain

export sealer first
seals() { # SLOT JOURNAL FILE..
    local new=--no-new-ledger
    [ "$2" != made ] || new=
    "$sealer" seal --key key --ledger "$PWD/ledgers/$1" $new --device $((first + $1)) --exponent 12 \
        --journal "journals/$1.$2" -- "${@:3}"
}
# A run ends before the next one is started, so each pauses a little: then all slots get work.
rests() {
    seals "$@"
    local status=$?
    sleep 0.1
    return $status
}
export -f seals rests
for ((slot = 1; slot <= slots; slot++)); do
    : > "in/made.$slot"
    : > "plain/made.$slot"
    seals $slot made "in/made.$slot" >> lines || fault "the ledger of slot $slot isn't made"
done
find in -type f ! -name 'made.*' ! -name '*.stm' | sort -V | parallel --will-cite -j "$slots" -n 4 rests '{%}' '{#}' '{}' >> lines 2> errors ||
    fault "parallel: status $?"
[ ! -s errors ] || fault "parallel: $(head -3 errors)"
has 'lines sealed' "$(grep -c '^sealed ' lines)" $((files + slots))
has 'other lines' "$(grep -vc '^sealed ' lines)" 0

# every container is opened and compared
find in -type f ! -name '*.stm' -delete
find in -name '*.stm' | sort -V | xargs "$sealer" open --key key > opened || fault "open: status $?"
has 'lines opened' "$(grep -c '^opened ' opened)" $((files + slots))
has 'containers' "$(find in -name '*.stm' | wc -l)" $((files + slots))
find in -name '*.stm' -exec mv {} . \;
diff -rq plain in || fault 'what was opened is not what was sealed'

# prefixes FOLDER: what is wrong with the prefixes of its containers: docs/FORMATS.md, bytes 10 to 16
prefixes() {
    python3 - "$first" "$slots" "$1" <<'END'
import sys
from collections import Counter
from pathlib import Path
first, slots, seen = int(sys.argv[1]), int(sys.argv[2]), Counter()
for name in sorted(Path(sys.argv[3]).glob("*.stm")):
    seen[name.read_bytes()[10:17]] += 1
for prefix in [it for it, times in seen.items() if times > 1]:
    print("prefix", prefix.hex(), "is in", seen[prefix], "containers")
devices = Counter(int.from_bytes(it[:3], "big") for it in seen)
if set(devices) != set(range(first + 1, first + slots + 1)):
    print("devices:", sorted(devices))
for device, count in devices.items():
    # the ledger that was made and a share of the others; a slot that got nothing would show nothing
    if count < 2:
        print("device", device, "sealed", count)
END
}
# ranges: the ranges of journals that begin before another of their device ends
ranges() { head -qn 1 journals/* | sort -k2,2n -k3,3n | awk '$2 == device && $3 < end { print } { device = $2; end = $3 + $4 }'; }
has 'prefixes' "$(prefixes .)" ''
has 'ranges that share a number' "$(ranges)" ''
for journal in journals/*; do
    verdict=$("$sealer" audit < "$journal") || fault "$journal: $verdict"
done
has 'numbers granted' "$(cat journals/* | grep -c ' issue [0-9]')" $((files + slots))

# a copied ledger issues a number twice, and it is noticed
mkdir twice
cp ledgers/1 ledgers/copy
echo one > twice/one
echo two > twice/two
seals 1 one twice/one > lines && mv ledgers/copy ledgers/1 && seals 1 two twice/two > lines || fault 'the copied ledger is not used'
case $(prefixes twice) in
    'prefix 000041'*' is in 2 containers'*) ;;
    *) fault "a copied ledger isn't seen by prefixes: $(prefixes twice)" ;;
esac
[ -n "$(ranges)" ] || fault "a copied ledger isn't seen by ranges"

runs=$(find journals -type f | wc -l)
[ $bad = 0 ] && echo "$((files + slots)) containers of $slots devices, in $runs runs: opened and compared, no prefix twice"
exit $bad
