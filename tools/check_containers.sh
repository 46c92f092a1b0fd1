#!/bin/bash
# Seals a few files with the built program, crates/sealer/out/sealer or $SEALER, and opens them with tools/open_container.py, which is written
# from docs/FORMATS.md alone. If Python's package `cryptography` is missing it says so and exits with status 0; under CI it fails.
set -eu
cd "$(dirname "$0")/.."
sealer=$(realpath "${SEALER:-crates/sealer/out/sealer}")
reader=$PWD/tools/open_container.py
if ! python3 -c 'import cryptography' 2>/dev/null; then
    echo "check_containers: skipped, Python's package cryptography isn't there"
    [ -z "${CI:-}" ] && exit 0 || exit 1
fi
folder=$(mktemp -d)
trap 'rm -rf "$folder"' EXIT
cd "$folder"
python3 - <<'MAKE'
open("key", "w").write(bytes(range(32)).hex())
# bytes that don't repeat at a chunk's length
for length in (0, 1, 65535, 65536, 65537, 131072, 200000):
    open(str(length), "wb").write(bytes(i % 251 for i in range(length)))
MAKE
count=0
# Version 1, and version 2 in the least and the greatest chunks: bytes of the header, the exponent, and the options that ask for it.
for shape in '24 16' '27 12 --exponent 12 --label ab' '25 20 --exponent 20'; do
    read -r header exponent asked <<<"$shape"
    rm -f ./*.stm
    "$sealer" seal --key key --ledger ledger --device 1 --workers 4 $asked 0 1 65535 65536 65537 131072 200000 >lines || { cat lines; exit 1; }
    for sealed in *.stm; do
        python3 "$reader" key "$sealed" opened
        cmp opened "${sealed%.stm}"
        count=$((count + 1))
        # A reader that checks nothing would open this one too. The fault is that of the last chunk.
        fault=$(python3 - "$sealed" $header $exponent <<'ALTER'
import sys
data = bytearray(open(sys.argv[1], "rb").read())
header, size = int(sys.argv[2]), 2 ** int(sys.argv[3])
data[-1] ^= 1
open("bad", "wb").write(data)
print(f"chunk {(len(data) - header - 1) // (size + 16)} does not check")
ALTER
        )
        if answer=$(python3 "$reader" key bad opened) || [ "$answer" != "$fault" ]; then
            echo "check_containers: $sealed $asked with its last tag changed: '$answer', not '$fault'"
            exit 1
        fi
    done
done
[ "$count" -eq 21 ] || { echo "check_containers: $count containers, not 21"; exit 1; }
echo "check_containers: $count containers of ours opened by an independent reader"
