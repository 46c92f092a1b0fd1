#!/bin/bash
# Times sealing, verifying and opening of one file of 1 GiB, by workers and windows, and of many files of one size, by lanes, beside `age` and
# `cp`: each in turn, ROUNDS times. `unpipe` opens a file into a pipe, and a pipe into a pipe with the spool in the folder; `open` of a pipe holds
# the plaintext in memory, as it did of every file once. Prints for each the best wall seconds, and the user seconds and the peak memory of that run.
# usage: tools/measure_files.sh FOLDER [ROUNDS [open]]    FOLDER: an empty folder, best in memory-backed storage, with 6 GiB free
# With `open` it times the opening of 1 GiB alone.
# `age` and GNU `time` are Debian's packages of these names.
set -eu
sealer=$(cd "$(dirname "$0")/.." && pwd)/crates/sealer/out/sealer
rounds=${2:-3}
only=${3:-}
cd "$1"
command -v age >/dev/null && command -v age-keygen >/dev/null && [ -x /usr/bin/time ] || { echo 'age or time is missing'; exit 1; }

# The files, of pseudorandom bytes: `big`, and in the folder of each size many files of it.
sizes='4KiB 64KiB 256KiB 1MiB'
head -c 1G /dev/zero | openssl enc -chacha20 -K "$(printf '00%.0s' $(seq 32))" -iv "$(printf '00%.0s' $(seq 16))" > big
mkdir $sizes
head -c 40960000 big | split -b 4KiB -a 5 -d - 4KiB/f
for size in 64KiB 256KiB 1MiB; do head -c 128M big | split -b $size -a 5 -d - $size/f; done
openssl rand -hex 32 > key
age-keygen -o age.key 2>/dev/null
to=$(age-keygen -y age.key)
export to

# timed NAME COMMAND..: notes one run under this name
: > all
timed() {
    /usr/bin/time -o figures -f '%e %U %M' "${@:2}" > lines 2> errors || { echo "$1 failed: $(head -1 errors)"; exit 1; }
    echo "$(tail -1 figures) $1" >> all
}
seals() { timed "$1" "$sealer" seal --key key --ledger ledger --device 1 "${@:2}"; }
opens() { timed "$1" "$sealer" open --key key "${@:2}"; }
unpipes() { # NAME INPUT ARGUMENT..
    /usr/bin/time -o figures -f '%e %U %M' "$sealer" unpipe --key key --spool . "${@:3}" < "$2" 2> errors | cat > /dev/null
    [ "${PIPESTATUS[0]}" = 0 ] || { echo "$1 failed: $(head -1 errors)"; exit 1; }
    echo "$(tail -1 figures) $1" >> all
}
verifies() { timed "$1" "$sealer" verify --key key "${@:2}"; }

opened_file() {
    [ -e big.stm ] || seals 'seal, 1 GiB' big
    [ -e big.age ] || age -r "$to" -o big.age big
    mv big kept
    for workers in 1 2 4; do
        verifies "verify --workers $workers, 1 GiB" --workers $workers big.stm
        opens "open --workers $workers, 1 GiB" --workers $workers big.stm
        cmp big kept
        rm big
        unpipes "unpipe --workers $workers, 1 GiB of a file" /dev/null --workers $workers big.stm
        opens "open --workers $workers, 1 GiB of a pipe, in memory" --workers $workers --to big - < <(cat big.stm)
        rm big
    done
    unpipes 'unpipe, 1 GiB of a pipe' <(cat big.stm)
    timed 'dd, 1 GiB into a pipe' bash -c 'dd if=kept bs=64K status=none | cat > /dev/null'
    timed 'age -d, 1 GiB' age -d -i age.key -o copy big.age
    cmp copy kept
    rm copy
    timed 'cp, 1 GiB' cp kept copy
    rm copy
    mv kept big
}

one_file() {
    timed 'cp, 1 GiB' cp big copy
    rm copy
    mv big kept
    for workers in 1 2 4; do
        mv kept big
        for window in 4 64 256; do
            seals "seal --workers $workers --window $window, 1 GiB" --workers $workers --window $window big
            rm big.stm
        done
        seals "seal --workers $workers, 1 GiB" --workers $workers big
        mv big kept
        verifies "verify --workers $workers, 1 GiB" --workers $workers big.stm
        opens "open --workers $workers, 1 GiB" --workers $workers big.stm
        cmp big kept
        rm big big.stm
    done
    mv kept big
    timed 'age -e, 1 GiB' age -r "$to" -o big.age big
    timed 'age -d, 1 GiB' age -d -i age.key -o copy big.age
    cmp big copy
    rm big.age copy
}

many_files() { # SIZE
    local many
    many="$(ls "$1" | wc -l) of $1"
    timed "cp -r, $many" cp -r "$1" copies
    rm -r copies
    mkdir sealed
    for lanes in 1 2 4; do
        rm -f sealed/*
        seals "seal --lanes $lanes, $many" --lanes $lanes "$1"/f*
        mv "$1"/*.stm sealed
    done
    opens "open, $many" sealed/*
    rm sealed/*.stm
    diff -rq "$1" sealed
    rm -r sealed
}

for _ in $(seq "$rounds"); do
    if [ "$only" = open ]; then
        opened_file
        continue
    fi
    one_file
    for size in $sizes; do many_files $size; done
done
# Once, since it starts a program for each file.
[ "$only" = open ] || timed 'age -e, 10000 of 4KiB' bash -c 'for f in 4KiB/f*; do age -r "$to" -o "$f.age" "$f" || exit 1; done'
echo '| what | wall s | user s | peak MiB |'
echo '|---|---|---|---|'
cut -d ' ' -f 4- all | awk '!seen[$0]++' | while read -r name; do
    grep -F " $name" all | sort -n | head -1 | awk -v name="$name" '{ printf "| %s | %s | %s | %d |\n", name, $1, $2, $3 / 1024 }'
done
