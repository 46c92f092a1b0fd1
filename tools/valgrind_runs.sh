#!/bin/bash
# Runs the built program on small inputs under valgrind. Memcheck finds no invalid read or write, no use of uninitialized memory, and no leak.
# Helgrind and drd find no race of lanes; nothing is suppressed. Status, lines and files are those of a run without valgrind. Prints
# 'N runs under valgrind as they should be', or what differs. Without valgrind it says so and exits with status 0, and under CI it fails. The
# program is crates/sealer/out/sealer, or $SEALER.
set -u
cd "$(dirname "$0")/.."
sealer=$(realpath "${SEALER:-crates/sealer/out/sealer}")
key=$PWD/examples/key
journal=$PWD/examples/journal.txt
if ! command -v valgrind >/dev/null; then
    echo "valgrind_runs: skipped, valgrind isn't there"
    [ -z "${CI:-}" ] && exit 0 || exit 1
fi
room=$(mktemp -d)
trap 'running=$(jobs -rp); [ -z "$running" ] || kill $running; rm -rf "$room"' EXIT
mkdir "$room/given" "$room/results"
cp examples/numbers.stm "$room/given"
cd "$room/given" || exit 1
# Of 33 chunks each worker gets some, a file of 2 MiB is worth two, and each of the others a lane.
for name in a b c; do seq 1 50000 > $name; done
seq 1 400 > small
head -c 2097153 /dev/zero > long
"$sealer" seal --key "$key" --ledger "$room/ledger" --device 1 long > "$room/lines" && mv long plain || exit 1
cp long.stm damaged.stm && printf x | dd of=damaged.stm bs=1 seek=70000 conv=notrunc 2>/dev/null

# A stream of more than 16 MiB needs a spool.
mkdir "$room/spooled"
truncate -s 16M "$room/spooled/zeros"
"$sealer" seal --key "$key" --ledger "$room/ledger" --device 1 --exponent 20 "$room/spooled/zeros" > "$room/lines" || exit 1

# given COMMAND..: runs it with its input in a pipe, since a file would be opened again; a folder can't be
given() {
    if [ -d "$from" ]; then "$@" < "$from"; else cat "$from" | "$@"; fi
}

# under NAME TOOL STATUS ARGS..: a run under the tool, and one without it, each in a folder that has the given files, with the journal as its
# input, or what $input names
under() {
    local name=$1 tool=$2 wanted=$3 folder=$room/$1 found='' run from=${input:-$journal}
    local options=(--tool="$tool" --error-exitcode=99 --num-callers=30 --fair-sched=yes --log-file="$room/$1/log")
    if [ "$tool" = memcheck ]; then
        options+=(--leak-check=full '--show-leak-kinds=all' '--errors-for-leak-kinds=all')
    fi
    shift 3
    mkdir "$folder" && cp -r "$room/given" "$folder/plain" && cp -r "$room/given" "$folder/tool"
    (cd "$folder/plain" && given "$sealer" "$@" > ../plain.out 2> ../plain.err; echo $? > ../plain.status)
    (cd "$folder/tool" && given valgrind "${options[@]}" "$sealer" "$@" > ../tool.out 2> ../tool.err; echo $? > ../tool.status)
    # with lanes a file can get any number
    sed -i 's/ file [0-9]* / /' "$folder/plain.out" "$folder/tool.out"
    for run in plain tool; do
        [ "$(cat "$folder/$run.status")" = "$wanted" ] || found="$found status $(cat "$folder/$run.status") ($run), not $wanted;"
        (cd "$folder/$run" && ls) > "$folder/$run.left"
    done
    for what in out err left; do
        cmp -s "$folder/plain.$what" "$folder/tool.$what" || found="$found $what is $(cat "$folder/tool.$what");"
    done
    grep -q 'ERROR SUMMARY: 0 errors' "$folder/log" || found="$found $(grep 'ERROR SUMMARY' "$folder/log" || echo no summary);"
    if [ -z "$found" ]; then
        : > "$room/results/$name"
    else
        { echo "$name:$found"; head -n "${LINES_OF_LOG:-60}" "$folder/log"; } > "$room/results/$name.bad"
    fi
    rm -rf "$folder"
}
# limited ARGS..: the same, as many side by side as there are processors
begun=0
limited() {
    while [ "$(jobs -rp | wc -l)" -ge "$(nproc)" ]; do sleep 0.1; done
    under "$@" &
    begun=$((begun + 1))
}
sealing=(seal --key "$key" --ledger ledger --device 1 --journal journal)
limited audit memcheck 0 audit
limited no-command memcheck 2 pack
limited help memcheck 0 --help
limited seal memcheck 1 "${sealing[@]}" --exponent 12 --label ab small a none
limited verify memcheck 1 verify --key "$key" --show long.stm damaged.stm none numbers.stm
limited open memcheck 1 open --key "$key" long.stm damaged.stm numbers.stm small
piping=(pipe --key "$key" --ledger ledger --device 1 --journal journal --exponent 12)
input=$room/given/a limited pipe memcheck 0 "${piping[@]}"
input=$room/given/a limited pipe-of-too-many-chunks memcheck 1 "${piping[@]}" --depth 2 --max-chunks 9
input=$room/given limited pipe-of-a-folder memcheck 1 "${piping[@]}" --workers 2
input=$room/given/long.stm limited unpipe memcheck 0 unpipe --key "$key"
input=$room/given/damaged.stm limited unpipe-what-does-not-check memcheck 1 unpipe --key "$key" --workers 2
limited unpipe-a-file memcheck 0 unpipe --key "$key" --workers 2 long.stm
input=$room/spooled/zeros.stm limited unpipe-by-a-spool memcheck 0 unpipe --key "$key" --spool .
# Workers share jobs, pieces and rounds through words without locks. Helgrind and drd don't see the order in their plain loads and stores, and
# report each of them as a race. So these run under memcheck alone.
for depth in 1 3; do
    input=$room/given/plain limited pipe-by-workers-$depth memcheck 0 "${piping[@]}" --workers 2 --depth $depth
done
for window in 1 2; do
    limited seal-by-workers-$window memcheck 0 "${sealing[@]}" --workers 2 --window $window plain small
done
limited open-by-workers memcheck 1 open --key "$key" --workers 2 long.stm damaged.stm
limited verify-by-workers memcheck 1 verify --key "$key" --workers 2 damaged.stm long.stm
input=$room/given/long.stm limited unpipe-by-workers memcheck 0 unpipe --key "$key" --workers 2
for tool in memcheck helgrind drd; do
    limited seal-by-lanes-$tool $tool 1 "${sealing[@]}" --lanes 2 a none b c
done
wait
bad=0
for result in "$room"/results/*.bad; do [ ! -e "$result" ] || { bad=1; cat "$result"; }; done
count=$(find "$room/results" -type f ! -name '*.bad' | wc -l)
[ "$count" = "$begun" ] || { bad=1; echo "valgrind_runs: $count of $begun runs are as they should be"; }
[ $bad = 0 ] && echo "$count runs under valgrind as they should be"
exit $bad
