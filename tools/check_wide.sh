#!/bin/bash
# The cipher's tests with all their vectors as a build for x86-64-v3 compiles them, and the checks of containers over the program for that
# level, crates/sealer/out/sealer-x86-64-v3.
# usage: tools/check_wide.sh
#
# tools/build.py makes that program on a machine with AVX2, in minutes if the portable one was built. The tests are proved for that level
# first, which takes some minutes more. It isn't part of the gate. Exits with status 0 if all is well, or if this machine can't run the program.
set -u
cd "$(dirname "$0")/.."
if ! /lib64/ld-linux-x86-64.so.2 --help 2>/dev/null | grep -q 'x86-64-v3 (supported'; then
    echo "check_wide: skipped, this machine lacks a feature of x86-64-v3"
    exit 0
fi
program=$PWD/crates/sealer/out/sealer-x86-64-v3
[ -x "$program" ] || { echo "check_wide: there is no $program: tools/build.py x86-64-v3 builds it" >&2; exit 1; }
newer=$(find crates -name '*.rt' -newer "$program" -print -quit)
[ -z "$newer" ] || { echo "check_wide: $program is older than $newer" >&2; exit 1; }
export SEALER=$program
bad=0
passes() { "$@" || { bad=1; echo "$*: failed"; }; }
passes tools/build.py -t cipher_tests x86-64-v3
passes tools/check_containers.sh
passes tools/altered_containers.py
passes tools/fuzz_containers.py 10000 21
exit $bad
