#!/bin/sh
# Runs the program that is built for this machine's processor. Where there is no shell, call lib/sealer/sealer-x86-64-v2 itself.
programs=${0%/*}/../lib/sealer
[ -x "$programs/sealer-x86-64-v2" ] || programs=$(dirname "$(readlink -f "$0")")/../lib/sealer
program=$programs/sealer-x86-64-v3
# On a processor that lacks a feature it ends with status 127.
{ [ -x "$program" ] && "$program" --version >/dev/null 2>&1 </dev/null; } || program=$programs/sealer-x86-64-v2
exec "$program" "$@"
