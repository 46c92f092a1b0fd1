#!/bin/bash
# nightly.sh TREE OUT: seals TREE into OUT as one stream: all of it the first time, and later what changed since the last run.
# KEY is the key file. STATE is a folder, by its whole path: it has the ledger, which was made once by hand, its device number, the
# snapshot of tar, the lock, and the list of archives. To begin anew with all of the tree, remove STATE/snapshot.
set -euo pipefail
umask 077
tree=$1 out=$2 key=${KEY:-/etc/sealer/key} state=${STATE:-/var/lib/sealer}
exec 9> "$state/lock" && flock -n 9                                                     # one run at a time
name=$(date +%F-%H%M%S).$([ -f "$state/snapshot" ] && echo changes || echo all).tar.stm
rm -f "$state/snapshot.new" "$out"/*.tar.stm.part                                       # of a run that was killed
[ ! -f "$state/snapshot" ] || cp "$state/snapshot" "$state/snapshot.new"
{ tar -C "$tree" --listed-incremental="$state/snapshot.new" -c . || [ $? = 1 ]; } |     # 1: a file changed as it was read
    sealer pipe --key "$key" --ledger "$state/ledger" --no-new-ledger --device "$(< "$state/device")" \
        --max-chunks max --label "$name" > "$out/$name.part"
sealer verify --key "$key" --label "$name" --max-bytes max "$out/$name.part"
mv "$out/$name.part" "$out/$name" && sync "$out/$name" "$out"
echo "$name" >> "$state/archives" && mv "$state/snapshot.new" "$state/snapshot"
