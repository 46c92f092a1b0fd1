#!/bin/bash
# Runs the recipes of the documents that need a database, another machine or the folders of a system: the blocks marked `sh` of docs/MANUAL.md
# and docs/MANY_MACHINES.md, as printed, but below a folder of its own, and with programs that take the place of pg_dump, psql, curl and ssh.
# Also that examples/nightly.sh runs once at a time, and that the cron line and the systemd unit start the same. Prints 'N conditions hold',
# or those that don't. The program is crates/sealer/out/sealer, or $SEALER.
set -u
cd "$(dirname "$0")/.." || exit
sealer=$(realpath "${SEALER:-crates/sealer/out/sealer}")
top=$PWD
room=$(mktemp -d)
trap 'rm -rf "$room"' EXIT
root=$room/root out=$room/printed
conditions=0 bad=0
is() { conditions=$((conditions + 1)); "${@:2}" || { bad=1; echo "$1: does not hold; it printed: $(head -c 2000 "$out")"; }; }
no() { ! "$@"; }
says() { grep -qF -- "$1" "$out"; }

# block DOCUMENT N: the N-th block marked `sh`, with the folders of a system below $root
block() {
    awk -v wanted="$2" '/^```/ { on = $0 == "```sh"; seen += on; next } on && seen == wanted' "$1" |
        sed -E "s#(/etc|/var/lib|/srv)/#$root\1/#g"
}
run() { (cd "$room/work" && bash -c "$1") > "$out" 2>&1; status=$?; } # TEXT

mkdir -p "$room"/{bin,work} "$root"/{etc/sealer,var/lib,srv/dumps}
ln -s "$sealer" "$room/bin/sealer"
cat > "$room/bin/pg_dump" << 'END'
#!/bin/bash
seq 1 100000
exit "${DUMP:-0}"
END
cat > "$room/bin/psql" << 'END'
#!/bin/bash
cat > restored
exit "${RESTORE:-0}"
END
cat > "$room/bin/curl" << END
#!/bin/bash
exec cat "$room/work/\${2##*/}"
END
# another machine is a folder beside $root
cat > "$room/bin/ssh" << END
#!/bin/bash
[ "\$1" != -n ] || { shift; exec < /dev/null; }
machine=\$1
exec bash -c "\${2//"$root"/"$room"/\$machine}"
END
chmod +x "$room"/bin/{pg_dump,psql,curl,ssh}
export PATH=$room/bin:$PATH
(umask 077; openssl rand -hex 32 > "$root/etc/sealer/key")
cp "$root/etc/sealer/key" "$room/work/key"

# Giving out device numbers: a ledger is made once, and used.
echo one > "$root/srv/dumps/one.sql"
echo two > "$root/srv/dumps/two.sql"
run "$(block docs/MANY_MACHINES.md 1)"
is giving-out test $status = 0
is giving-out-the-first says 'sealed made file 0 bytes 0'
is giving-out-the-next says "sealed $root/srv/dumps/two.sql file 2 bytes 4"
sealer verify --key "$root/etc/sealer/key" --show "$root/srv/dumps/two.sql.stm" > "$out" 2>&1
is giving-out-its-device says 'device 192 file 2'

# A database dump: whole, of a dump that fails, of a restore that fails, and damaged.
(cd "$room/work" && : > made && sealer seal --key key --ledger "$PWD/ledger" --device 1 made > /dev/null)
dump=$(block docs/MANUAL.md 1)
run "$dump"
is dump test $status = 0
is dump-is-sealed says 'sealed - file 1 bytes 588895'
is dump-is-verified-here says 'good db.part bytes 588895'
is dump-is-verified-elsewhere says 'good - bytes 588895'
is dump-is-complete test "$(tail -n 1 "$out")" = complete
is dump-is-restored cmp -s "$room/work/restored" <(seq 1 100000)
rm "$room/work/db.stm"
DUMP=1 run "$dump"
is failed-dump-has-no-name test ! -e "$room/work/db.stm"
is failed-dump-is-not-complete no says complete
rm "$room/work"/db.part
RESTORE=1 run "$dump"
is failed-restore-is-not-complete no says complete
# another byte in its place: under a random key an x may be there
tail -c +300001 "$room/work/db.stm" | head -c 1 | tr '\000-\377' '\001-\377\000' | dd of="$room/work/db.stm" bs=1 seek=300000 conv=notrunc 2> /dev/null
run "$(tail -n 1 <<< "$dump")"
is damaged-dump-is-named says 'failed db.stm: chunk 4 does not check'
is damaged-dump-restores-nothing test ! -s "$room/work/restored"

# ssh: two machines, and the key on one of them by the first line.
for machine in alpha beta; do
    mkdir -p "$room/$machine"/{etc/sealer,var/lib/sealer,srv/dumps}
    echo "$machine" > "$room/$machine/srv/dumps/$machine.sql"
done
cp "$room/work/key" "$room/beta/etc/sealer/key"
printf 'alpha 64\nbeta 128\n' > "$room/work/machines"
while read -r machine device; do
    (cd "$room/$machine" && : > made && sealer seal --key "$room/work/key" --ledger "$PWD/var/lib/sealer/ledger" --device "$device" made)
done < "$room/work/machines" > /dev/null
run "$(block docs/MANY_MACHINES.md 2)"
is ssh-without-a-failed-line test ! -s "$out"
is ssh-key-is-private test "$(stat -c %a "$room/alpha/etc/sealer/key")" = 600
is ssh-lines test "$(cat "$room"/work/lines.*)" = $'sealed alpha.sql file 1 bytes 6\nsealed beta.sql file 1 bytes 5'
sealer verify --key "$room/work/key" --show "$room"/{alpha,beta}/srv/dumps/*.stm > "$out" 2>&1
is ssh-devices test "$(grep -oE 'device [0-9]+' "$out" | tr '\n' ' ')" = 'device 64 device 128 '
run "$(block docs/MANY_MACHINES.md 2)"
is ssh-again says 'failed alpha.sql: output exists'

# nightly.sh, while another run has its lock; then what cron and systemd start.
mkdir "$room/state" "$room/backup"
echo 1 > "$room/state/device"
KEY=$room/work/key STATE=$room/state flock "$room/state/lock" "$top/examples/nightly.sh" "$root/srv" "$room/backup" > "$out" 2>&1
is nightly-one-at-a-time test $? = 1
is nightly-made-nothing test -z "$(ls -A "$room/backup")"
started=$(sed -n 's/^ExecStart=//p' examples/sealer-nightly.service)
is cron-and-systemd grep -qF "root $started\`" docs/MANUAL.md
[ $bad = 0 ] && echo "$conditions conditions hold"
exit $bad
