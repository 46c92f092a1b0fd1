#!/bin/bash
# Runs of the built program: each text with its stream and its status. Prints 'N runs as they should be', or what differs.
# The program is crates/sealer/out/sealer, or $SEALER.
set -u
cd "$(dirname "$0")/.."
sealer=$(realpath "${SEALER:-crates/sealer/out/sealer}")
room=$(mktemp -d)
loop=
trap 'umount "$room/small" "$room/exfat" 2>/dev/null; [ -z "$loop" ] || losetup -d "$loop" 2>/dev/null; rm -rf "$room"' EXIT
runs=0 bad=0

# has TOOL: what some runs need. Without it they are left out, which is reported at the end, and is a failure under CI.
missing=
command -v sqlite3 >/dev/null || missing="$missing sqlite3"
python3 -c 'import cryptography' 2>/dev/null || missing="$missing cryptography"
has() { case " $missing " in *" $1 "*) return 1 ;; esac; }

# parts FOLDER: the outputs there that aren't whole
parts() { find "$1" -maxdepth 1 -name '.*.part'; }

# as_user COMMAND..: as a user whom modes bind, if the tests are run as root
as_user() { if [ "$(id -u)" = 0 ]; then setpriv --reuid=65534 --regid=65534 --clear-groups "$@"; else "$@"; fi; }

# wants NAME STATUS OUT ERR: what the last run left; OUT and ERR are whole texts without their last line feed, or 'begins TEXT'
wants() {
    runs=$((runs + 1))
    for stream in out err; do
        [ $stream = out ] && text=$3 || text=$4
        case $text in
            'begins '*)
                text=${text#begins }
                head -c "$(printf '%s' "$text" | wc -c)" "$room/$stream" > "$room/got"
                printf '%s' "$text" > "$room/wanted"
                ;;
            *)
                cp "$room/$stream" "$room/got"
                printf '%s' "${text:+$text
}" > "$room/wanted"
                ;;
        esac
        cmp -s "$room/got" "$room/wanted" || { bad=1; echo "$1: $stream is: $(cat "$room/$stream")"; }
    done
    [ "$status" = "$2" ] || { bad=1; echo "$1: status $status"; }
}

run() { # ARGS.., standard input as given
    "$sealer" "$@" > "$room/out" 2> "$room/err"
    status=$?
}

# unnumbered: takes the file numbers out of the lines of the last run, since lanes get theirs in any order
unnumbered() { sed -i 's/ file [0-9]* bytes / bytes /' "$room/out"; }

run audit < examples/journal.txt
wants legal 0 'legal: 2 granted, 1 sealed, 1 void, 0 open, 1 refused' ''
run audit < /dev/null
wants empty 1 'malformed line 1' ''
printf 'range 1 7 2 2\n0 issue 8\n' > "$room/journal"
run audit < "$room/journal"
wants illegal 1 'illegal line 2' ''
run audit < "$room"
wants directory 2 '' 'audit: read failed'
"$sealer" audit < examples/journal.txt > /dev/full 2> "$room/err"; status=$?; : > "$room/out"
wants full 2 '' 'audit: write failed'
"$sealer" audit < examples/journal.txt 2> "$room/err" >&-; status=$?; : > "$room/out"
wants closed 2 '' 'audit: write failed'
run audit <&-
wants closed-input 2 '' 'audit: read failed'
{ sleep 0.2; "$sealer" audit < examples/journal.txt 2> "$room/err"; echo $? > "$room/status"; } | true
status=$(cat "$room/status"); : > "$room/out"
wants nobody-reads 2 '' 'audit: write failed'
"$sealer" audit --help > /dev/full 2> "$room/err"; status=$?; : > "$room/out"
wants full-help 2 '' ''
# Each help is the whole text of tools/help/NAME.txt, whichever words ask for it; none of its lines has over 100 columns.
helps() { # NAME ARGS..
    runs=$((runs + 1))
    run "${@:2}" < /dev/null
    diff "tools/help/$1.txt" "$room/out" && [ "$status" = 0 ] && [ ! -s "$room/err" ] && return
    bad=1
    echo "sealer ${*:2}: it isn't tools/help/$1.txt as above, or status $status, or this on standard error: $(cat "$room/err")"
}
for words in --help help -h; do helps sealer $words; done
kept=$(cd tools/help && printf '%s\n' *.txt | sed 's/\.txt$//' | grep -vx sealer)
named=$(sed -n '/^Commands:/,/^$/s/^  \([^ ]*\) .*/\1/p' tools/help/sealer.txt | grep -vx help)
[ "$(sort <<< "$kept")" = "$(sort <<< "$named")" ] || { bad=1; echo "tools/help has the help of" $kept", and the commands are" $named; }
for command in $kept; do
    for words in "$command --help" "$command -h" "help $command"; do helps "$command" $words; done
done
grep -nE '^.{101}' tools/help/*.txt && { bad=1; echo 'these lines have over 100 columns'; }
# The version names the logic of the toolchain that is here, and no commit, which tools/link_static.py puts in.
version=$(sed -n 's/^pub const VERSION: &str = "\(.*\)";$/\1/p' crates/command_line/src/version.rt)
for option in --version -V; do
    run $option < /dev/null
    wants "$option" 0 "sealer $version" ''
done
toolchain=$(rt version 2>/dev/null) || missing="$missing rt"
case $version in
    [0-9]*.[0-9]*.[0-9]*" (Rattle logic ${toolchain##*logic }) commit not-recorded") ;;
    *) has rt && { bad=1; echo "version: '$version' isn't that of '$toolchain'"; } ;;
esac
run seal --version < /dev/null
wants no-version-of-a-command 2 '' "begins error: unexpected argument '--version' found"
"$sealer" --version > /dev/full 2> "$room/err"; status=$?; : > "$room/out"
wants full-version 2 '' ''
run < /dev/null
wants nothing 2 '' "begins error: 'sealer' requires a subcommand"
run pack < /dev/null
wants unknown 2 '' "begins error: unrecognized subcommand 'pack'"
run audit more < /dev/null
wants more 2 '' 'usage: FILEs need --against'
run $'\xff' < /dev/null
wants no-text 2 '' 'usage: an argument is no text'

# Opening and verifying. examples/numbers.stm is the container of what `seq 1 400` prints, under the key in examples/key; both are
# made by tools/seal_container.py.
here=$PWD
cd "$room" || exit 1
key=$here/examples/key
seq 1 400 > numbers.plain
fresh() { rm -rf files; mkdir files; cp "$here/examples/numbers.stm" files/numbers.stm; }

# is WHAT: a condition on what a run left
is() { runs=$((runs + 1)); "${@:2}" || { bad=1; echo "$1: does not hold"; }; }
no() { ! "$@"; }

fresh
run verify --key "$key" files/numbers.stm
wants verify 0 'good files/numbers.stm bytes 1492' ''
is verify-makes-none no test -e files/numbers
run open --key "$key" files/numbers.stm
wants open 0 'opened files/numbers.stm bytes 1492' ''
is opened-the-plaintext cmp -s files/numbers numbers.plain
echo kept > files/numbers
run open --key "$key" --workers 16 --max-bytes 1492 -- files/numbers.stm files/none.stm files/numbers
wants exists 1 'failed files/numbers.stm: output exists
failed files/none.stm: cannot open
failed files/numbers: name does not end in .stm' ''
is the-file-is-not-replaced test "$(cat files/numbers)" = kept
fresh
mkdir files/folder.stm files/d
cp files/numbers.stm files/d/.stm
run open --key "$key" files/folder.stm files/d/.stm .stm
wants folders 1 'failed files/folder.stm: cannot open
failed files/d/.stm: cannot create
failed .stm: name does not end in .stm' ''
run verify --key "$key" files/folder.stm /proc/self/mem
wants unreadable 1 'failed files/folder.stm: cannot open
failed /proc/self/mem: read failed' ''

# changed NAME PLACE BYTE: the container with one byte changed
changed() { cp files/numbers.stm "files/$1.stm"; printf "$3" | dd of="files/$1.stm" bs=1 seek="$2" conv=notrunc 2>/dev/null; }
fresh
changed magic 0 T
changed version 8 '\003'
changed size 9 '\017'
changed key 17 '\000'
changed tag 1531 '\000'
changed first 24 '\000'
head -c 23 files/numbers.stm > files/header.stm
head -c 39 files/numbers.stm > files/length.stm
run open --key "$key" files/magic.stm files/version.stm files/size.stm files/key.stm files/tag.stm files/first.stm files/header.stm \
    files/length.stm
wants tampered 1 'failed files/magic.stm: not a sealed file
failed files/version.stm: unknown version
failed files/size.stm: unknown chunk size
failed files/key.stm: sealed under another key
failed files/tag.stm: chunk 0 does not check
failed files/first.stm: chunk 0 does not check
failed files/header.stm: header cut short
failed files/length.stm: wrong length' ''
is nothing-is-written test "$(ls files | grep -vc 'stm$')" = 0
run verify --key "$key" --max-bytes 1491 files/numbers.stm /dev/zero
wants too-long 1 'failed files/numbers.stm: too long
failed /dev/zero: too long' ''

# An output that can't be written whole: files of at most 1 KiB.
fresh
(trap '' XFSZ; ulimit -f 1; exec "$sealer" open --key "$key" files/numbers.stm) > out 2> err
status=$?
wants write-fails 1 'failed files/numbers.stm: write failed' ''
is the-partial-output-is-removed no test -e files/numbers

# Standard output that can't be written: the files are still worked.
fresh
cp files/numbers.stm files/second.stm
"$sealer" open --key "$key" files/numbers.stm files/second.stm > /dev/full 2> err; status=$?; : > out
wants full-open 2 '' ''
is the-files-are-worked cmp -s files/second numbers.plain
"$sealer" verify --key "$key" files/numbers.stm files/none 2> err >&-; status=$?; : > out
wants closed-verify 2 '' ''

# Programs that race for one output: one makes it. The others find it there at their beginning or end.
fresh
for racer in 1 2 3 4 5 6; do "$sealer" open --key "$key" files/numbers.stm > "race.$racer" & done
wait
is one-wins-the-race test "$(sed 's/output exists$/write failed/' race.* | sort | uniq -c | tr -s ' ' | tr '\n' ';')" = \
    ' 5 failed files/numbers.stm: write failed; 1 opened files/numbers.stm bytes 1492;'
is no-part-is-left test -z "$(parts files)"

# Outputs in a folder, under the last name of each FILE.
fresh
mkdir files/d files/into
cp files/numbers.stm files/d/other.stm
run open --key "$key" --into files/into files/numbers.stm files/d/other.stm
wants open-into 0 'opened files/numbers.stm bytes 1492
opened files/d/other.stm bytes 1492' ''
is into-has-the-first cmp -s files/into/numbers numbers.plain
is into-has-the-second cmp -s files/into/other numbers.plain
is nothing-beside-them test "$(ls -R files | grep -c 'numbers$\|other$')" = 2
run open --key "$key" --into files/into/ files/numbers.stm
wants open-into-again 1 'failed files/numbers.stm: output exists' ''
(trap '' XFSZ; ulimit -f 1; exec "$sealer" open --key "$key" --into files/d files/numbers.stm) > out 2> err
status=$?
wants write-into-fails 1 'failed files/numbers.stm: write failed' ''
is the-part-in-a-folder-is-removed no test -e files/d/numbers
cp files/numbers.stm files/d/numbers.stm
cp files/numbers.stm files/d/.stm
cp files/numbers.stm files/...stm
for same in files/d/numbers.stm files/numbers.stm ./files//numbers.stm; do
    run open --key none --into files/into files/numbers.stm $same
    wants "open-into-one-name $same" 2 '' 'usage: two FILEs have one last name'
done
for name in files/ files/d/. files/d/.. . .. '' /; do
    run open --key none --into files/into files/numbers.stm "$name"
    wants "open-into-no-name '$name'" 2 '' 'usage: a FILE has no last name'
done
run open --key "$key" --into files/into files/d/.stm files/...stm files/d
wants open-into-names-of-outputs 1 'failed files/d/.stm: cannot create
failed files/...stm: cannot create
failed files/d: name does not end in .stm' ''
for folder in files/none files/numbers.stm ''; do
    run open --key "$key" "--into=$folder" files/numbers.stm
    wants "open-into '$folder'" 1 'failed files/numbers.stm: cannot create' ''
done
is nothing-at-the-root no test -e /numbers
run verify --key "$key" --into files/into files/numbers.stm
wants verify-puts-nothing-into-a-folder 2 '' 'begins error: the following required arguments were not provided:
  --against <F>'

# FILEs whose outputs exist are kept, and take no number: so a run that was cut short is repaired by the same command.
fresh
mkdir files/into
printf 1 > files/a
printf 22 > files/b
printf 333 > files/c
seals() { run seal --key "$key" --ledger files/ledger --device 1 "$@"; }
seals files/b
wants first-night 0 'sealed files/b file 0 bytes 2' ''
seals --skip-existing files/a files/b files/c files/none
wants kept 1 'kept files/b
sealed files/a file 1 bytes 1
sealed files/c file 2 bytes 3
failed files/none: cannot open' ''
seals --skip-existing files/c files/b
wants all-kept 0 'kept files/c
kept files/b' ''
run ledger --ledger files/ledger
is no-number-for-the-kept grep -q ' ranges 2 given 4 left ' out
run seal --key none --ledger none/ledger --device 1 --skip-existing files/a
wants kept-without-a-ledger 0 'kept files/a' ''
seals files/a
wants not-asked-to-keep 1 'failed files/a: output exists' ''
seals --skip-existing --into files/into files/a files/b
wants not-in-that-folder 0 'sealed files/a file 5 bytes 1
sealed files/b file 6 bytes 2' ''
rm files/into/a.stm
seals --skip-existing --into files/into --lanes 2 files/a files/b
wants kept-in-that-folder 0 'kept files/b
sealed files/a file 7 bytes 1' ''
mkdir files/d
cp files/a files/d
run seal --key none --ledger none --device 1 --skip-existing --into files/into files/a files/d/a
wants kept-of-one-name 2 '' 'usage: two FILEs have one last name'
printf '%s\n' files/b files/d/a | "$sealer" seal --key "$key" --ledger files/ledger --device 1 --skip-existing --files-from - files/a > out 2> err; status=$?
wants kept-of-a-list 0 'kept files/a
kept files/b
sealed files/d/a file 8 bytes 1' ''
# A second night: what was sealed is kept, also if it changed since. That is found by its time, and goes into another folder.
mkdir files/night files/first files/second
seq 9 > files/night/x
seq 8 > files/night/y
seals --into files/first files/night/x files/night/y
touch -d '2 hours ago' files/stamp
touch -d '3 hours ago' files/night/x
seq 20 > files/night/y
seals --skip-existing --into files/first files/night/x files/night/y
wants a-changed-file-is-kept 0 'kept files/night/x
kept files/night/y' ''
find files/night -type f -newer files/stamp | "$sealer" seal --key "$key" --ledger files/ledger --device 1 --into files/second --files-from - > out 2> err; status=$?
unnumbered
wants a-changed-file-is-sealed-elsewhere 0 'sealed files/night/y bytes 51' ''
# A night that is killed as its second output gets its name, and a restore that is: nothing is there that isn't whole, and the same command does the rest.
if command -v strace >/dev/null; then
    rm files/first/*
    # the first link of a folder is a trial; the shell prints that it was killed
    {
        strace -f -o /dev/null -e trace=link -e inject=link:signal=KILL:when=3 "$sealer" seal --key "$key" --ledger files/ledger --device 1 \
            --into files/first files/night/x files/night/y > out 2> err
    } 2> /dev/null
    is a-night-is-killed test "$(ls files/first)" = x.stm
    seals --skip-existing --into files/first files/night/x files/night/y
    unnumbered
    wants a-killed-night-is-repaired 0 'kept files/night/x
sealed files/night/y bytes 51' ''
    mkdir files/back
    {
        strace -f -o /dev/null -e trace=link -e inject=link:signal=KILL:when=3 "$sealer" open --key "$key" --into files/back \
            files/first/x.stm files/first/y.stm > out 2> err
    } 2> /dev/null
    is a-restore-is-killed test "$(ls files/back)" = x
    run open --key "$key" --skip-existing --into files/back files/first/x.stm files/first/y.stm
    wants a-killed-restore-is-repaired 0 'kept files/first/x.stm
opened files/first/y.stm bytes 51' ''
    is what-was-restored diff -r files/night files/back -x '.*'
fi
rm -rf files/night files/first files/second files/back
cp files/b files/d/b
ln -s ../a.stm files/d/b.stm
seals --skip-existing files/d/b
wants kept-as-a-link 0 'kept files/d/b' ''
# a name that leads to no file isn't an output
ln -sf nowhere files/d/b.stm
seals --skip-existing files/d/b
wants not-kept-for-a-dangling-link 1 'failed files/d/b: output exists' ''
rm files/d/b.stm
mkdir files/d/b.stm
seals --skip-existing files/d/b
wants not-kept-for-a-folder 1 'failed files/d/b: output exists' ''
rmdir files/d/b.stm
"$sealer" seal --key "$key" --ledger files/ledger --device 1 --skip-existing files/a files/d/b > /dev/full 2> err; status=$?; : > out
wants kept-line-is-not-written 2 '' ''
is nothing-after-it-is-sealed no test -e files/d/b.stm
run open --key "$key" --skip-existing files/numbers.stm files/a.stm files/numbers
wants open-kept 1 'kept files/a.stm
opened files/numbers.stm bytes 1492
failed files/numbers: name does not end in .stm' ''
run open --key none --skip-existing files/numbers.stm
wants open-all-kept 0 'kept files/numbers.stm' ''
is it-stays cmp -s files/numbers numbers.plain
run open --key "$key" --skip-existing --into files/into files/numbers.stm
wants open-not-in-that-folder 0 'opened files/numbers.stm bytes 1492' ''
run open --key none --skip-existing --into files/into files/numbers.stm
wants open-kept-in-that-folder 0 'kept files/numbers.stm' ''
run verify --key "$key" --skip-existing files/a.stm
wants verify-keeps-nothing 2 '' "begins error: unexpected argument '--skip-existing' found"
run pipe --key "$key" --ledger files/ledger --device 1 --skip-existing < files/a
wants pipe-keeps-nothing 2 '' "begins error: unexpected argument '--skip-existing' found"

# With --quote each line is of one FILE, whatever its name: it has escapes for what a line doesn't show.
fresh
mkdir files/into
cp files/numbers.stm 'files/c
d.stm'
odd=$(printf 'files/\t\r\033\177\302\205\330\234\342\200\213\342\200\216\342\200\250\342\200\256\342\201\240\342\201\251\357\273\277\303\251.stm')
cp files/numbers.stm "$odd"
printf 'files/c\nd.stm\0files/numbers.stm\0' > list
run verify --key "$key" --quote --null --files-from list "$odd" 'files/\x.stm'
wants quoted 1 'good files/\t\r\u{1b}\u{7f}\u{85}\u{61c}\u{200b}\u{200e}\u{2028}\u{202e}\u{2060}\u{2069}\u{feff}é.stm bytes 1492
failed files/\\x.stm: cannot open
good files/c\nd.stm bytes 1492
good files/numbers.stm bytes 1492' ''
run open --key "$key" --quote --null --files-from list "$odd"
wants quoted-and-opened 0 'opened files/\t\r\u{1b}\u{7f}\u{85}\u{61c}\u{200b}\u{200e}\u{2028}\u{202e}\u{2060}\u{2069}\u{feff}é.stm bytes 1492
opened files/c\nd.stm bytes 1492
opened files/numbers.stm bytes 1492' ''
is opened-under-its-own-name cmp -s 'files/c
d' numbers.plain
is opened-under-the-odd-name cmp -s "${odd%.stm}" numbers.plain
run open --key "$key" --quote --skip-existing --null --files-from list
wants quoted-and-kept 0 'kept files/c\nd.stm
kept files/numbers.stm' ''
run open --key "$key" --quote --into files/into --null --files-from list
wants quoted-into-a-folder 0 'opened files/c\nd.stm bytes 1492
opened files/numbers.stm bytes 1492' ''
is opened-in-that-folder cmp -s 'files/into/c
d' numbers.plain
cp files/numbers.stm 'files/a\n.stm'
run open --key "$key" --quote --to 'files/to\n' 'files/a\n.stm'
wants quoted-with-to 0 'opened files/a\\n.stm bytes 1492' ''
is to-is-as-it-was-given cmp -s 'files/to\n' numbers.plain
run seal --key "$key" --ledger files/ledger --device 1 --quote 'files/c
d' 'files/to\n'
wants quoted-and-sealed 1 'failed files/c\nd: output exists
sealed files/to\\n file 0 bytes 1492' ''
is sealed-beside-it test -e 'files/to\n.stm'
printf 'a\0\0' > bad-list
run verify --key none --quote --null --files-from bad-list
wants quoted-names-are-not-empty 2 '' 'usage: a name in the list is empty'
printf 'a\377\n' > bad-list
run verify --key none --quote --files-from bad-list
wants quoted-names-are-text 2 '' 'usage: the list is no text'

# With --keep-going a name that can't be used fails alone.
fresh
mkdir files/into files/d
printf 1 > files/a
printf 22 > files/d/a
printf 333 > 'files/b
c'
printf 4444 > "$(printf 'files/e\377')"
keeps() { seals --null --into files/into --files-from list "$@"; }
printf 'files/a\0\0files/d/a\0files/e\377\0files/b\nc\0' > list
keeps
wants ended-by-bytes 2 '' 'usage: the list is no text'
printf 'files/a\0\0files/d/a\0files/b\nc\0' > list
keeps
wants ended-by-an-empty-name 2 '' 'usage: a name in the list is empty'
printf 'files/a\0files/d/a\0files/b\nc\0' > list
keeps
wants ended-by-one-last-name 2 '' 'usage: two FILEs have one last name'
is nothing-was-made test -z "$(ls -A files/into)"
is no-ledger-either no test -e files/ledger
printf 'files/a\0\0files/d/a\0files/e\377\0files/b\nc\0' > list
told='list: name 2: empty
list: name 4: not UTF-8: files/e\xff
list: name 3: has the output of name 1'
keeps --keep-going
wants keeps-going 1 'sealed files/a file 0 bytes 1
failed : cannot open
failed files/d/a: output exists
failed files/e\xff: cannot open
sealed files/b\nc file 1 bytes 3' "$told"
is only-the-others-were-made test "$(find files/into -type f -printf x)" = xx
run ledger --ledger files/ledger
is numbers-for-all-of-them grep -q ' ranges 1 given 5 left ' out
# From which of two FILEs an output was made isn't known, so neither is kept.
keeps --keep-going --skip-existing
wants keeps-going-and-keeps 1 'kept files/b\nc
failed files/a: output exists
failed : cannot open
failed files/d/a: output exists
failed files/e\xff: cannot open' "$told"
rm -r files/into
mkdir files/into
keeps --keep-going --lanes 5
unnumbered
wants keeps-going-by-lanes 1 'sealed files/a bytes 1
failed : cannot open
failed files/d/a: output exists
failed files/e\xff: cannot open
sealed files/b\nc bytes 3' "$told"
printf 'files/into/a.stm\n\nfiles/\377.stm' > list
run verify --key "$key" --keep-going --files-from list
wants verify-keeps-going 1 'good files/into/a.stm bytes 1
failed : cannot open
failed files/\xff.stm: cannot open' 'list: line 2: empty
list: line 3: not UTF-8: files/\xff.stm'
run open --key "$key" --keep-going --files-from list
wants open-keeps-going 1 'opened files/into/a.stm bytes 1
failed : name does not end in .stm
failed files/\xff.stm: cannot open' 'list: line 2: empty
list: line 3: not UTF-8: files/\xff.stm'
# There - is standard input where it can be, and else it fails alone. On the command line it is a fault of usage.
printf '%s\n' files/into/a.stm - - > list
run verify --key "$key" --keep-going --files-from list < files/into/a.stm
wants verify-keeps-going-without-input 1 'good files/into/a.stm bytes 1
good - bytes 1
failed -: cannot open' 'list: line 3: - cannot be standard input'
run verify --key "$key" --keep-going --files-from list - < files/into/a.stm
wants verify-keeps-going-after-input 1 'good - bytes 1
good files/into/a.stm bytes 1
failed -: cannot open
failed -: cannot open' 'list: line 2: - cannot be standard input
list: line 3: - cannot be standard input'
run verify --key "$key" --keep-going --files-from list - - < files/into/a.stm
wants verify-input-twice-is-usage 2 '' 'list: line 2: - cannot be standard input
list: line 3: - cannot be standard input
usage: standard input can be read only once'
run open --key "$key" --keep-going --files-from list < files/into/a.stm
wants open-keeps-going-without-input 1 'failed files/into/a.stm: output exists
failed -: name does not end in .stm
failed -: name does not end in .stm' 'list: line 2: - cannot be standard input
list: line 3: - cannot be standard input'
run open --key "$key" --quote --files-from list < files/into/a.stm
wants open-quoted-input-is-usage 2 '' 'usage: - needs --to'

# Which name of a list it is: without --keep-going the first is the cause, by --verbose; with it each is told.
fresh
mkdir files/into files/x files/y
printf 1 > files/x/a
printf 22 > files/y/a
which() { # NAME STATUS OUT ERR OPTIONS.., over the file list
    run seal --key "$key" --ledger files/ledger --device 1 --files-from list "${@:5}"
    wants "which-name: $1" "$2" "$3" "$4"
}
printf 'files/x/a\n\377\xfe\n\n\377\n' > list
which not-text 2 '' 'usage: the list is no text
cause: line 2 of the list is not UTF-8' --verbose
which not-text-quoted 2 '' 'usage: the list is no text
cause: line 2 of the list is not UTF-8' --verbose --quote
which not-text-tersely 2 '' 'usage: the list is no text'
printf 'files/x/a\0\n\0\0b' > list
which empty-by-null 2 '' 'usage: a name in the list is empty
cause: name 3 of the list is empty' --verbose --null
printf 'files/x/a\nfiles/none\n\n\n' > list
which empty 2 '' 'usage: a name in the list is empty
cause: line 3 of the list is empty' --verbose
for command in "verify --key $key" "open --key $key" show "ledger --ledger none --against" 'audit --against'; do
    run $command --verbose --files-from list < /dev/null
    wants "which-name: $command" 2 '' 'usage: a name in the list is empty
cause: line 3 of the list is empty'
done
printf 'files/none\nfiles/x/a\nfiles/x\tb\nfiles/y/a\nfiles/x//a\n' > list
which one-last-name 2 '' "usage: two FILEs have one last name
cause: 'files/x/a' (line 2 of the list) and 'files/y/a' (line 4 of the list)" --verbose --into files/into
which one-last-name-tersely 2 '' 'usage: two FILEs have one last name' --into files/into
which one-last-name-given 2 '' "usage: two FILEs have one last name
cause: './files/x/a' and 'files/x/a' (line 2 of the list)" --verbose --into files/into ./files/x/a
which one-output 2 '' "usage: two FILEs have one output
cause: 'files/x/a' (line 2 of the list) and 'files/x//a' (line 5 of the list)" --verbose --into files/into --parents
printf 'files/x/a\nfi\tles/..\n' > list
which no-last-name 2 '' "usage: a FILE has no last name
cause: 'fi\\tles/..' (line 2 of the list)" --verbose --into files/into
which no-last-name-quoted 2 '' "usage: a FILE has no last name
cause: 'fi\\tles/..' (line 2 of the list)" --verbose --quote --into files/into
is which-name-makes-nothing test -z "$(ls -A files/into)"
printf 'files/x/a\n\n\377\nfiles/..\nfiles/y/a\n' > list
which each 1 "sealed ./files/x/a file 0 bytes 1
failed files/x/a: output exists
failed : cannot open
failed \\xff: cannot open
failed files/..: cannot open
failed files/y/a: output exists" "list: line 2: empty
list: line 3: not UTF-8: \\xff
list: line 1: has the output of './files/x/a'
list: line 4: no last name: files/..
list: line 5: has the output of './files/x/a'" --keep-going --into files/into ./files/x/a
# no other program has a folder of this name beside the room
printf 'files/x/a\n\nfiles/y/a\nfiles//y/a\n../sealer-runs-absent/a\n' > list
mkdir files/tree
which each-of-a-tree 1 'sealed files/x/a file 6 bytes 1
failed : cannot open
sealed files/y/a file 7 bytes 2
failed files//y/a: output exists
failed ../sealer-runs-absent/a: cannot open' 'list: line 2: empty
list: line 4: has the output of line 3' --keep-going --into files/tree --parents
# So of a hundred thousand names, each twice, in the time of one pass over them.
python3 -c 'for name in range(50000): print(f"files/none/{name}\nnone/{name}")' > list
run seal --key "$key" --ledger files/ledger --device 1 --verbose --into files/into --files-from list
wants which-name-of-many 2 '' "usage: two FILEs have one last name
cause: 'files/none/0' (line 1 of the list) and 'none/0' (line 2 of the list)"

# With --parents outputs keep the folders of their FILEs' paths below the folder of --into, which are made as needed.
fresh
rm files/numbers.stm
mkdir -p tree/x/deep tree/y files/vault files/back
printf 1 > tree/x/index.html
printf 22 > tree/y/index.html
printf 333 > tree/x/deep/z
find tree -type f | LC_ALL=C sort > list
seals --into files/vault --parents --files-from list
wants parents-seal 0 'sealed tree/x/deep/z file 0 bytes 3
sealed tree/x/index.html file 1 bytes 1
sealed tree/y/index.html file 2 bytes 2' ''
is parents-are-made test "$(cd files/vault && find . -type f | LC_ALL=C sort | tr '\n' ' ')" \
    = './tree/x/deep/z.stm ./tree/x/index.html.stm ./tree/y/index.html.stm '
(cd files/vault && find . -type f | LC_ALL=C sort) > list
(cd files/vault && exec "$sealer" open --key "$key" --into ../back --parents --files-from ../../list) > out 2> err
status=$?
wants parents-open 0 'opened ./tree/x/deep/z.stm bytes 3
opened ./tree/x/index.html.stm bytes 1
opened ./tree/y/index.html.stm bytes 2' ''
is parents-give-the-tree-back diff -r tree files/back/tree
seals --into files/vault --parents --skip-existing tree/x/index.html tree/y/index.html tree//x/./deep/z
wants parents-keep 0 'kept tree/x/index.html
kept tree/y/index.html
kept tree//x/./deep/z' ''
seals --into files/vault tree/x/index.html tree/y/index.html
wants without-parents-one-name 2 '' 'usage: two FILEs have one last name'
# Which paths have a place below the folder, and which have one place.
mkdir files/in
printf 1 > files/a
printf 4444 > files/d
seals --into files/in --parents files/../files/a .. files/a/ files/. files/d "$PWD/files/a"
unnumbered
wants parents-refuse-up 1 "failed files/../files/a: cannot create
failed ..: cannot open
failed files/a/: cannot open
failed files/.: cannot open
sealed files/d bytes 4
sealed $PWD/files/a bytes 1" ''
is absolute-paths-are-below test "$(cd files/in && find . -type f | LC_ALL=C sort | tr '\n' ' ')" = "$(printf '%s\n' \
    ".$PWD/files/a.stm" ./files/d.stm | LC_ALL=C sort | tr '\n' ' ')"
for same in files/d ./files/d files//d files/./d .//./files/d; do
    run seal --key none --ledger none --device 1 --into files/in --parents files/d "$same"
    wants "parents-one-output $same" 2 '' 'usage: two FILEs have one output'
done
seals --into files/in --parents --keep-going files/d ./files/d files/../files/d
wants parents-keep-going 1 'failed files/d: output exists
failed ./files/d: output exists
failed files/../files/d: cannot create' ''
# From which of the two it was made isn't known, so neither is kept.
seals --into files/in --parents --keep-going --skip-existing files/d ./files/d
wants parents-keep-none-of-two 1 'failed files/d: output exists
failed ./files/d: output exists' ''
seals --into files/in --parents --keep-going --skip-existing files/d files/none
wants parents-keep-one 1 'kept files/d
failed files/none: cannot open' ''
for name in .. . .stm; do
    cp files/in/files/d.stm "files/$name.stm"
    run open --key "$key" --into files/in --parents "files/$name.stm"
    wants "parents-no-output '$name'" 1 "failed files/$name.stm: $([ "$name" = .stm ] && echo 'output exists' || echo 'cannot create')" ''
    rm -f "files/$name.stm"
    [ "$name" != . ] || : > files/in/files/.stm
done
# A link, or a file, where a folder is needed.
mkdir -p outside files/in/real link/sub inner dangling plain
for folder in link link/sub inner dangling plain; do printf 1 > $folder/a; done
ln -s "$PWD/outside" files/in/link
ln -s real files/in/inner
ln -s nowhere files/in/dangling
: > files/in/plain
seals --into files/in --parents link/a link/sub/a inner/a dangling/a plain/a
wants parents-through-links 1 'failed link/a: cannot create
failed link/sub/a: cannot create
failed inner/a: cannot create
failed dangling/a: cannot create
failed plain/a: cannot create' ''
is nothing-is-made-elsewhere test -z "$(ls -A outside)$(ls -A files/in/real)$(ls -d files/in/nowhere 2>/dev/null)"
printf x > outside/a.stm
seals --into files/in --parents --skip-existing link/a
wants parents-keep-nothing-behind-a-link 1 'failed link/a: cannot create' ''
seals --into files/none --parents files/d
wants parents-need-the-folder 1 'failed files/d: cannot create' ''
seals --into '' --parents files/d
wants parents-of-no-folder 1 'failed files/d: cannot create' ''
run seal --key "$key" --ledger files/ledger --device 1 --parents files/d
wants parents-without-into 2 '' 'begins error: the following required arguments were not provided:
  --into <DIR>'
run verify --key "$key" --parents files/d
wants verify-makes-no-folders 2 '' 'begins error: the following required arguments were not provided:
  --against <F>
  --into <DIR>'
# Many FILEs into one new folder, by lanes; and the modes of new folders.
mkdir many files/modes
for n in $(seq 1 40); do seq 1 "$n" > many/$n; done
seals --into files/in --parents --lanes 4 many/*
is parents-by-lanes test "$status $(grep -c '^sealed ' out) $(ls files/in/many | wc -l)" = '0 40 40'
(cd files/in && exec "$sealer" open --key "$key" --into ../back --parents many/*) > out 2> err
is parents-by-lanes-are-whole diff -r many files/back/many
modes_of() { stat -c %a "$@" | tr '\n' ' '; }
(umask 027; exec "$sealer" seal --key "$key" --ledger files/ledger --device 1 --into files/modes --parents tree/x/deep/z) > out 2> err
is modes-of-new-folders test "$(modes_of files/modes/tree files/modes/tree/x files/modes/tree/x/deep files/modes/tree/x/deep/z.stm)" = '750 750 750 640 '
(umask 022; exec "$sealer" seal --key "$key" --ledger files/ledger --device 1 --into files/modes --private --parents many/1) > out 2> err
is modes-of-private-folders test "$(modes_of files/modes/many files/modes/many/1.stm)" = '700 600 '
# A folder that may not be written.
mkdir -p shut/in/open
cp "$sealer" shut/sealer
cp "$key" shut/key
cp -r files/vault/tree shut/tree
chmod -R a+rX shut
chmod 555 shut/in
(umask 0; chmod 777 shut/in/open)
chmod 755 "$room"
(cd shut && as_user ./sealer open --key key --into in --parents tree/x/index.html.stm tree/y/index.html.stm) > out 2> err
status=$?
wants parents-in-a-shut-folder 1 'failed tree/x/index.html.stm: cannot create
failed tree/y/index.html.stm: cannot create' ''
is nothing-is-in-the-shut-folder test "$(ls -A shut/in)" = open
(cd shut && as_user ./sealer open --key key --into in/open --parents tree/x/index.html.stm) > out 2> err
status=$?
wants parents-in-an-open-folder 0 'opened tree/x/index.html.stm bytes 1' ''
# With --sync a new folder's name is on the disk before the output's line; if it can't be, the folder is removed.
if command -v strace >/dev/null; then
    mkdir files/synced
    strace -f -y -e trace=mkdir,mkdirat,fsync,link,write -o calls "$sealer" seal --key "$key" --ledger files/ledger --device 1 \
        --sync --into files/synced --parents tree/x/index.html tree/x/deep/z > out 2> err
    is parents-are-synced test "$(sed -n 's|.*mkdir.*"files/synced/\(.*\)", 0777) *= 0|made \1|p
        s|.*fsync([0-9]*<.*/files/synced>) *= 0|synced .|p; s|.*fsync([0-9]*<.*/files/synced/\([a-z/]*\)>) *= 0|synced \1|p
        s|.* link(.*, "files/synced/\(.*\.stm\)") *= 0|named \1|p; s|.*write(1<.*|told|p' calls | tr '\n' ';')" = 'made tree;synced .;made tree/x;synced tree;named tree/x/index.html.stm;synced tree/x;told;made tree/x/deep;synced tree/x;named tree/x/deep/z.stm;synced tree/x/deep;told;'
    rm -r files/synced/tree
    strace -f -P "$PWD/files/synced" -e trace=fsync -e inject=fsync:error=EIO:when=1 -o calls "$sealer" seal --key "$key" --ledger files/ledger \
        --device 1 --sync --into files/synced --parents tree/x/index.html tree/y/index.html > out 2> err
    status=$?
    unnumbered
    wants parents-sync-fails 1 'failed tree/x/index.html: cannot create
sealed tree/y/index.html bytes 2' ''
fi
rm -rf tree outside link inner dangling plain many shut

# Outputs on the disk: the calls, in their order, and what a failing one leaves.
fresh
if command -v strace >/dev/null; then
    traced() { strace -f -y -e trace=openat,fsync,write,link,linkat,rename,renameat,renameat2,unlink -o calls "$@" > out 2> err; status=$?; }
    # made FOLDER NAME: what the last such run did for an output: a part, its bytes on the disk, its name, the part's gone, the folder, the line
    made() {
        sed -n "s|.*openat([^,]*, \"$1/\.[0-9a-f]\{32\}\.part\".*|created|p; s|.*fsync([0-9]*<.*/$1/\.[0-9a-f]\{32\}\.part>) *= 0|part|p
            s|.* link(\"$1/\.[0-9a-f]\{32\}\.part\", \"$1/$2\") *= 0|named|p; s|.*unlink(\"$1/\.[0-9a-f]\{32\}\.part\") *= 0|removed|p
            s|.*fsync([0-9]*<.*/$1>) *= 0|folder|p; s|.*write(1<.*|told|p; s|.*rename.*|renamed|p" calls | tr '\n' ' '
    }
    mkdir files/to files/into
    traced "$sealer" open --key "$key" --sync --into files/to files/numbers.stm
    wants sync-open 0 'opened files/numbers.stm bytes 1492' ''
    is sync-comes-before-the-line test "$(made files/to numbers)" = 'created part named removed folder told '
    traced "$sealer" open --key "$key" --into files/into files/numbers.stm
    is no-sync-unasked test "$(grep -c fsync calls)" = 0
    is name-comes-at-the-end test "$(made files/into numbers)" = 'created named removed told '
    cp numbers.plain files/a
    traced "$sealer" seal --key "$key" --ledger files/l --device 1 --sync --into files/to files/a
    is sync-comes-before-the-line-of-seal test "$(made files/to a.stm)" = 'created part named removed folder told '
    traced "$sealer" seal --key "$key" --ledger files/l --device 1 --into files/into files/a
    is name-comes-at-the-end-of-seal test "$(made files/into a.stm)" = 'created named removed told '
    rm files/a
    for which in 1 2; do
        strace -f -e trace=fsync -e inject=fsync:error=EIO:when=$which -o calls "$sealer" open --key "$key" --sync files/numbers.stm > out 2> err
        status=$?
        wants "sync-fails at $which" 1 'failed files/numbers.stm: write failed' ''
        is "what-isn't-on-the-disk-is-removed at $which" no test -e files/numbers
    done
    for lanes in 1 2; do
        cp numbers.plain files/a
        cp numbers.plain files/b
        # the folder's sync is after the file's, and no name is known before: all but the first file's output goes elsewhere
        mkdir "files/synced$lanes"
        strace -f -P "$PWD/files/synced$lanes" -e trace=fsync -e inject=fsync:error=EIO:when=1 -o calls "$sealer" seal --key "$key" \
            --ledger files/new$lanes --into "files/synced$lanes" --device 1 --lanes $lanes --sync --journal files/journal$lanes files/a files/b > out 2> err
        status=$?
        wants "sync-fails-of-seal by $lanes" 1 'failed files/a: write failed
sealed files/b file 1 bytes 1492' ''
        is "what-isn't-on-the-disk-is-void by $lanes" test "$(grep -c ' void 0$' files/journal$lanes) $(grep -c ' sealed 1$' files/journal$lanes)" = '1 1'
        is "no-container-is-left by $lanes" test "$(ls -A "files/synced$lanes")" = b.stm
    done
    # How many threads are started: a group has a lane for each 256 KiB of its files, the caller's thread among them. A longer file counts as these.
    fresh
    started() { strace -f -e trace=clone,clone3 -o calls "$sealer" seal --key "$key" --ledger files/l --device 1 "$@" > out 2> err; status=$?; }
    # lanes_of LANES THREADS A B C D: the bytes of four files
    lanes_of() {
        local lanes=$1 threads=$2 bytes name
        shift 2
        rm -f files/*.stm
        for name in a b c d; do bytes=$1; shift; head -c "$bytes" /dev/zero > "files/$name"; done
        started --lanes "$lanes" files/a files/b files/c files/d
        is "lanes-of-$bytes by $lanes" test "$status $(grep -c 'clone3\?(' calls)" = "0 $threads"
    }
    lanes_of 4 3 262144 262144 262144 262144
    lanes_of 2 2 262144 262144 262144 262144
    lanes_of 4 2 262144 262144 262144 262143
    lanes_of 4 1 131072 131072 131072 131072
    lanes_of 4 0 65536 65536 65536 65536
    lanes_of 4 0 4194304 1 1 1
    head -c 262144 /dev/zero > files/e
    started --workers 4 files/e
    is workers-of-a-file test "$status $(grep -c 'clone3\?(' calls)" = '0 3'
    # A file that is checked has at most a worker for each MiB of its container, the caller's thread among them. The first that is worth several
    # starts them, all if others follow it, and they last to the end, whatever becomes of the file. One whose length isn't known starts what it needs.
    for bytes in 5 2096000 2096800 4193600; do head -c $bytes /dev/zero > "files/g$bytes"; done
    run seal --key "$key" --ledger files/l --device 1 files/g*
    started() { strace -f -e trace=clone,clone3 -o calls "$sealer" "$1" --key "$key" --workers 4 "${@:2}" > out 2> err; status=$?; }
    for words in 'verify 2096000 0' 'verify 2096800 1' 'verify 4193600 3' 'unpipe 2096000 0' 'unpipe 2096800 1' 'unpipe 4193600 3' 'open 4193600 3' \
        'verify 2096000 2096800 1' 'verify 2096000 2096800 4193600 3' 'verify 4193600 4193600 4193600 3' 'open 4193600 2096800 2096000 3'; do
        read -ra words <<< "$words"
        rm -f files/g*[05]
        of=("${words[@]:1:${#words[@]}-2}")
        of=("${of[@]/#/files/g}")
        started "${words[0]}" "${of[@]/%/.stm}"
        is "workers-of-a-check ${words[*]}" test "$status $(grep -c 'clone3\?(' calls)" = "0 ${words[-1]}"
    done
    started verify --label other files/g4193600.stm files/g2096800.stm files/g4193600.stm
    is workers-of-what-is-refused test "$status $(grep -c 'clone3\?(' calls)" = '1 3'
    started unpipe - < <(cat files/g5.stm)
    is workers-of-five-bytes test "$status $(grep -c 'clone3\?(' calls)" = '0 0'
    # Without room for their stacks the caller's thread goes on alone: within what one worker needs all pass that it passes.
    for bytes in 5000000 20000000; do head -c $bytes /dev/zero > "files/g$bytes"; done
    run seal --key "$key" --ledger files/l --device 1 files/g5000000 files/g20000000
    rm files/g5000000 files/g20000000
    mkdir files/open
    within() { (ulimit -v "$1"; exec "$sealer" "${@:2}") > out 2> err; status=$?; rm -f files/open/*; }
    passed=0
    for limit in $(seq 6000 1000 44000); do
        for words in 'verify files/g5000000.stm files/g20000000.stm' 'open --into files/open files/g20000000.stm' 'unpipe files/g20000000.stm'; do
            read -ra words <<< "$words"
            within "$limit" "${words[0]}" --key "$key" "${words[@]:1}"
            [ $status = 0 ] || continue
            passed=$((passed + 1))
            for workers in 4 16; do
                within "$limit" "${words[0]}" --key "$key" --workers $workers "${words[@]:1}"
                is "workers-within $limit $workers ${words[0]}" test $status = 0
            done
        done
    done
    is one-worker-within-most-limits test $passed -gt 90
    strace -f -e trace=clone,clone3 -o calls prlimit --as=45056000 "$sealer" verify --key "$key" --workers 16 files/g5000000.stm files/g20000000.stm > out 2> err
    is workers-without-room test "$? $(grep -c 'clone3\?(' calls)" = '0 0'
    rm -r files/open
    # The memory of one file serves the next: the system isn't asked for more, or given some back, for each file (threads have stacks besides).
    fresh
    for at in 1 2 3 4 5 6 7 8; do head -c 3000000 /dev/zero > "files/f$at"; done
    asks() { strace -f -e trace=mmap,munmap,mremap,brk -o calls "$sealer" "$@" > out 2> err && grep -cE ' (mmap|munmap|mremap|brk)\(' calls; }
    few() { # NAME SUFFIX WORDS: eight files ask the system hardly more often than four
        local four
        four=$(asks "${@:3}" files/f[1-4]"$2")
        [ -n "$2" ] || rm files/*.stm
        rm -f files/open/*
        is "$1" test "$(asks "${@:3}" files/f[1-8]"$2")" -le $((four + 4))
    }
    few memory-is-kept '' seal --key "$key" --ledger files/l --device 1
    rm files/*.stm
    few memory-is-kept-by-lanes '' seal --key "$key" --ledger files/l --device 1 --lanes 4
    mkdir files/open
    few memory-is-kept-by-verify .stm verify --key "$key"
    few memory-is-kept-by-open .stm open --key "$key" --into files/open
    fresh
elif [ -n "${CI:-}" ]; then
    bad=1
    echo 'strace is missing'
fi
# A folder with a path so long that its parts can have a second name, that they can't, or that no part has room.
fresh
deep=files
while [ ${#deep} -lt 3800 ]; do deep=$deep/$(printf 'd%.0s' $(seq 200)); done
for length in 4055 4056 4057; do
    folder=$deep/$(printf 'e%.0s' $(seq $((length - ${#deep} - 1))))
    mkdir -p "$folder"
    echo x > "$folder/x"
    run seal --key "$key" --ledger files/l --device 1 "$folder/x"
    unnumbered
    wants "path-of-$length" 0 "sealed $folder/x bytes 2" ''
    is "path-of-$length-has-its-output" test "$(ls -A "$folder" | tr '\n' ' ')" = 'x x.stm '
done
# Files in turn, by each engine: a longer one before shorter ones, and before these one that fails once some MB of it were read. The first of
# these is worth several workers too, and fits the memory of the longer one. No two chunks are alike, so that what a buffer had before is seen.
fresh
seq 1 700000 | head -c 4500000 > files/long
seq 800000 -1 1 | head -c 4000000 > files/later
seq 900000 -1 1 | head -c 70000 > files/middle
echo short > files/short
: > files/none
mkfifo files/endless
mkdir files/kept
for words in '--workers 1' '--workers 4' '--lanes 2' '--lanes 3'; do
    rm -f files/*.stm files/l*-wal files/l
    head -c 6000000 /dev/zero > files/endless &
    run seal --key "$key" --ledger files/l --device 1 --max-bytes 5000000 $words files/long files/endless files/later files/middle files/short files/none
    wait
    unnumbered
    wants "files-in-turn $words" 1 'sealed files/long bytes 4500000
failed files/endless: too long
sealed files/later bytes 4000000
sealed files/middle bytes 70000
sealed files/short bytes 6
sealed files/none bytes 0' ''
    for name in long later middle short none; do mv "files/$name" files/kept; done
    # a bad chunk far into a container of its own, between good ones
    cp files/long.stm files/bad.stm
    printf x | dd of=files/bad.stm bs=1 seek=2500000 conv=notrunc status=none
    for workers in 1 4; do
        run verify --key "$key" --workers $workers files/long.stm files/bad.stm files/later.stm files/middle.stm files/short.stm files/none.stm
        wants "verified-in-turn $words, $workers" 1 'good files/long.stm bytes 4500000
failed files/bad.stm: chunk 38 does not check
good files/later.stm bytes 4000000
good files/middle.stm bytes 70000
good files/short.stm bytes 6
good files/none.stm bytes 0' ''
        run open --key "$key" --workers $workers files/long.stm files/bad.stm files/later.stm files/middle.stm files/short.stm files/none.stm
        wants "opened-in-turn $words, $workers" 1 'opened files/long.stm bytes 4500000
failed files/bad.stm: chunk 38 does not check
opened files/later.stm bytes 4000000
opened files/middle.stm bytes 70000
opened files/short.stm bytes 6
opened files/none.stm bytes 0' ''
        for name in long later middle short none; do
            is "opened-in-turn-is-what-was-sealed $words, $workers, $name" cmp -s "files/$name" "files/kept/$name"
            rm "files/$name"
        done
    done
    # and by the engine that reads once, into memory: of pipes
    for workers in 1 4; do
        mkfifo files/one.stm files/two.stm files/three.stm
        timeout 60 cat files/long.stm > files/one.stm &
        timeout 60 cat files/bad.stm > files/two.stm &
        timeout 60 cat files/short.stm > files/three.stm &
        run open --key "$key" --workers $workers files/one.stm files/two.stm files/three.stm
        wait
        wants "opened-once-in-turn $words, $workers" 1 'opened files/one.stm bytes 4500000
failed files/two.stm: chunk 38 does not check
opened files/three.stm bytes 6' ''
        is "opened-once-is-what-was-sealed $words, $workers" cmp -s files/one files/kept/long
        is "opened-once-is-what-was-sealed $words, $workers, the short one" cmp -s files/three files/kept/short
        rm -f files/one files/three files/one.stm files/two.stm files/three.stm
    done
    mv files/kept/* files
done
fresh
for lanes in 1 2; do
    cp numbers.plain files/a
    cp numbers.plain files/b
    run seal --key "$key" --ledger files/ledger --device $lanes --lanes $lanes --sync files/a files/b
    unnumbered
    wants "sync-seal by $lanes" 0 'sealed files/a bytes 1492
sealed files/b bytes 1492' ''
    rm files/a.stm files/b.stm
done
run verify --key "$key" --sync files/numbers.stm
wants verify-has-no-sync 2 '' "begins error: unexpected argument '--sync' found"

# Modes of outputs: what the umask leaves, or with --private 0600, also while an output is a part. That of a FILE, or of a journal, is another matter.
fresh
mkdir files/into
cp numbers.plain files/a
cp numbers.plain files/b
chmod 640 files/a files/numbers.stm
masked() { (umask "$1"; exec "$sealer" "${@:2}") > out 2> err; status=$?; }
modes() { stat -c %a "$@" | tr '\n' ' '; }
masked 022 seal --key "$key" --ledger files/ledger --device 1 --private --journal files/journal files/a files/b
wants private-seal 0 'sealed files/a file 0 bytes 1492
sealed files/b file 1 bytes 1492' ''
is private-containers test "$(modes files/a.stm files/b.stm files/journal files/a)" = '600 600 644 640 '
masked 022 open --key "$key" --private files/numbers.stm
wants private-open 0 'opened files/numbers.stm bytes 1492' ''
is private-plaintext test "$(modes files/numbers)" = '600 '
masked 022 open --key "$key" --into files/into files/numbers.stm
wants open-for-all 0 'opened files/numbers.stm bytes 1492' ''
masked 027 seal --key "$key" --ledger files/ledger --device 1 --into files/into files/a
wants seal-for-some 0 'sealed files/a file 2 bytes 1492' ''
is modes-by-the-umask test "$(modes files/into/numbers files/into/a.stm)" = '644 640 '
masked 0277 open --key "$key" --private --into files/into files/b.stm
wants private-by-the-umask 0 'opened files/b.stm bytes 1492' ''
is private-takes-from-the-umask test "$(modes files/into/b)" = '400 '
mkfifo files/waits
mode_of_part() {
    for _ in $(seq 200); do [ -z "$(parts files)" ] || break; sleep 0.05; done
    stat -c %a $(parts files) > part
    head -c 100 /dev/zero
}
export -f mode_of_part parts
for words in '' --private; do
    timeout 60 bash -c 'mode_of_part > files/waits' & masked 022 seal --key "$key" --ledger files/ledger --device 1 $words files/waits
    wait
    is "mode-of-a-part $words" test "$status $(cat part) $(modes files/waits.stm)" = "0 $(test -z "$words" && echo '644 644' || echo '600 600') "
    rm files/waits.stm
done
if command -v strace >/dev/null; then
    rm files/a.stm files/numbers
    for words in 'seal --ledger files/ledger --device 1 files/a' 'open files/numbers.stm'; do
        strace -f -o calls -e trace=openat,link,chmod,fchmod,fchmodat "$sealer" ${words%% *} --key "$key" --private ${words#* } > out 2> err
        status=$?
        is "private-from-the-first-byte ${words%% *}" test "$status $(grep -c 'part".*O_CREAT.*, 0600) = ' calls) $(grep -c 'part".*O_CREAT.*, 0666\|chmod' calls)" = '0 1 0'
    done
    rm files/a.stm
    strace -f -o calls -e trace=link -e inject=link:error=EPERM "$sealer" seal --key "$key" --ledger files/ledger --device 1 --private files/a > out 2> err
    is private-without-links test "$? $(modes files/a.stm)" = '0 600 '
fi
run verify --key "$key" --private files/numbers.stm
wants verify-is-not-private 2 '' "begins error: unexpected argument '--private' found"
run pipe --key "$key" --ledger files/ledger --device 1 --private < numbers.plain
wants pipe-is-not-private 2 '' "begins error: unexpected argument '--private' found"

# An output that failed is removed only while its name is its own.
fresh
mkfifo files/waits
other_comes() {
    for _ in $(seq 200); do [ -z "$(parts files)" ] || break; sleep 0.05; done
    part=$(parts files)
    rm "$part"
    echo theirs > "$part"
    echo theirs > files/waits.stm
    head -c 100 /dev/zero
}
export -f other_comes parts
timeout 60 bash -c 'other_comes > files/waits' & run seal --key "$key" --ledger files/ledger --device 1 --max-bytes 50 files/waits
wait
wants another-has-its-name 1 'failed files/waits: too long' ''
is what-another-made-stays test "$(cat files/waits.stm $(parts files) | tr '\n' ' ')" = 'theirs theirs '

# A file that gets an output's name before the output is whole stays, and the output gets no name.
fresh
mkfifo files/late
name_is_taken() {
    for _ in $(seq 200); do [ -z "$(parts files)" ] || break; sleep 0.05; done
    echo theirs > files/late.stm
    head -c 100 /dev/zero
}
export -f name_is_taken parts
timeout 60 bash -c 'name_is_taken > files/late' & run seal --key "$key" --ledger files/ledger --device 1 files/late
wait
wants name-is-taken 1 'failed files/late: write failed' ''
is the-name-stays-anothers test "$(cat files/late.stm) $(parts files)" = 'theirs '
# With causes the loser of the race is told so, however many lanes it has.
for lanes in 1 2; do
    rm files/late.stm
    install -m 600 "$key" files/key
    timeout 60 bash -c 'name_is_taken > files/late' &
    run seal --verbose --key files/key --ledger files/ledger --device 1 --lanes $lanes files/late
    wait
    wants "name-is-taken-cause $lanes" 1 'failed files/late: write failed' "cause: files/late: another file got the output's name meanwhile"
done

# A FILE that is too long costs nothing: its length is asked before it is read, and before it has a number. A pipe's length isn't known.
fresh
truncate -s 3G files/long
cp numbers.plain files/a
for lanes in 1 2; do
    run seal --key "$key" --ledger files/ledger --device $lanes --lanes $lanes --journal files/journal$lanes files/long files/a
    wants "too-long-at-once $lanes" 1 'failed files/long: too long
sealed files/a file 0 bytes 1492' ''
    is "too-long-has-no-number $lanes" test "$(cat files/journal$lanes)" = "range $lanes 0 2 $lanes
0 issue 0
0 sealed 0"
    is "too-long-leaves-none $lanes" test "$(ls -A files | grep -c 'long.')" = 0
    if command -v strace >/dev/null; then
        strace -f -y -o calls -e trace=read,pread64,readv,preadv "$sealer" seal --key "$key" --ledger files/ledger --device $lanes --lanes $lanes files/long > out 2> err
        status=$?
        wants "too-long-traced $lanes" 1 'failed files/long: too long' ''
        is "too-long-is-not-read $lanes" test "$(grep -c 'files/long>' calls) $(grep -c 'files/ledger>\|key>' calls | sed 's/[1-9][0-9]*/some/')" = '0 some'
    fi
    rm files/a.stm
    run seal --key "$key" --ledger files/ledger --device $lanes --lanes $lanes --max-bytes 3G --journal files/journal$lanes.2 files/a
    wants "too-long-after $lanes" 0 "sealed files/a file $(command -v strace >/dev/null && echo 3 || echo 2) bytes 1492" ''
    rm files/a.stm
done
mkfifo files/pipe
timeout 60 cp numbers.plain files/pipe &
run seal --key "$key" --ledger files/ledger --device 3 --max-bytes 1491 --journal files/journal3 files/a files/pipe
wait
wants too-long-of-a-pipe 1 'failed files/a: too long
failed files/pipe: too long' ''
is too-long-of-a-pipe-has-a-number test "$(cat files/journal3)" = 'range 3 0 2 1
0 issue 0
0 void 0'
# A FILE that is written to while it is sealed is warned of, with causes alone: its reads are slow, and its writer is not.
if command -v strace >/dev/null; then
    (umask 077; cp "$key" files/key)
    for how in --verbose --sync; do
        head -c 4000000 /dev/zero > files/grows
        (while [ ! -e files/ended ]; do printf x >> files/grows; sleep 0.02; done) &
        strace -f -qq -o /dev/null -e trace=read -e inject=read:delay_enter=20000:when=20+1 \
            "$sealer" seal $how --key files/key --ledger files/ledger --device 4 files/grows > out 2> err
        status=$?
        touch files/ended
        wait
        sed -i 's/bytes [0-9]*$/bytes N/; s/file [0-9]*/file N/' out
        [ $how = --verbose ] && warning='warning: files/grows changed while it was sealed' || warning=
        wants "a-file-that-grows $how" 0 'sealed files/grows file N bytes N' "$warning"
        rm files/grows files/grows.stm files/ended
    done
fi
touch files/long.stm
run seal --key "$key" --ledger files/ledger --device 3 files/long
wants too-long-after-the-output 1 'failed files/long: output exists' ''
rm files/long

# A folder from which no name can be removed, found out at once, or as an output is whole: it is named, and a part's name stays.
fresh
mkdir files/to
if command -v strace >/dev/null; then
    cp numbers.plain files/a
    for n in 1 2; do
        # the first removal is that of the second name that is tried
        strace -f -o calls -e trace=unlink -e inject=unlink:error=EPERM:when=$n+ "$sealer" seal --key "$key" --ledger files/ledger --device $n --into files/to files/a \
            > out 2> err
        status=$?
        wants "name-that-stays $n" 0 'sealed files/a file 0 bytes 1492' ''
        run verify --key "$key" files/to/a.stm
        wants "name-that-stays-verify $n" 0 'good files/to/a.stm bytes 1492' ''
        is "parts-that-stay $n" test "$(parts files/to | wc -l)" = $((3 - n))
        rm -r files/to
        mkdir files/to
    done
    # Without hard links an output has its name from the beginning, and nothing else is left.
    strace -f -o calls -e trace=link -e inject=link:error=EPERM "$sealer" seal --key "$key" --ledger files/ledger --device 3 --into files/to files/a > out 2> err
    status=$?
    wants no-links 0 'sealed files/a file 0 bytes 1492' ''
    is no-links-no-part test "$(ls -A files/to)" = a.stm
fi

# How far a run is: one line on standard error, which is gone at the end. What is in the pipe comes slowly, and has no size.
fresh
cp files/numbers.stm files/second.stm
mkfifo files/slow.stm
slowly() { head -c 100 files/numbers.stm; for at in 101 201 301 401 501; do sleep 0.25; tail -c +$at files/numbers.stm | head -c 100; done
    sleep 0.25; tail -c +601 files/numbers.stm; }
export -f slowly
comes_slowly() { timeout 60 bash -c 'slowly > files/slow.stm'; }
comes_slowly & run verify --key "$key" --progress=always files/slow.stm files/second.stm
wait
wants progress 0 'good files/slow.stm bytes 1492
good files/second.stm bytes 1492' "begins $(printf '\r0 of 2 files, 0 MiB, 0.0 MiB/s\033[K')"
drawn=$(tr '\r' '\n' < err | grep -c ' of 2 files, ')
is progress-is-redrawn test "$drawn" -ge 2 -a "$drawn" -le 10
is progress-is-gone test "$(tail -c 4 err | od -An -c | tr -d ' ')" = '\r033[K'
is progress-has-no-line-end test "$(wc -l < err)" = 0
for option in --progress --progress=terminal; do
    comes_slowly & run verify --key "$key" $option files/slow.stm
    wait
    wants "$option, no terminal" 0 'good files/slow.stm bytes 1492' ''
done
run verify --key "$key" --progress=never files/numbers.stm
wants progress-never 2 '' "begins error: invalid value 'never' for '--progress[=<WHEN>]'"
run verify --key "$key" --progress files/numbers.stm
wants progress-takes-no-file 0 'good files/numbers.stm bytes 1492' ''
# Of files of known sizes, whose reads are held up: how far it is of all, and from the first second on how long it still takes.
if command -v strace >/dev/null; then
    head -c 6000000 /dev/zero > files/large
    cp numbers.plain files/small
    # Time before the first bytes isn't counted: else the first drawing would show a time left.
    strace -f -P "$PWD/files/large" -e trace=read,openat -e inject=read:delay_exit=30000 -e inject=openat:delay_exit=1500000 -o calls \
        "$sealer" seal --key "$key" --ledger files/progress --device 1 --progress=always "$PWD/files/large" files/small > out 2> err
    status=$?
    tr '\r' '\n' < err > drawn
    is progress-of-a-sealing test "$status $(tail -n 1 out)" = '0 sealed files/small file 1 bytes 1492'
    is progress-of-known-sizes test "$(grep -c '^0 of 2 files, [0-5] of 5 MiB, [0-9]*\.[0-9] MiB/s' drawn)" -ge 3
    is progress-has-no-time-at-first test "$(sed -n 2p drawn | grep -c left)" = 0
    is progress-shows-the-time-left grep -q ' of 5 MiB, [0-9.]* MiB/s, [0-9]* s left' drawn
    is progress-is-drawn-after-a-line grep -q '^1 of 2 files' drawn
fi
# on a terminal, and where both streams are one
cat > terminal.py <<'END'
import os, pty, subprocess, sys, threading, time
data = open("files/numbers.stm", "rb").read()
def slowly():
    with open("files/slow.stm", "wb", buffering=0) as pipe:
        for at in range(0, len(data), 300):
            pipe.write(data[at:at + 300])
            time.sleep(0.25)
main, other = pty.openpty()
threading.Thread(target=slowly).start()
run = subprocess.Popen([*sys.argv[1:], "files/slow.stm", "files/none"], stdout=other, stderr=other)
run.wait()
os.close(other)
text = b""
try:
    while more := os.read(main, 65536):
        text += more
except OSError:
    pass
# what a terminal shows: a line is overwritten from its beginning, and erased after that
shown = [part.split(b"\x1b[K")[-1] for part in text.replace(b"\r\n", b"\n").split(b"\n")]
sys.stdout.write(f"{run.returncode} {1 <= text.count(b' of 2 files') <= 9} {shown}\n")
END
install -m 600 "$key" own-key
is progress-on-a-terminal test "$(python3 terminal.py "$sealer" verify --key own-key --progress)" = "1 True [b'good files/slow.stm bytes 1492', b'cause: files/none: there is no such file', b'failed files/none: cannot open', b'']"

# Key files.
digits=$(cat "$key")
fresh
mixed=${digits::32}$(tr a-f A-F <<< "${digits:32}")
for found in "${digits^^}" "$mixed"; do
    for end in '' '\n' '\r\n'; do
        printf "%s$end" "$found" > good-key
        run verify --key good-key files/numbers.stm
        wants "key $found with $end" 0 'good files/numbers.stm bytes 1492' ''
    done
done
for content in "${digits%?}" "${digits%?}\n" "$digits\n\n" "$digits " "$digits\r" "$digits\n\r" "$digits\r\n\n" "${digits%?}g" "${digits%?} " \
    "${digits}00" "$digits\r\nand more than sixty-seven bytes" ''; do
    printf "$content" > bad-key
    run verify --key bad-key files/numbers.stm
    wants "key $content" 2 '' 'key: not a key file'
done
run open --key /dev/zero files/numbers.stm
wants key-endless 2 '' 'key: not a key file'
run open --key none files/numbers.stm
wants key-none 2 '' 'key: cannot open'
run open --key files files/numbers.stm
wants key-folder 2 '' 'key: cannot open'
run open --key /proc/self/mem files/numbers.stm
wants key-unread 2 '' 'key: read failed'

# Usage.
run open files/numbers.stm
wants no-key 2 '' 'begins error: the following required arguments were not provided:
  --key <F>'
run verify --key "$key"
wants no-file 2 '' 'begins error: the following required arguments were not provided:
  <FILE>...'

# Lists of names: they come after the FILEs of the command line. The last line needs no end.
fresh
cp files/numbers.stm 'files/two words.stm'
cp files/numbers.stm 'files/c
d.stm'
printf 'files/two words.stm\nfiles/none.stm' > list
run verify --key "$key" --files-from list files/numbers.stm
wants listed 1 'good files/numbers.stm bytes 1492
good files/two words.stm bytes 1492
failed files/none.stm: cannot open' ''
run verify --key "$key" --files-from - < list
wants listed-on-standard-input 1 'good files/two words.stm bytes 1492
failed files/none.stm: cannot open' ''
printf 'files/c\nd.stm\0files/numbers.stm\0' > list
run open --key "$key" --null --files-from list
wants listed-by-null 0 'opened files/c
d.stm bytes 1492
opened files/numbers.stm bytes 1492' ''
is opened-as-listed cmp -s 'files/c
d' numbers.plain
printf 'files/c\nd.stm\n' > list
run verify --key "$key" --files-from list
wants lines-end-names 1 'failed files/c: cannot open
failed d.stm: cannot open' ''
printf ' files/numbers.stm\n-k\n--key\nfiles/numbers.stm\r\n' > list
run verify --key "$key" --files-from list
wants names-as-they-are 1 'failed  files/numbers.stm: cannot open
failed -k: cannot open
failed --key: cannot open
failed files/numbers.stm'$'\r'': cannot open' ''
: > list
rm files/numbers
for command in open verify; do
    run $command --key none --files-from list
    wants "$command-of-an-empty-list" 2 '' 'usage: no files'
    run $command --key "$key" --files-from list files/numbers.stm
    wants "$command-of-an-empty-list-and-a-file" 0 "$(test $command = open && echo opened || echo good) files/numbers.stm bytes 1492" ''
    rm -f files/numbers
    for content in '\n' 'a\n\nb' '\na' 'a\n\n'; do
        printf "$content" > bad-list
        run $command --key none --files-from bad-list files/numbers.stm
        wants "$command-of-a-list-$content" 2 '' 'usage: a name in the list is empty'
    done
    for name in none files; do
        run $command --key none --files-from $name files/numbers.stm
        wants "$command-of-a-list-at-$name" 2 '' 'usage: cannot read the list'
    done
    run $command --key none --files-from /proc/self/mem
    wants "$command-of-an-unreadable-list" 2 '' 'usage: cannot read the list'
    printf 'files/numbers.stm\n\377\n' > bad-list
    run $command --key none --files-from bad-list
    wants "$command-of-a-list-that-is-no-text" 2 '' 'usage: the list is no text'
    run $command --key none --null files/numbers.stm
    wants "$command-null-without-a-list" 2 '' 'begins error: the following required arguments were not provided:
  --files-from <F>'
done
run verify --key "$key" --files-from - <&-
wants listed-on-closed-standard-input 2 '' 'usage: cannot read the list'
printf 'a\0\0b' > bad-list
run verify --key none --null --files-from bad-list
wants empty-between-nulls 2 '' 'usage: a name in the list is empty'
printf '\n' > bad-list
run verify --key "$key" --null --files-from bad-list
wants a-line-feed-is-a-name-by-null 1 'failed 
: cannot open' ''
for value in 0 17 -1 one; do
    run open --key "$key" "--workers=$value" files/numbers.stm
    wants "workers $value" 2 '' "begins error: invalid value '$value' for '--workers <N>'"
done
for value in 4503599626321921 -1; do
    run open --key "$key" "--max-bytes=$value" files/numbers.stm
    wants "max-bytes $value" 2 '' "begins error: invalid value '$value' for '--max-bytes <N>'"
done
run open --key "$key" --max-bytes 4503599626321920 files/numbers.stm
wants greatest 0 'opened files/numbers.stm bytes 1492' ''
# Limits as people write them. What is no such number is refused like any other text, and what is past the greatest under its digits. No
# other word is changed.
for value in 2K +2K 64K 1M 20G 1T 4095T max; do
    for words in "--max-bytes $value" "--max-bytes=$value"; do
        run verify --key "$key" $words files/numbers.stm
        wants "$words" 0 'good files/numbers.stm bytes 1492' ''
    done
done
for value in 1K 0K 0T; do
    run verify --key "$key" --max-bytes $value files/numbers.stm
    wants "max-bytes $value" 1 'failed files/numbers.stm: too long' ''
done
for value in 1k 1KB 1KiB 1KK K +K -1K max1 MAX auto 1.5G '1 K'; do
    run verify --key "$key" "--max-bytes=$value" files/numbers.stm
    wants "max-bytes $value" 2 '' "begins error: invalid value '$value' for '--max-bytes <N>': invalid digit found in string"
done
run verify --key "$key" --max-bytes 99999999999999999999K files/numbers.stm
wants 'max-bytes 99999999999999999999K' 2 '' \
    "begins error: invalid value '99999999999999999999K' for '--max-bytes <N>': number too large to fit in target type"
run verify --key "$key" --max-bytes 4096T files/numbers.stm
wants 'max-bytes 4096T' 2 '' \
    "begins error: invalid value '4503599627370496' for '--max-bytes <N>': 4503599627370496 is not in 0..=4503599626321920"
run verify --key "$key" --max-bytes 99999999T files/numbers.stm
wants 'max-bytes 99999999T' 2 '' \
    "begins error: invalid value '109951161678088372224' for '--max-bytes <N>': number too large to fit in target type"
for words in '--workers auto' --workers=auto; do
    run verify --key "$key" $words files/numbers.stm
    wants "$words" 0 'good files/numbers.stm bytes 1492' ''
done
for value in Auto max 1K autos; do
    run verify --key "$key" --workers $value files/numbers.stm
    wants "workers $value" 2 '' "begins error: invalid value '$value' for '--workers <N>': invalid digit found in string"
done
run verify --key "$key" --label max files/numbers.stm
wants label-max 1 'failed files/numbers.stm: another label' ''
run verify --key "$key" 2K --max-bytes 2K files/numbers.stm -- --workers auto --max-bytes=1K
wants words-that-stay 1 'failed 2K: cannot open
good files/numbers.stm bytes 1492
failed --workers: cannot open
failed auto: cannot open
failed --max-bytes=1K: cannot open' ''

# Sealing: a life of a ledger file.
mkdir life
seq 1 400 > life/numbers
: > life/empty
seq 1 60000 > life/more
seals() { run seal --key "$key" --ledger life/ledger --device 1 "$@"; }
seals --journal life/journal -- life/numbers life/none life/empty life/numbers
wants seal 1 'sealed life/numbers file 0 bytes 1492
failed life/none: cannot open
sealed life/empty file 1 bytes 0
failed life/numbers: output exists' ''
is journal-text test "$(cat life/journal)" = 'range 1 0 4 1
0 issue 0
0 sealed 0
0 issue 1
0 sealed 1'
run audit < life/journal
wants journal-is-legal 0 'legal: 2 granted, 2 sealed, 0 void, 0 open, 0 refused' ''
is no-output-of-what-is-not-there no test -e life/none.stm
# With --journal-in each run's journal has a name of its own in a folder, so that the same command can run again.
mkdir journals journals/kept
printf 1 > life/again
names_in() { (cd "$1" && ls | sed 's/-[0-9]*-\([0-9]*\)\.journal$/-SECOND-\1.journal/' | tr '\n' ' '); }
before=$(date +%s)
for night in 1 2; do
    run seal --key "$key" --ledger journals/kept/ledger --device 7 --journal-in journals --into journals/kept life/again
    [ $night = 1 ] && wants journal-in 0 'sealed life/again file 0 bytes 1' '' || wants journal-in-again 1 'failed life/again: output exists' ''
done
after=$(date +%s)
is two-journals test "$(ls journals | grep -c '^device-7-[0-9]*-[0-9]*\.journal$')" = 2
for journal in journals/*.journal; do
    second=$(sed 's/.*device-7-\([0-9]*\)-[0-9]*\.journal/\1/' <<< "$journal")
    is journal-has-its-second test "$before" -le "$second" -a "$second" -le "$after"
    run audit < "$journal"
    wants "audit of $journal" 0 'begins legal: ' ''
done
is journals-of-both test "$(cat journals/*.journal | LC_ALL=C sort | tr '\n' ';')" = '0 issue 0;0 sealed 0;range 7 0 1 1;range 7 1 1 1;'
for night in 1 2; do
    "$sealer" pipe --key "$key" --ledger journals/kept/ledger --device 7 --journal-in journals/ < life/again > journals/kept/stream 2> err
    status=$?
    : > out
    wants "stream-journal-in $night" 0 '' "sealed - file $((night + 1)) bytes 1"
done
is four-journals test "$(ls journals | grep -c '^device-7-[0-9]*-[0-9]*\.journal$')" = 4
for journal in journals/*.journal; do
    run audit < "$journal"
    wants "audit of a stream's $journal" 0 'begins legal: ' ''
done
# Runs at once, of two ledgers and one device, that share the folder.
for n in 1 2 3 4 5 6; do
    printf 1 > journals/kept/f$n
    "$sealer" seal --key "$key" --ledger journals/kept/l$n --device 8 --journal-in journals journals/kept/f$n > journals/kept/out$n 2>&1 &
done
wait
is journals-at-once test "$(ls journals | grep -c '^device-8-') $(cat journals/device-8-* | grep -c '^0 sealed 0$')" = '6 6'
# Its faults come before anything is reserved.
for folder in journals/none '' life/again "$(printf 'journals/%0250d' 0)/x" "$(head -c 4090 /dev/zero | tr '\0' j)"; do
    run seal --key "$key" --ledger journals/kept/no-ledger --device 7 --journal-in "$folder" life/again
    wants "journal-in '${folder:0:20}'" 2 '' 'journal: cannot create'
    "$sealer" pipe --key "$key" --ledger journals/kept/no-ledger --device 7 --journal-in "$folder" < life/again > out 2> err
    status=$?
    wants "stream-journal-in '${folder:0:20}'" 2 '' 'journal: cannot create'
done
cp "$key" journals/kept/key
chmod 600 journals/kept/key
run seal --key journals/kept/key --ledger journals/kept/no-ledger --device 7 --verbose --journal-in journals/none life/again
wants journal-in-cause 2 '' 'journal: cannot create
cause: the folder is missing'
run seal --key journals/kept/key --ledger journals/kept/no-ledger --device 7 --verbose --journal-in '' life/again
wants journal-in-no-folder 2 '' 'journal: cannot create
cause: the folder is missing'
is no-ledger-was-made no test -e journals/kept/no-ledger
run seal --key none --ledger none --device 7 --journal x --journal-in journals life/again
wants journal-and-journal-in 2 '' 'usage: --journal excludes --journal-in'
run pipe --key none --ledger none --device 7 --journal x --journal-in journals < life/again
wants stream-journal-and-journal-in 2 '' 'usage: --journal excludes --journal-in'
# A journal there is one of the run's own files. Its name is known only once it is made, so a FILE links to each that may come.
mkdir journals/own
now=$(date +%s)
for n in $(seq 0 9); do ln -s "device-7-$((now + n))-0.journal" journals/own/link$n; done
run seal --key "$key" --ledger journals/kept/ledger --device 7 --journal-in journals/own journals/own/link*
is own-journal-is-no-file test "$status $(grep -c '^failed journals/own/link[0-9]: cannot open$' out)" = '1 10'
# Where it can't be looked up, no FILE can be told from it.
if command -v strace >/dev/null; then
    strace -f -e trace=statx -o calls "$sealer" seal --key "$key" --ledger journals/kept/ledger --device 7 --journal-in journals/own life/again > out 2> err
    rm life/again.stm
    n=$(grep -n '\.journal", ' calls | head -n 1 | cut -d : -f 1)
    strace -f -e trace=statx -e "inject=statx:error=EIO:when=$n" -o calls "$sealer" seal --key "$key" --ledger journals/kept/ledger --device 7 --journal-in journals/own \
        life/again > out 2> err
    status=$?
    wants unknown-journal 1 'failed life/again: cannot open' ''
fi
# All names of the seconds to come are taken.
mkdir journals/full
(cd journals/full && now=$(date +%s) && for s in $(seq 0 20); do for n in $(seq 0 999); do printf 'device-7-%s-%s.journal\n' $((now + s)) "$n"; done; done | xargs touch)
run seal --key "$key" --ledger journals/kept/no-ledger --device 7 --journal-in journals/full life/again
wants journal-in-full 2 '' 'journal: output exists'
is no-ledger-was-made-there-either no test -e journals/kept/no-ledger
rm -r journals life/again

run verify --key "$key" life/numbers.stm life/empty.stm
wants verify-sealed 0 'good life/numbers.stm bytes 1492
good life/empty.stm bytes 0' ''
mv life/numbers life/numbers.plain
mv life/empty life/empty.plain
run open --key "$key" life/numbers.stm life/empty.stm
wants open-sealed 0 'opened life/numbers.stm bytes 1492
opened life/empty.stm bytes 0' ''
is the-plaintext-comes-back cmp -s life/numbers life/numbers.plain
is the-empty-one-too cmp -s life/empty life/empty.plain

# The next run goes on after the range of the first, with any number of workers.
seals --workers 4 life/more
wants next-run 0 'sealed life/more file 4 bytes 348894' ''
run verify --key "$key" --workers 3 life/more.stm
wants verify-more 0 'good life/more.stm bytes 348894' ''
if has cryptography; then
    python3 "$here/tools/seal_container.py" "$key" 1 4 life/more theirs.stm
    is another-program-seals-the-same cmp -s life/more.stm theirs.stm
    python3 "$here/tools/seal_container.py" "$key" 1 0 life/numbers theirs.stm
    is it-seals-the-first-the-same cmp -s life/numbers.stm theirs.stm
fi
seals life/none life/none life/none
wants a-range-is-given-up 1 'failed life/none: cannot open
failed life/none: cannot open
failed life/none: cannot open' ''
# After a run the ledger is one file, which stock sqlite3 reads.
if has sqlite3; then
    cp life/ledger alone
    is integrity test "$(sqlite3 alone 'PRAGMA integrity_check')" = ok
    key_id=$(python3 -c 'import hashlib, sys; print(hashlib.sha256(bytes.fromhex(open(sys.argv[1]).read().strip())).hexdigest())' "$key")
    is mark test "$(sqlite3 alone 'SELECT lower(hex(key_id)), device, next FROM mark')" = "$key_id|1|8"
    is taken test "$(sqlite3 alone 'SELECT device, lo, size FROM taken ORDER BY lo' | tr '\n' ' ')" = '1|0|4 1|4|1 1|5|3 '
    sqlite3 life/ledger 'SELECT count(*) FROM taken' > /dev/null
fi
cp life/numbers life/again
seals life/again
wants after-another-reader 0 'sealed life/again file 8 bytes 1492' ''
run seal --key "$key" --ledger life/ledger --device 2 -- life/empty
wants exists-for-another-device 1 'failed life/empty: output exists' ''
rm life/empty.stm
run seal --key "$key" --ledger life/ledger --device 2 -- life/empty
wants another-device 0 'sealed life/empty file 1 bytes 0' ''
rm life/empty.stm
run seal --key "$key" --ledger life/ledger --device 0 -- life/empty
wants device-0 0 'sealed life/empty file 0 bytes 0' ''

# What fails: files.
ln -s /proc/self/mem life/mem
ln -s /dev/zero life/zero
mkdir life/folder
seals --max-bytes 1491 life/folder life/mem life/zero life/numbers.plain /proc/version
wants faults 1 'failed life/folder: cannot open
failed life/mem: read failed
failed life/zero: too long
failed life/numbers.plain: too long
failed /proc/version: cannot create' ''
is no-partial-output test "$(ls life/*.stm | tr '\n' ' ')" = 'life/again.stm life/empty.stm life/more.stm life/numbers.stm '
# Modes: an unreadable FILE and key, a folder that can't be written. No number is spent.
mkdir locked
cp "$sealer" locked/sealer
cp "$key" locked/key
cp "$key" locked/no-key
seq 1 400 > locked/a
seq 1 400 > locked/b
cp "$here/examples/numbers.stm" locked/numbers.stm
mkdir locked/ledgers
chmod 777 locked/ledgers
[ "$(id -u)" != 0 ] || chown 65534 locked/no-key locked/b
chmod 000 locked/no-key locked/b
chmod 755 "$room"
chmod 555 locked
unprivileged() { (cd locked && as_user ./sealer "$@") > out 2> err; status=$?; }
unprivileged seal --key key --ledger ledgers/l --device 1 --journal ledgers/j a b
wants locked-seal 1 'failed a: cannot create
failed b: cannot open' ''
is locked-spends-none test "$(cat locked/ledgers/j)" = 'range 1 0 2 1'
unprivileged open --key key numbers.stm
wants locked-open 1 'failed numbers.stm: cannot create' ''
unprivileged seal --key no-key --ledger ledgers/l --device 1 a
wants locked-key 2 '' 'key: cannot open'
unprivileged seal --key key --ledger l --device 1 a
wants locked-ledger 2 '' 'ledger: cannot open'
unprivileged seal --key key --ledger ledgers/l --device 1 --journal j a
wants locked-journal 2 '' 'journal: cannot create'
is locked-is-as-it-was test "$(ls locked | tr '\n' ' ')" = 'a b key ledgers no-key numbers.stm sealer '
chmod 755 locked
# A full disk, of 300 KiB: an output, a journal, a ledger. Once there is room the numbers go on.
mkdir small
if mount -t tmpfs -o size=300k none small 2>/dev/null; then
    small() { run seal --key "$key" --ledger life/small --device 1 "$@"; }
    head -c 200000 /dev/zero > small/x
    small small/x
    wants full-disk-output 1 'failed small/x: write failed' ''
    is full-disk-keeps-no-part test "$(ls small)" = x
    head -c 200000 /dev/zero 2>/dev/null > small/fill 2>/dev/null
    : > life/small.empty
    small --journal small/journal life/small.empty
    wants full-disk-journal 2 'sealed life/small.empty file 1 bytes 0' 'journal: write failed'
    run verify --key "$key" life/small.empty.stm
    wants full-disk-container 0 'good life/small.empty.stm bytes 0' ''
    rm life/small.empty.stm
    "$sealer" pipe --key "$key" --ledger life/small --device 2 --journal small/stream.journal < numbers.plain > stream.stm 2> err
    status=$?
    : > out
    wants full-disk-journal-of-a-stream 2 '' 'sealed - file 0 bytes 1492
journal: write failed'
    run verify --key "$key" stream.stm
    wants full-disk-stream 0 'good stream.stm bytes 1492' ''
    "$sealer" pipe --key "$key" --ledger life/small --device 2 < numbers.plain > small/stream.stm 2> err
    status=$?
    : > out
    wants full-disk-of-a-stream 1 '' 'failed -: write failed'
    run seal --key "$key" --ledger small/ledger --device 1 life/small.empty
    wants full-disk-ledger 2 '' 'ledger: cannot open'
    is full-disk-seals-nothing no test -e life/small.empty.stm
    # a first run that runs out of room at any step: its cause is no damage, and it goes on once there is room
    rm small/fill small/x
    mkdir small/first
    for pages in $(seq 0 16); do
        rm -rf small/first/* small/room
        head -c $((4096 * pages)) /dev/zero > small/room 2> /dev/null
        cat /dev/zero >> small/fill 2> /dev/null
        rm small/room
        run seal --key "$key" --ledger small/first/ledger --device 1 --verbose life/small.empty
        if [ "$status" = 2 ]; then
            is "full-disk-cause of $pages pages: $(cat err)" test "$(grep -c -e '^cause: the system reports an error$' -e '^cause: it cannot be made: ' err)" = 1
            rm small/fill
            run seal --key "$key" --ledger small/first/ledger --device 1 life/small.empty
        fi
        # a number whose range could only be committed is given up
        sed -i 's/ file 1 / file 0 /' out
        wants "full-disk-goes-on $pages" 0 'sealed life/small.empty file 0 bytes 0' ''
        rm life/small.empty.stm
    done
    rm -rf small/fill small/first
    run seal --key "$key" --ledger small/ledger --device 1 life/small.empty
    wants room-again 0 'sealed life/small.empty file 0 bytes 0' ''
    # A reservation that finds no room uses no number, and the next one goes on after the first.
    cat /dev/zero > small/fill 2>/dev/null
    run seal --key "$key" --ledger small/ledger --device 1 life/none
    is full-disk-reserves-nothing test "$status $(cat out err | head -c 7)" = '2 ledger:'
    rm small/fill life/small.empty.stm
    run seal --key "$key" --ledger small/ledger --device 1 life/small.empty
    wants room-once-more 0 'sealed life/small.empty file 1 bytes 0' ''
    umount small
else
    echo 'left out: a full disk, since no file system can be mounted here'
fi
# A file of at most 64 KiB.
seq 1 20000 > life/large
(trap '' XFSZ; ulimit -f 64; exec "$sealer" seal --key "$key" --ledger life/ledger --device 3 life/large life/empty.plain) > out 2> err
status=$?
wants write-fails-at-sealing 1 'failed life/large: write failed
sealed life/empty.plain file 1 bytes 0' ''
is the-cut-container-is-removed no test -e life/large.stm

# A link that leads nowhere, in the place of an output: nothing is written through it. Names of every kind.
cp life/numbers life/dangling
ln -s nowhere life/dangling.stm
seals life/dangling
wants dangling 1 'failed life/dangling: output exists' ''
is dangling-leads-nowhere no test -e life/nowhere
rm life/dangling life/dangling.stm
mkdir life/names
cp life/numbers 'life/names/ a b'
cp life/numbers life/names/-x
printf 'c' > 'life/names/c
d'
(cd life/names && exec "$sealer" seal --key "$key" --ledger ledger --device 1 -- ' a b' -x '' - 'c
d') > out 2> err
status=$?
wants names 1 'sealed  a b file 0 bytes 1492
sealed -x file 1 bytes 1492
failed : cannot open
failed -: cannot open
sealed c
d file 2 bytes 1' ''

# What fails: standard output. The files and the journal are worked.
cp life/numbers life/untold
"$sealer" seal --key "$key" --ledger life/ledger --device 4 --journal life/full.journal life/none life/untold > /dev/full 2> err; status=$?; : > out
wants full-seal 2 '' ''
run audit < life/full.journal
wants full-journal 0 'legal: 1 granted, 1 sealed, 0 void, 0 open, 0 refused' ''
run verify --key "$key" life/untold.stm
wants full-sealed 0 'good life/untold.stm bytes 1492' ''
rm life/untold.stm
"$sealer" seal --key "$key" --ledger life/ledger --device 4 life/untold 2> err >&-; status=$?; : > out
wants closed-seal 2 '' ''
is closed-sealed test -s life/untold.stm

# A closed standard stream: what is meant for it goes into no other file.
cp life/numbers life/closed
"$sealer" seal --key "$key" --ledger life/ledger --device 5 --journal life/closed.journal life/none life/closed 2> err >&-; status=$?; : > out
wants closed-with-journal 2 '' ''
run audit < life/closed.journal
wants closed-journal 0 'legal: 1 granted, 1 sealed, 0 void, 0 open, 0 refused' ''
run verify --key "$key" life/closed.stm
wants closed-container 0 'good life/closed.stm bytes 1492' ''
"$sealer" seal --key "$key" --ledger life/no/ledger --device 5 --journal life/quiet.journal life/closed > out 2>&-; status=$?; : > err
wants closed-error 2 '' ''
is quiet-journal no test -s life/quiet.journal

# A journal in the place of the ledger, or of its log, is refused under any path, and no number is lost or issued twice.
mkdir life/place
ln -s place life/same
cp life/numbers life/place/a
cp life/numbers life/place/b
placed() { run seal --key "$key" --ledger life/place/ledger --device 1 "$@"; }
for name in ledger ledger-wal ledger-shm ledger-journal; do
    placed --journal "life/place/$name" life/place/a
    wants "journal-at-$name" 2 '' 'journal: cannot create'
    is "nothing-at-$name" no test -e "life/place/$name"
done
for name in ledger ledger-wal ledger-shm ledger-journal; do
    placed --journal "life/same/$name" life/place/a
    wants "journal-at-$name-by-another-path" 2 '' 'journal: cannot create'
    is "empty-at-$name" no test -s "life/place/$name"
done
rm -f life/place/ledger life/place/ledger-wal
ln -s place/ledger life/linked
placed life/place/a
wants first-in-place 0 'sealed life/place/a file 0 bytes 1492' ''
for path in place/ledger same/ledger linked; do
    placed --journal "life/$path" life/place/b
    wants "journal-is-a-ledger by $path" 2 '' 'journal: output exists'
done
rm -f life/place/ledger-journal
run seal --key "$key" --ledger life/linked --device 1 --journal life/place/ledger-journal life/place/b
wants journal-beside-what-is-linked 2 '' 'journal: cannot create'
rm -f life/place/ledger-wal
placed --journal life/same/ledger-wal life/place/b
wants journal-at-the-log 2 '' 'journal: cannot create'
placed life/place/b
wants next-in-place 0 'sealed life/place/b file 1 bytes 1492' ''

# What fails: the journal. Before the reservation nothing else is done.
marks() { if has sqlite3; then sqlite3 life/ledger 'SELECT count(*), sum(next) FROM mark'; fi; }
before=$(marks)
cp life/numbers life/waits
seals --journal life/journal life/waits
wants journal-exists 2 '' 'journal: output exists'
seals --journal life/no/journal life/waits
wants journal-cannot-create 2 '' 'journal: cannot create'
seals --journal /dev/full life/waits
wants journal-full 2 '' 'journal: output exists'
is nothing-was-reserved test "$(marks)" = "$before"
is nothing-was-sealed no test -e life/waits.stm
run audit < life/journal
wants the-journal-is-kept 0 'legal: 2 granted, 2 sealed, 0 void, 0 open, 0 refused' ''
# A journal of more than 128 KiB, where no file may have more.
mkdir many
for n in $(seq 1 6000); do : > "many/$n"; done
(trap '' XFSZ; ulimit -f 128; cd many && exec "$sealer" seal --key "$key" --ledger ledger --device 1 --journal journal $(seq 1 6000)) 2> err | cat > out
status=${PIPESTATUS[0]}
wants journal-write-fails 2 'begins sealed 1 file 0 bytes 0' 'journal: write failed'
is the-lines-are-there test "$(wc -l < out)" = 6000

# What fails: the ledger.
run seal --key "$key" --ledger life/no/ledger --device 1 life/waits
wants ledger-no-folder 2 '' 'ledger: cannot open'
for name in life/folder '' :memory: file:life/uri; do
    run seal --key "$key" --ledger "$name" --device 1 life/waits
    wants "ledger '$name'" 2 '' 'ledger: cannot open'
done
cp life/more life/text
run seal --key "$key" --ledger life/text --device 1 --journal life/empty.journal life/waits
wants ledger-no-database 2 '' 'ledger: cannot open'
is the-created-journal-stays-empty test -e life/empty.journal -a ! -s life/empty.journal
# What fails: there is no ledger, or its log alone. Nothing is made but the journal, which comes before the look.
begun() { # NAME: the run created its journal, and wrote nothing there
    is "$1" test -e life/never.journal -a ! -s life/never.journal
}
run seal --key "$key" --ledger life/never --no-new-ledger --device 1 --journal life/never.journal life/waits
wants ledger-not-there 2 '' 'ledger: not there'
is no-ledger-was-made no test -e life/never
begun the-journal-was-created
run seal --key "$key" --ledger life/never --no-new-ledger --device 1 --journal life/never.journal life/waits
wants the-journal-comes-before-the-ledger 2 '' 'journal: output exists'
rm life/never.journal
: > life/never
run seal --key "$key" --ledger life/never --no-new-ledger --device 1 --journal life/never.journal life/waits
wants ledger-empty-is-none 2 '' 'ledger: not there'
is the-empty-ledger-stays no test -s life/never
rm life/never.journal
run seal --key "$key" --ledger life/no/ledger --no-new-ledger --device 1 life/waits
wants ledger-not-there-without-a-folder 2 '' 'ledger: not there'
run seal --key "$key" --ledger life/more/ledger --no-new-ledger --device 1 life/waits
wants ledger-in-no-folder 2 '' 'ledger: cannot open'
head -c 57 /dev/zero > life/lost-wal
head -c 57 /dev/zero > life/kept-wal
for bytes in none 0 1; do
    rm -f life/lost
    [ $bytes = none ] || head -c $bytes /dev/zero > life/lost
    run seal --key "$key" --ledger life/lost --device 1 --journal life/never.journal life/waits
    wants "log-of-no-ledger $bytes" 2 '' 'ledger: cannot open'
    is "the-log-stays $bytes" cmp -s life/lost-wal life/kept-wal
    is "the-ledger-stays $bytes" test "$([ -e life/lost ] && wc -c < life/lost || echo none)" = $bytes
    begun "the-journal-beside-a-log $bytes"
    rm life/never.journal
done
mkdir life/links
ln -s ../lost life/links/lost
run seal --key "$key" --ledger life/links/lost --device 1 life/waits
wants log-of-no-ledger-by-a-link 2 '' 'ledger: cannot open'
rm life/lost life/lost-wal
# a log that was only begun, beside an empty file: a run was killed as it made the ledger
printf '\067\177\006\202\000\055\342\030\000\000\020\000\377\377\377\377' > life/lost-wal
cp life/numbers life/first
run seal --key "$key" --ledger life/lost --device 1 life/first
wants begun-log-of-no-ledger 2 '' 'ledger: cannot open'
: > life/lost
run seal --key "$key" --ledger life/lost --device 1 life/first
wants begun-log 0 'sealed life/first file 0 bytes 1492' ''
rm life/first.stm
run seal --key "$key" --ledger life/lost --no-new-ledger --device 1 life/first
wants ledger-is-there 0 'sealed life/first file 1 bytes 1492' ''
rm life/first.stm
# a file of one byte: a 0, with which the database begins its own, or another, which is somebody else's
printf '\0' > life/begun
run seal --key "$key" --ledger life/begun --device 1 life/first
wants ledger-that-was-only-begun 0 'sealed life/first file 0 bytes 1492' ''
rm life/first.stm
printf 1 > life/one
run seal --key "$key" --ledger life/one --device 1 life/first
wants ledger-of-one-byte 2 '' 'ledger: cannot open'
is the-one-byte-stays test "$(cat life/one)" = 1
# a first run that is cut in a write of its log's header, and a log whose length is on the disk before its bytes
for limit in 0 1 2 10 15 16 40 41 100; do
    (trap '' XFSZ; exec prlimit --fsize=$limit "$sealer" seal --key "$key" --ledger life/cut$limit --device 1 life/first) 2>&1 > /dev/null | cat > err
    status=${PIPESTATUS[0]}
    : > out
    wants "first-run-that-is-cut $limit" 2 '' 'ledger: cannot open'
    run seal --key "$key" --ledger life/cut$limit --device 1 life/first
    wants "the-run-after-a-cut-one $limit" 0 'sealed life/first file 0 bytes 1492' ''
    rm -f life/first.stm
done
: > life/zeros
head -c 41 /dev/zero > life/zeros-wal
run seal --key "$key" --ledger life/zeros --device 1 life/first
wants a-log-of-zeros 0 'sealed life/first file 0 bytes 1492' ''
rm -f life/first.stm
# an emptied ledger whose log was overwritten by a text: no cut leaves such a first byte
: > life/over
for over in hello 7; do
    printf $over > life/over-wal
    run seal --key "$key" --ledger life/over --device 1 life/first
    wants "a-log-of-the-text $over" 2 '' 'ledger: cannot open'
    is "the-text-stays $over" test "$(cat life/over-wal)" = $over -a ! -s life/over
done
# a ledger that vanishes between the look at it and its opening, as the run calls for it the first time or the second
if command -v strace > /dev/null; then
    for n in 1 2; do
        run seal --key "$key" --ledger life/gone$n --device 1 life/first
        rm life/first.stm
        cp life/gone$n-wal life/kept-wal
        strace -f -o calls -P life/gone$n -e trace=openat -e inject=openat:delay_enter=3000000:when=$n "$sealer" seal --key "$key" --ledger life/gone$n --device 1 \
            --journal life/gone$n.journal life/first > out 2> err &
        late=$!
        for i in $(seq 100); do [ -e life/gone$n.journal ] && break; sleep 0.1; done
        sleep 0.5
        mv life/gone$n life/away$n
        wait $late
        status=$?
        sed -i '/^strace: /d' err
        wants "ledger-that-vanishes $n" 2 '' 'ledger: cannot open'
        is "the-log-of-what-vanished $n" cmp life/gone$n-wal life/kept-wal
    done
fi
# the log that a run left, and its file lost or emptied
cp life/lost-wal life/kept-wal
: > life/lost
run seal --key "$key" --ledger life/lost --device 1 life/first
wants log-of-an-emptied-ledger 2 '' 'ledger: cannot open'
# so is one that a later run was about to begin anew
printf '\0' | dd of=life/lost-wal conv=notrunc status=none
run seal --key "$key" --ledger life/lost --device 1 life/first
wants shut-log-of-an-emptied-ledger 2 '' 'ledger: cannot open'
cp life/kept-wal life/lost-wal
rm life/lost
run seal --key "$key" --ledger life/lost --device 1 life/first
wants log-of-a-lost-ledger 2 '' 'ledger: cannot open'
is the-left-log-stays cmp -s life/lost-wal life/kept-wal
is no-lost-ledger-was-made no test -e life/lost
run seal --key "$key" --ledger life/links/lost --device 1 life/first
wants log-of-a-lost-ledger-by-a-link 2 '' 'ledger: cannot open'
is no-lost-ledger-was-made-by-a-link no test -e life/lost

(umask 077; cp "$key" life/own-key)
(trap '' XFSZ; ulimit -f 8; exec "$sealer" seal --key life/own-key --ledger life/ledger --device 5 --verbose life/waits) > out 2> err
status=$?
wants ledger-store-fails 2 '' 'ledger: store failed
cause: the system reports an error'
(trap '' XFSZ; ulimit -f 8; exec "$sealer" pipe --key life/own-key --ledger life/ledger --device 5 --verbose < life/waits) > out 2> err
status=$?
wants ledger-store-fails-for-a-stream 2 '' 'ledger: store failed
cause: the system reports an error'
is nothing-was-sealed-without-a-range no test -e life/waits.stm
if has sqlite3; then
    sqlite3 life/bare 'CREATE TABLE one (a INTEGER); DROP TABLE one'
    run seal --key "$key" --ledger life/bare --no-new-ledger --device 1 life/waits
    wants ledger-without-tables-is-none 2 '' 'ledger: not there'
    is no-tables-were-made test "$(sqlite3 life/bare 'SELECT count(*) FROM sqlite_master')" = 0
    sqlite3 life/other 'CREATE TABLE mark (a INTEGER)'
    run seal --key "$key" --ledger life/other --device 1 life/waits
    wants ledger-of-others 2 '' 'ledger: not a ledger'
    # Somebody else's database, of whatever form, is refused byte for byte as it was, with nothing made beside it.
    mkdir life/foreign
    (
        cd life/foreign
        sqlite3 one 'CREATE TABLE t (x); INSERT INTO t VALUES (1)'
        sqlite3 view 'CREATE VIEW v AS SELECT 1'
        sqlite3 four 'CREATE TABLE mark (a PRIMARY KEY, b UNIQUE); CREATE TABLE takes (a)'
        # four entries, and the words of a ledger's in another entry's text
        sqlite3 words "CREATE TABLE one (a PRIMARY KEY DEFAULT 'tablemarkmark'); CREATE TABLE two (a PRIMARY KEY DEFAULT 'tabletakentaken')"
        sqlite3 wide 'PRAGMA page_size = 65536; CREATE TABLE t (x)'
        sqlite3 small 'PRAGMA page_size = 512; CREATE TABLE t (x); CREATE TABLE u (x UNIQUE); CREATE TABLE v (y)'
        sqlite3 many "$(for n in $(seq 1 300); do echo "CREATE TABLE some_table_$n (some_column, another_column);"; done)"
        sqlite3 logged 'PRAGMA journal_mode = wal; CREATE TABLE t (x); INSERT INTO t VALUES (1)' '.shell cp logged pages; cp logged-wal pages-wal' > /dev/null
        rm -f logged*
        sqlite3 begun 'CREATE TABLE t (x)'
        : > begun-wal
        sqlite3 long "CREATE TABLE t (x); INSERT INTO t VALUES (zeroblob(20000000))"
        cp "$here/examples/journal.txt" text
    )
    is the-log-has-pages test "$(wc -c < life/foreign/pages-wal)" -gt 4096
    as_it_was() { (cd life/foreign && ls -l --time-style=full-iso && sha256sum -- *); }
    as_it_was > before
    for name in one view four words wide small many pages begun long text; do
        text='ledger: not a ledger'
        [ $name = text ] && text='ledger: cannot open'
        run seal --key "$key" --ledger life/foreign/$name --device 1 life/waits
        wants "ledger-of-others $name" 2 '' "$text"
        run pipe --key "$key" --ledger life/foreign/$name --device 1 < life/waits
        wants "ledger-of-others-for-a-stream $name" 2 '' "$text"
        # a view alone is no table
        [ $name = view ] && text='ledger: not there'
        run seal --key "$key" --ledger life/foreign/$name --no-new-ledger --device 1 life/waits
        wants "ledger-of-others-and-no-new-one $name" 2 '' "$text"
        run ledger --ledger life/foreign/$name
        wants "what-others-hold $name" 2 '' "$text"
    done
    as_it_was > after
    is nothing-of-others-was-touched cmp before after
    run seal --key "$key" --ledger life/foreign/one --no-new-ledger --device 1 life/waits
    is others-keep-their-journal-mode test "$(sqlite3 life/foreign/one 'PRAGMA journal_mode')" = delete
    # Nothing else may be beside a ledger's two tables, and its file may have no second name.
    cp life/ledger life/indexed
    sqlite3 life/indexed 'CREATE INDEX more ON taken (lo)'
    run seal --key "$key" --ledger life/indexed --device 1 life/waits
    wants ledger-with-an-index 2 '' 'ledger: cannot open'
    ln life/indexed life/second-name
    sqlite3 life/indexed 'DROP INDEX more'
    run seal --key "$key" --ledger life/indexed --device 1 life/waits
    wants ledger-with-two-names 2 '' 'ledger: cannot open'
    rm life/second-name
    cp life/ledger life/gap
    sqlite3 life/gap 'UPDATE mark SET next = next + 1'
    run seal --key "$key" --ledger life/gap --device 1 life/waits
    wants ledger-with-a-gap 2 '' 'ledger: not a ledger'
    cp life/ledger life/spent
    sqlite3 life/spent "DELETE FROM taken; DELETE FROM mark; INSERT INTO mark VALUES (X'$key_id', 1, 4294967294); INSERT INTO taken VALUES (X'$key_id', 1, 0, 4294967294)"
    run seal --key "$key" --ledger life/spent --device 1 life/waits life/waits life/waits
    wants ledger-spent 2 '' 'ledger: 2 numbers left'
    run seal --key "$key" --ledger life/spent --device 1 life/waits life/none
    wants the-last-numbers 1 'sealed life/waits file 4294967294 bytes 1492
failed life/none: cannot open' ''
    rm life/waits.stm
fi
seals $(printf 'w %.0s' $(seq 1 65536))
wants too-many 2 '' 'ledger: too many files'
printf 'w\n%.0s' $(seq 1 65535) > list
seals --files-from list w
wants too-many-of-a-list 2 '' 'ledger: too many files'
seals --files-from - < list > out
is as-many-as-a-run-may-have test "$status $(sort -u out | tr '\n' ' ') $(wc -l < out)" = '1 failed w: cannot open  65535'
# More FILEs than that: several runs, each with a range of its own.
mkdir life/many
(cd life/many && seq 65540 | xargs touch)
find life/many -type f -print0 | xargs -0 -n 40000 "$sealer" seal --key "$key" --ledger life/many-ledger --device 1 > out 2> err
status=$?
is more-by-xargs test "$status $(grep -c '^sealed ' out) $(sed 's/.* file \([0-9]*\) bytes 0$/\1/' out | sort -n | uniq | wc -l)" = '0 65540 65540'
find life/many -name '*.stm' -print0 | xargs -0 -n 40000 "$sealer" verify --key "$key" > out 2> err
is more-are-good test "$? $(grep -c '^good ' out)" = '0 65540'
rm -r life/many life/many-ledger*
# A list is read before the key, and before anything is reserved.
: > list
before=$(marks)
seals --files-from list
wants seal-of-an-empty-list 2 '' 'usage: no files'
printf '\n' > list
run seal --key none --ledger life/new --device 1 --files-from list life/waits
wants seal-of-an-empty-name 2 '' 'usage: a name in the list is empty'
run seal --key none --ledger life/new --device 1 --files-from none life/waits
wants seal-of-no-list 2 '' 'usage: cannot read the list'
printf '\377' > list
run seal --key none --ledger life/new --device 1 --files-from list life/waits
wants seal-of-a-list-that-is-no-text 2 '' 'usage: the list is no text'
is a-list-reserves-nothing test "$(marks)" = "$before"
mkdir life/listed
for name in a b c; do cp life/numbers "life/listed/$name"; done
find life/listed -type f -print0 | sort -z > list
run seal --key "$key" --ledger life/listed.ledger --device 1 --null --files-from list life/none
wants seal-listed 1 'failed life/none: cannot open
sealed life/listed/a file 0 bytes 1492
sealed life/listed/b file 1 bytes 1492
sealed life/listed/c file 2 bytes 1492' ''
rm list

# Outputs in a folder. Names are compared before the key is read, and nothing is reserved.
mkdir life/into life/from
cp life/numbers life/from/a
cp life/numbers life/from/b
cp life/numbers life/b
for lanes in 1 2; do
    run seal --key "$key" --ledger life/into.ledger --device $lanes --lanes $lanes --into life/into --journal life/from/journal$lanes life/from/a life/b
    unnumbered
    wants "seal-into by $lanes" 0 'sealed life/from/a bytes 1492
sealed life/b bytes 1492' ''
    is "into-has-both by $lanes" test "$(ls life/into | tr '\n' ' ')" = 'a.stm b.stm '
    is "the-journal-stays-where-it-was-asked-for by $lanes" test -s life/from/journal$lanes
    rm life/into/*
done
is nothing-beside-what-was-sealed test "$(ls life/from life/*.stm | grep -c '^a.stm\|b.stm')" = 0
for same in life/from/b ./life/b life//b; do
    run seal --key none --ledger life/new --device 1 --into life/into life/b $same
    wants "seal-into-one-name $same" 2 '' 'usage: two FILEs have one last name'
done
run seal --key none --ledger life/new --device 1 --into life/into life/b life/from/
wants seal-into-no-name 2 '' 'usage: a FILE has no last name'
run seal --key "$key" --ledger life/into.ledger --device 1 --into life/none life/b
wants seal-into-no-folder 1 'failed life/b: cannot create' ''

# What a ledger holds. Nothing is changed, and what seal refuses is refused.
holds() { run ledger --ledger "$1"; }
hint=$(python3 -c 'import hashlib, sys; print(hashlib.sha256(bytes.fromhex(open(sys.argv[1]).read().strip())).hexdigest()[:14])' "$key")
other=$(printf '00%.0s' $(seq 32) | tee other-key | python3 -c 'import hashlib, sys; print(hashlib.sha256(bytes.fromhex(sys.stdin.read())).hexdigest()[:14])')
mkdir life/held
run seal --key "$key" --ledger life/held/l --device 300 life/none life/none
run seal --key "$key" --ledger life/held/l --device 7 life/none
run seal --key "$key" --ledger life/held/l --device 7 life/none life/none life/none
run seal --key other-key --ledger life/held/l --device 7 life/none
cp -p life/held/l life/held/l-wal life/
holds life/held/l
# in the order of the keys' ids, and then of the devices as numbers
wants held 0 "$(printf '%s\n' "key $hint device 300 ranges 1 given 2 left 4294967294" "key $hint device 7 ranges 2 given 4 left 4294967292" "key $other device 7 ranges 1 given 1 left 4294967295" | sort -k 2,2 -k 4,4n)" ''
is held-is-not-changed cmp -s life/held/l life/l
is its-log-is-not-changed cmp -s life/held/l-wal life/l-wal
is nothing-is-beside-it test "$(ls life/held | tr '\n' ' ')" = 'l l-wal '
chmod 444 life/held/l life/held/l-wal
chmod 555 life/held
as_user locked/sealer ledger --ledger life/held/l > out 2> err; status=$?
is held-may-be-read-only test "$status $(wc -l < out)" = '0 3'
chmod 755 life/held
chmod 644 life/held/l life/held/l-wal
rm life/held/l-wal
holds life/held/l
is held-without-its-log test "$status $(wc -l < out)" = '0 3'
is no-log-was-made no test -e life/held/l-wal
"$sealer" ledger --ledger life/held/l > /dev/full 2> err; status=$?; : > out
wants held-is-not-printed 2 '' 'ledger: write failed'
for name in life/held/none '' :memory:; do
    holds "$name"
    wants "held by '$name'" 2 '' 'ledger: not there'
done
is no-ledger-was-made-to-be-read no test -e life/held/none
: > life/held/empty
holds life/held/empty
wants held-by-an-empty-file 2 '' 'ledger: not there'
for name in life/held life/more; do
    holds "$name"
    wants "held by '$name'" 2 '' 'ledger: cannot open'
done
ln life/held/l life/held/second
holds life/held/l
wants held-with-two-names 2 '' 'ledger: cannot open'
rm life/held/second
ln -s l life/held/link
holds life/held/link
is held-by-a-link test "$status $(wc -l < out)" = '0 3'
printf x > life/held/l-journal
holds life/held/l
wants held-with-a-journal 2 '' 'ledger: cannot open'
head -c 512 /dev/zero > life/held/l-journal
holds life/held/l
is held-with-a-journal-of-zeros test "$status" = 0
: > life/held/l-journal
holds life/held/l
is held-with-an-empty-journal test "$status" = 0
head -c 57 /dev/zero > life/held/none-wal
holds life/held/none
wants held-by-a-log-alone 2 '' 'ledger: cannot open'
if has sqlite3; then
    cp life/ledger life/more-index
    sqlite3 life/more-index 'CREATE INDEX more ON taken (lo)'
    for name in other more-index gap bare; do
        cp life/$name life/held/$name
        run seal --key "$key" --ledger life/held/$name --no-new-ledger --device 1 life/none
        cp err seals-err
        cp life/$name life/held/$name
        rm -f life/held/$name-wal
        holds life/held/$name
        wants "held by $name" 2 '' "$(cat seals-err)"
        is "as it was: $name" cmp -s life/$name life/held/$name
    done
    holds life/spent
    wants held-spent 0 "key $hint device 1 ranges 2 given 4294967296 left 0" ''
fi
# also while a run holds it, which waits for its input
mkdir life/use
cp life/l life/use/l
mkfifo life/slow
"$sealer" seal --key "$key" --ledger life/use/l --device 8 life/slow > in-use 2>&1 &
for _ in $(seq 100); do
    holds life/use/l
    [ "$(wc -l < out)" = 4 ] && break
    sleep 0.1
done
is held-in-use test "$status $(grep -c ' device 8 ranges 1 given 1 ' out)" = '0 1'
timeout 20 sh -c 'printf 12345 > life/slow'
wait
is held-run-goes-on test "$(cat in-use)" = 'sealed life/slow file 0 bytes 5'
rm life/slow
run ledger
wants ledger-of-none 2 '' 'begins error: the following required arguments were not provided:
  --ledger <F>'

# Headers, which are read without a key. What a line shows is what Python reads of the bytes by docs/FORMATS.md.
mkdir life/heads
cat > shown_by_python.py <<'END'
import os
import sys

for name in sys.argv[1:]:
    head = open(name, "rb").read(280)
    version, chunk, device, number = head[8], 2 ** head[9], int.from_bytes(head[10:13], "big"), int.from_bytes(head[13:17], "big")
    begin = 25 + head[24] if version == 2 else 24
    body = os.stat(name).st_size - begin
    fits = [n for n in (body - 16 * k for k in {1, -(-body // (chunk + 16))}) if n >= 0 and n + 16 * max(1, -(-n // chunk)) == body]
    plain = "".join(chr(it) if 31 < it < 127 and it not in b'"\\' else f"\\x{it:02x}" for it in head[25:begin])
    label = f' label "{plain}"' if version == 2 else ""
    print(f"unchecked {name} version {version} chunk {chunk} key {head[17:24].hex()} device {device} file {number} bytes {(fits or ['?'])[0]}{label}")
END
heads() { run seal --key "$key" --ledger life/heads/l --device "$@"; } # DEVICE .. FILES
: > life/heads/empty
cp life/more life/heads/more
head -c 8193 life/more > life/heads/chunks
head -c 8192 life/more > life/heads/full
heads 1 --journal life/heads/first life/heads/empty life/heads/more
heads 1 --exponent 12 life/heads/chunks
heads 16777215 --label "$(printf 'a"\\\t\303\244')" --exponent 20 life/heads/full
cp life/heads/l life/heads/before
cp life/more life/heads/late
heads 1 --label '' life/heads/late
cp life/heads/l life/heads/after
run seal --key other-key --ledger life/heads/l --device 1 --exponent 12 --into "$room" life/heads/full
mv full.stm life/heads/other.stm
run seal --key "$key" --ledger life/heads/machine --device 2 --into "$room" life/heads/more
mv more.stm life/heads/machine.stm
all=(life/heads/{empty,more,chunks,full,late,other,machine}.stm)
run show "${all[@]}"
wants show 0 "$(python3 shown_by_python.py "${all[@]}")" ''
is show-of-version-one grep -Fxq "unchecked life/heads/more.stm version 1 chunk 65536 key $hint device 1 file 1 bytes $(wc -c < life/more)" out
is show-a-label grep -Fxq "unchecked life/heads/full.stm version 2 chunk 1048576 key $hint device 16777215 file 0 bytes 8192 label \"a\\x22\\x5c\\x09\\xc3\\xa4\"" out
# of each length one more, one less, and the header alone
for cut in -1 24 25 40 41 42; do
    head -c "$cut" life/heads/more.stm > life/heads/cut.stm
    run show life/heads/cut.stm
    wants "show-of $cut" 0 "$(python3 shown_by_python.py life/heads/cut.stm)" ''
done
is show-of-no-length grep -q ' bytes 2$' out
head -c 23 life/heads/more.stm > life/heads/short.stm
head -c 24 life/heads/full.stm > life/heads/headless.stm
head -c 29 life/heads/full.stm > life/heads/labelless.stm
for it in 8:3:version 9:17:exponent 0:0:magic; do
    python3 -c 'import sys; n, at, by = sys.argv[1:]; b = bytearray(open(n, "rb").read()); b[int(at)] = int(by); sys.stdout.buffer.write(b)' \
        life/heads/more.stm $(cut -d : -f 1,2 --output-delimiter ' ' <<< $it) > "life/heads/${it##*:}.stm"
done
mkfifo life/heads/fifo
bad_heads='failed life/heads/short.stm: header cut short
failed life/heads/headless.stm: header cut short
failed life/heads/labelless.stm: header cut short
failed life/heads/version.stm: unknown version
failed life/heads/exponent.stm: unknown chunk size
failed life/heads/magic.stm: not a sealed file
failed life/heads/more: not a sealed file
failed /dev/zero: cannot open
failed life/heads/fifo: cannot open
failed life/heads: cannot open
failed life/heads/none: cannot open
failed -: cannot open'
foreign=(life/heads/{short,headless,labelless,version,exponent,magic}.stm life/heads/more /dev/zero life/heads/fifo life/heads life/heads/none -)
timeout 20 "$sealer" show "${foreign[@]}" < /dev/null > out 2> err; status=$?
wants show-of-foreign-files 1 "$bad_heads" ''
# Causes of what can't be opened or read; a header that isn't one has none.
run show --verbose life/heads/{magic.stm,fifo,none} life/heads none/a
wants show-causes 1 'failed life/heads/magic.stm: not a sealed file
failed life/heads/fifo: cannot open
failed life/heads/none: cannot open
failed life/heads: cannot open
failed none/a: cannot open' 'cause: life/heads/fifo: it is no regular file
cause: life/heads/none: there is no such file
cause: life/heads: it is a folder
cause: none/a: the folder is missing'
run show --verbose --keep-going --files-from <(printf '\377\nlife\t\n')
wants show-causes-of-names 1 'failed \xff: cannot open
failed life\t: cannot open' 'list: line 1: not UTF-8: \xff
cause: \xff: its name is not UTF-8, or memory was refused
cause: life\t: there is no such file'
run show --verbose /proc/self/mem
wants show-cause-of-reading 1 'failed /proc/self/mem: read failed' 'cause: /proc/self/mem: the system reports an error'
printf 'life/heads/empty.stm\0life/heads/none\0' > names
run show --files-from - --null life/heads/machine.stm < names
wants show-a-list 1 "$(python3 shown_by_python.py life/heads/machine.stm life/heads/empty.stm)
failed life/heads/none: cannot open" ''
cp life/heads/empty.stm "$(printf 'life/heads/two\nlines.stm')"
run show --quote "$(printf 'life/heads/two\nlines.stm')"
wants show-a-quoted-name 0 "$(python3 shown_by_python.py life/heads/empty.stm | sed 's/empty\.stm/two\\nlines.stm/')" ''
printf 'life/heads/empty.stm\n\nlife/heads/\377\n' > names
run show --keep-going --files-from names
wants show-goes-on 1 "$(python3 shown_by_python.py life/heads/empty.stm)
failed : cannot open
failed life/heads/\\xff: cannot open" 'list: line 2: empty
list: line 3: not UTF-8: life/heads/\xff'
run show --files-from names
wants show-of-no-text 2 '' 'usage: the list is no text'
run show --files-from /dev/null
wants show-of-nothing 2 '' 'usage: no files'
run show
is show-without-files grep -q 'required arguments were not provided' err
"$sealer" show life/heads/empty.stm > /dev/full 2> err; status=$?; : > out
wants show-is-not-printed 2 '' 'show: write failed'

# A ledger that was put back is older than a container. Another machine's, and a key without a line, aren't its own.
held_there() { run ledger --ledger "$1"; cp out lines; }
held_there life/heads/l
run ledger --ledger life/heads/l --against "${all[@]}"
wants against-all-of-its-own 0 "$(cat lines)" ''
held_there life/heads/before
run ledger --ledger life/heads/before --against "${all[@]}"
wants against-a-later-one 1 "$(cat lines)
ledger: older than life/heads/late.stm" ''
held_there life/heads/after
run ledger --ledger life/heads/after --against "${all[@]}"
wants against-a-key-without-a-line 0 "$(cat lines)" ''
# the recipe of docs/MANUAL.md: found before a number is used twice, and what is sealed then shows no more of it
cp life/heads/before life/heads/l
rm -f life/heads/l-wal
printf '%s\n' "${all[@]}" > names
held_there life/heads/l
run ledger --ledger life/heads/l --against --files-from names
wants against-a-ledger-put-back 1 "$(cat lines)
ledger: older than life/heads/late.stm" ''
run ledger --ledger life/heads/l --against --files-from - life/heads/empty.stm < names
wants against-a-list-of-the-input 1 "$(cat lines)
ledger: older than life/heads/late.stm" ''
run ledger --verbose --ledger life/heads/l --against life/heads/late.stm life/heads/none
wants against-causes 1 "$(cat lines)
ledger: older than life/heads/late.stm
failed life/heads/none: cannot open" 'cause: life/heads/none: there is no such file'
timeout 20 "$sealer" ledger --ledger life/heads/l --against "${foreign[@]}" life/heads/late.stm < /dev/null > out 2> err; status=$?
wants against-foreign-files 1 "$(cat lines)
$bad_heads
ledger: older than life/heads/late.stm" ''
run ledger --ledger life/heads/l --against --quote "$(printf 'life/heads/two\nlines.stm')"
wants against-a-quoted-name 0 "$(cat lines)" ''
for _ in $(seq 5000); do echo life/heads/late.stm; echo life/heads/machine.stm; done > names
run ledger --ledger life/heads/l --against --files-from names
is against-ten-thousand test "$status $(grep -c '^ledger: older than life/heads/late.stm$' out) $(wc -l < out)" = "1 5000 $((5000 + $(wc -l < lines)))"
run ledger --ledger life/heads/l --key "$key" --against life/heads/late.stm
wants against-and-one-key 1 "$(grep "$hint" lines)
ledger: older than life/heads/late.stm" ''
run ledger --ledger life/held/l --key other-key
wants held-of-one-key 0 "key $other device 7 ranges 1 given 1 left 4294967295" ''
run ledger --ledger life/heads/machine --key other-key
wants held-of-no-range 0 "key $other no ranges" ''
run ledger --ledger life/heads/machine --key life/heads/late.stm
wants held-of-no-key 2 '' 'key: not a key file'
run ledger --ledger life/heads/machine --key life/heads/none
wants held-of-a-missing-key 2 '' 'key: cannot open'
run ledger --ledger life/heads/machine life/heads/late.stm
wants files-alone 2 '' 'usage: FILEs need --against'
run ledger --ledger life/heads/machine --files-from names
wants a-list-alone 2 '' 'usage: FILEs need --against'
run ledger --ledger life/heads/machine --against
wants against-nothing 2 '' 'usage: no files'
run ledger --ledger life/heads/none --against life/heads/late.stm
wants against-no-ledger 2 '' 'ledger: not there'

# A journal and the containers of its run: one deleted, one exchanged, one extra.
legal='legal: 2 granted, 2 sealed, 0 void, 0 open, 0 refused'
audits() { run audit --against "$@" < life/heads/first; }
audits life/heads/empty.stm life/heads/more.stm
wants audit-against-its-own 0 "$legal" ''
audits life/heads/more.stm life/heads/empty.stm life/heads/more.stm
wants audit-against-its-own-twice 0 "$legal" ''
audits life/heads/empty.stm
wants audit-one-deleted 1 "$legal
missing file 1" ''
audits life/heads/empty.stm life/heads/chunks.stm
wants audit-one-exchanged 1 "$legal
not sealed life/heads/chunks.stm
missing file 1" ''
audits life/heads/empty.stm life/heads/more.stm life/heads/full.stm life/heads/machine.stm
wants audit-two-extra 1 "$legal
not sealed life/heads/full.stm
not sealed life/heads/machine.stm" ''
timeout 20 "$sealer" audit --against life/heads/empty.stm life/heads/more.stm /dev/zero < life/heads/first > out 2> err; status=$?
wants audit-an-endless-one 1 "$legal
failed /dev/zero: cannot open" ''
printf 'range 1 0 3 2\n0 issue 0\n1 issue 1\n0 void 0\n1 sealed 1\n0 issue 2\n' > names
run audit --against life/heads/more.stm < names
wants audit-void-and-open 0 'legal: 3 granted, 1 sealed, 1 void, 1 open, 0 refused' ''
run audit --against life/heads/more.stm life/heads/empty.stm life/heads/chunks.stm < names
wants audit-void-and-open-are-not-sealed 1 'legal: 3 granted, 1 sealed, 1 void, 1 open, 0 refused
not sealed life/heads/empty.stm
not sealed life/heads/chunks.stm' ''
printf 'range 1 4294901761 65535 64\n' > names
for k in $(seq 4294901761 4294967295); do printf '63 issue %s\n63 sealed %s\n' $k $k; done >> names
run audit --against life/heads/more.stm < names
is audit-the-greatest-range test "$status $(wc -l < out) $(tail -n 1 out)" = '1 65537 missing file 4294967295'
run audit --against life/heads/more.stm < /dev/null
wants audit-against-no-journal 1 'malformed line 1' ''
run audit --verbose --against life/heads/none < life/heads/first
is audit-against-causes test "$status $(cat err)" = '1 cause: life/heads/none: there is no such file'
run audit --against --files-from - < life/heads/first
wants audit-no-input-left 2 '' 'usage: standard input is the journal'
run audit life/heads/more.stm < life/heads/first
wants audit-files-alone 2 '' 'usage: FILEs need --against'
run audit --against < life/heads/first
wants audit-against-nothing 2 '' 'usage: no files'

# Keys and usage of seal.
run seal --key none --ledger life/new --device 1 life/waits
wants seal-key-none 2 '' 'key: cannot open'
run seal --key bad-key --ledger life/new --device 1 life/waits
wants seal-key-bad 2 '' 'key: not a key file'
is the-key-comes-first no test -e life/new
seals --workers 2 --lanes 2 life/waits
wants lanes-and-workers 2 '' 'usage: lanes and workers cannot both be above 1'
seals --workers 2 --lanes 2 --label "$(printf 'x%.0s' $(seq 256))" life/waits
wants lanes-and-workers-come-before-the-label 2 '' 'usage: lanes and workers cannot both be above 1'
run seal --key none --ledger life/new --device 1 --label "$(printf 'x%.0s' $(seq 256))" life/waits
wants label-of-256-bytes 2 '' 'usage: label too long'
seals --exponent 12 --label "$(printf '\303\244%.0s' $(seq 128))" life/waits
wants label-of-256-bytes-in-128-letters 2 '' 'usage: label too long'
for value in 11 21 -1 x ''; do
    seals "--exponent=$value" life/waits
    wants "exponent $value" 2 '' "begins error: invalid value '$value' for '--exponent <N>'"
done
is no-ledger-of-a-fault-of-usage no test -e life/new
seals --workers 1 --lanes 17 life/waits
wants more-lanes-than-16 2 '' "begins error: invalid value '17' for '--lanes <N>'"
run seal --key "$key" --device 1 life/waits
wants no-ledger 2 '' 'begins error: the following required arguments were not provided:
  --ledger <F>'
run seal --key "$key" --ledger life/ledger life/waits
wants no-device 2 '' 'begins error: the following required arguments were not provided:
  --device <N>'
for value in 16777216 -1; do
    run seal --key "$key" --ledger life/ledger "--device=$value" life/waits
    wants "device $value" 2 '' "begins error: invalid value '$value' for '--device <N>'"
done
for value in 0 17; do
    seals "--lanes=$value" life/waits
    wants "lanes $value" 2 '' "begins error: invalid value '$value' for '--lanes <N>'"
done
for value in 0 257 x; do
    seals "--window=$value" life/waits
    wants "window $value" 2 '' "begins error: invalid value '$value' for '--window <N>'"
done
seals
wants seal-no-file 2 '' 'begins error: the following required arguments were not provided:
  <FILE>...'
run seal --key "$key" --ledger life/ledger --device 16777215 -- life/waits
wants greatest-device 0 'sealed life/waits file 0 bytes 1492' ''
# Limits as people write them, and as many workers or lanes as there are processors.
mkdir life/limits
for name in a b c d; do cp numbers.plain life/limits/$name; done
limited() { run seal --key "$key" --ledger life/limits/ledger --device 1 "$@"; }
limited --max-bytes 2T life/limits/a
wants limits-2T 2 '' "begins error: invalid value '2199023255552' for '--max-bytes <N>': 2199023255552 is not in 0..=1099511627776"
is limits-2T-seals-nothing no test -e life/limits/ledger
limited --max-bytes 1T --workers auto life/limits/a
wants limits-1T 0 'sealed life/limits/a file 0 bytes 1492' ''
limited --max-bytes=max --lanes=auto life/limits/b life/limits/c
unnumbered
wants limits-max 0 'sealed life/limits/b bytes 1492
sealed life/limits/c bytes 1492' ''
limited --max-bytes 1K --lanes auto life/limits/d
wants limits-1K 1 'failed life/limits/d: too long' ''
# On one processor both are 1.
first=$(taskset -cp $$ | sed 's/.*: \([0-9]*\).*/\1/')
taskset -c "$first" "$sealer" seal --key "$key" --ledger life/limits/ledger --device 2 --lanes auto --workers auto life/limits/d > out 2> err; status=$?
wants limits-of-one-processor 0 'sealed life/limits/d file 0 bytes 1492' ''
rm life/limits/*.stm
for words in '--max-chunks max' '--max-chunks=64K' '--max-chunks 1K --exponent 12 --workers auto'; do
    "$sealer" pipe --key "$key" --ledger life/limits/ledger --device 3 $words < life/more > life/limits/stream.stm 2> err; status=$?; : > out
    unnumbered_line=$(sed 's/ file [0-9]* bytes / bytes /' err)
    is "limits of a stream, $words" test "$status $unnumbered_line" = "0 sealed - bytes $(wc -c < life/more)"
done
run pipe --key "$key" --ledger life/limits/ledger --device 3 --max-chunks 0K < numbers.plain
wants limits-0K-of-a-stream 2 '' "begins error: invalid value '0' for '--max-chunks <N>': 0 is not in 1..=4294967295"
run pipe --key "$key" --ledger life/limits/ledger --device 3 --max-chunks 4G < numbers.plain
wants limits-4G-of-a-stream 2 '' "begins error: invalid value '4294967296' for '--max-chunks <N>': 4294967296 is not in 1..=4294967295"

# Version 2: chunk sizes and labels. The bytes are those of tools/seal_container.py, which knows docs/FORMATS.md alone.
mkdir life/shapes
: > life/shapes/empty
head -c 8193 life/more > life/shapes/chunks
cp life/more life/shapes/more
shapes=0
shaped() { # LENGTH FILE OPTIONS.. [-- OPTIONS..]: seals it, opens it again; the options before -- say the shape
    local length=$1 name=life/shapes/$2 size shape=()
    shift 2
    while [ $# -gt 0 ] && [ "$1" != -- ]; do shape+=("$1"); shift; done
    [ $# = 0 ] || shift
    size=$(wc -c < "$name")
    run seal --key "$key" --ledger life/shapes/ledger --device 1 "${shape[@]}" "$@" "$name"
    wants "${shape[*]} $*" 0 "sealed $name file $shapes bytes $size" ''
    is "length-of ${shape[*]}" test "$(wc -c < "$name.stm")" = "$length"
    if has cryptography; then
        python3 "$here/tools/seal_container.py" "${shape[@]}" "$key" 1 "$shapes" "$name" theirs.stm
        is "bytes-of ${shape[*]} $*" cmp -s "$name.stm" theirs.stm
    fi
    mv "$name" life/shapes/kept
    for workers in 1 3; do
        run verify --key "$key" --workers $workers "$name.stm"
        wants "verify ${shape[*]}" 0 "good $name.stm bytes $size" ''
        run open --key "$key" --workers $workers "$name.stm"
        wants "open ${shape[*]}" 0 "opened $name.stm bytes $size" ''
        is "plaintext-of ${shape[*]}" cmp -s "$name" life/shapes/kept
        rm -f "$name"
    done
    mv life/shapes/kept "$name"
    rm -f "$name.stm"
    shapes=$((shapes + 1))
}
# Lengths by hand: 24 or 25 and the label, the plaintext, and 16 for each chunk.
shaped 43 empty --exponent 12 --label ab
shaped 41 empty --label ''
shaped 296 empty --exponent 20 --label "$(printf 'x%.0s' $(seq 255))"
shaped 295 empty --label "$(printf '\303\244%.0s' $(seq 127))"
shaped 40 empty
shaped 8266 chunks --exponent 12
shaped 350304 more --exponent 12 --label 'two words' -- --workers 4
shaped 349030 more --label 'db-dump 2026-11' -- --window 2
shaped 349030 more --exponent 16 --label 'db-dump 2026-11' -- --lanes 2
shaped 348935 more --exponent 20 -- --workers 2 --window 256
shaped 350330 more --exponent 12 --label 'of one group, sealed by 2 lanes, ..' -- --lanes 2
# A label that is asked for, and what a header says.
run seal --key "$key" --ledger life/shapes/ledger --device 3 --exponent 12 --label 'a"b' life/shapes/empty
wants label-to-ask 0 'sealed life/shapes/empty file 0 bytes 0' ''
mv life/shapes/empty life/shapes/plain
run open --key "$key" --label 'a' life/shapes/empty.stm
wants another-label 1 'failed life/shapes/empty.stm: another label' ''
is no-output-at-another-label test ! -e life/shapes/empty
run verify --key "$key" --label '' files/numbers.stm
wants label-of-version-1 1 'failed files/numbers.stm: another label' ''
run verify --key "$key" --show --label 'a"b' life/shapes/empty.stm
wants show-label 0 'good life/shapes/empty.stm bytes 0
  version 2 chunk 4096 device 3 file 0 label "a\x22b"' ''
run open --key "$key" --label 'a"b' life/shapes/empty.stm
wants right-label 0 'opened life/shapes/empty.stm bytes 0' ''
for command in verify open; do
    run $command --key none --label "$(printf 'x%.0s' $(seq 256))" life/shapes/empty.stm
    wants "$command-label-too-long" 2 '' 'usage: label too long'
done
rm -f life/shapes/empty.stm life/shapes/plain
# A label that was changed, its length, and another chunk size: see docs/FORMATS.md.
run seal --key "$key" --ledger life/shapes/ledger --device 2 --exponent 12 --label ab life/shapes/empty
wants shape-to-change 0 'sealed life/shapes/empty file 0 bytes 0' ''
reshaped() { cp life/shapes/empty.stm "life/shapes/$1"; printf "$3" | dd of="life/shapes/$1" bs=1 seek="$2" conv=notrunc 2>/dev/null; }
reshaped label 25 b
reshaped shorter 24 '\001'
reshaped longer 24 '\003'
reshaped longest 24 '\377'
reshaped exponent 9 '\013'
reshaped first 8 '\001'
reshaped third 8 '\003'
(cd life/shapes && exec "$sealer" verify --key "$key" empty.stm label shorter longer longest exponent first third) > out 2> err
status=$?
wants reshaped 1 'good empty.stm bytes 0
failed label: chunk 0 does not check
failed shorter: chunk 0 does not check
failed longer: wrong length
failed longest: header cut short
failed exponent: unknown chunk size
failed first: unknown chunk size
failed third: unknown version' ''
run verify --key "$key" --max-bytes 0 life/shapes/empty.stm
wants the-limit-of-version-2 0 'good life/shapes/empty.stm bytes 0' ''

# Several lanes: a line for each file in order, whichever lane gets which number; a file that fails spends none.
mkdir life/lanes
names=
for i in 1 2 3 4 5 6 7 8 9; do
    seq 1 "$((i * 1000))" > "life/lanes/$i"
    names="$names life/lanes/$i"
done
by_lanes() { run seal --key "$key" --ledger life/ledger --device 9 --lanes "$@"; } # LANES ARGS..
by_lanes 4 --journal life/lanes/journal $names life/lanes/none
is lanes-numbers test "$(sed -n 's/^sealed .* file \([0-9]*\) bytes .*/\1/p' out | sort -n | tr '\n' ' ')" = '0 1 2 3 4 5 6 7 8 '
unnumbered
wants lanes 1 "$(for i in 1 2 3 4 5 6 7 8 9; do echo "sealed life/lanes/$i bytes $(wc -c < "life/lanes/$i")"; done)
failed life/lanes/none: cannot open" ''
is lanes-terms test "$(head -1 life/lanes/journal)" = 'range 9 0 10 4'
# For each file a number is issued once.
is lanes-issue-each test "$(grep -c ' issue [0-9]' life/lanes/journal)" = 9
run audit < life/lanes/journal
wants lanes-journal 0 'legal: 9 granted, 9 sealed, 0 void, 0 open, 0 refused' ''
for i in 1 2 3 4 5 6 7 8 9; do
    mv "life/lanes/$i" "life/lanes/$i.plain"
    run open --key "$key" "life/lanes/$i.stm"
    is "lane-opens-$i" cmp -s "life/lanes/$i" "life/lanes/$i.plain"
done
# Two files that are worth a lane each, and a third that follows: each has a number of its own.
head -c 300000 /dev/zero | tr '\0' x > life/lanes/x
head -c 300000 /dev/zero | tr '\0' y > life/lanes/y
printf 333 > life/lanes/z
run seal --key "$key" --ledger life/lanes/ledger --device 1 --lanes 2 --journal life/lanes/two life/lanes/x life/lanes/y life/lanes/z
is two-lanes-numbers test "$(sed -n 's/.* file \([01]\) bytes 300000$/\1/p' out | sort | tr '\n' ' ')$(tail -n 1 out)" = \
    '0 1 sealed life/lanes/z file 2 bytes 3'
unnumbered
wants two-lanes 0 'sealed life/lanes/x bytes 300000
sealed life/lanes/y bytes 300000
sealed life/lanes/z bytes 3' ''
is two-lanes-terms test "$(head -n 1 life/lanes/two)" = 'range 1 0 3 2'
run audit < life/lanes/two
wants two-lanes-journal 0 'legal: 3 granted, 3 sealed, 0 void, 0 open, 0 refused' ''
for name in x y z; do
    mv "life/lanes/$name" "life/lanes/$name.plain"
    run open --key "$key" "life/lanes/$name.stm"
    is "two-lanes-open-$name" cmp -s "life/lanes/$name" "life/lanes/$name.plain"
done
by_lanes 16 --max-bytes 3893 life/lanes/1 life/lanes/2.plain life/lanes/1.plain
wants lanes-again 1 'failed life/lanes/1: output exists
failed life/lanes/2.plain: too long
sealed life/lanes/1.plain file 10 bytes 3893' ''
is lanes-no-output no test -e life/lanes/2.plain.stm
# A FILE that is the output of another: one lane seals the finished container, two lanes don't find it.
cp life/numbers life/lanes/a
cp life/numbers life/lanes/b
by_lanes 1 life/lanes/a life/lanes/a.stm
unnumbered
wants one-lane-of-an-output 0 'sealed life/lanes/a bytes 1492
sealed life/lanes/a.stm bytes 1532' ''
by_lanes 2 life/lanes/b life/lanes/b.stm
unnumbered
wants lanes-of-an-output 1 'sealed life/lanes/b bytes 1492
failed life/lanes/b.stm: cannot open' ''
run verify --key "$key" life/lanes/b.stm
wants lanes-verify-an-output 0 'good life/lanes/b.stm bytes 1492' ''
# What fails in a group: inputs, outputs, standard output.
by_lanes 3 --max-bytes 1491 life/folder life/mem life/zero life/numbers.plain /proc/version
wants lanes-faults 1 'failed life/folder: cannot open
failed life/mem: read failed
failed life/zero: too long
failed life/numbers.plain: too long
failed /proc/version: cannot create' ''
is lanes-faults-leave-none test ! -e life/mem.stm -a ! -e life/zero.stm -a ! -e life/numbers.plain.stm
: > life/lanes/empty
(trap '' XFSZ; ulimit -f 64; exec "$sealer" seal --key "$key" --ledger life/ledger --device 9 --lanes 3 --journal life/lanes/void life/large life/lanes/empty) > out 2> err
status=$?
unnumbered
wants lanes-write-fails 1 'failed life/large: write failed
sealed life/lanes/empty bytes 0' ''
is lanes-cut-container no test -e life/large.stm
run audit < life/lanes/void
wants lanes-void 0 'legal: 2 granted, 1 sealed, 1 void, 0 open, 0 refused' ''
for i in 1 2 3 4; do echo "$i" > "life/lanes/u$i"; done
untold='life/lanes/u1 life/lanes/u2 life/lanes/none life/lanes/u3 life/lanes/u4'
all_good=$(printf 'good life/lanes/u%s.stm bytes 2\n' 1 2 3 4)
"$sealer" seal --key "$key" --ledger life/ledger --device 9 --lanes 3 --journal life/lanes/full $untold > /dev/full 2> err; status=$?; : > out
wants lanes-full 2 '' ''
run audit < life/lanes/full
wants lanes-full-journal 0 'legal: 4 granted, 4 sealed, 0 void, 0 open, 0 refused' ''
run verify --key "$key" life/lanes/u?.stm
wants lanes-full-sealed 0 "$all_good" ''
rm life/lanes/u?.stm
"$sealer" seal --key "$key" --ledger life/ledger --device 9 --lanes 3 $untold 2> err >&-; status=$?; : > out
wants lanes-closed 2 '' ''
run verify --key "$key" life/lanes/u?.stm
wants lanes-closed-sealed 0 "$all_good" ''

# Streams: the container goes to standard output, here to life/stream/out, and the line to standard error. More of them are in
# tools/pipe_runs.py.
mkdir life/stream
piped() { # ARGS.., standard input as given
    "$sealer" pipe --key "$key" --ledger life/stream/ledger --device 6 "$@" > life/stream/out 2> err
    status=$?
    : > out
}
streamed() { # NAME NUMBER FILE OPTIONS..: life/stream/out is the container of FILE under this number
    if has cryptography; then
        python3 "$here/tools/seal_container.py" "${@:4}" "$key" 6 "$2" "$3" theirs.stm
        is "$1-container" cmp -s life/stream/out theirs.stm
    fi
}
opens() { # NAME FILE: it opens to FILE
    cp life/stream/out life/stream/it.stm
    run open --key "$key" life/stream/it.stm
    wants "$1-opens" 0 "opened life/stream/it.stm bytes $(wc -c < "$2")" ''
    is "$1-plaintext" cmp -s life/stream/it "$2"
    rm -f life/stream/it
}
journaled() { # NAME VERDICT FIRST-LINE: the run's journal, which is removed
    is "$1-terms" test "$(head -n 1 life/stream/journal)" = "$3"
    run audit < life/stream/journal
    wants "$1-journal" 0 "$2" ''
    rm -f life/stream/journal
}
whole='legal: 1 granted, 1 sealed, 0 void, 0 open, 0 refused'
void='legal: 1 granted, 0 sealed, 1 void, 0 open, 0 refused'
piped --no-new-ledger < numbers.plain
wants stream-without-ledger 2 '' 'ledger: not there'
is stream-without-ledger-writes-nothing test ! -s life/stream/out -a ! -e life/stream/ledger
piped --journal life/stream/journal < numbers.plain
wants stream 0 '' 'sealed - file 0 bytes 1492'
streamed stream 0 numbers.plain
opens stream numbers.plain
journaled stream "$whole" 'range 6 0 1 1'
# seal and pipe go on one after the other in one ledger.
cp numbers.plain life/stream/file
run seal --key "$key" --ledger life/stream/ledger --device 6 life/stream/file
wants seal-after-a-stream 0 'sealed life/stream/file file 1 bytes 1492' ''
piped --no-new-ledger --workers 4 --depth 2 --exponent 12 --label 'a stream' < life/more
wants stream-after-a-seal 0 '' "sealed - file 2 bytes $(wc -c < life/more)"
streamed stream-after-a-seal 2 life/more --exponent 12 --label 'a stream'
opens stream-after-a-seal life/more
cp life/stream/out life/stream/shown.stm
run verify --key "$key" --show --label 'a stream' life/stream/shown.stm
wants stream-shown 0 "good life/stream/shown.stm bytes $(wc -c < life/more)
  version 2 chunk 4096 device 6 file 2 label \"a stream\"" ''
piped < /dev/null
wants no-stream 0 '' 'sealed - file 3 bytes 0'
streamed no-stream 3 /dev/null
# What fails: the stream, its output. The number is given up, and what was written begins a container.
piped --journal life/stream/journal <&-
wants stream-closed 1 '' 'failed -: read failed'
is stream-closed-header test "$(wc -c < life/stream/out)" = 24
journaled stream-closed "$void" 'range 6 4 1 1'
piped < life
wants stream-of-a-folder 1 '' 'failed -: read failed'
piped --max-chunks 5 --workers 2 --journal life/stream/journal < life/more
wants stream-too-long 1 '' 'failed -: too many chunks'
journaled stream-too-long "$void" 'range 6 6 1 1'
cp life/stream/out life/stream/cut.stm
run verify --key "$key" life/stream/cut.stm
is stream-cut-fails test "$status $(head -c 28 out)" = '1 failed life/stream/cut.stm: '
"$sealer" pipe --key "$key" --ledger life/stream/ledger --device 6 --journal life/stream/journal < life/more 2> err >&-; status=$?; : > out
wants stream-to-nothing 1 '' 'failed -: write failed'
journaled stream-to-nothing "$void" 'range 6 7 1 1'
"$sealer" pipe --key "$key" --ledger life/stream/ledger --device 6 --journal life/stream/journal < /dev/null 2> err > /dev/full; status=$?; : > out
wants stream-to-a-full-disk 1 '' 'failed -: write failed'
journaled stream-to-a-full-disk "$void" 'range 6 8 1 1'
# What fails: its line. The container is whole, and so is the journal.
number=9
for untold in 'closed >&-' 'full > /dev/full'; do
    eval "\"\$sealer\" pipe --key \"\$key\" --ledger life/stream/ledger --device 6 --journal life/stream/journal < numbers.plain > life/stream/out 2${untold#* }"
    status=$?
    : > out
    : > err
    wants "stream-line-${untold%% *}" 2 '' ''
    streamed "stream-line-${untold%% *}" $number numbers.plain
    journaled "stream-line-${untold%% *}" "$whole" "range 6 $number 1 1"
    number=$((number + 1))
done
# A read that fails midway: what was written begins the container.
if command -v strace >/dev/null; then
    strace -f -qq -o /dev/null -P "$PWD/life/more" -e trace=read -e inject=read:error=EIO:when=3 \
        "$sealer" pipe --key "$key" --ledger life/stream/other --device 6 --journal life/stream/journal < life/more > life/stream/out 2> err; status=$?; : > out
    wants stream-read-midway 1 '' 'failed -: read failed'
    journaled stream-read-midway "$void" 'range 6 0 1 1'
    if has cryptography; then
        python3 "$here/tools/seal_container.py" "$key" 6 0 life/more theirs.stm
        written=$(stat -c %s life/stream/out)
        is stream-read-midway-begins test "$written" -ge 24 -a "$written" -lt "$(stat -c %s theirs.stm)"
        is stream-read-midway-container cmp -s life/stream/out <(head -c "$written" theirs.stm)
    fi
fi
# What fails before anything is reserved.
piped --key life/none < numbers.plain
wants stream-key-twice 2 '' "begins error: the argument '--key <F>' cannot be used multiple times"
"$sealer" pipe --key life/none --ledger life/stream/ledger --device 6 < numbers.plain > life/stream/out 2> err; status=$?
wants stream-key 2 '' 'key: cannot open'
: > life/stream/journal
piped --journal life/stream/journal < numbers.plain
wants stream-journal-exists 2 '' 'journal: output exists'
rm life/stream/journal
rm -f life/stream/ledger-wal
piped --journal life/stream/ledger-wal < numbers.plain
wants stream-journal-at-the-log 2 '' 'journal: cannot create'
piped --journal life/no/journal < numbers.plain
wants stream-journal-nowhere 2 '' 'journal: cannot create'
"$sealer" pipe --key "$key" --ledger life/text --device 6 < numbers.plain > life/stream/out 2> err; status=$?
wants stream-no-database 2 '' 'ledger: cannot open'
is stream-no-database-writes-nothing test ! -s life/stream/out
run pipe --key "$key" --ledger life/stream/ledger < numbers.plain
wants stream-no-device 2 '' 'begins error: the following required arguments were not provided:
  --device <N>'
piped life/numbers < numbers.plain
wants stream-of-a-file 2 '' "begins error: unexpected argument 'life/numbers' found"
piped --max-bytes 9 < numbers.plain
wants stream-max-bytes 2 '' "begins error: unexpected argument '--max-bytes' found"
piped --force-terminal < numbers.plain
wants stream-next 0 '' "sealed - file $number bytes 1492"
if has sqlite3; then
    cp life/stream/ledger life/stream/spent
    sqlite3 life/stream/spent "DELETE FROM taken; DELETE FROM mark; INSERT INTO mark VALUES (X'$key_id', 6, 4294967295); INSERT INTO taken VALUES (X'$key_id', 6, 0, 4294967295)"
    for want in "0:sealed - file 4294967295 bytes 1492" '2:ledger: 0 numbers left'; do
        "$sealer" pipe --key "$key" --ledger life/stream/spent --device 6 < numbers.plain > life/stream/out 2> err; status=$?
        wants "stream-spent-${want%%:*}" "${want%%:*}" '' "${want#*:}"
    done
    is stream-spent-writes-nothing test ! -s life/stream/out
fi

# Streams that are opened: the plaintext goes to standard output, here to files/plain, and the line to standard error. More of them are in
# tools/altered_containers.py.
fresh
mkdir files/spool
unpiped() { # ARGS.., standard input as given
    "$sealer" unpipe --key "$key" "$@" > files/plain 2> err
    status=$?
    : > out
}
unpipes() { # NAME LINE FILE: the last run wrote all of FILE
    wants "$1" 0 '' "$2"
    is "$1-plaintext" cmp -s files/plain "$3"
}
refuses() { # NAME LINE: the last run wrote nothing
    wants "$1" 1 '' "$2"
    is "$1-writes-nothing" test ! -s files/plain
}
unpiped < <(cat files/numbers.stm)
unpipes unpipe 'opened - bytes 1492' numbers.plain
unpiped < files/numbers.stm
unpipes unpipe-a-file-as-input 'opened - bytes 1492' numbers.plain
unpiped - < <(cat files/numbers.stm)
unpipes unpipe-a-dash 'opened - bytes 1492' numbers.plain
# a pipe that nobody writes to any more, which can't be opened by its path
{ sleep 0.3; timeout 60 "$sealer" unpipe --key "$key" > files/plain 2> err; status=$?; } < <(cat files/numbers.stm); : > out
unpipes unpipe-a-pipe-that-ended 'opened - bytes 1492' numbers.plain
unpiped files/numbers.stm < /dev/null
unpipes unpipe-a-file 'opened files/numbers.stm bytes 1492' numbers.plain
cp files/numbers.stm files/any-name
unpiped files/any-name
unpipes unpipe-any-name 'opened files/any-name bytes 1492' numbers.plain
cp files/numbers.stm ./-
unpiped ./- < /dev/null
unpipes unpipe-a-file-of-that-name 'opened ./- bytes 1492' numbers.plain
rm ./-
mkfifo files/fifo
timeout 60 cp files/numbers.stm files/fifo & unpiped files/fifo
wait
unpipes unpipe-a-fifo 'opened files/fifo bytes 1492' numbers.plain
run open --key "$key" files/numbers.stm
is unpipe-agrees-with-open cmp -s files/numbers files/plain
# Longer ones, with labels: one of many chunks, and one of large chunks.
cp life/more files/more
run seal --key "$key" --ledger files/ledger --device 1 --exponent 12 --label 'a stream' files/more
wants unpipe-sealed 0 'sealed files/more file 0 bytes 348894' ''
for words in '--workers 1' '--workers 4' '--workers auto' '--max-bytes 348894' '--force-terminal'; do
    for label in '' '--label=a stream'; do
        # shellcheck disable=SC2086
        unpiped $words ${label:+"$label"} < <(cat files/more.stm)
        unpipes "unpipe $words $label" 'opened - bytes 348894' files/more
        # shellcheck disable=SC2086
        unpiped $words ${label:+"$label"} files/more.stm
        unpipes "unpipe-a-file $words $label" 'opened files/more.stm bytes 348894' files/more
    done
done
for label in '' 'a strea' 'a stream ' 'A stream'; do
    unpiped "--label=$label" < <(cat files/more.stm)
    refuses "unpipe-another-label '$label'" 'failed -: another label'
    unpiped "--label=$label" files/more.stm
    refuses "unpipe-a-file-of-another-label '$label'" 'failed files/more.stm: another label'
done
unpiped --label '' < <(cat files/numbers.stm)
refuses unpipe-label-of-version-1 'failed -: another label'
for most in 0 348893; do
    unpiped --max-bytes $most < <(cat files/more.stm)
    refuses "unpipe-max-bytes $most" 'failed -: too long'
    unpiped --max-bytes $most files/more.stm
    refuses "unpipe-max-bytes-of-a-file $most" 'failed files/more.stm: too long'
done
unpiped --max-bytes 0 /dev/zero
refuses unpipe-without-end 'failed /dev/zero: too long'
# Streams that are cut, and a byte that is changed in the first chunk, a later one and the last: from a pipe, and from a file.
wrong() { # NAME FAULT: files/wrong isn't opened
    unpiped --workers 2 < <(cat files/wrong)
    refuses "unpipe $1" "failed -: $2"
    unpiped --workers 2 files/wrong
    refuses "unpipe-a-file $1" "failed files/wrong: $2"
}
# 33 bytes of header, and 86 chunks
for at in 0 23 32; do head -c $at files/more.stm > files/wrong; wrong "cut-to-$at" 'header cut short'; done
for at in 33 48; do head -c $at files/more.stm > files/wrong; wrong "cut-to-$at" 'wrong length'; done
head -c $((33 + 40 * 4112)) files/more.stm > files/wrong
wrong cut-to-40-chunks 'chunk 39 does not check'
head -c -1 files/more.stm > files/wrong
wrong cut-by-a-byte 'chunk 85 does not check'
cat files/more.stm files/more.stm > files/wrong
wrong twice 'chunk 85 does not check'
for at in 33 $((33 + 40 * 4112)) $(($(wc -c < files/more.stm) - 1)); do
    cp files/more.stm files/wrong
    # no byte that is there
    tail -c +$((at + 1)) files/more.stm | head -c 1 | tr '\000-\377' '\001-\377\000' | dd of=files/wrong bs=1 seek=$at conv=notrunc status=none
    wrong "changed-at-$at" "chunk $(((at - 33) / 4112)) does not check"
done
printf '00%.0s' $(seq 32) > files/other-key
"$sealer" unpipe --key files/other-key < files/more.stm > files/plain 2> err; status=$?; : > out
refuses unpipe-another-key 'failed -: sealed under another key'
# What can't be read, and a key that can't.
unpiped files/none
refuses unpipe-none 'failed files/none: cannot open'
unpiped files
refuses unpipe-a-folder 'failed files: cannot open'
unpiped ''
refuses unpipe-no-name 'failed : cannot open'
unpiped /proc/self/mem
refuses unpipe-unreadable 'failed /proc/self/mem: read failed'
unpiped < files
refuses unpipe-a-folder-as-input 'failed -: read failed'
unpiped <&-
refuses unpipe-closed-input 'failed -: read failed'
run unpipe --key none < files/more.stm
wants unpipe-no-key 2 '' 'key: cannot open'
run unpipe --key files/more.stm < files/more.stm
wants unpipe-bad-key 2 '' 'key: not a key file'
run unpipe < files/more.stm
wants unpipe-without-a-key 2 '' 'begins error: the following required arguments were not provided:
  --key <F>'
run unpipe --key "$key" files/more.stm files/numbers.stm
wants unpipe-two 2 '' "begins error: unexpected argument 'files/numbers.stm' found"
run unpipe --key none --label "$(printf 'x%.0s' $(seq 256))" files/more.stm
wants unpipe-label-too-long 2 '' 'usage: label too long'
for option in --into=files --sync --private --skip-existing --files-from=none --to=none --show --ledger=none; do
    run unpipe --key "$key" $option files/more.stm
    wants "unpipe $option" 2 '' "begins error: unexpected argument '${option%=*}' found"
done
# What can't be written: the plaintext, and its line.
for input in - files/more.stm; do
    "$sealer" unpipe --key "$key" $input < files/more.stm > /dev/full 2> err; status=$?; : > out
    wants "unpipe-to-a-full-disk $input" 1 '' "failed $input: write failed"
    "$sealer" unpipe --key "$key" $input < files/more.stm 2> err >&-; status=$?; : > out
    wants "unpipe-to-nothing $input" 1 '' "failed $input: write failed"
    { "$sealer" unpipe --key "$key" $input < files/more.stm 2> err; echo $? > status; } | head -c 10 > files/plain
    status=$(cat status)
    wants "unpipe-to-a-reader-that-ends $input" 1 '' "failed $input: write failed"
    is "unpipe-to-a-reader-that-ends-begins $input" cmp -s files/plain <(head -c 10 files/more)
    (trap '' XFSZ; ulimit -f 100; exec "$sealer" unpipe --key "$key" $input < files/more.stm > files/plain) 2> err; status=$?; : > out
    wants "unpipe-to-a-file-that-ends $input" 1 '' "failed $input: write failed"
    is "unpipe-to-a-file-that-ends-begins $input" cmp -s files/plain <(head -c 102400 files/more)
    for untold in '>&-' '> /dev/full'; do
        eval "\"\$sealer\" unpipe --key \"\$key\" $input < files/more.stm > files/plain 2$untold"
        status=$?
        : > out
        : > err
        wants "unpipe-untold $input $untold" 2 '' ''
        is "unpipe-untold-is-whole $input $untold" cmp -s files/plain files/more
    done
    "$sealer" unpipe --key "$key" --label none $input < files/more.stm > files/plain 2> /dev/full; status=$?; : > out
    : > err
    wants "unpipe-untold-refusal $input" 2 '' ''
    is "unpipe-untold-writes-nothing $input" test ! -s files/plain
done
# A terminal gets no plaintext that it wasn't asked for.
cat > to_terminal.py <<'END'
import os, pty, subprocess, sys, threading
main, other = pty.openpty()
run = subprocess.Popen(sys.argv[1:], stdin=open("files/numbers.stm"), stdout=other, stderr=subprocess.PIPE)
text = []
def read():
    try:
        while more := os.read(main, 65536):
            text.append(more)
    except OSError:
        pass
reader = threading.Thread(target=read)
reader.start()
told = run.communicate()[1]
os.close(other)
reader.join()
shown = b"".join(text).replace(b"\r\n", b"\n")
print(run.returncode, told.decode().strip(), shown == open("numbers.plain", "rb").read() or len(shown), sep=";")
END
is unpipe-to-a-terminal test "$(python3 to_terminal.py "$sealer" unpipe --key own-key)" = '2;usage: standard output is a terminal;0'
is unpipe-a-file-to-a-terminal test "$(python3 to_terminal.py "$sealer" unpipe --key none files/numbers.stm)" = '2;usage: standard output is a terminal;0'
is unpipe-to-a-terminal-if-asked test "$(python3 to_terminal.py "$sealer" unpipe --key own-key --force-terminal)" = '0;opened - bytes 1492;True'
is unpipe-help-on-a-terminal test "$(python3 to_terminal.py "$sealer" unpipe --help | cut -c 1-2)" = '0;'

# `--to` names the output of one FILE, which may have any name. `-` is standard input.
cp files/more.stm files/any-name
for words in '--workers 1' '--workers 4 --private --sync'; do
    for input in files/more.stm files/any-name ./files/more.stm; do
        # shellcheck disable=SC2086
        run open --key "$key" $words --to files/named "$input" < /dev/null
        wants "open-to $words $input" 0 "opened $input bytes 348894" ''
        is "open-to-plaintext $words $input" cmp -s files/named files/more
        rm files/named
    done
    # shellcheck disable=SC2086
    run open --key "$key" $words --to files/named - < files/more.stm
    wants "open-a-file-as-input $words" 0 'opened - bytes 348894' ''
    is "open-a-file-as-input-plaintext $words" cmp -s files/named files/more
    rm files/named
    # shellcheck disable=SC2086
    run open --key "$key" $words --to files/named - < <(cat files/more.stm)
    wants "open-input $words" 0 'opened - bytes 348894' ''
    is "open-input-plaintext $words" cmp -s files/named files/more
    # shellcheck disable=SC2086
    run open --key "$key" $words --to files/named - < <(cat files/more.stm)
    wants "open-input-to-what-is-there $words" 1 'failed -: output exists' ''
    run open --key "$key" $words --to files/named files/more.stm
    wants "open-to-what-is-there $words" 1 'failed files/more.stm: output exists' ''
    rm files/named
    # shellcheck disable=SC2086
    run verify --key "$key" ${words%%--p*} - < <(cat files/more.stm)
    wants "verify-input $words" 0 'good - bytes 348894' ''
done
run open --key "$key" --private --to files/named files/more.stm
is open-to-private test "$status $(stat -c %a files/named)" = '0 600'
rm files/named
run verify --key "$key" --label none files/more.stm - files/more.stm < files/numbers.stm
wants verify-input-of-another-label 1 'failed files/more.stm: another label
failed -: another label
failed files/more.stm: another label' ''
for words in '- -' '- files/more.stm -' '--files-from files/twice' '--files-from files/once -'; do
    printf '%s\n' - ./- - > files/twice
    echo - > files/once
    # shellcheck disable=SC2086
    run verify --key none $words < files/numbers.stm
    wants "verify-input-twice $words" 2 '' 'usage: standard input can be read only once'
done
rm files/twice files/once
head -c -1 files/more.stm > files/wrong
for input in files/wrong -; do
    run open --key "$key" --to files/named "$input" < files/wrong
    wants "open-to-of-a-cut $input" 1 "failed $input: chunk 85 does not check" ''
    is "open-to-of-a-cut-makes-nothing $input" test ! -e files/named
done
for input in files/more.stm -; do
    run open --key "$key" --max-bytes 348893 --to files/named "$input" < files/more.stm
    wants "open-to-max-bytes $input" 1 "failed $input: too long" ''
done
# The same of a pipe, which can't be read again.
for workers in 1 4; do
    run open --key "$key" --workers $workers --to files/named - < <(cat files/wrong)
    wants "open-pipe-of-a-cut $workers" 1 'failed -: chunk 85 does not check' ''
    run open --key "$key" --workers $workers --label none --to files/named - < <(cat files/more.stm)
    wants "open-pipe-of-another-label $workers" 1 'failed -: another label' ''
    run open --key "$key" --workers $workers --max-bytes 348893 --to files/named - < <(cat files/more.stm)
    wants "open-pipe-too-long $workers" 1 'failed -: too long' ''
    is "open-pipe-makes-nothing $workers" test ! -e files/named
done
run open --key "$key" --to files/named - <&-
wants open-closed-input 1 'failed -: read failed' ''
run verify --key "$key" - < files
wants verify-a-folder-as-input 1 'failed -: read failed' ''
run open --key "$key" --to files files/more.stm
wants open-to-a-folder 1 'failed files/more.stm: output exists' ''
run open --key "$key" --to none/named files/more.stm
wants open-to-no-folder 1 'failed files/more.stm: cannot create' ''
run open --key "$key" --to files/more.stm files/more.stm
wants open-to-itself 1 'failed files/more.stm: output exists' ''
for input in - files/none; do
    run open --key "$key" --to files/named files/more.stm "$input"
    wants "open-two-to $input" 2 '' 'usage: --to takes one file'
done
for name in '' -; do
    run open --key "$key" "--to=$name" files/more.stm
    wants "open-to-no-file '$name'" 2 '' 'usage: --to names no file'
done
for option in --into=files --skip-existing --files-from=/dev/null; do
    run open --key "$key" --to files/named $option files/more.stm
    wants "open-to $option" 2 '' 'usage: --to excludes --into, --skip-existing and --files-from'
done
for words in - 'files/more.stm -' '--into files -' '--skip-existing -'; do
    # shellcheck disable=SC2086
    run open --key none $words < files/more.stm
    wants "open-input-without-a-name $words" 2 '' 'usage: - needs --to'
done
run verify --key none --files-from - - < <(echo files/more.stm)
wants verify-list-and-input 2 '' 'usage: standard input can be read only once'
run verify --key none --to x files/more.stm
wants verify-to 2 '' "begins error: unexpected argument '--to' found"
is nothing-is-left-of-these test ! -e files/named
# a line of progress, cleared before that of the stream
for input in - files/more.stm; do
    unpiped --progress=always "$input" < files/more.stm
    is "unpipe-progress $input" cmp -s files/plain files/more
    is "unpipe-progress-line $input" test "$status $(tr '\r' '\n' < err | sed 's/^\x1b\[K//' | grep -cx "opened $input bytes 348894")" = '0 1'
done

# What standard output is can't be opened: the plaintext would follow the container.
cp files/more.stm files/same
for input in files/same -; do
    "$sealer" unpipe --key "$key" "$input" < files/same >> files/same 2> err; status=$?; : > out
    wants "unpipe-to-its-input $input" 1 '' "failed $input: cannot open"
    is "unpipe-to-its-input-changes-nothing $input" cmp -s files/same files/more.stm
done
rm files/same

# A stream of 16 MiB is kept in memory. Of a longer one the sealed bytes are in a file without a name, in the folder of --spool, else TMPDIR,
# else /var/tmp; where that can't be made or written nothing is opened. A file is read again instead.
yes plaintext | head -c 16773096 > files/fits
{ cat files/fits; printf x; } > files/long
run seal --key "$key" --ledger files/ledger --device 1 files/fits files/long
wants spool-sealed 0 'sealed files/fits file 1 bytes 16773096
sealed files/long file 2 bytes 16773097' ''
is spool-sealed-lengths test "$(stat -c %s files/fits.stm files/long.stm | tr '\n' ' ')" = '16777216 16777217 '
unpiped --spool files/spool < <(cat files/fits.stm)
unpipes spool-is-not-needed 'opened - bytes 16773096' files/fits
# Lengths about a block of the spool's memory, 256 KiB, about all of it, and beyond; written in pieces of either length they are kept alike.
if has cryptography; then
    for length in 262143 262144 262145 786439 16777215 16777216 16777217 41943040; do
        yes plaintext | head -c $((length - 24 - 16 * ((length - 24 + 65551) / 65552))) > files/spooled
        python3 "$here/tools/seal_container.py" "$key" 1 3 files/spooled files/spooled.stm
        is "spool-of-$length-is-as-long" test "$(stat -c %s files/spooled.stm)" = $length
        for block in 10007 1048576; do
            unpiped --spool files/spool < <(dd if=files/spooled.stm bs=$block status=none)
            unpipes "spool-of-$length-by-$block" "opened - bytes $(stat -c %s files/spooled)" files/spooled
        done
    done
    rm files/spooled files/spooled.stm
fi
# Its second reading counts in the progress line too: a slow reader sees more there than the 16 MiB of the first.
"$sealer" unpipe --key "$key" --spool files/spool --progress=always < <(cat files/fits.stm) 2> err |
    { for _ in 1 2 3 4; do head -c 4194304; sleep 0.3; done; cat; } > files/plain
is progress-of-a-spool cmp -s files/plain files/fits
is progress-of-both-readings grep -qE ', (1[7-9]|2[0-9]|3[0-2]) MiB, ' <(tr '\r' '\n' < err)
for folder in none '' files/long /dev/null; do
    unpiped "--spool=$folder" < <(cat files/fits.stm)
    wants "spool '$folder'" 2 '' 'usage: the folder of the spool is missing'
    is "spool-writes-nothing '$folder'" test ! -s files/plain
    unpiped "--spool=$folder" files/long.stm
    unpipes "spool-of-a-file '$folder'" 'opened files/long.stm bytes 16773097' files/long
    timeout 60 cp files/long.stm files/fifo & unpiped "--spool=$folder" files/fifo
    wait
    refuses "spool-of-a-fifo '$folder'" 'failed files/fifo: spool failed'
done
for words in '--workers 1' '--workers 4'; do
    # shellcheck disable=SC2086
    unpiped $words --spool files/spool < <(cat files/long.stm)
    unpipes "spool $words" 'opened - bytes 16773097' files/long
done
# A file as standard input is opened by its path, removed or not, and needs no spool. From a later byte on it is a stream, and so is one
# that this user can't open.
for folder in none '' files/long; do
    unpiped "--spool=$folder" < files/long.stm
    unpipes "spool-of-a-file-as-input '$folder'" 'opened - bytes 16773097' files/long
done
{ printf x; cat files/long.stm; } > files/behind
{ dd bs=1 count=1 status=none > /dev/null; unpiped --spool files/spool; } < files/behind
unpipes spool-from-a-later-byte 'opened - bytes 16773097' files/long
{ dd bs=1 count=1 status=none > /dev/null; unpiped --spool none; } < files/behind
wants no-spool-from-a-later-byte 2 '' 'usage: the folder of the spool is missing'
is no-spool-from-a-later-byte-writes-nothing test ! -s files/plain
rm files/behind
cp files/long.stm files/gone
exec 3< files/gone
rm files/gone
unpiped --spool none <&3
unpipes spool-of-a-removed-file 'opened - bytes 16773097' files/long
exec 3<&-
timeout 60 cp files/long.stm files/fifo & unpiped --spool files/spool files/fifo
wait
unpipes spool-of-a-fifo 'opened files/fifo bytes 16773097' files/long
head -c -1 files/long.stm > files/wrong
unpiped --spool files/spool < <(cat files/wrong)
refuses spool-of-a-cut-stream 'failed -: chunk 255 does not check'
unpiped --spool files/spool --label x < <(cat files/long.stm)
refuses spool-of-another-label 'failed -: another label'
for folder in none files/long; do
    TMPDIR=$folder unpiped < <(cat files/long.stm)
    wants "spool-of-the-environment $folder" 2 '' 'usage: the folder of the spool is missing'
done
TMPDIR=none unpiped --spool files/spool < <(cat files/long.stm)
unpipes spool-comes-before-the-environment 'opened - bytes 16773097' files/long
(trap '' XFSZ; ulimit -f 8192; exec "$sealer" unpipe --key "$key" --spool files/spool < <(cat files/long.stm) 2> err | cat > files/plain; exit "${PIPESTATUS[0]}"); status=$?; : > out
refuses spool-that-ends 'failed -: spool failed'
# Damage and another label are reported before a spool that ends. A changed byte keeps the length, so that the spool needs its file.
ends_its_spool() { # FILE OPTIONS..
    (trap '' XFSZ; ulimit -f 8192; "$sealer" unpipe --key "$key" --spool files/spool "${@:2}" < <(cat "$1") 2> err | cat > files/plain; exit "${PIPESTATUS[0]}"); status=$?; : > out
}
{ head -c 16777216 files/long.stm; tail -c 1 files/long.stm | tr '\000-\377' '\001-\377\000'; } > files/wrong
unpiped --spool files/spool < <(cat files/wrong)
refuses spool-of-a-changed-stream 'failed -: chunk 255 does not check'
ends_its_spool files/wrong
refuses spool-that-ends-of-a-changed-stream 'failed -: chunk 255 does not check'
ends_its_spool files/long.stm --label x
refuses spool-that-ends-of-another-label 'failed -: another label'
is nothing-is-left-of-a-spool test -z "$(ls -A files/spool)"
if mount -t tmpfs -o size=300k none small 2>/dev/null; then
    unpiped --spool small < <(cat files/long.stm)
    refuses spool-on-a-full-disk 'failed -: spool failed'
    is nothing-is-left-of-a-full-disk test "$(ls -A small | wc -l) $(df --output=used small | tail -n 1 | tr -d ' ')" = '0 0'
    umount small
fi
chmod 755 locked
cp "$sealer" locked/sealer
cp "$key" locked/key
[ "$(id -u)" != 0 ] || chown 65534 locked/key
chmod 555 locked
(cd locked && as_user ./sealer unpipe --key key --spool . > ../files/plain 2> ../err) < <(cat files/long.stm); status=$?; : > out
refuses spool-in-a-locked-folder 'failed -: spool failed'
cp files/long.stm files/closed
exec 3< files/closed
chmod 0 files/closed
(cd locked && as_user ./sealer unpipe --key key --spool . > ../files/plain 2> ../err) <&3; status=$?; : > out
refuses spool-of-a-file-that-cannot-be-opened 'failed -: spool failed'
exec 3<&-
rm -f files/closed
if command -v strace >/dev/null; then
    # spooled: what the last traced run did for its file: created for its owner alone, unlinked, and only then written
    spooled() {
        sed -n 's#.*openat([^,]*, "[^"]*/\.sealer-[0-9a-f]\{16\}", [A-Z_|]*O_CREAT|O_EXCL[A-Z_|]*, 0600) = .*#created#p
            s#.*unlink("[^"]*/\.sealer-[0-9a-f]\{16\}") *= 0#unlinked#p; s#.*write([0-9]*<.*/\.sealer-[0-9a-f]\{16\}>(deleted), .*#written#p
            s#.*write([0-9]*<.*/\.sealer-[0-9a-f]\{16\}>, .*#named#p; s#.*chmod.*#another mode#p' calls | uniq | tr '\n' ' '
    }
    # folders: those in which it was created
    folders() { sed -n 's|.*openat([^,]*, "\([^"]*\)/\.sealer-[0-9a-f]\{16\}", .*O_CREAT.*|\1|p' calls | tr '\n' ' '; }
    traced_stream() { strace -f -y -e trace=openat,write,unlink,unlinkat,lseek,chmod,fchmod,fchmodat -o calls "$@" > files/plain 2> err; status=$?; : > out; }
    traced_stream "$sealer" unpipe --key "$key" --spool files/spool < <(cat files/long.stm)
    unpipes spool-traced 'opened - bytes 16773097' files/long
    is spool-has-no-name-when-it-is-written test "$(spooled)" = 'created unlinked written '
    is spool-is-in-its-folder test "$(folders)" = 'files/spool '
    TMPDIR=files/spool traced_stream "$sealer" unpipe --key "$key" < <(cat files/long.stm)
    is spool-is-where-the-environment-says test "$status $(folders)" = '0 files/spool '
    (unset TMPDIR; traced_stream "$sealer" unpipe --key "$key" < <(cat files/long.stm))
    is spool-is-in-var-tmp test "$(folders)" = '/var/tmp '
    TMPDIR='' traced_stream "$sealer" unpipe --key "$key" < <(cat files/long.stm)
    is spool-is-in-var-tmp-if-none-is-said test "$status $(folders)" = '0 /var/tmp '
    traced_stream "$sealer" unpipe --key "$key" --spool files/spool < <(cat files/fits.stm)
    is no-spool-unneeded test "$status $(folders)" = '0 '
    traced_stream "$sealer" unpipe --key "$key" --spool files/spool files/long.stm
    is no-spool-of-a-file test "$status $(folders)$(grep -c 'lseek([0-9]*<[^>]*/files/long.stm>, 0, SEEK_SET) *= 0' calls)" = '0 2'
    # the same of a file as standard input, also by `open`
    for words in '' 'open --to files/named -'; do
        # shellcheck disable=SC2086
        traced_stream "$sealer" ${words:-unpipe --spool files/spool} --key "$key" < files/long.stm
        is "no-spool-of-a-file-as-input $words" test "$status $(folders)$(grep -c 'lseek([0-9]*<[^>]*/files/long.stm>, 0, SEEK_SET) *= 0' calls)" = '0 2'
    done
    is open-a-file-as-input-twice cmp -s files/named files/long
    rm files/named
    # `open` reads a container of 65 KiB once, and one of a byte more twice
    for bytes in 66504 66505; do
        head -c $bytes files/long > files/limit
        "$sealer" seal --key "$key" --ledger files/ledger --device 1 files/limit > out 2> err
        traced_stream "$sealer" open --key "$key" --to files/named files/limit.stm
        is "open-a-container-of-$bytes" test "$status $(stat -c %s files/limit.stm) $(grep -c 'lseek([0-9]*<[^>]*/files/limit.stm>' calls)" = \
            "0 $((bytes + 56)) $(((bytes - 66504) * 2))"
        is "open-gives-$bytes" cmp -s files/named files/limit
        rm files/named files/limit files/limit.stm
    done
    # `seal` and `verify` read once, and seek nothing
    cp numbers.plain files/unsought
    traced_stream "$sealer" seal --key "$key" --ledger files/ledger --device 1 files/unsought
    is seal-seeks-nothing test "$status $(grep -c 'lseek([0-9]*<[^>]*/files/unsought>' calls)" = '0 0'
    traced_stream "$sealer" verify --key "$key" files/unsought.stm
    is verify-seeks-nothing test "$status $(grep -c 'lseek([0-9]*<[^>]*/files/unsought.stm>' calls)" = '0 0'
    rm files/unsought files/unsought.stm
    # `open` reads a FIFO once, and keeps its plaintext in memory, without a spool
    mkfifo files/once.stm
    timeout 60 cp files/long.stm files/once.stm & TMPDIR=none traced_stream "$sealer" open --key "$key" files/once.stm
    wait
    is open-a-fifo cmp -s files/once files/long
    is open-a-fifo-once test "$status $(cat files/plain)$(folders)$(grep -c 'lseek([0-9]*<[^>]*/once.stm>' calls)" = '0 opened files/once.stm bytes 167730970'
    rm files/once
    # up to seven names may be taken; a name that can't be removed again makes no spool
    traced_stream "$sealer" unpipe --key "$key" --spool files/spool < <(cat files/long.stm)
    first=$(grep 'openat(' calls | grep -n '/\.sealer-' | cut -d : -f 1)
    injected() { strace -f -o calls -e trace=openat,unlink -e "inject=$1" "$sealer" unpipe --key "$key" --spool files/spool > files/plain 2> err; status=$?; : > out; }
    injected "openat:error=EEXIST:when=$first..$((first + 6))" < <(cat files/long.stm)
    unpipes spool-of-the-last-name 'opened - bytes 16773097' files/long
    is spool-has-eight-names test "$(grep -c 'openat(.*/\.sealer-' calls) $(sed -n 's|.*openat.*/\.sealer-\([0-9a-f]*\)".*|\1|p' calls | sort -u | wc -l)" = '8 8'
    injected "openat:error=EEXIST:when=$first..$((first + 7))" < <(cat files/long.stm)
    refuses spool-has-no-ninth-name 'failed -: spool failed'
    is nothing-is-left-of-taken-names test -z "$(ls -A files/spool)"
    injected unlink:error=EPERM < <(cat files/long.stm)
    refuses spool-that-keeps-its-name 'failed -: spool failed'
    is what-keeps-its-name-is-empty test "$(stat -c %s files/spool/.sealer-*)" = 0
    rm files/spool/.sealer-*
fi
# Killed in the middle nothing is left, and nothing was written: it waits for its input, with its file in use.
mkfifo files/waits
exec 8<> files/waits
"$sealer" unpipe --key "$key" --spool files/spool < files/waits > files/plain 2> err &
held=$!
cat files/long.stm >&8
for _ in $(seq 200); do ls -l "/proc/$held/fd" 2>/dev/null | grep -q '/files/spool/\.sealer-[0-9a-f]* (deleted)' && break; sleep 0.05; done
is spool-is-in-use test "$(ls -l "/proc/$held/fd" | grep -c '/files/spool/\.sealer-[0-9a-f]* (deleted)')" = 1
is spool-in-use-is-private test "$(stat -L -c %a "$(ls -d "/proc/$held/fd"/* | while read -r fd; do case $(readlink "$fd") in *.sealer-*) echo "$fd" ;; esac; done)")" = 600
kill -9 "$held"
wait "$held" 2>/dev/null
exec 8>&-
is spool-of-the-killed test -z "$(ls -A files/spool)"
is killed-wrote-nothing test ! -s files/plain -a ! -s err
rm -f files/fits* files/long* files/wrong files/plain files/waits files/fifo

# Two runs on one ledger at once: the second is refused. The first waits for its input, a pipe, with its range reserved; it is then
# killed, and the next run goes on after that range.
mkfifo life/pipe
exec 8<> life/pipe
"$sealer" seal --key "$key" --ledger life/busy --device 1 life/pipe > first 2> first.err &
first=$!
for _ in $(seq 200); do [ -n "$(parts life)" ] && break; sleep 0.05; done
cp life/numbers life/second
run seal --key "$key" --ledger life/busy --device 1 life/second
wants busy 2 '' 'ledger: cannot open'
is busy-touches-nothing no test -e life/second.stm
kill -9 "$first"
wait "$first" 2>/dev/null
exec 8>&-
is killed-said-nothing test ! -s first
run seal --key "$key" --ledger life/busy --device 1 life/second
wants after-the-killed 0 'sealed life/second file 1 bytes 1492' ''
run verify --key "$key" life/pipe.stm life/second.stm
wants killed-output 1 'failed life/pipe.stm: cannot open
good life/second.stm bytes 1492' ''
is killed-left-a-part test "$(parts life | wc -l)" = 1
rm "$(parts life)"

# A run that waits for a ledger which another run holds gets its turn once that ends, or is refused once its seconds have passed.
fresh
for n in 1 2 3 4 5 6 7 8 9 10 11 12; do echo "$n" > "files/f$n"; done
# open to nobody else, so that --verbose warns of nothing
install -m 600 "$key" files/key
# holds ARGS..: a run of pipe that holds the ledger until descriptor 8 is closed
holds() {
    mkfifo files/held
    "$sealer" pipe --key "$key" --ledger files/ledger "$@" < files/held > files/held.stm 2> held.err &
    holder=$!
    exec 8> files/held
    for _ in $(seq 200); do [ -s files/held.stm ] && break; sleep 0.05; done
}
# ends: that run ends. No other process may have its input open.
ends() {
    exec 8>&-
    wait "$holder"
    rm files/held
}
# in_time NAME LEAST MOST COMMAND..: what a command takes, in milliseconds
in_time() {
    local began took
    began=$(date +%s%3N)
    "${@:4}"
    took=$(($(date +%s%3N) - began))
    is "$1: $took ms" test "$took" -ge "$2" -a "$took" -lt "$3"
}
holds --device 1
in_time waits-not 0 20000 run seal --key files/key --ledger files/ledger --device 1 --verbose files/f1
wants waits-not 2 '' 'ledger: cannot open
cause: another run holds it'
in_time waits-for-nothing 0 20000 run pipe --key "$key" --ledger files/ledger --device 1 --wait 0 < files/f1
wants waits-for-nothing 2 '' 'ledger: cannot open'
in_time waits-a-second 1000 20000 run seal --key files/key --ledger files/ledger --device 1 --wait 1 --verbose --journal files/journal files/f1
wants waits-a-second 2 '' 'ledger: cannot open
cause: another run holds it'
is waits-makes-nothing test "$(echo files/*.stm) $(wc -c < files/journal)" = 'files/held.stm files/numbers.stm 0'
in_time pipe-waits-a-second 1000 20000 run pipe --key "$key" --ledger files/ledger --device 1 --wait 1 < files/f1
wants pipe-waits-a-second 2 '' 'ledger: cannot open'
"$sealer" seal --key "$key" --ledger files/ledger --device 1 --wait 60 --no-new-ledger files/f1 > seal.out 2>&1 8>&- &
waiter=$!
"$sealer" pipe --key "$key" --ledger files/ledger --device 1 --wait 60 < files/f2 2> pipe.err > files/f2.stm 8>&- &
other=$!
sleep 0.5
is waits-until-then test ! -s seal.out -a ! -s files/f2.stm
ends
wait "$waiter"; status=$?
wait "$other"; status="$status $?"
is waited test "$status $(sort seal.out pipe.err held.err | sed 's/ file [12] / file N /')" = '0 0 sealed - file 0 bytes 0
sealed - file N bytes 2
sealed files/f1 file N bytes 2'
is waited-for-two-numbers test "$(sed 's/.* file \([0-9]*\) .*/\1/' seal.out pipe.err | sort | tr '\n' ' ')" = '1 2 '
# what isn't another run's to end: nothing is waited for
in_time waits-for-no-ledger 0 20000 run seal --key "$key" --ledger files/none --device 1 --wait 60 --no-new-ledger files/f3
wants waits-for-no-ledger 2 '' 'ledger: not there'
cp files/ledger-wal files/lost-wal
in_time waits-for-no-lost-ledger 0 20000 run seal --key "$key" --ledger files/lost --device 1 --wait 60 files/f3
wants waits-for-no-lost-ledger 2 '' 'ledger: cannot open'
in_time waits-for-no-other-file 0 20000 run seal --key "$key" --ledger files/f4 --device 1 --wait 60 files/f3
wants waits-for-no-other-file 2 '' 'ledger: cannot open'
if has sqlite3; then
    sqlite3 files/foreign 'CREATE TABLE t(x)'
    mkfifo files/sql
    sqlite3 files/foreign < files/sql > held.out 2>&1 &
    holder=$!
    exec 8> files/sql
    echo "BEGIN EXCLUSIVE; SELECT 'held';" >&8
    for _ in $(seq 200); do [ -s held.out ] && break; sleep 0.05; done
    in_time waits-for-no-other-database 0 20000 run seal --key "$key" --ledger files/foreign --device 1 --wait 60 files/f3
    wants waits-for-no-other-database 2 '' 'ledger: not a ledger'
    exec 8>&-
    wait "$holder"
fi
in_time waits-for-no-option 0 20000 run seal --key "$key" --ledger files/ledger --device 1 --wait 86401 files/f3
wants waits-for-no-option 2 '' 'begins error: '
# many runs at once, of two devices with one witness: each gets a number of its own, and no line of the witness has a lower one than before
run seal --key "$key" --ledger files/ledger --device 1 --witness files/w --new-witness files/f3
is waits-witness test "$status" = 0
run seal --key "$key" --ledger files/ledger --device 2 --witness files/w --new-witness files/f4
is waits-witness-of-two test "$status" = 0
(while [ ! -e files/done ]; do sed 's/^key [0-9a-f]* \(.*\) file .*/\1/' files/w | tr '\n' ' '; echo; done > files/seen) &
watcher=$!
many=
for n in 5 6 7 8 9 10 11 12; do
    "$sealer" seal --key files/key --ledger files/ledger --device $((n % 2 + 1)) --witness files/w --wait 60 --verbose "files/f$n" > "many$n" 2>&1 &
    many="$many $!"
done
failed=0
for one in $many; do wait "$one" || failed=1; done
touch files/done
wait "$watcher"
is waits-all test "$failed" = 0
is waits-all-numbers test "$(for n in 5 7 9 11; do sed 's/.* file \([0-9]*\) .*/\1/' "many$n"; done | sort -n | tr '\n' ' ')" = '1 2 3 4 '
is waits-all-numbers-of-another test "$(for n in 6 8 10 12; do sed 's/.* file \([0-9]*\) .*/\1/' "many$n"; done | sort -n | tr '\n' ' ')" = '4 5 6 7 '
is waits-witness-at-last test "$(sed 's/^key [0-9a-f]* \(.*\) file .*/\1/' files/w | tr '\n' ,)" = 'device 1 next 8,device 2 next 5,'
is waits-witness-never-lower awk '{ if ($4 + 0 < one || $8 + 0 < two) bad = 1; one = $4 + 0; two = $8 + 0 } END { exit bad }' files/seen
rm -f files/f*.stm many[0-9]*

# A log whose mode or owner can't be set, as on exFAT: the database refuses it as it is made, and the run tries again.
if command -v strace >/dev/null; then
    for refused in fchmod:error=EPERM fchown:error=EINVAL; do
        for old in '' old; do
            for more in '' --no-new-ledger; do
                rm -f files/no-mode* files/f3.stm
                [ -z "$old" ] || cp files/ledger files/no-mode
                strace -f -o calls -e "trace=${refused%:*}" -e "inject=$refused" "$sealer" seal --key files/key --ledger files/no-mode --device 1 --verbose $more \
                    files/f3 > out 2> err
                status=$?
                if [ -z "$old" ] && [ -n "$more" ]; then
                    wants "no-mode $refused $more" 2 '' 'ledger: not there
cause: there is no such file'
                    is "no-mode-nothing-made $refused" test ! -e files/no-mode -a ! -e files/no-mode-wal
                else
                    wants "no-mode $refused $old $more" 0 "sealed files/f3 file $([ -z "$old" ] && echo 0 || echo 8) bytes 2" ''
                    is "no-mode-was-refused $refused $old $more" grep -q INJECTED calls
                fi
            done
        done
    done
fi

# A long ledger in little memory: the text names memory, and nothing is done.
if has sqlite3; then
    rm -f files/f3.stm
    run seal --key files/key --ledger files/long --device 1 files/f3
    wants long-ledger 0 'sealed files/f3 file 0 bytes 2' ''
    rm files/f3.stm
    sqlite3 files/long 'WITH RECURSIVE n (i) AS (SELECT 1 UNION ALL SELECT i + 1 FROM n WHERE i < 438000)
        INSERT INTO taken SELECT key_id, device, i, 1 FROM n, mark; UPDATE mark SET next = 438001'
    sum=$(cksum < files/long)
    (ulimit -v 65536; exec "$sealer" ledger --ledger files/long --verbose) > out 2> err; status=$?
    wants long-ledger-in-little-memory 2 '' 'ledger: out of memory
cause: memory was refused'
    (ulimit -v 65536; exec "$sealer" seal --key files/key --ledger files/long --no-new-ledger --device 1 files/f3) > out 2> err; status=$?
    wants long-ledger-seal-in-little-memory 2 '' 'ledger: out of memory'
    is long-ledger-stays test "$(cksum < files/long)" = "$sum" -a ! -e files/f3.stm
    run ledger --ledger files/long
    is long-ledger-in-enough-memory grep -q ' device 1 ranges 438001 given 438001 ' out
    # the look at its tables reads the beginning, and the database has reads of its own kind
    if command -v strace > /dev/null; then
        strace -f -qq -o calls -P "$PWD/files/long" -e trace=read "$sealer" seal --key files/key --ledger files/long --no-new-ledger --device 1 files/f3 > out 2> err
        is long-ledger-is-read-once test "$(sed 's/.* = //' calls | awk '{ bytes += $1 } END { print bytes }')" = 65536
    fi
    rm files/long*
fi

# A ledger on exFAT itself, where a file of this system can be mounted as one, by the kernel or by FUSE.
mkdir exfat
truncate -s 32M exfat.image
mounted=
if mkfs.exfat exfat.image > /dev/null 2>&1 && loop=$(losetup --find --show exfat.image 2>/dev/null); then
    { mount -t exfat "$loop" exfat || mount.exfat-fuse "$loop" exfat; } > /dev/null 2>&1 && mounted=yes
fi
if [ -n "$mounted" ]; then
    cp files/f3 exfat/a
    cp files/f3 exfat/b
    cp files/f3 exfat/c
    run seal --key files/key --ledger exfat/ledger --device 1 --witness files/on-exfat --new-witness exfat/a
    wants exfat-first-run 0 'sealed exfat/a file 0 bytes 2' ''
    is exfat-has-a-log test -e exfat/ledger-wal
    run seal --key files/key --ledger exfat/ledger --device 1 --no-new-ledger --witness files/on-exfat exfat/b
    wants exfat-later-run 0 'sealed exfat/b file 1 bytes 2' ''
    # Mounted anew, files can have other inodes: the witness then asks to be renewed, and the numbers go on.
    umount exfat
    { mount -t exfat "$loop" exfat || mount.exfat-fuse "$loop" exfat; } > /dev/null 2>&1
    run seal --key files/key --ledger exfat/ledger --device 1 --no-new-ledger --witness files/on-exfat --new-witness exfat/c
    wants exfat-mounted-anew 0 'sealed exfat/c file 2 bytes 2' ''
    run ledger --ledger exfat/ledger
    is exfat-ledger grep -q ' device 1 ranges 3 given 3 ' out
    run verify --key files/key exfat/a.stm exfat/b.stm exfat/c.stm
    is exfat-containers test "$status $(grep -c '^good ' out)" = '0 3'
    umount exfat
else
    echo 'left out: a ledger on exFAT, since no such file system can be mounted here'
fi
[ -z "$loop" ] || losetup -d "$loop"
loop=
rm -f exfat.image

# The causes of a log that takes numbers back, left by a killed run and put back after two others, and of a damaged ledger.
if command -v strace >/dev/null; then
    mkdir mixed
    (umask 077; cp "$key" mixed/key)
    for n in a b c d; do seq 3 > mixed/$n; done
    run seal --key mixed/key --ledger mixed/ledger --device 1 mixed/a
    {
        strace -f -o /dev/null -P "$PWD/mixed/ledger" -e trace=pwrite64 -e inject=pwrite64:signal=KILL:when=1 "$sealer" seal --key mixed/key \
            --ledger mixed/ledger --device 1 mixed/b > out 2> err
    } 2> /dev/null
    cp mixed/ledger-wal mixed/log
    is the-log-has-the-range test "$(wc -c < mixed/log)" -gt 4096
    run seal --key mixed/key --ledger mixed/ledger --device 1 mixed/b mixed/c
    wants the-range-is-given-up 0 'sealed mixed/b file 2 bytes 6
sealed mixed/c file 3 bytes 6' ''
    cp mixed/log mixed/ledger-wal
    run seal --verbose --key mixed/key --ledger mixed/ledger --device 1 mixed/d
    wants log-takes-numbers-back 2 '' 'ledger: cannot open
cause: LEDGER-wal does not go with LEDGER, or one of them is damaged: do not delete them'
    head -c 100 mixed/ledger > mixed/zeros
    head -c 100 /dev/zero >> mixed/zeros
    tail -c +201 mixed/ledger >> mixed/zeros
    run seal --verbose --key mixed/key --ledger mixed/zeros --device 1 mixed/d
    wants damaged-ledger 2 '' 'ledger: cannot open
cause: the database is damaged or was altered, or memory was refused'
    # a witness is renamed only once its bytes are on the disk, and then its name is
    run seal --key mixed/key --ledger mixed/new --device 1 --witness mixed/witness --new-witness mixed/d
    rm mixed/d.stm
    strace -f -y -o calls -e trace=openat,rename,fsync "$sealer" seal --key mixed/key --ledger mixed/new --device 1 --witness mixed/witness mixed/d > out 2> err
    is the-witness-is-on-the-disk test "$(sed -n 's/.* fsync([0-9]*<.*witness[^>]*new>).*/bytes/p; s/.* rename(.*/name/p; s/.* fsync([0-9]*<.*mixed>).*/folder/p' calls |
        sed -n '/bytes/,$p' | tr '\n' ' ')" = 'bytes name folder '
    # each file beside it is made under a name that nobody has
    is the-files-beside-a-witness-are-new test "$(grep -cE '/witness\.[0-9a-f]{16}\.(try|new)", O_WRONLY\|O_CREAT\|O_EXCL' calls)" = 2
    rm -r mixed
fi

# A ledger that was put back beside the log of later runs: those two files are what its own run could have left, so its numbers come again. Only
# a witness tells.
fresh
for n in 1 2 3 4 5; do echo "$n" > "files/f$n"; done
run seal --key "$key" --ledger files/ledger --device 1 --witness files/w --new-witness files/f1
run seal --key "$key" --ledger files/ledger --device 1 --witness files/w files/f2
cp files/ledger files/older
run seal --key "$key" --ledger files/ledger --device 1 --witness files/w files/f3
wants later-run 0 'sealed files/f3 file 2 bytes 2' ''
cat files/older > files/ledger
run seal --key "$key" --ledger files/ledger --device 1 --witness files/w --no-new-ledger files/f4
wants put-back-with-a-witness 2 '' 'ledger: older than its witness'
run seal --key "$key" --ledger files/ledger --device 1 --no-new-ledger files/f4
wants put-back-without-one 0 'sealed files/f4 file 2 bytes 2' ''

# A run's own files are no FILEs, by whatever name, and no number is issued for them.
fresh
mkdir files/own
cp "$key" files/own/key
run seal --key files/own/key --ledger files/own/ledger --device 1 files/numbers.stm
ln -s own/ledger files/link
ln files/own/key files/same-key
: > files/own/ledger-journal
: > files/own/ledger-shm
cp numbers.plain files/a
own=(files/own/ledger files/own/ledger-wal files/own/ledger-journal files/own/ledger-shm files/own/key files/own/journal files/link
    "$PWD/files/own/../own/ledger" files/same-key)
refused() { printf 'failed %s: cannot open\n' "${own[@]}"; }
first=1
for options in '--lanes 1' '--lanes 2' '--workers 2' '--lanes 1 --progress=always'; do
    # shellcheck disable=SC2086
    run seal --key files/own/key --ledger files/own/ledger --device 1 --journal files/own/journal $options "${own[@]}" files/a
    wants "own-files $options" 1 "$(refused)
sealed files/a file $first bytes 1492" 'begins '
    is "own-files-no-number $options" test "$(grep -c ' issue ' files/own/journal)" = 1
    is "own-files-no-container $options" test "$(find files -name '*.stm' | sort | tr '\n' ' ')" = 'files/a.stm files/numbers.stm files/numbers.stm.stm '
    first=$((first + 10))
    rm files/a.stm files/own/journal
done
for name in own/ledger own/ledger-wal own/ledger-journal own/ledger-shm own/key link same-key; do
    run pipe --key files/own/key --ledger files/own/ledger --device 1 < "files/$name"
    # the header comes before the first read
    wants "own-files-pipe $name" 1 'begins STRMSEAL' 'failed -: read failed'
done
run pipe --key files/own/key --ledger files/own/ledger --device 1 < files/a
is own-files-pipe-another test "$status $(wc -c < out)" = '0 1532'

# A tree with its ledger in it: sealed, lost, opened and sealed again. No container has a ledger.
fresh
mkdir files/home files/vault
cp numbers.plain files/home/a
seal_tree() {
    find files/home -type f | sort > names
    run seal --key "$key" --ledger files/home/ledger --device "$1" --into files/vault --files-from names
}
for device in 1 2; do
    # this run makes the ledger, and the next one finds it in the tree
    seal_tree $device
    wants "tree $device" 0 'sealed files/home/a file 0 bytes 1492' ''
    rm files/vault/*
    seal_tree $device
    wants "tree-with-its-ledger $device" 1 'sealed files/home/a file 1 bytes 1492
failed files/home/ledger: cannot open
failed files/home/ledger-wal: cannot open' ''
    rm -r files/home
    mkdir files/home
    run open --key "$key" --into files/home files/vault/*
    is "tree-without-its-ledger $device" test "$status $(ls -A files/home)" = '0 a'
    rm files/vault/*
done

# A witness: a ledger that was put back, copied or made anew is refused, and nothing is reserved or made.
fresh
mkdir files/on files/old
for n in 1 2 3 4 5 6 7 8 9; do echo "$n" > "files/f$n"; done
seen() { run seal --key "$key" --ledger files/on/ledger --device 1 --witness files/w "$@"; }
# kept NAME ERR: the last run was refused with this text. The ledger and the witness are as they were, and there is no output.
kept() {
    wants "witness-$1" 2 '' "$2"
    is "witness-$1: nothing is reserved" cmp -s files/on/ledger files/old/at-last
    is "witness-$1: the witness stays" cmp -s files/w files/old/w
    is "witness-$1: nothing is made" test "$(ls files/*.stm files/w.* 2> /dev/null)" = "$outputs"
}
seen files/f1
wants witness-not-there 2 '' 'witness: not there'
is witness-without-one-no-ledger test -z "$(ls -A files/on)"
seen --new-witness files/f1
wants witness-made 0 'sealed files/f1 file 0 bytes 2' ''
cp files/on/ledger* files/old
seen files/f2
wants witness-next 0 'sealed files/f2 file 1 bytes 2' ''
is witness-line grep -qE '^key [0-9a-f]{64} device 1 next 2 file [0-9]+ [0-9]+ ([0-9]+|-)$' files/w
cp files/w files/old/w
outputs=$(ls files/*.stm)
mkdir files/true
mv files/on/ledger* files/true
# LEDGER alone put back into its file, then with its log
cp -p files/true/* files/on
cp files/on/ledger files/old/at-last
seen files/f3
kept copied 'ledger: not the file its witness saw'
rm files/on/*
mv files/true/* files/on
cat files/on/ledger > files/true/ledger
cat files/on/ledger-wal > files/true/ledger-wal
cat files/old/ledger > files/on/ledger
cp files/on/ledger files/old/at-last
seen files/f3
kept put-back 'ledger: older than its witness'
run pipe --key "$key" --ledger files/on/ledger --device 1 --witness files/w < files/f3
kept put-back-pipe 'ledger: older than its witness'
cat files/old/ledger-wal > files/on/ledger-wal
seen --no-new-ledger files/f3
kept put-back-with-its-log 'ledger: older than its witness'
seen --new-witness files/f3
kept put-back-stays-refused 'ledger: older than its witness'
# the whole folder restored: other files, with the older count
mv files/on files/gone
mkdir files/on
cp files/old/ledger files/old/ledger-wal files/on
seen files/f3
kept restored 'ledger: not the file its witness saw'
rm files/on/*
cp /dev/null files/old/at-last
seen files/f3
wants witness-ledger-lost 2 '' 'ledger: not the file its witness saw'
is witness-ledger-lost-nothing-made test -z "$(ls -A files/on)"
# the ledger as it was goes on; one that was moved has to be shown once
rmdir files/on
mv files/gone files/on
cat files/true/ledger > files/on/ledger
cat files/true/ledger-wal > files/on/ledger-wal
seen files/f3
wants witness-goes-on 0 'sealed files/f3 file 2 bytes 2' ''
mkdir files/moved
cp files/on/ledger* files/moved
moved() { run seal --key "$key" --ledger files/moved/ledger --device 1 --witness files/w --no-new-ledger "$@"; }
moved files/f4
wants witness-moved 2 '' 'ledger: not the file its witness saw'
moved --new-witness files/f4
wants witness-of-the-moved 0 'sealed files/f4 file 3 bytes 2' ''
moved files/f5
wants witness-of-the-moved-goes-on 0 'sealed files/f5 file 4 bytes 2' ''
seen files/f6
wants witness-left-behind 2 '' 'ledger: not the file its witness saw'
# another device has a line of its own, which has to be asked for; a line of device 12 is none of device 1
goes() { is "$1" test "$status" = 0; }
cp files/w files/of-one
run seal --key "$key" --ledger files/moved/ledger --device 12 --witness files/w files/f6
wants witness-another-device 2 '' 'witness: no line of this key and device'
run seal --key "$key" --ledger files/moved/ledger --device 12 --witness files/w --new-witness files/f6
wants witness-of-another-device 0 'sealed files/f6 file 0 bytes 2' ''
is witness-two-lines test "$(sed 's/^key [0-9a-f]* \(.*\) file .*/\1/' files/w | tr '\n' ,)" = 'device 1 next 5,device 12 next 1,'
# moved once more, it takes both lines with it
cp -r files/moved files/again
cp files/w files/w2
again() { run seal --key "$key" --ledger files/again/ledger --device "$1" --witness "files/$2" "${@:3}" files/f7; rm -f files/f7.stm; }
again 12 w2 --new-witness
wants witness-of-two-moved 0 'sealed files/f7 file 1 bytes 2' ''
again 1 w2
wants witness-of-two-moved-goes-on 0 'sealed files/f7 file 5 bytes 2' ''
# once it is lost its witness lets no other begin, of whatever device; another witness does
rm files/again/*
again 13 w2 --new-witness
wants witness-of-a-lost-ledger 2 '' 'ledger: not the file its witness saw'
again 12 w2 --no-new-ledger
wants witness-of-no-ledger 2 '' 'ledger: not there'
is witness-of-a-lost-ledger-nothing-made test -z "$(ls -A files/again)"
again 13 w3 --new-witness
wants witness-of-another-name 0 'sealed files/f7 file 0 bytes 2' ''
rm -r files/again files/w2 files/w3
grep ' device 12 ' files/w > files/w12
run seal --key "$key" --ledger files/moved/ledger --device 1 --witness files/w12 files/f7
wants witness-of-device-12-alone 2 '' 'witness: no line of this key and device'
# a time of creation is there where the system tells it
[ "$(stat -c %W files/moved/ledger)" = 0 ] || is witness-time grep -qvE -e '-$' files/w
# a link to the witness stays a link, and its mode too; the ledger may be given by a link
mv files/w files/real
chmod 600 files/real
ln -s real files/w
ln -s moved/ledger files/by-link
run seal --key "$key" --ledger files/by-link --device 1 --witness files/w --no-new-ledger files/f7
goes witness-by-a-link
is witness-link test "$(readlink files/w) $(stat -c %a files/real)" = 'real 600'
is witness-of-the-link grep -q 'device 1 next 6 ' files/real
# many lines of the same ledger
sed -n 's/ device 1 / device 20000 /p' files/real > files/line
for n in $(seq 100); do sed "s/ device 20000 / device $((20000 + n)) /" files/line; done >> files/real
moved files/f8
goes witness-of-many
rm files/f8.stm
# no witness: empty, another text, a line too many, two lines of one device, lines of two files, no line feed at the end, a folder, a long file.
# A new one is not made of it either.
cp files/real files/good
first=$(head -n 1 files/good)
for text in '' hello 'key 00 device 1 next 1 file 1 1' "$(cat files/good)
x" "$first
$first" "$first
key $(printf 'a%.0s' $(seq 64)) device 1 next 1 file 1 1 -" "${first/key ?/key G}" "$(printf '%s' "$first" | tr a-f A-F | sed 's/^KEY/key/; s/ DEViCE / device /')x" \
    "${first/next /next +}" "${first/device/devicf}" "${first/next 7/next 4294967297}"; do
    printf '%s\n' "$text" > files/real
    for more in '' --new-witness; do
        moved $more files/f8
        wants "no-witness $more '$text'" 2 '' 'witness: not a witness'
    done
done
: > files/real
moved files/f8
wants no-witness-empty 2 '' 'witness: not a witness'
head -c -1 files/good > files/real
moved files/f8
wants no-witness-cut 2 '' 'witness: not a witness'
# as many lines as there may be: one more is refused before a range is reserved, and what is renewed can be read again
many_lines() { seq -f "$(sed 's/ device 20000 .*//' files/line) device %.0f $(sed 's/.* device 20000 //' files/line)" 30001 $((30000 + $1)); }
cp files/moved/ledger files/true/before-many
many_lines 92691 > files/real
(umask 077; cp "$key" files/key)
run seal --key files/key --ledger files/moved/ledger --device 1 --witness files/w --new-witness --verbose files/f8
wants witness-full 2 '' 'witness: too many lines
cause: no further line has room in 16 MiB'
is witness-full-reserves-nothing cmp -s files/moved/ledger files/true/before-many
{ printf '%s\n' "$first"; many_lines 92690; } > files/real
moved files/f8
goes witness-almost-full
moved --skip-existing files/f8 files/f9
goes witness-almost-full-goes-on
is witness-almost-full-has-all test "$(wc -l < files/real)" = 92691
rm files/f8.stm files/f9.stm
first=$(head -n 1 files/real)
printf '%s\n' "$first" > files/good
many_lines 92692 > files/real
moved --new-witness files/f8
wants witness-too-full 2 '' 'witness: too many lines'
many_lines 140000 > files/real
is no-witness-long-is-long test "$(stat -c %s files/real)" -gt 16777216
moved --new-witness files/f8
wants no-witness-long 2 '' 'witness: not a witness'
run seal --key "$key" --ledger files/moved/ledger --device 1 --witness files files/f8
wants no-witness-folder 2 '' 'witness: not a witness'
run seal --key "$key" --ledger files/moved/ledger --device 1 --witness "$key" files/f8
wants no-witness-key 2 '' 'witness: not a witness'
cp files/good files/real
# a witness can't be the ledger's
for name in ledger ledger-wal ledger-journal ledger-shm; do
    for more in '' --new-witness; do
        run seal --key files/key --ledger files/moved/ledger --device 1 --verbose --witness "$PWD/files/moved/$name" $more files/f8
        wants "witness-in-place-of $name $more" 2 '' 'witness: cannot create
cause: it is the ledger, or a file beside it'
    done
done
run seal --key "$key" --ledger files/moved/ledger --device 1 --witness none/w --new-witness files/f8
wants witness-no-folder 2 '' 'witness: cannot create'
run pipe --key "$key" --ledger files/moved/ledger --device 1 --witness files/none < files/f8
wants witness-not-there-pipe 2 '' 'witness: not there'
because() { # NAME CAUSE ARGS..
    run seal --key "$key" --verbose --ledger "${@:3}" files/f8
    is "witness-cause-$1" test "$status $(tail -n 1 err)" = "2 cause: $2"
}
because folder 'the folder is missing' files/moved/ledger --device 1 --witness none/w --new-witness
because no-witness-but-a-folder 'it is a folder' files/moved/ledger --device 1 --witness files
because in-no-folder 'a part of the path is no folder' files/moved/ledger --device 1 --witness files/f1/w --new-witness
because none 'there is no such file' files/moved/ledger --device 1 --witness files/none
because another 'it is gone or empty, or was copied, restored, moved or made anew' files/on/ledger --device 1 --witness files/w
because line 'the witness saw no run of this key and device' files/moved/ledger --device 3 --witness files/w
because text 'it has no line, or one that no witness has' files/moved/ledger --device 1 --witness files/f1
run seal --key "$key" --ledger files/moved/ledger --device 1 --new-witness files/f8
is witness-needs-its-path test "$status" = 2
# a ledger that was emptied is left so
cp files/moved/ledger files/true/whole
cp files/moved/ledger-wal files/true/log
: > files/moved/ledger
rm files/moved/ledger-wal
run seal --key "$key" --ledger files/moved/ledger --device 1 --witness files/w files/f8
wants witness-ledger-emptied 2 '' 'ledger: not the file its witness saw'
is witness-ledger-emptied-stays test "$(ls files/moved) $(stat -c %s files/moved/ledger)" = 'ledger 0'
cat files/true/whole > files/moved/ledger
cat files/true/log > files/moved/ledger-wal
# nothing is sealed that the witness didn't record, its numbers are given up, and nothing of that name is replaced
if command -v strace > /dev/null; then
    # failing CALL ERROR CAUSE: a run whose calls of this kind fail
    failing() {
        strace -f -qq -o /dev/null -e "trace=$1" -e "inject=$1:error=$2" "$sealer" seal --key files/key --ledger files/moved/ledger --device 1 \
            --verbose --witness files/w files/f8 > out 2> err
        status=$?
        wants "witness-not-renewed: $1 $2" 2 '' "witness: write failed
cause: $3"
        is "witness-not-renewed-as-it-was: $1 $2" cmp -s files/real files/good
    }
    failing rename EIO 'the system reports an error'
    failing rename ENOSPC 'the disk is full, or a quota is reached'
    failing rename EROFS 'the file system is read-only'
    strace -f -qq -o /dev/null -e trace=rename -e inject=rename:error=EIO "$sealer" pipe --key "$key" --ledger files/moved/ledger --device 1 \
        --witness files/w < files/f8 > out 2> err
    status=$?
    wants witness-not-renewed-by-a-stream 2 '' 'witness: write failed'
    is witness-not-renewed-by-a-stream-as-it-was cmp -s files/real files/good
    # the ledger is exchanged after the run looked at it, while the folder of the witness is tested
    cp files/moved/ledger-wal files/true/log
    strace -f -qq -o /dev/null -e trace=unlink -e inject=unlink:delay_enter=3000000:when=1 "$sealer" seal --key files/key --ledger files/moved/ledger \
        --device 1 --verbose --witness files/w files/f8 > out 2> err &
    one=$!
    for _ in $(seq 100); do ls files/real.*.try > /dev/null 2>&1 && break; sleep 0.05; done
    mv files/moved/ledger files/true/aside
    cp files/true/aside files/moved/ledger
    wait "$one"; status=$?
    wants witness-of-an-exchanged-ledger 2 '' 'witness: write failed
cause: it is gone or empty, or was copied, restored, moved or made anew'
    is witness-of-an-exchanged-ledger-as-it-was cmp -s files/real files/good
    mv files/true/aside files/moved/ledger
    cat files/true/log > files/moved/ledger-wal
    # so is the witness: what is there by then stays, or is missing as before
    exchanged() { # NAME CAUSE COMMAND.., which exchanges it
        strace -f -qq -o /dev/null -e trace=unlink -e inject=unlink:delay_enter=3000000:when=1 "$sealer" seal --key files/key \
            --ledger files/moved/ledger --device 1 --verbose --witness files/w files/f8 > out 2> err &
        one=$!
        for _ in $(seq 100); do ls files/real.*.try > /dev/null 2>&1 && break; sleep 0.05; done
        "${@:3}"
        wait "$one"; status=$?
        wants "witness-exchanged: $1" 2 '' "witness: write failed
cause: $2"
    }
    exchanged removed 'there is no such file' rm files/real
    is witness-exchanged-is-not-made-anew test ! -e files/real
    for change in 's/next [0-9]*/next 4294967296/' 's/file [0-9]* [0-9]*/file 1 1/'; do
        cp files/good files/real
        exchanged "$change" 'it is gone or empty, or was copied, restored, moved or made anew' sed -i "$change" files/real
        is "witness-exchanged-stays: $change" test "$(cat files/real)" = "$(sed "$change" files/good)"
    done
    cp files/good files/real
    # a run that is killed as it renews the witness leaves a file, which is in nobody's way
    mkdir files/pair
    pair() { run seal --key "$key" --ledger files/pair/ledger --device "$1" --witness files/pair/w "${@:2}"; }
    for device in 1 2; do
        pair $device --new-witness files/f8
        goes "witness-of-a-pair $device"
        rm files/f8.stm
    done
    {
        strace -f -qq -o /dev/null -e trace=rename -e inject=rename:signal=KILL "$sealer" seal --key "$key" --ledger files/pair/ledger --device 1 \
            --witness files/pair/w files/f8 > out 2> err
    } 2> /dev/null
    is witness-left test "$(find files/pair -name 'w.*.new' | wc -l) $(ls files/f8.stm 2> /dev/null)" = '1 '
    # both would renew it for the number 2
    pair 2 files/f8
    wants witness-after-a-kill 0 'sealed files/f8 file 1 bytes 2' ''
    rm files/f8.stm
    pair 1 files/f8
    wants witness-after-its-own-kill 0 'sealed files/f8 file 2 bytes 2' ''
    rm files/f8.stm
    is witness-left-alone test "$(find files/pair -name 'w.*.new' | wc -l)" = 1
fi
if [ "$(id -u)" = 0 ]; then
    chown 65534:65534 files/real
    moved files/f8
    goes witness-of-another-user
    is witness-keeps-its-owner test "$(stat -c '%u:%g %a' files/real)" = '65534:65534 600'
    rm files/f8.stm
    cp files/real files/good
fi
is witness-not-renewed-no-file test "$(ls files/f8.stm files/real.* 2> /dev/null)" = ''
moved files/f8
goes witness-after-that
# it is no FILE
moved files/real
wants witness-is-no-file 1 'failed files/real: cannot open' ''
# a stream
next_seen() { sed -n 's/.* device 1 next \([0-9]*\) .*/\1/p' files/real; }
number=$(next_seen)
run pipe --key "$key" --ledger files/moved/ledger --device 1 --witness files/w < files/f9
is witness-stream test "$status $(cat err)" = "0 sealed - file $number bytes 2"
is witness-of-the-stream test "$(next_seen)" = $((number + 1)) -a "$number" -ge 9

# Two runs at once on one missing ledger: no number is issued twice, and one that is refused says so.
for i in 1 2 3 4 5 6 7 8 9 10; do
    mkdir "life/both$i"
    echo "$i" > "life/both$i/a"
    echo "$i" > "life/both$i/b"
    "$sealer" seal --key "$key" --ledger "life/both$i/ledger" --device 1 "life/both$i/a" > both.a 2>&1 & one=$!
    "$sealer" seal --key "$key" --ledger "life/both$i/ledger" --device 1 "life/both$i/b" > both.b 2>&1
    wait "$one"
    case $(cat both.a both.b | sed 's,life/both[0-9]*/,,' | sort | tr '\n' ';') in
        'ledger: cannot open;sealed a file 0 bytes '*';' | 'ledger: cannot open;sealed b file 0 bytes '*';') ;;
        'sealed a file 0 bytes '*';sealed b file 1 bytes '*';' | 'sealed a file 1 bytes '*';sealed b file 0 bytes '*';') ;;
        *) bad=1; echo "both-$i: $(cat both.a both.b)" ;;
    esac
    runs=$((runs + 1))
done

# Two runs at once for one output: one of them makes it. The other finds it there as it begins, or as it ends.
for i in 1 2 3 4 5 6 7 8 9 10; do
    cp life/numbers "life/race$i"
    "$sealer" seal --key "$key" --ledger life/race.a --device 1 "life/race$i" > race.a 2>&1 & one=$!
    "$sealer" seal --key "$key" --ledger life/race.b --device 2 "life/race$i" > race.b 2>&1
    wait "$one"
    is "race-$i" test "$(cat race.a race.b | sed 's/ file .*//; s/write failed$/output exists/' | sort | tr '\n' ';')" = \
        "failed life/race$i: output exists;sealed life/race$i;"
    run verify --key "$key" "life/race$i.stm"
    wants "race-$i-good" 0 "good life/race$i.stm bytes 1492" ''
done
run seal --key "$key" --ledger /dev/null --device 1 life/numbers
wants device-as-ledger 2 '' 'ledger: cannot open'

# A file of 42 chunks: in rounds of any number of chunks it becomes the container that Python's `cryptography` makes.
mkdir life/windows
number=0
for window in 1 2 16 256; do
    seq 1 400000 > "life/windows/$window"
    run seal --key "$key" --ledger life/windows/ledger --device 3 --workers 3 --window "$window" "life/windows/$window"
    wants "window $window" 0 "sealed life/windows/$window file $number bytes 2688895" ''
    if has cryptography; then
        python3 "$here/tools/seal_container.py" "$key" 3 "$number" "life/windows/$window" life/windows/wanted
        is "window-$window-container" cmp -s life/windows/wanted "life/windows/$window.stm"
    fi
    number=$((number + 1))
done
run verify --key "$key" --workers 4 life/windows/1.stm
wants windows-good 0 'good life/windows/1.stm bytes 2688895' ''
rm life/windows/1
run open --key "$key" --workers 4 life/windows/1.stm
wants windows-opened 0 'opened life/windows/1.stm bytes 2688895' ''
is windows-opened-whole cmp -s life/windows/1 life/windows/2
seq 1 400000 > life/windows/long
run seal --key "$key" --ledger life/windows/ledger --device 3 --max-bytes 2688894 life/windows/long
wants windows-too-long 1 'failed life/windows/long: too long' ''
is windows-too-long-leaves-none no test -e life/windows/long.stm
run seal --key "$key" --ledger life/windows/ledger --device 3 --lanes 2 --window 1 life/windows/long
wants windows-and-lanes 0 'sealed life/windows/long file 5 bytes 2688895' ''
rm life/windows/1
printf 'x' | dd of=life/windows/1.stm bs=1 seek=$((24 + 17 * 65552 + 5)) conv=notrunc 2>/dev/null
run verify --key "$key" life/windows/1.stm
wants window-2-damaged 1 'failed life/windows/1.stm: chunk 17 does not check' ''
run open --key "$key" --workers 2 life/windows/1.stm
wants window-2-damaged-open 1 'failed life/windows/1.stm: chunk 17 does not check' ''
is window-2-damaged-writes-nothing no test -e life/windows/1

# A pipe gives three chunks and a byte, and then nothing more: in rounds of one chunk two were written by then, in rounds of 16 none.
for window in 1 16 none; do
    pipe=life/windows/pipe$window
    mkfifo "$pipe"
    exec 8<> "$pipe"
    "$sealer" seal --key "$key" --ledger "$pipe.ledger" --device 1 $([ "$window" = none ] || echo "--window=$window") "$pipe" > out 2> err &
    held=$!
    head -c 196609 /dev/zero >&8
    written=0
    [ "$window" = 1 ] && written=$((24 + 2 * 65552))
    for _ in $(seq 200); do [ "$(stat -c %s "$(parts life/windows)" 2>/dev/null)" = "$written" ] && break; sleep 0.05; done
    sleep 0.5
    is "window-$window-held" test "$(stat -c %s "$(parts life/windows)")" = "$written"
    kill -9 "$held"
    wait "$held" 2>/dev/null
    exec 8>&-
    rm "$(parts life/windows)"
done

# Files of more than 64 MiB with two lanes: each is a job of its own, whole in memory.
fresh
yes one | head -c 70000001 > files/one
yes other | head -c 67108865 > files/other
run seal --key "$key" --ledger files/ledger --device 1 --lanes 2 files/one files/other
unnumbered
wants large-jobs 0 'sealed files/one bytes 70000001
sealed files/other bytes 67108865' ''
mv files/one one.plain
mv files/other other.plain
run open --key "$key" files/one.stm files/other.stm
wants large-jobs-opened 0 'opened files/one.stm bytes 70000001
opened files/other.stm bytes 67108865' ''
for name in one other; do is "plaintext-of-large-$name" cmp -s "files/$name" "$name.plain"; done
rm -f files/one files/other files/*.stm one.plain other.plain

# Causes, by --verbose: a second line after a fault of the key, the list, the journal or the ledger.
fresh
mkdir files/d files/full
install -m 600 "$key" files/key
caused() { # NAME FAULT CAUSE ARGS..
    run "${@:4}"
    wants "cause: $1" 2 '' "$2
cause: $3"
}
long=$(printf 'x%.0s' $(seq 256))
caused key-none 'key: cannot open' 'there is no such file' verify --key none --verbose files/numbers.stm
caused key-no-folder 'key: cannot open' 'the folder is missing' open --key none/key --verbose files/numbers.stm
caused key-below-a-file 'key: cannot open' 'a part of the path is no folder' open --key files/key/key --verbose files/numbers.stm
caused key-folder 'key: cannot open' 'it is a folder' verify --verbose --key files files/numbers.stm
caused key-long 'key: cannot open' 'the name is too long' verify --verbose --key "$long" files/numbers.stm
caused key-unread 'key: read failed' 'the system reports an error' verify --verbose --key /proc/self/mem files/numbers.stm
ln -s circle files/circle
caused key-circle 'key: cannot open' 'symbolic links lead in a circle' verify --verbose --key files/circle files/numbers.stm
caused key-text 'key: not a key file' 'it is not 64 hex digits and at most one end of line' verify --verbose --key numbers.plain files/numbers.stm
caused list-none 'usage: cannot read the list' 'there is no such file' open --verbose --key none --files-from none
caused list-folder 'usage: cannot read the list' 'it is a folder' verify --verbose --key none --files-from files
run verify --verbose --key none --files-from - <&-
wants 'cause: list-closed' 2 '' 'usage: cannot read the list
cause: standard input cannot be read'
printf '\n' > files/list
run verify --verbose --key none --files-from files/list
wants 'cause: what a list holds' 2 '' 'usage: a name in the list is empty
cause: line 1 of the list is empty'
run verify --verbose --key files/key files/none
wants 'cause: a FILE' 1 'failed files/none: cannot open' 'cause: files/none: there is no such file'
# Of a FILE the cause has its name, since its line is on standard output. Without --verbose there is none.
file_caused() { # NAME FAULT CAUSE ARGS.., of which the last is FILE
    run "${@:4}" --verbose --key files/key "$file"
    wants "file-cause: $1" 1 "failed $file: $2" "cause: $file: $3"
    run "${@:4}" --key files/key "$file"
    wants "no-file-cause: $1" 1 "failed $file: $2" ''
}
mkdir files/x.stm
cp files/numbers.stm files/y.stm
: > files/y
file=none/f file_caused no-folder 'cannot open' 'the folder is missing' verify
file=files/key/f file_caused below-a-file 'cannot open' 'a part of the path is no folder' verify
file=files/x.stm file_caused folder 'cannot open' 'it is a folder' open
file=files/circle file_caused circle 'cannot open' 'symbolic links lead in a circle' verify
file=$long file_caused long 'cannot open' 'the name is too long' verify
file=files/y.stm file_caused exists 'output exists' "there is a file of the output's name" open
file=files/numbers.stm file_caused no-output-folder 'cannot create' 'the folder is missing' open --into none
file=files/numbers.stm file_caused no-output-folder-synced 'cannot create' 'the folder is missing' open --sync --into none
file=files/numbers.stm file_caused to-no-folder 'cannot create' 'the folder is missing' open --to none/a
file=files/numbers.stm file_caused output-below-a-file 'cannot create' 'a part of the path is no folder' open --to files/key/a
file=files/numbers.stm file_caused output-long 'cannot create' 'the name is too long' open --to "files/$long"
file=/proc/self/mem file_caused read-failed 'read failed' 'the system reports an error' verify
file=/proc/self/mem file_caused sealed-read-failed 'read failed' 'the system reports an error' seal --ledger files/f --device 1 --into files
file=/proc/self/mem file_caused lanes-read-failed 'read failed' 'the system reports an error' seal --ledger files/f --device 1 --into files --lanes 2
file=files/key file_caused own-key 'cannot open' "it is one of the run's own files" seal --ledger files/f --device 1
file=files/f-wal file_caused own-log 'cannot open' "it is one of the run's own files" seal --ledger files/f --device 1
run verify --verbose --key files/key - <&-
wants 'file-cause: closed' 1 'failed -: read failed' 'cause: -: standard input cannot be read'
# A name is shown as in the line.
file='files/no\nne' && run verify --verbose --key files/key --keep-going "$(printf 'files/no\nne')"
wants 'file-cause: quoted' 1 "failed $file: cannot open" "cause: $file: there is no such file"
run seal --verbose --key files/key --ledger files/f --device 1 --keep-going --into files numbers.plain ./numbers.plain
wants 'file-cause: shared' 1 "sealed numbers.plain file 8 bytes 1492
failed ./numbers.plain: output exists" "cause: ./numbers.plain: there is a file of the output's name"
run seal --verbose --key files/key --ledger files/f --device 2 --keep-going --into files/d --lanes 2 numbers.plain ./numbers.plain
wants 'file-cause: shared-by-lanes' 1 'sealed numbers.plain file 0 bytes 1492
failed ./numbers.plain: output exists' 'cause: ./numbers.plain: another FILE of the run has this output'
(trap '' XFSZ; ulimit -f 1; exec "$sealer" open --verbose --key files/key files/numbers.stm) > out 2> err; status=$?
wants 'file-cause: write' 1 'failed files/numbers.stm: write failed' 'cause: files/numbers.stm: no larger file is allowed, by its file system or a limit'
if command -v strace >/dev/null; then
    for fault in 'ENOSPC the disk is full, or a quota is reached' 'EDQUOT the disk is full, or a quota is reached' 'EIO the system reports an error'; do
        strace -f -o calls -e trace=fsync -e inject=fsync:error=${fault%% *} "$sealer" open --sync --verbose --key files/key files/numbers.stm > out 2> err
        status=$?
        wants "file-cause: sync ${fault%% *}" 1 'failed files/numbers.stm: write failed' "cause: files/numbers.stm: ${fault#* }"
    done
    strace -f -o calls -e trace=link -e inject=link:error=ENOENT:when=2 "$sealer" open --verbose --key files/key files/numbers.stm > out 2> err
    status=$?
    wants 'file-cause: part' 1 'failed files/numbers.stm: write failed' "cause: files/numbers.stm: the output's part is gone: another program removed or moved it"
fi
# Standard error fails: the run is as it would be without.
"$sealer" verify --verbose --key files/key files/none files/numbers.stm > out 2> /dev/full; status=$?; : > err
wants 'file-cause: full' 1 'failed files/none: cannot open
good files/numbers.stm bytes 1492' ''
"$sealer" verify --verbose --key files/key files/none files/numbers.stm > out 2>&-; status=$?; : > err
wants 'file-cause: closed' 1 'failed files/none: cannot open
good files/numbers.stm bytes 1492' ''
# Of unpipe the line is on standard error too. What can't be kept is told.
run unpipe --verbose --key files/key files/none
wants 'file-cause: unpipe' 1 '' 'cause: files/none: there is no such file
failed files/none: cannot open'
head -c 20000000 /dev/zero > files/kept
run seal --key files/key --ledger files/f --device 3 files/kept
wants 'file-cause: to-be-kept' 0 'sealed files/kept file 0 bytes 20000000' ''
(trap '' XFSZ; ulimit -f 1; exec "$sealer" unpipe --verbose --key files/key --spool files) < <(cat files/kept.stm) > out 2> err; status=$?
wants 'file-cause: spool' 1 '' 'cause: -: no larger file is allowed, by its file system or a limit
failed -: spool failed'
rm files/kept files/kept.stm
rmdir files/x.stm
rm -f files/y files/y.stm files/f files/f-wal files/numbers.plain.stm files/d/*
sealing() { caused "$1" "$2" "$3" seal --verbose --key files/key --device 1 --ledger "${@:4}" files/numbers.stm; }
: > files/j
sealing journal-exists 'journal: output exists' 'there is a file of this name' files/l --journal files/j
sealing journal-no-folder 'journal: cannot create' 'the folder is missing' files/l --journal none/j
sealing journal-long 'journal: cannot create' 'the name is too long' files/l --journal "$long"
sealing journal-of-the-ledger 'journal: cannot create' 'it is the ledger, or a file beside it' files/l --journal files/l-wal
sealing ledger-not-there 'ledger: not there' 'there is no such file' files/l --no-new-ledger
sealing ledger-not-there-no-folder 'ledger: not there' 'the folder is missing' none/l --no-new-ledger
: > files/l
sealing ledger-not-there-empty 'ledger: not there' 'the file is empty' files/l --no-new-ledger
rm files/l
sealing ledger-no-folder 'ledger: cannot open' 'the folder is missing' none/l
sealing ledger-folder 'ledger: cannot open' 'it is a folder' files/d
sealing ledger-device 'ledger: cannot open' 'it is no regular file' /dev/null
sealing ledger-long 'ledger: cannot open' 'the name is too long' "$long"
sealing ledger-memory 'ledger: cannot open' 'the path is :memory: or a URI' :memory:
sealing ledger-text 'ledger: cannot open' 'it is no database' numbers.plain
printf x > files/l
sealing ledger-of-one-byte 'ledger: cannot open' 'it is no database' files/l
rm files/l
cp numbers.plain files/l-wal
sealing log-of-no-ledger 'ledger: cannot open' 'LEDGER-wal is there and LEDGER is not: do not delete it' files/l
caused ledger-log-alone 'ledger: cannot open' 'LEDGER-wal is there and LEDGER is not: do not delete it' ledger --verbose --ledger files/l
: > files/l
sealing log-of-an-empty-ledger 'ledger: cannot open' 'LEDGER is empty and LEDGER-wal is not: do not delete them' files/l
rm files/l-wal
# a FIFO has no bytes either: nobody waits for a writer
mkfifo files/l-wal
timeout 60 "$sealer" seal --verbose --key files/key --device 1 --ledger files/l files/numbers.stm > out 2> err; status=$?
wants 'cause: fifo-as-log' 2 '' 'ledger: cannot open
cause: LEDGER-wal is no regular file, has more than one name, or gives no permission'
timeout 60 "$sealer" ledger --ledger files/l > out 2> err; status=$?
wants fifo-as-log-read 2 '' 'ledger: cannot open'
rm files/l files/l-wal
cp numbers.plain files/a
run seal --key files/key --ledger files/l --device 1 --verbose files/a
wants verbose-seal 0 'sealed files/a file 0 bytes 1492' ''
ln files/l files/second
sealing ledger-of-two-names 'ledger: cannot open' 'the file has more than one name (a hard link)' files/l
caused ledger-of-two-names-read 'ledger: cannot open' 'the file has more than one name (a hard link)' ledger --verbose --ledger files/l
rm files/second
rm files/l-wal
mkdir files/l-wal
sealing ledger-unusable-log 'ledger: cannot open' 'LEDGER-wal is no regular file, has more than one name, or gives no permission' files/l
rmdir files/l-wal
ln -s nowhere files/l-wal
sealing ledger-dangling-log 'ledger: cannot open' 'LEDGER-wal is no regular file, has more than one name, or gives no permission' files/l
rm files/l-wal
printf 'a journal' > files/l-journal
sealing ledger-left-journal 'ledger: cannot open' 'another program left LEDGER-journal, which only that program can play back' files/l
rm files/l-journal
head -c 4096 files/l > files/cut
sealing ledger-damaged 'ledger: cannot open' 'the database is damaged or was altered, or memory was refused' files/cut
caused ledger-damaged-read 'ledger: cannot open' 'the database is damaged or was altered, or memory was refused' ledger --verbose --ledger files/cut
if has sqlite3; then
    sqlite3 files/other 'CREATE TABLE t (a); INSERT INTO t VALUES (1)'
    sealing ledger-of-another 'ledger: not a ledger' 'the database holds something else than a ledger' files/other
    sqlite3 files/bare 'PRAGMA user_version = 1'
    sealing ledger-without-tables 'ledger: not there' 'the database has no tables yet' files/bare --no-new-ledger
fi
# another run holds it; the same fault without the option, and of `pipe`
mkfifo files/waits
exec 8<> files/waits
"$sealer" seal --key files/key --ledger files/l --device 1 files/waits > first 2> first.err &
first=$!
for _ in $(seq 200); do [ -n "$(parts files)" ] && break; sleep 0.05; done
sealing ledger-held 'ledger: cannot open' 'another run holds it' files/l
run seal --key files/key --ledger files/l --device 1 files/numbers.stm
wants no-cause-unasked 2 '' 'ledger: cannot open'
run pipe --verbose --key files/key --ledger files/l --device 1 < numbers.plain
wants 'cause: held-of-a-stream' 2 '' 'ledger: cannot open
cause: another run holds it'
kill -9 "$first"
wait "$first" 2>/dev/null
exec 8>&-
# nobody holds it, and the system refuses a call of its opening
if command -v strace >/dev/null; then
    strace -f -o calls -P "$PWD/files/l" -e trace=fsync -e inject=fsync:error=EIO "$sealer" seal --verbose --key files/key --ledger files/l --device 1 \
        files/numbers.stm > out 2> err
    status=$?
    wants 'cause: ledger-that-cannot-be-synced' 2 '' 'ledger: cannot open
cause: the system reports an error'
fi
# modes
mkdir locked/mine locked/blind
chmod 333 locked/blind
cp files/key locked/no-key
cp files/l locked/no-ledger
cp files/key locked/key
chmod 600 locked/key
chmod 755 locked
[ "$(id -u)" != 0 ] || chown 65534 locked/no-key locked/key locked/no-ledger
chmod 000 locked/no-key locked/no-ledger
chmod 555 locked locked/mine
unprivileged verify --verbose --key no-key numbers.stm
wants 'cause: key-of-no-mode' 2 '' 'key: cannot open
cause: this user has no permission'
unprivileged seal --verbose --key key --ledger no-ledger --device 1 a
wants 'cause: ledger-of-no-mode' 2 '' 'ledger: cannot open
cause: this user has no permission'
unprivileged seal --verbose --key key --ledger mine/l --device 1 a
wants 'cause: ledger-in-a-locked-folder' 2 '' 'ledger: cannot open
cause: it cannot be made: another run makes it, or see its folder'\''s mode, the disk'\''s room, and the path'\''s length and UTF-8'
unprivileged seal --verbose --key key --ledger blind/l --device 1 a
wants 'cause: ledger-in-an-unreadable-folder' 2 '' 'ledger: cannot open
cause: this user has no permission'
unprivileged seal --verbose --key key --ledger l --device 1 --journal mine/j a
wants 'cause: journal-in-a-locked-folder' 2 '' 'journal: cannot create
cause: this user has no permission'
chmod 755 locked locked/mine locked/blind
if mount -t tmpfs -o size=300k none files/full 2>/dev/null; then
    cat /dev/zero > files/full/fill 2>/dev/null
    sealing ledger-full-disk 'ledger: cannot open' 'it cannot be made: another run makes it, or see its folder'\''s mode, the disk'\''s room, and the path'\''s length and UTF-8' files/full/l
    umount files/full
fi
# A key file that others can read or write: the run goes on.
for mode in 640 604 620 602 444; do
    chmod $mode files/key
    run verify --verbose --key files/key files/numbers.stm
    wants "warning $mode" 0 'good files/numbers.stm bytes 1492' 'warning: files/key can be read by others'
    run verify --key files/key files/numbers.stm
    wants "no-warning-unasked $mode" 0 'good files/numbers.stm bytes 1492' ''
done
run pipe --verbose --key files/key --ledger files/l --device 1 < numbers.plain
is warning-of-a-stream test "$status $(tr '\n' ';' < err)" = '0 warning: files/key can be read by others;sealed - file 2 bytes 1492;'
for mode in 600 400 700; do
    chmod $mode files/key
    run verify --verbose --key files/key files/numbers.stm
    wants "no-warning $mode" 0 'good files/numbers.stm bytes 1492' ''
done
run audit --verbose < /dev/null
wants audit-without-files-has-no-causes 1 'malformed line 1' ''
# On a terminal both come unasked.
cat > on_terminal.py <<'END'
import os, pty, subprocess, sys
main, other = pty.openpty()
run = subprocess.Popen(sys.argv[1:], stdout=subprocess.DEVNULL, stderr=other)
run.wait()
os.close(other)
text = b""
try:
    while more := os.read(main, 65536):
        text += more
except OSError:
    pass
print(run.returncode, *text.decode().splitlines(), sep=";")
END
is cause-on-a-terminal test "$(python3 on_terminal.py "$sealer" verify --key none files/numbers.stm)" = '2;key: cannot open;cause: there is no such file'
is cause-of-a-ledger-on-a-terminal test "$(python3 on_terminal.py "$sealer" ledger --ledger none)" = '2;ledger: not there;cause: there is no such file'
chmod 644 files/key
is warning-on-a-terminal test "$(python3 on_terminal.py "$sealer" verify --key files/key files/numbers.stm)" = '0;warning: files/key can be read by others'
fresh

# Lines as JSON: one object a line, which Python reads. Written again by the rules of docs/MANUAL.md they are the lines of the same run
# without --json, and the last one counts them.
cat > objects.py <<'END'
import json, os, sys

def label(o):
    if "label_hex" in o:
        found = bytes.fromhex(o["label_hex"])
        assert "label" not in o
    elif "label" in o:
        found = o["label"].encode()
    else:
        return ""
    shown = "".join(chr(b) if 32 <= b < 127 and b not in b'"\\' else f"\\x{b:02x}" for b in found)
    return f' label "{shown}"'

def line(o):
    match o["status"]:
        case "sealed":
            return f"sealed {o['file']} file {o['number']} bytes {o['bytes']}"
        case "kept":
            return f"kept {o['file']}"
        case "opened":
            return f"opened {o['file']} bytes {o['bytes']}"
        case "failed":
            return f"failed {o['file']}: {o['fault']}"
        case "good":
            return (f"good {o['file']} bytes {o['bytes']}\n  version {o['version']} chunk {o['chunk']} device {o['device']}"
                    f" file {o['number']}{label(o)}")
        case "unchecked":
            return (f"unchecked {o['file']} version {o['version']} chunk {o['chunk']} key {o['key']} device {o['device']}"
                    f" file {o['number']} bytes {o.get('bytes', '?')}{label(o)}")
        case "ledger" if "device" not in o:
            assert o["ranges"] == o["given"] == 0
            return f"key {o['key']} no ranges"
        case "older":
            return f"ledger: older than {o['file']}"
        case "not_sealed":
            return f"not sealed {o['file']}"
        case "missing":
            return f"missing file {o['number']}"
        case "ledger":
            return f"key {o['key']} device {o['device']} ranges {o['ranges']} given {o['given']} left {o['left']}"
        case "audit" if o["verdict"] == "legal":
            return (f"legal: {o['granted']} granted, {o['sealed']} sealed, {o['void']} void, {o['open']} open,"
                    f" {o['refused']} refused")
        case "audit":
            return f"{o['verdict']} line {o['line']}"

def counted(objects, total):
    for name, count in total.items():
        if name == "bytes" or name in ("ranges", "given"):
            assert count == sum(o.get(name, 0) for o in objects), name
        elif name == "lines":
            assert count == sum(o["status"] == "ledger" for o in objects)
        elif name in ("legal", "malformed", "illegal"):
            assert count == sum(o.get("verdict") == name for o in objects), name
        elif name != "status":
            assert count == sum(o["status"] == name for o in objects), name

# objects.py TEXT OBJECTS TOTALS..: the lines of a run, the objects of another, and what the last object counts
with open(sys.argv[1], encoding="utf-8", newline="\n") as it:
    text = it.read()
with open(sys.argv[2], encoding="utf-8", newline="\n") as it:
    objects = [json.loads(row) for row in it]
*objects, total = objects
assert total["status"] == "total" and list(total)[1:] == sys.argv[3:], total
assert "".join(line(o) + "\n" for o in objects) == text, (text, objects)
counted(objects, total)
for o in objects:
    if o["status"] in ("sealed", "opened", "kept"):
        assert os.path.isfile(o["output"]), o
    if o["status"] == "sealed":
        assert o["device"] == 1
END
# alike NAME STATUS STREAM TOTALS..: the last run had this status, and its objects are the lines of the run before, which are in $room/text
alike() {
    is "$1" python3 objects.py text "$3" "${@:4}"
    is "$1-status" test "$status" = "$2"
}
mkdir json json/texts json/objects
# the names, each a file of its own number of bytes: grammar, quotes, backslashes, controls, ends of line, and letters outside the first plane
odd=(json/plain 'json/x file 3 bytes 4' 'json/a: b' $'json/"q\\u"' $'json/two\nlines' $'json/\x01\x1b\x7f\t\r' $'json/\xf0\x9f\x94\x92\xe2\x80\xa8'
    $'json/good x bytes 3\n  version 1 chunk 65536 device 1 file 3')
for i in "${!odd[@]}"; do seq 1 "$i" > "${odd[$i]}"; done
sealed() { run seal --key "$key" --device 1 "$@" -- "${odd[@]}" 'json/no: ne'; }
sealed --ledger json/one --into json/texts
cp out text
sealed --ledger json/two --into json/objects --json
alike json-seal 1 out sealed kept failed bytes
cp out json/sealed
is json-seal-says-no-more test ! -s err
sealed --ledger json/one --into json/texts --skip-existing
cp out text
sealed --ledger json/two --into json/objects --json --skip-existing
alike json-kept 1 out sealed kept failed bytes
sealed --ledger json/one --into json/texts --quote
cp out text
run seal --key "$key" --device 1 --ledger json/two --into json/objects --quote --json -- "${odd[@]}" 'json/no: ne'
alike json-quote 1 out sealed kept failed bytes
run seal --key "$key" --device 1 --ledger json/two --into json/objects// --skip-existing --json -- json/plain
wants json-into-with-slashes 0 '{"status":"kept","file":"json/plain","output":"json/objects/plain.stm"}
{"status":"total","sealed":0,"kept":1,"failed":0,"bytes":0}' ''
run seal --key "$key" --device 1 --ledger json/two --into json/objects --quiet -- json/plain json/none
wants quiet-failed 1 'failed json/plain: output exists
failed json/none: cannot open
total: 0 sealed, 0 kept, 2 failed, 0 bytes' ''
run seal --key "$key" --device 1 --ledger json/two --into json/objects --quiet -- json/plain year/plain
wants quiet-usage 2 '' 'usage: two FILEs have one last name'
run seal --key "$key" --device 1 --ledger json/two --quiet --label $'l\x01"\\' -- json/plain 'json/no: ne'
wants quiet-seal 1 'failed json/no: ne: cannot open
total: 1 sealed, 0 kept, 1 failed, 0 bytes' ''
containers=(json/texts/*.stm json/plain.stm files/numbers.stm none.stm)
run verify --key "$key" --show -- "${containers[@]}"
cp out text
run verify --key "$key" --json -- "${containers[@]}"
alike json-verify 1 out good failed bytes
run verify --key "$key" --quiet --show -- "${containers[@]}"
wants quiet-verify 1 "failed none.stm: cannot open
total: 10 good, 1 failed, 1548 bytes" ''
run verify --key "$key" --quiet --json none.stm
wants quiet-json 1 '{"status":"failed","file":"none.stm","fault":"cannot open"}
{"status":"total","good":0,"failed":1,"bytes":0}' ''
mkdir json/back json/again
run open --key "$key" --into json/back -- json/texts/*.stm none.stm
cp out text
run open --key "$key" --into json/again --json -- json/texts/*.stm none.stm
alike json-open 1 out opened kept failed bytes
is json-open-opens diff -r json/back json/again
run open --key "$key" --to json/named --json files/numbers.stm
wants json-to 0 '{"status":"opened","file":"files/numbers.stm","output":"json/named","bytes":1492}
{"status":"total","opened":1,"kept":0,"failed":0,"bytes":1492}' ''
run open --key "$key" --into json/back --quiet -- json/texts/plain.stm
wants quiet-open 1 'failed json/texts/plain.stm: output exists
total: 0 opened, 0 kept, 1 failed, 0 bytes' ''
run ledger --ledger json/one
cp out text
run ledger --ledger json/one --json
alike json-ledger 0 out lines ranges given
run ledger --ledger none --json
wants json-no-ledger 2 '' 'ledger: not there'
for journal in life/journal /dev/null; do
    run audit < $journal
    cp out text
    code=$status
    run audit --json < $journal
    alike "json-audit $journal" $code out legal malformed illegal
done
run pipe --key "$key" --ledger json/three --device 1 --json < numbers.plain
cp out json/stream.stm
: > out
wants json-pipe 0 '' '{"status":"sealed","file":"-","number":0,"device":1,"bytes":1492}
{"status":"total","sealed":1,"failed":0,"bytes":1492}'
run unpipe --key "$key" --json < json/stream.stm
wants json-unpipe 0 "$(cat numbers.plain)" '{"status":"opened","file":"-","bytes":1492}
{"status":"total","opened":1,"failed":0,"bytes":1492}'
run unpipe --key "$key" --json < numbers.plain
wants json-unpipe-failed 1 '' '{"status":"failed","file":"-","fault":"not a sealed file"}
{"status":"total","opened":0,"failed":1,"bytes":0}'
run unpipe --key none --json < json/stream.stm
wants json-complaint 2 '' 'key: cannot open'
run pipe --key "$key" --ledger json/three --device 1 --journal /dev/full --json < numbers.plain
wants json-journal 2 '' 'journal: output exists'
# A line that can't be written, or only the totals'.
"$sealer" verify --key "$key" --json files/numbers.stm > /dev/full 2> err; status=$?; : > out
wants json-full 2 '' ''
"$sealer" verify --key "$key" --quiet files/numbers.stm > /dev/full 2> err; status=$?; : > out
wants quiet-full 2 '' ''
"$sealer" verify --key "$key" --json files/numbers.stm 2> err >&-; status=$?; : > out
wants json-closed 2 '' ''
"$sealer" unpipe --key "$key" --json files/numbers.stm > out 2> /dev/full; status=$?; : > err
wants json-full-errors 2 "$(cat numbers.plain)" ''

# Headers without a key. A name has the grammar of their lines, and labels have bytes that are no text.
mkdir json/heads
: > 'json/heads/a version 1 chunk 8 key b device 1 file 2 bytes ? label "l"'
seq 1 9 > $'json/heads/two\nlines'
looked=(json/heads/*)
run seal --key "$key" --ledger json/heads/l --device 1 --journal json/heads/journal -- "${looked[@]}"
cp json/heads/l json/before
seq 1 3 | tee json/heads/late > json/bare
run seal --key "$key" --ledger json/heads/l --device 1 --label "$(printf 'a"\\\t\303\244')" -- json/heads/late
run seal --key "$key" --ledger json/heads/l --device 2 --label '' -- json/bare
python3 - json/heads/late.stm json/heads/foul.stm <<'END'
import sys
octets = open(sys.argv[1], "rb").read()
at = octets.index(b'a"')
open(sys.argv[2], "wb").write(octets[:at] + b"\xff" + octets[at + 1:])
END
head -c 25 "${looked[0]}.stm" > json/heads/short.stm
looked=(json/heads/*.stm json/bare.stm json/none.stm $'json/heads/two\nlines')
run show -- "${looked[@]}"
cp out text
is show-has-unknown-bytes grep -q ' bytes ?$' out
run show --json -- "${looked[@]}"
alike json-show 1 out unchecked failed
is json-show-label-hex grep -q '"label_hex":"ff' out
is json-show-label grep -q '"label":""' out
run show --quote -- "${looked[@]}"
cp out text
run show --quote --json -- "${looked[@]}"
alike json-show-quote 1 out unchecked failed
run show --json json/bare.stm
is json-show-good test "$status" = 0
printf '%064x' 7 > json/other-key
run ledger --ledger json/heads/l --key json/other-key
cp out text
is held-of-no-range grep -q '^key [0-9a-f]* no ranges$' out
run ledger --ledger json/heads/l --key json/other-key --json
alike json-no-ranges 0 out lines ranges given
run ledger --ledger json/before --against -- "${looked[@]}"
cp out text
is older-than-one grep -q '^ledger: older than json/heads/late.stm$' out
run ledger --ledger json/before --against --json -- "${looked[@]}"
alike json-older 1 out lines ranges given failed older
run ledger --ledger json/heads/l --against json/bare.stm
cp out text
run ledger --ledger json/heads/l --against --json json/bare.stm
alike json-not-older 0 out lines ranges given failed older
run audit --against $'json/heads/two\nlines.stm' json/bare.stm json/none.stm < json/heads/journal
cp out text
is one-is-missing grep -q '^missing file 0$' out
is one-is-not-sealed grep -q '^not sealed json/bare.stm$' out
run audit --against --json $'json/heads/two\nlines.stm' json/bare.stm json/none.stm < json/heads/journal
alike json-audit-against 1 out legal malformed illegal failed not_sealed missing
"$sealer" show --json json/bare.stm > /dev/full 2> err; status=$?; : > out
wants json-show-full 2 '' 'show: write failed'
# The containers of a year, against the lines of the runs that made them: what is missing, exchanged, older, unknown or cut.
mkdir year year/old
for i in 1 2 3 4 5 6; do seq 1 $i > "year/$i"; done
yearly() { run seal --key "$key" --ledger year/ledger --device 1 "$@"; cat out >> year/lines; }
yearly year/1 year/2 year/3
cp year/3.stm year/old
mv year/3.stm year/third
yearly year/3 year/4 year/5 year/6 year/none
against() { run verify --key "$key" --against year/lines "$@"; }
against year/[1-6].stm
wants against 0 "$(for i in 1 2 3 4 5 6; do echo "good year/$i.stm bytes $((2 * i))"; done)" ''
against --show year/1.stm year/[2-6].stm
is against-shows test "$(grep -c '^  version 1 chunk 65536 device 1 file ' out)" = 6
against --quiet year/[1-6].stm
wants against-quiet 0 'total: 6 good, 0 failed, 0 missing, 0 other number, 0 not listed, 42 bytes' ''
rm year/1.stm
mv year/2.stm year/swap; mv year/4.stm year/2.stm; mv year/swap year/4.stm
cp year/old/3.stm year/3.stm
cp year/5.stm year/seven.stm
truncate -s 30 year/6.stm
against year/*.stm
wants against-damages 1 'good year/2.stm bytes 8
good year/3.stm bytes 6
good year/4.stm bytes 4
good year/5.stm bytes 10
failed year/6.stm: wrong length
good year/seven.stm bytes 10
other number year/2.stm
other number year/3.stm
other number year/4.stm
not listed year/seven.stm
missing year/1.stm' ''
against --quiet year/*.stm
wants against-quiet-damages 1 'failed year/6.stm: wrong length
other number year/2.stm
other number year/3.stm
other number year/4.stm
not listed year/seven.stm
missing year/1.stm
total: 5 good, 1 failed, 1 missing, 3 other number, 1 not listed, 38 bytes' ''
against --json --quiet year/5.stm year/2.stm year/seven.stm year/3.stm year/4.stm year/6.stm
wants against-json 1 '{"status":"failed","file":"year/6.stm","fault":"wrong length"}
{"status":"other_number","file":"year/2.stm","number":4,"listed":1}
{"status":"not_listed","file":"year/seven.stm","number":5}
{"status":"other_number","file":"year/3.stm","number":2,"listed":3}
{"status":"other_number","file":"year/4.stm","number":1,"listed":4}
{"status":"missing","file":"year/1.stm","listed":0}
{"status":"total","good":5,"failed":1,"missing":1,"other_number":3,"not_listed":1,"bytes":38}' ''
# In a folder: the same words as for seal. A name that --quote shows is one in the lines too.
mkdir year/in year/'b\c'
seq 1 3 > $'year/a\nb'
run seal --key "$key" --ledger year/ledger --device 1 --into year/in --quote year/5 $'year/a\nb'
cp out year/lines
against --into year/in --quote year/in/*.stm
wants against-into 0 'good year/in/5.stm bytes 10
good year/in/a\nb.stm bytes 6' ''
against --into year/in/ --quote year/in/*.stm
wants against-into-with-a-slash 0 'good year/in/5.stm bytes 10
good year/in/a\nb.stm bytes 6' ''
# Lines that seal doesn't print of a FILE are passed over, and counted: JSON, with a carriage return, or no text.
{ printf '{"status":"sealed"}\n\n\377\nkept a\nfailed a: cannot open\n'; sed 's/$/\r/' year/lines; cat year/lines; } > year/others
run verify --key "$key" --against year/others --into year/in --quote year/in/*.stm
wants against-others 0 'good year/in/5.stm bytes 10
good year/in/a\nb.stm bytes 6' 'warning: lines of year/others passed over: 4'
against --quote year/in/*.stm
wants against-not-into 1 'good year/in/5.stm bytes 10
good year/in/a\nb.stm bytes 6
not listed year/in/5.stm
not listed year/in/a\nb.stm
missing year/5.stm
missing year/a\nb.stm' ''
mv year/in/*.stm 'year/b\c'
against --into 'year/b\c' --quote year/b*/*.stm
wants against-quoted-folder 0 'good year/b\\c/5.stm bytes 10
good year/b\\c/a\nb.stm bytes 6' ''
# With the folders of their paths, as with --parents of seal.
mkdir year/p year/p/q year/below
seq 1 4 > year/p/q/5
seq 1 4 > $'year/p/a\nb'
run seal --key "$key" --ledger year/ledger --device 1 --into year/below --parents --quote year/5 ./year//p/./q/5 "$PWD"/year/p/a*
cp out year/lines
mapfile -d '' -t below < <(find year/below -name '*.stm' -print0 | sort -z)
against --into year/below --parents --quiet --quote "${below[@]}"
wants against-parents 0 'total: 3 good, 0 failed, 0 missing, 0 other number, 0 not listed, 26 bytes' ''
against --into year/below --parents --quote --json "${below[@]}"
is against-parents-json python3 -c 'import json, sys
*objects, total = [json.loads(row) for row in open(sys.argv[1])]
assert len(objects) == total["good"] == 3 and total["missing"] == total["not_listed"] == total["other_number"] == 0' out
mv year/below/year/5.stm year/swap; mv year/below/year/p/q/5.stm year/below/year/5.stm; mv year/swap year/below/year/p/q/5.stm
rm year/below"$PWD"/year/p/a*.stm
against --into year/below --parents --quiet --quote year/below/year/5.stm year/below/year/p/q/5.stm
wants against-parents-damages 1 "other number year/below/year/5.stm
other number year/below/year/p/q/5.stm
missing year/below$PWD/year/p/a\\nb.stm
total: 2 good, 0 failed, 1 missing, 2 other number, 0 not listed, 18 bytes" ''
against --into year/below --quiet --quote year/below/year/5.stm
is against-without-parents test "$status $(grep -c '^missing year/below/[^/]*$' out)" = '1 2'
run verify --key "$key" --against year/lines --parents year/5.stm
wants parents-without-into 2 '' 'begins error: the following required arguments were not provided:
  --into <DIR>'
# Lines: none, of two for one output the last, and bytes that are no text.
: > year/lines
against 'year/b\c/5.stm'
wants against-nothing 1 'good year/b\c/5.stm bytes 10
not listed year/b\c/5.stm' ''
printf 'sealed year/5 file 4 bytes 10\nsealed \xff file 1 bytes 1\nkept year/9\nfailed year/8: cannot open\nsealed year/5 file 99999999999 bytes 1\nsealed year/5 file 5 bytes 10' > year/lines
against year/5.stm
wants against-last-line 0 'good year/5.stm bytes 10' 'warning: lines of year/lines passed over: 2'
run verify --key "$key" --against year/none year/5.stm
wants against-no-file 2 '' 'against: cannot open'
run verify --key "$key" --against year year/5.stm
wants against-a-folder 2 '' 'against: cannot open'
run verify --key "$key" --verbose --against year/none year/5.stm
wants against-cause 2 '' 'against: cannot open
cause: there is no such file'
"$sealer" verify --key "$key" --against year/lines year/1.stm > /dev/full 2> err; status=$?; : > out
wants against-full 2 '' 'warning: lines of year/lines passed over: 2'

# Three chunks and more, sealed by Python's `cryptography`, if it is installed.
if has cryptography; then
    fresh
    seq 1 60000 > more.plain
    python3 "$here/tools/seal_container.py" "$key" 16777215 4294967295 more.plain files/more.stm
    run open --key "$key" files/more.stm
    wants chunks 0 'opened files/more.stm bytes 348894' ''
    is chunks-opened cmp -s files/more more.plain
    printf 'x' | dd of=files/more.stm bs=1 seek=200000 conv=notrunc 2>/dev/null
    run verify --key "$key" files/more.stm
    wants third-chunk 1 'failed files/more.stm: chunk 3 does not check' ''
fi

for tool in $missing; do
    echo "left out: the runs that need $tool"
    [ -z "${CI:-}" ] || bad=1
done
[ $bad = 0 ] && echo "$runs runs as they should be"
exit $bad
