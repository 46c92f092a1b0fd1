#!/bin/bash
# Reads a ledger file of the built program with the stock sqlite3, and gives the program one that sqlite3 made. Without sqlite3 it exits with
# status 0, and under CI it fails.
set -eu
cd "$(dirname "$0")/.."
if ! command -v sqlite3 >/dev/null; then
    echo "ledger_file_check: skipped, sqlite3 isn't there"
    [ -z "${CI:-}" ] && exit 0 || exit 1
fi
sealer=$PWD/crates/sealer/out/sealer
formats=$PWD/docs/FORMATS.md
folder=$(mktemp -d)
trap 'rm -rf "$folder"' EXIT
cd "$folder"
printf '%064d\n' 7 > key
key_id=$(head -c 64 key | python3 -c 'import sys, hashlib; print(hashlib.sha256(bytes.fromhex(sys.stdin.read())).hexdigest().upper())')
# ours LEDGER DEVICE COUNT: runs over COUNT missing files, which reserves a number for each; prints the first line of the journal
ours() {
    local status=0
    rm -f journal
    # shellcheck disable=SC2046
    "$sealer" seal --key key --ledger "$1" --device "$2" --journal journal $(seq "$3") >lines 2>errors || status=$?
    [ "$status" = 1 ] && head -n 1 journal || echo "status $status: $(cat errors)"
}
wants() { # NAME WANTED GOT
    [ "$2" = "$3" ] || { echo "ledger_file_check: $1: '$3', not '$2'"; exit 1; }
}
on_one_line() { tr '\n' ' ' | sed 's/ $//'; }

# A file of the program.
wants 'first range' 'range 1 0 3 1' "$(ours ours 1 3)"
wants 'second range' 'range 1 3 1 1' "$(ours ours 1 1)"
wants 'other device' 'range 2 0 9999 1' "$(ours ours 2 9999)"
cp ours alone
wants integrity ok "$(sqlite3 ours 'PRAGMA integrity_check')"
wants 'all that is in it' 'mark sqlite_autoindex_mark_1 sqlite_autoindex_taken_1 taken' \
    "$(sqlite3 ours 'SELECT name FROM sqlite_schema ORDER BY name' | on_one_line)"
wants mark "$key_id|1|4 $key_id|2|9999" "$(sqlite3 ours 'SELECT hex(key_id), device, next FROM mark ORDER BY key_id, device' | on_one_line)"
wants taken '1|0|3 1|3|1 2|0|9999' "$(sqlite3 ours 'SELECT device, lo, size FROM taken ORDER BY key_id, device, lo' | on_one_line)"
# A file that was closed is whole without its log.
wants 'the file alone' 'mark|2 taken|3' "$(sqlite3 alone "SELECT 'mark', count(*) FROM mark UNION SELECT 'taken', count(*) FROM taken" | on_one_line)"
# The statements are those of docs/FORMATS.md, and the database refuses what breaks a rule.
written() { sed -n '/^    CREATE TABLE mark/,/^    *CHECK (lo >= 0/p' "$formats" | sed 's/4294967296))$/4294967296));/'; }
statements() { tr -s ' \n' ' ' | sed 's/( /(/g; s/ *; */;/g; s/^ //; s/ $//'; }
wants statements "$(written | statements)" "$(sqlite3 ours "SELECT sql || ';' FROM sqlite_schema WHERE type = 'table' ORDER BY name" | statements)"
for row in "mark VALUES (X'$key_id', 3, 4294967297)" "mark VALUES (X'$key_id', 3, -1)" "mark VALUES (X'$key_id', 1, 9)" "mark VALUES (NULL, 3, 0)" \
    "taken VALUES (X'$key_id', 3, 0, 0)" "taken VALUES (X'$key_id', 3, 4294967295, 2)" "taken VALUES (X'$key_id', 1, 0, 9)"; do
    case $(sqlite3 ours "INSERT INTO $row" 2>&1) in
        *'constraint failed'*) ;;
        *) echo "ledger_file_check: no rule refuses: $row"; exit 1 ;;
    esac
done

# A file of sqlite3, made by the statements of docs/FORMATS.md.
written | sqlite3 theirs
sqlite3 theirs "INSERT INTO mark VALUES (X'$key_id', 7, 70002)" "INSERT INTO taken VALUES (X'$key_id', 7, 0, 70000)" "INSERT INTO taken VALUES (X'$key_id', 7, 70000, 2)"
wants 'next of theirs' 'range 7 70002 5 1' "$(ours theirs 7 5)"
wants 'integrity of theirs' ok "$(sqlite3 theirs 'PRAGMA integrity_check')"
wants 'rows of theirs' '0|70000 70000|2 70002|5' "$(sqlite3 theirs 'SELECT lo, size FROM taken ORDER BY lo' | on_one_line)"
wants 'mark of theirs' '7|70007' "$(sqlite3 theirs 'SELECT device, next FROM mark')"
sqlite3 theirs 'UPDATE mark SET next = 70008'
wants 'a mark past the ranges' 'status 2: ledger: not a ledger' "$(ours theirs 7 1)"
echo 'ledger_file_check: our file read by sqlite3, and its file opened by ours'
