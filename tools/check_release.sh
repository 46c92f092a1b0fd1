#!/bin/bash
# tools/release.sh: makes a release twice, and runs it where nothing else is. Each static program seals, verifies, opens, pipes, unpipes and
# audits in an empty root: no /proc, no shell, no C library. The archive is unpacked, installed, run and removed in a root that has only the
# tools for it, and the Debian package in an empty one. Prints 'N conditions hold', or those that don't.
# usage: tools/check_release.sh [RELEASE.SH]
#
# The program is crates/sealer/out/sealer, for x86-64-v2. If there is none for x86-64-v3, a copy that claims to be one takes its place. What
# is missing (chroot, dpkg, Python's `cryptography`) is left out, and fails if CI is set.
set -u
cd "$(dirname "$0")/.." || exit
script=$(realpath "${1:-tools/release.sh}")
export LC_ALL=C
umask 022
room=$(mktemp -d)
trap 'rm -rf "$room"' EXIT
out=$room/out
conditions=0 bad=0
is() { conditions=$((conditions + 1)); "${@:2}" || { bad=1; echo "$1: does not hold; it printed: $(head -c 2000 "$out")"; }; }
no() { ! "$@"; }
says() { grep -qF -- "$1" "$out"; }
lacks() { echo "left out: $1"; [ -z "${CI:-}" ] || bad=1; }
run() { "$@" > "$out" 2>&1 < "${input:-/dev/null}"; status=$?; }

# How to enter an empty root: as root, or as the root of a user namespace.
as=none
for how in '' 'unshare --map-root-user'; do
    # shellcheck disable=SC2086
    [ "$as" != none ] || ! $how chroot / true 2>/dev/null || as=$how
done

# A tree of its own, with the programs of both levels.
tree="$room/a tree"
mkdir -p "$tree/tools" "$tree/crates/sealer/out" "$tree/crates/command_line"
cp -r man completions docs examples ./*.md LICENSE-* "$tree"
cp tools/*.sh tools/*.py "$tree/tools"
cp "$script" "$tree/tools/release.sh"
cp -r crates/command_line/src "$tree/crates/command_line"
git -C "$tree" -c init.defaultBranch=main init -q
git -C "$tree" add . && git -C "$tree" -c user.name=nobody -c user.email=nobody@localhost commit -q -m all
built=$tree/crates/sealer/out
cp crates/sealer/out/sealer "$built/sealer"
if [ -f crates/sealer/out/sealer-x86-64-v3 ]; then
    cp crates/sealer/out/sealer-x86-64-v3 "$built"
else
    sed 's/x86-64-v2/x86-64-v3/g' "$built/sealer" > "$built/sealer-x86-64-v3"
    chmod +x "$built/sealer-x86-64-v3"
fi
# What the program prints as it was built, and what it prints once the commit is named.
version=$(crates/sealer/out/sealer --version)
number=${version#sealer } number=${number%% *}
commit=$(git -C "$tree" rev-parse HEAD)
named="${version% *} ${commit:0:12}"
name=sealer-$number-linux-x86_64
package=sealer_$number-1_amd64.deb
release() { run "$tree/tools/release.sh" "$@"; }

release "$room/one"
is made test $status = 0
is both-levels says 'x86-64-v2 and x86-64-v3'
[ $bad = 0 ] || exit 1
release "$room/two"
is the-same-bytes-again diff -r "$room/one" "$room/two"
is files test "$(cd "$room/one" && echo *)" = "SHA256SUMS $name-dynamic.tar.zst $name.tar.zst $package"
run sh -c 'cd "$1" && sha256sum --strict -c SHA256SUMS' sh "$room/one"
is sums test $status = 0
is sums-of-all test "$(grep -c ': OK$' "$out")" = 3
printf x >> "$room/two/$package"
run sh -c 'cd "$1" && sha256sum --strict -c SHA256SUMS' sh "$room/two"
is sums-of-a-changed-one test $status = 1

# What it refuses. The last one tries programs that were built before the sources.
release "$room/one"
is folder-not-empty says 'is not empty'
refused() { # NAME TEXT, of a release that must fail
    release "$room/refused"
    is "$1" test $status = 1
    is "$1-reported" says "$2"
    is "$1-makes-nothing" test -z "$(ls -A "$room/refused" 2>/dev/null)"
}
mv "$built/sealer" "$room/sealer"
refused no-portable-program 'no program for x86-64-v2'
printf '#!/bin/sh\n# x86-64-v2\necho sealer 0.9.0\n' > "$built/sealer"
chmod +x "$built/sealer"
refused another-version 'is not of this version: sealer 0.9.0'
cp "$room/sealer" "$built/sealer"
mv "$tree/CHANGELOG.md" "$room"
echo '# Changes' > "$tree/CHANGELOG.md"
refused no-changes "nothing of version $number"
mv "$room/CHANGELOG.md" "$tree"
git -C "$tree" tag "v$number" "$(git -C "$tree" -c user.name=nobody -c user.email=nobody@localhost commit-tree -m other 'HEAD^{tree}')"
refused released-before 'was released before, of commit'
git -C "$tree" tag -f "v$number" > /dev/null 2>&1
touch -d '2001-01-01' "$built/sealer"
refused older-than-sources 'no program for x86-64-v2'
touch "$built/sealer"
touch -d '2001-01-01' "$built/sealer-x86-64-v3"
release "$room/three"
is portable-alone test $status = 0
is portable-alone-reported says 'sealer-x86-64-v3 is left out'
git -C "$tree" tag -d "v$number" > /dev/null
echo >> "$tree/README.md"
release "$room/changed"
is with-changes test $status = 0
git -C "$tree" checkout -q README.md

# The archive.
unpacked() { zstd -qdc "$room/$1" | tar -C "$2" -x; } # ARCHIVE FOLDER
mkdir "$room/unpacked"
unpacked "one/$name.tar.zst" "$room/unpacked"
unpacked "one/$name-dynamic.tar.zst" "$room/unpacked"
made=$room/unpacked/$name
mkdir "$room/with-changes"
unpacked "changed/$name.tar.zst" "$room/with-changes"
run "$room/with-changes/$name/bin/sealer" --version
is with-changes-no-commit says "$version"
is with-changes-reported grep -qxF "commit $commit, with changes" "$room/with-changes/$name/share/doc/sealer/RELEASE"
is one-folder-each test "$(cd "$room/unpacked" && echo *)" = "$name $name-dynamic"
pages='man1/sealer.1 man5/sealer-container.5 man5/sealer-journal.5'
documents="RELEASE open_container.py examples/key examples/numbers.stm examples/journal.txt $(basename -a docs/*.md)
    README.md SECURITY.md THIRD-PARTY.md"
for file in install.sh README share/doc/sealer/LICENSE-{MIT,APACHE}; do is "archive-$file" test -s "$made/$file"; done
# has NAME FOLDER ZSH-FOLDER: what is below FOLDER, as below /usr, of either
has() {
    local file
    for file in bin/sealer lib/sealer/sealer-x86-64-v{2,3}; do is "$1-$file" test -x "$2/$file"; done
    for file in $pages; do
        if [ -f "$2/share/man/$file.gz" ]; then gzip -dc "$2/share/man/$file.gz"; else cat "$2/share/man/$file"; fi > "$room/page" 2> "$out"
        is "$1-$file" cmp -s "man/${file#*/}" "$room/page"
    done
    for file in $documents; do is "$1-$file" test -s "$2/share/doc/sealer/$file"; done
    is "$1-bash" cmp -s completions/sealer.bash "$2/share/bash-completion/completions/sealer"
    is "$1-zsh" cmp -s completions/_sealer "$2/share/zsh/$3/_sealer"
    is "$1-fish" cmp -s completions/sealer.fish "$2/share/fish/vendor_completions.d/sealer.fish"
    run "$2/bin/sealer" --version
    is "$1-runs" says "$named"
}
has archive "$made" site-functions
is archive-commit grep -qxF "commit $commit" "$made/share/doc/sealer/RELEASE"
for file in "$made"/share/doc/sealer/*.md; do
    grep -oE '\]\([A-Za-z0-9_/.-]+\.md' "$file" | sed 's/^](//' | sort -u > "$room/links"
    while IFS= read -r link; do is "link-$link-of-${file##*/}" test -e "${file%/*}/$link"; done < "$room/links"
done
link() { run "$room/unpacked/$name-dynamic/link_static.py" "$@"; }
for level in x86-64-v2 x86-64-v3; do
    as_built=$built/sealer
    [ $level = x86-64-v2 ] || as_built=$built/sealer-x86-64-v3
    is "as-built-$level" cmp -s "$as_built" "$room/unpacked/$name-dynamic/sealer-$level"
    link "$as_built" "$room/linked" "$commit"
    is "linked-again-$level" cmp -s "$room/linked" "$made/lib/sealer/sealer-$level"
    # the commit is all that differs from what was built
    link "$as_built" "$room/linked"
    is "linked-unnamed-$level" test "$(cmp -l "$room/linked" "$made/lib/sealer/sealer-$level" | wc -l)" -le 12
    run "$room/linked" --version
    is "unnamed-$level" test "$(cat "$out")" = "$version"
done
sed 's/commit not-recorded/commit not_recorded/' "$built/sealer" > "$room/no-place"
(cat "$built/sealer"; echo ') commit not-recorded') > "$room/two-places"
link "$room/no-place" "$room/linked" "$commit"
is no-place says 'has 0 places for a commit'
link "$room/two-places" "$room/linked" "$commit"
is two-places says 'has 2 places for a commit'
link "$built/sealer" "$room/linked" "${commit:0:12}"
is short-name says 'is not the full name of a commit'

# An empty root.
seq 1 400000 > "$room/large"
in_root() { # ARGUMENTS..: runs the program of $root
    # shellcheck disable=SC2086
    run $as chroot "$root" "$program" "$@"
}
works() { # NAME, of $program in $root
    local files='one two large'
    echo 000102030405060708090a0b0c0d0e0f101112131415161718191a1b1c1d1e1f > "$root/key"
    echo one > "$root/one"
    : > "$root/two"
    cp "$room/large" "$root/large"
    mkdir "$root/opened" "$root/by-lanes"
    in_root seal --key key --ledger /ledger --device 1 --workers 4 --journal journal --sync one two large
    is "$1-seals" test "$status" = 0
    is "$1-seals-each" test "$(grep -c '^sealed ' "$out")" = 3
    in_root seal --key key --ledger /ledger --no-new-ledger --device 1 --lanes 3 --label text --into by-lanes one two large
    is "$1-seals-by-lanes" test "$status" = 0
    in_root verify --key key --workers 2 one.stm two.stm large.stm by-lanes/one.stm by-lanes/two.stm by-lanes/large.stm
    is "$1-verifies" test "$status" = 0
    is "$1-verifies-each" test "$(grep -c '^good ' "$out")" = 6
    in_root open --key key --workers 4 --into opened one.stm two.stm large.stm
    is "$1-opens" test "$status" = 0
    for file in $files; do is "$1-opens-$file" cmp -s "$root/$file" "$root/opened/$file"; done
    # shellcheck disable=SC2086
    $as chroot "$root" "$program" pipe --key key --ledger /ledger --no-new-ledger --device 1 --workers 2 \
        < "$room/large" > "$root/stream.stm" 2> "$out"
    is "$1-pipes" says 'sealed - file 6 bytes'
    in_root open --key key stream.stm
    is "$1-opens-the-stream" cmp -s "$room/large" "$root/stream"
    # shellcheck disable=SC2086
    $as chroot "$root" "$program" unpipe --key key --workers 2 stream.stm > "$room/back" 2> "$out"
    is "$1-unpipes" cmp -s "$room/large" "$room/back"
    # shellcheck disable=SC2086
    $as chroot "$root" "$program" unpipe --key key --spool / < "$root/stream.stm" > "$room/back" 2> "$out"
    is "$1-unpipes-a-stream" cmp -s "$room/large" "$room/back"
    input=$root/journal in_root audit
    is "$1-audits" says 'legal: 3 granted, 3 sealed'
    in_root ledger --ledger /ledger
    is "$1-prints-the-ledger" says 'given 7'
    printf x | dd of="$root/large.stm" bs=1 seek=99999 conv=notrunc 2>/dev/null
    in_root verify --key key large.stm
    is "$1-finds-a-change" test "$status" = 1
    is "$1-names-the-change" says 'failed large.stm: chunk 1 does not check'
    cp examples/key "$root/key"
    cp examples/numbers.stm "$root/numbers.stm"
    in_root verify --key key numbers.stm
    is "$1-verifies-what-was-sealed-elsewhere" says 'good numbers.stm bytes 1492'
}
if [ "$as" = none ]; then
    lacks 'an empty root, since chroot cannot be had here'
else
    for level in x86-64-v2 x86-64-v3; do
        root=$room/root-$level program=/sealer
        mkdir "$root"
        cp "$built/sealer" "$root/dynamic"
        program=/dynamic in_root --version
        is "$level-root-is-empty" test "$status" != 0
        rm "$root/dynamic"
        cp "$made/lib/sealer/sealer-$level" "$root/sealer"
        in_root --version
        is "$level-in-an-empty-root" says "$named"
        works "$level"
    done
    # by the independent reader, as it is in the archive
    echo 000102030405060708090a0b0c0d0e0f101112131415161718191a1b1c1d1e1f > "$room/key"
    run python3 "$made/share/doc/sealer/open_container.py" "$room/key" "$root/stream.stm" "$room/stream"
    if [ $status = 3 ]; then
        lacks "the independent reader, since Python's cryptography isn't there"
    else
        is independent-reader cmp -s "$room/stream" "$room/large"
    fi
fi

# Installed from the archive, for another root and here, by a path that has no toolchain.
listed() { (cd "$1" && find . -type f | sort); }
stage=$room/stage$room/away
run env -i PATH=/usr/bin:/bin DESTDIR="$room/stage" "$made/install.sh" "$room/away"
is staged test $status = 0
has staged "$stage" site-functions
is staged-all test "$(listed "$stage" | grep -v '^./share/sealer/installed$')" = "$(listed "$made" | grep -E '^./(bin|lib|share)/')"
is staged-nowhere-else test ! -e "$room/away"
if [ "$as" != none ]; then
    root=$room/stage program=$room/away/lib/sealer/sealer-x86-64-v2 in_root --version
    is staged-in-its-root says "$named"
fi
run env -i PATH=/usr/bin:/bin DESTDIR="$room/stage" "$made/install.sh" "$room/away" --uninstall
is unstaged test $status = 0
is nothing-stays test -z "$(find "$room/stage" -type f)"

# Unpacked, installed, run and removed on a machine that has a shell and the tools for that: no compiler, no toolchain, no clone.
if [ "$as" = none ]; then
    lacks 'an installation from the archive in a root of its own, since chroot cannot be had here'
else
    root=$room/machine
    mkdir -p "$root/dev" "$root/tmp" "$root/usr/bin"
    : > "$root/dev/null"
    ln -s usr/bin "$root/bin"
    for tool in sh tar zstd awk cat chmod cut dirname env find grep head mkdir mktemp mv readlink rm rmdir sed sha256sum sort; do
        file=$(command -v $tool)
        cp "$file" "$root/usr/bin/$tool"
        for library in $(ldd "$file" 2>/dev/null | grep -o '/[^ ]*'); do
            [ -e "$root$library" ] || { mkdir -p "$root${library%/*}" && cp "$library" "$root$library"; }
        done
    done
    cp "$room/one/$name.tar.zst" "$root/tmp/release"
    inside() { program=/bin/env in_root -i PATH=/bin sh -ec "$1"; }
    inside "cd /tmp && zstd -qdc < release | tar --no-same-owner -x && ./$name/install.sh"
    is machine-installed test $status = 0
    program=/usr/local/bin/sealer in_root --version
    is machine-runs says "$named"
    program=/usr/local/bin/sealer works machine
    inside "/tmp/$name/install.sh --uninstall"
    is machine-uninstalled test $status = 0
    is machine-keeps-nothing test -z "$(find "$root/usr/local" -type f)"
fi
prefix="$room/pre fix"
run env -i PATH=/usr/bin:/bin "$made/install.sh" "$prefix"
is installed test $status = 0

# The launcher: through PATH and links, what it passes on, and which program it takes.
mkdir "$room/bin"
ln -s "$prefix/bin/sealer" "$room/bin/sealer"
run env -i PATH="$room/bin:/usr/bin:/bin" sealer --version
is by-a-link says "$named"
run env -i PATH="$prefix/bin:/usr/bin:/bin" sealer --version
is by-path says "$named"
input=examples/journal.txt run "$prefix/bin/sealer" audit
is launcher-input says 'legal: 2 granted'
run "$prefix/bin/sealer" verify --key nowhere 'a file'
is launcher-status test $status = 2
run "$made/install.sh" "$prefix"
is installed-again test $status = 0
wide=$prefix/lib/sealer/sealer-x86-64-v3
rm "$wide"
run "$prefix/bin/sealer" --version
is launcher-portable-alone says "$named"
# shellcheck disable=SC2016
printf '#!/bin/sh\necho "wide $*"\n' > "$wide"
chmod +x "$wide"
run "$prefix/bin/sealer" --version
is launcher-takes-the-wide-one says 'wide --version'
printf '#!/bin/sh\necho this machine lacks a feature of x86-64-v3 >&2\nexit 127\n' > "$wide"
run "$prefix/bin/sealer" --version
is launcher-falls-back says "$named"
is launcher-falls-back-silently no says lacks
run "$made/install.sh" "$prefix" --uninstall
is a-changed-program-stays test $status = 1
is a-changed-program-alone test "$(find "$prefix" -type f)" = "$wide"

# The package.
mkdir "$room/extracted"
run dpkg-deb -x "$room/one/$package" "$room/extracted"
has package "$room/extracted/usr" vendor-completions
for file in copyright changelog.gz changelog.Debian.gz; do is "package-$file" test -s "$room/extracted/usr/share/doc/sealer/$file"; done
is package-owners test -z "$(dpkg-deb -c "$room/one/$package" | grep -v ' root/root ')"
run dpkg-deb -f "$room/one/$package" Version
is package-version says "$number-1"
if ! command -v dpkg >/dev/null || [ "$as" = none ]; then
    lacks 'an installation of the package, since dpkg or chroot cannot be had here'
else
    root=$room/system program=/usr/lib/sealer/sealer-x86-64-v2
    mkdir -p "$root"/var/lib/dpkg/{info,updates}
    touch "$root"/var/lib/dpkg/{status,available}
    # shellcheck disable=SC2086
    run $as dpkg --root="$root" --log=/dev/null -i "$room/one/$package"
    is package-installed test $status = 0
    run dpkg --root="$root" -s sealer
    is package-status says 'install ok installed'
    in_root --version
    is package-in-an-empty-root says "$named"
    works package
    # shellcheck disable=SC2086
    run $as dpkg --root="$root" --log=/dev/null -P sealer
    is package-purged test $status = 0
    is package-leaves-nothing test ! -e "$root/usr"
fi
[ $bad = 0 ] && echo "$conditions conditions hold"
exit $bad
