#!/bin/sh
# Puts the program, its manual pages, its documents and its completions for bash, zsh and fish below PREFIX, and prints what it did; with
# --uninstall it removes what it put there.
# usage: install.sh [PREFIX] [--uninstall]
#
# PREFIX is /usr/local if none is given. With DESTDIR in the environment everything goes below DESTDIR/PREFIX, to be packed or moved to
# PREFIX later.
#
# In an unpacked release it installs all that is in bin, lib and share: no clone and no toolchain is needed. In the repository, as
# tools/install.sh, it installs a build: the first of crates/sealer/out/sealer-x86-64-v3 and crates/sealer/out/sealer (tools/build.py) that
# runs here. The former needs a processor with AVX2. It is left out where it is older than its sources, since a build without AVX2 doesn't
# renew it.
#
# PREFIX/share/sealer/installed has a line for each file, with its SHA-256, and for each directory that was made. A file that isn't in it,
# or was changed since, is neither replaced nor removed: then nothing is installed, and the status is 1.
set -u
here=$(cd "$(dirname "$0")" && pwd)
prefix='' uninstall=''
for word in "$@"; do
    case $word in
        --uninstall) uninstall=1 ;;
        -h | --help) sed -n '2,/^set /s/^# \{0,1\}//p' "$0"; exit 0 ;;
        -*) echo "$word: there is no such option; usage: $0 [PREFIX] [--uninstall]" >&2; exit 2 ;;
        *) [ -z "$prefix" ] || { echo "more than one PREFIX" >&2; exit 2; }; prefix=$word ;;
    esac
done
prefix=${prefix:-/usr/local}
case $prefix in /*) ;; *) prefix=$PWD/$prefix ;; esac
final=$prefix
prefix=${DESTDIR:-}$prefix
case $prefix in /*) ;; *) prefix=$PWD/$prefix ;; esac
record=$prefix/share/sealer/installed

sum() { sha256sum < "$1" | cut -d ' ' -f 1; }
below() { grep -vE '^/|(^|/)\.\.(/|$)'; } # of names, those that lead nowhere but below PREFIX
recorded() { [ ! -f "$record" ] || sed -n 's/^[0-9a-f]\{64\} //p' "$record" | below; } # the names below PREFIX that were installed
# ours NAME: whether the file is as it was installed
ours() { [ -f "$record" ] && [ ! -L "$prefix/$1" ] && grep -qxF "$(sum "$prefix/$1") $1" "$record"; }
there() { [ -e "$prefix/$1" ] || [ -L "$prefix/$1" ]; }

drop() { rm -f "$prefix/$1" && echo "removed $prefix/$1"; } # NAME

if [ -n "$uninstall" ]; then
    [ -f "$record" ] || { echo "nothing is installed below $prefix: there is no $record" >&2; exit 1; }
    kept=0
    while IFS= read -r name; do
        if [ -z "$name" ]; then
            continue
        elif ! there "$name"; then
            echo "$prefix/$name is gone already"
        elif ours "$name"; then
            drop "$name" || kept=1
        else
            echo "$prefix/$name was changed since, and stays: it can be removed by hand" >&2
            kept=1
        fi
    done << END
$(recorded)
END
    directories=$(sed -n 's/^folder //p' "$record" | below | sort -r)
    drop share/sealer/installed
    while IFS= read -r name; do
        [ -z "$name" ] || rmdir "$prefix/$name" 2>/dev/null
    done << END
$directories
END
    exit $kept
fi

# What goes where: lines of a mode, a file, and its name below PREFIX.
release() { # in an unpacked release
    (cd "$here" && find bin lib share -type f) | sort | while IFS= read -r name; do
        case $name in share/*) echo "644 $here/$name $name" ;; *) echo "755 $here/$name $name" ;; esac
    done
}
build() { # in the repository, of the program $1
    echo "755 $1 bin/sealer"
    for page in "$top"/man/*.[1-8]; do echo "644 $page share/man/man${page##*.}/${page##*/}"; done
    echo "644 $top/completions/sealer.bash share/bash-completion/completions/sealer"
    echo "644 $top/completions/_sealer share/zsh/site-functions/_sealer"
    echo "644 $top/completions/sealer.fish share/fish/vendor_completions.d/sealer.fish"
    echo "644 $top/docs/MANUAL.md share/doc/sealer/MANUAL.md"
}

if [ -d "$here/lib/sealer" ]; then
    if [ -z "${DESTDIR:-}" ] && ! "$here/bin/sealer" --version >/dev/null 2>&1 </dev/null; then
        "$here/bin/sealer" --version </dev/null
        echo "the program doesn't run on this machine: it needs Linux on x86-64 (level x86-64-v2)" >&2
        exit 1
    fi
    plan=$(release)
else
    top=$(dirname "$here")
    program=
    for file in "$top/crates/sealer/out/sealer-x86-64-v3" "$top/crates/sealer/out/sealer"; do
        [ -f "$file" ] || continue
        if [ "$file" != "${file%-v3}" ] && [ -n "$(find "$top/crates" -name '*.rt' -newer "$file" | head -n 1)" ]; then
            echo "$file is older than its sources, and left out"
        elif "$file" --help >/dev/null 2>&1 </dev/null; then
            program=$file
            break
        else
            echo "$file doesn't run on this machine, and is left out"
        fi
    done
    [ -n "$program" ] || { echo "there is no program that runs here: tools/build.py builds it" >&2; exit 1; }
    avx2=$(/lib64/ld-linux-x86-64.so.2 --help 2>/dev/null | grep -c 'x86-64-v3 (supported')
    case $program in
        *-v3) echo "this processor has AVX2: the program is $program" ;;
        *) echo "the program is $program$([ "$avx2" = 0 ] || echo "; a build for this processor, by tools/build.py, is faster")" ;;
    esac
    plan=$(build "$program")
fi
# each COMMAND: runs it for each line, as $mode, $file and $name, until it fails
each() {
    while IFS= read -r row; do
        mode=${row%% *} name=${row##* } file=${row#* }
        file=${file% *}
        "$@" || return
    done << END
$plan
END
}

refuses() { # what is in the way
    there "$name" || return 0
    ours "$name" && return 0
    echo "$prefix/$name is there, and wasn't put there by this script, or was changed since: move it away" >&2
    return 1
}
each refuses || { echo "nothing was installed" >&2; exit 1; }

listed() { echo "$(sum "$file") $name"; }
missing() { # of a file, the directories that aren't there
    above=$name
    while above=$(dirname "$above") && [ "$above" != . ]; do [ -d "$prefix/$above" ] || echo "folder $above"; done
}
# renewed FILE MODE: a file of what comes, in the place of another at once. It is made under a name that nobody has.
renewed() {
    new=$(mktemp "$1.XXXXXX") && cat > "$new" && chmod "$2" "$new" && mv -fT "$new" "$1" && return
    rm -f "$new"
    return 1
}
put() { mkdir -p "$(dirname "$prefix/$name")" && renewed "$prefix/$name" "$mode" < "$file" && echo "installed $prefix/$name"; }
before=$(recorded)
directories=$({ name=share/sealer/installed && missing; each missing; [ ! -f "$record" ] || grep '^folder ' "$record"; } | sort -u)
mkdir -p "$prefix/share/sealer" || exit 1
# first the record, of what was there and what comes, so that an installation that was cut off can be removed
lines=$({ [ ! -f "$record" ] || cat "$record"; } && echo "$directories" && each listed) && echo "$lines" | renewed "$record" 644 || exit 1
each put || { echo "the installation is not whole; remove it by --uninstall" >&2; exit 1; }
# what an earlier one had besides
while IFS= read -r old; do
    [ -n "$old" ] && there "$old" && [ -z "$(echo "$plan" | awk -v name="$old" '$NF == name')" ] && ours "$old" && drop "$old"
done << END
$before
END
lines=$(echo "$directories" && each listed) && echo "$lines" | renewed "$record" 644 || exit 1
[ -z "${DESTDIR:-}" ] || exit 0
case :$PATH: in
    *":$final/bin:"*) ;;
    *) echo "$final/bin is not in PATH: PATH=$final/bin:\$PATH" ;;
esac
[ "$final" = /usr ] || [ "$final" = /usr/local ] || echo "for zsh: fpath=('$final/share/zsh/site-functions' \$fpath), before compinit"
exit 0
