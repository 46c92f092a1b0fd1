#!/bin/bash
# Makes a release of the programs that were built: static programs, an archive that installs without a clone, a Debian package, the programs
# as they were built, and SHA256SUMS. It proves and compiles nothing.
# usage: tools/release.sh [FOLDER]
#
# FOLDER is new or empty; out/release if none is given. The programs are crates/sealer/out/sealer and crates/sealer/out/sealer-x86-64-v3,
# each for the level of processors that it was built for. There has to be one for x86-64-v2 (tools/build.py x86-64-v2); the one for
# x86-64-v3 is left out where it isn't there, or is older than its sources.
#
# Before a release raise the version in crates/command_line/src/version.rt, and give it a section of CHANGELOG.md; after it tag the commit
# `vVERSION`. A version that is the tag of another commit is refused. The static programs name the commit in `--version`; the programs as
# they were built, in the -dynamic archive, don't.
#
# The same programs, the same commit and the same Debian packages give the same bytes: times are SOURCE_DATE_EPOCH, or the commit's.
# Needs git, python3, cc, the C library's static archive, zstd and dpkg-deb (Debian: git python3 gcc libc6-dev zstd dpkg).
set -eu
umask 022
export LC_ALL=C TZ=UTC0
top=$(cd "$(dirname "$0")/.." && pwd)
folder=${1:-$top/out/release}
stop() { echo "$*" >&2; exit 1; }
for tool in git python3 cc zstd dpkg-deb; do command -v $tool >/dev/null || stop "$tool is missing"; done
mkdir -p "$folder"
folder=$(cd "$folder" && pwd)
[ -z "$(ls -A "$folder")" ] || stop "$folder is not empty"
room=$(mktemp -d)
trap 'rm -rf "$room"' EXIT

# What is released.
text=$(sed -n 's/^pub const VERSION: &str = "\(.*\)";$/\1/p' "$top/crates/command_line/src/version.rt")
version=${text%% *} toolchain=${text#* } toolchain=${toolchain% commit *}
[ -n "$version" ] || stop "crates/command_line/src/version.rt names no version"
grep -q "^## $version\b" "$top/CHANGELOG.md" || stop "CHANGELOG.md has nothing of version $version"
# The commit, in RELEASE and in the static programs; with changes it would be untrue of the programs, which then name none.
commit=$(git -C "$top" rev-parse HEAD)
released=$(git -C "$top" rev-parse -q --verify "refs/tags/v$version^{commit}" || true)
[ "${released:-$commit}" = "$commit" ] || stop "version $version was released before, of commit $released: raise it"
named=$commit
git -C "$top" diff --quiet HEAD -- || { named=; commit="$commit, with changes"; }
: "${SOURCE_DATE_EPOCH:=$(git -C "$top" log -1 --format=%ct)}"
export SOURCE_DATE_EPOCH
maintainer=$(git -C "$top" log -1 --format='%an <%ae>')

# The programs, by their level, which each has in the text that it prints on a processor that lacks a feature.
declare -A programs
for file in "$top"/crates/sealer/out/sealer{,-x86-64-v3}; do
    [ -f "$file" ] || continue
    level=$(grep -aoE 'x86-64-v[2-4]' "$file" | sort -u)
    case $level in x86-64-v[23]) ;; *) stop "$file is for no level that is known here: $level" ;; esac
    newer=$(find "$top"/crates/*/src -name '*.rt' ! -path '*_tests/*' -newer "$file" -print -quit)
    if [ -n "$newer" ]; then
        echo "$file is left out: $newer is newer. Build it again; if nothing changed, touch it" >&2
    elif said=$("$file" --version < /dev/null 2>&1) && [ "$said" != "sealer $text" ]; then
        stop "$file is not of this version: $said"
    elif [ "$said" != "sealer $text" ]; then
        echo "$file is left out, since it doesn't run here: $said" >&2
    else
        programs[$level]=$file
    fi
done
levels=$(printf '%s\n' "${!programs[@]}" | sort)
[ -n "${programs[x86-64-v2]:-}" ] || stop "there is no program for x86-64-v2: tools/build.py x86-64-v2 builds it"

# The archive: what is installed below a PREFIX, and what installs it.
name=sealer-$version-linux-x86_64
made=$room/$name
docs=$made/share/doc/sealer
mkdir -p "$made/bin" "$made/lib/sealer" "$docs/examples" "$made"/share/man/man{1,5} "$room/$name-dynamic" \
    "$made"/share/{bash-completion/completions,zsh/site-functions,fish/vendor_completions.d}
for level in $levels; do
    "$top/tools/link_static.py" "${programs[$level]}" "$made/lib/sealer/sealer-$level" ${named:+"$named"}
    install -m 755 "${programs[$level]}" "$room/$name-dynamic/sealer-$level"
done
chmod 755 "$made"/lib/sealer/*
install -m 755 "$top/tools/sealer.sh" "$made/bin/sealer"
install -m 755 "$top/tools/install.sh" "$made/install.sh"
install -m 644 "$top"/man/*.1 "$made/share/man/man1"
install -m 644 "$top"/man/*.5 "$made/share/man/man5"
install -m 644 "$top/completions/sealer.bash" "$made/share/bash-completion/completions/sealer"
install -m 644 "$top/completions/_sealer" "$made/share/zsh/site-functions/_sealer"
install -m 644 "$top/completions/sealer.fish" "$made/share/fish/vendor_completions.d/sealer.fish"
install -m 644 "$top"/{LICENSE-MIT,LICENSE-APACHE,tools/open_container.py} "$docs"
install -m 644 "$top"/*.md "$top"/docs/*.md "$docs"
# all of them are in one directory there
sed -i 's#](docs/#](#g; s#](\.\./#](#g' "$docs"/*.md
install -m 644 "$top"/examples/{key,numbers.stm,journal.txt,array.sh,nightly.sh,sealer-nightly.service,sealer-nightly.timer} "$docs/examples"

library=$(dpkg-query -W -f '${source:Package} (= ${source:Version})' libc6-dev 2>/dev/null || echo unknown)
compiler=$(cc --version | head -n 1)
{
    echo "version $version"
    echo "commit $commit"
    echo "proved and built with $toolchain"
    echo "linked by $compiler with the C library $library"
    for level in $levels; do
        echo "sealer-$level as built, SHA-256 $(sha256sum < "${programs[$level]}" | cut -d ' ' -f 1)"
        echo "sealer-$level static, SHA-256 $(sha256sum < "$made/lib/sealer/sealer-$level" | cut -d ' ' -f 1)"
    done
} > "$docs/RELEASE"

cat > "$made/README" << END
sealer $version for Linux on x86-64, static: it needs no library.

    ./install.sh [PREFIX]          installs below PREFIX (default: /usr/local); DESTDIR in the environment is honoured
    ./install.sh [PREFIX] --uninstall
    bin/sealer --version           runs it from here

bin/sealer is a shell script that takes the program for this processor. Where there is no shell, call lib/sealer/sealer-x86-64-v2.
The documents are in share/doc/sealer, first MANUAL.md. RELEASE there names the commit.
END
cat > "$room/$name-dynamic/README" << END
The programs of sealer $version as they were built and tested: they need the GNU C library, 2.34 or newer.

    ./link_static.py sealer-x86-64-v2 OUTPUT $named

links one against the static C library of this machine, as the release's programs were made. So you can take another C library.
These programs' --version names no commit: RELEASE does, and the third word of link_static.py puts it into OUTPUT.
END
install -m 755 "$top/tools/link_static.py" "$room/$name-dynamic"
cp "$docs"/LICENSE-* "$docs/THIRD-PARTY.md" "$docs/RELEASE" "$room/$name-dynamic"

packed() { # FOLDER-BELOW-ROOM: with sorted names, and nobody's owners and times
    find "$room/$1" -exec touch -hd "@$SOURCE_DATE_EPOCH" {} +
    tar -C "$room" --format=ustar --sort=name --owner=0 --group=0 --numeric-owner -c "$1" | zstd -q -10 --threads=1 > "$folder/$1.tar.zst"
}
packed "$name"
packed "$name-dynamic"

# The package: what the archive installs, in Debian's places.
package=$room/package
DESTDIR='' "$made/install.sh" "$package/usr" > "$room/installed" 2>&1 || stop "$(cat "$room/installed")"
rm -r "$package/usr/share/sealer"
mkdir "$package/DEBIAN" "$package/usr/share/zsh/vendor-completions"
mv "$package/usr/share/zsh/site-functions/_sealer" "$package/usr/share/zsh/vendor-completions"
rmdir "$package/usr/share/zsh/site-functions"
own=$package/usr/share/doc/sealer
# Debian has the Apache licence of its own
rm "$own/LICENSE-APACHE"
mv "$own/CHANGELOG.md" "$own/changelog"
cat > "$own/changelog.Debian" << END
sealer ($version-1) stable; urgency=medium

  * Release $version: see changelog.gz.

 -- $maintainer  $(date -Rd "@$SOURCE_DATE_EPOCH")
END
cat > "$own/copyright" << END
Format: https://www.debian.org/doc/packaging-manuals/copyright-format/1.0/
Upstream-Name: sealer

Files: *
Copyright: 2026 Sadlopum maintainers
License: MIT or Apache-2.0

License: Apache-2.0
 On Debian systems the text is in /usr/share/common-licenses/Apache-2.0.

License: MIT
$(sed -n '/^Permission/,$p' "$top/LICENSE-MIT" | sed 's/^$/./; s/^/ /')

Comment: Code of others in the programs: see THIRD-PARTY.md in this directory.
END
rm "$own/LICENSE-MIT"
find "$package/usr/share/man" "$own"/changelog* -type f -exec gzip -9n {} +
built_using=
[ "$library" = unknown ] || built_using="Built-Using: $library"
size=$(find "$package/usr" -type f -printf '%s\n' | awk '{ sum += int(($1 + 1023) / 1024) } END { print sum }')
sed '/^$/d' > "$package/DEBIAN/control" << END
Package: sealer
Version: $version-1
Architecture: amd64
Section: utils
Priority: optional
Maintainer: $maintainer
Installed-Size: $size
$built_using
Description: encrypts many files in one run, with nonces from a ledger
 sealer encrypts and authenticates many files in one run under one key file,
 or a stream, and decrypts only what is unchanged: ChaCha20-Poly1305 in the
 STREAM construction. A ledger file on each machine keeps it from using a
 nonce twice. The program is proved, and linked statically.
END
(cd "$package" && find usr -type f | sort | xargs -d '\n' md5sum) > "$package/DEBIAN/md5sums"
find "$package" -exec touch -hd "@$SOURCE_DATE_EPOCH" {} +
dpkg-deb --root-owner-group -Zxz --build "$package" "$folder/sealer_$version-1_amd64.deb" > /dev/null

(cd "$folder" && sha256sum -- *.tar.zst *.deb > "$room/SHA256SUMS" && install -m 644 "$room/SHA256SUMS" .)
echo "release $version of commit $commit, for ${levels//$'\n'/ and }, is in $folder"
