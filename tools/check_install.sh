#!/bin/bash
# tools/install.sh in scratch folders: what it puts where, what it prints, which build it picks, what it doesn't replace, and that nothing
# is left after --uninstall. Prints 'N conditions hold', or those that don't. What it does in a release is in tools/check_release.sh.
# usage: tools/check_install.sh [INSTALL.SH]
set -u
cd "$(dirname "$0")/.."
script=$(realpath "${1:-tools/install.sh}")
room=$(mktemp -d)
trap 'rm -rf "$room"' EXIT
conditions=0 bad=0
is() { conditions=$((conditions + 1)); "${@:2}" || { bad=1; echo "$1: does not hold; it printed: $(cat "$room/out")"; }; }
no() { ! "$@"; }
says() { grep -qF -- "$1" "$room/out"; }

# a tree of its own, whose builds can be exchanged
tree="$room/a tree"
mkdir -p "$tree/tools" "$tree/crates/sealer/out" "$tree/crates/sealer/src"
cp -r man completions docs "$tree"
cp "$script" "$tree/tools/install.sh"
touch -d '2001-01-01' "$tree/crates/sealer/src/main.rt"
cp crates/sealer/out/sealer "$tree/crates/sealer/out/sealer"
install() { "$tree/tools/install.sh" "$@" > "$room/out" 2>&1; status=$?; }
prefix="$room/pre fix"
mkdir -p "$prefix/bin"

install "$prefix"
is installed test $status = 0
is program cmp -s "$prefix/bin/sealer" crates/sealer/out/sealer
is program-runs test "$("$prefix/bin/sealer" audit < examples/journal.txt)" = 'legal: 2 granted, 1 sealed, 1 void, 0 open, 1 refused'
for page in sealer.1 sealer-container.5 sealer-journal.5; do
    is "$page" cmp -s "man/$page" "$prefix/share/man/man${page##*.}/$page"
done
is bash cmp -s completions/sealer.bash "$prefix/share/bash-completion/completions/sealer"
is zsh cmp -s completions/_sealer "$prefix/share/zsh/site-functions/_sealer"
is fish cmp -s completions/sealer.fish "$prefix/share/fish/vendor_completions.d/sealer.fish"
is manual cmp -s docs/MANUAL.md "$prefix/share/doc/sealer/MANUAL.md"
is says-what test "$(grep -c '^installed ' "$room/out")" = 8
is says-which says "the program is $tree/crates/sealer/out/sealer"
find "$prefix" -type f | sort > "$room/files"

# again, over itself; and over a file that was changed, or is a link
install "$prefix"
is again test $status = 0
is again-the-same test "$(find "$prefix" -type f | sort)" = "$(cat "$room/files")"
echo other > "$prefix/share/man/man1/sealer.1"
rm "$prefix/bin/sealer"
install "$prefix"
is changed test $status = 1
is changed-is-named says "$prefix/share/man/man1/sealer.1 is there"
is changed-installs-nothing no test -e "$prefix/bin/sealer"
is changed-stays test "$(cat "$prefix/share/man/man1/sealer.1")" = other

cp crates/sealer/out/sealer "$room/copy"
echo "$(sha256sum < "$room/copy" | cut -d ' ' -f 1) bin/sealer" >> "$prefix/share/sealer/installed"
ln -s "$room/copy" "$prefix/bin/sealer"
cp man/sealer.1 "$prefix/share/man/man1/sealer.1"
install "$prefix"
is same-by-a-link test $status = 1
is same-by-a-link-is-named says "$prefix/bin/sealer is there"
rm "$prefix/bin/sealer"
echo other > "$prefix/share/man/man1/sealer.1"

# away: what was changed stays, and so do the folders that were there
install "$prefix" --uninstall
is uninstalled-but-one test $status = 1
is the-changed-stays test "$(cat "$prefix/share/man/man1/sealer.1")" = other
rm -r "$prefix/share"
install "$prefix"
is once-more test $status = 0
install --uninstall "$prefix"
is uninstalled test $status = 0
is nothing-stays test "$(find "$prefix" | wc -l)" = 2
is the-folder-stays test -d "$prefix/bin"
install "$prefix" --uninstall
is nothing-to-uninstall test $status = 1

# what others put there
echo theirs > "$prefix/bin/sealer"
install "$prefix"
is foreign test $status = 1
is foreign-stays test "$(cat "$prefix/bin/sealer")" = theirs
is foreign-installs-nothing no test -e "$prefix/share"
rm "$prefix/bin/sealer"
ln -s nowhere "$prefix/bin/sealer"
install "$prefix"
is link test $status = 1
is link-stays test "$(readlink "$prefix/bin/sealer")" = nowhere
rm "$prefix/bin/sealer"

# nothing is written to a name that isn't its own, nor through a link, and nothing is removed that isn't below PREFIX
echo precious > "$room/precious"
ln -s "$room/precious" "$prefix/bin/sealer.new"
install "$prefix"
is beside-a-link test $status = 0
is the-link-stays test "$(readlink "$prefix/bin/sealer.new")" = "$room/precious"
is what-it-names-stays test "$(cat "$room/precious")" = precious
is the-program-is-a-file test -f "$prefix/bin/sealer" -a ! -L "$prefix/bin/sealer"
is modes test "$(stat -c %a "$prefix/bin/sealer" "$prefix/share/man/man1/sealer.1" "$prefix/share/sealer/installed" | tr '\n' ' ')" = '755 644 644 '
rm "$prefix/bin/sealer.new"
echo "$(sha256sum < "$room/precious" | cut -d ' ' -f 1) ../precious" >> "$prefix/share/sealer/installed"
install "$prefix" --uninstall
is uninstalled-below-it test $status = 0
is what-is-above-stays test -f "$room/precious"
is nothing-else-stays test "$(find "$prefix" | wc -l)" = 2

# below a home's .local man and the shells find their files by themselves, and zsh by the printed advice
home="$room/home"
mkdir "$home"
install "$home/.local"
at_home() { env -i HOME="$home" TERM=dumb LC_ALL=C.UTF-8 PATH="$home/.local/bin:/usr/bin:/bin" "$@" 2>/dev/null; }
for tool in man zsh fish; do
    command -v $tool >/dev/null && continue
    echo "left out: what $tool finds, since it isn't there"
    [ -z "${CI:-}" ] || bad=1
done
loader=/usr/share/bash-completion/bash_completion
if [ ! -f $loader ]; then
    echo "left out: what bash finds, since bash-completion isn't there"
    [ -z "${CI:-}" ] || bad=1
fi
! command -v man >/dev/null || is man-finds-it test "$(at_home man -w sealer)" = "$home/.local/share/man/man1/sealer.1"
! command -v fish >/dev/null || is fish-finds-it test "$(at_home fish -c 'complete -C "sealer seal --no"' | cut -f 1)" = --no-new-ledger
if command -v zsh >/dev/null; then
    fpath=$(sed -n 's/^for zsh: \(fpath=.*\), before compinit$/\1/p' "$room/out")
    is zsh-finds-it test "$(at_home zsh -f -c "$fpath; autoload -Uz compinit; compinit -u -D; echo \$_comps[sealer]")" = _sealer
fi
[ ! -f $loader ] || is bash-finds-it test "$(at_home bash --norc -c "source $loader; _completion_loader sealer; complete -p sealer")" = \
    'complete -F _sealer sealer'
install "$home/.local" --uninstall
is nothing-stays-at-home test -z "$(find "$home/.local" -mindepth 1 -name '*sealer*')"

# below DESTDIR, for a PREFIX that another machine has
DESTDIR="$room/stage" install "$room/away"
is staged test $status = 0
is staged-program cmp -s "$room/stage$room/away/bin/sealer" crates/sealer/out/sealer
is staged-says-where says "installed $room/stage$room/away/bin/sealer"
is staged-says-no-more no says PATH
DESTDIR="$room/stage" install "$room/away" --uninstall
is unstaged test $status = 0
is elsewhere-nothing test ! -e "$room/away"
is nothing-stays-staged test -z "$(find "$room/stage" -type f)"

# which build
v3=$tree/crates/sealer/out/sealer-x86-64-v3
cp crates/sealer/out/sealer "$v3"
install "$prefix"
is avx2 says "this processor has AVX2: the program is $v3"
printf '#!/bin/sh\necho this machine lacks a feature of x86-64-v3 >&2\nexit 127\n' > "$v3"
chmod +x "$v3"
install "$prefix"
is no-avx2-is-reported says "$v3 doesn't run on this machine"
is no-avx2 says "the program is $tree/crates/sealer/out/sealer"
is no-avx2-installed cmp -s "$prefix/bin/sealer" crates/sealer/out/sealer
cp crates/sealer/out/sealer "$v3"
touch -d '2000-01-01' "$v3"
install "$prefix"
is old-build says "$v3 is older than its sources"
rm "$v3" "$tree/crates/sealer/out/sealer"
install "$prefix"
is no-build test $status = 1
is no-build-leaves-what-was cmp -s "$prefix/bin/sealer" crates/sealer/out/sealer
install "$prefix" --uninstall
install --more
is usage test $status = 2
is nothing-at-the-end test "$(find "$prefix" | wc -l)" = 2
[ $bad = 0 ] && echo "$conditions conditions hold"
exit $bad
