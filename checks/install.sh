#!/usr/bin/env bash
# Installs the programs and clients into an empty folder, uses them from there by PATH, completes words in each shell that is
# there, shows the pages, makes the tarball twice, and takes all away again. Words: the built turn_console, the built
# derbyfig. Needed beside the toolchain: make, Python.
set -euo pipefail
console=$(realpath "${1:?the first word is the built turn_console}")
derbyfig=$(realpath "${2:?the second word is the built derbyfig}")
cd "$(dirname "$0")/.."
work=$(mktemp -d)
trap 'rm -rf "$work"' EXIT
fail() { echo "$1" >&2; exit 1; }
programs=("DERBYFIG=$derbyfig" "CONSOLE=$console")

make --silent install "DESTDIR=$work/root" PREFIX=/usr "${programs[@]}"
usr=$work/root/usr
mkdir "$work/books"
books() { env -i -C "$work/books" PATH="$usr/bin" "$@"; }
books derbyfig format office.ledger --slots 64 > /dev/null
printf 'deposit 1 500 7\nclose\n' | books derbyfig serve office.ledger --terminal > "$work/said"
grep -q '^office> posted 0 7$' "$work/said" || fail "the installed office said $(cat "$work/said")"
books derbyfig copy office.ledger more.ledger --slots 128 > /dev/null
[ "$(books derbyfig balances more.ledger | tail -n 1 | grep -o '[0-9]*$')" = 500 ] || fail "the copy has other balances"
books turn_console --device office.ledger <<< 'open 2 00 10' | grep -qx 'opened 2 next 1 total 500' || fail "the console opened another ledger"

mkdir "$work/books/north" && mkfifo "$work/books/north/in" "$work/books/north/out"
PATH="$usr/bin:$PATH" derbyfig serve "$work/books/office.ledger" --counter "$work/books/north" > /dev/null &
counter() { (cd "$work/books" && PATH="$usr/bin:$PATH" derbyfig-counter "$@"); }
for _ in $(seq 500); do counter north balance 1 > "$work/said" 2> /dev/null && break || sleep 0.02; done
grep -qx 'balance 1 500' "$work/said" || fail "derbyfig-counter said $(cat "$work/said")"
counter -s north.state north deposit 1 7 | grep -q '^posted 1 ' || fail "derbyfig-counter posts nothing"
again() { (cd "$work/books" && PATH="$usr/bin:$PATH" PYTHONPATH="$usr/share/derbyfig" PYTHONDONTWRITEBYTECODE=1 "$@" north morning 2> /dev/null); }
for said in "$(again sh "$PWD/examples/until_posted.sh")" "$(again python3 "$PWD/examples/until_posted.py")"; do
    [[ $said =~ ^posted\ 2 ]] || fail "the example of a retry says $said"
done
[ "$(counter north close)" = closing ] || fail "derbyfig-counter doesn't close"
wait

completed() { bash -c "source '$usr/share/bash-completion/completions/derbyfig'; COMP_WORDS=($1); COMP_CWORD=$2; _derbyfig; echo \${COMPREPLY[*]}"; }
[ "$(completed 'derbyfig jo' 1)" = journal ] || fail "bash completes jo by $(completed 'derbyfig jo' 1)"
[ "$(completed 'derbyfig journal --as h' 3)" = hledger ] || fail "bash completes a format by $(completed 'derbyfig journal --as h' 3)"
[ "$(completed 'derbyfig migrate --sl' 2)" = --slots ] || fail "bash completes an option by $(completed 'derbyfig migrate --sl' 2)"
for shell in zsh fish; do
    if command -v "$shell" > /dev/null; then
        "$shell" -n "$usr"/share/"$shell"/*/*derbyfig*
    fi
done
for page in derbyfig turn_console; do
    cmp "docs/man/$page.1" "$usr/share/man/man1/$page.1"
    if command -v man > /dev/null; then
        [ -z "$(man -l --warnings "$usr/share/man/man1/$page.1" 2>&1 > /dev/null)" ] || fail "the page of $page has faults"
    fi
done

for number in 1 2; do
    mkdir "$work/$number"
    make --silent dist "DIST=$work/$number/derbyfig.tar.gz" GATE='one line' "${programs[@]}"
done
cmp "$work"/[12]/derbyfig.tar.gz
tar -C "$work" -xf "$work/1/derbyfig.tar.gz"
(cd "$work/derbyfig" && grep '^[0-9a-f]\{64\} ' CONTENTS | sha256sum --check --quiet && grep -qx 'gate: one line' CONTENTS)

make --silent uninstall "DESTDIR=$work/root" PREFIX=/usr
[ -z "$(find "$work/root" -type f)" ] || fail "uninstalling leaves $(find "$work/root" -type f)"
echo "installed, used, packed and taken away"
