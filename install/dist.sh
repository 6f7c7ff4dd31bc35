#!/bin/sh
# Makes a tarball of what `make install` installs, with the license and a file CONTENTS, which says what the programs were
# proved of and by, and the SHA-256 of each file. The same programs and pages make the same bytes.
# Words: the tarball, the gate's last line, the built derbyfig, the built turn_console.
set -eu
tarball=$1 gate=$2 derbyfig=$3 console=$4
work=$(mktemp -d)
trap 'rm -rf "$work"' EXIT
make --silent install "DESTDIR=$work/" PREFIX=derbyfig "DERBYFIG=$derbyfig" "CONSOLE=$console"
cp LICENSE "$work/derbyfig"
revision=$(git rev-parse HEAD 2> /dev/null || echo unknown)
[ -z "$(git status --porcelain 2> /dev/null)" ] || revision="$revision, with changes"
(
    cd "$work/derbyfig"
    {
        echo "revision: $revision"
        echo "kit: $(rt version 2> /dev/null || echo unknown)"
        echo "gate: $gate"
        find . -type f | LC_ALL=C sort | xargs sha256sum
    } > "$work/CONTENTS"
    mv "$work/CONTENTS" .
)
tar -C "$work" --sort=name --mtime=@0 --owner=0 --group=0 --numeric-owner --mode=go=rX,u+rw -cf - derbyfig | gzip -n > "$tarball"
