#!/bin/sh
# Runs an office for systemd, waits until it answers, or ends it. Words: start, await or stop, and the office's name.
# Its settings are /etc/derbyfig/NAME, without which it doesn't start: COUNTERS, names with blanks between them, and SLOTS,
# how many slots each bank of a ledger has that is made. The ledger is /var/lib/derbyfig/NAME.ledger, and is made where
# nothing is. The counters are folders in /run/derbyfig/NAME: those of COUNTERS, in which the group may write the two pipes
# and the lock and nothing else, and `control`, for whoever runs the office. Every batch is kept in the archive
# /var/lib/derbyfig/NAME.books, and a copy is made in NAME.copies beside it when a counter says copy.
set -eu
task=$1 name=$2
counters=/run/derbyfig/$name kept=/var/lib/derbyfig/$name settings=/etc/derbyfig/$name
COUNTERS='' SLOTS=5000
[ -r "$settings" ] || { echo "$settings: it isn't there, or can't be read: it has the office's settings" >&2 && exit 2; }
. "$settings"

# A counter's folder of that mode, and what is written in it, for whoever may enter the folder.
make_counter() {
    mkdir -p "$counters/$1"
    chmod "$2" "$counters/$1"
    for pipe in in out; do
        [ -p "$counters/$1/$pipe" ] || mkfifo "$counters/$1/$pipe"
    done
    : >> "$counters/$1/lock"
    chmod 660 "$counters/$1/in" "$counters/$1/out" "$counters/$1/lock"
}

start() {
    make_counter control 700
    set -- --control "$counters/control"
    for counter in $COUNTERS; do
        make_counter "$counter" 750
        set -- "$@" --counter "$counters/$counter"
    done
    [ -e "$kept.ledger" ] || set -- "$@" --format "$SLOTS"
    # of a ledger from before counters had names, once
    if [ -e "$kept.anew" ]; then
        rm "$kept.anew"
        set -- "$@" --counters-anew
    fi
    mkdir -p "$kept.books" "$kept.copies"
    exec derbyfig serve "$kept.ledger" --archive "$kept.books" --copies "$kept.copies" "$@"
}

# Until it answers at its own counter. It fails where the office has ended.
await() {
    until derbyfig status "$counters/control" > /dev/null 2>&1; do
        kill -0 "$MAINPID" 2> /dev/null || exit 1
        sleep 0.1
    done
}

# What was asked before is answered first. systemd says stop behind an office that has ended by itself too: then it has no
# process any more, and was closed, or systemd knows how it ended.
stop() {
    [ -n "${MAINPID:-}" ] || exit 0
    exec derbyfig close "$counters/control"
}

case $task in
    start | await | stop) "$task" ;;
    *) echo "start NAME, await NAME or stop NAME" >&2 && exit 2 ;;
esac
