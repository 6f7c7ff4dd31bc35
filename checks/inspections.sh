#!/usr/bin/env bash
# Runs the commands of derbyfig that look at a ledger on files that scripts made, on older and on damaged ones, and
# compares what they print with what stands in checks/inspections. Looks at their statuses, at what they tell of wrong
# words, of scripts that can't be read and of outputs that fail, at their progress, at the memory that they take on banks
# of 1,000 and 100,000 slots, and at the options that the man pages and --help name; and compares their balances with
# those that hledger and ledger find in what is printed for them, if both are on the machine. One line for each, and
# status 1 at the first difference.
# Words: the built turn_console, and the built derbyfig.
set -euo pipefail
console=$(realpath "${1:?the first word is the built turn_console}")
derbyfig=$(realpath "${2:?the second word is the built derbyfig}")
cd "$(dirname "$0")/.."
wanted=$PWD/checks/inspections man=$PWD/docs/man commands=$PWD/crates/front_program/src/commands.rt
work=$(mktemp -d)
trap 'kill $(jobs -p) 2> /dev/null || true; rm -rf "$work"' EXIT
cd "$work"
: > nothing

# A run of the program with the words behind the third one: its status, its output, which is that of a file, and what it
# tells on its errors.
run() {
    local wanted=$1 printed=$2 told=$3 status=0
    shift 3
    "$derbyfig" "$@" > printed 2> told || status=$?
    diff "$printed" printed || { echo "$*: prints something else"; exit 1; }
    [ "$(cat told)" = "$told" ] || { echo "$*: tells $(cat told)"; exit 1; }
    [ "$status" -eq "$wanted" ] || { echo "$*: ends with status $status"; exit 1; }
    echo "$*: as it must be"
}

# A file that is damaged so: check prints the line, and the others tell it.
damaged() {
    local file=$1 line=$2 command
    echo "$file: $line" > line
    run 1 line "" check "$file"
    run 1 nothing "" check "$file" -q
    for command in journal balances; do
        run 1 nothing "$file: $line" "$command" "$file"
    done
}

# Writes a byte, in hexadecimal, at an offset of a copy of the file that turn_console made.
spoiled() {
    local file=$1 offset
    cp office "$file"
    for offset in "${@:3}"; do
        printf '%b' "\\x$2" | dd of="$file" bs=1 seek="$offset" conv=notrunc status=none
    done
}

# Writes these bytes, in hexadecimal, at the beginning of a sector of a file.
put() {
    local file=$1 sector=$2
    shift 2
    printf '%b' "$(printf %s "$@" | sed 's/../\\x&/g')" | dd of="$file" bs=512 seek="$sector" conv=notrunc status=none
}

# A file of layout 1 with four slots, of which the first holds a deposit of 500 to account 1.
first_layout() {
    truncate -s $((9 * 512)) "$1"
    put "$1" 0 544c4447 0001 0000 0000000000000004
    put "$1" 1 544c4231 0000 0001 0000000000000000 0000000000000000 0000000000000000 \
        01000000 00000000 00000001 00000000 00000000000001f4 0000000000000003
    put "$1" 2 a5
}

# One of layout 2 with one slot in each bank. The second bank is live, with 5 in account 1, and holds a deposit of 5
# more.
second_layout() {
    truncate -s $((11 * 512)) "$1"
    put "$1" 0 544c4447 0002 0000 0000000000000001
    put "$1" 1 a5
    put "$1" 2 544c424b 00000000 0000000000000000 0000000000000000
    put "$1" 6 a5
    put "$1" 7 544c424b 00000000 0000000000000001 0000000000000001
    put "$1" 8 0000000000000005
    put "$1" 9 544c4231 0001 0001 0000000000000001 0000000000000000 0000000000000000 \
        01000000 00000000 00000001 00000000 0000000000000005 0000000000000001
    put "$1" 10 a5
}

# Each command and format. The first two batches are before the checkpoint, the others behind it.
"$derbyfig" run office --sectors 64 < "$wanted/office" > made
cp office before
run 0 "$wanted/check.out" "" check office
run 0 nothing "" check -q office
run 0 "$wanted/journal.table" "" journal office
run 0 "$wanted/balances.table" "" balances office
for format in table csv json hledger; do
    run 0 "$wanted/journal.$format" "" journal office --as "$format" --date 2026-11-25
    run 0 "$wanted/balances.$format" "" balances office --as "$format" --date 2026-11-25
done
for words in "--from 3" "--account 2 --reference 13 --whole" "--reference 12 --whole" "--from 3 --account 2"; do
    # shellcheck disable=SC2086
    run 0 "$wanted/selected.csv" "" journal office --as csv $words
done
sed 3d "$wanted/selected.csv" > withdrawal
run 0 withdrawal "" journal office --as csv --reference 12
sed 2d "$wanted/selected.csv" > seal
run 0 seal "" journal office --as csv --account 2 --reference 13
head -n 1 "$wanted/selected.csv" > none
run 0 none "" journal office --as csv --reference 12 --account 9
python3 "$wanted/widest.py" widest
for format in table csv json hledger; do
    run 0 "$wanted/widest.$format" "" journal widest --as "$format" --date 2026-02-28
done
for date in 1970-01-01 2024-02-29 0000-01-01 9999-12-31; do
    "$derbyfig" balances office --as hledger --date "$date" | grep -q "^$date opening" || { echo "no date: $date"; exit 1; }
done
for date in "" 1970 1970-1-1 1970-13-01 1970-00-01 1970-01-32 2023-02-29 1970/01/01 19700101 1970-01-01T00:00:00 -970-01-01 \
    +970-01-01 " 970-01-01"; do
    status=0
    "$derbyfig" balances office "--date=$date" > printed 2> told || status=$?
    [ "$status" -eq 2 ] && grep -q '^error: a date has the form YYYY-MM-DD' told || { echo "a date: $date"; exit 1; }
done
echo "dates: as they must be"
"$derbyfig" map office > drawn
python3 -c 'import sys, xml.dom.minidom as dom; dom.parse("drawn").documentElement.tagName == "svg" or sys.exit("no SVG")'
cmp office before || { echo "the file was changed"; exit 1; }

# A ledger with so few slots, after so many batches: its journal begins with the bank before the live one.
both_banks() {
    local slots=$1 batches=$2 batch live first
    rm -f both
    {
        printf 'format %s\nopen 2 00 10\n' "$slots"
        for batch in $(seq 0 $((batches - 1))); do
            printf 'post %s deposit 1 1\nturn %s\n' $((batch % 2)) $((batch % 2))
        done
    } | "$derbyfig" run both --sectors $((39 + 4 * slots)) > made
    live=$((slots * ((batches - 1) / slots)))
    first=$((live >= slots ? live - slots : 0))
    seq "$first" $((batches - 1)) > sequences
    "$derbyfig" journal both --as csv | awk -F, '$3 == "deposit" { print $1 }' | diff sequences - \
        || { echo "$slots slots, $batches batches: other records"; exit 1; }
    [ "$("$derbyfig" journal both | head -n 1)" = "before record $first: $((first > 0)) accounts hold $first" ] \
        || { echo "$slots slots, $batches batches: another snapshot"; exit 1; }
}
for slots in 1 2 3 8; do
    for batches in 1 2 3 4 5 6 7 8 9 16 17 24 25; do
        both_banks "$slots" "$batches"
    done
done
echo "the journal of both banks: as it must be"

# Files of older layouts.
first_layout first
run 0 "$wanted/layout_1.out" "" check first
second_layout second
run 0 "$wanted/layout_2.out" "" check second
run 0 "$wanted/layout_2.csv" "" journal second --as csv

# Damages, by the byte that is written. The live bank is the second one, from sector 24 on.
spoiled header 00 $((43 * 512))
damaged header "the body of an open slot is no record (bank 1, slot 0, sector 43, byte 22016)"
spoiled sequence 07 $((45 * 512 + 15))
damaged sequence "the record of a slot has another sequence number (bank 1, slot 1, sector 45, byte 23055)"
spoiled tail 00 $((44 * 512))
damaged tail "a slot is open behind a closed one (bank 1, slot 1, sector 46, byte 23552)"
spoiled entry 09 $((45 * 512 + 32))
damaged entry "place 0 of a record is no entry (bank 1, slot 1, sector 45, byte 23072)"
spoiled verdict 01 $((45 * 512 + 32 + 16))
damaged verdict "the entry at place 0 of a record breaks a rule of the ledger (bank 1, slot 1, sector 45, byte 23072)"
spoiled gates 00 512 $((24 * 512))
damaged gates "a bank isn't sound, or none is live (bank 0, sector 1, byte 512)"
spoiled version 09 5
damaged version "its ledger has version 9, which isn't known (sector 0, byte 4)"
spoiled magic 00 0
damaged magic "it holds no ledger (sector 0, byte 0)"
spoiled slots ff 15
damaged slots "its number of slots is out of range, or it is too short for them (sector 0, byte 8)"
: > empty
damaged empty "it holds no ledger"
status=0
"$derbyfig" map tail > drawn 2> told || status=$?
[ "$status" -eq 1 ] && grep -q '</svg>' drawn && grep -q '<rect class="damaged" .*<title>' drawn \
    && grep -q '>damage: .*of the file<' drawn && grep -q '^tail: a slot is open' told \
    || { echo "map of a damaged file: ends with status $status"; exit 1; }
echo "map of a damaged file: as it must be"

# What can't be looked at.
mkdir folder
echo "folder: it has no ledger of an archive" > folder_line
truncate -s 511 short
run 1 folder_line "" check folder
run 3 nothing "folder: it is neither a file nor a disk" map folder
run 3 nothing "missing: there is no such file" journal missing
[ ! -e missing ] || { echo "a missing file was made"; exit 1; }
run 3 nothing "short: its length is no multiple of 512 bytes; it is no ledger, or something was appended to it" balances short
run 3 nothing "short/none: there is no such file" check short/none
run 3 nothing "/dev/zero: it is neither a file nor a disk" check /dev/zero
mkfifo script
"$derbyfig" run office < script > /dev/null &
holder=$!
exec 3> script
# a look at the ledger would keep it from being locked
for _ in $(seq 600); do
    [ -z "$(find "/proc/$holder/fd" -lname '*/office')" ] || break
    sleep 0.1
done
sleep 1
run 3 nothing "office: another program has it; end that one first" check office
run 0 "$wanted/check.out" "office: it isn't locked, so what is printed may be torn" check office --unlocked
exec 3>&-
wait "$holder"
run 0 "$wanted/check.out" "" check office

# Words that a program refuses, behind the beginning of what it tells.
refuses_words() {
    local program=$1 begin=$2 status=0
    shift 2
    "${!program}" "$@" > printed 2> told || status=$?
    [ "$status" -eq 2 ] && [ ! -s printed ] && [ "$(head -c "${#begin}" told)" = "$begin" ] \
        || { echo "$program $*: ends with status $status, and tells $(cat told)"; exit 1; }
    echo "wrong words, $program $*: as they must be"
}

# Each program and its words, and how it begins to tell that they are wrong.
while IFS='|' read -r program words begin; do
    # shellcheck disable=SC2086
    refuses_words "$program" "$begin" $words
done << END
derbyfig||error: 'derbyfig' requires a subcommand but one was not provided
derbyfig|check|error: the following required arguments were not provided
derbyfig|check office --at 1|error: unexpected argument '--at' found
derbyfig|chart office|error: unrecognized subcommand 'chart'
derbyfig|journal office --as xml|error: invalid value 'xml' for '--as <FORMAT>'
derbyfig|journal office --from x|error: invalid value 'x' for '--from <N>'
derbyfig|journal office --account 0|error: invalid value '0' for '--account <A>'
derbyfig|journal office --account 1025|error: invalid value '1025' for '--account <A>'
derbyfig|balances office --from 1|error: unexpected argument '--from' found
derbyfig|map office more|error: unexpected argument 'more' found
derbyfig|run office --sectors 0|error: invalid value '0' for '--sectors <K>'
derbyfig|serve office --stations 65|error: invalid value '65' for '--stations <N>'
derbyfig|serve office --format 1000001|error: invalid value '1000001' for '--format <SLOTS>'
derbyfig|serve office|an office needs a --counter or --terminal
derbyfig|serve office --terminal --overwrite|--overwrite needs --format
derbyfig|close counter --seconds 86401|error: invalid value '86401' for '--seconds <S>'
derbyfig|format office|error: the following required arguments were not provided
derbyfig|migrate old --slots 1|error: the following required arguments were not provided
derbyfig|migrate office office --slots 1|error: NEW is OLD; take another path
derbyfig|copy office office --slots 1|error: NEW is LEDGER; take another path
derbyfig|restore office office --slots 1|error: NEW is FOLDER; take another path
console|--sectors 0|error: invalid value '0' for '--sectors <K>'
console|--sectors 4000040|error: invalid value '4000040' for '--sectors <K>'
console|--sectors x|error: invalid value 'x' for '--sectors <K>'
console|--sectors|error: a value is required for '--sectors <K>'
console|frob|error: unexpected argument 'frob' found
console|--frob|error: unexpected argument '--frob' found
END
for program in derbyfig console; do
    refuses_words "$program" "error: invalid UTF-8 was detected in one or more arguments" $'\xff'
done

# A script that has no end, and one that can't be read: a file, and what is told. Nothing of it is run.
while IFS='|' read -r file line; do
    status=0
    "$console" < "$file" > printed 2> told || status=$?
    [ "$status" -eq 1 ] && [ ! -s printed ] && [ "$(cat told)" = "$line" ] \
        || { echo "a script from $file: ends with status $status, and tells $(cat told)"; exit 1; }
    echo "a script from $file: $line"
done << END
/dev/zero|script too long
.|read failed
END

# An output that is full is told. One that nobody reads any more ends what was asked for beside a ledger quietly; but a
# script's answers aren't told to nobody.
ends_with() {
    local output=$1 ends=$2 line=$3 status=0
    shift 3
    case $output in
        full) "$derbyfig" "$@" < crash > /dev/full 2> told || status=$? ;;
        closed) python3 "$wanted/closed.py" "$derbyfig" "$@" < crash 2> told || status=$? ;;
    esac
    [ "$status" -eq "$ends" ] && [ "$(cat told)" = "$line" ] \
        || { echo "$*: ends with status $status at a $output output, and tells $(cat told)"; exit 1; }
    echo "$*: at a $output output as it must be"
}
echo crash > crash
for words in "check office" {journal,balances}" office --as "{table,csv,json,hledger} --help --version; do
    # shellcheck disable=SC2086
    ends_with full 3 "write failed" $words
    # shellcheck disable=SC2086
    ends_with closed 0 "" $words
done
ends_with full 3 "write failed" run
ends_with closed 3 "write failed" run

# A journal whose reader goes away in its midst.
python3 "$wanted/bank.py" thousand 1000
python3 "$wanted/bank.py" hundred_thousand 100000
for format in table csv json hledger; do
    "$derbyfig" journal hundred_thousand --as "$format" 2> told | head -n 1 > printed
    [ "${PIPESTATUS[0]}" -eq 0 ] && [ ! -s told ] || { echo "a closed output, $format: $(cat told)"; exit 1; }
    echo "a closed output, $format: as it must be"
done

# Progress, on a terminal alone.
"$derbyfig" journal hundred_thousand 2> told > /dev/null
[ ! -s told ] || { echo "progress is told where there is no terminal"; exit 1; }
python3 "$wanted/terminal.py" "$derbyfig" journal hundred_thousand > told
printf '\r0 of 100000 records\r65536 of 100000 records\r\033[K' | cmp - told || { echo "another progress"; exit 1; }
echo "progress: on a terminal alone"

# Whether the program ends well in so many KB of memory.
fits() {
    local memory=$1
    shift
    (ulimit -v "$memory" && exec "$derbyfig" "$@" > /dev/null 2>&1)
}

# Memory: what is enough, to 128 KB, for a bank of 1,000 slots is enough but for 2 MB for one of 100,000, whose records
# alone have 100 MB.
for words in check "journal --as table" "journal --as csv" "journal --as json" "journal --as hledger" \
    balances map; do
    too_little=1024 enough=65536
    while [ $((enough - too_little)) -gt 128 ]; do
        middle=$(((too_little + enough) / 2))
        # shellcheck disable=SC2086
        if fits "$middle" $words thousand; then enough=$middle; else too_little=$middle; fi
    done
    # shellcheck disable=SC2086
    fits $((enough + 2048)) $words hundred_thousand \
        || { echo "$words: $enough KB of memory aren't enough for a larger bank"; exit 1; }
    echo "$words: in $((enough + 2048)) KB of memory on each bank"
done

# The lines "account balance" of those that hold something, of our CSV and of what the two print.
ours() {
    awk -F, 'NR > 1 && $1 != "total" && $2 > 0 { print $1, $2 }'
}
theirs() {
    awk '{ sub("account:", "", $2); print $2, $1 }' | sort -n
}
compare() {
    local seed=$1 slots=$(($1 * 50)) batches=$((1000 + $1 * 50))
    rm -f large
    python3 "$wanted/batches.py" "$slots" "$batches" "$seed" > script_of_batches
    "$derbyfig" run large --sectors $((39 + 4 * slots)) < script_of_batches > made
    "$derbyfig" check large | grep -qx "next $batches" || { echo "$seed: not $batches batches"; exit 1; }
    "$derbyfig" balances large --as csv | ours > balances
    "$derbyfig" journal large --as hledger > large.journal
    hledger -f large.journal balance account --flat --no-total | theirs | diff balances - || { echo "hledger: others"; exit 1; }
    ledger -f large.journal balance account --flat --no-total | theirs | diff balances - || { echo "ledger: others"; exit 1; }
    echo "$(wc -l < balances) accounts after $batches batches: as hledger and ledger have them"
}
if command -v hledger > /dev/null && command -v ledger > /dev/null; then
    for seed in 1 2 3; do
        compare "$seed"
    done
else
    echo "skipped: hledger and ledger aren't both on this machine, so their balances weren't compared"
fi

# The man pages name the options that --help names.
options() {
    grep -o -e '--[a-z][a-z]*' | LC_ALL=C sort -u
}
for command in "" run serve close check journal balances map format copy migrate archive restore; do
    "$derbyfig" $command --help
done | options > helped
sed 's/\\-/-/g' "$man/derbyfig.1" | options | diff helped - || { echo "docs/man/derbyfig.1: other options"; exit 1; }
"$console" --help | options > helped
sed 's/\\-/-/g' "$man/turn_console.1" | options | diff helped - || { echo "docs/man/turn_console.1: other options"; exit 1; }
echo "the man pages: the options of --help"
version=$(sed -n 's/^pub const VERSION: &str = "\(.*\)";/\1/p' "$commands")
[ "$("$derbyfig" --version)" = "derbyfig $version" ] || { echo "--version: $("$derbyfig" --version)"; exit 1; }
