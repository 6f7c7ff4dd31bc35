# A day at two counters. Each is a folder with two pipes; `derbyfig` is the program on the path.
mkdir north south && mkfifo north/in north/out south/in south/out
derbyfig serve office.ledger --format 100 --counter north --counter south > office.log &
ask() { echo "$2" > "$1/in" && read -r answer < "$1/out" && echo "$1: $2: $answer"; }
for counter in north south; do ask $counter 'hello 1'; done # drops what an earlier client left unfinished
ask north 'deposit 1 500 71'  # 500 units to account 1, with reference 71
ask north 'deposit 1 500 71'  # said again: it is answered as before, and not posted twice
ask south 'transfer 1 2 200 1'
ask south 'transfer 2 1 900 2' # more than account 2 holds
derbyfig close north && wait
