# Repeats a posting until it is answered. It is posted once, even if this script is killed and started again.
# $1 is the counter's folder, $2 the key of this posting.
until derbyfig-counter -s "$1.state" -i "$2" "$1" deposit 1 500; [ $? -ne 3 ]; do sleep 1; done
