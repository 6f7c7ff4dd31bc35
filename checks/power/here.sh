#!/bin/sh
# Runs what is said on standard input, a line each, where /dev/vda is a loop device: the words are its two numbers. A line
# `done STATUS` comes behind what each prints. The system's own disks can't be named here.
set -eu
mount --make-rprivate /
mount -t tmpfs none /tmp
mount -t tmpfs none /mnt
cp -a /dev/null /dev/zero /dev/urandom /mnt
mknod /mnt/vda b "$1" "$2"
mount --move /mnt /dev
set +e
echo ready
while read -r line; do eval "$line" 2>&1 < /dev/null; echo "done $?"; done
