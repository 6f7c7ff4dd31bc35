#!/bin/sh
# Starts a system whose files lie in a folder: systemd, in namespaces and a cgroup of its own, with no network. What it
# writes below /proc/sys and /sys would be the host's, so it can't. Words: the folder, and the cgroup.
set -eu
tree=$1
if [ $# = 2 ]; then
    echo $$ > "$2/cgroup.procs"
    exec unshare --mount --uts --ipc --pid --cgroup --net --fork --kill-child sh "$0" "$tree"
fi

hostname office
mount --make-rprivate /
mount --bind "$tree" "$tree"
cd "$tree"
mount -t proc none proc
mount --bind proc/sys proc/sys
mount -o remount,bind,ro proc/sys
[ ! -e proc/sysrq-trigger ] || mount --bind /dev/null proc/sysrq-trigger
mount -t sysfs -o ro none sys
mount -t cgroup2 none sys/fs/cgroup
mount -t tmpfs none run
mount -t tmpfs -o mode=755 none dev
mkdir dev/pts
mount -t devpts -o newinstance,ptmxmode=0666,mode=620,gid=5 none dev/pts
ln -s pts/ptmx dev/ptmx
ln -s /proc/self/fd dev/fd
for name in null zero full random urandom tty; do
    touch "dev/$name"
    mount --bind "/dev/$name" "dev/$name"
done
pivot_root . mnt
cd /
umount -l /mnt
exec env -i container=unshare PATH=/usr/sbin:/usr/bin:/sbin:/bin /sbin/init
