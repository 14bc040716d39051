#!/bin/bash
# namespace.sh ROOT COMMAND..: the command in the chroot, in PID, mount and network namespaces of its own: loopback is all
# there is, the drives of the OSDs are files in memory, and every daemon ends with the command, or with the caller.
exec setpriv --pdeathsig KILL unshare -m -p -n --fork --kill-child --propagation private bash -c '
  ip link set lo up && mount -t proc proc "$0/proc" && mount -t tmpfs tmpfs "$0/dev/shm" &&
  mkdir -p "$0/cluster" && mount -t tmpfs -o size=8g tmpfs "$0/cluster" &&
  chroot "$0" env -i PATH=/usr/sbin:/usr/bin:/sbin:/bin HOME=/root LC_ALL=C PYTHONDONTWRITEBYTECODE=1 "$@"' "$@"
