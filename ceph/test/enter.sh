#!/bin/bash
# enter.sh ROOT COMMAND..: the command in the chroot, with a /proc and a /dev/shm that end with it.
exec unshare -m --propagation private bash -c '
  mount -t proc proc "$0/proc" && mount -t tmpfs tmpfs "$0/dev/shm" &&
  exec chroot "$0" env -i PATH=/usr/sbin:/usr/bin:/sbin:/bin HOME=/root LC_ALL=C DEBIAN_FRONTEND=noninteractive "$@"' "$@"
