#!/bin/bash
# The system calls that `FileDisk` makes, by strace: opening, a file of zeros, and an append of a body after a
# gate. It prints the lines of one run, from the opening of the file on.
# Usage: bench/disk/calls.sh; needs strace.
set -eu
. "$(dirname "$0")/../copy.sh"
copy_for disk_calls calls.rt.txt act_disk wf_value anyhow
build disk_calls

strace -o "$scratch/trace" -e trace=openat,fstat,statx,newfstatat,pread64,pwrite64,ftruncate,fadvise64,fdatasync,fsync,write \
    "$built" "$scratch/disk" > /dev/null
sed -n "\\|$scratch/disk|,\$p" "$scratch/trace" | sed "s|$scratch/||"
