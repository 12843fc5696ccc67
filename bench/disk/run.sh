#!/bin/bash
# Appends of 1, 64 and 4,096 bytes with a sync each: `FileDisk` alternately with a plain loop in C, on one
# file system, to a file that grows and to one that is filled with zeros first. Prints for each the median
# times of both and their ratio.
# Usage: bench/disk/run.sh [FOLDER [COUNT [ROUNDS]]]; FOLDER is on the file system to be measured.
set -eu
. "$(dirname "$0")/../copy.sh"
folder=${1:-$here/out}
count=${2:-200}
rounds=${3:-7}
mkdir -p "$folder"
copy_for disk_bench main.rt.txt act_disk wf_value anyhow
build disk_bench
cc -O2 -o "$scratch/plain" "$here/plain.c"

one() { # PROGRAM SIZE [grown]
    rm -f "$folder/appended"
    "$1" "$folder/appended" "$2" "$count" "${@:3}"
    rm -f "$folder/appended"
}
compare() { # SIZE [grown]
    : > "$scratch/disk"; : > "$scratch/c"
    one "$scratch/plain" "$@" > /dev/null
    for _ in $(seq "$rounds"); do
        one "$built" "$@" >> "$scratch/disk"
        one "$scratch/plain" "$@" >> "$scratch/c"
    done
    awk -v s="$1" -v g="${2:-grows}" -v d="$(median < "$scratch/disk")" -v c="$(median < "$scratch/c")" -v n="$count" \
        'BEGIN { printf "%5d bytes, %s: FileDisk %.1f us, plain C %.1f us an append, ratio %.3f\n", s, g, d / n * 1e6, c / n * 1e6, d / c }'
}

echo "appends $count, rounds $rounds, folder $(df -T "$folder" | awk 'NR == 2 { print $2 }')"
for size in 1 64 4096; do
    compare "$size"
    compare "$size" grown
done
