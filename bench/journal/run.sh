#!/bin/bash
# Appends of 1, 14, 109 and 4,096 bytes with both syncs, through `gated_journal::Area`, alternately with a plain
# loop in C of the same four system calls, on one file system; and a read with a scan of a full area of 64 MiB,
# and a read with a loop over the records in C, each beside one read of it in C. Prints the median time of an
# append, the least time of the others, and their ratios.
# Usage: bench/journal/run.sh [FOLDER [COUNT [ROUNDS]]]; FOLDER is on the file system to be measured.
set -eu
. "$(dirname "$0")/../copy.sh"
folder=${1:-$here/out}
count=${2:-200}
rounds=${3:-7}
mkdir -p "$folder"
copy_for journal_bench main.rt.txt gated_journal act_disk wf_value anyhow
file=$folder/area
build journal_bench
cc -O2 -o "$scratch/plain" "$here/plain.c"

least() { cut -d ' ' -f 1 | sort -n | head -n 1; }
report() { # NAME DIVISOR OURS WHICH
    awk -v n="$1" -v d="$("$4" < "$scratch/$3")" -v c="$("$4" < "$scratch/c")" -v k="$2" \
        'BEGIN { printf "%s: %.1f us, plain C %.1f us, ratio %.3f\n", n, d / k * 1e6, c / k * 1e6, d / c }'
}
fresh() { # SIZE: a file of zeros, written out, in which all appends fit
    head -c $((count * $1 + 16384)) /dev/zero > "$file"
    sync "$file"
}

echo "appends $count, rounds $rounds, folder $(df -T "$folder" | awk 'NR == 2 { print $2 }')"
for size in 1 14 109 4096; do
    : > "$scratch/ours"; : > "$scratch/c"
    fresh "$size"
    "$scratch/plain" "$file" "$size" "$count" > /dev/null
    for _ in $(seq "$rounds"); do
        fresh "$size"
        "$built" "$file" "$size" "$count" >> "$scratch/ours"
        fresh "$size"
        "$scratch/plain" "$file" "$size" "$count" >> "$scratch/c"
    done
    report "an append of $size bytes" "$count" ours median
done
for body in 0 9 104 65536; do
    python3 "$here/full_area.py" "$file" "$body"
    : > "$scratch/ours"; : > "$scratch/c"; : > "$scratch/loop"
    "$scratch/plain" "$file" 0 1 > /dev/null
    for _ in $(seq "$rounds"); do
        "$built" "$file" 0 1 >> "$scratch/ours"
        "$scratch/plain" "$file" 0 1 >> "$scratch/c"
        "$scratch/plain" "$file" 0 2 >> "$scratch/loop"
    done
    report "64 MiB of bodies of $body bytes, read and scanned, beside a read" 1 ours least
    report "64 MiB of bodies of $body bytes, read and gone over in C, beside a read" 1 loop least
done
rm -f "$file"
