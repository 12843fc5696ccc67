#!/bin/bash
# Commits of 1 and of 32 look-ups through `act_store::Store` over a `FileDisk`, entering them included, alternately with a plain loop in C
# that writes the same bytes by the same four system calls, on one file system: into a file as `Store::init` leaves it, whose blocks come
# with the writes, and into one whose blocks are there already. Prints the medians, their ratios, and whether the files are the same.
# Usage: bench/commit/run.sh [FOLDER [COUNT [ROUNDS]]]; FOLDER is on the file system to be measured.
set -eu
. "$(dirname "$0")/../copy.sh"
folder=${1:-$here/out}
count=${2:-200}
rounds=${3:-7}
area=8388608
mkdir -p "$folder"
copy_for commit_bench main.rt.txt act_disk act_store run_plan wf_value anyhow
build commit_bench
cc -O2 -o "$scratch/plain" "$here/plain.c"

fresh() { # FILE KIND
    rm -f "$1"
    "$built" make "$1" "$area"
    if [ "$2" = filled ]; then
        cp --sparse=never "$1" "$1.filled"
        mv "$1.filled" "$1"
    fi
    sync "$1"
}
one() { # PROGRAM KIND FILE: the seconds
    fresh "$folder/$3" "$2"
    if [ "$1" = ours ]; then "$built" commit "$folder/$3" "$count" "$commands"; else "$scratch/plain" "$folder/$3" "$count" "$commands"; fi
}
echo "commits $count, rounds $rounds, folder $(df -T "$folder" | awk 'NR == 2 { print $2 }')"
for commands in 1 32; do
    for kind in made filled; do
        : > "$scratch/ours"; : > "$scratch/c"
        one plain "$kind" theirs > /dev/null
        for _ in $(seq "$rounds"); do
            one ours "$kind" ours >> "$scratch/ours"
            one plain "$kind" theirs >> "$scratch/c"
        done
        cmp -s "$folder/ours" "$folder/theirs" && same='the same bytes' || same='OTHER BYTES'
        awk -v m="$commands" -v k="$kind" -v s="$same" -v n="$count" -v d="$(median < "$scratch/ours")" -v c="$(median < "$scratch/c")" \
            'BEGIN { printf "%2d a commit, file %s: %.1f us, plain C %.1f us, ratio %.3f, %s\n", m, k, d / n * 1e6, c / n * 1e6, d / c, s }'
    done
done
rm -f "$folder/ours" "$folder/theirs"
