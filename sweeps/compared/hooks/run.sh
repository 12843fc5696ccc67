#!/bin/bash
# Plays made-up webhook sessions over a store in memory, in random pieces, and compares what is written with what another program says.
# MAKE prints the bytes of a session for a seed and a number of requests (`MAKE SEED REQUESTS --what hook`), as
# `sweeps/compared/mutations/make` does. SAY prints what a session over those bytes writes (`SAY hook 262144`, the bytes on standard input),
# as `sweeps/compared/plain.py` does. CASES=FOLDER keeps the sessions there and uses those that are there. The program is proved first.
# Usage: sweeps/compared/hooks/run.sh MAKE SAY [COUNT [FIRST]]
set -eu
. "$(dirname "$0")/../../../bench/copy.sh"
make=$1 say=$2 count=${3:-1000} first=${4:-1}
cases=${CASES:-$scratch/cases}
mkdir -p "$cases"
copy_for compared_hooks main.rt.txt wf_value act_disk act_store act_desk act_sessions webhook_sessions anyhow
cp "$here/../pieces.rt.txt" "$scratch/crates/compared_hooks/src/pieces.rt"
build compared_hooks

differ=0
for seed in $(seq "$first" $((first + count - 1))); do
    if [ ! -e "$cases/$seed.said" ]; then
        python3 "$make" "$seed" $((1 + seed % 20)) --what hook > "$cases/$seed"
        python3 "$say" hook 262144 < "$cases/$seed" > "$cases/$seed.saying"
        mv "$cases/$seed.saying" "$cases/$seed.said"
    fi
    "$built" "$seed" < "$cases/$seed" > "$scratch/written" || true
    if ! cmp -s "$scratch/written" "$cases/$seed.said"; then
        differ=$((differ + 1))
        echo "seed $seed: other bytes"
    fi
done
echo "$count sessions, $differ differ"
[ "$differ" = 0 ]
