#!/bin/bash
# Plays made-up sessions of runner lines over a store in memory, in random pieces, and compares what is written with what another program
# says. MAKE prints a script for a seed and a number of lines (`MAKE SEED LINES`), and the bytes of a session over a store that took a script
# (`MAKE SEED LINES --what lines --preload SCRIPT`), as `sweeps/compared/mutations/make` does. SAY prints what a session over those bytes
# writes (`SAY lines AREA --preload SCRIPT`, the bytes on standard input), as `sweeps/compared/plain.py` does. The program is proved first.
# The script played first has `admit` lines only; in every second session it is empty. CASES=FOLDER keeps the sessions there and uses those
# that are there.
# Usage: sweeps/compared/lines/run.sh MAKE SAY [COUNT [FIRST]]
set -eu
. "$(dirname "$0")/../../../bench/copy.sh"
make=$1 say=$2 count=${3:-1000} first=${4:-1}
cases=${CASES:-$scratch/cases}
mkdir -p "$cases"
copy_for compared_lines main.rt.txt wf_value run_plan act_disk act_store act_desk act_sessions command_lines runner_sessions anyhow
cp "$here/../pieces.rt.txt" "$scratch/crates/compared_lines/src/pieces.rt"
build compared_lines

one() { # SEED
    python3 "$make" "$1" 24 | grep -a '^admit ' | head -n 6 > "$scratch/taken" || true
    python3 "$make" "$1" $((1 + $1 % 90)) --what lines --preload "$scratch/taken" > "$scratch/bytes"
    [ $(($1 % 2)) = 1 ] || sed -i '/^admit /d' "$scratch/bytes"
    cat "$scratch/taken" "$scratch/bytes" > "$cases/$1"
    printf '%s\n%s\n' "$1" "$(wc -l < "$scratch/taken")" > "$cases/$1.args"
    python3 "$say" lines 8388608 --preload "$scratch/taken" < "$scratch/bytes" > "$cases/$1.saying"
    mv "$cases/$1.saying" "$cases/$1.said"
}

differ=0
for seed in $(seq "$first" $((first + count - 1))); do
    [ -e "$cases/$seed.said" ] || one "$seed"
    mapfile -t words < "$cases/$seed.args"
    "$built" "${words[@]}" < "$cases/$seed" > "$scratch/written" || true
    if ! cmp -s "$scratch/written" "$cases/$seed.said"; then
        differ=$((differ + 1))
        echo "seed $seed: other bytes"
    fi
done
echo "$count sessions, $differ differ"
[ "$differ" = 0 ]
