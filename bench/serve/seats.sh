#!/bin/bash
# Sessions of runner lines over `acts serve` that ask for a body that is not there, line by line: answers a second at 1, 8 and 32 sessions, as
# it is and with 1 ms more at each sync; their ratio to one session in the same run; entries a commit; and, when the first session is done, the
# fewest answers of a session as a part of the most. Needs a C compiler.
# Usage: bench/serve/seats.sh ACTS [FOLDER [ROUNDS [LINES]]]; FOLDER is on the file system to be measured. LIMIT=SECONDS bounds each server and
# each load.
set -euo pipefail
here=$(cd "$(dirname "$0")" && pwd)
acts=$(realpath "$1")
folder=${2:-$here/out}
rounds=${3:-5}
lines=${4:-1000}
limit=${LIMIT:-120}
hooks=${HOOK_PORT:-20490}
mkdir -p "$folder"
scratch=$(mktemp -d)
server=
# `timeout` passes the signal on to the server that it started.
trap '[ -z "$server" ] || kill "$server" 2> /dev/null || true; rm -rf "$scratch"' EXIT
cc -O2 -pthread -o "$scratch/looks" "$here/looks.c"
cc -O2 -shared -fPIC -o "$scratch/slow_sync.so" "$here/slow_sync.c" -ldl

fail() { # WHAT
    echo "bench/serve: $1" >&2
    exit 1
}

one() { # EXTRA SESSIONS: the answers a second, entries a commit, and fewest of most, of one run
    rm -f "$folder/store" "$scratch/syncs"
    "$acts" init "$folder/store" 8388608 > /dev/null
    : > "$scratch/said"
    timeout "$limit" env SYNCS="$scratch/syncs" SLOW_SYNC="$1" LD_PRELOAD="$scratch/slow_sync.so" \
        "$acts" serve "$folder/store" --hook-port "$hooks" --runner-port "$((hooks + 1))" --sessions "$2" >> "$scratch/said" &
    server=$!
    until grep -q ready "$scratch/said"; do
        kill -0 "$server" 2> /dev/null || fail 'the service ended before it was ready'
        sleep 0.02
    done
    timeout "$limit" "$scratch/looks" "$hooks" "$((hooks + 1))" "$2" "$lines" > "$scratch/took" || fail "the clients ended with status $?"
    wait "$server" || fail "the service ended with status $?"
    server=
    # Opening syncs once, a commit twice.
    paste -d ' ' "$scratch/took" <(sed -n 's/^settled //p' "$scratch/said") <(od -An -td8 -N8 "$scratch/syncs") |
        awk '{ printf "%d %.2f %.2f\n", $2 / $1, $5 / (($6 - 1) / 2), $3 / $4 }'
}

echo "rounds $rounds, $(nproc) processors, load $(cut -d ' ' -f 1 /proc/loadavg), folder $(df -T "$folder" | awk 'NR == 2 { print $2 }')"
for extra in 0 1000; do
    single=
    for sessions in 1 8 32; do
        : > "$scratch/runs"
        for _ in $(seq "$rounds"); do one "$extra" "$sessions" >> "$scratch/runs"; done
        read -r rate entries part < <(sort -n "$scratch/runs" | awk '{ v[NR] = $0 } END { print v[int((NR + 1) / 2)] }')
        single=${single:-$rate}
        awk -v e="$extra" -v s="$sessions" -v r="$rate" -v o="$single" -v c="$entries" -v p="$part" \
            'BEGIN { printf "%4d us more a sync, %2d sessions: %d answers a second, %.1f of one, %.2f entries a commit, fewest of most %.2f\n", e, s, r, r / o, c, p }'
    done
done
rm -f "$folder/store"
