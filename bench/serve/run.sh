#!/bin/bash
# Lifecycles a second (an event posted, its leg claimed and reported done, the run looked at) over `acts serve` on loopback and a file, at
# 1, 8 and 32 pairs of a session of HTTP and one of runner lines, as it is and with 1 ms more at each sync, beside a loop in C that makes
# the same system calls (`plain.c`). Prints the medians, their ratios to one pair and to the loop, how many processors the service and its
# clients had on average, how many entries a commit of the service has, and how long 99 of 100 answers take at most. Needs a C compiler.
# Usage: bench/serve/run.sh ACTS [FOLDER [ROUNDS]]; FOLDER is on the file system to be measured. LIMIT=SECONDS bounds each server and each
# load. With EARLIER=PROGRAM a third program takes its turn, and the ratio to it is printed. RUNS=N (0) begins with N finished runs, and
# needs Python 3. HISTORIES=N (1) makes N rounds in each run. PAIRS and EXTRA name other numbers of pairs and other microseconds.
set -euo pipefail
export LC_ALL=C
here=$(cd "$(dirname "$0")" && pwd)
acts=$(realpath "$1")
folder=${2:-$here/out}
rounds=${3:-5}
limit=${LIMIT:-120}
hooks=${HOOK_PORT:-20480}
runners=$((hooks + 1))
runs=${RUNS:-0}
histories=${HISTORIES:-1}
area=$((runs > 0 ? 67108864 : 8388608))
# The loop uses the file of the program.
declare -A programs=([acts]=$acts [plain]=$acts)
[ -z "${EARLIER:-}" ] || programs[earlier]=$(realpath "$EARLIER")
mkdir -p "$folder"
scratch=$(mktemp -d)
server=
# `timeout` passes the signal on to the server that it started.
trap '[ -z "$server" ] || kill "$server" 2> /dev/null || true; rm -rf "$scratch"' EXIT
cc -O2 -pthread -o "$scratch/load" "$here/load.c"
cc -O2 -pthread -o "$scratch/plain" "$here/plain.c"
cc -O2 -shared -fPIC -o "$scratch/slow_sync.so" "$here/slow_sync.c" -ldl

fail() { # WHAT
    echo "bench/serve: $1" >&2
    exit 1
}

start() { # PROGRAM EXTRA PAIRS: starts a server, which ends with its sessions, and waits until it listens
    local words=("$scratch/plain" "$folder/store" "$hooks" "$runners" "$3" "$histories")
    [ "$1" = plain ] || words=("${programs[$1]}" serve "$folder/store" --hook-port "$hooks" --runner-port "$runners" --sessions "$3" --rounds "$histories")
    # The output of the server before is removed first: its `ready` is not this one's.
    : > "$scratch/said"
    rm -f "$scratch/syncs"
    timeout "$limit" env SYNCS="$scratch/syncs" SLOW_SYNC="$2" LD_PRELOAD="$scratch/slow_sync.so" "${words[@]}" >> "$scratch/said" &
    server=$!
    until grep -q ready "$scratch/said"; do
        kill -0 "$server" 2> /dev/null || fail "$1 ended before it was ready"
        sleep 0.02
    done
}

ticks() { # the processor time of all processes that have been waited for, in seconds
    times > "$scratch/times"
    tail -n 1 "$scratch/times" | sed 's/[ms]/ /g' | awk '{ print 60 * ($1 + $3) + $2 + $4 }'
}

one() { # PROGRAM EXTRA PAIRS: one run; adds its lifecycles a second, the processors that it had, its entries a commit, and the milliseconds of 99 of
    # 100 answers, to a file of the program's
    local before after from
    rm -f "$folder/store"
    "${programs[$1]}" init "$folder/store" "$area" > /dev/null
    [ "$runs" = 0 ] || "$here/finished" "$folder/store" "$runs"
    ticks > "$scratch/before"
    from=$EPOCHREALTIME
    start "$@"
    timeout "$limit" "$scratch/load" "$hooks" "$runners" "$3" 32 "$histories" > "$scratch/took" || fail "the clients of $1 at $3 pairs ended with status $?"
    wait "$server" || fail "$1 at $3 pairs ended with status $?"
    server=
    ticks > "$scratch/after"
    read -r before < "$scratch/before"
    read -r after < "$scratch/after"
    # A lifecycle has four entries. Opening syncs once, a commit twice.
    awk -v b="$before" -v a="$after" -v f="$from" -v t="$EPOCHREALTIME" -v s="$(od -An -td8 -N8 "$scratch/syncs")" \
        '{ print $1 / $2, (a - b) / (t - f), 4 * $1 / ((s - 1) / 2), 1000 * $4 }' "$scratch/took" >> "$scratch/of_$1"
}

median() { # PROGRAM FIELD
    sort -n -k "$2,$2" "$scratch/of_$1" | awk -v f="$2" '{ v[NR] = $f } END { print v[int((NR + 1) / 2)] }'
}

echo "rounds $rounds, $(nproc) processors, load $(cut -d ' ' -f 1 /proc/loadavg), folder $(df -T "$folder" | awk 'NR == 2 { print $2 }'), $runs finished runs, $histories rounds in each"
for extra in ${EXTRA:-0 1000}; do
    single=
    for pairs in ${PAIRS:-1 8 32}; do
        for program in "${!programs[@]}"; do : > "$scratch/of_$program"; done
        for _ in $(seq "$rounds"); do
            for program in "${!programs[@]}"; do one "$program" "$extra" "$pairs"; done
        done
        ours=$(median acts 1)
        single=${single:-$ours}
        awk -v p="$pairs" -v e="$extra" -v a="$ours" -v c="$(median plain 1)" -v s="$single" -v b="$(median acts 2)" -v d="$(median plain 2)" -v n="$(median acts 3)" -v m="$(median acts 4)" \
            'BEGIN { printf "%4d us more a sync, %2d pairs: %.0f lifecycles a second, %.2f of one pair, %.2f of the plain loop; %.2f processors, the loop %.2f; %.2f entries a commit; 99 of 100 answers within %.1f ms\n", e, p, a, a / s, a / c, b, d, n, m }'
        [ -z "${EARLIER:-}" ] || awk -v a="$ours" -v o="$(median earlier 1)" -v n="$(median earlier 3)" -v m="$(median earlier 4)" \
            'BEGIN { printf "    the earlier program %.0f, %.2f times that; %.2f entries a commit; 99 of 100 within %.1f ms\n", o, a / o, n, m }'
    done
done
rm -f "$folder/store"
