#!/bin/bash
# Sessions of 64 requests `GET /runs/1` in one stream through `webhook_sessions` over a fake, alternately with a plain loop in C over the same
# bytes: the median time of a request, and whether both write the same bytes. Then what the allocator holds at most in a session of one
# event, by the size of its body (`bench/matrix/watch.c`): beyond what it held before, beside the bytes of its request.
# Usage: bench/sessions/run.sh [SESSIONS [ROUNDS]]
set -eu
. "$(dirname "$0")/../copy.sh"
sessions=${1:-2000}
rounds=${2:-7}
copy_for sessions_bench main.rt.txt wf_value run_plan act_sessions webhook_sessions anyhow
build sessions_bench
cc -O2 -o "$scratch/plain" "$here/plain.c"
cc -O2 -shared -fPIC -o "$scratch/watch.so" "$here/../matrix/watch.c" -ldl

cmp -s <("$built" print) <("$scratch/plain" print) && same='the same bytes' || same='OTHER BYTES'
: > "$scratch/ours"; : > "$scratch/c"
for _ in $(seq "$rounds"); do
    "$built" time "$sessions" >> "$scratch/ours"
    "$scratch/plain" time "$sessions" >> "$scratch/c"
done
awk -v s="$same" -v n="$sessions" -v d="$(median < "$scratch/ours")" -v c="$(median < "$scratch/c")" \
    'BEGIN { printf "a request: %.0f ns, plain C %.0f ns, ratio %.2f, %s\n", d / n / 64 * 1e9, c / n / 64 * 1e9, d / c, s }'
for body in 81 4096 16384 65536; do
    LD_PRELOAD="$scratch/watch.so" "$built" hold "$body" 9> "$scratch/held" > "$scratch/said"
    echo "a body of $body bytes: $(tail -n 1 "$scratch/said"); live and most: $(tr '\n' ';' < "$scratch/held")"
done
