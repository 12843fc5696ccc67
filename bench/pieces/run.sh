#!/bin/bash
# What the pieces cost in which a request comes, in instructions, which do not depend on the load: an event with a body of 60,000 bytes in
# pieces of 1,000,000, 4,000 and 1 byte, and a look at a run with a head of 300 bytes in pieces of 300, 30 and 1. `stream` is a session over a
# reader, which reads 4,096 bytes at a time at most, `loop` a client of the loop of `acts serve`, which reads 16,384. A request takes the
# instructions (`valgrind --tool=callgrind`) of a program that hears six of them minus those of one that hears two, divided by four. In brackets
# stands what each further piece takes.
# Usage: bench/pieces/run.sh [stream|loop [PROGRAM]]; PROGRAM is one that was built before.
set -eu
. "$(dirname "$0")/../copy.sh"
of=${1:-stream}
if [ $# -gt 1 ]; then
    built=$2
else
    [ "$of" = loop ] && more='act_disk act_store client_loop runner_sessions' || more='wf_value run_plan'
    copy_for "pieces_$of" "$of.rt.txt" act_sessions webhook_sessions anyhow $more
    build "pieces_$of"
fi

# valgrind counts each byte that `rep stosb` and `rep movsb` write as an instruction, so the C library does without them.
export GLIBC_TUNABLES=glibc.cpu.x86_rep_stosb_threshold=1000000000:glibc.cpu.x86_rep_movsb_threshold=1000000000

counted() { # WORD PIECE TIMES: the instructions of the program
    valgrind --tool=callgrind --callgrind-out-file=/dev/null "$built" "$@" 2>&1 > /dev/null | sed -n 's/.*Collected : //p'
}

for row in 'event 60093 1000000 4000 1' 'look 300 300 30 1'; do
    set -- $row
    what=$1 size=$2
    shift 2
    first=
    for piece in "$@"; do
        took=$((($(counted "$what" "$piece" 6) - $(counted "$what" "$piece" 2)) / 4))
        : "${first:=$took}"
        awk -v w="$what" -v p="$piece" -v s="$size" -v t="$took" -v f="$first" \
            'BEGIN { n = int((s + p - 1) / p); printf "%s, pieces of %d: %d", w, p, t; if (n > 1) printf " (%.0f)", (t - f) / (n - 1); print "" }'
    done
done
