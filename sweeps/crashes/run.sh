#!/bin/bash
# Plays a script over stores in memory, crashes it inside each call of the disk, with each fill of what was not synced, and fails each call,
# alone and with all after it. Each image opens to the entries that were covered or to all; a fault is answered 51 and all after it 52; the
# disk then opens so too, and the rest of the script, played over it with the failed step repeated, leads to the table of the whole. All of
# this is done over a new store, and again over an empty one of the first layout, which the checkpoint replaces. Without SCRIPT it is the
# sixteen runs of the rows with a checkpoint among them; a name ends in `.script`, and the answers are beside it. It is a trial run of the
# sweep's own program, so nothing of that is proved. Each opening costs by the bytes of the disk: with areas of 4,096 bytes, which the
# sixteen runs fit, it takes some minutes, and its output comes at the end. `sweeps/crashes/file.sh` does the same over a file, and
# `sweeps/crashes/served` over a service and its file.
# Usage: sweeps/crashes/run.sh [SCRIPT [AREA]]
set -eu
. "$(dirname "$0")/../../bench/copy.sh"
script=$(realpath "${1:-$top/tests/rows/store/checkpoint_among_sixteen_runs.script}")
area=${2:-4096}
copy_for crash_sweep main.rt.txt act_disk act_store command_lines run_plan wf_value tests_common anyhow
for part in lines script crashes faults; do cp "$here/$part.rt.txt" "$scratch/crates/crash_sweep/src/$part.rt"; done
cd "$scratch/crates/crash_sweep"
rt fmt > /dev/null
rt try --steps 1 --seconds 7200 -- "$area" < "$script" > "$scratch/said" 2> "$scratch/log" || { tail -n 5 "$scratch/said" "$scratch/log" >&2; exit 1; }
count=$(wc -l < "${script%.script}.answers")
for layout in 'new store' 'first layout'; do
    head -n "$count" "$scratch/said" | diff - "${script%.script}.answers"
    sed -n "$((count + 1)),$((count + 2))s/^/$layout: /p" "$scratch/said"
    sed -i "1,$((count + 2))d" "$scratch/said"
done
