#!/bin/bash
# What each command costs in tables of 1,000, 10,000 and 100,000 runs, through `Table::step`: microseconds, and their ratio to those at the
# first size in the same run, for five shapes of tables; and the memory of a run. Commands bring each table to its size. For runs that are run
# again the size is the number of attempts.
# Usage: bench/scale/run.sh [SIZE..]; each SIZE is from 900 to 100,000.
set -eu
. "$(dirname "$0")/../copy.sh"
[ $# -gt 0 ] || set -- 1000 10000 100000
copy_for scale_bench main.rt.txt wf_value run_plan run_table anyhow
build scale_bench
for shape in single diamond groups stuck reruns; do
    echo "$shape"
    "$built" "$shape" "$@"
done
