#!/bin/bash
# What opening a store takes beside reading and preparing the bodies of its runs, for two forms and three shapes of stores, and for a small
# table in large areas; bench/open/stores says which. Usage: bench/open/run.sh [PART]; PART divides each number of runs. Needs Python 3 and
# GNU time (`/usr/bin/time`). ACTS=PROGRAM compares the views that `acts show` prints.
set -eu
. "$(dirname "$0")/../copy.sh"
copy_for open_bench main.rt.txt act_disk act_store run_plan wf_value anyhow
build open_bench
"$here/stores" "$built" "$@"
