#!/bin/bash
# Plays a script over a store in a file with each write and sync of the file failing in turn, and then the rest: `sweeps/crashes/over_a_file`
# says how. The program is proved first. Needs Python 3 and a C compiler.
# Usage: sweeps/crashes/file.sh [SCRIPT [AREA [FOLDER]]]
set -eu
. "$(dirname "$0")/../../bench/copy.sh"
script=$(realpath "${1:-$top/tests/rows/store/checkpoint_among_sixteen_runs.script}")
area=${2:-4096}
copy_for crashes_over_a_file file.rt.txt act_disk act_store command_lines run_plan wf_value anyhow
cp "$here/lines.rt.txt" "$scratch/crates/crashes_over_a_file/src/lines.rt"
build crashes_over_a_file
"$here/over_a_file" "$built" "$script" "$area" "${@:3}"
