#!/bin/bash
# Prints what `acts check`, `prepare` and claims cost, beside the parts that any program needs. Needs Python 3 and a C compiler.
set -eu
. "$(dirname "$0")/../copy.sh"
copy_for check_bench main.rt.txt wf_value wf_reader matrix_expand run_plan run_table program_commands serde_json anyhow
build check_bench
"$here/table" "$built"
