#!/bin/bash
# Prints how the time and the memory of the worst matrices grow. Needs Python 3 and a C compiler.
set -eu
. "$(dirname "$0")/../copy.sh"
copy_for matrix_bench main.rt.txt matrix_expand wf_value anyhow
build matrix_bench
"$here/table" "$built"
