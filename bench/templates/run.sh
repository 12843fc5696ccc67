#!/bin/bash
# Prints how the time of `Template::parse` grows: 65,536 bytes against 8,192, an eighth of the bytes.
set -eu
. "$(dirname "$0")/../copy.sh"
copy_for templates_bench main.rt.txt wf_value wf_expr
build templates_bench
"$built"
