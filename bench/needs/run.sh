#!/bin/bash
# Times the building of the largest graph of needs beside the reading of its text, in one run.
set -eu
. "$(dirname "$0")/../copy.sh"
copy_for needs_bench main.rt.txt needs_graph wf_reader wf_value serde_json anyhow
build needs_bench
"$built" | grep -E '^[0-9]+ jobs'
