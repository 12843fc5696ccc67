#!/bin/bash
# Plays over a store in a file, ended by `kill -9` at 200 random moments, and what the files open to (`sweeps/crashes/killed`). Needs Python 3.
# Usage: sweeps/crashes/killed.sh [FOLDER [CUTS [SEED]]].
set -eu
. "$(dirname "$0")/../../bench/copy.sh"
folder=${1:-$here/out}
mkdir -p "$folder"
copy_for killed_play killed.rt.txt act_disk act_store program_commands run_plan wf_value anyhow
# Lines are read as `acts` reads them.
sed -i 's/^pub use check::/pub use line::command_of;\n&/' "$scratch/crates/program_commands/src/lib.rt"
build killed_play
"$here/killed" "$built" "$folder" "${@:2}"
