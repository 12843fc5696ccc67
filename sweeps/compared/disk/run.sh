#!/bin/bash
# Plays each case of a folder over a store on a disk in memory, and compares the output with that of the case. A case is a script NAME; the
# words `disk`, `crash` or `faults` and AREA, a line each, in NAME.args; and the wanted output in NAME.stdout. Without that file it prints
# the output. `disk` prints each answer with the writes and syncs of its command below it, and the digest (SHA-256) of the two areas.
# `crash` prints a line CALL WORD KIND FILL N for each of these calls and each fill of an image: the image opens to the table of N entries.
# `faults` fails each of these calls, alone and with all after it, opens what is seen then and the image of each fill, and prints `N calls,
# M images as wanted`, after a line for each image that opens to no prefix of the history with all that was covered.
# The wanted output comes from another program, since the plain model has no disk; `sweeps/crashes/run.sh` judges the same images by itself.
# Usage: sweeps/compared/disk/run.sh FOLDER. It is a trial run: nothing is proved, and overflows, indexes and accesses are checked at run time.
set -eu
. "$(dirname "$0")/../../../bench/copy.sh"
cases=$(cd "$1" && pwd)
copy_for compared_disk main.rt.txt wf_value act_disk act_store table_text program_commands sha2 anyhow
for part in script crash faults; do cp "$here/$part.rt.txt" "$scratch/crates/compared_disk/src/$part.rt"; done
# Lines are read as `acts` reads them, and a store shows its table and its disk, which no contract describes; so none of this is proved.
rm -rf "$scratch"/crates/*/proofs
shown='    pub fn table(\&self) -> \&Table {\n        \&self.table\n    }\n\n    pub fn disk(\&self) -> \&D {\n        \&self.disk\n    }\n'
sed -i 's/^pub use check::/pub use answer::{Answer, answer_line, answer_to};\n&/' "$scratch/crates/program_commands/src/lib.rt"
sed -i "s/^impl<D: Disk> Store<D> {\$/&\n$shown/" "$scratch/crates/act_store/src/store.rt"

cd "$scratch/crates/compared_disk"
rt fmt > /dev/null
rt try --seconds 600 --cases "$cases"
