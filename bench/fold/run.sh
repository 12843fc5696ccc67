#!/bin/bash
# `acts play` beside a plain fold in Rust over the scripts of `bench/play`; both have to give the same answers. Prints the ratio of their
# processor times. Usage: bench/fold/run.sh ACTS. Needs `rustc` and Python 3.
set -eu
here=$(cd "$(dirname "$0")" && pwd)
scratch=$(mktemp -d)
trap 'rm -rf "$scratch"' EXIT
rustc -O --edition 2021 -o "$scratch/plain" "$here/plain.rs"
"$here/../play" "$1" "$scratch/plain"
