# What the benchmarks and some sweeps share; they source it. Their programs are not crates of the repository, since their output differs from
# run to run. Each is built in a copy of the crates that it uses, with what earlier checks left in them; the copy is removed at the end.
here=$(cd "$(dirname "$0")" && pwd)
top=$(cd "$(dirname "${BASH_SOURCE[0]}")/.." && pwd)
scratch=$(mktemp -d)
trap 'rm -rf "$scratch"' EXIT

below() { # CRATE..: the repository's own crates among these, and all of its own that they use
    local seen=' ' crate
    while [ $# -gt 0 ]; do
        crate=$1
        shift
        [[ $seen == *" $crate "* || ! -d $top/crates/$crate ]] && continue
        seen+="$crate "
        set -- "$@" $(sed -n "s/^$crate://p" "$top/crates.txt")
    done
    echo "$seen"
}

copy_for() { # PROGRAM SOURCE CRATE..: copies the crates that PROGRAM uses, and PROGRAM itself, which is one file beside the script
    local program=$1 source=$2 crate
    shift 2
    mkdir -p "$scratch/crates/$program/src"
    cp "$top/HANDLES" "$scratch/"
    for crate in $(below "$@"); do
        cp -r "$top/crates/$crate" "$scratch/crates/"
        grep "^$crate:" "$top/crates.txt" >> "$scratch/crates.txt"
    done
    echo "$program: $*" >> "$scratch/crates.txt"
    cp "$here/$source" "$scratch/crates/$program/src/main.rt"
}

build() { # PROGRAM: proves and builds it, and what it uses and is not proved yet; $built is its path
    built=$scratch/crates/$1/out/$1
    # This also runs it, without the arguments that it may need: only the program matters here.
    (cd "$scratch/crates/$1" && rt fmt && rt run --jobs 1) < /dev/null > "$scratch/log" 2>&1 || [ -x "$built" ] && return
    # The lines on what was loaded do not say why it is not proved.
    grep -v '^\(statements\|library\|rt: .*: begins with\|fn .*: proved\)' "$scratch/log" | tail -n 60 >&2
    exit 1
}

median() { sort -n | awk '{ v[NR] = $1 } END { print v[int((NR + 1) / 2)] }'; }
