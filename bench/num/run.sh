#!/usr/bin/env bash
# Instructions of one reading of a decimal run of 1 to 20 places, the first digits of the largest 64-bit number: crate `num` beside the same rules in plain
# Rust, with what is asked of a number besides, whether it is a length, a size and a bound. Instructions are the difference of two runs, divided by how many
# more readings the second makes.
#     bench/num/run.sh [FOLDER]    FOLDER has libnum_speed.a; crates/num_speed/out, where `rt lib` in crates/num_speed writes it, unless said
# Needs rustc and valgrind. Writes one line a number of places; what is said of the run is compared.
set -euo pipefail
cd "$(dirname "$0")/../.."
folder=${1:-crates/num_speed/out}
work=$(mktemp -d)
trap 'rm -rf "$work"' EXIT
rustc -O -C target-cpu=x86-64-v2 -L "$folder" -l static=num_speed -o "$work/digits" bench/num/digits.rs

count() {  # instructions of one run: which, places, times
    valgrind --tool=callgrind --callgrind-out-file=/dev/null "$work/digits" "$@" 2>&1 > /dev/null | sed -n 's/.*Collected : //p'
}
reading() {  # instructions of one reading: which, places
    local few many
    few=$(count "$1" "$2" 100)
    many=$(count "$1" "$2" 1100)
    echo $(((many - few) / 1000))
}
printf '%-7s %12s %12s\n' places 'here, instr' 'Rust, instr'
for places in $(seq 1 20); do
    said=$("$work/digits" here "$places" 1)
    [ "$said" = "$("$work/digits" rust "$places" 1)" ]
    here=$(reading here "$places")
    rust=$(reading rust "$places")
    printf '%-7d %12d %12d\n' "$places" "$here" "$rust"
done
