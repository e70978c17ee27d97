#!/usr/bin/env bash
# Where exchanging arms costs most: instructions for a token, here and in the plain Rust reader, of drafts in which all arms are written the other way round
# (rust/bench/src/turned.rs), the worst here last. What it finds is the case `rotation` of rust/bench/src/cases.rs.
# Needs cargo and valgrind, and some minutes; run it after `rt lib` in crates/togmelic.
set -euo pipefail
cd "$(dirname "$0")/../.."
source bench/reader/build.sh
few=1 many=6  # enough for three digits

echo "name, instructions for a token here and of the partner, their ratio"
{
    for levels in 1 2 3 4 5 6 7; do
        echo "tree-$levels"
    done
    for aside in 0 1 2 3 4 5 6 8; do
        # As many levels as 2,000 tokens allow, 45 at most.
        most=$((1980 / (12 + 11 * aside)))
        for levels in 5 10 15 20 25 30 35 40 45; do
            [ "$levels" -gt "$most" ] || echo "chain-$levels-$aside-first chain-$levels-$aside-last"
        done
    done
} | tr ' ' '\n' | while read -r case; do
    tokens=$("$bench" list "$case" size)
    here=$(reading list "$case" here)
    partner=$(reading list "$case" partner)
    echo "$case $tokens $here $partner"
done | awk '{ printf "%s %d %d %.2f\n", $1, $3 / $2, $4 / $2, $3 / $4 }' | sort -k 2 -n
