#!/usr/bin/env bash
# The tables of docs/BENCHMARKS.md, "The reader", "Loading a listing" and "Large drafts", and its plots: instructions and time of one reading of each case
# through the entry for C, beside the plain Rust reader: draft in, listing out. Then the same of one loading: that listing in, its records out; and of one
# loading of the same listing in lines of 36 bytes, for which the way up is worked out. Then of one reading of large drafts, through the entry with lent
# buffers, for each token too. Last of one reading of all these drafts by the entry that keeps the starts of tokens alone beside that with whole tokens. rust/bench has the cases, the loop that calls both, and how they are timed.
# Instructions are the difference of two runs, divided by how many more readings the second makes, so that the start cancels.
# callgrind counts a byte that `rep stosb` clears or `rep movsb` copies as an instruction; the case `least` shows what clearing the buffers comes to.
# Needs cargo, valgrind and Python 3; run it after `rt lib` in crates/togmelic. Writes the tables, and the plots to docs/benchmarks; the answers are compared.
set -euo pipefail
cd "$(dirname "$0")/../.."
source bench/reader/build.sh

table() {  # one line a case: kind, and what its size is
    local kind=$1 case times size here partner
    printf '\n| Case | %s | Instructions here | Of the partner | Ratio | Microseconds here | Of the partner | Ratio |\n' "$2"
    echo '|---|---|---|---|---|---|---|---|'
    "$bench" "$kind" times | while read -r case times; do
        # What is used of the buffer, and the checksum of all of it.
        cmp <("$bench" "$kind" "$case" here 1) <("$bench" "$kind" "$case" partner 1)
        size=$("$bench" "$kind" "$case" size)
        here=$(reading "$kind" "$case" here)
        partner=$(reading "$kind" "$case" partner)
        echo "$case $size $here $partner $times"
    done | awk '
        function commas(n) { return n < 1000 ? n : commas(int(n / 1000)) sprintf(",%03d", n % 1000) }
        { printf "| %s | %s | %s | %s | %.2f | %s | %s | %.2f |\n", $1, commas($2), commas($3), commas($4), $3 / $4, $5, $6, $5 / $6 }'
}

large() {  # a line for each case of large drafts, with what one token takes
    local few=1 many=6 case times size here partner
    printf '\n| Case | Tokens | Instructions here | Of the partner | Ratio | For a token here | Of the partner | Nanoseconds for a token here | Of the partner |\n'
    echo '|---|---|---|---|---|---|---|---|---|'
    "$bench" large times | while read -r case times; do
        # The bytes used, and the checksums of all buffers.
        cmp <("$bench" large "$case" here 1) <("$bench" large "$case" partner 1)
        size=$("$bench" large "$case" size)
        here=$(reading large "$case" here)
        partner=$(reading large "$case" partner)
        echo "$case $size $here $partner $times"
    done | awk '
        function commas(n) { return n < 1000 ? n : commas(int(n / 1000)) sprintf(",%03d", n % 1000) }
        {
            printf "| %s | %s | %s | %s | %.2f | %.1f | %.1f | %.1f | %.1f |\n",
                $1, commas($2), commas($3), commas($4), $3 / $4, $3 / $2, $4 / $2, 1000 * $5 / $2, 1000 * $6 / $2
        }'
}

starts() {  # a line for each case: keeping the starts of tokens alone and keeping whole tokens, and then with no room for lines
    local few=1 many=6 case size starts whole
    printf '\n| Case | Tokens | Instructions, starts alone | Whole tokens | Ratio | Without lines, starts alone | Whole tokens | Ratio |\n'
    echo '|---|---|---|---|---|---|---|---|'
    "$bench" lean names | while read -r case; do
        # The bytes used, and the checksums of all buffers, with lines and without.
        for kind in lean lean-read large-read; do
            cmp <("$bench" "$kind" "$case" here 1) <("$bench" "$kind" "$case" partner 1)
        done
        size=$("$bench" lean "$case" size)
        starts=$(reading lean "$case" here)
        whole=$(reading large "$case" here)
        echo "$case $size $starts $whole $(reading lean-read "$case" here) $(reading large-read "$case" here)"
    done | awk '
        function commas(n) { return n < 1000 ? n : commas(int(n / 1000)) sprintf(",%03d", n % 1000) }
        { printf "| %s | %s | %s | %s | %.2f | %s | %s | %.2f |\n", $1, commas($2), commas($3), commas($4), $3 / $4, commas($5), commas($6), $5 / $6 }'
}

table list Tokens
table load Records
table short Records
large
starts
for plot in tokens depth; do
    "$bench" "$plot" | python3 bench/reader/plot.py "$plot" > "docs/benchmarks/$plot.svg"
done
