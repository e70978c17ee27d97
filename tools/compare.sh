#!/usr/bin/env bash
# The proved reader, through its entries for C, beside the partner: builds the Rust workspace, runs the tests of the wrapper and of the partner,
# then compares every byte of the answers to short strings, to UTF-8 in comments, good and bad, to drafts at both sets of limits, to drafts with several
# refusals, to files of up to 30 items, to random drafts and to random files of up to a megabyte, with every word of tokens and tree from the large entry and
# of starts and tree from the lean one, and these two with each other; and every word of what is loaded from listings: of records with every few children, and
# of random drafts, whole and damaged, in all forms of a line. Any step that fails ends it.
#     tools/compare.sh [SEED [COUNT]]    COUNT random functions of each kind, 20,000 unless said, half as many files and drafts with comments, and one large
#                                        file for every 50
# Needs cargo and Python 3, and crates/togmelic/out/libtogmelic.a, which `rt lib` in crates/togmelic writes; TOGMELIC_LIB may name another folder for it,
# by an absolute path.
set -euo pipefail
cd "$(dirname "$0")/.."
seed=${1:-1}
count=${2:-20000}
source tools/steps.sh

cargo_step build --workspace
echo "compare: built"
cargo_tests togmelic partner
step self-test "$built/partner" --self-test | sed 's/^/compare: partner: /'
step compare "$built/compare" bytes lexemes utf8 limits rooms faults files shapes large contracts "$seed" "$((count / 50))" | tee "$work/totals" | grep -v total
for kind in shaped damaged tokens files damaged-files comments; do
    [[ $kind == *files || $kind == comments ]] && many=$((count / 2)) || many=$count
    step drafts.py python3 rust/partner/drafts.py "$seed" "$many" "$kind" > "$work/stream"
    step compare "$built/compare" stream < "$work/stream" | tee -a "$work/totals" | sed -n "s/stream/$kind, seed $seed/p"
    # Most of these drafts are accepted, so their listings tell most.
    [[ $kind != shaped && $kind != files ]] ||
        step compare "$built/compare" listings < "$work/stream" | tee -a "$work/totals" | sed -n "s/listings:/listings of $kind, seed $seed:/p"
done
awk -F '[^0-9]+' '/total/ { for (i = 2; i <= 8; i++) sum[i] += $i }
    END { print "compare: total: " sum[2] " drafts, " sum[3] " accepted; within the large limits " sum[4] " drafts, " sum[5] " accepted, " sum[6] \
        " answers with starts alone beside those with whole tokens; " sum[7] " listings, " sum[8] " accepted; no difference" }' "$work/totals"
