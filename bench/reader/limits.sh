#!/usr/bin/env bash
# Instructions of one reading of each case, here and in the plain Rust reader, as bench/reader/run.sh counts them: no ratio may be over its limit, which is 1,
# or what docs/BENCHMARKS.md explains, with two percent for another C library. Then of large drafts instructions for a token, through the entry with lent
# buffers: with 131,072 tokens at most a fifth more than with 2,000, so that the cost is linear. Last of one reading by the entry that keeps the starts of tokens
# alone: at most 135 percent of what that with whole tokens takes, on every case. Needs cargo and valgrind; where there is no
# valgrind it says so and counts nothing.
set -euo pipefail
cd "$(dirname "$0")/../.."
if ! command -v valgrind > /dev/null; then
    echo "limits: not counted, since valgrind is not here"
    exit 0
fi
source bench/reader/build.sh
few=1 many=6  # enough for three digits

limit() {  # of a case, in percent
    case $1 in
        short) echo 109 ;;
        refusedfirst) echo 131 ;;
        *) echo 102 ;;
    esac
}

over=0
for case in $("$bench" list times | cut -d ' ' -f 1); do
    here=$(reading list "$case" here)
    partner=$(reading list "$case" partner)
    echo "limits: $case $here $partner"
    if ((100 * here > $(limit "$case") * partner)); then
        echo "limits: failed: $case is over $(limit "$case") percent"
        over=1
    fi
done

few=1 many=2  # a reading of a large draft is long enough
token() {  # thousandths of an instruction for a token
    echo $((1000 * $(reading large "$1" here) / $("$bench" large "$1" size)))
}
# Not of `moved`, which is mostly copying: the C library copies long parts by other instructions than short ones, and their count says little.
for kind in $("$bench" large names | sed -n 's/-131072$//p' | grep -vx moved); do
    small=$(token "$kind-2000")
    large=$(token "$kind-131072")
    echo "limits: a token of $kind, in thousandths: $small of 2,000, $large of 131,072"
    if ((100 * large > 120 * small)); then
        echo "limits: failed: $kind is not linear"
        over=1
    fi
done

for case in $("$bench" lean names); do
    # Of a short draft one reading is little beside the start.
    [[ $case == *-20000 || $case == *-131072 ]] && many=2 || many=6
    whole=$(reading large "$case" here)
    starts=$(reading lean "$case" here)
    echo "limits: $case with lent buffers, $whole with whole tokens, $starts with their starts"
    if ((100 * starts > 135 * whole)); then
        echo "limits: failed: $case with starts alone is over 135 percent"
        over=1
    fi
done
exit "$over"
