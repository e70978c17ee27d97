#!/usr/bin/env bash
# Instructions and time of 1,000 lexings of a 16 KiB draft of each kind: crate lexer (program lexer_speed) beside the same loop in plain Rust.
# Needs rustc and valgrind; run it after `rt run` in crates/lexer_speed, which builds the program. Writes one line a kind; the answers are compared.
set -euo pipefail
cd "$(dirname "$0")/../.."
work=$(mktemp -d)
trap 'rm -rf "$work"' EXIT
rustc -O -C target-cpu=x86-64-v2 -o "$work/rust" bench/lexer/lexer.rs
python3 - "$work" <<'PY'
import sys
size, folder = 16384, sys.argv[1]
kinds = {
    "names": " ".join(f"alpha_{i % 10}" for i in range(2048)),
    "digits": " ".join("1_234_5" for i in range(2048)),
    "marks": "(::=>[;],)" * 204,
    "nested": "/*" * 3000 + " x " + "*/" * 3000,
    "line": "//" + "x" * (size - 2),
    "stars": "/*" + "*" * (size - 3) + "/",
    "block": "/*" + "x" * (size - 4) + "*/",
    "prose": "// " + "the seller is paid back, " * 650,
    "greek": "//" + "\u03b1" * (size // 2 - 1),
    "greek-block": "/*" + "\u03b1" * (size // 2 - 2) + "*/",
    "polish": "/*" + "za\u017c\u00f3\u0142\u0107 g\u0119\u015bl\u0105 ja\u017a\u0144 " * 500 + "*/",
    "four": "//" + "\U0001f600" * (size // 4 - 1),
    "spaces": " " * size,
}
for name, text in kinds.items():
    draft = text.encode()
    assert len(draft) <= size
    open(f"{folder}/{name}", "wb").write(draft.ljust(size))
PY
count() {  # instructions of one run
    valgrind --tool=callgrind --callgrind-out-file=/dev/null "$1" < "$2" 2>&1 > /dev/null | sed -n 's/.*Collected : //p'
}
best() {  # the least of five times, in microseconds for one lexing
    for _ in 1 2 3 4 5; do
        { TIMEFORMAT=%R; time "$1" < "$2" > /dev/null; } 2>&1
    done | sort -n | head -n 1 | awk '{ printf "%.1f", $1 * 1000 }'
}
printf '%-11s %14s %14s %6s %10s %10s\n' kind 'here, instr' 'Rust, instr' ratio 'here, us' 'Rust, us'
for kind in names digits marks nested stars line block prose greek greek-block polish four spaces; do
    cmp <(crates/lexer_speed/out/lexer_speed < "$work/$kind") <("$work/rust" < "$work/$kind")
    a=$(count crates/lexer_speed/out/lexer_speed "$work/$kind")
    b=$(count "$work/rust" "$work/$kind")
    printf '%-11s %14d %14d %6.2f %10s %10s\n' "$kind" $((a / 1000)) $((b / 1000)) "$(awk "BEGIN { print $a / $b }")" "$(best crates/lexer_speed/out/lexer_speed "$work/$kind")" "$(best "$work/rust" "$work/$kind")"
done
