#!/usr/bin/env bash
# What stands around the proved code: the entries for C, called from C by c/test.c, c/test_large.c, c/test_lean.c and c/test_load.c; the drafts and listings
# of docs/REFUSALS.md, docs/LANGUAGE.md and README.md through the listing program and c/load.c, streams that fail, and where the wrapper for Rust takes
# the library from.
# Needs crates/togmelic/out/libtogmelic.a (rt lib there), crates/listing/out/listing (rt run or rt ci), and cargo.
set -euo pipefail
cd "$(dirname "$0")/.."
work=$(mktemp -d)
trap 'rm -rf "$work"' EXIT

for needed in crates/togmelic/out/libtogmelic.a crates/listing/out/listing; do
    [ -f "$needed" ] || { echo "bindings: failed: $needed is missing"; exit 1; }
done
for program in test test_large test_lean test_load load stack; do
    gcc -std=c99 -pedantic -Wall -Wextra -Werror -O2 -pthread -Ic -o "$work/$program" "c/$program.c" crates/togmelic/out/libtogmelic.a ||
        { echo "bindings: failed: c/$program.c does not compile"; exit 1; }
done
for program in test test_large test_lean test_load; do
    "$work/$program" || { echo "bindings: failed: c/$program.c"; exit 1; }
done
python3 tools/refusals.py crates/listing/out/listing "$work/load" || { echo "bindings: failed: tools/refusals.py"; exit 1; }
python3 tools/language.py crates/listing/out/listing || { echo "bindings: failed: tools/language.py"; exit 1; }
python3 tools/readme.py crates/listing/out/listing "$work/load" || { echo "bindings: failed: tools/readme.py"; exit 1; }

# A read that fails: a line on standard error, and none on standard output. A write that fails: a line on standard error.
crates/listing/out/listing < . > "$work/out" 2> "$work/err"
{ [ ! -s "$work/out" ] && grep -q '^listing: read: ' "$work/err"; } || { echo "bindings: failed: a read that fails"; exit 1; }
crates/listing/out/listing < examples/escrow.simf > /dev/full 2> "$work/err"
grep -q '^listing: write: ' "$work/err" || { echo "bindings: failed: a write that fails"; exit 1; }
# Streams that do not block, are full or fail part way, and the stack that is needed.
python3 tools/streams.py crates/listing/out/listing "$work/load" || { echo "bindings: failed: tools/streams.py"; exit 1; }
python3 tools/stack.py "$work/stack" crates/listing/out/listing || { echo "bindings: failed: tools/stack.py"; exit 1; }
# c/load.c says so too, and its status is 2 then; so it is where the argument is no number of words, or one that no buffer has.
no_answer() {
    local said=$1 from=$2 to=$3 status=0
    shift 3
    "$work/load" "$@" < "$from" > "$to" 2> "$work/err" || status=$?
    { [ "$status" = 2 ] && [ ! -s "$to" ] && grep -qx "load: $said" "$work/err"; } || { echo "bindings: failed: c/load.c ${*@Q}, not: $said"; exit 1; }
}
printf 'fn f(){}' | crates/listing/out/listing > "$work/kept"
no_answer "reading failed" . "$work/out"
no_answer "writing failed" "$work/kept" /dev/full
for words in -1 +18 ' 18' 18x abc '' 18446744073709551616; do
    no_answer "the argument is no number of words" "$work/kept" "$work/out" "$words"
done
# Counted in 64 bits, the bytes of so many words would come out as 0, 4 and nearly all.
for words in 4611686018427387904 4611686018427387905 18446744073709551615; do
    no_answer "out of memory" "$work/kept" "$work/out" "$words"
done
# A draft that comes in pieces is read whole.
{ head -c 100 examples/escrow.simf; sleep 0.2; tail -c +101 examples/escrow.simf; } | crates/listing/out/listing > "$work/out"
cmp "$work/out" <(crates/listing/out/listing < examples/escrow.simf) || { echo "bindings: failed: a draft in pieces"; exit 1; }
# One of any length is read to its end: whoever writes it is not cut off.
head -c 10000000 /dev/zero | crates/listing/out/listing > "$work/out"
cmp "$work/out" <(echo "00 4000 4000 00000001 00000000 0001 0000") || { echo "bindings: failed: a long draft"; exit 1; }
echo "bindings: streams"

# TOGMELIC_LIB is an absolute path. A relative one is refused, be it right from here or from the wrapper's folder.
wrapper() {
    CARGO_TARGET_DIR=$work/rust TOGMELIC_LIB=$1 cargo build --manifest-path rust/Cargo.toml --offline --quiet --package togmelic 2> "$work/err"
}
wrapper "$PWD/crates/togmelic/out" || { cat "$work/err"; echo "bindings: failed: the wrapper is not built with an absolute TOGMELIC_LIB"; exit 1; }
for folder in crates/togmelic/out ../../crates/togmelic/out; do
    said="TOGMELIC_LIB is '$folder', a relative path.*: write an absolute path, such as TOGMELIC_LIB=\"\$PWD/$folder\""
    if wrapper "$folder" || ! grep -q "$said" "$work/err"; then
        cat "$work/err"
        echo "bindings: failed: TOGMELIC_LIB=$folder is not refused as relative"
        exit 1
    fi
done
echo "bindings: TOGMELIC_LIB"
