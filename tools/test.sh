#!/usr/bin/env bash
# All tests: generated files are what their scripts write, the first command's way to tell how far it is, the grammar's table beside Earley's method, then `rt
# ci` (every crate proved and in its layout, every must-fail edit refused, every program run), that no edit is bad and each refused for a fact, then what
# stands on that: UTF-8 in comments beside Python's decoder, the machine code of the digit reader, the definition of the answer beside the partner, the entry
# for C from C and from Rust, the drafts and listings of docs/REFUSALS.md, streams that fail, the command on its cases, on terminals and on random drafts, the
# instructions of a reading beside the partner's, the comparison of the library with the partner.
# The last line, 'N passed, 0 failed', is printed only where everything passed.
set -euo pipefail
cd "$(dirname "$0")/.."
passed=0
work=$(mktemp -d)
beside=
trap '[ -z "$beside" ] || kill -- "-$beside" 2> /dev/null || kill "$beside" || true; rm -rf "$work"' EXIT
log=$work/log

run() {
    echo "test: $*"
    "$@" || { echo "test: failed: $*"; exit 1; }
    passed=$((passed + 1))
}
# Starts a command that takes one core, beside those that follow; `run finish NAME` waits for it and shows what it wrote. It has a process group of its
# own, so that nothing of it is left where a test fails.
start() {
    echo "test: started: $*"
    TMPDIR=$work setsid "$@" > "$work/beside" 2>&1 &
    beside=$!
}
# Builds a static library, crates/NAME/out/libNAME.a.
library() {
    (cd "crates/$1" && rt lib)
}
finish() {
    local status=0
    wait "$beside" || status=$?
    beside=
    cat "$work/beside"
    return "$status"
}

for script in tools/words.py tools/words_cases.py tools/bytes.py tools/lexer_cases.py tools/grammar.py tools/choice.py tools/digits.py tools/pairs.py \
    tools/children.py tools/kinds.py tools/believed.py tools/architecture.py tools/advice.py; do
    run python3 "$script" --check
done
run python3 tools/progress_tests.py
run diff <(python3 tools/num_cases.py) crates/num_cases/stdout
run python3 tools/compare_grammar.py
CARGO_TARGET_DIR=$work/rust cargo build --manifest-path rust/Cargo.toml --offline --release --quiet --package partner
run "$work/rust/release/partner" --self-test
run python3 tools/reader_cases.py --check --partner "$work/rust/release/partner"
run python3 tools/load_cases.py --check --partner "$work/rust/release/partner"

# The last line of rt ci is held back, and printed below with what passed here added.
echo "test: rt ci"
rt ci 2>&1 | tee "$log" | grep -vE '^[0-9]+ passed, [0-9]+ failed$' || { tail -n 1 "$log"; exit 1; }
last=$(tail -n 1 "$log")
[[ $last =~ ^([0-9]+)\ passed,\ 0\ failed$ ]] || { echo "test: failed: rt ci: $last"; exit 1; }
passed=$((passed + BASH_REMATCH[1]))
run python3 tools/edits.py "$log"

# The first command and both libraries stand before the comparison of the definition begins: it copies what rt keeps, which a build beside it would change.
run library num_speed
run bash tools/build.sh
start python3 tools/compare_answer.py "$work/rust/release/partner" 1 150 200
run python3 tools/utf8.py
run python3 tools/multiply.py crates/num_speed/out/libnum_speed.a num_speed_number num_speed_digits
run bash tools/bindings.sh
run bash tools/command.sh
run bash bench/reader/limits.sh
run bash tools/compare.sh
run finish tools/compare_answer.py
echo "$passed passed, 0 failed"
