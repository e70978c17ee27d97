#!/usr/bin/env bash
# The first command in a fresh clone: proves the reader, builds the listing program, the library for C and the command, and shows what they make of two drafts.
# It says how far it is; run again with nothing changed it takes a second. Needs the Rattle kit (rt), Python 3, gcc, and cargo of the Rust that rust/ asks for.
set -euo pipefail
cd "$(dirname "$0")/.."

fail() {
    echo "build: failed: $*" >&2
    exit 1
}
for needed in rt python3 cargo gcc; do
    [ -n "$(type -P "$needed")" ] || fail "$needed is missing"
done
# Cargo would say so too, but behind all proofs.
rust=$(sed -n 's/^rust-version = "\(.*\)"$/\1/p' rust/command/Cargo.toml)
cargo=$(cargo --version) || fail "cargo --version"
[ "$(printf '%s\n' "$rust" "${cargo#cargo }" | sort -V | sed -n 1p)" = "$rust" ] || fail "cargo of Rust $rust or newer is needed, and this is $cargo"
[ -d target/build ] || echo "build: from nothing this takes about nine minutes on four cores, two of them at the crate parse"
python3 tools/progress.py listing togmelic

# Runs a command and shows its line above what it writes; its status must be the one that is wanted.
show() {
    local wanted=$1 status=0
    shift
    echo
    echo "\$ $*"
    "$@" || status=$?
    [ "$status" = "$wanted" ] || fail "its status is $status, not $wanted"
}
# The command is linked with the library that was built above, whatever TOGMELIC_LIB says.
env -u TOGMELIC_LIB CARGO_TARGET_DIR=target/rust cargo build --manifest-path rust/Cargo.toml --offline --release --quiet --package togmelic-command
show 0 target/rust/release/togmelic tree examples/escrow.simf
show 1 target/rust/release/togmelic check examples/broken.simf
echo
echo "build: passed in $SECONDS s: crates/listing/out/listing crates/togmelic/out/libtogmelic.a target/rust/release/togmelic"
