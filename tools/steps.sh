# What the scripts over the Rust workspace share, to be sourced at the repository's top: steps that say which of them failed, a folder for what is built and one
# for what is thrown away.
script=$(basename "$0" .sh)
export CARGO_TARGET_DIR=$PWD/target/rust
built=$CARGO_TARGET_DIR/release
work=$(mktemp -d)
trap 'rm -rf "$work"' EXIT

step() {
    local name=$1
    shift
    "$@" || { echo "$script: failed: $name" >&2; exit 1; }
}
cargo_step() {
    local command=$1
    shift
    step "cargo $command" cargo "$command" --manifest-path rust/Cargo.toml --offline --release --quiet "$@"
}
# The tests of packages: how many passed, or all that they wrote.
cargo_tests() {
    (cargo_step test "${@/#/--package=}") > "$work/tests" 2>&1 || { cat "$work/tests"; exit 1; }
    awk -v script="$script" '/^test result: ok/ { n += $4 } END { print script ": tests: " n " passed"; exit !n }' "$work/tests"
}
