# What bench/reader/run.sh and rotation.sh share: builds the program that measures, and counts its instructions. Sourced at the repository's root.
export CARGO_TARGET_DIR=$PWD/target/rust
export RUSTFLAGS="-C target-cpu=x86-64-v2"  # as the library is compiled
cargo build --manifest-path rust/Cargo.toml --offline --release --quiet --package bench
bench=target/rust/release/bench

count() {  # instructions of one run: kind, case, which, repeats
    valgrind --tool=callgrind --callgrind-out-file=/dev/null "$bench" "$@" 2>&1 > /dev/null | sed -n 's/.*Collected : //p'
}
few=5 many=55
reading() {  # instructions of one reading, from two runs of so many: kind, case, which
    echo $((($(count "$@" "$many") - $(count "$@" "$few")) / (many - few)))
}
