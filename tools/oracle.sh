#!/bin/sh
# Builds the oracle around the published Rust and runs all that belongs to it.
# Where the published Rust is not at hand it says so, says what was therefore
# not compared, and succeeds.
set -eu

root=$(cd "$(dirname "$0")/.." && pwd)
sources=${ARM_VGIC_SOURCES:-$root/../shared/docs}
recorded=$root/crates/replay/data/recorded
guests=$root/crates/replay/data/linux
work=$(mktemp -d)
trap 'rm -rf "$work"' EXIT
cd "$root/oracle"
export CARGO_TARGET_DIR=target

say() { echo "oracle: $*"; }

for file in its--mod its--command controller--mmio; do
    if [ ! -f "$sources/src--src--$file.rs.txt" ]; then
        say "the published Rust is not at hand: no src--src--$file.rs.txt in $sources"
        say "(the variable ARM_VGIC_SOURCES names another folder)"
        say "not compared: the Rust's answers to document 01's example and corners, to the"
        say "recorded list, to the generated and exhaustive traces and to real guests' traffic;"
        say "not shown: the generator's coverage, and that edits of the Rust are told apart"
        exit 0
    fi
done

# One way of naming the folder, so that nothing is built twice.
ARM_VGIC_SOURCES=$(cd "$sources" && pwd)
export ARM_VGIC_SOURCES

say "build"
cargo build --offline --quiet --release
program=target/release/oracle

say "tests"
cargo test --offline --quiet --release >"$work/tests" 2>&1 || {
    cat "$work/tests" >&2
    exit 1
}
awk '/^test result/ { passed += $4 } END { print passed " tests passed" }' "$work/tests"

say "the recorded list, made again"
"$program" record "$work/recorded"
diff -r "$recorded" "$work/recorded"
"$program" check "$recorded"

say "real guests' traffic"
"$program" check "$guests"

say "coverage of the generated traces"
"$program" coverage >"$work/coverage" 2>"$work/missing" || {
    cat "$work/coverage" "$work/missing" >&2
    exit 1
}
head -n 2 "$work/coverage"
echo "no count that can be reached is zero (oracle coverage prints them)"

say "exhaustive traces"
"$program" exhaustive >"$work/exhaustive"
echo "$(wc -l <"$work/exhaustive") traces answered"

say "edits of the published Rust"
"$root/tools/mutants.sh"
say "done"
