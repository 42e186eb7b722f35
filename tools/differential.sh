#!/bin/sh
# The C calls, compiled for the machine at hand, against the published Rust in one process: every line of generated and exhaustive traces, through
# its_trace and through the calls for hosts; the same for strict units, for each of which two units of the Rust stand in; then damaged traces, outputs
# of every small length, and recorded answers.
#   tools/differential.sh                   the part that the tests run
#   tools/differential.sh TRACES [SEED]     as many generated traces as you like, from a seed on (0), and the exhaustive ones
# The archives come from tools/archive.sh, unless ITS_ARCHIVE names a folder with a libtrace.a and a libhost.a to try. Where the published Rust is not at hand this
# says so, and runs what needs it not.
set -eu
root=$(cd "$(dirname "$0")/.." && pwd)
say() { echo "differential: $*"; }

traces=${1:-20000}
from=${2:-0}
damaged=$((traces / 100 + 200))
if [ -z "${ITS_ARCHIVE:-}" ]; then
    say "the archives with the C calls"
    "$root/tools/archive.sh" host >/dev/null
    ITS_ARCHIVE=$(dirname "$("$root/tools/archive.sh" trace | tail -n 1)")
fi
export ITS_ARCHIVE

sources=${ARM_VGIC_SOURCES:-$root/../shared/docs}
with=''
for file in its--mod its--command controller--mmio; do
    [ -f "$sources/src--src--$file.rs.txt" ] || with=--no-default-features
done
if [ -z "$with" ]; then
    # One way of naming the folder, so that nothing is built twice.
    ARM_VGIC_SOURCES=$(cd "$sources" && pwd)
    export ARM_VGIC_SOURCES
else
    say "the published Rust is not at hand in $sources (ARM_VGIC_SOURCES names another folder)"
    say "not compared: its answers to generated, exhaustive and damaged traces"
fi

cd "$root/oracle/differential"
export CARGO_TARGET_DIR=target
say "build"
cargo build --offline --quiet --release $with
say "planted faults are found, and their traces made short"
log=$(mktemp)
trap 'rm -f "$log"' EXIT
cargo test --offline --quiet --release $with >"$log" 2>&1 || {
    cat "$log"
    exit 1
}
awk '/^test result/ { passed += $4 } END { print passed " tests passed" }' "$log"

program() {
    target/release/differential "$@" >"$log" || {
        cat "$log"
        exit 1
    }
}
if [ -z "$with" ]; then
    for way in '' --host; do
        say "generated and exhaustive traces${way:+, through the calls for hosts}"
        program $way run --traces "$traces" --from "$from" --exhaustive
        if [ $# -gt 0 ]; then cat "$log"; else sed '/^$/q' "$log"; fi
        say "strict units${way:+, through the calls for hosts}"
        program $way strict --traces "$traces" --from "$from" --exhaustive
        cat "$log"
    done
fi
say "damaged traces"
program damage --traces "$damaged" --from "$from"
cat "$log"
say "recorded answers"
for way in '' --host; do
    program $way recorded "$root/crates/replay/data/recorded" "$root/crates/replay/data/linux"
    sed "s|$root/||" "$log"
done
say "done"
