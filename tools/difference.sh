#!/bin/sh
# Prints the trace of one entry of docs/DIFFERENCES.md and what is answered to it: tools/difference.sh R01
# Any other text of oracle/traces goes by its name: tools/difference.sh second-visit
# With the published Rust at hand it is asked, and its own words stand beside a refusal; else, and for a strict unit (oracle/traces/strict), which the
# Rust does not have, the recorded lines are printed.
set -eu
root=$(cd "$(dirname "$0")/.." && pwd)
entry=${1:-}
case $entry in
[RS][0-9][0-9]) text=$(find "$root/oracle/traces" -name "difference-$entry-*.txt") ;;
[a-z]*)
    text=$root/oracle/traces/$entry.txt
    [ -f "$text" ] || text=$root/oracle/traces/strict/$entry.txt
    ;;
*)
    echo "usage: tools/difference.sh ENTRY, where ENTRY is a number of docs/DIFFERENCES.md such as R01 or S01, or a name in oracle/traces" >&2
    exit 2
    ;;
esac
if [ ! -f "$text" ]; then
    echo "$entry: no trace shows this entry, or there is no such entry; see docs/DIFFERENCES.md" >&2
    exit 1
fi
name=$(basename "$text" .txt)
recorded=$root/crates/replay/data/recorded
sources=${ARM_VGIC_SOURCES:-$root/../shared/docs}
why='The published Rust is not at hand.'
case $text in */strict/*) why='The published Rust has no strict units.' sources=/nowhere ;; esac
if [ -f "$sources/src--src--its--mod.rs.txt" ]; then
    ARM_VGIC_SOURCES=$(cd "$sources" && pwd)
    export ARM_VGIC_SOURCES
    cd "$root/oracle"
    CARGO_TARGET_DIR=target cargo build --offline --quiet --release
    sed '/^#/!q' "$text" | grep '^#'
    target/release/oracle explain "$recorded/$name.trace"
else
    cat "$text"
    echo "# $why The recorded lines:"
    cat "$recorded/$name.expect"
fi
