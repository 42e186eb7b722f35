#!/bin/sh
# Makes edited copies of the published Rust, builds the oracle against each and
# shows the first generated trace that tells it from the original. Fails if an
# edit is not told apart. Usage: tools/mutants.sh [SEEDS]
set -eu

root=$(cd "$(dirname "$0")/.." && pwd)
seeds=${1:-600}
sources=${ARM_VGIC_SOURCES:-$root/../shared/docs}
if [ ! -d "$sources" ]; then
    echo "the published Rust is not at hand: no folder $sources (ARM_VGIC_SOURCES names it)" >&2
    exit 1
fi
sources=$(cd "$sources" && pwd)
work=$(mktemp -d)
trap 'rm -rf "$work"' EXIT
cd "$root/oracle"

build() { # TARGET_FOLDER SOURCES [OPTION]
    CARGO_TARGET_DIR=$1 ARM_VGIC_SOURCES=$2 cargo build --offline --quiet ${3:-} \
        2>"$work/log" || {
        cat "$work/log" >&2
        exit 1
    }
}

# The first name whose digest differs between two lists of them.
first_name() {
    awk 'NR == FNR { edited[$1] = $2; next }
        edited[$1] != $2 { print $1; exit }' "$work/edited" "$work/original"
}

# The first line that differs between two runs over one trace.
first_line() {
    "$original" answer "$work/trace" >"$work/a"
    "$edited" answer "$work/trace" >"$work/b" 2>/dev/null || echo "(stops)" >>"$work/b"
    awk 'NR == FNR { line[NR] = $0; next }
        line[FNR] != $0 { printf "line %d, `%s` became `%s`\n", FNR, line[FNR], $0; exit }' \
        "$work/a" "$work/b"
}

build target "$sources" --release
original=target/release/oracle
# Not optimised: it is built anew for every edit and runs but once.
edited=target/edited/debug/oracle
"$original" digests "$seeds" >"$work/original"

failed=0
for edit in $("$original" edits); do
    "$original" edit "$edit" "$sources" "$work/sources-$edit"
    build target/edited "$work/sources-$edit"
    "$edited" digests "$seeds" >"$work/edited" 2>/dev/null || true
    name=$(first_name)
    if [ -n "$name" ]; then
        "$original" trace "$name" >"$work/trace"
        echo "$edit: $name, $(first_line)"
    else
        echo "$edit: NOT told apart by $seeds seeds" >&2
        failed=1
    fi
done
exit $failed
