#!/bin/sh
# Runs a program of this repository on a trace: tools/on-trace.sh PROGRAM [--each] [--text] [FILE], or standard input. With --text the trace is in the
# text form of oracle/README.md; --each puts a plus sign before it, which `inforce` understands. The first run proves and builds the program, which
# takes some minutes where `rt ci` has not done it; later ones start at once. Programs are compiled for x86-64.
set -eu
root=$(cd "$(dirname "$0")/.." && pwd)
program=$1
shift
each_sign='' text=''
while :; do
    case ${1:-} in
    --each) each_sign=+ ;;
    --text) text=yes ;;
    *) break ;;
    esac
    shift
done
if [ $# -gt 1 ] || { [ $# -eq 1 ] && [ ! -f "$1" ]; }; then
    echo "usage: tools/$program.sh [--text] [FILE]" >&2
    exit 2
fi
work=$(mktemp -d)
trap 'rm -rf "$work"' EXIT
cat "$@" >"$work/input"
if [ -n "$text" ]; then
    # Built without the published Rust, which it does not need.
    CARGO_TARGET_DIR="$root/oracle/target/assemble" cargo build --offline --quiet --release --no-default-features \
        --manifest-path "$root/oracle/Cargo.toml" --bin assemble
    "$root/oracle/target/assemble/release/assemble" "$work/input" >"$work/trace"
else
    mv "$work/input" "$work/trace"
fi

cd "$root"
. tools/crates.sh
reach "$program"
built=crates/$program/out/$program
is_built() {
    [ -x "$built" ] || return 1
    for each in $reached; do
        for part in src specs proofs; do
            [ -z "$(find "crates/$each/$part" -newer "$built" 2>/dev/null | head -n 1)" ] || return 1
        done
    done
}
if ! is_built; then
    echo "$program: proving and building it; this takes some minutes once" >&2
    rm -f "$built"
    # It runs the program too, on nothing.
    (cd "crates/$program" && rt run) </dev/null >"$work/log" 2>&1 || [ -x "$built" ] || {
        cat "$work/log" >&2
        exit 1
    }
    touch "$built"
fi
{ printf %s "$each_sign"; cat "$work/trace"; } | "$built"
