#!/bin/sh
# The calls for hosts, timed against the published Rust in one process, and the stack that the crate around them uses:
#   tools/speed.sh [--plot FILE]   the tables of docs/FIGURES.md, and the first of them drawn (docs/speed.svg); nothing else should run on the machine
#   tools/speed.sh --instructions  how many instructions some calls take, counted by valgrind (Debian's valgrind)
# The archives come from tools/archive.sh, unless ITS_ARCHIVE names a folder with a libhost.a and a libtrace.a to time.
set -eu
root=$(cd "$(dirname "$0")/.." && pwd)
if [ -z "${ITS_ARCHIVE:-}" ]; then
    "$root/tools/archive.sh" host >/dev/null
    ITS_ARCHIVE=$(dirname "$("$root/tools/archive.sh" trace | tail -n 1)")
fi
ARM_VGIC_SOURCES=$(cd "${ARM_VGIC_SOURCES:-$root/../shared/docs}" && pwd) || {
    echo "speed: the published Rust is not at hand (ARM_VGIC_SOURCES names its folder)" >&2
    exit 2
}
export ITS_ARCHIVE ARM_VGIC_SOURCES CARGO_TARGET_DIR="$root/oracle/speed/target"
cargo build --manifest-path "$root/oracle/speed/Cargo.toml" --offline --quiet --release
speed=$root/oracle/speed/target/release/speed
[ "${1:-}" = --instructions ] || exec "$speed" "$@"
counted() { valgrind --tool=callgrind --callgrind-out-file=/dev/null "$speed" repeat "$1" "$2" 2>&1 | sed -n 's/.*Collected : //p'; }
for call in refused-read read translate-first translate-last translate-none; do
    echo "$call $((($(counted $call 2000) - $(counted $call 1000)) / 1000))"
done
