#!/bin/sh
# The calls for hosts, tried as a host uses them: the archive for the machine at hand from C and from Rust; the archives for Linux on Arm and for a
# bare Arm machine, with the symbols that they need; that the last uses no registers but the general ones; and the same C program on the bare
# machine, emulated, with the others switched off.
#   tools/host.sh            all of it
#   tools/host.sh replay FILE ..   the lines of traces, through the example host
# Where the emulator is not at hand and cannot be installed, tools/bare.sh says so, and the archive is linked only.
set -eu
root=$(cd "$(dirname "$0")/.." && pwd)
cd "$root"
say() { echo "host: $*"; }
archive() { tools/archive.sh "$@" host | tail -n 1; }

native=$(archive)
ITS_ARCHIVE=$(dirname "$native")
export ITS_ARCHIVE CARGO_TARGET_DIR=host/target
rust() { cargo "$@" --manifest-path host/Cargo.toml --offline --quiet --release; }
if [ "${1:-}" = replay ]; then
    shift
    rust build >&2
    exec host/target/release/replay "$@"
fi
[ $# -eq 0 ] || { echo "usage: tools/host.sh [replay FILE ..]" >&2; exit 2; }

made=$(mktemp -d)
trap 'rm -rf "$made"' EXIT

say "C, on this machine"
gcc -std=c11 -Wall -Wextra -Wpedantic -Werror -O2 -Iinclude host/c/visit.c host/c/linux.c "$native" -o "$made/visit"
"$made/visit"

say "Rust, on this machine"
rust test >"$made/log" 2>&1 || { cat "$made/log"; exit 1; }
awk '/^test result/ { passed += $4 } END { print passed " tests passed" }' "$made/log"

# What an archive needs of its host, and what it gives.
symbols() {
    readelf -sW "$1" | awk '$5 == "GLOBAL" && $7 == "UND" && $8 != "" { print $8 }' | sort -u
}
given() {
    readelf -sW "$1" | awk '($5 == "GLOBAL" || $5 == "WEAK") && $7 != "UND" { print $8 }' | sort -u
}
# needs WHAT ARCHIVE CALLS: it gives these calls and no other function, so that no host can call one that asks something of its caller
needs() {
    for symbol in $(symbols "$2"); do
        case $symbol in
        memcpy | memmove | memset) ;;
        *) say "$1 needs $symbol, which no host is told of" && return 1 ;;
        esac
    done
    calls=$(given "$2" | tr '\n' ' ')
    [ "$calls" = "$3 " ] || { say "$1 gives $calls" && return 1; }
    say "$1 gives ${calls}and needs $(symbols "$2" | tr '\n' ' ')"
}
calls_for_hosts='its_configure its_read its_translate its_write'
needs "the archive for this machine" "$native" "$calls_for_hosts"
linux=$(archive --target aarch64)
needs "the archive for Linux on Arm" "$linux" "$calls_for_hosts"
bare=$(archive --target aarch64-none)
needs "the archive for a bare Arm machine" "$bare" "$calls_for_hosts"
needs "the archive for traces" "$(tools/archive.sh trace | tail -n 1)" its_trace

# How many instructions of an archive for Arm use other registers than the general ones, in which section (each function has its own). They are told
# by the bits that Arm gives to each group of instructions, since no disassembler for Arm is sure to be at hand: 27 and 26 both set is floating point
# and SIMD, with its loads and stores (and the memory copies of Armv8.8, which no target here has); 28 to 25 are 2 for SVE, and 0 with bit 31 for SME.
others() {
    PYTHONPATH=tools python3 -B - "$1" <<'PY'
import struct, sys

from elf import functions

lines = []
for name, (code, _) in functions(sys.argv[1]).items():
    words = struct.unpack(f"<{len(code) // 4}I", code)
    found = sum(w >> 26 & 3 == 3 or w >> 25 & 15 == 2 or w >> 25 & 15 == 0 and w >> 31 == 1 for w in words)
    if found:
        lines.append(f"{found} in {name}")
print(", ".join(lines))
PY
}
# The same module, compiled without -mgeneral-regs-only, does use them; else this test might see nothing anywhere.
seen=$(others "$linux")
[ -n "$seen" ] || { say "the archive for Linux on Arm uses the general registers only, or the use of others is not seen" && exit 1; }
used=$(others "$bare")
[ -z "$used" ] || { say "the archive for a bare Arm machine uses other registers than the general ones: $used" && exit 1; }
say "the archive for a bare Arm machine uses the general registers only; that for Linux on Arm has $seen"

say "the bare Arm machine"
tools/bare.sh "$bare" host/c/visit.c || [ $? -eq 3 ]
say "done"
