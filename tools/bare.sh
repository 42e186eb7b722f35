#!/bin/sh
# A C program on a bare 64-bit Arm machine, emulated, with the vector registers switched off: tools/bare.sh [-DNAME] ARCHIVE PROGRAM ..
# PROGRAM .. are sources that define host_main; host/c/start.S and host/c/bare.c stand around them. Where the emulator is not at hand it is installed
# (Debian's qemu-system-arm); if that fails the program is linked only, and this says so and exits with 3.
set -eu
root=$(cd "$(dirname "$0")/.." && pwd)
define=''
case ${1:-} in -D*) define=$1 && shift ;; esac
[ $# -ge 2 ] || { echo "usage: tools/bare.sh [-DNAME] ARCHIVE PROGRAM .." >&2; exit 2; }
archive=$1
shift
made=$(mktemp -d)
trap 'rm -rf "$made"' EXIT
rt=$(readlink -f "$(command -v rt)")
tools=${RATTLE_HOME:-$(dirname "$rt")/..}/toolchain/bin
for part in "$root/host/c/start.S" "$root/host/c/bare.c" "$@"; do
    "$tools/clang" --target=aarch64-none-elf -mgeneral-regs-only -ffreestanding -fno-builtin -isystem "$(gcc -print-file-name=include)" \
        -I"$root/include" ${define:+"$define"} -Wall -Wextra -Werror -O2 -c "$part" -o "$made/$(basename "$part").o"
done
"$tools/ld.lld" -static --gc-sections -e _start -Ttext=0x40080000 "$made"/*.o "$archive" -o "$made/program.elf"
emulator=qemu-system-aarch64
if ! command -v "$emulator" >/dev/null; then
    timeout 300 sh -c 'apt-get update && apt-get install -y --no-install-recommends qemu-system-arm' >"$made/log" 2>&1 || true
fi
command -v "$emulator" >/dev/null || { echo "bare: linked; not run, since $emulator is not at hand and could not be installed" && exit 3; }
timeout 60 "$emulator" -M virt -cpu cortex-a72 -m 64 -nographic -nic none -monitor none -serial none \
    -semihosting-config enable=on,target=native -kernel "$made/program.elf" 2>&1
