#!/bin/sh
# The archive of a crate's C calls: tools/archive.sh [--target x86_64|aarch64|aarch64-none] NAME
#   or tools/archive.sh --compile TARGET MODULE OBJECT [WORD ..]   a kept module (target/archive/NAME.bc) compiled once more for a target, with more words
# NAME is a library, host or trace; its calls are exported by the static library NAME_c above it. The archive goes to target/archive/TARGET/libNAME.a,
# and that path is the last line printed. The target is the machine at hand unless one is named: Linux on x86-64 or on Arm, or a bare 64-bit Arm
# machine. Nothing is made again while the crate, what it stands on and the kit are as they were.
#
# One proved module serves every target: `rattle build` is given a copy of the toolchain folder in which `clang` is a script that keeps the module
# that it compiles for x86-64. For Arm the same module, byte for byte, goes through the same compiler with the same words but another target. (What
# is proved is the module's source; no compiler's back end is covered by a proof.) For the bare machine it has one word more and uses the general
# registers only, so that a trap handler which saves no others may call it: tools/host.sh looks at each instruction.
set -eu
cd "$(dirname "$0")/.."
root=$(pwd)
machine=$(uname -m)
target=$machine
compiles=''
case ${1:-} in
--target)
    target=${2:-}
    shift 2
    ;;
--compile)
    compiles=1 target=${2:-}
    shift 2
    ;;
esac
more=''
case $target in
x86_64 | aarch64) triple=$target-unknown-linux-gnu ;;
aarch64-none) triple=aarch64-none-elf more=-mgeneral-regs-only ;;
*) target='' ;;
esac
usage() {
    echo "usage: tools/archive.sh [--target x86_64|aarch64|aarch64-none] NAME, where NAME is host or trace" >&2
    echo "   or  tools/archive.sh --compile x86_64|aarch64|aarch64-none MODULE OBJECT [WORD ..]" >&2
    exit 2
}
[ -n "$target" ] || usage
rt=$(command -v rt) || { echo "archive: rt, the command of the Rattle kit, is not on the PATH" >&2; exit 2; }
# The kit is the folder above bin/rt, links followed.
while [ -L "$rt" ]; do
    link=$(readlink "$rt")
    case $link in /*) rt=$link ;; *) rt=$(dirname "$rt")/$link ;; esac
done
kit=${RATTLE_HOME:-$(cd "$(dirname "$rt")/.." && pwd -P)}

# compile MODULE OBJECT [WORD ..]: a module for the target, with the words that rattle compiles it with for x86-64 (they stand beside it) and some more.
# What the compiler says goes to OBJECT.log: that it ignores the name of a processor, which the module has for x86-64.
compile() {
    module=$1 object=$2
    shift 2
    while IFS= read -r word; do
        case $word in
        --target=*) set -- "$@" "--target=$triple" ;;
        -march=*) [ "$target" != x86_64 ] || set -- "$@" "$word" ;;
        *) set -- "$@" "$word" ;;
        esac
    done <"${module%.*}.bc.words"
    "$kit/toolchain/bin/clang" -Wno-override-module "$@" ${more:+"$more"} "$module" -o "$object" 2>"$object.log" || {
        cat "$object.log" >&2
        return 1
    }
}
if [ -n "$compiles" ]; then
    [ $# -ge 2 ] || usage
    compile "$@"
    exit 0
fi
if [ $# -ne 1 ] || [ ! -f "crates/${1}_c/src/lib.rt" ]; then usage; fi
name=$1
crate=${name}_c

. tools/crates.sh
work=$(mktemp -d)
trap 'rm -rf "$work"' EXIT
reach "$crate"

made=$root/target/archive
archive=$made/$target/lib$name.a
module=$made/$name.bc
stamp=$(
    {
        cat crates.txt tools/archive.sh "$kit/KIT-ID"
        for each in $reached; do
            for part in src specs proofs; do [ ! -d "crates/$each/$part" ] || find "crates/$each/$part" -type f -exec sha256sum {} + | sort; done
        done
    } | sha256sum
)
same() { [ -f "$1" ] && [ "$(cat "$1.stamp" 2>/dev/null)" = "$stamp" ]; }
if same "$archive"; then
    echo "$archive"
    exit 0
fi
mkdir -p "$made/x86_64" "$made/$target"
rm -f "$archive" "$archive.stamp"

if ! same "$module"; then
    rm -f "$module" "$module.stamp" "$module.words" "$made/x86_64/lib$name.a"
    shadow=$work/toolchain
    mkdir -p "$shadow/bin"
    for tool in "$kit/toolchain/bin"/*; do ln -s "$tool" "$shadow/bin/"; done
    ln -s "$kit/toolchain/lib" "$shadow/lib"
    rm "$shadow/bin/clang"
    cat >"$shadow/bin/clang" <<CLANG
#!/bin/sh
# The kit's clang. It keeps the module and the words it is compiled with, but for its input, its output and the folder of this copy.
before=
for word; do
    case \$word in *.bc) [ ! -f "\$word" ] || cp "\$word" "$module" ;; esac
    case \$before\$word in -o* | *.bc | --sysroot=* | -o) ;; *) echo "\$word" ;; esac
    before=; [ "\$word" != -o ] || before=-o
done >"$module.words"
exec "$kit/toolchain/bin/clang" "\$@"
CLANG
    chmod +x "$shadow/bin/clang"
    # The words that rt gives to rattle (Crate.words in its rtlib.py).
    set -- --crate-name "$crate" src/lib.rt --extern "std=$kit/rlibs/std.rlib" -L "dependency=$kit/rlibs"
    for each in $(deps_of "$crate"); do
        if [ -d "crates/$each" ]; then set -- "$@" --extern "$each=$root/crates/$each/out/rlib/$each.rlib"; else set -- "$@" --extern "$each=$kit/rlibs/$each.rlib"; fi
    done
    for each in $reached; do [ "$each" = "$crate" ] || set -- "$@" -L "dependency=$root/crates/$each/out/rlib"; done
    set -- "$@" --antt-project "$kit/rattle/logic/antt-project.json" --logic-built "$kit/logic_built"
    set -- "$@" --links "$crate=" --crate-type staticlib --backend llvm --toolchain "$shadow"
    build() {
        (cd "crates/$crate" && "$kit/bin/rattle" build "$@" -o "$made/x86_64/lib$name.a") >"$made/$name.log" 2>&1
    }
    # The libraries below as `rt ci` left them, where it was run over the files as they are: they are proved, and not proved again.
    are_there=yes
    for each in $reached; do
        rlib=crates/$each/out/rlib/$each.rlib
        [ "$each" != "$crate" ] || continue
        [ -f "$rlib/format" ] && [ -z "$(find "crates/$each"/src "crates/$each"/specs "crates/$each"/proofs -newer "$rlib" 2>/dev/null | head -n 1)" ] || are_there=''
    done
    if [ -z "$are_there" ] || ! build "$@"; then
        # Else rt proves and builds those that it did not.
        (cd "crates/$crate" && rt lib) >&2
        build "$@" --incremental out/incremental || {
            cat "$made/$name.log" >&2
            exit 1
        }
    fi
    if grep -q '^logic=proved .*foreign=' "$made/$name.log"; then
        echo "archive: $crate declares C functions of its own, and nothing proves their contracts" >&2
        exit 1
    fi
    echo "$stamp" >"$made/x86_64/lib$name.a.stamp"
    echo "$stamp" >"$module.stamp"
fi
if [ "$target" != x86_64 ]; then
    object=$made/$target/$name.o
    compile "$module" "$object"
    (cd "$made/$target" && "$kit/toolchain/bin/llvm-ar" rcs "$archive" "$name.o")
    rm -f "$object" "$object.log"
    echo "$stamp" >"$archive.stamp"
fi
echo "$archive"
