#!/bin/sh
# Traces of document 01's format, in which a CF has no profile, in the present one; each CF gets the base profile (oracle/src/convert.rs):
#   tools/convert.sh OLD NEW          one trace
#   tools/convert.sh --check COMMIT   the traces of a commit of the old format, each converted, against the present ones
# The check wants every trace of crates/ and its lines (but for the offset of a line ??) to be the converted one. The exhaustive traces, which stand one
# after the other in several files, are held against each other as one run, and may have more at the end. A seed whose family draws otherwise now, or
# damages longer traces, gives another trace: the converted one of it is kept as converted-seed-N.
set -eu
cd "$(dirname "$0")/.."
convert=$PWD/oracle/target/assemble/release/convert
build() {
    # Built without the published Rust, which it does not need.
    CARGO_TARGET_DIR=oracle/target/assemble cargo build --offline --quiet --release --no-default-features --manifest-path oracle/Cargo.toml --bin convert
}
case $# in
2) ;;
*) echo "usage: tools/convert.sh OLD NEW, or tools/convert.sh --check COMMIT" >&2 && exit 2 ;;
esac
if [ "$1" != --check ]; then
    build
    exec "$convert" "$1" "$2"
fi

commit=$(git rev-parse --verify --quiet "$2^{commit}") || { echo "convert: $2 is no commit" >&2 && exit 2; }
build
work=$(mktemp -d)
trap 'rm -rf "$work"' EXIT
mkdir "$work/old" "$work/new"
# The name under which a file is compared: parts of one run have the same.
name() { echo "$1" | sed -E 's/(exhaustive-.*)-[0-9]+\./\1./; s|/|:|g'; }
lines() { sed 's/^?? .*/??/'; }
for path in $(git ls-tree -r --name-only "$commit" crates | grep -E '\.(trace|expect)$|/stdin$' | LC_ALL=C sort); do
    git show "$commit:$path" >"$work/file"
    case $path in
    *.expect) lines <"$work/file" >>"$work/old/$(name "$path")" ;;
    *) "$convert" "$work/file" "$work/converted" && cat "$work/converted" >>"$work/old/$(name "$path")" ;;
    esac
done
for path in $(find crates \( -name '*.trace' -o -name '*.expect' -o -name stdin \) | LC_ALL=C sort); do
    case $path in
    *.expect) lines <"$path" >>"$work/new/$(name "$path")" ;;
    *) cat "$path" >>"$work/new/$(name "$path")" ;;
    esac
done
same=0 kept=0 failed=0
for file in "$work"/old/*; do
    present=$work/new/${file##*/}
    shown=$(echo "${file##*/}" | tr : /)
    [ -f "$present" ] || present=/dev/null
    if head -c "$(wc -c <"$file")" "$present" | cmp -s "$file" -; then
        # Only a run of exhaustive traces may have more.
        case $shown in *exhaustive-*) true ;; *) cmp -s "$file" "$present" ;; esac && same=$((same + 1)) && continue
    fi
    former=$(echo "${file##*/}" | sed 's/:seed-/:converted-seed-/')
    if cmp -s "$file" "$work/new/$former"; then
        kept=$((kept + 1))
    else
        echo "convert: $shown is not the converted one" && failed=1
    fi
done
echo "convert: $same files are those of $2, converted, and $kept more under the name converted-seed-N"
exit $failed
