#!/bin/sh
# The definitions of crates/model, run: antt computes the lines that they give for recorded traces, and each must be the recorded answers, byte for
# byte: the Rust's, and those by hand of strict units. The traces are those of crates/replay/data/recorded up to a size (the first argument, in bytes); a recording that ends at a 9, where the Rust is left,
# is passed over. Nothing is written into the repository: the checks stand in a copy of the crate, without its other proofs.
set -eu
root=$(cd "$(dirname "$0")/.." && pwd)
limit=${1:-1400}
work=$(mktemp -d)
trap 'rm -rf "$work"' EXIT

rt=$(command -v rt) || { echo "definitions: rt, the command of the Rattle kit, is not on the PATH" >&2; exit 2; }
kit=${RATTLE_HOME:-$(dirname "$(dirname "$(readlink -f "$rt")")")}
mkdir -p "$work/model/proofs"
for part in src specs; do cp -R "$root/crates/model/$part" "$work/model/$part"; done
cp "$root/crates/model/proofs/Computed.antt" "$work/model/proofs/"
python3 - "$root/crates/replay/data/recorded" "$work/model/proofs" "$limit" <<'PY'
import glob, os, sys

folder, proofs, limit = sys.argv[1], sys.argv[2], int(sys.argv[3])


def as_list(data):
    return " ∷ ".join([str(byte) for byte in data] + ["[]"])


def ends_at_nine(answers):
    """Behind the line with the 9 stand only its actions."""
    last = [line for line in answers.splitlines() if not line.startswith(b"AC ")][-1:]
    return any(line.startswith(b"WR 9 ") for line in last)


lines = [
    "use mathlib.Core.Path.{◌≡◌, refl}",
    "use mathlib.Core.List.{List, [], ◌∷◌}",
    "use Rattle.model.proofs.Computed.{shown}",
    "",
]
count = 0
for path in sorted(glob.glob(os.path.join(folder, "*.trace"))):
    trace = open(path, "rb").read()
    answers = open(path[: -len(".trace")] + ".expect", "rb").read()
    if len(trace) > limit or ends_at_nine(answers):
        continue
    count += 1
    name = "«" + os.path.basename(path)[: -len(".trace")] + "»"
    lines += [f"{name} : shown ({as_list(trace)}) ≡ {as_list(answers)}", "unfolding shown", f"{name} = refl", ""]
open(os.path.join(proofs, "Recorded.antt"), "w").write("\n".join(lines))
open(os.path.join(proofs, "Lib.antt"), "w").write("pub mod Computed\npub mod Recorded\n")
print(f"definitions: {count} recorded traces")
PY
cd "$work/model"
if ! "$kit/bin/rattle" check --crate-name model src/lib.rt --extern "std=$kit/rlibs/std.rlib" -L "dependency=$kit/rlibs" \
    --antt-project "$kit/rattle/logic/antt-project.json" --logic-built "$kit/logic_built" >"$work/log" 2>&1; then
    echo "definitions: they do not give the recorded answers:"
    grep -m 5 'error' "$work/log" | cut -c 1-200
    exit 1
fi
echo "definitions: each gives the recorded lines"
