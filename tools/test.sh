#!/bin/sh
# Every test of this repository, from a fresh clone with nothing done first. The verdict is rt's own: its last line, 'N passed, 0 failed', is
# held back until the checks that read rt's logs have passed too, and is then the last line printed here. How long each part took is left in
# target/times.txt, for tools/figures.sh.
set -u
cd "$(dirname "$0")/.." || exit 2

fail() {
    echo "test: $1"
    echo "0 passed, 1 failed"
    exit 1
}
work=$(mktemp -d) || exit 2
trap 'rm -rf "$work"' EXIT
# part NAME COMMAND ..: a part of the tests, with the seconds that it takes
part() {
    name=$1
    shift
    began=$(date +%s)
    "$@"
    ended=$?
    echo "$(($(date +%s) - began)) $name" >>"$work/times"
    return "$ended"
}
# Passes rt's lines on, but for the last; keeps them all; and notes the seconds until the first program ran, and those after it.
phases() {
    python3 -c '
import re, sys, time

took, phase, held, last = dict.fromkeys(["proving and must-fail", "programs"], 0), "proving and must-fail", b"", time.time()
with open(sys.argv[1] + "/ci.log", "wb") as log:
    for line in sys.stdin.buffer:
        if re.match(rb"rt: \w+ ran\b", line):
            phase = "programs"
        took[phase] += time.time() - last
        last = time.time()
        log.write(line)
        sys.stdout.buffer.write(held)
        sys.stdout.flush()
        held = line
with open(sys.argv[1] + "/times", "a") as times:
    times.writelines(f"{round(seconds)} rt ci, {phase}\n" for phase, seconds in took.items())
' "$work"
}

command -v rt >/dev/null 2>&1 || fail "rt, the command of the Rattle kit, is not on the PATH"
part towers tools/towers.sh || fail "a tower names the other, or a crate below both a tower"
part documents tools/documents.sh || fail "a document does not fit what it speaks of"

# The gate of the kit: each proof from nothing, but for what an earlier run on this machine passed of the same files; the layout; the programs.
{ rt ci; echo $? >"$work/status"; } | phases || fail "what rt said was not kept"
status=$(cat "$work/status")
verdict=$(tail -n 1 "$work/ci.log")
mkdir -p target
cp "$work/ci.log" target/
if [ "$status" -eq 0 ]; then
    # Bad edits fail nothing in rt ci.
    grep -q '^rt: ok;' "$work/ci.log" || fail "rt ci did not say that all is well"
    ! grep -Eq '^rt: ok;.*, [0-9]+ bad' "$work/ci.log" || fail "a must-fail edit is bad"
    part reasons tools/must-fail-reasons.sh || fail "a must-fail edit shows nothing"
    part definitions tools/definitions.sh || fail "the definitions do not answer as recorded"
    part oracle tools/oracle.sh || fail "the published Rust does not answer as recorded"
    # After rt ci, so that what the C calls stand on is proved already.
    part differential tools/differential.sh || fail "a C call does not answer as the published Rust"
    part host tools/host.sh || fail "the calls for hosts do not answer as they must"
    part stack tools/stack.sh || fail "a call for hosts needs too much stack, or a command is copied"
    cp "$work/times" target/times.txt
fi
echo "$verdict"
exit "$status"
