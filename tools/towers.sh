#!/bin/sh
# The two towers stand apart: in crates.txt and in its files, a crate below both names only such crates, and one of a tower these and its own tower's
# (and the kit's crates). So neither tower stands on the other by way of a third crate either. Theorems and programs may name both.
set -eu
cd "$(dirname "$0")/.."
exec python3 - <<'PY'
import glob, re, sys

places = {
    "below both": "model words registers decoding answers",
    "by value": "tables command window queue its text trace trace_c",
    "over numbers": "lent_tables lent_command lent_queue host host_c",
    "about both": "arm_agreement guarantees mappings showing corners by_hand input inforce itstrace replay",
}
place = {crate: name for name, crates in places.items() for crate in crates.split()}
may = {"below both": ["below both"], "by value": ["below both", "by value", "of the kit"], "over numbers": ["below both", "over numbers", "of the kit"]}
# How a file names a crate: `queue::name` in code, `Rattle.queue` in clauses, definitions and proofs.
names = re.compile(r"(?<![\w:.])([a-z_0-9]+)::|\buse ([a-z_0-9]+)(?:;| as )|\bRattle\.([a-z_0-9]+)")

refused, files = [], 0
listed = dict(re.findall(r"^([a-z_0-9]+)(?: +staticlib)? *:(.*)", open("crates.txt").read(), re.M))
for crate in sorted(listed.keys() ^ place.keys()):
    refused.append(f"crates.txt lists {crate}, which has no place in tools/towers.sh" if crate in listed else f"crates.txt does not list {crate}")
for crate in [crate for crate in listed if place.get(crate) in may]:
    found = [("crates.txt", other) for other in listed[crate].split()]
    for path in sorted(glob.glob(f"crates/{crate}/**/*.rt", recursive=True) + glob.glob(f"crates/{crate}/**/*.antt", recursive=True)):
        files += 1
        for number, line in enumerate(open(path, encoding="utf-8"), 1):
            for other in names.findall(re.sub("//.*|--.*", "", line)):
                found += [(f"{path}:{number}", name) for name in other if name in place]
    for where, other in found:
        if place.get(other, "of the kit") not in may[place[crate]]:
            refused.append(f"{where}: {crate} ({place[crate]}) names {other} ({place.get(other, 'of the kit')})")
for what in refused:
    print(f"towers: {what}")
if refused:
    sys.exit(1)
print(f"towers: {len(listed)} crates; in {files} files of the towers and below both no name of another tower")
PY
