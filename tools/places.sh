#!/bin/sh
# Where src/ has the forms that docs/DESIGN-PASS.md counts: tools/places.sh [--list] [COMMIT]
#
# A count a line, of the files as they stand, or as they stood at a commit. With --list each place is named. A place is what a pattern finds, and no
# verdict: the page says of each kind what became of it, and a place that stays has a line `Stays:` beside it.
set -eu
cd "$(dirname "$0")/.."
exec python3 -B - "$@" <<'PY'
import re, subprocess, sys

listed = "--list" in sys.argv[1:]
commit = next((word for word in sys.argv[1:] if word != "--list"), None)


def git(*words):
    return subprocess.run(["git", *words], check=True, capture_output=True, text=True).stdout


names = [name for name in (git("ls-tree", "-r", "--name-only", commit) if commit else git("ls-files")).split() if re.fullmatch(r"crates/\w+/src/.*\.rt", name)]
files = {name: git("show", f"{commit}:{name}") if commit else open(name, encoding="utf-8").read() for name in names}


def found(pattern):
    """The lines in which a pattern begins, but for comments."""
    for name, text in files.items():
        for m in re.finditer(pattern, text, re.M):
            line = text.count("\n", 0, m.start()) + 1
            said = text.split("\n")[line - 1].strip()
            if not said.startswith("//"):
                yield f"{name}:{line}: {said}"


def functions():
    for name, text in files.items():
        for m in re.finditer(r"^ *(?:pub )?(?:extern \"C\" )?fn (\w+)(?:<[^>]*>)?\(([^)]*)\)", text, re.M):
            yield f"{name}: {m.group(1)}", re.findall(r"(\w+): ", m.group(2))


def together(*words):
    return [where for where, given in functions() if all(word in given for word in words)]


def asked():
    facts = {}
    for name, text in files.items():
        for fact in re.findall(r"requires (?:\w+ )?\{ (.*?) \}$", text, re.M):
            facts.setdefault(re.sub(r"\w+(?=\.(old|now))", "_", fact), []).append(f"{name}: {fact}")
    return [where for places in facts.values() if len(places) > 2 for where in places]


def fields():
    for name, text in files.items():
        for struct, body in re.findall(r"^(?:pub )?struct (\w+)[^\n;]*\{\n(.*?)^\}", text, re.M | re.S):
            for field in re.findall(r"^ *(?:pub )?(\w+): bool,$", body, re.M):
                yield f"{name}: {struct}.{field}"


KINDS = [
    ("1 enums", found(r"^(pub )?enum \w+")),
    ("1 flags in structs", fields()),
    ("1 searches that answer a number for nothing", found(r"^ *(pub )?fn (find|first_free|place|free_from|pair_among)\w*\([^{]*?\) -> usize")),
    ("1 the profile as a number", found(r"profile\)? (==|!=|<=) 1")),
    ("2 functions that differ in a table, a mark or a constant", found(r"^ *(pub )?fn (no_(device|collection|translation|config|action|command|mapping)|is_(device|collection|pair)|of_device|find_\w+|first_free_\w+|place_of_\w+|(device|collection|translation)_at|drop_(devices|collections|pairs|translations_of)|stored\w*|wide|one_if|bit_word|used_word|pending_word|read_full|print|rd|wr|tr|ac|cf|ex|dv|cl|pr|of_(configuration|window|read|write|translation|action|broken|profile|mapping|device)|map_lpi|map_event)\(")),
    ("3 loops that count or test by hand", found(r"^ *(loop|while)\b")),
    ("4 values of an id compared by hand", found(r"\.0 (==|!=) ")),
    ("4 copies that only give another name", found(r"^ *let (mut )?[a-z_]+ = [a-z_]+;$")),
    ("4 fields given by their own names", found(r"\b([a-z_]+): \1,")),
    ("4 bools joined by & and |", found(r"(?<![&|])[&|] (?=[!(a-z])(?!mut |self|\w+\|)(?!.*\|)")),
    ("5 config and registers together", together("config", "registers")),
    ("5 device and event together", together("device", "event")),
    ("5 address and bytes together", together("address", "bytes")),
    ("5 out and laid together", together("out", "laid")),
    ("5 facts asked by three functions or more", asked()),
    ("6 arrays with a length or a place beside them", found(r"^ *(pub )?(count|processor_count|at): (usize|u8),$|= \[0u8; \d+\];$")),
    ("7 calls chosen by a kind", found(r"^ *match (x|register|mark|[\w:]*mark_at\(bytes\)) \{$")),
]
for kind, places in KINDS:
    places = list(places)
    print(f"{len(places):4} {kind}")
    if listed:
        print("".join(f"       {place}\n" for place in places), end="")
print(f"{sum(text.count('Stays:') for text in files.values()):4} lines that say why a place stays")
PY
