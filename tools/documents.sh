#!/bin/sh
# The documents against the files that they speak of; nothing is built. One line each:
#   docs/SENTENCES.md     no empty cell, and every definition, proof, function, theorem and must-fail edit that it names is there
#   docs/GUARANTEES.md    every definition and proof that it names is there, and its must-fail edits are those of crates/guarantees; the public entries that
#                         it names are there without a `requires`, and the C calls among them are all that there are
#   docs/DIFFERENCES.md   every entry of its tables is there with all its parts, under the same title and in order, in both parts; page one names those
#                         that can file a recording wrongly, and no other; each trace on the page is the file in oracle/traces, each run of lines
#                         the file in crates/replay/data/recorded; every difference-* file is on the page
#   docs/ARM.md           every fact that a definition or an entry names by its number is there, and every fact is named by one
#   docs/SECOND-VISIT.md  its pieces of a trace, one after the other, are the file in oracle/traces, and its pieces of lines the recorded file
#   include/its.h         its refusals have the names and numbers of the definition, and so has the Rust crate host/its (11 is the C call's alone)
#   crates/replay         `args` names every trace and its lines, in order, and `stdout` says how many there are
# That the recorded lines are the Rust's is for tools/oracle.sh. `tools/documents.sh write` makes the two files of crates/replay anew.
set -eu
cd "$(dirname "$0")/.."
exec python3 - "$@" <<'PY'
import difflib, glob, re, sys

RECORDED = "crates/replay/data/recorded"


def read(path):
    try:
        return open(path, encoding="utf-8", newline="").read()
    except FileNotFoundError:
        return ""


def quoted(text):
    """The words between backquotes, none of which goes over the end of a line; each once."""
    return sorted({word for line in text.splitlines() for word in re.findall("`([^`]*)`", line)})


def declared(path, name):
    """The file declares the name, as a definition, a record, a field or a law."""
    return re.search(f"^ *(abbrev |unfoldable )?pub (record |data )?«?{re.escape(name)}»?( |$)", read(path), re.M)


def placed(word, crate):
    """Where `File.name` or `proofs/File.name` of a crate must stand, and the name."""
    folder, word = ("proofs", word[7:]) if word.startswith("proofs/") else ("specs", word)
    file, name = word.split(".", 1)
    return f"crates/{crate}/{folder}/{file}.antt", name


def pieces(text):
    """The page's lines, and its blocks as (first line, text); the text of a block that does not end is None."""
    head = None
    for line in text.split("\n"):
        if head is None and line.startswith("```"):
            head, block = line, []
        elif head is None:
            yield line
        elif line == "```":
            yield head, "".join(part + "\n" for part in block)
            head = None
        else:
            block.append(line)
    if head is not None:
        yield head, None


def held(wrong, block, path):
    """A block of the page is the file."""
    if not read(path) or block != read(path):
        told = difflib.unified_diff(read(path).splitlines(), (block or "").splitlines(), path, "the page", n=0, lineterm="")
        wrong(f"it does not have {path} as it is:\n" + "\n".join(told))


def sentences(page, wrong):
    rows = [line for line in page.splitlines() if line.startswith("| ")]
    rows = [line for line in rows if not re.match(r"\| [a-z0-9 ]* \| definition \| covered by \|", line)]
    for line in page.splitlines():
        if re.match(r"\|.*\| *\|", line):
            wrong(f"an empty cell: {line}")
    for word in quoted(page):
        if re.fullmatch(r"(proofs/)?[A-Z][A-Za-z0-9]*\.[^ ]+", word):
            path, name = placed(word, "model")
            declared(path, name) or wrong(f"{path} has no {name}")
        elif re.fullmatch("[a-z_]*::([A-Z][A-Za-z]*::)?[a-z_0-9]*", word):
            crate, *_, name = word.split("::")
            sources = map(read, glob.glob(f"crates/{crate}/src/**/*.rt", recursive=True))
            any(re.search(f'pub (extern "C" )?fn {name}[<(]', text) for text in sources) or wrong(f"no function {word}")
        elif re.fullmatch("guarantees: [a-z0-9_-]*", word):
            name = word.split(": ")[1]
            re.search(f"^  pub {name} :", read("crates/guarantees/specs/Theorems.antt"), re.M) or wrong(f"no theorem {name}")
    for label in quoted("\n".join(re.findall("must-fail .*", page))):
        glob.glob(f"crates/*/must-fail/{label}.edit") or wrong(f"no must-fail edit {label}")
    return f"{len(rows)} rows, and every name in them is there"


def entries(page, wrong):
    """The public entries that the page names, in the files that it names, and every C call: they are the same, and none has a `requires`."""
    row = (re.findall(r"No public entry has a `requires`: (.*)", page) or [""])[0]
    named = {name for name in quoted(row) if "/" not in name}
    found = set()
    for path in glob.glob("crates/*/src/**/*.rt", recursive=True):
        # a head ends with the brace that stands alone
        for head, call, name in re.findall(r'^(pub (extern "C" )?fn (\w+).*?)^\{$', read(path), re.M | re.S):
            if call or name in named and f"`{path}`" in row:
                found.add(name)
                re.search(r"\brequires\*?( \w+)? \{", head) and wrong(f"{path}: {name} has a `requires`")
    for name in sorted(named ^ found):
        wrong(f"{name} is no public entry" if name in named else f"it does not name the C call {name}")
    return len(found)


def guarantees(page, wrong):
    """`File.name` and `proofs/File.name` are of crates/guarantees, `CRATE: File.name` of another."""
    count = 0
    for word in quoted(page):
        found = re.fullmatch(r"(?:([a-z_]+): )?((?:proofs/)?[A-Z][A-Za-z0-9]*\.[A-Za-z][A-Za-z0-9_-]*)", word)
        if found and not re.search(r"\.(md|antt)$|File\.name$", word):
            count += 1
            path, name = placed(found[2], found[1] or "guarantees")
            declared(path, name) or wrong(f"{path} has no {name}")
    edits = {path.split("/")[-1][: -len(".edit")] for path in glob.glob("crates/guarantees/must-fail/*.edit")}
    rows = re.compile(r"^\| `([A-Za-z_0-9]*)` \|", re.M)
    for label in sorted(edits - set(rows.findall(page))):
        wrong(f"it does not list the must-fail edit {label}")
    tried = re.search("^## Try.*", page, re.M | re.S)
    for label in rows.findall(tried[0] if tried else ""):
        label in edits or wrong(f"no must-fail edit {label}")
    return f"{count + len(edits)} names, and each is there; {entries(page, wrong)} public entries, none with a `requires`"


def differences(page, wrong):
    """Part one: the tables, and an entry for each row but those of the last table. Part two: every entry in detail. Page one names the first kinds."""
    tables, entries, details, told, strictly = [], [], [], {}, set()
    for line in page.split("\n"):
        row = re.fullmatch(r"\| ([RS][0-9]+) \| ([^|]*) \| ([^|]*) \|", line)
        if line == "| no. | difference | in strict |":
            tables.append({})
        elif row:
            any(row[1] in table for table in tables) and wrong(f"{row[1]} is in the tables twice")
            tables[-1][row[1]] = row[2]
            told[row[1]] = row[3]
            re.match("(mended|in part: .*|as in base(; .*|, and worse: .*)?|strict only)$", row[3]) or wrong(f"{row[1]}: what it is in strict is not said: {row[3]}")
    len(tables) == 6 or wrong(f"{len(tables)} tables, and not one for each kind")
    blocks = {"trace": {}, "lines": {}}
    entry = None

    def close(number, title, parts, traces, lines, excused, detailed):
        kind = next((k for k, table in enumerate(tables) if number in table), None)
        if kind is None:
            return wrong(f"{number} is in no table")
        touches = kind < len(tables) - 1
        due = ["Arm", "The Rust", "The port"] if detailed else []
        due += ["What happens"] if not detailed else []
        due += ["For a recording"] if not detailed or not touches else []
        due += ["How one would notice it", "What to ask"] if not detailed and kind < 3 else []
        parts == due or wrong(f"{number} has the parts {parts} and not {due}")
        tables[kind][number] == title or wrong(f"{number}: the titles differ")
        traces == lines or wrong(f"{number}: a trace without lines, or lines without a trace")
        if detailed:
            traces or excused or wrong(f"{number} has no trace, and does not say that none can show it")
            traces and excused and wrong(f"{number} has a trace, and says that none can show it")
        elif traces or not touches:
            wrong(f"{number}: part one has no traces, and no entry of the last table")

    for piece in [*pieces(page), "#"]:  # a heading closes the last entry
        if isinstance(piece, tuple):
            head, text = piece
            kind, _, name = head[3:].partition(" ")
            if text is None or kind not in blocks:
                wrong(f"a block that does not end, or is neither trace nor lines: {head}")
            elif not entry or not name.startswith(f"difference-{entry['number']}-"):
                wrong(f"{name} stands in another entry")
            elif name in blocks[kind]:
                wrong(f"{name} stands twice")
            else:
                blocks[kind][name] = text
                entry["traces" if kind == "trace" else "lines"] += 1
        elif piece.startswith("#"):
            if entry:
                close(**entry)
            found = re.match(r"### ([RS][0-9]+)(?:\. (.*)| in detail)$", piece)
            entry = found and dict(number=found[1], title=found[2], parts=[], traces=0, lines=0, excused=False, detailed=not found[2])
            if found:
                (entries if found[2] else details).append(found[1])
        elif entry:
            if entry["title"] is None and piece:
                entry["title"] = piece.strip("*").removesuffix(".")
            entry["parts"] += re.findall(r"^- \*\*(Arm|The Rust|The port|What happens|For a recording|How one would notice it|What to ask)\b[^*]*\.\*\* ", piece)
            entry["excused"] |= piece.startswith("No trace can show ")
            if piece.startswith("- **In strict.** "):
                strictly.add(entry["number"])
    listed = [number for table in tables[:-1] for number in table]
    entries == listed or wrong("part one does not follow its tables:\n" + "\n".join(difflib.unified_diff(listed, entries, "tables", "entries", n=0, lineterm="")))
    every = sorted(number for table in tables for number in table)
    details == every or wrong("part two lacks an entry, or has them in another order:\n" + "\n".join(difflib.unified_diff(every, details, "tables", "details", n=0, lineterm="")))
    first = set(re.findall("[RS][0-9][0-9]", page.split("## What the words mean")[0]))
    grave = {number for table in tables[:3] for number in table}
    first == grave or wrong(f"page one and the first three tables differ: {sorted(first ^ grave)}")
    for name, text in blocks["trace"].items():
        held(wrong, text, f"oracle/traces/{name}.txt")
        held(wrong, blocks["lines"].get(name), f"{RECORDED}/{name}.expect")
    for pattern in "oracle/traces/difference-*.txt", f"{RECORDED}/difference-*.expect":
        for path in sorted(glob.glob(pattern)) or [pattern]:
            path.split("/")[-1].rsplit(".", 1)[0] in blocks["trace"] or wrong(f"{path} is not in it")
    for number, said in told.items():
        said in ("as in base", "strict only") or number in strictly or wrong(f"{number} is {said}, and has no paragraph that says so")
    for ten, sixteen in re.findall("([0-9]+) is 0x([0-9A-Fa-f]+)", page):
        int(ten) == int(sixteen, 16) or wrong(f"{ten} is not 0x{sixteen}")
    return f"{len(every)} entries, {len(blocks['trace'])} of them with a trace, as in the files"


def facts(page, wrong):
    """The facts are numbered without a gap, and those that definitions and DIFFERENCES.md name are these. `F03 to F05` names three."""
    rows = re.findall(r"^\| F([0-9]+) \|", page, re.M)
    rows == [f"{n:02}" for n in range(1, len(rows) + 1)] or wrong("the facts are not numbered one after the other")
    named = set()
    for path in ["docs/DIFFERENCES.md", *glob.glob("crates/*/specs/*.antt"), *glob.glob("crates/*/README.md")]:
        for low, high in re.findall(r"\bF([0-9][0-9])(?: to F([0-9][0-9]))?\b", read(path)):
            numbers = {f"{n:02}" for n in range(int(low), int(high or low) + 1)}
            numbers <= set(rows) or wrong(f"{path} names F{low}{' to F' + high if high else ''}, which is not there")
            named |= numbers
    for row in sorted(set(rows) - named):
        wrong(f"F{row} is named by no definition and no entry")
    return f"{len(rows)} facts, each of them named"


def visit(page, wrong):
    """A block may be of two traces, where both have these steps or these lines: its first line names both."""
    blocks = [(head[3:].split(), text or "") for head, text in (piece for piece in pieces(page) if isinstance(piece, tuple))]

    def of(kind, name):
        return "".join(text for (which, *names), text in blocks if which == kind and name in names)

    both = "second-visit-unmapped", "second-visit-new-tables"
    for name in "second-visit", *both, "strict/second-visit-strict", "strict/second-visit-strict-ending", "strict/strict-not-mended":
        held(wrong, of("trace", name.split("/")[-1]), f"oracle/traces/{name}.txt")
        held(wrong, of("lines", name.split("/")[-1]), f"{RECORDED}/{name.split('/')[-1]}.expect")
    for name in both:  # the page has the steps once, and says that both profiles answer them alike
        held(wrong, of("lines", f"{name}-strict"), f"{RECORDED}/{name}-strict.expect")
        steps, strict = ([line for line in read(path).split("\n") if not line.startswith("#")] for path in (f"oracle/traces/{name}.txt", f"oracle/traces/strict/{name}-strict.txt"))
        steps == [line.replace(" profile=strict", "") for line in strict] or wrong(f"{name}-strict has other steps")
    return "eight traces and their lines, as in the files"


def refusals(header, wrong):
    definition = re.findall(r"^number_of (\w+) = ([0-9]+)$", read("crates/model/specs/Refusal.antt"), re.M)
    numbers = {name: number for name, number in definition if number != "11"}
    spelt = {"ITS_" + re.sub("(?<!^)(?=[A-Z])", "_", name).upper(): number for name, number in numbers.items()}
    dict(re.findall(r"^    (ITS_\w+) = ([0-9]+),", header, re.M)) == spelt or wrong("its refusals are not those of Refusal.number_of")
    crate = re.findall(r"^    (\w+) = ([0-9]+), \"", read("host/its/src/refusal.rs"), re.M)
    dict(crate) == numbers or wrong("the refusals of host/its are not those of Refusal.number_of")
    return f"{len(numbers)} refusals, with the names and numbers of the definition, as in host/its"


def replay(write, wrong):
    args, lines = [], 0
    for folder in "recorded", "linux":
        for path in sorted(glob.glob(f"crates/replay/data/{folder}/*.trace")):
            expect = path[: -len("trace")] + "expect"
            read(expect) or wrong(f"{path} has no lines beside it")
            args += [path[len("crates/replay/data/") :], expect[len("crates/replay/data/") :]]
            lines += read(expect).count("\n")
    traces = len(args) // 2
    for file, text in ("args", "".join(word + "\n" for word in args)), ("stdout", f"{traces} traces with {lines} lines agree, 0 differ\n"):
        if write:
            open(f"crates/replay/{file}", "w").write(text)
        read(f"crates/replay/{file}") == text or wrong(f"{file} is not what its data says: run 'tools/documents.sh write'")
    return f"{traces} traces, {lines} lines"


if sys.argv[1:] not in ([], ["write"]):
    sys.exit("usage: tools/documents.sh [write]")
failed = False
pages = {"SENTENCES": sentences, "GUARANTEES": guarantees, "DIFFERENCES": differences, "ARM": facts, "SECOND-VISIT": visit}
checks = [(f"docs/{name}.md", check, read(f"docs/{name}.md")) for name, check in pages.items()]
checks += [("include/its.h", refusals, read("include/its.h")), ("crates/replay", replay, sys.argv[1:])]
for name, check, given in checks[-1:] if sys.argv[1:] else checks:
    complaints = []
    summary = check(given, complaints.append)
    for said in complaints or [summary]:
        print(f"documents: {name}: {said}")
    failed |= bool(complaints)
sys.exit(failed)
PY
