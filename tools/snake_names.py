#!/usr/bin/env python3
"""Spells the names that specs/ and proofs/ declare as today's Rattle does: words in snake case, with no dash and no inner capital; types and modules keep
their capital. Arm's own names keep Arm's spelling, with _ for a dash.

usage: tools/snake_names.py [--check]

It goes over the definitions, the proofs, the clauses and the ghost uses of every crate, its must-fail edits, and the spans of code in README.md and docs/. A name that a file has from a library stays in that file, and so do
the names that Rattle makes. A lemma that would get the name of what it is about ends in _lem. Where two other names would fall together in one file,
nothing is written. A second run changes nothing.
"""

import collections
import pathlib
import re
import sys

sys.dont_write_bytecode = True

WORD = re.compile(r'[^\s(){}.;,@"«»◌]+')
# text in quotes, and comments
QUIET = re.compile(r'"(?:[^"\\\n]|\\.)*"|(?<![^\s(){}.;,@"«»])--[^\n]*|\{-.*?-\}', re.S)
DECLARED = re.compile(r"(?m)^ *(?:(?:pub|abbrev|unfoldable|record|data|ruleset) +)*((?:[^\s(){}.;,@\"«»:=]+ +)+)(?:\{[^{}\n]*\} *|\([^()\n]*\) *)*:(?= |\n)")
MODULE = re.compile(r"(?m)^ *(?:pub )?(?:mod|module) +(\S+)")
USE = re.compile(r"(?m)^ *(?:pub )?(?:ghost )?(?:use|open) +([^\s;{]+?)\.?\{([^}]*)\}")
CLAUSE = re.compile(r"(?:requires|ensures)\s*\*?\s*(?:\w+\s*)?\{|ghost\s*(?:\w+\s*(?::\s*(?:(?:owns|lends)\s*)?|=\s*))?\{")
GHOST_USE = re.compile(r"ghost\s+use\b[^;]*;")
RUST = re.compile(r'//[^\n]*|/\*.*?\*/|[bc]?"(?:\\.|[^"\\])*"|\w+|\s+|.', re.S)
SPAN = re.compile(r"(`[^`\n]+`)")
# Arm's names of fields that begin with a small letter
ARMS = {"pINTID", "vPEID", "vINTID"}
# Numbers of the layout, which Rust constants of the same spelling hold.
OTHERS = {f"{it}-RECORDS": f"{it.lower()}_records" for it in ("DEVICE", "COLLECTION", "PAIR")} | {"in-place": "in_place", "too_large": "too_large_lem", "noUnit": "answers_no_unit"}
# Names of one file that would meet the new spelling of a definition there.
LOCALS = {"arm_agreement/proofs/Accesses.antt": {"in_frame": "lies_in_frame"}, "its/proofs/write_lent/Proof.antt": {"lent_of": "lent_of_fn"}}


def spelled(name):
    if name in OTHERS:
        return OTHERS[name]
    if name in ARMS:
        return name
    if "·" in name or re.match(r"[A-Z]", name) or not re.search(r"[a-z]", name):
        return name.replace("-", "_").replace("·", "_")
    # the part before a first capital run decides: op-MAPD keeps Arm's MAPD
    words = re.sub(r"(?<=[a-z0-9])[A-Z](?=[a-z0-9]|$)", lambda m: "_" + m[0].lower(), name)
    return words.replace("-", "_")


def code(text):
    return QUIET.sub(lambda m: re.sub(r"[^\n]", " ", m[0]), text)


def ours(path, crates):
    steps = path.split(".")
    return steps[0] == "Rattle" and len(steps) > 1 and steps[1] in crates and not is_made(steps)


def is_made(steps):
    """Whether a module is one that Rattle makes of a function or a type: its names are not ours."""
    return "proofs" in steps and steps[-1] in ("Goals", "Given", "Tie", "Statement", "Code", "Met", "Symbol", "Key", "TheLaws", "Lts") or "declared" in steps or "contracts" in steps


def imports(text, crates):
    """The names that a text has from libraries, and from modules that Rattle makes."""
    away, mine = set(), set()
    for path, names in USE.findall(text):
        got = {n.strip() for it in names.split(",") for n in it.split(" as ") if n.strip()}
        (mine if ours(path, crates) else away).update(got)
    split = lambda s: {p for n in s for p in WORD.findall(n)}
    return split(away) - split(mine)


def is_of_function(path):
    return path.name in ("Proof.antt", "Answers.antt", "Invariants.antt")


def declared(text):
    names = set()
    for m in DECLARED.finditer(text):
        names |= {p for n in m[1].split() for p in WORD.findall(n)}
    return names - {"pub", "abbrev", "unfoldable", "record", "data", "ruleset", "let", "in", "where", "use", "λ", "→", "module", "_"}


def spans(text, path):
    """The parts of a text, each with whether its words turn."""
    if path.suffix == ".antt":
        at = 0
        for m in QUIET.finditer(text):
            yield text[at : m.start()], True
            yield m[0], m[0].startswith(("--", "{-")) and "comment"
            at = m.end()
        yield text[at:], True
        return
    at = 0
    while at < len(text):
        m = RUST.match(text, at)
        clause = CLAUSE.match(text, at) if m[0] in ("requires", "ensures", "ghost") else None
        use = GHOST_USE.match(text, at) if m[0] == "ghost" else None
        if clause:
            end = closing(text, clause.end())
            yield clause[0], False
            yield text[clause.end() : end], True
        elif use:
            end = use.end()
            yield use[0], True
        else:
            end = m.end()
            yield m[0], m[0].startswith("//") and "comment"
        at = end


def closing(text, at):
    depth = 0
    for m in re.compile(QUIET.pattern + r"|[{}]", re.S).finditer(text, at):
        depth += (m[0] == "{") - (m[0] == "}")
        if depth < 0:
            return m.start()
    raise SystemExit("a brace does not close")


def turn(part, table):
    return WORD.sub(lambda m: table.get(m[0], m[0]), part)


def turn_comment(part, table):
    """In prose only what is no plain word turns; in spans of code every name."""
    plain = lambda w: re.fullmatch(r"[A-Za-z]?[a-z]*|[a-z]+(-[a-z]+)+", w)
    prose = lambda t: re.sub(r"[\w·'-]+", lambda m: m[0] if plain(m[0]) else table.get(m[0], m[0]), t)
    return "".join(turn_span(t, table) if k % 2 else prose(t) for k, t in enumerate(SPAN.split(part)))


def turn_span(span, table):
    return "`" + turn(span[1:-1], table) + "`"


def turn_page(text, table):
    return "".join(turn_span(t, table) if k % 2 else t for k, t in enumerate(SPAN.split(text)))


def turn_edit(text, table):
    """The pairs of a must-fail edit, and the facts in files of lemmas that it is to break."""
    line = lambda m: m[1] + turn(m[2], table)
    return re.sub(r"(?m)^((?:old|new): ?|fails: \S+\.antt )(.*)$", line, text)


def move_contracts(root):
    """Rattle makes a module `contracts` of its own, so the file of that name in `its` is `Promises`."""
    old = root / "crates/its/specs/Contracts.antt"
    if old.exists():
        old.rename(old.with_name("Promises.antt"))
        for p in (root / "crates").rglob("*"):
            if p.suffix in (".antt", ".rt"):
                t = p.read_text()
                out = t.replace("Rattle.its.specs.Contracts.", "Rattle.its.specs.Promises.").replace("pub mod Contracts\n", "pub mod Promises\n")
                if out != t:
                    p.write_text(out)


def main():
    root = pathlib.Path(__file__).resolve().parent.parent
    if "--check" not in sys.argv:
        move_contracts(root)
    crates = {p.name for p in (root / "crates").iterdir()}
    files = sorted(p for p in (root / "crates").rglob("*") if p.suffix in (".antt", ".rt") and "out" not in p.parts)
    was = {p: p.read_text() for p in files}
    texts = dict(was)
    names = set()
    for p, t in texts.items():
        if p.suffix == ".antt" and not is_of_function(p):
            names |= declared(code(t))
    if "tooLarge" not in names:  # turned already: the lemma has its other name
        del OTHERS["too_large"]
    else:
        for file, locals_ in LOCALS.items():
            p = root / "crates" / file
            texts[p] = "".join(turn(part, locals_) if turns is True else part for part, turns in spans(was[p], p))
    table = {n: spelled(n) for n in names if spelled(n) != n}
    of = collections.defaultdict(set)
    for n in names:
        of[spelled(n)].add(n)
    for new, olds in of.items():
        if len(olds) > 1:
            for old in olds:
                if "-" in old and old not in OTHERS:
                    table[old] = new + "_lem"
    kept = {p: imports(code(t), crates) for p, t in texts.items()}
    # what falls together in a file
    together = collections.defaultdict(set)
    for p, t in texts.items():
        words = set()
        for part, turns in spans(t, p):
            if turns is True:
                # a field behind a dot is no name of its own
                words |= set(WORD.findall(re.sub(r'(?<=[\w)])\.[^\s(){}.;,@"«»]+', "", part) if is_of_function(p) else part))
        if p.suffix == ".rt":
            # parameters and locals hide what a clause names
            for m in re.finditer(r"\blet (?:mut )?(\w+)|\b(\w+)(?=\s*:\s*[&\w\[(])", t):
                words.add(m[1] or m[2])
        by = collections.defaultdict(set)
        for w in words:
            by[w if w in kept[p] else table.get(w, w)].add(w)
        for new, olds in by.items():
            if len(olds) > 1 and new != "in_place":
                together[new, tuple(sorted(olds))].add(str(p.relative_to(root)))
    for (new, olds), where in sorted(together.items()):
        print(f"together: {new} <- {' '.join(olds)}: {' '.join(sorted(where)[:4])}{' ..' if len(where) > 4 else ''}")
    if "--check" in sys.argv:
        for old, new in sorted(table.items()):
            print(f"{old}\t{new}")
        return
    if together:
        raise SystemExit("names fall together: nothing was written")
    for p, t in texts.items():
        here = {o: n for o, n in table.items() if o not in kept[p]}
        out = "".join(turn(part, here) if turns is True else turn_comment(part, here) if turns == "comment" else part for part, turns in spans(t, p))
        if out != was[p]:
            p.write_text(out)
    pages = [root / "README.md", *sorted((root / "docs").glob("*.md"))]
    for p, how in [(p, turn_page) for p in pages] + [(p, turn_edit) for p in sorted((root / "crates").glob("*/must-fail/*.edit"))]:
        t = p.read_text()
        if (out := how(t, table)) != t:
            p.write_text(out)


if __name__ == "__main__":
    main()
