#!/bin/sh
# What a change moved and what it left, by name, read from the files of two commits; nothing is built and nothing is checked out.
#   tools/changes.sh BEFORE [AFTER]   AFTER is a commit, or `now` for the files as they are; left out: HEAD. Prints Markdown for docs/CHANGES.md
#   tools/changes.sh --check [AFTER]  how many lines are read, as what, and every line that belongs to nothing (there must be none)
# It prints, each by name as new, changed or gone:
#   definitions   of specs/ (functions, constants, records, data) with type and equations, and the types of src/; of a record whose fields are promises,
#                 the header and the fields' names
#   promises      contracts (signature, requires, ensures) of src/; the fields of the records in the specs of crates/guarantees, its and host, one by
#                 one; the `pub` statements of proofs/
#   proofs        what stands below a statement; lemmas that are not `pub`; definitions inside proofs/ (`abbrev`, `unfoldable`, record, data,
#                 ruleset)
#   code          bodies of functions, and constants; `mod` lines
#   wrong versions   the edits of must-fail/ and the facts that fail in them
#   recorded lines   of crates/replay/data: the new and gone traces, and each line that changed, by its number
#   stayed        all the rest: a crate in which nothing moved by its name, such a file with the count of its names, the names of any other file
# Every name of both commits stands in exactly one place of each kind that it has; the script fails where that is not so.
# Names: `CRATE: File.name` of specs, `CRATE: proofs/File.name` of proofs, `CRATE: function/Proof.name` of the proof of a function, `CRATE::module::name`
# of code. A text is compared without its comments and with all white space made equal. The header of a `module _ (..) where` is part of each statement
# below it. What stayed has the same text: what it means has moved where a definition under it has.
# A `use` line is no name. Where such a line takes a name from another place than before, this is told after the definitions.
set -eu
cd "$(dirname "$0")/.."
exec python3 - "$@" <<'PY'
import difflib, os, re, subprocess, sys
from collections import Counter, namedtuple

# the records of these specs are promises, field by field
PROMISING = "guarantees", "its", "host"
# what is compared of a name, each by itself, and how a table calls it
KINDS = {"definitions": "definitions", "contracts": "contracts", "statements": "theorems and statements", "proofs": "proofs",
         "helpers": "definitions inside proofs", "code": "code", "modules": "`mod` lines"}
NEW, CHANGED, GONE, STAYED = "new", "changed", "gone", "stayed"

Place = namedtuple("Place", "crate folder file name")
# sort: definition, field, lemma, helper, type, function, constant or module; said: the statement; done: what stands below it
Item = namedtuple("Item", "sort public said done")


def git(*words, given=None):
    ran = subprocess.run(["git", *words], input=given, stdout=subprocess.PIPE, stderr=subprocess.PIPE)
    if ran.returncode:
        sys.exit(f"changes: git {words[0]}: {ran.stderr.decode().strip()}")
    return ran.stdout


def wanted(path):
    return re.fullmatch(r"crates/[^/]+/((specs|proofs)/.+\.antt|src/.+\.rt|must-fail/[^/]+\.edit|data/.+\.expect)", path)


def files(commit):
    """path -> text, of all files of a commit that are read here."""
    if commit == "now":
        paths = git("ls-files", "-z", "-co", "--exclude-standard", "crates").decode().split("\0")
        return {path: open(path, encoding="utf-8").read() for path in sorted(set(paths)) if wanted(path) and os.path.isfile(path)}
    paths = [path for path in git("ls-tree", "-r", "-z", "--name-only", commit, "crates").decode().split("\0") if wanted(path)]
    told, texts, at = git("cat-file", "--batch", given="".join(f"{commit}:{path}\n" for path in paths).encode()), {}, 0
    for path in paths:
        end = told.index(b"\n", at)
        size = int(told[at:end].split()[-1])
        texts[path] = told[end + 1 : end + 1 + size].decode()
        at = end + size + 2
    return texts


# ---- what all readers share

STRING = r'"(?:[^"\\]|\\.)*"'


def level(text):
    """The text with all white space made equal, but for that of strings; there is none inside the edge of a bracket."""
    return re.sub(f"({STRING})|(?<=[({{])\\s+|\\s+(?=[)}}])|(\\s+)", lambda m: m[1] or m[2] and " " or "", text).strip()


def depth_zero(text):
    """The words of a text that stand in no bracket."""
    text, depth, word = re.sub(STRING, lambda m: "s" * len(m[0]), text), 0, ""
    for char in text + " ":
        if char in "([{":
            depth += 1
        elif char in ")]}":
            depth -= 1
        elif depth == 0 and not char.isspace():
            word += char
            continue
        if word:
            yield word
        word = ""


class Reading:
    """The names of a commit, the origin of what its files use, its edits and recorded lines, and which of its lines were read as what."""

    def __init__(self, commit):
        self.items, self.origins, self.edits, self.lines_of, self.lines, self.unread = {}, {}, {}, {}, Counter(), []
        for path, text in files(commit).items():
            _, crate, folder, file = path.split("/", 3)
            file = file.rsplit(".", 1)[0]
            if folder == "must-fail":
                self.edits[crate, file] = edits(text)
                continue
            if folder == "data":
                self.lines_of[file.split("/")[-1]] = text.splitlines()
                continue
            self.origins[crate, folder, file] = {}
            reader = Antt if folder != "src" else Rt
            of = reader(self, crate, folder, file, text)
            lost = [number for number in of.code if number not in of.read]
            self.unread += [f"{path}:{number}: {text.splitlines()[number - 1]}" for number in lost]
            self.lines += Counter({"files": 1, "all": text.count("\n"), "blank or comment": text.count("\n") - len(of.code)})
            self.lines += Counter(of.read.values())


class Reader:
    def __init__(self, whole, crate, folder, file, text):
        self.whole, self.crate, self.folder, self.file = whole, crate, folder, file
        self.read = {}  # line -> what it was read as
        self.go(text)

    def add(self, name, item):
        """A second thing of the same name in one file has a number."""
        place, n = Place(self.crate, self.folder, self.file, name), 1
        while place in self.whole.items:
            n += 1
            place = place._replace(name=f"{name}#{n}")
        self.whole.items[place] = item
        return place

    def uses(self, text):
        """A use line: each name that it gives, and where from."""
        origins = self.whole.origins[self.crate, self.folder, self.file]
        path, _, names = re.sub(r"^(pub |ghost )*use ", "", level(text).rstrip("; ")).partition("{")
        if not names:
            path, _, name = path.partition(" as ")
            names = f"{re.split('[.]|::', path)[-1]} as {name}" if name else re.split("[.]|::", path)[-1]
        for each in names.rstrip("} ").split(","):
            name, _, given = each.strip().partition(" as ")
            if name:
                origins[given or name] = f"{path.rstrip('.:')} {name}"


# ---- antt


class Antt(Reader):
    """Definitions and proofs. A piece begins where a line has the indentation of its block, and ends where the next one begins; a line with a closing
    bracket alone goes on with the piece before it."""

    def go(self, text):
        lines = [(n, re.sub(f"({STRING})|(?<!\\S)--.*", lambda m: m[1] or "", line).rstrip()) for n, line in enumerate(text.splitlines(), 1)]
        lines = [(n, line) for n, line in lines if line]
        self.code = [n for n, _ in lines]
        self.fixed = []  # lines that fix how an operator binds: they belong to the operators
        self.block(lines, ())
        for n, text, names in self.fixed:
            places = [Place(self.crate, self.folder, self.file, name) for name in names]
            if all(place in self.whole.items for place in places):
                self.read[n] = "items"
                for place in places:
                    item = self.whole.items[place]
                    self.whole.items[place] = item._replace(said=f"{text} {item.said}")

    def block(self, lines, around):
        """One after the other, the pieces of a block that stands under the headers `around`."""
        pieces = []
        for n, line in lines:
            indent = len(line) - len(line.lstrip())
            if not pieces or (indent <= margin and line.lstrip()[0] not in ")]}"):
                margin = indent
                pieces.append([])
            pieces[-1].append((n, line))
        self.open = None  # the declaration whose equations follow
        for piece in pieces:
            self.piece(piece, around)

    def take(self, lines, what="items"):
        self.read.update((n, what) for n, _ in lines)
        return level("\n".join(line for _, line in lines))

    def piece(self, lines, around):
        words = lines[0][1].split()
        plain = [word for word in words if word not in ("pub", "abbrev", "unfoldable")]
        if plain[0] == "use":
            self.uses(self.take(lines, "use lines"))
        elif plain[0] == "mod" and len(plain) == 2:
            self.add(f"mod {plain[1]}", Item("module", True, self.take(lines), ""))
        elif re.fullmatch("infix[lr]?", plain[0]):
            self.fixed.append((lines[0][0], " ".join(words[:2]), words[2:]))
        elif plain[0] in ("module", "record", "data") and len(plain) > 1:
            self.headed(plain[0], plain[1], "pub" in words, lines, around)
        elif plain[0] == "unfolding":
            self.below(lines)
        elif plain[0] == "ruleset" and len(plain) > 1:
            sort = "definition" if self.folder == "specs" else "helper"
            self.add(plain[1], Item(sort, "pub" in words, " ".join((*around, self.take(lines))), ""))
        else:
            marks = next((word for word in depth_zero("\n".join(line for _, line in lines)) if word in (":", "=")), None)
            if marks == ":":
                self.declaration(lines, around)
            elif marks == "=":
                self.equation(lines)

    def headed(self, word, name, public, lines, around):
        """A header that ends with `where`, and a block under it."""
        ends = next((k for k, (_, line) in enumerate(lines) if re.search(r"(^|\s)where$", line)), None)
        if ends is None:
            return
        header, under = lines[: ends + 1], lines[ends + 1 :]
        if word == "module":
            self.block(under, (*around, self.take(header)))
        elif word == "record" and self.folder == "specs" and self.crate in PROMISING:
            place = self.add(name, Item("definition", public, "", ""))
            said, self.record = self.take(header), (name, [])
            self.block(under, around)
            self.whole.items[place] = Item("definition", public, " ".join((*around, said)), " ".join(self.record[1]))
            self.record = None
        else:
            sort = "definition" if self.folder == "specs" else "helper"
            self.add(name, Item(sort, public, " ".join((*around, self.take(header))), self.take(under)))
        self.open = None

    record = None  # the record whose fields are read one by one

    def declaration(self, lines, around):
        """`abbrev pub name {..} : type`, and of some records a field."""
        text = self.take(lines)
        marks = re.match("((?:pub |abbrev |unfoldable )*)(.*)", text)
        names = []
        for word in depth_zero(marks[2]):
            if word == ":":
                break
            names.append(word)
        said = text
        if self.record:
            sort, names = "field", [f"{self.record[0]}.{name}" for name in names]
            self.record[1].extend(names)
        elif self.folder == "specs":
            sort = "definition"
        elif re.search("abbrev|unfoldable", marks[1]):
            sort = "helper"
        else:
            sort, said = "lemma", marks[2]  # that it is `pub` is told by its being a promise
        public, said = "pub" in marks[1].split(), " ".join((*around, said))
        self.open = [self.add(name, Item(sort, public, said, "")) for name in names]

    def equation(self, lines):
        """`name patterns = ..`, or the patterns between the parts of the name; it must be of the declaration above."""
        left = re.split(r"(?<!\S)=(?!\S)", "\n".join(line for _, line in lines))[0]
        words = left.replace("(", " ").replace(")", " ").split()
        for place in self.open or ():
            name = re.sub("#[0-9]+$", "", place.name)
            # An argument's place in the name of an operator is ◌, and was _ in an older Rattle.
            whole = name == words[0] or name.startswith("«")
            parts = [name] if whole else [part for part in re.split("◌" if "◌" in name else "_", name) if part] or [name]
            first = words[0] == parts[0] if name[0] not in "◌_" else parts[0] in words
            if first and all(part in words for part in parts):
                return self.below(lines)

    def below(self, lines):
        for place in self.open or ():
            item = self.whole.items[place]
            self.whole.items[place] = item._replace(done=f"{item.done} {self.take(lines)}".strip())


# ---- Rattle


class Rt(Reader):
    """Code. Brackets nest; strings and characters are one word each."""

    CHARACTER = r"b?'(?:[^'\\]|\\.)'"
    CLAUSES = "requires", "ensures"

    def go(self, text):
        bare = f"b?{STRING}|{self.CHARACTER}"
        text = re.sub(f"({bare})|//[^\n]*|/\\*.*?\\*/", lambda m: m[1] or re.sub("[^\n]", " ", m[0]), text, flags=re.S)
        self.text, self.words, line, at = text, [], 1, 0
        for m in re.finditer(f"{bare}|\\w+|\\S", text):
            line, at = line + text.count("\n", at, m.start()), m.start()
            self.words.append((m[0], m.start(), m.end(), line))
        self.code = sorted({word[3] for word in self.words})
        self.taken = set()
        self.walk(0, len(self.words), "")
        for k in set(range(len(self.words))) - self.taken:  # a line of which one word was not read
            self.read.pop(self.words[k][3], None)

    def word(self, i):
        return self.words[i][0] if i < len(self.words) else ""

    def close(self, i):
        """Behind the bracket that closes the one at i."""
        depth = 0
        for j in range(i, len(self.words)):
            depth += (self.word(j) in "([{") - (self.word(j) in ")]}")
            if depth == 0:
                return j + 1
        return len(self.words)

    def until(self, i, ends):
        """The first of the words in `ends` that stands in no bracket, from i on."""
        while i < len(self.words) and self.word(i) not in ends:
            i = self.close(i) if self.word(i) in ("(", "[", "{") else i + 1
        return i

    def take(self, i, j, what="items"):
        """The words from i to before j, as one text. A comma that only ends the last of several lines is none."""
        self.taken.update(range(i, j))
        self.read.update((line, what) for _, _, _, line in self.words[i:j])
        kept = [k for k in range(i, j) if not (self.word(k) == "," and self.word(k + 1) in (")", "]", "}") and self.words[k][3] < self.words[k + 1][3])]
        return " ".join(self.word(k) for k in kept)

    def walk(self, i, end, prefix):
        while i < end:
            j = i
            while self.word(j) == "#" and self.word(j + 1) == "!":  # of the whole file
                self.take(j, self.close(j + 2), "use lines")
                i = j = self.close(j + 2)
            while self.word(j) == "#":
                j = self.close(j + 1)
            public = self.word(j) == "pub"
            j += public
            if public and self.word(j) == "(":
                j = self.close(j)
            while self.word(j) in ("ghost", "extern", '"C"', "unsafe") or (self.word(j) == "const" and self.word(j + 1) == "fn"):
                j += 1
            i = self.item(i, j, prefix, public)

    def item(self, i, j, prefix, public):
        """The item whose text begins at i and whose kind is the word at j; behind it."""
        kind, name = self.word(j), prefix + self.word(j + 1)
        if kind == "use":
            last = self.until(j, ";") + 1
            self.take(i, last, "use lines")
            self.uses(re.sub("^pub ", "", self.text[self.words[i][1] : self.words[last - 1][1]]))
        elif kind == "fn":
            return self.function(i, j, name, public)
        elif kind in ("impl", "trait") or (kind == "mod" and self.word(j + 2) == "{"):
            opens = self.until(j, "{")
            last = self.close(opens)
            self.take(i, opens + 1)
            self.take(last - 1, last)
            of = self.word(j + 1) if kind == "mod" else " ".join(self.word(k) for k in range(j + 1, opens)).split(" for ")[-1]
            self.walk(opens + 1, last - 1, f"{prefix}{of}::")
        elif kind in ("mod", "const", "static", "type"):
            last = self.until(j, ";") + 1
            sort = {"mod": "module", "type": "type"}.get(kind, "constant")
            self.add(f"mod {name}" if kind == "mod" else name, Item(sort, public, "", self.take(i, last)))
        elif kind in ("struct", "enum", "union"):
            last = self.until(j, ("{", ";"))
            last = self.close(last) if self.word(last) == "{" else last + 1
            self.add(name, Item("type", public, "", self.take(i, last)))
        else:
            return j + 1  # a line that belongs to nothing
        return last

    def function(self, i, j, name, public):
        """Signature and clauses, of which the latter are antt, and the body."""
        said, k = [], j
        while True:
            ends = self.until(k, ("{", ";", *self.CLAUSES))
            said.append(self.take(i if k == j else k, ends))
            if self.word(ends) not in self.CLAUSES:
                break
            k = self.close(self.until(ends + 1, "{"))  # a clause may have a name
            self.take(ends, k)
            said.append(level(self.text[self.words[ends][1] : self.words[k - 1][2]]))
        last = self.close(ends) if self.word(ends) == "{" else ends + 1
        self.add(name, Item("function", public, "\n".join(said), self.take(ends, last)))
        return last


# ---- wrong versions


def edits(text):
    """title -> (facts, text) of each edit of a file. A title is the comment before it; a comment that an empty line follows is a heading."""
    found, title, rest = {}, [], []

    def close():
        if rest:
            first = name = " ".join(title) or rest[0]
            while name in found:
                name = f"{first} ({sum(other.startswith(first) for other in found) + 1})"
            found[name] = sum(line.startswith("fails: ") for line in rest), "\n".join(rest)
        title.clear()
        rest.clear()

    for line in text.splitlines():
        line = re.sub("^# (?=fails: )", "", line)  # rt reads no such line, and wants it to be a comment
        if not line.strip() or (line.startswith("#") and rest):
            close()
        if line.startswith("#"):
            title.append(line.lstrip("# "))
        elif line.strip():
            rest.append(line)
    close()
    return found


# ---- the comparison


def parts(item):
    """kind -> text, of all that is compared of a name."""
    if item.sort in ("definition", "type"):
        return {"definitions": f"{item.said} {item.done}"}
    if item.sort == "field":
        return {"statements": item.said}
    if item.sort == "function":
        return {"contracts": item.said, "code": item.done}
    if item.sort == "lemma":
        return {**({"statements": item.said} if item.public else {}), "proofs": (item.public, item.said, item.done)}
    return {{"helper": "helpers", "constant": "code", "module": "modules"}[item.sort]: f"{item.said} {item.done}"}


def same(kind, a, b):
    """Of a `pub` lemma the statement is compared by itself, and its proof is what stands below."""
    return a[2] == b[2] and (a[0] and b[0] or a[1] == b[1]) if kind == "proofs" else a == b


def compared(before, after):
    """kind -> place -> new, changed, gone or stayed."""
    told = {kind: {} for kind in KINDS}
    for place in sorted({*before.items, *after.items}):
        a, b = (parts(whole.items[place]) if place in whole.items else {} for whole in (before, after))
        for kind in {**a, **b}:
            told[kind][place] = NEW if kind not in a else GONE if kind not in b else STAYED if same(kind, a[kind], b[kind]) else CHANGED
    return told


def labelled(place):
    """The file of a name: `CRATE: File`, or `CRATE::module`."""
    if place.folder == "src":
        return "::".join([place.crate, *(place.file.split("/") if place.file not in ("lib", "main") else [])])
    apart = "proofs/" if place.folder == "proofs" and not place.file.endswith("/Proof") else ""
    return f"{place.crate}: {apart}{place.file}"


def named(place):
    if place.name.startswith("mod "):
        return f"{place.crate}: {place.folder}/{place.file} {place.name}"
    name = place.name.removeprefix(f"{place.file}.")  # a field of the record that its file is named after
    return labelled(place) + ("::" if place.folder == "src" else ".") + name


def many(count, word):
    return f"{count} {word}" + "s" * (count != 1)


def handed(was, now):
    """The two forms of a WR line that changed in its count of actions alone, with that many AC lines behind it now; or nothing."""
    if len(was) != 1 or not now or not was[0].startswith("WR "):
        return None
    (before, x), (after, y) = was[0].rsplit(" ", 1), now[0].rsplit(" ", 1)
    if before != after or [line[:3] for line in now[1:]] != ["AC "] * int(y):
        return None
    refusal = before.split(" ")[1]
    return f"`WR {refusal} .. {x}`", f"`WR {refusal} .. {y}` with {many(int(y), 'AC line')}"


def ticked(names):
    return ", ".join(f"`{name}`" for name in names)


class Page:
    """What is printed. Each thing that is told of a name is noted, so that nothing is told twice and nothing left out."""

    def __init__(self, before, after):
        self.before, self.after, self.told, self.lines = before, after, compared(before, after), []
        self.noted = {kind: Counter() for kind in KINDS}
        self.moved = {place[:3] for of in self.told.values() for place, how in of.items() if how != STAYED}
        files = [{place[:3] for place in whole.items} for whole in (before, after)]
        self.new_files, self.gone_files = files[1] - files[0], files[0] - files[1]
        # a thing that is gone, by its name and its text: where the same text stands elsewhere, it is told from where
        self.left = {}
        for kind, of in self.told.items():
            for place, how in of.items():
                if how == GONE:
                    self.left[kind, place.name, parts(before.items[place])[kind]] = place

    def say(self, *lines):
        self.lines += lines

    def note(self, kind, places):
        self.noted[kind].update(places)

    def pick(self, kind, how, when=lambda place: True):
        return [place for place, is_how in self.told[kind].items() if is_how == how and when(place)]

    def name(self, kind, place):
        """A name; with where it stood before, if the same name has the same text there and is gone."""
        now = self.after.items.get(place)
        was = self.left.get((kind, place.name, parts(now)[kind])) if now and self.told[kind][place] == NEW else None
        return f"`{named(place)}`" + (f" (before in `{labelled(was)}`)" if was else "")

    def listed(self, title, kind, places):
        """A list of names, a line for each crate."""
        if not places:
            return
        self.note(kind, places)
        self.say("", f"{title} ({len(places)}):", "")
        for crate in sorted({place.crate for place in places}):
            self.say("- " + ", ".join(self.name(kind, place) for place in places if place.crate == crate))

    def three(self, what, kind):
        for how in NEW, CHANGED, GONE:
            self.listed(f"{what}, {how}", kind, self.pick(kind, how))

    def none(self, *kinds):
        if all(how == STAYED for kind in kinds for how in self.told[kind].values()):
            self.say("", "None moved.")

    def public(self, place):
        return all(whole.items[place].public for whole in (self.before, self.after) if place in whole.items)

    # the parts of the page

    def summary(self):
        self.say("| kind | before | new | changed | gone | stayed | after |", "|---|---|---|---|---|---|---|")
        for kind, shown in KINDS.items():
            count = Counter(self.told[kind].values())
            sides = [sum(kind in parts(item) for item in whole.items.values()) for whole in (self.before, self.after)]
            if sides != [count[CHANGED] + count[GONE] + count[STAYED], count[NEW] + count[CHANGED] + count[STAYED]]:
                sys.exit(f"changes: the counts of {shown} do not add up: {sides}, {dict(count)}")
            self.say(f"| {shown} | {sides[0]} | {count[NEW]} | {count[CHANGED]} | {count[GONE]} | {count[STAYED]} | {sides[1]} |")

    def definitions(self):
        self.say("", "### 1. Definitions")
        self.none("definitions")
        self.three("Definitions", "definitions")
        moved = []
        for file in sorted(self.before.origins.keys() & self.after.origins.keys()):
            a, b = (whole.origins[file] for whole in (self.before, self.after))
            of = [f"`{name}` from `{b[name]}`, before `{a[name]}`" for name in sorted(a.keys() & b.keys()) if a[name] != b[name]]
            moved += [f"- `{labelled(Place(*file, ''))}`: " + "; ".join(of)] if of else []
        if moved:
            self.say("", f"Names that a `use` line takes from another place than before (in {many(len(moved), 'file')}):", "", *moved)

    def promises(self):
        self.say("", "### 2. Promises")
        self.none("contracts", "statements")
        self.three("Contracts", "contracts")
        for what, folder in ("Theorems, and what the other records of promises say", "specs"), ("`pub` statements of proofs", "proofs"):
            for how in NEW, CHANGED, GONE:
                self.listed(f"{what}, {how}", "statements", self.pick("statements", how, lambda place: place.folder == folder))

    def proofs(self):
        self.say("", "### 3. Proofs")
        self.none("proofs", "helpers")
        for how, which in ("new", self.new_files), ("gone", self.gone_files):
            whole = self.after if how == "new" else self.before
            for file in sorted(file for file in which if file[1] == "proofs"):
                of = [place for place in whole.items if place[:3] == file]
                lemmas, helpers = ([place for place in of if whole.items[place].sort == sort] for sort in ("lemma", "helper"))
                self.note("proofs", lemmas)
                self.note("helpers", helpers)
                if lemmas or helpers:
                    public = sum(whole.items[place].public for place in lemmas)
                    self.say("", f"A whole file is {how}, `{labelled(of[0])}`, with {many(len(lemmas), 'lemma')} ({public} `pub`)" +
                             (f" and {many(len(helpers), 'definition')}" if helpers else "") + f": {ticked(place.name for place in lemmas + helpers)}")
        stands = lambda place: place[:3] not in self.new_files | self.gone_files
        stayed = lambda place: self.before.items[place].said == self.after.items[place].said
        self.listed("The statement stayed and its proof changed, `pub`", "proofs",
                    self.pick("proofs", CHANGED, lambda place: self.public(place) and stayed(place)))
        self.listed("The statement stayed and its proof changed, not `pub`", "proofs",
                    self.pick("proofs", CHANGED, lambda place: not self.public(place) and stayed(place)))
        self.listed("The proof changed with its `pub` statement", "proofs",
                    self.pick("proofs", CHANGED, lambda place: self.public(place) and not stayed(place)))
        self.listed("Lemmas that are not `pub` with another statement", "proofs",
                    self.pick("proofs", CHANGED, lambda place: not self.public(place) and not stayed(place)))
        for how in NEW, GONE:
            self.listed(f"Lemmas that are not `pub`, {how}", "proofs", self.pick("proofs", how, lambda place: stands(place) and not self.public(place)))
            above = self.pick("proofs", how, lambda place: stands(place) and self.public(place))
            self.note("proofs", above)
            if above:
                self.say("", f"And the proofs of the other `pub` statements that are {how} ({len(above)}, by name in part 2).")
        for how in NEW, CHANGED, GONE:
            self.listed(f"Definitions inside proofs, {how}", "helpers", self.pick("helpers", how, stands))

    def code(self):
        self.say("", "### 4. Code")
        self.none("code", "modules")
        kept = lambda place: self.told["contracts"].get(place, STAYED) == STAYED
        self.listed("Bodies that changed under the same contract, and constants", "code", self.pick("code", CHANGED, kept))
        self.listed("Bodies that changed with their contract", "code", self.pick("code", CHANGED, lambda place: not kept(place)))
        for how in NEW, GONE:
            self.listed(f"Functions and constants, {how}", "code", self.pick("code", how))
        self.three("`mod` lines", "modules")

    def wrong_versions(self):
        self.say("", "### 5. Wrong versions")
        rows, lists, stayed = [], [], {}
        for file in sorted(self.before.edits.keys() | self.after.edits.keys()):
            a, b = (whole.edits.get(file, {}) for whole in (self.before, self.after))
            counts = [len(a), len(b), *(sum(facts for facts, _ in of.values()) for of in (a, b))]
            if a == b:
                stayed.setdefault(file[0], []).append(f"{file[1]} {counts[1]}" + (f" ({counts[3]} facts)" if counts[3] != counts[1] else ""))
                continue
            rows.append(f"| `{file[0]}: must-fail/{file[1]}` | " + " | ".join(map(str, counts)) + f" | {len(a.items() & b.items())} |")
            both = a.keys() & b.keys()
            for how, titles in (NEW, b.keys() - both), (CHANGED, {title for title in both if a[title] != b[title]}), (GONE, a.keys() - both):
                of = b if how == NEW else a
                lists += [f"- `{file[0]}: must-fail/{file[1]}`, {how}: {title}" for title in of if title in titles]
        if rows:
            self.say("", "| file | edits before | edits after | facts before | facts after | edits that stayed |", "|---|---|---|---|---|---|", *rows, "", *lists)
        else:
            self.say("", "None moved.")
        self.say("", "Stayed, with the count of edits, and of facts where that is another:", "")
        self.say(*(f"- {crate} must-fail: {', '.join(of)}" for crate, of in stayed.items()))

    def recorded(self):
        """The lines of the recorded traces. Where a line changed in its refusal alone, or a write hands over other actions, as most do, files and lines
        stand by the two numbers."""
        self.say("", "### 6. Recorded lines")
        a, b = self.before.lines_of, self.after.lines_of
        for how, names in (NEW, b.keys() - a.keys()), (GONE, a.keys() - b.keys()):
            if names:
                self.say("", f"Traces, {how} ({len(names)}): {ticked(sorted(names))}")
        told, others, files = {}, [], 0
        for name in sorted(a.keys() & b.keys()):
            files += a[name] != b[name]
            for tag, i, j, k, l in difflib.SequenceMatcher(None, a[name], b[name], False).get_opcodes() if a[name] != b[name] else ():
                actions = handed(a[name][i:j], b[name][k:l])
                if actions:
                    told.setdefault(actions, {}).setdefault(name, []).append(str(k + 1))
                    continue
                for number, (was, now) in enumerate(zip(a[name][i:j], b[name][k:l]), k + 1) if tag == "replace" and j - i == l - k else ():
                    x, y = was.split(" "), now.split(" ")
                    if x[:1] + x[2:] == y[:1] + y[2:]:
                        told.setdefault((f"`{x[0]} {x[1]} ..`", f"`{y[0]} {y[1]} ..`"), {}).setdefault(name, []).append(str(number))
                    else:
                        others.append(f"- `{name}`, line {number}: `{was}` is `{now}`")
                if tag != "equal" and not (tag == "replace" and j - i == l - k):
                    others.append(f"- `{name}`, from line {k + 1} on: {ticked(a[name][i:j]) or 'nothing'} is {ticked(b[name][k:l]) or 'nothing'}")
        count = sum(len(numbers) for of in told.values() for numbers in of.values()) + len(others)
        self.say("", f"Of the {len(a.keys() & b.keys())} others {files} changed, in {many(count, 'line')}." + (" File, and the numbers of its lines:" if count else ""), "")
        for (was, now), of in sorted(told.items()):
            lines = sum(map(len, of.values()))
            self.say(f"- {was} is {now}, in {many(lines, 'line')}: " + "; ".join(f"{name} {', '.join(numbers)}" for name, numbers in of.items()))
        self.say(*others)

    def stayed(self):
        self.say("", "### 7. Stayed", "", "| crate | " + " | ".join(KINDS.values()) + " |", "|---" * (len(KINDS) + 1) + "|")
        every = sorted({*self.before.items, *self.after.items})
        count = {kind: Counter(place.crate for place in self.pick(kind, STAYED)) for kind in KINDS}
        for crate in sorted({place.crate for place in every}):
            self.say(f"| {crate} | " + " | ".join(str(count[kind][crate]) for kind in KINDS) + " |")
        self.say("| all | " + " | ".join(str(sum(count[kind].values())) for kind in KINDS) + " |")
        touched = {file[0] for file in self.moved}
        untouched = ", ".join(sorted({place.crate for place in every} - touched))
        self.say("", f"Crates in which nothing moved: {untouched or 'none'}.")
        self.say("", "Files of the others in which nothing moved, each with the count of its names:", "")
        whole, broken = {}, {}
        for place in every:
            (broken if place[:3] in self.moved else whole).setdefault(place[:2], {}).setdefault(place.file, []).append(place)
        for (crate, folder), of in whole.items():
            if crate in touched:
                self.say(f"- {crate} {folder}: " + ", ".join(f"{file.removesuffix('/Proof')} {len(places)}" for file, places in of.items()))
            for place in (place for places in of.values() for place in places):
                for kind in parts(self.after.items[place]):
                    self.note(kind, [place])
        self.say("", "The names that stayed in the other files:", "")
        for (crate, folder), of in broken.items():
            for file, places in of.items():
                self.remaining(f"- {crate} {folder}/{file}", places)

    def remaining(self, head, places):
        """Of a file in which something moved: the names that stayed wholly, and those of which a part stayed."""
        groups = {}
        for place in places:
            has = [kind for kind in KINDS if place in self.told[kind]]
            kept = [kind for kind in has if self.told[kind][place] == STAYED]
            if kept:
                groups.setdefault("" if kept == has else " and ".join(KINDS[kind] for kind in kept), []).append(place)
            for kind in kept:
                self.note(kind, [place])
        alone = {"contracts": "the contract alone", "code": "the body alone", "theorems and statements": "the statement alone", "proofs": "the proof alone"}
        texts = [(f"{alone[what]}: " if what else "") + ticked(place.name for place in of) for what, of in sorted(groups.items())]
        if texts or places[0][:3] not in self.new_files | self.gone_files:
            self.say(f"{head}: " + ("; ".join(texts) or "none"))

    def checked(self):
        """Each name of either commit was told once of each kind that it has."""
        for kind, of in self.told.items():
            wrong = [place for place in of if self.noted[kind][place] != 1] + [place for place in self.noted[kind] if place not in of]
            if wrong:
                sys.exit(f"changes: {KINDS[kind]} not told exactly once: " + ", ".join(f"{named(place)} ({self.noted[kind][place]})" for place in wrong[:20]))
        self.say("", f"Checked: {sum(map(len, self.told.values()))} entries of {len({*self.before.items, *self.after.items})} names, each told once.")


def titled(commit):
    return "the files as they are" if commit == "now" else git("log", "-1", "--format=%h (%s)", commit).decode().strip()


def refuse_unread(commit, whole):
    for line in whole.unread:
        print(f"changes: {commit}: belongs to nothing: {line}", file=sys.stderr)
    if whole.unread:
        sys.exit(1)


def check(commit):
    whole = Reading(commit)
    lines = whole.lines
    sorts = Counter(item.sort for item in whole.items.values())
    print(f"changes: {lines['files']} files with {lines['all']} lines: {lines['blank or comment']} blank or comment, {lines['use lines']} of `use`, "
          f"{lines['items']} of {len(whole.items)} names, {len(whole.unread)} of nothing")
    print("changes: " + ", ".join(f"{count} {sort}" for sort, count in sorted(sorts.items())))
    print(f"changes: {len(whole.edits)} edit files with {sum(map(len, whole.edits.values()))} edits")
    twice = [named(place) for place in whole.items if re.search("#[0-9]+$", place.name)]
    if twice:
        print(f"changes: of one name in one file, so numbered: {', '.join(twice)}")
    if lines["blank or comment"] + lines["use lines"] + lines["items"] + len(whole.unread) != lines["all"]:
        sys.exit("changes: the lines do not add up")
    refuse_unread(commit, whole)


given = sys.argv[1:]
if given[:1] == ["--check"] and len(given) <= 2:
    check(given[1] if given[1:] else "HEAD")
    sys.exit()
if len(given) not in (1, 2) or given[0].startswith("-"):
    sys.exit("usage: tools/changes.sh BEFORE [AFTER | now], tools/changes.sh --check [COMMIT | now]")
commits = given[0], (given[1:] or ["HEAD"])[0]
sides = [Reading(commit) for commit in commits]
for commit, whole in zip(commits, sides):
    refuse_unread(commit, whole)
page = Page(*sides)
page.say(f"From {titled(commits[0])} to {titled(commits[1])}.", "")
for part in page.summary, page.definitions, page.promises, page.proofs, page.code, page.wrong_versions, page.recorded, page.stayed, page.checked:
    part()
print("\n".join(page.lines))
PY
