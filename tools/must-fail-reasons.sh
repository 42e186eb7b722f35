#!/bin/sh
# What refuses each must-fail edit: tools/must-fail-reasons.sh [--anew] [--write] [CRATE ..]
#
# `rt ci` and `rt must-fail` say that an edit is refused, and show one error of it. An edit shows something only if a fact fails. So each wrong text in
# it names the fact that it breaks, and this script checks a copy of the crate with the edit once more, reads all that is said, and fails
#   - where nothing is said against that fact: no goal of that name is left open, and no error stands at it. That a proof file no longer fits the code
#     ("has no `..` that can be named") is nothing against a fact;
#   - where a definition itself does not check: then whatever is said about it falls with it;
#   - where an edit cannot be applied or compiled.
# Where a function calls another that fell too, rattle does not look for its proof. So the wrong texts of those facts that nothing was said against are
# tried once more, without the others.
# A line `# fails: FACT` names it. An edit that holds a wrong text for each of several functions has a line `# fails: FUNCTION FACT` for each
# (`MODULE/FUNCTION` of a module's), and the error must stand in that function's own proof. An edit that holds several wrong definitions has a line
# `# fails: FILE.antt FACT` for each (`proofs/Ring.antt offset_next`): the error must stand in that file, and be the fact's own, not that a fact under it
# fell. For each edit the script prints the first error, and the error at each named fact where that is another one.
#
# The libraries below a crate are those that `rt ci` left, or are built first. What a check of the crate as it stands proved is where each edit begins;
# as many edits are tried side by side as there are processors, and memory for them. What was said of an edit is kept on this machine, by the checksums of
# all that was read (as `rt ci` keeps what it passed), and with the same files the edit is not tried again; --anew tries all. With --write a fact that
# nothing was said against, where a goal of the same kind fell in the same function, is named anew in the edit, and the script says which: goals
# have their names of the code around them.
set -u
cd "$(dirname "$0")/.." || exit 2
rt=$(command -v rt) || { echo "must-fail-reasons: rt, the command of the Rattle kit, is not on the PATH" >&2; exit 2; }
exec python3 -B - "${RATTLE_HOME:-$(dirname "$(dirname "$(readlink -f "$rt")")")}" "$@" <<'PY'
import contextlib, functools, glob, hashlib, os, re, shutil, subprocess, sys, tempfile, threading
from concurrent.futures import ThreadPoolExecutor

kit, names = sys.argv[1], sys.argv[2:]
anew = names[:1] == ["--anew"]
names = names[anew:]
kept_in = os.path.join(os.environ.get("XDG_CACHE_HOME") or os.path.expanduser("~/.cache"), "must-fail-reasons")
writes = names[:1] == ["--write"]
names = names[writes:]
root = os.getcwd()
listed = {name: (bool(static), deps.split()) for name, static, deps in re.findall(r"^([a-z_0-9]+)( +staticlib)? *:(.*)", re.sub("#.*", "", open("crates.txt").read()), re.M)}
room = tempfile.mkdtemp(prefix="must-fail-reasons-")
PARTS = "src", "specs", "proofs"
bad, facts = 0, 0


def below(crate):
    found = []
    for dep in [dep for dep in listed[crate][1] if dep in listed]:
        found += [it for it in [*below(dep), dep] if it not in found]
    return found


def words(crate):
    """The words that rt gives to rattle (Crate.words in its rtlib.py)."""
    static, deps = listed[crate]
    given = ["--crate-name", crate, "src/main.rt" if os.path.exists(f"crates/{crate}/src/main.rt") else "src/lib.rt"]
    given += ["--extern", f"std={kit}/rlibs/std.rlib", "-L", f"dependency={kit}/rlibs"]
    for dep in deps:
        given += ["--extern", f"{dep}={root}/crates/{dep}/out/rlib/{dep}.rlib" if dep in listed else f"{dep}={kit}/rlibs/{dep}.rlib"]
    for dep in below(crate):
        given += ["-L", f"dependency={root}/crates/{dep}/out/rlib"]
    given += ["--antt-project", f"{kit}/rattle/logic/antt-project.json", "--logic-built", f"{kit}/logic_built", "--links", f"{crate}="]
    return given + (["--crate-type", "staticlib"] if static else [])


def is_there(crate):
    """The library as it was built of the files as they stand."""
    rlib = f"crates/{crate}/out/rlib/{crate}.rlib"
    if not os.path.exists(f"{rlib}/format"):
        return False
    files = [f"{at}/{name}" for part in PARTS for at, _, found in os.walk(f"crates/{crate}/{part}") for name in found]
    return all(os.path.getmtime(it) <= os.path.getmtime(rlib) for it in files)


def run(crate, folder, kept, jobs=1):
    ran = subprocess.run([f"{kit}/bin/rattle", "check", *words(crate), "--jobs", str(jobs), "--incremental", kept],
                         cwd=folder, stdin=subprocess.DEVNULL, stdout=subprocess.PIPE, stderr=subprocess.STDOUT, errors="replace")
    return ran.returncode, ran.stdout


def linked(folder, to):
    """What a check kept, for another one: a check replaces such a file and does not change it."""
    shutil.copytree(folder, to, symlinks=True, copy_function=lambda one, other: os.link(one, other) if one.endswith(".oantt") else shutil.copy2(one, other))


FAILS = re.compile("(?:# )?fails: (.*)")


def applied(crate, edit, to, only):
    """Copies the crate with the edit, or with those wrong texts in it that are for some facts only; why not, where it cannot be applied."""
    for part in PARTS:
        if os.path.isdir(f"crates/{crate}/{part}"):
            shutil.copytree(f"crates/{crate}/{part}", f"{to}/{part}")
    path = old = fact = None
    for line in open(edit, encoding="utf-8").read().split("\n"):
        if found := FAILS.fullmatch(line):
            fact = found[1]
        elif line.startswith("file: "):
            path = f"{to}/{line[6:].strip()}"
        elif line.startswith("old: "):
            old = line[5:]
        elif line.startswith("new:") and (only is None or fact in only):
            text = open(path, encoding="utf-8").read()
            if text.count(old) != 1:
                return f"it cannot be applied: `{old}` stands {text.count(old)} times"
            open(path, "w", encoding="utf-8").write(text.replace(old, line[4:].removeprefix(" ")))
    return None


@functools.lru_cache(maxsize=None)
def sum_of(crate):
    """A sum of all that a check of the crate reads."""
    binary = os.stat(f"{kit}/bin/rattle")
    sum = hashlib.sha256(repr((open(f"{kit}/KIT-ID").read(), binary.st_size, binary.st_mtime_ns, words(crate)[1:2], listed[crate])).encode())
    for part in PARTS:
        for path in sorted(f"{at}/{name}" for at, _, found in os.walk(f"crates/{crate}/{part}") for name in found):
            sum.update(repr((path, open(path, "rb").read())).encode())
    for dep in listed[crate][1]:
        sum.update(sum_of(dep).encode() if dep in listed else b"")
    return sum.hexdigest()


def log_of(crate, edit, only=None):
    """Where it is kept what was said of the edit."""
    told = (sum_of(crate), open(edit, "rb").read(), only)
    return f"{kept_in}/{hashlib.sha256(repr(told).encode()).hexdigest()}.log"


def tried(crate, edit, only=None):
    """All that is said of the crate with the edit, or why it was not tried."""
    log = log_of(crate, edit, only)
    if os.path.exists(log) and not anew:
        return None, open(log, encoding="utf-8").read()
    folder = f"{room}/{crate}.{os.path.basename(edit)[: -len('.edit')]}" + (".again" if only else "")
    why = applied(crate, edit, folder, only)
    if why:
        return why, ""
    kept = seed_of(crate)
    if kept is None:
        return "the crate is not proved as it stands", ""
    linked(kept, f"{folder}/kept")
    status, text = run(crate, folder, "kept")
    shutil.rmtree(folder, ignore_errors=True)
    if status == 1:
        with contextlib.suppress(OSError):
            os.makedirs(kept_in, exist_ok=True)
            with tempfile.NamedTemporaryFile("w", dir=kept_in, delete=False, encoding="utf-8") as it:
                it.write(text)
            os.replace(it.name, log)
    return (None if status == 1 else f"its check ended with status {status}"), text


seeds, turn = {}, threading.Lock()


def seed_of(crate):
    with turn:
        if crate not in seeds:
            seeds[crate] = first.submit(seed, crate)
    return seeds[crate].result()


building = threading.Lock()


def seed(crate):
    """What a check of the crate as it stands proved."""
    with building:
        for dep in below(crate):
            if not is_there(dep) and subprocess.run(["rt", "lib"], cwd=f"crates/{dep}", stdout=subprocess.DEVNULL).returncode:
                print(f"    {dep} cannot be built", flush=True)
                return None
    kept = f"{room}/{crate}.seed"
    start = f"crates/{crate}/out/incremental"
    if os.path.isdir(start):
        linked(start, kept)
    else:
        os.mkdir(kept)
    status, text = run(crate, f"crates/{crate}", kept, jobs=2)
    if status:
        print("\n".join(f"    {line[:240]}" for line in text.splitlines() if "error" in line or "not proved" in line), flush=True)
    return None if status else kept


MISFIT = re.compile(r"that can be named from here|is not in scope|has no field|was not admitted")


def read(crate, text):
    """Of what was said: the errors as (file, name, line), and of each function the goals that are left open, with the line that says so."""
    errors, goals, pending = [], {}, []
    for line in text.splitlines():
        line = re.sub("^so far: ", "", line)
        at = re.match(r"(?:note: )?(?:\./)?(\S+?):\d+:\d+: error: (?:`([^`]*)`: )?(.*)", line)
        if at and (at[1], at[2]) not in [it[:2] for it in errors if not MISFIT.search(it[2])]:
            errors.append((at[1], at[2], line))
        elif re.match(r"note: \S+:\d+:\d+: it is not proved that ", line):
            pending += [(name, line) for name in re.findall(r"\(`([^`]+)`\)", line)[-1:]]
        elif found := re.match(rf"fn {crate}::(\S+): (.*)", line):
            if "search` did not prove " in found[2]:
                pending += [(name, line) for name in re.findall("`([^`]+)`", found[2].split("search` did not prove ")[1].split(";")[0])]
            goals.setdefault(found[1].replace("::", "/"), {}).update({name: said for name, said in reversed(pending)})
            pending = []
    return errors, goals


def named(errors, goals, where, fact):
    """The line that is against the fact: in that function's proof, or in that file, where one is named."""
    if where.endswith(".antt"):
        return next((line for file, name, line in errors if file == where and name == fact and "was not admitted" not in line), None)
    for function in [where] if where else goals:
        if fact in goals.get(function, {}):
            return goals[function][fact]
    for file, name, line in errors:
        if name == fact and not MISFIT.search(line) and (not where or os.path.dirname(file) == f"proofs/{where}"):
            return line
    return None


def facts_of(edit):
    return [(line.split() if " " in line else ["", line]) for line in FAILS.findall(open(edit, encoding="utf-8").read())]


def said(crate, edit):
    """Of each fact what is against it; all that is left open or stands as an error; and what is wrong."""
    why, text = tried(crate, edit)
    errors, goals = read(crate, text)
    found = {" ".join(it).strip(): named(errors, goals, *it) for it in facts_of(edit)} if not why else {}
    first = next((re.sub("^so far: ", "", line) for line in text.splitlines() if " error" in line or "it is not proved" in line), None)
    left = [fact for fact, line in found.items() if line is None]
    if left and len(left) < len(found):
        why, text = tried(crate, edit, left)
        if not why:
            more, others = read(crate, text)
            errors, goals = errors + more, {name: {**goals.get(name, {}), **others.get(name, {})} for name in {**goals, **others}}
            found |= {" ".join(it).strip(): named(errors, goals, *it) for it in facts_of(edit) if " ".join(it).strip() in left}
    return why, first, found, errors, goals


KINDS = {"returns": "returns", "loop-again": "loop-.*-preserved", "loop-holds": "loop-"}


def judge(crate, edit, result):
    global bad, facts
    why, first, found, errors, goals = result
    label = f"{crate}/{os.path.basename(edit)[: -len('.edit')]}"
    print(label)
    wrong = [why] if why else []
    wrong += [] if facts_of(edit) else ["no line '# fails: ..'"]
    wrong += [f"a definition does not check: {line}" for file, _, line in errors if file.startswith("specs/")][:1]
    shown = [first] if first else []
    for where, fact in facts_of(edit) if not why else []:
        facts += 1
        whole = f"{where} {fact}".strip()
        line = found[whole]
        if line is None:
            inside = [name for file, name, line in errors if name and not MISFIT.search(line) and (file == where or os.path.dirname(file) == f"proofs/{where}")]
            open_ = list(dict.fromkeys([*goals.get(where, {}), *inside]))
            kind = KINDS.get(re.sub("-[0-9]+$", "", fact), ".*" if len(open_) == 1 else "(?!)")
            taken = [it[1] for it in facts_of(edit) if it[0] == where]
            like = [name for name in open_ if re.match(kind, name) and name not in taken] or [name for name in open_ if re.match(kind, name)]
            if writes and like and where and not where.endswith(".antt"):
                print(f"must-fail-reasons: {label}: {whole} is now {like[0]}" + (f", of {', '.join(like)}" if like[1:] else ""))
                text = open(edit, encoding="utf-8").read()
                open(edit, "w", encoding="utf-8").write(re.sub(f"(?m)^(# )?fails: {re.escape(whole)}$", f"# fails: {where} {like[0]}", text, count=1))
            else:
                wrong.append(f"nothing is said against {whole}{' (but against ' + ', '.join(open_) + ')' if open_ else ''}")
        elif line not in shown:
            shown.append(line)
    if writes:
        text = open(edit, encoding="utf-8").read()
        open(edit, "w", encoding="utf-8").write(re.sub("(?m)^fails: ", "# fails: ", text))
    for line in shown:
        print("    " + line[:240])
    for line in wrong:
        print(f"must-fail-reasons: {label}: {line[:400]}")
    sys.stdout.flush()
    bad += len(wrong)


edits = [(crate, edit) for crate in listed if not names or crate in names for edit in sorted(glob.glob(f"crates/{crate}/must-fail/*.edit"))]
crates = list(dict.fromkeys(crate for crate, _ in edits))
try:
    free = int(re.search(r"MemAvailable: *(\d+)", open("/proc/meminfo").read())[1]) * 1024
    lanes = max(1, min(len(os.sched_getaffinity(0)), free // 3_500_000_000))
    # Seeds have lanes of their own, since an edit that waits for its seed holds one.
    with ThreadPoolExecutor(max(1, lanes // 2)) as first, ThreadPoolExecutor(lanes) as then:
        for crate in crates:
            if anew or not all(os.path.exists(log_of(*it)) for it in edits if it[0] == crate):
                with turn:
                    seeds[crate] = first.submit(seed, crate)
        results = [(crate, edit, then.submit(said, crate, edit)) for crate, edit in edits]
        left = {crate: sum(it[0] == crate for it in edits) for crate in crates}
        for crate, edit, result in results:
            judge(crate, edit, result.result())
            left[crate] -= 1
            if not left[crate]:
                shutil.rmtree(f"{room}/{crate}.seed", ignore_errors=True)
finally:
    shutil.rmtree(room, ignore_errors=True)
if bad:
    sys.exit(f"must-fail-reasons: {bad} complaints")
print(f"must-fail-reasons: {len(edits)} edits, {facts} facts, each of which fails as its edit says")
PY
