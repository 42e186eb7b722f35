#!/bin/sh
# How much stack the calls need, and that the read of a command copies nothing: tools/stack.sh [FOLDER]
# FOLDER is looked at in the place of target/archive, such as that of another clone; then docs/HOSTS.md is not held against it. What is printed:
#   At most      from the compiled code: the module that an archive was made from is compiled once more by the same words, and tells the frame of each
#                function; its instructions and calls must be those of the archive. With what each function calls this bounds every call from above. No
#                call for hosts may need more than 1,024 bytes with its arguments, and docs/HOSTS.md must have the same numbers.
#   Seen         host/c/stack.c, on a painted stack: every call, every kind of command, both profiles, on this machine and on the bare Arm machine,
#                emulated. Nothing may be seen beyond the bound, and no copy of a command on the stack after it was run.
#   By value     the bound of each entry of `its`, as a function of its own.
#   The read     of a command, in both texts, as a function of its own: it may have no object on the stack. Of its_write, into which it is merged, the
#                objects may be the configuration, the registers, and less than a command.
# The read of this version takes the words of a command from one function to the next by value, and so has them on the stack: `copies` says so, and the
# last two checks are made only where it is empty.
set -eu
cd "$(dirname "$0")/.."
copies=-DITS_READ_COPIES
machine=$(uname -m)
work=$(mktemp -d)
trap 'rm -rf "$work"' EXIT
made=${1:-}
if [ -z "$made" ]; then
    made=$PWD/target/archive
    for words in trace "--target x86_64 host" "--target aarch64 host" "--target aarch64-none host"; do
        # shellcheck disable=SC2086
        tools/archive.sh $words >"$work/log" 2>&1 || { cat "$work/log"; exit 1; }
    done
fi

# look MODULE TARGET: its frames, in MODULE-TARGET.su and .o.log
look() { tools/archive.sh --compile "$2" "$1" "$work/$(basename "${1%.*}")-$2.o" -fstack-usage -Rpass-analysis=stack-frame-layout; }
for module in host trace; do
    tools/archive.sh --compile "$machine" "$made/$module.bc" "$work/$module.ll" -S -emit-llvm -Xclang -disable-llvm-passes -Wno-unused-command-line-argument
done
look "$made/trace.bc" "$machine"
for target in x86_64 aarch64 aarch64-none; do look "$made/host.bc" "$target"; done
# The same modules, in which the entries by value and the reads are no longer local to the module and so are not merged into their callers.
for module in host trace; do
    sed -E 's/^define internal (.*@"(its::(no_unit|configure|read_its|translate|write_its|write_lent)|decoding::GuestWindow::command|window::read_command)"\(.*\)) #0 \{$/define \1 noinline #0 {/' \
        "$work/$module.ll" >"$work/$module-apart.ll"
    cp "$made/$module.bc.words" "$work/$module-apart.bc.words"
    for target in "$machine" aarch64-none; do look "$work/$module-apart.ll" "$target"; done
done

gcc -std=c11 -Wall -Wextra -Wpedantic -Werror -O2 -Wl,-z,now -Iinclude -DITS_TRACE $copies host/c/stack.c host/c/on_stack.S host/c/linux.c \
    "$made/$machine/libhost.a" "$made/$machine/libtrace.a" -o "$work/stack"
"$work/stack" >"$work/$machine.seen" || { cat "$work/$machine.seen"; exit 1; }
tools/bare.sh $copies "$made/aarch64-none/libhost.a" host/c/stack.c host/c/on_stack.S >"$work/aarch64-none.seen" || {
    [ $? -eq 3 ] || { cat "$work/aarch64-none.seen"; exit 1; }
    rm "$work/aarch64-none.seen"
}

PYTHONPATH=tools python3 -B - "$machine" "$made" "$work" "${1:+other}" "$copies" <<'PY'
import os, re, sys

from elf import functions

machine, made, work, another, copies = sys.argv[1:]
names = {"x86_64": "x86-64", "aarch64": "Linux on Arm", "aarch64-none": "bare Arm"}
LIMIT = 1024
# The calls for hosts, and the parameters of each as C has them; those beyond the first six go by the stack on x86-64, beyond the first eight on Arm.
parameters = {"its_configure": 6, "its_read": 4, "its_translate": 4, "its_write": 10}
arguments = lambda call, target: 8 * max(0, parameters[call] - (6 if target == "x86_64" else 8))
wrong = []


class Code:
    """The functions of an object, with frames, objects on the stack, and calls."""

    def __init__(self, file, target):
        # What a call itself puts on the stack: x86-64 the address to return to; on Arm it is in a register, which the frame saves.
        self.pushed = 8 if target == "x86_64" else 0
        self.functions = functions(f"{work}/{file}.o")
        self.frame, self.objects = {}, {}
        for line in open(f"{work}/{file}.su"):
            function, size, kind = line.split(":", 1)[1].rstrip("\n").split("\t")
            self.frame[function], self.objects[function] = int(size), []
            if kind != "static":
                wrong.append(f"the frame of {function} has no fixed size")
        function = None
        for line in open(f"{work}/{file}.o.log"):
            if found := re.match(r"Function: (\S+)", line):
                function = found[1]
            elif found := re.match(r"Offset: \[SP-(\d+)\], Type: (\w+), Align: \d+, Size: (\d+)", line):
                # A function that calls none may use 128 bytes below the stack pointer on x86-64, which an interrupt on the same stack would overwrite.
                if target != "x86_64" and int(found[1]) > self.frame[function]:
                    wrong.append(f"{function} for {names[target]} uses the stack below its frame")
                self.frame[function] = max(self.frame[function], int(found[1]))
                if found[2] == "Variable":
                    self.objects[function].append(int(found[3]))
        if set(self.frame) != set(self.functions):
            wrong.append(f"{file}: the frames are not those of its functions")

    def way(self, function):
        """The most stack that a call of the function takes, and the functions on that way; what the host brings itself counts as its call alone."""
        if function not in self.functions:
            return self.pushed, []
        most, path = max((self.way(callee) for callee in sorted(self.functions[function][1])), default=(0, []))
        return self.pushed + self.frame[function] + most, [function] + path

    def reached(self, function):
        calls = self.functions[function][1]
        return {function}.union(*(self.reached(callee) if callee in self.functions else {callee} for callee in calls))


def plain(module):
    """Calls of a module name a function, and no function calls itself, directly or by others."""
    calls, function = {}, None
    for line in open(f"{work}/{module}.ll"):
        if line.startswith("define "):
            function = re.search(r'@"?([^"(]+)"?\(', line)[1]
            calls[function] = set()
        elif re.search(r"\b(call|invoke|callbr)\b", line) and function:
            called = re.search(r'\bcall [^@%"]*@"?([^"(]+)"?\(', line)
            if called is None:
                wrong.append(f"{module}: a call by a pointer in {function}")
            else:
                calls[function].add(called[1])
    ended = set()
    while left := [f for f in calls if f not in ended and all(c in ended or c not in calls for c in calls[f])]:
        ended.update(left)
    if len(ended) < len(calls):
        wrong.append(f"{module}: a function calls itself")


for module in ["host", "trace"]:
    plain(module)
codes = {}
for module, target in [("host", target) for target in names] + [("trace", machine)]:
    code = codes[module, target] = Code(f"{module}-{target}", target)
    if functions(f"{made}/{target}/lib{module}.a") != code.functions:
        wrong.append(f"the instructions of lib{module}.a for {names[target]} are not those that were looked at")
    if {function for function in code.functions if "::" not in function} != (set(parameters) if module == "host" else {"its_trace"}):
        wrong.append(f"lib{module}.a for {names[target]} has other calls than are looked at")
    for call in set(parameters) & set(code.functions):
        if outside := code.reached(call) - set(code.functions) - ({"memcpy", "memset"} if call == "its_configure" else set()):
            wrong.append(f"{call} for {names[target]} calls {outside}")
targets = [machine, "aarch64-none"]
apart = {(module, target): Code(f"{module}-apart-{target}", target) for module in ["host", "trace"] for target in targets}

print("At most, from the compiled code, in bytes beyond the arguments; what the host's own memcpy and memset use is not in it:")
print()
print(f"| call | {' | '.join(names.values())} | the deepest way |")
print("|---|---|---|---|---|")
bounds = {}
for module, call in [("host", call) for call in parameters] + [("trace", "its_trace")]:
    ways = {target: codes[module, target].way(call) for target in names if (module, target) in codes}
    bounds[call] = {target: most for target, (most, _) in ways.items()}
    path = " or ".join(sorted({", ".join(path) for _, path in ways.values()}))
    print(f"| {call} | {' | '.join(str(bounds[call].get(target, '')) for target in names)} | {path} |")
most = {target: max(bounds[call][target] + arguments(call, target) for call in parameters) for target in names}
print(f"| with its arguments, of the calls for hosts | {' | '.join(str(n) for n in most.values())} | |")
for target in names:
    if most[target] > LIMIT:
        wrong.append(f"a call for hosts needs more than {LIMIT} bytes on {names[target]}: {most[target]}")
if bounds["its_trace"][machine] <= LIMIT:
    wrong.append("its_trace, which has a unit and a row by value, is said to need little: the frames are not seen")
if not another:
    told = open("docs/HOSTS.md").read()
    for call in parameters:
        found = re.search(rf"\| `{call}` \| (\d+)[^|]*\| (\d+)[^|]*\| (\d+), (\d+) \|", told)
        arm, x86, *stacked = map(int, found.groups()) if found else (0, 0)
        if bounds[call]["x86_64"] != x86 or max(bounds[call]["aarch64"], bounds[call]["aarch64-none"]) != arm or stacked != [arguments(call, target) for target in ["aarch64", "x86_64"]]:
            wrong.append(f"docs/HOSTS.md has other numbers of {call}")
    if f"leaves {most['aarch64-none']} bytes" not in told or f"on x86-64 {most['x86_64']}" not in told:
        wrong.append("docs/HOSTS.md has another number for a trap handler")

print()
print("Seen on a painted stack, in base and in strict; rows with the same numbers are one:")
print()
seen = {t: [line.rstrip("\n").rsplit(" | ", 2) for line in open(f"{work}/{t}.seen")] for t in targets if os.path.exists(f"{work}/{t}.seen")}
rows = {}
for target, lines in seen.items():
    for what, base, strict in lines:
        rows.setdefault(what, {})[target] = (int(base), int(strict))
        call = what.split(",")[0]
        if call in bounds and max(int(base), int(strict)) > bounds[call][target]:
            wrong.append(f"{what}: {base} and {strict} bytes were seen on {names[target]}")
natively = {what for what, *_ in seen[machine]}
if missing := set(bounds) - {what.split(",")[0] for what in natively}:
    wrong.append(f"not seen: {missing}")
if "aarch64-none" in seen and {what for what, *_ in seen["aarch64-none"]} != {what for what in natively if not what.startswith("its_trace")}:
    wrong.append("what was seen on the bare Arm machine is not what was seen here")
joined = {}
for what, numbers in rows.items():
    call, _, rest = what.partition(", ")
    key = call, tuple(n for t in targets for n in numbers.get(t, ("", "")))
    joined.setdefault(key, []).append(rest)
print(f"| call | rows | {names[machine]}, base | strict | bare Arm, base | strict |")
print("|---|---|---|---|---|---|")
for (call, numbers), rests in joined.items():
    print(f"| {call}: {'; '.join(rests)} | {len(rests)} | " + " | ".join(map(str, numbers)) + " |")

print()
print("By value, each entry as a function of its own, at most:")
print()
print(f"| entry | {names[machine]} | bare Arm | objects of 1,000 bytes or more in its own frame, {names[machine]} |")
print("|---|---|---|---|")
for entry in ["no_unit", "configure", "read_its", "translate", "write_its", "write_lent"]:
    entry = f"its::{entry}"
    bytes_ = " | ".join(str(apart["trace", target].way(entry)[0]) for target in targets)
    largest = sorted((size for size in apart["trace", machine].objects[entry] if size >= 1000), reverse=True)
    print(f"| {entry} | {bytes_} | {', '.join(map(str, largest))} |")

print()
print("The read of a command, as a function of its own, and merged into its_write:")
print()
print("| where | machine | bytes of stack | objects on the stack |")
print("|---|---|---|---|")
for module, read in [("host", "decoding::GuestWindow::command"), ("trace", "window::read_command")]:
    for target in targets:
        code = apart[module, target]
        reached = code.reached(read)
        objects = [size for function in reached & set(code.objects) for size in code.objects[function]]
        if objects and not copies or reached - set(code.functions):
            wrong.append(f"{read} for {names[target]} has objects of {objects} bytes on the stack, or calls {reached - set(code.functions)}")
        print(f"| {read} | {names[target]} | {code.way(read)[0]} | {', '.join(map(str, objects)) or 'none'} |")
for target in names:
    code = codes["host", target]
    # `registers` is given configuration and registers, never the window: its objects are two rows of 16 processors, of 32 bytes each.
    after = [function for function in code.reached("its_write") if not function.startswith("registers::")]
    objects = sorted(size for function in after for size in code.objects.get(function, []))
    # Configuration and registers have more than 40 bytes each; four words, with the byte that says whether they were read, have 33 to 40, whole or in pieces.
    if not copies and (sum(size > 40 for size in objects) != 2 or sum(size for size in objects if size <= 40) >= 32):
        wrong.append(f"the objects of its_write for {names[target]} are not configuration, registers and less than a command: {objects}")
    if left := [function for function in code.functions if not copies and function.startswith(("decoding::", "words::"))]:
        wrong.append(f"the read is not merged into its_write for {names[target]}: {left}")
    print(f"| its_write | {names[target]} | {code.frame['its_write']} | {', '.join(map(str, objects))} |")
print()
for reason in wrong:
    print(f"stack: {reason}")
if "aarch64-none" not in seen:
    print("stack: nothing was seen on a bare Arm machine, since its emulator is not at hand and could not be installed")
print(f"stack: {'wrong' if wrong else f'no call for hosts needs more than {LIMIT} bytes' + ('' if copies else ', and a command is read without a copy')}")
sys.exit(bool(wrong))
PY
