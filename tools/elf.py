"""Objects and archives of any machine, as tools/host.sh and tools/stack.sh read them, since no tool that reads every machine's is sure to be at hand.
Each function has a section of its own there, which has its name."""
import struct


def _objects(path):
    file = open(path, "rb").read()
    if file[:8] != b"!<arch>\n":
        yield file
        return
    at = 8
    while at < len(file):
        size = int(file[at + 48 : at + 58])
        member, at = file[at + 60 : at + 60 + size], at + 60 + size + size % 2
        if member[:4] == b"\x7fELF":
            yield member


def _text(file, at):
    return file[at : file.index(0, at)].decode()


def functions(path):
    """Of each function of an object or archive its instructions, as bytes, and the set of names that it calls or jumps to."""
    found = {}
    for file in _objects(path):
        (first,), (step, count, names) = struct.unpack_from("<Q", file, 40), struct.unpack_from("<HHH", file, 58)
        # name, type, flags, address, offset, size, link, info
        sections = [struct.unpack_from("<IIQQQQII", file, first + step * i) for i in range(count)]
        name = lambda i: _text(file, sections[names][4] + sections[i][0])
        holds = lambda i: i < count and sections[i][2] & 4  # instructions
        for i in range(count):
            if holds(i) and sections[i][5]:
                function = name(i).removeprefix(".text.").removeprefix("unlikely.")
                if function in found:
                    raise ValueError(f"{path}: two functions {function}")
                found[function] = (file[sections[i][4] :][: sections[i][5]], set())
        for _, kind, _, _, start, size, link, info in sections:
            if kind != 4 or not holds(info) or not sections[info][5]:  # what the linker puts into instructions
                continue
            symbols, strings = sections[link][4], sections[sections[link][6]][4]
            for at in range(start, start + size, 24):
                number = struct.unpack_from("<Q", file, at + 8)[0] >> 32
                label, _, _, place = struct.unpack_from("<IBBH", file, symbols + 24 * number)
                if holds(place):
                    target = name(place).removeprefix(".text.").removeprefix("unlikely.")
                elif place == 0:
                    target = _text(file, strings + label)
                else:
                    continue  # a table of constants
                found[name(info).removeprefix(".text.").removeprefix("unlikely.")][1].add(target)
    return found
