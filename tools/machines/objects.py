"""What an object file needs, for tools/machines/needs and tools/machines/board: its sizes, and the stack that its compiler tells."""
import re

import targets


# ---- stack

# The words by which gcc leaves a file of frames and calls, and one of assembly, beside the object.
TELL = ["-fcallgraph-info=su", "-save-temps=obj"]


def told_beside(made):
    return made.with_suffix(".ci"), made.with_suffix(".s")


def depths(frames, calls):
    """How much stack each export needs: its frame and the greatest of those below it."""
    known = {}

    def depth(name, above):
        if name in above:
            raise targets.Failed(f"{name} calls itself")
        if name not in known:
            known[name] = frames.get(name, 0) + max((depth(x, above + [name]) for x in calls.get(name, ())), default=0)
        return known[name]

    exports = [name for name in frames if name.startswith("hanjolum_")]
    if not exports:
        raise targets.Failed("the compiler told the frame of no export")
    return {name: depth(name, []) for name in exports}


def frames_by_gcc(text, pushed):
    """Frames by -fcallgraph-info=su, with the arguments besides that a function pushes in front of its frame."""
    frames = {}
    for title, label in re.findall(r'^node: \{ title: "([^"]*)" label: "([^"]*)"', text, flags=re.M):
        told = re.search(r"(\d+) bytes \((static|dynamic,bounded)\)", label)
        if told:
            frames[title] = int(told[1]) + pushed.get(title.split(":")[-1], 0)
        elif " bytes (" in label or title == "__indirect_call":
            raise targets.Failed(f"the frame of {title} has no bound")
    return frames


def stack_by_gcc(told, assembly, others=()):
    """Stack by the frames and calls that gcc writes down (-fcallgraph-info=su) and by its assembly: on 32-bit ARM it does not count, in a
    frame, the part of an argument by value that came in registers and is pushed beside the rest, and says it there (`pretend`). The
    frames of functions outside the object are 0, or given."""
    text, calls = told.read_text(), {}
    pushed = re.findall(r"^([\w.]+):\n\t@ args = \d+, pretend = (\d+),", assembly.read_text(), flags=re.M)
    frames = {**dict(others), **frames_by_gcc(text, {name: int(bytes_) for name, bytes_ in pushed})}
    for source, to in re.findall(r'^edge: \{ sourcename: "([^"]*)" targetname: "([^"]*)"', text, flags=re.M):
        calls.setdefault(source, set()).add(to)
    return depths(frames, calls)


def stack_by_clang(usage, assembly):
    """Frames by -fstack-usage, and calls by the assembly."""
    frames, calls, name = {}, {}, None
    for line in usage.read_text().splitlines():
        where, size, kind = line.split("\t")
        if kind != "static":
            raise targets.Failed(f"the frame of {where} has no bound")
        frames[where.split(":")[-1]] = int(size)
    for line in assembly.read_text().splitlines():
        label, called = re.match(r"(\w+):", line), re.match(r"\s+(call\w*)\s+(\w+)", line)
        name = label[1] if label else name
        if called and called[1] != "call":
            raise targets.Failed(f"{name} has a call by pointer")
        if called:
            calls.setdefault(name, set()).add(called[2])
    return depths(frames, calls)


# ---- sizes

def sizes_of_elf(triple, made):
    """Bytes of code and of constants, and what the object asks for."""
    prefix, code, constants = f"{triple}-" if triple else "", 0, 0
    for name, size in re.findall(r"^(\.\S+)\s+(\d+)", targets.call(f"{prefix}size", "-A", made), flags=re.M):
        if name.startswith(".text"):
            code += int(size)
        elif name.startswith((".rodata", ".data.rel.ro")):
            constants += int(size)
        elif name.startswith((".data", ".bss")) and size != "0":
            raise targets.Failed(f"the object has data that is not constant: {name}, {size} bytes")
    return code, constants, sorted(line.split()[-1] for line in targets.call(f"{prefix}nm", "-u", made).splitlines())


class Wasm:
    """A WebAssembly object, read."""

    def __init__(self, data):
        self.data, self.at = data, 8

    def number(self):
        value, shift = 0, 0
        while True:
            byte, self.at = self.data[self.at], self.at + 1
            value, shift = value | (byte & 127) << shift, shift + 7
            if byte < 128:
                return value

    def name(self):
        length = self.number()
        self.at += length
        return self.data[self.at - length:self.at].decode()

    def limits(self):
        if self.number() & 1:
            self.number()
        self.number()

    def functions_asked_for(self):
        found = []
        for _ in range(self.number()):
            self.name()
            name, kind = self.name(), self.number()
            if kind == 0:
                found.append(name)
            if kind in (1, 3):
                self.number()
            if kind in (1, 2):
                self.limits()
            else:
                self.number()
        return sorted(found)

    def sizes(self):
        found, asked = {10: 0, 11: 0}, []
        while self.at < len(self.data):
            kind, size = self.number(), self.number()
            end = self.at + size
            found[kind] = size
            if kind == 2:
                asked = self.functions_asked_for()
            self.at = end
        return found[10], found[11], asked
