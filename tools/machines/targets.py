"""The machines that tools/machines/run, needs and board compile for: compilers, emulators, and the Debian packages that have them."""
import pathlib
import re
import shutil
import subprocess

HERE = pathlib.Path(__file__).resolve().parent
ROOT = HERE.parents[1]
HEADERS = ROOT / "include"
SOURCE = ROOT / "portable/hanjolum.c"
PAGE = ROOT / "docs/MACHINES.md"
DRIVER = ROOT / "tools/portable/driver.c"
START_UP = ROOT / "examples/board"
WARNINGS = ["-std=c11", "-Wall", "-Wextra", "-Wpedantic", "-Wconversion", "-Wcast-qual", "-Werror"]
LIMIT = 1800            # seconds after which a compiler or a run is given up
STACK = 131072          # bytes of stack of the WebAssembly module
BOARD_STACK = 24576     # bytes of stack of a program on a board


class Failed(Exception):
    """What went wrong with a compiler or with a run, in words."""


def call(*words):
    """What a command prints. Failed, with the first line that says why, where it does not end well."""
    words = [str(w) for w in words]
    name = pathlib.Path(words[0]).name
    try:
        ran = subprocess.run(words, capture_output=True, text=True, errors="replace", timeout=LIMIT, check=False)
    except subprocess.TimeoutExpired:
        raise Failed(f"{name} did not end in {LIMIT} seconds") from None
    except OSError as e:
        raise Failed(f"{name}: {e.strerror}") from e
    if ran.returncode != 0:
        said = (ran.stderr + ran.stdout).splitlines()
        why = [x for x in said if re.search(r"\berror\b|overflowed|^driver:|^a fault:|Error:", x)] or said or ["it said nothing"]
        raise Failed(f"{name} ended with status {ran.returncode}: {why[0][:200]}")
    return ran.stdout


class Gcc:
    """A machine that gcc compiles for: this one, or another, which qemu runs as a user's program, linked statically."""

    def __init__(self, name, bits, triple, emulator, package, library):
        self.name, self.bits, self.triple, self.emulator = name, bits, triple, emulator
        self.gcc = f"{triple}-gcc" if triple else "gcc"
        self.tools = [(self.gcc, package)] + ([(emulator, "qemu-user")] if emulator else [])
        self.library = library

    def missing(self):
        """The packages that are not there."""
        found = missing_tools(self.tools)
        if not found and "/" not in call(self.gcc, "-print-file-name=libc.a"):
            found = [self.library]
        return found

    def compiler(self):
        return f"gcc {call(self.gcc, '-dumpfullversion').strip()}"

    def runner(self):
        return "itself" if not self.emulator else f"qemu {version(self.emulator)}"

    def build(self, level, code, work):
        """The driver with a C file or an archive; answers the words that run it."""
        call(self.gcc, *WARNINGS, level, f"-I{HEADERS}", DRIVER, code, "-static", "-o", work / "driver")
        return ([self.emulator] if self.emulator else []) + [work / "driver"]

    def compile(self, flags, code, made):
        call(self.gcc, *WARNINGS, *flags, f"-I{HEADERS}", "-c", code, "-o", made)


class WebAssembly:
    """WebAssembly of 32 bits without any library: memory.c has what a compiler asks for, and module.js runs the module in node."""

    name, bits = "WebAssembly", 32
    target = ["--target=wasm32", "-ffreestanding"]
    tools = [("clang", "clang"), ("wasm-ld", "lld"), ("node", "nodejs")]

    def missing(self):
        return missing_tools(self.tools)

    def compiler(self):
        return f"clang {version('clang')}"

    def runner(self):
        return f"node {version('node')}"

    def build(self, level, code, work):
        parts = [work / "hanjolum.o", work / "driver.o", work / "memory.o"]
        self.compile([level], code, parts[0])
        self.compile([level, "-DDRIVER_NO_MAIN"], DRIVER, parts[1])
        self.compile([level, "-fno-builtin"], HERE / "memory.c", parts[2])
        call("wasm-ld", "--no-entry", "--stack-first", "-z", f"stack-size={STACK}", "--export=run_values", "--export=what_was_missed", *parts,
             "-o", work / "driver.wasm")
        return ["node", HERE / "module.js", work / "driver.wasm"]

    def compile(self, flags, code, made):
        call("clang", *self.target, *WARNINGS, *flags, f"-I{HEADERS}", "-c", code, "-o", made)


class Board:
    """A board that qemu emulates whole, without an operating system: examples/board has its start-up, its console and its memory. `ram`,
    where it is given, is another size of RAM than the board's own."""

    bits, triple, gcc = 32, "arm-none-eabi", "arm-none-eabi-gcc"
    tools = [(gcc, "gcc-arm-none-eabi"), ("qemu-system-arm", "qemu-system-arm")]

    def __init__(self, name, layout, machine, cpu, ram=None):
        self.name, self.layout, self.machine = name, layout, machine
        self.flags = ["-mthumb", *cpu]
        self.memory = [f"-Wl,--defsym=ram_bytes={ram}"] if ram else []
        self.options = ["-global", f"nrf51-soc.sram-size={ram}"] if ram else []

    def missing(self):
        found = missing_tools(self.tools)
        if not found and "/" not in call(self.gcc, "-print-file-name=libc.a"):
            found = ["libnewlib-arm-none-eabi"]
        return found

    def compiler(self):
        return f"gcc {call(self.gcc, '-dumpfullversion').strip()}"

    def runner(self):
        return f"qemu {version('qemu-system-arm')}"

    def build(self, level, code, work):
        """The driver with a C file; the words that run it end with the one behind which the rounds stand."""
        parts = [work / "hanjolum.o", work / "driver.o", work / "main.o"]
        self.compile([level], code, parts[0])
        self.compile([level, "-DDRIVER_NO_MAIN"], DRIVER, parts[1])
        self.compile([level], HERE / "driver_on_board.c", parts[2])
        return [*self.link(parts, work), "-append"]

    def compile(self, flags, code, made):
        call(self.gcc, *WARNINGS, *self.flags, *flags, f"-I{HEADERS}", f"-I{START_UP}", "-c", code, "-o", made)

    def link(self, parts, work):
        """A program of object files with the board's start-up; answers the words that run it."""
        self.compile(["-Os"], START_UP / "board.c", work / "board.o")
        call(self.gcc, *self.flags, "-nostartfiles", f"-L{START_UP}", f"-T{self.layout}", f"-Wl,--defsym=stack_bytes={BOARD_STACK}",
             *self.memory, work / "board.o", *parts, "-o", work / "program.elf")
        return ["qemu-system-arm", "-M", self.machine, *self.options, "-display", "none", "-monitor", "none", "-serial", "none",
                "-semihosting-config", "enable=on,target=native", "-kernel", work / "program.elf"]


def missing_tools(tools):
    return list(dict.fromkeys(package for tool, package in tools if not shutil.which(tool)))


def version(tool):
    """The first number with a dot that a tool says of itself."""
    found = re.search(r"\d+\.\d+(\.\d+)?", call(tool, "--version"))
    return found[0] if found else "of no known version"


def hold_page(mark, lines, write):
    """Writes a tool's lines to the page, behind its mark, or fails where the page has others there."""
    text = PAGE.read_text()
    before, found, behind = text.partition(mark)
    if not found:
        raise Failed(f"{PAGE.name} has no place for the lines")
    _, gap, rest = behind.partition("\n\n")
    new = before + mark + "\n".join("    " + line.rstrip() for line in lines) + gap + rest
    if write:
        PAGE.write_text(new)
    elif text != new:
        raise Failed(f"{PAGE.name} says otherwise: {mark.strip()} --write puts these lines there")


HOST = Gcc("x86-64", 64, "", None, "gcc", "libc6-dev")
BOARDS = [
    Board("Cortex-M4", "m4.ld", "netduinoplus2", ["-mcpu=cortex-m4", "-mfloat-abi=hard", "-mfpu=fpv4-sp-d16"]),
    Board("Cortex-M3", "m3.ld", "netduino2", ["-mcpu=cortex-m3"]),
    # The driver has inputs of 15 KB besides its stack, so that the micro:bit's own 16 KB are too few for it.
    Board("Cortex-M0", "m0.ld", "microbit", ["-mcpu=cortex-m0"], 65536),
]
OTHERS = [
    Gcc("AArch64", 64, "aarch64-linux-gnu", "qemu-aarch64", "gcc-aarch64-linux-gnu", "libc6-dev-arm64-cross"),
    Gcc("ARM, 32 bits", 32, "arm-linux-gnueabihf", "qemu-arm", "gcc-arm-linux-gnueabihf", "libc6-dev-armhf-cross"),
    *BOARDS,
    Gcc("RISC-V 64", 64, "riscv64-linux-gnu", "qemu-riscv64", "gcc-riscv64-linux-gnu", "libc6-dev-riscv64-cross"),
    Gcc("s390x, big-endian", 64, "s390x-linux-gnu", "qemu-s390x", "gcc-s390x-linux-gnu", "libc6-dev-s390x-cross"),
    WebAssembly(),
]
