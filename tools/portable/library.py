"""The library's MIR as its proof left it, and the C file that is printed from it."""
import hashlib
import json
import pathlib
import re
import shutil
import subprocess
import sys
import tempfile

import instances
import mir
import printer

ROOT = pathlib.Path(__file__).resolve().parents[2]
NAME = "hanjolum"
HEADER = ROOT / "include/hanjolum.h"
PRINTED = ROOT / "portable/hanjolum.c"
# The kit's libraries whose functions the crates call.
KIT = ("core",)
# What the Rust crate has of it, for packages; tools/crate/check holds the two equal.
CRATE_COPY = ROOT / "bindings/rust/c/hanjolum.c"

HEAD = """\
/*
 * Hanjolum {version} as one C file: all calls of hanjolum.h, with every function that they reach. Printed by tools/portable/make from
 * the proved program; not to be edited. Take it along with include/hanjolum.h:
 *
 *     cc -std=c11 -O2 -Iinclude -c portable/hanjolum.c
 *
 * It is C11 and needs no other file. Of a library it needs memcpy, memmove and memset, as a compiler asks for them, and on a machine
 * without 64-bit division the compiler's own helpers. It allocates nothing, has no variable that is not constant, and calls nothing
 * else. gcc 12 and clang 14 have no warning at -Wall -Wextra -Wpedantic -Wconversion.
 *
 * What is proved is the MIR: for all input, each function below, as the toolchain's MIR has it, ends, stays within its memory and
 * keeps its contract (docs/PROMISES.md). Those whose names begin with core are of the toolchain's own library, proved by its makers.
 * What is not proved is the printing of this file from that MIR, by the rules that tools/portable/printer.py and
 * tools/portable/instances.py list, and the C compiler. tools/portable/test tries each rule; tools/portable/digest holds the file's
 * answers to those of the archive that the toolchain compiles.
 *
 * Printed from: {kit}
 * MIR of {functions} functions at {instances} types, SHA-256 {digest}
 *
 * A port of the field code of bevy_flowfield_tiles_plugin (MIT OR Apache-2.0); NOTICE has its licence.
 */
"""


class Wrong(Exception):
    """Why nothing is printed, in words."""


def crates():
    """The crates that the library is made of, itself the last, each with its line of crates.txt: what it depends on, and they on."""
    listed = {}
    for line in (ROOT / "crates.txt").read_text().splitlines():
        name, _, below = line.split("#")[0].partition(":")
        if name.strip():
            listed[name.split()[0]] = below.split()
    found = {}

    def visit(name):
        if name in listed and name not in found:
            for below in listed[name]:
                visit(below)
            found[name] = listed[name]

    visit(NAME)
    return found


def run(*words, folder=ROOT):
    try:
        return subprocess.run(words, cwd=folder, stdout=subprocess.PIPE, stderr=subprocess.STDOUT, text=True, check=False)
    except OSError as e:
        raise Wrong(f"{words[0]}: {e.strerror}") from e


def kit():
    """Where the toolchain keeps its own libraries: beside its guide, whose place `rt doc` tells."""
    told = run("rt", "doc").stdout.split()
    if not told:
        raise Wrong("rt doc does not tell where the toolchain's guide stands")
    return pathlib.Path(told[-1]).parent / "rlibs"


def mir_of(folder, name):
    file = folder / f"{name}.rlib/toolchain/mir.json"
    if not file.is_file():
        raise Wrong(f"there is no MIR of {name}")
    return json.loads(file.read_text())


def functions():
    """Every function of the library's crates and of the kit's, by name, as a proof of the crates as they stand left its MIR.

    The crates are proved in a folder of their own: the toolchain writes the MIR of a library down, and of a static library, as the exports
    are in crates.txt, it does not. There they are a library like the others. What was proved on this machine before is not proved again.
    """
    made = []
    with tempfile.TemporaryDirectory() as folder:
        room, below = pathlib.Path(folder), crates()
        for name in below:
            shutil.copytree(ROOT / "crates" / name, room / "crates" / name, ignore=shutil.ignore_patterns("out"))
        (room / "crates.txt").write_text("".join(f"{name}: {' '.join(words)}\n" for name, words in below.items()))
        ran = run("rt", "lib", folder=room / "crates" / NAME)
        if ran.returncode != 0:
            said = [x for x in ran.stdout.splitlines() if x.strip()] or ["rt lib says nothing"]
            raise Wrong(f"the library is not proved as it stands: {said[-1]}")
        for name in below:
            made += mir_of(room / f"crates/{name}/out/rlib", name)
    for name in KIT:
        made += mir_of(kit(), name)
    found = dict(made)
    if len(found) != len(made):
        raise Wrong("two functions have one name")
    return found


def kept_apart():
    """The functions of which the source says that they are never to be put in line."""
    found = set()
    for name in crates():
        for file in sorted((ROOT / "crates" / name / "src").rglob("*.rt")):
            found.update(f"{name}::{f}" for f in re.findall(r"^#\[inline\(never\)\]\n(?:pub )?fn (\w+)", file.read_text(), flags=re.M))
    return found


def text():
    """The C file."""
    header = HEADER.read_text()
    version = re.search(r'#define HANJOLUM_VERSION "([^"]+)"', header)
    if not version:
        raise Wrong("the header has no HANJOLUM_VERSION")
    found = functions()
    try:
        made = instances.Instances(found, [name for name in found if name.startswith(f"{NAME}::{NAME}_")])
        unit = printer.Unit(made.items, header, NAME, kept_apart())
        of = sorted({unit.functions[name]["of"] for name in unit.reached})
        digest = hashlib.sha256(json.dumps([[name, found[name]] for name in of], sort_keys=True, separators=(",", ":")).encode()).hexdigest()
        return unit.text(HEAD.format(version=version[1], kit=run("rt", "version").stdout.strip(), functions=len(of), instances=len(unit.reached),
                                     digest=digest))
    except mir.Refused as e:
        raise Wrong(f"the printer does not know: {e}") from e


def fail(tool, what):
    sys.exit(f"{tool}: {what}")
