"""The files that the Rust crate has a copy of, so that a package of it needs nothing else, and how they differ."""
import pathlib
import sys

ROOT = pathlib.Path(__file__).resolve().parents[2]
CRATE = ROOT / "bindings/rust"
COPIES = {
    "bindings/rust/c/hanjolum.c": "portable/hanjolum.c",
    "bindings/rust/c/hanjolum.h": "include/hanjolum.h",
    "bindings/rust/NOTICE": "NOTICE",
}


def fail(what):
    """Ends with one line."""
    sys.exit(f"crate: {what}")


def read(name):
    """The bytes of a file of the repository."""
    try:
        return (ROOT / name).read_bytes()
    except OSError as e:
        fail(f"{name}: {e.strerror}")


def difference(copy, source):
    """Where a copy differs first from what it is a copy of, in words; nothing where it does not."""
    there, wanted = read(copy).split(b"\n"), read(source).split(b"\n")
    if there == wanted:
        return None
    for at, (a, b) in enumerate(zip(there, wanted), 1):
        if a != b:
            return f"{copy} is no copy of {source}: they differ in line {at}"
    return f"{copy} is no copy of {source}: it has {len(there) - 1} lines, and not {len(wanted) - 1}"
