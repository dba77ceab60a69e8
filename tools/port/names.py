#!/usr/bin/env python3
"""tools/port/names.py: brings the names of this repository's definitions and lemmas to today's spelling, once, after the toolchain's port.py.

Words are in snake case (`heldCells` and `held-cells` become `held_cells`); types and modules keep their capitals. Every name that a file of specs/ or
proofs/ declares is taken; functions of src/, exported names, strings, inputs and outputs keep theirs. Two names that would fall together are listed in
APART below with the name that one of them gets. Run at the top of the repository: `tools/port/names.py` says what would fall together and what would
hide another name, and writes nothing; `tools/port/names.py write` rewrites crates/ in place.
"""
import collections
import glob
import re
import sys

# a name as it stood, and what it is called where its plain respelling is taken by another one
APART = {
    "all-cells": "all_cells_law", "bits-sum": "bits_sum_law", "built-at": "built_at_law",
    "built-byte": "built_byte_law", "built-cells": "built_cells_law", "by-window": "is_by_window",
    "cellIn": "the_cell_in", "cheapest-entry": "cheapest_entry_law", "columnMade": "the_column_made",
    "corner-of": "is_corner_of", "each-step-on": "each_step_on_law", "each_step": "each_step_law",
    "edge-away": "edge_away_law", "end-word": "end_word_law", "entered_from": "entered_from_law",
    "facing-bits": "facing_bits_law", "first-number": "first_number_law", "from_place": "from_place_law",
    "goalIn": "the_goal_in", "held-byte": "held_byte_law", "held_bytes": "held_bytes_law",
    "init-refused": "init_refused_law", "is-in": "is_in_law", "is-sector": "is_sector_law",
    "is-side": "is_side_law", "lower-side": "lower_side_law", "new-byte": "new_byte_law",
    "next-move": "next_move_law", "no-positions": "has_no_positions", "none_is": "none_is_law",
    "number-on": "number_on_law", "offered-by": "is_offered_by", "on_edge": "is_on_edge",
    "one_more": "one_more_law", "order-at": "order_at_law", "over-others": "over_others_law",
    "position_at": "position_at_law", "refused-tour": "refused_tour_law", "row-sum": "row_sum_law",
    "row_in": "the_row_in", "row_made": "row_made_law", "sector-at": "sector_at_law",
    "sectorIn": "the_sector_in", "side-bits": "side_bits_law", "step-number": "step_number_law",
    "step-of": "step_of_law", "target_at": "target_at_law", "told_at": "told_at_law",
    "value-at": "the_value_at", "wall-at": "wall_at_law", "window-bits": "window_bits_law",
    "window-cells": "window_cells_law", "zero_field": "zero_field_law",
}

DECLARED = re.compile(r"^\s*(?:(?:pub|abbrev|unfoldable|instance|private|opaque) )*([^\s(){}:;,]+) :(?= |$)")
NAMED = re.compile(r"^\s*(?:pub )?(?:abbrev )?(?:pub )?(?:record|data) (\S+)")
CONSTRUCTORS = re.compile(r"^\s*(?:pub )?([^\s(){}:;,]+(?: [^\s(){}:;,]+)+) :(?= |$)")
TOKEN = re.compile(r"[^\s(){}\[\],;:.@`\"]+")
STRING = re.compile(r'"(?:[^"\\]|\\.)*"')


def files(kinds):
    return sorted(f for kind in kinds for f in glob.glob("crates/*/" + kind, recursive=True) if "/out/" not in f)


def read(file):
    with open(file, encoding="utf-8") as f:
        return f.read()


def declared():
    """Each name that is declared in specs/ or in the lemma files, and where."""
    found = collections.defaultdict(set)
    for file in files(["specs/**/*.antt", "proofs/**/*.antt"]):
        for line in read(file).split("\n"):
            for pattern in (DECLARED, NAMED):
                m = pattern.match(line)
                if m:
                    found[m.group(1)].add(file)
    return found


def snake(name):
    name = re.sub(r"(?<=[a-z0-9])([A-Z])", lambda m: "_" + m.group(1).lower(), name)
    return re.sub(r"(?<=[^\s-])-(?=[^\s-])", "_", name).replace("′", "'")


def renamed(found):
    names = {}
    for name in set(found) | set(APART):
        # operators and single letters stay; so do types
        if not re.match(r"\+?[a-z]", name) or "◌" in name:
            continue
        new = APART.get(name, snake(name))
        if new != name:
            names[name] = new
    return names


def turn_tokens(text, names, seen=None):
    def one(m):
        word = m.group(0)
        if word in names:
            # what the check makes for a proof keeps its own spelling
            before = text[max(0, m.start() - 4):m.start()]
            if before.endswith("tie."):
                return word
            if seen is not None:
                seen.add(names[word])
            return names[word]
        return word

    return TOKEN.sub(one, text)


def turn_comment(text, names):
    """In a comment a name of two capitals is a name, and one with a hyphen only between backticks."""
    camel = {a: b for a, b in names.items() if "-" not in a}
    parts = re.split(r"(`[^`]*`)", text)
    return "".join(turn_tokens(p, names if p.startswith("`") else camel) for p in parts)


def turn(file, text, names, seen=None):
    mark = "--" if file.endswith(".antt") else "//"
    out = []
    for line in text.split("\n"):
        if file.endswith(".edit"):
            if line.startswith("#"):
                out.append(turn_comment(line, names))
            elif line.startswith(("old: ", "new: ")):
                out.append(line[:5] + turn_tokens(line[5:], names))
            else:
                out.append(line)
            continue
        at = re.search(r"(?:^|\s)" + re.escape(mark) + r"(?:\s|$)", line)
        code, comment = (line[:at.start()], line[at.start():]) if at else (line, "")
        if file.endswith(".rt"):
            # a name in snake case may be a function's here
            names = {a: b for a, b in names.items() if a != snake(a)}
            # strings of the code stay
            pieces = re.split(r'("(?:[^"\\]|\\.)*")', code)
            code = "".join(p if i % 2 else turn_tokens(p, names, seen) for i, p in enumerate(pieces))
        else:
            code = turn_tokens(code, names, seen)
        out.append(code + turn_comment(comment, names))
    return "\n".join(out)


def main():
    found = declared()
    names = renamed(found)
    made = collections.defaultdict(set)
    for name, new in names.items():
        made[new].add(name)
    bad = 0
    for new, olds in sorted(made.items()):
        together = olds | ({new} if new in found and new not in names else set())
        if len(together) > 1:
            bad += 1
            print(f"together: {new}: " + "; ".join(f"{n} in {', '.join(sorted(x[7:] for x in found[n])[:3])}" for n in sorted(together)))
    everything = files(["specs/**/*.antt", "proofs/**/*.antt", "src/**/*.rt", "must-fail/*.edit"])
    for file in everything:
        text = read(file)
        seen = set()
        new = turn(file, text, names, seen)
        if not file.endswith(".edit"):
            brought = set()
            for m in re.finditer(r"use ([\w.]+)\.\{([^}]*)\}", text):
                if not (m.group(1).startswith("Rattle.") and not m.group(1).startswith("Rattle.std")):
                    brought |= {w.strip().split(" as ")[-1] for w in m.group(2).split(",")}
            for w in sorted(seen & brought):
                print(f"hidden: {file}: {w} is the library's too")
        if file.endswith(".rt"):
            own = set(re.findall(r"\blet (?:mut )?(\w+)", text)) | set(re.findall(r"[(,]\s*(?:mut )?(\w+): ", text)) | set(re.findall(r"^\s+(?:pub )?(\w+): [&\w\[]", text, re.M))
            for w in sorted(seen & own):
                print(f"hidden: {file}: {w} is also a name of the code")
        if len(sys.argv) > 1 and sys.argv[1] == "write" and new != text:
            with open(file, "w", encoding="utf-8") as f:
                f.write(new)
    print(f"{len(names)} names, {bad} that would fall together")


main()
