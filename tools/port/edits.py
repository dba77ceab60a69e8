#!/usr/bin/env python3
"""tools/port/edits.py: brings the must-fail edits to today's spelling, once, by lining up each file with what it was before the port.

    tools/port/edits.py BEFORE AFTER          says what it would do, and writes nothing
    tools/port/edits.py BEFORE AFTER write    writes the edits that it could turn

BEFORE is a folder with the repository as it stood before the port, AFTER one as it stood after port.py and names.py (`git archive` of the two commits
that docs/PORT.md names). From the files of both it learns how each word is spelled today: lines that say the same are lined up, and a word stands for
the one in its place. Clauses lose their brackets, the answer of a function is `result`, what was lent is `x.now`, or `x.old` and `x.new`, projections
are written tight. Each pair of an edit is then turned from what it was in BEFORE. Where the turned `old:` does not stand in the file of today exactly
once, it is looked for again with parentheses left out of account, and what it replaces goes into the text that was found. An edit is written only if
each of its pairs was turned so; the others are listed, and are for the hand. File names and comments stay as they are, and so do the edits of
HAND below. Run it at the top of the repository.
"""
import collections
import difflib
import glob
import os
import re
import sys

# edits that say the same wrong in other words today, or take the proof with them, so that what is false alone refuses them: they were written by hand
HAND = {
    "fields/column_0_has_a_west", "integration_field/first_wave_only", "integration_init/costs_of_101_taken", "leg_counting/gaps_filled",
    "bounds_sure/unreached_neighbour_taken", "leg_counting/straight_alone_tested", "leg_moves/sector_63_refused", "sector/previous_of_101_taken", "tour_plan/best_of_one_more",
    "tour_plan/orders_of_one_window_more", "tour_search/last_move_left_out", "tour_search/limit_of_one_less", "window_square/twenty_before_sixteen",
    "window_steps/nine_steps_taken", "window_steps/one_step_taken",
}

TOKEN = re.compile(r"\"(?:[^\"\\]|\\.)*\"|[^\s(){}\[\],;.@`\"]+|[(){}\[\],;.@`\"]")
OPERATOR = re.compile(r"^_([^_\s]+)_$")
BRACKETS = "()"


def read(file):
    with open(file, encoding="utf-8") as f:
        return f.read()


def pairs(file):
    """(file, old, new) of each pair of an edit, and all its lines."""
    lines, found, name, old = read(file).split("\n"), [], None, None
    for n, line in enumerate(lines):
        if line.startswith("file: "):
            name = line[6:].strip()
        elif line.startswith("old: "):
            old = line[5:]
        elif line.startswith("new: "):
            found.append((n, name, old, line[5:]))
    return lines, found


# ---- shapes: what is written otherwise today whatever the words are

def group(text, at):
    """The end of the parenthesis that opens at a place of a text."""
    depth = 0
    for n in range(at, len(text)):
        depth += {"(": 1, ")": -1}.get(text[n], 0)
        if depth == 0:
            return n + 1
    return None


def applied(text, end):
    """Where the application begins that ends at a place of a text, and of how many parts it is."""
    at, parts = end, 0
    while at > 0:
        start = at
        if text[at - 1] in ")}":
            depth = 0
            while start > 0:
                start -= 1
                depth += {")": 1, "}": 1, "(": -1, "{": -1}.get(text[start], 0)
                if depth == 0:
                    break
            if depth:
                break
        else:
            while start > 0 and not text[start - 1].isspace() and text[start - 1] not in "(){};":
                start -= 1
            # a word, and no operator
            if start == at or not re.match(r"[\w«]", text[start:at]) or text[start:at] in ("pub", "in", "let", "λ"):
                break
        parts += 1
        last = start
        if start < 2 or text[start - 1] != " " or text[start - 2].isspace():
            return start, parts
        at = start - 1
    return (last, parts) if parts else (end, 0)


def tight(text):
    """`x .field` as `x.field`, `f x .field` as `(f x).field`, and no parentheses about a projection of a name."""
    while True:
        m = re.search(r"(?<=[\w)'»′]) \.(?=[a-z_«])", text)
        if not m:
            break
        start, parts = applied(text, m.start())
        whole = text[start:m.start()]
        text = text[:start] + (whole if parts < 2 else "(" + whole + ")") + text[m.start() + 1:]
    text = re.sub(r"\(([\w'«»]+(?:\.[\w'«»]+)+)\)", r"\1", text)
    # and none about `(f x).field` either
    for m in reversed(list(re.finditer(r"\(\(", text))):
        inner = group(text, m.start() + 1)
        last = re.match(r"(?:\.[\w'«»]+)+\)", text[inner:]) if inner else None
        if last:
            text = text[:m.start()] + text[m.start() + 1:inner + last.end() - 1] + text[inner + last.end():]
    return text


def shaped(text, where):
    """A text of BEFORE in today's shapes. `where` has the parameters that are lent to be written, and the name of the function's answer."""
    if where is None:
        return text
    lent, answer = where
    text = re.sub(r"λ \S+ ⌜ | ?⌜ ", lambda m: " " if m.group(0).startswith(" ") else "", text)
    text = re.sub(r"λ r\. ", "", text) if answer else text
    text = text.replace(" ⌝", "").replace("⌜ ", "")

    def now(m):
        name, when = m.group(1), m.group(2)
        return name + "." + ({"entry": "old", "exit": "new", None: "old"}[when] if name in lent else "now")

    text = re.sub(r"\(now \((\w+) \.(entry|exit)\)\)", now, text)
    text = re.sub(r"\(now (\w+)()\)", lambda m: m.group(1) + (".old" if m.group(1) in lent else ".now"), text)
    text = re.sub(r"(?<![\w.])now \((\w+) \.(entry|exit)\)", now, text)
    text = re.sub(r"(?<![\w.])now (\w+)()(?![\w])", lambda m: m.group(1) + (".old" if m.group(1) in lent else ".now"), text)
    text = tight(text)
    if answer:
        text = re.sub(r"(?<![\w.'])" + answer + r"(?![\w'])", "result", text)
    return text


def surroundings(text, at):
    """What is lent to be written at a place of a .rt, and the name of the answer there; nothing at all outside the clauses."""
    end = text.find("\n", at)
    if text[:at].count("⌜") == text[:at].count("⌝") and "⌜" not in text[at:end]:
        return None
    lines = text[:at].split("\n")
    whole = text.split("\n")
    here = len(lines) - 1
    head = here
    while head > 0 and not re.match(r"\s*(pub )?(extern \"C\" )?(fn|impl|struct)\b", whole[head]):
        head -= 1
    signature = "\n".join(whole[head:here + 1])
    lent = set(re.findall(r"(\w+): &mut ", signature)) | ({"self"} if "&mut self" in signature else set())
    answer = None
    if re.search(r"\bensures\b", signature):
        bound = re.findall(r"λ (\w+)\. ⌜", signature)
        answer = bound[-1] if bound else None
    return lent, answer


# ---- words

def words(text):
    return TOKEN.findall(text)


def learned(before, after):
    """How each word is spelled today: by file, and over all files."""
    everywhere, by_file = collections.defaultdict(collections.Counter), {}
    for kind in ("specs/**/*.antt", "src/**/*.rt", "proofs/**/*.antt"):
        for file in glob.glob(before + "/crates/*/" + kind, recursive=True):
            name = os.path.relpath(file, before)
            other = os.path.join(after, name)
            if not os.path.exists(other):
                continue
            votes = by_file.setdefault(name, collections.defaultdict(collections.Counter))
            text = read(file)
            a, at = [], 0
            for line in text.split("\n"):
                a.append(shaped(line, surroundings(text, at) if name.endswith(".rt") else (set(), None)))
                at += len(line) + 1
            b = read(other).split("\n")
            for tag, i, j, k, l in difflib.SequenceMatcher(None, a, b, False).get_opcodes():
                if tag == "delete" or tag == "insert":
                    continue
                lines = zip(a[i:j], b[k:l]) if j - i == l - k else [(" ".join(a[i:j]), " ".join(b[k:l]))]
                for old, new in lines:
                    x, y = words(old), words(new)
                    if len(x) != len(y):
                        x, y = [w for w in x if w not in BRACKETS], [w for w in y if w not in BRACKETS]
                    if len(x) != len(y):
                        continue
                    if sum(c == d for c, d in zip(x, y)) * 3 < len(x):
                        continue
                    for c, d in zip(x, y):
                        if re.match(r"\w|«", d):
                            votes[c][d] += 1
                            everywhere[c][d] += 1
    return everywhere, by_file


def spelled(word, everywhere, votes):
    m = OPERATOR.match(word)
    if m:
        return "◌" + m.group(1) + "◌"
    if not re.search(r"\w", word) or word.startswith('"') or word.isdigit():
        return word
    if word in votes and votes[word][word]:
        return word
    for found in (votes.get(word), everywhere.get(word)):
        if found:
            return found.most_common(1)[0][0]
    return word


def turned(text, everywhere, votes):
    text = re.sub(r"Rattle·(\w+)·specs\.specs", r"Rattle.\1.specs", text)
    text = re.sub(r"Rattle·(\w+)", r"Rattle.\1", text)
    return TOKEN.sub(lambda m: spelled(m.group(0), everywhere, votes), text)


# ---- finding a text with parentheses left out of account

def places(text):
    return [(m.group(0), m.start(), m.end()) for m in TOKEN.finditer(text)]


def found_loosely(old, new, text):
    """The text of today that `old` is but for parentheses, and what the edit makes of it."""
    a = [p for p in places(old) if p[0] not in BRACKETS]
    b = [p for p in places(text) if p[0] not in BRACKETS]
    hits = [n for n in range(len(b) - len(a) + 1) if all(b[n + k][0] == a[k][0] for k in range(len(a)))]
    if len(hits) != 1 or not a:
        return None
    at = hits[0]
    start, end = b[at][1], b[at + len(a) - 1][2]
    if "\n" in text[start:end]:
        return None
    # what differs between old and new, in words
    x, y = places(old), places(new)
    i = 0
    while i < min(len(x), len(y)) and x[i][0] == y[i][0]:
        i += 1
    j = 0
    while j < min(len(x), len(y)) - i and x[-1 - j][0] == y[-1 - j][0]:
        j += 1
    gone = [p for p in x[i:len(x) - j] if p[0] not in BRACKETS]
    before = len([p for p in x[:i] if p[0] not in BRACKETS])
    middle = new[y[i][1]:y[len(y) - j - 1][2]] if i < len(y) - j else ""
    if middle.count("(") != middle.count(")") or not gone:
        return None
    s, e = b[at + before][1], b[at + before + len(gone) - 1][2]
    if text[s:e].count("(") != text[s:e].count(")"):
        return None
    return text[start:end], text[start:s] + middle + text[e:end]


USE = re.compile(r"^use [\w.·]+\.\{(.*)\}$")


def brought(old, new, text):
    """What an import that an edit widens is today: a pair, or None where all that it brings in is there already."""
    names = [[w.strip() for w in USE.match(t).group(1).split(",")] for t in (old, new)]
    lines = [line for line in text.split("\n") if USE.match(line)]
    there = {line: [w.strip() for w in USE.match(line).group(1).split(",")] for line in lines}
    more = [w for w in names[1] if w not in names[0] and not any(w in have for have in there.values())]
    if not more:
        return None
    if any(w.startswith("◌") or not old.startswith("use Rattle.") for w in more):
        head = "use Rattle.std.specs.Prelude.{"
        return head, head + ", ".join(more) + ", "
    at = [line for line in lines if all(w in there[line] for w in names[0])]
    return (at[0], at[0][:-1] + ", " + ", ".join(more) + "}") if len(at) == 1 else (old, new)


def main():
    before, after = sys.argv[1:3]
    everywhere, by_file = learned(before, after)
    done = same = hand = 0
    left = []
    for file in sorted(glob.glob("crates/*/must-fail/*.edit")):
        crate = os.path.dirname(os.path.dirname(file))
        if os.path.basename(crate) + "/" + os.path.basename(file)[:-len(".edit")] in HAND:
            hand += 1
            continue
        _, was = pairs(os.path.join(before, file))
        lines, here = pairs(file)
        texts, olds, widened, out, why = {}, {}, {}, list(lines), None
        if len(was) != len(here):
            left.append((file, "its pairs are not those of before"))
            continue
        for (_, name, old, new), (n, _, now_old, now_new) in zip(was, here):
            path = os.path.join(crate, name)
            if path not in texts:
                texts[path], olds[path] = read(path), read(os.path.join(before, path))
            at = olds[path].find(old)
            where = surroundings(olds[path], at) if name.endswith(".rt") else (set(), None)
            votes = by_file.get(path, {})
            t_old, t_new = (turned(shaped(t, where), everywhere, votes) for t in (old, new))
            olds[path] = olds[path].replace(old, new, 1)
            if USE.match(t_old) and USE.match(t_new):
                pair = brought(t_old, t_new, texts[path])
                if pair is None:
                    out[n - 1] = out[n] = None
                    continue
                t_old, t_new = pair
                if path in widened and t_old.endswith("{") and texts[path].count(t_old) == 1:
                    # one pair for both
                    texts[path] = texts[path].replace(t_old, t_new)
                    out[widened[path]] += t_new[len(t_old):]
                    out[n - 1] = out[n] = None
                    continue
                widened[path] = n
            if texts[path].count(t_old) != 1:
                loose = found_loosely(t_old, t_new, texts[path])
                if loose:
                    t_old, t_new = loose
            if texts[path].count(t_old) != 1:
                # as it stands it may apply
                why = f"{texts[path].count(t_old)} times: {t_old}"
                if texts[path].count(now_old) == 1:
                    why += "  (applies as it stands)"
                break
            texts[path] = texts[path].replace(t_old, t_new)
            out[n - 1], out[n] = "old: " + t_old, "new: " + t_new
        if why:
            left.append((file, why))
            continue
        out = [line for line in out if line is not None]
        if out == lines:
            same += 1
            continue
        done += 1
        if sys.argv[3:] == ["write"]:
            with open(file, "w", encoding="utf-8") as f:
                f.write("\n".join(out))
        else:
            print(file)
            for line in difflib.ndiff(lines, out):
                if line[0] in "-+":
                    print("  " + line)
    for file, why in left:
        print(f"left: {file}: {why}")
    print(f"{done} turned, {same} as they were, {hand} by hand, {len(left)} left")


main()
