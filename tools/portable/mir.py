"""The MIR that a proof is of, as the kit writes it down, taken apart: its types, and its bodies as trees of statements.

A body is a list in prefix order: `Seq` and `If` take two statements, `Switch` one for each list of values and one more where it has a
default, `Block` and `Loop` one. `Exit n` leaves the n-th Block or Loop around it, 0 the innermost; a Loop begins again at its end.
Local 0 is the answer, locals 1 to `params` are the parameters. A place is a local and steps from it: Deref, Field, or Variant and Field.
A statement is told here as a tuple, its name first:

    ("assign", place, rvalue)   ("call", function, operands, place)   ("return",)   ("exit", n)
    ("again", operands), a call of the function itself that ends it; and an rvalue of ours, {"Choose": [bool, number, number]}
    ("if", operand, [..], [..])   ("switch", operand, [(values, [..])..], [..] or None)   ("block", [..])   ("loop", [..])
"""
import json


class Refused(Exception):
    """What the printer does not know, by its name."""


def refuse(what):
    raise Refused(what)


def key(node):
    """The name of a node of MIR: of a word itself, of a pair its first part."""
    return node if isinstance(node, str) else next(iter(node))


def told(node):
    """A node as text, for a refusal."""
    return node if isinstance(node, str) else json.dumps(node)[:200]


def is_array(t):
    return key(t) == "Array"


def is_number(t):
    return key(t) == "Int"


def element(t):
    """What an array's elements are, arrays in arrays taken apart."""
    while is_array(t):
        t = t["Array"][0]
    return t


def count(t):
    """How many elements an array has, arrays in arrays taken apart."""
    n = 1
    while is_array(t):
        n, t = n * t["Array"][1]["Lit"], t["Array"][0]
    return n


def erased(node):
    """The same with no lifetime in it: they are for the proof, and two types that differ in them alone are one in C."""
    if isinstance(node, list):
        return [erased(part) for part in node]
    if not isinstance(node, dict):
        return node
    if set(node) == {"Ref"}:
        return {"Ref": ["Erased", node["Ref"][1], erased(node["Ref"][2])]}
    if set(node) == {"Named"}:
        return {"Named": {"name": node["Named"]["name"], "lifetimes": []}}
    return {k: erased(v) for k, v in node.items()}


# ---- bodies as trees

def tree(body):
    """The statements of a body: a list of nodes, Seq and Skip gone."""
    at = 0

    def one():
        nonlocal at
        s = body[at]
        at += 1
        k = key(s)
        if k == "Seq":
            return one() + one()
        if k == "Skip":
            return []
        if k == "Return":
            return [("return",)]
        if k in ("Block", "Loop"):
            return [(k.lower(), one())]
        if k == "Exit":
            return [("exit", s[k])]
        if k == "Assign":
            return [("assign", s[k][0], s[k][1])]
        if k == "LendStatic":
            return [("assign", s[k][0], {"Static": [s[k][1], s[k][2]]})]
        if k == "Unreachable":
            return [("unreachable",)]
        if k == "Call":
            if key(s[k][0]) != "Direct":
                refuse(f"call {told(s[k][0])}")
            return [("call", s[k][0]["Direct"], s[k][1], s[k][2])]
        if k == "If":
            return [("if", s[k], one(), one())]
        if k == "Switch":
            operand, values, default = s[k]
            arms = [(v, one()) for v in values]
            return [("switch", operand, arms, one() if default else None)]
        return refuse(f"statement {told(s)}")

    made = one()
    if at != len(body):
        refuse("a body with statements behind its end")
    return made


def flat(statements):
    """A tree as a body again, in prefix order."""
    if not statements:
        return ["Skip"]
    s, rest = statements[0], statements[1:]
    k = s[0]
    if k in ("block", "loop"):
        made = [k.capitalize(), *flat(s[1])]
    elif k == "if":
        made = [{"If": s[1]}, *flat(s[2]), *flat(s[3])]
    elif k == "switch":
        made = [{"Switch": [s[1], [v for v, _ in s[2]], s[3] is not None]}]
        for _, arm in s[2]:
            made += flat(arm)
        if s[3] is not None:
            made += flat(s[3])
    elif k == "assign":
        made = [{"Assign": [s[1], s[2]]}]
    elif k == "call":
        made = [{"Call": [{"Direct": s[1]}, s[2], s[3]]}]
    elif k == "return":
        made = ["Return"]
    elif k == "exit":
        made = [{"Exit": s[1]}]
    else:
        made = refuse(f"a {k} in a body")
    return ["Seq", *made, *flat(rest)] if rest else made


def operands(rvalue):
    """The operands of an rvalue; the place whose address is taken is no operand."""
    k = key(rvalue)
    v = rvalue[k] if isinstance(rvalue, dict) else None
    if k == "Opd":
        return [v]
    if k == "Op1":
        return [v[1]]
    if k == "Op2":
        return [v[1], v[2]]
    if k in ("Aggregate", "Choose"):
        return list(v)
    if k == "Repeat":
        return [v[0]]
    if k in ("AddrOf", "Static"):
        return []
    return refuse(f"rvalue {told(rvalue)}")


def local_of(operand):
    """The local that an operand reads, if it reads one."""
    return operand[key(operand)]["local"] if key(operand) in ("Copy", "Move") else None


def read_locals(s):
    """The locals that a statement reads itself, each as often as it does; those of the statements inside it are not among them."""
    if s[0] == "assign":
        found = [local_of(o) for o in operands(s[2])]
        if key(s[2]) == "AddrOf":
            found.append(s[2]["AddrOf"]["local"])
        if any(key(step) == "Deref" for step in s[1]["steps"]):
            found.append(s[1]["local"])
        return [x for x in found if x is not None]
    if s[0] == "call":
        return [x for x in map(local_of, s[2]) if x is not None]
    if s[0] == "again":
        return [x for x in map(local_of, s[1]) if x is not None]
    if s[0] in ("if", "switch"):
        x = local_of(s[1])
        return [] if x is None else [x]
    if s[0] == "return":
        return [0]
    return []


def inside(s):
    """The lists of statements inside a statement."""
    if s[0] in ("block", "loop"):
        return [s[1]]
    if s[0] == "if":
        return [s[2], s[3]]
    if s[0] == "switch":
        return [a for _, a in s[2]] + ([s[3]] if s[3] is not None else [])
    return []


def every(statements):
    """All statements, those inside others too, in order."""
    for s in statements:
        yield s
        for part in inside(s):
            yield from every(part)


def mentions(s):
    """The locals that a statement reads or writes itself."""
    found = read_locals(s)
    if s[0] == "assign":
        found.append(s[1]["local"])
    if s[0] == "call":
        found.append(s[3]["local"])
    return found


def without(statements, gone):
    """The statements without those that are gone, which are told by identity."""
    made = []
    for s in statements:
        if id(s) in gone:
            continue
        if s[0] in ("block", "loop"):
            s = (s[0], without(s[1], gone))
        elif s[0] == "if":
            s = ("if", s[1], without(s[2], gone), without(s[3], gone))
        elif s[0] == "switch":
            s = ("switch", s[1], [(v, without(a, gone)) for v, a in s[2]], None if s[3] is None else without(s[3], gone))
        made.append(s)
    return made
