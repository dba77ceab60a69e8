"""The functions that the exports reach, each at the types at which it is called: the toolchain's MIR without type parameters.

The toolchain writes a generic function down once, with numbers in place of its types and of the impls that it is given. Here each call is
followed with its own types and impls, as the toolchain follows it where it makes machine code. A function at its types is an instance, and
a function of its own. mir.py and printer.py read what comes out. The rules, by the names under which tools/portable/test tries them:

    instances   A call goes to the function that the MIR names, or to the method of the impl that the MIR names, at the types that the MIR
                gives it. The first instance of a function has the function's name, the second has `name.2`, and so on; so have types.
    nothing     A type without bytes, as that of a closure that takes nothing along, is Unit, and so is a reference to one. A field, a
                parameter or a value of such a type is left out, with what is done to it alone.
    idle        A call of a function that writes nothing that is lent and has no answer is left out: the end of a value that owns nothing is
                such a one. By the proof every call ends.
    never       What the MIR calls unreachable never runs, by the proof. It is left out, with the test or the case that would lead there and
                with what leads there alone.
"""
import json

import mir
from mir import every, inside, key, refuse, told

UNIT = "Unit"


def substituted(node, types):
    """A node of MIR with its type parameters filled in and no lifetime in it."""
    if isinstance(node, list):
        return [substituted(part, types) for part in node]
    if not isinstance(node, dict):
        return node
    if set(node) == {"Param"}:
        return types[node["Param"]]
    if set(node) == {"Ref"}:
        return {"Ref": ["Erased", node["Ref"][1], substituted(node["Ref"][2], types)]}
    if set(node) == {"Named"}:
        return {"Named": [node["Named"][0]["name"], substituted(node["Named"][1], types)]}
    if set(node) == {"Const"}:
        return {"Lit": node["Const"]}
    return {k: substituted(v, types) for k, v in node.items()}


def constant(t):
    """The number that stands where a type does."""
    if key(t) != "Lit":
        refuse(f"constant {told(t)}")
    return t["Lit"]


def frozen(node):
    """A node of MIR as the key of a table."""
    return json.dumps(node, sort_keys=True)


def shown(t):
    """A type in words, for a comment."""
    k = key(t)
    if k == "Int":
        return f"u{t['Int']}"
    if k == "Lit":
        return str(t[k])
    if k == "Array":
        return f"[{shown(t['Array'][0])}; {shown(t['Array'][1])}]"
    if k == "Ref":
        return f"&{'mut ' if t['Ref'][1] == 'Mut' else ''}{shown(t['Ref'][2])}"
    if k == "Struct":
        at = t["Struct"][1][0]["Ref"]
        return f"&{'mut ' if at[1] == 'Mut' else ''}[{shown(at[2])}]"
    if k == "Named":
        name, parts = t["Named"]
        return name + (f"<{', '.join(map(shown, parts))}>" if parts else "")
    return {"Unit": "()", "Bool": "bool"}.get(k, k)


class Instances:
    """All instances that some functions without type parameters reach: `items`, by name, in the words of mir.py."""

    def __init__(self, functions, first):
        self.functions = functions
        self.shapes, self.impls = {}, {}
        for f in functions.values():
            for t in f["types"]:
                if self.shapes.setdefault(t["name"], t["shape"]) != t["shape"]:
                    refuse(f"two shapes of {t['name']}")
            for i in f["generics"]["impls"]:
                if self.impls.setdefault(i["name"], i["methods"]) != i["methods"]:
                    refuse(f"two lists of the methods of {i['name']}")
        self.names, self.numbers, self.sizes, self.made_shapes = {}, {}, {}, {}
        self.found, self.todo, self.items = {}, [], {}
        for name in first:
            self.named_instance(name, [], [])
        while self.todo:
            self.follow(*self.todo.pop(0))
        self.leave_out_never()
        self.leave_out_idle()
        for name, f in self.found.items():
            self.items[name] = Lowered(self, f).item

    # -- names

    def name(self, what, name):
        """The name of an instance or of a type at its own types; the second of a name is numbered."""
        what = frozen(what)
        if what not in self.names:
            self.numbers[name] = self.numbers.get(name, 0) + 1
            self.names[what] = name if self.numbers[name] == 1 else f"{name}.{self.numbers[name]}"
        return self.names[what]

    def named_instance(self, name, types, impls):
        new = frozen([name, types, impls]) not in self.names
        found = self.name([name, types, impls], name)
        if new:
            self.todo.append((found, name, types, impls))
        return found

    # -- which function a call is one of

    def impl(self, node, types, given):
        """The impl that a call hands on: its name, its types and the impls that it is given itself."""
        if key(node) == "Given":
            return given[node["Given"]]
        if key(node) == "Impl":
            name, parts, more = node["Impl"]
            return [name, substituted(parts, types), [self.impl(m, types, given) for m in more]]
        return refuse(f"impl {told(node)}")

    def called(self, callee, types, given):
        """The name of the instance that a call is one of."""
        k = key(callee)
        if k == "Fn":
            name, at = callee[k]
            parts, impls = [], []
        elif k == "Method":
            impl, place, at = callee[k]
            of, parts, impls = self.impl(impl, types, given)
            if of not in self.impls:
                refuse(f"impl {of}")
            name = self.impls[of][place]
        else:
            return refuse(f"call {told(callee)}")
        return self.named_instance(name, parts + substituted(at["types"], types), impls + [self.impl(m, types, given) for m in at["dicts"]])

    def follow(self, here, name, types, given):
        """Finds an instance's body, with the calls in it named."""
        if name not in self.functions:
            refuse(f"function {name}: it has no MIR")
        f = self.functions[name]
        if len(types) != len(f["generics"]["types"]) or len(given) != len(f["generics"]["bounds"]) or name.endswith("+decl"):
            refuse(f"function {name} at {', '.join(map(shown, types))}")
        body = []
        for s in f["body"]:
            if key(s) == "Call":
                callee, operands, place = s["Call"]
                body.append({"Call": [{"Direct": self.called(callee, types, given)}, substituted(operands, types), substituted(place, types)]})
            else:
                body.append(substituted(s, types))
        note = name + (f" at {', '.join(map(shown, types))}" if types else "")
        locals_ = [substituted(x["ty"], types) for x in f["locals"]]
        self.found[here] = {"of": name, "note": note, "params": f["params"], "locals": locals_, "tree": mir.tree(body)}

    # -- what never runs, and what does nothing

    def leave_out_never(self):
        """Leaves out what is unreachable, and the calls of a function that is."""
        never, more = set(), True
        while more:
            more = False
            for name, f in self.found.items():
                if name in never:
                    continue
                f["tree"], ends = cut(f["tree"], never)
                if ends:
                    never.add(name)
                    more = True

    def leave_out_idle(self):
        idle, more = set(), True
        while more:
            more = False
            for name, f in self.found.items():
                if name not in idle and f["locals"][0] == UNIT and all(does_nothing(s, idle) for s in every(f["tree"])):
                    idle.add(name)
                    more = True
        for f in self.found.values():
            f["tree"] = mir.without(f["tree"], {id(s) for s in every(f["tree"]) if s[0] == "call" and s[1] in idle})

    # -- types

    def fields(self, t, variant=None):
        """The types of a struct's fields, or of a variant's, behind its tag."""
        if key(t) == "Struct":
            return t["Struct"][1]
        name, parts = t["Named"]
        shape = self.shapes[name]
        if "Fields" in shape:
            return substituted(shape["Fields"], parts)
        if variant is None:
            refuse(f"a field of {shown(t)}")
        return [{"Int": 8}] + substituted(shape["Variants"][variant], parts)

    def is_nothing(self, t):
        """Whether a type has no bytes that anything reads."""
        what = frozen(t)
        if what not in self.sizes:
            k = key(t)
            if k == "Array":
                self.sizes[what] = constant(t["Array"][1]) == 0 or self.is_nothing(t["Array"][0])
            elif k == "Ref":
                self.sizes[what] = self.is_nothing(t["Ref"][2])
            elif k == "Named" and "Fields" in self.shapes[t["Named"][0]]:
                self.sizes[what] = all(map(self.is_nothing, self.fields(t)))
            else:
                self.sizes[what] = t == UNIT
        return self.sizes[what]

    def type(self, t):
        """A type without type parameters in it: a named one has a name of its own."""
        if self.is_nothing(t):
            return UNIT
        k = key(t)
        if k == "Array":
            return {"Array": [self.type(t["Array"][0]), {"Lit": constant(t["Array"][1])}]}
        if k == "Ref":
            return {"Ref": ["Erased", t["Ref"][1], self.type(t["Ref"][2])]}
        if k == "Struct":
            if t["Struct"][0] != "&[]" or self.is_nothing(t["Struct"][1][0]):
                refuse(f"type {told(t)}")
            return {"Struct": ["&[]", [self.type(part) for part in t["Struct"][1]]]}
        if k == "Named":
            return {"Named": {"name": self.shape(t), "lifetimes": []}}
        if k in ("Bool", "Int", "Ptr"):
            return t
        return refuse(f"type {told(t)}")

    def shape(self, t):
        """The name of a named type at its types, whose shape is made."""
        name = self.name(t, t["Named"][0])
        if name not in self.made_shapes:
            shape = self.shapes[t["Named"][0]]
            self.made_shapes[name] = None
            if "Fields" in shape:
                made = {"Fields": self.some(self.fields(t))}
            else:
                made = {"Variants": [self.some(self.fields(t, v)[1:]) for v in range(len(shape["Variants"]))]}
            self.made_shapes[name] = {"name": name, "note": shown(t), "shape": made}
        return name

    def some(self, types):
        return [self.type(t) for t in types if not self.is_nothing(t)]


def does_nothing(s, idle):
    """Whether a statement writes nothing that is lent, those inside it aside."""
    if s[0] == "assign":
        return not any(key(step) == "Deref" for step in s[1]["steps"])
    if s[0] == "call":
        return s[1] in idle
    return True


def cut(statements, never):
    """The statements without what never runs; and whether all of them never run."""
    made = []
    for s in statements:
        if s[0] == "unreachable" or s[0] == "call" and s[1] in never:
            return cut_back(made)
        if s[0] in ("block", "loop"):
            part, ends = cut(s[1], never)
            if ends:
                return cut_back(made)
            s = (s[0], part)
        elif s[0] == "if":
            (then, a), (otherwise, b) = cut(s[2], never), cut(s[3], never)
            if a and b:
                return cut_back(made)
            if a or b:
                made += otherwise if a else then
                continue
            s = ("if", s[1], then, otherwise)
        elif s[0] == "switch":
            arms = [(v, *cut(arm, never)) for v, arm in s[2]]
            default, b = (None, True) if s[3] is None else cut(s[3], never)
            left = [(v, arm) for v, arm, ends in arms if not ends]
            if b and not left:
                return cut_back(made)
            if b and len(left) == 1 or not b and not left:
                made += left[0][1] if left else default
                continue
            s = ("switch", s[1], left, None if b else default)
        made.append(s)
    return made, False


def cut_back(made):
    """The same of a list behind whose end something never runs: what leads there alone never runs either."""
    while made:
        s = made[-1]
        if s[0] in ("return", "exit"):
            return made, False
        if s[0] in ("if", "switch"):
            arms = [cut_back(list(arm)) for arm in inside(s)]
            left = [arm for arm, ends in arms if not ends]
            if left:
                if len(left) == len(arms):
                    return made, False
                if len(left) == 1:
                    return made[:-1] + left[0], False
                refuse("a switch of which a part never runs")
        elif s[0] not in ("assign", "call"):
            refuse(f"a {s[0]} behind which nothing runs")
        made = made[:-1]
    return made, True


class Lowered:
    """One instance without type parameters and without what has no bytes."""

    def __init__(self, instances, f):
        self.instances, self.types = instances, f["locals"]
        nothing = [instances.is_nothing(t) for t in self.types]
        given = [x for x in range(1, f["params"] + 1) if not nothing[x]]
        order = [0, *given, *(x for x in range(1, len(self.types)) if x not in given)]
        self.number = {x: i for i, x in enumerate(order)}
        locals_ = [{"ty": instances.type(self.types[x])} for x in order]
        self.named = {}
        for x in locals_:
            self.name_types(x["ty"])
        self.gone = set()                   # pointers to what has no bytes
        tree = self.statements(f["tree"])
        for s in every(tree):
            if self.gone & set(mir.mentions(s)):
                refuse(f"a pointer to nothing in {f['note']}")
        self.item = {"of": f["of"], "note": f["note"], "params": len(given), "locals": locals_, "body": mir.flat(tree)}
        self.item["types"] = list(self.named.values())

    def name_types(self, t):
        """Puts the named types in a type among those that the instance mentions."""
        k = key(t)
        if k == "Array":
            self.name_types(t["Array"][0])
        elif k == "Ref":
            self.name_types(t["Ref"][2])
        elif k == "Struct":
            self.name_types(t["Struct"][1][0])
        elif k == "Named" and t["Named"]["name"] not in self.named:
            made = self.instances.made_shapes[t["Named"]["name"]]
            self.named[made["name"]] = made
            shape = made["shape"]
            for part in shape["Fields"] if "Fields" in shape else [part for variant in shape["Variants"] for part in variant]:
                self.name_types(part)

    def statements(self, all_):
        made = []
        for s in all_:
            if s[0] == "assign":
                to, t = self.place(s[1])
                if to is None:
                    continue
                if key(s[2]) == "AddrOf" and self.place(s[2]["AddrOf"])[0] is None:
                    self.gone.add(to["local"])
                    continue
                s = ("assign", to, self.rvalue(s[2]))
            elif s[0] == "call":
                to, t = self.place(s[3])
                if to is None:
                    if s[3]["steps"]:
                        refuse(f"an answer {shown(t)} that goes to {told(s[3])}")
                    to = {"local": self.number[s[3]["local"]], "steps": []}
                s = ("call", s[1], self.some(s[2]), to)
            elif s[0] in ("block", "loop"):
                s = (s[0], self.statements(s[1]))
            elif s[0] == "if":
                s = ("if", self.operand(s[1]), self.statements(s[2]), self.statements(s[3]))
            elif s[0] == "switch":
                s = ("switch", self.operand(s[1]), [(v, self.statements(a)) for v, a in s[2]], None if s[3] is None else self.statements(s[3]))
            made.append(s)
        return made

    def some(self, operands):
        return [o for o in map(self.operand, operands) if o is not None]

    def rvalue(self, r):
        k = key(r)
        v = r[k]
        if k == "Opd":
            return {k: self.operand(v)}
        if k in ("Op1", "Op2"):
            made = {k: [v[0], *map(self.operand, v[1:])]}
            return refuse(f"an operation of nothing: {told(r)}") if None in made[k] else made
        if k == "Aggregate":
            return {k: self.some(v)}
        if k == "Repeat":
            return {k: [self.operand(v[0]), constant(v[1]) if isinstance(v[1], dict) else v[1]]}
        if k == "Static":
            self.name_types(self.instances.type(v[0]))
            return {k: [self.instances.type(v[0]), v[1]]}
        if k == "AddrOf":
            return {k: self.place(v)[0]}
        return refuse(f"rvalue {told(r)}")

    def operand(self, o):
        """An operand; nothing where it has no bytes."""
        k = key(o)
        if k in ("Copy", "Move"):
            place, _ = self.place(o[k])
            return None if place is None else {k: place}
        if k == "NumOf":
            return {"Int": {"width": o[k][0], "value": constant(o[k][1])}}
        if k == "SizeOf":
            t = self.instances.type(o[k])
            if t == UNIT:
                refuse(f"the size of {shown(o[k])}")
            if key(t) == "Int" or t == "Bool":
                return {"Int": {"width": 64, "value": 1 if t == "Bool" else t["Int"] // 8}}
            self.name_types(t)
            return {k: t}
        if o == UNIT:
            return None
        if k == "Int" or o in ("True", "False"):
            return o
        return refuse(f"operand {told(o)}")

    def place(self, place):
        """A place and its type; no place where it has no bytes."""
        t, variant, steps = self.types[place["local"]], None, []
        nothing = self.instances.is_nothing(t)
        for step in place["steps"]:
            k, v = next(iter(step.items()))
            if k == "Deref":
                t = v
                nothing = nothing or self.instances.is_nothing(t)
                steps.append({k: None if nothing else self.instances.type(t)})
            elif k == "Variant":
                variant = v
                steps.append(step)
            elif k == "Field":
                fields = self.instances.fields(t, variant)
                steps.append({k: sum(not self.instances.is_nothing(f) for f in fields[:v])})
                t, variant = fields[v], None
                nothing = nothing or self.instances.is_nothing(t)
            else:
                refuse(f"step {told(step)}")
        return (None if nothing else {"local": self.number[place["local"]], "steps": steps}), t
