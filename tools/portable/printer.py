"""Prints the proved MIR of a Rattle library as one C file. tools/portable/make calls it; tools/portable/test tries each rule below.

It reads what instances.py makes of the MIR, in which no function has a type parameter; that file has the rules by which it does so.

The rules, by the names under which tools/portable/test tries them:

    words       A number of 64 bits is a uint64_t on every machine, since the proof is of 64-bit words; no other width stands for it.
    narrow      Sums, differences, products, quotients, remainders, `and` and `or` below 32 bits are worked out in uint32_t and cut back:
                C would promote them to int. 32 and 64 bits are worked out in their own type. No shift is known.
    wraps       A sum of 32 bits that wraps is the sum modulo 2 to the 32, a named function; no other operation wraps.
    signed      No signed type stands in the file. Signed numbers, of 64 bits alone, are uint64_t: a sum or a product that is proved to
                fit has the same bits, and an order is that of the two words with their top bit turned. Each is a named function.
    offsets     An offset is a number of bytes of the proved layout, and is added to a `uint8_t *` alone. The size of every type of numbers
                that a pointer leads to is asserted.
    sizes       A size that the MIR names by its type is C's sizeof of that type: a type with a pointer or a variant in it has the size that
                the machine gives it, and arrays of it are made and gone through by the same size. An offset to such a type, by any other
                number, is refused.
    elements    Memory that is lent is read and written through its own element type. A pointer to an array is a pointer to its first
                element; a struct is read or written whole only where that struct stands. Whole arrays are copied by memcpy, and none from
                lent memory to lent memory.
    references  A reference to a value is a pointer to it, and may stand in a struct. A local whose address is taken stays a local. A raw
                pointer that a struct keeps is one to write through.
    const       What is lent for reading is a pointer to const, and no cast takes a const away.
    null        NULL enters no sum and no memcpy: a pointer that is handed on, and not followed alone, is made by a function that adds nothing
                where 0 is to be added. The part of a slice that begins at 0 is the slice's own pointer. A pointer that is followed alone is
                followed before the next test.
    lent        A constant that a function lends is a `static const` object. A struct that its address goes into is made member by member:
                gcc keeps a whole one ready, for some machines among what is not constant.
    header      Each export is defined with the header's own types and parameter names, and the structs that it takes or answers are the
                header's: their members are held, one by one, to the fields of the MIR.
    temporaries A temporary is left out only where each of its values is read once, and by the very next statement.
    constants   An array that is listed from constants, and is written by nothing else and lent for no writing, is a `static const`
                object and no local. So is a local array that a call fills with such a constant, where the called function does nothing
                else, nothing was read of the array before, and nothing writes to it afterwards.
    choice      An `if` that does nothing but choose between two numbers, each a local or a constant, is printed without a branch: one that
                sets a local to either, or one that answers either.
    tail        A function that calls itself as the last thing it does goes back to its beginning instead, where no local of its own is
                lent to the call.
    inline      Every function but an export is `static inline`. One that is called with a direction, or another variant, that is written at
                the call is IN_LINE, as are closures and the functions of the kit: for gcc and clang, where they compile for speed, always
                in line; for others the same as the rest. One of which the source says `inline(never)` is NOT_IN_LINE, for gcc and clang
                never in line, and so is one whose answer has more than 1,000 bytes: it works on a stack of its own, which is free again
                when it ends. These are hints, and change no answer.
    exits       An exit of a block around a loop is a `break` where nothing else stands between, and a `goto` behind the block otherwise.
    unroll      Before a loop of at most ten turns, by a constant, in which no other loop runs, and before any of at most four, stands UNROLL:
                for gcc and clang, where they compile for speed, a hint, and nothing else.
    switch      The last case of a switch without a default is printed as its default: the proof says that no other value comes.
    table       A switch without a default on 0, 1, 2 and so on, in which each arm does nothing but call one function with constants, is
                printed as one call: an argument that is not the same in all arms is read from a `static const` table, since the proof
                says that no other value comes. A compiler that made a jump of such a switch took twice the archive's time for arrivals.
    refused     Every operation, type, statement or function that is not named in this file is refused by its name.
"""
import re

from mir import (count, element, erased, every, inside, is_array, is_number, key, local_of, mentions, operands, read_locals, refuse, told, tree,
                 without)

WIDTHS = (8, 16, 32, 64)
TURNS, TURNS_AROUND = 10, 4     # the hint to unroll: of a loop without another in it, and of any other
LARGE = 1000            # a function whose answer has more bytes is kept apart, so that the memory that it works in is given back at its end
LONGEST = 110           # a temporary is not left out where the text that stands for it would be longer

# Unsigned operations on numbers, and those on bools; each with its sign in C.
ARITHMETIC = {"Add": "+", "Sub": "-", "Mul": "*", "Div": "/", "Rem": "%"}
BITS = {"And": "&", "Or": "|"}
ORDERS = {"Lt": "<", "Le": "<="}
EQUALS = {"Eq": "==", "Ne": "!="}
OF_BOOLS = {"And": "&", "Or": "|", "Eq": "==", "Ne": "!="}
SIGNED = {"Add": "signed_sum", "Mul": "signed_product", "Lt": "signed_less", "Le": "signed_at_most"}

HELPERS = {
    "wrapping_add_u32": """\
/* The sum modulo 4294967296. */
MAY_WRAP static inline uint32_t wrapping_add_u32(uint32_t a, uint32_t b)
{
    return a + b;
}
""",
    "signed_sum": """\
/* The sum of two signed words, which is proved to fit: as unsigned words they have the same sum modulo 2 to the 64. */
MAY_WRAP static inline uint64_t signed_sum(uint64_t a, uint64_t b)
{
    return a + b;
}
""",
    "signed_product": """\
/* The product of two signed words, which is proved to fit: as unsigned words they have the same product modulo 2 to the 64. */
MAY_WRAP static inline uint64_t signed_product(uint64_t a, uint64_t b)
{
    return a * b;
}
""",
    "signed_less": """\
/* Whether a signed word is below another: with their top bits turned, the unsigned words stand in that order. */
static inline bool signed_less(uint64_t a, uint64_t b)
{
    return (a ^ UINT64_C(0x8000000000000000)) < (b ^ UINT64_C(0x8000000000000000));
}
""",
    "signed_at_most": """\
/* Whether a signed word is at most another, told in the same way. */
static inline bool signed_at_most(uint64_t a, uint64_t b)
{
    return (a ^ UINT64_C(0x8000000000000000)) <= (b ^ UINT64_C(0x8000000000000000));
}
""",
    **{f"choose_uint{width}_t": f"""\
/* One of two numbers, without a branch: the first where the bool holds. */
static inline uint{width}_t choose_uint{width}_t(bool first, uint{width}_t a, uint{width}_t b)
{{
    {wide} mask = ({wide})first * UINT{width}_MAX;
    return {cut}((({wide})a & mask) | (({wide})b & (mask ^ UINT{width}_MAX)));
}}
""" for width, wide, cut in ((8, "uint32_t", "(uint8_t)"), (16, "uint32_t", "(uint16_t)"), (32, "uint32_t", ""), (64, "uint64_t", ""))},
    "part": """\
/* The part of lent memory that begins so many bytes on. Where nothing is lent the pointer may be NULL, and NULL enters no sum. */
static inline const uint8_t *part(const uint8_t *at, uint64_t bytes)
{
    return bytes == 0 ? at : at + bytes;
}
""",
    "part_to_write": """\
/* The same of memory that is lent for writing. */
static inline uint8_t *part_to_write(uint8_t *at, uint64_t bytes)
{
    return bytes == 0 ? at : at + bytes;
}
""",
}


# How tightly a text of C binds: a name or a call, a cast or a unary sign, a binary sign.
POSTFIX, UNARY, BINARY = 3, 2, 1


# ---- the header

class Header:
    """The structs and prototypes of a header: what each export takes and answers, in C's words."""

    def __init__(self, text):
        text = re.sub(r"/\*.*?\*/", " ", text, flags=re.S)
        self.structs = {}
        for body, name in re.findall(r"typedef struct \{(.*?)\}\s*(\w+)\s*;", text, flags=re.S):
            members = []
            for declared in filter(None, map(str.strip, body.split(";"))):
                m = re.fullmatch(r"(\w+)\s+(\w+)(?:\[(\d+)\])?", declared)
                if not m:
                    refuse(f"member `{declared}` of the header's {name}")
                members.append((m[1], m[2], int(m[3]) if m[3] else None))
            self.structs[name] = members
        self.functions = {}
        for answer, name, words in re.findall(r"^(\w+) (\w+)\(([^()]*)\)\s*;", text, flags=re.M):
            parameters = []
            for declared in filter(None, map(str.strip, words.split(","))):
                if declared == "void":
                    continue
                m = re.fullmatch(r"(const )?(\w+) (\*?)(\w+)", " ".join(declared.split()))
                if not m or re.fullmatch(r"(x|nx|a|k|out)\d+|\w*__\w*", m[4]):      # names of our own
                    refuse(f"parameter `{declared}` of the header's {name}")
                parameters.append((bool(m[1]), m[2], bool(m[3]), m[4]))
            self.functions[name] = (answer, parameters)


# ---- types

class Types:
    """The types of MIR in C, and the declarations that they need, in order."""

    def __init__(self, shapes, header, notes):
        self.shapes, self.header, self.notes = shapes, header, notes
        self.bound = {}             # a named type of MIR: the header's struct
        self.declared = {}          # a type's name in C: its declaration
        self.elements = {}          # a type of which there are arrays: its size

    def bind(self, t, word, many, where):
        """Holds a type of MIR to the header's words for it."""
        if many is not None:
            if not is_array(t) or count(t) != many or is_array(t["Array"][0]):
                refuse(f"{where}: the header has an array of {many}, the MIR {told(t)}")
            self.bind(element(t), word, None, where)
            return
        if is_number(t):
            fits = (f"uint{t['Int']}_t",) + (("size_t",) if t["Int"] == 64 else ())
        elif t == "Bool":
            fits = ("bool",)
        elif key(t) == "Named":
            self.bind_struct(t["Named"]["name"], word, where)
            return
        else:
            fits = ()
        if word not in fits:
            refuse(f"{where}: the header has {word}, the MIR {told(t)}")

    def bind_struct(self, name, word, where):
        if self.bound.get(name) == word:
            return
        if name in self.bound or word in self.bound.values() or word not in self.header.structs:
            refuse(f"{where}: the header has {word} for {name}")
        fields, members = self.shapes[name].get("Fields"), self.header.structs[word]
        if fields is None or len(fields) != len(members):
            refuse(f"{where}: {word} of the header has other members than {name}")
        self.bound[name] = word
        for field, (kind, member, many) in zip(fields, members):
            self.bind(field, kind, many, f"{word}.{member}")

    def c(self, t):
        """The C type of a value."""
        k = key(t)
        if t == "Bool":
            return "bool"
        if k == "Int" and t["Int"] in WIDTHS:
            return f"uint{t['Int']}_t"
        if k == "Array":
            return self.array(t)
        if k == "Struct":
            return self.slice(t)
        if k == "Ref":
            return self.pointer(t)
        if k == "Named":
            return self.named(t["Named"]["name"])
        if t == "Ptr":
            return "uint8_t *"
        return refuse(f"type {told(t)}")

    def pointer(self, t):
        """A reference: a pointer to a value, of an array to its first element; to const where it is lent for reading."""
        mode, of = t["Ref"][1], element(t["Ref"][2])
        if mode not in ("Imm", "Mut"):
            refuse(f"type {told(t)}")
        self.size_of_element(of)
        return pointer_to(self.c(of), mode == "Imm")

    def array(self, t):
        of = element(t)
        self.size_of_element(of)
        name = f"array_{count(t)}_{as_word(self.c(of))}"
        self.declare(name, f"typedef struct {{ {self.c(of)} at[{count(t)}]; }} {name};")
        return name

    def slice(self, t):
        if t["Struct"][0] != "&[]" or len(t["Struct"][1]) != 2 or key(t["Struct"][1][0]) != "Ref" or t["Struct"][1][1] != {"Int": 64}:
            refuse(f"type {told(t)}")
        at = t["Struct"][1][0]
        name = f"slice_{'const_' if at['Ref'][1] == 'Imm' else ''}{as_word(self.c(element(at['Ref'][2])))}"
        self.declare(name, f"typedef struct {{ {self.pointer(at)}at; uint64_t length; }} {name};")
        return name

    def named(self, name):
        if name in self.bound:
            return self.bound[name]
        if name not in self.shapes:
            refuse(f"type {name}")
        made, shape = symbol(name), self.shapes[name]
        if "Fields" in shape:
            lines = [self.member(f, f"f{i}") for i, f in enumerate(shape["Fields"])]
        elif "Variants" in shape:
            lines = ["uint8_t tag;"]
            for k, fields in enumerate(shape["Variants"]):
                lines += [self.member(f, f"v{k}_f{i + 1}") for i, f in enumerate(fields)]
        else:
            refuse(f"shape {told(shape)} of {name}")
        self.declare(made, "\n".join([comment(self.notes.get(name, name)), "typedef struct {"] + ["    " + x for x in lines] + [f"}} {made};"]))
        return made

    def member(self, t, name):
        if is_array(t):
            self.size_of_element(element(t))
            return f"{self.c(element(t))} {name}[{count(t)}];"
        return f"{spaced(self.c(t))}{name};"

    def declare(self, name, text):
        self.declared.setdefault(name, text)

    def size_of_element(self, t):
        if self.is_plain(t):
            self.elements.setdefault(self.c(t), self.layout(t)[0])

    def is_plain(self, t):
        """Whether a type's layout has the same number of bytes on every machine, and is known: a number, a bool, a variant where none has
        fields, and arrays and structs of these."""
        t = element(t)
        if key(t) == "Named":
            shape = self.shapes[t["Named"]["name"]]
            return all(map(self.is_plain, shape["Fields"])) if "Fields" in shape else not any(shape["Variants"])
        return is_number(t) or t == "Bool"

    def layout(self, t):
        """The proved size and alignment of a type: fields in order, each at a multiple of its alignment."""
        if is_number(t):
            return t["Int"] // 8, t["Int"] // 8
        if t == "Bool" or key(t) == "Named" and "Variants" in self.shapes[t["Named"]["name"]] and self.is_plain(t):
            return 1, 1
        if is_array(t):
            size, align = self.layout(element(t))
            return size * count(t), align
        if key(t) == "Named" and "Fields" in self.shapes[t["Named"]["name"]]:
            at, most = 0, 1
            for size, align in map(self.layout, self.shapes[t["Named"]["name"]]["Fields"]):
                at, most = -(-at // align) * align + size, max(most, align)
            return -(-at // most) * most, most
        return refuse(f"an array of {told(t)}")

    def bytes(self, t):
        """About how many bytes a value has: those of its numbers, and eight for each pointer."""
        if key(t) == "Named":
            shape = self.shapes[t["Named"]["name"]]
            return sum(map(self.bytes, (f for fields in shape.get("Variants", [shape.get("Fields")]) for f in fields)))
        return self.layout(t)[0] if is_number(t) else self.bytes(element(t)) * count(t) if is_array(t) else 8

    def field(self, t, i):
        """The type and the C name of a field."""
        if key(t) == "Struct":
            return t["Struct"][1][i], ("at", "length")[i]
        if key(t) != "Named" or "Fields" not in self.shapes[t["Named"]["name"]]:
            refuse(f"field {i} of {told(t)}")
        name = t["Named"]["name"]
        member = self.header.structs[self.bound[name]][i][1] if name in self.bound else f"f{i}"
        return self.shapes[name]["Fields"][i], member

    def variant(self, t, k, i):
        """The type and the C name of a field of a variant; field 0 is the tag."""
        shape = self.shapes[t["Named"]["name"]] if key(t) == "Named" else {}
        if "Variants" not in shape:
            refuse(f"variant {k} of {told(t)}")
        return ({"Int": 8}, "tag") if i == 0 else (shape["Variants"][k][i - 1], f"v{k}_f{i}")


# ---- functions

def symbol(name):
    """The name of a function or of a type of MIR as a name of C."""
    name = re.sub(r"\((,+)\)", lambda commas: f"tuple_of_{len(commas[1]) + 1}", name)
    return re.sub(r"\W", "_", name.replace("::", "__"))


def as_word(c):
    """A type of C as a part of a name."""
    return re.sub(r"\W+", "_", c.replace("*", "at").strip())


def spaced(c):
    """A type of C before a name."""
    return c if c.endswith("*") else c + " "


def pointer_to(c, const):
    """A pointer to a type of C; a pointer to a const pointer has its const behind that pointer's star."""
    if c.endswith("*"):
        return f"{c}{'const ' if const else ''}*"
    return f"{'const ' if const else ''}{c} *"


def place_of(x):
    return {"local": x, "steps": []}


def places_of(node):
    """The places that a statement mentions itself."""
    if isinstance(node, dict):
        if "local" in node and "steps" in node:
            return [node]
        node = list(node.values())
    if not isinstance(node, (list, tuple)) or node and node[0] in ("block", "loop"):
        return []
    if node and node[0] in ("if", "switch"):
        node = node[1:2]
    return [place for part in node for place in places_of(part)]


def renamed(node, x, to):
    """A statement, or a part of one, that mentions another local in place of x; no statement that has others inside it."""
    if isinstance(node, (list, tuple)):
        return type(node)(renamed(part, x, to) for part in node)
    if isinstance(node, dict):
        if "local" in node and "steps" in node:
            return {"local": to if node["local"] == x else node["local"], "steps": node["steps"]}
        return {k: renamed(v, x, to) for k, v in node.items()}
    return node


class Function:
    """One function of MIR, printed as C."""

    def __init__(self, name, item, unit):
        self.name, self.item, self.unit, self.types = name, item, unit, unit.types
        self.locals = [x["ty"] for x in item["locals"]]
        self.params = range(1, item["params"] + 1)
        self.names = {}             # a local: its name in C, where that is not x and its number
        self.constants = {}         # a local that is a constant: the constant's name
        self.pending = {}           # a temporary that is left out: the statement that makes it
        self.lines, self.depth, self.used, self.labels, self.fresh, self.scratch = [], 1, set(), [], 0, []
        self.body = tree(item["body"])
        for t in self.locals:
            if key(t) not in ("Int", "Bool", "Unit", "Ptr", "Ref", "Array", "Struct", "Named") or is_number(t) and t["Int"] not in WIDTHS:
                refuse(f"type {told(t)} in {name}")
        for i in self.params:
            if self.locals[i] == "Unit":
                refuse(f"parameter of type {told(self.locals[i])} of {name}")
        if self.locals[0] == "Ptr":
            refuse(f"an answer of type {told(self.locals[0])} of {name}")

    # -- what is looked at before printing

    def prepare(self):
        self.find_constants()
        self.drop_dead()
        self.body = self.find_choices(self.body, self.params)
        self.find_tails()
        self.split_pointers()
        self.to_write = self.written_pointers()
        self.addressed = {s[2]["AddrOf"]["local"] for s in every(self.body)
                          if s[0] == "assign" and key(s[2]) == "AddrOf" and not self.through(s[2]["AddrOf"])}
        self.parts = set()
        self.find_parts(self.body)
        self.refuse_strides()
        self.lent = self.find_lent()
        self.pairs = self.find_pairs()

    def writes(self, x):
        """The statements that write to a local or to a part of it, and not through it."""
        for s in every(self.body):
            p = s[1] if s[0] == "assign" else s[3] if s[0] == "call" else None
            if p is not None and p["local"] == x and not any(key(step) == "Deref" for step in p["steps"]):
                yield s

    def lent_to_write(self, x):
        """Whether memory of a local can be written through an address of it: by a reference for writing, or by a pointer that is written through."""
        pointers = self.written_pointers()
        for s in every(self.body):
            if s[0] == "assign" and key(s[2]) == "AddrOf" and s[2]["AddrOf"]["local"] == x and not self.through(s[2]["AddrOf"]):
                to = s[1]["local"]
                if s[1]["steps"] or self.locals[to] != "Ptr" and not (key(self.locals[to]) == "Ref" and self.locals[to]["Ref"][1] == "Imm"):
                    return True
                if self.locals[to] == "Ptr" and to in pointers:
                    return True
        return False

    @staticmethod
    def through(place):
        return any(key(step) == "Deref" for step in place["steps"])

    def written_pointers(self):
        """The raw pointers that are written through, or that such a pointer or a reference for writing is made of."""
        found, more = set(), True
        while more:
            more = False
            for s in every(self.body):
                if s[0] == "call":
                    own, pointed = s[1] == self.name, any(self.operand_type(o) == "Ptr" for o in s[2])
                    written = found if own else self.unit.written_parameters(s[1]) if pointed else ()
                    new = {local_of(o) for i, o in enumerate(s[2], 1) if i in written} - found
                    found |= new
                    more = more or bool(new)
                if s[0] == "again":
                    new = {local_of(o) for i, o in zip(self.params, s[1]) if i in found and self.operand_type(o) == "Ptr"} - found
                    found |= new
                    more = more or bool(new)
                if s[0] != "assign":
                    continue
                place, new = s[1], set()
                if self.through(place):
                    new.add(place["local"])
                if not place["steps"] and place["local"] in found or self.is_for_writing(self.place_type(place)) or self.keeps_pointer(s):
                    new.update(x for x in read_locals(s) if self.locals[x] == "Ptr")
                new = {x for x in new if self.locals[x] == "Ptr"} - found
                found |= new
                more = more or bool(new)
        return found

    def keeps_pointer(self, s):
        """Whether a statement puts a raw pointer into a struct. There it is one that is written through."""
        t = self.place_type(s[1])
        if t == "Ptr" and s[1]["steps"]:
            return True
        return key(s[2]) == "Aggregate" and key(t) == "Named" and any(self.operand_type(o) == "Ptr" for o in s[2]["Aggregate"])

    @staticmethod
    def is_for_writing(t):
        return key(t) == "Ref" and t["Ref"][1] == "Mut" or key(t) == "Struct" and t["Struct"][1][0]["Ref"][1] == "Mut"

    def constant_value(self, x, known):
        """The elements of a local array that is listed from constants; None where it is not. Of one that is repeated, only as a row."""
        written = list(self.writes(x))
        if not is_array(self.locals[x]) or x in self.params or len(written) != 1 or written[0][0] != "assign" or written[0][1]["steps"]:
            return None
        if self.lent_to_write(x):
            return None
        rvalue = written[0][2]
        if key(rvalue) == "Aggregate":
            parts = rvalue["Aggregate"]
        elif key(rvalue) == "Repeat":
            parts = [rvalue["Repeat"][0]] * rvalue["Repeat"][1]
        else:
            return None
        made = []
        for o in parts:
            if key(o) == "Int":
                made.append(o["Int"]["value"])
            elif local_of(o) is not None and not o[key(o)]["steps"] and known.get(local_of(o)) is not None:
                made += known[local_of(o)]
            else:
                return None
        return made

    def find_constants(self):
        known = {}
        if any(s[0] == "assign" and key(s[2]) == "Aggregate" and is_array(self.locals[s[1]["local"]]) for s in every(self.body)):
            for x in range(len(self.locals)):
                value = self.constant_value(x, known)
                if value is not None:
                    known[x] = value
        listed = {x for x in known if key(next(self.writes(x))[2]) == "Aggregate"}
        rows = {local_of(o) for x in listed for o in next(self.writes(x))[2]["Aggregate"]}
        elsewhere = {x for s in every(self.body) if not (s[0] == "assign" and s[1]["local"] in listed) for x in read_locals(s)}
        for x in sorted(listed):
            if x not in rows or x in elsewhere:
                self.constants[x] = self.unit.constant(self.name, x, self.locals[x], known[x])
        gone = {id(s) for x in known if x in self.constants or x in rows and x not in elsewhere for s in self.writes(x)}
        self.body = without(self.body, gone)
        self.fill_by_calls()

    def fill_by_calls(self):
        """A local array that a call fills with a constant is that constant, where nothing else is done to it."""
        for at, s in enumerate(self.body):
            if s[0] != "call" or len(s[2]) != 1 or self.locals[s[3]["local"]] != "Unit":
                continue
            constant, lent = self.unit.filler(s[1]), local_of(s[2][0])
            if constant is None or lent is None or lent in self.params:
                continue
            made = list(self.writes(lent))
            if len(made) != 1 or made[0][0] != "assign" or key(made[0][2]) != "AddrOf" or made[0][2]["AddrOf"]["steps"]:
                continue
            x = made[0][2]["AddrOf"]["local"]
            before = [w for w in every(self.body[:at]) if x in mentions(w) and w is not made[0]]
            if x in self.params or self.locals[x] != constant[1] or made[0] not in self.body[:at]:
                continue
            if any(w[0] != "assign" or w[1] != {"local": x, "steps": []} or x in read_locals(w) for w in before):
                continue
            if sum(lent in mentions(w) for w in every(self.body)) != 2 or any(w not in before for w in self.writes(x)):
                continue
            kept = self.body
            self.body = without(self.body, {id(made[0]), id(s)} | {id(w) for w in before})
            if self.lent_to_write(x) or any(self.writes(x)):
                self.body = kept
                continue
            self.constants[x] = constant[0]
            return

    def drop_dead(self):
        """Leaves out what is worked out and never read."""
        while True:
            read = {x for s in every(self.body) for x in read_locals(s)}
            gone = {id(s) for s in every(self.body) if s[0] == "assign" and not s[1]["steps"] and s[1]["local"] not in read
                    and s[1]["local"] != 0}
            if not gone:
                return
            self.body = without(self.body, gone)

    def followed(self):
        """The types at which each raw pointer is followed: by itself, by a copy of it, by a pointer made of it, and in what it is handed to."""
        found = {x: [] for x, t in enumerate(self.locals) if t == "Ptr"}

        def add(x, types):
            new = [t for t in types if t not in found[x]]
            found[x] += new
            return bool(new)

        more = True
        while more:
            more = False
            for s in every(self.body):
                for place in places_of(s):
                    if place["local"] in found and place["steps"]:
                        more |= add(place["local"], [element(place["steps"][0]["Deref"])])
                handed = operands(s[2]) if s[0] == "assign" else s[2] if s[0] == "call" else s[1] if s[0] == "again" else []
                for i, o in enumerate(handed):
                    if local_of(o) in found and not o[key(o)]["steps"]:
                        more |= add(local_of(o), self.types_behind(s, i, found))
        return found

    def types_behind(self, s, i, found):
        """The types at which operand i of a statement, a raw pointer, is followed behind it."""
        if s[0] == "again" or s[0] == "call" and s[1] == self.name:
            return list(found.get(i + 1, ()))
        if s[0] == "call":
            return self.unit.followed_parameters(s[1]).get(i + 1, [])
        t = self.place_type(s[1])
        if key(s[2]) == "Aggregate":
            t = self.members(s[2]["Aggregate"], t)[i][0]
        if t == "Ptr":
            return list(found.get(s[1]["local"], ())) if not s[1]["steps"] and key(s[2]) != "Aggregate" else []
        return [element(t["Ref"][2])] if key(t) == "Ref" else []

    def refuse_strides(self):
        """Refuses an offset to a type whose size is the machine's, where it is not worked out from that size."""
        followed, sizes = self.followed(), {}
        for s in every(self.body):
            if s[0] == "assign" and not s[1]["steps"] and self.locals[s[1]["local"]] == {"Int": 64}:
                sizes.setdefault(s[1]["local"], []).append(self.size_in(s[2]))
        for s in every(self.body):
            if s[0] == "assign" and key(s[2]) == "Op2" and key(s[2]["Op2"][0]) == "Offset":
                by = sizes.get(local_of(s[2]["Op2"][2]), [None])
                for t in followed[s[1]["local"]]:
                    if not self.types.is_plain(t) and any(size != t for size in by):
                        refuse(f"an offset to a {told(t)} that is not by its size in {self.name}")

    @staticmethod
    def size_in(r):
        """The type of whose size an rvalue is a multiple."""
        named = [o["SizeOf"] for o in r["Op2"][1:] if key(o) == "SizeOf"] if key(r) == "Op2" and key(r["Op2"][0]) == "Mul" else []
        return element(named[0]) if len(named) == 1 else None

    def find_lent(self):
        """The locals that are the address of a constant that the function lends, and of its first element."""
        found = set()
        for s in every(self.body):
            if s[0] == "assign" and (key(s[2]) == "Static" or key(s[2]) == "AddrOf" and s[2]["AddrOf"]["local"] in found):
                found.add(s[1]["local"])
        return found

    def find_pairs(self):
        """The statements whose value may be left out: each value of the local is read once, by the next statement."""
        reads, after = {}, {}
        for s in every(self.body):
            for x in read_locals(s):
                reads[x] = reads.get(x, 0) + 1

        def look(statements):
            carried = None              # a local whose value has a call in it, and is left out
            for s, then in zip(statements, statements[1:]):
                x, calls = self.made_by(s), s[0] == "call" or carried in read_locals(s)
                carried = None
                if x is not None and read_locals(then).count(x) == 1 and self.takes(then, x, calls):
                    after.setdefault(x, []).append(s)
                    carried = x if calls else None
            for s in statements:
                for part in inside(s):
                    look(part)

        look(self.body)
        return {id(s) for x, found in after.items() if reads[x] == len(found) for s in found}

    def made_by(self, s):
        """The local that a statement makes as a whole, where it may be a temporary."""
        place = s[1] if s[0] == "assign" else s[3] if s[0] == "call" else None
        if place is None or place["steps"] or place["local"] in self.params or place["local"] in self.constants \
                or place["local"] in self.addressed:
            return None
        t = self.locals[place["local"]]
        if s[0] == "assign" and is_array(t) and key(s[2]) == "Opd" and place["local"] == 0 and not s[2]["Opd"][key(s[2]["Opd"])]["steps"]:
            return 0
        if t == "Unit" or s[0] == "assign" and (is_array(t) or key(s[2]) == "Repeat" or key(s[2]) == "Aggregate" and self.is_by_members(s[2], t)):
            return None
        return place["local"]

    def is_by_members(self, r, t):
        """Whether an aggregate is made member by member: one with an array in it, or with a constant's address."""
        if any(local_of(o) in self.lent for o in r["Aggregate"]):
            return True
        if key(t) == "Struct":
            return False
        if key(t) != "Named":
            return True
        shape = self.types.shapes[t["Named"]["name"]]
        return any(is_array(f) for fields in shape.get("Variants", [shape.get("Fields")]) for f in fields)

    def takes(self, then, x, calls):
        """Whether the next statement may have the expression in the local's place. One with a call in it goes where nothing else is worked
        out beside it, and once: into a test, an answer, or a copy."""
        if then[0] in ("if", "return"):
            return True
        if then[0] in ("assign", "call"):
            to = then[1] if then[0] == "assign" else then[3]
            if to["local"] == x and not self.through(to):
                return False
        if then[0] == "switch":
            return not (calls and self.calls_of(then))
        if then[0] == "again":
            return not calls
        if calls:
            return then[0] == "assign" and key(then[2]) == "Opd" and not then[1]["steps"] and not is_array(self.locals[x]) \
                and then[2]["Opd"][key(then[2]["Opd"])]["steps"] == []
        if then[0] == "call":
            return True
        return key(then[2]) not in ("Aggregate", "Repeat") or key(then[2]) == "Aggregate" and not self.is_by_members(then[2], self.place_type(then[1]))

    def is_choice(self, s, x, known):
        """Whether a statement sets a local, x or any, to a number that is there already: another local, which is set, or a constant."""
        if s[0] != "assign" or s[1]["steps"] or x not in (None, s[1]["local"]) or not is_number(self.locals[s[1]["local"]]) or key(s[2]) != "Opd":
            return False
        o = s[2]["Opd"]
        return key(o) == "Int" or local_of(o) in known and not o[key(o)]["steps"]

    def find_choices(self, statements, known):
        """Ifs that choose between two numbers become one statement. `known`: the locals that are set before these statements."""
        made, known = [], set(known)
        for at, s in enumerate(statements):
            if s[0] in ("assign", "call"):
                place = s[1] if s[0] == "assign" else s[3]
                known.update(() if place["steps"] else (place["local"],))
            if s[0] == "if":
                then, otherwise, rest = s[2], s[3], statements[at + 1:]
                if len(then) == len(otherwise) == 1 and self.is_choice(then[0], None, known) and self.is_choice(otherwise[0], then[0][1]["local"], known):
                    made.append(("assign", then[0][1], {"Choose": [s[1], then[0][2]["Opd"], otherwise[0][2]["Opd"]]}))
                    continue
                if not otherwise and len(then) == len(rest) == 2 and then[1] == rest[1] == ("return",) \
                        and self.is_choice(then[0], 0, known) and self.is_choice(rest[0], 0, known):
                    return made + [("assign", place_of(0), {"Choose": [s[1], then[0][2]["Opd"], rest[0][2]["Opd"]]}), ("return",)]
                s = ("if", s[1], self.find_choices(then, known), self.find_choices(otherwise, known))
            elif s[0] in ("block", "loop"):
                s = (s[0], self.find_choices(s[1], known))
            elif s[0] == "switch":
                s = ("switch", s[1], [(v, self.find_choices(a, known)) for v, a in s[2]], None if s[3] is None else self.find_choices(s[3], known))
            made.append(s)
        return made

    def turn_tails(self, statements, last):
        """Calls of the function itself that are the last thing it does become ("again", operands); `last`: nothing comes behind these."""
        made = []
        for at, s in enumerate(statements):
            then = statements[at + 1] if at + 1 < len(statements) else None
            if s[0] == "call" and s[1] == self.name and not s[3]["steps"] and (s[3]["local"] == 0 or self.locals[0] == "Unit") \
                    and (then == ("return",) or then is None and last):
                made.append(("again", s[2]))
                return made + statements[at + 2:]
            if s[0] == "if":
                s = ("if", s[1], self.turn_tails(s[2], last and then is None), self.turn_tails(s[3], last and then is None))
            made.append(s)
        return made

    def find_tails(self):
        lent = any(s[0] == "assign" and key(s[2]) == "AddrOf" and not self.through(s[2]["AddrOf"]) for s in every(self.body))
        if not lent and any(s[0] == "call" and s[1] == self.name for s in every(self.body)):
            self.body = self.turn_tails(self.drop_unit(self.body), self.locals[0] == "Unit")

    def split_pointers(self):
        """A raw pointer that is made several times becomes several, so that each is for reading or for writing. Only where each time it is
        made and read in one list of statements."""
        lists, around, todo = [], [], [(self.body, ())]
        while todo:
            one, above = todo.pop()
            todo += [(part, (*above, len(lists))) for s in one for part in inside(s)]
            lists.append(one)
            around.append(above)
        for x in [i for i, t in enumerate(self.locals) if t == "Ptr"]:
            mentioned = [[s for s in one if x in mentions(s)] for one in lists]
            made = [[s for s in one if s[0] == "assign" and s[1] == place_of(x) and x not in read_locals(s)] for one in mentioned]
            if sum(map(len, made)) < 2 or any(one and (not new or one[0] is not new[0]) for one, new in zip(mentioned, made)):
                continue
            if any(mentioned[i] and any(mentioned[j] for j in above) for i, above in enumerate(around)):
                continue
            for one in lists:
                now = None
                for at, s in enumerate(one):
                    if s[0] == "assign" and s[1] == place_of(x):
                        self.locals.append("Ptr")
                        one[at] = ("assign", place_of(len(self.locals) - 1), renamed(s[2], x, now))
                        now = len(self.locals) - 1
                    elif x in mentions(s):
                        one[at] = renamed(s, x, now)

    def drop_unit(self, statements):
        return without(statements, {id(s) for s in every(statements) if s[0] == "assign" and not s[1]["steps"] and self.locals[s[1]["local"]] == "Unit"})

    # -- places and operands

    def place_type(self, place):
        t, variant = self.locals[place["local"]], None
        for step in place["steps"]:
            k, v = next(iter(step.items()))
            if k == "Deref":
                t = v
            elif k == "Variant":
                variant = v
            elif k == "Field":
                t = self.types.variant(t, variant, v)[0] if variant is not None else self.types.field(t, v)[0]
                variant = None
            else:
                refuse(f"step {told(step)} in {self.name}")
        return t

    def local(self, x, write=False):
        """A local's text: its name, or what stands for it where it is left out."""
        if x in self.constants:
            return self.constants[x], POSTFIX
        if x in self.pending:
            s, taken = self.pending.pop(x)
            around, self.pending = self.pending, dict(taken)
            made = (self.call(s), POSTFIX) if s[0] == "call" else self.rvalue(s[2], self.locals[x], write or x in self.to_write)
            if self.pending:
                raise AssertionError(f"a temporary of {self.name} is lost")
            self.pending = around
            return made
        self.used.add(x)
        return self.names.get(x, f"x{x}"), POSTFIX

    def place(self, place, write=False):
        """A place's text and type. Of an array, the text points to its first element, but for a whole local, which is named."""
        t, variant = self.locals[place["local"]], None
        e, level = self.local(place["local"], write)
        whole = place["local"] not in self.constants and is_array(t)
        led = None                          # the pointer that has just been followed
        for step in place["steps"]:
            k, v = next(iter(step.items()))
            if k == "Deref":
                led = None
                e, t, level, whole = self.deref(e, level, t, v, write) + (False,)
                if level == UNARY and e.startswith("*"):
                    led = e[1:]
            elif k == "Variant":
                variant = v
            elif k == "Field":
                t, name = self.types.variant(t, variant, v) if variant is not None else self.types.field(t, v)
                e = f"{self.wrap(e, level, POSTFIX)}.{name}" if led is None else f"{self.led_by(led)}->{name}"
                level, variant, whole, led = POSTFIX, None, False, None
            else:
                refuse(f"step {told(step)} in {self.name}")
        return e, t, level, whole

    def deref(self, e, level, t, to, write):
        if t != "Ptr" and key(t) != "Ref":
            refuse(f"a value of type {told(t)} that is followed in {self.name}")
        of = self.types.c(element(to))
        self.types.size_of_element(element(to))
        if t == "Ptr":
            e, level = self.as_pointer(e, level, element(to), write)
        elif element(t["Ref"][2]) != element(to):
            refuse(f"a {told(t)} that is followed as {told(to)} in {self.name}")
        return (e, to, level) if is_array(to) else (f"*{self.wrap(e, level)}", to, UNARY)

    def as_pointer(self, e, level, of, write):
        """A pointer to bytes as one to elements, or the other way round; of bytes they are the same."""
        if of == {"Int": 8}:
            return e, level
        return f"({'' if write else 'const '}{self.types.c(of)} *){self.wrap(e, level)}", UNARY

    def as_bytes(self, e, level, of, write):
        if of == {"Int": 8}:
            return e, level
        return f"({'' if write else 'const '}uint8_t *){self.wrap(e, level)}", UNARY

    @staticmethod
    def led_by(e):
        """A pointer before an arrow."""
        return e if re.fullmatch(r"\w+((\.|->)\w+)*", e) else f"({e})"

    @staticmethod
    def wrap(e, level, need=UNARY):
        return e if level >= need else f"({e})"

    def elements(self, e, whole):
        """A pointer to the first element of an array's place."""
        return f"{e}.at" if whole else e

    def operand(self, o):
        """An operand's text, its type and how tightly it binds."""
        if o in ("True", "False"):
            return o.lower(), "Bool", POSTFIX
        k = key(o)
        if k == "Int":
            if o["Int"]["width"] not in WIDTHS:
                refuse(f"operand {told(o)}")
            return f"UINT{o['Int']['width']}_C({o['Int']['value']})", {"Int": o["Int"]["width"]}, POSTFIX
        if k == "SizeOf":
            return f"(uint64_t)sizeof({self.types.c(o[k])})", {"Int": 64}, UNARY
        if k not in ("Copy", "Move"):
            refuse(f"operand {told(o)} in {self.name}")
        e, t, level, whole = self.place(o[k])
        if is_array(t) and not whole:
            name = f"a{len(self.scratch) + 1}"
            self.scratch.append((t, name))
            self.put(f"{self.unit.copies()}({name}.at, {e}, sizeof {name}.at);")
            return name, t, POSTFIX
        return e, t, level

    def becomes(self, o, t):
        """An operand's text as a value of a type: of the same, or of a reference to the same elements, or a pointer to bytes as a reference."""
        e, of, level = self.operand(o)
        if of == t:
            return e, level
        if key(t) == "Ref" and of == "Ptr":
            return self.as_pointer(e, level, element(t["Ref"][2]), self.is_for_writing(t))
        if key(of) == key(t) == "Ref" and element(of["Ref"][2]) == element(t["Ref"][2]) and t["Ref"][1] in ("Imm", of["Ref"][1]):
            return e, level
        return refuse(f"a {told(of)} that becomes a {told(t)} in {self.name}")

    def operand_type(self, o):
        if o in ("True", "False"):
            return "Bool"
        if key(o) == "SizeOf":
            return {"Int": 64}
        return o if isinstance(o, str) else {"Int": o["Int"]["width"]} if key(o) == "Int" else self.place_type(o[key(o)])

    def number(self, o, width):
        """A number as an operand of arithmetic that is done in at least 32 bits."""
        if key(o) == "Int":
            return f"UINT{max(width, 32)}_C({o['Int']['value']})"
        e, _, level = self.operand(o)
        return self.wrap(e, level) if width >= 32 else f"(uint32_t){self.wrap(e, level)}"

    # -- rvalues that are one expression

    def rvalue(self, r, t, write=False):
        k = key(r)
        if k == "Opd":
            return self.becomes(r[k], t)
        if k == "AddrOf":
            return self.address(r[k], t, write)
        if k == "Op1":
            return self.one(r[k][0], r[k][1], t)
        if k == "Op2":
            return self.two(r[k][0], r[k][1], r[k][2], t, write)
        if k == "Aggregate":
            return self.struct(r[k], t), POSTFIX
        if k == "Static":
            return self.unit.static(self.name, r[k], t), POSTFIX if is_array(r[k][0]) else UNARY
        if k == "Choose":
            return f"{self.unit.helper('choose_' + self.types.c(t))}({', '.join(self.operand(o)[0] for o in r[k])})", POSTFIX
        return refuse(f"rvalue {told(r)} in {self.name}")

    def address(self, place, t, write):
        """The address of a value; of one that a pointer leads to, that pointer again; of an array, that of its first element."""
        write = write or self.is_for_writing(t)
        steps = place["steps"]
        if steps and key(steps[-1]) == "Deref" and not is_array(steps[-1]["Deref"]):
            of = steps[-1]["Deref"]
            e, held, level, _ = self.place({"local": place["local"], "steps": steps[:-1]}, write)
            if held == "Ptr":
                e, level = self.as_pointer(e, level, of, write)
            elif key(held) != "Ref" or element(held["Ref"][2]) != of:
                refuse(f"the address of {told(place)} in {self.name}")
        else:
            e, of, level, whole = self.place(place, write)
            if is_array(of):
                e, level = self.elements(e, whole), POSTFIX if whole else level
            else:
                e, level = f"&{self.wrap(e, level, POSTFIX)}", UNARY
        if key(t) == "Ref" and element(t["Ref"][2]) == element(of):
            return e, level
        if t != "Ptr":
            refuse(f"the address of a {told(of)} as {told(t)} in {self.name}")
        return self.as_bytes(e, level, element(of), write)

    def one(self, op, o, t):
        of = self.operand_type(o)
        if op == "Not" and of == "Bool" and t == "Bool":
            e, _, level = self.operand(o)
            return f"!{self.wrap(e, level)}", UNARY
        if key(op) == "Cast" and is_number(t) and op["Cast"][2] == t["Int"] and (is_number(of) or of == "Bool"):
            signs = set(op["Cast"][:2])
            e, _, level = self.operand(o)
            if signs == {"Unsigned"}:
                return f"({self.types.c(t)}){self.wrap(e, level)}", UNARY
            if signs <= {"Signed", "Unsigned"} and of == t == {"Int": 64}:
                return e, level
        return refuse(f"operation {told(op)} of {told(of)} to {told(t)} in {self.name}")

    def two(self, op, a, b, t, write):
        of, other, k = self.operand_type(a), self.operand_type(b), key(op)
        sign = None if isinstance(op, str) else op[k]
        if k == "Offset" and sign is None and other == {"Int": 64} and t == "Ptr" and (of == "Ptr" or key(of) == "Ref"):
            return self.offset(a, b, of, write)
        if of == other == {"Int": 64} and sign == "Signed" and k in SIGNED and t == (of if k in ("Add", "Mul") else "Bool"):
            return f"{self.unit.helper(SIGNED[k])}({self.operand(a)[0]}, {self.operand(b)[0]})", POSTFIX
        if k == "WrapAdd" and sign is None and of == other == t == {"Int": 32}:
            return f"{self.unit.helper('wrapping_add_u32')}({self.operand(a)[0]}, {self.operand(b)[0]})", POSTFIX
        if of == other and is_number(of):
            width = of["Int"]
            if (k in ARITHMETIC and sign == "Unsigned" or k in BITS and sign is None) and t == of:
                e = f"{self.number(a, width)} {(ARITHMETIC | BITS)[k]} {self.number(b, width)}"
                return (e, BINARY) if width >= 32 else (f"({self.types.c(t)})({e})", UNARY)
            if (k in ORDERS and sign == "Unsigned" or k in EQUALS and sign is None) and t == "Bool":
                (x, _, p), (y, _, q) = self.operand(a), self.operand(b)
                return f"{self.wrap(x, p)} {(ORDERS | EQUALS)[k]} {self.wrap(y, q)}", BINARY
        if of == other == t == "Bool" and k in OF_BOOLS and sign is None:
            (x, _, p), (y, _, q) = self.operand(a), self.operand(b)
            return f"{self.wrap(x, p)} {OF_BOOLS[k]} {self.wrap(y, q)}", BINARY
        return refuse(f"operation {told(op)} of {told(of)} and {told(other)} to {told(t)} in {self.name}")

    def offset(self, a, b, of, write):
        e, _, level, _ = self.place(a[key(a)], write)
        bytes_on, _, level_on = self.operand(b)
        if of != "Ptr":
            e, level = self.as_bytes(e, level, element(of["Ref"][2]), write)
        if self.makes_part:
            return f"{self.unit.helper('part_to_write' if write else 'part')}({e}, {bytes_on})", POSTFIX
        return f"{self.wrap(e, level)} + {self.wrap(bytes_on, level_on)}", BINARY

    def struct(self, operands_, t):
        """An aggregate without arrays in it, as one expression."""
        texts = []
        for o, (of, name) in zip(operands_, self.members(operands_, t)):
            texts.append(f".{name} = {self.becomes(o, of)[0]}")
        return f"({self.types.c(t)}){{ {', '.join(texts)} }}"

    def members(self, operands_, t):
        """The types and the names of the members that an aggregate sets."""
        if key(t) == "Named" and "Variants" in self.types.shapes[t["Named"]["name"]]:
            if key(operands_[0]) != "Int" or operands_[0]["Int"]["width"] != 8:
                refuse(f"a variant that is not told in {self.name}")
            k = operands_[0]["Int"]["value"]
            if len(operands_) != 1 + len(self.types.shapes[t["Named"]["name"]]["Variants"][k]):
                refuse(f"a variant with other fields in {self.name}")
            return [self.types.variant(t, k, i) for i in range(len(operands_))]
        if key(t) not in ("Named", "Struct"):
            refuse(f"an aggregate of type {told(t)} in {self.name}")
        fields = t["Struct"][1] if key(t) == "Struct" else self.types.shapes[t["Named"]["name"]]["Fields"]
        if len(operands_) != len(fields):
            refuse(f"a struct with other fields in {self.name}")
        return [self.types.field(t, i) for i in range(len(operands_))]

    # -- statements

    makes_part = False

    def put(self, text):
        self.lines.append("    " * self.depth + text)

    def call(self, s, arguments=None):
        return f"{symbol(s[1])}({', '.join(arguments or [self.operand(o)[0] for o in s[2]])})"

    def assign(self, place, r):
        t = self.place_type(place)
        if t == "Unit":
            return
        if is_array(t):
            self.assign_array(place, r, t)
        elif key(r) == "Aggregate" and self.is_by_members(r, t):
            self.assign_members(place, r["Aggregate"], t)
        else:
            e, _, _, _ = self.place(place, True)
            write = place["local"] in self.to_write and not place["steps"]
            self.makes_part = id(r) in self.parts
            text, _ = self.rvalue(r, t, write)
            self.makes_part = False
            self.put(f"{e} = {text};")

    def find_parts(self, statements):
        """The offsets whose pointer is handed on: it may be NULL then, as that of a slice without elements is. One that is neither handed on
        nor followed before the next test may lead beyond its memory, which C does not allow."""
        for at, s in enumerate(statements):
            if s[0] == "assign" and key(s[2]) == "Op2" and key(s[2]["Op2"][0]) == "Offset":
                if s[1]["steps"] or self.is_handed_on(s[1]["local"]):
                    self.parts.add(id(s[2]))
                elif not self.is_followed(s[1]["local"], statements[at + 1:]):
                    refuse(f"an offset that is not followed before the next test in {self.name}")
            for part in inside(s):
                self.find_parts(part)

    def is_handed_on(self, x):
        """Whether a pointer is read as a value, or as a reference to what it leads to."""
        for s in every(self.body):
            if s[0] == "assign" and key(s[2]) == "AddrOf" and s[2]["AddrOf"]["local"] == x and self.through(s[2]["AddrOf"]):
                if not is_array(self.place_type(s[2]["AddrOf"])):
                    return True
            read = operands(s[2]) if s[0] == "assign" else s[2] if s[0] == "call" else s[1] if s[0] == "again" else ()
            if any(o in ({"Copy": place_of(x)}, {"Move": place_of(x)}) for o in read):
                return True
        return False

    @staticmethod
    def is_followed(x, statements):
        """Whether the first of these statements that is no plain one, or mentions the pointer, is a plain one that follows it."""
        for s in statements:
            if s[0] not in ("assign", "call") or x in mentions(s):
                return s[0] in ("assign", "call") and any(place["local"] == x and place["steps"] for place in places_of(s))
        return False

    def may_overlap(self, place, o):
        """Whether a place and an operand may be the same memory: both that a pointer leads to, or one that and the other a local whose
        address is taken."""
        if key(o) not in ("Copy", "Move") or not (self.through(place) or self.through(o[key(o)])):
            return False
        both = place, o[key(o)]
        if all(map(self.through, both)):
            return True
        led, other = both if self.through(place) else reversed(both)
        given = led["local"] in self.params and not any(self.writes(led["local"]))      # leads to no local of this function
        return other["local"] in self.addressed and not given

    def assign_array(self, place, r, t):
        e, _, _, whole = self.place(place, True)
        if key(r) == "Repeat":
            if is_array(t["Array"][0]) and self.may_overlap(place, r["Repeat"][0]):
                refuse(f"an array that repeats a part of what it is written to in {self.name}")
            self.repeat(self.elements(e, whole), whole and e, r["Repeat"], t)
        elif key(r) == "Aggregate" and whole and not is_array(t["Array"][0]) and len(r["Aggregate"]) == count(t):
            self.put(f"{e} = ({self.types.c(t)}){{ {{ {', '.join(self.operand(o)[0] for o in r['Aggregate'])} }} }};")
        elif key(r) == "Opd":
            o = r["Opd"]
            if key(o) not in ("Copy", "Move") or self.place_type(o[key(o)]) != t or local_of(o) == place["local"] or self.may_overlap(place, o):
                refuse(f"an array that becomes {told(r)} in {self.name}")
            source, _, _, source_whole = self.place(o[key(o)])
            if whole and source_whole:
                self.put(f"{e} = {source};")
            else:
                size = f"sizeof {e}.at" if whole else f"{count(t)} * sizeof({self.types.c(element(t))})"
                self.put(f"{self.unit.copies()}({self.elements(e, whole)}, {self.elements(source, source_whole)}, {size});")
        else:
            refuse(f"an array that becomes {told(r)} in {self.name}")

    def repeat(self, e, whole, repeated, t):
        o, n = repeated
        if t["Array"][1]["Lit"] != n or self.operand_type(o) != t["Array"][0]:
            refuse(f"an array that repeats {told(o)} in {self.name}")
        if key(o) == "Int" and o["Int"]["value"] == 0 and whole:
            self.put(f"{whole} = ({self.types.c(t)}){{ {{ 0 }} }};")
            return
        self.fresh += 1
        k = f"k{self.fresh}"
        if is_array(t["Array"][0]):
            row, _, _, row_whole = self.place(o[key(o)])
            step = count(t["Array"][0])
            text = f"{self.unit.copies()}({e} + {k} * {step}, {self.elements(row, row_whole)}, {step} * sizeof {e}[0]);"
        else:
            text = f"{e}[{k}] = {self.operand(o)[0]};"
        self.put(f"for (uint32_t {k} = 0; {k} < {n}; {k}++) {{")
        self.put(f"    {text}")
        self.put("}")

    def assign_members(self, place, operands_, t):
        if any(local_of(o) == place["local"] or self.may_overlap(place, o) for o in operands_):
            refuse(f"an aggregate of type {told(t)}, of a part of what it is written to, in {self.name}")
        e, _, level, _ = self.place(place, True)
        for o, (of, name) in zip(operands_, self.members(operands_, t)):
            to = f"{self.wrap(e, level, POSTFIX)}.{name}"
            if is_array(of):
                source, of_source, _, whole = self.place(o[key(o)])
                if of_source != of:
                    refuse(f"a {told(of_source)} that becomes a {told(of)} in {self.name}")
                self.put(f"{self.unit.copies()}({to}, {self.elements(source, whole)}, sizeof {to});")
            else:
                self.put(f"{to} = {self.becomes(o, of)[0]};")

    def statements(self, all_):
        for s in all_:
            if not (id(s) in self.pairs and self.leave_out(s)):
                self.statement(s)
            if s[0] in ("return", "exit", "again"):
                return

    def leave_out(self, s):
        """Puts a temporary's value off to the next statement, unless the text gets too long."""
        x = self.made_by(s)
        kept, lines = dict(self.pending), len(self.lines)
        state = set(self.used), self.fresh, list(self.scratch)
        text = self.call(s) if s[0] == "call" else self.rvalue(s[2], self.locals[x])[0]
        taken = {y: kept.pop(y) for y in read_locals(s) if y in kept}
        longer = len(self.lines) != lines or len(text) > LONGEST or self.becomes_part(s)
        self.used, self.fresh, self.scratch = state
        del self.lines[lines:]
        self.pending = kept
        if longer:
            self.pending.update(taken)
            return False
        self.pending[x] = (s, taken)
        return True

    def becomes_part(self, s):
        return s[0] == "assign" and id(s[2]) in self.parts

    def statement(self, s):
        if s[0] == "assign":
            self.assign(s[1], s[2])
        elif s[0] == "call":
            self.statement_call(s)
        elif s[0] == "again":
            self.go_back(s[1])
        elif s[0] == "return":
            self.put("return;" if self.locals[0] == "Unit" else f"return {self.local(0)[0]};")
        elif s[0] == "if":
            self.statement_if(s)
        elif s[0] == "switch":
            self.statement_switch(s)
        elif s[0] == "exit":
            self.statement_exit(s[1])
        elif s[0] == "loop":
            self.statement_loop(s[1], None)
        elif s[0] == "block":
            self.statement_block(s[1])
        else:
            refuse(f"statement {s[0]} in {self.name}")

    def statement_call(self, s, arguments=None):
        """A call, by these texts of its arguments where they are given."""
        if s[3]["steps"]:
            refuse(f"a call whose answer goes to {told(s[3])} in {self.name}")
        x = s[3]["local"]
        text = self.call(s, arguments)
        read = self.locals[x] != "Unit" and any(x in read_locals(r) for r in every(self.body))
        self.put(f"{self.names.get(x, f'x{x}')} = {text};" if read else f"{text};")
        if read:
            self.used.add(x)

    def go_back(self, arguments):
        """A call of the function itself that ends it: its parameters are set, and it begins again. One that a later argument reads is set
        last, from a copy of its new value."""
        set_ = [(f"x{i}", self.operand(o)[0], self.locals[i]) for i, o in zip(self.params, arguments)]
        set_ = [(name, text, t) for name, text, t in set_ if name != text]
        first, last = [], []
        for at, (name, text, t) in enumerate(set_):
            if any(re.search(rf"\b{name}\b", other) for _, other, _ in set_[at + 1:]):
                self.scratch.append((t, f"n{name}"))
                self.put(f"n{name} = {text};")
                last.append(f"{name} = n{name};")
            else:
                first.append(f"{name} = {text};")
        for line in first + last:
            self.put(line)
        self.used.update(self.params)
        self.again = True
        self.put("goto again;")

    again = False

    def block_of(self, statements):
        self.depth += 1
        self.statements(statements)
        self.depth -= 1

    def statement_if(self, s):
        e, _, level = self.operand(s[1])
        if s[2]:
            self.put(f"if ({e}) {{")
            self.block_of(s[2])
            if s[3]:
                self.put("} else {")
                self.block_of(s[3])
        else:
            self.put(f"if (!{self.wrap(e, level)}) {{")
            self.block_of(s[3])
        self.put("}")

    def calls_of(self, s):
        """The calls that the arms of a switch make, in the order of its values, if the rule of tables holds of it; else nothing."""
        arms = sorted(((v, arm) for values, arm in s[2] for v in values), key=lambda both: both[0])
        if s[3] is not None or [v for v, _ in arms] != list(range(len(arms))) or any(len(arm) != 1 or arm[0][0] != "call" for _, arm in arms):
            return []
        calls = [arm[0] for _, arm in arms]
        alike = all(c[1] == calls[0][1] and c[3] == calls[0][3] and all(key(o) == "Int" for o in c[2]) for c in calls)
        return calls if alike else []

    def from_table(self, e, calls, i):
        """Argument i of the calls of a switch's arms, which is told by the value e."""
        values, width = [c[2][i]["Int"]["value"] for c in calls], calls[0][2][i]["Int"]["width"]
        if len(set(values)) == 1:
            return self.operand(calls[0][2][i])[0]
        t = {"Array": [{"Int": width}, {"Lit": len(values)}]}
        table = self.unit.constant(self.name, f"{calls[0][3]['local']}_{i}", t, values)
        return f"{table}[{e}]"

    def statement_switch(self, s):
        e, t, _ = self.operand(s[1])
        if not is_number(t):
            refuse(f"a switch on {told(t)} in {self.name}")
        calls = self.calls_of(s)
        if calls:
            self.statement_call(calls[0], [self.from_table(e, calls, i) for i in range(len(calls[0][2]))])
            return
        self.put(f"switch ({e}) {{")
        self.labels.append(("switch", None))
        for at, (values, arm) in enumerate(s[2]):
            if s[3] is None and at == len(s[2]) - 1:
                self.put("default:")
            else:
                for v in values:
                    self.put(f"case {v}:")
            self.block_of(arm)
            if not arm or arm[-1][0] not in ("return", "exit", "again"):
                self.put("    break;")
        if s[3] is not None:
            self.put("default:")
            self.block_of(s[3])
            if not s[3] or s[3][-1][0] not in ("return", "exit", "again"):
                self.put("    break;")
        self.labels.pop()
        self.put("}")

    def statement_exit(self, n):
        around = [x for x in self.labels if x[0] != "switch"]
        if n >= len(around) or around[-1 - n][1] is None:
            refuse(f"an exit of a loop in {self.name}")
        target = around[-1 - n][1]
        nearest = [x for x in self.labels if x[0] in ("switch", "loop")]
        if target["loop"] and nearest and nearest[-1][1] is target:
            self.put("break;")
            return
        target["gone to"] = True
        self.put(f"goto {target['name']};")

    def statement_block(self, inner):
        self.fresh += 1
        target = {"name": f"out{self.fresh}", "loop": len(inner) == 1 and inner[0][0] == "loop", "gone to": False}
        self.labels.append(("block", target))
        if target["loop"]:
            self.statement_loop(inner[0][1], target)
        else:
            self.statements(inner)
        self.labels.pop()
        if target["gone to"]:
            self.put(f"{target['name']}:;")

    def statement_loop(self, inner, target):
        self.labels.append(("loop", None if target is None else target))
        at = 0
        while at < len(inner) and id(inner[at]) in self.pairs and inner[at][0] == "assign" and self.leave_out(inner[at]):
            at += 1
        first = inner[at] if at < len(inner) else ("none",)
        if target is not None and first[0] == "if" and first[2] == [] and first[3] == [("exit", 1)]:
            self.hint(inner[:at], inner[at + 1:])
            self.put(f"while ({self.operand(first[1])[0]}) {{")
            self.block_of(inner[at + 1:])
        else:
            self.pending.clear()
            self.put("for (;;) {")
            self.block_of(inner)
        self.labels.pop()
        self.put("}")

    def hint(self, condition, inner):
        """The hint to unroll, by the number that a loop's counter is compared with."""
        test = condition[-1][2] if condition else None
        if test is None or key(test) != "Op2" or test["Op2"][0] != {"Lt": "Unsigned"} or key(test["Op2"][2]) != "Int":
            return
        turns = test["Op2"][2]["Int"]["value"]
        around = any(s[0] == "loop" or s[0] == "call" and self.unit.runs_loop(s[1]) for s in every(inner))
        if turns <= (TURNS_AROUND if around else TURNS):
            self.unit.unrolls = True
            self.put("UNROLL")

    # -- the whole

    def note(self):
        """The comment before a function: its name, with its types where it has some."""
        return comment(self.item.get("note", self.name))

    def head(self):
        words = ", ".join(f"{spaced(self.c(i))}x{i}" for i in self.params)
        inline = self.unit.inline(self.name)
        return fold(f"{inline} {self.answer()}{symbol(self.name)}(", words or "void", ")")

    def c(self, x):
        """The C type of a local; a raw pointer is one to const where nothing is written through it."""
        if self.locals[x] == "Ptr":
            return "uint8_t *" if x in self.to_write else "const uint8_t *"
        return self.types.c(self.locals[x])

    def answer(self):
        return "void " if self.locals[0] == "Unit" else spaced(self.types.c(self.locals[0]))

    def declarations(self, given):
        """The locals that are used, by type."""
        by_type = {}
        for x in sorted(self.used - set(given)):
            by_type.setdefault(self.c(x), []).append(self.names.get(x, f"x{x}"))
        for t, name in self.scratch:
            by_type.setdefault(self.types.c(t), []).append(name)
        for c, names in by_type.items():
            if c.count("*") > 1:
                yield from (f"    {c}{n};" for n in names)
            elif c.endswith("*"):
                yield f"    {c[:-1]}{', '.join('*' + n for n in names)};"
            else:
                yield f"    {c} {', '.join(names)};"

    def unread(self, given):
        return [f"    (void){self.names.get(x, f'x{x}')};" for x in given if x not in self.used]

    def text(self):
        self.prepare()
        self.statements(self.body)
        if self.lines and self.lines[-1] == "    return;":
            self.lines.pop()
        start = ["again:;"] if self.again else []
        lines = [self.note(), *self.head(), "{", *self.declarations(self.params), *self.unread(self.params), *start, *self.lines, "}", ""]
        return "\n".join(lines)


class Export(Function):
    """An export: with the header's parameters, of which a slice is two."""

    def text(self):
        word, parameters = self.unit.header.functions[self.export]
        self.made = []
        self.bind(word, list(parameters))
        self.prepare()
        self.statements(self.body)
        if self.lines and self.lines[-1] == "    return;":
            self.lines.pop()
        given = [x for x in self.params]
        if self.again:
            refuse(f"an export that calls itself: {self.name}")
        words = ", ".join(f"{'const ' if const else ''}{kind} {'*' if pointer else ''}{name}" for const, kind, pointer, name in parameters)
        lines = [self.note(), *fold(f"{word} {self.export}(", words or "void", ")"), "{", *self.made, *self.declarations(given),
                 *self.unread(given), *self.lines, "}", ""]
        return "\n".join(lines)

    export = ""

    def bind(self, word, parameters):
        answer = self.locals[0]
        if answer == "Unit":
            refuse(f"an export without an answer: {self.name}")
        self.types.bind(answer, word, None, self.name)
        for i in self.params:
            t = self.locals[i]
            if not parameters:
                refuse(f"{self.name}: the header has fewer parameters")
            const, kind, pointer, name = parameters.pop(0)
            if key(t) == "Struct":
                of = t["Struct"][1][0]["Ref"]
                length = parameters.pop(0) if parameters else None
                if not pointer or const != (of[1] == "Imm") or length is None or length[0] or length[1] != "size_t" or length[2]:
                    refuse(f"{self.name}: the header has no pointer and length for {told(t)}")
                self.types.bind(of[2], kind, None, self.name)
                self.made.append(f"    {self.types.c(t)} x{i} = {{ {name}, {length[3]} }};")
                continue
            if pointer or const:
                refuse(f"{self.name}: the header has a pointer for {told(t)}")
            self.types.bind(t, kind, None, self.name)
            if kind == "size_t":
                self.made.append(f"    uint64_t x{i} = {name};")
            else:
                self.names[i] = name
        if parameters:
            refuse(f"{self.name}: the header has more parameters")


def comment(text):
    """A comment, on lines of at most 130 letters where the text has blanks to part it at."""
    lines = [""]
    for part in text.split(" "):
        if lines[-1] and len(lines[-1]) + len(part) >= 130:
            lines.append("")
        lines[-1] += (" " if lines[-1] else "") + part
    return "/* " + "\n * ".join(lines) + " */"


def fold(start, words, end):
    """A head of a function, its parameters on lines of their own where they do not fit on one."""
    if len(start + words + end) <= 130:
        return [start + words + end]
    lines, parts = [], words.split(", ")
    for at, part in enumerate(parts):
        tail = "," if at < len(parts) - 1 else end
        if lines and len(lines[-1]) + len(part) < 110:
            lines[-1] += " " + part + tail
        else:
            lines.append("    " + part + tail)
    return [start.rstrip(), *lines]


# ---- the file

class Unit:
    """All functions that the exports reach, as one C file."""

    def __init__(self, functions, header_text, prefix, apart=()):
        self.header = Header(header_text)
        self.functions = functions = {name: erased(item) for name, item in functions.items()}
        self.exports = {}
        for name in functions:
            last = name.split("::")[-1]
            if name.startswith(f"{prefix}::{prefix}_"):
                self.exports[name] = last
        for name in self.header.functions:
            if name not in self.exports.values():
                refuse(f"{name}: the header has it, and the library does not export it")
        for name, last in self.exports.items():
            if last not in self.header.functions:
                refuse(f"{name}: the library exports it, and the header does not have it")
        order = list(self.header.functions)
        self.first = sorted(self.exports, key=lambda n: order.index(self.exports[n]))
        self.reached = []
        for name in self.first:
            self.visit(name, [])
        shapes, notes = {}, {}
        for name in self.reached:
            for t in functions[name]["types"]:
                if shapes.setdefault(t["name"], t["shape"]) != t["shape"]:
                    refuse(f"two shapes of {t['name']}")
                notes[t["name"]] = t.get("note", t["name"])
        self.types = Types(shapes, self.header, notes)
        self.refuse_twins([*self.reached, *shapes])
        self.made_constants, self.made_statics, self.helpers, self.fillers, self.memcpy = {}, [], [], {}, False
        self.loops, self.written, self.followings, self.unrolls = {}, {}, {}, False
        self.kept_apart = set(apart)
        if self.kept_apart - set(self.reached):
            refuse(f"function {min(self.kept_apart - set(self.reached))}, which is to be kept apart and is not reached")
        self.told_variants = {called for name in self.reached for called in self.tells_variants(name)}

    def inline(self, name):
        """Whether a function is to be put in line, as a hint before its head."""
        if name in self.kept_apart or self.types.bytes(self.functions[name]["locals"][0]["ty"]) > LARGE:
            return "NOT_IN_LINE"
        return "IN_LINE" if name in self.told_variants or name.startswith("core::") or "::fn::" in name else "static inline"

    @staticmethod
    def refuse_twins(names):
        """Refuses two names that are one in C."""
        by_symbol = {}
        for name in names:
            if by_symbol.setdefault(symbol(name), name) != name:
                refuse(f"{name} and {by_symbol[symbol(name)]}: one name in C")

    def calls(self, name):
        return [s["Call"][0]["Direct"] for s in self.functions[name]["body"] if key(s) == "Call" and key(s["Call"][0]) == "Direct"]

    def visit(self, name, above):
        if name in self.reached or name in above[-1:]:
            return
        if name in above:
            refuse(f"functions that call each other in a circle: {name}")
        if name not in self.functions:
            refuse(f"function {name}: it has no MIR")
        for called in self.calls(name):
            self.visit(called, above + [name])
        self.reached.append(name)

    def written_parameters(self, name):
        """The parameters of a function that are raw pointers and are written through."""
        if name not in self.written:
            f = Function(name, self.functions[name], self)
            self.written[name] = {x for x in f.written_pointers() if x in f.params}
        return self.written[name]

    def followed_parameters(self, name):
        """The parameters of a function that are raw pointers, and the types at which each is followed."""
        if name not in self.followings:
            f = Function(name, self.functions[name], self)
            self.followings[name] = {x: types for x, types in f.followed().items() if x in f.params}
        return self.followings[name]

    def helper(self, name):
        if name not in self.helpers:
            self.helpers.append(name)
        return name

    def tells_variants(self, name):
        """The functions that a function calls with a variant that it writes down itself."""
        types, body = [x["ty"] for x in self.functions[name]["locals"]], list(every(tree(self.functions[name]["body"])))

        def is_told(x):
            made = [s for s in body if s[0] == "assign" and s[1]["local"] == x or s[0] == "call" and s[3]["local"] == x]
            return key(types[x]) == "Named" and "Variants" in self.types.shapes[types[x]["Named"]["name"]] and made and all(
                s[0] == "assign" and key(s[2]) == "Aggregate" for s in made)

        return {s[1] for s in body if s[0] == "call" for o in s[2] if local_of(o) is not None and is_told(local_of(o))}

    def runs_loop(self, name):
        """Whether a loop runs in a function, or in one that it calls."""
        if name not in self.loops:
            self.loops[name] = name in self.functions and (
                "Loop" in self.functions[name]["body"] or any(self.runs_loop(c) for c in self.calls(name) if c != name))
        return self.loops[name]

    def copies(self):
        self.memcpy = True
        return "memcpy"

    def constant(self, function, x, t, values):
        if not is_number(element(t)):
            refuse(f"a constant array of {told(element(t))} in {function}")
        first = name = f"{symbol(function)}__{x}"
        while self.made_constants.get(name, (function, t, values)) != (function, t, values):
            name = f"{first}_{len(self.made_constants)}"
        self.made_constants[name] = (function, t, values)
        return name

    def static(self, function, static, to):
        """The address of a constant that a function lends."""
        t, value = static
        if key(to) != "Ref" or to["Ref"][1] != "Imm" or to["Ref"][2] != t:
            refuse(f"a constant of type {told(t)} as {told(to)} in {function}")
        made = function, t, self.initial(t, value)
        if made not in self.made_statics:
            self.made_statics.append(made)
        name = self.static_name(self.made_statics.index(made), made)
        return name if is_array(t) else f"&{name}"

    @staticmethod
    def static_name(at, made):
        return f"{symbol(made[0])}__lent_{at + 1}"

    def initial(self, t, value):
        """The initializer of a constant."""
        if key(value) == "Ints" and is_array(t) and is_number(element(t)) and len(value["Ints"]["values"]) == count(t):
            return [str(v) for v in value["Ints"]["values"]]
        if key(value) == "Parts" and key(t) == "Named" and "Variants" in self.types.shapes[t["Named"]["name"]] \
                and len(value["Parts"]) == 1 and key(value["Parts"][0]) == "Int":
            return [str(value["Parts"][0]["Int"]["value"])]
        return refuse(f"a constant {told(value)} of type {told(t)}")

    def filler(self, name):
        """The constant, with its type, that a function of one parameter writes where it is lent, if it does nothing else."""
        if name not in self.fillers:
            self.fillers[name] = self.find_filler(name)
        return self.fillers[name]

    def find_filler(self, name):
        if name not in self.functions or self.functions[name]["params"] != 1:
            return None
        f = Function(name, self.functions[name], self)
        t = f.locals[1]
        if key(t) != "Ref" or t["Ref"][1] != "Mut" or f.locals[0] != "Unit":
            return None
        before = dict(self.made_constants)
        f.find_constants()
        body = f.drop_unit(f.body)
        if len(body) == 2 and body[0][0] == "assign" and body[1] == ("return",):
            place, r = body[0][1], body[0][2]
            if place["local"] == 1 and place["steps"] == [{"Deref": t["Ref"][2]}] and key(r) == "Opd" and local_of(r["Opd"]) in f.constants \
                    and r["Opd"][key(r["Opd"])]["steps"] == [] and f.locals[local_of(r["Opd"])] == t["Ref"][2]:
                return f.constants[local_of(r["Opd"])], t["Ref"][2]
        self.made_constants = before
        return None

    def text(self, head):
        texts, needed = {}, set()
        for name in self.first:
            word, parameters = self.header.functions[self.exports[name]]
            f = Export(name, self.functions[name], self)
            f.export = self.exports[name]
            f.made = []
            f.bind(word, list(parameters))
        for name in reversed(self.reached):
            if name not in self.exports and name not in needed:
                continue
            f = (Export if name in self.exports else Function)(name, self.functions[name], self)
            if name in self.exports:
                f.export = self.exports[name]
            texts[name] = f.text()
            needed.update(s[1] for s in every(f.body) if s[0] == "call")
        printed = [texts[name] for name in self.reached if name in texts]
        return "\n".join([head, self.preamble(), *printed])

    def preamble(self):
        lines = ['#include "hanjolum.h"', ""]
        if self.memcpy:
            lines += ["/* As the standard library has it; nothing else of it is needed. */", "void *memcpy(void *to, const void *from, size_t bytes);", ""]
        if any(HELPERS[h].find("MAY_WRAP") >= 0 for h in self.helpers):
            lines += ["/* On the functions whose sum or product may pass 2 to the 32 or 2 to the 64: clang can be asked to report such a one. */",
                      "#if defined(__clang__)", '#define MAY_WRAP __attribute__((no_sanitize("unsigned-integer-overflow")))', "#else",
                      "#define MAY_WRAP", "#endif", ""]
        hints = {self.inline(name) for name in self.reached if name not in self.exports}
        if "IN_LINE" in hints:
            lines += ["/* A function that is called with a direction which is known at the call, a closure, or one of the toolchain's library. */",
                      "#if defined(__OPTIMIZE__) && !defined(__OPTIMIZE_SIZE__) && defined(__GNUC__)",
                      "#define IN_LINE static inline __attribute__((always_inline))", "#else", "#define IN_LINE static inline", "#endif", ""]
        if "NOT_IN_LINE" in hints:
            lines += ["/* A function of which the source says that it is never to be put in line, or whose answer is large: its stack is free at its end. */",
                      "#if defined(__GNUC__)", "#define NOT_IN_LINE static __attribute__((noinline))", "#else", "#define NOT_IN_LINE static", "#endif", ""]
        if self.unrolls:
            lines += ["/* Before a loop of few turns: compilers that know the hint unroll it where they compile for speed. */",
                      "#if defined(__OPTIMIZE__) && !defined(__OPTIMIZE_SIZE__) && defined(__clang__)",
                      '#define UNROLL _Pragma("clang loop unroll(full)")',
                      "#elif defined(__OPTIMIZE__) && !defined(__OPTIMIZE_SIZE__) && defined(__GNUC__)",
                      f'#define UNROLL _Pragma("GCC unroll {TURNS}")', "#else", "#define UNROLL", "#endif", ""]
        lines += ["/* Slices are a pointer and a number of elements; an array by value is a struct with the array in it. */"]
        lines += [text for text in self.types.declared.values()]
        lines += [""]
        lines += ["/* The sizes of the proved layout, by which offsets are counted. */"]
        lines += [f'_Static_assert(sizeof({c}) == {size}, "{c} is not {size} bytes");' for c, size in sorted(self.types.elements.items())]
        lines += [""]
        for name, (function, t, values) in self.made_constants.items():
            lines += [f"/* The constant that {function} has. */",
                      f"static const {self.types.c(element(t))} {name}[{count(t)}] = {{"]
            shown = [f"UINT64_C({v})" if v >= 2**31 else str(v) for v in values]
            lines += ["    " + " ".join(f"{v}," for v in shown[i:i + 20]) for i in range(0, len(shown), 20)]
            lines += ["};", ""]
        for at, made in enumerate(self.made_statics):
            (function, t, values), name = made, self.static_name(at, made)
            array = f"[{count(t)}]" if is_array(t) else ""
            of = spaced(self.types.c(element(t)))
            lines += [f"/* A constant that {function} lends. */", f"static const {of}{name}{array} = {{ {', '.join(values)} }};", ""]
        lines += [HELPERS[h] for h in HELPERS if h in self.helpers]
        return "\n".join(lines)
