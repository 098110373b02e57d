"""The calls of the library's headers in C, over the functions of its module.

The module has its memory as WebAssembly has it: addresses and sizes of 64 bits, the lowest byte of a number first. Where C lays out a
struct in the same way, which each compiler finds out for itself, the struct is lent to the module as it is. Elsewhere it is copied, field
by field, before the call and, unless it is only read, after it. How the module lays it out follows from the types of its fields; the
toolchain's own compiler for WebAssembly must say the same (`layouts`).
"""
import re
from typing import NamedTuple

from c_library import text_of
from systems import HEADERS
from wasm_c import PREFIX
from wasm_format import I32, I64, Unknown

STRUCT = re.compile(r"(?s)typedef struct (\w+) \{(.*?)\} \1;")
FIELD = re.compile(r"(\w+(?: \*)?) ?\b(\w+)(?:\[(\d+)\])?;")
CALL = re.compile(r"(?s)^IPXR_CALL (\w+) (ipxr_\w+)\((.*?)\);", re.M)
ARGUMENT = re.compile(r"(const )?(\w+) (\*)?(\w+)(?:\[\d+\])?")
# How many bytes each number has in the module.
SIZES = {"uint8_t": 1, "ipxr_flag": 1, "uint16_t": 2, "uint32_t": 4, "int32_t": 4, "uint64_t": 8, "size_t": 8, "void *": 8}
WIDE = ("uint64_t", "size_t")
# How many values are lent of an array whose length stands behind it: one more than the call takes, which is as much too many as any more.
MOST = {
    ("ipxr_make", "ports"): "IPXR_MOST_PORTS",
    ("ipxr_write_rip", "routes"): "50",
    ("ipxr_write_sap", "services"): "7",
    ("ipxr_edge_write_routes", "routes"): "50",
    ("ipxr_edge_write_services", "services"): "7",
    ("ipxr_edge_filter", "rules"): "IPXR_MOST_RULES",
    ("ipxr_plan", "old"): "IPXR_MOST_PLANNED",
    ("ipxr_plan", "links"): "IPXR_MOST_PLANNED",
    ("ipxr_plan", "origins"): "IPXR_MOST_PLANNED",
    ("ipxr_plan", "fates"): "IPXR_MOST_PLANNED",
}
# What takes a list of any length is called for a few of it at a time, until it answers yes.
IN_PARTS = {("ipxr_tunnel_extend", "sockets"): 16}


class Field(NamedTuple):
    """A field of a struct: its type, its name, how many there are in an array, and its place in the module."""

    kind: str
    name: str
    count: int
    place: int


class Struct(NamedTuple):
    """A struct: its fields, its size and what divides its address in the module, and whether it has numbers of several bytes."""

    name: str
    fields: list
    size: int
    alignment: int
    has_order: bool


class Argument(NamedTuple):
    """An argument: its type, its name, whether it is a pointer, to what is only read, or an array whose length comes next."""

    kind: str
    name: str
    is_pointer: bool
    is_read: bool
    is_array: bool


class Call(NamedTuple):
    """A call: what it returns, its name, its arguments, and its declaration."""

    answer: str
    name: str
    arguments: list
    declaration: str


def up_to(place, alignment):
    return -(-place // alignment) * alignment


class Headers:
    """What the headers of a folder say."""

    def __init__(self, folder):
        text = re.sub(r"(?s)/\*.*?\*/", "", "\n".join(text_of(f"{folder}/{it}") for it in HEADERS))
        self.bodies = dict(STRUCT.findall(text))
        numbers = {it: Struct(it, [], size, size, size > 1) for it, size in SIZES.items()}
        self.structs = {}
        self.known = dict(numbers)
        for name in self.bodies:
            self.struct(name)
        self.calls = [self.call(*it) for it in CALL.findall(text)]

    def struct(self, name):
        """A struct, behind those that it has inside."""
        if name in self.known:
            return self.known[name]
        fields, place, alignment, has_order = [], 0, 1, False
        if name not in self.bodies:
            raise Unknown(f"the headers have no struct {name}")
        for kind, field, count in FIELD.findall(self.bodies[name]):
            it = self.struct(kind)
            place, alignment, has_order = up_to(place, it.alignment), max(alignment, it.alignment), has_order or it.has_order
            fields.append(Field(kind, field, int(count or 0), place))
            place += it.size * int(count or 1)
        if len(fields) != self.bodies[name].count(";"):
            raise Unknown(f"a field of {name} has a form that isn't known")
        self.known[name] = self.structs[name] = Struct(name, fields, up_to(place, alignment), alignment, has_order)
        return self.known[name]

    def call(self, answer, name, given):
        listed = [] if given == "void" else [ARGUMENT.fullmatch(re.sub(r"\s+", " ", it.strip())) for it in given.split(",")]
        if not all(listed):
            raise Unknown(f"{name} has an argument of a form that isn't known")
        found = []
        for number, it in enumerate(listed):
            is_read, kind, star, argument = it.groups()
            is_pointer = bool(star) or "[" in it[0]
            found.append(Argument(kind, argument, is_pointer, bool(is_read), {(name, argument)} <= {*MOST, *IN_PARTS}))
            if star and not found[-1].is_array and self.known[kind].has_order and number + 1 < len(listed):
                self.see_single(name, argument, listed[number + 1])
        return Call(answer, name, found, f"{answer} {name}({re.sub(chr(10) + ' +', ' ', given)})")

    @staticmethod
    def see_single(name, argument, behind):
        """Refuses an array that isn't known: a length stands behind it."""
        if not behind[3] and re.fullmatch(r".*(count|room|length|size)", behind[4]) and behind[2] == "size_t":
            raise Unknown(f"{name} has a list {argument} of a length that isn't known")


# ---- Structs ----


def alike(name):
    return f"{PREFIX.upper()}ALIKE_{name}"


def alikes(it):
    """The macro that says whether C lays out a struct as the module does."""
    same = [f"offsetof(struct {PREFIX}behind_{it.name}, it) % {it.alignment} == 0", f"sizeof({it.name}) == {it.size}"]
    same = ["IPXRI_IS_LITTLE", *same] if it.has_order else same
    for field in it.fields:
        same.append(f"offsetof({it.name}, {field.name}) == {field.place}")
        if field.kind not in SIZES:
            same.append(alike(field.kind))
    text = f"struct {PREFIX}behind_{it.name} {{\n    char first;\n    {it.name} it;\n}};\n"
    return f"{text}#define {alike(it.name)} ({' && '.join(dict.fromkeys(same))})\n"


def at(base, place):
    return f"{base} + {place}u" if place else base


def put_number(kind, to, value):
    """The statement that puts a number into the module's memory."""
    if kind == "void *":
        return f"{PREFIX}store8({to}, {PREFIX}address({value}));"
    if kind == "ipxr_flag":
        return f"memcpy({PREFIX}at({to}), &{value}, 1);"
    return f"{PREFIX}store{SIZES[kind]}({to}, {value});"


def get_number(kind, value, of):
    """The statement that gets a number from there."""
    if kind == "void *":
        return f"{value} = {PREFIX}at({PREFIX}load8({of}));"
    if kind == "ipxr_flag":
        return f"memcpy(&{value}, {PREFIX}at({of}), 1);"
    return f"{value} = ({kind}){PREFIX}load{SIZES[kind]}({of});"


def copied(structs, field, is_put):
    """The statements that copy a field, into the module's memory or from there."""
    size, place, value = structs[field.kind].size, at("at", field.place), f"it->{field.name}"
    if field.kind == "uint8_t" and field.count:
        ends = (f"{PREFIX}at({place})", value)
        return [f"memcpy({ends[not is_put]}, {ends[is_put]}, {field.count});"]
    if field.count:
        place, value = f"{place} + {size}u * k", f"{value}[k]"
    if field.kind in SIZES:
        made = put_number(field.kind, place, value) if is_put else get_number(field.kind, value, place)
    elif is_put:
        made = f"{PREFIX}put_{field.kind}({place}, &{value});"
    else:
        made = f"{PREFIX}get_{field.kind}(&{value}, {place});"
    return [f"for (k = 0; k < {field.count}; k++)", f"    {made}"] if field.count else [made]


def copiers(structs, it):
    """The functions that copy a struct."""
    lists = any(field.count and field.kind != "uint8_t" for field in it.fields)
    for is_put in (True, False):
        head = f"put_{it.name}(uint64_t at, const {it.name} *it)" if is_put else f"get_{it.name}({it.name} *it, uint64_t at)"
        lines = ["unsigned k;"] if lists else []
        for field in it.fields:
            lines += copied(structs, field, is_put)
        yield f"static void {PREFIX}{head}\n{{\n" + "".join(f"    {line}\n" for line in lines) + "}\n"


def number_copiers(kind):
    """The same for a number that a pointer leads to."""
    yield f"static void {PREFIX}put_{kind}(uint64_t at, const {kind} *it)\n{{\n    {put_number(kind, 'at', '*it')}\n}}\n"
    yield f"static void {PREFIX}get_{kind}({kind} *it, uint64_t at)\n{{\n    {get_number(kind, '*it', 'at')}\n}}\n"


# ---- Calls ----


def lent_kinds(headers):
    """The types that calls lend by a pointer and that have numbers of several bytes."""
    return {it.kind for call in headers.calls for it in call.arguments if it.is_pointer and headers.known[it.kind].has_order}


def signature(call):
    """What the function of the module takes and gives."""
    takes = [I64 if it.is_pointer or it.kind in WIDE else I32 for it in call.arguments]
    return takes, [] if call.answer == "void" else [I64 if call.answer in WIDE else I32]


def answered(kind, text):
    """What a call returns."""
    return f"({text} & 1u) != 0" if kind == "ipxr_flag" else f"({kind}){text}"


class Lending:
    """How an argument is lent, while the text of its call is written."""

    def __init__(self, headers, call, argument, length):
        self.it, self.name, self.length = argument, argument.name, length
        self.struct = headers.known[argument.kind]
        # (bytes lie alike everywhere)
        self.is_copied = argument.is_pointer and self.struct.has_order
        self.most = MOST.get((call.name, self.name))
        self.part = IN_PARTS.get((call.name, self.name))
        self.is_alike = alike(argument.kind)

    def count(self):
        """How many values there is room for."""
        return f"({self.most} + 1)" if self.most else str(self.part or 1)

    def declared(self):
        """The room for copies, and the address."""
        if self.is_copied:
            yield f"uint8_t room_{self.name}[{self.is_alike} ? 1 : {self.struct.size} * {self.count()} + 15];"
            yield f"const uint64_t at_{self.name} = {self.is_alike} ? {PREFIX}address({self.name}) : {PREFIX}rounded(room_{self.name});"
        if self.most:
            yield f"const size_t most_{self.name} = {self.is_alike} || {self.length} <= {self.most} ? {self.length} : {self.most} + 1;"
            yield "size_t k;"

    def copies(self, is_put):
        """The statements that copy it where it isn't laid out alike."""
        if not self.is_copied or self.part or not is_put and self.it.is_read:
            return
        where = f"at_{self.name}"
        if not self.most:
            done = f"put_{self.it.kind}({where}, {self.name})" if is_put else f"get_{self.it.kind}({self.name}, {where})"
            yield f"if (!{self.is_alike})\n        {PREFIX}{done};"
            return
        place = f"{where} + {self.struct.size}u * k"
        done = f"put_{self.it.kind}({place}, &{self.name}[k])" if is_put else f"get_{self.it.kind}(&{self.name}[k], {place})"
        yield f"for (k = 0; !{self.is_alike} && k < most_{self.name}; k++)\n        {PREFIX}{done};"

    def given(self):
        """What the function of the module is given."""
        if self.is_copied:
            return f"at_{self.name}"
        if self.it.is_pointer:
            return f"{PREFIX}address({self.name})"
        return f"(uint32_t){self.name}" if self.it.kind == "int32_t" else self.name


def in_parts(call, lending, given):
    """The statements that call for a few values of a list at a time."""
    name, length, kind = lending.name, lending.length, lending.it.kind
    fewer = ["k" if it == length else it for it in given]
    whole, part = (f"{PREFIX}c_{call.name}({', '.join(it)})" for it in (given, fewer))
    return f"""\
    if ({lending.is_alike})
        return {answered(call.answer, whole)};
    do {{
        uint32_t answer;
        size_t k;
        for (k = 0; k < {lending.part} && k < {length}; k++)
            {PREFIX}put_{kind}(at_{name} + {lending.struct.size}u * k, {name} + k);
        answer = {part};
        if ((answer & 0xFFu) != 0)
            return {answered(call.answer, 'answer')};
        {name} += k;
        {length} -= k;
    }} while ({length} > 0);
    return 0;
"""


def written(headers, call):
    """A call in C."""
    lengths = {it.name: other.name for it, other in zip(call.arguments, call.arguments[1:]) if it.is_array}
    lent = [Lending(headers, call, it, lengths.get(it.name)) for it in call.arguments]
    most = {lengths[it.name]: f"most_{it.name}" for it in lent if it.most}
    given = [most.get(it.given(), it.given()) for it in lent]
    text = f"{PREFIX}c_{call.name}({', '.join(given)})"
    lines = [*dict.fromkeys(line for it in lent for line in it.declared())]
    lines.sort(key=lambda it: it == "size_t k;")
    parts = [it for it in lent if it.part]
    before, after = ([line for it in lent for line in it.copies(is_put)] for is_put in (True, False))
    if call.answer == "void":
        lines += [*before, f"{text};", *after]
    elif not after:
        lines += [*before, f"return {answered(call.answer, text)};"]
    else:
        kind = "uint64_t" if call.answer in WIDE else "uint32_t"
        lines = [*lines, f"{kind} answer;", *before, f"answer = {text};", *after, f"return {answered(call.answer, 'answer')};"]
    if parts:
        own = [line for it in lent for line in it.declared()]
        body = "".join(f"    {it}\n" for it in own) + in_parts(call, parts[0], given)
    else:
        body = "".join(f"    {it}\n" for it in lines)
    return f"IPXR_CALL {call.declaration}\n{{\n{body}}}\n"


def calls(headers, module):
    """All calls in C, behind what they copy by."""
    for call in headers.calls:
        if call.name not in module.exported:
            raise Unknown(f"the module has no {call.name}")
        kind = module.type_of(module.exported[call.name])
        if signature(call) != (kind.takes, kind.gives):
            raise Unknown(f"{call.name} takes and gives otherwise than its header says")
    texts = [written(headers, it) for it in headers.calls]
    return "\n".join([*copying("\n".join(texts), headers), *texts])


def copying(text, headers):
    """What the text of the calls copies by, each before what it is needed for."""
    kinds = [*(Struct(it, [], SIZES[it], SIZES[it], True) for it in sorted(SIZES.keys() & lent_kinds(headers))), *headers.structs.values()]
    made = []
    for it in reversed(kinds):
        own = [*(copiers(headers.known, it) if it.fields else number_copiers(it.name))]
        used = [part for name, part in zip(("put", "get"), own) if f"{PREFIX}{name}_{it.name}(" in text]
        if used or alike(it.name) in text:
            made.append("\n".join([alikes(it), *used]))
            text += made[-1]
        elif not it.has_order:
            made.append(f"{alikes(it)}typedef char {PREFIX}bytes_{it.name}[{alike(it.name)} ? 1 : -1];\n")
    return reversed(made)


def layouts(headers):
    """What a compiler must say for whom the layout is the module's."""
    lines = [f'#include "{it}"\n' for it in HEADERS]
    for it in headers.structs.values():
        lines.append(f'_Static_assert(sizeof({it.name}) == {it.size} && _Alignof({it.name}) == {it.alignment}, "{it.name}");\n')
        for field in it.fields:
            lines.append(f'_Static_assert(offsetof({it.name}, {field.name}) == {field.place}, "{it.name}: {field.name}");\n')
    return "".join(lines)
