"""One file of C of a module of WebAssembly: what its functions need of host/library/operations.h, its data, and its functions."""
import re

import wasm_read
from libraries import TOP
from wasm_c import DATA, PREFIX, C_TYPES
from wasm_c_body import Body
from wasm_format import Unknown

OPERATIONS = f"{TOP}/host/library/operations.h"
NAME = re.compile(rf"\b{PREFIX}\w+|\b{PREFIX.upper()}\w+")
DEFINED = re.compile(rf"(?m)^(?:static .*?\b|#define )({PREFIX}\w+|{PREFIX.upper()}\w+)")
# What the functions may ask of C, as they give and take it.
ASKED = {
    "memcpy": "iii>i", "memmove": "iii>i", "memset": "iwi>i", "memcmp": "iii>w", "bcmp": "iii>w",
    "rattle_alloc": "iii>", "rattle_realloc": "iiiii>", "rattle_dealloc": "i>",
}
LETTERS = {"uint32_t": "w", "uint64_t": "i"}
IN_A_LINE, PAIRS_IN_A_LINE = 24, 8
ALIGNED = f"{PREFIX.upper()}ALIGNED"
BEGIN = f"\nstatic void {PREFIX}begin(void)\n{{{{\n{{}}}}}}\n"
PUT = f"""size_t k;
for (k = 0; k < sizeof {PREFIX}places / sizeof *{PREFIX}places; k++)
{PREFIX}store8({DATA} + {PREFIX}places[k][0], {DATA} + {PREFIX}places[k][1]);
"""


def names_of(module, asked):
    """The name in C of each function: of one that is called from outside by its own, of others by their number."""
    found = []
    for name, kind in module.imported:
        form = [*(LETTERS[C_TYPES[it]] for it in kind.takes), ">", *(LETTERS[C_TYPES[it]] for it in kind.gives)]
        if asked.get(name) != "".join(form):
            raise Unknown(f"{name} of C is asked for, as {''.join(form)}")
        found.append(f"{PREFIX}{name}")
    outside = {number: name for name, number in module.exported.items()}
    first = len(module.imported)
    return found + [f"{PREFIX}c_{outside[it]}" if it in outside else f"{PREFIX}f{it}" for it in range(first, first + len(module.functions))]


def chunks():
    """The chunks of the file of operations: the names that each defines, and its text."""
    with open(OPERATIONS, encoding="ascii") as it:
        parts = re.split(r"\n\n+", it.read().strip("\n"))
    for part in parts:
        if names := {*DEFINED.findall(part)}:
            yield names, part


def operations(text):
    """The chunks that a text needs, with those that they need, in their order."""
    known, needed = [*chunks()], {*NAME.findall(text)}
    for names, part in reversed(known):
        if names & needed:
            needed |= {*NAME.findall(part)}
    return "\n\n".join(part for names, part in known if names & needed)


def rows_of(words, count):
    """Words, so many in a line."""
    return ",\n".join(", ".join(words[at : at + count]) for at in range(0, len(words), count))


def data(module, begins):
    """The module's data. Nothing writes there, but that where it has addresses these are put there as the program begins."""
    if not module.data:
        return BEGIN.format("") if begins else ""
    ((_, content),) = module.data
    constant = "" if begins else "const "
    made = f"static {constant}uint8_t {PREFIX}data[{len(content)}] {ALIGNED} = {{\n{rows_of([*map(str, content)], IN_A_LINE)}}};\n"
    return made + places(module.addresses) if begins else made


def places(addresses):
    """What puts addresses into the data: where each stands, and where it leads to."""
    if not addresses:
        return BEGIN.format("")
    rows = rows_of([f"{{{at}u, {to}u}}" for at, to in addresses], PAIRS_IN_A_LINE)
    return f"\nstatic const uint32_t {PREFIX}places[][2] = {{\n{rows}}};\n" + BEGIN.format(PUT)


def functions(module, asked):
    """The functions, behind their prototypes, by what names they are called from outside."""
    names = names_of(module, asked)
    bodies = [Body(module, len(module.imported) + at, names) for at in range(len(module.functions))]
    texts = [it.text() for it in bodies]
    return "".join(f"{it.head()};\n" for it in bodies) + "\n" + "\n".join(texts)


def translated(modules, places, asked=ASKED, begins=False):
    """The C of a module that was linked with its data at two places, and the module; where it `begins`, with a function that is called before
    all others."""
    module = wasm_read.placed(*map(wasm_read.Module, modules), places)
    if module.addresses and not begins:
        raise Unknown("addresses among the data")
    written = functions(module, asked)
    if DATA not in written:
        module.data = []
    return module, "\n".join(it for it in (data(module, begins), written) if it)
