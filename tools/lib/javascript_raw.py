"""The parts of the package for JavaScript that are written from the headers: their numbers by groups, and the raw layer, which has each
number, each struct's layout and each call."""

HEAD = "// Written by tools/packages from the headers of the library for C.\n\n"
# What a call takes and gives in JavaScript: the module has addresses and sizes of 64 bits, and gives all of 32 bits in which a number lies.
LARGE = ("size_t", "uint64_t")
GIVEN = {
    "void": "{}",
    "int32_t": "{}",
    "uint32_t": "{} >>> 0",
    "uint16_t": "{} & 0xffff",
    "uint8_t": "{} & 0xff",
    "ipxr_flag": "({} & 1) === 1",
    "size_t": "Number({})",
    "uint64_t": "BigInt.asUintN(64, {})",
}
TYPES = {"void": "void", "ipxr_flag": "boolean", "uint64_t": "bigint"}


def literal(value):
    return f'"{value}"' if isinstance(value, str) else str(value)


def numbers(read):
    """The module with the groups and what stands alone, and its types."""
    code, types = [HEAD], [HEAD]
    for group, its in read.groups().items():
        listed = "".join(f"    {name}: {number},\n" for name, number in its.items())
        fixed = "".join(f"    readonly {name}: {number};\n" for name, number in its.items())
        code.append(f"export const {group} = Object.freeze({{\n{listed}}});\n")
        types.append(f"export const {group}: {{\n{fixed}}};\nexport type {group} = (typeof {group})[keyof typeof {group}];\n")
    for name, number in read.alone().items():
        # (the largest of them is one of times, which are large numbers here)
        value = f"{number}n" if number > 0xFFFFFFFF else f"{number}"
        code.append(f"export const {name} = {value};\n")
        types.append(f"export const {name}: {value};\n")
    return "".join(code), "".join(types)


def layouts(read):
    """Each struct: its size, and of each field its type, its place, and how many there are of it, or 0 where it is no array."""
    yield "export const layouts = {\n"
    for it in read.structs.values():
        fields = ", ".join(f'{field.name}: ["{field.kind}", {field.place}, {field.count}]' for field in it.fields)
        yield f"    {it.name}: {{ size: {it.size}, fields: {{ {fields} }} }},\n"
    yield "};\n"


def taken(argument):
    if argument.is_pointer or argument.kind in LARGE:
        return f"BigInt({argument.name})"
    return f"Number({argument.name})" if argument.kind == "ipxr_flag" else argument.name


def call(it):
    names = ", ".join(argument.name for argument in it.arguments)
    asked = f"calls().{it.name}({', '.join(map(taken, it.arguments))})"
    return f"export const {it.name} = ({names}) => {GIVEN[it.answer].format(asked)};\n"


def call_type(it):
    names = ", ".join(f"{argument.name}: {'Address' if argument.is_pointer else taken_type(argument.kind)}" for argument in it.arguments)
    return f"export function {it.name}({names}): {TYPES.get(it.answer, 'number')};\n"


def taken_type(kind):
    return "bigint | number" if kind == "uint64_t" else TYPES.get(kind, "number")


RAW = """\
import { inside } from "./ipxr.mjs";

const calls = () => inside.loaded().calls;

"""
RAW_TYPES = """\
/** Where something lies in the library's memory. */
export type Address = number;
/** A struct's size, and of each field its type, its place, and how many there are of it: 0 where it is no array. */
export interface Layout {
    readonly size: number;
    readonly fields: { readonly [name: string]: readonly [string, number, number] };
}
export const layouts: { readonly [name: string]: Layout };
/** The bytes of the library's memory; after a call that may take memory ask again. */
export function memory(): Uint8Array;
/** The address of a block of so many bytes, all of them 0. */
export function allocate(size: number): Address;
/** Gives a block back. */
export function release(address: Address): void;
"""
MEMORY = """\
export const memory = () => inside.loaded().bytes;

export function allocate(size) {
    const address = inside.loaded().allocated(size);
    memory().fill(0, address, address + size);
    return address;
}

export const release = (address) => inside.loaded().deallocate(address);

"""


def raw(read):
    """The raw layer, and its types."""
    named = "".join(f"export const {name} = {literal(number)}{'n' if isinstance(number, int) and number > 0xFFFFFFFF else ''};\n"
                    for name, number in read.numbers.items())
    types = "".join(f"export const {name}: {literal(number)}{'n' if isinstance(number, int) and number > 0xFFFFFFFF else ''};\n"
                    for name, number in read.numbers.items())
    code = [HEAD, RAW, MEMORY, *layouts(read), "\n", named, "\n", *map(call, read.calls)]
    return "".join(code), "".join([HEAD, RAW_TYPES, "\n", types, "\n", *map(call_type, read.calls)])
