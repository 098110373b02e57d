"""The parts of the package for Python that are written from the headers: their numbers by groups, and the raw layer, which has each number,
each struct and each call, over ctypes."""
import json
import keyword

HEAD = '"""{}. Written by tools/packages from the headers of the library for C."""\n'
KINDS = {
    "uint8_t": "c_uint8",
    "uint16_t": "c_uint16",
    "uint32_t": "c_uint32",
    "int32_t": "c_int32",
    "uint64_t": "c_uint64",
    "size_t": "c_size_t",
    "ipxr_flag": "c_bool",
    "void *": "c_void_p",
    "void": "None",
}
IMPORTS = """\
from __future__ import annotations

import ctypes
from ctypes import (POINTER, Array, Structure, c_bool, c_int32, c_size_t, c_uint8, c_uint16, c_uint32, c_uint64, c_void_p)
from typing import Any, Callable

"""
CALLS = '''\
class Calls:
    """Each call of a library, by its name in C. Pointers are given by `byref`, bytes that are only read as they are."""

{}
    def __init__(self, library: ctypes.CDLL) -> None:
        for name, (answer, arguments) in SIGNATURES.items():
            call = getattr(library, name)
            call.restype, call.argtypes = answer, [kind for _, kind in arguments]
            setattr(self, name, call)
'''


def numbers(read):
    """The module with the groups and what stands alone."""
    lines = [HEAD.format("The numbers of the library by groups, and those that stand alone"), "from enum import IntEnum\n"]
    for group, its in read.groups().items():
        lines.append(f"\n\nclass {group}(IntEnum):\n" + "".join(f"    {name} = {number}\n" for name, number in its.items()))
    lines.append("\n\n" + "".join(f"{name} = {number}\n" for name, number in read.alone().items()))
    names = [*read.groups(), *read.alone()]
    lines.append("\n__all__ = [\n" + "".join(f'    "{it}",\n' for it in names) + "]\n")
    return "".join(lines)


def kind_of(name):
    return KINDS.get(name, name)


def field_kind(field):
    """How ctypes has a field, and what a checker of types sees."""
    kind = kind_of(field.kind)
    if field.count:
        return f"{kind} * {field.count}", f"Array[{kind}]"
    return kind, {"c_bool": "bool", "c_void_p": "int | None"}.get(kind, "int" if field.kind in KINDS else kind)


def struct(it):
    """A struct. (A field whose name is a word of Python's has no annotation: getattr and setattr reach it.)"""
    shown = "".join(f"    {field.name}: {field_kind(field)[1]}\n" for field in it.fields if not keyword.iskeyword(field.name))
    listed = "".join(f'        ("{field.name}", {field_kind(field)[0]}),\n' for field in it.fields)
    return f"\n\nclass {it.name}(Structure):\n{shown}    _fields_ = [\n{listed}    ]\n"


def taken(argument):
    """How ctypes takes an argument: bytes, whatever holds them, by a pointer to anything."""
    if not argument.is_pointer:
        return kind_of(argument.kind)
    return "c_void_p" if argument.kind == "uint8_t" else f"POINTER({kind_of(argument.kind)})"


def signature(call):
    arguments = "".join(f'("{it.name}", {taken(it)}), ' for it in call.arguments).rstrip(" ")
    return f'    "{call.name}": ({kind_of(call.answer)}, ({arguments})),\n'


def shown(call):
    """What a checker of types sees of a call."""
    taken_kinds = ", ".join("Any" if it.is_pointer else "bool" if it.kind == "ipxr_flag" else "int" for it in call.arguments)
    answer = {"void": "None", "ipxr_flag": "bool"}.get(call.answer, "int")
    return f"    {call.name}: Callable[[{taken_kinds}], {answer}]\n"


def raw(read):
    """The raw layer."""
    named = "".join(f"{name} = {json.dumps(number)}\n" for name, number in read.numbers.items())
    structs = "".join(map(struct, read.structs.values()))
    signatures = "SIGNATURES: dict[str, tuple[Any, tuple[tuple[str, Any], ...]]] = {\n" + "".join(map(signature, read.calls)) + "}\n"
    calls = CALLS.format("".join(map(shown, read.calls)))
    head = HEAD.format("The library's numbers, structs and calls as its headers have them")
    return f"{head}{IMPORTS}{named}{structs}\n\n{signatures}\n\n{calls}"
