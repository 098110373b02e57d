"""Makes each raw call of the package with zeros, and with a block of zeros for each pointer, which every call must answer: raw_calls.py
CALLS, a file that has for each call its name, what it returns, and for each argument its name, its type and whether it is a pointer."""
import ctypes
import json
import sys

from ipxr import raw
from ipxr._library import calls

ROOM = 400_000
KINDS = {"uint8_t": ctypes.c_uint8, "uint16_t": ctypes.c_uint16, "uint32_t": ctypes.c_uint32, "int32_t": ctypes.c_int32,
         "uint64_t": ctypes.c_uint64, "size_t": ctypes.c_size_t, "ipxr_flag": ctypes.c_bool, "void": None}


def kind_of(name):
    return KINDS[name] if name in KINDS else getattr(raw, name)


def pointer_of(kind):
    """Bytes are given by a pointer to anything."""
    return ctypes.c_void_p if kind is ctypes.c_uint8 else ctypes.POINTER(kind)


def see(call):
    """That a call takes and gives what its header says, and that it answers."""
    answer, arguments = raw.SIGNATURES[call["name"]]
    wanted = [(it["name"], pointer_of(kind_of(it["type"])) if it["isPointer"] else kind_of(it["type"])) for it in call["arguments"]]
    assert answer is kind_of(call["answer"]) and [*arguments] == wanted, call["name"]
    given = [ctypes.cast(ctypes.create_string_buffer(ROOM), kind) if it["isPointer"] else kind().value
             for it, (_, kind) in zip(call["arguments"], wanted)]
    result = getattr(calls, call["name"])(*given)
    assert type(result) is {None: type(None), ctypes.c_bool: bool}.get(answer, int), call["name"]


with open(sys.argv[1], encoding="utf-8") as lines:
    listed, numbers = json.load(lines)
for each in listed:
    see(each)
assert {it["name"] for it in listed} == {*raw.SIGNATURES}
assert {name: getattr(raw, name) for name in dir(raw) if name.startswith("IPXR_")} == numbers
