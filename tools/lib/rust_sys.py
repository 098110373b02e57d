#!/usr/bin/env python3
"""The raw layer of the Rust crate, packages/rust: each number, struct and call of the headers, with its comment, in a module a header; what
sees that Rust lays the structs out as C does; and the names of answers. All of it is made of the headers, and made again by

    tools/lib/rust_sys.py
"""
import os
import re
import sys
import textwrap

sys.dont_write_bytecode = True
import header_items
from c_library import put, text_of
from libraries import TOP
from library_header import SIZES

CRATE = f"{TOP}/packages/rust"
KINDS = {"uint8_t": "u8", "uint16_t": "u16", "uint32_t": "u32", "uint64_t": "u64", "size_t": "usize", "int32_t": "i32", "ipxr_flag": "bool",
         "void *": "*mut c_void"}
NONE = {"bool": "false", "*mut c_void": "core::ptr::null_mut()"}
# Which type a number has: that of the first line that fits, or u8.
TYPES = (
    (re.compile(r"IPXR_(SAID_NOTHING|REGISTERS|ANSWERS|SPEAKS)"), "i32"),
    (re.compile(r"IPXR_MOST_TIME"), "u64"),
    (re.compile(r"IPXR_(NO_LIMIT|(RIP|SAP)_SOCKET|RIP_\w+)"), "u16"),
    (re.compile(r"IPXR_LAST_DROP"), "i32"),
    (re.compile(r"IPXR_VERSION"), "u32"),
    (re.compile(r"IPXR_(MOST|LONGEST|SHORTEST|PACKET|ALL)_\w+|IPXR_(STACK|PLAN_STACK|SPEAKERS|DROPS|NO_ONE)"), "usize"),
)
LARGE = 16384  # bytes of a struct that isn't copied by accident
WIDTH = 120
MADE = "Made of {} by tools/lib/rust_sys.py: change that, and make it again."
HEAD = """\
//! The raw layer: each number, struct and call of the headers of the library for C, by its own name and with its comment. The safe types of
//! this crate stand on it. What a caller has to promise is at the top of `ipxr.h`.
//!
//! Made of the headers by tools/lib/rust_sys.py: change the headers, and make it again.
#![allow(non_camel_case_types, missing_docs)]

"""
NAMES = {"ipxr.h": "router"}


def module(header):
    return NAMES.get(header, header.removeprefix("ipxr_").removesuffix(".h"))


def documented(text, indent=""):
    """The lines of a comment in Rust."""
    text = re.sub(r"[\[\]<>*]", r"\\\g<0>", text)
    width = WIDTH - len(indent) - 4
    return "".join(f"{indent}/// {line}\n" for line in textwrap.wrap(re.sub(r"\s+", " ", text), width, break_on_hyphens=False))


def type_of(number):
    if number.has_words or number.value < 0:
        return "i32"
    return next((kind for pattern, kind in TYPES if pattern.fullmatch(number.name)), "u8")


def field_type(field):
    kind = KINDS.get(field.kind, field.kind)
    return f"[{kind}; {field.count}]" if field.count else kind


def nothing(field):
    """What a field is where all bytes are 0."""
    kind = KINDS.get(field.kind, field.kind)
    one = f"{kind}::ZERO" if field.kind not in KINDS else NONE.get(kind, "0")
    return f"[{one}; {field.count}]" if field.count else one


def number(it):
    value = f"{it.value:#x}" if it.value > 0xFFFFFFFF else str(it.value)
    return f"{documented(it.comment)}pub const {it.name}: {type_of(it)} = {value};\n"


def struct(it, said):
    is_handle = any(field.kind == "void *" for field in it.fields)
    derived = "Debug" if is_handle else "Debug, PartialEq, Eq" if it.size > LARGE else "Clone, Copy, Debug, PartialEq, Eq"
    fields = "".join(f"{documented(said[f'{it.name}.{field.name}'], '    ')}    pub {word(field.name)}: {field_type(field)},\n"
                     for field in it.fields)
    empty = "".join(f"        {word(field.name)}: {nothing(field)},\n" for field in it.fields)
    return (f"{documented(said[it.name])}#[repr(C)]\n#[derive({derived})]\npub struct {it.name} {{\n{fields}}}\n\n"
            f"impl {it.name} {{\n    /// All its bytes are 0.\n    pub const ZERO: {it.name} = {it.name} {{\n"
            f"{empty}    }};\n}}\n")


def word(name):
    """A name that is none of Rust's own words."""
    return f"r#{name}" if name in ("type", "where", "match", "move", "use", "ref", "in") else name


def argument(it):
    kind = KINDS.get(it.kind, it.kind)
    return f"{word(it.name)}: {'*const ' if it.is_read else '*mut '}{kind}" if it.is_pointer else f"{word(it.name)}: {kind}"


def call(it, said):
    answer = "" if it.answer == "void" else f" -> {KINDS[it.answer]}"
    return f"{documented(said[it.name], '    ')}    pub fn {it.name}({', '.join(argument(one) for one in it.arguments)}){answer};\n"


def of_header(header):
    """The module of a header."""
    parts = ["".join(number(it) for it in header.numbers), "\n".join(struct(it, header.said) for it in header.structs)]
    parts.append(f'extern "C" {{\n{"".join(call(it, header.said) for it in header.calls)}}}\n')
    text = "\n".join(it for it in parts if it)
    uses = "use core::ffi::c_void;\n" if "c_void" in text else ""
    others = sorted({it.kind for one in header.structs for it in one.fields} | {it.kind for one in header.calls for it in one.arguments})
    own = {it.name for it in header.structs} | {*SIZES}
    if foreign := [it for it in others if it not in own]:
        uses += f"use super::{{{', '.join(foreign)}}};\n"
    head = f"`{header.name}`"
    return f"//! {MADE.format(head)}\n\n{uses}\n{text}".replace("\n\n\n", "\n\n")


def root(headers):
    """The module that has them all."""
    names = [module(it.name) for it in headers]
    return HEAD + "".join(f"mod {it};\n" for it in names) + "\n" + "".join(f"pub use {it}::*;\n" for it in names)


def named(headers):
    """Each answer that has words, by its name without the prefix."""
    outcomes, faults = [], []
    for it in (one for header in headers for one in header.numbers if one.has_words):
        kind, of = ("Fault", faults) if it.value < 0 else ("Outcome", outcomes)
        name = it.name.removeprefix("IPXR_")
        of.append(f"{documented(sentence(it.comment), '    ')}    pub const {name}: {kind} = {kind}(sys::{it.name});\n")
    return (f"//! The names of answers. {MADE.format('the headers')}\n\nuse crate::sys;\nuse crate::{{Fault, Outcome}};\n\n"
            f"impl Outcome {{\n{''.join(outcomes)}}}\n\nimpl Fault {{\n{''.join(faults)}}}\n")


def sentence(text):
    return text[:1].upper() + text[1:] + "."


LAYOUTS_IN_C = """\
/* What C says of the structs of the headers, for tests/layouts.rs: of each struct its size, of each field its place and size. Made of the
 * headers by tools/lib/rust_sys.py: change the headers, and make it again. */
@INCLUDES@
#define FIELD(name, field) offsetof(name, field), sizeof(((name *)0)->field)

extern const size_t ipxr_rust_layouts[@COUNT@];

const size_t ipxr_rust_layouts[@COUNT@] = {
@VALUES@
};
"""
LAYOUTS_IN_RUST = """\
//! Whether Rust lays out each struct as C does. Made of the headers by tools/lib/rust_sys.py: change the headers, and make it again.
use ipxr::sys;

const COUNT: usize = @COUNT@;

extern "C" {
    static ipxr_rust_layouts: [usize; COUNT];
}

/// How many bytes a field has.
fn size<S, F>(_field: fn(&S) -> &F) -> usize {
    size_of::<F>()
}

/// The size of each struct, the place and the size of each of its fields, and their names.
macro_rules! layouts {
    ($($name:ident: $($field:ident)*;)*) => {
        vec![$(
            (stringify!($name), size_of::<sys::$name>()),
            $((concat!(stringify!($name), ", ", stringify!($field)), std::mem::offset_of!(sys::$name, $field)),
              (stringify!($field), size(|it: &sys::$name| &it.$field)),)*
        )*]
    };
}

#[test]
fn structs_lie_as_in_c() {
    let of_rust = layouts! {
@STRUCTS@
    };
    // SAFETY: what C's compiler put there is constant, and has so many numbers.
    let of_c = unsafe { ipxr_rust_layouts };
    assert_eq!(of_rust.len(), COUNT);
    for ((name, in_rust), in_c) in of_rust.into_iter().zip(of_c) {
        assert_eq!(in_rust, in_c, "{name}");
    }
}
"""


def filled(text, **parts):
    return re.sub("@([A-Z]+)@", lambda it: str(parts[it[1].lower()]), text)


def layouts(headers):
    """What C says of the structs, and the test that Rust says the same."""
    all_of_them = [it for header in headers for it in header.structs]
    count = sum(1 + 2 * len(it.fields) for it in all_of_them)
    values, lines = [], []
    for it in all_of_them:
        each = ", ".join([f"sizeof({it.name})", *(f"FIELD({it.name}, {field.name})" for field in it.fields)])
        values += textwrap.wrap(f"{each},", WIDTH, initial_indent="    ", subsequent_indent="        ")
        each = f"{it.name}: {' '.join(word(field.name) for field in it.fields)};"
        lines += textwrap.wrap(each, WIDTH, initial_indent=" " * 8, subsequent_indent=" " * 12)
    includes = "".join(f'#include "{it.name}"\n' for it in headers)
    return (filled(LAYOUTS_IN_C, includes=includes, count=count, values="\n".join(values)),
            filled(LAYOUTS_IN_RUST, count=count, structs="\n".join(lines)))


def files(folder):
    """All that is made of the headers of a folder, by its place in the crate."""
    headers = header_items.headers(folder)
    made = {f"src/sys/{module(it.name)}.rs": of_header(it) for it in headers}
    in_c, in_rust = layouts(headers)
    return {**made, "src/sys.rs": root(headers), "src/named.rs": named(headers), "libipxr/layouts.c": in_c, "tests/layouts.rs": in_rust}


def differing(folder, crate=CRATE):
    """The files of a crate that aren't what the headers of a folder make."""
    return [it for it, text in files(folder).items() if not os.path.isfile(f"{crate}/{it}") or text_of(f"{crate}/{it}") != text]


def make(folder, crate=CRATE):
    """Puts them into a crate."""
    for place, text in files(folder).items():
        os.makedirs(os.path.dirname(f"{crate}/{place}"), exist_ok=True)
        put(f"{crate}/{place}", text)


if __name__ == "__main__":
    make(f"{TOP}/include")
