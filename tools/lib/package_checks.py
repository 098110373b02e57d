"""One list of calls: whether a package has each call and each number of the headers, and uses it or says why not.

What the packages are written from is read by patterns (package_headers.py). Here a C compiler says what the headers have, so that nothing
is missed that a pattern doesn't know.
"""
import json
import os
import re
import shutil
import subprocess
import tempfile

import package_headers
from c_library import CC, put, text_of
from libraries import TOP
from systems import HEADERS
from telling import has, left_out, say, tell

INCLUDE = f"{TOP}/include"
MACRO = re.compile(r"(?m)^#define (IPXR_\w+)(?:\(| |$)")
GUARD = re.compile(r"IPXR(_[A-Z]+)?_H")
PROTOTYPE = re.compile(r"(?s)\b([a-z]\w+) (ipxr_\w+)\(([^()]*)\);")
# What is added to a header to see that the checks see it.
MORE = "#define IPXR_MORE 5\nIPXR_CALL int32_t ipxr_more(ipxr *router, uint8_t many);\n"


def preprocessed(folder, *words):
    """What a compiler makes of all headers."""
    text = "".join(f'#include "{it}"\n' for it in HEADERS)
    run = subprocess.run([CC, f"-I{folder}", "-E", *words, "-"], input=text, stdout=subprocess.PIPE, text=True, check=True)
    return run.stdout


def macros(folder):
    """The names of all macros that have a value."""
    none = {*package_headers.NO_NUMBERS}
    return {it for it in MACRO.findall(preprocessed(folder, "-dM")) if it not in none and not GUARD.fullmatch(it)}


def words_of(text):
    """A list of arguments without blanks and without `const`, and arrays as pointers."""
    text = re.sub(r"\[\d*\]", "", re.sub(r"(\w+)\[\d*\]", r"*\1", re.sub(r"\bconst\b", " ", text)))
    return [re.sub(r"\s*(\*?)\s*(\w+)$", r" \1\2", " ".join(it.split())).replace(" *", "*", 1) for it in text.split(",")]


def prototypes(folder):
    """For each call what it returns, and its arguments."""
    text = re.sub(r"static __inline.*?\n}", "", preprocessed(folder, "-P"), flags=re.DOTALL)
    return {name: (answer, [] if given.strip() == "void" else words_of(given)) for answer, name, given in PROTOTYPE.findall(text)}


def spoken(call):
    """The same of a call as it was read by patterns."""
    return call.answer, [f"{it.kind}{'*' if it.is_pointer else ' '}{it.name}" for it in call.arguments]


def complain(what, found):
    """Shows what is wrong; returns whether nothing is."""
    for it in found:
        say(f"{what}: {it}")
    return not found


def as_a_compiler_sees(read, folder):
    """Whether numbers, structs and calls were read as a compiler reads them."""
    wanted = prototypes(folder)
    given = {it.name: spoken(it) for it in read.calls}
    wrong = [f"{it} {wanted.get(it)} {given.get(it)}" for it in sorted(wanted.keys() | given.keys()) if wanted.get(it) != given.get(it)]
    is_named = complain("other macros", sorted(macros(folder) ^ {*read.numbers}))
    lines = [f'#include "{it}"\n' for it in ("stddef.h", *HEADERS)]
    lines += [f'_Static_assert({it} == {number}, "{it}");\n' for it, number in read.numbers.items() if isinstance(number, int)]
    for it in read.structs.values():
        lines.append(f'_Static_assert(sizeof({it.name}) == {it.size}, "{it.name}");\n')
        lines += [f'_Static_assert(offsetof({it.name}, {field.name}) == {field.place}, "{it.name}");\n' for field in it.fields]
    run = subprocess.run([CC, "-std=c11", f"-I{folder}", "-fsyntax-only", "-x", "c", "-"], input="".join(lines), text=True, check=False)
    return complain("a call", wrong) and is_named and run.returncode == 0


def unused(read, uses, left_out_calls):
    """Calls that a package's upper layer neither makes nor leaves out; and those that it leaves out and makes, or that there aren't."""
    names = {it.name for it in read.calls}
    return sorted((names - uses - left_out_calls.keys()) | (uses & left_out_calls.keys()) | (left_out_calls.keys() - names))


def names_in(pattern, folder, files):
    """The names that a pattern finds in some files."""
    return {name for file in files for name in re.findall(pattern, text_of(f"{folder}/{file}"))}


def more_read():
    """What is read of headers that have one more call and one more number."""
    with tempfile.TemporaryDirectory() as folder:
        for it in HEADERS:
            shutil.copy(f"{INCLUDE}/{it}", folder)
        text = text_of(f"{INCLUDE}/ipxr.h")
        at = text.index("/* ---- Words ---- */")
        put(f"{folder}/ipxr.h", text[:at] + MORE + text[at:])
        read = package_headers.Read(folder)
        return read, as_a_compiler_sees(read, folder)


def see(kind, uses, left_out_calls):
    """Tells whether a package's layers have what the headers have. `uses` are the calls that the upper layer makes."""
    if not has(CC):
        left_out(f"{kind}: whether its calls are those of the headers", CC)
        return
    read = package_headers.Read(INCLUDE)
    tell(f"{kind}: calls, structs and numbers were read as a C compiler reads them", as_a_compiler_sees(read, INCLUDE))
    missing = unused(read, uses, left_out_calls)
    tell(f"{kind}: each of {len(read.calls)} calls is used, or left out for a reason", complain("neither used nor left out", missing))
    homeless = read.homeless()
    tell(f"{kind}: each of {len(read.numbers)} numbers has its group, stands alone, or is left out for a reason",
         complain("a number without a place", homeless))
    more, is_read = more_read()
    is_seen = unused(more, uses, left_out_calls) == [*missing, "ipxr_more"] and more.homeless() == [*homeless, "IPXR_MORE"]
    tell(f"{kind}: a call and a number that a header gains are seen", is_read and is_seen)


def modules_in(folder, end, written):
    """The files of a folder with an ending, but for those that are written from the headers."""
    return [it for it in sorted(os.listdir(folder)) if it.endswith(end) and it not in written]


def calls_file(name):
    """What the headers have, for the test of the raw layer."""
    read = package_headers.Read(INCLUDE)
    calls = []
    for it in read.calls:
        arguments = [{"name": one.name, "type": one.kind, "isPointer": one.is_pointer} for one in it.arguments]
        calls.append({"name": it.name, "answer": it.answer, "arguments": arguments})
    put(name, json.dumps([calls, read.numbers]))
