"""What the headers of the library for C say, item by item and with their comments: the numbers that they define, their structs and their
calls. Packages for other languages are made of this; how a struct lies, and what a call takes, is in library_header.py."""
import re
from typing import NamedTuple

import library_header
from c_library import text_of
from embed_header import ANSWERS
from systems import HEADERS
from wasm_format import Unknown

ITEM = re.compile(
    r"(?ms)(?P<comment>/\*.*?\*/)"
    r"|^#define (?P<number>IPXR_\w+)(?P<of>\(\w+\))?[ \t]*(?P<value>(?:[^\n/]|/(?!\*))*)(?P<behind>/\*.*?\*/)?"
    r"|^typedef struct (?P<struct>\w+) \{(?P<body>.*?)^\} (?P=struct);"
    r"|^IPXR_CALL \w+ (?P<call>\w+)\(.*?\);"
)
MEMBER = re.compile(r"(?s)(\w+(?: \*)?) ?\b(\w+)(?:\[\d+\])?;[ \t]*(/\*.*?\*/)?")
# A comment that divides a header says nothing of the item behind it.
DIVIDES = re.compile(r"/\* ----|/\* \w+\.h:")
SUM = re.compile(r"[0-9A-Fa-fx()+*/<\- ]+")


class Number(NamedTuple):
    """A number that a header defines: its name, its value, whether it is an answer that has words, and what is said of it."""

    name: str
    value: int
    has_words: bool
    comment: str


class Header(NamedTuple):
    """A header: its name, its numbers, structs and calls in their order, and what is said of each by its name; of the field of a struct by
    both names with a point between them."""

    name: str
    numbers: list
    structs: list
    calls: list
    said: dict


def words_of(comment):
    """The words of a comment, without what makes it one."""
    text = re.sub(r"(?m)^ \* ?|^ +\* ?", "", comment.removeprefix("/*").removesuffix("*/"))
    return re.sub(r"[ \t]*\n[ \t]*", "\n", text).strip()


def value_of(text, known):
    """The value of what defines a number; none of what defines something else."""
    text = re.sub(r"IPXR_\w+", lambda it: str(known.get(it[0], it[0])), text.replace("(uint64_t)", "")).strip()
    if not text or not SUM.fullmatch(text):
        return None
    return eval(text.replace("/", "//"), {"__builtins__": {}})  # pylint: disable=eval-used


def read(folder, name, whole, known):
    """One header. `known` are the numbers of those before it, to which its own are added."""
    text = text_of(f"{folder}/{name}")
    answers = {*ANSWERS[name].findall(text)} if name in ANSWERS else set()
    found, comment, end = Header(name, [], [], [], {}), "", 0
    for it in ITEM.finditer(text):
        if text.count("\n", end, it.start()) > 1:
            comment = ""
        end = it.end()
        if it["comment"]:
            comment = "" if DIVIDES.match(it[0]) else words_of(it[0])
        elif it["struct"]:
            found.structs.append(whole.structs[it["struct"]])
            found.said[it["struct"]] = comment
            found.said.update({f"{it['struct']}.{field}": words_of(behind) for _, field, behind in MEMBER.findall(it["body"])})
        elif it["call"]:
            found.calls.append(next(call for call in whole.calls if call.name == it["call"]))
            found.said[it["call"]] = comment
        elif not it["of"] and (value := value_of(it["value"], known)) is not None:
            known[it["number"]] = value
            said = words_of(it["behind"]) if it["behind"] else comment
            found.numbers.append(Number(it["number"], value, it["number"] in answers, said))
    return found


def headers(folder):
    """All headers of a folder."""
    whole, known = library_header.Headers(folder), {}
    found = [read(folder, it, whole, known) for it in HEADERS]
    for kind in ("structs", "calls"):
        if sum(len(getattr(it, kind)) for it in found) != len(getattr(whole, kind)):
            raise Unknown(f"not all {kind} of the headers were found")
    return found
