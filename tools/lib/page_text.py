"""The page of the gateway's status as text of C: gateway/monitoring/page_text.c, made of page.html beside it. A compiler alone can't take in a
file as it is; so this one lies beside the sources, and a test compares what the gateway shows with page.html."""
import base64
import hashlib
import re

from c_library import put, text_of

PAGE = "gateway/monitoring/page.html"
MADE = "gateway/monitoring/page_text.c"
HEAD = """#include "monitoring/page_text.h"

/* (`tools/gateway page` makes this file of page.html) */
const char *const PAGE_LINES[] = {
"""


def in_quotes(line):
    """A line as C has it. (two question marks could begin another character)"""
    text = line.replace("\\", "\\\\").replace('"', '\\"').replace("??", "?\\?")
    return f'"{text}"'


def hash_of(page, tag):
    """What a policy names what stands in the page's only tag of a kind by."""
    (text,) = re.findall(rf"(?s)<{tag}>(.*?)</{tag}>", page)
    return "'sha256-" + base64.b64encode(hashlib.sha256(text.encode()).digest()).decode() + "'"


def policy(page):
    """What a browser lets the page do."""
    return (f"default-src 'none'; script-src {hash_of(page, 'script')}; style-src {hash_of(page, 'style')}; connect-src 'self'; "
            "img-src data:; base-uri 'none'; form-action 'none'; frame-ancestors 'none'")


def text_in_c(page):
    """The file of C."""
    lines = "".join(f"    {in_quotes(it)},\n" for it in page.removesuffix("\n").split("\n"))
    rules = "".join(f"    {in_quotes(it)}\n" for it in policy(page).replace("; ", "; \n").split("\n"))
    return (f"{HEAD}{lines}}};\nconst size_t PAGE_LINE_COUNT = sizeof PAGE_LINES / sizeof *PAGE_LINES;\n\n"
            f"const char PAGE_POLICY[] =\n{rules.removesuffix(chr(10))};\n")


def make():
    """Makes the file anew."""
    put(MADE, text_in_c(text_of(PAGE)))
