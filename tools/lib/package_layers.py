"""One list of calls: whether the upper layer of a package uses each call and each number of the headers, or says why not."""
import re
import shutil
import tempfile

import header_items
from c_library import put, text_of
from libraries import TOP
from systems import HEADERS
from telling import say, tell

INCLUDE = f"{TOP}/include"
# What a header gains in the test: each must be missed.
BEHIND = "/* ---- Words ---- */\n"
MORE = """\
/* ---- More ---- */

/* How many more there are. */
#define IPXR_MORE 5

/* More. */
IPXR_CALL int32_t ipxr_more(ipxr *router);

"""


def missing(headers, text, left_out):
    """What of the headers a text neither names nor leaves out, and what is left out though there is no such thing, or it is named.
    `left_out` has a reason for each pattern of names."""
    names = {it.name for header in headers for it in (*header.numbers, *header.calls)}
    named = {*re.findall(r"\b(?:ipxr|IPXR)_\w+", text)} & names
    found = [f"{it} is neither used nor left out" for it in sorted(names - named) if not any(re.fullmatch(one, it) for one in left_out)]
    for pattern in left_out:
        if not any(re.fullmatch(pattern, it) for it in names - named):
            found.append(f"{pattern} leaves nothing out")
    return found


def grown():
    """A folder with the headers, one of which has a call and a number more."""
    folder = tempfile.TemporaryDirectory()  # pylint: disable=consider-using-with
    for it in HEADERS:
        shutil.copy(f"{INCLUDE}/{it}", folder.name)
    text = text_of(f"{INCLUDE}/ipxr.h")
    put(f"{folder.name}/ipxr.h", text.replace(BEHIND, MORE + BEHIND))
    return folder


def see(kind, text, left_out):
    """Tells whether the upper layer has all, or says why not; and whether it is seen what a header gains."""
    headers = header_items.headers(INCLUDE)
    calls, numbers = (sum(len(getattr(it, what)) for it in headers) for what in ("calls", "numbers"))
    found = missing(headers, text, left_out)
    for it in found:
        say(it)
    tell(f"{kind}: {calls} calls and {numbers} numbers are used, or left out for a reason", not found)
    with grown() as folder:
        more = missing(header_items.headers(folder), text, left_out)
    wanted = {f"{it} is neither used nor left out" for it in ("IPXR_MORE", "ipxr_more")}
    tell(f"{kind}: a call and a number that a header gains are missed", {*more} - {*found} == wanted)
