"""What is read of a release: its numbers, the manual pages, the pages of the crates, links, programs that a page shows, and the words that
shells complete."""
import glob
import os
import posixpath
import re
import tempfile

import layout
from trying import TOP, differs, has, run, tell, text_of

# The folders that are made, and no part of the repository.
MADE = (".git", "build", "dist", "docs/man")
UNRELEASED = "Not released yet"


# ---- Numbers ----


def try_numbers():
    version = layout.version()
    header = dict(re.findall(r'^#define (IPXR_RELEASE|IPXR_VERSION) "?([\d.]+)"?$', text_of("include/ipxr.h"), re.M))
    tell("the header names the release", differs(header.get("IPXR_RELEASE"), version))
    first, second, _ = map(int, version.split("."))
    tell("the release begins with the version of the interface for C", differs(header.get("IPXR_VERSION"), str(first * 65536 + second)))
    headings = re.findall(r"^## (.*)$", text_of("CHANGELOG.md"), re.M)
    # (what isn't released yet may stand above the newest release, and nowhere else)
    released = headings[headings[:1] == [UNRELEASED] :]
    dates = [re.fullmatch(r"(\d+\.\d+\.\d+), \d{4}-\d\d-\d\d", it) for it in released]
    tell("the newest release of the changes is this one", differs(dates and dates[0] and dates[0][1], version))
    tell("each release of the changes has its date", "".join(f"    {it}\n" for it, found in zip(released, dates) if not found))
    for page in ("README.md", "docs/RELEASES.md"):
        named = set(re.findall(r"\bipxr-(\d+\.\d+\.\d+)-", text_of(page)))
        tell(f"the commands of {page} name it, and no other", differs(named, {version}))


# ---- Pages ----


def shown_words():
    """The words of drops, faults and captures that any kept output shows."""
    words = set()
    for file in glob.glob(f"{TOP}/examples/*.out") + glob.glob(f"{TOP}/tests/*/*.transcript") + glob.glob(f"{TOP}/tests/decode/*.out"):
        with open(file, encoding="utf-8", errors="replace") as it:
            text = it.read()
        words |= {part for word in re.findall(r"^drop (\S+)$", text, re.M) for part in word.split(":")}
        words |= set(re.findall(r"^(?:line|record) \d+: (\w+)$", text, re.M))
        words |= {part for found in re.findall(r"^record \d+ (\w+)(?: bad (\w+))?", text, re.M) for part in found if part}
        words |= set(re.findall(r"^(?:rip|sap|crossed) bad (\w+)$", text, re.M))
        words |= set(re.findall(r"^(out|route|copy|limit|quiet|left|net|service|crossed)\b", text, re.M))
    return words


def try_pages():
    pages = dict(layout.tool("tools/pages").pages())
    text = re.sub(r"\\f[BR]", "", pages["man1/ipxr.1"])
    words = shown_words()
    missing = sorted(it for it in words if not re.search(rf"\b{it}\b", text))
    tell(f"ipxr(1) has each of {len(words)} words that outputs show", f"    not {', '.join(missing)}" if missing or not words else "")
    with tempfile.TemporaryDirectory() as folder:
        for place, text in pages.items():
            layout.put(layout.Piece("", place, text.encode()), folder)
        if has("whether mandoc finds fault with the manual pages", "mandoc"):
            said = run("mandoc", "-Tlint", "-Wwarning", *(f"{folder}/{it}" for it in pages))[1]
            tell("mandoc finds nothing wrong with the manual pages", said)
        if has("whether groff shows the manual pages", "groff"):
            # (lines of code may be longer than a terminal's)
            said = "".join(run("groff", "-man", "-Tutf8", "-ww", "-z", "-Wbreak", f"{folder}/{it}")[1] for it in pages)
            tell("groff finds nothing wrong with the manual pages", said)


def try_api():
    pages = dict(layout.tool("tools/api").pages())
    poor = [name for name, text in pages.items() if name != "index.html" and "<summary>contract" not in text]
    tell(f"{len(pages)} pages of the crates are made, with contracts", "".join(f"    {it} has none" for it in poor))


# ---- Links ----


def documents(folder):
    """The documents of a folder, but for what is made there. No link is followed: Wine's folders have one to the whole machine."""
    for at, folders, files in os.walk(folder):
        here = os.path.relpath(at, folder)
        folders[:] = [it for it in folders if posixpath.normpath(f"{here}/{it}") not in MADE]
        yield from (f"{at}/{it}" for it in sorted(files) if it.endswith(".md"))


def broken_links(folder):
    """The links of a folder's documents that lead nowhere."""
    for file in documents(folder):
        with open(file, encoding="utf-8") as it:
            targets = re.findall(r"\]\(([^)#\s]+)(?:#[^)]*)?\)", it.read())
        for target in targets:
            if "://" not in target and not os.path.exists(posixpath.join(os.path.dirname(file), target)):
                yield f"    {os.path.relpath(file, folder)}: {target}\n"


def try_links():
    tell("every link of the documents leads to a file", "".join(broken_links(TOP)))


# ---- Programs ----


def shown_programs():
    """What EMBED.md shows whole and a test builds or runs: each with its text, without the comment at its beginning."""
    of_readme = "".join(re.findall(r"(?ms)^```c\n(.*?)^```$", text_of("README.md")))
    in_c = text_of("tests/embed/readme.c").replace('#include "readme.inc"\n', of_readme)
    yield "the lines of README.md in C", in_c[in_c.index("#include") :]
    yield "the server in JavaScript", text_of("packages/javascript/examples/server.mjs")


def try_shown():
    """A program that is copied from the page is the one that a test builds or runs."""
    page = "\n".join(it.strip() for it in text_of("docs/EMBED.md").splitlines())
    for what, text in shown_programs():
        wanted = "\n".join(it.strip() for it in text.splitlines())
        tell(f"EMBED.md shows {what} as a whole program", "" if f"\n{wanted}\n" in page else "    it has other lines")


# ---- Completions ----

ASKED = {
    "ipxr ": "decode internet replay",
    "ipxr de": "decode",
    "ipxr decode examples/near": "examples/nearest-server.pcap",
    "ipxr replay examples/dr": "examples/drops.script",
    "ipxr internet examples/ri": "examples/ring.internet",
    "ipxr replay -- examples/dr": "examples/drops.script",
    "ipxr replay examples/drops.script ": "",
    "ipxr-gateway --c": "--cards --check",
    "ipxr-gateway --": "--cards --check --example --help --log --pcap --status --status-web --version",
    "ipxr-gateway --check gateway/configuration/ex": "gateway/configuration/example.conf",
    "ipxr-gateway sh": "show",
    "ipxr-gateway tr": "trace try",
    "ipxr-gateway ke": "key",
    "ipxr-gateway show l": "links",
    "ipxr-gateway show events --": "--json --prometheus --status",
    "ipxr-gateway ping 10.7F0000010BB8 ": "--status",
}
IN_BASH = """
source completions/ipxr.bash
read -ra COMP_WORDS <<<"$1"
[ "${1%% }" = "$1" ] || COMP_WORDS+=("")
COMP_CWORD=$((${#COMP_WORDS[@]} - 1))
_${COMP_WORDS[0]//-/_}
printf '%s\\n' "${COMPREPLY[@]}" | sort | xargs
"""
IN_ZSH = """
zmodload zsh/zpty
zpty z "TERM=dumb zsh -f -i"
zpty -w z "fpath=($PWD/completions \\$fpath); autoload -Uz compinit; compinit -u -D; bindkey '^I' complete-word"
zpty -w z "PS1='> '; ipxr() { print -r -- got \\$# \\$@ }; print ready"
zpty -r z line '*ready*ready*'
zpty -w -n z $'ipxr de\\t examples/near\\t\\n'
zpty -r -m z line '*got 2*pcap*' && print -r -- "$line"
"""


def try_completions():
    if has("completion in bash", "bash", "xargs"):
        wrong = [(asked, differs(run("bash", "-c", IN_BASH, "-", asked)[1].strip(), wanted)) for asked, wanted in ASKED.items()]
        tell("bash completes words and files", "".join(f"    '{asked}'\n{why}\n" for asked, why in wrong if why))
    if has("completion in zsh", "zsh"):
        found = run("zsh", "-f", "-c", IN_ZSH, timeout=20)[1]
        tell("zsh completes words and files", "" if "got 2 decode examples/nearest-server.pcap" in found else found)
