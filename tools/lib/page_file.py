"""The page as one file: its modules put behind each other, the program, the examples, and a policy that lets it fetch nothing."""
import base64
import glob
import hashlib
import json
import os
import re

TOP = os.path.dirname(os.path.dirname(os.path.dirname(os.path.realpath(__file__))))
SOURCES, MADE = f"{TOP}/page", f"{TOP}/build/ipxr.html"
# The program and the library.
MODULE, LIBRARY = f"{TOP}/build/wasm/ipxr.wasm", f"{TOP}/build/wasm/ipx_c.wasm"
# The module over the library is the one that its users have. Behind its own address it looks for the library, which lies in this page.
SHARED = {"ipxr.mjs": f"{TOP}/examples/embed/web/ipxr.mjs"}
MOST = 1_200_000
IMPORT = re.compile(r'^import \{([^}]*)\} from "\./(\w+\.mjs)";\n', re.MULTILINE)
TOP_NAME = re.compile(r"^(?:export )?(?:async )?(?:function\*?|class|const|let) (\w+)", re.MULTILINE)
TOP_NAMES = re.compile(r"^(?:export )?(?:const|let) \[([^\]]*)\]", re.MULTILINE)
# A line that is nothing but a comment: readers of the sources need it, and the page is smaller without.
COMMENT = re.compile(r"^[ \t]*//.*\n", re.MULTILINE)
EXPORT = re.compile(r"^export (?=(?:async )?(?:function|class|const|let)\b)", re.MULTILINE)


class Wrong(Exception):
    """Sources of which no page can be made."""


def read(name):
    with open(SHARED.get(name, f"{SOURCES}/{name}"), encoding="utf-8") as it:
        return it.read()


def letters(file):
    with open(file, "rb") as it:
        return base64.b64encode(it.read()).decode()


def order(name, found=None):
    """A module's name behind those of all that it imports."""
    found = {} if found is None else found
    if name not in found:
        found[name] = False
        for _, other in IMPORT.findall(read(name)):
            order(other, found)
        found.pop(name)
        found[name] = True
    return list(found)


def names_of(text):
    """The names that a module has outermost."""
    lists = [it.strip() for one in TOP_NAMES.findall(text) for it in one.split(",")]
    return TOP_NAME.findall(text) + lists


def one_module(name):
    """The text of a module in a scope of its own, which hands out what it exports. Modules are many, and some of their inner names are the
    same."""
    text = COMMENT.sub("", read(name))
    exported = [it for one in EXPORT.split(text)[1:] for it in names_of(one)[:1]]
    taken = "".join(f"const {{{what.replace(' as ', ': ')}}} = {scope_of(other)};\n" for what, other in IMPORT.findall(text))
    body = EXPORT.sub("", IMPORT.sub("", text)).replace("import.meta.url", "location.href")
    if re.search(r"^(?:import|export)\b", body, re.MULTILINE):
        raise Wrong(f"page/{name}: an import or export that isn't known here")
    return f"const {scope_of(name)} = (() => {{\n{taken}{body}return {{ {', '.join(exported)} }};\n}})();\n"


def scope_of(name):
    return f"of_{name.removesuffix('.mjs')}"


def script(name):
    """A module and all that it imports as one script."""
    text = '"use strict";\n' + "".join(map(one_module, order(name)))
    if "</script" in text.lower() or "<!--" in text:
        raise Wrong(f"page/{name}: an end of a script inside a script")
    return text


def examples():
    """The examples by their kind and name; captures as base64."""
    found = {"internets": {}, "scripts": {}, "captures": {}}
    for end, kind in ((".internet", "internets"), (".script", "scripts"), (".pcap", "captures")):
        for file in sorted(glob.glob(f"{TOP}/examples/*{end}")):
            with open(file, "rb") as it:
                content = it.read()
            text = base64.b64encode(content).decode() if end == ".pcap" else content.decode("utf-8")
            found[kind][os.path.basename(file).removesuffix(end)] = text
    return json.dumps(found, ensure_ascii=True).replace("<", "\\u003c")


def sum_of(text):
    return f"'sha256-{base64.b64encode(hashlib.sha256(text.encode()).digest()).decode()}'"


def policy(run, style):
    """What the page may do: run its own script, its worker and the program; it may fetch nothing, and nothing may be sent."""
    return "; ".join([
        "default-src 'none'", f"script-src {sum_of(run)} 'wasm-unsafe-eval' blob:", "worker-src blob:", f"style-src {sum_of(style)}",
        "connect-src 'none'", "img-src 'none'", "form-action 'none'", "base-uri 'none'",
    ])


def page():
    """The text of the file."""
    run, style = script("main.mjs"), read("style.css")
    pieces = {
        "POLICY": policy(run, style), "STYLE": style, "SCRIPT": run, "WORKER": script("worker.mjs"), "MODULE": letters(MODULE),
        "LIBRARY": letters(LIBRARY), "EXAMPLES": examples(),
    }
    text = re.sub(r"@([A-Z]+)@", lambda it: pieces[it[1]], read("index.html"))
    if len(text.encode()) > MOST:
        raise Wrong(f"the page has {len(text.encode())} bytes, and {MOST} are allowed")
    return text


def write():
    """Writes the file, and tells how large it is."""
    text = page()
    os.makedirs(os.path.dirname(MADE), exist_ok=True)
    with open(MADE, "w", encoding="utf-8") as it:
        it.write(text)
    return f"build/ipxr.html: {len(text.encode())} bytes"
