"""The package for JavaScript: modules for Node and for pages, with their types and the library as WebAssembly."""
import json
import os
import re
import shutil
import subprocess

import javascript_raw
import layout
import package_checks
import package_headers
import packages
import wasm32
import wasm_modules
from c_library import put, text_of
from libraries import TOP
from systems import HEADERS
from telling import has, left_out, say, tell

# The router's own module, which stands alone in pages, too; its place is promised (docs/STABLE.md).
ROUTER = f"{TOP}/examples/embed/web"
TESTS = f"{TOP}/tests/packages"
WRITTEN = ("raw.mjs", "numbers.mjs")
TSC = ["tsc", "--noEmit", "--strict", "--target", "es2020", "--lib", "es2021,dom", "--module", "node16", "--moduleResolution", "node16"]
# The layouts that the router's module has itself, so that it can stand alone.
LAYOUT = re.compile(r"(?m)^const (\w+) = \{ (.*), size: (\d+) \};|^const (SENT|ROUTE) = \{ (.*) \};")
OF_ROUTER = {"PORT": "ipxr_port", "SENT": "ipxr_packet_sent", "ROUTE": "ipxr_route_record", "SERVICE": "ipxr_service_record",
             "ADDRESS": "ipxr_address", "ROUTE_ENTRY": "ipxr_route_entry", "SERVICE_ENTRY": "ipxr_service_entry"}
# Calls that no word of the package makes, and why.
LEFT_OUT = {f"ipxr_peers_{it}": "gateways that share a network call it from C" for it in ("begin", "hear", "number", "present", "second")}


def make(folder):
    """Puts the package into a folder."""
    packages.copy_sources("javascript", folder)
    for name in ("ipxr.mjs", "ipxr.d.mts"):
        shutil.copy(f"{ROUTER}/{name}", folder)
    read = package_headers.Read(f"{TOP}/build")
    for name, (code, types) in {"raw": javascript_raw.raw(read), "numbers": javascript_raw.numbers(read)}.items():
        put(f"{folder}/{name}.mjs", code)
        put(f"{folder}/{name}.d.mts", types)
    with open(f"{folder}/libipxr.wasm", "wb") as it:
        it.write(wasm32.lowered(wasm_modules.module("ipx_c", headers=HEADERS)))
    os.chmod(f"{folder}/libipxr.wasm", 0o644)


# ---- What is tried where it was made ----


def layouts_of_router(read):
    """What of the layouts in the router's module isn't as the headers say."""
    found = LAYOUT.findall(text_of(f"{ROUTER}/ipxr.mjs"))
    if {it[0] or it[3] for it in found} != OF_ROUTER.keys():
        yield f"the layouts are {[it[0] or it[3] for it in found]}"
    for name, fields, size, other, other_fields in found:
        struct = read.structs[OF_ROUTER[name or other]]
        places = dict(re.findall(r"(\w+): (\d+)", fields or other_fields))
        wanted = {it.name: str(it.place) for it in struct.fields}
        if places != wanted and "...SERVICE" not in fields or size not in ("", str(struct.size)):
            yield f"{struct.name}: {places}"


def names_of_types(folder):
    """What index.d.mts exports that is a value."""
    text = text_of(f"{folder}/index.d.mts")
    lists = re.findall(r"(?m)^export \{([^}]*)\}", text)
    listed = {name.strip() for it in lists for name in it.split(",")}
    numbers = re.findall(r"(?m)^export const (\w+)", text_of(f"{folder}/numbers.d.mts"))
    return listed | {*numbers} | {*re.findall(r"(?m)^export (?:const|class|function) (\w+)", text)}


def names_of_module(folder):
    asked = f"import({json.dumps(f'{folder}/index.mjs')}).then((it) => console.log(Object.keys(it).join(' ')))"
    run = subprocess.run(["node", "-e", asked], stdout=subprocess.PIPE, text=True, check=True)
    return {*run.stdout.split()}


def test_types(folder):
    if not has("tsc"):
        left_out("javascript: the types, by a compiler", "tsc")
        return
    tell("javascript: TypeScript takes the types", packages.runs(*TSC, f"{folder}/index.d.mts", f"{folder}/raw.d.mts"))


def test_made(folder):
    """The layers, and the types."""
    uses = package_checks.names_in(r"\braw\.(ipxr_\w+)", folder, package_checks.modules_in(folder, ".mjs", WRITTEN))
    uses |= package_checks.names_in(r"\bcalls\.(ipxr_\w+)", ROUTER, ["ipxr.mjs"])
    package_checks.see("javascript", uses, LEFT_OUT)
    wrong = [*layouts_of_router(package_headers.Read(package_checks.INCLUDE))]
    tell("javascript: the router's own module has the layouts of the headers", package_checks.complain("a layout", wrong))
    differ = names_of_types(folder) ^ names_of_module(folder)
    tell("javascript: the types have the names of the module, and no other", package_checks.complain("other names", sorted(differ)))
    test_types(folder)


# ---- What is tried of the archive, away from here ----


def installs(folder, app):
    """Whether the package is packed, and installed in another folder from that archive alone."""
    os.makedirs(app)
    put(f"{app}/package.json", '{ "name": "app", "private": true, "type": "module" }\n')
    if not packages.runs("npm", "pack", "--silent", "--pack-destination", os.path.dirname(app), cwd=folder):
        return False
    archive = f"../ipxr-{packages.release()}.tgz"
    return packages.runs("npm", "install", "--offline", "--no-audit", "--no-fund", archive, cwd=app)


def test_installed(app):
    own = f"{app}/node_modules/ipxr"
    for name in os.listdir(f"{own}/examples"):
        shutil.copy(f"{own}/examples/{name}", app)
    for name in ("made_up.mjs", "odd.mjs", "raw.mjs", "readme.mjs"):
        shutil.copy(f"{TESTS}/{name}", app)
    packages.tells_story("javascript", "node", "story.mjs", cwd=app)
    packages.plays_made_up("javascript", "node", "made_up.mjs", cwd=app)
    tell("javascript: what isn't meant is refused", packages.runs("node", "odd.mjs", cwd=app))
    package_checks.calls_file(f"{app}/calls.json")
    tell("javascript: each raw call takes what its header says, and each number is there",
         packages.runs("node", "raw.mjs", "calls.json", cwd=app))
    tell("javascript: the server serves two players", packages.runs("python3", f"{TESTS}/players.py", "node", f"{app}/server.mjs"))
    tell("javascript: the lines of README.md run", packages.runs("node", "readme.mjs", f"{own}/README.md", cwd=app))
    test_pages(app)
    test_program(app)


def test_pages(app):
    """The same program in a page, in each browser that is there."""
    for name, words, missing in layout.tool("tools/web").browsers():
        if None in words or not has(words[0]):
            left_out(f"javascript: a page in {name}", missing or words[0])
            continue
        page = ["node", f"{TESTS}/page.mjs", f"{app}/node_modules/ipxr", f"{app}/story.mjs", *words]
        tell(f"javascript: in a page in {name} it prints the same", packages.says_kept(packages.STORY, *page))


def test_program(app):
    """A program in TypeScript over what was installed: right lines are taken, and wrong ones refused."""
    if not has("tsc"):
        return
    for name in ("right.mts", "wrong.mts"):
        shutil.copy(f"{TESTS}/{name}", app)
    tell("javascript: TypeScript takes a program that uses the package", packages.runs(*TSC, "right.mts", cwd=app))
    run = subprocess.run([*TSC, "wrong.mts"], cwd=app, stdout=subprocess.PIPE, text=True, check=False)
    wanted = {k for k, line in enumerate(text_of(f"{TESTS}/wrong.mts").splitlines(), 1) if line.endswith("// wrong")}
    found = {int(it) for it in re.findall(r"(?m)^wrong\.mts\((\d+),", run.stdout)}
    if wanted != found:
        say(run.stdout)
    tell("javascript: TypeScript refuses what is wrong, and nothing else", wanted == found)


def test(folder):
    """Tries the package of a folder."""
    if not has("node"):
        left_out("javascript", "node")
        return
    test_made(folder)
    if not has("npm"):
        left_out("javascript: the archive", "npm")
        return
    with packages.elsewhere() as away:
        is_installed = installs(folder, f"{away}/app")
        tell("javascript: the archive is installed from itself alone", is_installed)
        if is_installed:
            test_installed(f"{away}/app")
