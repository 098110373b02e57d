"""Tries the page in each browser that is there, one after the other, and takes pictures of its panes."""
import os
import tempfile

import browsers
import page_checks
import page_edits
import page_file
import page_inputs
import page_plain
import page_readers
from page_file import TOP

PICTURES = f"{TOP}/build/page"
PANES = ("capture", "internet", "router", "packet")
WIDE, NARROW = (1280, 940), (400, 860)
# Pages of memory of WebAssembly, a few more than the program begins with.
FEW_PAGES = 135


def pictures(b, _):
    """pictures of each pane: wide, narrow, and dark"""
    os.makedirs(PICTURES, exist_ok=True)
    for name, size, is_dark in (("wide", WIDE, False), ("dark", WIDE, True), ("narrow", NARROW, False)):
        page_checks.opened(b)
        b.dark(is_dark)
        b.resize(*size)
        for pane in PANES:
            page_checks.shows(b, pane)
            b.run("await new Promise((it) => setTimeout(it, 400))")
            b.waits("!page.programs.some((it) => it.isBusy)")
            page_checks.want(b.run("return document.documentElement.scrollWidth <= innerWidth"),
                f"{pane} is wider than the window ({name})")
            b.looks(f"{PICTURES}/{pane}-{name}.png")
    b.dark(False)
    b.resize(*WIDE)


def no_memory(b, _):
    """out of memory: the program's words are told, and the page goes on"""
    page_checks.opened(b)
    page_checks.shows(b, "internet")
    page_checks.settled(b, "internet")
    lines = page_inputs.content(f"{TOP}/examples/storm.internet").decode()
    page_checks.script(b, "internet", lines)
    page_checks.same(page_checks.told(b), "ipxr: memory", "told")
    page_checks.shows(b, "packet")
    b.waits("document.querySelector('#pane-packet .read .good')")


def rounds():
    """Each browser with what is tried in it; what lacks is told."""
    for name, (open_it, lacks) in browsers.ALL.items():
        wanted = os.environ.get("BROWSERS", name)
        if name not in wanted.split():
            continue
        if lacks():
            print(f"left out: the page in {name} (no {lacks()})")
            continue
        narrow = [*page_plain.NARROW, *page_readers.SMALL, pictures] if name == "chromium" else []
        yield name, open_it, [*page_checks.EVERYWHERE, *page_plain.PLAIN, *page_edits.EDITS, *page_readers.READERS, *narrow]
        if name == "chromium":
            flags = [f"--js-flags=--wasm-max-mem-pages={FEW_PAGES}"]
            yield "chromium with little memory", lambda it: browsers.chromium(it, flags), [no_memory]


def main():
    passed = failed = 0
    if page_file.page() != page_file.page():
        failed += 1
        print("FAILED  made twice, the page differs")
    only = os.environ.get("CHECKS", "").split()
    with tempfile.TemporaryDirectory() as folder:
        for name, open_it, checks in rounds():
            b = open_it(folder)
            try:
                for check in (it for it in checks if not only or it.__name__ in only):
                    why, seconds = page_checks.tried(b, check, folder)
                    passed, failed = passed + (not why), failed + bool(why)
                    print(f"{'FAILED' if why else 'ok    '}  {name}: {check.__doc__} ({seconds:.1f} s)", flush=True)
                    print(f"        {why}\n" if why else "", end="", flush=True)
            finally:
                b.close()
    print(f"{passed} passed, {failed} failed")
    return 1 if failed or not passed else 0
